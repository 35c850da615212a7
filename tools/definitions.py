"""Makes docs/DEFINITIONS.md: the index from the sections of public standards to the definitions that contracts cite.

The comments of the definitions, `crates/*/specs/*.antt`, name the sections from which they come. The tool reads them. A comment
directly before a definition is about that definition. For the head of a file, and for a heading in it, `HEADS` below says which
definitions are meant. `BESIDE` has definitions that stand for a section and do not say so, and `TERMS` those of no standard.

In docs/GUARANTEES.md it counts the lines of the files that the reading order names, in tens. Each definition that is quoted
there has to stand in a file of definitions.

Without an option it writes both documents. With `--check` it compares them with what it would write: it prints each line that
differs, and the status is 1 if there is one. A definition that is gone, or a section that this file does not list, is an error.
"""

import argparse
import difflib
import pathlib
import re
import sys

TOP = pathlib.Path(__file__).resolve().parent.parent
CRATES = TOP / "crates"
INDEX = TOP / "docs" / "DEFINITIONS.md"
GUARANTEES = TOP / "docs" / "GUARANTEES.md"

# The standards, by their names in comments: title, address, and sections in the order of the standard. A section is what a reader
# of the standard looks for, with the words by which comments name it.
STANDARDS = {
    "Web Locks": (
        "Web Locks API",
        "https://w3c.github.io/web-locks/",
        {
            '"lock manager"': ["lock manager"],
            '"LockMode"': ["LockMode"],
            '"grantable"': ["grantable"],
            '"request()"': ["request"],
            '"query()"': ["query"],
            '"request a lock"': ["request a lock"],
            '"release the lock"': ["release the lock"],
            '"abort the request"': ["abort the request"],
            '"process the lock request queue"': ["process the lock request queue"],
            '"snapshot the lock state"': ["snapshot the lock state"],
            '"terminate remaining locks and requests"': ["terminate remaining locks and requests"],
        },
    ),
    "HTML Standard": (
        "HTML Standard",
        "https://html.spec.whatwg.org/multipage/web-messaging.html",
        {'9.5, "Broadcasting to other browsing contexts"': ["9.5", "Broadcasting to other browsing contexts", "BroadcastChannel"]},
    ),
    "RFC 6454": (
        "RFC 6454, with the origins of the URL Standard",
        "https://www.rfc-editor.org/rfc/rfc6454",
        {
            '3, "Principles of the Same-Origin Policy"': ["3"],
            '4, "Origin of a URI"': ["4"],
            '5, "Comparing Origins"': ["5"],
            '6.2, "ASCII Serialization of an Origin"': ["6.2"],
        },
    ),
}

# Definitions that the head of a file or a heading in it speaks of, by the file and the words of the section.
HEADS = {
    ("wl_agent/specs/AgentLaws.antt", "query"): ["WholeOnceAllCame"],
    ("wl_agent/specs/SnapshotParts.antt", "snapshot the lock state"): ["is_whole", "snapshot_of"],
    ("wl_broadcast/specs/Channels.antt", "9.5"): ["ChannelState", "Object", "opened", "posted", "heard", "read_at", "closed_at"],
    ("wl_broadcast/specs/Heard.antt", "BroadcastChannel"): [
        "TakesRising",
        "TakesPosts",
        "ClosedTakesNothing",
        "ReadsInOrder",
        "DeliversNew",
    ],
    ("wl_draft/specs/Locks.antt", "process the lock request queue"): ["settle"],
    ("wl_draft/specs/Settling.antt", "process the lock request queue"): [
        "IsSettled",
        "GrantsWhatIsFree",
        "GrantsPrefixes",
        "MovesGrants",
        "SettlesByName",
    ],
    ("wl_library_model/specs/Channels.antt", "9.5"): ["HeardArePosts", "HeardRising", "HeardTillClosed"],
    ("wl_origin/specs/Partition.antt", "4"): ["partition_of", "partition_of_pair"],
    ("wl_script_words/specs/Snapshots.antt", "snapshot the lock state"): ["json_text"],
    ("wl_world_model/specs/Apart.antt", "3"): ["part", "projected", "RunsApart"],
    ("wl_world_model/specs/Heard.antt", "9.5"): ["HeardRising", "HeardPosts", "HeardTillClosed", "HeardIsRead"],
}

# Definitions of a section whose comments do not name it, by the standard and the words of the section.
BESIDE = [
    ("Web Locks", "LockMode", "wl_draft/src/mode.rt", ["Mode"]),
    ("RFC 6454", "4", "wl_origin/src/tuple_origin.rt", ["TupleOrigin"]),
]

# Terms of no standard, in the order in which a reader needs them.
TERMS = [
    ("table of numbered rows", "wl_draft/specs/Tables.antt", ["Table", "find", "put"]),
    ("a report's entries in a lock manager", "wl_draft/specs/Locks.antt", ["restored"]),
    ("frame, well-formed; its bytes", "wl_grammar/specs/Grammar.antt", ["IsWellFormed", "body", "spelling"]),
    ("reading of a stream of bytes", "wl_frames/specs/Stream.antt", ["Reads", "Stop"]),
    ("tab: commands, statuses, generation", "wl_agent/specs/Tab.antt", ["TabState", "enter", "report_of", "due"]),
    ("effect of a frame on a tab", "wl_agent/specs/Delivery.antt", ["delivery"]),
    ("report, which may come in parts", "wl_broker_reports/specs/ReportParts.antt", ["Told", "Partial", "Whole"]),
    ("broker: recovery, drops, answers", "wl_broker/specs/Broker.antt", ["started", "is_active", "taking", "death_step"]),
    ("shard", "wl_broker/specs/Shards.antt", ["SeenAtEachShard", "InOneOrder"]),
    ("kernel: tabs, partition numbers, generations", "wl_kernel/specs/Kernel.antt", ["KernelState", "opened", "killed", "start_refusal"]),
    ("route of a frame through the kernel", "wl_kernel/specs/Routes.antt", ["routed_up", "route_down_refusal"]),
    ("laws of the kernel", "wl_kernel/specs/KernelLaws.antt", ["OpensOnce", "DeadForGood", "HeardByTheOthers"]),
    ("supervisor: whether a broker is up", "wl_kernel/specs/SupervisorStates.antt", ["IsReached", "begun", "halted"]),
    (
        "start, stop, message, death",
        "wl_supervised_broker/specs/Changes.antt",
        ["start_change", "stop_change", "message_change", "death_change"],
    ),
    ("message, bag of all messages", "wl_world_messages/specs/Messages.antt", ["is_sent", "sent_all"]),
    ("world, event, run", "wl_world_model/specs/World.antt", ["WorldState", "after_event", "run"]),
    ("reply to an event", "wl_world_model/specs/Replies.antt", ["reply_of"]),
    ("holding, honest, own", "wl_world_model/specs/Holdings.antt", ["IsHolding", "IsHonest", "Own"]),
    ("taken list of a generation, and its locks", "wl_world_model/specs/Orders.antt", ["picked", "managed"]),
    (
        "order of commands, grants, locks of a generation",
        "wl_world_model/specs/Orders.antt",
        ["CommandsInOrder", "GrantedWereHeld", "GrantsWereSent", "ManagerIsFold"],
    ),
    ("compromised tab", "wl_world_model/specs/Hostile.antt", ["HonestIfUnnamed", "MovesOwnAlone"]),
    ("hub", "wl_hub/specs/Hub.antt", ["HubState", "advanced", "hub_restarted"]),
    ("client", "wl_client/specs/Client.antt", ["ClientState", "advanced"]),
    ("library: hub, clients and links; step", "wl_library_model/specs/Library.antt", ["Library", "Step", "step"]),
    ("events of a step", "wl_library_model/specs/Events.antt", ["events"]),
    ("library and run in step", "wl_library_model/specs/Simulation.antt", ["IsRunOfItsEvents"]),
    ("progress", "wl_library_model/specs/Progress.antt", ["RequestsAreGranted", "NewTabsJoin", "NewTabsAreServed"]),
    ("channels, if no tab opens while a post is on its way", "wl_library_model/specs/Timely.antt", ["ChannelsAreRuns"]),
    ("board, and the words of its seats", "wl_board/specs/BoardRule.antt", ["IsOrderly"]),
    ("outbox", "wl_outbox/specs/OutboxRule.antt", ["IsOrderly"]),
    ("book, receipt, history", "wl_locked/specs/History.antt", ["IsReplay"]),
    ("desk", "wl_workers/specs/Desk.antt", ["Runs"]),
    ("lane", "wl_workers/specs/Lane.antt", ["RunsLane"]),
    ("both ends of a tab's link", "wl_workers/specs/TabReader.antt", ["ReadsTab"]),
    ("line and run of a sim's script", "wl_script/specs/Sim.antt", ["Runs"]),
    ("orders for the broker's keeper", "wl_process_rules/specs/BrokerKeeping.antt", ["TellsTheFirst", "MissesWhatRuns"]),
    ("Hello that is owed", "wl_process_rules/specs/OwedHello.antt", ["OwesTheLatest"]),
    ("order in which a shard's frames leave the broker", "wl_process_rules/specs/ShardOutput.antt", ["LeavesInOrder"]),
    ("limits of the standards and the protocol", "wl_limits/src/laws.rt", ["law_limits"]),
]

HEAD = """# Definitions

Index from sections of standards to the definitions that contracts cite, in files under `crates`. `tools/definitions.py` writes
it, mostly from comments; `make test` compares it. [GUARANTEES](GUARANTEES.md#for-auditors) has the order in which to read the
definitions behind the promises; [GLOSSARY](GLOSSARY.md) explains the words.
"""

CITATION = re.compile(r"\(([^()]*)\)")
DEFINED = re.compile(r"(?:abbrev|unfoldable|opaque|pub) (?:pub )?(?:record |data )?([A-Za-z_][A-Za-z_0-9]*)")
PUBLIC = re.compile(r"^(?:(?:abbrev|unfoldable|opaque) )?pub (?:record |data )?([A-Za-z_][A-Za-z_0-9]*)", re.MULTILINE)
PUBLIC_CODE = re.compile(r"pub (?:struct|enum|trait|fn|const|type) ([A-Za-z_0-9]+)")
faults = []


def text_of(path):
    return path.read_text(encoding="utf-8")


def comments(path):
    """Returns each comment of a definition file in one line, with the name that is defined directly behind it, or None."""
    lines, found, text = text_of(path).split("\n"), [], []
    for line in lines:
        if line.startswith("--"):
            text.append(line[2:].strip())
            continue
        if text:
            defined = DEFINED.match(line)
            found.append((" ".join(text), defined and defined.group(1)))
        text = []
    return found


def section_of(standard, words):
    """Returns the section that these words name."""
    for section, names in STANDARDS[standard][2].items():
        if words in names:
            return section
    return None


def cited(text):
    """Yields each standard that a comment cites, with the words that name the section."""
    for inner in CITATION.findall(text):
        for standard in STANDARDS:
            if inner.startswith(standard):
                rest = inner[len(standard) :]
                number, title = re.search(r"\d+(?:\.\d+)*", rest), re.search(r'"([^"]+)"', rest)
                if number or title:
                    yield standard, number.group() if number else title.group(1)


def names_in(path):
    """Returns the names that a file makes public."""
    return set((PUBLIC_CODE if path.suffix == ".rt" else PUBLIC).findall(text_of(path)))


def lacking(file, names):
    """Returns the names that a file does not have."""
    path = CRATES / file
    return [name for name in names if not path.is_file() or name not in names_in(path)]


def rows_of_standards():
    """Returns, by standard and section, the definitions as pairs of a file and names."""
    rows = {(standard, section): {} for standard in STANDARDS for section in STANDARDS[standard][2]}

    def add(standard, words, file, names):
        section = section_of(standard, words)
        if section is None:
            faults.append(f"crates/{file}: {standard} {words!r} is no section that tools/definitions.py lists in STANDARDS")
            return
        for name in lacking(file, names):
            faults.append(f"crates/{file} defines no {name}, which tools/definitions.py names for {standard} {words!r}")
        row = rows[standard, section].setdefault(file, [])
        row.extend(name for name in names if name not in row)

    unused = set(HEADS)
    lowest_first = re.findall(r"^(\w+)", text_of(TOP / "crates.txt"), re.MULTILINE)
    for path in sorted(CRATES.glob("*/specs/*.antt"), key=lambda path: (lowest_first.index(path.parts[-3]), path)):
        file = path.relative_to(CRATES).as_posix()
        for text, name in comments(path):
            for standard, words in cited(text):
                if name:
                    add(standard, words, file, [name])
                elif (file, words) in HEADS:
                    unused.discard((file, words))
                    add(standard, words, file, HEADS[file, words])
                else:
                    faults.append(f"crates/{file} cites {standard} {words!r} in a head or heading: name its definitions in HEADS")
    for file, words in sorted(unused):
        faults.append(f"crates/{file} does not cite {words!r}: take it out of HEADS")
    for standard, words, file, names in BESIDE:
        add(standard, words, file, names)
    return rows


def quoted(names):
    return ", ".join(f"`{name}`" for name in names)


def index():
    """Returns the text of docs/DEFINITIONS.md."""
    rows, lines = rows_of_standards(), [HEAD]
    for standard, (title, address, sections) in STANDARDS.items():
        lines += [f"## [{title}]({address})\n", "| Section | Definitions | File |", "|---|---|---|"]
        for section in sections:
            shown = section
            for file, names in rows[standard, section].items():
                lines.append(f"| {shown} | {quoted(names)} | `{file}` |")
                shown = ""
        lines.append("")
    lines += ["## Of no standard\n", "| Term | Definitions | File |", "|---|---|---|"]
    for term, file, names in TERMS:
        for name in lacking(file, names):
            faults.append(f"crates/{file} defines no {name}, which tools/definitions.py names for {term!r}")
        lines.append(f"| {term} | {quoted(names)} | `{file}` |")
    return "\n".join(lines) + "\n"


def files_in(cell):
    """Returns the files of a table's cell. A name without a folder stands in the folder of the one before it."""
    files, folder = [], CRATES
    for name in re.findall(r"`([^`]+\.(?:antt|rt))`", cell):
        path = CRATES / name if "/" in name else folder / name
        folder = path.parent
        files.append(path)
    return files


def counted(text):
    """Returns the guarantees with the lines of each row of the reading order, in tens."""
    lines, column = [], None
    for line in text.split("\n"):
        cells = line.split(" | ")
        if line.startswith("|") and "Lines" in cells:
            column = cells.index("Lines")
        elif not line.startswith("|"):
            column = None
        elif column is not None and column < len(cells) and not line.startswith("|---"):
            files = files_in(line)
            missing = [path for path in files if not path.is_file()]
            for path in missing:
                faults.append(f"docs/GUARANTEES.md names {path.relative_to(TOP)}, which does not exist")
            if files and not missing:
                count = sum(len(text_of(path).splitlines()) for path in files)
                cells[column] = str(max(10, (count + 5) // 10 * 10))
                line = " | ".join(cells)
        lines.append(line)
    return "\n".join(lines)


def check_quotes(text):
    """Notes each quoted definition that no file of definitions has."""
    sources = [text_of(path) for path in CRATES.glob("*/specs/*.antt")]
    for quote in re.findall(r"^```text\n(.*?)^```", text, re.MULTILINE | re.DOTALL):
        if not any(quote in source for source in sources):
            faults.append(f"docs/GUARANTEES.md quotes a definition that stands nowhere: {quote.splitlines()[0]}")


def main():
    parser = argparse.ArgumentParser(description=__doc__, formatter_class=argparse.RawDescriptionHelpFormatter)
    parser.add_argument("--check", action="store_true", help="compare the documents, and write nothing")
    given = parser.parse_args()
    guarantees = text_of(GUARANTEES)
    check_quotes(guarantees)
    made = [(INDEX, index()), (GUARANTEES, counted(guarantees))]
    for fault in faults:
        print(fault)
    if faults:
        sys.exit(1)
    is_same = True
    for path, text in made:
        if not given.check:
            path.write_text(text, encoding="utf-8")
            continue
        found = text_of(path) if path.is_file() else ""
        name = path.relative_to(TOP).as_posix()
        made_by = f"{name} by tools/definitions.py"
        for line in difflib.unified_diff(found.split("\n"), text.split("\n"), name, made_by, lineterm="", n=0):
            print(line)
            is_same = False
    if not is_same:
        print("`python3 tools/definitions.py` writes what the tool makes")
    sys.exit(0 if is_same else 1)


if __name__ == "__main__":
    main()
