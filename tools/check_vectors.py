"""Plays the test vectors of the protocol, `docs/vectors/protocol.json`, through `wlb desk` and the C libraries.

The list `about` in the file explains its parts. The tool has an encoder of its own, by the tables of docs/PROTOCOL.md, and checks
with it that each frame's bytes are those of its value. It compares the exchange in docs/PROTOCOL.md with the first conversation.
Then it plays

- `frames` and `faults` through `wlb desk`, which decodes all kinds of frames, and refuses kinds that no kernel sends;
- `brokers` through `wlb desk`, which tells nobody why it drops a message;
- `tabs` through the C library `libwlb_client`, each whole and then byte by byte, and `frames` and `faults` once more;
- `hubs` through the C library `libwlb_hub`.

With `--client` it plays `tabs`, `frames` and `faults` through a client of yours instead, frames and faults behind a Welcome.
`js/lab/vectors.js` is such a client. COMMAND is started for each conversation. It reads a line of JSON for each step: an object with
the action, as a conversation has it, but all bytes as plain hexadecimal digits. It writes a line of JSON for each: an object with the
keys `number`, `gets` and `refused` of the result, `reports` and `sends`. A key that a conversation would not have is left out. After
bytes that are no frame, `refused` is `BAD_FRAME`.

Without an option it takes the program and the libraries that this checkout has built, and says what it leaves out if one is
missing. It prints each difference. The status is 1 if there is one.
"""

import argparse
import contextlib
import ctypes
import json
import os
import pathlib
import re
import shlex
import shutil
import struct
import subprocess
import sys
import threading

import argument_types
from checks import SECONDS, Ended, differences, same
from demo import Body, frames, meaning
from fuzz import Fault, frames_of

TOP = pathlib.Path(__file__).resolve().parent.parent
PROTOCOL = TOP / "docs" / "PROTOCOL.md"
VECTORS = TOP / "docs" / "vectors" / "protocol.json"
HEADER = TOP / "include" / "wlb.h"

# ---- Encoder, by docs/PROTOCOL.md

MODES = {"shared": 1, "exclusive": 2}
STATES = {"held": 1, "waiting": 2}
OPERATIONS = {"request": 1, "release": 2, "abort": 3, "query": 4}
OUTCOMES = {"waiting": 1, "granted": 2, "gone": 3, "taken": 4}


def u8(value):
    return struct.pack(">B", value)


def u16(value):
    return struct.pack(">H", value)


def u32(value):
    return struct.pack(">I", value)


def hex_of(text):
    """Returns the bytes of hexadecimal digits. Spaces do not count, `#` begins a comment, and `78*3` stands for `787878`."""
    made = b""
    for word in text.split("#")[0].split():
        digits, _, count = word.partition("*")
        made += bytes.fromhex(digits) * int(count or 1)
    return made


def short_text(text):
    return u8(len(text.encode())) + text.encode()


def long_text(text):
    return u16(len(text)) + text.encode("ascii")


def data(text):
    return u16(len(hex_of(text))) + hex_of(text)


def operation(command):
    name = command["operation"]
    code = u8(OPERATIONS[name])
    if name == "request":
        return code + u8(MODES[command["mode"]]) + u8(command["if_available"]) + short_text(command["name"])
    return code if name == "query" else code + u32(command["of"])


def entries(rows):
    made = [u32(number) + u8(STATES[state]) + u8(MODES[mode]) + short_text(name) for number, state, mode, name in rows]
    return u16(len(rows)) + b"".join(made)


def snapshot_entries(rows):
    made = [u8(STATES[state]) + u16(tab) + u8(MODES[mode]) + short_text(name) for state, tab, mode, name in rows]
    return u16(len(rows)) + b"".join(made)


def places(rows):
    return u16(len(rows)) + b"".join(u16(tab) + u16(partition) for tab, partition in rows)


def body(value):
    version, kind, fields = KINDS[value["kind"]]
    return u8(version) + u8(kind) + b"".join(field(value[name]) if name else field(value) for name, field in fields)


GENERATION, NUMBER, TAB = ("generation", u32), ("number", u32), ("tab", u16)
BASE, PART, PARTS, ENTRIES = ("base", u32), ("part", u16), ("parts", u16), ("entries", entries)
POST = [NUMBER, ("channel", short_text), ("data", data)]

# The version, the code and the fields of each kind. A field without a name reads several members of the value.
KINDS = {
    "Command": (1, 1, [GENERATION, NUMBER, (None, operation)]),
    "Report": (1, 2, [GENERATION, BASE, ENTRIES]),
    "ReportPart": (2, 2, [GENERATION, BASE, PART, PARTS, ENTRIES]),
    "Post": (1, 3, POST),
    "Hello": (1, 16, [GENERATION]),
    "Answer": (1, 17, [GENERATION, ("upto", u32), NUMBER, ("outcome", lambda outcome: u8(OUTCOMES[outcome]))]),
    "Snapshot": (1, 18, [GENERATION, NUMBER, PART, PARTS, ("entries", snapshot_entries)]),
    "Heard": (1, 19, [("source", u16), *POST]),
    "Welcome": (1, 20, [TAB, ("origin", long_text)]),
    "PairWelcome": (2, 20, [TAB, ("top", long_text), ("own", long_text)]),
    "Stamped": (1, 32, [TAB, ("partition", u16), ("body", body)]),
    "Start": (1, 33, [GENERATION, ("tabs", places)]),
    "Addressed": (1, 34, [TAB, ("body", body)]),
    "Dead": (1, 35, [TAB]),
}


def encode(value):
    made = body(value)
    return u32(len(made)) + made


# ---- The file itself


def same_lists(name, what, found, wanted):
    """Compares two lists of frames, and shows the first that differs."""
    for place, (one, other) in enumerate(zip(found, wanted)):
        if one != other:
            same(name, f"{what}, frame {place},", shown(one), shown(other))
            return
    same(name, f"{what}: the count of frames", len(found), len(wanted))


def shown(frame):
    return f"{frame.hex().upper()} # {meaning(Body(frame[4:]))}"


def fault_in(stream):
    """Returns the good frames of a stream and its fault, by the grammar of `fuzz.py`."""
    count = 0
    try:
        for _frame in frames_of(stream):
            count += 1
    except Fault as fault:
        return count, str(fault)
    return count, None


def check_spelling(vectors):
    """Values and bytes agree, faults are faults of the grammar, and the comment of each frame is its meaning."""
    for vector in vectors["frames"]:
        same(vector["name"], "the frame of the value", encode(vector["value"]).hex().upper(), hex_of(vector["bytes"]).hex().upper())
        same(vector["name"], "the reading", fault_in(hex_of(vector["bytes"])), (1, None))
    for vector in vectors["faults"]:
        same(vector["name"], "the reading", fault_in(hex_of(vector["bytes"])), (vector.get("before", 0), vector["fault"]))
    for part in ["tabs", "brokers", "hubs"]:
        for vector in vectors[part]:
            for text in frames_in(vector["steps"]):
                comment = text.partition("#")[2].strip()
                same(vector["name"], f"the comment of {text}", comment, meaning(Body(hex_of(text)[4:])))


def check_example(vectors):
    """The exchange in PROTOCOL.md is the first conversation of a tab, without the frame that comes again."""
    exchange = re.findall(r"^[<>] ([0-9A-F ]+?)   ", PROTOCOL.read_text(encoding="utf-8"), re.MULTILINE)
    wanted = dict.fromkeys(map(hex_of, frames_in(vectors["tabs"][0]["steps"])))
    same_lists("docs/PROTOCOL.md", "the exchange", [hex_of(text) for text in exchange], list(wanted))


def frames_in(steps):
    """Yields the texts of all frames of a conversation."""
    for step in steps:
        for key in ["receives", "sends"]:
            for frame in step.get(key, []):
                yield frame[1] if isinstance(frame, list) else frame


# ---- The desk


def check_desk_frames(program, vectors):
    """The desk decodes each frame. Of the good ones it takes a Start alone, and another first frame is unexpected."""
    for vector in vectors["frames"]:
        is_start = vector["value"]["kind"] == "Start"
        ended = Ended(program, ["desk"], hex_of(vector["bytes"]))
        same(vector["name"], "the result of the desk", (ended.stderr, ended.status), ("", 0) if is_start else ("wlb: Unexpected\n", 1))
        hellos = [hello_to(tab, vector["value"]["generation"]) for tab, _ in vector["value"]["tabs"]] if is_start else []
        same(vector["name"], "the output of the desk", ended.stdout, b"".join(hellos))


def hello_to(tab, generation):
    return encode({"kind": "Addressed", "tab": tab, "body": {"kind": "Hello", "generation": generation}})


def check_desk_faults(program, vectors):
    for vector in vectors["faults"]:
        if not vector.get("before"):
            ended = Ended(program, ["desk"], hex_of(vector["bytes"]))
            found = (ended.stdout, ended.stderr, ended.status)
            same(vector["name"], "the result of the desk", found, (b"", f"wlb: {vector['fault']}\n", 1))


def check_brokers(program, vectors):
    """The desk answers each frame as the conversation says, and the end of the input ends it."""
    for vector in vectors["brokers"]:
        stream, wanted = b"", []
        for step in vector["steps"]:
            stream += b"".join(map(hex_of, step["receives"]))
            wanted += map(hex_of, step["sends"])
        ended = Ended(program, ["desk"], stream)
        found = [] if ended.stdout is None else list(frames(ended.stdout))
        same_lists(vector["name"], "what the broker sends", found, wanted)
        same(vector["name"], "the end of the desk", (ended.stderr, ended.status), ("", 0))


# ---- The C libraries


def enum_of(name):
    """Returns the constants of an enum of wlb.h by their values."""
    block = HEADER.read_text(encoding="utf-8").partition(f"enum {name} {{")[2].partition("};")[0]
    return {int(value): constant for constant, value in re.findall(r"WLB_(\w+) = (\d+)", block)}


STATUSES, EVENTS = enum_of("wlb_status"), enum_of("wlb_event_kind")
FRAME_BYTES, NAME_BYTES, DATA_BYTES = 65540, 255, 16384
MODE_NAMES = {True: "shared", False: "exclusive"}


class Handle(ctypes.Structure):
    _fields_ = [("at", ctypes.c_void_p), ("full", ctypes.c_bool)]


class Event(ctypes.Structure):
    _fields_ = [("kind", ctypes.c_uint32), ("number", ctypes.c_uint32), ("count", ctypes.c_uint32)]


class Entry(ctypes.Structure):
    _fields_ = [("tab", ctypes.c_uint16), ("shared", ctypes.c_bool), ("held", ctypes.c_bool)]


class Failed(Exception):
    """Status of a call that no vector expects."""


class Library:
    """A handle of one of the libraries, with its functions by their names without the prefix."""

    def __init__(self, folder, part):
        self.library, self.part, self.handle = ctypes.CDLL(str(folder / f"libwlb_{part}.so")), part, Handle()
        self.call("new")

    def status(self, name, *words):
        """Calls a function, and returns the name of its status."""
        function = getattr(self.library, f"wlb_{self.part}_{name}")
        function.restype = ctypes.c_int32
        return STATUSES[function(ctypes.byref(self.handle), *words)]

    def call(self, name, *words, others=()):
        """Calls a function that returns OK or one of the other statuses, and returns the status."""
        status = self.status(name, *words)
        if status not in ("OK", *others):
            raise Failed(f"{name} returns {status}")
        return status

    def free(self):
        free = getattr(self.library, f"wlb_{self.part}_free")
        free.restype = None
        free(ctypes.byref(self.handle))

    def next_bytes(self, name, capacity, *words, others=()):
        """Calls a function that writes bytes. Returns its status and the bytes."""
        out, length = ctypes.create_string_buffer(capacity), ctypes.c_size_t()
        status = self.call(name, *words, out, ctypes.c_size_t(capacity), ctypes.byref(length), others=others)
        return status, out.raw[: length.value]

    def outputs(self, *words):
        """Yields all frames that the handle puts out."""
        while True:
            status, frame = self.next_bytes("next_output", FRAME_BYTES, *words, others=["IDLE", "DROPPED"])
            if status == "IDLE":
                return
            if status == "OK":
                yield frame


def span(content):
    return content, ctypes.c_size_t(len(content))


class Tab(Library):
    """A client, with the actions that a conversation has."""

    def __init__(self, folder, pieces=None):
        super().__init__(folder, "client")
        self.pieces = pieces

    def act(self, action, value):
        """Plays an action, and returns its result."""
        return getattr(self, action)(value)

    def receives(self, texts):
        for piece in self.pieces(b"".join(map(hex_of, texts))):
            self.call("receive", *span(piece))
            while self.call("advance", others=["IDLE"]) == "OK":
                pass
        return {}

    def number_of(self, name, *words):
        number = ctypes.c_uint32()
        status = self.status(name, *words, ctypes.byref(number))
        return {"number": number.value} if status == "OK" else {"refused": status}

    def request(self, words):
        name, mode = words
        return self.number_of("request", *span(name.encode()), ctypes.c_bool(mode == "shared"))

    def probe(self, words):
        name, mode = words
        return self.number_of("probe", *span(name.encode()), ctypes.c_bool(mode == "shared"))

    def query(self, _words):
        return self.number_of("query")

    def plain(self, name, *words):
        status = self.status(name, *words)
        return {} if status == "OK" else {"refused": status}

    def abort(self, number):
        return self.plain("abort", ctypes.c_uint32(number))

    def release(self, number):
        return self.plain("release", ctypes.c_uint32(number))

    def resend(self, _words):
        return self.plain("resend")

    def open(self, name):
        return self.number_of("open_channel", *span(name.encode()))

    def post(self, words):
        channel, text = words
        return self.plain("post", ctypes.c_uint32(channel), *span(hex_of(text)))

    def close(self, channel):
        return self.plain("close_channel", ctypes.c_uint32(channel))

    def read(self, channel):
        source, out, length = ctypes.c_uint16(), ctypes.create_string_buffer(DATA_BYTES), ctypes.c_size_t()
        words = [ctypes.byref(source), out, ctypes.c_size_t(DATA_BYTES), ctypes.byref(length)]
        status = self.status("read", ctypes.c_uint32(channel), *words)
        if status == "OK":
            return {"gets": [source.value, out.raw[: length.value].hex().upper()]}
        return {"gets": None} if status == "IDLE" else {"refused": status}

    def items(self, count):
        number = ctypes.c_uint32()
        for index in range(count):
            self.call("item", ctypes.c_size_t(index), ctypes.byref(number))
            yield number.value

    def entries(self, count):
        entry = Entry()
        for index in range(count):
            _, name = self.next_bytes("entry", NAME_BYTES, ctypes.c_size_t(index), ctypes.byref(entry))
            yield entry.held, [entry.tab, MODE_NAMES[entry.shared], name.decode()]

    def reports(self):
        """Yields all events, as a conversation has them."""
        event = Event()
        while self.call("next_event", ctypes.byref(event), others=["IDLE"]) == "OK":
            kind, number, count = EVENTS[event.kind], event.number, event.count
            if kind == "ENTERED":
                yield {"entered": number, "ended": list(self.items(count))}
            elif kind == "ANSWERED":
                yield {"snapshot": number, **self.snapshot(count)}
            elif kind == "POSTED":
                yield {"posted": list(self.items(count))}
            else:
                yield {kind.lower().replace("_", " "): number}

    def snapshot(self, count):
        rows = list(self.entries(count))
        return {"held": [row for is_held, row in rows if is_held], "pending": [row for is_held, row in rows if not is_held]}


class ForeignTab:
    """A client behind a command that reads and writes lines of JSON."""

    def __init__(self, command):
        self.reported, self.sent = [], []
        self.process = subprocess.Popen(shlex.split(command), stdin=subprocess.PIPE, stdout=subprocess.PIPE, text=True)
        self.guard = threading.Timer(SECONDS, self.process.kill)
        self.guard.start()

    def act(self, action, value):
        """Plays an action, and returns its result."""
        with contextlib.suppress(BrokenPipeError):
            print(json.dumps({action: plain(action, value)}), file=self.process.stdin, flush=True)
        line = self.process.stdout.readline()
        try:
            reply = json.loads(line)
            self.reported += reply.pop("reports", [])
            self.sent += map(bytes.fromhex, reply.pop("sends", []))
        except (ValueError, TypeError, AttributeError):
            raise Failed(f"`{action}` is answered by {line!r}, not by an object of JSON with results, `reports` and `sends`") from None
        return reply

    def reports(self):
        reported, self.reported = self.reported, []
        return reported

    def outputs(self):
        sent, self.sent = self.sent, []
        return sent

    def free(self):
        self.guard.cancel()
        self.process.kill()
        self.process.communicate()


def plain(action, value):
    """Returns the value of an action with all bytes as plain hexadecimal digits."""
    if action == "receives":
        return [hex_of(text).hex().upper() for text in value]
    if action == "post":
        return [value[0], hex_of(value[1]).hex().upper()]
    return value


COMMAND = b"\x01\x01"
RESULTS = ["number", "refused", "gets"]
ACTIONS = ["receives", "request", "probe", "query", "abort", "release", "resend", "open", "post", "read", "close"]


def whole(stream):
    return [stream]


def byte_by_byte(stream):
    return [stream[place : place + 1] for place in range(len(stream))]


def check_tab(tab, vector):
    numbers = set()
    for place, step in enumerate(vector["steps"]):
        name = f"{vector['name']}, step {place}"
        (action,) = [key for key in ACTIONS if key in step]
        for turn in range(step.get("times", 1)):
            result = tab.act(action, step[action])
            wanted = {key: step[key] for key in RESULTS if key in step}
            if "number" in wanted:
                wanted["number"] += turn
            same(name, f"the result of `{action}`", result, wanted)
        same(name, "what the tab reports", list(tab.reports()), step.get("reports", []))
        sent, wanted = list(tab.outputs()), [hex_of(text) for text in step.get("sends", [])]
        if step.get("again"):
            sent = [frame for frame in sent if frame in wanted or not is_repeat(frame, numbers)]
        numbers |= {number_in(frame) for frame in wanted if is_command(frame)}
        same_lists(name, "what the tab sends", sent, wanted)


def is_command(frame):
    return frame[4:6] == COMMAND


def number_in(command):
    return command[10:14]


def is_repeat(frame, numbers):
    """Returns whether a frame is a command with one of the numbers."""
    return is_command(frame) and number_in(frame) in numbers


def check_conversation(tab, vector):
    try:
        check_tab(tab, vector)
    except Failed as failed:
        differences.append(f"{vector['name']}: {failed}")
    tab.free()


def check_tabs(folder, vectors):
    for vector in vectors["tabs"]:
        for pieces in [whole, byte_by_byte]:
            check_conversation(Tab(folder, pieces), vector)
    for vector in vectors["frames"] + vectors["faults"]:
        tab, wanted = Tab(folder), "OK" if vector.get("fault", "Truncated") == "Truncated" else "BAD_FRAME"
        same(vector["name"], "the status of the client", tab.status("receive", *span(hex_of(vector["bytes"]))), wanted)
        tab.free()


# Frame that comes first to a tab.
WELCOME = "0000001401140001000E68747470733A2F2F612E74657374"


def check_client(command, vectors):
    """Plays what a client plays, through a command. A frame or a fault comes behind a Welcome."""
    for vector in vectors["tabs"]:
        check_conversation(ForeignTab(command), vector)
    for vector in vectors["frames"] + vectors["faults"]:
        wanted = {} if vector.get("fault", "Truncated") == "Truncated" else {"refused": "BAD_FRAME"}
        tab = ForeignTab(command)
        try:
            same(vector["name"], "the result of `receives`", tab.act("receives", [WELCOME, vector["bytes"]]), wanted)
        except Failed as failed:
            differences.append(f"{vector['name']}: {failed}")
        tab.free()


class Hub(Library):
    """A hub, with the actions that a conversation has."""

    def __init__(self, folder):
        super().__init__(folder, "hub")

    def advance(self):
        while self.call("advance", others=["IDLE"]) == "OK":
            pass

    def open(self, words):
        """Opens a tab with its URL, or with the URL at the top and its own."""
        tab, *urls = words
        spans = [word for url in urls for word in span(url.encode())]
        self.call("open" if len(urls) == 1 else "open_pair", ctypes.c_uint16(tab), *spans)

    def close(self, tab):
        self.call("close", ctypes.c_uint16(tab))
        self.advance()

    def restart(self, _words):
        self.call("restart")

    def receives(self, frames_of_tabs):
        for tab, text in frames_of_tabs:
            self.call("receive", ctypes.c_uint16(tab), *span(hex_of(text)))
            self.advance()

    def sends(self):
        tab = ctypes.c_uint16()
        return [(tab.value, frame) for frame in self.outputs(ctypes.byref(tab))]


def check_hub(hub, vector):
    for place, step in enumerate(vector["steps"]):
        name = f"{vector['name']}, step {place}"
        (action,) = [key for key in ("open", "close", "restart", "receives") if key in step]
        getattr(hub, action)(step[action])
        found, wanted = hub.sends(), [(tab, hex_of(text)) for tab, text in step["sends"]]
        same(name, "the tabs to which the hub sends", [tab for tab, _ in found], [tab for tab, _ in wanted])
        same_lists(name, "what the hub sends", [frame for _, frame in found], [frame for _, frame in wanted])


def check_hub_conversation(hub, vector):
    try:
        check_hub(hub, vector)
    except Failed as failed:
        differences.append(f"{vector['name']}: {failed}")
    hub.free()


def check_hubs(folder, vectors):
    for vector in vectors["hubs"]:
        check_hub_conversation(Hub(folder), vector)


# ---- The command line


def play(vectors, program, libraries):
    check_spelling(vectors)
    check_example(vectors)
    if program:
        check_desk_frames(program, vectors)
        check_desk_faults(program, vectors)
        check_brokers(program, vectors)
    if libraries:
        check_tabs(libraries, vectors)
        check_hubs(libraries, vectors)


def main():
    parser = argparse.ArgumentParser(description=__doc__, formatter_class=argparse.RawDescriptionHelpFormatter)
    parser.add_argument("--program", metavar="PROGRAM", type=argument_types.program, help="play what a desk plays, with this program `wlb`")
    parser.add_argument("--libraries", metavar="FOLDER", type=argument_types.folder, help="play tabs and hubs, with the C libraries of this folder")
    parser.add_argument("--client", metavar="COMMAND", help="play tabs, frames and faults, with this client")
    parser.add_argument("--vectors", metavar="FILE", type=argument_types.file, default=VECTORS, help="the file of vectors")
    given = parser.parse_args()
    program, libraries = given.program, given.libraries
    if not (program or libraries or given.client):
        program, libraries = TOP / "crates" / "wlb" / "out" / "wlb", TOP / "build"
        if not program.is_file():
            print("check_vectors: frames and brokers are left out: `make build` builds the program")
            program = None
        if not (libraries / "libwlb_client.so").exists():
            print("check_vectors: tabs and hubs are left out: `make lib` builds the libraries")
            libraries = None
    if libraries and not (libraries / "libwlb_client.so").exists():
        parser.error(f"the folder {libraries} has no libwlb_client.so: `make lib` writes it to the folder `build`")
    try:
        vectors = json.loads(given.vectors.read_text(encoding="utf-8"))
    except ValueError as error:
        sys.exit(f"check_vectors: {given.vectors} is no JSON in UTF-8: {error}")
    play(vectors, program and os.path.abspath(program), libraries and libraries.absolute())
    if given.client:
        if not shutil.which(shlex.split(given.client)[0]):
            parser.error(f"argument --client: there is no command {shlex.split(given.client)[0]}")
        check_client(given.client, vectors)
    for difference in differences:
        print(difference)
    sys.exit(1 if differences else 0)


if __name__ == "__main__":
    main()
