"""Checks the C libraries of `wlb` as a C program uses them.

It installs the header and the libraries into a temporary folder by `make install`. With `--unproved` it takes those of FOLDER instead,
as `tools/unproved.py --sanitize` writes them: then the address sanitizer is in the libraries, too.

It compiles the programs in `examples/c` and plays them, with and without sanitizers: `in_process` has to print the file beside it, and
each run of `browser` has to lose no update, also if the browser process is refused memory at random. The program in `README.md` has to
run. It compares the header's limits and statuses with the constants of the crates, the header's functions with the names that the
shared libraries export, and compiles the header as C++. `wlb_build` has to say whether the libraries are proved, and `library.py` has
to refuse what is not. `check_vectors.py` plays the test vectors of the protocol through the shared libraries, and `refused_calls.py`
plays them with allocations refused. `library_edges.c` plays the edge cases of every function, and `fuzz_library.c` gives hub and client
random and mutated bytes under the address sanitizer. The fuzzer has to find the wrong libraries of `wrong_library.c`. `quiesce.c` plays
random histories of hub and clients: once all bytes have arrived, no request waits for nothing. It has to fail over links that lose frames.

It prints each difference, and last how many checks passed and failed. The status is 1 if there is a difference. It needs `make`, `rt`,
a C compiler `cc`, the binutils and `pkg-config`. Without a C++ compiler `c++` it leaves that part out.
"""

import argparse
import contextlib
import itertools
import os
import pathlib
import re
import shutil
import signal
import subprocess
import sys
import tempfile
import time

import argument_types
import packages
from archive import proof_of
from checks import differences, readme_block, same
from library import BUILD_FUNCTION, HEADER, LIBRARIES, PROVED, TOP, UNPROVED, functions_of
from rlibs import kit_line
from unproved import SANITIZED

TOOLS = TOP / "tools"
EXAMPLES = TOP / "examples" / "c"
SECONDS = 120

FLAGS = ["-std=c11", "-D_POSIX_C_SOURCE=200809L", "-Wall", "-Wextra", "-Werror", "-O1", "-g"]
SANITIZERS = ["-fsanitize=address,undefined", "-fno-sanitize-recover=all"]
# Renderers and rounds of a run of `browser`, and whether one more renderer does not read.
RUNS = [(1, 1, False), (2, 9, False), (4, 12, False), (4, 12, True), (9, 5, True), (30, 2, False)]

# Which part of the fuzzer plays over which wrong library of `wrong_library.c`, and its status. Library 0 is right.
WRONG = [("hub", 0, 0), ("client", 0, 0), ("hub", 1, 1), ("hub", 2, 1), ("client", 3, 1)]

# Histories that `quiesce.c` plays, and most seconds of a batch of them.
HISTORIES, BATCH_SECONDS = 2_000, 600
RESTED = re.compile(r"\d+ histories, .* [1-9]\d* restarts, .*; [1-9]\d* partitions at rest with [1-9]\d* held and [1-9]\d* waiting\n")

# Each limit of the header with the constant of a crate that it repeats, and what is added to that.
LIMITS = {
    "WLB_FRAME_BYTES": ("BODY_LIMIT", 4),
    "WLB_NAME_BYTES": ("NAME_LIMIT", 0),
    "WLB_DATA_BYTES": ("DATA_LIMIT", 0),
    "WLB_URL_BYTES": ("URL_LIMIT", 0),
    "WLB_LIVING_TABS": ("LIVING_LIMIT", 0),
    "WLB_PARTITION_TABS": ("PARTITION_LIMIT", 0),
    "WLB_LAST_TAB": ("LAST_TAB", 0),
    "WLB_LAST_GENERATION": ("LAST_GENERATION", 0),
    "WLB_LIVE_NUMBERS": ("LIVE_LIMIT", 0),
    "WLB_PAIR_LIVE_NUMBERS": ("LIVE_LIMIT_IN_PARTS", 0),
    "WLB_COMMANDS": ("COMMAND_LIMIT", 0),
    "WLB_CHANNELS": ("CHANNEL_LIMIT", 0),
    "WLB_POSTS": ("POST_LIMIT", 0),
    "WLB_INBOX": ("INBOX_LIMIT", 0),
}


class Libraries:
    """Header and libraries, and the programs that are compiled with them.

    `plain` is the folder of libraries that any process can load, and `tested` that of the libraries of the programs. A build is a list
    of compiler flags and whether the program is linked with the archives. All programs are compiled with the flags `always`."""

    def __init__(self, folder, plain, tested, package, builds, always):
        self.folder, self.plain, self.tested, self.package = pathlib.Path(folder), plain, tested, package
        self.builds, self.always = builds, always
        self.environment = {**os.environ, "LD_LIBRARY_PATH": str(tested)}

    def pkg_config(self, *words):
        environment = {**os.environ, "PKG_CONFIG_PATH": str(self.package)}
        ran = subprocess.run(["pkg-config", *words, "wlb"], env=environment, capture_output=True, text=True, check=True)
        return ran.stdout.split()

    def compile(self, source, *flags, is_static=False, name=None):
        """Compiles a program and returns its path, or None after a difference."""
        program = self.folder / (name or f"{source.stem}{'-static' if is_static else ''}{'-sanitized' if flags else ''}")
        libraries = self.pkg_config("--cflags", "--libs")
        if is_static:
            archives = [self.tested / f"lib{name}.a" for name in LIBRARIES]
            libraries = [*self.pkg_config("--cflags"), *archives]
        ran = run(["cc", *FLAGS, *self.always, *flags, "-o", program, source, *libraries])
        same(f"cc {source.name}", "standard error", ran.stderr, "")
        return program if ran.returncode == 0 else None

    def play(self, program, *words):
        return run([program, *words], env=self.environment)


class Installed(Libraries):
    """Proved libraries, as `make install` installs them."""

    def __init__(self, folder, archives):
        prefix = pathlib.Path(folder) / "prefix"
        words = ["make", "-s", "-C", TOP, "install", f"PREFIX={prefix}", f"BUILD={pathlib.Path(folder) / 'build'}"]
        words += [f"ARCHIVES={' '.join(str(one.absolute()) for one in archives)}"] if archives else []
        if subprocess.run(words, check=False).returncode:
            sys.exit("check_library: `make install` failed")
        lib = prefix / "lib"
        super().__init__(folder, lib, lib, lib / "pkgconfig", [([], False), ([], True), (SANITIZERS, True)], [])
        self.archives = archives or [TOP / "crates" / name / "out" for name in LIBRARIES]
        self.says = f"{PROVED}, {proof_of(LIBRARIES[0], self.archives[0]).kit if archives else kit_line()}"


class Unproved(Libraries):
    """Libraries that are compiled with nothing proved."""

    def __init__(self, folder, built):
        sanitized = built / SANITIZED
        if not (sanitized / "wlb.pc").is_file():
            sys.exit(f"check_library: {built} has no sanitized libraries: `python3 tools/unproved.py --sanitize {built}` makes them")
        super().__init__(folder, built, sanitized, sanitized, [([], False), ([], True)], SANITIZERS)
        self.says = f"{UNPROVED}, {kit_line()}"


def run(words, seconds=SECONDS, **how):
    """Runs a program in a session of its own. Ends all processes of the session that are left, also when its time is up."""
    words = [str(word) for word in words]
    pipes = {"stdin": subprocess.DEVNULL, "stdout": subprocess.PIPE, "stderr": subprocess.PIPE, "text": True}
    process = subprocess.Popen(words, start_new_session=True, **pipes, **how)
    try:
        stdout, stderr = process.communicate(timeout=seconds)
    except subprocess.TimeoutExpired:
        os.killpg(process.pid, signal.SIGKILL)
        stdout, stderr = process.communicate()
        differences.append(f"{' '.join(words)}: it did not end within {seconds} seconds")
    with contextlib.suppress(ProcessLookupError):
        os.killpg(process.pid, signal.SIGKILL)
        differences.append(f"{' '.join(words)}: a process was left")
    return subprocess.CompletedProcess(words, process.returncode, stdout, stderr)


def builds_of(installed, source):
    """Yields the program over the shared libraries and over the archives, with sanitizers in one build at least."""
    for flags, is_static in installed.builds:
        program = installed.compile(source, *flags, is_static=is_static)
        if program:
            yield program


def same_names(name, what, found, wanted):
    same(name, f"the list of unexpected {what}", sorted(set(found) - set(wanted)), [])
    same(name, f"the list of missing {what}", sorted(set(wanted) - set(found)), [])


def ends(name, ran, stdout):
    """Compares the first line of the output that differs, standard error and the status."""
    for line, (found, wanted) in enumerate(itertools.zip_longest(ran.stdout.splitlines(), stdout.splitlines()), 1):
        if found != wanted:
            same(name, f"line {line} of standard output", found, wanted)
            break
    same(name, "standard error", ran.stderr, "")
    same(name, "the status", ran.returncode, 0)


# ---- The header and the names


def check_limits(installed):
    """The header's limits are the constants of the crates."""
    constants = {}
    for file in TOP.glob("crates/wl_*/src/*.rt"):
        for name, value in re.findall(r"pub const (\w+): \w+ = ([\d_]+);", file.read_text(encoding="utf-8")):
            constants.setdefault(name, set()).add(int(value))
    named = re.findall(r"^#define (WLB_\w+) \d+", HEADER.read_text(encoding="utf-8"), re.MULTILINE)
    same_names("wlb.h", "limits", named, LIMITS)
    source = installed.folder / "limits.c"
    lines = "".join(f'    printf("{name} %lld\\n", (long long){name});\n' for name in LIMITS)
    source.write_text(f"#include <stdio.h>\n#include <wlb.h>\nint main(void) {{\n{lines}    return 0;\n}}\n", encoding="utf-8")
    program = installed.compile(source)
    if program:
        found = dict(line.split() for line in installed.play(program).stdout.splitlines())
        for limit, (constant, more) in LIMITS.items():
            wanted = {value + more for value in constants.get(constant, ())}
            same("wlb.h", f"{limit}, beside {constant} of the crates,", {int(found.get(limit, -1))}, wanted)


def check_statuses(_installed):
    """The statuses and the kinds of events of the crates that export the functions are those of the header, and all of them."""
    header = HEADER.read_text(encoding="utf-8")
    named = {name: int(value) for name, value in re.findall(r"^(?:#define|   ) (WLB_\w+) (?:= )?(\d+)", header, re.MULTILINE)}
    known = set()
    for library in LIBRARIES:
        for file in sorted((TOP / "crates" / library / "src").glob("*.rt")):
            for name, value in re.findall(r"const (WLB_\w+): \w+ = ([\d_]+);", file.read_text(encoding="utf-8")):
                known.add(name)
                same(f"{library}/src/{file.name}", f"the constant {name}", int(value), named.get(name))
    same_names("wlb.h", "statuses and kinds of events", set(named) - set(LIMITS), known - set(LIMITS))


def check_status_names(installed):
    """Each status has its name. A number that is no status has none."""
    statuses = HEADER.read_text(encoding="utf-8").partition("enum wlb_status {")[2].partition("}")[0]
    named = re.findall(r"^    (WLB_\w+) = (\d+)", statuses, re.MULTILINE)
    wanted = "".join(f"{name}\n" for name, _ in named) + "unknown\nunknown\n"
    numbers = ", ".join([*(number for _, number in named), "-1", str(len(named))])
    source = installed.folder / "status_names.c"
    body = f"    const int numbers[] = {{{numbers}}};\n    for (size_t n = 0; n < sizeof numbers / sizeof *numbers; n++)\n"
    body += "        puts(wlb_status_name(numbers[n]));\n    return 0;\n"
    source.write_text(f"#include <stdio.h>\n#include <wlb.h>\nint main(void) {{\n{body}}}\n", encoding="utf-8")
    program = installed.compile(source)
    if program:
        ends("status_names.c", installed.play(program), wanted)


def check_cplusplus(installed):
    """The header is C++, too. A C++ program links the libraries."""
    if not shutil.which("c++"):
        print(f"left out: the header as C++: {packages.lack('c++')}", flush=True)
        return
    source = installed.folder / "program.cc"
    body = "wlb_hub hub = WLB_EMPTY;\n    return wlb_hub_advance(&hub) - WLB_NO_HANDLE;\n"
    source.write_text(f"#include <wlb.h>\nint main() {{\n    {body}}}\n", encoding="utf-8")
    flags = ["-std=c++11", "-Wall", "-Wextra", "-Werror", "-pedantic"]
    ran = run(["c++", *flags, "-o", installed.folder / "program", source, *installed.pkg_config("--cflags", "--libs")])
    ends("c++ program.cc", ran, "")
    if ran.returncode == 0:
        ends("the program in C++", installed.play(installed.folder / "program"), "")


def check_names(installed):
    """The libraries make visible what the header declares, and nothing else."""
    for name in LIBRARIES:
        for file, flags in [(f"lib{name}.so", ["-D"]), (f"lib{name}.a", ["-g"])]:
            words = ["nm", *flags, "--defined-only", "--format=posix", installed.plain / file]
            found = [line.split()[0] for line in run(words).stdout.splitlines() if len(line.split()) > 2]
            same_names(file, "visible names", found, [*functions_of(name), BUILD_FUNCTION])


def check_build(installed):
    """Each way to link one library or both, also with all of their objects, gives a program that says how they were built."""
    source = installed.folder / "says_build.c"
    source.write_text("#include <stdio.h>\n#include <wlb.h>\nint main(void) {\n    puts(wlb_build());\n    return 0;\n}\n", encoding="utf-8")
    archives = [installed.tested / f"lib{name}.a" for name in LIBRARIES]
    shared = ["-L", installed.tested, *(f"-l{name}" for name in LIBRARIES)]
    whole = ["-Wl,--whole-archive", *archives, "-Wl,--no-whole-archive"]
    for words in [shared, archives, archives[:1], archives[1:], whole, [*shared[:3], archives[1]]]:
        program = installed.folder / "says_build"
        ran = run(["cc", *FLAGS, *installed.always, "-o", program, source, *installed.pkg_config("--cflags"), *words])
        same(f"cc says_build.c {' '.join(map(str, words))}", "standard error", ran.stderr, "")
        if ran.returncode == 0:
            ends("the program with wlb_build", installed.play(program), f"{installed.says}\n")


def check_claims(installed):
    """`library.py` builds of no archive that its proof does not fit, and installs no unproved libraries unless it is told to."""
    tool, prefix = [sys.executable, TOOLS / "library.py", "--prefix", installed.folder / "claimed"], installed.folder / "claimed"
    if installed.says.startswith(UNPROVED):
        same("library.py install", "the status over unproved libraries", run([*tool, "install", installed.plain]).returncode, 1)
        same("library.py install", "whether it has installed them", prefix.exists(), False)
        same("library.py install --unproved", "the status", run([*tool, "install", "--unproved", installed.plain]).returncode, 0)
        return
    taken = installed.folder / "archives"
    taken.mkdir()
    for name, folder in itertools.product(LIBRARIES, installed.archives):
        for file in folder.glob(f"*{name}.*"):
            shutil.copy(file, taken)
    same("library.py build", "the status", run([*tool, "build", prefix, taken]).returncode, 0)
    with open(taken / f"lib{LIBRARIES[0]}.a", "ab") as archive:
        archive.write(b"\n")
    same("library.py build", "the status over another archive than the proved one", run([*tool, "build", prefix / "wrong", taken]).returncode, 1)
    same("library.py build", "whether it has built", (prefix / "wrong").exists(), False)


def check_sanitizer(installed):
    """The address sanitizer is in unproved libraries: it finds a write of the hub to memory that the caller has freed."""
    if not installed.says.startswith(UNPROVED):
        return
    source = installed.folder / "freed.c"
    body = "wlb_hub hub = WLB_EMPTY;\n    wlb_hub_numbers *numbers = malloc(sizeof *numbers);\n    free(numbers);\n"
    body += "    return wlb_hub_new(&hub) == WLB_OK ? wlb_hub_status(&hub, numbers) : 2;\n"
    source.write_text(f"#include <stdlib.h>\n#include <wlb.h>\nint main(void) {{\n    {body}}}\n", encoding="utf-8")
    program = installed.compile(source, "-Wno-use-after-free", is_static=True)
    if program:
        said = installed.play(program).stderr
        same("the program that passes freed memory", "what the sanitizer finds", re.findall("ERROR: AddressSanitizer: ([a-z-]+)", said), ["heap-use-after-free"])


# ---- The programs


def check_in_process(installed):
    for program in builds_of(installed, EXAMPLES / "in_process.c"):
        ends(program.name, installed.play(program), (EXAMPLES / "in_process.out").read_text(encoding="utf-8"))


def check_browser(installed):
    """Renderers that count under one lock lose no update, although one is killed and the broker restarts."""
    for program in builds_of(installed, EXAMPLES / "browser.c"):
        for renderers, rounds, is_deaf in RUNS:
            ran = installed.play(program, renderers, rounds, *(["deaf"] if is_deaf else []))
            name = " ".join(map(str, [program.name, renderers, rounds, *(["deaf"] if is_deaf else [])]))
            count = (renderers - 1) * rounds + rounds // 2
            closed = [f"renderer {renderers + 1} does not read: closed"] if is_deaf else []
            lines = ran.stdout.splitlines()
            generations = int(lines[-2].split()[1]) if len(lines) > 1 and lines[-2].startswith("generations: ") else 0
            same(name, "standard error", ran.stderr, "")
            same(name, "the status", ran.returncode, 0)
            # Beside a deaf renderer the broker is not restarted.
            same(name, "whether the broker was restarted", generations >= 2 or is_deaf, True)
            same(name, "the rest of standard output", lines[:-2] + lines[-1:], [*closed, f"counter: {count}, expected: {count}"])
        for words in [[], ["0", "1"], ["64", "1"], ["1", "0"], ["1", "1", "other"]]:
            same(f"{program.name} {words}", "the status", installed.play(program, *words).returncode, 2)


def check_refused(installed):
    """The same if the browser process is refused memory at random."""
    flags = [TOOLS / "refuse_malloc.c", "-Wl,--wrap=malloc,--wrap=realloc"]
    program = installed.compile(EXAMPLES / "browser.c", *flags, is_static=True, name="browser-refused")
    for seed in range(5) if program else []:
        ran = run([program, "4", "12"], env={**installed.environment, "SEED": str(seed)})
        name = f"{program.name} of seed {seed}"
        same(name, "standard error", ran.stderr, "")
        same(name, "the last line", ran.stdout.splitlines()[-1:], ["counter: 42, expected: 42"])


def check_readme(installed):
    """The program in README.md is whole."""
    source = installed.folder / "tab.c"
    source.write_text(readme_block("c"), encoding="utf-8")
    program = installed.compile(source)
    if program:
        ends("the program in README.md", installed.play(program), "tab 1 holds the lock db\n")


def check_vectors(installed):
    """Hub and client speak as the test vectors of the protocol say."""
    ran = run([sys.executable, TOOLS / "check_vectors.py", "--libraries", installed.plain])
    differences.extend(ran.stdout.splitlines())
    same("check_vectors.py", "standard error", ran.stderr, "")


def check_refused_calls(installed):
    """They do so, too, whichever of their allocations is refused."""
    folder = installed.folder / "refusing"
    folder.mkdir()
    for name in LIBRARIES:
        words = ["cc", *FLAGS, "-fPIC", "-shared", "-o", folder / f"lib{name}.so", TOOLS / "refuse_numbered.c"]
        archive = installed.plain / f"lib{name}.a"
        ran = run([*words, "-Wl,--wrap=malloc,--wrap=realloc", "-Wl,--whole-archive", archive, "-Wl,--no-whole-archive"])
        same(f"cc refuse_numbered.c lib{name}.a", "standard error", ran.stderr, "")
    words = ["--all"] if installed.refuses_all else []
    ran = run([sys.executable, TOOLS / "refused_calls.py", *words, folder], seconds=None if words else SECONDS)
    differences.extend(ran.stdout.splitlines())
    same("refused_calls.py", "standard error", ran.stderr, "")


def check_edges(installed):
    for program in builds_of(installed, TOOLS / "library_edges.c"):
        ends(program.name, installed.play(program), "")


def check_fuzz(installed):
    """No bytes of a compromised tab change the locks of another partition, and no bytes end hub or client."""
    program = installed.compile(TOOLS / "fuzz_library.c", *SANITIZERS, is_static=True)
    for part in ["hub", "client"] if program else []:
        ran = installed.play(program, part, installed.seed, installed.megabytes)
        same(f"fuzz_library {part} {installed.seed}", "standard error", ran.stderr, "")
        if ran.returncode:
            differences.append(f"fuzz_library {part} {installed.seed} {installed.megabytes}: {ran.stdout.strip()}")
        elif installed.is_told:
            print(ran.stdout, end="")


def check_fuzz_finds(installed):
    """The fuzzer finds the wrong hubs and clients of `wrong_library.c`, and no fault if none is chosen."""
    names = ["wlb_hub_receive", "wlb_hub_next_output", "wlb_client_next_event"]
    flags = [TOOLS / "wrong_library.c", "-Wl," + ",".join(f"--wrap={name}" for name in names)]
    program = installed.compile(TOOLS / "fuzz_library.c", *flags, is_static=True, name="fuzz-wrong")
    for part, wrong, status in WRONG if program else []:
        ran = run([program, part, installed.seed, 1], env={**installed.environment, "WRONG": str(wrong)})
        same(f"fuzz_library {part} over the wrong library {wrong}", "the status", ran.returncode, status)


def quiesce(installed, program, seed, *words):
    return run([program, seed, *words], seconds=BATCH_SECONDS, env=installed.environment)


def check_rests(installed):
    """At rest no request waits for nothing, in random histories of hub and clients. The driver finds links that lose frames."""
    program = installed.compile(TOOLS / "quiesce.c", "-Wl,--wrap=malloc,--wrap=realloc", is_static=True, name="quiesce")
    if not program:
        return
    end, seed = time.monotonic() + 60 * installed.minutes, installed.seed
    while not differences and (seed == installed.seed or time.monotonic() < end):
        ran = quiesce(installed, program, seed, HISTORIES)
        same(f"quiesce {seed} {HISTORIES}", "standard error", ran.stderr, "")
        same(f"quiesce {seed} {HISTORIES}", "what it says, if not the numbers of its rests,", "" if RESTED.fullmatch(ran.stdout) else ran.stdout, "")
        same(f"quiesce {seed} {HISTORIES}", "the status", ran.returncode, 0)
        seed += HISTORIES
    if installed.minutes:
        print(f"quiesce: {seed - installed.seed} histories from seed {installed.seed}")
    ran = quiesce(installed, program, installed.seed, HISTORIES, "lossy")
    same(f"quiesce {installed.seed} {HISTORIES} lossy", "the status", ran.returncode, 1)
    same(f"quiesce {installed.seed} {HISTORIES} lossy", "whether it names a fault", ran.stdout.startswith("quiesce: seed "), True)


def fails(check, installed):
    """Plays a check, prints its differences, and returns whether there are any."""
    differences.clear()
    check(installed)
    for difference in differences:
        print(difference, flush=True)
    return bool(differences)


CHECKS = [
    check_limits,
    check_statuses,
    check_status_names,
    check_cplusplus,
    check_names,
    check_build,
    check_claims,
    check_sanitizer,
    check_readme,
    check_in_process,
    check_browser,
    check_refused,
    check_vectors,
    check_refused_calls,
    check_edges,
    check_fuzz,
    check_fuzz_finds,
    check_rests,
]


def main():
    parser = argparse.ArgumentParser(description=__doc__, formatter_class=argparse.RawDescriptionHelpFormatter)
    parser.add_argument("archives", metavar="ARCHIVES", type=argument_types.folder, nargs="*", help="a folder with static libraries")
    parser.add_argument("--unproved", metavar="FOLDER", type=argument_types.folder, help="take the libraries of `tools/unproved.py --sanitize`")
    parser.add_argument("--only", metavar="WORD", default="", help="run only the checks whose names contain this word")
    parser.add_argument("--megabytes", metavar="N", type=argument_types.amount, default=10, help="megabytes that hub and client each receive (10)")
    parser.add_argument("--seed", metavar="SEED", type=argument_types.number(0), default=1, help="the number from which bytes and histories are drawn")
    parser.add_argument("--minutes", metavar="N", type=argument_types.amount, default=0, help=f"minutes of random histories, not {HISTORIES}")
    parser.add_argument("--all", action="store_true", help="refuse every allocation of hub and client, not a sample")
    parser.add_argument("--tell", action="store_true", help="print what the fuzzer has done")
    given = parser.parse_args()
    for name in ("cc", "pkg-config"):
        argument_types.need_command(name, "install a C compiler and pkg-config")
    chosen = [check for check in CHECKS if given.only in check.__name__]
    if not chosen:
        parser.error(f"no check has {given.only!r} in its name")
    # A signal that ends the tool also removes its folder.
    signal.signal(signal.SIGTERM, lambda *_: sys.exit(1))
    with tempfile.TemporaryDirectory(prefix="wlb-") as folder:
        installed = Unproved(folder, given.unproved.absolute()) if given.unproved else Installed(folder, given.archives)
        installed.megabytes, installed.seed, installed.is_told = given.megabytes, given.seed, given.tell
        installed.refuses_all, installed.minutes = given.all, given.minutes
        failed = sum(fails(check, installed) for check in chosen)
    print(f"{len(chosen) - failed} passed, {failed} failed")
    sys.exit(1 if failed else 0)


if __name__ == "__main__":
    main()
