"""Plants wrong bodies that leave a request waiting for nothing, and checks that `quiesce.c` finds each.

The contracts of the changed functions refuse most of these bodies. Here they show that the driver `quiesce.c` can see what it is for: a
fault far below the C libraries that ends in a tab that waits, in a lock that the broker and the tab see differently, or in a call that
is never answered. A wrong body of `tools/planted_quiesce` is a file of lines `word: TEXT`, as `planted.py` describes, without a line `test`.

The tool applies each change to a copy of the repository, compiles the C libraries there by `unproved.py`, which proves nothing, and plays
histories over them. A wrong body is found if the driver prints a fault. It is not found if the copy does not compile, the driver ends
otherwise, or no history has a fault.

The last line is `N passed, M failed`. The status is 1 if a wrong body was not found. A wrong body takes a minute or two.
"""

import argparse
import concurrent.futures
import pathlib
import re
import shutil
import subprocess
import sys
import tempfile

import argument_types
import jobs
from planted import RESTING, bodies_without_test
from rlibs import TOP

LIBRARIES = pathlib.Path("build") / "unproved"
# What the copy of the repository has, beside the crates' sources.
COPIED = ["README.md", "crates.txt", "include", "js/wasm", "tools"]
FLAGS = ["-std=c11", "-O1", "-g", "-Wl,--wrap=malloc,--wrap=realloc"]
FOUND = re.compile(r"^quiesce: seed (\d+): (.*)$", re.MULTILINE)
# Copies that are compiled at once: each takes two processors.
COPIES = max(1, jobs.count() // 2)


def copy_of_repository(room):
    """Copies what `unproved.py` reads, and the libraries that it has made, most of which it keeps."""
    for name in COPIED:
        source, to = TOP / name, room / name
        to.parent.mkdir(parents=True, exist_ok=True)
        if source.is_dir():
            shutil.copytree(source, to, ignore=shutil.ignore_patterns("__pycache__"))
        else:
            shutil.copy(source, to)
    for source in sorted((TOP / "crates").glob("*/src")):
        shutil.copytree(source, room / source.relative_to(TOP))
    if (TOP / LIBRARIES).is_dir():
        shutil.copytree(TOP / LIBRARIES, room / LIBRARIES, symlinks=True)
    return room


def said_by(words, **how):
    """Runs a command. Returns its status, and what it has printed."""
    pipes = {"stdin": subprocess.DEVNULL, "stdout": subprocess.PIPE, "stderr": subprocess.STDOUT, "text": True, "errors": "replace"}
    ran = subprocess.run([str(word) for word in words], check=False, **pipes, **how)
    return ran.returncode, ran.stdout.strip()


def played(top, seed, histories):
    """Compiles the libraries and the driver of a copy, and plays histories. Returns the status, and what was printed."""
    folder, driver = top / LIBRARIES, top / "quiesce"
    archives = [folder / "libwlb_hub.a", folder / "libwlb_client.a"]
    source = ["-I", top / "include", "-o", driver, top / "tools" / "quiesce.c"]
    compiling = [sys.executable, top / "tools" / "unproved.py", "--no-modules", folder]
    for words in (compiling, ["cc", *FLAGS, *source, *archives]):
        status, said = said_by(words)
        if status:
            return status, f"it does not compile: {said[-400:]}"
    return said_by([driver, seed, histories])


def plant(body, seed, histories):
    """Applies a wrong body to a copy and plays histories there. Returns whether it is found, and what to print of that."""
    with tempfile.TemporaryDirectory(prefix="wlb-planted-") as place:
        top = copy_of_repository(pathlib.Path(place))
        body.apply(top)
        status, said = played(top, seed, histories)
    fault = FOUND.search(said)
    if status == 1 and fault:
        return True, f"found in history {int(fault[1]) - seed + 1}: {fault[2]}"
    return False, f"NOT FOUND: {said} (status {status})"


def main():
    parser = argparse.ArgumentParser(description=__doc__, formatter_class=argparse.RawDescriptionHelpFormatter)
    parser.add_argument("--seed", metavar="SEED", type=argument_types.number(0), default=1, help="seed of the first history (1)")
    parser.add_argument("--histories", metavar="N", type=argument_types.number(1), default=20_000, help="most histories of a wrong body (20000)")
    parser.add_argument("--only", metavar="WORD", default="", help="plant only the wrong bodies whose names contain this word")
    given = parser.parse_args()
    argument_types.need_command("rt", "install the Rattle kit that README.md names")
    bodies = [body for body in bodies_without_test(RESTING) if given.only in body.name]
    if not bodies:
        parser.error(f"no wrong body has {given.only!r} in its name")
    with concurrent.futures.ThreadPoolExecutor(COPIES) as pool:
        results = pool.map(lambda body: plant(body, given.seed, given.histories), bodies)
        found = 0
        for body, (is_found, says) in zip(bodies, results):
            print(f"planted {body.name}: {says}", flush=True)
            found += is_found
    print(f"{found} passed, {len(bodies) - found} failed")
    return 1 if found < len(bodies) else 0


if __name__ == "__main__":
    sys.exit(main())
