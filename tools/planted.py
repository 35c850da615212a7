"""Plants wrong bodies that meet every contract, and checks that a test fails over each.

A wrong body of `tools/planted` is a file of lines `word: TEXT`. `test: CRATE NAME` names the test that has to fail. `file: PATH`, from the
top of the repository, and pairs of `old: TEXT` and `new: TEXT` are the change; `after: TEXT` before an old text means its first occurrence
behind TEXT.

The tool applies each change to a copy of the crates, and runs the tests there by `rt try --test`, which proves nothing. A wrong body is
caught if the named test fails or stops the run. It is not caught if the copy does not compile, or the named test passes or does not run.
The unchanged tests have to pass, which `make verify` sees before: a wrong body shows nothing if its test fails without it.

The last line is `N passed, M failed`. The status is 1 if a wrong body was not caught. `--fit` only applies the changes, and those of
`tools/planted_quiesce`, which `planted_quiesce.py` tries.
"""

import argparse
import concurrent.futures
import dataclasses
import pathlib
import re
import shutil
import subprocess
import sys
import tempfile

import argument_types
import jobs
from mutants import Change
from rlibs import TOP

TOOL = pathlib.Path(sys.argv[0]).stem
PLANTED = TOP / "tools" / "planted"
# Wrong bodies of `planted_quiesce.py`.
RESTING = TOP / "tools" / "planted_quiesce"
STARTED = re.compile(r"^test (\S+) \.\.\.(.*)$", re.MULTILINE)


@dataclasses.dataclass(frozen=True)
class WrongBody:
    """A change of the crates, and the test that has to fail over it."""

    name: str
    crate: str
    test: str
    changes: tuple

    def apply(self, top):
        """Applies the change below a folder that stands for the repository."""
        for change in self.changes:
            file = top / change.path
            file.write_text(change.made_in(file.read_text(encoding="utf-8"), self.name), encoding="utf-8")


def lines_of(file):
    """Returns the changes of a wrong body, and the text of its line `test`. Ends the tool if a line is wrong."""
    test = path = after = old = ""
    changes = []
    for line in file.read_text(encoding="utf-8").splitlines():
        word, _, text = line.partition(": ")
        if word == "test":
            test = text
        elif word == "file":
            path = text
        elif word == "after":
            after = text
        elif word == "old":
            old = text
        elif word == "new":
            changes.append(Change(path, after, old, text))
            after = ""
        else:
            sys.exit(f"{TOOL}: {file.name}: no line begins with {word!r}: use test, file, after, old and new")
    return test, tuple(changes)


def read(file):
    """Reads a wrong body. Ends the tool if a line is wrong."""
    test, changes = lines_of(file)
    crate, _, name = test.partition(" ")
    if not (name and changes):
        sys.exit(f"{TOOL}: {file.name}: a wrong body has a line `test: CRATE NAME`, a file, and what is old and new in it")
    return WrongBody(file.stem, crate, name, changes)


def bodies_without_test(folder):
    """Reads the wrong bodies of a folder whose files name no test."""
    return [WrongBody(file.stem, "", "", lines_of(file)[1]) for file in sorted(folder.glob("*.edit"))]


def copy_of_crates(room):
    """Copies what `rt try` reads of the repository, and returns the folder."""
    shutil.copy(TOP / "crates.txt", room)
    for source in sorted((TOP / "crates").glob("*/src")):
        shutil.copytree(source, room / source.relative_to(TOP))
    return room


def failure(body, said):
    """Returns why a wrong body is not caught, or nothing if the named test has failed or stopped the run."""
    results = STARTED.findall(said)
    if not results:
        return f"its copy does not compile or run: {said.strip()[-400:]}"
    if body.test not in [name for name, _ in results]:
        return f"{body.test} has not run"
    failed = [name for name, result in results if result.strip() != "ok"]
    if body.test in failed:
        return ""
    return f"{body.test} has passed" + (f", and {', '.join(failed)} failed" if failed else "")


def said_of_tests(crate, top):
    """Returns what `rt try` says of a crate's tests below a folder that stands for the repository."""
    words = ["rt", "try", "--test", "--steps", "1"]
    pipes = {"stdin": subprocess.DEVNULL, "stdout": subprocess.PIPE, "stderr": subprocess.STDOUT, "text": True, "errors": "replace"}
    return subprocess.run(words, cwd=top / "crates" / crate, check=False, **pipes).stdout


def plant(body):
    """Applies a wrong body to a copy of the crates and runs the tests there. Returns why it is not caught, if it is not."""
    with tempfile.TemporaryDirectory(prefix="wlb-planted-") as place:
        top = copy_of_crates(pathlib.Path(place))
        body.apply(top)
        return failure(body, said_of_tests(body.crate, top))


def fit(bodies):
    """Applies each wrong body to a copy of the crates. Fails at the first one that does not fit."""
    with tempfile.TemporaryDirectory(prefix="wlb-planted-") as place:
        for body in bodies:
            room = pathlib.Path(place, body.name)
            room.mkdir()
            body.apply(copy_of_crates(room))


def main():
    parser = argparse.ArgumentParser(description=__doc__, formatter_class=argparse.RawDescriptionHelpFormatter)
    parser.add_argument("--fit", action="store_true", help="only apply the changes")
    given = parser.parse_args()
    bodies = [read(file) for file in sorted(PLANTED.glob("*.edit"))]
    if given.fit:
        fit([*bodies, *bodies_without_test(RESTING)])
        return 0
    argument_types.need_command("rt", "install the Rattle kit that README.md names")
    with concurrent.futures.ThreadPoolExecutor(jobs.count()) as pool:
        faults = list(pool.map(plant, bodies))
    for body, fault in zip(bodies, faults):
        print(f"planted {body.name}: " + (f"NOT CAUGHT: {fault}" if fault else f"caught by {body.crate} {body.test}"))
    failed = sum(bool(fault) for fault in faults)
    print(f"{len(bodies) - failed} passed, {failed} failed")
    return 1 if failed or not bodies else 0


if __name__ == "__main__":
    sys.exit(main())
