"""Runs the tests of the JavaScript package with Node, over the WebAssembly modules in `js/dist`.

Tests over processes run with `--program`, and the comparison with the C libraries with `--libraries`. Without these options, and without
other commands that they use, such tests are skipped.

If a test fails, the tool prints what Node prints. Then it prints

- a line for each fault of the modules, as `tools/modules.py check` does. Stale modules count as a failed test. Damaged ones are not tested;
- a line `left out: TEST: REASON` for each skipped test, or one for all tests without Node of version 20 or later;
- the last line, `N passed, M failed, K skipped`.

The status is 1 if something has failed.
"""

import argparse
import os
import pathlib
import re
import signal
import subprocess
import sys
import tempfile

import argument_types
import compiled_text
import modules
from js import NO_NODE, OLDEST, TOP, left_out, node_version

SECONDS = 300
SKIPPED = re.compile(r"^ *ok \d+ - (.*?) # SKIP ?(.*)$", re.MULTILINE)
COUNTS = ("pass", "fail", "cancelled", "skipped", "todo")


class Report:
    """Report of Node in the form TAP: its counts, and a name and a reason for each skipped test."""

    def __init__(self, text):
        found = {name: re.search(rf"^# {name} (\d+)$", text, re.MULTILINE) for name in COUNTS}
        self.is_whole = all(found.values())
        counts = {name: int(count[1]) if count else 0 for name, count in found.items()}
        self.passed, self.failed = counts["pass"], counts["fail"] + counts["cancelled"] + (not self.is_whole)
        self.skipped = counts["skipped"] + counts["todo"]
        self.reasons = [[part.replace("\\", "") for part in groups] for groups in SKIPPED.findall(text)]


def play(environment):
    """Runs the tests, and returns the report. Prints what Node prints if one has failed."""
    files = sorted((TOP / "js" / "test").glob("*.test.js"))
    with tempfile.TemporaryDirectory(prefix="wlb-") as place:
        report = pathlib.Path(place, "report")
        reporters = [("spec", "stdout"), ("tap", report)]
        words = [f"--test-reporter{option}={word}" for pair in reporters for option, word in zip(("", "-destination"), pair)]
        pipes = {"stdin": subprocess.DEVNULL, "stdout": subprocess.PIPE, "stderr": subprocess.STDOUT, "text": True}
        process = subprocess.Popen(["node", "--test", *words, *files], env={**os.environ, **environment}, start_new_session=True, **pipes)
        try:
            said, _ = process.communicate(timeout=SECONDS)
        except subprocess.TimeoutExpired:
            os.killpg(process.pid, signal.SIGKILL)
            said, _ = process.communicate()
            said += f"the tests have not ended within {SECONDS} seconds\n"
        except BaseException:
            os.killpg(process.pid, signal.SIGKILL)
            raise
        made = Report(report.read_text(encoding="utf-8") if report.exists() else "")
    made.failed += bool(process.returncode and not made.failed)
    if made.failed:
        print(said, end="")
    return made


def end(passed, failed, skipped):
    print(f"{passed} passed, {failed} failed, {skipped} skipped")
    return 1 if failed else 0


def main():
    parser = argparse.ArgumentParser(description=__doc__, formatter_class=argparse.RawDescriptionHelpFormatter)
    parser.add_argument("--program", metavar="PROGRAM", type=argument_types.program, help="the program `wlb`, for tests over processes")
    parser.add_argument("--libraries", metavar="FOLDER", type=argument_types.folder, help="the folder of the C libraries, to compare them")
    given = parser.parse_args()
    if node_version() < OLDEST:
        left_out("the tests of the JavaScript package", NO_NODE)
        return end(0, 0, 0)
    try:
        damage, staleness = modules.damage_of(modules.FOLDER), modules.staleness_of(modules.FOLDER)
    except compiled_text.Unreadable as error:
        sys.exit(f"check_js: {error}")
    for fault in damage + staleness:
        print(f"check_js: {fault}")
    if damage:
        return end(0, 1, 0)
    program, libraries = given.program and os.path.abspath(given.program), given.libraries and given.libraries.absolute()
    report = play({"WLB_MODULES": str(modules.FOLDER), "WLB_PROGRAM": program or "", "WLB_LIBRARIES": str(libraries or "")})
    for name, reason in report.reasons:
        left_out(name, reason)
    return end(report.passed, report.failed + len(staleness), report.skipped)


if __name__ == "__main__":
    sys.exit(main())
