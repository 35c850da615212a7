"""Runs a script of the JavaScript package with Node, if this machine has it.

It needs Node of version 20 or later. The status is that of the script, or 0 if it is left out. Then the tool prints the reason.
"""

import argparse
import os
import pathlib
import subprocess
import sys

import argument_types
from packages import OLDEST_NODE as OLDEST
from packages import hint, node_version

TOP = pathlib.Path(__file__).resolve().parent.parent
NO_NODE = f"there is no `node` of version {OLDEST} or later: {hint('node')}"


def left_out(what, why):
    print(f"left out: {what}: {why}", flush=True)


def run(program, script, *words):
    """Runs a script of `js/lab` with PROGRAM as the program `wlb`, and returns the status."""
    if node_version() < OLDEST:
        left_out(f"js/lab/{script}", NO_NODE)
        return 0
    environment = {**os.environ, "WLB_PROGRAM": os.path.abspath(program)}
    return subprocess.run(["node", TOP / "js" / "lab" / script, *words], env=environment, check=False).returncode


def main():
    parser = argparse.ArgumentParser(description=__doc__, formatter_class=argparse.RawDescriptionHelpFormatter)
    parser.add_argument("program", metavar="PROGRAM", type=argument_types.program, help="the program `wlb`")
    parser.add_argument("script", metavar="SCRIPT", help="a script of js/lab")
    parser.add_argument("words", metavar="WORD", nargs=argparse.REMAINDER, help="the words for the script")
    given = parser.parse_args()
    if not (TOP / "js" / "lab" / given.script).is_file():
        parser.error(f"there is no script js/lab/{given.script}")
    sys.exit(run(given.program, given.script, *given.words))


if __name__ == "__main__":
    main()
