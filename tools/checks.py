"""Runs of the program and comparisons, for the checks of the program."""

import argparse
import os
import subprocess
import sys

import argument_types
import rlibs

SECONDS = 60

differences = []


class Ended:
    """Result of a run of the program. If `name` is given, a kernel starts its children by that name."""

    def __init__(self, program, words, stdin=b"", stdout=subprocess.PIPE, folder=None, name=None):
        source = {"input": stdin} if isinstance(stdin, bytes) else {"stdin": stdin}
        words = [name or program, *words]
        try:
            ran = subprocess.run(
                words,
                executable=program,
                stdout=stdout,
                stderr=subprocess.PIPE,
                cwd=folder,
                timeout=SECONDS,
                check=False,
                **source,
            )
            self.stdout, self.stderr, self.status = ran.stdout, ran.stderr.decode(), ran.returncode
        except subprocess.TimeoutExpired:
            self.stdout, self.stderr, self.status = None, "", f"none after {SECONDS} seconds"


def bytes_of(*frames):
    return bytes.fromhex("".join(frames))


def readme_block(language):
    """Returns the first program of this language in README.md."""
    readme = (rlibs.TOP / "README.md").read_text(encoding="utf-8")
    return readme.partition(f"```{language}\n")[2].partition("```")[0]


def same(name, what, found, wanted):
    if found != wanted:
        differences.append(f"{name}: {what} is {found!r}, not {wanted!r}")


def ends(name, ended, stdout, stderr, status):
    """Compares the output and the status. Several processes write to standard error, so its lines may come in any order."""
    same(name, "standard output", ended.stdout, stdout)
    same(name, "standard error", sorted(ended.stderr.splitlines()), sorted(stderr))
    same(name, "the status", ended.status, status)


def main_of(description, *checks):
    """Runs the checks on the program of the command line, and prints each difference. The status is 1 if there is one."""
    parser = argparse.ArgumentParser(description=description, formatter_class=argparse.RawDescriptionHelpFormatter)
    parser.add_argument("program", metavar="PROGRAM", type=argument_types.program, help="the program `wlb`")
    parser.add_argument("--only", metavar="WORD", default="", help="run only the checks whose names contain this word")
    given = parser.parse_args()
    chosen = [check for check in checks if given.only in check.__name__]
    if not chosen:
        parser.error(f"no check has {given.only!r} in its name")
    for check in chosen:
        check(os.path.abspath(given.program))
    for difference in differences:
        print(difference)
    sys.exit(1 if differences else 0)
