"""Installs the Debian packages that the tools use.

Without an option the tool runs `apt-get install` for the packages that this machine lacks, by `sudo` unless it is root. `--list` prints
each package, its command and the steps that use it, and what would be run. The Rattle kit is no package: README.md names it.

Other tools import `hint`, so that a tool that leaves a step out names the package of this table.
"""

import argparse
import dataclasses
import os
import re
import shutil
import subprocess
import sys
import typing

# The oldest version of Node that runs the JavaScript package.
OLDEST_NODE = 20


def node_version():
    """Returns the first number of Node's version, or 0 if there is no Node."""
    if not shutil.which("node"):
        return 0
    ran = subprocess.run(["node", "--version"], capture_output=True, text=True, check=False)
    found = re.match(r"v(\d+)\.", ran.stdout)
    return int(found[1]) if found else 0


@dataclasses.dataclass(frozen=True)
class Need:
    """A command of a package, the steps of the tests that use it, those of other targets, and other names of the command."""

    command: str
    package: str
    tests: tuple
    steps: tuple = ()
    others: tuple = ()
    # The version that is needed, in words, and whether the command has it.
    version: str = ""
    is_enough: typing.Callable = lambda: True

    @property
    def found(self):
        """Returns whether this machine has the command."""
        return any(map(shutil.which, (self.command, *self.others))) and self.is_enough()


NEEDS = [
    Need("make", "make", ("every target of the Makefile",)),
    Need("git", "git", ("the check of the documents",), ("`make changed`", "`make dist`")),
    Need("cc", "gcc", ("the C libraries and their tests", "system calls that fail", "refused allocations"), ("`make bench` beside C programs",)),
    Need("objcopy", "binutils", ("the C libraries",)),
    Need("pkg-config", "pkg-config", ("the tests of the C libraries",)),
    Need("c++", "g++", ("the header as C++",)),
    Need(
        *("node", "nodejs", ("the JavaScript tests",), ("`make conformance`", "JavaScript in `make bench` and `make soak`")),
        version=f" of version {OLDEST_NODE} or later",
        is_enough=lambda: node_version() >= OLDEST_NODE,
    ),
    Need("npm", "npm", (), ("`make dist`",)),
    Need("rustc", "rustc", (), ("`make bench` beside Rust's collections",)),
    Need("chromium", "chromium", (), ("js/playground/check.py", "`make bench` beside Chromium"), ("chromium-browser", "google-chrome")),
    Need("firefox", "firefox-esr", (), ("`make bench` beside Firefox",), ("firefox-esr",)),
]
OF_COMMAND = {need.command: need for need in NEEDS}


def has(command):
    """Returns whether this machine has a command, `rt` or one of the table."""
    return bool(shutil.which("rt")) if command == "rt" else OF_COMMAND[command].found


def hint(command):
    """Returns how to get a command, for the message of a tool that lacks it."""
    if command == "rt":
        return "install the Rattle kit that README.md names"
    return f"`make packages` installs Debian's package {OF_COMMAND[command].package}"


def lack(command):
    """Returns a phrase that says which command is missing, and how to get it."""
    return f"there is no `{command}`{OF_COMMAND[command].version if command in OF_COMMAND else ''}: {hint(command)}"


def missing():
    return [need for need in NEEDS if not need.found]


def installing(needs):
    """Returns the command that installs the packages."""
    words = ["apt-get", "install", "-y", *(need.package for need in needs)]
    return ["sudo", *words] if os.geteuid() else words


def list_all():
    for need in NEEDS:
        print(f"{need.package} (`{need.command}`, {'found' if need.found else 'missing'}): {', '.join([*need.tests, *need.steps])}")
    if missing():
        print(f"`make packages` runs: {' '.join(installing(missing()))}")


def install(needs):
    """Installs the packages, and returns the status."""
    if not needs:
        print("every command of `python3 tools/packages.py --list` is there")
        return 0
    if not shutil.which("apt-get"):
        sys.exit(f"packages: there is no apt-get: install {', '.join(need.command for need in needs)} by the means of your system")
    words = installing(needs)
    if not shutil.which(words[0]):
        sys.exit(f"packages: there is no sudo: as root, run {' '.join(words[1:])}")
    print(" ".join(words), flush=True)
    status = subprocess.run(words, check=False).returncode
    if status:
        print(f"packages: apt-get has failed with status {status}: `apt-get update` renews its lists", file=sys.stderr)
        return 1
    for need in needs:
        if not need.found:
            print(f"packages: {need.package} has no `{need.command}` that is recent enough: install it by other means", file=sys.stderr)
    return 1 if missing() else 0


def main():
    parser = argparse.ArgumentParser(description=__doc__, formatter_class=argparse.RawDescriptionHelpFormatter)
    parser.add_argument("--list", action="store_true", help="print the packages and what uses them")
    given = parser.parse_args()
    if given.list:
        list_all()
    else:
        sys.exit(install(missing()))


if __name__ == "__main__":
    main()
