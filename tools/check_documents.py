"""Checks the documents of the repository: its files `*.md`.

A link has to lead to a file, and its anchor to a heading of that file. A path such as `tools/x.py` or `crates/x/src/y.rt`, and a
target such as `make x`, has to exist. A line outside of tables and of code has at most 130 characters.

Prints each fault with its file and line. The status is 1 if there is one. It needs `git` and a clone.
"""

import argparse
import pathlib
import re
import subprocess
import sys

TOP = pathlib.Path(__file__).resolve().parent.parent
LINE = 130

LINK = re.compile(r"\]\(([^)\s]+)\)")
# A path from the top of the repository, from the document's folder, or from `crates`.
PATH = re.compile(r"(?<![\w/.-])((?:crates|docs|examples|include|js|mutants|tools|vectors|wlb?_\w+)/[\w./-]*\w)")
# A placeholder such as NAME, or a folder that the build makes.
NOT_KEPT = re.compile(r"[A-Z]{3}|/out\b")
# In code, a target follows `make` at the head of a line; in text, in backticks.
TARGET = re.compile(r"^\s*make ([a-z][a-z-]*)")
QUOTED_TARGET = re.compile(r"`make ([a-z][a-z-]*)")


def documents():
    """Returns the documents that git knows or would add."""
    words = ["git", "ls-files", "--cached", "--others", "--exclude-standard", "*.md"]
    said = subprocess.run(words, cwd=TOP, capture_output=True, text=True, check=True).stdout
    return [TOP / name for name in sorted(said.splitlines()) if (TOP / name).is_file()]


def parts(path):
    """Returns the lines of a document, each with its number and whether it is code."""
    is_code = False
    for number, line in enumerate(path.read_text(encoding="utf-8").splitlines(), 1):
        is_fence = line.startswith("```")
        yield number, line, is_code or is_fence or line.startswith("    ")
        is_code = is_code != is_fence


def anchors(path):
    """Returns the anchors of a document's headings, as web hosts of git repositories make them."""
    texts = [line.lstrip("#") for _, line, is_code in parts(path) if line.startswith("#") and not is_code]
    return {re.sub(r"[^\w -]", "", text.strip().lower()).replace(" ", "-") for text in texts}


def targets():
    """Returns the targets of the Makefile."""
    return {*re.findall(r"^([a-z][a-z-]*):", (TOP / "Makefile").read_text(encoding="utf-8"), re.M)}


def faults_of_link(path, link):
    """Yields the fault of a link, if it has one. Links to other sites are not followed."""
    if re.match(r"[a-z]+:", link):
        return
    name, _, anchor = link.partition("#")
    file = (path.parent / name).resolve() if name else path
    if not file.exists():
        yield f"there is no file {name}"
    elif anchor and anchor not in anchors(file):
        yield f"{name or path.name} has no heading for #{anchor}"


def faults_of(path):
    """Yields the line number and the text of each fault of a document."""
    known = targets()
    for number, line, is_code in parts(path):
        for link in [] if is_code else LINK.findall(line):
            yield from ((number, fault) for fault in faults_of_link(path, link))
        for name in PATH.findall(LINK.sub("", line)):
            homes = (TOP, path.parent, TOP / "crates")
            if not NOT_KEPT.search(name) and not any((home / name).exists() for home in homes):
                yield number, f"there is no file {name}"
        for target in (TARGET if is_code else QUOTED_TARGET).findall(line):
            if target not in known:
                yield number, f"the Makefile has no target {target}"
        if len(line) > LINE and not is_code and not line.startswith("|"):
            yield number, f"the line has {len(line)} characters, above {LINE}"


def main():
    argparse.ArgumentParser(description=__doc__, formatter_class=argparse.RawDescriptionHelpFormatter).parse_args()
    said = [f"{path.relative_to(TOP)}:{number}: {fault}" for path in documents() for number, fault in faults_of(path)]
    print("\n".join(said), end="\n" if said else "")
    sys.exit(1 if said else 0)


if __name__ == "__main__":
    main()
