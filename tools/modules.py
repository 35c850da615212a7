"""Keeps the WebAssembly modules of the JavaScript package, which the repository has in `js/dist`, in step with their sources.

`SHA256SUMS` in that folder has the sums of the modules, the line of the kit that built them, and a sum over their sources. The sources are
the code of the crates of both C libraries, their lines of `crates.txt`, `js/wasm/*.c`, the tools that build the modules, and the names
of the functions of `include/wlb.h`. Comments, contracts and proofs do not count (`tools/compiled_text.py`).

- `check` compares modules and sources with `SHA256SUMS`. It needs neither the kit nor a compiler.
- `renew` builds the modules from the proved libraries in the folders ARCHIVES (`tools/wasm.py`), and replaces `js/dist`.
- `compare` does what `check` does, then builds the modules from the folders ARCHIVES, and compares their bytes with those of `js/dist`.
  Another kit of the same logic may build other bytes. Then the new modules have to play the test vectors of the protocol, and
  the difference is printed.

Each part prints a line for each difference. The status is 1 if something has to be mended.
"""

import argparse
import hashlib
import os
import pathlib
import re
import shlex
import subprocess
import sys
import tempfile

import argument_types
import compiled_text
import js
import library
import wasm
from archive import CPU, hash_of
from rlibs import TOP, kit_line, listed, own_below

FOLDER = TOP / "js" / "dist"
MODULES = [f"{name}32.wasm" for name in wasm.LIBRARIES]
SUMS = "SHA256SUMS"
# Tools whose code decides the bytes of the modules.
TOOLS = ["wasm.py", "lower.py"]
MEND = "`make wasm` builds the modules anew"
RESTORE = "`git checkout js/dist` restores it, or `make wasm` builds the modules anew"
CLIENT = ["node", "js/lab/vectors.js"]
SUMS_TEXT = """# WebAssembly modules of the proved C libraries. `make wasm` builds them and writes this file.
# kit: {kit}
# sources: {sources}
{modules}"""
KIT_LINE = re.compile(r"^# kit: (.* logic \w+)$", re.MULTILINE)
SOURCES_LINE = re.compile(r"^# sources: ([0-9a-f]{64})$", re.MULTILINE)
MODULE_LINE = re.compile(r"^([0-9a-f]{64})  (\S+)$", re.MULTILINE)


def shown(path):
    """Returns a path as a message has it: from the top of the repository on."""
    return os.path.relpath(path, TOP)


# ---- Sources


def source_files(crates):
    """Returns the files whose code decides the bytes of the modules."""
    files = [file for crate in crates for file in (TOP / "crates" / crate / "src").rglob("*") if file.is_file()]
    return sorted([*files, *wasm.SOURCES, *(TOP / "tools" / tool for tool in TOOLS)])


def sum_of_sources():
    """Returns the sum over everything that decides the bytes of the modules but the kit."""
    crates = listed()
    names = sorted([*own_below(wasm.LIBRARIES, crates), *wasm.LIBRARIES])
    parts = [f"{name}: {' '.join(crates[name])}" for name in names]
    parts += [f"{file.relative_to(TOP)}\n{compiled_text.of_file(file)}" for file in source_files(names)]
    parts += [f"{name}: {' '.join(library.functions_of(name))}" for name in wasm.LIBRARIES]
    parts += [f"processor: {CPU}"]
    return hashlib.sha256("\0".join(parts).encode()).hexdigest()


# ---- The record


class Record:
    """Contents of SHA256SUMS. A part that the file does not have is None."""

    def __init__(self, text):
        kit, sources = KIT_LINE.search(text), SOURCES_LINE.search(text)
        self.kit, self.sources = kit and kit[1], sources and sources[1]
        self.modules = {name: module for module, name in MODULE_LINE.findall(text)}


def logic_of(kit):
    return kit.rpartition(" logic ")[2]


def record_of(folder):
    """Returns the contents of SHA256SUMS, or None if the file lacks a line."""
    sums = folder / SUMS
    record = Record(sums.read_text(encoding="utf-8", errors="replace")) if sums.is_file() else None
    return record if record and record.kit and record.sources and sorted(record.modules) == sorted(MODULES) else None


def damage_of(folder):
    """Returns a line for each file of the folder that is missing, or differs from SHA256SUMS."""
    record, sums = record_of(folder), folder / SUMS
    if not record:
        return [f"{shown(sums)} {'lacks a line that this tool writes' if sums.is_file() else 'is missing'}: {RESTORE}"]
    found = []
    for name in MODULES:
        module = folder / name
        if not module.is_file():
            found.append(f"{shown(module)} is missing: {RESTORE}")
        elif hash_of(module) != record.modules[name]:
            found.append(f"{shown(module)} does not have its sum in {SUMS}: {RESTORE}")
    return found


def staleness_of(folder):
    """Returns a line if the sources are not those of SHA256SUMS."""
    record = record_of(folder)
    if not record or record.sources == sum_of_sources():
        return []
    return [f"the modules in {shown(folder)} are stale, because code that they are built from has changed: {MEND}"]


def differences_of(folder):
    return damage_of(folder) + staleness_of(folder)


# ---- Building


def proved(archives):
    """Returns the folders of the proved libraries. Ends the tool if there are none of the kit that is installed."""
    found, kit = [library.archive_of(name, archives) for name in wasm.LIBRARIES], kit_line()
    for archive, proof_kit in found:
        if proof_kit != kit:
            sys.exit(f"modules: {shown(archive)} was proved with `{proof_kit}`, and the kit here is `{kit}`: `python3 tools/archive.py {archive.stem.removeprefix('lib')}` proves it with this kit")
    return [archive.parent for archive, _ in found]


def renew(archives, folder):
    """Builds the modules beside the folder, then replaces those in it. SHA256SUMS comes last, so that `check` notices an interruption."""
    folders, sources = proved(archives), sum_of_sources()
    folder.mkdir(exist_ok=True)
    with tempfile.TemporaryDirectory(dir=folder.parent, prefix=".dist-") as place:
        room = pathlib.Path(place)
        wasm.build(folders, room)
        lines = "".join(f"{hash_of(room / name)}  {name}\n" for name in MODULES)
        (room / SUMS).write_text(SUMS_TEXT.format(kit=kit_line(), sources=sources, modules=lines), encoding="utf-8")
        for name in [*MODULES, SUMS]:
            os.replace(room / name, folder / name)
    for name in MODULES:
        print(f"{shown(folder / name)}: {(folder / name).stat().st_size} bytes")


def play_vectors(modules):
    """Plays the test vectors with the modules of a folder. Returns whether they pass."""
    if js.node_version() < js.OLDEST:
        sys.exit(f"modules: the vectors cannot be played: install Node of version {js.OLDEST} or later")
    words = [sys.executable, TOP / "tools" / "check_vectors.py", "--client", shlex.join(CLIENT)]
    return subprocess.run(words, cwd=TOP, env={**os.environ, "WLB_MODULES": str(modules)}, check=False).returncode == 0


def compare(archives, folder):
    """Compares new modules with those of the folder. Returns the status."""
    kit, record = kit_line(), record_of(folder)
    if logic_of(kit) != logic_of(record.kit):
        print(f"modules: the kit `{kit}` has another logic than the kit of the modules, `{record.kit}`: {MEND}")
        return 1
    folders = proved(archives)
    with tempfile.TemporaryDirectory() as place:
        room = pathlib.Path(place)
        wasm.build(folders, room)
        differing = [name for name in MODULES if hash_of(room / name) != record.modules[name]]
        if not differing:
            return 0
        which = f"the proved libraries give other bytes for {' and '.join(differing)} than {shown(folder)} has"
        if kit == record.kit:
            print(f"modules: {which}: {MEND}")
            return 1
        passed = play_vectors(room)
    result = "pass the test vectors" if passed else "do not pass the test vectors"
    print(f"modules: {which}, with another kit, `{kit}`. The new modules {result}: {MEND}")
    return 0 if passed else 1


def main():
    parser = argparse.ArgumentParser(description=__doc__, formatter_class=argparse.RawDescriptionHelpFormatter)
    parts = parser.add_subparsers(dest="part", required=True)
    parts.add_parser("check", help="compare modules and sources with SHA256SUMS")
    for name, meaning in [("renew", "build the modules and replace those of js/dist"), ("compare", "build the modules and compare their bytes")]:
        part = parts.add_parser(name, help=meaning)
        part.add_argument("archives", metavar="ARCHIVES", type=argument_types.folder, nargs="+", help="a folder with proved static libraries")
    given = parser.parse_args()
    try:
        if given.part == "renew":
            renew(given.archives, FOLDER)
            return 0
        found = differences_of(FOLDER)
        for difference in found:
            print(f"modules: {difference}")
        return 1 if found else compare(given.archives, FOLDER) if given.part == "compare" else 0
    except compiled_text.Unreadable as error:
        sys.exit(f"modules: {error}")
    except OSError as error:
        sys.exit(f"modules: {error.strerror}: {error.filename}: this needs a checkout that can be read and written")
    except KeyboardInterrupt:
        sys.exit("modules: interrupted: run it again")


if __name__ == "__main__":
    sys.exit(main())
