"""Builds a static library of `wlb`, `wlb_hub` or `wlb_client`, as `crates/NAME/out/libNAME.a`.

It takes the libraries below as `rt ci` has left them in this checkout, if these are newer than their files, and else builds all of
them by `rt lib`. Then `rattle build` proves and builds the static library.

Beside the archive it leaves

- `NAME.bc`, the LLVM module that the compiler was given. `tools/wasm.py` makes the WebAssembly module of it. For that it names the
  baseline processor `x86-64`, so the module has no special instructions.
- `NAME.proof`, the record of the proof: the last line of rattle's verdict, the kit's line, and the SHA-256 of archive and module.
"""

import argparse
import hashlib
import os
import pathlib
import shlex
import shutil
import subprocess
import sys
import tempfile
import typing

import argument_types
from rlibs import TOP, below, build_missing, kit_folder, kit_line, listed, rlib_of, tell_other_logic

CPU = "x86-64"
# Beginning of the last line of a verdict.
VERDICT = "logic=proved "
KEEPING_CLANG = """#!/bin/sh
for word in "$@"; do
    case $word in *.bc|*.ll) cp "$word" {kept}/ ;; esac
done
case " $* " in *" {last} "*) printf '%s\\n' "$@" > {words}; exit 1 ;; esac
exec {clang} "$@"
"""


def module_of(name):
    """Returns where this tool leaves the LLVM module of a static library."""
    return TOP / "crates" / name / "out" / f"{name}.bc"


class Proof(typing.NamedTuple):
    """Record of the proof of a static library."""

    verdict: str
    kit: str


def hash_of(file):
    return hashlib.sha256(file.read_bytes()).hexdigest()


def hash_lines(name, folder):
    """Returns the lines of a record on the archive in a folder, and on the module if there is one."""
    return [f"{hash_of(folder / file)}  {file}" for file in (f"lib{name}.a", f"{name}.bc") if (folder / file).is_file()]


def write_proof(name, folder, proof):
    (folder / f"{name}.proof").write_text("\n".join([*proof, *hash_lines(name, folder), ""]), encoding="utf-8")


def proof_of(name, folder):
    """Returns the record of a library's proof in a folder, or None if the archive, or a module beside it, is not that of the record."""
    record, archive = folder / f"{name}.proof", folder / f"lib{name}.a"
    if not record.is_file() or not archive.is_file():
        return None
    verdict, kit, *lines = [*record.read_text(encoding="utf-8").splitlines(), "", ""]
    found = hash_lines(name, folder)
    is_proved = verdict.startswith(VERDICT) and lines[: len(found)] == found
    return Proof(verdict, kit) if is_proved else None


def rattle_words(name, kit):
    """Returns the command that proves and compiles a static library, without the toolchain and the output."""
    crates = listed()
    libraries = below(name, crates)
    words = [kit / "bin" / "rattle", "build", "--crate-name", name, TOP / "crates" / name / "src" / "lib.rt"]
    for library in sorted({"std", *libraries} - {*crates}):
        words += ["--extern", f"{library}={kit}/rlibs/{library}.rlib"]
    words += ["-L", f"dependency={kit}/rlibs"]
    for library in libraries:
        if library not in crates:
            continue
        built = rlib_of(library)
        words += ["--extern", f"{library}={built}", "-L", f"dependency={built.parent}"]
    words += ["--antt-project", kit / "rattle" / "logic" / "antt-project.json", "--logic-built", kit / "logic_built"]
    return [*words, "--links", f"{name}=", "--crate-type", "staticlib", "--backend", "llvm"]


def keeping_toolchain(kit, room, last="no such flag"):
    """Makes a folder that stands for the kit's toolchain, and returns it.

    Its `clang` keeps the modules that it is given in `room / "kept"`. A call with the flag `last` is not carried out: `clang` fails
    after it has kept the module, and its words in `room / "words"`."""
    real, folder, kept = kit / "toolchain", room / "toolchain", room / "kept"
    (folder / "bin").mkdir(parents=True)
    kept.mkdir()
    (folder / "lib").symlink_to(real / "lib")
    for file in (real / "bin").iterdir():
        if file.name != "clang":
            (folder / "bin" / file.name).symlink_to(file)
    clang = folder / "bin" / "clang"
    places = {"kept": kept, "words": room / "words", "clang": real / "bin" / "clang"}
    script = KEEPING_CLANG.format(last=last, **{place: shlex.quote(str(path)) for place, path in places.items()})
    clang.write_text(script, encoding="utf-8")
    clang.chmod(0o755)
    return folder


def build(name, jobs):
    """Builds the static library, and returns the status."""
    folder = TOP / "crates" / name
    build_missing([name])
    kit, archive = kit_folder(), folder / "out" / f"lib{name}.a"
    archive.parent.mkdir(exist_ok=True)
    (archive.parent / f"{name}.proof").unlink(missing_ok=True)
    with tempfile.TemporaryDirectory() as place:
        room = pathlib.Path(place)
        words = [*rattle_words(name, kit), "--cpu", CPU, "--jobs", jobs, "--toolchain", keeping_toolchain(kit, room), "-o", archive]
        ran = subprocess.run([str(word) for word in words], cwd=folder, capture_output=True, text=True, check=False)
        if ran.returncode:
            sys.stderr.write((ran.stdout + ran.stderr)[-4000:])
            return ran.returncode
        modules = list((room / "kept").iterdir())
        if len(modules) != 1:
            sys.exit(f"archive: the compiler was given {len(modules)} modules of {name}, not one: install the kit that README.md names")
        verdicts = [line for line in (ran.stdout + ran.stderr).splitlines() if line.startswith(VERDICT)]
        if not verdicts:
            sys.exit(f"archive: rattle gave no verdict on {name}: install the kit that README.md names")
        shutil.move(modules[0], module_of(name))
    write_proof(name, archive.parent, Proof(verdicts[-1], kit_line()))
    return 0


def main():
    parser = argparse.ArgumentParser(description=__doc__, formatter_class=argparse.RawDescriptionHelpFormatter)
    parser.add_argument("name", choices=["wlb_hub", "wlb_client"], help="the library")
    parser.add_argument("--jobs", metavar="N", type=argument_types.number(1), default=os.cpu_count(), help="jobs of rattle (one for each processor)")
    given = parser.parse_args()
    tell_other_logic()
    sys.exit(build(given.name, given.jobs))


if __name__ == "__main__":
    main()
