"""Built libraries (rlibs) of the crates, as `rt ci` or `rt lib` has left them in this checkout."""

import pathlib
import re
import subprocess
import sys

import argument_types

TOP = pathlib.Path(__file__).resolve().parent.parent
# The folders of a crate that a check reads.
PARTS = ("src", "specs", "proofs")


def kit_folder():
    """Returns the folder of the kit: that of its first document."""
    argument_types.need_command("rt", "install the Rattle kit that README.md names")
    said = subprocess.run(["rt", "doc"], capture_output=True, text=True, check=True).stdout
    return pathlib.Path(said.splitlines()[0]).parent


def kit_line():
    """Returns what `rt version` prints: the kit's name, and the sum of its logic behind the word `logic`."""
    argument_types.need_command("rt", "install the Rattle kit that README.md names")
    return subprocess.run(["rt", "version"], capture_output=True, text=True, check=True).stdout.strip()


def tell_other_logic():
    """Prints a line if the kit has another logic than the one that README.md names."""
    wanted = re.search(r"`logic (\w+)`", (TOP / "README.md").read_text(encoding="utf-8"))[1]
    if kit_line().split()[-1] != wanted:
        print(f"the kit `{kit_line()}` has not the logic {wanted}: it may refuse the proofs. Install a kit of this logic", file=sys.stderr)


def listed():
    """Returns the libraries that each crate of `crates.txt` stands on."""
    found = {}
    for line in (TOP / "crates.txt").read_text(encoding="utf-8").splitlines():
        head, _, below = line.partition("#")[0].partition(":")
        if head.strip():
            found[head.split()[0]] = below.split()
    return found


def below(name, crates):
    """Returns all libraries below a crate, also those of the kit, each after those that it stands on."""
    order = []

    def visit(library):
        for lower in crates.get(library, []):
            visit(lower)
        if library not in order:
            order.append(library)

    for library in crates[name]:
        visit(library)
    return order


def own_below(names, crates):
    """Returns the repository's libraries below these crates, each after those that it stands on."""
    return list(dict.fromkeys(library for name in names for library in below(name, crates) if library in crates))


def rlib_of(library):
    """Returns the folder of a built library."""
    return TOP / "crates" / library / "out" / "rlib" / f"{library}.rlib"


def parts_of(crate):
    """Returns the folders of a crate that a check reads."""
    return [folder for folder in (TOP / "crates" / crate / part for part in PARTS) if folder.is_dir()]


def is_left_by_gate(library):
    """Returns whether `rt ci` has built a library of the crate's files as they are. A library that it put back has a stamp."""
    built = rlib_of(library)
    if not built.is_dir() or (built.parent / "stamp").is_file():
        return False
    files = [path for folder in parts_of(library) for path in [folder, *folder.rglob("*")]]
    return all(path.stat().st_mtime <= built.stat().st_mtime for path in files)


def build_missing(names):
    """Builds the libraries below these crates, unless `rt ci` has left all of them. Ends the tool if one is not proved."""
    needed = own_below(names, listed())
    missing = [library for library in needed if not is_left_by_gate(library)]
    if not missing:
        return
    argument_types.need_command("rt", "install the Rattle kit that README.md names")
    print(f"builds {len(needed)} libraries first, since `rt ci` has not left {' '.join(missing)}", file=sys.stderr, flush=True)
    for library in needed:
        ran = subprocess.run(["rt", "lib"], cwd=TOP / "crates" / library, stdout=subprocess.DEVNULL, check=False)
        if ran.returncode:
            sys.exit(f"`rt lib` has failed in crates/{library} with status {ran.returncode}")
