"""Makes the files of a release from a proved tree, in the folder FOLDER:

- `wlb-VERSION.tar.gz`, the sources of the commit;
- `wlb-VERSION-linux-x86_64.tar.gz`, the C libraries with their header, a `wlb.pc` that works in any folder, the licences, and
  `PROOF` with the prover's last line for each library, the kit's line and the commit;
- `wlb-VERSION.tgz`, the npm package;
- `SHA256SUMS`, written last.

It takes the static libraries that `tools/archive.py` has proved, from the folders ARCHIVES. It refuses a tree with changes that no
commit has, an archive that is older than the files below it or does not fit its record, and WebAssembly modules that are not those
of the archives (`tools/modules.py compare`). Before it writes a file it unpacks each one in a folder elsewhere, where the modules
have to fit the sources, and the C and the JavaScript program of README.md have to run.

The same commit and kit make the same bytes. Publishing the files is up to a person.
"""

import argparse
import gzip
import hashlib
import io
import json
import os
import pathlib
import platform
import re
import shutil
import subprocess
import sys
import tarfile
import tempfile

import archive
import argument_types
import library
import packages
import rlibs
from checks import readme_block
from rlibs import TOP

VERSION = library.VERSION
NAME = f"wlb-{VERSION}"
BINARY = f"{NAME}-linux-x86_64"
SUMS = "SHA256SUMS"
ARCHIVES = [TOP / "crates" / name / "out" for name in library.LIBRARIES]
LICENCES = ["LICENSE-MIT", "LICENSE-APACHE"]
# Licences of the kit's crates that the libraries contain. npm packs every file whose name begins with LICENSE.
THIRD_PARTY = "LICENSE-THIRD-PARTY"
USED = re.compile(r"^\s*(?:pub )?use (\w+)::", re.MULTILINE)
# What the programs of README.md print. The threads of the JavaScript one print their lines in any order.
SAID_IN_C, SAID_IN_JAVASCRIPT = "tab 1 holds the lock db\n", ["one holds the lock db", "two holds the lock db"]
README = """# wlb {version} for Linux x86-64

The hub and the client of a proved Web Locks broker, as C libraries. `include/wlb.h` says what each call does. `PROOF` has the prover's
last line for each library. In this folder, `tab.c` prints `tab 1 holds the lock db`:

    export PKG_CONFIG_PATH="$PWD/lib/pkgconfig" LD_LIBRARY_PATH="$PWD/lib"
    cc tab.c $(pkg-config --cflags --libs wlb) -o tab && ./tab

The licence is MIT or Apache-2.0. `LICENSE-THIRD-PARTY` has the licences of the crates that the libraries contain.
"""


def stop(why):
    sys.exit(f"dist: {why}")


def output_of(*words, **how):
    """Returns what a command prints. Ends the tool with what it says if it fails."""
    words = [str(word) for word in words]
    ran = subprocess.run(words, stdin=subprocess.DEVNULL, capture_output=True, check=False, **how)
    if ran.returncode:
        sys.stderr.write((ran.stdout + ran.stderr).decode(errors="replace")[-4000:])
        stop(f"`{' '.join(words[:3])}` has failed with status {ran.returncode}")
    return ran.stdout


def git(*words):
    return output_of("git", *words, cwd=TOP)


# ---- Refusals


def refuse_other_machine():
    if (platform.system(), platform.machine()) != ("Linux", "x86_64"):
        stop("the binary archive is for Linux x86-64, so only such a machine makes it")


def refuse_changes():
    if not (TOP / ".git").exists():
        stop("this is no clone of a git repository: the source archive is made from a commit")
    changes = git("status", "--porcelain").decode().splitlines()
    if changes:
        stop(f"{changes[0][3:]} differs from the commit ({len(changes)} such files): commit or remove them")


def refuse_other_version():
    """The version stands in three files."""
    named = json.loads((TOP / "js" / "package.json").read_text(encoding="utf-8"))["version"]
    if named != VERSION:
        stop(f"js/package.json has the version {named}, and tools/library.py {VERSION}: write the same")
    if f"**Status:** {VERSION}" not in (TOP / "README.md").read_text(encoding="utf-8"):
        stop(f"the status in README.md is not {VERSION}, the version of tools/library.py: write the same")


def archive_file(name, archives):
    """Returns the archive of a library. Ends the tool if its record does not fit it."""
    return library.archive_of(name, archives)[0]


def refuse_older(archives):
    """An archive has to be newer than the files of its crate and of those below it."""
    crates = rlibs.listed()
    for name in library.LIBRARIES:
        archived = archive_file(name, archives)
        for crate in [*rlibs.own_below([name], crates), name]:
            for file in (path for folder in rlibs.parts_of(crate) for path in folder.rglob("*") if path.is_file()):
                if file.stat().st_mtime > archived.stat().st_mtime:
                    stop(f"{archived} is older than {file.relative_to(TOP)}: `python3 tools/archive.py {name}` proves it again")


def refuse_other_modules(archives):
    words = [sys.executable, TOP / "tools" / "modules.py", "compare", *archives]
    if subprocess.run([str(word) for word in words], check=False).returncode:
        stop("the modules of js/dist are not those of the proved libraries: see above")


# ---- The archives


def kit_crates(sources):
    """Returns the names of the kit's crates that the libraries contain: those of `crates.txt`, and those that these use."""
    crates = rlibs.listed()
    left, found = {it for name in library.LIBRARIES for it in rlibs.below(name, crates)} - {*crates}, set()
    while left:
        name = left.pop()
        found.add(name)
        texts = (file.read_text(encoding="utf-8") for file in (sources / name / "src").rglob("*.rt"))
        used = {it for text in texts for it in USED.findall(text) if (sources / it).is_dir()}
        left |= used - found
    return sorted(found)


def third_party():
    """Returns the licences of the kit's crates that the libraries contain, each behind the names of its crates."""
    sources, found = rlibs.kit_folder() / "rattle", {}
    for name in kit_crates(sources):
        for file in sorted((sources / name).glob("LICENSE*")):
            found.setdefault(file.read_text(encoding="utf-8").strip(), []).append(f"{name}: {file.name}")
    return f"\n{'-' * 80}\n\n".join("\n".join([*heads, "", text, ""]) for text, heads in found.items())


def proof_of(archives):
    """Returns what the prover said of each library, with the kit's line and the commit."""
    lines = []
    for name in library.LIBRARIES:
        verdict, kit = archive.proof_of(name, archive_file(name, archives).parent)
        lines += [f"library {name}", f"kit {kit}", verdict, ""]
    return "\n".join([*lines, f"commit {git('rev-parse', 'HEAD').decode()}"])


def packed(folder, name, seconds):
    """Returns the archive of a folder, which unpacks to the folder `name`. Only names, bytes and `seconds` decide its bytes."""

    def plain(entry):
        entry.mtime, entry.uid, entry.gid, entry.uname, entry.gname = seconds, 0, 0, "", ""
        entry.mode = 0o755 if entry.isdir() or entry.issym() else 0o644
        return entry

    room = io.BytesIO()
    with tarfile.open(fileobj=room, mode="w", format=tarfile.USTAR_FORMAT) as file:
        for path in [folder, *sorted(folder.rglob("*"))]:
            file.add(path, name / path.relative_to(folder), recursive=False, filter=plain)
    return zipped(room.getvalue())


def zipped(data):
    room = io.BytesIO()
    with gzip.GzipFile(filename="", fileobj=room, mode="wb", mtime=0) as file:
        file.write(data)
    return room.getvalue()


def unpack(data, folder):
    with tarfile.open(fileobj=io.BytesIO(data)) as file:
        file.extractall(folder)


def sources():
    return zipped(git("archive", "--format=tar", f"--prefix={NAME}/", "HEAD"))


def binaries(archives, room, seconds):
    """Returns the archive of the C libraries, which it makes from the archives."""
    made, folder = room / "made", room / "binaries"
    library.build_all(archives, made, pathlib.Path("/usr/local"))
    library.install(made, pathlib.Path("/"), folder, takes_unproved=False)
    library.write_pkg_config(folder / "lib" / "pkgconfig" / "wlb.pc", "${pcfiledir}/../..")
    for name in LICENCES:
        shutil.copy(TOP / name, folder)
    texts = {THIRD_PARTY: third_party(), "PROOF": proof_of(archives), "README.md": README.format(version=VERSION), "tab.c": readme_block("c")}
    for name, text in texts.items():
        (folder / name).write_text(text, encoding="utf-8")
    return packed(folder, pathlib.Path(BINARY), seconds)


def npm_package(room):
    """Returns the npm package of the commit's folder `js`, with the licences."""
    unpack(git("archive", "--format=tar", "HEAD", "js", *LICENCES), room)
    folder = room / "js"
    for name in LICENCES:
        (room / name).rename(folder / name)
    (folder / THIRD_PARTY).write_text(third_party(), encoding="utf-8")
    for path in folder.rglob("*"):
        path.chmod(0o755 if path.is_dir() else 0o644)
    environment = {**os.environ, "npm_config_cache": str(room / "cache"), "npm_config_update_notifier": "false"}
    output_of("npm", "pack", "--ignore-scripts", "--offline", "--pack-destination", room, cwd=folder, env=environment)
    return (room / f"{NAME}.tgz").read_bytes()


# ---- The archives, unpacked


def expect(what, found, wanted):
    if found != wanted:
        stop(f"{what} prints {found!r}, not {wanted!r}")


def check_sources(data, room):
    """The modules of the source archive fit its sources."""
    unpack(data, room)
    output_of(sys.executable, room / NAME / "tools" / "modules.py", "check")


def check_binaries(data, room):
    """The program of README.md runs over the shared and over the static libraries, and these say that they are proved."""
    unpack(data, room)
    folder = room / BINARY
    (room / "build.c").write_text("#include <stdio.h>\n#include <wlb.h>\nint main(void) { puts(wlb_build()); }\n", encoding="utf-8")
    environment = {**os.environ, "PKG_CONFIG_PATH": str(folder / "lib" / "pkgconfig"), "LD_LIBRARY_PATH": str(folder / "lib")}
    flags = output_of("pkg-config", "--cflags", "--libs", "wlb", env=environment).decode().split()
    static = [f"-I{folder / 'include'}", *(folder / "lib" / f"lib{name}.a" for name in library.LIBRARIES)]
    built = f"proved, {rlibs.kit_line()}\n"
    for source, wanted in [(folder / "tab.c", SAID_IN_C), (room / "build.c", built)]:
        for libraries in (flags, static):
            output_of("cc", source, *libraries, "-o", room / "program")
            expect(source.name, output_of(room / "program", env=environment).decode(), wanted)


def check_npm_package(data, room):
    """The JavaScript program of README.md runs over the package's files."""
    unpack(data, room)
    (room / "node_modules").mkdir()
    (room / "package").rename(room / "node_modules" / "wlb")
    (room / "lock.mjs").write_text(readme_block("js"), encoding="utf-8")
    expect("lock.mjs", sorted(output_of("node", "lock.mjs", cwd=room).decode().splitlines()), SAID_IN_JAVASCRIPT)


def write(files, folder):
    """Writes the files, and their sums last. A run that is cut off leaves no sums."""
    sums = "".join(f"{hashlib.sha256(data).hexdigest()}  {name}\n" for name, data in sorted(files.items()))
    try:
        folder.mkdir(parents=True, exist_ok=True)
        (folder / SUMS).unlink(missing_ok=True)
        for name, data in [*files.items(), (SUMS, sums.encode())]:
            part = folder / f".{name}.part"
            part.write_bytes(data)
            part.replace(folder / name)
    except OSError as error:
        stop(f"{folder} cannot be written: {error.strerror}: give another folder")
    print(sums, end="")


def main():
    parser = argparse.ArgumentParser(description=__doc__, formatter_class=argparse.RawDescriptionHelpFormatter)
    parser.add_argument("folder", metavar="FOLDER", nargs="?", type=argument_types.new_folder, default=TOP / "build" / "dist", help="build/dist")
    parser.add_argument("--archives", metavar="ARCHIVES", type=argument_types.folder, nargs="+", default=ARCHIVES, help="folders with static libraries")
    given = parser.parse_args()
    for command in ("git", "cc", "pkg-config", "node", "npm"):
        argument_types.need_command(command, packages.hint(command))
    refuse_other_machine()
    refuse_changes()
    refuse_other_version()
    refuse_older(given.archives)
    refuse_other_modules(given.archives)
    seconds = int(git("log", "-1", "--format=%ct"))
    with tempfile.TemporaryDirectory(prefix="wlb-dist-") as place:
        rooms = {name: pathlib.Path(place, name) for name in ("binary", "npm", "check-source", "check-binary", "check-npm")}
        for room in rooms.values():
            room.mkdir()
        files = {
            f"{NAME}.tar.gz": sources(),
            f"{BINARY}.tar.gz": binaries(given.archives, rooms["binary"], seconds),
            f"{NAME}.tgz": npm_package(rooms["npm"]),
        }
        check_sources(files[f"{NAME}.tar.gz"], rooms["check-source"])
        check_binaries(files[f"{BINARY}.tar.gz"], rooms["check-binary"])
        check_npm_package(files[f"{NAME}.tgz"], rooms["check-npm"])
    write(files, given.folder)
    print(f"{given.folder} has the files of release {VERSION}; to publish them, see CONTRIBUTING.md")


if __name__ == "__main__":
    main()
