"""Makes the C libraries of `wlb` from their archives, and installs them.

`build` takes `libwlb_hub.a` and `libwlb_client.a`, as `tools/archive.py` builds them, from the folders ARCHIVES. It refuses an archive
without a record `NAME.proof` that fits it. Into the folder BUILD it writes an archive of each that needs nothing but the C library, a
shared library of each, `wlb.pc` for pkg-config, and last the record `wlb.build`. An archive has two objects: `wlb_build`, and that of
the static library with the functions of the kit's `liblibc_c.a`, which call `malloc`. Only the functions of `include/wlb.h` are
visible outside of it.

`install` copies the header, the libraries and `wlb.pc` to PREFIX, below DESTDIR if it is given. It refuses libraries that their record
does not fit, and those that `tools/unproved.py` has compiled unless `--unproved` is given.

It needs `cc`, `ar` and `objcopy`. It asks `rt` for the folder of the kit.
"""

import argparse
import os
import pathlib
import re
import shutil
import subprocess
import sys
import tempfile

import argument_types
import packages
from archive import hash_of, proof_of
from rlibs import TOP, kit_folder

HEADER = TOP / "include" / "wlb.h"
LIBRARIES = ["wlb_hub", "wlb_client"]
# Function of both libraries, which `functions_of` leaves out, and its source.
BUILD_FUNCTION, BUILD_SOURCE = "wlb_build", TOP / "tools" / "wlb_build.c"
# File of a folder with libraries: what `wlb_build` returns, and the hash of each library. It is written last.
RECORD = "wlb.build"
PROVED, UNPROVED = "proved", "not proved"
# The version of the interface. The first part is that of the shared libraries.
VERSION = "0.1.0"
DESCRIPTION = "Hub and client of a proved Web Locks broker"
PKG_CONFIG = """prefix={prefix}
includedir={include}
libdir={lib}

Name: wlb
Description: {description}
Version: {version}
Cflags: -I${{includedir}}
Libs: {flags}-L${{libdir}} -lwlb_hub -lwlb_client
"""


def run(*words):
    subprocess.run([str(word) for word in words], check=True)


def kit_archive():
    """Returns the kit's archive of functions over the C library."""
    archive = kit_folder() / "c" / "liblibc_c.a"
    if not archive.is_file():
        sys.exit(f"library: the kit has no {archive}: install the kit that README.md names")
    return archive


def archive_of(name, folders):
    """Returns the archive of a library and the kit's line of its proof. Ends the tool if it is not the archive of its proof."""
    for folder in folders:
        archive = folder / f"lib{name}.a"
        if not archive.is_file():
            continue
        proof = proof_of(name, folder)
        if not proof:
            sys.exit(f"library: {archive} is not the archive of a proof {name}.proof beside it: `python3 tools/archive.py {name}` proves and builds it")
        return archive, proof.kit
    sys.exit(f"library: no lib{name}.a in {' '.join(map(str, folders))}: `python3 tools/archive.py {name}` builds it")


def functions_of(name):
    """Returns the names of the functions that the header declares for a library."""
    header = HEADER.read_text(encoding="utf-8")
    return sorted(re.findall(rf"^(?:int32_t|void|bool) ({name}_\w+)\(", header, re.MULTILINE))


def compile_build(says, folder):
    """Compiles the object whose function returns how the libraries were built."""
    made = folder / f"{BUILD_FUNCTION}.o"
    run("cc", "-O2", "-fPIC", "-c", "-I", HEADER.parent, f'-DWLB_BUILD="{says}"', "-o", made, BUILD_SOURCE)
    return made


def join(name, given, kit, says, made):
    """Makes the archive of a library or an object. No other names than those of the header are visible in it."""
    keep = [f"--keep-global-symbol={function}" for function in functions_of(name)]
    with tempfile.TemporaryDirectory() as place:
        folder = pathlib.Path(place)
        whole, part = folder / "whole.o", folder / f"{name}.o"
        run("cc", "-r", "-nostdlib", "-o", whole, "-Wl,--whole-archive", given, "-Wl,--no-whole-archive", kit)
        run("objcopy", *keep, "--strip-debug", whole, part)
        run("ar", "rcsD", made, part, compile_build(says, folder))


def versioned(stem):
    """Returns the name of a shared library with the first part of its version."""
    return f"{stem}.so.{VERSION.split('.', maxsplit=1)[0]}"


def share(name, archive, build, *flags):
    """Makes the shared library, with a second name for the linker."""
    file = versioned(f"lib{name}")
    hardened = ["-shared", f"-Wl,-soname,{file}", "-Wl,-z,defs", "-Wl,-z,relro", "-Wl,-z,now"]
    run("cc", *hardened, *flags, "-o", build / file, "-Wl,--whole-archive", archive, "-Wl,--no-whole-archive")
    # A second name of the file, since `rt ci` refuses links in the repository.
    os.link(build / file, build / f"lib{name}.so")


def need_tools():
    for name in ("cc", "ar", "objcopy"):
        argument_types.need_command(name, packages.hint("cc" if name == "cc" else "objcopy"))


def make_library(name, given, says, build, *flags):
    """Makes archive and shared library of an archive or an object in a folder. The linker gets the flags for the shared library."""
    archive = build / f"lib{name}.a"
    join(name, given, kit_archive(), says, archive)
    share(name, archive, build, *flags)


def files_of(build):
    """Returns the libraries in a folder."""
    return sorted(build.glob("libwlb_*"))


def write_record(says, build):
    lines = [f"{hash_of(file)}  {file.name}" for file in files_of(build)]
    (build / RECORD).write_text("\n".join([says, *lines, ""]), encoding="utf-8")


def says_of(build):
    """Returns what `wlb_build` of a folder's libraries returns. Ends the tool if its record does not fit the libraries."""
    record = build / RECORD
    says, *lines = record.read_text(encoding="utf-8").splitlines() if record.is_file() else [""]
    if not files_of(build) or lines != [f"{hash_of(file)}  {file.name}" for file in files_of(build)]:
        sys.exit(f"library: {build} has no whole build of the libraries: `make lib` makes them")
    return says


def build_all(folders, build, prefix):
    """Makes the libraries of proved archives in a folder, and the record last."""
    need_tools()
    found = {name: archive_of(name, folders) for name in LIBRARIES}
    kits = sorted({kit for _, kit in found.values()})
    if len(kits) > 1:
        sys.exit(f"library: the archives are of different kits, {' and '.join(kits)}: build both with one kit")
    build.mkdir(parents=True, exist_ok=True)
    with tempfile.TemporaryDirectory(dir=build, prefix=".libraries-") as place:
        room = pathlib.Path(place)
        says = f"{PROVED}, {kits[0]}"
        for name, (archive, _) in found.items():
            make_library(name, archive, says, room)
        write_pkg_config(room / "wlb.pc", prefix)
        write_record(says, room)
        (build / RECORD).unlink(missing_ok=True)
        for file in [*files_of(room), room / "wlb.pc", room / RECORD]:
            file.replace(build / file.name)


def write_pkg_config(file, prefix, description=DESCRIPTION, include="${prefix}/include", lib="${prefix}/lib", flags=""):
    places = {"prefix": prefix, "include": include, "lib": lib}
    text = PKG_CONFIG.format(**places, description=description, version=VERSION, flags=flags and f"{flags} ")
    file.write_text(text, encoding="utf-8")


def install(build, prefix, below, takes_unproved):
    says = says_of(build)
    if not says.startswith(f"{PROVED}, ") and not takes_unproved:
        sys.exit(f"library: the libraries in {build} are not proved: `make lib` makes proved ones, and `--unproved` installs these")
    root = pathlib.Path(f"{below}{prefix}") if below else prefix
    include, lib = root / "include", root / "lib"
    (lib / "pkgconfig").mkdir(parents=True, exist_ok=True)
    include.mkdir(parents=True, exist_ok=True)
    shutil.copy(HEADER, include)
    for file in files_of(build):
        (lib / file.name).unlink(missing_ok=True)
        if file.suffix == ".so":
            (lib / file.name).symlink_to(versioned(file.stem))
        else:
            shutil.copy(file, lib)
    write_pkg_config(lib / "pkgconfig" / "wlb.pc", prefix, description_of(says))


def description_of(says):
    """Returns the description in `wlb.pc` of libraries whose `wlb_build` returns this."""
    return DESCRIPTION if says.startswith(f"{PROVED}, ") else f"{DESCRIPTION}, compiled with nothing proved"


def main():
    parser = argparse.ArgumentParser(description=__doc__, formatter_class=argparse.RawDescriptionHelpFormatter)
    parser.add_argument("--prefix", metavar="PREFIX", type=pathlib.Path, default="/usr/local", help="where to install (/usr/local)")
    parts = parser.add_subparsers(dest="part", required=True)
    builder = parts.add_parser("build", help="make the libraries")
    builder.add_argument("build", metavar="BUILD", type=argument_types.new_folder, help="the folder that is written")
    builder.add_argument("archives", metavar="ARCHIVES", type=argument_types.folder, nargs="+", help="a folder with static libraries")
    installer = parts.add_parser("install", help="copy what was made")
    installer.add_argument("build", metavar="BUILD", type=argument_types.folder, help="the folder that `build` has written")
    installer.add_argument("--destdir", metavar="DESTDIR", default="", help="a folder that stands for the root")
    installer.add_argument("--unproved", action="store_true", help="also install libraries that were compiled with nothing proved")
    given = parser.parse_args()
    prefix = given.prefix.absolute()
    if given.part == "build":
        build_all(given.archives, given.build, prefix)
    else:
        install(given.build, prefix, given.destdir, given.unproved)


if __name__ == "__main__":
    main()
