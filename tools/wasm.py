"""Makes the WebAssembly modules of `wlb`: `wlb_hub.wasm` and `wlb_client.wasm`, with the functions of `include/wlb.h`.

`tools/archive.py` has proved the two static libraries, and has kept the LLVM module that the compiler was given for each. This tool

1. writes another data layout, target and processor into that module;
2. compiles it together with `js/wasm/heap64.c` and `js/wasm/helpers64.c`, and links them. The result uses 64-bit memory;
3. writes the same module with 32-bit memory (`wlb_hub32.wasm`, `wlb_client32.wasm`) by `tools/lower.py`, for engines that have no
   64-bit memory. The functions of both take the same arguments: addresses and lengths are 64-bit integers.

The compiler and the linker are those of the kit.
"""

import argparse
import pathlib
import re
import subprocess
import sys
import tempfile

import argument_types
from archive import proof_of
from rlibs import TOP, kit_folder
from library import functions_of
from lower import lower

LIBRARIES = ["wlb_hub", "wlb_client"]
SOURCES = [TOP / "js" / "wasm" / "heap64.c", TOP / "js" / "wasm" / "helpers64.c"]
TARGET, CPU = "wasm64-unknown-unknown", "lime1"
LAYOUT = "e-m:e-p:64:64-p10:8:8-p20:8:8-i64:64-i128:128-n32:64-S128-ni:1:10:20"
HOST_EXPORTS = ["host_allocate", "host_free"]
STACK_BYTES = 1 << 20
# Edits of the module's text: what it is, the pattern, and what takes its place.
EDITS = [
    ("data layout", r"^target datalayout = .*$", f'target datalayout = "{LAYOUT}"'),
    ("target", r"^target triple = .*$", f'target triple = "{TARGET}"'),
    ("stack probes", r'"probe-stack"="inline-asm" |"stack-probe-size"="\d+" ', ""),
    ("processor", r'"target-cpu"="[\w-]+"', f'"target-cpu"="{CPU}"'),
]


def run(*words, **how):
    ran = subprocess.run([str(word) for word in words], check=False, **how)
    if ran.returncode:
        sys.exit(f"wasm: `{pathlib.Path(str(words[0])).name}` has failed with status {ran.returncode}")


def module_of(name, folders):
    """Returns the LLVM module of a library, which lies beside its archive. Ends the tool if it is not that of a proof."""
    for folder in folders:
        module = folder / f"{name}.bc"
        if module.is_file() and not proof_of(name, folder):
            sys.exit(f"wasm: {module} is not the module of a proof {name}.proof beside it: `python3 tools/archive.py {name}` proves and builds it")
        if module.is_file():
            return module
    sys.exit(f"wasm: no {name}.bc in {' '.join(map(str, folders))}: `python3 tools/archive.py {name}` makes it")


def retargeted(text, name):
    """Returns the module's text for WebAssembly. An edit that finds nothing means that the kit is another one."""
    for what, pattern, new in EDITS:
        text, count = re.subn(pattern, new, text, flags=re.MULTILINE)
        if not count:
            sys.exit(f"wasm: the module of {name} does not say its {what}: install the kit that README.md names")
    native = sorted(set(re.findall(r"@llvm\.x86\.[\w.]+", text)))
    if native:
        sys.exit(f"wasm: the module of {name} calls {', '.join(native)}, which WebAssembly does not have")
    return text


def link(name, module, kit, room, build):
    """Compiles the module and the heap, and links them into a module with 64-bit memory."""
    clang = kit / "toolchain" / "bin" / "clang"
    native, text = room / "native.ll", room / "wasm.ll"
    run(clang, "-S", "-emit-llvm", "-Xclang", "-disable-llvm-passes", "-x", "ir", module, "-o", native)
    text.write_text(retargeted(native.read_text(encoding="utf-8"), name), encoding="utf-8")
    flags = [f"--target={TARGET}", f"-mcpu={CPU}", "-nostdlib", "-ffreestanding", "-fno-builtin", "-O3", "-c"]
    objects = [room / f"{name}.o"]
    run(clang, *flags, "-mllvm", "-expand-div-rem-bits=64", "-x", "ir", text, "-o", objects[0])
    for source in SOURCES:
        objects.append(room / f"{source.stem}.o")
        run(clang, *flags, "-fwrapv", "-Wall", "-Wextra", "-Werror", source, "-o", objects[-1])
    # The kit's clang is also its linker, by the name that it is called by.
    linker = room / "wasm-ld"
    linker.symlink_to(clang)
    exports = [f"--export={function}" for function in [*functions_of(name), *HOST_EXPORTS]]
    made = build / f"{name}.wasm"
    words = ["-mwasm64", "--no-entry", "--stack-first", "-z", f"stack-size={STACK_BYTES}", "--gc-sections", "--strip-all"]
    run(linker, *words, *exports, "-o", made, *objects)
    return made


def build(folders, target):
    """Makes the modules in the folder `target`, and returns their files."""
    kit, made = kit_folder(), []
    target.mkdir(parents=True, exist_ok=True)
    for name in LIBRARIES:
        with tempfile.TemporaryDirectory() as place:
            module = link(name, module_of(name, folders), kit, pathlib.Path(place), target)
        lowered = target / f"{name}32.wasm"
        lowered.write_bytes(lower(module.read_bytes()))
        made += [module, lowered]
    return made


def main():
    parser = argparse.ArgumentParser(description=__doc__, formatter_class=argparse.RawDescriptionHelpFormatter)
    parser.add_argument("build", metavar="BUILD", type=argument_types.new_folder, help="the folder for the modules")
    parser.add_argument("archives", metavar="ARCHIVES", type=argument_types.folder, nargs="+", help="a folder with static libraries")
    given = parser.parse_args()
    for file in build(given.archives, given.build):
        print(f"{file}: {file.stat().st_size} bytes")


if __name__ == "__main__":
    main()
