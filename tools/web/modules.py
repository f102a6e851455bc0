"""The two modules of the page: the crates `playground` and `geyserpan`, proved and compiled for WebAssembly.

The kit's own way is tried first: a crate that takes memory, built for wasm64 in a room of its own. `rattle-kit-13f`
proves it and compiles no heap there. Then the other way is gone: `rt lib` makes each library for x86-64, as it always
does, in a kit of links whose clang keeps the LLVM module that the proved crate became; the kit's clang compiles that
module for wasm64. Sizes agree (a pointer has 64 bits in both), and but for the three calls for memory and the functions
of helpers.c it calls nobody. Either way Debian's binaryen lowers the module to a memory of 32 bits, which each browser
has."""
import os
import re
import shutil
import subprocess
import sys
import tempfile

HERE = os.path.dirname(os.path.abspath(__file__))
TOP = os.path.dirname(os.path.dirname(HERE))
CRATES = {"play": "playground", "engine": "geyserpan"}
TARGET = "wasm64-unknown-unknown"
STACK = 1 << 20
BY_KIT = "The kit's own compiler for WebAssembly made the modules of the proved crates."
BY_LLVM = ("The LLVM modules that the kit makes of the proved crates were compiled for WebAssembly by the kit's clang, "
           "which the kit's makers don't do yet.")
FEATURES = ("bulk-memory", "sign-ext", "mutable-globals", "nontrapping-float-to-int", "memory64")
PROBE = """//! A crate that takes memory.
#![tactic(auto)]

use std::alloc::Global;

/// Whether there is memory for a number.
#[unsafe(no_mangle)]
pub extern "C" fn has_room(alloc: Global, number: u64) -> u32 {
    match Box::new(alloc, number) {
        Ok(_kept) => 1,
        Err(_refused) => 0,
    }
}
"""
# Keeps the greatest of the LLVM modules that it is to compile, which is the crate's, and is the kit's clang otherwise.
KEEPER = """#!/bin/sh
for it; do
  case $it in *.bc|*.ll) [ "$(wc -c < "$it")" -le "$(cat "{to}" 2> /dev/null | wc -c)" ] || cp "$it" "{to}";; esac
done
exec "{clang}" "$@"
"""


class Failed(Exception):
    """Why there is no module."""


def kit():
    """The folder of the kit on the PATH."""
    rt = shutil.which("rt")
    if rt is None:
        raise Failed("rt is not on the PATH: install the Rattle kit (see README.md)")
    return os.path.dirname(os.path.dirname(os.path.realpath(rt)))


def call(*words, **how):
    """Runs a command, or says what failed."""
    ran = subprocess.run(words, stdout=subprocess.PIPE, stderr=subprocess.STDOUT, text=True, errors="replace",
                         check=False, **how)
    if ran.returncode:
        raise Failed(f"{' '.join(words[:3])} ..: status {ran.returncode}\n{ran.stdout[-3000:]}")
    return ran.stdout


def write(path, text):
    """Writes a file, whose folder is made."""
    os.makedirs(os.path.dirname(path), exist_ok=True)
    with open(path, "w", encoding="utf-8") as file:
        file.write(text)


def kit_has_heap(room):
    """Whether the kit builds a crate that takes memory for wasm64."""
    write(f"{room}/crates.txt", "probe wasm64:\n")
    write(f"{room}/crates/probe/src/lib.rt", PROBE)
    ran = subprocess.run(["rt", "lib"], cwd=f"{room}/crates/probe", stdout=subprocess.PIPE, stderr=subprocess.STDOUT,
                         check=False)
    return ran.returncode == 0 and os.path.exists(f"{room}/crates/probe/out/probe.wasm")


def by_kit(crate, room):
    """The path of a module that the kit makes, in a room over links to what is built."""
    with open(f"{TOP}/crates.txt", encoding="utf-8") as file:
        lines = file.read().replace(f"{crate} staticlib:", f"{crate} wasm64:")
    write(f"{room}/crates.txt", lines)
    for name in os.listdir(f"{TOP}/crates"):
        if name == crate:
            shutil.copytree(f"{TOP}/crates/{name}", f"{room}/crates/{name}", ignore=shutil.ignore_patterns("out"))
        else:
            os.symlink(f"{TOP}/crates/{name}", f"{room}/crates/{name}")
    call("rt", "lib", cwd=f"{room}/crates/{crate}")
    return f"{room}/crates/{crate}/out/{crate}.wasm"


def keeping_kit(room):
    """A kit of links in a room, but for its scripts, which look where they stand, and its clang."""
    of, here = kit(), f"{room}/kit"
    for name in os.listdir(of):
        if name not in ("bin", "toolchain"):
            os.makedirs(here, exist_ok=True)
            os.symlink(f"{of}/{name}", f"{here}/{name}")
    for folder, kept in (("bin", None), ("toolchain", None), ("toolchain/bin", "clang")):
        os.makedirs(f"{here}/{folder}", exist_ok=True)
        for name in os.listdir(f"{of}/{folder}"):
            at = f"{of}/{folder}/{name}"
            if name in ("rt", "rtlib.py") or name.startswith("rt-"):
                shutil.copy(at, f"{here}/{folder}/{name}")
            elif name != kept and not (folder == "toolchain" and name == "bin"):
                os.symlink(os.path.realpath(at), f"{here}/{folder}/{name}")
    write(f"{here}/toolchain/bin/clang", KEEPER.format(to=f"{room}/kept.bc", clang=f"{of}/toolchain/bin/clang"))
    os.chmod(f"{here}/toolchain/bin/clang", 0o755)
    return here


def llvm_of(crate, room):
    """The path of the LLVM module that the kit makes of a proved crate."""
    here, kept = f"{room}/kit" if os.path.isdir(f"{room}/kit") else keeping_kit(room), f"{room}/kept.bc"
    call(f"{here}/bin/rt", "lib", cwd=f"{TOP}/crates/{crate}")
    if not os.path.exists(kept):
        raise Failed(f"{crate}: rt lib compiled nothing")
    made = f"{room}/{crate}.bc"
    os.replace(kept, made)
    return made


def exports_of(crate):
    """The names that a crate exports."""
    found, folder = [], f"{TOP}/crates/{crate}/src"
    for name in sorted(os.listdir(folder)):
        with open(f"{folder}/{name}", encoding="utf-8") as file:
            found += re.findall(r'pub extern "C" fn (\w+)', file.read())
    return found


def by_llvm(crate, bitcode, room):
    """The path of the module that the kit's clang makes of an LLVM module."""
    tools, made = f"{kit()}/toolchain/bin", f"{room}/{crate}.64.wasm"
    call(f"{tools}/clang", f"--target={TARGET}", "-O2", "-ffreestanding", "-nostdinc", "-fno-builtin", "-c",
         f"{HERE}/helpers.c", "-o", f"{room}/helpers.o")
    # (clang warns of the processor, which the module names and wasm64 hasn't got)
    call(f"{tools}/clang", f"--target={TARGET}", "-w", "-O3", "-x", "ir", "-c", bitcode, "-o", f"{room}/{crate}.o")
    call(f"{tools}/ld.lld", "-flavor", "wasm", "-mwasm64", "--no-entry", "--stack-first", "-z", f"stack-size={STACK}",
         "--export=__heap_base", "--gc-sections", "--strip-all", "--import-undefined",
         *(f"--export={it}" for it in exports_of(crate)), "-o", made, f"{room}/{crate}.o", f"{room}/helpers.o")
    return made


def lowered(module, to):
    """Writes a module with a memory of 32 bits. Pointers stay numbers of 64 bits in its calls."""
    if shutil.which("wasm-opt") is None:
        raise Failed("wasm-opt is not on the PATH: install Debian's package binaryen")
    call("wasm-opt", *(f"--enable-{it}" for it in FEATURES), "--memory64-lowering", "-O2", "--strip-debug",
         "--strip-producers", module, "-o", to)


def make_modules(folder, tell):
    """Writes both modules to a folder, and says which way it went."""
    os.makedirs(folder, exist_ok=True)
    with tempfile.TemporaryDirectory(prefix="web-") as room:
        has_heap = kit_has_heap(f"{room}/probe")
        tell("the kit compiles the heap for wasm64" if has_heap else "the kit doesn't compile the heap for wasm64: "
             "its LLVM modules are compiled")
        for name, crate in CRATES.items():
            call(f"{TOP}/tools/build/build-libraries", crate)
            tell(f"{crate}: what it stands on is built")
            made = by_kit(crate, f"{room}/{crate}") if has_heap else by_llvm(crate, llvm_of(crate, room), room)
            lowered(made, f"{folder}/{name}.wasm")
            tell(f"{name}.wasm: {os.path.getsize(f'{folder}/{name}.wasm'):,} bytes")
    write(f"{folder}/way", BY_KIT if has_heap else BY_LLVM)


if __name__ == "__main__":
    make_modules(sys.argv[1], print)
