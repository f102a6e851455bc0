# What a program or a library was made of: sums of sources, for the scripts of this folder.
import hashlib
import os
import sys

sys.dont_write_bytecode = True
from libraries import TOP, all_below, crates, lowest_first
from standing import logic

__all__ = ["logic", "sources", "sum_of"]

# The folders of a crate that say what a program does and that it has to be proved; its proofs may change without it.
PARTS = ("src", "specs")


def sources(crate):
    """The crates that a program, or a static library, is made of, and the paths that hold their sources."""
    listed = crates()
    names = [it for it in lowest_first(listed) if it == crate or it in all_below(crate, listed)]
    folders = [f"crates/{it}/{part}" for it in names for part in PARTS if os.path.isdir(f"{TOP}/crates/{it}/{part}")]
    return names, ["crates.txt", *folders]


def lines_of_crates(names):
    """What crates.txt says of the crates."""
    with open(f"{TOP}/crates.txt", encoding="utf-8") as file:
        return sorted(it for it in file if it.partition(":")[0].split()[:1]
                      and it.partition(":")[0].split()[0] in names)


def sum_of(crate):
    """A sum of the sources that it is made of, by their names and contents."""
    names, folders = sources(crate)
    found = hashlib.sha256(repr(lines_of_crates(names)).encode())
    for folder in folders[1:]:
        for at, below, files in os.walk(f"{TOP}/{folder}"):
            below.sort()
            for name in sorted(files):
                with open(f"{at}/{name}", "rb") as file:
                    found.update(repr((os.path.relpath(f"{at}/{name}", TOP), file.read())).encode())
    return found.hexdigest()
