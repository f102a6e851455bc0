#!/usr/bin/env python3
"""usage: tests/examples/run.py

Compares each source, image and input of `examples` with the copy that the program `sbx_verdicts` is run on, and what
stands beside an example, its output or the rule of its name, with what that program has to print."""
import glob
import os
import re
import sys

sys.dont_write_bytecode = True
sys.path.insert(0, f"{os.path.dirname(os.path.dirname(os.path.abspath(__file__)))}/lib")
from run import EXAMPLES, TOP, bytes_of
from tally import Tally, Words

COPIES = f"{TOP}/crates/sbx_verdicts/data"
PRINTED = bytes_of(f"{TOP}/crates/sbx_verdicts/stdout")


def files(pattern):
    """The files of examples that a pattern names, in order, each with its name here."""
    return [(it, os.path.relpath(it, TOP)) for it in sorted(glob.glob(f"{EXAMPLES}/{pattern}"))]


def printed(command, name):
    """What the program has to print of a command on an image, up to its status; None where it isn't called so."""
    found = re.search(rf"^\$ sandbox {command} {re.escape(name)}\.img\n(.*?)^status ".encode(), PRINTED, re.M | re.S)
    return found and found[1]


def try_copies(tally):
    """The copies are those of the examples, and no others."""
    for kind in ("s", "img", "in"):
        for path, name in files(f"*/*.{kind}"):
            copy = f"{COPIES}/{os.path.basename(path)}"
            is_same = os.path.isfile(copy) and bytes_of(copy) == bytes_of(path)
            tally.check(name, is_same, f"wanted the same in {os.path.relpath(copy, TOP)}, came another file or none")
    names = {it for _, _, found in os.walk(EXAMPLES) for it in found}
    for it in sorted(os.listdir(COPIES)):
        tally.check(f"crates/sbx_verdicts/data/{it}", it in names, "wanted such a file in examples, came none")


def try_printed(tally):
    """Outputs, each with a line's end, and rules."""
    for path, name in files("*/*.out"):
        wanted = bytes_of(path)
        tally.same(name, printed("run", os.path.basename(path)[:-4]),
                   wanted if wanted[-1:] in (b"", b"\n") else wanted + b"\n")
    for path, name in files("refused/*"):
        rule = os.path.basename(path).partition(".")[0]
        came = printed("verify", rule)
        tally.check(name, came and came.startswith(f"refused {rule} in function ".encode()),
                    f"wanted {rule}, came {came}")


def main(words):
    Words(__doc__).parse_args(words)
    tally = Tally("examples")
    try_copies(tally)
    try_printed(tally)
    return tally.end()


if __name__ == "__main__":
    sys.exit(main(sys.argv[1:]))
