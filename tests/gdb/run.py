#!/usr/bin/env python3
"""usage: tests/gdb/run.py [--long] [PART ..]

Drives gdb-multiarch on runs by its machine interface, and tells ends of runs by every program that shows one. Parts,
all where none is named (tests/run docs plays the sessions of the pages):

  ends       exit words of tests, told by ./cc --run, ./inspect run, ./inspect run --map, ./host and gdb
  twins      the same of tests that stand in the same lines of two files of one name
  images     what ./cc --debug and --map leave beside an image; its bytes are those without
  states     `inspect states --from`: the state behind a turn goes on as the run does
  commands   stops, breakpoints, watched bytes, backtraces and `monitor`, on 4, 8 and 32 windows
  back       stepping back gives what was there, on any way
  values     values of variables beside those of the same program for this machine
  packets    20,000 random packets: answers, no crash, no hang
  refused    files that aren't there, or another image's: a line each
  speed      runs of 100,000 and 1,000,000 turns; with --long of 10,000,000: each step takes less than a second of
             processor

Without gdb-multiarch, or a compiler for SPARC, what needs it is skipped."""
import os
import sys
import tempfile

sys.dont_write_bytecode = True
HERE = os.path.dirname(os.path.abspath(__file__))
sys.path.insert(0, f"{os.path.dirname(HERE)}/lib")
from ends import ends, images
from later import states
from mi import GDB
from packets import packets, refused
from run import built, has
from stops import back, commands, speed
from tally import Tally, Words
from twins import twins
from values import values

COMPILER = "sparc64-linux-gnu-gcc"
PARTS = {it.__name__: it for it in (ends, twins, images, states, commands, back, values, packets, refused, speed)}
WITHOUT_COMPILER = ("states", "packets", "refused")
WITHOUT_GDB = ("ends", "twins", "images", *WITHOUT_COMPILER)


class Work:
    """Where the suite works, and how it counts."""

    def __init__(self, tally, folder, is_long):
        self.tally, self.folder, self.is_long = tally, folder, is_long

    def at(self, name):
        """The path of a file in the folder."""
        return f"{self.folder}/{name}"


def main(line):
    reader = Words(__doc__)
    reader.add_argument("--long", action="store_true")
    reader.add_names("parts", [*PARTS])
    asked = reader.parse_args(line)
    built("sandbox", "inspect")
    tally = Tally("gdb")
    with tempfile.TemporaryDirectory() as folder:
        work = Work(tally, folder, asked.long)
        for part in asked.parts or [*PARTS]:
            if not has(COMPILER) and part not in WITHOUT_COMPILER:
                tally.skip(part, "Debian's package gcc-sparc64-linux-gnu")
            elif not has(GDB) and part not in WITHOUT_GDB:
                tally.skip(part, f"Debian's package {GDB}")
            else:
                PARTS[part](work)
    return tally.end()


if __name__ == "__main__":
    sys.exit(main(sys.argv[1:]))
