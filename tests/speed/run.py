#!/usr/bin/env python3
"""usage: tests/speed/run.py [TURNS [FOLDER]]

Measures speed by the program of crates/sbx_bench, which it builds first where that is due: TURNS turns, 100,000 where
none are given, of each loop of its folder data in each way; the verification of images of seven shapes, of each the
greatest one and one of a quarter of it; words and results, a thousand for each turn. Prints what was counted on
standard output and the times on standard error. The loops' images have to be what `sandbox asm` makes of the sources
beside them, the register that a loop counts down what the length of its rounds says, and each shape has to be
accepted. The shapes' images are left in FOLDER, where one is given."""
import glob
import os
import subprocess
import sys
import tempfile

sys.dont_write_bytecode = True
sys.path.insert(0, f"{os.path.dirname(os.path.dirname(os.path.abspath(__file__)))}/lib")
from run import SANDBOX, TOP, built, bytes_of, put
from shapes import SHAPES, source_of
from tally import Tally, Words

LOOPS = f"{TOP}/crates/sbx_bench/data"

# Of loops: in which turn the first round counts the register down, and how many turns a round has. A service takes 5.
ROUNDS = {
    "arithmetic": (4, 6),
    "memory": (5, 6),
    "beside": (5, 6),
    "called": (11, 13),
    "echo": (11, 13),
    "crc": (12, 13),
    "divisions": (15, 16),
    "steps": (38, 39),
    "clash": (37, 35),
}

def assembled(source, image):
    """Makes an image of a source, and returns its bytes."""
    subprocess.run([SANDBOX, "asm", source, image], stdin=subprocess.DEVNULL, check=True)
    return bytes_of(image)


def measured(folder, *words):
    """Runs the bench in a folder, shows what it prints, and returns the lines of counts and of times."""
    launched = [f"{TOP}/tools/build/launch", "speed", "sbx_bench", "1 words", *map(str, words)]
    ran = subprocess.run(launched, cwd=folder, stdin=subprocess.DEVNULL, capture_output=True, text=True, check=False)
    print(ran.stdout, end="", flush=True)
    print(ran.stderr, end="", file=sys.stderr, flush=True)
    return ran.stdout.splitlines(), ran.stderr.splitlines()


def counted_down(name, turns):
    """What a loop leaves in the register after so many turns; None where window traps take turns."""
    if name == "copy":
        # three words, 8,192 rounds of four, and two words that go back
        turns %= 32773
        return 0x10000 - 8 * min(turns // 4, 8192) if turns >= 3 else 0
    if name in ROUNDS:
        first, turns_each = ROUNDS[name]
        return -max(0, (turns - first) // turns_each + 1) % 2**32
    return None


def measure_loops(tally, turns, folder):
    """Each loop in each way, and what it leaves in its register."""
    names = sorted(os.path.basename(it)[:-2] for it in glob.glob(f"{LOOPS}/*.s"))
    tally.same(f"loops in {os.path.relpath(LOOPS, TOP)}", len(names), 11)
    for name in names:
        is_same = bytes_of(f"{LOOPS}/{name}.img") == assembled(f"{LOOPS}/{name}.s", f"{folder}/{name}.img")
        tally.check(f"{name}.img", is_same, f"wanted the image of {name}.s, came another one")
    left = {}
    for way in ("step", "run", "raw", "trace", "plain"):
        counts, _ = measured(LOOPS, turns, way, *(f"{name}.img" for name in names))
        tally.same(f"loops by {way}", len(counts), len(names))
        if way in ("step", "run", "plain"):
            left[way] = [line.rpartition(" ")[2] for line in counts]
    tally.check("the registers by three ways", left["step"] == left["run"] == left["plain"],
                f"wanted the same, came {left}")
    for name, register in zip(names, left["run"]):
        wanted = counted_down(name, turns)
        tally.check(f"{name}'s register", wanted in (None, int(register, 16)), f"wanted {wanted}, came {register}")


def measure_shape(tally, shape, folder):
    """The verdict on a shape's greatest image and on one of a quarter, and the times."""
    count, *words = SHAPES[shape]
    files = f"{shape.__name__}-quarter.img", f"{shape.__name__}.img"
    for name, parts in zip(files, (count // 4, count)):
        assembled(put(f"{folder}/{name[:-4]}.s", source_of(shape, parts)), f"{folder}/{name}")
    counts, times = measured(folder, 1, "verify", *files)
    wanted = [f"{name} of {count} words: accepted" for name, count in zip(files, words)]
    tally.same(shape.__name__, counts, wanted)
    if len(times) == 2:
        quarter, whole = (int(line.split()[-2]) for line in times)
        size = os.path.getsize(f"{folder}/{files[1]}")
        rates = f"{whole / size:.2f} a byte, {whole / max(quarter, 1):.1f} times the {quarter} us of a quarter"
        print(f"{shape.__name__}: {whole} us, {rates}", file=sys.stderr)


def measure_words(tally, turns):
    """Words and results."""
    for name in ("words", "results"):
        counts, _ = measured(TOP, turns, name)
        wanted = f"{1000 * turns} {name}: checksum "
        tally.check(name, len(counts) == 1 and counts[0].startswith(wanted), f"wanted '{wanted}..', came {counts}")


def measure(turns, folder):
    """All of it."""
    tally = Tally("speed")
    measure_loops(tally, turns, folder)
    for shape in SHAPES:
        measure_shape(tally, shape, folder)
    measure_words(tally, turns)
    return tally.end()


def main(words):
    reader = Words(__doc__)
    reader.add_argument("turns", nargs="?", type=int, default=100_000)
    reader.add_argument("folder", nargs="?")
    asked = reader.parse_args(words)
    built("sandbox")
    if asked.folder:
        return measure(asked.turns, os.path.abspath(asked.folder))
    with tempfile.TemporaryDirectory() as folder:
        return measure(asked.turns, folder)


if __name__ == "__main__":
    sys.exit(main(sys.argv[1:]))
