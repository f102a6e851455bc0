#!/usr/bin/env python3
"""usage: tests/growths/run.py [-n LAST] [CRATE ..]

Refuses one growth of memory after the other, from outside: in each test of the crates whose tests are written for
that, in which every growth may be refused, and in the five programs, whose reads and writes then fail in turn, too. A
refused growth may be answered with the call's own name for want of memory, or as if it hadn't been refused, and
nothing else; a read that fails is told as such, and a write, unless it was done again and all is there. At each stop
what was put out is a front of what is put out otherwise, and a file that was to be made is as it was; `native`, to
which a write to its file fails, leaves none. And a run or a trace that goes on for longer asks for no more growths.

CRATE.. are some of these crates alone. Of a test the first LAST growths are refused (1000), within 60 seconds; of a
program all. It takes the programs and tests that `rt run` and `rt test` have built, and builds what is missing or
older than its source. It needs `cc`."""
import os
import shutil
import struct
import subprocess
import sys
import tempfile
import time

sys.dont_write_bytecode = True
HERE = os.path.dirname(os.path.abspath(__file__))
sys.path.insert(0, f"{os.path.dirname(HERE)}/lib")
from run import EXAMPLES, TOP, bytes_of, put, run, text_of
from tally import NOT_BUILT, Tally, Words

TESTS = "sbx_image_tests sbx_refused_tests".split()
PROGRAMS = ["sbx_tool", "inspect", "host", "fit", "native"]
KINDS = ["growth", "read", "write", "error"]
SECONDS = 60

HELLO, ECHO, CHAIN = (f"{EXAMPLES}/{it}/{it}.img" for it in ("hello", "echo", "chain"))
MACHINE = f"{TOP}/vectors/ten.machine"

# What each program is given: its words, its input, and the status that it ends with. OUT is a file that is there
# before.
ROWS = {
    "sbx_tool": [
        ("run HELLO", b"", 0),
        ("run ECHO", b"abc", 0),
        ("run --windows 4 CHAIN", b"", 0),
        ("run CUT", b"", 2),
        ("run FUEL", b"", 2),
        ("verify CHAIN", b"", 0),
        ("verify FUEL", b"", 2),
        ("list CHAIN", b"", 0),
        ("trace ECHO", b"abc", 0),
        ("trace --windows 32 --limit 100 CHAIN", b"", 0),
        ("asm ECHO.s OUT", b"", 0),
        ("asm CHAIN.s OUT", b"", 0),
        ("asm REGIONS.s OUT", b"", 0),
        ("asm DATA.s OUT", b"", 0),
        ("asm BAD.s OUT", b"", 2),
        ("trace --limit 10000000000 HELLO", b"", 3),
        ("walk HELLO", b"", 3),
        ("", b"", 3),
    ],
    "inspect": [
        ("image CHAIN", b"", 0),
        ("run ECHO", b"abc", 0),
        ("trace HELLO", b"", 0),
        ("why FUEL", b"", 0),
        ("why HELLO", b"", 0),
        ("why CUT", b"", 2),
        ("check ECHO.s", b"", 0),
        ("check BAD.s", b"", 0),
        ("check --json BAD.s", b"", 0),
        ("map ECHO.s", b"", 0),
        ("image --source ECHO.s ECHO", b"", 0),
        ("trace --source ECHO.s ECHO", b"abc", 0),
        ("states HELLO", b"", 0),
        ("machine --limit 9 OWN", b"", 0),
        ("machine --limit 2 --binary CUT --at 0x50 OWN", b"", 0),
        ("machine BAD.s", b"", 2),
        ("walk HELLO", b"", 3),
    ],
    "host": [
        ("HELLO", b"", 0),
        ("ECHO", b"abc", 0),
        ("HELLO ECHO", b"abc", 0),
        ("FUEL", b"", 2),
        ("CUT", b"", 2),
        ("", b"", 3),
        ("run --report json --windows 4 CHAIN", b"", 0),
        ("run --report json --input ECHO.s HELLO ECHO", b"", 0),
        ("run --report json --services exit HELLO CUT", b"", 2),
        ("run --max-output 2 ECHO", b"abc", 2),
        ("run --engine --report json --windows 4 CHAIN", b"", 0),
        ("run --engine ECHO", b"abc", 0),
        ("run --max HELLO", b"", 3),
    ],
    "fit": [
        ("ROT13.s PLUG.s -o -", b"", 0),
        ("FIR.s PLUG.s -o -", b"", 0),
        ("ROT13.s PLUG.s --image -", b"", 0),
        ("annotate ECHO.s", b"", 0),
        ("annotate BAD.s", b"", 2),
        ("BAD.s -o -", b"", 2),
        ("", b"", 3),
    ],
    "native": [
        ("HELLO", b"", 0),
        ("CHAIN -o OUT", b"", 0),
        ("ECHO -o -", b"", 0),
        ("CUT -o OUT", b"", 2),
        ("FUEL -o OUT", b"", 2),
        ("HELLO -o", b"", 3),
    ],
}

# Sources of an image each of whose lists grows more than once: labels, words, functions, their params and results,
# blocks, their cells and terms, data of values and of zeros; with values in front of the first instruction of a
# block, too. In the one the data are regions.
CELLS = "".join(f".cell %o{it},0,9,0\n" for it in range(6)) + "".join(f".cell slot {it},0,9,0\n" for it in range(6))
TERMS = "".join(f".term %o{it},1\n" for it in range(6))
BOUNDS = ".param 0,{0},0\n" * 6 + ".result 0,{0},0\n" * 6
FUNCTION = ".function f{0},leaf,0,0,9\n" + BOUNDS + CELLS + TERMS + "a{0}: b{0}: nop\n"
BLOCK = ".block c{0}\n" + CELLS + ".fuel 9\n" + TERMS + " set d0,%g1\n ta 0\n"
DATA = "{1}\nd{0}: .byte 1,2,3,4,5,6,7,8,9\n.word a0,b8,c0,d{0}\n.skip {0}0\n.align 8\n.half -1\n"
LAST = ".block e\n.byte 1,2,3,4,5,6,7,8,9\n.word a0\n.text\n ta 0\n"


def grown(*sections):
    """A source of nine functions, nine more blocks of the last one, a piece of data behind each of these lines, and a
    last block."""
    text = ".services exit,put\n.stack 2\n" + "".join(FUNCTION.format(it)
                                                      for it in range(9)) + "".join(BLOCK.format(it)
                                                                                    for it in range(9))
    return text + "".join(DATA.format(it, line) for it, line in enumerate(sections)) + LAST


# Two runs of the program each, of which the second puts out a thousand times as much: it asks for as many growths as
# the first one.
ALIKE = [
    ("trace --limit 100 FOREVER", "trace --limit 100000 FOREVER"),
    ("run SHORT", "run LONG"),
]

# The files of images, inputs and machines that the rows of programs name which tell files by name.
NAMES = ("HELLO", "ECHO", "CHAIN", "CUT", "FUEL", "ECHO.s", "BAD.s", "OWN")
# The sources that those of fit name.
SOURCES = ("ROT13.s", "FIR.s", "PLUG.s", "ECHO.s", "BAD.s")
# Why an image is denied where memory was refused.
DENIALS = ("image I9", "refused V19 in function 0 at 00000000")

# How each program tells a refusal of each kind: the status, and the last line on standard error. A fault of standard
# error itself changes nothing but what is there, where nothing is said of it.
TELLS = {
    "sbx_tool": {"growth": [(5, "memory")], "read": [(4, "file"), (4, "input")], "write": [(4, "output")]},
    "inspect": {
        "growth": [(5, "memory")],
        "read": [(4, "input")] + [(4, f"inspect: {it}: can't be read") for it in NAMES],
        "write": [(4, "output")],
    },
    "host": {
        "growth": [(4, "host: memory")]
        + [(2, f"denied: {it}") for it in DENIALS]
        + [(2, f"host: {name}: denied: {it}") for it in DENIALS for name in NAMES]
        + [(2, f'{{"denied":"{it}","image":"{name}"}}') for it in DENIALS for name in NAMES],
        "read": [(4, f"host: {it}: can't be read") for it in ("input", *NAMES)],
        "write": [(4, "host: output: can't be written")],
        "error": [(4, "host: standard error: can't be written")],
    },
    "fit": {
        "growth": [(5, "memory")],
        "read": [(4, f"fit: {it}: can't be read") for it in SOURCES],
        "write": [(4, f"fit: {it}: can't be written") for it in ("-", "standard output")],
    },
    "native": {
        "growth": [(4, "native: memory")],
        "read": [(4, f"native: {it}: can't be read") for it in NAMES],
        "write": [(4, f"native: {it}: can't be written") for it in ("OUT", "standard output")],
    },
}


def left_at(path):
    """What the file at a path has; None where there is none."""
    return bytes_of(path) if os.path.exists(path) else None


class Asked:
    """What a process left, of which one growth, read or write was refused: status, output, errors, the file OUT, and
    how many of each kind it asked for."""

    def __init__(self, words, given, refused, place):
        put(f"{place}/counts", bytes(8 * len(KINDS)))
        put(f"{place}/OUT", "older")
        how = {"LD_PRELOAD": f"{place}/refusing.so", "COUNTS": f"{place}/counts", "REFUSED": refused}
        ran = run(words, given, 600, cwd=place, env={**os.environ, **how})
        self.status, self.out, self.err, self.made = *ran, left_at(f"{place}/OUT")
        self.counts = dict(zip(KINDS, struct.unpack(f"{len(KINDS)}q", bytes_of(f"{place}/counts"))))

    def is_like(self, other):
        """Whether another process left the same."""
        return (self.status, self.out, self.err, self.made) == (other.status, other.out, other.err, other.made)


LOOP = """.services exit,put
.function main,framed,96,96,{0}
.fuel {0}
 save %sp,-96,%sp
 set {1},%l0
.block loop
.cell %l0,1,{1},0
.fuel 4
.term %l0,9
 mov 65,%o0
 ta 2
 deccc %l0
 bne loop
 nop
.block done
.fuel 4
 mov 0,%o0
 ta 0
"""


def files_in(place):
    """Puts the files that the rows name into a folder."""
    for name, path in (("HELLO", HELLO), ("ECHO", ECHO), ("CHAIN", CHAIN), ("OWN", MACHINE)):
        shutil.copy(path, f"{place}/{name}")
    for name, path in (("ECHO", ECHO), ("CHAIN", CHAIN)):
        shutil.copy(f"{path[:-4]}.s", f"{place}/{name}.s")
    for name in ("rot13", "fir", "plug"):
        shutil.copy(f"{EXAMPLES}/c/gcc/{name}.s", f"{place}/{name.upper()}.s")
    hello = bytes_of(HELLO)
    put(f"{place}/CUT", hello[:85])
    put(f"{place}/FUEL", hello[:60] + bytes(7) + b"\x0f" + hello[68:])
    put(f"{place}/BAD.s", text_of(f"{place}/ECHO.s") + " frob %o0\n")
    put(f"{place}/REGIONS.s", grown(*[".region ro", ".region rw"] * 3))
    put(f"{place}/DATA.s", grown(*[".data"] * 3))
    put(f"{place}/FOREVER.s", ".services put\n.function main,leaf,0,0,1\n.fuel 1\nagain: ta 2\n ba again\n nop\n")
    for name, count in (("SHORT", 10), ("LONG", 10000)):
        put(f"{place}/{name}.s", LOOP.format(9 * count + 60, count))


def built(crate, made, by):
    """The path of a crate's program or tests, which are built where that is missing or older than a source."""
    path, folder = f"{TOP}/crates/{crate}/out/{made}", f"{TOP}/crates/{crate}"
    own = [f"{at}/{it}" for at, _, files in os.walk(f"{folder}/src") for it in files]
    if not os.path.exists(path) or any(os.path.getmtime(it) > os.path.getmtime(path) for it in own):
        ran = run(["rt", *by], seconds=None, cwd=folder)
        if not os.path.exists(path):
            print(f"{crate}: rt {' '.join(by)} ended with status {ran.status}, and there is no {path}",
                  file=sys.stderr)
            raise SystemExit(NOT_BUILT)
    return path


def is_told(crate, kind, ample, ran):
    """Whether a refusal is told, or makes no difference where it need not be told."""
    if ran.is_like(ample):
        return kind in ("growth", "write") or kind not in TELLS[crate]
    if kind not in TELLS[crate]:
        return (ran.status, ran.out, ran.made) == (ample.status, ample.out, ample.made)
    for status, line in TELLS[crate][kind]:
        end = f"{line}\n".encode()
        front, _, back = ran.err.partition(end)
        # the host tells of the images behind a denied one as it does otherwise
        is_last = not back or crate == "host" and status == 2 and back in ample.err
        if ran.status == status and end in ran.err and is_last and ample.err.startswith(front):
            is_gone = crate == "native" and kind == "write" and ran.made is None
            return ample.out.startswith(ran.out) and (is_gone or ran.made == b"older")
    return kind == "error" and ran.status == 4 and ample.out.startswith(ran.out)


def try_program(tally, crate, place, total):
    """Runs each row of a program once, and then once for each growth, read and write."""
    path = built(crate, crate, ["run"])
    for words, given, status in ROWS[crate]:
        ample = Asked([path, *words.split()], given, "", place)
        tally.same(f"{crate} {words}: status", ample.status, status)
        for kind in KINDS:
            for number in range(1, ample.counts[kind] + 1):
                ran = Asked([path, *words.split()], given, f"{kind} {number}", place)
                told = f"wanted that it is told, came status {ran.status}, {ran.err[-60:]}"
                tally.check(f"{crate} {words}: {kind} {number}", is_told(crate, kind, ample, ran), told)
            total[kind] += ample.counts[kind]
        print(f"{crate} {words}: {', '.join(f'{ample.counts[it]} {it}s' for it in KINDS)}", flush=True)


def try_alike(tally, place):
    """Runs the rows of ALIKE: the longer run asks for no more growths."""
    path = built("sbx_tool", "sbx_tool", ["run"])
    for name in ("FOREVER", "SHORT", "LONG"):
        tally.same(f"asm {name}.s", Asked([path, "asm", f"{name}.s", name], b"", "", place).status, 0)
    for one, other in ALIKE:
        first, second = (Asked([path, *words.split()], b"", "", place) for words in (one, other))
        tally.same(f"{one}, {other}: statuses", (first.status, second.status), (0, 0))
        tally.same(f"{other}: growths", second.counts["growth"], first.counts["growth"])
        is_long = len(second.out) >= 900 * len(first.out) > 0
        tally.check(f"{other}: the output", is_long,
                    f"wanted 900 times {len(first.out)} bytes, came {len(second.out)}")


def refused_of(tally, path, name, count, last, place):
    """Runs a test once for each of its growths, up to the last and for so long; returns how many those were."""
    begun = time.monotonic()
    for number in range(1, count + 1):
        if number > last or time.monotonic() - begun > SECONDS:
            return number - 1
        ran = Asked([path, name], b"", f"growth {number}", place)
        tally.check(f"{os.path.basename(path)} {name}: growth {number}", ran.status == 0,
                    f"wanted status 0, came {ran.status}")
    return count


def try_tests(tally, crate, place, last, total):
    """Runs each test of a crate once, and then once for each growth."""
    path = built(crate, f"{crate}_tests", ["test"])
    listed = run([path, "--list"]).out.decode().splitlines()
    tally.check(f"{crate}: tests", listed, "wanted some, came none")
    for name in [it.removesuffix(": test") for it in listed if it.endswith(": test")]:
        ample = Asked([path, name], b"", "", place)
        tally.same(f"{crate} {name}: status with ample memory", ample.status, 0)
        refused = refused_of(tally, path, name, ample.counts["growth"], last, place)
        total["growth"] += refused
        print(f"{crate} {name}: {refused} of {ample.counts['growth']} growths", flush=True)


def main(words):
    reader = Words(__doc__)
    reader.add_argument("-n", type=int, default=1000)
    reader.add_names("crates", TESTS + PROGRAMS)
    asked, tally, total = reader.parse_args(words), Tally("growths"), dict.fromkeys(KINDS, 0)
    with tempfile.TemporaryDirectory() as place:
        words = ["cc", "-O2", "-shared", "-fPIC", "-o", f"{place}/refusing.so", f"{HERE}/refusing.c"]
        subprocess.run(words, check=True)
        files_in(place)
        for crate in asked.crates or TESTS + PROGRAMS:
            if crate in PROGRAMS:
                try_program(tally, crate, place, total)
            else:
                try_tests(tally, crate, place, asked.n, total)
        if not asked.crates or "sbx_tool" in asked.crates:
            try_alike(tally, place)
    print(f"refused in turn: {', '.join(f'{total[it]} {it}s' for it in KINDS)}")
    return tally.end()


if __name__ == "__main__":
    sys.exit(main(sys.argv[1:]))
