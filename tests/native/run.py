#!/usr/bin/env python3
"""usage: tests/native/run.py [--limit N] [PART ..]

Compares accepted images as compiled C with what their runs have to be: exit word, output, turns, window traps. Parts:

  verdicts   the stored images and runs that `sbx_verdicts` compares, N images of them (all), each as a run and by steps
             with pieces of 1, 3 and 4,096 bytes, by gcc -O0, -O1, -O2, clang, tcc, and with the sanitizers of addresses
             and of undefined behaviour
  programs   examples and the programs of examples/c on their inputs, beside a board
  limits     images that are made to be slow to compile, and a compiler that hangs, fails or isn't there
  cache      a cache that is cut off, read-only, not there, and written by two at once
  calls      refused images, other words, objects, a conversation
  speed      beside a board, and beside the same C by gcc -O2; bytes a second, steps, translation, size. It isn't tried
             where no part is named

What isn't installed is told and skipped."""
import concurrent.futures
import os
import shutil
import stat
import subprocess
import sys
import tempfile
import time

sys.dont_write_bytecode = True
HERE = os.path.dirname(os.path.abspath(__file__))
sys.path[:0] = [f"{os.path.dirname(HERE)}/lib", HERE]
import shapes
from run import EXAMPLES, FIT, SANDBOX, TOP, Ran, built, bytes_of, program, put, run, text_of
from speed import dense_source, speed
from tally import Tally, Words

NATIVE, HEADERS = f"{TOP}/native", f"{TOP}/embed/native"
STORED = f"{TOP}/crates/sbx_verdicts/stdin"
# How a row is run: pieces of the input, rooms for the output, turns of a slice; 0 for a run at once.
MODES = ((0, 0, 0), (1, 1, 1), (3, 5, 100), (4096, 4096, 100_000))
WAYS = {
    "gcc -O0": ["gcc", "-O0"], "gcc -O1": ["gcc", "-O1"], "gcc -O2": ["gcc", "-O2"],
    "gcc -O1, unmasked": ["gcc", "-O1", "-DGP_UNMASKED"], "clang -O1": ["clang", "-O1"], "tcc": ["tcc"],
    "sanitizers": ["gcc", "-O1", "-fsanitize=address,undefined", "-fno-sanitize-recover=all", "-DGP_UNMASKED"],
}
# Images in one program of the driver, and lanes.
BATCH, LANES = 100, 2
# A row of the driver: 1 is ENDED.
ENDED = "1"


def stored(limit):
    """The accepted images that are stored, each with its runs: windows, input, exit word, output, counts."""
    found, runs = [], None
    with open(STORED, encoding="ascii") as lines:
        for line in lines:
            words = line.split()
            if words[:1] == ["image"]:
                runs = [] if words[2] == "accepted" else None
                if runs is not None:
                    found.append((bytes.fromhex(words[1]), runs))
            elif words[:1] == ["run"] and runs is not None:
                runs.append(words[1:])
    return found[:limit]


class Batch:
    """Some images as one program."""

    def __init__(self, images, room):
        self.images, self.room = images, room

    def translate(self):
        """Writes the C of each."""
        for number, (data, _) in enumerate(self.images):
            put(f"{self.room}/{number}.img", data)
            ran = run([program("native"), f"{self.room}/{number}.img", "-o", f"{self.room}/{number}.c"])
            if ran.status:
                return ran.said
        names = "".join(f"extern const geyserpan_native_program p{k};\n" for k in range(len(self.images)))
        table = ", ".join(f"&p{k}" for k in range(len(self.images)))
        put(f"{self.room}/all.c", f'#include "geyserpan_native.h"\n{names}'
                                  f"const geyserpan_native_program *const programs[] = {{{table}}};\n".encode())
        return None

    def compile(self, way):
        """Makes the program of a compiler's words."""
        objects = []
        for number in range(len(self.images)):
            to = f"{self.room}/{number}.o"
            ran = run([*way, "-w", "-I", HEADERS, f"-Dgeyserpan_program_1=p{number}", "-c", f"{self.room}/{number}.c",
                       "-o", to])
            if ran.status:
                return ran.said
            objects.append(to)
        ran = run([*way, "-w", "-I", HEADERS, f"{self.room}/all.c", f"{HERE}/driver.c", *objects, "-o",
                   f"{self.room}/all"])
        return ran.said if ran.status else None

    def rows(self):
        """What the driver is asked, and what has to come."""
        asked, wanted = [], []
        for number, (_, runs) in enumerate(self.images):
            for windows, given, word, output, *counts in runs:
                for mode in MODES:
                    row = str(len(asked))
                    asked.append(" ".join(map(str, (row, number, windows, *mode, given))))
                    wanted.append([row, ENDED, word, *counts, output])
        return asked, wanted

    def differences(self):
        """How many runs there were, and those that differ."""
        asked, wanted = self.rows()
        ran = run([f"{self.room}/all"], ("\n".join(asked) + "\n").encode(), 600)
        came = [line.split() for line in ran.out.decode().splitlines()]
        found = [f"{ask}: wanted {want}, came {row}" for ask, want, row in zip(asked, wanted, came) if want != row]
        if len(came) != len(wanted) or ran.status:
            found.append(f"{len(came)} of {len(wanted)} rows came, status {ran.status}: {ran.err.decode()[:300]}")
        return len(wanted), found


def batch_by(images, ways):
    """The runs of some images by each way: how many, and what is wrong."""
    with tempfile.TemporaryDirectory() as room:
        batch = Batch(images, room)
        wrong = batch.translate()
        if wrong:
            return {way: (0, [wrong]) for way in ways}
        found = {}
        for way in ways:
            wrong = batch.compile(WAYS[way])
            found[way] = (0, [wrong]) if wrong else batch.differences()
        return found


def verdicts(tally, asked):
    images = stored(asked.limit)
    ways = [it for it in WAYS if shutil.which(WAYS[it][0])]
    for way in WAYS.keys() - set(ways):
        tally.skip(f"stored images by {way}", WAYS[way][0])
    totals = dict.fromkeys(ways, 0)
    with concurrent.futures.ThreadPoolExecutor(LANES) as lanes:
        parts = [images[at:at + BATCH] for at in range(0, len(images), BATCH)]
        for found in lanes.map(lambda part: batch_by(part, ways), parts):
            for way, (count, wrong) in found.items():
                totals[way] += count
                tally.check(f"stored images by {way}", not wrong, "; ".join(wrong[:2])[:600])
    for way, count in totals.items():
        tally.check(f"runs by {way}", count > 0)
        print(f"{way}: {len(images)} images, {count} runs")


def examples():
    """Name, image and input of each example."""
    for name in sorted(os.listdir(EXAMPLES)):
        image = f"{EXAMPLES}/{name}/{name}.img"
        if os.path.exists(image):
            given = f"{EXAMPLES}/{name}/{name}.in"
            yield name, image, bytes_of(given) if os.path.exists(given) else b""


def programs_of_c(tally, room):
    """The same of each program of examples/c, by the compiler's assembly that is stored."""
    plug = f"{EXAMPLES}/c/gcc/plug.s"
    for name in sorted(it.removesuffix(".s") for it in os.listdir(f"{EXAMPLES}/c/gcc") if it != "plug.s"):
        source, image = f"{room}/{name}.s", f"{room}/{name}.img"
        made = run([FIT, f"{EXAMPLES}/c/gcc/{name}.s", plug, "-o", source])
        made = made if made.status else run([SANDBOX, "asm", source, image])
        if tally.check(f"an image of {name}", made.status == 0, made.said[:300]):
            yield name, image, bytes_of(f"{EXAMPLES}/c/in/{name}")


def beside_a_board(tally, name, image, given, more=()):
    """Whether a program gives what a board gives: output, status, and the counts."""
    board = run([SANDBOX, "run", image], given)
    here = run([NATIVE, "run", image, *more], given)
    tally.same(f"{name}: output", here.out, board.out)
    tally.same(f"{name}: status", here.status, board.status)


def programs(tally, _asked):
    built("sandbox", "fit")
    with tempfile.TemporaryDirectory() as room:
        for name, image, given in (*examples(), *programs_of_c(tally, room)):
            beside_a_board(tally, name, image, given)
        for name, image, given in examples():
            told = run([SANDBOX, "run", "--windows", "4", image], given)
            here = run([NATIVE, "run", "--counts", "4", image], given)
            tally.same(f"{name}: output on 4 windows", here.out, told.out)
            tally.check(f"{name}: counts", len(here.err.split()) == 4, here.said[:200])


def fake_compiler(room, name, script):
    """A compiler that does what a script says."""
    path = f"{room}/{name}"
    put(path, f"#!/bin/sh\n{script}\n".encode())
    os.chmod(path, 0o755)
    return path


def greatest(tally, room):
    """Images that are made to be slow to compile: one block of as many words as there may be, as many blocks as there
    may be, which go to the last one, and as many functions as there may be, each below the one before."""
    for shape in (shapes.straight, shapes.branches, shapes.calls):
        count, *_ = shapes.SHAPES[shape]
        image = f"{room}/{shape.__name__}.img"
        made = run([SANDBOX, "asm", put(f"{room}/one.s", shapes.source_of(shape, count)), image])
        tally.check(f"an image of {shape.__name__}", made.status == 0, made.said[:200])
        given = bytes(k * 7 % 251 for k in range(70_000))
        board = run([SANDBOX, "run", image], given)
        began = time.monotonic()
        here = run([NATIVE, "run", image], given, 200, env={**os.environ, "XDG_CACHE_HOME": f"{room}/cache"})
        how = "on the engine" if b"engine" in here.err else "compiled"
        print(f"{shape.__name__}: {how}, after {time.monotonic() - began:.0f} seconds", flush=True)
        tally.same(f"{shape.__name__}: output and status", (here.out, here.status), (board.out, board.status))


def limits(tally, _asked):
    built("sandbox", "host")
    hello = f"{EXAMPLES}/hello/hello.img"
    with tempfile.TemporaryDirectory() as room:
        greatest(tally, room)
        put(f"{room}/dense.s", dense_source(65_000).encode())
        made = run([SANDBOX, "asm", f"{room}/dense.s", f"{room}/dense.img"])
        tally.check("a block of 65,000 words", made.status == 0, made.said[:200])
        env = {**os.environ, "XDG_CACHE_HOME": f"{room}/cache", "GEYSERPAN_NATIVE_SECONDS": "2"}
        ran = run([NATIVE, "run", f"{room}/dense.img"], env=env)
        tally.same("it runs, compiled or not", ran.status, 0)
        for name, script, reason in (
                ("hangs", "sleep 100", "took more than"),
                ("fails", "echo 'x.c:1: error: no'; exit 1", "failed (status 1)"),
                ("makes nothing", "exit 0", "failed (status 0)")):
            path = fake_compiler(room, f"gcc-{name.replace(' ', '-')}", script)
            ran = run([NATIVE, "run", "--compiler", path, hello], env=env)
            tally.same(f"a compiler that {name}: the engine runs", (ran.status, ran.out), (0, b"Hi"))
            tally.check(f"a compiler that {name}: told", reason in ran.said and "engine" in ran.said, ran.said)
            ran = run([NATIVE, "build", "--compiler", path, hello, "-o", f"{room}/hello.so"], env=env)
            left = os.path.exists(f"{room}/hello.so")
            tally.same(f"a compiler that {name}: no object", (ran.status, left), (4, False))
        ran = run([NATIVE, "build", "--compiler", "nosuchcc", hello, "-o", f"{room}/hello.so"], env=env)
        tally.check("no such compiler", ran.status == 4 and "nosuchcc" in ran.said, ran.said)
    usage = bytes_of(f"{TOP}/tools/release/usage/native")
    tally.same("no arguments", run([NATIVE]), Ran(3, b"", usage))
    usage += bytes_of(f"{TOP}/tools/release/usage/native.more")
    tally.same("--help", run([NATIVE, "--help"]), Ran(0, usage, b""))


def kept(folder):
    """The programs that a cache has."""
    return sorted(it for it in os.listdir(f"{folder}/geyserpan/native") if not it.startswith("."))


def cache(tally, _asked):
    hello = f"{EXAMPLES}/hello/hello.img"
    with tempfile.TemporaryDirectory() as room:
        env = {**os.environ, "XDG_CACHE_HOME": f"{room}/cache"}

        def runs(name):
            ran = run([NATIVE, "run", hello], env=env)
            tally.same(name, (ran.status, ran.out, ran.err), (0, b"Hi", b""))

        both = [subprocess.Popen([NATIVE, "run", hello], env=env, stdout=subprocess.PIPE) for _ in range(2)]
        tally.same("two at once", [it.communicate()[0] for it in both], [b"Hi", b"Hi"])
        tally.same("a program and its sum", len(kept(f"{room}/cache")), 2)
        runs("from the cache")
        path = f"{room}/cache/geyserpan/native/{kept(f'{room}/cache')[0]}"
        put(path, bytes_of(path)[:1000])
        runs("a program that is cut off")
        tally.check("it is made again", os.path.getsize(path) > 1000)
        put(f"{path}.sum", b"")
        runs("a sum that is cut off")
        os.chmod(f"{room}/cache/geyserpan/native", stat.S_IRWXU | stat.S_IWOTH)
        runs("a cache that others may write to")
        env["XDG_CACHE_HOME"] = "/proc/nowhere"
        runs("no place for a cache")


def calls(tally, _asked):
    built("sandbox")
    echo = f"{EXAMPLES}/echo/echo.img"
    with tempfile.TemporaryDirectory() as room:
        put(f"{room}/none.img", b"none")
        for name, words, status, said in (
                ("a file that isn't there", [f"{room}/no.img"], 4, "no such file"),
                ("a directory", [room], 4, "is a directory"),
                ("no image", [f"{room}/none.img"], 2, ": image I"),
                ("a refused image", [f"{TOP}/crates/inspect/data/V1.img"], 2, ": refused V1 in function 0"),
                ("other words", ["--what"], 3, "Usage: native IMG"),
                ("no room for the C", [echo, "-o", "/dev/full"], 4, "can't be written"),
                ("no words for run", ["run"], 3, "usage: native build"),
                ("build without -o", ["build", echo], 3, "build needs -o"),
                ("run of no image", ["run", f"{room}/none.img"], 2, ": image I"),
                ("windows", ["run", "--counts", "3", echo], 3, "4 to 32")):
            ran = run([NATIVE, *words])
            tally.check(name, ran.status == status and said in ran.said, f"status {ran.status}: {ran.said[:300]}")
        tally.check("a device stays where it is", stat.S_ISCHR(os.stat("/dev/full").st_mode))
        ran = run([NATIVE, "build", echo, "-o", f"{room}/echo.so"])
        tally.check("an object", ran.status == 0 and os.path.exists(f"{room}/echo.so"), ran.said)
        tally.same("nothing is left beside it", sorted(os.listdir(room)), ["echo.so", "none.img"])
    many = bytes(k * 7 % 251 for k in range(300_000))
    ran = run([NATIVE, "run", echo], many)
    tally.same("an echo longer than the rooms", ran.out[:60], run([SANDBOX, "run", echo], many).out[:60])
    tally.same("its length", len(ran.out), len(run([SANDBOX, "run", echo], many).out))
    with subprocess.Popen([NATIVE, "run", echo], stdin=subprocess.PIPE, stdout=subprocess.PIPE) as it:
        it.stdin.write(b"ab")
        it.stdin.flush()
        tally.same("a conversation", it.stdout.read(2), b"ab")
        it.stdin.close()
    tally.check("the header has no tab", "\t" not in text_of(f"{HEADERS}/geyserpan_native.h"))


PARTS = {it.__name__: it for it in (verdicts, programs, limits, cache, calls, speed)}


def main(words):
    reader = Words(__doc__)
    reader.add_argument("--limit", type=int, default=10**9)
    reader.add_names("parts", PARTS)
    asked = reader.parse_args(words)
    tally = Tally("native")
    built("native")
    for part in asked.parts or [it for it in PARTS if it != "speed"]:
        PARTS[part](tally, asked)
    return tally.end()


if __name__ == "__main__":
    sys.exit(main(sys.argv[1:]))
