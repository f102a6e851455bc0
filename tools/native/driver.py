#!/usr/bin/env python3
"""usage: native build IMG -o OUT.so [--compiler CC] [--unmasked] [--uncounted]
       native run [--compiler CC] [--unmasked] [--counts N] [--map MAP] IMG

Compiles the C that the program `native` writes of an accepted image. build makes a shared object for hosts; run makes
a program, keeps it in a cache, and runs it on standard input. Where there is no compiler, or it meets a limit of time
or memory, run takes the engine, and says so. --counts N tells exit word, turns, overflows and underflows on N windows
on standard error at the end. Where a run ends in a test that ./fit added, it is told which one: kind and line, and
with --map MAP, what ./cc --map left beside the image, the file, too. GEYSERPAN_NATIVE_SECONDS is how long a compiler
may take (60).

Status 0: done, or the exit word is 0. 1: the exit word isn't 0. 2: the image is refused. 3: wrong arguments. 4: a
file, a stream or the compiler fails, or memory."""
import argparse
import hashlib
import os
import subprocess
import sys
import tempfile

sys.dont_write_bytecode = True
from cache import Cache
from compilers import HEADERS, TOP, Failed, compiler_of

sys.path.insert(0, f"{TOP}/tools")
from standing import file_fault

RUN = f"{HEADERS}/geyserpan_native_run.c"
HEADER = f"{HEADERS}/geyserpan_native.h"
OTHER_WORDS, FAILED = 3, 4


class Words(argparse.ArgumentParser):
    """The words of a call; others are told with the usage."""

    def error(self, message):
        print(f"native: {message}\n{__doc__}", file=sys.stderr)
        sys.exit(OTHER_WORDS)

    def print_help(self, file=None):
        print(__doc__, file=file or sys.stdout)


def words_of(words):
    """What the words ask for."""
    it = Words(prog="native")
    it.add_argument("what", choices=("build", "run"))
    it.add_argument("image")
    it.add_argument("-o", dest="out")
    it.add_argument("--compiler")
    it.add_argument("--unmasked", action="store_true")
    it.add_argument("--uncounted", action="store_true")
    it.add_argument("--counts", type=int)
    asked = it.parse_args(words)
    if (asked.what == "build") != bool(asked.out):
        it.error("build needs -o OUT.so, and run has none")
    if asked.counts is not None and not 4 <= asked.counts <= 32:
        it.error("--counts takes a number of windows, 4 to 32")
    return asked


def translate(image, to):
    """Writes the C of an image, as the program does, which tells what is wrong with it; ends where it fails."""
    status = subprocess.run([f"{TOP}/native", image, "-o", to], check=False).returncode
    if status:
        sys.exit(status)


def defined(asked):
    """The words of the compiler for how the C is read."""
    uncounted = asked.uncounted or asked.what == "run" and asked.counts is None
    return ["-DGP_UNMASKED"] * asked.unmasked + ["-DGP_UNCOUNTED"] * uncounted


def key_of(compiler, flags, *files):
    """The hash of all that a program is made from."""
    found = hashlib.sha256(repr((compiler.path, compiler.version(), compiler.kind, flags)).encode())
    for path in files:
        with open(path, "rb") as file:
            found.update(file.read())
    return found.hexdigest()


def build(asked, room):
    """Makes a shared object; nothing half-written is left."""
    compiler = compiler_of(asked.compiler)
    if not compiler:
        raise Failed("no C compiler: install gcc, clang or tcc")
    translate(asked.image, f"{room}/program.c")
    folder = os.path.dirname(os.path.abspath(asked.out))
    with tempfile.TemporaryDirectory(prefix=".native-", dir=folder) as beside:
        compiler.compile(["-shared", "-fPIC", *defined(asked), f"{room}/program.c"], f"{beside}/program.so")
        os.rename(f"{beside}/program.so", asked.out)
    return 0


def engine(asked, why):
    """Runs an image on the engine in the place of a compiled program."""
    print(f"native: {why}: it runs on the engine", file=sys.stderr, flush=True)
    words = [f"{TOP}/host", "run", "--engine", "--max-turns", str((1 << 40) - 1), asked.image]
    return subprocess.run(words, check=False).returncode


def program_of(asked, compiler, room):
    """The program of an image: from the cache, or compiled."""
    flags, cache = defined(asked), Cache()
    key = key_of(compiler, flags, f"{room}/program.c", RUN, HEADER)
    found = cache.found(key)
    if not found:
        compiler.compile([*flags, f"{room}/program.c", RUN], f"{room}/program")
        found = cache.keep(key, f"{room}/program")
    return found


def run(asked, room):
    """Runs an image on standard input."""
    translate(asked.image, f"{room}/program.c")
    compiler = compiler_of(asked.compiler)
    if not compiler:
        return engine(asked, "there is no C compiler")
    try:
        program = program_of(asked, compiler, room)
    except Failed as failed:
        return engine(asked, str(failed))
    return ran(program, ["--counts", str(asked.counts)] if asked.counts else [], asked.image)


def ran(program, counts, image):
    """Runs a program, and tells in words where it ended in a test that ./fit added; returns its status."""
    source, target = os.pipe()
    with open(source, encoding="ascii") as told:
        ended = subprocess.run([program, *counts, "--word", str(target)], pass_fds=[target], check=False).returncode
        os.close(target)
        word = told.read()
    if word and int(word, 16):
        tell(image, int(word, 16))
    return ended if ended >= 0 else 128 - ended


def tell(image, word):
    """Tells an exit word in words, where it is one of a test's."""
    sys.path.insert(0, f"{TOP}/tools/debug")
    from ends import told_of  # (which most runs don't need)
    why = told_of(word)
    if why:
        print(f"native: {image}: {why}", file=sys.stderr)


def main(words):
    asked = words_of(words)
    try:
        with tempfile.TemporaryDirectory(prefix="native-") as room:
            return (build if asked.what == "build" else run)(asked, room)
    except Failed as failed:
        print(f"native: {failed}", file=sys.stderr)
    except OSError as error:
        print(f"native: {file_fault(error)}", file=sys.stderr)
    except KeyboardInterrupt:
        return 130
    return FAILED


if __name__ == "__main__":
    sys.exit(main(sys.argv[1:]))
