"""Random programs of generator.py, compiled in many ways, beside the same programs under qemu."""
import os
import random
import shutil

import generator
from compared import SPARC, compilers, is_refused, under_qemu
from run import CC, FIT, SANDBOX, TOP, has, put, run_within

LEVELS = ("-O0", "-O1", "-O2", "-O3", "-Os")
# Without these `fit` refuses what gcc writes, or it means something else than under qemu: those of ./cc, but for what
# saves tests.
PLAIN = """-g1 -m32 -mcpu=v8 -msoft-float -mno-app-regs -ffixed-o7 -fno-delayed-branch -fno-pic -fno-pie
    -fno-jump-tables -fno-optimize-sibling-calls -fno-asynchronous-unwind-tables -fno-stack-protector -fno-common
    -fno-ipa-icf -fno-ipa-ra -fno-strict-aliasing -fwrapv -ffreestanding -w""".split()
# What the programs, and gcc of itself, call.
HELPERS = ("plug", "integer")
MOST_TURNS = str(10**12)
INPUTS = 14


def by_cc(compiler, level):
    """How ./cc makes an image by a compiler."""
    def made(to, sources, image):
        return run_within([CC, *sources, "-w", level, "--turns", MOST_TURNS, "-o", image], seconds=240,
                          env={**os.environ, "CC_SPARC": compiler})

    return f"cc {level} by {compiler}", made


def by_plain_flags(level):
    """How an image is made of files that gcc compiles one by one, with its own mind about loops and blocks."""
    def made(to, sources, image):
        files = [f"{to.work}/{name}.plain.s" for name in HELPERS]
        for source in sources:
            files.append(f"{source}.s")
            ran = run_within([SPARC, level, *PLAIN, "-I", f"{TOP}/runtime", "-S", "-o", files[-1], source])
            if ran.status != 0:
                return ran
        ran = run_within([FIT, *files, "-o", f"{image}.s", "--turns", MOST_TURNS], seconds=240)
        for words in ([SANDBOX, "asm", f"{image}.s", image], [SANDBOX, "verify", image]):
            ran = run_within(words) if ran.status == 0 else ran
        return ran

    return f"gcc {level} with plain flags", made


def ways(to):
    """All ways in which random programs are compiled, each by its name."""
    found = [by_cc(SPARC, level) for level in LEVELS]
    for name in HELPERS:
        run_within([SPARC, "-Os", *PLAIN, "-S", "-o", f"{to.work}/{name}.plain.s", f"{TOP}/runtime/{name}.c"])
    found += [by_plain_flags(level) for level in LEVELS]
    if "clang" in compilers():
        found += [by_cc("clang", level) for level in ("-O1", "-O2")]
    else:
        to.tally.skip("random programs by clang", "clang with its SPARC target")
    return found


def inputs_of(seed):
    """Inputs of a random program."""
    chance = random.Random(f"inputs {seed}")
    return [b"", *(chance.randbytes(chance.randrange(1, 300)) for _ in range(INPUTS - 1))]


def try_program(to, seed, way):
    """One random program, compiled in one way: the same outputs, or a refusal with its reason."""
    folder, (called, made) = f"{to.work}/random{seed}", way
    os.makedirs(folder)
    sources = [put(f"{folder}/{name}", text) for name, text in generator.files_of(seed).items()]
    name, image = f"random {seed}, {called}", f"{folder}/random{seed}.img"
    other = under_qemu(sources[0], f"{folder}/qemu", sources[1:])
    if not to.tally.check(name, other, "wanted a program to compare with, came none", sources):
        return "not compiled"
    ran = made(to, sources, image)
    if ran.status != 0:
        to.tally.check(name, is_refused(ran), f"wanted an image or a limit, came {ran}", sources)
        print(f"{name}: {ran.said.splitlines()[-1:]}", flush=True)
        return "refused"
    to.compare_many(name, image, other, inputs_of(seed))
    shutil.rmtree(folder)
    return "compared"


def try_randoms(to, options, in_turn):
    """Random programs of generator.py, each compiled in one of the ways."""
    for need in (SPARC, "qemu-sparc"):
        if not has(need):
            to.tally.skip("random programs", need)
            return
    known, first = ways(to), options.seed * 100_000
    ends = in_turn(options, lambda number: try_program(to, first + number, known[number % len(known)]),
                   range(options.programs))
    for end in sorted(set(ends)):
        print(f"random programs, {end}: {ends.count(end)}", flush=True)
