"""How fast accepted images are as compiled C: beside a board, and beside the same C by the host's compiler."""
import math
import os
import re
import resource
import subprocess
import sys
import tempfile

HERE = os.path.dirname(os.path.abspath(__file__))
sys.path.insert(0, f"{os.path.dirname(HERE)}/lib")
from run import CC, EXAMPLES, SANDBOX, TOP, built, bytes_of, has, program, put, run
from workloads import NAMES, READERS, input_bytes, source_of

HEADERS = f"{TOP}/embed/native"
# What ./native compiles with: counted and masked, as objects for hosts are.
COMPILED = ["gcc", "-std=c11", "-O1", "-w", "-I", HEADERS]
PLUG = ["gcc", "-O2", "-w", "-fwrapv", "-fno-strict-aliasing", "-DNATIVE", "-idirafter", f"{TOP}/runtime"]
# An image shares its streams with nobody, so that the same C doesn't lock its own.
UNLOCKED = "#include <stdio.h>\n#define getchar getchar_unlocked\n#define putchar putchar_unlocked\n"
# The least that the figures have to be, or the most.
LEAST_BOARD, LEAST_NATIVE, LEAST_MEGABYTES = 40, 0.8, 100
MOST_STEP, MOST_TRANSLATION, MOST_BYTES = 200, 1, 12
ROUNDS, PIECE, STEPPED = 5, 12, 3_600_000


def seconds_of(words, path):
    """The CPU seconds of a command on a file, the least of some rounds, and what it put out."""
    found = []
    for _ in range(ROUNDS):
        before = resource.getrusage(resource.RUSAGE_CHILDREN)
        with open(path, "rb") as given:
            out = subprocess.run(words, stdin=given, stdout=subprocess.PIPE, stderr=subprocess.DEVNULL,
                                 check=False).stdout
        after = resource.getrusage(resource.RUSAGE_CHILDREN)
        found.append(after.ru_utime + after.ru_stime - before.ru_utime - before.ru_stime)
    return min(found), out


def instructions_of(words, given):
    """The instructions of a command on an input."""
    ran = run(["valgrind", "--tool=callgrind", "--callgrind-out-file=/dev/null", *words], given, 600)
    found = re.search(rb"Collected : (\d+)", ran.err)
    return int(found[1]) if found else None


def mean(ratios):
    """The geometric mean."""
    return math.exp(sum(map(math.log, ratios)) / len(ratios))


class Room:
    """A folder with programs of images."""

    def __init__(self, folder):
        self.folder = folder

    def translated(self, image):
        """The C of an image."""
        to = image.removesuffix(".img") + ".c"
        subprocess.run([program("native"), image, "-o", to], check=True)
        return to

    def compiled(self, image, *more):
        """The program of an image."""
        to = image.removesuffix(".img")
        subprocess.run([*COMPILED, self.translated(image), *(more or [f"{HEADERS}/geyserpan_native_run.c"]), "-o", to],
                       check=True)
        return to

    def size_of_run(self, image):
        """The bytes of machine code of an image's run."""
        to = f"{self.folder}/one.o"
        subprocess.run([*COMPILED, "-c", self.translated(image), "-o", to], check=True)
        return int(re.search(r"^\w+ (\w+) t gp_run$", run(["nm", "-S", to]).out.decode(), re.M)[1], 16)

    def workload(self, name):
        """The image of a workload."""
        to = f"{self.folder}/{name}.img"
        subprocess.run([SANDBOX, "asm", put(f"{self.folder}/{name}.s", source_of(name).encode()), to], check=True)
        return to


def names_of_c():
    """The programs of examples/c."""
    return sorted(it.removesuffix(".c") for it in os.listdir(f"{EXAMPLES}/c") if it.endswith(".c"))


def words_in(image):
    """How many words of code an image has."""
    return int.from_bytes(bytes_of(image)[8:12], "big")


def workloads(tally, room):
    """Each workload by a board and as compiled C, whole processes."""
    put(f"{room.folder}/input", input_bytes())
    put(f"{room.folder}/nothing", b"")
    ratios = []
    for name in NAMES:
        given, image = f"{room.folder}/{'input' if name in READERS else 'nothing'}", room.workload(name)
        board, wanted = seconds_of([program("sbx_tool"), "run", image], given)
        here, came = seconds_of([room.compiled(image), "--counts", "8"], given)
        tally.same(f"{name}: output", came, wanted)
        ratios.append(board / here)
        print(f"{name:10} board {board:6.3f} s, compiled {here:6.4f} s, {ratios[-1]:5.1f} times", flush=True)
    print(f"geometric mean: {mean(ratios):.1f} times the board")
    tally.check(f"{LEAST_BOARD} times the board", mean(ratios) >= LEAST_BOARD, f"{mean(ratios):.1f}")


def beside_the_compiler(tally, room):
    """Instructions of the programs of examples/c as images, and as the same C by gcc -O2."""
    if not has("valgrind") or not has("sparc64-linux-gnu-gcc"):
        tally.skip("instructions of the programs of examples/c", "valgrind, gcc-sparc64-linux-gnu")
        return
    put(f"{room.folder}/empty.c", b"int main(void) { return 0; }\n")
    unlocked = put(f"{room.folder}/unlocked.h", UNLOCKED)
    bases, ratios = {}, []
    for name in ("empty", *names_of_c()):
        source = f"{EXAMPLES}/c/{name}.c" if name != "empty" else f"{room.folder}/empty.c"
        image, native = f"{room.folder}/{name}.img", f"{room.folder}/{name}.native"
        subprocess.run([*PLUG, "-include", unlocked, source, "-o", native], check=True)
        tally.check(f"an image of {name}", run([CC, source, "-o", image]).status == 0)
        given = bytes_of(f"{EXAMPLES}/c/in/{name}") if name != "empty" else b""
        counts = {"native": instructions_of([native], given), "here": instructions_of([room.compiled(image)], given)}
        bases = bases or counts
        if name != "empty":
            ratios.append((counts["native"] - bases["native"]) / (counts["here"] - bases["here"]))
            print(f"{name:10} {counts['native'] - bases['native']:11,} instructions by gcc -O2, "
                  f"{counts['here'] - bases['here']:11,} compiled, {ratios[-1]:.2f} of its speed", flush=True)
    print(f"geometric mean: {mean(ratios):.2f} of the speed of gcc -O2")
    tally.check(f"{LEAST_NATIVE} of gcc -O2", mean(ratios) >= LEAST_NATIVE, f"{mean(ratios):.2f}")


def bytes_and_steps(tally, room):
    """The echo from a pipe to a pipe, and its steps of a few bytes."""
    image = room.workload("echo")
    seconds = min(piped(room.compiled(image), f"{room.folder}/input") for _ in range(ROUNDS))
    rate = os.path.getsize(f"{room.folder}/input") / seconds / 1e6
    print(f"echo from a pipe to a pipe: {rate:.0f} MB a second of processor")
    tally.check(f"{LEAST_MEGABYTES} MB a second", rate >= LEAST_MEGABYTES, f"{rate:.0f}")
    stepping = room.compiled(image, f"{HERE}/steps.c")
    step = min(float(run([stepping, str(PIECE), str(STEPPED)]).out or b"inf") for _ in range(ROUNDS))
    print(f"a step of {PIECE} bytes: {step:.0f} ns")
    tally.check(f"a step below {MOST_STEP} ns", step < MOST_STEP, f"{step:.0f}")


def piped(words, path):
    """The CPU seconds of a program whose input and output are pipes."""
    with subprocess.Popen(["cat", path], stdout=subprocess.PIPE) as source:
        with subprocess.Popen([words], stdin=source.stdout, stdout=subprocess.PIPE) as it:
            while it.stdout.read(1 << 16):
                pass
            usage = os.wait4(it.pid, 0)[2]
            it.returncode = 0
    return usage.ru_utime + usage.ru_stime


def translation(tally, room):
    """The time that the greatest block takes, by the word, and the size of what is made of examples/c."""
    sources = {it: put(f"{room.folder}/dense{it}.s", dense_source(it).encode()) for it in (15_000, 60_000)}
    seconds = {}
    for count, source in sources.items():
        image = source.removesuffix(".s") + ".img"
        subprocess.run([SANDBOX, "asm", source, image], check=True)
        seconds[count] = seconds_of([program("native"), image, "-o", os.devnull], os.devnull)[0]
    each = (seconds[60_000] - seconds[15_000]) / 45_000 * 1e6
    print(f"translation: {each:.2f} microseconds a word")
    tally.check(f"translation below {MOST_TRANSLATION} microsecond a word", each < MOST_TRANSLATION, f"{each:.2f}")
    images = [it for it in (f"{room.folder}/{name}.img" for name in names_of_c()) if os.path.exists(it)]
    if not images:
        tally.skip("the size of code", "gcc-sparc64-linux-gnu")
        return
    each = sum(map(room.size_of_run, images)) / sum(map(words_in, images))
    print(f"code of a run: {each:.1f} bytes a word")
    tally.check(f"code below {MOST_BYTES} bytes a word", each < MOST_BYTES, f"{each:.1f}")


def dense_source(words):
    """A source of one block of so many words."""
    body = [" add %o0,1,%o0", " xor %o0,85,%o1", " sub %o1,%o0,%o2"]
    lines = [body[k % 3] for k in range(words - 3)]
    return "\n".join([".services exit,get,put", f".function main,leaf,0,0,{words + 100}", f".fuel {words + 100}",
                      " mov 0,%o0", *lines, " mov 0,%o0", " ta 0", ""])


def speed(tally, _asked):
    """All of it."""
    built("sandbox")
    with tempfile.TemporaryDirectory() as folder:
        room = Room(folder)
        for part in (workloads, beside_the_compiler, bytes_and_steps, translation):
            part(tally, room)
