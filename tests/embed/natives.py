"""Tries hosts of libgeyserpan whose images go by objects of native code, beside the same runs on the engine."""
import os
import re
import shutil

from run import EXAMPLES, FIT, SANDBOX, TOP, bytes_of, has, program, put, run

SOURCES = os.path.dirname(os.path.abspath(__file__))
NATIVE, HEADERS = f"{TOP}/native", f"{TOP}/embed/native"
STORED = f"{TOP}/crates/sbx_verdicts/stdin"
COMPILERS = ("gcc", "clang", "tcc")
# Of the stored images that are accepted each compiler makes so many.
IMAGES = 40
STRICT = ["-g", "-std=c11", "-D_POSIX_C_SOURCE=200809L", "-O2", "-Wall", "-Wextra", "-Wpedantic", "-Werror"]
VALGRIND = ["valgrind", "-q", "--error-exitcode=9", "--leak-check=full", "--show-leak-kinds=definite"]
# Files that are no object for echo.img, and the status of each.
FILE, OBJECT, OBJECT_ABI, OBJECT_IMAGE, OBJECT_COUNTS = range(16, 21)


def stored():
    """The accepted images that are stored and run, each with its runs: windows, input, exit word, output, counts."""
    found, runs = [], None
    with open(STORED, encoding="ascii") as lines:
        for line in lines:
            words = line.split()
            if words[:1] == ["image"]:
                runs = [] if words[2] == "accepted" else None
                if runs is not None:
                    found.append((bytes.fromhex(words[1]), runs))
            elif words[:1] == ["run"] and runs is not None:
                runs.append(words[1:])
    return [it for it in found if it[1]]


def doubling(depth):
    """A source whose functions call the next one twice, without a loop."""
    lines, budget = [".services exit"], 2
    functions = [".function f0,leaf,0,0,2\n.fuel 2\n retl\n nop"]
    for level in range(1, depth + 1):
        budget = 2 * budget + 55
        call = f" call f{level - 1}\n nop\n"
        functions.insert(0, f".function f{level},framed,96,{96 * level},{budget}\n.fuel {budget}\n save %sp,-96,%sp\n"
                            f"{call}{call} ret\n restore")
    total, stack = budget + 31, 96 * (depth + 1)
    lines += [f".function main,framed,96,{stack},{total}", f".fuel {total}", " save %sp,-96,%sp", f" call f{depth}",
              " nop", " mov 0,%o0", " ta 0"]
    return "\n".join([*lines, *functions, ""])


class Natives:
    """What these trials have in common: how they count, where they work, and the host."""

    def __init__(self, tally, prefix, work):
        self.tally, self.work = tally, work
        self.words = [f"-I{prefix}/include", f"{SOURCES}/natives.c", f"{prefix}/lib/libgeyserpan.a", "-lpthread"]
        self.host = f"{work}/natives"
        self.count = 0

    def made(self, words, what):
        """Whether a command that makes something succeeds."""
        ran = run(words, seconds=None)
        return self.tally.check(what, ran.status == 0, f"wanted that it is made, came {ran.said[-1500:]}")

    def object_of(self, image, compiler, *more):
        """A new object of an image; None where it can't be made, which is counted."""
        self.count += 1
        path = f"{self.work}/object{self.count}.so"
        words = [NATIVE, "build", image, "-o", path, "--compiler", compiler, *more]
        return path if self.made(words, f"{os.path.basename(image)} by {compiler} {' '.join(more)}") else None

    def says(self, what, way, words, wanted):
        """Counts whether a mode of the host ends as it should."""
        ran = run([*way, *words], seconds=None)
        self.tally.check(what, (ran.status, ran.out) == (0, wanted), f"wanted {wanted}, came {ran.status}: "
                         f"{ran.said[-1500:]}")

    # ---- the same runs

    def rows(self, what, rows):
        """Counts whether rows that the host is asked give what is wanted of each, where something is."""
        asked = "".join(f"{' '.join(map(str, it[0]))}\n" for it in rows).encode()
        ran = run([self.host, "rows"], asked, seconds=None)
        came = ran.out.decode().splitlines()
        wrong = [f"{ask[0]}: wanted {want}, came {line}" for (ask, want), line in zip(rows, came)
                 if want and want != line.split()]
        holds = ran.status == 0 and len(came) == len(rows) and not wrong
        self.tally.check(what, holds, f"{wrong[:2]}, {len(came)} of {len(rows)} rows, {ran.err.decode()[-500:]}")
        return len(rows) if holds else 0

    def stored_runs(self, compiler):
        """Stored images and their runs, of each compiler other ones: so many runs."""
        images = stored()
        step = len(images) // IMAGES
        rows = []
        for number, (data, runs) in enumerate(images[COMPILERS.index(compiler) * 7 % step::step]):
            image = put(f"{self.work}/{compiler}{number}.img", data)
            made = self.object_of(image, compiler)
            rows += [((image, made, windows, given), [word, *counts, output])
                     for windows, given, word, output, *counts in runs if made]
        return self.rows(f"stored runs by {compiler}", rows)

    def images(self):
        """The examples, and the programs of examples/c: image and input of each."""
        for name in sorted(os.listdir(EXAMPLES)):
            image, given = (f"{EXAMPLES}/{name}/{name}.{it}" for it in ("img", "in"))
            if os.path.exists(image):
                yield image, bytes_of(given) if os.path.exists(given) else b""
        if not os.path.exists(program("fit")) or not os.path.exists(program("sbx_tool")):
            self.tally.skip("examples/c by objects", "the programs of fit and sandbox")
            return
        source = put(f"{self.work}/doubling.s", doubling(14).encode())
        if self.made([SANDBOX, "asm", source, f"{source}.img"], "calls without a loop"):
            yield f"{source}.img", b""
        for source in sorted(os.listdir(f"{EXAMPLES}/c/gcc")):
            name, made = source.removesuffix(".s"), f"{self.work}/{source}"
            parts = [f"{EXAMPLES}/c/gcc/{it}" for it in (source, "plug.s")]
            if name != "plug" and self.made([FIT, *parts, "-o", made], source) and self.made(
                    [SANDBOX, "asm", made, f"{made}.img"], f"an image of {name}"):
                yield f"{made}.img", bytes_of(f"{EXAMPLES}/c/in/{name}")

    def example_runs(self, compiler):
        """Each of these on three counts of windows."""
        rows = []
        for image, given in self.images():
            made = self.object_of(image, compiler)
            rows += [((image, made, windows, given.hex().upper() or "-"), None) for windows in (4, 8, 32) if made]
        return self.rows(f"examples by {compiler}", rows)

    # ---- what is refused, ends, memory, threads

    def no_objects(self, echo, compiler):
        """Files that are no object for echo.img, each with its status."""
        whole, work = self.object_of(echo, compiler), f"{self.work}/refused"
        os.makedirs(work)
        size = os.path.getsize(whole)
        found = [(f"{work}/nowhere", FILE), (f"{work}/no/folder", FILE), (work, OBJECT), ("/dev/zero", OBJECT),
                 (shutil.which("true"), OBJECT), (echo, OBJECT), (put(f"{work}/empty", b""), OBJECT)]
        for cut in (1, 63, 64, 200, size // 4, size // 2, size - 4000, size - 1):
            found.append((put(f"{work}/cut{cut}", bytes_of(whole)[:cut]), OBJECT))
        os.mkfifo(f"{work}/pipe")
        put(f"{work}/other.c", b"int other;\n")
        of_abi = re.sub(r"(GEYSERPAN_NATIVE_ABI) \d+u", r"\1 999u", bytes_of(f"{HEADERS}/geyserpan_native.h").decode())
        put(f"{work}/geyserpan_native.h", of_abi.encode())
        self.made([NATIVE, echo, "-o", f"{work}/echo.c"], "echo.img as C")
        for name in ("other", "echo"):
            self.made([compiler, "-w", "-shared", "-fPIC", f"-I{work}", f"{work}/{name}.c", "-o", f"{work}/{name}.so"],
                      f"{name}.so")
        return [*found, (f"{work}/pipe", OBJECT), (f"{work}/other.so", OBJECT), (f"{work}/echo.so", OBJECT_ABI),
                (self.object_of(f"{EXAMPLES}/hello/hello.img", compiler), OBJECT_IMAGE),
                (self.object_of(echo, compiler, "--uncounted"), OBJECT_COUNTS)]

    def refusals(self, way, what, echo, made, files):
        """Each of them is told by its status, and leaves the image as it was."""
        ran = run([*way, "refusals", echo, made, *(path for path, _ in files)], seconds=None)
        came = [int(it.split()[0]) for it in ran.out.decode().splitlines()[:-1]]
        self.tally.check(f"{what}: no objects", ran.status == 0 and came == [it for _, it in files],
                         f"wanted {files}, came {came}, {ran.said[-1500:]}")

    def ends(self, way, what, compiler, runs):
        """Limits, the order of ends, refused growths, threads."""
        echo = f"{EXAMPLES}/echo/echo.img"
        made = self.object_of(echo, compiler)
        if not made:
            return
        self.says(f"{what}: limits", way, ["limits", echo, made], b"limits\n")
        self.says(f"{what}: orders", way, ["orders", echo, shutil.copy(made, f"{made}.gone")], b"orders\n")
        self.says(f"{what}: 8 threads", way, ["threads", echo, made, "8", runs], b"threads\n")
        ran = run([*way, "growths", echo, made], seconds=None)
        count = re.fullmatch(rb"(\d+) growths\n", ran.out)
        self.tally.check(f"{what}: refused growths", ran.status == 0 and count and int(count[1]) > 5, ran.said[-1500:])

    def checked(self):
        """The host under sanitizers and valgrind: how it is called, and how many runs a thread makes."""
        for compiler in filter(has, ("gcc", "clang")):
            for kind in ("address,undefined", "thread"):
                path = f"{self.work}/natives-{compiler}-{kind[:6]}"
                words = [compiler, "-g", "-O1", f"-fsanitize={kind}", *self.words, "-o", path]
                if run(words, seconds=None).status:
                    self.tally.skip(f"natives.c by {compiler} -fsanitize={kind}", "its library")
                else:
                    yield ["setarch", "-R", path], f"{compiler} -fsanitize={kind}", "100"
        if has("valgrind"):
            yield [*VALGRIND, self.host], "valgrind", "2"
        else:
            self.tally.skip("natives.c by valgrind", "valgrind")


def objects_for_hosts(tally, work):
    """Objects of echo.img and of hello.img, for the hosts in other languages; None where they can't be made."""
    if not os.path.exists(program("native")) or not any(map(has, COMPILERS)):
        return None
    made = [f"{work}/{name}.so" for name in ("echo", "hello")]
    for path in made:
        name = os.path.basename(path).removesuffix(".so")
        ran = run([NATIVE, "build", f"{EXAMPLES}/{name}/{name}.img", "-o", path], seconds=None)
        if not tally.check(f"an object of {name}.img", ran.status == 0, ran.said[-1500:]):
            return None
    return made


def try_natives(tally, prefix, work):
    """All of it; what isn't there is skipped, and said so."""
    it = Natives(tally, prefix, f"{work}/native")
    compilers = [name for name in COMPILERS if has(name)]
    for name in set(COMPILERS) - set(compilers):
        tally.skip(f"objects by {name}", name)
    if not os.path.exists(program("native")) or not compilers:
        tally.skip("objects of native code", "the program of ./native, or a C compiler")
        return
    os.makedirs(it.work)
    if not it.made(["cc", *STRICT, *it.words, "-o", it.host], "natives.c"):
        return
    runs = sum(it.stored_runs(name) for name in compilers) + it.example_runs(compilers[0])
    print(f"by objects: {runs} runs, each whole and in pieces")
    echo = f"{EXAMPLES}/echo/echo.img"
    files, made = it.no_objects(echo, compilers[0]), it.object_of(echo, compilers[0])
    for way, what, count in [([it.host], "natives", "1000"), *it.checked()]:
        it.refusals(way, what, echo, made, files)
        it.ends(way, what, compilers[0], count)
