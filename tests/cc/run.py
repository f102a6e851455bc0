#!/usr/bin/env python3
"""usage: tests/cc/run.py [PART ..]

Tries ./cc and ./c++ as an author calls them: the programs and the refusals that docs/use/c.md shows, each option, each
status, each refusal by its line; what data an image has; programs of 100 lines in C, by gcc and clang, and in C++,
beside the same for this machine; the time that one of 500 lines takes; a Makefile and CMake. What needs a compiler for
SPARC is skipped where none is."""
import os
import re
import resource
import shutil
import sys
import tempfile

sys.dont_write_bytecode = True
sys.path.insert(0, f"{os.path.dirname(os.path.dirname(os.path.abspath(__file__)))}/lib")
from refusals import REFUSED, REFUSED_CLANG, REFUSED_PLUS, WORDS
from run import CC, EXAMPLES, INSPECT, SANDBOX, TOP, built, has, put, run, text_of
from sources import SOURCES, THREE
from tally import Tally, Words

sys.path.append(f"{TOP}/tools/cc")
from assembly import with_codes_apart

HERE = os.path.dirname(os.path.abspath(__file__))
PLUS = f"{TOP}/c++"

USAGE = "Usage: cc [OPTION..] FILE.c.."
UPPER = f"{EXAMPLES}/c/upper.c"
COMPILER, COMPILER_PLUS = "sparc64-linux-gnu-gcc", "sparc64-linux-gnu-g++"
# Programs that read or write where nothing of theirs is: words of ./cc, the regions of the image, and what it puts out
# before; and addresses before the data, among constants, and behind.
STRAYS = (("peek.c -DAT=at", [], b""), ("peek.c -DAT=0x80000", [], b""), ("poke.c -DAT=at", [], b""),
          ("poke.c -DAT=0x80040", [], b""), ("digits.c", ["ro", "rw"], b"0800"))
PLACES = [it.to_bytes(4, "big") for it in (0, 0x7FFFC, 0x80000, 0x80040, 0x80050, 0x8005C, 0xFFFFFFFC)]
# So many seconds of processor a program of 500 lines may take: more than twice what it does beside other work.
MOST_SECONDS = 4


# A fit that changes the fuel in the source that it made, and so ends as where the verifier refuses the image; and one
# that ends as where the assembler finds too much of something.
OUT_OF_FUEL = r"""#!/bin/sh
TOP/fit "$@" || exit
source=$(echo "$*" | sed "s/.* -o //; s/ .*//") image=$(echo "$*" | sed "s/.* --image //; s/ .*//")
sed -i "s/^.fuel [0-9]*$/.fuel 1/" "$source"
told=$(TOP/sandbox asm "$source" "$image" 2>&1 && TOP/sandbox verify "$image" 2>&1) && exit
rm "$image"
echo "fit: $image: what was made isn't accepted: $told" >&2
exit 6
"""
# What gcc writes where a function that never returns is called, and what a branch leads to lies behind that.
FOR_GOOD = """\t.text
\t.type stop, #function
stop:
\tmov\t3, %o0
\tta\t0
\t.size stop, .-stop
\t.global main
\t.type main, #function
main:
\tsave\t%sp, -96, %sp
\tta\t1
\tcmp\t%o0, 65
\tbe\t.L1
\t nop
\tcmp\t%o0, 70
\tbne\t.L2
\t nop
\tmov\t1, %i0
\tret
\trestore
.L1:
\tcall\tstop, 0
\t nop
.L2:
\tmov\t2, %i0
\tbleu\t.L3
\t nop
\tmov\t0, %i0
.L3:
\tret
\trestore
\t.size main, .-main
"""
TOO_MUCH = r"""#!/bin/sh
TOP/fit "$@" || exit
echo "fit: out.img: what was made isn't accepted: line 9: A3" >&2
exit 6
"""


class Author:
    """Calls of ./cc in a folder that has the sources."""

    def __init__(self, tally, work):
        self.tally, self.work = tally, work

    def at(self, name):
        """The path of a file in the folder."""
        return f"{self.work}/{name}"

    def called(self, status, told, *words, tool=CC, **how):
        """A call's status, and a part of what it tells."""
        name, ran = f"{os.path.basename(tool)} {' '.join(words)}", run([tool, *words], cwd=self.work, **how)
        self.tally.check(f"{name}: status", ran.status == status, f"wanted {status}, came {ran.status}: {ran.said}")
        self.tally.check(name, told in ran.said, f"wanted '{told}', came {ran.said}")

    def makes(self, told, name, *words):
        """A call that makes an image of a file of the folder; returns the image."""
        image = self.at(re.sub(r"\.c$", ".img", name))
        self.called(0, told, self.at(name), *words, "-o", image)
        return image

    def puts(self, image, wanted, given=b""):
        """What an image puts out on an input."""
        self.tally.same(f"{os.path.basename(image)} on {given}", run([SANDBOX, "run", image], given).out, wanted)

    def has_none(self, *names):
        """No image is made of what is refused."""
        for name in names:
            self.tally.check(name, not os.path.exists(self.at(name)), "wanted no image, came one")


def try_words(author):
    """Words that ask for nothing, and a compiler that isn't there."""
    image = author.at("x.img")
    author.called(3, USAGE)
    author.called(0, USAGE, "--help")
    for tool in CC, PLUS:
        author.called(0, "compiler sparc64-linux-gnu-gcc", "--version", tool=tool)
    author.called(0, "compiler none", "--version", env={**os.environ, "CC_SPARC": "nothing"})
    author.called(3, USAGE, UPPER)
    author.called(3, USAGE, "-o", image)
    author.called(3, USAGE, UPPER, "-o", image, "--frobnicate")
    for words, told in WORDS:
        author.called(3, told, UPPER, "--turns", "9", *words)
    author.called(4, "nowhere: no such file", UPPER, "--against", "nowhere")
    for option in ("-o OUT.img", "--run", "--against INPUT..", "--turns N", "--arena BYTES", "--stack BYTES",
                   "--strict", "--region", "--notes", "--keep FOLDER", "-MMD", "CC_SPARC", "Status 0:"):
        author.called(0, option, "--help")
        author.called(0, option, "--help", tool=PLUS)
    author.called(125, "CC_SPARC: nothing isn't there", UPPER, "-o", image, env={**os.environ, "CC_SPARC": "nothing"})
    os.mkdir(author.at("bin"))
    for tool in ("python3", "env"):
        os.symlink(shutil.which(tool), author.at(f"bin/{tool}"))
    author.called(125, "gcc-sparc64-linux-gnu", UPPER, "-o", image, env={**os.environ, "PATH": author.at("bin")})


def try_page(author):
    """The programs of docs/use/c.md, each under its name."""
    for name, text in re.findall(r"^```c(?:pp)? (\S+)\n(.*?)^```$", text_of(f"{TOP}/docs/use/c.md"), re.M | re.S):
        put(author.at(name), text)
    author.puts(author.makes("accepted", "hello.c"), b"Ann will be 31.\nBob will be 42.\n", b"Ann 30\nBob 41\n")
    if has(COMPILER_PLUS):
        author.called(0, "4\n5\n16", "shapes.cc", "-std=c++20", "--run", tool=PLUS)
    author.puts(author.makes("accepted", "lower.c", "--keep", author.at("kept")), b"hello\n", b"HeLLo\n")
    for name in ("fitted.s", "program.s"):
        path = author.at(f"kept/{name}")
        author.tally.check(f"--keep: {name}", os.path.exists(path) and os.path.getsize(path),
                           "wanted a file, came none")
    image = author.makes("name.c:7: note: the index into name (32 bytes)", "name.c")
    author.puts(image, b"cba", b"\3abc")
    author.puts(image, b"", b"\377abc")
    author.called(1, "name.c:7: note: ", author.at("name.c"), "-o", author.at("strict.img"), "--strict")
    author.called(0, "accepted", author.at("lower.c"), "-o", author.at("short.img"), "--turns", "20000")
    length = len(run([SANDBOX, "run", author.at("short.img")], b"y\n" * 2500).out)
    author.tally.check("--turns 20000", length < 2000, f"wanted fewer than 2000 bytes, came {length}")
    author.called(2, "sum.c:3: refused: checksum isn't defined", author.at("sum.c"), "-o", author.at("sum.img"))
    author.puts(author.makes("accepted", "sums.c"), b"6\na ) is missing\na number is missing\n", b"1+(2+3)\n(1+2\n4+\n")
    author.called(2, "ask for more", author.at("lower.c"), "-o", author.at("few.img"), "--turns", "1")
    author.has_none("strict.img", "sum.img", "few.img")


def try_sources(author):
    """Further sources: notes, headers, faults, two files, levels."""
    author.makes("beside.c:5: note: the index into name (32 bytes) may be 1 to 32: a test was added", "beside.c")
    author.called(4, "none.c: no such file", "none.c", "-o", "none.img")
    author.puts(author.makes("accepted", "library.c"), b"1 2 3 5 8 00005|ff\n", b"3 1 8 5 2")
    author.puts(author.makes("accepted", "limits.c"), b"A")
    author.puts(author.makes("accepted", "cell.c"), b"-3 -10 -2\n3 15 4\n-1 0 0\n", b"-2.5 3.6 -0.1")
    author.puts(author.makes("accepted", "two.c", author.at("one.c"), "-DFACTOR=2"), b"B")
    for level in ("-O1", "-O2", "-Os"):
        image = author.at("rot13.img")
        author.called(0, "accepted", f"{EXAMPLES}/c/rot13.c", level, "-o", image)
        author.puts(image, b"Uryyb\n", b"Hello\n")


def try_refusals(author):
    """Each refusal names the place, and what to write; no image is made."""
    for name, (text, told) in {**REFUSED, **(REFUSED_PLUS if has(COMPILER_PLUS) else {})}.items():
        put(author.at(name), text)
        for part in told.split("\n"):
            author.called(2, part, name, "-std=gnu++20" if name.endswith(".cc") else "-std=gnu11", "-o", "refused.img")
    for name, (text, told) in (REFUSED_CLANG if has("clang") else {}).items():
        put(author.at(name), text)
        author.called(2, told, name, "-o", "refused.img", env={**os.environ, "CC_SPARC": "clang"})
    author.has_none("refused.img")


def try_ends(author):
    """What runs before main and behind it, its parameters, and how a run's end is told."""
    author.puts(author.makes("accepted", "ends.c"), b"before main, at exit\n")
    told = "words.c:2: note: main is called as program without words: argc is 1, argv[1] is NULL"
    image = author.makes(told, "words.c")
    author.puts(image, b"1 program 1\n")
    author.makes("trap.c:2: note: main: the compiler sees that C defines nothing here", "trap.c")
    author.called(1, "abort was called", "trap.c", "--run", given=b"a")
    author.called(0, "accepted", "trap.c", "--run", given=b"b")
    author.called(1, "the exit word is 7 (00000007)", "seven.c", "--run")
    author.puts(author.makes("accepted", "quick.c"), b"now")
    author.called(1, "the exit word is 4 (00000004)", "quick.c", "--run")
    author.called(1, "within.c:9: a divisor is 0", "within.c", "--run", given=b"1 2")
    author.called(1, "within.c:9: a pointer leaves the program's data", "within.c", "--run", given=b"1 9999999")
    author.called(1, "compiled again more plainly, by -O0, since part: no place for a test", "dense.c", "--run",
                  given=b"1 2")
    author.called(1, "dense.c:4: a divisor is 0", "dense.c", "--run", given=b"1 2")
    author.called(0, "within.c:11: note: what goes to stderr is dropped", "within.c", "--run", given=b"1")
    author.called(0, "told.c:5: note: what goes to stderr is dropped", "told.c", "--run")
    author.called(1, "deep.c:2: calls go too deep: ask for more by --stack", "deep.c", "--run")
    author.called(0, "accepted", "deep.c", "--run", "--stack", "65536")
    author.called(1, "the loops have used up their turns: ask for more by --turns", "deep.c", "--run", "--stack",
                  "65536", "--turns", "9000")
    author.called(1, "the exit word is 2 (00000002); if malloc gave NULL, ask for more by --arena", "heap.c", "--run")
    author.called(0, "accepted", "heap.c", "--run", "--arena", "131072")


def try_options(author):
    """Options of a compiler's, and of cc's own."""
    author.called(2, "[-Werror=unused-variable]", "unused.c", "-Wall", "-Werror", "-o", "unused.img")
    author.called(0, "accepted", "unused.c", "-Wall", "-w", "-o", "unused.img")
    author.called(0, "accepted", "given.c", "-include", "given.h", "-I", "folder", "-Dthree=3", "-U", "four",
                  "-std=c99", "-pedantic", "-g", "-lm", "-MMD", "-MF", "given.d", "-o", "given.img")
    told = text_of(author.at("given.d"))
    holds = told.startswith("given.img: given.c") and "folder/inner.h" in told and "stdio.h" not in told
    author.tally.check("-MMD", holds, f"wanted given.c and folder/inner.h, came {told}")
    author.called(0, "inner.h", "given.c", "-include", "given.h", "-Ifolder", "-Dthree=3", "-M")
    author.called(0, "", "given.c", "-include", "given.h", "-Ifolder", "-Dthree=3", "-E", "-o", "given.i")
    author.called(0, "accepted", "given.i", "-o", "again.img")
    author.puts(author.at("again.img"), b"3\n")
    author.called(0, "tests were added (first 7, second 4): --notes tells each", "notes.c", "-o", "notes.img")
    author.called(0, "notes.c:5: note: the index into table", "notes.c", "--notes", "-o", "notes.img")
    author.called(0, "tests were added (first 7, second 4): --notes tells each", "old.c", "-o", "old.img")
    author.called(1, "differs: byte 0, in line 1, is 34, natively 38", "size.c", "--against", "size.in")
    author.called(1, "2 inputs, 2 differ", "size.c", "--against", "inputs")
    author.called(1, "natively status 8, here the exit word is 4", "size.c", "--against", "size.in", "-DQUIET")
    author.called(0, "1 input, 0 differ", "seven.c", "--against", "size.in")


def try_fault_of_fit(author):
    """What the verifier refuses of fit's is told as a fault of fit's, and never as the program's; what passes a limit
    is compiled for size. No other program is called."""
    farm = author.at("farm")
    os.makedirs(f"{farm}/tools")
    shutil.copy(CC, farm)
    # Nothing that builds is there, as in a release: so what is called is the fit beside it.
    tools = [f"tools/{it}" for it in os.listdir(f"{TOP}/tools") if it != "build"]
    for name in (*tools, "runtime"):
        os.symlink(f"{TOP}/{name}", f"{farm}/{name}")
    os.chmod(put(f"{farm}/fit", OUT_OF_FUEL.replace("TOP", TOP)), 0o755)
    author.called(1, "a fault of ./fit's, and not of the program: what it made of this line isn't accepted: ",
                  "seven.c", "-o", "farm.img", tool=f"{farm}/cc")
    author.called(1, "bare.c:3: cc: a fault of ./fit's", "bare.c", "-o", "farm.img", tool=f"{farm}/cc")
    put(f"{farm}/fit", TOO_MUCH.replace("TOP", TOP))
    most = "a program has at most 4096 blocks, 65536 words and 256 functions"
    for told in f"compiled again for size, by -Os, since {most}", f"cc: refused: {most}: fewer or smaller functions":
        author.called(2, told, "seven.c", "-o", "farm.img", tool=f"{farm}/cc")
    author.has_none("farm.img")


def regions_of(author, words, how):
    """The regions of the image that is made by these words, data.img."""
    author.called(0, "accepted", *words.split(), "-o", "data.img", "--keep", "kept", **how)
    return re.findall(r"^\.region (\w+)$", text_of(author.at("kept/fitted.s")), re.M)


def try_data(author):
    """A program that keeps nothing in memory has no data in its image, by each compiler that is there. What reads or
    writes at an address ends by a test then. So does what writes where there are constants alone."""
    tally, image = author.tally, author.at("data.img")
    for compiler in [COMPILER, *["clang"] * has("clang")]:
        how = {"env": {**os.environ, "CC_SPARC": compiler}}
        tally.same(f"regions of flip.c by {compiler}", regions_of(author, "flip.c", how), [])
        author.puts(image, b"aB", b"Ab")
        for words, regions, put_out in STRAYS:
            name = f"{words} by {compiler}"
            tally.same(f"regions of {name}", regions_of(author, words, how), regions)
            author.puts(image, put_out, b"\0\x08\0\x50")
            for given in PLACES:
                told = run([INSPECT, "run", image], given).out
                tally.check(f"{name} on {given}", re.search(rb"^end: exit with the word 0002\w{4}$", told, re.M),
                            f"wanted an end by the test of a pointer, came {told[:200]}")
        for name in "peek.c", "poke.c":
            author.called(1, f"{name}:5: a pointer leaves the program's data", name, "-DAT=at", "--run",
                          given=PLACES[2], **how)


def try_programs(author):
    """Programs of some 100 lines beside the same for this machine, by each compiler that is there."""
    folder = f"{HERE}/programs"
    for name in sorted({it.partition(".")[0] for it in os.listdir(folder)}):
        sources = sorted(f"{folder}/{name}/{it}" for it in os.listdir(f"{folder}/{name}") if it.endswith(".c")) \
            if os.path.isdir(f"{folder}/{name}") else [f"{folder}/{name}{end}" for end in (".c", ".cc")
                                                         if os.path.exists(f"{folder}/{name}{end}")]
        inputs = sorted(f"{folder}/{it}" for it in os.listdir(folder) if re.match(rf"{name}\..*in$", it))
        is_plus = sources[0].endswith(".cc")
        if is_plus and not has(COMPILER_PLUS):
            author.tally.skip(name, COMPILER_PLUS)
            continue
        told = f"{len(inputs)} input{'' if len(inputs) == 1 else 's'}, 0 differ"
        words = [*sources, *(["-std=gnu++20"] if is_plus else []), "--against", *inputs]
        author.called(0, told, *words, tool=PLUS if is_plus else CC)
        if not is_plus:
            author.called(0, told, *words, "-O0")
        if has("clang"):
            author.called(0, told, *words, tool=PLUS if is_plus else CC, env={**os.environ, "CC_SPARC": "clang"})


def try_jumps(author):
    """Threaded jumps spare turns. Where a program has too many blocks by them it is compiled without, and nothing is
    told of that."""
    line = b'10.0.0.1 - - [12/Mar/2024:10:00:00 +0000] "GET /some/path/1234567 HTTP/1.1" 503 1234'
    put(author.at("rule.c"), text_of(f"{TOP}/tests/lib/rule.c"))
    told = run([INSPECT, "run", author.makes("accepted", "rule.c")], line).out
    found = re.search(rb"^turns: (\d+)", told, re.M)
    author.tally.check("turns of rule.c", found and int(found[1]) < 17.5 * len(line),
                       f"wanted less than 17.5 a byte, came {told[:200]}")
    ran = run([CC, f"{HERE}/programs/calculator.c", "-o", author.at("calculator.img")])
    author.tally.check("calculator.c at its own level", ran.status == 0 and "again" not in ran.said,
                       f"wanted that nothing is told of another level, came {ran.said}")


def try_codes(author):
    """Codes that are read where a test lies behind what sets them, or a call that never returns."""
    ran = run([CC, "-w", f"{HERE}/programs/turnstile.c", "-o", author.at("turnstile.img")])
    author.tally.check("turnstile.c at its own level", ran.status == 0 and "again" not in ran.said,
                       f"wanted that nothing is told of another level, came {ran.said}")
    put(author.at("forgood.s"), with_codes_apart(FOR_GOOD))
    author.called(0, "accepted", "forgood.s", "-o", "forgood.img")
    for given, status in (b"A", 1), (b"B", 1), (b"F", 1), (b"G", 0):
        came = run([SANDBOX, "run", author.at("forgood.img")], given)
        author.tally.same(f"forgood.s on {given}", came.status, status)


def seconds_of_processor():
    """What all commands that were called so far took."""
    taken = resource.getrusage(resource.RUSAGE_CHILDREN)
    return taken.ru_utime + taken.ru_stime


def try_time(author):
    """A program of some 500 lines takes no more than so many seconds of processor."""
    put(author.at("three.c"), THREE.replace("FOLDER", f"{HERE}/programs"))
    author.called(0, "accepted", "seven.c", "-o", "three.img")  # (so that the library is there)
    before = seconds_of_processor()
    author.called(0, "accepted", "three.c", "-o", "three.img")
    taken = seconds_of_processor() - before
    author.tally.check("time of three.c", taken < MOST_SECONDS, f"wanted {MOST_SECONDS} seconds, came {taken:.1f}")


def try_builds(author):
    """The Makefile and the toolchain for CMake of examples/build."""
    place, wanted = author.at("build"), b"ann                70\nbob                50\neve                10\n"
    shutil.copytree(f"{EXAMPLES}/build", place)
    text = text_of(f"{place}/geyserpan.cmake").replace('"${CMAKE_CURRENT_LIST_DIR}/../.."', f'"{TOP}"')
    put(f"{place}/geyserpan.cmake", text)
    if has("make"):
        ran = run(["make", f"TOP={TOP}", "scores.img", "check"], cwd=place)
        author.tally.check("make", ran.status == 0 and "1 input, 0 differ" in ran.said, ran.said)
        author.puts(f"{place}/scores.img", wanted, b"ann 3\nbob 5\nann 4\neve 1\n")
        author.tally.check("make: again", "up to date" in run(["make", f"TOP={TOP}", "scores.img"], cwd=place).said,
                           "wanted nothing to do")
    if has("cmake"):
        ran = run(["cmake", "-S", place, "-B", f"{place}/made", "--toolchain", f"{place}/geyserpan.cmake"])
        author.tally.check("cmake", ran.status == 0, ran.said)
        ran = run(["cmake", "--build", f"{place}/made"])
        author.tally.check("cmake --build", ran.status == 0, ran.said)
        author.puts(f"{place}/made/scores.img", wanted, b"ann 3\nbob 5\nann 4\neve 1\n")


PARTS = {"page": try_page, "sources": try_sources, "refusals": try_refusals, "ends": try_ends, "options": try_options,
         "data": try_data, "fault": try_fault_of_fit, "jumps": try_jumps, "codes": try_codes, "time": try_time,
         "builds": try_builds, "programs": try_programs}


def main(words):
    reader = Words(__doc__)
    reader.add_names("parts", ["words", *PARTS])
    asked = reader.parse_args(words)
    tally = Tally("cc")
    with tempfile.TemporaryDirectory() as work:
        author = Author(tally, work)
        for name, text in SOURCES.items():
            os.makedirs(os.path.dirname(author.at(name)), exist_ok=True)
            put(author.at(name), text)
        if not asked.parts or "words" in asked.parts:
            try_words(author)
        if not has(COMPILER):
            tally.skip("programs and refusals", COMPILER)
            return tally.end()
        built("fit", "sandbox", "inspect")
        for name in [it for it in asked.parts or PARTS if it in PARTS]:
            PARTS[name](author)
    return tally.end()


if __name__ == "__main__":
    sys.exit(main(sys.argv[1:]))
