#!/usr/bin/env python3
"""usage: tests/libc/run.py [--cases N] [--seed N] [PART..]

Compares the C library and the floating point runtime of runtime/ with the build machine's: every function is called
on random and edge arguments beside glibc's in one process, N cases each (100,000 unless said otherwise; 20 N for soft
float, and for the digits of doubles), and again with the sanitizers; the same cases by a library for SPARC, under
qemu's user mode; a program of streams is compiled with both libraries. Headers, sizes and costs in instructions are
checked, too. One line a part; status 1 where one differs. What isn't installed is told and skipped.
"""
import random
import re
import shutil
import subprocess
import sys
import tempfile
from pathlib import Path

sys.dont_write_bytecode = True

HERE = Path(__file__).resolve().parent
sys.path.insert(0, f"{HERE.parent}/lib")
from tally import Tally, Words

RUNTIME = HERE.parent.parent / "runtime"
HEADERS = RUNTIME / "include"
LIBRARY = sorted((RUNTIME / "libc").glob("*.c"))
# What compilers call of themselves: it isn't compiled by link-time optimization.
CALLED = sorted((RUNTIME / "soft").glob("*.c")) + [RUNTIME / "integer.c", RUNTIME / "plug.c"]
CASES = sorted(HERE.glob("case_*.c"))
FREESTANDING = ["-std=gnu11", "-ffreestanding", "-fno-strict-aliasing", "-fno-tree-loop-distribute-patterns",
                "-nostdinc", "-isystem", str(HEADERS), "-Wall", "-Wextra"]
NATIVE = ["gcc", "-O2", "-g"]
SPARC = ["sparc64-linux-gnu-gcc", "-O2", "-g", "-m32", "-mcpu=v8", "-msoft-float", "-mlong-double-64",
         "-fno-pic", "-fno-pie", "-fwrapv"]
QEMU = "qemu-sparc32plus"
# What ./cc passes on, as far as it changes what is counted.
AS_CC = ["-mno-app-regs", "-ffixed-o7", "-fno-delayed-branch", "-fno-jump-tables", "-fno-optimize-sibling-calls",
         "-fno-common", "-fno-ipa-icf", "-fno-ipa-ra", "-fno-stack-protector"]
# A block of 4,096 bytes is full soon.
SMALL_ARENA = "-DGEYSERPAN_ARENA=4096"
REFUSED = ("time fenv complex tgmath threads pthread stdatomic wchar wctype uchar dirent sys/socket sys/stat sys/time "
           "sys/wait").split()

MOST_WORDS = 1500
MOST_INSTRUCTIONS = 600


class Differs(Exception):
    """A part that isn't as it should be: what to tell."""


class Lacks(Exception):
    """A program that isn't installed."""


def need(*programs):
    for program in programs:
        if not shutil.which(program):
            raise Lacks(program)


def call(words, status=0, **more):
    """Runs a program, which has to end with that status; what it prints."""
    done = subprocess.run([str(word) for word in words], capture_output=True, check=False, **more)
    if done.returncode != status or (status == 0 and done.stderr):
        told = (done.stderr or done.stdout).decode(errors="replace").strip().splitlines()
        raise Differs(f"{Path(str(words[0])).name} .. {words[-1]}: status {done.returncode}\n" + "\n".join(told[:20]))
    return done.stdout


def compiled(compiler, sources, folder, *flags):
    """The objects of sources, each in the folder under its name."""
    folder.mkdir(exist_ok=True)
    objects = []
    for source in sources:
        objects.append(folder / f"{source.stem}.o")
        call([*compiler, *FREESTANDING, *flags, "-c", "-o", objects[-1], source])
    return objects


def renamed(prefix, objects, folder, *linker):
    """One object of all, its symbols with gp_ before them; and the file of the new names."""
    joined, names, made = folder / "joined", folder / "names", folder / "renamed"
    call([f"{prefix}ld", *linker, "-r", "-o", joined, *objects])
    symbols = [line.split()[2] for line in call([f"{prefix}nm", "-g", "--defined-only", joined]).decode().splitlines()]
    ours = [name for name in symbols if not name.startswith(("__asan", "__odr"))]
    names.write_text("".join(f"{name} gp_{name}\n" for name in ours))
    call([f"{prefix}objcopy", f"--redefine-syms={names}", joined, made])
    return made, names


def native_library(folder, *flags):
    objects = compiled(NATIVE, LIBRARY + CALLED + [HERE / "wrapped.c"], folder, "-I", HERE, SMALL_ARENA, *flags)
    return renamed("", objects, folder)


def beside(folder, cases, seed, library, *flags):
    """The program that runs the cases with glibc in it."""
    made = folder / "beside"
    call([*NATIVE, "-std=gnu11", "-Wall", "-Wextra", "-Wno-unused", "-D_GNU_SOURCE", "-fno-builtin",
          "-ffp-contract=off", f"-DCASES={cases}", f"-DSEED={seed}", *flags, "-o", made, HERE / "beside.c", *CASES,
          f"-Wl,{library}", "-lm"])
    return made


def judged(lines):
    """How many functions' tests and cases there were, all without a difference."""
    counts = [line.rsplit(" ", 2) for line in lines.splitlines()]
    wrong = [line for line in lines.splitlines() if not line.endswith(" 0")]
    if wrong:
        raise Differs("\n".join(wrong))
    if len(counts) < 40:
        raise Differs(f"only {len(counts)} tests were run")
    return f"{len(counts)} tests, {sum(int(count[1]) for count in counts):,} cases"


def run_native(work, cases, seed):
    folder = work / "native"
    library, _ = native_library(folder)
    done = subprocess.run([beside(folder, cases, seed, library)], capture_output=True, check=False)
    if done.returncode not in (0, 1):
        raise Differs(f"status {done.returncode}")
    return judged(done.stdout.decode(errors="replace")) + " beside glibc"


def run_sanitized(work, cases, seed):
    folder = work / "sanitized"
    flags = ["-fsanitize=address,undefined", "-fno-sanitize-recover=undefined", "-fno-omit-frame-pointer"]
    cases = max(cases // 20, 100)
    library, _ = native_library(folder, "-O1", *flags)
    done = subprocess.run([beside(folder, cases, seed, library, *flags)], capture_output=True, check=False)
    if done.returncode not in (0, 1) or done.stderr:
        raise Differs(f"status {done.returncode}\n{done.stderr.decode(errors='replace')[:2000]}")
    return judged(done.stdout.decode(errors="replace")) + ", addresses and undefined behaviour watched"


def run_cross(work, cases, seed):
    need(SPARC[0], QEMU)
    cases = max(cases // 10, 100)
    folder = work / "cross"
    objects = compiled(SPARC, LIBRARY + CALLED + [HERE / "wrapped.c"], folder, "-I", HERE, SMALL_ARENA)
    library, _ = renamed("sparc64-linux-gnu-", objects, folder, "-m", "elf32_sparc")
    called = compiled(SPARC, CALLED, folder / "called", "-I", HERE)
    ours = folder / "ours"
    call([*SPARC, *FREESTANDING, "-Wno-unused", "-I", HERE, "-DOURS", f"-DCASES={cases}", f"-DSEED={seed}",
          "-nostdlib", "-static", "-o", ours, HERE / "start.c", HERE / "beside.c", *CASES, f"-Wl,{library}", *called])
    native, _ = native_library(work / "native")
    theirs = beside(work / "native", cases, seed, native, "-DTHEIRS")
    told, expected = call([QEMU, ours]).decode().splitlines(), call([theirs]).decode().splitlines()
    if len(told) < 40 or len(told) != len(expected):
        raise Differs(f"{len(told)} and {len(expected)} tests")
    wrong = [f"{one} | {other}" for one, other in zip(told, expected) if one != other]
    if wrong:
        raise Differs("\n".join(wrong))
    count = sum(int(line.rsplit(" ", 2)[1]) for line in told)
    return f"{len(told)} tests, {count:,} cases: qemu's results are the same as glibc's"


def stream_inputs(count, seed):
    """Inputs for streams.c: how and by what, and then bytes, lines, numbers, words."""
    chance = random.Random(seed)
    for i in range(count):
        how = i % 9
        size = chance.choice((0, 1, 5, 30, 200, 3000))
        if how in (5, 7):
            parts = [b"12", b"-7", b"+9", b" ", b"\n", b"x", b"1.5", b"-2e3", b"0.1", b".", b"123456789", b"  ",
                     b"3.25e-5", b"\t"]
        elif how == 6:
            parts = [b"abc", b"12", b"zz", b" ", b"\n", b"Q", b"9", b"longword", b"-4"]
        else:
            few, all_bytes = [b"a", b"bc", b"\n", b",", b"x ", b"\0"], [bytes([byte]) for byte in range(256)]
            parts = all_bytes if chance.random() < 0.3 else few
        data = b"".join(chance.choice(parts) for _ in range(size))
        if how == 7:  # (what libraries read differently: an exponent without digits, two points)
            data = re.sub(rb"[eE](?![-+]?\d)|\.(?=[-+.])", b" ", data)
        if how in (5, 6):  # (an int holds nine digits)
            data = re.sub(rb"(\d{9})(?=\d)", rb"\1 ", data)
        yield bytes([how, chance.randrange(256)]) + data


def first_difference(one, other):
    """Where two outputs begin to differ, and a few bytes of each there."""
    place = next((i for i, (a, b) in enumerate(zip(one, other)) if a != b), min(len(one), len(other)))
    begin = max(place - 20, 0)
    return f"byte {place}: {one[begin:place + 30]!r} and {other[begin:place + 30]!r}"


def run_streams(work, cases, seed):
    folder = work / "native"
    library, names = native_library(folder)
    theirs, program, ours = folder / "streams", folder / "streams.o", folder / "our_streams"
    call([*NATIVE, "-w", "-fno-builtin", "-o", theirs, HERE / "streams.c"])
    call([*NATIVE, *FREESTANDING, "-w", "-c", "-o", program, HERE / "streams.c"])
    call(["objcopy", f"--redefine-syms={names}", program])
    call([*NATIVE, "-I", HERE, "-o", ours, HERE / "services.c", program, f"-Wl,{library}"])
    programs = [[ours]]
    if shutil.which(SPARC[0]) and shutil.which(QEMU):
        cross = folder / "cross_streams"
        objects = compiled(SPARC, LIBRARY + CALLED, folder / "streams_library", "-I", HERE)
        call([*SPARC, *FREESTANDING, "-w", "-I", HERE, "-nostdlib", "-static", "-o", cross, HERE / "start.c",
              HERE / "services_cross.c", HERE / "streams.c", *objects])
        programs.append([QEMU, cross])
    runs = 0
    for data in stream_inputs(max(cases // 100, 45), seed):
        expected = subprocess.run([theirs], input=data, capture_output=True, check=False)
        for words in programs:
            done = subprocess.run(words, input=data, capture_output=True, check=False)
            runs += 1
            if done.stdout != expected.stdout or done.returncode != expected.returncode:
                raise Differs(f"{words[-1].name}, status {done.returncode}, input {data[:60]!r}..: "
                              + first_difference(done.stdout, expected.stdout))
    return f"{runs} runs of a program by both libraries"


def refused_line(words, name):
    text = f"#include <{name}.h>\n"
    done = subprocess.run([*words, "-x", "c", "-"], input=text.encode(), capture_output=True, check=False)
    errors = [line for line in done.stderr.decode().splitlines() if ": error: " in line]
    if done.returncode == 0 or len(errors) != 1 or f"<{name}.h> is not here: " not in errors[0]:
        raise Differs(f"{name}.h isn't refused by one line: {done.stderr.decode()[:300]}")


def run_headers(work, cases, seed):
    """Each header by itself and twice, by each compiler that is there; plug.h before and behind; the refused ones."""
    compilers = [["gcc", "-std=c89", "-O2"], ["gcc", "-std=c99", "-pedantic", "-O2"], ["gcc", "-std=c11", "-O2"],
                 ["g++", "-std=c++17", "-O2"], ["clang", "-std=c11"],
                 [SPARC[0], "-m32", "-mcpu=v8", "-msoft-float", "-std=gnu11", "-O2"],
                 ["clang", "--target=sparc-linux-gnu", "-msoft-float", "-std=gnu11", "-O2"]]
    here = [compiler for compiler in compilers if shutil.which(compiler[0])]
    names = sorted(str(path.relative_to(HEADERS)) for path in HEADERS.rglob("*.h"))
    names = [name for name in names if name.removesuffix(".h") not in [*REFUSED, "bits/whole"]]
    common = ["-ffreestanding", "-nostdinc", "-isystem", HEADERS, "-Wall", "-Wextra", "-Werror", "-Wsystem-headers",
              "-Wno-unused-function", "-fsyntax-only"]
    count = 0
    for compiler in here:
        language = ["-x", "c++" if compiler[0] == "g++" else "c", "-"]
        texts = [f"#include <{name}>\n" * 2 + "int main(void) { return 0; }\n" for name in names]
        texts.append("".join(f"#include <{name}>\n" for name in names))
        for text in texts:
            call([*compiler, *common, *language], input=text.encode())
            count += 1
    plug = 'int main(void) { char a[4]; memcpy(a, "abc", 4); put(a[0]); put((int)strlen(a)); return get(); }\n'
    own, string = '#include "plug.h"\n', "#include <string.h>\n"
    for text in (own + string, string + own, own):
        if shutil.which(SPARC[0]):
            call([SPARC[0], "-m32", "-mcpu=v8", "-I", RUNTIME, *common, "-x", "c", "-"], input=(text + plug).encode())
            count += 1
    for name in REFUSED:
        refused_line(["gcc", "-nostdinc", "-isystem", HEADERS, "-fsyntax-only"], name)
    return f"{count} compiles by {len(here)} compilers and languages; {len(REFUSED)} headers are refused by one line"


def linked(work, source, name, entry, *flags):
    """Whole-program assembly of a source with the library, by link-time optimization: its text, and the program."""
    folder = work / "linked"
    folder.mkdir(exist_ok=True)
    as_cc = [*SPARC, *AS_CC, *FREESTANDING, "-w", "-I", folder, *flags]
    (folder / "plug.h").write_text((HERE / "cost.h").read_text())
    kinds = folder / "-".join(["objects", *[flag.strip("-") for flag in flags]])
    if not kinds.exists():
        compiled(as_cc, LIBRARY, kinds, "-flto")
        compiled(as_cc, CALLED, kinds)
    path = folder / f"{name}.c"
    path.write_text(source)
    call([*as_cc, "-flto", "-c", "-o", folder / f"{name}.o", path])
    made = folder / name
    call([*as_cc, "-flto", "-flto-partition=one", "-nostdlib", "-static", f"-Wl,-e,{entry}", "-save-temps", "-o", made,
          folder / f"{name}.o", *sorted(kinds.glob("*.o"))], cwd=folder)
    (assembly,) = folder.glob(f"{name}.ltrans0.ltrans.s")
    return assembly.read_text(), made


HELLO = '#include <stdio.h>\nint main(void) { %s return 0; }\nvolatile unsigned char counted_byte;\n'


def functions(assembly):
    return set(re.findall(r"^\s*\.type\s+(\w+)[.\w]*, #function", assembly, re.M))


def words_of(assembly):
    return len(re.findall(r"^\s+[a-z]", assembly, re.M))


WHOLE = [
    'printf("%d\\n", 5);',
    'printf("value: %-5d, %s, %c%%, %#llx of %u\\n", 1, "a", 98, 5LL, 7u);',
    'printf("Hello\\n");',
    'char t[9]; snprintf(t, 9, "%*.*d", 3, 2, 1); fprintf(stdout, "%s", t);',
    'int n; scanf("%d %*[^f]", &n); sscanf("1", "%i", &n);',
]
DOUBLES = [
    'printf("%5.2f\\n", 1.5);',
    'extern const char *f; printf(f, 1.5);',
    'double x; scanf("%lf", &x);',
    'printf("%d %Lg", 1, 2.0L);',
]
CODE_OF_DOUBLES = {"__print_double", "__scan_double", "__print_any", "__scan_any", "strtod", "decimal_of"}


def run_whole(work, cases, seed):
    """A program that prints and reads no doubles has no code for them; one that does has."""
    need(SPARC[0])
    programs = [("", statement) for statement in WHOLE + DOUBLES] + [("#define GEYSERPAN_NO_DOUBLES\n", DOUBLES[1])]
    for flag in ("-O1", "-O2", "-Os"):
        for i, (begin, statement) in enumerate(programs):
            source = begin + HELLO % statement + 'const char *f = "%f";\n'
            assembly, _ = linked(work, source, f"whole{i}", "main", flag)
            has_doubles = bool(functions(assembly) & CODE_OF_DOUBLES)
            if has_doubles != (statement in DOUBLES and not begin):
                raise Differs(f"{flag}: {begin}{statement} {'has' if has_doubles else 'lacks'} the code of doubles")
    return (f"{3 * len(WHOLE) + 3} programs without doubles have no code for them, "
            f"{3 * len(DOUBLES)} with doubles have")


COUNTED = """#include <math.h>
#include <stdio.h>
#include <stdlib.h>
#include <string.h>
#include "plug.h"
volatile unsigned char counted_byte;
volatile double x = 1234.5678, y = 3.25, z;
volatile float f = 1.5f, g = 2.75f, h;
volatile int i = 12345, k;
volatile long long l = 123456789012345LL, m;
char to[128];
const char *volatile text = "%s";
int main(void) { for (volatile int n = 0; n < %d; n++) { %s; } return 0; }
void _start(void) { quit(main()); }
"""
STATEMENTS = {
    'printf("%d\\n")': 'printf("%d\\n", i)', "strlen, 100": "k = (int)strlen(text)",
    "memcpy, 100": "memcpy(to, text, 100)", "memset, 100": "memset(to, 1, 100)",
    "add": "z = x + y", "sub": "z = x - y", "mul": "z = x * y", "div": "z = x / y", "sqrt": "z = sqrt(x)",
    "<": "k = x < y", "int to double": "z = i", "double to int": "k = (int)x",
    "float add": "h = f + g", "float mul": "h = f * g", "float div": "h = f / g",
    'printf("%.3f\\n")': 'printf("%.3f\\n", x)', 'printf("%g\\n")': 'printf("%g\\n", x)',
    'printf("%lld\\n")': 'printf("%lld\\n", l)', 'strtod("3.14159")': 'z = strtod("3.14159", 0)',
}


def instructions(work, statement):
    """How many instructions a round of a loop with the statement takes, counted by qemu one by one."""
    counts = []
    for rounds in (10, 20):
        source = COUNTED.replace("%s", "0123456789" * 10, 1).replace("%d", str(rounds), 1)
        source = source.replace("%s;", statement + ";", 1)
        _, program = linked(work, source, "counted", "_start", "-O2")
        log = work / "linked" / "log"
        call([QEMU, "-singlestep", "-d", "nochain,exec", "-D", log, program])
        with open(log, encoding="ascii", errors="replace") as lines:
            counts.append(sum(line.startswith("Trace") for line in lines))
    return (counts[1] - counts[0]) // 10


def run_cost(work, cases, seed):
    need(SPARC[0], QEMU)
    assembly, _ = linked(work, HELLO % 'printf("%d\\n", 12345);', "hello", "main", "-O2")
    words = words_of(assembly)
    empty = instructions(work, "k = i")
    counts = {name: instructions(work, statement) - empty for name, statement in STATEMENTS.items()}
    if words >= MOST_WORDS or not 0 < counts['printf("%d\\n")'] < MOST_INSTRUCTIONS:
        raise Differs(f"{words} words, {counts} instructions")
    told = ", ".join(f"{name} {count}" for name, count in counts.items())
    return f"{words} words for printf of whole numbers; instructions: {told}"


PARTS = {"headers": run_headers, "native": run_native, "sanitized": run_sanitized, "cross": run_cross,
         "streams": run_streams, "whole": run_whole, "cost": run_cost}


def main(words):
    reader = Words(__doc__)
    reader.add_argument("--cases", type=int, default=100_000)
    reader.add_argument("--seed", type=int, default=1)
    reader.add_names("parts", PARTS)
    asked = reader.parse_args(words)
    if asked.cases < 1:
        reader.error("at least one case")
    tally = Tally("libc")
    for part in asked.parts or PARTS:
        with tempfile.TemporaryDirectory() as work:
            try:
                print(f"{part}: {PARTS[part](Path(work), asked.cases, asked.seed)}", flush=True)
                tally.passes(1)
            except Lacks as lack:
                tally.skip(part, lack)
            except Differs as difference:
                tally.check(part, False, str(difference))
    return tally.end()


if __name__ == "__main__":
    sys.exit(main(sys.argv[1:]))
