#!/usr/bin/env python3
"""usage: tests/fit/run.py [--inputs N] [--programs N] [--csmith N] [--seed N] [--jobs N] [--keep FOLDER] [PART ..]

Tries that what `./fit` and `./cc` make means what the C means. Parts, all where none is named:

  examples  each program of examples/c, by the compiler's assembly that is stored beside it and, where they are here,
            by ./cc with gcc and with clang: accepted, and the same output and status as the native program on the
            stored input and N others (400), random and changed, of ./cc's images a tenth of them
  features  each program of tests/fit/c, one feature of C each: accepted, stopped by a test, or refused with a line and
            a reason, as its first line says; outputs as those of the native program, or of qemu where the order of
            bytes matters
  faults    what isn't the compiler's: bytes, files without an end, a great many labels, rounds of calls, numbers too
            great: a file, a line, a reason and status 2, and never a source that `sandbox asm` refuses
  size      each program of examples/c, all of them four times as one program of more than 2,000 lines of C, and all of
            them in one loop: accepted, in so much processor time and memory
  random    N programs of generator.py (240), each compiled in one of twelve ways: by ./cc with gcc and clang, and by
            gcc with few flags of its own, at several levels; and their outputs on 14 inputs under qemu; a refusal
            is one of those that compared.py lists
  csmith    N programs by csmith (620, some of which don't end under qemu), whose globals are changed by 20 inputs
            each, and their outputs under qemu

Images of random programs are run by a model of the machine (model/model.c), from two starts that differ in all that a
start leaves open, and on three inputs by the board, too.

What isn't here (gcc, sparc64-linux-gnu-gcc, clang with its SPARC target, qemu-sparc, csmith, libcsmith-dev) is told
and skipped. With --keep what differs is left in a folder. Tells how many runs were compared."""
import concurrent.futures
import os
import random
import re
import subprocess
import sys
import tempfile

sys.dont_write_bytecode = True
HERE = os.path.dirname(os.path.abspath(__file__))
sys.path.insert(0, f"{os.path.dirname(HERE)}/lib")
from compared import (SPARC, STORED, Comparison, compilers, inputs_like, is_refused, native, programs,
                      runs_under_qemu, under_qemu)
from randoms import try_randoms
from run import CC, EXAMPLES, FIT, SANDBOX, built, bytes_of, has, put, run_within, text_of
from sources import ENTERED_TWICE, FAULTS, HEAD, LINELESS, calls_of_loops
from tally import Tally, Words

PLUG = f"{STORED}/plug.s"


def in_turn(options, do, items):
    """Does something with each item, so many at a time."""
    with concurrent.futures.ThreadPoolExecutor(options.jobs) as pool:
        return list(pool.map(do, items))


def try_example(to, name, options):
    """One program of examples/c: by what is stored of the compiler, and by the compilers that are here."""
    other = native(f"{EXAMPLES}/c/{name}.c", f"{to.work}/{name}.native") if has("gcc") else None
    stored, made = bytes_of(f"{EXAMPLES}/c/in/{name}"), f"{to.work}/{name}"
    if not to.fitted(name, [f"{STORED}/{name}.s", PLUG], f"{made}.s", f"{made}.img"):
        return
    if other:
        inputs = inputs_like(stored, options.inputs, random.Random(f"{options.seed} {name}"))
        to.compare(name, f"{made}.img", other, inputs)
    for compiler in compilers():
        image, called = f"{made}.{compiler}.img", f"cc {name} by {compiler}"
        ran = run_within([CC, f"{EXAMPLES}/c/{name}.c", "-o", image], seconds=240,
                         env={**os.environ, "CC_SPARC": compiler})
        if to.tally.check(called, ran.status == 0, f"wanted an image, came {ran}") and other:
            inputs = inputs_like(stored, options.inputs // 10, random.Random(f"{options.seed} {name} {compiler}"))
            to.compare(called, image, other, inputs)


def try_examples(to, options):
    """The programs of examples/c."""
    if not has("gcc"):
        to.tally.skip("outputs of native programs", "gcc")
    for compiler in sorted({SPARC, "clang"} - set(compilers())):
        to.tally.skip("./cc", compiler)
    in_turn(options, lambda name: try_example(to, name, options), programs())


def other_of(to, name, source, said):
    """What a feature's image is compared with; None where it isn't here."""
    if said.endswith("big-endian"):
        needs, make = "qemu-sparc", under_qemu
    else:
        needs, make = "gcc", native
    if not has(needs):
        to.tally.skip(f"outputs of {name}", needs)
        return None
    other = make(source, f"{to.work}/{name}.other")
    to.tally.check(name, other, "wanted a program to compare with, came none")
    return other


def try_feature(to, file, options):
    """One program of tests/fit/c, by what its first line says of it."""
    name, source = file[:-2], f"{HERE}/c/{file}"
    said = re.match(r"/\* (accepted, big-endian|accepted|stopped: \w+|refused: [^*]+?) \*/", text_of(source))[1]
    image = f"{to.work}/{name}.img"
    made = run_within([CC, source, "-o", image], seconds=240)
    if said.startswith("refused: "):
        line = re.search(rf"^{re.escape(source)}:\d+: refused: (.*)$", made.said, re.M)
        holds = made.status == 2 and line and said[9:] in line[1] and not os.path.exists(image)
        to.tally.check(name, holds, f"wanted {said}, came {made}")
        return
    if not to.tally.check(name, made.status == 0, f"wanted an image, came {made}"):
        return
    inputs = inputs_like(b"abc(1+2)+3\n", options.inputs // 4, random.Random(f"{options.seed} {name}"))
    if said.startswith("stopped: "):
        stopped = run_within([SANDBOX, "run", image], bytes([200, *range(100)]))
        to.tally.check(name, stopped.status == 1, f"wanted that it is stopped, came {stopped}")
        inputs = (bytes([15, *range(it)]) for it in range(40))
    other = other_of(to, name, source, said)
    if other:
        compare = to.compare_many if said.endswith("big-endian") else to.compare
        compare(name, image, other, inputs)


def try_features(to, options):
    """The programs of tests/fit/c."""
    if not has(SPARC):
        to.tally.skip("features", SPARC)
        return
    files = sorted(it for it in os.listdir(f"{HERE}/c") if it.endswith(".c"))
    in_turn(options, lambda file: try_feature(to, file, options), files)


def try_fault(to, name, given, part):
    """What isn't a program gets a line and status 2; where it is one after all, its source is a source."""
    file, out = put(f"{to.work}/fault.s", given), f"{to.work}/fault.out"
    if os.path.exists(out):
        os.remove(out)
    if part is None:
        to.fitted(f"fault {name}", [file], out, f"{to.work}/fault.img")
        return
    told = run_within([FIT, file, "-o", out])
    said = told.err.decode(errors="replace")
    begins = re.match(r"refused: " if name in LINELESS else rf"{re.escape(file)}:[1-9]\d*: refused: ", said)
    is_refused = told.status == 2 and begins and not os.path.exists(out)
    holds = is_refused and part in said and said.count("\n") == 1
    to.tally.check(f"fault {name}", holds, f"wanted one line with '{part}', came status {told.status}: {said[:200]}")


def changed(lines, chance):
    """Lines of which a few are dropped, doubled, or have another byte."""
    for _ in range(chance.randrange(1, 4)):
        at, kind = chance.randrange(len(lines)), chance.randrange(3)
        if kind == 0:
            del lines[at]
        elif kind == 1:
            lines.insert(chance.randrange(len(lines)), lines[at])
        elif lines[at]:
            byte = chance.randrange(len(lines[at]))
            lines[at] = lines[at][:byte] + chance.randbytes(1) + lines[at][byte + 1:]
    return lines


def try_changed(to, options):
    """Stored assembly with lines changed is refused with status 2, or means a source that is accepted."""
    chance, names = random.Random(f"{options.seed} changed"), sorted(os.listdir(STORED))
    out = f"{to.work}/changed.out"
    for number in range(options.inputs // 2):
        lines = bytes_of(f"{STORED}/{chance.choice(names[:-1])}").split(b"\n")
        file = put(f"{to.work}/changed.s", b"\n".join(changed(lines, chance)))
        told = run_within([FIT, file, PLUG, "-o", out])
        if told.status == 0:
            to.accepted(f"changed {number}", out, f"{to.work}/changed.img", (file,))
        else:
            holds = told.status == 2 and b"refused: " in told.err
            to.tally.check(f"changed {number}", holds, f"wanted a source or a reason, came {told}", (file,))


def try_wrong_words(to):
    """What is said of words that ask for nothing."""
    one, turns = f"{STORED}/upper.s", "--turns wants a decimal number from 1 to 1000000000000, once"
    for words, why in [
        (["-o", "x"], "the path of a source is wanted"), ([one], "-o or --image, and the path of a file, are wanted"),
        ([one, "-o"], "-o wants the path of a file, once"),
        ([one, "-o", "x", "-o", "y"], "-o wants the path of a file, once"),
        ([one, "--image"], "--image wants the path of a file, once"),
        ([one, "--image", "x", "--image", "y"], "--image wants the path of a file, once"),
        ([one, "-o", "x", "--turns", "0"], turns), ([one, "-o", "x", "--turns", "5", "--turns", "5"], turns),
        ([one, "-o", "x", "--stack", "1000"], "--stack wants a power of 2 from 1024 to 131072, once"),
        ([one, "-o", "x", "--frob"], "--frob is no option"),
        (["annotate"], "annotate wants the path of one source"),
        (["annotate", one, one], "annotate wants the path of one source"),
        (["annotate", one, "--turns", "5"], "annotate takes no --turns"),
        (["annotate", one, "--stack", "1024"], "annotate takes no --stack"),
        (["annotate", one, "--region"], "annotate takes no --region"),
        (["annotate", one, "--image", "x"], "annotate takes no --image"),
    ]:
        told = run_within([FIT, *words], cwd=to.work)
        to.tally.same(f"fit {' '.join(words)}: what is said", (told.status, told.err), (3, f"fit: {why}\n".encode()))


def try_words(to):
    """Words, and files that aren't there."""
    try_wrong_words(to)
    stored, x, tally = f"{STORED}/upper.s", f"{to.work}/x", to.tally
    for words, status in [
        ([], 3), (["--help"], 0), (["--help", stored], 3), ([stored], 3), (["-o", "x"], 3), ([stored, "-o"], 3), ([stored, "--strict"], 3),
        ([stored, "-o", "x", "--turns", "0"], 3), ([stored, "-o", "x", "--turns", "ten"], 3),
        ([stored, "-o", "x", "--turns", "1000000000001"], 3), ([f"{to.work}/none.s", "-o", x], 4),
        ([stored, "-o", f"{to.work}/none/x"], 4), ([to.work, "-o", x], 4), (["/dev/zero", "-o", x], 2),
        ([stored, "-o", x, "--turns", "1000000000000"], 0), ([stored, "-o", x, "--turns", "1"], 2),
        ([f"{STORED}/csv.s", "-o", x, "--strict"], 1),
    ]:
        tally.same(f"fit {' '.join(words)}: status", run_within([FIT, *words], cwd=to.work).status, status)
    for path, why in ((f"{to.work}/none.s", "no such file"), (to.work, "is a directory")):
        tally.same(f"fit {path}: what is said", run_within([FIT, path, "-o", x]).err, f"fit: {path}: {why}\n".encode())
    run_within([FIT, stored, "-o", x])
    told = run_within([FIT, stored, "-o", "-"], cwd=to.work)
    holds = told.status == 0 and told.out == bytes_of(x) and not os.path.exists(f"{to.work}/-")
    tally.check("fit -o -", holds, f"wanted the source on standard output and no file, came status {told.status}")


def try_images(to):
    """Where the image goes: an accepted one alone, behind the source, and never over a source."""
    at, tally, written = (lambda name: f"{to.work}/{name}"), to.tally, "can't be written"
    stored, one, itself = f"{STORED}/upper.s", at("one.s"), f"{written}: it is a source itself; name another file"
    put(one, text_of(stored))
    to.fitted("--image", [one], at("made.s"), at("asm.img"))
    source, image = bytes_of(at("made.s")), bytes_of(at("asm.img"))
    for words, status, out, err, left in [
        ([one, "--image", "x"], 0, b"", "", image), ([one, "-o", "-", "--image", "x"], 0, source, "", image),
        ([one, "--image", "-"], 0, image, "", None), ([one, "--image", "."], 4, b"", f"fit: .: {written}\n", None),
        ([one, "--image", "none/x"], 4, b"", f"fit: none/x: {written}\n", None),
        ([one, "--image", "/dev/full"], 4, b"", f"fit: /dev/full: {written}\n", None),
        ([one, "--image", "one.s"], 4, b"", f"fit: one.s: {itself}\n", None),
        ([one, "-o", "x", "--image", "./x"], 4, b"", f"fit: ./x: {itself}\n", source),
        ([one, "-o", "none/x", "--image", "x"], 4, b"", f"fit: none/x: {written}\n", None),
    ]:
        told = run_within([FIT, *words], cwd=to.work)
        came = told.status, told.out, told.err, left_of(at("x"))
        tally.same(f"fit {' '.join(words)}", came, (status, out, err.encode(), left))
    tally.same("the source itself", text_of(one), text_of(stored))
    put(at("x"), "older")
    told = run_within([FIT, f"{STORED}/csv.s", "-o", at("y"), "--image", at("x"), "--strict"])
    tally.same("--strict: nothing is written", (told.status, left_of(at("x")), left_of(at("y"))), (1, b"older", None))


def left_of(path):
    """What a call left in a file, which is removed; None where there is none."""
    if not os.path.exists(path):
        return None
    found = bytes_of(path)
    os.remove(path)
    return found


def try_entries(to):
    """A loop that is entered at two places is paid for by its counter, since it is copied behind one of them."""
    source, out = put(f"{to.work}/entered.s", ENTERED_TWICE), f"{to.work}/entered.out"
    if to.fitted("entered twice", [source], out, f"{to.work}/entered.img"):
        budget = re.search(r"\.function main,[^,]*,[^,]*,[^,]*,(\d+)", text_of(out))
        holds = budget and int(budget[1]) < 200
        to.tally.check("entered twice: the budget", holds, f"wanted less than 200, came {budget and budget[1]}")


def try_budgets(to):
    """Each number of turns gives a budget that an image may have, or a line that tells why not."""
    made, most = f"{to.work}/turns.s", str(10**12)
    for calls in 3, 120:
        source = put(f"{to.work}/many.s", calls_of_loops(calls))
        words = [source, "--turns", most]
        to.fitted(f"{calls} calls of a loop", words, made, f"{to.work}/many.img", [source])
    stored = [f"{STORED}/{name}.s" for name in ("upper", "json", "csv", "sort", "crc32")]
    found = [f"{HERE}/found/{name}.s" for name in ("told", "returns", "fuel", "needed_test")]
    for path in stored + found:
        name = os.path.basename(path)[:-2]
        for turns in (1, 50, 100, 300, 10_000, 1_000_000, 10**9, 10**11, 10**12):
            told = run_within([FIT, path, PLUG, "-o", made, "--turns", str(turns)])
            holds = told.status == 0 or told.status == 2 and b"refused: " in told.err
            to.tally.check(f"{name} of {turns} turns", holds, f"wanted a source or a reason, came {told}")
            if told.status == 0:
                to.accepted(f"{name} of {turns} turns", made, f"{to.work}/turns.img")
                budget = int(re.search(r"\.function main,[^,]*,[^,]*,[^,]*,(\d+)", text_of(made))[1])
                to.tally.check(f"{name} of {turns} turns: the budget", budget <= turns, f"came {budget}")


# What stored assembly puts out on an input, both in hex, and its status, as found by another tool; and its turns.
GIVEN = re.compile(r"^! given ([0-9a-f]*) puts ([0-9a-f]*), status ([01])$", re.M)
TURNS = re.compile(r"^! (--turns \d+)$", re.M)


def try_found(to, file):
    """Assembly that was refused once, or whose source was, or meant something else."""
    source, made, image = f"{HERE}/found/{file}", f"{to.work}/found.s", f"{to.work}/found.img"
    with open(source, encoding="utf-8") as lines:
        text = lines.read()
    turns = TURNS.search(text)
    told = run_within([FIT, source, PLUG, "-o", made, *(turns[1].split() if turns else [])])
    is_made = to.tally.check(f"found {file}", told.status == 0, f"wanted a source, came {told}", [source])
    if not is_made or not to.accepted(f"found {file}", made, image, [source]):
        return
    for given, wanted, status in GIVEN.findall(text):
        mine = run_within([SANDBOX, "run", image], bytes.fromhex(given))
        holds = mine.out.hex() == wanted and mine.status == int(status)
        to.tally.check(f"found {file} on {given}", holds, f"wanted {wanted}, status {status}, came {mine}")


def try_faults(to, options):
    """What isn't the compiler's, and stored assembly."""
    for name, (given, part) in FAULTS.items():
        try_fault(to, name, given, part)
    for file in sorted(os.listdir(f"{HERE}/found")):
        try_found(to, file)
    try_words(to)
    try_images(to)
    try_budgets(to)
    try_entries(to)
    try_changed(to, options)


# Where Debian's libcsmith-dev has safe_math.h.
HEADERS = "/usr/include/csmith"

# The globals of a random program that an input may change.
GLOBAL = re.compile(r"^static (u?int(?:8|16|32|64)_t) (g_\d+) = [^;\[\]{}*]*;", re.M)
CSMITH = ["--no-float", "--no-argc", "--no-packed-struct", "--no-volatiles", "--max-funcs", "3", "--max-block-size",
          "3",
          "--max-block-depth", "3", "--max-array-dim", "2", "--max-array-len-per-dim", "6", "--max-expr-complexity",
          "5",
          "--max-struct-fields", "4"]
WORD = """static uint64_t next_word(uint64_t old)
{
    uint64_t n = 0;
    for (int i = 0; i < 8; i++) {
        int c = get();
        if (c < 0)
            return old;
        n = n << 8 | (unsigned)c;
    }
    return n;
}
"""


def with_inputs(text):
    """The program with globals that are read from the input before it begins."""
    changes = "".join(f"    {name} = ({kind})next_word({name});\n" for kind, name in GLOBAL.findall(text))
    return text.replace("int main (void)\n{", WORD + "int main (void)\n{\n" + changes, 1)


def try_program(to, number, options):
    """One random program on 20 inputs."""
    base, level = f"{to.work}/p{number}", ("-O1", "-O2", "-Os")[number % 3]
    name = f"csmith {number} {level}"
    # (it leaves a file where it runs)
    text = run_within(["csmith", "--seed", str(options.seed * 100_000 + number), *CSMITH], seconds=60, cwd=to.work)
    if text.status != 0:
        return "not made"
    source = put(f"{base}.c", with_inputs(text.out.decode()))
    headers = ["-I", f"{HERE}/csmith", "-I", HEADERS]
    other = under_qemu(source, f"{base}.qemu", headers)
    to.tally.check(name, other, "wanted a program to compare with, came none", (source,))
    if other is None or runs_under_qemu(other, [b""]) == [None]:
        return "endless"
    made = run_within([CC, source, *headers, level, "--turns", str(10**12), "-o", f"{base}.img"], seconds=240)
    if made.status != 0:
        to.tally.check(name, is_refused(made), f"wanted an image or a limit, came {made}", (source,))
        print(f"{name}: {made.said.splitlines()[-1:]}", flush=True)
        return "refused"
    chance = random.Random(f"{options.seed} {number}")
    inputs = [b"", *(chance.randbytes(chance.randrange(200)) for _ in range(19))]
    to.compare_many(name, f"{base}.img", other, inputs)
    for end in (".qemu", ".img", ".c"):
        os.remove(f"{base}{end}")
    return "compared"


def try_csmith(to, options):
    """Random programs by csmith."""
    for need in ("csmith", SPARC, "qemu-sparc"):
        if not has(need):
            to.tally.skip("programs by csmith", need)
            return
    if not os.path.exists(f"{HEADERS}/safe_math.h"):
        to.tally.skip("programs by csmith", "libcsmith-dev")
        return
    ends = in_turn(options, lambda number: try_program(to, number, options), range(options.csmith))
    for end in sorted(set(ends)):
        print(f"programs by csmith, {end}: {ends.count(end)}", flush=True)


# As many kB of address space and seconds of processor as `fit` may take: of one program of examples/c, and of one of
# 2,000 lines of C.
MOST_KB, SECONDS_EACH, SECONDS_LONG = 256_000, 0.3, 3.0


def measured(to, name, sources, seconds):
    """Fits a program, which has to be accepted, in so much processor time and no more than that memory."""
    out = f"{to.work}/size.s"
    words = ["sh", "-c", f'ulimit -v {MOST_KB}; exec "$@"', "sh", FIT, *sources, "-o", out, "--image", f"{out}.own",
             "--turns", str(10**12)]
    with subprocess.Popen(words, stdout=subprocess.DEVNULL, stderr=subprocess.DEVNULL) as made:
        _, status, used = os.wait4(made.pid, 0)
        made.returncode = os.waitstatus_to_exitcode(status)
    print(f"size of {name}: {used.ru_utime:.2f} s", flush=True)
    if to.tally.same(f"size of {name}: status in {MOST_KB} kB", made.returncode, 0):
        to.accepted(f"size of {name}", out, f"{out}.img")
    told = f"wanted less than {seconds} s, came {used.ru_utime:.2f}"
    to.tally.check(f"size of {name}: time", used.ru_utime < seconds, told)


# What stays as it is where programs are put together: words of C, and what plug.h has.
C_WORDS = set("""
    break case char const continue default define do else enum for goto if include inline int long return short signed
    sizeof static struct switch typedef union unsigned void while get put quit memcpy memmove memset memcmp memchr
    strlen strcmp strncmp strcpy strchr size_t NULL
""".split())


def in_one_loop(names):
    """The programs of examples/c as one program of C that runs them all in each round of a loop; names in them are
    told apart by the program's."""
    text = '#include "plug.h"\n'
    for name in names:
        own = sorted(set(re.findall(r"[A-Za-z_]\w*", text_of(f"{EXAMPLES}/c/{name}.c"))) - C_WORDS)
        text += "".join(f"#define {it} {it}_{name}\n" for it in own) + f'#include "{EXAMPLES}/c/{name}.c"\n'
        text += "".join(f"#undef {it}\n" for it in own)
    calls = "".join(f"        if (main_{name}()) put('!');\n" for name in names)
    return f'{text}int main(void) {{\n    while (get() >= 0) {{\n{calls}    }}\n    return 0;\n}}\n'


def four_times(to, names):
    """The sources of all programs four times as one, behind a main that calls each."""
    calls = "".join(f"\tcall main{it}, 0\n\t nop\n" for it in range(4 * len(names)))
    body = f"\tsave %sp,-96,%sp\n{calls}\tret\n\trestore %g0,%g0,%o0\n\t.size main, .-main\n"
    yield put(f"{to.work}/main.s", HEAD + body)
    for number, name in enumerate(names * 4):
        yield put(f"{to.work}/{number}.s", re.sub(r"\bmain\b", f"main{number}", text_of(f"{STORED}/{name}.s")))
    yield PLUG


def try_size(to, _options):
    """Time and memory of the programs of examples/c, alone, four times each as one, and in one loop."""
    for name in programs():
        measured(to, name, [f"{STORED}/{name}.s", PLUG], SECONDS_EACH)
    measured(to, "all four times", four_times(to, programs()), SECONDS_LONG)
    if not has(SPARC):
        to.tally.skip("one loop of all programs", SPARC)
        return
    source, kept = put(f"{to.work}/loop.c", in_one_loop(programs())), f"{to.work}/loop"
    made = run_within([CC, source, "-o", f"{to.work}/loop.img", "--keep", kept], seconds=240)
    if to.tally.check("one loop", made.status == 0, f"wanted an image, came {made}"):
        files = sorted(it for it in os.listdir(kept) if it.endswith(".s") and it != "fitted.s")
        measured(to, "all in one loop", [f"{kept}/{it}" for it in files], SECONDS_LONG)


PARTS = {"examples": try_examples, "features": try_features, "faults": try_faults, "size": try_size,
         "random": lambda to, options: try_randoms(to, options, in_turn), "csmith": try_csmith}


def main(words):
    reader = Words(__doc__)
    for option, usual in (("--inputs", 400), ("--programs", 240), ("--csmith", 620), ("--seed", 1),
                          ("--jobs", 2)):
        reader.add_argument(option, type=int, default=usual)
    reader.add_argument("--keep")
    reader.add_names("parts", list(PARTS))
    options = reader.parse_args(words)
    built("fit", "sandbox")
    tally = Tally("fit", options.keep)
    with tempfile.TemporaryDirectory() as work:
        to = Comparison(tally, work)
        for part in options.parts or PARTS:
            PARTS[part](to, options)
    print(f"{to.runs} runs compared")
    return tally.end()


if __name__ == "__main__":
    sys.exit(main(sys.argv[1:]))
