"""Exit words of tests in words, and what ./cc leaves beside an image."""
import glob
import json
import os
import re

from mi import GDB, on_run
from run import CC, EXAMPLES, INSPECT, TOP, bytes_of, has, program, put, run, text_of

HERE = os.path.dirname(os.path.abspath(__file__))
KINDS = f"{HERE}/programs/kinds.c"
# By what is read: a part of what is told, and of what `inspect run` tells without a map. TEXT is the line of C.
ENDS = {
    "i9": ("name[number * 10] = 1", "the index into name (32 bytes) leaves it", "an index leaves its object"),
    "p9": ("*lost = 1", "a pointer leaves the program's data", "a pointer leaves the data"),
    "d0": ("7 / number", "a divisor is 0", "a divisor is 0"),
    "l1": ("while (number", "the loops have used up their turns", "the loops have used up their turns"),
    "s9": ("static int deep", "calls go too deep", "calls go too deep"),
    "f7": ("put(ways[", "a call through a pointer that is no function's",
           "a call through a pointer that is no function's"),
}
# In what readelf tells: an item, a function that is called, and the items of places that are called from.
ITEM = re.compile(r" *<\w+><(\w+)>: Abbrev Number: \d+ \((\w+)\)")
CALLED = re.compile(r"DW_AT_(?:call|abstract)_origin *: <0x(\w+)>")
CALLS = ("DW_TAG_call_site", "DW_TAG_GNU_call_site")
SIGNALS = {"i9": "SIGSEGV", "p9": "SIGSEGV", "d0": "SIGFPE", "l1": "SIGXCPU", "s9": "SIGSEGV", "f7": "SIGSEGV"}


def line_of(text):
    """The number of the line of the program that has a text."""
    return next(number for number, line in enumerate(text_of(KINDS).splitlines(), 1) if text in line)


def ends(work):
    """Tells the end of each kind by each program."""
    tally, image, mapped = work.tally, work.at("kinds.img"), work.at("kinds.map")
    made = run([CC, KINDS, "--turns", "100000", "--debug", "-o", image])
    if not tally.check("kinds.c is accepted", made.status == 0, made.said):
        return
    for given, (text, why, plain) in ENDS.items():
        place = f"kinds.c:{line_of(text)}"
        told = run([CC, KINDS, "--turns", "100000", "--run"], given.encode()).said
        tally.check(f"cc --run on {given}", f"{place}: {why}" in told, f"wanted {place}: {why}, came {told[-300:]}")
        told = run([INSPECT, "run", "--limit", "1000000", image], given.encode()).said
        wanted = f"\n  as where a test fails, in line {line_of(text)}: {plain}"
        tally.check(f"inspect run on {given}", wanted in told, f"wanted {wanted}, came {told[:200]}")
        told = run([INSPECT, "run", "--limit", "1000000", "--map", mapped, image], given.encode()).err.decode()
        tally.check(f"inspect run --map on {given}", f"{place}: {why}" in told, f"wanted {place}: {why}, came {told}")
        by_gdb(work, image, given, f"{place}: {why}", SIGNALS[given])
        by_page(work, image, given, f"{place}: {why}")
        wanted = f"{place}: {why}", f"line {line_of(text)}: "
        by_program(work, "host", ["--max-turns", "1000000000000", image], given, wanted)
        by_program(work, "native", [image], given, wanted)
        by_report(work, image, given, wanted[0])
    deep(work)
    against = put(work.at("against.in"), "i9")
    told = run([CC, KINDS, "--turns", "100000", "--against", against]).said
    tally.check("cc --against", f"here {KINDS}:{line_of(ENDS['i9'][0])}: the index into name" in told, told[-300:])
    told = run([CC, KINDS, "--run"], b"a0").said
    tally.check("cc --run where abort is called", "abort was called" in told, told[-200:])
    told = run([CC, KINDS, "--run"], b"x0").said
    tally.check("cc --run of an exit word", "the exit word is 120 (00000078)" in told, told[-200:])
    told = run([INSPECT, "run", image], b"x0").said
    tally.check("inspect run of an exit word", "00000078\nturns" in told, told[:200])


def deep(work):
    """A function that calls itself too often, and leaves a constant in %o0 first: its end is no exit word of the
    program's own."""
    image, path = work.at("calc.img"), f"{HERE}/programs/calc.c"
    made = run([CC, "-Og", path, "--debug", "-o", image])
    work.tally.check("calc.c is made", made.status == 0, made.said)
    words = [INSPECT, "run", "--limit", "1000000", "--map", map_of(image), image]
    told, wanted = run(words, bytes_of(f"{HERE}/programs/calc.in")).err.decode(), "calc.c:27: calls go too deep"
    work.tally.check("inspect run --map on calc.c", wanted in told, told)
    if has(GDB):
        with on_run(image, f"{HERE}/programs/calc.in") as gdb:
            told = gdb.told("break variable") + gdb.told("continue") + gdb.told("continue") + gdb.told("continue")
            told = gdb.told("backtrace 20")
            callers = re.findall(r"^#\d+ .*?(\w+) \(", told, re.M)
            work.tally.same("callers in calc.c", callers, ["variable", "factor", "product", "sum", "main"])
            told = gdb.told("delete") + gdb.told("continue") + gdb.told("backtrace 2")
            work.tally.check("gdb on calc.c", wanted in told and "power (a=2, " in told, told)
            # (the first call goes through a pointer)
            told = gdb.told("backtrace -2")
            work.tally.check("the callers end", re.match(r"#1\d\d .*power.*\n#1\d\d 0x00000000 in", told), told)


def map_of(image):
    """The map that ./cc left beside an image."""
    return f"{os.path.splitext(image)[0]}.map"


def by_gdb(work, image, given, wanted, signal):
    """What gdb tells of an end, where it is there."""
    if not has(GDB):
        work.tally.skip(f"gdb on {given}", f"Debian's package {GDB}")
        return
    path = put(work.at("given"), given)
    with on_run(image, path) as gdb:
        told = gdb.told("continue")
        work.tally.check(f"gdb on {given}", wanted in told and signal in gdb.stop,
                         f"wanted {wanted} as {signal}, came {told} {gdb.stop}")
        path, line = wanted.split(":")[:2]
        told = gdb.told("info line *$pc")
        work.tally.check(f"gdb on {given} stops at the line", f"Line {line} of \"{os.path.basename(path)}\"" in told,
                         told)


def by_program(work, name, words, given, wanted):
    """What one of the programs tells of an end, where it stands: with the map, and without."""
    if not os.path.exists(program(name)):
        work.tally.skip(f"{name} on {given}", f"the program {name}")
        return
    for more, it in zip((["--map", map_of(words[-1])], []), wanted):
        ran = run([f"{TOP}/{name}", "run", *more, *words], given.encode())
        work.tally.check(f"{name} run {' '.join(more[:1])} on {given}", it in ran.err.decode() and ran.status == 1,
                         f"wanted {it}, came {ran.said}")


def by_report(work, image, given, wanted):
    """What a report of ./host's tells of an end, with the map: beside what it tells without."""
    if not os.path.exists(program("host")):
        work.tally.skip(f"host's report on {given}", "the program host")
        return
    words = [f"{TOP}/host", "run", "--report", "json", "--max-turns", "1000000000000"]
    mapped, plain = (run([*words, *more, image], given.encode()) for more in (["--map", map_of(image)], []))
    told, own = json.loads(mapped.err), json.loads(plain.err)
    work.tally.check(f"host run --report json --map on {given}", wanted in told.pop("why", "nothing"), mapped.said)
    for it in told, own:  # (what is left of a pipe, without a map, isn't always known)
        del it["input_left"]
    work.tally.same(f"host's report without a map on {given}", (told, mapped.status), (own, plain.status))


def by_page(work, image, given, wanted):
    """What a page's data tell of an end, in hexadecimal."""
    words = [INSPECT, "page", "--limit", "1000000", "--map", map_of(image), image]
    found = re.search(r"^z([0-9A-F]+)$", run(words, given.encode()).out.decode(), re.M)
    told = bytes.fromhex(found[1]).decode() if found else "nothing"
    work.tally.check(f"inspect page --map on {given}", wanted in told, f"wanted {wanted}, came {told}")


def lines_of_ends(work, name, path):
    """The words that say exit words are of lines that are there, as the exit words have it; by gcc all lines are
    known but those of code that is ./fit's own."""
    ends = re.findall(r"^end [0-9A-F]{8} ([0-9A-F]{8}) \d+ \d+ (.+):(\d+)$", text_of(path), re.M)
    counts = {it: len(text_of(it).splitlines()) for it in {it[1] for it in ends} - {"?"}}
    wrong = [it for it in ends if it[1] != "?" and not 0 < int(it[2]) <= counts[it[1]]]
    wrong += [it for it in ends if int(it[0][4:], 16) not in (int(it[2]), 0xFFFF)]
    wrong += [it for it in ends if it[1] == "?" and int(it[0][4:], 16) and "clang" not in name]
    work.tally.check(f"{name}: lines of ends", ends and not wrong, str(wrong[:3]))


def same_images(work):
    """The suite's own programs at other levels, and by clang: the image with a map is the one without. calc.c has loops
    that its functions begin with, and divisions that clang makes copies of."""
    for compiler, level in (("sparc64-linux-gnu-gcc", "-Og"), ("sparc64-linux-gnu-gcc", "-O3"), ("clang", "-O1")):
        if not has(compiler):
            work.tally.skip(f"images by {compiler}", f"Debian's package {compiler}")
            continue
        for path in sorted(glob.glob(f"{HERE}/programs/*.c")):
            env, outs = {**os.environ, "CC_SPARC": compiler}, (work.at("plain.img"), work.at("mapped.img"))
            made = [run([CC, level, path, *more, "-o", out], env=env) for out, more in zip(outs, ((), ("--map",)))]
            name = f"{os.path.basename(path)} by {compiler} {level}"
            if work.tally.check(f"{name} is made", all(it.status == 0 for it in made), made[-1].said):
                work.tally.same(f"{name} with --map", *map(bytes_of, reversed(outs)))
                lines_of_ends(work, name, work.at("mapped.map"))


def called_in_pieces(told):
    """How many places of calls, in what readelf tells of items, refer to a function's item that has ranges: gdb 13
    gives these too little room, and may end by a fault."""
    ranged, called, item = set(), [], None
    for line in told.splitlines():
        if found := ITEM.match(line):
            item = found
        elif item and "DW_AT_ranges" in line:
            ranged.add(item[1])
        elif item and item[2] in CALLS and (found := CALLED.search(line)):
            called.append(found[1])
    return sum(it in ranged for it in called)


def read_whole(work):
    """gdb reads whole what is told of a function in many pieces that is called from many places, and of a program with
    much of the library; a variable of the library's is told as it is."""
    for path, level, asked, wanted in (
            (f"{HERE}/programs/calls.c", "-O2", "print sizeof sums", "$1 = 64"),
            (f"{TOP}/tests/cc/programs/json.c", "-Og", "print short_number::powers[3]", "$1 = 1000")):
        name, elf = os.path.basename(path), work.at("whole.elf")
        made = run([CC, level, path, "--debug", "-o", work.at("whole.img")], seconds=600)
        if not work.tally.check(f"{name} {level} is made", made.status == 0, made.said):
            continue
        work.tally.check(f"{name} {level}: variables", "no variables" not in made.said, made.said)
        if has(GDB):
            ran = run([GDB, "-q", "-nx", "-batch", "-ex", "maint expand-symtabs", "-ex", asked, elf], seconds=600)
            work.tally.check(f"gdb reads whole what is told of {name}", ran.status == 0 and wanted in ran.said,
                             ran.said[-300:])


def images(work):
    """Looks whether what is asked for beside an image leaves its bytes as they are, and each word has an origin."""
    same_images(work)
    read_whole(work)
    sources = sorted(glob.glob(f"{EXAMPLES}/c/*.c")) + sorted(glob.glob(f"{HERE}/programs/*.c"))
    for path in sources:
        name = os.path.basename(path)
        plain, mapped, debugged = (work.at(f"{it}.img") for it in ("plain", "mapped", "debugged"))
        made = [run([CC, path, *words, "-o", out], seconds=600)
                for out, words in ((plain, ["--notes"]), (mapped, ["--map"]), (debugged, ["--debug"]))]
        if not work.tally.check(f"{name} is made", all(it.status == 0 for it in made), made[-1].said):
            continue
        work.tally.same(f"{name} with --map", bytes_of(mapped), bytes_of(plain))
        work.tally.same(f"{name} with --debug", bytes_of(debugged), bytes_of(plain))
        work.tally.check(f"{name}: variables", "no variables" not in made[-1].said, made[-1].said)
        said = [it for it in made[0].said.splitlines() if ": note: " in it and "main is" not in it]
        notes = sorted(it.partition(": note: ")[0] for it in said)
        told = re.findall(r"^test \d+ \d+ (.*?:\d+) ", text_of(work.at("mapped.map")), re.M)
        work.tally.same(f"{name}: tests in the map", sorted(told), notes)
        lines_of_ends(work, name, work.at("mapped.map"))
        if has("sparc64-linux-gnu-readelf"):
            shown = "--debug-dump=info,line,loc,Ranges,frames"
            ran = run(["sparc64-linux-gnu-readelf", shown, work.at("debugged.elf")], seconds=300)
            bad = [it for it in ran.err.decode().splitlines() if "rror" in it]
            work.tally.check(f"{name}: the ELF file is read", not bad, "; ".join(bad[:3]))
            count = called_in_pieces(ran.out.decode("utf-8", "replace"))
            work.tally.same(f"{name}: calls of functions in pieces", count, 0)
