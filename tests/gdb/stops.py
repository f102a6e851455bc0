"""Stops and steps, forward and back."""
import os
import random
import re
import time

from mi import on_run
from run import CC, EXAMPLES, put, run

HERE = os.path.dirname(os.path.abspath(__file__))
# So many seconds a step may take that takes less than one of processor, beside other work.
BESIDE_OTHERS = 60


def built_c(work, name, *words):
    """The image of a program of this suite, made for gdb."""
    image = work.at(f"{name}{''.join(words)}.img")
    if not os.path.exists(image):
        made = run([CC, f"{HERE}/programs/{name}.c", *words, "--debug", "-o", image])
        work.tally.check(f"{name}.c {' '.join(words)} is made", made.status == 0, made.said)
    return image


def commands(work):
    """The commands of docs/use/c.md on each count of windows."""
    first = None
    for windows in (4, 8, 32):
        list_session(work, windows)
        walk_session(work, windows)
        chain_session(work, windows)
        till_session(work, windows)
        tiles_session(work, windows)
        sort_session(work, windows)
        told = words_session(work, windows)
        first = first or told
        work.tally.same(f"words on {windows} windows as on 4", told, first)
    monitor_session(work)
    names_session(work)


def asked(work, gdb, name, command, *wanted):
    """Looks whether what a command tells has some texts."""
    told = gdb.told(command)
    for it in wanted:
        is_there = re.search(it, told, re.M) is not None
        work.tally.check(f"{name}: {command}", is_there, f"wanted {it}, came {told} {gdb.stop}")
    return told


def list_session(work, windows):
    """From a bad pointer to the line that wrote it."""
    name = f"list on {windows} windows"
    with on_run(built_c(work, "list"), f"{HERE}/programs/list.in", windows) as gdb:
        asked(work, gdb, name, "continue", r"list\.c:23: a pointer leaves", "c\nb\n")
        asked(work, gdb, name, "backtrace", r"#0 .* main \(\) at list\.c:23")
        asked(work, gdb, name, "print items[1]", r'name = "bartholo", next = 0x6d657')
        asked(work, gdb, name, "watch -l items[1].next", "Hardware watchpoint")
        asked(work, gdb, name, "reverse-continue", "Old value", "New value")
        asked(work, gdb, name, "backtrace", r"#0 .* take \(it=.*<items\+12>\) at list\.c:13",
              r"#1 .* main \(\) at list\.c:20")
        asked(work, gdb, name, "print n", "= 10")
        asked(work, gdb, name, "print $turn", "= 334")
        asked(work, gdb, name, "delete", "")
        asked(work, gdb, name, "continue", r"list\.c:23: a pointer leaves")
        asked(work, gdb, name, "continue", "")
        work.tally.check(f"{name}: the end", 'reason="exited"' in gdb.stop, gdb.stop)


def walk_session(work, windows):
    """Breakpoints with conditions, and callers through calls that are jumps."""
    name = f"walk on {windows} windows"
    with on_run(built_c(work, "walk"), f"{HERE}/programs/walk.in", windows) as gdb:
        asked(work, gdb, name, "break depth_of if at == 5", "Breakpoint")
        asked(work, gdb, name, "continue", "")
        told = asked(work, gdb, name, "backtrace", r"#0 .*depth_of \(at=5\)",
                     r"#1 .*depth_of \(at=.*\) at walk\.c:1[23]",
                     r"depth_of \(at=1\) at walk\.c:12\n#4 .*main \(\) at walk\.c:32")
        work.tally.check(f"{name}: backtrace ends at main", "??" not in told, told)
        asked(work, gdb, name, "print nodes[5]", r"left = 0, right = 0, key = 9")
        asked(work, gdb, name, "delete", "")
        asked(work, gdb, name, "break total_of", "Breakpoint")
        asked(work, gdb, name, "continue", "")
        asked(work, gdb, name, "reverse-continue", "")
        asked(work, gdb, name, "print used", "= 0")


def chain_session(work, windows):
    """A hand-written program of twelve frames: callers through windows that are stored and such that aren't."""
    name, folder = f"chain on {windows} windows", f"{EXAMPLES}/chain"
    with on_run(f"{folder}/chain.img", None, windows, "--source", f"{folder}/chain.s") as gdb:
        asked(work, gdb, name, "break *f11", "Breakpoint")
        asked(work, gdb, name, "continue", "")
        told = gdb.told("backtrace")
        frames = len(re.findall(r"^#\d+", told, re.M))
        work.tally.check(f"{name}: frames", frames >= 8 and "corrupt" not in told, told)
        asked(work, gdb, name, "monitor windows", "window  3")


def till_session(work, windows):
    """Variables of a function that has other functions as parts: those that are still there are told by what the input
    says, and one whose register is another's by now isn't told. Callers up to main."""
    name = f"till on {windows} windows"
    with on_run(built_c(work, "till", "-Og"), f"{HERE}/programs/till.in", windows) as gdb:
        asked(work, gdb, name, "break hour_of", "Breakpoint")
        asked(work, gdb, name, "continue", r"hour_of \(time=712\) at till\.c:6[12]")
        asked(work, gdb, name, "backtrace", r"#1 .* enter \(.*\) at till\.c:77\n#2 .* main \(\) at till\.c:10[01]\n$")
        asked(work, gdb, name, "delete", "")
        asked(work, gdb, name, "continue", r"till\.c:77: the index into taken \(48 bytes\) leaves it")
        asked(work, gdb, name, "info locals", "^time = 1831$", "^cents = 410$")
        asked(work, gdb, name, "info args", "^line = <optimized out>$")
        asked(work, gdb, name, "up", r"main \(\) at till\.c:10[01]")
        asked(work, gdb, name, "info locals", '^line = "1831 bread 410"')


def tiles_session(work, windows):
    """Callers through a function of the library that calls back: its variables, too, are told as they are or not at
    all. From an index that leaves its object to why."""
    name, image = f"tiles on {windows} windows", built_c(work, "tiles", "-Og")
    with on_run(image, put(work.at("whole.in"), "..#..\n.##.#\n#####\n"), windows) as gdb:
        asked(work, gdb, name, "break larger_first", "Breakpoint")
        asked(work, gdb, name, "continue", "")
        asked(work, gdb, name, "backtrace", r"^#0 .*larger_first .* at tiles\.c:33\n#1 .* sink .* at sort\.c:41",
              r"^#2 .* qsort \(.*count=(2|<optimized out>), size=(12|<optimized out>), .*\n#3 .* show ",
              r"^#4 .* main \(\) at tiles\.c:95\n$")
        asked(work, gdb, name, "print *(struct field *)a", "x = 0, y = 0, tiles = 3")
        asked(work, gdb, name, "finish", "= -3")
        asked(work, gdb, name, "reverse-finish", "")
        asked(work, gdb, name, "info line *$pc", "Line 33 of")
    with on_run(image, f"{HERE}/programs/tiles.in", windows) as gdb:
        asked(work, gdb, name, "continue", r"tiles\.c:19: the index into tiles \(120 bytes\) leaves it")
        asked(work, gdb, name, "backtrace", r"^#0 .*is_free \(x=.*0, y=.*10\)", r"^#10 .* find_fields \(\)",
              r"^#11 .* main \(\) at tiles\.c:94\n$")


# The commands of a session with examples/c/words.c, and what each tells.
WORDS = (
    ("break count", "Breakpoint 1"),
    ("continue", r'"the"|count \(\) at words\.c:1[678]'),
    ("print word", 'the'),
    ("break hash if $turn > 400", "Breakpoint 2"),
    ("delete 1", ""),
    ("continue", ""),
    ("backtrace", r"^#0 +hash \(\) at words\.c:1[123]\n#1 .* count \(\) at words\.c:18\n#2 .* main \(\) at .*:42"),
    ("print $turn > 400 && $turn < 1000", "= 1"),
    ("print $status", "= 0"),
    ("delete", ""),
    ("rwatch -l made", "Hardware read watchpoint"),
    ("continue", r"^Value = 1\n"),
    ("delete", ""),
    ("awatch -l made", r"Hardware access \(read/write\) watchpoint"),
    ("continue", r"^Old value = 1\nNew value = 2\n"),
    ("continue", r"^Value = 2\n"),
    ("reverse-continue", r"^Value = 2\n"),
    ("reverse-continue", r"^Old value = 2\nNew value = 1\n"),
    ("delete", ""),
    ("tbreak decimal", "Temporary breakpoint"),
    ("continue", "^the "),
    ("next", ""), ("info line *$pc", "Line 31 of"),
    ("reverse-next", ""), ("info line *$pc", "Line 30 of"),
    ("step", ""), ("info line *$pc", "Line 31 of"),
    ("reverse-step", ""), ("info line *$pc", "Line 30 of"),
    ("stepi", ""), ("reverse-stepi", ""), ("info line *$pc", "Line 30 of"),
    ("advance 32", ""), ("info locals", r"^k = 1$"),
    ("break words.c:22", "Breakpoint"),
    ("reverse-continue", ""),
    ("print made", "= 4"), ("print word", '= "end"'),
    ("print nodes[1]", r'name = "cat", .* count = 1, next = 0x0'),
    ("delete", ""),
    ("monitor goto 300", "^300 of 5579 turns are done"),
    ("maintenance flush register-cache", ""),
    ("print $turn", "= 300"),
    ("continue", r"^the 3\n|^3\ncat 1\nand 2\ndog 1\nend 1\n"),
    ("continue", ""),
)


def words_session(work, windows):
    """One of examples/c, by all that stops, goes and shows. Returns what the commands tell, which is the same on each
    count of windows."""
    image, given = work.at("words.img"), put(work.at("words.in"), "the cat and the dog and the end\n")
    if not os.path.exists(image):
        made = run([CC, f"{EXAMPLES}/c/words.c", "-Og", "--debug", "-o", image])
        work.tally.check("words.c is made", made.status == 0, made.said)
    with on_run(image, given, windows) as gdb:
        told = [asked(work, gdb, f"words on {windows} windows", *it) for it in WORDS]
        work.tally.check(f"words on {windows} windows: the end", 'reason="exited-normally"' in gdb.stop, gdb.stop)
    return told


def sort_session(work, windows):
    """A hand-written program, by the names and lines of its source: its table watched, both ways."""
    name, folder = f"sort on {windows} windows", f"{EXAMPLES}/sort"
    given = put(work.at("sort.in"), "cab")
    with on_run(f"{folder}/sort.img", given, windows, "--source", f"{folder}/sort.s") as gdb:
        asked(work, gdb, name, "break *exchange", "Breakpoint")
        asked(work, gdb, name, "continue", "")
        asked(work, gdb, name, "info line *$pc", "Line 87 of")
        asked(work, gdb, name, "print $l0", "= 3")
        asked(work, gdb, name, "x/s 0x80000", '"cab"')
        asked(work, gdb, name, "stepi", "")
        asked(work, gdb, name, "x/s 0x80000", '"aab"')
        asked(work, gdb, name, "stepi", "")
        asked(work, gdb, name, "x/s 0x80000", '"acb"')
        asked(work, gdb, name, "delete", "")
        asked(work, gdb, name, "watch *(char *)0x80001", "Hardware watchpoint")
        asked(work, gdb, name, "continue", "Old value = 99 'c'", "New value = 98 'b'")
        asked(work, gdb, name, "reverse-continue", "Old value = 98 'b'", "New value = 99 'c'")
        asked(work, gdb, name, "reverse-continue", "Old value = 99 'c'", "New value = 97 'a'")
        asked(work, gdb, name, "x/s 0x80000", '"aab"')
        asked(work, gdb, name, "reverse-stepi", "")
        asked(work, gdb, name, "x/s 0x80000", '"cab"')
        asked(work, gdb, name, "delete", "")
        asked(work, gdb, name, "continue", "^abc")
        asked(work, gdb, name, "continue", "")
        work.tally.check(f"{name}: the end", 'reason="exited-normally"' in gdb.stop, gdb.stop)


def names_session(work):
    """Static variables of the same names in two files, and in the library: an author's is told, and of two files' the
    one that is asked for by its file."""
    image, folder = work.at("names.img"), f"{HERE}/programs/names"
    made = run([CC, "-Og", f"{folder}/one.c", f"{folder}/two.c", "--debug", "-o", image])
    if not work.tally.check("names are made", made.status == 0, made.said):
        return
    with on_run(image, put(work.at("names.in"), "ab")) as gdb:
        asked(work, gdb, "names", "break one.c:17", "Breakpoint")
        asked(work, gdb, "names", "continue", "")
        asked(work, gdb, "names", "print arena", r"= \{4, 6\}")
        asked(work, gdb, "names", "print 'one.c'::next", "= 199")
        asked(work, gdb, "names", "print 'two.c'::next", "= 997")
        asked(work, gdb, "names", "print next", "Cannot access memory")


def monitor_session(work):
    """What `monitor` tells."""
    with on_run(built_c(work, "list"), f"{HERE}/programs/list.in") as gdb:
        asked(work, gdb, "monitor", "monitor goto 300", "of 552 turns are done|of 5")
        asked(work, gdb, "monitor", "monitor turn", r"\d+ of \d+ turns are done")
        asked(work, gdb, "monitor", "monitor why", r"list\.c:23: a pointer leaves")
        asked(work, gdb, "monitor", "monitor turns on", "a step is a turn")
        asked(work, gdb, "monitor", "monitor step 3", "turns are done")
        asked(work, gdb, "monitor", "monitor turns off", "an instruction of the program")
        asked(work, gdb, "monitor", "monitor raw on", "as it lies in RAM")
        asked(work, gdb, "monitor", "monitor output", "")
        asked(work, gdb, "monitor", "monitor nonsense", "monitor goto TURN")


def state_of(gdb):
    """Registers and some memory, as gdb tells them."""
    gdb.told("maintenance flush register-cache")
    return gdb.told("info registers") + gdb.told("x/32xw $sp") + gdb.told("x/8xw &items" if gdb.served else "x/8xw $pc")


def back(work):
    """Steps forward, then back, and goes to turns at random: what is seen at a turn is always the same."""
    for windows in (4, 8, 32):
        with on_run(built_c(work, "list"), f"{HERE}/programs/list.in", windows) as gdb:
            seen = []
            for _ in range(60):
                seen.append((gdb.value("$turn"), state_of(gdb)))
                gdb.told("stepi")
            for turn, state in reversed(seen):
                gdb.told("reverse-stepi")
                came = gdb.value("$turn"), state_of(gdb)
                work.tally.same(f"back to {turn} on {windows} windows", came, (turn, state))
            dice = random.Random(windows)
            for turn, state in dice.sample(seen, 20):
                gdb.told(f"monitor goto {dice.randrange(500)}")
                gdb.told(f"monitor goto {turn}")
                work.tally.same(f"goto {turn} on {windows} windows", state_of(gdb), state)


def speed(work):
    """Stops far away, and steps there."""
    source = put(work.at("spin.c"), '#include "plug.h"\nint sum[4];\nint main(void) {\n    int end = get() << 13 | 1;\n'
                 "    for (int i = 0; i < end; i++)\n        sum[i & 3] += i;\n    put(sum[1]);\n    return 0;\n}\n")
    image = work.at("spin.img")
    work.tally.check("spin.c is made", run([CC, source, "--debug", "-o", image]).status == 0)
    for rounds, least in ((2, 100_000), (12, 1_000_000), *(((120, 10_000_000),) if work.is_long else ())):
        given = put(work.at("spin.in"), bytes([rounds]))
        with on_run(image, given, 8, "--limit", "20000000") as gdb:
            steps(work, gdb, rounds << 13, least)


def steps(work, gdb, rounds, least):
    """Goes to the end of a run and back, and steps at both ends and in its middle; each step takes less than a second
    of processor."""
    start = time.monotonic()
    gdb.told("break 7")
    gdb.told("continue")
    total = int(gdb.value("$turn"))
    work.tally.check(f"{rounds} rounds", total >= least, f"{total} turns")
    print(f"  {total} turns: to the end in {time.monotonic() - start:.1f} s", flush=True)
    for place in (total - 10, total // 2, 1000, total - 1000):
        gdb.told(f"monitor goto {place}")
        gdb.told("maintenance flush register-cache")
        for command in ("stepi", "reverse-stepi", "step", "reverse-step"):
            start, spent = time.monotonic(), gdb.spent()
            gdb.told(command)
            taken, spent = time.monotonic() - start, gdb.spent() - spent
            work.tally.check(f"{command} at {place} of {total}", spent < 1 and taken < BESIDE_OTHERS,
                             f"{spent:.2f} s of processor, {taken:.2f} s")
    start = time.monotonic()
    gdb.told("watch -l sum[1]")
    gdb.told("reverse-continue")
    print(f"  back to a watched store in {time.monotonic() - start:.2f} s", flush=True)
    start = time.monotonic()
    gdb.told("delete")
    gdb.told("reverse-continue")
    print(f"  back to the begin in {time.monotonic() - start:.1f} s", flush=True)
