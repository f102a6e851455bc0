"""Ends of a program whose two files have one name, and their tests in the same lines: the exit words are the same, and
each is told by its own file, or by both where that can't be known."""
import os

from ends import SIGNALS, by_gdb, by_page, by_program
from mi import GDB, on_run
from run import CC, INSPECT, has, put, run

HERE = os.path.dirname(os.path.abspath(__file__))
FILES = (f"{HERE}/programs/twins/ends.c", f"{HERE}/programs/twins/beside/ends.c")
# By what is read behind the file's letter: the line in both, and what is told in each.
ENDS = {
    "i9": (15, ("the index into name (32 bytes) leaves it", "the index into other (48 bytes) leaves it")),
    "p9": (16, ("a pointer leaves the program's data",) * 2),
    "d0": (17, ("a divisor is 0",) * 2),
    "l1": (18, ("the loops have used up their turns",) * 2),
    "s9": (7, ("calls go too deep",) * 2),
    "f7": (20, ("a call through a pointer that is no function's",) * 2),
}
# By which compilers and levels they are told. By clang's -O2 both files share code, whose lines it doesn't tell.
WAYS = (("sparc64-linux-gnu-gcc", "-O2"), ("sparc64-linux-gnu-gcc", "-Og"), ("sparc64-linux-gnu-gcc", "-O0"),
        ("sparc64-linux-gnu-gcc", "-Os"), ("clang", "-Os"), ("clang", "-O2"))
UNTOLD = "that isn't known"


def twins(work):
    """Tells each end of each file, by every way to compile them; by each program of the first way."""
    tally = work.tally
    for number, (compiler, level) in enumerate(WAYS):
        if not has(compiler):
            tally.skip(f"twins by {compiler}", f"Debian's package {compiler}")
            continue
        image, name = work.at(f"twins{number}.img"), f"twins by {compiler} {level}"
        words = [CC, level, *FILES, "--turns", "100000", "--debug", "-o", image]
        made = run(words, env={**os.environ, "CC_SPARC": compiler})
        if tally.check(f"{name} are made", made.status == 0, made.said):
            for file, path in enumerate(FILES):
                for given, (line, why) in ENDS.items():
                    one_end(work, name, image, "hb"[file] + given, f"{path}:{line}: {why[file]}", number == 0)
    own_word(work, work.at("twins0.img"))
    far_end(work)


def one_end(work, name, image, given, wanted, is_first):
    """Tells an end. A compiler may leave a test out, as clang that of a loop without an end, and may not tell its
    line; but no other file and no other line is told."""
    told = run([INSPECT, "run", "--limit", "1000000", "--map", f"{image[:-4]}.map", image], given.encode()).err.decode()
    if " clang " in name:
        place = wanted.split(": ")[0]
        is_right = told == "" or place in told or UNTOLD in told
        work.tally.check(f"{name}: {given}", is_right and "Traceback" not in told, f"wanted {wanted}, came {told}")
        return
    work.tally.check(f"{name}: inspect run --map on {given}", f" {wanted}" in f" {told}" and ".c:" not in
                     told.replace(wanted, ""), f"wanted {wanted}, came {told}")
    if is_first:
        both = wanted, f"line {wanted.split(':')[1]}"
        by_program(work, "host", ["--max-turns", "1000000000000", image], given, both)
        by_program(work, "native", [image], given, both)
        by_page(work, image, given, wanted)
        by_gdb(work, image, given, wanted, SIGNALS[given[1:]])
        words = [CC, *FILES, "--turns", "100000", "--run"]
        told = run(words, given.encode()).said
        work.tally.check(f"{name}: cc --run on {given}", wanted in told, f"wanted {wanted}, came {told[-300:]}")


def own_word(work, image):
    """An exit word of the program's own that is a test's, too, is told as what it is."""
    told = run([INSPECT, "run", "--map", f"{image[:-4]}.map", image], b"hx0").err.decode()
    work.tally.same("an exit word of the program's own", told, "inspect: the exit word is 65551 (0001000F)\n")
    if has(GDB):
        with on_run(image, put(work.at("given"), "hx0")) as gdb:
            told = gdb.told("continue")
            work.tally.check("gdb on an exit word of the program's own", "[exit word 0001000F, after" in told, told)


def far_end(work):
    """Behind more turns than are gone through again both files are told."""
    image = work.at("far.img")
    made = run([CC, *FILES, "--turns", "30000000", "--map", "-o", image])
    work.tally.check("twins of many turns are made", made.status == 0, made.said)
    told = run([INSPECT, "run", "--limit", "100000000", "--map", work.at("far.map"), image], b"bl1").err.decode()
    both = " or ".join(sorted(f"{it}:18" for it in FILES))
    work.tally.check("an end behind many turns", f"inspect: {both}: the loops" in told, told)
