"""Values of variables, beside those that gdb tells of the same program for this machine."""
import os
import re

from mi import Gdb, on_run
from run import CC, EXAMPLES, TOP, has, put, run, text_of

HERE = os.path.dirname(os.path.abspath(__file__))
PROGRAMS = ("rle", "wc", "base64", "crc32", "control", "packet", "sieve", "fir", "sort", "till", "index", "list")
# Those of this suite's own.
OWN = ("till", "index", "list")
STOPS = 60
# So many values have to be compared at least.
LEAST = {("-O0", "gcc"): 800, ("-Og", "gcc"): 150, ("-Og", "clang"): 200}
# What clang 14 asks for beside the wish for zeros.
ZERO = ["-enable-trivial-auto-var-init-zero-knowing-it-will-be-removed-from-clang"]
# Values that mean the same on both machines: numbers, characters and arrays of them.
PLAIN = re.compile(r"-?\d+( '.*')?$")


def native_of(work, path, level, compiler, fill):
    """The same program for this machine, by the same compiler, which fills variables that aren't written yet."""
    out = work.at(f"{os.path.basename(path)}{level}{compiler}{fill}")
    words = [compiler, level, "-g", f"-ftrivial-auto-var-init={fill}", *(ZERO if compiler == "clang" else ()),
             "-fwrapv", "-fno-strict-aliasing", "-w", "-DNATIVE", "-I", f"{TOP}/runtime"]
    return out if run([*words, path, "-o", out]).status == 0 else None


def lines_of(gdb, path):
    """The lines of a source that code begins at."""
    gdb.told(f"info line {os.path.basename(path)}:1")  # (it reads the file's lines)
    told = gdb.told(f"maint info line-table {os.path.basename(path)}")
    part = told.partition(os.path.basename(path))[2]
    return sorted({int(it) for it in re.findall(r"^\d+ +(\d+) +0x", part, re.M)} - {0})


def seen_at(gdb, lines, path):
    """What locals hold at the first stops at some lines: each stop's line, and values by name."""
    seen = []
    for it in lines:
        gdb.told(f"break {os.path.basename(path)}:{it}")
    gdb.told(gdb.begins)
    for _ in range(STOPS):
        found = re.search(r'line="(\d+)"', gdb.stop)
        if "breakpoint-hit" not in gdb.stop:
            break
        if not found:
            gdb.told("continue")
            continue
        told = gdb.told("info locals") + gdb.told("info args")
        values = dict(re.findall(r"^(\w+) = (.*)$", told, re.M))
        seen.append((int(found[1]), {name: it.split(" ")[0] for name, it in values.items() if PLAIN.match(it)}))
        gdb.told("continue")
    return seen


def alike(came, wanted):
    """The stops of both while their lines are the same, from where the most are: one may stop at its begin as well,
    and where the ways of both compilers part no more is compared."""
    def together(first, second):
        pairs = list(zip(came[first:], wanted[second:]))
        count = next((at for at, (one, other) in enumerate(pairs) if one[0] != other[0]), len(pairs))
        return pairs[:count]
    return max((together(first, second) for first in range(3) for second in range(3)), key=len)


def known(seen, others):
    """The stops of a run whose variables had zeros in them before they were written, and of one where they had another
    pattern, while they stop at the same lines: the values that are the same in both. A variable that isn't written yet
    has no value of the program's; one that is has the same value in both."""
    stops = []
    for (line, held), (other, there) in zip(seen, others):
        if line != other:
            break
        stops.append((line, {name: it for name, it in held.items() if there.get(name) == it}))
    return stops


def is_declared(variable, text):
    """Whether a line of C declares a variable: it isn't written yet where the line begins."""
    return re.search(rf"\b(?:int|char|long|short|unsigned|size_t|struct \w+)\b[^;()]*\b{variable}\b", text) is not None


def values(work):
    """At -O0 and -Og, where both have a value at a line, they agree; by gcc, and by clang where it is there. (clang 14
    for SPARC itself ends by a fault at -O0.)"""
    for compiler, path, levels in (("gcc", "sparc64-linux-gnu-gcc", ("-O0", "-Og")), ("clang", "clang", ("-Og",))):
        if has(compiler) and has(path):
            found = {level: sum(values_of(work, it, level, compiler, path) for it in PROGRAMS) for level in levels}
            for level, both in found.items():
                name = f"values that both have at {level} by {compiler}"
                work.tally.check(name, both >= LEAST[level, compiler], f"{both}")
        else:
            work.tally.skip(f"values by {compiler}", f"Debian's packages {compiler} and {path}")


def values_of(work, name, level, compiler, path):
    """Compares the values of a program at a level by a compiler; returns how many both have."""
    source, given, image = f"{EXAMPLES}/c/{name}.c", input_of(work, name), work.at(f"{name}{level}{compiler}.img")
    if name in OWN:
        source = f"{HERE}/programs/{name}.c"
    natives = [native_of(work, source, level, compiler, fill) for fill in ("zero", "pattern")]
    made = run([CC, source, level, "--debug", "-o", image], env={**os.environ, "CC_SPARC": path}, seconds=600)
    at = f"{name} {level} by {compiler}"
    if not work.tally.check(f"{at} is made", made.status == 0 and None not in natives, made.said):
        return 0
    return compare(work, at, source, given, image, natives)


def input_of(work, name):
    """A short input of a program."""
    path = f"{EXAMPLES}/c/in/{name}" if name not in OWN else f"{HERE}/programs/{name}.in"
    data = b"the quick brown fox, 123 456\njumps over\n\nthe lazy dog 99\n"
    if os.path.isfile(path):
        with open(path, "rb") as file:
            data = file.read(400)
    return put(work.at(f"{name}.in"), data)


def compare(work, name, path, given, image, natives):
    """Compares the values of one program."""
    with on_run(image, given) as ours:
        ours.begins = "continue"
        lines = lines_of(ours, path)
        came, wanted = seen_at(ours, lines, path), []
    for native in natives:
        with Gdb(native) as theirs:
            theirs.begins = f"run < '{given}' > /dev/null"
            wanted.append(seen_at(theirs, lines, path))
    both, same, text = 0, 0, text_of(path).splitlines()
    for (line, held), (_, others) in alike(came, known(*wanted)):
        for variable in (it for it in held.keys() & others.keys() if not is_declared(it, text[line - 1])):
            both += 1
            same += held[variable] == others[variable]
            work.tally.check(f"{name}: {variable} in line {line}", held[variable] == others[variable],
                             f"wanted {others[variable]}, came {held[variable]}")
    print(f"  {name}: {len(came)} stops, {both} values that both have, {same} agree", flush=True)
    return both
