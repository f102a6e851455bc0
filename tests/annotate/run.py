#!/usr/bin/env python3
"""usage: tests/annotate/run.py [--seed N] [--tries N] [--keep FOLDER] [PART ..]

Tries `./fit annotate` on the sources of examples that are written by hand. Parts, all where none is named:

  bare      each example without its annotations, and with 0 for stack rooms and budgets: annotated anew it is
            accepted, gives on the stored input the stored output, and no budget is above 1.1 times the one by hand
  some      each example with a part of its annotations left out, by chance, N times (8): accepted, and what was left
            stands there still
  kinds     the same with whole functions bare, and with one kind of annotation left out
  refused   the examples that the verifier refuses, and those for `trace`: a note, a reason and status 2, or a source
            that `asm` takes
  faults    bytes that are no source: a reason with its line and status 2, as `sandbox asm` has it

Of each source that is made, whatever the part: without annotations it is the one that it was made of, line by line.
With --keep what shows a failure is left in a folder."""
import glob
import os
import random
import re
import sys
import tempfile

sys.dont_write_bytecode = True
sys.path.insert(0, f"{os.path.dirname(os.path.dirname(os.path.abspath(__file__)))}/lib")
from run import EXAMPLES, FIT, SANDBOX, built, bytes_of, put, run
from tally import Tally, Words

ANNOTATION = re.compile(r"\s*\.(param|result|depth|cell|fuel|term)\b")
FUEL = re.compile(r"\s*\.(fuel|term)")
FUNCTION = re.compile(r"(\s*\.function\s+[^,]+,\s*\w+\s*,\s*\d+\s*,\s*)(\d+)(\s*,\s*)(\d+)(.*)")
BUDGET = re.compile(r"\s*\.function\s+([^,]+),[^,]*,[^,]*,[^,]*,\s*(\d+)")
NAMES = "hello countdown echo lower upper checksum crc sieve squares sort chain deep".split()


def lines_of(path):
    """The lines of a file, byte by byte."""
    return bytes_of(path).decode("latin-1").split("\n")


def emptied(line):
    """A line, of a function with 0 for its stack room and its budget."""
    return FUNCTION.sub(r"\g<1>0\g<3>0\g<5>", line)


def without(lines):
    """Lines without annotations."""
    return [emptied(line) for line in lines if not ANNOTATION.match(line)]


def budgets(lines):
    """The budget of each function, by its name."""
    return {it[1]: int(it[2]) for it in map(BUDGET.match, lines) if it}


class Tries(Tally):
    """What passed and failed, and where sources go."""

    def __init__(self, work, keep):
        super().__init__("annotate", keep)
        self.work = work

    def assembled(self, source):
        """How a source is assembled."""
        return run([SANDBOX, "asm", source, f"{self.work}/made.img"])

    def annotate(self, name, lines):
        """Annotates lines; gives the path of the source, and that of what is made, if it is, and what was told."""
        made = f"{self.work}/{name}.s"
        source = put(f"{self.work}/{name}.bare.s", "\n".join(lines).encode("latin-1"))
        if os.path.exists(made):
            os.remove(made)
        told = run([FIT, "annotate", source, "-o", made])
        if told.status == 0:
            is_same = without(lines_of(made)) == without(lines)
            self.check(name, is_same, "wanted the source with annotations, came another", (source, made))
            left = iter(lines_of(made))
            is_kept = all(line in left for line in lines if ANNOTATION.match(line))
            self.check(name, is_kept, "wanted the annotations of the source, one is gone", (source, made))
        return source, made, told

    def accepted(self, name, lines):
        """Annotates lines to a source that has to be accepted, without a note; gives whether it is."""
        source, made, told = self.annotate(name, lines)
        if not self.check(name, told.status == 0 and not told.said, f"wanted no note, came {told}", (source,)):
            return False
        asm = self.assembled(made)
        verdict = run([SANDBOX, "verify", f"{self.work}/made.img"]) if asm.status == 0 else asm
        return self.check(name, verdict.status == 0, f"wanted that it is accepted, came {verdict.said}",
                          (source, made))

    def is_refused(self, name, source, made, told):
        """Whether a source is refused with its line and a reason, and none is made."""
        line = re.match(rf"{re.escape(source)}:\d+: refused: .", told.said)
        holds = told.status == 2 and line and not os.path.exists(made)
        return self.check(name, holds, f"wanted a line and a reason, came {told}", (source,))

    def runs(self, name, stored):
        """Whether the image gives on an example's input its output."""
        beside = f"{EXAMPLES}/{stored}/{stored}"
        given = bytes_of(f"{beside}.in") if os.path.exists(f"{beside}.in") else b""
        self.same(name, run([SANDBOX, "run", f"{self.work}/made.img"], given).out, bytes_of(f"{beside}.out"))


def bare(tries, _options):
    """Without any annotation."""
    for name in NAMES:
        lines = lines_of(f"{EXAMPLES}/{name}/{name}.s")
        if not tries.accepted(name, without(lines)):
            continue
        tries.runs(name, name)
        made = f"{tries.work}/{name}.s"
        found = budgets(lines_of(made))
        for function, budget in budgets(lines).items():
            mine = found.get(function, 0)
            told = f"wanted at most 1.1 times {budget}, came {mine}"
            tries.check(f"{name}: the budget of {function}", mine * 10 <= budget * 11, told, (made,))


def some(tries, options):
    """With a part of the annotations."""
    chance = random.Random(options.seed)
    for name in NAMES:
        lines = lines_of(f"{EXAMPLES}/{name}/{name}.s")
        for number in range(options.tries):
            share = chance.random()
            left = [it for it in lines if not ANNOTATION.match(it) or FUEL.match(it) or chance.random() < share]
            left = [it for it in left if not FUEL.match(it)]
            left = [emptied(it) if chance.random() < 0.5 else it for it in left]
            _, made, _ = tries.annotate(f"{name}.{number}", left)
            asm = tries.assembled(made)
            tries.check(f"{name}.{number}", asm.status == 0, f"wanted a source, came {asm.said}", (made,))


def by_function(lines):
    """The lines before the first function, and those of each."""
    parts = [[]]
    for line in lines:
        if re.match(r"\s*\.function\b", line):
            parts.append([])
        parts[-1].append(line)
    return parts


def kinds(tries, _options):
    """Without a function's annotations, or those of a kind."""
    for name in NAMES:
        lines = lines_of(f"{EXAMPLES}/{name}/{name}.s")
        parts, left = by_function(lines), {}
        for number in range(1, len(parts)):
            mixed = [line for at, part in enumerate(parts) for line in (without(part) if at == number else part)]
            left[f"function{number}"] = mixed
        for kind in ("param", "result", "cell", "(fuel|term)"):
            key = re.sub("[^a-z]", "", kind)
            left[key] = [line for line in lines if not re.match(rf"\s*\.{kind}\b", line)]
        for key, rest in left.items():
            if tries.accepted(f"{name}.{key}", rest):
                tries.runs(f"{name}.{key}", name)


def refused(tries, _options):
    """What the verifier refuses, and lessons."""
    for path in sorted(glob.glob(f"{EXAMPLES}/refused/*.s")) + sorted(glob.glob(f"{EXAMPLES}/lessons/*.s")):
        name = os.path.basename(path)[:-2]
        for kind, lines in (("", lines_of(path)), (".bare", without(lines_of(path)))):
            source, made, told = tries.annotate(name + kind, lines)
            if told.status == 2:
                tries.is_refused(name + kind, source, made, told)
                continue
            asm = tries.assembled(made)
            holds = told.status == 0 and asm.status == 0
            tries.check(name + kind, holds, f"wanted a source, came {told.said} {asm.said}", (source, made))


def changed(lines, chance):
    """Lines of which a few are gone, doubled, cut, or have another register or number."""
    lines = list(lines)
    for _ in range(chance.randrange(1, 4)):
        at, kind = chance.randrange(len(lines)), chance.randrange(4)
        if kind == 0:
            lines.pop(at)
        elif kind == 1:
            lines.insert(at, lines[chance.randrange(len(lines))])
        elif kind == 2:
            lines[at] = lines[at][:chance.randrange(len(lines[at]) + 1)]
        else:
            lines[at] = lines[at].replace("%o1", chance.choice(["%o2", "%l1", "%sp", "%g0", "4000000000"]))
    return lines


def faults(tries, options):
    """What is no source, or is one by chance."""
    chance, upper = random.Random(options.seed), lines_of(f"{EXAMPLES}/upper/upper.s")
    bad = [[], [""], ["\xff"], ["x" * 2000], ["a:", "a:"], [".function f"], [".cell %o0,0,1,0"], [".block b"],
           [" nop"],
           ["\0" * 100], [f"l{n}:" for n in range(20000)], [".function f,leaf,0,0,0"] + [" nop"] * 70000,
           [".function f,leaf,0,0,0", ".block", " nop"], without(upper)[:-3], upper[:40]]
    bad += [changed(without(upper) if number % 2 else upper, chance) for number in range(options.tries * 4)]
    for number, lines in enumerate(bad):
        name = f"bad.{number}"
        source, made, told = tries.annotate(name, lines)
        if tries.assembled(source).status == 0 and told.status == 0:
            asm = tries.assembled(made)
            tries.check(name, asm.status == 0, f"wanted a source, came {asm.said}", (source, made))
        else:
            tries.is_refused(name, source, made, told)


PARTS = {"bare": bare, "some": some, "kinds": kinds, "refused": refused, "faults": faults}


def main(words):
    reader = Words(__doc__)
    reader.add_argument("--seed", type=int, default=1)
    reader.add_argument("--tries", type=int, default=8)
    reader.add_argument("--keep")
    reader.add_names("parts", list(PARTS))
    options = reader.parse_args(words)
    built("fit", "sandbox")
    with tempfile.TemporaryDirectory() as work:
        tries = Tries(work, options.keep)
        for name in options.parts or PARTS:
            PARTS[name](tries, options)
    return tries.end()


if __name__ == "__main__":
    sys.exit(main(sys.argv[1:]))
