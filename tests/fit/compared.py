"""Images beside the same C compiled for this machine, or run by qemu: programs, inputs, and what both put out."""
import functools
import os
import re
import struct

from run import EXAMPLES, FIT, SANDBOX, TOP, Ran, bytes_of, has, put, run_within

HERE = os.path.dirname(os.path.abspath(__file__))
SPARC = "sparc64-linux-gnu-gcc"
# So many seconds may a native program or an image run.
SECONDS = 60
# The compiler's assembly that is stored beside the programs of examples/c.
STORED = f"{EXAMPLES}/c/gcc"


def programs():
    """The names of the programs of examples/c."""
    return sorted(it[:-2] for it in os.listdir(f"{EXAMPLES}/c") if it.endswith(".c"))


def native(source, program):
    """Compiles a program for this machine; None where that can't be done."""
    sign = "-funsigned-char" if "unsigned-char" in source else "-fsigned-char"
    words = ["gcc", "-O1", "-fwrapv", sign, "-w", "-DNATIVE", "-I", f"{TOP}/runtime", "-o", program, source]
    return [program] if run_within(words).status == 0 else None


def under_qemu(source, program, flags=()):
    """Compiles a program for qemu's user mode, with services by Linux's calls; None where that can't be done."""
    words = [SPARC, "-O1", "-m32", "-mcpu=v8", "-ffreestanding", "-fwrapv", "-w", "-fno-stack-protector", "-nostdlib",
             "-static", *flags, "-I", f"{HERE}/qemu", "-o", program, source, f"{TOP}/runtime/plug.c"]
    qemu = "qemu-sparc32plus" if has("qemu-sparc32plus") else "qemu-sparc"
    return [qemu, program] if run_within(words).status == 0 else None


def compilers():
    """The compilers for SPARC that are here."""
    if has(SPARC):
        yield SPARC
    if has("clang") and re.search(rb"^ *sparc ", run_within(["clang", "--print-targets"]).out, re.M):
        yield "clang"


def inputs_like(stored, count, chance):
    """Inputs beside a stored one: random bytes, words of C's texts, the stored one with bytes changed, and numbers."""
    yield stored
    for _ in range(count):
        kind = chance.randrange(4)
        if kind == 0:
            yield chance.randbytes(chance.randrange(300))
        elif kind == 1:
            yield bytes(chance.choices(b'abcXYZ019 ,"\n{}[]:-.eE+\\tu', k=chance.randrange(600)))
        elif kind == 2:
            changed = bytearray(stored[:chance.randrange(1, 1500)])
            for _ in range(chance.randrange(1, 12)):
                if changed:
                    changed[chance.randrange(len(changed))] = chance.randrange(256)
            yield bytes(changed)
        else:
            numbers = chance.choices(range(16), k=200)
            wide = [chance.randrange(256) if chance.randrange(3) == 0 else it for it in numbers]
            yield bytes([chance.randrange(10, 60), *wide])


# So many seconds may a run under qemu take, so that what is compared isn't long for others either; so many turns a run
# by the model; and so many of a program's inputs are run on the board as well.
BRIEF, MOST_TURNS, ON_BOARD = 1, 2 * 10**9, 3


def framed(inputs):
    """Inputs, each behind its length, as programs take them that run on many."""
    return b"".join(struct.pack(">I", len(it)) + it for it in inputs)


def outputs_in(told):
    """What such programs put out: a word and the output of each run."""
    at = 0
    while at + 8 <= len(told):
        word, length = struct.unpack_from(">II", told, at)
        yield word, told[at + 8:at + 8 + length]
        at += 8 + length


def runs_under_qemu(program, inputs):
    """What a program of `under_qemu` comes to on each input: its status and its output; none where it has no end."""
    ran = run_within(program, framed(inputs), BRIEF)
    return [None if word == 2 else Ran(word, out, b"") for word, out in outputs_in(ran.out)]


# What a random program may be refused for: limits of an image and of a run, and code in which a test or a meter finds
# no place. A refusal for anything else is a fault of fit's.
REFUSALS = re.compile(r"""refused:\ (?:[\w.$]+:\ )?(?:
    (?:the\ blocks\ of\ (?:a\ function|all\ functions)|the\ words\ of\ code|the\ turns\ of\ a\ run
        |the\ stack\ that\ calls\ take|the\ loops\ around\ a\ block|the\ budget)\ would\ be\ (?:at\ least\ )?\d+,\ above
    |more\ than\ \d+\ (?:registers\ and\ frame\ words\ in\ use|rounds\ (?:of|over)|visits\ of)
    |a\ program\ has\ at\ most\ 4096\ blocks
    |a\ round\ of\ a\ loop\ may\ take\ more\ turns
    |no\ (?:place\ for\ a\ test|register\ is\ left))""", re.X)


def is_refused(ran):
    """Whether a program was refused for what a random one may be refused for."""
    return ran.status == 2 and REFUSALS.search(ran.said) is not None


def are_alike(mine, theirs):
    """Whether two runs put out the same, and both end well or neither does."""
    return mine.status is not None and (mine.out, bool(mine.status)) == (theirs.out, bool(theirs.status))


class Comparison:
    """Runs of images beside others, counted; sources and inputs that show a difference are kept."""

    def __init__(self, tally, work):
        self.tally, self.work, self.runs = tally, work, 0

    @functools.cached_property
    def model(self):
        """The model of the machine, compiled for this one."""
        made = run_within(["gcc", "-O2", "-o", f"{self.work}/model", f"{HERE}/model/model.c"])
        return self.tally.check("model", made.status == 0, f"wanted a program, came {made}") and f"{self.work}/model"

    def modelled(self, name, image, inputs):
        """Runs of an image on inputs by the model, from two starts each that differ in all that a start leaves open;
        that both put out the same is checked."""
        ran = run_within([self.model, image, str(MOST_TURNS)], framed(inputs))
        self.tally.check(f"{name}, two starts", ran.status == 0, f"wanted one output, came {ran.said}", (image,))
        return [Ran(int(word > 0), out, b"") for word, out in outputs_in(ran.out)]

    def compare_many(self, name, image, other, inputs):
        """Compares an image with a program of `under_qemu` on many inputs, by the model, and on the first few of them
        by the board as well. Where that program doesn't end well by itself, nothing is compared."""
        inputs = list(inputs)
        wanted, runs, different = runs_under_qemu(other, inputs), 0, []
        modelled = self.modelled(name, image, inputs)
        for number, theirs in enumerate(wanted):
            if theirs is None:
                continue
            runs += 1
            came = modelled[number:number + 1]
            if number < ON_BOARD:
                came.append(run_within([SANDBOX, "run", image], inputs[number], SECONDS))
            if not came or not all(are_alike(it, theirs) for it in came):
                different.append(put(f"{self.work}/{os.path.basename(image)}.{number}.in", inputs[number]))
        self.count(name, runs, len(different), (*different[:1], image))

    def compare(self, name, image, other, inputs):
        """Runs an image and a native program on inputs: the same bytes, and both end well or neither does. Where the
        program doesn't end well by itself, nothing is compared."""
        runs, different = 0, []
        for number, given in enumerate(inputs):
            theirs = run_within(other, given, SECONDS)
            if theirs.status is None or theirs.status < 0:
                continue
            runs += 1
            mine = run_within([SANDBOX, "run", image], given, SECONDS)
            if not are_alike(mine, theirs):
                different.append(put(f"{self.work}/{os.path.basename(image)}.{number}.in", given))
        self.count(name, runs, len(different), (*different[:1], image))

    def count(self, name, runs, different, files):
        """Counts runs that were compared, of which so many differ."""
        with self.tally.lock:
            self.runs += runs
        told = f"wanted the same on {runs} inputs, came another output on {different}"
        self.tally.check(name, not different, told, files)

    def accepted(self, name, source, image, files=()):
        """Whether a fitted source is assembled and accepted."""
        made = run_within([SANDBOX, "asm", source, image])
        told = run_within([SANDBOX, "verify", image]) if made.status == 0 else made
        return self.tally.check(name, told.out == b"accepted\n", f"wanted it accepted, came {told.said}",
                                (source, *files))

    def fitted(self, name, sources, made, image, files=()):
        """Whether sources are fitted, what is made of them is accepted, and `--image` gives the same image."""
        own = f"{image}.own"
        told = run_within([FIT, *sources, "-o", made, "--image", own])
        return self.tally.check(name, told.status == 0, f"wanted a source, came {told}", files or sources) \
            and self.accepted(name, made, image, files or sources) \
            and self.tally.check(f"{name}: --image", bytes_of(own) == bytes_of(image),
                                 "wanted the image of sandbox asm, came another one", (made, own))
