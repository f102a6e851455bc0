"""What is looked up and changed in the assembly of a whole program, before ./fit reads it."""
import functools
import os
import re

from labels import with_labels_looked_up

FILE = re.compile(r'\s*\.file\s+(\d+)\s+"([^"]*)"(?:\s+"([^"]*)")?')
PLACE = re.compile(r"\s*\.loc\s+(\d+)\s+(\d+)")
LABEL = re.compile(r"([A-Za-z_$][\w.$]*):")
# What main is called where something runs before or behind it.
INNER = "__main"
NAME = re.compile(r"(?<![\w.$])main(?![\w.$])")
# A list of functions that run before main.
LISTED = re.compile(r"\s*\.section\s+\.(?:init_array|ctors)(?:\.\d+)?\b")
LISTS = re.compile(r"\.(?:init_array|ctors)\b")
SECTION = re.compile(r"\s*\.(section|text|data|bss)\b")
LAST = re.compile(r"^\s*\.section\s+\.(?:fini_array|dtors)\b.*\n(?:.*\n)??\s*\.(?:long|word)\s+([\w.$]+)", re.M)
ALIAS = re.compile(r"^\s*(?:\.set\s+)?([\w.$]+)\s*[=,]\s*([\w.$]+)\s*$", re.M)
WORD = re.compile(r"^\s*\.(?:long|word|uaword|4byte)\s+([\w.$]+)")
WORDS = re.compile(r"(?<![\w.$%])[A-Za-z_.$][\w.$]*")
# (what begins with letters is found ten times as fast as what begins with a line)
FRAME_SUM = re.compile(r"addcc(\s+%(?:fp|sp), -?\d+, (%\w\d))"
                       r"((?:\n(?:\s*\.loc .*|\.L\w+:))*\n\s*b(?:e|ne|z|nz)\s)")
CALL_OF_MAIN, FILED = re.compile(r"call\s+main\b"), re.compile(r"\.file\s.*")
# A trap that a compiler puts in, by its condition, and the conditions that hold where that doesn't.
TRAP = re.compile(r"\s*t(a|e|ne|g|le|ge|l|gu|leu|cc|cs|geu|lu|pos|neg|vc|vs|z|nz)\s+5\b")
OTHERWISE = {"e": "ne", "z": "ne", "g": "le", "ge": "l", "gu": "leu", "cc": "cs", "geu": "cs", "pos": "neg", "vc": "vs"}
OTHERWISE |= {there: here for here, there in OTHERWISE.items()} | {"nz": "e", "lu": "cc", "ne": "e", "cs": "cc"}
# Text of constants, in which no name stands.
TEXT = re.compile(r"\s*\.(asci[iz]|string|file|ident)\b")
# An object as a note of ./fit's names it.
OBJECT = re.compile(r"(?<=the index into )[^\n]+?(?= \(\d+ bytes?\))")
# Of gcc's debug information a function that became a part of its caller, with the file and the line that it was called
# at: by the labels of its one piece, or by the name of a list of pieces.
CALLED_AT = re.compile(r"""\.uaword\s+(?:(\.LBB\d+)\n\s*\.uaword\s+(\.LBE\d+)-\.LBB\d+|(\.LLRL\d+))
\s*\.(?:byte|uahalf)\s+(\w+)\n\s*\.(?:byte|uahalf|uaword)\s+(\w+)\n""")
PIECES = re.compile(r"^(\.LLRL\d+):\n(.*?)^\s*\.byte\s+0\n", re.M | re.S)
PIECE = re.compile(r"(?:uleb128|uaword)\s+(\.LBB\d+)(?:-\S+)?\n\s*\.uleb128\s+(\.LBE\d+)-")
# The headers whose functions become parts of those that call them: for formats, and for bytes.
WRAPPED = ("/runtime/include/bits/whole.h", "/runtime/plug.h")
# A division by a word of memory, which gcc loads between the write of Y and the division.
DIVISION = re.compile(r"""(?:\tsra\t(%\w\d), 31, (%\w\d)\n)?\twr\t(%\w\d), 0, %y
\tld\t(\[[^\]\n]*\]), (%\w\d)\n\tnop\n\tnop
\t([us]div(?:cc)?\t(%\w\d), (%\w\d), (%\w\d))\n""")
# A division whose codes are read.
CODES_OF_DIVISION = re.compile(r"\t([us]div)cc(\t%\w\d, \S+, (%(?!g0)\w\d))\n")
# A call, with codes that are read behind it before any are set: so it is of a function that never returns.
CALL_FOR_GOOD = re.compile(r"(\tcall\t[^%\n]*\n\t ?nop\n)(?=(?:\s*\.loc .*\n|\.L\w+:\n"
                           r"|\t(?!\w*cc\t|addx\t|subx\t|b|c|j|re|save|t|wr)[a-z].*\n)+"
                           r"\t(?:b(?:n?[ez]|gu?|leu?|geu?|lu?|cc|cs|pos|neg|vc|vs)|(?:add|sub)x(?:cc)?)\t)")
# What orders accesses between threads, which clang has for any.
BARRIER = re.compile(r"^\s*stbar\b.*\n", re.M)
# The variables of exit.c of which one is there only where something calls atexit.
AT_EXIT = re.compile(r"^(?:\s*\.(?:local|comm)\s+)?__exit_(?:functions|told)\b(?!\.\d)", re.M)
ABORTED = "\tsethi\t%hi(393216), %o0\n\tta\t0\n"
START = """
	.section	".text"
	.align 4
	.global main
	.type	main, #function
main:
	save	%sp, -96, %sp
{before}	mov	1, %o0
	sethi	%hi(__main_arguments), %o1
	or	%o1, %lo(__main_arguments), %o1
	call	{inner}
	nop
{behind}	.size	main, .-main
	.section	".data"
	.align 4
	.type	__main_arguments, #object
	.size	__main_arguments, 8
__main_arguments:
	.long	__main_name
	.long	0
	.section	".rodata"
	.align 4
	.type	__main_name, #object
	.size	__main_name, 8
__main_name:
	.asciz	"program"
"""


# The line of what no line is known of: the greatest one that an exit word has.
NO_LINE = 0xFFFF


class Assembly:
    """The lines of an assembly, and where they come from, which is looked for where it is asked for."""

    def __init__(self, text):
        self.lines = text.splitlines()

    @functools.cached_property
    def files(self):
        """The path of each file that lines come from, by its number."""
        return paths_in(self.lines)

    @functools.cached_property
    def origins(self):
        """Which line of C each line comes from, and which function, by its number."""
        place, function, places, functions = None, None, {}, {}
        for number, line in enumerate(self.lines, 1):
            loc, label = PLACE.match(line), LABEL.match(line)
            if loc:
                place = (loc[1], int(loc[2]))
            elif label and not line.startswith(".L"):
                function, place = plain(label[1]), None
            places[number], functions[number] = place, function
        return places, functions

    def function(self, number):
        """The function that a line comes from; None where that isn't told."""
        return self.origins[1].get(number)

    def place(self, number):
        """The file and the line of C that a line comes from; None where that isn't told."""
        place = self.origins[0].get(number)
        return place and (self.files.get(place[0], ""), place[1])

    def text(self):
        return "\n".join(self.lines) + "\n"


def paths_in(lines):
    """The path of each file that lines come from, by its number, as an assembly's lines tell them."""
    found = [FILE.match(line) for line in lines if ".file" in line]
    return {it[1]: os.path.join("", *filter(None, it.groups()[1:])) for it in found if it}


def calls_within(text):
    """Where functions were called that became parts of their callers: by the label at the begin of each piece the one
    at its end, and the file's number and the line."""
    pieces = {name: PIECE.findall(listed) for name, listed in PIECES.findall(text)}
    return {begin: (end, file, line) for one, last, name, file, line in CALLED_AT.findall(text)
            for begin, end in (pieces.get(name, ()) if name else [(one, last)])}


def at_callers(text):
    """An assembly in which what became of printf, get and their kin has the line of the call, and not that of the
    header: arguments are worked out there."""
    wrapped = {number for number, path in paths_in(FILED.findall(text)).items() if path.endswith(WRAPPED)}
    if not wrapped:
        return text
    calls, stack, lines = calls_within(text), [], text.splitlines()
    for at, line in enumerate(lines):
        if line.startswith(".LB"):
            label = line.partition(":")[0]
            if label in calls:
                end, file, number = calls[label]
                stack.append((end, str(int(file, 0)), int(number, 0)))
            else:
                stack = [it for it in stack if it[0] != label]
        elif stack and ".loc" in line and (loc := PLACE.match(line)) and loc[1] in wrapped:
            place = next((it for it in reversed(stack) if it[1] not in wrapped), None)
            if place:
                lines[at] = f"\t.loc {place[1]} {place[2]} 1"
    return "\n".join(lines) + "\n"


def files_of(path):
    """The paths of the files that an assembly has lines of."""
    with open(path, encoding="utf-8", errors="surrogateescape") as file:
        return list(paths_in(FILED.findall(file.read())).values())


def plain(name):
    """A function's name without what a compiler puts behind it for a copy or a part, and as C has main."""
    name = re.sub(r"\.(constprop|isra|part|cold|lto_priv|llvm|\d).*$", "", name)
    return "main" if name == INNER else name


def where(path, line):
    """A file and a line as they are told, where the line is known."""
    return f"{path}:{line}" if int(line or 0) not in (0, NO_LINE) else path


def plain_objects(text):
    """What is told of tests, with the names of objects as C has them."""
    return OBJECT.sub(lambda it: plain(it[0]), text)


def without_traps(assembly):
    """The assembly whose run ends, as by abort, where a compiler put a trap in the place of what C doesn't define, and
    the numbers of these lines."""
    lines = list(assembly.lines)
    found = [(at, TRAP.match(line)) for at, line in enumerate(lines) if "5" in line and line.lstrip()[:1] == "t"]
    found = [(at, trap[1]) for at, trap in found if trap]
    for at, condition in found:
        ended = ABORTED.rstrip("\n")
        if condition != "a":
            ended = f"\tb{OTHERWISE[condition]} .Ltrap{at}\n\tnop\n{ended}\n.Ltrap{at}:"
        lines[at] = ended
    return Assembly("\n".join(lines)) if found else assembly, [at + 1 for at, _ in found]


def destructor_of(text):
    """The function that an attribute has run behind main; None where there is none."""
    found = LAST.search(text) if ".fini_array" in text or ".dtors" in text else None
    return found and found[1]


def without_options(text):
    """Takes out what clang leaves for a linker, and what orders accesses."""
    text = BARRIER.sub("", text) if "stbar" in text else text
    if ".linker-options" not in text:
        return text
    kept, inside = [], False
    for line in text.splitlines():
        if SECTION.match(line):
            inside = ".linker-options" in line
        if not inside:
            kept.append(line)
    return "\n".join(kept) + "\n"


def without_frame_sums(text):
    """Parts a sum of a frame's address that sets the condition codes, where only equality is asked for behind it: fit
    takes the sum and the comparison, each by itself."""
    return FRAME_SUM.sub(r"add\1\n\tcmp\t\2, 0\3", text)


def with_divisor_first(found):
    """The words of a division in which the divisor is loaded before Y is written, since a test of its address has no
    place behind that. The sign of the dividend, which gcc works out in the divisor's register, goes to the quotient's,
    where that is another one than theirs; else they stay."""
    of, sign, high, address, divisor, division, dividend, by, quotient = found.groups()
    load, nops = f"\tld\t{address}, {divisor}\n", "\tnop\n" * 3
    if by != divisor or divisor == dividend or divisor in address:
        return found[0]
    if high == "%g0":
        before = f"\tsra\t{of}, 31, {sign}\n" if of else ""
        return f"{before}{load}\twr\t%g0, 0, %y\n{nops}\t{division}\n"
    if sign == high == divisor and of == dividend and quotient not in (dividend, divisor, "%g0"):
        return f"{load}\tsra\t{dividend}, 31, {quotient}\n\twr\t{quotient}, 0, %y\n{nops}\t{division}\n"
    return found[0]


def with_codes_apart(text):
    """Has codes be set right before they are read, where fit wants that: a quotient's by a comparison, since a test of
    the divisor sets others before it; and has a run end behind a call that never returns, where code lies that is come
    to by jumps alone."""
    return CALL_FOR_GOOD.sub(rf"\g<1>{ABORTED}", CODES_OF_DIVISION.sub(r"\t\1\2\n\tcmp\t\3, 0\n", text))


def without_lists(text):
    """Takes out the lists of functions that run before main; returns the text, and these functions in their order."""
    if not LISTS.search(text):
        return text, []
    kept, found, inside, order = [], [], False, 65536
    for line in text.splitlines():
        if LISTED.match(line):
            inside = True
            number = re.search(r"\.(\d+)\b", line)
            order = int(number[1]) if number else 65536
        elif inside and SECTION.match(line):
            inside = False
        word = WORD.match(line) if inside else None
        if word:
            found.append((order, word[1]))
        elif not inside:
            kept.append(line)
    return "\n".join(kept) + "\n", [name for _, name in sorted(found, key=lambda it: it[0])]


def without_aliases(text):
    """Has each thing one name: a second one goes."""
    if " = " not in text and ".set" not in text:
        return text
    names = {}
    for line in text.splitlines():
        found = ALIAS.fullmatch(line) if " = " in line or ".set" in line else None
        if found and not found[2][0].isdigit():
            names[found[1]] = found[2]
    if not names:
        return text
    kept = []
    for line in text.splitlines():
        is_told = re.match(r"\s*\.(?:type|size|global|globl|weak|local|hidden)\s+([\w.$]+)", line)
        if ALIAS.fullmatch(line) and (" = " in line or ".set" in line) or is_told and is_told[1] in names:
            continue
        kept.append(line if TEXT.match(line) else WORDS.sub(lambda it: first_of(names, it[0]), line))
    return "\n".join(kept) + "\n"


def first_of(names, name):
    """What a second name stands for."""
    while name in names:
        name = names[name]
    return name


def renamed(text):
    """Gives main another name."""
    return "\n".join(it if TEXT.match(it) else NAME.sub(INNER, it) for it in text.splitlines()) + "\n"


def calls_main(text):
    """Whether an instruction calls main."""
    return any(not text[text.rfind("\n", 0, it.start()) + 1:it.start()].strip() for it in CALL_OF_MAIN.finditer(text))


def started(text, has_parameters):
    """Puts a start before main where something runs before it or behind it, where it has parameters, or is called."""
    text = with_codes_apart(with_labels_looked_up(DIVISION.sub(with_divisor_first, text)))
    text, before = without_lists(without_frame_sums(without_aliases(without_options(text))))
    is_told = "__exit_" in text and AT_EXIT.search(text) is not None
    if not (before or is_told or has_parameters or calls_main(text)):
        return text
    calls = "".join(f"\tcall\t{name}\n\tnop\n" for name in before)
    behind = "\tcall\texit\n\tnop\n" if is_told else "\tmov\t%o0, %i0\n\tret\n\trestore\n"
    return renamed(text) + START.format(before=calls, behind=behind, inner=INNER)
