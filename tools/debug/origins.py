"""Which line of the compiler's assembly each word of an image comes from.

./fit tells of a word the line of C that its instruction had. So each instruction is given a file of its own,
`name.c#0.123` for row 123 of the assembly with the number 0, in a copy that ./fit reads: then it tells the row, too.
Code and exit words stay what they are, since of a line they have its number alone; but divisions that have one line
share a file, since their tests share an end."""
import bisect
import os
import re
import sys

from exits import NO_FUNCTION, Exits
from files import PAD, Files
from loaded import CODE, TOP
from maps import MOST_LINE, NOTED, UNKNOWN, End, Fitted, Map, Origin, Place, Test

sys.path.insert(0, f"{TOP}/tools/cc")
from assembly import FILE, LABEL, NO_LINE, PLACE, Assembly, plain, plain_objects

INSTRUCTION = re.compile(r"\s+([a-z]\w*)")
DIVISION = re.compile(r"[us]div")
BRANCH = re.compile(r"b(?!tst|set|clr|tog)|call\b")
JUMP = re.compile(r"\s+ba?(?:,a)?\s+(\.L\w+)\s*$")
CALL = re.compile(r"\s*call\s+([\w.$]+)")
REGISTER = re.compile(r"%(?!hi|lo)\w+")
# A call through a pointer, and what leaves the begin of a constant in %o0.
THROUGH, CONSTANT = re.compile(r"\s*(?:call|jmpl)\s+%"), re.compile(r"\s*(?:sethi\s+%hi\(|set\s+)(\d+)\)?,\s*%o0\s*$")
# Conditions of branches that have two names, and those of the other ways.
CONDITIONS = {"b": "ba", "bz": "be", "bnz": "bne", "bgeu": "bcc", "blu": "bcs"}
OPPOSITES = {"be": "bne", "bg": "ble", "bge": "bl", "bgu": "bleu", "bcc": "bcs", "bpos": "bneg", "bvc": "bvs"}
OPPOSITES |= {there: here for here, there in OPPOSITES.items()}
# What labels have, and comments, that are told apart by numbers alone.
NUMBERED = re.compile(r"(?<=\.L)[\w$]+|!.*|\s+$")
MARK = re.compile(r"#(\d+)\.(\d+)")
NOTE = re.compile(r"([^:\n]+):(\d+): note: (.*)")
ROWS = re.compile(r"\s*\.loc\b", re.M)
# The numbers of the files that are added begin here.
FIRST = 1_000_000


def instruction(line):
    """The mnemonic of a line's instruction; None where it has none."""
    found = INSTRUCTION.match(line)
    return found and found[1]


class Marked:
    """A file of assembly, whose instructions are marked by their rows."""

    def __init__(self, number, path, text):
        self.number, self.path, self.lines = number, path, text.splitlines()
        self.told = [(row if instruction(line) else None, line) for row, line in enumerate(self.lines, 1)]
        self.assembly = Assembly(text)
        self.there = {}  # rows by those of the marked text
        self.rows = [row for row, line in enumerate(self.lines, 1) if instruction(line)]
        self.follows = dict(zip(self.rows, self.rows[1:]))
        self.precedes = dict(zip(self.rows[1:], self.rows))
        self.labels = {}
        for row, line in enumerate(self.lines, 1):
            if line.startswith(".L") and line.rstrip().endswith(":"):
                self.labels[line.rstrip()[:-1]] = row
        self.starts = [(row, line.partition(":")[0]) for row, line in enumerate(self.lines, 1)
                       if LABEL.match(line) and not line.startswith(".L")]
        self.first = {}  # function to the origin of its first instruction
        for row, name in self.starts:
            if found := self.from_row(row):
                self.first.setdefault(name, found)

    def function(self, row):
        """The name of the function that a row stands in, as the assembly has it."""
        at = bisect.bisect_right(self.starts, (row, "\x7f")) - 1
        return self.starts[at][1] if at >= 0 else None

    def behind(self, row):
        """The row that control comes to behind an instruction, past jumps; None where that isn't known."""
        row, seen = self.follows.get(row), set()
        while row and row not in seen and (found := JUMP.match(self.lines[row - 1])):
            seen.add(row)
            at = bisect.bisect_left(self.rows, self.labels.get(found[1], 1 << 32))
            row = self.rows[at] if at < len(self.rows) else None
        return None if row in seen else row

    def call_of(self, name, origin, following):
        """The row of a call of a function, of which ./fit tells no row: behind what it tells of the word before, or
        before what it tells of the one behind. None where neither is such a call."""
        rows = [origin.row, self.behind(origin.row)] if origin and origin.assembly == self.number else []
        if following and following.assembly == self.number:
            before = self.precedes.get(following.row)
            while before and instruction(self.lines[before - 1]) == "nop":
                before = self.precedes.get(before)
            rows.insert(0, before)
        calls = (row for row in rows if row and (found := CALL.match(self.lines[row - 1])) and found[1] == name)
        return next(calls, None)

    def from_row(self, row):
        """The origin of the first instruction from a row on."""
        at = bisect.bisect_left(self.rows, row)
        return Origin(self.number, self.rows[at]) if at < len(self.rows) else None

    def marked(self):
        """The text for ./fit."""
        out, files, place, divisions = [], {}, None, {}
        for row, line in enumerate(self.lines, 1):
            file, told, label = FILE.match(line), PLACE.match(line), LABEL.match(line)
            if file:
                files[file[1]] = (file[3] or file[2]).rpartition("/")[2]
            elif told and told[1] in files:
                place = told[1], int(told[2]) or NO_LINE
            elif label and not line.startswith(".L"):
                place = None
            name = instruction(line)
            if name:
                number, at = place or (None, PAD + row)
                mark = divisions.setdefault(place, row) if place and DIVISION.match(name) else row
                path = files.get(number) or self.path.rpartition("/")[2]
                out += [f'\t.file {FIRST + row} "{path}#{self.number}.{row}"'] * (mark == row)
                out.append(f"\t.loc {FIRST + mark} {at} 0")
            out.append(line)
            self.there[len(out)] = row
        return "\n".join(out) + "\n"

    def tell(self, text):
        """Takes in the same assembly, in which the compiler tells of variables; says whether it is the same."""
        lines, rows = text.splitlines(), iter(self.rows)
        mine, theirs = ([NUMBERED.sub("", it) for it in some if instruction(it)] for some in (self.lines, lines))
        if mine == theirs:
            self.told = [(next(rows) if instruction(it) else None, it) for it in lines]
        return mine == theirs

    def labelled(self):
        """The text for an assembler, in which each instruction has a label that tells its row."""
        out = []
        for row, line in self.told:
            out += [f".Lrow{self.number}.{row}:", line] if row else [line]
        return "\n".join(out) + "\n"


class Origins(Files):
    """The same where it is asked where words come from: each instruction is marked."""

    def __init__(self, paths, folder):
        self.files = []
        super().__init__(paths, folder)

    def told_of(self, number, path, text):
        """The text with marks."""
        self.files.append(Marked(number, path, text))
        return self.files[-1].marked()

    def row(self, path, row):
        """The row by that of the marked text."""
        return next(it for it in self.files if it.path == path).there.get(row, row)

    def bare(self, text):
        """A text without marks."""
        return MARK.sub("", super().bare(text))

    def origin(self, name, line):
        """The origin that a comment or a note of ./fit's tells of."""
        mark = MARK.search(name)
        if mark:
            return Origin(int(mark[1]), int(mark[2]))
        file = next((it for it in self.files if it.path == self.paths.get(name)), None)
        if file is None or file.path == name:
            return file and Origin(file.number, line)
        # (of a function's begin, whose first instruction has the line)
        return file.from_row(file.there.get(line - PAD, line))

    def place(self, origin, name, line, shown):
        """The line of C of an origin; `shown` gives a path as the author has it."""
        found = origin and self.files[origin.assembly].assembly.place(origin.row)
        return Place(shown(found[0]), found[1]) if found else Place(self.bare(name), line)

    def told(self, text, shown):
        """What ./fit told: the notes with the paths of their files."""
        def with_path(found):
            place = self.place(self.origin(found[1], int(found[2])), found[1], int(found[2]), shown)
            return f"{place.path}:{place.line}: note: {found[3]}"
        return self.bare(NOTE.sub(with_path, text))

    def map_of(self, source, notes, shown):
        """The map of the image of a source that ./fit made of the marked files, with the notes that it told."""
        mapped, fitted, last, behind, before = Map(), Fitted(source), None, None, ""
        exits, ends = Exits(fitted.rows), {}
        for number, (comment, text) in enumerate(fitted.rows):
            begin = self.begin_of(fitted.functions.get(CODE + 4 * number))
            if comment or begin:
                last = (self.origin(*comment), comment) if comment else begin
            origin = last and last[0]
            if last and (word := exits.word(number)):
                ends[CODE + 4 * number] = word, origin, self.place(origin, *last[1], shown)
            call = None if comment else CALL.match(text)
            if call and origin:
                origin = self.call_origin(call[1], origin, fitted.rows[number + 2:number + 3])
            elif origin and not comment:
                origin = self.follower(origin, text, behind, before)
            before = text
            behind = origin if instruction(text) and BRANCH.match(instruction(text)) else None
            if origin:
                mapped.add(CODE + 4 * number, origin, self.place(origin, *last[1], shown))
        self.add_tests(mapped, notes, shown)
        mapped.ends = {address: end for address, it in ends.items() if (end := self.end_of(mapped, *it))}
        own = {address: plain(name) for address, name in fitted.functions.items()}
        mapped.add_functions(own, lambda it: plain(self.files[it.assembly].function(it.row) or ""))
        mapped.add_sources()
        return mapped

    def begin_of(self, name):
        """The origin of the first instruction of a function, and its place in the assembly; None of none."""
        for file in self.files if name else ():
            if found := file.first.get(name):
                return found, (os.path.basename(file.path), found.row)
        return None

    def add_tests(self, mapped, notes, shown):
        """Adds the tests that notes tell of."""
        for name, line, why in NOTE.findall(notes):
            origin, (subject, is_test, _) = self.origin(name, int(line)), why.partition(" may be ")
            if origin and is_test:
                place = self.place(origin, name, int(line), shown)
                mapped.tests.append(Test(origin, place, plain_objects(subject)))

    def end_of(self, mapped, word, origin, place):
        """What a word says that tells an exit word, by the line that ./fit tells of it: of a test that was noted, of a
        call through a pointer, or of what the meter and the stack have. Of another line the file isn't known. None
        where the program itself has the exit word."""
        line = word & MOST_LINE
        if origin is None:
            return End(word, Origin(0, 0), Place(UNKNOWN, line))
        end, text = End(word, origin, place), self.text(origin)
        constant = CONSTANT.match(text)
        is_there, is_own = True, constant is not None and int(constant[1]) >> 10 == word >> 10
        if end.kind == NO_FUNCTION:
            is_there = THROUGH.match(text) is not None
            is_own = not is_there and place.line != line
        elif end.kind <= NOTED:
            is_there = len(mapped.subjects_of(end)) > 0
        if is_own:
            return None
        # (the greatest line stands for another one)
        is_there &= place.line > 0 and line in (place.line, MOST_LINE)
        return end if is_there else End(word, origin, Place(UNKNOWN, line))

    def text(self, origin):
        """The line of assembly of an origin."""
        return self.files[origin.assembly].lines[origin.row - 1]

    def call_origin(self, name, origin, following):
        """The origin of a call of a function, behind a word with an origin, and before one that may have a comment."""
        told = self.origin(*following[0][0]) if following and following[0][0] else None
        for number in {it.assembly for it in (told, origin) if it}:
            row = self.files[number].call_of(name, origin, told)
            if row:
                return Origin(number, row)
        return origin

    def follower(self, origin, text, branch, before):
        """The origin of a word of which ./fit tells no line: that of the word before, but for a branch, a call, and
        what stands in its slot, where the compiler has such behind that. `branch` is the origin of a branch before
        the word, `before` the text of what stands before it."""
        marked = self.files[(branch or origin).assembly]
        row = marked.follows.get((branch or origin).row)
        if row is None:
            return origin
        theirs, following = marked.lines[(branch or origin).row - 1], marked.lines[row - 1]
        if branch:
            is_theirs = BRANCH.match(instruction(theirs))
        else:
            is_theirs = is_alike(text, following) and registers(before) == registers(theirs)
        return Origin(marked.number, row) if is_theirs else origin


def registers(text):
    """The registers that an instruction names, but for %g0."""
    return sorted(it for it in REGISTER.findall(text) if it != "%g0")


def is_alike(text, theirs):
    """Whether a branch may be another one, perhaps with its ways exchanged; or a call, another call."""
    name, other = (CONDITIONS.get(it, it) for it in ((instruction(text) or "").partition(",")[0], instruction(theirs)))
    return BRANCH.match(name) is not None and (name == other or OPPOSITES.get(name) == other)
