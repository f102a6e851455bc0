"""The map of an image that ./cc made: which line of C, and which line of the compiler's assembly, each word of the
code comes from, and the tests that ./fit added.

A map is a text. Its first line has the SHA-256 of the image; then a line for each word, `00040010 0 123 name.c:7`:
its address, the number of a file of assembly, a line of that, and the line of C; one for each test, `test 0 123
name.c:7 the index into name (32 bytes)`, by the same numbers; one for each word that says an exit word, or the line in
it, `end 00040010 00010007 0 123 name.c:7`: its address, the exit word, and the test's place; one for each word that
another function begins at, `function 00040010 take`; and one for each source, with the SHA-256 of its bytes,
`source 9f86.. name.c`."""
import bisect
import collections
import hashlib
import re

from loaded import CODE, Fault, bytes_of

HEAD = re.compile(r"map of image ([0-9a-f]{64})")
WORD = re.compile(r"([0-9A-F]{8}) (\d+) (\d+) (.+):(\d+)")
TEST = re.compile(r"test (\d+) (\d+) (.+?):(\d+) (.*)")
END = re.compile(r"end ([0-9A-F]{8}) ([0-9A-F]{8}) (\d+) (\d+) (.+):(\d+)")
FUNCTION = re.compile(r"function ([0-9A-F]{8}) (\S+)")
SOURCE = re.compile(r"source ([0-9a-f]{64}) (.+)")

Origin = collections.namedtuple("Origin", "assembly row")  # the number of a file of assembly, and a line of it
Place = collections.namedtuple("Place", "path line")
# The greatest line that an exit word has; of further ones it has this one, and of those that the compiler doesn't tell.
MOST_LINE = 0xFFFF
# The upper halves of exit words that tests have.
KINDS_OF_ENDS = (1, 2, 3, 4, 5, 9)
# The last of those whose tests are noted.
NOTED = 3
# The path of a file that isn't known.
UNKNOWN = "?"
# The kinds of tests by what they look at; all others look at an index.
KINDS = {"the address": 2, "the divisor": 3}


class Test(collections.namedtuple("Test", "origin place subject")):
    """A test that ./fit added: where it stands, and what it looks at."""

    @property
    def kind(self):
        """The upper half of the exit word that it ends a run with."""
        return KINDS.get(self.subject, 1)


class End(collections.namedtuple("End", "word origin place")):
    """What a word of code tells that says an exit word, or the line in it: the exit word, and where the test stands."""

    @property
    def kind(self):
        """The kind of the test."""
        return self.word >> 16


class Map:
    """What a map tells."""

    def __init__(self):
        self.words, self.tests = {}, []  # address to (origin, place); tests
        self.ends = {}  # address to End
        self.functions, self.sources = {}, {}  # address to the name of the function from there on; path to sum

    def add(self, address, origin, place):
        """Notes where a word comes from."""
        self.words[address] = origin, place

    def place(self, address):
        """The line of C of a word; None where none is known."""
        found = self.words.get(address)
        return found and found[1]

    def function_at(self, address):
        """The name of the function that a word is of; None where none is known."""
        starts = sorted(self.functions)
        at = bisect.bisect_right(starts, address)
        return self.functions[starts[at - 1]] if at else None

    def ends_of(self, word):
        """What the words that tell an exit word say."""
        return [it for it in self.ends.values() if it.word == word]

    def subjects_of(self, end):
        """What the tests look at that an end may be of."""
        return {it.subject for it in self.tests if (it.kind, *it[:2]) == (end.kind, *end[1:])}

    def note(self, end, function, source):
        """Takes in what a line tells of an end, of a function or of a source, as it was matched."""
        if end:
            origin, place = Origin(int(end[3]), int(end[4])), Place(end[5], int(end[6]))
            self.ends[int(end[1], 16)] = End(int(end[2], 16), origin, place)
        elif function:
            self.functions[int(function[1], 16)] = function[2]
        elif source:
            self.sources[source[2]] = source[1]

    def add_functions(self, own, name_of):
        """Notes where functions begin: those of the image by their addresses, and by the words' origins, whose
        function `name_of` gives, those that ./fit made parts of others."""
        last = name = None
        for address in sorted({*self.words, *own}):
            found = self.words.get(address)
            name = own.get(address) or (found and name_of(found[0])) or name
            if name != last:
                self.functions[address] = last = name

    def add_sources(self):
        """Notes the sums of the sources that are there."""
        found = {path: sum_of(path) for path in {place.path for _, place in self.words.values()}}
        self.sources = {path: it for path, it in found.items() if it}

    def text(self, image):
        """The map as a text, of an image with these bytes."""
        lines = [f"map of image {hashlib.sha256(image).hexdigest()}"]
        for address, (origin, place) in sorted(self.words.items()):
            lines.append(f"{address:08X} {origin.assembly} {origin.row} {place.path}:{place.line}")
        for test in self.tests:
            (number, row), (path, line) = test.origin, test.place
            lines.append(f"test {number} {row} {path}:{line} {test.subject}")
        for address, (word, (number, row), (path, line)) in sorted(self.ends.items()):
            lines.append(f"end {address:08X} {word:08X} {number} {row} {path}:{line}")
        lines += (f"function {address:08X} {name}" for address, name in sorted(self.functions.items()))
        lines += (f"source {it} {path}" for path, it in sorted(self.sources.items()))
        return "\n".join(lines) + "\n"


def read(path, image):
    """The map in a file, which has to be that of an image with these bytes."""
    lines, found = bytes_of(path).decode("utf-8", "replace").splitlines(), Map()
    head = HEAD.fullmatch(lines[0]) if lines else None
    if head is None:
        raise Fault(2, f"inspect: {path}: no map of ./cc's")
    if head[1] != hashlib.sha256(image).hexdigest():
        raise Fault(2, f"inspect: {path}: the map is another image's")
    for line in lines[1:]:
        word, test = WORD.fullmatch(line), TEST.fullmatch(line)
        if word:
            found.add(int(word[1], 16), Origin(int(word[2]), int(word[3])), Place(word[4], int(word[5])))
        elif test:
            origin, place = Origin(int(test[1]), int(test[2])), Place(test[3], int(test[4]))
            found.tests.append(Test(origin, place, test[5]))
        else:
            found.note(END.fullmatch(line), FUNCTION.fullmatch(line), SOURCE.fullmatch(line))
    return found


def sum_of(path):
    """The SHA-256 of a file's bytes; None where it can't be read."""
    try:
        with open(path, "rb") as file:
            return hashlib.sha256(file.read()).hexdigest()
    except OSError:
        return None


class Fitted:
    """A source that ./fit made, word by word: where comments say that a word comes from, functions, and data by
    name."""

    COMMENT = re.compile(r"! (\S.*):(\d+)$")
    OBJECT = re.compile(r"! (.+), at ([0-9A-F]{8})$")

    def __init__(self, text):
        self.rows = []  # of each word where it comes from, None where that isn't told, and its text
        self.blocks = set()  # numbers of words that a block begins at
        self.functions, self.objects = {}, []  # address to name; address, name, bytes
        address, size = CODE, 0
        for row in text.splitlines():
            found = self.OBJECT.match(row)
            if found:
                self.objects.append([int(found[2], 16), found[1], 0])
            elif row.startswith((".function", ".block")):
                self.blocks.add(len(self.rows))
                if row.startswith(".function"):
                    self.functions[address] = row.split()[1].split(",")[0]
            elif row.startswith(("    .byte", "    .skip")) and self.objects:
                size = row.count(",") + 1 if ".byte" in row else int(row.split()[1])
                self.objects[-1][2] += size
            elif re.match(r"    [a-z]", row):
                comment = self.COMMENT.search(row)
                self.rows.append(((comment[1], int(comment[2])) if comment else None, row.partition("!")[0]))
                address += 4
        self.end = address
        self.without_gaps()

    @property
    def comments(self):
        """Where each word comes from; None where that isn't told."""
        return [it[0] for it in self.rows]

    def without_gaps(self):
        """Takes the zeros between two objects from the first one's size."""
        starts = sorted(it[0] for it in self.objects)
        for it in self.objects:
            following = bisect.bisect_right(starts, it[0])
            if following < len(starts):
                it[2] = min(it[2], starts[following] - it[0])
