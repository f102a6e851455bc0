"""Why a run ended, in words: exit words of the tests that ./fit adds, with their lines of C where a map tells these."""
import collections
import itertools
import json
import subprocess
import tempfile

from effects import bit, written
from exits import CALLED, NO_FUNCTION, TOLD, failing, telling
from loaded import Fault, tool
from maps import MOST_LINE, UNKNOWN
from standing import called
from tape import Turn

# What a test's kind says, by the upper half of an exit word, and the signal that it comes as; the lower half is its
# line.
Kind = collections.namedtuple("Kind", "words signal")
KINDS = {
    1: Kind("an index leaves its object", 11),
    2: Kind("a pointer leaves the program's data, isn't aligned, or leads to a constant", 11),
    3: Kind("a divisor is 0", 8),
    4: Kind("the loops have used up their turns: ask for more by --turns, or look why this one doesn't end", 24),
    5: Kind("calls go too deep: ask for more by --stack", 11),
    9: Kind("a call through a pointer that is no function's", 11),
}
# The word of abort and of a failed assert.
ABORTED = 0x00060000
ABORT, TRAP = 6, 5
# So many places at the most belong to the end of a run behind the test that failed; and behind a call through a
# pointer, whose functions are looked through one after the other.
BEHIND_TEST, BEHIND_CALL = 8, 4000
INDEX, POINTER = 1, 2
# So many places are named at the most where a test may be in one of them.
FEW_PLACES = 3
# The most turns of a run on 8 windows whose last ones are looked at where it ends in a test: where one place alone may
# have said the exit word, and where several may; and so many of them.
WINDOWS, MOST_TURNS, FEW, MANY, LAST = 8, 9_999_999_999, 1_000_000, 20_000_000, 50_000


class Ending:
    """The end of a run: its exit word, or the trap that it ended by, and its turns and output."""

    def __init__(self, word, mapped=None):
        self.word, self.mapped = word, mapped
        self.turns, self.output, self.trap = 0, b"", None
        # the address of the word that said the exit word, and whether that is the program's own, and no test's
        self.teller, self.is_own = None, False

    @classmethod
    def of(cls, text, mapped=None):
        """The end that `inspect run --json` tells."""
        told = json.loads(text)
        made = cls(told["end"].get("word"), mapped)
        made.turns, made.output, made.trap = told["turns"], bytes.fromhex(told["output"]), told["end"].get("trap")
        return made

    @property
    def kind(self):
        """The kind of the test that failed; None where the exit word is none of a test's."""
        return None if self.word is None or self.is_own else KINDS.get(self.word >> 16)

    @property
    def is_test(self):
        """Whether the run ended where a test failed."""
        return self.kind is not None

    @property
    def signal(self):
        """The signal that this end comes as."""
        if self.kind:
            return self.kind.signal
        return ABORT if self.word == ABORTED else TRAP

    @property
    def line(self):
        """The number of the line of the test that failed."""
        return self.word & MOST_LINE

    @property
    def behind(self):
        """How many places at the most belong to the end of the run behind the test that failed."""
        return BEHIND_CALL if self.word >> 16 == NO_FUNCTION else BEHIND_TEST

    def look(self, places):
        """Looks through the last places of the run, each its address and its word, from the last one on backwards, for
        the word that said the exit word; returns which of them is that of the test that failed."""
        number = telling(places)
        if number is None:
            self.is_own = self.mapped is not None
            return 0
        self.teller, word = places[number]
        # (%g5 and %g6 are ./fit's alone)
        is_told = self.mapped is None or self.teller in self.mapped.ends
        self.is_own = not (is_told or written(word) & (bit(TOLD) | bit(CALLED)))
        return 0 if self.is_own else failing(places, number)

    def ends(self):
        """What the map says of this end: of the word that said it, where the run was looked through for that; else of
        all words that may have. Nothing is known where nothing is said."""
        if self.mapped is None:
            return []
        found = self.mapped.ends_of(self.word)
        return found if self.teller is None else [it for it in found if it is self.mapped.ends.get(self.teller)]

    def is_sure(self):
        """Whether the test that failed is known: all that may have said the exit word look at one thing in one line."""
        ends = self.ends()
        return len({it.place for it in ends}) == 1 and len({self.why_of(it) for it in ends}) == 1

    def why_of(self, end):
        """What failed where an end is that of the run."""
        subjects = self.mapped.subjects_of(end) if end.kind == INDEX else ()
        return f"{min(subjects)} leaves it" if len(subjects) == 1 else self.kind.words

    def where(self):
        """The line of the test by file and number, or by all files that it may be of; else by its number alone."""
        places = sorted({it.place for it in self.ends()})
        if not places or len(places) > FEW_PLACES or any(it.path == UNKNOWN for it in places):
            if 0 < self.line < MOST_LINE:
                return f"line {self.line}"
            name = self.mapped and self.teller is not None and self.mapped.function_at(self.teller)
            return f"a line of {name} that isn't known" if name else "a line that isn't known"
        return " or ".join(f"{it.path}:{it.line}" for it in places)

    def why(self):
        """What failed."""
        found = {self.why_of(it) for it in self.ends()}
        return found.pop() if len(found) == 1 else self.kind.words

    def told(self):
        """The end in words; None where nothing is known of its word."""
        if self.kind is None:
            return told_of(self.word) if self.word == ABORTED else None
        return f"{self.where()}: {self.why()} (exit word {self.word:08X})"


def end_of(path, given, windows, limit):
    """What `inspect run --json` tells of a run on an open input."""
    return tool("inspect", "run", "--json", "--windows", str(windows), "--limit", str(limit), path, given=given)


def told_of(word, place=None):
    """An exit word in words, of a test in a line of C that is named or else by its number; None of another word."""
    if word == ABORTED:
        return f"abort was called, or a test of the library's failed (exit word {word:08X})"
    kind, line = KINDS.get(word >> 16), word & MOST_LINE
    place = place or (f"line {line}" if line < MOST_LINE else "a line that isn't known")
    return kind and f"{place}: {kind.words} (exit word {word:08X})"


def look_at_end(path, given, ending):
    """Looks through the last turns of a run on an open input, by the lines of its states, for the test it ended in."""
    words = [called("inspect"), "states", "--windows", str(WINDOWS), "--limit", str(ending.turns), path]
    with subprocess.Popen(words, stdin=given, stdout=subprocess.PIPE, bufsize=1 << 20) as told:
        lines = list(collections.deque(told.stdout, maxlen=LAST))
    turns = (Turn(it.decode()) for it in reversed(lines[:-1]) if is_own(it))
    ending.look([(it.pc, it.word) for it in itertools.islice(turns, ending.behind)])


def is_own(line):
    """Whether a line of a run's states is a place of the program's own."""
    parts = line.split(b" ", 12)
    return parts[4] == b"0" and parts[5][6] < 56


def full(ending):
    """What else may have been the reason for an end of the program's own, or at a pointer: malloc had nothing left."""
    words = ending.mapped.words.values() if ending.mapped else ()
    may_be = ending.kind is KINDS[POINTER] or ending.kind is None and ending.word != ABORTED
    has_heap = any(place.path.endswith("/libc/malloc.c") for _, place in words)
    return "; if malloc gave NULL, ask for more by --arena" if may_be and has_heap else ""


def end_told(path, given, mapped=None):
    """Why a run of the image at a path on some bytes ended, in words; None where its exit word is 0, or it can't be
    told."""
    with tempfile.TemporaryFile() as file:
        file.write(given)
        file.seek(0)
        try:
            ending = Ending.of(end_of(path, file, WINDOWS, MOST_TURNS), mapped)
        except Fault:
            return None
        if not ending.word:
            return None
        # (where no word of the code says this exit word for a test, the program itself has it)
        ending.is_own = ending.is_test and mapped is not None and not ending.ends()
        if ending.is_test and mapped and ending.turns <= (FEW if ending.is_sure() else MANY):
            file.seek(0)
            look_at_end(path, file, ending)
        return (ending.told() or f"the exit word is {ending.word} ({ending.word:08X})") + full(ending)
