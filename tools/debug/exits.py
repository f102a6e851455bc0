"""Words of an image that say which test ended a run. An exit word has the line of its test, and not the file; but the
word of code that says the line belongs to few tests, mostly to one.

./fit has three forms (crates/fit_cuts, fit_placing and fit_joins): SETHI leaves the exit word in %g5, for an end that
the tests of a function share; SETHI and OR leave it in %o0, right before the end; and a call through a pointer leaves
its line in %g6, for the one end of all such calls."""
import re

from effects import fields, has_slot, is_sethi, written
from maps import KINDS_OF_ENDS as KINDS

NUMBER = re.compile(r"\s+(?:sethi (?P<high>\d+)|or %g0,(?P<low>\d+)),%(?P<register>g5|g6|o0)\s*$")
REST = re.compile(r"\s+or %(\w\d),(\d+),%\1\s*$")
END, END_BY_CALL = re.compile(r"\s+ta 0\s*$"), re.compile(r"\s+or %o0,%g6,%o0\s*$")
# The kind of a call through what is no function's; the registers of the exit word that tests share, %g5, of the line of
# such a call, %g6, and of a run's exit word, %o0.
NO_FUNCTION, TOLD, CALLED, RESULT = 9, 5, 6, 8
OR, SHIFT = 0x02, 0x26
# How far behind a word the one may be that has the rest of its number, by register.
NEAR = {"o0": 1, "g6": 16}


class Exits:
    """The words of a source of ./fit's that say the lines of exit words."""

    def __init__(self, rows):
        self.texts = [text for _, text in rows]
        self.has_calls = any(map(END_BY_CALL.match, self.texts))

    def rest(self, number, register):
        """What a word behind one adds to a number in a register, and where that is; 0 where none does."""
        for at in range(number + 1, min(number + 1 + NEAR[register], len(self.texts))):
            found = REST.match(self.texts[at])
            if found and found[1] == register:
                return int(found[2]), at
            if self.texts[at].rstrip().endswith(f",%{register}"):
                break
        return 0, number

    def word(self, number):
        """The exit word that a word says; None where it says none."""
        found = NUMBER.match(self.texts[number])
        if not found:
            return None
        register, said, last = found["register"], int(found["high"] or found["low"]), number
        if register == "g5":
            word = said if found["high"] else 0
        else:
            if found["high"]:
                rest, last = self.rest(number, register)
                said = said << 10 | rest
            word = said if register == "o0" and self.is_end(last + 1) else 0
            if register == "g6" and self.has_calls and said < 1 << 16:
                word = NO_FUNCTION << 16 | said
        return word if word >> 16 in KINDS else None

    def is_end(self, number):
        """Whether a run ends at a word."""
        return number < len(self.texts) and END.match(self.texts[number]) is not None


def telling(places):
    """Which of the last places of a run, each its address and its word, from the end on backwards, says its exit word,
    or the line in that; None where that isn't found. What is in %o0 is followed to where it was made."""
    register = RESULT
    for number, (_, word) in enumerate(places):
        if number == 0 or word is None or not written(word) >> register & 1:
            continue
        if is_sethi(word):
            return number
        op, op3, _, first, has_immediate = fields(word)
        if op != 2 or op3 not in (OR, SHIFT):
            return None
        if op3 == OR and has_immediate and first == 0:
            return number
        register = first if has_immediate else word & 31 or first
    return None


def failing(places, number):
    """Which of such places is the branch of the test that failed, where one of a number says its line: it stands in
    the branch's slot, or behind that, or before the branch. A call has no branch, but its own place."""
    is_call = fields(places[number][1])[2] == CALLED
    for at in () if is_call else (number + 1, number - 1, number + 2):
        if 0 <= at < len(places) and places[at][1] is not None and has_slot(places[at][1]):
            return at
    return number
