"""Which registers hold at a word of an image what the compiler's code has in them there.

./fit keeps what is still to be read, and no more: a register whose value is done with becomes that of a function that
was made a part of this one, or a test's. The compiler's debug information goes on telling it as a variable. So a
register is told at a word only where one of two things shows that it holds what it is said to:

- it is read later on, by the word of a compiler's instruction that reads it, before anything writes to it; or
- it was read or written so before, and on no way to this word has anything but such a word written to it, nor the
  compiler's code without a word of the image's.

`rows` is, of each word, the address in the compiler's code of what it comes from."""
import bisect

from effects import (ALL, ALWAYS, GLOBALS, INS, LOCALS, OUTS, RESTORE, SAVE, bit, condition, displacement, fields,
                     has_slot, is_annulling, is_branch, is_call, is_jump, is_sethi, is_store, read, written)
from loaded import CODE

# So many instructions of the compiler's are gone through from a word to the next one.
FAR = 64
# So far before a branch stands what ./fit moves to its slot.
NEAR = 8


def is_same(word, theirs):
    """Whether a word does what an instruction of the compiler's does, but for addresses: where the result goes and
    what it is worked out from are the same."""
    if word == theirs:
        return True
    (op, op3, rd, rs1, by_number), other = fields(word), fields(theirs)
    if op == 0:
        return is_sethi(word) and is_sethi(theirs) and rd == other[2]
    if op == 3:
        return (op, op3, rd) == other[:3]
    return op == 2 and by_number == 1 and (op, op3, rd, rs1, by_number) == other and op3 == 2


class Way:
    """A way from a word to another one: over a real call, and which way of a branch it is, if it is one's."""

    def __init__(self, start, end, is_taken=None, is_over=False):
        self.start, self.end, self.is_taken, self.is_over = start, end, is_taken, is_over


class Holding:
    """What holds at each word of an image. `theirs` gives a word of the compiler's code by its address, `starts` are
    the addresses of its functions, `blocks` the numbers of the words that blocks begin with."""

    def __init__(self, words, rows, theirs, starts, blocks):
        self.words, self.rows, self.theirs, self.starts = words, list(rows), theirs, sorted(starts)
        self.blocks, self.behind, self.imaged = blocks, {}, set()
        self.branches = {number + 1: number for number, it in enumerate(words) if has_slot(it)}
        self.own = [False] * len(words)
        self.stores = {}  # word of a slot to the row of the store in it
        self.find_rows()
        self.ways = [it for number in range(len(words)) for it in self.ways_of(number)]
        self.done = self.find_done()
        self.kills = [self.killed(it) for it in self.ways]
        self.later = self.find_later()
        self.holds = self.find_holds()
        self.hide_moved()

    # ---- words and instructions

    def find_rows(self):
        """Finds the words that are the compiler's own, and what stands in slots."""
        for number, word in enumerate(self.words):
            branch, row = self.branches.get(number), self.rows[number]
            if branch is not None:
                row = self.slot_row(branch, word)
                self.own[number] = row is not None
                if row is not None and is_store(word):
                    self.stores[number] = row
                self.rows[number] = self.rows[branch]
            elif has_slot(word) and number in self.blocks and not is_call(self.theirs(row or 0) or 0):
                self.rows[number] = None  # what ./fit tells of such a word is the line of the block before
            elif row is not None:
                self.own[number] = is_same(word, self.theirs(row) or 0)
                self.imaged.add(row)

    def slot_row(self, branch, word):
        """The instruction in the compiler's code of what stands in the slot of a branch, which is one before it."""
        row = self.rows[branch]
        for at in range(row, row - 4 * NEAR, -4) if row is not None else ():
            instruction = self.theirs(at)
            if instruction is None or at != row and has_slot(instruction):
                break
            if is_same(word, instruction) and word != 0x01000000:
                return at
        return None

    def ways_of(self, number):
        """The ways from a word."""
        word, branch = self.words[number], self.branches.get(number)
        if branch is not None:
            return self.ways_behind(number, branch)
        if is_branch(word):
            ways = []
            if not (is_annulling(word) and condition(word) == ALWAYS):
                ways.append(Way(number, number + 1))
            elif self.target(number) is not None:
                ways.append(Way(number, self.target(number), True))
            if is_annulling(word) and condition(word) != ALWAYS:
                ways.append(Way(number, number + 2, False))
            return ways
        return [Way(number, number + 1)] if number + 1 < len(self.words) else []

    def ways_behind(self, slot, branch):
        """The ways from the slot of a branch."""
        word, following = self.words[branch], slot + 1 < len(self.words)
        if is_jump(word):
            return []
        if is_call(word):
            return [Way(slot, slot + 1, None, True)] if following else []
        ways, target = [], self.target(branch)
        if condition(word) and target is not None:
            ways.append(Way(slot, target, True))
        if condition(word) != ALWAYS and not is_annulling(word) and following:
            ways.append(Way(slot, slot + 1, False))
        return ways

    def target(self, number):
        """The number of the word that a branch goes to."""
        to = number + displacement(self.words[number]) // 4
        return to if 0 <= to < len(self.words) else None

    def function(self, row):
        """The number of the function of the compiler's that an address is in."""
        return bisect.bisect_right(self.starts, row)

    # ---- ways of the compiler's code

    def killed(self, way):
        """The registers that the compiler's code writes on a way, without a word of the image's; None where the way
        isn't one of a function's own."""
        start, end = self.rows[way.start], self.rows[way.end]
        if start is None or end is None or self.function(start) != self.function(end):
            return None
        if self.is_operation(way.start, SAVE) or self.is_operation(way.start, RESTORE):
            return None
        branch, instruction = self.branches.get(way.start, way.start), self.theirs(start)
        is_done = way.start in self.done or self.own[way.start] and way.start == branch
        if start == end and not (is_done and self.is_round(way)):
            return 0
        first = self.first_steps(start, instruction, self.words[branch], way.is_taken)
        found = self.gone_through(first, end)
        return found if found is None or is_done or instruction is None else found | written(instruction)

    @staticmethod
    def is_round(way):
        """Whether a way leads back, as from an instruction's last word to its first one."""
        return way.end <= way.start

    def first_steps(self, row, instruction, word, is_taken):
        """Where the compiler's code may go from an instruction on, which a word of the image stands for."""
        steps = self.steps_from(row, instruction)
        if len(steps) == 2 and is_taken is not None and is_branch(word):
            if condition(word) == condition(instruction):
                return steps[:1] if is_taken else steps[1:]
            if condition(word) == condition(instruction) ^ 8:
                return steps[1:] if is_taken else steps[:1]
        return steps

    @staticmethod
    def steps_from(row, instruction):
        """Where the compiler's code may go from an instruction on: where a branch goes to first."""
        if instruction is None or is_jump(instruction):
            return []
        if is_call(instruction):
            return [row + 8]
        if is_branch(instruction):
            taken, following = row + displacement(instruction), row + 8
            if condition(instruction) == ALWAYS:
                return [taken]
            return [taken, following] if condition(instruction) else [following]
        return [row + 4]

    def gone_through(self, first, end):
        """The registers that the compiler's code writes from some instructions on before another one; None where it
        doesn't come there. Behind a branch that no word stands for, only such instructions are gone through."""
        open_ways, found, reached, seen = [(it, len(first) == 1) for it in first], 0, False, set()
        while open_ways and len(seen) < FAR:
            row, is_sure = open_ways.pop()
            if row == end:
                reached = True
                continue
            instruction = self.theirs(row)
            if row in seen or instruction is None or not is_sure and row in self.imaged:
                continue
            if fields(instruction)[:2] in ((2, SAVE), (2, RESTORE)):
                continue
            seen.add(row)
            found |= written(instruction) | (OUTS | GLOBALS if is_call(instruction) else 0)
            steps = self.steps_from(row, instruction)
            open_ways += [(it, is_sure and len(steps) == 1) for it in steps]
        return found if reached and not open_ways else None

    # ---- what holds

    def find_done(self):
        """The words behind the compiler's own one of the same instruction: what that writes, they have already."""
        done, open_words = set(), [number for number, it in enumerate(self.own) if it and number not in self.branches]
        for way in self.ways:
            self.behind.setdefault(way.start, []).append(way)
        while open_words:
            number = open_words.pop()
            for way in self.behind.get(number, ()):
                if self.rows[way.end] == self.rows[number] and way.end not in done and not self.is_round(way):
                    done.add(way.end)
                    open_words.append(way.end)
        return done

    def evidence(self, number):
        """The registers that a word reads as the compiler's instruction does: they hold what that has there."""
        word, row = self.words[number], self.rows[number]
        if number in self.branches:
            row = self.slot_row(self.branches[number], word)
        instruction = None if row is None else self.theirs(row)
        if instruction is None or number in self.done:
            return 0
        if is_call(instruction):  # what is kept over a call, and what is handed over
            return read(word) & (LOCALS | INS | OUTS) if is_store(word) or fields(word)[:2] == (2, 2) else 0
        results = bit(24, 2) if fields(instruction)[:2] == (2, RESTORE) else 0
        return read(word) & (read(instruction) | results)

    def find_later(self):
        """By word, the registers that are read later on as the compiler's code reads them."""
        proofs = [self.evidence(it) for it in range(len(self.words))]
        before, later = {}, list(proofs)
        for way, kill in zip(self.ways, self.kills):
            if kill is not None or self.is_operation(way.start, SAVE):
                before.setdefault(way.end, []).append(way)
        open_words = list(range(len(self.words)))
        while open_words:
            number = open_words.pop()
            for way in before.get(number, ()):
                found = self.asked_before(way, later[number])
                if found & ~later[way.start]:
                    later[way.start] |= found
                    open_words.append(way.start)
        return later

    def asked_before(self, way, registers):
        """The registers that are read later on behind a way as they are before it: a SAVE's outs become ins."""
        if self.is_operation(way.start, SAVE):
            return registers & GLOBALS | registers >> 16 & OUTS
        return registers & ((LOCALS | INS) if way.is_over else ALL) & ~written(self.words[way.start])

    def is_operation(self, number, op3):
        """Whether a word is such an operation."""
        return fields(self.words[number])[:2] == (2, op3)

    def find_holds(self):
        """By word, the registers that hold what the compiler's code has in them there."""
        holds, into = [ALL] * len(self.words), {}
        for way, kill in zip(self.ways, self.kills):
            into.setdefault(way.end, []).append((way, kill))
        open_words = set(range(len(self.words)))
        while open_words:
            number = open_words.pop()
            found = ALL if number in into else 0
            for way, kill in into.get(number, ()):
                found &= 0 if kill is None else self.held_behind(way, holds[way.start]) & ~kill
            found |= self.later[number]
            if found != holds[number]:
                holds[number] = found
                open_words.update(way.end for way in self.behind.get(number, ()))
        return [self.told_at(number, it) for number, it in enumerate(holds)]

    def held_behind(self, way, held):
        """What holds behind a word, where some registers do before it."""
        number = way.start
        held &= ~written(self.words[number])
        if self.own[number]:
            held |= written(self.words[number])
        return held & (LOCALS | INS) if way.is_over else held

    def told_at(self, number, held):
        """What is told at a word: of a call's slot what is there behind it too, since callers are looked at there."""
        if number in self.done and self.rows[number] is not None:
            held &= ~written(self.theirs(self.rows[number]) or 0)
        branch = self.branches.get(number)
        if branch is not None and is_call(self.words[branch]):
            held &= ~written(self.words[number])
        return held if self.rows[number] is not None else 0

    def hide_moved(self):
        """What a slot writes isn't there yet at the words before it whose instructions stand behind the slot's one in
        the compiler's code."""
        for slot, branch in self.branches.items():
            row, number = self.slot_row(branch, self.words[slot]), slot
            while row is not None and number >= 0 and self.rows[number] is not None \
                    and row < self.rows[number] < row + 4 * FAR:
                self.holds[number] &= ~written(self.words[slot])
                if number in self.blocks:
                    break
                number -= 1

    def has(self, number, registers):
        """Whether some registers hold at a word."""
        return not sum(map(bit, registers)) & ~self.holds[number]
