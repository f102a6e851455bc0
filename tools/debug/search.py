"""What a run is searched for, in blocks of lines: places where a breakpoint is met, and accesses that are watched."""
import os
import re

from tape import BLOCK

# So many bytes of lines are looked through first: most of what is looked for is near.
NEAR = 8192
HEX = b"[0-9A-F]"
# What stands behind PC where the program's own instruction runs: nPC, no annul flag, PSR without S.
OWN = HEX + b"{8} 0 " + HEX + b"{6}[0-7]" + HEX + b" "
ANY = HEX + b"{8} [01] "


def one_of(words):
    """An expression for one of some words of eight digits, which begins with what all of them begin with."""
    texts = sorted({b"%08X" % it for it in words})
    common = os.path.commonprefix(texts)
    rest = b"|".join(it[len(common):] for it in texts)
    return common + (b"(?:" + rest + b")" if rest else b"")


class Watch:
    """A range of bytes whose accesses are watched: writes (2), reads (3), both (4)."""

    NAMES = {2: "watch", 3: "rwatch", 4: "awatch"}

    def __init__(self, kind, start, length):
        self.kind, self.start, self.length = kind, start, max(1, length)
        first, last = b"%08X" % max(0, start - 7), b"%08X" % min(0xFFFFFFFF, start + self.length - 1)
        common = os.path.commonprefix([first, last])
        digits = b"%b%b{%d}" % (common, HEX, 8 - len(common)) if len(common) < 8 else common
        self.form = re.compile(b"=(" + digits + b"):" + HEX + b"{9}:([1248])")
        self.nearby = {b"%06X" % it for it in range(int(first, 16) >> 8, (int(last, 16) >> 8) + 1)}

    def hits(self, text, found):
        """Whether an access that was found is watched."""
        is_store = text[found.start() - 1:found.start()] == b"e"
        at, size = int(found[1], 16), int(found[2])
        is_inside = at < self.start + self.length and self.start < at + size
        return is_inside and (self.kind == 4 or (self.kind == 2) == is_store)

    @property
    def told(self):
        """How a stop tells of it."""
        return f"{self.NAMES[self.kind]}:{self.start:x};"


class Search:
    """What ends a run at a place, of some breakpoints and watched ranges."""

    def __init__(self, tape, breaks, watches, turns):
        self.tape, self.watches, self.turns = tape, watches, turns
        self.breaks = re.compile(b" " + one_of(breaks) + b" " + (ANY if turns else OWN)) if breaks else None
        self.places = {b"%08X" % it for it in breaks}
        self.nearby = set().union(*(it.nearby for it in watches))

    def is_own(self, line):
        """Whether a line is a place of the program's own. A SAVE or a RESTORE that traps is shown where it is tried
        again, so that places are the same on every count of windows."""
        parts = line.split(b" ", 12)
        if len(parts) < 12 or parts[11] == b"end":
            return False
        if self.turns:
            return True
        return parts[4] == b"0" and parts[5][6] < 56 and parts[11] not in (b"trap:05", b"trap:06")

    def may_hit(self, number):
        """Whether there may be anything in a block that is looked for."""
        block = self.tape.blocks.block(number)
        return not (self.places.isdisjoint(block.places) and self.nearby.isdisjoint(block.accesses))

    def next_break(self, text, start, end):
        """Where the first line begins that a breakpoint is met at, of a part of a block; None where there is none."""
        while self.breaks and (found := self.breaks.search(text, start, end)):
            line = text.rfind(b"\n", 0, found.start()) + 1
            if self.is_own(text[line:text.find(b"\n", found.start())]):
                return line
            start = found.end()
        return None

    def last_break(self, text, start, end):
        """Where the last such line begins."""
        last = None
        for found in self.breaks.finditer(text, start, end) if self.breaks else ():
            line = text.rfind(b"\n", 0, found.start()) + 1
            if self.is_own(text[line:text.find(b"\n", found.start())]):
                last = line
        return last

    def accesses(self, text, start, end):
        """The accesses that are watched, of a part of a block: where their lines begin, and what watches them."""
        for watch in self.watches:
            for found in watch.form.finditer(text, start, end):
                if watch.hits(text, found):
                    line = text.rfind(b"\n", 0, found.start()) + 1
                    if self.turns or self.is_user(text, line):
                        yield line, watch

    @staticmethod
    def is_user(text, line):
        """Whether a line is of user mode."""
        return text[line:line + 64].split(b" ", 6)[5][6] < 56

    def forward(self, at, poll):
        """The first place behind one where a breakpoint is met, and the first access from there on that is watched,
        with its watch; each None where there is none. Where `poll` says so neither is looked for any longer."""
        number, index = divmod(at, BLOCK)
        while number < self.tape.blocks.count:
            if self.may_hit(number):
                found, seen = self.first_in(number, index, number == at // BLOCK)
                if found is not None or seen is not None:
                    return found, seen
            number, index = number + 1, 0
            if poll():
                raise InterruptedError(number * BLOCK)
        return None, None

    def first_in(self, number, index, is_first):
        """The first breakpoint that is met in a block from a line on, but not at that line in the first block, and the
        first access."""
        blocks, text = self.tape.blocks, self.tape.blocks.text(number)
        start, own = blocks.start(number, index), blocks.start(number, index + 1) if is_first else 0
        for limit in (min(start + NEAR, len(text)), len(text)):
            found = self.next_break(text, own, limit)
            seen = min(self.accesses(text, start, limit), default=None, key=lambda it: it[0])
            if found is not None or seen is not None:
                return self.placed(number, found), seen and (self.placed(number, seen[0]), seen[1])
        return None, None

    def backward(self, at, poll):
        """The last place before one where a breakpoint is met, and the last access before it, as above."""
        number, index = divmod(at, BLOCK)
        while number >= 0:
            if self.may_hit(number):
                found, seen = self.last_in(number, index)
                if found is not None or seen is not None:
                    return found, seen
            number, index = number - 1, BLOCK
            if poll():
                raise InterruptedError((number + 1) * BLOCK)
        return None, None

    def last_in(self, number, index):
        """The last breakpoint that is met in a block before a line, and the last access."""
        text, end = self.tape.blocks.text(number), self.tape.blocks.start(number, index)
        for limit in (max(0, text.rfind(b"\n", 0, max(0, end - NEAR)) + 1), 0):
            found = self.last_break(text, limit, end)
            seen = max(self.accesses(text, limit, end), default=None, key=lambda it: it[0])
            if found is not None or seen is not None:
                return self.placed(number, found), seen and (self.placed(number, seen[0]), seen[1])
        return None, None

    def placed(self, number, start):
        """The place of a line of a block by where it begins."""
        return None if start is None else number * BLOCK + self.tape.blocks.index(number, start)
