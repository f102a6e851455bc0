"""The states of a run, kept so that any turn is at hand: in blocks of lines of `inspect states`, with what each block
changes in registers and RAM.

A place is how many turns are done: the line of place n is that of turn n + 1, which tells the state before it. Blocks
are read as they are asked for, packed, and gone along both ways by their changes; within a block the lines themselves
tell the rest."""
import bisect
import collections
import concurrent.futures
import itertools
import os
import re
import signal
import threading
import zlib

# So many lines has a block, and so many lie between two states that are kept of the block in use.
BLOCK, GRAIN = 16384, 256
# So many blocks are made ahead of the one in use by other processes, where a run has more turns than these: some 100
# to 200 MB.
AHEAD, FEW = 1000, 8 * BLOCK
RAM = 1 << 20
NAMES = [f"{kind}{number}" for kind in "goli" for number in range(8)]

CHANGE = re.compile(rb" ([goli][0-7])=([0-9A-F]{8})(?=[^\n]*\n\d+ (\d\d))")
WORD = re.compile(rb" [em]([0-9A-F]{8})=([0-9A-F]{8})")
PLACE = re.compile(rb"\n\d+ \d\d ([0-9A-F]{8})")
NEARBY = re.compile(rb" (?:load|store)=([0-9A-F]{6})")
ACCESS = re.compile(r" (load|store)=([0-9A-F]{8}):([0-9A-F]{9}):(\d)")
OUTPUT, PUT = b":100000004:", re.compile(rb" store=[0-9A-F]{8}:100000004:")

Access = collections.namedtuple("Access", "stores address size")


class Turn:
    """A line of the states: what is so before the turn, and what happens in it."""

    def __init__(self, line):
        parts = line.rstrip("\n").split(" ", 12)
        self.window, self.is_annulled, self.event = int(parts[1]), parts[4] == "1", parts[11]
        self.pc, self.npc = int(parts[2], 16), int(parts[3], 16)
        self.psr, self.wim, self.tbr, self.y, self.status = (int(it, 16) for it in parts[5:10])
        self.word = None if parts[10][0] == "-" else int(parts[10], 16)
        found = ACCESS.search(line)
        self.access = found and Access(found[1] == "store", int(found[2], 16), int(found[4]))

    @property
    def is_supervisor(self):
        """Whether S is set."""
        return self.psr & 0x80 != 0


def place_of(number, window, windows):
    """Where a register lies among 8 globals and 16 registers a window: the ins of a window are the outs of the next."""
    if number < 8:
        return number
    if number < 24:
        return 16 * window + number
    return 8 + 16 * ((window + 1) % windows) + number - 24


class Places(dict):
    """The place of a register by its name and the two digits of a window, as lines have them."""

    def __init__(self, windows):
        super().__init__(((name.encode(), b"%02d" % window), place_of(number, window, windows))
                         for number, name in enumerate(NAMES) for window in range(windows))


def changes_of(text, places):
    """What lines change: words of registers by their places, and of RAM by their addresses. Behind the last line the
    begin of the next one is wanted, whose window is that of the registers."""
    registers = {places[name, window]: int(word, 16) for name, word, window in CHANGE.findall(text)}
    return registers, {int(at, 16): bytes.fromhex(word.decode()) for at, word in WORD.findall(text)}


class Block(collections.namedtuple("Block", "text registers words puts places accesses")):
    """A block: its lines, packed, what they change of registers and of RAM, how many bytes they put out, which PCs they
    have, and in which 256 bytes their accesses lie, each as digits."""


def packed(text, after, windows):
    """The block of some lines, and the begin of the line after them."""
    changes = changes_of(text + after, Places(windows))
    return Block(zlib.compress(text, 1), *changes, puts_in(text), frozenset(PLACE.findall(b"\n" + text)),
                 frozenset(NEARBY.findall(text)))


def puts_in(text):
    """How many bytes lines put out."""
    return len(PUT.findall(text)) if OUTPUT in text else 0


class Blocks:
    """The blocks of a run, read from the lines of its states: of a long run ahead of the one in use, by a thread, and
    packed by other processes; else as they are asked for."""

    def __init__(self, stream, windows, total):
        self.stream, self.windows, self.total = stream, windows, total
        self.count = total // BLOCK + 1
        self.made, self.texts, self.starts = [], collections.OrderedDict(), collections.OrderedDict()
        self.following, self.workers, self.wanted = stream.readline(), None, 0
        self.turn, self.is_over = threading.Condition(), False
        if total > FEW:
            self.workers = concurrent.futures.ProcessPoolExecutor(min(4, os.cpu_count() or 1), initializer=deaf)
            self.workers.submit(deaf)  # (which has the processes stand before there is a thread)
            threading.Thread(target=self.read_on, daemon=True).start()

    def read(self):
        """The lines of one block more; None where there are no more."""
        lines = [self.following, *itertools.islice(self.stream, BLOCK - 1)] if self.following else []
        self.following = self.stream.readline()
        return (b"".join(lines), self.following[:16], self.windows) if lines else None

    def read_on(self):
        """Has blocks made, not too many ahead of those that were asked for."""
        try:
            while len(self.made) < self.count and (work := self.read()):
                with self.turn:
                    self.made.append(self.workers.submit(packed, *work))
                    self.turn.notify_all()
                    self.turn.wait_for(lambda: self.is_over or len(self.made) < self.wanted + AHEAD)
        except (ValueError, OSError, RuntimeError):
            pass  # (the stream, or the pool, was closed)
        with self.turn:
            self.is_over = True
            self.turn.notify_all()

    def close(self):
        """Ends what reads and packs."""
        with self.turn:
            self.is_over = True
            self.turn.notify_all()
        if self.workers:
            self.workers.shutdown(wait=False, cancel_futures=True)

    def block(self, number):
        """A block by its number."""
        if self.workers:
            with self.turn:
                self.wanted = max(self.wanted, number)
                self.turn.notify_all()
                self.turn.wait_for(lambda: number < len(self.made) or self.is_over)
        while number >= len(self.made):
            work = None if self.workers else self.read()
            if work is None:
                raise EOFError("the states end before the run does")
            self.made.append(packed(*work))
        made = self.made[number]
        if not isinstance(made, Block):
            made = self.made[number] = made.result()
        return made

    def text(self, number):
        """The lines of a block, as bytes; some that were asked for by last stay unpacked."""
        if number not in self.texts:
            self.texts[number] = zlib.decompress(self.block(number).text)
            while len(self.texts) > 4:
                self.texts.popitem(last=False)
        self.texts.move_to_end(number)
        return self.texts[number]

    def begins(self, number):
        """Where each line of a block begins in its text, and where the text ends."""
        if number not in self.starts:
            lengths = map(len, self.text(number).splitlines(True))
            self.starts[number] = list(itertools.accumulate(lengths, initial=0))
            while len(self.starts) > 4:
                self.starts.popitem(last=False)
        return self.starts[number]

    def start(self, number, index):
        """Where a line of a block begins in its text; the text's end behind the last one."""
        if index == 0 or index >= BLOCK:
            return len(self.text(number)) if index else 0
        starts = self.begins(number)
        return starts[min(index, len(starts) - 1)]

    def index(self, number, start):
        """The line of a block that begins at a place of its text."""
        return bisect.bisect_left(self.begins(number), start)


def deaf():
    """Leaves Control-C to the process that these work for."""
    signal.signal(signal.SIGINT, signal.SIG_IGN)


class Tape:
    """A run that can be gone along both ways. `at` is how many turns are done."""

    def __init__(self, stream, windows, total, ram):
        first = stream.readline().decode()
        if " start" not in first:
            raise EOFError("the states don't begin")
        self.windows, self.total, self.ram = windows, total, ram
        self.blocks, self.places = Blocks(stream, windows, total), Places(windows)
        self.registers = [0] * (8 + 16 * windows)
        window = first.split(" ", 2)[1].encode()
        for item in first.split(" ")[12:]:
            name, _, word = item.strip().partition("=")
            self.registers[self.places[name.encode(), window]] = int(word, 16)
        self.number, self.index, self.befores, self.lines = 0, 0, {}, None
        self.kept, self.shown = [({}, {})], (0, ({}, {}))

    @property
    def at(self):
        """How many turns are done."""
        return self.number * BLOCK + self.index

    def go(self, at):
        """Goes to a place, whichever way."""
        number, self.index = divmod(max(0, min(at, self.total)), BLOCK)
        if number == self.number:
            return
        while self.number < number:
            self.pass_block()
        while self.number > number:
            self.number -= 1
            self.put(*self.befores[self.number])
        self.lines, self.kept, self.shown = None, [({}, {})], (0, ({}, {}))

    def pass_block(self):
        """Puts a block's changes behind what is there, and keeps what was."""
        block = self.blocks.block(self.number)
        registers, words = block.registers, block.words
        if self.number not in self.befores:
            self.befores[self.number] = ({it: self.registers[it] for it in registers},
                                         {it: bytes(self.ram[it:it + 4]) for it in words})
        self.put(registers, words)
        self.number += 1

    def put(self, registers, words):
        """Puts words into registers and RAM."""
        for place, word in registers.items():
            self.registers[place] = word
        for at, word in words.items():
            self.ram[at:at + 4] = word

    def line(self, at):
        """The line of a place."""
        number, index = divmod(at, BLOCK)
        if number != self.number:
            return self.blocks.text(number).split(b"\n", index + 1)[index].decode()
        return self.own()[index].decode()

    def own(self):
        """The lines of the block in use, without their ends."""
        if self.lines is None:
            self.lines = self.blocks.text(self.number).split(b"\n")
        return self.lines

    def turn(self, at=None):
        """What the line of a place tells; of this one where none is named."""
        return Turn(self.line(self.at if at is None else at))

    def changes(self):
        """What the lines of this block change up to here: registers by places, and words of RAM by addresses."""
        index, found = self.shown
        if index == self.index:
            return found
        lines, step = self.own(), self.index // GRAIN
        while len(self.kept) <= step:
            start = (len(self.kept) - 1) * GRAIN
            self.kept.append(self.joined(self.kept[-1], lines, start, start + GRAIN))
        start, found = step * GRAIN, self.kept[step]
        if step * GRAIN <= index < self.index:
            start, found = index, self.shown[1]
        self.shown = self.index, self.joined(found, lines, start, self.index)
        return self.shown[1]

    def joined(self, before, lines, start, end):
        """Changes, with those of further lines behind them."""
        if start == end:
            return before
        after = lines[end][:16] if end < len(lines) and lines[end] else b"0 00"
        registers, words = changes_of(b"\n".join(lines[start:end]) + b"\n" + after, self.places)
        return ({**before[0], **registers} if registers else before[0], {**before[1], **words} if words else before[1])

    def register(self, number, window):
        """The word of a register of a window."""
        if number == 0:
            return 0
        place = place_of(number, window, self.windows)
        return self.changes()[0].get(place, self.registers[place])

    def bytes_at(self, at, size):
        """Bytes of RAM, at physical addresses."""
        out, words = bytearray(self.ram[at:at + size]), self.changes()[1]
        for place in range(at & ~3, at + size, 4):
            word = words.get(place)
            if word is not None:
                for it in range(4):
                    if at <= place + it < at + size:
                        out[place + it - at] = word[it]
        return bytes(out)

    def puts_before(self, at):
        """How many bytes were put out before a place."""
        number, index = divmod(at, BLOCK)
        count = sum(self.blocks.block(it).puts for it in range(number))
        return count + puts_in(self.blocks.text(number)[:self.blocks.start(number, index)])
