"""The board with an image loaded, and the lines of its states: a model in Python, written from docs/machine/profile.md
and docs/machine/image.md, apart from the program. `tools/vectors/make --traces` makes vectors/traces with it."""
import struct

from v8_model import WORD, Cpu, Memory, Turn

DEVICE = 0x100000000
NOP = 0x01000000
# The trap table and the window handlers (docs/machine/profile.md, "Vectors and handlers"); SHIFT is N - 1.
VECTORS = {
    0x05: "A7500000 108003EB A8100001 01000000",
    0x06: "A7500000 10800407 A92CE001 01000000",
    0x80: "273C0040 F024E008 01000000 01000000",
    0x81: "273C0040 F004E000 81C48000 81CCA004",
    0x82: "273C0040 F024E004 81C48000 81CCA004",
}
OTHER = "273C0040 C024E00C 01000000 01000000"
OVERFLOW = ("8334E001 AB2CE000 82154001 81E00000 81904000 01000000 01000000 01000000 E03BA000 E43BA008 E83BA010 "
            "EC3BA018 F03BA020 F43BA028 F83BA030 FC3BA038 81E80000 82100014 81C44000 81CC8000")
UNDERFLOW = ("AB34E000 A8154014 81950000 01000000 01000000 01000000 81E80000 81E80000 E01BA000 E41BA008 E81BA010"
             " EC1BA018 F01BA020 F41BA028 F81BA030 FC1BA038 81E00000 81E00000 81C44000 81CC8000")
TABLES = {0x2000: 0x241, 0x2400: 0x281, 0x27C0: 0x291, 0x2804: 0x2A1, 0x2808: 0x2B1, 0x280C: 0x2C1, 0x2900: 0x2D1,
          0x2D00: 0x1A, 0x2D04: 0x11A, 0x2D40: 0x1000001E}


def words_in(text):
    return [int(it, 16) for it in text.split()]


class Image:
    """What a board is loaded with: words, regions of data as (bytes, whether they may be written), pages of stack."""

    def __init__(self, data):
        magic, version, _, count = struct.unpack_from(">4sHHI", data)
        assert magic == b"SBX8" and 1 <= version <= 3
        if version == 1:
            size, self.stack, _ = struct.unpack_from(">IHH", data, 12)
            regions, at = [(size, 1)] if size else [], 20
        else:
            number, self.stack, _ = struct.unpack_from(">HHH", data, 12)
            regions, at = [struct.unpack_from(">IH", data, 18 + 6 * it) for it in range(number)], 18 + 6 * number
        self.words = struct.unpack_from(f">{count}I", data, at)
        at += 4 * count
        self.regions = []
        for size, kind in regions:
            self.regions.append((data[at : at + size], kind))
            at += size


class Bus(Memory):
    """RAM and the device."""

    def __init__(self, words, table, context, given):
        super().__init__(words, table, context)
        self.given, self.output, self.stop = list(given), bytearray(), None

    def answers(self, place, size, how):
        known = {"read": (DEVICE,), "write": (DEVICE + 4, DEVICE + 8, DEVICE + 12)}
        return super().answers(place, size, how) or size == 4 and place in known.get(how, ())

    def load(self, place, size):
        if place < DEVICE:
            return super().load(place, size)
        return self.given.pop(0) if self.given else WORD

    def store(self, place, size, value):
        if place < DEVICE:
            super().store(place, size, value)
        elif place == DEVICE + 4:
            self.output.append(value & 0xFF)
        else:
            self.stop = f"exit:{value:08X}" if place == DEVICE + 8 else "stopped"


class Board(Bus):
    """RAM as it is loaded, and the device."""

    def __init__(self, windows, image, given):
        super().__init__(TABLES, 0x2000, 0, given)
        for tt in range(256):
            self.put(16 * tt, words_in(VECTORS.get(tt, OTHER)))
        self.put(0x1000, [NOP] * 0x400)
        for place, text, at in ((0x1000, OVERFLOW, 1), (0x1080, UNDERFLOW, 0)):
            words = words_in(text)
            words[at] |= windows - 1
            self.put(place, words)
        self.put(0x10000, image.words)
        for page in range((4 * len(image.words) + 4095) // 4096):
            self.words[0x2A00 + 4 * page] = 0x1012 + 0x100 * page
        self.put_regions(image.regions)
        for page in range(16 - image.stack, 16):
            self.words[0x2C00 + 4 * (48 + page)] = 0x9006 + 0x100 * page

    def put(self, place, words):
        self.words.update((place + 4 * it, word) for it, word in enumerate(words))

    def put_regions(self, regions):
        page = 0
        for data, kind in regions:
            self.put(0x50000 + 4096 * page, struct.unpack(f">{len(data) // 4}I", data))
            for it in range(page, page + (len(data) + 4095) // 4096):
                self.words[0x2B00 + 4 * it] = (0x5006 if kind else 0x5002) + 0x100 * it
            page += (len(data) + 4095) // 4096


def booted(windows):
    cpu = Cpu(windows)
    cpu.et, cpu.wim, cpu.base, cpu.pc, cpu.npc = 1, 2, 0xF0000000, 0x40000, 0x40004
    cpu.set_reg(14, 0xFFFC0)
    return cpu


NAMES = [f"{kind}{number}" for kind in "goli" for number in range(8)]


class States:
    """The lines of the states of a run (docs/machine/profile.md)."""

    def __init__(self, cpu, board):
        self.cpu, self.board, self.turns = cpu, board, 0
        self.known = Cpu(cpu.n)

    def head(self, number, word, event, annul):
        cpu = self.cpu
        state = " ".join(f"{it:08X}" for it in (cpu.psr(), cpu.wim, cpu.tbr(), cpu.y, cpu.status))
        return (f"{number} {cpu.cwp:02d} {cpu.pc:08X} {cpu.npc:08X} {annul} {state}"
                f" {'--------' if word is None else f'{word:08X}'} {event}")

    def registers(self):
        """The registers of the window that hold another word than was told of them."""
        cpu, known, told = self.cpu, self.known, []
        known.cwp = cpu.cwp
        for number in range(1, 32):
            if cpu.reg(number) != known.reg(number):
                known.set_reg(number, cpu.reg(number))
                told.append(f"{NAMES[number]}={cpu.reg(number):08X}")
        return told

    def memory(self, turn, before):
        """Page entries, then words that a store left, which hold another word than before."""
        now, entries = self.board.words, list(dict.fromkeys(turn.entries))
        stored = []
        if turn.access and turn.access[3] and turn.access[1] < DEVICE:
            first = turn.access[1] & ~3
            stored = [it for it in range(first, first + max(turn.access[2], 4), 4) if it not in entries]
        return [f"{kind}{place:08X}={now[place]:08X}" for kind,
                places in (("e", entries), ("m", stored)) for place in places
                if now.get(place, 0) != before.get(place, 0)]

    def lines(self, limit):
        yield " ".join([self.head(0, None, "start", "-"), *self.registers()])
        while self.turns < limit and self.board.stop is None and self.cpu.error is None:
            self.turns += 1
            yield self.turn()
        yield self.head(self.turns, None, "end", "-")

    def turn(self):
        before, head = dict(self.board.words), self.head(self.turns, None, "", int(self.cpu.annul)).split()
        turn = Turn(self.cpu, self.board)
        head[10] = "--------" if turn.word is None else f"{turn.word:08X}"
        event = turn.event[0] if len(turn.event) == 1 else f"{turn.event[0]}:{turn.event[1]:02X}"
        items = []
        if turn.access:
            va, pa, size, stores = turn.access
            items = [f"{'store' if stores else 'load'}={va:08X}:{pa:09X}:{size}"]
        return " ".join([*head, self.board.stop or event, *items, *self.registers(), *self.memory(turn, before)])


def image_states(windows, image, given):
    """The lines of an image's run on an input."""
    return States(booted(windows), Board(windows, image, given))
