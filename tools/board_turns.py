"""The turns of crates/v8_turns/stdin that user code can do, as embed/leon/suite does them on a LEON3: whole states
before and behind, for a part with any count of windows. A turn ends where the next one traps, and that trap tells what
came of it."""
import collections
import os
import struct
import sys

TOP = os.path.dirname(os.path.dirname(os.path.abspath(__file__)))
sys.path.append(f"{TOP}/tools/vectors")
from v8_model import Memory, Refused, reach

STORED = f"{TOP}/crates/v8_turns/stdin"
# `ta 0x7F`, what the next turn is where its word can be laid; the types of its trap, and of one whose fetch is refused.
TRAP, TRAP_TYPE, REFUSED = 0x91D0207F, 0xFF, 0x01
# Traps of accepted images: of windows, and of services, whose words name them.
WINDOW_TRAPS, SERVICES = ("trap=05", "trap=06"), ("trap=80", "trap=81", "trap=82")
CONTEXTS, TABLES_END = 0x1000, 0x2000
LOCALS = 8
# The first byte of addresses whose table nothing answers for: RAM of the part may.
UNANSWERED = 0x0B


def states(line):
    """A line's count of windows, its event, and its fields before and after."""
    front, back = line.split(" -> ")
    _, windows, *fields = front.split()
    event, *changes = back.split()
    before, after = ({name: int(word, 16) for name, word in (it.split("=") for it in part)}
                     for part in (fields, changes))
    return int(windows), event, before, {**before, **after}


def moved(place, word, base):
    """A word of memory, as it is where RAM begins at `base`: those of tables name places."""
    return word + (base >> 4) if place < TABLES_END and word & 3 in (1, 2) else word


class Windows:
    """The windows of a line, as those of a part with another count: the one below the turn's own, that one, and as
    many above as both have. Those that are left out, no turn that is chosen reads or writes."""

    def __init__(self, theirs, current, part):
        self.part, self.current = part, current % part
        self.places = {(current - 1 + k) % theirs: (self.current - 1 + k) % part for k in range(min(theirs, part))}

    def mask(self, wim):
        """WIM. User code never stands in an invalid window, so its own bit is 0."""
        bits = sum(1 << mine for their, mine in self.places.items() if wim >> their & 1)
        return bits & ~(1 << self.current)

    def registers(self, fields):
        """Registers by number: globals, and then outs and locals of each window."""
        found = {}
        for name, word in fields.items():
            if name[0] == "g":
                found[int(name[1:])] = word
            elif name[0] in "ol" and int(name.partition(".")[2]) in self.places:
                mine = self.places[int(name.partition(".")[2])]
                found[self.number(mine, int(name[1]) + (LOCALS if name[0] == "l" else 0))] = word
        return found

    @staticmethod
    def number(window, register):
        return 8 + 16 * window + register


def words_in(fields, ground):
    """The words of memory that a line names."""
    return {int(name[1:9], 16): fields.get(name, ground.get(int(name[1:9], 16), 0)) for name in fields
            if name[0] == "["}


def register(number, windows, before):
    """A register of the window that a line's turn is in."""
    window = ((before["psr"] & 31) + (number >= 24)) % windows
    name = f"g{number}" if number < 8 else f"{'olo'[number // 8 - 1]}{number % 8}.{window}"
    return before.get(name, 0)


def address_of(windows, before):
    """The address that a load or a store names; that of the instruction elsewhere."""
    word = before["word"]
    if word >> 30 != 3:
        return before["pc"]
    operand = word & 0xFFF | -(word & 0x1000) if word >> 13 & 1 else register(word & 31, windows, before)
    return (register(word >> 14 & 31, windows, before) + operand) & 0xFFFFFFFF


def left_out(event, before):
    """Why no user code does a turn; None where some does."""
    psr = before["psr"]
    if psr >> 7 & 1:
        return "a turn of the supervisor"
    if not psr >> 5 & 1:
        return "a turn with traps disabled"
    if before.get("annul"):
        return "an annulled slot, which is no turn of its own there"
    service = event in SERVICES and before["word"] >> 13 & 1
    if event != "ran" and event not in WINDOW_TRAPS and not service:
        return "a trap that no accepted image takes"
    return None


def behind(event, before, after):
    """PC and nPC of the trap that tells what came of a turn."""
    if event != "ran":
        return before["pc"], before["npc"]
    return (after["npc"], after["npc"] + 4 & 0xFFFFFFFF) if after.get("annul") else (after["pc"], after["npc"])


def next_fetch(pc, words, ground):
    """The type of the trap that follows a turn that ran, and the place where its word is laid, if there is one. None
    where that trap can't be foreseen."""
    if pc >> 24 == UNANSWERED:
        return None
    try:
        place, entry, _ = reach(Memory({**ground, **words}, CONTEXTS, 0), pc, "fetch", True, 4)
    except Refused as refused:
        # (RAM of the part may answer where none does here)
        return None if refused.status >> 2 & 7 == 5 else (REFUSED, None)
    return None if place in words or entry in words or place < TABLES_END else (TRAP_TYPE, place)


def listed(pairs):
    """A count, and as many pairs of words."""
    return struct.pack(">I", len(pairs)) + b"".join(struct.pack(">2I", *it) for it in sorted(pairs.items()))


class Turn:
    """A line, as a part with so many windows does it. `reason` is why it is left out; None where it isn't. `program` is
    the first byte of the addresses where the program lies that does it."""

    def __init__(self, line, ground, part, program):
        theirs, self.event, self.before, self.after = states(line)
        self.ground, self.windows = ground, Windows(theirs, self.before["psr"] & 31, part)
        self.reason = left_out(self.event, self.before)
        if self.reason is None:
            self.pc, self.npc = behind(self.event, self.before, self.after)
            self.trap, self.laid = self.trap_behind() or (None, None)
            if self.trap is None:
                self.reason = "what comes next can't be laid or foreseen"
            elif program in {it >> 24 for it in (self.before["pc"], self.pc, address_of(theirs, self.before))}:
                self.reason = "an address at which the program lies"

    def trap_behind(self):
        if self.event != "ran":
            return int(self.event.partition("=")[2], 16), None
        return next_fetch(self.pc, words_in(self.after, self.ground), self.ground)

    def trap_window(self):
        """The window of the trap that tells what came."""
        window = self.windows.places[self.after["psr"] & 31]
        return (window - 1) % self.windows.part if self.event == "ran" else window

    def registers(self):
        """Those before the turn, and those that are others behind it. The window below the turn's own has PC and nPC,
        as the trap's window has behind it."""
        below = (self.windows.current - 1) % self.windows.part
        before = self.windows.registers(self.before)
        changed = {name: word for name, word in self.after.items() if self.before.get(name, 0) != word}
        after = self.windows.registers(changed)
        for found, window, places in ((before, below, (self.before["pc"], self.before["npc"])),
                                      (after, self.trap_window(), (self.pc, self.npc))):
            first = self.windows.number(window, LOCALS + 1)
            found.update({first: places[0], first + 1: places[1]})
        return before, after

    def memory(self, base):
        """The words of memory that it names, and the one that comes next: place, before, behind."""
        before, after = words_in(self.before, self.ground), words_in(self.after, self.ground)
        if self.laid is not None:
            before[self.laid] = after[self.laid] = TRAP
        return [(it, moved(it, before.get(it, self.ground.get(it, 0)), base), moved(it, after[it], base))
                for it in sorted(after)]

    def data(self, number, base):
        """As words: its number, PSR, WIM and Y before and behind it, and the trap's type; registers before it, those
        that are others behind it, and words of memory."""
        before, after, current = self.before, self.after, self.windows.current
        below, words = (current - 1) % self.windows.part, self.memory(base)
        head = (number, before["psr"] & 0xF00000 | 0xF80 | below, self.windows.mask(before["wim"]), before["y"],
                after["psr"] & 0xF00000 | 0x80 | self.trap_window(), self.windows.mask(after["wim"]), after["y"],
                self.trap << 4)
        return (struct.pack(">8I", *head) + b"".join(map(listed, self.registers()))
                + struct.pack(">I", len(words)) + b"".join(struct.pack(">3I", *it) for it in words))


def turns_data(part, base, program):
    """The count of windows, the ground, moved, and the turns that are chosen, as words; how many these are, and how
    many are left out, by reason."""
    with open(STORED, encoding="ascii") as file:
        lines = file.read().splitlines()
    ground = {int(it[8:16], 16): int(it[18:], 16) for it in lines if it.startswith("ground")}
    turns = [Turn(it, ground, part, program >> 24) for it in lines if it.startswith("turn")]
    found = [it.data(number, base) for number, it in enumerate(turns) if it.reason is None]
    data = struct.pack(">I", part) + listed({place: moved(place, word, base) for place, word in ground.items()})
    reasons = collections.Counter(it.reason for it in turns if it.reason)
    return data + struct.pack(">I", len(found)) + b"".join(found), len(found), reasons
