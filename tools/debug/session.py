"""A run as gdb sees it: places of the program's own, registers, memory by the program's addresses, and stops."""
from loaded import CODE, physical
from search import Search, Watch

# Signals by trap type, as gdb numbers them.
SIGNALS = {0x01: 11, 0x02: 4, 0x03: 4, 0x04: 8, 0x07: 10, 0x09: 11, 0x0A: 8, 0x24: 4, 0x2A: 8}
TRAP, INTERRUPT = 5, 2
PC, NPC = 68, 69
# Not so many turns stand behind the place where the end of a run is told.
MOST_BEHIND = 10_000
# Registers that a stop tells at once: %sp, %fp, PC and nPC.
EXPEDITED = (14, 30, PC, NPC)


class Session:
    """What gdb asks of a run. A step is an instruction of the program, unless turns are asked for."""

    def __init__(self, tape, loaded, ending):
        self.tape, self.loaded, self.ending = tape, loaded, ending
        self.turns, self.raw = False, False  # whether each turn is a step; whether the stack is shown as it lies in RAM
        self.breaks, self.watches = {}, []
        self.shown, self.text = 0, bytearray()  # how many bytes of output were told; what is to be told
        self.is_told, self.final = False, None  # whether the end was told; the place where it is
        self.poll = lambda: False

    # ---- places

    def searched(self):
        """What the breakpoints and watched ranges of now are searched by."""
        return Search(self.tape, self.breaks, self.watches, self.turns)

    def is_own(self, at, search):
        """Whether a place is one that is stopped at."""
        return search.is_own(self.tape.line(at).encode())

    def next_own(self, at, search):
        """The first place from one on that is stopped at; None where the run ends before."""
        while at < self.tape.total:
            if self.is_own(at, search):
                return at
            at += 1
        return None

    def last_own(self, at, search):
        """The last place up to one that is stopped at; None where there is none."""
        while at >= 0:
            if self.is_own(at, search):
                return at
            at -= 1
        return None

    def last_place(self):
        """The place where the run's end is told: its last one, or the branch that leads to the end behind a test that
        failed, since tests share that end."""
        if self.final is None or self.final[0] != self.turns:
            search = self.searched()
            last = self.last_own(self.tape.total - 1, search) or 0
            self.final = self.turns, (self.failing(last, search) if self.ending.is_test else last)
        return self.final[1]

    def failing(self, last, search):
        """The place of the test that led to a run's last place; that place where it isn't near."""
        places = [last]
        while len(places) < self.ending.behind and (before := self.last_own(places[-1] - 1, search)) is not None:
            places.append(before)
        turns = map(self.tape.turn, places)
        return places[self.ending.look([(it.pc, it.word) for it in turns])]

    def is_behind(self, place):
        """Whether a place stands behind the one where the end is told."""
        return place > self.tape.total - MOST_BEHIND and place > self.last_place()

    # ---- going

    def step(self):
        """Goes on by one instruction."""
        search, start = self.searched(), self.tape.at
        place = self.next_own(start + 1, search)
        if place is None or self.is_behind(place):
            return self.end(start)
        seen = self.first_seen(search, start, place)
        return self.stopped(place, seen or self.told_break(place))

    def first_seen(self, search, start, end):
        """How a stop tells of the first watched access between two places; None where there is none."""
        for at in range(start, end):
            text = (self.tape.line(at) + "\n").encode()
            found = next(search.accesses(text, 0, len(text)), None) if self.watches else None
            if found:
                return found[1].told
        return None

    def told_break(self, place):
        """How a stop at a place tells of its breakpoint; nothing where none is there."""
        kind = self.breaks.get(self.tape.turn(place).pc)
        return f"{kind}:;" if kind else ""

    def go_on(self):
        """Goes on to a breakpoint, a watched access or the end."""
        search, start = self.searched(), self.tape.at
        if start > self.tape.total - MOST_BEHIND and start >= self.last_place():
            return self.end(start)
        try:
            met, seen = search.forward(start, self.poll)
        except InterruptedError as stop:
            return self.interrupted(self.next_own(stop.args[0], search))
        behind = self.next_own(seen[0] + 1, search) if seen else None
        if behind is not None and (met is None or behind <= met):
            return self.stopped(behind, seen[1].told)
        if met is not None and not self.is_behind(met):
            return self.stopped(met, self.told_break(met))
        return self.end(start)

    def step_range(self, low, high):
        """Steps until PC is outside of a range."""
        while True:
            told = self.step()
            if not told.startswith("T05t") or not low <= self.tape.turn().pc < high:
                return told

    def step_back(self):
        """Goes back by one instruction."""
        search, start = self.searched(), self.tape.at
        place = self.last_own(start - 1, search)
        if place is None:
            return self.begun()
        seen = self.last_seen(search, place, start)
        return self.stopped(place, seen or self.told_break(place))

    def last_seen(self, search, start, end):
        """As `first_seen`, of the last such access."""
        for at in range(end - 1, start - 1, -1):
            told = self.first_seen(search, at, at + 1)
            if told:
                return told
        return None

    def go_back(self):
        """Goes back to a breakpoint, a watched access or the begin."""
        search, start = self.searched(), self.tape.at
        try:
            met, seen = search.backward(start, self.poll)
        except InterruptedError as stop:
            return self.interrupted(self.last_own(stop.args[0], search))
        before = self.last_own(seen[0], search) if seen else None
        if before is not None and (met is None or before >= met):
            return self.stopped(before, seen[1].told)
        return self.begun() if met is None else self.stopped(met, self.told_break(met))

    def begun(self):
        """A stop where the run begins."""
        self.tape.go(self.next_own(0, self.searched()) or 0)
        return self.stop(TRAP, "replaylog:begin;")

    def interrupted(self, place):
        """A stop in between, which was asked for."""
        self.tape.go(place or 0)
        return self.stop(INTERRUPT)

    def stopped(self, place, why=""):
        """A stop at a place."""
        self.tape.go(place)
        self.say_output()
        return self.stop(TRAP, why)

    def end(self, start):
        """The last place of the program's own: told with its cause; from there on the run is over."""
        if self.is_told and start >= self.last_place():
            word = self.ending.word
            return f"X{self.signal():02x}" if word is None else f"W{word:x}"
        self.is_told = True
        self.tape.go(self.last_place())
        self.say_output(True)
        signal, told = self.cause()
        self.text += told.encode()
        return self.stop(signal, "replaylog:end;" if signal == TRAP else "")

    def begin(self):
        """Goes to the first place, as if nothing were told."""
        self.tape.go(self.next_own(0, self.searched()) or 0)
        self.is_told, self.shown = False, 0

    # ---- the end

    def signal(self):
        """The signal that the run's end comes as."""
        return self.cause()[0]

    def cause(self):
        """The signal and the words of the run's end."""
        ending, total = self.ending, self.tape.total
        if ending.word is not None:
            told = ending.told() or f"exit word {ending.word:08X}"
            return ending.signal, f"\n[{told}, after {total} turns]\n"
        if ending.trap is not None:
            told = f"trap {ending.trap:02X}, which no handler serves"
            return SIGNALS.get(ending.trap, TRAP), f"\n[{told}, after {total} turns]\n"
        return TRAP, f"\n[the limit: the run would go on behind turn {total}: --limit asks for more]\n"

    def say_output(self, to_end=False):
        """Has the console get what was put out up to here."""
        count = len(self.ending.output) if to_end else self.tape.puts_before(self.tape.at)
        if count > self.shown:
            self.text += self.ending.output[self.shown:count]
            self.shown = count

    def stop(self, signal, why=""):
        """A stop as a packet tells it."""
        told = "".join(f"{number:02x}:{self.register(number)};" for number in EXPEDITED)
        return f"T{signal:02x}{why}thread:1;{told}"

    # ---- registers: g0 to i7, f0 to f31, y psr wim tbr pc npc fsr csr, then turn (64 bits) and the fault status

    def register(self, number):
        """A register in hexadecimal digits, as gdb numbers them."""
        turn = self.tape.turn()
        if number < 32:
            return f"{self.tape.register(number, turn.window):08x}"
        if number < 64 or number in (70, 71):
            return "xxxxxxxx"
        if number == 72:
            return f"{self.tape.at:016x}"
        states = {64: turn.y, 65: turn.psr, 66: turn.wim, 67: turn.tbr, PC: turn.pc, NPC: turn.npc, 73: turn.status}
        return f"{states[number]:08x}"

    # ---- memory

    def read(self, address, size):
        """Bytes at the program's addresses, up to the first one that it has none at."""
        out = bytearray()
        while len(out) < size:
            at = (address + len(out)) & 0xFFFFFFFF
            place = physical(self.tape.ram, at)
            if place is None:
                break
            out += self.tape.bytes_at(place, min(size - len(out), 4096 - at % 4096))
        if not self.raw:
            self.lay_windows(address, out)
            self.disguise(address, out)
        return bytes(out)

    @staticmethod
    def disguise(address, out):
        """`ta 1`, the service that gets a byte, is the word that gdb itself writes for a breakpoint on SPARC: where
        it reads that it takes it for one that stands there for good, writes PC to pass it, and never comes back past
        it. With bit 29 set, which nothing looks at, it is the same instruction, and the same text in a listing."""
        for at in range(-address % 4, len(out) - 3, 4):
            if CODE <= address + at < 0x80000 and out[at:at + 4] == b"\x91\xd0\x20\x01":
                out[at] = 0xB1

    def lay_windows(self, address, out):
        """Lays the save areas of the windows that are in registers over the stack, as if they were stored: gdb looks
        for callers there."""
        turn = self.tape.turn()
        if turn.is_supervisor or not 0xC0000 <= address < 0x100000:
            return
        window, windows = turn.window, self.tape.windows
        while not turn.wim >> window & 1:
            pointer = self.tape.register(14, window)
            if pointer < address + len(out) and address < pointer + 64:
                area = b"".join(self.tape.register(16 + it, window).to_bytes(4, "big") for it in range(16))
                first, last = max(address, pointer), min(address + len(out), pointer + 64)
                out[first - address:last - address] = area[first - pointer:last - pointer]
            window = (window + 1) % windows
            if window == turn.window:
                break

    # ---- breakpoints and watched ranges

    def point(self, is_set, kind, address, size):
        """Sets a breakpoint or a watched range, or takes it away; says whether there is such a kind."""
        if kind in (0, 1):
            if is_set:
                self.breaks[address] = "hwbreak" if kind else "swbreak"
            else:
                self.breaks.pop(address, None)
            return True
        if kind not in Watch.NAMES:
            return False
        same = [it for it in self.watches if (it.kind, it.start, it.length) == (kind, address, max(1, size))]
        if is_set:
            self.watches.append(Watch(kind, address, size))
        elif same:
            self.watches.remove(same[0])
        return True

    # ---- for `monitor`

    def goto(self, at):
        """Goes to the place after so many turns, or to the last one before it that is stopped at."""
        at = max(0, min(at, self.last_place() if not self.turns else self.tape.total - 1))
        search = self.searched()
        place = self.last_own(at, search)
        self.tape.go(self.next_own(at, search) if place is None else place)

    def goto_turn(self, at):
        """Goes to the place after so many turns, whatever it is; each turn is a step from now on."""
        self.turns = True
        self.tape.go(max(0, min(at, self.tape.total - 1)))

    def ring(self):
        """The windows with their registers, in lines."""
        turn, lines = self.tape.turn(), []
        for window in range(self.tape.windows):
            marks = ("CWP " if window == turn.window else "") + ("WIM" if turn.wim >> window & 1 else "")
            for name, first in (("outs", 8), ("locals", 16)):
                words = " ".join(f"{self.tape.register(it, window):08X}" for it in range(first, first + 8))
                head = f"window {window:2} {marks:7}" if name == "outs" else " " * 17
                lines.append(f"{head} {name:6} {words}")
        return lines
