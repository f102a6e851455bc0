"""Runs of images in QEMU's LEON3, user turn by user turn, beside what `inspect states` tells of the sandbox machine."""
import leon
from qemu import NPC, PC, PSR, TBR, WIM, Ended, Y

SYSTEM = 0xF0000000
# What both have of PSR but PIL: codes, S, PS, ET, CWP.
PSR_BITS = 0x00F000FF
# The columns of a line before its items.
COLUMNS = 12
STACK = 14
NAMES = ["PC", "nPC", "PSR", "WIM", "TBR", "Y", *(f"{kind}{it}" for kind in "goli" for it in range(8))]


class Told:
    """What lines of `inspect states` have told: registers of all windows, and words of RAM."""

    def __init__(self, windows):
        self.windows, self.globals, self.words = windows, [0] * 8, {}
        self.own = [[0] * 16 for _ in range(windows)]

    def take(self, window, item):
        """Takes an item in; those of accesses and page entries are left."""
        name, word = item.split("=", 1)
        if name[0] == "m":
            self.words[int(name[1:], 16)] = int(word, 16)
        elif name[0] == "g":
            self.globals[int(name[1])] = int(word, 16)
        elif name[0] in "oli" and name[1:].isdigit():
            self.own[(window + (name[0] == "i")) % self.windows][int(name[1]) + 8 * (name[0] == "l")] = int(word, 16)

    def registers(self, window):
        """The 32 of a window."""
        return self.globals + self.own[window] + self.own[(window + 1) % self.windows][:8]


def is_users(row):
    """Whether a line is of a turn of user code. A slot that is annulled is no turn of QEMU's."""
    return row[4] == "0" and int(row[2], 16) < SYSTEM


def user_turns(rows, told):
    """The state before each turn of user code: its number, and PC, nPC, PSR, WIM, TBR, Y and registers."""
    for row, behind in zip(rows, rows[1:]):
        if is_users(row):
            pc, npc, psr, wim, tbr, y = (int(row[it], 16) for it in (2, 3, 5, 6, 7, 8))
            yield row[0], [pc, npc, psr & PSR_BITS, wim, tbr, y, *told.registers(int(row[1]))]
        for item in row[COLUMNS:]:
            told.take(int(behind[1]), item)


def clear(stub, windows):
    """Makes every register 0 but %sp, as `inspect states` begins: a start leaves them open, and the stub uses some."""
    start = stub.registers()
    for window in range(windows):
        words = stub.enter(window)
        words[:32] = [0] * 32
        stub.put_registers(words)
    words = stub.enter(0)
    words[STACK], words[PSR] = start[STACK], start[PSR]
    stub.put_registers(words)


def state_of(registers):
    """The same of QEMU's registers."""
    return [registers[PC], registers[NPC], registers[PSR] & PSR_BITS, registers[WIM], registers[TBR], registers[Y],
            *registers[:32]]


def to_user(stub):
    """Goes on to the next turn of user code, and returns the registers there."""
    while True:
        registers = stub.registers()
        if registers[PC] < SYSTEM:
            return registers
        stub.step()


def follow(tally, name, stub, lines, windows):
    """Follows a run as far as the lines tell it: the first state that differs is told, and behind the last turn of user
    code the words of RAM."""
    rows, told = [it.split() for it in lines], Told(windows)
    last = max(k for k, row in enumerate(rows) if is_users(row))
    turn, count = "0", 0
    clear(stub, windows)
    try:
        for turn, wanted in user_turns(rows[: last + 2], told):
            came = state_of(to_user(stub))
            if came != wanted:
                others = [f"{it} wanted {one:X}, came {two:X}"
                          for it, one, two in zip(NAMES, wanted, came) if one != two]
                tally.check(f"{name}: the state before turn {turn}", False, "; ".join(others))
                return
            count += 1
            stub.step()
        stub.ask("Qqemu.PhyMemMode:1")
        others = [hex(it) for it, word in told.words.items() if int(stub.ask(f"m{leon.RAM + it:x},4"), 16) != word]
        tally.same(f"{name}: words of RAM behind {count} turns of user code", others, [])
    except Ended:
        tally.check(f"{name}: turn {turn}", False, "wanted a state, came the end")
    finally:
        stub.close()
