#!/usr/bin/env python3
"""usage: tests/compare/run.py [--every N | --machine FILE TURNS [WINDOWS]]

Compares the turns and walks of crates/v8_turns/stdin with QEMU's LEON3 (`qemu-system-sparc`): sets its state, runs
one instruction by its gdb stub, and reads registers, memory and fault status back. Of every N lines it takes one, or
all. Tells what it compared, what it left out and why, what differs by design (docs/machine/comparing.md), and each
other difference. Where QEMU isn't there, nothing is tried, and the status is 2. With --machine it runs so many turns of
what is in FILE in QEMU, and prints their states as vectors/traces has them: the fault status, page entries and stores
aren't told, and a slot that is annulled is no turn."""
import collections
import os
import re
import sys

sys.dont_write_bytecode = True
TESTS = os.path.dirname(os.path.dirname(os.path.abspath(__file__)))
sys.path[:0] = [f"{TESTS}/lib", f"{os.path.dirname(TESTS)}/tools/vectors"]
import qemu
from qemu import CONTEXT, CONTROL, MOVED, NPC, PC, PSR, RAM, TABLE, TBR, WIM, Ended, Leon, Y
from run import TOP, text_of
from tally import PASSED, Tally, Words
from v8_board import NAMES
from v8_machine import Start
from v8_model import row_of

STATE = {"pc": PC, "npc": NPC, "psr": PSR, "wim": WIM, "tbr": TBR, "y": Y}
# What both have of PSR: codes, PIL, S, PS, ET, CWP.
PSR_BITS = 0x00F00FFF
# Code of the script's own, on the page of the first level whose index is FF.
CODE_PAGE = 0xFF000000


class Turn:
    """A line `turn N FIELD .. -> EVENT FIELD ..`: what it tells of the states before and after, by the names of the
    line."""

    def __init__(self, line):
        front, back = line.split(" -> ")
        _, windows, *fields = front.split()
        event, *changes = back.split()
        self.line, self.windows, self.event = line, int(windows), event
        self.before = {name: int(word, 16) for name, word in (it.split("=") for it in fields)}
        self.after = {**self.before, **{name: int(word, 16) for name, word in (it.split("=") for it in changes)}}
        self.word = self.before.pop("word")
        self.after.pop("word")
        self.row, self.op, self.op3 = row_of(self.word), self.word >> 30, self.word >> 19 & 63
        self.trap = int(event.partition("=")[2] or "0", 16)
        self.status = self.after.get("fsr", 0)


def left_out(turn):
    """Why a turn is left out; None where it is compared."""
    if turn.before.get("annul"):
        return "the annul flag is set before: QEMU has no such flag, a slot that is annulled takes it no turn"
    if 0xFF in (turn.before["pc"] >> 24, address_of(turn) >> 24 if turn.status else 0):
        return "its address lies on the page where this script has code of its own"
    return None


def address_of(turn):
    """The address of a load or a store."""
    word = turn.word
    operand = word & 0xFFF | -(word & 0x1000) if word >> 13 & 1 else register(turn, word & 31)
    return (register(turn, word >> 14 & 31) + operand) & 0xFFFFFFFF


def register(turn, number):
    window = (turn.before["psr"] & 31) + (number >= 24)
    name = f"g{number}" if number < 8 else f"{'olo'[number // 8 - 1]}{number % 8}.{window % turn.windows}"
    return turn.before.get(name, 0)


def moved(word):
    """A word of the tables, as it is where RAM begins elsewhere."""
    return (word + MOVED) & 0xFFFFFFFF if word & 3 in (1, 2) else word


def trap_of(found):
    """The type of the trap that QEMU took where another was wanted; None elsewhere."""
    return next((got >> 4 & 0xFF for name, _, got in found if name == "tbr"), None)


def names_of(found):
    return " ".join(name for name, _, _ in found)


def only(found, name):
    return [it[0] for it in found] == [name]


def is_let_pass(found):
    """QEMU lets an access pass, or it leads to nothing there."""
    return only(found, "error mode") or trap_of(found) in (0x21, 0x29)


def is_protection(found):
    """The fault status alone is another: its level is missing."""
    if not only(found, "fsr"):
        return False
    _, wanted, got = found[0]
    return wanted >> 2 & 7 in (2, 3) and (wanted ^ got) & ~0x300 == 0


def space(turn):
    """The alternate space that a word names; None where it names none."""
    return turn.word >> 5 & 0xFF if turn.row and turn.row.endswith("Alternate") and not turn.word >> 13 & 1 else None


def is_exchange(turn):
    return (turn.row or "").startswith(("Swap", "LoadStore"))


# What differs by design: a name, as docs/machine/comparing.md has it, and whether a turn's differences are of that
# kind. What an access to a space does that is a LEON3's own isn't looked at.
KNOWN = {
    "impl and ver": lambda it, found: it.row == "ReadPsr" and [want ^ got for _, want, got in found] == [0xF3000000],
    "WRTBR and tt": lambda it, found: it.row == "WriteTbr" and only(found, "tbr"),
    "order of RETT's traps": lambda it, found: it.row == "Rett" and it.trap in (2, 3, 6) and trap_of(found) == 7,
    "RETT to an invalid window": lambda it, found: it.event == "error=06" and only(found, "error mode"),
    "space A in user mode": lambda it, found: space(it) == 0x0A and it.trap == 3,
    "privileged before illegal": lambda it,
    found: (it.row or "").endswith("Alternate") and it.trap == 3 and trap_of(found) == 2,
    "instruction spaces": lambda it, found: space(it) in (8, 9),
    "unknown spaces": lambda it, found: space(it) not in (None, 8, 9, 10, 11),
    "JMPL to no multiple of 4": lambda it,
    found: it.row == "Jmpl" and [got for _, _, got in found] == [it.before["pc"]],
    "operand of a trap": lambda it, found: it.row == "Ticc" and [got for _, _, got in found] == [address_of(it)],
    "ta 0 with traps disabled": lambda it, found: it.event == "error=80" and trap_of(found) == 0,
    "unassigned opcodes of the coprocessor": lambda it, found: it.row == "CpMemory" and trap_of(found) == 2,
    "ancillary registers": lambda it, found: not it.row and it.op == 2 and it.op3 in (0x28, 0x30),
    "CASA": lambda it, found: it.op == 3 and it.op3 == 0x3C,
    "nothing answers": lambda it, found: it.status >> 2 & 7 == 5 and trap_of(found) in (0x21, 0x29),
    "faults with traps disabled": lambda it, found: it.event in ("error=01", "error=09") and is_let_pass(found),
    "level of a protection fault": lambda it, found: is_protection(found) and not is_exchange(it),
    "exchanges as loads": lambda it, found: is_exchange(it) and only(found, "fsr"),
}
# The same of walks alone.
LARGE_PAGE = "low bits of a large page"


def known(turn, found):
    return next((name for name, test in KNOWN.items() if test(turn, found)), None)


class Bench:
    """A LEON3 with the ground of turns in its RAM."""

    def __init__(self, windows, ground):
        self.windows, self.leon, self.ground = windows, Leon(windows), ground
        for place, word in ground.items():
            self.leon.put(place, moved(word))
        self.leon.put(0x1400 + 4 * 0xFF, moved(0x7E))
        for register_of_mmu, word in ((TABLE, RAM + 0x1000 >> 4), (CONTEXT, 0), (CONTROL, 1)):
            self.leon.set_mmu(RAM + qemu.SCRATCH, register_of_mmu, word)
        self.clear()

    def clear(self):
        """Every register is 0."""
        for window in range(self.windows):
            words = self.leon.enter(window)
            words[1:32] = [0] * 31
            self.leon.put_registers(words)

    def put_registers(self, names, state):
        """Writes registers by their names, window by window; those that the state doesn't have are 0."""
        for window in sorted({int(name.partition(".")[2] or 0) for name in names}):
            words = self.leon.enter(window)
            for name in names:
                if name.partition(".")[2] in ("", str(window)):
                    words["gol".index(name[0]) * 8 + int(name[1])] = state.get(name, 0)
            self.leon.put_registers(words)

    def put_state(self, state):
        words = self.leon.enter(state["psr"] & 31)
        for name, number in STATE.items():
            words[number] = state[name]
        self.leon.put_registers(words)

    def is_table(self, place):
        return place < 0x2000

    def run(self, turn):
        """What differs, as (name, wanted, found)."""
        leon, names = self.leon, [it for it in turn.after if it[0] in "gol" and it[1].isdigit()]
        places = [int(it[1:9], 16) for it in turn.after if it[0] == "["]
        for place in places:
            word = turn.before.get(f"[{place:08X}]", self.ground.get(place, 0))
            leon.put(place, moved(word) if self.is_table(place) else word)
        self.put_registers(names, turn.before)
        self.put_state(turn.before)
        leon.step()
        found = self.differences(turn, names, places)
        self.put_registers(names, {})
        self.restore(places)
        return found

    def differences(self, turn, names, places):
        leon, wanted = self.leon, turn.after
        pc, npc = (wanted["npc"], wanted["npc"] + 4 & 0xFFFFFFFF) if wanted.get("annul") else (wanted["pc"],
                                                                                               wanted["npc"])
        read = leon.registers()
        tells = [("psr", wanted["psr"], read[PSR] & PSR_BITS), ("pc", pc, read[PC]), ("npc", npc, read[NPC])]
        tells += [(name, wanted[name], read[STATE[name]]) for name in ("wim", "tbr", "y")]
        for number in range(1, 8):
            tells.append((f"g{number}", wanted.get(f"g{number}", 0), read[number]))
        for window in sorted({int(it.partition(".")[2]) for it in names if "." in it} | {turn.before["psr"] & 31,
                                                                                         wanted["psr"] & 31}):
            registers = leon.enter(window)
            for number in range(8, 24):
                name = f"{'ol'[number // 8 - 1]}{number % 8}.{window}"
                tells.append((name, wanted.get(name, 0), registers[number]))
        for place in places:
            word = leon.word(place)
            name = f"[{place:08X}]"
            whole = wanted.get(name, 0)
            tells.append((name, moved(whole) if self.is_table(place) else whole, word))
        if "fsr" in wanted or read[TBR] >> 4 & 0xFF in (0x01, 0x09, 0x21, 0x29):
            tells.append(("fsr", wanted.get("fsr", 0), leon.status(CODE_PAGE + qemu.SCRATCH)))
        return [it for it in tells if it[1] != it[2]]

    def restore(self, places):
        """RAM of the ground. Where a table was another, what QEMU keeps of it is dropped, as it is when the context
        changes."""
        for place in places:
            self.leon.put(place, moved(self.ground.get(place, 0)))
        if any(map(self.is_table, places)):
            self.set_context(0)

    def set_context(self, context):
        for number in (context ^ 1, context):
            self.leon.put(0x1000 + 4 * number, self.leon.word(0x1000 + 4 * context))
            self.leon.set_mmu(CODE_PAGE + qemu.SCRATCH, CONTEXT, number)


class Walk:
    """A line `walk FIELD .. -> FIELD ..`."""

    def __init__(self, line):
        front, back = line.split(" -> ")
        self.line = line
        self.asked, self.told = (dict(it.split("=") for it in part) for part in (front.split()[1:], back.split()))
        self.stores, self.fetches = self.asked["access"] == "store", self.asked["access"] == "fetch"
        self.at, self.va = int(self.asked["at"]), int(self.asked["va"], 16)
        self.value = int(self.asked.get("value", self.told.get("value", "0")), 16)
        self.before = {int(name[1:9], 16): int(word, 16) for name, word in self.asked.items() if name[0] == "["}
        self.after = {**self.before,
                      **{int(name[1:9], 16): int(word, 16) for name, word in self.told.items() if name[0] == "["}}
        self.status = int(self.told.get("fsr", "0"), 16)

    def is_known_table(self, place):
        """Whether the word there belongs to tables, and not to what is loaded, stored or fetched."""
        return place < 0x8000 and f"{place:09X}" != self.told.get("pa")


def walk_left_out(walk):
    if not any(word == 0x7A and place % 0x400 == 0x3FC for place, word in walk.before.items()):
        return "walk: it ends in the context table, where QEMU has no page, and this script's own code has none"
    if f"{walk.told.get('pa')}" in {f"{it:09X}" for it in walk.before if it < 0x8000}:
        return "walk: it reaches its own page's entry, whose address is another where RAM begins elsewhere"
    return None


def walk_known(walk, found):
    """What differs by design: the names are those of KNOWN."""
    if not walk.fetches and walk.at & 2:
        return "instruction spaces"
    pages = [word for place, word in walk.before.items() if place < 0x8000 and word & 3 == 2 and word != 0x7A]
    low = {"1": 0xFFF, "2": 0x3F}.get(walk.told.get("level"), 0)
    if any(it >> 8 & low for it in pages):
        return LARGE_PAGE
    if walk.status >> 2 & 7 == 5 and found[0][0] == "tt" and found[0][2] in (0x21, 0x29):
        return "nothing answers"
    if only(found, "fsr") and walk.status >> 2 & 7 in (2, 3) and (walk.status ^ found[0][2]) & ~0x300 == 0:
        return "level of a protection fault"
    return None


class WalkBench:
    """A LEON3 whose MMU is off between two walks."""

    def __init__(self):
        self.leon, self.places = Leon(8), []
        self.code = RAM + qemu.SCRATCH

    def put(self, walk, words):
        for place, word in words.items():
            self.leon.put(place, moved(word) if walk.is_known_table(place) else word)

    def run(self, walk):
        """What differs, as (name, wanted, found)."""
        leon = self.leon
        for place in self.places:
            leon.put(place, 0)
        self.put(walk, walk.before)
        self.places = list(walk.after)
        context = int(walk.asked["context"], 16)
        table = RAM + int(walk.asked["table"], 16) >> 4
        for number, word in ((TABLE, table), (CONTEXT, context ^ 1), (CONTEXT, context), (CONTROL, 1)):
            leon.set_mmu(self.code, number, word)
        space = (8 if walk.at & 2 else 10) + (walk.at & 1)
        leon.put(0x200, (0xC4A04000 if walk.stores else 0xC4804000) | space << 5)
        words = leon.enter(0)
        words[1], words[2], words[TBR] = walk.va, walk.value if walk.stores else 0, 0
        words[PC] = walk.va if walk.fetches else CODE_PAGE + 0x200
        words[NPC], words[PSR] = words[PC] + 4 & 0xFFFFFFFF, 0x20 if walk.fetches and walk.at % 2 == 0 else 0xA0
        leon.put_registers(words)
        leon.step()
        found = self.differences(walk, leon.registers())
        leon.set_mmu(CODE_PAGE + qemu.SCRATCH, CONTROL, 0)
        return found

    def differences(self, walk, read):
        leon = self.leon
        trap = read[TBR] >> 4 & 0xFF
        tells = [("tt", (1 if walk.fetches else 9) if walk.status else 0, trap)]
        if walk.status or trap:
            tells.append(("fsr", walk.status, leon.status(CODE_PAGE + qemu.SCRATCH)))
        elif not walk.fetches:
            tells.append(("value", walk.value, read[2]))
        for place, word in walk.after.items():
            tells.append((f"[{place:08X}]", moved(word) if walk.is_known_table(place) else word, leon.word(place)))
        return [it for it in tells if it[1] != it[2]]


def lines_of(every):
    """The ground of turns, and of every so many lines one: turns and walks."""
    lines = text_of(f"{TOP}/crates/v8_turns/stdin").splitlines()
    ground = {int(it[8:16], 16): int(it[18:], 16) for it in lines if it.startswith("ground")}
    turns, walks = ([it for it in lines if it.startswith(kind)][::every] for kind in ("turn", "walk"))
    return ground, [Turn(it) for it in turns], [Walk(it) for it in walks]


class Differences:
    """What came of turns or of walks: how many are the same, which were left out and why, and which differ, by
    kind."""

    def __init__(self):
        self.same, self.outs, self.differ = 0, collections.Counter(), collections.defaultdict(list)

    def note(self, item, reason, found, kind):
        """Takes in one of them."""
        if reason:
            self.outs[reason] += 1
        elif found:
            self.differ[kind].append((item, found))
        else:
            self.same += 1

    def tell(self, tally, name):
        """Tells what was left out and what differs; counts what is the same, and what differs that shouldn't."""
        for reason, count in self.outs.items():
            print(f"left out {count}: {reason}")
        for key, items in sorted(self.differ.items(), key=lambda it: -len(it[1])):
            if key in KNOWN or key == LARGE_PAGE:
                print(f"differ {len(items)}: {key}")
                continue
            for item, found in items:
                told = " ".join(f"{field} wanted {it:X}, came {hexadecimal(got)};" for field, it, got in found)
                tally.check(f"{key}: {item.line[:400]}", False, told[:300])
        tally.passes(self.same)
        print(f"{name}: {self.same} are the same")


def hexadecimal(it):
    """A number in hexadecimal, a text as it is."""
    return it if isinstance(it, str) else f"{it:X}"


def compare_turns(tally, ground, turns):
    """The turns in LEON3s of as many windows as each has."""
    told, benches = Differences(), {}
    for turn in turns:
        reason = left_out(turn)
        found = [] if reason else compared(benches, ground, turn)
        told.note(turn, reason, found, found and (known(turn, found) or f"{turn.row} {turn.event} {names_of(found)}"))
    for bench in benches.values():
        bench.leon.close()
    told.tell(tally, "turns")


def compare_walks(tally, walks):
    """The walks in one LEON3."""
    told, bench = Differences(), WalkBench()
    for walk in walks:
        reason = walk_left_out(walk)
        found = [] if reason else bench.run(walk)
        kind = found and (walk_known(walk, found) or f"walk {walk.asked['access']} {names_of(found)}")
        told.note(walk, reason, found, kind)
    bench.leon.close()
    told.tell(tally, "walks")


def started(machine, windows):
    """A LEON3 of so many windows in a file's state."""
    leon, tables, state = Leon(windows), machine.tables(), machine.state
    for place, word in machine.words.items():
        leon.put(place, moved(word) if place in tables else word)
    for number, word in ((TABLE, RAM + state["context_table"] >> 4), (CONTEXT, state["context"]), (CONTROL, 1)):
        leon.set_mmu(RAM + qemu.SCRATCH, number, word)
    for window in range(windows):
        words = leon.enter(window)
        words[1:32] = [0] * 31
        leon.put_registers(words)
    for (window, number), word in machine.registers.items():
        words = leon.enter(window)
        words[number] = word
        leon.put_registers(words)
    words = leon.enter(state["psr"] & 31)
    for name, number in STATE.items():
        words[number] = state[name]
    leon.put_registers(words)
    return leon


def states(machine, turns, windows):
    """Its lines in QEMU, on so many windows."""
    leon, known = started(machine, windows), {}
    read, trap = leon.registers(), None
    for turn in range(turns + 2):
        annulled = 0 if 0 < turn <= turns else "-"
        head = f"{min(turn, turns)} {read[PSR] & 31:02d} {read[PC]:08X} {read[NPC]:08X} {annulled}"
        head += f" {read[PSR] & PSR_BITS:08X} {read[WIM]:08X} {read[TBR]:08X} {read[Y]:08X} --------"
        before = read
        word = f"{leon.word(read[PC]):08X}" if 0 < turn <= turns else "--------"
        if 0 < turn <= turns:
            leon.step()
            read = leon.registers()
            trap = read[TBR] >> 4 & 0xFF if before[PSR] & 0x20 and not read[PSR] & 0x20 else None
        event = "start" if not turn else "end" if turn > turns else "ran" if trap is None else f"trap:{trap:02X}"
        told = changes(known, read, windows) if turn <= turns else []
        print(" ".join([head, word, event, *told]))
    leon.close()


def changes(known, read, windows):
    """The registers of the window that hold another word than was told of them."""
    told = []
    for number in range(1, 32):
        window = (read[PSR] & 31) + (number >= 24)
        key = number if number < 8 else (window % windows, number - 16 if number >= 24 else number)
        if known.get(key, 0) != read[number]:
            known[key] = read[number]
            told.append(f"{NAMES[number]}={read[number]:08X}")
    return told


def error_mode(ground, turn):
    """What differs of a turn that ends in error mode: QEMU ends there, and names the trap."""
    bench, wanted = Bench(turn.windows, ground), turn.trap
    try:
        bench.run(turn)
        return [("error mode", wanted, "none")]
    except Ended as why:
        named = re.search(r"Trap 0x([0-9a-fA-F]+)", str(why))
        got = int(named[1], 16) if named else 0
        return [("tbr", wanted << 4, got << 4)] if got != wanted else []
    finally:
        bench.leon.close()


def compared(benches, ground, turn):
    """What differs of a turn. Where anything does, the registers of the LEON3 are cleared, since others may have been
    written."""
    if turn.event.startswith("error"):
        return error_mode(ground, turn)
    if turn.windows not in benches:
        benches[turn.windows] = Bench(turn.windows, ground)
    try:
        found = benches[turn.windows].run(turn)
        if found:
            benches[turn.windows].clear()
        return found
    except Ended as why:
        benches.pop(turn.windows)
        said = str(why).strip().splitlines()
        return [("QEMU", 0, said[0][:100] if said else "ended")]


def main(words):
    reader = Words(__doc__)
    reader.add_argument("--every", type=int, default=1)
    reader.add_argument("--machine", nargs="+", metavar="WORD")
    asked, tally = reader.parse_args(words), Tally("compare")
    if asked.every < 1 or asked.machine and (len(asked.machine) not in (2, 3)
                                             or not "".join(asked.machine[1:]).isdigit()):
        reader.error("a count is wanted, or a file, turns and windows")
    if not qemu.is_there():
        tally.skip("turns, walks and machines", qemu.PROGRAM)
        return tally.end()
    if asked.machine:
        states(Start(text_of(asked.machine[0])), *map(int, [*asked.machine[1:], "8"][:2]))
        return PASSED
    ground, turns, walks = lines_of(asked.every)
    compare_turns(tally, ground, turns)
    compare_walks(tally, walks)
    return tally.end()


if __name__ == "__main__":
    sys.exit(main(sys.argv[1:]))
