"""What is seen of a page at each turn, held against what `inspect trace` and `sandbox trace` tell of it."""
import random
import re

from data import CODES, LIMIT, NAMES, State

SHORT_NAMES = ["goli"[it // 8] + str(it % 8) for it in range(32)]
# By the event that `sandbox trace` prints, what the sentence has to say; its number follows.
SIGNS = {
    "ran": "",
    "annulled": "annulled: this",
    "trap": "TRAP ",
    "error": "ERROR MODE by trap ",
    "exit": "EXIT with the word ",
    "stopped": "STOPPED",
}
SHOWN_BYTES = 400


def shown_bytes(output):
    """The last bytes of the output, as a page shows them."""
    text = {10: "\\n\n", 92: "\\\\"}
    return "".join(text.get(it) or (chr(it) if 32 <= it < 127 else f"\\x{it:02X}") for it in output[-SHOWN_BYTES:])


def chosen(last, most):
    """The turns to look at: all, or the first, the last and some between."""
    if last <= most:
        return set(range(1, last + 1))
    ends = {*range(1, most // 4), *range(last - most // 4, last + 1)}
    return ends | set(random.Random(last).sample(range(1, last + 1), most // 2))


class Watch:
    """Looks at the turns of one page."""

    def __init__(self, tally, browser, program, windows, limit=LIMIT):
        self.tally, self.browser, self.program, self.windows = tally, browser, program, windows
        self.told, self.traced = program.told(windows, limit), program.traced(windows, limit)

    def same(self, name, came, wanted):
        """Counts whether what is seen is what is wanted."""
        self.tally.same(f"{self.at}: {name}", came, wanted)

    def check(self, name, condition):
        """Counts a check of the turn that is looked at."""
        self.tally.check(f"{self.at}: {name}", condition)

    def look(self, path, most):
        """Looks at so many turns at most, and returns how many they were."""
        self.browser.open(path)
        self.at = f"{self.program.name} on {self.windows} windows, {self.browser.name}"
        self.same("turns told", len(self.traced), len(self.told))
        turns, state, run = chosen(len(self.told), most), State(self.windows), self.at
        for turn, told in enumerate(self.told, 1):
            state.take(told[6])
            if turn in turns:
                self.at = f"{run}, turn {turn}"
                self.check_turn(self.browser.look("see", turn), turn, told, state)
        self.same("faults told by the browser", [str(it) for it in self.browser.faults()], [])
        return len(turns)

    def check_turn(self, seen, turn, told, state):
        """All that is seen at a turn."""
        self.check_place(seen, turn, told)
        self.check_row(seen, turn, told)
        self.check_next(seen, turn)
        self.check_state(seen, state, told[6])
        self.check_changes(seen, turn, state, told[6])
        self.check_walk(seen, told, state)
        self.check_fuel(seen)

    def check_place(self, seen, turn, told):
        """Number, window, mode, PC, word, place, instruction and event."""
        row, mode = self.traced[turn - 1], "user" if told[2] == "u" else "supervisor"
        self.same("number, window, mode, PC", (seen["goto"], row[:4]), (str(turn), [f"{turn:010}", *told[1:4]]))
        text = {"annulled": [], "not fetched": ["(not fetched)"]}.get(told[5], [told[5]])
        place = f"{told[3]} {row[4]} {told[4]}"
        head = " \u00b7 ".join([f"turn {turn}", f"window {int(told[1])}", mode, place, *text, ""])
        said = seen["say"][len(head) :]
        self.check(f"{seen['say']!r} doesn't begin with {head!r}", seen["say"].startswith(head))
        self.check(f"{row[5:]} isn't in {said!r}", SIGNS[row[5]] + "".join(row[6:]) in said)
        self.check_transfer(said, turn, told)
        for event, sign in SIGNS.items():
            self.check(f"{sign!r} in {said!r}", not sign or (sign in said) == (event == row[5]))

    def check_transfer(self, said, turn, told):
        """What is said of a branch: a conditional one with `,a` annuls its slot where it isn't taken, others tell by
        where they go."""
        name = told[5].partition(" ")[0]
        if told[2] == "s" or not re.fullmatch("b(?!set|tog|clr).*|call|jmpl",
                                              name) or told[6][:1] and told[6][0].startswith("trap"):
            return
        taken = "transfer: next its slot" in said
        self.check(f"{name}: {said!r}", taken != ("not taken" in said))
        if name in ("ba", "ba,a", "call", "jmpl", "bn", "bn,a"):
            self.same(f"{name} is taken", taken, not name.startswith("bn"))
        elif name.endswith(",a") and turn < len(self.told):
            self.same(f"{name} is taken", taken, self.told[turn][5] != "annulled")
        elif turn + 1 < len(self.told) and int(self.told[turn + 1][3], 16) not in (int(told[3], 16) + 8,
                                                                                   int(self.told[turn][3], 16)):
            self.check(f"{name} is taken", taken or "trap" in str(self.told[turn][6]))

    def check_row(self, seen, turn, told):
        """The row of the code that is marked: one, but where nothing could be fetched."""
        self.same("the slot struck through", seen["struck"], told[5] == "annulled")
        if told[5] == "not fetched" and not seen["rows"]:
            return
        self.check(f"the row is {seen['rows']}", len(seen["rows"]) == 1 and seen["rows"][0].startswith(told[3]))
        self.check(f"the row's sign is {seen['signs']!r}", str(turn) in seen["signs"].split())
        if told[3] in self.program.listing:
            self.same("the row", seen["rows"], [f"{told[3]} {self.program.listing[told[3]]}"])

    def check_next(self, seen, turn):
        """Where PC and nPC lead, by the next two turns."""
        if turn < len(self.told):
            after = self.told[turn]
            self.same("what is next", (seen["pc"], seen["cwp"], seen["mode"]),
                      (after[3], str(int(after[1])), "user" if after[2] == "u" else "supervisor"))
        if turn + 1 < len(self.told) and not any(it.startswith("trap ") for it in self.told[turn][6]):
            self.same("nPC", seen["npc"], self.told[turn + 1][3])

    def check_state(self, seen, state, items):
        """Each register, those that changed, and the state registers."""
        self.same("registers", seen["regs"],
                  {name: f"{state.register(it):08X}" for it, name in enumerate(SHORT_NAMES)})
        changed = [SHORT_NAMES[NAMES.index(it[:3])] for it in items if it[0] == "%"]
        self.same("registers that changed", sorted(seen["changed"]), sorted(changed))
        self.same("PSR", seen["psr"], f"{state.psr:08X}")
        self.same("icc", seen["icc"], "".join(name for bit, name in CODES if state.psr >> bit & 1))
        self.same("Y", seen["y"], f"{state.y:08X}")
        mask = int(seen["mask"], 16) if self.windows > 12 else sum(1 << it for it in seen["wim"])
        self.same("WIM", mask, state.wim)
        self.same("fault status", seen["fault"], state.fault or "")

    def check_changes(self, seen, turn, state, items):
        """Marks of pages, memory, output and traps."""
        marks = {page: it for page, it in seen["tiles"].items() if it and page < "F"}
        self.same("marks of pages", marks, state.marks)
        for item in items:
            if item[0] == "[":
                self.same(f"memory at {item[1:9]}", seen["mem"].get(item[1:9]), item[11:])
            elif item.startswith("puts out "):
                self.check("the byte put out", item in seen["say"] and seen["fresh"])
            elif item.startswith("trap ") and "error mode" not in items:
                self.same("the trap's row", seen["traps"].split()[:3], [str(turn), *item[5:].split()[:2]])
        before = ".." if len(state.output) > SHOWN_BYTES else ""
        self.same("the output", seen["out"], before + shown_bytes(state.output))
        self.same("bytes of output", seen["outn"].split()[0], str(len(state.output)))

    def check_walk(self, seen, told, state):
        """The walk of a store, or of a fetch where nothing is loaded or stored, by the tables of
        docs/machine/profile.md."""
        stored = [int(it[1:9], 16) for it in told[6] if it[0] == "["]
        address = stored[0] if stored else int(told[3], 16) if "[" not in told[5] else None
        if told[5] in ("annulled", "not fetched") or address is None or address >= 0x100000:
            return
        group, marks = address >> 18, " ".join(state.marks.get(f"{address & ~0xFFF:08X}", ""))
        table = 0x2A00 + 0x100 * (group - 1)
        wanted = [
            "level 0 2000 00000241 \u2192 table 2400",
            "level 1 index 00 2400 00000281 \u2192 table 2800",
            f"level 2 index {group:02X} {0x2800 + 4 * group:04X} {0x291 + 0x10 * group:08X} \u2192 table {table:04X}",
        ]
        self.same("the walk", seen["walk"][:3], wanted)
        last = f"level 3 index {address >> 12 & 63:02X} {table + 4 * (address >> 12 & 63):04X} "
        found = seen["walk"][3] if len(seen["walk"]) == 4 else ""
        self.check(f"the walk ends by {found!r}, and not by {last!r} and {marks}",
                   found.startswith(last) and found.endswith(f" {marks}".rstrip()))

    def check_fuel(self, seen):
        """The bound is never below the run's turns, and is shown of accepted images alone."""
        found = re.search(r"ends by turn (\d+)", seen["fuel"])
        self.same("a bound is shown", bool(found), self.program.accepted)
        self.check(f"the bound is below {len(self.told)}: {seen['fuel']!r}",
                   not found or int(found[1]) >= len(self.told))
