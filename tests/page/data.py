"""What pages are held against: a program's run as `inspect trace` tells it, and the same text made again from a
page's data alone."""
import os
import re

from run import TOP, bytes_of, run

LIMIT = 25_000

PAGES = {0x2A00: 0x40000, 0x2B00: 0x80000, 0x2C00: 0xC0000}
CODES = ((23, "N"), (22, "Z"), (21, "V"), (20, "C"))
NAMES = [f"%{'goli'[it // 8]}{it % 8}" for it in range(32)]
NAMES[14], NAMES[30] = "%sp", "%fp"
LINE = re.compile(
    r" *(\d+) (\d\d) ([us]) (\w{8}) (f\d+\+\w+|vector \w\w\+\w|(?:over|under)flow\+\w+|-) +"
    r"(\S+(?: \S+)*)((?:  +\S+(?: \S+)*)*)$"
)


def unbroken(text):
    """The turns of `inspect trace`, each in one line. The line behind them that says that the limit was met is
    none."""
    return re.sub(r"\n {7}(?=\S)", "  ", re.sub(r"^limit: .*\n\Z", "", text, flags=re.M)).splitlines()


def items_of(line):
    """A turn's number, window, mode, PC, place and instruction, and its items."""
    found = LINE.match(line)
    return (*found.groups()[:6], [it for it in re.split("  +", found[7]) if it])


def place_of(number, window, windows):
    """Where a register stands: the ins of a window are the outs of the one above."""
    if number < 8:
        return ("globals", number)
    if number < 16:
        return ("shared", window, number - 8)
    return ("locals", window, number - 16) if number < 24 else ("shared", (window + 1) % windows, number - 24)


class State:
    """A machine's state, as the turns that are told leave it."""

    def __init__(self, windows):
        self.windows, self.registers, self.memory, self.marks = windows, {place_of(14, 0, windows): 0xFFFC0}, {}, {}
        self.psr, self.wim, self.y, self.fault, self.output = 0x20, 2, 0, None, bytearray()

    def register(self, number):
        """A register of the current window."""
        return self.registers.get(place_of(number, self.psr & 31, self.windows), 0)

    def take(self, items):
        """Takes in what a turn changed."""
        words = dict(it.split("=", 1) for it in items if re.match(r"%|PSR|WIM|Y=", it))
        if "PSR" in words:
            self.psr = int(words["PSR"][:8], 16)
        self.wim, self.y = int(words.get("WIM", f"{self.wim:X}"), 16), int(words.get("Y", f"{self.y:X}"), 16)
        for name, word in words.items():
            if name[0] == "%":
                self.registers[place_of(NAMES.index(name), self.psr & 31, self.windows)] = int(word, 16)
        for item in items:
            if item[0] == "[":
                self.memory[int(item[1:9], 16)] = int(item[11:], 16)
            elif item.startswith("page "):
                self.marks[item[5:13]] = self.marks.get(item[5:13], "") + item[14:].replace(" ", "")
            elif item.startswith("puts out "):
                self.output.append(int(item[9:], 16))
            elif item.startswith("fault "):
                self.fault = item[6:]


class Page:
    """A page's data, read back."""

    def __init__(self, page, element="data"):
        text = page.partition(f'id="{element}">\n')[2].partition("</script>")[0]
        head, _, turns = text.partition("\nt\n")
        self.head = {}
        for line in head.split("\n"):
            self.head.setdefault(line[:1], []).append(line[1:].split(" "))
        self.turns = turns.split("\n")[:-1]
        self.windows = int(self.head["n"][0][0])
        self.code = {int(it[0], 16): " ".join(it[2:]) for it in self.head["w"]}
        self.functions = [(int(it[1], 16), int(it[0])) for it in self.head["f"]]
        self.traps = {int(it[0], 16): bytes.fromhex(it[1]).decode() for it in self.head.get("k", [])}
        self.faults = {int(it[0], 16): " ".join(it[1:]) for it in self.head.get("q", [])}

    def place(self, address):
        """The name of a place."""
        if address >> 12 == 0xF0000:
            return f"vector {address >> 4 & 255:02X}+{address & 15:X}"
        if address >> 12 == 0xF0001:
            offset = address & 0xFFF
            return f"overflow+{offset:X}" if offset < 0x80 else f"underflow+{offset - 0x80:X}"
        before = [it for it in self.functions if it[0] <= address < 0x80000]
        return f"f{before[-1][1]}+{address - before[-1][0]:X}" if before else "-"

    def told(self):
        """Yields each turn as `inspect trace` tells it, without its columns: made from the data and nothing else."""
        pc, npc, psr, fault, entries = 0x40000, 0x40004, 0x20, 0, {int(it[0], 16): int(it[1], 16)
                                                                   for it in self.head["e"]}
        for number, line in enumerate(self.turns, 1):
            items = re.findall(r"([a-z])([0-9A-F]*)", line)
            kinds = dict(items)
            instruction = "annulled" if "a" in kinds else "not fetched" if "n" in kinds else self.code[pc]
            head = [str(number), f"{psr & 31:02}", "s" if psr >> 7 & 1 else "u", f"{pc:08X}", self.place(pc),
                    instruction]
            before, psr = psr, int(kinds.get("q", f"{psr:X}"), 16)
            fault = int(kinds.get("f", f"{fault:X}"), 16)
            yield (*head, [*self.events(kinds, fault), *self.changes(items, before, psr, entries)])
            pc = 0xF0000000 | int(kinds["t"], 16) << 4 if "t" in kinds else npc
            pc, npc = int(kinds.get("p", f"{pc:X}"), 16), int(kinds.get("c", f"{pc + 4 & 0xFFFFFFFF:X}"), 16)

    def events(self, kinds, fault):
        """What happened."""
        for letter in "te":
            if letter in kinds:
                yield f"trap {kinds[letter]} {self.traps[int(kinds[letter], 16)]}"
                if kinds[letter] in ("01", "09"):
                    yield f"fault {fault:08X}: {self.faults[fault]}"
        if "e" in kinds:
            yield "error mode"
        if "x" in kinds:
            yield f"exit {int(kinds['x'], 16):08X}"
        if "h" in kinds:
            yield "stopped"

    def changes(self, items, before, psr, entries):
        """What changed, in the order in which it is told."""
        names = {place_of(it, psr & 31, self.windows): NAMES[it] for it in range(32)}
        places = {flat(it): it for it in names}
        yield from (f"{names[places[int(it[:3], 16)]]}={int(it[3:], 16):08X}" for letter, it in items if letter == "r")
        if psr != before:
            codes = "".join(name if psr >> bit & 1 else "-" for bit, name in CODES)
            yield f"PSR={psr:08X}" + (f" icc={codes}" if (psr ^ before) >> 20 & 15 else "")
        yield from (f"{ {'w': 'WIM', 'y': 'Y'}[letter]}={int(it, 16):08X}" for letter,
                    it in sorted(items) if letter in "wy")
        yield from self.pages(items, entries)
        yield from (f"puts out {it}" for letter, it in items if letter == "o")
        yield from (f"[{it[:8]}]={int(it[8:], 16):08X}" for letter, it in items if letter == "m")

    @staticmethod
    def pages(items, entries):
        """The marks that are new, of the pages of code, data and stack."""
        for letter, it in items:
            place = int(it[:4], 16) if letter == "k" else 0
            first = PAGES.get(place & ~0xFF)
            if letter == "k":
                new, entries[place] = int(it[4:], 16) & ~entries[place], int(it[4:], 16)
            if first:
                yield f"page {first + (place & 0xFF) // 4 * 4096:08X}: " + " ".join(
                    name for bit, name in ((32, "R"), (64, "M")) if new & bit
                )


def flat(place):
    """The number that a page's data give a register."""
    return place[1] if place[0] == "globals" else 8 + 16 * place[1] + place[2] + (8 if place[0] == "locals" else 0)


def told_by(script, *words, given=b""):
    """What a script of the repository prints, which has to end well."""
    ran = run([f"{TOP}/{script}", *words], given, seconds=None)
    if ran.status:
        raise SystemExit(f"{script} {' '.join(words)}: status {ran.status}: {ran.said}")
    return ran.out.decode()


class Program:
    """A program with its image, its source and its input, and what the repository's programs tell of its runs."""

    def __init__(self, source, folder):
        self.name, self.source = os.path.basename(source)[:-2], source
        self.image = f"{folder}/{self.name}.img"
        told_by("sandbox", "asm", source, self.image)
        beside = f"{source[:-2]}.in"
        self.given = bytes_of(beside) if os.path.exists(beside) else b""
        self.listing = {it[:8]: it[18:] for it in told_by("sandbox", "list", self.image).splitlines()}
        self.accepted = told_by("inspect", "why", self.image).startswith("accepted")

    def page(self, *words):
        """Its page's text."""
        return told_by("inspect", "page", *words, self.image, given=self.given)

    def told(self, windows, limit=LIMIT):
        """The turns that `inspect trace` tells."""
        words = ("--windows", str(windows), "--limit", str(limit), self.image)
        return [items_of(it) for it in unbroken(told_by("inspect", "trace", *words, given=self.given))]

    def traced(self, windows, limit=LIMIT):
        """The columns that `sandbox trace` prints."""
        words = ("--windows", str(windows), "--limit", str(limit), self.image)
        return [it.split() for it in told_by("sandbox", "trace", *words, given=self.given).splitlines()]
