"""How gdb finds the callers of a function that ./fit made a part of `main`: such a call is a jump, which leaves the
number of its place in the data, and what the caller keeps of its registers.

A function's frame lies on the stack of such functions, where a register points, or its words are objects of the data.
Each word of the image belongs to a function of the assembly by its origin, so rules are written for each run of words
of one function. What isn't known is told as nothing: a backtrace ends there."""
import collections
import re
import struct

from dwarf import frame_address, sleb, uleb
from effects import has_slot
from loaded import CODE
from maps import Origin
from origins import CALL

# Registers by fit's own use (crates/fit_joins): the number of a place is made in %g7, addresses in %g6.
NUMBER, BASE = 7, 6
ADD, SUB, OR, COMPARE, STORE, SETHI = 0x00, 0x04, 0x02, 0x14, 0x04, 4
RETURNS, FIRST = 15, 16
# gdb's own numbers, by which it unwinds: of %o7, by which functions of the image return, it would want a register.
PC, NPC = 68, 69
# The frame's addresses of parts that take no frame from the stack of functions only tell frames apart, and callers'
# have to be greater: where they call what takes one they are a little above what points to that stack; else below the
# data, and above those of functions that stand alone, which are told as so many bytes below where they are.
BELOW, SHIFT = 0x60000, 0xC0000

Site = collections.namedtuple("Site", "caller number at kept behind")


def fields(word):
    """Of an instruction of format 3: whether it is one, op3, rd, rs1, and the immediate or None."""
    immediate = (word & 0x1FFF ^ 0x1000) - 0x1000 if word & 0x2000 else None
    return word >> 19 & 63, word >> 25 & 31, word >> 14 & 31, immediate


class Part:
    """A function of the assembly that became a part of another one."""

    def __init__(self, name):
        self.name, self.words, self.sites = name, [], []
        # The register that points to its frame on the stack of functions, the word that takes the frame, what stands
        # around its body, and the words around that one word.
        self.pointer, self.frame, self.taken, self.head, self.entry = None, 0, None, None, (0, 0)
        self.given = None  # the numbers of the words where the frame is given back


class Joined:
    """The parts of an image's functions."""

    def __init__(self, loaded, mapped, origins, own):
        self.loaded, self.own, self.files = loaded, set(own.values()), origins.files
        self.rows, self.parts, self.owners, self.origins = {}, {}, [], []
        self.entries, self.known, self.ranks = set(own), {}, {}
        owner = None
        for number in range(len(loaded.words)):
            address = CODE + 4 * number
            found, owner = mapped.words.get(address), own.get(address, owner)
            if found:
                owner = self.files[found[0].assembly].function(found[0].row)
                self.rows.setdefault(found[0], []).append(address)
            self.owners.append(owner)
            self.origins.append(found and found[0])
            self.parts.setdefault(owner, Part(owner)).words.append(address)
        self.parts = {name: it for name, it in self.parts.items() if name not in self.own and name is not None}
        for it in self.parts.values():
            self.find_frame(it)
        # what points to the stack of functions, the same register in all of them
        self.pointer = next((it.pointer for it in self.parts.values() if it.pointer is not None), None)
        self.find_sites()

    def find_frame(self, part):
        """Finds the register by which a part takes its frame, and how many bytes."""
        for address in part.words:
            word = self.loaded.word(address)
            op3, rd, rs1, immediate = fields(word)
            following = self.loaded.word(address + 4) or 0
            # (the address of the stack follows, to be compared with)
            if word >> 30 == 2 and op3 == SUB and rd == rs1 and rd >= 2 and immediate and immediate % 8 == 0 \
                    and following >> 22 == NUMBER << 3 | SETHI:
                part.pointer, part.frame, part.taken = rd, immediate, address
                part.head = self.origins[(address - CODE) // 4]
                part.entry = self.around(address, part.head)
                return

    def around(self, address, origin):
        """The words around one that come from the same origin: from the first one to before what stands behind the
        last."""
        first = last = (address - CODE) // 4
        while first > 0 and self.origins[first - 1] == origin:
            first -= 1
        while last + 1 < len(self.origins) and self.origins[last + 1] == origin:
            last += 1
        return CODE + 4 * first, CODE + 4 * last + 4

    def find_sites(self):
        """Finds where parts are called from."""
        for origin, addresses in self.rows.items():
            file = self.files[origin.assembly]
            found = CALL.match(file.lines[origin.row - 1])
            part = self.parts.get(found[1]) if found else None
            if part:
                slot = file.follows.get(origin.row)
                beside = self.rows.get(origin._replace(row=slot), []) if slot else []
                site = self.site_of(file, origin, sorted([*addresses, *beside]), part)
                if site:
                    part.sites.append(site)
        self.find_bare_sites()

    def find_bare_sites(self):
        """Finds the calls that no word is left of: where a part is called once, and stands where the call was."""
        bare, there = {}, set(self.owners)
        for file in self.files:
            for row in file.rows:
                found, origin = CALL.match(file.lines[row - 1]), Origin(file.number, row)
                if found and found[1] in self.parts and origin not in self.rows and file.function(row) in there:
                    bare.setdefault(found[1], []).append((file, origin))
        for name, calls in bare.items():
            part = self.parts[name]
            if not part.sites and len(calls) == 1:
                (file, origin), = calls
                site = self.site_of(file, origin, [], part)
                # (where no word of the caller stands behind the call, it goes back to the caller's own)
                caller = self.parts.get(file.function(origin.row))
                part.sites = [site] if site else list(caller.sites) if caller and len(caller.sites) == 1 else []

    def site_of(self, file, origin, addresses, part):
        """A call of a part, by the words that come from it: the number that it leaves, where, and what its caller
        keeps."""
        known, kept, number, at, behind = {}, {}, None, None, None
        for address in addresses:
            word = self.loaded.word(address)
            op3, rd, rs1, immediate = fields(word)
            if word >> 30 == 0 and word >> 22 & 7 == SETHI:
                known[rd] = word << 10 & 0xFFFFFFFF
            elif word >> 30 == 2 and op3 == OR and immediate is not None and rs1 in (0, rd):
                known[rd] = immediate + (known.get(rd, 0) if rs1 else 0)
            elif word >> 30 == 3 and op3 == STORE and immediate is not None:
                place = (None if rs1 == BASE else rs1, known.get(BASE, 0) + immediate if rs1 == BASE else immediate)
                if rd == NUMBER:
                    number, at = known.get(NUMBER), place
                elif FIRST <= rd < 30:
                    kept[rd] = place
            elif self.is_behind(word) and behind is None and (at or len(part.sites) == 0):
                behind = address
        row = file.follows.get(origin.row)
        while behind is None and (row := file.behind(row)) and file.function(row) == file.function(origin.row):
            behind = min(self.rows.get(origin._replace(row=row), []), default=None)
        while behind and self.gets_back(behind + 4, kept):
            behind += 4
        caller = file.function(origin.row)
        return behind and Site(caller, number, at, kept, behind)

    def gets_back(self, address, kept):
        """Whether a word loads one of some registers that were kept, as the word before it does another one."""
        words = self.loaded.word(address - 4), self.loaded.word(address)
        return None not in words and all(it >> 30 == 3 and fields(it)[:2] in ((0, to) for to in kept) for it in words)

    def kept(self):
        """By the number of the word that a call comes back to, the register that it gets back, and the operations
        that leave the address where that is kept: callers are looked at there, and the register has no word yet."""
        out = {}
        for site in (site for part in self.parts.values() for site in part.sites):
            word = self.loaded.word(site.behind)
            _, register, _, _ = fields(word)
            if word >> 30 == 3 and register in site.kept:
                base, offset = site.kept[register]
                place = b"\3" + struct.pack(">I", offset) if base is None else bytes([0x70 + base]) + sleb(offset)
                out[(site.behind - CODE) // 4] = register, place
        return out

    @staticmethod
    def is_behind(word):
        """Whether a word gets back what was kept, or clears a register that a call loses."""
        op3, rd, _rs1, _ = fields(word)
        return word >> 30 == 3 and op3 == 0 and FIRST <= rd < 30 or word >> 30 == 2 and word & 0x01FFFFFF == 0x00100000

    # ---- rules

    def rank(self, name, inside=()):
        """How far a part is from those that call nobody, and whether it calls what lies on the stack of functions."""
        if name in inside:
            return 0, False
        if name not in self.ranks:
            depth, is_above = 0, False
            for part in self.parts.values():
                if any(it.caller == name for it in part.sites):
                    below, calls = self.rank(part.name, (*inside, name))
                    depth, is_above = max(depth, below + 1), is_above or calls or part.pointer is not None
            self.ranks[name] = depth, is_above
        return self.ranks[name]

    def frame_rule(self, part, frame):
        """What tells the frame's address, where a frame of so many bytes is taken from the stack of functions."""
        if part.pointer is not None:
            return b"\x0c" + uleb(part.pointer) + uleb(frame)
        depth, is_above = self.rank(part.name)
        if is_above:
            return frame_address(self.pointer, 1 + min(depth, 62))
        return b"\x0f\5\3" + struct.pack(">I", BELOW + 16 * min(depth, 255))

    @staticmethod
    def number_of(part, frame):
        """The operations that leave the number of the place that a part was called from; None where that isn't
        known."""
        places = {it.at for it in part.sites}
        if len(part.sites) == 1 and part.sites[0].number is None:
            return b""  # (the one call leaves no number; where one does there are others, as through a pointer)
        if len(places) != 1 or None in places or any(it.number is None for it in part.sites):
            return None
        (register, offset), = places
        if register is None:
            return b"\3" + struct.pack(">I", offset) + b"\6"
        return bytes([0x70 + register]) + sleb(frame + offset) + b"\6" if register == part.pointer else None

    @staticmethod
    def chosen(number, values):
        """The operations that leave one of some words, by the number of a place: 0 where it is none of them. The
        words are operations."""
        if number == b"":
            return next(iter(values.values()), b"\x30")
        out = number + b"\x30"  # 0
        for value, word in values.items():
            # (the number's copy is compared: 1 or 0, which the word is multiplied by)
            out += b"\x14\x10" + uleb(value) + b"\x29" + word + b"\x1e\x22"
        return out + b"\x16\x13"  # swap, drop

    def register_rules(self, part, number, frame):
        """What tells the registers of a part's caller."""
        out = bytearray()
        for register in range(1, 30):
            if register in (RETURNS, 14, self.pointer):
                continue
            kept = [it for it in part.sites if register in it.kept]
            values = {it.number: self.kept_at(part, it.kept[register], frame) for it in kept}
            if values and None not in values.values():
                block = self.chosen(number, values)
                out += b"\x10" + uleb(register) + uleb(len(block)) + block
            else:
                out += b"\x07" + uleb(register)
        if part.pointer is not None:
            out += b"\x14" + uleb(part.pointer) + uleb(0)
        return bytes(out)

    @staticmethod
    def kept_at(part, place, frame):
        """The operations that leave the address of a word that a caller keeps; None where that isn't known."""
        register, offset = place
        if register is None:
            return b"\x0c" + struct.pack(">I", offset)
        if part.pointer is None:
            return bytes([0x70 + register]) + sleb(offset)
        return bytes([0x70 + register]) + sleb(frame + offset) if register == part.pointer else None

    def rules(self, part, frame):
        """All rules where a frame of so many bytes is taken; those by which a backtrace ends where its callers aren't
        known."""
        number = self.number_of(part, frame) if part.sites else None
        if number is None:
            return self.last_rules(part)
        # (gdb looks for the line of a call before the place that it comes back to)
        back = {it.number: b"\x0c" + struct.pack(">I", it.behind + 4) for it in part.sites}
        return (self.frame_rule(part, frame) + self.back_rules(self.chosen(number, back))
                + self.register_rules(part, number, frame))

    def last_rules(self, part):
        """Rules by which a backtrace ends: the way back is 0. (Of a frame without a way back gdb would tell no
        locals.)"""
        return self.frame_rule(part, 0) + self.back_rules(b"\x30")

    @staticmethod
    def back_rules(block):
        """What tells PC of a part's caller by some operations, and nPC."""
        following = block + b"\x23\4"
        return (b"\x16" + uleb(PC) + uleb(len(block)) + block
                + b"\x16" + uleb(NPC) + uleb(len(following)) + following)

    def runs(self, standard):
        """The runs of words of one function, each with where it ends and its rules; `standard` gives those of a
        function of the image itself, by its name and whether a run begins with its entry."""
        out, last = [], None
        for number, owner in enumerate(self.owners):
            address, part = CODE + 4 * number, self.parts.get(owner)
            kind = owner, self.stage(number, part)
            if kind == last and address not in self.entries:
                out[-1][1] = address + 4
                continue
            last = kind
            rules = self.rules_at(part, kind[1]) if part else standard(owner, address in self.entries)
            out.append([address, address + 4, rules])
        return out

    def stage(self, number, part):
        """Where a word stands in a part: 0 before its frame is taken, 1 in its body, 2 behind that, where its number
        is read."""
        if part is None or part.pointer is None:
            return 1
        if self.is_entry(number, part):
            return 0 if CODE + 4 * number <= part.taken else 1
        if part.given is None:
            part.given = self.given(part)
        return 2 if number in part.given else 1

    def is_entry(self, number, part):
        """Whether a word stands around the one that takes a part's frame."""
        first, last = part.entry
        return self.origins[number] == part.head and first <= CODE + 4 * number < last

    def given(self, part):
        """The words where a part's frame is given back, or has been: from the sum on that gives it, and those that look
        for the place to go back to by its number; with their slots. Others of the head's line are the body's, as those
        behind a call that the body begins with."""
        out, is_given = set(), False
        for number in ((it - CODE) // 4 for it in part.words):
            if self.origins[number] != part.head or self.is_entry(number, part):
                is_given = False
                if number - 1 in out and has_slot(self.loaded.words[number - 1]):
                    out.add(number)
                continue
            word = self.loaded.words[number]
            op3, rd, rs1, immediate = fields(word)
            gives = op3 == ADD and rd == rs1 == part.pointer and immediate == part.frame
            looks = op3 == COMPARE and rd == 0 and rs1 == BASE
            is_given = word >> 30 == 2 and (gives or looks) or is_given and self.origins[number - 1] == part.head
            if is_given:
                out.add(number)
        return out

    def rules_at(self, part, stage):
        """The rules of a part at a stage, reckoned once."""
        if (part.name, stage) not in self.known:
            frame = part.frame if stage == 1 else 0
            self.known[part.name, stage] = self.last_rules(part) if stage == 2 else self.rules(part, frame)
        return self.known[part.name, stage]
