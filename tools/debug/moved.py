"""The compiler's own debug information, at the places of an image: as the compiler wrote it, byte for byte, but for
addresses. What lies together in the compiler's code need not in the image, so ranges, lists of places and lines are
written anew; what moved where is known of each word (origins.py)."""
import bisect
import collections
import os
import struct

from dwarf import END_SEQUENCE, Reader, set_address, sized, sleb, uleb
from items import (ADDRESS_FORM, EXPRESSION, FULL_REFERENCE, INDEX, LINE_STRING, LOCATION, LOW, OFFSET_FORM, RANGES,
                   REFERENCE, STRING, UNIT, Items)
from lists import Lists, OldLists
from loaded import CODE, TOP

# Attributes and tags that are looked at.
FRAME_BASE, DATA_LOCATION, FOLDER, LINES, ENTRY = 0x40, 0x46, 0x1B, 0x10, 0x52
RETURN, CALL_PC, CALL_VALUE = 0x7D, 0x81, 0x7E
NAME, COLUMN, SOURCE, EXTERNAL, ORIGIN, IN_STRINGS = 0x03, 0x39, 0x3A, 0x3F, 0x31, 0x0E
FUNCTION, VARIABLE, PARAMETER = 0x2E, 0x34, 0x05
# The function that is called at a place, by the items of such places; and where it begins, as an expression.
CALLED = {0x48: 0x7F, 0x4109: ORIGIN}
CALL_TARGET = uleb(0x83) + bytes([EXPRESSION])
LIBRARY = f"{TOP}/runtime/"
# What stands behind an operation of an expression: bytes, u and s numbers, b and B blocks; and items that are referred
# to: r in all of them, c in a unit, and t a type in a unit, as a number.
OPERANDS = {0x03: "4", 0x08: "1", 0x09: "1", 0x0A: "2", 0x0B: "2", 0x0C: "4", 0x0D: "4", 0x0E: "8", 0x0F: "8",
            0x10: "u", 0x11: "s", 0x15: "1", 0x23: "u", 0x28: "2", 0x2F: "2", 0x90: "u", 0x91: "s", 0x92: "us",
            0x93: "u", 0x94: "1", 0x99: "c", 0x9A: "r", 0x9D: "uu", 0x9E: "b", 0xA0: "rs", 0xA3: "b", 0xA4: "tB",
            0xA5: "ut", 0xA6: "1t", 0xA8: "t", 0xA9: "t", 0xF2: "rs", 0xF3: "b", 0xF4: "tB", 0xF5: "ut", 0xF6: "1t",
            0xF7: "t", 0xF9: "t", 0xFA: "c", 0xFD: "r", **{it: "s" for it in range(0x70, 0x90)}}
ADDRESS, BY_FRAME, BY_FP, BY_SP, FP, SP = 0x03, 0x91, 0x8E, 0x7E, 0x6E, 0x5E
# What compilers tell a frame's address by: %fp, or what unwinding gives.
BY_FP_ITSELF = bytes([FP]), b"\x9c"


class Move:
    """Where code and data went. `rows` is the linked address of each word's origin, None where it has none; `objects`
    are begins of data in the linked file with sizes and where they are now; `frames`, by the address of a function in
    the linked file, its frame; `holding` tells which registers hold at a word what they are said to, and `kept` which
    one is in memory; `untracked` are the functions of which the compiler doesn't know how long a register holds what it
    did at their begin: those of the library, which is compiled without variables."""

    def __init__(self, rows, objects, frames, text, holding, kept):
        self.holding, self.kept, self.untracked = holding, kept, set()
        self.rows, self.objects, self.frames, (self.low, self.high) = rows, sorted(objects), frames, text
        self.there = {}
        for number, address in enumerate(rows):
            if address is not None:
                self.there.setdefault(address, []).append(number)
        self.known, self.starts = sorted(self.there), sorted(frames)

    def ranges(self, low, high, registers=()):
        """Where the code of a range lies now, as ranges; what it begins with stands in the first one. Words where one
        of some registers doesn't hold what it did are left out."""
        first, last = bisect.bisect_left(self.known, low), bisect.bisect_left(self.known, high)
        numbers, out = sorted(number for it in self.known[first:last] for number in self.there[it]), []
        for number in numbers:
            if registers and not self.holding.has(number, registers):
                continue
            at = CODE + 4 * number
            if out and out[-1][1] == at:
                out[-1][1] = at + 4
            else:
                out.append([at, at + 4])
        entry = self.code(low) if out else 0
        return sorted(out, key=lambda it: not it[0] <= entry < it[1])

    def kept_at(self, low, high, expression):
        """Where a register that an expression is of is kept in memory, as places."""
        for number, (register, place) in self.kept.items():
            row = self.rows[number]
            if row is not None and low <= row < high and expression == bytes([0x50 + register]):
                yield CODE + 4 * number, CODE + 4 * number + 4, place

    def line_rows(self):
        """Of each word the address that its line is told by: where a store stands in the slot of a branch, what stands
        before that belongs to the store's line still, so that no line begins before the one before it is done."""
        rows = list(self.rows)
        for slot, row in self.holding.stores.items():
            number = slot
            while number >= 0 and rows[number] is not None and (number >= slot - 1 or row < rows[number] < row + 64):
                rows[number] = row
                if number in self.holding.blocks:
                    break
                number -= 1
        return rows

    def code(self, address):
        """The first place that comes from an address, or from the next one that something comes from; 0 where none
        does."""
        at = bisect.bisect_left(self.known, address)
        return CODE + 4 * self.there[self.known[at]][0] if at < len(self.known) else 0

    def frame(self, address):
        """The frame of the function at an address; None where no function is."""
        at = bisect.bisect_right(self.starts, address)
        return self.frames[self.starts[at - 1]] if at else None

    def place(self, address):
        """Where what had an address in the linked file is now; 0 where it isn't any more."""
        if self.low <= address < self.high:
            return self.code(address)
        at = bisect.bisect_right(self.objects, (address, 1 << 32, 0)) - 1
        if at >= 0:
            start, size, now = self.objects[at]
            if start <= address < start + size:
                return now + address - start
        return 0


class Moved(Items):
    """The compiler's debug information at the places of the image."""

    def __init__(self, linked, move, work):
        super().__init__(linked.sections[".debug_info"], linked.sections[".debug_abbrev"])
        self.linked, self.move, self.work = linked, move, work
        self.strings = bytearray(linked.sections.get(".debug_line_str", b""))
        self.here = len(self.strings)
        self.strings += os.fsencode(os.getcwd()) + b"\0"
        self.of_version = {4: OldLists(linked.sections), 5: Lists(linked.sections)}
        self.lists = self.of_version[5]
        self.programs, self.written = bytearray(), {}
        self.low, self.function, self.extent = 0, 0, []
        self.names, self.paths = bytearray(linked.sections.get(".debug_str", b"")), []
        # of each function's item where the function begins now; of a variable's whose place another item tells, that
        self.begins, self.placed = {}, {}
        # names of variables; the items of those at the outside of a unit that others tell the rest of
        self.named, self.outer, self.is_unclear = {}, [], False
        for do in (self.find_begins, self.find_wide, self.move_items):
            for unit in self.units:
                self.lists, self.low, self.function, self.extent = self.of_version[unit.version], 0, 0, []
                do(unit)

    def sections(self):
        """The sections with what they hold."""
        info, abbreviations = self.assembled()
        return [(".debug_info", info), (".debug_abbrev", abbreviations), (".debug_line", bytes(self.programs)),
                *(section for it in self.of_version.values() for section in it.written()),
                (".debug_str", bytes(self.names)), (".debug_line_str", bytes(self.strings))]

    # ---- items

    def find_wide(self, unit):
        """Gives lists of places to the variables of a unit that have one place, a register: it holds them no longer
        at all words. Where the compiler made no lists gdb trusts no list either at a function's begin: such a unit's
        variables lie in memory, and a register isn't told."""
        found, has_lists, self.paths = [], False, []
        for at, code, tag, attributes in self.items(unit):
            if tag == VARIABLE:
                self.find_static(unit, at, code, attributes)
            for it in attributes:
                self.find_function(tag, it)
                if it.name == LINES:
                    self.paths = self.paths_of(it.value)
                if it.name == FRAME_BASE and it.value in BY_FP_ITSELF:
                    self.give_room(it, self.move.frame(self.function).base)
                has_lists |= it.name == LOCATION and it.form == OFFSET_FORM
                if it.name == CALLED.get(tag) and it.form in (REFERENCE, FULL_REFERENCE):
                    self.name_target(unit, at, code, it)
                if it.name == LOCATION and it.form == EXPRESSION and tag in (VARIABLE, PARAMETER):
                    found += [(at, code, it)] * bool(named_in(it.value) - {14, 30})
        for at, code, it in found if has_lists else ():
            self.widen(unit, at, code, it)

    def find_begins(self, unit):
        """Notes where the functions of a unit begin now, which is where the first one of their ranges does, and places
        of variables that other items tell the rest of."""
        for at, _, tag, attributes in self.items(unit):
            low, by_name = 0, {it.name: it for it in attributes}
            for it in attributes:
                self.find_function(tag, it)
                low = it.value if it.name == LOW and it.form == ADDRESS_FORM else low
                if tag == FUNCTION and it.change == "ranges":
                    self.begins[at] = self.begin([(low, low + it.value)])
                elif tag == FUNCTION and it.name == RANGES and it.form == OFFSET_FORM:
                    self.begins[at] = self.begin(self.lists.ranges(it.value, self.low))
            if tag == VARIABLE:
                self.find_place(unit, at, by_name)

    def find_place(self, unit, at, by_name):
        """Notes a variable's name, or its place in the data where another item tells the rest of it."""
        place, origin, name = (by_name.get(it) for it in (LOCATION, ORIGIN, NAME))
        if name:
            self.named[at] = self.text(name)
        elif place and origin and place.form == EXPRESSION and len(place.value) == 5 and place.value[0] == ADDRESS:
            target = self.target(unit, origin)
            self.placed[target] = self.expression(place.value, self.function)
            self.outer += [(unit.at, at, target)] * (self.depth == 1)

    def unclear(self):
        """The items of variables of one unit that share their name, of two files: gdb would find any of them."""
        named = {(unit, target): (unit, self.named.get(target)) for unit, _, target in self.outer}
        counts = collections.Counter(named.values())
        return {at for unit, at, target in self.outer if counts[named[unit, target]] > 1}

    def begin(self, ranges):
        """Where the first one of some ranges is now; 0 where none is there."""
        return next((now[0] for was in ranges for now in self.move.ranges(*was)), 0)

    @staticmethod
    def target(unit, it):
        """The place of the item that an attribute refers to."""
        return it.value + (unit.at if it.form == REFERENCE else 0)

    def name_target(self, unit, at, code, it):
        """Has a place of a call name the address that is called, in the place of the function's item: gdb 13 gives the
        ranges of such a function too little room, and may end by a fault."""
        begin = self.begins.get(self.target(unit, it))
        if begin is not None:
            self.replace(unit, at, code, it, CALL_TARGET, block(bytes([ADDRESS]) + struct.pack(">I", begin)))

    def find_static(self, unit, at, code, attributes):
        """gcc tells the places of all files' static variables in one unit, where gdb finds one by its name alone. So a
        variable's own file tells its place, too, where its column was told; and those of the library get names that
        authors don't use."""
        by_name = {it.name: it for it in attributes}
        name, source = by_name.get(NAME), by_name.get(SOURCE)
        if self.placed.get(at) and COLUMN in by_name and LOCATION not in by_name:
            place = bytes([LOCATION, EXPRESSION])
            self.replace(unit, at, code, by_name[COLUMN], place, block(self.placed[at]))
        path = self.paths[source.value:source.value + 1] if source else []
        if self.depth == 1 and name and LOCATION in by_name and EXTERNAL not in by_name and path and \
                path[0].startswith(LIBRARY):
            self.rename(name)

    def text(self, it):
        """The text of an attribute."""
        return it.value if it.form == STRING else Reader(self.names, it.value).string()

    def rename(self, it):
        """Gives an item the name that it has with two low lines before it."""
        name = b"__" + os.fsencode(self.text(it)) + b"\0"
        if it.form == STRING:
            self.edits.append((it.place, it.end, name))
        else:
            self.put(it.place, len(self.names))
            self.names += name

    def move_items(self, unit):
        """Moves the items of a unit."""
        unclear = self.unclear()
        for item in self.items(unit):
            self.is_unclear = item[0] in unclear
            self.item(*item)

    def find_function(self, tag, it):
        """Notes where a unit or a function begins that an attribute belongs to."""
        if it.name == LOW and it.form == ADDRESS_FORM:
            self.low = it.value if tag == UNIT else self.low
            self.function = it.value if tag == FUNCTION else self.function
        elif it.name == RANGES and it.form == OFFSET_FORM and tag == FUNCTION:
            self.function = next(iter(self.lists.ranges(it.value, self.low)), (0, 0))[0]

    def item(self, _at, _code, tag, attributes):
        """Moves an item."""
        low = 0
        for it in attributes:
            self.find_function(tag, it)
            if it.name == LOW and it.form == ADDRESS_FORM:
                low = it.value
                if it.change is None:
                    self.put(it.place, 0 if tag == UNIT else self.move.code(low))
            elif it.change == "ranges":
                self.extent = [(low, low + it.value)] if tag == FUNCTION else self.extent
                self.put(it.place, self.lists.put_ranges(self.move.ranges(low, low + it.value)))
            else:
                self.attribute(tag, it)

    def attribute(self, tag, it):
        """Moves an attribute that is no low or high end."""
        if it.name == FOLDER and it.form == LINE_STRING and Reader(self.strings, it.value).string() == self.work:
            self.put(it.place, self.here)  # the folder for work goes
        elif it.name == RANGES and it.form == OFFSET_FORM:
            self.put_ranges(tag, it)
        elif it.name in (ENTRY, RETURN, CALL_PC) and it.form == ADDRESS_FORM:
            self.put(it.place, self.move.code(it.value))
        elif it.name == LINES:
            self.put(it.place, self.lines(it.value))
        elif it.name in (LOCATION, FRAME_BASE, CALL_VALUE, DATA_LOCATION) and it.form == OFFSET_FORM:
            self.put(it.place, self.locations(self.lists.places(it.value, self.low)))
        elif it.name == FRAME_BASE and it.value in BY_FP_ITSELF:
            if it.place not in self.wide:
                self.info[it.end - 1:it.end] = self.move.frame(self.function).base
        elif it.form == EXPRESSION and it.value:
            self.put_expression(tag, it)

    def put_ranges(self, tag, it):
        """Moves a list of ranges."""
        ranges = list(self.lists.ranges(it.value, self.low))
        self.extent = ranges if tag == FUNCTION else self.extent
        self.put(it.place, self.lists.put_ranges([now for was in ranges for now in self.move.ranges(*was)]))

    def put_expression(self, tag, it):
        """Moves an expression; one that names registers becomes a list, or isn't told."""
        if it.place in self.wide:
            is_known = self.function not in self.move.untracked
            places = ((*pair, it.value) for pair in self.extent if is_known)
            self.wide[it.place] = struct.pack(">I", self.locations(places))
            return
        moved = self.expression(it.value, self.function)
        if it.name == LOCATION and tag in (VARIABLE, PARAMETER) and named_in(it.value) - {14, 30}:
            moved = None
        if it.name == LOCATION and self.is_unclear:
            moved = None
        # (what can't be told any more has an operation that gdb has no value of)
        self.info[it.end - len(it.value):it.end] = moved or b"\x96" * (len(it.value) - 1) + b"\x30"

    # ---- places

    def expression(self, data, address):
        """An expression of a place in the code, with the addresses of data as they are now; None where it needs a
        word of a frame that can't be told. What was %fp is the frame's address, in the data or not."""
        data, r, frame = bytearray(data), Reader(bytes(data)), self.move.frame(address)
        while r.at < len(data):
            op = r.number(1)
            if op in (BY_SP, FP, SP):
                return None
            if op in (BY_FRAME, BY_FP):
                start = r.at
                offset = self.offset(frame, r.sleb(), r.at - start)
                if offset is None:
                    return None
                data[start - 1:r.at] = bytes([BY_FRAME]) + offset
                continue
            if op == ADDRESS:
                now = self.move.place(r.number(4))
                if not now:
                    return None
                data[r.at - 4:r.at] = struct.pack(">I", now)
                continue
            for kind in OPERANDS.get(op, ""):
                start = r.at
                self.skip(r, kind)
                if kind in "rct" and not self.refer(data, start, r.at, kind):
                    return None
        return bytes(data)

    def refer(self, data, start, end, kind):
        """Moves a reference to an item in an expression; says whether it has room."""
        unit = 0 if kind == "r" else self.unit.at
        read = Reader(bytes(data), start)
        target = read.uleb() if kind == "t" else read.number(4)
        now = self.shifted(unit + target) - self.shifted(unit)
        moved = uleb(now) if kind == "t" else struct.pack(">I", now)
        data[start:end] = moved if len(moved) == end - start else data[start:end]
        return now == target or len(moved) == end - start

    @staticmethod
    def offset(frame, offset, size):
        """An offset from %fp as it is now, in so many bytes; None where it isn't known, or has no room."""
        offset = None if frame is None else frame.offset(offset)
        if offset is None:
            return None
        out = bytes([offset >> 7 * it & 127 | 128 for it in range(size - 1)]) + bytes([offset >> 7 * (size - 1) & 127])
        return out if Reader(out).sleb() == offset else None

    @staticmethod
    def skip(r, kind):
        """Passes an operand."""
        if kind in "ut":
            r.uleb()
        elif kind == "s":
            r.sleb()
        else:
            r.take(r.uleb() if kind == "b" else r.number(1) if kind == "B" else 4 if kind in "rc" else int(kind))

    def locations(self, places):
        """Moves places; returns where their list is."""
        out = []
        for low, high, data in places:
            expression = self.expression(data, low)
            if expression is not None:
                out += ((*it, expression) for it in self.move.ranges(low, high, named_in(expression)))
                out += self.move.kept_at(low, high, expression)
        return self.lists.put_places(out)

    # ---- lines

    def paths_of(self, offset):
        """The paths of the files that a line program names, by their numbers."""
        table = lines_of(self.linked.sections[".debug_line"], offset, self.linked.sections)[1]
        return [os.path.realpath(os.path.join(self.work, it)) for it in table.paths(self.work)]

    def lines(self, offset):
        """Moves a line program, by the head that it has, so that its numbers of files hold; returns where it is."""
        if offset in self.written:
            return self.written[offset]
        rows, table = lines_of(self.linked.sections[".debug_line"], offset, self.linked.sections)
        head = table.head(os.getcwd())
        covered, out, state, last = covered_by(rows), bytearray(), (1, 1), None
        for number, address in enumerate(self.move.line_rows()):
            now = covered.get(address)
            if now == last or address is None and last is not None:  # (./fit's own words go on with the line before)
                continue
            if now is None:
                out += set_address(CODE + 4 * number) + END_SEQUENCE
                state = (1, 1)
            else:
                out += set_address(CODE + 4 * number) + (b"\4" + uleb(now[0]) if now[0] != state[0] else b"")
                out += (b"\3" + sleb(now[1] - state[1]) if now[1] != state[1] else b"") + b"\1"
                state = now
            last = now
        if last is not None:
            out += set_address(CODE + 4 * len(self.move.rows)) + END_SEQUENCE
        self.written[offset] = at = len(self.programs)
        self.programs += sized(head + bytes(out))
        return at


def block(expression):
    """An expression with its size before it."""
    return uleb(len(expression)) + expression


def named_in(expression):
    """The registers that an expression names."""
    r, found = Reader(expression), set()
    while r.at < len(expression):
        op = r.number(1)
        if 0x50 <= op < 0x90:
            found.add((op - 0x50) % 32)
        for kind in OPERANDS.get(op, ""):
            Moved.skip(r, kind)
    return found


def covered_by(rows):
    """The file and line of each address that the rows of a line program cover."""
    out = {}
    for (address, file, line, is_end), (following, *_) in zip(rows, rows[1:]):
        if not is_end:
            for at in range(address, following, 4):
                out[at] = file, line
    return out


class Lines:
    """The machine of a line program of version 5, which makes rows: address, file, line, and whether a sequence
    ends."""

    def __init__(self, r, head):
        self.r, (self.least, self.base, self.span, self.opcodes, self.operands) = r, head
        self.rows = []
        self.begin()

    def begin(self):
        self.address, self.file, self.line = 0, 1, 1

    def row(self, is_end=False):
        self.rows.append((self.address, self.file, self.line, is_end))

    def run(self, end):
        """Runs the program up to its end."""
        while self.r.at < end:
            op = self.r.number(1)
            if op >= self.opcodes:
                self.address += (op - self.opcodes) // self.span * self.least
                self.line += self.base + (op - self.opcodes) % self.span
                self.row()
            elif op == 0:
                self.extended()
            else:
                self.standard(op)
        return self.rows

    def extended(self):
        """An operation with a size."""
        size = self.r.uleb()
        behind, kind = self.r.at + size, self.r.number(1)
        if kind == 2:
            self.address = self.r.number(4)
        elif kind == 1:
            self.row(True)
            self.begin()
        self.r.at = behind

    def standard(self, op):
        """An operation of one byte."""
        if op == 1:
            self.row()
        elif op == 2:
            self.address += self.r.uleb() * self.least
        elif op == 3:
            self.line += self.r.sleb()
        elif op == 4:
            self.file = self.r.uleb()
        elif op == 8:
            self.address += (255 - self.opcodes) // self.span * self.least
        elif op == 9:
            self.address += self.r.number(2)
        else:
            for _ in range(self.operands[op - 1]):
                self.r.uleb()


class Table:
    """The names of files that a line program has."""

    def __init__(self, r, sections):
        self.folders = [it.get(1, "") for it in self.entries(r, sections)]
        self.files = [(it.get(1, ""), it.get(2, 0)) for it in self.entries(r, sections)]

    @staticmethod
    def entries(r, sections):
        """The entries of a table: by kind, 1 for a path and 2 for the number of a folder."""
        formats, found = [(r.uleb(), r.uleb()) for _ in range(r.number(1))], []
        for _ in range(r.uleb()):
            entry = {}
            for kind, form in formats:
                if form == STRING:
                    entry[kind] = r.string()
                elif form in (0x0E, LINE_STRING):
                    name = ".debug_line_str" if form == LINE_STRING else ".debug_str"
                    entry[kind] = Reader(sections[name], r.number(4)).string()
                elif form == INDEX:
                    entry[kind] = r.uleb()
                else:
                    entry[kind] = r.number({0x0B: 1, 0x05: 2, 0x1E: 16}[form])
            found.append(entry)
        return found

    def paths(self, here):
        """The path of each file, as an author in a folder has it."""
        for name, number in self.files:
            parts = [*self.folders[:1], *self.folders[number:number + 1], name]
            path = os.path.normpath(os.path.join(*parts))
            yield os.path.relpath(path, here) if path.startswith(here + "/") else path

    def head(self, here):
        """The head of a program with these files: what stands before its operations but for its size."""
        body = bytes([4, 1, 1, 0xF6, 0xF2, 0x0D]) + bytes([0, 1, 1, 1, 1, 0, 0, 0, 1, 0, 0, 1])
        body += bytes([1, 1, STRING, 1]) + os.fsencode(here) + b"\0" + bytes([2, 1, STRING, 2, INDEX])
        paths = list(self.paths(here))
        body += uleb(len(paths)) + b"".join(os.fsencode(it) + b"\0\0" for it in paths)
        return struct.pack(">HBBI", 5, 4, 0, len(body)) + body


class OldTable(Table):
    """Such names as versions 2 to 4 have them, whose numbers begin with 1."""

    def __init__(self, r):
        self.folders = ["", *iter(r.string, "")]
        self.files = [("", 0)]
        while name := r.string():
            self.files.append((name, r.uleb()))
            r.uleb(), r.uleb()


def lines_of(section, at, sections):
    """The rows of a line program, and its files."""
    r = Reader(section, at)
    end, version = r.number(4) + at + 4, r.number(2)
    if not 2 <= version <= 5:
        raise ValueError(f"lines of version {version}")
    r.take(2 if version == 5 else 0)
    size = r.number(4)
    body = r.at + size
    least, _most = r.number(1), r.number(1) if version > 3 else 1
    _default, base = r.number(1), struct.unpack(">b", r.take(1))[0]
    span, opcodes = r.number(1), r.number(1)
    operands = [r.number(1) for _ in range(opcodes - 1)]
    table = Table(r, sections) if version == 5 else OldTable(r)
    r.at = body
    return Lines(r, (least, base, span, opcodes, operands)).run(end), table
