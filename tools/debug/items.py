"""The items of debug information: read one after the other, changed in their places, and written with what has another
size; references from one to another are kept."""
import bisect
import itertools
import struct

from dwarf import Reader, uleb

# Attributes, forms and a tag that are looked at here.
LOCATION, LOW, HIGH, RANGES, VIEWS, NOBODYS = 0x02, 0x11, 0x12, 0x55, 0x2137, b"\xff\x7f"
ADDRESS_FORM, OFFSET_FORM, DATA4, CONSTANT, EXPRESSION, LINE_STRING = 0x01, 0x17, 0x06, 0x21, 0x18, 0x1F
STRING, INDEX, REFERENCE, FULL_REFERENCE = 0x08, 0x0F, 0x13, 0x10
UNIT = 0x11
SIZES = {0x01: 4, 0x0B: 1, 0x05: 2, 0x06: 4, 0x07: 8, 0x0C: 1, 0x0E: 4, 0x1F: 4, 0x13: 4, 0x17: 4, 0x10: 4, 0x1E: 16,
         0x20: 8}


class Attribute:
    """An attribute of an item: its name and form, where its bytes begin and end, its value, and what is made of it."""

    def __init__(self, name, form, place, end, value, change):
        self.name, self.form, self.place, self.end, self.value, self.change = name, form, place, end, value, change


class Unit:
    """A unit: where it begins and ends, its version, where its first item is, and its abbreviations."""

    def __init__(self, info, at):
        r = Reader(info, at)
        self.at, self.end = at, r.number(4) + at + 4
        self.version = r.number(2)
        if self.version == 5:
            _kind, size = r.number(1), r.number(1)
        self.abbreviations_at = r.at
        self.abbreviations = r.number(4)
        if self.version != 5:
            size = r.number(1)
        if self.version not in (4, 5) or size != 4:
            raise ValueError(f"a unit of version {self.version}")
        self.first = r.at


class Abbreviations:
    """A table of abbreviations. A low and a high end become ranges, and views of locations go."""

    def __init__(self, data, at):
        self.data, self.start = data, at
        self.entries, self.spans, self.others, self.copies = {}, {}, {}, bytearray()
        self.parents = set()  # the codes of items that have others within
        r = Reader(data, at)
        while code := r.uleb():
            start, tag, has_children, attributes, places, ends = r.at, r.uleb(), r.number(1), [], {}, {}
            if has_children:
                self.parents.add(code)
            while True:
                place = r.at
                name, form = r.uleb(), r.uleb()
                value = r.sleb() if form == CONSTANT else None
                if not name:
                    break
                places[name], ends[name] = place, r.at
                attributes.append([name, form, value, None])
            self.spread(tag, attributes, places)
            self.entries[code], self.spans[code] = (tag, attributes), (start, r.at, places, ends)
        self.end = r.at

    def spread(self, tag, attributes, places):
        """Has an abbreviation name ranges in the place of a low and a high end."""
        by_name = {it[0]: it for it in attributes}
        if VIEWS in by_name:  # views of locations aren't kept
            self.data[places[VIEWS]:places[VIEWS] + 2] = NOBODYS
        high = by_name.get(HIGH)
        if tag != UNIT and LOW in by_name and high and high[1] == DATA4:
            by_name[LOW][3], high[3] = "low", "ranges"
            self.data[places[LOW]] = 0x06  # no attribute has this number
            self.data[places[HIGH]], self.data[places[HIGH] + 1] = RANGES, OFFSET_FORM

    def other(self, code, name, form):
        """The code of an abbreviation that is another one, but for an attribute: `form` is its name and form there. Of
        each one attribute is another at the most."""
        if code not in self.others:
            start, end, places, ends = self.spans[code]
            self.others[code] = max(self.entries) + len(self.others) + 1
            self.copies += uleb(self.others[code]) + self.data[start:places[name]] + form
            self.copies += self.data[ends[name]:end]
        return self.others[code]

    def written(self):
        """The table as it is now."""
        return bytes(self.data[self.start:self.end - 1]) + bytes(self.copies) + b"\0"


class Items:
    """The items of all units, with what is changed."""

    def __init__(self, info, abbreviations):
        self.info, self.units, self.tables = bytearray(info), [], {}
        # by place what an attribute of another size holds; begins, ends, and what is there now, None of a list's place
        self.wide, self.edits = {}, []
        self.ends = self.sums = None
        self.depth = 0
        self.unit, data, at = None, bytearray(abbreviations), 0
        while at < len(self.info):
            unit = Unit(self.info, at)
            self.units.append(unit)
            if unit.abbreviations not in self.tables:
                self.tables[unit.abbreviations] = Abbreviations(data, unit.abbreviations)
            at = unit.end

    def items(self, unit):
        """Yields the items of a unit: where each is, its code, its tag and its attributes."""
        r, table, self.unit, depth = Reader(self.info, unit.first), self.tables[unit.abbreviations], unit, 0
        while r.at < unit.end:
            at, code = r.at, r.uleb()
            if code:
                tag, attributes = table.entries[code]
                self.depth = depth  # in how many others it is
                yield at, code, tag, [self.attribute_at(r, *it) for it in attributes]
            depth += (code in table.parents) - (code == 0)

    def attribute_at(self, r, name, form, value, change):
        """Reads an attribute."""
        place = r.at
        value = self.value(r, form, value)
        return Attribute(name, form, place, r.at, value, change)

    @staticmethod
    def value(r, form, value):
        """The value of an attribute."""
        if form in SIZES:
            return r.number(SIZES[form])
        if form in (0x19, CONSTANT):
            return value
        if form == 0x0F:
            return r.uleb()
        if form == 0x0D:
            return r.sleb()
        if form == STRING:
            return r.string()
        if form in (EXPRESSION, 0x09):
            return r.take(r.uleb())
        if form == 0x0A:
            return r.take(r.number(1))
        raise ValueError(f"the form {form:X}")

    def put(self, at, word):
        """Puts a word into the items."""
        self.info[at:at + 4] = struct.pack(">I", word)

    # ---- other sizes

    def widen(self, unit, at, code, attribute):
        """Gives a place's attribute room for a list of places."""
        self.replace(unit, at, code, attribute, bytes([LOCATION, OFFSET_FORM]), None)
        self.wide[attribute.place] = bytes(4)

    def replace(self, unit, at, code, attribute, form, value):
        """Puts another attribute, of a name and a form, in the place of an item's, and gives the item another
        abbreviation."""
        other = self.tables[unit.abbreviations].other(code, attribute.name, form)
        self.edits += [(at, at + len(uleb(code)), uleb(other)), (attribute.place, attribute.end, value)]

    def give_room(self, attribute, expression):
        """Puts an expression of another size in an attribute's place."""
        if len(expression) != len(attribute.value):
            self.edits.append((attribute.place, attribute.end, uleb(len(expression)) + expression))
            self.wide[attribute.place] = expression

    def shifted(self, at):
        """Where what stood somewhere stands now."""
        if self.ends is None:
            self.edits.sort(key=lambda it: it[0])
            self.ends = [end for _, end, _ in self.edits]
            sizes = ((4 if code is None else len(code)) - (end - start) for start, end, code in self.edits)
            self.sums = [0, *itertools.accumulate(sizes)]
        return at + self.sums[bisect.bisect_right(self.ends, at)]

    def assembled(self):
        """The items and the abbreviations as they are now."""
        out, at, tables, places = bytearray(), 0, bytearray(), {}
        for offset, table in self.tables.items():
            places[offset] = len(tables)
            tables += table.written()
        references = [(it, unit.at if it.form == REFERENCE else 0) for unit in self.units
                      for _, _, _, attributes in self.items(unit) for it in attributes
                      if it.form in (REFERENCE, FULL_REFERENCE)]
        for it, base in references:
            self.put(it.place, self.shifted(base + it.value) - self.shifted(base))
        for unit in self.units:
            self.put(unit.at, self.shifted(unit.end) - self.shifted(unit.at) - 4)
            self.put(unit.abbreviations_at, places[unit.abbreviations])
        for start, end, code in self.edits:
            out += self.info[at:start] + (self.wide[start] if code is None else code)
            at = end
        return bytes(out + self.info[at:]), bytes(tables)
