"""Lists of ranges, and of places by ranges, as debug information has them: read from a linked file, written anew."""
import struct

from dwarf import Reader, sized, uleb

# What a list begins another base by, in version 4.
BASE = 0xFFFFFFFF


class Lists:
    """The lists of version 5, as gcc writes them."""

    def __init__(self, sections):
        self.sections = sections
        self.ranges_made, self.places_made = (bytearray(struct.pack(">HBBI", 5, 4, 0, 0)) for _ in range(2))

    def written(self):
        """The sections with what they hold."""
        return [(".debug_loclists", sized(bytes(self.places_made))),
                (".debug_rnglists", sized(bytes(self.ranges_made)))]

    def ranges(self, offset, base):
        """Yields the ranges of a list of a unit with this base."""
        r = Reader(self.sections[".debug_rnglists"], offset)
        while kind := r.number(1):
            if kind == 5:
                base = r.number(4)
            elif kind in (4, 6, 7):
                yield self.span(r, kind, base, 6)
            else:
                raise ValueError(f"a range of kind {kind}")

    def places(self, offset, base):
        """Yields the places of a list: where a range begins and ends, and an expression."""
        r = Reader(self.sections[".debug_loclists"], offset)
        while kind := r.number(1):
            if kind == 9:  # views
                r.uleb(), r.uleb()
            elif kind == 6:
                base = r.number(4)
            elif kind in (4, 7, 8):
                yield *self.span(r, kind, base, 7), r.take(r.uleb())
            else:
                raise ValueError(f"a place of kind {kind}")

    @staticmethod
    def span(r, kind, base, of_two):
        """A range: by two offsets, by two addresses, or by an address and a length."""
        if kind == 4:
            return base + r.uleb(), base + r.uleb()
        low = r.number(4)
        return low, r.number(4) if kind == of_two else low + r.uleb()

    def put_ranges(self, ranges):
        """Writes a list of ranges; returns its place."""
        at = len(self.ranges_made) + 4
        for low, high in ranges:
            self.ranges_made += b"\7" + struct.pack(">I", low) + uleb(high - low)
        self.ranges_made += b"\0"
        return at

    def put_places(self, places):
        """Writes a list of places; returns its place."""
        at = len(self.places_made) + 4
        for low, high, expression in places:
            self.places_made += b"\x08" + struct.pack(">I", low) + uleb(high - low)
            self.places_made += uleb(len(expression)) + expression
        self.places_made += b"\0"
        return at


class OldLists(Lists):
    """The lists of version 4, as clang is asked for them."""

    def __init__(self, sections):
        super().__init__(sections)
        self.ranges_made, self.places_made = bytearray(), bytearray()

    def written(self):
        """The sections with what they hold, where they hold anything."""
        made = ((".debug_loc", bytes(self.places_made)), (".debug_ranges", bytes(self.ranges_made)))
        return [it for it in made if it[1]]

    @staticmethod
    def spans(r, base):
        """Yields the ranges of a list up to its end; what stands behind one is the caller's to read."""
        while (pair := (r.number(4), r.number(4))) != (0, 0):
            if pair[0] == BASE:
                base = pair[1]
            else:
                yield base + pair[0], base + pair[1]

    def ranges(self, offset, base):
        """Yields the ranges of a list."""
        yield from self.spans(Reader(self.sections[".debug_ranges"], offset), base)

    def places(self, offset, base):
        """Yields the places of a list."""
        r = Reader(self.sections[".debug_loc"], offset)
        for low, high in self.spans(r, base):
            yield low, high, r.take(r.number(2))

    def put_ranges(self, ranges):
        """Writes a list of ranges; returns its place."""
        at = len(self.ranges_made)
        for pair in (*ranges, (0, 0)):
            self.ranges_made += struct.pack(">II", *pair)
        return at

    def put_places(self, places):
        """Writes a list of places; returns its place."""
        at = len(self.places_made)
        for low, high, expression in places:
            self.places_made += struct.pack(">IIH", low, high, len(expression)) + expression
        self.places_made += struct.pack(">II", 0, 0)
        return at
