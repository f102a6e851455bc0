"""An ELF file of an image, for gdb alone: code and data at their addresses, names, lines, and how to unwind."""
import hashlib
import os
import re
import struct

from dwarf import ABBREVIATIONS, Reader, frame_rules, frames, line_program, unit
from loaded import CODE, DATA, Fault, bytes_of, tool
from maps import Fitted

ALLOCATED, EXECUTED, WRITTEN = 2, 4, 1
PROGRAM, SYMBOLS, STRINGS, NOWHERE = 1, 2, 3, 8
FUNCTION, OBJECT, ABSOLUTE = 2, 1, 0xFFF1
HEADER_SIZE, SEGMENT_SIZE = 52, 32
PLAIN_NAME = re.compile(r"[A-Za-z_][\w.]*")
ROW = re.compile(r"([0-9A-F]{8}) (\d+)(?: (function|block|label) (\S+))?")


class Names:
    """What is known of an image's source: rows of lines, functions and labels by address, and data."""

    def __init__(self):
        self.rows = []  # address, path, line
        self.functions, self.labels = {}, {}  # address to name
        self.objects = []  # address, name, bytes

    def of_fitted(self, fitted):
        """Takes what comments of a source of ./fit's tell: lines of C, and names of data."""
        place = None
        for number, comment in enumerate(fitted.comments):
            place = comment or place
            if place:
                self.rows.append((CODE + 4 * number, *place))
        self.functions.update(fitted.functions)
        self.objects += fitted.objects

    def of_map(self, text, path):
        """Takes what `inspect map` tells of a source."""
        for address, line, kind, name in ROW.findall(text):
            address = int(address, 16)
            if kind == "function":
                self.functions[address] = name
            elif kind and address >= DATA:
                self.objects.append([address, name, 0])
            elif kind:
                self.labels[address] = name
            else:
                self.rows.append((address, path, int(line)))

    def function(self, number, address):
        """The name of a function, by its number where none is known."""
        return self.functions.get(address, f"f{number}")

    def changed_rows(self):
        """The rows where the line is another than before, or a function begins."""
        return [it for number, it in enumerate(self.rows)
                if number == 0 or it[1:] != self.rows[number - 1][1:] or it[0] in self.functions]


class Section:
    """A section: its kind, flags, address, bytes, and what it is linked with."""

    def __init__(self, name, kind, flags=0, address=0, data=b"", link=0, info=0, entry=0):
        self.name, self.kind, self.flags, self.address, self.data = name, kind, flags, address, data
        self.link, self.info, self.entry = link, info, entry


def loaded_sections(loaded):
    """Code and data."""
    sections = [Section("", 0), Section(".text", PROGRAM, ALLOCATED | EXECUTED, CODE, loaded.code)]
    for number, (address, data, is_written) in enumerate(loaded.regions):
        name, flags = (".data", ALLOCATED | WRITTEN) if is_written else (".rodata", ALLOCATED)
        sections.append(Section(f"{name}.{number}", PROGRAM, flags, address, data))
    return sections


def symbol_sections(loaded, names, sections):
    """The symbols and their names, where other sections stand before them."""
    strings, found = bytearray(b"\0"), [struct.pack(">IIIBBH", 0, 0, 0, 0, 0, 0)]

    def add(name, value, size, kind, section, binding):
        found.append(struct.pack(">IIIBBH", len(strings), value, size, binding << 4 | kind, 0, section))
        strings.extend(name.encode("utf-8", "surrogateescape") + b"\0")
    for address, name in sorted(names.labels.items()):
        if address not in names.functions:
            add(name, address, 0, 0, 1, 0)
    local = len(found)
    for number, (start, stop) in enumerate(extents(loaded)):
        add(names.function(number, start), start, stop - start, FUNCTION, 1, 1)
    for address, name, size in names.objects:
        within = [number for number, it in enumerate(sections)
                  if it.address <= address < it.address + len(it.data) and it.address >= DATA]
        if " " not in name:
            add(name, address, size, OBJECT, within[0] if within else ABSOLUTE, 1)
    return [Section(".symtab", SYMBOLS, data=b"".join(found), link=len(sections) + 1, info=local, entry=16),
            Section(".strtab", STRINGS, data=bytes(strings))]


def extents(loaded):
    """Where each function begins and ends."""
    starts = [it[0] for it in loaded.functions]
    return list(zip(starts, [*starts[1:], loaded.end]))


def plain_runs(loaded):
    """A run for each function, whose frame lies on the stack."""
    framed = dict(loaded.functions)
    return [(start, stop, frame_rules(framed[start])) for start, stop in extents(loaded)]


def own_debug(loaded, names, folder):
    """Debug information of names and lines alone."""
    files = {path: number for number, path in enumerate(dict.fromkeys(it[1] for it in names.rows), 1)}
    functions = [(names.function(number, start), start, stop) for number, (start, stop) in enumerate(extents(loaded))]
    objects = [(name, address, size) for address, name, size in names.objects if size and PLAIN_NAME.fullmatch(name)]
    path = next(iter(files), "image.s")
    return [(".debug_abbrev", ABBREVIATIONS), (".debug_info", unit(path, folder, functions, objects, loaded.end)),
            (".debug_line", line_program(names.changed_rows(), files, loaded.end))]


def written(loaded, names, debug, runs=None):
    """The bytes of the file; `debug` are further sections with what they hold, `runs` those of words with rules of
    frames."""
    sections = loaded_sections(loaded)
    for name, data in [*debug, (".debug_frame", frames(runs or plain_runs(loaded)))]:
        sections.append(Section(name, PROGRAM, data=data))
    sections += symbol_sections(loaded, names, sections)
    titles = b"\0".join(it.name.encode() for it in sections) + b"\0.shstrtab\0"
    sections.append(Section(".shstrtab", STRINGS, data=titles))
    segments = [it for it in sections if it.flags & ALLOCATED]
    at, body, places = HEADER_SIZE + SEGMENT_SIZE * len(segments), bytearray(), {}
    for it in sections:
        body += b"\0" * (-len(body) % 4)
        places[it.name] = at + len(body)
        body += it.data
    body += b"\0" * (-len(body) % 4)
    head = b"\x7fELF\1\2\1" + b"\0" * 9
    head += struct.pack(">HHIIIIIHHHHHH", 2, 2, 1, CODE, HEADER_SIZE, at + len(body), 0, HEADER_SIZE, SEGMENT_SIZE,
                        len(segments), 40, len(sections), len(sections) - 1)
    return (head + b"".join(segment(it, places[it.name]) for it in segments) + bytes(body)
            + b"".join(header(it, titles, places[it.name]) for it in sections))


def segment(section, place):
    """The program header of a section that is loaded."""
    rights = 5 if section.flags & EXECUTED else 6 if section.flags & WRITTEN else 4
    size = len(section.data)
    return struct.pack(">8I", 1, place, section.address, section.address, size, size, rights, 4)


def header(section, titles, place):
    """The header of a section."""
    title = titles.find(section.name.encode() + b"\0") if section.name else 0
    is_there = 4 if section.kind else 0
    return struct.pack(">10I", title, section.kind, section.flags, section.address, place if section.kind else 0,
                       len(section.data), section.link, section.info, is_there, section.entry)


class Elf:
    """Sections and symbols of an ELF file of 32 bits, big-endian."""

    def __init__(self, data):
        if data[:6] != b"\x7fELF\1\2":
            raise ValueError("no ELF file of SPARC")
        (offset,), (size, count, names) = struct.unpack_from(">I", data, 32), struct.unpack_from(">HHH", data, 46)
        heads = [struct.unpack_from(">10I", data, offset + size * it) for it in range(count)]
        self.sections, self.addresses, self.symbols = {}, {}, []
        for head in heads:
            name = Reader(data, heads[names][4] + head[0]).string()
            self.sections[name] = b"" if head[1] == NOWHERE else data[head[4]:head[4] + head[5]]
            self.addresses[name] = head[3]
        strings, table = self.sections.get(".strtab", b""), self.sections.get(".symtab", b"")
        for at in range(0, len(table), 16):
            name, value, size, how, _, section = struct.unpack_from(">IIIBBH", table, at)
            self.symbols.append((Reader(strings, name).string(), value, size, how & 15, section))


def is_of(path, loaded):
    """Whether a file is an ELF file of an image: it has its code at its address."""
    try:
        found = Elf(bytes_of(path))
    except (ValueError, struct.error, IndexError):
        return False
    return found.sections.get(".text") == loaded.code and found.addresses.get(".text") == CODE


def names_of(loaded, source):
    """What a source tells, which has to be the image's; of none the labels of the blocks."""
    names = Names()
    if source:
        told = tool("inspect", "map", source)
        if told.split("\n", 1)[0] != f"map of image {hashlib.sha256(loaded.image).hexdigest()}":
            raise Fault(2, f"inspect: {source}: the source is another image's")
        fitted = Fitted(bytes_of(source).decode("utf-8", "replace"))
        if any(fitted.comments):
            names.of_fitted(fitted)
        else:
            names.of_map(told, os.path.abspath(source))
    for address in loaded.blocks:
        names.labels.setdefault(address, f".L{address:x}")
    return names


def elf_of(loaded, source, path):
    """Makes an ELF file of an image, by its source where that is named; returns its path."""
    names = names_of(loaded, source)
    debug = own_debug(loaded, names, os.getcwd()) if names.rows else []
    with open(path, "wb") as file:
        file.write(written(loaded, names, debug))
    return path
