"""Numbers, lines and frames of DWARF, as they are read and written."""
import struct


class Reader:
    """Bytes that are read one after the other, big-endian."""

    def __init__(self, data, at=0):
        self.data, self.at = data, at

    def take(self, size):
        """So many bytes."""
        if size < 0 or self.at + size > len(self.data):
            raise ValueError("the end of the bytes")
        self.at += size
        return self.data[self.at - size:self.at]

    def number(self, size):
        """A number of so many bytes."""
        return int.from_bytes(self.take(size), "big")

    def variable(self):
        """A number of seven bits a byte, and how many bits it has."""
        value = shift = 0
        while True:
            byte = self.number(1)
            value |= (byte & 127) << shift
            shift += 7
            if byte < 128:
                return value, shift, byte

    def uleb(self):
        """A number of seven bits a byte."""
        return self.variable()[0]

    def sleb(self):
        """Such a number with a sign."""
        value, shift, last = self.variable()
        return value - (1 << shift) if last & 64 else value

    def string(self):
        """Text that a zero ends."""
        end = self.data.index(b"\0", self.at)
        out, self.at = self.data[self.at:end], end + 1
        return bytes(out).decode("utf-8", "surrogateescape")


def uleb(value):
    """A number of seven bits a byte."""
    out = bytearray()
    while True:
        byte, value = value & 127, value >> 7
        out.append(byte | (128 if value else 0))
        if not value:
            return bytes(out)


def sleb(value):
    """Such a number with a sign."""
    out = bytearray()
    while True:
        byte, value = value & 127, value >> 7
        is_done = value == 0 and not byte & 64 or value == -1 and byte & 64
        out.append(byte | (0 if is_done else 128))
        if is_done:
            return bytes(out)


def sized(body):
    """A part with its size before it."""
    return struct.pack(">I", len(body)) + body


def set_address(address):
    """The operation of a line program that sets the address."""
    return b"\0\5\2" + struct.pack(">I", address)


END_SEQUENCE = b"\0\1\1"


def line_program(rows, files, end):
    """.debug_line, version 3: a row for each address where file or line is another. `rows` are addresses with a
    file's name and a line."""
    out, file, line = bytearray(), 1, 1
    for address, name, number in rows:
        out += set_address(address)
        if files[name] != file:
            file = files[name]
            out += b"\4" + uleb(file)
        if number != line:
            out += b"\3" + sleb(number - line)
            line = number
        out += b"\1"
    out += set_address(end) + END_SEQUENCE
    head = struct.pack(">BBbBB", 4, 1, -5, 14, 13) + bytes([0, 1, 1, 1, 1, 0, 0, 0, 1, 0, 0, 1])
    head += b"\0" + b"".join(it.encode("utf-8", "surrogateescape") + b"\0\0\0\0" for it in files) + b"\0"
    return sized(struct.pack(">HI", 3, len(head)) + head + out)


def frame_rules(is_framed):
    """Rules of a function of an image: a SAVE, its first word, saves locals and ins at the frame's address, %fp."""
    return b"\x41\x0d\x1e\x2d\x09\x0f\x1f" if is_framed else b""


def standing_rules(is_framed, begins, below):
    """The same of a function of a program in C that stands alone, whose frame's address is told as so many bytes below
    %fp: gdb asks that those of callers be greater, and callers may have a frame in the data. `begins` says that its
    SAVE is still to come."""
    before = frame_address(14, -below)
    if not is_framed:
        return before
    rules = frame_address(30, -below) + b"".join(bytes([9, it, it + 16]) for it in range(8, 16))
    rules += b"".join(bytes([0x10, it, 2, 0x70 + 30, 4 * (it - 16)]) for it in range(16, 32))
    return before + b"\x41" + rules if begins else rules


def frame_address(register, offset):
    """The rule that a frame's address is so far from a register."""
    block = bytes([0x70 + register]) + sleb(offset)
    return b"\x0f" + uleb(len(block)) + block


def frames(runs):
    """.debug_frame, of runs of words: where each begins and ends, and its rules. gdb itself ends a backtrace at the
    entry."""
    common = b"\1\0" + uleb(4) + sleb(-4) + bytes([15]) + b"\x0c\x0e\0"  # version 1, the frame's address is %sp
    common += b"".join(bytes([8, it]) for it in range(1, 8))  # globals are what they are in the caller

    def padded(body):
        return sized(body + b"\0" * (-len(body) % 4))
    entries = [padded(struct.pack(">III", 0, start, stop - start) + rules) for start, stop, rules in runs]
    return padded(b"\xff\xff\xff\xff" + common) + b"".join(entries)


ABBREVIATIONS = (
    b"\1\x11\1" b"\x25\x08" b"\x13\x05" b"\x03\x08" b"\x1b\x08" b"\x11\x01" b"\x12\x01" b"\x10\x06" b"\0\0"  # a unit
    b"\2\x2e\0" b"\x03\x08" b"\x3f\x0c" b"\x11\x01" b"\x12\x01" b"\x40\x0a" b"\0\0"  # a function
    b"\3\x34\0" b"\x03\x08" b"\x3f\x0c" b"\x49\x13" b"\x02\x0a" b"\0\0"  # a variable
    b"\4\x24\0" b"\x03\x08" b"\x3e\x0b" b"\x0b\x0b" b"\0\0"  # a basic type
    b"\5\x01\1" b"\x49\x13" b"\0\0"  # an array
    b"\6\x21\0" b"\x49\x13" b"\x2f\x06" b"\0\0" b"\0")  # its range
C89, ASSEMBLER = 1, 0x8001


def unit(path, folder, functions, objects, end):
    """.debug_info: a unit with its functions, names with their begins and ends, and data, names with address and
    size, as arrays of bytes."""
    language = ASSEMBLER if path.endswith(".s") else C89
    code = min((it[1] for it in functions), default=0)
    body = struct.pack(">HIB", 2, 0, 4) + b"\1geyserpan\0" + struct.pack(">H", language)
    body += b"".join(it.encode("utf-8", "surrogateescape") + b"\0" for it in (path, folder))
    body += struct.pack(">III", code, end, 0)
    for name, start, stop in functions:
        body += b"\2" + name.encode() + b"\0\1" + struct.pack(">II", start, stop) + b"\1\x9c"  # (its frame's address)
    char = 4 + len(body)
    body += b"\4char\0\6\1"
    for name, address, size in objects:
        array = 4 + len(body)
        body += b"\5" + struct.pack(">I", char) + b"\6" + struct.pack(">II", char, size - 1) + b"\0"
        body += b"\3" + name.encode() + b"\0\1" + struct.pack(">I", array) + b"\5\3" + struct.pack(">I", address)
    return sized(body + b"\0")
