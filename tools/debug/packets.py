"""The packets of gdb's remote protocol: read from one stream and written to another, whatever bytes come."""
import os
import select

INTERRUPT = 3
# The most bytes of a packet; what is longer is none of gdb's.
LONGEST = 1 << 16
ESCAPED = b"#$}*"


class Channel:
    """A channel to gdb, by the descriptors of two streams."""

    def __init__(self, source=0, target=1):
        self.source, self.target = source, target
        self.buffer, self.has_acks = bytearray(), True

    def fill(self, waits=True):
        """Takes what came; waits for something where that is asked for, and ends where nothing comes any more."""
        if not waits and not select.select([self.source], [], [], 0)[0]:
            return False
        data = os.read(self.source, 65536)
        if not data:
            raise EOFError
        self.buffer += data
        return True

    def is_interrupted(self):
        """Whether gdb asks for a stop, outside of packets. That nothing comes any more is told by the next packet."""
        try:
            while self.fill(False):
                pass
        except EOFError:
            pass
        if self.buffer[:1] == bytes([INTERRUPT]):
            del self.buffer[0]
            return True
        return False

    def packet(self):
        """The next packet whose sum is right, as it was meant; others are asked for again."""
        while True:
            start = self.buffer.find(b"$")
            del self.buffer[:len(self.buffer) if start < 0 else start]
            end = self.buffer.find(b"#")
            if 0 < end <= len(self.buffer) - 3:
                body, given = bytes(self.buffer[1:end]), bytes(self.buffer[end + 1:end + 3])
                del self.buffer[:end + 3]
                is_good = given.lower() == b"%02x" % (sum(body) & 255)
                if self.has_acks:
                    self.write(b"+" if is_good else b"-")
                if is_good:
                    return self.unescaped(body)
                continue
            if len(self.buffer) > LONGEST:
                del self.buffer[0]  # no packet begins here
                continue
            self.fill()

    @staticmethod
    def unescaped(body):
        """The bytes that a packet's body stands for."""
        out, at = bytearray(), 0
        while at < len(body):
            is_escape = body[at] == 0x7D and at + 1 < len(body)
            out.append(body[at + 1] ^ 0x20 if is_escape else body[at])
            at += 2 if is_escape else 1
        return bytes(out)

    def send(self, body):
        """Sends a packet; of bytes, those that mean something else are escaped."""
        if isinstance(body, str):
            body = body.encode("latin-1")
        self.write(b"$" + body + b"#%02x" % (sum(body) & 255))

    def write(self, data):
        """Writes bytes, through to the end."""
        while data:
            data = data[os.write(self.target, data):]


def escaped(data):
    """Bytes as a packet holds them."""
    out = bytearray()
    for byte in data:
        out += bytes([0x7D, byte ^ 0x20]) if byte in ESCAPED else bytes([byte])
    return bytes(out)
