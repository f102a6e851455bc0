"""What an image declares, and the machine's own code."""
import re

from listed import LAST_WINDOW, listed_words
from memory import CODE, DATA, TRAP_TABLE

# The bytes of an image before its words (docs/machine/image.md).
HEADER, REGIONS_HEADER, REGION = 20, 18, 6
FUNCTION = re.compile(r"\.function f(\d+),(\w+),(\d+),(\d+),(\d+)")


class Declared:
    """What `inspect image` tells: pages of stack, words of code, regions (address, bytes, may be written), functions
    and blocks.

    A function is its address and the operands of its line, a block its function, address, fuel and terms (location,
    factor)."""

    def __init__(self, text):
        self.stack, self.words, self.regions, self.functions, self.blocks = 1, 0, [], [], []
        address, size, data = CODE, 0, 0
        for line in text.splitlines():
            name, _, rest = line.partition(" ")
            if line.startswith("! words"):
                self.words, data = (int(it) for it in re.findall(r"\d+", line))
            elif name == "!":
                address, size = int(rest[:8], 16), int(rest[17:] or 0)
            elif name == ".region":
                self.regions.append((address, size, rest == "rw"))
            elif name == ".stack":
                self.stack = int(rest)
            elif name == ".function":
                self.add_function(FUNCTION.match(line), address)
            elif name == ".block":
                self.add_block(address)
            elif name == ".depth":
                self.functions[-1][6] = int(rest)
            elif name == ".fuel":
                self.blocks[-1][2] = int(rest)
            elif name == ".term":
                location, factor = rest.split(",")
                self.blocks[-1][3].append((location, int(factor)))
        if data and not self.regions: # version 1 has one, which isn't told as a region
            self.regions.append((DATA, data, True))

    def add_function(self, found, address):
        """Adds a function with its first block."""
        number, kind, frame, room, budget = found.groups()
        self.functions.append([int(number), address, kind == "framed", int(frame), int(room), int(budget), 0])
        self.add_block(address)

    def add_block(self, address):
        """Adds a block of the last function."""
        self.blocks.append([len(self.functions) - 1, address, 0, []])


class Handlers:
    """The words of vectors and handlers by address: those of the listing of docs/machine/profile.md, on so many
    windows."""

    def __init__(self, windows):
        self.words = {address: self.on(windows, word, comment) for address, word, _, comment in listed_words()}
        other = [self.words[0xF0000020 + it] for it in (0, 4, 8, 12)]
        for vector in range(TRAP_TABLE, TRAP_TABLE + 0x1000, 16):
            for it, word in enumerate(other):
                self.words.setdefault(vector + 4 * it, word)

    @staticmethod
    def on(windows, word, comment):
        """A word on so many windows: one whose comment says so shifts by the number of the last one."""
        return word - 7 + windows - 1 if LAST_WINDOW.search(comment) else word
