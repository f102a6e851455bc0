"""An image as it is loaded: its words, regions, functions and blocks, and the RAM that a run begins with."""
import bisect
import os
import subprocess
import sys

TOP = os.path.dirname(os.path.dirname(os.path.dirname(os.path.abspath(__file__))))
sys.path[:0] = [f"{TOP}/tools/page", f"{TOP}/tools"]
from declared import HEADER, REGION, REGIONS_HEADER, Declared, Handlers
from memory import CODE, DATA, PAGE, PAGES, SYSTEM, TABLES, table_words
from standing import FAULTS, called

__all__ = ["CODE", "DATA", "TOP", "Fault", "Loaded", "physical", "tool"]
STACK_END = 0x100000
RAM = 1 << 20


class Fault(Exception):
    """Why nothing is shown: a line for standard error, and an exit status."""

    def __init__(self, status, line):
        super().__init__(line)
        self.status, self.line = status, line


def tool(program, *words, given=None):
    """What one of the repository's programs prints; what it told goes on where it fails."""
    ran = subprocess.run([called(program), *words], stdin=given or subprocess.DEVNULL, stdout=subprocess.PIPE,
                         stderr=subprocess.PIPE, check=False)
    if ran.returncode:
        why = ran.stderr.decode("utf-8", "replace").strip() or f"{program}: status {ran.returncode}"
        raise Fault(ran.returncode if ran.returncode > 0 else 125, why)
    return ran.stdout.decode("utf-8", "replace")


def unread(path, error):
    """The fault of a file that can't be read, in the words of docs/use/faults.md."""
    return Fault(4, f"inspect: {path}: {FAULTS.get(error.errno, error.strerror.lower())}")


def bytes_of(path):
    """The bytes of a file."""
    try:
        with open(path, "rb") as file:
            return file.read()
    except OSError as error:
        raise unread(path, error) from None


def physical(ram, address):
    """The place in RAM of a virtual address by the page tables there; None where no page is."""
    page = address & -PAGE & 0xFFFFFFFF
    where = SYSTEM.get(page)
    for start, (table, _) in TABLES.items():
        if start <= page < start + PAGES * PAGE:
            where = table + 4 * ((page - start) // PAGE)
    if where is None:
        return None
    entry = int.from_bytes(ram[where:where + 4], "big")
    place = (entry >> 8 << 12) + (address & (PAGE - 1))
    return place if entry & 3 == 2 and place < RAM else None


class Loaded:
    """What an image holds and declares."""

    def __init__(self, path):
        self.path, self.image = path, bytes_of(path)
        self.declared = Declared(tool("inspect", "image", path))
        version = int.from_bytes(self.image[4:6], "big")
        regions, words = self.declared.regions, self.declared.words
        at = HEADER if version == 1 else REGIONS_HEADER + REGION * len(regions)
        self.code = self.image[at:at + 4 * words]
        self.words = [int.from_bytes(self.code[it:it + 4], "big") for it in range(0, 4 * words, 4)]
        self.end, at = CODE + 4 * words, at + 4 * words
        self.regions = []  # address, bytes, whether they may be written
        for address, size, is_writable in regions:
            self.regions.append((address, self.image[at:at + size], is_writable))
            at += size
        self.functions = [(it[1], it[2]) for it in self.declared.functions]  # address, whether it is framed
        self.blocks = [it[1] for it in self.declared.blocks]

    def word(self, address):
        """The word of the code at an address; None where no code is."""
        return self.words[(address - CODE) // 4] if CODE <= address < self.end else None

    def function(self, address):
        """The number of the function that a word of the code is in."""
        return bisect.bisect([it[0] for it in self.functions], address) - 1

    def ram(self, windows):
        """RAM as the image is loaded on so many windows."""
        ram = bytearray(RAM)
        tables = table_words(len(self.words), self.declared.regions, self.declared.stack)
        for place, word in tables.items():
            ram[place:place + 4] = word.to_bytes(4, "big")
        for address, word in Handlers(windows).words.items():
            self.put(ram, address, word.to_bytes(4, "big"))
        self.put(ram, CODE, self.code)
        for address, data, _ in self.regions:
            self.put(ram, address, data)
        return ram

    @staticmethod
    def put(ram, address, data):
        """Puts bytes where a virtual address lies, page by page."""
        at = 0
        while at < len(data):
            place, size = physical(ram, address + at), PAGE - (address + at) % PAGE
            if place is not None:
                ram[place:place + min(size, len(data) - at)] = data[at:at + size]
            at += size
