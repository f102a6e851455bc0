"""Programs for a LEON3 in QEMU: how one runs whose input and output lie in RAM, and one whose UART leads here."""
import collections
import os
import re
import socket
import subprocess
import tempfile

PROGRAM = "qemu-system-sparc"
# Where RAM begins, and places there: of the mailbox, of the output and of the byte behind its room.
RAM, SIZE = 0x40000000, 0x100000
MAIL, OUTPUT = 0xA0000, 0xE0000
# Where the supervisor sees the room for output.
SEEN_OUTPUT = 0xF0060000
# Trap types that an accepted image takes.
WINDOW_TRAPS, SERVICES = ("05", "06"), ("80", "81", "82")

# What a run gave: output; the end, as `exit WORD`, `trapped TBR PC nPC`, `full` or `none`; overflows, underflows and
# other trap types, where they were counted.
Run = collections.namedtuple("Run", "output end traps")


def machine(elf, windows, ram, more):
    """The words of a LEON3 of so many windows, whose RAM is a file."""
    return [PROGRAM, "-M", "leon3_generic,memory-backend=ram", "-cpu", f"LEON3,nwindows={windows}", "-object",
            f"memory-backend-file,id=ram,size=4M,mem-path={ram},share=on", "-kernel", elf, "-display", "none",
            "-monitor", "none", *more]


def blank_ram(path):
    with open(path, "wb") as file:
        file.truncate(4 << 20)


def word_of(ram, at):
    return int.from_bytes(ram[at : at + 4], "big")


def end_of(ram):
    """The end that a mailbox tells."""
    words = [f"{word_of(ram, MAIL + at):08X}" for at in (20, 24, 28)]
    ends = {1: f"exit {words[0]}", 2: f"trapped {' '.join(words)}", 3: "full"}
    return ends.get(word_of(ram, MAIL + 16), "none")


def traps_in(log):
    """Window traps that a log of QEMU's tells, and the types of others but services."""
    with open(log, encoding="ascii", errors="replace") as file:
        kinds = re.findall(r"^ *\d+: .*\(v=([0-9a-f]{2})\)$", file.read(), re.M)
    others = sorted({it for it in kinds if it not in WINDOW_TRAPS and it not in SERVICES})
    return kinds.count("05"), kinds.count("06"), others


def run_in_ram(elf, windows=8, count=False, seconds=60):
    """A run whose input and output lie in RAM."""
    with tempfile.TemporaryDirectory(dir="/dev/shm") as room:
        blank_ram(f"{room}/ram")
        more = ["-serial", "none"] + (["-d", "int", "-D", f"{room}/log"] if count else [])
        subprocess.run(machine(elf, windows, f"{room}/ram", more), stdin=subprocess.DEVNULL, timeout=seconds,
                       check=False, stderr=subprocess.DEVNULL)
        with open(f"{room}/ram", "rb") as file:
            ram = file.read(SIZE)
        traps = traps_in(f"{room}/log") if count else None
    length = word_of(ram, MAIL + 8) - SEEN_OUTPUT
    return Run(ram[OUTPUT : OUTPUT + length], end_of(ram), traps)


class Line:
    """The UART's other end: bytes come and go as uart.s has it."""

    def __init__(self, line, given):
        self.line, self.given, self.left = line, iter(given), bytearray()
        self.output = bytearray()

    def byte(self):
        while not self.left:
            more = self.line.recv(4096)
            if not more:
                raise EOFError
            self.left.extend(more)
        return self.left.pop(0)

    def word(self):
        return f"{int.from_bytes(bytes(self.byte() for _ in range(4)), 'big'):08X}"

    def answer(self):
        """Gives the next byte of the input, or its end."""
        found = next(self.given, None)
        self.line.sendall(b"\x10\x04" if found is None else b"\x10\x10" if found == 0x10 else bytes([found]))

    def escaped(self):
        """Takes what follows an escape, and returns the end, where it tells one."""
        kind = self.byte()
        if kind == 0x10:
            self.output.append(kind)
        elif kind == 1:
            self.answer()
        elif kind == 0:
            return f"exit {self.word()}"
        else:
            return f"trapped {self.word()} {self.word()} {self.word()}"
        return None

    def converse(self):
        """Goes on to the end, and returns it."""
        while True:
            byte = self.byte()
            if byte != 0x10:
                self.output.append(byte)
                continue
            end = self.escaped()
            if end:
                return end


def run_by_uart(elf, given, windows=8, seconds=60):
    """A run whose UART leads here."""
    with tempfile.TemporaryDirectory(dir="/dev/shm") as room, socket.socket(socket.AF_UNIX) as listener:
        blank_ram(f"{room}/ram")
        listener.bind(f"{room}/uart")
        listener.listen(1)
        words = machine(elf, windows, f"{room}/ram", ["-serial", f"unix:{room}/uart"])
        process = subprocess.Popen(words, stdin=subprocess.DEVNULL, stderr=subprocess.DEVNULL)
        try:
            connection, _ = listener.accept()
            connection.settimeout(seconds)
            line = Line(connection, given)
            try:
                end = line.converse()
            except (EOFError, TimeoutError):
                end = "none"
        finally:
            process.kill()
            process.wait()
        return Run(bytes(line.output), end, None)


def bytes_at(elf):
    """The bytes of RAM that an ELF file of one segment has, with the zeros that it leaves out."""
    with open(elf, "rb") as file:
        data = file.read()
    assert data[:6] == b"\x7fELF\x01\x02" and int.from_bytes(data[44:46], "big") == 1, "no ELF file of one segment"
    _, offset, virtual, _, stored, size = (int.from_bytes(data[52 + 4 * k : 56 + 4 * k], "big") for k in range(6))
    return data[offset : offset + stored].ljust(size, b"\0"), virtual


def is_there():
    return any(os.access(f"{it}/{PROGRAM}", os.X_OK) for it in os.environ["PATH"].split(":"))
