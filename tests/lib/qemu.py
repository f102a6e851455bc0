# QEMU's LEON3, driven by its gdb stub: registers and RAM are written, one instruction is run, and they are read back.
import resource
import shutil
import socket
import subprocess
import tempfile
import time

PROGRAM = "qemu-system-sparc"
# Where its RAM begins; the profile's begins at 0.
RAM = 0x40000000
# A page entry and a table descriptor have bits 35:12 and 35:6 of an address at their bits 8 and 2.
MOVED = RAM >> 4
# Registers of the stub, by their numbers: 0 to 31 are those of the current window.
Y, PSR, WIM, TBR, PC, NPC, REGISTERS = 64, 65, 66, 67, 68, 69, 72
# Where the words that reach the MMU's registers lie, and their addresses there (LEON3: ASI 19).
SCRATCH = 0x100
CONTROL, TABLE, CONTEXT, STATUS = 0x000, 0x100, 0x200, 0x300
STORE_MMU = 3 << 30 | 1 << 25 | 0x14 << 19 | 2 << 14 | 0x19 << 5  # sta %g1,[%g2] 0x19
LOAD_MMU = 3 << 30 | 1 << 25 | 0x10 << 19 | 2 << 14 | 0x19 << 5  # lda [%g2] 0x19,%g1


def is_there():
    return shutil.which(PROGRAM) is not None


class Ended(Exception):
    """QEMU has ended: its error output."""


class Leon:
    """A LEON3 of so many windows with 1 MiB of RAM, that runs one instruction at a time."""

    def __init__(self, windows):
        self.room = tempfile.TemporaryDirectory()
        path, bios = f"{self.room.name}/gdb", f"{self.room.name}/bios"
        with open(bios, "wb") as file:
            file.write(bytes.fromhex("01000000") * 16)
        self.errors = open(f"{self.room.name}/errors", "w+", encoding="utf-8", errors="replace")
        words = self.words(windows, bios, path)
        # (it ends by a signal where the machine is in error mode)
        resource.setrlimit(resource.RLIMIT_CORE, (0, resource.getrlimit(resource.RLIMIT_CORE)[1]))
        self.process = subprocess.Popen(words, stdin=subprocess.DEVNULL, stdout=self.errors, stderr=self.errors)
        self.socket, self.left = socket.socket(socket.AF_UNIX), b""
        for _ in range(1200):
            try:
                self.socket.connect(path)
                break
            except OSError:
                if self.process.poll() is not None:
                    break
                time.sleep(0.05)
        self.ask("QStartNoAckMode")
        self.socket.sendall(b"+")
        self.ask("Qqemu.PhyMemMode:1")

    def words(self, windows, bios, path):
        """How QEMU is called; its gdb stub is at a socket of this path."""
        return [PROGRAM, "-M", "leon3_generic", "-cpu", f"LEON3,nwindows={windows}", "-m", "1", "-bios", bios,
                "-display", "none", "-serial", "none", "-monitor", "none", "-S", "-gdb",
                f"unix:{path},server=on,wait=off"]

    def close(self):
        self.socket.close()
        self.process.kill()
        self.process.wait()
        self.errors.close()
        self.room.cleanup()

    def ask(self, text):
        """Sends a packet, and gives what comes back."""
        try:
            self.socket.sendall(f"${text}#{sum(text.encode()) & 0xFF:02x}".encode())
            while True:
                begin = self.left.find(b"$")
                end = self.left.find(b"#", begin) if begin >= 0 else -1
                if 0 <= end and len(self.left) >= end + 3:
                    packet, self.left = self.left[begin + 1 : end].decode(), self.left[end + 3 :]
                    if packet[:1] in ("W", "X"):  # it says that it ends
                        raise OSError
                    return packet
                more = self.socket.recv(65536)
                if not more:
                    raise OSError
                self.left += more
        except OSError:
            try:
                self.process.wait(10)
            except subprocess.TimeoutExpired:
                self.process.kill()
            self.errors.seek(0)
            raise Ended(self.errors.read()) from None

    def registers(self):
        """All registers, those of the current window among them."""
        text = self.ask("g")
        return [int(text[it : it + 8], 16) for it in range(0, 8 * REGISTERS, 8)]

    def put_registers(self, words):
        self.ask("G" + "".join(f"{it:08x}" for it in words))

    def enter(self, window):
        """The registers, in a window that is the current one from now on."""
        words = self.registers()
        if words[PSR] & 31 != window:
            words[PSR] = 0x80 + window
            self.put_registers(words)
            words = self.registers()
        return words

    def put(self, place, word):
        self.ask(f"M{RAM + place:x},4:{word:08x}")

    def word(self, place):
        return int(self.ask(f"m{RAM + place:x},4"), 16)

    def step(self):
        self.ask("s")

    def run_word(self, pc, place, word, g1, g2):
        """Runs a word of the supervisor's, and gives %g1 then."""
        self.put(place, word)
        words = self.enter(0)
        words[PSR], words[PC], words[NPC], kept = 0xA0, pc, pc + 4, words[1:3]
        words[1:3] = g1, g2
        self.put_registers(words)
        self.step()
        words = self.registers()
        found, words[1:3] = words[1], kept
        self.put_registers(words)
        return found

    def set_mmu(self, code, register, word):
        self.run_word(code, SCRATCH, STORE_MMU, word, register)

    def status(self, code):
        """The fault status, which reading clears."""
        return self.run_word(code, SCRATCH, LOAD_MMU, 0, STATUS)
