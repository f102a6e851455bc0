"""The services over a mailbox in QEMU's LEON3, step by step, beside what the laws of leon_services say of them."""
import leon
from qemu import Ended

# Registers of QEMU's gdb stub: the window's 32, and those of state.
PSR, TBR, PC, NPC, STATES = 65, 67, 68, 69, 70
# The mailbox's words, by their numbers: how far input and output are, and how the run ended.
INPUT, INPUT_END, OUTPUT, OUTPUT_END, STATUS, WORD, AT, NEXT = range(8)
# Each service by its word: its name, its trap type, and its turns, at a byte or with room, and without.
CALLS = {0x91D02000: ("exit", 0x80, 9, 9), 0x91D02001: ("get", 0x81, 22, 19), 0x91D02002: ("put", 0x82, 23, 16)}
SYSTEM = 0xF0000000


class Stepped:
    """An image under the stub, from its first instruction on."""

    def __init__(self, stub):
        self.stub = stub
        stub.ask("Qqemu.PhyMemMode:0")
        stub.ask("Z1,40000,4")
        stub.ask("c")
        stub.ask("z1,40000,4")

    def registers(self):
        text = self.stub.ask("g")
        return [int(text[at : at + 8], 16) for at in range(0, 8 * STATES, 8)]

    def memory(self, at, count):
        """Bytes of physical memory, from a place in RAM on."""
        self.stub.ask("Qqemu.PhyMemMode:1")
        found = bytes.fromhex(self.stub.ask(f"m{leon.RAM + at:x},{count:x}"))
        self.stub.ask("Qqemu.PhyMemMode:0")
        return found

    def write(self, at, word):
        self.stub.ask("Qqemu.PhyMemMode:1")
        self.stub.ask(f"M{leon.RAM + at:x},4:{word:08x}")
        self.stub.ask("Qqemu.PhyMemMode:0")

    def mailbox(self):
        data = self.memory(leon.MAIL, 32)
        return [leon.word_of(data, 4 * it) for it in range(8)]

    def step(self):
        self.stub.ask("s")

    def to_call(self):
        """Goes on to the next call of a service, and returns its word."""
        while True:
            word = leon.word_of(self.memory(0x10000 + self.registers()[PC] - 0x40000, 4), 0)
            if word in CALLS:
                return word
            self.step()

    def serve(self):
        """Goes on to behind a call, or to the halt: turns, the registers there, none at a halt, and the mailbox."""
        turns, mailbox = 0, self.mailbox()
        try:
            while True:
                # (the stub is gone at the halt, or as soon as the next word is sent)
                turns += 1
                self.step()
                registers = self.registers()
                if registers[PC] < SYSTEM:
                    return turns, registers, self.mailbox()
                mailbox = self.mailbox()
        except Ended:
            return turns, None, mailbox


def wanted_behind(stepped, name, trap, before, mailbox):
    """What the laws say of a call: whether input or room have ended, the registers behind it, and the mailbox."""
    after, at_end = list(mailbox), False
    behind = [*before[:PC], before[NPC], before[NPC] + 4]
    # (the trap leaves its type in TBR, and PS says that it came from a user)
    behind[PSR], behind[TBR] = before[PSR] & ~0x40, SYSTEM | trap << 4
    if name == "get":
        at_end = mailbox[INPUT] == mailbox[INPUT_END]
        place = 0xC0000 + mailbox[INPUT] - 0xF0040000
        behind[8] = 0xFFFFFFFF if at_end else stepped.memory(place, 1)[0]
        after[INPUT] += not at_end
    elif name == "put" and mailbox[OUTPUT] < mailbox[OUTPUT_END]:
        after[OUTPUT] += 1
    else:
        at_end = True
        after[STATUS:] = [1 if name == "exit" else 3, before[8], before[PC], before[NPC]]
        behind = None
    return at_end, behind, after


def follow(tally, name, stub, fills):
    """Follows an image to its halt, call by call; with `fills` its room for output ends at its second byte."""
    stepped, put = Stepped(stub), 0
    try:
        while True:
            call, trap, whole, short = CALLS[stepped.to_call()]
            if call == "put" and fills and put == 1:
                stepped.write(leon.MAIL + 4 * OUTPUT_END, stepped.mailbox()[OUTPUT])
            before, mailbox = stepped.registers(), stepped.mailbox()
            at_end, behind, after = wanted_behind(stepped, call, trap, before, mailbox)
            turns, registers, came = stepped.serve()
            what = f"{name}: {call} at {before[PC]:X}"
            tally.same(f"{what}: turns", turns, short if at_end else whole)
            tally.same(f"{what}: registers", registers, behind)
            tally.same(f"{what}: mailbox", came, after)
            if call == "put" and registers:
                place = 0xC0000 + mailbox[OUTPUT] - 0xF0040000
                tally.same(f"{what}: the byte", stepped.memory(place, 1)[0], before[8] & 0xFF)
            put += call == "put"
            if registers is None:
                return
    finally:
        stub.close()
