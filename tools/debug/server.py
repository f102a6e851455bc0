"""What gdb asks in packets, and what is answered. Whatever comes that is none of gdb's gets an error or nothing."""
import functools
import os

from packets import escaped
from target import COUNT, description

MOST_BYTES = 4096
SUPPORTED = ("PacketSize=4000;QStartNoAckMode+;ReverseStep+;ReverseContinue+;swbreak+;hwbreak+;vContSupported+;"
             "qXfer:features:read+;qXfer:exec-file:read+")
HELP = """monitor turn            how many turns are done
monitor goto TURN       goes to a turn (then: maintenance flush register-cache)
monitor step N          goes on by N turns, each of which is a step from then on
monitor turns on|off    whether each turn is a step, those of traps and handlers too
monitor raw on|off      whether the stack is shown as it lies in RAM
monitor output          what was put out so far
monitor windows         the register windows
monitor why             why the run ends
"""


class Server:
    """A session over a channel. It is made when something is asked of it, since gdb doesn't wait long for its first
    answers: `make` gives it, and the path of an ELF file."""

    def __init__(self, make, channel):
        self.make, self.channel = make, channel

    @functools.cached_property
    def made(self):
        """The session and the path of its ELF file."""
        session, elf = self.make()
        session.poll = self.channel.is_interrupted
        return session, elf

    @property
    def session(self):
        """The session."""
        return self.made[0]

    def serve(self):
        """Answers until gdb goes."""
        while True:
            body = self.channel.packet()
            try:
                answer = self.answer(body)
            except (ValueError, IndexError, OverflowError):
                answer = "E01"
            if answer is None:
                return
            self.say()
            self.channel.send(answer)
            if body == b"QStartNoAckMode":
                self.channel.has_acks = False
            if body[:1] == b"D":
                return

    def say(self):
        """Tells in the console what the program put out."""
        text = self.session.text if "made" in self.__dict__ else bytearray()
        for at in range(0, len(text), MOST_BYTES):
            self.channel.send("O" + bytes(text[at:at + MOST_BYTES]).hex())
        text.clear()

    def answer(self, body):
        """The answer to a packet; None where gdb ends the session."""
        text = body.decode("latin-1")
        head, rest = text[:1], text[1:]
        if head in ("H", "T", "!", "D") and head:
            return "OK"
        if head in ("q", "Q", "v") and not text.startswith("vCont"):
            return self.query(text)
        session = self.session
        moving = {"s": session.step, "c": session.go_on, "bs": session.step_back, "bc": session.go_back}
        if text in moving:
            return moving[text]()
        if head in "sScC" and head:
            return "E01"  # a run that was made isn't continued from elsewhere, or by a signal
        if text.startswith("vCont"):
            return self.continued(text[5:])
        if head == "k":
            return None
        if head in ("?", "g"):
            return session.stop(5) if head == "?" else self.all_registers()
        asked = {"p": self.register, "m": self.memory, "P": self.written, "z": self.point, "Z": self.point,
                 "R": self.restarted}
        if head in asked:
            return asked[head](rest, head)
        return "E01" if head and head in "GMX" else ""

    def continued(self, text):
        """The answer to vCont."""
        if text == "?":
            return "vCont;c;C;s;S;r"
        action = text.removeprefix(";").split(";")[0].split(":")[0]
        if action[:1] in ("c", "C"):
            return self.session.go_on()
        if action[:1] in ("s", "S"):
            return self.session.step()
        if action[:1] == "r":
            low, high = (int(it, 16) for it in action[1:].split(","))
            return self.session.step_range(low, high)
        return ""

    def all_registers(self):
        """All registers."""
        return "".join(self.session.register(it) for it in range(COUNT))

    def register(self, rest, _):
        """One register."""
        number = int(rest, 16)
        return self.session.register(number) if 0 <= number < COUNT else "E01"

    def written(self, rest, _):
        """Writes a register: that is taken where it holds that word, since a run that was made isn't changed."""
        number, word = (int(it, 16) for it in rest.split("="))
        held = self.session.register(number) if 0 <= number < COUNT else ""
        return "OK" if held.lstrip("0") == f"{word:x}".lstrip("0") else "E01"

    def memory(self, rest, _):
        """Bytes of memory."""
        address, size = (int(it, 16) for it in rest.split(","))
        if not 0 <= address < 1 << 32 or size < 0:
            return "E01"
        data = self.session.read(address, min(size, MOST_BYTES))
        return data.hex() if data or size == 0 else "E01"

    def point(self, rest, head):
        """Sets a breakpoint or a watched range, or takes it away."""
        kind, address, size = (int(it, 16) for it in rest.split(";")[0].split(","))
        if not 0 <= address < 1 << 32 or not 0 <= size <= MOST_BYTES:
            return "E01"
        return "OK" if self.session.point(head == "Z", kind, address, size) else ""

    def restarted(self, *_):
        """Begins again; this packet has no answer."""
        self.session.begin()
        return ""

    def query(self, text):
        """The answer to what gdb asks about the target."""
        plain = {"QStartNoAckMode": "OK", "qC": "QC1", "qfThreadInfo": "m1", "qsThreadInfo": "l", "qOffsets": ""}
        if text in plain:
            return plain[text]
        if text.startswith("qSupported"):
            return SUPPORTED
        if text.startswith("qAttached"):
            return "0"
        if text.startswith("qXfer:features:read:target.xml:"):
            return self.part(description(), text)
        if text.startswith("qXfer:exec-file:read:"):
            return self.part(os.fsencode(os.path.abspath(self.made[1])), text)
        if text.startswith("qRcmd,"):
            words = bytes.fromhex(text[6:]).decode("latin-1").split()
            return self.command(words).encode("latin-1", "replace").hex() or "OK"
        if text.startswith("vRun"):
            self.session.begin()
            return self.session.stop(5)
        return "OK" if text.startswith("vKill") else ""

    @staticmethod
    def part(data, text):
        """The part of an object that is asked for."""
        at, size = (int(it, 16) for it in text.rpartition(":")[2].split(","))
        if at < 0 or size < 0:
            raise ValueError
        return (b"m" if at + size < len(data) else b"l") + escaped(data[at:at + size])

    # ---- monitor

    def command(self, words):
        """What `monitor` tells."""
        session, tape = self.session, self.session.tape
        number = int(words[1]) if len(words) == 2 and words[1].isdecimal() and len(words[1]) < 11 else None
        if words[:1] in (["turns"], ["raw"]) and words[1:] in (["on"], ["off"]):
            return self.switched(words[0], words[1] == "on")
        if words[:1] == ["goto"] and number is not None:
            session.goto(number)
        elif words[:1] == ["step"] and (number is not None or len(words) == 1):
            session.goto_turn(tape.at + (1 if number is None else number))
        elif words == ["output"]:
            return session.ending.output[:tape.puts_before(tape.at)].decode("latin-1") + "\n"
        elif words == ["windows"]:
            return "\n".join(session.ring()) + "\n"
        elif words == ["why"]:
            return self.why()
        elif words != ["turn"]:
            return HELP
        return f"{tape.at} of {tape.total} turns are done\n"

    def why(self):
        """Why the run ends, told from wherever one is."""
        tape, at = self.session.tape, self.session.tape.at
        tape.go(self.session.last_place())
        told = self.session.cause()[1].strip()
        tape.go(at)
        return told + "\n"

    def switched(self, what, is_on):
        """Switches how a run is shown."""
        if what == "turns":
            self.session.turns = is_on
            return f"a step is {'a turn' if is_on else 'an instruction of the program'}\n"
        self.session.raw = is_on
        return f"the stack is shown as {'it lies in RAM' if is_on else 'if windows were stored'}\n"
