"""Calls of a program, each of which has to end with its status, its output and its line on standard error."""
import contextlib
import os
import select
import subprocess

from run import EXAMPLES, SANDBOX, bytes_of, program, put, run
from tally import shown

PROGRAM = program("sbx_tool")
HELLO, ECHO, CHAIN, LOWER = (f"{EXAMPLES}/{it}/{it}" for it in ("hello", "echo", "chain", "lower"))
ACCEPTED = "accepted\n"
# The bytes of the greatest file.
LONGEST_FILE = 16_777_216


def words_of(count):
    """A source of so many words."""
    head = ".services exit\n.function main,leaf,0,0,65539\n.fuel 65539\n"
    return head + " nop\n" * (count - 2) + " mov 0,%o0\n ta 0\n"


@contextlib.contextmanager
def put_out_by(*words):
    """The output of a command, as it comes, which is ended where nobody reads it any more."""
    with subprocess.Popen(words, stdout=subprocess.PIPE, stderr=subprocess.DEVNULL) as source:
        try:
            yield source.stdout
        finally:
            source.kill()


def come_within(stream, length, seconds):
    """The bytes of a stream up to a length, or so many as come within so many seconds."""
    came = b""
    while len(came) < length and select.select([stream], [], [], seconds)[0]:
        more = os.read(stream.fileno(), length - len(came))
        if not more:
            break
        came += more
    return came


class Calls:
    """Calls in a folder, and the images and inputs that they are made with."""

    def __init__(self, tally, work):
        self.tally, self.work, self.hello = tally, work, bytes_of(f"{HELLO}.img")
        put(self.at("more"), bytes(LONGEST_FILE + 1))
        put(self.at("most"), bytes(LONGEST_FILE))
        put(self.at("cut"), self.hello[:85])
        put(self.at("abcd"), "abcd")
        self.one = self.changed("one", 36, "90102001")
        self.little = self.changed("little", 60, "000000000000000F" "0001" "0004000000000000" "000000000000000F")

    def at(self, name):
        """The path of a file of the folder."""
        return f"{self.work}/{name}"

    def changed(self, name, place, digits):
        """The sample image with the bytes from a place on replaced by those of hexadecimal digits."""
        new = bytes.fromhex(digits)
        return put(self.at(name), self.hello[:place] + new + self.hello[place + len(new):])

    def judge(self, name, ran, status, out=b"", line=""):
        """Counts whether a run ended as it has to: the output to the byte, the errors a line, or nothing."""
        wanted = (status, out.encode() if isinstance(out, str) else out, f"{line}\n".encode() if line else b"")
        self.tally.check(name, ran == wanted, f"wanted {shown(wanted)}, came {shown(tuple(ran))}")

    def expect(self, name, wanted, *words, given=b"", by=SANDBOX, **how):
        """Runs a program on bytes, an open file or the file of a path; it has to end with the status, the output and
        the line that are wanted."""
        words = [*([by] if isinstance(by, str) else by), *words]
        if isinstance(given, str):
            with open(given, "rb") as file:
                self.judge(name, run(words, file, **how), *wanted)
        else:
            self.judge(name, run(words, given, **how), *wanted)

    def same(self, name, path, wanted):
        """Counts whether a file has these bytes."""
        came = bytes_of(path) if os.path.exists(path) else None
        self.tally.check(name, came == wanted, "wanted other bytes than came")

    def absent(self, name, path):
        """Counts whether there is no such file."""
        self.tally.check(name, not os.path.exists(path), "wanted no file, came one")

    def assembled(self, name, source, image, **how):
        """An image that the program makes of a text."""
        path = put(self.at(f"{name}.s"), source)
        self.expect(f"asm: {name}", (0,), "asm", path, self.at(image), **how)
        return self.at(image)

    def is_listed(self, name, wanted, *words):
        """Counts whether what a call tells has these words, whatever the blanks between them."""
        told = " ".join(run([SANDBOX, *words]).said.split())
        self.tally.check(name, wanted in told, f"wanted '{wanted}', came {told}")

    def usage(self, *words):
        """A call of words that ask for nothing gets status 3, no output and a text of clap's: any will do, but none
        won't."""
        ran = run([SANDBOX, *words])
        holds = ran.status == 3 and not ran.out and ran.err
        self.tally.check(f"usage: {' '.join(map(str, words))}", holds,
                         f"wanted status 3 and a text, came {shown(tuple(ran))}")
