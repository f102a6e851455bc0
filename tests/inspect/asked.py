"""Calls of `./inspect`, in a folder of the suite, and what is to come of them."""
import difflib
import os

from run import EXAMPLES, INSPECT, SANDBOX, bytes_of, run
from tally import shown

HERE = os.path.dirname(os.path.abspath(__file__))
HELLO, ECHO, CHAIN = (f"{EXAMPLES}/{it}/{it}.img" for it in ("hello", "echo", "chain"))
# The columns that a line may have.
COLUMNS = 100


class Inspections:
    """Calls, and the cases whose objects have to say the same."""

    def __init__(self, tally, work):
        self.tally, self.work, self.cases = tally, work, []

    def at(self, name):
        """The path of a file of the folder."""
        return f"{self.work}/{name}"

    def same_text(self, name, ran, wanted):
        """Counts whether a call told this text, and nothing on standard error."""
        came, told = ran.out.decode(errors="replace"), wanted.decode()
        lines = difflib.unified_diff(told.split("\n"), came.split("\n"), "wanted", "came", lineterm="", n=0)
        holds = ran.status == 0 and not ran.err and ran.out == wanted
        self.tally.check(name, holds, f"status {ran.status}, {shown(ran.err)}, {shown(list(lines)[2:12])}")

    def assembled(self, source):
        """The image of a source."""
        name = os.path.basename(source)[:-2]
        ran = run([SANDBOX, "asm", source, self.at(f"{name}.img")])
        self.tally.check(f"asm {name}", ran.status == 0, f"wanted an image, came {ran.said}")
        return self.at(f"{name}.img")

    def told(self, command, image, told, *options, given=b""):
        """A call tells the text of a file, in lines of at most 100 columns; but for traces its object has to say the
        same."""
        ran, name = run([INSPECT, command, *options, image], given), f"{command} {os.path.basename(image)}"
        self.same_text(name, ran, bytes_of(told) if isinstance(told, str) else told)
        widest = max(map(len, ran.out.decode(errors="replace").split("\n")))
        self.tally.check(f"{name}: columns", widest <= COLUMNS, f"wanted at most {COLUMNS}, came {widest}")
        if command != "trace":
            self.cases.append((command, image, told, options, given))

    def named(self, command, image, told, names):
        """The same by the names of a source or of its map."""
        ran = run([INSPECT, command, "--source", names, image])
        self.same_text(f"{command} --source {os.path.basename(names)} {os.path.basename(image)}", ran, told.encode())

    def gives(self, status, *words):
        """A fault: its status, nothing on standard output, and something on standard error."""
        ran = run([INSPECT, *words])
        holds = ran.status == status and not ran.out and ran.err
        self.tally.check(" ".join(words), holds, f"wanted status {status} and a line, came {shown(tuple(ran))}")

    def says(self, status, line, *words, **how):
        """A fault by name, in this line."""
        ran = run([INSPECT, *words], **how)
        self.tally.same(" ".join(words), (ran.status, ran.out, ran.err.decode()), (status, b"", f"{line}\n"))


def input_of(source):
    """The input that stands beside a program."""
    path = f"{source.rpartition('.')[0]}.in"
    return bytes_of(path) if os.path.exists(path) else b""
