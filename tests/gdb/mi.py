"""gdb by its machine interface, on a run or on a program for this machine."""
import glob
import os
import re
import select
import subprocess
import time

from run import INSPECT

GDB = "gdb-multiarch"
PATIENCE = 600
SETTINGS = ("set sysroot /", "set confirm off", "set remotetimeout 120", "set filename-display basename", "set width 0")


def unquoted(text):
    """A text as the interface quotes it."""
    return re.sub(r"\\(.)", lambda it: {"n": "\n", "t": "\t"}.get(it[1], it[1]), text)


class Silent(Exception):
    """gdb didn't answer."""


class Gdb:
    """A session with gdb."""

    def __init__(self, *words, setup=()):
        begin = [word for it in (*SETTINGS, *setup) for word in ("-iex", it)]
        self.process = subprocess.Popen([GDB, "-q", "-nx", "--interpreter=mi3", *begin, *words], stdin=subprocess.PIPE,
                                        stdout=subprocess.PIPE, stderr=subprocess.DEVNULL, bufsize=0)
        self.buffer, self.stop = b"", ""
        self.read_to(r"\(gdb\)")

    def line(self):
        """The next line that gdb tells."""
        end = time.monotonic() + PATIENCE
        while b"\n" not in self.buffer:
            if not select.select([self.process.stdout], [], [], max(0, end - time.monotonic()))[0]:
                raise Silent("gdb doesn't answer")
            data = os.read(self.process.stdout.fileno(), 65536)
            if not data:
                raise Silent("gdb has gone")
            self.buffer += data
        line, _, self.buffer = self.buffer.partition(b"\n")
        return line.decode("utf-8", "replace").rstrip()

    def read_to(self, form):
        """What is told up to a line of a form, which is the last one."""
        lines = []
        while True:
            lines.append(self.line())
            if lines[-1].startswith("*stopped"):
                self.stop = lines[-1]
            if re.match(form, lines[-1]):
                return lines

    def told(self, command):
        """What the console tells of a command of the command line, and of an error."""
        self.process.stdin.write(f"{command}\n".encode())
        lines = self.read_to(r"\^(done|running|error|exit|connected)")
        if lines[-1].startswith("^running"):
            lines += self.read_to(r"\*stopped")
        self.read_to(r"\(gdb\)")
        text = "".join(unquoted(it[2:-1]) for it in lines if it.startswith(("~", "@")))
        error = re.search(r'\^error,msg="(.*)"', lines[-1] if "^error" in lines[-1] else "\n".join(lines))
        return text + (unquoted(error[1]) + "\n" if error else "")

    def value(self, expression):
        """The value of an expression, as gdb prints it."""
        return self.told(f"output {expression}").strip()

    def spent(self):
        """The seconds of processor that gdb has taken, and all that it started."""
        times, below = {}, {self.process.pid}
        for path in glob.glob("/proc/[0-9]*/stat"):
            try:
                with open(path, encoding="utf-8", errors="replace") as file:
                    told = file.read().rpartition(")")[2].split()
            except OSError:  # (it has ended)
                continue
            times[int(path.split("/")[2])] = int(told[1]), sum(map(int, told[11:15]))
        for _ in range(4):  # (gdb, a shell, the server, and what that starts)
            below |= {it for it, (parent, _) in times.items() if parent in below}
        return sum(times[it][1] for it in below if it in times) / os.sysconf("SC_CLK_TCK")

    def close(self):
        """Ends gdb."""
        try:
            self.process.stdin.write(b"-gdb-exit\n")
            self.process.wait(10)
        except (OSError, subprocess.TimeoutExpired):
            self.process.kill()
            self.process.wait()
        self.process.stdin.close()
        self.process.stdout.close()

    def __enter__(self):
        return self

    def __exit__(self, *_):
        self.close()


def on_run(image, given=None, windows=8, *more):
    """gdb on a run of an image, on the bytes of a file."""
    source = f"--input '{given}' " if given else ""
    served = f"target extended-remote | '{INSPECT}' gdb {source}--windows {windows} {' '.join(more)} '{image}'"
    gdb = Gdb()
    gdb.served = gdb.told(served)
    return gdb
