"""Runs the repository's programs and others, with a time limit, and keeps what they put out; reads and writes the
files of a suite."""
import collections
import contextlib
import os
import resource
import shutil
import subprocess
import sys

from tally import NOT_BUILT

TOP = os.path.dirname(os.path.dirname(os.path.dirname(os.path.abspath(__file__))))
sys.path.insert(0, f"{TOP}/tools")
from standing import make_stand

EXAMPLES = f"{TOP}/examples"
SANDBOX, INSPECT, HOST, FIT, CC = (f"{TOP}/{it}" for it in ("sandbox", "inspect", "host", "fit", "cc"))
# A run of each program that asks for work, so that its script builds it where that is due.
SAMPLES = {
    "sandbox": ("list", f"{EXAMPLES}/hello/hello.img"),
    "inspect": ("image", f"{EXAMPLES}/hello/hello.img"),
    "host": (f"{EXAMPLES}/hello/hello.img",),
    "fit": (f"{TOP}/crates/fit/data/upper.s", "-o", os.devnull),
    "native": (f"{EXAMPLES}/hello/hello.img", "-o", os.devnull),
    "board": (f"{EXAMPLES}/hello/hello.img", os.devnull),
}
# So long may a command run, in seconds, where a suite says nothing else.
SECONDS = 120


class Ran(collections.namedtuple("Ran", "status out err")):
    """What a process left: its status, below 0 by a signal and None where it took too long; its output and its
    errors, bytes."""

    @property
    def said(self):
        """All that it told, as text."""
        return (self.out + self.err).decode(errors="replace").strip()


def run(words, given=b"", seconds=SECONDS, **how):
    """Runs a command on an input: bytes, or an open file."""
    source = {"input": given} if isinstance(given, bytes) else {"stdin": given}
    streams = {"stdout": subprocess.PIPE, "stderr": subprocess.PIPE, **how}
    try:
        ran = subprocess.run(words, timeout=seconds, check=False, **source, **streams)
    except subprocess.TimeoutExpired:
        return Ran(None, b"", f"no end after {seconds} seconds".encode())
    except FileNotFoundError as error:
        return Ran(127, b"", f"{error.filename} isn't there".encode())
    return Ran(ran.returncode, ran.stdout or b"", ran.stderr or b"")


def run_within(words, given=b"", seconds=SECONDS, **how):
    """The same for so many seconds of processor, each process: beside other work it has sixty times as long."""
    return run(["prlimit", f"--cpu={seconds}", *words], given, 60 * seconds, **how)


def built(*names):
    """Has the programs of these scripts stand, or ends the suite: they are proved and built where that is due, in one
    build."""
    if make_stand("tests", *names):
        raise SystemExit(NOT_BUILT)
    for name in names:
        ran = run([f"{TOP}/{name}", *SAMPLES[name]], seconds=None)
        if ran.status != 0:
            print(f"{name} doesn't run: {ran.said}", file=sys.stderr)
            raise SystemExit(NOT_BUILT)


def program(crate):
    """The path of a crate's program, which may not stand."""
    return f"{TOP}/crates/{crate}/out/{crate}"


def has(tool):
    """Whether a command is on the PATH."""
    return shutil.which(tool) is not None


def as_anybody():
    """The words before a command that take root's right to open any file from it, where this process has that."""
    return ["setpriv", "--bounding-set", "-dac_override,-dac_read_search,-fowner"] if os.geteuid() == 0 else []


def within(kib):
    """What a process does before it begins, so that it has so many KiB of address space."""
    return lambda: resource.setrlimit(resource.RLIMIT_AS, (kib << 10, kib << 10))


def least_kib(words, most):
    """The least address space, up to 4 KiB, in which a command ends with status 0; it does in `most`."""
    too_little = 512
    while most - too_little > 4:
        middle = (too_little + most) // 2
        if run(words, preexec_fn=within(middle)).status == 0:
            most = middle
        else:
            too_little = middle
    return most


def last_line(words, kib):
    """The status and the last line of a command with so much address space, however much it puts out."""
    last = b""
    with subprocess.Popen(words, stdin=subprocess.DEVNULL, stdout=subprocess.PIPE, preexec_fn=within(kib)) as ran:
        while more := ran.stdout.read(1 << 20):
            last = (last + more)[-1000:]
    return ran.returncode, last.removesuffix(b"\n").rpartition(b"\n")[2].decode()


def closed(*streams):
    """What a process does before it begins, so that these standard streams of its are closed."""
    def close():
        for it in streams:
            os.close(it)

    return close


def bytes_of(path):
    """The bytes of a file."""
    with open(path, "rb") as file:
        return file.read()


def text_of(path):
    """The text of a file."""
    with open(path, encoding="utf-8") as file:
        return file.read()


def put(path, content):
    """Writes bytes or a text to a file, and returns its path."""
    with open(path, "wb") as file:
        file.write(content if isinstance(content, bytes) else content.encode())
    return path


@contextlib.contextmanager
def opened(path, flags=os.O_RDONLY):
    """A file that is open, as its descriptor."""
    file = os.open(path, flags)
    try:
        yield file
    finally:
        os.close(file)
