"""Runs of an image, alone and beside the same program compiled for this machine."""
import re
import shutil
import signal
import subprocess
import sys

from compilers import PLUS, TOP
from fault import Fault
from standing import called
from request import ending_of, is_plus

sys.path.insert(0, f"{TOP}/tools/debug")
from ends import ABORTED, end_told

# The compiler for this machine, where a program is compared with itself.
NATIVE = "-O1 -fwrapv -fno-strict-aliasing -w -DNATIVE".split()
SECONDS = 60
# So many turns of a run are followed for its exit word, at the most.
MOST_TURNS = 9999999999


def end_of(image, given):
    """The exit word of a run on an input, or None where it can't be told."""
    words = [called("inspect"), "run", "--limit", str(MOST_TURNS), image]
    ran = subprocess.run(words, input=given, stdout=subprocess.PIPE, stderr=subprocess.DEVNULL, check=False)
    told = ran.stdout.decode("utf-8", "replace")
    word = re.search(r"^end: exit with the word ([0-9A-F]{8})$", told, re.M)
    return int(word[1], 16) if word else None


def run_image(request, image, mapped):
    """Runs an image on standard input; returns the status."""
    given = sys.stdin.buffer.read()
    ran = subprocess.run([called("sandbox"), "run", image], input=given, check=False)
    told = end_told(image, given, mapped) if ran.returncode == 1 else None
    if told is not None:
        print(f"{request.name}: {told}", file=sys.stderr)
    return ran.returncode


def native_of(request, work):
    """Compiles the files for this machine; returns the program's path."""
    program, tool = f"{work}/native", "g++" if request.is_plus else "gcc"
    if any(ending_of(it) in (".s", ".i", ".ii") for it in request.files):
        raise Fault(3, f"{request.name}: --against: only C and C++ can be compiled for this machine")
    files = []
    for it in request.files:
        kind = "c++" if is_plus(it) or request.name == "c++" else "c"
        files += ["-x", kind, it]
    words = [tool, *NATIVE, *(PLUS[:3] if request.is_plus else []), "-idirafter", f"{TOP}/runtime", *request.flags,
             *files, "-o", program, "-x", "none", "-lm"]
    if not shutil.which(tool) or subprocess.run(words, check=False).returncode:
        raise Fault(2, f"{request.name}: --against: {tool} can't compile the files for this machine")
    return program


def difference(wanted, came):
    """Where two outputs differ first, in words; None where they don't."""
    if wanted == came:
        return None
    at = next((at for at, (one, other) in enumerate(zip(wanted, came)) if one != other), min(len(wanted), len(came)))

    def byte(out):
        return f"{out[at]:02X}" if at < len(out) else "the end"
    line = wanted[:at].count(b"\n") + 1
    return f"byte {at}, in line {line}, is {byte(came)}, natively {byte(wanted)}"


class Comparison:
    """An image beside the same program for this machine."""

    def __init__(self, request, image, mapped, work):
        self.request, self.image, self.mapped = request, image, mapped
        self.program = native_of(request, work)

    def natively(self, given):
        """Output and status of the program for this machine; None where it has no end."""
        try:
            ran = subprocess.run([self.program], input=given, stdout=subprocess.PIPE, stderr=subprocess.DEVNULL,
                                 timeout=SECONDS, check=False)
        except subprocess.TimeoutExpired:
            return None
        return ran.stdout, ran.returncode

    @staticmethod
    def ends_differ(status, word):
        """Whether the ends of both differ: a native status is the low byte of the exit word."""
        if status < 0:
            return status != -signal.SIGABRT or word != ABORTED
        return word is None or word & 0xFF != status or word >> 16 not in (0, 0xFFFF)

    def told(self, given):
        """How the runs on an input differ, in words; None where they don't."""
        wanted = self.natively(given)
        if wanted is None:
            return f"natively no end after {SECONDS} seconds"
        came = subprocess.run([called("sandbox"), "run", self.image], input=given, stdout=subprocess.PIPE, check=False)
        word = end_of(self.image, given) if came.returncode else 0
        parts = [difference(wanted[0], came.stdout)]
        if self.ends_differ(wanted[1], word):
            why = end_told(self.image, given, self.mapped) if word else None
            why = why or f"status {came.returncode}"
            parts.append(f"natively {self.native_end(wanted[1])}, here {why}")
        return "; ".join(filter(None, parts)) or None

    @staticmethod
    def native_end(status):
        """A native status in words."""
        return f"signal {-status}" if status < 0 else f"status {status}"

    def all(self):
        """Compares on each input; returns the status."""
        differ = 0
        for path in self.request.inputs:
            with open(path, "rb") as file:
                told = self.told(file.read())
            if told:
                differ += 1
                print(f"{path}: differs: {told}")
        count = len(self.request.inputs)
        print(f"{count} input{'' if count == 1 else 's'}, {differ} differ")
        return 1 if differ else 0
