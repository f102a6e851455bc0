"""C compilers for this machine, under limits of time and memory: the code that they compile was shaped by strangers."""
import os
import resource
import shutil
import signal
import subprocess
import tempfile

TOP = os.path.dirname(os.path.dirname(os.path.dirname(os.path.abspath(__file__))))
HEADERS = f"{TOP}/embed/native"
# In this order one is looked for.
NAMES = ("gcc", "clang", "tcc")
# -O1 has nearly the speed of -O2, and fewer passes in which a compiler may err.
FLAGS = {"gcc": ["-std=c11", "-O1"], "clang": ["-std=c11", "-O1"], "tcc": ["-std=c11"]}
SECONDS = 60
BYTES = 4 << 30


class Failed(Exception):
    """Why there is no object: a line."""


class Compiler:
    """A compiler by its path."""

    def __init__(self, path):
        self.path = shutil.which(path)
        if not self.path:
            raise Failed(f"{path}: no such compiler")
        name = os.path.basename(os.path.realpath(self.path))
        self.kind = "tcc" if "tcc" in name else "clang" if "clang" in name else "gcc"
        self.seconds = int(os.environ.get("GEYSERPAN_NATIVE_SECONDS") or SECONDS)

    def version(self):
        """What it says of itself."""
        words = [self.path, "-v" if self.kind == "tcc" else "--version"]
        return self.ended(words, 10)[1]

    def ended(self, words, seconds):
        """Runs a command within so many seconds: its status, and what it told. Its whole session ends with it."""
        def limits():
            resource.setrlimit(resource.RLIMIT_CPU, (seconds, seconds))
            resource.setrlimit(resource.RLIMIT_AS, (BYTES, BYTES))
            resource.setrlimit(resource.RLIMIT_CORE, (0, 0))

        with tempfile.TemporaryFile() as told:
            how = {"stdin": subprocess.DEVNULL, "stdout": told, "stderr": told, "start_new_session": True}
            try:
                child = subprocess.Popen(words, preexec_fn=limits, **how)
            except OSError as error:
                raise Failed(f"{words[0]}: {error.strerror}") from None
            try:
                status = child.wait(2 * seconds)
            except subprocess.TimeoutExpired:
                status = None
            finally:
                try:
                    os.killpg(child.pid, signal.SIGKILL)
                except ProcessLookupError:
                    pass
                child.wait()
            told.seek(0)
            return status, told.read(4096).decode(errors="replace")

    def compile(self, words, to):
        """Makes a file of C, by these words beside its own; what goes wrong is told in a line, and nothing is left."""
        all_words = [self.path, *FLAGS[self.kind], "-w", "-I", HEADERS, *words, "-o", to]
        status, told = self.ended(all_words, self.seconds)
        if status == 0 and os.path.exists(to):
            return
        if os.path.exists(to):
            os.unlink(to)
        name = os.path.basename(self.path)
        if status is None or status in (-signal.SIGXCPU, -signal.SIGKILL):
            raise Failed(f"{name} took more than {self.seconds} seconds")
        lines = [it for it in told.splitlines() if "error" in it or "memory" in it] or told.splitlines() or ["no word"]
        raise Failed(f"{name} failed (status {status}): {lines[0].strip()[:300]}")


def compiler_of(asked):
    """The compiler that is asked for, else the first one that is there; None where none is."""
    if asked:
        return Compiler(asked)
    return next((Compiler(it) for it in NAMES if shutil.which(it)), None)
