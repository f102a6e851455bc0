"""The library of runtime/, made once for each compiler, and kept."""
import contextlib
import glob
import hashlib
import os
import subprocess
import sys
import tempfile

from compilers import HEADERS, PLUS, TOP, runtime_files, side_by_side
from fault import Fault
from kept import settle

# (gcc keeps what has a builtin's name, called or not, where it takes it for one)
WORDS = ["-w", "-fno-builtin"]


class Runtime:
    """The parts of the library for one compiler and one size of the heap."""

    is_told = False

    def __init__(self, compiler, work):
        self.compiler, self.request, self.work = compiler, compiler.request, work
        version = subprocess.run([compiler.path, "--version"], stdout=subprocess.PIPE, check=False).stdout
        settings = (version, compiler.target, compiler.kind, compiler.size_level, compiler.library_flags, HEADERS,
                    PLUS, WORDS, compiler.apart, self.request.arena, self.request.is_plus)
        digest = hashlib.sha256(repr(settings).encode())
        for path in runtime_files():
            with open(path, "rb") as file:
                digest.update(path[len(TOP) :].encode() + file.read())
        cache = os.path.expanduser(os.environ.get("XDG_CACHE_HOME") or "~/.cache")
        self.folder = f"{cache}/geyserpan/cc/{digest.hexdigest()[:32]}"
        try:
            os.makedirs(self.folder, exist_ok=True)
        except OSError:
            self.folder = work

    def place(self, name):
        """Where a part is kept."""
        return f"{self.folder}/{name}"

    def make(self, source, path, words):
        """Compiles a source of the library to a path."""
        handle, draft = tempfile.mkstemp(os.path.splitext(path)[1], dir=self.folder)
        os.close(handle)
        flags = [*WORDS, f"-DGEYSERPAN_ARENA={self.request.arena}"]
        ran = self.compiler.called(source, self.compiler.size_level, flags, *words, "-o", draft)
        if ran.returncode:
            with contextlib.suppress(FileNotFoundError):  # (clang itself takes away what it couldn't finish)
                os.unlink(draft)
            raise Fault(125, f"{self.request.name}: {source} can't be compiled: {ran.stderr}")
        settle(draft, path)

    def tell(self):
        """Says once what a first call waits for."""
        if not Runtime.is_told and not os.environ.get("GEYSERPAN_QUIET"):
            print(f"{self.request.name}: compiling the library, once for this compiler and --arena", file=sys.stderr)
        Runtime.is_told = True

    def all(self, sources, ending, *words):
        """Compiles those of the library's sources that aren't kept, side by side; returns the paths of all."""
        paths = {it: self.place(f"{self.name_of(it)}{ending}") for it in sorted(sources)}
        missing = [it for it in paths.items() if not os.path.exists(it[1])]
        if missing:
            self.tell()
        side_by_side(lambda it: self.make(*it, words), missing)
        return list(paths.values())

    def name_of(self, source):
        """What a part begins with that is made of a source, or of another part."""
        folder, name = os.path.split(source)
        return name if folder == self.folder else f"{os.path.basename(folder)}-{name}"

    def sources(self, is_apart=False):
        """The C library, and what C++ has of it: what is compiled with each program, or once and for all."""
        plus = glob.glob(f"{TOP}/runtime/cxx/*.cc") if self.request.is_plus else []
        apart = [f"{TOP}/runtime/libc/{it}.c" for it in self.compiler.apart]
        return apart if is_apart else [it for it in [*glob.glob(f"{TOP}/runtime/libc/*.c"), *plus] if it not in apart]

    def helpers(self, text):
        """What a compiler calls of itself in an assembly: arithmetic of 64 bits and of floating point; what counts
        references and the like, where it is called; and what no C can say."""
        sources = [*glob.glob(f"{TOP}/runtime/soft/*.c"), f"{TOP}/runtime/integer.c", f"{TOP}/runtime/plug.c"]
        if "__atomic_" in text or "__sync_" in text:
            sources.append(f"{TOP}/runtime/atomic.c")
        return [*self.all(sources, ".s", "-S"), f"{TOP}/runtime/jumps.s"]
