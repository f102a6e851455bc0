"""What is told of tests, refusals and faults: by file, line and function of C, and what to write."""
import collections
import functools
import os
import re
import shutil
import subprocess

from assembly import files_of, plain, plain_objects, where
from compilers import TOP, runtime_files

# So many notes are told line by line.
FEW = 10
NOTE = re.compile(r"([^:\n]+):(\d+): note: (.*)")
REFUSED = re.compile(r"(?:([^:\n]+):(?:(\d+):)? )?refused: (.*)", re.S)
# What to write in the place of what is refused, where the refusal doesn't say it.
ADVICE = (
    (r"an array of a size that isn't constant", "write the greatest size that there may be, or smaller functions"),
    (r"the address of its frame in a form", "write an array of a constant size"),
    (r"bytes of data", "write smaller tables, or ask for less by --arena and --stack, which lies at a multiple of its "
     "bytes and so may take twice as many"),
    (r"the blocks of [a-z ]+ would be", "compile by -Os, or write __attribute__((noinline)) before functions"),
    (r"words of code|would be \d+, above 65536", "compile by -Os"),
    (r"__multi3 isn't defined", "clang calls it for a product of 64 bits with a test of overflow: compare before the "
     "product, or compile by gcc"),
    (r"isn't defined", "it is neither in the sources that are named nor in the library: name its source"),
    (r"there is no function main", "one of the sources has to have it"),
    (r"the instruction iflush", "a pointer to a function that stands in another one isn't taken: write it outside of "
     "it"),
    (r"the operands of sethi", "neither thread_local of C++ nor inline assembly is taken"),
    (r"the instruction .* isn't known|an instruction that sandboxed code|the operands of",
     "inline assembly isn't taken: write it in C"),
    (r"one of %g5 to %g7", "inline assembly that names these isn't taken: write it in C"),
    (r"functions whose addresses are taken|more than \d+ functions", "write fewer of them, or compile by -Os"),
)


def demangled(text):
    """A text with names of C++ as they stand in the source, where there is what tells them."""
    if "_Z" not in text or not shutil.which("c++filt"):
        return text
    return subprocess.run(["c++filt"], input=text, stdout=subprocess.PIPE, text=True, check=False).stdout


def in_plain_names(why):
    """Why something is refused, with the names of functions as C has them."""
    return re.sub(r"\b__main\b", "main", re.sub(r"^[\w.$]+(?=: )", lambda it: plain(it[0]), why))


def of_several(why, count):
    """What a note says, of so many tests."""
    return why if count == 1 else why.replace("a test was added", f"{count} tests were added")


def from_here(path):
    """A path by where it lies below this folder; the whole one elsewhere, and in the library."""
    here = os.getcwd().rstrip("/") + "/"
    return path[len(here):] if path.startswith(here) and not path.startswith(f"{TOP}/runtime/") else path


class Teller:
    """Tells what ./fit said of a program, by its assembly and the files of assembly that the library has beside it,
    in a folder for work."""

    def __init__(self, request, assembly, helpers, work):
        self.request, self.assembly, self.work = request, assembly, work
        self.paths, self.known = {}, {}
        self.library = set(map(os.path.basename, runtime_files()))
        for path in [*assembly.files.values(), *(path for it in helpers for path in files_of(it)), *request.files]:
            self.paths.setdefault(os.path.basename(path), set()).add(self.shown(path))

    @property
    def has_namesakes(self):
        """Whether files in different folders have one name, which is all that ./fit tells of them."""
        return any(len(it) > 1 for it in self.paths.values())

    def shown(self, path):
        """A path as the words of the call have it; that of another file from here on, where it lies below, else the
        whole one. A compiler's paths begin where it worked."""
        if path not in self.known:
            whole, same = os.path.realpath(os.path.join(self.work, path)), os.path.basename(path)
            named = [it for it in self.request.files if os.path.realpath(it) == whole]
            if not named and not os.path.exists(whole):  # (lines that tell another place than where the file is now)
                named = [it for it in self.request.files if os.path.basename(it) == same]
            self.known[path] = named[0] if len(named) == 1 else from_here(whole) if os.path.exists(whole) else path
        return self.known[path]

    def path(self, name):
        """The path of the one file of that name; the name where there are several."""
        paths = self.paths.get(os.path.basename(name), set())
        return min(paths) if len(paths) == 1 else name

    def place(self, name, number):
        """A file and a line of C: those that a line of assembly comes from, where it is one of a compiler's."""
        if not name.endswith(".s") or name in self.request.files:
            return self.path(name), number, None
        place = self.assembly.place(number)
        function = self.assembly.function(number)
        return (self.path(place[0]), place[1], function) if place else (self.request.files[0], None, function)

    def notes(self, text):
        """The notes: those on the program line by line where they are few, else how many stand in each function; those
        on the library counted."""
        found = NOTE.findall(plain_objects(text))
        own = [it for it in found if not self.is_library(it[0])]
        if self.request.notes:
            return self.by_line(own) + self.by_line([it for it in found if self.is_library(it[0])])
        lines = self.by_line(own, are_joined=True)
        if len(own) > FEW:
            lines = [f"{self.request.name}: {len(own)} tests were added ({self.counted(own)}): --notes tells each"]
        if len(found) > len(own):
            rest = len(found) - len(own)
            lines.append(f"{self.request.name}: {rest} tests were added in the library: --notes tells each")
        return lines

    def by_line(self, found, are_joined=False):
        """Notes in the order of files and lines; where they are joined, those that say the same of a line, as of copies
        of a function, are one that counts them."""
        counts = collections.Counter((self.path(name), int(line), why) for name, line, why in found)
        lines = []
        for path, line, why in sorted(counts, key=lambda it: it[:2]):
            count = counts[path, line, why]
            told = [of_several(why, count)] if are_joined else [why] * count
            lines += [f"{where(path, line)}: note: {it}" for it in told]
        return demangled("\n".join(lines)).splitlines()

    def is_library(self, name):
        """Whether a file of that name is the library's, or one of C++'s headers."""
        path, own = self.path(name), self.request.files
        if path == os.path.basename(path):  # (one of several files of that name, or one that lies here)
            return path in self.library and path not in map(os.path.basename, own)
        return path not in own and (path.startswith(f"{TOP}/runtime/") or "/c++/" in path)

    def counted(self, found):
        """How many notes stand in each function."""
        counts = collections.Counter(self.function(name, int(line)) for name, line, _ in found)
        told = [f"{name} {count}" for name, count in counts.most_common(FEW)]
        rest = [count for _, count in counts.most_common()[FEW:]]
        return ", ".join([*told, f"{len(rest)} more {sum(rest)}"] if rest else told)

    @functools.lru_cache(maxsize=None)
    def lines_of(self, name):
        """The lines of a source; none where it can't be read."""
        try:
            with open(self.path(name), encoding="utf-8", errors="replace") as file:
                return file.read().splitlines()
        except OSError:
            return []

    def function(self, name, line):
        """The function that a line of C stands in, as well as the text tells; else the file's name."""
        for text in reversed(self.lines_of(name)[:line]):
            text = re.sub(r"__attribute__\(\(.*?\)\)\s*", "", text)
            head = re.match(r"(?!typedef|#|//|/\*| \*)(?=[A-Za-z_])[^;={}]*?\b(\w+)\s*\((?!.*;\s*$)", text)
            if head and head[1] not in ("if", "for", "while", "switch", "__attribute__", "sizeof", "return"):
                return head[1]
        return name

    def refusal(self, text):
        """A refusal with its line of C, its function, and what to write."""
        found = REFUSED.search(text)
        if not found:
            return text.strip()
        name, line, why = found.groups()
        why = in_plain_names(why.strip())
        advice = next((said for pattern, said in ADVICE if re.search(pattern, why)), None)
        why += f": {advice}" if advice and advice not in why else ""
        if not name:
            return demangled(f"{self.request.name}: refused: {why}")
        path, line, function = self.place(name, int(line) if line else 0)
        inside = f"{function}: " if function and not why.startswith(f"{function}:") else ""
        return demangled(f"{where(path, line)}: refused: {inside}{why}")

    def fault_of_fit(self, what, source, word=None):
        """What ./fit made that isn't accepted: never the program's fault."""
        place = place_of_word(source, word)
        name = self.request.name
        begin = f"{where(self.path(place[0]), place[1])}: " if place else ""
        return (f"{begin}{name}: a fault of ./fit's, and not of the program: what it made of this line isn't accepted: "
                f"{what}", f"{name}: nothing is made; another -O level may do; --keep FOLDER has what to report")


def place_of_word(source, word):
    """The file and the line of C that a word of an image comes from, by the comments of its source."""
    if word is None:
        return None
    place, count = None, -1
    for line in source.splitlines():
        found = re.search(r"! (\S+\.\w+):(\d+)$", line)
        place = (found[1], int(found[2])) if found else place
        count += re.match(r"\s+[a-z]", line) is not None
        if count == word:
            break
    return place
