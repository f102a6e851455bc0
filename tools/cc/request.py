"""What the words of ./cc and ./c++ ask for."""
import collections
import copy
import os
import re

from fault import Fault

MOST_TURNS, MOST_ARENA, MOST_STACK = 10**12, 262144, 131072
# What a source's name ends in, and whether it is C++.
ENDINGS = {".c": False, ".i": False, ".s": False, ".cc": True, ".cpp": True, ".cxx": True, ".C": True, ".ii": True}
# Options of the compiler's that have a value of their own.
VALUED = ("-I", "-D", "-U", "-isystem", "-iquote", "-include", "-MT", "-MQ")
PASSED = r"-(I|D|U|std=|W|MP|MG|ftrapv|fwrapv|funsigned-char|fsigned-char|fno-builtin|fmax-errors=|fdiagnostics-).*"
# What asks for nothing more here.
IDLE = r"-(lm|lc|pipe|g\w*|static|no-pie|fno-pic|fno-pie|fno-exceptions|fno-rtti|ffreestanding|s)"


class Request:
    """A call of cc."""

    # (the module that writes such classes takes as long to load as all of these)
    out = keep = prints = depends = dependencies = None
    runs = notes = maps = debugs = False
    # (whether gcc may thread jumps, which takes more blocks)
    is_threaded = True
    level, arena = "-O2", 65536

    def __init__(self, name="cc"):
        self.name, self.files, self.flags, self.fitting, self.inputs = name, [], [], [], []

    def at(self, level):
        """The same call at this level, with all jumps as they are written, which takes the fewest blocks."""
        other = copy.copy(self)
        other.level, other.is_threaded = level, False
        return other

    @property
    def is_traced(self):
        """Whether it is asked which line each word comes from."""
        return self.maps or self.debugs or self.runs or self.notes or bool(self.inputs)

    @property
    def is_plus(self):
        """Whether there is any C++ in it."""
        return self.name == "c++" or any(is_plus(it) for it in self.files)


def ending_of(path):
    """What a file's name ends in."""
    return os.path.splitext(path)[1]


def is_plus(path):
    """Whether a file is C++."""
    return ENDINGS.get(ending_of(path), False)


class Words:
    """The words of the command line, read from left to right."""

    def __init__(self, name, words):
        self.name, self.left = name, collections.deque(words)
        self.request = Request(name)

    def fault(self, text):
        """A word that asks for nothing."""
        return Fault(3, f"{self.name}: {text}")

    def value(self, word):
        """The value of an option that has one."""
        if not self.left:
            raise self.fault(f"{word}: its value is missing")
        return self.left.popleft()

    def number(self, word, most, kind="bytes", least=0):
        """A number of bytes, or of turns."""
        text = self.value(word)
        if not re.fullmatch(r"\d{1,13}", text) or not least <= int(text) <= most:
            bounds = f"from {least} to {most}" if least else f"up to {most}"
            raise self.fault(f"{word} {text}: a number of {kind} is wanted, {bounds}")
        return int(text)

    def size_of_stack(self, word):
        """A power of 2."""
        size = self.number(word, MOST_STACK)
        if size < 1024 or size & (size - 1):
            raise self.fault(f"{word} {size}: a power of 2 is wanted, from 1024 to {MOST_STACK}")
        return size

    def take(self, word):
        """Takes one option or file; says why where there is no such option."""
        request = self.request
        if word in ("-o", "--keep"):
            setattr(request, {"-o": "out", "--keep": "keep"}[word], self.value(word))
        elif word == "--turns":
            request.fitting += [word, str(self.number(word, MOST_TURNS, "turns", 1))]
        elif word == "--arena":
            request.arena = max(32, self.number(word, MOST_ARENA) // 8 * 8)
        elif word == "--stack":
            request.fitting += [word, str(self.size_of_stack(word))]
        elif word in ("--strict", "--region"):
            request.fitting.append(word)
        elif word in ("--run", "--notes", "--map", "--debug"):
            setattr(request, {"--run": "runs", "--notes": "notes", "--map": "maps", "--debug": "debugs"}[word], True)
        elif word == "--against":
            self.take_inputs()
        elif not word.startswith("-") or word == "-":
            self.take_file(word)
        elif not self.take_flag(word):
            raise self.fault(f"{word}: {self.why_not(word)}")

    def take_inputs(self):
        """Takes the inputs of --against, up to the next option or source."""
        while self.left and not self.left[0].startswith("-") and ending_of(self.left[0]) not in ENDINGS:
            path = self.left.popleft()
            if not os.path.exists(path):
                raise Fault(4, f"{self.name}: --against: {path}: no such file")
            inside = sorted(os.listdir(path)) if os.path.isdir(path) else None
            self.request.inputs += [path] if inside is None else [f"{path}/{it}" for it in inside]
        if not self.request.inputs:
            raise self.fault("--against: an input is wanted, a file or a folder of them")

    def take_file(self, path):
        """Takes a source."""
        if ending_of(path) not in ENDINGS:
            raise self.fault(f"{path}: {self.why_no_source(path)}")
        self.request.files.append(path)

    @staticmethod
    def why_no_source(path):
        """Why a file is no source, and what to write."""
        if ending_of(path) in (".o", ".a", ".so"):
            return "objects and libraries aren't there: give their sources, all at once"
        return "a source's name ends in .c, .cc, .cpp, .cxx, .i, .ii or .s"

    def take_flag(self, word):
        """Takes an option of the compiler's; False where there is no such option."""
        request = self.request
        if re.fullmatch(r"-O([0-3sgz]|fast)?", word):
            request.level = word
        elif word == "-MF":
            request.depends = self.value(word)
        elif word in ("-MD", "-MMD"):
            request.dependencies = word
        elif word in ("-M", "-MM", "-E"):
            request.prints = word
        elif word in VALUED:
            request.flags += [word, self.value(word)]
        elif re.fullmatch(PASSED, word) or word in ("-w", "-pedantic", "-pedantic-errors", "-ansi"):
            request.flags.append(word)
        else:
            return re.fullmatch(IDLE, word) is not None
        return True

    @staticmethod
    def why_not(word):
        """Why an option isn't taken, and what to write."""
        if word in ("-c", "-S"):
            return ("there are no objects here, since all sources become one program at once: name all of them, or let "
                    "-E write what a build keeps, as FILE.i; --keep FOLDER shows what is made on the way")
        if re.match(r"-l|-L", word):
            return "no library but the C library is there: give its sources"
        if re.match(r"-(fexceptions|frtti)", word):
            return "there are neither exceptions nor types at run time (dynamic_cast, typeid)"
        if re.match(r"-(pthread|fopenmp)", word):
            return "there are no threads"
        if re.match(r"-(m|f)", word):
            return "what the code is made for is set here, and can't be changed"
        return "no such option"


def request_of(name, words):
    """Reads the words of the command line."""
    reader = Words(name, words)
    while reader.left:
        reader.take(reader.left.popleft())
    request = reader.request
    if not request.files:
        raise reader.fault("no source is named")
    if (request.maps or request.debugs) and not request.out:
        raise reader.fault("--map and --debug leave files beside the image: -o OUT.img is wanted")
    if not (request.out or request.runs or request.inputs or request.prints):
        raise reader.fault("-o OUT.img, --run or --against is wanted")
    return request
