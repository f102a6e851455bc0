"""What gdb reads of a program in C: an ELF file of the image, with the compiler's debug information moved to it."""
import glob
import os
import re
import shutil
import struct
import subprocess

from dwarf import standing_rules
from elf import Elf, Names, own_debug, written
from holding import Holding
from joined import SHIFT, Joined
from loaded import CODE, TOP
from maps import Fitted
from moved import Move, Moved

ASSEMBLER, LINKER = "sparc64-linux-gnu-as", "sparc64-linux-gnu-ld"
TEXT, DATA = 0x1000000, 0x2000000
FUNCTION, OBJECT = 2, 1
ROW = re.compile(r"\.Lrow(\d+)\.(\d+)$")
FRAME = "frame of "
# What main is called where ./cc has something run before it or behind it.
INNER = "__main"
SAVE_DOWN = 0x9DE3A000  # save %sp,-F,%sp without its F
# The name of what gcc told of a source, as an item in its assembly refers to it.
EARLY = re.compile(r"\s([\w.+-]+\.[0-9a-f]{8})\+\d+")


# The frame's address as debug information has it, and where a function that stands alone has its own, above that.
FRAME_ADDRESS = b"\x9c"
SHIFTED_ADDRESS = FRAME_ADDRESS + b"\x0c" + struct.pack(">I", SHIFT) + b"\x22"
SETHI = 4


class Frame:
    """A function's frame: what debug information tells its address by, and how far from that each word of it is, by
    how far it was; of a whole one those below its end are where they were."""

    def __init__(self, base, words, is_whole):
        self.base, self.words, self.is_whole = base, words, is_whole

    def offset(self, offset):
        """How far a byte is from the frame's address, by how far it was; None where that isn't known."""
        if self.is_whole and offset < 0:
            return offset
        moved = self.words.get(offset & ~3)
        return None if moved is None else moved + (offset & 3)


class Unreadable(Exception):
    """Why there is no debug information but names and lines."""


def called(*words):
    """Calls a tool, which has to do what it is asked for."""
    ran = subprocess.run(words, stdout=subprocess.PIPE, stderr=subprocess.STDOUT, text=True, errors="replace",
                         check=False)
    if ran.returncode:
        told = ran.stdout.strip().splitlines()
        raise Unreadable(f"{words[0]}: {told[-1] if told else ran.returncode}")


def linked_of(origins, folder, objects):
    """The assembly, each row of which has a label, as one file by the compiler's linker; `objects` has what the
    compiler told of its sources before it made assembly."""
    if not shutil.which(ASSEMBLER) or not shutil.which(LINKER):
        raise Unreadable(f"{LINKER} isn't there")
    made = []
    for it in origins.files:
        source, made_of = f"{folder}/rows{it.number}.s", f"{folder}/rows{it.number}.o"
        with open(source, "w", encoding="utf-8", errors="surrogateescape") as file:
            file.write(it.labelled())
        called(ASSEMBLER, "-32", "-Av8", "-L", "-o", made_of, source)
        made.append(made_of)
    out = f"{folder}/rows"
    called(LINKER, "-m", "elf32_sparc", f"-Ttext={TEXT:#x}", f"-Tdata={DATA:#x}", "-e", "main", "-z", "muldefs",
           "--unresolved-symbols=ignore-all", "--discard-none", "-o", out, *made, *objects)
    with open(out, "rb") as file:
        return Elf(file.read())


def early_objects(text, folder):
    """What gcc told of the sources of a program that it makes at once: the files in a folder that an assembly names."""
    wanted, found = {it.encode() for it in EARLY.findall(text)}, []
    for path in sorted(glob.glob(f"{glob.escape(folder)}/*.debug.temp.o")):
        with open(path, "rb") as file:
            data = file.read()
        told = {it for it in wanted if it in data}
        if told:
            found.append(path)
            wanted -= told
    if wanted:
        raise Unreadable(f"what the compiler told of {min(wanted).decode()} isn't there")
    return found


class Linked:
    """A linked file beside the image that ./fit made of the same assembly."""

    def __init__(self, linked, loaded, fitted, mapped, origins, work):
        self.linked, self.loaded, self.fitted, self.mapped, self.origins = linked, loaded, fitted, mapped, origins
        self.work = work
        self.text = linked.sections[".text"]
        self.low = linked.addresses[".text"]
        self.functions = {}  # address to name
        self.rows = {}
        for name, value, _size, kind, section in linked.symbols:
            found = ROW.match(name)
            if found:
                self.rows[int(found[1]), int(found[2])] = value
            elif kind == FUNCTION and section and self.low <= value < self.low + len(self.text):
                self.functions[value] = name
        self.objects = {name: [address, size] for address, name, size in fitted.objects}
        self.joined = Joined(loaded, mapped, origins, fitted.functions)

    def word(self, address):
        """A word of the linked code."""
        at = address - self.low
        return struct.unpack_from(">I", self.text, at)[0] if 0 <= at < len(self.text) else None

    def addresses(self):
        """The linked address of the origin of each word of the image; a function begins where it began."""
        out = []
        for number in range(len(self.loaded.words)):
            found = self.mapped.words.get(CODE + 4 * number)
            out.append(self.rows.get(found[0]) if found else None)
        starts = {name: address for address, name in self.functions.items()}
        for address, name in self.fitted.functions.items():
            if name in starts:
                out[(address - CODE) // 4] = starts[name]
        return out

    def moved_objects(self):
        """Begins and sizes of data in the linked file, and where they are now."""
        out = []
        for name, value, size, _kind, section in self.linked.symbols:
            if name in self.objects and section and not self.low <= value < self.low + len(self.text):
                out.append((value, max(size, 1), self.objects[name][0]))
                self.objects[name][1] = size or self.objects[name][1]
        return out

    def is_library(self, name):
        """Whether a function is one of the library's."""
        for file in self.origins.files:
            found = file.first.get(name)
            place = found and file.assembly.place(found.row)
            if place:
                return os.path.realpath(os.path.join(self.work, place[0])).startswith(f"{TOP}/runtime/")
        return True

    def frame_size(self, address):
        """The bytes of the frame that a function of the linked file takes; None of a leaf."""
        word = self.word(address)
        return 0x2000 - (word & 0x1FFF) if word is not None and word & 0xFFFFE000 == SAVE_DOWN else None

    def frames(self, addresses):
        """The frame of each function, by the function's address in the linked file."""
        own, out = {name: address for address, name in self.fitted.functions.items()}, {}
        for start, name in self.functions.items():
            size, moved, part = self.frame_size(start), self.objects.get(FRAME + name), self.joined.parts.get(name)
            saved, words, base = self.saved(own[name]) if name in own else None, {}, FRAME_ADDRESS
            if moved and size:
                moved[1] = size
                words = self.moved_words(start, addresses, (None, moved[0] + size), size)
                base = bytes([3]) + struct.pack(">I", moved[0] + size)
            elif part and part.pointer is not None:
                words = self.moved_words(start, addresses, (part.pointer, part.frame), size)
            elif saved:
                words = self.moved_words(start, addresses, (14, saved), size)
                base = FRAME_ADDRESS if self.is_first(name) else SHIFTED_ADDRESS
            out[start] = Frame(base, words, bool(moved and size))
        return out

    def is_first(self, name):
        """Whether a function is the image's first one."""
        return self.fitted.functions.get(CODE) == name

    def saved(self, entry):
        """The bytes of the frame that a function of the image takes."""
        word = self.loaded.word(entry)
        return 0x2000 - (word & 0x1FFF) if word is not None and word & 0xFFFFE000 == SAVE_DOWN else None

    def moved_words(self, start, addresses, now, size):
        """How far from the frame's address each word of a function's frame is, by how far it was: of the words that
        both name at one place. None of a frame in which these don't agree. `now` is what points to it, and its bytes;
        or None, and where it ends in the data."""
        following, found = min((it for it in self.functions if it > start), default=1 << 32), {}
        for number, address in enumerate(addresses):
            if size is None or address is None or not start <= address < following:
                continue
            their_word, our_word = self.word(address), self.loaded.words[number]
            theirs = offset_of(their_word, (14, size))
            ours = self.offset_in_data(number, now[1]) if now[0] is None else offset_of(our_word, now)
            if None not in (theirs, ours) and is_same_access(their_word, our_word):
                if found.setdefault(theirs, ours) != ours:
                    return {}
        return found if len(set(found.values())) == len(found) else {}

    def offset_in_data(self, number, end):
        """How far from an address of the data the word lies that a load or a store names, behind a SETHI of its base;
        None where it names none so."""
        word, before = self.loaded.words[number], self.loaded.words[number - 1] if number else 0
        if word >> 30 != 3 or not word & 0x2000 or before >> 22 != (word >> 14 & 31) << 3 | SETHI:
            return None
        return (before << 10 & 0xFFFFFFFF) + ((word & 0x1FFF ^ 0x1000) - 0x1000) - end

    def runs(self):
        """The runs of words with rules of frames."""
        framed = dict(self.loaded.functions)
        starts = {name: address for address, name in self.fitted.functions.items()}

        def standard(name, begins):
            return standing_rules(framed.get(starts.get(name)), begins, 0 if self.is_first(name) else SHIFT)
        return self.joined.runs(standard)

    def sections(self, work):
        """The debug information, moved."""
        addresses, objects = self.addresses(), self.moved_objects()
        frames = self.frames(addresses)
        text = self.low, self.low + len(self.text)
        blocks = {(it - CODE) // 4 for it in self.loaded.blocks}
        holding = Holding(self.loaded.words, addresses, self.word, self.functions, blocks)
        move = Move(addresses, objects, frames, text, holding, self.joined.kept())
        move.untracked = {address for address, name in self.functions.items() if self.is_library(name)}
        inner = next((it for it, name in self.functions.items() if name == INNER), None)
        self.inner = None if inner is None else move.code(inner)
        try:
            return Moved(self.linked, move, work).sections()
        except (ValueError, KeyError, IndexError, struct.error) as fault:
            raise Unreadable(f"the compiler's debug information: {fault}") from None


def offset_of(word, frame):
    """How far from %fp the word lies that a load or a store names, by %fp or by what points to a frame of so many
    bytes; None where it names none."""
    if word is None or word >> 30 != 3 or not word & 0x2000:
        return None
    (pointer, size), base, offset = frame, word >> 14 & 31, (word & 0x1FFF ^ 0x1000) - 0x1000
    if base == 30:
        return offset
    return offset - size if base == pointer else None


def is_same_access(one, other):
    """Whether two words load or store the same register alike."""
    return one >> 19 & 0xFFF == other >> 19 & 0xFFF


def debug_file(loaded, source, mapped, origins, folder, program):
    """The bytes of the ELF file of an image, by the source that ./fit made; and why it has no more than names and
    lines, where it hasn't. `program` is the path of the program's assembly, and the texts of those in which the
    compiler tells of variables, by paths; the folder has what else it told then."""
    fitted = Fitted(source)
    names = Names()
    names.functions, names.objects = fitted.functions, fitted.objects
    for address, (_, place) in sorted(mapped.words.items()):
        path = os.path.abspath(place.path) if os.path.exists(place.path) else place.path
        names.rows.append((address, path, place.line))
    for address in loaded.blocks:
        names.labels.setdefault(address, f".L{address:x}")
    try:
        path, told = program
        same = {it.path for it in origins.files if it.path in told and it.tell(told[it.path])}
        if path not in same:
            raise Unreadable("the compiler makes other code where it tells of variables")
        objects = early_objects(told[path], folder)
        linked = Linked(linked_of(origins, folder, objects), loaded, fitted, mapped, origins,
                        os.path.dirname(path))
        debug, why = linked.sections(os.path.realpath(folder)), None
        names.objects = [[address, name, size] for name, (address, size) in linked.objects.items()]
        if linked.inner and INNER not in fitted.functions.values():
            # (what ./cc put before main, so that gdb ends a backtrace at main)
            names.functions = {**fitted.functions, loaded.functions[0][0]: "_start"}
            names.labels[linked.inner] = "main"
        return written(loaded, names, debug, linked.runs()), why
    except Unreadable as fault:
        return written(loaded, names, own_debug(loaded, names, os.getcwd())), str(fault)
