#!/usr/bin/env python3
"""usage: tests/real/run.py [--sources FOLDER] [--inputs N] [--keep FOLDER] [UNIT ..]

Makes images of C that others wrote, units of Debian's source packages as they are, by ./cc with options alone, and
compares each with the same unit under qemu's user mode on N inputs each (20). The sources are fetched by
`apt-get source` into FOLDER (~/.cache/geyserpan/real), once; what can't be fetched, and what isn't there of
gcc-sparc64-linux-gnu, qemu-user and lz4, is told and skipped. The table says of each unit what cc made of it, and how
many runs were the same, were stopped by a test or the meter, or differ: a run that isn't the same is a failure."""
import concurrent.futures
import dataclasses
import glob
import os
import re
import shutil
import subprocess
import sys
import tarfile
import tempfile
import threading

sys.dont_write_bytecode = True
HERE = os.path.dirname(os.path.abspath(__file__))
sys.path.insert(0, f"{os.path.dirname(HERE)}/lib")
from inputs import Maker
from run import CC, SANDBOX, TOP, built, bytes_of, has, put, run, text_of
from tally import Tally, Words

GCC, QEMU = "sparc64-linux-gnu-gcc", "qemu-sparc32plus"
CACHE = os.path.expanduser(os.environ.get("XDG_CACHE_HOME") or "~/.cache") + "/geyserpan/real"
LINE = "deb-src [signed-by=/usr/share/keyrings/debian-archive-keyring.gpg] http://deb.debian.org/debian bookworm main\n"
# The same driver and library under qemu, in the images' words and order of bytes.
ORACLE = """-O1 -m32 -mcpu=v8 -ffreestanding -fwrapv -fno-strict-aliasing -w -fno-stack-protector -nostdlib -static
    -msoft-float -nostdinc -D__REFUSED(why)= -D__FAILS(why)=""".split()
SEED = 1


@dataclasses.dataclass
class Unit:
    """A line of units.txt."""

    name: str
    package: str
    arena: int
    flags: list
    files: list


def units():
    """The units, by name."""
    found = {}
    for line in text_of(f"{HERE}/units.txt").splitlines():
        if line.startswith("#") or not line.strip():
            continue
        head, _, files = line.partition(" :")
        name, package, arena, *flags = head.split()
        found[name] = Unit(name, package, int(arena), flags, files.split())
    return found


class Sources:
    """The unpacked source packages in a folder."""

    def __init__(self, folder):
        self.folder = os.path.abspath(folder)
        own = (f"Etc::sourcelist={folder}/apt/sources.list", "Etc::sourceparts=/dev/null",
               f"State::lists={folder}/apt/lists")
        self.options = [word for it in own for word in ("-o", f"Dir::{it}")]
        self.turn = threading.Lock()  # (units are tried side by side, and apt-get takes one call at a time)

    def apt(self, *words):
        """Calls apt-get with the package list of this folder."""
        return run(["apt-get", "-q", *self.options, *words], seconds=600, cwd=f"{self.folder}/packed").status == 0

    def prepare(self):
        """Makes the folder's own list of packages."""
        os.makedirs(f"{self.folder}/apt/lists/partial", exist_ok=True)
        os.makedirs(f"{self.folder}/packed", exist_ok=True)
        if not os.path.exists(f"{self.folder}/apt/sources.list"):
            put(f"{self.folder}/apt/sources.list", LINE)
            self.apt("update")

    def of(self, package):
        """The folder of a package's sources; None where they can't be had."""
        with self.turn:
            return self.fetched(package)

    def fetched(self, package):
        """The same, for one caller at a time."""
        place = f"{self.folder}/{package}"
        if not os.path.isdir(place):
            self.prepare()
            pattern = f"{self.folder}/packed/{package}_*.orig.tar*"
            if not glob.glob(pattern):
                self.apt("source", "--download-only", package)
            packed = [it for it in glob.glob(pattern) if not it.endswith(".asc")]
            if not packed:
                return None
            self.unpack(packed[0], place)
        return place

    def unpack(self, packed, place):
        """Unpacks an archive whose files lie in one folder, or in none."""
        with tempfile.TemporaryDirectory(dir=self.folder) as room:
            with tarfile.open(packed) as archive:
                archive.extractall(room, filter="data")
            inside = os.listdir(room)
            shutil.move(f"{room}/{inside[0]}" if len(inside) == 1 else room, place)
            os.makedirs(room, exist_ok=True)


class Trial:
    """One unit: its image, the program that it is compared with, and the runs of both."""

    def __init__(self, unit, sources, work):
        self.unit, self.sources, self.work = unit, sources, work

    def flag(self, text):
        """A flag with its folders filled in; None where a package can't be had."""
        for name in re.findall(r"@([a-z0-9-]*)", text):
            place = self.sources.of(name or self.unit.package)
            if not place:
                return None
            text = text.replace(f"@{name}", place, 1)
        return text.replace("%", f"{HERE}/configured")

    def words(self):
        """The flags and the files of the unit; None where a package can't be had."""
        flags = [self.flag(it) for it in self.unit.flags]
        if None in flags:
            return None
        if self.unit.package == "libfec":
            flags += ["-I", self.table()]
        if self.unit.package == "snowball":
            flags += ["-I", self.generated()]
        if self.unit.package == "msgpack-c":
            flags += ["-I", self.filled(), "-I", f"{self.work}/msgpack"]
        place = self.sources.of(self.unit.package)
        files = [f"{HERE}/units/{self.unit.name}.c"]
        files += [f"{self.work}/{it}" if it.startswith("gen/") else f"{place}/{it}" for it in self.unit.files]
        return [*flags, "-I", f"{HERE}/units"], files

    def table(self):
        """libfec's tables, as its own program prints them."""
        place, made = self.sources.of("libfec"), f"{self.work}/tables"
        os.makedirs(made, exist_ok=True)
        sources = [f"{place}/{it}.c" for it in ("gen_ccsds", "init_rs_char")]
        subprocess.run(["gcc", "-w", "-I", place, *sources, "-o", f"{made}/gen"], check=True)
        put(f"{made}/tabs.h", run([f"{made}/gen"]).out)
        return made

    def generated(self):
        """The stemmer that snowball's own compiler makes."""
        place, made = self.sources.of("snowball"), f"{self.work}/gen"
        os.makedirs(made, exist_ok=True)
        sources = glob.glob(f"{place}/compiler/*.c")
        subprocess.run(["gcc", "-w", *sources, "-o", f"{self.work}/snowball"], check=True)
        words = [f"{self.work}/snowball", f"{place}/algorithms/english.sbl", "-o", f"{made}/stem_english", "-eprefix",
                 "english_", "-r", "runtime"]
        subprocess.run(words, check=True)
        return self.work

    def filled(self):
        """msgpack's headers in which the order of bytes is filled in, as its CMake does it."""
        place = self.sources.of("msgpack-c")
        for name in "sysdep.h", "pack_template.h":
            text = text_of(f"{place}/cmake/{name}.in")
            for order in "BIG", "LITTLE":
                is_so = f"(__BYTE_ORDER__ == __ORDER_{order}_ENDIAN__)"
                text = text.replace(f"@MSGPACK_ENDIAN_{order}_BYTE@", is_so)
            os.makedirs(f"{self.work}/msgpack", exist_ok=True)
            put(f"{self.work}/msgpack/{name}", text)
        return self.work

    def image(self, flags, files):
        """Makes the image; returns its path, or why there is none."""
        image = f"{self.work}/{self.unit.name}.img"
        ran = run([CC, "-w", *flags, *files, "--arena", str(self.unit.arena), "-o", image], seconds=600)
        if ran.status == 0:
            return image, ""
        lines = ran.said.splitlines() or ["no word"]
        return None, next((it for it in lines if "refused" in it or "error" in it), lines[0])

    def oracle(self, flags, files):
        """The same unit as a program for qemu."""
        program = f"{self.work}/{self.unit.name}.qemu"
        library = [it for folder in ("libc", "soft", ".") for it in glob.glob(f"{TOP}/runtime/{folder}/*.c")]
        words = [GCC, *ORACLE, "-isystem", f"{TOP}/runtime/include", "-I", f"{HERE}/qemu", "-I", f"{TOP}/runtime",
                 f"-DGEYSERPAN_ARENA={self.unit.arena}", *flags, *files, f"{HERE}/qemu/start.c", *library,
                 "-Wl,--unresolved-symbols=ignore-all,--allow-multiple-definition", "-o", program]
        ran = run(words, seconds=300)
        if ran.status:
            raise SystemExit(f"{self.unit.name}: the program for qemu can't be made: {ran.said[:2000]}")
        return program

    def compare(self, image, program, given):
        """What a run came to beside qemu's: same, stopped, differs, or none where qemu's has no end."""
        wanted = run([QEMU, program], given, seconds=30)
        if wanted.status is None or wanted.status not in (0, 1):
            return "none"
        came = run([SANDBOX, "run", image], given, seconds=120)
        if came.out == wanted.out and (came.status != 0) == (wanted.status != 0):
            return "same"
        return "stopped" if came.status == 1 and wanted.out.startswith(came.out) else "differs"


def attempt(unit, sources, count, keep):
    """Tries a unit; returns a line of the table, and the inputs whose runs aren't the same."""
    with tempfile.TemporaryDirectory() as work:
        trial = Trial(unit, sources, work)
        words = trial.words()
        if words is None:
            return None, []
        image, why = trial.image(*words)
        if not image:
            return f"{unit.name}: {why}", []
        program = trial.oracle(*words)
        text = "\n".join(text_of(it) for it in sorted(glob.glob(f"{TOP}/docs/*/*.md"))).encode()
        inputs = Maker(unit.name, text, SEED).inputs(count)
        came = [trial.compare(image, program, it) for it in inputs]
        bad = [data for data, it in zip(inputs, came) if it in ("stopped", "differs")]
        if keep:
            os.makedirs(keep, exist_ok=True)
            shutil.copy(image, keep)
            for number, data in enumerate(bad):
                put(f"{keep}/{unit.name}.{number}.in", data)
        told = ", ".join(f"{came.count(it)} {it}" for it in ("same", "stopped", "differs") if it in came)
        return f"{unit.name}: accepted, {len(bytes_of(image))} bytes; {told}", bad


def main(words):
    reader, known = Words(__doc__), units()
    reader.add_argument("--sources", default=CACHE)
    reader.add_argument("--inputs", type=int, default=20)
    reader.add_argument("--keep")
    reader.add_names("units", known)
    asked = reader.parse_args(words)
    tally = Tally("real")
    for tool in (GCC, QEMU, "lz4", "apt-get"):
        if not has(tool):
            tally.skip("all units", tool)
            return tally.end()
    built("fit", "sandbox")
    sources = Sources(asked.sources)
    chosen = [known[it] for it in asked.units or sorted(known)]
    with concurrent.futures.ThreadPoolExecutor(2) as lanes:
        results = lanes.map(lambda it: attempt(it, sources, asked.inputs, asked.keep), chosen)
        for unit, (line, bad) in zip(chosen, results):
            if line is None:
                tally.skip(unit.name, f"the sources of {unit.package}")
                continue
            print(line, flush=True)
            tally.check(unit.name, not bad, f"{len(bad)} runs differ from qemu's")
    return tally.end()


if __name__ == "__main__":
    sys.exit(main(sys.argv[1:]))
