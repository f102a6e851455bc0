#!/usr/bin/env python3
"""usage: tests/board/run.py [--runs N] [PART ..]

Runs accepted images natively in QEMU's LEON3, by what `./board` makes of them, and compares them with what their runs
have to be: exit word, output, window traps, and no other trap. Parts:

  words      the sources in embed/leon, assembled anew, beside the words that `./board` writes
  loaded     each word of RAM beside the sandbox machine's, as tools/vectors/v8_board.py has it, moved to where RAM
             begins, but for the words that are a LEON's own; with a device that is the stub alone
  start      the state in which an image begins, and RAM there, read back by QEMU's gdb stub
  examples   the examples on 4, 8 and 32 windows, by RAM and over the UART, with caches and without, and on four more
             inputs
  programs   the programs of examples/c on five inputs each
  verdicts   N of the stored runs (500), on their counts of windows
  states     the state before each turn of user code, of the first 3,000 turns of each example on 4, 8 and 32 windows
             and of each program of examples/c, beside `inspect states`
  services   each call of a service, step by step, beside the laws of leon_services
  calls      images called by C, a thousand times in a row each, from systems with their MMU off and on
  suite      what tools/board-suite makes, with N / 4 of the stored runs, on 4, 8 and 32 windows; what is wrong is told
  refused    images that aren't accepted, other words, places that can't be, files that can't be written
  speed      turns a second beside board and engine

It needs qemu-system-sparc, binutils for SPARC for the first part, and gcc for the calls; what isn't there is told and
skipped."""
import os
import re
import subprocess
import sys
import tempfile
import time

sys.dont_write_bytecode = True
HERE = os.path.dirname(os.path.abspath(__file__))
sys.path[:0] = [f"{os.path.dirname(HERE)}/lib", HERE]
sys.path.append(f"{os.path.dirname(os.path.dirname(HERE))}/tools/vectors")
import leon
import services
import states
import v8_board
from qemu import Leon
from run import (EXAMPLES, FIT, HOST, INSPECT, SANDBOX, TOP, built, bytes_of, has, least_kib, program, put, run,
                 within)
from tally import Tally, Words

BOARD = f"{TOP}/board"
STORED = f"{TOP}/crates/sbx_verdicts/stdin"
AS, LD, COPY, NAMES, GCC = (f"sparc64-linux-gnu-{it}" for it in ("as", "ld", "objcopy", "nm", "gcc"))
EMBED = f"{TOP}/embed/leon"
# How C for a LEON3 is compiled here, and where the example has its image.
FLAGS = ["-m32", "-mcpu=v8", "-mno-fpu", "-O2", "-Wall", "-Wextra", "-Werror", "-ffreestanding", "-fno-builtin",
         "-fno-pic", "-no-pie", "-nostdlib", "-static", "-Wa,--noexecstack", "-Wl,--build-id=none,-z,noexecstack"]
CALLED = 0x41000000
# Where the sections of the sources lie: the stub in physical memory, all else in virtual one.
SECTIONS = {".text": leon.RAM + 0x4000, ".services": 0xF0000800, ".other": 0xF0002000, ".routines": 0xF0001100}
# Where they lie in RAM, and how a trap type's vector is told from the others.
SERVICES, ROUTINES, STUB = 0x800, 0x1100, 0x4000
OWN_VECTORS = (0x05, 0x06, 0x80, 0x81, 0x82)
# The inputs of embed/leon/example.
INPUTS = (b"", b"a", b"Hello, LEON\n", b"the quick brown fox jumps over the lazy dog")
# How many turns of a run are followed state by state.
TURNS = 3000


def made(image, out, *more):
    """Makes a program of an image; what `./board` says of it."""
    return run([BOARD, image, out, *more])


def assembled(room, services, windows):
    """The sections of the stub and of the services, assembled."""
    values = {"WINDOWS": windows, "MAIL": 0xF0010000, "APB": 0xF0011000, "BOOT_TABLE": leon.RAM + 0x3000,
              "CONTEXT_TABLE": leon.RAM + 0x2000}
    symbols = [word for it in values.items() for word in ("--defsym", f"{it[0]}={it[1]}")]
    for name in ("boot", services):
        subprocess.run([AS, "-32", "-Av8", *symbols, f"{TOP}/embed/leon/{name}.s", "-o", f"{room}/{name}.o"],
                       check=True)
    places = "".join(f"{name} {place:#x} : {{ *({name}) }}\n" for name, place in SECTIONS.items())
    put(f"{room}/map.ld", f"SECTIONS {{ {places} /DISCARD/ : {{ *(*) }} }}\n".encode())
    subprocess.run([LD, "-m", "elf32_sparc", "-T", f"{room}/map.ld", "-e", "boot", f"{room}/boot.o",
                    f"{room}/{services}.o", "-o", f"{room}/all"], check=True)
    found = {}
    for name in SECTIONS:
        subprocess.run([COPY, "-O", "binary", "-j", name, f"{room}/all", f"{room}/part"], check=True)
        found[name] = bytes_of(f"{room}/part")
    return found


def vectors_are(tally, name, ram, parts):
    """Whether each trap type has the vector that the sources give it."""
    tally.same(f"{name}: vectors of the services", ram[SERVICES : SERVICES + 48], parts[".services"])
    others = {ram[16 * it : 16 * it + 16] for it in range(256) if it not in OWN_VECTORS}
    tally.same(f"{name}: every other vector", others, {parts[".other"]})


def words(tally, _asked):
    if not has(AS):
        tally.skip("words", AS)
        return
    for services, option in (("mail", "--mailbox"), ("uart", "--uart")):
        for windows in (4, 8, 31, 32):
            with tempfile.TemporaryDirectory() as room:
                name = f"{services} on {windows} windows"
                made(f"{EXAMPLES}/hello/hello.img", f"{room}/elf", option, "--windows", str(windows))
                ram, _ = leon.bytes_at(f"{room}/elf")
                parts = assembled(room, services, windows)
                vectors_are(tally, name, ram, parts)
                for part, place in ((".routines", ROUTINES), (".text", STUB)):
                    tally.same(f"{name}: {part}", ram[place : place + len(parts[part])], parts[part])


def examples():
    """Name, image and input of each example."""
    for name in sorted(os.listdir(EXAMPLES)):
        image = f"{EXAMPLES}/{name}/{name}.img"
        if os.path.exists(image):
            given = f"{EXAMPLES}/{name}/{name}.in"
            yield name, image, bytes_of(given) if os.path.exists(given) else b""


def own_places(base, device):
    """The words that are a LEON's own: the stub with its tables, and the entry of the device's page; where there is no
    device also vectors but those of the window traps, routines, entries of the page behind and of the buffers, and the
    mailbox."""
    stub = {0x2D40, 0x3000, 0x3400 + (base >> 24) * 4, 0x37C0, *range(STUB, STUB + 4 * 62, 4)}
    if device is not None:
        return stub
    vectors = [at for at in range(0, 0x1000, 4) if at // 16 not in (0x05, 0x06)]
    return {*stub, *vectors, *range(ROUTINES, 0x2000, 4), 0x2904, 0x2D44, *range(leon.MAIL, leon.MAIL + 32, 4)}


def moved(place, word, base, cached):
    """A word of the sandbox machine's RAM where RAM begins at `base`."""
    if not 0x2000 <= place < 0x2E00 or word == 0:
        return word
    return word + (base >> 4) + (0x80 if cached and word & 3 == 2 else 0)


def compare_loaded(tally, name, image, windows, base, *more, device=None):
    """Whether RAM is the sandbox machine's, moved, but for the words that are a LEON's own."""
    way = [] if device is None else ["--device", hex(device)]
    with tempfile.TemporaryDirectory() as room:
        made(image, f"{room}/elf", "--windows", str(windows), "--ram", hex(base), *more, *way)
        ram, at = leon.bytes_at(f"{room}/elf")
    board = v8_board.Board(windows, v8_board.Image(bytes_of(image)), b"")
    own = own_places(base, device)
    wanted = {it: moved(it, board.word(it), base, bool(more)) for it in range(0, leon.SIZE, 4) if it not in own}
    if device is not None:
        wanted[0x2D40] = device >> 4 | 0x1E
    others = [hex(it) for it, word in wanted.items() if leon.word_of(ram, it) != word]
    tally.same(f"{name} on {windows} windows, RAM at {base:#x} {' '.join(way)}", (at, others[:9]), (base, []))


def loaded(tally, _asked):
    for name, image, _ in examples():
        compare_loaded(tally, name, image, 4, leon.RAM)
        compare_loaded(tally, name, image, 8, 0)
        compare_loaded(tally, name, image, 32, 0xEF000000, "--cached")
        compare_loaded(tally, name, image, 8, leon.RAM, device=0x80001000)


def board_run(image, given, windows):
    """What a board's run has to be: output, end and window traps."""
    out = run([SANDBOX, "run", "--windows", str(windows), image], given).out
    told = run([INSPECT, "run", "--limit", "9999999999", "--windows", str(windows), image], given).said
    word = re.search(r"exit with the word ([0-9A-F]{8})", told)
    traps = re.search(r"window traps: (\d+) overflows?, (\d+) underflows?", told)
    return leon.Run(out, f"exit {word[1] if word else '?'}", (int(traps[1]), int(traps[2]), []) if traps else None)


def compare(tally, name, image, given, windows=8, more=()):
    """Whether a run in RAM is the board's, traps too."""
    with tempfile.TemporaryDirectory() as room:
        put(f"{room}/in", given)
        ran = made(image, f"{room}/elf", "--windows", str(windows), "--input", f"{room}/in", *more)
        if tally.check(f"{name}: made", ran.status == 0, ran.said):
            wanted = board_run(image, given, windows)
            tally.same(f"{name} on {windows} windows", leon.run_in_ram(f"{room}/elf", windows, True), wanted)


def compare_by_uart(tally, name, image, given):
    """Whether a run over the UART is the board's."""
    with tempfile.TemporaryDirectory() as room:
        ran = made(image, f"{room}/elf", "--uart")
        if tally.check(f"{name}: made for the UART", ran.status == 0, ran.said):
            wanted = board_run(image, given, 8)._replace(traps=None)
            tally.same(f"{name} over the UART", leon.run_by_uart(f"{room}/elf", given), wanted)


def examples_run(tally, _asked):
    built("sandbox", "inspect")
    for name, image, given in examples():
        for windows in (4, 8, 32):
            compare(tally, name, image, given, windows)
        for number, other in enumerate(INPUTS):
            compare(tally, f"{name}, input {number}", image, other)
        compare(tally, f"{name}, cached", image, given, 8, ["--cached"])
        compare_by_uart(tally, name, image, given)


def c_images(tally):
    """Name, image and five inputs of each program of examples/c: its own, none, and three of others."""
    built("sandbox", "fit")
    inputs = [bytes_of(f"{EXAMPLES}/c/in/{it}") for it in sorted(os.listdir(f"{EXAMPLES}/c/in"))]
    plug = f"{EXAMPLES}/c/gcc/plug.s"
    with tempfile.TemporaryDirectory() as room:
        for name in sorted(it.removesuffix(".s") for it in os.listdir(f"{EXAMPLES}/c/gcc") if it != "plug.s"):
            source, image = f"{room}/{name}.s", f"{room}/{name}.img"
            run([FIT, f"{EXAMPLES}/c/gcc/{name}.s", plug, "-o", source])
            ran = run([SANDBOX, "asm", source, image])
            if tally.check(f"an image of {name}", ran.status == 0, ran.said[:300]):
                own = bytes_of(f"{EXAMPLES}/c/in/{name}")
                yield name, image, [own, b"", *[it for it in inputs if it != own][:3]]


def programs(tally, _asked):
    built("inspect")
    for name, image, inputs in c_images(tally):
        for number, given in enumerate(inputs):
            compare(tally, f"{name}, input {number}", image, given)


def stored(limit):
    """Stored runs of accepted images, evenly taken: image, windows, input, exit word, output, traps."""
    found, data = [], None
    with open(STORED, encoding="ascii") as lines:
        for line in lines:
            row = line.split()
            if row[:1] == ["image"]:
                data = bytes.fromhex(row[1]) if row[2] == "accepted" else None
            elif row[:1] == ["run"] and data is not None:
                found.append((data, row[1:]))
    step = max(1, len(found) // limit)
    return found[::step][:limit]


def hexadecimal(word):
    return b"" if word == "-" else bytes.fromhex(word)


def verdicts(tally, asked):
    for number, (data, row) in enumerate(stored(asked.runs)):
        windows, given, word, output, _, overflows, underflows = row
        with tempfile.TemporaryDirectory() as room:
            put(f"{room}/img", data)
            put(f"{room}/in", hexadecimal(given))
            ran = made(f"{room}/img", f"{room}/elf", "--windows", windows, "--input", f"{room}/in")
            if tally.check(f"run {number}: made", ran.status == 0, ran.said):
                traps = (int(overflows), int(underflows), [])
                wanted = leon.Run(hexadecimal(output), f"exit {word.upper()}", traps)
                tally.same(f"run {number}", leon.run_in_ram(f"{room}/elf", int(windows), True), wanted)


# How many calls embed/leon/example makes behind the first ones.
MORE_CALLS = 1000 - len(INPUTS)


def host_made(out, *own):
    """Makes a host on a LEON3 that calls an image: embed/leon/example, or one whose own `main` calls the example's."""
    if own:
        ran = run([GCC, *FLAGS, "-Dmain=example", "-c", f"{EMBED}/example/main.c", "-o", f"{out}.o"])
        if ran.status:
            return ran
    main = f"{out}.o" if own else f"{EMBED}/example/main.c"
    return run([GCC, *FLAGS, "-T", f"{EMBED}/example/host.ld", "-e", "start", f"{EMBED}/example/start.s", main, *own,
                f"{EMBED}/geyserpan_leon.c", f"{EMBED}/enter.s", "-o", out])


def called(host, image, windows, room):
    """What a host puts out over the UART, beside whose program that of an image lies."""
    words = [leon.PROGRAM, "-M", "leon3_generic", "-cpu", f"LEON3,nwindows={windows}", "-m", "64", "-kernel", host,
             *(["-device", f"loader,file={image}"] if image else []), "-display", "none", "-monitor", "none", "-serial",
             f"file:{room}/out"]
    subprocess.run(words, stdin=subprocess.DEVNULL, stderr=subprocess.DEVNULL, timeout=600, check=False)
    return bytes_of(f"{room}/out")


def calls_wanted(image, windows):
    """What the example has to put out."""
    runs = [board_run(image, given, windows) for given in INPUTS]
    told = [b"%08X %s\nend 00000001 word %s\n" % (len(it.output), it.output, it.end.split()[1].encode()) for it in runs]
    return b"".join(told) + b"same %08X\n" % MORE_CALLS


def calls(tally, _asked):
    if not has(GCC):
        tally.skip("calls", GCC)
        return
    built("sandbox", "inspect")
    with tempfile.TemporaryDirectory() as room:
        hosts = {"MMU off": (), "MMU on": (f"{HERE}/mapped.c",)}
        for name, own in hosts.items():
            ran = host_made(f"{room}/{name}", *own)
            tally.check(f"a host with its {name}", ran.status == 0, ran.said)
        for name, image, _ in examples():
            for windows in (4, 8, 32):
                made(image, f"{room}/elf", "--ram", hex(CALLED), "--windows", str(windows))
                wanted = calls_wanted(image, windows)
                for host in hosts:
                    came = called(f"{room}/{host}", f"{room}/elf", windows, room)
                    tally.same(f"{name} called on {windows} windows, {host}", came, wanted)
        host = f"{room}/MMU off"
        tally.same("a host without an image", called(host, None, 8, room), b"open: 00000005\n")
        made(f"{EXAMPLES}/hello/hello.img", f"{room}/elf", "--ram", hex(CALLED), "--uart")
        tally.same("an image for the UART", called(host, f"{room}/elf", 8, room), b"open: 00000005\n")
        made(f"{EXAMPLES}/hello/hello.img", f"{room}/elf", "--ram", hex(CALLED), "--windows", "7")
        tally.same("an image for seven windows", called(host, f"{room}/elf", 8, room), b"open: 00000006\n")


SUITE_COUNTS = re.compile(r"(\d+) runs, (\d+) results, (\d+) turns")
# What stands in the data of a suite for 32 windows, what is put in its place, and what the suite tells then.
WRONG = (
    ("a wrong result", "00000004FF3F8EB90060000000000004", "00000004FF3F8EB80060000000000004",
     "value of result 1529: wanted FF3F8EB8, came FF3F8EB9"),
    ("a wrong register", "00000114214BFC00", "00000114214BFC01",
     "register behind turn 5440: wanted 214BFC01, came 214BFC00"),
    ("a wrong Y", "0020008F00000008000000FF", "0020008F00000008000000FE",
     "Y behind turn 5440: wanted 000000FE, came 000000FF"),
)


def suite_told(elf, windows, room):
    """What a program of tools/board-suite tells."""
    return called(elf, None, windows, room).decode().splitlines()


def suite(tally, asked):
    if not has(GCC):
        tally.skip("suite", GCC)
        return
    with tempfile.TemporaryDirectory() as room:
        for windows in (4, 8, 32):
            words = ["--windows", str(windows), "--runs", str(asked.runs // 4)]
            ran = run([f"{TOP}/tools/board-suite", f"{room}/elf", *words], seconds=None)
            counts = [int(it) for row in SUITE_COUNTS.findall(ran.said)[-1:] for it in row]
            if tally.check(f"a suite for {windows} windows", ran.status == 0 and counts, ran.said):
                told = suite_told(f"{room}/elf", windows, room)
                tally.same(f"the suite on {windows} windows", told, [f"{sum(counts)} passed, 0 failed"])
        told = suite_told(f"{room}/elf", 8, room)
        wanted = f"{counts[1]} passed, {counts[0] + counts[2]} failed"
        tally.same("the suite on another count of windows", told[-1:], [wanted])
        for name, right, wrong, difference in WRONG:
            elf = bytes_of(f"{room}/elf")
            tally.same(f"{name}: where its words stand", elf.count(bytes.fromhex(right)), 1)
            put(f"{room}/wrong", elf.replace(bytes.fromhex(right), bytes.fromhex(wrong)))
            wanted = [difference, f"{sum(counts) - 1} passed, 1 failed"]
            tally.same(name, suite_told(f"{room}/wrong", 32, room), wanted)


class Stub(Leon):
    """A LEON3 with a program, which runs up to the first instruction of the image."""

    def __init__(self, elf, windows=8):
        self.elf = elf
        super().__init__(windows)

    def words(self, windows, bios, path):
        return [leon.PROGRAM, "-M", "leon3_generic", "-cpu", f"LEON3,nwindows={windows}", "-m", "4", "-kernel",
                self.elf, "-display", "none", "-serial", "none", "-monitor", "none", "-S", "-gdb",
                f"unix:{path},server=on,wait=off"]


def state_at_start(elf):
    """The registers before an image's first instruction, and RAM, by QEMU's gdb stub."""
    stub = Stub(elf)
    try:
        stub.ask("Qqemu.PhyMemMode:0")
        stub.ask("Z1,40000,4")
        stub.ask("c")
        text = stub.ask("g")
        stub.ask("Qqemu.PhyMemMode:1")
        ram = b"".join(bytes.fromhex(stub.ask(f"m{leon.RAM + at:x},800")) for at in range(0, leon.SIZE, 0x800))
    finally:
        stub.close()
    return [int(text[at : at + 8], 16) for at in range(0, 8 * 72, 8)], ram


def start(tally, _asked):
    """(of the profile's start only PIL is another one, which user code can't tell; the way out marks one entry)"""
    with tempfile.TemporaryDirectory() as room:
        for name in ("hello", "chain"):
            made(f"{EXAMPLES}/{name}/{name}.img", f"{room}/elf")
            registers, ram = state_at_start(f"{room}/elf")
            y_to_npc = registers[64:70]
            psr = y_to_npc[1]
            found = {"S": psr >> 7 & 1, "ET": psr >> 5 & 1, "CWP": psr & 31, "EF, EC": psr >> 12 & 3,
                     "WIM": y_to_npc[2], "TBA": y_to_npc[3] >> 12, "PC": y_to_npc[4], "nPC": y_to_npc[5],
                     "%sp": registers[14]}
            wanted = {"S": 0, "ET": 1, "CWP": 0, "EF, EC": 0, "WIM": 2, "TBA": 0xF0000, "PC": 0x40000,
                      "nPC": 0x40004, "%sp": 0xFFFC0}
            tally.same(f"{name}: the state before its first instruction", found, wanted)
            loaded, _ = leon.bytes_at(f"{room}/elf")
            others = [at for at in range(0x2000, 0x2E00, 4)
                      if (leon.word_of(ram, at) ^ leon.word_of(loaded, at)) & ~0x60]
            tally.same(f"{name}: the tables but for R and M", others, [])
            others = [at for at in range(0x10000, 0xA0000, 4) if leon.word_of(ram, at) != leon.word_of(loaded, at)]
            tally.same(f"{name}: code, data and stack", others, [])


def to_the_image(elf, windows):
    """A LEON3 that stands at the first instruction of an image."""
    stub = Stub(elf, windows)
    for packet in ("Qqemu.PhyMemMode:0", "Z1,40000,4", "c", "z1,40000,4"):
        stub.ask(packet)
    return stub


def compare_states(tally, name, image, given, windows):
    """The first TURNS turns of a run, beside `inspect states`."""
    with tempfile.TemporaryDirectory() as room:
        put(f"{room}/in", given)
        made(image, f"{room}/elf", "--windows", str(windows), "--input", f"{room}/in")
        words = ["states", "--windows", str(windows), "--limit", str(TURNS), image]
        lines = run([INSPECT, *words], given).out.decode().splitlines()
        states.follow(tally, f"{name} on {windows} windows", to_the_image(f"{room}/elf", windows), lines, windows)


def states_run(tally, _asked):
    built("inspect")
    for name, image, given in examples():
        for windows in (4, 8, 32):
            compare_states(tally, name, image, given, windows)
    for name, image, inputs in c_images(tally):
        compare_states(tally, name, image, inputs[0], 8)


def services_run(tally, _asked):
    with tempfile.TemporaryDirectory() as room:
        for name, given, fills in (("upper", b"a\0\xff", False), ("upper", b"ab", True), ("hello", b"", False)):
            put(f"{room}/in", given)
            made(f"{EXAMPLES}/{name}/{name}.img", f"{room}/elf", "--input", f"{room}/in")
            services.follow(tally, f"{name}{', full' if fills else ''}", Stub(f"{room}/elf"), fills)


def refused(tally, _asked):
    hello = f"{EXAMPLES}/hello/hello.img"
    with tempfile.TemporaryDirectory() as room:
        out = f"{room}/elf"
        for name in sorted(os.listdir(f"{EXAMPLES}/refused")):
            if name.endswith(".img"):
                ran = made(f"{EXAMPLES}/refused/{name}", out)
                told = run([SANDBOX, "verify", f"{EXAMPLES}/refused/{name}"]).said
                tally.check(f"{name} is refused", ran.status == 2 and told in ran.said, ran.said)
                tally.check(f"{name}: nothing was written", not os.path.exists(out))
        put(f"{room}/long", bytes(131073))
        put(f"{room}/none", b"no image")
        for more, status, text in (
            (["--ram", "0x1000"], 3, "--ram wants"), (["--ram", "0xf0000000"], 3, "--ram wants"),
            (["--ram", "ten"], 3, "--ram wants"), (["--windows", "3"], 3, "--windows wants"),
            (["--windows", "33"], 3, "--windows wants"), (["--device", "0x40001000"], 3, "lies in RAM"),
            (["--device", "12"], 3, "--device wants"), (["--uart", "--mailbox"], 3, "one way is wanted"),
            (["--uart", "--input", f"{room}/none"], 3, "--input is for"), (["--fast"], 3, "--fast is no option"),
            (["--input", f"{room}/long"], 4, "more than 131072"), (["--input", f"{room}/gone"], 4, "no such file"),
            (["--input"], 3, "--input wants"), (["another"], 3, "--help"),
        ):
            ran = made(hello, out, *more)
            tally.check(f"{' '.join(more)}", ran.status == status and text in ran.said, f"{ran.status} {ran.said}")
            tally.check(f"{' '.join(more)}: nothing was written", not os.path.exists(out))
        for image, status in ((f"{room}/none", 2), (f"{room}/gone", 4), (room, 4)):
            tally.same(f"{os.path.basename(image)} as an image", made(image, out).status, status)
        tally.same("a folder that isn't there", made(hello, f"{room}/gone/elf").status, 4)
        tally.same("a full device", made(hello, "/dev/full").status, 4)
        tally.check("it stays", os.path.exists("/dev/full"))
        want_of_memory(tally, hello, room)
        tally.same("no words", run([BOARD]).status, 3)
        ran = run([BOARD, "--help"])
        tally.same("--help", (ran.status, ran.out), (0, bytes_of(f"{TOP}/tools/release/usage/board")))
        records_load(tally, hello, room)


def want_of_memory(tally, image, room):
    """Whether want of memory is told, and leaves no file, however much there is."""
    whole = least_kib([program("board"), image, f"{room}/elf"], 1 << 16)
    for kib in range(whole - 4, whole // 2, -max(4, whole // 40)):
        out = f"{room}/{kib}"
        ran = run([program("board"), image, out], preexec_fn=within(kib))
        told = (ran.status == 4 and ran.said == "board: memory") or (ran.status == 2 and "refused V19" in ran.said)
        tally.check(f"{kib} of {whole} KiB", told or ran.status < 0, f"{ran.status} {ran.said}")
        tally.check(f"{kib} of {whole} KiB: nothing was written", not os.path.exists(out))


def records_load(tally, image, room):
    """Whether S-records have the bytes of the ELF file."""
    made(image, f"{room}/elf")
    made(image, f"{room}/srec", "--srec")
    ram, base = leon.bytes_at(f"{room}/elf")
    if not has(COPY):
        tally.skip("S-records", COPY)
        return
    run([COPY, "-I", "srec", "-O", "binary", f"{room}/srec", f"{room}/bytes"])
    stored = bytes_of(f"{room}/bytes")
    tally.same("S-records: the bytes", stored, ram[: len(stored)])
    tally.check("S-records: all of them", stored.ljust(len(ram), b"\0") == ram)
    last = bytes_of(f"{room}/srec").splitlines()[-1]
    tally.same("S-records: where it begins", last[:12], f"S705{base + STUB:08X}".encode())


# A loop in a loop, 4,000 rounds each: TURNS_OF_LOOP turns, none of them a call of a service but the last.
TURNS_OF_LOOP = 112_020_006
LOOP = f""".services exit
.function main,leaf,0,0,{TURNS_OF_LOOP}
.fuel {TURNS_OF_LOOP}
    mov 0,%o2
    mov 1,%o0
.block outer
.cell %o0,1,4000,0
.cell %o2,-2147483648,2147483647,0
.fuel {TURNS_OF_LOOP + 28_003}
.term %o0,-28005
    mov 1,%o1
.block inner
.cell %o0,1,4000,0
.cell %o1,1,4000,0
.cell %o2,-2147483648,2147483647,0
.fuel {TURNS_OF_LOOP + 28_009}
.term %o0,-28005
.term %o1,-7
    add %o2,%o0,%o2
    sll %o2,3,%o3
    xor %o2,%o3,%o2
    inc %o1
    cmp %o1,4000
    ble inner
    nop
.block next
.cell %o0,1,4000,0
.cell %o2,-2147483648,2147483647,0
.fuel {TURNS_OF_LOOP + 2}
.term %o0,-28005
    inc %o0
    cmp %o0,4000
    ble outer
    nop
.block done
.fuel 4
    mov 0,%o0
    ta 0
"""


def speed(tally, _asked):
    """Tells turns a second of processor, start and all, of one run each; nothing is held to a bound."""
    built("sandbox", "host")
    with tempfile.TemporaryDirectory() as room:
        image = f"{room}/img"
        put(f"{room}/s", LOOP)
        run([SANDBOX, "asm", f"{room}/s", image])
        made(image, f"{room}/elf")
        ways = {"QEMU's LEON3": lambda: leon.run_in_ram(f"{room}/elf").end == "exit 00000000",
                "board": lambda: run([SANDBOX, "run", image]).status == 0,
                "engine": lambda: run([HOST, "run", "--engine", "--max-turns", str(TURNS_OF_LOOP), image]).status == 0}
        for name, way in ways.items():
            begun = os.times()
            tally.check(f"{name}: a loop of {TURNS_OF_LOOP} turns", way(), "wanted the exit word 0")
            ended = os.times()
            seconds = ended.children_user + ended.children_system - begun.children_user - begun.children_system
            print(f"{name}: {TURNS_OF_LOOP / seconds / 1e6:.0f} million turns a second")


PARTS = {"words": words, "loaded": loaded, "start": start, "examples": examples_run, "programs": programs,
         "verdicts": verdicts, "states": states_run, "services": services_run, "calls": calls, "suite": suite,
         "refused": refused, "speed": speed}


def main(asked_words):
    asked = Words(__doc__)
    asked.add_argument("--runs", type=int, default=500)
    asked.add_names("parts", PARTS)
    asked = asked.parse_args(asked_words)
    tally = Tally("board")
    built("board")
    for name in asked.parts or PARTS:
        if name not in ("words", "loaded", "refused") and not leon.is_there():
            tally.skip(name, leon.PROGRAM)
        else:
            PARTS[name](tally, asked)
    return tally.end()


if __name__ == "__main__":
    sys.exit(main(sys.argv[1:]))
