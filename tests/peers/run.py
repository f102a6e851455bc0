#!/usr/bin/env python3
"""usage: tests/peers/run.py [ROUNDS]

Runs the ten workloads of tests/peers/workloads on this repository's machines and on what else is installed of: Lua
5.4 with a budget that a hook takes down, JavaScriptCore's interpreter (jsc) and wabt's wasm-interp on WebAssembly
that counts itself down, each also without the budget, and QEMU's user mode on the same instructions, which translates
blocks, and where each instruction is a block. Then a workload without a loop, `loops` with its inner one unrolled,
also on libpcap's and DPDK's interpreters of BPF and on DPDK's translator. Prints tables of CPU seconds, of each the
least of ROUNDS (3) runs of the whole process, how many times as fast as the board each is in the geometric mean, and
which peers aren't installed; outputs have to agree. Compare rows of one run alone: machines are shared."""
import math
import os
import re
import resource
import subprocess
import sys
import tempfile

sys.dont_write_bytecode = True
HERE = os.path.dirname(os.path.abspath(__file__))
sys.path.insert(0, f"{os.path.dirname(HERE)}/lib")
from run import SANDBOX, TOP, built, has, program, put, text_of
from tally import Tally, Words
from workloads import NAMES, READERS, WORK, input_bytes, source_of

# What takes a module's budget down, at the head of each function and of each loop.
TICK = (" (global.set $fuel (i64.sub (global.get $fuel) (i64.const 8)))"
        " (if (i64.lt_s (global.get $fuel) (i64.const 0)) (then unreachable))")
# The peers that don't come with the repository: what each is called, and the Debian package that has it.
PACKAGES = {"lua5.4": "lua5.4", "jsc": "libjavascriptcoregtk-4.0-bin", "wat2wasm": "wabt", "wasm-interp": "wabt",
            "qemu-sparc": "qemu-user", "sparc64-linux-gnu-ld": "binutils-sparc64-linux-gnu"}
# The interpreters of BPF: what each is built with, a header that says whether it is there, and the Debian package.
BPF = {"pcap": (["-lpcap"], "pcap/bpf.h", "libpcap-dev"),
       "dpdk": (["-include", "rte_config.h", "-march=native", "-lrte_bpf"], "rte_bpf.h", "libdpdk-dev")}
# How often the workload without a loop is run, and the rounds that are unrolled in it.
ROUNDS, UNROLLED = 2000, 5000


def metered(text):
    """The module's text with a budget that functions and loops take down."""
    text = text.replace(" (global $at", " (global $fuel (mut i64) (i64.const 1000000000000))\n (global $at", 1)
    lines = []
    for line in text.split("\n"):
        head = re.match(r"^ \(func \$\w+((?: \((?:param|result|local)[^()]*\))*)", line)
        if head:
            line = line[:head.end()] + TICK + line[head.end():]
        lines.append(re.sub(r"\(loop \$\w+", lambda it: it.group(0) + TICK, line))
    return "\n".join(lines)


def seconds_of(words, stdin, environment):
    """The CPU seconds of a command, and what it put out; None where it failed."""
    before = resource.getrusage(resource.RUSAGE_CHILDREN)
    with open(stdin, "rb") as file:
        ran = subprocess.run(words, stdin=file, stdout=subprocess.PIPE, stderr=subprocess.DEVNULL,
                             env={**os.environ, **environment})
    after = resource.getrusage(resource.RUSAGE_CHILDREN)
    return after.ru_utime + after.ru_stime - before.ru_utime - before.ru_stime, None if ran.returncode else ran.stdout


class Peer:
    """A program that runs the workloads: its words for one, and how its output is read."""

    def __init__(self, title, words, answer, environment=None):
        self.title, self.words, self.answer, self.environment = title, words, answer, environment or {}

    def measure(self, name, stdin, rounds):
        """The least CPU seconds of a workload, and its answer."""
        runs = [seconds_of(self.words(name), stdin, self.environment) for _ in range(rounds)]
        outputs = {it for _, it in runs}
        return min(it for it, _ in runs), self.answer(outputs.pop()) if len(outputs) == 1 else None


def as_bytes(output):
    """The answer of a program that puts the workload's output out: of four bytes the number, of more how many there
    are."""
    if output is None:
        return None
    return int.from_bytes(output, "big") if len(output) <= 4 else len(output)


def as_number(output):
    """The answer of a program that prints it as a decimal number."""
    found = re.search(rb"i32:(\d+)", output or b"")
    return int(found[1]) if found else None


def assembled(folder, name, text):
    """Makes an image of a source."""
    subprocess.run([SANDBOX, "asm", put(f"{folder}/one.s", text), f"{folder}/{name}.img"], check=True,
                   stdin=subprocess.DEVNULL)


def made(folder):
    """Makes the images and, where wabt is there, the modules with and without a budget."""
    for name in NAMES:
        assembled(folder, name, source_of(name))
    if not has("wat2wasm"):
        return
    text = text_of(f"{WORK}/workloads.wat").rstrip()
    for kind, source in (("plain", text), ("metered", metered(text))):
        for name in NAMES:
            one = put(f"{folder}/one.wat", f'{source}\n (export "run" (func ${name})))\n')
            subprocess.run(["wat2wasm", one, "-o", f"{folder}/{name}.{kind}.wasm"], check=True)


def native_of(text):
    """A workload's source as GNU as takes it: without annotations, its services as calls of
    tests/peers/workloads/linux.s."""
    lines = (line for line in text.split("\n") if not re.match(r"!|\.(services|cell|term|fuel|param|result) ", line))
    text = re.sub(r"^\.(?:block|function) (\w+).*$", r"\1:", "\n".join(lines), flags=re.M)
    return " .text\n .global main\n" + re.sub(r"^ ta ([012])$", lambda it: f" call service{it[1]}\n nop", text,
                                              flags=re.M)


def linked(folder):
    """Makes a program for Linux on SPARC of each workload, where its assembler is there."""
    if not has("sparc64-linux-gnu-ld"):
        return
    for name in NAMES:
        source, parts = put(f"{folder}/native.s", native_of(source_of(name))), f"{folder}/native.o"
        subprocess.run(["sparc64-linux-gnu-as", "-32", "-Av8", source, f"{WORK}/linux.s", "-o", parts], check=True)
        subprocess.run(["sparc64-linux-gnu-ld", "-m", "elf32_sparc", "-e", "main", "-Ttext=0x10000", "-Tdata=0x80000",
                        "-Tbss=0x200000", parts, "-o", f"{folder}/{name}.elf"], check=True)


def unrolled():
    """The source of the workload without a loop but the one that counts its rounds."""
    body = " add %l2,%l1,%l2\n sll %l2,3,%l3\n xor %l2,%l3,%l2\n dec %l1\n" * UNROLLED
    cost, ends = 4 * UNROLLED + 5, [f" srl %l2,{count},%o0\n ta 2\n" for count in (24, 16, 8)]
    budget, cell = cost * ROUNDS + 55, ".cell %l2,-2147483648,2147483647,0"
    return (f".services exit,get,put\n.function main,framed,96,96,{budget}\n.fuel {budget}\n save %sp,-96,%sp\n"
            f" set {ROUNDS},%l0\n mov 0,%l2\n.block round\n.cell %l0,1,{ROUNDS},0\n{cell}\n.fuel 28\n"
            f".term %l0,{cost}\n set {UNROLLED},%l1\n{body} deccc %l0\n bne round\n nop\n.block done\n"
            f"{cell}\n.fuel 28\n{''.join(ends)} mov %l2,%o0\n ta 2\n mov 0,%o0\n ta 0\n")


def straight_peers(folder, tally):
    """What runs the workload without a loop, and is here: this repository's machines, and BPF's of the same four
    steps a round."""
    with open(f"{folder}/one.s", "w", encoding="ascii") as file:
        file.write(unrolled())
    subprocess.run([f"{TOP}/sandbox", "asm", f"{folder}/one.s", f"{folder}/straight.img"], check=True,
                   stdin=subprocess.DEVNULL)
    yield from list(peers(folder))[:2]
    for name, (flags, header, package) in BPF.items():
        folders = ("/usr/include", "/usr/include/dpdk", "/usr/include/x86_64-linux-gnu/dpdk")
        if not has("gcc") or not any(os.path.exists(f"{it}/{header}") for it in folders):
            tally.skip(f"{name}'s interpreter of BPF", f"gcc, {package}")
            continue
        subprocess.run(["gcc", "-O2", *(f"-I{it}" for it in folders), f"{WORK}/straight_{name}.c", "-o",
                        f"{folder}/{name}", *flags], check=True)
        yield Peer(f"{name}'s interpreter of BPF", lambda _,
                   name=name: [f"{folder}/{name}", str(ROUNDS), str(UNROLLED)], as_bytes)
        if name == "dpdk":
            yield Peer("dpdk's translator of BPF", lambda _,
                       name=name: [f"{folder}/{name}", str(ROUNDS), str(UNROLLED), "jit"], as_bytes)


def peers(folder):
    """The peers that are here."""
    yield Peer("board (sandbox run)", lambda name: [program("sbx_tool"), "run", f"{folder}/{name}.img"], as_bytes)
    words = [program("host"), "run", "--engine", "--max-turns", str(2**40)]
    yield Peer("flat engine (host run --engine)", lambda name: [*words, f"{folder}/{name}.img"], as_bytes)
    if has("lua5.4"):
        lua = ["lua5.4", f"{WORK}/workloads.lua"]
        yield Peer("Lua 5.4", lambda name: [*lua, name], as_bytes)
        yield Peer("Lua 5.4, budget by a hook", lambda name: [*lua, name, "hook"], as_bytes)
    for kind, what in (("plain", ""), ("metered", ", with a budget")):
        if has("wat2wasm") and has("jsc"):
            yield Peer(f"jsc's interpreter{what}", lambda name,
                       kind=kind: ["jsc", f"{WORK}/run.js", "--", f"{folder}/{name}.{kind}.wasm"],
                       as_number, {"JSC_useJIT": "0", "JSC_useBBQJIT": "0", "JSC_useOMGJIT": "0"})
        if has("wat2wasm") and has("wasm-interp"):
            yield Peer(f"wasm-interp{what}", lambda name,
                       kind=kind: ["wasm-interp", f"{folder}/{name}.{kind}.wasm", "--run-all-exports"], as_number)
    if has("qemu-sparc") and has("sparc64-linux-gnu-ld"):
        yield Peer("QEMU, translating", lambda name: ["qemu-sparc", f"{folder}/{name}.elf"], as_bytes)
        yield Peer("QEMU, an instruction a block", lambda name: ["qemu-sparc", "-singlestep", f"{folder}/{name}.elf"],
                   as_bytes)


class Table:
    """Tables of CPU seconds; answers are counted where they agree."""

    def __init__(self, folder, rounds, tally):
        self.folder, self.rounds, self.tally = folder, rounds, tally

    def row(self, peer, names, answers):
        """The seconds of a peer on each workload."""
        row = {}
        for name in names:
            given = f"{self.folder}/{'input' if name in READERS else 'nothing'}"
            row[name], answer = peer.measure(name, given, self.rounds)
            is_right = answer is not None and answers.setdefault(name, answer) == answer
            self.tally.check(f"{peer.title}: {name}", is_right, f"wanted {answers.get(name)}, came {answer}")
        return row

    def print(self, names, found):
        """Measures each peer on each workload, and prints a row for it; the first one is the board."""
        print(f"{'':38}" + "".join(f"{it:>9}" for it in names) + "     mean")
        board, answers = {}, {}
        for peer in found:
            row = self.row(peer, names, answers)
            board = board or row
            mean = math.exp(sum(math.log(board[it] / row[it]) for it in names) / len(names))
            print(f"{peer.title:38}" + "".join(f"{row[it]:9.2f}" for it in names) + f"{mean:8.2f}x", flush=True)


def main(words):
    reader = Words(__doc__)
    reader.add_argument("rounds", nargs="?", type=int, default=3)
    asked, tally = reader.parse_args(words), Tally("peers")
    if asked.rounds < 1:
        reader.error("a number of rounds is wanted")
    built("sandbox", "host")
    for name, package in PACKAGES.items():
        if not has(name):
            tally.skip(name, package)
    with tempfile.TemporaryDirectory() as folder:
        made(folder)
        linked(folder)
        put(f"{folder}/input", input_bytes())
        put(f"{folder}/nothing", b"")
        table = Table(folder, asked.rounds, tally)
        table.print(NAMES, peers(folder))
        table.print(["straight"], straight_peers(folder, tally))
    return tally.end()


if __name__ == "__main__":
    sys.exit(main(sys.argv[1:]))
