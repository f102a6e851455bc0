"""`inspect machine`: machines of one's own, from words and from a binary, and lines that aren't right."""
import os
import re

from run import INSPECT, TOP, bytes_of, put, run, text_of

VECTORS = f"{TOP}/vectors"
NAME = "begins with no name or address that there is"
COUNT = "a name has one number behind it, and an address one word or more"
NUMBER = "a number is 0x and hexadecimal digits, or decimal digits, of 32 bits at most, of context_table 36"
PLACE = "pc, npc and context_table are multiples of 4"
WORD = "a word lies at a multiple of 4 below 0x100000"
WINDOW = "there is no such window"
# Lines that aren't right, by what is told of them.
WRONG = {
    NAME: ["ps 4", "%q1 4", "%g8 4", "%o 4", "+4 4", "-4 4", "0x 4"],
    COUNT: ["pc", "pc 4 8", "0x1000", "%g1", "window", "window 1 2"],
    NUMBER: ["pc x", "pc +4", "wim 0x100000000", "0x1000 4294967296", "context_table 0x1000000000", "%g1 0xG"],
    PLACE: ["pc 2", "npc 0x2001", "context_table 2"],
    WORD: ["0x1002 4", "0x100000 4", "0xFFFFC 1 2"],
    WINDOW: ["window 8", "psr 0x88"],
    "isn't text": ["\xff"],
}
# The first line that isn't right is told, whatever stands behind it, and of a line what is asked first.
FIRST = [("ps 4\n\xff", NAME), ("0x1002 x\npc", NUMBER)]
STATES = """0 00 00000000 00000004 - 00000080 00000002 00000000 00000000 00000000 -------- start
0 00 00000000 00000004 - 00000080 00000002 00000000 00000000 00000000 -------- end
"""


def try_machine(asked, file, told, *options):
    """What is told of a file of words."""
    ran = run([INSPECT, "machine", *options, file])
    name = f"machine {' '.join(map(os.path.basename, (*options, file)))}"
    holds = ran.status == 0 and not ran.err and ran.out == told
    asked.tally.check(name, holds, f"wanted {len(told)} bytes of states, came others, {ran.err[:200]}")


def try_binaries(asked):
    """The words of a file as a binary, from two addresses on, and its other lines."""
    text, ram = text_of(f"{VECTORS}/handlers.machine"), bytearray(0x7000)
    for place, word in re.findall(r"^(0x\w+) (0x\w+)", text, re.M):
        ram[int(place, 16) : int(place, 16) + 4] = int(word, 16).to_bytes(4, "big")
    own = put(asked.at("own.machine"), re.sub(r"^0x.*\n", "", text, flags=re.M))
    states, binary = bytes_of(f"{VECTORS}/handlers.states"), asked.at("own.bin")
    try_machine(asked, own, states, "--windows", "4", "--binary", put(binary, bytes(ram)))
    put(binary, bytes(ram[0x50:]))
    try_machine(asked, own, states, "--windows", "4", "--at", "0x50", "--binary", binary)


def try_greatest(asked):
    """The greatest file, all of RAM by words, of which the last one's page is read; and the greatest binary."""
    full = put(asked.at("full.machine"), "".join(f"0x{4 * it:X} {it}\n" for it in range(262144)))
    binary = put(asked.at("own.bin"), bytes(1 << 20))
    for name, words in (("words", [full]), ("a binary", ["--binary", binary, "/dev/null"])):
        ran = run([INSPECT, "machine", "--limit", "0", *words])
        asked.tally.same(f"machine: all of RAM by {name}", (ran.status, ran.out.count(b"\n"), ran.err), (0, 2, b""))
    told = f"inspect: {binary}: doesn't fit into RAM there"
    asked.says(2, told, "machine", "--binary", binary, "--at", "1", "/dev/null")


def try_wrong(asked):
    """Lines that aren't right, each behind one that is."""
    rows = [(line, cause) for cause, lines in WRONG.items() for line in lines] + FIRST
    for line, cause in rows:
        text = f"pc 0x2000 ! where it begins\n{line}\n".encode("latin-1")
        path = put(asked.at("wrong.machine"), text)
        asked.says(2, f"inspect: {path}: line 2: {cause}", "machine", path)
    # a comment may have any bytes
    own = put(asked.at("own.machine"), b"wim 2 ! \xfc\n")
    try_machine(asked, own, STATES.encode(), "--limit", "0")


def try_machines(asked):
    """All of it."""
    try_machine(asked, f"{VECTORS}/ten.machine", bytes_of(f"{VECTORS}/ten.states"), "--limit", "9")
    try_machine(asked, f"{VECTORS}/handlers.machine", bytes_of(f"{VECTORS}/handlers.states"), "--windows", "4")
    try_binaries(asked)
    try_greatest(asked)
    try_wrong(asked)
    missing = asked.at("missing")
    for words in ((missing,), ("--binary", missing, "/dev/null")):
        asked.says(4, f"inspect: {missing}: no such file", "machine", *words)
    wanted = "inspect: --at wants an address, as 0x4000"
    asked.says(3, wanted, "machine", "--binary", asked.at("own.bin"), "--at", "x", "/dev/null")
    for words in ((), ("--at", "4", "/dev/null"), ("--json", "/dev/null")):
        asked.gives(3, "machine", *words)
