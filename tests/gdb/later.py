"""`inspect states --from`: the state behind a turn, and the lines behind it."""
import os
import re
import sys

from run import EXAMPLES, INSPECT, TOP, put, run, text_of

sys.path.append(f"{TOP}/tools/debug")
from loaded import Loaded

# Programs that take no input, and counts of windows on which vectors/traces has their runs.
RUNS = (("hello", 8), ("chain", 4), ("deep", 4), ("deep", 32))
FLAG, STATUS = 4, 9
REGISTER = re.compile(r" ([goli][0-7])=([0-9A-F]{8})")


def plain_turns(lines):
    """The turns that begin with no annulled instruction and no fault status, which a machine's file doesn't have."""
    columns = [line.split(" ") for line in lines]
    return [it for it, row in enumerate(columns) if len(row) > STATUS and (row[FLAG], row[STATUS]) == ("0", "0" * 8)]


def states(work):
    """Behind some turns: the lines are those of vectors/traces, and from the state that is told `inspect machine` goes
    on with them."""
    for name, windows in RUNS:
        image, lines = f"{EXAMPLES}/{name}/{name}.img", text_of(f"{TOP}/vectors/traces/{name}.{windows}").split("\n")
        turns = plain_turns(lines)
        for at in sorted({turns[0], turns[len(turns) // 2], turns[-1]}):
            goes_on(work, image, windows, lines, at)
    refusals(work)


def goes_on(work, image, windows, lines, at):
    """From the state behind the turn before the line `at`."""
    name = f"{os.path.basename(image)} on {windows} windows, --from {at - 1}"
    ran = run([INSPECT, "states", "--from", str(at - 1), "--windows", str(windows), image])
    text, behind = ran.out.decode(), "\n".join(lines[at:])
    work.tally.check(f"{name}: the lines behind", ran.status == 0 and text.endswith(f"\n{behind}"), text[-300:])
    head, known = text[:len(text) - len(behind)], replayed(lines[:at + 1], windows)
    work.tally.same(f"{name}: registers", registers_of(head, windows), {it: word for it, word in known.items() if word})
    own, binary = put(work.at("own.machine"), head), put(work.at("own.bin"), bytes(Loaded(image).ram(windows)))
    count = len(lines) - 2 - at
    ran = run([INSPECT, "machine", "--windows", str(windows), "--limit", str(count), "--binary", binary, own])
    came = lean(ran.out.decode().split("\n")[1:count + 2], known, windows)
    wanted = lean(lines[at:-1], known, windows)
    first = next((it for it in zip(came, wanted) if it[0] != it[1]), (len(came), len(wanted)))
    work.tally.check(f"{name}: a machine goes on so", came == wanted, f"came {first[0]}, wanted {first[1]}")


def key(name, window, windows):
    """A register's own name: the ins of a window are the outs of the next one."""
    if name[0] == "g":
        return name
    return (f"o{name[1]}", (window + 1) % windows) if name[0] == "i" else (name, window)


def window_of(line):
    """The window of a line."""
    return int(line.split(" ", 2)[1])


def replayed(lines, windows):
    """The registers before the last of these lines of a run."""
    known = {}
    for line, after in zip(lines, lines[1:]):
        known |= {key(name, window_of(after), windows): int(word, 16) for name, word in REGISTER.findall(line)}
    return known


def registers_of(head, windows):
    """The registers that lines of a machine's file set."""
    window, known = 0, {}
    for words in map(str.split, head.split("\n")):
        if words[:1] == ["window"]:
            window = int(words[1])
        elif words and words[0].startswith("%"):
            known[key(words[0][1:], window, windows)] = int(words[1], 16)
    return known


def lean(lines, known, windows):
    """Lines without their numbers, but for the last one, and without registers that are as they were in the state
    that a machine began with: it tells those of a window when that comes into use."""
    return [lean_line(line, window_of(after), known, windows) for line, after in zip(lines, lines[1:])]


def lean_line(line, window, known, windows):
    """One such line."""
    def kept(found):
        return "" if known.get(key(found[1], window, windows)) == int(found[2], 16) else found[0]
    return REGISTER.sub(kept, line.split(" ", 1)[1])


def refusals(work):
    """A turn behind the end, and words that ask for nothing."""
    hello = f"{EXAMPLES}/hello/hello.img"
    told = "inspect: --from: the run has 3 turns up to its end, or to the limit\n"
    ran = run([INSPECT, "states", "--from", "4", "--limit", "3", hello])
    work.tally.same("--from behind the end", (ran.status, ran.out, ran.err.decode()), (3, b"", told))
    told = "inspect: --from wants a decimal number from 0 to 9999999999\n"
    ran = run([INSPECT, "states", "--from", "x", hello])
    work.tally.same("--from x", (ran.status, ran.out, ran.err.decode()), (3, b"", told))
    ran = run([INSPECT, "states", "--from", "3"])
    work.tally.same("--from without an image", (ran.status, ran.out, ran.err[:12]), (3, b"", b"Usage: inspe"))
