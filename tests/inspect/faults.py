"""Faults of calls of `inspect`: words, files, streams; each by its status and its line."""
import os

from asked import ECHO, HELLO, HERE
from run import INSPECT, TOP, as_anybody, bytes_of, closed, opened, put, run, text_of

ACCEPTED, SEVERAL = f"{HERE}/check/accepted.s", f"{HERE}/check/several.s"
SOURCE, LONGEST = f"{HELLO[:-4]}.s", 16_777_216
OUTPUT = (4, b"", b"output\n")


def try_words(asked):
    """Words that ask for nothing, and files that are none of theirs."""
    none, missing = put(asked.at("none.img"), "no image"), asked.at("missing.img")
    for status, words in (
        (2, ("image", none)), (2, ("why", none)), (2, ("states", none)), (2, ("run", none)), (2, ("data", none)),
        (4, ("why", missing)), (4, ("run", missing)), (4, ("check", asked.at("missing.s"))), (3, ("why",)),
        (3, ("check",)), (3, ("map",)), (3, ("tell", none)), (3, ("states", "--json", none)),
        (3, ("data", "--json", none)), (3, ("image", "--limit", "1", none)),
        (3, ("run", "--windows", "3", none)), (3, ("run", "--limit", "10000000000", none)),
        (3, ("run", none, "--limit")),
        (3, ("run", none, none)), (3, ("run", "--limit", "1", "--limit", "2", none)),
        (3, ("check", ACCEPTED, ACCEPTED)),
        (3, ("check", ACCEPTED, "--source")), (2, ("image", "--source", SEVERAL, HELLO)),
        (3, ("run", "--source", SOURCE, HELLO)), (3, ("why", "--source", SOURCE, "--source", SOURCE, HELLO)),
        (3, ("trace", "--binary", asked.at("own.bin"), HELLO)),
    ):
        asked.gives(status, *words)
    windows, limit = (f"inspect: {it}" for it in ("--windows wants a decimal number from 4 to 32",
                                                  "--limit wants a decimal number from 0 to 9999999999"))
    for number in ("3", "33", "abc", ""):
        asked.says(3, windows, "run", "--windows", number, HELLO)
    asked.says(3, windows, "trace", HELLO, "--windows")
    for number in ("10000000000", "-1"):
        asked.says(3, limit, "trace", "--limit", number, HELLO)
    asked.says(3, limit, "run", HELLO, "--windows", "4", "--limit")


def try_files(asked):
    """Files that aren't there, are directories, are locked, can't be read, or are another image's."""
    image, source, work = asked.at("missing.img"), asked.at("missing.s"), asked.work
    for path, words in ((image, ("image", "run", "trace", "states", "data", "why")), (source, ("check", "map"))):
        for word in words:
            asked.says(4, f"inspect: {path}: no such file", word, path)
            asked.says(4, f"inspect: {work}: is a directory", word, work)
    asked.says(4, f"inspect: {source}: no such file", "why", "--source", source, HELLO)
    for word in ("image", "trace", "why"):
        for names in (SOURCE, asked.at("hello.map")):
            asked.says(2, f"inspect: {names}: the source is another image's", word, "--source", names, ECHO)
    asked.says(2, f"inspect: {SOURCE}: the source is another image's", "data", "--source", SOURCE, ECHO)
    text = text_of(asked.at("hello.map")) + "00040018 26 body loop\n"
    broken, lines = put(asked.at("broken.map"), text), text.count("\n")
    asked.says(2, f"inspect: {broken}: line {lines} is none of a map", "why", "--source", broken, HELLO)
    asked.says(2, "line 4: S3", "map", SEVERAL)
    locked = put(asked.at("locked.img"), bytes_of(HELLO))
    os.chmod(locked, 0)
    ran = run([*as_anybody(), INSPECT, "image", locked])
    asked.tally.same("image of a locked file", ran, (4, b"", f"inspect: {locked}: permission denied\n".encode()))
    if os.path.exists("/proc/self/mem"):
        asked.says(4, "inspect: /proc/self/mem: can't be read", "image", "/proc/self/mem")


def try_streams(asked):
    """Inputs that are too long, closed or directories, and outputs that are full or closed."""
    long = "inspect: input: longer than 16,777,216 bytes"
    asked.says(4, long, "run", HELLO, given=bytes(LONGEST + 1))
    with opened("/dev/zero") as endless:
        asked.says(4, long, "trace", HELLO, given=endless)
    with opened(asked.work) as folder:
        asked.says(4, "input", "run", ECHO, given=folder)
    for word, path in (("run", ECHO), ("trace", HELLO), ("states", HELLO), ("data", HELLO)):
        asked.says(4, "input", word, path, given=0, preexec_fn=closed(0))
    ran = run([INSPECT, "image", HELLO], 0, preexec_fn=closed(0))
    asked.same_text("image, whose input is closed", ran, bytes_of(f"{HELLO[:-4]}.told"))
    for word in ("image", "run"):
        ran = run([INSPECT, word, HELLO], preexec_fn=closed(1))
        asked.tally.same(f"{word}, whose output is closed", ran, OUTPUT)
    rows = [(word, HELLO) for word in ("image", "run", "trace", "states", "data", "why")]
    rows += [("check", ACCEPTED), ("map", ACCEPTED), ("machine", f"{TOP}/vectors/ten.machine")]
    with opened("/dev/full", os.O_WRONLY) as full:
        for word, path in rows:
            asked.tally.same(f"{word} to a full device", run([INSPECT, word, path], stdout=full), OUTPUT)


def try_faults(asked):
    """All of it."""
    try_words(asked)
    try_files(asked)
    try_streams(asked)
