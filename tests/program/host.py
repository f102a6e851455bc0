"""The host: its status is of all images, and a budget of 1,000,000,000 turns is granted, and no turn more."""
import json
import os

from calls import CHAIN, ECHO, HELLO, put_out_by
from run import EXAMPLES, SANDBOX, TOP, as_anybody, bytes_of, closed, opened, program, put, run, text_of, within
from tally import shown

PROGRAM = program("host")
IMAGE, ECHOING = f"{HELLO}.img", f"{ECHO}.img"
V14 = "refused V14 in function 0 at 00040014"
ECHOED = "y\n" * 500


class Host:
    """Calls of the host."""

    def __init__(self, calls):
        self.calls, self.tally, self.at = calls, calls.tally, calls.at
        self.one, self.little = calls.one, calls.little
        self.granted = calls.changed("granted", 60, "000000003B9ACA00")
        self.denied = calls.changed("denied", 60, "000000003B9ACA01")

    def expect(self, name, wanted, *words, given=b"", **how):
        """A call's status, output and lines on standard error."""
        self.calls.expect(f"host: {name}", wanted, *words, given=given, **{"by": PROGRAM, **how})

    def hosted(self, name, status, out, *images):
        """A call on images, whatever it tells of them."""
        ran = run([PROGRAM, *images])
        self.tally.same(f"host: {name}", (ran.status, ran.out.decode()), (status, out))

    def reports(self, name, wanted, *words, given=b""):
        """The status, the output and the objects of a report, a line each, as Python's json reads them."""
        with open(given if isinstance(given, str) else os.devnull, "rb") as file:
            ran = run([PROGRAM, "run", "--report", "json", *words], file)
        came = (ran.status, ran.out.decode(), [json.loads(it) for it in ran.err.decode().splitlines()])
        self.tally.same(f"host: a report: {name}", came, wanted)


def try_images(host):
    """Images without a policy: their statuses, and what is told of them."""
    host.hosted("an image", 0, "Hi", IMAGE)
    host.hosted("an exit word before others", 1, "HiHiHi", host.one, IMAGE, IMAGE)
    host.hosted("an exit word behind others", 1, "HiHi", IMAGE, host.one)
    host.hosted("a denied one behind others", 2, "", IMAGE, host.little)
    host.hosted("no image", 3, "")
    host.hosted("a budget at the grant", 0, "Hi", host.granted)
    host.hosted("a budget above it", 2, "", host.denied)
    told = "services: EXIT PUT; turns: 16; stack pages: 1\nexit word 0, 16 turns"
    host.expect("its lines", (0, "Hi", told), IMAGE)
    host.expect("its line of a denial", (2, "", "denied: it asks for 1000000001 turns"), host.denied)


def try_policy(host):
    """`host run`: a policy from the words."""
    turns, denied = "denied: it asks for {} turns", f"host: {host.denied}: denied: it asks for 1000000001 turns"
    little = f"host: {host.little}: denied: {V14}"
    for name, wanted, *words in (
        ("run", (0, "Hi"), IMAGE),
        ("run: another exit word", (1, "Hi", f"host: {host.one}: exit word 1"), host.one),
        ("run: the usual grant", (0, "Hi"), host.granted),
        ("run: a turn more", (2, "", denied), host.denied),
        ("run: a turn more is granted", (0, "Hi"), "--max-turns", "1000000001", host.denied),
        ("run: all of its turns are granted", (0, "Hi"), "--max-turns", "16", IMAGE),
        ("run: a turn less", (2, "", f"host: {IMAGE}: {turns.format(16)}"), "--max-turns=15", IMAGE),
        ("run: no turn", (2, "", f"host: {IMAGE}: {turns.format(16)}"), "--max-turns", "0", IMAGE),
        ("run: the most turns", (0, "Hi"), "--max-turns", "1099511627776", IMAGE),
        ("run: its services", (0, "Hi"), "--services", "put,exit", IMAGE),
        ("run: a service less", (2, "", f"host: {IMAGE}: denied: it asks for a service that isn't granted"),
         "--services",
         "exit,get", IMAGE),
        ("run: no image", (2, "", f"host: {host.at('cut')}: denied: image I1"), host.at("cut")),
        ("run: a refused one", (2, "", little), IMAGE, host.little, IMAGE),
        ("run: two are denied", (2, "", f"{little}\n{denied}"), host.little, IMAGE, host.denied),
    ):
        host.expect(name, wanted, "run", *words)
    for windows in map(str, range(4, 33)):
        host.expect(f"run: {windows} windows", (0, "!"), "run", "--windows", windows, f"{CHAIN}.img")


def try_streams(host):
    """Inputs and outputs of one image and of several."""
    abcd, stopped = host.at("abcd"), f"host: {ECHOING}: stopped: its output has more than {{}} bytes"
    for name, wanted, given, *words in (
        ("a filter", (0, "abc"), b"abc", ECHOING),
        ("several on one input", (0, "abcHiabc"), b"abc", ECHOING, IMAGE, ECHOING),
        ("an input file of several", (0, "abcdabcd"), b"", ECHOING, f"--input={abcd}", ECHOING),
        ("an output at its bound", (0, "abcd"), b"abcd", "--max-output", "4", ECHOING),
        ("an output above it", (2, "abc", stopped.format(3)), b"abcd", "--max-output", "3", ECHOING),
        ("no output is allowed", (2, "", f"host: {IMAGE}: stopped: its output has more than 0 bytes"), b"",
         "--max-output",
         "0", IMAGE),
        ("one is stopped, others run", (2, "abHiab", f"{stopped.format(2)}\n{stopped.format(2)}"), b"abcd",
         "--max-output",
         "2", ECHOING, IMAGE, ECHOING),
    ):
        host.expect(f"run: {name}", wanted, "run", *words, given=given)
    with opened(host.calls.work) as folder:
        host.expect("run: an input file", (0, "abcd"), "run", "--input", abcd, ECHOING, given=folder)
    with put_out_by("yes") as endless:
        host.expect("run: endless input", (0, ECHOED), "run", ECHOING, given=endless)


def try_engine(host):
    """The flat machine: the same outputs, and the same reports."""
    denied = (2, "", f"host: {host.denied}: denied: it asks for 1000000001 turns")
    stopped = (2, "abc", f"host: {ECHOING}: stopped: its output has more than 3 bytes")
    for name, wanted, given, *words in (
        ("an image", (0, "Hi"), b"", "--engine", IMAGE),
        ("another exit word", (1, "Hi", f"host: {host.one}: exit word 1"), b"", "--engine", host.one),
        ("a filter", (0, "abc"), b"abc", ECHOING, "--engine"),
        ("several on one input", (0, "abcHiabc"), b"abc", "--engine", ECHOING, IMAGE, ECHOING),
        ("an output above its bound", stopped, b"abcd", "--engine", "--max-output", "3", ECHOING),
        ("a denied one", denied, b"", "--engine", host.denied),
        ("with a value", (3, "", "host: --engine=8 is no option"), b"", "--engine=8", IMAGE),
    ):
        host.expect(f"run: the engine, {name}", wanted, "run", *words, given=given)
    with put_out_by("yes") as endless:
        host.expect("run: the engine, endless input", (0, ECHOED), "run", "--engine", ECHOING, given=endless)
    for windows in ("4", "5", "8", "32"):
        for name in ("chain", "deep", "sieve", "sort"):
            words = ["--report", "json", "--max-turns", str(2**40), "--windows", windows,
                     f"{EXAMPLES}/{name}/{name}.img"]
            board, engine = (run([PROGRAM, "run", *way, *words], b"abcd") for way in ([], ["--engine"]))
            host.tally.check(f"host: {name} by board and engine, {windows} windows", board == engine,
                             f"wanted {shown(tuple(board))}, came {shown(tuple(engine))}")


def turns_on(path):
    """How many turns `trace` tells of echo on a file."""
    return run([SANDBOX, "trace", ECHOING], bytes_of(path)).out.count(b"\n")


def try_reports(host):
    """What a report says: turns as `trace` counts them, of images that have one window."""
    traps = {"overflows": 0, "underflows": 0}
    hello = {"image": IMAGE, "exit": 0, "turns": 16, "budget": 16, "output": 2, **traps}
    left, abcd = {**hello, "input_left": True}, host.at("abcd")
    host.reports("hello", (0, "Hi", [{**hello, "input_left": None}]), IMAGE)
    host.reports("hello, on a file that it doesn't read", (0, "Hi", [left]), IMAGE, given=abcd)
    empty = put(host.at("empty"), "")
    host.reports("hello, on an empty file", (0, "Hi", [{**hello, "input_left": False}]), "--input", empty, IMAGE)
    host.reports("several", (0, "HiHi", [left, left]), IMAGE, IMAGE, given=abcd)
    echo = {"image": ECHOING, "exit": 0, "budget": 16030, **traps}
    long = bytes_of(host.at("long"))
    for name, given, count in (("echo to the end", b"abcd", 4), ("echo, 1,000 bytes of 1,000", long[:1000], 1000),
                               ("echo, 1,000 bytes of 1,001", long[:1001], 1000)):
        path = put(host.at("given"), given)
        told = {**echo, "turns": turns_on(path), "output": count, "input_left": len(given) > count}
        host.reports(name, (0, given[:count].decode(), [told]), ECHOING, given=path)
    denied = {"image": host.denied, "denied": "it asks for 1000000001 turns"}
    host.reports("a denied image", (2, "", [denied]), IMAGE, host.denied)
    stopped = {"image": ECHOING, "stopped": "output", "output": 2}
    host.reports("a stopped run", (2, "ab", [stopped]), "--max-output", "2", ECHOING, given=abcd)
    quoted = put(host.at('a "name" \\ with\ta tab.img'), host.calls.hello)
    host.reports("a name with quotes", (0, "Hi", [{**hello, "image": quoted, "input_left": None}]), quoted)


def try_counts(host):
    """What a report says of windows, by board and engine: of chain's thirteen frames there are one less than so many
    at a time, and where it ends it has returned to all but the first two."""
    image = f"{CHAIN}.img"
    for windows in (4, 5, 8, 13, 14, 32):
        turns = run([SANDBOX, "trace", "--windows", str(windows), image]).out.count(b"\n")
        told = {"image": image, "exit": 0, "turns": turns, "budget": 618, "output": 1, "input_left": None,
                "overflows": max(0, 14 - windows), "underflows": max(0, 13 - windows)}
        for way in ([], ["--engine"]):
            name = f"chain on {windows} windows{' by the engine' if way else ''}"
            host.reports(name, (0, "!", [told]), *way, "--windows", str(windows), image)


def try_long(host, most):
    """50 MiB by the engine, in less memory than they have."""
    long = bytes_of(host.at("long"))
    ran = run([PROGRAM, "run", "--engine", "--max-turns", str(2**40), most], long, preexec_fn=within(16384))
    name, came = "host: 50 MiB by the engine", (ran.status, ran.err)
    host.tally.check(name, came == (0, b""), f"wanted status 0, came {came}")
    host.tally.check(f"{name}: the output", ran.out == long, f"wanted the input, came {len(ran.out)} other bytes")


def try_faults(host):
    """Faults by name."""
    missing, work, more, most = host.at("missing"), host.calls.work, host.at("more"), host.at("most")
    long, reads = "longer than 16,777,216 bytes", (4, "", "host: input: can't be read")
    for name, told, *words in (
        ("a missing image", f"{missing}: no such file", "run", missing),
        ("a missing image, without run", f"{missing}: no such file", missing),
        ("a path through a file", f"{IMAGE}/below: no such file", "run", f"{IMAGE}/below"),
        ("a directory", f"{work}: is a directory", "run", IMAGE, work),
        ("a long image", f"{more}: {long}", "run", more),
        ("a missing input", f"{missing}: no such file", "run", "--input", missing, ECHOING),
        ("a directory as input file", f"{work}: is a directory", "run", "--input", work, ECHOING),
        ("a long input file of several", f"{more}: {long}", "run", "--input", more, ECHOING, ECHOING),
    ):
        host.expect(name, (4, "", f"host: {told}"), *words)
    host.expect("an image of the greatest length", (2, "", f"host: {most}: denied: image I2"), "run", most)
    locked = host.at("locked")
    host.expect("a locked image", (4, "", f"host: {locked}: permission denied"), "run", locked,
                by=[*as_anybody(), PROGRAM])
    with opened(work) as folder:
        host.expect("a directory as input", reads, "run", ECHOING, given=folder)
    host.expect("a long input of several", (4, "", f"host: input: {long}"), "run", ECHOING, ECHOING, given=more)
    host.expect("an input of several, of the greatest length", (0, "HiHi"), "run", IMAGE, IMAGE, given=most)
    for name, wanted, *images in (("", reads, ECHOING), (" that nobody reads", (0, "Hi"), IMAGE),
                                  (", of several", reads, IMAGE, IMAGE)):
        host.expect(f"input closed{name}", wanted, "run", *images, given=0, preexec_fn=closed(0))
    writes = (4, "", "host: output: can't be written")
    host.expect("output closed", writes, "run", IMAGE, preexec_fn=closed(1))
    with opened("/dev/full", os.O_WRONLY) as full:
        host.expect("output full", writes, "run", IMAGE, stdout=full)
        host.expect("a report that can't be written", (4, "Hi"), "run", "--report", "json", IMAGE, stderr=full)


def try_words(host):
    """Words that ask for nothing, and options that are no option's."""
    usage = text_of(f"{TOP}/tools/release/usage/host").removesuffix("\n")
    for words in ("", "--help", "-h", "help", "--version", "--max-turns 1"):
        host.expect(f"words: {words}", (3, "", usage), *words.split())
    number = "{} wants a decimal number from {}, once"
    turns, most = number.format("--max-turns", "0 to 1099511627776"), number.format("--max-output",
                                                                                    "0 to 1099511627776")
    windows = number.format("--windows", "4 to 32")
    services = "--services wants names of exit, get and put, with commas between them, once"
    rows = [("the path of an image is wanted", ()), ("--max is no option", ("--max", "3", IMAGE))]
    rows += [(turns, ("--max-turns", it, IMAGE))
             for it in ("-1", "+8", "1099511627777", "18446744073709551616", "0x10", "", " 1")]
    rows += [(services, ("--services", it, IMAGE)) for it in ("", "exit,", "EXIT", "exit,put,run", "exit put")]
    rows += [(windows, ("--windows", it, IMAGE)) for it in ("3", "33", "abc")]
    rows += [(windows, ("--windows", "8", "--windows", "8", IMAGE)), (most, (IMAGE, "--max-output")),
             ("--report wants the word json, once", ("--report", "xml", IMAGE)),
             ("--input wants the path of a file, once", (IMAGE, "--input"))]
    for told, words in rows:
        host.expect(f"words: run {' '.join(words)}", (3, "", f"host: {told}"), "run", *words)
    unread = (3, "", "host: the words of a command line: can't be read")
    host.expect("words that are no text", unread, b"no\377text")


def try_host(calls, most):
    """All of it; `most` is an image that hands on up to 53,000,000 bytes."""
    host = Host(calls)
    try_images(host)
    try_policy(host)
    try_streams(host)
    try_engine(host)
    try_reports(host)
    try_counts(host)
    try_long(host, most)
    try_faults(host)
    try_words(host)
