#!/usr/bin/env python3
"""usage: tests/program/run.py

Runs the built programs `sandbox` and `host` from outside, above all on bad input: files that are cut, changed,
missing, directories or too long, inputs that can't be read or are too long, outputs that can't be written, words that
ask for nothing. Where there is a C compiler, some read their files byte by byte (short.c). Each run has to end with
its status, its output and its line on standard error; the host's reports are read by Python's json."""
import os
import subprocess
import sys
import tempfile

sys.dont_write_bytecode = True
sys.path.insert(0, f"{os.path.dirname(os.path.dirname(os.path.abspath(__file__)))}/lib")
from assembling import try_asm
from calls import ACCEPTED, CHAIN, ECHO, HELLO, LOWER, PROGRAM, Calls, come_within, put_out_by, words_of
from host import try_host
from run import SANDBOX, TOP, as_anybody, built, closed, last_line, least_kib, opened, put, run, text_of, within
from tally import Tally, Words

LISTING = """00040000 90102048 or %g0,72,%o0
00040004 91D02002 ta 2
00040008 90102069 or %g0,105,%o0
0004000C 91D02002 ta 2
00040010 90102000 or %g0,0,%o0
00040014 91D02000 ta 0
"""
TRACE = """0000000001 00 u 00040000 90102048 ran
0000000002 00 u 00040004 91D02002 trap 82
0000000003 07 s F0000820 273C0040 ran
0000000004 07 s F0000824 F024E004 ran
0000000005 07 s F0000828 81C48000 ran
0000000006 07 s F000082C 81CCA004 ran
0000000007 00 u 00040008 90102069 ran
0000000008 00 u 0004000C 91D02002 trap 82
0000000009 07 s F0000820 273C0040 ran
0000000010 07 s F0000824 F024E004 ran
0000000011 07 s F0000828 81C48000 ran
0000000012 07 s F000082C 81CCA004 ran
0000000013 00 u 00040010 90102000 ran
0000000014 00 u 00040014 91D02000 trap 80
0000000015 07 s F0000800 273C0040 ran
0000000016 07 s F0000804 F024E008 exit 00000000
"""
# A line before a computation of half a minute; a program that puts out a byte each seven turns; one of so many words.
SLOW = """.services exit,put
.function main,leaf,0,0,3000000018
.fuel 3000000018
    mov 65,%o0
    ta 2
    mov 10,%o0
    ta 2
    set 1000000000,%o1
.block loop
.cell %o1,1,1000000000,0
.fuel 4
.term %o1,3
    deccc %o1
    bne loop
    nop
.block done
.fuel 4
    mov 0,%o0
    ta 0
"""
FOREVER = ".services put\n.function main,leaf,0,0,1\n.fuel 1\nagain: ta 2\n ba again\n nop\n"
DATA = ".services exit\n.function main,leaf,0,0,4\n.fuel 4\n mov 0,%o0\n ta 0\n.data\n.skip 262144\n"
# A thousand lines of two bytes, of which echo hands on the first thousand bytes.
ECHOED = "y\n" * 500


def try_accepted(calls):
    """Images that are accepted, as they are, on some input, on each count of windows."""
    hello, echo = f"{HELLO}.img", f"{ECHO}.img"
    usage = text_of(f"{TOP}/tools/release/usage/sandbox").removesuffix("\n")
    for word in ("--help", "-h", "help"):
        # the text that the script tells while no program stands is the program's own
        calls.expect(f"the usage: {word}", (3, "", usage), word)
    calls.same("the program's own copy", f"{TOP}/crates/sbx_tool/data/hello.img", calls.hello)
    calls.expect("hello", (0, "Hi"), "run", hello)
    calls.expect("hello on some input", (0, "Hi"), "run", hello, given=b"some input\n")
    calls.expect("verify", (0, ACCEPTED), "verify", hello)
    calls.expect("verify: echo", (0, ACCEPTED), "verify", echo)
    calls.expect("echo on no input", (0,), "run", echo)
    calls.expect("echo", (0, "abc"), "run", echo, given=b"abc")
    calls.expect("echo up to its bound", (0, "a" * 1000), "run", echo, given=b"a" * 2000)
    three = text_of(f"{LOWER}.s").replace("2147483647", "3").replace("49392123895", "83")
    image = calls.assembled("three bytes", three, "three.img")
    calls.expect("lower, all of three", (0, "abc"), "run", image, given=b"aBC")
    calls.expect("lower, three of four", (1, "abc"), "run", image, given=b"aBCd")
    # an exit word other than 0 is status 1 on each count of windows
    calls.expect("exit word 1", (1, "Hi"), "run", calls.one)
    for windows in map(str, range(4, 33)):
        calls.expect(f"chain on {windows} windows", (0, "!"), "run", "--windows", windows, f"{CHAIN}.img")
        calls.expect(f"echo on {windows} windows", (0, "abc"), "run", echo, f"--windows={windows}", given=b"abc")
        calls.expect(f"exit word 1 on {windows} windows", (1, "Hi"), "run", "--windows", windows, calls.one)
    puts = "".join(f" mov {byte},%o0\n ta 2\n" for byte in range(256))
    each = f".services exit,put\n.function main,leaf,0,0,1540\n.fuel 1540\n{puts} mov 0,%o0\n ta 0\n"
    calls.expect("each byte", (0, bytes(range(256))), "run", calls.assembled("each", each, "each.img"))


def try_refused(calls):
    """Bytes that are no image, or one that is refused."""
    for length in range(86):
        calls.expect(f"cut at {length}", (2, "", "image I1"), "run", put(calls.at("cut"), calls.hello[:length]))
    # (the lower half of the data's length, which is 0, stands where version 3 has the pages of stack)
    for name, line, command, place, digits in (
        ("another magic", "image I2", "run", 0, "54"),
        ("another version", "image I3", "verify", 4, "0004"),
        ("version 3", "image I5", "verify", 4, "0003"),
        ("an unknown service", "image I4", "run", 6, "0008"),
        ("a budget of 2^40", "image I5", "run", 60, "0000010000000000"),
        ("another entry", "image I7", "run", 48, "00040004"),
        ("exit not declared", "refused V12 in function 0 at 00040014", "run", 6, "0004"),
    ):
        calls.expect(name, (2, "", line), command, calls.changed("changed", place, digits))
    longer = put(calls.at("longer"), calls.hello + b"\0")
    calls.expect("a byte more", (2, "", "image I6"), "verify", longer)
    bounds = b"\0\0\0\5\0\0\0\4\0"
    reversed_range = put(calls.at("range"), calls.hello[:45] + b"\1" + calls.hello[46:70] + bounds + calls.hello[-16:])
    calls.expect("a param 5 to 4", (2, "", "image I8"), "verify", reversed_range)
    for command in ("run", "verify"):
        wanted = (2, "", "refused V14 in function 0 at 00040014")
        calls.expect(f"{command}: too little fuel", wanted, command, calls.little)


def try_files(calls):
    """Files that can't be read, and images that come through pipes or have no end."""
    hello = f"{HELLO}.img"
    calls.expect("a directory", (4, "", "file"), "run", calls.work)
    calls.expect("a missing file", (4, "", "file"), "verify", calls.at("missing"))
    calls.expect("an empty path", (4, "", "file"), "run", "")
    calls.expect("a source above the bound", (4, "", "file"), "asm", calls.at("more"), calls.at("never.img"))
    calls.expect("zeros without end as an image", (2, "", "image I2"), "verify", "/dev/zero")
    for name, wanted, command, maker in (
        ("20 MB of zeros as an image", (2, "", "image I2"), "run", ("head", "-c", "20000000", "/dev/zero")),
        ("an image and bytes without end", (2, "", "image I6"), "run", ("cat", hello, "/dev/zero")),
        ("an image from a pipe", (0, "Hi"), "run", ("cat", hello)),
        ("an image from a pipe, byte by byte", (0, "Hi"), "run", ("dd", f"if={hello}", "bs=1", "status=none")),
    ):
        with put_out_by(*maker) as pipe:
            calls.expect(name, wanted, command, f"/dev/fd/{pipe.fileno()}", pass_fds=(pipe.fileno(),))
    locked = put(calls.at("locked"), calls.hello)
    os.chmod(locked, 0)
    calls.expect("a locked file", (4, "", "file"), "run", locked, by=[*as_anybody(), PROGRAM])
    if os.path.exists("/proc/self/mem"):
        memory = "/proc/self/mem"
        calls.expect("a file whose reads fail", (4, "", "file"), "run", memory)
        calls.expect("asm: a source whose reads fail", (4, "", "file"), "asm", memory, calls.at("never.img"))
        calls.expect("input whose reads fail", (4, "", "input"), "run", f"{ECHO}.img", given=memory)


def try_input(calls):
    """Standard input, which is read as the program asks for it, whatever its length."""
    hello, echo = f"{HELLO}.img", f"{ECHO}.img"
    calls.expect("input that nobody reads", (0, "Hi"), "run", hello, given=calls.at("more"))
    calls.expect("endless input that nobody reads", (0, "Hi"), "run", hello, given="/dev/zero")
    with opened(calls.work) as folder:
        calls.expect("a directory that nobody reads", (0, "Hi"), "run", hello, given=folder)
        calls.expect("a directory as input", (4, "", "input"), "run", echo, given=folder)
        calls.expect("a refused image before bad input", (2, "", "image I1"), "run", calls.at("cut"), given=folder)
    with put_out_by("yes") as endless:
        calls.expect("endless input", (0, ECHOED), "run", echo, given=endless)
    with put_out_by("sh", "-c", "yes | head -c 16777217") as long:
        calls.expect("input above the files' bound", (0, ECHOED), "run", echo, given=long)


def try_lengths(calls):
    """Programs that hand on up to 53,000,000 bytes: 50 MiB in less memory than they have, and texts about as long as
    what is kept before it is written; returns the image."""
    source = text_of(f"{ECHO}.s").replace("16030", "848000031").replace("mov 1000,", "set 53000000,")
    most = calls.assembled("a longer echo", source.replace("1,1000,0", "1,53000000,0"), "most.img")
    long = "".join(f"{number}\n" for number in range(1000000000, 1004766255))[: 50 << 20].encode()
    ran = run([PROGRAM, "run", most], long, preexec_fn=within(16384))
    calls.tally.check("50 MiB", (ran.status, ran.err) == (0, b""), f"wanted status 0, came {ran.status}, {ran.err}")
    calls.tally.check("50 MiB: the output", ran.out == long, f"wanted the input, came {len(ran.out)} other bytes")
    for length in (1023, 1024, 1025, 4095, 4096, 4097, 8191, 8192, 8193):
        calls.expect(f"a text of {length} bytes", (0, long[:length]), "run", most, given=long[:length])
    put(calls.at("long"), long)
    return most


def try_conversations(calls):
    """A line is written before a long computation, and each line, or part of one, is answered before the next one
    comes."""
    slow = calls.assembled("a long computation", SLOW, "slow.img")
    streams = {"stdout": subprocess.PIPE, "stderr": subprocess.DEVNULL, "bufsize": 0}
    with subprocess.Popen([PROGRAM, "run", slow], stdin=subprocess.DEVNULL, **streams) as ran:
        calls.tally.same("a line before a long computation", come_within(ran.stdout, 2, 15), b"A\n")
        ran.kill()
    streams["stderr"] = subprocess.PIPE
    with subprocess.Popen([SANDBOX, "run", f"{ECHO}.img"], stdin=subprocess.PIPE, **streams) as ran:
        for text in (b"one\n", b"another\n", b"half", b"line"):
            ran.stdin.write(text)
            calls.tally.same(f"a conversation: {text}", come_within(ran.stdout, len(text), 20), text)
        ran.stdin.close()
        ends = (ran.wait(20), ran.stdout.read(), ran.stderr.read())
        calls.tally.same("a conversation ends", ends, (0, b"", b""))


def try_traces(calls):
    """Traces: a line a turn, of images that need not be accepted, in memory that doesn't grow with the turns."""
    hello = f"{HELLO}.img"
    two = "".join(f"{it}\n" for it in TRACE.splitlines()[:2])
    for name, out, *words in (
        ("trace", TRACE, hello),
        ("trace of a refused image", TRACE, calls.little),
        ("trace of two turns", two, "--limit", "2", hello),
        ("trace up to the end", TRACE, hello, "--limit=9999999999"),
        ("trace on 4 windows", TRACE.replace(" 07 s ", " 03 s "), "--windows", "4", hello),
        ("trace on 32 windows", TRACE.replace(" 07 s ", " 31 s "), "--windows", "32", "--limit", "16", hello),
        ("trace of no turn", "", hello, "--limit", "000"),
    ):
        calls.expect(name, (0, out), "trace", *words)
    calls.expect("trace: cut", (2, "", "image I1"), "trace", calls.at("cut"), given=calls.at("more"))
    calls.expect("trace: a missing file", (4, "", "file"), "trace", calls.at("missing"))
    calls.expect("trace: input at the bound", (0, TRACE), "trace", hello, given=calls.at("most"))
    wanted = (4, "", "input")
    calls.expect("trace: input above the bound", wanted, "trace", hello, given=calls.at("more"))
    calls.expect("trace of no turn: input above the bound", wanted, "trace", "--limit", "0", hello,
                 given=calls.at("more"))
    with opened(calls.work) as folder:
        calls.expect("trace: a directory as input", wanted, "trace", hello, given=folder)
    forever = calls.assembled("a loop without end", FOREVER, "forever.img")
    enough = least_kib([PROGRAM, "trace", "--limit", "1000", forever], 16384)
    status, last = last_line([PROGRAM, "trace", "--limit", "2000000", forever], enough)
    calls.tally.same(f"two million lines in {enough} KiB", (status, last[:11]), (0, "0002000000 "))


def try_list(calls):
    """Address, word and text of each code word."""
    calls.expect("list", (0, LISTING), "list", f"{HELLO}.img")
    calls.expect("list: cut", (2, "", "image I1"), "list", calls.at("cut"))
    calls.expect("list: a missing file", (4, "", "file"), "list", calls.at("missing"))


def try_bounds(calls):
    """Code of 65,536 words and data of 262,144 bytes, and of one more."""
    words = calls.assembled("65,536 words", words_of(65536), "words.img")
    calls.expect("verify: 65,536 words", (0, ACCEPTED), "verify", words)
    calls.expect("run: 65,536 words", (0,), "run", words)
    ran = run([SANDBOX, "list", words])
    calls.tally.same("list: 65,536 words", (ran.status, ran.out.count(b"\n"), ran.err), (0, 65536, b""))
    more, none = put(calls.at("more.s"), words_of(65537)), calls.at("none")
    calls.expect("asm: 65,537 words", (2, "", "line 65540: A3"), "asm", more, none)
    calls.expect("run: 262,144 bytes of data", (0,), "run", calls.assembled("262,144 bytes", DATA, "data.img"))
    more = put(calls.at("more.s"), DATA + ".byte 1\n")
    calls.expect("asm: 262,145 bytes of data", (2, "", "line 8: A3"), "asm", more, none)


def try_closed(calls):
    """Standard streams that are closed or full: no file stands in their place."""
    hello, echo, output, wanted = f"{HELLO}.img", f"{ECHO}.img", (4, "", "output"), (4, "", "input")
    for command in ("run", "verify", "trace"):
        calls.expect(f"{command}: output closed", output, command, hello, preexec_fn=closed(1))
    with opened("/dev/full", os.O_WRONLY) as full:
        for command in ("run", "list", "verify", "trace"):
            calls.expect(f"{command}: output full", output, command, hello, stdout=full)
    for name, status, command, image, streams in (
        ("input closed", wanted, "run", echo, (0,)),
        ("input closed that nobody reads", (0, "Hi"), "run", hello, (0,)),
        ("trace: input closed", wanted, "trace", hello, (0,)),
        ("input and output closed", wanted, "run", echo, (0, 1)),
        ("output and errors closed", (4,), "run", hello, (1, 2)),
        ("errors closed", (2,), "run", calls.at("cut"), (2,)),
    ):
        calls.expect(name, status, command, image, given=0, preexec_fn=closed(*streams))


def try_early(calls, most):
    """Outputs of which nobody reads on."""
    for front, words in (
        (ECHOED[:10], ("run", most)),
        ("00040000 01000000 sethi 0,%g0\n", ("list", calls.at("words.img"))),
        ("0000000001 00 u 00040000 91D02002 trap 82\n", ("trace", "--limit", "100000", calls.at("forever.img"))),
    ):
        streams = {"stdout": subprocess.PIPE, "stderr": subprocess.PIPE, "bufsize": 0}
        with put_out_by("yes" if words[0] == "run" else "true") as given:
            with subprocess.Popen([SANDBOX, *words], stdin=given, **streams) as ran:
                came = come_within(ran.stdout, len(front), 20)
                ran.stdout.close()
                told = ran.stderr.read()
        wanted = (4, front.encode(), b"output\n")
        calls.tally.same(f"{words[0]}: output closed early", (ran.returncode, came, told), wanted)


def try_words(calls):
    """Words that ask for nothing, and what the help says of numbers."""
    hello, shape, none = f"{HELLO}.img", calls.at("shape.s"), calls.at("none")
    for words in (
        "asm", f"asm {shape}", f"asm {shape} {none} {none}", "", "--help", "-h", "-V", "help", "help run",
        f"walk {hello}",
        "run", f"run {hello} {hello}", f"run --windows {hello}", f"run --windows 3 {hello}",
        f"run --windows 33 {hello}",
        f"run --windows abc {hello}", f"run --windows +8 {hello}", f"run --windows 8 --windows 8 {hello}",
        f"run --limit 8 {hello}", f"verify --windows 8 {hello}", "list", f"verify {hello} {hello}", "trace",
        f"trace --limit {hello}", f"trace --windows 33 {hello}", "run --help", f"trace --limit +8 {hello}",
        f"trace --limit 10000000000 {hello}", f"trace --limit 8 --limit 8 {hello}", f"trace {hello} {hello}",
    ):
        calls.usage(*words.split())
    calls.usage("trace", "--limit", "", hello)
    calls.usage("run", b"no\377text")
    for command in ("run", "trace"):
        calls.is_listed(f"help: the windows of {command}", "4 to 32; 8 where it is left out", command, "--help")
    calls.is_listed("help: the limit of trace", "0 to 9999999999; 100000 where it is left out", "trace", "--help")


def main(words):
    Words(__doc__).parse_args(words)
    built("sandbox", "host")
    tally = Tally("program")
    with tempfile.TemporaryDirectory() as work:
        calls = Calls(tally, work)
        try_accepted(calls)
        try_refused(calls)
        try_files(calls)
        try_input(calls)
        most = try_lengths(calls)
        try_conversations(calls)
        try_bounds(calls)
        try_list(calls)
        try_traces(calls)
        try_closed(calls)
        try_early(calls, most)
        try_asm(calls)
        try_words(calls)
        try_host(calls, most)
    return tally.end()


if __name__ == "__main__":
    sys.exit(main(sys.argv[1:]))
