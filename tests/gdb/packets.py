"""Packets of any bytes, and files that aren't right."""
import os
import random
import re

from run import EXAMPLES, INSPECT, bytes_of, put, run

ECHO = f"{EXAMPLES}/echo/echo.img"
SERVED = [INSPECT, "gdb", ECHO]
COUNT, AT_ONCE = 20_000, 1_000
LETTERS = b"?gGpPmMZzcCsSvqQHTRDX!bk0123456789abcdef,;:+-=#$}*\x03\xff "
# What looks like gdb's own.
FORMS = (b"m%x,%x", b"p%x", b"P%x=%x", b"Z%x,%x,%x", b"z%x,%x,%x", b"qRcmd,%x", b"vCont;r%x,%x",
         b"qXfer:features:read:target.xml:%x,%x", b"bc", b"bs", b"vCont;s", b"vCont;c", b"monitor",
         b"qXfer:exec-file:read::%x,%x", b"s%x", b"c%x")


def framed(body):
    """A packet as it is sent."""
    escaped = b"".join(bytes([0x7D, it ^ 0x20]) if it in b"#$}*" else bytes([it]) for it in body)
    return b"$" + escaped + b"#%02x" % (sum(escaped) & 255)


def random_packet(dice):
    """A packet of bytes at random, or one that looks like gdb's."""
    if dice.random() < 0.5:
        return bytes(dice.choice(LETTERS) for _ in range(dice.randrange(16)))
    form = dice.choice(FORMS)
    numbers = tuple(dice.choice((0, 1, 4, 64, 0x40000, 0xFFFC0, 0xFFFFFFFF, 1 << 40, dice.randrange(1 << 32)))
                    for _ in range(form.count(b"%x")))
    return form % numbers


def packets(work):
    """Random packets get an answer each, and the stub goes on; so do bytes that are no packets."""
    dice, tally = random.Random(1), work.tally
    given = put(work.at("echo.in"), b"hello")
    for first in range(0, COUNT, AT_ONCE):
        sent = [random_packet(dice) for _ in range(AT_ONCE)]
        sent = [it for it in sent if it[:1] not in (b"k", b"D")]  # (these end a session)
        noise = [bytes(dice.choice(LETTERS.replace(b"$", b"")) for _ in range(dice.randrange(4))) for _ in sent]
        text = b"".join(it for pair in zip(noise, map(framed, sent)) for it in pair)
        ran = run([*SERVED[:-1], "--input", given, ECHO], text + framed(b"p44") + framed(b"D"), 300)
        answers = re.findall(rb"\+\$([^#]*)#[0-9a-f]{2}", ran.out.replace(b"$O", b"+$O"))
        name, wanted = f"packets from {first} on", len(sent) + 2
        tally.check(f"{name}: an end", ran.status == 0 and not ran.err, f"status {ran.status}: {ran.err[-300:]}")
        tally.check(f"{name}: an answer each", len(answers) >= wanted, f"{len(answers)} of {wanted}")
        tally.check(f"{name}: the last ones", ran.out.rstrip(b"+").endswith(b"$OK#9a"), ran.out[-60:])
    ran = run(SERVED, b"$p44#00" + framed(b"p44") + framed(b"D"))
    tally.check("a wrong sum", ran.out.startswith(b"-+$"), ran.out[:20])
    ran = run(SERVED, b"$" + b"m" * 200_000 + framed(b"D"))
    tally.check("a packet without an end", ran.status == 0, ran.said[-200:])
    ran = run(SERVED, b"")
    tally.check("nothing", ran.status == 0 and not ran.err, ran.said[-200:])


def refused(work):
    """What is told of words and files that aren't right."""
    hello, source = f"{EXAMPLES}/hello/hello.img", f"{EXAMPLES}/echo/echo.s"
    wrong = put(work.at("wrong.elf"), b"\x7fELF\1\2 no such")
    mapped = put(work.at("wrong.map"), "map of image " + "0" * 64 + "\n")
    asked = framed(b"?")
    for words, status, told in (
            (["nosuch.img"], 4, "nosuch.img: no such file"),
            (["--input", "nosuch", hello], 4, "nosuch: no such file"),
            (["--input", work.folder, hello], 4, "is a directory"),
            (["--debug", wrong, hello], 2, "another image's"),
            (["--debug", "nosuch.elf", hello], 4, "nosuch.elf: no such file"),
            (["--source", source, hello], 2, "another image's"),
            (["--map", mapped, hello], 2, "another image's"),
            (["--map", hello, hello], 2, "no map"),
            (["--windows", "3", hello], 3, "from 4 to 32"),
            (["--limit", "x", hello], 3, "from 0 to"),
            (["--limit", "0", hello], 3, "a turn at least"),
            ([__file__], 2, ""),
            ([], 3, "Usage: inspect gdb"),
            (["--nosuch", hello], 3, "Usage: inspect gdb")):
        ran = run([INSPECT, "gdb", *words], asked, cwd=work.folder)
        name = " ".join(os.path.basename(it) for it in words)
        is_told = told in ran.err.decode() and b"Traceback" not in ran.err
        work.tally.check(f"inspect gdb {name}", ran.status == status and is_told,
                         f"wanted {status} {told}, came {ran.status} {ran.said}")
    ran = run([INSPECT, "gdb", "--limit", "3", hello], asked + framed(b"c") + framed(b"c") + framed(b"D"))
    told = b"the limit: the run would go on behind turn 3".hex().encode()
    is_told = b"replaylog:end" in ran.out and told in ran.out
    work.tally.check("a limit that is met", is_told and ran.status == 0, ran.said)
    work.tally.check("hello.img stands", bytes_of(hello)[:4] == b"SBX8")
