"""What `asm` does: of sources, and to what stands where its object goes."""
import os
import resource
import signal
import threading

from calls import ACCEPTED, ECHO, HELLO, PROGRAM, words_of
from run import EXAMPLES, as_anybody, bytes_of, has, put, run, text_of

HERE = os.path.dirname(os.path.abspath(__file__))
SHAPE = ".services exit\n.function f,leaf,0,0,4\n mov 0\n ta 0\n"


def try_sources(calls):
    """What `asm` says of sources, and that no object is opened for a bad one."""
    source, none, shape = f"{HELLO}.s", calls.at("none"), put(calls.at("shape.s"), SHAPE)
    calls.expect("asm", (0,), "asm", source, calls.at("object"))
    calls.same("asm: the object", calls.at("object"), calls.hello)
    calls.expect("asm: then run", (0, "Hi"), "run", calls.at("object"))
    calls.expect("asm: echo", (0,), "asm", f"{ECHO}.s", calls.at("echo"))
    calls.same("asm: echo's object", calls.at("echo"), bytes_of(f"{ECHO}.img"))
    two = put(calls.at("two.s"), ".function f,leaf,0,0,4\n.stack 17\n $\n")
    for name, wanted, path in (
        ("a bad shape", (2, "", "line 3: S2"), shape),
        ("the lesser line", (2, "", "line 2: A2"), two),
        ("an empty source", (2, "", "line 1: A2"), put(calls.at("empty.s"), "")),
        ("a missing source", (4, "", "file"), calls.at("missing")),
        ("a source above the bound", (4, "", "file"), calls.at("more")),
    ):
        calls.expect(f"asm: {name}", wanted, "asm", path, none)
    calls.absent("asm: no object of these", none)
    comment = f"! {'x' * 1000}\n"
    text = (text_of(source) + comment * 16800)[:16777216]
    image = calls.assembled("a source at the bound", text, "bound.img")
    calls.same("asm: a source at the bound: the object", image, calls.hello)
    calls.expect("asm: a directory as object", (4, "", "output"), "asm", source, calls.work)
    calls.expect("asm: a bad source before the object", (2, "", "line 3: S2"), "asm", shape, calls.work)
    calls.expect("asm: a full object", (4, "", "output"), "asm", source, "/dev/full")


def try_byte_by_byte(calls):
    """Files read byte by byte: in more pieces than any other test has, and in no more time than their bytes take."""
    short, crc, image = calls.at("short.so"), f"{EXAMPLES}/crc/crc", calls.at("crc.img")
    if not has("cc") or run(["cc", "-shared", "-fPIC", "-o", short, f"{HERE}/short.c"]).status:
        calls.tally.skip("files read byte by byte", "cc")
        return
    full = calls.assembled("all words and data", words_of(65536) + ".data\n.skip 262144\n", "full.img")
    how = {"by": PROGRAM, "seconds": 60, "env": {**os.environ, "LD_PRELOAD": short}}
    calls.expect("byte by byte: verify", (0, ACCEPTED), "verify", full, **how)
    calls.expect("byte by byte: asm", (0,), "asm", f"{crc}.s", image, **how)
    calls.same("byte by byte: the object", image, bytes_of(f"{crc}.img"))
    calls.expect("byte by byte: run", (0, bytes_of(f"{crc}.out")), "run", f"{crc}.img", given=f"{crc}.in", **how)


def no_room():
    """No file may grow in this process."""
    signal.signal(signal.SIGXFSZ, signal.SIG_IGN)
    resource.setrlimit(resource.RLIMIT_FSIZE, (0, 0))


def try_object(calls):
    """A plain object is replaced whole or stays as it was, with its permissions, and nothing is left beside it."""
    source, thing, part = put(calls.at("own.s"), bytes_of(f"{HELLO}.s")), calls.at("object"), calls.at("object.part")
    link = calls.at("link.s")
    os.symlink("own.s", link)
    for name, path in (("the source as object", source), ("a link to the source as object", link)):
        calls.expect(f"asm: {name}", (4, "", "output"), "asm", source, path)
    calls.same("asm: the source as it was", source, bytes_of(f"{HELLO}.s"))
    os.chmod(put(thing, "older"), 0o640)
    calls.expect("asm: over an older object", (0,), "asm", source, thing)
    calls.same("asm: the new object", thing, calls.hello)
    calls.tally.same("asm: its permissions", os.stat(thing).st_mode & 0o777, 0o640)
    put(thing, "older")
    calls.expect("asm: a bad source and an older object", (2, "", "line 3: S2"), "asm", calls.at("shape.s"), thing)
    calls.same("asm: the older object", thing, b"older")
    # (its standard error is a pipe, which may grow)
    calls.expect("asm: no room for a file", (4, "", "output"), "asm", source, thing, by=PROGRAM, preexec_fn=no_room)
    calls.same("asm: no room: the older object", thing, b"older")
    calls.absent("asm: no room: nothing beside", part)
    kept = put(calls.at("kept"), "older")
    os.chmod(kept, 0o440)
    by = [*as_anybody(), PROGRAM]
    calls.expect("asm: a write-protected object", (4, "", "output"), "asm", source, kept, by=by)
    calls.same("asm: it is as it was", kept, b"older")
    calls.absent("asm: nothing beside it", calls.at("kept.part"))
    put(part, "taken")
    calls.expect("asm: the name beside is taken", (0,), "asm", source, thing)
    calls.same("asm: the object in its place", thing, calls.hello)
    calls.same("asm: what had the name", part, b"taken")
    os.remove(part)


def try_names(calls):
    """Objects in a folder of their own, with blanks around their names, behind a link, and through a pipe."""
    alone, source = calls.at("alone"), calls.at("own.s")
    os.mkdir(alone)
    for name in ("a new object", "over it"):
        calls.expect(f"asm: {name}", (0,), "asm", source, f"{alone}/object")
        calls.tally.same(f"asm: {name}: what is beside", os.listdir(alone), ["object"])
    put(f"{alone}/ own.s ", bytes_of(source))
    calls.expect("asm: blanks around paths", (0,), "asm", " own.s ", " object ", by=PROGRAM, cwd=alone)
    calls.same("asm: the object with blanks around its path", f"{alone}/ object ", calls.hello)
    calls.expect("run: blanks around a path", (0, "Hi"), "run", " object ", by=PROGRAM, cwd=alone)
    link, thing = calls.at("link"), put(calls.at("object"), "older")
    os.symlink("object", link)
    calls.expect("asm: a link as object", (0,), "asm", source, link)
    calls.tally.check("asm: still a link", os.path.islink(link), "wanted a link, came none")
    calls.same("asm: what it leads to", thing, calls.hello)
    pipe, piped = calls.at("pipe"), []
    os.mkfifo(pipe)
    reader = threading.Thread(target=lambda: piped.append(bytes_of(pipe)))
    reader.start()
    calls.expect("asm: a pipe as object", (0,), "asm", source, pipe)
    reader.join()
    calls.tally.same("asm: what went through", piped, [calls.hello])


def try_asm(calls):
    """All of it."""
    try_sources(calls)
    try_byte_by_byte(calls)
    try_object(calls)
    try_names(calls)
