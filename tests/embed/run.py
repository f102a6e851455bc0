#!/usr/bin/env python3
"""usage: tests/embed/run.py [--cost] [PREFIX]
       tests/embed/run.py --installed PREFIX

Tries libgeyserpan from outside, as tools/release/library lays it out: into PREFIX, else into a folder that is
removed. Compares what it exports and asks for, and the layout of its structs, with include/geyserpan.h; what it tells
of each example image and of each refused source with the files beside them; outputs whole and in pieces of odd sizes;
goes through refusals, empty handles and ends; refuses each growth of memory in turn by an allocator of its own; makes
many runs under AddressSanitizer and valgrind, and in eight threads under ThreadSanitizer, on images of their own and
on one that they share; begins runs on terms of their own; compares the names of images with hashlib's; has images go
by objects of native code, and compares these runs with the engine's; builds and runs the examples of embed/ in C,
C++, Rust, Python and Go, the tests that each of these has, under sanitizers where there are some, and what their
READMEs show, in empty folders; and has a worker of a Dask cluster killed. What isn't there is skipped, and said so.
Where the program of ./sandbox is built, its verdicts and outputs are compared, too.

With --installed it tries a release that `install PREFIX` has laid out: what the library exports, and the hosts of
share/geyserpan/embed there, which find header and library by pkg-config.

With --cost it only measures a run of three examples by `once`, by `run_image`, by `restart` and `step`, by
`engine_run`, by `engine_begin` and `engine_step`, in microseconds of the processor and, where valgrind is there, in
instructions, and by a process of the program; `open` and `engine_begin` by themselves, of two programs from C, too,
where there is a compiler for SPARC, and the memory of ten thousand sessions; and the size of the library."""
import glob
import hashlib
import os
import random
import re
import resource
import shutil
import signal
import subprocess
import sys
import sysconfig
import tempfile

sys.dont_write_bytecode = True
SOURCES = os.path.dirname(os.path.abspath(__file__))
sys.path.insert(0, f"{os.path.dirname(SOURCES)}/lib")
from natives import objects_for_hosts, try_natives
from run import EXAMPLES, TOP, bytes_of, has, program, put, run, text_of
from tally import FAILED, PASSED, Tally, Words, shown

HEAP = {"rattle_alloc", "rattle_realloc", "rattle_dealloc"}
# The call that goes to objects of native code; what each member of the archive may ask the C library for; and what the
# member with that call may ask for besides.
OF_NATIVE = {"geyserpan_native"}
OF_C = {"memcpy", "memmove", "memset", "malloc", "realloc", "free", "_GLOBAL_OFFSET_TABLE_"}
FOR_OBJECTS = {"close", "dlclose", "dlopen", "dlsym", "fstat", "memchr", "memcmp", "open", "pread", "strlen",
               "__stack_chk_fail"}
PROGRAM = program("sbx_tool")
LIBRARY = f"{TOP}/tools/release/library"
TALLY = Tally("embed")
# (bytes of a piece, bytes of room, turns of a step)
PIECES = [(1, 1, 1000000), (2, 3, 7), (5, 3, 1000), (7, 4096, 1), (4096, 1, 4096), (65536, 65536, 1000000),
          (3, 0, 100), (4096, 4096, 2**64 - 1)]
# The image reads three bytes and puts each one more out; where its input has ended it reads 2^32 - 1.
REQUESTS, ANSWERS = b"HAL\n\nabc\nzyx w\n", b"IBM\n\0\0\0\nbcd\n{zy\n"


def gives(name, ran, out, status=0, err=None):
    """Counts whether a command ended so, with this output and, where they are given, these errors."""
    wanted = (status, out, ran.err if err is None else err)
    return TALLY.check(name, ran == wanted,
                       f"wanted {shown(wanted[:2])}, came {shown(ran[:2])}: {shown(ran.err[-1500:])}")


def made(words, what, **more):
    """Whether a command that builds something succeeds."""
    ran = run(words, seconds=None, **more)
    return TALLY.check(what, ran.status == 0, f"wanted that it is built, came status {ran.status}: {ran.said[-1500:]}")


def passes(words, what, **more):
    """Whether a command that tries something succeeds."""
    ran = run(words, seconds=None, **more)
    return TALLY.check(what, ran.status == 0, f"wanted status 0, came {ran.status}: {ran.said[-3000:]}")


def input_of(image):
    """The input that stands beside an example."""
    path = re.sub(r"\.\w+$", ".in", image)
    return bytes_of(path) if os.path.exists(path) else b""


def accepted():
    """The example images that are accepted."""
    return sorted(it for it in glob.glob(f"{EXAMPLES}/*/*.img") if "/refused/" not in it)


# ---- the files of a release


def bare_header():
    """The header without its comments."""
    return re.sub(r"/\*.*?\*/", "", text_of(f"{TOP}/include/geyserpan.h"), flags=re.S)


def declared():
    """The calls that the header declares."""
    return set(re.findall(r"\b(geyserpan_\w+)\(", bare_header()))


def shared_of(prefix):
    """The shared object, whose name has the number of the calls."""
    return f"{prefix}/lib/libgeyserpan.so.{re.search(r'define GEYSERPAN_ABI ([0-9]+)', bare_header()).group(1)}"


def names_of(*words):
    """The names that nm tells."""
    lines = run(["nm", *words]).out.decode().splitlines()
    return {it.split()[-1] for it in lines if it.split() and not it.endswith(":")}


def asked_by(archive):
    """The names that each member of an archive asks for."""
    found = {}
    for line in run(["nm", "-A", "-u", archive]).out.decode().splitlines():
        _, member, name = re.fullmatch(r"(.*):([^:]+):\s+\w (\S+)", line).groups()
        found.setdefault(member, set()).add(name)
    return found


def tell_size(prefix):
    """Prints how great the library is."""
    archive, shared = f"{prefix}/lib/libgeyserpan.a", shared_of(prefix)
    told = [int(it) for it in run(["size", "--total", archive]).out.decode().splitlines()[-1].split()[:3]]
    print(f"libgeyserpan.a: {os.path.getsize(archive)} bytes, text {told[0]}, data {told[1]}, bss {told[2]}; "
          f".so: {os.path.getsize(shared)} bytes, {len(names_of('-D', '--defined-only', shared))} symbols exported")


def try_symbols(prefix):
    """What the library exports and asks for."""
    archive, shared = f"{prefix}/lib/libgeyserpan.a", shared_of(prefix)
    name = os.path.basename(shared)
    defined, kept = names_of("-g", "--defined-only", archive), {f"proved_{it}" for it in declared()}
    TALLY.same("names that libgeyserpan.a defines", defined - kept, declared() | HEAP)
    TALLY.same(f"names that {name} exports", names_of("-D", "--defined-only", shared), declared() - OF_NATIVE)
    asked = asked_by(archive)
    for member, names in asked.items():
        more = names - defined - OF_C - (FOR_OBJECTS if member == "native.o" else set())
        TALLY.check(f"names that {member} asks for", not more, f"wanted none of other libraries, came {more}")
    TALLY.same("the members of libgeyserpan.a", set(asked), {"proved.o", "heap.o", "native.o"})
    dynamic = run(["readelf", "-d", shared]).out.decode()
    TALLY.check(f"{name}: its soname", f"soname: [{name}]" in dynamic, "wanted its name, came another one")
    TALLY.check(f"{name}: its text", "TEXTREL" not in dynamic, "wanted none that is relocated")
    needed = re.findall(r"NEEDED.*\[(.*)\]", dynamic)
    TALLY.check(f"{name}: what it needs", needed in ([], ["libc.so.6"]), f"wanted the C library alone, came {needed}")
    tell_size(prefix)


def try_data(prefix):
    """The library has no data that is written, in any object but that of the allocator; `.data.rel.ro` is written by
    the loader alone."""
    member, bad, kinds = "", [], (".data", ".bss", ".tdata", ".tbss")
    for line in run(["size", "-A", f"{prefix}/lib/libgeyserpan.a"]).out.decode().splitlines():
        words = line.split()
        if "(ex " in line:
            member = words[0]
        elif member != "heap.o" and line.startswith(kinds) and not line.startswith(".data.rel.ro") and int(words[1]):
            bad.append((member, words[0]))
    TALLY.check("libgeyserpan.a: its data", member and not bad, f"wanted none of its own, came {bad}")


# ---- the layout of structs

SIZES = {"u8": 1, "u32": 4, "u64": 8}


def laid_out(fields):
    """The size of a struct of the crate and the offsets of its fields, as C lays them out."""
    at, widest, offsets = 0, 1, []
    for _, kind in fields:
        inner, count = re.fullmatch(r"\[(\w+); (\d+)\]", kind).groups() if kind[0] == "[" else (kind, 1)
        size = SIZES[inner]
        at += -at % size
        offsets.append(at)
        at += size * int(count)
        widest = max(widest, size)
    return [at + -at % widest, *offsets]


def structs_of_crate():
    """The structs of the crate that C reads, by their names: their fields, and how they are laid out."""
    found = {}
    for path in glob.glob(f"{TOP}/crates/geyserpan/src/*.rt"):
        structs = r"#\[repr\(C\)\]\n(?:#\[[^\n]*\]\n)*pub struct (\w+) \{\n(.*?)\n\}"
        for name, body in re.findall(structs, text_of(path), re.S):
            fields = re.findall(r"pub (\w+): ([^,\n]+),", body)
            if fields:
                found[name.lower()] = (fields, laid_out(fields))
    return found


def fields_of_header(name):
    """The names of a struct's fields in the header."""
    body = re.search(r"typedef struct \{([^}]*)\} geyserpan_%s;" % name, bare_header()).group(1)
    lines = re.findall(r"uint\d+_t ([^;]+);", body)
    return [re.sub(r"\[\d+\]", "", it) for line in lines for it in re.split(r",\s*", line)]


def try_layout(work):
    """The header's structs are those of the crate."""
    words = ["cc", f"-I{TOP}/include", f"{SOURCES}/layout.c", "-o", f"{work}/layout"]
    if not made(words, "layout.c"):
        return
    lines = [it.split() for it in run([f"{work}/layout"]).out.decode().splitlines()]
    header, crate = {name: [int(it) for it in rest] for name, *rest in lines}, structs_of_crate()
    TALLY.same("structs of the crate", set(crate), {"terms", "facts", "why", "report", "done"})
    for name, (fields, wanted) in crate.items():
        TALLY.same(f"struct {name}: its layout in the header", header.get(name), wanted)
        TALLY.same(f"struct {name}: its fields in the header", fields_of_header(name), [it for it, _ in fields])


# ---- what is told of images and sources


def told_facts(path):
    """The facts of an image, from the text that stands beside it."""
    text = text_of(path)
    services = re.search(r"^\.services (.*)$", text, re.M)
    bits = sum({"exit": 1, "get": 2, "put": 4}[it] for it in services.group(1).split(",")) if services else 0
    stack = re.search(r"^\.stack (\d+)$", text, re.M)
    words, data = re.search(r"^! words of code: (\d+), bytes of data: (\d+)$", text, re.M).groups()
    functions = re.findall(r"^\.function (.*)$", text, re.M)
    depth = re.search(r"^\.depth (\d+)$", text, re.M)
    version = 3 if depth else 2 if re.search(r"^\.region", text, re.M) else 1
    facts = [version, bits, words, data, stack[1] if stack else 1, len(functions), functions[0].split(",")[4]]
    return " ".join(map(str, [*facts, depth[1] if depth else 0]))


def try_example(calls, image):
    """An example: its verdict, its facts, what its source means, and its outputs, whole and in pieces."""
    name, beside = os.path.basename(image), image.removesuffix(".img")
    wanted, given, ran = bytes_of(f"{beside}.out"), input_of(image), text_of(f"{beside}.ran")
    gives(f"{name}: the verdict", run([calls, "check", image]), b"accepted\n", err=b"")
    gives(f"{name}: the facts", run([calls, "facts", image]), f"{told_facts(f'{beside}.told')}\n".encode())
    gives(f"{name}: what its source means", run([calls, "assemble", f"{beside}.s"]), bytes_of(image))
    exit_word = re.search(r"^end: exit with the word ([0-9A-F]{8})$", ran, re.M)[1]
    turns = re.search(r"^turns: (\d+) of", ran, re.M)[1]
    for windows in ("8", "4", "32"):
        came = run([calls, "once", image, windows], given)
        told = [int(it) for it in came.err.split()[:2]]
        gives(f"{name} on {windows} windows", came, wanted)
        TALLY.same(f"{name} on {windows} windows: the exit word", told[:1], [int(exit_word, 16)])
        TALLY.check(f"{name}: turns", windows != "8" or told[1:] == [int(turns)], f"wanted {turns}, came {told[1:]}")
    for piece in PIECES:
        words = list(map(str, piece))
        gives(f"{name} by pieces of {piece}", run([calls, "pieces", image, *words], given), wanted)
        for windows in ("8", "4", "32"):
            came = run([calls, "engine", image, windows, *words], given)
            gives(f"{name} by the engine on {windows} windows and pieces of {piece}", came, wanted)
    if os.path.exists(PROGRAM):
        TALLY.same(f"{name}: sandbox run", run([PROGRAM, "run", image], given).out, wanted)


def try_refused(calls, told, work):
    """A source or an image that is refused, by the rule that stands beside it."""
    name, image = os.path.basename(told)[:-5], told.replace(".told", ".img")
    if not os.path.exists(image):
        image = put(f"{work}/{name}.img", run([calls, "assemble", told.replace(".told", ".s")]).out)
    wanted = text_of(told).splitlines()[0]
    TALLY.same(f"{name}: the verdict", run([calls, "check", image]).out.decode().strip(), wanted)
    if os.path.exists(PROGRAM):
        TALLY.same(f"{name}: sandbox verify", run([PROGRAM, "verify", image]).err.decode().strip(), wanted)


def try_examples(calls, work):
    """All examples, and all that are refused."""
    for image in accepted():
        try_example(calls, image)
    for told in sorted(glob.glob(f"{EXAMPLES}/refused/*.told")):
        try_refused(calls, told, work)
    if not os.path.exists(PROGRAM):
        TALLY.skip("comparison with sandbox", "its program")


# Sources with a fault, from docs/use/source.md: the line, and the cause.
FAULTS = {
    b"\n\xc3\n": "line 2: X1",
    b"\n#\n": "line 2: X2",
    b"\nfrobnicate %o0\n": "line 2: S1",
    b"\na:\na:\n": "line 3: A1",
    b"nop\n": "line 1: A2",
}
VERDICT = re.compile(r"accepted\n|image I[1-8]\n|refused V([1-9]|1[0-8]|20) in function \d+ at [0-9A-F]{8}\n")


def try_sources(calls, work):
    """Sources with a fault."""
    for source, wanted in FAULTS.items():
        told = run([calls, "assemble", put(f"{work}/fault.s", source)]).out.decode().strip()
        TALLY.same(f"the source {source!r}", told, wanted)


def try_bytes(calls, work):
    """Images with a byte changed or cut off give a verdict, that of the program, and what is still accepted runs to
    its end."""
    whole = bytes_of(f"{EXAMPLES}/echo/echo.img")
    for at in range(0, len(whole), 3):
        for changed in (whole[:at], whole[:at] + bytes([whole[at] ^ 0x41]) + whole[at + 1:]):
            image = put(f"{work}/changed.img", changed)
            came = run([calls, "check", image])
            told = came.out.decode()
            holds = came.status == 0 and VERDICT.fullmatch(told)
            if holds and told == "accepted\n":
                holds = run([calls, "once", image], b"abc").status == 0
            if holds and os.path.exists(PROGRAM):
                ran = run([PROGRAM, "verify", image])
                holds = (ran.out or ran.err) == came.out
            TALLY.check(f"echo.img, changed at {at}", holds, f"wanted a verdict, sandbox's, came {told!r}")


# ---- sanitizers, valgrind, threads, allocators


def try_sanitized(prefix, work, compiler, kind, images):
    """Runs under a sanitizer: in eight threads, or very many and at edges."""
    archive, name = f"{prefix}/lib/libgeyserpan.a", f"{compiler} -fsanitize={kind}"
    filter_image, echo = images
    calls = f"{work}/{compiler}-{kind[:6]}"
    words = [compiler, "-g", "-O1", f"-fsanitize={kind}", f"-I{prefix}/include", f"{SOURCES}/calls.c", archive]
    if run([*words, "-o", calls, "-lpthread"]).status:
        TALLY.skip(f"{name}", "its library")
    elif kind == "thread":
        gives(f"{name}: threads", run(["setarch", "-R", calls, "threads", echo, "8", "200"], seconds=None),
              b"threads\n")
    else:
        # four runs in each round: of a kept image and in pieces, on a board and on the engine
        many = run([calls, "many", filter_image, "50000"], b"HAL", seconds=None)
        gives(f"{name}: 200,000 runs", many, b"IBM", err=b"")
        gives(f"{name}: edges", run([calls, "edges", filter_image], b"HAL!"), b"edges\n", err=b"")


def try_sanitizers(prefix, work, filter_image, echo):
    """The sanitizers of both compilers."""
    for compiler in ("gcc", "clang"):
        if not has(compiler):
            TALLY.skip(f"sanitizers of {compiler}", compiler)
            continue
        for kind in ("address,undefined", "thread"):
            try_sanitized(prefix, work, compiler, kind, (filter_image, echo))


VALGRIND = ["valgrind", "-q", "--error-exitcode=9", "--leak-check=full", "--show-leak-kinds=all"]


def try_valgrind(calls, filter_image):
    """Many runs and edges under valgrind."""
    if not has("valgrind"):
        TALLY.skip("runs under valgrind", "valgrind")
        return
    many = run([*VALGRIND, calls, "many", filter_image, "1000"], b"HAL", seconds=None)
    gives("valgrind: many runs", many, b"IBM")
    gives("valgrind: edges", run([*VALGRIND, calls, "edges", filter_image], b"HAL!", seconds=None), b"edges\n")


def growths_of(way, image):
    """How many growths each call asked for, refused in turn, of runs of an image; None where that fails."""
    ran = run([*way, image, image.replace(".img", ".s")], b"abc" * 100, seconds=None)
    holds = ran.status == 0 and ran.out.endswith(b" growths\n") and not ran.err
    TALLY.check(f"growths by {way[0]}, {os.path.basename(image)}", holds, f"wanted counts, came {shown(tuple(ran))}")
    return [int(it) for it in ran.out.split()[:-1]] if holds else None


def try_growths(prefix, work, images):
    """Refuses each growth in turn: by itself, under AddressSanitizer and under valgrind. Each call asks for some of one
    of the images: of one without data a run on the engine begins with none."""
    words = ["cc", "-g", "-O1", "-Wall", "-Wextra", "-Werror", f"-I{prefix}/include", f"{SOURCES}/growths.c",
             f"{prefix}/lib/libgeyserpan.a"]
    plain, checked = f"{work}/growths", f"{work}/growths-address"
    if not made([*words, "-o", plain], "growths.c"):
        return
    ways = [[plain]] + ([[*VALGRIND, plain]] if has("valgrind") else [])
    if run([*words, "-fsanitize=address,undefined", "-o", checked]).status:
        TALLY.skip("growths under AddressSanitizer", "its library")
    else:
        ways.append([checked])
    for way in ways:
        counts = [growths_of(way, image) for image in images]
        if None not in counts:
            all_of = [sum(it) for it in zip(*counts)]
            TALLY.check(f"growths of each call by {way[0]}", min(all_of) > 0, f"wanted some of each, came {all_of}")
            print("refused in turn:", sum(all_of), "growths")


# ---- images that are shared, terms of a run, names


def hashes_of(path):
    """The SHA-256 of a file's first parts, up to 300 bytes, and of all of it, a line each."""
    whole = bytes_of(path)
    parts = [whole[:length] for length in range(min(300, len(whole)) + 1)]
    parts += [whole] if len(whole) > 300 else []
    return "".join(f"{hashlib.sha256(it).hexdigest()}\n" for it in parts).encode()


def try_hashes(shares):
    """The names of images are those that Python's hashlib gives."""
    for path in (f"{EXAMPLES}/echo/echo.img", f"{SOURCES}/calls.c"):
        gives(f"the hashes of {os.path.basename(path)}", run([shares, "hashes", path]), hashes_of(path))


def try_shares(prefix, work, echo):
    """Shared images, terms of a run and names: as they are, under sanitizers and under valgrind."""
    words = [f"-I{prefix}/include", f"{SOURCES}/shares.c", f"{prefix}/lib/libgeyserpan.a", "-lpthread"]
    shares = f"{work}/shares"
    if not made(["cc", "-g", "-std=c11", *WARNINGS, *words, "-o", shares], "shares.c"):
        return
    try_hashes(shares)
    ways = [([shares], "2000")] + ([([*VALGRIND, shares], "3")] if has("valgrind") else [])
    for compiler in filter(has, ("gcc", "clang")):
        for kind in ("address,undefined", "thread"):
            checked = f"{work}/shares-{compiler}-{kind[:6]}"
            if run([compiler, "-g", "-O1", f"-fsanitize={kind}", *words, "-o", checked]).status:
                TALLY.skip(f"shares.c by {compiler} -fsanitize={kind}", "its library")
            else:
                ways.append((["setarch", "-R", checked], "200"))
    for way, runs in ways:
        gives(f"terms by {way[-1]}", run([*way, "terms", echo], seconds=None), b"terms\n", err=b"")
        gives(f"shared by 8 threads by {way[-1]}", run([*way, "threads", echo, "8", runs], seconds=None),
              b"threads\n", err=b"")


# ---- hosts


def try_filter(words, what, image, **more):
    """A host that runs the filter, on a board and on the engine."""
    for way in ([], ["engine"]):
        try_lines(words, what, image, way, **more)


def try_lines(words, what, image, way, **more):
    """A host that runs the filter, and tells why an image is refused."""
    gives(f"{what} {' '.join(way)}", run([*words, image, *way], REQUESTS, **more), ANSWERS)
    ran = run([*words, f"{EXAMPLES}/refused/V1.img"], REQUESTS, **more)
    wanted = text_of(f"{EXAMPLES}/refused/V1.told").splitlines()[0]
    holds = ran.status != 0 and not ran.out and (wanted in ran.said or "Refused" in ran.said)
    TALLY.check(f"{what}: a refused image", holds, f"wanted {wanted}, came {shown(tuple(ran))}")


def shown_by(prefix):
    """An environment in which pkg-config, the linker of programs and python find the library below a prefix."""
    paths = {"PKG_CONFIG_PATH": f"{prefix}/lib/pkgconfig", "LD_LIBRARY_PATH": f"{prefix}/lib"}
    return {**os.environ, **paths, "PYTHONDONTWRITEBYTECODE": "1"}


def flags_of(prefix):
    """What a compiler is told by pkg-config, or the same where that isn't there."""
    if has("pkg-config"):
        return run(["pkg-config", "--cflags", "--libs", "geyserpan"], env=shown_by(prefix)).out.decode().split()
    TALLY.skip("flags of pkg-config, which are given by hand", "pkg-config")
    return [f"-I{prefix}/include", f"-L{prefix}/lib", "-lgeyserpan"]


WARNINGS = ["-O2", "-Wall", "-Wextra", "-Wpedantic", "-Werror"]


def try_c(prefix, embed, work, image):
    """The hosts in C, linked with the archive and with the shared object."""
    given = b"abc" * 300
    for compiler in ("gcc", "clang"):
        if not has(compiler):
            TALLY.skip(f"embed/c by {compiler}", compiler)
            continue
        words = [compiler, "-std=c11", "-D_POSIX_C_SOURCE=200809L", *WARNINGS, f"-I{prefix}/include"]
        for name in ("filter", "conversation"):
            ends = [f"-L{prefix}/lib", "-l:libgeyserpan.a", "-o", f"{work}/{compiler}-{name}"]
            made([*words, f"{embed}/c/{name}.c", *ends], f"embed/c/{name}.c by {compiler}")
        try_filter([f"{work}/{compiler}-filter"], f"embed/c by {compiler}", image)
        for sizes in (["1", "1"], ["7", "3"], []):
            came = run([f"{work}/{compiler}-conversation", f"{EXAMPLES}/echo/echo.img", *sizes], given)
            gives(f"{compiler}: a conversation by {sizes}", came, given)
    words = ["cc", f"{embed}/c/filter.c", *flags_of(prefix), "-o", f"{work}/shared-filter"]
    if made(words, "embed/c/filter.c by pkg-config"):
        try_filter([f"{work}/shared-filter"], "embed/c with the shared object", image, env=shown_by(prefix))


def try_cxx(prefix, embed, work, image):
    """The hosts in C++, and what the header gives and refuses."""
    given, env = b"one\n\ntwo " * 100, shown_by(prefix)
    for compiler in ("g++", "clang++"):
        if not has(compiler):
            TALLY.skip(f"embed/c++ by {compiler}", compiler)
            continue
        for name in ("filter", "conversation"):
            words = [compiler, "-std=c++17", *WARNINGS, f"{embed}/c++/{name}.cpp", *flags_of(prefix)]
            made([*words, "-o", f"{work}/{compiler}-{name}"], f"embed/c++/{name}.cpp by {compiler}")
        try_lines([f"{work}/{compiler}-filter"], f"embed/c++ by {compiler}", image, [], env=env)
        for way in ([], ["7"]):
            came = run([f"{work}/{compiler}-conversation", f"{EXAMPLES}/echo/echo.img", *way], given, env=env)
            gives(f"{compiler}: a conversation in C++ {' '.join(way)}", came, given)
        try_wrapped(prefix, work, [compiler, "-std=c++20", *WARNINGS])
        for kind in ("address,undefined", "thread"):
            try_wrapped(prefix, work, [compiler, "-std=c++17", "-g", "-O1", f"-fsanitize={kind}"])


def try_wrapped(prefix, work, words):
    """What the header for C++ gives and refuses, eight threads on one image, and runs that are stopped."""
    wrapped, name = f"{work}/{words[0]}-wrapped", f"wrapped.cpp by {words[0]} {words[-1]}"
    words = [*words, f"-I{prefix}/include", f"{SOURCES}/wrapped.cpp", f"{prefix}/lib/libgeyserpan.a", "-lpthread"]
    ran = run([*words, "-o", wrapped], seconds=None)
    if ran.status and "-fsanitize" in name and "cannot find" in ran.said:
        TALLY.skip(name, "its library")
        return
    if not TALLY.check(name, ran.status == 0, f"wanted that it is built, came {ran.said[-1500:]}"):
        return
    echo, refused = f"{EXAMPLES}/echo/echo.img", f"{EXAMPLES}/refused/V1"
    line = text_of(f"{refused}.told").splitlines()[0]
    by_objects = [["native", echo, *OBJECTS]] if OBJECTS else []
    for way in (["answers", echo, f"{refused}.img", line], ["threads", echo, "200"],
                ["stops", echo, f"{EXAMPLES}/deep/deep.img"], *by_objects):
        ran = run(["setarch", "-R", wrapped, *way], seconds=None)
        gives(f"{name}: {way[0]}", ran, f"{way[0]}\n".encode())


# Objects of echo.img and of hello.img, where they can be made.
OBJECTS = []
# What the hosts of sessions echo.
SENTENCE = b"To be, or not to be."


def try_rust(prefix, embed, work, image):
    """The hosts in Rust, and the crate's own tests, layout and lints."""
    if not has("cargo"):
        TALLY.skip("embed/rust", "cargo")
        return
    env = {**shown_by(prefix), "CARGO_TARGET_DIR": f"{work}/cargo", "GEYSERPAN_EXAMPLES": EXAMPLES,
           "GEYSERPAN_LIB_DIR": f"{prefix}/lib"}
    here = {"cwd": f"{embed}/rust", "env": env}
    if not made(["cargo", "build", "--offline", "--release", "--examples"], "embed/rust", **here):
        return
    hosts = f"{work}/cargo/release/examples"
    try_lines([f"{hosts}/filter"], "embed/rust", image, [])
    came = run([f"{hosts}/sessions", f"{EXAMPLES}/echo/echo.img", "1000"], SENTENCE)
    gives("embed/rust: 1,000 sessions", came, SENTENCE)
    passes(["cargo", "test", "--offline"], "embed/rust's tests", **here)
    for tool, words in {"clippy": ["--offline", "--all-targets", "--", "-D", "warnings"], "fmt": ["--check"]}.items():
        if run(["cargo", tool, "--version"]).status:
            TALLY.skip(f"embed/rust by cargo {tool}", f"cargo {tool}")
        else:
            passes(["cargo", tool, *words], f"embed/rust by cargo {tool}", **here)
    if run(["cargo", "+nightly", "--version"]).status:
        TALLY.skip("embed/rust's tests under AddressSanitizer", "a nightly toolchain")
        return
    words = ["cargo", "+nightly", "test", "--offline", "--tests", "--target", "x86_64-unknown-linux-gnu"]
    sanitized = {**env, "RUSTFLAGS": "-Zsanitizer=address"}
    passes(words, "embed/rust's tests under AddressSanitizer", cwd=f"{embed}/rust", env=sanitized)


def python_site(prefix, embed, work, *flags):
    """A folder in which python finds the package, its module compiled; None where it can't be compiled."""
    site, source = f"{work}/site{len(flags)}", f"{embed}/python/src/geyserpan"
    shutil.copytree(source, f"{site}/geyserpan", ignore=shutil.ignore_patterns("__pycache__"))
    include = f"-I{sysconfig.get_paths()['include']}"
    words = ["cc", "-std=c11", "-O2", "-Wall", "-Wextra", "-Werror", "-DPy_LIMITED_API=0x030B0000", include,
             f"-I{prefix}/include", *flags, "-shared", "-fPIC", f"{source}/_native.c", f"{prefix}/lib/libgeyserpan.a"]
    if not os.path.exists(f"{include[2:]}/Python.h"):
        TALLY.skip("embed/python", "Python.h")
        return None
    return site if made([*words, "-o", f"{site}/geyserpan/_native.abi3.so"], "embed/python's module") else None


def try_pytest(embed, site, what, **more):
    """The package's own tests."""
    env = {**os.environ, "PYTHONPATH": site, "PYTHONDONTWRITEBYTECODE": "1", "GEYSERPAN_EXAMPLES": EXAMPLES, **more}
    words = [sys.executable, "-m", "pytest", "-q", "-p", "no:cacheprovider", f"{embed}/python/tests"]
    ran = run(words, env=env, seconds=None)
    TALLY.check(what, ran.status == 0, f"wanted that all pass, came {ran.said[-3000:]}")


def try_python(prefix, embed, work, image):
    """The package for Python: its examples and its tests, also under AddressSanitizer, and its types."""
    site = python_site(prefix, embed, work)
    try_dask(embed, work, site)
    if not site:
        return
    env = {**os.environ, "PYTHONPATH": site, "PYTHONDONTWRITEBYTECODE": "1"}
    try_lines([sys.executable, f"{embed}/python/filter.py"], "embed/python", image, [], env=env)
    if run([sys.executable, "-m", "pytest", "--version"]).status:
        TALLY.skip("embed/python's tests", "pytest")
        return
    try_pytest(embed, site, "embed/python's tests")
    asan = run(["cc", "-print-file-name=libasan.so"]).out.decode().strip()
    checked = os.path.isabs(asan) and python_site(prefix, embed, work, "-g", "-fsanitize=address")
    if checked:
        try_pytest(embed, checked, "embed/python's tests under AddressSanitizer", LD_PRELOAD=asan,
                   ASAN_OPTIONS="detect_leaks=0")
    if run([sys.executable, "-m", "mypy", "--version"]).status:
        TALLY.skip("embed/python's types", "mypy")
    else:
        ran = run([sys.executable, "-m", "mypy", "--cache-dir=/dev/null"], cwd=f"{embed}/python", seconds=None)
        TALLY.check("embed/python's types", ran.status == 0, f"wanted none that is wrong, came {ran.said}")


def try_go(prefix, embed, work, image):
    """The hosts in Go, and the package's own tests, also with the race detector."""
    if not has("go") or not has("pkg-config"):
        TALLY.skip("embed/go", "go or pkg-config")
        return
    env = {**shown_by(prefix), "GOCACHE": f"{work}/go-cache", "GOPATH": f"{work}/go", "GOPROXY": "off",
           "GEYSERPAN_EXAMPLES": EXAMPLES}
    here = {"cwd": f"{embed}/go", "env": env}
    for name in ("filter", "sessions"):
        made(["go", "build", "-o", f"{work}/go-{name}", f"./{name}"], f"embed/go: {name}", **here)
    try_lines([f"{work}/go-filter"], "embed/go", image, [])
    came = run([f"{work}/go-sessions", f"{EXAMPLES}/echo/echo.img", "8"], SENTENCE)
    gives("embed/go: 8 sessions side by side", came, SENTENCE)
    passes(["go", "vet", "./..."], "embed/go by go vet", **here)
    TALLY.same("embed/go by gofmt", run(["gofmt", "-l", "."], cwd=f"{embed}/go").said, "")
    for way in ([], ["-race"]):
        passes(["go", "test", "-count=1", *way, "./..."], f"embed/go's tests {' '.join(way)}", **here)
    checked = {**env, "GODEBUG": "cgocheck=2"}
    passes(["go", "test", "-count=1", "."], "embed/go's tests with cgocheck=2", cwd=f"{embed}/go", env=checked)


# ---- clusters

# Ends with 0 where its input begins with an E, after 4,000 rounds of three turns.
MATCHER = """.services exit,get
.function main,leaf,0,0,12011
.fuel 12011
 sethi 3,%o1
 or %o1,928,%o1
.block loop
.cell %o1,1,4000,0
.fuel 9
.term %o1,3
 deccc %o1
 bne loop
 nop
.block after
.fuel 9
 ta 1
 sub %o0,69,%o0
 ta 0
"""


def of_cluster(words, kills, **more):
    """The output of a command that tells the numbers of its workers on standard error; where `kills`, of which one is
    killed once there is some output, while the command goes on."""
    streams = {"stdout": subprocess.PIPE, "stderr": subprocess.PIPE, "bufsize": 0}
    with subprocess.Popen(words, **streams, **more) as ran:
        told = next((it for it in ran.stderr if it.startswith(b"workers: ")), b"workers: ").split()[1:]
        first = ran.stdout.read(1)
        if kills and told:
            TALLY.check("a worker is killed in the middle", ran.poll() is None, "wanted that it goes on, came its end")
            os.kill(int(told[0]), signal.SIGKILL)
        return first + ran.communicate()[0]


def try_dask(embed, work, site):
    """An image over the lines of a file, on a cluster of Dask, also with a worker killed."""
    pythons = [it for it in (sys.executable, "/usr/bin/python3") if not run([it, "-c", "import distributed"]).status]
    if not site or not pythons:
        TALLY.skip("embed/python/examples/dask_map.py", "the package, or Debian's python3-distributed")
        return
    image = put(f"{work}/matcher.img", run([f"{work}/calls", "assemble", put(f"{work}/matcher.s", MATCHER)]).out)
    dice = random.Random(7)
    lines = [b"%c line %d, %x\n" % (dice.choice(b"EIWe"), it, dice.getrandbits(200)) for it in range(20000)]
    words = [pythons[0], f"{embed}/python/examples/dask_map.py", image, put(f"{work}/lines", b"".join(lines))]
    env = {**os.environ, "PYTHONPATH": site, "PYTHONDONTWRITEBYTECODE": "1"}
    for kills in (False, True):
        came = of_cluster(words, kills, cwd=work, env=env)
        holds = came == b"".join(it for it in lines if it.startswith(b"E"))
        TALLY.check(f"dask_map.py{', a worker killed' * kills}", holds,
                    f"wanted the lines that begin with E, came {shown(came[-200:])}")


# ---- pages

# What a README of a wrapper prints last: turns are 14 and 16 a byte, as examples/echo has them.
SHOWN = b"To be, or not to be., exit word 0, 334 turns\n"


def home_of(prefix, work):
    """The environment of a user at whose home `geyserpan` is that prefix."""
    if not os.path.lexists(f"{work}/geyserpan"):
        os.symlink(prefix, f"{work}/geyserpan")
    kept = {"CARGO_HOME": "~/.cargo", "RUSTUP_HOME": "~/.rustup"}
    found = {name: os.environ.get(name, os.path.expanduser(path)) for name, path in kept.items()}
    return {"HOME": work, "PATH": os.environ["PATH"], **found}


def try_readme(prefix, embed, work, name, tool):
    """The host that the README of a wrapper shows, in a folder that has nothing but its files and an image."""
    if not has(tool):
        TALLY.skip(f"embed/{name}/README.md", tool)
        return
    text, folder = text_of(f"{embed}/{name}/README.md"), f"{work}/readme-{name}"
    for path, body in re.findall(r"^```\w+ (\S+)\n(.*?)^```$", text, re.M | re.S):
        os.makedirs(os.path.dirname(f"{folder}/{path}"), exist_ok=True)
        put(f"{folder}/{path}", body)
    shutil.copy(f"{EXAMPLES}/echo/echo.img", folder)
    script = re.search(r"^```sh\n(.*?)^```$", text, re.M | re.S)[1]
    env = {**home_of(prefix, work), "EMBED": embed}
    ran = run(["bash", "-eu", "-c", script], cwd=folder, env=env, seconds=None)
    TALLY.check(f"embed/{name}/README.md", ran.status == 0 and ran.out.endswith(SHOWN),
                f"wanted {shown(SHOWN)} at the end, came status {ran.status}: {ran.said[-1500:]}")


def try_page(prefix, work):
    """The host that docs/embed/c.md shows, built and run by the commands there, in a folder that has nothing but it
    and an image."""
    text, folder = text_of(f"{TOP}/docs/embed/c.md"), f"{work}/page"
    host, script = (re.search(rf"^```{it}\n(.*?)^```$", text, re.M | re.S)[1] for it in ("c", "sh"))
    os.makedirs(folder)
    shutil.copy(f"{EXAMPLES}/echo/echo.img", folder)
    put(f"{folder}/host.c", host)
    ran = run(["bash", "-eu", "-c", script], cwd=folder, env=home_of(prefix, work))
    gives("docs/embed/c.md", ran, b"abc\nTo be, or not to be.\n", err=b"")


def try_hosts(prefix, embed, work, image):
    """The hosts of a folder, and that of the page."""
    if has("pkg-config"):
        try_page(prefix, work)
    try_c(prefix, embed, work, image)
    try_cxx(prefix, embed, work, image)
    try_rust(prefix, embed, work, image)
    try_python(prefix, embed, work, image)
    try_go(prefix, embed, work, image)
    for name, tool in {"c++": "cmake", "rust": "cargo", "go": "go"}.items():
        try_readme(prefix, embed, work, name, tool)


# ---- cost


def processes(image, given, count):
    """The microseconds of the processor that a run as a process takes."""
    used = lambda: sum(resource.getrusage(resource.RUSAGE_CHILDREN)[:2])
    begun = used()
    for _ in range(count):
        subprocess.run([PROGRAM, "run", image], input=given, stdout=subprocess.DEVNULL, check=True)
    return (used() - begun) / count * 1e6


# The kinds of runs that `calls cost` makes, and of calls before a run.
KINDS = ("once", "kept", "restarted", "engine", "begun")
BEFORE = ("opened", "readied")
# Programs from C: one without data, and one of a hundred words with some 400 bytes of them.
FROM_C = ("upper", "control")
SESSIONS = 10000


def instructions(calls, image, given, kind):
    """The instructions of a run of this kind, of two runs of `calls` under valgrind that differ by 100."""
    counts = []
    for runs in (20, 120):
        words = ["valgrind", "--tool=callgrind", "--callgrind-out-file=/dev/null", calls, "cost", image, str(runs),
                 kind]
        counts.append(int(re.search(rb"Collected : (\d+)", run(words, given, None).err)[1]))
    return (counts[1] - counts[0]) / 100


def measure_image(calls, image, given, kinds):
    """A line for each kind of call of an image."""
    runs = "20000" if len(given) < 9 else "1000"
    print(f"{os.path.basename(image)}, {len(given)} bytes of input:")
    for kind in kinds:
        time = float(run([calls, "cost", image, runs, kind], given, None).out)
        more = f", {1e6 / time:,.0f} sessions a second" if kind == "restarted" else ""
        counted = f", {instructions(calls, image, given, kind):,.0f} instructions" if has("valgrind") else ""
        print(f"  {kind}: {time:.2f} microseconds{counted}{more}", flush=True)
    if kinds is not BEFORE and os.path.exists(PROGRAM):
        print(f"  process: {processes(image, given, 100):.0f} microseconds")


def measure_from_c(calls, work):
    """The calls before a run of programs from C, and the memory of their sessions; nothing where they can't be made."""
    for name in FROM_C:
        image = f"{work}/{name}.img"
        ran = run([f"{TOP}/cc", f"{EXAMPLES}/c/{name}.c", "-o", image], b"", 600)
        if ran.status:
            print(f"{name}.c: {ran.said.strip().splitlines()[-1]}")
            return
        facts = run([calls, "facts", image]).out.decode().split()
        measure_image(calls, image, b"", BEFORE)
        kept = int(run([calls, "parked", image, str(SESSIONS)], b"", None).out)
        print(f"  {facts[2]} words, {facts[3]} bytes of data: {SESSIONS:,} sessions keep {kept / 1e6:.0f} MB", flush=True)


def calls_in(prefix, work, *flags):
    """Builds the program that makes the library's calls, and the image of the lesson's filter; None where it isn't
    built."""
    calls, filter_image = f"{work}/calls", f"{work}/filter.img"
    words = ["cc", *flags, f"-I{prefix}/include", f"{SOURCES}/calls.c", f"{prefix}/lib/libgeyserpan.a"]
    if not made([*words, "-o", calls, "-lpthread"], "calls.c"):
        return None, None
    put(filter_image, run([calls, "assemble", f"{EXAMPLES}/lessons/filter.s"]).out)
    return calls, filter_image


def laid_out_in(prefix):
    """Whether tools/release/library lays the library out."""
    ran = run([LIBRARY, prefix], seconds=None)
    return TALLY.check("tools/release/library", ran.status == 0,
                       f"wanted that it lays all out, came {ran.said[-1500:]}")


def measure(prefix, work):
    """Tells what runs cost, and the library's size."""
    if not laid_out_in(prefix):
        return FAILED
    tell_size(prefix)
    calls, filter_image = calls_in(prefix, work, "-O2")
    if not calls:
        return FAILED
    hello, echo = (f"{EXAMPLES}/{it}/{it}.img" for it in ("hello", "echo"))
    for image, given in ((hello, b""), (filter_image, b"HAL"), (echo, b"abc" * 300)):
        measure_image(calls, image, given, KINDS + BEFORE)
    measure_from_c(calls, work)
    return PASSED


# ---- all of it


def try_installed(prefix, work):
    """A release that was installed."""
    for name in ("include/geyserpan.h", "lib/libgeyserpan.a", "lib/pkgconfig/geyserpan.pc",
                 "share/geyserpan/embed/c/filter.c"):
        if not TALLY.check(name, os.path.exists(f"{prefix}/{name}"), "wanted it in the release, came none"):
            return
    is_same = text_of(f"{prefix}/include/geyserpan.h") == text_of(f"{TOP}/include/geyserpan.h")
    TALLY.check("include/geyserpan.h", is_same, "wanted this tree's, came another one")
    try_symbols(prefix)
    try_data(prefix)
    calls, filter_image = calls_in(prefix, work)
    if calls:
        try_hosts(prefix, f"{prefix}/share/geyserpan/embed", work, filter_image)


def try_all(prefix, work):
    """The library of this tree."""
    if not laid_out_in(prefix):
        return
    try_symbols(prefix)
    try_data(prefix)
    try_layout(work)
    echo = f"{EXAMPLES}/echo/echo.img"
    calls, filter_image = calls_in(prefix, work, "-g", "-std=c11", "-D_POSIX_C_SOURCE=200809L", *WARNINGS)
    if not calls:
        return
    TALLY.check("a host that doesn't name native code", not names_of(calls) & {"geyserpan_native", "dlopen"},
                "wanted that it has none of it")
    gives("edges", run([calls, "edges", filter_image], b"HAL!"), b"edges\n")
    ran = run([calls, "lengths", echo, "1000"], b"y\n" * 500, seconds=None)
    gives("lengths of 1 to 1,000 bytes", ran, b"lengths\n")
    try_examples(calls, work)
    try_sources(calls, work)
    try_bytes(calls, work)
    gives("threads", run([calls, "threads", echo, "8", "2000"], seconds=None), b"threads\n")
    gives("many runs", run([calls, "many", filter_image, "50000"], b"HAL", seconds=None), b"IBM")
    try_growths(prefix, work, [echo, f"{EXAMPLES}/crc/crc.img"])
    try_shares(prefix, work, echo)
    try_sanitizers(prefix, work, filter_image, echo)
    try_valgrind(calls, filter_image)
    try_natives(TALLY, prefix, work)
    OBJECTS.extend(objects_for_hosts(TALLY, work) or [])
    if OBJECTS:
        os.environ["GEYSERPAN_OBJECT"] = OBJECTS[0]
    else:
        TALLY.skip("native code in C++, Rust, Python and Go", "the program of ./native, or a C compiler")
    try_hosts(prefix, f"{TOP}/embed", work, filter_image)


def main(words):
    reader = Words(__doc__)
    reader.add_argument("--cost", action="store_true")
    reader.add_argument("--installed", action="store_true")
    reader.add_argument("prefix", nargs="?")
    asked = reader.parse_args(words)
    if asked.installed and (asked.cost or not asked.prefix):
        reader.error("--installed wants a PREFIX alone")
    with tempfile.TemporaryDirectory() as work:
        prefix = os.path.abspath(asked.prefix) if asked.prefix else f"{work}/release"
        if asked.cost:
            return measure(prefix, work)
        (try_installed if asked.installed else try_all)(prefix, work)
    return TALLY.end()


if __name__ == "__main__":
    sys.exit(main(sys.argv[1:]))
