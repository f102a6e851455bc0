#!/usr/bin/env python3
"""usage: tests/release/run.py

Makes a release of this tree as it is committed, and its package for Debian; installs it below a folder of its own, and
runs it from another folder without the tree and without a kit: its programs, the examples of its manual, what shells
complete; makes it once more and compares the bytes; tries to install one that was changed; takes it away again; and
installs, tries and removes the package below a folder of its own. The gate isn't run: it is told what a gate that
passed prints, so the file that is made is thrown away. The programs have to stand built, or are built first; the
library for C has to stand."""
import hashlib
import os
import re
import shutil
import sys
import tempfile

sys.dont_write_bytecode = True
TESTS = os.path.dirname(os.path.dirname(os.path.abspath(__file__)))
sys.path.insert(0, f"{TESTS}/lib")
from run import EXAMPLES, TOP, built, bytes_of, has, put, run, text_of
from tally import NOT_BUILT, Tally, Words

VERSION = text_of(f"{TOP}/VERSION").strip()
NAME, PACKAGE = f"geyserpan-{VERSION}-x86_64-linux", f"geyserpan_{VERSION}_amd64.deb"
LIBRARY = f"{TOP}/crates/geyserpan/out/libgeyserpan.a"
# What stands built, and is taken along.
BUILT = [f"crates/{it}/out/{it}{end}" for it in ("sbx_tool", "inspect", "host", "fit", "native", "board")
         for end in ("", ".made")]
BUILT += [f"crates/geyserpan/out/libgeyserpan.a{end}" for end in ("", ".made")]
MAKE = "tools/release/make"
VECTORS = ("words-and-results.txt", "verdicts-and-runs.txt", "turns-and-walks.txt", "traces/deep.4", "README.md")
PAGES = """sandbox.1 inspect.1 host.1 fit.1 native.1 board.1 geyserpan-cc.1 geyserpan-c++.1 geyserpan-image.5
    geyserpan-source.5""".split()
# What the examples of a page need: programs, one of which has to be there, and what stands for them.
NEEDED = {"geyserpan-cc.1": (("sparc64-linux-gnu-gcc", "clang"), "a compiler for SPARC"),
          "geyserpan-c++.1": (("sparc64-linux-gnu-g++",), "Debian's package g++-sparc64-linux-gnu"),
          "native.1": (("gcc", "clang", "tcc"), "a C compiler")}
NAME_C = """#include "plug.h"
static char name[32];
int main(void) {
    int n = get();
    for (int i = 0; i < n; i++) name[i] = get();
    for (int i = n - 1; i >= 0; i--) put(name[i]);
    return 0;
}
"""
HI = '#include "plug.h"\nint main(void) { put(72); put(105); return 0; }\n'


class Place:
    """A clone that a release is made of, and where it is installed, away from the tree."""

    def __init__(self, tally, work):
        self.tally, self.work, self.clone, self.prefix = tally, work, f"{work}/clone", f"{work}/prefix"
        self.share = f"{self.prefix}/share/geyserpan"
        self.unpacked = f"{work}/{NAME}"

    def lay_out(self):
        """A clone, since what differs from the commit has no release, with what stands built."""
        os.mkdir(f"{self.work}/elsewhere")
        cloned = run(["git", "clone", "-q", TOP, self.clone], seconds=None)
        if cloned.status:
            raise SystemExit(cloned.said)
        for path in BUILT:
            os.makedirs(os.path.dirname(f"{self.clone}/{path}"), exist_ok=True)
            shutil.copy2(f"{TOP}/{path}", f"{self.clone}/{path}")

    def make(self, *words):
        """Makes a release, or doesn't."""
        return run([MAKE, *words], cwd=self.clone, seconds=None)

    def apart(self, *words, given=b""):
        """Runs a command of the release as someone would who has neither the tree nor a kit."""
        path = f"{self.prefix}/bin:/usr/bin:/bin"
        return run(["env", "-i", f"PATH={path}", *words], given, cwd=f"{self.work}/elsewhere")

    def has(self, *paths):
        """Files of the installed release, none of which is empty."""
        for path in paths:
            at = f"{self.prefix}/{path}"
            self.tally.check(f"installed: {path}", os.path.exists(at) and os.path.getsize(at),
                             "wanted a file, came none")


def try_making(place, tally):
    """A release is made where the gate passed, and the same tree gives the same bytes."""
    passed = put(f"{place.work}/gate", "12 passed, 0 failed\n")
    broken = put(f"{place.work}/broken", "12 passed, 1 failed\n")
    for name, words, status, told in (
        ("a gate that failed", (VERSION, "--gate", broken), 1, "the gate has not passed"),
        ("another version than the tree's", ("9.9.9", "--gate", passed), 1, "doesn't say 9.9.9"),
        ("no words", (), 3, "usage:"),
    ):
        ran = place.make(*words)
        tally.check(name, ran.status == status and told in ran.said, f"wanted {status} and '{told}', came {ran}")
    names, files = [f"{NAME}.tar.gz", PACKAGE][:2 if has("dpkg-deb") else 1], []
    for _ in range(2):
        ran = place.make(VERSION, "--gate", passed, *(["--deb"] if len(names) == 2 else []))
        tally.check(MAKE, ran.status == 0, f"wanted a release, came {ran}")
        files.append([bytes_of(f"{place.clone}/out/{it}") for it in names] if ran.status == 0 else None)
    tally.check("bytes of the same tree", files[0] == files[1], "wanted the same, came others")
    return bool(files[0])


def try_installing(place, tally):
    """What is unpacked is installed; the clone is gone from then on."""
    ran = run(["tar", "-xzf", f"{place.clone}/out/{NAME}.tar.gz", "-C", place.work])
    tally.check("tar", ran.status == 0, ran.said)
    ran = run(["./install", place.prefix], cwd=place.unpacked)
    tally.check("install", ran.status == 0, ran.said)
    if has("dpkg-deb"):
        shutil.move(f"{place.clone}/out/{PACKAGE}", place.work)
    shutil.rmtree(place.clone)


def try_programs(place, tally):
    """The installed programs, away from the tree."""
    hello, echo = (f"{place.share}/examples/{it}/{it}" for it in ("hello", "echo"))
    tally.same("sandbox run hello", place.apart("sandbox", "run", f"{hello}.img").out, b"Hi")
    tally.same("sandbox run echo", place.apart("sandbox", "run", f"{echo}.img", given=b"abc").out, b"abc")
    tally.same("inspect image hello", place.apart("inspect", "image", f"{hello}.img").out,
               bytes_of(f"{EXAMPLES}/hello/hello.told"))
    ran = place.apart("inspect", "page", "--source", f"{hello}.s", f"{hello}.img")
    tally.check("inspect page hello", ran.status == 0 and b"\nvaccepted\n" in ran.out,
                f"wanted a page, came {ran.said[:300]}")
    tally.same("host hello", place.apart("host", f"{hello}.img").out, b"Hi")
    ran = place.apart("board", f"{hello}.img", "hello.elf")
    tally.same("board hello", (ran.status, bytes_of(f"{place.work}/elsewhere/hello.elf")[:4]), (0, b"\x7fELF"))
    tally.same("native run", place.apart("native", "run", f"{hello}.img").out, b"Hi")
    tally.same("native run, counted", place.apart("native", "run", "--counts", "4", f"{hello}.img").said,
               "Hi00000000 16 0 0\n")
    ran = place.apart("inspect", "states", "--from", "2", "--limit", "3", f"{hello}.img")
    tally.check("inspect states --from", ran.out.startswith(b"! behind turn 2\n"), ran.said[:300])
    for name, words in (("inspect", ("gdb", "--help")), ("inspect", ("page", "--help")), ("native", ("run", "--help"))):
        tally.same(f"{name} {' '.join(words)}", place.apart(name, *words).status, 0)
    for name in ("inspect", "host", "fit", "native", "board", "geyserpan-cc", "geyserpan-c++"):
        tally.same(f"{name} --version", place.apart(name, "--version").out.split(b"\n")[0],
                   f"version {VERSION}".encode())
    if has("sparc64-linux-gnu-gcc") or has("clang"):
        put(f"{place.work}/elsewhere/hi.c", HI)
        tally.same("geyserpan-cc", place.apart("geyserpan-cc", "hi.c", "-o", "hi.img").out, b"accepted\n")
        tally.same("sandbox run hi", place.apart("sandbox", "run", "hi.img").out, b"Hi")
        try_maps(place, tally)
    else:
        tally.skip("the way from C", "a compiler for SPARC")
    try_files(place, tally)


def try_maps(place, tally):
    """What --map tells of the end of a run of C, by each program that runs it."""
    put(f"{place.work}/elsewhere/name.c", NAME_C)
    tally.same("geyserpan-cc --map", place.apart("geyserpan-cc", "name.c", "--map", "-o", "name.img").status, 0)
    for name in ("inspect", "host", "native"):
        ran = place.apart(name, "run", "--map", "name.map", "name.img", given=b"\xff" + 40 * b"a")
        tally.check(f"{name} run --map", "name.c:5: the index into name" in ran.said, ran.said[:300])


def try_files(place, tally):
    """`inspect --version FILE` tells which file of the release one is."""
    strange = put(f"{place.work}/strange", "x")
    for path, status, told in ((f"{place.prefix}/bin/sandbox", 0, "bin/sandbox"), (strange, 1, "no file")):
        ran = place.apart("inspect", "--version", path)
        tally.same(f"inspect --version {os.path.basename(path)}", (ran.status, ran.out.decode().split("\n")[3:4]),
                   (status, [f"{path} is {told} of this release"]))


def try_contents(place, tally):
    """The library, vectors, pages and sums of the installed release, and hosts that are built against it."""
    place.has(*(f"share/geyserpan/embed/leon/{it}" for it in ("geyserpan_leon.h", "geyserpan_leon.c", "enter.s")))
    place.has("include/geyserpan.h", "lib/libgeyserpan.a", "lib/libgeyserpan.so.1")
    place.has(*(f"share/geyserpan/vectors/{it}" for it in VECTORS))
    place.has(*(f"share/man/man{it[-1]}/{it}" for it in PAGES))
    ran = run([sys.executable, f"{TESTS}/embed/run.py", "--installed", place.prefix], seconds=None)
    tally.check("embed --installed", ran.status == 0, ran.said[-800:])
    lines = text_of(f"{place.share}/SHA256SUMS").splitlines()
    sums = "".join(f"{it}\n" for it in lines if not it.endswith("  install"))
    ran = run(["sha256sum", "--quiet", "--check"], sums.encode(), cwd=place.prefix)
    tally.check("sums of installed files", ran.status == 0, ran.said)


def try_manual(place, tally):
    """Each page of a program has its sections, and its examples run on the examples of the release."""
    folder = f"{place.work}/elsewhere/examples"
    shutil.copytree(f"{place.share}/examples", folder)
    for page in (it for it in PAGES if it.endswith(".1")):
        text = text_of(f"{place.prefix}/share/man/man1/{page}")
        sections = re.findall(r"^\.SH (.*)$", text, re.M)
        missing = [it for it in ("SYNOPSIS", "DESCRIPTION", "EXIT STATUS", "EXAMPLES") if it not in sections]
        tally.same(f"{page}: sections that it lacks", missing, [])
        commands = [it.replace("\\-", "-") for it in re.findall(r"^\$ (.*)$", text, re.M)]
        tally.check(f"{page}: examples", commands, "wanted some, came none")
        tools, name = NEEDED.get(page, (("sh",), ""))
        if not any(map(has, tools)):
            tally.skip(f"the examples of {page}", name)
            continue
        for command in commands:
            ran = place.apart("sh", "-c", f"cd {folder} && {command}")
            tally.check(f"{page}: {command}", ran.status == 0, ran.said[:300])


def try_completions(place, tally):
    """Each shell that is there reads what is completed; bash completes commands and options."""
    places = {"bash": "bash-completion/completions/{}", "zsh": "zsh/site-functions/_{}",
              "fish": "fish/vendor_completions.d/{}.fish"}
    for shell, form in places.items():
        paths = [f"{place.prefix}/share/{form.format(it.removesuffix('.1'))}" for it in PAGES if it.endswith(".1")]
        if not has(shell):
            tally.skip(f"what {shell} completes", f"Debian's package {shell}")
            continue
        for path in paths:
            ran = run([shell, "-n", path])
            tally.check(f"{shell} -n {os.path.basename(path)}", ran.status == 0 and os.path.getsize(path), ran.said)
    for word, at, wanted in (("cy", 1, b"cycles\n"), ("--win", 2, b"--windows\n")):
        script = f". {place.prefix}/share/bash-completion/completions/inspect; COMP_CWORD={at} COMP_WORDS=(inspect " \
                 f"{'' if at == 1 else 'run '}{word}); _inspect; printf '%s\\n' \"${{COMPREPLY[@]}}\""
        tally.same(f"inspect {word}: completed", run(["bash", "-c", script], cwd=place.prefix).out, wanted)


def try_inventory(place, tally):
    """The list of what is inside has each file with its sums, and the kit's libraries."""
    text = text_of(f"{place.share}/geyserpan.spdx")
    told = dict(re.findall(r"^FileName: \./(.*)\nSPDXID: .*\nFileChecksum: SHA1: .*\nFileChecksum: SHA256: (\w+)$", text,
                           re.M))
    apart = ("SHA256SUMS", "share/geyserpan/geyserpan.spdx")
    there = {os.path.relpath(f"{at}/{it}", place.unpacked): f"{at}/{it}"
             for at, _, files in os.walk(place.unpacked) for it in files}
    wanted = {it: hashlib.sha256(bytes_of(path)).hexdigest() for it, path in there.items() if it not in apart}
    tally.check("files of the list", told == wanted, f"differ: {sorted(set(told.items()) ^ set(wanted.items()))[:4]}")
    names = re.findall(r"^PackageName: (.*)$", text, re.M)
    tally.check("the kit's libraries", {"geyserpan", "std", "clap", "byteorder", "bitflags", "arrayvec"} <= {*names},
                f"came {names}")


def try_taking_away(place, tally):
    """DESTDIR stands in front of the prefix; what was installed is taken away, and what was changed stays."""
    stage = f"{place.work}/stage"
    os.makedirs(f"{stage}/usr/local/bin")
    kept = put(f"{stage}/usr/local/bin/other", "x")
    ran = run([f"{place.unpacked}/install", "/usr/local"], env={**os.environ, "DESTDIR": stage})
    tally.check("install with DESTDIR", ran.status == 0 and os.path.exists(f"{stage}/usr/local/bin/sandbox"), ran.said)
    changed = put(f"{stage}/usr/local/share/doc/geyserpan/README.md", "mine")
    ran = run([f"{place.unpacked}/install", "--uninstall", "/usr/local"], env={**os.environ, "DESTDIR": stage})
    left = sorted(f"{at}/{it}" for at, _, files in os.walk(stage) for it in files)
    tally.same("what stays", (ran.status, left), (0, sorted([kept, changed])))
    tally.check("it says so", f"{changed} was changed: it stays" in ran.said, ran.said)
    ran = run([f"{place.unpacked}/install", "--uninstall", f"{place.work}/nothing"])
    tally.check("nothing to take away", ran.status == 1 and "no release stands below" in ran.said, ran.said)


def try_package(place, tally):
    """The package, installed below a folder of its own, tried there and removed."""
    if not has("dpkg-deb") or os.geteuid():
        tally.skip("the package for Debian", "dpkg, and root")
        return
    root = f"{place.work}/root"
    os.makedirs(f"{root}/var/lib/dpkg/info")
    os.makedirs(f"{root}/var/lib/dpkg/updates")
    put(f"{root}/var/lib/dpkg/status", "")
    dpkg = ["dpkg", f"--root={root}", "--force-depends", "--force-script-chrootless"]
    ran = run([*dpkg, "--install", f"{place.work}/{PACKAGE}"], seconds=None)
    tally.check("dpkg --install", ran.status == 0, ran.said[-800:])
    hello = f"{place.share}/examples/hello/hello.img"
    for name, words, wanted in (("sandbox", ("run", hello), b"Hi"), ("host", (hello,), b"Hi")):
        ran = run([f"{root}/usr/bin/geyserpan-{name}", *words], cwd=f"{place.work}/elsewhere")
        tally.same(f"geyserpan-{name} of the package", (ran.status, ran.out), (0, wanted))
    ran = run([f"{root}/usr/bin/geyserpan-inspect", "--version"])
    tally.check("its version", ran.out.startswith(f"version {VERSION}\n".encode()), ran.said)
    ran = run([*dpkg, "--purge", "geyserpan"], seconds=None)
    left = [f"{at}/{it}" for at, _, files in os.walk(f"{root}/usr") for it in files]
    tally.same("dpkg --purge", (ran.status, left), (0, []))


def try_changed(place, tally):
    """A release that was changed isn't installed."""
    with open(f"{place.unpacked}/bin/sandbox", "ab") as file:
        file.write(b"x")
    ran = run([f"{place.unpacked}/install", f"{place.work}/other"])
    is_there = os.path.exists(f"{place.work}/other")
    tally.check("install of a changed release", ran.status == 1 and not is_there, f"wanted status 1, came {ran}")
    ran = run([f"{place.unpacked}/install"])
    tally.check("install without words", ran.status == 3 and "usage: install [--uninstall] PREFIX" in ran.said,
                f"wanted usage, came {ran}")


def main(words):
    Words(__doc__).parse_args(words)
    if not os.path.isfile(f"{LIBRARY}.made"):
        print("the library for C has to be built first: tools/release/library PREFIX", file=sys.stderr)
        return NOT_BUILT
    built("sandbox", "inspect", "host", "fit", "native", "board")
    tally = Tally("release")
    with tempfile.TemporaryDirectory() as work:
        place = Place(tally, work)
        place.lay_out()
        if try_making(place, tally):
            try_installing(place, tally)
            try_programs(place, tally)
            try_contents(place, tally)
            try_manual(place, tally)
            try_completions(place, tally)
            try_inventory(place, tally)
            try_taking_away(place, tally)
            try_package(place, tally)
            try_changed(place, tally)
    return tally.end()


if __name__ == "__main__":
    sys.exit(main(sys.argv[1:]))
