"""A release as a package of Debian's: its files below /usr/lib/geyserpan, and in /usr/bin a link to each program, named
geyserpan-PROGRAM, since some of these names are other programs' there."""
import gzip
import os
import shutil
import subprocess

from usages import PROGRAMS

HOME = "usr/lib/geyserpan"
CONTROL = """Package: geyserpan
Version: {version}
Architecture: amd64
Maintainer: The developers of Geyserpan <developers@geyserpan.invalid>
Installed-Size: {size}
Depends: libc6, python3 (>= 3.9)
Suggests: gcc-sparc64-linux-gnu
Section: devel
Priority: optional
Description: formally verified sandbox for programs in SPARC V8
 Assembles, verifies and runs programs that strangers wrote. Whatever the verifier accepts ends within its declared
 budget and touches its own pages alone; that is proved of the sources of these programs.
"""
COPYRIGHT = """No licence is granted: ask the owner before you use, copy or change what is in this package.
"""
# Where each shell looks for what it completes.
COMPLETED = {"bash": "usr/share/bash-completion/completions/{}", "zsh": "usr/share/zsh/vendor-completions/_{}",
             "fish": "usr/share/fish/vendor_completions.d/{}.fish"}


def installed_name(program):
    """A program's name in /usr/bin."""
    return program if program.startswith("geyserpan-") else f"geyserpan-{program}"


def put(tree, path, data):
    os.makedirs(os.path.dirname(f"{tree}/{path}"), exist_ok=True)
    with open(f"{tree}/{path}", "wb") as file:
        file.write(data)
    os.chmod(f"{tree}/{path}", 0o644)


def put_programs(tree, run):
    """The links, the pages of the manual, and what shells complete."""
    os.makedirs(f"{tree}/usr/bin")
    for program in PROGRAMS:
        name = installed_name(program)
        os.symlink(f"../lib/geyserpan/bin/{program}", f"{tree}/usr/bin/{name}")
        page = run("tools/release/manual", f"{program}.1").encode()
        put(tree, f"usr/share/man/man1/{name}.1.gz", gzip.compress(page, 9, mtime=0))
        for shell, place in COMPLETED.items():
            put(tree, place.format(name), run("tools/release/completions", shell, program, name).encode())


def settle(tree, time):
    """Gives each folder and file the time of the commit, and folders the usual mode."""
    for at, _, files in os.walk(tree, topdown=False):
        for name in files:
            os.utime(f"{at}/{name}", (time, time), follow_symlinks=False)
        os.chmod(at, 0o755)
        os.utime(at, (time, time))


def package(room, tree, version, time, target, run):
    """Writes the package of a release that is laid out in `room`; `run` gives what a command prints."""
    shutil.copytree(room, f"{tree}/{HOME}", symlinks=True)
    put_programs(tree, run)
    put(tree, "usr/share/doc/geyserpan/copyright", COPYRIGHT.encode())
    size = sum(os.lstat(f"{at}/{it}").st_size for at, _, files in os.walk(tree) for it in files) // 1024
    put(tree, "DEBIAN/control", CONTROL.format(version=version, size=size).encode())
    settle(tree, time)
    subprocess.run(["dpkg-deb", "-Zgzip", "--root-owner-group", "--build", tree, target], check=True,
                   stdout=subprocess.DEVNULL, env={**os.environ, "SOURCE_DATE_EPOCH": str(time)})
