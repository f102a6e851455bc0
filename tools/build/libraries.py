# Proves and builds the libraries that a crate stands on, side by side, for the scripts of this folder.
import contextlib
import fcntl
import os
import shutil
import signal
import subprocess
import sys
import tempfile
import threading
from concurrent.futures import FIRST_COMPLETED, ThreadPoolExecutor, wait

sys.dont_write_bytecode = True
TOP = os.path.dirname(os.path.dirname(os.path.dirname(os.path.abspath(__file__))))
sys.path.insert(0, f"{TOP}/tests/lib")
from crates import all_below, crates, lanes, lines_of, lowest_first

# The folders of a crate that are its sources.
SOURCES = ("src", "specs", "proofs")
# What `rt` keeps of a library in its folder out/.
BUILT, WORK = "rlib", "incremental"
# The kit's `rt`, which reads each crate's sources once.
RT = f"{TOP}/tools/build/rt-once"
# The most jobs of one check that help.
MOST_JOBS = 4
# Where builds have their rooms. `rt` walks the folders out/ of all crates that it reads, and stops where a folder
# goes meanwhile.
ROOMS = f"{TOP}/tools/build/out"
# What removes rooms that are done with: no build waits for it, and the process ends after it.
SWEEPER = ThreadPoolExecutor(1)


class Failed(Exception):
    """A build that can't go on, with what there is to say of it."""


class Children:
    """The commands that run, so that they end where the build is broken off."""

    def __init__(self):
        self.running, self.lock, self.is_over = set(), threading.Lock(), False

    def run(self, words, folder, log=subprocess.PIPE):
        """Runs a command to its end. Returns its status and what it printed."""
        with self.lock:
            if self.is_over:
                return 130, ""
            child = subprocess.Popen(words, cwd=folder, stdin=subprocess.DEVNULL, stdout=log, stderr=subprocess.STDOUT,
                                     errors="replace", start_new_session=True)
            self.running.add(child)
        said = child.communicate()[0]
        with self.lock:
            self.running.discard(child)
        return child.returncode, said or ""

    def end(self):
        """Ends all that run, and lets no other begin."""
        with self.lock:
            self.is_over = True
            for child in self.running:
                with contextlib.suppress(ProcessLookupError):
                    os.killpg(child.pid, signal.SIGTERM)


def line_of(name, listed):
    """The crate's line of crates.txt, with the libraries of the kit that it names."""
    return next(it for it in listed if it.partition(":")[0].split()[:1] == [name])


def lay_out(room, name, below):
    """Makes a repository of the crate and those below it: sources and what is built by hard links, stamps by copies,
    which `rt` writes over."""
    with open(f"{TOP}/crates.txt", encoding="utf-8") as file:
        listed = [it for it in file if it[:1].isalpha()]
    with open(f"{room}/crates.txt", "w", encoding="utf-8") as file:
        file.writelines(line_of(it, listed) for it in [*below, name])
    for it in [*below, name]:
        for part in SOURCES:
            if os.path.isdir(f"{TOP}/crates/{it}/{part}"):
                shutil.copytree(f"{TOP}/crates/{it}/{part}", f"{room}/crates/{it}/{part}", copy_function=link_or_copy)
    for it in below:
        built = f"crates/{it}/out/{BUILT}"
        shutil.copytree(f"{TOP}/{built}", f"{room}/{built}", copy_function=link_or_copy)


def link_or_copy(source, target):
    if os.path.basename(source) == "stamp":
        shutil.copyfile(source, target)
    else:
        os.link(source, target)


def move(source, target, parts):
    """Moves what `rt` keeps of a crate from one folder to another."""
    os.makedirs(target, exist_ok=True)
    for part in parts:
        if os.path.isdir(f"{source}/{part}"):
            os.rename(f"{source}/{part}", f"{target}/{part}")


def clear(room):
    """Has a room removed beside the builds; where the process is ending, at once."""
    try:
        SWEEPER.submit(shutil.rmtree, room, ignore_errors=True)
    except RuntimeError:
        shutil.rmtree(room, ignore_errors=True)


def sweep(crate):
    """Removes the rooms of a crate's builds that were killed."""
    for name in os.listdir(ROOMS):
        if name.startswith(f"{crate}."):
            shutil.rmtree(f"{ROOMS}/{name}", ignore_errors=True)


def build_in(children, room, name, below, jobs):
    """Builds one library in a room, with so many jobs. Returns what `rt` ended with and said."""
    out, folder = f"{TOP}/crates/{name}/out", f"{room}/crates/{name}"
    lay_out(room, name, below)
    move(out, f"{folder}/out", (BUILT, WORK))
    status, said = 1, ""
    try:
        status, said = children.run([RT, "lib", "--jobs", str(jobs)], folder)
    finally:
        move(f"{folder}/out", out, (WORK,) if status else (BUILT, WORK))
    return status, said


def build(children, name, below, jobs):
    """Builds one library over those below it, which stand built. Returns what `rt` said where it failed, else None.
    What is half built isn't kept, but for the work that `rt` goes on from."""
    for it in (f"{TOP}/crates/{name}/out", ROOMS):
        os.makedirs(it, exist_ok=True)
    held = os.open(f"{TOP}/crates/{name}", os.O_RDONLY)
    # `rt` itself waits for this lock
    fcntl.flock(held, fcntl.LOCK_EX)
    try:
        sweep(name)
        room = tempfile.mkdtemp(prefix=f"{name}.", dir=ROOMS)
        try:
            status, said = build_in(children, room, name, below, jobs)
        finally:
            clear(room)
    finally:
        os.close(held)
    return said if status else None


def chains(names, below):
    """The lines of the longest chain of crates that stand on each one, its own lines included."""
    longest = {it: lines_of(it) for it in names}
    for name in reversed(names):
        for it in below[name]:
            if it in longest:
                longest[it] = max(longest[it], lines_of(it) + longest[name])
    return longest


def libraries_below(crate):
    """The crates that the crate stands on, lowest first, and for each those that it stands on itself."""
    listed = crates()
    order = lowest_first(listed)
    names = [it for it in order if it in all_below(crate, listed)]
    return names, {it: [low for low in names if low in all_below(it, listed)] for it in names}


def build_all(children, crate, tell):
    """Builds the libraries that the crate stands on, lowest first, and first those that the longest chains wait for,
    with the processors that no other one waits for as further jobs; says of each how many stand. Raises Failed with
    what the first failure said."""
    names, below = libraries_below(crate)
    behind, left, given = chains(names, crates()), list(names), set()
    with ThreadPoolExecutor(lanes()) as pool:
        running = {}
        try:
            while left or running:
                ready = sorted((it for it in left if given.issuperset(below[it])), key=lambda it: -behind[it])
                for at, it in enumerate(ready[: max(lanes() - len(running), 0)]):
                    spare = (lanes() - sum(jobs for _, jobs in running.values())) // (len(ready) - at)
                    jobs = max(1, min(spare, MOST_JOBS))
                    left.remove(it)
                    running[pool.submit(build, children, it, below[it], jobs)] = it, jobs
                for it in wait(running, return_when=FIRST_COMPLETED).done:
                    (name, _), said = running.pop(it), it.result()
                    if said is not None:
                        raise Failed(f"{said}{name} could not be built")
                    given.add(name)
                    tell(name, len(given), len(names))
        except BaseException:
            children.end()
            raise
