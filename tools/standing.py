"""The programs of the repository, as its own scripts call them: proved and built where that is due, several at once;
and the words in which programs and scripts tell of a file."""
import errno
import os
import shutil
import subprocess

TOP = os.path.dirname(os.path.dirname(os.path.abspath(__file__)))
# The crate of each program, and the words of a run that reads nothing but the crate's own folder.
PROGRAMS = {
    "sandbox": ("sbx_tool", "list data/hello.img"),
    "inspect": ("inspect", "image data/V1.img"),
    "host": ("host", "data/hello.img"),
    "fit": ("fit", "data/upper.s -o /dev/null"),
    "native": ("native", "data/hello.img -o /dev/null"),
    "board": ("board", "data/hello.img /dev/null"),
}
BUILD = f"{TOP}/tools/build/build-program"
# What is told of a file by an error of the system; the system's own words of another one.
FAULTS = {
    errno.ENOENT: "no such file",
    errno.ENOTDIR: "no such file",
    errno.EISDIR: "is a directory",
    errno.EACCES: "permission denied",
    errno.EPERM: "permission denied",
}
# What stands for a program's script, by its name: the program itself, once it is known to be current.
STANDS_FOR = {}


def file_fault(error):
    """What an error of the system says of a file, as docs/use/faults.md has it."""
    why = FAULTS.get(error.errno, (error.strerror or "can't be read").lower())
    return f"{error.filename}: {why}" if error.filename else why


# The crate that is a library for C.
ARCHIVED = "geyserpan"


def path_of(crate):
    """The path of a crate's program, or of the library for C, which may not stand."""
    return f"{TOP}/crates/{crate}/out/{f'lib{crate}.a' if crate == ARCHIVED else crate}"


def called(name):
    """What a program is called by."""
    return STANDS_FOR.get(name, f"{TOP}/{name}")


def logic():
    """The logic that the kit on the PATH proves by; None where there is no kit."""
    rt = shutil.which("rt")
    if rt is None:
        return None
    with open(os.path.join(os.path.dirname(os.path.dirname(os.path.realpath(rt))), "KIT-ID"),
              encoding="utf-8") as file:
        return file.readline().strip().partition(" logic ")[2]


def paths_below(path):
    """The files and folders from a path on, with what is known of each."""
    yield os.stat(path)
    if os.path.isdir(path):
        with os.scandir(path) as found:
            for it in found:
                if it.is_dir(follow_symlinks=False):
                    yield from paths_below(it.path)
                else:
                    yield it.stat(follow_symlinks=False)


def is_touched(path, since):
    """Whether anything from a path on has changed since a time, in nanoseconds: a change of a name counts, too."""
    try:
        return any(it.st_ctime_ns > since for it in paths_below(path))
    except OSError:
        return True


def are_untouched(crates):
    """Whether these crates' programs stand, nothing that they were made of was touched since, and the kit's logic is
    the same. What was touched may still be as it was: the build compares contents."""
    since, by = {}, logic()
    for crate in crates:
        program = path_of(crate)
        try:
            made = os.stat(f"{program}.made").st_mtime_ns
            with open(f"{program}.made", encoding="utf-8") as file:
                _, made_by, folders = file.read().split("\n")[:3]
        except (OSError, ValueError):
            return False
        if not os.access(program, os.X_OK) or by not in (None, made_by):
            return False
        for it in folders.split():
            since[it] = min(made, since.get(it, made))
    return not any(is_touched(f"{TOP}/{it}", made) for it, made in since.items())


def make_stand(teller, *names):
    """Has programs stand as their sources have them, all that is due in one build; returns the build's status, which
    told why where it isn't 0. `teller` is what messages begin with. A release has them as they are."""
    due = [it for it in names if it not in STANDS_FOR]
    if not due or not os.path.exists(BUILD):
        return 0
    crates = {it: PROGRAMS[it][0] for it in due}
    if not are_untouched(crates.values()):
        words = [word for it in due for word in PROGRAMS[it]]
        status = subprocess.run([BUILD, teller, *words], stdin=subprocess.DEVNULL, check=False).returncode
        if status:
            return status
    STANDS_FOR.update({it: path_of(crate) for it, crate in crates.items()})
    return 0
