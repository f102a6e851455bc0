# The libraries that ./sandbox and the like have proved, found again by what they were made of.
#
# They hold statements, which fit only the libraries that they were built over. So they stand in a folder of their own,
# apart from what `rt` keeps in the folders of crates, and each with a sum of its sources, of the kit, and of the very
# bytes of what it was built over. `rt ci` stops at sources that no check of its own reads: here each file's name has an
# ending of its own, and a build gets links with the names that the kit wrote, in a room that it removes.
import hashlib
import os
import shutil

from libraries import SOURCES, TOP, line_of

FOLDER = f"{TOP}/tools/build/kept"
# What the names of kept files end in.
ENDING = ".kept"


def files_below(folder):
    """The paths of the files below a folder, as they lie there, in one order."""
    return sorted(os.path.relpath(f"{at}/{name}", folder) for at, _, names in os.walk(folder) for name in names)


def add_files(found, folder):
    """Adds the files below a folder to a sum, by their names and contents."""
    for path in files_below(folder):
        with open(f"{folder}/{path}", "rb") as file:
            found.update(repr((path, os.fstat(file.fileno()).st_size)).encode())
            while more := file.read(1 << 20):
                found.update(more)


def place(source, target):
    """Gives a file a second name, in a folder that is made; where the disk has no links, copies it."""
    os.makedirs(os.path.dirname(target), exist_ok=True)
    try:
        os.link(source, target)
    except OSError:
        shutil.copyfile(source, target)


class Kept:
    """What is kept of one library."""

    def __init__(self, name):
        self.name, self.folder = name, f"{FOLDER}/{name}"

    def note(self):
        """The sums of what it was made of and of its bytes; two times None where nothing is kept."""
        try:
            with open(f"{self.folder}/made", encoding="ascii") as file:
                made_of, sum_of_bytes = file.read().split()
                return made_of, sum_of_bytes
        except (FileNotFoundError, ValueError):
            return None, None

    def lay_out(self, room):
        """Lays the library into a room."""
        for path in files_below(f"{self.folder}/{self.name}.rlib"):
            place(f"{self.folder}/{self.name}.rlib/{path}", f"{room}/{self.name}.rlib/{path.removesuffix(ENDING)}")

    def keep(self, room, made_of):
        """Keeps the library that was built in a room; returns the sum of its bytes."""
        found, built, draft = hashlib.sha256(), f"{room}/{self.name}.rlib", f"{self.folder}.part"
        add_files(found, built)
        shutil.rmtree(draft, ignore_errors=True)
        for path in files_below(built):
            place(f"{built}/{path}", f"{draft}/{self.name}.rlib/{path}{ENDING}")
        with open(f"{draft}/made", "w", encoding="ascii") as file:
            file.write(f"{made_of} {found.hexdigest()}\n")
        shutil.rmtree(self.folder, ignore_errors=True)
        os.rename(draft, self.folder)
        return found.hexdigest()


def sweep(names):
    """Removes what is kept of libraries that are none of these any more, and what is half kept."""
    for it in os.listdir(FOLDER) if os.path.isdir(FOLDER) else ():
        if it not in names:
            shutil.rmtree(f"{FOLDER}/{it}", ignore_errors=True)


def made_of(name, kit, listed, below):
    """A sum of what a crate is made of: its sources, its line of crates.txt among those listed, the identity of the
    kit, and the sums of the libraries below it, by their names."""
    found = hashlib.sha256(repr((line_of(name, listed), kit, sorted(below.items()))).encode())
    for part in SOURCES:
        add_files(found, f"{TOP}/crates/{name}/{part}")
    return found.hexdigest()
