"""The lines of a page's data that tell the lines of C that words come from, by a map."""
import os
import sys

from listed import hexadecimal

sys.path.append(f"{os.path.dirname(os.path.dirname(os.path.abspath(__file__)))}/debug")
from ends import Ending
from loaded import Fault
from maps import read, sum_of
from tape import Turn

__all__ = ["Fault", "c_lines", "end_lines", "read"]


def c_lines(mapped, folder):
    """Yields the lines of a map in a folder: of each function of C the address that it begins at and its name; of each
    file its number, its name and, where it is the one that the image was made of, its lines; and of words that have
    one line of C the first address, the number of the file and the line."""
    yield from (f"j{address:X} {hexadecimal(name)}" for address, name in sorted(mapped.functions.items()))
    files = {path: number for number, path in enumerate(dict.fromkeys(it.path for _, it in mapped.words.values()))}
    for path, number in files.items():
        yield f"o{number} {hexadecimal(path)}"
        yield from (f"u{number} {hexadecimal(line)}" for line in lines_of(path, mapped, folder))
    last = None
    for address, (_, place) in sorted(mapped.words.items()):
        if place != last:
            yield f"x{address:X} {files[place.path]} {place.line}"
        last = place


def end_lines(states, mapped):
    """Yields a line that tells which test turns ended in, where they ended in one: by the states that `inspect states`
    tells."""
    turns = [Turn(it) for it in states.splitlines()[1:-1]]
    end = turns[-1].event if turns else ""
    ending = Ending(int(end[5:], 16) if end.startswith("exit:") else None, mapped)
    if ending.is_test:
        own = [it for it in reversed(turns) if it.word is not None and not (it.is_annulled or it.is_supervisor)]
        ending.look([(it.pc, it.word) for it in own[: ending.behind]])
        if told := ending.told():
            yield f"z{hexadecimal(told)}"


def lines_of(path, mapped, folder):
    """The lines of a source, by its path or from the map's folder, where it is still the one that the map was made
    with; none else."""
    wanted = mapped.sources.get(path)
    for place in (path, f"{folder}/{path}", f"{folder}/{os.path.basename(path)}"):
        if wanted and sum_of(place) == wanted:
            with open(place, encoding="utf-8", errors="surrogateescape") as file:
                return file.read().removesuffix("\n").split("\n")
    return []
