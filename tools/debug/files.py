"""What ./fit is given in the place of files of assembly that have lines of C.

Where ./fit knows no line it tells the row; so in each copy so many lines stand before the first one that no exit word
has a row for a line of C."""
import os
import re
import sys

sys.path.insert(0, f"{os.path.dirname(os.path.dirname(os.path.abspath(__file__)))}/cc")
from assembly import NO_LINE

# A line that the compiler doesn't know; and so many lines stand before an assembly that has lines of C.
UNTOLD, PAD = re.compile(r"(\n\s*\.loc\s+\d+\s+)0\b"), NO_LINE
ROWS = re.compile(r"^\s*\.loc\b", re.M)


class Files:
    """The files of assembly of a program, and what ./fit is given in the place of those that have lines of C: so many
    lines stand before them that a row is no line of C for an exit word, and of a line that isn't known ./fit is told.
    It goes on with the line before else."""

    def __init__(self, paths, folder):
        self.given, self.paths, self.folder = [], {}, folder  # paths; that of the file that each is given for
        for number, path in enumerate(paths):
            with open(path, encoding="utf-8", errors="surrogateescape") as file:
                text = file.read()
            given = f"{folder}/{number}-{path.rpartition('/')[2]}" if ROWS.search(text) else path
            self.given.append(given)
            self.paths[given] = path
            told = self.told_of(number, path, text)
            if given != path:
                with open(given, "w", encoding="utf-8", errors="surrogateescape") as file:
                    file.write("\n" * PAD + told)

    def told_of(self, _number, _path, text):
        """The text for ./fit, of one with lines of C."""
        return UNTOLD.sub(rf"\g<1>{NO_LINE}", text)

    def row(self, _path, row):
        """The row of a file of assembly, by that of the text for ./fit."""
        return row

    def bare(self, text):
        """What ./fit made or told, with rows of files of assembly as these are."""
        def with_row(found):
            path = self.paths[found[1]]
            return f"{path}:{self.row(path, int(found[2]) - PAD)}"
        names = "|".join(re.escape(given) for given, path in self.paths.items() if given != path)
        return re.sub(rf"({names}):(\d+)", with_row, text) if names and self.folder in text else text

    def told(self, text, _shown):
        """What ./fit told."""
        return self.bare(text)

    @staticmethod
    def map_of(_source, _notes, _shown):
        """No map: where words come from isn't known."""
