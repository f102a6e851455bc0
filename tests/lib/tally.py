"""How a suite counts and ends: checks by name, parts that are skipped, one form of line, one exit status; and how its
words are read."""
import argparse
import os
import shutil
import sys
import threading

# How a suite ends: nothing failed; something did; nothing was tried; other words; a program that it needs can't be
# built.
PASSED, FAILED, NOTHING, OTHER_WORDS, NOT_BUILT = 0, 1, 2, 3, 125


def shown(it):
    """A value for a line that tells of a failure: bytes as text, and no more of it than a reader wants."""
    text = repr(it.decode(errors="backslashreplace") if isinstance(it, bytes) else it)
    return text if len(text) <= 400 else f"{text[:400]}.. ({len(text)} characters)"


class Tally:
    """The checks of a suite, counted from any thread. One that fails is told in a line, which says what was expected
    and what came; the files that show it are left in the folder `keep`, where there is one."""

    def __init__(self, suite, keep=None, quiet=False):
        self.suite, self.keep, self.quiet = suite, keep, quiet
        self.passed = self.failed = self.skipped = 0
        self.lock = threading.Lock()

    def check(self, name, condition, said="", files=()):
        """Counts a check, and returns whether its condition holds; `said` is told where it doesn't."""
        with self.lock:
            self.passed += bool(condition)
            self.failed += not condition
            if not condition and not self.quiet:
                line = f"FAILED {self.suite}: {name}{': ' if said else ''}{said}"
                print(line.strip().replace("\n", "\\n"), flush=True)
                self.leave(files)
        return bool(condition)

    def same(self, name, came, wanted, files=()):
        """Counts whether what came is what was wanted."""
        return self.check(name, came == wanted, f"wanted {shown(wanted)}, came {shown(came)}", files)

    def passes(self, count):
        """Counts so many checks that hold."""
        with self.lock:
            self.passed += count

    def leave(self, files):
        """Copies files to where they are kept."""
        if self.keep:
            os.makedirs(self.keep, exist_ok=True)
            for file in filter(os.path.exists, files):
                shutil.copy(file, self.keep)

    def skip(self, what, needs):
        """Tells and counts a part that isn't tried, for want of something."""
        with self.lock:
            self.skipped += 1
            if not self.quiet:
                print(f"skipped {self.suite}: {what}, for want of {needs}", flush=True)

    def end(self):
        """Prints the last line of a suite, and returns the status that it ends with."""
        print(f"{self.suite}: {self.passed} passed, {self.failed} failed, {self.skipped} skipped", flush=True)
        return FAILED if self.failed else PASSED if self.passed else NOTHING


class Words(argparse.ArgumentParser):
    """The words of a script, whose docstring is its help: its first paragraph says how it is called."""

    def __init__(self, doc):
        super().__init__()
        self.doc = doc.strip()

    def add_names(self, words, known):
        """Adds words that have to be of these names; none may be given."""
        def checked(name):
            if name not in known:
                raise argparse.ArgumentTypeError(f"{name} is none of {', '.join(known)}")
            return name

        self.add_argument(words, nargs="*", type=checked)

    def add_files(self, words):
        """Adds words that are files; none may be given."""
        def checked(path):
            if not os.path.isfile(path):
                why = "is a directory" if os.path.isdir(path) else "no such file"
                raise argparse.ArgumentTypeError(f"{path}: {why}")
            return path

        self.add_argument(words, nargs="*", type=checked)

    def format_usage(self):
        return f"{self.doc.partition(f'{os.linesep}{os.linesep}')[0]}\n"

    def format_help(self):
        return f"{self.doc}\n"

    def error(self, message):
        print(f"{self.format_usage()}{message}", file=sys.stderr)
        raise SystemExit(OTHER_WORDS)
