"""Programs that were compiled before, each by the hash of all that it was made from."""
import hashlib
import os
import tempfile

# So many programs are kept; the one that was used longest ago goes first.
MOST = 1000


def folder():
    """Where they are kept."""
    home = os.environ.get("XDG_CACHE_HOME") or os.path.expanduser("~/.cache")
    return f"{home}/geyserpan/native"


def sum_of(path):
    """The SHA-256 of a file, in hexadecimal digits."""
    with open(path, "rb") as file:
        return hashlib.sha256(file.read()).hexdigest()


class Cache:
    """A folder in which nobody but its user may write. What can't be kept isn't, and nobody is told."""

    def __init__(self):
        self.at = folder()
        try:
            os.makedirs(self.at, mode=0o700, exist_ok=True)
            found = os.stat(self.at)
            self.is_good = found.st_uid == os.geteuid() and not found.st_mode & 0o022
        except OSError:
            self.is_good = False

    def found(self, key):
        """The program of a key, where it is whole as it was written."""
        path = f"{self.at}/{key}"
        try:
            with open(f"{path}.sum", encoding="ascii") as file:
                wanted = file.read()
            if not self.is_good or sum_of(path) != wanted:
                return None
            os.utime(f"{path}.sum")
            return path
        except OSError:
            return None

    def keep(self, key, made):
        """Keeps a program; gives its path there, or its own where it can't be kept."""
        if not self.is_good:
            return made
        try:
            with tempfile.TemporaryDirectory(prefix=".new-", dir=self.at) as room:
                self.copy(made, f"{room}/program")
                with open(f"{room}/sum", "w", encoding="ascii") as file:
                    file.write(sum_of(f"{room}/program"))
                os.rename(f"{room}/program", f"{self.at}/{key}")
                os.rename(f"{room}/sum", f"{self.at}/{key}.sum")
            self.shrink()
        except OSError:
            return made
        return self.found(key) or made

    @staticmethod
    def copy(path, to):
        """A copy that may be run."""
        with open(path, "rb") as file, open(to, "wb") as copy:
            copy.write(file.read())
        os.chmod(to, 0o700)

    def shrink(self):
        """Lets those go that were used longest ago."""
        sums = [it for it in os.scandir(self.at) if it.name.endswith(".sum")]
        sums.sort(key=lambda it: it.stat().st_mtime)
        for it in sums[:max(0, len(sums) - MOST)]:
            for path in (it.path, it.path.removesuffix(".sum")):
                if os.path.exists(path):
                    os.unlink(path)
