"""A PostgreSQL server in a folder of its own: a copy of the programs, data, and a socket. The system's own programs,
data and extensions stay as they are."""
import os
import pwd
import re
import shutil
import subprocess
import time

from run import run

# The user that a server belongs to where root runs the suite: PostgreSQL refuses root.
USERS = ("postgres", "nobody")
# Ends what a statement answers.
MARK = "-- ended with "


def config(name):
    """What pg_config tells of the installation, as `bindir`."""
    return run(["pg_config", f"--{name}"]).out.decode().strip()


def missing():
    """What isn't there that a server and a build of an extension need, or None."""
    if run(["pg_config", "--version"]).status:
        return "pg_config (Debian's postgresql-server-dev-15)"
    for path in (f"{config('bindir')}/postgres", config("pgxs")):
        if not os.path.exists(path):
            return path
    return None


def as_user():
    """The user whom a server belongs to, and the words before a command that make it that user's."""
    if os.geteuid():
        return pwd.getpwuid(os.geteuid()), []
    known = {it.pw_name: it for it in pwd.getpwall()}
    user = next(known[it] for it in USERS if it in known)
    return user, ["setpriv", f"--reuid={user.pw_uid}", f"--regid={user.pw_gid}", "--clear-groups"]


def linked(source, target):
    """Makes a folder whose entries lead to those of another one."""
    os.makedirs(target, exist_ok=True)
    for name in os.listdir(source):
        if not os.path.lexists(f"{target}/{name}"):
            os.symlink(f"{source}/{name}", f"{target}/{name}")


def installation(root):
    """A copy of the installation below a folder, into which `make install DESTDIR=` puts an extension: a server finds
    its files by where its program stands, which is copied for that."""
    programs, libraries, shared = config("bindir"), config("pkglibdir"), config("sharedir")
    os.makedirs(root + programs)
    for name in ("postgres", "initdb"):
        shutil.copy(f"{programs}/{name}", root + programs)
    linked(libraries, root + libraries)
    linked(f"{shared}/extension", f"{root}{shared}/extension")
    linked(shared, root + shared)
    return root + programs


class Server:
    """A server that runs until `end`."""

    def __init__(self, folder):
        self.folder, self.log = folder, f"{folder}/log"
        self.root = f"{folder}/root"
        self.programs = installation(self.root)
        self.process = None

    def begin(self):
        """Makes the data and starts the server; returns what went wrong, or None."""
        user, front = as_user()
        data, socket = f"{self.folder}/data", f"{self.folder}/socket"
        for path in (data, socket):
            os.makedirs(path)
            os.chown(path, user.pw_uid, user.pw_gid)
        made = run([*front, f"{self.programs}/initdb", "-D", data, "-U", "postgres", "-A", "trust", "-E", "UTF8",
                    "--locale=C.UTF-8", "--no-sync"], cwd=socket)
        if made.status:
            return made.said
        words = [f"{self.programs}/postgres", "-D", data, "-k", socket, "-c", "listen_addresses=", "-c", "fsync=off",
                 "-c", "shared_buffers=256MB", "-c", "max_parallel_workers=4"]
        with open(self.log, "wb") as log:
            self.process = subprocess.Popen([*front, *words], cwd=socket, stdin=subprocess.DEVNULL, stdout=log,
                                            stderr=log)
        for _ in range(300):
            if self.ask("SELECT 1") == "1\n":
                return None
            if self.process.poll() is not None:
                break
            time.sleep(0.1)
        return f"the server doesn't answer: {self.told()[-1500:]}"

    def end(self):
        """Stops the server."""
        if self.process:
            self.process.send_signal(2)
            self.process.wait(60)

    def told(self):
        """The server's log."""
        with open(self.log, encoding="utf-8", errors="replace") as file:
            return file.read()

    def environment(self):
        """In which a client finds the server."""
        return {**os.environ, "PGHOST": f"{self.folder}/socket", "PGUSER": "postgres", "PGPORT": "5432",
                "PGDATABASE": "postgres", "PGOPTIONS": ""}

    def words(self, *more):
        """psql, which prints rows alone, columns with `|` between."""
        return [f"{config('bindir')}/psql", "-XqAt", *more]

    def ask(self, sql, *more, seconds=300):
        """What psql prints, answers and errors in their order, for statements in one session."""
        return run(self.words("-f", "-", *more), sql.encode(), seconds, env=self.environment(),
                   stderr=subprocess.STDOUT).out.decode(errors="replace")

    def answers(self, statements, setting="", seconds=600):
        """What one session answers to each of these statements: its lines, and its SQLSTATE."""
        script = "".join(f"{it}\n\\echo {MARK}:SQLSTATE\n" for it in statements)
        told = self.ask(f"RESET ROLE;\n{setting}\n\\echo {MARK}:SQLSTATE\n{script}", seconds=seconds)
        parts = re.split(rf"{MARK}(\w{{5}})\n", told)[2:]
        pairs = list(zip(parts[::2], parts[1::2]))
        return pairs + [("no answer", "")] * (len(statements) - len(pairs))
