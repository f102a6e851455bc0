#!/usr/bin/env python3
"""usage: tests/postgres/run.py [--library PREFIX] [--rows N] [PART ..]

Builds embed/postgres and tries it in a PostgreSQL server that it starts on a socket in a folder of its own, as the
user postgres or nobody where root runs it. Parts, all but `speed` where none is named:

  installcheck  the extension's own tests, by pg_regress
  examples      each example image: its output, exit word, turns and facts beside the files of examples
  refused       each refused source and image at CREATE FUNCTION and as a value of the domain: rule, function, address
  rules         a rule from C over 20,000 lines beside Python's answers, and one that breaks, with its line
  page          docs/embed/postgres.md from its C file to its WHERE clause, as the page shows it
  tenants       roles that are no superuser: the extension, functions, limits
  natively      examples, the rule and a run that is broken off by objects of native code; objects that aren't taken
  parallel      parallel workers and a dump that is restored: the same answers
  stopped       runs that a timeout, a cancel or a termination breaks off, at many moments; what stays in memory
  growths       each growth of memory refused in turn
  long          images, inputs and outputs of 1 GB
  speed         a million lines of a log through a rule in several languages, in microseconds of the processor a
                row

PREFIX is where a library is laid out already; else tools/release/library lays one out. `speed` takes N rows
(1,000,000). It needs Debian's postgresql-15 and postgresql-server-dev-15; what needs a compiler for SPARC,
the program of ./native, postgresql-plperl-15 or postgresql-plpython3-15 is skipped without it."""
import os
import shutil
import sys
import tempfile

sys.dont_write_bytecode = True
HERE = os.path.dirname(os.path.abspath(__file__))
sys.path.insert(0, f"{os.path.dirname(HERE)}/lib")
from answers import examples, installcheck, page, refused, rules
from library import library
from natively import natively
from run import TOP, run
from server import Server, missing
from sessions import long, parallel, tenants
from speed import speed
from stopped import growths, stopped
from tally import FAILED, Tally, Words

PARTS = {it.__name__: it for it in (installcheck, examples, refused, rules, page, tenants, natively, parallel, stopped,
                                    growths, long, speed)}
UNASKED = ("speed",)


class Work:
    """Where the suite works, and how it counts."""

    def __init__(self, tally, folder, prefix, rows):
        self.tally, self.folder, self.prefix, self.rows = tally, folder, prefix, rows
        self.server = Server(folder)

    def at(self, name):
        """The path of a file in the folder."""
        return f"{self.folder}/{name}"

    def build(self, target, *extra, sources=(), name="extension"):
        """Makes the extension in a copy of its folder, with more sources where they are given."""
        folder = self.at(name)
        if not os.path.exists(folder):
            shutil.copytree(f"{TOP}/embed/postgres", folder)
        for it in sources:
            shutil.copy(it, f"{folder}/src")
        words = ["make", "-C", folder, target, f"DESTDIR={self.server.root}", f"GEYSERPAN={self.prefix}"]
        return run([*words, "COPT=-Wextra -Wno-unused-parameter -Wno-sign-compare -Werror", *extra], seconds=None,
                   env=self.server.environment())

    def answered(self, asked, setting="", seconds=600):
        """Counts what one session answers to statements: of each a name, itself, and the lines that it prints; or,
        behind `!`, the SQLSTATE of its error, and where more is said the error's first line."""
        came = self.server.answers([sql for _, sql, _ in asked], setting, seconds)
        for (name, _, wanted), (told, state) in zip(asked, came):
            if wanted.startswith("!"):
                first = told.partition(": ")[2].partition("\n")[0]
                told = f"!{state}{first}" if len(wanted) > 6 else f"!{state}"
            self.tally.same(name, told.removesuffix("\n"), wanted)


def try_parts(work, parts):
    """Builds and starts what the parts need, and runs them."""
    made = work.build("install")
    if not work.tally.check("embed/postgres is built", made.status == 0, made.said[-2000:]):
        return
    failed = work.server.begin()
    if not work.tally.check("the server starts", failed is None, failed):
        return
    for name in parts:
        if name != "installcheck":
            work.server.ask("DROP EXTENSION IF EXISTS geyserpan CASCADE; CREATE EXTENSION geyserpan;")
        PARTS[name](work)
    told = work.server.told()
    crashes = [it for it in told.splitlines() if "was terminated by signal" in it or "PANIC" in it]
    work.tally.check("no process of the server crashes", not crashes, f"came {crashes[:3]}")


def main(line):
    reader = Words(__doc__)
    reader.add_argument("--library")
    reader.add_argument("--rows", type=int, default=1000000)
    reader.add_names("parts", [*PARTS])
    asked = reader.parse_args(line)
    tally = Tally("postgres")
    if absent := missing():
        tally.skip("all of it", absent)
        return tally.end()
    with tempfile.TemporaryDirectory() as folder:
        os.chmod(folder, 0o755)
        prefix = library(tally, asked.library, folder)
        if not prefix:
            return tally.end() or FAILED
        work = Work(tally, folder, prefix, asked.rows)
        try:
            try_parts(work, asked.parts or [it for it in PARTS if it not in UNASKED])
        finally:
            work.server.end()
    return tally.end()


if __name__ == "__main__":
    sys.exit(main(sys.argv[1:]))
