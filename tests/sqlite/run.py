#!/usr/bin/env python3
"""usage: tests/sqlite/run.py [--library PREFIX]

Builds embed/sqlite and tries it in Debian's program sqlite3: verdicts of examples and of refused images, outputs, exit
words and turns beside the files of examples, nulls, limits, the aggregate, the table, memory that SQLite refuses, and
all of it under AddressSanitizer, which looks for leaks.

PREFIX is where a library is laid out already; else tools/release/library lays one out. It needs Debian's sqlite3 and
libsqlite3-dev."""
import glob
import os
import re
import shutil
import sys
import tempfile

sys.dont_write_bytecode = True
sys.path.insert(0, f"{os.path.dirname(os.path.dirname(os.path.abspath(__file__)))}/lib")
from library import library
from run import EXAMPLES, SANDBOX, TOP, built, bytes_of, has, put, run, text_of
from tally import FAILED, Tally, Words

TALLY = Tally("sqlite")
MARK = "-- ended"
# Ends with the word that the first byte is as a digit.
WORD = """.services exit,get
.function main,leaf,0,0,9
.fuel 9
    ta 1
    sub %o0,48,%o0
    ta 0
"""
SETTING = """.mode list
.nullvalue null
CREATE TABLE rule (name TEXT, image BLOB CHECK (geyserpan_check(image) = 'accepted'));
"""
ALL_TURNS = 1 << 40


def image(name):
    """An expression that is the image of this name in the table."""
    return f"(SELECT image FROM rule WHERE name = '{name}')"


def literal(path):
    """The bytes of a file as a literal."""
    return f"x'{bytes_of(path).hex()}'"


def examples():
    """The examples on their inputs: verdict, output, turns."""
    for path in sorted(it for it in glob.glob(f"{EXAMPLES}/*/*.img") if "/refused/" not in it):
        name, beside = os.path.basename(path)[:-4], path.removesuffix(".img")
        given = literal(f"{beside}.in") if os.path.exists(f"{beside}.in") else "x''"
        turns = re.search(r"^turns: (\d+) of", text_of(f"{beside}.ran"), re.M)[1]
        exit_word = int(re.search(r"^end: exit with the word ([0-9A-F]{8})$", text_of(f"{beside}.ran"), re.M)[1], 16)
        output = bytes_of(f"{beside}.out").hex().upper() if exit_word == 0 else "null"
        yield f"{name} is accepted", f"INSERT INTO rule VALUES ('{name}', {literal(path)});", ""
        call = f"({image(name)}, {given}, {ALL_TURNS})"
        yield f"{name}: its run", f"SELECT coalesce(hex(geyserpan_run{call}), 'null'), geyserpan_turns{call};", \
            f"{output}|{turns}"


def refused():
    """Images that are refused: the verdict, and the table's constraint."""
    for told in sorted(glob.glob(f"{EXAMPLES}/refused/*.told")):
        verdict, path = text_of(told).splitlines()[0], told.replace(".told", ".img")
        if os.path.exists(path):
            yield f"{path}: verdict", f"SELECT geyserpan_check({literal(path)});", verdict
            yield f"{path}: a column", f"INSERT INTO rule VALUES ('bad', {literal(path)});", "!CHECK constraint failed"
            yield f"{path}: a run", f"SELECT geyserpan_run({literal(path)}, 'a');", f"!geyserpan: {verdict}"
    yield "no image", "SELECT geyserpan_check(x'00'), geyserpan_check(x''), geyserpan_check(17);", \
        "image I1|image I1|image I1"


def answers(word):
    """Rules, nulls, limits, text and blobs."""
    echo, lower = image("echo"), image("lower")
    rule = f"SELECT geyserpan_match({word}, column1) FROM (VALUES ('0'), ('1'), ('2'), (''), (NULL), (x'30'), (1));"
    return (
        ("a rule", rule, "1\n0\nnull\nnull\nnull\n1\n0"),
        ("nulls", f"SELECT geyserpan_run({echo}, NULL), geyserpan_run(NULL, 'a'), geyserpan_check(NULL),"
         f" geyserpan_run({echo}, 'a', NULL);", "null|null|null|null"),
        ("text and blob", f"SELECT typeof(geyserpan_run({echo}, 'ab')), hex(geyserpan_run({echo}, x'00FF')),"
         f" geyserpan_run({echo}, 'to be');", "text|00FF|to be"),
        ("turns that aren't granted", f"SELECT geyserpan_run({lower}, 'A');",
         "!geyserpan: asks for 49,392,123,895 turns, 1,000,000 are granted"),
        ("turns that are", f"SELECT geyserpan_run({lower}, 'ABC', {ALL_TURNS});", "abc"),
        ("less than no turns", f"SELECT geyserpan_run({echo}, 'A', -1);",
         "!geyserpan: asks for 16,030 turns, 0 are granted"),
        ("too much output", f"SELECT geyserpan_run({lower}, hex(zeroblob(600000)), {ALL_TURNS});",
         "!geyserpan: puts out more than the 1,048,576 bytes that are granted"),
        ("an index", "CREATE TABLE word (w TEXT); INSERT INTO word VALUES ('0'), ('1'), ('2');"
         f" CREATE INDEX matched ON word (geyserpan_match({word}, w));"
         f" SELECT w FROM word WHERE geyserpan_match({word}, w) = 0;", "1"),
        ("a thousand rows", "WITH RECURSIVE n(i) AS (VALUES (1) UNION ALL SELECT i + 1 FROM n WHERE i < 1000)"
         f" SELECT count(*), sum(geyserpan_run({lower}, 'W' || i, {ALL_TURNS}) = 'w' || i) FROM n;", "1000|1000"),
        ("each row's image", "SELECT name, geyserpan_run(image, 'Ab', 1 << 40) FROM rule WHERE name IN ('echo',"
         " 'lower', 'upper') ORDER BY name;", "echo|Ab\nlower|ab\nupper|AB"),
    )


def streams(word):
    """The aggregate and the table."""
    echo, lower = image("echo"), image("lower")
    lines = "SELECT line FROM geyserpan_lines"
    return (
        ("an aggregate", f"SELECT geyserpan_fold({echo}, column1) FROM (VALUES ('a'), (NULL), ('b'), (''), (3));",
         "ab3"),
        ("groups", f"SELECT column1, geyserpan_fold({echo}, column2) FROM (VALUES (1, 'a'), (2, 'b'), (1, 'c'))"
         " GROUP BY column1;", "1|ac\n2|b"),
        ("no rows", f"SELECT geyserpan_fold({echo}, 'a') WHERE 0;", "null"),
        ("an aggregate that says no", f"SELECT geyserpan_fold({word}, '1');", "null"),
        ("images that differ", "SELECT geyserpan_fold(image, 'a', 1 << 40) FROM rule WHERE name IN ('echo', 'lower');",
         "!geyserpan: the images of a group differ"),
        ("an aggregate without turns", f"SELECT geyserpan_fold({lower}, 'a');", "!geyserpan: asks for 49,392,123,895"),
        ("no window", f"SELECT geyserpan_fold({echo}, 'a') OVER ();", "!geyserpan_fold() may not be used as a window"),
        ("lines", f"{lines}({echo}, 'one' || char(10) || char(10) || 'two');", "one\n\ntwo"),
        ("lines with an end", f"{lines}({echo}, 'one' || char(10));", "one"),
        ("no lines", f"SELECT count(*) FROM geyserpan_lines({echo}, '');", "0"),
        ("lines of null", f"SELECT count(*) FROM geyserpan_lines({echo}, NULL);", "0"),
        ("lines joined", "SELECT line FROM rule, geyserpan_lines(rule.image, 'Ab', 1 << 40) WHERE name IN ('lower',"
         " 'upper') ORDER BY line;", "AB\nab"),
        ("a line that is too long isn't reached", f"{lines}({lower}, 'A' || char(10) || hex(zeroblob(600000)),"
         f" {ALL_TURNS}) LIMIT 1;", "a"),
        ("a line that is too long", f"{lines}({lower}, hex(zeroblob(600000)), {ALL_TURNS});",
         "!geyserpan: puts out more than the 1,048,576 bytes"),
        ("many lines", f"SELECT count(*), sum(line) FROM geyserpan_lines({lower}, (WITH RECURSIVE n(i) AS (VALUES (1)"
         " UNION ALL SELECT i + 1 FROM n WHERE i < 300000) SELECT group_concat(i, char(10)) FROM n),"
         f" {ALL_TURNS});", "300000|45000150000"),
        ("lines of a run that says no", f"{lines}({word}, '1');", "!geyserpan: the run ended with exit word 1"),
        ("lines of a refused image", f"{lines}(x'00', '1');", "!geyserpan: image I1"),
        ("no memory", f"PRAGMA hard_heap_limit = 1000000; SELECT length(geyserpan_run({lower}, hex(zeroblob(200000)),"
         f" {ALL_TURNS}));", "!out of memory"),
    )


def try_program(work, prefix, what, flags=(), **environment):
    """Builds the extension, and asks the program all of it in one process."""
    folder = f"{work}/{len(environment)}"
    shutil.copytree(f"{TOP}/embed/sqlite", folder)
    made = run(["make", "-C", folder, f"GEYSERPAN={prefix}", f"CFLAGS={' '.join(('-O2', '-Werror', *flags))}"])
    if not TALLY.check(f"{what} is built", made.status == 0, made.said[-1500:]):
        return
    word = f"x'{bytes_of(f'{work}/word.img').hex()}'"
    asked = [*examples(), *refused(), *answers(word), *streams(word)]
    script = f".load {folder}/geyserpan\n{SETTING}" + "".join(f"{sql}\n.print {MARK}\n" for _, sql, _ in asked)
    ran = run(["stdbuf", "-o0", "sh", "-c", "exec sqlite3 2>&1"], script.encode(), 600,
              env={**os.environ, **environment})
    came = ran.out.decode(errors="replace").split(f"{MARK}\n")
    for (name, _, wanted), told in zip(asked, [*came[:-1], *["no answer"] * len(asked)]):
        if wanted.startswith("!"):
            TALLY.check(f"{what}: {name}", "rror" in told and wanted[1:] in told, f"wanted {wanted[1:]}, came {told}")
        else:
            TALLY.same(f"{what}: {name}", told.removesuffix("\n"), wanted)
    is_over = ran.status in (0, 1) and not came[-1]
    TALLY.check(f"{what}: its end", is_over, f"wanted nothing more, came {ran.status}: {came[-1][-2000:]}")


def main(line):
    reader = Words(__doc__)
    reader.add_argument("--library")
    asked = reader.parse_args(line)
    for tool, there in (("sqlite3", has("sqlite3")), ("libsqlite3-dev", os.path.exists("/usr/include/sqlite3ext.h"))):
        if not there:
            TALLY.skip("all of it", f"Debian's package {tool}")
            return TALLY.end()
    built("sandbox")
    with tempfile.TemporaryDirectory() as work:
        prefix = library(TALLY, asked.library, work)
        if not prefix:
            return TALLY.end() or FAILED
        run([SANDBOX, "asm", put(f"{work}/word.s", WORD), f"{work}/word.img"])
        try_program(work, prefix, "sqlite3")
        asan = run(["cc", "-print-file-name=libasan.so"]).out.decode().strip()
        if os.path.isabs(asan):
            try_program(work, prefix, "AddressSanitizer", ("-g", "-fsanitize=address,undefined"), LD_PRELOAD=asan)
        else:
            TALLY.skip("AddressSanitizer", "its library")
    return TALLY.end()


if __name__ == "__main__":
    sys.exit(main(sys.argv[1:]))
