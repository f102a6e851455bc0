"""Runs that are broken off: by a timeout, by another session, and by memory that is refused."""
import os
import subprocess
import time

from run import EXAMPLES, bytes_of
from sessions import COPY

HERE = os.path.dirname(os.path.abspath(__file__))
# Counts down from 2,147,483,647.
SLOW = """.services exit
.function main,leaf,0,0,6442450950
.fuel 6442450950
    set 2147483647,%o1
.block loop
.cell %o1,1,2147483647,0
.fuel 4
.term %o1,3
    deccc %o1
    bne loop
    nop
.block done
.fuel 4
    mov 0,%o0
    ta 0
"""
GRANTED = "SET geyserpan.max_turns = 10000000000;\n"
# `held` is what the library has in use, without the heads of its context's blocks, of which that keeps free ones.
PROGRAMS = f"""{GRANTED}CREATE TABLE program (name text, image geyserpan_image);
INSERT INTO program VALUES ('slow', geyserpan_assemble($${SLOW}$$)), ('copy', geyserpan_assemble($${COPY}$$));
CREATE FUNCTION slowly(text) RETURNS boolean LANGUAGE geyserpan AS $${SLOW}$$;
CREATE VIEW held AS SELECT sum(used_bytes - 40 * total_nblocks) AS bytes FROM pg_backend_memory_contexts
    WHERE name = 'geyserpan';
"""
# A call of each way to run.
CALLS = {
    "a rule": "SELECT geyserpan_match(image, 'x') FROM program WHERE name = 'slow';",
    "a run": "SELECT geyserpan_run(image, 'x') FROM program WHERE name = 'slow';",
    "lines": "SELECT geyserpan_lines(image, 'x') FROM program WHERE name = 'slow';",
    "an aggregate": "SELECT geyserpan_fold(image, 'x') FROM program WHERE name = 'slow';",
    "a function": "SELECT slowly('x');",
}
STILL = "SELECT geyserpan_run(image, 'still here') FROM program WHERE name = 'copy';"
# Breaks off a session whose statement is marked, a fifth of a second after it is seen.
BREAKING = """DO $$
DECLARE victim int;
BEGIN
    FOR i IN 1 .. 1200 LOOP
        PERFORM pg_sleep(0.05), pg_stat_clear_snapshot();
        SELECT pid INTO victim FROM pg_stat_activity WHERE query LIKE '/* MARK */%' AND state = 'active';
        EXIT WHEN victim IS NOT NULL;
    END LOOP;
    PERFORM pg_sleep(0.2), BREAKS(victim);
END $$;
"""
# So soon does a session end, or go on, whose run is broken off, with other work on the machine: the run itself would
# take half a minute of a processor.
PATIENCE = 20


def stopped(work):
    """Each way to run, broken off."""
    work.server.ask(PROGRAMS)
    asked = [it for name, call in CALLS.items() for it in (
        (f"{name}: statement_timeout", f"SET statement_timeout = '200ms';\n{call}", "!57014"),
        (f"{name}: the session goes on", f"RESET statement_timeout;\n{STILL}", "still here"))]
    work.answered(asked, GRANTED)
    for name, call in CALLS.items():
        by_session(work, f"{name}: pg_cancel_backend", call, "57014")
    by_session(work, "a rule: pg_terminate_backend", CALLS["a rule"], "57P01")
    leaves_nothing(work)
    work.server.ask("DROP VIEW held; DROP FUNCTION slowly; DROP TABLE program;")


def by_session(work, name, call, sqlstate):
    """Another session ends it."""
    words = work.server.words("-v", "VERBOSITY=sqlstate", "-c", GRANTED, "-c", f"/* {name} */ {call}")
    with subprocess.Popen(words, stdin=subprocess.DEVNULL, stdout=subprocess.PIPE, stderr=subprocess.STDOUT, text=True,
                          env=work.server.environment()) as ran:
        work.server.ask(BREAKING.replace("MARK", name).replace("BREAKS", name.split()[-1]))
        begun = time.monotonic()
        told = ran.communicate()[0]
    took = time.monotonic() - begun
    work.tally.check(name, sqlstate in told and took < PATIENCE,
                     f"wanted {sqlstate} within {PATIENCE} seconds, came {told!r} in {took:.1f}")


def leaves_nothing(work):
    """Runs that are broken off at many moments leave no byte behind."""
    moments = range(1, 25)
    broken = "".join(f"SET statement_timeout = {at}; {call}\n" for at in moments for call in CALLS.values())
    warm = "".join(f"SET statement_timeout = 20; {call}\n" for call in CALLS.values())
    setting = f"{GRANTED}{warm}RESET statement_timeout;\n{STILL}\nSELECT bytes AS before FROM held \\gset\n"
    (told, _), (kept, _) = work.server.answers([broken, f"RESET statement_timeout;\n{STILL}\n"
                                                "SELECT bytes - :before FROM held;"], setting)
    ended = [it for it in told.splitlines() if "ERROR" not in it and not it.startswith("LINE")]
    work.tally.same("runs broken off after 1 to 24 ms: what they answer", ended, [])
    work.tally.same("runs broken off after 1 to 24 ms: what stays", kept, "still here\n0\n")


# ---- growths that are refused

# Statements that ask for memory, and what they print where they get it.
ASKING = {
    "a verdict": ("SELECT geyserpan_check(:'image');", "accepted"),
    "an assembly": ("SELECT geyserpan_check(geyserpan_assemble(:'source'));", "accepted"),
    "a run": ("SELECT geyserpan_run(:'image', 'abc');", "abc"),
    "a rule": ("SELECT geyserpan_match(:'image', 'abc');", "t"),
    "lines": (r"SELECT string_agg(line, '+') FROM geyserpan_lines(:'image', E'a\nb') line;", "a+b"),
    "an aggregate": ("SELECT geyserpan_fold(:'image', g::text) FROM generate_series(1, 5) g;", "12345"),
    "a function": ("SELECT copied('abc');", "abc"),
    "CREATE FUNCTION": ("CREATE OR REPLACE FUNCTION made(text) RETURNS text LANGUAGE geyserpan AS :'image';", ""),
    "a deep call": ("SELECT geyserpan_match(:'deep', '');", "t"),
}


def growths(work):
    """Each growth of each statement, refused in turn in a session of its own, in the extension with refusing.c linked
    into it: it is told as that of memory, and the statement then gives what it has to."""
    flags = "PG_LDFLAGS=-Wl,--wrap=rattle_alloc,--wrap=rattle_realloc"
    made = work.build("install", flags, sources=[f"{HERE}/refusing.c"], name="refusing")
    if not work.tally.check("refusing.c", made.status == 0, made.said[-1500:]):
        return
    work.server.ask("LOAD 'geyserpan'; ALTER DATABASE postgres SET geyserpan.max_turns = 20000000;\n\\c -\n"
                    "CREATE FUNCTION refuse_growth(bigint) RETURNS bigint LANGUAGE C VOLATILE AS '$libdir/geyserpan',"
                    " 'sql_refuse_growth';\n"
                    f"CREATE FUNCTION copied(text) RETURNS text LANGUAGE geyserpan AS $${COPY}$$;\n")
    deep = f"\\\\x{bytes_of(f'{EXAMPLES}/deep/deep.img').hex()}"
    setting = f"SELECT geyserpan_assemble($${COPY}$$) AS image, $${COPY}$$ AS source, E'{deep}' AS deep \\gset\n"
    counts = [int(told.split()[-1]) for told, _ in
              work.server.answers([f"\\c -\nSELECT refuse_growth(-1);\n{sql}\nSELECT refuse_growth(-1);"
                                   for sql, _ in ASKING.values()], setting)]
    work.tally.check("growths", all(it > 2 for it in counts), f"wanted some of each, came {counts}")
    for (name, (sql, wanted)), count in zip(ASKING.items(), counts):
        refuse_each(work, name, sql, wanted, (setting, count))
    print("refused in turn:", ", ".join(f"{count} of {name}" for name, count in zip(ASKING, counts)))
    work.server.ask("ALTER DATABASE postgres RESET geyserpan.max_turns; DROP FUNCTION refuse_growth, copied, made;")
    work.build("install")


def refuse_each(work, name, sql, wanted, session):
    """Refuses each growth of a statement: SQLSTATE 53200, or the right answer where the library has asked for less
    instead, and so once more."""
    setting, count = session
    statements = [it for at in range(count) for it in (
        f"\\c -\n\\o /dev/null\nSELECT refuse_growth({at});\n\\o\n{sql}", "SELECT refuse_growth(-1);", sql)]
    came = work.server.answers(statements, setting)
    for at in range(count):
        (told, state), (asked, _), (behind, _) = came[3 * at:3 * at + 3]
        again = told.strip() == wanted and asked.strip().isdigit() and int(asked) > count
        work.tally.check(f"{name}: growth {at}", state == "53200" or again, f"wanted 53200, came {state} {told}")
        work.tally.same(f"{name}: behind growth {at}", behind.strip(), wanted)
