"""What a rule costs a row, in several languages of one server."""
import os
import random

from answers import COMPILER, NAMES, RULE, compiled, has_failed, loaded, whole_line
from natively import directory, lacks, object_in
from run import built, has, put, run
from server import config

HERE = os.path.dirname(os.path.abspath(__file__))
# So many lines differ; the table repeats them.
DISTINCT = 5000
# How often each is measured: the least counts.
ROUNDS = 5
SETTING = "SET max_parallel_workers_per_gather = 0; SET jit = off;\n"
REGEX = """'"[^"]*" ([0-9]{3})'"""
PERL_REGEX = r"""my ($status) = $_[0] =~ /"[^"]*" ([0-9]{3})/; return $status >= 500 ? 't' : 'f';"""
PERL_BYTES = r"""my ($quotes, $status, $digits) = (0, 0, 0);
    for my $c (unpack('C*', $_[0])) {
        if ($c == 34) { $quotes++ }
        elsif ($quotes == 2 && $c >= 48 && $c <= 57) { $status = $status * 10 + $c - 48; last if ++$digits == 3 }
    }
    return $status >= 500 ? 't' : 'f';"""
PYTHON_REGEX = """if "pattern" not in SD:
    import re
    SD["pattern"] = re.compile(r'"[^"]*" ([0-9]{3})')
return int(SD["pattern"].search(line)[1]) >= 500"""
PYTHON_BYTES = """quotes = status = digits = 0
for c in line.encode():
    if c == 34:
        quotes += 1
    elif quotes == 2 and 48 <= c <= 57:
        status = status * 10 + c - 48
        digits += 1
        if digits == 3:
            break
return status >= 500"""
PLPGSQL_BYTES = """DECLARE quotes int := 0; status int := 0; digits int := 0; bytes bytea := line::bytea; c int;
BEGIN
    FOR i IN 0 .. length(bytes) - 1 LOOP
        c := get_byte(bytes, i);
        IF c = 34 THEN quotes := quotes + 1;
        ELSIF quotes = 2 AND c BETWEEN 48 AND 57 THEN
            status := status * 10 + c - 48; digits := digits + 1; EXIT WHEN digits = 3;
        END IF;
    END LOOP;
    RETURN status >= 500;
END"""


def create(name, language, body):
    """A function of the language."""
    return f"CREATE FUNCTION {name}(line text) RETURNS boolean LANGUAGE {language} IMMUTABLE AS $$ {body} $$;\n"


# What is measured: its name, the extension that it needs, what makes it, and its condition.
WAYS = (
    ("the scan alone: `length(line) > 0`", None, "", "length(line) > 0"),
    ("C, a function of the server", None,
     "CREATE FUNCTION native_failed(text) RETURNS boolean LANGUAGE C IMMUTABLE STRICT AS '$libdir/native';\n",
     "native_failed(line)"),
    ("SQL, `substring(line from ..)`", None, "", f"substring(line from {REGEX})::int >= 500"),
    ("SQL, `split_part` twice", None, "", "split_part(split_part(line, '\"', 3), ' ', 2)::int >= 500"),
    ("PL/pgSQL, the regular expression", None,
     create("plpgsql_regex", "plpgsql", f"BEGIN RETURN substring(line from {REGEX})::int >= 500; END"),
     "plpgsql_regex(line)"),
    ("PL/pgSQL, byte by byte", None, create("plpgsql_bytes", "plpgsql", PLPGSQL_BYTES), "plpgsql_bytes(line)"),
    ("PL/Perl, a regular expression", "plperl", create("plperl_regex", "plperl", PERL_REGEX), "plperl_regex(line)"),
    ("PL/Perl (plperlu), byte by byte", "plperlu", create("plperl_bytes", "plperlu", PERL_BYTES),
     "plperl_bytes(line)"),
    ("plpython3u, a regular expression", "plpython3u", create("python_regex", "plpython3u", f"\n{PYTHON_REGEX}\n"),
     "python_regex(line)"),
    ("plpython3u, byte by byte", "plpython3u", create("python_bytes", "plpython3u", f"\n{PYTHON_BYTES}\n"),
     "python_bytes(line)"),
    ("**LANGUAGE geyserpan**, the rule from C, byte by byte", None,
     "CREATE FUNCTION has_failed(text) RETURNS boolean LANGUAGE geyserpan IMMUTABLE AS :'image';\n",
     "has_failed(line)"),
    ("`geyserpan_match`, the same image as a constant", None, "", "geyserpan_match(:'image', line)"),
)
# The same by an object of native code, where one can be made.
BY_OBJECT = (
    ("**LANGUAGE geyserpan**, the same rule by an object", None,
     "CREATE FUNCTION native_rule(text) RETURNS boolean LANGUAGE geyserpan IMMUTABLE AS :'image';\n",
     "native_rule(line)"),
    ("`geyserpan_match`, by an object", None, "", "geyserpan_match(:'image', line)"),
)


def native(work):
    """Builds the rule as a function of the server."""
    target = f"{work.server.root}{config('pkglibdir')}/native.so"
    include = f"-I{config('includedir-server')}"
    ran = run(["cc", "-O2", "-Wall", "-fPIC", "-shared", include, f"{HERE}/native.c", "-o", target])
    work.tally.check("native.c", ran.status == 0, ran.said)


def fill(work):
    """Makes the table, and returns how many of its lines have failed."""
    lots = random.Random(80)
    lines = [whole_line(lots, NAMES) for _ in range(DISTINCT)]
    repeats, rest = divmod(work.rows, DISTINCT)
    path = put(work.at("log.txt"), "\n".join(lines * repeats + lines[:rest]) + "\n")
    work.server.ask("DROP TABLE IF EXISTS log;")
    work.server.ask(f"CREATE TABLE log (line text); COPY log FROM '{path}'; VACUUM ANALYZE log;")
    failed = [has_failed(it) for it in lines]
    return sum(failed) * repeats + sum(failed[:rest]), sum(map(len, lines)) / DISTINCT


def ticks(told):
    """The processor time of a backend, in seconds, from its line in /proc."""
    fields = told.rpartition(")")[2].split()
    return (int(fields[11]) + int(fields[12])) / os.sysconf("SC_CLK_TCK")


def measure(work, image, way, setting=SETTING):
    """The rows that a condition finds, and the least seconds of the backend's processor that it takes."""
    _, _, makes, condition = way
    now = "SELECT pg_read_file('/proc/self/stat');"
    query = f"{now} SELECT count(*) FROM log WHERE {condition}; {now}"
    told = work.server.answers([query] * ROUNDS, f"{loaded(image)}{setting}{makes}", seconds=3600)
    rounds = [[it for it in lines.split("\n") if it] for lines, _ in told]
    if any(len(it) != 3 for it in rounds):
        return rounds[0][-1], 0
    return rounds[0][1], min(ticks(it[2]) - ticks(it[0]) for it in rounds)


def tell(work, image, way, failed, setting=SETTING):
    """Prints the line of a way."""
    count, seconds = measure(work, image, way, setting)
    wanted = work.rows if "scan" in way[0] else failed
    if work.tally.same(way[0], count, str(wanted)):
        print(f"| {way[0]} | {seconds / work.rows * 1e6:.2f} | {work.rows / seconds:,.0f} |", flush=True)


def tell_native(work, image, failed):
    """Prints the lines of the ways by an object."""
    if lacks():
        work.tally.skip("the rule by an object", lacks())
        return
    folder = work.at("objects")
    if object_in(work, folder, image):
        for way in BY_OBJECT:
            tell(work, image, way, failed, SETTING + directory(folder))


def speed(work):
    """The table of docs/work/figures.md."""
    if not has(COMPILER):
        work.tally.skip("speed", "Debian's package gcc-sparc64-linux-gnu")
        return
    built("sandbox", "fit")
    native(work)
    image, (failed, length) = compiled(work, "rule", RULE), fill(work)
    few = f"(SELECT line FROM log LIMIT {DISTINCT}) few"
    turns = work.server.ask(f"{loaded(image)}SELECT round(avg(r.turns)) FROM {few},"
                            " geyserpan_report(:'image', line::bytea) r;").strip()
    print(f"{work.rows:,} lines of {length:.0f} bytes, {turns} turns a line, {failed:,} have failed\n"
          "| | microseconds a row | rows a second |\n|---|---|---|", flush=True)
    for way in WAYS:
        if way[1] and "ERROR" in work.server.ask(f"CREATE EXTENSION IF NOT EXISTS {way[1]};"):
            work.tally.skip(way[0], f"the extension {way[1]}")
            continue
        tell(work, image, way, failed)
    tell_native(work, image, failed)
    work.server.ask("DROP TABLE log;")
