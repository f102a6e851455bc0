"""Sessions of other roles, of parallel workers and of a restored dump, and values of 1 GB."""
from run import run

# Ends with the word that the first byte is as a digit.
WORD = """.services exit,get
.function main,leaf,0,0,9
.fuel 9
    ta 1
    sub %o0,48,%o0
    ta 0
"""
# Puts out what comes in, up to 1,000,000 bytes.
COPY = """.services exit,get,put
.function main,leaf,0,0,16000020
.fuel 16000020
    set 1000000,%o1
.block loop
.cell %o1,1,1000000,0
.fuel 4
.term %o1,16
    ta 1
    cmp %o0,-1
    be done
    nop
.block body
.cell %o0,0,255,0
.cell %o1,1,1000000,0
.fuel -4
.term %o1,16
    ta 2
    deccc %o1
    bne loop
    nop
.block done
.fuel 4
    mov 0,%o0
    ta 0
"""
FUNCTION = f"CREATE FUNCTION is_zero(text) RETURNS boolean LANGUAGE geyserpan IMMUTABLE PARALLEL SAFE AS $${WORD}$$;"


# Whether a statement's plan has parallel workers.
PLAN = """CREATE FUNCTION has_workers(asked text) RETURNS boolean LANGUAGE plpgsql AS $$
DECLARE line text;
BEGIN
    FOR line IN EXECUTE 'EXPLAIN ' || asked LOOP
        IF line LIKE '%Workers Planned%' THEN RETURN true; END IF;
    END LOOP;
    RETURN false;
END $$;
"""


def tenants(work):
    """A role that may create in its database, and nothing else."""
    as_tenant, as_owner = "\\c shop tenant\n", "\\c postgres postgres\n"
    work.answered((
        ("a tenant makes the extension", f"{as_tenant}CREATE EXTENSION geyserpan;", ""),
        ("a tenant makes a function", FUNCTION, ""),
        ("a tenant calls it", "SELECT is_zero('0'), is_zero('1');", "t|f"),
        ("a tenant makes no function in C",
         "CREATE FUNCTION own(text) RETURNS text LANGUAGE C AS 'geyserpan', 'sql_run';", "!42501"),
        ("a tenant grants himself no turns", "SET geyserpan.max_turns = 20000000;", "!42501"),
        ("a tenant grants himself no memory", "SET geyserpan.max_memory = '1GB';", "!42501"),
        ("turns of a role", f"{as_owner}ALTER ROLE tenant SET geyserpan.max_turns = 8;", ""),
        ("a tenant's turns are his role's", f"{as_tenant}SELECT is_zero('0');", "!53400"),
        ("a role has no turns of its own", f"{as_owner}ALTER ROLE tenant RESET geyserpan.max_turns;", ""),
        ("a tenant's turns are what all have", f"{as_tenant}SELECT is_zero('0');", "t"),
    ), "CREATE ROLE tenant LOGIN;\nCREATE DATABASE shop OWNER tenant;\n")


def parallel(work):
    """Answers of parallel workers, and of a database that was dumped and restored."""
    counted = "SELECT count(*) FILTER (WHERE is_zero(n)), count(*) FILTER (WHERE NOT is_zero(n)) FROM number;"
    setting = (f"{FUNCTION}\nCREATE TABLE number AS SELECT g::text AS n FROM generate_series(0, 199999) g;\n"
               "ANALYZE number; SET max_parallel_workers_per_gather = 4; SET parallel_setup_cost = 0;\n"
               "SET parallel_tuple_cost = 0; SET min_parallel_table_scan_size = 0;\n"
               f"SELECT geyserpan_assemble($${WORD}$$) AS image \\gset\n{PLAN}")
    # of 0 to 199,999 one begins with 0; with 1 begin 1 + 10 + .. + 10,000, and all from 100,000 on
    work.answered((("a plan with workers", f"SELECT has_workers($${counted}$$);", "t"),
                   ("workers", counted, "1|111111"),
                   ("workers with an image", "SELECT count(*) FROM number WHERE geyserpan_match(:'image', n);", "1")),
                  setting)
    dump = run(["pg_dump", "-f", work.at("dump.sql")], env=work.server.environment())
    work.tally.check("pg_dump", dump.status == 0, dump.said[-500:])
    restore = f"\\o /dev/null\n\\i {work.at('dump.sql')}\n\\o\n\\c restored\n"
    work.answered((("a dump that was restored", restore + counted, "1|111111"),),
                  "CREATE DATABASE restored;\n\\c restored\n")
    work.server.ask("DROP DATABASE restored; DROP TABLE number; DROP FUNCTION is_zero, has_workers;")


def long(work):
    """Values of 1 GB: an image, an input, an output."""
    as_bytes, as_text = (it.format("repeat('S', 1073741000)") for it in ("convert_to({}, 'UTF8')", "{}"))
    work.answered((
        ("1 GB: an image", f"SELECT geyserpan_verify({as_bytes});", "!22P03"),
        ("1 GB: an input of a rule", f"SELECT geyserpan_match(:'image', {as_text});", "t"),
        ("1 GB: an input", f"SELECT length(geyserpan_run(:'image', {as_text}));", "1000000"),
        ("1 GB: an output that is too long", "SET geyserpan.max_output = '900kB';"
         f" SELECT geyserpan_run(:'image', {as_text});", "!54000"),
    ), f"SELECT geyserpan_assemble($${COPY}$$) AS image \\gset\nSET geyserpan.max_turns = 20000000;\n")
