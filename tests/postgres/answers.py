"""What the extension answers, beside what stands in files or what Python reckons."""
import glob
import os
import random
import re

from run import CC, EXAMPLES, TOP, built, bytes_of, has, put, run, text_of

COMPILER = "sparc64-linux-gnu-gcc"
# The most turns that an image can declare.
ALL_TURNS = "SET geyserpan.max_turns = 1099511627776; SET geyserpan.max_output = '1000MB';\n"
# What the path of a line in an access log may be made of.
NAMES = ("", "a", "index.html", "1234", "q?id=17")


def loaded(path, variable="image"):
    """A line of SQL by which a variable is the bytes of a file, as text of a bytea."""
    return f"SELECT '\\x' || encode(pg_read_binary_file('{path}'), 'hex') AS {variable} \\gset\n"


def installcheck(work):
    """The extension's own tests."""
    ran = work.build("installcheck")
    diffs = f"{work.at('extension')}/regression.diffs"
    told = text_of(diffs) if os.path.exists(diffs) else ran.said
    passed = re.search(r"All (\d+) tests passed", ran.said)
    work.tally.check("make installcheck", ran.status == 0 and passed and int(passed[1]) == 5, told[-6000:])


# ---- examples


def facts_beside(told):
    """The facts of an image from the text beside it, as SQL prints them."""
    services = re.search(r"^\.services (.*)$", told, re.M)
    words, data = re.search(r"^! words of code: (\d+), bytes of data: (\d+)$", told, re.M).groups()
    stack = re.search(r"^\.stack (\d+)$", told, re.M)
    functions = re.findall(r"^\.function (.*)$", told, re.M)
    depth = re.search(r"^\.depth (\d+)$", told, re.M)
    version = 3 if depth else 2 if re.search(r"^\.region", told, re.M) else 1
    return "|".join(map(str, [functions[0].split(",")[4], f"{{{services[1] if services else ''}}}", version, words,
                              data, stack[1] if stack else 1, len(functions), depth[1] if depth else 0]))


def try_example(work, image):
    """What is asked of an example, and what stands beside it."""
    beside, name = image.removesuffix(".img"), os.path.basename(image)
    given = bytes_of(f"{beside}.in") if os.path.exists(f"{beside}.in") else b""
    bytes_at, input_at = put(work.at(name), bytes_of(image)), put(work.at(f"{name}.in"), given)
    ran = text_of(f"{beside}.ran")
    exit_word = int(re.search(r"^end: exit with the word ([0-9A-F]{8})$", ran, re.M)[1], 16)
    turns = re.search(r"^turns: (\d+) of", ran, re.M)[1]
    wanted = f"{bytes_of(f'{beside}.out').hex()}|{exit_word}|{turns}"
    report = f"geyserpan_report(:'image', pg_read_binary_file('{input_at}'))"
    yield f"{name}: its run", f"{loaded(bytes_at)}SELECT encode(output, 'hex'), exit, turns FROM {report};", wanted
    yield f"{name}: its facts", "SELECT (geyserpan_facts(:'image')).*;", facts_beside(text_of(f"{beside}.told"))


def examples(work):
    """Each example image on its input."""
    images = sorted(it for it in glob.glob(f"{EXAMPLES}/*/*.img") if "/refused/" not in it)
    work.answered([it for image in images for it in try_example(work, image)], ALL_TURNS)


# ---- refused images


def try_refused(work, told):
    """What is asked of a refused source or image."""
    name, verdict = os.path.basename(told)[:-5], text_of(told).splitlines()[0]
    error = f"!42P13ERROR:  geyserpan: {verdict}"
    create = "CREATE FUNCTION refused(text) RETURNS text LANGUAGE geyserpan AS"
    if os.path.exists(image := told.replace(".told", ".img")):
        given = loaded(put(work.at(f"{name}.img"), bytes_of(image)))
    else:
        path = put(work.at(f"{name}.s"), text_of(told.replace(".told", ".s")))
        given = f"SELECT s AS source, geyserpan_assemble(s) AS image FROM pg_read_file('{path}') s \\gset\n"
        yield f"{name}: its source as a body", f"{given}{create} :'source';", error
    yield f"{name}: as a body", f"{given}{create} :'image';", error
    yield f"{name}: as a value", "SELECT :'image'::geyserpan_image;", error
    yield f"{name}: its verdict", "SELECT geyserpan_check(:'image');", verdict


def refused(work):
    """Each refused source and image: SQLSTATE, rule, function and address."""
    asked = [it for told in sorted(glob.glob(f"{EXAMPLES}/refused/*.told")) for it in try_refused(work, told)]
    none = ("no function was made", "SELECT count(*) FROM pg_proc WHERE proname = 'refused';", "0")
    work.answered([*asked, none])


# ---- rules from C

RULE = text_of(f"{TOP}/tests/lib/rule.c")
BREAKING = """#include "plug.h"
static int seen[10];
int main(void) {
    int c;
    while ((c = get()) >= 0)
        seen[c - '0']++;
    return seen[0] != 0;
}
"""


def compiled(work, name, source):
    """The image of a program in C, or None."""
    image = work.at(f"{name}.img")
    ran = run([CC, put(work.at(f"{name}.c"), source), "-o", image, "--turns", "20000"], seconds=None)
    return image if work.tally.check(f"{name}.c", ran.status == 0, ran.said[-1500:]) else None


def whole_line(lots, names=(*NAMES, "x" * 30)):
    """A line of an access log, whose path is made of some of these names."""
    address = ".".join(str(lots.randrange(256)) for _ in range(4))
    path = "/".join(lots.choice(names) for _ in range(lots.randrange(6)))
    status = lots.choice((200,) * 12 + (204, 301, 404, 499, 500, 503, 599, 999))
    request, sent = f'"GET /{path} HTTP/1.1"', lots.randrange(99999)
    return f"{address} - - [12/Mar/2026:00:00:00 +0000] {request} {status} {sent} 0.583"


def line_of(lots):
    """A line of an access log, or the front of one."""
    whole = whole_line(lots)
    return whole[: lots.randrange(len(whole))] if lots.random() < 0.1 else whole


def has_failed(line):
    """What the rule means, in other words: the first three digits behind the second quote, as far as they go before
    the next quote."""
    parts = line.split('"')
    digits = re.sub(r"[^0-9]", "", parts[2])[:3] if len(parts) > 2 else ""
    return int(digits or "0") >= 500


def rules(work):
    """A rule over many lines, and a rule that breaks."""
    if not has(COMPILER):
        work.tally.skip("rules from C", "Debian's package gcc-sparc64-linux-gnu")
        return
    built("sandbox", "fit")
    rule, breaking = compiled(work, "rule", RULE), compiled(work, "breaking", BREAKING)
    if rule and breaking:
        try_rule(work, rule)
        try_breaking(work, breaking)


def try_rule(work, image, setting=""):
    """The rule's answers row by row, by a function and by geyserpan_match, in a session with this setting."""
    lots = random.Random(15)
    lines = [line_of(lots) for _ in range(20000)]
    wanted = "".join("t" if has_failed(it) else "f" for it in lines)
    path = put(work.at("lines"), "\n".join(lines) + "\n")
    setting += (f"CREATE TABLE line (number serial, line text); COPY line (line) FROM '{path}';\n{loaded(image)}"
                "CREATE FUNCTION has_failed(text) RETURNS boolean LANGUAGE geyserpan AS :'image';\n")
    calls = ("has_failed(line)", "geyserpan_match(:'image', line)")
    came = work.server.answers([f"SELECT string_agg(coalesce(left(({it})::text, 1), '-'), '' ORDER BY number)"
                                " FROM line;" for it in calls], setting)
    for call, (told, _) in zip(calls, came):
        differ = [lines[at] for at in range(len(lines)) if told[at:at + 1] != wanted[at]]
        work.tally.check(f"20,000 answers of {call}", not differ, f"wanted Python's, came others at {differ[:3]}")
    work.server.ask("DROP TABLE line; DROP FUNCTION has_failed;")


def try_breaking(work, image):
    """A rule whose index leaves its object: null, and not false; test and line of the source."""
    line = BREAKING.splitlines().index("        seen[c - '0']++;") + 1
    asked = (("a rule that breaks", "SELECT t, breaking(t) FROM unnest(ARRAY['12', '10', '1x', '']) t;",
              "12|t\n10|f\n1x|\n|t"),
             ("where it breaks", "SELECT test, line FROM geyserpan_report(:'image', '1x'::bytea);", f"index|{line}"))
    create = "CREATE FUNCTION breaking(text) RETURNS boolean LANGUAGE geyserpan AS :'image';"
    work.answered(asked, loaded(image) + create)


# ---- the page


def page(work):
    """The way from a C file to a WHERE clause that docs/embed/postgres.md shows."""
    text, folder = text_of(f"{TOP}/docs/embed/postgres.md"), work.at("page")
    if not has(COMPILER):
        work.tally.skip("docs/embed/postgres.md", "Debian's package gcc-sparc64-linux-gnu")
        return
    built("sandbox", "fit")
    os.makedirs(folder)
    os.symlink(CC, f"{folder}/cc")
    name, source = re.search(r"^```c (\S+)\n(.*?)^```$", text, re.M | re.S).groups()
    script, wanted = re.search(r"^```sh\n(.*?)^```\n+```\n(.*?)^```$", text, re.M | re.S).groups()
    put(f"{folder}/{name}", source)
    work.server.ask("DROP EXTENSION geyserpan CASCADE;")
    ran = run(["bash", "-eu", "-c", script], cwd=folder, env=work.server.environment())
    work.tally.same("docs/embed/postgres.md", ran.said, wanted.strip())
