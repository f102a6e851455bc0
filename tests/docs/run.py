#!/usr/bin/env python3
"""usage: tests/docs/run.py [FILE ..]

Runs the commands that the pages of the repository (or the FILEs) show, and compares what they print;
docs/work/change.md says how a page shows them. Looks up the files and headings that the pages link to, the definitions
that they cite, and the crates, types and calls that those of docs name. Counts the lines of the files whose lines a
table tells, and the edits. Looks whether the map's tables have a row for each crate, those of docs/work/change.md one
for each suite, and docs/proof/trusted.md each script that builds what is proved, and whether docs/proof/contracts.md is
what tools/contracts prints. Holds sentences, paragraphs, semicolons and words to the limits of prose.py."""
import functools
import glob
import os
import re
import shlex
import subprocess
import sys
import tempfile

sys.dont_write_bytecode = True
sys.path.insert(0, f"{os.path.dirname(os.path.dirname(os.path.abspath(__file__)))}/lib")
import prose
from crates import TOP, crates
from run import built, has, put, text_of
from tally import Tally, Words

# The seconds that a command may take, above all one that waits for a keystroke.
PATIENCE = 300
# What a session needs, by Debian's packages.
NEEDED = {"gdb-multiarch": "gdb-multiarch", "sparc64-linux-gnu-gcc": "gcc-sparc64-linux-gnu"}
# What a session needs besides where a command has a word: the word, the tool, Debian's package.
NAMED = (("qemu-system-sparc", "qemu-system-sparc", "qemu-system-sparc"),
         ("./c++", "sparc64-linux-gnu-g++", "g++-sparc64-linux-gnu"), ("parallel ", "parallel", "parallel"))
PROMPT = "(gdb) "

FENCE = re.compile(r"^(\s*)```(.*)$")
# Names of definitions, and the file in which they stand.
CITED = re.compile(r"((?:`\w+`(?:, | and )?)+) of `(\w+/specs/\w+\.antt)`")
# What a page names: `CRATE::ITEM`, `TYPE::ITEM`, and the folder of a crate.
ITEM = re.compile(r"`(\w+(?:::\w+)+)")
FOLDER = re.compile(r"`crates/([a-z]\w*)")
# The words of what the map says of a crate: more of them stand in the head of its lib.rt.
CELL = 40
# Names of Rust's library, and of the kit's.
NOT_OURS = {"std", "io"}


class Broken(Exception):
    """A page whose blocks can't be read."""


def blocks(text):
    """Yields each fenced block of a page: its words, the number of its first line, and its lines."""
    words, number, lines, indent = None, 0, [], ""
    for at, line in enumerate(text.split("\n"), 1):
        fence = FENCE.match(line)
        if fence and words is None:
            indent, words, number, lines = fence.group(1), fence.group(2).split(), at + 1, []
        elif fence:
            yield words, number, lines
            words = None
        elif words is not None:
            lines.append(line[len(indent):] if line.startswith(indent) else line)
    if words is not None:
        raise Broken(f"the block of line {number} has no end")


def commands(number, lines):
    """Yields each command of a console block: its line's number, the command, and the lines that it has to print."""
    if not lines or not lines[0].startswith("$ "):
        raise Broken(f"line {number}: a console block begins with a command")
    at = 0
    while at < len(lines):
        start, command, printed = number + at, lines[at][2:], []
        at += 1
        while at < len(lines) and not lines[at].startswith("$ "):
            printed.append(lines[at])
            at += 1
        yield start, command, printed


def agrees(wanted, printed):
    """Whether lines are those that are wanted, where '..' stands for any lines."""
    if not wanted:
        return not printed
    if wanted[0] == "..":
        return any(agrees(wanted[1:], printed[at:]) for at in range(len(printed) + 1))
    return bool(printed) and printed[0] == wanted[0] and agrees(wanted[1:], printed[1:])


def printed_by(command, folder):
    """The lines that a command prints, on both streams, at a standard input on which nothing ever comes."""
    silent, kept_open = os.pipe()
    try:
        process = subprocess.Popen(["bash", "-c", command], cwd=folder, stdin=silent, stdout=subprocess.PIPE,
                                   stderr=subprocess.STDOUT, start_new_session=True)
        try:
            printed = process.communicate(timeout=PATIENCE)[0]
        except subprocess.TimeoutExpired:
            os.killpg(process.pid, 9)
            process.communicate()
            return [f"(no end after {PATIENCE} seconds: it may wait for a keystroke)"]
    finally:
        os.close(silent)
        os.close(kept_open)
    return printed.decode("utf-8", "replace").removesuffix("\n").split("\n") if printed else []


def play(tally, page, folder):
    """Runs a page in a folder, and counts whether each of its commands printed what the page shows."""
    for words, number, lines in blocks(text_of(page)):
        if len(words) == 2:
            put(os.path.join(folder, os.path.basename(words[1])), "\n".join(lines) + "\n")
        if words[:1] == ["console"]:
            for start, command, wanted in commands(number, lines):
                came = printed_by(command, folder)
                name = f"{os.path.relpath(page, TOP)}:{start}: $ {command}"
                tally.check(name, agrees(wanted, came), f"wanted {wanted}, came {came}")
        if words == ["session"]:
            play_session(tally, page, folder, commands(number, lines))


def play_session(tally, page, folder, steps):
    """Runs a block of commands that need a compiler, or gdb, which gets the lines behind its prompt: what is shown is
    printed in this order, among other lines, and `..` in a line stands for any text. Where these aren't there it is
    skipped."""
    steps = list(steps)
    named = {tool: package for word, tool, package in NAMED if any(word in command for _, command, _ in steps)}
    for tool, package in {**NEEDED, **named}.items():
        if not has(tool):
            tally.skip(f"a session of {os.path.relpath(page, TOP)}", f"Debian's package {package}")
            return
    for start, command, shown in steps:
        asked = [it.removeprefix(PROMPT) for it in shown if it.startswith(PROMPT)]
        words = " -batch" + "".join(f" -ex {shlex.quote(it)}" for it in asked) if asked else ""
        came = iter(printed_by(command + words, folder))
        wanted = [it for it in shown if not it.startswith(PROMPT)]
        missing = [it for it in wanted if not any(is_alike(it.strip(), line.strip()) for line in came)]
        name = f"{os.path.relpath(page, TOP)}:{start}: $ {command}"
        tally.check(name, not missing, f"wanted {missing[:1]}")


def is_alike(wanted, line):
    """Whether a line is the one that is wanted, where '..' stands for any text."""
    return re.fullmatch(".*".join(re.escape(it) for it in wanted.split("..")), line) is not None


def headings(text):
    """The names under which the headings of a page are linked to."""
    shown = re.sub(r"^```.*?^```$", "", text, flags=re.M | re.S)
    return {re.sub(r"[^\w\- ]", "", it.lower()).replace(" ", "-") for it in re.findall(r"^#+ (.*)$", shown, re.M)}


def dead_links(page):
    """Yields the links of a page that lead to no file of the repository, or to no heading of a page."""
    for link in re.findall(r"\]\(([^)]+)\)", text_of(page)):
        path, _, heading = link.partition("#")
        target = os.path.normpath(os.path.join(os.path.dirname(page), path)) if path else page
        if "://" in link:
            continue
        if not os.path.exists(target) or heading and heading not in headings(text_of(target)):
            yield link


def lost_definitions(page):
    """Yields what a page cites of a file of definitions, as '`NAME`, .. of `CRATE/specs/FILE.antt`', and the file
    hasn't."""
    for names, path in CITED.findall(text_of(page)):
        file = f"{TOP}/crates/{path}"
        text = text_of(file) if os.path.exists(file) else ""
        yield from (f"{it} of {path}" for it in re.findall(r"`(\w+)`", names) if not re.search(rf"\b{it}\b", text))


@functools.cache
def names_in(crate):
    """All names in the sources and the definitions of a crate."""
    files = [it for part in ("src", "specs") for it in glob.glob(f"{TOP}/crates/{crate}/{part}/**/*.*", recursive=True)]
    return {name for it in files for name in re.findall(r"\w+", text_of(it))}


def lost_names(page):
    """Yields the crates, types and calls that a page names, as `CRATE::ITEM` or `TYPE::ITEM`, and that aren't there."""
    known, text = crates(), text_of(page)
    for named in ITEM.findall(text):
        first, *names = named.split("::")
        if first in known:
            there = names_in(first)
        else:
            names, there = [first, *names], set().union(*map(names_in, known))
        if first not in NOT_OURS and not there.issuperset(names):
            yield named
    yield from (f"crates/{it}" for it in FOLDER.findall(text) if it not in known)


def lines_of(folder, name):
    """How many lines a file of definitions has; none where it isn't there."""
    path = f"{TOP}/crates/{folder}/{name}.antt"
    return text_of(path).count("\n") if os.path.exists(path) else 0


def wrong_counts(page):
    """Yields the rows of a page's tables whose files' lines aren't as the row says:
    '| .. | `CRATE/specs`: NAME LINES, .. | SUM |'."""
    rows = [line.strip().strip("|").split("|") for line in text_of(page).split("\n") if line.startswith("|")]
    for row in rows:
        if len(row) == 3 and re.match(r" *`\w+/specs`: ", row[1]):
            told = [(folder, name, int(count)) for folder, names in re.findall(r"`(\w+/specs)`: ([^;]*)", row[1])
                    for name, count in re.findall(r"(\w+) (\d+)", names)]
            counted = [(folder, name, lines_of(folder, name)) for folder, name, _ in told]
            if told != counted or sum(it[2] for it in counted) != int(row[2].strip().replace(",", "")):
                yield f"{row[0].strip()}: {', '.join(f'{name} {count}' for _, name, count in counted)}"


def wrong_rows(page):
    """Yields the crates that don't stand in just one row of a page's tables of crates, what stands there and is none,
    and cells that are longer than a reader takes in."""
    tables = re.findall(r"^\| crate \|.*\n((?:\|.*\n)+)", text_of(page), re.M)
    for row in (it for table in tables for it in table.splitlines()):
        if len(row.split("|")[2].split()) > CELL:
            yield f"a cell of more than {CELL} words: {row}"
    told = [name for table in tables for row in table.splitlines()
            for name in re.findall(r"`(\w+)`", row.split("|")[1])]
    known = crates()
    yield from sorted(name for name in {*told, *known} if told.count(name) != 1 or name not in known)


def lost_scripts(page):
    """Yields the scripts by which a program is proved and built, and that a page's row of scripts doesn't name."""
    row = next(it for it in text_of(page).split("\n") if it.startswith("| **scripts** |"))
    left, found = [f"{TOP}/tools/build/{it}" for it in ("launch", "build-program", "rt-anew", "rt-once")], set()
    while left:
        path = left.pop()
        found.add(path)
        asked = re.findall(r"^(?:from|import) (\w+)", text_of(path), re.M)
        near = [f"{TOP}/{folder}/{it}.py" for folder in ("tools/build", "tools", "tests/lib") for it in asked]
        left += [it for it in near if os.path.exists(it) and it not in found]
    yield from sorted(os.path.relpath(it, TOP) for it in found if os.path.basename(it) not in row)


def kept_edits():
    """How many edits are kept, those of the gate and those of tests/edits."""
    lists = "".join(text_of(it) for it in glob.glob(f"{TOP}/tests/edits/*.edits"))
    return len(glob.glob(f"{TOP}/crates/*/must-fail/*.edit")) + len(re.findall(r"^edit: ", lists, re.M))


def wrong_suites(page):
    """Yields the suites that don't stand in just one row of a page's tables of commands, and what stands there and is
    none."""
    told = re.findall(r"^\| `tests/run ([\w-]+)", text_of(page), re.M)
    known = {os.path.basename(os.path.dirname(it)) for it in glob.glob(f"{TOP}/tests/*/run.py")} - {"lib"}
    yield from sorted(name for name in {*told, *known} if told.count(name) != 1 or name not in known)


def try_map(tally):
    """The picture of the rings, the heads of crates.txt, and the table of shared names."""
    drawn = subprocess.run([f"{TOP}/tools/map"], stdout=subprocess.PIPE, text=True, check=False).stdout
    tally.check("docs/work/map.svg", drawn == text_of(f"{TOP}/docs/work/map.svg"), "wanted what tools/map prints")
    for tool in ("map", "namesakes"):
        ran = subprocess.run([f"{TOP}/tools/{tool}", "--check"], stdout=subprocess.PIPE, text=True, check=False)
        tally.check(f"tools/{tool} --check", ran.returncode == 0, ran.stdout.strip())


def try_page(tally, page):
    """A page's commands, links and tables."""
    name = os.path.relpath(page, TOP)
    with tempfile.TemporaryDirectory() as folder:
        for it in os.listdir(TOP):
            os.symlink(f"{TOP}/{it}", f"{folder}/{it}")
        try:
            play(tally, page, folder)
        except Broken as fault:
            tally.check(name, False, str(fault))
    for link in dead_links(page):
        tally.check(name, False, f"nothing stands at {link}")
    for it in lost_definitions(page):
        tally.check(name, False, f"there is no definition {it}")
    for it in lost_names(page) if name.startswith("docs/") else ():
        tally.check(name, False, f"there is nothing that is called {it}")
    for row in wrong_counts(page):
        tally.check(name, False, f"other lines: {row}")
    for crate in wrong_rows(page) if name == "docs/work/map.md" else ():
        tally.check(name, False, f"wanted one row for each crate and no other, came {crate}")
    for script in lost_scripts(page) if name == "docs/proof/trusted.md" else ():
        tally.check(name, False, f"wanted each script that builds what is proved, came none of {script}")
    if name == "docs/proof/security.md":
        tally.check(name, f" {kept_edits():,} such edits are kept " in text_of(page), f"wanted {kept_edits():,} edits")
    if name == "docs/work/map.md":
        try_map(tally)
    for suite in wrong_suites(page) if name == "docs/work/change.md" else ():
        tally.check(name, False, f"wanted one row for each suite and no other, came {suite}")
    if name == "docs/proof/contracts.md":
        is_same = subprocess.run([f"{TOP}/tools/contracts", "--check"], check=False).returncode == 0
        tally.check(name, is_same, "wanted what tools/contracts prints")


def main(words):
    reader = Words(__doc__)
    reader.add_files("files")
    pages = [os.path.abspath(it) for it in reader.parse_args(words).files]
    built("sandbox", "inspect", "host", "fit", "board")
    tally = Tally("docs")
    for page in pages or [f"{TOP}/{it}" for it in sorted(prose.all_pages())]:
        try_page(tally, page)
    prose.hold(tally, [os.path.relpath(it, TOP) for it in pages] or prose.all_pages())
    return tally.end()


if __name__ == "__main__":
    sys.exit(main(sys.argv[1:]))
