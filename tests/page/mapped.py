"""A page with the lines of C: what is seen there, held against the map and `inspect trace`, and names of a source."""
import collections
import os
import random
import re
import shutil

from data import told_by, unbroken
from run import CC, INSPECT, TOP, bytes_of, has, put, run, text_of

COMPILER = "sparc64-linux-gnu-gcc"
PROGRAM = f"{TOP}/tests/gdb/programs/list.c"
HEAD = re.compile(r" *(\d+) \d\d ([us]) ([0-9A-F]{8}) (vector \S+|\S+)")
WORD = re.compile(r"([0-9A-F]{8}) \d+ \d+ (.+):(\d+)")
SEEN = 60
NOW = "(it => it && it.dataset.line)(document.querySelector('#c .row.now'))"
ROWS = "[...document.querySelectorAll('#c .row.src')].map(it => it.querySelector('.tx').textContent)"
BARS = "[...document.querySelectorAll('#hot .bar')].map(it => [it.firstChild.textContent, it.lastChild.textContent])"


def c(pages):
    """The C of a page."""
    if not has(COMPILER):
        pages.tally.skip("a page with C", f"Debian's package {COMPILER}")
        return
    source, image, given = (f"{pages.folder}/list{it}" for it in (".c", ".img", ".in"))
    shutil.copy(PROGRAM, source)
    shutil.copy(f"{PROGRAM[:-2]}.in", given)
    made = run([CC, "list.c", "--map", "-o", "list.img"], cwd=pages.folder)
    if not pages.check("list.c is made", made.status == 0, made.said):
        return
    page = run([INSPECT, "page", "--map", "list.map", "list.img"], bytes_of(given), cwd=pages.folder)
    pages.check("its page is made", page.status == 0, page.said[-300:])
    told = unbroken(told_by("inspect", "trace", image, given=bytes_of(given)))
    turns = [HEAD.match(it).groups() for it in told]
    lines = lines_of(f"{pages.folder}/list.map")
    pages.browser.open(pages.written("list", page.out.decode()))
    whole = text_of(source).split("\n")[:-1]
    rows = pages.browser.js(ROWS)
    pages.check("the text of list.c", any(rows[at:at + len(whole)] == whole for at in range(len(rows))))
    for turn in random.Random(1).sample(range(1, len(turns) + 1), SEEN):
        seen_at(pages, turns, lines, turn)
    pages.browser.look("goTo", len(turns))
    said = pages.browser.js("document.querySelector('#say').textContent")
    pages.check("list: the end", "EXIT: list.c:23: a pointer leaves the program's data" in said, said)
    bars(pages, turns, lines)
    changed(pages, source, given, next(int(it[0]) for it in turns if lines.get(it[2], "").startswith("list.c")))
    names(pages)


def lines_of(path):
    """The line of C of each word, by a map."""
    found = (WORD.fullmatch(it) for it in text_of(path).splitlines())
    return {it[1]: f"{os.path.basename(it[2])}:{it[3]}" for it in found if it}


def seen_at(pages, turns, lines, turn):
    """The line of the program's last own turn is marked, and the sentence tells the line of this one."""
    pages.browser.look("goTo", turn)
    _, mode, address, _ = turns[turn - 1]
    own = next((it[2] for it in reversed(turns[:turn]) if it[1] == "u"), None)
    pages.same(f"list: turn {turn}: the line of C", pages.browser.js(NOW), lines.get(own))
    if mode == "u" and address in lines:
        said = pages.browser.js("document.querySelector('#say').textContent")
        pages.check(f"list: turn {turn}: the sentence", lines[address] in said and "main" in said, said)


def bars(pages, turns, lines):
    """Where the turns went: by line of C the turns that are its own, and those of its traps."""
    own, traps, last = collections.Counter(), collections.Counter(), None
    for _, mode, address, _ in turns:
        last = lines.get(address, last) if mode == "u" else last
        (own if mode == "u" else traps)[last] += 1
    told = {}
    for name, counts in pages.browser.js(BARS):
        told[name.split(" ")[0]] = [int(it) for it in counts.split(" + ")]
    wanted = {it: [count] + [traps[it]] * (traps[it] > 0) for it, count in own.items() if it}
    pages.same("list: where the turns went", told, wanted)


def changed(pages, source, given, turn):
    """Of a source that isn't the map's any more lines are told by their numbers alone; another image's map isn't
    taken."""
    put(source, text_of(source).replace("it->name", "it->nome"))
    page = run([INSPECT, "page", "--map", "list.map", "list.img"], bytes_of(given), cwd=pages.folder)
    pages.browser.open(pages.written("changed", page.out.decode()), f"#turn={turn}")
    text = pages.browser.js("document.querySelector('#c').textContent")
    pages.check("a source that was changed", "list.c: its text isn\u2019t there" in text and "nome" not in text)
    pages.check("its line is marked", str(pages.browser.js(NOW)).startswith("list.c:"))
    slots = pages.programs["slots"].image
    ran = run([INSPECT, "page", "--map", f"{pages.folder}/list.map", slots])
    pages.same("another image's map", (ran.status, ran.said),
               (2, f"inspect: {pages.folder}/list.map: the map is another image's"))


def names(pages):
    """With a source places, frames and blocks have its names, as `inspect trace --source` tells them."""
    program = pages.programs["sort"]
    words = ("--limit", "2000", "--source", program.source, program.image)
    told = unbroken(told_by("inspect", "trace", *words, given=program.given))
    pages.open("sort", "--source", program.source, "--limit", "2000")
    for turn in random.Random(2).sample(range(1, len(told) + 1), SEEN):
        pages.browser.look("goTo", turn)
        place = HEAD.match(told[turn - 1])[4]
        said = pages.browser.js("document.querySelector('#say').textContent")
        pages.check(f"sort: turn {turn}: the place", f" {place} \u00b7 " in said, f"wanted {place}, came {said}")
    known = set(re.findall(r" (?:function|block) (\S+)$", told_by("inspect", "map", program.source), re.M))
    shown = {it[0].split(" ")[0] for it in pages.browser.js(BARS)}
    pages.check("sort: where the turns went, by name", shown and shown <= known, f"{shown} of {known}")
