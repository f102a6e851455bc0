"""What is seen at a turn, held against what the programs tell and against docs/learn/course.md."""
import os
import random
import re
import subprocess

from data import LIMIT, told_by
from pages import WINDOWS
from run import TOP, text_of
from watch import Watch

# How many turns of a run are looked at: in Chromium on 8 windows, and else.
SEEN, SEEN_ELSEWHERE = 400, 40


def turns(pages):
    """What is seen of all programs on all counts of windows."""
    looked = 0
    for program in pages.programs.values():
        for windows in WINDOWS:
            page = program.page("--windows", str(windows), "--limit", str(LIMIT))
            most = SEEN if windows == 8 and pages.browser.name == "chromium" else SEEN_ELSEWHERE
            looked += Watch(pages.tally, pages.browser, program, windows).look(
                pages.written(f"{program.name}-{windows}", page), most
            )
    for program in pages.further:
        looked += Watch(pages.tally, pages.browser, program, 8).look(pages.written(program.name, program.page()), SEEN)
    count = len(pages.programs) * len(WINDOWS) + len(pages.further)
    print(f"{pages.browser.name}: {looked} turns of {count} pages looked at", flush=True)
    same_both_ways(pages)
    for name in ("fault", "slots", "sort"):
        source(pages, pages.programs[name])
    for name in ("V3", "V6", "V9", "V14"):
        reason(pages, name)


def same_both_ways(pages):
    """A turn looks the same whichever way it was reached."""
    pages.open("chain")
    shown = []
    for _ in range(331):
        shown.append(pages.browser.look("picture"))
        pages.browser.js("document.querySelector('#b-next').click()")
    for turn in random.Random(1).sample(range(331), 60):
        pages.browser.look("goTo", turn)
        pages.check(f"chain: turn {turn} looks another way after a jump", pages.browser.look("picture") == shown[turn])


def source(pages, program):
    """With a source each line stands as it is written; lines have the addresses of their words, in order."""
    pages.open(program.name, "--source", program.source, "--limit", "1000", turn=2)
    rows = pages.browser.look("sourceRows")
    lines = text_of(program.source).split("\n")[:-1]
    pages.same(f"{program.name}: the source", [re.sub(" +", " ", it[1]) for it in rows],
               [re.sub(" +", " ", it) for it in lines])
    addresses = [it[0] for it in rows if it[0]]
    pages.check(f"{program.name}: addresses of lines",
                set(addresses) <= set(program.listing) and addresses == sorted(addresses))
    pages.check(f"{program.name}: the source is shown first",
                pages.browser.look("isShown", "#src") and not pages.browser.look("isShown", "#code"))
    pages.browser.key("s")
    pages.check(f"{program.name}: words behind s",
                pages.browser.look("isShown", "#code") and not pages.browser.look("isShown", "#src"))
    pages.browser.key("s")
    now = pages.browser.js("document.querySelector('#src .row.now').dataset.a")
    pages.same(f"{program.name}: the second word's line", now, "00040000" if program.name == "fault" else "00040004")


def reason(pages, name):
    """Of an image that is refused, what `inspect why` tells stands behind the word."""
    image = f"{pages.folder}/{name}.img"
    told_by("sandbox", "asm", f"{TOP}/examples/refused/{name}.s", image)
    why = told_by("inspect", "why", image).splitlines()
    pages.browser.open(pages.written(name, told_by("inspect", "page", image)))
    told = [why[0][-8:], f"\u2716 {why[0]}: {why[1]}", "\n".join(why[2:]).strip()]
    pages.same(f"{name}: the reason", pages.browser.look("reason"), [*told, False])
    pages.same(f"{name}: the verdict", pages.browser.js("document.querySelector('#verdict').textContent"), why[0])
    pages.browser.key("w")
    pages.same(f"{name}: w shows the reason", pages.browser.look("reason"), [*told, True])
    pages.browser.key("w")
    pages.same(f"{name}: and folds it", pages.browser.look("reason"), [*told, False])
    pages.check(f"{name}: a bound of an image that isn't accepted",
                "ends by" not in pages.browser.look("see", 1)["fuel"])


def course(pages):
    """What docs/learn/course.md says of a turn is seen there, and what it works out by hand."""
    text = text_of(f"{TOP}/docs/learn/course.md")
    said = 0
    commands = re.findall(r"^\$ (.*\./inspect page .*) > (\w+)\.html\n```\n+((?:\|.*\n)+)", text, re.M)
    for command, name, table in commands:
        path = f"{pages.folder}/{name}.html"
        command = command.replace("./inspect", f"{TOP}/inspect").replace("examples/", f"{TOP}/examples/")
        subprocess.run(["bash", "-c", f"{command} > {path}"], cwd=pages.folder, stdin=subprocess.DEVNULL, check=True)
        for row in table.splitlines()[2:]:
            _, turn, seen = row.split("|", 2)
            said += is_seen(pages, path, int(turn), re.findall(r"`([^`]+)`", seen))
    pages.check(f"docs/learn/course.md: {said} things that are seen at turns", said > 30)
    worked_walk(pages, text)
    stored_frames(pages)


def is_seen(pages, path, turn, texts):
    """Looks whether the texts are written on the page at a turn, and returns how many they are."""
    pages.browser.open(path, f"#turn={turn}")
    shown = re.sub(r"\s+", " ", pages.browser.look("written"))
    for text in texts:
        name = f"docs/learn/course.md: {text!r} isn't seen at turn {turn} of {os.path.basename(path)}"
        pages.check(name, text in shown)
    return len(texts)


def worked_walk(pages, text):
    """The walk of lesson 4, which the course works out."""
    worked = re.findall(r"^\| (\d) \| (\w{4})(?: \+ 4 × (\w+))? \| (\w{8}) \|", text, re.M)
    pages.open("fault")
    walk = [
        re.match(r"level (\d)(?: index \w\w)? (\w{4}) (\w{8}) ", it).groups()
        for it in pages.browser.look("see", 3)["walk"]
    ]
    pages.same("lesson 4: the walk", walk, [(level, f"{int(table, 16) + 4 * int(index or '0'):04X}", word) for level,
                                            table, index, word in worked])


def stored_frames(pages):
    """Of lesson 3: the first frame is on the stack from turn 27 to turn 58, and no other one is."""
    pages.open("windows")
    for turn in range(1, 68):
        frames = pages.browser.look("see", turn)["frames"]
        stored = [at for at, it in enumerate(frames) if "STORED" in it]
        pages.same(f"lesson 3, turn {turn}: the frames that are stored", stored,
                   [len(frames) - 1] if 27 <= turn < 58 else [])
