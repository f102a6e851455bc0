"""What a user does: keys, buttons and links, two runs side by side, and what is looked for."""
import random
import re
import time

from data import told_by
from run import put


def keys(pages):
    """Keys, buttons, the slider, links, and what those need who see no colour or nothing."""
    steps(pages)
    plays(pages)
    links(pages)
    layouts(pages)
    without_colour(pages)
    if pages.browser.name == "chromium":
        without_sight(pages)


def steps(pages):
    """The keys that step."""
    pages.open("chain", turn=123)
    for key, shift, wanted in (
        ("", False, 123),
        ("ArrowRight", False, 124),
        ("ArrowLeft", False, 123),
        ("ArrowRight", True, 133),
        ("ArrowLeft", True, 123),
        ("End", False, 330),
        ("ArrowRight", False, 330),
        ("Home", False, 0),
        ("ArrowLeft", False, 0),
        ("t", False, 19),
        ("t", False, 46),
        ("T", True, 19),
        ("u", False, 43),
        ("U", True, 19),
        ("o", False, 182),
        ("O", True, 182),
    ):
        if key:
            pages.browser.key(key, shift)
        pages.same(f"the turn behind {'shift and ' if shift else ''}{key or 'a link'}", pages.turn(), wanted)
    time.sleep(0.6)
    pages.same("the address", pages.browser.js("location.hash"), "#turn=182")
    pages.browser.look("slideTo", 200)
    pages.same("the slider's turn", pages.turn(), 200)
    pages.browser.look("goTo", 32)
    pages.browser.js("document.querySelector('#first [data-r=g1]').click()")
    pages.same("the turn that wrote %g1", pages.turn(), 25)


def plays(pages):
    """Space plays, and pauses."""
    pages.browser.look("goTo", 19)
    pages.browser.key(" ")
    time.sleep(1.6)
    pages.browser.key(" ")
    played = pages.turn()
    pages.check(f"space plays: {played}", 20 <= played <= 22)
    time.sleep(0.8)
    pages.same("space pauses", pages.turn(), played)


def links(pages):
    """The page's address names a turn, and nothing else."""
    path = f"{pages.folder}/chain.html"
    for anchor, wanted in (
        ("#turn=x", 0),
        ("#turn=99999999", 330),
        ("#turn=-1", 0),
        ("#%3Cimg src=x onerror=alert(1)%3E", 0),
        ("", 0),
        ("#turn=77", 77),
    ):
        pages.browser.open(path, anchor)
        pages.same(f"the turn of the address {anchor!r}", pages.turn(), wanted)


def layouts(pages):
    """Large panes, decimal, dark and light."""
    colour = "getComputedStyle(document.body).backgroundColor"
    before = pages.browser.js(colour)
    pages.browser.key("d")
    pages.check("d changes dark and light", pages.browser.js(colour) != before)
    pages.browser.key("x")
    pages.same("x: registers", pages.browser.js("document.querySelector('#b-base').textContent"), "decimal")
    for key, gone in (("1", "c"), ("2", "c"), ("3", "b"), ("0", "d")):
        pages.browser.key(key)
        pages.check(f"key {key}",
                    not pages.browser.look("isShown", f"section.{gone}") and not pages.browser.look("scrolls"))


def without_colour(pages):
    """What a colour tells, a sign tells too."""
    pages.open("chain", turn=38)
    signs = pages.browser.look("signs")
    pages.check(f"a word that changed has no sign: {signs['changed']}", "\u25c4" in signs["changed"])
    pages.same("the rows' signs", signs["rows"], sorted(["38", "PC", "nPC", "trap"]))
    pages.same("signs of the marked window, stored frames, pages", (signs["masks"], signs["stored"], signs["pages"]),
               (1, True, True))


def without_sight(pages):
    """All has a name, turns are read out, and all that is pressed or scrolled is reached by Tab."""
    pages.same("parts without a name for a screen reader", pages.browser.unnamed(), [])
    pages.same("how a turn is read out", pages.browser.js("document.querySelector('#say').getAttribute('aria-live')"),
               "polite")
    reached = set()
    for _ in range(40):
        pages.browser.key("Tab")
        reached.add(pages.browser.js("document.activeElement.id"))
    wanted = {"b-next", "b-help", "slide", "goto", "what", "wanted", "stop", "code", "sup", "traps", "out", "hot"}
    pages.check(f"not reached by Tab: {sorted(wanted - reached)}", wanted <= reached)


def runs(pages):
    """Two runs: on other windows the same turns of the program and the same output; other inputs; other images."""
    for name in ("windows", "deep", "sort", "chain"):
        on_windows(pages, pages.programs[name])
    exchange(pages)
    sort, other = pages.programs["sort"], put(f"{pages.folder}/other.in", "another input")
    pages.open("sort", "--beside-input", other)
    pages.browser.look("choose", "together", "output")
    for _ in range(5):
        pages.browser.key("o")
    outputs = pages.browser.js("[...document.querySelectorAll('#out1, #out2')].map(it => it.textContent)")
    pages.same("two inputs, stepped by output", outputs,
               [told_by("sandbox", "run", sort.image, given=it)[:5] for it in (sort.given, b"another input")])
    pages.open("chain", "--beside-image", pages.programs["hello"].image)
    pages.browser.key("b")
    rows = pages.browser.js("document.querySelectorAll('#code .row[data-a]').length")
    pages.same("exchanged: words of the other image", rows, len(pages.programs["hello"].listing))


def own_turns(told):
    """The numbers of the turns that aren't of window traps."""
    found, handler = [], False
    for turn in told:
        trapped = any(re.match("trap 0[56]", it) for it in turn[6])
        handler = trapped or handler and turn[2] == "s"
        if not handler:
            found.append(int(turn[0]))
    return found


def on_windows(pages, program):
    """A run on 8 windows, and beside it the one on 4."""
    pages.open(program.name, "--beside-windows", "4")
    first, second = program.told(8), program.told(4)
    own, other_own = own_turns(first), own_turns(second)
    pages.same(f"{program.name}: turns without those of window traps", len(own), len(other_own))
    for turn in random.Random(2).sample(range(1, len(first) + 1), min(25, len(first))) + [len(first)]:
        pages.browser.look("goTo", turn)
        count = sum(it <= turn for it in own)
        other, at = other_own[count - 1] if count else 0, f"{program.name}, two runs, turn {turn}"
        pages.same(f"{at}: where both stand", pages.browser.look("bothTurns"), [turn, other])
        table = pages.browser.look("comparison")
        pages.same(f"{at}: turns without window traps", table["without them"], [str(count), "=", str(count)])
        pages.same(f"{at}: turns in window traps", table["of these in window traps"][::2],
                   [str(turn - count), str(other - count)])
        pages.same(f"{at}: the output", table["output"][1], "=")
        if turn in own:
            here = first[turn][3] if turn < len(first) else ""
            there = second[other][3] if other < len(second) else ""
            pages.same(f"{at}: PC", table["PC"][1], "=" if here == there else "\u2260")


def exchange(pages):
    """The other run takes the first one's place, and back."""
    title, titles = "document.querySelector('#first h2.run').textContent.slice(0, 9)", []
    for key in "bb":
        titles.append(pages.browser.js(title))
        pages.browser.key(key)
    pages.same("exchange", [*titles, pages.browser.js(title)], ["8 windows", "4 windows", "8 windows"])
    pages.browser.key("0")
    pages.check("one run with all panes",
                pages.browser.look("isShown", "section.a") and not pages.browser.look("isShown", "#second"))
    pages.browser.key("4")
    pages.check("both runs again", pages.browser.look("isShown", "#second"))


def stops(pages):
    """What is looked for is found, forward and back, and play stops there."""
    told = pages.programs["chain"].told(8)
    pages.open("chain")

    def has(text):
        return lambda turn: any(it.startswith(text) for it in turn[6])

    for what, text, holds in (
        ("address", "00040078", lambda it: it[3] == "00040078"),
        ("address", "overflow+0", lambda it: it[4] == "overflow+0"),
        ("address", "f7", lambda it: it[4] == "f7+0"),
        ("trap", "", has("trap ")),
        ("trap", "06", has("trap 06")),
        ("trap", "underflow", has("trap 06")),
        ("register", "%o0", has("%o0=")),
        ("register", "sp", has("%sp=")),
        ("register", "wim", has("WIM=")),
        ("memory", "000FFFFC", has("[000FFFFC]=")),
        ("text", "puts out", has("puts out")),
        ("text", "std %fp", lambda it: it[5].startswith("std %fp")),
    ):
        finds(pages, what, text, [at for at, it in enumerate(told, 1) if holds(it)])
    pages.browser.look("ask", "register", "%zz")
    pages.browser.key("n")
    pages.check("a register that is none",
                pages.browser.js("document.querySelector('#found').textContent").startswith("no such"))
    pages.browser.look("goTo", 17)
    pages.browser.look("ask", "trap", "05")
    pages.browser.js("document.querySelector('#stop').checked = true")
    pages.browser.key(" ")
    time.sleep(3)
    pages.same("play stops at a trap", pages.turn(), 19)


def finds(pages, what, text, wanted):
    """Looks for something from the start to the end, and once back."""
    pages.browser.look("goTo", 0)
    pages.browser.look("ask", what, text)
    found = []
    for _ in wanted:
        pages.browser.key("n")
        found.append(pages.turn())
    pages.same(f"find {what} {text!r}", found, wanted)
    pages.browser.key("n")
    pages.same(f"find {what} {text!r}, at the end", pages.browser.js("document.querySelector('#found').textContent"),
               "none further on")
    pages.browser.key("N", True)
    pages.same(f"find {what} {text!r}, backward", pages.turn(), wanted[-2] if len(wanted) > 1 else wanted[-1])
