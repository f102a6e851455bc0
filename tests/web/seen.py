"""What the page does when it is opened, and when its buttons and keys are pressed."""
import json
import os
import re

import browser
from run import EXAMPLES, TOP, bytes_of, text_of

CHECKS = f"{TOP}/tests/inspect/check"
# Writes a register twice and another one in between, a turn each.
WRITES = """.services exit
.function main,leaf,0,0,20
.fuel 20
    mov 1,%o1
    mov 2,%o2
    mov 3,%o1
    mov 0,%o0
    ta 0
"""
# A loop of three rounds without annotations.
COUNTED = """.services exit
.function main,leaf,0,0,0
    mov 3,%o1
.block loop
    deccc %o1
    bne loop
    nop
.block done
    mov 0,%o0
    ta 0
"""
# Keeps what the page would save: the names, and the bytes.
KEEPS = """(() => {
  window.saved = {names: [], bytes: []};
  URL.createObjectURL = blob => {
    blob.arrayBuffer().then(it => window.saved.bytes.push(Array.from(new Uint8Array(it))));
    return 'blob:kept';
  };
  HTMLAnchorElement.prototype.click = function () { window.saved.names.push(this.download); };
})()"""
# So long is waited for a page to be ready that isn't to be, in seconds.
REFUSAL = 10


def begins(page):
    """The page is ready, and where it can't be it says why, and lets nobody do anything."""
    page.open()
    page.same("what is chosen first", page.look("text", "ended"), "Not run yet.")
    page.check("the first program is accepted", page.verdict().startswith("\u2713"), page.verdict())
    page.same("faults that the browser tells", [str(it) for it in page.browser.faults()], [])
    if page.browser.name == "chromium":
        page.same("what is asked for", page.browser.requests(), [f"file://{page.path}"])
    for name, change in (("turns", "0 00 u"), ("why", "accepted"), ("echo", page.kept["stored"]["hello"])):
        kept = json.loads(json.dumps(page.kept))
        kept["stored"][name] = change
        refuses(page, page.with_kept(kept), f"another {name}", "the self-test")
    for name in ("WebAssembly", "DecompressionStream"):
        without = page.with_script(f"globalThis.{name},", "undefined,")
        refuses(page, without, f"without {name}", f"this browser lacks {name}")
    page.open()


def refuses(page, path, name, why):
    """A page doesn't go on, and says why."""
    patience, browser.PATIENCE = browser.PATIENCE, REFUSAL
    try:
        page.browser.open(path)
        page.check(f"{name}: it goes on", False)
    except browser.Failed:
        said = page.verdict()
        page.check(f"{name}: {said}", f"doesn\u2019t go on: {why}" in said)
        page.check(f"{name}: a button can be pressed",
                   page.js("[...document.querySelectorAll('button')].every(it => it.disabled)"))
    browser.PATIENCE = patience


def example_of(program):
    """Where an example stands, without the end of its name."""
    folders = (program["name"], "lessons", "refused")
    return next((f"{EXAMPLES}/{it}/{program['name']}" for it in folders
                 if os.path.exists(f"{EXAMPLES}/{it}/{program['name']}.s")), None)


def programs(page):
    """Each program of the menu."""
    page.open()
    for program in page.programs.values():
        page.choose(program["name"])
        name, at = program["name"], example_of(program)
        page.same(f"{name}: the source", page.js("document.querySelector('#source').value"), program["source"])
        if page.verdict().startswith("\u2713"):
            ended, output = page.run()
            page.check(f"{name}: {ended}", re.match(r"exit word \d+ after [\d,]+ of at most", ended))
            if at and os.path.exists(f"{at}.out"):
                page.same(f"{name}: the output", output.encode("latin-1"), bytes_of(f"{at}.out"))
        else:
            refused(page, program, at)
        page.press("b-step")
        turns(page, program, at)


def refused(page, program, at):
    """What is said of a program that breaks a rule: quietly where a lesson steps through it."""
    said, name = page.verdict(), program["name"]
    if "lesson" in program:
        page.check(f"{name}: {said}", said.startswith("for stepping through"))
        page.check(f"{name}: what is known is folded", page.js("!document.querySelector('#problems details').open"))
    else:
        rule, = re.findall(r"refused (V\d+)", text_of(f"{at}.told"))
        page.check(f"{name}: {said}", f"refused by rule {rule}," in said)
        sentence = text_of(f"{at}.told").split("\n")[1]
        page.check(f"{name}: its rule's words", sentence in page.look("faults")[0], page.look("faults"))
    page.check(f"{name}: it can be run", page.js("document.querySelector('#b-run').disabled"))


def turns(page, program, at):
    """The turns of a program: as many as are stored, and the last one ends as the run did."""
    shown = page.look("text", "turn")
    count = re.match(r"turn \d+ of ([\d,]+)", shown)
    page.check(f"{program['name']}: {shown}", count)
    if at and os.path.exists(f"{at}.ran"):
        wanted = re.search(r"^turns: (\d+)", text_of(f"{at}.ran"), re.M)[1]
        page.same(f"{program['name']}: turns", count[1].replace(",", ""), wanted)
    page.press("s-end")
    if program.get("c") is not None:
        page.press("s-home")
        for _ in range(12):
            page.press("s-over")
        page.check(f"{program['name']}: a line of C is marked", page.look("nowInC"))


def faults(page):
    """Each fault at its line and column, with its sentence, and its line marked."""
    page.open()
    for name in sorted(os.listdir(CHECKS)):
        if not name.endswith(".told"):
            continue
        source = bytes_of(f"{CHECKS}/{name[:-5]}.s")
        try:
            text = source.decode()
        except UnicodeDecodeError:
            continue
        if "\r" in text or "\0" in text:  # (a text area keeps neither)
            continue
        page.write(text)
        told = re.findall(r"^\S*?\.s:(\d+):(\d+): ([A-Z]\d+): (.*)$", text_of(f"{CHECKS}/{name}"), re.M)
        page.same(f"{name}: faults", page.look("faults"), [f"{line}:{column} {code}{said}"
                                                           for line, column, code, said in told])
        page.check(f"{name}: marked lines", set(page.look("marked")) <= {int(it[0]) for it in told})


def buttons(page):
    """Each button does what it says."""
    page.open("#p=countdown")
    source = page.js("document.querySelector('#source').value")
    steps(page)
    page.press("b-all")
    page.check("all panes: the run's data", "\nv" in page.look("frame") and "id=\"data\"" in page.look("frame"))
    page.check("all panes are shown", page.look("shown", "full"))
    page.press("b-back")
    page.check("the panes are gone", not page.look("shown", "full"))
    before = page.js("getComputedStyle(document.body).backgroundColor")
    page.press("b-theme")
    page.check("light or dark", page.js("getComputedStyle(document.body).backgroundColor") != before)
    page.press("b-theme")
    page.press("b-help")
    page.check("keys", page.js("document.querySelector('#help').open"))
    page.js("document.querySelector('#help').close()")
    page.press("b-lessons")
    page.check("lessons", page.look("shown", "lessons") and page.look("lessonButtons"))
    page.press("b-lessons")
    page.check("lessons are gone", not page.look("shown", "lessons"))
    hints(page)
    annotates(page)
    writers(page)
    talks(page)
    stops(page)
    windows(page)
    page.write(source)
    saves(page)


def steps(page):
    """The buttons of steps, and the slider."""
    page.press("b-step")
    last = page.js("Number(document.querySelector('#slide').max)")
    for name, turn in (("s-next", 2), ("s-back", 1), ("s-home", 0), ("s-end", last), ("s-back", last - 1)):
        page.press(name)
        page.same(name, page.js("Number(document.querySelector('#slide').value)"), turn)
    page.press("s-home")
    for _ in range(4):
        page.press("s-over")
        page.check("a turn of the program itself", " user " in page.look("say"), page.look("say"))
    page.look("set", "slide", 7)
    page.check("the slider", page.look("text", "turn").startswith("turn 7 of"))
    page.check("the turn's line is marked", page.look("now"))


def hints(page):
    """A line that goes on behind the edge is told whole where it is pointed at, and one with a fault by that."""
    line = f"! {'words and more ' * 30}end"
    page.write(f"! short\n{line}\n    no instruction\n")
    page.same("a short line that is pointed at", page.look("hint", 1), "")
    page.same("a long one", page.look("hint", 2), line)
    page.check("one with a fault", re.match(r"[A-Z]\d+: ", page.look("hint", 3)), page.look("hint", 3))


def annotates(page):
    """A source without annotations gets them, is accepted then, and is what it was once that is undone; what isn't
    shown is told at its line."""
    page.write(COUNTED)
    page.check("it isn't accepted", page.verdict().startswith("\u2717 refused"), page.verdict())
    page.press("b-annotate")
    page.check("it is accepted with annotations", page.verdict().startswith("\u2713"), page.verdict())
    made = page.js("document.querySelector('#source').value")
    page.same("its lines are those that it had", without_annotations(made), without_annotations(COUNTED))
    page.press("b-annotate")
    page.same("nothing more is added", page.js("document.querySelector('#source').value"), made)
    page.js("[document.querySelector('#source').focus(), document.execCommand('undo')].length")
    page.same("what it was", page.js("document.querySelector('#source').value"), COUNTED)
    page.write(COUNTED.replace("    mov 0,%o0\n", ""))
    page.press("b-annotate")
    line = made.split("\n").index("    ta 0")
    page.check("what isn't shown is told at its line", f"{line} note" in page.look("text", "problems"),
               page.look("text", "problems"))
    page.write("    no instruction\n")
    page.check("a source with a fault isn't annotated", page.js("document.querySelector('#b-annotate').disabled"))


def without_annotations(source):
    """The lines of a source that are none, and of a function's its name."""
    lines = [it.strip() for it in source.split("\n")]
    return [it.partition(",")[0] for it in lines if not re.match(r"\.(cell|fuel|term|param|result|depth)\b", it)]


def writers(page):
    """A click on a register goes to the turn that wrote it, and then to the one before; C is shown and hidden."""
    page.write(WRITES)
    page.press("b-step")
    page.look("set", "slide", 4)
    for turn in (3, 1):
        page.js("document.querySelector('#windows-pane td[data-r=o1]').click()")
        page.same("the turn that wrote %o1", page.js("Number(document.querySelector('#slide').value)"), turn)
    page.choose("c-rot13")
    page.check("C is shown", page.look("shown", "c-text"))
    page.press("b-c")
    page.check("C is hidden", not page.look("shown", "c-text"))


def saves(page):
    """Source and image are saved under their names, each as it is."""
    page.open("#p=countdown")
    page.js(KEEPS)
    for name, end in (("source", "s"), ("image", "img")):
        wanted, before = f"{EXAMPLES}/countdown/countdown.{end}", page.js("window.saved.bytes.length")
        page.press(f"b-{name}")
        page.until(f"window.saved.bytes.length > {before}", f"the {name} is saved")
        page.same(f"the {name} that is saved", bytes(page.js("window.saved.bytes.at(-1)")), bytes_of(wanted))
    page.same("the names of what is saved", page.js("window.saved.names"), ["program.s", "program.img"])
    page.open()


def talks(page):
    """A run that waits for lines."""
    page.choose("echo")
    page.look("set", "input", "")
    page.press("talk")
    page.press("b-run")
    for line in ("one", "two"):
        page.until("!document.querySelector('#ask').hidden", "it waits for a line")
        page.look("set", "line", line)
        page.press("b-line")
    page.until("!document.querySelector('#ask').hidden", "it waits for more")
    page.press("b-eof")
    page.until("document.querySelector('#b-stop').hidden", "the run ends")
    page.same("what was said", page.look("text", "output"), "one\ntwo\n")
    page.press("talk")


def stops(page):
    """A long run can be given up."""
    page.write(loop(500_000_000))
    page.press("b-run")
    page.until("/running/.test(document.querySelector('#ended').textContent)", "it runs")
    page.press("b-stop")
    page.until("document.querySelector('#b-stop').hidden", "it stops")
    page.check("it was given up", page.ended().startswith("given up after"), page.ended())


def loop(rounds):
    """A source that goes round so often, of three turns each."""
    return f""".services exit
.function main,leaf,0,0,{4 * rounds + 100}
.fuel {4 * rounds + 100}
    set {rounds},%o0
.block loop
.cell %o0,1,{rounds},0
.fuel 3
.term %o0,4
    deccc %o0
    bne loop
    nop
.block done
.fuel 4
    mov 0,%o0
    ta 0
"""


def windows(page):
    """The count of windows, which changes turns and never the output; one that there isn't becomes one that there
    is."""
    page.choose("deep")
    seen = set()
    for count in (4, 8, 32):
        page.look("set", "windows", count, "change")
        ended, output = page.run()
        seen.add(output)
        page.press("b-step")
        page.check(f"{count} windows: {ended}", ended.startswith("exit word"))
    page.same("outputs", len(seen), 1)
    for given, wanted in ((3, 4), (33, 32), ("", 8), (5.5, 6)):
        page.look("set", "windows", given, "change")
        page.same(f"{given!r} windows", page.js("Number(document.querySelector('#windows').value)"), wanted)
    page.look("set", "windows", 8, "change")


def keys(page):
    """Keys, where the source has the focus and where it hasn't; and what a screen reader meets."""
    page.open("#p=countdown")
    page.press("b-step")
    turn = lambda: page.js("Number(document.querySelector('#slide').value)")
    page.js("document.querySelector('#s-next').focus()")
    for key, wanted in (("ArrowRight", 2), ("ArrowRight", 3), ("ArrowLeft", 2), ("Home", 0)):
        page.browser.key(key)
        page.same(f"the key {key}", turn(), wanted)
    page.browser.key("End")
    page.same("the key End", turn(), page.js("Number(document.querySelector('#slide').max)"))
    page.browser.key("Home")
    page.browser.key("u")
    page.check("the key u", turn() > 0)
    page.browser.key("?", shift=True)
    page.check("the key ?", page.js("document.querySelector('#help').open"))
    page.js("document.querySelector('#help').close()")
    page.js("document.querySelector('#source').focus()")
    before = page.js("document.querySelector('#source').value.length")
    page.browser.key("Tab")
    page.same("Tab writes blanks", page.js("document.querySelector('#source').value.length") - before, 4)
    page.browser.key("Escape")
    page.browser.key("Tab")
    page.check("Escape and then Tab leaves the source", page.js("document.activeElement.id") != "source")
    page.same("Tab behind Escape writes nothing",
              page.js("document.querySelector('#source').value.length") - before, 4)
    page.press("b-check")
    for name in ("Enter", "k", "i", "j"):
        page.check(f"Ctrl+{name} is bound", page.js(
            f"!document.body.dispatchEvent(new KeyboardEvent('keydown', {{key: '{name}', ctrlKey: true, "
            "bubbles: true, cancelable: true}))"))
        page.until("document.querySelector('#b-stop').hidden", "nothing runs")
    reads(page)


def reads(page):
    """What those need who see nothing: names, what is told without being asked for, and a way out of the source."""
    if page.browser.name == "chromium":
        page.same("what has no name", page.browser.unnamed(), [])
        page.press("b-lessons")
        page.same("what has no name in the lessons", page.browser.unnamed(), [])
        page.press("b-lessons")
    for name in ("verdict", "ending"):
        page.same(f"the role of {name}", page.js(f"document.querySelector('#{name}').getAttribute('role')"), "status")
    nobody = page.js("[...document.querySelectorAll('input, select, textarea')].filter(it => "
                     "!it.labels?.length && !it.ariaLabel && !it.getAttribute('aria-label')).map(it => it.id)")
    page.same("fields without a name", nobody, [])
