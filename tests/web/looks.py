"""Sizes of windows, light and dark, times, and pictures."""
import os
import time

from run import EXAMPLES, text_of
from seen import loop

SIZES = ((412, 915), (1024, 768), (1280, 800), (1920, 1080))
PARTS = ("header", "#editor", "#verdict", ".right", ".io", "#ending", "footer")
MACHINE = ("#windows-pane .circle", "#windows-pane .frames", "#windows-pane .regs", "#windows-pane .state", ".steps",
           "#windows-pane .say")
TEXTS = ("#verdict", "#ended", ".row span", ".number", "header button", "#lesson-text p", "#lesson-text td", "footer",
         ".found li", "#problems button", "label")
# The least contrast of letters, by the guidelines for accessible pages; those that can't be used are left out.
CONTRAST = 4.5
# Turns a second on the engine, in millions; the milliseconds of a check of 300 lines, and of 100,000 turns.
SPEED, CHECK, LOAD = 100, 50, 1000


def fits(page):
    """At each size nothing lies outside of the window, and each part has room; letters can be read, light and dark."""
    for width, height in SIZES:
        page.browser.size(width, height)
        for name in ("deep", "windows", "V14", "c-rot13"):
            page.open(f"#p={name}")
            page.press("b-step")
            at = f"{width} by {height}, {name}"
            page.check(f"{at}: it scrolls across", not page.look("scrollsAcross"))
            page.same(f"{at}: parts outside of the window", page.look("tooWide", [*PARTS, *MACHINE]), [])
            page.same(f"{at}: parts that lie one over the other", page.look("overlapping", MACHINE), [])
            page.same(f"{at}: parts without room", page.look("flat", [*PARTS, *MACHINE]), [])
            page.same(f"{at}: buttons that are cut off", page.look("cut"), [])
            contrasts(page, at)
    page.browser.size(1440, 900)


def contrasts(page, at):
    """Letters can be read, light and dark."""
    for theme in ("light", "dark"):
        page.js(f"document.documentElement.dataset.theme = '{theme}'")
        least = page.look("contrast", [f"{it}" for it in TEXTS])
        page.check(f"{at}, {theme}: a contrast of {least:.1f}", least >= CONTRAST)
        bars = page.js("getComputedStyle(document.documentElement).colorScheme")
        page.same(f"{at}, {theme}: scroll bars", bars, theme)


def speed(page):
    """Times, the best of three, with other work on the machine."""
    page.open()
    page.write(loop(100_000_000))
    speeds = []
    for _ in range(3):
        page.run()
        speeds.append(page.js("Number(document.querySelector('#ending').dataset.speed)"))
    checks = times(page, text_of(f"{EXAMPLES}/crc/crc.s"), "b-check", "verdict")
    page.write(loop(40_000))
    loads = []
    for _ in range(3):
        page.press("b-step")
        loads.append(page.js("Number(document.querySelector('#machine').dataset.time)"))
    page.check("100,000 turns are recorded", page.js("document.querySelector('#slide').max") == "100000")
    print(f"{page.browser.name}: {max(speeds):.0f} million turns a second; a check {min(checks):.1f} ms; 100,000 turns "
          f"{min(loads):.0f} ms; the load {os.getloadavg()[0]:.1f}", flush=True)
    if page.browser.name == "chromium":
        page.check(f"{speeds} million turns a second", max(speeds) >= SPEED)
    page.check(f"a check takes {checks} ms", min(checks) < CHECK)
    page.check(f"100,000 turns take {loads} ms", min(loads) < LOAD)


def times(page, text, button, told):
    """The milliseconds that a button takes, three times."""
    lines = text.count("\n")
    body = text + "".join(f"! line {it} of 300\n" for it in range(lines, 300))
    found = []
    for _ in range(3):
        page.write(body)
        page.press(button)
        found.append(page.js(f"Number(document.querySelector('#{told}').dataset.time)"))
    return found


def pictures(page, into):
    """Leaves pictures in a folder."""
    os.makedirs(into, exist_ok=True)
    for width, height in SIZES:
        page.browser.size(width, height)
        for name, theme in (("deep", "light"), ("windows", "dark"), ("V14", "light"), ("c-sort", "dark")):
            page.open(f"#p={name}")
            page.js(f"document.documentElement.dataset.theme = '{theme}'")
            page.press("b-step")
            for _ in range(20):
                page.press("s-next")
            time.sleep(0.3)
            page.browser.picture(f"{into}/{page.browser.name}-{width}-{name}-{theme}.png")
    page.browser.size(1440, 900)
