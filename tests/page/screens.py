"""Strangers' markup, sizes of windows, times, and pictures."""
import os
import time

from data import Program, told_by
from run import TOP, put

BENCH = f"{TOP}/crates/sbx_bench/data"
# The pixels of the smallest letters at 1280 by 800, and the milliseconds that a step and a load of 100,000 turns may
# take.
LETTERS, STEP, LOAD = 11, 50, 1000
SIZES = ((1280, 800), (1920, 1080), (1024, 768), (2560, 1440))
# A phone, and the pixels of its smallest letters, with two dots or more to each.
PHONE, PHONE_LETTERS = (412, 915), 9
# What is on the screen, and in which tables letters are small.
SHOWN = (
    "#code",
    "#src",
    "#sup",
    "#first .circle",
    "#first .open",
    "#first .regs",
    "#first .state",
    "#pages",
    "#walk",
    "#mem",
    "#traps",
    "#out",
    "#fuel",
    "#hot",
    ".foot",
)
# What stands above the panes.
STACKED = ("header", ".time", "#say", ".seek")
TWO_TABLES = ("#first .regs", "#second .regs", "#first .state", "#second .state", "#compare")
SIDE_LETTERS = (
    "#walk td, #mem td, #traps div, #first .open li, .tile, .pg span, #hot span, .row span, #first .regs td, "
    "#first .regs th, .state span, .bytes, .foot, .lb, section h2, section h2 span"
)
HOSTILE = "</script><img src=x onerror=document.title=1><script>document.title=1</script>&lt;\"'\\\n"
# Pictures: the program, the turn, the size of the window, and words.
PICTURES = (
    ("sort", 20700, 1280, 800, ()),
    ("chain", 38, 1280, 800, ()),
    ("windows", 20, 1280, 800, ("--beside-windows", "4")),
    ("fault", 3, 1024, 768, ()),
    ("slots", 8, 1920, 1080, ()),
    ("crc", 400, 1280, 800, ("--windows", "32")),
)


def hostile_program(folder):
    """A program whose source, data and output have markup."""
    lines = [".services exit,put", ".function main,leaf,0,0,1000", ".fuel 1000", f"! {HOSTILE.strip()}"]
    for byte in HOSTILE.encode() + b"\0\xe2\x80\xae":
        lines += [f"mov {byte},%o0", "ta 2"]
    lines += ["mov 0,%o0", "ta 0", ".data", ".byte " + ",".join(str(it) for it in HOSTILE.encode())]
    return Program(put(f"{folder}/hostile.s", "\n".join(lines) + "\n"), folder)


def strangers(pages):
    """Markup of a stranger's output, data and source is text; nothing runs and nothing is asked for."""
    hostile = hostile_program(pages.folder)
    page = hostile.page("--source", hostile.source)
    pages.same("elements in the file", [page.count(it) for it in ("<script", "</script>", "<img")], [4, 4, 0])
    path = pages.written("hostile", page)
    pages.browser.open(path, "#turn=999999")
    pages.check("hostile output became markup", not pages.browser.look("becameMarkup"))
    shown = pages.browser.js("document.querySelector('#out').textContent")
    pages.same("hostile output", shown, HOSTILE.replace("\\\n", "\\\\\\n\n") + "\\x00\\xE2\\x80\\xAE")
    pages.check("a hostile source's line",
                HOSTILE.strip() in pages.browser.js("document.querySelector('#src').textContent"))
    if pages.browser.name == "chromium":
        pages.same("what is asked for", [it.partition("#")[0] for it in pages.browser.requests()], [f"file://{path}"])
    pages.browser.look("addScript")
    pages.browser.look("addImage")
    time.sleep(0.5)
    pages.same("a script and an image that are put in are refused by the policy", pages.browser.js("document.title"),
               "refused")
    if pages.browser.name == "chromium":
        pages.check("the policy isn't told of",
                    any("Content Security Policy" in str(it) for it in pages.browser.faults()))


def fits(pages):
    """Each part is on the screen at four sizes, whole; letters are large enough."""
    single = []
    for name, turn in (("chain", 38), ("sort", 20700), ("fault", 3)):
        program = pages.programs[name]
        single.append((turn, pages.written(name, program.page("--source", program.source))))
    two = pages.written("two", pages.programs["chain"].page("--beside-windows", "4"))
    for width, height in SIZES:
        pages.browser.size(width, height)
        for turn, path in single:
            pages.browser.open(path, f"#turn={turn}")
            fits_one(pages, f"{width} by {height}, {os.path.basename(path)}", (width, height))
        pages.browser.open(two, "#turn=100")
        pages.check(f"{width} by {height}: two runs scroll", not pages.browser.look("scrolls"))
        cut = pages.browser.look(
            "cutOff", [*TWO_TABLES, "#first .circle", "#second .circle", "#out1", "#out2", "#fuel", ".foot"]
        )
        pages.same(f"{width} by {height}: parts of two runs that are cut off",
                   (cut, pages.browser.look("tooWide", TWO_TABLES)), ([], []))
    pages.browser.size(*PHONE)
    for turn, path in single:
        pages.browser.open(path, f"#turn={turn}")
        fits_phone(pages, f"a phone, {os.path.basename(path)}")
    pages.browser.size(1280, 800)


def fits_phone(pages, at):
    """On a phone the parts of a run stand one below the other, each with its room, and letters are large enough."""
    pages.same(f"{at}: parts that don't stand", pages.browser.look("illStacked", [*STACKED, *SHOWN]), [])
    across = "document.documentElement.scrollWidth - document.documentElement.clientWidth"
    pages.same(f"{at}: what lies beyond the edge", pages.browser.js(across), 0)
    least = pages.browser.look("leastLetters", SIDE_LETTERS)
    pages.check(f"{at}: letters of {least} px", least >= PHONE_LETTERS)


def fits_one(pages, at, size):
    """A page of one run in a window of this size."""
    pages.same(f"{at}: the window", pages.browser.js("[innerWidth, innerHeight]"), list(size))
    pages.check(f"{at}: the page scrolls", not pages.browser.look("scrolls"))
    has_bound = pages.browser.js("document.body.dataset.bound") == "fuel"
    pages.same(f"{at}: the plot of the fuel is shown", pages.browser.look("isShown", ".plot"), has_bound)
    shown = [it for it in SHOWN if has_bound or it != "#fuel"]
    pages.same(f"{at}: parts that are cut off", pages.browser.look("cutOff", shown), [])
    pages.same(f"{at}: tables that are too wide", pages.browser.look("tooWide", ["#walk", "#mem", "#first .regs"]), [])
    least = pages.browser.look("leastLetters", SIDE_LETTERS)
    pages.check(f"{at}: letters of {least} px", least >= LETTERS or size != SIZES[0])
    for key in "123":
        pages.browser.key(key)
        grown = pages.browser.look("greatestLetters", ".code .tx, #first .regs td, #walk td")
        pages.check(f"{at}: key {key}: letters of {grown} px", grown > 1.25 * least)


def speed(pages):
    """100,000 turns are loaded in less than a second, the best of three loads, and a step takes less than 50 ms."""
    for name in ("nested", "copy"):
        path = pages.written(name, told_by("inspect", "page", f"{BENCH}/{name}.img"))
        loads = []
        for _ in range(3):
            pages.browser.open(path)
            loads.append(pages.browser.look("loadTime"))
        step, jump = pages.browser.look("stepTime"), pages.browser.look("jumpTime", 100_000)
        times = f"loaded in {min(loads):.0f} ms; a step {step:.1f} ms, a jump {jump:.1f} ms"
        size, load = os.path.getsize(path), os.getloadavg()[0]
        print(f"{pages.browser.name}, {name}: 100,000 turns in {size:,} bytes, {times}; the load {load:.1f}",
              flush=True)
        pages.check(f"{name}: loads in {loads} ms", min(loads) < LOAD)
        pages.check(f"{name}: a step takes {step} ms, a jump {jump} ms", step < STEP and jump < STEP)


def pictures(pages, into):
    """Leaves pictures of some turns in a folder."""
    os.makedirs(into, exist_ok=True)
    for name, turn, width, height, words in PICTURES:
        pages.browser.size(width, height)
        pages.open(name, "--source", pages.programs[name].source, *words, turn=turn)
        time.sleep(0.3)
        pages.browser.picture(f"{into}/{pages.browser.name}-{name}-{turn}-{width}.png")
    pages.browser.size(1280, 800)
