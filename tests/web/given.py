"""What strangers may give: sources, images, inputs, files and links, with markup, cut, too long, or none at all."""
import base64
import json
import time
import zlib

from run import EXAMPLES, bytes_of, text_of

MARKUP = "</textarea></script><img src=x onerror=document.title=1><script>document.title=1</script>&lt;\"'"
PUTS = [f"    mov {byte},%o0\n    ta 2\n" for byte in MARKUP.encode()]
HOSTILE = f""".services exit,put
.function main,leaf,0,0,2000
.fuel 2000
! {MARKUP}
{"".join(PUTS)}    mov 0,%o0
    ta 0
"""


def link(value):
    """The address of a link that holds a value."""
    packer = zlib.compressobj(9, zlib.DEFLATED, -15)
    content = packer.compress(value if isinstance(value, bytes) else json.dumps(value).encode()) + packer.flush()
    return "#s=" + base64.urlsafe_b64encode(content).decode().rstrip("=")


def clean(page, name):
    """Nothing became markup, nothing was asked for, and nothing ran."""
    page.check(f"{name}: it became markup", not page.look("becameMarkup"))
    if page.browser.name == "chromium":
        page.same(f"{name}: what is asked for", {it.partition("#")[0] for it in page.browser.requests()},
                  {f"file://{page.path}"})


def strangers(page):
    """Markup stays text: in the source, its faults, the input, the output, the turns, all panes and C."""
    page.open()
    page.write(MARKUP + "\n")
    page.check("markup as a source has faults", page.look("faults"))
    clean(page, "markup as a source")
    page.write(HOSTILE)
    page.look("set", "input", MARKUP)
    page.same("what it puts out", page.run()[1], MARKUP)
    page.press("b-step")
    page.press("s-end")
    page.same("what it has put out at the end", page.look("text", "output"), MARKUP)
    page.press("b-all")
    time.sleep(0.5)
    clean(page, "all panes")
    page.check("markup stands in the frame's data", MARKUP not in page.look("frame"))
    page.press("b-back")
    if page.browser.name == "chromium":
        injected(page)


def injected(page):
    """A script and an image that are put in are refused by the policy."""
    page.js("(() => { const it = document.createElement('script'); it.textContent = 'document.title = 1'; "
            "document.body.append(it); })()")
    page.js("(() => { const it = document.createElement('img'); it.src = 'https://example.org/x.png'; "
            "document.body.append(it); })()")
    time.sleep(0.3)
    page.check("a script that was put in ran", page.js("document.title") != "1")
    page.check("the policy isn't told of", any("Content Security Policy" in str(it) for it in page.browser.faults()))
    page.open()


def files(page):
    """Files that are dropped: a source, an image, and what is neither."""
    page.open()
    echo = f"{EXAMPLES}/echo/echo"
    page.look("drop", "echo.s", list(bytes_of(f"{echo}.s")))
    page.until("/^echo.s is opened/.test(document.querySelector('#ended').textContent)", "a source is opened")
    page.same("the source", page.js("document.querySelector('#source').value"), text_of(f"{echo}.s"))
    page.look("drop", "echo.img", list(bytes_of(f"{echo}.img")))
    page.until("/^echo.img: an image/.test(document.querySelector('#ended').textContent)", "an image is opened")
    page.check("an image is judged", page.verdict().startswith("\u2713"), page.verdict())
    page.check("its listing can't be written over", page.js("document.querySelector('#source').readOnly"))
    page.look("set", "input", "an echo\n")
    page.same("an image runs", page.run()[1], "an echo\n")
    page.press("b-step")
    page.press("s-next")
    page.check("a line of the listing is marked", page.look("now"))
    page.look("drop", "V1.img", list(bytes_of(f"{EXAMPLES}/refused/V1.img")))
    page.until("/^V1.img: an image/.test(document.querySelector('#ended').textContent)", "a refused image is opened")
    page.check("it is refused", "refused by rule V1" in page.verdict(), page.verdict())
    listing = page.js("document.querySelector('#source').value")
    for name, content in (("cut.img", bytes_of(f"{echo}.img")[:-7]), ("none.img", b"SBX8" + bytes(100)),
                          ("binary.bin", b"\xff\xfe\x00\x80" * 50)):
        page.look("drop", name, list(content))
        page.until(f"document.querySelector('#ended').textContent.startsWith('{name}')", f"{name} is told of")
        page.check(f"{name}: {page.ended()}", "wasn\u2019t opened" in page.ended())
        page.same(f"{name}: what stood there", page.js("document.querySelector('#source').value"), listing)


def links(page):
    """Links: a whole one fills the page and runs nothing; others leave it, and are told of."""
    whole = {"s": HOSTILE, "i": MARKUP, "w": 5}
    page.open(link(whole))
    page.until("/^From a link/.test(document.querySelector('#ended').textContent)", "a link is read")
    page.same("its source", page.js("document.querySelector('#source').value"), HOSTILE)
    page.same("its input", page.js("document.querySelector('#input').value"), MARKUP)
    page.same("its windows", page.js("Number(document.querySelector('#windows').value)"), 5)
    page.same("nothing has run", (page.look("text", "output"), page.look("shown", "machine")), ("", False))
    clean(page, "a link")
    bad = {
        "a link that was cut": link(whole)[:-40], "a link of nothing": "#s=", "a link of noise": "#s=!!$$",
        "a link that unfolds to much": link(b'{"s":"' + b"a" * (20 << 20) + b'","i":"","w":8}'),
        "a link of other things": link(["no"]), "a link of a number": link({"s": 7, "i": "", "w": 8}),
        "a link with 99 windows": link({"s": "", "i": "", "w": 99}), "a name that there isn't": "#p=nothing",
    }
    for name, anchor in bad.items():
        page.open(anchor)
        page.until("/no program/.test(document.querySelector('#ended').textContent)", name)
        page.check(f"{name}: the page stays usable", page.run()[0].startswith("exit word"))
    page.open("#p=upper")
    upper = text_of(f"{EXAMPLES}/upper/upper.s")
    page.same("a link by name", page.js("document.querySelector('#source').value"), upper)
    page.press("b-link")
    page.until("location.hash.startsWith('#s=')", "a link is made")
    page.open(page.js("location.hash"))
    page.until("/^From a link/.test(document.querySelector('#ended').textContent)", "the link that was made")
    page.same("what it holds", page.js("document.querySelector('#source').value"), upper)


def large(page):
    """Long sources: all of 20,000 lines can be seen and checked, and of 5 MB nothing is lost."""
    page.open()
    body = "".join(f"    mov {number % 4096 - 2048},%o0 ! line {number}\n" for number in range(20_000))
    text = f".services exit\n.function main,leaf,0,0,20004\n.fuel 20004\n{body}    mov 0,%o0\n    ta 0\n"
    began = time.time()
    page.write(text)
    took = time.time() - began
    print(f"{page.browser.name}: 20,000 lines are shown and checked in {took * 1000:.0f} ms", flush=True)
    page.check("20,000 lines: the verdict", page.verdict().startswith("\u2713"), page.verdict())
    page.js("document.querySelector('#source').scrollTop = 21 * 15000")
    page.until("Number(document.querySelector('.gutter .number').textContent) > 14990", "it is scrolled")
    rows, numbers = page.look("rows"), page.look("numbers")
    lines = text.split("\n")
    page.same("the rows that are seen", rows, [lines[it - 1] for it in numbers])
    page.check(f"{len(rows)} rows are made", len(rows) < 120)
    page.press("b-step")
    page.press("s-end")
    page.check("the last turn's line is seen", page.look("now"), page.look("numbers")[:1])
    lengthy = {"5 MB of lines": "! a comment that stands on a line\n" * 150_000, "5 MB in a line": "x" * 5_000_000,
               "5 MB of junk": "\u00e9\u2028&<" * 1_250_000}
    for name, much in lengthy.items():
        page.look("write", much)
        page.press("b-check")
        page.check(f"{name}: {page.verdict()[:100]}", page.verdict())
        page.same(f"{name}: what was typed", page.js("document.querySelector('#source').value.length"), len(much))
    page.write(text_of(f"{EXAMPLES}/echo/echo.s"))
    page.check("the page goes on", page.verdict().startswith("\u2713"), page.verdict())
