#!/usr/bin/env python3
"""usage: tests/web/run.py [--page FILE] [--pictures FOLDER] [PART ..]

Tries docs/try.html, or FILE, the page that has the proved machine in it. Parts, all where none is named:

  blocks     in Node: the allocator that the page gives its modules, by itself
  stored     in Node: what the modules tell, beside the texts that the repository stores; each growth refused
  runs       in Node: verdicts and 1,000 runs beside `sandbox` and `inspect`
  data       in Node: data of runs beside `inspect page`, states and maps beside `inspect states` and `inspect map`
  same       made anew of this tree, the page is the same bytes
  policy     the page asks for nothing, and says what it is made of
  begins     it is ready, and refuses to go on where the self-test differs or the browser lacks something
  programs   each program of the menu: its verdict, its run or its turns
  faults     the sources of tests/inspect/check: each fault at its line
  buttons    each button does what it says
  keys       each key does, and what those need who see nothing
  lessons    turns to look at, and the exercises, solved and not
  strangers  sources, images, inputs and links with markup
  files      sources and images that are dropped, and what is neither
  links      links, whole, cut, and those that unfold to much
  large      20,000 lines, and 5 MB
  fits       four sizes of window, light and dark
  speed      turns a second, checks, and 100,000 turns

Those from `begins` on are tried in each browser that is there: Debian's `chromium` and `firefox-esr`. With --pictures
some pictures are left in a folder."""
import os
import shutil
import sys
import tempfile

sys.dont_write_bytecode = True
HERE = os.path.dirname(os.path.abspath(__file__))
sys.path.insert(0, f"{os.path.dirname(HERE)}/lib")
from browser import Browser, Chromium, Firefox
from beside import blocks, data, policy, runs, same, stored
from course import lessons
from given import files, large, links, strangers
from looks import fits, pictures, speed
from run import TOP, text_of
from seen import begins, buttons, faults, keys, programs
from webpage import Page
from tally import Tally, Words

PLAIN = {it.__name__: it for it in (blocks, stored, runs, data, same, policy)}
PARTS = {it.__name__: it for it in (begins, programs, faults, buttons, keys, lessons, strangers, files, links, large,
                                    fits, speed)}
Browser.looks = text_of(f"{HERE}/looks.js").partition("\n")[2].strip()


def try_in(kind, page, chosen, into):
    """Tries parts in a browser, where it is there."""
    found = shutil.which(kind.name)
    if found is None:
        page.tally.skip(f"parts in {kind.name}", f"Debian's package {kind.name}")
        return
    page.browser = kind(found, 1440, 900)
    try:
        for part in chosen:
            page.part = part
            PARTS[part](page)
        if into:
            pictures(page, into)
    finally:
        page.browser.close()


def main(line):
    reader = Words(__doc__)
    reader.add_argument("--page", default=f"{TOP}/docs/try.html")
    reader.add_argument("--pictures")
    reader.add_names("parts", [*PLAIN, *PARTS])
    asked = reader.parse_args(line)
    chosen, tally = asked.parts or [*PLAIN, *PARTS], Tally("web")
    in_browsers = [it for it in chosen if it in PARTS]
    with tempfile.TemporaryDirectory() as folder:
        page = Page(tally, os.path.abspath(asked.page), folder)
        for part in chosen:
            if part in PLAIN:
                PLAIN[part](page)
        for kind in (Chromium, Firefox) if in_browsers or asked.pictures else ():
            try_in(kind, page, in_browsers, asked.pictures)
    return tally.end()


if __name__ == "__main__":
    sys.exit(main(sys.argv[1:]))
