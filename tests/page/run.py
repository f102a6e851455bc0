#!/usr/bin/env python3
"""usage: tests/page/run.py [--pictures FOLDER] [PART ..]

Makes pages by `./inspect page` of all programs of `examples` and its lessons, on 4, 5, 8, 12 and 32 windows, and
holds them against `inspect trace`, `sandbox trace`, `sandbox list`, `inspect why` and docs/learn/course.md. Parts, all
where none is named:

  data       without a browser: a page's data, read back, give the text of `inspect trace`
  words      statuses and messages
  turns      what is seen at a turn
  course     what the lessons say is seen
  keys       keys, buttons and links, and what those need who see no colour or nothing
  runs       two runs side by side
  stops      what is looked for is found
  c          the lines of C beside the words, by a map; names of a source. It needs a compiler for SPARC
  strangers  images that put out markup
  fits       four sizes of window
  speed      100,000 turns
  planted    in Chromium: faults planted in pages are found

All but the first two are tried in each browser that is there: Debian's `chromium` and `firefox-esr`. With --pictures
some pictures are left in a folder."""
import os
import shutil
import sys
import tempfile

sys.dont_write_bytecode = True
HERE = os.path.dirname(os.path.abspath(__file__))
sys.path.insert(0, f"{os.path.dirname(HERE)}/lib")
from browser import Browser, Chromium, Firefox
from mapped import c
from pages import Pages
from plain import data, words
from planted import planted
from run import built, text_of
from screens import fits, pictures, speed, strangers
from seen import course, turns
from tally import Tally, Words
from used import keys, runs, stops

PLAIN = {it.__name__: it for it in (data, words)}
PARTS = {it.__name__: it for it in (turns, course, keys, runs, stops, c, strangers, fits, speed, planted)}
# The script that looks at a page, without its first line, a comment.
Browser.looks = text_of(f"{HERE}/looks.js").partition("\n")[2].strip()


def try_in(kind, pages, chosen, into):
    """Tries parts in a browser, where it is there."""
    found = shutil.which(kind.name)
    if found is None:
        pages.tally.skip(f"parts in {kind.name}", f"Debian's package {kind.name}")
        return
    pages.browser = kind(found)
    try:
        for part in chosen:
            PARTS[part](pages)
        if into:
            pictures(pages, into)
    finally:
        pages.browser.close()


def main(line):
    reader = Words(__doc__)
    reader.add_argument("--pictures")
    reader.add_names("parts", [*PLAIN, *PARTS])
    asked = reader.parse_args(line)
    built("sandbox", "inspect")
    chosen, tally = asked.parts or [*PLAIN, *PARTS], Tally("page")
    in_browsers = [it for it in chosen if it in PARTS]
    with tempfile.TemporaryDirectory() as folder:
        pages = Pages(tally, folder)
        for part in chosen:
            if part in PLAIN:
                PLAIN[part](pages)
        for kind in (Chromium, Firefox) if in_browsers or asked.pictures else ():
            try_in(kind, pages, in_browsers, asked.pictures)
    return tally.end()


if __name__ == "__main__":
    sys.exit(main(sys.argv[1:]))
