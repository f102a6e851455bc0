"""Faults that are planted in pages, each of which has to be found by what is looked at."""
import base64
import hashlib
import re

from browser import Failed
from data import LIMIT
from tally import Tally
from watch import Watch

# What is planted, whose page it is planted in, what stands there, and what in its stead.
PLANTED = (
    ("a register with another word", "windows", "\nr07EFFF60", "\nr07EFFF64"),
    ("a register of another window", "windows", "\nr07EFFF60", "\nr06EFFF60"),
    ("a mark of WIM left out", "windows", "\nw1\n", "\n\n"),
    ("a page's mark left out", "windows", "k2CFC9F66", ""),
    ("another word stored", "windows", "m000FFFC0B", "m000FFFC0C"),
    ("a trap of another type", "windows", "\nt05", "\nt06"),
    ("a turn left out", "windows", "\nw1\n\n\n", "\nw1\n\n"),
    ("another PSR", "windows", "q26", "q25"),
    ("another exit word", "windows", "xB", "xA"),
    ("a byte put out left out", "hello", "o48", ""),
    ("another fault status", "fault", "f38A", "f38E"),
    ("another nPC", "windows", "c4001C", "c40018"),
    (
        "the window behind the turn told as the one before it",
        "windows",
        "'window ' + run.window(turn - 1)",
        "'window ' + run.window(turn)",
    ),
    (
        "ins of the wrong neighbour",
        "windows",
        "((window + 1) % this.windows) + number - 16",
        "((window + this.windows - 1) % this.windows) + number - 16",
    ),
    ("a history that is a turn late", "windows", "if (turns[middle] <= turn) low", "if (turns[middle] < turn) low"),
    ("a walk of the wrong index", "windows", "address >>> 18 & 63", "address >>> 17 & 63"),
    ("a slot that isn't struck through", "slots", "run.event[turn] === ANNULLED ? 'now an' : 'now'", "'now'"),
    ("a bound that falls too far", "sort", "sum + factor *", "sum + 2 * factor *"),
    ("a taken branch told as one that isn't", "slots", "lower !== condition >>> 3", "lower === condition >>> 3"),
    (
        "condition codes in another order",
        "slots",
        "bit('N', 23, 'negative'), bit('Z', 22, 'zero')",
        "bit('Z', 23, 'negative'), bit('N', 22, 'zero')",
    ),
)


def with_its_hash(page):
    """A page whose script was changed, with the script's hash in its policy."""
    script = page.rpartition("<script>")[2].rpartition("</script>")[0]
    digest = base64.b64encode(hashlib.sha256(script.encode()).digest()).decode()
    return re.sub(r"script-src 'sha256-[^']*'", lambda _: f"script-src 'sha256-{digest}'", page)


def planted(pages):
    """Each fault that is planted in a page's data or script is found by what is looked at."""
    for what, name, old, new in PLANTED if pages.browser.name == "chromium" else ():
        text, found = pages.programs[name].page("--limit", str(LIMIT)), Tally("planted", quiet=True)
        pages.check(f"{what}: nowhere to plant it", old in text)
        text = with_its_hash(text.replace(old, new, 1))
        try:
            Watch(found, pages.browser, pages.programs[name], 8).look(pages.written("planted", text), 80)
        except Failed as failed:
            found.check(what, False, str(failed))
        pages.check(f"planted: {what}: isn't found", found.failed)
