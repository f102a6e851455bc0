"""The pages that are tried: of all programs of `examples` and its lessons, and of programs that trap in further
ways."""
import os

from data import Program
from run import EXAMPLES, put

# The counts of windows that pages are made for.
WINDOWS = (4, 5, 8, 12, 32)

# Programs that trap in further ways, end in error mode, and load and store each size.
FURTHER = {
    "wild": "set 0x300000,%g1; jmpl %g1,%g0; nop",
    "unaligned": "ld [%g0+2],%o0",
    "division": "wr %g0,0,%y; udiv %o0,%g0,%o1",
    "privileged": "rd %psr,%o0",
    "illegal": "unimp 0",
    "invalid": "ld [%g0+0],%g2",
    "system": "set 0xF0000000,%g1; ld [%g1],%g2",
    "unserved": "ta 5",
    "error": "mov 0,%sp; " + "save %sp,0,%sp; " * 32,
    "sizes": "; ".join((
        "set words,%g1", "mov -2,%o0", "mov 3,%o1", "st %o0,[%g1]", "stb %o1,[%g1+5]", "sth %o0,[%g1+10]",
        "std %o0,[%g1+16]", "ldub [%g1+3],%o2", "ldsb [%g1+3],%o3", "lduh [%g1+10],%o4", "ldsh [%g1+10],%o5",
        "ldd [%g1+16],%l0", "ldstub [%g1+1],%l2", "swap [%g1+4],%l2", "mov 0,%o0", "ta 0",
    )),
}


def programs(folder):
    """The programs of `examples` and of the lessons."""
    found = (f"{at}/{it}" for at, _, files in os.walk(EXAMPLES) for it in files if it.endswith(".s"))
    sources = sorted(it for it in found if not it.startswith(f"{EXAMPLES}/c/"))
    return {it.name: it for it in (Program(source, folder) for source in sources if "/refused/" not in source)}


def further_programs(folder):
    """Those programs, their sources written to a folder."""
    for name, statements in FURTHER.items():
        lines = [".services exit", ".function main,leaf,0,0,100", *statements.split("; "), ".data", "words:",
                 ".skip 24"]
        yield Program(put(f"{folder}/{name}.s", "\n".join(it for it in lines if it) + "\n"), folder)


class Pages:
    """The programs and their pages, which are written to a folder, and the browser that is driven, if one is."""

    def __init__(self, tally, folder):
        self.tally, self.folder, self.programs, self.browser = tally, folder, programs(folder), None
        self.further = list(further_programs(folder))

    def check(self, name, condition, said=""):
        """Counts a check, in the browser that is driven."""
        return self.tally.check(f"{self.browser.name}: {name}" if self.browser else name, condition, said)

    def same(self, name, came, wanted):
        """Counts whether two things are the same."""
        return self.tally.same(f"{self.browser.name}: {name}" if self.browser else name, came, wanted)

    def written(self, name, text):
        """The path of a page."""
        return put(f"{self.folder}/{name}.html", text)

    def open(self, name, *words, turn=0):
        """Opens a program's page."""
        self.browser.open(self.written(name, self.programs[name].page(*words)), f"#turn={turn}")

    def turn(self):
        """The turn that is shown."""
        return int(self.browser.js("document.querySelector('#goto').value"))
