"""The page that is tried: what stands in it, and what one does with it in the browser that is driven."""
import base64
import gzip
import hashlib
import json
import re
import time

from run import put, text_of

# So long may what was asked for take, in seconds.
PATIENCE = 60


def unpacked(text):
    """What an element of the page holds packed."""
    return gzip.decompress(base64.b64decode(text))


def packed(content):
    """The same back."""
    return base64.b64encode(gzip.compress(content, 9, mtime=0)).decode()


class Page:
    """The page of a file, and the browser that is driven, if one is."""

    def __init__(self, tally, path, folder):
        self.tally, self.path, self.folder, self.browser, self.part = tally, path, folder, None, ""
        self.text = text_of(path)
        self.kept = json.loads(unpacked(self.element("kept")))
        self.programs = {it["name"]: it for it in self.kept["programs"]}

    def element(self, name):
        """The text of an element that holds data."""
        return re.search(f'<script type="text/plain" id="{name}">([^<]*)</script>', self.text)[1]

    def with_kept(self, kept):
        """The page with other data."""
        changed = packed(json.dumps(kept, ensure_ascii=False).encode())
        return put(f"{self.folder}/other.html", self.text.replace(self.element("kept"), changed))

    def with_script(self, old, new):
        """The page whose script has another text in a place, with the script's digest in the policy."""
        script = re.search(r"<script>(.*?)</script>", self.text, re.S)[1]
        changed = script.replace(old, new)
        digest, other = (base64.b64encode(hashlib.sha256(it.encode()).digest()).decode() for it in (script, changed))
        return put(f"{self.folder}/other.html", self.text.replace(script, changed).replace(digest, other))

    def named(self, name):
        """A check's name, with the browser's and the part's."""
        return f"{self.browser.name}, {self.part}: {name}" if self.browser else name

    def check(self, name, condition, said=""):
        """Counts a check."""
        return self.tally.check(self.named(name), condition, said)

    def same(self, name, came, wanted):
        """Counts whether two things are the same."""
        return self.tally.same(self.named(name), came, wanted)

    def open(self, anchor=""):
        """Opens the page."""
        self.browser.open(self.path, anchor)

    def js(self, expression):
        """The value of an expression."""
        return self.browser.js(expression)

    def look(self, name, *values):
        """What a function of looks.js gives."""
        return self.browser.look(name, *values)

    def press(self, name):
        """Presses a button."""
        self.look("press", name)

    def until(self, expression, what):
        """Waits until an expression is true, or counts that it never was."""
        end = time.time() + PATIENCE
        while time.time() < end:
            if self.js(f"Boolean({expression})"):
                return True
            time.sleep(0.02)
        return self.check(f"{what}: {expression}", False, self.js("document.querySelector('#ended').textContent"))

    def choose(self, name):
        """Chooses a program of the menu, and waits for its verdict."""
        self.look("set", "menu", list(self.programs).index(name), "change")

    def write(self, text):
        """Writes a source, as one does by hand or by pasting, and has it checked."""
        self.look("write", text)
        self.press("b-check")

    def verdict(self):
        """What is said of the source."""
        return self.look("text", "verdict")

    def ended(self):
        """What is said of the run."""
        return self.look("text", "ended")

    def run(self):
        """Runs it to its end, and gives what is said of that, and the output."""
        self.press("b-run")
        self.until("document.querySelector('#b-stop').hidden", "the run ends")
        return self.ended(), self.look("text", "output")
