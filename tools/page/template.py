"""The parts of a page that are the same for every run, and how the data stand between them."""
import base64
import hashlib
import os

from listed import comment_lines

HERE = os.path.dirname(os.path.abspath(__file__))
# The script's parts, in the order in which each needs those before it.
SCRIPT = ("elements", "run", "story", "bound", "code", "windows", "memory", "traps", "fuel", "stops", "beside",
          "steps")


def part(name):
    """The text of a file of this folder."""
    with open(f"{HERE}/{name}", encoding="utf-8") as file:
        return file.read()


def lean(text):
    """A style or a script without indentation, empty lines and lines that are comments, which nobody needs who looks
    at a run."""
    lines = (it.strip() for it in text.split("\n"))
    return "".join(f"{it}\n" for it in lines if it and not it.startswith(("//", "/*")))


def digest(text):
    """The SHA-256 of a style or a script, as a page's policy names it."""
    return base64.b64encode(hashlib.sha256(text.encode()).digest()).decode()


def joined(first, second):
    """A page with the data of a run, and of the one beside it (empty where there is none)."""
    style = lean(part("page.css"))
    script = "'use strict';\n" + lean("".join(part(f"script/{it}.js") for it in SCRIPT))
    page = part("page.html").replace("@STYLE-DIGEST@", digest(style)).replace("@SCRIPT-DIGEST@", digest(script))
    page = page.replace("@STYLE@", style).replace("@SCRIPT@", script).replace("@COMMENTS@", comment_lines())
    before, _, rest = page.partition("@DATA@")
    between, _, after = rest.partition("@BESIDE@")
    return before.encode() + first + between.encode() + second + after.encode()
