"""Edits, each a wrong body: those of the lists tests/edits/CRATE.edits, and what one makes of its file. A passage of
a list begins with `edit: NAME`; below it stand the lines that `rt must-fail` reads of an edit: `file:`, `old:`,
`new:`."""
import os
import re

from crates import TOP

LISTS = f"{TOP}/tests/edits"


class BadEdit(Exception):
    """Why a list can't be read, or an edit can't be applied."""


def listed():
    """The crates that have a list."""
    return sorted(it.removesuffix(".edits") for it in os.listdir(LISTS) if it.endswith(".edits"))


def edits_of(crate):
    """The texts of a crate's edits, by their names, as `rt must-fail` reads them from files."""
    with open(f"{LISTS}/{crate}.edits", encoding="utf-8") as file:
        before, *passages = re.split(r"^edit: ", file.read(), flags=re.MULTILINE)
    if before.strip():
        raise BadEdit(f"{crate}.edits: its first line names no edit")
    found = {}
    for passage in passages:
        name, _, text = passage.partition("\n")
        if name in found or not re.fullmatch(r"\w+", name):
            raise BadEdit(f"{crate}.edits: {name}: twice, or no name")
        found[name] = text.strip("\n") + "\n"
    return found


def changes_of(text):
    """Yields the changes of an edit: the file, the text that it takes out, and the one that it puts there."""
    path, old = "", None
    for line in filter(None, text.splitlines()):
        key, _, words = line.partition(":")
        if key == "file":
            path = words.removeprefix(" ")
        elif key == "old":
            old = words.removeprefix(" ")
        elif key == "new" and old is not None:
            yield path, old, words.removeprefix(" ")
            old = None
        else:
            raise BadEdit(f"no line of an edit: {line}" if key != "new" else "no line `old:` before a line `new:`")


def applied(text, crate):
    """The files of a crate that an edit changes, each by its path and with its text as the edit leaves it."""
    folder, texts = f"{TOP}/crates/{crate}", {}
    for path, old, new in changes_of(text):
        if not os.path.isfile(f"{folder}/{path}"):
            raise BadEdit(f"no file {path!r}")
        if path not in texts:
            with open(f"{folder}/{path}", encoding="utf-8") as file:
                texts[path] = file.read()
        if texts[path].count(old) != 1:
            raise BadEdit(f"{path} has {texts[path].count(old)} times, and not once: {old.strip()}")
        texts[path] = texts[path].replace(old, new)
    if not texts:
        raise BadEdit("it has no pair of lines `old:` and `new:`")
    return texts
