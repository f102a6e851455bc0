"""The listing of the vectors and handlers in docs/machine/profile.md, which are the machine's own code."""
import os
import re

TOP = os.path.dirname(os.path.dirname(os.path.dirname(os.path.abspath(__file__))))
LISTED = re.compile(r"^([0-9A-F]{8}) ([0-9A-F]{8})  (\S+(?: [^!\n]*[^!\s])?) *(?:! (.*))?$", re.M)
# What a comment says of a word whose shift is by the number of the last window.
LAST_WINDOW = re.compile(r" *\(N-1 in place of 7\)")


def listed_words(profile=None):
    """Yields each word that the listing has, on 8 windows: its address, the word, its text and its comment."""
    if profile is None:
        with open(f"{TOP}/docs/machine/profile.md", encoding="utf-8") as file:
            profile = file.read()
    part = profile.partition("## Vectors and handlers")[2].partition("\n## ")[0]
    for address, word, text, comment in LISTED.findall(part):
        yield int(address, 16), int(word, 16), text, comment


def hexadecimal(text):
    """A text's bytes in hexadecimal: whatever it holds, none of them is markup."""
    return text.encode("utf-8", "surrogateescape").hex().upper()


def comment_lines():
    """The lines of a page that tell what the listing says of its words: the address, and the comment in
    hexadecimal."""
    return "".join(f"{address:X} {hexadecimal(LAST_WINDOW.sub('', comment))}\n"
                   for address, _, _, comment in listed_words())
