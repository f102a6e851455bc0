#!/usr/bin/env python3
"""usage: tests/docs/prose.py [FILE ..]

Counts the prose of all pages of the repository, or of the FILEs: words, sentences, how many sentences have more than 35
words, the longest, the longest paragraph, and semicolons a thousand words. Code, tables and headings don't count; an
item of a list is a paragraph. The last row has the pages whose words are limited together. tests/docs/run.py holds the
counts to the limits below."""
import collections
import dataclasses
import glob
import os
import re
import sys

sys.dont_write_bytecode = True
HERE = os.path.dirname(os.path.abspath(__file__))
sys.path.insert(0, f"{os.path.dirname(HERE)}/lib")
from run import TOP, text_of
from tally import Words

# Words of a sentence that few may have, the share of sentences that may have more, and what none may have.
LONG, SHARE, LONGEST = 35, 0.02, 60
# Words of a paragraph, and semicolons in a thousand words of a folder's pages.
PARAGRAPH, SEMICOLONS = 120, 2
# Words of all pages together, but for what each version does and the pages that are read from end to end.
ALL_WORDS = 20_000
UNLIMITED = {"CHANGES.md", "docs/learn/course.md", "docs/machine/image.md", "docs/machine/profile.md",
             "docs/use/faults.md", "docs/use/source.md"}

FENCE = re.compile(r" *```")
ITEM = re.compile(r"^ *([-*+]|\d+\.) ")
# Lines that are no prose: headings, rows of tables, pictures on a line of their own.
APART = re.compile(r"#+ | *\||!\[[^]]*\]\([^)]*\)$")
# A sentence ends at a stop, and not at dots that stand for something.
END = re.compile(r"(?<=[^.\s][.?!])[\"')]* +(?=\S)")


@dataclasses.dataclass
class Paragraph:
    """A paragraph or an item of a list: the number of its first line, and its text."""

    line: int
    text: str


@dataclasses.dataclass
class Counts:
    """What a page, or all pages of a folder, have."""

    words: int = 0
    sentences: int = 0
    above: int = 0
    longest: int = 0
    paragraph: int = 0
    semicolons: int = 0

    def add(self, other):
        """Takes the counts of another page in."""
        self.words += other.words
        self.sentences += other.sentences
        self.above += other.above
        self.longest = max(self.longest, other.longest)
        self.paragraph = max(self.paragraph, other.paragraph)
        self.semicolons += other.semicolons

    def row(self, name):
        """The counts as a row of a table."""
        rate = self.semicolons * 1000 / max(1, self.words)
        share = self.above * 100 / max(1, self.sentences)
        return (f"| {name} | {self.words:,} | {self.sentences:,} | {self.above} | {share:.1f} | {self.longest} "
                f"| {self.paragraph} | {rate:.1f} |")


def prose_lines(text):
    """Yields the number and the text of each line; the text is empty where a line is no prose."""
    in_code = False
    for number, line in enumerate(text.split("\n"), 1):
        is_fence = FENCE.match(line) is not None
        in_code ^= is_fence
        yield number, "" if in_code or is_fence or APART.match(line) else line


def paragraphs(text):
    """The paragraphs of a page."""
    found, is_open = [], False
    for number, line in prose_lines(text):
        if is_open and line.strip() and not ITEM.match(line):
            found[-1].text += f" {line.strip()}"
        elif line.strip():
            found.append(Paragraph(number, ITEM.sub("", line).strip()))
        is_open = bool(line.strip())
    return found


def plain(text):
    """Text as it is read: links by their text, without signs of stress; a dot or a semicolon in code is none."""
    text = re.sub(r"`[^`]*`", lambda it: "\0" + re.sub(r"[.;?!]", "_", it[0][1:-1]), text)
    text = re.sub(r"!?\[([^]]*)\]\([^)]*\)", r"\1", text)
    return text.replace("**", "").replace("*", "")


def size(text):
    """How many words a text has."""
    return sum(any(sign.isalnum() for sign in word) for word in text.split())


def sentences(paragraph):
    """The sentences of a paragraph."""
    return [it for it in END.split(plain(paragraph.text)) if size(it)]


def counts(text):
    """The counts of a page."""
    all_counts = Counts()
    for paragraph in paragraphs(text):
        sizes = [size(it) for it in sentences(paragraph)]
        above = sum(it > LONG for it in sizes)
        stops = plain(paragraph.text).count(";")
        all_counts.add(Counts(sum(sizes), len(sizes), above, max(sizes, default=0), sum(sizes), stops))
    return all_counts


def long_sentences(text, limit):
    """Yields the line of a paragraph and each sentence in it that has more words than the limit."""
    for paragraph in paragraphs(text):
        yield from ((paragraph.line, it) for it in sentences(paragraph) if size(it) > limit)


def hold_page(tally, name, text):
    """No sentence and no paragraph of a page is too long."""
    for line, sentence in long_sentences(text, LONGEST):
        tally.check(f"{name}:{line}", False, f"{size(sentence)} words: {sentence}".replace("\0", ""))
    sizes = [(it.line, size(plain(it.text))) for it in paragraphs(text)]
    tally.check(name, all(it <= PARAGRAPH for _, it in sizes),
                "paragraphs: " + ", ".join(f"line {line}, {it} words" for line, it in sizes if it > PARAGRAPH))


def hold_folder(tally, folder, texts):
    """Few sentences of a folder's pages are long, and few stops in them are semicolons."""
    total = Counts()
    for text in texts.values():
        total.add(counts(text))
    long = [f"{name}:{line}: {it}".replace("\0", "") for name, text in texts.items()
            for line, it in long_sentences(text, LONG)]
    few = tally.check(f"{folder}: {len(long)} of {total.sentences} sentences have more than {LONG} words",
                      len(long) <= SHARE * total.sentences)
    if not few:
        print(*long, sep="\n", flush=True)
    stops = [f"{name}:{it.line}" for name, text in texts.items() for it in paragraphs(text) if ";" in plain(it.text)]
    tally.check(f"{folder}: {total.semicolons} semicolons in {total.words} words",
                total.semicolons * 1000 <= SEMICOLONS * total.words, " ".join(stops))


def hold_all(tally, texts):
    """The pages have few words in all."""
    words = sum(counts(text).words for name, text in texts.items() if name not in UNLIMITED)
    tally.check(f"all pages: {words:,} words", words <= ALL_WORDS, f"at most {ALL_WORDS:,} are wanted")


def all_pages():
    """The pages, by their paths from the top."""
    folders = [glob.glob(f"{TOP}/{it}/**/*.md", recursive=True) for it in ("docs", "embed", "vectors")]
    return [os.path.relpath(it, TOP) for it in [*glob.glob(f"{TOP}/*.md"), *sum(folders, [])]]


def hold(tally, asked):
    """Holds the pages that are asked for, the folders that they stand in, and all pages together to the limits."""
    folders, pages = collections.defaultdict(dict), {it: text_of(f"{TOP}/{it}") for it in all_pages()}
    for name, text in pages.items():
        folders[os.path.dirname(name)][name] = text
    for folder, texts in folders.items():
        wanted = {name: text for name, text in texts.items() if name in asked}
        for name, text in wanted.items():
            hold_page(tally, name, text)
        if wanted:
            hold_folder(tally, folder or "the top", texts)
    hold_all(tally, pages)


def main(words):
    """Prints the counts as a table."""
    reader = Words(__doc__)
    reader.add_files("files")
    files, total, limited = reader.parse_args(words).files, Counts(), Counts()
    print("| page | words | sentences | above 35 | of 100 | longest | paragraph | semicolons of 1,000 |")
    print("|---|---|---|---|---|---|---|---|")
    for page in files or [f"{TOP}/{it}" for it in all_pages()]:
        found, name = counts(text_of(page)), os.path.relpath(page, TOP)
        total.add(found)
        if name not in UNLIMITED:
            limited.add(found)
        print(found.row(name))
    print(total.row("all"))
    print(limited.row(f"limited together to {ALL_WORDS:,}"))


if __name__ == "__main__":
    main(sys.argv[1:])
