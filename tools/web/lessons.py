"""The lessons of docs/learn/course.md as the page has them: blocks of text, the turns to look at, answers that are
folded, and the exercise with its checks (exercises.json)."""
import json
import os
import re

HERE = os.path.dirname(os.path.abspath(__file__))
TOP = os.path.dirname(os.path.dirname(HERE))
LIST = re.compile(r"(- |\d+\. )(.*)", re.S)
PAGE = re.compile(r"inspect page .*?(\w+)\.img")


def course():
    """The text of the course, with links that lead nowhere: the page shows their text alone."""
    with open(f"{TOP}/docs/learn/course.md", encoding="utf-8") as file:
        return re.sub(r"\[([^\]]+)\]\([^)]*\)", r"[\1]()", file.read())


def minutes(text):
    """The minutes of each lesson, from the table above them."""
    return [int(it) for it in re.findall(r"^\| \[\d .*\| (\d+) \|$", text, re.M)]


def paragraphs(text):
    """Yields the parts of a lesson that a blank line ends, code with its fence as one."""
    lines, fence = [], None
    for line in text.split("\n"):
        opened = re.match(r" *```", line)
        if opened and fence is None:
            fence = opened.group()
        elif fence is not None and line.rstrip() == fence:
            fence = None
        if line.strip() or fence is not None:
            lines.append(line)
        elif lines:
            yield "\n".join(lines)
            lines = []
    if lines:
        yield "\n".join(lines)


def cells(line):
    """The cells of a table's row."""
    return [it.strip() for it in line.strip().strip("|").split("|")]


def items(part):
    """The items of a list, each on a line."""
    return [LIST.fullmatch(line).group(2) for line in part.split("\n")]


class Reader:
    """Makes the blocks of a lesson. What a page's command says is kept for the turns to look at below it."""

    def __init__(self):
        self.blocks, self.page, self.answers = [], None, None

    def add(self, block):
        """Adds a block, to the answers where they have begun."""
        (self.blocks if self.answers is None else self.answers).append(block)

    def take(self, part):
        """Takes a part in."""
        if part.startswith("**") and part.endswith("**"):
            self.head(part.strip("*"))
        elif part.lstrip().startswith("```"):
            self.code(part)
        elif part.startswith("| "):
            self.table(part)
        elif LIST.match(part):
            self.add({"kind": "ul" if part.startswith("- ") else "ol", "items": items(part)})
        elif self.answers is not None and part.startswith("   "):
            self.add({"kind": "p", "text": part.strip()})
        else:
            self.add({"kind": "p", "text": part.replace("\n", " ")})

    def head(self, name):
        """Begins what stands under a head."""
        if name == "Answers":
            self.answers = []
            self.blocks.append({"kind": "answers", "blocks": self.answers})
        else:
            self.answers = None
            self.blocks.append({"kind": "h", "text": name})

    def code(self, part):
        """A block of code, or the command of a page, which the page has buttons for."""
        text = "\n".join(line.strip() if line.startswith("   ") else line for line in part.split("\n")[1:-1])
        page = PAGE.search(text)
        if not page:
            self.add({"kind": "shell" if text.startswith("$ ") else "code", "text": text})
            return
        windows, given = re.search(r"--windows (\d+)", text), re.search(r"printf (\w+) \|", text)
        stands = re.search(r"< (examples/\S+\.in)(?= |$)", text)
        said = given.group(1) if given else ""
        if stands:
            with open(f"{TOP}/{stands.group(1)}", encoding="latin-1") as file:
                said = file.read()
        self.page = {"program": page.group(1), "windows": int(windows.group(1)) if windows else 8, "input": said}

    def table(self, part):
        """A table, or the turns to look at."""
        rows = [cells(line) for line in part.split("\n") if not re.fullmatch(r"[|: -]+", line)]
        if rows[0][0] == "turn":
            self.add({"kind": "turns", "rows": rows, **self.page})
        else:
            self.add({"kind": "table", "rows": rows})


def lesson(text, taken, exercises):
    """A lesson, of the text behind its head's sign."""
    title, _, rest = text.partition("\n")
    before, _, behind = rest.partition("**Exercise.** ")
    reader = Reader()
    for part in paragraphs(before):
        reader.take(part)
    asked, _, solved = behind.partition("\n```sparc ")
    name, _, solution = solved.partition(".s\n")
    return {"title": title, "minutes": taken, "blocks": reader.blocks,
            "exercise": {"name": name, "text": asked.strip(), "solution": solution.partition("\n```")[0] + "\n",
                         **exercises[name]}}


def lessons():
    """All lessons, in their order."""
    text = course()
    with open(f"{HERE}/exercises.json", encoding="utf-8") as file:
        exercises = json.load(file)
    parts = re.split(r"\n## (?=\d )", text)[1:]
    return [lesson(part, taken, exercises) for part, taken in zip(parts, minutes(text))]
