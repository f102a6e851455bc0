"""The programs of the page: examples, the lessons', programs that break a rule, and C with what `./fit` makes of it."""
import os
import re
import subprocess
import tempfile

HERE = os.path.dirname(os.path.abspath(__file__))
TOP = os.path.dirname(os.path.dirname(HERE))
EXAMPLES = f"{TOP}/examples"
NAMES = ("hello", "echo", "upper", "lower", "countdown", "squares", "sieve", "sort", "checksum", "crc", "chain", "deep")
LESSONS = ("slots", "multiply", "windows", "fault", "tagged", "filter")
# Those of examples/c whose input is text, so that it can stand in the page, and its characters at most.
C_NAMES = ("upper", "rot13", "wc", "csv", "rle", "sort", "sieve", "crc32", "base64", "words", "vm", "sha256")
MOST_INPUT = 1000


def text_of(path):
    """The text of a file, a character a byte."""
    with open(path, encoding="latin-1") as file:
        return file.read()


def source_of(path):
    """The text of a source."""
    with open(path, encoding="utf-8") as file:
        return file.read()


def program(folder, name, group, title, **more):
    """A program as the page has it."""
    given = f"{folder}/{name}.in"
    return {"name": name, "group": group, "title": title, "source": source_of(f"{folder}/{name}.s"),
            "input": text_of(given) if os.path.exists(given) else "", **more}


def by_number(name):
    """A key by which V9 stands before V10."""
    return [int(it) if it.isdigit() else it for it in re.split(r"(\d+)", name)]


def refused():
    """The programs that break a rule each, with the rule in words."""
    folder = f"{EXAMPLES}/refused"
    for name in sorted(os.listdir(folder), key=by_number):
        if name.endswith(".s"):
            rule = text_of(f"{folder}/{name[:-2]}.told").split("\n")[1]
            yield program(folder, name[:-2], "a rule broken", f"{name[:-2]}: {rule.partition(':')[0][:48]}")


def is_text(given):
    """Whether a program's input is text."""
    return all(it in "\n\t" or " " <= it <= "~" for it in given)


def of_c():
    """The programs of examples/c: C, and the source that `./fit` makes of what a compiler made of it."""
    folder = f"{EXAMPLES}/c"
    with tempfile.TemporaryDirectory() as room:
        for name in C_NAMES:
            made = f"{room}/{name}.s"
            subprocess.run([f"{TOP}/fit", f"{folder}/gcc/{name}.s", f"{folder}/gcc/plug.s", "-o", made], check=True,
                           stderr=subprocess.DEVNULL)
            given = text_of(f"{folder}/in/{name}")[:MOST_INPUT]
            yield {"name": f"c-{name}", "group": "C, compiled", "title": f"{name}.c", "source": source_of(made),
                   "input": given if is_text(given) else "Hello, world\n", "c": source_of(f"{folder}/{name}.c")}


def all_programs(titles):
    """All programs, in the menu's order. `titles` are the lessons'."""
    found = [program(f"{EXAMPLES}/{it}", it, "examples", it) for it in NAMES]
    found += [program(f"{EXAMPLES}/lessons", it, "six lessons", title, lesson=at)
              for at, (it, title) in enumerate(zip(LESSONS, titles))]
    return found + list(of_c()) + list(refused())


def stored():
    """What the self-test compares: a trace, a verdict and a run as the repository stores them."""
    return {"hello": source_of(f"{EXAMPLES}/hello/hello.s"), "turns": text_of(f"{EXAMPLES}/hello/hello.turns"),
            "refused": source_of(f"{EXAMPLES}/refused/V14.s"), "why": text_of(f"{EXAMPLES}/refused/V14.told"),
            "echo": source_of(f"{EXAMPLES}/echo/echo.s"), "input": text_of(f"{EXAMPLES}/echo/echo.in")}
