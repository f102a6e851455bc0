"""The usage that a program prints, by its parts: how it is called, its commands and options, its exit statuses, and
what else it says."""
import collections
import os
import re
import subprocess

TOP = os.path.dirname(os.path.dirname(os.path.dirname(os.path.abspath(__file__))))
# What each program is for, in a line.
PROGRAMS = {
    "sandbox": "assembles, verifies and runs sandboxed SPARC V8 programs",
    "inspect": "tells what is wrong with a source, and of an image what it declares, what its run gives, and why it "
    "is refused",
    "host": "runs strangers' images under a policy",
    "fit": "annotates SPARC assembly, a compiler's or one's own",
    "native": "turns an accepted image into C, and runs it as machine code",
    "board": "makes of an accepted image a program for a LEON3",
    "geyserpan-cc": "turns C into an image that is accepted",
    "geyserpan-c++": "turns C++ into an image that is accepted",
}
# The scripts ./cc and ./c++ as a release calls them.
COMPILERS = {"geyserpan-cc": "cc", "geyserpan-c++": "c++"}
# A command or an option: how it is written, and what it does.
Entry = collections.namedtuple("Entry", "name text")
Usage = collections.namedtuple("Usage", "synopsis entries paragraphs statuses")


def text_of(name):
    """What a program prints for --help: of its own use, and what the scripts around it take. In a release the scripts
    ./cc and ./c++ have longer names."""
    if name in COMPILERS:
        text = subprocess.run([f"{TOP}/{COMPILERS[name]}", "--help"], stdout=subprocess.PIPE, text=True, check=True).stdout
        return re.sub(rf"^(Usage:|      ) {re.escape(COMPILERS[name])} ", rf"\1 {name} ", text, flags=re.M)
    text = ""
    for path in (f"{TOP}/tools/release/usage/{name}", f"{TOP}/tools/release/usage/{name}.more"):
        if os.path.exists(path):
            with open(path, encoding="utf-8") as file:
                text += file.read()
    return text


def entries_of(lines):
    """The commands and options of a block; lines that go on belong to the one before."""
    found = []
    for line in lines:
        entry = re.match(r"  ([a-z]+ [A-Z]+) (\S.*)|  (\S.*?)(?:   *(\S.*)|$)", line)
        if entry and not line.startswith("   "):
            found.append(Entry(entry[1] or entry[3], entry[2] or entry[4] or ""))
        elif found:
            last = found.pop()
            found.append(Entry(last.name, f"{last.text} {line.strip()}".strip()))
    return found


def statuses_of(text):
    """Numbers of exit statuses, and what each means."""
    parts = re.split(r"(?:^|\s)(\d+(?:, \d+)*): ", text.removeprefix("Status"))
    return [Entry(number, said.strip()) for number, said in zip(parts[1::2], parts[2::2])]


def usage_of(name):
    """The usage of a program."""
    synopsis, entries, paragraphs, statuses = [], [], [], []
    for block in re.split(r"\n\n+|\n(?=Status \d)", text_of(name).rstrip("\n")):
        lines = block.split("\n")
        if lines[0].startswith("Usage:"):
            synopsis = [it.removeprefix("Usage:").strip() for it in lines]
        elif lines[0].startswith("Status "):
            statuses = statuses_of(" ".join(it.strip() for it in lines))
        elif lines[0].startswith("  ") or lines[0].endswith(":") and lines[1:2] and lines[1].startswith("  "):
            entries += entries_of(lines if lines[0].startswith("  ") else lines[1:])
        elif PROGRAMS[name].lower() != block.lower():
            parts = re.split(r"\n(?=[a-z]+(?:, [a-z]+)*: )", block)
            paragraphs += [" ".join(it.strip() for it in part.split("\n")) for part in parts]
    return Usage(synopsis, entries, paragraphs, statuses)


def options_of(usage):
    """The options of a usage, those too that only its paragraphs or its synopsis name: by each, whether a value stands
    behind it, and what it does."""
    found = {}
    for entry in usage.entries:
        for word in re.findall(r"(?<![\w-])-{1,2}[a-z+][\w+-]*", entry.name):
            has_value = bool(re.search(rf"{re.escape(word)} [A-Z]", entry.name))
            found.setdefault(word, (has_value, entry.text))
    for text in [*usage.paragraphs, *usage.synopsis]:
        for word, value, said in re.findall(r"(?<![\w-])(--[a-z][\w-]*)( [A-Z]\w*)?(?= ?(?:is )?([^;.\[\]]*))", text):
            found.setdefault(word, (bool(value), said.partition(", --")[0].strip() if text in usage.paragraphs else ""))
    return found


def commands_of(usage):
    """The commands of a usage, and what each does; the synopsis may name one alone."""
    listed = {it.name.split()[0]: it.text for it in usage.entries if re.match(r"[a-z]+( [A-Z]+)?$", it.name)}
    shown = {it.split()[1]: "" for it in usage.synopsis if re.match(r"\S+ [a-z]+ ", it)}
    return {**shown, **listed}
