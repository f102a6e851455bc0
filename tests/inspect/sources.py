"""What `inspect` tells of sources: their faults, their maps, and what it tells of an image by their names."""
import hashlib
import os
import re

from asked import CHAIN, ECHO, HELLO, HERE
from objects import fault_of_object
from run import EXAMPLES, INSPECT, SANDBOX, TOP, bytes_of, put, run, text_of

CHECK = f"{HERE}/check"
FAULT = re.compile(r"^[a-z0-9_]*\.s:(\d+):\d+: ([XSA]\d): (.*)$", re.M)


def try_check(asked, folder, name, told):
    """What is wrong with a source, told by the name that was given: the text of a file, and first what `asm` tells."""
    ran = run([INSPECT, "check", name], cwd=folder)
    asked.same_text(f"check {name}", ran, told)
    first = FAULT.match(ran.out.decode())
    wanted = f"line {first[1]}: {first[2]}" if first else ""
    asm = run([SANDBOX, "asm", name, asked.at("checked.img")], cwd=folder).said
    asked.tally.same(f"check {name}: the first fault and asm's", asm, wanted)


def long_sources(asked):
    """Sources that are too long, and what is told of them: too long for files of the repository."""
    nops, marks = "nop\n" * 65537, "!\n" * 999999
    head = ".function f,leaf,0,0,1\n"
    for name, text, told in (
        ("words", f"{head}{nops}", "words.s:65538:1: A3: the code has at most 65,536 words\nnop\n^\n"),
        ("lines", f"{head}nop\n{marks}", "lines.s:1000001:1: A3: a source has at most 1,000,000 lines\n!\n^\n"),
    ):
        put(asked.at(f"{name}.s"), text)
        try_check(asked, asked.work, f"{name}.s", told.encode())
        yield told
    # as many faults as a source can have lines
    many = put(asked.at("many.s"), head + "frob\n" * 99999)
    fault = b": S1: no instruction has this name; names are lower case\n"
    asked.tally.same("check many.s: its faults", run([INSPECT, "check", many]).out.count(fault), 99999)


def try_checks(asked):
    """A source for each cause of a fault, and the sentences that docs/use/faults.md has."""
    texts = []
    for name in sorted(it for it in os.listdir(CHECK) if it.endswith(".s")):
        told = bytes_of(f"{CHECK}/{name[:-2]}.told")
        try_check(asked, CHECK, name, told)
        asked.tally.check(f"check --json {name}", *fault_of_object("check", name, told, cwd=CHECK))
        texts.append(told.decode())
    texts += long_sources(asked)
    part = text_of(f"{TOP}/docs/use/faults.md").partition("\n### The sentences of")[2].partition("\n## ")[0]
    listed = re.findall(r"^\| ([XSA]\d) \| ([^|]*[^ |]) \|", part, re.M)
    came = {(code, sentence) for text in texts for _, code, sentence in FAULT.findall(text)}
    asked.tally.same("sentences of docs/use/faults.md and of check", sorted(set(listed)), sorted(came))


def try_map(asked, program):
    """The map of a source: the sum of its image, lines that have what it says, and the addresses of the code."""
    source, image = (f"{EXAMPLES}/{program}/{program}.{it}" for it in ("s", "img"))
    ran = run([INSPECT, "map", source])
    asked.tally.check(f"map {program}.s", ran.status == 0, f"wanted a map, came {ran.said}")
    put(asked.at(f"{program}.map"), ran.out)
    first, *rows = ran.out.decode().splitlines()
    asked.tally.same(f"map {program}.s: the sum", first, f"map of image {hashlib.sha256(bytes_of(image)).hexdigest()}")
    lines, wrong, addresses = text_of(source).split("\n"), [], []
    for row in rows:
        address, number, *label = row.split()
        line = lines[int(number) - 1]
        wrong += [] if (" ".join(label[1:]) in line if label else " " in line) else [row]
        addresses += [] if label else [address]
    asked.tally.check(f"map {program}.s: its lines", not wrong, f"wanted what the lines have, came {wrong}")
    listed = [it.split()[0] for it in run([SANDBOX, "list", image]).out.decode().splitlines()]
    asked.tally.same(f"map {program}.s: its addresses", addresses, listed)


def replaced(text, *pairs):
    """A text with parts in the place of others."""
    for old, new in pairs:
        text = text.replace(old, new)
    return text


def try_names(asked):
    """Places by the source's names, of the source and of its map."""
    for program in ("hello", "echo", "sort"):
        try_map(asked, program)
    blocks = [("f0_b1", "loop"), ("f0_b2", "body"), ("f0_b3", "done"), ("f0,", "main,")]
    heads = [("00040000", "main (14)"), ("00040008", "loop (24)"), ("00040018", "body (34)"),
             ("00040028", "done (41)")]
    heads = [(f"! {address}\n", f"! {name}\n") for address, name in heads]
    named = replaced(text_of(f"{ECHO[:-4]}.told"), *heads, *blocks)
    for names in (f"{ECHO[:-4]}.s", asked.at("echo.map")):
        asked.named("image", ECHO, named, names)
    places = [(f"f0+{4 * it:X} ", f"main+{4 * it:X} ({20 + it}) ") for it in range(6)]
    named = replaced(text_of(f"{HELLO[:-4]}.turns"), *places)
    for names in (f"{HELLO[:-4]}.s", asked.at("hello.map")):
        asked.named("trace", HELLO, named, names)
    v14 = f"{EXAMPLES}/refused/V14"
    front = replaced(text_of(f"{v14}.told"), ("function 0 at 0004000C", "main at loop+8 (12)")).split("\n")[:2]
    named = "\n".join(front + text_of(f"{CHECK}/v14.told").split("\n")[3:])
    image, path = asked.assembled(f"{v14}.s"), put(asked.at("V14.map"), run([INSPECT, "map", f"{v14}.s"]).out)
    for names in (f"{v14}.s", path):
        asked.named("why", image, named, names)


def try_sentences(tally):
    """Each sentence that docs/use/inspect/refusal.md has of a rule stands in the files that it names, with values in
    the place of `..`."""
    page = text_of(f"{TOP}/docs/use/inspect/refusal.md").partition("\n## The sentences of a refusal\n")[2]
    rows = re.findall(r"^\| (V\d+(?:, V\d+)*) \| (.*) \| (.*) \|$", page, re.M)
    for rules, sentence, names in rows:
        said = ".*".join(re.escape(part) for part in sentence.split(".."))
        for name in names.split(", "):
            folder = f"{EXAMPLES}/refused" if re.fullmatch(r"V\d+", name) else f"{HERE}/why"
            words = " ".join(text_of(f"{folder}/{name}.told").split())
            holds = words.split()[1] in rules.split(", ") and re.search(said, words)
            tally.check(f"docs/use/inspect/refusal.md: {rules} {sentence}", holds,
                        f"wanted it in {name}.told, came {words}")
    missing = {f"V{it}" for it in range(1, 21) if it != 19} - {rule for row in rows for rule in row[0].split(", ")}
    tally.check("docs/use/inspect/refusal.md: a sentence for each rule", not missing,
                f"wanted one, came none of {sorted(missing)}")


def try_why(asked):
    """Why images are refused."""
    folders = (f"{EXAMPLES}/refused", f"{HERE}/why")
    for told in (f"{folder}/{it}" for folder in folders for it in sorted(os.listdir(folder)) if it.endswith(".told")):
        image = told.replace(".told", ".img")
        if not os.path.exists(image):
            image = asked.assembled(told.replace(".told", ".s"))
        asked.told("why", image, told)
    asked.told("why", CHAIN, b"accepted: no rule is broken\n")
