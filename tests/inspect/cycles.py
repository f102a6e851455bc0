"""`inspect cycles`: bounds and blocks beside those of a model of its own, which reads images as docs/machine/image.md
has them, and runs, which take no more; and tables and words that aren't right."""
import glob
import os
import re
import struct
from fractions import Fraction

from asked import HELLO, input_of
from run import EXAMPLES, FIT, INSPECT, SANDBOX, TOP, bytes_of, put, run, text_of

EXAMPLE = f"{TOP}/vectors/cycles/example.table"
# Each row by a number of its own, so that a row in another's place changes a bound.
ROWS = {"plain": 10, "multiply": 41, "divide": 373, "branch": 23, "jump": 29, "load": 67, "store": 71,
        "exchange": 83, "save": 1999, "restore": 2003, "exit": 449, "get": 787, "put": 797, "trap": 13, "fetch": 17,
        "walk": 37}
NAME = "begins with no name of a row"
AGAIN = "gives a row that a line above has given"
COUNT = "a row is its name and one number"
NUMBER = "the cycles are decimal digits"
GREAT = "the cycles are at most 4294967295"
PROGRAMS = ("control", "sha256", "words")
# Lines that aren't right, by what is told of them.
WRONG = {
    NAME: ["ld 4", "Plain 4", "4 plain", "plain: 4"],
    AGAIN: ["plain 1", "put 1"],
    COUNT: ["plain", "plain 1 2"],
    NUMBER: ["plain x", "plain +1", "plain -1", "plain 0x1", "plain 1.5"],
    GREAT: ["plain 4294967296", "plain 18446744073709551617"],
    "isn't text": ["plain \xff"],
}
# op3 of format 3, by the row: of memory, of arithmetic, and of control
MEMORY = {**dict.fromkeys((0, 1, 2, 3, 9, 10), "load"), **dict.fromkeys((4, 5, 6, 7), "store"),
          13: "exchange", 15: "exchange"}
ARITHMETIC = {**dict.fromkeys((0x0A, 0x0B, 0x1A, 0x1B), "multiply"),
              **dict.fromkeys((0x0E, 0x0F, 0x1E, 0x1F), "divide"),
              0x38: "jump", 0x3C: "save", 0x3D: "restore"}
SERVICES = {0: "exit", 1: "get", 2: "put"}
# What a step takes beside its row, its fetch and the walk for that.
MORE = {**dict.fromkeys(("load", "store", "exchange"), "walk"),
        **dict.fromkeys(("save", "restore", "exit", "get", "put"), "trap")}
# The address of the first word, and words: mov 0,%o0, nop, ta 0, retl.
START, ZERO, NOP, EXIT, RETL = 0x40000, 0x90102000, 0x01000000, 0x91D02000, 0x81C3E008
# What a step counts, where that isn't one turn (docs/machine/rules.md).
WEIGHTS = {"save": 25, "restore": 25, "exit": 3, "get": 5, "put": 5}


def row_of(word):
    """The row of a word of an accepted image."""
    form, kind = word >> 30, word >> 19 & 0x3F
    if form == 0:
        return "branch" if word >> 22 & 7 == 2 else "plain"
    if form == 1:
        return "branch"
    if form == 3:
        return MEMORY[kind]
    return SERVICES[word & 0x7F] if kind == 0x3A else ARITHMETIC.get(kind, "plain")


def counted(image, at, entry):
    """The numbers of a field of an image, and where it ends."""
    return struct.unpack_from(f">{entry}", image, at), at + struct.calcsize(f">{entry}")


def function_in(image, at, version):
    """A function's entry, its budget and its blocks' addresses, and where it ends."""
    (_, params, results, _, entry, _, _, budget), at = counted(image, at, "BBBBIIIQ")
    (count,), at = counted(image, at + 2 * (version == 3), "H")
    at, blocks = at + 9 * (params + results), []
    for _ in range(count):
        (address, cells, terms, _), at = counted(image, at, "IHHq")
        at += 11 * cells + 6 * terms
        blocks.append(address)
    return (entry, budget, blocks), at


def parts_of(image):
    """The words of an image, and its functions."""
    (version, _, count), at = counted(image, 4, "HHI")
    data = 0
    if version == 1:
        (data, _, functions), at = counted(image, at, "IHH")
    else:
        (regions, _, functions), at = counted(image, at, "HHH")
        data = sum(struct.unpack_from(">I", image, at + 6 * it)[0] for it in range(regions))
        at += 6 * regions
    words, at = counted(image, at, f"{count}I")
    at, found = at + data, []
    for _ in range(functions):
        function, at = function_in(image, at, version)
        found.append(function)
    return words, found


def cycles_of(name, rows):
    """What a step of a row takes."""
    return rows["fetch"] + rows["walk"] + rows[name] + rows.get(MORE.get(name), 0)


def has_slot(word):
    """Whether a word is a branch, a CALL or a return."""
    return row_of(word) in ("branch", "jump")


def is_branch(word):
    """Whether a word is a branch; a CALL is none."""
    return word >> 30 == 0 and row_of(word) == "branch"


def pieces_in(words):
    """The words of a block in pieces: each is over behind a slot, with the end of the run, and with the block."""
    ends = [end for end in range(1, len(words) + 1)
            if end == len(words) or row_of(words[end - 1]) == "exit" or end > 1 and has_slot(words[end - 2])]
    return [words[start:end] for start, end in zip([0, *ends], ends)]


def taken_in(piece, rows):
    """What the words of a piece take: its cycles and its turns, as a whole, and where a branch's slot is annulled."""
    names = [row_of(word) for word in piece]
    cycles, turns = [cycles_of(it, rows) for it in names], [WEIGHTS.get(it, 1) for it in names]
    found = [(sum(cycles), sum(turns))]
    if len(piece) > 1 and is_branch(piece[-2]):
        found.append((sum(cycles[:-1]) + rows["fetch"] + rows["walk"] + rows["plain"], sum(turns[:-1]) + 1))
    return found


def dearest_of(pieces):
    """The first of those that take the most by the turn; nothing is no dearer than a turn without cycles."""
    return max([(0, 1), *pieces], key=lambda it: Fraction(*it))


def blocks_of(image, rows):
    """The dearest piece of each block, by functions: entry, budget, and pairs of an address and a piece."""
    words, functions = parts_of(image)
    starts = [address for _, _, blocks in functions for address in blocks]
    ends, found = dict(zip(starts, [*starts[1:], START + 4 * len(words)])), []
    for entry, budget, blocks in functions:
        pieces = [(it, pieces_in(words[(it - START) // 4:(ends[it] - START) // 4])) for it in blocks]
        taken = [(it, [pair for piece in told for pair in taken_in(piece, rows)]) for it, told in pieces]
        found.append((entry, budget, [(it, dearest_of(pairs)) for it, pairs in taken]))
    return found


def bound_of(image, rows):
    """Budget, dearest piece, and bound."""
    functions = blocks_of(image, rows)
    cycles, turns = dearest_of([piece for _, _, blocks in functions for _, piece in blocks])
    return functions[0][1], (cycles, turns), cycles * functions[0][1] // turns


def text_of_rows(rows):
    """A table."""
    return "".join(f"{name} {cycles}\n" for name, cycles in rows.items())


def without_services(rows):
    """A table whose services take nothing behind their traps."""
    return {**rows, **dict.fromkeys(SERVICES.values(), 0)}


def by_the_turn(piece):
    """The cycles of a piece for each turn, rounded up to thousandths."""
    thousandths = -(-1000 * piece[0] // piece[1])
    return f"{thousandths // 1000}.{thousandths % 1000:03}"


def with_noun(count, noun):
    """A count, and what is counted."""
    return f"{count} {noun}" if count == 1 else f"{count} {noun}s"


def text_of_piece(piece):
    """What a piece takes."""
    return f"{with_noun(piece[0], 'cycle')} in {with_noun(piece[1], 'turn')}"


def row_of_block(address, piece, dearest):
    """The line of a block."""
    mark = ", the dearest" if dearest else ""
    return f"  {address:08X}: {text_of_piece(piece)}, {by_the_turn(piece)} a turn{mark}\n"


def told_of(image, rows):
    """What is told of an image."""
    budget, dearest, most = bound_of(image, rows)
    lines = [f"budget: {budget} turns\n", f"dearest piece: {text_of_piece(dearest)}\n",
             f"bound: {most} cycles\n",
             f"beside services: {bound_of(image, without_services(rows))[2]} cycles, and {rows['exit']} an exit, "
             f"{rows['get']} a get, {rows['put']} a put\n"]
    marked = False
    for number, (entry, allowed, blocks) in enumerate(blocks_of(image, rows)):
        lines.append(f"function {number} at {entry:08X}: budget {allowed} turns\n")
        for address, piece in blocks:
            first = not marked and Fraction(*piece) == Fraction(*dearest)
            marked |= first
            lines.append(row_of_block(address, piece, first))
    return "".join(lines)


def try_image(asked, image, tables):
    """The bound of an image by each table."""
    for table, rows in tables:
        ran = run([INSPECT, "cycles", image, "--table", table])
        name = f"cycles {os.path.basename(image)} by {os.path.basename(table)}"
        asked.same_text(name, ran, told_of(bytes_of(image), rows).encode())


def tables_of(asked):
    """Tables, the last of them with one row above all others each."""
    tables = [("own.table", ROWS), ("least.table", dict.fromkeys(ROWS, 0)),
              ("most.table", dict.fromkeys(ROWS, 4294967295))]
    tables += [(f"{name}.table", {**ROWS, name: 250_007}) for name in ROWS]
    found = [(put(asked.at(name), text_of_rows(rows)), rows) for name, rows in tables]
    lines = [it.partition("#")[0].split() for it in text_of(EXAMPLE).split("\n")]
    return [*found, (EXAMPLE, {it[0]: int(it[1]) for it in lines if it})]


def try_bounds(asked, tables):
    """The examples by each table, and programs in C."""
    images = sorted(glob.glob(f"{EXAMPLES}/*/*.img"))
    for image in images:
        if run([SANDBOX, "verify", image]).status == 0:
            try_image(asked, image, tables)
    for name in PROGRAMS:
        source = asked.at(f"{name}.s")
        ran = run([FIT, f"{EXAMPLES}/c/gcc/{name}.s", f"{EXAMPLES}/c/gcc/plug.s", "-o", source])
        asked.tally.check(f"fit {name}", ran.status == 0, f"wanted a source, came {ran.said}")
        try_image(asked, asked.assembled(source), tables)


def steps_of(image, given):
    """The steps of a run of an image, as they are traced: the address of each word, and whether it is annulled. A word
    that traps for want of a window comes again."""
    ran = run([INSPECT, "trace", image, "--windows", "4", "--limit", "400000"], given)
    told = re.findall(r"^ *[0-9]+ [0-9A-F]{2} u ([0-9A-F]{8}) \S+ +(.*)$", ran.out.decode(), re.MULTILINE)
    return [(int(at, 16), it == "annulled") for at, it in told if " trap 05 " not in it and " trap 06 " not in it]


def taken_by(image, steps, rows):
    """What the steps of a run take, in cycles, and count, in turns."""
    words, taken, turns = parts_of(image)[0], 0, 0
    for at, annulled in steps:
        row = "plain" if annulled else row_of(words[(at - START) // 4])
        taken += cycles_of(row, rows)
        turns += WEIGHTS.get(row, 1)
    return taken, turns


def try_path(asked, image, given, tables):
    """A run takes no more than the bound, nor than the one beside services without them, and counts no more than the
    budget."""
    steps, name = steps_of(image, given), os.path.basename(image)
    asked.tally.check(f"trace {name}", len(steps) > 1, f"wanted steps, came {len(steps)}")
    for table, rows in tables:
        for these in (rows, without_services(rows)):
            taken, turns = taken_by(bytes_of(image), steps, these)
            budget, _, most = bound_of(bytes_of(image), these)
            said = f"{taken} of {most} cycles, {turns} of {budget} turns"
            asked.tally.check(f"run {name} by {os.path.basename(table)}", taken <= most and turns <= budget, said)


def try_paths(asked, tables):
    """Runs of the examples, and that of one block, which takes what its bound says."""
    for image in sorted(glob.glob(f"{EXAMPLES}/*/*.img")):
        if run([SANDBOX, "verify", image]).status == 0:
            try_path(asked, image, input_of(image), tables)
    steps, hello = steps_of(HELLO, b""), bytes_of(HELLO)
    for table, rows in tables:
        name = f"run hello.img by {os.path.basename(table)}: all of it"
        asked.tally.same(name, taken_by(hello, steps, rows)[0], bound_of(hello, rows)[2])


def image_of(words, functions, services=1):
    """An image of leaves without data, where a function is its budget and its blocks, as addresses and fuels."""
    head = struct.pack(">4sHHIIHH", b"SBX8", 1, services, len(words), 0, 1, len(functions))
    parts = [head, struct.pack(f">{len(words)}I", *words)]
    for budget, blocks in functions:
        parts.append(struct.pack(">BBBBIIIQH", 0, 0, 0, 0, blocks[0][0], 0, 0, budget, len(blocks)))
        parts += [struct.pack(">IHHq", address, 0, 0, fuel) for address, fuel in blocks]
    return b"".join(parts)


def longest():
    """An image of as many words as there can be, in one block."""
    count = 65536
    return image_of([ZERO, *[NOP] * (count - 2), EXIT], [(count + 2, [(START, count + 2)])])


def most_blocks():
    """An image of as many functions and blocks as there can be. Each block has a word, but the last one of a leaf,
    which has `retl` and its slot; the first function exits."""
    words, functions = [ZERO, EXIT], [(4, [(START, 4)])]
    for number in range(255):
        at, count = START + 4 * len(words), 32 if number == 0 else 16 if number < 255 - 1 else 15
        functions.append((count + 1, [(at + 4 * it, count + 1 - it) for it in range(count)]))
        words += [NOP] * (count - 1) + [RETL, NOP]
    return image_of(words, functions)


def try_greatest(asked, tables):
    """The images of most words, blocks and functions."""
    for name, image in (("longest.img", longest()), ("blocks.img", most_blocks())):
        path = put(asked.at(name), image)
        told = run([SANDBOX, "verify", path])
        asked.tally.check(f"verify {name}", told.status == 0, f"wanted 0, came {told.status}: {told.err}")
        try_image(asked, path, tables)


def try_most(asked, table):
    """`--max-cycles` below, at and above the bound."""
    bound, told = bound_of(bytes_of(HELLO), ROWS)[2], told_of(bytes_of(HELLO), ROWS).encode()
    for most in (bound, bound + 1, 18446744073709551615):
        ran = run([INSPECT, "cycles", "--max-cycles", str(most), "--table", table, HELLO])
        asked.same_text(f"cycles --max-cycles {most}", ran, told)
    for most in (bound - 1, 0):
        ran = run([INSPECT, "cycles", HELLO, "--table", table, "--max-cycles", str(most)])
        line = f"inspect: {HELLO}: the bound is greater than {most} cycles\n"
        asked.tally.same(f"cycles --max-cycles {most}", tuple(ran), (1, told, line.encode()))


def try_tables(asked):
    """Tables that aren't right: the first line that isn't is told, else the first row that lacks."""
    whole = text_of_rows(ROWS)
    for cause, lines in WRONG.items():
        for line in lines:
            # (behind all rows a row stands again; before them a line is wrong by itself)
            text = f"{whole}# all\n{line}\nx\n" if cause == AGAIN else f"# none\r\n\n{line}\nx\n{whole}"
            number = len(ROWS) + 2 if cause == AGAIN else 3
            path = put(asked.at("wrong.table"), text.encode("latin-1"))
            asked.says(2, f"inspect: {path}: line {number}: {cause}", "cycles", HELLO, "--table", path)
    for name in ROWS:
        path = put(asked.at("wrong.table"), text_of_rows({it: 1 for it in ROWS if it != name}))
        asked.says(2, f"inspect: {path}: the row {name} lacks", "cycles", HELLO, "--table", path)
    path = put(asked.at("other.table"), whole.replace("\n", " \t# \xfc\r\n").encode())
    try_image(asked, HELLO, [(path, ROWS)])


def try_calls(asked, table):
    """Files that aren't there, images that are refused or none, and words that ask for nothing."""
    missing, none = asked.at("missing"), put(asked.at("none.img"), "no image")
    asked.says(4, f"inspect: {missing}: no such file", "cycles", HELLO, "--table", missing)
    asked.says(4, f"inspect: {missing}: no such file", "cycles", missing, "--table", table)
    refused = asked.assembled(sorted(glob.glob(f"{EXAMPLES}/refused/*.s"))[0])
    for image in (refused, none):
        told = run([SANDBOX, "verify", image])
        asked.tally.check(f"verify {os.path.basename(image)}", told.status == 2, f"wanted 2, came {told.status}")
        asked.says(2, told.err.decode().rstrip("\n"), "cycles", image, "--table", table)
    wanted = "inspect: --max-cycles wants a decimal number from 0 to 18446744073709551615"
    for number in ("x", "-1", "+1", "", "18446744073709551616"):
        asked.says(3, wanted, "cycles", HELLO, "--table", table, "--max-cycles", number)
    for words in (("cycles",), ("cycles", HELLO), ("cycles", "--table", table), ("cycles", HELLO, HELLO),
                  ("cycles", HELLO, "--table"), ("cycles", HELLO, "--table", table, "--table", table)):
        asked.gives(3, *words)


def try_cycles(asked):
    """All of it."""
    table, tables = put(asked.at("own.table"), text_of_rows(ROWS)), tables_of(asked)
    try_bounds(asked, tables)
    try_paths(asked, tables)
    try_greatest(asked, [*tables[:3], tables[-1]])
    try_most(asked, table)
    try_tables(asked)
    try_calls(asked, table)
