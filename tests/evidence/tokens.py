"""The words of a source in Rattle, and the brackets, statements, functions and loops that they make."""
import re

# The most items that a number in a source may ask for: no table and no file has more.
MOST = 16_777_216

TOKEN = re.compile(
    r"""
    (?P<blank>\s+|//[^\n]*|/\*.*?\*/)
    |(?P<text>b?"(?:\\.|[^"\\])*"|r\#*".*?"\#*|b?'(?:\\.[^']*|[^'\\\n])')
    |(?P<word>'?[A-Za-z_]\w*)
    |(?P<number>\d[\w.]*)
    |(?P<sign>::|->|=>|==|.)
    """,
    re.S | re.X,
)
# the width of a value in a text that is formatted, or its precision behind a dot: a number, a value's name or number
# before `$`, or `*`
WIDTH = re.compile(r"\{\w*:(?:[^{}]?[<^>])?[+#]*0?(\w+\$|[1-9]\d*)")
PRECISION = re.compile(r"\{\w*:[^{}]*\.(\w+\$|\*|[1-9]\d*)")
CLOSES = {"(": ")", "[": "]", "{": "}"}


def tokens_of(text):
    """Returns the tokens of a source, each with the number of its line; comments are none, and a text is one, of
    which the widths and precisions are left that another value gives, or that are more than anything has."""
    found, line = [], 1
    for it in TOKEN.finditer(text):
        if it.lastgroup == "text":
            widths = [width for form in (WIDTH, PRECISION) for width in form.findall(it.group())]
            widths = [width for width in widths if not width.isdecimal() or int(width) > MOST]
            found.append(('"{:' + ",".join(widths) + '}"' if widths else '""', line))
        elif it.lastgroup != "blank":
            found.append((it.group(), line))
        line += it.group().count("\n")
    return found


def end_of(tokens, at):
    """Returns the place behind the bracket that closes the one at this place."""
    depth = 0
    for place in range(at, len(tokens)):
        word = tokens[place][0]
        depth += (word in CLOSES) - (word in CLOSES.values())
        if not depth:
            return place + 1
    return len(tokens)


def end_of_item(tokens, at):
    """Returns the place behind an item: behind its first ';' or the first '{' that is closed."""
    while at < len(tokens) and tokens[at][0] not in (";", "{"):
        at = end_of(tokens, at) if tokens[at][0] in CLOSES else at + 1
    return end_of(tokens, at) if at < len(tokens) and tokens[at][0] == "{" else at + 1


def words_at(tokens, at, count):
    """Returns so many words from this place on, as one text."""
    return " ".join(word for word, _ in tokens[max(at, 0):max(at + count, 0)])


def without_tests(tokens):
    """Returns the tokens without tests, clauses and ghost items, and the names of the modules that hold tests."""
    kept, names, at = [], [], 0
    while at < len(tokens):
        word = tokens[at][0]
        if words_at(tokens, at, 7) == "# [ cfg ( test ) ]":
            item = at + 7
            names += [tokens[item + 1][0]] if words_at(tokens, item, 1) == "mod" else []
            at = end_of_item(tokens, item)
        elif words_at(tokens, at, 4) == "# [ test ]":
            at = end_of_item(tokens, at + 4)
        elif word == "ghost":
            # a field of ghost ends with a comma, or where its type does
            while at < len(tokens) and tokens[at][0] not in (";", ",", "}"):
                at = end_of(tokens, at) if tokens[at][0] in CLOSES else at + 1
        elif word in ("ensures", "requires"):
            while at < len(tokens) and tokens[at][0] != "{":
                at += 1
            at = end_of(tokens, at)
        else:
            kept.append(tokens[at])
            at += 1
    return kept, names


def opener_of(tokens, at):
    """Returns the place of the bracket that is open around this place, or -1."""
    depth = 0
    for place in range(at - 1, -1, -1):
        word = tokens[place][0]
        if word in CLOSES and not depth:
            return place
        depth += (word in CLOSES.values()) - (word in CLOSES)
    return -1


def statement_at(tokens, at):
    """Returns the words of the statement around this place."""
    start, end = at, at
    while start > 0 and tokens[start - 1][0] not in (";", "{", "}"):
        start -= 1
    while end < len(tokens) and tokens[end][0] not in (";", "{", "}"):
        end += 1
    return words_at(tokens, start, end - start)


def opened_behind(tokens, at):
    """Returns the place of the `{` that opens the body of what stands at this place; None where it has none."""
    while at < len(tokens) and tokens[at][0] not in ("{", ";"):
        at = end_of(tokens, at) if tokens[at][0] in CLOSES else at + 1
    return at if words_at(tokens, at, 1) == "{" else None


def functions_of(tokens):
    """Yields each function that has a body: its name, the type of what it gives, and the places where the body begins
    and ends."""
    for at, (word, _) in enumerate(tokens):
        opener = opened_behind(tokens, at) if word == "fn" else None
        if opener is not None:
            given = words_at(tokens, at, opener - at).rpartition(" -> ")
            yield tokens[at + 1][0], given[2] if given[1] else "", opener, end_of(tokens, opener)


def loops_of(tokens):
    """Yields each loop: its place, its head as words, the places where its body begins and ends, and whether it
    stands within another one."""
    ends = []
    for at, (word, _) in enumerate(tokens):
        opener = opened_behind(tokens, at) if word in ("for", "while", "loop") else None
        head = words_at(tokens, at, opener - at) if opener is not None else ""
        if head and (word != "for" or " in " in head):
            ends.append(end_of(tokens, opener))
            yield at, head, opener, ends[-1], any(at < end for end in ends[:-1])
