"""How the library for C tells a status: by its name, or as another function that tells one gave it. A status that is
worked out, or that is the number of something else, may be any."""
import re

from tokens import CLOSES, end_of, functions_of, opened_behind, words_at

# What gives another number than a status.
NUMBERS = ("fault_number", "cause_number", "depth_of", "geyserpan_abi", "geyserpan_exit_kind")
# What begins an expression that ends with its block.
BLOCKS = ("if", "match", "for", "while", "loop", "{")
# Where the status of a step is taken apart from its exit word.
TAKEN = re.compile(r"\blet \( status , exit \) = (\w+) \(")


def tells(name, given):
    """Whether a function of this name, which gives this type, tells a status."""
    return given in ("u32", "( u32 , u32 )") and name not in NUMBERS


def end_of_block(tokens, at):
    """Returns the place behind an expression with blocks: behind the last of them."""
    while True:
        at = end_of(tokens, opened_behind(tokens, at))
        if words_at(tokens, at, 1) != "else":
            return at


def end_of_value(tokens, at, end, stops):
    """Returns the place behind the expression at this place, which one of these words ends."""
    while at < end and tokens[at][0] not in stops:
        at = end_of(tokens, at) if tokens[at][0] in CLOSES else at + 1
    return at


def last_of(tokens, at, end):
    """Returns the place of a block's last expression, whose words stand from this place on; its end where it has
    none."""
    while at < end:
        if tokens[at][0] in BLOCKS:
            behind = end_of_block(tokens, at)
        else:
            behind = end_of_value(tokens, at, end, (";",)) + 1
        if behind >= end:
            return at if behind == end or tokens[at][0] in BLOCKS or words_at(tokens, end, 1) != ";" else end
        at = behind
    return end


def values_of_blocks(tokens, at, end):
    """Yields the values of an expression with blocks, `if` or a block alone."""
    while at < end:
        opener = opened_behind(tokens, at)
        at = end_of(tokens, opener)
        yield from values_of(tokens, last_of(tokens, opener + 1, at - 1), at - 1)


def values_of_arms(tokens, at, end):
    """Yields the values of the arms between these places."""
    while at < end:
        at = end_of_value(tokens, at, end, ("=>",)) + 1
        is_block = at < end and tokens[at][0] in BLOCKS
        behind = end_of_block(tokens, at) if is_block else end_of_value(tokens, at, end, (",",))
        if at < end:
            yield from values_of(tokens, at, behind)
        at = behind + (words_at(tokens, behind, 1) == ",")


def values_of(tokens, at, end):
    """Yields each value that the expression between these places may have, as words; of a pair, its first part's."""
    word = words_at(tokens, at, 1)
    if at >= end:
        return
    if word in ("if", "{"):
        yield from values_of_blocks(tokens, at, end)
    elif word == "match":
        opener = opened_behind(tokens, at)
        yield from values_of_arms(tokens, opener + 1, end_of(tokens, opener) - 1)
    elif word == "(" and end_of(tokens, at) == end:
        yield from values_of(tokens, at + 1, end_of_value(tokens, at + 1, end - 1, (",",)))
    else:
        yield words_at(tokens, at, end - at)


def given_by(tokens, opener, end):
    """Yields each value that a body gives, by its end or a `return`."""
    yield from values_of(tokens, last_of(tokens, opener + 1, end - 1), end - 1)
    for at in range(opener, end):
        if tokens[at][0] == "return":
            yield from values_of(tokens, at + 1, end_of_value(tokens, at + 1, end, (";", ",", "}")))


def is_called(value, telling):
    """Whether a value is a call of one of these functions, and nothing besides."""
    call = re.match(r"(?:\w+ (?:\( \) )?(?:\.|::) )*(\w+) (\(.*\))$", value)
    words = [(it, 0) for it in call.group(2).split(" ")] if call else []
    return bool(call) and call.group(1) in telling and end_of(words, 0) == len(words)


def is_told(value, body, statuses, telling):
    """Whether a value is the name of a status, what a function that tells one gives, or the status that one gave."""
    if value == "status":
        taken = TAKEN.findall(body)
        return len(taken) == 1 and taken[0] in telling and body.split(" ").count("status") == 2
    return value in statuses or is_called(value, telling)


def made_up_in(sources):
    """Yields each value that is given for a status, and is neither its name nor such a function's: file, function and
    words."""
    named = [words_at(tokens, 0, len(tokens)) for path, tokens in sources if path.endswith("/statuses.rt")]
    statuses = {it for text in named for it in re.findall(r"pub const (\w+) : u32 =", text)}
    telling = {name for _, tokens in sources for name, given, _, _ in functions_of(tokens) if tells(name, given)}
    for path, tokens in sources:
        for name, given, opener, end in functions_of(tokens):
            body = words_at(tokens, opener, end - opener)
            for value in given_by(tokens, opener, end) if tells(name, given) else ():
                if not is_told(value, body, statuses, telling):
                    yield f"{path}: {name}: a status may be made up: {value}"
