#!/usr/bin/env python3
"""usage: tests/evidence/run.py

Looks whether want of memory is told anywhere without evidence of it. What tells it holds a `Want`, a type of the
crate `want` that is made of std's `AllocError` alone, and std makes that where a growth is refused. No proof keeps a
body from writing the word `AllocError` as a value, or from having one by another way: this script does, for all
sources but tests. Errors of files and streams hold no such evidence, and neither do `clap`'s: where one is of the
kind `OutOfMemory`, and only there, a `Full` is made, or a `Starved` of `clap`'s, which `NoRoom` holds.

Of the crates fit and fit_* nothing is promised but that they return, so they aren't read: what they make is a source
like any other; nor is v8_turns, which compares the lines of the vectors, as tests do.

std makes one elsewhere, too, and no source but tests may stand there: at a clone (of a cell that is lent, of an
array), at a cell that is written once, at a count of owners, and where a `fmt` of one's own fails.

Likewise it looks whether a file or a stream is told as faulty that works. What tells it stands in the arm of a call
that failed, or of another's word for it, or beside the error that was met (`CommandStop::of`), or behind a loop of
2^64 - 1 turns, as many as there can be; two more places are known by their words (KNOWN). An error of a stream is
made nowhere but where a write took nothing (`put_all`), and no source has a stream of its own but those listed
(STREAMS).

Likewise the library for C: it tells MEMORY in the arm of a call that failed for want of it (WANTING), or behind the
number of such a fault, and nowhere else, by that word alone; and each function there that tells a status gives its
name, or what another one gave (statuses.py).

It reads crates/*/src, and lists each place where a count of items is asked for at once (a vector's room, a text that
is repeated, a width or a precision, what is put together of an iterator or a list, and a count that is handed to one
of the sources' own functions that asks for it), since a growth that asks for more than there is would be refused,
too. Each has to be among those that were read (READ in read.py), in a function whose words are still those that were
read. A count that is a number, or is worked out of numbers, is found where it is more than anything has, and so is
each that turns or moves bits, wraps, or is read of bytes or of a text.

Likewise each loop in which a call may fail, since memory that is asked for piece by piece is refused in the end, too:
it goes once over a list that is there, stands in no other loop, and appends no list; or it is among those that were
read (LOOPS), and so is a function that calls itself. Two lists that are appended to each other without a loop aren't
looked at.

Then it tries itself: each body of tests/evidence/bodies/CRATE, an edit that no clause speaks against, so that it proves
or would with a proof of its own, is put into a copy of its file, and has to be found. It prints what it looked at and
what it found."""
import glob
import os
import re
import sys
import zlib

sys.dont_write_bytecode = True
HERE = os.path.dirname(os.path.abspath(__file__))
sys.path.insert(0, f"{os.path.dirname(HERE)}/lib")
from crates import TOP
from edits import applied
from read import LOOPS, READ
from run import text_of
from statuses import made_up_in
from tally import Tally, Words
from tokens import (
    CLOSES, MOST, end_of, functions_of, loops_of, opener_of, statement_at, tokens_of, without_tests, words_at,
)

# What tells want of memory: crate, enum, variant, and the evidence that it has to hold, and nothing else.
TELLS = [
    ("v8_mmu", "PortFault", "Memory", "Want"),
    ("sbx_text", "TextFault", "Memory", "Want"),
    ("sbx_parts", "ImageFault", "Memory", "Want"),
    ("sbx_directives", "DataFault", "Memory", "Want"),
    ("sbx_asm", "Cause", "Memory", "Want"),
    ("sbx_rules", "Cause", "NoMemory", "Want"),
    ("inspect_known", "NotKnown", "NoMemory", "Want"),
    ("sbx_raw", "RunFault", "Memory", "Want"),
    ("cmd_filing", "ReadFault", "Memory", "Want"),
    ("cmd_stops", "CommandStop", "Memory", "Want"),
    ("cmd_stops", "CommandStop", "NoRoom", "Full"),
    ("cmd_words", "Usage", "Memory", "Want"),
    ("cmd_words", "Usage", "NoRoom", "Starved"),
    ("engine_runs", "FlatStop", "Refused", "Want"),
    ("engine_runs", "FlatStand", "Refused", "Want"),
    ("inspect_start", "StartCause", "Memory", "Want"),
    ("sbx_verdicts", "LineFault", "Memory", "Want"),
    ("host", "Lack", "Memory", "Want"),
    ("host", "RunHalt", "Memory", "Want"),
    ("host", "RunHalt", "NoRoom", "Full"),
    ("host", "HostFault", "Memory", "Want"),
    ("host", "HostFault", "NoRoom", "Full"),
]

# What tells a file or a stream as faulty: enum and variant.
FAULTS = (
    "StreamFault :: Reader", "StreamFault :: Writer", "RunFault :: Reader", "RunFault :: Writer",
    "ReadFault :: Reader", "CommandStop :: File",
    "CommandStop :: Input", "CommandStop :: Output",
)
# A file that is too long, which a contract explains.
TOO_LONG = "ReadFault :: TooLong"
# What a port tells of itself: of whoever passes it on a contract says that it is the port's own.
OF_PORTS = ("PortFault :: Reader", "PortFault :: Writer")

# Where such a word stands alone: what is so is said before it. The first is what no turn of a board does, the second
# is no fault of a stream.
KNOWN = (
    ("crates/sbx_port/src/carrying.rt", "if ! met & & board . port ( ) . has_ended ( ) { return Err ("),
    ("crates/sbx_tool/src/assembling.rt", "if status == 0 & & is_same_file ( rt , source , object ) { return Err ("),
)

# The sources that have a reader or a writer of their own: conversations, those that count, and the host's.
STREAMS = (
    "crates/sbx_tool/src/conversing.rt",
    "crates/sbx_bench/src/tally.rt",
    "crates/cmd_files/src/conversing.rt",
    "crates/cmd_files/src/counting.rt",
    "crates/host/src/bounding.rt",
    "crates/host/src/running.rt",
    "crates/inspect_names/src/writer.rt",
)

# A call of a stream, whole.
CALL = re.compile(r"(?:(?:\w+ \. )+(?:read|write|flush)|put_all|put_through|put_listing) \( [^{}]*\)")

# What may be unsafe, and is to be read by whoever changes it: the pointers of handles, whose functions are proved by
# hand.
POINTERS = {f"crates/geyserpan/src/{it}.rt" for it in ("loose", "image_handle", "run_handle", "engine_handle")}

# The places that lend a cell where it may be lent already, which would be an error of a stream: one at a time.
LENT = (
    ("crates/cmd_files/src/conversing.rt", "if let Ok ( mut out ) = self . out . try_borrow_mut ( )"),
    ("crates/cmd_files/src/conversing.rt", "self . out . try_borrow_mut ( ) ? . write_all ( buf ) ?"),
    ("crates/cmd_files/src/conversing.rt", "self . out . try_borrow_mut ( ) ? . flush ( )"),
    ("crates/cmd_files/src/conversing.rt", "self . out . try_borrow_mut ( ) ? . write_all ( buf )"),
)

# What tells want of memory to a program in C, in the crate whose statuses are numbers; that number; calls that fail
# for want of memory alone; and what a fault's number is compared with before.
LIBRARY, MEMORY, NUMBER_OF_MEMORY = "crates/geyserpan/", "MEMORY", "3"
WANTING = re.compile(
    r"(?:Box|Arc|Session) :: new \( alloc , [^\[\];]*\)|Arc :: try_clone \( [^{}]*\)"
    r"|FlatSession :: of \( alloc , [^\[\];]*\)|(?:run_(?:windows|opened)|opened_of) \( alloc , [^{}]*\)"
    r"|write \( & image , alloc \)"
)
COMPARED = [f"if number == {it} {{ return" for it in ("NO_MEMORY_FAULT", "NO_MEMORY_RULE", "0")]

# Types whose methods make evidence where no growth was refused; a cell that may be lent stands where it is never
# copied.
MAKERS = ("OnceCell", "LazyCell", "OnceLock", "LazyLock", "Rc", "Arc", "RcStr", "ArcStr")

# Where such a type stands: what handles and runs of an image share is made where memory for it is there, and a further
# owner of it where there are fewer than 2^63, which the header tells as want of memory.
SHARED = ("crates/geyserpan/src/image_slot.rt",
          *(f"crates/engine_runs/src/{it}.rt" for it in ("flat_run", "opened", "runs")))

# Calls that ask for room for a count of items, and functions of the sources that do it with a count that is handed to
# them.
ASKERS = (
    "with_capacity", "reserve", "reserve_exact", "try_reserve", "try_reserve_exact", "resize", "resize_with",
    "try_resize_with", "from_elem", "extend_from_within",
)
HANDED = ("with_room", "zeros", "items_of")

# Calls that ask for as much as an iterator or a list says.
GATHERS = ("extend", "collect", "join", "concat")

# What is gone over once: a list by its name, with nothing counted; what may fail in a loop; and what appends a list.
OVER = re.compile(r"for .* in (?:& )?(?:mut )?[a-z_]\w*(?: \. (?:\d|[a-z_]\w*)(?: \( \))?)*")
FAILS = re.compile(r"\?|\b(?:Ok|Err|is_ok|is_err|ok)\b")
APPENDS = re.compile(r"\b(?:extend\w*|append|push_str|write|writeln|insert_str|splice)\b (?:! )?\(")

def is_parameter(tokens, at):
    """Whether the type at this place is one of a function's parameters."""
    opener = opener_of(tokens, at)
    head = words_at(tokens, opener - 24, 24).rpartition(" fn ")[2].split(" ")
    return words_at(tokens, opener, 1) == "(" and (len(head) == 1 or head[1] == "<" and head[-1] == ">")


def is_used(tokens, at):
    """Whether the word at this place stands in a `use` item, under its own name."""
    place = at
    while place >= 0 and tokens[place][0] not in (";", "}", "]") and tokens[place][0] != "use":
        place -= 1
    return place >= 0 and tokens[place][0] == "use" and words_at(tokens, at + 1, 1) != "as"


def form_of_error(tokens, at):
    """Returns in which form an `AllocError` stands that makes none, or None."""
    before, behind = words_at(tokens, at - 1, 1), words_at(tokens, at + 1, 1)
    if is_used(tokens, at):
        return "use items"
    if before in (",", "<") and behind == ">" or before == "->":
        return "types of results"
    if before == ":" and is_parameter(tokens, at):
        return "parameters"
    if before == "for" and behind == "{" or words_at(tokens, at - 3, 5) == "struct Want ( AllocError )":
        return "impl heads, and the field of Want"
    if words_at(tokens, at + 1, 3) == ":: from (":
        return "conversions of what was handed over"
    return None


def form_of_failed(tokens, at):
    """The same of an `AllocFailed`, which holds what could not be stored."""
    if is_used(tokens, at):
        return "use items"
    if words_at(tokens, at - 2, 2) == "From <" or words_at(tokens, at - 1, 1) == ":" and is_parameter(tokens, at):
        return "parameters"
    return None


def form_of_kind(tokens, at):
    """The same of the kind `OutOfMemory` of another error: it may be asked for, and never given."""
    behind, start = words_at(tokens, at + 1, 1), at
    while words_at(tokens, start - 1, 1) == "::":
        start -= 2
    if words_at(tokens, start - 1, 1) == "=" and words_at(tokens, start - 2, 1) in ("=", "=="):
        return "kinds that are asked for"
    return "kinds that are asked for" if words_at(tokens, start - 1, 1) == "==" or behind in ("=>", "|") else None


def form_of_room(tokens, at):
    """The same of `NoRoom`, which tells want of memory for an error of the kind `OutOfMemory`: it holds the evidence
    of that."""
    if words_at(tokens, at - 1, 1) != "::":
        head = opener_of(tokens, at)
        return "enumerations" if "enum" in (words_at(tokens, head - 2, 1), words_at(tokens, head - 5, 1)) else None
    return "answers with their evidence" if words_at(tokens, at + 1, 1) == "(" else None


def form_of_kept(tokens, at):
    """The same of `Full` and `Starved`, the evidence that a file or a stream had no room, or `clap` none: it is made
    of an error whose kind was asked for."""
    word, before, behind = tokens[at][0], words_at(tokens, at - 1, 1), words_at(tokens, at + 1, 1)
    if is_used(tokens, at):
        return "use items"
    stands = ("Stand", "FlatStand")
    is_stand = words_at(tokens, at - 2, 3) in [f"{it} :: Full" for it in stands]
    if is_stand or words_at(tokens, opener_of(tokens, at) - 2, 2) in [f"enum {it}" for it in stands]:
        return "stands of a run in pieces"
    if before in ("struct", "impl") or before == "<" and behind == ">" or words_at(tokens, at - 2,
                                                                                   4) == f"NoRoom ( {word} )":
        return "types"
    if words_at(tokens, at + 1, 3) == ":: of (":
        return "questions to an error"
    return "answers to such a kind" if words_at(tokens, at - 4, 9) == f"OutOfMemory {{ Some ( {word} ( ( ) )" else None


def arm_of(tokens, at):
    """Returns the pattern of the arm whose answer begins right before this place, as `=> Err(` or `=> return Err(`,
    and what is matched; None where there is no such arm."""
    arrow, around = at - 1, ("(", "Err", "return", "InspectFault", "HostFault", "::", "Stop", "CommandStop")
    while words_at(tokens, arrow, 1) in around:
        arrow -= 1
    if words_at(tokens, arrow, 1) != "=>":
        return None
    opener, start = opener_of(tokens, arrow), arrow
    while start - 1 > opener and words_at(tokens, start - 1, 1) not in (",", "}"):
        start -= 1
    head = opener
    while head > 0 and tokens[head][0] != "match":
        head -= 1
    return words_at(tokens, start, arrow - start), words_at(tokens, head + 1, opener - head - 1)


def is_behind_all_turns(tokens, at):
    """Whether the answer at this place stands behind a loop of as many turns as there can be."""
    end = at - 3
    if words_at(tokens, end, 3) != "} Err (":
        return False
    opener = opener_of(tokens, end)
    return words_at(tokens, opener - 6, 7) == "for _ in 0..u64 :: MAX {"


def form_of_fault(path, tokens, at):
    """Returns in which form a word of FAULTS stands that makes up no fault, or None."""
    behind = at + 3
    while words_at(tokens, behind, 1) == ")":
        behind += 1
    if words_at(tokens, behind, 1) in ("=>", "|", "if"):
        return "patterns"
    if any(path == known and words_at(tokens, at - words.count(" ") - 1, words.count(" ") + 1) == words for known,
           words in KNOWN):
        return "places that are known"
    if words_at(tokens, at - 7, 7) == "CommandStop :: of ( & error ,":
        arm = arm_of(tokens, at - 7)
        return "answers with the error that was met" if arm and arm[0] == "Err ( error )" else None
    if is_behind_all_turns(tokens, at):
        return "answers behind all turns"
    arm = arm_of(tokens, at)
    if arm and arm[0] in ("Err ( _ )", "Err ( error )", "Ok ( 0 ) | Err ( _ )") and CALL.fullmatch(arm[1]):
        return "answers to a call that failed"
    words = arm[0].removeprefix("Err ( ").removesuffix(" )").split(" | ") if arm else []
    return "other words for a fault" if words and all(it in (*FAULTS, *OF_PORTS, TOO_LONG) for it in words) else None


def form_of_made(tokens, at):
    """Returns in which form an error of a stream is made that was met, or is the one of a write that took nothing; or
    None."""
    start = at - 2 if words_at(tokens, at - 2, 2) == "io ::" else at
    if words_at(tokens, start - 7, 7) == "is_dir ( ) { return Err (":
        return "directories that are asked for as files"
    if words_at(tokens, start - 9, 9) == "self . over = true ; return Err (":
        return "writes beyond a bound"
    made, arm = words_at(tokens, at + 4, 4), arm_of(tokens, start)
    if made == "AllocError :: from (" and words_at(tokens, at + 8, 2) == "want )":
        return "errors of a growth that was refused"
    if arm == ("0", "out . write ( rest ) ?") and made == "ErrorKind :: WriteZero )":
        return "writes that took nothing"
    is_met = arm and arm[0] == "Err ( error )" and made.startswith("error ) )")
    return "conversions of what was met" if is_met else None


def form_of_memory(tokens, at):
    """Returns in which form the status MEMORY of the library for C stands where memory was refused, or None."""
    if is_used(tokens, at):
        return "use items"
    if words_at(tokens, at - 1, 1) == "const":
        return "its number"
    if words_at(tokens, at + 1, 1) == "=>":
        return "patterns"
    if any(words_at(tokens, at - 6, 6) == it for it in COMPARED):
        return "answers to the number of such a fault"
    pattern, matched = arm_of(tokens, at) or ("", "")
    if pattern == "FlatStand :: Refused ( _want )":
        return "answers with their evidence"
    is_failed = re.fullmatch(r"Err \( _\w+ \)|Some \( Err \( _\w+ \) \)", pattern)
    return "answers to a call that failed" if is_failed and WANTING.fullmatch(matched) else None


def form_of_number(tokens, at):
    """The same of the number that MEMORY has: it may be the number of something else."""
    if words_at(tokens, at - 2, 2) == "u32 =" and words_at(tokens, at - 4, 1) == MEMORY:
        return "its number"
    if words_at(tokens, at - 1, 1) == ";" and words_at(tokens, at + 1, 1) == "]":
        return "lengths"
    if words_at(tokens, at + 1, 1) == "=>":
        return "patterns"
    pattern, _ = arm_of(tokens, at) or ("", "")
    return "numbers of faults" if pattern.startswith(("ImageFault :: ", "Cause :: ")) else None


def made_up_at(path, tokens, at):
    """Yields how a fault of a stream is told or made at this place: what it is, and its form or None."""
    word, three = tokens[at][0], words_at(tokens, at, 3)
    if three in FAULTS:
        yield three.replace(" ", ""), form_of_fault(path, tokens, at)
    is_call = word == "Error" and re.match(r"Error :: (from|other|new|last_os_error) \(", words_at(tokens, at, 4))
    if is_call and words_at(tokens, at - 2, 2) != "fmt ::":
        yield "io::Error", form_of_made(tokens, at)
    if word == "ErrorKind" and not is_used(tokens, at) and not words_at(tokens, at - 6, 6).endswith("Error :: from ("):
        start = at - 2 if words_at(tokens, at - 2, 2) == "io ::" else at
        is_asked = words_at(tokens, start - 1, 1) == "==" or words_at(tokens, at + 3, 1) in ("=>", "|")
        yield "ErrorKind", "kinds that are asked for" if is_asked else None
    if word in ("Read", "Write") and words_at(tokens, at + 1, 1) == "for":
        yield f"impl {word}", "streams that are known" if path in STREAMS else None
    if word in ("try_borrow", "try_borrow_mut"):
        yield word, "places that are known" if (path, statement_at(tokens, at)) in LENT else None
    if path.startswith(LIBRARY) and word in (MEMORY, NUMBER_OF_MEMORY):
        yield MEMORY, form_of_memory(tokens, at) if word == MEMORY else form_of_number(tokens, at)


FORMS = {
    "AllocError": form_of_error,
    "AllocFailed": form_of_failed,
    "OutOfMemory": form_of_kind,
    "NoRoom": form_of_room,
    "Full": form_of_kept,
    "Starved": form_of_kept,
}


def maker_at(tokens, at):
    """Whether what stands at this place may make evidence where no growth was refused."""
    word = tokens[at][0]
    if word in MAKERS:
        return True
    if word == "clone":
        return words_at(tokens, at - 1, 1) in (".", "::") and words_at(tokens, at + 1, 1) in ("(", ")", ",")
    return word == "Error" and words_at(tokens, at - 2, 2) == "fmt ::" and words_at(tokens, at + 1, 1) != ">"


def asked_at(tokens, at):
    """Returns what a call at this place asks room for at once, as words; None where it asks for none."""
    word, before = tokens[at][0], words_at(tokens, at - 1, 1)
    is_handed = word in HANDED and before not in ("fn", ".")
    if (word in ASKERS or is_handed) and words_at(tokens, at + 1, 1) == "(":
        return words_at(tokens, at + 2, end_of(tokens, at + 1) - at - 3)
    is_called = before in (".", "::") and words_at(tokens, at + 1, 1) == "("
    if word == "repeat" and is_called and words_at(tokens, at + 2, 1) != ")":
        return words_at(tokens, at + 2, end_of(tokens, at + 1) - at - 3)
    if word in GATHERS and before == "." and words_at(tokens, at + 1, 1) == "(":
        return statement_at(tokens, at)
    if word.startswith('"{:'):
        return "a width of " + word[3:-2].replace("$", "").replace(",", " , ")
    if words_at(tokens, at, 3) in ("vec ! [", "vec ! (", "vec ! {"):
        inner = words_at(tokens, at + 3, end_of(tokens, at + 2) - at - 4).split(" ; ")
        return inner[2] if len(inner) == 3 else None
    return None


NUMBER = re.compile(r"(0x[\da-fA-F_]+|0b[01_]+|0o[0-7_]+|\d[\d_]*)(?:[iu]\d+|[iu]size)?$")
# What makes a number of others that may be as great as any: all bits turned, a sum that wraps, bits that move, bytes
# taken for a number.
GREAT = re.compile(
    r"\b(?:MAX|MIN|pow|\w*wrapping\w*|overflowing_\w+|saturating_(?:mul|pow)|rotate_\w+|reverse_bits|swap_bytes)\b"
    r"|\b(?:[tf]\w+_[bln]e(?:_bytes)?|parse|from_str_radix)\b"
    r"|(?<![\w)]) ?! (?:\( )*\d|(?:^|[(,=]) ?- (?:\( )*\d"
)
WORKED_OUT = re.compile(r"(?:\( )*\d+(?: \))*(?: (?:\*|\+|-|<<)(?: \()* \d+(?: \))*)+")


def plain(words, known):
    """Returns words with each number in decimal, without its type, and each name that is known by its number."""
    numbers = []
    for word in words.replace("< <", "<<").split(" "):
        number = NUMBER.match(word)
        numbers.append(str(int(number.group(1).replace("_", ""), 0 if number.group(1)[:2] in ("0x", "0b", "0o")
                               else 10)) if number else known.get(word, word))
    return " ".join(numbers)


def greatest_in(words):
    """Returns the greatest number of some words, or that is worked out of numbers there."""
    numbers = [int(it) for it in re.findall(r"(?<!\w)\d+(?!\w)", words)]
    for it in WORKED_OUT.findall(words):
        front = it
        while front and front.count("(") != front.count(")"):
            front = front.removeprefix("( ") if front.count("(") > front.count(")") else front.removesuffix(" )")
        try:
            numbers.append(eval(front, {"__builtins__": {}}))
        except SyntaxError:
            numbers.append(MOST + 1)
    return max(numbers, default=0)


def numbers_of(tokens):
    """Returns the constants and variables of a source whose values are numbers, or are worked out of such: each name
    and its number. A name that has two has the greater one."""
    known, words = {}, words_at(tokens, 0, len(tokens))
    for name, value in re.findall(r"\b(?:const|static|let|let mut) (\w+)(?: : \w+)? = ([^;{}]+) ;", words):
        value = plain(value, known)
        if re.fullmatch(r"[\d\s*+()<-]+", value):
            known[name] = str(max(greatest_in(value), int(known.get(name, "0"))))
        elif GREAT.search(value):
            known[name] = str(2**64)
    return known


def is_too_much(asked, known):
    """Whether a number that is asked for is more than anything has."""
    words = plain(asked, known)
    return bool(GREAT.search(words)) or greatest_in(words) > MOST


def sum_at(tokens, at):
    """Returns a sum of the words of the function around this place, up to here."""
    start = at
    while start > 0 and tokens[start][0] != "fn":
        start -= 1
    return f"{zlib.crc32(words_at(tokens, start, at - start).encode()):08x}"


def loops_at(tokens):
    """Yields what may ask for memory again and again, with no list that says how often: its line, its head as words
    and a sum of its function's words up to its end; of a function that calls itself `fn` and its name."""
    for at, head, opener, end, is_inner in loops_of(tokens):
        body = words_at(tokens, opener, end - opener)
        is_plain = OVER.fullmatch(head) and not is_inner and not APPENDS.search(body)
        if FAILS.search(body) and not is_plain:
            yield tokens[at][1], head, sum_at(tokens, end)
    for name, _, opener, end in functions_of(tokens):
        body = words_at(tokens, opener, end - opener)
        is_again = re.search(rf"(?:(?<![.:] )|\bself \. |\bSelf :: )\b{name} (?:\(|::)", body)
        if FAILS.search(body) and is_again:
            yield tokens[opener][1], f"fn {name}", sum_at(tokens, end)


class Sight:
    """What was seen in the sources: how often in which form, what asks for a count of items, and what was found."""

    def __init__(self):
        self.files, self.forms, self.asks, self.loops, self.found = 0, {}, [], [], []

    def look_at(self, path, tokens):
        """Looks at the tokens of a file."""
        self.files += 1
        known = numbers_of(tokens)
        for line, head, words_sum in loops_at(tokens):
            self.loops.append(f"{path}:{line}: {head}")
            if (path, head, words_sum) not in LOOPS:
                self.found.append(f"{path}:{line}: it asks again and again, and nobody has read it: "
                                  f"{(path, head, words_sum)}")
        for at, (word, line) in enumerate(tokens):
            if word in FORMS:
                form = FORMS[word](tokens, at)
                self.forms[word, form] = self.forms.get((word, form), 0) + 1
                if form is None:
                    self.found.append(f"{path}:{line}: a {word} is made: {words_at(tokens, at - 4, 9)}")
            for what, form in made_up_at(path, tokens, at):
                self.forms[what, form] = self.forms.get((what, form), 0) + 1
                if form is None:
                    self.found.append(f"{path}:{line}: a fault may be made up, {what}: {words_at(tokens, at - 4, 9)}")
            is_unsafe = word == "unsafe" and words_at(tokens, at + 1, 3) != "( no_mangle )" and path not in POINTERS
            if is_unsafe or word == "from_raw_os_error" or word == "Allocator" and words_at(tokens, at + 1,
                                                                                            1) == "for":
                self.found.append(f"{path}:{line}: {words_at(tokens, at, 4)}")
            if maker_at(tokens, at) and not (path in SHARED and word == "Arc"):
                around = words_at(tokens, at - 4, 9)
                self.found.append(f"{path}:{line}: it may make evidence without a growth: {around}")
            asked = asked_at(tokens, at)
            if asked is not None:
                self.asks.append(f"{path}:{line}: {asked}")
                came = (path, asked, sum_at(tokens, at))
                if came not in READ:
                    self.found.append(f"{path}:{line}: it asks for a count that nobody has read: {came}")
                if is_too_much(asked, known):
                    self.found.append(f"{path}:{line}: it asks for more than there is: {asked}")


def sources_of(crate, edited):
    """Yields each source of a crate that holds no tests: its path, and its tokens without tests. Of an edited file
    the text is given."""
    left, tests = sorted(glob.glob(f"{TOP}/crates/{crate}/src/**/*.rt", recursive=True)), []
    read = {}
    for path in left:
        read[path], names = without_tests(tokens_of(edited.get(path) or text_of(path)))
        folder = os.path.dirname(path) if os.path.basename(path) in ("lib.rt", "main.rt", "mod.rt") else path[:-3]
        tests += [f"{folder}/{name}" for name in names]
    for path, tokens in read.items():
        if not any(path == f"{it}.rt" or path.startswith(f"{it}/") for it in tests):
            yield path, tokens


def crates_read():
    """Returns the crates, but those of tests."""
    found = sorted(os.path.basename(it) for it in glob.glob(f"{TOP}/crates/*") if os.path.isdir(f"{it}/src"))
    return [it for it in found if not it.endswith("_tests") and it not in ("fit", "v8_turns")
            and not it.startswith("fit_")]


def sight_of(names, edited):
    """Looks at all sources of these crates."""
    sight = Sight()
    for crate in names:
        sources = [(os.path.relpath(path, TOP), tokens) for path, tokens in sources_of(crate, edited)]
        for path, tokens in sources:
            sight.look_at(path, tokens)
        if f"crates/{crate}/" == LIBRARY:
            sight.found += made_up_in(sources)
    return sight


def variants_without(edited):
    """Yields each variant of TELLS that doesn't hold the evidence, and the evidence where it isn't what it is to
    be."""
    for crate, name, variant, evidence in TELLS:
        texts = [words_at(tokens, 0, len(tokens)) for _, tokens in sources_of(crate, edited)]
        bodies = [it.group(1) for text in texts
                  for it in re.finditer(rf"\benum {name} (?:< \'a > )?{{ (.*?) }}", text)]
        if not any(re.search(rf"\b{variant} \( {evidence} \)", it) for it in bodies):
            yield f"crates/{crate}: {name}::{variant} doesn't hold a {evidence}"
    texts = [words_at(tokens, 0, len(tokens)) for _, tokens in sources_of("want", edited)]
    if not any("pub struct Want ( AllocError ) ;" in text for text in texts):
        yield "crates/want: Want isn't an AllocError in a field that nobody else reaches"
    for crate, name in (("cmd_stops", "Full"), ("cmd_words", "Starved")):
        texts = [words_at(tokens, 0, len(tokens)) for _, tokens in sources_of(crate, edited)]
        if not any(f"pub struct {name} ( ( ) ) ;" in text for text in texts):
            yield f"crates/{crate}: {name} has a field that others reach"


def try_bodies(tally):
    """Each body of which it is known that no clause speaks against it has to be found."""
    for path in sorted(glob.glob(f"{HERE}/bodies/*/*.edit")):
        crate = os.path.basename(os.path.dirname(path))
        edited = {f"{TOP}/crates/{crate}/{it}": text for it, text in applied(text_of(path), crate).items()}
        found = sight_of([crate], edited).found or list(variants_without(edited))
        tally.check(os.path.relpath(path, HERE), found, "wanted that it is found, came nothing")


def main(words):
    Words(__doc__).parse_args(words)
    tally, sight = Tally("evidence"), sight_of(crates_read(), {})
    print(f"{sight.files} files of {len(crates_read())} crates")
    for (word, form), count in sorted(sight.forms.items(), key=str):
        print(f"{word}: {count} in {form}" if form else f"{word}: {count} made")
    print("a count of items is asked for at once:", *sight.asks, sep="\n  ")
    print("memory may be asked for again and again:", *sight.loops, sep="\n  ")
    found = sight.found + list(variants_without({}))
    tally.check("the sources", not found, f"wanted no such place, came {'; '.join(found)}")
    try_bodies(tally)
    return tally.end()


if __name__ == "__main__":
    sys.exit(main(sys.argv[1:]))
