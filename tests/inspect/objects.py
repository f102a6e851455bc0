"""The objects that `inspect --json` writes, read by Python's json and made into the lines that `inspect` tells people:
these have to be those of files that weren't made by the program."""
import json
import re

from run import INSPECT, bytes_of, put, run

OUTPUT_LINE = 24


class Wrong(Exception):
    """What an object has, and shouldn't."""


def hold(condition, seen):
    """Raises where something doesn't hold of what is seen."""
    if not condition:
        raise Wrong(seen)


def object_of(command, *words, **how):
    """The object on the line that a call writes: one line of ASCII, whose keys come once each."""
    ran = run([INSPECT, command, "--json", *words], **how)
    hold(ran.status == 0 and ran.out.endswith(b"\n") and ran.out.count(b"\n") == 1, ran)
    return json.loads(ran.out.decode("ascii"), object_pairs_hook=without_repeats, parse_float=None,
                      parse_constant=None)


def without_repeats(pairs):
    """An object, none of whose keys comes twice."""
    hold(len(dict(pairs)) == len(pairs), pairs)
    return dict(pairs)


# An image


def bounds(it):
    """The operands of a range."""
    return f"{it['low']},{it['high']},{it['alignment']}"


def block_lines(block):
    """The lines of a block."""
    yield from (f".cell {it['location']},{bounds(it)}" for it in block["cells"])
    yield f".fuel {block['fuel']}"
    yield from (f".term {it['location']},{it['coefficient']}" for it in block["terms"])


def function_lines(number, function, version):
    """The lines of a function, with those of its blocks."""
    kind = "framed" if function["framed"] else "leaf"
    yield from ("", f"! {function['address']:08X}")
    yield f".function f{number},{kind},{function['frame']},{function['room']},{function['budget']}"
    if version == 3:
        yield f".depth {function['depth']}"
    yield from (f".param {bounds(it)}" for it in function["params"])
    yield from (f".result {bounds(it)}" for it in function["results"])
    for place, block in enumerate(function["blocks"]):
        if place:
            yield from ("", f"! {block['address']:08X}", f".block f{number}_b{place}")
        yield from block_lines(block)


def image_lines(image):
    """The lines of `inspect image`, of its object."""
    declared = [name for name in ("exit", "get", "put") if image["services"][name]]
    if declared:
        yield f".services {','.join(declared)}"
    yield f".stack {image['stack_pages']}"
    yield f"! words of code: {image['words']}, bytes of data: {image['data_bytes']}"
    for region in image["regions"] if image["version"] > 1 else []:
        yield from ("", f"! {region['address']:08X}, bytes: {region['bytes']}",
                    f".region {'rw' if region['writable'] else 'ro'}")
    for number, function in enumerate(image["functions"]):
        yield from function_lines(number, function, image["version"])


# A run


def glyph(byte):
    """How a byte of an output is shown."""
    if byte == 10:
        return "\\n"
    if byte == 92:
        return "\\\\"
    return chr(byte) if 32 <= byte <= 126 else f"\\x{byte:02X}"


def output_lines(output):
    """The lines of an output."""
    yield f"output: {len(output)} bytes"
    line = []
    for byte in output:
        line.append(byte)
        if byte == 10 or len(line) == OUTPUT_LINE:
            yield "  " + "".join(map(glyph, line))
            line = []
    if line:
        yield "  " + "".join(map(glyph, line))


def ending(end):
    """How a run ended."""
    if end["how"] == "exit":
        return f"exit with the word {end['word']:08X}"
    if end["how"] == "trap":
        return f"stopped by trap {end['trap']:02X} {end['name']} of the instruction at {end['address']:08X}"
    if end["how"] == "error":
        return f"error mode by trap {end['trap']:02X} {end['name']}"
    return {"limit": "none: it would go on behind the limit"}[end["how"]]


def run_lines(run):
    """The lines of `inspect run`, of its object."""
    yield from output_lines(bytes.fromhex(run["output"]))
    yield f"end: {ending(run['end'])}"
    yield f"turns: {run['turns']} of at most {run['limit']}, on {run['windows']} windows"
    yield f"window traps: {run['overflows']} overflows, {run['underflows']} underflows"
    yield "pages, each a mark: R referenced, M modified"
    for name, start in (("code", "00040000"), ("data", "00080000"), ("stack", "000C0000")):
        yield f"  {name:5} {start} {run['pages'][name]}"
    status = run["fault_status"]
    fault = run["fault"]
    hold((status == 0) == (fault == "none") and (status == 0 or fault.startswith(f"{status:08X}: ")), fault)
    yield f"fault status: {run['fault']}"


# A verdict


def verdict_text(verdict):
    """The text of `inspect why`, of its object, whose other members say the same as its first two lines."""
    if verdict["accepted"]:
        hold(list(verdict) == ["accepted"], verdict)
        return "accepted: no rule is broken\n"
    text = verdict["text"]
    first = f"refused {verdict['rule']} in function {verdict['function']} at {verdict['address']:08X}"
    hold(text.startswith(f"{first}\n{verdict['sentence']}\n"), verdict)
    return text


# What is wrong with a source


def check_text(check, name, told):
    """The text of `inspect check`, of its object, whose faults say the same as the lines of the file that name a
    place."""
    faults = [f"{name}:{it['line']}:{it['column']}: {it['code']}: {it['sentence']}" for it in check["faults"]]
    hold(list(check) == ["accepted", "faults", "text"] and check["accepted"] == (not faults), check)
    hold(all(list(it) == ["line", "column", "code", "sentence"] for it in check["faults"]), check)
    hold(faults == [line for line in told.split("\n") if re.match(rf"{re.escape(name)}:\d", line)], check)
    return check["text"]


def fault_of_object(command, image, told, options=(), given=b"", cwd=None):
    """Whether the lines made of a call's object are those of a file or a text, and what differs."""
    text = told if isinstance(told, bytes) else bytes_of(told)
    try:
        found = object_of(command, *options, image, given=given, cwd=cwd)
        if command == "why":
            came = verdict_text(found)
        elif command == "check":
            came = check_text(found, image, text.decode())
        else:
            came = "".join(f"{it}\n" for it in {"image": image_lines, "run": run_lines}[command](found))
    except (Wrong, KeyError, TypeError, ValueError) as error:
        return False, f"wanted an object, came {error!r}"
    return came.encode() == text, f"wanted {text}, came {came}"


def try_each_byte(asked):
    """A program that puts out each byte, quotes, backslashes, controls and bytes past ASCII among them: its object
    has them all."""
    puts = "".join(f" mov {byte},%o0\n ta 2\n" for byte in range(256))
    head = ".services exit,put\n.function main,leaf,0,0,1540\n.fuel 1540\n"
    image = asked.assembled(put(asked.at("each.s"), f"{head}{puts} mov 7,%o0\n ta 0\n"))
    found = object_of("run", image)
    wanted = {"output": bytes(range(256)).hex().upper(), "end": {"how": "exit", "word": 7}, "limit": 100_000,
              "windows": 8,
              "fault": "none"}
    asked.tally.same("run --json: each byte", {it: found[it] for it in wanted}, wanted)


def try_words(asked):
    """What `--json` doesn't stand for, and what is no image: a status, and nothing on standard output."""
    none = put(asked.at("none.img"), "no image")
    for status, *words in (
        (2, "image", "--json", none),
        (2, "why", none, "--json"),
        (3, "trace", "--json", none),
        (3, "image", "--json", "--json", none),
        (3, "why", "--json"),
        (3, "map", "--json", none),
        (3, "check", "--json"),
        (3, "check", "--json", none, "--json"),
        (3, "why", "--json", "--source", none, none),
        (4, "check", "--json", asked.at("missing.s")),
        (4, "run", "--json", asked.at("missing.img")),
    ):
        asked.gives(status, *words)


def try_objects(asked):
    """The objects of all calls that told a text, and those of the rest."""
    for command, image, told, options, given in asked.cases:
        name = f"{command} --json {image.rpartition('/')[2]}"
        asked.tally.check(name, *fault_of_object(command, image, told, options, given))
    try_each_byte(asked)
    try_words(asked)
