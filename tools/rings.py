"""The rings of crates.txt: which crates the promise rests on, and what serves what. A ring is told by what stands on
a crate, or by the crate's prefix; a head of crates.txt reads `# RING: FLOOR`."""
import dataclasses

# From the one that carries the promise outward.
RINGS = ("promise", "language", "engine", "native", "leon", "inspect", "cmd", "fit", "hosts", "tests")
# The crates whose contracts say the promise: all below them is its ring.
PROMISE = ("sbx_run", "sbx_stream", "sbx_batch")
LANGUAGE = ("sbx_asm",)
# A ring by the first part of a name, and the crates whose names don't tell it.
PREFIXES = {"engine": "engine", "inspect": "inspect", "cmd": "cmd", "fit": "fit", "native": "native", "leon": "leon",
            "flat": "tests"}
OTHERS = {"sbx_tool": "cmd", "sbx_reader": "cmd", "sbx_session": "hosts", "host": "hosts", "geyserpan": "hosts",
          "playground": "hosts", "board": "leon", "v8_vectors": "tests", "v8_turns": "tests", "sbx_verdicts": "tests",
          "sbx_bench": "tests"}


@dataclasses.dataclass
class Crate:
    line: str
    below: list
    head: str


def read(path):
    """The crates of crates.txt: the line of each, the crates that it lists, and the head that it stands under."""
    found, head = {}, ""
    with open(path, encoding="utf-8") as lines:
        for line in lines:
            if line.startswith("#"):
                head = line[1:].strip()
            name, colon, below = line.partition("#")[0].partition(":")
            if colon:
                found[name.split()[0]] = Crate(line.rstrip("\n"), below.split(), head)
    for it in found.values():
        it.below = [name for name in it.below if name in found]
    return found


def closure(names, below):
    found, left = set(), list(names)
    while left:
        name = left.pop()
        if name not in found:
            found.add(name)
            left += below[name]
    return found


def rings_of(below):
    """The ring of each crate."""
    promise = closure(PROMISE, below)
    language = closure(LANGUAGE, below) - promise
    rings = {}
    for name in below:
        rings[name] = "promise" if name in promise else "language" if name in language else OTHERS.get(name) or (
            "tests" if name.endswith("_tests") else PREFIXES.get(name.split("_")[0]))
        if rings[name] is None:
            raise SystemExit(f"{name}: its name tells no ring")
    return rings


def wrong(crates):
    """Yields what isn't as the rings want it."""
    rings = rings_of({name: it.below for name, it in crates.items()})
    for name, it in crates.items():
        ring = it.head.partition(": ")[0]
        if ring != rings[name]:
            yield f"{name} stands under '# {it.head}', and is of the ring {rings[name]}"
        if rings[name] in ("promise", "language") and name.split("_")[0] not in ("want", "v8", "sbx"):
            yield f"{name}: of the ring {rings[name]}, as a crate of it lists it, by another prefix"
        for other in it.below:
            if list(crates).index(other) > list(crates).index(name):
                yield f"{name} stands on {other}, which comes later"
