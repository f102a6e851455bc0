#!/usr/bin/env python3
"""usage: tests/inspect/run.py

Compares what `./inspect` tells with the files that stand beside the programs of `examples`: `inspect image` with
`.told` for each image, `inspect why` with `.told` for each program of `examples/refused` and of `why`, whose fuel is
short in each way in which it can be, once by more than a line holds, and which break other rules by what those don't,
and one that is accepted, and `inspect run` with `.ran` and `inspect trace` with `.turns`, for the lessons and the
programs of `turns` too. Looks whether the sentences that docs/use/inspect/refusal.md has of each rule are told in the
files that it names. No line has more than 100 columns. The objects of `inspect image`, `run` and `why --json` have to
say the same as these files (objects.py). Looks whether long runs tell how far they have come, and whether more than
1 MiB is read.

Compares `inspect check` with `.told` for each source of `check`, one for each cause of a fault, looks whether the
first that it tells is what `sandbox asm` tells, and whether docs/use/faults.md has each sentence; `inspect map`, and
`--source`, for some of the programs. Compares `inspect machine` with the states of `vectors`, by words and by a
binary, and tries each line that isn't right. Compares `inspect cycles` of the examples and of programs in C with the
bounds and the blocks of a model, and with runs (cycles.py). Tries its statuses and its version.

These files weren't made by the program: those of images by another reader of the format (docs/machine/image.md), those
of refusals by hand, from the source, docs/machine/rules.md and docs/machine/ranges.md, those of runs and turns by a
model of the machine that was written apart, from docs/machine/profile.md. Words that no source has stand in images that
were made by hand, from docs/machine/image.md."""
import glob
import os
import re
import sys
import tempfile
from subprocess import DEVNULL

sys.dont_write_bytecode = True
sys.path.insert(0, f"{os.path.dirname(os.path.dirname(os.path.abspath(__file__)))}/lib")
from asked import HELLO, HERE, Inspections, input_of
from cycles import try_cycles
from faults import try_faults
from machines import try_machines
from objects import try_objects
from run import EXAMPLES, HOST, INSPECT, TOP, built, bytes_of, last_line, least_kib, program, put, run, text_of
from sources import try_checks, try_names, try_sentences, try_why
from tally import Tally, Words

PROGRAM = program("inspect")
TRACES = f"{TOP}/vectors/traces"
ENDLESS = """.services exit
.function main,leaf,0,0,4
.fuel 4
nop
.block loop
.fuel 4
ba loop
nop
"""
# A program that puts out a byte each seven turns.
FOREVER = ".services put\n.function main,leaf,0,0,1\n.fuel 1\nagain: ta 2\n ba again\n nop\n"


def try_programs(asked):
    """Images, runs and turns of the examples, of the lessons and of the programs of `turns`."""
    for image in sorted(glob.glob(f"{EXAMPLES}/*/*.img")):
        if "/refused/" not in image:
            asked.told("image", image, f"{image[:-4]}.told")
            asked.told("run", image, f"{image[:-4]}.ran", given=input_of(image))
    asked.told("trace", HELLO, f"{HELLO[:-4]}.turns")
    for source in sorted(glob.glob(f"{EXAMPLES}/lessons/*.s")):
        image = asked.assembled(source)
        asked.told("run", image, f"{source[:-2]}.ran", given=input_of(source))
        asked.told("trace", image, f"{source[:-2]}.turns", given=input_of(source))
    for source in sorted(glob.glob(f"{HERE}/turns/*.s")):
        options = ("--windows", "4") if source.endswith("/error.s") else ()
        asked.told("trace", asked.assembled(source), f"{source[:-2]}.turns", *options)


def try_states(asked):
    """The states of whole runs, on several counts of windows, and those that a limit cuts short."""
    for told in sorted(glob.glob(f"{TRACES}/*")):
        name, windows = os.path.basename(told).split(".")
        image = f"{EXAMPLES}/{name}/{name}.img"
        ran = run([INSPECT, "states", "--windows", windows, image], input_of(image))
        asked.same_text(f"states {name} on {windows} windows", ran, bytes_of(told))
    lines, deep = text_of(f"{TRACES}/deep.4").split("\n"), f"{EXAMPLES}/deep/deep.img"
    for limit in (0, 1, 7):
        # as many lines, and one for the end
        end = lines[limit + 1].split()[:10]
        end = " ".join([str(limit), *end[1:4], "-", *end[5:], "--------", "end"])
        ran = run([INSPECT, "states", "--windows", "4", "--limit", str(limit), deep])
        asked.same_text(f"states deep of {limit} turns", ran, "\n".join([*lines[:limit + 1], end, ""]).encode())
    last = run([INSPECT, "states", asked.at("windows.img"), "--windows", "32"]).out.splitlines()[-1]
    asked.tally.same("states --windows 32: turns", last.split()[0], b"19")


def try_runs(asked):
    """Long inputs, limits and counts of windows."""
    asked.told("run", HELLO, f"{HELLO[:-4]}.ran", given=bytes(2_000_000))
    told = run([INSPECT, "run", "--limit", "18", asked.at("slots.img")]).out
    asked.tally.check("run --limit 18", b"\nend: none" in told, f"wanted no end in the 19th turn, came {told}")
    for windows, wanted in (
        ("4", ["turns: 259 of at most 100000, on 4 windows", "window traps: 5 overflows, 5 underflows"]),
        ("32", ["turns: 19 of at most 100000, on 32 windows", "window traps: 0 overflows, 0 underflows"]),
    ):
        told = run([INSPECT, "run", asked.at("windows.img"), "--windows", windows]).out.decode()
        came = re.findall(r"^(?:turns|window traps): .*$", told, re.M)
        asked.tally.same(f"run --windows {windows}", came, wanted)


def tells_turns(asked, command, limit, image):
    """On standard error, once a second, of a run without end, the last time behind half of the limit."""
    told = run([INSPECT, command, "--limit", str(limit), image], stdout=DEVNULL, seconds=None).err.decode()
    turns = [int(it) for it in re.findall(r"^inspect: ([1-9]\d*) turns$", told, re.M)]
    holds = turns and len(turns) == told.count("\n") and turns == sorted(set(turns)) and turns[-1] > limit // 2
    asked.tally.check(f"{command} --limit {limit}", holds, f"wanted how far it has come, came {told}")


def try_limits(asked):
    """A trace says where the limit cut it short, and then alone; long ones take no more memory than short ones."""
    lines = bytes_of(f"{HELLO[:-4]}.turns").split(b"\n")
    cut = b"\n".join([*lines[:3], b"limit: the run would go on behind turn 2", b""])
    asked.told("trace", HELLO, cut, "--limit", "2")
    asked.told("trace", HELLO, b"limit: the run would go on behind turn 0\n", "--limit", "0")
    asked.told("trace", HELLO, f"{HELLO[:-4]}.turns", "--limit", "16")
    forever = asked.assembled(put(asked.at("forever.s"), FOREVER))
    enough = least_kib([PROGRAM, "trace", "--limit", "1000", forever], 32768)
    _, last = last_line([PROGRAM, "trace", "--limit", "200000", forever], enough)
    wanted = "limit: the run would go on behind turn 200000"
    asked.tally.same(f"trace of 200,000 turns in {enough} KiB", last, wanted)


def try_usage(asked):
    """The usage and the version."""
    # the text that the script tells while no program stands is the program's own
    usage = bytes_of(f"{TOP}/tools/release/usage/inspect")
    asked.tally.same("usage", run([INSPECT]).err, usage)
    told, numbers = run([INSPECT, "--help"]).said, "4 to 32 (8); --limit T the most turns, 0 to 9999999999 (100000)."
    asked.tally.check("--help", numbers in " ".join(told.split()), f"wanted '{numbers}', came {told}")
    version = run([INSPECT, "--version"]).out.decode()
    form = rf"version {re.escape(text_of(f'{TOP}/VERSION').strip())}\ncommit \S+\nkit \S.*\n"
    asked.tally.check("--version", re.fullmatch(form, version), f"wanted version, commit and kit, came {version}")
    asked.tally.same("host --version", run([HOST, "--version"]).out.decode(), version)


def main(words):
    Words(__doc__).parse_args(words)
    built("sandbox", "inspect", "fit")
    tally = Tally("inspect")
    with tempfile.TemporaryDirectory() as work:
        asked = Inspections(tally, work)
        try_programs(asked)
        try_states(asked)
        try_runs(asked)
        try_why(asked)
        try_sentences(tally)
        try_checks(asked)
        try_names(asked)
        endless = asked.assembled(put(asked.at("endless.s"), ENDLESS))
        tells_turns(asked, "run", 400_000_000, endless)
        tells_turns(asked, "trace", 20_000_000, endless)
        try_limits(asked)
        try_objects(asked)
        try_faults(asked)
        try_machines(asked)
        try_cycles(asked)
        try_usage(asked)
    return tally.end()


if __name__ == "__main__":
    sys.exit(main(sys.argv[1:]))
