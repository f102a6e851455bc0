"""What the extension answers where images run by objects of native code, beside what it answers without."""
import glob
import hashlib
import os

from answers import ALL_TURNS, COMPILER, RULE, compiled, loaded, try_example, try_rule
from run import EXAMPLES, TOP, built, bytes_of, has, program, put, run
from stopped import SLOW

COMPILERS = ("gcc", "clang", "tcc")


def lacks():
    """What isn't there that objects are made with, or None."""
    if not os.path.exists(program("native")):
        return "the program of ./native"
    return None if any(map(has, COMPILERS)) else "a C compiler"


def object_in(work, folder, image):
    """The object of an image, under the image's name in a folder; None where it can't be made, which is counted."""
    os.makedirs(folder, exist_ok=True)
    path = f"{folder}/{hashlib.sha256(bytes_of(image)).hexdigest()}.so"
    ran = run([f"{TOP}/native", "build", image, "-o", path], seconds=None)
    return path if work.tally.check(f"an object of {os.path.basename(image)}", ran.status == 0, ran.said) else None


def directory(folder):
    """The setting by which objects are looked for in a folder."""
    return f"SET geyserpan.native_directory = '{folder}';\n"


IS_NATIVE = "SELECT geyserpan_is_native(:'image');"


def try_examples(work, folder):
    """Each example on its input, by its object."""
    images = sorted(it for it in glob.glob(f"{EXAMPLES}/*/*.img") if "/refused/" not in it)
    asked = []
    for image in images:
        if object_in(work, folder, image):
            name = os.path.basename(image)
            asked += [(f"{what}, natively", sql, wanted) for what, sql, wanted in try_example(work, image)]
            asked.append((f"{name}: it is native", IS_NATIVE, "t"))
    work.answered(asked, ALL_TURNS + directory(folder))


def try_objects(work, folder):
    """Objects that aren't taken: each is told, and the engine runs the image."""
    echo, hello = (f"{EXAMPLES}/{it}/{it}.img" for it in ("echo", "hello"))
    made, other = (object_in(work, folder, it) for it in (echo, hello))
    if not made or not other:
        return
    name, asked, warnings = os.path.basename(made), [], []
    runs = "SELECT geyserpan_run(:'image', 'abc');"
    for what, data, told in (("another image's object", bytes_of(other), "the object was made of another image"),
                             ("half an object", bytes_of(made)[:5000], "the file is no object of native code")):
        wrong = work.at(f"wrong{len(asked)}")
        os.makedirs(wrong)
        put(f"{wrong}/{name}", data)
        warnings.append(f"WARNING:  geyserpan: {wrong}/{name}: {told}")
        asked += [(what, f"{directory(wrong)}{IS_NATIVE}", "f"), (f"{what}: it runs", runs, "abc")]
    asked += [("a folder that isn't there", f"{directory('/nowhere')}{IS_NATIVE}", "f"),
              ("no folder", f"{directory('')}{IS_NATIVE}", "f"),
              ("a folder with its object", f"{directory(folder)}{IS_NATIVE}{runs}", "t\nabc"),
              ("no folder again", f"{directory('')}{IS_NATIVE}{runs}", "f\nabc"),
              ("a role that is no superuser", f"SET ROLE pg_monitor; {directory(folder)}",
               '!42501ERROR:  permission denied to set parameter "geyserpan.native_directory"')]
    quiet = "SET client_min_messages = error;\n"
    work.answered(asked, loaded(put(work.at("echo.copy"), bytes_of(echo))) + ALL_TURNS + quiet)
    for line in warnings:
        work.tally.check("what isn't taken is told", line in work.server.told(), f"wanted {line} in the server's log")


def try_stops(work, folder):
    """A run that a timeout breaks off, and the session behind it."""
    source, image = put(work.at("slow.s"), SLOW.encode()), work.at("slow.img")
    ran = run([f"{TOP}/sandbox", "asm", source, image])
    if not work.tally.check("slow.s", ran.status == 0, ran.said) or not object_in(work, folder, image):
        return
    slowly = "SET statement_timeout = '100ms'; SELECT geyserpan_match(:'image', 'x');"
    work.answered((("it is native", IS_NATIVE, "t"), ("a run that a timeout breaks off", slowly, "!57014"),
                   ("its session", "RESET statement_timeout; SELECT 1;", "1"), ("it is native still", IS_NATIVE, "t")),
                  loaded(image) + ALL_TURNS + directory(folder))


def natively(work):
    """Images by objects of native code."""
    if lacks():
        work.tally.skip("objects of native code", lacks())
        return
    built("sandbox")
    folder = work.at("objects")
    try_examples(work, folder)
    try_objects(work, folder)
    try_stops(work, folder)
    if not has(COMPILER):
        work.tally.skip("a rule by an object", "Debian's package gcc-sparc64-linux-gnu")
        return
    image = compiled(work, "rule", RULE)
    if image and object_in(work, folder, image):
        try_rule(work, image, directory(folder))
