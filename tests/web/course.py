"""The lessons: turns to look at, and the exercises, which are solved by what the course has and spoiled in several
ways."""
import re

from run import TOP, text_of

COURSE = f"{TOP}/docs/learn/course.md"

# What is put in the place of what in a solution, so that it isn't one any more.
SPOILED = {
    "sum": (("mov 5,%o0", "mov 4,%o0"), ("mov 5,%o1", "mov 6,%o1"), ("add %o0,%o1", "sub %o0,%o1")),
    "square": (("65537", "32768"), ("mov %y,%o0", "mov %o1,%o0"), ("umul %o0,%o0,%o1", "umul %o0,0,%o1")),
    "nine": (("    save %sp,-96,%sp\n    restore\n", "    restore\n"), ("mov 0,%o0", "mov 1,%o0")),
    "table": (("0xF0000000", "0x80000"), ("ld [%g1],%g2", "st %g2,[%g1]")),
    "odd": (("bvs odd", "ba odd"), ("mov 1,%o0", "mov 0,%o0"), ("bvs odd", "bn odd")),
    "twice": ((",19\n.fuel 19", ",30\n.fuel 30"), ("    ta 2\n    ta 2\n", "    ta 2\n"),
              (",19\n.fuel 19", ",18\n.fuel 18"), ("    mov 0,%o0\n", "")),
}


def solutions():
    """The solution of each exercise, by its name, as the course has it."""
    return dict(re.findall(r"\*\*Exercise\.\*\*.*?```sparc (\w+)\.s\n(.*?)```", text_of(COURSE), re.S))


def lessons(page):
    """The lessons and their exercises."""
    page.open()
    page.js("localStorage.clear()")
    page.open("#p=slots")
    solved = solutions()
    page.same("exercises", [it["exercise"]["name"] for it in page.kept["lessons"]], list(solved))
    for number, lesson in enumerate(page.kept["lessons"]):
        page.look("set", "lesson", number, "change")
        page.check(f"lesson {number + 1} begins as in the course", lesson["title"] in text_of(COURSE))
        turns(page, lesson)
        exercise(page, lesson["exercise"]["name"], solved)
        page.check(f"progress after lesson {number + 1}",
                   page.look("text", "progress").startswith(f"{number + 1} of 6"), page.look("text", "progress"))
    page.open("#p=slots")
    page.check("progress is kept", page.look("text", "progress").startswith("6 of 6"), page.look("text", "progress"))
    page.js("localStorage.clear()")


def turns(page, lesson):
    """Each turn to look at, by its button: the sentence or a register that the table names in code is seen."""
    rows = [(block, row) for block in lesson["blocks"] if block["kind"] == "turns" for row in block["rows"][1:]]
    page.same(f"{lesson['title']}: buttons", page.look("lessonButtons"), [row[0] for _, row in rows])
    for number, (block, row) in enumerate(rows):
        page.look("pressTurn", number)
        name = f"{lesson['title']}, turn {row[0]} of {block['program']}"
        page.check(f"{name}: {page.look('text', 'turn')}",
                   page.look("text", "turn").replace(",", "").startswith(f"turn {row[0]} of "))
        page.same(f"{name}: windows", page.js("Number(document.querySelector('#windows').value)"), block["windows"])
        registers = page.look("registers")
        for register, word in re.findall(r"`%([goli][0-7]) ([0-9A-F]{8})`", row[2]):
            page.same(f"{name}: %{register}", registers[register], word)
        for said in re.findall(r"`((?:TRAP|EXIT|transfer|not taken|puts out|annulled|SAVE)[^`]*)`", row[2]):
            page.check(f"{name}: {said}", said in page.look("say"), page.look("say"))


def exercise(page, name, solved):
    """An exercise: as it begins it isn't done, spoiled it isn't, and solved it is."""
    page.look("pressExercise", "begin")
    start = page.js("document.querySelector('#source').value")
    page.same(f"{name}: how it begins", start.split("\n")[0].startswith(f"! {name}.s"), True)
    page.look("pressExercise", "check my program")
    page.check(f"{name}: done before it was begun", "Done" not in "".join(page.look("found")))
    for old, new in SPOILED[name]:
        page.check(f"{name}: {old!r} stands in it", old in solved[name])
        page.write(solved[name].replace(old, new))
        page.look("pressExercise", "check my program")
        found = page.look("found")
        page.check(f"{name}: done with {new!r}", any(it.startswith("\u2717") for it in found), found)
    page.write(solved[name])
    page.look("pressExercise", "check my program")
    found = page.look("found")
    page.check(f"{name}: solved", found and "Done" in found[-1], found)
    page.check(f"{name}: said against a solution: {page.verdict()}", re.match("\u2713|for stepping", page.verdict()))
