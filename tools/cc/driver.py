"""./cc and ./c++: from sources to an image that is accepted."""
import os
import re
import shutil
import subprocess
import sys
import tempfile

from assembly import Assembly, at_callers, destructor_of, started, where, without_traps
from compilers import TOP, compiler_of, found_compiler, limited
from fault import Fault
from labels import distant_label
from request import ending_of, request_of
from runtime import Runtime
from telling import Teller, demangled, in_plain_names

sys.path[:0] = [f"{TOP}/tools/debug", f"{TOP}/tools"]
from files import Files
from standing import called, file_fault, make_stand

# So many seconds of processor ./fit may take.
SECONDS = 300
# The status of ./fit where what it made isn't accepted, and how its last line then begins; behind that stands what
# ./sandbox would tell.
NOT_ACCEPTED, WHY = 6, ": what was made isn't accepted: "
# What fit says of code that is compiled for size then, and of code that is compiled more plainly.
INSIDE = r"refused: (?:[\w.$]+: )?"
TOO_LARGE = re.compile(INSIDE + r"(the blocks of [a-z ]+ would be|more than \d+ (words|labels|registers))")
TOO_DENSE = re.compile(INSIDE + r"(no place for a test|condition codes of several|no register is left"
                       r"|codes of a division|a division whose upper word|two divisions of one upper word)")
LIMITS = "a program has at most 4096 blocks, 65536 words and 256 functions"
USAGE = f"{TOP}/tools/cc/usage"
MAIN = re.compile(r"^[\w\s*]*?\bmain\s*\(([^)]*)\)", re.M)
# What names what is dropped.
USE_OF_ERRORS = re.compile(r"\b(?:stderr|perror)\b|<err\.h>")
# What was told.
SAID = set()
# Comments and strings of C.
APART = re.compile(r"//[^\n]*|/\*.*?\*/|\"(?:\\.|[^\"\\\n])*\"", re.S)


def say(*lines):
    """Tells lines on standard error, but for those that were told: what is compiled again is told of again."""
    print("".join(f"{line}\n" for line in lines if line and line not in SAID), end="", file=sys.stderr)
    SAID.update(lines)


class Build:
    """One way from the sources to a source that ./fit made, and its image, in a folder for work."""

    def __init__(self, request, work):
        self.request, self.work = request, work
        self.source, self.image = f"{work}/fitted.s", f"{work}/out.img"
        self.compiler = compiler_of(request)
        self.has_parameters = self.parameters_of_main()

    def texts(self):
        """The paths and the texts of the sources in C."""
        for path in self.request.files:
            if ending_of(path) != ".s":
                with open(path, encoding="utf-8", errors="replace") as file:
                    yield path, file.read()

    def parameters_of_main(self):
        """Where main has parameters, and what they are; None where it hasn't."""
        for path, text in self.texts():
            found = MAIN.search(text)
            if found and found[1].strip() not in ("", "void"):
                line = text[: found.start(1)].count("\n") + 1
                return f"{path}:{line}: note: main is called as program without words: argc is 1, argv[1] is NULL"
        return None

    def use_of_errors(self):
        """Where stderr, perror or err.h is named first, and what becomes of it; None where none is."""
        for path, text in self.texts():
            found = USE_OF_ERRORS.search(text)
            if found:
                found = USE_OF_ERRORS.search(APART.sub(lambda it: "\n" * it[0].count("\n"), text))
            if found:
                line = found.string[: found.start()].count("\n") + 1
                return f"{path}:{line}: note: what goes to stderr is dropped: print to stdout what has to be read"
        return None

    def compiled(self, runtime):
        """Has the compiler make one assembly of all; returns its text, and the paths of the objects before it."""
        objects = self.compiler.each(self.work)
        library = self.compiler.library(runtime)
        self.program = self.compiler.whole(objects, library, self.work)
        with open(self.program, encoding="utf-8", errors="surrogateescape") as file:
            return file.read(), objects

    def with_variables(self):
        """The assemblies of the same sources, and of the library's, in which the compiler tells of variables, by the
        paths of the ones that don't, and a folder with what else it told: beside the other ones, since it places lines
        otherwise then, and exit words have lines."""
        build = Build(self.request, f"{self.work}/variables")
        build.compiler.tells = True
        os.makedirs(build.work, exist_ok=True)
        text, _ = build.compiled(Runtime(build.compiler, build.work))
        told = {self.program: without_traps(Assembly(started(text, self.has_parameters)))[0].text()}
        for path, other in zip(self.compiler.taken(self.work), build.compiler.taken(build.work)):
            with open(other, encoding="utf-8", errors="surrogateescape") as file:
                told[path] = file.read()
        return told, build.work

    def assembled(self):
        """Makes the assembly of all; returns the paths of its files."""
        runtime = Runtime(self.compiler, self.work)
        text, objects = self.compiled(runtime)
        text = at_callers(text)
        say(self.compiler.told.rstrip("\n"))
        self.write_dependencies(objects)
        last = destructor_of(text)
        if last:
            raise Fault(2, f"{self.request.name}: refused: {last}: an __attribute__((destructor)) isn't taken: tell "
                        "atexit of the function")
        self.refuse_distances(text)
        assembly = Assembly(started(text, self.has_parameters))
        helpers = [*self.compiler.taken(self.work), *runtime.helpers(text)]
        self.teller = Teller(self.request, assembly, helpers, self.work)
        assembly, traps = without_traps(assembly)
        say(*(self.trap(it) for it in traps), self.has_parameters, self.use_of_errors())
        with open(self.program, "w", encoding="utf-8", errors="surrogateescape") as file:
            file.write(assembly.text())
        self.teller.assembly = assembly
        written = [it for it in self.request.files if ending_of(it) == ".s"]
        return [*written, self.program, *helpers]

    def refuse_distances(self, text):
        """Ends where a label's address is taken in a distance."""
        number = distant_label(text)
        if number:
            assembly = Assembly(text)
            path, line = assembly.place(number) or (self.request.files[0], None)
            shown = Teller(self.request, assembly, [], self.work).shown(path)
            raise Fault(2, f"{where(shown, line)}: refused: {assembly.function(number)}: a distance between labels "
                        "isn't taken: have a table of their addresses, &&name")

    def trap(self, number):
        """What is told of a trap that a compiler put in."""
        path, line, function = self.teller.place("program.s", number)
        return demangled(f"{where(path, line)}: note: {function}: the compiler sees that C defines nothing here, as "
                         "where a null pointer is read or a value isn't returned: a run ends here as by abort")

    def write_dependencies(self, objects):
        """Writes which files the sources include, in one file for all."""
        request = self.request
        if request.dependencies:
            texts = []
            for it in objects:
                with open(f"{it}.d", encoding="utf-8", errors="surrogateescape") as file:
                    texts.append(file.read())
            target = request.depends or os.path.splitext(request.out or "a")[0] + ".d"
            with open(target, "w", encoding="utf-8", errors="surrogateescape") as file:
                file.write("".join(texts))

    def given(self):
        """What ./fit is given in the place of the assembly, with marks where it is asked which line a word is of."""
        if not (self.request.is_traced or self.teller.has_namesakes):
            return Files(self.made, self.work)
        from origins import Origins  # (which most calls don't need)
        return Origins(self.made, self.work)

    @property
    def is_made(self):
        """Whether ./fit made a source, accepted or not."""
        return self.ran.returncode in (0, NOT_ACCEPTED)

    def fit(self):
        """Compiles, and has ./fit make source and image; returns why the image isn't accepted, as ./sandbox tells it,
        and nothing where it is, or where there is none."""
        self.made = self.assembled()
        self.origins = self.given()
        places = ["-o", self.source, "--image", self.image]
        words = [called("fit"), *self.origins.given, *places, *self.request.fitting]
        ran, is_long = limited(words, SECONDS)
        if is_long:
            raise Fault(2, f"{self.request.name}: ./fit took more than {SECONDS} seconds of processor: compile by -Os, "
                        "or write __attribute__((noinline)) before the greatest functions")
        self.ran, told = ran, ran.stderr.rpartition(WHY)[2].strip() if ran.returncode == NOT_ACCEPTED else ""
        self.unmark()
        return told

    def unmark(self):
        """Takes the marks of rows from what ./fit made and told, and keeps the map that they give."""
        notes, self.ran.stderr = self.ran.stderr, self.origins.told(self.ran.stderr, self.teller.shown)
        if self.is_made:
            with open(self.source, encoding="utf-8", errors="surrogateescape") as file:
                source = file.read()
            self.mapped, bare = self.origins.map_of(source, notes, self.teller.shown), self.origins.bare(source)
            if bare != source:
                with open(self.source, "w", encoding="utf-8", errors="surrogateescape") as file:
                    file.write(bare)

    def keep(self):
        """Leaves what was made where --keep says."""
        folder = self.request.keep
        if folder:
            os.makedirs(folder, exist_ok=True)
            for path in filter(os.path.exists, [*self.made, self.source]):
                shutil.copy(path, folder)

    def refuse(self):
        """Ends where ./fit made nothing."""
        text = self.ran.stderr
        refusals = [it for it in text.splitlines() if "refused: " in it]
        notes = self.teller.notes(text)
        if refusals:
            last = self.teller.refusal(refusals[-1])
        else:
            last = "" if notes and self.ran.returncode == 1 else text.strip().rpartition("\n")[2]
        raise Fault(self.ran.returncode, *notes, last)


def image_by(request, work):
    """Makes an image in a folder for work; returns the build, and why the image isn't accepted."""
    os.makedirs(work, exist_ok=True)
    build = Build(request, work)
    return build, build.fit()


def again_for(build, told):
    """At which level to compile again, and why; nothing where that asks for nothing else. What is too large is tried at
    its own level first, if jumps were threaded."""
    said, compiler = build.ran.stderr.strip(), build.compiler
    why = in_plain_names(said.splitlines()[-1].rpartition("refused: ")[2]) if said else ""
    has_limits = told.endswith(": A3")
    if has_limits or TOO_LARGE.search(said):
        level = build.request.level if compiler.is_threaded else compiler.size_level
        return level, LIMITS if has_limits else why
    return (compiler.plainer(), why) if TOO_DENSE.search(said) else (None, None)


def image_of(request, work):
    """Makes the image in the folder for work, with plain jumps or at another level where that does it; returns how it
    was made."""
    build, told = image_by(request, work)
    for folder in "again", "smaller", "plainest":
        level, why = again_for(build, told)
        is_same = level == build.request.level
        if level is None or is_same and not build.compiler.is_threaded:
            break
        if not is_same:
            size = "for size" if level == build.compiler.size_level else "more plainly"
            say(f"{request.name}: compiled again {size}, by {level}, since {why}")
        build, told = image_by(request.at(level), f"{work}/{folder}")
    build.keep()
    if not build.is_made:
        build.refuse()
    if told.endswith(": A3"):
        raise Fault(2, f"{request.name}: refused: {LIMITS}: fewer or smaller functions are wanted")
    say(*build.teller.notes(build.ran.stderr))
    if told:
        raise Fault(1, *fault_of(build, told))
    return build


def fault_of(build, told):
    """The lines that tell of a source or an image of ./fit's that isn't accepted."""
    with open(build.source, encoding="utf-8", errors="replace") as file:
        source = file.read()
    line = re.search(r"\bline (\d+):", told)
    word = re.search(r"\b(?:at|word) (?:0x)?([0-9A-Fa-f]{8})\b", told)
    number = None
    if line:
        number = sum(re.match(r"\s+[a-z]", it) is not None for it in source.splitlines()[: int(line[1])]) - 1
    elif word and int(word[1], 16) >= 0x40000:
        number = (int(word[1], 16) - 0x40000) // 4
    return build.teller.fault_of_fit(told, source, number)


def preprocess(request):
    """Calls the compiler for -E, -M and -MM; returns the status."""
    compiler, status = compiler_of(request), 0
    out = ["-o", request.out] if request.out else []
    depends = ["-MF", request.depends] if request.depends else []
    more = [request.prints, *depends, *([request.dependencies] if request.dependencies else []), *out]
    for it in request.files:
        ran = subprocess.run(compiler.words(it, request.level, request.flags, *more), check=False)
        status = max(status, 2 if ran.returncode else 0)
    return status


def left_beside(build):
    """Leaves beside the image what gdb and `inspect` read of it, where that is asked for; tells what lacks."""
    request, stem = build.request, os.path.splitext(build.request.out)[0]
    if not (request.maps or request.debugs):
        return []
    from left import leave  # (which reads the image by ./inspect)
    why = leave(build, f"{stem}.map", f"{stem}.elf" if request.debugs else None)
    return [f"{request.name}: {stem}.elf has lines and no variables: {why}"] if why else []


def programs_of(request):
    """The programs that are called: a run is ./sandbox's, and ./inspect's where it ends in a test."""
    return ["fit", *["sandbox"] * bool(request.runs or request.inputs)]


def perform(request):
    """Does what was asked for; returns the status."""
    if request.prints:
        return preprocess(request)
    for it in request.files:
        open(it, "rb").close()  # (one that isn't there is told before anything is built)
    status = make_stand(request.name, *programs_of(request))
    if status:
        return status
    with tempfile.TemporaryDirectory() as work:
        build = image_of(request, work)
        image = build.image
        if request.out:
            shutil.copyfile(image, request.out)
        # (what a run or a comparison prints goes to standard output alone)
        print("accepted", file=sys.stderr if request.runs or request.inputs else sys.stdout)
        if request.out:
            say(*left_beside(build))
        if not (request.inputs or request.runs):
            return 0
        from runs import Comparison, run_image  # (which most calls don't need)
        status = Comparison(request, image, build.mapped, work).all() if request.inputs else 0
        return run_image(request, image, build.mapped) if request.runs else status


def usage_of(name):
    """How cc, or c++, is called."""
    with open(USAGE, encoding="utf-8") as file:
        text = file.read()
    return text.replace("FILE.c", "FILE.cc").replace("Usage: cc", "Usage: c++").replace("\n       cc", "\n       c++") \
        if name == "c++" else text


def version():
    """What this checkout is, and the compiler that it calls; none where none is there."""
    told = subprocess.run([f"{TOP}/tools/release/version"], stdout=subprocess.PIPE, text=True, check=False).stdout
    try:
        path = os.environ.get("CC_SPARC") or found_compiler()
        ran = subprocess.run([path, "--version"], stdout=subprocess.PIPE, text=True, errors="replace", check=False)
        return f"{told}compiler {ran.stdout.partition(chr(10))[0]}"
    except (Fault, OSError):
        return f"{told}compiler none"


def main(name, words):
    """Does what the words ask for; returns the status."""
    try:
        if "--help" in words or "-h" in words:
            print(usage_of(name), end="")
            return 0
        if "--version" in words:
            print(version())
            return 0
        return perform(request_of(name, words))
    except Fault as fault:
        usage = [*usage_of(name).splitlines()[:3], f"{name} --help tells more"] if fault.status == 3 else []
        say(*fault.lines, *usage)
        return fault.status
    except OSError as error:
        say(f"{name}: {file_fault(error)}")
        return 4
    except KeyboardInterrupt:
        return 130
