"""The two compilers for SPARC, and how they make one assembly of sources and of the library."""
import functools
import os
import re
import shutil
import subprocess

from assembly import Assembly
from fault import Fault
from kept import settle
from request import ending_of, is_plus

TOP = os.path.dirname(os.path.dirname(os.path.dirname(os.path.abspath(__file__))))
GCC = "sparc64-linux-gnu-gcc"
# So many seconds of processor a compiler may take.
SECONDS = 60

# What makes gcc write what the rules admit: no filled slots, no position-independent code, no tables of jumps, no tail
# calls, no second name for a function that is like another one, no registers of the floating-point unit. %g5 to %g7 are
# left to the tests, %o7 to the calls, %g2 to %g4 to the stack of functions that call themselves, and to the meter.
# What C leaves open and programs rely on is as most compilers had it for long: sums that wrap, pointers of other types
# to one place, a null pointer that is read where it is read. One thread needs no order of its accesses.
PLAIN = """-g1 -m32 -mcpu=v8 -mmemory-model=sc -msoft-float -mlong-double-64 -mno-app-regs -ffixed-o7
    -fno-delayed-branch -fno-pic -fno-pie -fno-jump-tables -fno-optimize-sibling-calls
    -fno-asynchronous-unwind-tables -fno-stack-protector -fno-common -fno-ipa-icf -fno-ipa-ra -fno-strict-aliasing
    -fwrapv -fno-isolate-erroneous-paths-dereference -Wreturn-type""".split()
# These keep an index in a register that counts from an object, so that fewer tests are needed; small functions become
# parts of their callers also where these are cold, since a call costs more than it does elsewhere.
SHAPED = """-fno-tree-loop-distribute-patterns -fno-ivopts -fno-schedule-insns -fno-schedule-insns2
    -fno-tree-vectorize -fno-tree-loop-ivcanon -fno-split-loops -fno-thread-jumps -fno-crossjumping
    -fno-tree-tail-merge --param logical-op-non-short-circuit=0 --param max-inline-insns-auto=30
    --param max-inline-insns-recursive-auto=0 --param early-inlining-insns=60""".split()
# Of a program's own sources jumps are threaded where that copies few statements, and not by the dominator passes, which
# thread through the heads of loops, whose bounds `fit` reads.
THREADED = "-fthread-jumps --param max-jump-thread-duplication-stmts=5 -fno-tree-dominator-opts".split()
# (clang's debug information of version 5 names all by numbers in further tables)
CLANG = """--target=sparc-linux-gnu -mcpu=v8 -msoft-float -g1 -gdwarf-4 -fno-pic -fno-pie -fno-jump-tables
    -fno-optimize-sibling-calls -fno-asynchronous-unwind-tables -fno-stack-protector -fno-common -fno-strict-aliasing
    -fwrapv -Wreturn-type -fno-vectorize -fno-slp-vectorize -fno-unroll-loops -mllvm -disable-sparc-delay-filler
    -mllvm -sparc-reserve-app-registers""".split()
# C++ without what needs tables: no exceptions, no types at run time, one thread.
PLUS = "-fno-exceptions -fno-rtti -fno-threadsafe-statics -nostdinc++".split()
# C with one thread, whose own variables are like others: these words of C stand beside static and extern, or outside of
# functions.
ALONE = ["-D_Thread_local=", "-D__thread="]
# The headers are those of runtime/include alone, and the compiler's own for C++ behind them.
HEADERS = ["-nostdinc", "-isystem", f"{TOP}/runtime/include", "-idirafter", f"{TOP}/runtime"]
PLUS_HEADERS = ["-isystem", f"{TOP}/runtime/cxx/include"]
# All files and the library become one assembly, in which only what main reaches is left.
WHOLE = """-flto -flto-partition=none -fwhole-program -nostdlib -static -save-temps -Wl,-e,main
    -Wl,--unresolved-symbols=ignore-all""".split()
# What a compiler's last passes may call in the place of something else, and what ends a run: it stays up to there, and
# goes where nothing calls it.
KEPT = """memcpy memmove memset memcmp memchr mempcpy strlen strcpy stpcpy strcat strchr strcmp strncmp puts putchar
    fputc fputs fwrite calloc abort exit""".split()
# What gcc calls as its very last pass for a whole number of a double, (int)floor(x), though nothing called it before.
LATE = re.compile(r"^\s*call\s+(floorf?|ceilf?)\b", re.M)
# Where the linker is as it tells of a name that is defined twice, and the name.
IN_OBJECT = re.compile(r"(\S+?)\)?(?: \(symbol from plugin\))?: in function ")
TWICE = re.compile(r"multiple definition of `([^']+)'")
# What clang calls of mathematics in the place of its own operations.
KEPT_MATH = """fabs floor ceil trunc rint nearbyint round sqrt copysign fmin fmax fmod fabsf floorf ceilf truncf rintf
    nearbyintf roundf sqrtf copysignf fminf fmaxf fmodf""".split()


def limited(words, seconds=SECONDS, **how):
    """Runs a command that may take so many seconds of processor; returns how it ended, and whether it took them."""
    limit = ["sh", "-c", f'ulimit -t {seconds}; exec "$@"', "sh"]
    ran = subprocess.run([*limit, *words], stderr=subprocess.PIPE, text=True, errors="replace", check=False, **how)
    return ran, ran.returncode in (-9, -24, 137, 152) or "CPU time limit" in ran.stderr


def side_by_side(call, items):
    """What a call returns for each of some items, as many at a time as there are processors."""
    if len(items) < 2:
        return [call(it) for it in items]
    from concurrent.futures import ThreadPoolExecutor  # (which takes longer to load than most calls need)
    with ThreadPoolExecutor() as lanes:
        return list(lanes.map(call, items))


@functools.lru_cache(maxsize=None)
def runtime_files():
    """The paths of all files of the library, in one order."""
    return sorted(f"{at}/{name}" for at, _, names in os.walk(f"{TOP}/runtime") for name in names)


def found_compiler():
    """The compiler that is installed."""
    if shutil.which(GCC):
        return GCC
    if shutil.which("clang"):
        targets = subprocess.run(["clang", "--print-targets"], stdout=subprocess.PIPE, text=True, check=False).stdout
        if re.search(r"^ *sparc ", targets, re.M):
            return "clang"
    raise Fault(125, "no compiler for SPARC: install the Debian package gcc-sparc64-linux-gnu")


def compiler_of(request):
    """The compiler that is asked for, or installed."""
    path = os.environ.get("CC_SPARC") or found_compiler()
    if not shutil.which(path):
        raise Fault(125, f"{request.name}: CC_SPARC: {path} isn't there")
    return (Clang if "clang" in os.path.basename(path) else Gcc)(path, request)


class Compiler:
    """What both have in common."""

    target, size_level, library_flags, variables, apart = [], "-Os", [], ["-g"], []
    # What sources whose jumps are threaded are compiled with beside the level.
    threaded = []

    def __init__(self, path, request):
        self.path, self.request, self.tells = path, request, False
        if request.is_plus and not shutil.which(self.plus):
            raise Fault(125, f"{request.name}: no compiler of C++ for SPARC: {self.plus} isn't there: install the "
                        "Debian package g++-sparc64-linux-gnu")

    @functools.cached_property
    def plus(self):
        """The compiler of C++ beside that of C."""
        return re.sub(r"gcc(?=(-\d+)?$)", "g++", re.sub(r"clang(?=(-\d+)?$)", "clang++", self.path))

    @functools.cached_property
    def plus_headers(self):
        """The folders of C++'s own headers: the compiler's, or, where it has none for SPARC, those of g++."""
        for words in ([self.plus, *self.target], ["sparc64-linux-gnu-g++", "-m32"]):
            if shutil.which(words[0]):
                told = subprocess.run([*words, "-E", "-v", "-x", "c++", os.devnull], stdout=subprocess.DEVNULL,
                                      stderr=subprocess.PIPE, text=True, check=False).stderr
                listed = told.partition("> search starts here:")[2].partition("End of search")[0].split()
                folders = [os.path.normpath(it) for it in listed if "/c++/" in it]
                if any(os.path.exists(f"{it}/array") for it in folders):
                    return [word for it in folders for word in ("-isystem", it)]
        return []

    def plainer(self):
        """The level at which code is less dense; None where there is none."""
        return "-O1" if self.request.level not in ("-O1", "-O0") else None

    def front(self, source):
        """The words before all others to compile a source; as c++, C is C++, but for that of the library."""
        kind = ["-x", "c++"] if self.request.name == "c++" and source in self.request.files else []
        if not is_plus(source) and not kind:
            return [self.path, *self.target, *ALONE, *HEADERS]
        return [self.plus, *kind, *self.target, *PLUS, *PLUS_HEADERS, *HEADERS, *self.plus_headers]

    def words(self, source, level, flags, *more):
        """The words to compile a source."""
        return [*self.front(source), level, *self.for_size(level), *self.telling, *flags, *more, source]

    @property
    def telling(self):
        """What makes a compiler tell of variables."""
        return self.variables if self.tells else []

    def for_size(self, level):
        """What makes less code beside the level."""
        return self.library_flags if level in ("-Os", "-Oz") else []

    def called(self, source, level, flags, *more):
        """Compiles a source; returns how it ended."""
        ran, is_long = limited(self.words(source, level, flags, *more))
        if is_long:
            raise Fault(2, f"{self.request.name}: {source}: the compiler took more than {SECONDS} seconds: give it "
                        "smaller functions, or compile by -O1")
        return ran

    def each(self, work):
        """Compiles each source by itself, side by side; returns the paths of what is made."""
        sources = [it for it in self.request.files if ending_of(it) != ".s"]
        made = [f"{work}/{number}-{os.path.basename(it)}{self.ending}" for number, it in enumerate(sources)]

        def compiled(both):
            source, path = both
            more = [*self.kind, *self.of_sources(), *self.dependencies(f"{path}.d"), "-o", path]
            return self.called(source, self.request.level, self.request.flags, *more)
        ran = side_by_side(compiled, list(zip(sources, made)))
        self.told = "".join(it.stderr for it in ran)
        if any(it.returncode for it in ran):
            raise Fault(2, self.told.rstrip("\n"))
        return made

    def of_sources(self):
        """What a program's own sources are compiled with beside the level that is asked for."""
        return self.threaded if self.is_threaded else []

    @property
    def is_threaded(self):
        """Whether jumps of the program's own sources are threaded."""
        return bool(self.threaded) and self.request.is_threaded and self.request.level != "-O0"

    def taken(self, _work):
        """The files of assembly that a program has of the library beside the one that was made in a folder."""
        return []

    def dependencies(self, path):
        """The words that write down what a source includes."""
        request = self.request
        if not request.dependencies:
            return []
        target = [] if "-MT" in request.flags or "-MQ" in request.flags else ["-MT", request.out or "out"]
        return [request.dependencies, "-MF", path, *target]


class Gcc(Compiler):
    """gcc: objects that hold its own form, which it makes one assembly of as it links."""

    target, ending = PLAIN + SHAPED, ".o"
    kind = ["-c", "-flto"]
    # (an address of a variable in a register that is kept over calls would have to be tested, where it is a constant)
    library_flags = ["-fno-gcse", "-fno-move-loop-invariants"]
    # What is compiled of the library once and for all, and not with each program: long functions, of which gcc makes
    # nearly the same beside any program, and which it would take much of its time for.
    apart = "decimal print_double scan scan_double strtod".split()
    threaded = THREADED

    def plainer(self):
        return super().plainer() or ("-O0" if self.request.level == "-O1" else None)

    def of_sources(self):
        """At -O0 calls of functions that gcc knows are calls: it doesn't look for those that it knows in the library,
        and the headers' own bodies of printf and the like, which call others, aren't taken there."""
        return ["-fno-builtin"] if self.request.level == "-O0" else super().of_sources()

    @property
    def archiver(self):
        """What makes libraries of such objects."""
        return re.sub(r"gcc(?=(-\d+)?$)", "gcc-ar", self.path)

    def library(self, runtime):
        """The library's objects in an archive, so that a name of the program's goes before one of the library's."""
        archive, ending = runtime.place("library.a"), ".told.s" if self.tells else ".s"
        self.texts = runtime.all(runtime.sources(is_apart=True), ending, "-S")
        if not os.path.exists(archive):
            objects = runtime.all(runtime.sources(), self.ending, *self.kind) + runtime.all(self.texts, ".o", "-c")
            subprocess.run([self.archiver, "rcs", f"{archive}.{os.getpid()}", *objects], check=True)
            settle(f"{archive}.{os.getpid()}", archive)
        # (what the compiler told of the library's sources is left beside the archive by its name, in each call)
        own = f"{runtime.work}/library.a"
        if archive != own:
            os.symlink(archive, own)
        self.runtime = runtime
        return [own]

    def whole(self, objects, library, work):
        """Makes one assembly of all; returns its path."""
        path, told = f"{work}/program.s", self.told
        self.join(objects, library, work, KEPT)
        with open(path, encoding="utf-8", errors="surrogateescape") as file:
            text = file.read()
        late = {it for it in LATE.findall(text) if f"\n{it}:" not in text}
        if late:
            self.told = told
            self.join(objects, library, work, [*KEPT, *sorted(late)])
        return path

    def join(self, objects, library, work, names):
        """Has the compiler make one assembly of all, in which functions of some names stay up to its last pass."""
        path = self.plus if self.request.is_plus else self.path
        kept = [f"-Wl,-u,{name}" for name in names]
        level = [self.request.level, *self.for_size(self.request.level)]
        words = [path, *level, *self.target, *self.telling, *WHOLE, *kept, "-Wl,-Map=whole.map", "-o", "whole",
                 *objects, *library]
        ran, is_long = limited(words, cwd=work)
        if ran.returncode and self.gave_way(ran.stderr, work):
            ran, is_long = limited(words, cwd=work)
        made = sorted(it for it in os.listdir(work) if it.startswith("whole.lto.o") and it.endswith(".s"))
        if is_long:
            raise Fault(2, f"{self.request.name}: the compiler took more than {SECONDS} seconds for all files at once: "
                        "give it smaller functions, or compile by -O1")
        if ran.returncode or len(made) != 1:
            wrong = self.unassembled(ran.stderr, f"{work}/{made[0]}") if len(made) == 1 else []
            raise Fault(2, self.told, *wrong or [self.named(ran.stderr, objects, work).strip()])
        self.told += self.named(ran.stderr, objects, work)
        os.rename(f"{work}/{made[0]}", f"{work}/program.s")

    def gave_way(self, told, work):
        """Whether the library gave way to a program that has names of its own: a source of the library has several
        functions, and comes with all of them where one is wanted. Where the linker tells of such names alone, those of
        these sources are compiled anew, with other names in their place, in the archive of this call."""
        ours, doubles, place = {f"{self.runtime.name_of(it)}.o": it for it in self.runtime.sources()}, {}, None
        for line in told.splitlines():
            found, name = IN_OBJECT.search(line), TWICE.search(line)
            place = os.path.basename(found[1]).rpartition("(")[2] if found else place
            if name:
                doubles.setdefault(place, []).append(name[1])
        if not doubles or not doubles.keys() <= ours.keys():
            return False
        own, room = f"{self.runtime.work}/library.a", f"{work}/renamed"
        os.makedirs(room, exist_ok=True)
        for name, doubled in doubles.items():
            with open(f"{room}/names.h", "w", encoding="ascii") as file:
                file.writelines(f"#pragma redefine_extname {it} __library_{it}\n" for it in doubled)
            self.runtime.make(ours[name], f"{room}/{name}", [*self.kind, "-include", f"{room}/names.h"])
        shutil.copyfile(own, f"{room}/library.a")
        subprocess.run([self.archiver, "rs", f"{room}/library.a", *(f"{room}/{it}" for it in doubles)], check=True)
        os.replace(f"{room}/library.a", own)
        return True

    def taken(self, work):
        """Those of the library's files that were compiled once and for all, as the linker's map tells."""
        with open(f"{work}/whole.map", encoding="utf-8", errors="surrogateescape") as file:
            names = set(re.findall(r"library\.a\((\S+\.c)(?:\.told)?\.s\.o\)$", file.read(), re.M))
        return [it for it in self.texts if os.path.basename(it).partition(".c.")[0] + ".c" in names]

    def unassembled(self, text, path):
        """What the assembler doesn't take, which only a program itself can have written, by lines of C."""
        with open(path, encoding="utf-8", errors="replace") as file:
            assembly = Assembly(file.read())
        lines = []
        for number, why in re.findall(r"\.s:(\d+): Error: (.*)", text):
            place, function = assembly.place(int(number)), assembly.function(int(number))
            where = f"{self.source_of(place[0])}:{place[1]}" if place else self.request.files[0]
            lines.append(f"{where}: refused: {function}: inline assembly isn't taken: write it in C: {why}")
        return lines

    def source_of(self, path):
        """The path of a source as the words of the call have it."""
        same = [it for it in self.request.files if os.path.basename(it) == os.path.basename(path)]
        return same[0] if len(same) == 1 else path

    def named(self, text, objects, work):
        """What the linker told, with sources in the place of objects, and paths as the words of the call have them."""
        sources = [it for it in self.request.files if ending_of(it) != ".s"]
        for path, source in zip(objects, sources):
            text = re.sub(re.escape(path) + r"( \(symbol from plugin\))?", source, text)
            text = text.replace(os.path.relpath(os.path.abspath(source), os.path.realpath(work)), source)
        text = re.sub(re.escape(f"{work}/library.a(") + r"(\S+\.c)(?:\.told)?\.s(\.o)\)", r"\1\2", text)
        lines = [re.sub(r"^\S*/ld: ", "", it) for it in text.splitlines()]
        of_tools = ("collect2: |lto-wrapper: |compilation terminated|error: lto-wrapper|.* defaulting to "
                    "|warning: .* requires executable stack")
        return "\n".join(it for it in lines if not re.match(of_tools, it))


class Clang(Compiler):
    """clang: files of LLVM's form, which an empty source is compiled with."""

    target, ending, size_level = CLANG, ".bc", "-Oz"
    kind = ["-c", "-emit-llvm", "-Xclang", "-disable-llvm-passes"]

    def library(self, runtime):
        """The library as one file of LLVM's form."""
        path, parts = runtime.place("library.bc"), runtime.all(runtime.sources(), self.ending, *self.kind)
        if not os.path.exists(path):
            draft = f"{path}.{os.getpid()}"
            subprocess.run([*self.linked("-mlink-bitcode-file", parts), *self.kind, "-O2", "-x", "c", os.devnull,
                            "-o", draft], check=True)
            settle(draft, path)
        return [path]

    def crash_of(self, told):
        """What is told where clang itself ends by a fault, as clang 14 does for SPARC at -O0; nothing else."""
        if "PLEASE submit a bug report" not in told:
            return ""
        return (f"{self.request.name}: {self.path} itself ends by a fault at {self.request.level}: compile by another "
                "level, or by gcc")

    def linked(self, how, paths):
        """The words to compile something with such files."""
        return [self.path, *self.target, *(word for it in paths for word in ("-Xclang", how, "-Xclang", it))]

    def whole(self, objects, library, work):
        """Makes one assembly of all; returns its path."""
        # (clang gives no function of the library that is called by its own late passes alone)
        with open(f"{work}/kept.c", "w", encoding="ascii") as file:
            for name in [*KEPT, *KEPT_MATH]:
                file.write(f"void {name}(void);\n__attribute__((used, noinline, optnone)) ")
                file.write(f"static void __keep_{name}(void) {{ {name}(); }}\n")
        words = [*self.linked("-mlink-bitcode-file", objects),
                 *(word for it in library for word in ("-Xclang", "-mlink-builtin-bitcode", "-Xclang", it))]
        ran, is_long = limited([*words, self.request.level, "-w", "-fno-builtin", "-S", f"{work}/kept.c", "-o",
                                f"{work}/program.s"])
        if is_long or ran.returncode:
            why = f"{self.request.name}: the compiler took more than {SECONDS} seconds for all files at once"
            if not is_long:
                why = self.crash_of(ran.stderr) or ran.stderr.strip()
            raise Fault(2, self.told + why)
        return f"{work}/program.s"
