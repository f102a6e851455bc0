#!/usr/bin/env python3
"""usage: tests/fit/generator.py SEED [FOLDER]

Prints a random program of C, the same for each SEED, or writes its files to FOLDER. Such a program reads its input by
`get`, puts out numbers by `put`, ends, and does nothing that C leaves open but for sums that wrap: shifts are masked,
divisors above 0, indices masked, no expression changes twice what it reads. It is made of pieces that compilers turn
into calls, frames and loops of many forms, each with random parts: variables of the round before, recursion of one
function and of several, tables of functions and of structs of them, callbacks, variadic functions, structs and 64 bits
by value, arguments in memory, lists and trees in arrays, containers of members, unions, bit fields, strings, loops that
`goto` enters, and, of some programs, a second file."""
import os
import random
import sys

HEAD = '#include "plug.h"\n'
OUT = """{static}void __attribute__((noinline)) out(unsigned v) {{
    for (int s = 28; s >= 0; s -= 4) put("0123456789abcdef"[v >> s & 15]);
    put('\\n');
}}
"""
# Integer types, and how many bits each has.
KINDS = {"int": 32, "unsigned": 32, "short": 16, "unsigned short": 16, "signed char": 8, "unsigned char": 8,
         "long long": 64, "unsigned long long": 64}
NARROW = [kind for kind in KINDS if KINDS[kind] <= 32]
INDENT = "    "
# So many steps may a program take, as reckoned, on each byte of its input and apart from that.
MOST_STEPS = 30_000


class Chance(random.Random):
    """Random choices."""

    def one_in(self, count):
        """True once in so many."""
        return self.randrange(count) == 0

    def kind(self, narrow=False):
        """An integer type, mostly int."""
        return "int" if self.one_in(3) else self.choice(NARROW if narrow else list(KINDS))

    def constant(self):
        """A number, mostly small, else near a power of 2."""
        if self.randrange(3):
            return str(self.randrange(-9, 100))
        number = (1 << self.randrange(32)) + self.randrange(-2, 3)
        return f"{number & 0xffffffff:#x}u" if self.one_in(2) else str((number + 2**31) % 2**32 - 2**31 + 1)


class Names:
    """Names, each given once."""

    def __init__(self):
        self.counts = {}

    def new(self, stem):
        """A name that begins so."""
        self.counts[stem] = self.counts.get(stem, -1) + 1
        return f"{stem}{self.counts[stem]}"


class Scope:
    """What an expression may read, what a statement may write, and arrays with their lengths, powers of 2."""

    def __init__(self, reads=(), writes=(), arrays=()):
        self.reads, self.writes, self.arrays = list(reads), list(writes), list(arrays)

    def inner(self, reads=(), writes=(), arrays=()):
        """The same, with more."""
        return Scope([*self.reads, *reads, *writes], [*self.writes, *writes], [*self.arrays, *arrays])


class Function:
    """A function of the program: its name, the types of its params, what it gives, and how many steps it takes."""

    def __init__(self, name, params, result, steps):
        self.name, self.params, self.result, self.steps = name, params, result, steps


class Program:
    """A program as it is made: declarations and functions in order, what they share, and steps of main."""

    def __init__(self, seed):
        self.chance, self.names = Chance(f"program {seed}"), Names()
        self.text, self.second, self.body = [], [], []
        self.globals = Scope()
        self.functions = []

    # Expressions.

    def value(self, scope, depth=3):
        """An expression without a side effect, in parentheses where it needs them."""
        chance = self.chance
        if depth == 0 or chance.one_in(5):
            return self.leaf(scope)
        one, kind = self.value(scope, depth - 1), chance.randrange(12)
        if kind < 5:
            return f"({one} {chance.choice(['+', '-', '*', '&', '|', '^', '+', '-'])} {self.value(scope, depth - 1)})"
        if kind == 5:
            return f"({one} {chance.choice(['<<', '>>'])} ({self.value(scope, depth - 1)} & {chance.choice([7, 31])}))"
        if kind == 6:
            least = chance.choice([1, 3, 16])
            sign, divisor = chance.choice("/%"), self.value(scope, depth - 1)
            return f"({one} {sign} (({divisor} & {chance.choice([7, 63])}) + {least}))"
        if kind == 7:
            return f"({chance.choice('-~!')} {one})"
        if kind == 8:
            return f"(({chance.kind()}){one})"
        if kind == 9:
            return self.condition(scope, depth - 1)
        if kind == 10:
            return f"({self.condition(scope, depth - 1)} ? {one} : {self.value(scope, depth - 1)})"
        return f"((long long){one} {chance.choice(['*', '+', '-', '^'])} {self.value(scope, depth - 1)})"

    def condition(self, scope, depth=2):
        """An expression that is 0 or 1."""
        chance = self.chance
        if depth > 0 and chance.one_in(4):
            both = self.condition(scope, depth - 1), self.condition(scope, depth - 1)
            return f"({both[0]} {chance.choice(['&&', '||'])} {both[1]})"
        compare = chance.choice(["<", ">", "<=", ">=", "==", "!="])
        return f"({self.value(scope, depth)} {compare} {self.value(scope, depth)})"

    def leaf(self, scope):
        """A place, an element of an array, or a constant."""
        chance = self.chance
        if scope.arrays and chance.one_in(4):
            return self.element(scope)
        if scope.reads and chance.randrange(5):
            return chance.choice(scope.reads)
        return self.chance.constant()

    def element(self, scope):
        """An element of an array."""
        name, length = self.chance.choice(scope.arrays)
        index = self.chance.choice(scope.reads) if scope.reads and self.chance.randrange(4) else self.chance.constant()
        return f"{name}[{index} & {length - 1}]"

    # Statements.

    def statements(self, scope, room, depth=2, steps=1):
        """Lines of some statements, which are taken so often."""
        lines = []
        for _ in range(self.chance.randrange(1, 4)):
            lines += self.statement(scope, room, depth, steps)
        return lines

    def statement(self, scope, room, depth, steps):
        """Lines of one statement; `room` counts the steps of the function that it is in, as a list of one."""
        chance = self.chance
        room[0] += steps
        kind = chance.randrange(12)
        if kind < 4 or depth == 0:
            return self.assignment(scope)
        if kind < 6:
            return self.call(scope, room, steps)
        if kind == 6:
            return self.choice_of_ways(scope, room, depth, steps)
        if kind == 7:
            return self.switch(scope, room, depth, steps)
        if kind == 8:
            room[0] += 12 * steps
            return [f"out({self.value(scope)});"]
        return self.loop(scope, room, depth, steps)

    def assignment(self, scope):
        """An assignment to a place or an element."""
        chance = self.chance
        if scope.arrays and (chance.one_in(3) or not scope.writes):
            place = self.element(scope)
        elif scope.writes:
            place = chance.choice(scope.writes)
        else:
            return [f"out({self.value(scope)});"]
        if chance.one_in(6):
            return [f"{place}{chance.choice(['++', '--'])};"]
        return [f"{place} {chance.choice(['', '', '', '+', '-', '*', '^', '|', '&'])}= {self.value(scope)};"]

    def call(self, scope, room, steps):
        """A call of a function that was made before, if one takes few enough steps; alone in its statement."""
        fit = [it for it in self.functions if room[0] + (it.steps + 5) * steps < MOST_STEPS // 4]
        if not fit:
            return self.assignment(scope)
        callee = self.chance.choice(fit)
        room[0] += (callee.steps + 5) * steps
        arguments = ", ".join(self.value(scope, 2) for _ in callee.params)
        if callee.result == "void":
            return [f"{callee.name}({arguments});"]
        name = self.names.new("r")
        lines = [f"{callee.result} {name} = {callee.name}({arguments});"]
        if scope.writes and self.chance.randrange(3):
            return ["{", *indented([*lines, f"{self.chance.choice(scope.writes)} ^= {name};"]), "}"]
        return ["{", *indented([*lines, f"out({name});"]), "}"]

    def choice_of_ways(self, scope, room, depth, steps):
        """An if, with or without else."""
        lines = [f"if {self.condition(scope)} {{", *indented(self.statements(scope, room, depth - 1, steps))]
        if self.chance.one_in(2):
            lines += ["} else {", *indented(self.statements(scope, room, depth - 1, steps))]
        return [*lines, "}"]

    def switch(self, scope, room, depth, steps):
        """A switch, some of whose cases run on into the next."""
        lines = [f"switch ({self.value(scope, 2)} & 7) {{"]
        for case in sorted(self.chance.sample(range(8), self.chance.randrange(2, 6))):
            lines += [f"case {case}:", *indented(self.statements(scope, room, depth - 1, steps))]
            if self.chance.randrange(3):
                lines += indented(["break;"])
        return [*lines, "default:", *indented(self.assignment(scope)), "}"]

    def loop(self, scope, room, depth, steps):
        """A loop of few rounds, which may be left before."""
        chance, name = self.chance, self.names.new("i")
        rounds = chance.randrange(1, 9)
        bound = str(rounds) if chance.one_in(2) else f"(int)({self.value(scope, 1)} & 7)"
        head = chance.choice([
            f"for (int {name} = 0; {name} < {bound}; {name}++) {{",
            f"for (int {name} = {bound}; {name} > 0; {name}--) {{",
            f"for (unsigned {name} = {bound}; {name}-- > 0;) {{",
            f"for (signed char {name} = 0; {name} < {bound}; {name} += {chance.randrange(1, 4)}) {{",
        ])
        body = self.statements(scope.inner([name]), room, depth - 1, steps * 8)
        if chance.one_in(3):
            leaves = f"if {self.condition(scope.inner([name]))} {chance.choice(['break', 'continue'])};"
            body.insert(chance.randrange(2) * len(body), leaves)
        return [head, *indented(body), "}"]

    # Functions.

    def locals(self, count):
        """Declarations of some locals, each with a value, and what may be read and written then."""
        chance, lines, scope = self.chance, [], Scope()
        for _ in range(count):
            name = self.names.new("v")
            if chance.one_in(4):
                length = chance.choice([2, 4, 8, 16])
                given = f"{chance.kind()} {name}[{length}] = {{{chance.constant()}, {chance.constant()}}};"
                lines.append(given)
                scope.arrays.append((name, length))
            else:
                lines.append(f"{chance.kind()} {name} = {chance.constant()};")
                scope.writes.append(name)
        return lines, scope

    def function(self, params=None, result=None, linkage=None):
        """Adds a function of random statements; gives it."""
        chance = self.chance
        if params is None:
            params = [chance.kind() for _ in range(chance.choice([0, 1, 1, 2, 2, 3, 5, 8]))]
        result = result or chance.choice([chance.kind(), chance.kind(), "void"])
        name, room = self.names.new("f"), [3]
        names = [self.names.new("p") for _ in params]
        lines, own = self.locals(chance.randrange(4))
        read = [it for it in names if chance.randrange(5)]
        scope = self.globals.inner(read, own.writes, own.arrays).inner(writes=read if chance.one_in(2) else ())
        lines += self.statements(scope, room)
        if result != "void":
            lines.append(f"return {self.value(scope)};")
        linkage = linkage if linkage is not None else self.linkage()
        self.text += defined(f"{linkage}{result} {name}({listed(params, names)})", lines)
        made = Function(name, params, result, room[0])
        self.functions.append(made)
        return made

    def linkage(self):
        """How a function is declared: mostly such that it isn't inlined."""
        return self.chance.choice(["static __attribute__((noinline)) ", "static __attribute__((noinline)) ", "static "])

    def use(self, lines, reads=(), steps=0):
        """Adds a piece to main, with statements behind it that read what it made."""
        room = [steps]
        scope = self.globals.inner(reads)
        self.body.append(["{", *indented([*lines, *self.statements(scope, room, 1)]), "}"])


def indented(lines):
    """Lines further to the right."""
    return [INDENT + line for line in lines]


def listed(params, names):
    """Params as they are declared."""
    return ", ".join(f"{kind} {name}" for kind, name in zip(params, names)) or "void"


def defined(head, lines):
    """The lines of a function."""
    return [f"{head} {{", *indented(lines), "}"]


def globals_piece(program):
    """Variables of the whole program, plain and in arrays, structs and a union."""
    chance, names, shared = program.chance, program.names, program.globals
    for _ in range(chance.randrange(2, 6)):
        name = names.new("g")
        program.text.append(f"static {chance.kind()} {name} = {chance.constant()};")
        shared.writes.append(name)
        shared.reads.append(name)
    for _ in range(chance.randrange(1, 3)):
        name, length = names.new("a"), chance.choice([4, 8, 16, 32])
        given = ", ".join(chance.constant() for _ in range(chance.randrange(1, length)))
        program.text.append(f"static {chance.kind()} {name}[{length}] = {{{given}}};")
        shared.arrays.append((name, length))
    struct, name = names.new("s"), names.new("t")
    program.text += [
        f"struct {struct} {{ {chance.kind()} a; {chance.kind()} b[4]; unsigned c : {chance.randrange(1, 20)}; "
        f"int d : {chance.randrange(2, 12)}; "
        f"union {{ {chance.kind()} e; unsigned char f[8]; {chance.kind()} g; }} u; }};",
        f"static struct {struct} {name}[4] = {{{{1, {{2, 3}}, 1}}, {{{chance.constant()}}}}};",
    ]
    places = [f"{name}[{chance.randrange(4)}].{it}" for it in ("a", "c", "d", "u.e", "u.g")]
    shared.writes += places
    shared.reads += places
    shared.arrays += [(f"{name}[{chance.randrange(4)}].b", 4), (f"{name}[1].u.f", 8)]
    lines = [f"struct {struct} x = {name}[get() & 3];", f"x.a ^= {chance.constant()};", f"{name}[1] = x;"]
    program.use(lines, ["x.a", "x.d", "x.b[1]", "x.u.f[3]"])


def round_before_piece(program):
    """A loop that uses what was set in the round before, which nothing sets before the first round."""
    chance, names = program.chance, program.names
    kind, last, count, byte = chance.kind(), names.new("last"), names.new("n"), names.new("c")
    helper = program.function([kind], chance.kind())
    scope = program.globals.inner([byte, count])
    then = chance.choice([
        f"out({helper.name}({last} - 1));",
        f"{{ {helper.result} r = {helper.name}({last}) + {last}; out(r); }}",
        f"out({last} / (({byte} & 63) | 1));" if KINDS[kind] == 64 else f"out({last} ^ {program.value(scope)});",
    ])
    lines = [
        f"{kind} {last};", f"int {count} = 0;",
        f"for (int {byte}; ({byte} = get()) >= 0 && {count} < 20; {last} = {program.value(scope)}) {{",
        f"    if ({count}++) {then}",
        *indented(program.statements(scope, [100], 1, 20)),
        "}",
    ]
    program.use(lines, [count], helper.steps * 20)


def best_piece(program):
    """A loop that keeps a pointer to the best so far, and what came with it."""
    chance, names = program.chance, program.names
    kind, array, length = chance.kind(), names.new("b"), chance.choice([8, 16])
    program.text.append(f"static {kind} {array}[{length}];")
    better = chance.choice(["<", ">", ">="])
    lines = [
        f"{kind} *best = 0; long long when; int c, n = 0;",
        f"while (n < {chance.randrange(10, 50)} && (c = get()) >= 0) {{",
        f"    {array}[n & {length - 1}] = {program.value(program.globals.inner(['c', 'n']))};",
        f"    {kind} *here = &{array}[n & {length - 1}];",
        f"    if (!best || *here {better} *best) {{ best = here; when = n; }}",
        "    n++;",
        "}",
        "if (best) { out(*best); out(best - " + array + "); out(when); }",
    ]
    program.use(lines, ["n"])


def recursion_piece(program):
    """A function that calls itself, so deep at most, with values that live over its calls."""
    chance = program.chance
    kinds = ["int", *[chance.kind() for _ in range(chance.choice([0, 1, 2, 3, 6, 8]))]]
    result, name = chance.kind(), program.names.new("deep")
    params = ["depth", *[program.names.new("p") for _ in kinds[1:]]]
    declared, own = program.locals(chance.randrange(3))
    scope = program.globals.inner(params, own.writes, own.arrays)

    def again(less):
        values = ", ".join(program.value(scope, 2) for _ in kinds[1:])
        return f"{name}(depth - {less}{', ' * (len(kinds) > 1)}{values})"

    room = [5]
    lines = [*declared, f"if (depth <= 0) return {program.value(scope, 2)};", *program.statements(scope, room, 1)]
    lines.append(f"{result} one = {again(1)};")
    if chance.one_in(2):
        lines.append(f"{result} two = {again(2)};")
        scope = scope.inner(["two"])
    lines += program.statements(scope.inner(["one"]), room, 1)
    lines.append(f"return one {chance.choice('+-^')} {program.value(scope)};")
    program.text += defined(f"static {result} {name}({listed(kinds, params)})", lines)
    steps = room[0] * 20
    values = "".join(f", {program.value(program.globals, 2)}" for _ in kinds[1:])
    if steps < MOST_STEPS // 4:
        program.use([f"{result} r = {name}(get() & 5{values});", "out(r);"], ["r"], steps)


def round_piece(program):
    """Functions that call each other in a round, with params of their own each."""
    chance, names = program.chance, program.names
    made = [(names.new("turn"), ["int", *[chance.kind() for _ in range(chance.randrange(4))]], chance.kind())
            for _ in range(chance.randrange(2, 4))]
    for name, kinds, result in made:
        program.text.append(f"static {result} {name}({', '.join(kinds)});")
    for place, (name, kinds, result) in enumerate(made):
        params = ["left", *[names.new("p") for _ in kinds[1:]]]
        scope, room = program.globals.inner(params), [0]
        callee = made[(place + 1) % len(made)]
        values = "".join(f", {program.value(scope, 2)}" for _ in callee[1][1:])
        other = chance.choice(made)
        lines = [f"if (left <= 0) return {program.value(scope, 2)};",
                 f"{callee[2]} one = {callee[0]}(left - 1{values});"]
        if chance.one_in(2):
            values = "".join(f", {program.value(scope.inner(['one']), 2)}" for _ in other[1][1:])
            lines.append(f"if (one & 1) one ^= {other[0]}(left - 2{values});")
        lines += [*program.statements(scope.inner(["one"]), room, 0), f"return one + {program.value(scope, 2)};"]
        program.text += defined(f"{program.linkage()}{result} {name}({listed(kinds, params)})", lines)
    name, kinds, result = made[0]
    values = "".join(f", {program.value(program.globals, 2)}" for _ in kinds[1:])
    program.use([f"{result} r = {name}(get() & 7{values});", "out(r);"], ["r"], 2000)


def table_piece(program):
    """A table of functions of one type, constant or filled while the program runs."""
    chance, names = program.chance, program.names
    params = [chance.kind() for _ in range(chance.choice([0, 1, 2, 2, 3, 5, 7, 9]))]
    result, table = chance.kind(), names.new("table")
    made = [program.function(params, result, "static ") for _ in range(chance.randrange(2, 5))]
    length = chance.choice([2, 4])
    chosen = [chance.choice(made) for _ in range(length)]
    head = f"{result} (*{{}}{table}[{length}])({', '.join(params) or 'void'})"
    steps = 8 * (max(it.steps for it in made) + 20)
    if steps > MOST_STEPS // 2:
        return
    lines = []
    if chance.one_in(2):
        program.text.append(f"static {head.format('const ')} = {{{', '.join(it.name for it in chosen)}}};")
    else:
        program.text.append(f"static {head.format('')};")
        lines += [f"{table}[{it}] = {function.name};" for it, function in enumerate(chosen)]
    scope = program.globals.inner(["c", "n"])
    values = ", ".join(program.value(scope, 2) for _ in params)
    index = chance.choice(["c", "n", "c >> 3"])
    lines += [
        "int c, n = 0;",
        "while (n++ < 8 && (c = get()) >= 0) {",
        f"    {result} r = {table}[{index} & {length - 1}]({values});",
        *indented(program.statements(scope.inner(["r"]), [0], 0)),
        "    out(r);",
        "}",
    ]
    program.use(lines, ["n"], steps)


def objects_piece(program):
    """Structs with pointers to functions of several types, some of which call on through the object."""
    chance, names = program.chance, program.names
    struct, kind = names.new("object"), chance.kind()
    program.text.append(f"struct {struct} {{ {kind} state; int (*ask)(struct {struct} *, int); "
                        f"void (*tell)(struct {struct} *); {kind} (*make)(int, {kind}, int, int, int, int, int); "
                        f"struct {struct} *next; }};")
    own = program.globals.inner(["o->state"], ["o->state"])
    made = []
    for _ in range(2):
        ask, tell, make = names.new("ask"), names.new("tell"), names.new("make")
        on = f"if (n > 0 && o->next) {{ int r = o->next->ask(o->next, n - 1); return r ^ {program.value(own, 2)}; }}"
        lines = [on, *program.statements(own.inner(["n"]), [0], 0), f"return {program.value(own, 2)};"]
        program.text += defined(f"static int {ask}(struct {struct} *o, int n)", lines)
        program.text += defined(f"static void {tell}(struct {struct} *o)", program.statements(own, [0], 1))
        params = [*"abcdefg"]
        scope = program.globals.inner(chance.sample(params, 4))
        program.text += defined(f"static {kind} {make}({listed(['int', kind, *['int'] * 5], params)})",
                                [f"return {program.value(scope)};"])
        made.append(f"{{{chance.constant()}, {ask}, {tell}, {make}}}")
    array = names.new("objects")
    values = ", ".join(program.value(program.globals.inner(["c", "i"]), 1) for _ in range(5))
    program.text.append(f"static struct {struct} {array}[4] = {{{made[0]}, {made[1]}, {made[1]}, {made[0]}}};")
    lines = [
        f"for (int i = 0; i < 3; i++) {array}[i].next = &{array}[(i + get()) & 3];",
        f"for (int i = 0, c; i < 6 && (c = get()) >= 0; i++) {{",
        f"    struct {struct} *o = &{array}[c & 3];",
        "    out(o->ask(o, c & 7));",
        "    o->tell(o);",
        f"    o->state += o->make(c, i, {values});",
        "    out(o->state);",
        "}",
    ]
    program.use(lines, [f"{array}[1].state"], 1500)


def callback_piece(program):
    """A sort with a compare, and a fold with a function, over an array."""
    chance, names = program.chance, program.names
    kind, array, sort, fold = chance.kind(), names.new("items"), names.new("sort"), names.new("fold")
    compare = [names.new("compare") for _ in range(2)]
    step = program.function([kind, "int"], chance.kind(), "static ")
    if step.steps > 400:
        return
    program.text.append(f"static {kind} {array}[16];")
    for name, sign in zip(compare, chance.sample(["<", ">", "!="], 2)):
        value = "*x < *y" if sign == "!=" else f"(*x {sign} *y) - (*y {sign} *x)"
        program.text += defined(f"static int {name}(const void *one, const void *other)",
                                [f"const {kind} *x = one, *y = other;", f"return {value};"])
    program.text += defined(
        f"{program.linkage()}void {sort}({kind} *all, int n, int (*compare)(const void *, const void *))",
        ["for (int i = 1; i < n; i++)",
         "    for (int j = i; j > 0 && compare(&all[j - 1], &all[j]) > 0; j--) {",
         f"        {kind} t = all[j]; all[j] = all[j - 1]; all[j - 1] = t;", "    }"])
    program.text += defined(
        f"{program.linkage()}long long {fold}({step.result} (*step)({kind}, int), const {kind} *all, int n)",
        ["long long sum = 0;", "while (n-- > 0) sum = sum * 3 + step(all[n], n);", "return sum;"])
    value = program.value(program.globals.inner(["c", "n"]))
    lines = [
        "int n = 0;", f"for (int c; n < 12 && (c = get()) >= 0; n++) {array}[n] = {value};",
        f"{sort}({array}, n, get() & 1 ? {compare[0]} : {compare[1]});",
        f"for (int i = 0; i < n; i++) out({array}[i]);",
        f"long long r = {fold}({step.name}, {array}, n);", "out(r); out(r >> 32);",
    ]
    program.use(lines, ["r", "n"], 3000)


def variadic_piece(program):
    """A variadic function, called by name and through a pointer."""
    chance, names = program.chance, program.names
    name, pointer = names.new("total"), names.new("through")
    wide = chance.one_in(2)
    read = "*f == 'l' ? va_arg(list, long long) : *f == 'p' ? *va_arg(list, int *) : va_arg(list, int)" if wide else \
        "va_arg(list, int)"
    program.text += defined(
        f"{program.linkage()}long long {name}(const char *f, ...)",
        ["va_list list;", "long long sum = 0;", "va_start(list, f);", f"for (; *f; f++) sum = sum * 5 + ({read});",
         "va_end(list);", f"return sum + {program.value(program.globals, 1)};"])
    program.text.append(f"static long long (*{pointer}[2])(const char *, ...) = {{{name}, {name}}};")
    lines = ["int x = get(), y = get(); long long r;"]
    for _ in range(chance.randrange(1, 4)):
        form = "".join(chance.choice("iilp" if wide else "i") for _ in range(chance.randrange(9)))
        values = "".join({"i": f", (int){program.value(program.globals.inner(['x', 'y']), 1)}",
                          "l": f", (long long){program.value(program.globals.inner(['x', 'y']), 1)}",
                          "p": chance.choice([", &x", ", &y"])}[it] for it in form)
        called = name if chance.one_in(2) else f"{pointer}[x & 1]"
        lines += [f'r = {called}("{form}"{values});', "out(r); out(r >> 32);"]
    program.use(lines, ["r", "x"], 500)


def struct_value_piece(program):
    """Structs by value: params, results, by name and through pointers, some of them by a function that calls itself."""
    chance, names = program.chance, program.names
    struct, change, again = names.new("value"), names.new("change"), names.new("again")
    one, other, length = chance.kind(), chance.kind(), chance.choice([1, 2, 3, 7, 20])
    program.text.append(f"struct {struct} {{ {one} a; {other} b[{length}]; {chance.kind()} c; }};")
    last = length - 1
    scope = program.globals.inner(["x.a", "x.c", "n", f"x.b[{last}]"], ["x.a", "x.c", f"x.b[{last}]"])
    program.text += defined(
        f"{program.linkage()}struct {struct} {change}(struct {struct} x, int n)",
        [*program.statements(scope, [0], 1), "return x;"])
    program.text += defined(
        f"static struct {struct} {again}(int n, struct {struct} x)",
        [f"if (n <= 0) return {change}(x, n);", f"struct {struct} y = {again}(n - 1, x);",
         f"y.a += x.c; y.b[n % {length}] ^= n;", f"return n & 1 ? {change}(y, n) : y;"])
    lines = [
        f"struct {struct} x = {{get(), {{5}}, 3}}, y;", "x.b[0] ^= get();",
        f"struct {struct} (*const way[2])(struct {struct}, int) = {{{change}, {change}}};",
        f"y = {again}(x.a & 3, x);", f"x = way[y.a & 1](y, {program.value(program.globals, 1)});",
        f"out(x.a); out(x.b[{last}]); out(x.c); out(y.a); out(y.c);",
    ]
    program.use(lines, ["x.a", "x.c", "y.a"], 600)


def list_piece(program):
    """Nodes in an array: a list that is put in order and turned round, or a tree."""
    chance, names = program.chance, program.names
    node, nodes, kind = names.new("node"), names.new("nodes"), chance.kind()
    insert, walk = names.new("insert"), names.new("walk")
    program.text += [f"struct {node} {{ {kind} key; struct {node} *left, *right; short count; }};",
                     f"static struct {node} {nodes}[16];"]
    if chance.one_in(2):
        program.text += defined(f"static struct {node} *{insert}(struct {node} *at, struct {node} *made)", [
            "if (!at) return made;", "if (made->key == at->key) at->count++;",
            f"else if (made->key < at->key) at->left = {insert}(at->left, made);",
            f"else at->right = {insert}(at->right, made);", "return at;"])
        program.text += defined(f"static int {walk}(const struct {node} *at, int depth)", [
            "if (!at) return depth;", f"int left = {walk}(at->left, depth + 1);", "out(at->key * 16 + at->count);",
            f"int right = {walk}(at->right, depth + 1);", "return left > right ? left : right;"])
    else:
        head = f"{program.linkage()}struct {node} *{insert}(struct {node} *list, struct {node} *made)"
        program.text += defined(head, [
            f"struct {node} **at = &list;", "while (*at && (*at)->key < made->key) at = &(*at)->right;",
            "made->right = *at;", "*at = made;", "return list;"])
        program.text += defined(f"{program.linkage()}int {walk}(struct {node} *list, int depth)", [
            f"struct {node} *turned = 0;",
            f"while (list) {{ struct {node} *next = list->right; list->right = turned; turned = list; list = next; }}",
            "for (; turned; turned = turned->right) { out(turned->key); depth++; }", "return depth;"])
    lines = [f"struct {node} *top = 0;", "int used = 0;", "for (int c; used < 16 && (c = get()) >= 0; used++) {",
             f"    {nodes}[used].key = {program.value(program.globals.inner(['c', 'used']), 2)};",
             f"    top = {insert}(top, &{nodes}[used]);", "}", f"int deep = {walk}(top, 0);", "out(deep);"]
    program.use(lines, ["deep", f"{nodes}[3].key"], 2500)


def container_piece(program):
    """Structs that are found by the address of a member."""
    chance, names = program.chance, program.names
    outer, inner, array, find = names.new("outer"), names.new("inner"), names.new("holders"), names.new("holder")
    first = chance.choice([f"{chance.kind()} tag; ", "char text[3]; ", ""])
    program.text += [f"struct {inner} {{ struct {inner} *next; {chance.kind()} weight; }};",
                     f"struct {outer} {{ {first}{chance.kind()} id; struct {inner} link; {chance.kind()} tail; }};",
                     f"static struct {outer} {array}[8];"]
    program.text += defined(f"{program.linkage()}struct {outer} *{find}(struct {inner} *link)", [
        f"return (struct {outer} *)((char *)link - __builtin_offsetof(struct {outer}, link));"])
    lines = [
        f"struct {inner} *list = 0;",
        f"for (int i = 0, c; i < 8 && (c = get()) >= 0; i++) {{",
        f"    {array}[i].id = c; {array}[i].link.weight = {program.value(program.globals.inner(['c', 'i']), 2)};",
        f"    {array}[i].tail = i * 5;",
        f"    {array}[i].link.next = list; list = &{array}[i].link;", "}",
        f"for (struct {inner} *at = list; at; at = at->next) {{",
        f"    struct {outer} *o = {find}(at); out(o->id + o->tail); out(at->weight);", "}",
    ]
    program.use(lines, [f"{array}[2].id"], 600)


def goto_piece(program):
    """A loop that is entered in its middle, and one that goes back by goto."""
    chance = program.chance
    scope = program.globals.inner(["c", "n"])
    inside, outside = program.names.new("inside"), program.names.new("outside")
    lines = [
        "int c = get(), n = 0;", f"if {program.condition(scope)} goto {inside};",
        f"{outside}:", *program.assignment(scope.inner(writes=["c"])),
        f"for (; n < {chance.randrange(5, 20)}; n++) {{", *indented(program.statements(scope, [0], 1, 20)),
        f"{inside}:", *indented(program.assignment(scope.inner(writes=["c"]))),
        "    if ((c = get()) < 0) break;", f"    if {program.condition(scope)} {{ n++; goto {outside}; }}", "}",
        "out(n); out(c);",
    ]
    program.use(lines, ["c", "n"])


def string_piece(program):
    """Strings in a table, whose bytes are looked for, copied and compared."""
    chance, names = program.chance, program.names
    words, find, copied = names.new("words"), names.new("find"), names.new("copied")
    texts = [f'"{"".join(chance.choices("abcxyz01 ", k=chance.randrange(9)))}"' for _ in range(4)]
    program.text.append(f"static const char *const {words}[4] = {{{', '.join(texts)}}};")
    program.text.append(f"static char {copied}[16];")
    program.text += defined(f"{program.linkage()}int {find}(const char *text, int c)", [
        "const char *at = text;", "while (*at && *at != c) at++;",
        f"return *at ? at - text : {chance.randrange(-3, 0)};"])
    lines = [
        "int n = 0;", "for (int c, k = 0; k < 10 && (c = get()) >= 0; k++) {",
        f"    const char *text = {words}[c & 3];", f"    int at = {find}(text, \"abcxyz01\"[c >> 2 & 7]);",
        "    out(at);", f"    while (*text && n < 15) {copied}[n++] = *text++ + (at & 1);",
        f"    if (n > 10) n = {chance.randrange(4)};", "}",
        f"for (int i = 0; i < 16; i++) out({copied}[i]);",
    ]
    program.use(lines, ["n", f"{copied}[2]"], 1200)


def wide_piece(program):
    """Arithmetic of 64 bits over a loop, in a function that is called for it."""
    chance, names = program.chance, program.names
    name, sign = names.new("wide"), chance.choice(["", "unsigned "])
    scope = program.globals.inner(["a", "b", "n"], ["a", "b"])
    value = program.value(scope, 2)
    program.text += defined(f"{program.linkage()}{sign}long long {name}({sign}long long a, int n, {sign}long long b)", [
        f"for (int i = 0; i < (n & 15); i++) {{ a = a * {chance.choice(['6364136223846793005ll', '10', '31'])} + b; "
        f"b ^= a {chance.choice(['>>', '<<'])} {chance.randrange(1, 60)}; }}",
        *program.statements(scope, [0], 1),
        f"return {chance.choice(['a', 'b'])} {chance.choice('/%')} (({value} & 1023) + {chance.randrange(1, 9)});"])
    lines = [f"{sign}long long r = 1;", "for (int i = 0, c; i < 6 && (c = get()) >= 0; i++) {",
             f"    r = {name}(r, c, {program.value(program.globals.inner(['c', 'i', 'r']), 2)});",
             "    out(r); out(r >> 32);", "}"]
    program.use(lines, ["r"], 3000)


def second_file_piece(program):
    """A second file, with static names that the first has, too, and a function that calls back into the first."""
    chance, names = program.chance, program.names
    step, count, call = names.new("step"), names.new("count"), names.new("call")
    kind = chance.kind()
    program.text.append(f"{kind} {step}({kind} x, int n);")
    program.text.append(f"int {call}(int (*f)(int), int n);")
    program.text.append(f"static int {count} = {chance.randrange(9)};")
    program.text += defined(f"static int {names.new('own')}(int x)", [f"return x * 3 + {count}++;"])
    own = program.text[-3].split("(")[0].split()[-1]
    scope = Scope(["x", "n", count], ["x", count])
    program.second += [f"static {kind} {count} = {chance.constant()};", "void out(unsigned v);"]
    program.second += defined(f"{kind} {step}({kind} x, int n)", [
        "if (n <= 0) return x;", *program.assignment(scope),
        f"return {step}(x ^ {program.value(scope, 2)}, n - 1);"])
    program.second += defined(f"int {call}(int (*f)(int), int n)", [
        "int sum = 0;", f"while (n-- > 0) sum += f(sum + n) ^ {count};", "return sum;"])
    lines = ["int x = get();", f"{kind} r = {step}(x, get() & 7);", "out(r);", f"out({call}({own}, get() & 15));"]
    program.use(lines, ["r"], 500)


PIECES = [round_before_piece, best_piece, recursion_piece, round_piece, table_piece, objects_piece, callback_piece,
          variadic_piece, struct_value_piece, list_piece, container_piece, goto_piece, string_piece, wide_piece]


def main_of(program):
    """The lines of main: each piece in turn, and all variables in the end."""
    lines = [line for piece in program.body for line in piece]
    lines += [f"out({place});" for place in program.globals.writes]
    return defined("int main(void)", [*lines, "return 0;"])


def files_of(seed):
    """The files of the program of a seed: texts by their names."""
    program = Program(seed)
    chance = program.chance
    globals_piece(program)
    for _ in range(chance.randrange(3)):
        program.function()
    has_second = chance.one_in(4)
    for piece in chance.choices(PIECES, k=chance.randrange(2, 6)):
        piece(program)
    if has_second:
        second_file_piece(program)
    chance.shuffle(program.body)
    out = OUT.format(static="" if has_second else "static ")
    head = [f"/* The random program {seed}. */", HEAD, "#include <stdarg.h>", out]
    files = {"main.c": "\n".join([*head, *program.text, *main_of(program), ""])}
    if has_second:
        files["second.c"] = "\n".join([*program.second, ""])
    return files


def main(words):
    if not words or len(words) > 2 or not words[0].isdigit():
        print(__doc__, file=sys.stderr)
        return 3
    for name, text in files_of(int(words[0])).items():
        if len(words) == 1:
            print(f"/* {name} */\n{text}", end="")
        else:
            with open(os.path.join(words[1], name), "w", encoding="ascii") as file:
                file.write(text)
    return 0


if __name__ == "__main__":
    sys.exit(main(sys.argv[1:]))
