"""Assembly that `fit` has to refuse, or to make something of: what makes long texts, and FAULTS, a table of all."""

HEAD = '\t.section\t".text"\n\t.align 4\n\t.global main\n\t.type\tmain, #function\nmain:\n'
TAIL = "\tretl\n\t nop\n\t.size\tmain, .-main\n"


def code(statements):
    """The lines of statements and labels, which stand behind semicolons."""
    return "".join(f"{it}\n" if it.endswith(":") else f"\t{it}\n" for it in statements.split("; "))


def main_of(statements, more=""):
    """A function main that returns behind these statements, and what stands behind it."""
    return HEAD + code(statements) + TAIL + more


def function(name, statements):
    """A function of these statements."""
    return f"\t.global {name}\n\t.type {name}, #function\n{name}:\n{code(statements)}\t.size {name}, .-{name}\n"


TEXT = '\t.section ".text"\n'
ENTER, LEAVE, SLOT = "save %sp,-96,%sp", "ret; restore", " nop"
# One word of data, and 16 bytes of it.
WORD = '\t.section ".data"\n\t.align 4\nx:\n\t.word 1\n'
BYTES = '\t.section ".data"\n\t.align 4\nk:\n\t.skip 16\n'
CONSTANT = '\t.section ".rodata"\n\t.align 4\nk:\n\t.word 5\n'


def name_of(number, count):
    """The name of a function in a round of so many: the first is main."""
    return f"f{number % count}" if number % count else "main"


def rounds_of_calls(count):
    """Functions each of which calls the next one, and the last one the first."""
    body = f"{ENTER}; call {{}}, 0; {SLOT}; {LEAVE}"
    return TEXT + "".join(function(name_of(it, count), body.format(name_of(it + 1, count))) for it in range(count))


def row_of_calls(count):
    """So many functions each of which calls the next one and adds to what that gives back."""
    called = "; ".join((ENTER, "call {}, 0", " mov %i0,%o0", "add %o0,1,%i0", LEAVE))
    bodies = [called.format(name_of(it + 1, count)) for it in range(count - 1)] + [f"{ENTER}; {LEAVE}"]
    return TEXT + "".join(function(name_of(it, count), body) for it, body in enumerate(bodies))


def steps(label, register, count):
    """So many blocks, each of which ends with a branch to the next one."""
    one = f"cmp {register},{{1}}; be .L{label}{{0}}; {SLOT}; add {register},1,{register}; .L{label}{{0}}:"
    return "; ".join(one.format(it, it % 4000) for it in range(count))


def calls_of(names):
    """A function that calls others of these names, each of two blocks."""
    calls = "; ".join(f"call {name}, 0; {SLOT}" for name in names)
    body = f"cmp %o0,0; be .L{{0}}; {SLOT}; add %o0,1,%o0; .L{{0}}:; retl; {SLOT}"
    bodies = "".join(f"\t.type {name}, #function\n{name}:\n{code(body.format(name))}" for name in names)
    return HEAD + code(f"{ENTER}; mov %i0,%o0; {calls}; {LEAVE}") + bodies


def two_kinds(constants, data):
    """So many bytes of constants, and of what may be written, which main names."""
    parts = f'.section ".rodata"; .align 8; x:; .skip {constants}; .section ".data"; .align 8; y:; .skip {data}'
    return HEAD + code("sethi %hi(x),%g1; sethi %hi(y),%g1") + TAIL + code(parts)


def kept_words(name, words, count, called=None):
    """A function that keeps so many words in its frame over so many branches, and calls another one first."""
    call = [f"call {called}, 0", SLOT] if called else []
    stores = [f"st %l0,[%fp-{4 * number}]" for number in range(1, words + 1)]
    loads = [f"ld [%fp-{4 * number}],%l1; add %l2,%l1,%l2" for number in range(1, words + 1)]
    enter = [f"save %sp,-{104 + words // 2 * 8},%sp", *call, "sethi %hi(x),%g1", "ld [%g1+%lo(x)],%l0", "mov %l0,%l2"]
    leave = ["ret", "restore %g0,%l2,%o0"]
    return function(name, "; ".join([*enter, *stores, steps(name, "%l2", count), *loads, *leave]))


def with_word(functions):
    """The same beside a word of the data."""
    return WORD + TEXT + functions


def array_in_frame(name, size, called=None):
    """A function with an array of so many bytes in its frame, into which it stores, and calls another one first."""
    call = [f"call {called}, 0", SLOT] if called else []
    enter = [f"sethi %hi(-{size}),%g1", f"or %g1,%lo(-{size}),%g1", "save %sp,%g1,%sp", *call]
    return function(name, "; ".join([*enter, "add %fp,-2000,%o0", "sll %i0,2,%g1", "st %g0,[%o0+%g1]", LEAVE]))


def calls_of_loops(count):
    """So many calls of a function with a loop, and behind them a loop in line 9 of C."""
    loop = f"{{0}}:; ta 1; cmp %o0,0; bge {{0}}; {SLOT}; "
    calls = f"call f, 0; {SLOT}; " * count
    front = '.file 1 "many.c"; .loc 1 7 0; ' + f"{ENTER}; {calls}.loc 1 9 0; {loop.format('.L1')}{LEAVE}; "
    return HEAD + code(f"{front}.size main, .-main; .type f, #function; f:; {loop.format('.L2')}retl; {SLOT}") \
        + "\t.size\tmain, .-main\n"


# A function that takes its seventh argument from memory, and what calls it with that one stored in a line.
TAKES_SEVEN = f"{ENTER}; ld [%fp+92],%o0; ta 2; {LEAVE}"
GIVES_SEVEN = f"{ENTER.replace('96', '112')}; mov 65,%l0; st %l0,[%sp+92]; {{}}call f, 0; {SLOT}; {LEAVE}"

# A loop of ten rounds that is entered at two places.
ENTERED_TWICE = main_of(f"mov 10,%o1; ta 1; cmp %o0,65; be .L2; {SLOT}; .L1:; add %o2,1,%o2; .L2:; subcc %o1,1,%o1; "
                        f"bne .L1; {SLOT}")

# What isn't a program, with a part of what is to be told of it; None where it means something after all.
FAULTS = {
    "empty": ("", "there is no function main"),
    "bytes": (bytes(range(256)) * 40, ""),
    "zeros": (bytes(100_000), ""),
    "open string": ('\t.section ".rodata"\n\t.asciz "abc', ""),
    "long line": ("a" * 1_000_000, ""),
    "unknown directive": ("\t.frobnicate 3\n", ""),
    "unknown instruction": (main_of("frob %o0"), "frob"),
    "no such label": (main_of(f"ba .L99; {SLOT}"), "out of the function"),
    "label twice": (main_of(".L1:; .L1:"), "twice"),
    "no return": (HEAD, None),
    "label of no type": ("main:\n" + TAIL, ":2: refused: an instruction outside of a function: write .type NAME"),
    "much data": (HEAD + code("sethi %hi(x),%g1") + TAIL + code('.section ".bss"; .global x; x:; .skip 400000'),
                  "more than 262144 bytes of data"),
    "much more data": (HEAD + TAIL + code('.section ".bss"; .global x; x:; .skip 16777217'),
                       "more than 16777216 bytes of data"),
    "negative skip": (code('.section ".bss"; x:; .skip -4'), ""),
    "round of calls": (rounds_of_calls(3), "a run begins at"),
    "long round of calls": (rounds_of_calls(300), "a run begins at"),
    "float": (main_of("fadds %f0,%f1,%f2"), "floating point"),
    "through a register": (main_of(f"jmp %o1; {SLOT}"), ""),
    "call through a register": (HEAD + code(f"{ENTER}; call %o1, 0; {SLOT}; {LEAVE}"), None),
    "other space": (main_of("lda [%o0]10,%o1"), ""),
    "store to a number": (main_of("st %g0,[%g0+16]"), None),
    "registers that nothing wrote": (main_of("add %o1,%o1,%o0; add %o1,%o2,%o2"), None),
    "division by 0": (main_of("wr %g0,0,%y; udiv %o0,0,%o0"), "division by 0"),
    # the test would stand behind the index's load, between the codes of both words and their branch
    "codes of two words": (main_of("ta 1; mov %o0,%o1; ta 1; sethi %hi(k),%g1; or %g1,%lo(k),%g1; subcc %o0,%o1,%g0; "
                                   "subxcc %o1,%o0,%g0; ld [%g1],%o3; ldub [%g1+%o3],%o2; bl .L1; "
                                   f"{SLOT}; ta 2; .L1:", BYTES), "no place for a test"),
    "a register of tests and meters": (main_of("mov 1,%g7"), "%g5 to %g7"),
    # the branch on carry would go by a compare with 0 that was put in for the branch on zero before it
    "carry behind zero": (main_of("subcc %o0,%o1,%o2; be .L1; nop; be .L1; nop; bcs .L1; nop; .L1:"), None),
    "a division without Y": (main_of("udiv %o0,32,%o0"), "Y is read"),
    "Y of nothing": (main_of("rd %y,%o0"), "Y is read"),
    "codes of nothing": (main_of("addx %o0,1,%o0"), "condition codes"),
    "a double word of an odd register": (main_of("ldd [%o0],%o1"), "a double word of an odd register"),
    "a local without SAVE": (main_of("mov 1,%l0"), "a local or an in register without a SAVE before"),
    "room of a name": ('\t.section ".data"\nx:\t.skip 4,y\n', "a byte to fill with that is no number"),
    "strings with something between": ('\t.section ".data"\nx:\t.ascii "a" b "c"\n', "a string that can't be read"),
    "an alignment up to so many bytes": ('\t.section ".data"\nx:\t.byte 1\n\t.align 8,,3\n',
                                         "an alignment that is left out"),
    "many blocks": (main_of("ta 1; " + steps("", "%o0", 5000)), "the blocks of a function would be"),
    "blocks that fit": (main_of("ta 1; " + steps("", "%o0", 2000)), None),
    "words that fit": (HEAD + "\tadd %o0,1,%o0\n" * 65_500 + TAIL, None),
    "many labels": ("".join(f".L{number}:\n" for number in range(1_200_000)), ""),
    "many words": (HEAD + "\tadd %o0,1,%o0\n" * 70_000 + TAIL, "the words of code"),
    "many functions": (calls_of([f"f{number}" for number in range(300)]), "more than 256 functions"),
    "names of blocks": (calls_of(["f", "f.1", "f.2", "f.of2", "main.1"]), None),
    "names of another kind": (calls_of(["f$", "f$$", "x" * 5000]), None),
    "long name of data": (HEAD + TAIL + '\t.section ".data"\n' + "x" * 100_000 + ":\n\t.word 1\n", None),
    "long name of a file": (main_of('.file 1 "' + "x" * 5000 + '.c"; .loc 1 7 0; add %o0,1,%o0'), None),
    "store to a constant": (main_of("sethi %hi(k),%g1; st %g0,[%g1+%lo(k)]", CONSTANT), "a constant is stored to"),
    # 80 bytes before the first object of each kind and 256 behind its last one, on 63 pages and on one
    "constants that fit": (two_kinds(63 * 4096 - 336, 4096 - 336), None),
    "constants on one page more": (two_kinds(63 * 4096 - 328, 4096 - 336), "bytes of data"),
    "frames on more pages": (TEXT + array_in_frame("main", 150_000, "f") + array_in_frame("f", 150_000),
                             "bytes of data"),
    "words in use": (with_word(kept_words("main", 60, 3)), None),
    "more words in use": (with_word(kept_words("main", 70, 3)), "more than 64 registers and frame words in use"),
    "a long source": (with_word(kept_words("main", 58, 2040, "f") + kept_words("f", 58, 2040)),
                      "the blocks of all functions would be"),
    "row of calls": (row_of_calls(250), None),
    "an argument in memory": (TEXT + function("main", GIVES_SEVEN.format("")) + function("f", TAKES_SEVEN), None),
    # the call between would leave its own argument where the first one is
    "an argument over a call": (TEXT + function("main", GIVES_SEVEN.format(f"call g, 0; {SLOT}; "))
                                + function("g", GIVES_SEVEN.format("")) + function("f", TAKES_SEVEN),
                                "an argument in memory over a call"),
}

# Where no line can be told: there is none.
LINELESS = {"empty"}
