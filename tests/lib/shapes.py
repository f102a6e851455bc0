"""Sources of images that are greatest in some way: of words, of blocks, of cells, of functions."""
# What a row does; so it ends in `straight`.
ROW = """mov 5,%o1
ta 1
add %o0,%o1,%o2
sll %o2,2,%o3
xor %o3,%o1,%o4
and %o4,255,%o5
sethi 512,%g1
st %o5,[%g1+0]
ld [%g1+0],%o2
umul %o2,%o1,%o3
sub %o3,%o4,%o5
srl %o5,3,%o4""".split("\n")
ROW_END = ["or %o4,%o0,%o3", "addcc %o3,1,%o2", "sra %o2,1,%o2", "xor %o2,%o0,%o3"]
EXIT = ["mov 0,%o0", "ta 0"]

# Turns that last for the greatest function.
BUDGET = 1 << 30

# The 64 cells of a block, all that can be one of the registers from %o0 on and of the first 44 frame words; locals
# are small.
REGISTERS = [f"%{kind}{number}" for kind in "oli" for number in range(8)
             if (kind, number) not in [("o", 6), ("o", 7), ("i", 6), ("i", 7)]]
LOCALS = [it for it in REGISTERS if it[1] == "l"]
CELLS = [f".cell {it},{'0,99' if it in LOCALS else '-2147483648,2147483647'},0" for it in REGISTERS]
CELLS += [f".cell slot {k},-2147483648,2147483647,0" for k in range(44)]
TERMS = [f".term {it},1" for it in LOCALS]

# 64 cells whose sums by eight don't wrap, and such sums: of %o0 to %o5, %l0 and %l1 into %l2, and twice that into
# seven more.
SMALL_CELLS = [f".cell {it},0,1000,0" for it in [f"%g{number}" for number in range(1, 8)] + REGISTERS]
SMALL_CELLS += [f".cell slot {k},0,1000,0" for k in range(64 - len(SMALL_CELLS))]
SUMS = ["add %o0,%o1,%l2"] + [f"add %l2,{it},%l2" for it in ("%o2", "%o3", "%o4", "%o5", "%l0", "%l1")]
SUMS += [f"add %l2,%l2,{it}" for it in ("%l3", "%l4", "%l5", "%l6", "%l7", "%i0", "%i1")]


def straight(count):
    """A function of one block, of `count` times 16 words."""
    yield f".function main,leaf,0,0,{BUDGET}"
    yield f".fuel {BUDGET}"
    for _ in range(count - 1):
        yield from ROW + ROW_END
    yield from ROW + ROW_END[:2] + EXIT


def rows(count, annotations):
    """Blocks each of which ends with a branch to the last one, and that one."""
    for left in range(count - 2, -1, -1):
        yield f".block {'last' if left == 0 else f'b{left}'}"
        yield from annotations[0]
        yield f".fuel {64 * (left + 1)}"
        yield from annotations[1]
        yield from ROW + ["cmp %o0,7", "bne last", "add %o1,1,%o1"] if left else EXIT


def branches(count):
    """A leaf function of `count` blocks, whose branches' slots run both ways."""
    yield f".function main,leaf,0,0,{BUDGET}"
    yield f".fuel {BUDGET}"
    yield ROW[0]
    yield from rows(count, ([], []))


def cells(count):
    """The same with a frame, and with 64 cells and 8 terms in each block but the first, which makes each cell 0."""
    yield f".function main,framed,240,240,{BUDGET}"
    yield f".fuel {BUDGET}"
    yield "save %sp,-240,%sp"
    yield from (f"mov 0,{it}" for it in REGISTERS)
    yield from (f"st %g0,[%sp+{64 + 4 * k}]" for k in range(44))
    yield from rows(count, (CELLS, TERMS))


def calls(count):
    """`count` functions, each of which calls the next one and five times the last one."""
    for left in range(count - 1, 0, -1):
        yield f".function f{left},framed,96,{96 * left},{128 * left}"
        yield f".fuel {128 * left}"
        yield from ["save %sp,-96,%sp", f"call f{left - 1}", "nop"] + ["call f0", "nop"] * 5 + ["nop"]
        yield from EXIT if left == count - 1 else ["ret", "restore"]
    yield from [".function f0,leaf,0,0,8", ".fuel 8", "retl", "nop"]


def b3(count):
    """A leaf function of `count` blocks of three words, each of which goes to the next one both ways and knows
    nothing."""
    yield f".function main,leaf,0,0,{BUDGET}"
    for left in range(count - 1, -1, -1):
        yield from [f".block b{left}"] if left < count - 1 else []
        yield f".fuel {4 * (left + 1)}"
        yield from ["taddcc %g0,%g0,%g0", f"bne b{left - 1}", "nop"] if left else EXIT


def returning(count, frame, annotations, words):
    """Two functions of `count` blocks, all of the second one's but its first return after these words."""
    yield from [f".function main,framed,64,{64 + frame},10000", ".fuel 10000", "save %sp,-64,%sp", "call f", "nop",
                *EXIT]
    yield from [f".function f,framed,{frame},{frame},9000", ".fuel 9000", f"save %sp,-{frame},%sp", *EXIT]
    for number in range(count - 2):
        yield from [f".block b{number}", *annotations, ".fuel 100", *words, "ret", "restore"]


def returns(count):
    """Blocks of two words, of which RESTORE is one."""
    yield from returning(count, 64, [], [])


def retheavy(count):
    """The same with 64 cells and with sums of eight terms before they return."""
    yield from returning(count, 4096, SMALL_CELLS, SUMS)


# Of each shape how many of its parts the greatest image has, and the words of a quarter and of the whole.
SHAPES = {
    straight: (4096, 16384, 65536),
    branches: (4096, 15333, 61413),
    cells: (4096, 15397, 61477),
    calls: (256, 1010, 4082),
    b3: (4096, 3071, 12287),
    returns: (4096, 2052, 8196),
    retheavy: (4096, 16360, 65512),
}


def source_of(shape, parts):
    """The source of an image of that shape, of so many of its parts."""
    lines = [".services exit,get", ".stack 16", ".data", ".skip 8", ".text", *shape(parts)]
    return "".join(f"{line}\n" for line in lines)
