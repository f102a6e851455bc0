"""What words of code read and write, as sets of registers in the bits of a number, and where control goes behind
them."""

GLOBALS, OUTS, LOCALS, INS = 0x000000FE, 0x0000FF00, 0x00FF0000, 0xFF000000
ALL = GLOBALS | OUTS | LOCALS | INS
SETHI, BRANCH, CALL, ALWAYS = 4, 2, 1, 8
JUMP, TRAP, SAVE, RESTORE = 0x38, 0x3A, 0x3C, 0x3D
# Loads and stores by op3, and which of them move two registers.
LOADS, STORES, DOUBLES = {0, 1, 2, 3, 9, 10, 13, 15}, {4, 5, 6, 7}, {3, 7}
# Operations that write no register of the window: of Y, and a trap.
NO_RESULT = {0x30, 0x31, 0x32, 0x33, 0x3B}


def bit(register, count=1):
    """The set of a register, or of some from it on, without %g0."""
    return ((1 << count) - 1) << register & ALL


def fields(word):
    """The op, op3, rd, rs1 of a word, and whether its second operand is an immediate."""
    return word >> 30, word >> 19 & 63, word >> 25 & 31, word >> 14 & 31, word >> 13 & 1


def is_sethi(word):
    """Whether a word is a SETHI."""
    return word >> 30 == 0 and word >> 22 & 7 == SETHI


def is_branch(word):
    """Whether a word is a branch by condition codes."""
    return word >> 30 == 0 and word >> 22 & 7 == BRANCH


def is_call(word):
    """Whether a word is a CALL."""
    return word >> 30 == CALL


def is_jump(word):
    """Whether a word jumps to an address in a register, as a return does."""
    return word >> 30 == 2 and word >> 19 & 63 == JUMP


def has_slot(word):
    """Whether a delay slot stands behind a word."""
    return is_branch(word) or is_call(word) or is_jump(word)


def is_store(word):
    """Whether a word stores."""
    return word >> 30 == 3 and word >> 19 & 63 in STORES


def condition(word):
    """The condition of a branch."""
    return word >> 25 & 15


def is_annulling(word):
    """Whether a branch annuls its slot where it isn't taken; a branch always does so then where it is."""
    return word >> 29 & 1 == 1


def displacement(word):
    """How many bytes behind it a branch or a CALL goes to."""
    if is_call(word):
        return ((word & 0x3FFFFFFF) ^ 0x20000000) - 0x20000000 << 2
    return ((word & 0x3FFFFF) ^ 0x200000) - 0x200000 << 2


def written(word):
    """The registers that a word writes."""
    op, op3, rd, _, _ = fields(word)
    if op == 0:
        return bit(rd) if is_sethi(word) else 0
    if op == CALL:
        return bit(15)
    if op == 3:
        return bit(rd & ~1, 2) if op3 == 3 else bit(rd) if op3 in LOADS else 0
    if op3 == TRAP:
        return bit(8)
    return 0 if op3 in NO_RESULT else bit(rd)


def read(word):
    """The registers that a word reads."""
    op, op3, rd, rs1, has_immediate = fields(word)
    if op < 2:
        return 0
    if op == 2 and op3 == TRAP:
        return bit(8)
    found = bit(rs1) | (0 if has_immediate else bit(word & 31))
    if op == 3 and op3 in STORES:
        found |= bit(rd & ~1, 2) if op3 in DOUBLES else bit(rd)
    return found
