"""The page tables of a loaded image, as docs/machine/profile.md has them ("Loaded memory")."""
CODE, DATA, STACK, TRAP_TABLE, HANDLERS, DEVICE = 0x40000, 0x80000, 0xC0000, 0xF0000000, 0xF0001000, 0xF0010000
PAGE, PAGES = 4096, 64
REFERENCED, MODIFIED, ACCESS = 0x20, 0x40, 0x1C

# By the address of the first page: where the entries of the pages of code, data and stack stand, and the first of
# them.
TABLES = {CODE: (0x2A00, 0x1012), DATA: (0x2B00, 0x5006), STACK: (0x2C00, 0x6006)}
SYSTEM = {TRAP_TABLE: 0x2D00, HANDLERS: 0x2D04, DEVICE: 0x2D40}
SYSTEM_WORDS = {0x2D00: 0x1A, 0x2D04: 0x11A, 0x2D40: 0x1000001E}
DESCRIPTORS = {0x2000: 0x241, 0x2400: 0x281, 0x27C0: 0x291, 0x2804: 0x2A1, 0x2808: 0x2B1, 0x280C: 0x2C1, 0x2900: 0x2D1}


def entry(address):
    """The place of the entry that maps a page, and its word where the page may be written and has no mark."""
    page = address & -PAGE
    if page in SYSTEM:
        return SYSTEM[page], SYSTEM_WORDS[SYSTEM[page]]
    start = max(it for it in TABLES if it <= page)
    (table, first), number = TABLES[start], (page - start) // PAGE
    return table + 4 * number, first + 0x100 * number


def table_words(words, regions, stack):
    """The words of the tables that aren't 0, by place: of an image with so many words, these regions (address, bytes,
    may be written) and pages of stack."""
    found = {**DESCRIPTORS, **SYSTEM_WORDS}
    found.update(entry(it) for it in range(CODE, CODE + 4 * words, PAGE))
    found.update(entry(STACK + PAGE * it) for it in range(PAGES - stack, PAGES))
    for address, size, writable in regions:
        for page in range(address, address + size, PAGE):
            place, word = entry(page)
            found[place] = word if writable else word & ~ACCESS
    return found
