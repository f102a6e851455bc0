/* What tools/board-suite makes a program of: it runs accepted images on the inputs that are stored with their outputs
   and exit words, single instructions with their results, and turns of user code with the states before and after, and
   tells over the UART what came: the first differences, and `N passed, M failed`. */
#include "../geyserpan_leon.h"

/* Where the megabyte of the images lies, and places there. */
#ifndef SUITE_IMAGE
#define SUITE_IMAGE 0x41000000u
#endif
enum { HALT = 0x118C, CODE_TABLE = 0x2A00, DATA_TABLE = 0x2B00, TABLES_END = 0x2D00, CODE = 0x10000, DATA = 0x50000,
       PAGE = 4096, SIZE = 0x100000, TOLD = 10 };
#define TA_0 0x91D02000u

/* The turns' tables, in the same megabyte: those of contexts, and of the first level. */
enum { CONTEXTS = 0x1000, REGIONS = 0x1400 };
#define OWN_REGION ((uint32_t)(uintptr_t)suite_turn >> 24)
/* The bits of PSR that a turn is compared by: codes, S, PS, ET and CWP. */
#define PSR_BITS 0x00F000FFu

/* An instruction `OP %o0,%o1,%o2` with its operands, codes and Y, and what came of it (results.s). */
struct suite_result {
    uint32_t word, first, second, codes, y, value, codes_after, y_after;
};
void suite_run(struct suite_result *result);

/* A state around a turn (turns.s). Before it PSR has the codes of the turn, and the window below its own, and that
   window's %l1 and %l2 are PC and nPC. Behind it, it is the state in which the trap's handler begins. The registers are
   the globals, and then of each window outs and locals. */
struct suite_state {
    uint32_t psr, wim, y, tbr, registers[8 + 16 * 32];
};
void suite_turn(struct suite_state *state, uint32_t table);

/* The stored runs, results and turns, as words: tools/board-suite and tools/board_turns.py tell the form. */
extern const uint32_t suite_data[];

static volatile uint32_t *const uart = (volatile uint32_t *)0x80000100u;
static uint32_t room[64 * 1024], passed, failed;

static void put(uint8_t byte)
{
    while (!(uart[1] & 4)) continue;
    uart[0] = byte;
}

static void put_text(const char *text)
{
    while (*text) put((uint8_t)*text++);
}

static void put_word(uint32_t word)
{
    for (int shift = 28; shift >= 0; shift -= 4) put((uint8_t)"0123456789ABCDEF"[word >> shift & 15]);
}

static void put_decimal(uint32_t number)
{
    if (number > 9) put_decimal(number / 10);
    put((uint8_t)('0' + number % 10));
}

/* Counts a check; of the first ones that fail their words are told: what it was, what was wanted, what came. */
static void check(const char *name, uint32_t number, uint32_t wanted, uint32_t came)
{
    if (wanted == came) {
        passed++;
        return;
    }
    if (failed++ >= TOLD) return;
    put_text(name), put(' '), put_decimal(number), put_text(": wanted "), put_word(wanted), put_text(", came ");
    put_word(came), put_text("\r\n");
}

static volatile uint32_t *at(uint32_t place)
{
    return (volatile uint32_t *)(uintptr_t)(SUITE_IMAGE + place);
}

static void clear(uint32_t place, uint32_t bytes)
{
    for (uint32_t k = 0; k < bytes / 4; k++) at(place)[k] = 0;
}

/* Clears the pages that a table's entries name, from a place on. */
static void clear_pages(uint32_t table, uint32_t place)
{
    for (uint32_t k = 0; k < 64; k++)
        if (at(table)[k]) clear(place + PAGE * k, PAGE);
}

/* Lays the next image, whose words stand in pieces; what follows them. */
static const uint32_t *lay(const uint32_t *next)
{
    uint32_t pieces = *next++;
    *at(HALT) = TA_0;
    clear_pages(CODE_TABLE, CODE);
    clear_pages(DATA_TABLE, DATA);
    clear(CODE_TABLE, TABLES_END - CODE_TABLE);
    while (pieces--) {
        uint32_t place = next[0], count = next[1];
        for (uint32_t k = 0; k < count; k++) at(place)[k] = next[2 + k];
        next += 2 + count;
    }
    return next;
}

/* A sum of bytes in which their order counts. */
static uint32_t sum_of(const uint8_t *bytes, size_t count)
{
    uint32_t sum = 0;
    while (count--) sum = sum * 31 + *bytes++;
    return sum;
}

/* Runs the stored runs of an image; what follows them. A run is one check: how it ended, its exit word and output. */
static const uint32_t *runs_of(const uint32_t *next, uint32_t *number)
{
    struct geyserpan_leon image;
    struct geyserpan_leon_run run;
    uint32_t runs = *next++;
    int told = geyserpan_leon_open(&image, SUITE_IMAGE, room, sizeof room);
    while (runs--) {
        uint32_t word = next[0], input = next[1], output = next[2];
        const uint32_t *given = next + 3, *wanted = given + (input + 3) / 4;
        next = wanted + (output + 3) / 4;
        int ended = told ? 0 : geyserpan_leon_call(&image, given, input, &run);
        if (told) check("open of run", *number, 0, (uint32_t)told);
        else if (ended != GEYSERPAN_LEON_EXITED) check("end of run", *number, GEYSERPAN_LEON_EXITED, (uint32_t)ended);
        else if (run.word != word) check("exit word of run", *number, word, run.word);
        else if (run.output_bytes != output) check("bytes of output of run", *number, output, run.output_bytes);
        else check("output of run", *number, sum_of((const uint8_t *)wanted, output), sum_of(run.output, output));
        ++*number;
    }
    return next;
}

/* Runs the stored results; what follows them. Each is one check: value, codes and Y. */
static const uint32_t *results_of(const uint32_t *next)
{
    uint32_t count = *next++;
    for (uint32_t number = 0; number < count; number++, next += 8) {
        struct suite_result result = {next[0], next[1], next[2], next[3], next[4], 0, 0, 0};
        suite_run(&result);
        if (result.value != next[5]) check("value of result", number, next[5], result.value);
        else if (result.codes_after != next[6]) check("codes of result", number, next[6], result.codes_after);
        else check("Y of result", number, next[7], result.y_after);
    }
    return next;
}

/* Lays the words of memory that each turn begins with, and the entry of this program's own 16 MB: ACC 7. */
static void lay_ground(const uint32_t *ground)
{
    for (uint32_t k = 0; k < *ground; k++) *at(ground[1 + 2 * k]) = ground[2 + 2 * k];
    at(REGIONS)[OWN_REGION] = OWN_REGION << 20 | 7 << 2 | 2;
}

/* What a register is called: two of the trap's window, PC and nPC, or any other. */
static const char *name_of(uint32_t local)
{
    return local == 1 ? "PC behind turn" : local == 2 ? "nPC behind turn" : "register behind turn";
}

/* Counts a turn as one check. %l0, %l3 and %l4 of the trap's window are its handler's own. `words` are words of memory,
   each a place, what it begins with, and what it has to be. */
static void check_turn(uint32_t number, const struct suite_state *wanted, const struct suite_state *came,
                       const uint32_t *words, uint32_t count)
{
    uint32_t psr = came->psr & PSR_BITS, trap = came->tbr & 0xFF0, locals = 8 + 16 * (wanted->psr & 31) + 8;
    if (wanted->tbr != trap) return check("trap behind turn", number, wanted->tbr, trap);
    if (wanted->psr != psr) return check("PSR behind turn", number, wanted->psr, psr);
    if (wanted->wim != came->wim) return check("WIM behind turn", number, wanted->wim, came->wim);
    for (uint32_t k = 1; k < sizeof wanted->registers / 4; k++)
        if (wanted->registers[k] != came->registers[k] && k != locals && k != locals + 3 && k != locals + 4)
            return check(name_of(k - locals), number, wanted->registers[k], came->registers[k]);
    for (; count--; words += 3)
        if (*at(words[0]) != words[2]) return check("memory behind turn", number, words[2], *at(words[0]));
    check("Y behind turn", number, wanted->y, came->y);
}

/* Writes registers, each a number and a word; what follows them. */
static const uint32_t *set_registers(struct suite_state *state, const uint32_t *next)
{
    uint32_t count = *next++;
    for (; count--; next += 2) state->registers[next[0]] = next[1];
    return next;
}

/* Does a turn; what follows it. */
static const uint32_t *turn_of(const uint32_t *next, const uint32_t *ground)
{
    static struct suite_state state __attribute__((aligned(8))), wanted;
    uint32_t number = next[0];
    for (uint32_t k = 0; k < sizeof state.registers / 4; k++) state.registers[k] = wanted.registers[k] = 0;
    state.psr = next[1], state.wim = next[2], state.y = next[3];
    wanted.psr = next[4], wanted.wim = next[5], wanted.y = next[6], wanted.tbr = next[7];
    set_registers(&state, next + 8);
    const uint32_t *words = set_registers(&wanted, set_registers(&wanted, next + 8));
    uint32_t count = *words++;
    for (uint32_t k = 0; k < count; k++) *at(words[3 * k]) = words[3 * k + 1];
    suite_turn(&state, (SUITE_IMAGE + CONTEXTS) >> 4);
    check_turn(number, &wanted, &state, words, count);
    for (uint32_t k = 0; k < count; k++) *at(words[3 * k]) = 0;
    lay_ground(ground);
    return words + 3 * count;
}

static uint32_t windows(void)
{
    uint32_t word;
    __asm__ volatile("rd %%asr17, %0" : "=r"(word));
    return (word & 31) + 1;
}

/* Does the stored turns, which are made for one count of windows. Behind them all memory but the ground is 0 again. */
static void turns_of(const uint32_t *next)
{
    uint32_t made_for = *next++;
    const uint32_t *ground = next;
    next += 1 + 2 * *ground;
    uint32_t turns = *next++;
    if (made_for != windows()) {
        while (turns--) check("windows of turn", 0, made_for, windows());
        return;
    }
    clear(0, SIZE);
    lay_ground(ground);
    while (turns--) next = turn_of(next, ground);
    for (uint32_t k = 0; k < *ground; k++) *at(ground[1 + 2 * k]) = 0;
    at(REGIONS)[OWN_REGION] = 0;
    for (uint32_t place = 0; place < SIZE; place += 4)
        if (*at(place)) check("memory behind all turns, at", place, 0, *at(place));
}

int main(void)
{
    const uint32_t *next = suite_data;
    uint32_t images = *next++, number = 0;
    while (images--) next = runs_of(lay(next), &number);
    turns_of(results_of(next));
    put_decimal(passed), put_text(" passed, "), put_decimal(failed), put_text(" failed\r\n");
    return failed != 0;
}
