#include "geyserpan_leon.h"

/* Places in the image's megabyte, from its base on (`./board --map` tells them). */
enum {
    HALT = 0x118C,          /* `ta 0` at the end of the services' routines, and a nop */
    CONTEXT_TABLE = 0x2000,
    DATA_TABLE = 0x2B00,    /* 64 entries of the data's pages */
    BOOT_TABLE = 0x3000,    /* the stub's tables */
    BOOT_REGIONS = 0x3400,
    STUB = 0x4000,
    COMPARES = STUB + 4 * 14, /* the stub's `cmp %g1,0x100+N-1` */
    KEPT = 0x5000,          /* what enter.s keeps of the system */
    DATA = 0x50000,
    MAIL = 0xA0000,
    RETURN = MAIL + 0x40,   /* behind the mailbox's words */
    INPUT = 0xC0000,
    OUTPUT = 0xE0000,
    PAGE = 4096
};

/* The supervisor's addresses of the buffers, and of the words `jmpl %l2; rett %l2+4`. */
#define SEEN_INPUT 0xF0040000u
#define SEEN_OUTPUT 0xF0060000u
#define SEEN_END 0xF0080000u
#define LEAVE 0xF0001140u

#define TA_0 0x91D02000u
#define JMP_RETURN 0x81C4E040u /* jmp %l3+0x40: %l3 has the mailbox's address */
#define COMPARES_4 0x80A06103u /* cmp %g1,0x103 */

/* The mailbox's words, by their numbers. The last three are read by the words of enter.s that lie behind them. */
enum { NEXT_INPUT, INPUT_END, NEXT_OUTPUT, OUTPUT_END, STATUS, WORD, PC, NPC, KEPT_AT = 12, TABLE_AT, BACK_AT };

/* What enter.s takes from the first words of KEPT. */
enum { TO_TABLE, TO_IMAGE, TO_LEAVE };

/* enter.s: runs what is set up, from the place of KEPT; where the mailbox's words lead back to; and those words. */
void geyserpan_leon_enter(volatile uint32_t *kept);
extern const uint32_t geyserpan_leon_back[], geyserpan_leon_return[], geyserpan_leon_return_end[];

static volatile uint32_t *at(uint32_t base, uint32_t place)
{
    return (volatile uint32_t *)(uintptr_t)(base + place);
}

static void copy(volatile uint32_t *to, const volatile uint32_t *from, size_t bytes)
{
    for (size_t k = 0; k < bytes / 4; k++) to[k] = from[k];
}

size_t geyserpan_leon_data_bytes(uint32_t base)
{
    size_t pages = 0;
    while (pages < 64 && at(base, DATA_TABLE)[pages]) pages++;
    return pages * PAGE;
}

static uint32_t windows(void)
{
    uint32_t word;
    __asm__ volatile("rd %%asr17, %0" : "=r"(word));
    return (word & 31) + 1;
}

int geyserpan_leon_open(struct geyserpan_leon *image, uint32_t base, uint32_t *room, size_t room_bytes)
{
    volatile uint32_t *halt = at(base, HALT), *kept = at(base, KEPT), *mail = at(base, MAIL);
    size_t bytes = geyserpan_leon_data_bytes(base);
    uint32_t text = (uint32_t)(uintptr_t)geyserpan_leon_enter >> 24;
    if (base % 0x1000000 || halt[0] != TA_0) return GEYSERPAN_LEON_OTHER;
    if (*at(base, COMPARES) - COMPARES_4 != windows() - 4) return GEYSERPAN_LEON_WINDOWS;
    if (room_bytes < bytes) return GEYSERPAN_LEON_SMALL;
    copy(room, at(base, DATA), bytes);
    halt[0] = JMP_RETURN;
    copy(at(base, RETURN), geyserpan_leon_return,
         (size_t)((uintptr_t)geyserpan_leon_return_end - (uintptr_t)geyserpan_leon_return));
    /* the stub's tables map the 16 MB of enter.s to themselves too, for the supervisor: ACC 7 */
    at(base, BOOT_REGIONS)[text] = text << 20 | 7 << 2 | 2;
    kept[TO_TABLE] = mail[TABLE_AT] = (base + BOOT_TABLE) >> 4;
    kept[TO_IMAGE] = (base + CONTEXT_TABLE) >> 4;
    kept[TO_LEAVE] = LEAVE;
    mail[KEPT_AT] = base + KEPT;
    mail[BACK_AT] = (uint32_t)(uintptr_t)geyserpan_leon_back;
    *image = (struct geyserpan_leon){base, room, bytes};
    return 0;
}

int geyserpan_leon_call(const struct geyserpan_leon *image, const void *input, size_t input_bytes,
                        struct geyserpan_leon_run *run)
{
    volatile uint32_t *mail = at(image->base, MAIL);
    volatile uint8_t *to = (volatile uint8_t *)at(image->base, INPUT);
    if (input_bytes > GEYSERPAN_LEON_ROOM) return GEYSERPAN_LEON_INPUT;
    copy(at(image->base, DATA), image->data, image->data_bytes);
    for (size_t k = 0; k < input_bytes; k++) to[k] = ((const uint8_t *)input)[k];
    mail[NEXT_INPUT] = SEEN_INPUT, mail[INPUT_END] = SEEN_INPUT + (uint32_t)input_bytes;
    mail[NEXT_OUTPUT] = SEEN_OUTPUT, mail[OUTPUT_END] = SEEN_END;
    mail[STATUS] = 0;
    geyserpan_leon_enter(at(image->base, KEPT));
    run->word = mail[WORD], run->pc = mail[PC], run->npc = mail[NPC];
    run->output = (const uint8_t *)(uintptr_t)(image->base + OUTPUT);
    run->output_bytes = mail[NEXT_OUTPUT] - SEEN_OUTPUT;
    return (int)mail[STATUS];
}
