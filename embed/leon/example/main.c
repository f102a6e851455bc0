/* Calls an image a thousand times on a LEON3, and tells over the UART what came: for each of the first calls its
   output, how it ended and the word, and of the rest how many gave the same. */
#include "../geyserpan_leon.h"

#define IMAGE 0x41000000u

static volatile uint32_t *const uart = (volatile uint32_t *)0x80000100u;

static void put(uint8_t byte)
{
    while (!(uart[1] & 4)) continue;
    uart[0] = byte;
}

static void put_text(const char *text)
{
    while (*text) put((uint8_t)*text++);
}

static void put_word(uint32_t word)
{
    for (int shift = 28; shift >= 0; shift -= 4) put((uint8_t)"0123456789ABCDEF"[word >> shift & 15]);
}

/* What a run gave, as two words: its end and exit word, and a sum of its output. */
static uint32_t sum_of(int told, const struct geyserpan_leon_run *run)
{
    uint32_t sum = run->word * 31 + (uint32_t)told;
    for (size_t k = 0; k < run->output_bytes; k++) sum = sum * 31 + run->output[k];
    return sum;
}

static uint32_t room[64 * 1024];

/* Four inputs. */
static const struct { const char *text; size_t bytes; } inputs[] = {
    {"", 0}, {"a", 1}, {"Hello, LEON\n", 12}, {"the quick brown fox jumps over the lazy dog", 43},
};

int main(void)
{
    struct geyserpan_leon image;
    struct geyserpan_leon_run run;
    uint32_t sums[4], same = 0;
    int told = geyserpan_leon_open(&image, IMAGE, room, sizeof room);
    if (told) {
        put_text("open: "), put_word((uint32_t)told), put_text("\n");
        return 1;
    }
    for (int k = 0; k < 4; k++) {
        told = geyserpan_leon_call(&image, inputs[k].text, inputs[k].bytes, &run);
        sums[k] = sum_of(told, &run);
        put_word(run.output_bytes), put_text(" ");
        for (size_t j = 0; j < run.output_bytes; j++) put(run.output[j]);
        put_text("\nend "), put_word((uint32_t)told), put_text(" word "), put_word(run.word), put_text("\n");
    }
    for (int k = 4; k < 1000; k++) {
        told = geyserpan_leon_call(&image, inputs[k % 4].text, inputs[k % 4].bytes, &run);
        same += sum_of(told, &run) == sums[k % 4];
    }
    put_text("same "), put_word(same), put_text("\n");
    return 0;
}
