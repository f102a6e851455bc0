/* Answers requests by an image that a stranger wrote: filter IMG [engine] < REQUESTS
   Each line of standard input is a request, and standard output takes a line for each. The image is checked once; each run of it
   has a line as its input, 100,000 turns and 4,096 bytes of output at most. With `engine` no board is made for it. */
#include "geyserpan.h"
#include <stdio.h>
#include <string.h>

static uint8_t image[4 << 20];

static int refuse(uint32_t status, const geyserpan_why *why)
{
    uint8_t text[96];
    size_t length = geyserpan_why_text(status, why, text, sizeof text);
    fprintf(stderr, "filter: %.*s\n", (int)length, (const char *)text);
    return 2;
}

typedef uint32_t run_call(geyserpan_image *, const uint8_t *, size_t, uint8_t *, size_t, geyserpan_report *);

static int answer_all(geyserpan_image *kept, run_call *run)
{
    static const geyserpan_why none;
    static uint8_t room[4096];
    static char line[65536];
    geyserpan_report report;
    while (fgets(line, sizeof line, stdin)) {
        uint32_t status = run(kept, (const uint8_t *)line, strcspn(line, "\n"), room, sizeof room, &report);
        if (status != GEYSERPAN_OK)
            return refuse(status, &none);
        fwrite(room, 1, report.output, stdout);
        putchar('\n');
    }
    return fflush(stdout) ? 4 : 0;
}

int main(int count, char **words)
{
    if (count < 2 || geyserpan_abi() != GEYSERPAN_ABI)
        return 3;
    FILE *file = fopen(words[1], "rb");
    if (!file)
        return 4;
    size_t length = fread(image, 1, sizeof image, file);
    fclose(file);

    geyserpan_terms terms = { 100000, 4096, GEYSERPAN_EXIT | GEYSERPAN_GET | GEYSERPAN_PUT, 8 };
    geyserpan_why why = { 0, 0, 0 };
    geyserpan_image kept;
    if (geyserpan_image_new(&kept) != GEYSERPAN_OK)
        return 5;
    uint32_t status = geyserpan_open(&kept, image, length, &terms, &why);
    run_call *run = count > 2 && !strcmp(words[2], "engine") ? geyserpan_engine_run : geyserpan_run_image;
    int ended = status == GEYSERPAN_OK ? answer_all(&kept, run) : refuse(status, &why);
    geyserpan_image_free(kept);
    return ended;
}
