/* The three services under qemu's user mode, beside start.c. */
#include "plug.h"

void finish(int status) __attribute__((noreturn));
long system_read(void *to, long size);
void system_write(const void *from, long size);

static unsigned char input[4096], output[4096];
static long input_at, input_end, output_end;

int get(void) {
    if (input_at == input_end) {
        input_at = 0;
        input_end = system_read(input, sizeof input);
        if (input_end <= 0) {
            input_end = 0;
            return -1;
        }
    }
    return input[input_at++];
}

void put(int c) {
    output[output_end++] = (unsigned char)c;
    if (output_end == sizeof output) system_write(output, output_end), output_end = 0;
}

void quit(int word) {
    system_write(output, output_end);
    finish(word != 0);
}
