#include "plug.h"
/* 16-bit big-endian samples through a 31-tap low pass in Q15. */
#define TAPS 31
static const short tap[TAPS] = { -13, -24, -30, 0, 84, 205, 287, 224, -79, -602, -1133, -1276, -560, 1196, 3700, 6174, 7700,
    6174, 3700, 1196, -560, -1276, -1133, -602, -79, 224, 287, 205, 84, 0, -30 };
static short line[TAPS];
static int at;
static int filter(short s) {
    int acc = 1 << 14, k = at;
    line[at] = s;
    for (int i = 0; i < TAPS; i++) {
        acc += tap[i] * line[k];
        if (--k < 0) k = TAPS - 1;
    }
    if (++at == TAPS) at = 0;
    acc >>= 15;
    if (acc > 32767) acc = 32767;
    if (acc < -32768) acc = -32768;
    return acc;
}
int main(void) {
    int hi, lo;
    while ((hi = get()) >= 0 && (lo = get()) >= 0) {
        int y = filter((short)(hi << 8 | lo));
        put(y >> 8);
        put(y);
    }
    return 0;
}
