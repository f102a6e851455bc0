#include "plug.h"
/* A controller: of each reading (a byte) the mean of the last 16, a target that is reached in steps, and one byte of output, with a
   dead band around the target. */
struct filter { int ring[16]; int at, sum; };
static struct filter filter;
static int mean(struct filter *f, int reading) {
    f->sum += reading - f->ring[f->at];
    f->ring[f->at] = reading;
    f->at = (f->at + 1) & 15;
    return f->sum >> 4;
}
static int clamp(int v, int low, int high) { return v < low ? low : v > high ? high : v; }
int main(void) {
    int integral = 0, target = 100, c;
    while ((c = get()) >= 0) {
        int error = target - mean(&filter, c);
        if (error > -3 && error < 3) error = 0;
        integral = clamp(integral + error, -2000, 2000);
        put(clamp(128 + error * 3 / 4 + integral / 32, 0, 255));
        if (c == 255) target = clamp(target + 10, 50, 200);
    }
    return 0;
}
