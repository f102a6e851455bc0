/* The last letters of all turns of a block in their order, which is what bzip2 packs. */
#include "unit.h"
#include "bzlib_private.h"
void BZ2_bz__AssertH__fail(int code) { exit(code); }
static EState s;
static UInt32 first[9100], second[9100 + BZ_N_OVERSHOOT], third[2100];
int main(void) {
    int n = read_input();
    if (n > 9000) n = 9000;
    s.arr1 = first;
    s.arr2 = second;
    s.ftab = third;
    s.block = (UChar *)s.arr2;
    s.ptr = s.arr1;
    s.workFactor = 30;
    s.nblock = n;
    memcpy(s.block, in, n);
    if (n) BZ2_blockSort(&s);
    for (int i = 0; i < n; i++) put(in[(s.ptr[i] + n - 1) % n]);
    put_word(s.origPtr);
    return 0;
}
