/* The calls of embed/leon/example from a system whose MMU is on, in a context of its own, twenty frames deep. */
#include <stdint.h>

int example(void);

static uint32_t contexts[256] __attribute__((aligned(1024))), regions[256] __attribute__((aligned(1024)));

/* Frames that keep a word in a register over the calls. */
static int deep(uint32_t left, uint32_t word)
{
    uint32_t own = word * 31 + left, kept = own;
    __asm__ volatile("" : "+r"(own));
    int ended = left ? deep(left - 1, own) : example();
    return ended || own != kept;
}

static void set_mmu(uint32_t place, uint32_t word)
{
    __asm__ volatile("sta %0, [%1] 0x19; nop; nop; nop; nop" : : "r"(word), "r"(place) : "memory");
}

int main(void)
{
    /* each 16 MB are mapped to themselves, for the supervisor: ACC 7 */
    for (uint32_t k = 0; k < 256; k++) regions[k] = k << 20 | 7 << 2 | 2;
    contexts[3] = (uint32_t)(uintptr_t)regions >> 4 | 1;
    set_mmu(0x100, (uint32_t)(uintptr_t)contexts >> 4);
    set_mmu(0x200, 3);
    set_mmu(0, 1);
    return deep(20, 1);
}
