/* refused: an instruction that sandboxed code may not have */
#include "plug.h"
int main(void) { int state; __asm__ volatile("rd %%psr, %0" : "=r"(state)); put(state); return 0; }
