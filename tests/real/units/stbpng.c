/* PNG unpacked (stb_image). */
#define IN_MAX 8192
#define STB_IMAGE_IMPLEMENTATION
#define STBI_ONLY_PNG
#define STBI_NO_STDIO
#define STBI_NO_LINEAR
#define STBI_NO_HDR
#define STBI_NO_THREAD_LOCALS
#define STBI_NO_SIMD
#include "unit.h"
#include "stb_image.h"
int main(void) {
    int n = read_input(), w, h, c;
    unsigned char *p = stbi_load_from_memory(in, n, &w, &h, &c, 4);
    if (!p) return 1;
    put_word(w);
    put_word(h);
    put_bytes(p, w * h * 4);
    return 0;
}
