"""Sources of a few lines, by name, and inputs."""

SOURCES = {
    "beside.c": """#include "plug.h"
char name[32];
int main(void) {
    int k = get() & 31;
    name[k + 1] = get();
    put(name[get() & 31]);
    return 0;
}
""",
    "library.c": "#include <stdio.h>\n#include <stdlib.h>\n#include <string.h>\n"
    "static int by_value(const void *a, const void *b) { return *(const int *)a - *(const int *)b; }\n"
    "int main(void) {\n    int value[9], n = 0;\n    char text[20];\n"
    '    while (n < 9 && scanf("%d", &value[n]) == 1) n++;\n'
    "    qsort(value, n, sizeof *value, by_value);\n"
    '    for (int i = 0; i < n; i++) printf("%d ", value[i]);\n'
    '    snprintf(text, sizeof text, "%05d|%x", n, 255);\n    puts(text);\n'
    "    return strlen(text) == 8 ? 0 : 1;\n}\n",
    "limits.c": '#include "plug.h"\n'
    + "".join(f"#include <{it}.h>\n"
              for it in "limits float iso646 stdalign stdarg stdbool stddef stdint stdnoreturn".split())
    + "int main(void) { put(INT_MAX == 2147483647 and SCHAR_MIN == -128 ? 65 : 66); return 0; }\n",
    "one.c": '#include "plug.h"\nint twice(int c) { return c * FACTOR; }\n',
    "two.c": '#include "plug.h"\nint twice(int c);\nint main(void) { put(twice(33)); return 0; }\n',
    "ends.c": '#include <stdio.h>\n#include <stdlib.h>\nstatic void last(void) { puts(" at exit"); }\n'
    '__attribute__((constructor)) static void first(void) { fputs("before ", stdout); }\n'
    'int main(void) { atexit(last); fputs("main,", stdout); return 0; }\n',
    "words.c": "#include <stdio.h>\nint main(int argc, char **argv) {\n"
    '    printf("%d %s %d\\n", argc, argv[0], argv[1] == NULL);\n    return 0;\n}\n',
    "trap.c": "#include <stdio.h>\nint main(void) { if (getchar() == 'a') __builtin_trap(); return 0; }\n",
    "seven.c": "#include <stdio.h>\nint main(void) {\n    for (int c; (c = getchar()) >= 0;) putchar(c);\n"
    "    return 7;\n}\n",
    "deep.c": "volatile int depth = 400;\nstatic int down(int n) { return n ? 1 + down(n - 1) : 0; }\n"
    "int main(void) { return down(depth) != 400; }\n",
    "heap.c": "#include <stdlib.h>\nint main(void) {\n    volatile char *p = malloc(100000);\n"
    "    if (!p) return 2;\n    p[99999] = 1;\n    return 0;\n}\n",
    "within.c": "#include <stdio.h>\n#include <stdlib.h>\nstatic int *list;\nint main(void) {\n    int at;\n"
    "    list = calloc(3, sizeof *list);\n    list[1] = 4;\n"
    '    while (scanf("%d", &at) == 1)\n        printf("%d\\n",\n               8 / list[at]);\n'
    '    fprintf(stderr, "done\\n");\n    return 0;\n}\n',
    "dense.c": "#include <stdio.h>\n#include <stdlib.h>\nstatic int *list;\n"
    "__attribute__((noinline)) static int part(int of, int at) { return of / list[at]; }\n"
    "int main(void) {\n    int at;\n    list = calloc(3, sizeof *list);\n    list[1] = 4;\n"
    '    while (scanf("%d", &at) == 1) printf("%d\\n", part(8, at));\n    return 0;\n}\n',
    "quick.c": "#include <stdlib.h>\n#include <unistd.h>\nstatic void last(void) { write(1, \"never\", 5); }\n"
    "int main(void) { atexit(last); write(1, \"now\", 3); _exit(4); }\n",
    "bare.c": "int main(void) {\n    return 7;\n}\n",
    "flip.c": '#include "plug.h"\nint main(void) {\n    for (int c; (c = get()) >= 0;) put(c ^ 32);\n'
    "    return 0;\n}\n",
    "peek.c": '#include "plug.h"\nint main(void) {\n    unsigned at = 0;\n'
    "    for (int c; (c = get()) >= 0;) at = at << 8 | c;\n    put(*(volatile unsigned char *)AT);\n    return 0;\n}\n",
    "poke.c": '#include "plug.h"\nint main(void) {\n    unsigned at = 0;\n'
    "    for (int c; (c = get()) >= 0;) at = at << 8 | c;\n    *(volatile int *)AT = 7;\n    return 0;\n}\n",
    "digits.c": '#include "plug.h"\nstatic const char digits[16] = "0123456789ABCDEF";\nint main(void) {\n'
    "    unsigned at = 0;\n    for (int c; (c = get()) >= 0; at = at << 8 | c) put(digits[c & 15]);\n"
    "    *(volatile char *)at = 7;\n    return 0;\n}\n",
    "unused.c": "int main(void) { int unused; return 0; }\n",
    "given.c": '#include <stdio.h>\nint main(void) { printf("%d\\n", GIVEN); return INNER + GIVEN - 3; }\n',
    "given.h": "#define GIVEN three\n#include <inner.h>\n",
    "folder/inner.h": "#define INNER 0\n",
    "notes.c": '#include "plug.h"\nstatic char table[8];\n'
    "__attribute__((noinline)) static void first(int i) {\n"
    "    table[i] = 1;\n    table[i * 3] = 2;\n    table[i * 5] = 3;\n    table[i * 7] = 4;\n    table[i * 9] = 5;\n"
    "    table[i * 11] = 6;\n    table[i * 13] = 7;\n}\n"
    "__attribute__((noinline)) static void second(int i) {\n"
    "    table[i + 1] = 1;\n    table[i * 3 + 1] = 2;\n    table[i * 5 + 1] = 3;\n    table[i * 7 + 1] = 4;\n"
    "    table[i * 9 + 1] = 5;\n    table[i * 11 + 1] = 6;\n    table[i * 13 + 1] = 7;\n}\n"
    "int main(void) { first(get()); second(get()); put(table[get() & 7]); return 0; }\n",
    "told.c": "#include <stdio.h>\n/* stderr */\nint main(void) {\n    int c = getchar();\n"
    '    if (c < 0) perror("stderr");\n    return 0;\n}\n',
    "cell.c": "#include <math.h>\n#include <stdio.h>\nint main(void) {\n    double x;\n"
    '    while (scanf("%lf", &x) == 1)\n'
    '        printf("%d %lld %d\\n", (int)floor(x), (long long)ceil(x * 4), (int)floorf((float)x + 0.5f));\n'
    "    return 0;\n}\n",
    "size.c": "#include <stdio.h>\nint main(void) {\n#ifndef QUIET\n"
    '    printf("%d\\n", (int)sizeof(long));\n#endif\n    return sizeof(long);\n}\n',
    "size.in": "",
    "inputs/one": "1",
    "inputs/two": "2",
}
# The same functions with their names at the begin of a line, as they were written once.
SOURCES["old.c"] = SOURCES["notes.c"].replace("static void first(int i) {", "static void\nfirst(i)\n    int i;\n{") \
    .replace("static void second(int i) {", "static void\nsecond (int i)\n{")

# Three of the programs as one, of which the first byte of the input chooses.
THREE = """#define main json
#include "FOLDER/json.c"
#undef main
#define main machine
#include "FOLDER/machine.c"
#undef main
#define main puzzles
#include "FOLDER/puzzles.c"
#undef main

int main(void) {
    int c = getchar();
    return c == 'j' ? json() : c == 'm' ? machine() : puzzles();
}
"""
