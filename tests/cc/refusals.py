"""What ./cc refuses, and a part of the line that says so: sources of a few lines, by name."""

# A source, and what is told of it; the status is 2.
REFUSED = {
    "hours.c": ("#include <time.h>\nint main(void) { return 0; }\n",
                "hours.c:1:\n<time.h> is not here: a program of a sandbox has no clock; pass what it needs in its "
                "input"),
    "moment.c": ("#include <sys/time.h>\nint main(void) { return 0; }\n",
                 "moment.c:1:\n<sys/time.h> is not here: a program of a sandbox has no clock"),
    "threads.c": ("#include <pthread.h>\nint main(void) { return 0; }\n",
                  "<pthread.h> is not here: a program of a sandbox is one thread"),
    "child.c": ("#include <unistd.h>\nint main(void) { return fork(); }\n",
                "child.c:2:25: error: call to ‘fork’ declared with attribute error: a program of a sandbox has no "
                "operating system: leave it out"),
    "signals.c": ("#include <signal.h>\nint main(void) { raise(SIGINT); return 0; }\n",
                  "there are no signals here: call abort or exit"),
    "missing.c": ("int missing(int);\nint main(void) { return missing(3); }\n",
                  "missing.c:2: refused: missing isn't defined: it is neither in the sources that are named nor in the "
                  "library: name its source"),
    "natural.c": ("#include <math.h>\nstatic volatile double x = 2;\nint main(void) { return (int)log(x); }\n",
                  "natural.c:3: refused: log isn't defined: it is neither in the sources that are named nor in the "
                  "library: name its source"),
    "inline.c": ('int main(void) { __asm__ volatile("rdpr %tick, %g1"); return 0; }\n',
                 "inline.c:1: refused: main: inline assembly isn't taken: write it in C"),
    "taken.c": ('int main(void) { __asm__ volatile("ta 3"); return 0; }\n',
                "taken.c:1: refused: main: an instruction that sandboxed code may not have: inline assembly isn't "
                "taken: write it in C"),
    "none.c": ("int start(void) { return 0; }\n",
               "refused: there is no function main: one of the sources has to have it"),
    "large.c": ('#include "plug.h"\nstatic char table[300000];\n'
                "int main(void) { table[get() * 1000] = 1; put(table[get()]); return 0; }\n",
                "more than 262144 bytes of data: write smaller tables"),
    "last.c": ('#include "plug.h"\n__attribute__((destructor)) static void last(void) { put(65); }\n'
               "int main(void) { return 0; }\n",
               "an __attribute__((destructor)) isn't taken: tell atexit of the function"),
    "inside.c": ("int called(int (*how)(int)) { return how(3); }\nint main(int count, char **words) {\n"
                 "    int more(int by) { return by + count; }\n    return called(more);\n}\n",
                 "a pointer to a function that stands in another one isn't taken: write it outside of it"),
    "distance.c": ("#include <stdio.h>\nint main(void) {\n    static const int to[] = {&&one - &&one, &&two - &&one};\n"
                   "    goto *(&&one + to[getchar() & 1]);\none:\n    puts(\"one\");\ntwo:\n    return 0;\n}\n",
                   "refused: main: a distance between labels isn't taken: have a table of their addresses, &&name"),
    "wrong.c": ("int main(void) { return x; }\n", "wrong.c:1:25: error: ‘x’ undeclared"),
}

# The same by clang.
REFUSED_CLANG = {
    "product.c": ("#include <stdio.h>\nint main(void) {\n    long long a, b;\n"
                  "    if (scanf(\"%lld%lld\", &a, &b) != 2) return 1;\n"
                  "    return __builtin_mul_overflow(a, b, &a);\n}\n",
                  "product.c:5: refused: __multi3 isn't defined: clang calls it for a product of 64 bits with a test of "
                  "overflow: compare before the product, or compile by gcc"),
}

# The same of C++.
REFUSED_PLUS = {
    "stream.cc": ("#include <iostream>\nint main() { std::cout << 1; }\n",
                  "<iostream> is not here: there are no streams of C++: print by printf"),
    "thrown.cc": ("int main() { throw 1; }\n", "exception handling disabled"),
    "type.cc": ("#include <typeinfo>\nstruct S { virtual ~S() {} };\n"
                "int main() { S s; return typeid(s).name()[0]; }\n", "cannot use ‘typeid’ with ‘-fno-rtti’"),
    "own.cc": ("#include <cstdio>\nthread_local int own;\nint main() { own += std::getchar(); return own; }\n",
               "own.cc:3: refused: the operands of sethi can't be read: neither thread_local of C++ nor inline "
               "assembly is taken"),
    "threads.cc": ("#include <thread>\nint main() { return 0; }\n",
                   "<thread> is not here: a program of a sandbox is one thread"),
}

# Words that are refused, behind a source, with status 3.
WORDS = (
    (["-c"], "there are no objects here, since all sources become one program at once: name all of them"),
    (["-S"], "there are no objects here"),
    (["part.o"], "part.o: objects and libraries aren't there: give their sources, all at once"),
    (["libz.a"], "objects and libraries aren't there"),
    (["-lz"], "no library but the C library is there: give its sources"),
    (["-pthread"], "there are no threads"),
    (["-fexceptions"], "there are neither exceptions nor types at run time"),
    (["-march=native"], "what the code is made for is set here, and can't be changed"),
    (["-fPIC"], "what the code is made for is set here, and can't be changed"),
    (["--frobnicate"], "no such option"),
    (["--turns", "ten"], "--turns ten: a number of turns is wanted, from 1 to 1000000000000"),
    (["--turns", "0"], "--turns 0: a number of turns is wanted, from 1 to 1000000000000"),
    (["--turns", "1000000000001"], "a number of turns is wanted, from 1 to 1000000000000"),
    (["--arena", "262145"], "a number of bytes is wanted, up to 262144"),
    (["--stack", "3000"], "a power of 2 is wanted, from 1024 to 131072"),
    (["--stack", "262144"], "a number of bytes is wanted, up to 131072"),
    (["-o"], "-o: its value is missing"),
    (["--against"], "an input is wanted, a file or a folder of them"),
)
