/* A program that reads and prints in each way that stdio.h has, by what its input says: compiled with each library,
   and its output compared. */
#include <errno.h>
#include <stdio.h>
#include <stdlib.h>
#include <string.h>

static void copy(void) {
    long count = 0;
    for (int c; (c = getchar()) != EOF; count++) putchar(c);
    printf("\n%ld %d %d", count, feof(stdin) != 0, ferror(stdin) != 0);
    printf(" %d\n", getchar());
}

static void lines(int most) {
    char line[64];
    while (fgets(line, most, stdin)) {
        printf("%zu:", strlen(line));
        fputs(line, stdout);
        if (most == 1 && getc(stdin) == EOF) break;
    }
    printf("%d", feof(stdin) != 0);
    printf(" %d\n", fgets(line, most > 1 ? most : 2, stdin) == NULL);
}

static void blocks(size_t size, size_t count) {
    char block[256];
    size_t had;
    do {
        memset(block, '.', sizeof block);
        had = fread(block, size, count, stdin);
        printf("%zu\n", had);
        printf("%zu\n", fwrite(block, size, count, stdout));
    } while (had == count && count > 0 && size > 0);
    printf("%d %d\n", feof(stdin) != 0, ferror(stdin) != 0);
}

static void whole_lines(int end) {
    char *line = NULL;
    size_t room = 0;
    for (ssize_t size; (size = end ? getdelim(&line, &room, end, stdin) : getline(&line, &room, stdin)) != -1;) {
        printf("%ld %d ", (long)size, room > (size_t)size);
        fwrite(line, 1, (size_t)size, stdout);
    }
    printf("%d\n", feof(stdin) != 0);
    free(line);
}

static void back(void) {
    for (int c, i = 0; (c = getc(stdin)) != EOF; i++) {
        if (i % 3 == 0) printf("%d", ungetc(c, stdin)), printf("%d|", feof(stdin) != 0);
        else putc(c, stdout);
    }
    printf("%d", ungetc(EOF, stdin)), printf("%d", ungetc('x', stdin));
    printf("%d", feof(stdin) != 0), printf("%d", fgetc(stdin)), printf("%d\n", fgetc(stdin));
}

static void numbers(void) {
    int number, read;
    while ((read = scanf("%d", &number)) != EOF) {
        printf("%d %d\n", read, read ? number : 0);
        if (read == 0) printf("skipped %d\n", getchar());
    }
    printf("%d\n", feof(stdin) != 0);
}

static void words(void) {
    char word[16], rest[16];
    int number = 0, read;
    while ((read = scanf(" %9[a-z]%d%9s", word, &number, rest)) != EOF) {
        printf("%d", read);
        if (read > 0) printf(" %s", word);
        if (read > 1) printf(" %d", number);
        if (read > 2) printf(" %s", rest);
        printf("\n");
        if (read < 2 && getchar() == EOF) break;
    }
}

static void doubles(void) {
    double number;
    int read;
    while ((read = scanf("%lf", &number)) != EOF) {
        if (read) printf("%.17g %a %.3f\n", number, number, number);
        else if (getchar() == EOF) break;
    }
}

static void errors(void) {
    errno = 0;
    printf("%d", fputc('x', stdin)), printf("%d", ferror(stdin) != 0), printf("%d\n", errno == EBADF);
    clearerr(stdin);
    printf("%d", ferror(stdin) != 0), printf("%d", fgetc(stdout)), printf("%d\n", ferror(stdout) != 0);
    clearerr(stdout);
    printf("%d", fprintf(stderr, "%d", 5)), printf("%d\n", fputs("lost", stderr) >= 0);
    printf("%d", fputc('x', stderr)), printf("%d\n", ferror(stderr) != 0);
    printf("%d", fflush(stdout)), printf("%d", fflush(NULL)), printf("%d\n", puts("a line") >= 0);
    printf("%d", fprintf(stdout, "%s-%5d", "abc", 12)), printf("%d", fputc(300, stdout));
    fputs("end\n", stdout);
}

int main(void) {
    int how = getchar(), by = getchar();
    if (how == EOF || by == EOF) return 1;
    switch (how % 9) {
    case 0: copy(); break;
    case 1: lines(1 + by % 40); break;
    case 2: blocks((size_t)(by % 7), (size_t)(by / 7 % 9)); break;
    case 3: whole_lines(by % 2 ? by : 0); break;
    case 4: back(); break;
    case 5: numbers(); break;
    case 6: words(); break;
    case 7: doubles(); break;
    default: errors();
    }
    return 0;
}
