/* Lines of the input as the words of a call: what getopt finds in each, and what is left. The options of main itself
   come first, of which there are none. */
#include <getopt.h>
#include <stdio.h>
#include <string.h>

enum { WORDS = 20 };

static int split(char *line, char **words) {
    int count = 0;
    words[count++] = "line";
    for (char *word = strtok(line, " \t\n"); word && count < WORDS; word = strtok(NULL, " \t\n")) words[count++] = word;
    words[count] = NULL;
    return count;
}

static int show(int count, char **words, const char *letters) {
    int found, unknown = 0;
    optind = 0;
    while ((found = getopt(count, words, letters)) != -1) {
        switch (found) {
        case 'a':
        case 'b':
            printf(" -%c", found);
            break;
        case 'n':
        case 'o':
            printf(" -%c=%s", found, optarg ? optarg : "none");
            break;
        case ':':
        case '?':
            printf(" %c%c", found, optopt);
            unknown++;
            break;
        default:
            return -1;
        }
    }
    printf(" |");
    for (; optind < count; optind++) printf(" %s", words[optind]);
    printf("\n");
    return unknown;
}

int main(int argc, char *argv[]) {
    char line[200], *words[WORDS + 1];
    int unknown = 0;
    opterr = 0;
    while (getopt(argc, argv, "abn:o::") != -1) puts("an option of main");
    while (fgets(line, sizeof line, stdin)) {
        char again[200];
        strcpy(again, line);
        unknown += show(split(line, words), words, "+abn:o::");
        unknown += show(split(again, words), words, "+:abn:o::");
    }
    return unknown;
}
