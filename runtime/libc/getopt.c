/* getopt, as POSIX has it: the options end at the first word that is none. */
#include <string.h>
#include <unistd.h>

char *optarg;
int optind = 1, opterr = 1, optopt;

/* Where the next letter of several in a word stands; 0 at the begin of a word. */
static int place;

static void next_word(void) {
    optind++;
    place = 0;
}

/* The argument of an option: the rest of its word, or the next word; of one in two colons the rest alone. */
static int take_argument(int count, char *const words[], int is_optional) {
    char *rest = words[optind] + place;
    next_word();
    if (*rest || is_optional) {
        optarg = *rest ? rest : NULL;
        return 1;
    }
    if (optind >= count) return 0;
    optarg = words[optind++];
    return 1;
}

int getopt(int count, char *const words[], const char *letters) {
    if (optind == 0) next_word(); /* (of GNU: to begin anew) */
    if (*letters == '+') letters++;
    optarg = NULL;
    if (place == 0) {
        const char *word = optind < count ? words[optind] : NULL;
        if (!word || word[0] != '-' || word[1] == 0) return -1;
        if (strcmp(word, "--") == 0) {
            optind++;
            return -1;
        }
        place = 1;
    }
    int letter = (unsigned char)words[optind][place++];
    const char *known = letter == ':' ? NULL : strchr(letters, letter);
    if (known && known[1] == ':') {
        if (take_argument(count, words, known[2] == ':')) return letter;
        optopt = letter;
        return *letters == ':' ? ':' : '?';
    }
    if (words[optind][place] == 0) next_word();
    if (known) return letter;
    optopt = letter;
    return '?';
}
