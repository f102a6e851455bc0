#include "plug.h"
/* Ends with 0 where the status of a line is 500 or more, and else with 1. */
int main(void) {
    int c, quotes = 0, status = 0, digits = 0;
    while (digits < 3 && (c = get()) >= 0) {
        if (c == '"') quotes++;
        else if (quotes == 2 && c >= '0' && c <= '9') { status = status * 10 + c - '0'; digits++; }
    }
    return status < 500;
}
