/* Scores of names, kept in order. */
#ifndef SCORE_H
#define SCORE_H

struct score {
    char name[16];
    int points;
};

/* Adds points to a name's score; 0 where there is no room for another name. */
int score_add(const char *name, int points);
/* Calls visit for each score, the highest first. */
void score_each(void (*visit)(const struct score *));

#endif
