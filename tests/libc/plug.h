/* The three services, as functions of whoever tests the library. */
#ifndef PLUG_H
#define PLUG_H

int get(void);
void put(int c);
void quit(int word);

#endif
