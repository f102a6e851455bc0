/* Of POSIX: the parts of a path. They may change the text, and give a part of it or a text of their own. */
#ifndef GEYSERPAN_LIBGEN_H
#define GEYSERPAN_LIBGEN_H

#ifdef __cplusplus
extern "C" {
#endif

char *basename(char *);
char *dirname(char *);

#ifdef __cplusplus
}
#endif

#endif
