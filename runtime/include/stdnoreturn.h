#ifndef GEYSERPAN_STDNORETURN_H
#define GEYSERPAN_STDNORETURN_H

#ifndef __cplusplus
#define noreturn _Noreturn
#endif

#endif
