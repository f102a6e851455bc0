/* longjmp cuts the stack back to the function that called setjmp, and returns from that call again. Once that function
   has returned, nothing is defined. */
#ifndef GEYSERPAN_SETJMP_H
#define GEYSERPAN_SETJMP_H

#ifdef __cplusplus
extern "C" {
#endif

typedef int jmp_buf[16];
typedef jmp_buf sigjmp_buf;

int setjmp(jmp_buf) __attribute__((returns_twice));
void longjmp(jmp_buf, int) __attribute__((noreturn));
#define setjmp(buffer) setjmp(buffer)
#define _setjmp(buffer) setjmp(buffer)
#define _longjmp(buffer, value) longjmp(buffer, value)
#define sigsetjmp(buffer, mask) setjmp(buffer)
#define siglongjmp(buffer, value) longjmp(buffer, value)

#ifdef __cplusplus
}
#endif

#endif
