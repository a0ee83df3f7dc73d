#ifndef _SETJMP_H
#define _SETJMP_H
typedef void *jmp_buf[8];
int setjmp(jmp_buf) __attribute__((returns_twice));
void longjmp(jmp_buf, int) __attribute__((noreturn));
#define _setjmp setjmp
#define sigsetjmp(buffer, mask) setjmp(buffer)
#define siglongjmp longjmp
typedef jmp_buf sigjmp_buf;
#endif
