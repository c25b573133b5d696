/* A program over libcovenant.a with no C library and no start files: a call, and memset and memcpy from bench/memory.c. It exits with the refusal of empty code, 2. */
#include "covenant.h"

/* The system starts a program at a stack that no call has moved: it is aligned here as a call's is. */
__attribute__((force_align_arg_pointer)) void _start(void) {
    covenant_checked a = covenant_check(0, 0);
    __asm__ volatile("syscall" : : "a"(60), "D"((long)a.number));
    __builtin_unreachable();
}
