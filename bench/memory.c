/* The two functions that the archive asks for, as a unit without a C library has them; they are counted with the calls. */
#include <stddef.h>

void *memset(void *p, int c, size_t n) {
    unsigned char *b = p;
    for (size_t i = 0; i < n; i++) b[i] = (unsigned char)c;
    return p;
}

void *memcpy(void *restrict to, const void *restrict from, size_t n) {
    unsigned char *t = to;
    const unsigned char *f = from;
    for (size_t i = 0; i < n; i++) t[i] = f[i];
    return to;
}
