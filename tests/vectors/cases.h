/* A case of tests/vectors/generate.py, which tells the file's format: its call, and its parts as aligned copies. */
#ifndef CASES_H
#define CASES_H

#include <stdint.h>
#include <stdio.h>
#include <string.h>

enum { CHECK = 1, EVALUATE, WRITE, DECODE, SCRIPT, PARTS = 16, MOST = 1 << 16 };

static struct { uint64_t bytes[MOST / 8]; size_t count; } part[PARTS];

static inline const uint8_t *u8(int k) { return (const uint8_t *)part[k].bytes; }
static inline const uint32_t *u32(int k) { return (const uint32_t *)part[k].bytes; }
static inline const uint64_t *u64(int k) { return part[k].bytes; }
static inline size_t n8(int k) { return part[k].count; }
static inline size_t n32(int k) { return part[k].count / 4; }
static inline size_t n64(int k) { return part[k].count / 8; }

static inline uint32_t word(const uint8_t *b) { return b[0] | (uint32_t)b[1] << 8 | (uint32_t)b[2] << 16 | (uint32_t)b[3] << 24; }

/* The call of the next case, whose parts are taken apart; 0 at the end of the file, -1 where it is no case. */
static inline int next_case(FILE *f) {
    static uint8_t body[16 * MOST];
    uint8_t length[4];
    size_t n = fread(length, 1, 4, f);
    if (n == 0 && feof(f)) return 0;
    if (n != 4 || word(length) > sizeof body || fread(body, 1, word(length), f) != word(length) || body[1] > PARTS) return -1;
    size_t at = 2 + 4 * (size_t)body[1];
    for (int k = 0; k < body[1]; k++) {
        size_t end = word(body + 2 + 4 * k);
        if (end < at || end > word(length) || end - at > MOST) return -1;
        part[k].count = end - at;
        memcpy(part[k].bytes, body + at, end - at);
        at = end;
    }
    return body[0];
}

#endif
