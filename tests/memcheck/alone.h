/* The archive's calls with each slice in an allocation of its own and nothing beside it, so that valgrind sees a read or write beyond it; what a call wrote is copied back.
 * run.sh puts this before the test programs. Where MISSING is 1, the slices that are only read lack their last byte, which valgrind must see. */
#ifndef ALONE_H
#define ALONE_H

#include "covenant.h"
#include <stdlib.h>
#include <string.h>

#ifndef MISSING
#define MISSING 0
#endif

static struct { void *own, *lender; size_t bytes; } alone[16];
static int alones;

/* A copy of a slice that was lent; `lender` is where it goes back, null for a slice that is only read. */
static inline void *alone_copy(const void *slice, size_t bytes, void *lender) {
    if (!slice) return 0;
    void *own = memcpy(malloc(bytes), slice, bytes);
    alone[alones].own = own, alone[alones].lender = lender, alone[alones++].bytes = bytes;
    return own;
}

static inline void alone_end(void) {
    while (alones) {
        alones--;
        if (alone[alones].lender) memcpy(alone[alones].lender, alone[alones].own, alone[alones].bytes);
        free(alone[alones].own);
    }
}

#define READ(p, n) alone_copy(p, (n) * sizeof *(p) - ((n) ? MISSING : 0), 0), n
#define WRITTEN(p, n) alone_copy(p, (n) * sizeof *(p), p), n
#define ALONE(type, call) type a = call; alone_end(); return a

static inline covenant_checked alone_check(const uint8_t *code, size_t n) { ALONE(covenant_checked, covenant_check(READ(code, n))); }

static inline covenant_evaluated alone_evaluate(
    const uint8_t *code, size_t n, const uint64_t *s, size_t s_n, const uint8_t *sm, size_t sm_n, const uint64_t *o, size_t o_n, const uint8_t *om, size_t om_n,
    const uint64_t *i, size_t i_n, const uint8_t *im, size_t im_n, const uint64_t *r, size_t r_n, const uint8_t *rm, size_t rm_n, uint64_t current,
    const uint8_t *witness, size_t witness_n, const uint32_t *ends, size_t ends_n, uint8_t *checks, size_t checks_n) {
    ALONE(covenant_evaluated, covenant_evaluate(READ(code, n), READ(s, s_n), READ(sm, sm_n), READ(o, o_n), READ(om, om_n), READ(i, i_n), READ(im, im_n), READ(r, r_n), READ(rm, rm_n),
                                                current, READ(witness, witness_n), READ(ends, ends_n), WRITTEN(checks, checks_n)));
}

static inline covenant_written alone_write(
    const uint8_t *code, size_t n, uint8_t *kinds, size_t kinds_n, uint64_t *numbers, size_t numbers_n, uint32_t *places, size_t places_n, uint8_t *keys, size_t keys_n) {
    ALONE(covenant_written, covenant_write(READ(code, n), WRITTEN(kinds, kinds_n), WRITTEN(numbers, numbers_n), WRITTEN(places, places_n), WRITTEN(keys, keys_n)));
}

static inline covenant_decoded alone_decode(
    const uint8_t *kinds, size_t kinds_n, const uint64_t *numbers, size_t numbers_n, const uint32_t *places, size_t places_n, const uint8_t *keys, size_t keys_n,
    uint8_t *code, size_t n) {
    ALONE(covenant_decoded, covenant_decode(READ(kinds, kinds_n), READ(numbers, numbers_n), READ(places, places_n), READ(keys, keys_n), WRITTEN(code, n)));
}

static inline covenant_written alone_write_records(const uint8_t *code, size_t n, covenant_record *records, size_t records_n, uint8_t *keys, size_t keys_n) {
    ALONE(covenant_written, covenant_write_records(READ(code, n), WRITTEN(records, records_n), WRITTEN(keys, keys_n)));
}

static inline covenant_decoded alone_decode_records(const covenant_record *records, size_t records_n, const uint8_t *keys, size_t keys_n, uint8_t *code, size_t n) {
    ALONE(covenant_decoded, covenant_decode_records(READ(records, records_n), READ(keys, keys_n), WRITTEN(code, n)));
}

static inline covenant_script_written alone_write_script(const uint8_t *code, size_t n, uint8_t *script, size_t script_n) {
    ALONE(covenant_script_written, covenant_write_script(READ(code, n), WRITTEN(script, script_n)));
}

#define covenant_check alone_check
#define covenant_evaluate alone_evaluate
#define covenant_write alone_write
#define covenant_decode alone_decode
#define covenant_write_records alone_write_records
#define covenant_decode_records alone_decode_records
#define covenant_write_script alone_write_script

#endif
