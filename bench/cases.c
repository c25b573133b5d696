/* cases FILE: the most stack that each call takes over the cases of tests/vectors/generate.py, most of which are refused somewhere; the file's format is told there. */
#include "cases.h"
#include "covenant.h"
#include "stack.h"

enum { CALLS = 7 };

/* What is written to. */
static uint8_t out[MOST], kinds[MOST], keys[MOST];
static uint64_t numbers[MOST];
static uint32_t places[MOST];
static covenant_record records[MOST];

static void check(void *p) { *(covenant_checked *)p = covenant_check(u8(0), n8(0)); }

static void evaluate(void *p) {
    *(covenant_evaluated *)p = covenant_evaluate(u8(0), n8(0), u64(1), n64(1), u8(2), n8(2), u64(3), n64(3), u8(4), n8(4), u64(5), n64(5), u8(6), n8(6), u64(7), n64(7), u8(8),
                                                 n8(8), u64(11)[0], u8(9), n8(9), u32(10), n32(10), out, u64(11)[1]);
}

static void write(void *p) {
    const uint64_t *room = u64(1);
    *(covenant_written *)p = covenant_write(u8(0), n8(0), kinds, room[0], numbers, room[1], places, room[2], keys, room[3]);
}

static void decode(void *p) {
    *(covenant_decoded *)p = covenant_decode(u8(0), n8(0), u64(1), n64(1), u32(2), n32(2), u8(3), n8(3), out, u64(4)[0]);
}

static void script(void *p) { *(covenant_script_written *)p = covenant_write_script(u8(0), n8(0), out, u64(1)[0]); }

static void write_records(void *p) { *(covenant_written *)p = covenant_write_records(u8(0), n8(0), records, u64(1)[0], keys, u64(1)[3]); }

static void decode_records(void *p) { *(covenant_decoded *)p = covenant_decode_records(records, n8(0), u8(3), n8(3), out, u64(4)[0]); }

static void (*const call[CALLS])(void *) = {check, evaluate, write, decode, script, write_records, decode_records};

/* The records of a case of Decode; what is not lent is 0. */
static void lend_records(void) {
    for (size_t i = 0; i < n8(0); i++) records[i] = (covenant_record){u8(0)[i], i < n64(1) ? u64(1)[i] : 0, i < n32(2) ? u32(2)[i] : 0};
}

int main(int argc, char **argv) {
    size_t most[CALLS] = {0};
    union { covenant_checked c; covenant_evaluated e; covenant_written w; covenant_decoded d; covenant_script_written s; } answer;
    FILE *f = argc > 1 ? fopen(argv[1], "rb") : 0;
    int of = -1;
    while (f && (of = next_case(f)) > 0) {
        if (of == DECODE) lend_records();
        for (int c = 0; c < CALLS; c++) {
            /* the calls over records have the cases of Write and of Decode */
            if ((c < SCRIPT ? c + 1 : c - 2) != of) continue;
            size_t used = stack_used(call[c], &answer);
            if (used > most[c]) most[c] = used;
        }
    }
    for (int c = 0; c < CALLS; c++) printf("%zu%c", most[c], c + 1 < CALLS ? ' ' : '\n');
    return of != 0;
}
