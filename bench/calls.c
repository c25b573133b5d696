/* calls FILE: for each line of `shapes.py` the stack of each call, in bytes, and the time of the first five, in nanoseconds (the least of 40 rounds).
 * calls refused FILE: for each line of `shapes.py refused` the stack of Decode and of Decode over records, and the time of Decode.
 * calls FILE LINE CALL, calls refused FILE LINE: makes that one call (that Decode) ten times, for callgrind.
 * calls slots SLOTS ENDS: evaluates 5 Eq 5 eleven times, with so many slots in each of the four lists and so many empty witness elements, for callgrind. */
#define _POSIX_C_SOURCE 199309L
#include "covenant.h"
#include "stack.h"
#include <stdio.h>
#include <stdlib.h>
#include <string.h>
#include <time.h>

enum { CALLS = 7, TIMED = 5, KINDS = 36, SLOTS = 1024, CODE = COVENANT_MAX_CODE, TOKENS = COVENANT_MAX_TOKENS, ORACLES = COVENANT_MAX_ORACLES };

/* What is lent, as large as any call asks for. */
static uint8_t code[CODE], witness[80 * ORACLES], checks[112 * ORACLES], kinds[TOKENS], keys[32 * ORACLES], back[CODE], script[COVENANT_MAX_SCRIPT];
static uint64_t numbers[TOKENS], spent[4] = {1, 1, 1, 1};
static uint32_t places[TOKENS], ends[3 * ORACLES];
static const uint8_t marks[4] = {1, 1, 1, 1};
static covenant_record records[TOKENS];
static size_t code_count, ends_count, tokens, key_bytes;

static void check(void *p) { *(covenant_checked *)p = covenant_check(code, code_count); }

static void evaluate(void *p) {
    *(covenant_evaluated *)p = covenant_evaluate(code, code_count, spent, 4, marks, 4, spent, 4, marks, 4, spent, 4, marks, 4, spent, 4, marks, 4, 1, witness,
                                                 ends_count ? ends[ends_count - 1] : 0, ends, ends_count, checks, sizeof checks);
}

static void write(void *p) { *(covenant_written *)p = covenant_write(code, code_count, kinds, TOKENS, numbers, TOKENS, places, TOKENS, keys, sizeof keys); }

static void decode(void *p) {
    *(covenant_decoded *)p = covenant_decode(kinds, tokens, numbers, tokens, places, tokens, keys, key_bytes, back, sizeof back);
}

static void write_script(void *p) { *(covenant_script_written *)p = covenant_write_script(code, code_count, script, sizeof script); }

static void write_records(void *p) { *(covenant_written *)p = covenant_write_records(code, code_count, records, TOKENS, keys, sizeof keys); }

static void decode_records(void *p) { *(covenant_decoded *)p = covenant_decode_records(records, tokens, keys, key_bytes, back, sizeof back); }

static void (*const call[CALLS])(void *) = {check, evaluate, write, decode, write_script, write_records, decode_records};

static size_t bytes_of(const char *hex, uint8_t *out) {
    size_t n = strlen(hex) / 2;
    for (size_t i = 0; i < n; i++) {
        unsigned b;
        sscanf(hex + 2 * i, "%2x", &b);
        out[i] = (uint8_t)b;
    }
    return n;
}

/* The commands 32 and 33 of the code. */
static size_t terminals(void) {
    size_t n = 0;
    for (size_t at = 0; at < code_count; at += code[at] == 1 || code[at] == 16 ? 9 : code[at] == 32 || code[at] == 33 ? 41 : 1)
        n += code[at] == 32 || code[at] == 33;
    return n;
}

/* Lends the condition of a line, with the witness of its oracle terminals: signature, the terminals' time 9, price 1. Its tokens are written for Decode; every call but
 * Check is made once. */
static void lend(const char *shape, const char *hex) {
    code_count = bytes_of(hex, code);
    ends_count = 3 * terminals();
    uint32_t at = 0;
    memset(witness, 0, sizeof witness);
    for (size_t i = 0; i < ends_count; i++) {
        memset(witness + at, i % 3 ? 0 : 5, i % 3 ? 8 : 64);
        if (i % 3) witness[at] = i % 3 == 1 ? 9 : 1;
        at += i % 3 ? 8 : 64;
        ends[i] = at;
    }
    covenant_written w;
    write(&w);
    tokens = w.records, key_bytes = w.key_bytes;
    covenant_evaluated e;
    evaluate(&e);
    covenant_decoded d;
    decode(&d);
    covenant_script_written s;
    write_script(&s);
    if (w.number || e.number || d.number || d.code_bytes != code_count || memcmp(back, code, code_count) || s.number) {
        printf("%s: Write %u, Evaluate %u, Decode %u, Script %u\n", shape, w.number, e.number, d.number, s.number);
        exit(1);
    }
}

/* Lends the token list of a line, which Decode must refuse; every number is 1. */
static void lend_refused(const char *shape, const char *hex) {
    tokens = bytes_of(hex, kinds), key_bytes = 0;
    for (size_t i = 0; i < tokens; i++) numbers[i] = 1, places[i] = 0, records[i] = (covenant_record){kinds[i], 1, 0};
    covenant_decoded d, r;
    decode(&d);
    decode_records(&r);
    if (d.number != 11 || r.number != 11) {
        printf("%s: Decode %u, over records %u\n", shape, d.number, r.number);
        exit(1);
    }
}

static double nanoseconds(void (*f)(void *), void *p, int turns) {
    struct timespec a, b;
    clock_gettime(CLOCK_MONOTONIC, &a);
    for (int i = 0; i < turns; i++) f(p);
    clock_gettime(CLOCK_MONOTONIC, &b);
    return ((double)(b.tv_sec - a.tv_sec) * 1e9 + (double)(b.tv_nsec - a.tv_nsec)) / turns;
}

static double least(void (*f)(void *), void *p) {
    int turns = (int)(1e6 / (nanoseconds(f, p, 10) + 1)) + 1;
    double best = 1e18;
    for (int i = 0; i < 40; i++) {
        double t = nanoseconds(f, p, turns);
        if (t < best) best = t;
    }
    return best;
}

typedef union { covenant_checked c; covenant_evaluated e; covenant_written w; covenant_decoded d; covenant_script_written s; } any_answer;

static void measure(const char *shape, unsigned n) {
    any_answer answer;
    printf("%s %u", shape, n);
    for (int i = 0; i < CALLS; i++) printf(" %zu", stack_used(call[i], &answer));
    for (int i = 0; i < TIMED; i++) printf(" %.0f", least(call[i], &answer));
    puts("");
}

/* The most over all kinds of the first token, where the readers are deepest. */
static size_t most_stack(void (*f)(void *)) {
    any_answer answer;
    size_t most = 0;
    uint8_t first = kinds[0];
    for (int k = 0; k < KINDS; k++) {
        kinds[0] = records[0].kind = (uint8_t)k;
        size_t used = stack_used(f, &answer);
        if (used > most) most = used;
    }
    kinds[0] = records[0].kind = first;
    return most;
}

static void measure_refused(const char *shape, unsigned n) {
    any_answer answer;
    printf("%s %u %zu %zu %.0f\n", shape, n, most_stack(decode), most_stack(decode_records), least(decode, &answer));
}

static int evaluate_slots(size_t slots, size_t elements) {
    static const uint8_t five[19] = {16, 5, 0, 0, 0, 0, 0, 0, 0, 16, 5, 0, 0, 0, 0, 0, 0, 0, 48};
    static const uint64_t amounts[SLOTS];
    static const uint8_t hidden[SLOTS];
    static const uint32_t none[SLOTS];
    if (slots > SLOTS || elements > SLOTS) return 1;
    for (int i = 0; i < 11; i++) {
        covenant_evaluated e = covenant_evaluate(five, sizeof five, amounts, slots, hidden, slots, amounts, slots, hidden, slots, amounts, slots, hidden, slots, amounts, slots, hidden, slots,
                                                 0, witness, 0, none, elements, checks, 0);
        if (e.number || !e.verdict || e.left != elements) return 1;
    }
    return 0;
}

int main(int argc, char **argv) {
    static char shape[32], hex[2 * CODE + 1];
    if (argc == 4 && !strcmp(argv[1], "slots")) return evaluate_slots((size_t)atoi(argv[2]), (size_t)atoi(argv[3]));
    int refused = argc > 1 && !strcmp(argv[1], "refused");
    argc -= refused, argv += refused;
    unsigned n;
    FILE *f = argc > 1 ? fopen(argv[1], "r") : 0;
    if (!f) return 1;
    for (int line = 0; fscanf(f, "%31s %u %18432s", shape, &n, hex) == 3; line++) {
        if (argc > 2 && line != atoi(argv[2])) continue;
        (refused ? lend_refused : lend)(shape, hex);
        if (argc > 2) {
            any_answer answer;
            for (int i = 0; i < 10; i++) (refused ? decode : call[atoi(argv[3])])(&answer);
            return 0;
        }
        (refused ? measure_refused : measure)(shape, n);
    }
    return 0;
}
