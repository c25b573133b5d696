/* Calls each function of libcovenant.a on good and bad input, with guarded buffers: what is not reported must be kept. */
#include "covenant.h"
#include <stdio.h>
#include <string.h>

#define FILL 0xa5
#define COUNT(a) (sizeof(a) / sizeof *(a))

static int failures;

static void expect(int holds, const char *what) {
    if (!holds) {
        printf("boundary: %s\n", what);
        failures++;
    }
}

static int kept(const void *p, size_t from, size_t to) {
    const uint8_t *b = p;
    for (size_t i = from; i < to; i++)
        if (b[i] != FILL) return 0;
    return 1;
}

/* 5 Eq 5 */
static const uint8_t five[19] = {16, 5, 0, 0, 0, 0, 0, 0, 0, 16, 5, 0, 0, 0, 0, 0, 0, 0, 48};

/* the amount at the current index less one, Eq 7 */
static const uint8_t less_one[22] = {2, 1, 1, 0, 0, 0, 0, 0, 0, 0, 4, 18, 16, 7, 0, 0, 0, 0, 0, 0, 0, 48};

/* the amount at the current index less one plus two, Eq 8 */
static const uint8_t less_one_plus_two[32] = {2, 1, 1, 0, 0, 0, 0, 0, 0, 0, 4, 1, 2, 0, 0, 0, 0, 0, 0, 0, 3, 18, 16, 8, 0, 0, 0, 0, 0, 0, 0, 48};

/* an oracle terminal with time 5, Eq 9 */
static void oracle_code(uint8_t code[51]) {
    memset(code, 0, 51);
    code[0] = 32;
    for (int i = 0; i < 32; i++) code[1 + i] = (uint8_t)(i + 4);
    code[33] = 5;
    code[41] = 16;
    code[42] = 9;
    code[50] = 48;
}

static void check(void) {
    covenant_checked a = covenant_check(five, sizeof five);
    expect(a.number == 0 && a.place == 0, "check: 5 Eq 5");
    a = covenant_check(0, 0);
    expect(a.number == 2 && a.place == 0, "check: no code");
    a = covenant_check(five, 9);
    expect(a.number == 2 && a.place == 9, "check: a constant alone");
    static const uint8_t long_code[COVENANT_MAX_CODE + 1];
    a = covenant_check(long_code, sizeof long_code);
    expect(a.number == 1 && a.place == 0, "check: code that is too long");
}

static void evaluate(void) {
    uint64_t spent[2] = {7, 8}, none[2] = {0, 0};
    uint8_t marks[2] = {1, 1}, hidden[2] = {0, 0};
    covenant_evaluated a;
#define AT(code, current, witness, ends, n, checks, room) \
    covenant_evaluate(code, sizeof code, spent, 2, marks, 2, 0, 0, 0, 0, none, 2, hidden, 2, none, 2, hidden, 2, current, witness, n ? sizeof witness : 0, \
                      ends, n, checks, room)
    uint8_t empty[1] = {0};
    uint32_t no_ends[1] = {0};
    a = AT(less_one, 0, empty, no_ends, 0, empty, 0);
    expect(a.number == 43 && a.verdict == 0 && a.first == 0 && a.second == 0 && a.checks == 0 && a.left == 0, "evaluate: current index less one at 0");
    a = AT(less_one, 1, empty, no_ends, 0, empty, 0);
    expect(a.number == 0 && a.verdict == 1, "evaluate: current index less one at 1");
    a = AT(less_one, 5, empty, no_ends, 0, empty, 0);
    expect(a.number == 20 && a.first == 4 && a.second == 2, "evaluate: beyond the inputs");
    a = AT(less_one_plus_two, 0, empty, no_ends, 0, empty, 0);
    expect(a.number == 0 && a.verdict == 1, "evaluate: current index less one plus two at 0");
    a = AT(less_one, 0x7fffffff, empty, no_ends, 0, empty, 0);
    expect(a.number == 20 && a.first == 0x7ffffffe && a.second == 2, "evaluate: the greatest current index");
    a = AT(less_one, 0x80000000, empty, no_ends, 0, empty, 0);
    expect(a.number == 41 && a.verdict == 0 && a.first == 0 && a.second == 0, "evaluate: a current index of 2^31");
    a = AT(five, UINT64_MAX, empty, no_ends, 0, empty, 0);
    expect(a.number == 0 && a.verdict == 1, "evaluate: a current index that is not used");

    uint8_t code[51], witness[80], buffer[112 + 16];
    uint32_t ends[3] = {64, 72, 80};
    oracle_code(code);
    memset(witness, 3, sizeof witness);
    memset(witness + 64, 0, 16);
    witness[64] = 6; /* the time */
    witness[72] = 9; /* the price */
    memset(buffer, FILL, sizeof buffer);
    a = AT(code, 0, witness, ends, 3, buffer, 112);
    expect(a.number == 0 && a.verdict == 1 && a.checks == 1 && a.left == 0, "evaluate: an oracle terminal");
    expect(!memcmp(buffer, code + 1, 32) && !memcmp(buffer + 32, witness + 64, 16) && !memcmp(buffer + 48, witness, 64), "evaluate: the check's bytes");
    expect(kept(buffer, 112, sizeof buffer), "evaluate: bytes after the check");
    memset(buffer, FILL, sizeof buffer);
    witness[64] = 4;
    a = AT(code, 0, witness, ends, 3, buffer, 112);
    expect(a.number == 39 && a.checks == 0 && a.left == 0 && kept(buffer, 0, sizeof buffer), "evaluate: a time before the terminal's");
    memset(buffer, FILL, sizeof buffer);
    a = AT(code, 0, witness, ends, 3, buffer, 111);
    expect(a.number == 7 && a.left == 3 && kept(buffer, 0, sizeof buffer), "evaluate: a short buffer");
    ends[0] = 73;
    a = AT(code, 0, witness, ends, 3, buffer, 112);
    expect(a.number == 12 && a.left == 3 && kept(buffer, 0, sizeof buffer), "evaluate: ends that fall");
    marks[0] = 2;
    a = AT(code, 0, witness, ends, 3, buffer, 112);
    expect(a.number == 8 && a.left == 3 && kept(buffer, 0, sizeof buffer), "evaluate: a mark of 2");

    /* null pointers with a count of 0 */
    a = covenant_evaluate(five, sizeof five, 0, 0, 0, 0, 0, 0, 0, 0, 0, 0, 0, 0, 0, 0, 0, 0, 0, 0, 0, 0, 0, 0, 0);
    expect(a.number == 0 && a.verdict == 1 && a.checks == 0 && a.left == 0, "evaluate: no inputs, no witness, no buffer");
    a = covenant_evaluate(less_one, sizeof less_one, 0, 0, 0, 0, 0, 0, 0, 0, 0, 0, 0, 0, 0, 0, 0, 0, 1, 0, 0, 0, 0, 0, 0);
    expect(a.number == 20 && a.first == 0 && a.second == 0, "evaluate: an amount where there are no inputs");
}

/* Twelve tokens; what is lent has two records and 8 key bytes more than are written. */
static void write_and_decode(void) {
    uint8_t code[51], kinds[14], keys[40], back[COVENANT_MAX_CODE + 8];
    uint64_t numbers[14];
    uint32_t places[14];
    oracle_code(code);
    memset(kinds, FILL, sizeof kinds);
    memset(numbers, FILL, sizeof numbers);
    memset(places, FILL, sizeof places);
    memset(keys, FILL, sizeof keys);
#define ALL_KEPT (kept(kinds, 0, sizeof kinds) && kept(numbers, 0, sizeof numbers) && kept(places, 0, sizeof places) && kept(keys, 0, sizeof keys))
    covenant_written w = covenant_write(code, sizeof code, kinds, 11, numbers, 14, places, 14, keys, 40);
    expect(w.number == 7 && w.records == 0 && ALL_KEPT, "write: too few records");
    w = covenant_write(code, sizeof code, kinds, 14, numbers, 14, places, 14, keys, 31);
    expect(w.number == 7 && w.records == 0 && ALL_KEPT, "write: too few key bytes");
    w = covenant_write(code, sizeof code, kinds, 14, numbers, 14, places, 14, keys, 40);
    static const uint8_t form[12] = {25, 26, 2, 28, 15, 32, 33, 3, 34, 27, 2, 14};
    expect(w.number == 0 && w.records == 12 && w.key_bytes == 32, "write: an oracle terminal");
    expect(!memcmp(kinds, form, 12) && numbers[2] == 5 && numbers[10] == 9 && numbers[0] == 0 && places[7] == 0, "write: the form");
    expect(!memcmp(keys, code + 1, 32), "write: the key");
    expect(kept(kinds, 12, 14) && kept(numbers, 12 * 8, sizeof numbers) && kept(places, 12 * 4, sizeof places) && kept(keys, 32, 40), "write: what is kept");

    memset(back, FILL, sizeof back);
    covenant_decoded d = covenant_decode(kinds, 12, numbers, 12, places, 12, keys, 32, back, COVENANT_MAX_CODE);
    expect(d.number == 0 && d.code_bytes == sizeof code && d.start == 0 && !memcmp(back, code, sizeof code), "decode: what was written");
    expect(kept(back, sizeof code, sizeof back), "decode: what is kept");
    memset(back, FILL, sizeof back);
    d = covenant_decode(kinds, 12, numbers, 12, places, 12, keys, 31, back, COVENANT_MAX_CODE);
    expect(d.number == 9 && d.place == 7 && kept(back, 0, sizeof back), "decode: a key that is cut off");
    d = covenant_decode(kinds, 12, numbers, 12, places, 12, keys, 32, back, COVENANT_MAX_CODE - 1);
    expect(d.number == 7 && kept(back, 0, sizeof back), "decode: a short buffer");
    d = covenant_decode(kinds, 11, numbers, 12, places, 12, keys, 32, back, COVENANT_MAX_CODE);
    expect(d.number == 11 && kept(back, 0, sizeof back), "decode: no condition");
    static const uint8_t many[COVENANT_MAX_TOKENS + 1];
    d = covenant_decode(many, COUNT(many), 0, 0, 0, 0, 0, 0, back, COVENANT_MAX_CODE);
    expect(d.number == 10 && kept(back, 0, sizeof back), "decode: too many records");
    d = covenant_decode(0, 0, 0, 0, 0, 0, 0, 0, back, COVENANT_MAX_CODE);
    expect(d.number == 11, "decode: no records");
}

static void records(void) {
    expect(sizeof(covenant_record) == 24, "a record is 24 bytes");
    uint8_t code[51], keys[40], back[COVENANT_MAX_CODE + 8];
    covenant_record r[14];
    oracle_code(code);
    memset(r, FILL, sizeof r);
    memset(keys, FILL, sizeof keys);
    covenant_written w = covenant_write_records(code, sizeof code, r, 11, keys, 40);
    expect(w.number == 7 && kept(r, 0, sizeof r) && kept(keys, 0, sizeof keys), "write_records: too few records");
    w = covenant_write_records(code, sizeof code, r, 14, keys, 40);
    expect(w.number == 0 && w.records == 12 && w.key_bytes == 32, "write_records: an oracle terminal");
    expect(r[0].kind == 25 && r[2].kind == 2 && r[2].number == 5 && r[7].kind == 3 && r[7].place == 0 && r[11].kind == 14, "write_records: the form");
    expect(kept(r, 12 * sizeof *r, sizeof r) && kept(keys, 32, 40), "write_records: what is kept");
    for (size_t i = 0; i < 12; i++) {
        size_t at = i * sizeof *r;
        expect(kept(r, at + 1, at + offsetof(covenant_record, number)) && kept(r, at + offsetof(covenant_record, place) + 4, at + sizeof *r), "write_records: the padding of a record");
    }
    memset(back, FILL, sizeof back);
    covenant_decoded d = covenant_decode_records(r, 12, keys, 32, back, COVENANT_MAX_CODE);
    expect(d.number == 0 && d.code_bytes == sizeof code && d.start == 0 && !memcmp(back, code, sizeof code), "decode_records: what was written");
    expect(kept(back, sizeof code, sizeof back), "decode_records: what is kept");
    memset(back, FILL, sizeof back);
    d = covenant_decode_records(r, 12, keys, 31, back, COVENANT_MAX_CODE);
    expect(d.number == 9 && d.place == 7 && kept(back, 0, sizeof back), "decode_records: a key that is cut off");
    static const covenant_record many[COVENANT_MAX_TOKENS + 1];
    d = covenant_decode_records(many, COUNT(many), keys, 32, back, COVENANT_MAX_CODE);
    expect(d.number == 10 && kept(back, 0, sizeof back), "decode_records: too many records");
    d = covenant_decode_records(0, 0, 0, 0, back, COVENANT_MAX_CODE);
    expect(d.number == 11 && kept(back, 0, sizeof back), "decode_records: no records");
}

/* Tokens whose keys are all at place 0, over number slices and over records; nothing is written. */
static void refused_tokens(const uint8_t *kinds, size_t count, uint32_t number) {
    static const uint64_t numbers[24];
    static const uint32_t places[24];
    static const uint8_t keys[32];
    uint8_t back[COVENANT_MAX_CODE + 8];
    covenant_record r[24];
    for (size_t i = 0; i < count; i++) r[i] = (covenant_record){.kind = kinds[i]};
    memset(back, FILL, sizeof back);
    covenant_decoded d = covenant_decode(kinds, count, numbers, count, places, count, keys, 32, back, COVENANT_MAX_CODE);
    expect(d.number == number && d.place == 0 && d.code_bytes == 0 && d.start == 0 && kept(back, 0, sizeof back), "decode: misplaced oracle terminals");
    d = covenant_decode_records(r, count, keys, 32, back, COVENANT_MAX_CODE);
    expect(d.number == number && d.place == 0 && d.code_bytes == 0 && d.start == 0 && kept(back, 0, sizeof back), "decode_records: misplaced oracle terminals");
}

/* 4 where the left side begins with PriceOracle1W, 5 where PriceOracle1 stands on the right, 4 where both do; without the last token 11. */
static void misplaced_oracles(void) {
    static const uint8_t both[24] = {26, 25, 26, 2, 28, 15, 32, 33, 3, 34, 27, 27, 35, 25, 26, 2, 28, 15, 32, 33, 3, 34, 27, 14};
    static const uint8_t first[15] = {26, 25, 26, 2, 28, 15, 32, 33, 3, 34, 27, 27, 35, 2, 14}, right[12] = {2, 25, 26, 2, 28, 15, 32, 33, 3, 34, 27, 14};
    refused_tokens(first, 15, 4);
    refused_tokens(right, 12, 5);
    refused_tokens(both, 24, 4);
    refused_tokens(both, 23, 11);
}

/* n oracle terminals joined by BitAnd, Eq 9; a key is 31 bytes of 7 and the terminal's byte of `last`. The code's length. */
static size_t terminals_code(uint8_t *code, const uint8_t *last, size_t n) {
    size_t at = 0;
    for (size_t i = 0; i < n; i++) {
        memset(code + at, 7, 41);
        code[at] = i ? 33 : 32;
        code[at + 32] = last[i];
        at += 41;
        if (i) code[at++] = 27;
    }
    memset(code + at, 0, 10);
    code[at] = 16, code[at + 1] = 9, code[at + 9] = 48;
    return at + 10;
}

/* The keys that end with these bytes, one after the other; their length. */
static size_t keys_of(uint8_t *keys, const uint8_t *last, size_t n) {
    memset(keys, 7, 32 * n);
    for (size_t i = 0; i < n; i++) keys[32 * i + 31] = last[i];
    return 32 * n;
}

/* Three oracle terminals, by the last bytes of their keys; what Write must leave: the keys, by theirs, and the place of each terminal's. */
typedef struct { uint8_t last[3], left[3]; size_t count; uint32_t at[3]; } key_case;
enum { THREE = 42 * 3 + 9, THREE_TOKENS = 10 + 2 * 14 + 2, THREE_ROOM = THREE_TOKENS + 2 };

static int read_back(covenant_decoded d, const uint8_t *back, const uint8_t *code) {
    return d.number == 0 && d.code_bytes == THREE && d.start == 0 && !memcmp(back, code, THREE) && kept(back, THREE, COVENANT_MAX_CODE);
}

/* Decode must read the same with the keys that Write leaves and with a key for each terminal, as it left them before R-5. */
static void key_order(const key_case *k) {
    uint8_t code[THREE], kinds[THREE_ROOM], keys[32 * 3 + 8], known[32 * 3], back[COVENANT_MAX_CODE];
    uint64_t numbers[THREE_ROOM];
    uint32_t places[THREE_ROOM];
    size_t bytes = keys_of(known, k->left, k->count), seen = 0;
    terminals_code(code, k->last, 3);
    memset(kinds, FILL, sizeof kinds);
    memset(numbers, FILL, sizeof numbers);
    memset(places, FILL, sizeof places);
    memset(keys, FILL, sizeof keys);
    memset(back, FILL, sizeof back);
    covenant_written w = covenant_write(code, THREE, kinds, THREE_ROOM, numbers, THREE_ROOM, places, THREE_ROOM, keys, bytes - 1);
    expect(w.number == 7 && w.records == 0 && w.key_bytes == 0 && ALL_KEPT, "write: a key byte too few");
    w = covenant_write(code, THREE, kinds, THREE_ROOM, numbers, THREE_ROOM, places, THREE_ROOM, keys, bytes);
    expect(w.number == 0 && w.records == THREE_TOKENS && w.key_bytes == bytes, "write: three oracle terminals");
    expect(!memcmp(keys, known, bytes) && kept(keys, bytes, sizeof keys) && kept(places, THREE_TOKENS * 4, sizeof places), "write: keys in token order");
    covenant_decoded d = covenant_decode(kinds, THREE_TOKENS, numbers, THREE_TOKENS, places, THREE_TOKENS, keys, bytes, back, sizeof back);
    expect(read_back(d, back, code), "decode: keys in token order");
    for (size_t i = 0; i < THREE_TOKENS; i++) {
        expect(places[i] == (kinds[i] == 3 && seen < 3 ? k->at[seen] : 0), "write: the places of keys");
        if (kinds[i] == 3) places[i] = (uint32_t)(32 * seen++);
    }
    memset(back, FILL, sizeof back);
    d = covenant_decode(kinds, THREE_TOKENS, numbers, THREE_TOKENS, places, THREE_TOKENS, known, keys_of(known, k->last, 3), back, sizeof back);
    expect(read_back(d, back, code), "decode: a key for each terminal");
}

static void key_order_records(const key_case *k) {
    uint8_t code[THREE], keys[32 * 3 + 8], known[32 * 3], back[COVENANT_MAX_CODE];
    covenant_record r[THREE_ROOM];
    size_t bytes = keys_of(known, k->left, k->count), seen = 0;
    terminals_code(code, k->last, 3);
    memset(r, FILL, sizeof r);
    memset(keys, FILL, sizeof keys);
    memset(back, FILL, sizeof back);
    covenant_written w = covenant_write_records(code, THREE, r, THREE_ROOM, keys, bytes - 1);
    expect(w.number == 7 && w.records == 0 && w.key_bytes == 0 && kept(r, 0, sizeof r) && kept(keys, 0, sizeof keys), "write_records: a key byte too few");
    w = covenant_write_records(code, THREE, r, THREE_ROOM, keys, sizeof keys);
    expect(w.number == 0 && w.records == THREE_TOKENS && w.key_bytes == bytes, "write_records: three oracle terminals");
    expect(!memcmp(keys, known, bytes) && kept(keys, bytes, sizeof keys) && kept(r, THREE_TOKENS * sizeof *r, sizeof r), "write_records: keys in token order");
    covenant_decoded d = covenant_decode_records(r, THREE_TOKENS, keys, bytes, back, sizeof back);
    expect(read_back(d, back, code), "decode_records: keys in token order");
    for (size_t i = 0; i < THREE_TOKENS; i++) {
        expect(r[i].place == (r[i].kind == 3 && seen < 3 ? k->at[seen] : 0), "write_records: the places of keys");
        if (r[i].kind == 3) r[i].place = (uint32_t)(32 * seen++);
    }
    memset(back, FILL, sizeof back);
    d = covenant_decode_records(r, THREE_TOKENS, known, keys_of(known, k->last, 3), back, sizeof back);
    expect(read_back(d, back, code), "decode_records: a key for each terminal");
}

static void key_orders(void) {
    static const key_case all[] = {
        {{8, 8, 8}, {8}, 1, {0, 0, 0}},
        {{9, 8, 9}, {9, 8}, 2, {0, 32, 0}},
        {{9, 8, 8}, {9, 8}, 2, {0, 32, 32}},
        {{9, 8, 7}, {9, 8, 7}, 3, {0, 32, 64}},
    };
    for (size_t i = 0; i < COUNT(all); i++) key_order(&all[i]), key_order_records(&all[i]);
}

/* The sizes that the header names are enough for the most oracle terminals that there can be; one more is refused. */
static void most_terminals(void) {
    enum { MOST = COVENANT_MAX_ORACLES };
    static uint8_t code[42 * (MOST + 1) + 10], witness[80 * MOST], checks[112 * MOST], kinds[COVENANT_MAX_TOKENS], keys[32 * MOST], known[32 * MOST], last[MOST + 1];
    static uint64_t numbers[COVENANT_MAX_TOKENS];
    static uint32_t places[COVENANT_MAX_TOKENS], ends[3 * MOST];
    for (size_t i = 0; i <= MOST; i++) last[i] = (uint8_t)i;
    size_t n = terminals_code(code, last, MOST);
    memset(witness, 7, sizeof witness); /* the terminals' own time */
    for (uint32_t i = 0; i < 3 * MOST; i++) ends[i] = 80 * (i / 3) + (i % 3 == 0 ? 64 : i % 3 == 1 ? 72 : 80);
    covenant_evaluated e = covenant_evaluate(code, n, 0, 0, 0, 0, 0, 0, 0, 0, 0, 0, 0, 0, 0, 0, 0, 0, 0, witness, sizeof witness, ends, COUNT(ends), checks, sizeof checks);
    expect(e.number == 0 && e.checks == MOST && e.left == 0, "evaluate: the most oracle terminals");
    covenant_written w = covenant_write(code, n, kinds, COUNT(kinds), numbers, COUNT(numbers), places, COUNT(places), keys, sizeof keys);
    expect(w.number == 0 && w.records <= COVENANT_MAX_TOKENS && w.key_bytes == sizeof keys, "write: the most oracle terminals");
    expect(keys_of(known, last, MOST) == sizeof keys && !memcmp(keys, known, sizeof keys), "write: the most keys");
    n = terminals_code(code, last, MOST + 1);
    expect(covenant_check(code, n).number == 3, "check: an oracle terminal too many");
    memset(last, 7, sizeof last);
    memset(keys, FILL, sizeof keys);
    n = terminals_code(code, last, MOST);
    w = covenant_write(code, n, kinds, COUNT(kinds), numbers, COUNT(numbers), places, COUNT(places), keys, 32);
    expect(w.number == 0 && w.key_bytes == 32 && !memcmp(keys, code + 1, 32) && kept(keys, 32, sizeof keys), "write: the most oracle terminals with one key");
}

/* A script that fits into 64 bytes: in exact room and in more it is written and nothing after it; in a byte less, or none, it is refused. */
static void script_is(const uint8_t *code, size_t count, const uint8_t *known, size_t bytes, const char *what) {
    uint8_t script[64 + 8];
    for (size_t room = bytes; room <= bytes + 8; room += 8) {
        memset(script, FILL, sizeof script);
        covenant_script_written a = covenant_write_script(code, count, script, room);
        expect(a.number == 0 && a.place == 0 && a.script_bytes == bytes && !memcmp(script, known, bytes) && kept(script, bytes, sizeof script), what);
    }
    memset(script, FILL, sizeof script);
    covenant_script_written a = covenant_write_script(code, count, script, bytes - 1);
    expect(a.number == 7 && a.place == 0 && a.script_bytes == 0 && kept(script, 0, sizeof script), "script: a byte too few");
    a = covenant_write_script(code, count, 0, 0);
    expect(a.number == 7 && a.place == 0 && a.script_bytes == 0, "script: no buffer");
}

/* Refused, whatever the room, and nothing is written. */
static void script_refused(const uint8_t *code, size_t count, uint32_t number, uint64_t place, const char *what) {
    uint8_t script[COVENANT_MAX_SCRIPT];
    memset(script, FILL, sizeof script);
    covenant_script_written a = covenant_write_script(code, count, script, sizeof script), b = covenant_write_script(code, count, 0, 0);
    expect(a.number == number && a.place == place && a.script_bytes == 0 && kept(script, 0, sizeof script), what);
    expect(b.number == number && b.place == place && b.script_bytes == 0, what);
}

static void script(void) {
    static const uint8_t five_script[19] = {8, 5, 0, 0, 0, 0, 0, 0, 0, 8, 5, 0, 0, 0, 0, 0, 0, 0, 0x87};
    script_is(five, sizeof five, five_script, sizeof five_script, "script: 5 Eq 5");
    static const uint8_t less_one_script[16] = {0xcd, 0x51, 0x94, 0xc9, 0x51, 0x88, 8, 7, 0, 0, 0, 0, 0, 0, 0, 0x87};
    script_is(less_one, sizeof less_one, less_one_script, sizeof less_one_script, "script: current index less one");

    /* an oracle terminal: its time in the 8 bytes after 3, its key in the 32 after 16; then 9 */
    uint8_t code[51], known[60] = {0x6e, 0x6b, 8, 5, 0, 0, 0, 0, 0, 0, 0, 0xdf, 0x69, 0x7e, 0xa8, 0x20, [48] = 0xc2, 0x6c, 8, 9, [59] = 0x87};
    oracle_code(code);
    for (int i = 0; i < 32; i++) known[16 + i] = (uint8_t)(i + 4);
    script_is(code, sizeof code, known, sizeof known, "script: an oracle terminal");

    /* the current index by 128, by 2^32 - 1, by 2^32 */
    uint8_t by[22] = {2, 1, 128, 0, 0, 0, 0, 0, 0, 0, 6, 18, 16, 5, [21] = 48};
    static const uint8_t by_128[24] = {0xcd, 0xe0, 2, 128, 0, 0xe0, 0xda, 0x51, 0x88, 0x77, 0xe1, 0xc9, 0x51, 0x88, 8, 5, [23] = 0x87};
    script_is(by, sizeof by, by_128, sizeof by_128, "script: an index constant of 128");
    static const uint8_t by_most[27] = {0xcd, 0xe0, 5, 255, 255, 255, 255, 0, 0xe0, 0xda, 0x51, 0x88, 0x77, 0xe1, 0xc9, 0x51, 0x88, 8, 5, [26] = 0x87};
    memset(by + 2, 255, 4);
    script_is(by, sizeof by, by_most, sizeof by_most, "script: an index constant of 2^32 - 1");
    memset(by + 2, 0, 4), by[6] = 1;
    script_refused(by, sizeof by, 6, 0, "script: an index constant of 2^32");

    script_refused(0, 0, 2, 0, "script: no code");
    script_refused(five, 9, 2, 9, "script: a constant alone");
    static const uint8_t long_code[COVENANT_MAX_CODE + 1];
    script_refused(long_code, sizeof long_code, 1, 0, "script: code that is too long");
    code[0] = 33;
    script_refused(code, sizeof code, 4, 0, "script: a misplaced oracle terminal");
}

/* The size that the header names is enough for the longest script, and none of it is left: 512 constants joined by Xor, an Invert, Eq. */
static void longest_script(void) {
    enum { MOST = COVENANT_MAX_SCRIPT, CONSTANTS = COVENANT_MAX_TOKENS / 2 };
    static uint8_t code[10 * CONSTANTS], known[MOST], script[MOST + 8];
    for (size_t i = 0; i < CONSTANTS; i++) {
        uint8_t *c = code + 10 * i, *k = known + 10 * i;
        memset(c, (int)i, 9), memset(k, (int)i, 9);
        c[0] = 16, k[0] = 8;
        c[9] = i == 0 ? 30 : i < CONSTANTS - 1 ? 29 : 48;
        k[9] = i == 0 ? 0x83 : i < CONSTANTS - 1 ? 0x86 : 0x87;
    }
    memset(script, FILL, sizeof script);
    covenant_script_written a = covenant_write_script(code, sizeof code, script, MOST - 1);
    expect(a.number == 7 && a.script_bytes == 0 && kept(script, 0, sizeof script), "script: a byte too few for the longest");
    a = covenant_write_script(code, sizeof code, script, MOST);
    expect(a.number == 0 && a.script_bytes == MOST && !memcmp(script, known, MOST) && kept(script, MOST, sizeof script), "script: the longest");
}

int main(void) {
    check();
    evaluate();
    write_and_decode();
    records();
    misplaced_oracles();
    key_orders();
    most_terminals();
    script();
    longest_script();
    if (!failures) puts("boundary: the calls from C agree");
    return failures != 0;
}
