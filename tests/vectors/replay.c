/* replay FILE: makes the calls of the cases through the archive, those of Write and Decode over token records too, and compares every number, datum and byte with the known
 * answer. What is not reported must be kept. */
#include "cases.h"
#include "covenant.h"

enum { FILL = 0xa5, ROOM = 1 << 14, CALLS = 7 };

/* What is written to, as large as any case asks for. */
static uint8_t out[ROOM], kinds[ROOM], keys[ROOM];
static uint64_t numbers[ROOM];
static uint32_t places[ROOM];
static covenant_record records[ROOM];

static int filled(const void *p, size_t from, size_t to) {
    const uint8_t *b = p;
    for (size_t i = from; i < to; i++)
        if (b[i] != FILL) return 0;
    return 1;
}

/* Whether a buffer has these bytes, and after them what it was filled with. */
static int holds(const void *buffer, size_t size, const void *bytes, size_t count) {
    return !memcmp(buffer, bytes, count) && filled(buffer, count, size);
}

static int check(void) {
    covenant_checked a = covenant_check(u8(0), n8(0));
    return a.number == u64(1)[0] && a.place == u64(1)[1];
}

static int evaluate(void) {
    const uint64_t *known = u64(11);
    memset(out, FILL, sizeof out);
    covenant_evaluated a = covenant_evaluate(u8(0), n8(0), u64(1), n64(1), u8(2), n8(2), u64(3), n64(3), u8(4), n8(4), u64(5), n64(5), u8(6), n8(6), u64(7), n64(7), u8(8), n8(8),
                                             known[0], u8(9), n8(9), u32(10), n32(10), out, known[1]);
    return a.number == known[2] && a.verdict == known[3] && a.first == known[4] && a.second == known[5] && a.checks == known[6] && a.left == known[7] &&
           holds(out, sizeof out, u8(12), n8(12));
}

static void fill(void) {
    memset(kinds, FILL, sizeof kinds);
    memset(numbers, FILL, sizeof numbers);
    memset(places, FILL, sizeof places);
    memset(keys, FILL, sizeof keys);
    memset(records, FILL, sizeof records);
}

static int written(covenant_written a) {
    const uint64_t *known = u64(1) + 4;
    return a.number == known[0] && a.place == known[1] && a.records == known[2] && a.key_bytes == known[3] && holds(kinds, sizeof kinds, u8(2), n8(2)) &&
           holds(numbers, sizeof numbers, u64(3), n8(3)) && holds(places, sizeof places, u32(4), n8(4)) && holds(keys, sizeof keys, u8(5), n8(5));
}

static int write(void) {
    const uint64_t *room = u64(1);
    fill();
    return written(covenant_write(u8(0), n8(0), kinds, room[0], numbers, room[1], places, room[2], keys, room[3]));
}

/* The room is that of the shortest slice. */
static int write_records(void) {
    const uint64_t *room = u64(1);
    size_t n = room[0] < room[1] ? room[0] : room[1];
    if (room[2] < n) n = room[2];
    fill();
    covenant_written a = covenant_write_records(u8(0), n8(0), records, n, keys, room[3]);
    if (a.records > n || !filled(records, a.records * sizeof *records, sizeof records)) return 0;
    for (size_t i = 0; i < a.records; i++) kinds[i] = records[i].kind, numbers[i] = records[i].number, places[i] = records[i].place;
    return written(a);
}

static int decoded(covenant_decoded a) {
    const uint64_t *known = u64(4);
    return a.number == known[1] && a.place == known[2] && a.code_bytes == known[3] && a.start == known[4] && holds(out, sizeof out, u8(5), n8(5));
}

static int decode(void) {
    memset(out, FILL, sizeof out);
    return decoded(covenant_decode(u8(0), n8(0), u64(1), n64(1), u32(2), n32(2), u8(3), n8(3), out, u64(4)[0]));
}

/* Where a number or place is not lent there is no record to be had. */
static int has_records(void) { return n8(0) <= n64(1) && n8(0) <= n32(2); }

static int decode_records(void) {
    for (size_t i = 0; i < n8(0); i++) records[i] = (covenant_record){u8(0)[i], u64(1)[i], u32(2)[i]};
    memset(out, FILL, sizeof out);
    return decoded(covenant_decode_records(records, n8(0), u8(3), n8(3), out, u64(4)[0]));
}

static int script(void) {
    const uint64_t *known = u64(1);
    memset(out, FILL, sizeof out);
    covenant_script_written a = covenant_write_script(u8(0), n8(0), out, known[0]);
    return a.number == known[1] && a.place == known[2] && a.script_bytes == known[3] && holds(out, sizeof out, u8(2), n8(2));
}

static const char *const name[CALLS] = {"Check", "Evaluate", "Write", "Decode", "Script", "Write, records", "Decode, records"};
static int (*const agrees[CALLS])(void) = {check, evaluate, write, decode, script, write_records, decode_records};
static unsigned count[CALLS], differ[CALLS];

static void replay(int call) {
    count[call]++;
    if (!agrees[call]() && !differ[call]++) printf("%s: case %u differs\n", name[call], count[call]);
}

int main(int argc, char **argv) {
    FILE *f = argc > 1 ? fopen(argv[1], "rb") : 0;
    int call = -1, failed = 0;
    while (f && (call = next_case(f)) > 0) {
        if (call > SCRIPT) return puts("no call"), 1;
        replay(call - 1);
        if (call == WRITE) replay(5);
        if (call == DECODE && has_records()) replay(6);
    }
    for (int c = 0; c < CALLS; c++) {
        printf("%-16s%5u cases, %u differ\n", name[c], count[c], differ[c]);
        failed |= differ[c] || !count[c];
    }
    return call != 0 || failed;
}
