/* What Decode's readers take of the stack each time that they call themselves, measured by the stack of two token lists that differ in the number of calls alone. Fails where
 * a frame has grown: MEMORY.md's figures for the deepest lists rest on these. */
#include "covenant.h"
#include "stack.h"
#include <stdio.h>
#include <string.h>

enum { FEW = 50, MANY = 130 };

static uint8_t kinds[COVENANT_MAX_TOKENS], code[COVENANT_MAX_CODE];
static uint64_t numbers[COVENANT_MAX_TOKENS];
static uint32_t places[COVENANT_MAX_TOKENS];
static size_t count;

static void decode(void *p) { *(covenant_decoded *)p = covenant_decode(kinds, count, numbers, count, places, count, 0, 0, code, sizeof code); }

/* The stack of Decode on an operation that stands n times, without an operand, before what takes its result off; each time its reader calls itself. */
static size_t stack_of(const uint8_t *own, size_t width, size_t n, const uint8_t *after, size_t rest) {
    covenant_decoded answer;
    count = n * width + rest;
    for (size_t i = 0; i < n; i++) memcpy(kinds + i * width, own, width);
    memcpy(kinds + n * width, after, rest);
    for (size_t i = 0; i < count; i++) numbers[i] = 1;
    return stack_used(decode, &answer);
}

static int frame(const char *what, size_t most, const uint8_t *own, size_t width, const uint8_t *after, size_t rest) {
    size_t bytes = (stack_of(own, width, MANY, after, rest) - stack_of(own, width, FEW, after, rest)) / (MANY - FEW);
    printf("frames: %s, %zu bytes, at most %zu\n", what, bytes, most);
    return bytes > most;
}

int main(void) {
    static const uint8_t add[] = {11, 1, 14, 15}, equal[] = {14}, mul[] = {7, 9, 1, 14, 15, 8}, amount[] = {22, 1, 14, 15, 14};
    return frame("a value reader", 64, add, sizeof add, equal, sizeof equal) | frame("an index reader", 48, mul, sizeof mul, amount, sizeof amount);
}
