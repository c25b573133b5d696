/* The covenant core of the signing unit: check, evaluate, write and read spending conditions, and write their scripts. C's view of libcovenant.a, which is compiled
 * for x86-64 with the System V calling convention: 64-bit pointers and sizes, little-endian.
 *
 * "Document 01" is the specification, "Covenant conditions in the signing unit". It has the bytes of condition code and the kinds of tokens. What each refusal
 * means, with an example: docs/OPERATORS.md.
 *
 * A slice is a pointer and a number of elements. With 0 elements the pointer may be null. Else it must not be null, must be aligned as its type asks (bytes: at any
 * address; ends and places: 4; amounts, numbers and records: 8), and all its elements must be there. A slice that a call writes must not overlap another slice of
 * that call, and nothing else may change a lent slice while the call runs. These are the caller's duties; a call does not test them. Everything else is tested: any bytes
 * and numbers in the slices get an answer.
 *
 * Nothing is allocated and nothing is kept between calls. So calls may run at the same time, as long as none of them writes a slice that another one uses. A call that is
 * given the stack that docs/MEMORY.md says always returns. Decode takes the most stack, and its stack grows with the number of tokens. Time grows with the number of
 * commands or tokens; that of Evaluate also with the amounts and witness ends that are lent, each of which is judged, whether the condition looks at it or not. docs/SPEED.md
 * has what each costs. The archive needs memset and memcpy and nothing else.
 *
 * `number` is 0 for success, else the refusal's number. `place` is refusal 2's offset or refusal 9's record. In covenant_evaluated, `first` and `second` are the
 * refusal's data in document 01's order, refusal 2's offset in `first`; signed operands are given as their 64 bits. Fields that an answer does not name are 0, but for
 * `left`, which always is the number of witness elements left. Padding has no meaning. */
#ifndef COVENANT_H
#define COVENANT_H

#include <stddef.h>
#include <stdint.h>

#ifdef __cplusplus
extern "C" {
#endif

typedef struct { uint32_t number; uint64_t place; } covenant_checked;
typedef struct { uint32_t number; uint32_t verdict; uint64_t first, second; uint64_t checks, left; } covenant_evaluated;
typedef struct { uint32_t number; uint64_t place; uint64_t records, key_bytes; } covenant_written;
typedef struct { uint32_t number; uint64_t place; uint64_t code_bytes, start; } covenant_decoded;
typedef struct { uint32_t number; uint64_t place; uint64_t script_bytes; } covenant_script_written;

/* One token: 24 bytes. `number` counts for kinds 1 (Num) and 2 (Bytes8), `place` for kind 3 (Bytes32): where its 32 bytes begin in the key bytes. Else Decode ignores
 * them and Write writes 0. The same holds of the slices of numbers and places. */
typedef struct { uint8_t kind; uint64_t number; uint32_t place; } covenant_record;

/* Sizes that are always enough for one condition: COVENANT_MAX_CODE bytes of code, COVENANT_MAX_TOKENS records, and COVENANT_MAX_ORACLES oracle terminals, each with
 * at most 32 key bytes and a check of 112 bytes. Where the oracle rule is kept, at most one terminal is a PriceOracle1, of 10 tokens; each further one takes 13, and one for the
 * operation that joins it. */
#define COVENANT_MAX_CODE 9216
#define COVENANT_MAX_TOKENS 1024
#define COVENANT_MAX_ORACLES 73

/* A size that is always enough for the script of one condition. The longest has exactly so many bytes: 512 constants, of 9 each, and 512 operations of one. */
#define COVENANT_MAX_SCRIPT 5120

/* Whether bytes are condition code within the bounds that keeps the oracle rule. Refusals 1 to 5. Writes nothing. */
covenant_checked covenant_check(const uint8_t *code, size_t code_count);

/* Evaluates a condition for one input of a transaction. Lent are
 *   - four lists, with a mark for each number (1 explicit, 0 not or none): the amount that each input spends, the amount of each output, the amount that each input
 *     issues, and the number of reissuance keys that each input issues. The lists of inputs, spent, issued and reissued, have equal length;
 *   - the index of the input, counted from 0;
 *   - the witness: the bytes of its elements, bottom first, and where each of them ends. An oracle terminal takes three elements off the top: the price (8 bytes),
 *     then the time (8), then the signature (64). So they are lent as signature, time, price, those of the first terminal last. An element that is no push is given
 *     as empty: it ends where the one below it ends;
 *   - a buffer with 112 bytes for each oracle terminal of the condition.
 * The witness's time must be at least the terminal's, as on chain: 39 where it is smaller. Both are signed: a time of 2^63 or more is negative.
 * A check is 112 bytes: key (32), the witness's time (8), price (8), signature (64). Checks stand in the order in which the terminals are evaluated. Prices and times are
 * little-endian. The host verifies all checks that are listed, after a refusal too; the verdict counts only if all hold. A check holds if its signature is one of BIP 340, with
 * its key, over the SHA-256 of its bytes 32 to 47 (time, then price; no tag); a key that is not the x coordinate of a point is a check that failed. Where one
 * fails the script fails on chain.
 * Index values are signed, as on chain. Each lies from -(2^31 - 1) to 2^31 - 1, the current index where the condition uses it included, else 41; division is Euclidean, by 0
 * it is 41. A lookup at an index below 0 is 43, without data.
 * Refusals 1 to 5, 8, 12, 7, then 20 to 41 and 43 in evaluation order. `verdict` is 1 for true, 0 for false. The first 112 * `checks` bytes of the buffer are written, after a
 * refusal too, and no byte after them. */
covenant_evaluated covenant_evaluate(
    const uint8_t *code, size_t code_count,
    const uint64_t *spent, size_t spent_count, const uint8_t *spent_marks, size_t spent_marks_count,
    const uint64_t *outputs, size_t outputs_count, const uint8_t *output_marks, size_t output_marks_count,
    const uint64_t *issued, size_t issued_count, const uint8_t *issued_marks, size_t issued_marks_count,
    const uint64_t *reissued, size_t reissued_count, const uint8_t *reissued_marks, size_t reissued_marks_count,
    uint64_t current, const uint8_t *witness, size_t witness_count, const uint32_t *ends, size_t ends_count,
    uint8_t *checks, size_t checks_count);

/* Writes the token form of a condition, at the front of the slices: kinds, numbers and places of `records` tokens, and in the first `key_bytes` bytes of the keys each
 * key once, in the order of the first token that names it, one after the other. The place of a token's record is where its key begins; so conditions with one token form
 * are written alike, byte for byte. Refusals 1 to 5, 6, 7: fewer records than tokens, or under 32 key bytes for each different key. A refusal writes nothing, and nothing
 * is written beyond what is reported. */
covenant_written covenant_write(
    const uint8_t *code, size_t code_count, uint8_t *kinds, size_t kinds_count, uint64_t *numbers, size_t numbers_count,
    uint32_t *places, size_t places_count, uint8_t *keys, size_t keys_count);

/* Reads the condition that token records end with: its code goes to the front of `code`, which must have room for COVENANT_MAX_CODE bytes; `start` is the
 * record that its form starts with. There are as many records as kinds. Refusals 10, 9, 7, then 4, 5 or 11: 4 and 5 where the records end with the form of a
 * condition that Check refuses so, 11 where they end with the form of none. A refusal writes nothing, and nothing is written beyond `code_bytes`. */
covenant_decoded covenant_decode(
    const uint8_t *kinds, size_t kinds_count, const uint64_t *numbers, size_t numbers_count, const uint32_t *places, size_t places_count,
    const uint8_t *keys, size_t keys_count, uint8_t *code, size_t code_count);

/* Writes the script of a condition, the bytes of the opcodes and pushes of its token form, to the front of `script`. A constant and an oracle's time are pushes of
 * 8 bytes, a key is one of 32; an index constant is the shortest script number, with 0 and 1 to 16 as their own opcodes. Refusals 1 to 5, 6, 7: a buffer shorter than
 * the script. A refusal writes nothing, and nothing is written beyond `script_bytes`. */
covenant_script_written covenant_write_script(const uint8_t *code, size_t code_count, uint8_t *script, size_t script_count);

/* Write and Decode over token records, of which only the three fields are written. */
covenant_written covenant_write_records(
    const uint8_t *code, size_t code_count, covenant_record *records, size_t records_count, uint8_t *keys, size_t keys_count);
covenant_decoded covenant_decode_records(
    const covenant_record *records, size_t records_count, const uint8_t *keys, size_t keys_count, uint8_t *code, size_t code_count);

#ifdef __cplusplus
}
#endif
#endif
