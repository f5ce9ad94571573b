/* phg.h: the operations of documents 01 and 02 for callers in C and C++.
 *
 * Link target/staticlib/libc_interface.a, which examples/run and bench/run put there: what `rt lib` writes in
 * crates/c_interface_c. It is for x86-64 Linux, and of the C library it needs memset alone.
 *
 * Rules that a caller keeps. Under them each function is total: it answers on every input.
 *   - A slice is a pointer and a length in entries. The pointer is valid for that many entries, and aligned for them.
 *     With length 0 the pointer is not used and may be any, NULL too.
 *   - `answer` points to six numbers that may be written.
 *   - What may be written (out, work, answer) overlaps no other slice of the call. Slices that are only read may
 *     overlap one another; compare may be given one file twice.
 *   - The memory stays where it is during the call, and no other thread writes to it, nor reads what may be written.
 * Calls from any thread: there are no globals, nothing is allocated, and nothing is kept after the call.
 *
 * The six numbers. answer[0] is 0 on success, and the values follow in answer[1], answer[2], ... as each function
 * says. Otherwise answer[0] is the number of a refusal, answer[1] its side (which of a call's several like inputs is
 * refused, from 0: 1 for compare's second file), answer[2] the position of the first bad gate and answer[3] what is
 * wrong with it, one of the reasons below (both PHG_GATE only, else 0). All six are written always; those not named
 * are 0.
 *
 * A refusal writes nothing to out or work. Success writes the named front of it and leaves the rest as it was.
 * Checks are made in the order in which each function names its refusals: by number, but PHG_ROOM last; the table
 * before a file, the first file before the second.
 */
#ifndef PHG_H
#define PHG_H

#ifdef PHG_NO_HEADERS /* for a compiler without C headers */
typedef __UINT8_TYPE__ uint8_t;
typedef __UINT16_TYPE__ uint16_t;
typedef __INT32_TYPE__ int32_t;
typedef __UINT64_TYPE__ uint64_t;
typedef __SIZE_TYPE__ size_t;
#else
#include <stddef.h>
#include <stdint.h>
#endif

#ifdef __cplusplus
extern "C" {
#endif

/* The refusals. TABLE stands for VARS, TABLE and PAD below, and FILE for SHORT to GATE. */
#define PHG_VARS 1     /* n is 0 or above 8 */
#define PHG_TABLE 2    /* table length wrong */
#define PHG_PAD 3      /* an unused table bit is 1 */
#define PHG_SHORT 4    /* file under 8 bytes */
#define PHG_MARK 5     /* mark wrong */
#define PHG_VERSION 6  /* version is neither 1 nor 2 */
#define PHG_WIRES 7    /* wires are 0 or above 10 */
#define PHG_COUNT 8    /* gate count above 2,048 */
#define PHG_LENGTH 9   /* length is not 8 + 4 times count */
#define PHG_GATE 10    /* some gate bad: the reasons below */
#define PHG_STATE 11   /* start not below 2^w */
#define PHG_UNLIKE 12  /* wire counts differ; in judge, w is not n + 1 */
#define PHG_ROOM 13    /* out shorter than this call's result, or work than 2^w */
#define PHG_LOOSE 17   /* not to be wrapped: a wire does not end on its own mask, or ends with a flip */
#define PHG_ALLOW 18   /* more than 2,048 removals allowed */

/* What is wrong with a bad gate: of several faults the first in this order. */
#define PHG_REASON_KIND 1   /* the kind is none of 1, 2 and, where the file's version is 2, 3 */
#define PHG_REASON_WIRE 2   /* a wire is not below w */
#define PHG_REASON_EQUAL 3  /* control equals target */
#define PHG_REASON_SPARE 4  /* a CNOT's last byte, or one of an inverter's last two, is not 0 */

/* Whether `table` is the packed table of a function of n variables. No values. Refusals: TABLE. */
void phg_check(uint8_t n, const uint8_t *table, size_t table_len, uint64_t answer[6]);

/* f(x), 0 or 1: bit x mod 8 of byte x div 8; 0 past the table's end. Nothing is checked. */
uint8_t phg_value(const uint8_t *table, size_t table_len, size_t x);

/* The spectrum s_0 to s_(2^n - 1) to the front of out. answer[1]: 2^n. Refusals: TABLE, ROOM. */
void phg_spectrum(uint8_t n, const uint8_t *table, size_t table_len, int32_t *out, size_t out_len,
                  uint64_t answer[6]);

/* The gate of four bytes on w wires in a file of a version: kind 3 is good only where that is 2, and every other
 * version is like 1. answer[0] is the gate's kind: 1 CNOT, then control and target; 2 phase, then wire and angle;
 * 3 inverter (X), then wire and 0; answer[3] is the position as given. A bad gate: answer[0] is 0, [1]: its reason.
 * No refusals. */
void phg_decode(uint16_t version, uint8_t w, size_t position, uint8_t kind, uint8_t a, uint8_t b, uint8_t c,
                uint64_t answer[6]);

/* A file checked. answer[1]: wires, [2]: gates. Refusals: FILE. */
void phg_read(const uint8_t *file, size_t file_len, uint64_t answer[6]);

/* A run from one starting state. answer[1]: end state, [2]: phase. Refusals: FILE, STATE. */
void phg_run(const uint8_t *file, size_t file_len, uint16_t start, uint64_t answer[6]);

/* A count. answer[1]: CNOTs, [2]: phase gates, [3]: score: the phase gates whose angle is no multiple of 16,384, since
 * quarter and half turns are free, [4]: inverters. Refusals: FILE. */
void phg_count(const uint8_t *file, size_t file_len, uint64_t answer[6]);

/* The table's circuit file, of version 1, to the front of out. answer[1]: its length, 2^(n + 4).
 * Refusals: TABLE, ROOM. */
void phg_build(uint8_t n, const uint8_t *table, size_t table_len, uint8_t *out, size_t out_len, uint64_t answer[6]);

/* The folded file, of the file's version, to the front of out. answer[1]: its length, at most file_len, [2]: score
 * before, [3]: score after, which is never higher. Refusals: FILE, ROOM. */
void phg_fold(const uint8_t *file, size_t file_len, uint8_t *out, size_t out_len, uint64_t answer[6]);

/* Equal neighbouring CNOTs removed, pair by pair, the pair that begins lowest first, at most `most` pairs: the file that
 * is left, of the file's version, to the front of out. answer[1]: its length, file_len less 8 for each pair, [2]: how
 * many pairs went; if fewer than `most`, no pair is left. Refusals: FILE, ALLOW where most is above 2,048, ROOM. */
void phg_cancel(const uint8_t *file, size_t file_len, uint16_t most, uint8_t *out, size_t out_len,
                uint64_t answer[6]);

/* Whether two circuits, of one version or not, do the same. answer[1]: 0 same, 1 different; if different [2]: lowest
 * differing state, which may be 0, [3] and [4]: the first's and the second's end there, [5]: first phase minus second.
 * work[0] to work[2^w - 1] become the first's coefficients minus the second's, work[0] that of the constants.
 * Refusals: FILE (side 0, then side 1), UNLIKE, ROOM. */
void phg_compare(const uint8_t *first, size_t first_len, const uint8_t *second, size_t second_len, uint16_t *work,
                 size_t work_len, uint64_t answer[6]);

/* Whether a circuit is the oracle of a table: as phg_compare, the second side being the table's ideal.
 * Refusals: TABLE, FILE, UNLIKE, ROOM. */
void phg_judge(uint8_t n, const uint8_t *table, size_t table_len, const uint8_t *file, size_t file_len,
               uint16_t *work, size_t work_len, uint64_t answer[6]);

/* The OpenQASM 2.0 text of a file to the front of out, with the h lines where wrapped is not 0; no 0 byte ends it.
 * answer[1]: its length, at most 65,600. Refusals: FILE, LOOSE where wrapped is not 0, ROOM. */
void phg_list(const uint8_t *file, size_t file_len, uint8_t wrapped, uint8_t *out, size_t out_len,
              uint64_t answer[6]);

/* A table built, folded and listed, wrapped. answer[1]: the text's length, at most 65,536. Refusals: TABLE, ROOM. */
void phg_list_oracle(uint8_t n, const uint8_t *table, size_t table_len, uint8_t *out, size_t out_len,
                     uint64_t answer[6]);

#ifdef __cplusplus
}
#endif

#endif
