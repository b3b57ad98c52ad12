/* The trace check: what a trace's bytes hold, without running them. Link target/staticlib/libtrace.a, which host/build
 * writes: the archive that `rt lib` makes of crates/trace_c.
 *
 * Each function answers for any bytes; none of them allocates or fails, and only the last one writes. A trace is read
 * operation by operation, up to its end or to the first operation that cannot be read. `bytes` points at `length` bytes
 * that can be read; where length is 0, nothing is read through it. A trace holds operations alone: a kind and a capacity
 * before them, as an input of the program `replay` has, would be read as an operation.
 */
#ifndef TRACE_CHECK_H
#define TRACE_CHECK_H

#include <stddef.h>
#include <stdint.h>

#ifdef __cplusplus
extern "C" {
#endif

/* How many operations read whole. One that is cut at the end, or refused, is not counted. */
uint64_t trace_operations(const uint8_t *bytes, size_t length);

/* The number of the refusal that stopped the check: 4 for a code outside 1 to 5; 5 for a number of which a byte is missing, that is not in its
 * shortest form, or is too large; 0 for none. */
uint64_t trace_refusal(const uint8_t *bytes, size_t length);

/* Where the refused operation starts, in bytes from the trace's first; `length` where nothing was refused. */
uint64_t trace_offset(const uint8_t *bytes, size_t length);

/* All three in one pass: out[0] operations, out[1] refusal, out[2] offset. `out` points at `words` words that can be
 * written, none of them in `bytes`. Answers 1; or 0 where there are fewer than three, and then nothing is written. No word
 * past the third changes. */
uint64_t trace_check_all(const uint8_t *bytes, size_t length, uint64_t *out, size_t words);

#ifdef __cplusplus
}
#endif

#endif
