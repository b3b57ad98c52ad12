/* What bench/check.c times: three calls that crates/bench_calls exports, and the plain sums of bench/plain_sum.c. */
#include <stddef.h>
#include <stdint.h>

uint64_t timed_check(const uint64_t *area, size_t words, uint64_t kind);
uint64_t timed_new(uint64_t *area, size_t words, uint64_t kind, uint64_t c);
uint64_t timed_get(uint64_t *area, size_t words, uint64_t page);
uint64_t plain_sum(const uint64_t *area, size_t words);
uint64_t scalar_sum(const uint64_t *area, size_t words);
