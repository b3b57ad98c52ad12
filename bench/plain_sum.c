/* The sum of the words of an area, which a check is held against. Compiled twice: as SUM=plain_sum as the compiler will have it, and as SUM=scalar_sum
 * word by word. */
#include "timed.h"

uint64_t SUM(const uint64_t *area, size_t words)
{
    uint64_t sum = 0;
    for (size_t i = 0; i < words; i++)
        sum += area[i];
    return sum;
}
