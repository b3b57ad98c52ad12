/* agree: reads a trace from standard input, and holds trace_check_all against the three functions that give one answer
 * each, on every beginning of the bytes; and what it does where there is no room. Prints how many it tried. */
#include <stdint.h>
#include <stdio.h>

#include "trace_check.h"

int main(void)
{
    static uint8_t bytes[4096];
    size_t length = fread(bytes, 1, sizeof bytes, stdin), n;
    for (n = 0; n <= length; n++) {
        uint64_t out[4] = {71, 72, 73, 74};
        for (size_t words = 0; words < 3; words++)
            if (trace_check_all(bytes, n, out, words) != 0 || out[0] != 71 || out[1] != 72 || out[2] != 73)
                return 1;
        if (trace_check_all(bytes, n, out, 4) != 1 || out[3] != 74 || out[0] != trace_operations(bytes, n) ||
            out[1] != trace_refusal(bytes, n) || out[2] != trace_offset(bytes, n))
            return 1;
    }
    printf("%llu\n", (unsigned long long)n);
    return 0;
}
