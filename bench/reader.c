/* reader plain|proved TIMES FILE: checks a trace that often, and prints operations, refusal and offset. `bench/reader` counts its instructions: the
 * difference of two runs that differ by one time is one check. */
#include <stdint.h>
#include <stdio.h>
#include <stdlib.h>
#include <string.h>

#include "plain_reader.h"
#include "trace_check.h"

int main(int argc, char **argv)
{
    struct plain_checked c = {0, 0, 0};
    size_t room = 65536, length = 0;
    uint8_t *bytes = malloc(room);
    FILE *in = argc == 4 ? fopen(argv[3], "rb") : NULL;
    if (in == NULL || bytes == NULL) {
        fputs("usage: reader plain|proved TIMES FILE\n", stderr);
        return 2;
    }
    for (;;) {
        length += fread(bytes + length, 1, room - length, in);
        if (length < room)
            break;
        room *= 2;
        bytes = realloc(bytes, room);
        if (bytes == NULL)
            return 2;
    }
    fclose(in);
    if (strcmp(argv[1], "plain") == 0) {
        for (int i = 0; i < atoi(argv[2]); i++)
            c = plain_check(bytes, length);
    } else {
        /* the first call of the three is the one that is repeated */
        for (int i = 0; i < atoi(argv[2]); i++)
            c.operations = trace_operations(bytes, length);
        c.refusal = trace_refusal(bytes, length);
        c.offset = trace_offset(bytes, length);
    }
    printf("%llu %llu %llu\n", (unsigned long long)c.operations, (unsigned long long)c.refusal, (unsigned long long)c.offset);
    free(bytes);
    return 0;
}
