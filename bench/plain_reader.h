/* A plain C reader of traces, to measure the proved one against: the same answers, by bench/plain_reader.c. */
#ifndef PLAIN_READER_H
#define PLAIN_READER_H

#include <stddef.h>
#include <stdint.h>

struct plain_checked {
    uint64_t operations;
    uint64_t refusal;
    uint64_t offset;
};

struct plain_checked plain_check(const uint8_t *bytes, size_t length);

#endif
