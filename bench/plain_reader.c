/* A plain C reader of traces: the checks of RULES 8, one function to a number and one to an operation, no tricks. */
#include "plain_reader.h"

struct operation {
    uint8_t code;
    uint64_t page;
    uint32_t frame;
};

/* Reads a number of at most `most` bytes, the last of these at most `limit`. Returns how many bytes it takes, or 0 where it cannot be read. */
static size_t read_number(const uint8_t *p, const uint8_t *end, size_t most, uint8_t limit, uint64_t *value)
{
    uint64_t v = 0;
    for (size_t i = 0; i < most; i++) {
        if (p + i == end)
            return 0;
        uint8_t b = p[i];
        if (i == most - 1 && b > limit)
            return 0;
        v |= (uint64_t)(b & 0x7f) << (7 * i);
        if (b < 0x80) {
            if (b == 0 && i > 0)
                return 0;
            *value = v;
            return i + 1;
        }
    }
    return 0;
}

/* Reads the operation at p, which is before end. Returns how many bytes it takes, or 0 and the refusal. */
static size_t read_operation(const uint8_t *p, const uint8_t *end, struct operation *op, uint64_t *refusal)
{
    uint64_t frame;
    size_t page_bytes, frame_bytes;
    op->code = *p;
    switch (*p) {
    case 1:
    case 3:
    case 5:
        page_bytes = read_number(p + 1, end, 10, 1, &op->page);
        if (page_bytes == 0) {
            *refusal = 5;
            return 0;
        }
        return 1 + page_bytes;
    case 2:
        page_bytes = read_number(p + 1, end, 10, 1, &op->page);
        if (page_bytes == 0) {
            *refusal = 5;
            return 0;
        }
        frame_bytes = read_number(p + 1 + page_bytes, end, 5, 15, &frame);
        if (frame_bytes == 0) {
            *refusal = 5;
            return 0;
        }
        op->frame = (uint32_t)frame;
        return 1 + page_bytes + frame_bytes;
    case 4:
        return 1;
    default:
        *refusal = 4;
        return 0;
    }
}

struct plain_checked plain_check(const uint8_t *bytes, size_t length)
{
    struct plain_checked c = {0, 0, 0};
    const uint8_t *p = bytes;
    const uint8_t *end = bytes + length;
    while (p < end) {
        struct operation op;
        size_t used = read_operation(p, end, &op, &c.refusal);
        if (used == 0)
            break;
        c.operations++;
        p += used;
    }
    c.offset = (uint64_t)(p - bytes);
    return c;
}
