/*
 * The check of a packed stream in C tuned for speed. Rows and tracks are in
 * range.
 *
 * One table has the length of an entry for each of the 256 masks. While 8 bytes
 * are left no entry can be cut, so only the track is tested.
 */

#ifndef EXPERT_CHECK_H
#define EXPERT_CHECK_H

#include "baseline.h"

/* The bits of a mask that name fields. Bits 6 and 7 are ignored. */
enum { FIELD_BITS = 63 };

/* 2 + the number of fields. All bits of the mask are the index. */
#define LENGTHS_4(n) (n), (n) + 1, (n) + 1, (n) + 2
#define LENGTHS_16(n) \
    LENGTHS_4(n), LENGTHS_4((n) + 1), LENGTHS_4((n) + 1), LENGTHS_4((n) + 2)
#define LENGTHS_64 LENGTHS_16(2), LENGTHS_16(3), LENGTHS_16(3), LENGTHS_16(4)
static const uint8_t entry_length[256] = {
    LENGTHS_64, LENGTHS_64, LENGTHS_64, LENGTHS_64,
};

static baseline_answer expert_check_stream(
    const uint8_t *stream, size_t length, uint64_t rows, uint64_t tracks)
{
    const uint8_t *at = stream;
    const uint8_t *end = stream + length;
    uint64_t left = rows;
    while (left > 0 && end - at >= 8) {
        uint8_t track = at[0];
        if (track == 0) {
            left--;
            at++;
            continue;
        }
        if (track > tracks)
            return broken(at - stream);
        at += entry_length[at[1]];
    }
    while (left > 0) {
        if (at == end)
            return broken(length);
        uint8_t track = at[0];
        if (track == 0) {
            left--;
            at++;
            continue;
        }
        if (track > tracks || end - at < 2)
            return broken(at - stream);
        ptrdiff_t bytes = entry_length[at[1]];
        if (end - at < bytes)
            return broken(at - stream);
        at += bytes;
    }
    return at == end ? written(0) : broken(at - stream);
}

#endif
