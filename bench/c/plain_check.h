/*
 * The check of a packed stream in plain C. Rows and tracks are in range.
 */

#ifndef PLAIN_CHECK_H
#define PLAIN_CHECK_H

#include "baseline.h"

static baseline_answer plain_check_stream(
    const uint8_t *stream, size_t length, uint64_t rows, uint64_t tracks)
{
    size_t at = 0;
    uint64_t row = 0;
    while (row < rows) {
        if (at >= length)
            return broken(length);
        uint8_t track = stream[at];
        if (track == 0) {
            row++;
            at++;
            continue;
        }
        if (track > tracks || length - at < 2)
            return broken(at);
        /* Bits 6 and 7 of the mask are ignored. */
        uint8_t mask = stream[at + 1];
        size_t fields = 0;
        for (int field = 0; field < 6; field++)
            fields += mask >> field & 1;
        if (length - at - 2 < fields)
            return broken(at);
        at += 2 + fields;
    }
    return at == length ? written(0) : broken(at);
}

#endif
