/*
 * Reading one row and packing in plain C. Rows and tracks are in range, and
 * streams have been checked.
 */

#ifndef PLAIN_ROWS_H
#define PLAIN_ROWS_H

#include "baseline.h"

/* Applies the entries of one row to cells of zeros. Returns the end of the row. */
static inline const uint8_t *plain_load_row(const uint8_t *at, uint8_t *row)
{
    uint8_t track;
    while ((track = *at++) != 0) {
        uint8_t mask = *at++;
        uint8_t *cell = row + (size_t)(track - 1) * 6;
        for (int field = 0; field < 6; field++)
            if (mask >> field & 1)
                cell[field] = *at++;
    }
    return at;
}

UNUSED static size_t plain_packed_length(const uint8_t *cells, uint64_t rows, uint64_t tracks)
{
    size_t length = rows;
    for (size_t left = rows * tracks; left > 0; left--, cells += 6) {
        unsigned fields = 0;
        for (int field = 0; field < 6; field++)
            fields += cells[field] != 0;
        if (fields)
            length += 2 + fields;
    }
    return length;
}

/* Returns the end of the stream. */
UNUSED static uint8_t *plain_write_rows(
    const uint8_t *cells, uint64_t rows, uint64_t tracks, uint8_t *out)
{
    for (uint64_t row = 0; row < rows; row++) {
        for (uint64_t track = 1; track <= tracks; track++, cells += 6) {
            unsigned mask = 0;
            for (int field = 0; field < 6; field++)
                mask |= (unsigned)(cells[field] != 0) << field;
            if (mask == 0)
                continue;
            *out++ = (uint8_t)track;
            *out++ = (uint8_t)mask;
            for (int field = 0; field < 6; field++)
                if (cells[field])
                    *out++ = cells[field];
        }
        *out++ = 0;
    }
    return out;
}

#endif
