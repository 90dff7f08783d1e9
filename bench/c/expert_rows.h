/*
 * Storing entries, reading one row and packing in C tuned for speed. Rows and
 * tracks are in range, and streams have been checked.
 *
 * read: the cursor advances by the check's table of lengths. The fields are
 *       stored by a table of their places, without a branch on each bit.
 * pack: the needed length is counted with SSE2. Each row first lists its
 *       non-empty cells without a branch, then writes them, two fields at a
 *       time.
 */

#ifndef EXPERT_ROWS_H
#define EXPERT_ROWS_H

#include "expert_check.h"

#include <emmintrin.h>
#include <string.h>

/*
 * For bits 0 to 5 of a mask: the field of the first, second, .. stored byte of
 * an entry. After the last field of the mask, that field is repeated.
 */
static const uint8_t named_field[64][8] = {
    {0, 0, 0, 0, 0, 0}, {0, 0, 0, 0, 0, 0}, {1, 1, 1, 1, 1, 1}, {0, 1, 1, 1, 1, 1},
    {2, 2, 2, 2, 2, 2}, {0, 2, 2, 2, 2, 2}, {1, 2, 2, 2, 2, 2}, {0, 1, 2, 2, 2, 2},
    {3, 3, 3, 3, 3, 3}, {0, 3, 3, 3, 3, 3}, {1, 3, 3, 3, 3, 3}, {0, 1, 3, 3, 3, 3},
    {2, 3, 3, 3, 3, 3}, {0, 2, 3, 3, 3, 3}, {1, 2, 3, 3, 3, 3}, {0, 1, 2, 3, 3, 3},
    {4, 4, 4, 4, 4, 4}, {0, 4, 4, 4, 4, 4}, {1, 4, 4, 4, 4, 4}, {0, 1, 4, 4, 4, 4},
    {2, 4, 4, 4, 4, 4}, {0, 2, 4, 4, 4, 4}, {1, 2, 4, 4, 4, 4}, {0, 1, 2, 4, 4, 4},
    {3, 4, 4, 4, 4, 4}, {0, 3, 4, 4, 4, 4}, {1, 3, 4, 4, 4, 4}, {0, 1, 3, 4, 4, 4},
    {2, 3, 4, 4, 4, 4}, {0, 2, 3, 4, 4, 4}, {1, 2, 3, 4, 4, 4}, {0, 1, 2, 3, 4, 4},
    {5, 5, 5, 5, 5, 5}, {0, 5, 5, 5, 5, 5}, {1, 5, 5, 5, 5, 5}, {0, 1, 5, 5, 5, 5},
    {2, 5, 5, 5, 5, 5}, {0, 2, 5, 5, 5, 5}, {1, 2, 5, 5, 5, 5}, {0, 1, 2, 5, 5, 5},
    {3, 5, 5, 5, 5, 5}, {0, 3, 5, 5, 5, 5}, {1, 3, 5, 5, 5, 5}, {0, 1, 3, 5, 5, 5},
    {2, 3, 5, 5, 5, 5}, {0, 2, 3, 5, 5, 5}, {1, 2, 3, 5, 5, 5}, {0, 1, 2, 3, 5, 5},
    {4, 5, 5, 5, 5, 5}, {0, 4, 5, 5, 5, 5}, {1, 4, 5, 5, 5, 5}, {0, 1, 4, 5, 5, 5},
    {2, 4, 5, 5, 5, 5}, {0, 2, 4, 5, 5, 5}, {1, 2, 4, 5, 5, 5}, {0, 1, 2, 4, 5, 5},
    {3, 4, 5, 5, 5, 5}, {0, 3, 4, 5, 5, 5}, {1, 3, 4, 5, 5, 5}, {0, 1, 3, 4, 5, 5},
    {2, 3, 4, 5, 5, 5}, {0, 2, 3, 4, 5, 5}, {1, 2, 3, 4, 5, 5}, {0, 1, 2, 3, 4, 5},
};

/*
 * For the mask of a cell's first four fields: the place in the cell of the
 * first pair of fields and of the second (after a zero before a non-zero), the
 * place of the second pair in the entry, and the end of the first four fields
 * in it.
 */
static const uint8_t pairs[16][4] = {
    {0, 2, 2, 2}, {0, 2, 3, 3}, {1, 2, 3, 3}, {0, 2, 4, 4},
    {0, 2, 2, 3}, {0, 2, 3, 4}, {1, 2, 3, 4}, {0, 2, 4, 5},
    {0, 3, 2, 3}, {0, 3, 3, 4}, {1, 3, 3, 4}, {0, 3, 4, 5},
    {0, 2, 2, 4}, {0, 2, 3, 5}, {1, 2, 3, 5}, {0, 2, 4, 6},
};

static uint32_t load_2(const uint8_t *from)
{
    uint16_t word;
    memcpy(&word, from, 2);
    return word;
}

static uint32_t load_4(const uint8_t *from)
{
    uint32_t word;
    memcpy(&word, from, 4);
    return word;
}

static void store_2(uint8_t *to, uint32_t value)
{
    uint16_t word = (uint16_t)value;
    memcpy(to, &word, 2);
}

/* Stores an entry's fields one by one. */
static void store_fields(const uint8_t *fields, unsigned mask, uint8_t *cell)
{
    for (int field = 0; field < 6; field++)
        if (mask >> field & 1)
            cell[field] = *fields++;
}

/* The same if six bytes can be read and the mask has no bits but FIELD_BITS. */
static inline __attribute__((always_inline)) void store_roomy(
    const uint8_t *restrict fields, size_t mask, uint8_t *restrict cell)
{
    if (mask == 0)
        return;
    /*
     * In reverse order: bytes after the entry are stored in the last field of
     * the mask first, and are overwritten by the byte that belongs there.
     */
    const uint8_t *place = named_field[mask];
    if (mask >= 16) {
        cell[place[5]] = fields[5];
        cell[place[4]] = fields[4];
    }
    cell[place[3]] = fields[3];
    cell[place[2]] = fields[2];
    cell[place[1]] = fields[1];
    cell[place[0]] = fields[0];
}

/*
 * Applies the entries of one row to cells of zeros. The stream ends at `end`.
 * For each entry with fields it also sets a bit: bit 0 for tracks 1 to 8, bit 1
 * for tracks 9 to 16, and so on. Returns the end of the row.
 */
static inline __attribute__((always_inline)) const uint8_t *expert_load_marked(
    const uint8_t *restrict at, const uint8_t *end, uint8_t *restrict row,
    uint32_t *marks)
{
    while (end - at >= 8) {
        size_t track = at[0];
        if (track == 0)
            return at + 1;
        size_t mask = at[1] & FIELD_BITS;
        const uint8_t *fields = at + 2;
        at += entry_length[at[1]];
        *marks |= (uint32_t)(mask != 0) << (track - 1) / 8;
        store_roomy(fields, mask, row + (track - 1) * 6);
    }
    while (at[0] != 0) {
        size_t track = at[0];
        size_t mask = at[1] & FIELD_BITS;
        *marks |= (uint32_t)(mask != 0) << (track - 1) / 8;
        store_fields(at + 2, mask, row + (track - 1) * 6);
        at += entry_length[mask];
    }
    return at + 1;
}

/* The same without the bits. */
static inline const uint8_t *expert_load_row(
    const uint8_t *restrict at, const uint8_t *end, uint8_t *restrict row)
{
    uint32_t unused = 0;
    return expert_load_marked(at, end, row, &unused);
}

static uint64_t sum_of_bytes(__m128i counts)
{
    __m128i sums = _mm_sad_epu8(counts, _mm_setzero_si128());
    return (uint64_t)_mm_cvtsi128_si64(sums)
        + (uint64_t)_mm_cvtsi128_si64(_mm_unpackhi_epi64(sums, sums));
}

static __m128i load_16(const uint8_t *from)
{
    return _mm_loadu_si128((const __m128i *)from);
}

/* All ones in each 16-bit lane at which six zero bytes begin. */
static __m128i six_zeros(const uint8_t *from)
{
    __m128i any = _mm_or_si128(
        _mm_or_si128(load_16(from), load_16(from + 2)), load_16(from + 4));
    return _mm_cmpeq_epi16(any, _mm_setzero_si128());
}

static __m128i zero_bytes(const uint8_t *from)
{
    return _mm_cmpeq_epi8(load_16(from), _mm_setzero_si128());
}

UNUSED static size_t expert_packed_length(const uint8_t *cells, uint64_t rows, uint64_t tracks)
{
    /* Of the 24 lanes of 8 cells, those at which a cell begins. */
    const __m128i first = _mm_setr_epi16(-1, 0, 0, -1, 0, 0, -1, 0);
    const __m128i second = _mm_setr_epi16(0, -1, 0, 0, -1, 0, 0, -1);
    const __m128i third = _mm_setr_epi16(0, 0, -1, 0, 0, -1, 0, 0);
    size_t left = rows * tracks;
    size_t length = rows + left * 8;
    /* 8 cells at a time; the last read ends four bytes past them. */
    while (left > 8) {
        size_t turns = (left - 1) / 8;
        if (turns > 80)
            turns = 80;
        left -= turns * 8;
        __m128i zeros = _mm_setzero_si128();
        __m128i empty = _mm_setzero_si128();
        for (; turns > 0; turns--, cells += 48) {
            zeros = _mm_sub_epi8(zeros,
                _mm_add_epi8(zero_bytes(cells),
                    _mm_add_epi8(zero_bytes(cells + 16), zero_bytes(cells + 32))));
            empty = _mm_sub_epi16(empty,
                _mm_or_si128(_mm_and_si128(six_zeros(cells), first),
                    _mm_or_si128(_mm_and_si128(six_zeros(cells + 16), second),
                        _mm_and_si128(six_zeros(cells + 32), third))));
        }
        length -= sum_of_bytes(zeros) + 2 * sum_of_bytes(empty);
    }
    for (; left > 0; left--, cells += 6) {
        unsigned fields = 0;
        for (int field = 0; field < 6; field++)
            fields += cells[field] != 0;
        length -= fields == 0 ? 8 : 6 - fields;
    }
    return length;
}

/* Writes one entry, and no byte after it. Returns its end. */
static uint8_t *write_exactly(const uint8_t *cell, unsigned track, uint8_t *out)
{
    unsigned mask = 0;
    for (int field = 0; field < 6; field++)
        mask |= (unsigned)(cell[field] != 0) << field;
    *out++ = (uint8_t)track;
    *out++ = (uint8_t)mask;
    for (int field = 0; field < 6; field++)
        if (cell[field])
            *out++ = cell[field];
    return out;
}

/* Writes one entry if there are 8 bytes of output. Returns its end. */
static uint8_t *write_roomy(const uint8_t *cell, unsigned track, uint8_t *out)
{
    uint32_t four = load_4(cell);
    uint32_t two = load_2(cell + 4);
    uint32_t set = (((four & 0x7F7F7F7F) + 0x7F7F7F7F) | four) & 0x80808080;
    uint32_t mask = (uint32_t)((uint64_t)set * 0x00204081 >> 28) & 15;
    const uint8_t *pair = pairs[mask];
    uint8_t *end = out + pair[3];
    store_2(out + 2, load_2(cell + pair[0]));
    store_2(out + pair[2], load_2(cell + pair[1]));
    if (two != 0) {
        uint32_t command = two & 255;
        uint32_t parameter = two >> 8;
        *end = (uint8_t)command;
        end += command != 0;
        *end = (uint8_t)parameter;
        end += parameter != 0;
        mask |= (uint32_t)(command != 0) << 4 | (uint32_t)(parameter != 0) << 5;
    }
    store_2(out, mask << 8 | track);
    return end;
}

/*
 * Bytes after the stream, up to `needed`, may be overwritten. Returns the end
 * of the stream.
 */
UNUSED static uint8_t *expert_write_rows(
    const uint8_t *restrict cells, uint64_t rows, uint64_t tracks,
    uint8_t *restrict out, size_t needed)
{
    const uint8_t *out_end = out + needed;
    for (; rows > 0; rows--, cells += tracks * 6) {
        uint8_t full[256];
        size_t count = 0;
        for (size_t track = 0; track < tracks; track += 2) {
            const uint8_t *two_cells = cells + track * 6;
            uint32_t low = load_4(two_cells);
            uint32_t middle = load_4(two_cells + 4);
            uint32_t high = load_4(two_cells + 8);
            full[count] = (uint8_t)track;
            count += (low | (middle & 0xFFFF)) != 0;
            full[count] = (uint8_t)(track + 1);
            count += (middle >> 16 | high) != 0;
        }
        if ((size_t)(out_end - out) >= 8 * count) {
            for (size_t k = 0; k < count; k++)
                out = write_roomy(cells + (size_t)full[k] * 6, full[k] + 1u, out);
        } else {
            for (size_t k = 0; k < count; k++)
                out = write_exactly(cells + (size_t)full[k] * 6, full[k] + 1u, out);
        }
        *out++ = 0;
    }
    return out;
}

#endif
