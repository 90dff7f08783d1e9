/*
 * Repacking a whole module, once as plain and once as expert C.
 *
 * The module is checked. If the output is shorter than the module, one pass
 * over the patterns computes their repacked length, which is never longer.
 * Another pass writes them. Each pass processes a pattern row by row, in memory
 * for one row. Everything else is copied, in one piece before PATT's length and
 * one after its data.
 *
 * plain:  rows are read and packed as in plain.c.
 * expert: rows are read and packed as in expert.c. The row is followed by
 *         zeros, so that its cells are counted in whole groups of 8.
 */

#include "expert_rows.h"
#include "module_check.h"
#include "plain_rows.h"

/* For the maximum number of tracks, rounded up to a multiple of 8, and one extra cell. */
enum { ROW_BYTES = (256 + 1) * 6 };

/* Loads the cells of a row. Returns the end of the row in its stream, which ends at `end`. */
typedef const uint8_t *row_load(
    const uint8_t *at, const uint8_t *end, unsigned tracks, uint8_t *row);
typedef size_t row_length(const uint8_t *row, unsigned tracks);
/* Bytes up to `end` may be overwritten. Returns the end of the row in the output. */
typedef uint8_t *row_write(
    const uint8_t *row, unsigned tracks, uint8_t *out, const uint8_t *end);

INLINE void store_4(uint8_t *to, uint32_t value)
{
    uint32_t word = __builtin_bswap32(value);
    memcpy(to, &word, 4);
}

/* The repacked length of the data of PATT. */
INLINE size_t patterns_length(
    const layout *found, row_load *load, row_length *packed_length)
{
    uint8_t row[ROW_BYTES];
    const uint8_t *at = found->chunks[PATT].data;
    size_t length = 0;
    for (unsigned left = found->patterns; left > 0; left--) {
        unsigned rows = read_2(at);
        size_t packed = read_4(at + 2);
        const uint8_t *entry = at + PATT_BYTES;
        const uint8_t *end = entry + packed;
        size_t bytes = 0;
        for (; rows > 0; rows--) {
            entry = load(entry, end, found->tracks, row);
            bytes += packed_length(row, found->tracks);
        }
        length += PATT_BYTES + bytes + bytes % 2;
        at = end + packed % 2;
    }
    return length;
}

/*
 * After the patterns `rest` bytes are copied later, so bytes up to `out_end` may
 * be overwritten. Returns the end of the patterns.
 */
INLINE uint8_t *write_patterns(
    const layout *found, row_load *load, row_write *write,
    uint8_t *out, size_t rest, const uint8_t *out_end)
{
    uint8_t row[ROW_BYTES];
    const uint8_t *at = found->chunks[PATT].data;
    for (unsigned left = found->patterns; left > 0; left--) {
        unsigned rows = read_2(at);
        size_t packed = read_4(at + 2);
        const uint8_t *entry = at + PATT_BYTES;
        const uint8_t *end = entry + packed;
        uint8_t *stream = out + PATT_BYTES;
        uint8_t *to = stream;
        memcpy(out, at, 2);
        for (; rows > 0; rows--) {
            entry = load(entry, end, found->tracks, row);
            to = write(row, found->tracks, to, out_end - to < (ptrdiff_t)rest ? to + rest : out_end);
        }
        store_4(out + 2, (uint32_t)(to - stream));
        if ((to - stream) % 2 != 0)
            *to++ = 0;
        out = to;
        at = end + packed % 2;
    }
    return out;
}

/* 17 for an accepted module. */
INLINE baseline_answer repack(
    const layout *found, size_t length, uint8_t *out, size_t out_length,
    row_load *load, row_length *packed_length, row_write *write)
{
    const uint8_t *module = found->module;
    chunk patt = found->chunks[PATT];
    size_t start = (size_t)(patt.data - module);
    size_t end = start + patt.length;
    size_t rest = length - end;
    const uint8_t *out_end = out;
    if (out_length < length) {
        size_t needed = start + patterns_length(found, load, packed_length) + rest;
        if (out_length < needed)
            return too_short(needed);
        out_end = out + needed;
    }
    memcpy(out, module, start - 4);
    uint8_t *data_end = write_patterns(found, load, write, out + start, rest, out_end);
    store_4(out + start - 4, (uint32_t)(data_end - (out + start)));
    memcpy(data_end, module + end, rest);
    return written((size_t)(data_end - out) + rest);
}

INLINE const uint8_t *plain_row(
    const uint8_t *at, const uint8_t *end, unsigned tracks, uint8_t *row)
{
    (void)end;
    memset(row, 0, (size_t)tracks * 6);
    return plain_load_row(at, row);
}

INLINE size_t plain_row_length(const uint8_t *row, unsigned tracks)
{
    return plain_packed_length(row, 1, tracks);
}

INLINE uint8_t *plain_row_write(
    const uint8_t *row, unsigned tracks, uint8_t *out, const uint8_t *end)
{
    (void)end;
    return plain_write_rows(row, 1, tracks, out);
}

/* A multiple of 8, and one more. */
INLINE size_t counted_cells(unsigned tracks)
{
    return ((tracks + 7) & ~(size_t)7) + 1;
}

INLINE const uint8_t *expert_row(
    const uint8_t *at, const uint8_t *end, unsigned tracks, uint8_t *row)
{
    memset(row, 0, counted_cells(tracks) * 6);
    return expert_load_row(at, end, row);
}

/* The cells of zeros after the row add nothing. */
INLINE size_t expert_row_length(const uint8_t *row, unsigned tracks)
{
    return expert_packed_length(row, 1, counted_cells(tracks));
}

INLINE uint8_t *expert_row_write(
    const uint8_t *row, unsigned tracks, uint8_t *out, const uint8_t *end)
{
    return expert_write_rows(row, 1, tracks, out, (size_t)(end - out));
}

static baseline_answer not_accepted(baseline_verdict verdict)
{
    return (baseline_answer){verdict.number, verdict.place, 0};
}

baseline_answer plain_repack_module(
    const uint8_t *module, size_t length, uint8_t *out, size_t out_length)
{
    layout found;
    baseline_verdict verdict = plain_check(&found, module, length);
    if (verdict.number != 0)
        return not_accepted(verdict);
    return repack(&found, length, out, out_length,
        plain_row, plain_row_length, plain_row_write);
}

baseline_answer expert_repack_module(
    const uint8_t *module, size_t length, uint8_t *out, size_t out_length)
{
    layout found;
    baseline_verdict verdict = expert_check(&found, module, length);
    if (verdict.number != 0)
        return not_accepted(verdict);
    return repack(&found, length, out, out_length,
        expert_row, expert_row_length, expert_row_write);
}
