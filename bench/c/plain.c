/*
 * Packed rows in plain C, written directly from the rules of the format.
 */

#include "plain_check.h"
#include "plain_rows.h"

#include <string.h>

static void carry_out(
    const uint8_t *stream, size_t length, uint64_t tracks, uint8_t *cells)
{
    size_t at = 0;
    while (at < length) {
        uint8_t track = stream[at++];
        if (track == 0) {
            cells += tracks * 6;
            continue;
        }
        uint8_t mask = stream[at++];
        uint8_t *cell = cells + (size_t)(track - 1) * 6;
        for (int field = 0; field < 6; field++)
            if (mask >> field & 1)
                cell[field] = stream[at++];
    }
}

baseline_answer plain_check_pattern(
    const uint8_t *stream, size_t stream_length, uint64_t rows, uint64_t tracks)
{
    if (!sizes_fit(rows, tracks))
        return out_of_range();
    return plain_check_stream(stream, stream_length, rows, tracks);
}

baseline_answer plain_unpack_pattern(
    const uint8_t *stream, size_t stream_length, uint64_t rows, uint64_t tracks,
    uint8_t *out, size_t out_length)
{
    if (!sizes_fit(rows, tracks))
        return out_of_range();
    size_t needed = rows * tracks * 6;
    if (out_length < needed)
        return too_short(needed);
    baseline_answer answer = plain_check_stream(stream, stream_length, rows, tracks);
    if (answer.number != 0)
        return answer;
    if (needed > 0)
        memset(out, 0, needed);
    carry_out(stream, stream_length, tracks, out);
    return written(needed);
}

baseline_answer plain_pack_pattern(
    const uint8_t *cells, size_t cells_length, uint64_t rows, uint64_t tracks,
    uint8_t *out, size_t out_length)
{
    if (!sizes_fit(rows, tracks) || cells_length != rows * tracks * 6)
        return out_of_range();
    size_t needed = plain_packed_length(cells, rows, tracks);
    if (out_length < needed)
        return too_short(needed);
    plain_write_rows(cells, rows, tracks, out);
    return written(needed);
}
