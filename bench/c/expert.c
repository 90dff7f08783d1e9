/*
 * Packed rows in C tuned for speed on baseline x86-64 (SSE2, no later
 * instructions).
 *
 * check: see expert_check.h.
 * unpack: the cursor advances by the check's table of lengths.
 * The rest is in expert_rows.h.
 */

#include "expert_check.h"
#include "expert_rows.h"

#include <string.h>

/* The stream has been checked. */
static void apply_entries(
    const uint8_t *restrict stream, size_t length, uint64_t tracks,
    uint8_t *restrict cells)
{
    const size_t row_bytes = tracks * 6;
    const uint8_t *at = stream;
    const uint8_t *end = stream + length;
    while (end - at >= 8) {
        size_t track = at[0];
        if (track == 0) {
            cells += row_bytes;
            at++;
            continue;
        }
        size_t mask = at[1] & FIELD_BITS;
        const uint8_t *fields = at + 2;
        at += entry_length[at[1]];
        store_roomy(fields, mask, cells + (track - 1) * 6);
    }
    while (at < end) {
        size_t track = at[0];
        if (track == 0) {
            cells += row_bytes;
            at++;
            continue;
        }
        size_t mask = at[1];
        store_fields(at + 2, mask, cells + (track - 1) * 6);
        at += entry_length[mask];
    }
}

baseline_answer expert_check_pattern(
    const uint8_t *stream, size_t stream_length, uint64_t rows, uint64_t tracks)
{
    if (!sizes_fit(rows, tracks))
        return out_of_range();
    return expert_check_stream(stream, stream_length, rows, tracks);
}

baseline_answer expert_unpack_pattern(
    const uint8_t *stream, size_t stream_length, uint64_t rows, uint64_t tracks,
    uint8_t *out, size_t out_length)
{
    if (!sizes_fit(rows, tracks))
        return out_of_range();
    size_t needed = rows * tracks * 6;
    if (out_length < needed)
        return too_short(needed);
    baseline_answer answer = expert_check_stream(stream, stream_length, rows, tracks);
    if (answer.number != 0)
        return answer;
    if (needed > 0)
        memset(out, 0, needed);
    apply_entries(stream, stream_length, tracks, out);
    return written(needed);
}

baseline_answer expert_pack_pattern(
    const uint8_t *cells, size_t cells_length, uint64_t rows, uint64_t tracks,
    uint8_t *out, size_t out_length)
{
    if (!sizes_fit(rows, tracks) || cells_length != rows * tracks * 6)
        return out_of_range();
    size_t needed = expert_packed_length(cells, rows, tracks);
    if (out_length < needed)
        return too_short(needed);
    expert_write_rows(cells, rows, tracks, out, needed);
    return written(needed);
}
