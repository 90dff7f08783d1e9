/*
 * dbm0_pattern.h: packed rows of DBM0 patterns. Check, unpack, pack.
 *
 * Link with libpattern.a (x86-64, System V calling convention). The archive
 * needs memset and nothing else of a C library.
 *
 * A cell has six bytes: note, instrument, command 1, parameter 1, command 2,
 * parameter 2. Unpacked, a pattern is its cells row by row, in each row the
 * tracks ascending: rows x tracks x 6 bytes.
 *
 * A packed stream is read from the front. A byte 0 ends a row. Any other byte
 * begins an entry: the track, from 1 to the pattern's tracks; a mask whose
 * bits 0 to 5 name fields of the cell in the order above (bits 6 and 7 are
 * ignored); and the fields that it names. Fields that are not named do not
 * change; every cell starts as zeros. The stream has exactly the pattern's
 * number of row ends, and the last one is its last byte.
 *
 * What holds for all three calls:
 *
 * - Every pair of a pointer and a length is memory that the caller lends for
 *   the time of the call. A pointer may be NULL if its length is 0.
 * - The output must not overlap the input.
 * - Rows and tracks can be any numbers: no sum or product wraps, and numbers
 *   out of range are refused.
 * - A refusal changes no byte of the output. On success the bytes after the
 *   written length do not change.
 * - No call keeps any state, allocates, or waits. They may run on any thread
 *   and at the same time, as long as no call's output is used by another.
 * - A call needs less than 512 bytes of stack. What memset needs is not
 *   counted.
 * - A call with an output of length 0 reports the needed length: the answer is
 *   then DBM0_PATTERN_OUTPUT_TOO_SHORT with the length as its place (or, for
 *   a pattern of 0 rows, success with length 0).
 */

#ifndef DBM0_PATTERN_H
#define DBM0_PATTERN_H

#include <stddef.h>
#include <stdint.h>

#ifdef __cplusplus
extern "C" {
#endif

/* The version of this interface: major x 10000 + minor x 100 + patch. */
#define DBM0_PATTERN_VERSION 10100

/* No refusal. */
#define DBM0_PATTERN_OK 0

/*
 * The packed stream is broken. The place is that of the first fault found
 * reading forward: the first byte of a faulty entry (its track is too high, or
 * the stream ends inside it), the first byte that is left over after the last
 * row end, or the stream's length if row ends are missing.
 */
#define DBM0_PATTERN_STREAM_BROKEN 15

/*
 * More than 65,535 rows; tracks that are not an even number from 4 to 254; or
 * the packer's input is not rows x tracks x 6 bytes. The place is 0.
 */
#define DBM0_PATTERN_OUT_OF_RANGE 16

/* The output is too short. The place is the length that is needed. */
#define DBM0_PATTERN_OUTPUT_TOO_SHORT 17

/* The range of rows and tracks. Tracks are even. */
#define DBM0_PATTERN_MOST_ROWS 65535
#define DBM0_PATTERN_LEAST_TRACKS 4
#define DBM0_PATTERN_MOST_TRACKS 254

/*
 * The bytes of rows x tracks cells, and the length of the longest stream that
 * the packer writes for them: rows x (1 + 8 x tracks). Both are uint64_t, and
 * correct for all rows and tracks in range.
 */
#define DBM0_PATTERN_CELL_BYTES(rows, tracks) \
    ((uint64_t)(rows) * (uint64_t)(tracks) * 6u)
#define DBM0_PATTERN_MOST_PACKED_BYTES(rows, tracks) \
    ((uint64_t)(rows) * (1u + 8u * (uint64_t)(tracks)))

/*
 * number: 0 if there is no refusal, else one of the numbers above.
 * place:  as described at the number, and 0 if there is no refusal.
 * length: the number of bytes written; 0 on a refusal, and for the check.
 */
typedef struct {
    uint64_t number;
    uint64_t place;
    uint64_t length;
} dbm0_pattern_answer;

/*
 * Checks a packed stream.
 *
 * Refusals, the first that applies: 16, 15.
 * Time: linear in stream_length, and independent of the rows. No allocation.
 */
dbm0_pattern_answer dbm0_check_pattern(
    const uint8_t *stream, size_t stream_length,
    uint64_t rows, uint64_t tracks);

/*
 * Unpacks a stream: writes rows x tracks x 6 bytes of cells.
 *
 * Refusals, the first that applies: 16, 17 (the place is rows x tracks x 6),
 * 15.
 * Time: linear in stream_length plus the bytes of the cells. No allocation.
 */
dbm0_pattern_answer dbm0_unpack_pattern(
    const uint8_t *stream, size_t stream_length,
    uint64_t rows, uint64_t tracks,
    uint8_t *out, size_t out_length);

/*
 * Packs cells: rows in order, in each row one entry for each cell that is not
 * all zeros, tracks ascending, naming exactly the fields that are not 0. Bits
 * 6 and 7 of every mask are 0. No stream for the same cells is shorter. Its
 * length is the number of rows, plus two for each such cell, plus one for each
 * field that is not 0.
 *
 * Refusals, the first that applies: 16, 17 (the place is that length).
 * Time: linear in cells_length. No allocation.
 */
dbm0_pattern_answer dbm0_pack_pattern(
    const uint8_t *cells, size_t cells_length,
    uint64_t rows, uint64_t tracks,
    uint8_t *out, size_t out_length);

#ifdef __cplusplus
}
#endif

#endif
