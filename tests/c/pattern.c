/*
 * libpattern.a alone, called from C, with expectations typed by hand.
 *
 * Prints one line for each expectation that fails. The last line has the numbers
 * of passed and failed expectations. The exit status is 1 if any failed.
 */

#include "dbm0_pattern.h"
#include "expect.h"

#include <inttypes.h>
#include <stdio.h>
#include <stdlib.h>
#include <string.h>

#define FILL 0xAA
#define BYTES(...) ((const uint8_t[]){__VA_ARGS__}), sizeof((const uint8_t[]){__VA_ARGS__})
#define NOTHING NULL, 0

static void compare(dbm0_pattern_answer is, uint64_t number, uint64_t place, uint64_t length,
                    int line, const char *call)
{
    char what[200];
    snprintf(what, sizeof what,
             "%s gives %" PRIu64 " at %" PRIu64 " with length %" PRIu64
             ", expected %" PRIu64 " at %" PRIu64 " with length %" PRIu64,
             call, is.number, is.place, is.length, number, place, length);
    count(is.number == number && is.place == place && is.length == length, line, what);
}

/* The output of each call is between two guards. */
static uint8_t memory[16 + 4096 + 16];
static uint8_t *const out = memory + 16;

static void fill(void)
{
    memset(memory, FILL, sizeof memory);
}

/* All bytes except the first `length` of the output have their preset value. */
static int rest_is_filled(size_t length)
{
    size_t at;
    for (at = 0; at < sizeof memory; at++)
        if ((at < 16 || at >= 16 + length) && memory[at] != FILL)
            return 0;
    return 1;
}

static void check(int line, const uint8_t *stream, size_t stream_length, uint64_t rows,
                  uint64_t tracks, uint64_t number, uint64_t place)
{
    compare(dbm0_check_pattern(stream, stream_length, rows, tracks), number, place, 0, line,
            "check");
}

static void refuses_unpack(int line, const uint8_t *stream, size_t stream_length, uint64_t rows,
                           uint64_t tracks, size_t room, uint64_t number, uint64_t place)
{
    fill();
    compare(dbm0_unpack_pattern(stream, stream_length, rows, tracks, out, room), number, place, 0,
            line, "unpack");
    count(rest_is_filled(0), line, "unpack refuses, but changes its output");
}

static void refuses_pack(int line, const uint8_t *cells, size_t cells_length, uint64_t rows,
                         uint64_t tracks, size_t room, uint64_t number, uint64_t place)
{
    fill();
    compare(dbm0_pack_pattern(cells, cells_length, rows, tracks, out, room), number, place, 0, line,
            "pack");
    count(rest_is_filled(0), line, "pack refuses, but changes its output");
}

/* Into an output of exactly the needed length, and into longer ones, whose rest is unchanged. One byte less is 17. */
static void unpacks(int line, const uint8_t *stream, size_t stream_length, uint64_t rows,
                    uint64_t tracks, const uint8_t *cells, size_t cells_length)
{
    size_t more;
    check(line, stream, stream_length, rows, tracks, 0, 0);
    for (more = 0; more < 10; more += 3) {
        fill();
        compare(dbm0_unpack_pattern(stream, stream_length, rows, tracks, out, cells_length + more),
                0, 0, cells_length, line, "unpack");
        count(cells_length == 0 || memcmp(out, cells, cells_length) == 0, line,
              "unpack writes other cells");
        count(rest_is_filled(cells_length), line, "unpack writes past the cells");
    }
    if (cells_length > 0) {
        refuses_unpack(line, stream, stream_length, rows, tracks, cells_length - 1, 17,
                       cells_length);
        refuses_unpack(line, stream, stream_length, rows, tracks, 0, 17, cells_length);
    }
}

static void packs(int line, const uint8_t *cells, size_t cells_length, uint64_t rows,
                  uint64_t tracks, const uint8_t *stream, size_t stream_length)
{
    size_t more;
    for (more = 0; more < 10; more += 3) {
        fill();
        compare(dbm0_pack_pattern(cells, cells_length, rows, tracks, out, stream_length + more), 0,
                0, stream_length, line, "pack");
        count(stream_length == 0 || memcmp(out, stream, stream_length) == 0, line,
              "pack writes another stream");
        count(rest_is_filled(stream_length), line, "pack writes past the stream");
    }
    if (stream_length > 0) {
        refuses_pack(line, cells, cells_length, rows, tracks, stream_length - 1, 17, stream_length);
        refuses_pack(line, cells, cells_length, rows, tracks, 0, 17, stream_length);
    }
}

/* A broken stream, for the check and for unpacking into a long enough output. */
static void broken(int line, const uint8_t *stream, size_t stream_length, uint64_t rows,
                   uint64_t tracks, uint64_t place)
{
    size_t needed = (size_t)DBM0_PATTERN_CELL_BYTES(rows, tracks);
    check(line, stream, stream_length, rows, tracks, 15, place);
    refuses_unpack(line, stream, stream_length, rows, tracks, needed, 15, place);
    refuses_unpack(line, stream, stream_length, rows, tracks, needed + 7, 15, place);
    if (needed > 0)
        refuses_unpack(line, stream, stream_length, rows, tracks, needed - 1, 17, needed);
}

static void register_samples(void)
{
    static const uint8_t empty[48];
    uint8_t g4[48] = {0};
    uint8_t fifth[36] = {0};
    uint8_t first[24] = {0};
    uint8_t full[24];
    uint8_t at;

    g4[6] = 0x47;
    g4[7] = 0x01;
    fifth[24] = 0x47;
    first[0] = 0x47;
    for (at = 0; at < 24; at++)
        full[at] = (uint8_t)(at + 1);

    /* P1 to P5 */
    unpacks(__LINE__, BYTES(0x02, 0x03, 0x47, 0x01, 0x00, 0x00), 2, 4, g4, 48);
    packs(__LINE__, g4, 48, 2, 4, BYTES(0x02, 0x03, 0x47, 0x01, 0x00, 0x00));
    unpacks(__LINE__, BYTES(0x02, 0x01, 0x47, 0x02, 0x02, 0x01, 0x00, 0x00), 2, 4, g4, 48);
    unpacks(__LINE__, BYTES(0x02, 0x07, 0x47, 0x01, 0x00, 0x00, 0x00), 2, 4, g4, 48);
    unpacks(__LINE__, BYTES(0x01, 0x01, 0x47, 0x01, 0x01, 0x00, 0x00), 1, 4, empty, 24);
    packs(__LINE__, empty, 24, 1, 4, BYTES(0x00));
    unpacks(__LINE__, BYTES(0x01, 0x00, 0x00), 1, 4, empty, 24);
    /* P6 */
    unpacks(__LINE__, NOTHING, 0, 4, NOTHING);
    packs(__LINE__, NOTHING, 0, 4, NOTHING);
    broken(__LINE__, BYTES(0x00), 0, 4, 0);
    /* P7 */
    broken(__LINE__, BYTES(0x05, 0x01, 0x47, 0x00), 1, 4, 0);
    unpacks(__LINE__, BYTES(0x05, 0x01, 0x47, 0x00), 1, 6, fifth, 36);
    packs(__LINE__, fifth, 36, 1, 6, BYTES(0x05, 0x01, 0x47, 0x00));
    /* P8, P9 */
    unpacks(__LINE__, BYTES(0x01, 0x41, 0x47, 0x00), 1, 4, first, 24);
    packs(__LINE__, first, 24, 1, 4, BYTES(0x01, 0x01, 0x47, 0x00));
    broken(__LINE__, BYTES(0x00), 2, 4, 1);
    /* No field zero: 33 bytes. */
    packs(__LINE__, full, 24, 1, 4,
          BYTES(1, 0x3F, 1, 2, 3, 4, 5, 6, 2, 0x3F, 7, 8, 9, 10, 11, 12, 3, 0x3F, 13, 14, 15, 16,
                17, 18, 4, 0x3F, 19, 20, 21, 22, 23, 24, 0));
    unpacks(__LINE__,
            BYTES(1, 0x3F, 1, 2, 3, 4, 5, 6, 2, 0x3F, 7, 8, 9, 10, 11, 12, 3, 0x3F, 13, 14, 15, 16,
                  17, 18, 4, 0x3F, 19, 20, 21, 22, 23, 24, 0),
            1, 4, full, 24);
}

static void carrying_out(void)
{
    /* Fields whose mask bit is not set are unchanged. A new row begins with zeros. */
    unpacks(__LINE__, BYTES(1, 0x3F, 1, 2, 3, 4, 5, 6, 1, 0x14, 7, 8, 0, 1, 0x02, 9, 0), 2, 4,
            BYTES(1, 2, 7, 4, 8, 6, 0, 0, 0, 0, 0, 0, 0, 0, 0, 0, 0, 0, 0, 0, 0, 0, 0, 0, /**/
                  0, 9, 0, 0, 0, 0, 0, 0, 0, 0, 0, 0, 0, 0, 0, 0, 0, 0, 0, 0, 0, 0, 0, 0));
    /* Descending and repeated tracks, a mask of 0, a stored 0. */
    unpacks(__LINE__, BYTES(4, 0x20, 0x44, 2, 0x01, 0x22, 2, 0x00, 2, 0x09, 0x00, 0x55, 0), 1, 4,
            BYTES(0, 0, 0, 0, 0, 0, 0, 0, 0, 0x55, 0, 0, 0, 0, 0, 0, 0, 0, 0, 0, 0, 0, 0, 0x44));
    packs(__LINE__,
          BYTES(0, 0, 0, 0, 0, 0, 0, 0, 0, 0x55, 0, 0, 0, 0, 0, 0, 0, 0, 0, 0, 0, 0, 0, 0x44), 1, 4,
          BYTES(2, 0x08, 0x55, 4, 0x20, 0x44, 0));
}

static void last_track(void)
{
    uint8_t cells[2 * 254 * 6] = {0};
    cells[127 * 6] = 0x10;
    cells[sizeof cells - 1] = 0xFF;
    unpacks(__LINE__, BYTES(128, 0x01, 0x10, 0, 254, 0x20, 0xFF, 0), 2, 254, cells, sizeof cells);
    packs(__LINE__, cells, sizeof cells, 2, 254, BYTES(128, 0x01, 0x10, 0, 254, 0x20, 0xFF, 0));
    broken(__LINE__, BYTES(255, 0x00, 0x00), 1, 254, 0);
}

static void broken_streams(void)
{
    /* A track that is too high. */
    broken(__LINE__, BYTES(5, 0, 0), 1, 4, 0);
    broken(__LINE__, BYTES(0, 1, 1, 0x47, 255, 0, 0), 2, 4, 4);
    /* Cut after the track, and inside the fields. */
    broken(__LINE__, BYTES(0, 4), 2, 4, 1);
    broken(__LINE__, BYTES(1, 0x01), 1, 4, 0);
    broken(__LINE__, BYTES(1, 0x3F, 1, 2, 3, 4, 5), 1, 4, 0);
    broken(__LINE__, BYTES(0, 1, 0x00, 4, 0x03, 0x00), 2, 4, 3);
    /* Missing row ends. */
    broken(__LINE__, NOTHING, 1, 4, 0);
    broken(__LINE__, BYTES(0, 0), 3, 4, 2);
    broken(__LINE__, BYTES(1, 0x01, 0x00), 1, 4, 3);
    /* Bytes left over. */
    broken(__LINE__, BYTES(0, 0), 1, 4, 1);
    broken(__LINE__, BYTES(2, 1, 0x47, 0, 0, 0xFF, 0), 2, 4, 5);
    broken(__LINE__, BYTES(7), 0, 4, 0);
}

/* Bits 6 and 7 of the mask are ignored, and the packer writes them as 0. */
static void upper_bits(void)
{
    static const uint8_t empty[48];
    static const uint8_t cells[48] = {[30] = 9, [36] = 1, 2, 3, 4, 5, 6};

    unpacks(__LINE__, BYTES(1, 0x40, 0), 1, 4, empty, 24);
    unpacks(__LINE__, BYTES(1, 0x80, 0), 1, 4, empty, 24);
    unpacks(__LINE__, BYTES(1, 0xC0, 0), 1, 4, empty, 24);
    unpacks(__LINE__, BYTES(1, 0xC0, 0, 0), 2, 4, empty, 48);
    packs(__LINE__, empty, 24, 1, 4, BYTES(0));
    unpacks(__LINE__, BYTES(0, 3, 0x3F, 1, 2, 3, 4, 5, 6, 2, 0xC1, 9, 0), 2, 4, cells, 48);
    unpacks(__LINE__, BYTES(0, 3, 0xFF, 1, 2, 3, 4, 5, 6, 2, 0x41, 9, 0), 2, 4, cells, 48);
    unpacks(__LINE__, BYTES(1, 0x40, 0, 2, 0x81, 9, 3, 0x7F, 1, 2, 3, 4, 5, 6, 4, 0xC0, 0), 2, 4,
            cells, 48);
    packs(__LINE__, cells, 48, 2, 4, BYTES(0, 2, 0x01, 9, 3, 0x3F, 1, 2, 3, 4, 5, 6, 0));
    /* Whole entries without fields and with all; cut entries; a track that is too high; a byte left over. */
    broken(__LINE__, BYTES(0x01, 0xC0), 1, 4, 2);
    broken(__LINE__, BYTES(0x01, 0xFF, 1, 2, 3, 4, 5, 6), 1, 4, 8);
    broken(__LINE__, BYTES(0x01, 0x41), 1, 4, 0);
    broken(__LINE__, BYTES(0x01, 0xFF, 1, 2, 3, 4, 5), 1, 4, 0);
    broken(__LINE__, BYTES(0x05, 0xC0, 0x00), 1, 4, 0);
    broken(__LINE__, BYTES(0x01, 0xC0, 0x00, 0x00), 1, 4, 3);
}

/*
 * Each of the 256 masks in an entry of track 3, after a row of one entry. The
 * entry has as many fields as bits 0 to 5 name. It is whole, or it is cut at
 * each byte. The packer writes the low six bits.
 */
static void every_mask(void)
{
    unsigned mask, bit;

    for (mask = 0; mask < 256; mask++) {
        uint8_t stream[16] = {2, 0xC2, 7, 0, 3, (uint8_t)mask};
        uint8_t packed[16] = {2, 0x02, 7, 0, 3, (uint8_t)(mask & 63)};
        uint8_t cells[48] = {[7] = 7};
        size_t end = 6, cut;

        for (bit = 0; bit < 6; bit++)
            if (mask >> bit & 1) {
                uint8_t field = (uint8_t)(0xF1 + bit);

                stream[end] = packed[end] = cells[36 + bit] = field;
                end++;
            }
        unpacks(__LINE__, stream, end + 1, 2, 4, cells, 48);
        if ((mask & 63) == 0)
            packs(__LINE__, cells, 48, 2, 4, BYTES(2, 0x02, 7, 0, 0));
        else
            packs(__LINE__, cells, 48, 2, 4, packed, end + 1);
        for (cut = 5; cut < end; cut++)
            broken(__LINE__, stream, cut, 2, 4, 4);
        broken(__LINE__, stream, end, 2, 4, end);
        stream[4] = 5;
        broken(__LINE__, stream, end + 1, 2, 4, 4);
    }
}

static void out_of_range(void)
{
    static const uint64_t rows[] = {65536,           65537,
                                    65538,           UINT64_C(1) << 32,
                                    UINT64_C(1) << 61, (UINT64_C(1) << 61) + 1,
                                    UINT64_C(1) << 63, UINT64_MAX};
    static const uint64_t tracks[] = {0,   1,   2,     3,
                                      5,   253, 255,   256,
                                      258, 260, 65540, (UINT64_C(1) << 32) + 4,
                                      (UINT64_C(1) << 62) + 4, UINT64_C(1) << 63,
                                      UINT64_MAX - 1, UINT64_MAX};
    static const uint8_t ones[72] = {1, 1, 1, 1, 1, 1};
    size_t at, length;

    for (at = 0; at < sizeof rows / sizeof *rows; at++) {
        check(__LINE__, BYTES(0), rows[at], 4, 16, 0);
        check(__LINE__, NOTHING, rows[at], 254, 16, 0);
        refuses_unpack(__LINE__, BYTES(9), rows[at], 4, 0, 16, 0);
        refuses_unpack(__LINE__, BYTES(0), rows[at], 4, 4096, 16, 0);
        refuses_pack(__LINE__, NOTHING, rows[at], 4, 4096, 16, 0);
        refuses_pack(__LINE__, ones, 24, rows[at], 4, 4096, 16, 0);
    }
    for (at = 0; at < sizeof tracks / sizeof *tracks; at++) {
        check(__LINE__, BYTES(0), 1, tracks[at], 16, 0);
        check(__LINE__, NOTHING, 0, tracks[at], 16, 0);
        check(__LINE__, NOTHING, UINT64_MAX, tracks[at], 16, 0);
        refuses_unpack(__LINE__, BYTES(9), 1, tracks[at], 0, 16, 0);
        refuses_unpack(__LINE__, NOTHING, 0, tracks[at], 4096, 16, 0);
        refuses_pack(__LINE__, NOTHING, 0, tracks[at], 4096, 16, 0);
        refuses_pack(__LINE__, ones, 24, 1, tracks[at], 4096, 16, 0);
    }
    /* Cells of another length. */
    for (length = 0; length <= 72; length++) {
        if (length != 24)
            refuses_pack(__LINE__, ones, length, 1, 4, 0, 16, 0);
        if (length != 0)
            refuses_pack(__LINE__, ones, length, 0, 4, 4096, 16, 0);
        refuses_pack(__LINE__, ones, length, 65535, 254, 4096, 16, 0);
    }
}

static void null_with_length_0(void)
{
    static const uint8_t zeros[24];
    static const uint8_t ones[24] = {1, 1, 1, 1, 1, 1, 1, 1, 1, 1, 1, 1,
                                     1, 1, 1, 1, 1, 1, 1, 1, 1, 1, 1, 1};

    compare(dbm0_check_pattern(NULL, 0, 0, 4), 0, 0, 0, __LINE__, "check");
    compare(dbm0_check_pattern(NULL, 0, 1, 4), 15, 0, 0, __LINE__, "check");
    compare(dbm0_check_pattern(NULL, 0, 65535, 254), 15, 0, 0, __LINE__, "check");
    compare(dbm0_unpack_pattern(NULL, 0, 0, 4, NULL, 0), 0, 0, 0, __LINE__, "unpack");
    compare(dbm0_unpack_pattern(NULL, 0, 1, 4, NULL, 0), 17, 24, 0, __LINE__, "unpack");
    compare(dbm0_unpack_pattern(zeros, 1, 1, 4, NULL, 0), 17, 24, 0, __LINE__, "unpack");
    compare(dbm0_unpack_pattern(zeros, 1, 0, 4, NULL, 0), 15, 0, 0, __LINE__, "unpack");
    compare(dbm0_unpack_pattern(NULL, 0, 65535, 254, NULL, 0), 17, 99875340, 0, __LINE__,
            "unpack");
    compare(dbm0_pack_pattern(NULL, 0, 0, 254, NULL, 0), 0, 0, 0, __LINE__, "pack");
    compare(dbm0_pack_pattern(NULL, 0, 1, 4, NULL, 0), 16, 0, 0, __LINE__, "pack");
    compare(dbm0_pack_pattern(zeros, 24, 1, 4, NULL, 0), 17, 1, 0, __LINE__, "pack");
    compare(dbm0_pack_pattern(ones, 24, 1, 4, NULL, 0), 17, 33, 0, __LINE__, "pack");
    fill();
    compare(dbm0_unpack_pattern(NULL, 0, 0, 4, out, 9), 0, 0, 0, __LINE__, "unpack");
    compare(dbm0_pack_pattern(NULL, 0, 0, 4, out, 9), 0, 0, 0, __LINE__, "pack");
    HOLDS(rest_is_filled(0));
}

/* The largest pattern: 65,535 rows of 254 tracks, a field in its last cell. */
static void largest(void)
{
    size_t cells_length = (size_t)DBM0_PATTERN_CELL_BYTES(65535, 254);
    size_t stream_length = 65535 + 3, at;
    uint8_t *cells = malloc(cells_length);
    uint8_t *stream = calloc(stream_length + 1, 1);
    uint8_t *again = malloc(stream_length + 1);

    if (cells == NULL || stream == NULL || again == NULL) {
        count(0, __LINE__, "no memory for the largest pattern");
    } else {
        stream[65534] = 254;
        stream[65535] = 0x20;
        stream[65536] = 0x77;
        memset(cells, FILL, cells_length);
        memset(again, FILL, stream_length + 1);
        check(__LINE__, stream, stream_length, 65535, 254, 0, 0);
        check(__LINE__, stream, stream_length + 1, 65535, 254, 15, 65538);
        check(__LINE__, stream, stream_length - 1, 65535, 254, 15, 65537);
        check(__LINE__, stream, stream_length - 2, 65535, 254, 15, 65534);
        check(__LINE__, stream, stream_length, 65535, 252, 15, 65534);
        compare(dbm0_unpack_pattern(stream, stream_length, 65535, 254, cells, cells_length - 1), 17,
                99875340, 0, __LINE__, "unpack");
        compare(dbm0_unpack_pattern(stream, stream_length + 1, 65535, 254, cells, cells_length), 15,
                65538, 0, __LINE__, "unpack");
        for (at = 0; at < cells_length && cells[at] == FILL; at++)
            ;
        HOLDS(at == cells_length);
        compare(dbm0_unpack_pattern(stream, stream_length, 65535, 254, cells, cells_length), 0, 0,
                99875340, __LINE__, "unpack");
        for (at = 0; at < cells_length && cells[at] == 0; at++)
            ;
        HOLDS(at == cells_length - 1);
        HOLDS(cells[cells_length - 1] == 0x77);
        compare(dbm0_pack_pattern(cells, cells_length, 65535, 254, again, stream_length - 1), 17,
                65538, 0, __LINE__, "pack");
        HOLDS(again[0] == FILL && again[stream_length - 2] == FILL);
        compare(dbm0_pack_pattern(cells, cells_length, 65535, 254, again, stream_length + 1), 0, 0,
                65538, __LINE__, "pack");
        HOLDS(memcmp(again, stream, stream_length) == 0);
        HOLDS(again[stream_length] == FILL);
    }
    free(cells);
    free(stream);
    free(again);
}

static void macros(void)
{
    HOLDS(DBM0_PATTERN_STREAM_BROKEN == 15);
    HOLDS(DBM0_PATTERN_OUT_OF_RANGE == 16);
    HOLDS(DBM0_PATTERN_OUTPUT_TOO_SHORT == 17);
    HOLDS(DBM0_PATTERN_CELL_BYTES(64, 32) == 12288);
    HOLDS(DBM0_PATTERN_CELL_BYTES(60 + 4, 30 + 2) == 12288);
    HOLDS(DBM0_PATTERN_CELL_BYTES(65535, 254) == 99875340);
    HOLDS(DBM0_PATTERN_MOST_PACKED_BYTES(1, 4) == 33);
    HOLDS(DBM0_PATTERN_MOST_PACKED_BYTES(0 + 1, 2 + 2) == 33);
    HOLDS(DBM0_PATTERN_MOST_PACKED_BYTES(65535, 254) == 133232655);
    HOLDS(sizeof(dbm0_pattern_answer) == 24);
}

int main(void)
{
    register_samples();
    carrying_out();
    last_track();
    broken_streams();
    upper_bits();
    every_mask();
    out_of_range();
    null_with_length_0();
    largest();
    macros();
    return counted();
}
