/*
 * Repacking a whole module with libdbm0.a, together with libpattern.a, called
 * from C, with expectations typed by hand.
 *
 * Prints one line for each expectation that fails. The last line has the numbers
 * of passed and failed expectations. The exit status is 1 if any failed.
 */

#define _DEFAULT_SOURCE /* for MAP_ANONYMOUS */

#include "dbm0.h"
#include "dbm0_pattern.h"

#define WRITING_CALL dbm0_repack
#define ENOUGH(length) (length)
#define CHANGED_ROOMS {0, 1, 299, 300, 304, 400}
#include "writing.h"

/* The module `before` is repacked to `after`, which is accepted and repacks to itself. */
static void becomes(
    const char *before, size_t before_length, const char *after, size_t after_length, int line)
{
    writes(before, before_length, after, after_length, line);
    load_module(after, after_length);
    count(dbm0_check_module(module, length).number == 0, line, "the output is refused");
    written(after, after_length, after_length, line);
}

#define BECOMES(before, after) \
    becomes((before), sizeof(before) - 1, (after), sizeof(after) - 1, __LINE__)

/* One pattern of 4 tracks and nothing else: PATT at 42, its block at 50. */
#define ONE(patt) \
    "DBM0" "\x03\0\0\0" "INFO" "\0\0\0\x0A" "\0\0\0\0\0\0\0\x01\0\x04" \
    "SONG" "\0\0\0\0" "INST" "\0\0\0\0" "PATT" patt "SMPL" "\0\0\0\0"

/* The length of PATT, then rows, packed length, stream and filler: P1 to P6. */
#define P1 "\0\0\0\x0C" "\0\x02" "\0\0\0\x06" "\x02\x03\x47\x01\0\0"
#define P2 "\0\0\0\x0E" "\0\x02" "\0\0\0\x08" "\x02\x01\x47\x02\x02\x01\0\0"
#define P3 "\0\0\0\x0E" "\0\x02" "\0\0\0\x07" "\x02\x07\x47\x01\0\0\0" "\xFF"
#define P4 "\0\0\0\x0E" "\0\x01" "\0\0\0\x07" "\x01\x01\x47\x01\x01\0\0" "\x01"
#define P5 "\0\0\0\x0A" "\0\x01" "\0\0\0\x03" "\x01\0\0" "\x80"
#define P6 "\0\0\0\x06" "\0\0" "\0\0\0\0"
#define EMPTY_ROW "\0\0\0\x08" "\0\x01" "\0\0\0\x01" "\0" "\0"
#define EMPTY_ROW_FILLED "\0\0\0\x08" "\0\x01" "\0\0\0\x01" "\0" "\x77"

static void streams(void)
{
    HOLDS(sizeof(ONE(P1)) - 1 == 70);
    BECOMES(ONE(P1), ONE(P1));
    BECOMES(ONE(P2), ONE(P1));
    BECOMES(ONE(P3), ONE(P1));
    BECOMES(ONE(P4), ONE(EMPTY_ROW));
    BECOMES(ONE(P5), ONE(EMPTY_ROW));
    BECOMES(ONE(P6), ONE(P6));
    BECOMES(ONE(EMPTY_ROW), ONE(EMPTY_ROW));
    BECOMES(ONE(EMPTY_ROW_FILLED), ONE(EMPTY_ROW));
    /* Tracks in another order: the same length, and other bytes. */
    BECOMES(ONE("\0\0\0\x0E" "\0\x01" "\0\0\0\x07" "\x04\x20\x09\x01\x01\x05\0" "\xFF"),
            ONE("\0\0\0\x0E" "\0\x01" "\0\0\0\x07" "\x01\x01\x05\x04\x20\x09\0" "\0"));
    /* From an even length to an odd one: a filler is added. */
    BECOMES(ONE("\0\0\0\x0E" "\0\x01" "\0\0\0\x08" "\x01\x03\x05\x06\x01\x01\x07\0"),
            ONE("\0\0\0\x0C" "\0\x01" "\0\0\0\x05" "\x01\x03\x07\x06\0" "\0"));
}

/* Bits 6 and 7 of masks are written as 0: in the first, the second and the last entry of a row, and in two rows. */
static void upper_bits(void)
{
    BECOMES(ONE("\0\0\0\x0A" "\0\x01" "\0\0\0\x04" "\x01\x41\x47\0"),
            ONE("\0\0\0\x0A" "\0\x01" "\0\0\0\x04" "\x01\x01\x47\0"));
    BECOMES(ONE("\0\0\0\x0A" "\0\x01" "\0\0\0\x03" "\x01\xC0\0" "\x99"), ONE(EMPTY_ROW));
    BECOMES(ONE("\0\0\0\x18" "\0\x02" "\0\0\0\x12" "\x04\xC1\x47\x02\x42\x09\x01\x80\0"
                "\x03\x7F\x11\x12\x13\x14\x15\x16\0"),
            ONE("\0\0\0\x16" "\0\x02" "\0\0\0\x10" "\x02\x02\x09\x04\x01\x47\0"
                "\x03\x3F\x11\x12\x13\x14\x15\x16\0"));
}

/* No patterns: 58 bytes. */
#define SMALLEST \
    "DBM0" "\x03\0\0\0" "INFO" "\0\0\0\x0A" "\0\0\0\0\0\0\0\0\0\x04" \
    "SONG" "\0\0\0\0" "INST" "\0\0\0\0" "PATT" "\0\0\0\0" "SMPL" "\0\0\0\0"

/*
 * Chunks on all sides of PATT, some of them not covered; version 2.
 *
 *      0 version 2, revision $99, reserved word $DEAD
 *      8 PATU, 4 bytes
 *     20 NAME
 *     72 INFO   80 instruments, 82 samples, 84 songs, 86 patterns, 88 tracks
 *     90 SMPL   98 a sample of 8 bits, its frames at 106 are "PATT"
 *    110 DSPE, empty
 *    118 PATT   126 the first pattern, 140 the second, 154 the third, 160 the
 *               fourth; 168 the end
 *    168 SONG   176 a song, its entries at 222 and 224
 *    226 DSPE, 3 bytes
 *    237 INST   245 an instrument with volume at 277 and loop length at 287
 *    295 ZZZZ, 1 byte, to 304
 */
#define FE_4 "\xFE\xFE\xFE\xFE"
#define FE_44 FE_4 FE_4 FE_4 FE_4 FE_4 FE_4 FE_4 FE_4 FE_4 FE_4 FE_4
#define FULL(patt) \
    "DBM0" "\x02\x99\xDE\xAD" \
    "PATU" "\0\0\0\x04" "\0\x02\0\0" \
    "NAME" "\0\0\0\x2C" FE_44 \
    "INFO" "\0\0\0\x0A" "\0\x01" "\0\x01" "\0\x01" "\0\x04" "\0\x04" \
    "SMPL" "\0\0\0\x0C" "\0\0\0\x01" "\0\0\0\x04" "PATT" \
    "DSPE" "\0\0\0\0" \
    "PATT" patt \
    "SONG" "\0\0\0\x32" FE_44 "\0\x02" "\0\x03" "\0\0" \
    "DSPE" "\0\0\0\x03" "abc" \
    "INST" "\0\0\0\x32" "An instrument, of thirty bytes" \
    "\0\x01" "\0\x40" "\0\0\x20\xAB" "\0\0\0\x01" "\0\0\0\x03" "\xFF\x80" "\0\x01" \
    "ZZZZ" "\0\0\0\x01" "\xFF"

#define BEFORE FULL("\0\0\0\x2A" \
    "\0\x02" "\0\0\0\x08" "\x02\x01\x47\x02\x02\x01\0\0" \
    "\0\x02" "\0\0\0\x07" "\x02\x07\x47\x01\0\0\0" "\xFF" \
    "\0\0" "\0\0\0\0" \
    "\0\x01" "\0\0\0\x01" "\0" "\x55")
#define AFTER FULL("\0\0\0\x26" \
    "\0\x02" "\0\0\0\x06" "\x02\x03\x47\x01\0\0" \
    "\0\x02" "\0\0\0\x06" "\x02\x03\x47\x01\0\0" \
    "\0\0" "\0\0\0\0" \
    "\0\x01" "\0\0\0\x01" "\0" "\0")

static void modules(void)
{
    HOLDS(sizeof(SMALLEST) - 1 == 58);
    BECOMES(SMALLEST, SMALLEST);
    HOLDS(sizeof(BEFORE) - 1 == 304 && sizeof(AFTER) - 1 == 300);
    BECOMES(BEFORE, AFTER);
    /* PATT first of the four, and as the last chunk of the module. */
    BECOMES("DBM0" "\x03\0\0\0" "INFO" "\0\0\0\x0A" "\0\0\0\0\0\0\0\x01\0\x04"
            "PATT" P3 "SONG" "\0\0\0\0" "INST" "\0\0\0\0" "SMPL" "\0\0\0\0",
            "DBM0" "\x03\0\0\0" "INFO" "\0\0\0\x0A" "\0\0\0\0\0\0\0\x01\0\x04"
            "PATT" P1 "SONG" "\0\0\0\0" "INST" "\0\0\0\0" "SMPL" "\0\0\0\0");
    BECOMES("DBM0" "\x03\0\0\0" "INFO" "\0\0\0\x0A" "\0\0\0\0\0\0\0\x01\0\x04"
            "SONG" "\0\0\0\0" "INST" "\0\0\0\0" "SMPL" "\0\0\0\0" "PATT" P5,
            "DBM0" "\x03\0\0\0" "INFO" "\0\0\0\x0A" "\0\0\0\0\0\0\0\x01\0\x04"
            "SONG" "\0\0\0\0" "INST" "\0\0\0\0" "SMPL" "\0\0\0\0" "PATT" EMPTY_ROW);
}

/* Two patterns of one row: entries and fillers. 86 bytes. */
#define TWO(first, second) \
    "DBM0" "\x03\0\0\0" "INFO" "\0\0\0\x0A" "\0\0\0\0\0\0\0\x02\0\x04" \
    "SONG" "\0\0\0\0" "INST" "\0\0\0\0" "PATT" "\0\0\0\x1C" \
    "\0\x01" "\0\0\0\x07" first "\0\x01" "\0\0\0\x07" second "SMPL" "\0\0\0\0"
#define DESCENDING "\x04\x20\x09\x01\x01\x05\0"
#define ASCENDING "\x01\x01\x05\x04\x20\x09\0"

/* The module keeps its length, and each pattern is repacked. */
static void as_long_as_before(void)
{
    HOLDS(sizeof(TWO(ASCENDING "\0", ASCENDING "\0")) - 1 == 86);
    BECOMES(TWO(DESCENDING "\0", ASCENDING "\0"), TWO(ASCENDING "\0", ASCENDING "\0"));
    BECOMES(TWO(ASCENDING "\0", DESCENDING "\0"), TWO(ASCENDING "\0", ASCENDING "\0"));
    BECOMES(TWO(ASCENDING "\x80", ASCENDING "\0"), TWO(ASCENDING "\0", ASCENDING "\0"));
    BECOMES(TWO(ASCENDING "\0", ASCENDING "\x01"), TWO(ASCENDING "\0", ASCENDING "\0"));
}

/* The queries return the same for the module before and after. */
static void shown(void)
{
    static const uint8_t cells[48] = {[6] = 0x47, [7] = 0x01};
    uint8_t before[48], after[48];
    static uint8_t out[304];
    size_t pattern;
    dbm0_length_answer answer;

    LOAD(BEFORE);
    answer = dbm0_repack(module, length, out, sizeof out);
    HOLDS(answer.number == 0 && answer.length == 300);
    HOLDS(dbm0_version(out, 300).version == 0x02 && dbm0_version(out, 300).revision == 0x99);
    HOLDS(dbm0_info(out, 300).patterns == 4 && dbm0_info(out, 300).tracks == 4);
    HOLDS(memcmp(dbm0_name(out, 300).name, FE_44, 44) == 0);
    HOLDS(dbm0_entry(out, 300, 0, 0).pattern == 3 && dbm0_entry(out, 300, 0, 1).pattern == 0);
    HOLDS(dbm0_instrument(out, 300, 1).panning == -128);
    HOLDS(dbm0_instrument(out, 300, 1).loop_length == 3);
    HOLDS(dbm0_rows(out, 300, 0).rows == 2 && dbm0_rows(out, 300, 1).rows == 2);
    HOLDS(dbm0_rows(out, 300, 2).rows == 0 && dbm0_rows(out, 300, 3).rows == 1);
    for (pattern = 0; pattern < 2; pattern++) {
        HOLDS(dbm0_cells(module, length, pattern, before, sizeof before).length == 48);
        HOLDS(dbm0_cells(out, 300, pattern, after, sizeof after).length == 48);
        HOLDS(memcmp(before, cells, 48) == 0 && memcmp(after, cells, 48) == 0);
    }
    HOLDS(dbm0_frames(out, 300, 1).offset == 106 && dbm0_frames(out, 300, 1).length == 4);
    HOLDS(memcmp(out + 106, "PATT", 4) == 0);
    /* A stream of the output equals the result of libpattern.a's packer. */
    HOLDS(dbm0_pack_pattern(cells, sizeof cells, 2, 4, after, sizeof after).length == 6);
    HOLDS(memcmp(out + 132, after, 6) == 0 && memcmp(out + 144, after, 6) == 0);
}

static void refused_modules(void)
{
    LOAD(BEFORE);
    CHANGED(0, 'X', DBM0_MODULE_NOT_DBM0, 0);
    CHANGED(4, 4, DBM0_MODULE_VERSION, 4);
    CHANGED(302, 2, DBM0_MODULE_CHUNK_CUT, 295);
    CHANGED(298, 'z', DBM0_MODULE_IDENTIFIER, 295);
    CHANGED(11, 'T', DBM0_MODULE_BEFORE_INFO, 8);
    CHANGED(171, 'H', DBM0_MODULE_CHUNK_MISSING, 304);
    CHANGED(89, 5, DBM0_MODULE_INFO_RANGE, 88);
    CHANGED(125, 0x29, DBM0_MODULE_CHUNK_CUT, 167);
    CHANGED(131, 6, DBM0_MODULE_BLOCKS, 118);
    CHANGED(223, 4, DBM0_MODULE_REFERENCE, 222);
    CHANGED(278, 65, DBM0_MODULE_FIELD_RANGE, 277);
    CHANGED(290, 4, DBM0_MODULE_LOOP, 245);
    CHANGED(146, 5, DBM0_MODULE_STREAM_BROKEN, 140);
    /* Two faults: the first in the order of the checks is reported. */
    module[146] = 5;
    CHANGED(290, 4, DBM0_MODULE_LOOP, 245);
    module[146] = 2;
    memcpy(module + 295, "INFO", 4);
    refused(DBM0_MODULE_CHUNK_REPEATED, 295, 400, __LINE__);
    memcpy(module + 295, "ZZZZ", 4);
    memcpy(module + 8, "NAME", 4);
    refused(DBM0_MODULE_CHUNK_LENGTH, 8, 400, __LINE__);
    memcpy(module + 8, "PATU", 4);
    written(AFTER, sizeof(AFTER) - 1, 300, __LINE__);
    length = 303;
    refused(DBM0_MODULE_CHUNK_CUT, 295, 400, __LINE__);
}

int main(void)
{
    if (!ready())
        return 1;
    streams();
    upper_bits();
    modules();
    as_long_as_before();
    shown();
    refused_modules();
    NOTHING(BEFORE, 300);
    HOLDS(DBM0_VERSION >= 10200);
    return counted();
}
