/*
 * All records of a module from libdbm0.a, called from C, with expectations typed
 * by hand.
 *
 * Prints one line for each expectation that fails. The last line has the numbers
 * of passed and failed expectations. The exit status is 1 if any failed.
 */

#define _DEFAULT_SOURCE /* for MAP_ANONYMOUS */

#include "dbm0.h"

#define WRITING_CALL dbm0_records
#define ENOUGH(length) ((length) + 60)
#define CHANGED_ROOMS {0, 1, 60, 501, 502, 609, 700}
#include "writing.h"

#define TIMES_4(bytes) bytes bytes bytes bytes
#define TIMES_11(bytes) TIMES_4(bytes) TIMES_4(bytes) bytes bytes bytes
#define ZEROS_4 "\0\0\0\0"
#define NO_NAME TIMES_11(ZEROS_4)

/* 58 bytes, and 60 of records. */
#define SMALLEST \
    "DBM0" "\x03\0\0\0" "INFO" "\0\0\0\x0A" "\0\0\0\0\0\0\0\0\0\x04" \
    "SONG" "\0\0\0\0" "INST" "\0\0\0\0" "PATT" "\0\0\0\0" "SMPL" "\0\0\0\0"
#define SMALLEST_RECORDS \
    "\x03\0" NO_NAME "\0\0\0\0\0\0\0\0\0\x04" "\0\0" "\0\0"

/*
 * Records of all kinds, with the chunks in an unusual order.
 *
 *      0 the version, revision $21
 *      8 VENV   16 count, 18 the envelope
 *    154 NAME
 *    206 INFO   214 instruments, 216 samples, 218 songs, 220 patterns, 222 tracks
 *    224 PENV   232 count, 234 the envelope, its first point at 242
 *    370 SONG   378 the first song, its entries at 424, 426 and 428; 430 the second
 *    476 INST   484 the instrument, its sample at 514, volume at 516, loop length at 526
 *    534 ABCD, 1 byte
 *    543 PATT   551 two rows, 563 one row and a filler
 *    571 SMPL   579 8 bits, 591 16 bits, 601 32 bits, to 609
 */
#define NAME "The name of a module, forty-four bytes long."
#define SONGS \
    "Bytes that are \xFC and \x01, and zeros: \0 \0\0\0\0\0\0\0" \
    "\0\x03" "\0\x01" "\0\0" "\0\x01" \
    NO_NAME "\0\0"
#define INSTRUMENT \
    "An instrument, of thirty bytes" \
    "\0\x01" "\0\x40" "\0\0\x20\xAB" "\0\0\0\x01" "\0\0\0\x03" "\xFF\x80" "\0\x02"
#define INFO "\0\x01" "\0\x03" "\0\x02" "\0\x02" "\0\x06"
#define UNUSED "\x12\x34\x56\x78"
#define UNUSED_28 TIMES_11(UNUSED) TIMES_11(UNUSED) TIMES_4(UNUSED) UNUSED UNUSED
#define ZEROS_28 TIMES_11(ZEROS_4) TIMES_11(ZEROS_4) TIMES_4(ZEROS_4) ZEROS_4 ZEROS_4
/* Four points are in use. The last has position $FFFF. */
#define VOLUME "\0\x01" "\x0F\x03" "\x03\x01\x02\0" \
    "\0\0\0\0" "\0\x01\0\x40" "\0\x02\0\x21" "\xFF\xFF\0\x40"

#define FULL(version, panning) \
    "DBM0" version "\x21\xDE\xAD" \
    "VENV" "\0\0\0\x8A" "\0\x01" VOLUME UNUSED_28 \
    "NAME" "\0\0\0\x2C" NAME \
    "INFO" "\0\0\0\x0A" INFO \
    "PENV" "\0\0\0\x8A" "\0\x01" panning \
    "SONG" "\0\0\0\x62" SONGS \
    "INST" "\0\0\0\x32" INSTRUMENT \
    "ABCD" "\0\0\0\x01" "Z" \
    "PATT" "\0\0\0\x14" "\0\x02" "\0\0\0\x06" "\x02\x03\x47\x01\0\0" "\0\x01" "\0\0\0\x01" "\0" "\x55" \
    "SMPL" "\0\0\0\x1E" "\0\0\0\x01" "\0\0\0\x04" "PATT" "\0\0\0\x02" "\0\0\0\x01" "\x80\0" \
    "\0\0\0\x04" "\0\0\0\0"

/* 60 bytes, the songs, the instrument, the rows of two patterns, three samples, two envelopes: 502 bytes. */
#define FULL_RECORDS(version, panning) \
    version "\x21" NAME INFO "\0\x01" "\0\x01" \
    SONGS INSTRUMENT \
    "\0\x02" "\0\x01" \
    "\0\x08" "\0\0\0\x04" "\0\x10" "\0\0\0\x01" "\0\x20" "\0\0\0\0" \
    VOLUME ZEROS_28 \
    panning

/* One point in use, or all: signed and as stored in version 3, 4v - 128 in version 2. S1, L1, L2 and S2 are as stored. */
#define ONE_POINT "\0\x01" "\0\0" "\x20\x21\x22\x23"
#define ALL_POINTS "\0\x01" "\x01\x1F" "\xFF\0\0\xFF"
#define FULL_3 FULL("\x03", ONE_POINT "\0\x07\xFF\x80" UNUSED UNUSED UNUSED UNUSED_28)
#define FULL_3_RECORDS \
    FULL_RECORDS("\x03", ONE_POINT "\0\x07\xFF\x80" ZEROS_4 ZEROS_4 ZEROS_4 ZEROS_28)
#define FULL_2 FULL("\x02", ONE_POINT "\0\x07\0\x10" UNUSED UNUSED UNUSED UNUSED_28)
#define FULL_2_RECORDS \
    FULL_RECORDS("\x02", ONE_POINT "\0\x07\xFF\xC0" ZEROS_4 ZEROS_4 ZEROS_4 ZEROS_28)

/* Four times eight points. */
#define EIGHT_3 \
    "\0\0\xFF\x80" "\0\x01\0\x80" "\0\x02\0\0" "\0\x03\xFF\xFF" \
    "\xFF\xFF\0\x01" "\0\x04\0\x7F" "\0\x05\xFF\x81" "\0\x06\0\x40"
#define EIGHT_2 \
    "\0\0\0\0" "\0\x01\0\x40" "\0\x02\0\x20" "\0\x03\0\x1F" \
    "\xFF\xFF\0\x21" "\0\x04\0\x3F" "\0\x05\0\x01" "\0\x06\0\x30"
#define EIGHT_2_SHOWN \
    "\0\0\xFF\x80" "\0\x01\0\x80" "\0\x02\0\0" "\0\x03\xFF\xFC" \
    "\xFF\xFF\0\x04" "\0\x04\0\x7C" "\0\x05\xFF\x84" "\0\x06\0\x40"

static void modules(void)
{
    HOLDS(sizeof(SMALLEST) - 1 == 58 && sizeof(SMALLEST_RECORDS) - 1 == 60);
    WRITES(SMALLEST, SMALLEST_RECORDS);
    HOLDS(sizeof(FULL_3) - 1 == 609 && sizeof(FULL_3_RECORDS) - 1 == 502);
    WRITES(FULL_3, FULL_3_RECORDS);
    WRITES(FULL_2, FULL_2_RECORDS);
    WRITES(FULL("\x03", ALL_POINTS TIMES_4(EIGHT_3)), FULL_RECORDS("\x03", ALL_POINTS TIMES_4(EIGHT_3)));
    WRITES(FULL("\x02", ALL_POINTS TIMES_4(EIGHT_2)), FULL_RECORDS("\x02", ALL_POINTS TIMES_4(EIGHT_2_SHOWN)));
}

/* A name, and chunks of no envelopes, after the other chunks. */
static void after_the_others(void)
{
    WRITES(SMALLEST "VENV" "\0\0\0\x02" "\0\0" "PENV" "\0\0\0\x02" "\0\0", SMALLEST_RECORDS);
    WRITES(SMALLEST "NAME" "\0\0\0\x2C" NAME,
          "\x03\0" NAME "\0\0\0\0\0\0\0\0\0\x04" "\0\0" "\0\0");
    /* Zero bytes inside NAME are kept. */
    WRITES(SMALLEST "NAME" "\0\0\0\x2C" "\0\xFF" TIMES_4("\0 \0 ") TIMES_4("\0\0\0\0\0\0") "\x80\0",
          "\x03\0" "\0\xFF" TIMES_4("\0 \0 ") TIMES_4("\0\0\0\0\0\0") "\x80\0" "\0\0\0\0\0\0\0\0\0\x04" "\0\0" "\0\0");
}

static void refused_modules(void)
{
    LOAD(FULL_3);
    CHANGED(0, 'X', DBM0_MODULE_NOT_DBM0, 0);
    CHANGED(4, 4, DBM0_MODULE_VERSION, 4);
    CHANGED(578, 0x1F, DBM0_MODULE_CHUNK_CUT, 571);
    CHANGED(534, 'a', DBM0_MODULE_IDENTIFIER, 534);
    CHANGED(373, 'H', DBM0_MODULE_CHUNK_MISSING, 609);
    CHANGED(223, 5, DBM0_MODULE_INFO_RANGE, 222);
    CHANGED(219, 3, DBM0_MODULE_BLOCKS, 370);
    CHANGED(425, 2, DBM0_MODULE_REFERENCE, 424);
    CHANGED(515, 4, DBM0_MODULE_REFERENCE, 514);
    CHANGED(517, 65, DBM0_MODULE_FIELD_RANGE, 516);
    CHANGED(235, 2, DBM0_MODULE_REFERENCE, 234);
    CHANGED(244, 1, DBM0_MODULE_FIELD_RANGE, 244);
    CHANGED(529, 4, DBM0_MODULE_LOOP, 484);
    CHANGED(557, 7, DBM0_MODULE_STREAM_BROKEN, 551);
    /* Two faults: the first in the order of the checks is reported. */
    module[557] = 7;
    CHANGED(529, 4, DBM0_MODULE_LOOP, 484);
    module[557] = 2;
    memcpy(module + 534, "NAME", 4);
    refused(DBM0_MODULE_CHUNK_REPEATED, 534, 700, __LINE__);
    memcpy(module + 534, "ABCD", 4);
    memcpy(module + 8, "SMPL", 4);
    refused(DBM0_MODULE_BEFORE_INFO, 8, 700, __LINE__);
    memcpy(module + 8, "INFO", 4);
    refused(DBM0_MODULE_CHUNK_LENGTH, 8, 700, __LINE__);
    memcpy(module + 8, "VENV", 4);
    written(FULL_3_RECORDS, 502, 502, __LINE__);
    /* Bits 6 and 7 of a mask are ignored. */
    module[558] = 0xC3;
    written(FULL_3_RECORDS, 502, 502, __LINE__);
    module[558] = 0x03;
    length = 608;
    refused(DBM0_MODULE_CHUNK_CUT, 571, 700, __LINE__);
}

/* The bytes equal the answers of the queries. */
static void queries(void)
{
    uint8_t *out;
    dbm0_envelope_answer envelope;
    size_t point;

    LOAD(FULL_2);
    out = output(502);
    HOLDS(dbm0_records(module, length, out, 502).length == 502);
    HOLDS(dbm0_version(module, length).version == out[0] && dbm0_version(module, length).revision == out[1]);
    HOLDS(memcmp(dbm0_name(module, length).name, out + 2, 44) == 0);
    HOLDS(dbm0_info(module, length).songs == out[51] && dbm0_info(module, length).tracks == out[55]);
    HOLDS(dbm0_volume_envelopes(module, length).count == out[57]);
    HOLDS(dbm0_panning_envelopes(module, length).count == out[59]);
    HOLDS(memcmp(dbm0_song(module, length, 0).name, out + 60, 44) == 0);
    HOLDS(dbm0_song(module, length, 0).length == out[105] && dbm0_entry(module, length, 0, 2).pattern == out[111]);
    HOLDS(memcmp(dbm0_instrument(module, length, 1).name, out + 158, 30) == 0);
    HOLDS(dbm0_instrument(module, length, 1).loop_length == out[203]);
    HOLDS(dbm0_rows(module, length, 0).rows == out[209] && dbm0_rows(module, length, 1).rows == out[211]);
    HOLDS(dbm0_sample(module, length, 3).width == out[225] && dbm0_sample(module, length, 1).frames == out[217]);
    envelope = dbm0_panning_envelope(module, length, 0);
    HOLDS(envelope.first_sustain == out[370] && envelope.second_sustain == out[373]);
    for (point = 0; point < 32; point++) {
        const uint8_t *shown = out + 374 + 4 * point;
        HOLDS(envelope.positions[point] == shown[0] * 256 + shown[1]);
        HOLDS(envelope.values[point] == (int16_t)(shown[2] * 256 + shown[3]));
    }
}

int main(void)
{
    if (!ready())
        return 1;
    modules();
    after_the_others();
    refused_modules();
    queries();
    NOTHING(FULL_3, 502);
    HOLDS(DBM0_VERSION >= 10300);
    return counted();
}
