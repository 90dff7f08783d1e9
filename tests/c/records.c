/*
 * The queries of libdbm0.a, together with libpattern.a, called from C, with
 * expectations typed by hand.
 *
 * Prints one line for each expectation that fails. The last line has the numbers
 * of passed and failed expectations. The exit status is 1 if any failed.
 */

#define _DEFAULT_SOURCE /* for MAP_ANONYMOUS */

#include "dbm0.h"
#include "dbm0_pattern.h"
#include "expect.h"
#include "guarded.h"

#include <stdio.h>
#include <string.h>

/* The layout of the answers, as other languages have to declare them. */
#define SIZE(type, size) _Static_assert(sizeof(type) == (size), #type)
#define AT(type, field, place) _Static_assert(offsetof(type, field) == (place), #type ": " #field)
SIZE(dbm0_version_answer, 24);
AT(dbm0_version_answer, version, 16);
AT(dbm0_version_answer, revision, 17);
SIZE(dbm0_name_answer, 64);
AT(dbm0_name_answer, name, 16);
SIZE(dbm0_info_answer, 32);
AT(dbm0_info_answer, instruments, 16);
AT(dbm0_info_answer, tracks, 24);
SIZE(dbm0_song_answer, 64);
AT(dbm0_song_answer, length, 60);
SIZE(dbm0_entry_answer, 24);
AT(dbm0_entry_answer, pattern, 16);
SIZE(dbm0_length_answer, 24);
AT(dbm0_length_answer, length, 16);
SIZE(dbm0_instrument_answer, 72);
AT(dbm0_instrument_answer, name, 16);
AT(dbm0_instrument_answer, sample, 46);
AT(dbm0_instrument_answer, volume, 48);
AT(dbm0_instrument_answer, panning, 50);
AT(dbm0_instrument_answer, flags, 52);
AT(dbm0_instrument_answer, rate, 56);
AT(dbm0_instrument_answer, loop_start, 60);
AT(dbm0_instrument_answer, loop_length, 64);
SIZE(dbm0_count_answer, 24);
AT(dbm0_count_answer, count, 16);
SIZE(dbm0_envelope_answer, 216);
AT(dbm0_envelope_answer, instrument, 16);
AT(dbm0_envelope_answer, second_sustain, 23);
AT(dbm0_envelope_answer, positions, 24);
AT(dbm0_envelope_answer, values, 88);
SIZE(dbm0_rows_answer, 24);
AT(dbm0_rows_answer, rows, 16);
SIZE(dbm0_cell_answer, 32);
AT(dbm0_cell_answer, kind, 16);
AT(dbm0_cell_answer, parameter2, 24);
SIZE(dbm0_sample_answer, 24);
AT(dbm0_sample_answer, width, 16);
AT(dbm0_sample_answer, frames, 20);
SIZE(dbm0_frames_answer, 32);
AT(dbm0_frames_answer, offset, 16);
AT(dbm0_frames_answer, length, 24);
SIZE(dbm0_frame_answer, 24);
AT(dbm0_frame_answer, frame, 16);

static int zeros(const void *bytes, size_t bytes_length)
{
    const uint8_t *byte = bytes;
    size_t at;
    for (at = 0; at < bytes_length; at++)
        if (byte[at] != 0)
            return 0;
    return 1;
}

/*
 * All records. The points that are not in use are $FF.
 *
 *      0 version 3, revision $21
 *      8 NAME   16 the name
 *     60 INFO   68 instruments, 70 samples, 72 songs, 74 patterns, 76 tracks
 *     78 SONG   86 the first, its entries from 132; 138 the second, without any
 *    184 INST   192 the first, with volume 224, loop 230 and 234, panning 238;
 *               242 the second
 *    292 PATT   300 the first with its rows, 306 its stream of 13 bytes and a
 *               filler; 320 the second, without rows; 326 the third
 *    334 SMPL   342 of 8 bits, frames at 350; 353 of 16 bits, frames at 361;
 *               365 of 32 bits, frames at 373; 389 of 16 bits and no frames
 *    397 VENV   405 count, 407 the first, 543 the second
 *    679 PENV   687 count, 689 the only one
 *    825 DSPE   to 836
 */
#define FF_4 "\xFF\xFF\xFF\xFF"
#define FF_20 FF_4 FF_4 FF_4 FF_4 FF_4
#define FF_100 FF_20 FF_20 FF_20 FF_20 FF_20

#define NAME_44 "\xFFThe name of a tune, with zeros\0\0 in it \x80\0\0\0"
#define SONG_44 "The first song has a name without any zero. "
#define OTHER_44 "Second\0\0\0\0\0\0\0\0\0\0\0\0\0\0\0\0\0\0\0\0\0\0\0\0\0\0\0\0\0\0\0\0\0\0\0\0\0\0"
#define DRUM_30 "drum\0\0\0\0\0\0\0\0\0\0\0\0\0\0\0\0\0\0\0\0\0\0\0\0\0\xFE"
#define NONE_30 "An instrument without a sample"

#define WHOLE \
    "DBM0" "\x03\x21\xDE\xAD" \
    "NAME" "\0\0\0\x2C" NAME_44 \
    "INFO" "\0\0\0\x0A" "\0\x02" "\0\x04" "\0\x02" "\0\x03" "\0\x04" \
    "SONG" "\0\0\0\x62" SONG_44 "\0\x03" "\0\x01" "\0\0" "\0\x01" OTHER_44 "\0\0" \
    "INST" "\0\0\0\x64" \
    DRUM_30 "\0\x03" "\0\x40" "\0\0\x20\xAB" "\0\0\0\x01" "\0\0\0\x03" "\xFF\x80" "\0\x03" \
    NONE_30 "\0\0" "\0\x21" "\xFF\xFE\xFD\xFC" "\x80\0\0\x01" "\xFE\xDC\xBA\x98" "\0\x80" "\0\0" \
    "PATT" "\0\0\0\x22" \
    "\0\x02" "\0\0\0\x0D" "\x04\x3F\x1F\x02\x03\x04\x05\x06" "\0" "\x02\x01\x47" "\0" "\x55" \
    "\0\0" "\0\0\0\0" \
    "\0\x01" "\0\0\0\x01" "\0" "\x77" \
    "SMPL" "\0\0\0\x37" \
    "\0\0\0\x01" "\0\0\0\x03" "\x80\xFF\x01" \
    "\0\0\0\x02" "\0\0\0\x02" "\x80\0" "\xFF\xFE" \
    "\0\0\0\x04" "\0\0\0\x04" "\xFF\xFF\xFF\xFF" "\xFF\xFF\0\0" "\xFF\xFE\xFF\xFF" "\0\x01\xFF\xFF" \
    "\0\0\0\x02" "\0\0\0\0" \
    "VENV" "\0\0\x01\x12" "\0\x02" \
    "\0\x02" "\x01" "\x01" "\xC8\x07\x06\xFF" "\0\0\0\x40" "\xFF\xFF\0\0" FF_100 FF_20 \
    "\0\x01" "\0" "\0" "\0\0\0\0" "\0\x05\0\x21" FF_100 FF_20 FF_4 \
    "PENV" "\0\0\0\x8A" "\0\x01" "\0\x01" "\x0F" "\x02" "\x01\0\x02\x02" \
    "\0\0\0\0" "\0\x0A\0\x20" "\0\x14\0\x40" FF_100 FF_4 FF_4 FF_4 FF_4 \
    "DSPE" "\0\0\0\x03" "abc"

/* No record at all: 58 bytes. */
#define SMALLEST \
    "DBM0" "\x03\0\0\0" "INFO" "\0\0\0\x0A" "\0\0\0\0\0\0\0\0\0\x04" \
    "SONG" "\0\0\0\0" "INST" "\0\0\0\0" "PATT" "\0\0\0\0" "SMPL" "\0\0\0\0"

#define LOAD(bytes) load_module((bytes), sizeof(bytes) - 1)

/* The module is unchanged. */
#define UNCHANGED(bytes) \
    count(memcmp(module, (bytes), sizeof(bytes) - 1) == 0, __LINE__, "the module is changed")

#define FOUND(answer) ((answer).number == 0 && (answer).place == 0)

static void header_name_and_info(void)
{
    dbm0_version_answer version = dbm0_version(module, length);
    dbm0_name_answer name = dbm0_name(module, length);
    dbm0_info_answer info = dbm0_info(module, length);

    HOLDS(FOUND(version) && version.version == 0x03 && version.revision == 0x21);
    HOLDS(FOUND(name) && memcmp(name.name, NAME_44, 44) == 0);
    HOLDS(FOUND(info) && info.instruments == 2 && info.samples == 4 && info.songs == 2);
    HOLDS(info.patterns == 3 && info.tracks == 4);
}

static void songs(void)
{
    dbm0_song_answer song = dbm0_song(module, length, 0);
    dbm0_entry_answer entry;

    HOLDS(FOUND(song) && memcmp(song.name, SONG_44, 44) == 0 && song.length == 3);
    song = dbm0_song(module, length, 1);
    HOLDS(FOUND(song) && memcmp(song.name, OTHER_44, 44) == 0 && song.length == 0);
    entry = dbm0_entry(module, length, 0, 0);
    HOLDS(FOUND(entry) && entry.pattern == 1);
    entry = dbm0_entry(module, length, 0, 1);
    HOLDS(FOUND(entry) && entry.pattern == 0);
    entry = dbm0_entry(module, length, 0, 2);
    HOLDS(FOUND(entry) && entry.pattern == 1);
    entry = dbm0_entry(module, length, 0, 3);
    HOLDS(entry.number == 18 && entry.place == 0 && entry.pattern == 0);
    entry = dbm0_entry(module, length, 1, 0);
    HOLDS(entry.number == 18 && entry.place == 0 && entry.pattern == 0);
}

/* The panning of an instrument is never scaled. */
static void instruments(void)
{
    dbm0_instrument_answer first = dbm0_instrument(module, length, 1);
    dbm0_instrument_answer second = dbm0_instrument(module, length, 2);

    HOLDS(FOUND(first) && memcmp(first.name, DRUM_30, 30) == 0);
    HOLDS(first.sample == 3 && first.volume == 64 && first.panning == -128);
    HOLDS(first.flags == (DBM0_LOOP_FORWARD | DBM0_LOOP_PING_PONG));
    HOLDS(first.rate == 8363 && first.loop_start == 1 && first.loop_length == 3);
    HOLDS(FOUND(second) && memcmp(second.name, NONE_30, 30) == 0);
    HOLDS(second.sample == 0 && second.volume == 33 && second.panning == 128 && second.flags == 0);
    HOLDS(second.rate == 0xFFFEFDFC);
    HOLDS(second.loop_start == 0x80000001 && second.loop_length == 0xFEDCBA98);
}

static void volume_envelopes(void)
{
    dbm0_count_answer there = dbm0_volume_envelopes(module, length);
    dbm0_envelope_answer shown = dbm0_volume_envelope(module, length, 0);

    HOLDS(FOUND(there) && there.count == 2);
    HOLDS(FOUND(shown) && shown.instrument == 2 && shown.flags == DBM0_ENVELOPE_ON);
    HOLDS(shown.sections == 1);
    /* As stored, since their flags are not set. */
    HOLDS(shown.first_sustain == 200 && shown.loop_first == 7);
    HOLDS(shown.loop_last == 6 && shown.second_sustain == 255);
    HOLDS(shown.positions[0] == 0 && shown.values[0] == 64);
    HOLDS(shown.positions[1] == 65535 && shown.values[1] == 0);
    HOLDS(zeros(shown.positions + 2, 30 * sizeof *shown.positions));
    HOLDS(zeros(shown.values + 2, 30 * sizeof *shown.values));
    shown = dbm0_volume_envelope(module, length, 1);
    HOLDS(FOUND(shown) && shown.instrument == 1 && zeros(&shown.flags, 6));
    HOLDS(shown.positions[0] == 5 && shown.values[0] == 33);
    HOLDS(zeros(shown.positions + 1, 31 * sizeof *shown.positions));
    HOLDS(zeros(shown.values + 1, 31 * sizeof *shown.values));
}

/* The values of the panning envelope are 0, 32 and 64 in the module. */
static void panning_envelopes(int32_t first, int32_t second, int32_t third)
{
    dbm0_count_answer there = dbm0_panning_envelopes(module, length);
    dbm0_envelope_answer shown = dbm0_panning_envelope(module, length, 0);

    HOLDS(FOUND(there) && there.count == 1);
    HOLDS(FOUND(shown) && shown.instrument == 1 && shown.sections == 2);
    HOLDS(shown.flags == (DBM0_ENVELOPE_ON | DBM0_ENVELOPE_FIRST_SUSTAIN | DBM0_ENVELOPE_LOOP
                          | DBM0_ENVELOPE_SECOND_SUSTAIN));
    HOLDS(shown.first_sustain == 1 && shown.loop_first == 0);
    HOLDS(shown.loop_last == 2 && shown.second_sustain == 2);
    HOLDS(shown.positions[0] == 0 && shown.values[0] == first);
    HOLDS(shown.positions[1] == 10 && shown.values[1] == second);
    HOLDS(shown.positions[2] == 20 && shown.values[2] == third);
    HOLDS(zeros(shown.positions + 3, 29 * sizeof *shown.positions));
    HOLDS(zeros(shown.values + 3, 29 * sizeof *shown.values));
}

static void patterns(void)
{
    dbm0_rows_answer rows = dbm0_rows(module, length, 0);
    dbm0_cell_answer cell;
    unsigned upper;

    HOLDS(FOUND(rows) && rows.rows == 2);
    rows = dbm0_rows(module, length, 1);
    HOLDS(FOUND(rows) && rows.rows == 0);
    rows = dbm0_rows(module, length, 2);
    HOLDS(FOUND(rows) && rows.rows == 1);
    cell = dbm0_cell(module, length, 0, 0, 4);
    HOLDS(FOUND(cell) && cell.kind == DBM0_NOTE_KEY_OFF);
    HOLDS(cell.octave == 0 && cell.semitone == 0 && cell.unknown == 0);
    HOLDS(cell.instrument == 2 && cell.command1 == 3 && cell.parameter1 == 4);
    HOLDS(cell.command2 == 5 && cell.parameter2 == 6);
    cell = dbm0_cell(module, length, 0, 1, 2);
    HOLDS(FOUND(cell) && cell.kind == DBM0_NOTE_PITCH && cell.octave == 4 && cell.semitone == 7);
    HOLDS(cell.unknown == 0 && zeros(&cell.instrument, 5));
    cell = dbm0_cell(module, length, 0, 0, 1);
    HOLDS(FOUND(cell) && cell.kind == DBM0_NOTE_NONE && zeros(&cell.octave, 8));
    /* The note is at 317. $4C is not a pitch. */
    module[317] = 0x4C;
    cell = dbm0_cell(module, length, 0, 1, 2);
    HOLDS(FOUND(cell) && cell.kind == DBM0_NOTE_UNKNOWN && cell.unknown == 0x4C);
    HOLDS(cell.octave == 0 && cell.semitone == 0);
    module[317] = 0x47;
    /* The mask is at 316. Its bits 6 and 7 are ignored. */
    HOLDS(module[316] == 0x01);
    for (upper = 1; upper < 4; upper++) {
        module[316] = (uint8_t)(upper << 6 | 0x01);
        cell = dbm0_cell(module, length, 0, 1, 2);
        HOLDS(FOUND(cell) && cell.kind == DBM0_NOTE_PITCH && cell.octave == 4 && cell.semitone == 7);
        HOLDS(zeros(&cell.instrument, 5));
        cell = dbm0_cell(module, length, 0, 1, 3);
        HOLDS(FOUND(cell) && cell.kind == DBM0_NOTE_NONE && zeros(&cell.octave, 8));
    }
    module[316] = 0x01;
    /* No such row, track or pattern. */
    HOLDS(dbm0_cell(module, length, 0, 2, 1).number == 18);
    HOLDS(dbm0_cell(module, length, 0, 0, 0).number == 18);
    HOLDS(dbm0_cell(module, length, 0, 0, 5).number == 18);
    HOLDS(dbm0_cell(module, length, 1, 0, 1).number == 18);
    HOLDS(dbm0_cell(module, length, 2, 1, 1).number == 18);
    HOLDS(dbm0_cell(module, length, 3, 0, 1).number == 18);
}

static void sample(size_t number, uint8_t width, uint32_t frames, uint64_t offset, int line)
{
    dbm0_sample_answer shown = dbm0_sample(module, length, number);
    dbm0_frames_answer part = dbm0_frames(module, length, number);

    count(FOUND(shown) && shown.width == width && shown.frames == frames, line, "another sample");
    count(FOUND(part) && part.length == frames * width / 8, line, "another length of frames");
    count(part.length == 0 ? part.offset <= length : part.offset == offset, line,
          "frames at another place");
}

static int16_t frame(size_t number, size_t at)
{
    dbm0_frame_answer shown = dbm0_frame(module, length, number, at);
    HOLDS(FOUND(shown));
    return shown.frame;
}

static void samples(void)
{
    sample(1, 8, 3, 350, __LINE__);
    sample(2, 16, 2, 361, __LINE__);
    sample(3, 32, 4, 373, __LINE__);
    sample(4, 16, 0, 397, __LINE__);
    /* 8 bits times 256, 16 as they are, 32 divided by 65,536 and rounded down. */
    HOLDS(frame(1, 0) == -32768 && frame(1, 1) == -256 && frame(1, 2) == 256);
    HOLDS(frame(2, 0) == -32768 && frame(2, 1) == -2);
    HOLDS(frame(3, 0) == -1 && frame(3, 1) == -1 && frame(3, 2) == -2 && frame(3, 3) == 1);
    HOLDS(dbm0_frame(module, length, 1, 3).number == 18);
    HOLDS(dbm0_frame(module, length, 2, 2).number == 18);
    HOLDS(dbm0_frame(module, length, 3, 4).number == 18);
    HOLDS(dbm0_frame(module, length, 4, 0).number == 18);
}

/* The queries that fill an output have one type. */
typedef dbm0_length_answer filling(const uint8_t *, size_t, size_t, uint8_t *, size_t);

static void fills(int line, filling *query, size_t number, size_t room, dbm0_length_answer expected,
                  const char *bytes)
{
    uint8_t *out = output(room);
    dbm0_length_answer is = query(module, length, number, out, room);

    count(is.number == expected.number && is.place == expected.place && is.length == expected.length, line,
          "another answer");
    count(memcmp(out, bytes, expected.length) == 0, line, "other bytes are written");
    count(rest_is_filled(room, expected.length), line, "more bytes are changed");
}

/* Into an output of exactly the needed length, and into longer ones. One byte less, and none, is 17. */
static void writes(int line, filling *query, size_t number, const char *bytes, size_t needed)
{
    const dbm0_length_answer written = {0, 0, needed}, short_of = {17, needed, 0};

    fills(line, query, number, needed, written, bytes);
    fills(line, query, number, needed + 1, written, bytes);
    fills(line, query, number, needed + 100, written, bytes);
    if (needed > 0) {
        dbm0_length_answer empty = query(module, length, number, NULL, 0);
        count(empty.number == 17 && empty.place == needed && empty.length == 0, line,
              "NULL does not report the needed length");
        fills(line, query, number, 0, short_of, bytes);
        fills(line, query, number, needed - 1, short_of, bytes);
    } else {
        dbm0_length_answer nothing = query(module, length, number, NULL, 0);
        count(FOUND(nothing) && nothing.length == 0, line, "NULL does not take nothing");
    }
}

#define WRITES(query, number, bytes) \
    writes(__LINE__, (query), (number), (bytes), sizeof(bytes) - 1)

static void outputs(void)
{
    uint8_t *out = output(48);

    WRITES(dbm0_playlist, 0, "\0\x01\0\0\0\x01");
    WRITES(dbm0_playlist, 1, "");
    WRITES(dbm0_cells, 0,
           "\0\0\0\0\0\0" "\0\0\0\0\0\0" "\0\0\0\0\0\0" "\x1F\x02\x03\x04\x05\x06"
           "\0\0\0\0\0\0" "\x47\0\0\0\0\0" "\0\0\0\0\0\0" "\0\0\0\0\0\0");
    WRITES(dbm0_cells, 1, "");
    WRITES(dbm0_cells, 2, "\0\0\0\0\0\0" "\0\0\0\0\0\0" "\0\0\0\0\0\0" "\0\0\0\0\0\0");
    WRITES(dbm0_all_frames, 1, "\x80\0\xFF\0\x01\0");
    WRITES(dbm0_all_frames, 2, "\x80\0\xFF\xFE");
    WRITES(dbm0_all_frames, 3, "\xFF\xFF\xFF\xFF\xFF\xFE\0\x01");
    WRITES(dbm0_all_frames, 4, "");
    /* The other archive unpacks the same cells from the stream at 306. */
    HOLDS(dbm0_unpack_pattern(module + 306, 13, 2, 4, out, 48).length == 48);
    memcpy(memory, out, 48);
    HOLDS(dbm0_cells(module, length, 0, output(48), 48).length == 48);
    HOLDS(memcmp(memory, out, 48) == 0);
}

/*
 * Every query that takes a number, with an output of `room` bytes: it returns
 * this refusal, everything else is 0, and the output is unchanged.
 */
static void refused(int line, size_t item, size_t room, uint64_t number, uint64_t place)
{
    dbm0_song_answer song = dbm0_song(module, length, item);
    dbm0_entry_answer entry = dbm0_entry(module, length, item, item);
    dbm0_instrument_answer instrument = dbm0_instrument(module, length, item);
    dbm0_envelope_answer volume = dbm0_volume_envelope(module, length, item);
    dbm0_envelope_answer panning = dbm0_panning_envelope(module, length, item);
    dbm0_rows_answer rows = dbm0_rows(module, length, item);
    dbm0_cell_answer cell = dbm0_cell(module, length, item, item, item);
    dbm0_sample_answer sample = dbm0_sample(module, length, item);
    dbm0_frames_answer frames = dbm0_frames(module, length, item);
    dbm0_frame_answer frame = dbm0_frame(module, length, item, item);
    const dbm0_length_answer refusal = {number, place, 0};

#define REFUSED(answer, rest_is_0) \
    count((answer).number == number && (answer).place == place && (rest_is_0), line, \
          #answer " is not refused so")
    REFUSED(song, zeros(song.name, 44) && song.length == 0);
    REFUSED(entry, entry.pattern == 0);
    REFUSED(instrument, zeros(instrument.name, 30) && zeros(&instrument.sample, 8));
    REFUSED(instrument, zeros(&instrument.rate, 12));
    REFUSED(volume, zeros(&volume.instrument, 200));
    REFUSED(panning, zeros(&panning.instrument, 200));
    REFUSED(rows, rows.rows == 0);
    REFUSED(cell, zeros(&cell.kind, 9));
    REFUSED(sample, sample.width == 0 && sample.frames == 0);
    REFUSED(frames, frames.offset == 0 && frames.length == 0);
    REFUSED(frame, frame.frame == 0);
    fills(line, dbm0_playlist, item, room, refusal, "");
    fills(line, dbm0_cells, item, room, refusal, "");
    fills(line, dbm0_all_frames, item, room, refusal, "");
}

/* The same for a refused module, including the queries without a number. */
static void refused_module(int line, uint64_t number, uint64_t place)
{
    dbm0_module_answer check = dbm0_check_module(module, length);
    dbm0_version_answer version = dbm0_version(module, length);
    dbm0_name_answer name = dbm0_name(module, length);
    dbm0_info_answer info = dbm0_info(module, length);
    dbm0_count_answer volume = dbm0_volume_envelopes(module, length);
    dbm0_count_answer panning = dbm0_panning_envelopes(module, length);

    REFUSED(check, 1);
    REFUSED(version, version.version == 0 && version.revision == 0);
    REFUSED(name, zeros(name.name, 44));
    REFUSED(info, zeros(&info.instruments, 10));
    REFUSED(volume, volume.count == 0);
    REFUSED(panning, panning.count == 0);
    refused(line, 0, 0, number, place);
    refused(line, 1, 100, number, place);
    refused(line, SIZE_MAX, 0, number, place);
    refused(line, SIZE_MAX, 100, number, place);
}
#undef REFUSED

/* 18: the item does not exist. Has priority over 17. */
static void not_there(void)
{
    LOAD(WHOLE);
    refused(__LINE__, 5, 0, 18, 0);
    refused(__LINE__, 5, 100, 18, 0);
    refused(__LINE__, SIZE_MAX, 0, 18, 0);
    /* 1 if truncated to fewer bits. */
    refused(__LINE__, (size_t)0x100 + 1, 100, 18, 0);
    refused(__LINE__, (size_t)0x10000 + 1, 100, 18, 0);
    refused(__LINE__, (size_t)0x100000000 + 1, 100, 18, 0);
    refused(__LINE__, (size_t)0x8000000000000000 + 1, 100, 18, 0);
    /* Counted from 1. */
    HOLDS(dbm0_instrument(module, length, 0).number == 18);
    HOLDS(dbm0_instrument(module, length, 3).number == 18);
    HOLDS(dbm0_sample(module, length, 0).number == 18);
    HOLDS(dbm0_frames(module, length, 0).number == 18);
    HOLDS(dbm0_all_frames(module, length, 0, NULL, 0).number == 18);
    /* Counted from 0. */
    HOLDS(dbm0_song(module, length, 2).number == 18);
    HOLDS(dbm0_rows(module, length, 3).number == 18);
    HOLDS(dbm0_volume_envelope(module, length, 2).number == 18);
    HOLDS(dbm0_panning_envelope(module, length, 1).number == 18);
    UNCHANGED(WHOLE);
    LOAD(SMALLEST);
    refused(__LINE__, 0, 100, 18, 0);
    refused(__LINE__, 1, 0, 18, 0);
}

/* The answers for the smallest module. */
static void nothing_there(void)
{
    dbm0_version_answer version;
    dbm0_name_answer name;
    dbm0_info_answer info;
    dbm0_count_answer volume, panning;

    LOAD(SMALLEST);
    version = dbm0_version(module, length);
    HOLDS(FOUND(version) && version.version == 3 && version.revision == 0);
    name = dbm0_name(module, length);
    HOLDS(FOUND(name) && zeros(name.name, 44));
    info = dbm0_info(module, length);
    HOLDS(FOUND(info) && zeros(&info.instruments, 8) && info.tracks == 4);
    volume = dbm0_volume_envelopes(module, length);
    panning = dbm0_panning_envelopes(module, length);
    HOLDS(FOUND(volume) && volume.count == 0);
    HOLDS(FOUND(panning) && panning.count == 0);
}

/* The module's own refusal has priority. */
static void refused_modules(void)
{
    module = NULL, length = 0;
    refused_module(__LINE__, 2, 0);
    load_module(WHOLE, 7);
    refused_module(__LINE__, 2, 0);
    load_module(WHOLE, 60);
    refused_module(__LINE__, 8, 60);
    load_module(WHOLE, sizeof(WHOLE) - 2);
    refused_module(__LINE__, 4, 825);
    LOAD(WHOLE), module[4] = 4;
    refused_module(__LINE__, 3, 4);
    LOAD(WHOLE), module[77] = 5;
    refused_module(__LINE__, 10, 76);
    LOAD(WHOLE), module[345] = 3;
    refused_module(__LINE__, 11, 334);
    LOAD(WHOLE), module[135] = 3;
    refused_module(__LINE__, 12, 134);
    LOAD(WHOLE), module[225] = 65;
    refused_module(__LINE__, 13, 224);
    LOAD(WHOLE), module[237] = 4;
    refused_module(__LINE__, 14, 192);
    LOAD(WHOLE), module[306] = 5;
    refused_module(__LINE__, 15, 300);
}

/*
 * Frames are not read if only their place is returned: here they are memory that
 * cannot be read. They are preceded by 66 bytes, the last 8 of which belong to
 * the block.
 */
static void frames_not_read(void)
{
    static const char beginning[] = "DBM0" "\x03\0\0\0"
        "INFO" "\0\0\0\x0A" "\0\0" "\0\x01" "\0\0" "\0\0" "\0\x04"
        "SONG" "\0\0\0\0" "INST" "\0\0\0\0" "PATT" "\0\0\0\0"
        "SMPL" "\0\0\x7F\xC6" "\0\0\0\x02" "\0\0\x3F\xDF";

    HOLDS(sizeof beginning - 1 == 66);
    module = memory, length = MODULE;
    memcpy(module, beginning, sizeof beginning - 1);
    HOLDS(mprotect(memory + PAGE, MODULE - PAGE, PROT_NONE) == 0);
    HOLDS(FOUND(dbm0_check_module(module, length)));
    HOLDS(FOUND(dbm0_version(module, length)));
    HOLDS(dbm0_sample(module, length, 1).frames == 16351);
    HOLDS(dbm0_frames(module, length, 1).offset == 66);
    HOLDS(dbm0_frames(module, length, 1).length == 32702);
    HOLDS(dbm0_frame(module, length, 1, 16351).number == 18);
}

static void macros(void)
{
    HOLDS(DBM0_VERSION >= 10100);
    HOLDS(DBM0_MODULE_ROOM == 17 && DBM0_MODULE_ROOM == DBM0_PATTERN_OUTPUT_TOO_SHORT);
    HOLDS(DBM0_MODULE_NOT_THERE == 18);
    HOLDS(DBM0_LOOP_FORWARD == 1 && DBM0_LOOP_PING_PONG == 2);
    HOLDS(DBM0_ENVELOPE_ON == 1 && DBM0_ENVELOPE_FIRST_SUSTAIN == 2);
    HOLDS(DBM0_ENVELOPE_LOOP == 4 && DBM0_ENVELOPE_SECOND_SUSTAIN == 8);
    HOLDS(DBM0_NOTE_NONE == 0 && DBM0_NOTE_KEY_OFF == 1);
    HOLDS(DBM0_NOTE_PITCH == 2 && DBM0_NOTE_UNKNOWN == 3);
}

int main(void)
{
    if (!ready())
        return 1;
    HOLDS(sizeof(WHOLE) - 1 == 836);
    HOLDS(sizeof(SMALLEST) - 1 == 58);
    LOAD(WHOLE);
    HOLDS(FOUND(dbm0_check_module(module, length)));
    header_name_and_info();
    songs();
    instruments();
    volume_envelopes();
    panning_envelopes(0, 32, 64);
    patterns();
    samples();
    outputs();
    UNCHANGED(WHOLE);
    /* P11: in version 2 panning values are returned as 4v - 128. Everything else is the same. */
    module[4] = 2;
    HOLDS(dbm0_version(module, length).version == 2);
    instruments();
    volume_envelopes();
    panning_envelopes(-128, 0, 128);
    nothing_there();
    not_there();
    refused_modules();
    frames_not_read();
    macros();
    return counted();
}
