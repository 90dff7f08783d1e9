/*
 * dbm0.h: DBM0 modules. The check of a whole module, every query about one
 * (version, name, INFO, songs, instruments, envelopes, patterns, samples), all
 * its records by one call, its repacking, replacing one of its samples, and
 * comparing it with another module.
 *
 * Link with libdbm0.a (x86-64, System V calling convention). The calls of
 * dbm0_pattern.h, which this header includes, are in libpattern.a. A program
 * that uses both links both. libdbm0.a needs memcpy and memset, of a C library
 * or of the program itself.
 *
 * A module is a header of 8 bytes ("DBM0", version, revision, two reserved
 * bytes) and chunks: an identifier of four letters, the length of the data in
 * four bytes, and the data. All numbers are big-endian. The covered chunks are
 * NAME, INFO, SONG, INST, PATT, SMPL, VENV and PENV. Others are skipped.
 *
 * What holds for every call:
 *
 * - Every pair of a pointer and a length is memory that the caller lends for
 *   the time of the call. A pointer may be NULL if its length is 0. Inputs
 *   may overlap each other, even be the same memory. An output must not
 *   overlap an input. Only an output is written.
 * - The bytes and numbers can have any value: a call terminates for every
 *   input, reads nothing outside it, and no sum or product wraps.
 * - Every answer begins with number (0: no refusal) and place. On a refusal
 *   everything else in the answer is 0, and no byte of an output changes.
 * - A query gives the first of these that applies: the module's own refusal (1
 *   to 15, as dbm0_check_module), then 18, then 17 if an output is lent.
 *   dbm0_replace_sample gives more refusals between 18 and 17, and
 *   dbm0_compare is about two modules. Instruments, samples and tracks are
 *   counted from 1, everything else from 0.
 * - A call that fills an output gives the needed length as the place of 17:
 *   call it with an output of length 0 to get the length. If nothing is needed
 *   (an empty playlist, a pattern of 0 rows, a sample of 0 frames), that call
 *   succeeds with length 0. On success, bytes after the written length do not
 *   change.
 * - Every query checks the module first; that is most of its time. The time in
 *   addition to the check is given at each call. For many entries, cells or
 *   frames use the calls that fill an output, and for many records
 *   dbm0_records.
 * - No call keeps any state, allocates, or waits. They may run on any thread
 *   and at the same time, as long as no call's output is used by another: two
 *   calls at the same time must not share an output.
 * - A call needs less than 5,120 bytes of stack. What memcpy and memset need
 *   is not counted.
 */

#ifndef DBM0_H
#define DBM0_H

#include <stddef.h>
#include <stdint.h>

#include "dbm0_pattern.h"

#ifdef __cplusplus
extern "C" {
#endif

/* The version of this interface: major x 10000 + minor x 100 + patch. */
#define DBM0_VERSION 10600

/* The most bytes that a module may have. */
#define DBM0_MODULE_MOST_BYTES 16777216

/* No refusal. */
#define DBM0_MODULE_OK 0

/*
 * The refusals of a module. Places are offsets in the module.
 */

/* The module, or the result of dbm0_replace_sample, has more than
 * DBM0_MODULE_MOST_BYTES bytes. The place is 0. */
#define DBM0_MODULE_TOO_LONG 1

/* Under 8 bytes, or the first four are not "DBM0". The place is 0. */
#define DBM0_MODULE_NOT_DBM0 2

/* The version is not 2 or 3, or the revision is not two digits. The place is
 * 4. */
#define DBM0_MODULE_VERSION 3

/* A chunk's header or data is cut. The place is the chunk's header. */
#define DBM0_MODULE_CHUNK_CUT 4

/* An identifier is not four letters A to Z. The place is the chunk's header. */
#define DBM0_MODULE_IDENTIFIER 5

/* A covered chunk occurs a second time. The place is its header. */
#define DBM0_MODULE_CHUNK_REPEATED 6

/* SONG, INST, PATT or SMPL comes before INFO. The place is its header. */
#define DBM0_MODULE_BEFORE_INFO 7

/* INFO, SONG, INST, PATT or SMPL is missing. The place is the module's
 * length. */
#define DBM0_MODULE_CHUNK_MISSING 8

/* NAME does not have 44 bytes, or INFO not 10. The place is the chunk's
 * header. */
#define DBM0_MODULE_CHUNK_LENGTH 9

/* A number of INFO is out of range. The place is that field. */
#define DBM0_MODULE_INFO_RANGE 10

/* The blocks do not fill their chunk, or a sample's flags are not 1, 2 or 4.
 * The place is the chunk's header. */
#define DBM0_MODULE_BLOCKS 11

/* A playlist's pattern, an instrument's sample or an envelope's instrument
 * does not exist. The place is that field. */
#define DBM0_MODULE_REFERENCE 12

/* Another field is out of range. The place is that field. */
#define DBM0_MODULE_FIELD_RANGE 13

/* A loop lies outside its sample. The place is the instrument's block. */
#define DBM0_MODULE_LOOP 14

/* A packed stream is broken (DBM0_PATTERN_STREAM_BROKEN says how). The place
 * is the pattern's block. */
#define DBM0_MODULE_STREAM_BROKEN 15

/* An output is shorter than needed. The place is the needed length. */
#define DBM0_MODULE_ROOM 17

/* There is no such song, entry, instrument, envelope, pattern, sample, frame,
 * row or track. The place is 0. */
#define DBM0_MODULE_NOT_THERE 18

/* The number of bytes of new frames is odd. The place is 0. */
#define DBM0_MODULE_ODD_FRAMES 19

/*
 * number: 0 if there is no refusal, else one of the numbers above.
 * place:  as described at the number, and 0 if there is no refusal.
 */
typedef struct {
    uint64_t number;
    uint64_t place;
} dbm0_module_answer;

/*
 * Checks a module.
 *
 * Refusals, the first that applies: 1, 2, 3; then chunk by chunk from the
 * front 4 (the header), 5, 4 (the data), 6, 7, 9, 10; then 8; then 11 by
 * chunk, in the order SONG, INST, PATT, SMPL, VENV, PENV; then 12 and 13 by
 * field, in the same order of chunks; then 14 by instrument; then 15 by
 * pattern.
 * Time: grows with the number of chunks and blocks and with the packed bytes
 * of the patterns, and for each looped instrument with the number of samples
 * before its own (at most 254). The data of samples and of other chunks are
 * not read. No allocation.
 */
dbm0_module_answer dbm0_check_module(
    const uint8_t *module, size_t module_length);

/* Version and revision, as stored (two decimal digits of four bits each). */
typedef struct {
    uint64_t number;
    uint64_t place;
    uint8_t version;
    uint8_t revision;
} dbm0_version_answer;

/* Refusals: the module's own. Time besides the check: constant. */
dbm0_version_answer dbm0_version(
    const uint8_t *module, size_t module_length);

/* The bytes of the name as stored; zeros if the module has none. They need not
 * end in a zero. */
typedef struct {
    uint64_t number;
    uint64_t place;
    uint8_t name[44];
} dbm0_name_answer;

/* Refusals: the module's own. Time besides the check: constant. */
dbm0_name_answer dbm0_name(
    const uint8_t *module, size_t module_length);

/* How many instruments, samples, songs and patterns there are, and how many
 * tracks a pattern has. */
typedef struct {
    uint64_t number;
    uint64_t place;
    uint16_t instruments;
    uint16_t samples;
    uint16_t songs;
    uint16_t patterns;
    uint16_t tracks;
} dbm0_info_answer;

/* Refusals: the module's own. Time besides the check: constant. */
dbm0_info_answer dbm0_info(
    const uint8_t *module, size_t module_length);

/* A song's name, and how many entries its playlist has. */
typedef struct {
    uint64_t number;
    uint64_t place;
    uint8_t name[44];
    uint16_t length;
} dbm0_song_answer;

/* A song, counted from 0. Refusals: the module's own, 18. Time besides the
 * check: grows with the songs before it. */
dbm0_song_answer dbm0_song(
    const uint8_t *module, size_t module_length, size_t song);

/* An entry of a playlist: the number of a pattern. */
typedef struct {
    uint64_t number;
    uint64_t place;
    uint16_t pattern;
} dbm0_entry_answer;

/* An entry of a song, both counted from 0. Refusals: the module's own, 18 (no
 * such song or entry). Time besides the check: grows with the songs before
 * it. */
dbm0_entry_answer dbm0_entry(
    const uint8_t *module, size_t module_length, size_t song, size_t entry);

/* The answer of a call that fills an output: how many bytes it has written,
 * 0 on a refusal. */
typedef struct {
    uint64_t number;
    uint64_t place;
    uint64_t length;
} dbm0_length_answer;

/* Writes all entries of a song, 2 bytes each and big-endian. Refusals: the
 * module's own, 18, 17. Time besides the check: grows with the songs before it
 * and the entries. */
dbm0_length_answer dbm0_playlist(
    const uint8_t *module, size_t module_length, size_t song,
    uint8_t *out, size_t out_length);

/* The two bits of an instrument's flags. If both are set, the loop is forward.
 * If the loop length is 0, there is no loop. */
#define DBM0_LOOP_FORWARD 1
#define DBM0_LOOP_PING_PONG 2

/* An instrument, all fields as stored. sample: counted from 1, 0 is none.
 * volume: 0 to 64. panning: -128 to 128 in both versions. */
typedef struct {
    uint64_t number;
    uint64_t place;
    uint8_t name[30];
    uint16_t sample;
    uint16_t volume;
    int16_t panning;
    uint16_t flags;
    uint32_t rate;
    uint32_t loop_start;
    uint32_t loop_length;
} dbm0_instrument_answer;

/* An instrument, counted from 1. Refusals: the module's own, 18. Time besides
 * the check: grows with the instruments before it. */
dbm0_instrument_answer dbm0_instrument(
    const uint8_t *module, size_t module_length, size_t instrument);

/* The number of envelopes; 0 if their chunk is missing. */
typedef struct {
    uint64_t number;
    uint64_t place;
    uint16_t count;
} dbm0_count_answer;

/* Refusals: the module's own. Time besides the check: constant. */
dbm0_count_answer dbm0_volume_envelopes(
    const uint8_t *module, size_t module_length);
dbm0_count_answer dbm0_panning_envelopes(
    const uint8_t *module, size_t module_length);

/* The bits of an envelope's flags. */
#define DBM0_ENVELOPE_ON 1
#define DBM0_ENVELOPE_FIRST_SUSTAIN 2
#define DBM0_ENVELOPE_LOOP 4
#define DBM0_ENVELOPE_SECOND_SUSTAIN 8

/* An envelope. instrument: counted from 1. The points in use are sections + 1;
 * the others are zeros. values: 0 to 64 of volume; of panning -128 to 128 (a
 * stored v of version 2 is shown as 4v - 128). The rest is as stored: the
 * points of the first sustain, the loop and the second sustain have a meaning
 * only if their flag is set. */
typedef struct {
    uint64_t number;
    uint64_t place;
    uint16_t instrument;
    uint8_t flags;
    uint8_t sections;
    uint8_t first_sustain;
    uint8_t loop_first;
    uint8_t loop_last;
    uint8_t second_sustain;
    uint16_t positions[32];
    int32_t values[32];
} dbm0_envelope_answer;

/* An envelope, counted from 0 by its place in the chunk VENV or PENV.
 * Refusals: the module's own, 18. Time besides the check: grows with the
 * envelopes before it. */
dbm0_envelope_answer dbm0_volume_envelope(
    const uint8_t *module, size_t module_length, size_t envelope);
dbm0_envelope_answer dbm0_panning_envelope(
    const uint8_t *module, size_t module_length, size_t envelope);

/* How many rows a pattern has. Its tracks are those of dbm0_info. */
typedef struct {
    uint64_t number;
    uint64_t place;
    uint16_t rows;
} dbm0_rows_answer;

/* A pattern, counted from 0. Refusals: the module's own, 18. Time besides the
 * check: grows with the patterns before it. */
dbm0_rows_answer dbm0_rows(
    const uint8_t *module, size_t module_length, size_t pattern);

/* The kinds of a note. */
#define DBM0_NOTE_NONE 0
#define DBM0_NOTE_KEY_OFF 1
#define DBM0_NOTE_PITCH 2
#define DBM0_NOTE_UNKNOWN 3

/* A cell. kind: one of the four above. octave (1 to 8) and semitone (0 to 11,
 * from C): of a pitch, else 0. unknown: the byte of an unknown note, else
 * 0. */
typedef struct {
    uint64_t number;
    uint64_t place;
    uint8_t kind;
    uint8_t octave;
    uint8_t semitone;
    uint8_t unknown;
    uint8_t instrument;
    uint8_t command1;
    uint8_t parameter1;
    uint8_t command2;
    uint8_t parameter2;
} dbm0_cell_answer;

/* A cell: pattern and row counted from 0, track from 1. Refusals: the module's
 * own, 18 (no such pattern, row or track). Time besides the check: grows with
 * the patterns before it and the packed bytes of its own. */
dbm0_cell_answer dbm0_cell(
    const uint8_t *module, size_t module_length,
    size_t pattern, size_t row, size_t track);

/* Writes all cells of a pattern: row by row, tracks ascending, six bytes each
 * (note, instrument, command 1, parameter 1, command 2, parameter 2).
 * Refusals: the module's own, 18, 17. Time besides the check: grows with the
 * patterns before it, the packed bytes of its own and the bytes written. */
dbm0_length_answer dbm0_cells(
    const uint8_t *module, size_t module_length, size_t pattern,
    uint8_t *out, size_t out_length);

/* A sample. width: the bits of a frame, 8, 16 or 32. */
typedef struct {
    uint64_t number;
    uint64_t place;
    uint8_t width;
    uint32_t frames;
} dbm0_sample_answer;

/* A sample, counted from 1. Refusals: the module's own, 18. Time besides the
 * check: grows with the samples before it. */
dbm0_sample_answer dbm0_sample(
    const uint8_t *module, size_t module_length, size_t sample);

/* The frames of a sample, as a part of the module: length bytes (frames times
 * the bytes of a frame) from module + offset, signed and big-endian. */
typedef struct {
    uint64_t number;
    uint64_t place;
    uint64_t offset;
    uint64_t length;
} dbm0_frames_answer;

/* The frames of a sample, counted from 1. Nothing is copied. Refusals: the
 * module's own, 18. Time besides the check: grows with the samples before
 * it. */
dbm0_frames_answer dbm0_frames(
    const uint8_t *module, size_t module_length, size_t sample);

/* A frame at 16 bits: 8-bit times 256, 32-bit divided by 65,536 and rounded
 * down. */
typedef struct {
    uint64_t number;
    uint64_t place;
    int16_t frame;
} dbm0_frame_answer;

/* A frame: the sample counted from 1, the frame from 0. Refusals: the
 * module's own, 18 (no such sample or frame). Time besides the check: grows
 * with the samples before it. */
dbm0_frame_answer dbm0_frame(
    const uint8_t *module, size_t module_length,
    size_t sample, size_t frame);

/* Writes all frames of a sample at 16 bits, 2 bytes each, signed and
 * big-endian. Refusals: the module's own, 18, 17. Time besides the check:
 * grows with the samples before it and the frames. */
dbm0_length_answer dbm0_all_frames(
    const uint8_t *module, size_t module_length, size_t sample,
    uint8_t *out, size_t out_length);

/*
 * Writes all records of a module, one after the other and with nothing
 * between. Each record has exactly what its own query answers. All numbers are
 * big-endian, and those called signed are in two's complement.
 *
 * First 60 bytes:
 *
 *   offset  bytes
 *        0      1  version (dbm0_version)
 *        1      1  revision
 *        2     44  name (dbm0_name); zeros if the module has none
 *       46      2  instruments (dbm0_info)
 *       48      2  samples
 *       50      2  songs
 *       52      2  patterns
 *       54      2  tracks
 *       56      2  volume envelopes (dbm0_volume_envelopes)
 *       58      2  panning envelopes (dbm0_panning_envelopes)
 *
 * Then every song from 0 on, 46 bytes and 2 for each entry (dbm0_song,
 * dbm0_playlist):
 *
 *        0     44  name
 *       44      2  length: the number of entries
 *       46         the entries, 2 bytes each: the numbers of patterns
 *
 * Then every instrument from 1 on, 50 bytes (dbm0_instrument):
 *
 *        0     30  name
 *       30      2  sample
 *       32      2  volume
 *       34      4  rate
 *       38      4  loop start
 *       42      4  loop length
 *       46      2  panning, signed
 *       48      2  flags
 *
 * Then every pattern from 0 on, 2 bytes (dbm0_rows):
 *
 *        0      2  rows
 *
 * Then every sample from 1 on, 6 bytes (dbm0_sample):
 *
 *        0      2  width: the bits of a frame, 8, 16 or 32
 *        2      4  frames
 *
 * Then every volume envelope from 0 on, and then every panning envelope from 0
 * on, 136 bytes each (dbm0_volume_envelope, dbm0_panning_envelope):
 *
 *        0      2  instrument
 *        2      1  flags
 *        3      1  sections
 *        4      1  first sustain
 *        5      1  first point of the loop
 *        6      1  last point of the loop
 *        7      1  second sustain
 *        8    128  32 points: position 2, value 2, signed. The points not in
 *                  use are zeros, and values are as they are shown: of panning
 *                  in version 2, 4v - 128
 *
 * An output of length 0 gives the needed length.
 *
 * Refusals: the module's own, 17. Time: one check of the module, and one pass
 * over the blocks and the bytes written.
 */
dbm0_length_answer dbm0_records(
    const uint8_t *module, size_t module_length,
    uint8_t *out, size_t out_length);

/*
 * Writes the module repacked: header and chunks in order and byte for byte,
 * except that PATT holds, for each pattern, its rows, the packer's stream of
 * its cells (as dbm0_pack_pattern writes it) with the length of that stream,
 * and a filler byte of 0 if that length is odd; and PATT's own length is that
 * of its new data. The output is a module that is accepted, shows the same
 * records, cells and frames, and repacks to itself. It is the same as the
 * module exactly if every stream was the packer's and every filler 0.
 *
 * The needed length is never more than the module's, so an output as long as
 * the module is always enough. The output must not overlap the module.
 *
 * Refusals: the module's own, 17. Time besides the check: the packed streams
 * are read three times to write them, and the rest of the module is copied.
 * If the output is shorter than the module, they are first read twice for the
 * needed length. No memory is needed beyond one row of cells, which is on the
 * stack.
 */
dbm0_length_answer dbm0_repack(
    const uint8_t *module, size_t module_length,
    uint8_t *out, size_t out_length);

/* length: how many bytes were written. cleared: the number of instruments whose
 * loop was cleared. Both are 0 on a refusal. */
typedef struct {
    uint64_t number;
    uint64_t place;
    uint64_t length;
    uint64_t cleared;
} dbm0_replace_answer;

/*
 * Writes the module with a sample, counted from 1, replaced by 16-bit frames:
 * frames_length bytes, two for each frame, signed and big-endian, as SMPL
 * stores them. No bytes are a sample of 0 frames. Header and chunks are written
 * in order and byte for byte, except:
 *
 * - The sample's block has flags 2, the number of the new frames, and the
 *   frames. SMPL's own length is that of its new data.
 * - Each instrument of that sample that is looped, and whose loop start + loop
 *   length is more than the new number of frames, gets loop start, loop length
 *   and flags 0. A loop that ends with the last frame fits. An instrument that
 *   is not looped does not change.
 *
 * The output is a module that is accepted. All queries about it answer the
 * same, except for the replaced sample, the cleared loops and the places of
 * frames. A 16-bit sample that is replaced by its own frames gives the module
 * itself.
 *
 * An output of module_length + frames_length bytes is always enough. The module
 * and the frames may overlap, so that the frames can be a part of the module.
 *
 * Refusals, the first that applies: the module's own; 18 (no such sample); 19
 * (frames_length is odd); 1 (the output would have more than
 * DBM0_MODULE_MOST_BYTES bytes); 17. Time besides the check: grows with the
 * samples before it and the instruments, and one copy of the output. No memory
 * is needed.
 */
dbm0_replace_answer dbm0_replace_sample(
    const uint8_t *module, size_t module_length, size_t sample,
    const uint8_t *frames, size_t frames_length,
    uint8_t *out, size_t out_length);

/* The bytes of an entry in the list of differences: five big-endian 2-byte
 * numbers, kind, number, row, track and field. */
#define DBM0_DIFFERENCE_BYTES 10

/* The kinds of differences. number is 0 for the name, a field of INFO from 0 to
 * 4 (instruments, samples, songs, patterns, tracks), or the number of the
 * record as in the queries. */
#define DBM0_DIFFERENCE_NAME 1
#define DBM0_DIFFERENCE_INFO 2
#define DBM0_DIFFERENCE_SONG 3
#define DBM0_DIFFERENCE_INSTRUMENT 4
#define DBM0_DIFFERENCE_VOLUME_ENVELOPE 5
#define DBM0_DIFFERENCE_PANNING_ENVELOPE 6
#define DBM0_DIFFERENCE_SAMPLE 7
#define DBM0_DIFFERENCE_PATTERN 8

/* entries: how many entries were written, 0 on a refusal. */
typedef struct {
    uint64_t number;
    uint64_t place;
    uint64_t entries;
} dbm0_compare_answer;

/*
 * Writes the list of what differs between two modules: DBM0_DIFFERENCE_BYTES
 * for each entry. Entries ascend by their five numbers in order, and none is
 * listed twice. The list is empty exactly if nothing that is compared differs.
 *
 * - Row (from 0), track (from 1) and field (1 note, 2 instrument, 3 command 1,
 *   4 parameter 1, 5 command 2, 6 parameter 2) are 0, except in an entry for a
 *   field of a cell that differs.
 * - One entry is for a whole song, instrument, envelope or sample that differs
 *   or is in one module only. A sample is compared by its width and all its
 *   frames.
 * - One entry is for a whole pattern that is in one module only, or if the
 *   modules have different tracks or the pattern different rows. Otherwise
 *   there is one entry for each field of a cell that differs.
 * - A number of INFO that differs is an entry besides those for the records
 *   that are in one module only.
 *
 * Records are compared as the queries show them: a panning envelope of version
 * 2 equals the one of version 3 with its values scaled, and a missing NAME
 * equals a name of zeros. Not compared are version, revision and the reserved
 * bytes, other chunks, the order of chunks, how patterns are packed, and
 * fillers.
 *
 * Refusals, the first that applies: the first module's own; the second
 * module's own; 17, whose place is DBM0_DIFFERENCE_BYTES for each entry. The
 * answer does not say which of the modules is refused. Time besides both
 * checks: the modules are compared twice, first to count the entries; grows
 * with the modules' bytes. No memory is needed beyond a row of cells of each
 * module, which are on the stack.
 */
dbm0_compare_answer dbm0_compare(
    const uint8_t *first, size_t first_length,
    const uint8_t *second, size_t second_length,
    uint8_t *out, size_t out_length);

#ifdef __cplusplus
}
#endif

#endif
