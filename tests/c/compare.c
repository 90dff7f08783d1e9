/*
 * Comparing two modules with libdbm0.a, called from C, with expectations typed
 * by hand. It reads the files in samples/ from the working folder.
 *
 * Prints one line for each expectation that fails. The last line has the numbers
 * of passed and failed expectations. The exit status is 1 if any failed.
 */

#define _DEFAULT_SOURCE /* for MAP_ANONYMOUS */

#include "dbm0.h"
#include "expect.h"

/* The second module of the call, and the length of the list that is expected. */
static const uint8_t *second;
static size_t second_length, list_length;

/* The call with this second module. The length is that of the entries. */
static dbm0_length_answer compare(
    const uint8_t *first, size_t first_length, uint8_t *out, size_t out_length)
{
    dbm0_compare_answer answer = dbm0_compare(
        first, first_length, second, second_length, out, out_length);

    return (dbm0_length_answer){
        answer.number, answer.place, DBM0_DIFFERENCE_BYTES * answer.entries};
}

/* Outputs from empty to two bytes more than needed. */
#define WRITING_CALL compare
#define ENOUGH(length) list_length
#define CHANGED_ROOMS {0, 1, 9, 10, 500}
#include "writing.h"

/* Memory for the second module, followed by a page that can be neither read nor written. */
enum { SECOND = 2 * PAGE };
static uint8_t *second_memory;

static int make_second_memory(void)
{
    second_memory = mmap(NULL, SECOND + PAGE, PROT_READ | PROT_WRITE,
                         MAP_PRIVATE | MAP_ANONYMOUS, -1, 0);
    return second_memory != MAP_FAILED && mprotect(second_memory + SECOND, PAGE, PROT_NONE) == 0;
}

/* The second module ends at the end of its memory. */
static void load_second(const char *bytes, size_t bytes_length)
{
    uint8_t *loaded = second_memory + SECOND - bytes_length;

    memcpy(loaded, bytes, bytes_length);
    second = loaded;
    second_length = bytes_length;
}

#define LOAD_SECOND(bytes) load_second((bytes), sizeof(bytes) - 1)

/* The list of these two modules, in this order. Both are accepted and unchanged. */
static void lists(
    const char *one, size_t one_length, const char *other, size_t other_length,
    const char *list, size_t needed, int line)
{
    list_length = needed;
    load_second(other, other_length);
    writes(one, one_length, list, needed, line);
    count(memcmp(second, other, other_length) == 0, line, "the second module is changed");
    count(dbm0_check_module(module, length).number == 0, line, "the module is refused");
    count(compare(module, length, output(needed), needed).length == needed, line, "another length");
}

/* The same list in both orders. */
static void differ(
    const char *one, size_t one_length, const char *other, size_t other_length,
    const char *list, size_t needed, int line)
{
    lists(one, one_length, other, other_length, list, needed, line);
    lists(other, other_length, one, one_length, list, needed, line);
}

#define DIFFER(one, other, list) \
    differ((one), sizeof(one) - 1, (other), sizeof(other) - 1, (list), sizeof(list) - 1, __LINE__)

/* An entry for a whole record, and one for a field of a cell. */
#define WHOLE(kind, number) "\0" kind "\0" number "\0\0" "\0\0" "\0\0"
#define FIELD(number, row, track, field) "\0\x08" "\0" number "\0" row "\0" track "\0" field
#define SAME ""

/*
 * Two instruments, two samples, a song, two patterns of 4 tracks, and an
 * envelope of each kind:
 *
 *      0 version 3, revision $05, reserved word $BEEF
 *      8 NAME   16 the name
 *     60 INFO   68 instruments, 70 samples, 72 songs, 74 patterns, 76 tracks
 *     78 VENV   88 instrument, 90 flags, 91 sections, 92 to 95 the points of
 *               sustain and loop, 96 the two points in use, 104 the others
 *    224 PENV   234 the same
 *    370 SONG   378 name, 422 length, 424 entries
 *    428 INST   436 the first, 486 the second
 *    536 PATT   544 the first: 2 rows, 9 bytes from 550, the filler at 559;
 *               560 the second: 1 row, the filler at 567
 *    568 SMPL   576 the first (8 bits, 4 frames from 584), 588 the second (16
 *               bits, 2 frames from 596), to 600
 */
#define NAME "NAME" "\0\0\0\x2C" "A name that has all of the forty-four bytes."
#define INFO "INFO" "\0\0\0\x0A" "\0\x02" "\0\x02" "\0\x01" "\0\x02" "\0\x04"
#define UNUSED "uuuuuuuuuuuuuuuuuuuuuuuuuuuuuuuuuuuuuuuuuuuuuuuuuuuuuuuuuuuu" \
    "vvvvvvvvvvvvvvvvvvvvvvvvvvvvvvvvvvvvvvvvvvvvvvvvvvvvvvvvvvvv"
#define POINTS(instrument, one, other) \
    "\0" instrument "\0" "\x01" "\x09\x0A\x0B\x0C" "\0\0" one "\0\x09" other UNUSED
#define VENV "VENV" "\0\0\0\x8A" "\0\x01" POINTS("\x01", "\0\0", "\0\x40")
#define PENV "PENV" "\0\0\0\x8A" "\0\x01" POINTS("\x02", "\xFF\x80", "\0\x40")
#define SONG "SONG" "\0\0\0\x32" \
    "A song, whose name has exactly 44 letters..." "\0\x02" "\0\0" "\0\x01"
#define FIRST_INST "An instrument, of thirty bytes" "\0\x01" "\0\x40" "\0\0\x20\xAB" \
    "\0\0\0\x01" "\0\0\0\x03" "\xFF\x80" "\0\x01"
#define OTHER_INST "Another one, and 30 bytes too." "\0\0" "\0\0" "\x01\x02\x03\x04" \
    "\xFF\xFF\xFF\xFF" "\0\0\0\x02" "\0\0" "\0\0"
#define INST "INST" "\0\0\0\x64" FIRST_INST OTHER_INST
#define PATT "PATT" "\0\0\0\x18" "\0\x02" "\0\0\0\x09" "\x01\x03\x47\x01\0" "\x04\x20\x09\0" "\x77" \
    "\0\x01" "\0\0\0\x01" "\0" "\x88"
#define SMPL "SMPL" "\0\0\0\x18" "\0\0\0\x01" "\0\0\0\x04" "abcd" \
    "\0\0\0\x02" "\0\0\0\x02" "\x01\0" "\x80\0"
#define BASE "DBM0" "\x03\x05\xBE\xEF" NAME INFO VENV PENV SONG INST PATT SMPL

/* The module above, and the same with other bytes at a place, have these differences. */
static void change(
    size_t at, const char *bytes, size_t bytes_length, const char *list, size_t needed, int line)
{
    static char other[sizeof(BASE) - 1];

    memcpy(other, BASE, sizeof other);
    memcpy(other + at, bytes, bytes_length);
    count(memcmp(other, BASE, sizeof other) != 0, line, "nothing is changed");
    differ(BASE, sizeof(BASE) - 1, other, sizeof other, list, needed, line);
}

#define CHANGE(at, bytes, list) \
    change((at), (bytes), sizeof(bytes) - 1, (list), sizeof(list) - 1, __LINE__)

/* The same for each byte from one place to another: some of its bits change. */
static void flip(size_t from, size_t to, char bits, const char *list, size_t needed, int line)
{
    for (; from < to; from++) {
        char byte = BASE[from] ^ bits;

        change(from, &byte, 1, list, needed, line);
    }
}

#define FLIP(from, to, bits, list) flip((from), (to), (bits), (list), sizeof(list) - 1, __LINE__)

static void names_and_songs(void)
{
    HOLDS(sizeof(BASE) - 1 == 600);
    DIFFER(BASE, BASE, SAME);
    FLIP(16, 60, 1, WHOLE("\x01", "\0"));
    FLIP(16, 60, '\x80', WHOLE("\x01", "\0"));
    FLIP(378, 422, 1, WHOLE("\x03", "\0"));
    CHANGE(424, "\0\x01", WHOLE("\x03", "\0"));
    CHANGE(426, "\0\0", WHOLE("\x03", "\0"));
    CHANGE(424, "\0\x01\0\0", WHOLE("\x03", "\0"));
}

/* All fields count, also those of a loop without effect. */
static void instruments(void)
{
    FLIP(436, 466, 1, WHOLE("\x04", "\x01"));
    CHANGE(468, "\0\x3F", WHOLE("\x04", "\x01"));
    FLIP(470, 474, '\x40', WHOLE("\x04", "\x01"));
    CHANGE(474, "\0\0\0\0", WHOLE("\x04", "\x01"));
    CHANGE(478, "\0\0\0\x02", WHOLE("\x04", "\x01"));
    CHANGE(478, "\0\0\0\0", WHOLE("\x04", "\x01"));
    CHANGE(482, "\0\x80", WHOLE("\x04", "\x01"));
    CHANGE(482, "\xFF\x81", WHOLE("\x04", "\x01"));
    CHANGE(484, "\0\0", WHOLE("\x04", "\x01"));
    CHANGE(484, "\0\x02", WHOLE("\x04", "\x01"));
    CHANGE(484, "\0\x03", WHOLE("\x04", "\x01"));
    FLIP(486, 516, '\x20', WHOLE("\x04", "\x02"));
    CHANGE(516, "\0\x01", WHOLE("\x04", "\x02"));
    CHANGE(518, "\0\x01", WHOLE("\x04", "\x02"));
    FLIP(520, 532, '\x10', WHOLE("\x04", "\x02"));
    CHANGE(532, "\0\x01", WHOLE("\x04", "\x02"));
}

/* All fields count, also the points of a sustain or a loop that is off. Points that are not in use do not. */
static void envelopes(void)
{
    CHANGE(88, "\0\x02", WHOLE("\x05", "\0"));
    CHANGE(90, "\x01", WHOLE("\x05", "\0"));
    CHANGE(91, "\0", WHOLE("\x05", "\0"));
    FLIP(92, 96, '\x80', WHOLE("\x05", "\0"));
    FLIP(96, 98, '\x80', WHOLE("\x05", "\0"));
    CHANGE(98, "\0\x01", WHOLE("\x05", "\0"));
    FLIP(100, 102, 1, WHOLE("\x05", "\0"));
    CHANGE(102, "\0\x3F", WHOLE("\x05", "\0"));
    FLIP(104, 224, 1, SAME);
    CHANGE(234, "\0\x01", WHOLE("\x06", "\0"));
    CHANGE(236, "\x01", WHOLE("\x06", "\0"));
    CHANGE(237, "\0", WHOLE("\x06", "\0"));
    FLIP(238, 242, '\x80', WHOLE("\x06", "\0"));
    FLIP(242, 244, '\x80', WHOLE("\x06", "\0"));
    CHANGE(244, "\xFF\x81", WHOLE("\x06", "\0"));
    CHANGE(244, "\0\x80", WHOLE("\x06", "\0"));
    FLIP(246, 248, 1, WHOLE("\x06", "\0"));
    CHANGE(248, "\0\x3F", WHOLE("\x06", "\0"));
    FLIP(250, 370, '\x80', SAME);
    /* The last point of the first envelope, which is not in use, and the instrument of the second. */
    CHANGE(220, "zzzzPENV" "\0\0\0\x8A" "\0\x01" "\0\x01", WHOLE("\x06", "\0"));
}

static void patterns(void)
{
    CHANGE(552, "\x48", FIELD("\0", "\0", "\x01", "\x01"));
    CHANGE(553, "\x02", FIELD("\0", "\0", "\x01", "\x02"));
    CHANGE(552, "\x48\x02", FIELD("\0", "\0", "\x01", "\x01") FIELD("\0", "\0", "\x01", "\x02"));
    CHANGE(552, "\0\0", FIELD("\0", "\0", "\x01", "\x01") FIELD("\0", "\0", "\x01", "\x02"));
    CHANGE(557, "\0", FIELD("\0", "\x01", "\x04", "\x06"));
    CHANGE(557, "\xFF", FIELD("\0", "\x01", "\x04", "\x06"));
    /* Another track, and another mask. */
    CHANGE(550, "\x02", FIELD("\0", "\0", "\x01", "\x01") FIELD("\0", "\0", "\x01", "\x02")
           FIELD("\0", "\0", "\x02", "\x01") FIELD("\0", "\0", "\x02", "\x02"));
    CHANGE(551, "\x05", FIELD("\0", "\0", "\x01", "\x02") FIELD("\0", "\0", "\x01", "\x03"));
    CHANGE(556, "\x10", FIELD("\0", "\x01", "\x04", "\x05") FIELD("\0", "\x01", "\x04", "\x06"));
    /* The first row end moves: the entry of track 4 comes before it. */
    CHANGE(554, "\x04\x20\x09\0\0", FIELD("\0", "\0", "\x04", "\x06") FIELD("\0", "\x01", "\x04", "\x06"));
    /* The fillers. */
    FLIP(559, 560, '\xFF', SAME);
    FLIP(567, 568, '\xFF', SAME);
}

/* Bits 6 and 7 of a mask are no difference. */
static void upper_bits(void)
{
    static char one[sizeof(BASE) - 1], other[sizeof(BASE) - 1];

    CHANGE(551, "\x43", SAME);
    CHANGE(551, "\x83", SAME);
    CHANGE(551, "\xC3", SAME);
    CHANGE(556, "\x60", SAME);
    CHANGE(556, "\xA0", SAME);
    /* A field and a mask that differ beside them. */
    CHANGE(551, "\xC3\x48", FIELD("\0", "\0", "\x01", "\x01"));
    CHANGE(556, "\xE0\xFF", FIELD("\0", "\x01", "\x04", "\x06"));
    CHANGE(551, "\xC5", FIELD("\0", "\0", "\x01", "\x02") FIELD("\0", "\0", "\x01", "\x03"));
    /* Both modules have them, in different masks. */
    memcpy(one, BASE, sizeof one);
    memcpy(other, BASE, sizeof other);
    one[551] = '\x43', other[551] = '\x83', other[556] = '\xE0';
    differ(one, sizeof one, other, sizeof other, SAME, sizeof(SAME) - 1, __LINE__);
    other[553] = 2;
    differ(one, sizeof one, other, sizeof other, FIELD("\0", "\0", "\x01", "\x02"), 10, __LINE__);
}

static void samples(void)
{
    FLIP(584, 588, 1, WHOLE("\x07", "\x01"));
    FLIP(584, 588, '\x80', WHOLE("\x07", "\x01"));
    FLIP(596, 600, 1, WHOLE("\x07", "\x02"));
    /* The same bytes as 4 frames of 8 bits, and as one of 32 bits. */
    CHANGE(588, "\0\0\0\x01" "\0\0\0\x04", WHOLE("\x07", "\x02"));
    CHANGE(588, "\0\0\0\x04" "\0\0\0\x01", WHOLE("\x07", "\x02"));
}

/* Revision and reserved word. */
static void header(void)
{
    CHANGE(5, "\x99", SAME);
    CHANGE(6, "\0\0", SAME);
    CHANGE(5, "\0\xFF\xFF", SAME);
}

/* All kinds but INFO in one list. */
static void many_kinds(void)
{
    static char other[sizeof(BASE) - 1];

    memcpy(other, BASE, sizeof other);
    other[599] ^= 1, other[584] ^= 1, other[557] ^= 1, other[552] ^= 1;
    other[519] ^= 1, other[436] ^= 1, other[421] ^= 1, other[249] ^= 1, other[96] ^= 1, other[59] ^= 1;
    differ(BASE, sizeof(BASE) - 1, other, sizeof other,
           WHOLE("\x01", "\0") WHOLE("\x03", "\0") WHOLE("\x04", "\x01") WHOLE("\x04", "\x02")
           WHOLE("\x05", "\0") WHOLE("\x06", "\0") WHOLE("\x07", "\x01") WHOLE("\x07", "\x02")
           FIELD("\0", "\0", "\x01", "\x01") FIELD("\0", "\x01", "\x04", "\x06"), 100, __LINE__);
}

/* A module without a name and without envelopes: INFO's numbers, then the lengths and the blocks of the four chunks. */
#define SMALL(numbers, song, inst, patt, smpl) "DBM0" "\x03\0\0\0" "INFO" "\0\0\0\x0A" numbers \
    "SONG" "\0\0\0" song "INST" "\0\0\0" inst "PATT" "\0\0\0" patt "SMPL" "\0\0\0" smpl
#define NUMBERS(instruments, samples, songs, patterns, tracks) \
    "\0" instruments "\0" samples "\0" songs "\0" patterns "\0" tracks
#define EMPTY SMALL(NUMBERS("\0", "\0", "\0", "\0", "\x04"), "\0", "\0", "\0", "\0")

#define ZEROS_10 "\0\0\0\0\0\0\0\0\0\0"
#define ZEROS_44 ZEROS_10 ZEROS_10 ZEROS_10 ZEROS_10 "\0\0\0\0"
#define ZEROS_46 ZEROS_44 "\0\0"
#define ZEROS_50 ZEROS_44 "\0\0\0\0\0\0"

/* A count that differs, and each record that is in one module only. */
static void numbers_of_info(void)
{
    DIFFER(EMPTY, EMPTY, SAME);
    DIFFER(EMPTY, SMALL(NUMBERS("\x02", "\0", "\0", "\0", "\x04"), "\0", "\x64" ZEROS_50 ZEROS_50, "\0", "\0"),
           WHOLE("\x02", "\0") WHOLE("\x04", "\x01") WHOLE("\x04", "\x02"));
    DIFFER(EMPTY, SMALL(NUMBERS("\0", "\x02", "\0", "\0", "\x04"), "\0", "\0", "\0",
                        "\x10" "\0\0\0\x01" "\0\0\0\0" "\0\0\0\x04" "\0\0\0\0"),
           WHOLE("\x02", "\x01") WHOLE("\x07", "\x01") WHOLE("\x07", "\x02"));
    DIFFER(EMPTY, SMALL(NUMBERS("\0", "\0", "\x02", "\0", "\x04"), "\x5C" ZEROS_46 ZEROS_46, "\0", "\0", "\0"),
           WHOLE("\x02", "\x02") WHOLE("\x03", "\0") WHOLE("\x03", "\x01"));
    DIFFER(EMPTY, SMALL(NUMBERS("\0", "\0", "\0", "\x02", "\x04"), "\0", "\0",
                        "\x0C" "\0\0" "\0\0\0\0" "\0\0" "\0\0\0\0", "\0"),
           WHOLE("\x02", "\x03") WHOLE("\x08", "\0") WHOLE("\x08", "\x01"));
    DIFFER(EMPTY, SMALL(NUMBERS("\0", "\0", "\0", "\0", "\x06"), "\0", "\0", "\0", "\0"),
           WHOLE("\x02", "\x04"));
    /* One against two: the first is the same, or it differs too. */
    DIFFER(SMALL(NUMBERS("\x01", "\0", "\0", "\0", "\x04"), "\0", "\x32" ZEROS_50, "\0", "\0"),
           SMALL(NUMBERS("\x02", "\0", "\0", "\0", "\x04"), "\0", "\x64" ZEROS_50 ZEROS_50, "\0", "\0"),
           WHOLE("\x02", "\0") WHOLE("\x04", "\x02"));
    DIFFER(SMALL(NUMBERS("\x01", "\0", "\0", "\0", "\x04"), "\0", "\x32" ZEROS_50, "\0", "\0"),
           SMALL(NUMBERS("\x02", "\0", "\0", "\0", "\x04"), "\0", "\x64" OTHER_INST ZEROS_50, "\0", "\0"),
           WHOLE("\x02", "\0") WHOLE("\x04", "\x01") WHOLE("\x04", "\x02"));
    /* All five numbers, and a record of each kind. */
    DIFFER(EMPTY, SMALL(NUMBERS("\x01", "\x01", "\x01", "\x01", "\xFE"), "\x2E" ZEROS_46, "\x32" ZEROS_50,
                        "\x06" "\0\0" "\0\0\0\0", "\x08" "\0\0\0\x02" "\0\0\0\0"),
           WHOLE("\x02", "\0") WHOLE("\x02", "\x01") WHOLE("\x02", "\x02") WHOLE("\x02", "\x03")
           WHOLE("\x02", "\x04") WHOLE("\x03", "\0") WHOLE("\x04", "\x01") WHOLE("\x07", "\x01")
           WHOLE("\x08", "\0"));
}

/* One song with this playlist; one sample of these bytes; patterns and tracks. */
#define ONE_SONG(length, playlist, patt) \
    SMALL(NUMBERS("\0", "\0", "\x01", "\x02", "\x04"), length ZEROS_44 playlist, "\0", patt, "\0")
#define TWO_EMPTY "\x0C" "\0\0" "\0\0\0\0" "\0\0" "\0\0\0\0"
#define ONE_SAMPLE(length, block) \
    SMALL(NUMBERS("\0", "\x01", "\0", "\0", "\x04"), "\0", "\0", "\0", length block)
#define ONE_PATTERN(tracks, length, block) \
    SMALL(NUMBERS("\0", "\0", "\0", "\x01", tracks), "\0", "\0", length block, "\0")

static void playlists(void)
{
    DIFFER(ONE_SONG("\x2E", "\0\0", TWO_EMPTY), ONE_SONG("\x30", "\0\x01\0\0", TWO_EMPTY), WHOLE("\x03", "\0"));
    DIFFER(ONE_SONG("\x30", "\0\x01\0\0", TWO_EMPTY), ONE_SONG("\x32", "\0\x02\0\0\0\0", TWO_EMPTY),
           WHOLE("\x03", "\0"));
    DIFFER(ONE_SONG("\x32", "\0\x02\0\0\0\x01", TWO_EMPTY), ONE_SONG("\x32", "\0\x02\0\x01\0\0", TWO_EMPTY),
           WHOLE("\x03", "\0"));
}

/* Width, frames, bytes. 8-bit 1 is not 16-bit 256, and two empty samples of different widths differ. */
static void widths(void)
{
    DIFFER(ONE_SAMPLE("\x09", "\0\0\0\x01" "\0\0\0\x01" "\x01"),
           ONE_SAMPLE("\x0A", "\0\0\0\x02" "\0\0\0\x01" "\x01\0"), WHOLE("\x07", "\x01"));
    DIFFER(ONE_SAMPLE("\x09", "\0\0\0\x01" "\0\0\0\x01" "\x01"),
           ONE_SAMPLE("\x0A", "\0\0\0\x02" "\0\0\0\x01" "\0\x01"), WHOLE("\x07", "\x01"));
    DIFFER(ONE_SAMPLE("\x0A", "\0\0\0\x02" "\0\0\0\x01" "\x01\0"),
           ONE_SAMPLE("\x0C", "\0\0\0\x04" "\0\0\0\x01" "\x01\0\0\0"), WHOLE("\x07", "\x01"));
    DIFFER(ONE_SAMPLE("\x0C", "\0\0\0\x01" "\0\0\0\x04" "\0\0\0\0"),
           ONE_SAMPLE("\x0C", "\0\0\0\x04" "\0\0\0\x01" "\0\0\0\0"), WHOLE("\x07", "\x01"));
    DIFFER(ONE_SAMPLE("\x08", "\0\0\0\x01" "\0\0\0\0"),
           ONE_SAMPLE("\x08", "\0\0\0\x02" "\0\0\0\0"), WHOLE("\x07", "\x01"));
    DIFFER(ONE_SAMPLE("\x08", "\0\0\0\x01" "\0\0\0\0"),
           ONE_SAMPLE("\x08", "\0\0\0\x04" "\0\0\0\0"), WHOLE("\x07", "\x01"));
    DIFFER(ONE_SAMPLE("\x08", "\0\0\0\x02" "\0\0\0\0"),
           ONE_SAMPLE("\x08", "\0\0\0\x04" "\0\0\0\0"), WHOLE("\x07", "\x01"));
    DIFFER(ONE_SAMPLE("\x08", "\0\0\0\x01" "\0\0\0\0"),
           ONE_SAMPLE("\x09", "\0\0\0\x01" "\0\0\0\x01" "\0"), WHOLE("\x07", "\x01"));
    DIFFER(ONE_SAMPLE("\x0C", "\0\0\0\x02" "\0\0\0\x02" "abcd"),
           ONE_SAMPLE("\x0E", "\0\0\0\x02" "\0\0\0\x03" "abcdab"), WHOLE("\x07", "\x01"));
}

/* One entry for patterns of unequal rows or tracks, also with 0 rows. Otherwise one for each field. */
static void shapes(void)
{
    DIFFER(ONE_PATTERN("\x04", "\x06", "\0\0" "\0\0\0\0"),
           ONE_PATTERN("\x04", "\x08", "\0\x01" "\0\0\0\x01" "\0\0"), WHOLE("\x08", "\0"));
    DIFFER(ONE_PATTERN("\x04", "\x0A", "\0\x01" "\0\0\0\x04" "\x01\x01\x47\0"),
           ONE_PATTERN("\x04", "\x0E", "\0\x02" "\0\0\0\x08" "\x01\x01\x50\0" "\x02\x01\x51\0"), WHOLE("\x08", "\0"));
    DIFFER(ONE_PATTERN("\x04", "\x06", "\0\0" "\0\0\0\0"),
           ONE_PATTERN("\x06", "\x06", "\0\0" "\0\0\0\0"), WHOLE("\x02", "\x04") WHOLE("\x08", "\0"));
    DIFFER(ONE_PATTERN("\x04", "\x0A", "\0\x01" "\0\0\0\x04" "\x01\x01\x47\0"),
           ONE_PATTERN("\x08", "\x0A", "\0\x01" "\0\0\0\x04" "\x01\x01\x50\0"),
           WHOLE("\x02", "\x04") WHOLE("\x08", "\0"));
    /* As many cells: 3 rows of 4 tracks, 2 rows of 6. */
    DIFFER(ONE_PATTERN("\x04", "\x0A", "\0\x03" "\0\0\0\x03" "\0\0\0\0"),
           ONE_PATTERN("\x06", "\x08", "\0\x02" "\0\0\0\x02" "\0\0"), WHOLE("\x02", "\x04") WHOLE("\x08", "\0"));
    /* Rows before tracks, and tracks before fields: track 6 of row 0 is first, and track 5 of row 1 last. */
    DIFFER(ONE_PATTERN("\x06", "\x08", "\0\x02" "\0\0\0\x02" "\0\0"),
           ONE_PATTERN("\x06", "\x16", "\0\x02" "\0\0\0\x10" "\x06\x04\x07\0"
                       "\x05\x01\x08" "\x02\x3F\x01\x02\x03\x04\x05\x06" "\0"),
           FIELD("\0", "\0", "\x06", "\x03")
           FIELD("\0", "\x01", "\x02", "\x01") FIELD("\0", "\x01", "\x02", "\x02")
           FIELD("\0", "\x01", "\x02", "\x03") FIELD("\0", "\x01", "\x02", "\x04")
           FIELD("\0", "\x01", "\x02", "\x05") FIELD("\0", "\x01", "\x02", "\x06")
           FIELD("\0", "\x01", "\x05", "\x01"));
}

/* The length of PATT, then rows, packed length, stream and filler: P1 to P5. */
#define P1 "\x0C" "\0\x02" "\0\0\0\x06" "\x02\x03\x47\x01\0\0"
#define P2 "\x0E" "\0\x02" "\0\0\0\x08" "\x02\x01\x47\x02\x02\x01\0\0"
#define P3 "\x0E" "\0\x02" "\0\0\0\x07" "\x02\x07\x47\x01\0\0\0" "\xFF"
#define P4 "\x0E" "\0\x01" "\0\0\0\x07" "\x01\x01\x47\x01\x01\0\0" "\x01"
#define P5 "\x0A" "\0\x01" "\0\0\0\x03" "\x01\0\0" "\x80"

/* P1, P2 and P3 are the same pattern, P4 and P5 are both an empty row. */
static void packing(void)
{
    DIFFER(ONE_PATTERN("\x04", P1, ""), ONE_PATTERN("\x04", P2, ""), SAME);
    DIFFER(ONE_PATTERN("\x04", P1, ""), ONE_PATTERN("\x04", P3, ""), SAME);
    DIFFER(ONE_PATTERN("\x04", P4, ""), ONE_PATTERN("\x04", P5, ""), SAME);
    /* The last entry of a track counts: $47 is not $50. */
    DIFFER(ONE_PATTERN("\x04", P1, ""),
           ONE_PATTERN("\x04", "\x10" "\0\x02" "\0\0\0\x09" "\x02\x03\x47\x01\x02\x01\x50\0\0" "\0", ""),
           FIELD("\0", "\0", "\x02", "\x01"));
}

/* The same in another order and with other chunks; without a name and with one of zeros; without envelopes and with none. */
static void chunks(void)
{
    DIFFER(BASE,
           "DBM0" "\x03\0\0\0" "DSPE" "\0\0\0\x03" "abc" PENV INFO SMPL PATT "ZZZZ" "\0\0\0\0" SONG NAME VENV INST
           "DSPE" "\0\0\0\x01" "d", SAME);
    DIFFER(EMPTY, EMPTY "NAME" "\0\0\0\x2C" ZEROS_44, SAME);
    DIFFER(EMPTY, EMPTY "VENV" "\0\0\0\x02" "\0\0", SAME);
    DIFFER(EMPTY, EMPTY "PENV" "\0\0\0\x02" "\0\0" "VENV" "\0\0\0\x02" "\0\0", SAME);
    DIFFER(EMPTY, EMPTY NAME, WHOLE("\x01", "\0"));
    DIFFER(EMPTY "NAME" "\0\0\0\x2C" ZEROS_44, EMPTY NAME, WHOLE("\x01", "\0"));
}

/* One instrument, and these envelopes of it. */
#define WITH(version, envelopes) "DBM0" version "\0\0\0" "INFO" "\0\0\0\x0A" NUMBERS("\x01", "\0", "\0", "\0", "\x04") \
    "SONG" "\0\0\0\0" "INST" "\0\0\0\x32" ZEROS_50 envelopes "PATT" "\0\0\0\0" "SMPL" "\0\0\0\0"
#define ZEROS_116 ZEROS_50 ZEROS_50 ZEROS_10 "\0\0\0\0\0\0"
#define THREE(one, two, three) "\0\x01" "\x01" "\x02" "\0\0\0\0" "\0\0" one "\0\x0A" two "\0\x14" three ZEROS_116
#define ONE_PENV(one, two, three) "PENV" "\0\0\0\x8A" "\0\x01" THREE(one, two, three)
#define ONE_VENV(one, two, three) "VENV" "\0\0\0\x8A" "\0\x01" THREE(one, two, three)

static void versions(void)
{
    /* 0, 32, 64 against -128, 0, 128. */
    DIFFER(WITH("\x02", ONE_PENV("\0\0", "\0\x20", "\0\x40")), WITH("\x03", ONE_PENV("\xFF\x80", "\0\0", "\0\x80")), SAME);
    DIFFER(WITH("\x02", ONE_PENV("\0\x01", "\0\x1F", "\0\x3F")), WITH("\x03", ONE_PENV("\xFF\x84", "\xFF\xFC", "\0\x7C")),
           SAME);
    /* One of the three, and as they are stored. */
    DIFFER(WITH("\x02", ONE_PENV("\0\0", "\0\x20", "\0\x40")), WITH("\x03", ONE_PENV("\xFF\x81", "\0\0", "\0\x80")),
           WHOLE("\x06", "\0"));
    DIFFER(WITH("\x02", ONE_PENV("\0\0", "\0\x20", "\0\x40")), WITH("\x03", ONE_PENV("\xFF\x80", "\0\x01", "\0\x80")),
           WHOLE("\x06", "\0"));
    DIFFER(WITH("\x02", ONE_PENV("\0\0", "\0\x20", "\0\x40")), WITH("\x03", ONE_PENV("\xFF\x80", "\0\0", "\0\x7F")),
           WHOLE("\x06", "\0"));
    DIFFER(WITH("\x02", ONE_PENV("\0\0", "\0\x20", "\0\x40")), WITH("\x03", ONE_PENV("\0\0", "\0\x20", "\0\x40")),
           WHOLE("\x06", "\0"));
    /* Within one version. */
    DIFFER(WITH("\x02", ONE_PENV("\0\0", "\0\x20", "\0\x40")), WITH("\x02", ONE_PENV("\0\0", "\0\x21", "\0\x40")),
           WHOLE("\x06", "\0"));
    /* Volume is not scaled. */
    DIFFER(WITH("\x02", ONE_VENV("\0\0", "\0\x20", "\0\x40")), WITH("\x03", ONE_VENV("\0\0", "\0\x20", "\0\x40")), SAME);
    DIFFER(WITH("\x02", ONE_VENV("\0\0", "\0\x20", "\0\x40")), WITH("\x03", ONE_VENV("\0\0", "\0\0", "\0\x40")),
           WHOLE("\x05", "\0"));
    /* The number of envelopes is not in INFO. */
    DIFFER(WITH("\x02", ""), WITH("\x03", ONE_PENV("\0\0", "\0\x20", "\0\x40")), WHOLE("\x06", "\0"));
    DIFFER(WITH("\x03", ONE_VENV("\0\0", "\0\0", "\0\0")), WITH("\x03", ONE_PENV("\0\0", "\0\0", "\0\0")),
           WHOLE("\x05", "\0") WHOLE("\x06", "\0"));
    DIFFER(WITH("\x03", ONE_VENV("\0\0", "\0\0", "\0\0")),
           WITH("\x03", "VENV" "\0\0\x01\x9A" "\0\x03" THREE("\0\0", "\0\0", "\0\0") THREE("\0\0", "\0\0", "\0\0")
                THREE("\0\0", "\0\0", "\0\0")),
           WHOLE("\x05", "\x01") WHOLE("\x05", "\x02"));
}

/* A module of the folder samples. */
struct file {
    char bytes[1152];
    size_t length;
};

static struct file carousel, old, short_organ, broken_pattern, organ_frames;

static int read_file(struct file *read, const char *name, size_t expected)
{
    FILE *file = fopen(name, "rb");

    if (file == NULL) {
        printf("%s cannot be read\n", name);
        return 0;
    }
    read->length = fread(read->bytes, 1, sizeof read->bytes, file);
    count(read->length == expected && fgetc(file) == EOF, __LINE__, "another length of a file");
    fclose(file);
    return 1;
}

/* These two modules have these differences. */
static void files(const struct file *one, const struct file *other, const char *list, size_t needed, int line)
{
    differ(one->bytes, one->length, other->bytes, other->length, list, needed, line);
}

#define FILES(one, other, list) files(&(one), &(other), (list), sizeof(list) - 1, __LINE__)

/* Names and counts; two songs; three instruments; an envelope of each kind; three samples; three patterns. */
#define CAROUSEL_AND_OLD \
    WHOLE("\x01", "\0") WHOLE("\x02", "\0") WHOLE("\x02", "\x01") WHOLE("\x02", "\x02") WHOLE("\x02", "\x03") \
    WHOLE("\x03", "\0") WHOLE("\x03", "\x01") WHOLE("\x04", "\x01") WHOLE("\x04", "\x02") WHOLE("\x04", "\x03") \
    WHOLE("\x05", "\0") WHOLE("\x06", "\0") WHOLE("\x07", "\x01") WHOLE("\x07", "\x02") WHOLE("\x07", "\x03") \
    WHOLE("\x08", "\0") WHOLE("\x08", "\x01") WHOLE("\x08", "\x02")

/* Refused for outputs of several lengths. */
static void refuses(const struct file *one, const struct file *other, uint64_t number, uint64_t place, int line)
{
    static const size_t rooms[] = {0, 1, 10, 179, 180, 1000};
    size_t k;

    load_module(one->bytes, one->length);
    load_second(other->bytes, other->length);
    for (k = 0; k < sizeof rooms / sizeof *rooms; k++)
        refused(number, place, rooms[k], line);
    count(memcmp(module, one->bytes, length) == 0, line, "the module is changed");
    count(memcmp(second, other->bytes, second_length) == 0, line, "the second module is changed");
}

#define REFUSES(one, other, number, place) refuses(&(one), &(other), (number), (place), __LINE__)

static void the_files(void)
{
    static struct file changed;
    dbm0_compare_answer answer;

    if (!read_file(&carousel, "samples/carousel.dbm", 1152) || !read_file(&old, "samples/old.dbm", 426)
        || !read_file(&short_organ, "samples/short-organ.dbm", 1128)
        || !read_file(&broken_pattern, "samples/broken-pattern.dbm", 1152)
        || !read_file(&organ_frames, "samples/short-organ.frames", 80))
        return;
    FILES(carousel, carousel, SAME);
    changed.length = dbm0_repack((const uint8_t *)carousel.bytes, carousel.length,
                                 (uint8_t *)changed.bytes, sizeof changed.bytes).length;
    HOLDS(changed.length == 1152);
    FILES(carousel, changed, SAME);
    HOLDS(sizeof(CAROUSEL_AND_OLD) - 1 == 180);
    FILES(carousel, old, CAROUSEL_AND_OLD);
    /* Without room, and with an output that is exactly long enough. */
    answer = dbm0_compare((const uint8_t *)carousel.bytes, 1152, (const uint8_t *)old.bytes, 426, NULL, 0);
    HOLDS(answer.number == 17 && answer.place == 180 && answer.entries == 0);
    answer = dbm0_compare((const uint8_t *)old.bytes, 426, (const uint8_t *)carousel.bytes, 1152, output(180), 180);
    HOLDS(answer.number == 0 && answer.place == 0 && answer.entries == 18);
    /* The first module's refusal is given, whatever the second one is; then the second's. */
    REFUSES(short_organ, broken_pattern, DBM0_MODULE_LOOP, 540);
    REFUSES(broken_pattern, short_organ, DBM0_MODULE_STREAM_BROKEN, 728);
    REFUSES(short_organ, carousel, DBM0_MODULE_LOOP, 540);
    REFUSES(carousel, short_organ, DBM0_MODULE_LOOP, 540);
    REFUSES(carousel, broken_pattern, DBM0_MODULE_STREAM_BROKEN, 728);
    REFUSES(broken_pattern, old, DBM0_MODULE_STREAM_BROKEN, 728);
    REFUSES(short_organ, organ_frames, DBM0_MODULE_LOOP, 540);
    REFUSES(old, organ_frames, DBM0_MODULE_NOT_DBM0, 0);
}

/* The carousel against itself with the sample of 40 frames: the sample, and the instrument whose loop was cleared. */
static void the_short_organ(void)
{
    static uint8_t replaced[1168];
    dbm0_replace_answer answer = dbm0_replace_sample(
        (const uint8_t *)carousel.bytes, 1152, 2, (const uint8_t *)organ_frames.bytes, 80, replaced, 1168);

    HOLDS(answer.number == 0 && answer.length == 1168 && answer.cleared == 1);
    differ(carousel.bytes, 1152, (const char *)replaced, 1168,
           "\x00\x04\x00\x02\x00\x00\x00\x00\x00\x00" "\x00\x07\x00\x02\x00\x00\x00\x00\x00\x00", 20, __LINE__);
}

/* One byte of the first module is changed, and then one of the second: this refusal. */
static void damaged(size_t at, uint8_t byte, uint64_t number, uint64_t place, int line)
{
    static char other[sizeof(BASE) - 1];

    LOAD(BASE);
    LOAD_SECOND(EMPTY);
    changed(at, byte, number, place, line);
    LOAD_SECOND("DBM0");
    changed(at, byte, number, place, line);
    memcpy(other, BASE, sizeof other);
    other[at] = (char)byte;
    load_second(other, sizeof other);
    refused(number, place, 0, line);
    refused(number, place, 500, line);
    LOAD(EMPTY);
    refused(number, place, 500, line);
    LOAD(EMPTY "ZZZZ" "\0\0\0");
    refused(DBM0_MODULE_CHUNK_CUT, 58, 500, line);
}

#define DAMAGED(at, byte, number, place) damaged((at), (byte), (number), (place), __LINE__)

static void refused_modules(void)
{
    DAMAGED(0, 'X', DBM0_MODULE_NOT_DBM0, 0);
    DAMAGED(4, 4, DBM0_MODULE_VERSION, 4);
    DAMAGED(575, 0x19, DBM0_MODULE_CHUNK_CUT, 568);
    DAMAGED(568, 's', DBM0_MODULE_IDENTIFIER, 568);
    DAMAGED(78, 'P', DBM0_MODULE_CHUNK_REPEATED, 224);
    DAMAGED(370, 'T', DBM0_MODULE_CHUNK_MISSING, 600);
    DAMAGED(77, 5, DBM0_MODULE_INFO_RANGE, 76);
    DAMAGED(579, 3, DBM0_MODULE_BLOCKS, 568);
    DAMAGED(427, 2, DBM0_MODULE_REFERENCE, 426);
    DAMAGED(469, 65, DBM0_MODULE_FIELD_RANGE, 468);
    DAMAGED(481, 4, DBM0_MODULE_LOOP, 436);
    DAMAGED(566, 1, DBM0_MODULE_STREAM_BROKEN, 560);
    /* 7 as the first, and 9 as the second. */
    LOAD("DBM0" "\x03\0\0\0" SONG INFO);
    LOAD_SECOND(EMPTY);
    refused(DBM0_MODULE_BEFORE_INFO, 8, 100, __LINE__);
    LOAD(EMPTY);
    LOAD_SECOND("DBM0" "\x03\0\0\0" "NAME" "\0\0\0\x01" "N");
    refused(DBM0_MODULE_CHUNK_LENGTH, 8, 100, __LINE__);
    /* The module's own refusals come before 17. */
    LOAD_SECOND(BASE);
    second_length = 599;
    refused(DBM0_MODULE_CHUNK_CUT, 568, 0, __LINE__);
    LOAD(BASE);
    length = 599;
    LOAD_SECOND(EMPTY);
    refused(DBM0_MODULE_CHUNK_CUT, 568, 0, __LINE__);
}

/* The chunk INNR has a whole module from 16 on, and all else of EMPTY follows. */
#define OUTER "DBM0" "\x03\0\0\0" "INNR" "\0\0\x02\x58" BASE \
    "INFO" "\0\0\0\x0A" NUMBERS("\0", "\0", "\0", "\0", "\x04") \
    "SONG" "\0\0\0\0" "INST" "\0\0\0\0" "PATT" "\0\0\0\0" "SMPL" "\0\0\0\0"
/* BASE against EMPTY. */
#define ALL_OF_BASE \
    WHOLE("\x01", "\0") WHOLE("\x02", "\0") WHOLE("\x02", "\x01") WHOLE("\x02", "\x02") WHOLE("\x02", "\x03") \
    WHOLE("\x03", "\0") WHOLE("\x04", "\x01") WHOLE("\x04", "\x02") WHOLE("\x05", "\0") WHOLE("\x06", "\0") \
    WHOLE("\x07", "\x01") WHOLE("\x07", "\x02") WHOLE("\x08", "\0") WHOLE("\x08", "\x01")

/* The list for the loaded modules, for outputs around its length. */
static void loaded(const char *list, size_t needed, int line)
{
    size_t room;

    for (room = 0; room < needed; room++)
        refused(DBM0_MODULE_ROOM, needed, room, line);
    for (; room < needed + 3; room++)
        written(list, needed, room, line);
}

#define LOADED(list) loaded((list), sizeof(list) - 1, __LINE__)

static void modules_that_overlap(void)
{
    /* The same memory. */
    LOAD(BASE);
    second = module, second_length = length;
    LOADED(SAME);
    /* The second inside the first, and the first inside the second. */
    DIFFER(EMPTY, BASE, ALL_OF_BASE);
    LOAD(OUTER);
    HOLDS(length == 16 + 600 + 50);
    second = module + 16, second_length = 600;
    LOADED(ALL_OF_BASE);
    second = module, second_length = length;
    module += 16, length = 600;
    LOADED(ALL_OF_BASE);
    /* The second begins in the last chunk of the first, and ends after it: 20 bytes of BASE are data of ENDS. */
    LOAD(EMPTY "ENDS" "\0\0\0\x14" BASE);
    second = module + 66, second_length = 600;
    length = 86;
    LOADED(ALL_OF_BASE);
    second = module, second_length = 86;
    module += 66, length = 600;
    LOADED(ALL_OF_BASE);
    HOLDS(memcmp(module, BASE, 600) == 0);
}

/* NULL for a module or for the output, if the length is 0. */
static void no_bytes(void)
{
    dbm0_compare_answer answer = dbm0_compare(NULL, 0, NULL, 0, NULL, 0);

    HOLDS(answer.number == 2 && answer.place == 0 && answer.entries == 0);
    LOAD_SECOND(EMPTY);
    NOTHING(BASE, 140);
    LOAD(BASE);
    second = NULL, second_length = 0;
    refused(DBM0_MODULE_NOT_DBM0, 0, 0, __LINE__);
    refused(DBM0_MODULE_NOT_DBM0, 0, 200, __LINE__);
    second = module, second_length = length;
    answer = dbm0_compare(module, length, second, second_length, NULL, 0);
    HOLDS(answer.number == 0 && answer.place == 0 && answer.entries == 0);
}

/* Modules of the most bytes that a module may have: one sample has the rest. */
static uint8_t large[2][DBM0_MODULE_MOST_BYTES + 1];

static void large_modules(void)
{
    const size_t most = DBM0_MODULE_MOST_BYTES;
    size_t k;

    for (k = 0; k < 2; k++) {
        memset(large[k], 'Z', sizeof large[k]);
        /* SMPL has $FFFFC6 bytes, and its sample $FFFFBE frames of 8 bits. */
        memcpy(large[k], ONE_SAMPLE("\0", ""), 54);
        memcpy(large[k] + 54, "\0\xFF\xFF\xC6" "\0\0\0\x01" "\0\xFF\xFF\xBE", 12);
    }
    module = large[0], length = most, second = large[1], second_length = most;
    HOLDS(dbm0_check_module(module, length).number == 0);
    LOADED(SAME);
    large[1][most - 1] = 'Y';
    LOADED(WHOLE("\x07", "\x01"));
    second = module;
    LOADED(SAME);
    /* One byte more: refused as the first, and as the second. */
    second = large[1], second_length = most + 1;
    refused(DBM0_MODULE_TOO_LONG, 0, 100, __LINE__);
    second_length = most, length = most + 1;
    refused(DBM0_MODULE_TOO_LONG, 0, 100, __LINE__);
    refused(DBM0_MODULE_TOO_LONG, 0, 0, __LINE__);
    LOAD_SECOND("DBM0");
    refused(DBM0_MODULE_TOO_LONG, 0, 100, __LINE__);
    LOAD("DBM1");
    second = large[1], second_length = most + 1;
    refused(DBM0_MODULE_NOT_DBM0, 0, 100, __LINE__);
}

/* Numbers of more than one byte: 300 songs and 300 patterns, and 300 rows of 254 tracks. */
static void large_numbers(void)
{
    const size_t songs = 300 * 46, rows = 300 + 6;
    uint8_t *at;
    size_t k, m;

    for (k = 0; k < 2; k++) {
        memset(large[k], 0, 40000);
        memcpy(large[k], SMALL("\0\0" "\0\0" "\x01\x2C" "\x01\x2C" "\0\xFE", "\0", "\0", "\0", "\0"), 26);
        /* $35E8 bytes of SONG, and no INST. */
        at = large[k] + 26;
        memcpy(at, "SONG" "\0\0\x35\xE8", 8);
        at[8 + 299 * 46] = (uint8_t)(k + 1);
        at += 8 + songs;
        memcpy(at, "INST" "\0\0\0\0" "PATT" "\0\0\x08\x38", 16);
        at += 16;
        /* 299 patterns without rows, and one of 300 rows: the last field of the last track differs. $838 bytes. */
        for (m = 0; m < 299; m++)
            at += 6;
        memcpy(at, "\x01\x2C" "\0\0\x01\x2F", 6);
        memcpy(at + 6 + 299, "\xFE\x20", 2);
        at[6 + 299 + 2] = (uint8_t)(k + 1);
        at += rows + 4;
        memcpy(at, "SMPL" "\0\0\0\0", 8);
        HOLDS(at + 8 - large[k] == 26 + 8 + 13800 + 16 + 2104 + 8);
    }
    module = large[0], length = 26 + 8 + 13800 + 16 + 2104 + 8, second = large[1], second_length = length;
    HOLDS(dbm0_check_module(module, length).number == 0);
    LOADED("\0\x03" "\x01\x2B" "\0\0" "\0\0" "\0\0" "\0\x08" "\x01\x2B" "\x01\x2B" "\0\xFE" "\0\x06");
    /* All songs and patterns are in one module only. */
    LOAD_SECOND(EMPTY);
    refused(DBM0_MODULE_ROOM, 10 * 603, 6029, __LINE__);
    HOLDS(compare(module, length, output(6030), 6030).length == 6030);
}

/* The macros of the header. */
static void names(void)
{
    HOLDS(DBM0_DIFFERENCE_NAME == 1 && DBM0_DIFFERENCE_INFO == 2);
    HOLDS(DBM0_DIFFERENCE_SONG == 3 && DBM0_DIFFERENCE_INSTRUMENT == 4);
    HOLDS(DBM0_DIFFERENCE_VOLUME_ENVELOPE == 5 && DBM0_DIFFERENCE_PANNING_ENVELOPE == 6);
    HOLDS(DBM0_DIFFERENCE_SAMPLE == 7 && DBM0_DIFFERENCE_PATTERN == 8);
    HOLDS(DBM0_DIFFERENCE_BYTES == 10);
    HOLDS(sizeof(dbm0_compare_answer) == 24);
    HOLDS(DBM0_VERSION >= 10500);
}

int main(void)
{
    if (!ready() || !make_second_memory())
        return 1;
    names_and_songs();
    instruments();
    envelopes();
    patterns();
    upper_bits();
    samples();
    header();
    many_kinds();
    numbers_of_info();
    playlists();
    widths();
    shapes();
    packing();
    chunks();
    versions();
    the_files();
    the_short_organ();
    refused_modules();
    modules_that_overlap();
    no_bytes();
    large_modules();
    large_numbers();
    names();
    return counted();
}
