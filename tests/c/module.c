/*
 * libdbm0.a together with libpattern.a, called from C, with expectations typed
 * by hand.
 *
 * Prints one line for each expectation that fails. The last line has the numbers
 * of passed and failed expectations. The exit status is 1 if any failed.
 */

#define _DEFAULT_SOURCE /* for MAP_ANONYMOUS */

#include "dbm0.h"
#include "dbm0_pattern.h"
#include "expect.h"

#include <inttypes.h>
#include <stdio.h>
#include <string.h>
#include <sys/mman.h>

static void compare(dbm0_module_answer is, uint64_t number, uint64_t place, int line)
{
    char what[200];
    snprintf(what, sizeof what,
             "gives %" PRIu64 " at %" PRIu64 ", expected %" PRIu64 " at %" PRIu64,
             (uint64_t)is.number, (uint64_t)is.place, number, place);
    count(is.number == number && is.place == place, line, what);
}

/* Memory that ends where no byte can be read. */
enum { PAGE = 4096, PAGES = 8 };
static uint8_t *memory;

static int make_memory(void)
{
    memory = mmap(NULL, (PAGES + 1) * PAGE, PROT_READ | PROT_WRITE, MAP_PRIVATE | MAP_ANONYMOUS,
                  -1, 0);
    return memory != MAP_FAILED && mprotect(memory + PAGES * PAGE, PAGE, PROT_NONE) == 0;
}

/* The module ends at the end of the memory. */
static void check(int line, const char *module, size_t length, uint64_t number, uint64_t place)
{
    uint8_t *given = memory + PAGES * PAGE - length;
    memcpy(given, module, length);
    compare(dbm0_check_module(given, length), number, place, line);
    if (memcmp(given, module, length) != 0)
        count(0, line, "the module is changed");
}

/* A module that is written as one string literal. */
#define CHECK(module, number, place) \
    check(__LINE__, (module), sizeof(module) - 1, (number), (place))
#define ACCEPTS(module) CHECK(module, 0, 0)

#define ZEROS_4 "\0\0\0\0"
#define ZEROS_20 ZEROS_4 ZEROS_4 ZEROS_4 ZEROS_4 ZEROS_4
#define ZEROS_44 ZEROS_20 ZEROS_20 ZEROS_4
#define ZEROS_100 ZEROS_20 ZEROS_20 ZEROS_20 ZEROS_20 ZEROS_20

#define HEADER "DBM0" "\x03\0\0\0"

/* INFO with four zeros and 4 tracks, and the other mandatory chunks without a block. */
#define INFO_0 "INFO" "\0\0\0\x0A" "\0\0\0\0\0\0\0\0\0\x04"
#define SONG_0 "SONG" ZEROS_4
#define INST_0 "INST" ZEROS_4
#define PATT_0 "PATT" ZEROS_4
#define SMPL_0 "SMPL" ZEROS_4
#define SMALLEST HEADER INFO_0 SONG_0 INST_0 PATT_0 SMPL_0

/* A module with only patterns, or with one. PATT is at 42, and its first block at 50. */
#define PATTERNS(number, tracks, length, blocks) \
    HEADER "INFO" "\0\0\0\x0A" "\0\0\0\0\0\0" number tracks \
    SONG_0 INST_0 "PATT" length blocks SMPL_0
#define PATTERN(tracks, length, block) PATTERNS("\0\x01", tracks, length, block)

/*
 * All chunks, with one block each.
 *
 *      8 INFO   16 instruments, 18 samples, 20 songs, 22 patterns, 24 tracks
 *     26 SONG   34 name, 78 length, 80 the only entry
 *     82 INST   90 block, 120 sample, 122 volume, 124 rate, 128 loop start,
 *               132 loop length, 136 panning, 138 flags
 *    140 PATT   148 block with its rows, 150 packed length, 154 a row end,
 *               155 filler
 *    156 SMPL   164 flags, 168 frames, 172 frames
 *    272 VENV   280 count, 282 instrument, 284 flags, 285 sections, 286 S1,
 *               287 L1, 288 L2, 289 S2, 292 first value, 296 second
 *    418 PENV   426 count, 428 instrument, 430 flags, 431 sections, 432 S1,
 *               433 L1, 434 L2, 435 S2, 438 first value, 442, 446, 450
 *    564 NAME
 *    616 DSPE   624 three bytes of data, to 627
 */
#define INFO_1 "INFO" "\0\0\0\x0A" "\0\x01" "\0\x01" "\0\x01" "\0\x01" "\0\x04"
#define SONG_OF(entry) "SONG" "\0\0\0\x30" ZEROS_44 "\0\x01" entry
#define SONG_1 SONG_OF("\0\0")
#define INST_1 \
    "INST" "\0\0\0\x32" ZEROS_20 "\0\0\0\0\0\0\0\0\0\0" \
    "\0\x01" "\0\x40" "\0\0\x20\xAB" "\0\0\0\0" "\0\0\0\0" "\0\0" "\0\0"
#define PATT_1 "PATT" "\0\0\0\x08" "\0\x01" "\0\0\0\x01" "\0" "\0"
#define SMPL_1 "SMPL" "\0\0\0\x6C" "\0\0\0\x01" "\0\0\0\x64" ZEROS_100
#define VENV_OF(instrument) \
    "VENV" "\0\0\0\x8A" "\0\x01" instrument "\0" "\x01" "\0" "\0" "\0" "\0" \
    "\0\0\0\x40" "\0\x05\0\0" ZEROS_100 ZEROS_20
#define VENV_1 VENV_OF("\0\x01")
#define PENV_1 \
    "PENV" "\0\0\0\x8A" "\0\x01" "\0\x01" "\0" "\x02" "\0" "\0" "\0" "\0" \
    "\0\0\0\0" "\0\x05\0\x20" "\0\x09\0\x40" ZEROS_100 "\0\0\0\0" "\0\0\0\0" "\0\0\0\0" "\0\0\0\0"
#define NAME_1 "NAME" "\0\0\0\x2C" ZEROS_44
#define DSPE_1 "DSPE" "\0\0\0\x03" "abc"
#define WHOLE HEADER INFO_1 SONG_1 INST_1 PATT_1 SMPL_1 VENV_1 PENV_1 NAME_1 DSPE_1

/*
 * The whole module with some bytes changed: PUT as often as needed, then GIVES,
 * which compares the answer of the check and restores the module.
 */
static char edited[sizeof(WHOLE)] = WHOLE;

static void put(size_t place, const char *bytes, size_t length)
{
    memcpy(edited + place, bytes, length);
}

static void gives(int line, uint64_t number, uint64_t place)
{
    check(line, edited, sizeof edited - 1, number, place);
    memcpy(edited, WHOLE, sizeof edited);
}

#define PUT(place, bytes) put((place), (bytes), sizeof(bytes) - 1)
#define GIVES(number, place) gives(__LINE__, (number), (place))

static void accepted(void)
{
    HOLDS(sizeof(SMALLEST) - 1 == 58);
    HOLDS(sizeof(WHOLE) - 1 == 627);
    ACCEPTS(SMALLEST);
    ACCEPTS(WHOLE);
    /* Version, both digits of the revision, the reserved word. */
    PUT(4, "\x02"), GIVES(0, 0);
    PUT(5, "\x99"), GIVES(0, 0);
    PUT(6, "\xFF\xFF"), GIVES(0, 0);
    /* Tracks. */
    PUT(24, "\0\xFE"), GIVES(0, 0);
    PUT(24, "\0\x06"), GIVES(0, 0);
    /* The filler. */
    PUT(155, "\xFF"), GIVES(0, 0);
    /* INFO before the four others; otherwise any order. Other chunks may repeat and be empty. */
    ACCEPTS(HEADER PENV_1 DSPE_1 VENV_1 INFO_1 SMPL_1 PATT_1 DSPE_1 INST_1 NAME_1 SONG_1);
    ACCEPTS(HEADER "PNAM" ZEROS_4 NAME_1 "PNAM" ZEROS_4 INFO_0 SMPL_0 PATT_0 INST_0 SONG_0);
    /* Envelope chunks without an envelope. */
    ACCEPTS(SMALLEST "VENV" "\0\0\0\x02" "\0\0" "PENV" "\0\0\0\x02" "\0\0");
}

/* 1: more than 16,777,216 bytes. */
static void too_long(void)
{
    static uint8_t large[16777217];
    static const char beginning[] = SMALLEST "LONG" "\0\xFF\xFF\xBE";

    compare(dbm0_check_module(large, 16777217), 1, 0, __LINE__);
    compare(dbm0_check_module(large, 16777216), 2, 0, __LINE__);
    memcpy(large, beginning, sizeof beginning - 1);
    compare(dbm0_check_module(large, 16777215), 4, 58, __LINE__);
    compare(dbm0_check_module(large, 16777216), 0, 0, __LINE__);
    compare(dbm0_check_module(large, 16777217), 1, 0, __LINE__);
}

/* 2: fewer than 8 bytes, or not DBM0. */
static void not_a_module(void)
{
    compare(dbm0_check_module(NULL, 0), 2, 0, __LINE__);
    CHECK("", 2, 0);
    CHECK("D", 2, 0);
    CHECK("DBM0\x03\0\0", 2, 0);
    CHECK("DBM1" "\x03\0\0\0", 2, 0);
    CHECK("dbm0" "\x03\0\0\0", 2, 0);
    PUT(0, "\0"), GIVES(2, 0);
    PUT(3, "O"), GIVES(2, 0);
    /* Has priority over 3. */
    CHECK("DBM1" "\x07\0\0\0", 2, 0);
}

/* 3: version or revision. */
static void unknown_version(void)
{
    PUT(4, "\0"), GIVES(3, 4);
    PUT(4, "\x01"), GIVES(3, 4);
    PUT(4, "\x04"), GIVES(3, 4);
    PUT(4, "\x20"), GIVES(3, 4);
    PUT(4, "\x30"), GIVES(3, 4);
    PUT(5, "\x0A"), GIVES(3, 4);
    PUT(5, "\xA0"), GIVES(3, 4);
    PUT(5, "\xFF"), GIVES(3, 4);
    /* Has priority over 4. */
    CHECK("DBM0" "\x01\0\0\0" "I", 3, 4);
}

/* 4: the header or the data of a chunk is cut. */
static void cut_chunk(void)
{
    CHECK(SMALLEST "A", 4, 58);
    CHECK(SMALLEST "ABCD", 4, 58);
    CHECK(SMALLEST "ABCD" "\0\0\0", 4, 58);
    /* Whatever the letters are. */
    CHECK(SMALLEST "\0", 4, 58);
    CHECK(SMALLEST "abcdefg", 4, 58);
    CHECK(SMALLEST "ABCD" "\0\0\0\x01", 4, 58);
    CHECK(SMALLEST "ABCD" "\xFF\xFF\xFF\xFF" "abc", 4, 58);
    CHECK(SMALLEST "ABCD" "\xFF\xFF\xFF\xF8", 4, 58);
    check(__LINE__, WHOLE, 626, 4, 616);
    check(__LINE__, WHOLE, 623, 4, 616);
    check(__LINE__, WHOLE, 81, 4, 26);
    /* A length that leads to a header that is followed by too few bytes. */
    PUT(623, "\x02"), GIVES(4, 626);
    /* Has priority over 6 and 7. */
    CHECK(SMALLEST "INFO" "\0\0\0\x01", 4, 58);
    CHECK(HEADER "SONG" "\0\0\0\x01", 4, 8);
}

/* 5: an identifier is not four letters A to Z. */
static void wrong_identifier(void)
{
    CHECK(SMALLEST "ABCd" ZEROS_4, 5, 58);
    CHECK(SMALLEST "AB D" ZEROS_4, 5, 58);
    CHECK(SMALLEST "@BCD" ZEROS_4, 5, 58);
    CHECK(SMALLEST "A[CD" ZEROS_4, 5, 58);
    CHECK(SMALLEST "\0\0\0\0" ZEROS_4, 5, 58);
    CHECK(SMALLEST "ABC\xC1" ZEROS_4, 5, 58);
    ACCEPTS(SMALLEST "AZZA" ZEROS_4);
    PUT(8, "Info"), GIVES(5, 8);
    /* Also if the data runs past the end. */
    CHECK(SMALLEST "ABC1" "\xFF\xFF\xFF\xFF", 5, 58);
    /* A fault in an earlier chunk has priority over one in a later chunk. */
    CHECK(HEADER SONG_0 "inst" ZEROS_4, 7, 8);
}

/* 6: a covered chunk occurs a second time. */
static void repeated(void)
{
    CHECK(SMALLEST NAME_1 NAME_1, 6, 110);
    CHECK(SMALLEST INFO_0, 6, 58);
    CHECK(SMALLEST SONG_0, 6, 58);
    CHECK(SMALLEST INST_0, 6, 58);
    CHECK(SMALLEST PATT_0, 6, 58);
    CHECK(SMALLEST SMPL_0, 6, 58);
    CHECK(WHOLE VENV_1, 6, 627);
    CHECK(WHOLE PENV_1, 6, 627);
    ACCEPTS(WHOLE DSPE_1);
    /* Has priority over 9 and over the fault of a later chunk. */
    CHECK(SMALLEST "INFO" ZEROS_4, 6, 58);
    CHECK(SMALLEST SONG_0 "song" ZEROS_4, 6, 58);
}

/* 7: SONG, INST, PATT or SMPL before INFO. */
static void before_info(void)
{
    CHECK(HEADER SONG_0 INFO_0 INST_0 PATT_0 SMPL_0, 7, 8);
    CHECK(HEADER INST_0 INFO_0 SONG_0 PATT_0 SMPL_0, 7, 8);
    CHECK(HEADER PATT_0 INFO_0 SONG_0 INST_0 SMPL_0, 7, 8);
    CHECK(HEADER SMPL_0 INFO_0 SONG_0 INST_0 PATT_0, 7, 8);
    CHECK(HEADER NAME_1 SMPL_0, 7, 60);
    /* Also if there is no INFO at all. */
    CHECK(HEADER SONG_0, 7, 8);
}

/* 8: a mandatory chunk is missing. */
static void missing_chunk(void)
{
    CHECK(HEADER, 8, 8);
    CHECK(HEADER DSPE_1, 8, 19);
    CHECK(HEADER INFO_0, 8, 26);
    CHECK(HEADER INFO_0 INST_0 PATT_0 SMPL_0, 8, 50);
    CHECK(HEADER INFO_0 SONG_0 PATT_0 SMPL_0, 8, 50);
    CHECK(HEADER INFO_0 SONG_0 INST_0 SMPL_0, 8, 50);
    CHECK(HEADER INFO_0 SONG_0 INST_0 PATT_0, 8, 50);
    /* Has priority over 11: INFO has a song. */
    CHECK(HEADER INFO_1 SONG_0 INST_0 PATT_0, 8, 50);
}

/* 9: the length of NAME or INFO. */
static void wrong_length(void)
{
    CHECK(SMALLEST "NAME" "\0\0\0\x2B" ZEROS_20 ZEROS_20 "\0\0\0", 9, 58);
    CHECK(SMALLEST "NAME" "\0\0\0\x2D" ZEROS_44 "\0", 9, 58);
    CHECK(SMALLEST "NAME" ZEROS_4, 9, 58);
    CHECK(HEADER "INFO" "\0\0\0\x09" "\0\0\0\0\0\0\0\0\x04", 9, 8);
    CHECK(HEADER "INFO" "\0\0\0\x0B" "\0\0\0\0\0\0\0\0\0\x04\0" SONG_0 INST_0 PATT_0 SMPL_0, 9, 8);
    CHECK(HEADER "INFO" ZEROS_4, 9, 8);
    /* Has priority over 10. */
    CHECK(HEADER "INFO" "\0\0\0\x0B" "\xFF\xFF\xFF\xFF\xFF\xFF\xFF\xFF\xFF\xFF\xFF", 9, 8);
}

/* 10: a number of INFO is out of range. */
static void wrong_info(void)
{
    PUT(16, "\x01\0"), GIVES(10, 16);
    PUT(18, "\x01\0"), GIVES(10, 18);
    PUT(20, "\x80\0"), GIVES(10, 20);
    PUT(22, "\x04\x01"), GIVES(10, 22);
    PUT(24, "\0\0"), GIVES(10, 24);
    PUT(24, "\0\x02"), GIVES(10, 24);
    PUT(24, "\0\x05"), GIVES(10, 24);
    PUT(24, "\0\xFF"), GIVES(10, 24);
    PUT(24, "\x01\0"), GIVES(10, 24);
    PUT(24, "\x01\x04"), GIVES(10, 24);
    /* The lowest offset first. */
    PUT(16, "\xFF\xFF\xFF\xFF\xFF\xFF\xFF\xFF\xFF\xFF"), GIVES(10, 16);
    PUT(20, "\xFF\xFF\xFF\xFF\xFF\xFF"), GIVES(10, 20);
    /* At the upper limits: then the blocks are missing. */
    PUT(16, "\0\xFF"), GIVES(11, 82);
    PUT(18, "\0\xFF"), GIVES(11, 156);
    PUT(20, "\x7F\xFF"), GIVES(11, 26);
    PUT(22, "\x04\0"), GIVES(11, 140);
    /* A fault in an earlier chunk has priority, one in a later chunk does not. */
    CHECK(HEADER "info" ZEROS_4 "INFO" "\0\0\0\x0A" ZEROS_4 ZEROS_4 "\0\0", 5, 8);
    CHECK(HEADER "INFO" "\0\0\0\x0A" ZEROS_4 ZEROS_4 "\0\0" "info" ZEROS_4, 10, 24);
}

/* 11: the blocks do not fill the chunk, or a sample's flags are invalid. */
static void wrong_blocks(void)
{
    /* Too many blocks, and too few. */
    PUT(16, "\0\0"), GIVES(11, 82);
    PUT(16, "\0\x02"), GIVES(11, 82);
    PUT(18, "\0\0"), GIVES(11, 156);
    PUT(18, "\0\x02"), GIVES(11, 156);
    PUT(20, "\0\0"), GIVES(11, 26);
    PUT(20, "\0\x02"), GIVES(11, 26);
    PUT(22, "\0\0"), GIVES(11, 140);
    PUT(22, "\0\x02"), GIVES(11, 140);
    /* The lengths in the blocks. */
    PUT(78, "\0\0"), GIVES(11, 26);
    PUT(78, "\0\x02"), GIVES(11, 26);
    PUT(78, "\xFF\xFF"), GIVES(11, 26);
    PUT(150, "\0\0\0\0"), GIVES(11, 140);
    PUT(150, "\0\0\0\x03"), GIVES(11, 140);
    PUT(150, "\xFF\xFF\xFF\xFF"), GIVES(11, 140);
    PUT(168, "\0\0\0\x63"), GIVES(11, 156);
    PUT(168, "\0\0\0\x65"), GIVES(11, 156);
    PUT(168, "\xFF\xFF\xFF\xFF"), GIVES(11, 156);
    /* 50 frames of 16 bits, 25 of 32. */
    PUT(164, "\0\0\0\x02\0\0\0\x32"), GIVES(0, 0);
    PUT(164, "\0\0\0\x04\0\0\0\x19"), GIVES(0, 0);
    PUT(164, "\0\0\0\x04\x40\0\0\x19"), GIVES(11, 156);
    PUT(164, "\0\0\0\0"), GIVES(11, 156);
    PUT(164, "\0\0\0\x03"), GIVES(11, 156);
    PUT(164, "\0\0\0\x05"), GIVES(11, 156);
    PUT(164, "\x01\0\0\x01"), GIVES(11, 156);
    /* A count of envelopes, and a chunk that is too short for one. */
    PUT(280, "\0\0"), GIVES(11, 272);
    PUT(280, "\0\x02"), GIVES(11, 272);
    PUT(426, "\xFF\xFF"), GIVES(11, 418);
    CHECK(SMALLEST "VENV" ZEROS_4, 11, 58);
    CHECK(SMALLEST "PENV" "\0\0\0\x01" "\0", 11, 58);
    CHECK(SMALLEST "VENV" "\0\0\0\x03" "\0\0\0", 11, 58);
    /* The filler is missing. */
    CHECK(PATTERN("\0\x04", "\0\0\0\x07", "\0\x01" "\0\0\0\x01" "\0"), 11, 42);
    ACCEPTS(PATTERN("\0\x04", "\0\0\0\x08", "\0\x01" "\0\0\0\x01" "\0" "\0"));
    /* SONG, INST, PATT, SMPL, VENV, PENV in this order, wherever they are: PENV at 8, VENV at 16. */
    CHECK(HEADER "PENV" ZEROS_4 "VENV" ZEROS_4 INFO_1 SMPL_0 PATT_0 INST_0 SONG_0, 11, 66);
    CHECK(HEADER "PENV" ZEROS_4 "VENV" ZEROS_4 INFO_1 SMPL_0 PATT_0 INST_0 SONG_1, 11, 58);
    CHECK(HEADER "PENV" ZEROS_4 "VENV" ZEROS_4 INFO_1 SMPL_0 PATT_0 INST_1 SONG_1, 11, 50);
    CHECK(HEADER "PENV" ZEROS_4 "VENV" ZEROS_4 INFO_1 SMPL_0 PATT_1 INST_1 SONG_1, 11, 42);
    CHECK(HEADER "PENV" ZEROS_4 "VENV" ZEROS_4 INFO_1 SMPL_1 PATT_1 INST_1 SONG_1, 11, 16);
    CHECK(HEADER "PENV" ZEROS_4 INFO_1 SMPL_1 PATT_1 INST_1 SONG_1, 11, 8);
    /* Has priority over 12. */
    PUT(80, "\0\x01"), PUT(426, "\0\0"), GIVES(11, 418);
}

/* 12: a playlist entry, a sample or an envelope's instrument does not exist. */
static void wrong_reference(void)
{
    PUT(80, "\0\x01"), GIVES(12, 80);
    PUT(80, "\xFF\xFF"), GIVES(12, 80);
    PUT(120, "\0\0"), GIVES(0, 0);
    PUT(120, "\0\x02"), GIVES(12, 120);
    PUT(120, "\x01\x01"), GIVES(12, 120);
    PUT(282, "\0\0"), GIVES(12, 282);
    PUT(282, "\0\x02"), GIVES(12, 282);
    PUT(428, "\0\0"), GIVES(12, 428);
    PUT(428, "\x01\x01"), GIVES(12, 428);
    /* By field, together with 13: SONG, INST, VENV, PENV. */
    PUT(80, "\0\x01"), PUT(122, "\0\x41"), PUT(428, "\0\0"), GIVES(12, 80);
    PUT(122, "\0\x41"), PUT(282, "\0\0"), GIVES(13, 122);
    PUT(284, "\xFF"), PUT(428, "\0\0"), GIVES(13, 284);
    /* The order of the chunks has no effect: VENV is at 8, INST at 318, SONG at 376. */
    CHECK(HEADER VENV_OF("\0\x02") PENV_1 INFO_1 INST_1 SONG_1 PATT_1 SMPL_1, 12, 18);
    CHECK(HEADER VENV_OF("\0\x02") PENV_1 INFO_1 INST_1 SONG_OF("\0\x01") PATT_1 SMPL_1, 12, 430);
    /* Has priority over 14. */
    PUT(132, "\0\0\0\x65"), PUT(138, "\0\x01"), PUT(428, "\0\0"), GIVES(12, 428);
}

/* 13: another field is out of range. */
static void wrong_field(void)
{
    PUT(122, "\0\x40"), GIVES(0, 0);
    PUT(122, "\0\x41"), GIVES(13, 122);
    PUT(122, "\x01\0"), GIVES(13, 122);
    PUT(136, "\0\x80"), GIVES(0, 0);
    PUT(136, "\xFF\x80"), GIVES(0, 0);
    PUT(136, "\0\x81"), GIVES(13, 136);
    PUT(136, "\xFF\x7F"), GIVES(13, 136);
    PUT(136, "\x80\0"), GIVES(13, 136);
    /* The panning of an instrument is not scaled in version 2. */
    PUT(4, "\x02"), PUT(136, "\xFF\x80"), GIVES(0, 0);
    PUT(4, "\x02"), PUT(136, "\0\x81"), GIVES(13, 136);
    PUT(138, "\0\x03"), GIVES(0, 0);
    PUT(138, "\0\x04"), GIVES(13, 138);
    PUT(138, "\x80\x01"), GIVES(13, 138);
    /* An envelope's flags and sections. */
    PUT(284, "\x10"), GIVES(13, 284);
    PUT(284, "\x80"), GIVES(13, 284);
    PUT(285, "\x1F"), GIVES(0, 0);
    PUT(285, "\x20"), GIVES(13, 285);
    PUT(285, "\xFF"), GIVES(13, 285);
    /* S1, L1, L2 and S2 with one section, each checked only if its bit is set. */
    PUT(286, "\xFF\xFF\xFF\xFF"), GIVES(0, 0);
    PUT(284, "\x01"), PUT(286, "\xFF\xFF\xFF\xFF"), GIVES(0, 0);
    PUT(284, "\x0F"), PUT(286, "\x01\x01\x01\x01"), GIVES(0, 0);
    PUT(284, "\x02"), PUT(286, "\x02\xFF\xFF\xFF"), GIVES(13, 286);
    PUT(284, "\x04"), PUT(286, "\xFF\x02\x02\xFF"), GIVES(13, 287);
    PUT(284, "\x04"), PUT(286, "\xFF\0\x02\xFF"), GIVES(13, 288);
    PUT(284, "\x04"), PUT(286, "\xFF\x01\0\xFF"), GIVES(13, 288);
    PUT(284, "\x08"), PUT(286, "\xFF\xFF\xFF\x02"), GIVES(13, 289);
    PUT(430, "\x0F"), PUT(432, "\x03\x03\x03\x03"), GIVES(13, 432);
    PUT(430, "\x0D"), PUT(432, "\x03\x02\x01\x03"), GIVES(13, 434);
    PUT(430, "\x08"), PUT(432, "\x03\x03\x03\x03"), GIVES(13, 435);
    /* Values of the points in use, sections + 1, also if the envelope is off. */
    PUT(292, "\0\x41"), GIVES(13, 292);
    PUT(296, "\0\x41"), GIVES(13, 296);
    PUT(296, "\xFF\xFF"), GIVES(13, 296);
    PUT(300, "\xFF\xFF"), GIVES(0, 0);
    PUT(285, "\x1F"), PUT(416, "\0\x40"), GIVES(0, 0);
    PUT(285, "\x1F"), PUT(416, "\0\x41"), GIVES(13, 416);
    /* Positions are not examined. */
    PUT(290, "\xFF\xFF"), PUT(294, "\xFF\xFF"), PUT(436, "\xFF\xFF"), GIVES(0, 0);
    /* Panning values in version 3 are signed. */
    PUT(438, "\0\x80\0\0\xFF\x80"), GIVES(0, 0);
    PUT(438, "\0\x81"), GIVES(13, 438);
    PUT(442, "\xFF\x7F"), GIVES(13, 442);
    PUT(446, "\x80\0"), GIVES(13, 446);
    PUT(450, "\x80\0"), GIVES(0, 0);
    /* P11: in version 2 they are 0 to 64. */
    PUT(4, "\x02"), PUT(438, "\0\0"), PUT(442, "\0\x20"), PUT(446, "\0\x40"), GIVES(0, 0);
    PUT(4, "\x02"), PUT(438, "\0\x41"), GIVES(13, 438);
    PUT(4, "\x02"), PUT(446, "\0\x41"), GIVES(13, 446);
    PUT(4, "\x02"), PUT(442, "\xFF\xFF"), GIVES(13, 442);
    PUT(4, "\x02"), PUT(450, "\0\x41"), GIVES(0, 0);
    /* Has priority over 14 and 15. */
    PUT(132, "\0\0\0\x65"), PUT(138, "\0\x01"), PUT(446, "\x01\0"), GIVES(13, 446);
    PUT(154, "\x01"), PUT(446, "\x01\0"), GIVES(13, 446);
}

/* 14: a loop is outside its sample, which has 100 frames. */
static void loop_outside(void)
{
    /* P10: 90 + 10, 90 + 11, 4,294,967,295 + 2. */
    PUT(128, "\0\0\0\x5A\0\0\0\x0A"), PUT(138, "\0\x01"), GIVES(0, 0);
    PUT(128, "\0\0\0\x5A\0\0\0\x0B"), PUT(138, "\0\x01"), GIVES(14, 90);
    PUT(128, "\xFF\xFF\xFF\xFF\0\0\0\x02"), PUT(138, "\0\x01"), GIVES(14, 90);
    /* Ping-pong, both bits, and no loop. */
    PUT(128, "\0\0\0\x5A\0\0\0\x0B"), PUT(138, "\0\x02"), GIVES(14, 90);
    PUT(128, "\0\0\0\x5A\0\0\0\x0B"), PUT(138, "\0\x03"), GIVES(14, 90);
    PUT(128, "\0\0\0\x5A\0\0\0\x0A"), PUT(138, "\0\x03"), GIVES(0, 0);
    PUT(128, "\xFF\xFF\xFF\xFF\xFF\xFF\xFF\xFF"), GIVES(0, 0);
    PUT(128, "\xFF\xFF\xFF\xFF\0\0\0\0"), PUT(138, "\0\x01"), GIVES(0, 0);
    PUT(128, "\0\0\0\0\0\0\0\x64"), PUT(138, "\0\x01"), GIVES(0, 0);
    PUT(128, "\0\0\0\x64\0\0\0\x01"), PUT(138, "\0\x01"), GIVES(14, 90);
    PUT(128, "\xFF\xFF\xFF\xFF\xFF\xFF\xFF\xFF"), PUT(138, "\0\x01"), GIVES(14, 90);
    /* Frames, not bytes: 25 frames of 32 bits. */
    PUT(164, "\0\0\0\x04\0\0\0\x19"), PUT(132, "\0\0\0\x19"), PUT(138, "\0\x01"), GIVES(0, 0);
    PUT(164, "\0\0\0\x04\0\0\0\x19"), PUT(132, "\0\0\0\x1A"), PUT(138, "\0\x01"), GIVES(14, 90);
    /* An instrument with a loop but without a sample. */
    PUT(120, "\0\0"), PUT(132, "\0\0\0\x01"), PUT(138, "\0\x01"), GIVES(14, 90);
    /* Has priority over 15. */
    PUT(132, "\0\0\0\x65"), PUT(138, "\0\x01"), PUT(154, "\x01"), GIVES(14, 90);
}

/* 15: a packed stream is broken. */
static void broken_stream(void)
{
    static const uint8_t fifth[] = {0x05, 0x01, 0x47, 0x00};
    dbm0_pattern_answer alone = dbm0_check_pattern(fifth, sizeof fifth, 1, 4);

    PUT(154, "\x01"), GIVES(15, 148);
    PUT(148, "\0\0"), GIVES(15, 148);
    PUT(148, "\0\x02"), GIVES(15, 148);
    /* P6: 0 rows, no bytes. */
    ACCEPTS(PATTERN("\0\x04", "\0\0\0\x06", "\0\0" ZEROS_4));
    CHECK(PATTERN("\0\x04", "\0\0\0\x08", "\0\0" "\0\0\0\x01" "\0" "\0"), 15, 50);
    /* P7: with 4 tracks, and with 6. The place in the stream is reported only for the stream alone. */
    CHECK(PATTERN("\0\x04", "\0\0\0\x0A", "\0\x01" "\0\0\0\x04" "\x05\x01\x47\0"), 15, 50);
    ACCEPTS(PATTERN("\0\x06", "\0\0\0\x0A", "\0\x01" "\0\0\0\x04" "\x05\x01\x47\0"));
    HOLDS(alone.number == 15 && alone.place == 0);
    /* P8: bit 6 of a mask is ignored, and so is bit 7. P9: 2 rows, one row end. */
    ACCEPTS(PATTERN("\0\x04", "\0\0\0\x0A", "\0\x01" "\0\0\0\x04" "\x01\x41\x47\0"));
    ACCEPTS(PATTERN("\0\x04", "\0\0\0\x0A", "\0\x01" "\0\0\0\x04" "\x01\x81\x47\0"));
    ACCEPTS(PATTERN("\0\x04", "\0\0\0\x0A", "\0\x01" "\0\0\0\x03" "\x01\xC0\0" "\0"));
    CHECK(PATTERN("\0\x04", "\0\0\0\x08", "\0\x01" "\0\0\0\x02" "\x01\xC0"), 15, 50);
    CHECK(PATTERN("\0\x04", "\0\0\0\x08", "\0\x01" "\0\0\0\x02" "\x01\x41"), 15, 50);
    CHECK(PATTERN("\0\x04", "\0\0\0\x0A", "\0\x01" "\0\0\0\x03" "\x05\xC0\0" "\0"), 15, 50);
    CHECK(PATTERN("\0\x04", "\0\0\0\x08", "\0\x02" "\0\0\0\x01" "\0" "\0"), 15, 50);
    /* The filler is not a row end, and the packed length does not include it. */
    CHECK(PATTERN("\0\x04", "\0\0\0\x08", "\0\x01" "\0\0\0\x02" "\0" "\0"), 15, 50);
    /* The first broken stream of three: blocks at 50, 58 and 66. */
    ACCEPTS(PATTERNS("\0\x03", "\0\x04", "\0\0\0\x18", "\0\x01" "\0\0\0\x01" "\0" "\x01"
                     "\0\x02" "\0\0\0\x02" "\0" "\0" "\0\x01" "\0\0\0\x01" "\0" "\x02"));
    CHECK(PATTERNS("\0\x03", "\0\x04", "\0\0\0\x18", "\0\x01" "\0\0\0\x01" "\0" "\x01"
                   "\0\x01" "\0\0\0\x02" "\0" "\0" "\0\x01" "\0\0\0\x01" "\x02" "\x02"), 15, 58);
    CHECK(PATTERNS("\0\x03", "\0\x04", "\0\0\0\x18", "\0\x01" "\0\0\0\x01" "\0" "\x01"
                   "\0\x02" "\0\0\0\x02" "\0" "\0" "\0\x01" "\0\0\0\x01" "\x02" "\x02"), 15, 66);
}

/* Each of the 256 masks in the only entry of a row. Its fields, and the row end after them, are zeros. */
static void every_mask(void)
{
    unsigned mask, fields, bit;

    for (mask = 0; mask < 256; mask++) {
        char given[] = PATTERN("\0\x04", "\0\0\0\x10", "\0\x01" "\0\0\0\x09" "\x03\0" "\0\0\0\0\0\0\0" "\0");

        for (bit = fields = 0; bit < 6; bit++)
            fields += mask >> bit & 1;
        given[57] = (char)mask;
        /* With all six fields the stream is accepted, otherwise bytes are left over. */
        check(__LINE__, given, sizeof given - 1, fields == 6 ? 0 : 15, fields == 6 ? 0 : 50);
        /* One row end for each byte that is not a field. */
        given[51] = (char)(7 - fields);
        check(__LINE__, given, sizeof given - 1, 0, 0);
        given[51] = (char)(8 - fields);
        check(__LINE__, given, sizeof given - 1, 15, 50);
    }
}

/*
 * The data of samples and of other chunks is not read: here it is memory that
 * cannot be read. DSPE fills three pages, and its data begins after the first
 * 16 bytes. It is followed by 108 bytes, and by frames up to the memory's end.
 */
static void not_read(void)
{
    static const char first[] = HEADER "DSPE" "\0\0\x2F\xF0";
    static const char second[] = "INFO" "\0\0\0\x0A" "\0\x01" "\0\x01" "\0\0" "\0\0" "\0\x04"
        SONG_0 "INST" "\0\0\0\x32" ZEROS_20 ZEROS_4 ZEROS_4 "\0\0"
        "\0\x01" "\0\x40" ZEROS_4 "\0\0\0\0" "\0\0\x4F\x94" "\0\0" "\0\x01"
        PATT_0 "SMPL" "\0\0\x4F\x9C" "\0\0\0\x01" "\0\0\x4F\x94";

    HOLDS(sizeof first - 1 == 16);
    HOLDS(sizeof second - 1 == 108);
    memcpy(memory, first, sizeof first - 1);
    memcpy(memory + 3 * PAGE, second, sizeof second - 1);
    HOLDS(mprotect(memory + PAGE, 2 * PAGE, PROT_NONE) == 0);
    HOLDS(mprotect(memory + 4 * PAGE, 4 * PAGE, PROT_NONE) == 0);
    compare(dbm0_check_module(memory, 8 * PAGE), 0, 0, __LINE__);
    /* The loop is one frame longer. Its instrument is at 12,288 + 18 + 8 + 8. */
    memory[3 * PAGE + 34 + 45]++;
    compare(dbm0_check_module(memory, 8 * PAGE), 14, 12322, __LINE__);
}

static void macros(void)
{
    HOLDS(DBM0_VERSION >= 10000);
    HOLDS(DBM0_MODULE_MOST_BYTES == 16777216);
    HOLDS(DBM0_MODULE_OK == 0);
    HOLDS(DBM0_MODULE_TOO_LONG == 1);
    HOLDS(DBM0_MODULE_NOT_DBM0 == 2);
    HOLDS(DBM0_MODULE_VERSION == 3);
    HOLDS(DBM0_MODULE_CHUNK_CUT == 4);
    HOLDS(DBM0_MODULE_IDENTIFIER == 5);
    HOLDS(DBM0_MODULE_CHUNK_REPEATED == 6);
    HOLDS(DBM0_MODULE_BEFORE_INFO == 7);
    HOLDS(DBM0_MODULE_CHUNK_MISSING == 8);
    HOLDS(DBM0_MODULE_CHUNK_LENGTH == 9);
    HOLDS(DBM0_MODULE_INFO_RANGE == 10);
    HOLDS(DBM0_MODULE_BLOCKS == 11);
    HOLDS(DBM0_MODULE_REFERENCE == 12);
    HOLDS(DBM0_MODULE_FIELD_RANGE == 13);
    HOLDS(DBM0_MODULE_LOOP == 14);
    HOLDS(DBM0_MODULE_STREAM_BROKEN == 15);
    HOLDS(DBM0_MODULE_STREAM_BROKEN == DBM0_PATTERN_STREAM_BROKEN);
    HOLDS(sizeof(dbm0_module_answer) == 16);
}

int main(void)
{
    setvbuf(stdout, NULL, _IOLBF, 0);
    if (!make_memory()) {
        printf("there is no memory for the tests\n");
        return 1;
    }
    accepted();
    too_long();
    not_a_module();
    unknown_version();
    cut_chunk();
    wrong_identifier();
    repeated();
    before_info();
    missing_chunk();
    wrong_length();
    wrong_info();
    wrong_blocks();
    wrong_reference();
    wrong_field();
    loop_outside();
    broken_stream();
    every_mask();
    macros();
    not_read();
    return counted();
}
