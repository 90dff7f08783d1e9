/*
 * Replacing a sample of a module with libdbm0.a, called from C, with
 * expectations typed by hand. It reads samples/carousel.dbm from the working
 * folder.
 *
 * Prints one line for each expectation that fails. The last line has the numbers
 * of passed and failed expectations. The exit status is 1 if any failed.
 */

#define _DEFAULT_SOURCE /* for MAP_ANONYMOUS */

#include "dbm0.h"
#include "expect.h"

/* The other arguments of the call, and the number of loops that it should clear if it does not refuse. */
static size_t sample;
static const uint8_t *frames;
static size_t frames_length;
static uint64_t cleared;

/* The call with these arguments. On a refusal no loop is cleared. */
static dbm0_length_answer replace(
    const uint8_t *module, size_t module_length, uint8_t *out, size_t out_length)
{
    dbm0_replace_answer answer = dbm0_replace_sample(
        module, module_length, sample, frames, frames_length, out, out_length);

    count(answer.cleared == (answer.number == 0 ? cleared : 0), __LINE__,
          "another number of cleared loops");
    return (dbm0_length_answer){answer.number, answer.place, answer.length};
}

#define WRITING_CALL replace
#define ENOUGH(length) ((length) + frames_length)
#define CHANGED_ROOMS {0, 1, 363, 364, 368, 500}
#include "writing.h"

/* Memory for frames, followed by a page that can be neither read nor written. */
enum { FRAMES = 2 * PAGE };
static uint8_t *frames_memory;

static int make_frames_memory(void)
{
    frames_memory = mmap(NULL, FRAMES + PAGE, PROT_READ | PROT_WRITE,
                         MAP_PRIVATE | MAP_ANONYMOUS, -1, 0);
    return frames_memory != MAP_FAILED && mprotect(frames_memory + FRAMES, PAGE, PROT_NONE) == 0;
}

/* Sets the arguments. The frames end at the end of their memory. */
static void replace_by(size_t number, const char *bytes, size_t bytes_length, uint64_t loops)
{
    uint8_t *loaded = frames_memory + FRAMES - bytes_length;

    memcpy(loaded, bytes, bytes_length);
    sample = number;
    frames = loaded;
    frames_length = bytes_length;
    cleared = loops;
}

/* With these frames the module `before` becomes `after`, which is accepted. The frames are unchanged. */
static void becomes(
    const char *before, size_t before_length, size_t number, const char *bytes,
    size_t bytes_length, const char *after, size_t after_length, uint64_t loops, int line)
{
    replace_by(number, bytes, bytes_length, loops);
    writes(before, before_length, after, after_length, line);
    count(memcmp(frames, bytes, bytes_length) == 0, line, "the frames are changed");
    load_module(after, after_length);
    count(dbm0_check_module(module, length).number == 0, line, "the output is refused");
}

#define BECOMES(before, number, bytes, after, loops) \
    becomes((before), sizeof(before) - 1, (number), (bytes), sizeof(bytes) - 1, \
            (after), sizeof(after) - 1, (loops), __LINE__)

/*
 * Five instruments and three samples, one pattern whose stream is not the
 * packer's, a filler that is not 0, and another chunk after the others. INST is
 * before SMPL, or SMPL before INST:
 *
 *      0 version 3, revision $05, reserved word $DEAD
 *      8 INFO   16 instruments, 18 samples, 20 songs, 22 patterns, 24 tracks
 *     26 SONG, empty
 *     34 INST   42 the first, 92 the second, 142 the third, 192 the fourth, 242
 *               the fifth
 *    292 PATT   300 the pattern, 7 bytes from 306, the filler at 313
 *    314 SMPL   322 the first (8 bits, 4 frames), 334 the second (32 bits, 2
 *               frames), 350 the third (16 bits, 1 frame)
 *    360 ZZZZ, no bytes, to 368
 */
#define INFO "INFO" "\0\0\0\x0A" "\0\x05" "\0\x03" "\0\0" "\0\x01" "\0\x04"
#define FRONT "DBM0" "\x03\x05\xDE\xAD" INFO "SONG" "\0\0\0\0"
#define PATT "PATT" "\0\0\0\x0E" "\0\x01" "\0\0\0\x07" "\x01\x01\x47\x01\x01\0\0" "\x77"
#define LAST "ZZZZ" "\0\0\0\0"
#define INST(first, second, third) "INST" "\0\0\0\xFA" first second third WILD NO_LENGTH
#define SMPL(length, blocks) "SMPL" "\0\0\0" length blocks
#define INST_FIRST(inst, smpl) FRONT inst PATT smpl LAST
#define SMPL_FIRST(inst, smpl) FRONT smpl PATT inst LAST

/* Name, sample, volume and rate; loop start and length; panning; flags. */
#define HEAD(name, of) name of "\0\x40" "\0\0\x20\xAB"
#define NO_LOOP "\0\0\0\0" "\0\0\0\0"
/* On sample 2: 0 + 2, forward. */
#define FIRST_HEAD HEAD("An instrument, of thirty bytes", "\0\x02")
#define FIRST FIRST_HEAD "\0\0\0\0" "\0\0\0\x02" "\xFF\x80" "\0\x01"
#define FIRST_CLEARED FIRST_HEAD NO_LOOP "\xFF\x80" "\0\0"
/* On sample 2: 1 + 1, ping-pong. */
#define SECOND_HEAD HEAD("Another one, and 30 bytes too.", "\0\x02")
#define SECOND SECOND_HEAD "\0\0\0\x01" "\0\0\0\x01" "\0\x80" "\0\x02"
#define SECOND_CLEARED SECOND_HEAD NO_LOOP "\0\x80" "\0\0"
/* On sample 1: 1 + 3, both flags. */
#define THIRD_HEAD HEAD("\0\xFFZeros and 255 in its name.\0\x01", "\0\x01")
#define THIRD THIRD_HEAD "\0\0\0\x01" "\0\0\0\x03" "\0\x01" "\0\x03"
#define THIRD_CLEARED THIRD_HEAD NO_LOOP "\0\x01" "\0\0"
/* On sample 2, not looped: no flags, or no length. */
#define WILD HEAD("The numbers of no loop at all.", "\0\x02") \
    "\xFF\xFF\xFF\xFF" "\xFF\xFF\xFF\xFF" "\0\0" "\0\0"
#define NO_LENGTH HEAD("A loop that has no length, 30.", "\0\x02") \
    "\xFF\xFF\xFF\xFF" "\0\0\0\0" "\0\0" "\0\x03"

#define BITS_8 "\0\0\0\x01" "\0\0\0\x04" "abcd"
#define BITS_32 "\0\0\0\x04" "\0\0\0\x02" "\x80\x01\x02\x03" "\x7F\xFF\xFF\xFF"
#define BITS_16 "\0\0\0\x02" "\0\0\0\x01" "\xFE\xDC"
#define INSTRUMENTS INST(FIRST, SECOND, THIRD)
#define SAMPLES SMPL("\x26", BITS_8 BITS_32 BITS_16)

/* Both orders of the two chunks. */
#define BOTH(number, bytes, inst, smpl, loops) do { \
    BECOMES(INST_FIRST(INSTRUMENTS, SAMPLES), number, bytes, INST_FIRST(inst, smpl), loops); \
    BECOMES(SMPL_FIRST(INSTRUMENTS, SAMPLES), number, bytes, SMPL_FIRST(inst, smpl), loops); \
} while (0)

#define BEFORE INST_FIRST(INSTRUMENTS, SAMPLES)

static void samples(void)
{
    HOLDS(sizeof(BEFORE) - 1 == 368);
    /* The second: the same number of frames, more frames, one frame less, none. */
    BOTH(2, "\0\x01\0\x02", INSTRUMENTS,
         SMPL("\x22", BITS_8 "\0\0\0\x02" "\0\0\0\x02" "\0\x01\0\x02" BITS_16), 0);
    BOTH(2, "\x80\0\x7F\xFF\xFF\xFF", INSTRUMENTS,
         SMPL("\x24", BITS_8 "\0\0\0\x02" "\0\0\0\x03" "\x80\0\x7F\xFF\xFF\xFF" BITS_16), 0);
    BOTH(2, "\x12\x34", INST(FIRST_CLEARED, SECOND_CLEARED, THIRD),
         SMPL("\x20", BITS_8 "\0\0\0\x02" "\0\0\0\x01" "\x12\x34" BITS_16), 2);
    BOTH(2, "", INST(FIRST_CLEARED, SECOND_CLEARED, THIRD),
         SMPL("\x1E", BITS_8 "\0\0\0\x02" "\0\0\0\0" BITS_16), 2);
    /* The first: as many frames as the loop needs, one less, and as many bytes as before. */
    BOTH(1, "ABCDEFGH", INSTRUMENTS,
         SMPL("\x2A", "\0\0\0\x02" "\0\0\0\x04" "ABCDEFGH" BITS_32 BITS_16), 0);
    BOTH(1, "ABCDEF", INST(FIRST, SECOND, THIRD_CLEARED),
         SMPL("\x28", "\0\0\0\x02" "\0\0\0\x03" "ABCDEF" BITS_32 BITS_16), 1);
    BOTH(1, "ABCD", INST(FIRST, SECOND, THIRD_CLEARED),
         SMPL("\x26", "\0\0\0\x02" "\0\0\0\x02" "ABCD" BITS_32 BITS_16), 1);
    /* The third, which no instrument uses. Its own frames give the module itself. */
    BOTH(3, "SMPLINST", INSTRUMENTS,
         SMPL("\x2C", BITS_8 BITS_32 "\0\0\0\x02" "\0\0\0\x04" "SMPLINST"), 0);
    BOTH(3, "", INSTRUMENTS, SMPL("\x24", BITS_8 BITS_32 "\0\0\0\x02" "\0\0\0\0"), 0);
    BOTH(3, "\xFE\xDC", INSTRUMENTS, SAMPLES, 0);
}

/* One pattern with these nine bytes, whose masks have bits 6 and 7, and a sample: PATT is before SMPL, or after it. */
#define MASKS "PATT" "\0\0\0\x10" "\0\x02" "\0\0\0\x09" "\x04\xC1\x47\x01\x80\0\x02\x40\0" "\x77"
#define WITH_MASKS(before, after) \
    "DBM0" "\x03\0\0\0" "INFO" "\0\0\0\x0A" "\0\0" "\0\x01" "\0\0" "\0\x01" "\0\x04" \
    "SONG" "\0\0\0\0" "INST" "\0\0\0\0" before after

/* The masks stay as they are. */
static void upper_bits(void)
{
    BECOMES(WITH_MASKS(MASKS, "SMPL" "\0\0\0\x0C" BITS_8), 1, "AB",
            WITH_MASKS(MASKS, "SMPL" "\0\0\0\x0A" "\0\0\0\x02" "\0\0\0\x01" "AB"), 0);
    BECOMES(WITH_MASKS("SMPL" "\0\0\0\x0C" BITS_8, MASKS), 1, "ABCDEF",
            WITH_MASKS("SMPL" "\0\0\0\x0E" "\0\0\0\x02" "\0\0\0\x03" "ABCDEF", MASKS), 0);
}

/* One sample and one instrument with this loop and these flags; SMPL is the last chunk. */
#define ONE(loop, flags, smpl) \
    "DBM0" "\x02\x99\0\0" "INFO" "\0\0\0\x0A" "\0\x01" "\0\x01" "\0\0" "\0\0" "\0\x04" \
    "SONG" "\0\0\0\0" "PATT" "\0\0\0\0" "INST" "\0\0\0\x32" \
    HEAD("An instrument, of thirty bytes", "\0\x01") loop "\0\0" flags "SMPL" smpl
#define FOUR_FRAMES "\0\0\0\x0C" BITS_8
#define THREE_FRAMES "\0\0\0\x0E" "\0\0\0\x02" "\0\0\0\x03" "ABCDEF"

/* The loop against three frames. */
static void loops(void)
{
    BECOMES(ONE("\0\0\0\x01" "\0\0\0\x02", "\0\x01", FOUR_FRAMES), 1, "ABCDEF",
            ONE("\0\0\0\x01" "\0\0\0\x02", "\0\x01", THREE_FRAMES), 0);
    BECOMES(ONE("\0\0\0\x01" "\0\0\0\x03", "\0\x01", FOUR_FRAMES), 1, "ABCDEF",
            ONE(NO_LOOP, "\0\0", THREE_FRAMES), 1);
    BECOMES(ONE("\0\0\0\0" "\0\0\0\x03", "\0\x02", FOUR_FRAMES), 1, "ABCDEF",
            ONE("\0\0\0\0" "\0\0\0\x03", "\0\x02", THREE_FRAMES), 0);
    BECOMES(ONE("\0\0\0\0" "\0\0\0\x04", "\0\x02", FOUR_FRAMES), 1, "ABCDEF",
            ONE(NO_LOOP, "\0\0", THREE_FRAMES), 1);
    BECOMES(ONE("\0\0\0\x03" "\0\0\0\x01", "\0\x03", FOUR_FRAMES), 1, "ABCDEF",
            ONE(NO_LOOP, "\0\0", THREE_FRAMES), 1);
    /* Not looped: everything stays. */
    BECOMES(ONE("\0\0\0\x03" "\0\0\0\x01", "\0\0", FOUR_FRAMES), 1, "ABCDEF",
            ONE("\0\0\0\x03" "\0\0\0\x01", "\0\0", THREE_FRAMES), 0);
    BECOMES(ONE("\0\0\0\x04" "\0\0\0\0", "\0\x01", FOUR_FRAMES), 1, "ABCDEF",
            ONE("\0\0\0\x04" "\0\0\0\0", "\0\x01", THREE_FRAMES), 0);
    /* The output, replaced by the same frames, is the same. */
    BECOMES(ONE(NO_LOOP, "\0\0", THREE_FRAMES), 1, "ABCDEF",
            ONE(NO_LOOP, "\0\0", THREE_FRAMES), 0);
}

/* With these arguments the call is refused, for outputs of several lengths. */
static void refuses(size_t number, const char *bytes, size_t bytes_length, uint64_t refusal, int line)
{
    static const size_t rooms[] = {0, 1, 367, 368, 369, 1000};
    size_t k;

    replace_by(number, bytes, bytes_length, 0);
    for (k = 0; k < sizeof rooms / sizeof *rooms; k++)
        refused(refusal, 0, rooms[k], line);
}

#define REFUSES(number, bytes, refusal) \
    refuses((number), (bytes), sizeof(bytes) - 1, (refusal), __LINE__)

static void refused_arguments(void)
{
    LOAD(BEFORE);
    REFUSES(0, "ab", DBM0_MODULE_NOT_THERE);
    REFUSES(4, "ab", DBM0_MODULE_NOT_THERE);
    REFUSES(256 + 2, "ab", DBM0_MODULE_NOT_THERE);
    REFUSES(65536 + 2, "ab", DBM0_MODULE_NOT_THERE);
    REFUSES(((size_t)1 << 32) + 2, "ab", DBM0_MODULE_NOT_THERE);
    REFUSES(((size_t)1 << 63) + 2, "ab", DBM0_MODULE_NOT_THERE);
    REFUSES(SIZE_MAX, "ab", DBM0_MODULE_NOT_THERE);
    /* 18 before 19. */
    REFUSES(0, "abc", DBM0_MODULE_NOT_THERE);
    REFUSES(4, "abc", DBM0_MODULE_NOT_THERE);
    REFUSES(SIZE_MAX, "abc", DBM0_MODULE_NOT_THERE);
    /* 19 before 17. */
    REFUSES(1, "a", DBM0_MODULE_ODD_FRAMES);
    REFUSES(2, "abc", DBM0_MODULE_ODD_FRAMES);
    REFUSES(3, "abcde", DBM0_MODULE_ODD_FRAMES);
    HOLDS(DBM0_MODULE_ODD_FRAMES == 19);
    /* No samples at all: there is no number 1 either. */
    LOAD("DBM0" "\x03\0\0\0" "INFO" "\0\0\0\x0A" "\0\0\0\0\0\0\0\0\0\x04"
         "SONG" "\0\0\0\0" "INST" "\0\0\0\0" "PATT" "\0\0\0\0" "SMPL" "\0\0\0\0");
    REFUSES(0, "", DBM0_MODULE_NOT_THERE);
    REFUSES(1, "", DBM0_MODULE_NOT_THERE);
}

/* The module's own refusal is the first, whatever the other arguments are. */
static void refused_modules(void)
{
    static const size_t numbers[] = {2, 0, 4};
    static const char *const bytes[] = {"", "ab", "abc"};
    size_t k, m;

    LOAD(BEFORE);
    for (k = 0; k < 3; k++)
        for (m = 0; m < 3; m++) {
            replace_by(numbers[k], bytes[m], strlen(bytes[m]), 0);
            CHANGED(0, 'X', DBM0_MODULE_NOT_DBM0, 0);
            CHANGED(4, 4, DBM0_MODULE_VERSION, 4);
            CHANGED(367, 1, DBM0_MODULE_CHUNK_CUT, 360);
            CHANGED(360, 'z', DBM0_MODULE_IDENTIFIER, 360);
            CHANGED(29, 'H', DBM0_MODULE_CHUNK_MISSING, 368);
            CHANGED(25, 5, DBM0_MODULE_INFO_RANGE, 24);
            CHANGED(325, 3, DBM0_MODULE_BLOCKS, 314);
            CHANGED(73, 4, DBM0_MODULE_REFERENCE, 72);
            CHANGED(75, 65, DBM0_MODULE_FIELD_RANGE, 74);
            CHANGED(83, 1, DBM0_MODULE_LOOP, 42);
            CHANGED(306, 5, DBM0_MODULE_STREAM_BROKEN, 300);
            memcpy(module + 360, "NAME", 4);
            refused(DBM0_MODULE_CHUNK_LENGTH, 360, 500, __LINE__);
            memcpy(module + 360, "SMPL", 4);
            refused(DBM0_MODULE_CHUNK_REPEATED, 360, 500, __LINE__);
            memcpy(module + 360, "ZZZZ", 4);
        }
    /* The module is as it was. */
    replace_by(2, "", 0, 2);
    refused(DBM0_MODULE_ROOM, 360, 359, __LINE__);
    count(replace(module, length, output(360), 360).length == 360, __LINE__, "another length");
    length = 367;
    cleared = 0;
    refused(DBM0_MODULE_CHUNK_CUT, 360, 500, __LINE__);
}

/* NULL for the frames if their length is 0. */
static void no_frames(void)
{
    replace_by(2, "", 0, 2);
    frames = NULL;
    writes(BEFORE, sizeof(BEFORE) - 1,
           INST_FIRST(INST(FIRST_CLEARED, SECOND_CLEARED, THIRD),
                      SMPL("\x1E", BITS_8 "\0\0\0\x02" "\0\0\0\0" BITS_16)), 360, __LINE__);
}

/* The frames are a part of the module: of another sample, of the sample itself, a name, and the whole module. */
static void frames_inside_the_module(void)
{
    static uint8_t expected[800];
    const size_t rest = 368 - 350;

    LOAD(BEFORE);
    sample = 2, frames = module + 330, frames_length = 4, cleared = 0;
    writes(BEFORE, sizeof(BEFORE) - 1,
           INST_FIRST(INSTRUMENTS, SMPL("\x22", BITS_8 "\0\0\0\x02" "\0\0\0\x02" "abcd" BITS_16)),
           364, __LINE__);
    sample = 2, frames = module + 342, frames_length = 8;
    writes(BEFORE, sizeof(BEFORE) - 1,
           INST_FIRST(INSTRUMENTS,
                      SMPL("\x26", BITS_8 "\0\0\0\x02" "\0\0\0\x04" "\x80\x01\x02\x03" "\x7F\xFF\xFF\xFF" BITS_16)),
           368, __LINE__);
    sample = 1, frames = module + 92, frames_length = 6, cleared = 1;
    writes(BEFORE, sizeof(BEFORE) - 1,
           INST_FIRST(INST(FIRST, SECOND, THIRD_CLEARED),
                      SMPL("\x28", "\0\0\0\x02" "\0\0\0\x03" "Anothe" BITS_32 BITS_16)),
           370, __LINE__);
    /* 184 frames: 38 bytes of SMPL less 8 and more 368 are 398, $18E. */
    sample = 2, frames = module, frames_length = 368, cleared = 0;
    memcpy(expected, BEFORE, 334);
    memcpy(expected + 318, "\0\0\x01\x8E", 4);
    memcpy(expected + 334, "\0\0\0\x02" "\0\0\0\xB8", 8);
    memcpy(expected + 342, BEFORE, 368);
    memcpy(expected + 710, &BEFORE[350], rest);
    writes(BEFORE, sizeof(BEFORE) - 1, (const char *)expected, 710 + rest, __LINE__);
}

/* The queries about the output: the sample and the cleared loops are other, all else is the same. */
static void shown(void)
{
    uint8_t *out = output(362);
    dbm0_instrument_answer instrument;
    dbm0_frames_answer part;

    LOAD(BEFORE);
    replace_by(2, "\x80\x01", 2, 2);
    HOLDS(replace(module, length, out, 362).length == 362);
    HOLDS(dbm0_version(out, 362).version == 3 && dbm0_version(out, 362).revision == 0x05);
    HOLDS(dbm0_info(out, 362).samples == 3 && dbm0_info(out, 362).instruments == 5);
    HOLDS(dbm0_sample(out, 362, 1).width == 8 && dbm0_sample(out, 362, 1).frames == 4);
    HOLDS(dbm0_sample(out, 362, 2).width == 16 && dbm0_sample(out, 362, 2).frames == 1);
    HOLDS(dbm0_sample(out, 362, 3).width == 16 && dbm0_sample(out, 362, 3).frames == 1);
    HOLDS(dbm0_frame(out, 362, 2, 0).frame == -32767);
    HOLDS(dbm0_frame(out, 362, 2, 1).number == 18);
    HOLDS(dbm0_frame(out, 362, 3, 0).frame == -292);
    part = dbm0_frames(out, 362, 2);
    HOLDS(part.offset == 342 && part.length == 2);
    instrument = dbm0_instrument(out, 362, 1);
    HOLDS(instrument.loop_start == 0 && instrument.loop_length == 0 && instrument.flags == 0);
    HOLDS(instrument.sample == 2 && instrument.volume == 64 && instrument.rate == 8363);
    HOLDS(instrument.panning == -128);
    HOLDS(memcmp(instrument.name, "An instrument, of thirty bytes", 30) == 0);
    instrument = dbm0_instrument(out, 362, 3);
    HOLDS(instrument.loop_start == 1 && instrument.loop_length == 3 && instrument.flags == 3);
    instrument = dbm0_instrument(out, 362, 4);
    HOLDS(instrument.loop_start == 0xFFFFFFFF && instrument.loop_length == 0xFFFFFFFF);
    HOLDS(dbm0_rows(out, 362, 0).rows == 1);
}

/* samples/carousel.dbm: the organ, sample 2, has 64 frames of 8 bits, and instrument 2 has the loop 16 + 48. */
static uint8_t carousel[1152];

static int load_carousel(void)
{
    FILE *file = fopen("samples/carousel.dbm", "rb");
    size_t read;

    if (file == NULL) {
        printf("samples/carousel.dbm cannot be read\n");
        return 0;
    }
    read = fread(carousel, 1, sizeof carousel, file);
    count(read == 1152 && fgetc(file) == EOF, __LINE__, "another length of carousel.dbm");
    fclose(file);
    load_module((const char *)carousel, sizeof carousel);
    return 1;
}

/* The block of sample 2 is at 954, SMPL at 842, INST at 482, its second block at 540. */
static void carousel_becomes(size_t bytes_length, const char *smpl, const char *block, uint64_t loops)
{
    static char bytes[128], expected[1300];
    size_t k;

    for (k = 0; k < bytes_length; k++)
        bytes[k] = (char)(7 * k + 1);
    memcpy(expected, carousel, 954);
    memcpy(expected + 846, smpl, 4);
    memcpy(expected + 954, block, 8);
    memcpy(expected + 962, bytes, bytes_length);
    memcpy(expected + 962 + bytes_length, carousel + 1026, 1152 - 1026);
    if (loops == 1) {
        memcpy(expected + 540 + 38, "\0\0\0\0\0\0\0\0", 8);
        memcpy(expected + 540 + 48, "\0\0", 2);
    }
    becomes((const char *)carousel, sizeof carousel, 2, bytes, bytes_length,
            expected, 1152 - 64 + bytes_length, loops, __LINE__);
}

static void the_carousel(void)
{
    static const char bytes[80];

    if (!load_carousel())
        return;
    HOLDS(memcmp(carousel + 482, "INST", 4) == 0);
    HOLDS(memcmp(carousel + 842, "SMPL" "\0\0\x01\x18", 8) == 0);
    HOLDS(memcmp(carousel + 954, "\0\0\0\x01" "\0\0\0\x40", 8) == 0);
    HOLDS(memcmp(carousel + 578, "\0\0\0\x10" "\0\0\0\x30" "\xFF\xD8" "\0\x01", 12) == 0);
    /* 280 bytes of SMPL: 80 - 64 more, 128 - 64 more, 126 - 64 more. */
    carousel_becomes(80, "\0\0\x01\x28", "\0\0\0\x02" "\0\0\0\x28", 1);
    carousel_becomes(128, "\0\0\x01\x58", "\0\0\0\x02" "\0\0\0\x40", 0);
    carousel_becomes(126, "\0\0\x01\x56", "\0\0\0\x02" "\0\0\0\x3F", 1);
    load_module((const char *)carousel, sizeof carousel);
    replace_by(2, bytes, 80, 1);
    refused(DBM0_MODULE_ROOM, 1168, 1167, __LINE__);
    HOLDS(replace(module, length, output(1168), 1168).length == 1168);
    replace_by(2, bytes, 79, 0);
    refused(DBM0_MODULE_ODD_FRAMES, 0, 2000, __LINE__);
    replace_by(4, bytes, 3, 0);
    refused(DBM0_MODULE_NOT_THERE, 0, 2000, __LINE__);
}

/* Results of the most bytes that a module may have, and of more. */
static uint8_t large_frames[DBM0_MODULE_MOST_BYTES + 4], large_module[DBM0_MODULE_MOST_BYTES];
static uint8_t large_out[DBM0_MODULE_MOST_BYTES + 4];

/* In the large output only the first `written` bytes are changed. */
static int rest_of_large_is_filled(size_t written)
{
    size_t at;
    for (at = written; at < sizeof large_out; at++)
        if (large_out[at] != FILL)
            return 0;
    return 1;
}

/* With `room` bytes of the large output the answer is this one, and no byte after the written ones changes. */
static void large(size_t room, uint64_t number, uint64_t place, uint64_t needed, int line)
{
    dbm0_length_answer answer;

    memset(large_out, FILL, sizeof large_out);
    answer = replace(module, length, large_out, room);
    count(answer.number == number && answer.place == place, line, "another refusal");
    count(answer.length == needed, line, "another length");
    count(rest_of_large_is_filled(needed), line, "bytes after the output are changed");
}

#define LARGE(room, number, place, needed) large((room), (number), (place), (needed), __LINE__)

static void large_results(void)
{
    const size_t most = DBM0_MODULE_MOST_BYTES;

    memset(large_frames, 0x3C, sizeof large_frames);
    sample = 1, frames = large_frames, cleared = 0;

    /* Without the frames of sample 1 the module has 364 bytes. */
    LOAD(BEFORE);
    frames_length = most - 364;
    LARGE(sizeof large_out, 0, 0, most);
    HOLDS(memcmp(large_out, BEFORE, 318) == 0);
    /* $FFFEB6 bytes of SMPL, from 322 to 8 before the end; $7FFF4A frames. */
    HOLDS(memcmp(large_out + 318, "\0\xFF\xFE\xB6" "\0\0\0\x02" "\0\x7F\xFF\x4A", 12) == 0);
    HOLDS(memcmp(large_out + 330, large_frames, most - 364) == 0);
    HOLDS(memcmp(large_out + most - 34, &BEFORE[334], 34) == 0);
    HOLDS(dbm0_check_module(large_out, most).number == 0);
    LARGE(most, 0, 0, most);
    LARGE(most - 1, DBM0_MODULE_ROOM, most, 0);
    LARGE(0, DBM0_MODULE_ROOM, most, 0);
    frames_length += 2;
    LARGE(sizeof large_out, DBM0_MODULE_TOO_LONG, 0, 0);
    LARGE(0, DBM0_MODULE_TOO_LONG, 0, 0);
    /* 19 before 1. */
    frames_length += 1;
    LARGE(sizeof large_out, DBM0_MODULE_ODD_FRAMES, 0, 0);
    frames_length = most;
    LARGE(sizeof large_out, DBM0_MODULE_TOO_LONG, 0, 0);
    frames_length = most + 2;
    LARGE(sizeof large_out, DBM0_MODULE_TOO_LONG, 0, 0);
    frames_length = most + 1;
    LARGE(sizeof large_out, DBM0_MODULE_ODD_FRAMES, 0, 0);
    frames_length = most + 2, sample = 0;
    LARGE(sizeof large_out, DBM0_MODULE_NOT_THERE, 0, 0);
    sample = 1;

    /* One byte more in the module: results of one byte less than the most, and of one more. */
    LOAD(INST_FIRST(INSTRUMENTS, SAMPLES "ONEB" "\0\0\0\x01" "\xFF"));
    frames_length = most - 374;
    LARGE(sizeof large_out, 0, 0, most - 1);
    HOLDS(dbm0_check_module(large_out, most - 1).number == 0);
    frames_length = most - 372;
    LARGE(sizeof large_out, DBM0_MODULE_TOO_LONG, 0, 0);
}

/* A module of the most bytes that a module may have: another chunk, after the others, has the rest. */
static void large_modules(void)
{
    const size_t most = DBM0_MODULE_MOST_BYTES;

    memset(large_module, 'Z', sizeof large_module);
    memcpy(large_module, BEFORE, 368);
    /* From 368 to the end: $FFFE90. */
    memcpy(large_module + 364, "\0\xFF\xFE\x90", 4);
    module = large_module, length = most;
    HOLDS(dbm0_check_module(module, length).number == 0);

    /* As many bytes as before, fewer, and more. */
    replace_by(2, "ABCDEFGH", 8, 0);
    LARGE(sizeof large_out, 0, 0, most);
    HOLDS(memcmp(large_out, large_module, 334) == 0);
    HOLDS(memcmp(large_out + 334, "\0\0\0\x02" "\0\0\0\x04" "ABCDEFGH", 16) == 0);
    HOLDS(memcmp(large_out + 350, large_module + 350, most - 350) == 0);
    replace_by(2, "AB", 2, 2);
    LARGE(sizeof large_out, 0, 0, most - 6);
    HOLDS(memcmp(large_out + 344, large_module + 350, most - 350) == 0);
    HOLDS(dbm0_check_module(large_out, most - 6).number == 0);
    replace_by(2, "ABCDEFGHIJ", 10, 0);
    LARGE(sizeof large_out, DBM0_MODULE_TOO_LONG, 0, 0);
    replace_by(2, "ABCDEFGHI", 9, 0);
    LARGE(sizeof large_out, DBM0_MODULE_ODD_FRAMES, 0, 0);

    /* The frames are the whole module: too long. A module of one byte more is refused itself. */
    sample = 2, frames = module, frames_length = length;
    LARGE(sizeof large_out, DBM0_MODULE_TOO_LONG, 0, 0);
    frames = (const uint8_t *)"ab", frames_length = 2, module = large_frames, length = most + 1;
    memcpy(large_frames, BEFORE, 368);
    LARGE(sizeof large_out, DBM0_MODULE_TOO_LONG, 0, 0);
    length = most;
    LARGE(sizeof large_out, DBM0_MODULE_IDENTIFIER, 368, 0);
}

/* The loop 65,530 + 4,470 of a sample of 70,000 frames ($11170), with which SMPL has 70,008 bytes ($11178). */
#define LONG_LOOP "\0\0\xFF\xFA" "\0\0\x11\x76"
#define LONG(loop, flags) ONE(loop, flags, "\0\x01\x11\x78" "\0\0\0\x01" "\0\x01\x11\x70")

static void long_loops(void)
{
    const size_t head = sizeof(LONG(LONG_LOOP, "\0\x01")) - 1;

    HOLDS(head == 116);
    memset(large_module, 0, sizeof large_module);
    memcpy(large_module, LONG(LONG_LOOP, "\0\x01"), head);
    memset(large_frames, 0x3C, sizeof large_frames);
    module = large_module, length = head + 70000, sample = 1, frames = large_frames;
    HOLDS(dbm0_check_module(module, length).number == 0);
    frames_length = 140000, cleared = 0;
    LARGE(sizeof large_out, 0, 0, head + 140000);
    HOLDS(memcmp(large_out + 88, LONG_LOOP "\0\0" "\0\x01", 12) == 0);
    frames_length = 139998, cleared = 1;
    LARGE(sizeof large_out, 0, 0, head + 139998);
    HOLDS(memcmp(large_out + 88, NO_LOOP "\0\0" "\0\0", 12) == 0);
    frames_length = 70000;
    LARGE(sizeof large_out, 0, 0, head + 70000);
    frames_length = 0;
    LARGE(sizeof large_out, 0, 0, head);
}

int main(void)
{
    if (!ready() || !make_frames_memory())
        return 1;
    samples();
    upper_bits();
    loops();
    refused_arguments();
    refused_modules();
    no_frames();
    frames_inside_the_module();
    shown();
    the_carousel();
    large_results();
    large_modules();
    long_loops();
    replace_by(2, "ab", 2, 0);
    NOTHING(BEFORE, 362);
    HOLDS(DBM0_VERSION >= 10400);
    return counted();
}
