/*
 * The check of a whole module in C written for speed on baseline x86-64, once
 * with the stream check of plain.c and once with that of expert.c. It returns
 * the places of the chunks.
 *
 * One pass over the chunks records the places of the covered ones. A pass over
 * the blocks compares each with the end of its chunk once (a song twice). It
 * also records what later rules need: the first invalid playlist entry, the
 * frames of the samples, the first loop outside its sample. A number is one
 * load and a byte swap. The data of samples and of other chunks is not read.
 *
 * plain:  playlists and values are compared one by one.
 * expert: they are compared 8 and 4 at a time with SSE2.
 */

#ifndef MODULE_CHECK_H
#define MODULE_CHECK_H

#include "expert_check.h"
#include "plain_check.h"

#include <emmintrin.h>
#include <string.h>

#define INLINE static inline __attribute__((always_inline))

enum { NAME, INFO, SONG, INST, PATT, SMPL, VENV, PENV, OTHER };

#define BIT(kind) (1u << (kind))
#define AFTER_INFO (BIT(SONG) | BIT(INST) | BIT(PATT) | BIT(SMPL))
#define MANDATORY (BIT(INFO) | AFTER_INFO)

enum {
    MOST_BYTES = 16777216,
    NAME_BYTES = 44,
    INFO_BYTES = 10,
    SONG_BYTES = 46,
    INST_BYTES = 50,
    PATT_BYTES = 6,
    SMPL_BYTES = 8,
    ENVELOPE_BYTES = 136,
};

typedef struct {
    const uint8_t *data;
    size_t length;
} chunk;

typedef struct {
    const uint8_t *module;
    unsigned version;
    unsigned instruments;
    unsigned samples;
    unsigned songs;
    unsigned patterns;
    unsigned tracks;
    unsigned present;
    chunk chunks[OTHER];
    uint32_t frames[255];
    const uint8_t *wrong_entry;
    const uint8_t *wrong_loop;
} layout;

/* Allowed values of envelopes: from -bias to most - bias, as 16-bit numbers. */
typedef struct {
    uint16_t bias;
    uint16_t most;
} range;

static const range volumes = {0, 64};
static const range pannings = {128, 256};

typedef baseline_answer stream_check(
    const uint8_t *stream, size_t length, uint64_t rows, uint64_t tracks);

/* The index of the first invalid entry, or the count if there is none. */
typedef size_t entries_check(
    const uint8_t *entries, size_t count, unsigned patterns);
typedef size_t values_check(const uint8_t *points, size_t count, range allowed);

INLINE unsigned read_2(const uint8_t *from)
{
    uint16_t word;
    memcpy(&word, from, 2);
    return __builtin_bswap16(word);
}

INLINE uint32_t read_4(const uint8_t *from)
{
    uint32_t word;
    memcpy(&word, from, 4);
    return __builtin_bswap32(word);
}

INLINE int outside(range allowed, unsigned value)
{
    return (uint16_t)(value + allowed.bias) > allowed.most;
}

INLINE baseline_verdict accepted(void)
{
    return (baseline_verdict){0, 0};
}

INLINE baseline_verdict refused(
    uint64_t number, const layout *found, const uint8_t *at)
{
    return (baseline_verdict){number, (uint64_t)(at - found->module)};
}

/* The header of a covered chunk. */
INLINE const uint8_t *header(const layout *found, unsigned kind)
{
    return found->chunks[kind].data - 8;
}

/* All four bytes at once: bit 7 of each is set if the byte is not a letter. */
INLINE int four_letters(uint32_t identifier)
{
    uint32_t low = identifier & 0x7F7F7F7F;
    uint32_t from_a = low + 0x3F3F3F3F;
    uint32_t past_z = low + 0x25252525;
    return ((identifier | ~from_a | past_z) & 0x80808080) == 0;
}

#define IDENTIFIER(a, b, c, d) \
    ((uint32_t)(a) << 24 | (uint32_t)(b) << 16 | (uint32_t)(c) << 8 | (uint32_t)(d))

static const uint32_t identifiers[OTHER] = {
    IDENTIFIER('N', 'A', 'M', 'E'), IDENTIFIER('I', 'N', 'F', 'O'),
    IDENTIFIER('S', 'O', 'N', 'G'), IDENTIFIER('I', 'N', 'S', 'T'),
    IDENTIFIER('P', 'A', 'T', 'T'), IDENTIFIER('S', 'M', 'P', 'L'),
    IDENTIFIER('V', 'E', 'N', 'V'), IDENTIFIER('P', 'E', 'N', 'V'),
};

/* Always compares all eight, without a branch, since the kind is hard to predict. */
INLINE unsigned kind_of(uint32_t identifier)
{
    unsigned kind = OTHER;
    for (unsigned k = 0; k < OTHER; k++)
        kind = identifiers[k] == identifier ? k : kind;
    return kind;
}

/* 10. */
static baseline_verdict read_info(layout *found, const uint8_t *data)
{
    found->instruments = read_2(data);
    found->samples = read_2(data + 2);
    found->songs = read_2(data + 4);
    found->patterns = read_2(data + 6);
    found->tracks = read_2(data + 8);
    if (found->instruments > 255)
        return refused(10, found, data);
    if (found->samples > 255)
        return refused(10, found, data + 2);
    if (found->songs > 32767)
        return refused(10, found, data + 4);
    if (found->patterns > 1024)
        return refused(10, found, data + 6);
    if (found->tracks < 4 || found->tracks > 254 || found->tracks % 2 != 0)
        return refused(10, found, data + 8);
    return accepted();
}

/* 6, 7, 9 and 10 for the covered chunk whose header is at a place. */
static baseline_verdict record_chunk(
    layout *found, unsigned kind, const uint8_t *at, uint32_t length)
{
    if (found->present & BIT(kind))
        return refused(6, found, at);
    if ((AFTER_INFO & BIT(kind)) && !(found->present & BIT(INFO)))
        return refused(7, found, at);
    if ((kind == NAME && length != NAME_BYTES) || (kind == INFO && length != INFO_BYTES))
        return refused(9, found, at);
    found->present |= BIT(kind);
    found->chunks[kind] = (chunk){at + 8, length};
    return kind == INFO ? read_info(found, at + 8) : accepted();
}

/* 1 to 10. */
INLINE baseline_verdict read_chunks(
    layout *found, const uint8_t *module, size_t length)
{
    found->module = module;
    found->present = 0;
    if (length > MOST_BYTES)
        return (baseline_verdict){1, 0};
    if (length < 8 || memcmp(module, "DBM0", 4) != 0)
        return (baseline_verdict){2, 0};
    found->version = module[4];
    unsigned revision = module[5];
    if ((found->version != 2 && found->version != 3)
        || revision >> 4 > 9 || (revision & 15) > 9)
        return (baseline_verdict){3, 4};

    const uint8_t *at = module + 8;
    size_t left = length - 8;
    while (left >= 8) {
        uint32_t identifier = read_4(at);
        size_t bytes = read_4(at + 4);
        if (!four_letters(identifier))
            return refused(5, found, at);
        if (bytes > left - 8)
            return refused(4, found, at);
        unsigned kind = kind_of(identifier);
        if (kind != OTHER) {
            baseline_verdict verdict = record_chunk(found, kind, at, (uint32_t)bytes);
            if (verdict.number != 0)
                return verdict;
        }
        at += 8 + bytes;
        left -= 8 + bytes;
    }
    if (left > 0)
        return refused(4, found, at);
    if ((found->present & MANDATORY) != MANDATORY)
        return (baseline_verdict){8, length};
    return accepted();
}

/* Whether the songs fill their chunk. Records the first invalid playlist entry. */
INLINE int songs_fill(layout *found, entries_check *first_wrong)
{
    const uint8_t *at = found->chunks[SONG].data;
    size_t left = found->chunks[SONG].length;
    found->wrong_entry = NULL;
    for (unsigned songs = found->songs; songs > 0; songs--) {
        if (left < SONG_BYTES)
            return 0;
        at += SONG_BYTES;
        left -= SONG_BYTES;
        size_t entries = read_2(at - 2);
        if (left < 2 * entries)
            return 0;
        if (found->wrong_entry == NULL) {
            size_t wrong = first_wrong(at, entries, found->patterns);
            if (wrong < entries)
                found->wrong_entry = at + 2 * wrong;
        }
        at += 2 * entries;
        left -= 2 * entries;
    }
    return left == 0;
}

/* A block may end past its chunk. The next block, or the end, detects this. */
static int patterns_fill(const layout *found)
{
    const uint8_t *data = found->chunks[PATT].data;
    size_t length = found->chunks[PATT].length;
    size_t at = 0;
    for (unsigned patterns = found->patterns; patterns > 0; patterns--) {
        if (at + PATT_BYTES > length)
            return 0;
        size_t packed = read_4(data + at + 2);
        at += PATT_BYTES + packed + packed % 2;
    }
    return at == length;
}

/* Whether the samples fill their chunk. Records their frames. */
static int samples_fill(layout *found)
{
    const uint8_t *data = found->chunks[SMPL].data;
    size_t length = found->chunks[SMPL].length;
    size_t at = 0;
    for (unsigned sample = 0; sample < found->samples; sample++) {
        if (at + SMPL_BYTES > length)
            return 0;
        size_t width = read_4(data + at);
        uint32_t frames = read_4(data + at + 4);
        if (width != 1 && width != 2 && width != 4)
            return 0;
        found->frames[sample] = frames;
        at += SMPL_BYTES + frames * width;
    }
    return at == length;
}

static int envelopes_fill(chunk of)
{
    return of.length >= 2
        && of.length == 2 + (size_t)ENVELOPE_BYTES * read_2(of.data);
}

/* 11. */
INLINE baseline_verdict check_blocks(layout *found, entries_check *first_wrong)
{
    if (!songs_fill(found, first_wrong))
        return refused(11, found, header(found, SONG));
    if (found->chunks[INST].length != (size_t)INST_BYTES * found->instruments)
        return refused(11, found, header(found, INST));
    if (!patterns_fill(found))
        return refused(11, found, header(found, PATT));
    if (!samples_fill(found))
        return refused(11, found, header(found, SMPL));
    for (unsigned kind = VENV; kind <= PENV; kind++)
        if ((found->present & BIT(kind)) && !envelopes_fill(found->chunks[kind]))
            return refused(11, found, header(found, kind));
    return accepted();
}

/* 12 and 13 for the instruments. Records the first invalid loop. */
static baseline_verdict check_instruments(layout *found)
{
    const uint8_t *at = found->chunks[INST].data;
    found->wrong_loop = NULL;
    for (unsigned left = found->instruments; left > 0; left--, at += INST_BYTES) {
        unsigned sample = read_2(at + 30);
        unsigned flags = read_2(at + 48);
        if (sample > found->samples)
            return refused(12, found, at + 30);
        if (read_2(at + 32) > 64)
            return refused(13, found, at + 32);
        if (outside(pannings, read_2(at + 46)))
            return refused(13, found, at + 46);
        if (flags > 3)
            return refused(13, found, at + 48);
        uint64_t loop = read_4(at + 42);
        if (flags == 0 || loop == 0 || found->wrong_loop != NULL)
            continue;
        if (sample == 0 || read_4(at + 38) + loop > found->frames[sample - 1])
            found->wrong_loop = at;
    }
    return accepted();
}

/* 12 and 13 for the envelopes of a chunk. */
INLINE baseline_verdict check_envelopes(
    const layout *found, unsigned kind, range allowed, values_check *first_wrong)
{
    if (!(found->present & BIT(kind)))
        return accepted();
    const uint8_t *at = found->chunks[kind].data + 2;
    for (unsigned left = read_2(at - 2); left > 0; left--, at += ENVELOPE_BYTES) {
        unsigned instrument = read_2(at);
        unsigned flags = at[2];
        unsigned sections = at[3];
        unsigned sustained = flags >> 1 & 1;
        unsigned looped = flags >> 2 & 1;
        unsigned sustained_again = flags >> 3 & 1;
        if (instrument == 0 || instrument > found->instruments)
            return refused(12, found, at);
        if (flags > 15)
            return refused(13, found, at + 2);
        if (sections > 31)
            return refused(13, found, at + 3);
        /* Flags are hard to predict. A broken rule is not. */
        if (sustained & (at[4] > sections))
            return refused(13, found, at + 4);
        if (looped & (at[5] > sections))
            return refused(13, found, at + 5);
        if (looped & ((at[6] > sections) | (at[5] > at[6])))
            return refused(13, found, at + 6);
        if (sustained_again & (at[7] > sections))
            return refused(13, found, at + 7);
        size_t wrong = first_wrong(at + 8, sections + 1, allowed);
        if (wrong <= sections)
            return refused(13, found, at + 8 + 4 * wrong + 2);
    }
    return accepted();
}

/* 15. */
INLINE baseline_verdict check_streams(const layout *found, stream_check *check)
{
    const uint8_t *at = found->chunks[PATT].data;
    for (unsigned left = found->patterns; left > 0; left--) {
        size_t packed = read_4(at + 2);
        if (check(at + PATT_BYTES, packed, read_2(at), found->tracks).number != 0)
            return refused(15, found, at);
        at += PATT_BYTES + packed + packed % 2;
    }
    return accepted();
}

INLINE baseline_verdict check_module(
    layout *found, const uint8_t *module, size_t length, stream_check *check,
    entries_check *wrong_entry, values_check *wrong_value)
{
    baseline_verdict verdict = read_chunks(found, module, length);
    if (verdict.number != 0)
        return verdict;
    verdict = check_blocks(found, wrong_entry);
    if (verdict.number != 0)
        return verdict;
    if (found->wrong_entry != NULL)
        return refused(12, found, found->wrong_entry);
    verdict = check_instruments(found);
    if (verdict.number != 0)
        return verdict;
    verdict = check_envelopes(found, VENV, volumes, wrong_value);
    if (verdict.number != 0)
        return verdict;
    verdict = check_envelopes(
        found, PENV, found->version == 2 ? volumes : pannings, wrong_value);
    if (verdict.number != 0)
        return verdict;
    if (found->wrong_loop != NULL)
        return refused(14, found, found->wrong_loop);
    return check_streams(found, check);
}

INLINE size_t plain_entries(
    const uint8_t *entries, size_t count, unsigned patterns)
{
    size_t k = 0;
    while (k < count && read_2(entries + 2 * k) < patterns)
        k++;
    return k;
}

INLINE size_t plain_values(const uint8_t *points, size_t count, range allowed)
{
    size_t k = 0;
    while (k < count && !outside(allowed, read_2(points + 4 * k + 2)))
        k++;
    return k;
}

/* Eight numbers of 16 bits. */
INLINE __m128i read_8_numbers(const uint8_t *from)
{
    __m128i words = _mm_loadu_si128((const __m128i *)from);
    return _mm_or_si128(_mm_slli_epi16(words, 8), _mm_srli_epi16(words, 8));
}

INLINE int all_zeros(__m128i bytes)
{
    __m128i zeros = _mm_cmpeq_epi8(bytes, _mm_setzero_si128());
    return _mm_movemask_epi8(zeros) == 0xFFFF;
}

/* Entries are compared one by one, from the first, only if one is invalid. */
INLINE size_t expert_entries(
    const uint8_t *entries, size_t count, unsigned patterns)
{
    if (patterns == 0)
        return 0;
    const __m128i last = _mm_set1_epi16((short)(patterns - 1));
    __m128i over = _mm_setzero_si128();
    size_t whole = count & ~(size_t)7;
    for (size_t k = 0; k < whole; k += 8)
        over = _mm_or_si128(
            over, _mm_subs_epu16(read_8_numbers(entries + 2 * k), last));
    if (!all_zeros(over))
        whole = 0;
    return whole + plain_entries(entries + 2 * whole, count - whole, patterns);
}

/* Positions can have any value. They are in the lower half of each point. */
INLINE size_t expert_values(const uint8_t *points, size_t count, range allowed)
{
    const __m128i bias = _mm_set1_epi32((int)((uint32_t)allowed.bias << 16));
    const __m128i most = _mm_set1_epi32((int)((uint32_t)allowed.most << 16 | 0xFFFF));
    __m128i over = _mm_setzero_si128();
    size_t whole = count & ~(size_t)3;
    for (size_t k = 0; k < whole; k += 4) {
        __m128i numbers = _mm_add_epi16(read_8_numbers(points + 4 * k), bias);
        over = _mm_or_si128(over, _mm_subs_epu16(numbers, most));
    }
    if (!all_zeros(over))
        whole = 0;
    return whole + plain_values(points + 4 * whole, count - whole, allowed);
}

INLINE baseline_verdict plain_check(
    layout *found, const uint8_t *module, size_t length)
{
    return check_module(
        found, module, length, plain_check_stream, plain_entries, plain_values);
}

INLINE baseline_verdict expert_check(
    layout *found, const uint8_t *module, size_t length)
{
    return check_module(
        found, module, length, expert_check_stream, expert_entries, expert_values);
}

#endif
