/*
 * Comparing two modules, once as plain and once as expert C.
 *
 * Both modules are checked, as in module.c. Then the blocks of both are walked
 * together, first to count the differences, and again to write them if there are
 * any. Names, songs, instruments and samples are compared by memcmp, and so are
 * envelopes, except the panning envelopes of two versions. Patterns with equal
 * streams have no differences.
 *
 * plain:  both rows are loaded as in repack.c. If memcmp says that they differ,
 *         they are compared field by field.
 * expert: rows that are empty in both streams are skipped, up to 16 at a time,
 *         and rows that have the same bytes in both, 8 bytes at a time. Of
 *         other rows only the groups of 8 tracks that have an entry with fields
 *         are compared and cleared, with SSE2.
 */

#include "expert_rows.h"
#include "module_check.h"
#include "plain_rows.h"

/* The kinds of entries. */
enum {
    OF_NAME = 1,
    OF_INFO,
    OF_SONG,
    OF_INSTRUMENT,
    OF_VOLUME_ENVELOPE,
    OF_PANNING_ENVELOPE,
    OF_SAMPLE,
    OF_PATTERN,
};

enum {
    ENTRY_BYTES = 10,
    INFO_NUMBERS = 5,
    GROUP_TRACKS = 8,
    GROUP_BYTES = GROUP_TRACKS * 6,
    /* For the maximum number of tracks, in whole groups. */
    ROW_BYTES = 32 * GROUP_BYTES,
};

typedef struct {
    uint64_t number;
    uint64_t place;
    uint64_t entries;
} baseline_compared;

/* The list of differences. Without an output the entries are only counted. */
typedef struct {
    uint8_t *out;
    uint64_t entries;
} list;

/* The rest of a stream, from the beginning of a row. */
typedef struct {
    const uint8_t *at;
    const uint8_t *end;
} stream;

typedef baseline_verdict module_check(layout *found, const uint8_t *module, size_t length);
typedef size_t block_size(const uint8_t *block);
/* Lists the fields that differ between the streams of a pattern. */
typedef void fields_list(
    stream a, stream b, unsigned rows, unsigned tracks, unsigned number, list *to);

static baseline_compared refusal(uint64_t number, uint64_t place)
{
    return (baseline_compared){number, place, 0};
}

INLINE void list_field(
    list *to, uint64_t kind, uint64_t number, uint64_t row, uint64_t track, unsigned field)
{
    if (to->out != NULL) {
        uint8_t *entry = to->out + ENTRY_BYTES * to->entries;
        uint64_t numbers = __builtin_bswap64(kind << 48 | number << 32 | row << 16 | track);
        uint16_t last = __builtin_bswap16((uint16_t)field);
        memcpy(entry, &numbers, 8);
        memcpy(entry + 8, &last, 2);
    }
    to->entries++;
}

INLINE void list_whole(list *to, unsigned kind, unsigned number)
{
    list_field(to, kind, number, 0, 0, 0);
}

/* The records that only one module has. */
INLINE void list_single(list *to, unsigned kind, unsigned number, unsigned end)
{
    for (; number < end; number++)
        list_whole(to, kind, number);
}

INLINE unsigned smaller(unsigned a, unsigned b)
{
    return a < b ? a : b;
}

INLINE unsigned larger(unsigned a, unsigned b)
{
    return a < b ? b : a;
}

/* Records that are compared byte by byte, numbered from `number` on. */
INLINE void list_records(
    const uint8_t *a, unsigned a_count, const uint8_t *b, unsigned b_count,
    block_size *size, unsigned kind, unsigned number, list *to)
{
    unsigned end = number + larger(a_count, b_count);
    for (unsigned left = smaller(a_count, b_count); left > 0; left--, number++) {
        size_t a_bytes = size(a);
        size_t b_bytes = size(b);
        if (a_bytes != b_bytes || memcmp(a, b, a_bytes) != 0)
            list_whole(to, kind, number);
        a += a_bytes;
        b += b_bytes;
    }
    list_single(to, kind, number, end);
}

INLINE size_t info_number_bytes(const uint8_t *block)
{
    (void)block;
    return 2;
}

INLINE size_t song_bytes(const uint8_t *block)
{
    return SONG_BYTES + 2 * (size_t)read_2(block + SONG_BYTES - 2);
}

INLINE size_t instrument_bytes(const uint8_t *block)
{
    (void)block;
    return INST_BYTES;
}

INLINE size_t sample_bytes(const uint8_t *block)
{
    return SMPL_BYTES + (size_t)read_4(block) * read_4(block + 4);
}

static const uint8_t *name_of(const layout *found)
{
    static const uint8_t no_name[NAME_BYTES];
    return found->present & BIT(NAME) ? found->chunks[NAME].data : no_name;
}

static unsigned envelopes_of(const layout *found, unsigned kind)
{
    return found->present & BIT(kind) ? read_2(found->chunks[kind].data) : 0;
}

/* Whether points of version 2 are shown like points of version 3. */
static int same_scaled_points(const uint8_t *old, const uint8_t *new, unsigned count)
{
    unsigned same = 1;
    for (; count > 0; count--, old += 4, new += 4) {
        unsigned value = (uint16_t)(4 * read_2(old + 2) - 128);
        same &= (read_2(old) == read_2(new)) & (value == read_2(new + 2));
    }
    return (int)same;
}

/* Points that are not in use are not compared. */
INLINE int same_envelope(
    const uint8_t *a, unsigned a_version, const uint8_t *b, unsigned b_version)
{
    if (memcmp(a, b, 8) != 0)
        return 0;
    unsigned points = a[3] + 1u;
    if (a_version == b_version)
        return memcmp(a + 8, b + 8, 4 * (size_t)points) == 0;
    return a_version < b_version
        ? same_scaled_points(a + 8, b + 8, points)
        : same_scaled_points(b + 8, a + 8, points);
}

/* The envelopes in the chunks VENV or PENV. */
static void list_envelopes(
    const layout *a, unsigned a_version, const layout *b, unsigned b_version,
    unsigned in, unsigned kind, list *to)
{
    unsigned a_count = envelopes_of(a, in);
    unsigned b_count = envelopes_of(b, in);
    unsigned common = smaller(a_count, b_count);
    for (unsigned number = 0; number < common; number++) {
        size_t at = 2 + (size_t)ENVELOPE_BYTES * number;
        const uint8_t *one = a->chunks[in].data + at;
        const uint8_t *other = b->chunks[in].data + at;
        if (!same_envelope(one, a_version, other, b_version))
            list_whole(to, kind, number);
    }
    list_single(to, kind, common, larger(a_count, b_count));
}

INLINE stream stream_of(const uint8_t *block)
{
    const uint8_t *start = block + PATT_BYTES;
    return (stream){start, start + read_4(block + 2)};
}

INLINE int same_stream(stream a, stream b)
{
    size_t bytes = (size_t)(a.end - a.at);
    return bytes == (size_t)(b.end - b.at) && memcmp(a.at, b.at, bytes) == 0;
}

INLINE const uint8_t *next_block(stream of)
{
    return of.end + (of.end - of.at) % 2;
}

/* The patterns that both modules have, which have the same number of tracks. */
INLINE void list_common_patterns(
    const layout *a, const layout *b, unsigned common, fields_list *list_fields, list *to)
{
    const uint8_t *a_block = a->chunks[PATT].data;
    const uint8_t *b_block = b->chunks[PATT].data;
    for (unsigned number = 0; number < common; number++) {
        unsigned rows = read_2(a_block);
        stream one = stream_of(a_block);
        stream other = stream_of(b_block);
        if (rows != read_2(b_block))
            list_whole(to, OF_PATTERN, number);
        else if (!same_stream(one, other))
            list_fields(one, other, rows, a->tracks, number, to);
        a_block = next_block(one);
        b_block = next_block(other);
    }
}

INLINE void list_patterns(const layout *a, const layout *b, fields_list *list_fields, list *to)
{
    unsigned common = a->tracks == b->tracks ? smaller(a->patterns, b->patterns) : 0;
    list_common_patterns(a, b, common, list_fields, to);
    list_single(to, OF_PATTERN, common, larger(a->patterns, b->patterns));
}

/* All differences, in the order of the list. Volume envelopes are the same in all versions. */
INLINE void list_all(const layout *a, const layout *b, fields_list *list_fields, list *to)
{
    const chunk *one = a->chunks;
    const chunk *other = b->chunks;
    if (memcmp(name_of(a), name_of(b), NAME_BYTES) != 0)
        list_whole(to, OF_NAME, 0);
    list_records(one[INFO].data, INFO_NUMBERS, other[INFO].data, INFO_NUMBERS,
        info_number_bytes, OF_INFO, 0, to);
    list_records(one[SONG].data, a->songs, other[SONG].data, b->songs,
        song_bytes, OF_SONG, 0, to);
    list_records(one[INST].data, a->instruments, other[INST].data, b->instruments,
        instrument_bytes, OF_INSTRUMENT, 1, to);
    list_envelopes(a, 3, b, 3, VENV, OF_VOLUME_ENVELOPE, to);
    list_envelopes(a, a->version, b, b->version, PENV, OF_PANNING_ENVELOPE, to);
    list_records(one[SMPL].data, a->samples, other[SMPL].data, b->samples,
        sample_bytes, OF_SAMPLE, 1, to);
    list_patterns(a, b, list_fields, to);
}

/* 17 for two accepted modules. */
INLINE baseline_compared list_into(
    const layout *a, const layout *b, fields_list *list_fields, uint8_t *out, size_t out_length)
{
    list counted = {NULL, 0};
    list_all(a, b, list_fields, &counted);
    size_t needed = ENTRY_BYTES * counted.entries;
    if (out_length < needed)
        return refusal(17, needed);
    if (needed > 0)
        list_all(a, b, list_fields, &(list){out, 0});
    return (baseline_compared){0, 0, counted.entries};
}

INLINE baseline_compared compare(
    const uint8_t *first, size_t first_length, const uint8_t *second, size_t second_length,
    uint8_t *out, size_t out_length, module_check *check, fields_list *list_fields)
{
    layout a;
    layout b;
    baseline_verdict verdict = check(&a, first, first_length);
    if (verdict.number != 0)
        return refusal(verdict.number, verdict.place);
    verdict = check(&b, second, second_length);
    if (verdict.number != 0)
        return refusal(verdict.number, verdict.place);
    return list_into(&a, &b, list_fields, out, out_length);
}

INLINE void plain_list_row(
    const uint8_t *a, const uint8_t *b, unsigned tracks, unsigned number, unsigned row, list *to)
{
    for (unsigned track = 1; track <= tracks; track++, a += 6, b += 6)
        for (unsigned field = 0; field < 6; field++)
            if (a[field] != b[field])
                list_field(to, OF_PATTERN, number, row, track, field + 1);
}

static void plain_list_fields(
    stream a, stream b, unsigned rows, unsigned tracks, unsigned number, list *to)
{
    uint8_t first[ROW_BYTES];
    uint8_t second[ROW_BYTES];
    size_t bytes = (size_t)tracks * 6;
    for (unsigned row = 0; row < rows; row++) {
        memset(first, 0, bytes);
        memset(second, 0, bytes);
        a.at = plain_load_row(a.at, first);
        b.at = plain_load_row(b.at, second);
        if (memcmp(first, second, bytes) != 0)
            plain_list_row(first, second, tracks, number, row, to);
    }
}

/* The next rows that are empty in both streams, at most 16 of them. */
INLINE unsigned empty_rows(stream a, stream b)
{
    if (a.end - a.at < 16 || b.end - b.at < 16)
        return (*a.at | *b.at) == 0;
    __m128i any = _mm_or_si128(load_16(a.at), load_16(b.at));
    int zeros = _mm_movemask_epi8(_mm_cmpeq_epi8(any, _mm_setzero_si128()));
    return (unsigned)__builtin_ctz(~zeros);
}

INLINE uint64_t load_8(const uint8_t *from)
{
    uint64_t word;
    memcpy(&word, from, 8);
    return word;
}

/*
 * The length of the next row if both streams have the same bytes there. 0 if
 * they do not, or near the end of a stream. Entries whose masks differ in bits
 * 6 and 7 are not the same bytes; their rows are loaded.
 */
INLINE size_t same_row_bytes(stream a, stream b)
{
    const uint8_t *start = a.at;
    while (a.end - a.at >= 8 && b.end - b.at >= 8) {
        uint64_t one = load_8(a.at);
        uint64_t other = load_8(b.at);
        if ((one & 255) == 0)
            return (other & 255) == 0 ? (size_t)(a.at - start) + 1 : 0;
        size_t bytes = entry_length[one >> 8 & 255];
        if ((one ^ other) << (64 - 8 * bytes) != 0)
            return 0;
        a.at += bytes;
        b.at += bytes;
    }
    return 0;
}

/* All ones in each byte in which two rows are equal. Clears them in both. */
INLINE __m128i equal_then_clear(uint8_t *a, uint8_t *b)
{
    __m128i equal = _mm_cmpeq_epi8(load_16(a), load_16(b));
    _mm_storeu_si128((__m128i *)a, _mm_setzero_si128());
    _mm_storeu_si128((__m128i *)b, _mm_setzero_si128());
    return equal;
}

/* The number of fields that differ in the marked groups of two rows. */
INLINE uint64_t count_row(uint8_t *a, uint8_t *b, uint32_t marks)
{
    __m128i equal = _mm_setzero_si128();
    uint64_t compared = 0;
    for (; marks != 0; marks &= marks - 1) {
        size_t group = GROUP_BYTES * (size_t)__builtin_ctz(marks);
        for (size_t at = group; at < group + GROUP_BYTES; at += 16)
            equal = _mm_sub_epi8(equal, equal_then_clear(a + at, b + at));
        compared += GROUP_BYTES;
    }
    return compared - sum_of_bytes(equal);
}

/* One bit for each field of a group, set if it differs. */
INLINE uint64_t differing_fields(uint8_t *a, uint8_t *b)
{
    uint64_t equal = 0;
    for (int at = 0; at < GROUP_BYTES; at += 16)
        equal |= (uint64_t)_mm_movemask_epi8(equal_then_clear(a + at, b + at)) << at;
    return equal ^ (((uint64_t)1 << GROUP_BYTES) - 1);
}

/* Writes the fields that differ in the marked groups of two rows. */
INLINE void write_row(
    uint8_t *a, uint8_t *b, uint32_t marks, unsigned number, unsigned row, list *to)
{
    for (; marks != 0; marks &= marks - 1) {
        size_t group = (size_t)__builtin_ctz(marks);
        uint64_t fields = differing_fields(a + GROUP_BYTES * group, b + GROUP_BYTES * group);
        for (; fields != 0; fields &= fields - 1) {
            unsigned at = (unsigned)__builtin_ctzll(fields);
            list_field(to, OF_PATTERN, number, row, GROUP_TRACKS * group + at / 6 + 1, at % 6 + 1);
        }
    }
}

static void expert_list_fields(
    stream a, stream b, unsigned rows, unsigned tracks, unsigned number, list *to)
{
    (void)tracks;
    uint8_t first[ROW_BYTES] = {0};
    uint8_t second[ROW_BYTES] = {0};
    for (unsigned row = 0; row < rows;) {
        unsigned empty = empty_rows(a, b);
        size_t same = empty > 0 ? empty : same_row_bytes(a, b);
        if (same > 0) {
            a.at += same;
            b.at += same;
            row += empty > 0 ? empty : 1;
            continue;
        }
        uint32_t marks = 0;
        a.at = expert_load_marked(a.at, a.end, first, &marks);
        b.at = expert_load_marked(b.at, b.end, second, &marks);
        if (to->out == NULL)
            to->entries += count_row(first, second, marks);
        else
            write_row(first, second, marks, number, row, to);
        row++;
    }
}

baseline_compared plain_compare_modules(
    const uint8_t *first, size_t first_length, const uint8_t *second, size_t second_length,
    uint8_t *out, size_t out_length)
{
    return compare(first, first_length, second, second_length, out, out_length,
        plain_check, plain_list_fields);
}

baseline_compared expert_compare_modules(
    const uint8_t *first, size_t first_length, const uint8_t *second, size_t second_length,
    uint8_t *out, size_t out_length)
{
    return compare(first, first_length, second, second_length, out, out_length,
        expert_check, expert_list_fields);
}
