/*
 * Replacing a sample of a module by 16-bit frames, once as plain and once as
 * expert C.
 *
 * The module is checked, as in module.c. A walk over the samples finds the
 * block. What is before it and what is after it are copied in one piece each,
 * and the new frames between them. Then the length of SMPL is stored, and one
 * pass over the instruments of the output clears the loops that end after the
 * new frames. Only the check differs between plain and expert.
 */

#include "module_check.h"

typedef struct {
    uint64_t number;
    uint64_t place;
    uint64_t length;
    uint64_t cleared;
} baseline_replaced;

INLINE void store_4(uint8_t *to, uint32_t value)
{
    uint32_t word = __builtin_bswap32(value);
    memcpy(to, &word, 4);
}

static baseline_replaced refusal(uint64_t number, uint64_t place)
{
    return (baseline_replaced){number, place, 0, 0};
}

INLINE size_t sample_bytes(const uint8_t *block)
{
    return (size_t)read_4(block) * read_4(block + 4);
}

/* The instruments from a place on. Returns the number of loops that were cleared. */
static uint64_t clear_loops(uint8_t *at, unsigned instruments, size_t sample, uint64_t frames)
{
    uint64_t cleared = 0;
    for (; instruments > 0; instruments--, at += INST_BYTES) {
        uint64_t loop = read_4(at + 42);
        if (read_2(at + 30) != sample || loop == 0 || (at[49] & 3) == 0)
            continue;
        if (read_4(at + 38) + loop <= frames)
            continue;
        memset(at + 38, 0, 8);
        memset(at + 48, 0, 2);
        cleared++;
    }
    return cleared;
}

/* 18, 19, 1 and 17 for an accepted module. */
static baseline_replaced replace(
    const layout *found, size_t length, size_t sample,
    const uint8_t *frames, size_t frames_length, uint8_t *out, size_t out_length)
{
    if (sample == 0 || sample > found->samples)
        return refusal(18, 0);
    if (frames_length % 2 != 0)
        return refusal(19, 0);
    const uint8_t *module = found->module;
    const uint8_t *block = found->chunks[SMPL].data;
    for (size_t before = sample - 1; before > 0; before--)
        block += SMPL_BYTES + sample_bytes(block);
    size_t old = sample_bytes(block);
    if (frames_length > MOST_BYTES - (length - old))
        return refusal(1, 0);
    size_t needed = length - old + frames_length;
    if (out_length < needed)
        return refusal(17, needed);

    size_t start = (size_t)(block - module);
    size_t end = start + SMPL_BYTES + old;
    uint8_t *new = out + start;
    memcpy(out, module, start);
    store_4(new, 2);
    store_4(new + 4, (uint32_t)(frames_length / 2));
    memcpy(new + SMPL_BYTES, frames, frames_length);
    memcpy(new + SMPL_BYTES + frames_length, module + end, length - end);
    chunk smpl = found->chunks[SMPL];
    store_4(out + (smpl.data - module) - 4, (uint32_t)(smpl.length - old + frames_length));

    size_t inst = (size_t)(found->chunks[INST].data - module);
    if (inst > start)
        inst = inst - old + frames_length;
    uint64_t cleared = clear_loops(out + inst, found->instruments, sample, frames_length / 2);
    return (baseline_replaced){0, 0, needed, cleared};
}

baseline_replaced plain_replace_sample(
    const uint8_t *module, size_t length, size_t sample,
    const uint8_t *frames, size_t frames_length, uint8_t *out, size_t out_length)
{
    layout found;
    baseline_verdict verdict = plain_check(&found, module, length);
    if (verdict.number != 0)
        return refusal(verdict.number, verdict.place);
    return replace(&found, length, sample, frames, frames_length, out, out_length);
}

baseline_replaced expert_replace_sample(
    const uint8_t *module, size_t length, size_t sample,
    const uint8_t *frames, size_t frames_length, uint8_t *out, size_t out_length)
{
    layout found;
    baseline_verdict verdict = expert_check(&found, module, length);
    if (verdict.number != 0)
        return refusal(verdict.number, verdict.place);
    return replace(&found, length, sample, frames, frames_length, out, out_length);
}
