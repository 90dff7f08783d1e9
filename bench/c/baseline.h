/*
 * Shared by both baselines: the answers and the refusals.
 */

#ifndef BASELINE_H
#define BASELINE_H

#include <stddef.h>
#include <stdint.h>

/* Before a function of a header that some of the sources do not call. */
#define UNUSED __attribute__((unused))

typedef struct {
    uint64_t number;
    uint64_t place;
    uint64_t length;
} baseline_answer;

/* The answer of the check of a module. Number 0: no refusal. */
typedef struct {
    uint64_t number;
    uint64_t place;
} baseline_verdict;

static inline baseline_answer written(uint64_t length)
{
    return (baseline_answer){0, 0, length};
}

static inline baseline_answer broken(uint64_t place)
{
    return (baseline_answer){15, place, 0};
}

static inline baseline_answer out_of_range(void)
{
    return (baseline_answer){16, 0, 0};
}

static inline baseline_answer too_short(uint64_t needed)
{
    return (baseline_answer){17, needed, 0};
}

static inline int sizes_fit(uint64_t rows, uint64_t tracks)
{
    return rows <= 65535 && tracks >= 4 && tracks <= 254 && tracks % 2 == 0;
}

#endif
