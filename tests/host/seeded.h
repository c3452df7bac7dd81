/* Numbers from a seed: the SplitMix64 sequence. */
#ifndef HOST_SEEDED_H
#define HOST_SEEDED_H

#include <stdint.h>

struct seeded {
    uint64_t state;
};

static inline uint64_t next_number(struct seeded *from)
{
    uint64_t z = from->state += UINT64_C(0x9E3779B97F4A7C15);
    z = (z ^ (z >> 30)) * UINT64_C(0xBF58476D1CE4E5B9);
    z = (z ^ (z >> 27)) * UINT64_C(0x94D049BB133111EB);
    return z ^ (z >> 31);
}

/* 0 to limit - 1. */
static inline uint32_t below(struct seeded *from, uint32_t limit)
{
    return (uint32_t)(((next_number(from) >> 32) * limit) >> 32);
}

/* True once in so many draws. */
static inline int once_in(struct seeded *from, uint32_t many)
{
    return below(from, many) == 0;
}

#endif
