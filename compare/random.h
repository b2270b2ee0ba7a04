/* A small generator of numbers (splitmix64), so that a seed gives the same cases everywhere. */
#ifndef RANDOM_H
#define RANDOM_H

#include <stdbool.h>
#include <stdint.h>

struct random { uint64_t state; };

static inline uint64_t draw(struct random *r)
{
    uint64_t z = r->state += UINT64_C(0x9E3779B97F4A7C15);
    z = (z ^ (z >> 30)) * UINT64_C(0xBF58476D1CE4E5B9);
    z = (z ^ (z >> 27)) * UINT64_C(0x94D049BB133111EB);
    return z ^ (z >> 31);
}

/* The source of one case: the seed and the case's index decide it alone. */
static inline struct random random_of(uint64_t seed, uint64_t index)
{
    struct random r = { seed * UINT64_C(0xD1342543DE82EF95) + index };
    r.state = draw(&r);
    return r;
}

/* A number below `count`; 0 when that is 0. */
static inline unsigned pick(struct random *r, unsigned count)
{
    return count == 0 ? 0 : (unsigned)((draw(r) >> 32) % count);
}

static inline unsigned pick_from(struct random *r, unsigned least, unsigned most) { return least + pick(r, most - least + 1); }

static inline bool chance(struct random *r, unsigned percent) { return pick(r, 100) < percent; }

/* A random set of numbers below `count`, each a member with that chance. */
static inline uint32_t pick_set(struct random *r, unsigned count, unsigned percent)
{
    uint32_t set = 0;
    for (unsigned k = 0; k < count; k++)
        if (chance(r, percent)) set |= (uint32_t)1 << k;
    return set;
}

/* A random place in a table of weights. */
static inline unsigned pick_weighted(struct random *r, const unsigned *weights, unsigned count)
{
    unsigned sum = 0, k = 0;
    for (unsigned i = 0; i < count; i++) sum += weights[i];
    unsigned left = pick(r, sum);
    while (left >= weights[k]) left -= weights[k++];
    return k;
}

#endif
