/* What both walks in C take from docs/SCOPE.md: the limits, powers of two, and the judgement of a list. */
#ifndef SCOPE_H
#define SCOPE_H

#include "walk.h"

enum { LENGTH = 4094 };

static const uint64_t MAGNITUDE = 0x7E70000000000000, INFINITE = 0x7FF0000000000000, UNSIGNED = 0x7FFFFFFFFFFFFFFF, NORMAL = 0x0010000000000000;

union bits {
    uint64_t pattern;
    double number;
};

static inline double of_bits(uint64_t p)
{
    return (union bits){.pattern = p}.number;
}

static inline uint64_t to_bits(double x)
{
    return (union bits){.number = x}.pattern;
}

/* 2^(k - 1074) */
static inline double power(unsigned k)
{
    return of_bits(k < 52 ? (uint64_t)1 << k : (uint64_t)(k - 51) << 52);
}

/* The least e with mu at most 2^e units. */
static inline unsigned ceiling(uint64_t mu)
{
    if (mu < NORMAL)
        return mu < 2 ? 0 : 64 - (unsigned)__builtin_clzll(mu - 1);
    return (unsigned)(mu >> 52) + (mu % NORMAL == 0 ? 51 : 52);
}

/* M, rule L7 */
static inline unsigned spread(size_t n)
{
    return 64 - (unsigned)__builtin_clzll(n + 1);
}

static inline uint32_t fault(uint64_t p)
{
    uint64_t magnitude = p & UNSIGNED;
    return magnitude >= INFINITE ? 2 : magnitude > MAGNITUDE ? 3 : 0;
}

static inline struct answer refusal(const uint64_t *list, size_t n)
{
    struct answer a = {0, 0, 0, 0.0};
    for (size_t i = 0; i < n && !a.refused; i++) {
        a.refused = fault(list[i]);
        a.place = (uint32_t)i;
    }
    return a;
}

#endif
