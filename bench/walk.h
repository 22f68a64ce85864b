/* The scope's faithful walk in C, undivided, for comparison with the library's. */
#ifndef WALK_H
#define WALK_H

#include <stddef.h>
#include <stdint.h>

/* What the library's call answers: 0, or the number of the refusal; the sum, and the rounds closed. */
struct answer {
    uint32_t refused, place, rounds;
    double sum;
};

/* Two of them. `plain` (walk.c) goes through the list in plain passes: one judges, one copies, one finds the largest magnitude, and each round is a serial sum.
   `best` (best.c) is the fastest that is known. The compiler's name stands before them, since each is compiled by two. */
#define WALK_JOIN(compiler, name) compiler##_##name
#define WALK_NAME(compiler, name) WALK_JOIN(compiler, name)

#define WALK_DECLARE(compiler)                                                                            \
    struct answer WALK_NAME(compiler, plain)(const uint64_t *list, size_t n, double *work, size_t room); \
    struct answer WALK_NAME(compiler, best)(const uint64_t *list, size_t n, double *work, size_t room);

#endif
