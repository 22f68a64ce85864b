/* What is timed: the lists, and one function for each sum. */
#ifndef SUMS_H
#define SUMS_H

#include <gmp.h>
#include <mpfr.h>
#include <string.h>

#include "kewohiata.h"
#include "walk.h"

WALK_DECLARE(gcc)
WALK_DECLARE(clang)

/* Adds a list to lanes by the inner addition, crates/timed: 0, or a refusal's number. The library's archive hasn't got it. */
uint32_t timed_lanes(const uint64_t *list, size_t n, int64_t *lanes, size_t length);

enum { LENGTH = KEWOHIATA_LIST_MOST, WORDS = KEWOHIATA_WORDS, LANES = KEWOHIATA_LANES, STATE = KEWOHIATA_STATE, SUMS = 18 };

/* A list as patterns, and as MPFR's numbers of 53 bits. */
struct list {
    const uint64_t *patterns;
    size_t n;
    mpfr_t *numbers;
    mpfr_ptr *pointers;
};

/* The arrays that the sums are lent: the walk's, a call's values, a register in words, one in bytes and one in lanes, with the calls that it took since it was
   settled. Of a walk in C a refusal's number and place, and the rounds. MPFR's result has 53 bits. */
extern double work[LENGTH];
extern uint64_t values[STATE], words[WORDS];
extern uint8_t bytes[8 * WORDS];
extern int64_t lanes[LANES];
extern uint64_t taken;
extern uint32_t told[3];
extern mpfr_t result;

/* Each answers its sum, but `opening`, and but those of a register, `additions`, `additions_call`, `lane_additions`, `inner_additions` and `settling`, which
   answer 0 where every call was accepted. */
double naive(const struct list *l), walk_gcc(const struct list *l), walk_clang(const struct list *l), best_gcc(const struct list *l);
double best_clang(const struct list *l), undivided(const struct list *l), by_blocks(const struct list *l), faithful_call(const struct list *l);
double nearest(const struct list *l), nearest_call(const struct list *l), additions(const struct list *l), additions_call(const struct list *l);
double opening(const struct list *l), lane_additions(const struct list *l), inner_additions(const struct list *l), settling(const struct list *l);
double mpfr(const struct list *l), mpfr_converted(const struct list *l);

/* in the order of table.py's names */
extern double (*const sums[SUMS])(const struct list *);

#endif
