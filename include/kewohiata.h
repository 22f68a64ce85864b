/* Kewohiata: exact arithmetic for clocks that leave. The library's calls, with the C calling convention, for C99 and C++11 on.
 *
 * The numbers of rules, as in "rule C3", are those of docs/SCOPE.md.
 *
 * Numbers (rules L4 and L5). A number is given as its IEEE 754 binary64 pattern: kewohiata_pattern and kewohiata_double go between the two. A list has at
 * most 4,094 numbers, none beyond 2^1000 in magnitude; of pairs, whose products are taken, there are at most 2,047 (rules M1 and M2).
 *
 * Singles (rules Y1 and Y2). The four calls kewohiata_single_.. take binary32 patterns, in 32-bit numbers, of at most 2,046 numbers, none beyond 2^100 in
 * magnitude; what is said of doubles and of their limits is said of singles and theirs there.
 *
 * Codes (rule C3). Each call returns 0, or the number of a refusal plus 32 * (place + 1) where a place is told: kewohiata_refusal and kewohiata_place take a
 * code apart. A refused call writes nothing. Beside a call stands the order in which its refusals are told where more than one holds; docs/REFUSALS.md has
 * all of it.
 *
 * Floating-point environment (rule C12). The calls of the walk add doubles: kewohiata_faithful, kewohiata_walk_open, kewohiata_walk_step and
 * kewohiata_walk_faithful; or singles: kewohiata_single_open, kewohiata_single_step and kewohiata_single_faithful. Those on pairs multiply and add doubles:
 * kewohiata_pairs_products and kewohiata_pairs_nearest. They need the calling thread to round to nearest, to keep subnormal results (no flush-to-zero) and
 * to read subnormal operands as they are (no denormals-as-zero), and to trap no floating-point exception; else they may return 0 with a wrong sum or
 * product. A program that was linked with -Ofast or -ffast-math may start with both switched on: ask kewohiata_environment once per thread, before the first
 * of these calls. All other calls work on whole numbers, make doubles and singles by their bits, and answer the same in every environment: nearest, parts,
 * grades, registers, lanes, weights, sheets.
 *
 * Outside the contract (rule C8), and nothing is promised of such a call: a null pointer (also with length 0), a length that isn't the array's, an array
 * that is not readable or not writable as its type says, an array of uint32_t, uint64_t, int64_t, float or double that isn't aligned as its type is, two
 * arrays of a call that overlap (but for the two of a merge, and of a call on pairs, that are only read, which may be one), an array that something else
 * writes to during the call, and a call of the walk or on pairs in another floating-point environment than the one above.
 *
 * The calls keep no state between each other, allocate nothing and may run at the same time on different arrays. A call takes a time that grows as n, the
 * list's length, where nothing else stands beside it. */
#ifndef KEWOHIATA_H
#define KEWOHIATA_H

#include <stddef.h>
#include <stdint.h>
#include <string.h>

#ifdef __cplusplus
extern "C" {
#endif

/* Below 1.0.0 calls may be added, and their forms and answers may still change; the second number tells it. */
#define KEWOHIATA_VERSION "0.13.0"
enum { KEWOHIATA_VERSION_MAJOR = 0, KEWOHIATA_VERSION_MINOR = 13, KEWOHIATA_VERSION_PATCH = 0 };

/* The refusals, rules R1 to R25. A code has room for numbers up to 31; those above 25 are kept for later ones. */
enum kewohiata_refusals {
    KEWOHIATA_ACCEPTED = 0,
    KEWOHIATA_TOO_MANY = 1,          /* more than 4,094 numbers, or more than 2,047 of pairs, or more than 2,046 singles */
    KEWOHIATA_NOT_FINITE = 2,        /* a NaN or infinity; its place is told */
    KEWOHIATA_TOO_LARGE = 3,         /* a finite number above 2^1000 in magnitude (pattern 7E70000000000000), or a single above 2^100 (71800000); its place is told */
    KEWOHIATA_WRONG_LENGTH = 4,      /* an array, but for that of the parts, has not the length that the call asks for */
    KEWOHIATA_WRONG_PARTS = 5,       /* no part, or more than 8 */
    KEWOHIATA_NO_SUCH_BLOCK = 6,     /* the list has no block of that number */
    KEWOHIATA_BLOCK_NOT_PENDING = 7, /* this round has had the block */
    KEWOHIATA_UNSOUND_NUMBERS = 8,   /* the state's n, rounds, sigma, t, tau or largest remainder is none that a walk can have */
    KEWOHIATA_REGISTER_FULL = 9,     /* the register's number would leave 2112 signed bits */
    KEWOHIATA_NO_FINITE_DOUBLE = 10, /* the register's number is beyond the doubles */
    KEWOHIATA_SHEET_TOO_SHORT = 11,  /* no whole header, or fewer numbers than it counts */
    KEWOHIATA_OTHER_VERSION = 12,    /* the sheet's version isn't 1 */
    KEWOHIATA_SHEET_TOO_LONG = 13,   /* bytes behind the numbers that the header counts */
    KEWOHIATA_NOT_A_WEIGHT = 14,     /* a weight below 0 or above 1, no whole multiple of 2^-30, or -0; its place is told */
    KEWOHIATA_WRONG_TOTAL = 15,      /* the weights' exact sum isn't 1 */
    KEWOHIATA_NO_SUCH_CLOCK = 16,    /* the leaver's place is none of the list */
    KEWOHIATA_NO_OTHER_WEIGHT = 17,  /* all weights but the leaver's are zero */
    KEWOHIATA_UNSOUND_SET = 18,      /* the state's pending set is empty, or has a block that the list hasn't */
    KEWOHIATA_UNSOUND_WORK = 19,     /* a work number that isn't finite, or too large for the state's sigma; its place is told, the lowest */
    KEWOHIATA_CLAIM_NOT_FINITE = 20, /* the claim is a NaN or infinity */
    KEWOHIATA_OTHER_ENSEMBLE = 21,   /* the state is of another ensemble than the step names */
    KEWOHIATA_LENGTHS_DIFFER = 22,   /* two lists that should make pairs have different lengths */
    KEWOHIATA_FACTOR_OUTSIDE = 23,   /* a number of a pair that isn't zero, and of magnitude below 2^-400 or above 2^400; the pair's place is told */
    KEWOHIATA_TOO_MANY_CALLS = 24,   /* the lanes have taken 2^30 additions and withdrawals: they have to be settled first */
    KEWOHIATA_NO_ROOM = 25           /* the count is above 2^30, or a lane holds more than so many calls could have left in it */
};

/* The lengths. */
enum kewohiata_lengths {
    KEWOHIATA_LIST_MOST = 4094,         /* numbers of a list, at most */
    KEWOHIATA_LIST_BYTES_MOST = 32752,  /* the same in bytes */
    KEWOHIATA_PAIRS_MOST = 2047,        /* pairs, at most: they make two numbers each */
    KEWOHIATA_BLOCK = 64,               /* numbers of a block; a list's last may have fewer */
    KEWOHIATA_STATE = 10,               /* numbers of a state */
    KEWOHIATA_FAITHFUL = 2,             /* numbers that kewohiata_walk_faithful and _single_faithful write: pattern, rounds */
    KEWOHIATA_VALUE = 1,                /* numbers of `out` where a call tells one: nearest, parts, grade, round, lanes, pairs_nearest, sheet_read, sheet_write */
    KEWOHIATA_REPORT = 4,               /* numbers that kewohiata_sheet_rescue reports */
    KEWOHIATA_SUM_BYTES = 16,           /* bytes of a sum of the calls on bytes */
    KEWOHIATA_WORDS = 33,               /* words of a register */
    KEWOHIATA_REGISTER_BYTES = 264,     /* the same in bytes */
    KEWOHIATA_LANES = 66,               /* lanes of a register that carries later */
    KEWOHIATA_CALLS_MOST = 1073741824,  /* additions and withdrawals that lanes take before they are settled, at most: 2^30 */
    KEWOHIATA_PARTS_MOST = 8,           /* parts of a sum, at most */
    KEWOHIATA_ROUNDS_MOST = 51,         /* rounds of a walk, at most */
    KEWOHIATA_SINGLES_MOST = 2046,      /* singles of a list, at most */
    KEWOHIATA_SINGLE_ROUNDS_MOST = 20,  /* rounds of a walk on singles, at most */
    KEWOHIATA_SHEET_HEADER = 5,         /* bytes of a sheet before its numbers, of 8 bytes each */
    KEWOHIATA_SHEET_BYTES_MOST = 32757  /* bytes of a sheet, at most */
};

/* What a state's numbers are, by their places (rule C11). A step reads all but the first and the last. */
enum kewohiata_states {
    KEWOHIATA_STATE_KIND = 0, /* KEWOHIATA_MORE or KEWOHIATA_DONE */
    KEWOHIATA_STATE_SIGMA = 1,
    KEWOHIATA_STATE_T = 2,
    KEWOHIATA_STATE_TAU = 3, /* these three are patterns */
    KEWOHIATA_STATE_N = 4,
    KEWOHIATA_STATE_PENDING = 5,  /* bit b is 1 while block b is to be taken in this round */
    KEWOHIATA_STATE_ROUNDS = 6,   /* rounds closed */
    KEWOHIATA_STATE_ENSEMBLE = 7, /* the number given at the opening */
    KEWOHIATA_STATE_LARGEST = 8,  /* the largest remainder of this round so far, a pattern: +0 as a round opens (rule WS13) */
    KEWOHIATA_STATE_TOLD = 9,     /* for the caller: the largest remainder of the round of the step just made, a pattern (rule WS14) */
    KEWOHIATA_DONE_SUM = 1,
    KEWOHIATA_DONE_ROUNDS = 2 /* of a finished walk: the sum's pattern and the rounds; the rest is 0 */
};
enum kewohiata_kinds { KEWOHIATA_MORE = 1, KEWOHIATA_DONE = 2 };

/* The grades of a claimed sum, rules Q2 to Q5, the best first. */
enum kewohiata_grades { KEWOHIATA_GRADE_EXACT = 0, KEWOHIATA_GRADE_NEAREST = 1, KEWOHIATA_GRADE_FAITHFUL = 2, KEWOHIATA_GRADE_WRONG = 3 };

/* What a rescue's report has at its four places, rule H10. */
enum kewohiata_reports {
    KEWOHIATA_REPORT_WRITTEN = 0, /* bytes of the rescued sheet */
    KEWOHIATA_REPORT_TAKEN = 1,   /* whole entries, at most as many as the header counts: so many marks are written */
    KEWOHIATA_REPORT_MISSING = 2, /* entries that the header counts and that weren't there whole */
    KEWOHIATA_REPORT_OVER = 3     /* bytes behind the last entry taken, or behind the header where none is */
};

/* The mark of an entry, rule H9. */
enum kewohiata_marks { KEWOHIATA_MARK_KEPT = 0, KEWOHIATA_MARK_NOT_FINITE = 1, KEWOHIATA_MARK_TOO_LARGE = 2 };

/* ---- helpers: none of them is a call into the archive */

/* A double's pattern, and the double of a pattern. */
static inline uint64_t kewohiata_pattern(double x)
{
    uint64_t pattern;
    memcpy(&pattern, &x, sizeof pattern);
    return pattern;
}

static inline double kewohiata_double(uint64_t pattern)
{
    double x;
    memcpy(&x, &pattern, sizeof x);
    return x;
}

/* The same for a single. */
static inline uint32_t kewohiata_single_pattern(float x)
{
    uint32_t pattern;
    memcpy(&pattern, &x, sizeof pattern);
    return pattern;
}

static inline float kewohiata_single(uint32_t pattern)
{
    float x;
    memcpy(&x, &pattern, sizeof x);
    return x;
}

/* A code's refusal, 0 for an accepted call; whether it tells a place; and that place, counted from 0, where it does. */
static inline uint32_t kewohiata_refusal(uint32_t code)
{
    return code % 32;
}

static inline int kewohiata_tells_place(uint32_t code)
{
    return code >= 32;
}

static inline uint32_t kewohiata_place(uint32_t code)
{
    return code / 32 - 1;
}

/* How many blocks a list of n numbers has: they are 0 to one less. */
static inline size_t kewohiata_blocks(size_t n)
{
    return (n + KEWOHIATA_BLOCK - 1) / KEWOHIATA_BLOCK;
}

/* Whether two numbers, given and compared as patterns, add up in this thread to what round to nearest makes of them. What is volatile is neither computed by
 * the compiler nor moved; the bits are compared, since a comparison of doubles would itself read a subnormal as zero. */
static inline int kewohiata_adds(uint64_t a, uint64_t b, uint64_t sum)
{
    volatile double x = kewohiata_double(a), y = kewohiata_double(b), s;
    s = x + y;
    return kewohiata_pattern(s) == sum;
}

/* 1 where rounding and subnormal numbers are in the calling thread as the calls of the walk need them, else 0; exceptions that are trapped it can't tell. It may
 * raise the flags inexact and underflow. It adds doubles: what it asks about is one setting of the thread for both widths. */
static inline int kewohiata_environment(void)
{
    const uint64_t sign = (uint64_t)1 << 63, one = (uint64_t)0x3FF << 52, half = (uint64_t)0x3CA << 52, least_normal = (uint64_t)1 << 52;
    /* 1 and half of its last place: upward doesn't stay at 1, nor downward at -1 */
    int good = kewohiata_adds(one, half, one) & kewohiata_adds(sign | one, sign | half, sign | one);
    /* the same above the next double, where a tie goes away from zero: neither downward nor towards zero does, nor upward below zero */
    good &= kewohiata_adds(one + 1, half, one + 2) & kewohiata_adds(sign | (one + 1), sign | half, sign | (one + 2));
    /* a subnormal result of normal numbers, a normal one of subnormals, and the least of all twice */
    good &= kewohiata_adds(least_normal + 1, sign | least_normal, 1) & kewohiata_adds(least_normal - 1, 1, least_normal) & kewohiata_adds(1, 1, 2);
    return good & kewohiata_adds(sign | 1, sign | 1, sign | 2);
}

/* ---- sums of a list, on the caller's own arrays (rules C9 and C10). list: the numbers' patterns. Rule S3, here and on bytes: a sum that is zero is -0 where
 * the list has numbers and each of them is -0, and +0 otherwise. */

/* Opens a walk by blocks (rules WO1 and C11): the list's numbers go to `work`, and the first state to `state`; or, where every number is zero, the finished
 * sum, which is rule S3's zero.
 * work: n doubles. state: 10 numbers, all of which are written; told is +0, since nothing is cut yet. ensemble: any number that the caller knows these clocks
 * by; every state of the walk has it.
 * Refusals: 1; 4; 2 or 3 of the lowest bad place. Needs the environment above. */
uint32_t kewohiata_walk_open(const uint64_t *list, size_t list_length, double *work, size_t work_length, uint64_t *state, size_t state_length,
                             uint32_t ensemble);

/* Takes one block (rule WB1). In a run from an opening any pending block may be the next; the step that takes the last one closes the round, and either ends
 * the walk (the state's first number is KEWOHIATA_DONE) or makes all blocks pending again. The sum and the rounds are those of kewohiata_walk_faithful in
 * any order.
 * What is still to be summed is shown by the number at KEWOHIATA_STATE_TOLD, a double's pattern: nothing that this round has left in its blocks so far is
 * larger in magnitude. The step that closes a round tells it of the whole list, while the state goes on from +0.
 * state, work: as the opening or the last accepted step left them. Others are stepped too where they are sound, and no sum is promised of them: every older
 * state of the same walk is sound over a newer area, and gives a wrong sum. block: 0 to kewohiata_blocks(n) - 1. ensemble: the number given at the opening
 * (rule WS12). It tells a state of another ensemble; whose the work area is, nothing tells.
 * Refusals: 4; 21; 8; 18; 19 of the lowest place at fault; 6; 7. Needs the environment above. Time: n at each step, since the whole work area is looked at, and
 * as much again at the finish. */
uint32_t kewohiata_walk_step(uint64_t *state, size_t state_length, double *work, size_t work_length, size_t block, uint32_t ensemble);

/* The faithful sum (rule S1): no double lies strictly between it and the exact sum, and where the exact sum is a double it is that one.
 * work: n doubles, which hold remainders afterwards. out: 2 numbers, the sum's pattern and the rounds, 0 to 51.
 * Refusals: 1; 4; 2 or 3 of the lowest bad place. Needs the environment above. Time: n for each round. */
uint32_t kewohiata_walk_faithful(const uint64_t *list, size_t list_length, double *work, size_t work_length, uint64_t *out, size_t out_length);

/* The nearest sum (rule S2): no double is nearer to the exact sum, at a tie the one with the even significand. out: 1 number, the sum's pattern.
 * Refusals: 1; 4; 2 or 3 of the lowest bad place. */
uint32_t kewohiata_list_nearest(const uint64_t *list, size_t list_length, uint64_t *out, size_t out_length);

/* The sum in parts (rules S4 and S5): the first is nearest to the exact sum, each next one to what is missing, and +0 where nothing is.
 * parts: 1 to 8 doubles, all of which are written. out: 1 number, 1 where the parts add up to the exact sum and else 0.
 * Refusals: 1; 4; 5; 2 or 3 of the lowest bad place. */
uint32_t kewohiata_list_parts(const uint64_t *list, size_t list_length, double *parts, size_t parts_length, uint64_t *out, size_t out_length);

/* Grades a sum that came from elsewhere (rules Q1 to Q5): whether it is the exact sum; else the nearest double; else a faithful one; else wrong.
 * claim: its pattern, of any finite double, also beyond 2^1000; -0 counts as zero. out: 1 number, a grade.
 * Refusals: 1; 4; 2 or 3 of the lowest bad place; 20. */
uint32_t kewohiata_list_grade(const uint64_t *list, size_t list_length, uint64_t claim, uint64_t *out, size_t out_length);

/* ---- sums of singles (rules Y1 to Y6), on the caller's own arrays. list: binary32 patterns, at most 2,046. What a call answers, its refusals and their
 * order are those of the call on doubles, with the limits of singles. */

/* Opens a walk by blocks on singles, as kewohiata_walk_open. work: n floats. state: the same 10 numbers, with 32-bit patterns in them.
 * Refusals: 1; 4; 2 or 3 of the lowest bad place. Needs the environment above. */
uint32_t kewohiata_single_open(const uint32_t *list, size_t list_length, float *work, size_t work_length, uint64_t *state, size_t state_length,
                               uint32_t ensemble);

/* Takes one block, as kewohiata_walk_step. A pattern above 32 bits among the state's sigma, t, tau and largest remainder is 8 (rule Y6).
 * Refusals: 4; 21; 8; 18; 19 of the lowest place at fault; 6; 7. Needs the environment above. Time: as there. */
uint32_t kewohiata_single_step(uint64_t *state, size_t state_length, float *work, size_t work_length, size_t block, uint32_t ensemble);

/* The faithful sum of singles (rule Y5): no single lies strictly between it and the exact sum, and where that is a single it is that one.
 * work: n floats, which hold remainders afterwards. out: 2 numbers, the sum's pattern and the rounds, 0 to 20.
 * Refusals: 1; 4; 2 or 3 of the lowest bad place. Needs the environment above. Time: n for each round. */
uint32_t kewohiata_single_faithful(const uint32_t *list, size_t list_length, float *work, size_t work_length, uint64_t *out, size_t out_length);

/* The nearest sum of singles (rule Y5): no single is nearer to the exact sum, at a tie the one with the even significand. out: 1 number, the sum's pattern.
 * Refusals: 1; 4; 2 or 3 of the lowest bad place. */
uint32_t kewohiata_single_nearest(const uint32_t *list, size_t list_length, uint64_t *out, size_t out_length);

/* ---- a register: 33 words, the lowest first, a whole number of units of 2^-1074 in two's complement; 33 zeros are the empty one. Time: that of 33 words. */

/* Adds one number to a register, or takes it out (rules G1, G2 and G6): the whole number changes by exactly the number's units, and what was added before
 * and is taken out leaves no trace. Refusals: 4; 2 or 3 with place 0; 9. */
uint32_t kewohiata_words_add(uint64_t *words, size_t words_length, uint64_t pattern);
uint32_t kewohiata_words_withdraw(uint64_t *words, size_t words_length, uint64_t pattern);

/* Merges two registers into a third (rules G7 and G8): its whole number is the sum of the two. Neither the order nor the grouping of merges matters where
 * none is refused, a register of zeros changes nothing, and what was added to one of the two and taken out of the other leaves no trace.
 * a, b: the two, which are only read. They may be the same array; `out` has to be another one, that overlaps neither: a total can't be merged onto itself.
 * out: 33 words, all of which are written. Refusals: 4 for any of the three; 9. */
uint32_t kewohiata_words_merge(const uint64_t *a, size_t a_length, const uint64_t *b, size_t b_length, uint64_t *out, size_t out_length);

/* The double nearest to a register (rule G4), at a tie the one with the even significand; zero gives +0. out: 1 number, its pattern. Refusals: 4; 10. */
uint32_t kewohiata_words_round(const uint64_t *words, size_t words_length, uint64_t *out, size_t out_length);

/* ---- a register that carries later (rules N1 to N5): 66 lanes, the lowest first, each a signed number that stands for 32 bits of the same whole number of
 * units; 66 zeros are the empty one. The carries stay in the lanes until they are settled. The caller keeps how many additions and withdrawals the lanes have
 * taken since then, and hands that count to each call: 0 to 2^30. lanes: 66 numbers. out: 1 number, the count for the next call. */

/* Adds one number to lanes, or takes it out (rules N3 and N6): at most three lanes change, and nothing ripples. But every lane is looked at first, whether it
 * has room: the time is that of 66 lanes, and an addition to words is usually the quicker call. Lanes that calls have left, handed in with the count that the
 * last one told, have room.
 * out: count + 1. Refusals: 4; 25; 2 or 3 with place 0; 24. */
uint32_t kewohiata_lanes_add(int64_t *lanes, size_t lanes_length, uint64_t count, uint64_t pattern, uint64_t *out, size_t out_length);
uint32_t kewohiata_lanes_withdraw(int64_t *lanes, size_t lanes_length, uint64_t count, uint64_t pattern, uint64_t *out, size_t out_length);

/* Settles lanes (rules N5 and N7 to N9): `words` becomes the register of the lanes' whole number, and each lane is from 0 to 2^32 - 1, the top one from -2^31
 * to 2^31 - 1. The whole number stays as it is. After at most 2^30 additions and withdrawals of allowed numbers from zeros, `words` is what
 * kewohiata_words_add and kewohiata_words_withdraw make of a register of zeros. Time: that of 66 lanes, four times.
 * words: 33 words, all of which are written. out: 0, since the count starts afresh. Refusals: 4 for any of the three; 25; 9, after which the lanes still hold
 * their number: withdrawals may bring it back into range, as long as the count is below 2^30; with the count 2^30 nothing does (rule N10). */
uint32_t kewohiata_lanes_settle(int64_t *lanes, size_t lanes_length, uint64_t count, uint64_t *words, size_t words_length, uint64_t *out, size_t out_length);

/* ---- weights: patterns of numbers from 0 to 1, each a whole multiple of 2^-30 and not -0, whose exact sum is 1 (rules V1 and V2) */

/* Hands on the weight of a clock that leaves (rules V3 to V5). Where it has w and another clock v, that one gains w * v / (1 - w), rounded down to a multiple
 * of 2^-30. What the rounding leaves goes out in single steps of 2^-30, from place 0 up, one for each other clock with a weight above 0 until none is left.
 * The leaver's new weight is +0. The new weights are a weight list again, and their exact sum is 1.
 * list: the weights. leaver: its place, from 0. out: n numbers, the new weights.
 * Refusals: 1; 4; 2 or 3 of the lowest bad place; 14 of the lowest; 15; 16; 17. */
uint32_t kewohiata_weights_hand_on(const uint64_t *list, size_t list_length, size_t leaver, uint64_t *out, size_t out_length);

/* ---- pairs: two lists of one length; the numbers at one place of both are a pair of factors, each zero or of a magnitude from 2^-400 to 2^400 (rules M1
 * and M2). a, b: the two lists' patterns. They may be one array, for squares. */

/* Multiplies pairs without losing anything (rules M4 to M7): of pair i the product, rounded to nearest, goes to place 2i of `out`, and to place 2i + 1 its exact
 * error, so that the two add up to the exact product. Where a factor is zero both are +0, and a zero error is +0. Every sum takes what was written,
 * and its exact sum is that of the products (rule M8): so kewohiata_walk_faithful of it is a faithful weighted sum.
 * out: 2n numbers, n being the length of either list.
 * Refusals: 1; 22; 4; 2 or 23 of the lowest bad pair, 2 where that has both. Needs the environment above. */
uint32_t kewohiata_pairs_products(const uint64_t *a, size_t a_length, const uint64_t *b, size_t b_length, uint64_t *out, size_t out_length);

/* The nearest weighted sum (rule M9): no double is nearer to the exact sum of the products, at a tie the one with the even significand; zero gives +0.
 * out: 1 number, its pattern. Refusals: 1; 22; 4; 2 or 23 of the lowest bad pair, 2 where that has both. Needs the environment above. */
uint32_t kewohiata_pairs_nearest(const uint64_t *a, size_t a_length, const uint64_t *b, size_t b_length, uint64_t *out, size_t out_length);

/* ---- a contribution sheet (rule H1): the byte 1, the count in 4 bytes, and 8 bytes for each number, all with the highest byte first */

/* Reads a sheet (rules H2 and H3): its patterns go to the first places of `area`; the rest of it stays. No number is judged. area: as many as the sheet
 * counts, or more.
 * out: 1 number, the count. Refusals: 11 for fewer than 5 bytes; 12; 1; 11; 13; 4. */
uint32_t kewohiata_sheet_read(const uint8_t *sheet, size_t sheet_length, uint64_t *area, size_t area_length, uint64_t *out, size_t out_length);

/* Writes a list as a sheet (rules H4 and H5): 5 + 8n bytes from the start of `sheet`; the rest of it stays. No number is judged, and a NaN's pattern is
 * written to the bit. kewohiata_sheet_read, handed these bytes and no more, gives the list back.
 * sheet: 5 + 8n bytes or more. out: 1 number, the bytes that were written. Refusals: 1; 4. */
uint32_t kewohiata_sheet_write(const uint64_t *list, size_t list_length, uint8_t *sheet, size_t sheet_length, uint64_t *out, size_t out_length);

/* Rescues what a damaged sheet still holds (rules H7 to H11): of the entries that are there whole, at most as many as the header counts, those that no list is
 * refused for become a sheet, in their order, at the start of `out_sheet`; each entry that was taken gets a mark at its place in `marks`. The rest of both
 * areas stays. kewohiata_sheet_read accepts the rescued sheet, cut to the bytes written, and no call refuses what is read with 1, 2 or 3.
 * sheet: the damaged bytes. out_sheet: 5 bytes and 8 for each entry kept, or more; 32,757 always suffice. marks: a byte for each entry taken, or more; 4,094
 * always suffice. report: 4 numbers: the bytes written, the entries taken, the entries missing, the bytes lying over.
 * Refusals: 11 for fewer than 5 bytes; 12; 1 for a count above 4,094, however few entries are there; 4. */
uint32_t kewohiata_sheet_rescue(
    const uint8_t *sheet, size_t sheet_length, uint8_t *out_sheet, size_t out_sheet_length, uint8_t *marks, size_t marks_length, uint64_t *report,
    size_t report_length);

/* ---- the calls on bytes (rules C1 to C7). Patterns and words lie least significant byte first, 8 bytes each, on every machine, and at any address. */

/* The faithful sum. list: 0 to 4,094 numbers of 8 bytes each. out: 16 bytes, the sum's pattern and then the rounds.
 * Refusals: 1 above 32,752 bytes; 4 where 8 doesn't divide the list's length too; 2 or 3 of the lowest bad place. Needs the environment above.
 * Time: n for each round. Stack: below 66,000 bytes, whatever the list's length. */
uint32_t kewohiata_faithful(const uint8_t *list, size_t list_length, uint8_t *out, size_t out_length);

/* The nearest sum. list, refusals: as above. out: 16 bytes, the sum's pattern and then 8 zeros. Stack: below 35,000 bytes, whatever the list's length. */
uint32_t kewohiata_nearest(const uint8_t *list, size_t list_length, uint8_t *out, size_t out_length);

/* Adds one number to a register of 264 bytes, its 33 words, or takes it out. Refusals: 4; 2 or 3 with place 0; 9. Stack: below 1,000 bytes. */
uint32_t kewohiata_register_add(uint8_t *register_bytes, size_t register_length, uint64_t pattern);
uint32_t kewohiata_register_withdraw(uint8_t *register_bytes, size_t register_length, uint64_t pattern);

#ifdef __cplusplus
}
#endif

#endif
