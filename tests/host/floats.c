/* The calls on binary32 numbers by the machine's own floats, written from the scope alone: a second model beside tests/walk.py's, which tests/host.py asks what
   it asks the library. It is no part of the library, and nothing of the library is used. */
#include "kewohiata.h"

#pragma STDC FP_CONTRACT OFF

#if __FLT_EVAL_METHOD__ != 0
#error "a sum of two floats has to be one rounding to a float"
#endif

enum { LENGTH = 2046, BLOCK = 64, STATE = 10, ROUNDS = 19 };
enum { TOO_MANY = 1, NOT_FINITE, TOO_LARGE, WRONG_LENGTH };
enum { NO_SUCH_BLOCK = 6, NOT_PENDING, UNSOUND_NUMBERS, UNSOUND_SET = 18, UNSOUND_WORK, OTHER_ENSEMBLE = 21 };

static const float LIMIT = 0x1p100f, CARRIED = 0x1p111f, LEAST_NORMAL = 0x1p-126f, LARGEST = 0x1.FFFFFEp127f;

struct walk {
    float sigma, t, tau, largest;
    uint64_t n, pending, rounds, ensemble;
};

static uint32_t pattern(float x)
{
    uint32_t p;
    memcpy(&p, &x, sizeof p);
    return p;
}

static float number(uint32_t p)
{
    float x;
    memcpy(&x, &p, sizeof x);
    return x;
}

static float magnitude(float x)
{
    return x < 0 ? -x : x;
}

static int is_negative(float x)
{
    return (int)(pattern(x) >> 31);
}

/* 2^k, where it is a float: by its bits, so that it is one in every environment */
static float power(int k)
{
    return number(k < -126 ? (uint32_t)1 << (k + 149) : (uint32_t)(k + 127) << 23);
}

/* the least k with 2^k at least n + 2, and the least with 2^k at least mu */
static int exponent(uint64_t n)
{
    int k = 0;
    while (((uint64_t)1 << k) < n + 2)
        k++;
    return k;
}

static int ceiling(float mu)
{
    int k = -149;
    while (k < 100 && power(k) < mu)
        k++;
    return k;
}

static uint64_t blocks(uint64_t n)
{
    return (n + BLOCK - 1) / BLOCK;
}

static uint32_t told(uint32_t refusal, size_t place)
{
    return refusal + 32 * ((uint32_t)place + 1);
}

/* ---- what is refused */
static uint32_t bad_list(const uint32_t *list, size_t n, int lengths_fit)
{
    if (n > LENGTH)
        return TOO_MANY;
    if (!lengths_fit)
        return WRONG_LENGTH;
    for (size_t i = 0; i < n; i++) {
        float x = magnitude(number(list[i]));
        if (!(x <= LIMIT))
            return told(x <= LARGEST ? TOO_LARGE : NOT_FINITE, i);
    }
    return 0;
}

/* one of the powers of two from 2^(M-149) to 2^(100+M) */
static int is_sigma(float sigma, int m)
{
    for (int k = -149; k <= 100; k++)
        if (sigma == power(k + m))
            return 1;
    return 0;
}

static uint32_t bad_state(const struct walk *s, const float *work)
{
    const int m = s->n <= LENGTH ? exponent(s->n) : 0;
    if (s->n == 0 || s->n > LENGTH || s->rounds > ROUNDS || !is_sigma(s->sigma, m))
        return UNSOUND_NUMBERS;
    if (!(magnitude(s->t) <= CARRIED && magnitude(s->tau) <= CARRIED && s->largest <= LARGEST && !is_negative(s->largest)))
        return UNSOUND_NUMBERS;
    if (s->largest > 0 && (double)s->largest * 0x1p24 > (double)s->sigma)
        return UNSOUND_NUMBERS;
    if (s->pending == 0 || (blocks(s->n) < 64 && s->pending >> blocks(s->n)))
        return UNSOUND_SET;
    for (size_t i = 0; i < s->n; i++)
        if (!(magnitude(work[i]) <= s->sigma / power(m)))
            return told(UNSOUND_WORK, i);
    return 0;
}

/* ---- the walk */
static void begin_round(struct walk *s, float sigma, float t)
{
    s->sigma = sigma;
    s->t = t;
    s->tau = 0;
    s->largest = 0;
    s->pending = blocks(s->n) < 64 ? ((uint64_t)1 << blocks(s->n)) - 1 : UINT64_MAX;
}

static void take_block(struct walk *s, float *work, size_t block)
{
    for (size_t i = BLOCK * block; i < BLOCK * (block + 1) && i < s->n; i++) {
        const float high = s->sigma + work[i], q = high - s->sigma;
        work[i] = work[i] - q;
        s->tau = s->tau + q;
        if (magnitude(work[i]) > s->largest)
            s->largest = magnitude(work[i]);
    }
    s->pending ^= (uint64_t)1 << block;
}

/* The four rules: whether the walk ends, with the sum. */
static int close_round(struct walk *s, const float *work, float *sum)
{
    const int m = exponent(s->n);
    const float t = s->t, tau = s->tau, total = t + tau;
    s->rounds++;
    if (total == 0) {
        if (s->largest > 0) {
            begin_round(s, power(m + ceiling(s->largest)), 0);
            return 0;
        }
        *sum = 0;
        return 1;
    }
    if (s->sigma <= LEAST_NORMAL || magnitude(total) >= power(2 * m + 1 - 24) * s->sigma) {
        float rest = 0, left = tau - (total - t);
        for (size_t i = 0; i < s->n; i++)
            rest = rest + work[i];
        left = left + rest;
        *sum = total + left;
        return 1;
    }
    begin_round(s, power(m - 24) * s->sigma, total);
    return 0;
}

/* A walk in ten numbers: what is told is the largest remainder of the round that was walked in. */
static void more(const struct walk *s, float largest, uint64_t *state)
{
    const uint64_t ten[STATE] = {1,          pattern(s->sigma), pattern(s->t), pattern(s->tau),     s->n,
                                 s->pending, s->rounds,         s->ensemble,   pattern(s->largest), pattern(largest)};
    memcpy(state, ten, sizeof ten);
}

static void done(float sum, uint64_t rounds, uint64_t *state)
{
    const uint64_t ten[STATE] = {2, pattern(sum), rounds};
    memcpy(state, ten, sizeof ten);
}

/* Whether the list is all zeros, and the sum then: as zeros are added, from the first on. */
static int begun(struct walk *s, const uint32_t *list, size_t n, float *work, float *sum)
{
    float mu = 0;
    *sum = n ? number(list[0]) : 0;
    for (size_t i = 0; i < n; i++) {
        work[i] = number(list[i]);
        if (magnitude(work[i]) > mu)
            mu = magnitude(work[i]);
        *sum = i ? *sum + work[i] : *sum;
    }
    s->n = n;
    s->rounds = 0;
    if (mu > 0)
        begin_round(s, power(exponent(n) + ceiling(mu)), 0);
    return mu == 0;
}

uint32_t kewohiata_single_open(const uint32_t *list, size_t n, float *work, size_t work_length, uint64_t *state, size_t state_length, uint32_t ensemble)
{
    struct walk s;
    float sum;
    const uint32_t refused = bad_list(list, n, work_length == n && state_length == STATE);
    if (refused)
        return refused;
    s.ensemble = ensemble;
    if (begun(&s, list, n, work, &sum))
        done(sum, 0, state);
    else
        more(&s, 0, state);
    return 0;
}

uint32_t kewohiata_single_step(uint64_t *state, size_t state_length, float *work, size_t work_length, size_t block, uint32_t ensemble)
{
    struct walk s;
    uint32_t refused;
    float sum, largest;
    if (state_length != STATE || work_length != state[4])
        return WRONG_LENGTH;
    if (state[7] != ensemble)
        return OTHER_ENSEMBLE;
    if ((state[1] | state[2] | state[3] | state[8]) > UINT32_MAX)
        return UNSOUND_NUMBERS;
    s = (struct walk){number((uint32_t)state[1]), number((uint32_t)state[2]), number((uint32_t)state[3]), number((uint32_t)state[8]),
                      state[4], state[5], state[6], state[7]};
    refused = bad_state(&s, work);
    if (refused)
        return refused;
    if (block >= blocks(s.n))
        return NO_SUCH_BLOCK;
    if (!(s.pending >> block & 1))
        return NOT_PENDING;
    take_block(&s, work, block);
    largest = s.largest;
    if (s.pending == 0 && close_round(&s, work, &sum))
        done(sum, s.rounds, state);
    else
        more(&s, largest, state);
    return 0;
}

uint32_t kewohiata_single_faithful(const uint32_t *list, size_t n, float *work, size_t work_length, uint64_t *out, size_t out_length)
{
    struct walk s;
    float sum = 0;
    const uint32_t refused = bad_list(list, n, work_length == n && out_length == 2);
    if (refused)
        return refused;
    if (!begun(&s, list, n, work, &sum))
        do /* in another environment there may be more rounds, and no end of them */
            for (size_t block = 0; block < blocks(n); block++)
                take_block(&s, work, block);
        while (!close_round(&s, work, &sum) && s.rounds <= ROUNDS);
    out[0] = pattern(sum);
    out[1] = s.rounds;
    return 0;
}

/* ---- the nearest sum: an integer of 288 bits, in digits of 32 */
enum { DIGITS = 9 };

static void digits_of(const uint32_t *list, size_t n, int64_t *digits)
{
    for (size_t i = 0; i < n; i++) {
        const uint32_t field = list[i] >> 23 & 0xFF, shift = field ? field - 1 : 0;
        const int64_t sign = list[i] >> 31 ? -1 : 1;
        const uint64_t shifted = (uint64_t)((list[i] & 0x7FFFFF) | (field ? 0x800000 : 0)) << shift % 32;
        digits[shift / 32] += sign * (int64_t)(shifted & UINT32_MAX);
        digits[shift / 32 + 1] += sign * (int64_t)(shifted >> 32);
    }
}

/* Carries, so that each digit but the last is from 0 to 2^32 - 1: whether the whole is negative. */
static int carried(int64_t *digits)
{
    for (int k = 0; k < DIGITS - 1; k++) {
        const int64_t low = digits[k] & UINT32_MAX;
        digits[k + 1] += (digits[k] - low) / ((int64_t)1 << 32);
        digits[k] = low;
    }
    return digits[DIGITS - 1] < 0;
}

static uint32_t bit(const int64_t *digits, int k)
{
    return (uint32_t)(digits[k / 32] >> k % 32 & 1);
}

/* The nearest pattern of a whole number of units that isn't negative: 24 digits from the leading one on, half of the last decides, at a tie the even one. */
static uint32_t rounded(const int64_t *digits)
{
    int top = 32 * DIGITS - 1, low;
    uint32_t significand = 0, below = 0;
    while (top > 23 && !bit(digits, top))
        top--;
    low = top - 23;
    for (int k = top; k >= low; k--)
        significand = significand << 1 | bit(digits, k);
    for (int k = 0; k < low - 1; k++)
        below |= bit(digits, k);
    significand += low && bit(digits, low - 1) && (below || significand & 1);
    return significand >> 23 ? (uint32_t)low * 0x800000 + significand : significand;
}

uint32_t kewohiata_single_nearest(const uint32_t *list, size_t n, uint64_t *out, size_t out_length)
{
    int64_t digits[DIGITS] = {0};
    uint32_t all = n ? 0x80000000 : 0, any = 0;
    const uint32_t refused = bad_list(list, n, out_length == 1);
    int negative;
    if (refused)
        return refused;
    digits_of(list, n, digits);
    negative = carried(digits);
    if (negative) {
        for (int k = 0; k < DIGITS; k++)
            digits[k] = -digits[k];
        carried(digits);
    }
    for (size_t i = 0; i < n; i++) {
        all &= list[i];
        any |= list[i] & 0x7FFFFFFF;
    }
    out[0] = rounded(digits) | (negative ? 0x80000000 : any ? 0 : all);
    return 0;
}
