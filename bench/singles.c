/* Times the sums of singles on lists from a file, for bench/singles. requests.h has the form of the file and of the requests; a check prints the nearest sums. */
#include <gmp.h>
#include <mpfr.h>
#include <stdlib.h>
#include <string.h>

#include "kewohiata.h"
#include "requests.h"

enum { LENGTH = KEWOHIATA_SINGLES_MOST, STATE = KEWOHIATA_STATE, DIGITS = 24 };

static const uint32_t *patterns; /* of the case's lists, one behind the other */
static size_t n;
static float work[LENGTH], remainders[LENGTH];
static uint64_t values[STATE];
static volatile float sink;

/* ---- the sums */
static float naive(const uint32_t *list)
{
    float sum = 0.0f;
    for (size_t i = 0; i < n; i++)
        sum += kewohiata_single(list[i]);
    return sum;
}

/* in a double, rounded once more at the end: what is usual, and not faithful */
static float in_double(const uint32_t *list)
{
    double sum = 0.0;
    for (size_t i = 0; i < n; i++)
        sum += (double)kewohiata_single(list[i]);
    return (float)sum;
}

static float undivided(const uint32_t *list)
{
    uint32_t code = kewohiata_single_faithful(list, n, work, n, values, KEWOHIATA_FAITHFUL);
    return kewohiata_single(code == 0 ? (uint32_t)values[0] : UINT32_MAX);
}

/* blocks in rising order */
static float by_blocks(const uint32_t *list)
{
    size_t last = kewohiata_blocks(n) - 1, block = 0;
    uint32_t code = kewohiata_single_open(list, n, work, n, values, STATE, 0);
    while (code == 0 && values[KEWOHIATA_STATE_KIND] == KEWOHIATA_MORE) {
        code = kewohiata_single_step(values, STATE, work, n, block, 0);
        block = block == last ? 0 : block + 1;
    }
    return kewohiata_single(code == 0 ? (uint32_t)values[KEWOHIATA_DONE_SUM] : UINT32_MAX);
}

static float nearest(const uint32_t *list)
{
    uint32_t code = kewohiata_single_nearest(list, n, values, KEWOHIATA_VALUE);
    return kewohiata_single(code == 0 ? (uint32_t)values[0] : UINT32_MAX);
}

/* in the order of bench/singles */
static float (*const sums[])(const uint32_t *) = {naive, in_double, undivided, by_blocks, nearest};

/* ---- the comparisons */
/* MPFR's exact sum, rounded to 24 digits. The lists' sums are no subnormal numbers, of which MPFR knows nothing. */
static float by_mpfr(const uint32_t *list)
{
    mpfr_t numbers[LENGTH], sum;
    mpfr_ptr pointers[LENGTH];
    float rounded;
    mpfr_init2(sum, DIGITS);
    for (size_t i = 0; i < n; i++) {
        mpfr_init2(numbers[i], DIGITS);
        mpfr_set_flt(numbers[i], kewohiata_single(list[i]), MPFR_RNDN);
        pointers[i] = numbers[i];
    }
    mpfr_sum(sum, pointers, n, MPFR_RNDN);
    rounded = mpfr_get_flt(sum, MPFR_RNDN);
    for (size_t i = 0; i < n; i++)
        mpfr_clear(numbers[i]);
    mpfr_clear(sum);
    return rounded;
}

static const char *differs(size_t k)
{
    const uint32_t *list = patterns + k * n;
    uint32_t near = kewohiata_single_pattern(nearest(list)), faithful = kewohiata_single_pattern(undivided(list));
    uint64_t rounds = values[1];
    memcpy(remainders, work, sizeof work);
    if (near != kewohiata_single_pattern(by_mpfr(list)))
        return "a nearest sum";
    if (faithful + 1 - near > 2) /* the nearest or a neighbour: patterns of one sign are in order */
        return "a faithful sum";
    if (kewohiata_single_pattern(by_blocks(list)) != faithful || values[KEWOHIATA_DONE_ROUNDS] != rounds || memcmp(work, remainders, n * sizeof *work))
        return "the walk by blocks";
    return NULL;
}

/* ---- the requests */
static void begin(const struct suite *s)
{
    patterns = s->patterns;
    n = s->n;
}

static void end(const struct suite *s)
{
    (void)s;
}

static void call(size_t sum, size_t k)
{
    sink = sums[sum](patterns + k * n);
}

static uint64_t told(size_t k)
{
    return kewohiata_single_pattern(nearest(patterns + k * n));
}

int main(int argc, char **argv)
{
    static const struct driver driver = {sizeof(uint32_t), LENGTH, sizeof sums / sizeof *sums, begin, end, call, differs, told};
    answer_requests(argc > 1 ? argv[1] : "", &driver);
    return 0;
}
