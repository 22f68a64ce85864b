/* The sums that are timed, each on one list. */
#include "sums.h"

double work[LENGTH];
uint64_t values[STATE], words[WORDS];
uint8_t bytes[8 * WORDS];
int64_t lanes[LANES];
uint64_t taken;
uint32_t told[3];
mpfr_t result;

double naive(const struct list *l)
{
    double sum = 0.0;
    for (size_t i = 0; i < l->n; i++)
        sum += kewohiata_double(l->patterns[i]);
    return sum;
}

static double handed(struct answer a)
{
    told[0] = a.refused;
    told[1] = a.place;
    told[2] = a.rounds;
    return a.sum;
}

double walk_gcc(const struct list *l) { return handed(gcc_plain(l->patterns, l->n, work, l->n)); }
double walk_clang(const struct list *l) { return handed(clang_plain(l->patterns, l->n, work, l->n)); }
double best_gcc(const struct list *l) { return handed(gcc_best(l->patterns, l->n, work, l->n)); }
double best_clang(const struct list *l) { return handed(clang_best(l->patterns, l->n, work, l->n)); }

/* The sum of a call's values, where it was accepted. */
static double sum_in_values(uint32_t code) { return kewohiata_double(code == 0 ? values[0] : UINT64_MAX); }

double undivided(const struct list *l) { return sum_in_values(kewohiata_walk_faithful(l->patterns, l->n, work, l->n, values, 2)); }
double nearest(const struct list *l) { return sum_in_values(kewohiata_list_nearest(l->patterns, l->n, values, 1)); }

/* what the undivided call begins with; its sigma is answered */
double opening(const struct list *l)
{
    kewohiata_walk_open(l->patterns, l->n, work, l->n, values, STATE, 0);
    return kewohiata_double(values[KEWOHIATA_STATE_SIGMA]);
}

/* blocks in rising order */
double by_blocks(const struct list *l)
{
    size_t last = (l->n + 63) / 64 - 1, block = 0;
    uint32_t code = kewohiata_walk_open(l->patterns, l->n, work, l->n, values, STATE, 0);
    while (code == 0 && values[KEWOHIATA_STATE_KIND] == KEWOHIATA_MORE) {
        code = kewohiata_walk_step(values, STATE, work, l->n, block, 0);
        block = block == last ? 0 : block + 1;
    }
    return kewohiata_double(code == 0 ? values[KEWOHIATA_DONE_SUM] : UINT64_MAX);
}

static double sum_in_bytes(uint32_t code, const uint8_t *out)
{
    uint64_t p = UINT64_MAX;
    if (code == 0)
        memcpy(&p, out, sizeof p);
    return kewohiata_double(p);
}

double faithful_call(const struct list *l)
{
    uint8_t out[16];
    return sum_in_bytes(kewohiata_faithful((const uint8_t *)l->patterns, 8 * l->n, out, 16), out);
}

double nearest_call(const struct list *l)
{
    uint8_t out[16];
    return sum_in_bytes(kewohiata_nearest((const uint8_t *)l->patterns, 8 * l->n, out, 16), out);
}

/* n additions to an empty register: the answer says whether all were accepted */
double additions(const struct list *l)
{
    uint32_t said = 0;
    memset(words, 0, sizeof words);
    for (size_t i = 0; i < l->n; i++)
        said |= kewohiata_words_add(words, WORDS, l->patterns[i]);
    return said;
}

double additions_call(const struct list *l)
{
    uint32_t said = 0;
    memset(bytes, 0, sizeof bytes);
    for (size_t i = 0; i < l->n; i++)
        said |= kewohiata_register_add(bytes, sizeof bytes, l->patterns[i]);
    return said;
}

/* n additions to empty lanes */
double lane_additions(const struct list *l)
{
    uint32_t said = 0;
    taken = 0;
    memset(lanes, 0, sizeof lanes);
    for (size_t i = 0; i < l->n; i++)
        said |= kewohiata_lanes_add(lanes, LANES, taken, l->patterns[i], &taken, 1);
    return said;
}

/* the same by the inner addition, of the crate `timed`: one public addition, of 0, comes before */
double inner_additions(const struct list *l)
{
    taken = l->n + 1;
    memset(lanes, 0, sizeof lanes);
    return timed_lanes(l->patterns, l->n, lanes, LANES);
}

/* of the lanes that the last call left: what they hold makes no difference to the time */
double settling(const struct list *l)
{
    (void)l;
    return kewohiata_lanes_settle(lanes, LANES, taken, words, WORDS, &taken, 1);
}

/* of numbers that were converted before */
double mpfr(const struct list *l)
{
    mpfr_sum(result, l->pointers, l->n, MPFR_RNDN);
    return mpfr_get_d(result, MPFR_RNDN);
}

double mpfr_converted(const struct list *l)
{
    for (size_t i = 0; i < l->n; i++)
        mpfr_set_d(l->numbers[i], kewohiata_double(l->patterns[i]), MPFR_RNDN);
    return mpfr(l);
}

double (*const sums[SUMS])(const struct list *) = {
    naive,        walk_gcc,  walk_clang,     best_gcc,     best_clang,    undivided, opening, by_blocks,      faithful_call, nearest,
    nearest_call, additions, additions_call, lane_additions, inner_additions, settling,  mpfr,    mpfr_converted,
};
