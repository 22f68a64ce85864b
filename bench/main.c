/* Times the sums of doubles on lists from a file, for bench/run. requests.h has the form of the file and of the requests; a check prints the nearest sums behind
   its 'ok'. Work areas are not cleared before a call. */
#include <inttypes.h>
#include <stdio.h>
#include <stdlib.h>

#include "requests.h"
#include "sums.h"

static struct list *lists_of(const struct suite *s)
{
    struct list *lists = calloc(s->count, sizeof *lists);
    for (size_t k = 0; k < s->count; k++) {
        struct list *l = &lists[k];
        l->n = s->n;
        l->patterns = (const uint64_t *)s->patterns + k * s->n;
        l->numbers = calloc(s->n, sizeof *l->numbers);
        l->pointers = calloc(s->n, sizeof *l->pointers);
        for (size_t i = 0; i < s->n; i++) {
            mpfr_init2(l->numbers[i], 53);
            mpfr_set_d(l->numbers[i], kewohiata_double(l->patterns[i]), MPFR_RNDN);
            l->pointers[i] = l->numbers[i];
        }
    }
    return lists;
}

static void release(struct list *lists, size_t count)
{
    for (size_t k = 0; k < count; k++) {
        for (size_t i = 0; i < lists[k].n; i++)
            mpfr_clear(lists[k].numbers[i]);
        free(lists[k].numbers);
        free(lists[k].pointers);
    }
    free(lists);
}

static volatile double sink;

typedef struct answer walk_in_c(const uint64_t *, size_t, double *, size_t);

/* What the library's undivided call answers on a list, on arrays that were cleared, and what its call on bytes answers. */
static struct {
    double work[LENGTH];
    uint64_t values[2], called[2];
    uint32_t code, called_code;
} library;

static void ask_library(const struct list *l)
{
    uint8_t out[16] = {0};
    memset(work, 0, sizeof work);
    memset(values, 0, sizeof values);
    library.code = kewohiata_walk_faithful(l->patterns, l->n, work, l->n, values, 2);
    memcpy(library.work, work, sizeof work);
    memcpy(library.values, values, sizeof library.values);
    library.called_code = kewohiata_faithful((const uint8_t *)l->patterns, 8 * l->n, out, 16);
    memcpy(library.called, out, sizeof out);
}

/* A walk in C against that: refusal, sum, rounds and remainders; what differs, or null. */
static const char *walk_differs(walk_in_c *walk, const struct list *l)
{
    struct answer a;
    memset(work, 0, sizeof work);
    a = walk(l->patterns, l->n, work, l->n);
    if (library.code != (a.refused ? a.refused + 32 * (a.place + 1) : 0))
        return "a walk's refusal";
    if (kewohiata_pattern(a.sum) != library.values[0])
        return "a walk's sum";
    if (a.rounds != library.values[1])
        return "a walk's rounds";
    return memcmp(library.work, work, sizeof work) ? "a walk's remainder" : NULL;
}

/* Lanes by the public addition and by the inner one, lane by lane, and the words of both against the register in bytes. */
static const char *lanes_differ(const struct list *l)
{
    int64_t called[LANES];
    if (lane_additions(l) != 0.0)
        return "an addition to lanes";
    memcpy(called, lanes, sizeof lanes);
    memset(words, 0xA5, sizeof words);
    if (settling(l) != 0.0 || memcmp(words, bytes, sizeof bytes))
        return "a settling";
    if (inner_additions(l) != 0.0 || memcmp(lanes, called, sizeof lanes))
        return "an inner addition to lanes";
    memset(words, 0xA5, sizeof words);
    return settling(l) != 0.0 || memcmp(words, bytes, sizeof bytes) ? "a settling after inner additions" : NULL;
}

static const char *differs(const struct list *l)
{
    walk_in_c *walks[] = {gcc_plain, clang_plain, gcc_best, clang_best};
    ask_library(l);
    if (library.called_code != library.code || memcmp(library.called, library.values, sizeof library.called))
        return "the call on bytes";
    for (int i = 0; i < 4; i++) {
        const char *what = walk_differs(walks[i], l);
        if (what)
            return what;
    }
    if (library.code)
        return NULL;
    if (kewohiata_pattern(by_blocks(l)) != library.values[0] || memcmp(library.work, work, sizeof(double) * l->n)
        || values[KEWOHIATA_DONE_ROUNDS] != library.values[1])
        return "the walk by blocks";
    if (kewohiata_pattern(faithful_call(l)) != kewohiata_pattern(undivided(l)))
        return "a faithful sum";
    if (kewohiata_pattern(nearest(l)) != kewohiata_pattern(nearest_call(l)))
        return "the nearest sum on bytes";
    /* the sign of a zero too: mpfr_sum answers -0 where every number is -0, and +0 for every other zero */
    if (kewohiata_pattern(nearest(l)) != kewohiata_pattern(mpfr(l)) || kewohiata_pattern(nearest(l)) != kewohiata_pattern(mpfr_converted(l)))
        return "a nearest sum";
    if (additions(l) != 0.0 || additions_call(l) != 0.0 || memcmp(words, bytes, sizeof bytes))
        return "a register";
    return lanes_differ(l);
}

/* ---- the requests */
static struct list *lists;

static void begin(const struct suite *s)
{
    lists = lists_of(s);
}

static void end(const struct suite *s)
{
    release(lists, s->count);
}

static void call(size_t sum, size_t k)
{
    sink = sums[sum](&lists[k]);
}

static const char *compare(size_t k)
{
    return differs(&lists[k]);
}

static uint64_t told_sum(size_t k)
{
    return kewohiata_pattern(nearest(&lists[k]));
}

int main(int argc, char **argv)
{
    static const struct driver driver = {sizeof(uint64_t), LENGTH, SUMS, begin, end, call, compare, told_sum};
    mpfr_init2(result, 53);
    answer_requests(argc > 1 ? argv[1] : "", &driver);
    return 0;
}
