/* The requests of requests.h. */
#include "requests.h"

#include <inttypes.h>
#include <stdio.h>
#include <stdlib.h>
#include <string.h>
#include <time.h>

enum { SUMS_MOST = 32 };

static struct suite *load(const char *name, const struct driver *d, size_t *count)
{
    struct suite *suites = NULL;
    uint64_t head[2];
    FILE *f = fopen(name, "rb");
    *count = 0;
    while (f && fread(head, sizeof head, 1, f) == 1) {
        struct suite s = {head[0], head[1], malloc(d->pattern * head[0] * head[1])};
        if (s.n > d->longest || !s.patterns || fread(s.patterns, d->pattern * s.n, s.count, f) != s.count)
            exit(2);
        suites = realloc(suites, (*count + 1) * sizeof *suites);
        suites[(*count)++] = s;
    }
    return suites;
}

static uint64_t now(void)
{
    struct timespec t;
    clock_gettime(CLOCK_MONOTONIC, &t);
    return (uint64_t)t.tv_sec * 1000000000u + (uint64_t)t.tv_nsec;
}

static void time_all(const struct driver *d, size_t count, long repetitions)
{
    uint64_t least[SUMS_MOST];
    memset(least, 0xFF, sizeof least);
    for (long r = 0; r < repetitions; r++)
        for (size_t s = 0; s < d->sums; s++) {
            uint64_t began = now(), took;
            for (size_t k = 0; k < count; k++)
                d->call(s, k);
            took = now() - began;
            if (took < least[s])
                least[s] = took;
        }
    for (size_t s = 0; s < d->sums; s++)
        printf("%.3f%c", (double)least[s] / (double)count, s + 1 < d->sums ? ' ' : '\n');
}

static void once(const struct driver *d, size_t count, long s)
{
    for (size_t k = 0; k < count && s >= 0 && (size_t)s < d->sums; k++)
        d->call((size_t)s, k);
    printf("ok\n");
}

static void check(const struct driver *d, size_t count)
{
    for (size_t k = 0; k < count; k++) {
        const char *what = d->differs(k);
        if (what) {
            printf("list %zu: %s differs\n", k, what);
            return;
        }
    }
    printf("ok");
    for (size_t k = 0; k < count; k++)
        printf(" %0*" PRIX64, (int)(2 * d->pattern), d->told(k));
    printf("\n");
}

void answer_requests(const char *file, const struct driver *d)
{
    char verb[16];
    size_t count, k;
    long more;
    struct suite *suites = load(file, d, &count);
    setvbuf(stdout, NULL, _IOLBF, 0);
    while (scanf("%15s %zu %ld", verb, &k, &more) == 3 && k < count) {
        d->begin(&suites[k]);
        if (strcmp(verb, "time") == 0)
            time_all(d, suites[k].count, more);
        else if (strcmp(verb, "once") == 0)
            once(d, suites[k].count, more);
        else
            check(d, suites[k].count);
        d->end(&suites[k]);
    }
}
