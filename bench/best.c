/* The fastest faithful walk in C that is known here, undivided. The largest magnitude is found in the four quarters of the list at once. The first round reads
   the list and writes the remainders, so that nothing is copied, and has T beside tau: two chains, neither of which waits for the other. T is in rising order, as
   rule W3 has it. In later rounds tau is in eight sums, since its additions are exact; T is added up where the walk ends. A restart takes mu from the largest
   remainder that its round has kept. To be compiled as walk.c is. */
#include "scope.h"

enum { CHAINS = 8 };

/* What a round leaves beside its remainders: tau, T where it was added up, and the largest remainder's pattern without its sign. */
struct taken {
    double tau, rest;
    uint64_t most;
};

static inline uint64_t greater(uint64_t a, uint64_t b)
{
    return a > b ? a : b;
}

static uint64_t largest_of(const uint64_t *list, size_t n)
{
    size_t quarter = n / 4;
    uint64_t most[4] = {0};
    for (size_t i = 0; i < quarter; i++)
        for (size_t k = 0; k < 4; k++)
            most[k] = greater(most[k], list[k * quarter + i] & UNSIGNED);
    for (size_t i = 4 * quarter; i < n; i++)
        most[0] = greater(most[0], list[i] & UNSIGNED);
    return greater(greater(most[0], most[1]), greater(most[2], most[3]));
}

static struct taken first_round(const uint64_t *restrict list, double *restrict work, size_t n, double sigma)
{
    struct taken r = {0.0, 0.0, 0};
    for (size_t i = 0; i < n; i++) {
        double p = of_bits(list[i]), q = (sigma + p) - sigma, rest = p - q;
        work[i] = rest;
        r.tau += q;
        r.rest += rest;
        r.most = greater(r.most, to_bits(rest) & UNSIGNED);
    }
    return r;
}

static struct taken later_round(double *work, size_t n, double sigma)
{
    struct taken r = {0.0, 0.0, 0};
    double tau[CHAINS] = {0.0};
    uint64_t most[CHAINS] = {0};
    size_t even = n - n % CHAINS;
    for (size_t i = 0; i < even; i += CHAINS)
        for (size_t k = 0; k < CHAINS; k++) {
            double p = work[i + k], q = (sigma + p) - sigma, rest = p - q;
            work[i + k] = rest;
            tau[k] += q;
            most[k] = greater(most[k], to_bits(rest) & UNSIGNED);
        }
    for (size_t i = even; i < n; i++) {
        double p = work[i], q = (sigma + p) - sigma, rest = p - q;
        work[i] = rest;
        r.tau += q;
        r.most = greater(r.most, to_bits(rest) & UNSIGNED);
    }
    for (size_t k = 0; k < CHAINS; k++) {
        r.tau += tau[k];
        r.most = greater(r.most, most[k]);
    }
    return r;
}

static double last_sum(const double *work, size_t n)
{
    double rest = 0.0;
    for (size_t i = 0; i < n; i++)
        rest += work[i];
    return rest;
}

/* The rounds of a list whose largest magnitude has the pattern mu, which isn't 0. */
static struct answer rounds(uint64_t mu, const uint64_t *list, double *work, size_t n)
{
    struct answer a = {0, 0, 1, 0.0};
    unsigned m = spread(n);
    double sigma = power(m + ceiling(mu)), t = 0.0, tau1;
    struct taken r = first_round(list, work, n, sigma);
    for (;; a.rounds++, r = later_round(work, n, sigma)) {
        tau1 = t + r.tau;
        if (tau1 == 0.0) { /* rules W1 and W2 */
            if (r.most == 0)
                return a;
            sigma = power(m + ceiling(r.most));
            t = 0.0;
        } else if (sigma <= of_bits(NORMAL) || __builtin_fabs(tau1) >= power(1021 + 2 * m + 1) * sigma) { /* rule W3 */
            a.sum = tau1 + ((r.tau - (tau1 - t)) + (a.rounds == 1 ? r.rest : last_sum(work, n)));
            return a;
        } else { /* rule W4 */
            sigma = power(1021 + m) * sigma;
            t = tau1;
        }
    }
}

struct answer WALK_NAME(COMPILER, best)(const uint64_t *list, size_t n, double *work, size_t room)
{
    struct answer a = {0, 0, 0, 0.0};
    uint64_t mu;
    a.refused = n > LENGTH ? 1 : room != n ? 4 : 0;
    if (a.refused)
        return a;
    mu = largest_of(list, n);
    if (mu > MAGNITUDE)
        return refusal(list, n);
    if (mu != 0)
        return rounds(mu, list, work, n);
    for (size_t i = 0; i < n; i++) { /* rule S3: the zeros as IEEE 754 adds them, from the first on */
        work[i] = of_bits(list[i]);
        a.sum = i ? a.sum + work[i] : work[i];
    }
    return a;
}
