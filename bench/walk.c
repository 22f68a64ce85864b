/* The faithful walk of docs/SCOPE.md in C, undivided: blocks in rising order are the whole area in rising order, and tau is one serial sum. Written from it;
   bench/main.c holds its answers, rounds and remainders to the library's, bit for bit. A restart looks for mu in the work area, as 000 does; rule DR6 says that
   it finds what the library has kept. Each operation on doubles is rounded once: compile it without contraction (-ffp-contract=off) and without -ffast-math.
   COMPILER is the name that stands before its function. */
#include "scope.h"

static double largest(const double *work, size_t n)
{
    double mu = 0.0;
    for (size_t i = 0; i < n; i++) {
        double x = __builtin_fabs(work[i]);
        if (mu < x)
            mu = x;
    }
    return mu;
}

/* The rounds, from an opening with the largest magnitude mu. */
static struct answer rounds(double mu, double *work, size_t n)
{
    struct answer a = {0, 0, 0, 0.0};
    unsigned m = spread(n);
    double sigma, t = 0.0;
    if (mu == 0.0) { /* rule S3: the zeros as IEEE 754 adds them, from the first on */
        if (n)
            a.sum = work[0];
        for (size_t i = 1; i < n; i++)
            a.sum += work[i];
        return a;
    }
    sigma = power(m + ceiling(to_bits(mu)));
    for (;;) {
        double tau = 0.0, tau1;
        for (size_t i = 0; i < n; i++) {
            double p = work[i], q = (sigma + p) - sigma;
            work[i] = p - q;
            tau += q;
        }
        a.rounds++;
        tau1 = t + tau;
        if (tau1 == 0.0) { /* rules W1 and W2 */
            mu = largest(work, n);
            if (mu == 0.0)
                return a;
            sigma = power(m + ceiling(to_bits(mu)));
            t = 0.0;
        } else if (sigma <= of_bits(NORMAL) || __builtin_fabs(tau1) >= power(1021 + 2 * m + 1) * sigma) { /* rule W3 */
            double tau2 = tau - (tau1 - t), rest = 0.0;
            for (size_t i = 0; i < n; i++)
                rest += work[i];
            a.sum = tau1 + (tau2 + rest);
            return a;
        } else { /* rule W4 */
            sigma = power(1021 + m) * sigma;
            t = tau1;
        }
    }
}

struct answer WALK_NAME(COMPILER, plain)(const uint64_t *list, size_t n, double *work, size_t room)
{
    struct answer a = {0, 0, 0, 0.0};
    a.refused = n > LENGTH ? 1 : room != n ? 4 : 0;
    if (a.refused)
        return a;
    a = refusal(list, n);
    if (a.refused)
        return a;
    for (size_t i = 0; i < n; i++)
        work[i] = of_bits(list[i]);
    return rounds(largest(work, n), work, n);
}
