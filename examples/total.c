/* A total that clocks join and leave, kept in a register and read back: after the failing clock has left, to the bit what it would be without it. And a
 * weight that changes: what leaves is the product that was added, not the product of today.
 *
 *     scripts/example total        builds and runs it with the Rattle kit alone
 */
#include "kewohiata.h"
#include <stdio.h>

enum { CLOCKS = 5 };

/* seconds by which each clock is ahead of the scale, and its weight */
static const double clocks[CLOCKS] = {3.281e-6, -1.704e-6, 8.422e-6, 2.653e-6, -0.917e-6};
static const double weights[CLOCKS] = {0.3, 0.2, 0.25, 0.15, 0.1};
static const double failing = 4.2e8;

static uint64_t total[KEWOHIATA_WORDS]; /* zeros: the empty register */

/* The register's number, rounded once. A code other than 0 leaves nothing to read. */
static void print_total(const char *when)
{
    uint64_t sum;
    uint32_t code = kewohiata_words_round(total, KEWOHIATA_WORDS, &sum, KEWOHIATA_VALUE);
    if (code == KEWOHIATA_ACCEPTED)
        printf("%s: pattern %016llX, %.17g\n", when, (unsigned long long)sum, kewohiata_double(sum));
    else
        printf("%s: refusal %u\n", when, (unsigned)kewohiata_refusal(code));
}

static uint32_t add(double x)
{
    return kewohiata_words_add(total, KEWOHIATA_WORDS, kewohiata_pattern(x));
}

static uint32_t withdraw(double x)
{
    return kewohiata_words_withdraw(total, KEWOHIATA_WORDS, kewohiata_pattern(x));
}

int main(void)
{
    double added[CLOCKS]; /* what the register was given of each clock: a double, the product once rounded */
    uint32_t codes = 0;

    for (int i = 0; i < CLOCKS; i++)
        codes |= add(added[i] = weights[i] * clocks[i]);
    print_total("five clocks");
    codes |= add(failing);
    print_total("with the failing one");
    codes |= withdraw(failing);
    print_total("after it left");

    /* The first clock's weight falls to 0.1. Its old product leaves and the new one joins. */
    codes |= withdraw(added[0]);
    codes |= add(added[0] = 0.1 * clocks[0]);
    print_total("with the new weight");
    printf("codes %u\n", (unsigned)codes);

    /* Whoever withdraws each product that was added comes back to the empty register. */
    for (int i = 0; i < CLOCKS; i++)
        codes |= withdraw(added[i]);
    print_total("all left");
    printf("an infinity: refusal %u at place %u\n", (unsigned)kewohiata_refusal(add(1e308 * 10)), (unsigned)kewohiata_place(add(1e308 * 10)));
    return codes != 0;
}
