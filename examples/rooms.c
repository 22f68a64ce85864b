/* Two rooms of one lab, each with a register of its own. A failing clock joins in the first room, is carried over, and leaves in the second: the merged total
 * is that of the clocks that stayed, to the bit. The rooms' two sums in doubles, added, are not.
 *
 *     scripts/example rooms        builds and runs it with the Rattle kit alone
 */
#include "kewohiata.h"
#include <stdio.h>
#include <string.h>

enum { WORDS = KEWOHIATA_WORDS, ONE = 3, TWO = 2 };

/* seconds by which each clock is ahead of the scale */
static const double in_one[ONE] = {3.281e-6, -1.704e-6, 8.422e-6};
static const double in_two[TWO] = {2.653e-6, -0.917e-6};
static const double failing = 4.2e8;

static uint32_t codes;

static void add_all(uint64_t *words, const double *clocks, int n)
{
    for (int i = 0; i < n; i++)
        codes |= kewohiata_words_add(words, WORDS, kewohiata_pattern(clocks[i]));
}

/* The register's number, rounded once. */
static double print_total(const char *what, const uint64_t *words)
{
    uint64_t sum = 0;
    codes |= kewohiata_words_round(words, WORDS, &sum, KEWOHIATA_VALUE);
    printf("%s: pattern %016llX, %.17g\n", what, (unsigned long long)sum, kewohiata_double(sum));
    return kewohiata_double(sum);
}

int main(void)
{
    uint64_t one[WORDS] = {0}, two[WORDS] = {0}, stayed[WORDS] = {0}; /* zeros: empty registers */
    uint64_t total[WORDS], other[WORDS], full[WORDS], twice[WORDS];
    double sum;

    add_all(one, in_one, ONE);
    add_all(one, &failing, 1);
    codes |= kewohiata_words_withdraw(two, WORDS, kewohiata_pattern(failing));
    add_all(two, in_two, TWO);
    sum = print_total("the first room", one);
    sum += print_total("the second room", two);
    printf("the two sums, added: pattern %016llX, %.17g\n", (unsigned long long)kewohiata_pattern(sum), sum);

    codes |= kewohiata_words_merge(one, WORDS, two, WORDS, total, WORDS);
    print_total("merged", total);
    add_all(stayed, in_one, ONE);
    add_all(stayed, in_two, TWO);
    codes |= kewohiata_words_merge(two, WORDS, one, WORDS, other, WORDS);
    printf("the words of one register without the failing clock: %s\n", memcmp(total, stayed, sizeof total) ? "no" : "yes");
    printf("the same the other way round: %s\n", memcmp(total, other, sizeof total) ? "no" : "yes");
    printf("codes %u\n", (unsigned)codes);

    /* The largest register, 2^2111 - 1, doesn't fit a register twice. The two that are read may be one array. */
    memset(full, 0xFF, sizeof full);
    full[WORDS - 1] >>= 1;
    printf("a full register twice: refusal %u\n", (unsigned)kewohiata_words_merge(full, WORDS, full, WORDS, twice, WORDS));
    printf("a register of 32 words: refusal %u\n", (unsigned)kewohiata_words_merge(full, WORDS - 1, full, WORDS, twice, WORDS));
    return codes != 0;
}
