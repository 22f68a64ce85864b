/* A farewell: the weight of a clock that leaves is handed on to those that stay, and the weights make exactly 1 again. In doubles, each weight divided by
 * what stays, they miss it.
 *
 *     scripts/example farewell        builds and runs it with the Rattle kit alone
 */
#include "kewohiata.h"
#include <stdio.h>

enum { CLOCKS = 5, LEAVER = 2 };

/* weights in units of 2^-30, some 0.2, 0.3, 0.1, 0.25 and 0.15: they make 2^30 */
static const double grains[CLOCKS] = {214748365, 322122547, 107374182, 268435456, 161061274};
static const double grain = 1.0 / 1073741824;

static void print_weights(const char *what, const uint64_t *weights)
{
    printf("%s:", what);
    for (int i = 0; i < CLOCKS; i++)
        printf(" %.17g", kewohiata_double(weights[i]));
    printf("\n");
}

/* The exact total as 1 and what is over. */
static void print_total(const uint64_t *weights)
{
    double parts[2];
    uint64_t all;
    if (kewohiata_list_parts(weights, CLOCKS, parts, 2, &all, KEWOHIATA_VALUE) == KEWOHIATA_ACCEPTED && all)
        printf("  their exact total: %.17g and %.17g\n", parts[0], parts[1]);
}

int main(void)
{
    uint64_t weights[CLOCKS], handed[CLOCKS], divided[CLOCKS];
    double sum = 0;
    uint32_t code;

    for (int i = 0; i < CLOCKS; i++)
        weights[i] = kewohiata_pattern(grains[i] * grain);
    print_weights("five clocks", weights);
    print_total(weights);

    code = kewohiata_weights_hand_on(weights, CLOCKS, LEAVER, handed, CLOCKS);
    print_weights("without the third", handed);
    print_total(handed);

    /* the same by doubles: each weight over what stays, rounded */
    for (int i = 0; i < CLOCKS; i++)
        divided[i] = kewohiata_pattern(i == LEAVER ? 0 : grains[i] * grain / (1 - grains[LEAVER] * grain));
    print_weights("by doubles", divided);
    print_total(divided);
    for (int i = 0; i < CLOCKS; i++)
        sum += kewohiata_double(divided[i]);
    printf("  added in doubles: %.17g\n", sum);

    /* and those can't be handed on again: they are no weight list any more */
    printf("code %u", (unsigned)code);
    code = kewohiata_weights_hand_on(divided, CLOCKS, 0, handed, CLOCKS);
    printf(", of the doubles refusal %u at place %u\n", (unsigned)kewohiata_refusal(code), (unsigned)kewohiata_place(code));
    return 0;
}
