/* A scale is the sum of weights times offsets. Here it is before and after a farewell: the third clock has failed, and its offset is enormous. The products are
 * taken with their exact errors, so that the scale is the exact sum, rounded once; in doubles the other clocks' digits are rounded away while the third is in,
 * and taking it out doesn't bring them back.
 *
 *     scripts/example scale        builds and runs it with the Rattle kit alone
 */
#include "kewohiata.h"
#include <stdio.h>

enum { CLOCKS = 5, LEAVER = 2, NUMBERS = 2 * CLOCKS };

/* weights in units of 2^-30, some 0.2, 0.3, 0.1, 0.25 and 0.15, and offsets in seconds */
static const double grains[CLOCKS] = {214748365, 322122547, 107374182, 268435456, 161061274};
static const double offsets[CLOCKS] = {3.281e-6, -1.704e-6, 4.2e8, 2.653e-6, -0.917e-6};

/* The scale in one call, its exact value in parts by way of the list of products, and how good a double is that somebody takes for it. */
static void print_scale(const char *what, const uint64_t *weights, const uint64_t *readings, double claim)
{
    static const char *const grades[] = {"exact", "nearest", "faithful", "wrong"};
    uint64_t scale = 0, products[NUMBERS], all = 0, grade = 0;
    double parts[4] = {0};
    if (kewohiata_pairs_nearest(weights, CLOCKS, readings, CLOCKS, &scale, KEWOHIATA_VALUE) == KEWOHIATA_ACCEPTED)
        printf("%s: %.17g\n", what, kewohiata_double(scale));
    if (kewohiata_pairs_products(weights, CLOCKS, readings, CLOCKS, products, NUMBERS) != KEWOHIATA_ACCEPTED)
        return;
    if (kewohiata_list_parts(products, NUMBERS, parts, 4, &all, KEWOHIATA_VALUE) == KEWOHIATA_ACCEPTED && all)
        printf("  exactly: %.17g and %.17g and %.17g and %.17g\n", parts[0], parts[1], parts[2], parts[3]);
    if (kewohiata_list_grade(products, NUMBERS, kewohiata_pattern(claim), &grade, KEWOHIATA_VALUE) == KEWOHIATA_ACCEPTED)
        printf("  in doubles: %.17g, which is %s\n", claim, grades[grade]);
}

int main(void)
{
    uint64_t weights[CLOCKS], handed[CLOCKS], readings[CLOCKS], scale;
    double total = 0, left;
    uint32_t code;

    if (!kewohiata_environment()) {
        printf("this thread doesn't round to nearest\n");
        return 1;
    }
    for (int i = 0; i < CLOCKS; i++) {
        weights[i] = kewohiata_pattern(grains[i] / 1073741824);
        readings[i] = kewohiata_pattern(offsets[i]);
        total += grains[i] / 1073741824 * offsets[i];
    }
    print_scale("five clocks", weights, readings, total);

    /* the third leaves: its weight is handed on, and the scale is that of the new weights; in doubles its share is subtracted and the rest divided again */
    code = kewohiata_weights_hand_on(weights, CLOCKS, LEAVER, handed, CLOCKS);
    if (code != KEWOHIATA_ACCEPTED)
        return 1;
    left = (total - grains[LEAVER] / 1073741824 * offsets[LEAVER]) / (1 - grains[LEAVER] / 1073741824);
    print_scale("without the third", handed, readings, left);

    /* an offset that isn't zero and can't be multiplied without loss is refused, with its place, though its weight is zero */
    readings[LEAVER] = 1;
    code = kewohiata_pairs_nearest(handed, CLOCKS, readings, CLOCKS, &scale, KEWOHIATA_VALUE);
    printf("with 2^-1074 for its offset: refusal %u at place %u\n", (unsigned)kewohiata_refusal(code), (unsigned)kewohiata_place(code));
    return 0;
}
