/* More numbers than a list may have: a register takes them one by one, as many as there are, and is rounded once at the end.
 *
 *     scripts/example many        builds and runs it with the Rattle kit alone
 */
#include "kewohiata.h"
#include <stdio.h>

enum { N = 99999 };

/* A million seconds forth and back around each reading of a few nanoseconds. */
static double reading(int i)
{
    return i % 3 == 0 ? 1e6 : i % 3 == 1 ? (double)(i % 1000) * 1e-9 : -1e6;
}

int main(void)
{
    static uint64_t list[N];
    uint64_t words[KEWOHIATA_WORDS] = {0}, sum = 0;
    double naive = 0;
    uint32_t code = 0;

    for (int i = 0; i < N; i++) {
        list[i] = kewohiata_pattern(reading(i));
        naive += reading(i);
    }
    printf("as a list: refusal %u\n", (unsigned)kewohiata_refusal(kewohiata_list_nearest(list, N, &sum, KEWOHIATA_VALUE)));
    for (int i = 0; i < N && code == KEWOHIATA_ACCEPTED; i++)
        code = kewohiata_words_add(words, KEWOHIATA_WORDS, list[i]);
    if (code == KEWOHIATA_ACCEPTED)
        code = kewohiata_words_round(words, KEWOHIATA_WORDS, &sum, KEWOHIATA_VALUE);
    printf("through a register: code %u, pattern %016llX, %.17g\n", (unsigned)code, (unsigned long long)sum, kewohiata_double(sum));
    printf("added one by one: %.17g\n", naive);
    return code != 0;
}
