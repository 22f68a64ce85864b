/* A clock that leaves: the register after it is, byte for byte, the register without it; and the same readings as a list, summed both ways.
 *
 *     scripts/example                                                                 builds and runs it with the Rattle kit alone
 *     gcc -Iinclude examples/leaver.c crates/kewohiata/out/libkewohiata.a -o leaver       with a C compiler of x86-64, after scripts/example
 */
#include "kewohiata.h"
#include <stdio.h>

enum { REGISTER = KEWOHIATA_REGISTER_BYTES, SUM = KEWOHIATA_SUM_BYTES, CLOCKS = 5 };

/* seconds by which each clock is ahead of the scale */
static const double clocks[CLOCKS] = {3.281e-6, -1.704e-6, 8.422e-6, 2.653e-6, -0.917e-6};
static const double failing = 4.2e8;

/* Numbers lie least significant byte first, on every machine. */
static void put(uint8_t *bytes, uint64_t number)
{
    for (int i = 0; i < 8; i++)
        bytes[i] = (uint8_t)(number >> 8 * i);
}

static uint64_t get(const uint8_t *bytes)
{
    uint64_t number = 0;
    for (int i = 7; i >= 0; i--)
        number = number << 8 | bytes[i];
    return number;
}

static void print_code(uint32_t code)
{
    if (kewohiata_tells_place(code))
        printf("code %u: refusal %u at place %u\n", (unsigned)code, (unsigned)kewohiata_refusal(code), (unsigned)kewohiata_place(code));
    else
        printf("code %u\n", (unsigned)code);
}

static void print_sum(const char *name, uint32_t code, const uint8_t *sum)
{
    printf("%s: ", name);
    if (code == 0)
        printf("pattern %016llX, rounds %u, ", (unsigned long long)get(sum), (unsigned)get(sum + 8));
    print_code(code);
}

/* The failing clock joins in the middle and leaves at the end; `without` never saw it. */
static void registers(void)
{
    uint8_t with[REGISTER] = {0}, without[REGISTER] = {0};
    uint32_t codes = 0;
    for (int i = 0; i < CLOCKS; i++) {
        if (i == 3)
            codes |= kewohiata_register_add(with, REGISTER, kewohiata_pattern(failing));
        codes |= kewohiata_register_add(with, REGISTER, kewohiata_pattern(clocks[i]));
        codes |= kewohiata_register_add(without, REGISTER, kewohiata_pattern(clocks[i]));
    }
    printf("five clocks and a failing one added: code %u\n", (unsigned)codes);
    printf("while it is in, the 264 bytes are %s\n", memcmp(with, without, REGISTER) ? "others" : "the same");
    printf("its withdrawal: ");
    print_code(kewohiata_register_withdraw(with, REGISTER, kewohiata_pattern(failing)));
    printf("after it left, the 264 bytes are %s as without it\n", memcmp(with, without, REGISTER) ? "NOT the same" : "the same");
    printf("an infinity: ");
    print_code(kewohiata_register_add(with, REGISTER, 0x7FF0000000000000));
    printf("and the 264 bytes are %s\n", memcmp(with, without, REGISTER) ? "NOT the same" : "the same");
}

/* The same readings as a list: the failing clock's, and at the end its opposite. */
static void sums(void)
{
    uint8_t list[8 * (CLOCKS + 2)], sum[SUM];
    double naive = 0;
    for (int i = 0; i < CLOCKS + 2; i++) {
        double x = i < 3 ? clocks[i] : i == 3 ? failing : i < 6 ? clocks[i - 1] : -failing;
        put(list + 8 * i, kewohiata_pattern(x));
        naive += x;
    }
    print_sum("faithful", kewohiata_faithful(list, sizeof list, sum, SUM), sum);
    print_sum("nearest", kewohiata_nearest(list, sizeof list, sum, SUM), sum);
    printf("naive: pattern %016llX\n", (unsigned long long)kewohiata_pattern(naive));
    put(list + 8 * 4, 0x7FF8000000000000);
    print_sum("with a NaN", kewohiata_nearest(list, sizeof list, sum, SUM), sum);
    print_sum("with 15 bytes for the sum", kewohiata_nearest(list, sizeof list, sum, SUM - 1), sum);
}

int main(void)
{
    if (!kewohiata_environment()) {
        printf("this thread's floating-point environment is not what the faithful sum needs\n");
        return 1;
    }
    registers();
    sums();
    return 0;
}
