/* Makes calls in a given floating-point environment of x86-64, for tests/environment.py.

   A request is three 64-bit numbers (the control word of the environment, or 0 for that of the start; which call; how many numbers follow) and then those
   numbers. An answer is 35 of them: the environment's control word, the call's code, and 33 values. Nothing but read and write is used of a C library. */
#include "kewohiata.h"
#include "pipe.h"

enum { MOST = KEWOHIATA_LIST_MOST, VALUES = 33 };

static uint64_t list[MOST], values[VALUES];

static uint32_t control(void)
{
    uint32_t word;
    __asm__ volatile("stmxcsr %0" : "=m"(word) : : "memory");
    return word;
}

static void set_control(uint32_t word)
{
    __asm__ volatile("ldmxcsr %0" : : "m"(word) : "memory");
}

/* On x86-64 numbers lie in memory as the calls on bytes want them. */
static uint32_t registered(size_t n, uint32_t (*enter)(uint8_t *, size_t, uint64_t))
{
    uint32_t code = 0;
    for (size_t i = 0; i < n && code == 0; i++)
        code = enter((uint8_t *)values, KEWOHIATA_REGISTER_BYTES, list[i]);
    return code;
}

static double area[MOST];

/* the lowest 32 bits of each number of the list, and a work area for them */
static uint32_t singles[MOST];
static float floats[MOST];

/* 33 words, rounded to their first */
static uint32_t rounded(size_t n)
{
    uint64_t words[KEWOHIATA_WORDS] = {0};
    uint32_t code = 0;
    for (size_t i = 0; i < n && code == 0; i++)
        code = kewohiata_words_add(words, KEWOHIATA_WORDS, list[i]);
    return code ? code : kewohiata_words_round(words, KEWOHIATA_WORDS, values, KEWOHIATA_VALUE);
}

/* two rooms that have every second number each, merged */
static uint32_t merged(size_t n)
{
    uint64_t rooms[2][KEWOHIATA_WORDS] = {{0}};
    uint32_t code = 0;
    for (size_t i = 0; i < n && code == 0; i++)
        code = kewohiata_words_add(rooms[i % 2], KEWOHIATA_WORDS, list[i]);
    return code ? code : kewohiata_words_merge(rooms[0], KEWOHIATA_WORDS, rooms[1], KEWOHIATA_WORDS, values, KEWOHIATA_WORDS);
}

/* lanes that take the first number, give out the second, and so on, settled to 33 words */
static uint32_t laned(size_t n)
{
    int64_t lanes[KEWOHIATA_LANES] = {0};
    uint64_t count = 0;
    uint32_t code = 0;
    for (size_t i = 0; i < n && code == 0; i++)
        code = (i % 2 ? kewohiata_lanes_withdraw : kewohiata_lanes_add)(lanes, KEWOHIATA_LANES, count, list[i], &count, KEWOHIATA_VALUE);
    return code ? code : kewohiata_lanes_settle(lanes, KEWOHIATA_LANES, count, values, KEWOHIATA_WORDS, &count, KEWOHIATA_VALUE);
}

/* eight parts, and whether they add up */
static uint32_t parted(size_t n)
{
    uint32_t code = kewohiata_list_parts(list, n, area, KEWOHIATA_PARTS_MOST, values + KEWOHIATA_PARTS_MOST, KEWOHIATA_VALUE);
    memcpy(values, area, KEWOHIATA_PARTS_MOST * sizeof area[0]);
    return code;
}

/* the list as a sheet, read back: as many patterns as there are values, but for the last, which is the count */
static uint32_t sheet_read(size_t n)
{
    static uint8_t sheet[KEWOHIATA_SHEET_BYTES_MOST];
    static uint64_t patterns[KEWOHIATA_LIST_MOST];
    sheet[0] = 1;
    for (size_t i = 0; i < 4; i++)
        sheet[1 + i] = (uint8_t)(n >> (24 - 8 * i));
    for (size_t i = 0; i < 8 * n; i++)
        sheet[KEWOHIATA_SHEET_HEADER + i] = (uint8_t)(list[i / 8] >> (56 - 8 * (i % 8)));
    uint32_t code = kewohiata_sheet_read(sheet, KEWOHIATA_SHEET_HEADER + 8 * n, patterns, KEWOHIATA_LIST_MOST, values + VALUES - 1, KEWOHIATA_VALUE);
    memcpy(values, patterns, (n < VALUES - 1 ? n : VALUES - 1) * sizeof patterns[0]);
    return code;
}

/* the list written as a sheet: of its patterns as many as there are values but for the last two, which are the header's five bytes and the bytes told */
static uint32_t sheet_written(size_t n)
{
    static uint8_t sheet[KEWOHIATA_SHEET_BYTES_MOST];
    uint32_t code = kewohiata_sheet_write(list, n, sheet, sizeof sheet, values + VALUES - 1, KEWOHIATA_VALUE);
    for (size_t i = 0; i < KEWOHIATA_SHEET_HEADER; i++)
        values[VALUES - 2] = values[VALUES - 2] << 8 | sheet[i];
    for (size_t i = 0; i < 8 * n && i < 8 * (VALUES - 2); i++)
        values[i / 8] = values[i / 8] << 8 | sheet[KEWOHIATA_SHEET_HEADER + i];
    return code;
}

/* the list as a sheet that counts one number more, whose first is made a NaN or an infinity, with three bytes behind it: the report, then of what is saved
   as many patterns as there are values but for the last, which is how many marks aren't 0 */
static uint32_t sheet_rescued(size_t n)
{
    static uint8_t damaged[KEWOHIATA_SHEET_BYTES_MOST + 3], sheet[KEWOHIATA_SHEET_BYTES_MOST], marks[KEWOHIATA_LIST_MOST];
    uint32_t code = kewohiata_sheet_write(list, n, damaged, sizeof damaged, values, KEWOHIATA_VALUE);
    damaged[KEWOHIATA_SHEET_HEADER - 1]++;
    damaged[KEWOHIATA_SHEET_HEADER] = 0x7F;
    damaged[KEWOHIATA_SHEET_HEADER + 1] = 0xF0;
    if (code == KEWOHIATA_ACCEPTED)
        code = kewohiata_sheet_rescue(damaged, (size_t)values[0] + 3, sheet, sizeof sheet, marks, sizeof marks, values, KEWOHIATA_REPORT);
    for (size_t i = 0; i < 8 * (n - 1) && i < 8 * (VALUES - 1 - KEWOHIATA_REPORT); i++)
        values[KEWOHIATA_REPORT + i / 8] = values[KEWOHIATA_REPORT + i / 8] << 8 | sheet[KEWOHIATA_SHEET_HEADER + i];
    for (size_t i = 0; i < n; i++)
        values[VALUES - 1] += marks[i] != KEWOHIATA_MARK_KEPT;
    return code;
}

/* weights of 3, 0, 1, 1 and 2^30 - 5 times 2^-30; which clock leaves is chosen by the list's length */
static uint32_t handed_on(size_t n)
{
    static const uint64_t weights[5] = {0x3E28000000000000, 0, 0x3E10000000000000, 0x3E10000000000000, 0x3FEFFFFFFD800000};
    return kewohiata_weights_hand_on(weights, 5, n % 5, values, 5);
}

/* the nearest sum, and its grade */
static uint32_t graded(size_t n)
{
    uint32_t code = kewohiata_list_nearest(list, n, values, KEWOHIATA_VALUE);
    return code ? code : kewohiata_list_grade(list, n, values[0], values + 1, KEWOHIATA_VALUE);
}

/* a step of a walk of one number, +0, with the list's sigma and t: the ten numbers that it leaves */
static uint32_t stepped(void)
{
    const uint64_t state[KEWOHIATA_STATE] = {KEWOHIATA_MORE, list[0], list[1], 0, 1, 1, 0, 0, 0, 0};
    memcpy(values, state, sizeof state);
    area[0] = 0.0;
    return kewohiata_walk_step(values, KEWOHIATA_STATE, area, 1, 0, 0);
}

/* pairs of neighbours in the list, of their signs and digits and with magnitudes from 1 to 2: the products and errors of up to 16, and the nearest weighted sum
   behind them */
static uint32_t paired(size_t n)
{
    static uint64_t a[MOST], b[MOST];
    const uint64_t field = (uint64_t)0x7FF << 52;
    const size_t pairs = n < 16 ? n : 16;
    for (size_t i = 0; i < pairs; i++)
        a[i] = (list[i] & ~field) | kewohiata_pattern(1.0);
    for (size_t i = 0; i < pairs; i++)
        b[i] = a[(i + 1) % pairs];
    uint32_t code = kewohiata_pairs_products(a, pairs, b, pairs, values, 2 * pairs);
    return code ? code : kewohiata_pairs_nearest(a, pairs, b, pairs, values + VALUES - 1, KEWOHIATA_VALUE);
}

/* a step of a walk of one binary32 number, +0, with the list's sigma and t: the ten numbers that it leaves */
static uint32_t single_stepped(void)
{
    const uint64_t state[KEWOHIATA_STATE] = {KEWOHIATA_MORE, list[0], list[1], 0, 1, 1, 0, 0, 0, 0};
    memcpy(values, state, sizeof state);
    floats[0] = 0.0f;
    return kewohiata_single_step(values, KEWOHIATA_STATE, floats, 1, 0, 0);
}

/* the walk of binary32 numbers by blocks, from the last pending one down: the sum and the rounds */
static uint32_t single_walked(size_t n)
{
    uint64_t state[KEWOHIATA_STATE];
    uint32_t code = kewohiata_single_open(singles, n, floats, n, state, KEWOHIATA_STATE, 7);
    while (code == 0 && state[KEWOHIATA_STATE_KIND] == KEWOHIATA_MORE) {
        size_t block = kewohiata_blocks(n) - 1;
        while (!(state[KEWOHIATA_STATE_PENDING] >> block & 1))
            block--;
        code = kewohiata_single_step(state, KEWOHIATA_STATE, floats, n, block, 7);
    }
    memcpy(values, state + KEWOHIATA_DONE_SUM, KEWOHIATA_FAITHFUL * sizeof state[0]);
    return code;
}

static uint32_t call(uint64_t which, size_t n)
{
    switch (which) {
    case 0: return (uint32_t)kewohiata_environment();
    case 1: return kewohiata_nearest((const uint8_t *)list, 8 * n, (uint8_t *)values, KEWOHIATA_SUM_BYTES);
    case 2: return registered(n, kewohiata_register_add);
    case 3: return registered(n, kewohiata_register_withdraw);
    case 4: return kewohiata_faithful((const uint8_t *)list, 8 * n, (uint8_t *)values, KEWOHIATA_SUM_BYTES);
    case 5: return kewohiata_list_nearest(list, n, values, KEWOHIATA_VALUE);
    case 6: return rounded(n);
    case 7: return parted(n);
    case 8: return kewohiata_walk_faithful(list, n, area, n, values, KEWOHIATA_FAITHFUL);
    case 9: return sheet_read(n);
    case 10: return handed_on(n);
    case 11: return sheet_written(n);
    case 12: return merged(n);
    case 13: return graded(n);
    case 14: return stepped();
    case 15: return sheet_rescued(n);
    case 16: return paired(n);
    case 17: return laned(n);
    case 18: return kewohiata_single_nearest(singles, n, values, KEWOHIATA_VALUE);
    case 19: return kewohiata_single_faithful(singles, n, floats, n, values, KEWOHIATA_FAITHFUL);
    case 20: return single_walked(n);
    case 21: return single_stepped();
    default: return UINT32_MAX;
    }
}

int main(void)
{
    uint64_t request[3], told[2];
    const uint32_t start = control();
    while (take(request, sizeof request)) {
        if (request[2] > MOST || !take(list, request[2] * sizeof list[0]))
            return 1;
        memset(values, 0, sizeof values);
        for (size_t i = 0; i < request[2]; i++)
            singles[i] = (uint32_t)list[i];
        set_control(request[0] ? (uint32_t)request[0] : start);
        told[1] = call(request[1], request[2]);
        told[0] = control();
        set_control(start);
        if (!give(told, sizeof told) || !give(values, sizeof values))
            return 1;
    }
    return 0;
}
