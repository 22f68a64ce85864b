/* Takes calls on standard input and writes their answers, for tests/host.py.

   A request is sixteen 64-bit numbers (which call, its number where it has one, the ensemble where it names one, the count of calls that lanes have taken, and
   of up to four arrays at which element it begins, how many elements are lent, and how many bytes follow for it) and then those bytes: each array with guards
   before and behind it. An answer is the call's code in 64 bits and all of the bytes as they are afterwards: arrays that a call only reads, and the guards,
   too. There are no headers of a C library here, and nothing but read and write is used of it.

   With FLOATS it is the driver of tests/host/floats.c, which has the calls on binary32 numbers alone. */
#include "kewohiata.h"
#include "pipe.h"

enum { ARRAYS = 4, LIMIT = 1 << 18 };

struct request {
    uint64_t call, number, ensemble, count, at[ARRAYS], length[ARRAYS], size[ARRAYS];
};

/* An array is lent as what the call takes. */
static union {
    uint8_t bytes[LIMIT];
    uint64_t numbers[LIMIT / sizeof(uint64_t)];
    int64_t lanes[LIMIT / sizeof(int64_t)];
    double doubles[LIMIT / sizeof(double)];
    uint32_t patterns[LIMIT / sizeof(uint32_t)];
    float floats[LIMIT / sizeof(float)];
} arrays[ARRAYS];

#define LENT(k, type) arrays[k].type + r->at[k], r->length[k]

static uint64_t call(const struct request *r)
{
    switch (r->call) {
#ifndef FLOATS
    case 0: return kewohiata_faithful(LENT(0, bytes), LENT(1, bytes));
    case 1: return kewohiata_nearest(LENT(0, bytes), LENT(1, bytes));
    case 2: return kewohiata_register_add(LENT(0, bytes), r->number);
    case 3: return kewohiata_register_withdraw(LENT(0, bytes), r->number);
    case 4: return kewohiata_walk_open(LENT(0, numbers), LENT(1, doubles), LENT(2, numbers), (uint32_t)r->ensemble);
    case 5: return kewohiata_walk_step(LENT(0, numbers), LENT(1, doubles), r->number, (uint32_t)r->ensemble);
    case 6: return kewohiata_walk_faithful(LENT(0, numbers), LENT(1, doubles), LENT(2, numbers));
    case 7: return kewohiata_list_nearest(LENT(0, numbers), LENT(1, numbers));
    case 8: return kewohiata_list_parts(LENT(0, numbers), LENT(1, doubles), LENT(2, numbers));
    case 9: return kewohiata_words_add(LENT(0, numbers), r->number);
    case 10: return kewohiata_words_withdraw(LENT(0, numbers), r->number);
    case 11: return kewohiata_words_round(LENT(0, numbers), LENT(1, numbers));
    case 12: return kewohiata_sheet_read(LENT(0, bytes), LENT(1, numbers), LENT(2, numbers));
    case 13: return kewohiata_weights_hand_on(LENT(0, numbers), r->number, LENT(1, numbers));
    case 14: return kewohiata_sheet_write(LENT(0, numbers), LENT(1, bytes), LENT(2, numbers));
    case 15: return kewohiata_words_merge(LENT(0, numbers), LENT(r->number ? 0 : 1, numbers), LENT(2, numbers)); /* or the first register twice */
    case 16: return kewohiata_list_grade(LENT(0, numbers), r->number, LENT(1, numbers));
    case 17: return kewohiata_sheet_rescue(LENT(0, bytes), LENT(1, bytes), LENT(2, bytes), LENT(3, numbers));
    case 18: return kewohiata_pairs_products(LENT(0, numbers), LENT(r->number ? 0 : 1, numbers), LENT(2, numbers)); /* or squares */
    case 19: return kewohiata_pairs_nearest(LENT(0, numbers), LENT(r->number ? 0 : 1, numbers), LENT(2, numbers));
    case 20: return kewohiata_lanes_add(LENT(0, lanes), r->count, r->number, LENT(1, numbers));
    case 21: return kewohiata_lanes_withdraw(LENT(0, lanes), r->count, r->number, LENT(1, numbers));
    case 22: return kewohiata_lanes_settle(LENT(0, lanes), r->count, LENT(1, numbers), LENT(2, numbers));
#endif
    case 23: return kewohiata_single_open(LENT(0, patterns), LENT(1, floats), LENT(2, numbers), (uint32_t)r->ensemble);
    case 24: return kewohiata_single_step(LENT(0, numbers), LENT(1, floats), r->number, (uint32_t)r->ensemble);
    case 25: return kewohiata_single_faithful(LENT(0, patterns), LENT(1, floats), LENT(2, numbers));
    case 26: return kewohiata_single_nearest(LENT(0, patterns), LENT(1, numbers));
    default: return UINT64_MAX;
    }
}

int main(void)
{
    struct request r;
    while (take(&r, sizeof r)) {
        uint64_t code;
        for (int k = 0; k < ARRAYS; k++)
            if (r.size[k] > LIMIT || !take(arrays[k].bytes, r.size[k]))
                return 1;
        code = call(&r);
        if (!give(&code, sizeof code))
            return 1;
        for (int k = 0; k < ARRAYS; k++)
            if (!give(arrays[k].bytes, r.size[k]))
                return 1;
    }
    return 0;
}
