/* Standard input and output as pipes, for the two programs of this folder. No header of a C library is needed: nothing but read and write is used of it. */
#ifndef PIPE_H
#define PIPE_H

#include <stddef.h>
#include <stdint.h>

long read(int file, void *bytes, size_t count);
long write(int file, const void *bytes, size_t count);

/* A pipe gives and takes in pieces. */
static int take(void *bytes, size_t count)
{
    for (size_t have = 0; have < count;) {
        long got = read(0, (uint8_t *)bytes + have, count - have);
        if (got <= 0)
            return 0;
        have += (size_t)got;
    }
    return 1;
}

static int give(const void *bytes, size_t count)
{
    for (size_t gone = 0; gone < count;) {
        long put = write(1, (const uint8_t *)bytes + gone, count - gone);
        if (put <= 0)
            return 0;
        gone += (size_t)put;
    }
    return 1;
}

#endif
