/* A faithful sum block by block, in the order in which an operator gets the racks' readings: the last rack first, then as they come. Whatever the order, the
 * sum and the rounds are those of the undivided call. After each step the screen shows how much is still unsummed. Between two calls the work area and ten
 * numbers are all there is to keep; what a step says where the two were mixed up is shown on the way.
 *
 *     scripts/example blocks        builds and runs it with the Rattle kit alone
 */
#include "kewohiata.h"
#include <stdio.h>
#include <string.h>

enum { N = 200, OURS = 17, THEIRS = 18 }; /* two ensembles that an operator has open, by the numbers that the lab gives them */

static uint64_t list[N];
static double work[N], opened[N], other[N], copy[N];
static uint64_t first[KEWOHIATA_STATE]; /* the state that the opening gave out */

/* Readings of some microseconds; two failing clocks, an enormous one and one in its shadow, join and leave. */
static void fill(void)
{
    for (int i = 0; i < N; i++)
        list[i] = kewohiata_pattern((double)(i * 37 % 101 - 50) * 1.7e-7);
    list[10] = kewohiata_pattern(4.2e8);
    list[150] = kewohiata_pattern(-4.2e8);
    list[70] = kewohiata_pattern(1e-290);
    list[199] = kewohiata_pattern(-1e-290);
}

/* Which of the blocks that are pending the operator takes next: the highest in even rounds, the lowest in odd ones. */
static size_t next_block(const uint64_t *state, size_t blocks)
{
    uint64_t pending = state[KEWOHIATA_STATE_PENDING];
    for (size_t k = 0; k < blocks; k++) {
        size_t block = state[KEWOHIATA_STATE_ROUNDS] % 2 == 0 ? blocks - 1 - k : k;
        if (pending >> block & 1)
            return block;
    }
    return blocks;
}

/* What the operator's screen shows after a step: how much is still unsummed. Of the blocks that the round has had so far nothing is left that is larger in
 * magnitude; where the step closed the round, that is so of the whole list. The next round starts anew. */
static void screen(const uint64_t *state, unsigned block, unsigned closed, uint32_t code)
{
    printf("block %u: code %u, ", block, (unsigned)code);
    if (code != KEWOHIATA_ACCEPTED)
        printf("refused\n");
    else if (state[KEWOHIATA_STATE_KIND] == KEWOHIATA_DONE)
        printf("all is summed\n");
    else if (state[KEWOHIATA_STATE_ROUNDS] == closed)
        printf("largest remainder %.2g so far in this round\n", kewohiata_double(state[KEWOHIATA_STATE_TOLD]));
    else
        printf("largest remainder %.2g, round %u is closed\n", kewohiata_double(state[KEWOHIATA_STATE_TOLD]), closed + 1);
}

/* A step that is refused changes neither the state nor the area, so that the walk can go on with the right ones. */
static void told(const char *what, uint64_t *state, double *area, uint32_t ensemble)
{
    uint32_t code = kewohiata_walk_step(state, KEWOHIATA_STATE, area, N, 0, ensemble);
    printf("  %s: ", what);
    if (code == KEWOHIATA_ACCEPTED)
        printf("not noticed");
    else
        printf("refusal %u", (unsigned)kewohiata_refusal(code));
    if (kewohiata_tells_place(code))
        printf(" at place %u", (unsigned)kewohiata_place(code));
    printf("\n");
}

/* An operator's session with the wrong pieces, in the second round: sigma is small by then. */
static void mixed_up(const uint64_t *state)
{
    uint64_t wrong[KEWOHIATA_STATE];
    memcpy(wrong, state, sizeof wrong);
    for (int i = 0; i < N; i++)
        other[i] = 1.0 + i;
    told("our state in a step meant for the other ensemble", wrong, other, THEIRS);
    told("the other ensemble's work area", wrong, other, OURS);
    told("the work area as it was at the opening", wrong, opened, OURS);
    memcpy(wrong, first, sizeof wrong); /* any older state of this walk is sound over the newer area: keep one state for each area */
    memcpy(copy, work, sizeof copy);
    told("the stale state of the opening, on copies of both", wrong, copy, OURS);
    memcpy(wrong, state, sizeof wrong);
    wrong[KEWOHIATA_STATE_PENDING] = 1u << kewohiata_blocks(N);
    told("the pending set of a longer list", wrong, work, OURS);
    wrong[KEWOHIATA_STATE_SIGMA] += 1;
    told("a bit of sigma turned over, besides", wrong, work, OURS);
    memcpy(wrong, state, sizeof wrong);
    wrong[KEWOHIATA_STATE_LARGEST] = wrong[KEWOHIATA_STATE_TOLD]; /* what is told of the closed round isn't what the next one keeps */
    told("the told number put in the kept one's place", wrong, work, OURS);
}

int main(void)
{
    uint64_t state[KEWOHIATA_STATE], sum[KEWOHIATA_FAITHFUL];
    const size_t blocks = kewohiata_blocks(N);
    unsigned steps = 0;

    if (!kewohiata_environment()) {
        printf("this thread's floating-point environment is not what the walk needs\n");
        return 1;
    }
    fill();
    uint32_t code = kewohiata_walk_open(list, N, work, N, state, KEWOHIATA_STATE, OURS);
    printf("opened: code %u, %u blocks\n", (unsigned)code, (unsigned)blocks);
    memcpy(opened, work, sizeof opened);
    memcpy(first, state, sizeof first);
    while (code == KEWOHIATA_ACCEPTED && state[KEWOHIATA_STATE_KIND] == KEWOHIATA_MORE) {
        size_t block = next_block(state, blocks);
        unsigned closed = (unsigned)state[KEWOHIATA_STATE_ROUNDS];
        code = kewohiata_walk_step(state, KEWOHIATA_STATE, work, N, block, OURS);
        screen(state, (unsigned)block, closed, code);
        steps++;
        if (steps == 2) /* a block twice in a round is refused, and nothing changes */
            printf("the same again: refusal %u\n", (unsigned)kewohiata_refusal(kewohiata_walk_step(state, KEWOHIATA_STATE, work, N, block, OURS)));
        if (steps == blocks)
            mixed_up(state);
    }
    printf("by blocks: pattern %016llX, rounds %u, %u steps\n", (unsigned long long)state[KEWOHIATA_DONE_SUM], (unsigned)state[KEWOHIATA_DONE_ROUNDS],
           steps);
    told("a step behind the finish", state, work, OURS);
    code |= kewohiata_walk_faithful(list, N, work, N, sum, KEWOHIATA_FAITHFUL);
    printf("undivided: pattern %016llX, rounds %u, code %u\n", (unsigned long long)sum[0], (unsigned)sum[1], (unsigned)code);
    return code != 0 || sum[0] != state[KEWOHIATA_DONE_SUM] || sum[1] != state[KEWOHIATA_DONE_ROUNDS];
}
