/*
 * What a lent visit and a lent handing in take, of rings without a mark: the times alone, for bench/against, which builds this
 * with the header and the archive of two trees. So it names nothing that only the one of them has.
 */
#include "olivastrum.h"
#include "sets.h"
#include "system.h"
#include <stdio.h>

#define TURNS 15
#define CALLS 2000

static struct olivastrum_ring ring;
static unsigned long refused;

/* Every visit finds a message of full length that has just arrived. */
static void visit(void)
{
    uint32_t p = ring.token, length = ring.set.head.frame;
    struct olivastrum_ask ask = {length > 1 ? 2 : 50, length};
    ring.rest[p] = ring.set.c[p];
    ring.arrival[p] = ring.clock;
    refused += olivastrum_visit(&ring, ask).number;
}

/* Every handing in finds a station that holds nothing. */
static void hand_in(void)
{
    struct olivastrum_message message = {{0}, {ring.set.c[0]}, {ring.clock}};
    ring.rest[0] = 0;
    ring.had[0] = 0;
    refused += olivastrum_hand_in(&ring, message);
}

/* The median over some turns. */
static void show(const char *name, struct olivastrum_set set, void (*call)(void))
{
    double turns[TURNS];
    struct olivastrum_alloc alloc = shares_of(&set);
    struct olivastrum_ring opened = ring_of(&set, &alloc);
    for (int k = 0; k < TURNS; k++) {
        ring = opened;
        double from = processor_ns();
        for (int i = 0; i < CALLS; i++)
            call();
        turns[k] = (processor_ns() - from) / CALLS;
    }
    qsort(turns, TURNS, sizeof *turns, by_size);
    printf("%s, %u stations\t%.2f\n", name, set.n, turns[TURNS / 2]);
}

int main(void)
{
    for (uint32_t n = 8; n <= 128; n *= 16) {
        show("a visit", stations(n, OLIVASTRUM_TIMELY, 1), visit);
        show("a visit, frames", stations(n, OLIVASTRUM_TIMELY, 40), visit);
        show("a visit, FDDI", stations(n, OLIVASTRUM_FDDI, 1), visit);
        show("a visit, 2002 edition", stations(n, OLIVASTRUM_EARLIER, 1), visit);
        show("a handing in", stations(n, OLIVASTRUM_TIMELY, 1), hand_in);
    }
    return refused != 0;
}
