/* A refused call on a lent ring or inspection writes no byte: each of the five calls, with each number that it may refuse with, in every
 * mode, on a ring or an inspection in pages that cannot be written. A store there ends the program with a signal. Then the pages are made
 * writable and the same calls are accepted, so that it is the number that keeps a byte from being stored. Prints `ok`. */
#include "olivastrum.h"
#include <stdio.h>
#include <stdlib.h>
#include <string.h>
#include <sys/mman.h>

static struct olivastrum_ring *lent;
static size_t room;

/* What a call answered to a ring that cannot be written. */
#define REFUSED(ring, number_, call) REFUSED_ON(struct olivastrum_ring, ring, number_, call)
#define REFUSED_ON(type, ring, number_, call)                                                                                 \
    do {                                                                                                                      \
        type before = (ring);                                                                                                 \
        memcpy(lent, &before, sizeof before);                                                                                 \
        if (mprotect(lent, room, PROT_READ)) fail("mprotect", 0);                                                             \
        unsigned got = (call);                                                                                                \
        if (got != (number_)) fail(#call, got);                                                                               \
        if (memcmp(lent, &before, sizeof before)) fail("the bytes", 0);                                                       \
        if (mprotect(lent, room, PROT_READ | PROT_WRITE)) fail("mprotect", 0);                                                \
        count += 1;                                                                                                           \
    } while (0)

static unsigned count;

static void fail(const char *what, unsigned got)
{
    printf("%s: %u\n", what, got);
    exit(1);
}

/* Two stations with TTRT 100, w 1, C 30, D 250 and P 300, S 15 and 15, frames up to 4: a plan by the rules of every mode. */
static struct olivastrum_ring opened(uint32_t mode)
{
    struct olivastrum_set set = {{100, mode, 4, 1}, 2, {1, 1}, {30, 30}, {250, 250}, {300, 300}};
    struct olivastrum_alloc alloc = {{15, 15}};
    if (mode != OLIVASTRUM_FDDI) {
        struct olivastrum_opened answer = olivastrum_open_ring(set, alloc);
        if (answer.number) fail("opening", answer.number);
        return answer.ring;
    }
    struct olivastrum_ring ring; /* the ring that an opening used to give */
    memset(&ring, 0, sizeof ring);
    ring.set = set;
    ring.alloc = alloc;
    ring.trt[0] = 2;
    ring.trt[1] = 1;
    ring.unused = 30;
    return ring;
}

static void of_mode(uint32_t mode)
{
    const struct olivastrum_ask ask = {3, 4}, long_ask = {1, 5};
    const struct olivastrum_message message = {{1}, {30}, {0}}, nowhere = {{2}, {30}, {0}}, empty = {{1}, {0}, {0}};
    const struct olivastrum_message ahead = {{1}, {30}, {1000}};
    const struct olivastrum_station last = {1}, none = {2};
    struct olivastrum_ring ring = opened(mode), unsound = ring, late = ring, held = ring, visited = ring;
    unsound.token = 2;
    late.clock = 1000000000001;
    if (olivastrum_hand_in(&held, message)) fail("handing in", 0);
    if (olivastrum_visit(&visited, ask).number || olivastrum_visit(&visited, ask).number) fail("a visit", 0);
    REFUSED(unsound, OLIVASTRUM_UNSOUND, olivastrum_visit(lent, ask).number);
    REFUSED(ring, OLIVASTRUM_BAD_LENGTH, olivastrum_visit(lent, long_ask).number);
    REFUSED(late, OLIVASTRUM_CLOCK_TOO_HIGH, olivastrum_visit(lent, ask).number);
    REFUSED(unsound, OLIVASTRUM_UNSOUND, olivastrum_hand_in(lent, message));
    REFUSED(ring, OLIVASTRUM_NO_SUCH_STATION, olivastrum_hand_in(lent, nowhere));
    REFUSED(ring, OLIVASTRUM_BAD_LENGTH, olivastrum_hand_in(lent, empty));
    REFUSED(held, OLIVASTRUM_STILL_HELD, olivastrum_hand_in(lent, message));
    REFUSED(visited, OLIVASTRUM_BAD_ARRIVAL, olivastrum_hand_in(lent, message));
    REFUSED(ring, OLIVASTRUM_NOT_ARRIVED, olivastrum_hand_in(lent, ahead));
    REFUSED(unsound, OLIVASTRUM_UNSOUND, olivastrum_mark(lent, last).number);
    REFUSED(ring, OLIVASTRUM_NO_SUCH_STATION, olivastrum_mark(lent, none).number);
    REFUSED(unsound, OLIVASTRUM_UNSOUND, olivastrum_unmark(lent, last));
    REFUSED(ring, OLIVASTRUM_NO_SUCH_STATION, olivastrum_unmark(lent, none));
    memcpy(lent, &ring, sizeof ring);
    if (olivastrum_hand_in(lent, message) || !memcmp(lent, &ring, sizeof ring)) fail("an accepted message", 0);
    if (olivastrum_mark(lent, last).number || olivastrum_unmark(lent, last)) fail("an accepted marking", 0);
    if (olivastrum_visit(lent, ask).number || lent->visits != 1) fail("an accepted visit", 0);
}

/* The same of the inspection that a host keeps of such a ring. */
static void inspected(uint32_t mode)
{
    struct olivastrum_set set = {{100, mode, 4, 1}, 2, {1, 1}, {30, 30}, {250, 250}, {300, 300}};
    struct olivastrum_alloc alloc = {{15, 15}};
    struct olivastrum_begun_inspection begun = olivastrum_begin_inspection(set, alloc);
    if (begun.number) fail("beginning", begun.number);
    struct olivastrum_inspection kept = begun.inspection, unbegun = kept, *watching = (struct olivastrum_inspection *)lent;
    unbegun.n = 0;
    struct olivastrum_next_entry entry = {OLIVASTRUM_VISIT_TAG, {0, 7, 0, 0, 0}, {1, 1}, 0}, none = entry, far = entry, odd = entry, mark = entry;
    none.kind = 15;
    far.visit.station = 256;
    odd.kind = mark.kind = OLIVASTRUM_MARK_TAG;
    odd.mark.mark = 256;
    REFUSED_ON(struct olivastrum_inspection, unbegun, OLIVASTRUM_UNSOUND, olivastrum_inspect_record(watching, entry).number);
    REFUSED_ON(struct olivastrum_inspection, kept, OLIVASTRUM_SHEET_WRONG, olivastrum_inspect_record(watching, none).number);
    REFUSED_ON(struct olivastrum_inspection, kept, OLIVASTRUM_OUT_OF_RANGE, olivastrum_inspect_record(watching, far).number);
    REFUSED_ON(struct olivastrum_inspection, kept, OLIVASTRUM_OUT_OF_RANGE, olivastrum_inspect_record(watching, odd).number);
    memcpy(watching, &kept, sizeof kept);
    if (olivastrum_inspect_record(watching, mark).record != 1 || watching->mark[1] != 1) fail("an accepted mark", 0);
    if (olivastrum_inspect_record(watching, entry).rule != 3 || watching->progress.rule != 3) fail("a visit with another limit", 0);
}

int main(void)
{
    room = (sizeof *lent + 65535) / 65536 * 65536;
    lent = mmap(0, room, PROT_READ | PROT_WRITE, MAP_PRIVATE | MAP_ANONYMOUS, -1, 0);
    if (lent == MAP_FAILED) fail("mmap", 0);
    of_mode(OLIVASTRUM_TIMELY);
    of_mode(OLIVASTRUM_FDDI);
    of_mode(OLIVASTRUM_EARLIER);
    inspected(OLIVASTRUM_TIMELY);
    inspected(OLIVASTRUM_FDDI);
    inspected(OLIVASTRUM_EARLIER);
    if (count != 51) fail("calls", count);
    puts("ok");
}
