/* The calls that are measured give the answers of plain C that is handed pointers. */
#include "calls.h"
#include "plain.h"
#include "sets.h"
#include <stdio.h>
#include <string.h>

typedef struct olivastrum_set set_t;
typedef struct olivastrum_alloc alloc_t;
typedef struct olivastrum_ring ring_t;
typedef struct olivastrum_message message_t;

static const struct calls *held;
static unsigned long compared;

#define SAME(test)                                                                  \
    do {                                                                            \
        compared++;                                                                 \
        if (!(test)) {                                                              \
            printf("agree.c:%d: the two differ: %s\n", __LINE__, #test);            \
            return 0;                                                               \
        }                                                                           \
    } while (0)

/* A number near one of the ends of the ranges. */
static uint32_t edge(void)
{
    static const uint32_t ends[] = {0, 1, 2, 100, 1000, 100000, 128, 1000000, 100000000, 0xffffffff};
    return ends[random_number() % (sizeof ends / sizeof *ends)] + random_number() % 3 - 1;
}

static int same_reading(const uint8_t *sheet, size_t length)
{
    struct olivastrum_read_plan one = held->read(sheet, length), plain;
    plain_read_plan(sheet, length, &plain);
    SAME(one.number == plain.number);
    SAME(memcmp(&one.set, &plain.set, sizeof plain.set) == 0);
    SAME(memcmp(&one.alloc, &plain.alloc, sizeof plain.alloc) == 0);
    return 1;
}

/* The sheet with a field of the header put in at every place. */
static int same_with(const uint8_t *sheet, size_t length, const uint8_t *field, size_t size)
{
    static uint8_t longer[MOST_PLAN_BYTES + OLIVASTRUM_FRAME_BYTES];
    for (size_t at = 0; at <= length; at++) {
        memcpy(longer, sheet, at);
        memcpy(longer + at, field, size);
        memcpy(longer + at + size, sheet + at, length - at);
        if (!same_reading(longer, length + size))
            return 0;
    }
    return 1;
}

static int same_sheets(uint32_t n, uint32_t mode, uint32_t frame)
{
    static uint8_t sheet[MOST_PLAN_BYTES + 1];
    set_t set = stations(n, mode, frame);
    size_t length = held->write(set, shares_of(&set), sheet, sizeof sheet).length;
    SAME(length == OLIVASTRUM_PLAN_BYTES(n) + (mode != OLIVASTRUM_TIMELY ? OLIVASTRUM_MODE_BYTES : 0) + (frame > 1 ? OLIVASTRUM_FRAME_BYTES : 0));
    for (uint8_t number = 0; number <= 4; number++) {
        const uint8_t modes[OLIVASTRUM_MODE_BYTES] = {4, 0, 1, number};
        const uint8_t frames[OLIVASTRUM_FRAME_BYTES] = {5, 0, 4, 0, number / 3, 0, number};
        const uint8_t grids[OLIVASTRUM_GRID_BYTES] = {6, 0, 4, 0, 0, number / 3, number};
        if (!same_with(sheet, length, modes, sizeof modes) || !same_with(sheet, length, frames, sizeof frames))
            return 0;
        if (!same_with(sheet, length, grids, sizeof grids))
            return 0;
    }
    for (size_t cut = 0; cut <= length + 1; cut++)
        if (!same_reading(sheet, cut))
            return 0;
    for (size_t at = 0; at < length; at++) {
        uint8_t byte = sheet[at];
        static const uint8_t others[] = {0, 1, 2, 3, 4, 5, 6, 16, 255};
        for (size_t k = 0; k < sizeof others; k++) {
            sheet[at] = others[k];
            if (!same_reading(sheet, length) || !same_reading(sheet, at + random_number() % 20))
                return 0;
        }
        sheet[at] = byte;
    }
    return 1;
}

/* Planning, writing and opening with whatever numbers stand there. */
static int same_plan(set_t set, alloc_t alloc)
{
    struct olivastrum_planned planned = held->plan(set), plain_planned;
    plain_plan(&set, &plain_planned);
    SAME(planned.number == plain_planned.number);
    SAME(memcmp(&planned.alloc, &plain_planned.alloc, sizeof planned.alloc) == 0);

    static uint8_t one_out[MOST_PLAN_BYTES], plain_out[MOST_PLAN_BYTES];
    memset(one_out, 85, sizeof one_out);
    memset(plain_out, 85, sizeof plain_out);
    size_t room = random_number() % 2 ? sizeof one_out : random_number() % sizeof one_out;
    struct olivastrum_written one = held->write(set, alloc, one_out, room);
    struct olivastrum_written plain = plain_write_plan(&set, &alloc, plain_out, room);
    SAME(one.number == plain.number && one.length == plain.length);
    SAME(memcmp(one_out, plain_out, sizeof plain_out) == 0);

    struct olivastrum_opened opened = held->open(set, alloc), plain_opened;
    plain_open(&set, &alloc, &plain_opened);
    SAME(opened.number == plain_opened.number);
    SAME(memcmp(&opened.ring, &plain_opened.ring, sizeof opened.ring) == 0);
    return 1;
}

static int same_plans(uint32_t n, uint32_t mode, uint32_t frame)
{
    set_t set = stations(n, mode, frame);
    alloc_t alloc = shares_of(&set);
    if (!same_plan(set, alloc))
        return 0;
    for (int k = 0; k < 2000; k++) {
        set_t other = set;
        alloc_t share = alloc;
        uint32_t i = random_number() % n;
        switch (random_number() % 10) {
        case 0: other.w[i] = edge(); break;
        case 1: other.c[i] = edge(); break;
        case 2: other.d[i] = edge(); break;
        case 3: other.p[i] = edge(); break;
        case 4: other.head.ttrt = edge(); break;
        case 5: other.n = edge(); break;
        case 6: share.s[i] += random_number() % 3 - 1; break;
        case 7: other.head.mode = edge(); break;
        case 8: other.head.frame = random_number() % 2 ? edge() : random_number() % 70000; break;
        case 9: other.head.grid = random_number() % 2 ? edge() : random_number() % 1200; break;
        }
        if (random_number() % 4 == 0)
            share.s[random_number() % n] = edge();
        if (random_number() % 2 == 0)
            share = held->plan(other).alloc;
        if (!same_plan(other, share))
            return 0;
    }
    return 1;
}

/* FDDI sets: random ones, with frames and a grid or without, with their plan, one a tick beside it and none; and one that is
 * all walk time, so that a timer starts at TTRT. */
static int same_older(uint32_t n)
{
    for (int k = 0; k < 500; k++) {
        set_t set = random_fddi(n, 1 + random_number() % 120);
        if (random_number() % 2)
            set.head.frame = 1 + random_number() % 1000;
        if (random_number() % 2)
            set.head.grid = 1 + random_number() % 1000;
        alloc_t share = shares_of(&set);
        if (!same_plan(set, share))
            return 0;
        share.s[random_number() % n] += random_number() % 2 ? 1 : (uint32_t)-1;
        if (!same_plan(set, share))
            return 0;
    }
    set_t walk = stations(n, OLIVASTRUM_FDDI, 1);
    walk.head.ttrt = 0;
    for (uint32_t i = 0; i < n; i++) {
        walk.head.ttrt += walk.w[i];
        walk.c[i] = 0;
    }
    return same_plan(walk, shares_of(&walk));
}

static int same_visit(ring_t *one, ring_t *plain, struct olivastrum_ask ask)
{
    struct olivastrum_visit_answer answer = held->visit(one, ask), plain_answer;
    plain_visit(plain, ask, &plain_answer);
    SAME(answer.number == plain_answer.number && answer.record.completed == plain_answer.record.completed);
    SAME(memcmp(&answer.record, &plain_answer.record, offsetof(struct olivastrum_visit_record, completed)) == 0);
    SAME(memcmp(one, plain, sizeof *plain) == 0);
    return 1;
}

static int same_hand_in(ring_t *one, ring_t *plain, message_t message)
{
    SAME(held->hand_in(one, message) == plain_hand_in(plain, &message));
    SAME(memcmp(one, plain, sizeof *plain) == 0);
    return 1;
}

static int same_mark(ring_t *one, ring_t *plain, uint64_t number)
{
    struct olivastrum_station station = {number};
    struct olivastrum_mark_answer answer = held->mark(one, station), plain_answer;
    plain_mark(plain, number, &plain_answer);
    SAME(answer.number == plain_answer.number && answer.withdrawn == plain_answer.withdrawn);
    SAME(answer.rest.ticks == plain_answer.rest.ticks && answer.arrival.ticks == plain_answer.arrival.ticks);
    SAME(memcmp(one, plain, sizeof *plain) == 0);
    return 1;
}

static int same_unmark(ring_t *one, ring_t *plain, uint64_t number)
{
    struct olivastrum_station station = {number};
    SAME(held->unmark(one, station) == plain_unmark(plain, number));
    SAME(memcmp(one, plain, sizeof *plain) == 0);
    return 1;
}

/* A marking or an unmarking, now and then of a station that there is not. */
static int same_switch(ring_t *one, ring_t *plain)
{
    uint64_t number = random_number() % (one->set.n + one->set.n / 8 + 1);
    return random_number() % 2 ? same_mark(one, plain, number) : same_unmark(one, plain, number);
}

static message_t any_message(const ring_t *ring)
{
    uint32_t n = ring->set.n, i = random_number() % (n + n / 8 + 1);
    uint32_t c = ring->set.c[i % 128];
    uint64_t back = random_number() % 4 ? 0 : random_number() % 1000;
    message_t message = {{i}, {random_number() % (c + 2)}, {back < ring->clock ? ring->clock - back : 0}};
    if (random_number() % 8 == 0)
        message.arrival.ticks = random_number();
    if (random_number() % 8 == 0)
        message.arrival.ticks = ring->clock + random_number() % 3;
    return message;
}

/* Some frames, few or many, of a length that is mostly one of the ring's. */
static struct olivastrum_ask any_ask(uint32_t frame)
{
    uint32_t frames = random_number() % 2 ? random_number() % 1000 : random_number();
    return (struct olivastrum_ask){frames, random_number() % 16 ? 1 + random_number() % frame : edge()};
}

/* A long run of visits and handings in, some refused, and now and then of a marking; a number of the ring is overwritten
 * first in a copy. */
static int same_runs(uint32_t n, uint32_t mode, uint32_t frame)
{
    set_t set = stations(n, mode, frame);
    alloc_t alloc = shares_of(&set);
    ring_t one = ring_of(&set, &alloc), plain = one;
    for (int k = 0; k < 5000; k++) {
        struct olivastrum_ask ask = any_ask(frame);
        if (!same_hand_in(&one, &plain, any_message(&one)) || !same_visit(&one, &plain, ask))
            return 0;
        if (random_number() % 8 == 0 && !same_switch(&one, &plain))
            return 0;
        ring_t damaged = one;
        uint32_t at = random_number() % (sizeof damaged / 4);
        uint32_t now = random_number() % 2 ? edge() : random_number();
        memcpy((uint8_t *)&damaged + 4 * at, &now, 4);
        ring_t plain_damaged = damaged;
        if (!same_visit(&damaged, &plain_damaged, ask))
            return 0;
        if (!same_hand_in(&damaged, &plain_damaged, any_message(&one)) || !same_switch(&damaged, &plain_damaged))
            return 0;
    }
    SAME(one.visits > 4000);
    return 1;
}

static int agree(void)
{
    static const uint32_t counts[] = {1, 2, 3, 8, 128};
    for (size_t k = 0; k < sizeof counts / sizeof *counts; k++) {
        uint32_t n = counts[k];
        for (uint32_t mode = OLIVASTRUM_TIMELY; mode <= OLIVASTRUM_EARLIER; mode++)
            for (uint32_t frame = 1; frame <= FRAME; frame += FRAME - 1)
                if (!same_sheets(n, mode, frame) || !same_plans(n, mode, frame) || !same_runs(n, mode, frame))
                    return 0;
        if (!same_older(n))
            return 0;
    }
    return 1;
}

unsigned long compared_answers(const struct calls *calls)
{
    held = calls;
    compared = 0;
    first_numbers();
    return agree() ? compared : 0;
}
