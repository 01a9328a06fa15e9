#include "sets.h"

static uint64_t seed = 1;

void first_numbers(void)
{
    seed = 1;
}

uint32_t random_number(void)
{
    seed ^= seed << 13;
    seed ^= seed >> 7;
    seed ^= seed << 17;
    return (uint32_t)(seed >> 16);
}

/* FDDI gives nothing in the first rotation of a deadline, so there each is a rotation longer. */
struct olivastrum_set stations(uint32_t n, uint32_t mode, uint32_t frame)
{
    struct olivastrum_set set = {.head = {100000, mode, frame, 1}, .n = n};
    uint32_t longer = mode == OLIVASTRUM_FDDI ? 100000 : 0;
    for (uint32_t i = 0; i < n; i++) {
        set.w[i] = 10 + i % 3;
        set.c[i] = 300 + 37 * i % 400;
        set.d[i] = longer + (i % 16 == 5 ? 99900 : 100000 * (1 + i % 7) + 13337 * (i % 5));
        set.p[i] = set.d[i] + 1000 * (i % 2);
    }
    return set;
}

struct olivastrum_set rotations(uint32_t n, uint32_t q)
{
    struct olivastrum_set set = {.head = {90000, OLIVASTRUM_TIMELY, 1, 1}, .n = n};
    for (uint32_t i = 0; i < set.n; i++) {
        set.w[i] = 1;
        set.c[i] = (q - 1) * (100 + 37 * i % 400);
        set.d[i] = q * 90000 + 7919 * i % 90000;
        set.p[i] = set.d[i];
    }
    return set;
}

struct olivastrum_set random_fddi(uint32_t n, uint32_t load)
{
    uint32_t ttrt = 2000 + random_number() % 998001;
    struct olivastrum_set set = {.head = {ttrt, OLIVASTRUM_FDDI, 1, 1}, .n = n};
    uint32_t weight[OLIVASTRUM_MOST_STATIONS], all = 0, walk = 1 + random_number() % (ttrt / 10 / n);
    for (uint32_t i = 0; i < n; i++)
        all += weight[i] = 1 + random_number() % 1000;
    uint64_t room = (uint64_t)(ttrt - n * walk) * load / 100;
    for (uint32_t i = 0; i < n; i++) {
        uint32_t share = (uint32_t)(room * weight[i] / all);
        uint32_t q = random_number() % (8 * n) == 0 ? 1 : 2 + random_number() % 18;
        set.w[i] = walk;
        set.c[i] = q == 1 ? share : (q - 1) * share;
        set.d[i] = q * ttrt + random_number() % ttrt;
        set.p[i] = set.d[i];
    }
    return set;
}

static uint32_t rounded_up(uint32_t a, uint32_t b)
{
    return (a + b - 1) / b;
}

/* The smallest S of a station, a multiple of the grid, of which q are at least `more`, or q − 1 at least c. */
static uint32_t raised(uint32_t q, uint32_t c, uint32_t more, uint32_t grid)
{
    uint32_t s = rounded_up(more, q);
    if ((q - 1) * s >= c)
        s = rounded_up(c, q - 1);
    return rounded_up(s, grid) * grid;
}

/* Up from zeros, each station raised whose rule does not hold at the present sum, until the sum stays; 0 where there is no
 * vector. An S is never stored above TTRT, so q·S is at most D and 32 bits hold everything. */
static int climb(const struct olivastrum_set *set, struct olivastrum_alloc *alloc)
{
    uint32_t ttrt = set->head.ttrt, lost = set->head.frame - 1;
    for (uint32_t i = 0; i < set->n; i++)
        lost += set->w[i];
    for (uint32_t all = 0, next = 0;; all = next, next = 0) {
        for (uint32_t i = 0; i < set->n; i++) {
            uint32_t q = set->d[i] / ttrt, rest = set->d[i] % ttrt, c = set->c[i], s = alloc->s[i];
            uint32_t more = c + (lost + all > rest ? lost + all - rest : 0);
            if ((q == 0 ? 0 : q - 1) * s < c && q * s < more) {
                if (q == 0 || (q == 1 && c <= s))
                    return 0;
                alloc->s[i] = s = raised(q, c, more, set->head.grid);
                if (s > ttrt)
                    return 0;
            }
            next += s;
        }
        if (lost + next > ttrt)
            return 0;
        if (next == all)
            return 1;
    }
}

struct olivastrum_alloc shares_of(const struct olivastrum_set *set)
{
    static const struct olivastrum_alloc zeros;
    if (set->head.mode != OLIVASTRUM_FDDI)
        return olivastrum_plan_set(*set).alloc;
    struct olivastrum_alloc alloc = zeros;
    return climb(set, &alloc) ? alloc : zeros;
}

struct olivastrum_ring ring_of(const struct olivastrum_set *set, const struct olivastrum_alloc *alloc)
{
    if (set->head.mode != OLIVASTRUM_FDDI)
        return olivastrum_open_ring(*set, *alloc).ring;
    struct olivastrum_ring ring = {.set = *set, .alloc = *alloc};
    uint32_t walk = 0;
    for (uint32_t i = set->n; i-- > 0;) {
        walk += set->w[i];
        ring.late[i] = walk >= set->head.ttrt;
        ring.trt[i] = ring.late[i] ? 0 : walk;
        ring.unused += alloc->s[i];
    }
    return ring;
}
