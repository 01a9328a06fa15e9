/*
 * Sheets, planning and the ring in plain C, from the build definition. Nothing here is proved; bench.c holds every answer
 * to the proved library's before it measures.
 */
#include "plain.h"
#include "bytes.h"
#include "quotient.h"
#include <string.h>

#define MOST_TTRT 1000000u
#define MOST_FRAME 65535u
#define MOST_GRID 1000u
#define MOST_WALK 1000000u
#define MOST_C 100000000u
#define MOST_D 100000000u
#define MOST_P 100000000u
#define MOST_S 1000000u
#define MOST_CLOCK 1000000000000u
#define MOST_RING_CLOCK 1000002000000u
#define MOST_LATE 3u
#define VISITS_END ((uint64_t)1 << 62)

/* A fault in one of the stations: answered at once, as one writes it; or, with -DFAULTS_GATHERED, gathered and asked for
 * once behind the loop, so that the compiler can look at several stations at a time. */
#ifdef FAULTS_GATHERED
#define FAULT(test) (fault |= (uint32_t)(test))
#else
#define FAULT(test)       \
    do {                  \
        if (test)         \
            return 0;     \
    } while (0)
#endif

typedef struct olivastrum_set set_t;
typedef struct olivastrum_alloc alloc_t;
typedef struct olivastrum_ring ring_t;

/* ---- judging */

static int count_fits(const set_t *set)
{
    return set->n >= 1 && set->n <= OLIVASTRUM_MOST_STATIONS;
}

static int numbers_fit(const set_t *set)
{
    uint32_t fault = 0;
    if (set->head.ttrt < 1 || set->head.ttrt > MOST_TTRT)
        return 0;
    if (set->head.mode < OLIVASTRUM_TIMELY || set->head.mode > OLIVASTRUM_EARLIER)
        return 0;
    if (set->head.frame < 1 || set->head.frame > MOST_FRAME)
        return 0;
    if (set->head.grid < 1 || set->head.grid > MOST_GRID)
        return 0;
    for (uint32_t i = 0; i < set->n; i++) {
        FAULT(set->w[i] > MOST_WALK);
        FAULT(set->c[i] > MOST_C);
        FAULT(set->d[i] < 1);
        FAULT(set->d[i] > MOST_D);
        FAULT(set->p[i] < set->d[i]);
        FAULT(set->p[i] > MOST_P);
    }
    return fault == 0;
}

static int shares_fit(const alloc_t *alloc, uint32_t n)
{
    uint32_t fault = 0;
    for (uint32_t i = 0; i < n; i++)
        FAULT(alloc->s[i] > MOST_S);
    return fault == 0;
}

static uint32_t sum(const uint32_t *xs, uint32_t n)
{
    uint32_t all = 0;
    for (uint32_t i = 0; i < n; i++)
        all += xs[i];
    return all;
}

/* The quotient rounded up, by a number above 0. */
#ifdef BY_SHIFTING
static uint32_t rounded_up(uint32_t a, uint32_t b)
{
    uint32_t q = quotient(a, b);
    return q * b < a ? q + 1 : q;
}
#else
static uint32_t rounded_up(uint32_t a, uint32_t b)
{
    return (a + b - 1) / b;
}
#endif

/* The smallest multiple of the grid that is no less; where every number is one, there is nothing to do. */
static uint32_t on_the_grid(uint32_t grid, uint32_t s)
{
    return grid == 1 ? s : rounded_up(s, grid) * grid;
}

/* The first less the second, held at 0. */
static uint32_t room(uint32_t a, uint32_t b)
{
    return a > b ? a - b : 0;
}

static uint8_t judge(const set_t *set)
{
    if (!count_fits(set))
        return OLIVASTRUM_SHEET_WRONG;
    if (!numbers_fit(set))
        return OLIVASTRUM_OUT_OF_RANGE;
    uint32_t tau = sum(set->w, set->n);
    return tau < 1 || tau > set->head.ttrt ? OLIVASTRUM_WALK_TIME : OLIVASTRUM_ACCEPTED;
}

/* X, the least synchronous time in any interval d. */
static uint64_t least_time(uint32_t ttrt, uint32_t d, uint32_t s)
{
    uint32_t m = quotient(d, ttrt);
    uint32_t alpha = (m + 1) * ttrt - d;
    return (uint64_t)m * s + (s > alpha ? s - alpha : 0);
}

/* X of FDDI, where `away` ticks of a rotation are τ, the other stations' S and what a frame runs on. */
static uint64_t fddi_least_time(uint32_t ttrt, uint32_t d, uint32_t away, uint32_t s)
{
    uint32_t q = quotient(d, ttrt);
    if (q == 0)
        return 0;
    uint32_t last = room(d - q * ttrt, away);
    return (uint64_t)(q - 1) * s + (last < s ? last : s);
}

/* The deadline rule at every station, by the mode; `taken` is τ, the sum of S and what a frame runs on. */
static int deadlines_fit(const set_t *set, const alloc_t *alloc, uint32_t taken)
{
    uint32_t ttrt = set->head.ttrt;
    if (set->head.mode == OLIVASTRUM_FDDI) {
        for (uint32_t i = 0; i < set->n; i++)
            if (fddi_least_time(ttrt, set->d[i], taken - alloc->s[i], alloc->s[i]) < set->c[i])
                return 0;
        return 1;
    }
    for (uint32_t i = 0; i < set->n; i++)
        if (least_time(ttrt, set->d[i], alloc->s[i]) < set->c[i])
            return 0;
    return 1;
}

static int shares_on_the_grid(const alloc_t *alloc, uint32_t grid, uint32_t n)
{
    if (grid == 1)
        return 1;
    for (uint32_t i = 0; i < n; i++)
        if (quotient(alloc->s[i], grid) * grid != alloc->s[i])
            return 0;
    return 1;
}

/* 2, 4, 5 and 7; opening has 16 behind 5. */
static uint8_t judge_given(const set_t *set, const alloc_t *alloc, int opening)
{
    if (!count_fits(set))
        return OLIVASTRUM_SHEET_WRONG;
    if (!numbers_fit(set) || !shares_fit(alloc, set->n))
        return OLIVASTRUM_OUT_OF_RANGE;
    uint32_t tau = sum(set->w, set->n);
    if (tau < 1 || tau > set->head.ttrt)
        return OLIVASTRUM_WALK_TIME;
    if (opening && set->head.mode == OLIVASTRUM_FDDI)
        return OLIVASTRUM_RETIRED;
    uint32_t taken = sum(alloc->s, set->n) + tau + set->head.frame - 1;
    if (!shares_on_the_grid(alloc, set->head.grid, set->n))
        return OLIVASTRUM_RULE_BROKEN;
    if (taken > set->head.ttrt || !deadlines_fit(set, alloc, taken))
        return OLIVASTRUM_RULE_BROKEN;
    return OLIVASTRUM_ACCEPTED;
}

static uint8_t judge_plan(const set_t *set, const alloc_t *alloc)
{
    return judge_given(set, alloc, 0);
}

/* ---- sheets */

static uint8_t *put_head(uint8_t *at, uint8_t tag, uint8_t length)
{
    at[0] = tag;
    at[1] = 0;
    at[2] = length;
    return at + 3;
}

/* Field after field from the left, each number stored where it belongs; 0, 1, 2 or 3. */
static uint8_t read_fields(const uint8_t *sheet, size_t length, struct olivastrum_read_plan *answer)
{
    set_t *set = &answer->set;
    size_t at = 0;
    uint32_t stations = 0, allocations = 0;
    uint32_t head = 0; /* the highest tag of the header's fields that has passed */
    set->head.mode = OLIVASTRUM_TIMELY;
    set->head.frame = 1;
    set->head.grid = 1;
    for (;;) {
        if (length - at < 3)
            return OLIVASTRUM_SHEET_ENDS;
        uint8_t tag = sheet[at];
        size_t size = (size_t)sheet[at + 1] << 8 | sheet[at + 2];
        int allowed;
        switch (tag) {
        case 1:
            allowed = !head && size == 4;
            break;
        case 2:
            allowed = head && allocations == 0 && stations < OLIVASTRUM_MOST_STATIONS && size == 16;
            break;
        case 3:
            allowed = head && allocations < stations && size == 4;
            break;
        case 255:
            allowed = stations > 0 && allocations == stations && size == 0;
            break;
        default: /* tag 4, the mode, tag 5, F, and tag 6, g; cases of their own make the loop slower */
            allowed = tag >= 4 && tag <= 6 && head > 0 && head < tag && stations == 0 && size == (tag == 4 ? 1 : 4);
        }
        if (!allowed)
            return OLIVASTRUM_SHEET_WRONG;
        at += 3;
        if (length - at < size)
            return OLIVASTRUM_SHEET_ENDS;
        const uint8_t *body = sheet + at;
        at += size;
        if (tag == 1) {
            head = 1;
            set->head.ttrt = number_at(body);
        } else if (tag == 2) {
            set->w[stations] = number_at(body);
            set->c[stations] = number_at(body + 4);
            set->d[stations] = number_at(body + 8);
            set->p[stations] = number_at(body + 12);
            stations++;
        } else if (tag == 3) {
            answer->alloc.s[allocations++] = number_at(body);
        } else if (tag == 4) { /* what its absence means is none */
            head = 4;
            set->head.mode = body[0] == 1 ? 0 : body[0];
        } else if (tag == 5) {
            head = 5;
            set->head.frame = number_at(body) == 1 ? 0 : number_at(body);
        } else if (tag == 6) {
            head = 6;
            set->head.grid = number_at(body) == 1 ? 0 : number_at(body);
        } else {
            set->n = stations;
            return at < length ? OLIVASTRUM_SHEET_GOES_ON : OLIVASTRUM_ACCEPTED;
        }
    }
}

void plain_read_plan(const uint8_t *sheet, size_t length, struct olivastrum_read_plan *answer)
{
    memset(answer, 0, sizeof *answer);
    uint8_t number = read_fields(sheet, length, answer);
    if (number == OLIVASTRUM_ACCEPTED)
        number = judge_plan(&answer->set, &answer->alloc);
    if (number != OLIVASTRUM_ACCEPTED)
        memset(answer, 0, sizeof *answer);
    answer->number = number;
}

struct olivastrum_written plain_write_plan(const set_t *set, const alloc_t *alloc, uint8_t *out, size_t length)
{
    struct olivastrum_written answer = {0, judge_plan(set, alloc)};
    if (answer.number != OLIVASTRUM_ACCEPTED)
        return answer;
    size_t needed = OLIVASTRUM_PLAN_BYTES(set->n);
    if (set->head.mode != OLIVASTRUM_TIMELY)
        needed += OLIVASTRUM_MODE_BYTES;
    if (set->head.frame != 1)
        needed += OLIVASTRUM_FRAME_BYTES;
    if (set->head.grid != 1)
        needed += OLIVASTRUM_GRID_BYTES;
    if (length < needed) {
        answer.number = OLIVASTRUM_BUFFER_TOO_SHORT;
        return answer;
    }
    uint8_t *at = put_number(put_head(out, 1, 4), set->head.ttrt);
    if (set->head.mode != OLIVASTRUM_TIMELY) {
        at = put_head(at, 4, 1);
        *at++ = (uint8_t)set->head.mode;
    }
    if (set->head.frame != 1)
        at = put_number(put_head(at, 5, 4), set->head.frame);
    if (set->head.grid != 1)
        at = put_number(put_head(at, 6, 4), set->head.grid);
    for (uint32_t i = 0; i < set->n; i++) {
        at = put_head(at, 2, 16);
        at = put_number(at, set->w[i]);
        at = put_number(at, set->c[i]);
        at = put_number(at, set->d[i]);
        at = put_number(at, set->p[i]);
    }
    for (uint32_t i = 0; i < set->n; i++)
        at = put_number(put_head(at, 3, 4), alloc->s[i]);
    put_head(at, 255, 0);
    answer.length = needed;
    return answer;
}

/* ---- planning */

/* The smallest S that meets the deadline rule. All numbers are in range, so 32 bits hold every one of them. */
static uint32_t smallest(uint32_t ttrt, uint32_t c, uint32_t d)
{
    uint32_t m = quotient(d, ttrt);
    uint32_t alpha = (m + 1) * ttrt - d;
    if (c <= m * alpha)
        return m == 0 ? 0 : rounded_up(c, m);
    return rounded_up(c + alpha, m + 1);
}

/* The smallest S at each station by its own numbers, and whether the token rule holds. */
static int timely_plan(const set_t *set, alloc_t *alloc)
{
    uint64_t all = sum(set->w, set->n) + set->head.frame - 1;
    for (uint32_t i = 0; i < set->n; i++) {
        alloc->s[i] = on_the_grid(set->head.grid, smallest(set->head.ttrt, set->c[i], set->d[i]));
        all += alloc->s[i];
    }
    return all <= set->head.ttrt;
}

void plain_plan(const set_t *set, struct olivastrum_planned *answer)
{
    memset(answer, 0, sizeof *answer);
    answer->number = judge(set);
    if (answer->number != OLIVASTRUM_ACCEPTED)
        return;
    if (set->head.mode == OLIVASTRUM_FDDI) {
        answer->number = OLIVASTRUM_RETIRED;
        return;
    }
    if (!timely_plan(set, &answer->alloc)) {
        memset(answer, 0, sizeof *answer);
        answer->number = OLIVASTRUM_NO_ALLOCATION;
    }
}

/* ---- the ring */

/* FDDI: every timer rises, and goes back by TTRT each time that it reaches it, which raises the late count. */
static void run_on(ring_t *ring, uint32_t rise)
{
    uint32_t ttrt = ring->set.head.ttrt;
    for (uint32_t i = 0; i < ring->set.n; i++) {
        uint32_t timer = ring->trt[i] + rise;
        uint32_t laps = (uint32_t)(timer >= ttrt) + (uint32_t)(timer >= 2 * ttrt);
        ring->trt[i] = timer - laps * ttrt;
        ring->late[i] += laps;
    }
}

void plain_open(const set_t *set, const alloc_t *alloc, struct olivastrum_opened *answer)
{
    memset(answer, 0, sizeof *answer);
    answer->number = judge_given(set, alloc, 1);
    if (answer->number != OLIVASTRUM_ACCEPTED)
        return;
    ring_t *ring = &answer->ring;
    ring->set = *set;
    ring->alloc = *alloc;
    uint32_t walk = 0;
    for (uint32_t i = set->n; i-- > 0;) {
        walk += set->w[i];
        ring->trt[i] = walk;
    }
    ring->unused = sum(alloc->s, set->n);
}

static int sound(const ring_t *ring)
{
    if (judge_plan(&ring->set, &ring->alloc) != OLIVASTRUM_ACCEPTED)
        return 0;
    if (ring->token >= ring->set.n || ring->clock > MOST_RING_CLOCK || ring->visits >= VISITS_END)
        return 0;
    int fddi = ring->set.head.mode == OLIVASTRUM_FDDI;
    uint32_t most = fddi ? ring->set.head.ttrt - 1 : ring->set.head.ttrt;
    uint32_t fault = 0, unused = 0;
    if (fddi)
        for (uint32_t i = 0; i < ring->set.n; i++)
            FAULT(ring->late[i] > MOST_LATE);
    for (uint32_t i = 0; i < ring->set.n; i++) {
        FAULT(ring->trt[i] > most);
        FAULT(ring->sent[i] > ring->alloc.s[i]);
        FAULT(ring->rest[i] > ring->set.c[i]);
        unused += ring->alloc.s[i] - ring->sent[i];
#ifdef FAULTS_GATHERED
    }
    for (uint32_t i = 0; i < ring->set.n; i++) { /* these are twice as wide */
#endif
        FAULT(ring->arrival[i] > MOST_CLOCK);
    }
    return fault == 0 && (fddi || ring->unused == unused);
}

/* What a station is offered: nothing where it is marked. */
static uint32_t limit_of(const ring_t *ring, uint32_t p)
{
    if (ring->mark[p])
        return 0;
    if (ring->set.head.mode == OLIVASTRUM_FDDI)
        return ring->late[p] > 0 ? 0 : ring->set.head.ttrt - ring->trt[p];
    uint64_t taken = ring->unused + ring->trt[p] + ring->set.head.frame - 1;
    return taken < ring->set.head.ttrt ? (uint32_t)(ring->set.head.ttrt - taken) : 0;
}

/* Frames of one length start while the time used is below the limit, and each is finished. */
static uint32_t sent_in_frames(struct olivastrum_ask ask, uint32_t limit)
{
    uint32_t most = ask.length == 1 ? limit : rounded_up(limit, ask.length);
    return (ask.frames < most ? ask.frames : most) * ask.length;
}

/* The timers after a visit at p that sent sync, and in which the clock rose, from the start of its synchronous part on by
 * `since`. */
static void move_timers(ring_t *ring, uint32_t p, uint32_t sync, uint32_t rise, uint32_t since)
{
    if (ring->set.head.mode == OLIVASTRUM_FDDI) {
        if (ring->late[p] > 0)
            ring->late[p]--;
        else
            ring->trt[p] = 0;
        run_on(ring, rise);
        return;
    }
    uint32_t share = ring->alloc.s[p];
    ring->unused = ring->unused - (share - ring->sent[p]) + (share - sync);
    for (uint32_t i = 0; i < ring->set.n; i++)
        ring->trt[i] += rise;
    ring->trt[p] = since;
}

void plain_visit(ring_t *ring, struct olivastrum_ask ask, struct olivastrum_visit_answer *answer)
{
    memset(answer, 0, sizeof *answer);
    if (!sound(ring)) {
        answer->number = OLIVASTRUM_UNSOUND;
        return;
    }
    if (ask.length < 1 || ask.length > ring->set.head.frame) {
        answer->number = OLIVASTRUM_BAD_LENGTH;
        return;
    }
    if (ring->clock > MOST_CLOCK) {
        answer->number = OLIVASTRUM_CLOCK_TOO_HIGH;
        return;
    }
    uint32_t p = ring->token, share = ring->alloc.s[p];
    uint32_t limit = limit_of(ring, p);
    uint32_t async = sent_in_frames(ask, limit);
    uint32_t lead = ring->set.head.mode == OLIVASTRUM_EARLIER ? async : 0; /* sent before the synchronous part */
    uint64_t served = ring->clock + lead;
    uint32_t sync = 0;
    if (!ring->mark[p] && ring->rest[p] > 0 && ring->arrival[p] <= served)
        sync = share < ring->rest[p] ? share : ring->rest[p];

    struct olivastrum_visit_record *record = &answer->record;
    record->station.number = p;
    record->start.ticks = ring->clock;
    record->trt.ticks = ring->trt[p];
    record->limit.ticks = limit;
    record->synchronous.ticks = sync;
    record->asynchronous.ticks = async;
    if (ring->rest[p] > 0 && ring->rest[p] == sync) {
        record->finish.ticks = served + sync;
        record->margin = (int64_t)(ring->arrival[p] + ring->set.d[p]) - (int64_t)record->finish.ticks;
        record->completed = 1;
    }

    uint32_t rise = sync + async + ring->set.w[p];
    move_timers(ring, p, sync, rise, rise - lead);
    ring->sent[p] = sync;
    ring->rest[p] -= sync;
    ring->last[p] = served;
    ring->clock += rise;
    ring->visits++;
    ring->token = p + 1 < ring->set.n ? p + 1 : 0;
}

uint8_t plain_hand_in(ring_t *ring, const struct olivastrum_message *message)
{
    if (!sound(ring))
        return OLIVASTRUM_UNSOUND;
    uint64_t i = message->station.number, length = message->length.ticks, arrival = message->arrival.ticks;
    if (i >= ring->set.n)
        return OLIVASTRUM_NO_SUCH_STATION;
    if (length < 1 || length > ring->set.c[i])
        return OLIVASTRUM_BAD_LENGTH;
    if (ring->rest[i] > 0 || ring->mark[i])
        return OLIVASTRUM_STILL_HELD;
    if (arrival > ring->clock)
        return OLIVASTRUM_NOT_ARRIVED;
    if (arrival > MOST_CLOCK || (i < ring->visits && arrival <= ring->last[i]) ||
        (ring->had[i] && arrival < ring->arrival[i] + ring->set.p[i]))
        return OLIVASTRUM_BAD_ARRIVAL;
    ring->rest[i] = (uint32_t)length;
    ring->arrival[i] = arrival;
    ring->had[i] = 1;
    return OLIVASTRUM_ACCEPTED;
}

void plain_mark(ring_t *ring, uint64_t station, struct olivastrum_mark_answer *answer)
{
    memset(answer, 0, sizeof *answer);
    if (!sound(ring))
        answer->number = OLIVASTRUM_UNSOUND;
    else if (station >= ring->set.n)
        answer->number = OLIVASTRUM_NO_SUCH_STATION;
    if (answer->number != OLIVASTRUM_ACCEPTED || ring->mark[station])
        return;
    if (ring->rest[station] > 0) {
        answer->withdrawn = 1;
        answer->rest.ticks = ring->rest[station];
        answer->arrival.ticks = ring->arrival[station];
    }
    ring->rest[station] = 0;
    ring->mark[station] = 1;
}

uint8_t plain_unmark(ring_t *ring, uint64_t station)
{
    if (!sound(ring))
        return OLIVASTRUM_UNSOUND;
    if (station >= ring->set.n)
        return OLIVASTRUM_NO_SUCH_STATION;
    ring->mark[station] = 0;
    return OLIVASTRUM_ACCEPTED;
}
