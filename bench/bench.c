/*
 * The proved library against plain C, all in this process and through the same harness. First every answer is held to plain
 * C's (agree.c). Then each job is timed in turns: a batch of the proved calls, one of plain C that is handed pointers
 * (plain.c), and one of plain C with the library's own signatures (values.c). Printed are the medians over the turns: by the
 * number of stations; by the mode, the grid, the frames and the rotations of a deadline; and of calls that are refused.
 */
#include "bytes.h"
#include "calls.h"
#include "plain.h"
#include "sets.h"
#include "system.h"
#include "values.h"
#include <stdio.h>
#include <string.h>

typedef struct olivastrum_set set_t;
typedef struct olivastrum_alloc alloc_t;
typedef struct olivastrum_ring ring_t;
typedef struct olivastrum_message message_t;
typedef struct olivastrum_station station_t;

#define MOST_CLOCK 1000000000000u

static const struct calls proved_calls = {olivastrum_read_plan_sheet, olivastrum_write_plan_sheet, olivastrum_plan_set, olivastrum_open_ring,
                                          olivastrum_visit, olivastrum_hand_in, olivastrum_mark, olivastrum_unmark};
static const struct calls value_calls = {values_read_plan_sheet, values_write_plan_sheet, values_plan_set, values_open_ring,
                                         values_visit, values_hand_in, values_mark, values_unmark};

#define BY_POINTERS ((const struct calls *)0)

/* ---- the jobs, each as a batch of so many calls: these ones, or BY_POINTERS plain C's; an answer is written where it stays */

struct work {
    set_t set;
    _Alignas(8) alloc_t alloc; /* else the compiler copies it twice to pass it */
    ring_t opened, ring;       /* each batch begins with the opened one */
    uint8_t sheet[MOST_PLAN_BYTES + 1], out[MOST_PLAN_BYTES];
    size_t length, room; /* of the sheet, and of what is written into */
    struct olivastrum_ask ask;
    message_t message;
    station_t station;
    uint8_t number;       /* what every call answers */
    unsigned long others; /* calls that answered another number: they would measure something else */
};

static void note(struct work *w, uint8_t number)
{
    w->others += number != w->number;
}

static void read_sheets(const struct calls *by, struct work *w, unsigned long calls)
{
    while (calls-- > 0) {
        if (by) {
            struct olivastrum_read_plan answer = by->read(w->sheet, w->length);
            note(w, answer.number);
        } else {
            struct olivastrum_read_plan answer;
            plain_read_plan(w->sheet, w->length, &answer);
            note(w, answer.number);
        }
    }
}

static void write_sheets(const struct calls *by, struct work *w, unsigned long calls)
{
    while (calls-- > 0)
        note(w, (by ? by->write(w->set, w->alloc, w->out, w->room) : plain_write_plan(&w->set, &w->alloc, w->out, w->room)).number);
}

static void plan_sets(const struct calls *by, struct work *w, unsigned long calls)
{
    while (calls-- > 0) {
        if (by) {
            struct olivastrum_planned answer = by->plan(w->set);
            note(w, answer.number);
        } else {
            struct olivastrum_planned answer;
            plain_plan(&w->set, &answer);
            note(w, answer.number);
        }
    }
}

static void open_rings(const struct calls *by, struct work *w, unsigned long calls)
{
    while (calls-- > 0) {
        if (by) {
            struct olivastrum_opened answer = by->open(w->set, w->alloc);
            note(w, answer.number);
        } else {
            struct olivastrum_opened answer;
            plain_open(&w->set, &w->alloc, &answer);
            note(w, answer.number);
        }
    }
}

/* Every accepted visit finds a message of full length that has just arrived. */
static void visit_rings(const struct calls *by, struct work *w, unsigned long calls)
{
    ring_t *ring = &w->ring;
    while (calls-- > 0) {
        if (w->number == OLIVASTRUM_ACCEPTED) {
            ring->rest[ring->token] = ring->set.c[ring->token];
            ring->arrival[ring->token] = ring->clock;
        }
        if (by) {
            struct olivastrum_visit_answer answer = by->visit(ring, w->ask);
            note(w, answer.number);
        } else {
            struct olivastrum_visit_answer answer;
            plain_visit(ring, w->ask, &answer);
            note(w, answer.number);
        }
    }
}

/* The station behind this one. */
static uint64_t next(const ring_t *ring, uint64_t i)
{
    return i + 1 < ring->set.n ? i + 1 : 0;
}

/* Every accepted handing in finds a station that holds nothing, the next one each time. */
static void hand_in_messages(const struct calls *by, struct work *w, unsigned long calls)
{
    ring_t *ring = &w->ring;
    while (calls-- > 0) {
        if (w->number == OLIVASTRUM_ACCEPTED) {
            uint64_t i = next(ring, w->message.station.number);
            ring->rest[i] = 0;
            ring->had[i] = 0;
            w->message = (message_t){{i}, {ring->set.c[i]}, {ring->clock}};
        }
        note(w, by ? by->hand_in(ring, w->message) : plain_hand_in(ring, &w->message));
    }
}

/* Every accepted marking finds a station that is in and holds a message, the next one each time. */
static void mark_stations(const struct calls *by, struct work *w, unsigned long calls)
{
    ring_t *ring = &w->ring;
    while (calls-- > 0) {
        if (w->number == OLIVASTRUM_ACCEPTED) {
            uint64_t i = w->station.number = next(ring, w->station.number);
            ring->rest[i] = ring->set.c[i];
            ring->mark[i] = 0;
        }
        if (by) {
            struct olivastrum_mark_answer answer = by->mark(ring, w->station);
            note(w, answer.number);
        } else {
            struct olivastrum_mark_answer answer;
            plain_mark(ring, w->station.number, &answer);
            note(w, answer.number);
        }
    }
}

/* Every accepted unmarking finds a station that is marked, the next one each time. */
static void unmark_stations(const struct calls *by, struct work *w, unsigned long calls)
{
    ring_t *ring = &w->ring;
    while (calls-- > 0) {
        if (w->number == OLIVASTRUM_ACCEPTED) {
            w->station.number = next(ring, w->station.number);
            ring->mark[w->station.number] = 1;
        }
        note(w, by ? by->unmark(ring, w->station) : plain_unmark(ring, w->station.number));
    }
}

typedef void batch(const struct calls *, struct work *, unsigned long);

/* What the ratios should be at most: to plain C that is handed pointers at 128 and at 8 stations, and to plain C with the
 * same signatures at both. Held to plain C that has no divide either (-DBY_SHIFTING). */
struct aims {
    double at_128, at_8, values;
};

static const struct aims on_a_ring = {1.2, 1.5, 1.2}, on_a_plan = {1.2, 2.0, 1.5}, of_writing = {1.3, 3.0, 1.5}, none = {0, 0, 0};

enum { READING, WRITING, PLANNING, OPENING, VISIT, HANDING_IN, MARKING, UNMARKING, JOBS };

static const struct job {
    const char *name;
    batch *run;
    const struct aims *aims;
} jobs[JOBS] = {
    [READING] = {"reading a plan sheet", read_sheets, &on_a_plan},
    [WRITING] = {"writing a plan sheet", write_sheets, &of_writing},
    [PLANNING] = {"planning", plan_sets, &on_a_plan},
    [OPENING] = {"opening", open_rings, &on_a_plan},
    [VISIT] = {"a lent visit", visit_rings, &on_a_ring},
    [HANDING_IN] = {"a lent handing in", hand_in_messages, &on_a_ring},
    [MARKING] = {"a lent marking", mark_stations, &on_a_ring},
    [UNMARKING] = {"a lent unmarking", unmark_stations, &on_a_ring},
};

/* ---- timing */

#define TURNS 31
#define BATCH_NS 200000.0

static struct work work;

/* The work on a set, every call of it accepted. Ticks are asked for one by one; where the ring has frames, the longest. */
static void prepare(set_t set)
{
    memset(&work, 0, sizeof work);
    work.set = set;
    work.alloc = shares_of(&set);
    work.opened = ring_of(&set, &work.alloc);
    work.length = olivastrum_write_plan_sheet(set, work.alloc, work.sheet, sizeof work.sheet).length;
    work.room = sizeof work.out;
    work.ask = (struct olivastrum_ask){set.head.frame > 1 ? 2 : 50, set.head.frame};
}

/* The processor time of one batch, in ns. */
static double timed(const struct job *job, const struct calls *by, unsigned long calls)
{
    work.ring = work.opened;
    job->run(by, &work, 16);
    double from = processor_ns();
    job->run(by, &work, calls);
    return processor_ns() - from;
}

/* Over the turns: the median and the quartiles. */
struct spread {
    double low, median, high;
};

static struct spread spread_of(double *all)
{
    qsort(all, TURNS, sizeof *all, by_size);
    return (struct spread){all[TURNS / 4], all[TURNS / 2], all[3 * TURNS / 4]};
}

static void show_time(struct spread ns)
{
    printf(ns.median < 99.95 ? " %9.1f" : " %9.0f", ns.median);
}

static void show_ratio(struct spread ratio, double aim)
{
    int over = aim > 0 && ratio.median >= aim + 0.005;
    printf(" %6.2f%c (%.2f to %.2f)", ratio.median, over ? '!' : ' ', ratio.low, ratio.high);
}

static int wrong; /* a timed call answered another number */

/* One row: the job on the work as it is prepared. */
static void show(const struct job *job, const char *more, uint32_t n)
{
    double proved[TURNS], pointers[TURNS], values[TURNS], to_pointers[TURNS], to_values[TURNS];
    unsigned long calls = 16;
    while (timed(job, BY_POINTERS, calls) < BATCH_NS)
        calls *= 2;
    for (int k = 0; k < TURNS; k++) {
        proved[k] = timed(job, &proved_calls, calls) / (double)calls;
        pointers[k] = timed(job, BY_POINTERS, calls) / (double)calls;
        values[k] = timed(job, &value_calls, calls) / (double)calls;
        to_pointers[k] = proved[k] / pointers[k];
        to_values[k] = proved[k] / values[k];
    }
    const struct aims *aims = job->aims;
    int held = n == 8 || n == OLIVASTRUM_MOST_STATIONS;
    printf("%-20s %-26s %4u", job->name, more, n);
    show_time(spread_of(proved));
    show_time(spread_of(pointers));
    show_ratio(spread_of(to_pointers), !held ? 0 : n == 8 ? aims->at_8 : aims->at_128);
    show_time(spread_of(values));
    show_ratio(spread_of(to_values), held ? aims->values : 0);
    printf("\n");
    if (work.others != 0) {
        printf("a timed call answered another number\n");
        wrong = 1;
    }
}

static void show_head(const char *first)
{
    printf("\n%-47s %4s %9s %9s %-22s %9s %s\n", first, "N", "proved ns", "pointers", "  ratio (quartiles)", "by value", "  ratio (quartiles)");
}

/* ---- the tables */

/* Judging by itself is opening that is refused with 7 at the last station: S is one less than its deadline asks for. */
static void refuse_last(void)
{
    uint32_t last = work.set.n - 1;
    put_number(work.sheet + work.length - 7, --work.alloc.s[last]);
    work.number = OLIVASTRUM_RULE_BROKEN;
}

static void show_by_stations(void)
{
    static const uint32_t counts[] = {1, 8, 12, 32, 128};
    static const struct job judging = {"judging", open_rings, &on_a_plan};
    show_head("by the number of stations");
    for (size_t j = 0; j < JOBS; j++) {
        for (size_t k = 0; k < sizeof counts / sizeof *counts; k++) {
            prepare(stations(counts[k], OLIVASTRUM_TIMELY, 1));
            show(&jobs[j], "", counts[k]);
        }
        for (size_t k = 0; j == OPENING && k < sizeof counts / sizeof *counts; k++) {
            prepare(stations(counts[k], OLIVASTRUM_TIMELY, 1));
            refuse_last();
            show(&judging, "(opening, 7)", counts[k]);
        }
    }
}

/* The mode, F and the grid of a set. Two of them at once are for visits alone. */
struct kind {
    const char *name;
    uint32_t mode, frame, grid;
    int two;
};

/* FDDI is visited, read and written, and neither planned nor opened. */
static int is_asked(size_t job, const struct kind *kind)
{
    return (!kind->two || job == VISIT) && (kind->mode != OLIVASTRUM_FDDI || (job != PLANNING && job != OPENING));
}

static void show_by_kind(void)
{
    static const struct kind kinds[] = {
        {"grid 8", OLIVASTRUM_TIMELY, 1, 8, 0},
        {"frames", OLIVASTRUM_TIMELY, FRAME, 1, 0},
        {"FDDI", OLIVASTRUM_FDDI, 1, 1, 0},
        {"FDDI, grid 8", OLIVASTRUM_FDDI, 1, 8, 1},
        {"FDDI, frames", OLIVASTRUM_FDDI, FRAME, 1, 1},
        {"2002 edition", OLIVASTRUM_EARLIER, 1, 1, 0},
        {"2002 edition, grid 8", OLIVASTRUM_EARLIER, 1, 8, 1},
        {"2002 edition, frames", OLIVASTRUM_EARLIER, FRAME, 1, 1},
    };
    show_head("by the mode, the grid, the frames and D / TTRT");
    for (size_t j = 0; j < JOBS; j++)
        for (const struct kind *kind = kinds; kind < kinds + sizeof kinds / sizeof *kinds; kind++)
            for (uint32_t n = 8; is_asked(j, kind) && n <= 128; n += 120) {
                set_t set = stations(n, kind->mode, kind->frame);
                set.head.grid = kind->grid;
                prepare(set);
                show(&jobs[j], kind->name, n);
            }
}

/* What it takes to have no divide: the more rotations a deadline has, the more bits has its quotient. */
static void show_by_rotations(void)
{
    static const size_t asking[] = {PLANNING, OPENING, VISIT};
    for (size_t j = 0; j < sizeof asking / sizeof *asking; j++)
        for (uint32_t n = 8; n <= 128; n += 120) {
            prepare(rotations(n, 10));
            show(&jobs[asking[j]], "D / TTRT 10", n);
            prepare(rotations(n, 1000));
            show(&jobs[asking[j]], "D / TTRT 1,000", n);
        }
}

/* ---- refused calls: what is wrong, and the number that is answered */

static void no_station(void)
{
    work.set.n = work.opened.set.n = 0;
}

static void first_walk_long(void)
{
    work.opened.set.w[0] = 1000001;
}

static void last_arrival_late(void)
{
    work.opened.arrival[work.set.n - 1] = MOST_CLOCK + 1;
}

static void frame_long(void)
{
    work.ask.length = work.set.head.frame + 1;
}

static void clock_high(void)
{
    work.opened.clock = MOST_CLOCK + 1;
}

static void station_missing(void)
{
    work.station.number = work.message.station.number = work.set.n;
}

static void message_long(void)
{
    work.message.length.ticks = work.set.c[0] + 1;
}

/* The last test of a handing in: less than P after the last accepted one. */
static void message_early(void)
{
    work.message.length.ticks = 1;
    work.opened.had[0] = 1;
}

static void sheet_empty(void)
{
    work.length = 0;
}

static void first_tag_wrong(void)
{
    work.sheet[0] = 9;
}

static void sheet_longer(void)
{
    work.sheet[work.length++] = 0;
}

static void room_short(void)
{
    work.room = work.length - 1;
}

static void last_too_much(void)
{
    work.set.c[work.set.n - 1] = 100000000;
}

static void show_refused(void)
{
    static const struct refusal {
        size_t job;
        uint32_t mode;
        const char *name;
        void (*spoil)(void);
        uint8_t number;
    } refusals[] = {
        {READING, 1, "1, empty", sheet_empty, 1},
        {READING, 1, "2, the first tag", first_tag_wrong, 2},
        {READING, 1, "3, a byte behind", sheet_longer, 3},
        {READING, 1, "7, the last station", refuse_last, 7},
        {WRITING, 1, "2, no station", no_station, 2},
        {WRITING, 1, "7, the last station", refuse_last, 7},
        {WRITING, 1, "14, a byte short", room_short, 14},
        {PLANNING, 1, "2, no station", no_station, 2},
        {PLANNING, 2, "16, FDDI", 0, 16},
        {PLANNING, 1, "6, at the end", last_too_much, 6},
        {OPENING, 1, "2, no station", no_station, 2},
        {OPENING, 2, "16, FDDI", 0, 16},
        {VISIT, 1, "8, no station", no_station, 8},
        {VISIT, 1, "8, the first w", first_walk_long, 8},
        {VISIT, 1, "8, the last arrival", last_arrival_late, 8},
        {VISIT, 1, "10, above F", frame_long, 10},
        {VISIT, 1, "13, the clock", clock_high, 13},
        {VISIT, 2, "8, the first w, FDDI", first_walk_long, 8},
        {VISIT, 2, "8, the last arrival, FDDI", last_arrival_late, 8},
        {VISIT, 2, "13, the clock, FDDI", clock_high, 13},
        {VISIT, 3, "8, the last arrival, 2002", last_arrival_late, 8},
        {VISIT, 3, "13, the clock, 2002", clock_high, 13},
        {HANDING_IN, 1, "8, no station", no_station, 8},
        {HANDING_IN, 1, "8, the last arrival", last_arrival_late, 8},
        {HANDING_IN, 1, "9, no such station", station_missing, 9},
        {HANDING_IN, 1, "10, above C", message_long, 10},
        {HANDING_IN, 1, "12, within P", message_early, 12},
        {HANDING_IN, 2, "9, no such station, FDDI", station_missing, 9},
        {HANDING_IN, 3, "9, no such station, 2002", station_missing, 9},
        {MARKING, 1, "8, no station", no_station, 8},
        {MARKING, 1, "8, the last arrival", last_arrival_late, 8},
        {MARKING, 1, "9, no such station", station_missing, 9},
        {MARKING, 2, "9, no such station, FDDI", station_missing, 9},
        {MARKING, 3, "9, no such station, 2002", station_missing, 9},
        {UNMARKING, 1, "8, no station", no_station, 8},
        {UNMARKING, 1, "8, the last arrival", last_arrival_late, 8},
        {UNMARKING, 1, "9, no such station", station_missing, 9},
        {UNMARKING, 2, "9, no such station, FDDI", station_missing, 9},
        {UNMARKING, 3, "9, no such station, 2002", station_missing, 9},
    };
    show_head("refused");
    for (const struct refusal *r = refusals; r < refusals + sizeof refusals / sizeof *refusals; r++)
        for (uint32_t n = 8; n <= 128; n += 120) {
            prepare(stations(n, r->mode, 1));
            if (r->spoil)
                r->spoil();
            work.number = r->number;
            struct job job = jobs[r->job];
            if (job.aims != &on_a_ring) /* no aim is set for the others' refusals */
                job.aims = &none;
            show(&job, r->name, n);
        }
}

int main(void)
{
    unsigned long proved = compared_answers(&proved_calls), values = compared_answers(&value_calls);
    if (proved == 0 || values != proved)
        return 1;
    printf("answers compared before timing: %lu of the proved calls and %lu of plain C by value, all the same as those of plain C by pointers\n", proved, values);
    show_by_stations();
    show_by_kind();
    show_by_rotations();
    show_refused();
    printf("\n!: above the aim, which is held to plain C that has no divide either (-DBY_SHIFTING)\n");
    return wrong;
}
