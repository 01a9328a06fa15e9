/*
 * A host in C that does the whole job with the worked run of the build definition: it reads a request, plans, writes
 * and reads the plan sheet, opens the ring, hands in messages and visits, and holds each number to the definition's; it
 * writes the log of the run, reads it back and inspects it; and the same of a run in which a station is switched through; it
 * keeps the plan in a store of versions, couples a hopper train and changes its wagons.
 * Refused calls must leave every byte of the ring and of the buffers as they were, and any bytes at all in place of a
 * ring must get an answer. The header's structs and constants are held to the Rattle sources (tests/host/run says how).
 * Prints `ok`, or the first line that failed.
 */
#include "olivastrum.h"
#include "fields.h"
#include <stdio.h>
#include <string.h>

typedef struct olivastrum_ring ring_t;

#define CHECK(test)                                             \
    do {                                                        \
        if (!(test)) {                                          \
            printf("host.c:%d: %s\n", __LINE__, #test);         \
            return 0;                                           \
        }                                                       \
    } while (0)

/* ---- the twins of the structs: sizes and places agree with the toolchain's, and what is lent has no padding */
#define AT(type, field) offsetof(struct type, field)
#define SAME(fields, ...)                                                     \
    do {                                                                      \
        static const size_t theirs[] = {fields}, ours[] = {__VA_ARGS__};      \
        CHECK(sizeof theirs == sizeof ours);                                  \
        CHECK(memcmp(theirs, ours, sizeof ours) == 0);                        \
    } while (0)

static int layouts(void)
{
    SAME(FIELDS_HEAD, sizeof(struct olivastrum_head), AT(olivastrum_head, ttrt), AT(olivastrum_head, mode),
         AT(olivastrum_head, frame), AT(olivastrum_head, grid));
    SAME(FIELDS_SET, sizeof(struct olivastrum_set), AT(olivastrum_set, head), AT(olivastrum_set, n), AT(olivastrum_set, w),
         AT(olivastrum_set, c), AT(olivastrum_set, d), AT(olivastrum_set, p));
    SAME(FIELDS_ALLOC, sizeof(struct olivastrum_alloc), AT(olivastrum_alloc, s));
    SAME(FIELDS_PLANNED, sizeof(struct olivastrum_planned), AT(olivastrum_planned, alloc), AT(olivastrum_planned, number));
    SAME(FIELDS_READ_REQUEST, sizeof(struct olivastrum_read_request), AT(olivastrum_read_request, set), AT(olivastrum_read_request, number));
    SAME(FIELDS_READ_PLAN, sizeof(struct olivastrum_read_plan), AT(olivastrum_read_plan, set), AT(olivastrum_read_plan, alloc),
         AT(olivastrum_read_plan, number));
    SAME(FIELDS_WRITTEN, sizeof(struct olivastrum_written), AT(olivastrum_written, length), AT(olivastrum_written, number));
    SAME(FIELDS_RING, sizeof(ring_t), AT(olivastrum_ring, set), AT(olivastrum_ring, alloc), AT(olivastrum_ring, trt), AT(olivastrum_ring, late),
         AT(olivastrum_ring, sent), AT(olivastrum_ring, rest), AT(olivastrum_ring, token), AT(olivastrum_ring, arrival),
         AT(olivastrum_ring, had), AT(olivastrum_ring, mark), AT(olivastrum_ring, last), AT(olivastrum_ring, clock), AT(olivastrum_ring, visits),
         AT(olivastrum_ring, unused));
    SAME(FIELDS_ASK, sizeof(struct olivastrum_ask), AT(olivastrum_ask, frames), AT(olivastrum_ask, length));
    SAME(FIELDS_MESSAGE, sizeof(struct olivastrum_message), AT(olivastrum_message, station), AT(olivastrum_message, length),
         AT(olivastrum_message, arrival));
    SAME(FIELDS_VISIT_RECORD, sizeof(struct olivastrum_visit_record), AT(olivastrum_visit_record, station), AT(olivastrum_visit_record, start),
         AT(olivastrum_visit_record, trt), AT(olivastrum_visit_record, limit), AT(olivastrum_visit_record, synchronous),
         AT(olivastrum_visit_record, asynchronous), AT(olivastrum_visit_record, finish), AT(olivastrum_visit_record, margin),
         AT(olivastrum_visit_record, completed));
    SAME(FIELDS_VISIT_ANSWER, sizeof(struct olivastrum_visit_answer), AT(olivastrum_visit_answer, record), AT(olivastrum_visit_answer, number));
    SAME(FIELDS_MARK_ANSWER, sizeof(struct olivastrum_mark_answer), AT(olivastrum_mark_answer, rest), AT(olivastrum_mark_answer, arrival),
         AT(olivastrum_mark_answer, withdrawn), AT(olivastrum_mark_answer, number));
    SAME(FIELDS_OPENED, sizeof(struct olivastrum_opened), AT(olivastrum_opened, ring), AT(olivastrum_opened, number));
    SAME(FIELDS_VISIT_ENTRY, sizeof(struct olivastrum_visit_entry), AT(olivastrum_visit_entry, station), AT(olivastrum_visit_entry, start),
         AT(olivastrum_visit_entry, limit), AT(olivastrum_visit_entry, synchronous), AT(olivastrum_visit_entry, asynchronous));
    SAME(FIELDS_MARK_ENTRY, sizeof(struct olivastrum_mark_entry), AT(olivastrum_mark_entry, station), AT(olivastrum_mark_entry, mark));
    SAME(FIELDS_LOG_ENTRY, sizeof(struct olivastrum_next_entry), AT(olivastrum_next_entry, kind), AT(olivastrum_next_entry, visit),
         AT(olivastrum_next_entry, mark), AT(olivastrum_next_entry, next));
    SAME(FIELDS_READ_LOG, sizeof(struct olivastrum_read_log), AT(olivastrum_read_log, set), AT(olivastrum_read_log, alloc),
         AT(olivastrum_read_log, first), AT(olivastrum_read_log, records), AT(olivastrum_read_log, number));
    SAME(FIELDS_RECORDER, sizeof(struct olivastrum_recorder), AT(olivastrum_recorder, at), AT(olivastrum_recorder, clock),
         AT(olivastrum_recorder, counter), AT(olivastrum_recorder, number));
    SAME(FIELDS_FINDING, sizeof(struct olivastrum_finding), AT(olivastrum_finding, records), AT(olivastrum_finding, record),
         AT(olivastrum_finding, rule), AT(olivastrum_finding, number));
    SAME(FIELDS_PLAN_FINDING, sizeof(struct olivastrum_plan_finding), AT(olivastrum_plan_finding, records), AT(olivastrum_plan_finding, visits),
         AT(olivastrum_plan_finding, record), AT(olivastrum_plan_finding, rule), AT(olivastrum_plan_finding, refused),
         AT(olivastrum_plan_finding, number), AT(olivastrum_plan_finding, another));

    SAME(FIELDS_PROGRESS, sizeof(struct olivastrum_progress), AT(olivastrum_progress, records), AT(olivastrum_progress, token),
         AT(olivastrum_progress, clock), AT(olivastrum_progress, unused), AT(olivastrum_progress, start), AT(olivastrum_progress, span),
         AT(olivastrum_progress, visited), AT(olivastrum_progress, rule));
    SAME(FIELDS_KEPT_INSPECTION, sizeof(struct olivastrum_inspection), AT(olivastrum_inspection, head), AT(olivastrum_inspection, n),
         AT(olivastrum_inspection, w), AT(olivastrum_inspection, s), AT(olivastrum_inspection, base), AT(olivastrum_inspection, sent),
         AT(olivastrum_inspection, mark), AT(olivastrum_inspection, progress));
    SAME(FIELDS_BEGUN_INSPECTION, sizeof(struct olivastrum_begun_inspection), AT(olivastrum_begun_inspection, inspection),
         AT(olivastrum_begun_inspection, number));
    SAME(FIELDS_RECORD_FINDING, sizeof(struct olivastrum_record_finding), AT(olivastrum_record_finding, record),
         AT(olivastrum_record_finding, expected), AT(olivastrum_record_finding, found), AT(olivastrum_record_finding, rule),
         AT(olivastrum_record_finding, number));
    SAME(FIELDS_STORED_PLAN, sizeof(struct olivastrum_stored_plan), AT(olivastrum_stored_plan, version), AT(olivastrum_stored_plan, number));
    SAME(FIELDS_FOUND_VERSION, sizeof(struct olivastrum_found_version), AT(olivastrum_found_version, place),
         AT(olivastrum_found_version, length), AT(olivastrum_found_version, number));
    SAME(FIELDS_VERSIONS_IN, sizeof(struct olivastrum_versions), AT(olivastrum_versions, oldest), AT(olivastrum_versions, newest),
         AT(olivastrum_versions, number));

    SAME(FIELDS_WAGON, sizeof(struct olivastrum_wagon), AT(olivastrum_wagon, boxes), AT(olivastrum_wagon, brake), AT(olivastrum_wagon, door));
    SAME(FIELDS_WAGON_LIST, sizeof(struct olivastrum_wagon_list), AT(olivastrum_wagon_list, n), AT(olivastrum_wagon_list, boxes),
         AT(olivastrum_wagon_list, brake), AT(olivastrum_wagon_list, door));
    SAME(FIELDS_TRAIN, sizeof(struct olivastrum_train), AT(olivastrum_train, list), AT(olivastrum_train, plan));
    SAME(FIELDS_COUPLED, sizeof(struct olivastrum_coupled), AT(olivastrum_coupled, train), AT(olivastrum_coupled, number));

    CHECK(sizeof(struct olivastrum_set) == 5 * 4 + 4 * 128 * 4);
    CHECK(sizeof(struct olivastrum_alloc) == 128 * 4);
    CHECK(sizeof(struct olivastrum_wagon_list) == 4 + 3 * 12 * 4 && OLIVASTRUM_MOST_WAGONS == 12);
    CHECK(sizeof(struct olivastrum_train) == sizeof(struct olivastrum_wagon_list) + sizeof(struct olivastrum_alloc));
    CHECK(sizeof(struct olivastrum_ask) == 2 * 4);
    CHECK(sizeof(struct olivastrum_message) == 3 * 8);
    CHECK(sizeof(struct olivastrum_visit_entry) == 5 * 4 && sizeof(struct olivastrum_mark_entry) == 2 * 4);
    CHECK(sizeof(struct olivastrum_next_entry) == 4 + 5 * 4 + 2 * 4 + 8);
    CHECK(sizeof(ring_t) == sizeof(struct olivastrum_set) + sizeof(struct olivastrum_alloc) + 4 * 128 * 4 + 4 + 2 * 128 * 8 + 2 * 128 + 3 * 8);
    return 1;
}

/* ---- the constants: a line NUMBER(NAME, VALUE) for each that the Rattle sources have */
static int constants(void)
{
#define NUMBER(name, value) CHECK(name == value);
#include "numbers.h"
    CHECK(OLIVASTRUM_REQUEST_BYTES(1) == 29 && OLIVASTRUM_REQUEST_BYTES(128) == 2442);
    CHECK(OLIVASTRUM_PLAN_BYTES(1) == 36 && OLIVASTRUM_PLAN_BYTES(128) == 3338);
    CHECK(OLIVASTRUM_VISIT_TAG == 16 && OLIVASTRUM_VISIT_BYTES == 3 + 17 && OLIVASTRUM_MARK_TAG == 17 && OLIVASTRUM_MARK_BYTES == 3 + 2);
    return 1;
}

/* ---- the worked run's request sheet, byte by byte */
static uint8_t *put(uint8_t *at, unsigned tag, unsigned length)
{
    *at++ = (uint8_t)tag;
    *at++ = (uint8_t)(length >> 8);
    *at++ = (uint8_t)length;
    return at;
}

static uint8_t *put_number(uint8_t *at, uint32_t x)
{
    *at++ = (uint8_t)(x >> 24);
    *at++ = (uint8_t)(x >> 16);
    *at++ = (uint8_t)(x >> 8);
    *at++ = (uint8_t)x;
    return at;
}

#define STATIONS 4

static const uint32_t walk_times[STATIONS] = {2, 0, 0, 0};

static uint8_t *put_set(uint8_t *at)
{
    at = put_number(put(at, 1, 4), 100);
    for (int i = 0; i < STATIONS; i++)
        at = put_number(put_number(put_number(put_number(put(at, 2, 16), walk_times[i]), 20), 100), 100);
    return at;
}

static int is_the_set(const struct olivastrum_set *set)
{
    CHECK(set->head.ttrt == 100 && set->head.mode == OLIVASTRUM_TIMELY && set->head.frame == 1 && set->head.grid == 1 && set->n == STATIONS);
    for (int i = 0; i < OLIVASTRUM_MOST_STATIONS; i++) {
        CHECK(set->w[i] == (i < STATIONS ? walk_times[i] : 0));
        CHECK(set->c[i] == (i < STATIONS ? 20u : 0));
        CHECK(set->d[i] == (i < STATIONS ? 100u : 0));
        CHECK(set->p[i] == (i < STATIONS ? 100u : 0));
    }
    return 1;
}

/* ---- a plan sheet in which every number is another one: each is read into its own place */
static int places(void)
{
    enum { count = 3, first = 1000 };
    uint8_t plan[OLIVASTRUM_PLAN_BYTES(count)];
    uint8_t *at = put_number(put(plan, 1, 4), first);
    for (uint32_t i = 0; i < count; i++)
        at = put_number(put_number(put_number(put_number(put(at, 2, 16), 10 + i), 20 + i), 3000 + i), 4000 + i);
    for (uint32_t i = 0; i < count; i++)
        at = put_number(put(at, 3, 4), 50 + i);
    put(at, 255, 0);

    struct olivastrum_read_plan read = olivastrum_read_plan_sheet(plan, sizeof plan);
    CHECK(read.number == 0);
    CHECK(read.set.head.ttrt == first && read.set.head.mode == OLIVASTRUM_TIMELY && read.set.head.frame == 1);
    CHECK(read.set.head.grid == 1 && read.set.n == count);
    for (uint32_t i = 0; i < count; i++) {
        CHECK(read.set.w[i] == 10 + i);
        CHECK(read.set.c[i] == 20 + i);
        CHECK(read.set.d[i] == 3000 + i);
        CHECK(read.set.p[i] == 4000 + i);
        CHECK(read.alloc.s[i] == 50 + i);
    }
    return 1;
}

static int all_zero(const void *bytes, size_t n)
{
    for (size_t i = 0; i < n; i++)
        CHECK(((const uint8_t *)bytes)[i] == 0);
    return 1;
}

/* Reads the request, plans it and writes the sheets; hands out the set and the allocation. */
static int planning(struct olivastrum_set *set, struct olivastrum_alloc *alloc)
{
    uint8_t request[OLIVASTRUM_REQUEST_BYTES(STATIONS) + 1], plan[OLIVASTRUM_PLAN_BYTES(STATIONS)];
    put(put_set(request), 255, 0);
    uint8_t *at = put_set(plan);
    for (int i = 0; i < STATIONS; i++)
        at = put_number(put(at, 3, 4), 20);
    put(at, 255, 0);

    /* reading: the set, and each refusal of a sheet with the blank set */
    struct olivastrum_read_request read = olivastrum_read_request_sheet(request, OLIVASTRUM_REQUEST_BYTES(STATIONS));
    CHECK(read.number == 0);
    CHECK(is_the_set(&read.set));
    for (size_t n = 0; n < OLIVASTRUM_REQUEST_BYTES(STATIONS); n++) {
        struct olivastrum_read_request cut = olivastrum_read_request_sheet(request, n);
        CHECK(cut.number == OLIVASTRUM_SHEET_ENDS);
        CHECK(all_zero(&cut.set, sizeof cut.set));
    }
    request[OLIVASTRUM_REQUEST_BYTES(STATIONS)] = 7;
    CHECK(olivastrum_read_request_sheet(request, OLIVASTRUM_REQUEST_BYTES(STATIONS) + 1).number == OLIVASTRUM_SHEET_GOES_ON);
    request[0] = 2;
    CHECK(olivastrum_read_request_sheet(request, OLIVASTRUM_REQUEST_BYTES(STATIONS)).number == OLIVASTRUM_SHEET_WRONG);
    request[0] = 1;

    /* planning: S is 20 at each station */
    struct olivastrum_planned planned = olivastrum_plan_set(read.set);
    CHECK(planned.number == 0);
    for (int i = 0; i < OLIVASTRUM_MOST_STATIONS; i++)
        CHECK(planned.alloc.s[i] == (i < STATIONS ? 20u : 0));
    struct olivastrum_set crowded = read.set;
    crowded.c[3] = 100;
    struct olivastrum_planned refused = olivastrum_plan_set(crowded);
    CHECK(refused.number == OLIVASTRUM_NO_ALLOCATION);
    CHECK(all_zero(&refused.alloc, sizeof refused.alloc));

    /* writing: the sheet stands in the first bytes, and the rest of the buffer is as it was */
    uint8_t out[200], before[200];
    memset(out, 0xa5, sizeof out);
    memset(before, 0xa5, sizeof before);
    struct olivastrum_written written = olivastrum_write_plan_sheet(read.set, planned.alloc, out, sizeof out);
    CHECK(written.number == 0 && written.length == sizeof plan);
    CHECK(memcmp(out, plan, sizeof plan) == 0);
    CHECK(memcmp(out + sizeof plan, before, sizeof out - sizeof plan) == 0);
    struct olivastrum_read_plan again = olivastrum_read_plan_sheet(out, sizeof plan);
    CHECK(again.number == 0);
    CHECK(memcmp(&again.set, &read.set, sizeof read.set) == 0);
    CHECK(memcmp(&again.alloc, &planned.alloc, sizeof planned.alloc) == 0);
    memset(out, 0xa5, sizeof out);
    written = olivastrum_write_request_sheet(read.set, out, sizeof out);
    CHECK(written.number == 0 && written.length == OLIVASTRUM_REQUEST_BYTES(STATIONS));
    CHECK(memcmp(out, request, OLIVASTRUM_REQUEST_BYTES(STATIONS)) == 0);
    CHECK(memcmp(out + written.length, before, sizeof out - written.length) == 0);

    /* refused writing: no byte of the buffer changes */
    memset(out, 0xa5, sizeof out);
    written = olivastrum_write_plan_sheet(read.set, planned.alloc, out, sizeof plan - 1);
    CHECK(written.number == OLIVASTRUM_BUFFER_TOO_SHORT && written.length == 0);
    written = olivastrum_write_request_sheet(read.set, out, OLIVASTRUM_REQUEST_BYTES(STATIONS) - 1);
    CHECK(written.number == OLIVASTRUM_BUFFER_TOO_SHORT && written.length == 0);
    struct olivastrum_alloc greedy = planned.alloc;
    greedy.s[0] = 99;
    written = olivastrum_write_plan_sheet(read.set, greedy, out, sizeof out);
    CHECK(written.number == OLIVASTRUM_RULE_BROKEN && written.length == 0);
    CHECK(memcmp(out, before, sizeof out) == 0);

    *set = read.set;
    *alloc = planned.alloc;
    return 1;
}

/* ---- the ring */
static struct olivastrum_message message(uint64_t station, uint64_t length, uint64_t arrival)
{
    struct olivastrum_message m = {{station}, {length}, {arrival}};
    return m;
}

/* a handing in that must be refused with this number, and leave every byte of the ring */
static int hand_in_refused(ring_t *ring, uint64_t station, uint64_t length, uint64_t arrival, uint8_t number)
{
    ring_t before = *ring;
    CHECK(olivastrum_hand_in(ring, message(station, length, arrival)) == number);
    CHECK(memcmp(ring, &before, sizeof before) == 0);
    return 1;
}

/* a marking and a mark taken off that must be refused with this number, and leave every byte of the ring */
static int mark_refused(ring_t *ring, uint64_t station, uint8_t number)
{
    ring_t before = *ring;
    struct olivastrum_station door = {station};
    struct olivastrum_mark_answer answer = olivastrum_mark(ring, door);
    CHECK(answer.number == number && answer.withdrawn == 0 && answer.rest.ticks == 0 && answer.arrival.ticks == 0);
    CHECK(olivastrum_unmark(ring, door) == number);
    CHECK(memcmp(ring, &before, sizeof before) == 0);
    return 1;
}

/* frames of one tick, which may be cut anywhere */
static struct olivastrum_ask ticks(uint32_t frames)
{
    struct olivastrum_ask ask = {frames, 1};
    return ask;
}

/* a visit that must be refused with this number, and leave every byte of the ring */
static int visit_refused(ring_t *ring, uint8_t number)
{
    ring_t before = *ring;
    struct olivastrum_visit_answer answer = olivastrum_visit(ring, ticks(1000));
    CHECK(answer.number == number);
    CHECK(all_zero(&answer.record, offsetof(struct olivastrum_visit_record, completed) + 1));
    CHECK(memcmp(ring, &before, sizeof before) == 0);
    return 1;
}

/* Opens the ring of the worked run. */
static int opening(ring_t *ring, struct olivastrum_set set, struct olivastrum_alloc alloc)
{
    struct olivastrum_alloc greedy = alloc;
    greedy.s[0] = 99;
    struct olivastrum_opened refused = olivastrum_open_ring(set, greedy);
    CHECK(refused.number == OLIVASTRUM_RULE_BROKEN);
    CHECK(all_zero(&refused.ring, sizeof refused.ring));
    struct olivastrum_opened opened = olivastrum_open_ring(set, alloc);
    CHECK(opened.number == 0);
    *ring = opened.ring;
    CHECK(memcmp(&ring->set, &set, sizeof set) == 0);
    CHECK(memcmp(&ring->alloc, &alloc, sizeof alloc) == 0);
    CHECK(ring->clock == 0 && ring->visits == 0 && ring->token == 0 && ring->unused == 80);
    CHECK(ring->trt[0] == 2 && all_zero(ring->trt + 1, sizeof ring->trt - 4) && all_zero(ring->late, sizeof ring->late));
    CHECK(all_zero(ring->sent, sizeof ring->sent) && all_zero(ring->rest, sizeof ring->rest));
    CHECK(all_zero(ring->arrival, sizeof ring->arrival) && all_zero(ring->had, sizeof ring->had) && all_zero(ring->last, sizeof ring->last));
    CHECK(all_zero(ring->mark, sizeof ring->mark));
    return 1;
}

/* A visit that asks for less than its limit, on a ring of its own. */
static int asked_less(ring_t ring)
{
    struct olivastrum_visit_answer answer = olivastrum_visit(&ring, ticks(5));
    struct olivastrum_visit_record *r = &answer.record;
    CHECK(answer.number == 0 && r->completed == 0 && r->finish.ticks == 0 && r->margin == 0);
    CHECK(r->station.number == 0 && r->start.ticks == 0 && r->trt.ticks == 2);
    CHECK(r->limit.ticks == 18 && r->synchronous.ticks == 0 && r->asynchronous.ticks == 5);
    CHECK(ring.clock == 7 && ring.visits == 1 && ring.token == 1 && ring.unused == 80);
    CHECK(ring.trt[0] == 7 && ring.trt[1] == 7 && ring.trt[STATIONS] == 0);
    return 1;
}

/* station, start, TRT, limit, sync, async, finish, margin */
static const int64_t rows[][8] = {
    {0, 0, 2, 18, 20, 18, 20, 80},
    {1, 40, 40, 0, 20, 0, 60, 40},
    {2, 60, 60, 0, 20, 0, 80, 20},
    {3, 80, 80, 0, 20, 0, 100, 0},
    {0, 100, 100, 0, 20, 0, 120, 80},
    {1, 122, 82, 18, 20, 18, 142, 58},
};

/* Station 0 of the opened ring switched through for one visit, and in again. */
static int switched_through(ring_t ring)
{
    struct olivastrum_station door = {0};
    CHECK(mark_refused(&ring, STATIONS, OLIVASTRUM_NO_SUCH_STATION));
    CHECK(mark_refused(&ring, UINT64_MAX, OLIVASTRUM_NO_SUCH_STATION));
    CHECK(olivastrum_hand_in(&ring, message(0, 20, 0)) == 0);
    ring_t before = ring;
    struct olivastrum_mark_answer taken = olivastrum_mark(&ring, door);
    CHECK(taken.number == 0 && taken.withdrawn == 1 && taken.rest.ticks == 20 && taken.arrival.ticks == 0);
    before.rest[0] = 0, before.mark[0] = 1;
    CHECK(memcmp(&ring, &before, sizeof before) == 0);
    taken = olivastrum_mark(&ring, door);
    CHECK(taken.number == 0 && taken.withdrawn == 0 && taken.rest.ticks == 0 && taken.arrival.ticks == 0);
    CHECK(memcmp(&ring, &before, sizeof before) == 0);
    CHECK(hand_in_refused(&ring, 0, 20, 100, OLIVASTRUM_STILL_HELD));
    struct olivastrum_visit_answer answer = olivastrum_visit(&ring, ticks(1000));
    struct olivastrum_visit_record *r = &answer.record;
    CHECK(answer.number == 0 && r->station.number == 0 && r->start.ticks == 0 && r->trt.ticks == 2 && r->completed == 0);
    CHECK(r->limit.ticks == 0 && r->synchronous.ticks == 0 && r->asynchronous.ticks == 0);
    CHECK(ring.clock == 2 && ring.visits == 1 && ring.token == 1 && ring.unused == 80 && ring.sent[0] == 0 && ring.trt[0] == 2);
    CHECK(olivastrum_unmark(&ring, door) == 0 && ring.mark[0] == 0);
    before = ring;
    CHECK(olivastrum_unmark(&ring, door) == 0 && memcmp(&ring, &before, sizeof before) == 0);
    CHECK(hand_in_refused(&ring, 0, 20, 2, OLIVASTRUM_BAD_ARRIVAL));
    CHECK(hand_in_refused(&ring, 0, 20, 3, OLIVASTRUM_NOT_ARRIVED));
    CHECK(hand_in_refused(&ring, 0, 20, 100, OLIVASTRUM_NOT_ARRIVED));
    ring.clock = 100;
    CHECK(hand_in_refused(&ring, 0, 20, 99, OLIVASTRUM_BAD_ARRIVAL));
    CHECK(olivastrum_hand_in(&ring, message(0, 20, 100)) == 0);
    return 1;
}

static int worked_run(ring_t *ring)
{
    for (uint64_t i = 0; i < STATIONS; i++) {
        CHECK(hand_in_refused(ring, i, 0, 0, OLIVASTRUM_BAD_LENGTH));
        CHECK(hand_in_refused(ring, i, 21, 0, OLIVASTRUM_BAD_LENGTH));
        ring_t before = *ring;
        CHECK(olivastrum_hand_in(ring, message(i, 20, 0)) == 0);
        before.rest[i] = 20;
        before.had[i] = 1;
        CHECK(memcmp(ring, &before, sizeof before) == 0);
        CHECK(hand_in_refused(ring, i, 20, 100, OLIVASTRUM_STILL_HELD));
    }
    CHECK(hand_in_refused(ring, STATIONS, 20, 0, OLIVASTRUM_NO_SUCH_STATION));
    CHECK(hand_in_refused(ring, UINT64_MAX, 20, 0, OLIVASTRUM_NO_SUCH_STATION));
    for (size_t k = 0; k < sizeof rows / sizeof rows[0]; k++) {
        const int64_t *row = rows[k];
        struct olivastrum_visit_answer answer = olivastrum_visit(ring, ticks(1000));
        struct olivastrum_visit_record *r = &answer.record;
        CHECK(answer.number == 0 && r->completed == 1);
        CHECK((int64_t)r->station.number == row[0] && (int64_t)r->start.ticks == row[1] && (int64_t)r->trt.ticks == row[2]);
        CHECK((int64_t)r->limit.ticks == row[3] && (int64_t)r->synchronous.ticks == row[4] && (int64_t)r->asynchronous.ticks == row[5]);
        CHECK((int64_t)r->finish.ticks == row[6] && r->margin == row[7]);
        CHECK(ring->visits == k + 1 && ring->rest[row[0]] == 0 && ring->sent[row[0]] == 20);
        CHECK(ring->last[row[0]] == (uint64_t)row[1] && ring->had[row[0]] == 1);
        CHECK(ring->arrival[row[0]] == (k < STATIONS ? 0 : 100));
        if (k + 1 < STATIONS)
            CHECK(hand_in_refused(ring, (uint64_t)row[0], 20, 100, OLIVASTRUM_NOT_ARRIVED));
        /* The clock has reached 100. */
        for (uint64_t i = 0; k + 1 == STATIONS && i < STATIONS; i++) {
            CHECK(hand_in_refused(ring, i, 20, 99, OLIVASTRUM_BAD_ARRIVAL));
            CHECK(hand_in_refused(ring, i, 20, 101, OLIVASTRUM_NOT_ARRIVED));
            CHECK(hand_in_refused(ring, i, 20, 1000000000001u, OLIVASTRUM_NOT_ARRIVED));
            CHECK(olivastrum_hand_in(ring, message(i, 20, 100)) == 0);
            CHECK(ring->arrival[i] == 100 && ring->last[i] == (uint64_t)rows[i][1]);
        }
    }
    CHECK(ring->clock == 160 && ring->token == 2 && ring->unused == 0);
    CHECK(ring->last[0] == 100 && ring->last[1] == 122 && ring->last[2] == 60 && ring->last[3] == 80);
    return 1;
}

/* ---- the log of the worked run */
#define VISITS (sizeof rows / sizeof rows[0])
#define LOG_BYTES (OLIVASTRUM_PLAN_BYTES(STATIONS) + VISITS * OLIVASTRUM_VISIT_BYTES)

/* The counter shows this at the opening, so that it runs past its top between the second visit and the third. */
#define COUNTER 4294967246u

/* Runs the ring and records it; a buffer that is a byte too short takes all but the last visit, and can still be ended. */
static int recording(struct olivastrum_set set, struct olivastrum_alloc alloc, uint32_t counter, uint8_t *log)
{
    uint8_t shorter[LOG_BYTES - 1];
    ring_t ring = olivastrum_open_ring(set, alloc).ring;
    struct olivastrum_recorder whole = olivastrum_begin_log(set, alloc, counter, 0, log, LOG_BYTES);
    struct olivastrum_recorder part = olivastrum_begin_log(set, alloc, counter, 0, shorter, sizeof shorter);
    for (uint64_t i = 0; i < STATIONS; i++)
        CHECK(olivastrum_hand_in(&ring, message(i, 20, 0)) == 0);
    for (size_t k = 0; k < VISITS; k++) {
        struct olivastrum_visit_record record = olivastrum_visit(&ring, ticks(1000)).record;
        whole = olivastrum_add_visit(whole, record, log, LOG_BYTES);
        CHECK(whole.number == 0);
        part = olivastrum_add_visit(part, record, shorter, sizeof shorter);
        CHECK(part.number == (k + 1 < VISITS ? 0 : OLIVASTRUM_BUFFER_TOO_SHORT));
        for (uint64_t i = 0; k + 1 == STATIONS && i < STATIONS; i++)
            CHECK(olivastrum_hand_in(&ring, message(i, 20, 100)) == 0);
    }
    struct olivastrum_written ended = olivastrum_end_log(whole, log, LOG_BYTES);
    CHECK(ended.number == 0 && ended.length == LOG_BYTES);
    ended = olivastrum_end_log(part, shorter, sizeof shorter);
    CHECK(ended.number == 0 && ended.length == LOG_BYTES - OLIVASTRUM_VISIT_BYTES);
    CHECK(memcmp(log, shorter, ended.length - 3) == 0);
    return 1;
}

/* What was written is read back: the plan, and each visit by the numbers of the worked run. */
static int read_back(const struct olivastrum_set *set, const struct olivastrum_alloc *alloc, const uint8_t *log)
{
    struct olivastrum_read_log read = olivastrum_read_log(log, LOG_BYTES);
    CHECK(read.number == 0 && read.first == OLIVASTRUM_PLAN_BYTES(STATIONS) - 3 && read.records == VISITS);
    CHECK(memcmp(&read.set, set, sizeof *set) == 0 && memcmp(&read.alloc, alloc, sizeof *alloc) == 0);
    uint64_t at = read.first;
    for (size_t k = 0; k < VISITS; k++) {
        struct olivastrum_next_entry next = olivastrum_log_entry(log, LOG_BYTES, at);
        const int64_t *row = rows[k];
        CHECK(next.kind == OLIVASTRUM_VISIT_TAG && next.next == at + OLIVASTRUM_VISIT_BYTES && all_zero(&next.mark, sizeof next.mark));
        CHECK(next.visit.station == row[0] && next.visit.start == (uint32_t)(COUNTER + (uint64_t)row[1]) && next.visit.limit == row[3]);
        CHECK(next.visit.synchronous == row[4] && next.visit.asynchronous == row[5]);
        at = next.next;
    }
    struct olivastrum_next_entry none = olivastrum_log_entry(log, LOG_BYTES, at);
    CHECK(all_zero(&none, sizeof none));
    return 1;
}

static int is_finding(struct olivastrum_finding found, uint64_t records, uint64_t record, uint8_t rule, uint8_t number)
{
    return found.records == records && found.record == record && found.rule == rule && found.number == number;
}

/* The records of a log that is read, handed in one after another, and held to what the inspection of the whole log says:
 * until a record breaks a rule each is counted, and from that one on the answer stays. */
static int watched(const uint8_t *log, size_t length)
{
    struct olivastrum_read_log read = olivastrum_read_log(log, length);
    struct olivastrum_finding whole = olivastrum_inspect_log(log, length);
    struct olivastrum_begun_inspection begun = olivastrum_begin_inspection(read.set, read.alloc);
    CHECK(read.number == 0 && begun.number == 0);
    uint64_t at = read.first;
    for (uint64_t k = 1; k <= read.records; k++) {
        struct olivastrum_next_entry entry = olivastrum_log_entry(log, length, at);
        struct olivastrum_record_finding said = olivastrum_inspect_record(&begun.inspection, entry);
        int broken = whole.rule != 0 && whole.record <= k;
        CHECK(said.number == 0 && said.rule == (broken ? whole.rule : 0) && said.record == (broken ? whole.record : k));
        int compared = broken && whole.record == k;
        CHECK(compared ? said.expected != said.found || entry.kind == OLIVASTRUM_MARK_TAG || said.rule == 5 : said.expected == 0 && said.found == 0);
        at = entry.next;
    }
    CHECK(begun.inspection.progress.rule == whole.rule && whole.records == read.records);
    return 1;
}

/* A plan that no log has begins no inspection, and a record that no log holds is not looked at. */
static int not_watched(struct olivastrum_set set, struct olivastrum_alloc alloc)
{
    struct olivastrum_begun_inspection begun = olivastrum_begin_inspection(set, alloc);
    CHECK(begun.number == 0);
    struct olivastrum_inspection kept = begun.inspection, any;
    struct olivastrum_next_entry entry;
    memset(&entry, 0, sizeof entry);
    CHECK(olivastrum_inspect_record(&kept, entry).number == OLIVASTRUM_SHEET_WRONG);
    entry.kind = OLIVASTRUM_VISIT_TAG;
    entry.visit.station = 256;
    CHECK(olivastrum_inspect_record(&kept, entry).number == OLIVASTRUM_OUT_OF_RANGE);
    entry.kind = OLIVASTRUM_MARK_TAG;
    entry.mark.mark = 256;
    CHECK(olivastrum_inspect_record(&kept, entry).number == OLIVASTRUM_OUT_OF_RANGE);
    CHECK(memcmp(&kept, &begun.inspection, sizeof kept) == 0);
    entry.mark.mark = 2; /* a log can hold it, and it breaks the station rule: N is 4, and the station 0 */
    struct olivastrum_record_finding said = olivastrum_inspect_record(&kept, entry);
    CHECK(said.number == 0 && said.record == 1 && said.rule == 1 && said.expected == STATIONS && said.found == 0);
    alloc.s[0] = 99;
    begun = olivastrum_begin_inspection(set, alloc);
    CHECK(begun.number == OLIVASTRUM_RULE_BROKEN && all_zero(&begun.inspection, sizeof begun.inspection));
    CHECK(olivastrum_inspect_record(&begun.inspection, entry).number == OLIVASTRUM_UNSOUND);
    memset(&any, 0xff, sizeof any); /* any bytes get an answer */
    CHECK(olivastrum_inspect_record(&any, entry).number == OLIVASTRUM_UNSOUND);
    any.n = 128;
    CHECK(olivastrum_inspect_record(&any, entry).number == 0);
    return 1;
}

/* The logs of examples/: of the worked run, and of another maker. */
static int watched_examples(void)
{
    static const uint8_t worked[] = {
#include "worked_log.h"
    };
    static const uint8_t other[] = {
#include "other_log.h"
    };
    return watched(worked, sizeof worked) && watched(other, sizeof other);
}

/* The log that the ring wrote is accepted, and so is its plan alone. A number that is one higher is found, and the log as it
 * is read no more is refused. */
static int inspecting(uint8_t *log)
{
    const size_t first = OLIVASTRUM_PLAN_BYTES(STATIONS) - 3;
    CHECK(is_finding(olivastrum_inspect_log(log, LOG_BYTES), VISITS, 0, 0, 0));
    for (uint64_t k = 0; k < VISITS; k++)
        for (uint8_t rule = 1; rule <= 5; rule++) {
            /* behind tag and length the station's byte, then the last byte of each number */
            uint8_t *byte = log + first + k * OLIVASTRUM_VISIT_BYTES + (rule == 1 ? 3u : 4u * rule - 1u);
            *byte += 1;
            int free_start = rule == 2 && k == 0; /* then the second record's is wrong */
            CHECK(is_finding(olivastrum_inspect_log(log, LOG_BYTES), VISITS, free_start ? 2 : k + 1, rule, 0));
            CHECK(watched(log, LOG_BYTES));
            *byte -= 1;
        }
    CHECK(is_finding(olivastrum_inspect_log(log, LOG_BYTES - 1), 0, 0, 0, OLIVASTRUM_SHEET_ENDS));
    memcpy(log + first, log + LOG_BYTES - 3, 3);
    CHECK(is_finding(olivastrum_inspect_log(log, first + 3), 0, 0, 0, 0));
    CHECK(is_finding(olivastrum_inspect_log(log, first + 4), 0, 0, 0, OLIVASTRUM_SHEET_GOES_ON));
    log[first - 1] = 99;
    CHECK(is_finding(olivastrum_inspect_log(log, first + 3), 0, 0, 0, OLIVASTRUM_RULE_BROKEN));
    return 1;
}

static int is_plan_finding(struct olivastrum_plan_finding found, uint64_t visits, uint8_t rule, uint8_t refused, uint8_t number, uint8_t another)
{
    return found.records == visits && found.visits == visits && found.record == (rule != 0) && found.rule == rule && found.refused == refused &&
           found.number == number && found.another == another;
}

/* The log that the ring wrote is accepted with the plan sheet that it was opened from, and not with one in which a station
 * has one tick more. Which of the two is refused is told, the plan sheet first, and then nothing is inspected. */
static int inspecting_of(uint8_t *log)
{
    const size_t first = OLIVASTRUM_PLAN_BYTES(STATIONS) - 3;
    uint8_t plan[OLIVASTRUM_PLAN_BYTES(STATIONS)];
    memcpy(plan, log, first);
    memcpy(plan + first, log + LOG_BYTES - 3, 3);
    CHECK(is_plan_finding(olivastrum_inspect_log_of(plan, sizeof plan, log, LOG_BYTES), VISITS, 0, 0, 0, 0));
    CHECK(is_plan_finding(olivastrum_inspect_log_of(plan, sizeof plan, plan, sizeof plan), 0, 0, 0, 0, 0));
    log[first + 3] += 1;
    CHECK(is_plan_finding(olivastrum_inspect_log_of(plan, sizeof plan, log, LOG_BYTES), VISITS, 1, 0, 0, 0));
    plan[first - 1] += 1;
    CHECK(is_plan_finding(olivastrum_inspect_log_of(plan, sizeof plan, log, LOG_BYTES), 0, 0, 0, 0, 1));
    log[first + 3] -= 1;
    CHECK(is_plan_finding(olivastrum_inspect_log_of(plan, sizeof plan, log, LOG_BYTES), 0, 0, 0, 0, 1));
    CHECK(is_plan_finding(olivastrum_inspect_log_of(plan, sizeof plan, log, LOG_BYTES - 1), 0, 0, 2, OLIVASTRUM_SHEET_ENDS, 0));
    plan[first - 1] = 99;
    CHECK(is_plan_finding(olivastrum_inspect_log_of(plan, sizeof plan, log, LOG_BYTES - 1), 0, 0, 1, OLIVASTRUM_RULE_BROKEN, 0));
    CHECK(is_plan_finding(olivastrum_inspect_log_of(log, LOG_BYTES, log, LOG_BYTES), 0, 0, 1, OLIVASTRUM_SHEET_WRONG, 0));
    return 1;
}

/* With a counter that shows 0 at the opening it is byte for byte the log that the program writes of the same calls. */
static const uint8_t worked_log[] = {
#include "worked_log.h"
};

static int logs(struct olivastrum_set set, struct olivastrum_alloc alloc)
{
    uint8_t log[LOG_BYTES];
    CHECK(recording(set, alloc, 0, log));
    CHECK(sizeof worked_log == LOG_BYTES && memcmp(log, worked_log, LOG_BYTES) == 0);
    return recording(set, alloc, COUNTER, log) && read_back(&set, &alloc, log) && inspecting_of(log) && inspecting(log);
}

/* ---- the log of a run in which station 1 is switched through for a visit: a mark, two visits, a mark */
enum { MARKS = 2, MARKED_VISITS = 2, MARKED_BYTES = OLIVASTRUM_PLAN_BYTES(STATIONS) + MARKS * OLIVASTRUM_MARK_BYTES + MARKED_VISITS * OLIVASTRUM_VISIT_BYTES };

/* Adds a mark; in a byte less than its field and the end take it must be refused, with nothing written. */
static int add_mark(struct olivastrum_recorder *recorder, uint32_t station, uint32_t mark, uint8_t *log, size_t length)
{
    struct olivastrum_mark_entry entry = {station, mark};
    uint8_t before[MARKED_BYTES];
    memcpy(before, log, length);
    struct olivastrum_recorder refused = olivastrum_add_mark(*recorder, entry, log, recorder->at + OLIVASTRUM_MARK_BYTES + 2);
    CHECK(refused.number == OLIVASTRUM_BUFFER_TOO_SHORT && refused.at == recorder->at);
    CHECK(refused.clock == recorder->clock && refused.counter == recorder->counter && memcmp(log, before, length) == 0);
    struct olivastrum_recorder added = olivastrum_add_mark(*recorder, entry, log, length);
    CHECK(added.number == 0 && added.at == recorder->at + OLIVASTRUM_MARK_BYTES);
    CHECK(added.clock == recorder->clock && added.counter == recorder->counter);
    const uint8_t field[] = {OLIVASTRUM_MARK_TAG, 0, 2, (uint8_t)station, (uint8_t)mark};
    CHECK(memcmp(log + recorder->at, field, sizeof field) == 0);
    CHECK(memcmp(log, before, recorder->at) == 0 && memcmp(log + added.at, before + added.at, length - added.at) == 0);
    *recorder = added;
    return 1;
}

static int is_mark(const uint8_t *log, size_t length, uint64_t at, uint32_t station, uint32_t mark)
{
    struct olivastrum_next_entry next = olivastrum_log_entry(log, length, at);
    CHECK(next.kind == OLIVASTRUM_MARK_TAG && next.next == at + OLIVASTRUM_MARK_BYTES && all_zero(&next.visit, sizeof next.visit));
    CHECK(next.mark.station == station && next.mark.mark == mark);
    return 1;
}

static int marked_log(struct olivastrum_set set, struct olivastrum_alloc alloc)
{
    uint8_t log[MARKED_BYTES];
    memset(log, 0xa5, sizeof log);
    struct olivastrum_station door = {1};
    ring_t ring = olivastrum_open_ring(set, alloc).ring;
    struct olivastrum_recorder recorder = olivastrum_begin_log(set, alloc, COUNTER, ring.clock, log, sizeof log);
    CHECK(recorder.number == 0 && olivastrum_mark(&ring, door).number == 0);
    CHECK(add_mark(&recorder, 1, 1, log, sizeof log));
    for (int k = 0; k < MARKED_VISITS; k++)
        recorder = olivastrum_add_visit(recorder, olivastrum_visit(&ring, ticks(5)).record, log, sizeof log);
    CHECK(recorder.number == 0 && olivastrum_unmark(&ring, door) == 0);
    CHECK(add_mark(&recorder, 1, 0, log, sizeof log));
    struct olivastrum_written written = olivastrum_end_log(recorder, log, sizeof log);
    CHECK(written.number == 0 && written.length == sizeof log);

    /* read back: both marks round the visits, the second of which is of the marked station */
    struct olivastrum_read_log read = olivastrum_read_log(log, sizeof log);
    CHECK(read.number == 0 && read.records == MARKS + MARKED_VISITS);
    CHECK(is_mark(log, sizeof log, read.first, 1, 1));
    uint64_t second = read.first + OLIVASTRUM_MARK_BYTES + OLIVASTRUM_VISIT_BYTES;
    struct olivastrum_next_entry through = olivastrum_log_entry(log, sizeof log, second);
    CHECK(through.kind == OLIVASTRUM_VISIT_TAG && through.visit.station == 1 && through.visit.start == (uint32_t)(COUNTER + 7u));
    CHECK(through.visit.limit == 0 && through.visit.synchronous == 0 && through.visit.asynchronous == 0);
    CHECK(is_mark(log, sizeof log, through.next, 1, 0));
    CHECK(olivastrum_log_entry(log, sizeof log, through.next + OLIVASTRUM_MARK_BYTES).kind == 0);

    /* inspected: accepted; a mark that is neither 0 nor 1, or of a station that there is not, breaks the station rule */
    CHECK(is_finding(olivastrum_inspect_log(log, sizeof log), MARKS + MARKED_VISITS, 0, 0, 0));
    CHECK(watched(log, sizeof log));
    log[read.first + 4] = 2;
    CHECK(is_finding(olivastrum_inspect_log(log, sizeof log), MARKS + MARKED_VISITS, 1, 1, 0));
    log[read.first + 4] = 1, log[read.first + 3] = STATIONS;
    CHECK(is_finding(olivastrum_inspect_log(log, sizeof log), MARKS + MARKED_VISITS, 1, 1, 0));
    /* with another station marked, the limit of station 1's visit is wrong; so it is in a log without the mark */
    log[read.first + 3] = 2;
    CHECK(is_finding(olivastrum_inspect_log(log, sizeof log), MARKS + MARKED_VISITS, 3, 3, 0));
    log[read.first + 3] = 1, log[read.first + 4] = 0;
    CHECK(is_finding(olivastrum_inspect_log(log, sizeof log), MARKS + MARKED_VISITS, 3, 3, 0));
    /* of any other numbers the low 8 bits are written */
    recorder.at -= OLIVASTRUM_MARK_BYTES;
    CHECK(add_mark(&recorder, 0x12345678u, 0xffffff00u, log, sizeof log));
    CHECK(is_mark(log, sizeof log, through.next, 0x78, 0));
    return 1;
}

/* ---- rings that no opening gives */
static uint64_t dice = 88172645463325252u;

static uint8_t throw_byte(void)
{
    dice ^= dice << 13;
    dice ^= dice >> 7;
    dice ^= dice << 17;
    return (uint8_t)(dice >> 32);
}

static int unsound(ring_t *ring)
{
    CHECK(visit_refused(ring, OLIVASTRUM_UNSOUND));
    CHECK(mark_refused(ring, throw_byte(), OLIVASTRUM_UNSOUND));
    CHECK(hand_in_refused(ring, throw_byte(), throw_byte(), throw_byte(), OLIVASTRUM_UNSOUND));
    return 1;
}

static int any_bytes(const ring_t *sound)
{
    ring_t ring;
    memset(&ring, 0, sizeof ring);
    CHECK(unsound(&ring));
    memset(&ring, 0xff, sizeof ring);
    CHECK(unsound(&ring));
    for (int k = 0; k < 200; k++) {
        for (size_t i = 0; i < sizeof ring; i++)
            ((uint8_t *)&ring)[i] = throw_byte();
        CHECK(unsound(&ring));
    }

    /* one number wrong in a ring that is otherwise sound */
    ring = *sound, ring.clock = 1000000000001u;
    CHECK(visit_refused(&ring, OLIVASTRUM_CLOCK_TOO_HIGH));
    ring = *sound, ring.clock = 1000002000001u;
    CHECK(unsound(&ring));
    ring = *sound, ring.token = STATIONS;
    CHECK(unsound(&ring));
    ring = *sound, ring.unused += 1;
    CHECK(unsound(&ring));
    ring = *sound, ring.visits = (uint64_t)1 << 62;
    CHECK(unsound(&ring));
    ring = *sound, ring.alloc.s[0] = 99;
    CHECK(unsound(&ring));
    ring = *sound, ring.set.n = 129;
    CHECK(unsound(&ring));

    /* a timely-token ring leaves its late counts alone */
    ring = *sound, ring.late[0] = 7;
    ring_t same = *sound;
    CHECK(olivastrum_visit(&ring, ticks(5)).number == 0 && olivastrum_visit(&same, ticks(5)).number == 0);
    same.late[0] = 7;
    CHECK(memcmp(&ring, &same, sizeof same) == 0);

    /* a byte that is neither 0 nor 1 in `mark` is a yes, and a marked station that holds a message keeps it and sends nothing */
    ring = *sound, ring.mark[ring.token] = 0x80, ring.rest[ring.token] = 5, ring.arrival[ring.token] = 0;
    uint32_t token = ring.token;
    struct olivastrum_visit_answer through = olivastrum_visit(&ring, ticks(5));
    CHECK(through.number == 0 && through.record.limit.ticks == 0 && through.record.synchronous.ticks == 0 && through.record.asynchronous.ticks == 0);
    CHECK(ring.rest[token] == 5 && ring.mark[token] == 0x80 && ring.sent[token] == 0);
    struct olivastrum_station marked = {token};
    struct olivastrum_mark_answer nothing = olivastrum_mark(&ring, marked);
    CHECK(nothing.number == 0 && nothing.withdrawn == 0 && ring.rest[token] == 5 && ring.mark[token] == 0x80);

    /* a byte that is neither 0 nor 1 in `had` is a yes, and places past N are never looked at */
    ring = *sound, ring.had[2] = 0x80, ring.trt[STATIONS] = 0xffffffffu, ring.set.w[127] = 0xffffffffu, ring.mark[STATIONS] = 1;
    ring_t other = *sound;
    struct olivastrum_visit_answer a = olivastrum_visit(&ring, ticks(5)), b = olivastrum_visit(&other, ticks(5));
    CHECK(a.number == 0 && b.number == 0);
    CHECK(memcmp(&a.record, &b.record, offsetof(struct olivastrum_visit_record, completed) + 1) == 0);
    CHECK(ring.had[2] == 0x80 && ring.trt[STATIONS] == 0xffffffffu && ring.set.w[127] == 0xffffffffu && ring.mark[STATIONS] == 1);
    return 1;
}

/* ---- an older ring: two stations of w 50 and TTRT 100, so that the first timer began at TTRT, late at once. It is neither planned
 * nor opened any more; one that is open runs on. */
static int older_ring(void)
{
    struct olivastrum_set set;
    memset(&set, 0, sizeof set);
    set.head.ttrt = 100, set.head.mode = OLIVASTRUM_FDDI, set.head.frame = 1, set.head.grid = 1, set.n = 2;
    for (int i = 0; i < 2; i++)
        set.w[i] = 50, set.d[i] = set.p[i] = 300;
    uint8_t sheet[OLIVASTRUM_REQUEST_BYTES(2) + OLIVASTRUM_MODE_BYTES];
    struct olivastrum_written written = olivastrum_write_request_sheet(set, sheet, sizeof sheet);
    CHECK(written.number == 0 && written.length == sizeof sheet && sheet[7] == 4 && sheet[10] == OLIVASTRUM_FDDI);
    struct olivastrum_read_request read = olivastrum_read_request_sheet(sheet, sizeof sheet);
    CHECK(read.number == 0 && memcmp(&read.set, &set, sizeof set) == 0);
    struct olivastrum_planned planned = olivastrum_plan_set(set);
    CHECK(planned.number == OLIVASTRUM_RETIRED && all_zero(&planned.alloc, sizeof planned.alloc));
    struct olivastrum_alloc alloc = planned.alloc;
    struct olivastrum_opened opened = olivastrum_open_ring(set, alloc);
    CHECK(opened.number == OLIVASTRUM_RETIRED && all_zero(&opened.ring, sizeof opened.ring));
    /* before 7, behind the range of S */
    alloc.s[1] = 1;
    CHECK(olivastrum_open_ring(set, alloc).number == OLIVASTRUM_RETIRED);
    alloc.s[1] = 1000001;
    CHECK(olivastrum_open_ring(set, alloc).number == OLIVASTRUM_OUT_OF_RANGE);

    /* the state that its opening gave */
    ring_t ring;
    memset(&ring, 0, sizeof ring);
    ring.set = set, ring.late[0] = 1, ring.trt[1] = 50;

    /* late: nothing is offered, the count falls and the timer runs on */
    struct olivastrum_visit_answer answer = olivastrum_visit(&ring, ticks(1000));
    CHECK(answer.number == 0 && answer.record.trt.ticks == 0 && answer.record.limit.ticks == 0 && answer.record.asynchronous.ticks == 0);
    CHECK(ring.clock == 50 && ring.trt[0] == 50 && ring.late[0] == 0 && ring.trt[1] == 0 && ring.late[1] == 1);
    /* the second station's timer has reached TTRT on the way: late too */
    answer = olivastrum_visit(&ring, ticks(1000));
    CHECK(answer.number == 0 && answer.record.limit.ticks == 0);
    CHECK(ring.clock == 100 && ring.trt[0] == 0 && ring.late[0] == 1 && ring.trt[1] == 50 && ring.late[1] == 0);

    /* not late: TTRT less the timer is offered, and the timer goes to 0 */
    ring.late[0] = 0, ring.trt[0] = 30;
    answer = olivastrum_visit(&ring, ticks(1000));
    CHECK(answer.number == 0 && answer.record.trt.ticks == 30 && answer.record.limit.ticks == 70 && answer.record.asynchronous.ticks == 70);
    CHECK(ring.clock == 220 && ring.trt[0] == 20 && ring.late[0] == 1 && ring.trt[1] == 70 && ring.late[1] == 1);

    /* what is unsound: a timer at TTRT, a count above 3; u is not looked at */
    ring_t other = ring;
    other.trt[1] = 100;
    CHECK(unsound(&other));
    other = ring, other.late[1] = 4;
    CHECK(unsound(&other));
    other = ring, other.late[1] = 3, other.unused = 12345;
    CHECK(olivastrum_visit(&other, ticks(0)).number == 0 && other.unused == 12345);
    other = ring, other.set.head.mode = 4;
    CHECK(unsound(&other));
    return 1;
}

/* ---- a ring whose frames are not cut: TTRT 100, F 5, w 2, S 10, so that 84 ticks are spare */
static int uncut_ring(void)
{
    struct olivastrum_set set;
    memset(&set, 0, sizeof set);
    set.head.ttrt = 100, set.head.mode = OLIVASTRUM_TIMELY, set.head.frame = 5, set.head.grid = 1, set.n = 1;
    set.w[0] = 2, set.c[0] = 20, set.d[0] = set.p[0] = 250;
    uint8_t sheet[OLIVASTRUM_REQUEST_BYTES(1) + OLIVASTRUM_FRAME_BYTES];
    struct olivastrum_written written = olivastrum_write_request_sheet(set, sheet, sizeof sheet);
    CHECK(written.number == 0 && written.length == sizeof sheet && sheet[7] == 5 && sheet[13] == 5);
    struct olivastrum_read_request read = olivastrum_read_request_sheet(sheet, sizeof sheet);
    CHECK(read.number == 0 && memcmp(&read.set, &set, sizeof set) == 0);
    struct olivastrum_planned planned = olivastrum_plan_set(set);
    CHECK(planned.number == 0 && planned.alloc.s[0] == 10);
    ring_t ring = olivastrum_open_ring(set, planned.alloc).ring;

    /* a length of 0 or above F is 10, and the ring stays as it was */
    for (uint32_t length = 0; length <= 6; length += 6) {
        struct olivastrum_ask wrong = {1, length};
        ring_t before = ring;
        CHECK(olivastrum_visit(&ring, wrong).number == OLIVASTRUM_BAD_LENGTH);
        CHECK(memcmp(&ring, &before, sizeof before) == 0);
    }
    /* 17 frames of 5 begin below 84: the last runs over, and the next limit is held at 0 */
    struct olivastrum_ask greedy = {1000, 5}, two = {2, 4};
    struct olivastrum_visit_answer answer = olivastrum_visit(&ring, greedy);
    CHECK(answer.number == 0 && answer.record.limit.ticks == 84 && answer.record.asynchronous.ticks == 85 && ring.clock == 87);
    answer = olivastrum_visit(&ring, greedy);
    CHECK(answer.number == 0 && answer.record.trt.ticks == 87 && answer.record.limit.ticks == 0 && answer.record.asynchronous.ticks == 0);
    answer = olivastrum_visit(&ring, two);
    CHECK(answer.number == 0 && answer.record.limit.ticks == 84 && answer.record.asynchronous.ticks == 8 && ring.clock == 99);

    /* F out of its range, or one that leaves the token rule broken, is unsound in a ring */
    ring_t other = ring;
    other.set.head.frame = 90;
    CHECK(unsound(&other));
    other.set.head.frame = 0;
    CHECK(unsound(&other));
    set.head.frame = 90;
    CHECK(olivastrum_plan_set(set).number == OLIVASTRUM_NO_ALLOCATION);
    return 1;
}

/* Two visits of a ring of the 2002 edition, recorded and inspected: 88 ticks are offered each time. Read as a log of the 2003
 * edition, its second record breaks the limit rule. */
static int earlier_log(struct olivastrum_set set, struct olivastrum_alloc alloc)
{
    enum { LENGTH = OLIVASTRUM_PLAN_BYTES(1) + OLIVASTRUM_MODE_BYTES + 2 * OLIVASTRUM_VISIT_BYTES };
    uint8_t log[LENGTH];
    ring_t ring = olivastrum_open_ring(set, alloc).ring;
    struct olivastrum_recorder recorder = olivastrum_begin_log(set, alloc, 0, ring.clock, log, sizeof log);
    for (int k = 0; k < 2; k++)
        recorder = olivastrum_add_visit(recorder, olivastrum_visit(&ring, ticks(1000)).record, log, sizeof log);
    struct olivastrum_written written = olivastrum_end_log(recorder, log, sizeof log);
    CHECK(written.number == 0 && written.length == LENGTH);
    struct olivastrum_finding found = olivastrum_inspect_log(log, LENGTH);
    CHECK(is_finding(found, 2, 0, 0, 0));
    /* Without its mode field. */
    for (size_t at = 7; at + OLIVASTRUM_MODE_BYTES < LENGTH; at++)
        log[at] = log[at + OLIVASTRUM_MODE_BYTES];
    found = olivastrum_inspect_log(log, LENGTH - OLIVASTRUM_MODE_BYTES);
    CHECK(is_finding(found, 2, 2, 3, 0));
    return 1;
}

/* ---- a ring of the 2002 edition: TTRT 100, w 2, S 10; the asynchronous part comes first */
static int earlier_ring(void)
{
    struct olivastrum_set set;
    memset(&set, 0, sizeof set);
    set.head.ttrt = 100, set.head.mode = OLIVASTRUM_EARLIER, set.head.frame = 1, set.head.grid = 1, set.n = 1;
    set.w[0] = 2, set.c[0] = 20, set.d[0] = set.p[0] = 250;
    uint8_t sheet[OLIVASTRUM_REQUEST_BYTES(1) + OLIVASTRUM_MODE_BYTES];
    struct olivastrum_written written = olivastrum_write_request_sheet(set, sheet, sizeof sheet);
    CHECK(written.number == 0 && written.length == sizeof sheet && sheet[7] == 4 && sheet[10] == OLIVASTRUM_EARLIER);
    struct olivastrum_read_request read = olivastrum_read_request_sheet(sheet, sizeof sheet);
    CHECK(read.number == 0 && memcmp(&read.set, &set, sizeof set) == 0);
    struct olivastrum_planned planned = olivastrum_plan_set(set);
    CHECK(planned.number == 0 && planned.alloc.s[0] == 10);
    ring_t ring = olivastrum_open_ring(set, planned.alloc).ring;

    /* 88 ticks, and then the timer goes to 0: the synchronous part begins at 88 */
    struct olivastrum_visit_answer answer = olivastrum_visit(&ring, ticks(1000));
    CHECK(answer.number == 0 && answer.record.limit.ticks == 88 && answer.record.asynchronous.ticks == 88);
    CHECK(ring.clock == 90 && ring.trt[0] == 2 && ring.last[0] == 88);
    /* a message must arrive after that */
    struct olivastrum_message message = {{0}, {20}, {88}};
    CHECK(olivastrum_hand_in(&ring, message) == OLIVASTRUM_BAD_ARRIVAL);
    message.arrival.ticks = 89;
    CHECK(olivastrum_hand_in(&ring, message) == 0);
    /* half of it is sent behind 88 ticks more, the rest at once */
    answer = olivastrum_visit(&ring, ticks(1000));
    CHECK(answer.number == 0 && answer.record.start.ticks == 90 && answer.record.synchronous.ticks == 10 && answer.record.completed == 0);
    CHECK(ring.clock == 190 && ring.trt[0] == 12 && ring.last[0] == 178 && ring.rest[0] == 10);
    answer = olivastrum_visit(&ring, ticks(5));
    CHECK(answer.number == 0 && answer.record.completed == 1 && answer.record.finish.ticks == 205 && answer.record.margin == 134);
    return earlier_log(set, planned.alloc);
}

/* ---- a ring on a grid: TTRT 100, g 7, w 2, and S 10 rounded up to 14 */
static int stepped_ring(void)
{
    struct olivastrum_set set;
    memset(&set, 0, sizeof set);
    set.head.ttrt = 100, set.head.mode = OLIVASTRUM_TIMELY, set.head.frame = 1, set.head.grid = 7, set.n = 1;
    set.w[0] = 2, set.c[0] = 20, set.d[0] = set.p[0] = 250;
    uint8_t sheet[OLIVASTRUM_REQUEST_BYTES(1) + OLIVASTRUM_GRID_BYTES];
    struct olivastrum_written written = olivastrum_write_request_sheet(set, sheet, sizeof sheet);
    CHECK(written.number == 0 && written.length == sizeof sheet && sheet[7] == 6 && sheet[13] == 7);
    struct olivastrum_read_request read = olivastrum_read_request_sheet(sheet, sizeof sheet);
    CHECK(read.number == 0 && memcmp(&read.set, &set, sizeof set) == 0);
    struct olivastrum_planned planned = olivastrum_plan_set(set);
    CHECK(planned.number == 0 && planned.alloc.s[0] == 14);
    ring_t ring = olivastrum_open_ring(set, planned.alloc).ring;
    CHECK(olivastrum_visit(&ring, ticks(1000)).record.limit.ticks == 84);

    /* an S off the grid is 7, and unsound in a ring; so is a g out of its range, which is 4 elsewhere */
    struct olivastrum_alloc off = planned.alloc;
    off.s[0] = 15;
    CHECK(olivastrum_open_ring(set, off).number == OLIVASTRUM_RULE_BROKEN);
    ring_t other = ring;
    other.set.head.grid = 3;
    CHECK(unsound(&other));
    other.set.head.grid = 0;
    CHECK(unsound(&other));
    set.head.grid = 1001;
    CHECK(olivastrum_plan_set(set).number == OLIVASTRUM_OUT_OF_RANGE);
    /* no multiple of 99 is within 98 */
    set.head.grid = 99;
    CHECK(olivastrum_plan_set(set).number == OLIVASTRUM_NO_ALLOCATION);
    return 1;
}

/* ---- plan versions: seventeen of the worked plan, of which the sixteen newest are kept */
static uint8_t area[OLIVASTRUM_STORE_BYTES], area_was[sizeof area];

/* A refused call has left the area as it was. */
static int area_same(void)
{
    return memcmp(area, area_was, sizeof area) == 0;
}

static int refused_storing(const uint8_t *sheet, size_t length)
{
    memcpy(area_was, area, sizeof area);
    CHECK(olivastrum_store_plan(area, sizeof area, sheet, length - 1).number == OLIVASTRUM_SHEET_ENDS && area_same());
    CHECK(olivastrum_store_plan(area, sizeof area - 1, sheet, length).number == OLIVASTRUM_SHEET_WRONG && area_same());
    CHECK(olivastrum_empty_store(area, sizeof area - 1) == OLIVASTRUM_SHEET_WRONG && area_same());
    CHECK(olivastrum_find_version(area, sizeof area, 18).number == OLIVASTRUM_NO_VERSION);
    CHECK(olivastrum_find_version(area, sizeof area, 1).number == OLIVASTRUM_NO_VERSION && area_same());
    return 1;
}

static int versions(struct olivastrum_set set, struct olivastrum_alloc alloc)
{
    uint8_t sheet[OLIVASTRUM_PLAN_BYTES(4)];
    CHECK(olivastrum_write_plan_sheet(set, alloc, sheet, sizeof sheet).length == sizeof sheet);
    memset(area, 7, sizeof area);
    CHECK(olivastrum_versions_in(area, sizeof area).number == OLIVASTRUM_SHEET_WRONG);
    CHECK(olivastrum_empty_store(area, sizeof area) == 0 && area[0] == 255 && area[sizeof area - 1] == 0);
    struct olivastrum_versions kept = olivastrum_versions_in(area, sizeof area);
    CHECK(kept.number == 0 && kept.oldest == 0 && kept.newest == 0);
    for (uint32_t k = 1; k <= OLIVASTRUM_MOST_VERSIONS + 1; k++) {
        struct olivastrum_stored_plan stored = olivastrum_store_plan(area, sizeof area, sheet, sizeof sheet);
        CHECK(stored.number == 0 && stored.version == k);
    }
    kept = olivastrum_versions_in(area, sizeof area);
    CHECK(kept.number == 0 && kept.oldest == 2 && kept.newest == 17);
    struct olivastrum_found_version found = olivastrum_find_version(area, sizeof area, 17);
    CHECK(found.number == 0 && found.place == 15 * (7 + sizeof sheet) + 7 && found.length == sizeof sheet);
    CHECK(memcmp(area + found.place, sheet, sizeof sheet) == 0);
    CHECK(refused_storing(sheet, sizeof sheet));
    area[sizeof area - 1] = 1;
    CHECK(olivastrum_store_plan(area, sizeof area, sheet, 0).number == OLIVASTRUM_SHEET_WRONG);
    return olivastrum_empty_store(area, sizeof area) == 0 && olivastrum_store_plan(area, sizeof area, sheet, sizeof sheet).version == 1;
}

/* ---- a hopper train: eight full wagons and four without a door unit, 248 of 250 ticks */
static int refused_train(struct olivastrum_coupled coupled, const struct olivastrum_train *train, uint8_t number)
{
    return coupled.number == number && memcmp(&coupled.train, train, sizeof *train) == 0;
}

static int hopper_sheet(struct olivastrum_wagon_list list)
{
    uint8_t sheet[OLIVASTRUM_REQUEST_BYTES(OLIVASTRUM_MOST_WAGONS)], again[sizeof sheet];
    struct olivastrum_read_request request = olivastrum_hopper_request(list);
    CHECK(request.number == 0 && request.set.n == 12 && request.set.head.ttrt == 250 && request.set.head.mode == OLIVASTRUM_TIMELY);
    for (int i = 0; i < 12; i++)
        CHECK(request.set.w[i] == 1 && request.set.c[i] == (i < 8 ? 40u : 38u) && request.set.d[i] == 500 && request.set.p[i] == 500);
    CHECK(olivastrum_write_hopper_sheet(list, sheet, sizeof sheet).length == sizeof sheet);
    CHECK(olivastrum_write_request_sheet(request.set, again, sizeof again).length == sizeof again);
    CHECK(memcmp(sheet, again, sizeof sheet) == 0);
    CHECK(olivastrum_write_hopper_sheet(list, again, sizeof again - 1).number == OLIVASTRUM_BUFFER_TOO_SHORT);
    CHECK(memcmp(sheet, again, sizeof sheet) == 0);
    return 1;
}

static int hopper_train(void)
{
    struct olivastrum_wagon_list list;
    memset(&list, 0, sizeof list);
    list.n = 12;
    for (int i = 0; i < 12; i++)
        list.boxes[i] = 8, list.brake[i] = 1, list.door[i] = i < 8;
    if (!hopper_sheet(list))
        return 0;
    struct olivastrum_coupled coupled = olivastrum_couple_train(list);
    CHECK(coupled.number == 0 && memcmp(&coupled.train.list, &list, sizeof list) == 0);
    CHECK(coupled.train.plan.s[0] == 20 && coupled.train.plan.s[11] == 19 && coupled.train.plan.s[12] == 0);

    /* two door units more just fit, a third does not */
    struct olivastrum_wagon full = {8, 1, 1}, bad = {9, 1, 1};
    struct olivastrum_station place = {8}, none = {12};
    coupled = olivastrum_change_wagon(coupled.train, place, full);
    place.number = 9;
    coupled = olivastrum_change_wagon(coupled.train, place, full);
    CHECK(coupled.number == 0 && coupled.train.plan.s[9] == 20);
    struct olivastrum_train train = coupled.train;
    place.number = 10;
    CHECK(refused_train(olivastrum_change_wagon(train, place, full), &train, OLIVASTRUM_NO_ALLOCATION));
    CHECK(refused_train(olivastrum_change_wagon(train, none, full), &train, OLIVASTRUM_NO_SUCH_STATION));
    CHECK(refused_train(olivastrum_change_wagon(train, none, bad), &train, OLIVASTRUM_OUT_OF_RANGE));
    CHECK(refused_train(olivastrum_couple_wagon(train, full), &train, OLIVASTRUM_SHEET_WRONG));

    /* the last one off, and a shorter one on; then a list of its own, and none */
    coupled = olivastrum_couple_wagon(olivastrum_uncouple_wagon(train).train, (struct olivastrum_wagon){7, 1, 1});
    CHECK(coupled.number == 0 && coupled.train.list.n == 12 && coupled.train.plan.s[11] == 18);
    list.n = 1;
    coupled = olivastrum_change_train(coupled.train, list);
    CHECK(coupled.number == 0 && coupled.train.list.n == 1 && coupled.train.plan.s[0] == 20 && coupled.train.plan.s[1] == 0);
    train = coupled.train;
    CHECK(refused_train(olivastrum_uncouple_wagon(train), &train, OLIVASTRUM_SHEET_WRONG));
    list.n = 0;
    CHECK(refused_train(olivastrum_change_train(train, list), &train, OLIVASTRUM_SHEET_WRONG));
    memset(&train, 0, sizeof train);
    CHECK(refused_train(olivastrum_couple_train(list), &train, OLIVASTRUM_SHEET_WRONG));
    CHECK(olivastrum_hopper_request(list).number == OLIVASTRUM_SHEET_WRONG);

    /* any bytes in place of a train */
    memset(&train, 0xff, sizeof train);
    CHECK(refused_train(olivastrum_change_wagon(train, place, full), &train, OLIVASTRUM_SHEET_WRONG));
    CHECK(refused_train(olivastrum_uncouple_wagon(train), &train, OLIVASTRUM_SHEET_WRONG));
    return 1;
}

int main(void)
{
    static ring_t ring;
    struct olivastrum_set set;
    struct olivastrum_alloc alloc;
    if (!layouts() || !constants() || !places() || !planning(&set, &alloc) || !opening(&ring, set, alloc))
        return 1;
    if (!asked_less(ring) || !switched_through(ring) || !worked_run(&ring) || !logs(set, alloc) || !not_watched(set, alloc) || !watched_examples() || !marked_log(set, alloc) || !any_bytes(&ring) || !older_ring() || !uncut_ring() || !earlier_ring() || !stepped_ring() || !versions(set, alloc) || !hopper_train())
        return 1;
    puts("ok");
    return 0;
}
