#include "lent.h"
#include <string.h>

#define GUARD 64

static const char *what;

const char *seen(void)
{
    const char *word = what;
    what = 0;
    return word;
}

/* Keeps the first word for what must not be. */
static void must(int holds, const char *otherwise)
{
    if (!holds && !what)
        what = otherwise;
}

static int all_zero(const void *bytes, size_t n)
{
    const uint8_t *at = bytes;
    for (size_t i = 0; i < n; i++)
        if (at[i] != 0)
            return 0;
    return 1;
}

static int same(const void *a, const void *b, size_t n)
{
    return memcmp(a, b, n) == 0;
}

/* The places from N on hold 0. */
static int zero_past(uint32_t n, const uint32_t *places)
{
    return n >= MOST || all_zero(places + n, (MOST - n) * sizeof *places);
}

/* The places from N on are the same in both. */
#define SAME_PAST(n, a, b) ((n) >= MOST || same((a) + (n), (b) + (n), (MOST - (n)) * sizeof *(a)))

/* ---- bytes between guards; each guard byte depends on its place */
static uint8_t lent[GUARD + MOST_BYTES + GUARD];

static uint8_t guard_byte(size_t i)
{
    return (uint8_t)(37 * i + 165);
}

static void guard(size_t from, size_t to)
{
    for (size_t i = from; i < to; i++)
        lent[i] = guard_byte(i);
}

static int guarded(size_t from, size_t to)
{
    for (size_t i = from; i < to; i++)
        if (lent[i] != guard_byte(i))
            return 0;
    return 1;
}

/* ---- reading */
static const uint8_t *lend_sheet(const uint8_t *sheet, size_t length)
{
    guard(0, GUARD);
    memcpy(lent + GUARD, sheet, length);
    guard(GUARD + length, length + 2 * GUARD);
    return lent + GUARD;
}

static void sheet_unchanged(const uint8_t *sheet, size_t length)
{
    must(guarded(0, GUARD) && guarded(GUARD + length, length + 2 * GUARD), "touched");
    must(same(lent + GUARD, sheet, length), "touched");
}

static void read_set(uint8_t number, const set_t *set)
{
    must(number == 0 || all_zero(set, sizeof *set), "not-blank");
    uint32_t n = set->n;
    must(zero_past(n, set->w) && zero_past(n, set->c) && zero_past(n, set->d) && zero_past(n, set->p), "past-n");
}

struct olivastrum_read_request reading_request(const uint8_t *sheet, size_t length)
{
    struct olivastrum_read_request read = olivastrum_read_request_sheet(lend_sheet(sheet, length), length);
    sheet_unchanged(sheet, length);
    read_set(read.number, &read.set);
    return read;
}

struct olivastrum_read_plan reading_plan(const uint8_t *sheet, size_t length)
{
    struct olivastrum_read_plan read = olivastrum_read_plan_sheet(lend_sheet(sheet, length), length);
    sheet_unchanged(sheet, length);
    read_set(read.number, &read.set);
    must(read.number == 0 || all_zero(&read.alloc, sizeof read.alloc), "not-blank");
    must(zero_past(read.set.n, read.alloc.s), "past-n");
    return read;
}

/* ---- writing: the first bytes of the room, as many as the sheet has, and not one more */
static uint8_t *lend_room(size_t room)
{
    guard(0, room + 2 * GUARD);
    return lent + GUARD;
}

static void room_kept(struct olivastrum_written written, size_t room)
{
    must(written.number == 0 || written.length == 0, "not-blank");
    must(written.length <= room, "too-long");
    must(guarded(0, GUARD) && guarded(GUARD + written.length, room + 2 * GUARD), "touched");
}

struct olivastrum_written writing_request(const set_t *set, size_t room, const uint8_t **sheet)
{
    struct olivastrum_written written = olivastrum_write_request_sheet(*set, lend_room(room), room);
    room_kept(written, room);
    *sheet = lent + GUARD;
    return written;
}

struct olivastrum_written writing_plan(const set_t *set, const alloc_t *alloc, size_t room, const uint8_t **sheet)
{
    struct olivastrum_written written = olivastrum_write_plan_sheet(*set, *alloc, lend_room(room), room);
    room_kept(written, room);
    *sheet = lent + GUARD;
    return written;
}

/* ---- planning and opening */
struct olivastrum_planned planning(const set_t *set)
{
    struct olivastrum_planned planned = olivastrum_plan_set(*set);
    must(planned.number == 0 || all_zero(&planned.alloc, sizeof planned.alloc), "not-blank");
    must(zero_past(set->n, planned.alloc.s), "past-n");
    return planned;
}

struct olivastrum_opened opening(const set_t *set, const alloc_t *alloc)
{
    struct olivastrum_opened opened = olivastrum_open_ring(*set, *alloc);
    const ring_t *ring = &opened.ring;
    if (opened.number != 0) {
        must(all_zero(ring, sizeof *ring), "not-blank");
        return opened;
    }
    must(same(&ring->set, set, sizeof *set) && same(&ring->alloc, alloc, sizeof *alloc), "changed");
    must(zero_past(set->n, ring->trt) && zero_past(set->n, ring->late), "not-blank");
    must(set->head.mode == OLIVASTRUM_FDDI || all_zero(ring->late, sizeof ring->late), "not-blank");
    must(all_zero(ring->sent, sizeof ring->sent), "not-blank");
    must(all_zero(ring->rest, sizeof ring->rest) && all_zero(ring->arrival, sizeof ring->arrival), "not-blank");
    must(all_zero(ring->had, sizeof ring->had) && all_zero(ring->last, sizeof ring->last), "not-blank");
    must(all_zero(ring->mark, sizeof ring->mark), "not-blank");
    return opened;
}

/* ---- the lent ring */
static struct {
    uint8_t before[GUARD];
    ring_t ring;
    uint8_t behind[GUARD];
} host;

static ring_t *lend_ring(const ring_t *ring)
{
    memset(host.before, 0xa5, GUARD);
    memset(host.behind, 0x5a, GUARD);
    host.ring = *ring;
    return &host.ring;
}

static int guard_of(const uint8_t *bytes, uint8_t byte)
{
    for (int i = 0; i < GUARD; i++)
        if (bytes[i] != byte)
            return 0;
    return 1;
}

/* What no call on a ring may change. */
static void ring_kept(const ring_t *was, const ring_t *is)
{
    uint32_t n = was->set.n;
    must(guard_of(host.before, 0xa5) && guard_of(host.behind, 0x5a), "touched");
    must(same(&is->set, &was->set, sizeof is->set) && same(&is->alloc, &was->alloc, sizeof is->alloc), "changed");
    must(SAME_PAST(n, is->trt, was->trt) && SAME_PAST(n, is->late, was->late), "past-n");
    must(SAME_PAST(n, is->sent, was->sent) && SAME_PAST(n, is->rest, was->rest), "past-n");
    must(SAME_PAST(n, is->arrival, was->arrival) && SAME_PAST(n, is->had, was->had) && SAME_PAST(n, is->last, was->last), "past-n");
    must(SAME_PAST(n, is->mark, was->mark), "past-n");
}

/* What a refused call may not change. */
static void refused_kept(uint8_t number, const ring_t *was, const ring_t *is)
{
    must(number == 0 || same(is, was, sizeof *is), "changed");
}

static void record_blank(uint8_t number, const struct olivastrum_visit_record *record)
{
    must(number == 0 || all_zero(record, offsetof(struct olivastrum_visit_record, completed) + 1), "not-blank");
    must(record->completed <= 1, "flag");
    must(record->completed == 1 || (record->finish.ticks == 0 && record->margin == 0), "not-blank");
}

struct olivastrum_visit_answer visiting(ring_t *ring, uint64_t count, struct olivastrum_ask ask)
{
    struct olivastrum_visit_answer answer;
    ring_t before;
    ring_t *lent_ring = lend_ring(ring);
    do {
        before = *lent_ring;
        answer = olivastrum_visit(lent_ring, ask);
    } while (answer.number == 0 && --count > 0);
    ring_kept(ring, lent_ring);
    refused_kept(answer.number, &before, lent_ring);
    record_blank(answer.number, &answer.record);
    *ring = *lent_ring;
    return answer;
}

uint8_t handing_in(ring_t *ring, struct olivastrum_message message)
{
    ring_t *lent_ring = lend_ring(ring);
    uint8_t number = olivastrum_hand_in(lent_ring, message);
    ring_kept(ring, lent_ring);
    refused_kept(number, ring, lent_ring);
    *ring = *lent_ring;
    return number;
}

struct olivastrum_mark_answer marking(ring_t *ring, struct olivastrum_station station)
{
    ring_t *lent_ring = lend_ring(ring);
    struct olivastrum_mark_answer answer = olivastrum_mark(lent_ring, station);
    ring_kept(ring, lent_ring);
    refused_kept(answer.number, ring, lent_ring);
    must(answer.number == 0 || answer.withdrawn == 0, "not-blank");
    must(answer.withdrawn <= 1, "flag");
    must(answer.withdrawn == 1 || (answer.rest.ticks == 0 && answer.arrival.ticks == 0), "not-blank");
    *ring = *lent_ring;
    return answer;
}

uint8_t unmarking(ring_t *ring, struct olivastrum_station station)
{
    ring_t *lent_ring = lend_ring(ring);
    uint8_t number = olivastrum_unmark(lent_ring, station);
    ring_kept(ring, lent_ring);
    refused_kept(number, ring, lent_ring);
    *ring = *lent_ring;
    return number;
}

/* ---- logs */
struct olivastrum_read_log reading_log(const uint8_t *log, size_t length)
{
    struct olivastrum_read_log read = olivastrum_read_log(lend_sheet(log, length), length);
    sheet_unchanged(log, length);
    read_set(read.number, &read.set);
    must(read.number == 0 || (all_zero(&read.alloc, sizeof read.alloc) && read.first == 0 && read.records == 0), "not-blank");
    must(zero_past(read.set.n, read.alloc.s), "past-n");
    return read;
}

struct olivastrum_next_entry entry_at(size_t length, uint64_t at)
{
    struct olivastrum_next_entry next = olivastrum_log_entry(lent + GUARD, length, at);
    must(guarded(0, GUARD) && guarded(GUARD + length, length + 2 * GUARD), "touched");
    must(next.kind == OLIVASTRUM_VISIT_TAG || all_zero(&next.visit, sizeof next.visit), "not-blank");
    must(next.kind == OLIVASTRUM_MARK_TAG || all_zero(&next.mark, sizeof next.mark), "not-blank");
    must(next.next != 0 || next.kind == 0, "not-blank");
    must(next.next == 0 || next.kind == OLIVASTRUM_VISIT_TAG || next.kind == OLIVASTRUM_MARK_TAG, "flag");
    must(next.next == 0 || (next.next > at && next.next <= length), "too-long");
    return next;
}

struct olivastrum_finding inspecting(const uint8_t *log, size_t length)
{
    struct olivastrum_finding found = olivastrum_inspect_log(lend_sheet(log, length), length);
    sheet_unchanged(log, length);
    must(found.number == 0 || (found.records == 0 && found.record == 0 && found.rule == 0), "not-blank");
    must((found.record == 0) == (found.rule == 0), "not-blank");
    must(found.record <= found.records && found.rule <= 5, "too-long");
    return found;
}

static uint8_t beside[GUARD + MOST_BYTES + GUARD];

struct olivastrum_plan_finding inspecting_of(const uint8_t *plan, size_t plan_length, const uint8_t *log, size_t length)
{
    memset(beside, 0x5a, sizeof beside);
    memcpy(beside + GUARD, plan, plan_length);
    struct olivastrum_plan_finding found = olivastrum_inspect_log_of(beside + GUARD, plan_length, lend_sheet(log, length), length);
    sheet_unchanged(log, length);
    must(guard_of(beside, 0x5a) && guard_of(beside + GUARD + plan_length, 0x5a), "touched");
    must(same(beside + GUARD, plan, plan_length), "touched");
    must(found.refused <= 2 && found.another <= 1, "flag");
    must((found.refused == 0) == (found.number == 0), "not-blank");
    int inspected = found.refused == 0 && found.another == 0;
    must(inspected || (found.records == 0 && found.visits == 0 && found.record == 0 && found.rule == 0), "not-blank");
    must(found.refused == 0 || found.another == 0, "not-blank");
    must((found.record == 0) == (found.rule == 0), "not-blank");
    must(found.visits <= found.records && found.record <= found.records && found.rule <= 5, "too-long");
    return found;
}

/* Nothing is written from `at` on, nor before the room. */
static void log_kept(uint64_t at, size_t room)
{
    must(at <= room, "too-long");
    must(guarded(0, GUARD) && (at > room || guarded(GUARD + at, room + 2 * GUARD)), "touched");
}

struct olivastrum_recorder beginning_log(const set_t *set, const alloc_t *alloc, uint32_t counter, uint64_t clock, size_t room)
{
    struct olivastrum_recorder recorder = olivastrum_begin_log(*set, *alloc, counter, clock, lend_room(room), room);
    must(recorder.number == 0 || (recorder.at == 0 && recorder.clock == 0 && recorder.counter == 0), "not-blank");
    must(recorder.number != 0 || (recorder.clock == clock && recorder.counter == counter), "changed");
    log_kept(recorder.at, room);
    return recorder;
}

/* What stands of a log while something is added behind it. */
static uint8_t standing[MOST_BYTES];

static uint64_t stands(struct olivastrum_recorder recorder, size_t room)
{
    uint64_t was = recorder.at <= room ? recorder.at : room;
    memcpy(standing, lent + GUARD, was);
    return was;
}

static int same_recorder(struct olivastrum_recorder was, struct olivastrum_recorder is)
{
    return is.at == was.at && is.clock == was.clock && is.counter == was.counter;
}

struct olivastrum_recorder adding_visit(struct olivastrum_recorder recorder, struct olivastrum_visit_record record, size_t room)
{
    uint64_t was = stands(recorder, room);
    struct olivastrum_recorder next = olivastrum_add_visit(recorder, record, lent + GUARD, room);
    must(same(standing, lent + GUARD, was), "touched");
    must(next.number == 0 || same_recorder(recorder, next), "changed");
    log_kept(next.at, room);
    return next;
}

/* A mark has no time: the counter stays. */
struct olivastrum_recorder adding_mark(struct olivastrum_recorder recorder, struct olivastrum_mark_entry mark, size_t room)
{
    uint64_t was = stands(recorder, room);
    struct olivastrum_recorder next = olivastrum_add_mark(recorder, mark, lent + GUARD, room);
    must(same(standing, lent + GUARD, was), "touched");
    must(next.number == 0 || next.at == recorder.at, "changed");
    must(next.clock == recorder.clock && next.counter == recorder.counter, "changed");
    log_kept(next.at, room);
    return next;
}

struct olivastrum_written ending_log(struct olivastrum_recorder recorder, size_t room, const uint8_t **log)
{
    uint64_t was = stands(recorder, room);
    struct olivastrum_written ended = olivastrum_end_log(recorder, lent + GUARD, room);
    must(same(standing, lent + GUARD, was), "touched");
    must(ended.number == 0 || ended.length == 0, "not-blank");
    log_kept(ended.number == 0 ? ended.length : was, room);
    *log = lent + GUARD;
    return ended;
}

/* ---- areas */
static uint8_t area[GUARD + MOST_AREA + GUARD], area_was[MOST_AREA];

/* The guard bytes of an area of this length. */
static uint8_t *area_guard(size_t length, int behind)
{
    return behind ? area + GUARD + length : area;
}

uint8_t *lend_area(const uint8_t *bytes, size_t used, size_t length)
{
    memset(area_guard(length, 0), 0xa5, GUARD);
    memset(area_guard(length, 1), 0x5a, GUARD);
    memcpy(area + GUARD, bytes, used);
    memset(area + GUARD + used, 0, length - used);
    return area + GUARD;
}

static void area_before(size_t length)
{
    memcpy(area_was, area + GUARD, length);
}

/* Nothing round the area has changed, and nothing of it where nothing may have. */
static void area_kept(size_t length, int may_change)
{
    must(guard_of(area_guard(length, 0), 0xa5) && guard_of(area_guard(length, 1), 0x5a), "touched");
    must(may_change || same(area + GUARD, area_was, length), "changed");
}

uint8_t emptying(size_t length)
{
    area_before(length);
    uint8_t number = olivastrum_empty_store(area + GUARD, length);
    area_kept(length, number == 0);
    return number;
}

struct olivastrum_stored_plan storing(size_t length, const uint8_t *sheet, size_t sheet_length)
{
    area_before(length);
    struct olivastrum_stored_plan stored = olivastrum_store_plan(area + GUARD, length, lend_sheet(sheet, sheet_length), sheet_length);
    sheet_unchanged(sheet, sheet_length);
    area_kept(length, stored.number == 0);
    must((stored.number == 0) == (stored.version != 0), "not-blank");
    return stored;
}

struct olivastrum_found_version finding(size_t length, uint32_t version)
{
    area_before(length);
    struct olivastrum_found_version found = olivastrum_find_version(area + GUARD, length, version);
    area_kept(length, 0);
    must(found.number == 0 || (found.place == 0 && found.length == 0), "not-blank");
    must(found.place <= length && found.length <= length - found.place, "too-long");
    return found;
}

struct olivastrum_versions listing(size_t length)
{
    area_before(length);
    struct olivastrum_versions kept = olivastrum_versions_in(area + GUARD, length);
    area_kept(length, 0);
    must(kept.number == 0 || (kept.oldest == 0 && kept.newest == 0), "not-blank");
    return kept;
}

/* ---- trains */

/* The request of a train's list and its sheet: the planner's answer to it is the train's plan, and no other. */
static void of_its_sheet(const list_t *list, uint8_t number, const alloc_t *plan)
{
    const uint8_t *sheet;
    struct olivastrum_read_request request = olivastrum_hopper_request(*list);
    struct olivastrum_written written = olivastrum_write_hopper_sheet(*list, lend_room(MOST_BYTES), MOST_BYTES);
    room_kept(written, MOST_BYTES);
    read_set(request.number, &request.set);
    must(written.number == request.number, "other-sheet");
    if (request.number != 0) {
        must(number == request.number, "other-plan");
        return;
    }
    size_t length = writing_request(&request.set, MOST_BYTES, &sheet).length;
    struct olivastrum_planned planned = planning(&request.set);
    must(length == written.length && length == OLIVASTRUM_REQUEST_BYTES(list->n), "other-sheet");
    must(planned.number == number, "other-plan");
    must(number != 0 || same(&planned.alloc, plan, sizeof *plan), "other-plan");
}

/* A refused change changes nothing. */
static struct olivastrum_coupled train_kept(struct olivastrum_coupled coupled, const train_t *was)
{
    must(coupled.number == 0 || same(&coupled.train, was, sizeof *was), "changed");
    must(coupled.number != 0 || zero_past(coupled.train.list.n, coupled.train.plan.s), "past-n");
    return coupled;
}

struct olivastrum_coupled coupling(const list_t *list)
{
    struct olivastrum_coupled coupled = olivastrum_couple_train(*list);
    must(coupled.number == 0 || all_zero(&coupled.train, sizeof coupled.train), "not-blank");
    must(coupled.number != 0 || same(&coupled.train.list, list, sizeof *list), "changed");
    train_kept(coupled, &coupled.train);
    of_its_sheet(list, coupled.number, &coupled.train.plan);
    return coupled;
}

struct olivastrum_coupled relisting(const train_t *train, const list_t *list)
{
    struct olivastrum_coupled coupled = train_kept(olivastrum_change_train(*train, *list), train);
    must(coupled.number != 0 || same(&coupled.train.list, list, sizeof *list), "changed");
    of_its_sheet(list, coupled.number, &coupled.train.plan);
    return coupled;
}

/* Just that wagon is changed, and the count is as it must be then. */
static void one_wagon(const train_t *was, struct olivastrum_coupled coupled, uint64_t place, struct olivastrum_wagon wagon, uint32_t n)
{
    list_t list = was->list;
    if (coupled.number != 0)
        return;
    if (place < MOST_WAGONS) {
        list.boxes[place] = wagon.boxes;
        list.brake[place] = wagon.brake;
        list.door[place] = wagon.door;
    }
    list.n = n;
    must(same(&coupled.train.list, &list, sizeof list), "changed");
    of_its_sheet(&list, coupled.number, &coupled.train.plan);
}

struct olivastrum_coupled rewagoning(const train_t *train, struct olivastrum_station place, struct olivastrum_wagon wagon)
{
    struct olivastrum_coupled coupled = train_kept(olivastrum_change_wagon(*train, place, wagon), train);
    one_wagon(train, coupled, place.number, wagon, train->list.n);
    return coupled;
}

struct olivastrum_coupled coupling_one(const train_t *train, struct olivastrum_wagon wagon)
{
    struct olivastrum_coupled coupled = train_kept(olivastrum_couple_wagon(*train, wagon), train);
    one_wagon(train, coupled, train->list.n, wagon, train->list.n + 1);
    return coupled;
}

struct olivastrum_coupled uncoupling_one(const train_t *train)
{
    struct olivastrum_wagon none = {0, 0, 0};
    struct olivastrum_coupled coupled = train_kept(olivastrum_uncouple_wagon(*train), train);
    one_wagon(train, coupled, MOST_WAGONS, none, train->list.n - 1);
    return coupled;
}
