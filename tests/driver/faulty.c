/*
 * Functions that do what the exported ones do, and beside it one thing that must not be: the one that the variable FAULT
 * names. None shows in what the driver prints of an answer, so that only its guard bytes and its looks can see them. The
 * linker puts these in the place of the exported functions (`--wrap`). tests/cases/run lists the faults.
 */
#include "lent.h"
#include <stdlib.h>
#include <string.h>

struct olivastrum_read_request __real_olivastrum_read_request_sheet(const uint8_t *sheet, size_t length);
struct olivastrum_read_plan __real_olivastrum_read_plan_sheet(const uint8_t *sheet, size_t length);
struct olivastrum_written __real_olivastrum_write_request_sheet(set_t set, uint8_t *out, size_t length);
struct olivastrum_written __real_olivastrum_write_plan_sheet(set_t set, alloc_t alloc, uint8_t *out, size_t length);
struct olivastrum_planned __real_olivastrum_plan_set(set_t set);
struct olivastrum_opened __real_olivastrum_open_ring(set_t set, alloc_t alloc);
struct olivastrum_visit_answer __real_olivastrum_visit(ring_t *ring, struct olivastrum_ask ask);
uint8_t __real_olivastrum_hand_in(ring_t *ring, struct olivastrum_message message);
struct olivastrum_mark_answer __real_olivastrum_mark(ring_t *ring, struct olivastrum_station station);
uint8_t __real_olivastrum_unmark(ring_t *ring, struct olivastrum_station station);
struct olivastrum_read_log __real_olivastrum_read_log(const uint8_t *log, size_t length);
struct olivastrum_next_entry __real_olivastrum_log_entry(const uint8_t *log, size_t length, uint64_t at);
struct olivastrum_recorder __real_olivastrum_begin_log(set_t set, alloc_t alloc, uint32_t counter, uint64_t clock, uint8_t *out, size_t length);
struct olivastrum_recorder __real_olivastrum_add_visit(struct olivastrum_recorder recorder, struct olivastrum_visit_record record, uint8_t *out,
                                                       size_t length);
struct olivastrum_recorder __real_olivastrum_add_mark(struct olivastrum_recorder recorder, struct olivastrum_mark_entry mark, uint8_t *out,
                                                      size_t length);
struct olivastrum_written __real_olivastrum_end_log(struct olivastrum_recorder recorder, uint8_t *out, size_t length);
struct olivastrum_finding __real_olivastrum_inspect_log(const uint8_t *log, size_t length);
struct olivastrum_plan_finding __real_olivastrum_inspect_log_of(const uint8_t *plan, size_t plan_length, const uint8_t *log, size_t length);
struct olivastrum_read_request __real_olivastrum_hopper_request(list_t list);
struct olivastrum_written __real_olivastrum_write_hopper_sheet(list_t list, uint8_t *out, size_t length);
struct olivastrum_coupled __real_olivastrum_couple_train(list_t list);
struct olivastrum_coupled __real_olivastrum_change_train(train_t train, list_t list);
struct olivastrum_coupled __real_olivastrum_change_wagon(train_t train, struct olivastrum_station place, struct olivastrum_wagon wagon);
struct olivastrum_coupled __real_olivastrum_couple_wagon(train_t train, struct olivastrum_wagon wagon);
struct olivastrum_coupled __real_olivastrum_uncouple_wagon(train_t train);
uint8_t __real_olivastrum_empty_store(uint8_t *area, size_t length);
struct olivastrum_stored_plan __real_olivastrum_store_plan(uint8_t *area, size_t length, const uint8_t *sheet, size_t sheet_length);
struct olivastrum_found_version __real_olivastrum_find_version(const uint8_t *area, size_t length, uint32_t version);
struct olivastrum_versions __real_olivastrum_versions_in(const uint8_t *area, size_t length);

/* What is changed where the fault of that name is asked for and the condition holds. */
#define FAULT(name, condition, place)            \
    do {                                         \
        if (is_fault(name) && (condition))       \
            (place) ^= 1;                        \
    } while (0)

/* The last place, which a smaller ring does not use. */
#define LAST (MOST - 1)

static int is_fault(const char *name)
{
    const char *fault = getenv("FAULT");
    return fault && strcmp(fault, name) == 0;
}

/* ---- reading */
static void spoil_sheet(const uint8_t *sheet, size_t length)
{
    uint8_t *bytes = (uint8_t *)sheet;
    FAULT("sheet-before", 1, bytes[-1]);
    FAULT("sheet-itself", length > 0, bytes[0]);
    FAULT("sheet-behind", 1, bytes[length]);
}

static void spoil_set(uint8_t number, set_t *set)
{
    FAULT("set-refused", number != 0, set->head.ttrt);
    FAULT("mode-refused", number != 0, set->head.mode);
    FAULT("frame-refused", number != 0, set->head.frame);
    FAULT("grid-refused", number != 0, set->head.grid);
    FAULT("set-w", number == 0 && set->n < MOST, set->w[LAST]);
    FAULT("set-c", number == 0 && set->n < MOST, set->c[LAST]);
    FAULT("set-d", number == 0 && set->n < MOST, set->d[LAST]);
    FAULT("set-p", number == 0 && set->n < MOST, set->p[LAST]);
}

static void spoil_alloc(uint8_t number, uint32_t n, alloc_t *alloc)
{
    FAULT("alloc-refused", number != 0, alloc->s[0]);
    FAULT("alloc-s", number == 0 && n < MOST, alloc->s[LAST]);
}

struct olivastrum_read_request __wrap_olivastrum_read_request_sheet(const uint8_t *sheet, size_t length)
{
    struct olivastrum_read_request read = __real_olivastrum_read_request_sheet(sheet, length);
    spoil_sheet(sheet, length);
    spoil_set(read.number, &read.set);
    return read;
}

struct olivastrum_read_plan __wrap_olivastrum_read_plan_sheet(const uint8_t *sheet, size_t length)
{
    struct olivastrum_read_plan read = __real_olivastrum_read_plan_sheet(sheet, length);
    spoil_sheet(sheet, length);
    spoil_set(read.number, &read.set);
    spoil_alloc(read.number, read.set.n, &read.alloc);
    return read;
}

/* ---- writing */
static void spoil_room(struct olivastrum_written *written, uint8_t *out, size_t room)
{
    FAULT("room-before", 1, out[-1]);
    FAULT("room-behind", 1, out[room]);
    FAULT("room-left", written->length < room, out[written->length]);
    FAULT("written-refused", written->number != 0, written->length);
    if (is_fault("written-long") && written->number == 0)
        written->length = room + 1;
}

struct olivastrum_written __wrap_olivastrum_write_request_sheet(set_t set, uint8_t *out, size_t length)
{
    struct olivastrum_written written = __real_olivastrum_write_request_sheet(set, out, length);
    spoil_room(&written, out, length);
    return written;
}

struct olivastrum_written __wrap_olivastrum_write_plan_sheet(set_t set, alloc_t alloc, uint8_t *out, size_t length)
{
    struct olivastrum_written written = __real_olivastrum_write_plan_sheet(set, alloc, out, length);
    spoil_room(&written, out, length);
    return written;
}

/* ---- planning and opening */
struct olivastrum_planned __wrap_olivastrum_plan_set(set_t set)
{
    struct olivastrum_planned planned = __real_olivastrum_plan_set(set);
    spoil_alloc(planned.number, set.n, &planned.alloc);
    return planned;
}

/* Where a ring has fewer than 128 stations, the last place of each array. */
static void spoil_places(ring_t *ring)
{
    int spare = ring->set.n < MOST;
    FAULT("ring-trt", spare, ring->trt[LAST]);
    FAULT("ring-late", spare, ring->late[LAST]);
    FAULT("ring-sent", spare, ring->sent[LAST]);
    FAULT("ring-rest", spare, ring->rest[LAST]);
    FAULT("ring-arrival", spare, ring->arrival[LAST]);
    FAULT("ring-had", spare, ring->had[LAST]);
    FAULT("ring-mark", spare, ring->mark[LAST]);
    FAULT("ring-last", spare, ring->last[LAST]);
    FAULT("ring-set", spare, ring->set.c[LAST]);
    FAULT("ring-alloc", spare, ring->alloc.s[LAST]);
}

struct olivastrum_opened __wrap_olivastrum_open_ring(set_t set, alloc_t alloc)
{
    struct olivastrum_opened opened = __real_olivastrum_open_ring(set, alloc);
    if (is_fault("not-opened")) {
        memset(&opened, 0, sizeof opened);
        opened.number = OLIVASTRUM_RULE_BROKEN;
    }
    FAULT("ring-refused", opened.number != 0, opened.ring.clock);
    if (opened.number == 0)
        spoil_places(&opened.ring);
    return opened;
}

/* ---- the lent ring */
static void spoil_ring(uint8_t number, ring_t *ring)
{
    FAULT("ring-before", 1, ((uint8_t *)ring)[-1]);
    FAULT("ring-behind", 1, *(uint8_t *)(ring + 1));
    FAULT("ring-refused", number != 0, ring->clock);
    if (number == 0)
        spoil_places(ring);
}

struct olivastrum_visit_answer __wrap_olivastrum_visit(ring_t *ring, struct olivastrum_ask ask)
{
    struct olivastrum_visit_answer answer = __real_olivastrum_visit(ring, ask);
    spoil_ring(answer.number, ring);
    FAULT("record-refused", answer.number != 0, answer.record.limit.ticks);
    FAULT("record-finish", answer.number == 0 && !answer.record.completed, answer.record.finish.ticks);
    FAULT("record-margin", answer.number == 0 && !answer.record.completed, answer.record.margin);
    if (is_fault("record-flag") && answer.record.completed)
        answer.record.completed = 2;
    return answer;
}

uint8_t __wrap_olivastrum_hand_in(ring_t *ring, struct olivastrum_message message)
{
    uint8_t number = __real_olivastrum_hand_in(ring, message);
    spoil_ring(number, ring);
    return number;
}

struct olivastrum_mark_answer __wrap_olivastrum_mark(ring_t *ring, struct olivastrum_station station)
{
    struct olivastrum_mark_answer answer = __real_olivastrum_mark(ring, station);
    spoil_ring(answer.number, ring);
    FAULT("mark-refused", answer.number != 0, answer.withdrawn);
    FAULT("mark-rest", answer.number == 0 && !answer.withdrawn, answer.rest.ticks);
    FAULT("mark-arrival", answer.number == 0 && !answer.withdrawn, answer.arrival.ticks);
    if (is_fault("mark-flag") && answer.withdrawn)
        answer.withdrawn = 2;
    return answer;
}

uint8_t __wrap_olivastrum_unmark(ring_t *ring, struct olivastrum_station station)
{
    uint8_t number = __real_olivastrum_unmark(ring, station);
    spoil_ring(number, ring);
    return number;
}

/* ---- logs */
struct olivastrum_read_log __wrap_olivastrum_read_log(const uint8_t *log, size_t length)
{
    struct olivastrum_read_log read = __real_olivastrum_read_log(log, length);
    spoil_sheet(log, length);
    spoil_set(read.number, &read.set);
    spoil_alloc(read.number, read.set.n, &read.alloc);
    FAULT("log-refused", read.number != 0, read.first);
    return read;
}

struct olivastrum_next_entry __wrap_olivastrum_log_entry(const uint8_t *log, size_t length, uint64_t at)
{
    struct olivastrum_next_entry next = __real_olivastrum_log_entry(log, length, at);
    FAULT("entry-none", next.next == 0, next.visit.station);
    FAULT("entry-both", next.kind == OLIVASTRUM_VISIT_TAG, next.mark.mark);
    FAULT("entry-twice", next.kind == OLIVASTRUM_MARK_TAG, next.visit.limit);
    FAULT("entry-kind", next.next == 0, next.kind);
    if (is_fault("entry-tag") && next.next != 0)
        next.kind = 1;
    if (is_fault("entry-far") && next.next != 0)
        next.next = length + 1;
    return next;
}

struct olivastrum_recorder __wrap_olivastrum_begin_log(set_t set, alloc_t alloc, uint32_t counter, uint64_t clock, uint8_t *out, size_t length)
{
    struct olivastrum_recorder begun = __real_olivastrum_begin_log(set, alloc, counter, clock, out, length);
    FAULT("log-before", 1, out[-1]);
    FAULT("log-left", begun.at < length, out[begun.at]);
    FAULT("begun-refused", begun.number != 0, begun.clock);
    FAULT("begun-counter", begun.number == 0, begun.counter);
    return begun;
}

struct olivastrum_recorder __wrap_olivastrum_add_visit(struct olivastrum_recorder recorder, struct olivastrum_visit_record record, uint8_t *out,
                                                       size_t length)
{
    struct olivastrum_recorder next = __real_olivastrum_add_visit(recorder, record, out, length);
    FAULT("added-before", 1, out[0]);
    FAULT("added-left", next.at < length, out[next.at]);
    FAULT("added-refused", next.number != 0, next.counter);
    return next;
}

struct olivastrum_recorder __wrap_olivastrum_add_mark(struct olivastrum_recorder recorder, struct olivastrum_mark_entry mark, uint8_t *out,
                                                      size_t length)
{
    struct olivastrum_recorder next = __real_olivastrum_add_mark(recorder, mark, out, length);
    FAULT("marked-before", 1, out[0]);
    FAULT("marked-left", next.at < length, out[next.at]);
    FAULT("marked-refused", next.number != 0, next.counter);
    FAULT("marked-clock", next.number == 0, next.clock);
    return next;
}

struct olivastrum_written __wrap_olivastrum_end_log(struct olivastrum_recorder recorder, uint8_t *out, size_t length)
{
    struct olivastrum_written ended = __real_olivastrum_end_log(recorder, out, length);
    FAULT("ended-before", 1, out[0]);
    FAULT("ended-left", ended.number == 0 && ended.length < length, out[ended.length]);
    return ended;
}

/* ---- inspecting */
struct olivastrum_finding __wrap_olivastrum_inspect_log(const uint8_t *log, size_t length)
{
    struct olivastrum_finding found = __real_olivastrum_inspect_log(log, length);
    spoil_sheet(log, length);
    FAULT("found-refused", found.number != 0, found.records);
    FAULT("found-none", found.number == 0 && found.rule == 0, found.record);
    if (is_fault("found-far") && found.rule != 0)
        found.record = found.records + 1;
    return found;
}

struct olivastrum_plan_finding __wrap_olivastrum_inspect_log_of(const uint8_t *plan, size_t plan_length, const uint8_t *log, size_t length)
{
    struct olivastrum_plan_finding found = __real_olivastrum_inspect_log_of(plan, plan_length, log, length);
    uint8_t *sheet = (uint8_t *)plan;
    spoil_sheet(log, length);
    FAULT("plan-before", 1, sheet[-1]);
    FAULT("plan-itself", plan_length > 0, sheet[0]);
    FAULT("plan-behind", 1, sheet[plan_length]);
    FAULT("held-refused", found.refused != 0, found.records);
    FAULT("held-another", found.another != 0, found.visits);
    if (is_fault("held-flag"))
        found.another += 2;
    if (is_fault("held-far") && found.rule == 0 && found.refused == 0 && found.another == 0)
        found.visits = found.records + 1;
    return found;
}

/* ---- areas */
static void spoil_area(uint8_t number, const uint8_t *area, size_t length)
{
    uint8_t *bytes = (uint8_t *)area;
    FAULT("area-before", 1, bytes[-1]);
    FAULT("area-behind", 1, bytes[length]);
    FAULT("area-refused", number != 0 && length > 0, bytes[length - 1]);
}

uint8_t __wrap_olivastrum_empty_store(uint8_t *area, size_t length)
{
    uint8_t number = __real_olivastrum_empty_store(area, length);
    spoil_area(number, area, length);
    return number;
}

struct olivastrum_stored_plan __wrap_olivastrum_store_plan(uint8_t *area, size_t length, const uint8_t *sheet, size_t sheet_length)
{
    struct olivastrum_stored_plan stored = __real_olivastrum_store_plan(area, length, sheet, sheet_length);
    spoil_area(stored.number, area, length);
    spoil_sheet(sheet, sheet_length);
    FAULT("stored-refused", stored.number != 0, stored.version);
    return stored;
}

struct olivastrum_found_version __wrap_olivastrum_find_version(const uint8_t *area, size_t length, uint32_t version)
{
    struct olivastrum_found_version found = __real_olivastrum_find_version(area, length, version);
    spoil_area(found.number, area, length);
    FAULT("found-place", found.number != 0 && length > 0, found.place);
    if (is_fault("found-long") && found.number == 0)
        found.length = length;
    return found;
}

struct olivastrum_versions __wrap_olivastrum_versions_in(const uint8_t *area, size_t length)
{
    struct olivastrum_versions kept = __real_olivastrum_versions_in(area, length);
    spoil_area(kept.number, area, length);
    FAULT("listed-refused", kept.number != 0, kept.newest);
    return kept;
}

/* ---- trains */
struct olivastrum_read_request __wrap_olivastrum_hopper_request(list_t list)
{
    struct olivastrum_read_request read = __real_olivastrum_hopper_request(list);
    spoil_set(read.number, &read.set);
    FAULT("request-other", read.number == 0, read.set.c[0]);
    return read;
}

struct olivastrum_written __wrap_olivastrum_write_hopper_sheet(list_t list, uint8_t *out, size_t length)
{
    struct olivastrum_written written = __real_olivastrum_write_hopper_sheet(list, out, length);
    spoil_room(&written, out, length);
    FAULT("sheet-number", 1, written.number);
    return written;
}

/* The last wagon of the longest list has its place behind the others; a plan has more places than wagons. */
static struct olivastrum_coupled spoiled_train(struct olivastrum_coupled coupled)
{
    FAULT("train-list", coupled.number == 0 && coupled.train.list.n < MOST_WAGONS, coupled.train.list.door[MOST_WAGONS - 1]);
    FAULT("train-plan", coupled.number == 0, coupled.train.plan.s[LAST]);
    return coupled;
}

static struct olivastrum_coupled spoiled_change(struct olivastrum_coupled coupled)
{
    FAULT("train-refused", coupled.number != 0, coupled.train.plan.s[LAST]);
    return spoiled_train(coupled);
}

struct olivastrum_coupled __wrap_olivastrum_couple_train(list_t list)
{
    struct olivastrum_coupled coupled = __real_olivastrum_couple_train(list);
    FAULT("coupled-refused", coupled.number != 0, coupled.train.plan.s[LAST]);
    return spoiled_train(coupled);
}

struct olivastrum_coupled __wrap_olivastrum_change_train(train_t train, list_t list)
{
    return spoiled_change(__real_olivastrum_change_train(train, list));
}

struct olivastrum_coupled __wrap_olivastrum_change_wagon(train_t train, struct olivastrum_station place, struct olivastrum_wagon wagon)
{
    return spoiled_change(__real_olivastrum_change_wagon(train, place, wagon));
}

struct olivastrum_coupled __wrap_olivastrum_couple_wagon(train_t train, struct olivastrum_wagon wagon)
{
    return spoiled_change(__real_olivastrum_couple_wagon(train, wagon));
}

struct olivastrum_coupled __wrap_olivastrum_uncouple_wagon(train_t train)
{
    return spoiled_change(__real_olivastrum_uncouple_wagon(train));
}
