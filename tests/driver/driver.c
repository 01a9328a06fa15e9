/*
 * Reads framed cases (second/README.md) on standard input, asks the exported functions, and prints a line of answer for
 * each. What must not be and is seen all the same (lent.h) stands behind a `!` at the answer's end. A line that is no
 * case ends the program with an error.
 */
#include "lent.h"
#include "page.h"
#include "words.h"
#include <string.h>

/* ---- sets and plans: `TTRT;W,C,D,P;..`, and for a plan `TTRT;W,C,D,P,S;..`; `TTRT,MODE,F,G` up to the last that is not 1 */
struct plan {
    set_t set;
    alloc_t alloc;
};

/* Nothing yet; the places are never looked at, so anything may stand there. */
static void no_station(struct plan *plan)
{
    memset(plan, 0xff, sizeof *plan);
    plan->set.head.ttrt = number32();
    plan->set.head.mode = passed(",") ? number32() : OLIVASTRUM_TIMELY;
    plan->set.head.frame = passed(",") ? number32() : 1;
    plan->set.head.grid = passed(",") ? number32() : 1;
    plan->set.n = 0;
}

/* The next station's w, C, D and P; past 128 only their count is kept. */
static uint32_t next_station(struct plan *plan)
{
    uint32_t i = plan->set.n++;
    uint32_t w = number32();
    pass(",");
    uint32_t c = number32();
    pass(",");
    uint32_t d = number32();
    pass(",");
    uint32_t p = number32();
    if (i < MOST) {
        plan->set.w[i] = w;
        plan->set.c[i] = c;
        plan->set.d[i] = d;
        plan->set.p[i] = p;
    }
    return i;
}

static void share(struct plan *plan, uint32_t i)
{
    pass(",");
    uint32_t s = number32();
    if (i < MOST)
        plan->alloc.s[i] = s;
}

static void stations(struct plan *plan, int with_shares)
{
    no_station(plan);
    while (passed(";")) {
        uint32_t i = next_station(plan);
        if (with_shares)
            share(plan, i);
    }
    if (!ended())
        no_case();
}

/* SET, or PLANSET where there is an allocation. */
static void put_set(const set_t *set, const alloc_t *alloc)
{
    put_number(set->head.ttrt);
    if (set->head.mode != OLIVASTRUM_TIMELY || set->head.frame != 1 || set->head.grid != 1)
        put_after(',', set->head.mode);
    if (set->head.frame != 1 || set->head.grid != 1)
        put_after(',', set->head.frame);
    if (set->head.grid != 1)
        put_after(',', set->head.grid);
    for (uint32_t i = 0; i < set->n && i < MOST; i++) {
        put_after(';', set->w[i]);
        put_after(',', set->c[i]);
        put_after(',', set->d[i]);
        put_after(',', set->p[i]);
        if (alloc)
            put_after(',', alloc->s[i]);
    }
}

/* The number of stations, and the set or plan. */
static void put_stations(const set_t *set, const alloc_t *alloc)
{
    put_after(' ', set->n);
    put(" ");
    put_set(set, alloc);
}

/* ---- a ring: `CLOCK,TOKEN,VISITS,U;TRT,s,REMAINING,HAD,ARRIVAL,LAST;..`, behind LAST a late count and a mark, up to the
 * last of the two that is not 0 */
static void put_ring(const ring_t *ring)
{
    put_number(ring->clock);
    put_after(',', ring->token);
    put_after(',', ring->visits);
    put_after(',', ring->unused);
    for (uint32_t i = 0; i < ring->set.n && i < MOST; i++) {
        put_after(';', ring->trt[i]);
        put_after(',', ring->sent[i]);
        put_after(',', ring->rest[i]);
        put_after(',', ring->had[i]);
        put_after(',', ring->arrival[i]);
        put_after(',', ring->last[i]);
        if (ring->late[i] != 0 || ring->mark[i] != 0)
            put_after(',', ring->late[i]);
        if (ring->mark[i] != 0)
            put_after(',', ring->mark[i]);
    }
}

/* ---- calls */
static void put_refused(uint8_t number)
{
    put("refused");
    put_after(' ', number);
}

static void put_visit(const struct olivastrum_visit_record *record)
{
    put("visit");
    put_after(' ', record->station.number);
    put_after(' ', record->start.ticks);
    put_after(' ', record->trt.ticks);
    put_after(' ', record->limit.ticks);
    put_after(' ', record->synchronous.ticks);
    put_after(' ', record->asynchronous.ticks);
    if (!record->completed) {
        put(" - -");
        return;
    }
    put_after(' ', record->finish.ticks);
    put_signed_after(' ', record->margin);
}

/* `FRAMES`, of length 1, or `FRAMES LENGTH`. */
static struct olivastrum_ask asked(void)
{
    struct olivastrum_ask ask;
    ask.frames = number32();
    ask.length = passed(" ") ? number32() : 1;
    return ask;
}

static void visits(ring_t *ring, uint64_t count, int shown)
{
    struct olivastrum_visit_answer answer = visiting(ring, count, asked());
    if (!shown)
        return;
    if (answer.number != 0)
        put_refused(answer.number);
    else
        put_visit(&answer.record);
}

static void message(ring_t *ring, int shown)
{
    struct olivastrum_message given;
    given.station.number = number32();
    pass(" ");
    given.length.ticks = number();
    pass(" ");
    given.arrival.ticks = number();
    uint8_t refusal = handing_in(ring, given);
    if (!shown)
        return;
    if (refusal != 0)
        put_refused(refusal);
    else
        put("taken");
}

/* Makes a marking and says what it took back; the number of the answer. */
static uint8_t mark(ring_t *ring, struct olivastrum_station station, int shown)
{
    struct olivastrum_mark_answer answer = marking(ring, station);
    if (!shown)
        return answer.number;
    if (answer.number != 0) {
        put_refused(answer.number);
        return answer.number;
    }
    put("marked");
    if (answer.withdrawn) {
        put(" withdrawn");
        put_after(' ', answer.rest.ticks);
        put_after(' ', answer.arrival.ticks);
    }
    return 0;
}

static uint8_t unmark(ring_t *ring, struct olivastrum_station station, int shown)
{
    uint8_t refusal = unmarking(ring, station);
    if (shown && refusal != 0)
        put_refused(refusal);
    else if (shown)
        put("unmarked");
    return refusal;
}

static struct olivastrum_station station(void)
{
    struct olivastrum_station named;
    named.number = number32();
    return named;
}

/* The call that stands here, made on the ring; its answer, if it is to be shown. */
static void call(ring_t *ring, int shown)
{
    if (passed("message ")) {
        message(ring, shown);
    } else if (passed("mark ")) {
        mark(ring, station(), shown);
    } else if (passed("unmark ")) {
        unmark(ring, station(), shown);
    } else if (passed("visit ")) {
        visits(ring, 1, shown);
    } else {
        pass("visits ");
        uint64_t count = number();
        pass(" ");
        if (count == 0)
            no_case();
        visits(ring, count, shown);
    }
}

/* ---- the cases of sheets */
static uint8_t bytes[MOST_BYTES];

/* `request HEX` */
static void request_case(void)
{
    size_t length = hex(bytes, MOST_BYTES);
    if (!ended())
        no_case();
    struct olivastrum_read_request read = reading_request(bytes, length);
    put_number(read.number);
    if (read.number == 0)
        put_stations(&read.set, 0);
}

/* `plan HEX` */
static void plan_case(void)
{
    size_t length = hex(bytes, MOST_BYTES);
    if (!ended())
        no_case();
    struct olivastrum_read_plan read = reading_plan(bytes, length);
    put_number(read.number);
    if (read.number == 0)
        put_stations(&read.set, &read.alloc);
}

/* `write-request ROOM;SET` and `write-plan ROOM;PLANSET` */
static void write_case(int with_shares)
{
    struct plan plan;
    const uint8_t *sheet;
    uint64_t room = number();
    pass(";");
    stations(&plan, with_shares);
    if (room > MOST_BYTES)
        room = MOST_BYTES;
    struct olivastrum_written written =
        with_shares ? writing_plan(&plan.set, &plan.alloc, room, &sheet) : writing_request(&plan.set, room, &sheet);
    put_number(written.number);
    if (written.number == 0) {
        put(" ");
        put_hex(sheet, written.length);
    }
}

/* ---- the cases of sets and rings */

/* A*, seen at the first visit on a ring opened with the plan: its limit. */
static uint64_t spare(ring_t *ring)
{
    struct olivastrum_ask nothing = {0, 1};
    return visiting(ring, 1, nothing).record.limit.ticks;
}

/* `planning SET` */
static void planning_case(void)
{
    struct plan plan;
    stations(&plan, 0);
    struct olivastrum_planned planned = planning(&plan.set);
    put_number(planned.number);
    if (planned.number != 0)
        return;
    plan.alloc = planned.alloc;
    struct olivastrum_opened opened = opening(&plan.set, &plan.alloc);
    if (opened.number != 0) {
        put(" !not-opened");
        return;
    }
    put_after(' ', spare(&opened.ring));
    for (uint32_t i = 0; i < plan.set.n; i++)
        put_after(i == 0 ? ' ' : ',', plan.alloc.s[i]);
}

/* `open PLANSET` */
static void open_case(void)
{
    struct plan plan;
    stations(&plan, 1);
    struct olivastrum_opened opened = opening(&plan.set, &plan.alloc);
    put_number(opened.number);
    if (opened.number == 0) {
        put(" ");
        put_ring(&opened.ring);
    }
}

/* The ring of a plan sheet that stands here; the number is the sheet's, or the opening's. */
static struct olivastrum_opened opened_sheet(void)
{
    size_t length = hex(bytes, MOST_BYTES);
    struct olivastrum_read_plan read = reading_plan(bytes, length);
    struct olivastrum_opened opened = opening(&read.set, &read.alloc);
    if (read.number != 0)
        opened.number = read.number;
    return opened;
}

/* `run HEX` and CALLS, and `ring HEX` and CALLS; a refused sheet is its number, and no call is made. */
static void run_case(int answers_shown)
{
    struct olivastrum_opened opened = opened_sheet();
    put_number(opened.number);
    if (opened.number != 0)
        return;
    for (const char *before = " "; passed(";"); before = "|") {
        if (answers_shown)
            put(before);
        call(&opened.ring, answers_shown);
    }
    if (!ended())
        no_case();
    if (!answers_shown) {
        put(" ");
        put_ring(&opened.ring);
    }
}

/* What a ring stores of a station: `,TRT,s,REMAINING,HAD,ARRIVAL,LAST`, a late count or none, and behind that a mark or
 * none. */
static void stored(ring_t *ring, uint32_t i)
{
    pass(",");
    uint32_t trt = number32();
    pass(",");
    uint32_t sent = number32();
    pass(",");
    uint32_t rest = number32();
    pass(",");
    uint8_t had = number8();
    pass(",");
    uint64_t arrival = number();
    pass(",");
    uint64_t last = number();
    uint32_t late = passed(",") ? number32() : 0;
    uint8_t mark = passed(",") ? number8() : 0;
    if (i < MOST) {
        ring->trt[i] = trt;
        ring->late[i] = late;
        ring->sent[i] = sent;
        ring->rest[i] = rest;
        ring->had[i] = had;
        ring->mark[i] = mark;
        ring->arrival[i] = arrival;
        ring->last[i] = last;
    }
}

/* Any ring: `CLOCK,TOKEN,VISITS,U;HEAD;PLACE;..`, up to the first call; HEAD as for a set. */
static void any_ring(ring_t *ring)
{
    struct plan plan;
    memset(ring, 0xff, sizeof *ring);
    ring->clock = number();
    pass(",");
    ring->token = number32();
    pass(",");
    ring->visits = number();
    pass(",");
    ring->unused = number();
    pass(";");
    no_station(&plan);
    while (passed_to_digit(";")) {
        uint32_t i = next_station(&plan);
        share(&plan, i);
        stored(ring, i);
    }
    ring->set = plan.set;
    ring->alloc = plan.alloc;
}

/* `state STATE` and CALLS */
static void state_case(void)
{
    ring_t ring;
    any_ring(&ring);
    while (passed(";")) {
        call(&ring, 1);
        put("|");
    }
    if (!ended())
        no_case();
    put_ring(&ring);
}

/* ---- logs */

/* `STATION,START,LIMIT,SYNC,ASYNC` of a visit, `STATION,MARK` of a mark. */
static void put_entry(const struct olivastrum_next_entry *next)
{
    if (next->kind == OLIVASTRUM_MARK_TAG) {
        put_after('|', next->mark.station);
        put_after(',', next->mark.mark);
        return;
    }
    put_after('|', next->visit.station);
    put_after(',', next->visit.start);
    put_after(',', next->visit.limit);
    put_after(',', next->visit.synchronous);
    put_after(',', next->visit.asynchronous);
}

/* `log HEX` */
static void log_case(void)
{
    size_t length = hex(bytes, MOST_BYTES);
    if (!ended())
        no_case();
    struct olivastrum_read_log read = reading_log(bytes, length);
    put_number(read.number);
    if (read.number != 0)
        return;
    put(" ");
    put_set(&read.set, &read.alloc);
    uint64_t at = read.first;
    for (uint64_t i = 0; i < read.records; i++) {
        struct olivastrum_next_entry next = entry_at(length, at);
        put_entry(&next);
        at = next.next;
    }
    /* What stands behind the last record is none. */
    if (entry_at(length, at).next != 0)
        put(" !too-long");
}

/* Makes the marking or unmarking that stands here, and adds it where it was accepted. */
static struct olivastrum_recorder recorded_mark(ring_t *ring, struct olivastrum_recorder recorder, size_t room, int marked)
{
    struct olivastrum_station named = station();
    struct olivastrum_mark_entry entry = {(uint32_t)named.number, (uint32_t)marked};
    uint8_t refusal = marked ? mark(ring, named, 0) : unmark(ring, named, 0);
    return refusal != 0 ? recorder : adding_mark(recorder, entry, room);
}

/* Makes the call that stands here on the ring, again and again as often as it says; each accepted visit is added, and each
 * accepted marking and unmarking. */
static struct olivastrum_recorder recorded(ring_t *ring, struct olivastrum_recorder recorder, size_t room)
{
    uint64_t count = 1;
    if (passed("message ")) {
        message(ring, 0);
        return recorder;
    }
    if (passed("mark "))
        return recorded_mark(ring, recorder, room, 1);
    if (passed("unmark "))
        return recorded_mark(ring, recorder, room, 0);
    if (passed("visits ")) {
        count = number();
        pass(" ");
    } else {
        pass("visit ");
    }
    struct olivastrum_ask ask = asked();
    for (; count > 0 && recorder.number == 0; count--) {
        struct olivastrum_visit_answer answer = visiting(ring, 1, ask);
        if (answer.number != 0)
            break;
        recorder = adding_visit(recorder, answer.record, room);
    }
    return recorder;
}

/* `record ROOM;COUNTER,CLOCK;HEX` and CALLS, of a ring that is opened; `record-on ROOM;COUNTER,CLOCK;STATE` and CALLS, of
 * one that is there. */
static void record_case(int given)
{
    const uint8_t *log;
    struct olivastrum_opened opened;
    uint64_t room = number();
    pass(";");
    uint32_t counter = number32();
    pass(",");
    uint64_t clock = number();
    pass(";");
    if (room > MOST_BYTES)
        room = MOST_BYTES;
    if (given) {
        any_ring(&opened.ring);
        opened.number = 0;
    } else {
        opened = opened_sheet();
    }
    if (opened.number != 0) {
        put_number(opened.number);
        return;
    }
    struct olivastrum_recorder recorder = beginning_log(&opened.ring.set, &opened.ring.alloc, counter, clock, room);
    while (recorder.number == 0 && passed(";"))
        recorder = recorded(&opened.ring, recorder, room);
    put_number(recorder.number);
    if (recorder.at == 0)
        return;
    struct olivastrum_written ended = ending_log(recorder, room, &log);
    put(" ");
    put_hex(log, ended.length);
}

/* What is found in a log. */
static void put_rule(uint64_t record, uint8_t rule)
{
    static const char *const rules[] = {"", " station", " start", " limit", " synchronous", " asynchronous"};
    put(" record");
    put_after(' ', record);
    put(rule <= 5 ? rules[rule] : " unknown");
}

/* `inspect HEX` */
static void inspect_case(void)
{
    size_t length = hex(bytes, MOST_BYTES);
    if (!ended())
        no_case();
    struct olivastrum_finding found = inspecting(bytes, length);
    put_number(found.number);
    if (found.number != 0)
        return;
    if (found.rule == 0) {
        put(" accepted");
        put_after(' ', found.records);
    } else {
        put_rule(found.record, found.rule);
    }
}

/* `inspect-of HEX;HEX` */
static void inspect_of_case(void)
{
    static uint8_t plan[MOST_BYTES];
    size_t plan_length = hex(plan, MOST_BYTES);
    pass(";");
    size_t length = hex(bytes, MOST_BYTES);
    if (!ended())
        no_case();
    struct olivastrum_plan_finding found = inspecting_of(plan, plan_length, bytes, length);
    if (found.refused == 1)
        put("plan ");
    if (found.another != 0) {
        put("another plan");
        return;
    }
    put_number(found.number);
    if (found.number != 0)
        return;
    if (found.rule == 0) {
        put(" accepted");
        put_after(' ', found.records);
        put_after(' ', found.visits);
    } else {
        put_rule(found.record, found.rule);
    }
}

/* ---- areas with plan versions */
static void put_stored(struct olivastrum_stored_plan stored)
{
    if (stored.number != 0) {
        put_refused(stored.number);
        return;
    }
    put("version");
    put_after(' ', stored.version);
}

/* A plan sheet that stands here, stored so many times; the last answer. */
static void store(size_t length, uint64_t count)
{
    struct olivastrum_stored_plan stored = {0, 0};
    size_t n = hex(bytes, MOST_BYTES);
    if (count == 0)
        no_case();
    for (; count > 0; count--)
        stored = storing(length, bytes, n);
    put_stored(stored);
}

static void find(const uint8_t *area, size_t length)
{
    struct olivastrum_found_version found = finding(length, number32());
    if (found.number != 0) {
        put_refused(found.number);
        return;
    }
    put("found");
    put_after(' ', found.place);
    put(" ");
    if (found.place <= length && found.length <= length - found.place)
        put_hex(area + found.place, found.length);
}

static void list(size_t length)
{
    struct olivastrum_versions kept = listing(length);
    if (kept.number != 0) {
        put_refused(kept.number);
        return;
    }
    put("versions");
    put_after(' ', kept.oldest);
    put_after(' ', kept.newest);
}

/* No call: a byte of the area becomes another. */
static void change(uint8_t *area, size_t length)
{
    uint64_t place = number();
    pass(" ");
    uint8_t value = number8();
    if (place >= length)
        no_case();
    area[place] = value;
    put("byte");
}

/* The call that stands here, made on the area. */
static void store_call(uint8_t *area, size_t length)
{
    if (passed("store ")) {
        store(length, 1);
    } else if (passed("stores ")) {
        uint64_t count = number();
        pass(" ");
        store(length, count);
    } else if (passed("find ")) {
        find(area, length);
    } else if (passed("versions")) {
        list(length);
    } else if (passed("byte ")) {
        change(area, length);
    } else {
        pass("empty");
        uint8_t number = emptying(length);
        if (number != 0)
            put_refused(number);
        else
            put("emptied");
    }
}

/* `store LENGTH,HEX` and STORECALLS */
static void store_case(void)
{
    uint64_t length = number();
    pass(",");
    size_t used = hex(bytes, MOST_BYTES);
    if (length > MOST_AREA || used > length)
        no_case();
    uint8_t *area = lend_area(bytes, used, length);
    while (passed(";")) {
        store_call(area, length);
        put("|");
    }
    if (!ended())
        no_case();
    for (used = length; used > 0 && area[used - 1] == 0; used--)
        ;
    if (used == 0)
        put("-");
    put_hex(area, used);
}

/* ---- trains: `B,R,D/B,R,D/..`, `-` for no wagon */
static struct olivastrum_wagon wagon(void)
{
    struct olivastrum_wagon one;
    one.boxes = number32();
    pass(",");
    one.brake = number32();
    pass(",");
    one.door = number32();
    return one;
}

/* Past twelve only their count is kept; the places behind are never looked at, so anything may stand there. */
static void wagons(list_t *list)
{
    memset(list, 0xff, sizeof *list);
    list->n = 0;
    if (passed("-"))
        return;
    do {
        uint32_t i = list->n++;
        struct olivastrum_wagon one = wagon();
        if (i < MOST_WAGONS) {
            list->boxes[i] = one.boxes;
            list->brake[i] = one.brake;
            list->door[i] = one.door;
        }
    } while (passed("/"));
}

static void put_wagons(const list_t *list)
{
    if (list->n == 0)
        put("-");
    for (uint32_t i = 0; i < list->n && i < MOST_WAGONS; i++) {
        if (i > 0)
            put("/");
        put_number(list->boxes[i]);
        put_after(',', list->brake[i]);
        put_after(',', list->door[i]);
    }
}

/* The number, or the plan that is then in force; the train is the answer's. */
static void put_coupled(struct olivastrum_coupled coupled, train_t *train)
{
    put_number(coupled.number);
    *train = coupled.train;
    for (uint32_t i = 0; coupled.number == 0 && i < train->list.n && i < MOST_WAGONS; i++)
        put_after(i == 0 ? ' ' : ',', train->plan.s[i]);
    put("|");
}

/* The call that stands here, made on the train. */
static void train_call(train_t *train)
{
    if (passed("change ")) {
        struct olivastrum_station place = {number32()};
        pass(" ");
        put_coupled(rewagoning(train, place, wagon()), train);
    } else if (passed("couple ")) {
        put_coupled(coupling_one(train, wagon()), train);
    } else if (passed("uncouple")) {
        put_coupled(uncoupling_one(train), train);
    } else if (passed("list ")) {
        list_t list;
        wagons(&list);
        put_coupled(relisting(train, &list), train);
    } else {
        /* No call: a train that none made, with any plan. */
        pass("given ");
        wagons(&train->list);
        memset(&train->plan, 0xa5, sizeof train->plan);
    }
}

/* `train WAGONS` and TRAINCALLS */
static void train_case(void)
{
    list_t list;
    train_t train;
    wagons(&list);
    put_coupled(coupling(&list), &train);
    while (passed(";"))
        train_call(&train);
    if (!ended())
        no_case();
    put_wagons(&train.list);
}

static void answer(void)
{
    if (passed("request "))
        request_case();
    else if (passed("plan "))
        plan_case();
    else if (passed("planning "))
        planning_case();
    else if (passed("write-request "))
        write_case(0);
    else if (passed("write-plan "))
        write_case(1);
    else if (passed("open "))
        open_case();
    else if (passed("run "))
        run_case(1);
    else if (passed("ring "))
        run_case(0);
    else if (passed("state "))
        state_case();
    else if (passed("log "))
        log_case();
    else if (passed("record "))
        record_case(0);
    else if (passed("record-on "))
        record_case(1);
    else if (passed("inspect "))
        inspect_case();
    else if (passed("inspect-of "))
        inspect_of_case();
    else if (passed("store "))
        store_case();
    else if (passed("train "))
        train_case();
    else
        no_case();
}

int main(void)
{
    while (next_line()) {
        answer();
        const char *word = seen();
        if (word) {
            put(" !");
            put(word);
        }
        end_line();
    }
    return 0;
}
