/*
 * How many records of a log are inspected in a second, beside plain C that reads the log and keeps the same five rules by the
 * same moments. First the findings of the two are held to each other: on logs as a ring wrote them, with any number of any
 * record changed, cut, with records left out, and with marks put in. Then whole logs are inspected in turns; and the same
 * records one by one, on an inspection that the host keeps, beside plain C that is handed a pointer to its own and the record.
 */
#include "olivastrum.h"
#include "plain.h"
#include "quotient.h"
#include "sets.h"
#include "system.h"
#include <stdio.h>
#include <string.h>

#define VISITS 100000u
#define TURNS 15
#define CHANGED 20000u

typedef struct olivastrum_visit_entry entry_t;
typedef struct olivastrum_finding finding_t;

#define MOST_PLAN_BYTES (OLIVASTRUM_PLAN_BYTES(128) + OLIVASTRUM_MODE_BYTES + OLIVASTRUM_FRAME_BYTES)

static uint8_t log_bytes[MOST_PLAN_BYTES + OLIVASTRUM_VISIT_BYTES * VISITS];
static uint64_t seen; /* so that nothing that is found is left out by the compiler */

/* ---- plain C */

enum { NONE, STATION, START, LIMIT, SYNCHRONOUS, ASYNCHRONOUS };

/* What the records so far leave of the ring: for each station when its timer began, and what it last sent. */
struct inspection {
    struct olivastrum_read_plan plan;
    uint32_t base[OLIVASTRUM_MOST_STATIONS], sent[OLIVASTRUM_MOST_STATIONS];
    uint32_t token, clock, unused, start, span;
    uint64_t visits;
    uint8_t mark[OLIVASTRUM_MOST_STATIONS];
};

static uint32_t number_at(const uint8_t *at)
{
    return (uint32_t)at[0] << 24 | (uint32_t)at[1] << 16 | (uint32_t)at[2] << 8 | at[3];
}

static uint32_t less(uint32_t a, uint32_t b)
{
    return a > b ? a - b : 0;
}

/* The place behind the fields of the plan: that of the first record, of the end, or of what may not stand there. */
static size_t behind_plan(const uint8_t *log, size_t length)
{
    size_t at = 0;
    while (length - at >= 3 && log[at] < 16) {
        size_t size = (size_t)log[at + 1] << 8 | log[at + 2];
        if (length - at - 3 < size)
            break;
        at += 3 + size;
    }
    return at;
}

/* Where a record follows, the plan is read with the end behind it; else what there is, is a plan sheet or none. */
static uint8_t read_start(const uint8_t *log, size_t length, size_t first, struct olivastrum_read_plan *plan)
{
    uint8_t sheet[MOST_PLAN_BYTES];
    if (length - first < 3 || (log[first] != 16 && log[first] != 17)) {
        plain_read_plan(log, length, plan);
        return plan->number;
    }
    if (first + 3 > sizeof sheet)
        return OLIVASTRUM_SHEET_WRONG;
    memcpy(sheet, log, first);
    sheet[first] = 255;
    sheet[first + 1] = sheet[first + 2] = 0;
    plain_read_plan(sheet, first + 3, plan);
    return plan->number;
}

static void begin(struct inspection *it)
{
    const struct olivastrum_set *set = &it->plan.set;
    it->clock = it->unused = 0;
    for (uint32_t i = 0; i < set->n; i++) {
        it->base[i] = it->clock;
        it->sent[i] = 0;
        it->mark[i] = 0;
        it->clock += set->w[i];
        it->unused += it->plan.alloc.s[i];
    }
    it->token = it->start = it->span = 0;
    it->visits = 0;
}

/* Frames of one length give the amount, the last one begun below the limit. */
static int frames_fit(uint32_t limit, uint32_t longest, uint32_t amount)
{
    if (amount <= limit)
        return 1;
    uint32_t over = amount - limit;
    if (longest <= over)
        return 0;
    for (uint32_t d = 1;; d++) {
        uint32_t q = quotient(amount, d);
        if (q < d)
            return 0;
        if (q * d == amount && ((d > over && d <= longest) || (q > over && q <= longest)))
            return 1;
    }
}

static uint8_t broken_rule(const struct inspection *it, const entry_t *entry)
{
    const struct olivastrum_head *head = &it->plan.set.head;
    uint32_t p = it->token, run = it->clock - it->base[p];
    if (entry->station != p)
        return STATION;
    if (it->visits > 0 && entry->start - it->start != it->span)
        return START;
    uint32_t limit = head->mode == OLIVASTRUM_FDDI ? less(head->ttrt, run) : less(head->ttrt, head->frame - 1 + it->unused + run);
    if (it->mark[p])
        limit = 0;
    if (entry->limit != limit)
        return LIMIT;
    if (entry->synchronous > (it->mark[p] ? 0 : it->plan.alloc.s[p]))
        return SYNCHRONOUS;
    return frames_fit(limit, head->frame, entry->asynchronous) ? NONE : ASYNCHRONOUS;
}

static void move_on(struct inspection *it, const entry_t *entry)
{
    const struct olivastrum_head *head = &it->plan.set.head;
    uint32_t p = it->token;
    int late = head->mode == OLIVASTRUM_FDDI && it->clock - it->base[p] >= head->ttrt;
    uint32_t lead = head->mode == OLIVASTRUM_EARLIER ? entry->asynchronous : 0; /* sent before the synchronous part */
    it->base[p] = late ? it->base[p] + head->ttrt : it->clock + lead;
    it->unused += it->sent[p] - entry->synchronous;
    it->sent[p] = entry->synchronous;
    it->start = entry->start;
    it->span = entry->synchronous + entry->asynchronous + it->plan.set.w[p];
    it->clock += it->span;
    it->token = p + 1 < it->plan.set.n ? p + 1 : 0;
    it->visits++;
}

static int is_visit(const uint8_t *log, size_t length, size_t at)
{
    return length - at >= OLIVASTRUM_VISIT_BYTES && log[at] == 16 && log[at + 1] == 0 && log[at + 2] == 17;
}

static int is_mark(const uint8_t *log, size_t length, size_t at)
{
    return length - at >= OLIVASTRUM_MARK_BYTES && log[at] == 17 && log[at + 1] == 0 && log[at + 2] == 2;
}

/* A mark has one rule, and moves nothing but itself. */
static uint8_t marked(struct inspection *it, uint8_t station, uint8_t mark)
{
    if (station >= it->plan.set.n || mark > 1)
        return STATION;
    it->mark[station] = mark;
    return NONE;
}

/* What stands behind the last record: the end alone, or the first fault. */
static uint8_t judge_end(const uint8_t *log, size_t length, size_t at)
{
    if (length - at < 3)
        return OLIVASTRUM_SHEET_ENDS;
    size_t size = (size_t)log[at + 1] << 8 | log[at + 2];
    if ((log[at] == 16 && size == 17) || (log[at] == 17 && size == 2))
        return OLIVASTRUM_SHEET_ENDS;
    if (log[at] != 255 || size != 0)
        return OLIVASTRUM_SHEET_WRONG;
    return length - at > 3 ? OLIVASTRUM_SHEET_GOES_ON : OLIVASTRUM_ACCEPTED;
}

/* One walk over the records: each is inspected as it is read, and the finding is kept until the log has ended well. */
static finding_t plain_inspect(const uint8_t *log, size_t length)
{
    struct inspection it;
    finding_t found = {0, 0, NONE, 0}, refused = {0, 0, NONE, 0};
    size_t at = behind_plan(log, length);
    uint8_t number = read_start(log, length, at, &it.plan);
    if (number >= OLIVASTRUM_SHEET_ENDS && number <= OLIVASTRUM_SHEET_GOES_ON) {
        refused.number = number;
        return refused;
    }
    begin(&it);
    for (;;) {
        const uint8_t *body = log + at + 3;
        int looked_at = number == OLIVASTRUM_ACCEPTED && found.rule == NONE;
        if (is_visit(log, length, at)) {
            at += OLIVASTRUM_VISIT_BYTES;
            found.records++;
            if (!looked_at)
                continue;
            entry_t entry = {body[0], number_at(body + 1), number_at(body + 5), number_at(body + 9), number_at(body + 13)};
            found.rule = broken_rule(&it, &entry);
            if (found.rule == NONE)
                move_on(&it, &entry);
        } else if (is_mark(log, length, at)) {
            at += OLIVASTRUM_MARK_BYTES;
            found.records++;
            if (looked_at)
                found.rule = marked(&it, body[0], body[1]);
        } else {
            break;
        }
        if (looked_at && found.rule != NONE)
            found.record = found.records;
    }
    uint8_t ending = judge_end(log, length, at);
    refused.number = ending != OLIVASTRUM_ACCEPTED ? ending : number;
    return refused.number != OLIVASTRUM_ACCEPTED ? refused : found;
}

/* ---- do both find the same? */

static unsigned long compared, broken[ASYNCHRONOUS + 1], refusals;

static int same(const uint8_t *log, size_t length)
{
    finding_t proved = olivastrum_inspect_log(log, length), plain = plain_inspect(log, length);
    compared++;
    broken[proved.rule <= ASYNCHRONOUS ? proved.rule : NONE]++;
    refusals += proved.number != 0;
    if (proved.records == plain.records && proved.record == plain.record && proved.rule == plain.rule && proved.number == plain.number)
        return 1;
    printf("the two differ: record %lu rule %u number %u, record %lu rule %u number %u\n", (unsigned long)proved.record, proved.rule, proved.number,
           (unsigned long)plain.record, plain.rule, plain.number);
    return 0;
}

/* A log of some visits of the long one, of which `out` bytes from a place on are left out. */
static size_t part_of(uint8_t *log, size_t first, size_t length, uint32_t visits, size_t at, size_t out)
{
    size_t whole = first + visits * OLIVASTRUM_VISIT_BYTES - out;
    memcpy(log, log_bytes, at);
    memcpy(log + at, log_bytes + at + out, whole - at);
    memcpy(log + whole, log_bytes + length - 3, 3);
    return whole + 3;
}

/* A mark put in at a place, most often one that keeps its rule. */
static size_t with_mark(uint8_t *log, size_t length, size_t at, uint32_t n)
{
    const uint8_t field[OLIVASTRUM_MARK_BYTES] = {17, 0, 2, (uint8_t)(random_number() % (n + n / 8 + 1)), random_number() % 8 ? random_number() % 2 : 2};
    for (size_t k = length; k > at; k--)
        log[k + sizeof field - 1] = log[k - 1];
    memcpy(log + at, field, sizeof field);
    return length + sizeof field;
}

/* Bytes are left out, mostly a record; marks are put in; the log is cut; a bit is another, or a byte one more or less. */
static int same_changed(size_t first, size_t length, uint32_t n)
{
    static uint8_t log[MOST_PLAN_BYTES + 64 * OLIVASTRUM_VISIT_BYTES + 2 * OLIVASTRUM_MARK_BYTES];
    uint32_t visits = 2 + random_number() % 62, record = random_number() % visits;
    size_t at = first + record * OLIVASTRUM_VISIT_BYTES, out = random_number() % 8 == 0 ? random_number() % 20 : OLIVASTRUM_VISIT_BYTES;
    if (random_number() % 8 == 0)
        return same(log, part_of(log, first, length, visits, at, out));
    if (random_number() % 8 == 0) {
        size_t longer = with_mark(log, part_of(log, first, length, visits, at, 0), at, n);
        return same(log, random_number() % 2 ? longer : with_mark(log, longer, first, n));
    }
    size_t whole = part_of(log, first, length, visits, at, 0);
    at = random_number() % 8 == 0 ? random_number() % whole : at + random_number() % OLIVASTRUM_VISIT_BYTES;
    switch (random_number() % 8) {
    case 0: return same(log, at);
    case 1: log[at] ^= (uint8_t)(1u << random_number() % 8); break;
    default: log[at] += (uint8_t)(random_number() % 3 - 1);
    }
    return same(log, whole);
}

/* ---- the logs */

/* Writes the log of a run in which each station sends what it likes: the last of these many visits. */
static size_t written(struct olivastrum_set set, uint32_t frames)
{
    struct olivastrum_alloc alloc = shares_of(&set);
    struct olivastrum_ring ring = ring_of(&set, &alloc);
    struct olivastrum_recorder recorder = olivastrum_begin_log(set, alloc, random_number(), 0, log_bytes, sizeof log_bytes);
    for (uint32_t k = 0; k < VISITS; k++) {
        struct olivastrum_message message = {{ring.token}, {1 + random_number() % set.c[ring.token]}, {ring.clock}};
        olivastrum_hand_in(&ring, message);
        struct olivastrum_ask ask = {random_number() % frames, 1 + random_number() % set.head.frame};
        recorder = olivastrum_add_visit(recorder, olivastrum_visit(&ring, ask).record, log_bytes, sizeof log_bytes);
    }
    return olivastrum_end_log(recorder, log_bytes, sizeof log_bytes).length;
}

/* How many of the records sent more than their limit, so that divisors were looked for. */
static unsigned long above_limit(size_t first)
{
    unsigned long above = 0;
    for (size_t at = first; log_bytes[at] == 16; at += OLIVASTRUM_VISIT_BYTES)
        above += number_at(log_bytes + at + 16) > number_at(log_bytes + at + 8);
    return above;
}

/* ---- timing */

static double timed(finding_t (*inspect)(const uint8_t *, size_t), size_t length)
{
    double from = processor_ns();
    seen += inspect(log_bytes, length).records;
    return processor_ns() - from;
}

static int show(const char *name, struct olivastrum_set set, uint32_t frames)
{
    double one[TURNS], other[TURNS];
    size_t length = written(set, frames), first = behind_plan(log_bytes, length);
    if (length == 0 || olivastrum_inspect_log(log_bytes, length).records != VISITS || !same(log_bytes, length))
        return 0;
    for (uint32_t k = 0; k < CHANGED; k++)
        if (!same_changed(first, length, set.n))
            return 0;
    for (int k = 0; k < TURNS; k++) {
        one[k] = timed(olivastrum_inspect_log, length);
        other[k] = timed(plain_inspect, length);
    }
    qsort(one, TURNS, sizeof *one, by_size);
    qsort(other, TURNS, sizeof *other, by_size);
    double mine = one[TURNS / 2] / VISITS, theirs = other[TURNS / 2] / VISITS;
    printf("%-24s %3u %12lu %10.1f %10.1f   %5.2f   %12.0f\n", name, set.n, above_limit(first), mine, theirs, mine / theirs, 1e9 / mine);
    return 1;
}

/* ---- a record inspected, kept by the host: the records of the log in turns, each a call that is not inlined */

static struct olivastrum_next_entry entries[VISITS];

static __attribute__((noinline)) struct olivastrum_record_finding plain_record(struct inspection *it, struct olivastrum_next_entry entry)
{
    struct olivastrum_record_finding said = {it->visits + 1, 0, 0, NONE, 0};
    said.rule = entry.kind == OLIVASTRUM_VISIT_TAG ? broken_rule(it, &entry.visit) : marked(it, (uint8_t)entry.mark.station, (uint8_t)entry.mark.mark);
    if (said.rule == NONE && entry.kind == OLIVASTRUM_VISIT_TAG)
        move_on(it, &entry.visit);
    return said;
}

static double kept_timed(struct olivastrum_inspection kept)
{
    double from = processor_ns();
    for (uint32_t k = 0; k < VISITS; k++) {
        struct olivastrum_record_finding said = olivastrum_inspect_record(&kept, entries[k]);
        seen += said.record;
        if (said.rule || said.number)
            return -1;
    }
    return processor_ns() - from;
}

static double plain_timed(struct inspection it)
{
    double from = processor_ns();
    for (uint32_t k = 0; k < VISITS; k++) {
        struct olivastrum_record_finding said = plain_record(&it, entries[k]);
        seen += said.record;
        if (said.rule)
            return -1;
    }
    return processor_ns() - from;
}

static int show_kept(const char *name, struct olivastrum_set set, uint32_t frames)
{
    double one[TURNS], other[TURNS];
    size_t length = written(set, frames), first = behind_plan(log_bytes, length);
    struct olivastrum_read_log read = olivastrum_read_log(log_bytes, length);
    struct olivastrum_begun_inspection begun = olivastrum_begin_inspection(read.set, read.alloc);
    static struct inspection it;
    it.plan.set = read.set;
    it.plan.alloc = read.alloc;
    begin(&it);
    if (read.number || begun.number || read.records != VISITS)
        return 0;
    uint64_t at = read.first;
    for (uint32_t k = 0; k < VISITS; k++) {
        entries[k] = olivastrum_log_entry(log_bytes, length, at);
        at = entries[k].next;
    }
    for (int k = 0; k < TURNS; k++) {
        one[k] = kept_timed(begun.inspection);
        other[k] = plain_timed(it);
        if (one[k] < 0 || other[k] < 0)
            return 0;
    }
    qsort(one, TURNS, sizeof *one, by_size);
    qsort(other, TURNS, sizeof *other, by_size);
    double mine = one[TURNS / 2] / VISITS, theirs = other[TURNS / 2] / VISITS;
    printf("%-24s %3u %12lu %10.1f %10.1f   %5.2f   %12.0f\n", name, set.n, above_limit(first), mine, theirs, mine / theirs, 1e9 / mine);
    return 1;
}

int main(void)
{
    printf("logs of %u records                above\na record                   N    the limit  proved ns plain C ns   ratio   records a second\n", VISITS);
    for (uint32_t n = 8; n <= 128; n *= 16)
        if (!show("timely-token", stations(n, OLIVASTRUM_TIMELY, 1), 100) || !show("timely-token, frames", stations(n, OLIVASTRUM_TIMELY, 40), 100) ||
            !show("timely-token, F 5,000", stations(n, OLIVASTRUM_TIMELY, 5000), 100) || !show("FDDI", stations(n, OLIVASTRUM_FDDI, 1), 100) ||
            !show("FDDI, frames", stations(n, OLIVASTRUM_FDDI, 40), 100) || !show("2002 edition", stations(n, OLIVASTRUM_EARLIER, 1), 100) ||
            !show("2002 edition, frames", stations(n, OLIVASTRUM_EARLIER, 40), 100))
            return 1;
    printf("a record inspected, kept by the host\n");
    for (uint32_t n = 8; n <= 128; n *= 16)
        if (!show_kept("timely-token", stations(n, OLIVASTRUM_TIMELY, 1), 100) || !show_kept("timely-token, frames", stations(n, OLIVASTRUM_TIMELY, 40), 100) ||
            !show_kept("FDDI", stations(n, OLIVASTRUM_FDDI, 1), 100) || !show_kept("2002 edition", stations(n, OLIVASTRUM_EARLIER, 1), 100))
            return 1;
    printf("%lu findings compared: %lu station, %lu start, %lu limit, %lu synchronous, %lu asynchronous, %lu refused\n", compared, broken[STATION],
           broken[START], broken[LIMIT], broken[SYNCHRONOUS], broken[ASYNCHRONOUS], refusals);
    return seen == 0;
}
