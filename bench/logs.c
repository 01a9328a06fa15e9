/*
 * How many visits of a log are written and read in a second: the recorder's three calls, the reading of a whole log, and the
 * entries handed out one after another. Each beside plain C in one loop, and, where there is a call for each visit, beside
 * plain C of the same signature in a file of its own (values.c). Their bytes and answers are held to the proved library's
 * first.
 */
#include "olivastrum.h"
#include "bytes.h"
#include "plain.h"
#include "sets.h"
#include "system.h"
#include "values.h"
#include <stdio.h>
#include <string.h>

#define VISITS 100000u
#define TURNS 15
#define COMPARED 200000u

typedef struct olivastrum_visit_entry entry_t;

static uint8_t proved[OLIVASTRUM_PLAN_BYTES(128) + OLIVASTRUM_FRAME_BYTES + OLIVASTRUM_VISIT_BYTES * VISITS], plain[sizeof proved];
static struct olivastrum_visit_record records[VISITS];
static struct olivastrum_set set;
static struct olivastrum_alloc alloc;
static uint64_t seen; /* so that nothing that is read is left out by the compiler */

/* ---- plain C */

static size_t plain_write(uint8_t *out, size_t room)
{
    struct olivastrum_written head = plain_write_plan(&set, &alloc, out, room);
    if (head.number != OLIVASTRUM_ACCEPTED)
        return 0;
    size_t at = head.length - 3;
    for (uint32_t k = 0; k < VISITS; k++) {
        const struct olivastrum_visit_record *v = &records[k];
        if (room - at < OLIVASTRUM_VISIT_BYTES + 3)
            return 0;
        uint8_t *to = out + at;
        *to++ = 16;
        *to++ = 0;
        *to++ = 17;
        *to++ = (uint8_t)v->station.number;
        to = put_number(to, (uint32_t)v->start.ticks);
        to = put_number(to, (uint32_t)v->limit.ticks);
        to = put_number(to, (uint32_t)v->synchronous.ticks);
        put_number(to, (uint32_t)v->asynchronous.ticks);
        at += OLIVASTRUM_VISIT_BYTES;
    }
    out[at] = 255;
    out[at + 1] = out[at + 2] = 0;
    return at + 3;
}

/* How many bytes the record at a place has, a visit or a mark; 0 where none stands there. */
static size_t record_bytes(const uint8_t *log, size_t length, size_t at)
{
    if (length - at >= OLIVASTRUM_VISIT_BYTES && log[at] == 16 && log[at + 1] == 0 && log[at + 2] == 17)
        return OLIVASTRUM_VISIT_BYTES;
    if (length - at >= OLIVASTRUM_MARK_BYTES && log[at] == 17 && log[at + 1] == 0 && log[at + 2] == 2)
        return OLIVASTRUM_MARK_BYTES;
    return 0;
}

/* The records from a place on, up to the end; 0 where something else stands there. */
static uint64_t plain_count(const uint8_t *log, size_t length, size_t at)
{
    uint64_t count = 0;
    for (size_t size; (size = record_bytes(log, length, at)) > 0; at += size)
        count++;
    return length - at == 3 && log[at] == 255 && log[at + 1] == 0 && log[at + 2] == 0 ? count : 0;
}

/* ---- the jobs, each over the whole log */

typedef struct olivastrum_recorder adding(struct olivastrum_recorder, struct olivastrum_visit_record, uint8_t *, size_t);
typedef struct olivastrum_next_entry entering(const uint8_t *, size_t, uint64_t);

static size_t write_by(adding *add, uint8_t *out)
{
    struct olivastrum_recorder recorder = olivastrum_begin_log(set, alloc, 0, 0, out, sizeof proved);
    for (uint32_t k = 0; k < VISITS; k++)
        recorder = add(recorder, records[k], out, sizeof proved);
    return olivastrum_end_log(recorder, out, sizeof proved).length;
}

static size_t write_proved(void)
{
    return write_by(olivastrum_add_visit, proved);
}

static size_t write_values(void)
{
    return write_by(values_add_visit, plain);
}

static size_t write_plain(void)
{
    return plain_write(plain, sizeof plain);
}

static size_t length, first;

static size_t read_proved(void)
{
    return olivastrum_read_log(proved, length).records;
}

static size_t read_plain(void)
{
    return plain_count(plain, length, first);
}

static size_t hand_out_by(entering *entry, const uint8_t *log)
{
    size_t visits = 0;
    for (uint64_t at = first;; visits++) {
        struct olivastrum_next_entry next = entry(log, length, at);
        if (next.next == 0)
            return visits;
        seen += next.kind == OLIVASTRUM_VISIT_TAG ? next.visit.start + next.visit.asynchronous : next.mark.mark;
        at = next.next;
    }
}

static size_t hand_out_proved(void)
{
    return hand_out_by(olivastrum_log_entry, proved);
}

static size_t hand_out_values(void)
{
    return hand_out_by(values_log_entry, plain);
}

static size_t hand_out_plain(void)
{
    size_t visits = 0;
    for (size_t at = first, size; (size = record_bytes(plain, length, at)) > 0; at += size, visits++) {
        if (size == OLIVASTRUM_MARK_BYTES) {
            seen += plain[at + 4];
            continue;
        }
        entry_t entry = {plain[at + 3], number_at(plain + at + 4), number_at(plain + at + 8), number_at(plain + at + 12), number_at(plain + at + 16)};
        seen += entry.start + entry.asynchronous;
    }
    return visits;
}

static const struct job {
    const char *name;
    size_t (*proved)(void), (*plain)(void), (*values)(void); /* reading is one call for all */
} jobs[] = {
    {"written", write_proved, write_plain, write_values},
    {"read", read_proved, read_plain, 0},
    {"handed out", hand_out_proved, hand_out_plain, hand_out_values},
};

/* ---- do all give the same? */

/* A visit added to any recorder, in any room: the same recorder comes back, and the same bytes stand there. */
static int same_added(void)
{
    uint8_t one[64] = {0}, other[64] = {0};
    struct olivastrum_recorder recorder = {random_number() % 70, random_number(), random_number(), random_number()};
    struct olivastrum_visit_record record = records[random_number() % VISITS];
    size_t room = random_number() % (sizeof one + 1);
    record.station.number = random_number();
    struct olivastrum_recorder mine = olivastrum_add_visit(recorder, record, one, room), theirs = values_add_visit(recorder, record, other, room);
    return memcmp(&mine, &theirs, sizeof mine) == 0 && memcmp(one, other, sizeof one) == 0;
}

/* What stands at a place of a few bytes that begin as a record does, or nearly. */
static int same_entry(void)
{
    static const uint8_t near[] = {0, 2, 15, 16, 17, 18};
    uint8_t log[40];
    for (size_t k = 0; k < sizeof log; k++)
        log[k] = (uint8_t)random_number();
    uint64_t at = random_number() % (sizeof log + 1), room = random_number() % (sizeof log + 1);
    for (uint64_t k = at; k < at + 3 && k < sizeof log; k++)
        log[k] = k == at + 1 ? random_number() % 8 == 0 : near[random_number() % sizeof near];
    struct olivastrum_next_entry mine = olivastrum_log_entry(log, room, at), theirs = values_log_entry(log, room, at);
    return memcmp(&mine, &theirs, sizeof mine) == 0;
}

/* The logs are the same bytes, whoever writes them, and have the same visits. */
static int same_logs(void)
{
    struct olivastrum_read_log read = olivastrum_read_log(proved, length);
    if (length == 0 || write_plain() != length || memcmp(proved, plain, length) != 0)
        return 0;
    memset(plain, 0, sizeof plain);
    if (write_values() != length || memcmp(proved, plain, length) != 0)
        return 0;
    if (read.number != OLIVASTRUM_ACCEPTED || read.first != first || read_plain() != read.records)
        return 0;
    return hand_out_proved() == VISITS && hand_out_plain() == VISITS && hand_out_values() == VISITS;
}

/* ---- timing */

static double timed(size_t (*run)(void))
{
    double from = processor_ns();
    seen += run();
    return (processor_ns() - from) / VISITS;
}

static double median(double *all)
{
    qsort(all, TURNS, sizeof *all, by_size);
    return all[TURNS / 2];
}

static void show(const struct job *job)
{
    double one[TURNS], loop[TURNS], call[TURNS], to_loop[TURNS], to_call[TURNS];
    for (int k = 0; k < TURNS; k++) {
        one[k] = timed(job->proved);
        loop[k] = timed(job->plain);
        call[k] = job->values ? timed(job->values) : 1;
        to_loop[k] = one[k] / loop[k];
        to_call[k] = one[k] / call[k];
    }
    double mine = median(one);
    printf("%-12s %9.1f %9.1f %7.2f", job->name, mine, median(loop), median(to_loop));
    if (job->values)
        printf(" %9.1f %7.2f", median(call), median(to_call));
    else
        printf(" %9s %7s", "-", "-");
    printf("   %13.0f\n", 1e9 / mine);
}

int main(void)
{
    set = stations(128, OLIVASTRUM_TIMELY, 40);
    alloc = olivastrum_plan_set(set).alloc;
    struct olivastrum_ring ring = olivastrum_open_ring(set, alloc).ring;
    for (uint32_t k = 0; k < VISITS; k++) {
        struct olivastrum_ask ask = {random_number() % 100, 1 + random_number() % 40};
        records[k] = olivastrum_visit(&ring, ask).record;
    }
    length = write_proved();
    first = OLIVASTRUM_PLAN_BYTES(128) + OLIVASTRUM_FRAME_BYTES - 3;
    int same = same_logs();
    for (uint32_t k = 0; same && k < COMPARED; k++)
        same = same_added() && same_entry();
    if (!same) {
        printf("the logs differ\n");
        return 1;
    }
    printf("a log of %u visits, %zu bytes: all write the same bytes, and hand out as many visits; %u calls of each kind compared\n", VISITS, length, COMPARED);
    printf("\na visit      proved ns  one loop   ratio  by value   ratio   visits a second\n");
    for (size_t k = 0; k < sizeof jobs / sizeof *jobs; k++)
        show(&jobs[k]);
    return seen == 0;
}
