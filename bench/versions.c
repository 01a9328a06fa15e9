/*
 * How long it takes to store a plan into a full store and to find a version, at 1 and at 16 kept versions, of 4 and of 128
 * stations. Each beside plain C of the same signature, not inlined, whose answers and whose area are held to the proved
 * library's first. Every call judges the whole area, each plan in it too.
 */
#include "olivastrum.h"
#include "bytes.h"
#include "plain.h"
#include "sets.h"
#include "system.h"
#include <stdio.h>
#include <string.h>

#define TURNS 15
#define CALLS 100

#define APART __attribute__((noinline))

#define VERSION_TAG 32

static uint8_t proved[OLIVASTRUM_STORE_BYTES], plain[OLIVASTRUM_STORE_BYTES];
static uint8_t sheet[OLIVASTRUM_PLAN_BYTES(128)];
static size_t sheet_length;
static uint32_t newest;
static uint64_t seen; /* so that nothing that is read is left out by the compiler */

/* ---- plain C */

/* What an area holds: how many numbers were given before the oldest, how many are kept, and the place behind them. */
struct held {
    uint32_t before, count;
    size_t end;
};

static size_t size_at(const uint8_t *at)
{
    return (size_t)at[1] << 8 | at[2];
}

/* A version with this number stands at the place, and its plan is accepted. */
static int stands(const uint8_t *area, size_t at, uint64_t number)
{
    size_t left = OLIVASTRUM_STORE_BYTES - at;
    if (left < 7 || area[at] != VERSION_TAG)
        return 0;
    size_t size = size_at(area + at);
    if (size < 4 || size + 3 > left || number_at(area + at + 3) != number)
        return 0;
    struct olivastrum_read_plan read;
    plain_read_plan(area + at + 7, size - 4, &read);
    return read.number == OLIVASTRUM_ACCEPTED;
}

static int zeros(const uint8_t *area, size_t from)
{
    uint8_t any = 0;
    for (size_t i = from; i < OLIVASTRUM_STORE_BYTES; i++)
        any |= area[i];
    return any == 0;
}

/* 0 and what the area holds, or 2. */
static uint8_t judge(const uint8_t *area, size_t length, struct held *held)
{
    if (length != OLIVASTRUM_STORE_BYTES)
        return OLIVASTRUM_SHEET_WRONG;
    uint32_t first = number_at(area + 3);
    held->before = first == 0 ? 0 : first - 1;
    held->count = 0;
    held->end = 0;
    while (held->count < OLIVASTRUM_MOST_VERSIONS && stands(area, held->end, (uint64_t)held->before + held->count + 1)) {
        held->end += 3 + size_at(area + held->end);
        held->count++;
    }
    if (held->before != 0 && held->count != OLIVASTRUM_MOST_VERSIONS)
        return OLIVASTRUM_SHEET_WRONG;
    size_t end = held->end;
    int ends = OLIVASTRUM_STORE_BYTES - end >= 3 && area[end] == 255 && area[end + 1] == 0 && area[end + 2] == 0;
    return ends && zeros(area, end + 3) ? OLIVASTRUM_ACCEPTED : OLIVASTRUM_SHEET_WRONG;
}

static uint8_t plain_empty(uint8_t *area, size_t length)
{
    if (length != OLIVASTRUM_STORE_BYTES)
        return OLIVASTRUM_SHEET_WRONG;
    memset(area, 0, length);
    area[0] = 255;
    return OLIVASTRUM_ACCEPTED;
}

/* Lets the oldest of sixteen go. */
static void drop_oldest(uint8_t *area, struct held *held)
{
    size_t by = 3 + size_at(area);
    memmove(area, area + by, held->end - by);
    held->end -= by;
    memset(area + held->end, 0, by + 3);
}

APART static struct olivastrum_stored_plan plain_store(uint8_t *area, size_t length, const uint8_t *bytes, size_t n)
{
    struct olivastrum_stored_plan stored = {0, 0};
    struct held held;
    stored.number = judge(area, length, &held);
    if (stored.number != OLIVASTRUM_ACCEPTED)
        return stored;
    struct olivastrum_read_plan read;
    plain_read_plan(bytes, n, &read);
    stored.number = read.number;
    if (stored.number != OLIVASTRUM_ACCEPTED)
        return stored;
    uint32_t last = held.before + held.count;
    if (last == UINT32_MAX) {
        stored.number = OLIVASTRUM_VERSIONS_USED;
        return stored;
    }
    if (held.count == OLIVASTRUM_MOST_VERSIONS)
        drop_oldest(area, &held);
    uint8_t *at = area + held.end;
    at[0] = VERSION_TAG;
    at[1] = (uint8_t)((n + 4) >> 8);
    at[2] = (uint8_t)(n + 4);
    stored.version = last + 1;
    put_number(at + 3, stored.version);
    memcpy(at + 7, bytes, n);
    at[7 + n] = 255;
    at[8 + n] = at[9 + n] = 0;
    return stored;
}

APART static struct olivastrum_found_version plain_find(const uint8_t *area, size_t length, uint32_t version)
{
    struct olivastrum_found_version found = {0, 0, 0};
    struct held held;
    found.number = judge(area, length, &held);
    if (found.number != OLIVASTRUM_ACCEPTED)
        return found;
    if (version <= held.before || version > held.before + held.count) {
        found.number = OLIVASTRUM_NO_VERSION;
        return found;
    }
    size_t at = 0;
    for (uint32_t k = held.before + 1; k < version; k++)
        at += 3 + size_at(area + at);
    found.place = at + 7;
    found.length = size_at(area + at) - 4;
    return found;
}

static struct olivastrum_versions plain_versions(const uint8_t *area, size_t length)
{
    struct olivastrum_versions kept = {0, 0, 0};
    struct held held;
    kept.number = judge(area, length, &held);
    if (kept.number != OLIVASTRUM_ACCEPTED || held.count == 0)
        return kept;
    kept.oldest = held.before + 1;
    kept.newest = held.before + held.count;
    return kept;
}

/* ---- the jobs, each so many times */

static void store_proved(void)
{
    for (int k = 0; k < CALLS; k++)
        seen += olivastrum_store_plan(proved, sizeof proved, sheet, sheet_length).version;
}

static void store_plain(void)
{
    for (int k = 0; k < CALLS; k++)
        seen += plain_store(plain, sizeof plain, sheet, sheet_length).version;
}

static void find_proved(void)
{
    for (int k = 0; k < CALLS; k++)
        seen += olivastrum_find_version(proved, sizeof proved, newest).place;
}

static void find_plain(void)
{
    for (int k = 0; k < CALLS; k++)
        seen += plain_find(plain, sizeof plain, newest).place;
}

/* ---- timing */

static double timed(void (*run)(void))
{
    double from = processor_ns();
    run();
    return processor_ns() - from;
}

static void show(const char *name, uint32_t n, uint32_t kept, void (*run)(void), void (*other)(void))
{
    double one[TURNS], two[TURNS], ratio[TURNS];
    for (int k = 0; k < TURNS; k++) {
        one[k] = timed(run) / CALLS;
        two[k] = timed(other) / CALLS;
        ratio[k] = one[k] / two[k];
    }
    qsort(one, TURNS, sizeof *one, by_size);
    qsort(two, TURNS, sizeof *two, by_size);
    qsort(ratio, TURNS, sizeof *ratio, by_size);
    printf("%-8s %8u %8u %12.0f %12.0f   %5.2f (%.2f to %.2f)\n", name, n, kept, one[TURNS / 2], two[TURNS / 2], ratio[TURNS / 2], ratio[TURNS / 4],
           ratio[3 * TURNS / 4]);
}

/* Both areas, emptied, with so many versions of the sheet; 0 where they differ. */
static int filled(uint32_t kept)
{
    if (olivastrum_empty_store(proved, sizeof proved) != 0 || plain_empty(plain, sizeof plain) != 0)
        return 0;
    newest = 0;
    for (uint32_t k = 0; k < kept; k++) {
        newest = olivastrum_store_plan(proved, sizeof proved, sheet, sheet_length).version;
        if (plain_store(plain, sizeof plain, sheet, sheet_length).version != newest)
            return 0;
    }
    return memcmp(proved, plain, sizeof proved) == 0;
}

/* The two find the same, and say the same of what is kept. */
static int alike(void)
{
    for (uint32_t version = 0; version < newest + 2; version++) {
        struct olivastrum_found_version one = olivastrum_find_version(proved, sizeof proved, version);
        struct olivastrum_found_version two = plain_find(plain, sizeof plain, version);
        if (one.number != two.number || one.place != two.place || one.length != two.length)
            return 0;
    }
    struct olivastrum_versions one = olivastrum_versions_in(proved, sizeof proved), two = plain_versions(plain, sizeof plain);
    return one.number == two.number && one.oldest == two.oldest && one.newest == two.newest;
}

static int measured(uint32_t n)
{
    struct olivastrum_set set = stations(n, OLIVASTRUM_TIMELY, 1);
    struct olivastrum_alloc alloc = olivastrum_plan_set(set).alloc;
    sheet_length = olivastrum_write_plan_sheet(set, alloc, sheet, sizeof sheet).length;
    for (uint32_t kept = 1; kept <= OLIVASTRUM_MOST_VERSIONS; kept += OLIVASTRUM_MOST_VERSIONS - 1) {
        if (sheet_length == 0 || !filled(kept) || !alike())
            return 0;
        show("finding", n, kept, find_proved, find_plain);
    }
    show("storing", n, OLIVASTRUM_MOST_VERSIONS, store_proved, store_plain);
    return memcmp(proved, plain, sizeof proved) == 0;
}

int main(void)
{
    printf("          stations versions    proved ns   plain C ns   ratio (quartiles)\n");
    if (!measured(4) || !measured(128)) {
        printf("the two keep different versions\n");
        return 1;
    }
    return seen == 0;
}
