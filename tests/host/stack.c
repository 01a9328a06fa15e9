/*
 * How much stack each function of the library needs. Each call is made on a stack that is painted before it; how far
 * down the paint is gone is what it needed. It must be at most what the header says, and not much less. Every function
 * is called with what it accepts and with what it refuses, in every mode, with and without frames, at 1 and at 128
 * stations, and with trains of 0 to 13 wagons that fit, that do not and that are out of range. Prints a line for each function.
 */
#include <olivastrum.h>
#include <stdio.h>
#include <string.h>

#define ROOM (256 * 1024)

/* What the header says may be this much more than what is measured. */
#define SLACK 1024

static uint8_t stack[ROOM] __attribute__((aligned(4096)));

/* Where a call puts its answer: the caller's own room, beside the stack. */
static uint8_t answer[sizeof(struct olivastrum_opened)] __attribute__((aligned(16)));

static struct olivastrum_set set;
static struct olivastrum_alloc alloc;
static struct olivastrum_ring ring;
static struct olivastrum_message message;
static struct olivastrum_ask ask;
static struct olivastrum_recorder recorder;
static struct olivastrum_visit_record record;
static struct olivastrum_station station;
static struct olivastrum_mark_entry mark_entry;
static struct olivastrum_inspection kept;
static struct olivastrum_next_entry entry;
static struct olivastrum_wagon_list list;
static struct olivastrum_train train;
static struct olivastrum_wagon wagon;
static uint8_t sheet[OLIVASTRUM_PLAN_BYTES(128) + OLIVASTRUM_MODE_BYTES + OLIVASTRUM_FRAME_BYTES + OLIVASTRUM_VISIT_BYTES + OLIVASTRUM_MARK_BYTES + 1];
static size_t length;
/* A store, which fills as plans are stored, and an area that is emptied. */
static uint8_t area[OLIVASTRUM_STORE_BYTES], emptied[OLIVASTRUM_STORE_BYTES];
/* the plan sheet that a log is held to */
static uint8_t plan_sheet[OLIVASTRUM_PLAN_BYTES(128) + OLIVASTRUM_MODE_BYTES + OLIVASTRUM_FRAME_BYTES];
static size_t plan_length;

/* ---- the calls: what is passed by value is copied to the stack, and the answer goes where `answer` is */
static struct olivastrum_read_request read_request(void)
{
    return olivastrum_read_request_sheet(sheet, length);
}

static struct olivastrum_read_plan read_plan(void)
{
    return olivastrum_read_plan_sheet(sheet, length);
}

static struct olivastrum_written write_request(void)
{
    return olivastrum_write_request_sheet(set, sheet, length);
}

static struct olivastrum_written write_plan(void)
{
    return olivastrum_write_plan_sheet(set, alloc, sheet, length);
}

static struct olivastrum_planned plan(void)
{
    return olivastrum_plan_set(set);
}

static struct olivastrum_opened open_it(void)
{
    return olivastrum_open_ring(set, alloc);
}

static struct olivastrum_visit_answer visit(void)
{
    return olivastrum_visit(&ring, ask);
}

static uint8_t hand_in(void)
{
    return olivastrum_hand_in(&ring, message);
}

static struct olivastrum_mark_answer mark(void)
{
    return olivastrum_mark(&ring, station);
}

static uint8_t unmark(void)
{
    return olivastrum_unmark(&ring, station);
}

static struct olivastrum_recorder begin_log(void)
{
    return olivastrum_begin_log(set, alloc, 4294967295u, 7, sheet, length);
}

static struct olivastrum_recorder add_visit(void)
{
    return olivastrum_add_visit(recorder, record, sheet, length);
}

static struct olivastrum_recorder add_mark(void)
{
    return olivastrum_add_mark(recorder, mark_entry, sheet, length);
}

static struct olivastrum_written end_log(void)
{
    return olivastrum_end_log(recorder, sheet, length);
}

static struct olivastrum_read_log read_log(void)
{
    return olivastrum_read_log(sheet, length);
}

static struct olivastrum_next_entry log_entry(void)
{
    return olivastrum_log_entry(sheet, length, recorder.at);
}

static struct olivastrum_finding inspect_log(void)
{
    return olivastrum_inspect_log(sheet, length);
}

static struct olivastrum_plan_finding inspect_log_of(void)
{
    return olivastrum_inspect_log_of(plan_sheet, plan_length, sheet, length);
}

static struct olivastrum_begun_inspection begin_inspection(void)
{
    return olivastrum_begin_inspection(set, alloc);
}

static struct olivastrum_record_finding inspect_record(void)
{
    return olivastrum_inspect_record(&kept, entry);
}

static uint8_t empty_store(void)
{
    return olivastrum_empty_store(emptied, sizeof emptied);
}

static struct olivastrum_stored_plan store_plan(void)
{
    return olivastrum_store_plan(area, sizeof area, sheet, length);
}

static struct olivastrum_found_version find_version(void)
{
    return olivastrum_find_version(area, sizeof area, olivastrum_versions_in(area, sizeof area).newest);
}

static struct olivastrum_versions versions_in(void)
{
    return olivastrum_versions_in(area, sizeof area);
}

static struct olivastrum_read_request hopper_request(void)
{
    return olivastrum_hopper_request(list);
}

static struct olivastrum_written write_hopper_sheet(void)
{
    return olivastrum_write_hopper_sheet(list, sheet, length);
}

static struct olivastrum_coupled couple_train(void)
{
    return olivastrum_couple_train(list);
}

static struct olivastrum_coupled change_train(void)
{
    return olivastrum_change_train(train, list);
}

static struct olivastrum_coupled change_wagon(void)
{
    return olivastrum_change_wagon(train, station, wagon);
}

static struct olivastrum_coupled couple_wagon(void)
{
    return olivastrum_couple_wagon(train, wagon);
}

static struct olivastrum_coupled uncouple_wagon(void)
{
    return olivastrum_uncouple_wagon(train);
}

typedef void call(void);

static struct function {
    const char *name;
    call *made;
    size_t said, measured;
} functions[] = {
    {"olivastrum_read_request_sheet", (call *)read_request, OLIVASTRUM_STACK_READ_REQUEST_SHEET, 0},
    {"olivastrum_read_plan_sheet", (call *)read_plan, OLIVASTRUM_STACK_READ_PLAN_SHEET, 0},
    {"olivastrum_write_request_sheet", (call *)write_request, OLIVASTRUM_STACK_WRITE_REQUEST_SHEET, 0},
    {"olivastrum_write_plan_sheet", (call *)write_plan, OLIVASTRUM_STACK_WRITE_PLAN_SHEET, 0},
    {"olivastrum_plan_set", (call *)plan, OLIVASTRUM_STACK_PLAN_SET, 0},
    {"olivastrum_open_ring", (call *)open_it, OLIVASTRUM_STACK_OPEN_RING, 0},
    {"olivastrum_visit", (call *)visit, OLIVASTRUM_STACK_VISIT, 0},
    {"olivastrum_hand_in", (call *)hand_in, OLIVASTRUM_STACK_HAND_IN, 0},
    {"olivastrum_mark", (call *)mark, OLIVASTRUM_STACK_MARK, 0},
    {"olivastrum_unmark", (call *)unmark, OLIVASTRUM_STACK_UNMARK, 0},
    {"olivastrum_begin_log", (call *)begin_log, OLIVASTRUM_STACK_BEGIN_LOG, 0},
    {"olivastrum_add_visit", (call *)add_visit, OLIVASTRUM_STACK_ADD_VISIT, 0},
    {"olivastrum_add_mark", (call *)add_mark, OLIVASTRUM_STACK_ADD_MARK, 0},
    {"olivastrum_end_log", (call *)end_log, OLIVASTRUM_STACK_END_LOG, 0},
    {"olivastrum_read_log", (call *)read_log, OLIVASTRUM_STACK_READ_LOG, 0},
    {"olivastrum_log_entry", (call *)log_entry, OLIVASTRUM_STACK_LOG_ENTRY, 0},
    {"olivastrum_inspect_log", (call *)inspect_log, OLIVASTRUM_STACK_INSPECT_LOG, 0},
    {"olivastrum_inspect_log_of", (call *)inspect_log_of, OLIVASTRUM_STACK_INSPECT_LOG_OF, 0},
    {"olivastrum_begin_inspection", (call *)begin_inspection, OLIVASTRUM_STACK_BEGIN_INSPECTION, 0},
    {"olivastrum_inspect_record", (call *)inspect_record, OLIVASTRUM_STACK_INSPECT_RECORD, 0},
    {"olivastrum_empty_store", (call *)empty_store, OLIVASTRUM_STACK_EMPTY_STORE, 0},
    {"olivastrum_store_plan", (call *)store_plan, OLIVASTRUM_STACK_STORE_PLAN, 0},
    {"olivastrum_find_version", (call *)find_version, OLIVASTRUM_STACK_FIND_VERSION, 0},
    {"olivastrum_versions_in", (call *)versions_in, OLIVASTRUM_STACK_VERSIONS_IN, 0},
    {"olivastrum_hopper_request", (call *)hopper_request, OLIVASTRUM_STACK_HOPPER_REQUEST, 0},
    {"olivastrum_write_hopper_sheet", (call *)write_hopper_sheet, OLIVASTRUM_STACK_WRITE_HOPPER_SHEET, 0},
    {"olivastrum_couple_train", (call *)couple_train, OLIVASTRUM_STACK_COUPLE_TRAIN, 0},
    {"olivastrum_change_train", (call *)change_train, OLIVASTRUM_STACK_CHANGE_TRAIN, 0},
    {"olivastrum_change_wagon", (call *)change_wagon, OLIVASTRUM_STACK_CHANGE_WAGON, 0},
    {"olivastrum_couple_wagon", (call *)couple_wagon, OLIVASTRUM_STACK_COUPLE_WAGON, 0},
    {"olivastrum_uncouple_wagon", (call *)uncouple_wagon, OLIVASTRUM_STACK_UNCOUPLE_WAGON, 0},
};

#define FUNCTIONS (sizeof functions / sizeof *functions)

/* ---- a call on the painted stack */
static size_t needed(call *made, uint8_t paint)
{
    memset(stack, paint, sizeof stack);
    void *where = answer;
    __asm__ volatile("movq %%rsp, %%rbx\n\t"
                     "movq %[top], %%rsp\n\t"
                     "callq *%[made]\n\t"
                     "movq %%rbx, %%rsp"
                     : "+D"(where)
                     : [top] "r"(stack + sizeof stack), [made] "r"(made)
                     : "rax", "rbx", "rcx", "rdx", "rsi", "r8", "r9", "r10", "r11", "xmm0", "xmm1", "xmm2", "xmm3", "xmm4", "xmm5", "xmm6",
                       "xmm7", "xmm8", "xmm9", "xmm10", "xmm11", "xmm12", "xmm13", "xmm14", "xmm15", "cc", "memory");
    size_t untouched = 0;
    while (untouched < sizeof stack && stack[untouched] == paint)
        untouched++;
    return sizeof stack - untouched;
}

/* Two paints, since a call may store a byte that is the paint. */
static void measure(struct function *f)
{
    struct olivastrum_ring before = ring;
    struct olivastrum_inspection kept_before = kept;
    for (int k = 0; k < 2; k++) {
        size_t need = needed(f->made, k == 0 ? 0xa5 : 0x5a);
        if (need > f->measured)
            f->measured = need;
        ring = before;
        kept = kept_before;
    }
}

static void measure_all(void)
{
    for (size_t k = 0; k < FUNCTIONS; k++)
        measure(&functions[k]);
}

/* ---- what the calls are made with */
static struct olivastrum_set stations(uint32_t mode, uint32_t frame, uint32_t n)
{
    struct olivastrum_set made = {.head = {100000, mode, frame, 1}, .n = n};
    for (uint32_t i = 0; i < n && i < 128; i++) {
        made.w[i] = 1;
        made.c[i] = 300;
        made.d[i] = made.p[i] = 200000;
    }
    return made;
}

/* A log of a mark and a visit, a plan sheet or a request sheet; all writers and all readers get each of them. */
static void with_sheets(void)
{
    plan_length = olivastrum_write_plan_sheet(set, alloc, plan_sheet, sizeof plan_sheet).length;
    recorder = olivastrum_begin_log(set, alloc, 4294967295u, 7, sheet, sizeof sheet);
    recorder = olivastrum_add_mark(recorder, mark_entry, sheet, sizeof sheet);
    recorder = olivastrum_add_visit(recorder, record, sheet, sizeof sheet);
    length = olivastrum_end_log(recorder, sheet, sizeof sheet).length;
    recorder.at -= recorder.at < OLIVASTRUM_VISIT_BYTES ? 0 : OLIVASTRUM_VISIT_BYTES;
    kept = olivastrum_begin_inspection(set, alloc).inspection;
    entry = olivastrum_log_entry(sheet, length, recorder.at);
    measure_all();
    recorder.at -= recorder.at < OLIVASTRUM_MARK_BYTES ? 0 : OLIVASTRUM_MARK_BYTES; /* the entry is the mark */
    entry = olivastrum_log_entry(sheet, length, recorder.at);
    measure_all();
    length = olivastrum_write_plan_sheet(set, alloc, sheet, sizeof sheet).length;
    measure_all();
    length = olivastrum_write_request_sheet(set, sheet, sizeof sheet).length;
    measure_all();
    length -= 1;
    measure_all();
    length = 0;
    measure_all();
    length = sizeof sheet;
    measure_all();
}

/* S that keep FDDI's rules, and the ring that an opening with them used to give. */
static void was_open(void)
{
    uint32_t walk = 0;
    memset(&ring, 0, sizeof ring);
    for (uint32_t i = set.n; i-- > 0;) {
        walk += set.w[i];
        alloc.s[i] = 300;
        ring.trt[i] = walk;
        ring.unused += alloc.s[i];
    }
    ring.set = set;
    ring.alloc = alloc;
}

static void with_stations(uint32_t mode, uint32_t frame, uint32_t n)
{
    set = stations(mode, frame, n);
    ask = (struct olivastrum_ask){100000, frame}; /* frames run past the limit, which an inspection looks into */
    alloc = olivastrum_plan_set(set).alloc;
    ring = olivastrum_open_ring(set, alloc).ring;
    if (mode == OLIVASTRUM_FDDI) was_open(); /* neither planned nor opened any more */
    message = (struct olivastrum_message){{0}, {300}, {0}};
    station.number = 0;
    mark_entry = (struct olivastrum_mark_entry){0, 0};
    struct olivastrum_ring moved = ring;
    record = olivastrum_visit(&moved, ask).record;
    with_sheets();
    olivastrum_hand_in(&ring, message);
    with_sheets();
    olivastrum_mark(&ring, station);
    mark_entry.mark = 1;
    with_sheets();
    message.station.number = 200;
    station.number = 200;
    ask.length = frame + 1;
    with_sheets();
    set.c[0] = 100000000; /* no plan */
    alloc.s[0] = 99;      /* a rule broken */
    ring.clock = 1000000000001;
    with_sheets();
    ring.token = 200;
    set.n = 200;
    with_sheets();
}

/* So many wagons, all alike; a train of the same wagons, and one of them for its first place. */
static void with_wagons(uint32_t n, uint32_t boxes)
{
    list.n = n;
    for (uint32_t i = 0; i < OLIVASTRUM_MOST_WAGONS; i++) {
        list.boxes[i] = boxes;
        list.brake[i] = list.door[i] = 1;
    }
    train.list = list;
    wagon = (struct olivastrum_wagon){boxes, 1, 1};
    length = sizeof sheet;
    for (station.number = 0; station.number <= 12; station.number += 12)
        measure_all();
}

int main(void)
{
    int wrong = 0;
    size_t most = 0;
    olivastrum_empty_store(area, sizeof area);
    for (uint32_t mode = OLIVASTRUM_TIMELY; mode <= OLIVASTRUM_EARLIER; mode++)
        for (uint32_t frame = 1; frame <= 40; frame += 39) {
            with_stations(mode, frame, 1);
            with_stations(mode, frame, 128);
        }
    for (uint32_t n = 0; n <= 13; n++) {
        with_wagons(n, 7);
        with_wagons(n, 8);
        with_wagons(n, 9);
    }
    for (size_t k = 0; k < FUNCTIONS; k++) {
        struct function *f = &functions[k];
        int holds = f->measured <= f->said && f->said <= f->measured + SLACK;
        printf("%s: %zu bytes of stack, the header says %zu%s\n", f->name, f->measured, f->said, holds ? "" : ": WRONG");
        wrong += !holds;
        most = f->said > most ? f->said : most;
    }
    if (most != OLIVASTRUM_STACK_MOST) {
        printf("OLIVASTRUM_STACK_MOST is not the most: WRONG\n");
        wrong++;
    }
    return wrong != 0;
}
