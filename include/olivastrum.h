/*
 * Olivastrum for a host in C11 or C++17: sheets, planning, and a ring that stands in the host's memory.
 *
 *     sheet bytes --olivastrum_read_request_sheet--> set --olivastrum_plan_set--> allocation
 *     set and allocation --olivastrum_write_plan_sheet--> sheet bytes
 *     set and allocation --olivastrum_open_ring--> ring --olivastrum_visit, olivastrum_hand_in, olivastrum_mark, olivastrum_unmark--> the same ring, moved on
 *     set and allocation --olivastrum_begin_log, olivastrum_add_visit, olivastrum_add_mark, olivastrum_end_log--> log bytes
 *     log bytes --olivastrum_read_log, olivastrum_log_entry--> set, allocation, visits and marks
 *     log bytes --olivastrum_inspect_log--> the first record that no run could have given, if there is one
 *     plan sheet bytes and log bytes --olivastrum_inspect_log_of--> the same of a run of that plan, if the log's plan is that one
 *     set and allocation --olivastrum_begin_inspection--> inspection --olivastrum_inspect_record--> the same inspection, one record on: what it says of the record as it comes
 *     wagon list --olivastrum_couple_train--> train, list and allocation --olivastrum_change_wagon, olivastrum_couple_wagon, olivastrum_uncouple_wagon, olivastrum_change_train--> the train, changed
 *     sheet bytes --olivastrum_store_plan--> a numbered version in an area of the host --olivastrum_find_version--> the same bytes
 *
 * Who owns what. The host owns all memory. A function looks at what it is handed while the call runs, keeps no
 * pointer, takes nothing from the heap, prints nothing and has no state of its own. So every function is reentrant:
 * calls that touch different memory may run at the same time, in threads and in signal handlers.
 *
 * What the host owes. A pointer is never null, not even beside a length of 0. It points at as many bytes as its
 * length says, or at a whole ring or a whole inspection, aligned for uint64_t. While a call runs nothing else reads or writes what is
 * lent to be written (a ring, an inspection, an `out` buffer, an area), and what is lent to be written overlaps nothing else that the call
 * is lent: a sheet that is stored does not stand in the area. Nothing more: every bit pattern of a set, an allocation, a
 * message, an ask, a ring, a station, a recorder, a visit's record, a mark's entry, a next entry, an inspection, a wagon, a
 * wagon list and a train is a value, and gets its answer.
 *
 * Refusals. `number` is 0 for accepted, or the refusal; the numbers are below, and within one call the lowest
 * that applies is given (1, 2 and 3: the first fault from the left of the sheet), but that 15 is given before 12, though
 * it is higher: handing in asks 8, 9, 10, 11, 15, 12; that 16 is given before 6 and 7: planning asks 2, 4, 5, 16, 6, and
 * opening 2, 4, 5, 16, 7; that an area which is no store is 2 before its sheet is looked at, so before the sheet's 1; that
 * a plan sheet is refused before the log that is held to it; that a record asks 8, 2, 4; and that of a train that no call made a place is 9 before the
 * planner's 6. A refused call changes nothing: not a byte of a lent ring or inspection, not a byte of a lent buffer. What it returns
 * beside `number` is blank, every number in it 0, but that olivastrum_inspect_log_of says in `refused` which side it is;
 * olivastrum_add_visit and olivastrum_add_mark hand back the recorder as it was, so that the log can be ended;
 * olivastrum_change_train, olivastrum_change_wagon, olivastrum_couple_wagon and olivastrum_uncouple_wagon hand back the
 * train as it was. On a ring and on an inspection a refused call only reads. An inspected log is accepted only if its rule is 0 too, and of
 * olivastrum_inspect_log_of only if `another` is 0 as well.
 *
 * Padding. olivastrum_set, olivastrum_alloc, olivastrum_ask, olivastrum_message, olivastrum_ring, olivastrum_recorder,
 * olivastrum_visit_entry, olivastrum_mark_entry, olivastrum_next_entry, olivastrum_wagon, olivastrum_wagon_list and
 * olivastrum_train have none, so two rings can be compared by their bytes. In the others the bytes between and after what is named say nothing.
 *
 * A recorder, with a ring that was just opened and buffers of its own:
 *
 *     struct olivastrum_recorder r = olivastrum_begin_log(set, alloc, counter_now, ring.clock, out, sizeof out);
 *     if (r.number) return r.number;                        (the log was not begun: r is not to be used)
 *     ... for each visit that olivastrum_visit accepted:
 *         r = olivastrum_add_visit(r, answer.record, out, sizeof out);
 *         if (r.number) break;                              (14: no room; r stands where it stood)
 *     ... and for each marking (1) or unmarking (0) that was accepted, before the next visit, one that changed nothing too:
 *         if (!olivastrum_mark(&ring, station).number) {
 *             struct olivastrum_mark_entry mark = {(uint32_t)station.number, 1};
 *             r = olivastrum_add_mark(r, mark, out, sizeof out);
 *             if (r.number) break;
 *         }
 *     struct olivastrum_written log = olivastrum_end_log(r, out, sizeof out);
 *
 * Then the first log.length bytes of out are the log. A recorder that keeps the bytes elsewhere as they come may set
 * r.at to 0 once it has taken the first r.at bytes of out away: what follows is written from the start of out again, and
 * 23 bytes are room enough for a visit or a mark and the end.
 *
 * Stack. OLIVASTRUM_STACK_.. before each function says how many bytes of the caller's stack a call needs: what is
 * passed by value, and all that the function does. It is measured (tests/host/vendor). The room for the answer is not
 * in it: that is where the caller wants it. A thread needs this, what it needs itself, and, where the C library is bound
 * lazily, what the loader needs at the first call of a function.
 *
 * Linking. `./archive DIR` proves the library and writes DIR/lib/libolivastrum.a, DIR/include/olivastrum.h and
 * DIR/lib/pkgconfig/olivastrum.pc. The archive is for x86-64. Every name that it gives begins with olivastrum_; it uses
 * memcpy, memmove and memset of the C library, and nothing else.
 */
#ifndef OLIVASTRUM_H
#define OLIVASTRUM_H

#if !defined(__x86_64__) || !defined(__LP64__) || !defined(__ELF__)
#error "libolivastrum.a is for x86-64, with 64-bit pointers and ELF"
#endif

#include <stddef.h>
#include <stdint.h>

/* The version of the header and the library, as `./olivastrum version` prints it. */
#define OLIVASTRUM_VERSION_MAJOR 0
#define OLIVASTRUM_VERSION_MINOR 16
#define OLIVASTRUM_VERSION_PATCH 5
#define OLIVASTRUM_VERSION "0.16.5"

#ifdef __cplusplus
extern "C" {
#endif

/* What each number means. */
enum {
    OLIVASTRUM_ACCEPTED = 0,
    OLIVASTRUM_SHEET_ENDS = 1,        /* the sheet ends inside a field, or before the end field */
    OLIVASTRUM_SHEET_WRONG = 2,       /* wrong tag, wrong length, wrong count of stations or allocations; or the area is no store */
    OLIVASTRUM_SHEET_GOES_ON = 3,     /* a byte follows the end field */
    OLIVASTRUM_OUT_OF_RANGE = 4,      /* w, C, D, P, TTRT, F, g or S outside its range, or a mode that is not 1, 2 or 3;
                                         on a sheet or in a text a mode that is named and is not 2 or 3, or
                                         an F or a g that is named and is 1 */
    OLIVASTRUM_WALK_TIME = 5,         /* the sum of all w is 0 or above TTRT */
    OLIVASTRUM_NO_ALLOCATION = 6,     /* planning: no allocation of multiples of g exists */
    OLIVASTRUM_RULE_BROKEN = 7,       /* the given allocation breaks the token or the deadline rule, or is off the grid */
    OLIVASTRUM_UNSOUND = 8,           /* the ring's state is unsound; of an inspection: N is not 1 to 128, so none was begun there */
    OLIVASTRUM_NO_SUCH_STATION = 9,   /* station number not below N */
    OLIVASTRUM_BAD_LENGTH = 10,       /* message length 0 or above C; visit: frame length 0 or above F */
    OLIVASTRUM_STILL_HELD = 11,       /* that station still holds an unsent message, or is marked */
    OLIVASTRUM_BAD_ARRIVAL = 12,      /* arrival above 1,000,000,000,000, not later than the station's `last`, or less than P after its last accepted one */
    OLIVASTRUM_CLOCK_TOO_HIGH = 13,   /* visit: the clock is above 1,000,000,000,000 */
    OLIVASTRUM_BUFFER_TOO_SHORT = 14, /* the output buffer is too short for the sheet, or for a log's next record and its end */
    OLIVASTRUM_NOT_ARRIVED = 15,      /* the message's arrival is later than the ring's clock; given before 12 */
    OLIVASTRUM_RETIRED = 16,          /* planning or opening: mode 2, FDDI, is retired; given before 6 and 7 */
    OLIVASTRUM_NO_VERSION = 17,       /* no such version: it was dropped, or never given */
    OLIVASTRUM_VERSIONS_USED = 18     /* storing: the version numbers are used up */
};

/* The most stations that a ring has, and so the places of each array. Places from N on are never looked at. */
#define OLIVASTRUM_MOST_STATIONS 128

/* The modes of a ring: timely-token, FDDI, and the 2002 edition of timely-token, which sends asynchronous traffic first.
 * FDDI is retired: olivastrum_plan_set and olivastrum_open_ring answer 16 to a set of mode 2, and no other function does.
 * Its sheets, plans, logs and stored versions are read, written, stored and inspected as before, a log also against its
 * plan sheet, and an FDDI ring that is open runs on: 16 makes no ring unsound and no log wrong. */
#define OLIVASTRUM_TIMELY 1u
#define OLIVASTRUM_FDDI 2u
#define OLIVASTRUM_EARLIER 3u

/* The bytes of a request sheet and of a plan sheet of n stations; and what a mode other than timely-token, a longest frame
 * F other than 1 and a grid g other than 1 take beside. */
#define OLIVASTRUM_REQUEST_BYTES(n) (10u + 19u * (n))
#define OLIVASTRUM_PLAN_BYTES(n) (10u + 26u * (n))
#define OLIVASTRUM_MODE_BYTES 4u
#define OLIVASTRUM_FRAME_BYTES 7u
#define OLIVASTRUM_GRID_BYTES 7u

/* A log: the fields of its plan sheet but the end; then its records; then the end. A record is a visit: tag 16, length 17,
 * the station in one byte, and start, limit, synchronous and asynchronous in four bytes each, the high byte first; or a
 * mark: tag 17, length 2, the station and the mark in one byte each. A mark may stand before the first visit, between two
 * and behind the last. So a log has the bytes of its plan sheet (with those of its mode, frame and grid, where it has
 * these), and so many for each visit and for each mark. */
#define OLIVASTRUM_VISIT_BYTES 20u
#define OLIVASTRUM_MARK_BYTES 5u

/* What kind a record is: its tag. */
#define OLIVASTRUM_VISIT_TAG 16u
#define OLIVASTRUM_MARK_TAG 17u

/* An area for plan versions has exactly so many bytes, aligned in any way, and keeps at most so many versions. For each
 * kept one, oldest first: tag 32, a length of two bytes, the version's number in four bytes, the high byte first, and the
 * plan sheet as it was handed in; then the end field of a sheet; then zeros to the area's end. Where an area is kept, in a
 * file or in a memory that lasts, is the host's; olivastrum_empty_store makes it a store at first. */
#define OLIVASTRUM_STORE_BYTES 65536u
#define OLIVASTRUM_MOST_VERSIONS 16u

/* A count of ticks, and a station's number from 0 in ring order. The one is never the other. */
struct olivastrum_ticks {
    uint64_t ticks;
};

struct olivastrum_station {
    uint64_t number;
};

/* What a sheet says before its stations. A set that is made by hand names its mode, 1 is timely-token; its longest frame
 * F, 1 to 65,535: with 1 asynchronous traffic may be cut at any tick; and its grid g, 1 to 1,000: every S is a multiple of
 * it. */
struct olivastrum_head {
    uint32_t ttrt;
    uint32_t mode;
    uint32_t frame;
    uint32_t grid;
};

/* N stations in ring order: walk time w to the next, longest message C (0: no stream), deadline D, least gap P. */
struct olivastrum_set {
    struct olivastrum_head head;
    uint32_t n;
    uint32_t w[OLIVASTRUM_MOST_STATIONS];
    uint32_t c[OLIVASTRUM_MOST_STATIONS];
    uint32_t d[OLIVASTRUM_MOST_STATIONS];
    uint32_t p[OLIVASTRUM_MOST_STATIONS];
};

/* The synchronous time S of each station, a multiple of g. */
struct olivastrum_alloc {
    uint32_t s[OLIVASTRUM_MOST_STATIONS];
};

/* A ring's whole state. */
struct olivastrum_ring {
    struct olivastrum_set set;
    struct olivastrum_alloc alloc;
    uint32_t trt[OLIVASTRUM_MOST_STATIONS];     /* time since the station's last token arrival, in the 2002 edition since
                                                   its last synchronous part began; in FDDI its timer */
    uint32_t late[OLIVASTRUM_MOST_STATIONS];    /* FDDI's late count; a timely-token ring leaves it alone */
    uint32_t sent[OLIVASTRUM_MOST_STATIONS];    /* synchronous ticks sent at its last visit */
    uint32_t rest[OLIVASTRUM_MOST_STATIONS];    /* what remains of the held message; 0: none is held */
    uint32_t token;                             /* the station that has the token */
    uint64_t arrival[OLIVASTRUM_MOST_STATIONS]; /* the held message's arrival, and after it the last accepted one */
    uint8_t had[OLIVASTRUM_MOST_STATIONS];      /* a message was ever accepted: 0 is no, anything else yes */
    uint8_t mark[OLIVASTRUM_MOST_STATIONS];     /* the station is switched through: 0 is no, anything else yes */
    uint64_t last[OLIVASTRUM_MOST_STATIONS];    /* the start of the last visit, where the station is below visits; in the
                                                   2002 edition of that visit's synchronous part */
    uint64_t clock;
    uint64_t visits;
    uint64_t unused;                            /* u, the sum of S - s; FDDI leaves it as opening set it */
};

/* What a visit is asked for: a number of frames, any, of one length, 1 to F. A frame starts while the time used is below
 * the limit, and is finished. */
struct olivastrum_ask {
    uint32_t frames;
    uint32_t length;
};

/* A message to hand in. */
struct olivastrum_message {
    struct olivastrum_station station;
    struct olivastrum_ticks length;
    struct olivastrum_ticks arrival;
};

/* What happened at a visit. finish and margin (deadline less finish, negative when late) are 0 unless completed is 1.
 * The synchronous part begins at start, in the 2002 edition at start + asynchronous; finish is that moment + synchronous.
 * In FDDI trt is the timer as the token finds it, and a limit of 0 says that the token was late, where the station is not
 * marked; a plan of mode 2 does not promise a margin of 0 or more. */
struct olivastrum_visit_record {
    struct olivastrum_station station;
    struct olivastrum_ticks start;
    struct olivastrum_ticks trt;
    struct olivastrum_ticks limit; /* asynchronous frames may start below it */
    struct olivastrum_ticks synchronous;
    struct olivastrum_ticks asynchronous; /* the last frame may run on past the limit, by up to F - 1 */
    struct olivastrum_ticks finish;
    int64_t margin;
    uint8_t completed;
};

/* A log that is being written: how many of its bytes are, and the recorder's counter of 32 bits, which runs past its top
 * to 0, as it was at some clock of the ring. The number is that of the last call, and is not looked at. */
struct olivastrum_recorder {
    uint64_t at;
    uint64_t clock;
    uint32_t counter;
    uint32_t number;
};

/* A visit as a log has it; any numbers, the station's has 8 bits. */
struct olivastrum_visit_entry {
    uint32_t station;
    uint32_t start;
    uint32_t limit;
    uint32_t synchronous;
    uint32_t asynchronous;
};

/* A mark as a log has it: 1, the station is switched through from here on, or 0, it is in again; any numbers of 8 bits
 * may stand there. */
struct olivastrum_mark_entry {
    uint32_t station;
    uint32_t mark;
};

/* The most wagons of a hopper train, and so the places of each array of a list. Places from n on are never looked at. */
#define OLIVASTRUM_MOST_WAGONS 12

/* A wagon: how many axle boxes it has, 0 to 8, and whether a brake unit and a door unit are fitted, 1 or 0. */
struct olivastrum_wagon {
    uint32_t boxes;
    uint32_t brake;
    uint32_t door;
};

/* The wagons of a hopper train from its head on, 1 to 12. Each is a station with w 1, C = 4 boxes + 6 brake + 2 door, and D
 * and P 500; TTRT is 250. */
struct olivastrum_wagon_list {
    uint32_t n;
    uint32_t boxes[OLIVASTRUM_MOST_WAGONS];
    uint32_t brake[OLIVASTRUM_MOST_WAGONS];
    uint32_t door[OLIVASTRUM_MOST_WAGONS];
};

/* A hopper train: its wagons, and the allocation that is in force. */
struct olivastrum_train {
    struct olivastrum_wagon_list list;
    struct olivastrum_alloc plan;
};

/* ---- answers */
struct olivastrum_read_request {
    struct olivastrum_set set;
    uint8_t number;
};

struct olivastrum_read_plan {
    struct olivastrum_set set;
    struct olivastrum_alloc alloc;
    uint8_t number;
};

struct olivastrum_written {
    size_t length;
    uint8_t number;
};

/* The place of the first field behind the allocations, and how many records, visits and marks, stand from there on. */
struct olivastrum_read_log {
    struct olivastrum_set set;
    struct olivastrum_alloc alloc;
    uint64_t first;
    uint64_t records;
    uint8_t number;
};

/* What stands at a place of a log: its kind is its tag, 16 a visit and 17 a mark; kind and the place behind are 0 where no
 * record stands. The numbers of a visit are 0 where it is none, and those of a mark where it is none. */
struct olivastrum_next_entry {
    uint32_t kind;
    struct olivastrum_visit_entry visit;
    struct olivastrum_mark_entry mark;
    uint64_t next;
};

/* How many records a log has, visits and marks, the first of them that breaks a rule, from 1, and the first rule that it
 * breaks: 1 station, 2 start, 3 limit, 4 synchronous, 5 asynchronous. A mark breaks the station rule where its station is
 * not below N or it is neither 0 nor 1, and has no other rule. A log is accepted where number, record and rule are all 0;
 * where number is not 0 it was not read, and all else is 0 too. */
struct olivastrum_finding {
    uint64_t records;
    uint64_t record;
    uint8_t rule;
    uint8_t number;
};

/* A log against a plan sheet. Where refused is 1 the plan sheet was not read, where it is 2 the log was not, and number says
 * why; where another is 1 both were read, and the log's plan is another one. Where one of these is not 0 all else but number
 * is 0, and nothing was inspected. Else it is the log's finding, with how many of its records are visits. The log is
 * accepted, for the plan of the sheet, where refused, another and rule are all 0; without a visit that shows nothing. */
struct olivastrum_plan_finding {
    uint64_t records;
    uint64_t visits;
    uint64_t record;
    uint8_t rule;
    uint8_t refused;
    uint8_t number;
    uint8_t another;
};

/* How far an inspection has come. The host keeps it and need not look into it. */
struct olivastrum_progress {
    uint64_t records; /* so many records keep every rule */
    uint32_t token;
    uint32_t clock;
    uint32_t unused;
    uint32_t start;
    uint32_t span;
    uint8_t visited; /* 0: no visit has passed yet, and the first one may start at any moment */
    uint8_t rule;    /* the rule that the record behind these breaks; 0: none so far */
};

/* An inspection that the host keeps: of the plan what a record is held to, and what the records so far leave of each station. */
struct olivastrum_inspection {
    struct olivastrum_head head;
    uint32_t n;
    uint32_t w[OLIVASTRUM_MOST_STATIONS];
    uint32_t s[OLIVASTRUM_MOST_STATIONS];
    uint32_t base[OLIVASTRUM_MOST_STATIONS];
    uint32_t sent[OLIVASTRUM_MOST_STATIONS];
    uint8_t mark[OLIVASTRUM_MOST_STATIONS];
    struct olivastrum_progress progress;
};

struct olivastrum_begun_inspection {
    struct olivastrum_inspection inspection;
    uint8_t number;
};

/* What a record is answered: its number among the records, from 1, the rule that it breaks, 0 for none, and by that rule what
 * it must say and what it says: the station; the ticks since the start of the visit before; the limit; S and the synchronous
 * amount; the limit and the asynchronous amount; of a mark N, below which its station must be, and its station. Both are 0
 * where no rule is broken. Behind a broken rule nothing is looked at: record and rule stay, and both are 0 too. */
struct olivastrum_record_finding {
    uint64_t record;
    uint32_t expected;
    uint32_t found;
    uint8_t rule;
    uint8_t number;
};

struct olivastrum_planned {
    struct olivastrum_alloc alloc;
    uint8_t number;
};

struct olivastrum_opened {
    struct olivastrum_ring ring;
    uint8_t number;
};

struct olivastrum_visit_answer {
    struct olivastrum_visit_record record;
    uint8_t number;
};

/* What a marking took back: what remained of the message that the station held, and its arrival; both 0 unless withdrawn
 * is 1. */
struct olivastrum_mark_answer {
    struct olivastrum_ticks rest;
    struct olivastrum_ticks arrival;
    uint8_t withdrawn;
    uint8_t number;
};

/* The number that a stored plan got, from 1 on; 0 where it was refused. */
struct olivastrum_stored_plan {
    uint32_t version;
    uint8_t number;
};

/* Where a version's plan sheet stands: the place of its first byte in the area, and how many bytes it has; both 0 where it
 * was refused. */
struct olivastrum_found_version {
    size_t place;
    size_t length;
    uint8_t number;
};

/* The oldest and the newest kept version, and all between are kept; both 0 where there is none. */
struct olivastrum_versions {
    uint32_t oldest;
    uint32_t newest;
    uint8_t number;
};

/* What became of a train: 0 with the train as it then is; or a refusal with the train as it was, which for coupling is the
 * blank one. */
struct olivastrum_coupled {
    struct olivastrum_train train;
    uint8_t number;
};

/* ---- the library was compiled with these sizes */
#ifdef __cplusplus
#define OLIVASTRUM_SIZE(type, bytes) static_assert(sizeof(type) == (bytes), "the size of " #type)
#else
#define OLIVASTRUM_SIZE(type, bytes) _Static_assert(sizeof(type) == (bytes), "the size of " #type)
#endif

OLIVASTRUM_SIZE(void *, 8);
OLIVASTRUM_SIZE(size_t, 8);
OLIVASTRUM_SIZE(struct olivastrum_ticks, 8);
OLIVASTRUM_SIZE(struct olivastrum_station, 8);
OLIVASTRUM_SIZE(struct olivastrum_head, 16);
OLIVASTRUM_SIZE(struct olivastrum_set, 2068);
OLIVASTRUM_SIZE(struct olivastrum_alloc, 512);
OLIVASTRUM_SIZE(struct olivastrum_ring, 6960);
OLIVASTRUM_SIZE(struct olivastrum_ask, 8);
OLIVASTRUM_SIZE(struct olivastrum_message, 24);
OLIVASTRUM_SIZE(struct olivastrum_visit_record, 72);
OLIVASTRUM_SIZE(struct olivastrum_read_request, 2072);
OLIVASTRUM_SIZE(struct olivastrum_read_plan, 2584);
OLIVASTRUM_SIZE(struct olivastrum_written, 16);
OLIVASTRUM_SIZE(struct olivastrum_planned, 516);
OLIVASTRUM_SIZE(struct olivastrum_opened, 6968);
OLIVASTRUM_SIZE(struct olivastrum_visit_answer, 80);
OLIVASTRUM_SIZE(struct olivastrum_mark_answer, 24);
OLIVASTRUM_SIZE(struct olivastrum_recorder, 24);
OLIVASTRUM_SIZE(struct olivastrum_visit_entry, 20);
OLIVASTRUM_SIZE(struct olivastrum_mark_entry, 8);
OLIVASTRUM_SIZE(struct olivastrum_read_log, 2608);
OLIVASTRUM_SIZE(struct olivastrum_next_entry, 40);
OLIVASTRUM_SIZE(struct olivastrum_finding, 24);
OLIVASTRUM_SIZE(struct olivastrum_plan_finding, 32);
OLIVASTRUM_SIZE(struct olivastrum_progress, 32);
OLIVASTRUM_SIZE(struct olivastrum_inspection, 2232);
OLIVASTRUM_SIZE(struct olivastrum_begun_inspection, 2240);
OLIVASTRUM_SIZE(struct olivastrum_record_finding, 24);
OLIVASTRUM_SIZE(struct olivastrum_stored_plan, 8);
OLIVASTRUM_SIZE(struct olivastrum_found_version, 24);
OLIVASTRUM_SIZE(struct olivastrum_versions, 12);
OLIVASTRUM_SIZE(struct olivastrum_wagon, 12);
OLIVASTRUM_SIZE(struct olivastrum_wagon_list, 148);
OLIVASTRUM_SIZE(struct olivastrum_train, 660);
OLIVASTRUM_SIZE(struct olivastrum_coupled, 664);

#undef OLIVASTRUM_SIZE

/* ---- the functions */

/* Reads a request sheet: the set, or 1 to 5 with the blank set. */
#define OLIVASTRUM_STACK_READ_REQUEST_SHEET 5632
struct olivastrum_read_request olivastrum_read_request_sheet(const uint8_t *sheet, size_t length);

/* Reads a plan sheet: the set and its allocation, or 1 to 5 or 7 with both blank. */
#define OLIVASTRUM_STACK_READ_PLAN_SHEET 5632
struct olivastrum_read_plan olivastrum_read_plan_sheet(const uint8_t *sheet, size_t length);

/* Writes a request sheet into the first bytes of out and leaves the rest: the sheet's length, or 2, 4, 5 or 14. */
#define OLIVASTRUM_STACK_WRITE_REQUEST_SHEET 3072
struct olivastrum_written olivastrum_write_request_sheet(struct olivastrum_set set, uint8_t *out, size_t length);

/* Writes a plan sheet into the first bytes of out and leaves the rest: the sheet's length, or 2, 4, 5, 7 or 14. */
#define OLIVASTRUM_STACK_WRITE_PLAN_SHEET 3072
struct olivastrum_written olivastrum_write_plan_sheet(struct olivastrum_set set, struct olivastrum_alloc alloc, uint8_t *out, size_t length);

/* Plans a set: the least vector of multiples of g, no other that meets the rules has less at any station; or 2, 4, 5, 16
 * or 6. 16 is given to every set of mode 2 that 2, 4 and 5 do not apply to; of the others 6 exactly if no such allocation
 * exists. */
#define OLIVASTRUM_STACK_PLAN_SET 6656
struct olivastrum_planned olivastrum_plan_set(struct olivastrum_set set);

/* Opens a ring: clock 0, the token at station 0, nothing held, no station marked; or 2, 4, 5, 16 or 7 with the blank ring.
 * 16 is given to every set of mode 2 that 2, 4 and 5 do not apply to, whether its allocation keeps the rules or not. */
#define OLIVASTRUM_STACK_OPEN_RING 10240
struct olivastrum_opened olivastrum_open_ring(struct olivastrum_set set, struct olivastrum_alloc alloc);

/* A visit at the station that has the token, with frames asked for. The ring is changed where it stands; 8, 10 or 13
 * leave it as it was. */
#define OLIVASTRUM_STACK_VISIT 512
struct olivastrum_visit_answer olivastrum_visit(struct olivastrum_ring *ring, struct olivastrum_ask ask);

/* Hands in a message whose arrival the ring's clock has reached; before that it is 15. A station that is marked takes none
 * (11). The ring is changed where it stands; 8 to 12 and 15 leave it as it was. Returns the number. */
#define OLIVASTRUM_STACK_HAND_IN 512
uint8_t olivastrum_hand_in(struct olivastrum_ring *ring, struct olivastrum_message message);

/* Switches a station through: from now on it is offered 0, sends nothing and takes no message (11), and the token walks
 * through it. The message that it holds is withdrawn and handed back; its arrival stays the station's last accepted one.
 * A station that is marked already stays as it is. The ring is changed where it stands; 8 or 9 leave it as it was. */
#define OLIVASTRUM_STACK_MARK 512
struct olivastrum_mark_answer olivastrum_mark(struct olivastrum_ring *ring, struct olivastrum_station station);

/* Switches a station in again; one that is not marked stays as it is. The ring is changed where it stands; 8 or 9 leave it
 * as it was. Returns the number. */
#define OLIVASTRUM_STACK_UNMARK 512
uint8_t olivastrum_unmark(struct olivastrum_ring *ring, struct olivastrum_station station);

/* Begins a log: the plan's fields, without their end, in the first bytes of out. The recorder's counter is what the host
 * says it is at the ring's clock (0 and 0 give the log that the program's `log` writes). The rest of out is left as it
 * was. 2, 4, 5, 7 or 14 write nothing; the recorder then has only its number, and is not to be used: what is added to it
 * would be written from place 0 on, and would be no log. */
#define OLIVASTRUM_STACK_BEGIN_LOG 3072
struct olivastrum_recorder olivastrum_begin_log(struct olivastrum_set set, struct olivastrum_alloc alloc, uint32_t counter, uint64_t clock, uint8_t *out, size_t length);

/* Adds the record of an accepted visit: the counter moves on by what the clock rose. 14 where its field and the end do
 * not fit: nothing is written, and the log can still be ended. Of a record that no visit gave, the low 8 bits of the
 * station and the low 32 bits of the other numbers count, and a start before the recorder's clock moves the counter back. */
#define OLIVASTRUM_STACK_ADD_VISIT 512
struct olivastrum_recorder olivastrum_add_visit(struct olivastrum_recorder recorder, struct olivastrum_visit_record record, uint8_t *out, size_t length);

/* Adds the record of an accepted marking or unmarking; recorder.clock and the counter stay. 14 where its field and the end
 * do not fit: nothing is written, and the log can still be ended. Of any other numbers the low 8 bits count. */
#define OLIVASTRUM_STACK_ADD_MARK 512
struct olivastrum_recorder olivastrum_add_mark(struct olivastrum_recorder recorder, struct olivastrum_mark_entry mark, uint8_t *out, size_t length);

/* Ends a log: its length, or 14. */
#define OLIVASTRUM_STACK_END_LOG 512
struct olivastrum_written olivastrum_end_log(struct olivastrum_recorder recorder, uint8_t *out, size_t length);

/* Reads a log: its plan and where its records are, or 1 to 5 or 7 with all blank. A plan sheet is a log without records. */
#define OLIVASTRUM_STACK_READ_LOG 16384
struct olivastrum_read_log olivastrum_read_log(const uint8_t *log, size_t length);

/* The record whose field begins at this place of a log, and the place behind it; all blank where none does. It looks at
 * the 20 bytes of a visit or the 5 of a mark at the place and at nothing else. So begin at `first` of a log that was read,
 * and go on from place to place, `records` times: at any other place bytes may look like a record. */
#define OLIVASTRUM_STACK_LOG_ENTRY 512
struct olivastrum_next_entry olivastrum_log_entry(const uint8_t *log, size_t length, uint64_t at);

/* Inspects a log: whether a run of the published steps from an opened ring, with stations marked and unmarked as its marks
 * say, could have given its visits, with any synchronous amount up to S at each visit of an unmarked station and some
 * request in frames; a marked station is visited with limit 0 and sends nothing. Else the first record that breaks a rule,
 * and the first rule that it breaks. Or 1 to 5 or 7, with the rest 0. */
#define OLIVASTRUM_STACK_INSPECT_LOG 20480
struct olivastrum_finding olivastrum_inspect_log(const uint8_t *log, size_t length);

/* Inspects a log against a plan sheet, one answer in this order: the refusal of the plan sheet, 1 to 5 or 7; that of the
 * log; that their plans differ in a number of the header or of a station, or in the stations; or what
 * olivastrum_inspect_log says of the log. Plan and log may be the same bytes. */
#define OLIVASTRUM_STACK_INSPECT_LOG_OF 27648
struct olivastrum_plan_finding olivastrum_inspect_log_of(const uint8_t *plan, size_t plan_length, const uint8_t *log, size_t length);

/* Begins an inspection of a ring that runs, with the ring's set and allocation: the inspection that the host keeps, as it is
 * before the ring's first record, at the opening. Or 2, 4, 5 or 7, as olivastrum_read_log says of a log with this plan, with
 * the blank inspection. Mode 2, FDDI, is inspected as ever. */
#define OLIVASTRUM_STACK_BEGIN_INSPECTION 10240
struct olivastrum_begun_inspection olivastrum_begin_inspection(struct olivastrum_set set, struct olivastrum_alloc alloc);

/* Inspects one record more, a visit (kind 16) or a mark (kind 17), in the order in which they come; `next` is not looked at.
 * Behind all records of a log the rule is that of olivastrum_inspect_log, and so is the record where a rule is broken. Only
 * the arrays at the record's station and `progress` change, whatever N is. 8 if no inspection was begun there, 2 for another
 * kind, 4 for a number that no field of a log holds: a station or a mark above 255. */
#define OLIVASTRUM_STACK_INSPECT_RECORD 512
struct olivastrum_record_finding olivastrum_inspect_record(struct olivastrum_inspection *inspection, struct olivastrum_next_entry entry);

/* Makes an area a store without a version, whatever it held: the next one stored is version 1. 2 for another length, and
 * no byte is written. Returns the number. */
#define OLIVASTRUM_STACK_EMPTY_STORE 512
uint8_t olivastrum_empty_store(uint8_t *area, size_t length);

/* Stores a plan sheet as the next version: its number, one more than that of the version stored before. 2 where the area
 * is no store; then 1, 2, 3, 4, 5 or 7 as reading the sheet gives them; then 18 where the newest version is 4,294,967,295:
 * none is stored from then on. A refused call writes no byte. Of sixteen the oldest goes. The area is written where it
 * stands, byte after byte: a host whose power may fail in between stores in a copy, and keeps that when the call is over. */
#define OLIVASTRUM_STACK_STORE_PLAN 3584
struct olivastrum_stored_plan olivastrum_store_plan(uint8_t *area, size_t length, const uint8_t *sheet, size_t sheet_length);

/* Where the plan sheet of a version stands in the area: the bytes that were stored. 2 where the area is no store, then 17
 * where that version was dropped or never given. The place holds until the area is written again: storing moves what is
 * kept. */
#define OLIVASTRUM_STACK_FIND_VERSION 3072
struct olivastrum_found_version olivastrum_find_version(const uint8_t *area, size_t length, uint32_t version);

/* Which versions an area keeps, or 2 where it is no store. */
#define OLIVASTRUM_STACK_VERSIONS_IN 3072
struct olivastrum_versions olivastrum_versions_in(const uint8_t *area, size_t length);

/* The request of a wagon list: its set, or 2 or 4 with the blank set. */
#define OLIVASTRUM_STACK_HOPPER_REQUEST 6144
struct olivastrum_read_request olivastrum_hopper_request(struct olivastrum_wagon_list list);

/* Writes the request sheet of a wagon list, as olivastrum_write_request_sheet does: its length, or 2, 4 or 14. A list that
 * has no plan has its sheet. */
#define OLIVASTRUM_STACK_WRITE_HOPPER_SHEET 6656
struct olivastrum_written olivastrum_write_hopper_sheet(struct olivastrum_wagon_list list, uint8_t *out, size_t length);

/* Couples the wagons of a list: the train with its plan, which is what olivastrum_plan_set answers to the list's request; or
 * 2, 4 or 6 with the blank train. */
#define OLIVASTRUM_STACK_COUPLE_TRAIN 7680
struct olivastrum_coupled olivastrum_couple_train(struct olivastrum_wagon_list list);

/* A train with another list. The train that is handed in is not looked at; where the list is refused with 2, 4 or 6 it is
 * handed back as it was. */
#define OLIVASTRUM_STACK_CHANGE_TRAIN 7680
struct olivastrum_coupled olivastrum_change_train(struct olivastrum_train train, struct olivastrum_wagon_list list);

/* Another wagon at a place of a train, counted from 0; 2, 4, 9 or 6 hand the train back as it was. 2 and 4 are of the list
 * with that wagon, and 4 of the wagon itself, which comes before 9. */
#define OLIVASTRUM_STACK_CHANGE_WAGON 8192
struct olivastrum_coupled olivastrum_change_wagon(struct olivastrum_train train, struct olivastrum_station place, struct olivastrum_wagon wagon);

/* One wagon more at the end of a train; 2, 4 or 6 hand it back as it was. A thirteenth is 2. */
#define OLIVASTRUM_STACK_COUPLE_WAGON 10240
struct olivastrum_coupled olivastrum_couple_wagon(struct olivastrum_train train, struct olivastrum_wagon wagon);

/* The last wagon off a train; 2, 4 or 6 hand it back as it was, 4 and 6 only of a train that no call made. A train's only
 * wagon stays: 2. */
#define OLIVASTRUM_STACK_UNCOUPLE_WAGON 9216
struct olivastrum_coupled olivastrum_uncouple_wagon(struct olivastrum_train train);

/* The most that a call of any of them needs. */
#define OLIVASTRUM_STACK_MOST 27648

#ifdef __cplusplus
}
#endif

#endif
