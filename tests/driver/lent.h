/*
 * The exported functions, each called with guard bytes round what is lent to it and with a look at what must not be: a
 * byte changed that is not the call's to change, an answer of a refusal that is not blank, a place from N on that is not
 * as it was. What was seen is kept for the answer's line.
 */
#ifndef LENT_H
#define LENT_H
#include "olivastrum.h"

#define MOST OLIVASTRUM_MOST_STATIONS
#define MOST_WAGONS OLIVASTRUM_MOST_WAGONS

/* The most bytes of a sheet to read and of room to write into. */
#define MOST_BYTES 65536

typedef struct olivastrum_set set_t;
typedef struct olivastrum_alloc alloc_t;
typedef struct olivastrum_ring ring_t;
typedef struct olivastrum_wagon_list list_t;
typedef struct olivastrum_train train_t;

/* What was seen since the last time this was asked, in a word; 0 if nothing was. */
const char *seen(void);

struct olivastrum_read_request reading_request(const uint8_t *sheet, size_t length);
struct olivastrum_read_plan reading_plan(const uint8_t *sheet, size_t length);

/* The sheet that was written stands at `*sheet` until the next call. */
struct olivastrum_written writing_request(const set_t *set, size_t room, const uint8_t **sheet);
struct olivastrum_written writing_plan(const set_t *set, const alloc_t *alloc, size_t room, const uint8_t **sheet);

struct olivastrum_planned planning(const set_t *set);
struct olivastrum_opened opening(const set_t *set, const alloc_t *alloc);

/* The ring is lent from a copy between guard bytes, and handed back. Visits are made one after another, at most as many
 * as counted (1 or more), until one is refused; the last one's answer. */
struct olivastrum_visit_answer visiting(ring_t *ring, uint64_t count, struct olivastrum_ask ask);
uint8_t handing_in(ring_t *ring, struct olivastrum_message message);
struct olivastrum_mark_answer marking(ring_t *ring, struct olivastrum_station station);
uint8_t unmarking(ring_t *ring, struct olivastrum_station station);

/* Reading a log: it is lent between guard bytes, and stays there for its entries. */
struct olivastrum_read_log reading_log(const uint8_t *log, size_t length);
struct olivastrum_next_entry entry_at(size_t length, uint64_t at);

/* Inspecting a log. */
struct olivastrum_finding inspecting(const uint8_t *log, size_t length);

/* And inspecting it against a plan sheet, which is lent between guard bytes of its own. */
struct olivastrum_plan_finding inspecting_of(const uint8_t *plan, size_t plan_length, const uint8_t *log, size_t length);

/* Writing a log into a room between guard bytes, where it stays until the next log is begun. */
struct olivastrum_recorder beginning_log(const set_t *set, const alloc_t *alloc, uint32_t counter, uint64_t clock, size_t room);
struct olivastrum_recorder adding_visit(struct olivastrum_recorder recorder, struct olivastrum_visit_record record, size_t room);
struct olivastrum_recorder adding_mark(struct olivastrum_recorder recorder, struct olivastrum_mark_entry mark, size_t room);
struct olivastrum_written ending_log(struct olivastrum_recorder recorder, size_t room, const uint8_t **log);

/* Trains: coupled and changed by value. A refused change hands back the train as it was. */
struct olivastrum_coupled coupling(const list_t *list);
struct olivastrum_coupled relisting(const train_t *train, const list_t *list);
struct olivastrum_coupled rewagoning(const train_t *train, struct olivastrum_station place, struct olivastrum_wagon wagon);
struct olivastrum_coupled coupling_one(const train_t *train, struct olivastrum_wagon wagon);
struct olivastrum_coupled uncoupling_one(const train_t *train);

/* The longest area that is lent. */
#define MOST_AREA 65600

/* An area between guard bytes, with these bytes and zeros behind them, where it stays until the next one is lent; its bytes
 * are at the place that is returned. */
uint8_t *lend_area(const uint8_t *bytes, size_t used, size_t length);
uint8_t emptying(size_t length);
struct olivastrum_stored_plan storing(size_t length, const uint8_t *sheet, size_t sheet_length);
struct olivastrum_found_version finding(size_t length, uint32_t version);
struct olivastrum_versions listing(size_t length);
#endif
