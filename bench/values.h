/*
 * Plain C with the very signatures of the library's header: what is large is taken and handed out by value. The jobs are
 * those of plain.c, one call further; a log's visit and its entry are here.
 */
#ifndef VALUES_H
#define VALUES_H

#include "olivastrum.h"

struct olivastrum_read_plan values_read_plan_sheet(const uint8_t *sheet, size_t length);
struct olivastrum_written values_write_plan_sheet(struct olivastrum_set set, struct olivastrum_alloc alloc, uint8_t *out, size_t length);
struct olivastrum_planned values_plan_set(struct olivastrum_set set);
struct olivastrum_opened values_open_ring(struct olivastrum_set set, struct olivastrum_alloc alloc);
struct olivastrum_visit_answer values_visit(struct olivastrum_ring *ring, struct olivastrum_ask ask);
uint8_t values_hand_in(struct olivastrum_ring *ring, struct olivastrum_message message);
struct olivastrum_mark_answer values_mark(struct olivastrum_ring *ring, struct olivastrum_station station);
uint8_t values_unmark(struct olivastrum_ring *ring, struct olivastrum_station station);
struct olivastrum_recorder values_add_visit(struct olivastrum_recorder recorder, struct olivastrum_visit_record record, uint8_t *out, size_t length);
struct olivastrum_next_entry values_log_entry(const uint8_t *log, size_t length, uint64_t at);

#endif
