/*
 * The same jobs in plain C, to measure the proved library against: the same structs, the same checks, the same answers.
 * As a C engineer writes them: what is large goes by pointer, and an answer is written where the caller wants it.
 */
#ifndef PLAIN_H
#define PLAIN_H

#include "olivastrum.h"

void plain_read_plan(const uint8_t *sheet, size_t length, struct olivastrum_read_plan *answer);
struct olivastrum_written plain_write_plan(const struct olivastrum_set *set, const struct olivastrum_alloc *alloc, uint8_t *out, size_t length);
void plain_plan(const struct olivastrum_set *set, struct olivastrum_planned *answer);
void plain_open(const struct olivastrum_set *set, const struct olivastrum_alloc *alloc, struct olivastrum_opened *answer);
void plain_visit(struct olivastrum_ring *ring, struct olivastrum_ask ask, struct olivastrum_visit_answer *answer);
uint8_t plain_hand_in(struct olivastrum_ring *ring, const struct olivastrum_message *message);
void plain_mark(struct olivastrum_ring *ring, uint64_t station, struct olivastrum_mark_answer *answer);
uint8_t plain_unmark(struct olivastrum_ring *ring, uint64_t station);

#endif
