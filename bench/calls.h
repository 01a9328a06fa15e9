/* Calls with the signatures of the library's header: the proved ones, or plain C's (values.h). */
#ifndef CALLS_H
#define CALLS_H

#include "olivastrum.h"

struct calls {
    struct olivastrum_read_plan (*read)(const uint8_t *sheet, size_t length);
    struct olivastrum_written (*write)(struct olivastrum_set set, struct olivastrum_alloc alloc, uint8_t *out, size_t length);
    struct olivastrum_planned (*plan)(struct olivastrum_set set);
    struct olivastrum_opened (*open)(struct olivastrum_set set, struct olivastrum_alloc alloc);
    struct olivastrum_visit_answer (*visit)(struct olivastrum_ring *ring, struct olivastrum_ask ask);
    uint8_t (*hand_in)(struct olivastrum_ring *ring, struct olivastrum_message message);
    struct olivastrum_mark_answer (*mark)(struct olivastrum_ring *ring, struct olivastrum_station station);
    uint8_t (*unmark)(struct olivastrum_ring *ring, struct olivastrum_station station);
};

/* A plan sheet has at most so many bytes. */
#define MOST_PLAN_BYTES (OLIVASTRUM_PLAN_BYTES(128) + OLIVASTRUM_MODE_BYTES + OLIVASTRUM_FRAME_BYTES + OLIVASTRUM_GRID_BYTES)

/* The longest frame of the rings with frames. */
#define FRAME 40

/* Holds every answer of these calls to that of plain C which is handed pointers: accepted calls, damaged sheets, sets and
 * rings, and long runs, the same ones each time. How many comparisons, or 0 where one differs. */
unsigned long compared_answers(const struct calls *calls);

#endif
