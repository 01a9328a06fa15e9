#include "values.h"
#include "bytes.h"
#include "plain.h"

#define APART __attribute__((noinline))

APART struct olivastrum_read_plan values_read_plan_sheet(const uint8_t *sheet, size_t length)
{
    struct olivastrum_read_plan answer;
    plain_read_plan(sheet, length, &answer);
    return answer;
}

APART struct olivastrum_written values_write_plan_sheet(struct olivastrum_set set, struct olivastrum_alloc alloc, uint8_t *out, size_t length)
{
    return plain_write_plan(&set, &alloc, out, length);
}

APART struct olivastrum_planned values_plan_set(struct olivastrum_set set)
{
    struct olivastrum_planned answer;
    plain_plan(&set, &answer);
    return answer;
}

APART struct olivastrum_opened values_open_ring(struct olivastrum_set set, struct olivastrum_alloc alloc)
{
    struct olivastrum_opened answer;
    plain_open(&set, &alloc, &answer);
    return answer;
}

APART struct olivastrum_visit_answer values_visit(struct olivastrum_ring *ring, struct olivastrum_ask ask)
{
    struct olivastrum_visit_answer answer;
    plain_visit(ring, ask, &answer);
    return answer;
}

APART uint8_t values_hand_in(struct olivastrum_ring *ring, struct olivastrum_message message)
{
    return plain_hand_in(ring, &message);
}

APART struct olivastrum_mark_answer values_mark(struct olivastrum_ring *ring, struct olivastrum_station station)
{
    struct olivastrum_mark_answer answer;
    plain_mark(ring, station.number, &answer);
    return answer;
}

APART uint8_t values_unmark(struct olivastrum_ring *ring, struct olivastrum_station station)
{
    return plain_unmark(ring, station.number);
}

/* ---- logs */

/* The visit's field, if it and the end fit; the counter moves on by what the clock rose. */
APART struct olivastrum_recorder values_add_visit(struct olivastrum_recorder recorder, struct olivastrum_visit_record record, uint8_t *out, size_t length)
{
    if (recorder.at > length || length - recorder.at < OLIVASTRUM_VISIT_BYTES + 3) {
        recorder.number = OLIVASTRUM_BUFFER_TOO_SHORT;
        return recorder;
    }
    recorder.counter += (uint32_t)(record.start.ticks - recorder.clock);
    recorder.clock = record.start.ticks;
    recorder.number = OLIVASTRUM_ACCEPTED;
    uint8_t *at = out + recorder.at;
    at[0] = OLIVASTRUM_VISIT_TAG;
    at[1] = 0;
    at[2] = 17;
    at[3] = (uint8_t)record.station.number;
    at = put_number(at + 4, recorder.counter);
    at = put_number(at, (uint32_t)record.limit.ticks);
    at = put_number(at, (uint32_t)record.synchronous.ticks);
    put_number(at, (uint32_t)record.asynchronous.ticks);
    recorder.at += OLIVASTRUM_VISIT_BYTES;
    return recorder;
}

APART struct olivastrum_next_entry values_log_entry(const uint8_t *log, size_t length, uint64_t at)
{
    struct olivastrum_next_entry entry = {0};
    if (at > length)
        return entry;
    const uint8_t *field = log + at;
    if (length - at >= OLIVASTRUM_VISIT_BYTES && field[0] == OLIVASTRUM_VISIT_TAG && field[1] == 0 && field[2] == 17) {
        entry.kind = OLIVASTRUM_VISIT_TAG;
        entry.visit = (struct olivastrum_visit_entry){field[3], number_at(field + 4), number_at(field + 8), number_at(field + 12), number_at(field + 16)};
        entry.next = at + OLIVASTRUM_VISIT_BYTES;
    } else if (length - at >= OLIVASTRUM_MARK_BYTES && field[0] == OLIVASTRUM_MARK_TAG && field[1] == 0 && field[2] == 2) {
        entry.kind = OLIVASTRUM_MARK_TAG;
        entry.mark = (struct olivastrum_mark_entry){field[3], field[4]};
        entry.next = at + OLIVASTRUM_MARK_BYTES;
    }
    return entry;
}
