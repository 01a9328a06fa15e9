/*
 * A host with functions of its own that have plain names. They must not stand in for the library's: the host's own are
 * called by their names, and the library's by theirs. Prints `ok`.
 */
#include <olivastrum.h>
#include <stdio.h>

#ifdef __cplusplus
#define OWN(name) extern "C" int name(void) { return 17; }
#else
#define OWN(name) int name(void) { return 17; }
#endif

OWN(plan_set)
OWN(open_ring)
OWN(visit)
OWN(hand_in)
OWN(visit_lent)
OWN(hand_in_lent)
OWN(read_request_sheet)
OWN(read_plan_sheet)
OWN(write_request_sheet)
OWN(write_plan_sheet)
OWN(plan)
OWN(sound)
OWN(spare)
OWN(judge)

int main(void)
{
    struct olivastrum_set set = {{100, OLIVASTRUM_TIMELY, 1, 1}, 1, {1}, {20}, {100}, {100}};
    struct olivastrum_planned planned = olivastrum_plan_set(set);
    struct olivastrum_opened opened = olivastrum_open_ring(set, planned.alloc);
    struct olivastrum_message message = {{0}, {20}, {0}};
    struct olivastrum_ask nothing = {0, 1};
    uint8_t sheet[OLIVASTRUM_PLAN_BYTES(1)];
    int own = plan_set() + open_ring() + visit() + hand_in() + visit_lent() + hand_in_lent() + read_request_sheet() + read_plan_sheet() +
              write_request_sheet() + write_plan_sheet() + plan() + sound() + spare() + judge();
    int theirs = planned.number == 0 && planned.alloc.s[0] == 20 && opened.number == 0 && olivastrum_hand_in(&opened.ring, message) == 0 &&
                 olivastrum_visit(&opened.ring, nothing).record.finish.ticks == 20 &&
                 olivastrum_write_plan_sheet(set, planned.alloc, sheet, sizeof sheet).length == sizeof sheet &&
                 olivastrum_read_plan_sheet(sheet, sizeof sheet).number == 0 &&
                 olivastrum_write_request_sheet(set, sheet, sizeof sheet).length == OLIVASTRUM_REQUEST_BYTES(1) &&
                 olivastrum_read_request_sheet(sheet, OLIVASTRUM_REQUEST_BYTES(1)).number == 0;
    puts(own == 14 * 17 && theirs ? "ok" : "a name stands for another");
    return 0;
}
