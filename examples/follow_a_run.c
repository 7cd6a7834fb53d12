/* Follows a run call by call: case A of document 01, with readings on the way.
 * Build: gcc -std=c11 -Iinclude examples/follow_a_run.c crates/desk/out/libdesk.a -o follow_a_run */
#include "anduri.h"
#include <stdio.h>

static void show(const char *call, anduri_moved m)
{
    anduri_next_done next = anduri_next(m.run);
    printf("%-16s refusal %2u, clock %u, owed %u", call, m.refusal, anduri_clock(m.run), anduri_total_owed(m.run));
    if (next.at)
        printf(", next task %u at %u\n", next.task, next.at);
    else
        printf(", nothing open\n");
}

int main(void)
{
    const uint8_t priorities[32] = {0};
    anduri_moved m = anduri_setup(2, 2, 1, priorities, 32); /* round robin, two tasks, slice 1 */
    show("setup", m);
    show("request 0 0 5", m = anduri_request(m.run, 0, 0, 5));
    show("request 1 0 1", m = anduri_request(m.run, 1, 0, 1)); /* task 0 is open: refused, nothing moves */
    show("request 2 1 2", m = anduri_request(m.run, 2, 1, 2));
    show("advance 4", m = anduri_advance(m.run, 4));
    show("drain", m = anduri_drain(m.run));
    for (uint32_t task = 0; task < 3; task++) {
        anduri_reading done = anduri_completed(m.run, task);
        printf("task %u: refusal %u, done at %u\n", task, done.refusal, done.value);
    }
    return 0;
}
