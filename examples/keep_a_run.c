/* Keeps one run and moves it in place: run H of document 01, with an advance on the way and readings by pointer.
 * Build: gcc -std=c11 -Iinclude examples/keep_a_run.c crates/desk/out/libdesk.a -o keep_a_run */
#include "anduri.h"
#include <stdio.h>

static void show(const char *call, uint32_t refusal, const anduri_run *run)
{
    printf("%-16s refusal %2u, clock %u, owed %u\n", call, refusal, anduri_clock_of(run), anduri_total_owed_of(run));
}

int main(void)
{
    anduri_setup_numbers setup = {.policy = 2, .count = 2, .slice = 3}; /* round robin, two tasks, slice 3 */
    anduri_run run;
    show("setup", anduri_setup_in(&run, setup), &run);
    show("request 0 0 4", anduri_request_in(&run, 0, 0, 4), &run);
    show("request 0 1 3", anduri_request_in(&run, 0, 1, 3), &run);
    show("advance 2", anduri_advance_in(&run, 2), &run);
    show("advance 1", anduri_advance_in(&run, 1), &run); /* before the clock: refused, and the run stays */
    setup.policy = 3;
    show("setup, policy 3", anduri_setup_in(&run, setup), &run); /* refused: the run goes on */
    anduri_next_done next = anduri_next_of(&run);
    printf("next task %u at %u\n", next.task, next.at);
    show("drain", anduri_drain_in(&run), &run);
    for (uint32_t task = 0; task < 2; task++)
        printf("task %u: done at %u\n", task, anduri_completed_of(&run, task).value);
    return 0;
}
