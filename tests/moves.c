/* Calls of the library that move the clock or look ahead, in pairs: a few ticks and then many, with as many changes and
 * slices on the way. Prints a line for each: the pair's name and the ticks. tests/moves_by_steps.sh counts the instructions
 * of each run of measured(). Where a call does not reach its time this ends with 1: it is then no measure.
 * With -DWALKS one call goes through the ticks one by one beside its work, and the count must find it. */
#include "anduri.h"
#include <stdio.h>
#include <stdlib.h>

enum call { ADVANCE, ADVANCE_IN, REQUEST, REQUEST_IN, DRAIN, DRAIN_IN, NEXT, NEXT_OF };
static const char *const names[] = {"advance", "advance_in", "request", "request_in", "drain", "drain_in", "next", "next_of"};

/* What stands before a call: a setup of 32 tasks, and how many of them ask for how much at 0. */
typedef struct before {
    uint32_t policy, slice, tasks, amount;
} before;

/* The call alone; gives the clock afterwards, or when the next task is done. */
__attribute__((noinline)) uint32_t measured(enum call call, anduri_run *run, uint32_t time) {
#ifdef WALKS
    if (call == ADVANCE)
        for (volatile uint32_t tick = anduri_clock_of(run); tick < time; tick++) {}
#endif
    switch (call) {
    case ADVANCE: *run = anduri_advance(*run, time).run; break;
    case ADVANCE_IN: anduri_advance_in(run, time); break;
    case REQUEST: *run = anduri_request(*run, time, 31, 1).run; break;
    case REQUEST_IN: anduri_request_in(run, time, 31, 1); break;
    case DRAIN: *run = anduri_drain(*run).run; break;
    case DRAIN_IN: anduri_drain_in(run); break;
    case NEXT: return anduri_next(*run).at;
    case NEXT_OF: return anduri_next_of(run).at;
    }
    return anduri_clock_of(run);
}

static void make(const char *name, enum call call, before b, uint32_t time) {
    anduri_run run = {0};
    anduri_setup_numbers setup = {.policy = b.policy, .count = 32, .slice = b.slice};
    uint32_t refused = anduri_setup_in(&run, setup), reached;
    for (uint32_t task = 0; task < b.tasks; task++) refused |= anduri_request_in(&run, 0, task, b.amount);
    reached = measured(call, &run, time);
    if (refused != 0 || reached != time) {
        fprintf(stderr, "%s, %s: refused %u, at %u and not %u\n", name, names[call], refused, reached, time);
        exit(1);
    }
    printf("%s:%s %u\n", name, names[call], time);
}

static void pair(const char *name, enum call call, before b, uint32_t few, before c, uint32_t many) {
    make(name, call, b, few);
    make(name, call, c, many);
}

int main(void) {
    for (enum call call = ADVANCE; call <= REQUEST_IN; call++) {
        pair("idle_priority", call, (before){1, 0, 0, 0}, 10, (before){1, 0, 0, 0}, 1000000);
        pair("idle_robin", call, (before){2, 65535, 0, 0}, 10, (before){2, 65535, 0, 0}, 1000000);
        pair("busy_priority", call, (before){1, 0, 4, 1000000}, 10, (before){1, 0, 4, 1000000}, 999999);
        pair("busy_robin", call, (before){2, 65535, 4, 1000000}, 10, (before){2, 65535, 4, 1000000}, 65534);
        pair("done_priority", call, (before){1, 0, 1, 10}, 10, (before){1, 0, 1, 1000000}, 1000000);
        pair("done_robin", call, (before){2, 65535, 1, 10}, 10, (before){2, 65535, 1, 65535}, 65535);
        pair("slices_100", call, (before){2, 10, 4, 1000000}, 1000, (before){2, 10000, 4, 1000000}, 1000000);
        make("slices_101", call, (before){2, 10, 4, 1000000}, 1010);
        make("slices_1000", call, (before){2, 10, 4, 1000000}, 10000);
    }
    for (enum call call = DRAIN; call <= DRAIN_IN; call++) {
        pair("all_priority", call, (before){1, 0, 4, 10}, 40, (before){1, 0, 4, 1000000}, 4000000);
        pair("all_robin", call, (before){2, 65535, 4, 10}, 40, (before){2, 65535, 4, 65535}, 262140);
        pair("slices_400", call, (before){2, 10, 4, 1000}, 4000, (before){2, 10000, 4, 1000000}, 4000000);
    }
    for (enum call call = NEXT; call <= NEXT_OF; call++) {
        pair("first_priority", call, (before){1, 0, 4, 10}, 10, (before){1, 0, 4, 1000000}, 1000000);
        pair("first_robin", call, (before){2, 65535, 4, 10}, 10, (before){2, 65535, 4, 65535}, 65535);
        pair("slices_397", call, (before){2, 10, 4, 1000}, 3970, (before){2, 10000, 4, 1000000}, 3970000);
    }
    return 0;
}
