/* Asks the library where each field of each struct of anduri.h lies. The library writes numbers that differ from field to
 * field; they are read as bytes, at the place and of the size that the header gives the field. The sizes of the structs that
 * it writes to memory are seen by the bytes that it changes. C11 and C++; run by tests/header_fits.sh. */
#include "anduri.h"
#include <stdio.h>
#include <string.h>

enum { ROOM = 1024, MARK = 0xA5 };
static int wrong;

static void holds(const char *what, const void *base, size_t at, size_t size, uint64_t said)
{
    uint64_t found = 0;
    memcpy(&found, (const unsigned char *)base + at, size < 8 ? size : 8);
    if (found != said) {
        printf("%s, at %zu of %zu bytes: the library has %llu, not %llu\n", what, at, size, (unsigned long long)found,
               (unsigned long long)said);
        wrong = 1;
    }
}

/* a field that is a number; entry i of a field that is an array */
#define FIELD(type, base, field, said) holds(#type "." #field, base, offsetof(type, field), sizeof(((type *)0)->field), said)
#define ENTRY(type, base, field, i, said)                                                                             \
    holds(#type "." #field "[" #i "]", base, offsetof(type, field) + (i) * sizeof(((type *)0)->field[0]),             \
          sizeof(((type *)0)->field[0]), said)
#define SIZE(type, said)                                                                                              \
    if (sizeof(type) != (said)) {                                                                                     \
        printf("%s has %zu bytes, and in the library %zu\n", #type, sizeof(type), (size_t)(said));                    \
        wrong = 1;                                                                                                    \
    }

/* how many bytes were written: those up to the last that is no longer marked */
static size_t written(const unsigned char *room)
{
    size_t end = ROOM;
    while (end && room[end - 1] == MARK)
        end--;
    return end;
}

/* Round robin, 8 tasks, slice 5: task 0 has 3 ticks from 10 and is done at 13; at 20 six tasks ask, and 3 ticks run. */
static void robin(anduri_run *run)
{
    anduri_setup_numbers setup;
    memset(&setup, 0, sizeof setup);
    setup.policy = 2;
    setup.count = 8;
    setup.slice = 5;
    anduri_setup_in(run, setup);
    anduri_request_in(run, 10, 0, 3);
    for (uint32_t task = 1; task < 7; task++)
        anduri_request_in(run, 20, task, 100 + task);
    anduri_advance_in(run, 23);
}

/* Priority, 32 tasks, task k of priority 200 + k: task 31 has 4 ticks and is done at 4, then task 0 1 tick; both ask again. */
static void priority(anduri_run *run)
{
    anduri_setup_numbers setup;
    memset(&setup, 0, sizeof setup);
    setup.policy = 1;
    setup.count = 32;
    for (int task = 0; task < 32; task++)
        setup.priority[task] = (uint8_t)(200 + task);
    anduri_setup_in(run, setup);
    anduri_request_in(run, 0, 0, 1);
    anduri_request_in(run, 0, 31, 4);
    anduri_drain_in(run);
    anduri_request_in(run, 6, 0, 70);
    anduri_request_in(run, 6, 31, 60);
}

static void the_run(const anduri_run *run)
{
    const anduri_setup_numbers *setup = &run->setup;
    FIELD(anduri_run, run, setup.policy, 2);
    FIELD(anduri_setup_numbers, setup, policy, 2);
    FIELD(anduri_setup_numbers, setup, count, 8);
    FIELD(anduri_setup_numbers, setup, slice, 5);
    FIELD(anduri_run, run, clock, 23);
    FIELD(anduri_run, run, idle, 17);
    FIELD(anduri_run, run, used, 3);
    FIELD(anduri_run, run, queued, 6);
    for (size_t i = 0; i < 32; i++) {
        ENTRY(anduri_setup_numbers, setup, priority, i, 0);
        ENTRY(anduri_run, run, queue, i, i < 6 ? i + 1 : 0);
        ENTRY(anduri_run, run, owed, i, i == 1 ? 98 : i && i < 7 ? 100 + i : 0);
        ENTRY(anduri_run, run, given, i, i < 2 ? 3 : 0);
        ENTRY(anduri_run, run, done, i, i == 0 ? 13 : 0);
    }
}

static void the_other_run(const anduri_run *run)
{
    for (size_t i = 0; i < 32; i++) {
        ENTRY(anduri_setup_numbers, &run->setup, priority, i, 200 + i);
        ENTRY(anduri_run, run, queue, i, i == 1 ? 31 : 0);
        ENTRY(anduri_run, run, owed, i, i == 0 ? 70 : i == 31 ? 60 : 0);
        ENTRY(anduri_run, run, given, i, i == 0 ? 1 : i == 31 ? 4 : 0);
        ENTRY(anduri_run, run, done, i, i == 0 ? 5 : i == 31 ? 4 : 0);
    }
}

/* A struct of more than 16 bytes is written where a hidden first parameter points (System V calls), so that the call can be
 * made without the header's struct. */
typedef void *(*setup_to)(void *, uint32_t, uint32_t, uint32_t, const uint8_t *, size_t);

static void sizes(void)
{
    uint64_t words[ROOM / 8]; /* so that the room is aligned */
    unsigned char *room = (unsigned char *)words;
    setup_to volatile call = (setup_to)(void (*)(void))anduri_setup; /* or the compiler knows the types, and warns */
    const uint8_t bytes[32] = {0};
    anduri_setup_numbers setup;
    memset(&setup, 0, sizeof setup);
    setup.policy = 1;
    setup.count = 1;
    memset(room, MARK, ROOM);
    anduri_setup_in((anduri_run *)room, setup);
    SIZE(anduri_run, written(room));
    memset(room, MARK, ROOM);
    call(room, 7, 8, 9, bytes, 32); /* refused 1 */
    SIZE(anduri_moved, written(room));
    FIELD(anduri_moved, room, refusal, 1);
    holds("anduri_moved.run", room, offsetof(anduri_moved, run) + offsetof(anduri_run, setup.count), 4, 1);
    /* up to the clock, in the run */
    SIZE(anduri_setup_numbers, offsetof(anduri_run, clock));
    /* these come back in registers, where the library shows no size */
    SIZE(anduri_reading, 8);
    SIZE(anduri_next_done, 8);
    SIZE(anduri_outcome, 12);
    SIZE(anduri_verdict, 12);
}

static void answers(anduri_run run)
{
    const uint32_t times[2] = {0, 1}, tasks[2] = {0, 0}, amounts[2] = {5, 1};
    const uint8_t bytes[32] = {0};
    uint32_t result[2] = {0, 0};
    unsigned char log[1024] = {0};
    anduri_moved moved = anduri_advance(run, 22); /* before the clock */
    FIELD(anduri_moved, &moved, refusal, 11);
    the_run(&moved.run);
    anduri_reading reading = anduri_owed(run, 2), refused = anduri_owed_of(&run, 8);
    FIELD(anduri_reading, &reading, refusal, 0);
    FIELD(anduri_reading, &reading, value, 102);
    FIELD(anduri_reading, &refused, refusal, 12);
    anduri_next_done next = anduri_next_of(&run);
    FIELD(anduri_next_done, &next, task, 1);
    FIELD(anduri_next_done, &next, at, anduri_next(run).at);
    anduri_outcome outcome = anduri_table(2, 1, 1, bytes, 32, times, 2, tasks, 2, amounts, 2, result, 2); /* row 2 is open */
    FIELD(anduri_outcome, &outcome, refusal, 14);
    FIELD(anduri_outcome, &outcome, place, 2);
    FIELD(anduri_outcome, &outcome, end, 0);
    outcome = anduri_table(2, 1, 1, bytes, 32, times, 1, tasks, 1, amounts, 1, result, 2);
    FIELD(anduri_outcome, &outcome, refusal, 0);
    FIELD(anduri_outcome, &outcome, end, 5);
    log[4] = 2, log[8] = 1, log[12] = 1, log[508] = 5; /* block 0: round robin, 1 task, slice 1 */
    log[512] = 1, log[516] = 3, log[1020] = 5;         /* block 1: three records of zeros */
    anduri_verdict verdict = anduri_judge(log, 1024);
    FIELD(anduri_verdict, &verdict, refusal, 0);
    FIELD(anduri_verdict, &verdict, place, 0);
    FIELD(anduri_verdict, &verdict, records, 3);
    log[1020] = 6;
    verdict = anduri_judge(log, 1024);
    FIELD(anduri_verdict, &verdict, refusal, 31);
    FIELD(anduri_verdict, &verdict, place, 1);
}

int main(void)
{
    anduri_run run;
    robin(&run);
    the_run(&run);
    answers(run);
    priority(&run);
    the_other_run(&run);
    sizes();
    if (!wrong)
        puts("header: every field lies where the library has it");
    return wrong;
}
