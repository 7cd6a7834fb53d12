/* The library for a caller on another machine: makes the calls that standard input asks for, and answers on standard output.
 *
 * A question is a call's number, the bytes that follow, and these; an answer the bytes that follow, and these. Numbers have
 * 32 bits and structs are as the header lays them out, so both sides must be little-endian with 64-bit sizes. What each call
 * takes and gives stands in far.rs. */
#include "anduri.h"
#include <stdio.h>
#include <stdlib.h>
#include <string.h>

enum { SETUP, REQUEST, ADVANCE, DRAIN, READINGS, TABLE, JUDGE, REPORT, SETUP_IN, REQUEST_IN, ADVANCE_IN, DRAIN_IN };

static uint8_t question[1 << 22], answer[1 << 22];
static size_t taken, given;

static void *take(size_t size)
{
    taken += size;
    return question + taken - size;
}

static uint32_t number(void)
{
    uint32_t n;
    memcpy(&n, take(sizeof n), sizeof n);
    return n;
}

static anduri_run run_given(void)
{
    anduri_run run;
    memcpy(&run, take(sizeof run), sizeof run);
    return run;
}

static void give(const void *bytes, size_t size)
{
    memcpy(answer + given, bytes, size);
    given += size;
}

/* What can be read of a run, by value or, where it is kept, by a reference: the three numbers, the next completion, and for
 * each task that is named what is owed, given and done. */
static void readings(void)
{
    anduri_run run = run_given();
    uint32_t kept = number(), tasks = number();
    uint32_t whole[3] = {kept ? anduri_clock_of(&run) : anduri_clock(run),
                         kept ? anduri_total_owed_of(&run) : anduri_total_owed(run),
                         kept ? anduri_idle_of(&run) : anduri_idle(run)};
    anduri_next_done next = kept ? anduri_next_of(&run) : anduri_next(run);
    give(whole, sizeof whole);
    give(&next, sizeof next);
    for (uint32_t i = 0; i < tasks; i++) {
        uint32_t task = number();
        anduri_reading told[3] = {kept ? anduri_owed_of(&run, task) : anduri_owed(run, task),
                                  kept ? anduri_given_of(&run, task) : anduri_given(run, task),
                                  kept ? anduri_completed_of(&run, task) : anduri_completed(run, task)};
        give(told, sizeof told);
    }
}

/* The outcome, and the whole result column. */
static void table(void)
{
    uint32_t policy = number(), count = number(), slice = number();
    uint32_t bytes = number(), times = number(), tasks = number(), amounts = number(), room = number();
    uint32_t *columns[4] = {take(4 * times), take(4 * tasks), take(4 * amounts), take(4 * room)};
    const uint8_t *priorities = take(bytes);
    anduri_outcome told = anduri_table(policy, count, slice, priorities, bytes, columns[0], times, columns[1], tasks,
                                       columns[2], amounts, columns[3], room);
    give(&told, sizeof told);
    give(columns[3], 4 * room);
}

static void report(size_t size)
{
    static uint8_t out[ANDURI_REPORT_ROOM];
    give(out, anduri_report(take(size), size, out));
}

/* The refusal of a call on a run in place, and the run. */
static void in_place(uint32_t call)
{
    anduri_run run = run_given();
    uint32_t refusal, n[3];
    anduri_setup_numbers setup;
    if (call == SETUP_IN) {
        memcpy(&setup, take(sizeof setup), sizeof setup);
        refusal = anduri_setup_in(&run, setup);
    } else if (call == REQUEST_IN) {
        memcpy(n, take(sizeof n), sizeof n);
        refusal = anduri_request_in(&run, n[0], n[1], n[2]);
    } else if (call == ADVANCE_IN) {
        refusal = anduri_advance_in(&run, number());
    } else {
        refusal = anduri_drain_in(&run);
    }
    give(&refusal, sizeof refusal);
    give(&run, sizeof run);
}

static anduri_moved by_value(uint32_t call, size_t size)
{
    uint32_t n[3];
    if (call == SETUP) {
        memcpy(n, take(sizeof n), sizeof n);
        return anduri_setup(n[0], n[1], n[2], take(size - sizeof n), size - sizeof n);
    }
    anduri_run run = run_given();
    if (call == DRAIN)
        return anduri_drain(run);
    n[0] = number();
    if (call == ADVANCE)
        return anduri_advance(run, n[0]);
    n[1] = number();
    n[2] = number();
    return anduri_request(run, n[0], n[1], n[2]);
}

static void serve(uint32_t call, size_t size)
{
    if (call <= DRAIN) {
        anduri_moved moved = by_value(call, size);
        give(&moved, sizeof moved);
    } else if (call == READINGS) {
        readings();
    } else if (call == TABLE) {
        table();
    } else if (call == JUDGE) {
        anduri_verdict told = anduri_judge(take(size), size);
        give(&told, sizeof told);
    } else if (call == REPORT) {
        report(size);
    } else {
        in_place(call);
    }
}

int main(void)
{
    uint32_t begin[2], size;
    while (fread(begin, sizeof begin, 1, stdin) == 1) {
        if (begin[1] > sizeof question || fread(question, 1, begin[1], stdin) != begin[1])
            exit(2);
        taken = given = 0;
        serve(begin[0], begin[1]);
        size = (uint32_t)given;
        fwrite(&size, sizeof size, 1, stdout);
        fwrite(answer, 1, given, stdout);
        fflush(stdout);
    }
    return 0;
}
