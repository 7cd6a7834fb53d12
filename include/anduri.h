/* anduri.h: a proved replay of requests for one shared processor, by priority or round robin.
 *
 * Link with crates/desk/out/libdesk.a, which `rt lib` makes in crates/desk (x86-64 Linux, System V calls).
 * It needs memcpy and memset from outside, and no other name.
 *
 * A tick is one millisecond of the controller's counter; times are ticks since the log's start.
 *
 * A run is a plain value. Calls and readings take it by value, and a call gives back the run afterwards. A caller that
 * keeps one run has the same in place: those with _in move the run behind a pointer and give the refusal alone, and
 * those with _of read it there. Answers and runs are those by value, byte for byte. A refused call gives back, or
 * leaves, the very run that was passed, byte for byte. Each function takes every number and every length; none waits,
 * allocates or keeps anything.
 *
 * This is asked of a caller:
 *  - A run passed in is one that a setup gave, or a call on such a run; anduri_setup_in alone takes any. Nothing is
 *    promised for a run made up by hand.
 *  - No pointer is null, and behind it stand as many elements as are said; where these are none, it may be any pointer
 *    that is not null.
 *  - What is written (the result column, out, a run in place) overlaps nothing else that is passed.
 *  - During a call no other thread writes what is passed, or reads what is written.
 *
 * Refusal numbers (0: accepted):
 *    1  policy not 1 or 2                          20  columns of unequal length
 *    2  task count not 1 to 32                     21  more than 1,024 rows
 *    3  slice not as the policy asks               22  result column shorter than the rows
 *    4  priorities not 32 bytes, or a byte not     30  log length not 512 times 1 to 26
 *       zero that must be                          31  a block's check is wrong
 *   10  time above 4,000,000,000                   32  word 0 is not the block's place
 *   11  time before the clock                      33  any other breach of the layout
 *   12  task not below the count
 *   13  amount 0 or above 1,000,000
 *   14  task still open at that time
 *
 * 34, a record block asked for that the log does not have, is given by the Rattle call block_refusal alone.
 */
#ifndef ANDURI_H
#define ANDURI_H

#include <stddef.h>
#include <stdint.h>

#ifdef __cplusplus
extern "C" {
#endif

/* ---- runs */

typedef struct anduri_setup_numbers {
    uint32_t policy; /* 1 priority, 2 round robin */
    uint32_t count;  /* tasks 0 to count - 1 */
    uint32_t slice;  /* round robin: 1 to 65,535; priority: 0 */
    uint8_t priority[32];
} anduri_setup_numbers;

/* A run. Read it by the functions below. */
typedef struct anduri_run {
    anduri_setup_numbers setup;
    uint32_t clock;
    uint32_t idle;
    uint32_t used;
    size_t queued;
    uint8_t queue[32];
    uint32_t owed[32];
    uint32_t given[32];
    uint32_t done[32];
} anduri_run;

/* A call's answer: its refusal, or 0, and the run afterwards. */
typedef struct anduri_moved {
    uint32_t refusal;
    anduri_run run;
} anduri_moved;

/* A fresh run: clock 0, nothing asked. Refused 1 to 4 in that order; the run is then that of one plain setup (priority,
 * one task), on which calls may be made. */
anduri_moved anduri_setup(uint32_t policy, uint32_t count, uint32_t slice, const uint8_t *priorities, size_t length);

/* Moves the clock to the time and opens the task with this amount of ticks. Refused 10 to 14 in that order. */
anduri_moved anduri_request(anduri_run run, uint32_t time, uint32_t task, uint32_t amount);

/* Moves the clock to the time. Refused 10, 11. */
anduri_moved anduri_advance(anduri_run run, uint32_t time);

/* Moves the clock to the first instant at which nothing is open. Never refused. */
anduri_moved anduri_drain(anduri_run run);

/* ---- a run that the caller keeps
 *
 * Each gives its refusal, or 0. A refused call leaves the run as it was, byte for byte.
 *
 *     anduri_run run;
 *     if (anduri_setup_in(&run, (anduri_setup_numbers){.policy = 2, .count = 2, .slice = 1}) == 0)
 *         anduri_request_in(&run, 0, 0, 5);
 */

/* Makes the run a fresh one of this setup. Refused 1 to 4 in that order, 4 for a byte not zero that must be. The run
 * need not have been set up before; where it was not, a refusal leaves nothing on which a call may be made. */
uint32_t anduri_setup_in(anduri_run *run, anduri_setup_numbers setup);

/* Moves the clock to the time and opens the task with this amount of ticks. Refused 10 to 14 in that order. */
uint32_t anduri_request_in(anduri_run *run, uint32_t time, uint32_t task, uint32_t amount);

/* Moves the clock to the time. Refused 10, 11. */
uint32_t anduri_advance_in(anduri_run *run, uint32_t time);

/* Moves the clock to the first instant at which nothing is open. Never refused. */
uint32_t anduri_drain_in(anduri_run *run);

/* ---- readings */

uint32_t anduri_clock(anduri_run run);
uint32_t anduri_total_owed(anduri_run run); /* ticks owed to all tasks */
uint32_t anduri_idle(anduri_run run);       /* idle ticks since the start */

/* A task's reading: its refusal (12), or 0, and the value; 0 where it is refused. */
typedef struct anduri_reading {
    uint32_t refusal;
    uint32_t value;
} anduri_reading;

anduri_reading anduri_owed(anduri_run run, uint32_t task);      /* ticks owed, 0 if the task is not open */
anduri_reading anduri_given(anduri_run run, uint32_t task);     /* ticks given since the start */
anduri_reading anduri_completed(anduri_run run, uint32_t task); /* latest completion; 0: never */

/* The task that would be done next and when, if nothing more were asked; at 0: nothing is open. */
typedef struct anduri_next_done {
    uint32_t task;
    uint32_t at;
} anduri_next_done;

anduri_next_done anduri_next(anduri_run run);

/* The same of a run that the caller keeps. */
uint32_t anduri_clock_of(const anduri_run *run);
uint32_t anduri_total_owed_of(const anduri_run *run);
uint32_t anduri_idle_of(const anduri_run *run);
anduri_reading anduri_owed_of(const anduri_run *run, uint32_t task);
anduri_reading anduri_given_of(const anduri_run *run, uint32_t task);
anduri_reading anduri_completed_of(const anduri_run *run, uint32_t task);
anduri_next_done anduri_next_of(const anduri_run *run);

/* ---- tables */

/* A table's outcome: its refusal, or 0; the row from 1 for 10 to 14, else 0; the end where it is accepted, else 0. */
typedef struct anduri_outcome {
    uint32_t refusal;
    uint32_t place;
    uint32_t end;
} anduri_outcome;

/* Requests the rows in order on a fresh run, then drains. Entry i of the result becomes row i's completion time;
 * entries past the rows stay, and a refusal writes none. Each length is in elements. */
anduri_outcome anduri_table(uint32_t policy, uint32_t count, uint32_t slice,
                            const uint8_t *priorities, size_t priorities_length,
                            const uint32_t *times, size_t times_length,
                            const uint32_t *tasks, size_t tasks_length,
                            const uint32_t *amounts, size_t amounts_length,
                            uint32_t *result, size_t result_length);

/* ---- logs */

/* What a log is judged to be: its refusal, or 0; the block for 31 to 33, else 0; how many records, 0 if refused. */
typedef struct anduri_verdict {
    uint32_t refusal;
    uint32_t place;
    uint32_t records;
} anduri_verdict;

anduri_verdict anduri_judge(const uint8_t *log, size_t length);

/* Room that anduri_report asks for. */
#define ANDURI_REPORT_ROOM 65536

/* Puts all that the program prints for a log at the start of out, ANDURI_REPORT_ROOM bytes, and gives how many
 * bytes it is; the bytes behind stay. */
size_t anduri_report(const uint8_t *log, size_t length, uint8_t *out);

#ifdef __cplusplus
}
#endif

#endif
