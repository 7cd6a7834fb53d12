/* A library with one wrong answer, the one that ANDURI_FAULT names: linked around the right one by gcc's --wrap, it shows that
 * what is compared through the C face would be noticed. */
#include "anduri.h"
#include <stdlib.h>
#include <string.h>

static int has(const char *fault)
{
    const char *named = getenv("ANDURI_FAULT");
    return named && strcmp(named, fault) == 0;
}

#define WRAPPED(type, name, parameters)                                                                                \
    type __real_##name parameters;                                                                                     \
    type __wrap_##name parameters;                                                                                     \
    type __wrap_##name parameters

WRAPPED(anduri_moved, anduri_setup, (uint32_t p, uint32_t count, uint32_t slice, const uint8_t *bytes, size_t length))
{
    if (has("length_33_is_taken") && length == 33)
        length = 32;
    if (has("slice_wraps_at_65536"))
        slice &= 65535;
    return __real_anduri_setup(p, count, slice, bytes, length);
}

WRAPPED(anduri_moved, anduri_request, (anduri_run run, uint32_t time, uint32_t task, uint32_t amount))
{
    anduri_moved moved = __real_anduri_request(run, time, task, amount);
    if (has("refused_request_keeps_move") && moved.refusal == 14)
        moved.run = anduri_advance(run, time).run;
    if (has("refused_request_marks_run") && moved.refusal != 0)
        moved.run.queue[31] ^= 32;
    if (has("amount_before_task") && moved.refusal == 12 && (amount == 0 || amount > 1000000))
        moved.refusal = 13;
    return moved;
}

WRAPPED(anduri_moved, anduri_advance, (anduri_run run, uint32_t time))
{
    anduri_moved moved = __real_anduri_advance(run, time);
    if (has("late_advance_is_before") && moved.refusal == 10)
        moved.refusal = 11;
    if (has("time_is_signed") && moved.refusal == 0 && time > INT32_MAX)
        moved = (anduri_moved){.refusal = 11, .run = run};
    return moved;
}

WRAPPED(anduri_moved, anduri_drain, (anduri_run run))
{
    if (has("drain_stops_at_last_time") && run.clock + (uint64_t)anduri_total_owed(run) > 4000000000u)
        return anduri_advance(run, 4000000000u);
    return __real_anduri_drain(run);
}

WRAPPED(uint32_t, anduri_clock, (anduri_run run))
{
    return __real_anduri_clock(run) & (has("clock_is_signed") ? INT32_MAX : UINT32_MAX);
}

WRAPPED(uint32_t, anduri_total_owed, (anduri_run run))
{
    return __real_anduri_total_owed(run) - (has("owed_leaves_out_task_31") ? run.owed[31] : 0);
}

WRAPPED(uint32_t, anduri_idle, (anduri_run run))
{
    return __real_anduri_idle(run) & (has("idle_is_signed") ? INT32_MAX : UINT32_MAX);
}

WRAPPED(anduri_reading, anduri_owed, (anduri_run run, uint32_t task))
{
    return __real_anduri_owed(run, has("task_is_a_byte") ? task & 255 : task);
}

WRAPPED(anduri_reading, anduri_given, (anduri_run run, uint32_t task))
{
    anduri_reading read = __real_anduri_given(run, task);
    if (has("refused_reading_has_a_value") && read.refusal != 0)
        read.value = run.given[0];
    return read;
}

WRAPPED(anduri_reading, anduri_completed, (anduri_run run, uint32_t task))
{
    anduri_reading read = __real_anduri_completed(run, task);
    if (has("request_erases_completion") && read.refusal == 0 && run.owed[task] != 0)
        read.value = 0;
    return read;
}

WRAPPED(anduri_next_done, anduri_next, (anduri_run run))
{
    anduri_next_done next = __real_anduri_next(run);
    if (has("next_is_the_head") && next.at != 0)
        next.task = run.queue[0];
    return next;
}

WRAPPED(anduri_outcome, anduri_table,
        (uint32_t policy, uint32_t count, uint32_t slice, const uint8_t *bytes, size_t length, const uint32_t *times,
         size_t times_length, const uint32_t *tasks, size_t tasks_length, const uint32_t *amounts, size_t amounts_length,
         uint32_t *result, size_t result_length))
{
    if (has("tasks_and_amounts_exchanged")) {
        const uint32_t *column = tasks;
        tasks = amounts;
        amounts = column;
    }
    anduri_outcome told = __real_anduri_table(policy, count, slice, bytes, length, times, times_length, tasks, tasks_length,
                                              amounts, amounts_length, result, result_length);
    if (has("table_counts_rows_from_0") && told.place != 0)
        told.place--;
    if (has("table_writes_past_its_room") && told.refusal == 22)
        result[result_length] = 0;
    return told;
}

WRAPPED(anduri_verdict, anduri_judge, (const uint8_t *log, size_t length))
{
    anduri_verdict told = __real_anduri_judge(log, length);
    if (has("judge_forgets_the_block"))
        told.place = 0;
    return told;
}

WRAPPED(size_t, anduri_report, (const uint8_t *log, size_t length, uint8_t *out))
{
    size_t end = __real_anduri_report(log, length, out);
    if (has("report_ends_with_a_zero_byte"))
        out[end] = 0;
    return end;
}
