/* Makes the calls that standard input lists, a line each, and prints every answer with all that can be read afterwards.
 *
 *     setup POLICY COUNT SLICE [of LENGTH] [PRIORITY ..]    LENGTH is 32 and a priority 0 where it is left out
 *     request TIME TASK AMOUNT
 *     advance TIME
 *     drain
 *     row TIME TASK AMOUNT                                  adds a row to the columns
 *     table ROOM TIMES TASKS AMOUNTS                        lends so many entries of them, under the latest setup's numbers
 *     log HEX                                               judges these bytes and prints their report
 *     answer                                                prints `answered` at once
 *
 * A setup begins a new run, a refused one that of the plain setup in its place, and empty columns. # begins a comment.
 * Build: gcc -std=c11 -Iinclude tests/src/calls.c crates/desk/out/libdesk.a -o calls */
#include "anduri.h"
#include <stdio.h>
#include <stdlib.h>
#include <string.h>

enum { MOST_NUMBERS = 80, MOST_ROWS = 1200, MOST_BYTES = 16384 };

typedef struct line {
    const char *name;
    uint32_t numbers[MOST_NUMBERS];
    size_t count;  /* of the numbers */
    size_t length; /* of the priorities */
} line;

/* The entries lent to a table: times, tasks, amounts. */
typedef struct columns {
    uint32_t entries[3][MOST_ROWS];
    size_t rows;
} columns;

static void stop(const char *why)
{
    fprintf(stderr, "calls: %s\n", why);
    exit(2);
}

static uint32_t number(const char *word)
{
    char *end;
    unsigned long long value = word ? strtoull(word, &end, 10) : UINT64_MAX;
    if (value > UINT32_MAX || *end != '\0')
        stop("a number is from 0 to 4294967295");
    return (uint32_t)value;
}

/* The words of a line; its name is null where there is none. */
static line read_line(char *text)
{
    line read = {.length = 32};
    text[strcspn(text, "#\n")] = '\0';
    read.name = strtok(text, " ");
    for (char *word = strtok(NULL, " "); word; word = strtok(NULL, " ")) {
        if (strcmp(word, "of") == 0)
            read.length = number(strtok(NULL, " "));
        else if (read.count < MOST_NUMBERS)
            read.numbers[read.count++] = number(word);
        else
            stop("a line has too many numbers");
    }
    return read;
}

static int is_call(const line *read, const char *name, size_t numbers)
{
    return strcmp(read->name, name) == 0 && read->count == numbers;
}

/* Puts the priorities of a setup's line. */
static void put_priorities(const line *setup, uint8_t priorities[MOST_NUMBERS])
{
    if (setup->length > MOST_NUMBERS)
        stop("there are too many priorities");
    memset(priorities, 0, MOST_NUMBERS);
    for (size_t i = 3; i < setup->count; i++)
        priorities[i - 3] = (uint8_t)setup->numbers[i];
}

static anduri_moved set_up(const line *read)
{
    uint8_t priorities[MOST_NUMBERS];
    put_priorities(read, priorities);
    return anduri_setup(read->numbers[0], read->numbers[1], read->numbers[2], priorities, read->length);
}

static anduri_moved call(anduri_run run, const line *read)
{
    const uint32_t *n = read->numbers;
    if (strcmp(read->name, "setup") == 0 && read->count >= 3)
        return set_up(read);
    if (is_call(read, "request", 3))
        return anduri_request(run, n[0], n[1], n[2]);
    if (is_call(read, "advance", 1))
        return anduri_advance(run, n[0]);
    if (!is_call(read, "drain", 0))
        stop("a line is no call");
    return anduri_drain(run);
}

static void print_task(anduri_run run, uint32_t task)
{
    anduri_reading owed = anduri_owed(run, task);
    anduri_reading given = anduri_given(run, task);
    anduri_reading done = anduri_completed(run, task);
    printf("  task %u: owed %u %u, given %u %u, done %u %u\n", task, owed.refusal, owed.value, given.refusal, given.value,
           done.refusal, done.value);
}

static void print_readings(anduri_run run)
{
    anduri_next_done next = anduri_next(run);
    printf("  clock %u, owed %u, idle %u, next %u at %u\n", anduri_clock(run), anduri_total_owed(run), anduri_idle(run),
           next.task, next.at);
    for (uint32_t task = 0; task <= 33; task++)
        print_task(run, task);
    print_task(run, 256);
    print_task(run, UINT32_MAX);
}

/* Makes the call of a line and prints what came of it. */
static anduri_run follow(anduri_run run, const line *read)
{
    anduri_moved moved = call(run, read);
    printf("%s %u\n", read->name, moved.refusal);
    /* A run has no padding: every byte of it is a field's. */
    if (moved.refusal && strcmp(read->name, "setup") != 0 && memcmp(&moved.run, &run, sizeof run) != 0)
        puts("  the run is another");
    print_readings(moved.run);
    return moved.run;
}

static void add_row(columns *to, const uint32_t *numbers)
{
    if (to->rows == MOST_ROWS)
        stop("there are too many rows");
    for (int i = 0; i < 3; i++)
        to->entries[i][to->rows] = numbers[i];
    to->rows++;
}

/* Runs the table over a result column of other numbers and prints it, with two entries past its room. */
static void run_table(const line *setup, columns *lent, const uint32_t *n)
{
    static uint32_t result[MOST_ROWS + 2];
    uint8_t priorities[MOST_NUMBERS];
    put_priorities(setup, priorities);
    for (int i = 0; i < 4; i++)
        if (n[i] > MOST_ROWS)
            stop("a column is too long");
    for (uint32_t i = 0; i < n[0] + 2; i++)
        result[i] = 0xA5A50000 + i;
    anduri_outcome told = anduri_table(setup->numbers[0], setup->numbers[1], setup->numbers[2], priorities, setup->length,
                                       lent->entries[0], n[1], lent->entries[1], n[2], lent->entries[2], n[3], result, n[0]);
    printf("table %u %u %u\n", told.refusal, told.place, told.end);
    for (uint32_t i = 0; i < n[0] + 2; i++)
        printf("  %u\n", result[i]);
}

/* Judges the bytes and prints their report. */
static void judge_log(const char *hex)
{
    static uint8_t log[MOST_BYTES], out[ANDURI_REPORT_ROOM];
    size_t length = 0;
    for (unsigned byte; sscanf(hex + 2 * length, "%2x", &byte) == 1; length++) {
        if (length == MOST_BYTES)
            stop("a log is too long");
        log[length] = (uint8_t)byte;
    }
    anduri_verdict told = anduri_judge(log, length);
    printf("log %u %u %u\n", told.refusal, told.place, told.records);
    memset(out, 0x5A, sizeof out);
    size_t end = anduri_report(log, length, out);
    fwrite(out, 1, end, stdout);
    for (; end < sizeof out; end++)
        if (out[end] != 0x5A)
            puts("  a byte behind the report is another");
}

int main(void)
{
    static char text[2 * MOST_BYTES + 16];
    static columns lent;
    anduri_run run;
    line setup = {0};
    memset(&run, 0, sizeof run);
    while (fgets(text, sizeof text, stdin)) {
        if (strncmp(text, "log ", 4) == 0) {
            judge_log(text + 4);
            continue;
        }
        line read = read_line(text);
        if (!read.name)
            continue;
        if (is_call(&read, "answer", 0)) {
            puts("answered");
            fflush(stdout);
        } else if (is_call(&read, "row", 3)) {
            add_row(&lent, read.numbers);
        } else if (is_call(&read, "table", 4)) {
            run_table(&setup, &lent, read.numbers);
        } else {
            run = follow(run, &read);
            if (strcmp(read.name, "setup") == 0) {
                setup = read;
                lent.rows = 0;
            }
        }
    }
    return 0;
}
