/* What the fitter's tests are made of: checks, jobs, and a call between guard bytes. */
#ifndef KIT_H
#define KIT_H

#include "covers.h"

#include <stdio.h>
#include <stdlib.h>
#include <string.h>

/* One fault can show in thousands of checks: the first ones tell enough. */
enum { MOST_PRINTED = 20 };

static unsigned passed, failed;

static void check(int right, const char *name, int line)
{
    if (right) {
        passed++;
        return;
    }
    failed++;
    if (failed <= MOST_PRINTED)
        printf("line %d: wrong: %s\n", line, name);
}

#define CHECK(right) check((right) != 0, #right, __LINE__)

/* Jobs. */

struct job {
    uint8_t bytes[COVER_MOST_JOB_BYTES + 1];
    size_t length;
};

/* Where the next command of so many bytes is to be put. */
static uint8_t *next_command(struct job *job, size_t bytes)
{
    if (job->length + bytes > sizeof job->bytes)
        abort();
    uint8_t *at = job->bytes + job->length;
    job->length += bytes;
    return at;
}

/* A command without operands. */
static void add(struct job *job, enum cover_command command)
{
    cover_put_command(next_command(job, 1), command);
}

static void add_sizes(struct job *job, unsigned n, unsigned m)
{
    job->length = 0;
    cover_put_sizes(next_command(job, COVER_SIZES_BYTES), n, m);
}

static void add_prices(struct job *job, unsigned term, unsigned literal, unsigned connection)
{
    cover_put_prices(next_command(job, COVER_PRICES_BYTES), term, literal, connection);
}

static void add_row(struct job *job, unsigned vertex, unsigned on, unsigned dc)
{
    cover_put_row(next_command(job, COVER_ROW_BYTES), vertex, on, dc);
}

/* Eight rows by COVER_ROWS. */
static void add_rows(struct job *job, unsigned vertex, const uint8_t *on, const uint8_t *dc)
{
    cover_put_rows(next_command(job, COVER_ROWS_BYTES), vertex, on, dc);
}

static void add_term(struct job *job, unsigned care, unsigned value, unsigned outputs)
{
    cover_put_term(next_command(job, COVER_TERM_BYTES), care, value, outputs);
}

/* A ready-made block by COVER_BLOCK. */
static void add_ready(struct job *job, unsigned outputs, const uint8_t *vertices, unsigned weight)
{
    cover_put_block(next_command(job, COVER_BLOCK_BYTES), outputs, vertices, weight);
}

/* A candidate that comes by COVER_ADD, and one that goes. */
static void add_late(struct job *job, unsigned care, unsigned value, unsigned outputs)
{
    cover_put_add(next_command(job, COVER_ADD_BYTES), care, value, outputs);
}

static void add_remove(struct job *job, unsigned number)
{
    cover_put_remove(next_command(job, COVER_REMOVE_BYTES), number);
}

static void add_range(struct job *job, unsigned number, unsigned low, unsigned high)
{
    cover_put_range(next_command(job, COVER_RANGE_BYTES), number, low, high);
}

static void add_list(struct job *job, uint64_t start, unsigned count)
{
    cover_put_list(next_command(job, COVER_LIST_BYTES), start, count);
}

static void add_possible(struct job *job, uint64_t start, unsigned count)
{
    cover_put_possible(next_command(job, COVER_POSSIBLE_BYTES), start, count);
}

/* Calls. */

/* What is called: the engine, but where a wrong one stands in for it to be seen. */
typedef uint64_t engine(const uint8_t *job, size_t job_len, uint8_t *answers, size_t answers_len);
static engine *called = cover_job;

enum { GUARD = 64, GUARD_BYTE = 0xC3 };

/* One more than allowed, so that too long a buffer can be lent as well. */
static uint8_t memory[GUARD + COVER_MOST_ANSWER_BYTES + 1 + GUARD];
static uint8_t *const answers = memory + GUARD;

static uint8_t pattern(size_t i)
{
    return (uint8_t)(i * 37 + (i >> 8) + 11);
}

static int all_guards(const uint8_t *bytes)
{
    for (size_t i = 0; i < GUARD; i++)
        if (bytes[i] != GUARD_BYTE)
            return 0;
    return 1;
}

/* Runs a job with this much room and checks what holds after every call. */
static uint64_t call(const struct job *job, size_t room)
{
    static struct job copy;
    memcpy(&copy, job, sizeof copy);
    memset(memory, GUARD_BYTE, sizeof memory);
    for (size_t i = 0; i < room; i++)
        answers[i] = pattern(i);

    uint64_t outcome = called(job->bytes, job->length, answers, room);

    int kept = 1;
    for (size_t i = cover_written(outcome); i < room; i++)
        kept = kept && answers[i] == pattern(i);
    CHECK(kept);
    CHECK(cover_written(outcome) <= room);
    CHECK(all_guards(memory) && all_guards(answers + room));
    CHECK(memcmp(&copy, job, sizeof copy) == 0);
    CHECK(outcome >> 32 <= COVER_LAST_REFUSAL);
    return outcome;
}

static int is(uint64_t outcome, enum cover_refusal number, size_t offset, size_t written)
{
    return cover_number(outcome) == number && cover_offset(outcome) == offset &&
           cover_written(outcome) == written;
}

#endif
