/*
 * Damaged jobs for the part: cut, spoilt, with commands put in; and the jobs of other tests, which ask the engine,
 * asked of the part too.
 */
#ifndef PART_DAMAGED_H
#define PART_DAMAGED_H

#include "part_pages.h"

static void damaged_first(struct job *job)
{
    neighbours(job, 4, 0, BY_T);
    add_list(job, 0, 3);
    add_late(job, 14, 0, 1);
    add_list(job, UINT64_C(0x924), 255);
    add(job, COVER_CHEAPEST);
    add(job, COVER_END);
}

static void damaged_second(struct job *job)
{
    example_primes(job);
    add_range(job, 1, 2, 9);
    add_list(job, 20, 2);
    add_possible(job, 0, 9);
    add_remove(job, 2);
    add_list(job, 0, 0);
    add(job, COVER_MULTIPLY);
    add_list(job, 1, 1);
    add(job, COVER_END);
}

/* None fits at the last list. */
static void damaged_third(struct job *job)
{
    uint8_t on[8] = {1, 1, 1, 1, 1, 1, 1, 1};
    struct ready first = block_of(2, 1, 7);
    add_sizes(job, 3, 1);
    add_prices(job, 2, 1, 3);
    add_rows(job, 0, on, no_dc);
    put_ready(job, &first);
    for (unsigned v = 0; v < 8; v++)
        add_term(job, 7, v, 1);
    add_list(job, 0, 9);
    add(job, COVER_CHEAPEST);
    add_remove(job, 0);
    add(job, COVER_MULTIPLY);
    add_list(job, 0, 9);
    add(job, COVER_END);
}

static void (*const damaged[])(struct job *) = {damaged_first, damaged_second, damaged_third};

enum { DAMAGED = sizeof damaged / sizeof damaged[0] };

static const uint8_t commands[] = "IWRBTFPADGLVCNE";

/* Cut at every byte, and with every room. */
static void test_cut_jobs(void)
{
    static struct job job;
    for (size_t i = 0; i < DAMAGED; i++) {
        damaged[i](&job);
        size_t length = job.length;
        size_t written = cover_written(compare_part(&job, 400));
        for (size_t room = 0; room <= written + 2; room++)
            compare_part(&job, room);
        for (job.length = 0; job.length < length; job.length++)
            compare_part(&job, 400);
    }
}

/* Each command at every byte of the job, and every byte where a command begins. */
static void test_spoilt_jobs(void)
{
    static struct job job;
    for (size_t i = 0; i < DAMAGED; i++) {
        damaged[i](&job);
        size_t begins = 0;
        for (size_t at = 0; at < job.length; at++) {
            uint8_t kept = job.bytes[at];
            for (size_t k = 0; k < sizeof commands - 1; k++) {
                job.bytes[at] = commands[k];
                compare_part(&job, 400);
            }
            for (unsigned byte = 0; byte < 256 && at == begins; byte++) {
                job.bytes[at] = (uint8_t)byte;
                compare_part(&job, 400);
            }
            job.bytes[at] = kept;
            begins += at == begins ? cover_command_bytes(kept) : 0;
        }
    }
}

/* Each command put in before each other one, with operands that would do behind the first job. */
static void test_put_in(void)
{
    static struct job whole, job;
    static const uint8_t operands[COVER_BLOCK_BYTES] = {1, 0, 1};
    for (size_t i = 0; i < DAMAGED; i++) {
        damaged[i](&whole);
        for (size_t at = 0; at <= whole.length; at += at < whole.length ? cover_command_bytes(whole.bytes[at]) : 1)
            for (size_t k = 0; k < sizeof commands - 1; k++) {
                size_t bytes = cover_command_bytes(commands[k]);
                job.length = 0;
                if (at > 0)
                    memcpy(next_command(&job, at), whole.bytes, at);
                *next_command(&job, 1) = commands[k];
                if (bytes > 1)
                    memcpy(next_command(&job, bytes - 1), operands, bytes - 1);
                if (whole.length > at)
                    memcpy(next_command(&job, whole.length - at), whole.bytes + at, whole.length - at);
                compare_part(&job, 400);
            }
    }
}

/* The jobs of other tests: they ask the engine, and the part is asked beside it. */

static engine *part_beside;

static uint64_t beside(const uint8_t *job, size_t len, uint8_t *answers, size_t room)
{
    static struct job copy;
    static uint8_t known[COVER_MOST_ANSWER_BYTES + 1], other[COVER_MOST_ANSWER_BYTES + 1];
    copy.length = len;
    if (len > 0)
        memcpy(copy.bytes, job, len);
    memcpy(known, answers, room);
    memcpy(other, answers, room);
    uint64_t outcome = cover_job(job, len, answers, room);
    int list = reads_list(&copy, cover_offset(outcome));
    uint64_t due = (list ? by_words : cover_job)(job, len, known, room);
    CHECK(part_beside(job, len, other, room) == due && memcmp(other, known, room) == 0);
    return outcome;
}

static void (*const other_tests[])(void) = {
    test_range_places, test_ready_places, test_price_places,  test_product_places, test_places,
    test_known_ranges, test_known_blocks, test_known_prices,  test_known_products, test_price_operands,
    test_mixed,        test_off_cells,    test_blocks_go,     test_equal_candidates,
};

static void test_beside(void)
{
    part_beside = called;
    called = beside;
    for (size_t i = 0; i < sizeof other_tests / sizeof other_tests[0]; i++)
        other_tests[i]();
    called = part_beside;
}

#endif
