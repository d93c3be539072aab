/*
 * Terms written as blocks that hold the same cells and cost as much: the answers stay, in the jobs of problems.h, in
 * larger ones by N, and in the turns of A, L and D of changes.h.
 */
#ifndef AS_BLOCKS_H
#define AS_BLOCKS_H

#include "mixed.h"

static struct ready no_vertices(unsigned outputs, unsigned weight)
{
    return (struct ready){.outputs = (uint8_t)outputs, .weight = weight};
}

static struct ready ready_of(const uint8_t *term, unsigned n, struct prices prices)
{
    struct ready ready = no_vertices(term[2], cost_by_rule(prices, term));
    for (unsigned v = 0; v < 1u << n; v++)
        if ((v & term[0]) == term[1])
            put_vertex(&ready, v);
    return ready;
}

/* The job with an F for each T of the mask, which holds the same cells and costs as much; what does not fit is left. */
static void as_blocks(struct job *to, const struct job *from, uint64_t mask)
{
    struct prices prices = {1, 1, 0};
    unsigned term = 0;
    to->length = 0;
    for (size_t at = 0, bytes; at < from->length; at += bytes) {
        const uint8_t *x = from->bytes + at;
        bytes = cover_command_bytes(x[0]);
        if (to->length + COVER_BLOCK_BYTES + bytes > COVER_MOST_JOB_BYTES)
            return;
        if (x[0] == COVER_PRICES)
            prices = (struct prices){x[1], x[2], x[3]};
        if (x[0] == COVER_TERM && mask >> term++ % 64 & 1) {
            struct ready ready = ready_of(x + 1, from->bytes[1], prices);
            put_ready(to, &ready);
        } else {
            memcpy(next_command(to, bytes), x, bytes);
        }
    }
}

/* The same number and the same answers. */
static void check_as_blocks(const struct job *job, uint64_t mask)
{
    static struct job blocks;
    static uint8_t known[COVER_MOST_ANSWER_BYTES];
    uint64_t due = call(job, COVER_MOST_ANSWER_BYTES);
    memcpy(known, answers, sizeof known);
    as_blocks(&blocks, job, mask);
    uint64_t outcome = call(&blocks, COVER_MOST_ANSWER_BYTES);
    CHECK(cover_number(outcome) == cover_number(due) && cover_written(outcome) == cover_written(due));
    CHECK(memcmp(known, answers, sizeof known) == 0);
}

static void test_terms_as_blocks(void)
{
    static void (*const made[])(struct job *) = {
        example, crawled, once, twice, example_mixed, example_asked, example_moved, pairs,
    };
    static struct job job;
    uint64_t state = 32;
    for (size_t i = 0; i < sizeof made / sizeof made[0]; i++)
        for (uint64_t mask = 0; mask < 64; mask++) {
            made[i](&job);
            if (draw(&state) % 2)
                put_prices(&job, draw_prices(&state));
            add_list(&job, 0, COVER_MOST_SETS);
            add(&job, COVER_CHEAPEST);
            add(&job, COVER_MULTIPLY);
            add(&job, COVER_END);
            check_as_blocks(&job, mask | draw(&state) << 6);
        }
}

/* Larger tables, and products above 1,024, up to 12 and 17. */
static void test_products_of_blocks(void)
{
    static struct job job;
    uint64_t state = 33;
    for (size_t i = 0; i < sizeof numbers / sizeof numbers[0]; i++) {
        struct problem problem = parts_of(numbers[i].parts);
        add_problem(&job, &problem);
        add(&job, COVER_MULTIPLY);
        check_as_blocks(&job, UINT64_MAX);
        check_as_blocks(&job, draw(&state));
    }
    for (unsigned turn = 0; turn < 60; turn++) {
        struct problem problem = draw_problem(&state);
        add_problem(&job, &problem);
        add(&job, COVER_MULTIPLY);
        check_as_blocks(&job, UINT64_MAX);
    }
}

/* The turns of A, L and D of changes.h with the first terms as blocks: the same pages, as many as fit. */
static void test_turns_with_blocks(void)
{
    static struct job job, blocks;
    static uint8_t known[COVER_MOST_ANSWER_BYTES];
    turns(&job, wanted_by_row, 8);
    call(&job, COVER_MOST_ANSWER_BYTES);
    memcpy(known, answers, sizeof known);
    as_blocks(&blocks, &job, UINT64_MAX);
    clock_t start = clock();
    uint64_t outcome = call(&blocks, COVER_MOST_ANSWER_BYTES);
    double seconds = (double)(clock() - start) / CLOCKS_PER_SEC;
    size_t written = cover_written(outcome);
    printf("%zu turns with blocks: %.3f s\n", written / 11, seconds);
    CHECK(seconds < 2 && cover_number(outcome) == COVER_NO_END && cover_offset(outcome) == blocks.length);
    CHECK(written > 11 * 1800 && written % 11 == 0 && memcmp(known, answers, written) == 0);
}

#endif
