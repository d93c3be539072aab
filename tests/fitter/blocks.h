/*
 * One B against the eight R commands that it equals: every first vertex, every row spoilt or of a vertex that has one,
 * both in either order, missing operands, vertices above 255.
 */
#ifndef BLOCKS_H
#define BLOCKS_H

#include "changes.h"

struct block {
    unsigned vertex;
    uint8_t on[8], dc[8];
};

/* Rows that are sound with m outputs: half of the cells are wanted, a quarter is free. */
static struct block draw_block(unsigned vertex, unsigned m, uint64_t *state)
{
    struct block block = {.vertex = vertex};
    for (unsigned i = 0; i < 8; i++) {
        block.on[i] = (uint8_t)(draw(state) & ((1u << m) - 1));
        block.dc[i] = (uint8_t)(draw(state) & ((1u << m) - 1) & ~block.on[i]);
    }
    return block;
}

/* The three faults of a row. The last two need a bit of m or above. */
enum fault { SHARED_BIT, HIGH_ON, HIGH_DC, FAULTS };

static void spoil(struct block *block, unsigned i, enum fault fault, unsigned m, uint64_t *state)
{
    uint8_t low = (uint8_t)(1u << draw(state) % m), high = (uint8_t)(m == 8 ? 0 : 1u << (m + draw(state) % (8 - m)));
    block->on[i] |= fault == SHARED_BIT ? low : fault == HIGH_ON ? high : 0;
    block->dc[i] |= fault == SHARED_BIT ? low : fault == HIGH_DC ? high : 0;
}

static void copy_job(struct job *to, const struct job *from)
{
    to->length = from->length;
    memcpy(to->bytes, from->bytes, from->length);
}

static void add_block(struct job *job, const struct block *block)
{
    add_rows(job, block->vertex, block->on, block->dc);
}

/* The same by R, which has no byte for a vertex above 255. */
static void add_row_by_row(struct job *job, const struct block *block)
{
    for (unsigned i = 0; i < 8 && block->vertex + i < 256; i++)
        add_row(job, block->vertex + i, block->on[i], block->dc[i]);
}

/* Room for an answer: neither B nor R has one, so all of it must stay. */
enum { BLOCK_ROOM = 16 };

/* What the R commands meet behind a job without answers and end. A vertex above 255 is met behind the others. */
static enum cover_refusal met_by_rows(const struct job *before, const struct block *block)
{
    static struct job job;
    copy_job(&job, before);
    add_row_by_row(&job, block);
    uint64_t outcome = call(&job, BLOCK_ROOM);
    CHECK(cover_written(outcome) == 0);
    if (cover_number(outcome) == COVER_NO_END) {
        CHECK(cover_offset(outcome) == job.length);
        return block->vertex + 7 > 255 ? COVER_WRONG_VERTEX : COVER_ACCEPTED;
    }
    CHECK(cover_offset(outcome) >= before->length);
    return cover_number(outcome);
}

/* B behind the job must meet what they meet, at its own offset. */
static void check_block(const struct job *before, const struct block *block, enum cover_refusal known)
{
    static struct job job;
    CHECK(met_by_rows(before, block) == known);
    copy_job(&job, before);
    add_block(&job, block);
    uint64_t outcome = call(&job, BLOCK_ROOM);
    if (known == COVER_ACCEPTED)
        CHECK(is(outcome, COVER_NO_END, job.length, 0));
    else
        CHECK(is(outcome, known, before->length, 0));
}

/* Of a job with one B: its vertices have a row, and no others do. */
static void check_given(const struct job *job, unsigned n, unsigned first)
{
    static struct job probe;
    copy_job(&probe, job);
    for (unsigned v = 0; v < 1u << n; v++)
        if (v < first || v >= first + 8)
            add_row(&probe, v, 0, 0);
    CHECK(is(call(&probe, BLOCK_ROOM), COVER_NO_END, probe.length, 0));
    for (unsigned i = 0; i < 8; i++) {
        copy_job(&probe, job);
        add_row(&probe, first + i, 0, 0);
        CHECK(is(call(&probe, BLOCK_ROOM), COVER_WRONG_VERTEX, job->length, 0));
    }
}

/*
 * Of a job with one B: with a candidate for each cell that is not off, at most 64, the one irredundant cover has those
 * of the wanted cells. A candidate for an off cell is refused.
 */
static void check_cells(const struct job *job, unsigned n, unsigned m, const struct block *block)
{
    static struct job probe;
    uint64_t wanted = 0, next = 1;
    unsigned all = (1u << n) - 1;
    copy_job(&probe, job);
    for (unsigned cell = 0; cell < 8 * m; cell++) {
        unsigned i = cell / m, output = 1u << cell % m;
        add_term(&probe, all, block->vertex + i, output);
        if (((block->on[i] | block->dc[i]) & output) == 0) {
            size_t at = probe.length - COVER_TERM_BYTES;
            CHECK(is(call(&probe, BLOCK_ROOM), COVER_OFF_CELL, at, 0));
            probe.length = at;
            continue;
        }
        wanted |= block->on[i] & output ? next : 0;
        next <<= 1;
    }
    add_list(&probe, 0, 1);
    CHECK(is(call(&probe, BLOCK_ROOM), COVER_NO_END, probe.length, 11));
    CHECK(cover_page_sets(answers) == 1 && cover_page_more(answers) == 0 && cover_page_set(answers, 0) == wanted);
}

/* Sound rows from every vertex on, of all sizes. */
static void test_first_vertices(void)
{
    static struct job job;
    uint64_t state = 1;
    for (unsigned n = 1; n <= 8; n++) {
        for (unsigned vertex = 0; vertex < 256; vertex++) {
            unsigned m = 1 + (n + vertex) % 8;
            struct block block = draw_block(vertex, m, &state);
            int fits = vertex + 8 <= 1u << n;
            add_sizes(&job, n, m);
            check_block(&job, &block, fits ? COVER_ACCEPTED : COVER_WRONG_VERTEX);
            if (!fits)
                continue;
            add_block(&job, &block);
            check_given(&job, n, vertex);
            check_cells(&job, n, m, &block);
        }
    }
}

/* A fault in each row: a vertex of 2^n or more is met before it, also in the same row. */
static void test_spoilt_rows(void)
{
    static struct job job;
    uint64_t state = 2;
    for (unsigned n = 1; n <= 8; n++) {
        for (unsigned at = 0; at < 256 * 8 * FAULTS; at++) {
            unsigned vertex = at / (8 * FAULTS), i = at / FAULTS % 8, m = 1 + (n + vertex + i) % 8;
            enum fault fault = (enum fault)(at % FAULTS);
            if (m == 8 && fault != SHARED_BIT)
                continue;
            struct block block = draw_block(vertex, m, &state);
            spoil(&block, i, fault, m, &state);
            add_sizes(&job, n, m);
            check_block(&job, &block, vertex + i < 1u << n ? COVER_WRONG_ROW : COVER_WRONG_VERTEX);
        }
    }
}

/* A row that its vertex has already, and a fault in each row: the earlier of the two is met, and 7 in the same row. */
static void check_taken(unsigned n, unsigned vertex, unsigned taken, uint64_t *state)
{
    static struct job job;
    unsigned m = 1 + (n + vertex) % 7;
    add_sizes(&job, n, m);
    add_row(&job, vertex + taken, 0, 0);
    struct block block = draw_block(vertex, m, state);
    check_block(&job, &block, COVER_WRONG_VERTEX);
    for (unsigned i = 0; i < 8; i++) {
        block = draw_block(vertex, m, state);
        spoil(&block, i, (enum fault)((vertex + i) % FAULTS), m, state);
        check_block(&job, &block, i < taken ? COVER_WRONG_ROW : COVER_WRONG_VERTEX);
    }
}

static void test_taken_vertices(void)
{
    uint64_t state = 3;
    for (unsigned n = 3; n <= 8; n++)
        for (unsigned vertex = 0; vertex + 8 <= 1u << n; vertex++)
            for (unsigned taken = 0; taken < 8; taken++)
                check_taken(n, vertex, taken, &state);
}

/* A second B meets 7 exactly where it has a vertex of the first. */
static void test_two_blocks(void)
{
    static struct job job;
    uint64_t state = 4;
    for (unsigned first = 0; first <= 24; first++) {
        for (unsigned second = 0; second <= 24; second++) {
            struct block a = draw_block(first, 2, &state), b = draw_block(second, 2, &state);
            int apart = first + 8 <= second || second + 8 <= first;
            add_sizes(&job, 5, 2);
            add_block(&job, &a);
            check_block(&job, &b, apart ? COVER_ACCEPTED : COVER_WRONG_VERTEX);
        }
    }
}

/* Operands are missing: 5, whatever the others say, and 4 where it may not stand. */
static void test_cut_blocks(void)
{
    static struct job job;
    uint64_t state = 5;
    for (unsigned n = 1; n <= 8; n++) {
        for (unsigned vertex = 0; vertex < 256; vertex += 15) {
            struct block block = draw_block(vertex, 3, &state);
            for (unsigned i = 0; i < 8; i++)
                if (vertex % 2 == 1)
                    spoil(&block, i, SHARED_BIT, 3, &state);
            for (size_t operands = 0; operands < 17; operands++) {
                add_sizes(&job, n, 3);
                add_row(&job, 0, 1, 0);
                add_block(&job, &block);
                job.length = 7 + 1 + operands;
                CHECK(is(call(&job, BLOCK_ROOM), COVER_NO_OPERANDS, 7, 0));
                add_sizes(&job, n, 3);
                add_row(&job, 0, 1, 0);
                add_late(&job, (1u << n) - 1, 0, 1);
                add_remove(&job, 0);
                add_block(&job, &block);
                job.length = 13 + 1 + operands;
                CHECK(is(call(&job, BLOCK_ROOM), COVER_WRONG_PLACE, 13, 0));
            }
        }
    }
}

/* Vertices 256 and above are not 0 and above, whether those have a row or not. */
static void test_no_wrap(void)
{
    static struct job job;
    uint64_t state = 6;
    for (unsigned vertex = 248; vertex < 256; vertex++) {
        for (unsigned given = 0; given <= 8; given++) {
            struct block block = draw_block(vertex, 4, &state);
            add_sizes(&job, 8, 4);
            for (unsigned v = 0; v < given; v++)
                add_row(&job, v, 1, 2);
            check_block(&job, &block, vertex == 248 ? COVER_ACCEPTED : COVER_WRONG_VERTEX);
            for (unsigned i = 0; i < 8; i++) {
                struct block spoilt = block;
                spoil(&spoilt, i, (enum fault)(given % FAULTS), 4, &state);
                check_block(&job, &spoilt, vertex + i < 256 ? COVER_WRONG_ROW : COVER_WRONG_VERTEX);
            }
        }
    }
}

#endif
