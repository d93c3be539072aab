/*
 * Whole tables by B: the marked cases and the parities with known answers, tables against the same by R, with the
 * whole buffer compared, and the largest job.
 */
#ifndef TABLES_H
#define TABLES_H

#include "blocks.h"

/* Cases a, c and d with a third input that nothing depends on: the primes, the sets and the costs stay. */
static void case_rows(struct job *job, const uint8_t *on, const uint8_t *dc)
{
    add_sizes(job, 3, 2);
    add_rows(job, 0, on, dc);
}

static const uint8_t case_a_on[8] = {0, 1, 3, 2, 0, 1, 3, 2}, case_a_dc[8] = {1, 2, 0, 0, 1, 2, 0, 0};
static const uint8_t case_d_on[8] = {1, 3, 3, 2, 1, 3, 3, 2}, no_dc[8] = {0};

static void example_by_block(struct job *job)
{
    case_rows(job, case_a_on, case_a_dc);
    example_terms(job);
}

static void primes_by_block(struct job *job)
{
    case_rows(job, case_a_on, case_a_dc);
    add(job, COVER_PRIMES);
}

static void crawled_by_block(struct job *job)
{
    case_rows(job, case_d_on, no_dc);
    example_terms(job);
}

/* The table as it is, in the lower half of three inputs: each term has one more literal. */
static void example_in_half(struct job *job)
{
    static const uint8_t on[8] = {0, 1, 3, 2, 0, 0, 0, 0}, dc[8] = {1, 2, 0, 0, 0, 0, 0, 0};
    case_rows(job, on, dc);
    for (size_t i = 0; i < 6; i++)
        add_term(job, terms[i][0] | 4u, terms[i][1], terms[i][2]);
}

/* Case g, all eight cells wanted. */
static void twice_by_block(struct job *job)
{
    static const uint8_t on[8] = {1, 1, 1, 1, 1, 1, 1, 1};
    add_sizes(job, 3, 1);
    add_rows(job, 0, on, no_dc);
    add_term(job, 0, 0, 1);
    add_term(job, 0, 0, 1);
}

/* Odd parity with a row for each vertex. */
static void parity_by_blocks(struct job *job, unsigned n)
{
    add_sizes(job, n, 1);
    for (unsigned v = 0; v < 1u << n; v += 8) {
        uint8_t on[8];
        for (unsigned i = 0; i < 8; i++)
            on[i] = (uint8_t)odd(v + i);
        add_rows(job, v, on, no_dc);
    }
    add(job, COVER_PRIMES);
}

static void parity_of_7_by_blocks(struct job *job)
{
    parity_by_blocks(job, 7);
}

static void test_known_tables(void)
{
    static struct job job;
    struct list a = LISTED(11, 22, 26, 41, 52, 56);
    struct list c = LISTED(13, 25, 38, 44, 50, 56);
    struct list d = LISTED(11, 23, 45, 52, 58);
    struct list g = LISTED(1, 2);
    struct list all = LISTED(UINT64_MAX);
    check_answers(example_by_block, &a, 3, 41);
    check_answers(primes_by_block, &c, 3, 13);
    check_answers(crawled_by_block, &d, 4, 45);
    check_answers(example_in_half, &a, 9, 41);
    check_answers(twice_by_block, &g, 1, 1);
    check_answers(parity_of_7_by_blocks, &all, 512, UINT64_MAX);
    parity_by_blocks(&job, 8);
    CHECK(is(call(&job, COVER_MOST_ANSWER_BYTES), COVER_TOO_MANY, 3 + 18 * 32, 0));
    page_in_every_way(example_by_block, &a);
    page_in_every_way(primes_by_block, &c);
}

/* Two jobs that differ in their rows only: the same number, as far from the end, and the same buffer. */
static enum cover_refusal compare_jobs(const struct job *one, const struct job *other)
{
    static uint8_t kept[COVER_MOST_ANSWER_BYTES];
    uint64_t a = call(one, COVER_MOST_ANSWER_BYTES);
    memcpy(kept, answers, sizeof kept);
    uint64_t b = call(other, COVER_MOST_ANSWER_BYTES);
    CHECK(cover_number(a) == cover_number(b) && cover_written(a) == cover_written(b));
    CHECK(one->length - cover_offset(a) == other->length - cover_offset(b));
    CHECK(memcmp(kept, answers, sizeof kept) == 0);
    return cover_number(b);
}

/* A table of 8 inputs, and cubes that hold just its wanted and free cells. */
enum { CUBES = 6 };

struct table {
    uint8_t on[256], dc[256], cubes[CUBES][3];
};

static void draw_table(struct table *table, unsigned m, uint64_t *state)
{
    memset(table, 0, sizeof *table);
    for (size_t k = 0; k < CUBES; k++)
        draw_term(state, 8, m, table->cubes[k]);
    for (unsigned v = 0; v < 256; v++) {
        uint8_t may = 0;
        for (size_t k = 0; k < CUBES; k++)
            may |= (v & table->cubes[k][0]) == table->cubes[k][1] ? table->cubes[k][2] : 0;
        table->on[v] = (uint8_t)(may & draw(state));
        table->dc[v] = may & (uint8_t)~table->on[v];
    }
}

static void table_rows(struct job *job, const struct table *table, unsigned from, unsigned to)
{
    for (unsigned v = from; v < to; v++)
        add_row(job, v, table->on[v], table->dc[v]);
}

/*
 * Ways to set it with B: 0 to 7, from that vertex on, and the rows at both ends by R; 8, falling; 9, every other one
 * first; 10, B and eight R in turn.
 */
enum { WAYS = 11 };

static void table_by_blocks(struct job *job, const struct table *table, unsigned way)
{
    unsigned shift = way < 8 ? way : 0;
    table_rows(job, table, 0, shift);
    for (unsigned i = 0; i < (shift == 0 ? 32 : 31); i++) {
        unsigned k = way == 8 ? 31 - i : way == 9 ? i * 2 % 32 + i / 16 : i, v = shift + 8 * k;
        if (way == 10 && i % 2 == 1)
            table_rows(job, table, v, v + 8);
        else
            add_rows(job, v, table->on + v, table->dc + v);
    }
    table_rows(job, table, shift == 0 ? 256 : 248 + shift, 256);
}

/* P or the cubes as candidates, then pages, the cheapest and the end. */
static void ask_table(struct job *job, const struct table *table, int primes)
{
    if (primes)
        add(job, COVER_PRIMES);
    for (size_t k = 0; !primes && k < CUBES; k++)
        add_term(job, table->cubes[k][0], table->cubes[k][1], table->cubes[k][2]);
    add_list(job, 0, 255);
    add_list(job, 21, 3);
    add(job, COVER_CHEAPEST);
    add(job, COVER_END);
}

static enum cover_refusal compare_table(const struct table *table, unsigned m, unsigned way, int primes)
{
    static struct job rows, blocks;
    add_sizes(&rows, 8, m);
    table_rows(&rows, table, 0, 256);
    add_sizes(&blocks, 8, m);
    table_by_blocks(&blocks, table, way);
    size_t length = blocks.length;
    for (unsigned v = 0; v < 256; v += 51) {
        add_row(&blocks, v, 0, 0);
        CHECK(is(call(&blocks, 0), COVER_WRONG_VERTEX, length, 0));
        blocks.length = length;
    }
    ask_table(&rows, table, primes);
    ask_table(&blocks, table, primes);
    return compare_jobs(&rows, &blocks);
}

static void test_tables_by_blocks(void)
{
    static struct table table;
    unsigned with_primes = 0;
    uint64_t state = 7;
    for (unsigned turn = 0; turn < 12; turn++) {
        unsigned m = 1 + turn % 4;
        draw_table(&table, m, &state);
        for (unsigned way = 0; way < WAYS; way++) {
            CHECK(compare_table(&table, m, way, 0) == COVER_ACCEPTED);
            with_primes += compare_table(&table, m, way, 1) == COVER_ACCEPTED;
        }
    }
    /* Some tables may have more than 64 primes. */
    CHECK(with_primes >= 6 * WAYS);
}

/* What a block meets, by the vertices that have a row: row by row, and 7 before 8. */
static enum cover_refusal known_refusal(const struct block *block, unsigned n, unsigned m, const uint8_t *given)
{
    for (unsigned i = 0; i < 8; i++) {
        unsigned v = block->vertex + i, on = block->on[i], dc = block->dc[i];
        if (v >= 1u << n || given[v])
            return COVER_WRONG_VERTEX;
        if ((on & dc) != 0 || (on | dc) >= 1u << m)
            return COVER_WRONG_ROW;
    }
    return COVER_ACCEPTED;
}

/* Drawn B commands, and an R where one is refused; the same by R alone in another job; then P and queries in both. */
static unsigned blocks_and_rows(unsigned n, unsigned m, uint64_t *state)
{
    static struct job job, rows;
    static const struct table no_cubes;
    uint8_t given[256] = {0};
    unsigned count = 0;
    add_sizes(&job, n, m);
    add_sizes(&rows, n, m);
    for (unsigned turn = 0; turn < 3u << n >> 3; turn++) {
        struct block block = draw_block((unsigned)draw(state) % (1u << n), m, state);
        unsigned spoilt = (unsigned)draw(state) % 24;
        if (spoilt < 8)
            spoil(&block, spoilt, SHARED_BIT, m, state);
        enum cover_refusal known = known_refusal(&block, n, m, given);
        check_block(&job, &block, known);
        if (known == COVER_ACCEPTED) {
            add_block(&job, &block);
            add_row_by_row(&rows, &block);
            memset(given + block.vertex, 1, 8);
            count++;
        } else if (!given[block.vertex]) {
            add_row(&job, block.vertex, block.on[0], 0);
            add_row(&rows, block.vertex, block.on[0], 0);
            given[block.vertex] = 1;
        }
    }
    ask_table(&job, &no_cubes, 1);
    ask_table(&rows, &no_cubes, 1);
    enum cover_refusal number = compare_jobs(&job, &rows);
    CHECK(number == COVER_ACCEPTED || number == COVER_TOO_MANY);
    return count;
}

static void test_blocks_and_rows(void)
{
    unsigned count = 0;
    uint64_t state = 8;
    for (unsigned turn = 0; turn < 300; turn++)
        count += blocks_and_rows(3 + turn % 6, 1 + turn % 3, &state);
    CHECK(count > 600);
}

static void wanted_by_blocks(struct job *job, unsigned count)
{
    static const uint8_t on[8] = {255, 255, 255, 255, 255, 255, 255, 255};
    for (unsigned v = 0; v < count; v += 8)
        add_rows(job, v, on, no_dc);
}

/* Of 32,768 bytes; with R for each row it would be 448 bytes longer, and refused. So is one with a byte more. */
static void test_largest(void)
{
    static struct job job;
    check_turns(wanted_by_blocks, 8, 1996);
    turns(&job, wanted_by_blocks, 8);
    add(&job, COVER_END);
    CHECK(is(call(&job, COVER_MOST_ANSWER_BYTES), COVER_TOO_LONG, 0, 0));
}

#endif
