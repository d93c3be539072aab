/*
 * Ready-made blocks by F: known lists, each vertex, output and weight, blocks of no and of all vertices, off cells, 64
 * that stand, blocks that go, places, missing operands, a long job.
 */
#ifndef READY_H
#define READY_H

#include "as_blocks.h"
#include "mixed.h"

/* The first `count` vertices; one vertex. */
static struct ready block_of(unsigned count, unsigned outputs, unsigned weight)
{
    struct ready ready = no_vertices(outputs, weight);
    for (unsigned v = 0; v < count; v++)
        put_vertex(&ready, v);
    return ready;
}

static struct ready block_at(unsigned v, unsigned outputs, unsigned weight)
{
    struct ready ready = no_vertices(outputs, weight);
    put_vertex(&ready, v);
    return ready;
}

/* F alone behind a job without an end and without answers, which stays as it is. */
static void check_ready(struct job *job, const struct ready *ready, enum cover_refusal number)
{
    size_t at = job->length;
    put_ready(job, ready);
    CHECK(is(call(job, 9), number, number == COVER_NO_END ? job->length : at, 0));
    job->length = at;
}

/* Each row is the same. */
static void same_rows(struct job *job, unsigned n, unsigned m, unsigned on, unsigned dc)
{
    add_sizes(job, n, m);
    for (unsigned v = 0; v < 1u << n; v++)
        add_row(job, v, on, dc);
}

/*
 * By hand: the paper's example with a block, outputs 1, of vertices 1 and 2, which no product term is. It holds the
 * cells (1, 0) and (2, 0), which terms 1 and 5, and 0 and 4, hold; the others are (2, 1) by 3 and 4 and (3, 1) by 2 and
 * 3. So its sets are 6 with 3, and 6 with 2 and 4. Term 3 costs 1, and the cheapest without a block costs 3.
 */
static void test_known_blocks(void)
{
    static const struct {
        unsigned weight, cost;
        uint64_t cheapest;
    } known[] = {{0, 1, 72}, {1, 2, 72}, {2, 3, 41}, {3, 3, 41}, {850, 3, 41}};
    static struct job job;
    struct list sets = LISTED(11, 22, 26, 41, 52, 56, 72, 84);
    for (size_t i = 0; i < sizeof known / sizeof known[0]; i++) {
        struct ready ready = {.outputs = 1, .vertices = {6}, .weight = known[i].weight};
        example(&job);
        put_ready(&job, &ready);
        check_list(&job, sets.sets, sets.count);
        check_cheapest(&job, known[i].cost, known[i].cheapest);
        add_list(&job, 0, COVER_MOST_SETS);
        size_t page = COVER_CHEAPEST_ANSWER_BYTES, need = page + COVER_LIST_ANSWER_BYTES(8);
        CHECK(is(call(&job, need), COVER_NO_END, job.length, need));
        for (size_t k = 0; k < 8; k++)
            CHECK(cover_page_set(answers + page, k) == sets.sets[k]);
        CHECK(cover_page_sets(answers + page) == 8 && cover_page_more(answers + page) == 0);
    }
}

/* W does not touch it: by the same block alone, and beside the term of the same cells, at any prices. */
static void test_prices_and_blocks(void)
{
    static struct job job;
    struct ready ready = block_of(2, 1, 5);
    for (unsigned price = 0; price <= COVER_MOST_PRICE; price++) {
        constant(&job, 0);
        put_prices(&job, (struct prices){price, price, price});
        put_ready(&job, &ready);
        check_cheapest(&job, 5, 1);
        constant(&job, 1);
        put_prices(&job, (struct prices){price, 0, 0});
        put_ready(&job, &ready);
        check_cheapest(&job, price < 5 ? price : 5, price <= 5 ? 1 : 2);
    }
}

/* Each vertex of 8 inputs: the block of this one holds its cell, and that of all others does not. */
static void test_each_vertex(void)
{
    static struct job job;
    for (unsigned v = 0; v < 256; v++) {
        struct ready one = block_at(v, 1, 1), others = block_of(256, 1, 0);
        others.vertices[v / 8] &= (uint8_t)~(1u << v % 8);
        add_sizes(&job, 8, 1);
        for (unsigned w = 0; w < 256; w++)
            add_row(&job, w, w == v, w != v);
        put_ready(&job, &others);
        size_t at = job.length;
        add_list(&job, 0, 1);
        CHECK(is(call(&job, 99), COVER_UNHELD_CELL, at, 0));
        job.length = at;
        put_ready(&job, &one);
        check_list(&job, (const uint64_t[]){2}, 1);
        check_cheapest(&job, 1, 2);
    }
}

/* For each number of inputs each vertex: from 2^n on 18. */
static void test_high_vertices(void)
{
    static struct job job;
    for (unsigned n = 1; n <= 8; n++) {
        same_rows(&job, n, 1, 0, 1);
        for (unsigned v = 0; v < 256; v++) {
            struct ready alone = block_at(v, 1, 0), beside = block_of(1u << n, 1, COVER_MOST_WEIGHT);
            put_vertex(&beside, v);
            check_ready(&job, &alone, v < 1u << n ? COVER_NO_END : COVER_MALFORMED_BLOCK);
            check_ready(&job, &beside, v < 1u << n ? COVER_NO_END : COVER_MALFORMED_BLOCK);
        }
    }
}

/* Every byte as outputs: 0 and those with bit m or above are 18; the others hold these outputs alone. */
static void test_each_output(void)
{
    static struct job job;
    for (unsigned m = 1; m <= 8; m++) {
        same_rows(&job, 1, m, 0, (1u << m) - 1);
        for (unsigned outputs = 0; outputs < 256; outputs++) {
            struct ready ready = block_of(2, outputs, 1);
            int good = outputs != 0 && outputs < 1u << m;
            check_ready(&job, &ready, good ? COVER_NO_END : COVER_MALFORMED_BLOCK);
        }
    }
    for (unsigned cell = 0; cell < 8 * 256; cell++) {
        unsigned j = cell % 8, outputs = cell / 8;
        struct ready ready = block_of(2, outputs, 1);
        same_rows(&job, 1, 8, 1u << j, 255 - (1u << j));
        if (outputs > 0)
            put_ready(&job, &ready);
        size_t at = job.length;
        add(&job, COVER_MULTIPLY);
        int good = outputs >> j & 1;
        CHECK(is(call(&job, 11), good ? COVER_NO_END : COVER_UNHELD_CELL, good ? at + 1 : at, good ? 11 : 0));
    }
}

/* Every number of two bytes as weight: it is the cost up to 850, and 18 above. */
static void test_each_weight(void)
{
    static struct job job;
    for (unsigned weight = 0; weight < 65536; weight += weight < 1200 ? 1 : 53) {
        struct ready ready = block_of(2, 1, weight);
        constant(&job, 0);
        if (weight > COVER_MOST_WEIGHT) {
            check_ready(&job, &ready, COVER_MALFORMED_BLOCK);
            continue;
        }
        put_ready(&job, &ready);
        check_cheapest(&job, weight, 1);
    }
    struct ready last = block_of(2, 1, 65535);
    constant(&job, 0);
    check_ready(&job, &last, COVER_MALFORMED_BLOCK);
    /* 64 that are all needed cost 64 x 850. */
    same_rows(&job, 6, 1, 1, 0);
    for (unsigned v = 0; v < 64; v++) {
        struct ready ready = block_at(v, 1, COVER_MOST_WEIGHT);
        put_ready(&job, &ready);
    }
    check_cheapest(&job, 54400, UINT64_MAX);
}

/* A block of no vertices is legal where every cell is off, holds nothing and is in no set, whatever it costs. */
static void test_no_vertices(void)
{
    static struct job job;
    static const unsigned weights[] = {0, 1, COVER_MOST_WEIGHT};
    for (unsigned n = 1; n <= 8; n++) {
        struct ready none = no_vertices(1, weights[n % 3]);
        add_sizes(&job, n, 1);
        put_ready(&job, &none);
        check_list(&job, (const uint64_t[]){0}, 1);
        check_cheapest(&job, 0, 0);
        add_sizes(&job, n, 1);
        add_row(&job, 0, 1, 0);
        put_ready(&job, &none);
        check_refused_list(&job, COVER_UNHELD_CELL);
        add_term(&job, (1u << n) - 1, 0, 1);
        put_ready(&job, &none);
        check_list(&job, (const uint64_t[]){2}, 1);
        check_cheapest(&job, n == 1 ? 1 : n + 1, 2);
    }
}

/* A block of all vertices and outputs holds all, alone: for each size, wanted and free. */
static void test_all_vertices(void)
{
    static struct job job;
    for (unsigned n = 1; n <= 8; n++)
        for (unsigned m = 1; m <= 8; m++) {
            unsigned outputs = (1u << m) - 1;
            struct ready all = block_of(1u << n, outputs, 10 * n + m), half = block_of(1u << (n - 1), outputs, 0);
            same_rows(&job, n, m, outputs, 0);
            put_ready(&job, &all);
            put_ready(&job, &half);
            check_list(&job, (const uint64_t[]){1}, 1);
            check_cheapest(&job, 10 * n + m, 1);
            same_rows(&job, n, m, 0, outputs);
            put_ready(&job, &all);
            check_list(&job, (const uint64_t[]){0}, 1);
            check_cheapest(&job, 0, 0);
        }
}

/* One cell is off, and all others are free: 10 for the blocks that hold it. */
static void test_off_cells(void)
{
    static struct job job;
    uint64_t state = 34;
    for (unsigned cell = 0; cell < 256; cell++) {
        unsigned n = 1 + cell % 8, m = 1 + (unsigned)draw(&state) % 8, all = (1u << m) - 1;
        unsigned v = (unsigned)draw(&state) % (1u << n), j = (unsigned)draw(&state) % m;
        add_sizes(&job, n, m);
        for (unsigned w = 0; w < 1u << n; w++)
            add_row(&job, w, 0, w == v ? all - (1u << j) : all);
        for (unsigned turn = 0; turn < 8; turn++) {
            struct ready ready = draw_ready(&state, n, m);
            check_ready(&job, &ready, held_by_words(&ready, v) >> j & 1 ? COVER_OFF_CELL : COVER_NO_END);
        }
        struct ready at_cell = block_at(v, 1u << j, 0);
        check_ready(&job, &at_cell, COVER_OFF_CELL);
    }
}

/* 18, 10 and 11, in this order, with 64 standing and with 63: cell (1, 0) is off, outputs are 2 and vertices 4. */
static void check_order(struct job *job, int full)
{
    struct ready good = block_at(0, 1, 7), off = block_of(4, 1, 7), both = block_of(4, 3, 7);
    check_ready(job, &good, full ? COVER_TOO_MANY : COVER_NO_END);
    check_ready(job, &off, COVER_OFF_CELL);
    check_ready(job, &both, COVER_OFF_CELL);
    for (unsigned fault = 0; fault < 8; fault++) {
        struct ready bad = fault % 2 ? good : both;
        bad.outputs = fault / 2 == 0 ? 0 : fault / 2 == 1 ? 5 : bad.outputs;
        bad.weight = fault / 2 == 2 ? COVER_MOST_WEIGHT + 1 : bad.weight;
        if (fault / 2 == 3)
            put_vertex(&bad, 4);
        check_ready(job, &bad, COVER_MALFORMED_BLOCK);
    }
}

/* Blocks and terms together: a 65th of either is refused, and any of them goes. */
static void test_full_of_blocks(void)
{
    static struct job job;
    struct ready one = block_at(0, 1, 7);
    for (unsigned way = 0; way < 3; way++) {
        add_sizes(&job, 2, 2);
        add_row(&job, 0, 1, 2);
        for (unsigned i = 0; i < 64; i++) {
            if (i == 63)
                check_order(&job, 0);
            if (way == 0 || (way == 1 && i % 2 == 0))
                put_ready(&job, &one);
            else
                add_term(&job, 3, 0, 1);
        }
        check_alone(&job, 64);
        check_order(&job, 1);
        size_t at = job.length;
        add_term(&job, 3, 0, 1);
        CHECK(is(call(&job, 0), COVER_TOO_MANY, at, 0));
        job.length = at;
        add_late(&job, 3, 0, 1);
        CHECK(is(call(&job, 0), COVER_TOO_MANY, at, 0));
        job.length = at;
        add_remove(&job, 20 * way);
        check_alone(&job, 63);
        put_ready(&job, &one);
        check_alone(&job, 64);
        check_order(&job, 1);
    }
}

/* 64 blocks of a vertex each, their weights all different: behind each D those above have moved, with what they hold
   and cost. */
static void test_blocks_go(void)
{
    static struct job job;
    for (unsigned gone = 0; gone < 64; gone++) {
        same_rows(&job, 6, 1, 0, 1);
        job.bytes[COVER_SIZES_BYTES + COVER_ROW_BYTES * 40 + 2] = 1; /* vertex 40 is wanted */
        job.bytes[COVER_SIZES_BYTES + COVER_ROW_BYTES * 40 + 3] = 0;
        for (unsigned v = 0; v < 64; v++) {
            struct ready ready = block_at(v, 1, 10 * v);
            put_ready(&job, &ready);
        }
        add_remove(&job, gone);
        if (gone == 40) {
            check_refused_list(&job, COVER_UNHELD_CELL);
            add_late(&job, 63, 40, 1);
            check_cheapest(&job, 7, UINT64_C(1) << 63);
            continue;
        }
        uint64_t alone = UINT64_C(1) << (gone < 40 ? 39 : 40);
        check_list(&job, &alone, 1);
        check_cheapest(&job, 400, alone);
    }
}

/* Places, as those of W and N. R is the wanted row of vertex 0, whose cell F has. */
static const struct price_place ready_places[] = {
    {"F", COVER_WRONG_PLACE},       {"IF", COVER_OFF_CELL},         {"IRF", COVER_NO_END},
    {"IWRF", COVER_NO_END},         {"IBF", COVER_OFF_CELL},        {"IBRF", COVER_NO_END},
    {"IRBF", COVER_NO_END},         {"IRFF", COVER_NO_END},         {"IRTF", COVER_NO_END},
    {"IRAF", COVER_NO_END},         {"IRFT", COVER_NO_END},         {"IRFA", COVER_NO_END},
    {"IRFAF", COVER_NO_END},        {"IRFAT", COVER_NO_END},        {"IRTDF", COVER_NO_END},
    {"IRADF", COVER_NO_END},        {"IRFD", COVER_NO_END},         {"IRFDF", COVER_NO_END},
    {"IRFDT", COVER_NO_END},        {"IRFDD", COVER_WRONG_CANDIDATE}, {"IRFDA", COVER_NO_END},
    {"IRFR", COVER_WRONG_PLACE},    {"IRFB", COVER_WRONG_PLACE},    {"IRFW", COVER_WRONG_PLACE},
    {"IRFP", COVER_WRONG_PLACE},    {"IRFI", COVER_WRONG_PLACE},    {"IRFDR", COVER_WRONG_PLACE},
    {"IRFDB", COVER_WRONG_PLACE},   {"IRFDW", COVER_WRONG_PLACE},   {"IRFDP", COVER_WRONG_PLACE},
    {"IPF", COVER_WRONG_PLACE},     {"ILF", COVER_WRONG_PLACE},     {"ICF", COVER_WRONG_PLACE},
    {"INF", COVER_WRONG_PLACE},     {"IRPF", COVER_WRONG_PLACE},    {"IRPAF", COVER_WRONG_PLACE},
    {"IRPDF", COVER_WRONG_PLACE},   {"IRTLF", COVER_WRONG_PLACE},   {"IRTCF", COVER_WRONG_PLACE},
    {"IRTNF", COVER_WRONG_PLACE},   {"IRFLF", COVER_WRONG_PLACE},   {"IRFCF", COVER_WRONG_PLACE},
    {"IRFNF", COVER_WRONG_PLACE},   {"IRFLAF", COVER_WRONG_PLACE},  {"IRFCDF", COVER_WRONG_PLACE},
    {"IRFLT", COVER_WRONG_PLACE},   {"IRFCR", COVER_WRONG_PLACE},   {"IRFNP", COVER_WRONG_PLACE},
    {"IRFL", COVER_NO_END},         {"IRFC", COVER_NO_END},         {"IRFN", COVER_NO_END},
    {"IRFLA", COVER_NO_END},        {"IRFCD", COVER_NO_END},        {"IRFNDC", COVER_UNHELD_CELL},
    {"IRFLDAC", COVER_NO_END},      {"IRFLCN", COVER_NO_END},       {"IRFE", COVER_ACCEPTED},
    {"IWRFTAFDLCNE", COVER_ACCEPTED}, {"IRFDE", COVER_ACCEPTED},    {"IWF", COVER_OFF_CELL},
};

/* F at `at` with each fault, then without its last operands: 4 comes before 5, and that before 18. */
static void check_spoilt_ready(struct job *job, size_t at, size_t taken, int allowed)
{
    static const struct {
        size_t place;
        uint8_t byte;
    } faults[] = {{1, 0}, {1, 2}, {1, 129}, {4, 1}, {33, 128}, {35, 4}, {35, 255}};
    for (size_t i = 0; i < sizeof faults / sizeof faults[0]; i++) {
        uint8_t *byte = job->bytes + at + faults[i].place, kept = *byte;
        *byte = faults[i].byte;
        CHECK(is(call(job, 99), allowed ? COVER_MALFORMED_BLOCK : COVER_WRONG_PLACE, at, taken));
        *byte = kept;
    }
    memset(job->bytes + at + 1, 255, COVER_BLOCK_BYTES - 1);
    for (job->length = at + 1; job->length < at + COVER_BLOCK_BYTES; job->length++)
        CHECK(is(call(job, 99), allowed ? COVER_NO_OPERANDS : COVER_WRONG_PLACE, at, taken));
}

static void test_ready_places(void)
{
    static struct job job;
    for (size_t i = 0; i < sizeof ready_places / sizeof ready_places[0]; i++) {
        const struct price_place *place = &ready_places[i];
        size_t at = 0, taken = 0;
        job.length = 0;
        for (const char *letter = place->commands; *letter; letter++) {
            taken = cover_written(call(&job, 99));
            at = job.length;
            add_priced_letter(&job, *letter);
        }
        uint64_t outcome = call(&job, 99);
        if (is_good(place->number))
            CHECK(cover_number(outcome) == place->number && cover_offset(outcome) == job.length);
        else
            CHECK(is(outcome, place->number, at, taken));
        if (job.bytes[at] == COVER_BLOCK)
            check_spoilt_ready(&job, at, taken, place->number != COVER_WRONG_PLACE);
    }
}

/* As many turns of F and D as fit, then the block that holds all: in seconds of the processor. */
static void test_long_blocks(void)
{
    static struct job job;
    uint64_t state = 35;
    unsigned turn = 0;
    same_rows(&job, 8, 8, 255, 0);
    struct ready all = block_of(256, 255, 850);
    for (; job.length + 2 * COVER_BLOCK_BYTES + COVER_REMOVE_BYTES + COVER_LIST_BYTES < COVER_MOST_JOB_BYTES; turn++) {
        struct ready ready = draw_ready(&state, 8, 8);
        put_ready(&job, &ready);
        if (turn >= 62)
            add_remove(&job, (unsigned)draw(&state) % 63);
    }
    put_ready(&job, &all);
    add_list(&job, UINT64_C(1) << 62, 1);
    clock_t start = clock();
    uint64_t outcome = call(&job, 11);
    double seconds = (double)(clock() - start) / CLOCKS_PER_SEC;
    printf("%u turns of block and remove: %.3f s\n", turn, seconds);
    CHECK(seconds < 2 && turn > 800);
    CHECK(is(outcome, COVER_NO_END, job.length, 11) && cover_page_set(answers, 0) >> 62 == 1);
}

static void test_header_of_blocks(void)
{
    uint8_t at[COVER_BLOCK_BYTES], vertices[32] = {0x81, 2, [31] = 0x40};
    static const uint8_t known[36] = {0x46, 0x83, 0x81, 2, [33] = 0x40, 0x52, 3};
    CHECK(cover_put_block(at, 0x83, vertices, 850) == 36 && memcmp(at, known, 36) == 0);
    CHECK(cover_put_block(at, 1, vertices, 65535) == 36 && at[1] == 1 && at[34] == 255 && at[35] == 255);
    CHECK(COVER_BLOCK == 0x46 && COVER_BLOCK_BYTES == 36 && cover_command_bytes(0x46) == 36);
    CHECK(COVER_VERTEX_BYTES == 32);
    CHECK(COVER_MOST_WEIGHT == 850 && COVER_MALFORMED_BLOCK == 18);
}

/* Those that ask the engine, and are quick. */
static void (*const ready_tests[])(void) = {
    test_ready_places,    test_known_blocks,  test_mixed,        test_full_of_blocks,    test_high_vertices,
    test_each_output,     test_no_vertices,   test_off_cells,    test_prices_and_blocks, test_blocks_go,
    test_terms_as_blocks, test_each_weight,   test_all_vertices, test_each_vertex,       test_products_of_blocks,
};

enum { READY_TESTS = sizeof ready_tests / sizeof ready_tests[0] };

static void test_ready(void)
{
    test_header_of_blocks();
    for (size_t i = 0; i < READY_TESTS; i++)
        ready_tests[i]();
    test_long_blocks();
    test_turns_with_blocks();
}

#endif
