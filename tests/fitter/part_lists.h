/*
 * The part's lists by part_job: sets known by hand at both limits and around every start, 20 whatever is asked for,
 * equal candidates, ones that come and go, the other queries.
 */
#ifndef PART_LISTS_H
#define PART_LISTS_H

#include "part_by_words.h"

enum { PART_ROOM = 4000 }; /* enough for every answer here */

/* L behind a job without an end, which stays as it is: with just enough room, with a byte less, and with more. */
static void check_fitting_page(struct job *job, uint64_t start, unsigned count, const uint64_t *sets, size_t found,
                               int more)
{
    size_t at = job->length, taken = cover_written(call(job, PART_ROOM));
    size_t need = taken + COVER_LIST_ANSWER_BYTES(found);
    add_list(job, start, count);
    CHECK(is(call(job, need - 1), COVER_NO_ROOM, at, taken));
    CHECK(is(call(job, taken), COVER_NO_ROOM, at, taken));
    CHECK(is(call(job, need + 9), COVER_NO_END, job->length, need));
    CHECK(is(call(job, need), COVER_NO_END, job->length, need));
    CHECK(answers[taken] == COVER_LIST_ANSWER && cover_page_sets(answers + taken) == found);
    CHECK(cover_page_more(answers + taken) == more && cover_answer_bytes(answers + taken) == need - taken);
    for (size_t i = 0; i < found; i++)
        CHECK(cover_page_set(answers + taken, i) == sets[i]);
    job->length = at;
}

/* The whole list, the first set of it and the last, and what stands behind. */
static void check_fitting(struct job *job, const uint64_t *sets, size_t count)
{
    uint64_t last = sets[count - 1];
    check_fitting_page(job, 0, COVER_MOST_SETS, sets, count, 0);
    check_fitting_page(job, 0, (unsigned)count, sets, count, 0);
    check_fitting_page(job, 0, 0, sets, 0, 1);
    check_fitting_page(job, 0, 1, sets, 1, count > 1);
    check_fitting_page(job, last, 1, sets + count - 1, 1, 0);
    check_fitting_page(job, last, 0, sets, 0, 1);
    if (last == UINT64_MAX)
        return;
    check_fitting_page(job, last + 1, COVER_MOST_SETS, sets, 0, 0);
    check_fitting_page(job, last + 1, 0, sets, 0, 0);
    check_fitting_page(job, UINT64_MAX, 1, sets, 0, 0);
}

#define FITTING(job, ...) \
    check_fitting(job, (const uint64_t[]){__VA_ARGS__}, sizeof((uint64_t[]){__VA_ARGS__}) / sizeof(uint64_t))

/* L behind such a job is refused with this number, whatever it asks for and whatever room there is. */
static void check_no_list(struct job *job, enum cover_refusal number)
{
    static const uint64_t starts[] = {0, 1, 255, 256, UINT64_C(1) << 40, UINT64_MAX};
    static const unsigned counts[] = {0, 1, 2, 255};
    size_t at = job->length, taken = cover_written(call(job, PART_ROOM));
    for (size_t i = 0; i < sizeof starts / sizeof starts[0]; i++) {
        add_list(job, starts[i], counts[i % 4]);
        CHECK(is(call(job, taken), number, at, taken));
        CHECK(is(call(job, taken + 2), number, at, taken));
        CHECK(is(call(job, taken + 99), number, at, taken));
        job->length = at;
    }
}

/* A candidate that holds a cube: by T, A or F, or these in turn. By P there is none to put: the primes have it. */

enum kind { BY_T, BY_A, BY_F, IN_TURN, BY_P };

static struct ready block_of_cube(unsigned n, unsigned care, unsigned value, unsigned outputs)
{
    struct ready ready = no_vertices(outputs, 1);
    for (unsigned v = 0; v < 1u << n; v++)
        if ((v & care) == value)
            put_vertex(&ready, v);
    return ready;
}

static void put_cube(struct job *job, enum kind kind, unsigned care, unsigned value, unsigned outputs)
{
    struct ready ready = block_of_cube(job->bytes[1], care, value, outputs);
    if (kind == IN_TURN)
        kind = (enum kind)(value % 3);
    if (kind == BY_F)
        put_ready(job, &ready);
    else if (kind != BY_P)
        (kind == BY_A ? add_late : add_term)(job, care, value, outputs);
}

/*
 * The first `count` odd vertices of 7 inputs, each with one of m outputs in turn: no term holds two of them, so that
 * there is one cover. It has `count` members, and the first output has the most.
 */
static void odd_ones(struct job *job, unsigned m, unsigned count, enum kind kind)
{
    unsigned vertices[64], found = 0;
    for (unsigned v = 0; v < 128; v++)
        if (odd(v))
            vertices[found++] = v;
    add_sizes(job, 7, m);
    for (unsigned i = 0; i < count; i++)
        add_row(job, vertices[i], 1u << i % m, 0);
    for (unsigned i = 0; i < count; i++)
        put_cube(job, kind, 127, vertices[i], 1u << i % m);
    if (kind == BY_P)
        add(job, COVER_PRIMES);
}

static uint64_t first_bits(unsigned count)
{
    return count == 64 ? UINT64_MAX : (UINT64_C(1) << count) - 1;
}

/* Both limits, each alone and together: from 0 to 64 members over 1 to 8 outputs. */
static void test_limits(void)
{
    static struct job job;
    for (unsigned m = 1; m <= 8; m++)
        for (unsigned count = 0; count <= 64; count++) {
            odd_ones(&job, m, count, (enum kind)((m + count) % 5));
            uint64_t all = first_bits(count);
            if (count <= 32 && count <= 7 * m)
                check_fitting(&job, &all, 1);
            else
                check_no_list(&job, COVER_NONE_FITS);
        }
}

/* At the borders by each kind: 32 and 33 of 5 to 8 outputs, 7 and 8 of one. */
static void test_kinds(void)
{
    static struct job job;
    for (int kind = BY_T; kind <= BY_P; kind++) {
        for (unsigned m = 5; m <= 8; m++) {
            odd_ones(&job, m, 32, (enum kind)kind);
            FITTING(&job, first_bits(32));
            odd_ones(&job, m, 33, (enum kind)kind);
            check_no_list(&job, COVER_NONE_FITS);
        }
        odd_ones(&job, 1, 7, (enum kind)kind);
        FITTING(&job, 127);
        odd_ones(&job, 1, 8, (enum kind)kind);
        check_no_list(&job, COVER_NONE_FITS);
    }
}

/* Each output by itself: 7 and 8 members of it, one of which has a second output too. */
static void test_outputs(void)
{
    static struct job job;
    for (unsigned j = 0; j < 8; j++)
        for (unsigned count = 7; count <= 8; count++)
            for (int kind = BY_T; kind <= IN_TURN; kind++) {
                unsigned other = 1u << (j + 3) % 8;
                add_sizes(&job, 3, 8);
                for (unsigned v = 0; v < 8; v++)
                    add_row(&job, v, v < count ? 1u << j : 0, other);
                for (unsigned v = 0; v < count; v++)
                    put_cube(&job, (enum kind)kind, 7, v, 1u << j | (v == 2 ? other : 0));
                if (count == 7)
                    FITTING(&job, 127);
                else
                    check_no_list(&job, COVER_NONE_FITS);
            }
}

/*
 * Each of 8 vertices wants one of 7 outputs, and the last output is free there: a member that has it counts for it,
 * though it holds no wanted cell of it. Where all 8 members have it none fits. And a member counts for all its outputs:
 * 4 members of all 8, with 3 or 4 of output 4 alone, are 7 or 8 for it.
 */
static void test_free_outputs(void)
{
    static struct job job;
    for (int kind = BY_T; kind <= IN_TURN; kind++)
        for (unsigned with = 6; with <= 8; with++) {
            add_sizes(&job, 3, 8);
            for (unsigned v = 0; v < 8; v++)
                add_row(&job, v, 1u << v % 7, 128);
            for (unsigned v = 0; v < 8; v++)
                put_cube(&job, (enum kind)kind, 7, v, 1u << v % 7 | (v < with ? 128 : 0));
            if (with < 8)
                FITTING(&job, 255);
            else
                check_no_list(&job, COVER_NONE_FITS);
        }
    for (unsigned ones = 3; ones <= 4; ones++) {
        add_sizes(&job, 4, 8);
        for (unsigned v = 0; v < 4; v++)
            add_row(&job, v, 255, 0);
        for (unsigned v = 4; v < 4 + ones; v++)
            add_row(&job, v, 16, 0);
        for (unsigned v = 0; v < 4 + ones; v++)
            put_cube(&job, IN_TURN, 15, v, v < 4 ? 255 : 16);
        if (ones == 3)
            FITTING(&job, 127);
        else
            check_no_list(&job, COVER_NONE_FITS);
    }
}

/*
 * Pairs of neighbouring vertices, all wanted, of one output: each pair by its cube or by its two vertices. A set has
 * three bits for a pair, with the cube last 4 or 3, with the cube first 1 or 6, and one member less for each cube: of 6
 * pairs fit those with 5 cubes or 6.
 */
static void neighbours(struct job *job, unsigned pairs, int cube_first, enum kind kind)
{
    add_sizes(job, 4, 1);
    for (unsigned v = 0; v < 2 * pairs; v++)
        add_row(job, v, 1, 0);
    for (unsigned v = 0; v < 2 * pairs; v += 2) {
        if (cube_first)
            put_cube(job, kind, 14, v, 1);
        put_cube(job, kind, 15, v, 1);
        put_cube(job, kind, 15, v + 1, 1);
        if (!cube_first)
            put_cube(job, kind, 14, v, 1);
    }
}

static struct list known_neighbours(unsigned pairs, int cube_first)
{
    struct list list = {.count = 0};
    for (unsigned choice = 0; choice < 1u << pairs; choice++) {
        unsigned cubes = cube_first ? pairs - ones_of(choice) : ones_of(choice);
        uint64_t set = 0;
        for (unsigned p = 0; p < pairs; p++)
            set |= (uint64_t)(choice >> p & 1 ? (cube_first ? 6 : 4) : (cube_first ? 1 : 3)) << 3 * p;
        if (2 * pairs - cubes <= 7)
            list.sets[list.count++] = set;
    }
    return list;
}

static void test_neighbours(void)
{
    static struct job job;
    static const size_t found[] = {2, 4, 8, 15, 16, 7, 1, 0};
    for (unsigned pairs = 1; pairs <= 8; pairs++)
        for (int first = 0; first < 2; first++)
            for (int kind = BY_T; kind <= IN_TURN; kind++) {
                struct list known = known_neighbours(pairs, first);
                CHECK(known.count == found[pairs - 1]);
                neighbours(&job, pairs, first, (enum kind)kind);
                if (known.count > 0)
                    check_fitting(&job, known.sets, known.count);
                else
                    check_no_list(&job, COVER_NONE_FITS);
            }
}

/* Of 6 pairs from every start around the sets of the wide list: what fits stands below, between and above. */
static void test_fitting_starts(void)
{
    static struct job job;
    for (int first = 0; first < 2; first++) {
        struct list known = known_neighbours(6, first);
        neighbours(&job, 6, first, IN_TURN);
        for (unsigned choice = 0; choice < 64 * 3; choice++) {
            uint64_t start = choice % 3;
            for (unsigned p = 0; p < 6; p++)
                start += (uint64_t)(choice / 3 >> p & 1 ? (first ? 6 : 4) : (first ? 1 : 3)) << 3 * p;
            size_t below = 0;
            start--;
            while (below < known.count && known.sets[below] < start)
                below++;
            size_t left = known.count - below;
            for (unsigned count = 0; count < 4; count++)
                check_fitting_page(&job, start, count, known.sets + below, count < left ? count : left, count < left);
        }
    }
}

/* 20 at every count, from many starts, behind other answers, and with any room. */
static void test_none_fits(void)
{
    static const size_t rooms[] = {0, 1, 2, 3, 40};
    static struct job job;
    uint64_t state = 51;
    neighbours(&job, 8, 1, IN_TURN);
    for (unsigned count = 0; count < 256; count++) {
        size_t at = job.length;
        add_list(&job, count < 8 ? UINT64_C(1) << 8 * count : draw(&state) >> count % 53, count);
        for (size_t i = 0; i < 5; i++)
            CHECK(is(call(&job, rooms[i]), COVER_NONE_FITS, at, 0));
        job.length = at;
    }
    add(&job, COVER_CHEAPEST);
    check_no_list(&job, COVER_NONE_FITS);
    add_possible(&job, 0, 0);
    check_no_list(&job, COVER_NONE_FITS);
    size_t at = job.length;
    add_list(&job, 0, 1);
    CHECK(is(call(&job, 10), COVER_NO_ROOM, at - COVER_POSSIBLE_BYTES - 1, 0));
    add(&job, COVER_END);
    CHECK(is(call(&job, 99), COVER_NONE_FITS, at, 11 + 3));
}

/* 5 before 20 at each count of operands that are missing, 4 and 12 too. */
static void test_before_20(void)
{
    static struct job job;
    neighbours(&job, 8, 0, BY_T);
    size_t at = job.length;
    add_list(&job, 0, 1);
    for (job.length = at + 1; job.length < at + COVER_LIST_BYTES; job.length++)
        CHECK(is(call(&job, 99), COVER_NO_OPERANDS, at, 0));
    job.length = at;
    add_remove(&job, 1); /* vertex 1 is held by the cube, number 1 now */
    check_no_list(&job, COVER_NONE_FITS);
    add_remove(&job, 1);
    check_no_list(&job, COVER_UNHELD_CELL);
    odd_ones(&job, 8, 40, BY_T);
    check_no_list(&job, COVER_NONE_FITS);
    add_remove(&job, 39);
    check_no_list(&job, COVER_UNHELD_CELL);
    constant(&job, 0);
    check_no_list(&job, COVER_UNHELD_CELL);
    job.length = 0;
    add_list(&job, 0, 1);
    CHECK(is(call(&job, 99), COVER_WRONG_PLACE, 0, 0));
}

/* With nothing wanted set 0 has no members, and what holds nothing wanted does not count. */
static void test_no_members(void)
{
    static struct job job;
    nothing(&job);
    FITTING(&job, 0);
    same_rows(&job, 3, 2, 0, 3);
    for (unsigned i = 0; i < 64; i++)
        put_cube(&job, (enum kind)(i % 3), 7, i % 8, 1 + i % 3);
    FITTING(&job, 0);
    odd_ones(&job, 2, 14, BY_T);
    for (unsigned i = 0; i < 20; i++) {
        struct ready none = no_vertices(3, 0);
        put_ready(&job, &none);
    }
    FITTING(&job, first_bits(14));
}

/* Equal ones: each of 7 vertices twice, 128 sets of 7; with an eighth vertex none fits. 64 that each hold all. */
static void test_equal_ones(void)
{
    static struct job job;
    struct list known = {.count = 0}, alone = {.count = 64};
    for (uint64_t set = 0; set < 1 << 14; set++)
        if (((set ^ set >> 1) & 0x1555) == 0x1555)
            known.sets[known.count++] = set;
    CHECK(known.count == 128);
    for (unsigned vertices = 7; vertices <= 8; vertices++) {
        add_sizes(&job, 3, 1);
        for (unsigned v = 0; v < vertices; v++)
            add_row(&job, v, 1, 0);
        for (unsigned i = 0; i < 2 * vertices; i++)
            put_cube(&job, (enum kind)(i % 3), 7, i / 2, 1);
        if (vertices == 7)
            check_fitting(&job, known.sets, known.count);
        else
            check_no_list(&job, COVER_NONE_FITS);
    }
    for (unsigned i = 0; i < 64; i++)
        alone.sets[i] = UINT64_C(1) << i;
    constant(&job, 64);
    check_fitting(&job, alone.sets, alone.count);
    check_fitting_page(&job, alone.sets[62] + 1, 2, alone.sets + 63, 1, 0);
}

/*
 * Each vertex of 6 pairs twice, the cube last: 16 for a cube, and 4 choices without it. 25 of 15,625 sets fit, all far
 * behind the first. Of 12 vertices alone, each twice, none of 4,096 sets fits.
 */
static void test_far_apart(void)
{
    static struct job job;
    struct list known = {.count = 0};
    uint64_t cubes = 0, pair[5] = {5, 6, 9, 10, 16};
    for (unsigned p = 0; p < 6; p++)
        cubes |= (uint64_t)16 << 5 * p;
    for (unsigned p = 6; p-- > 0;)
        for (unsigned i = 0; i < 4; i++)
            known.sets[known.count++] = cubes - ((16 - pair[i]) << 5 * p);
    known.sets[known.count++] = cubes;
    add_sizes(&job, 4, 1);
    for (unsigned v = 0; v < 12; v++)
        add_row(&job, v, 1, 0);
    size_t rows = job.length;
    for (unsigned i = 0; i < 30; i++)
        put_cube(&job, BY_T, i % 5 < 4 ? 15 : 14, i / 5 * 2 + i % 5 / 2 % 2, 1);
    check_fitting_page(&job, 0, COVER_MOST_SETS, known.sets, 25, 0);
    check_fitting_page(&job, 0, 1, known.sets, 1, 1);
    check_fitting_page(&job, known.sets[11] + 1, 2, known.sets + 12, 2, 1);
    check_fitting_page(&job, cubes + 1, 0, known.sets, 0, 0);
    job.length = rows;
    for (unsigned i = 0; i < 24; i++)
        put_cube(&job, BY_T, 15, i / 2, 1);
    check_no_list(&job, COVER_NONE_FITS);
}

/*
 * Candidates come and go between lists in one job: 8 vertices, and the cube of the first two by A, twice. 20 ends a
 * job, so that such a list is taken out again.
 */
static void test_changed_fitting(void)
{
    static struct job job;
    same_rows(&job, 3, 1, 1, 0);
    for (unsigned v = 0; v < 8; v++)
        put_cube(&job, v % 2 ? BY_F : BY_T, 7, v, 1);
    check_no_list(&job, COVER_NONE_FITS);
    add_late(&job, 6, 0, 1);
    FITTING(&job, 0x1FC);
    add_list(&job, 0, 1);
    add_late(&job, 6, 0, 1);
    FITTING(&job, 0x1FC, 0x2FC);
    add_list(&job, 0, 255);
    add_remove(&job, 0); /* vertex 0 is held by the cubes alone, 7 and 8 now */
    FITTING(&job, 0xFE, 0x17E);
    add_remove(&job, 7);
    FITTING(&job, 0xFE);
    add_late(&job, 7, 0, 1); /* vertex 0 again, the last */
    FITTING(&job, 0xFE);
    add_list(&job, 0, 9);
    add_remove(&job, 7);
    check_no_list(&job, COVER_NONE_FITS);
    add_remove(&job, 7);
    check_no_list(&job, COVER_UNHELD_CELL);
    add_late(&job, 0, 0, 1);
    FITTING(&job, 0x80);
}

/*
 * Where a candidate goes, the outputs of those above move down with them. The first one holds a free cell: of output 0
 * before 7 of output 0 and 7 of output 1, which fit, and of output 1 before 8 of output 0, which do not.
 */
static void test_outputs_move(void)
{
    static struct job job;
    for (unsigned of_0 = 7; of_0 <= 8; of_0++) {
        add_sizes(&job, 4, 2);
        for (unsigned v = 0; v < 14; v++)
            add_row(&job, v, v < of_0 ? 1 : 2, 0);
        add_row(&job, 15, 0, 3);
        put_cube(&job, of_0 == 7 ? BY_T : BY_F, 15, 15, of_0 == 7 ? 1 : 2);
        for (unsigned v = 0; v < 14; v++)
            put_cube(&job, IN_TURN, 15, v, v < of_0 ? 1 : 2);
        add_remove(&job, 0);
        if (of_0 == 7)
            FITTING(&job, first_bits(14));
        else
            check_no_list(&job, COVER_NONE_FITS);
    }
}

/* The cheapest does not fit where the cube is dear; possible and multiply have it too, behind the part's list. */
static void test_other_queries(void)
{
    static struct job job;
    struct ready cube = block_of_cube(3, 6, 0, 1);
    cube.weight = COVER_MOST_WEIGHT;
    same_rows(&job, 3, 1, 1, 0);
    for (unsigned v = 0; v < 8; v++)
        add_term(&job, 7, v, 1);
    put_ready(&job, &cube);
    check_cheapest(&job, 32, 255);
    FITTING(&job, 0x1FC);
    add_list(&job, 0, 2);
    check_cheapest(&job, 32, 255);
    POSSIBLE(&job, 255);
    add_range(&job, 0, 0, COVER_MOST_WEIGHT);
    add_range(&job, 8, 0, COVER_MOST_WEIGHT);
    POSSIBLE(&job, 255, 0x1FC);
    FITTING(&job, 0x1FC);
    check_list(&job, (const uint64_t[]){255, 0x1FC}, 2);
    /* Without the cube none fits, and the others answer on. */
    add_remove(&job, 8);
    check_no_list(&job, COVER_NONE_FITS);
    check_cheapest(&job, 32, 255);
    POSSIBLE(&job, 255);
    check_list(&job, (const uint64_t[]){255}, 1);
}

#endif
