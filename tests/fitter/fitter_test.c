/*
 * Links the engine as the fitter does and asks it for lists that are known: pages over several
 * jobs and buffers, joined, against the whole list; the marked cases; candidates that come and go;
 * eight rows in a command; prices; the whole list in one answer; ready-made blocks; ranges of weights; every refusal
 * once.
 * Every call lies between guard bytes, and the bytes behind `written` are held to be unchanged.
 */
#include "changes.h"
#include "lists.h"
#include "prices.h"
#include "problems.h"
#include "product_stand_ins.h"
#include "products.h"
#include "range_places.h"
#include "range_stand_ins.h"
#include "ready.h"
#include "ready_stand_ins.h"
#include "stand_ins.h"
#include "tables.h"

static void test_putting(void)
{
    static struct job job;
    example(&job);
    add_list(&job, 0, 6);
    add(&job, COVER_CHEAPEST);
    add(&job, COVER_END);
    CHECK(job.length == sizeof paper_job && memcmp(job.bytes, paper_job, sizeof paper_job) == 0);
    CHECK(is(call(&job, sizeof paper_answers), COVER_ACCEPTED, sizeof paper_job, sizeof paper_answers));
    CHECK(memcmp(answers, paper_answers, sizeof paper_answers) == 0);

    /* With 0x41 for 0x54 the answers are the same bytes. */
    static struct job late;
    example_late(&late);
    CHECK(late.length == 43);
    for (size_t i = 0; i < 43; i++)
        CHECK(late.bytes[i] == (i >= 19 && (i - 19) % 4 == 0 ? 0x41 : paper_job[i]));
    memcpy(next_command(&late, 12), paper_job + 43, 12);
    CHECK(is(call(&late, sizeof paper_answers), COVER_ACCEPTED, sizeof paper_job, sizeof paper_answers));
    CHECK(memcmp(answers, paper_answers, sizeof paper_answers) == 0);

    uint8_t at[COVER_ADD_BYTES];
    CHECK(cover_put_add(at, 0x83, 0x81, 0xFF) == 4 && memcmp(at, "\x41\x83\x81\xFF", 4) == 0);
    CHECK(cover_put_remove(at, 63) == 2 && memcmp(at, "\x44\x3F", 2) == 0);
    CHECK(cover_put_remove(at, 255) == 2 && memcmp(at, "\x44\xFF", 2) == 0);

    uint8_t eight[COVER_ROWS_BYTES];
    static const uint8_t on[] = {1, 3, 5, 7, 9, 11, 13, 255}, dc[] = {2, 4, 8, 16, 32, 64, 128, 0};
    static const uint8_t rows[] = {0x42, 248, 1, 2, 3, 4, 5, 8, 7, 16, 9, 32, 11, 64, 13, 128, 255, 0};
    CHECK(cover_put_rows(eight, 248, on, dc) == 18 && sizeof rows == 18 && memcmp(eight, rows, 18) == 0);

    uint8_t list[COVER_LIST_BYTES];
    static const uint8_t expected[] = {0x4C, 0x88, 0x77, 0x66, 0x55, 0x44, 0x33, 0x22, 0x11, 255};
    CHECK(cover_put_list(list, UINT64_C(0x1122334455667788), 255) == sizeof expected);
    CHECK(memcmp(list, expected, sizeof expected) == 0);
    CHECK(cover_get_number(list + 1, 8) == UINT64_C(0x1122334455667788));
    CHECK(cover_get_number(list + 1, 2) == 0x7788 && cover_get_number(list + 9, 1) == 255);
}

/* Each put function gives the bytes of its command, which its first byte tells too. */
static void test_widths(void)
{
    uint8_t at[COVER_BLOCK_BYTES];
    static const uint8_t eight[8] = {0}, vertices[COVER_VERTEX_BYTES] = {0};
    CHECK(cover_put_sizes(at, 1, 1) == 3 && cover_command_bytes(at[0]) == 3);
    CHECK(cover_put_prices(at, 1, 1, 0) == 4 && cover_command_bytes(at[0]) == 4);
    CHECK(cover_put_row(at, 0, 1, 0) == 4 && cover_command_bytes(at[0]) == 4);
    CHECK(cover_put_rows(at, 0, eight, eight) == 18 && cover_command_bytes(at[0]) == 18);
    CHECK(cover_put_term(at, 0, 0, 1) == 4 && cover_command_bytes(at[0]) == 4);
    CHECK(cover_put_block(at, 1, vertices, 0) == 36 && cover_command_bytes(at[0]) == 36);
    CHECK(cover_put_command(at, COVER_PRIMES) == 1 && cover_command_bytes(at[0]) == 1);
    CHECK(cover_put_add(at, 0, 0, 1) == 4 && cover_command_bytes(at[0]) == 4);
    CHECK(cover_put_remove(at, 0) == 2 && cover_command_bytes(at[0]) == 2);
    CHECK(cover_put_range(at, 0, 0, 1) == 6 && cover_command_bytes(at[0]) == 6);
    CHECK(cover_put_list(at, 0, 1) == 10 && cover_command_bytes(at[0]) == 10);
    CHECK(cover_put_possible(at, 0, 1) == 10 && cover_command_bytes(at[0]) == 10);
    CHECK(cover_put_command(at, COVER_CHEAPEST) == 1 && cover_command_bytes(at[0]) == 1);
    CHECK(cover_put_command(at, COVER_MULTIPLY) == 1 && cover_command_bytes(at[0]) == 1);
    CHECK(cover_put_command(at, COVER_END) == 1 && cover_command_bytes(at[0]) == 1);

    /* A byte has a width exactly when the engine takes it for a command. */
    static struct job job;
    for (unsigned byte = 0; byte < 256; byte++) {
        job.length = 0;
        *next_command(&job, 1) = (uint8_t)byte;
        int known = cover_number(call(&job, 0)) != COVER_NO_COMMAND;
        CHECK((cover_command_bytes((uint8_t)byte) != 0) == known);
    }
}

static void test_reading(void)
{
    static const size_t places[] = {0, 51, 62, 63};
    static const uint64_t sets[] = {11, 22, 26, 41, 52, 56};
    size_t at = 0;
    for (size_t i = 0; i < 4; i++) {
        CHECK(at == places[i]);
        at += i < 3 ? cover_answer_bytes(paper_answers + at) : 0;
    }
    CHECK(cover_page_sets(paper_answers) == 6 && cover_page_more(paper_answers) == 0);
    for (size_t i = 0; i < 6; i++)
        CHECK(cover_page_set(paper_answers, i) == sets[i]);
    CHECK(cover_page_next(paper_answers, 0) == 57);
    CHECK(cover_cheapest_cost(paper_answers + 51) == 3 && cover_cheapest_set(paper_answers + 51) == 41);

    static const uint8_t two_primes[] = {0x70, 2, 1, 0, 1, 255, 254, 253};
    CHECK(cover_answer_bytes(two_primes) == sizeof two_primes && cover_primes_count(two_primes) == 2);
    CHECK(memcmp(cover_prime(two_primes, 1), "\377\376\375", 3) == 0);
    static const uint8_t no_sets[] = {0x6C, 0, 1};
    CHECK(cover_answer_bytes(no_sets) == 3 && cover_page_more(no_sets) == 1 && cover_page_next(no_sets, 7) == 7);
    static const uint8_t dear[] = {0x63, 0, 2, 1, 2, 3, 4, 5, 6, 7, 8};
    CHECK(cover_cheapest_cost(dear) == 512 && cover_cheapest_set(dear) == UINT64_C(0x0807060504030201));
    static const uint8_t possible[] = {0x76, 0, 1};
    CHECK(cover_answer_bytes(possible) == 3 && cover_page_more(possible) == 1 && cover_page_next(possible, 7) == 7);
    CHECK(cover_answer_bytes((const uint8_t[]){0x6D, 1, 1}) == 0);

    uint64_t outcome = UINT64_C(14) << 32 | UINT64_C(0x8000) << 16 | 0x7FFF;
    CHECK(is(outcome, COVER_NO_ROOM, 32768, 32767));
}

static void test_paging(void)
{
    struct list a = LISTED(11, 22, 26, 41, 52, 56);
    struct list c = LISTED(13, 25, 38, 44, 50, 56);
    struct list d = LISTED(11, 23, 45, 52, 58);
    struct list e = LISTED(0);
    struct list g = LISTED(1, 2);
    struct list terms_moved = LISTED(11, 13, 26, 28, 37, 52);
    struct list c_moved = LISTED(19, 22, 25, 28, 38, 44);
    page_in_every_way(example, &a);
    page_in_every_way(example_primes, &c);
    page_in_every_way(crawled, &d);
    page_in_every_way(nothing, &e);
    page_in_every_way(twice, &g);
    /* Each further job has the same adds and removes before its pages. */
    page_in_every_way(example_late, &a);
    page_in_every_way(example_mixed, &a);
    page_in_every_way(example_asked, &a);
    page_in_every_way(example_moved, &terms_moved);
    page_in_every_way(primes_moved, &c_moved);
}

static struct list all_pairs(void)
{
    struct list list = {.count = 0};
    for (uint64_t set = 0; set < 65536; set++) {
        /* One of the two terms of each vertex: the bits of each pair differ. */
        if (((set ^ set >> 1) & 0x5555) == 0x5555)
            list.sets[list.count++] = set;
    }
    return list;
}

static void test_long_paging(void)
{
    struct list known = all_pairs();
    CHECK(known.count == 256);
    static const unsigned counts[] = {1, 7, 100, 128, 254, 255};
    static const size_t rooms[] = {0, 11, 100, 1000, 2043, 2046, 4096, COVER_MOST_ANSWER_BYTES};
    for (size_t i = 0; i < sizeof counts / sizeof counts[0]; i++) {
        for (size_t k = 0; k < sizeof rooms / sizeof rooms[0]; k++) {
            struct paging paging = page_through(pairs, counts[i], rooms[k]);
            CHECK(same(&paging.joined, &known) && !paging.more);
        }
    }
}

/* Whole answers: all sets on one page, then the cheapest, then the end. */

static void test_marked_cases(void)
{
    struct list a = LISTED(11, 22, 26, 41, 52, 56);
    struct list c = LISTED(13, 25, 38, 44, 50, 56);
    struct list d = LISTED(11, 23, 45, 52, 58);
    struct list e = LISTED(0);
    struct list f = LISTED(1);
    struct list g = LISTED(1, 2);
    check_answers(example, &a, 3, 41);
    check_answers(example_primes, &c, 3, 13);
    check_answers(crawled, &d, 4, 45);
    check_answers(nothing, &e, 0, 0);
    check_answers(once, &f, 1, 1);
    check_answers(twice, &g, 1, 1);
}

/* Case b: with the members of one cover as the only candidates, the cheapest is that cover. */
static void test_costs(void)
{
    static const unsigned sets[] = {11, 22, 26, 41, 52, 56};
    static const unsigned costs[] = {5, 7, 7, 3, 5, 5};
    static struct job job;
    for (size_t k = 0; k < 6; k++) {
        uint64_t members = 0;
        example_rows(&job);
        for (size_t i = 0; i < 6; i++) {
            if (sets[k] >> i & 1) {
                add_example_term(&job, i);
                members = members << 1 | 1;
            }
        }
        add(&job, COVER_CHEAPEST);
        add(&job, COVER_END);
        CHECK(is(call(&job, 12), COVER_ACCEPTED, job.length, 12));
        CHECK(cover_cheapest_cost(answers) == costs[k] && cover_cheapest_set(answers) == members);
    }
}

/* Only vertex 0 is wanted and all others are free, so a term of any literals may stand alone: 0 to 8 of them. */
static void test_literals(void)
{
    static const unsigned costs[] = {1, 1, 3, 4, 5, 6, 7, 8, 9};
    static struct job job;
    for (unsigned k = 0; k <= 8; k++) {
        add_sizes(&job, 8, 1);
        for (unsigned v = 0; v < 256; v++)
            add_row(&job, v, v == 0, v != 0);
        add_term(&job, (1u << k) - 1, 0, 1);
        add(&job, COVER_CHEAPEST);
        add(&job, COVER_END);
        CHECK(is(call(&job, 12), COVER_ACCEPTED, job.length, 12));
        CHECK(cover_cheapest_cost(answers) == costs[k] && cover_cheapest_set(answers) == 1);
    }
}

/* Case c's primes: terms 1, 3, 6, 4, 2, 5. */
static void test_primes(void)
{
    static const unsigned order[] = {1, 3, 6, 4, 2, 5};
    static struct job job;
    example_primes(&job);
    CHECK(is(call(&job, 20), COVER_NO_END, job.length, 20));
    CHECK(answers[0] == COVER_PRIMES_ANSWER && answers[1] == 6);
    for (size_t i = 0; i < 6; i++)
        CHECK(memcmp(cover_prime(answers, i), terms[order[i] - 1], 3) == 0);
    CHECK(is(call(&job, 19), COVER_NO_ROOM, job.length - 1, 0));
}

/* Case h at a page of any count and at the cheapest. */
static void test_unheld(void)
{
    static struct job job;
    for (unsigned count = 0; count < 3; count++) {
        constant(&job, 0);
        size_t at = job.length;
        add_list(&job, 0, count);
        CHECK(is(call(&job, 100), COVER_UNHELD_CELL, at, 0));
        CHECK(is(call(&job, 0), COVER_UNHELD_CELL, at, 0));
    }
    constant(&job, 0);
    add(&job, COVER_CHEAPEST);
    CHECK(is(call(&job, 100), COVER_UNHELD_CELL, job.length - 1, 0));
}

static void test_parity(void)
{
    static struct job job;
    struct list all = LISTED(UINT64_MAX);
    check_answers(parity_of_7, &all, 512, UINT64_MAX);
    struct paging paging = page_through(parity_of_7, 3, 1000);
    CHECK(same(&paging.joined, &all) && !paging.more);

    parity(&job, 7);
    CHECK(is(call(&job, 194), COVER_NO_END, job.length, 194));
    CHECK(answers[0] == COVER_PRIMES_ANSWER && answers[1] == 64);
    size_t i = 0;
    for (unsigned v = 0; v < 128; v++) {
        if (odd(v)) {
            const uint8_t *prime = cover_prime(answers, i++);
            CHECK(prime[0] == 127 && prime[1] == v && prime[2] == 1);
        }
    }

    parity(&job, 8);
    CHECK(is(call(&job, COVER_MOST_ANSWER_BYTES), COVER_TOO_MANY, 3 + 4 * 128, 0));
}

/* One page, given by its three numbers: sets, more and the first set. */
static void check_page(void (*problem)(struct job *), uint64_t start, unsigned count, const uint64_t expected[3])
{
    static struct job job;
    problem(&job);
    size_t page = cover_written(call(&job, COVER_MOST_ANSWER_BYTES));
    add_list(&job, start, count);
    size_t need = page + COVER_LIST_ANSWER_BYTES(expected[0]);
    CHECK(is(call(&job, COVER_MOST_ANSWER_BYTES), COVER_NO_END, job.length, need));
    CHECK(answers[page + 1] == expected[0] && answers[page + 2] == expected[1]);
    CHECK(expected[0] == 0 || cover_page_set(answers + page, 0) == expected[2]);
}

#define PAGE(...) ((const uint64_t[3]){__VA_ARGS__})

static void test_starts(void)
{
    check_page(example, 0, 0, PAGE(0, 1, 0));
    check_page(example, 0, 5, PAGE(5, 1, 11));
    check_page(example, 0, 6, PAGE(6, 0, 11));
    check_page(example, 11, 1, PAGE(1, 1, 11));
    check_page(example, 12, 1, PAGE(1, 1, 22));
    check_page(example, 56, 0, PAGE(0, 1, 0));
    check_page(example, 56, 1, PAGE(1, 0, 56));
    check_page(example, 57, 0, PAGE(0, 0, 0));
    check_page(example, 57, 255, PAGE(0, 0, 0));
    check_page(example, 64, 255, PAGE(0, 0, 0));
    check_page(example, UINT64_MAX, 255, PAGE(0, 0, 0));
    check_page(parity_of_7, UINT64_MAX, 0, PAGE(0, 1, 0));
    check_page(parity_of_7, UINT64_MAX, 1, PAGE(1, 0, UINT64_MAX));
}

/* Each refusal once, with the smallest job that has it. */

struct refused {
    enum cover_refusal number;
    size_t offset, written, room;
    const char *job;
};

static const struct refused refused[] = {
    {COVER_NO_END, 0, 0, 9, ""},
    {COVER_NO_END, 3, 0, 9, "I\1\1"},
    {COVER_NO_COMMAND, 3, 0, 9, "I\1\1x"},
    {COVER_NO_COMMAND, 0, 0, 9, "i\1\1"},
    {COVER_WRONG_PLACE, 0, 0, 9, "E"},
    {COVER_WRONG_PLACE, 3, 0, 9, "I\1\1I"},
    {COVER_NO_OPERANDS, 0, 0, 9, "I\1"},
    {COVER_NO_OPERANDS, 3, 0, 9, "I\1\1L12345678"},
    {COVER_WRONG_SIZES, 0, 0, 9, "I\1\11"},
    {COVER_WRONG_SIZES, 0, 0, 9, "I\11\1"},
    {COVER_WRONG_VERTEX, 3, 0, 9, "I\1\1R\2\1\1"},
    {COVER_WRONG_ROW, 3, 0, 9, "I\1\1R\1\1\1"},
    {COVER_WRONG_ROW, 3, 0, 9, "I\1\1R\1\2\1"},
    {COVER_MALFORMED_TERM, 3, 0, 9, "I\1\1T\2\2\1"},
    {COVER_MALFORMED_TERM, 3, 0, 9, "I\1\1T\1\1\2"},
    {COVER_OFF_CELL, 3, 0, 9, "I\1\1T\1\1\1"},
    {COVER_BYTES_AFTER_END, 3, 0, 9, "I\1\1EE"},
    {COVER_NO_ROOM, 3, 0, 0, "I\1\1E"},
    {COVER_NO_ROOM, 3, 0, 10, "I\1\1CE"},
    {COVER_NO_ROOM, 4, 11, 11, "I\1\1CE"},
    {COVER_WRONG_PLACE, 4, 11, 11, "I\1\1CP"},
    {COVER_WRONG_PLACE, 4, 2, 11, "I\1\1PT"},
    {COVER_WRONG_PLACE, 4, 2, 11, "I\1\1PR"},
    {COVER_WRONG_PLACE, 4, 2, 11, "I\1\1PP"},
    {COVER_WRONG_PLACE, 0, 0, 9, "A"},
    {COVER_WRONG_PLACE, 0, 0, 9, "A\1\1\1"},
    {COVER_WRONG_PLACE, 0, 0, 9, "D\1"},
    {COVER_NO_OPERANDS, 3, 0, 9, "I\1\1A"},
    {COVER_NO_OPERANDS, 3, 0, 9, "I\1\1A\1\1"},
    {COVER_NO_OPERANDS, 3, 0, 9, "I\1\1D"},
    {COVER_NO_OPERANDS, 4, 11, 11, "I\1\1CA\1\1"},
    {COVER_NO_OPERANDS, 4, 11, 11, "I\1\1CD"},
    {COVER_WRONG_CANDIDATE, 3, 0, 9, "I\1\1D\1"},
    {COVER_WRONG_CANDIDATE, 3, 0, 0, "I\1\1D\377E"},
    {COVER_WRONG_CANDIDATE, 4, 2, 11, "I\1\1PD\1E"},
    {COVER_WRONG_CANDIDATE, 4, 11, 11, "I\1\1CD\1E"},
    {COVER_WRONG_CANDIDATE, 5, 22, 99, "I\1\1CCD\100E"},
    {COVER_MALFORMED_TERM, 3, 0, 9, "I\1\1A\2\2\1"},
    {COVER_MALFORMED_TERM, 4, 11, 11, "I\1\1CA\1\1\2"},
    {COVER_OFF_CELL, 3, 0, 9, "I\1\1A\1\1\1"},
    {COVER_OFF_CELL, 4, 11, 11, "I\1\1CA\1\1\1"},
    {COVER_BYTES_AFTER_END, 3, 0, 9, "I\1\1EA"},
    {COVER_BYTES_AFTER_END, 3, 0, 9, "I\1\1ED\1"},
    {COVER_WRONG_PLACE, 0, 0, 9, "B"},
    {COVER_WRONG_PLACE, 0, 0, 9, "B\1\1\2\1\2\1\2\1\2\1\2\1\2\1\2\1\2E"},
    {COVER_WRONG_PLACE, 4, 2, 11, "I\1\1PB"},
    {COVER_WRONG_PLACE, 4, 11, 11, "I\1\1CB"},
    {COVER_NO_OPERANDS, 3, 0, 9, "I\1\1B"},
    {COVER_NO_OPERANDS, 3, 0, 9, "I\1\1B\1\1\1\1\1\1\1\1\1\1\1\1\1\1\1\1"},
    {COVER_WRONG_ROW, 3, 0, 9, "I\1\1B\1\1\1\1\1\1\1\1\1\1\1\1\1\1\1\1\1"},
    {COVER_WRONG_VERTEX, 3, 0, 9, "I\1\1B\2\1\1\1\1\1\1\1\1\1\1\1\1\1\1\1\1"},
    {COVER_NO_END, 21, 0, 9, "I\4\2B\1\1\2\1\2\1\2\1\2\1\2\1\2\1\2\1\2"},
    {COVER_BYTES_AFTER_END, 3, 0, 9, "I\1\1EB"},
    {COVER_WRONG_PLACE, 0, 0, 9, "W\1\1\1"},
    {COVER_WRONG_PLACE, 0, 0, 9, "W\377"},
    {COVER_WRONG_PLACE, 7, 0, 9, "I\1\1W\1\1\1W\1\1\1E"},
    {COVER_WRONG_PLACE, 7, 0, 9, "I\1\1W\1\1\1I\1\1"},
    {COVER_WRONG_PLACE, 7, 0, 9, "I\1\2R\1\1\2W\1\1\1"},
    {COVER_WRONG_PLACE, 4, 2, 9, "I\1\1PW\1\1\1"},
    {COVER_WRONG_PLACE, 4, 11, 11, "I\1\1CW\63"},
    {COVER_NO_OPERANDS, 3, 0, 9, "I\1\1W"},
    {COVER_NO_OPERANDS, 3, 0, 9, "I\1\1W\377\377"},
    {COVER_WRONG_PRICES, 3, 0, 9, "I\1\1W\63\1\1"},
    {COVER_WRONG_PRICES, 3, 0, 9, "I\1\1W\1\63\1E"},
    {COVER_WRONG_PRICES, 3, 0, 0, "I\1\1W\1\1\63E"},
    {COVER_NO_END, 7, 0, 9, "I\1\1W\62\62\62"},
    {COVER_WRONG_CANDIDATE, 7, 0, 9, "I\1\1W\1\1\1D\1"},
    {COVER_BYTES_AFTER_END, 3, 0, 9, "I\1\1EW"},
    {COVER_WRONG_PLACE, 0, 0, 99, "N"},
    {COVER_WRONG_PLACE, 0, 0, 99, "NE"},
    {COVER_NO_END, 4, 11, 11, "I\1\1N"},
    {COVER_NO_ROOM, 3, 0, 10, "I\1\1N"},
    {COVER_NO_ROOM, 4, 11, 21, "I\1\1NN"},
    {COVER_NO_COMMAND, 4, 11, 99, "I\1\1Nn"},
    {COVER_UNHELD_CELL, 7, 0, 0, "I\1\2R\1\1\2NE"},
    {COVER_WRONG_PLACE, 4, 11, 11, "I\1\1NT"},
    {COVER_WRONG_PLACE, 4, 11, 11, "I\1\1NW\63"},
    {COVER_NO_OPERANDS, 4, 11, 11, "I\1\1NA\1"},
    {COVER_NO_OPERANDS, 4, 11, 11, "I\1\1NL"},
    {COVER_WRONG_CANDIDATE, 4, 11, 11, "I\1\1ND\1E"},
    {COVER_BYTES_AFTER_END, 3, 0, 9, "I\1\1EN"},
    {COVER_WRONG_PLACE, 0, 0, 9, "G"},
    {COVER_WRONG_PLACE, 0, 0, 9, "V"},
    {COVER_NO_OPERANDS, 3, 0, 9, "I\1\1G"},
    {COVER_NO_OPERANDS, 3, 0, 9, "I\1\1G\1\1\1\1"},
    {COVER_NO_OPERANDS, 3, 0, 9, "I\1\1V"},
    {COVER_NO_OPERANDS, 3, 0, 9, "I\1\1V12345678"},
    {COVER_WRONG_CANDIDATE, 3, 0, 9, "I\1\1G\1\1\1\1\1"},
    {COVER_WRONG_CANDIDATE, 3, 0, 9, "I\1\1G\1\1\2\1\1E"},
    {COVER_MALFORMED_RANGE, 15, 0, 9, "I\1\2R\1\1\2T\1\1\1T\1\1\1G\1\1\2\1\1E"},
    {COVER_MALFORMED_RANGE, 15, 0, 0, "I\1\2R\1\1\2T\1\1\1T\1\1\1G\1\1\1\1\4E"},
    {COVER_WRONG_CANDIDATE, 15, 0, 9, "I\1\2R\1\1\2T\1\1\1T\1\1\1G\2\1\2\1\1E"},
    {COVER_NO_END, 21, 0, 9, "I\1\2R\1\1\2T\1\1\1T\1\1\1G\1\1\1\1\1"},
    {COVER_NO_END, 13, 3, 9, "I\1\1V12345678\1"},
    {COVER_NO_ROOM, 3, 0, 2, "I\1\1V12345678\1"},
    {COVER_UNHELD_CELL, 7, 0, 0, "I\1\2R\1\1\2V12345678\1"},
    {COVER_WRONG_PLACE, 13, 3, 9, "I\1\1V12345678\1T"},
    {COVER_WRONG_PLACE, 13, 3, 9, "I\1\1V12345678\1W\63"},
    {COVER_BYTES_AFTER_END, 3, 0, 9, "I\1\1EG"},
    {COVER_BYTES_AFTER_END, 3, 0, 9, "I\1\1EV"},
};

static void test_refusals(void)
{
    static struct job job;
    for (size_t i = 0; i < sizeof refused / sizeof refused[0]; i++) {
        const struct refused *r = &refused[i];
        job.length = strlen(r->job);
        memcpy(job.bytes, r->job, job.length);
        uint64_t outcome = call(&job, r->room);
        if (!is(outcome, r->number, r->offset, r->written))
            printf("refusal job %zu gave %d %zu %zu\n", i, (int)cover_number(outcome), cover_offset(outcome),
                   cover_written(outcome));
        CHECK(is(outcome, r->number, r->offset, r->written));
    }
    constant(&job, 65);
    CHECK(is(call(&job, 0), COVER_TOO_MANY, 11 + 4 * 64, 0));
}

/* A job of so many bytes: pages of no sets, then the cheapest again and again, then the end. */
static size_t long_job(struct job *job, size_t length)
{
    size_t need = COVER_END_ANSWER_BYTES;
    nothing(job);
    for (; job->length + COVER_LIST_BYTES < length; need += COVER_LIST_ANSWER_BYTES(0))
        add_list(job, 0, 0);
    for (; job->length + 1 < length; need += COVER_CHEAPEST_ANSWER_BYTES)
        add(job, COVER_CHEAPEST);
    add(job, COVER_END);
    return need;
}

static void test_lengths(void)
{
    static struct job job;
    size_t need = long_job(&job, COVER_MOST_JOB_BYTES);
    CHECK(job.length == 32768);
    CHECK(is(call(&job, COVER_MOST_ANSWER_BYTES), COVER_ACCEPTED, 32768, need));
    CHECK(is(call(&job, COVER_MOST_ANSWER_BYTES + 1), COVER_TOO_LONG, 0, 0));
    job.bytes[32767] = COVER_CHEAPEST;
    CHECK(is(call(&job, COVER_MOST_ANSWER_BYTES), COVER_NO_END, 32768, need + 10));
    long_job(&job, COVER_MOST_JOB_BYTES + 1);
    CHECK(job.length == 32769);
    CHECK(is(call(&job, COVER_MOST_ANSWER_BYTES), COVER_TOO_LONG, 0, 0));
    CHECK(is(call(&job, 0), COVER_TOO_LONG, 0, 0));
}

/* A null pointer goes with a length of 0. */
static void test_null(void)
{
    static struct job job;
    uint8_t byte = 7;
    CHECK(is(cover_job(NULL, 0, NULL, 0), COVER_NO_END, 0, 0));
    CHECK(is(cover_job(NULL, 0, &byte, 1), COVER_NO_END, 0, 0));
    CHECK(byte == 7);
    nothing(&job);
    add(&job, COVER_END);
    CHECK(is(cover_job(job.bytes, job.length, NULL, 0), COVER_NO_ROOM, 3, 0));
}

/* Nothing is kept: a job gives the same after another one, finished or refused. */
static void test_nothing_kept(void)
{
    struct list a = LISTED(11, 22, 26, 41, 52, 56);
    struct list g = LISTED(1, 2);
    for (unsigned i = 0; i < 3; i++) {
        check_answers(example, &a, 3, 41);
        check_answers(twice, &g, 1, 1);
        test_unheld();
        test_trying();
    }
}

int main(void)
{
    test_putting();
    test_widths();
    test_reading();
    test_marked_cases();
    test_costs();
    test_literals();
    test_late_terms();
    test_one_less();
    test_trying();
    test_full();
    test_emptied();
    test_primes();
    test_unheld();
    test_parity();
    test_starts();
    test_refusals();
    test_places();
    test_first_vertices();
    test_spoilt_rows();
    test_taken_vertices();
    test_two_blocks();
    test_cut_blocks();
    test_no_wrap();
    test_known_tables();
    test_tables_by_blocks();
    test_blocks_and_rows();
    test_prices();
    test_stand_ins();
    test_products();
    test_product_stand_ins();
    test_ready();
    test_ready_stand_ins();
    test_ranges();
    test_range_stand_ins();
    test_fresh();
    test_lengths();
    test_turns();
    test_largest();
    test_null();
    test_nothing_kept();
    test_paging();
    test_long_paging();
    printf("%u passed, %u failed\n", passed, failed);
    return failed == 0 ? EXIT_SUCCESS : EXIT_FAILURE;
}
