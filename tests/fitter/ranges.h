/*
 * Ranges by G and possible covers by V: known lists, pages over several jobs, all weights and equal ends, candidates
 * that come and go, equal ones, other prices, every number, ends at their borders, long jobs.
 */
#ifndef RANGES_H
#define RANGES_H

#include "ranged.h"

/* V behind a job without an end, which stays as it is: with just enough room, with a byte less, and with all. */
static void check_page_of(struct job *job, uint64_t start, unsigned count, const uint64_t *sets, size_t found, int more)
{
    size_t at = job->length, taken = cover_written(call(job, COVER_MOST_ANSWER_BYTES));
    size_t need = taken + COVER_POSSIBLE_ANSWER_BYTES(found);
    add_possible(job, start, count);
    CHECK(is(call(job, need - 1), COVER_NO_ROOM, at, taken));
    CHECK(is(call(job, taken), COVER_NO_ROOM, at, taken));
    CHECK(is(call(job, COVER_MOST_ANSWER_BYTES), COVER_NO_END, job->length, need));
    CHECK(is(call(job, need), COVER_NO_END, job->length, need));
    CHECK(answers[taken] == COVER_POSSIBLE_ANSWER && cover_page_sets(answers + taken) == found);
    CHECK(cover_page_more(answers + taken) == more && cover_answer_bytes(answers + taken) == need - taken);
    for (size_t i = 0; i < found; i++)
        CHECK(cover_page_set(answers + taken, i) == sets[i]);
    job->length = at;
}

/* The whole list, and its first set alone with what stands above. */
static void check_possible(struct job *job, const uint64_t *sets, size_t count)
{
    check_page_of(job, 0, COVER_MOST_SETS, sets, count, 0);
    check_page_of(job, 0, (unsigned)count, sets, count, 0);
    check_page_of(job, 0, 0, sets, 0, count > 0);
    check_page_of(job, 0, 1, sets, 1, count > 1);
    check_page_of(job, sets[count - 1], 1, sets + count - 1, 1, 0);
    check_page_of(job, sets[count - 1] + 1, COVER_MOST_SETS, sets, 0, 0);
}

#define POSSIBLE(job, ...) \
    check_possible(job, (const uint64_t[]){__VA_ARGS__}, sizeof((uint64_t[]){__VA_ARGS__}) / sizeof(uint64_t))

/*
 * By hand: the covers of the example, 11, 22, 26, 41, 52 and 56, cost 5, 7, 7, 3, 5 and 5. Candidate 3 is in 11, 26, 41
 * and 56, candidate 5 in 41, 52 and 56, candidate 0 in 11 and 41.
 */
static void test_known_ranges(void)
{
    static struct job job;
    example(&job);
    POSSIBLE(&job, 41);
    add_range(&job, 3, 0, 4); /* 41 costs 2 to 6, and 52 costs 5 */
    POSSIBLE(&job, 41, 52);
    check_page_of(&job, 42, 9, (const uint64_t[]){52}, 1, 0);
    add_range(&job, 3, 0, 2);
    POSSIBLE(&job, 41);
    add_range(&job, 3, 3, 3); /* both cost 5 */
    POSSIBLE(&job, 41, 52);
    add_range(&job, 3, 4, COVER_MOST_WEIGHT);
    POSSIBLE(&job, 52);
    check_cheapest(&job, 3, 41); /* by the weights, whatever the ranges */
    add_range(&job, 0, 4, 4);
    add_range(&job, 3, 1, 1); /* 11 costs 8, 41 costs 6, 52 and 56 cost 5 */
    POSSIBLE(&job, 52, 56);
    add_range(&job, 5, 0, COVER_MOST_WEIGHT); /* 52 and 56 cost 4 and this, 22 and 26 cost 7, 41 one more than 52 */
    POSSIBLE(&job, 22, 26, 52, 56);
    check_page_of(&job, 23, 2, (const uint64_t[]){26, 52}, 2, 1);
    check_page_of(&job, 57, 2, NULL, 0, 0);
    check_page_of(&job, UINT64_MAX, 1, NULL, 0, 0);
    check_list(&job, (const uint64_t[]){11, 22, 26, 41, 52, 56}, 6);
    check_cheapest(&job, 3, 41);
}

/* Equal candidates with other ranges: 1 to 3, 2, 4 to 9, and with one of weight 1 more. */
static void test_equal_candidates(void)
{
    static struct job job;
    constant(&job, 3);
    POSSIBLE(&job, 1, 2, 4);
    add_range(&job, 0, 1, 3);
    add_range(&job, 1, 2, 2);
    add_range(&job, 2, 4, 9);
    POSSIBLE(&job, 1, 2);
    add_range(&job, 2, 2, 9);
    POSSIBLE(&job, 1, 2, 4);
    add_late(&job, 0, 0, 1);
    POSSIBLE(&job, 1, 8);
    add_remove(&job, 0);
    POSSIBLE(&job, 4);
    add_range(&job, 2, 0, 2); /* what was the fourth: 2, 2 to 9, 0 to 2 */
    POSSIBLE(&job, 1, 2, 4);
    add_remove(&job, 2);
    add_late(&job, 0, 0, 1); /* the new one has its weight again */
    POSSIBLE(&job, 4);
}

/* 64 equal candidates from 10 to 20, one of them at 5: behind each D, and with the last put in again. */
static void test_ranges_go(void)
{
    static struct job job;
    for (unsigned gone = 0; gone < 64; gone++) {
        unsigned cheap = (gone * 13 + 7) % 64;
        constant(&job, 64);
        for (unsigned i = 0; i < 64; i++)
            add_range(&job, i, i == cheap ? 5 : 10, i == cheap ? 5 : 20);
        uint64_t alone = UINT64_C(1) << cheap;
        check_possible(&job, &alone, 1);
        add_remove(&job, gone);
        alone = gone < cheap ? alone >> 1 : alone;
        if (gone == cheap)
            check_page_of(&job, 0, 2, (const uint64_t[]){1, 2}, 2, 1);
        else
            check_possible(&job, &alone, 1);
        add_range(&job, 62, 6, 6);
        uint64_t last = UINT64_C(1) << 62;
        check_possible(&job, gone == cheap || alone == last ? &last : &alone, 1);
        add_late(&job, 0, 0, 1);
        last = UINT64_C(1) << 63;
        check_possible(&job, &last, 1);
    }
}

/* A term beside a block of weight 5: both ends of the term without G are its price; then what is in the range. */
static void test_prices_and_ranges(void)
{
    static struct job job;
    struct ready ready = block_of(2, 1, 5);
    for (unsigned price = 0; price <= COVER_MOST_PRICE; price++) {
        constant(&job, 1);
        put_prices(&job, (struct prices){price, 7, 0});
        put_ready(&job, &ready);
        if (price == 5)
            POSSIBLE(&job, 1, 2);
        else
            POSSIBLE(&job, price < 5 ? 1 : 2);
        add_range(&job, 1, price, price);
        POSSIBLE(&job, 1, 2);
        add_range(&job, 0, 0, 850);
        POSSIBLE(&job, 1, 2);
        add_range(&job, 0, price + 1, 850);
        POSSIBLE(&job, 2);
        check_cheapest(&job, price < 5 ? price : 5, price <= 5 ? 1 : 2);
    }
}

/* Two equal terms, one from `low` to `high` and one at `other`: the borders of being possible, and of 19. */
static void check_ends(unsigned low, unsigned high)
{
    static const unsigned others[] = {0, 1, 255, 256, 849, 850};
    static struct job job;
    for (size_t i = 0; i < sizeof others / sizeof others[0]; i++) {
        unsigned other = others[i];
        constant(&job, 2);
        add_range(&job, 1, other, other);
        size_t at = job.length;
        add_range(&job, 0, low, high);
        if (high > COVER_MOST_WEIGHT || low > high) {
            CHECK(is(call(&job, 99), COVER_MALFORMED_RANGE, at, 0));
            continue;
        }
        size_t found = low <= other && other <= high ? 2 : 1;
        add_possible(&job, 0, COVER_MOST_SETS);
        CHECK(is(call(&job, 99), COVER_NO_END, job.length, COVER_POSSIBLE_ANSWER_BYTES(found)));
        CHECK(cover_page_sets(answers) == found && cover_page_set(answers, 0) == (other < low ? 2 : 1));
        CHECK(found == 1 || cover_page_set(answers, 1) == 2);
    }
}

static void test_each_end(void)
{
    static const unsigned ends[] = {0,   1,   2,   127, 128, 254,  255,  256,   257,   511,   512,  848,
                                    849, 850, 851, 852, 1023, 1024, 21000, 32768, 53763, 65534, 65535};
    enum { ENDS = sizeof ends / sizeof ends[0] };
    for (size_t i = 0; i < ENDS; i++)
        for (size_t k = 0; k < ENDS; k++)
            check_ends(ends[i], ends[k]);
    for (unsigned end = 0; end <= 900; end++) {
        check_ends(end, end);
        check_ends(end + 1, end);
        check_ends(0, end);
    }
}

/* Every byte as number, with some standing: 15 from their count on, and before 19. */
static void test_each_number(void)
{
    static const unsigned counts[] = {0, 1, 2, 63, 64};
    static struct job job;
    for (size_t i = 0; i < sizeof counts / sizeof counts[0]; i++)
        for (unsigned number = 0; number < 256; number++) {
            enum cover_refusal none = number < counts[i] ? COVER_NO_END : COVER_WRONG_CANDIDATE;
            enum cover_refusal bad = number < counts[i] ? COVER_MALFORMED_RANGE : COVER_WRONG_CANDIDATE;
            constant(&job, counts[i]);
            size_t at = job.length;
            add_range(&job, number, 0, 0);
            CHECK(is(call(&job, 9), none, none == COVER_NO_END ? job.length : at, 0));
            if (none == COVER_NO_END && counts[i] > 1) {
                uint64_t alone = UINT64_C(1) << number;
                check_possible(&job, &alone, 1); /* the others cost 1 */
            }
            job.length = at;
            add_range(&job, number, 0, 851);
            CHECK(is(call(&job, 9), bad, at, 0));
            job.length = at;
            add_range(&job, number, 2, 1);
            CHECK(is(call(&job, 9), bad, at, 0));
        }
}

/* With all from 0 to 850 the list is L's; with the weight at both ends all of least cost, as without G. */

static void (*const listed_problems[])(struct job *) = {
    example, crawled, example_primes, example_late, example_asked, example_moved, nothing, once, twice, pairs,
    parity_of_7,
};

static size_t candidates_of(struct job *job)
{
    size_t at = job->length, count = 0;
    for (; count < 65; count++) {
        add_remove(job, (unsigned)count);
        enum cover_refusal number = cover_number(call(job, COVER_MOST_ANSWER_BYTES));
        job->length = at;
        if (number == COVER_WRONG_CANDIDATE)
            break;
    }
    return count;
}

static void test_all_weights(void)
{
    static struct job job;
    static uint8_t page[COVER_MOST_ANSWER_BYTES];
    for (size_t k = 0; k < sizeof listed_problems / sizeof listed_problems[0]; k++) {
        listed_problems[k](&job);
        size_t count = candidates_of(&job), taken = cover_written(call(&job, COVER_MOST_ANSWER_BYTES));
        add_list(&job, 0, COVER_MOST_SETS);
        size_t need = cover_written(call(&job, COVER_MOST_ANSWER_BYTES)) - taken;
        memcpy(page, answers + taken, need);
        job.length -= COVER_LIST_BYTES;
        for (unsigned i = 0; i < count; i++)
            add_range(&job, i, 0, COVER_MOST_WEIGHT);
        add_possible(&job, 0, COVER_MOST_SETS);
        CHECK(is(call(&job, taken + need), COVER_NO_END, job.length, taken + need));
        CHECK(answers[taken] == COVER_POSSIBLE_ANSWER && memcmp(page + 1, answers + taken + 1, need - 1) == 0);
    }
}

/* Of drawn tables: L, C and N do not know of ranges, and V with the weight at both ends is V without G. */
static void test_other_answers(void)
{
    static struct job job;
    static uint8_t without[COVER_MOST_ANSWER_BYTES];
    uint64_t state = 42;
    for (unsigned turn = 0; turn < 100; turn++) {
        struct ranged r = {.mixed = draw_mixed(&state)}, equal;
        r.prices = put_mixed(&job, &r.mixed, &state);
        equal = r;
        size_t head = job.length;
        for (int way = 0; way < 3; way++) {
            job.length = head;
            for (size_t i = 0; i < r.mixed.count && way == 1; i++)
                put_range(&job, &equal, i, weight_at(&r, i), weight_at(&r, i));
            for (size_t i = 0; i < r.mixed.count && way == 2; i++)
                draw_range(&job, &r, &state);
            if (way < 2)
                add_possible(&job, 0, COVER_MOST_SETS);
            size_t skipped = cover_written(call(&job, COVER_MOST_ANSWER_BYTES));
            add_list(&job, 0, COVER_MOST_SETS);
            add(&job, COVER_CHEAPEST);
            add(&job, COVER_MULTIPLY);
            add(&job, COVER_END);
            size_t written = cover_written(call(&job, COVER_MOST_ANSWER_BYTES));
            if (way == 0)
                memcpy(without, answers, COVER_MOST_ANSWER_BYTES);
            size_t known = way < 2 ? 0 : written > 0 ? cover_answer_bytes(without) : 0;
            CHECK(memcmp(without + known, answers, written) == 0 && skipped <= written);
        }
    }
}

/* Pages of V over several jobs, each of which sets the ranges anew. */

static void example_ranged(struct job *job)
{
    example(job);
    add_range(job, 0, 4, 4);
    add_range(job, 5, 0, COVER_MOST_WEIGHT);
}

static void example_ranged_late(struct job *job)
{
    example(job);
    add_range(job, 1, 850, 850);
    add_range(job, 0, 4, 4);
    add_possible(job, 0, 1);
    add_remove(job, 1);
    add_example_late(job, 1);
    add_range(job, 4, 0, 850);
}

static void pairs_ranged(struct job *job)
{
    pairs(job);
    for (unsigned i = 0; i < 16; i++)
        add_range(job, i, i % 2 ? 1 : 0, i < 4 ? i % 2 : 5);
}

static void test_possible_paging(void)
{
    struct list ranged = LISTED(22, 26, 52, 56), late = LISTED(26, 28, 42, 44), known = {.count = 0};
    static const unsigned counts[] = {1, 7, 64, 255};
    static const size_t rooms[] = {0, 11, 100, 1000, 4096};
    paged = COVER_POSSIBLE;
    page_in_every_way(example_ranged, &ranged);
    page_in_every_way(example_ranged_late, &late);
    /* Of the first two pairs the first one alone, 0 against 1; of the other six either one. */
    for (uint64_t set = 0; set < 65536; set++)
        if (((set ^ set >> 1) & 0x5555) == 0x5555 && (set & 15) == 5)
            known.sets[known.count++] = set;
    CHECK(known.count == 64);
    for (size_t i = 0; i < sizeof counts / sizeof counts[0]; i++)
        for (size_t k = 0; k < sizeof rooms / sizeof rooms[0]; k++) {
            struct paging paging = page_through(pairs_ranged, counts[i], rooms[k]);
            CHECK(same(&paging.joined, &known) && !paging.more);
        }
    paged = COVER_LIST;
}

/* As many G as fit, then V; and V with count 0 all along. In seconds of the processor. */
static void test_long_ranges(void)
{
    static struct job job;
    uint64_t state = 43;
    unsigned ranges = 0, pages = 0;
    pairs(&job);
    for (; job.length + COVER_RANGE_BYTES + COVER_POSSIBLE_BYTES <= COVER_MOST_JOB_BYTES; ranges++)
        add_range(&job, (unsigned)draw(&state) % 16, 0, (unsigned)draw(&state) % 850);
    add_possible(&job, 0, COVER_MOST_SETS);
    clock_t start = clock();
    CHECK(is(call(&job, 2043), COVER_NO_END, job.length, 2043));
    pairs_ranged(&job);
    for (; job.length + COVER_POSSIBLE_BYTES <= COVER_MOST_JOB_BYTES; pages++)
        add_possible(&job, draw(&state) % 65536, 0);
    CHECK(is(call(&job, COVER_MOST_ANSWER_BYTES), COVER_NO_END, job.length, 3 * pages));
    double seconds = (double)(clock() - start) / CLOCKS_PER_SEC;
    printf("%u ranges, %u pages of possible sets: %.3f s\n", ranges, pages, seconds);
    CHECK(seconds < 2 && ranges > 5000 && pages > 3000);
}

static void test_header_of_ranges(void)
{
    uint8_t at[COVER_POSSIBLE_BYTES];
    static const uint8_t page[] = {0x76, 1, 1, 8, 7, 6, 5, 4, 3, 2, 1};
    CHECK(cover_put_range(at, 63, 258, 850) == 6 && memcmp(at, "\x47\x3F\x02\x01\x52\x03", 6) == 0);
    CHECK(cover_put_range(at, 255, 65535, 0) == 6 && memcmp(at, "\x47\xFF\xFF\xFF\0\0", 6) == 0);
    CHECK(cover_put_possible(at, UINT64_C(0x1122334455667788), 254) == 10);
    CHECK(memcmp(at, "\x56\x88\x77\x66\x55\x44\x33\x22\x11\xFE", 10) == 0);
    CHECK(COVER_RANGE == 0x47 && COVER_RANGE_BYTES == 6 && cover_command_bytes(0x47) == 6);
    CHECK(COVER_POSSIBLE == 0x56 && COVER_POSSIBLE_BYTES == 10 && cover_command_bytes(0x56) == 10);
    CHECK(COVER_POSSIBLE_ANSWER == 0x76 && COVER_POSSIBLE_ANSWER_BYTES(2) == 19);
    CHECK(cover_answer_bytes(page) == sizeof page && cover_page_sets(page) == 1 && cover_page_more(page) == 1);
    CHECK(cover_page_set(page, 0) == UINT64_C(0x0102030405060708));
    CHECK(cover_page_next(page, 0) == UINT64_C(0x0102030405060709));
    CHECK(COVER_MALFORMED_RANGE == 19 && COVER_LAST_REFUSAL == 19);
}

#endif
