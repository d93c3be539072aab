/*
 * The whole list by N: the marked cases, the pages joined, an own reckoning (by_words.h), up to and above 1,024
 * products, candidates that come and go, prices, places, refusals.
 */
#ifndef PRODUCTS_H
#define PRODUCTS_H

#include "by_words.h"

/* The answer to N at `at`, against a known list. */
static int is_list(const uint8_t *at, const uint64_t *sets, size_t count)
{
    if (at[0] != COVER_MULTIPLY_ANSWER || at[1] != count % 256 || at[2] != count / 256)
        return 0;
    for (size_t i = 0; i < count; i++)
        if (cover_multiply_set(at, i) != sets[i])
            return 0;
    return cover_multiply_sets(at) == count && cover_answer_bytes(at) == COVER_MULTIPLY_ANSWER_BYTES(count);
}

/* N behind a job without an end, with just enough room, with a byte less, and with all. */
static void check_list(struct job *job, const uint64_t *sets, size_t count)
{
    size_t at = job->length, taken = cover_written(call(job, COVER_MOST_ANSWER_BYTES));
    size_t need = taken + COVER_MULTIPLY_ANSWER_BYTES(count);
    add(job, COVER_MULTIPLY);
    CHECK(is(call(job, need - 1), COVER_NO_ROOM, at, taken));
    CHECK(is(call(job, COVER_MOST_ANSWER_BYTES), COVER_NO_END, at + 1, need));
    CHECK(is_list(answers + taken, sets, count));
    CHECK(is(call(job, need), COVER_NO_END, at + 1, need) && is_list(answers + taken, sets, count));
    add(job, COVER_END);
    CHECK(is(call(job, need + 1), COVER_ACCEPTED, at + 2, need + 1) && is_list(answers + taken, sets, count));
    CHECK(answers[need] == COVER_END_ANSWER);
    job->length = at;
}

/* N is refused behind a job without an end, with any room: the answers before it stand, and no others are there. */
static void check_refused_list(struct job *job, enum cover_refusal number)
{
    static uint8_t before[COVER_MOST_ANSWER_BYTES];
    size_t at = job->length, taken = cover_written(call(job, COVER_MOST_ANSWER_BYTES));
    memcpy(before, answers, taken);
    add(job, COVER_MULTIPLY);
    const size_t rooms[] = {taken, taken + 2, taken + 11, taken + 8194, taken + 8195, COVER_MOST_ANSWER_BYTES};
    for (size_t i = 0; i < sizeof rooms / sizeof rooms[0]; i++)
        CHECK(is(call(job, rooms[i]), number, at, taken) && memcmp(answers, before, taken) == 0);
    add(job, COVER_END);
    CHECK(is(call(job, COVER_MOST_ANSWER_BYTES), number, at, taken));
    job->length = at;
}

/* Behind a job without an end whose candidates are those of the problem. */
static void check_words(struct job *job, const struct problem *problem)
{
    const struct products *known = multiply(problem);
    if (known->number == COVER_ACCEPTED)
        check_list(job, known->sets, known->count);
    else
        check_refused_list(job, known->number);
}

static void check_problem(const struct problem *problem)
{
    static struct job job;
    add_problem(&job, problem);
    check_words(&job, problem);
}

/* The marked cases and others that are known. */
static void check_known(void (*make)(struct job *), struct list known)
{
    static struct job job;
    make(&job);
    check_list(&job, known.sets, known.count);
}

static void test_known_products(void)
{
    static struct job job;
    struct list alone = {.count = 64};
    check_known(example, LISTED(11, 22, 26, 41, 52, 56));
    check_known(example_primes, LISTED(13, 25, 38, 44, 50, 56));
    check_known(crawled, LISTED(11, 23, 45, 52, 58));
    check_known(nothing, LISTED(0));
    check_known(once, LISTED(1));
    check_known(twice, LISTED(1, 2));
    check_known(example_late, LISTED(11, 22, 26, 41, 52, 56));
    check_known(example_mixed, LISTED(11, 22, 26, 41, 52, 56));
    check_known(example_asked, LISTED(11, 22, 26, 41, 52, 56));
    check_known(example_moved, LISTED(11, 13, 26, 28, 37, 52));
    check_known(primes_moved, LISTED(19, 22, 25, 28, 38, 44));
    check_known(parity_of_7, LISTED(UINT64_MAX));
    for (size_t i = 0; i < 64; i++)
        alone.sets[i] = UINT64_C(1) << i;
    constant(&job, 64);
    check_list(&job, alone.sets, 64);
    constant(&job, 0);
    check_refused_list(&job, COVER_UNHELD_CELL);
    /* Without a wanted cell no candidate counts. */
    struct problem free = all_free(3, 2);
    put_candidate(&free, 0, 0, 3);
    check_problem(&free);
    add_problem(&job, &free);
    check_list(&job, (const uint64_t[]){0}, 1);
}

/* The same job with N before, between and behind its pages, which must not know of it. */

/* Gives the pages' bytes without those of N, each of which has the known sets. */
static size_t leave_pages(uint8_t *pages, size_t written, const struct list *known)
{
    size_t length = 0;
    for (size_t at = 0, next; at < written && cover_answer_bytes(answers + at) > 0; at = next) {
        next = at + cover_answer_bytes(answers + at);
        if (answers[at] == COVER_MULTIPLY_ANSWER) {
            CHECK(is_list(answers + at, known->sets, known->count));
            continue;
        }
        memcpy(pages + length, answers + at, next - at);
        length += next - at;
    }
    return length;
}

static void check_among_pages(void (*make)(struct job *), unsigned count)
{
    static struct job plain, mixed;
    static uint8_t pages[COVER_MOST_ANSWER_BYTES];
    static struct paging paging;
    paging = page_through(make, count, COVER_MOST_ANSWER_BYTES);
    uint64_t start = 0;
    make(&plain);
    make(&mixed);
    add(&mixed, COVER_MULTIPLY);
    for (size_t i = 0; i <= paging.joined.count && i < 4 * count; i += count) {
        add_list(&plain, start, count);
        add_list(&mixed, start, count);
        add(&mixed, COVER_MULTIPLY);
        start = i + count <= paging.joined.count ? paging.joined.sets[i + count - 1] + 1 : start;
    }
    add(&plain, COVER_CHEAPEST);
    add(&mixed, COVER_CHEAPEST);
    add(&mixed, COVER_MULTIPLY);
    uint64_t outcome = call(&mixed, COVER_MOST_ANSWER_BYTES);
    CHECK(cover_number(outcome) == COVER_NO_END);
    size_t length = leave_pages(pages, cover_written(outcome), &paging.joined);
    CHECK(cover_written(call(&plain, COVER_MOST_ANSWER_BYTES)) == length && memcmp(pages, answers, length) == 0);
}

/* And in a further job, where the pages are joined over many jobs. */
static void check_joined(void (*make)(struct job *), unsigned count, size_t room)
{
    static struct job job;
    static struct paging paging;
    paging = page_through(make, count, room);
    CHECK(!paging.more);
    make(&job);
    check_list(&job, paging.joined.sets, paging.joined.count);
    if (paging.joined.count <= 256)
        check_among_pages(make, count);
}

static void test_products_and_pages(void)
{
    static void (*const made[])(struct job *) = {
        example, example_primes, crawled,       nothing,       once,          twice,
        pairs,   example_late,   example_mixed, example_asked, example_moved, primes_moved,
    };
    for (size_t i = 0; i < sizeof made / sizeof made[0]; i++) {
        check_joined(made[i], 1 + (unsigned)i % 3, 60);
        check_joined(made[i], 100, COVER_MOST_ANSWER_BYTES);
    }
}

enum { MOST_PARTS = 12 };

#define PARTS(...) ((const uint8_t[MOST_PARTS]){__VA_ARGS__})

/* Vertices with so many equal candidates each: as many products as the numbers make when multiplied. */
static struct problem parts_of(const uint8_t *parts)
{
    struct problem problem = all_free(4, 2);
    for (unsigned v = 0; v < MOST_PARTS && parts[v] > 0; v++) {
        want(&problem, v, 0);
        for (unsigned i = 0; i < parts[v]; i++)
            put_candidate(&problem, 15, v, 3);
    }
    return problem;
}

static const struct {
    uint8_t parts[MOST_PARTS];
    unsigned products;
} numbers[] = {
    {{2, 2, 2, 2, 2, 2, 2, 2, 2, 2}, 1024}, {{32, 32}, 1024},    {{4, 4, 4, 4, 4}, 1024}, {{31, 11, 3}, 1023},
    {{41, 5, 5}, 1025},                     {{2, 3, 9, 19}, 1026}, {{33, 31}, 1023},      {{32, 1, 31}, 992},
    {{2, 2, 2, 2, 2, 2, 2, 2, 2, 2, 2}, 2048}, {{5, 41, 5}, 1025}, {{16, 16}, 256},       {{51, 5}, 255},
    {{3, 3, 3, 3, 3, 3}, 729},              {{33, 11, 3}, 1089},    {{64}, 64},              {{22, 42}, 924},
};

/* As told by the number alone. */
static void test_numbers(void)
{
    static struct job job;
    for (size_t i = 0; i < sizeof numbers / sizeof numbers[0]; i++) {
        struct problem problem = parts_of(numbers[i].parts);
        unsigned known = numbers[i].products;
        CHECK(multiply(&problem)->number != COVER_ACCEPTED || multiply(&problem)->count == known);
        check_problem(&problem);
        add_problem(&job, &problem);
        size_t at = job.length, need = COVER_MULTIPLY_ANSWER_BYTES(known);
        add(&job, COVER_MULTIPLY);
        if (known > 1024) {
            CHECK(is(call(&job, COVER_MOST_ANSWER_BYTES), COVER_TOO_MANY_PRODUCTS, at, 0));
            CHECK(is(call(&job, 0), COVER_TOO_MANY_PRODUCTS, at, 0)); /* 17 before 14 */
        } else {
            CHECK(is(call(&job, need), COVER_NO_END, at + 1, need));
            CHECK(is(call(&job, need - 1), COVER_NO_ROOM, at, 0));
        }
    }
}

static struct list all_tens(void)
{
    struct list list = {.count = 0};
    for (uint64_t set = 0; set < 1 << 20; set++)
        if (((set ^ set >> 1) & 0x55555) == 0x55555)
            list.sets[list.count++] = set;
    return list;
}

/* 1,024 sets take 8,195 bytes; behind other answers too, which stand where N finds no room. */
static void test_most_products(void)
{
    static struct job job;
    struct problem problem = parts_of(numbers[0].parts);
    struct list known = all_tens();
    CHECK(known.count == COVER_MOST_PRODUCTS);
    add_problem(&job, &problem);
    check_list(&job, known.sets, known.count);
    add(&job, COVER_MULTIPLY);
    CHECK(is(call(&job, 8195), COVER_NO_END, job.length, 8195) && answers[1] == 0 && answers[2] == 4);
    CHECK(is(call(&job, 8194), COVER_NO_ROOM, job.length - 1, 0));
    job.length--;
    add_list(&job, known.sets[1000], 255);
    check_list(&job, known.sets, known.count);
    /* Three times and a page, but not four times. */
    for (unsigned i = 0; i < 4; i++)
        add(&job, COVER_MULTIPLY);
    size_t page = COVER_LIST_ANSWER_BYTES(24);
    CHECK(is(call(&job, COVER_MOST_ANSWER_BYTES), COVER_NO_ROOM, job.length - 1, page + 3 * 8195));
    for (size_t i = 0; i < 3; i++)
        CHECK(is_list(answers + page + i * 8195, known.sets, known.count));
    /* At another cell with the same candidates all of them stay; at one that nobody holds 12 comes first. */
    want(&problem, 9, 1);
    check_problem(&problem);
    add_problem(&job, &problem);
    check_list(&job, known.sets, known.count);
    want(&problem, 15, 1);
    check_problem(&problem);
    add_problem(&job, &problem);
    check_refused_list(&job, COVER_UNHELD_CELL);
}

/* More than are allowed, then 12 at a cell behind them, which comes first, and 17 behind a page. */
static void test_too_many_products(void)
{
    static struct job job;
    struct problem problem = parts_of(PARTS(41, 5, 5));
    add_problem(&job, &problem);
    check_refused_list(&job, COVER_TOO_MANY_PRODUCTS);
    add_list(&job, 0, 255);
    add(&job, COVER_CHEAPEST);
    check_refused_list(&job, COVER_TOO_MANY_PRODUCTS);
    /* One less of the 41: 1,000 products. */
    add_remove(&job, 0);
    memmove(problem.terms[0], problem.terms[1], 50 * 3);
    problem.count--;
    check_words(&job, &problem);
    add_late(&job, 15, 0, 3);
    check_refused_list(&job, COVER_TOO_MANY_PRODUCTS);
    for (unsigned v = 0; v < 16; v += 15) {
        problem = parts_of(PARTS(1, 41, 5, 5));
        if (v == 0)
            problem.terms[0][1] = 14; /* the first cell is not held */
        want(&problem, v, 1);
        check_problem(&problem);
        add_problem(&job, &problem);
        check_refused_list(&job, COVER_UNHELD_CELL);
    }
}

/* One candidate holds all: behind the parts, which have one product more by it, it is the only one. */
static void check_crowd(const uint8_t *parts, int refused)
{
    static struct job job;
    struct problem problem = parts_of(parts);
    uint64_t all = UINT64_C(1) << problem.count;
    put_candidate(&problem, 0, 0, 1);
    want(&problem, 15, 0);
    check_problem(&problem);
    add_problem(&job, &problem);
    add_list(&job, 0, 255);
    CHECK(is(call(&job, 99), COVER_NO_END, job.length, 11) && cover_page_set(answers, 0) == all);
    if (refused)
        check_refused_list(&job, COVER_TOO_MANY_PRODUCTS);
    else
        check_list(&job, &all, 1);
}

static void test_crowds(void)
{
    static struct job job;
    check_crowd(PARTS(31, 32), 0);
    check_crowd(PARTS(33, 30), 0);
    check_crowd(PARTS(31, 11, 3), 0); /* 1,024 with it */
    check_crowd(PARTS(4, 4, 4, 4, 4), 1);
    check_crowd(PARTS(2, 2, 2, 2, 2, 2, 2, 2, 2, 2), 1);
    check_crowd(PARTS(2, 2, 2, 2, 2, 2, 2, 2, 2), 0);
    /* Where its cell is the first there is never more than one. */
    struct problem problem = parts_of(PARTS(1, 2, 2, 2, 2, 2, 2, 2, 2, 2, 2, 2));
    memcpy(problem.terms[0], "\0\0\1", 3);
    check_problem(&problem);
    add_problem(&job, &problem);
    check_list(&job, (const uint64_t[]){1}, 1);
    /* By output, then vertex, the order would be another: the lone cell is the second output of the first vertex. */
    problem = parts_of(PARTS(2, 2, 2, 2, 2, 2, 2, 2, 2, 2, 2));
    for (size_t i = 0; i < problem.count; i++)
        problem.terms[i][2] = 1;
    put_candidate(&problem, 0, 0, 3);
    want(&problem, 0, 1);
    check_problem(&problem);
    add_problem(&job, &problem);
    check_list(&job, (const uint64_t[]){UINT64_C(1) << 22}, 1);
}

/* Drawn: each cell is wanted or free, and the candidates hold most of the wanted ones. */
static struct problem draw_problem(uint64_t *state)
{
    struct problem problem = all_free(1 + (unsigned)draw(state) % 5, 1 + (unsigned)draw(state) % 3);
    unsigned cells = problem.m << problem.n, wanted = 1 + (unsigned)draw(state) % 12, leave = draw(state) % 16 == 0;
    for (size_t count = 1 + draw(state) % 14; problem.count < count; problem.count++)
        draw_term(state, problem.n, problem.m, problem.terms[problem.count]);
    for (; wanted > 0; wanted--) {
        unsigned cell = (unsigned)draw(state) % cells, v = cell / problem.m, j = cell % problem.m;
        if (leave || holders(&problem, v, j) != 0)
            want(&problem, v, j);
    }
    return problem;
}

static void test_drawn_products(void)
{
    uint64_t state = 21;
    unsigned count = 0;
    for (unsigned turn = 0; turn < 200; turn++) {
        struct problem problem = draw_problem(&state);
        check_problem(&problem);
        count += multiply(&problem)->count > 4;
    }
    CHECK(count > 60);
}

/* The same by trying every set: the list is that of the irredundant covers, and of the page. */
static void test_small_products(void)
{
    static struct job job;
    uint64_t state = 22;
    for (unsigned turn = 0; turn < 60; turn++) {
        struct small small = draw_small(&state);
        struct list sets = irredundant_sets(&small);
        struct prices prices = draw_prices(&state);
        add_small(&job, &small, turn % 2 ? &prices : NULL, (enum way)(turn % BY_PRIMES));
        check_list(&job, sets.sets, sets.count);
        small = draw_table_for_primes(&state);
        if (!read_primes(&small))
            continue;
        sets = irredundant_sets(&small);
        add_small(&job, &small, turn % 2 ? &prices : NULL, BY_PRIMES);
        check_list(&job, sets.sets, sets.count);
    }
}

/* Candidates that come and go, N behind each: as by the words with those that stand. */
static void come_and_go_by_products(uint64_t *state)
{
    static struct job job;
    struct problem problem = draw_problem(state);
    add_problem(&job, &problem);
    for (unsigned turn = 0; turn < 12; turn++) {
        check_words(&job, &problem);
        if (draw(state) % 2 == 0 || problem.count == 0) {
            draw_term(state, problem.n, problem.m, problem.terms[problem.count]);
            const uint8_t *term = problem.terms[problem.count++];
            add_late(&job, term[0], term[1], term[2]);
        } else {
            size_t number = draw(state) % problem.count;
            add_remove(&job, (unsigned)number);
            memmove(problem.terms[number], problem.terms[number + 1], (--problem.count - number) * 3);
        }
        size_t length = job.length;
        add(&job, COVER_MULTIPLY);
        /* A refused one would end the job, and so would too many answers. */
        if (cover_written(call(&job, COVER_MOST_ANSWER_BYTES)) > 16384 || multiply(&problem)->number != COVER_ACCEPTED)
            job.length = length;
    }
}

static void test_changed_products(void)
{
    uint64_t state = 23;
    for (unsigned turn = 0; turn < 20; turn++)
        come_and_go_by_products(&state);
}

/* Places, as those of W. */
static const struct price_place product_places[] = {
    {"N", COVER_WRONG_PLACE},       {"IN", COVER_NO_END},           {"INN", COVER_NO_END},
    {"INE", COVER_ACCEPTED},        {"INW", COVER_WRONG_PLACE},     {"INR", COVER_WRONG_PLACE},
    {"INB", COVER_WRONG_PLACE},     {"INT", COVER_WRONG_PLACE},     {"INP", COVER_WRONG_PLACE},
    {"INI", COVER_WRONG_PLACE},     {"INL", COVER_NO_END},          {"INC", COVER_NO_END},
    {"IND", COVER_WRONG_CANDIDATE}, {"INA", COVER_OFF_CELL},        {"IWN", COVER_NO_END},
    {"IWNW", COVER_WRONG_PLACE},    {"IRN", COVER_UNHELD_CELL},     {"IRTN", COVER_NO_END},
    {"IRAN", COVER_NO_END},         {"IRPN", COVER_NO_END},         {"IBN", COVER_NO_END},
    {"IRTNR", COVER_WRONG_PLACE},   {"IRTNB", COVER_WRONG_PLACE},   {"IRTNT", COVER_WRONG_PLACE},
    {"IRTNP", COVER_WRONG_PLACE},   {"IRTNW", COVER_WRONG_PLACE},   {"IRTNA", COVER_NO_END},
    {"IRTND", COVER_NO_END},        {"IRTNDN", COVER_UNHELD_CELL},  {"IRTNDAN", COVER_NO_END},
    {"IRTNADN", COVER_NO_END},      {"IRTNDT", COVER_WRONG_PLACE},  {"IRTNAT", COVER_WRONG_PLACE},
    {"IRTNDP", COVER_WRONG_PLACE},  {"IRTNAR", COVER_WRONG_PLACE},  {"IRPNP", COVER_WRONG_PLACE},
    {"IRPNT", COVER_WRONG_PLACE},   {"IRPNDAN", COVER_NO_END},      {"IRTLN", COVER_NO_END},
    {"IRTCN", COVER_NO_END},        {"IRTNLNCN", COVER_NO_END},     {"IRTNLT", COVER_WRONG_PLACE},
    {"IRTDN", COVER_UNHELD_CELL},   {"IWRTNLCNE", COVER_ACCEPTED},  {"IRTDTN", COVER_NO_END},
};

static void test_product_places(void)
{
    static struct job job;
    for (size_t i = 0; i < sizeof product_places / sizeof product_places[0]; i++) {
        const struct price_place *place = &product_places[i];
        size_t at = 0, taken = 0;
        job.length = 0;
        for (const char *letter = place->commands; *letter; letter++) {
            taken = cover_written(call(&job, 99));
            at = job.length;
            add_priced_letter(&job, *letter);
        }
        uint64_t outcome = call(&job, 99);
        if (is_good(place->number))
            CHECK(cover_number(outcome) == place->number && cover_offset(outcome) == job.length);
        else
            CHECK(is(outcome, place->number, at, taken));
        /* Of its bytes one is missing: 4 comes before 5. */
        job.length--;
        if (job.length > at && place->number == COVER_WRONG_PLACE)
            CHECK(is(call(&job, 99), COVER_WRONG_PLACE, at, taken));
    }
    /* So many answers of 11 bytes fit. */
    nothing(&job);
    for (unsigned i = 0; i < 3000; i++)
        add(&job, COVER_MULTIPLY);
    CHECK(is(call(&job, COVER_MOST_ANSWER_BYTES), COVER_NO_ROOM, 3 + 2978, 2978 * 11));
}

/* The same bytes at any prices. */
static void test_priced_products(void)
{
    static struct job job;
    uint64_t state = 24;
    struct list a = LISTED(11, 22, 26, 41, 52, 56), c = LISTED(13, 25, 38, 44, 50, 56), d = LISTED(11, 23, 45, 52, 58);
    for (unsigned turn = 0; turn < 12; turn++) {
        struct prices prices = turn == 0 ? free_of_charge : turn == 1 ? highest : draw_prices(&state);
        struct problem problem = draw_problem(&state);
        example(&job);
        put_prices(&job, prices);
        check_list(&job, a.sets, a.count);
        example_primes(&job);
        put_prices(&job, prices);
        check_list(&job, c.sets, c.count);
        crawled(&job);
        put_prices(&job, prices);
        check_list(&job, d.sets, d.count);
        add_problem(&job, &problem);
        put_prices(&job, prices);
        check_words(&job, &problem);
    }
}

static void test_header_of_products(void)
{
    uint8_t at[COVER_MULTIPLY_BYTES];
    CHECK(cover_put_command(at, COVER_MULTIPLY) == 1 && at[0] == 0x4E && cover_command_bytes(0x4E) == 1);
    CHECK(COVER_MULTIPLY_ANSWER == 0x6E && COVER_MOST_PRODUCTS == 1024 && COVER_MULTIPLY_ANSWER_BYTES(1024) == 8195);
    CHECK(COVER_TOO_MANY_PRODUCTS == 17);
    static const uint8_t two[] = {0x6E, 2, 0, 1, 0, 0, 0, 0, 0, 0, 0, 8, 7, 6, 5, 4, 3, 2, 129};
    CHECK(cover_answer_bytes(two) == sizeof two && cover_multiply_sets(two) == 2 && cover_multiply_set(two, 0) == 1);
    CHECK(cover_multiply_set(two, 1) == UINT64_C(0x8102030405060708));
    static const uint8_t many[] = {0x6E, 0, 4}, others[] = {0x6E, 2, 1}, none[] = {0x6E, 0, 0};
    CHECK(cover_multiply_sets(many) == 1024 && cover_answer_bytes(many) == 8195);
    CHECK(cover_multiply_sets(others) == 258 && cover_answer_bytes(others) == 2067);
    CHECK(cover_multiply_sets(none) == 0 && cover_answer_bytes(none) == 3);
}

/* Those that ask the engine, and are quick. */
static void (*const product_tests[])(void) = {
    test_product_places,  test_known_products,    test_crowds,         test_most_products, test_too_many_products,
    test_numbers,         test_small_products,    test_drawn_products, test_changed_products,
    test_priced_products, test_products_and_pages,
};

enum { PRODUCT_TESTS = sizeof product_tests / sizeof product_tests[0] };

static void test_products(void)
{
    test_header_of_products();
    for (size_t i = 0; i < PRODUCT_TESTS; i++)
        product_tests[i]();
}

#endif
