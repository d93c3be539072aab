/*
 * Prices by W: known costs, the cost of single terms and the cheapest of small problems against an own reckoning, pages
 * at any prices, places, operands, further jobs.
 */
#ifndef PRICES_H
#define PRICES_H

#include "changes.h"

struct prices {
    unsigned term, literal, connection;
};

static const struct prices free_of_charge = {0, 0, 0}, highest = {COVER_MOST_PRICE, COVER_MOST_PRICE, COVER_MOST_PRICE};

static void add_list_of_prices(struct job *job, struct prices prices)
{
    add_prices(job, prices.term, prices.literal, prices.connection);
}

/* Often at the borders, where most costs are alike. */
static unsigned draw_price(uint64_t *state)
{
    static const unsigned border[] = {0, 1, 2, COVER_MOST_PRICE};
    unsigned kind = (unsigned)draw(state) % 8;
    return kind < 4 ? border[kind] : (unsigned)draw(state) % (COVER_MOST_PRICE + 1);
}

static struct prices draw_prices(uint64_t *state)
{
    struct prices prices;
    prices.term = draw_price(state);
    prices.literal = draw_price(state);
    prices.connection = draw_price(state);
    return prices;
}

/* The cost rule, read once more. */

static unsigned ones_of(unsigned byte)
{
    unsigned count = 0;
    for (; byte != 0; byte >>= 1)
        count += byte & 1;
    return count;
}

static unsigned cost_by_rule(struct prices prices, const uint8_t *term)
{
    unsigned literals = ones_of(term[0]), cost = prices.term + ones_of(term[2]) * prices.connection;
    return literals < 2 ? cost : cost + literals * prices.literal;
}

/* Another rule can be put here, to see whether the tests tell the two apart. */
static unsigned (*cost_of)(struct prices, const uint8_t *) = cost_by_rule;

/*
 * Small problems: up to 4 inputs, 3 outputs and 10 candidates, so that every set can be tried. No cell is off that a
 * candidate holds, and the candidates hold each wanted cell.
 */
enum { MOST_SMALL = 10, SMALL_ROOM = 4096 };

struct small {
    unsigned n, m;
    uint8_t on[16], dc[16], terms[MOST_SMALL][3];
    size_t count;
};

static unsigned held_at(const struct small *small, uint64_t set, unsigned v)
{
    unsigned held = 0;
    for (size_t i = 0; i < small->count; i++)
        if ((set >> i & 1) && (v & small->terms[i][0]) == small->terms[i][1])
            held |= small->terms[i][2];
    return held;
}

static int is_cover(const struct small *small, uint64_t set)
{
    for (unsigned v = 0; v < 1u << small->n; v++)
        if (small->on[v] & ~held_at(small, set, v))
            return 0;
    return 1;
}

/* A cover of which no member can go: then no smaller part of it is one. */
static int is_irredundant(const struct small *small, uint64_t set)
{
    if (!is_cover(small, set))
        return 0;
    for (size_t i = 0; i < small->count; i++)
        if ((set >> i & 1) && is_cover(small, set - (UINT64_C(1) << i)))
            return 0;
    return 1;
}

static struct list irredundant_sets(const struct small *small)
{
    struct list list = {.count = 0};
    for (uint64_t set = 0; set < UINT64_C(1) << small->count; set++)
        if (is_irredundant(small, set))
            list.sets[list.count++] = set;
    return list;
}

static unsigned cost_of_set(const struct small *small, struct prices prices, uint64_t set)
{
    unsigned cost = 0;
    for (size_t i = 0; i < small->count; i++)
        cost += set >> i & 1 ? cost_of(prices, small->terms[i]) : 0;
    return cost;
}

/* Of a rising list the first of least cost. */
static uint64_t cheapest_set(const struct small *small, struct prices prices, const struct list *sets)
{
    uint64_t cheapest = sets->sets[0];
    for (size_t i = 1; i < sets->count; i++)
        if (cost_of_set(small, prices, sets->sets[i]) < cost_of_set(small, prices, cheapest))
            cheapest = sets->sets[i];
    return cheapest;
}

/* Every cell is wanted or free, so that any term is legal. Where none holds a wanted cell, it is made free. */
static struct small draw_small(uint64_t *state)
{
    struct small small = {.n = 1 + (unsigned)draw(state) % 4, .m = 1 + (unsigned)draw(state) % 3};
    unsigned all = (1u << small.m) - 1;
    small.count = 1 + draw(state) % 8;
    for (size_t i = 0; i < small.count; i++)
        draw_term(state, small.n, small.m, small.terms[i]);
    for (unsigned v = 0; v < 1u << small.n; v++) {
        small.on[v] = (uint8_t)(draw(state) & held_at(&small, UINT64_MAX, v));
        small.dc[v] = (uint8_t)(all & ~small.on[v]);
    }
    return small;
}

/* A table with off cells for P. Its candidates are read from the answer. */
static struct small draw_table_for_primes(uint64_t *state)
{
    struct small small = {.n = 1 + (unsigned)draw(state) % 4, .m = 1 + (unsigned)draw(state) % 3};
    unsigned all = (1u << small.m) - 1;
    for (unsigned v = 0; v < 1u << small.n; v++) {
        small.on[v] = (uint8_t)(draw(state) & all);
        small.dc[v] = (uint8_t)(draw(state) & draw(state) & all & ~small.on[v]);
    }
    return small;
}

/*
 * How the candidates come: all by T; all by A; by T behind a further one, which goes again; by T, and behind a query
 * the last one goes and comes back; by P.
 */
enum way { BY_TERM, BY_ADD, BY_REMOVE, BEHIND_QUERY, BY_PRIMES };

static void add_small_rows(struct job *job, const struct small *small)
{
    if (small->n == 3)
        add_rows(job, 0, small->on, small->dc);
    for (unsigned v = 0; small->n != 3 && v < 1u << small->n; v++)
        add_row(job, v, small->on[v], small->dc[v]);
}

/* The last candidate goes and comes back, behind a query. */
static void add_last_anew(struct job *job, const struct small *small)
{
    size_t last = small->count - 1;
    add(job, COVER_CHEAPEST);
    add_remove(job, (unsigned)last);
    add_late(job, small->terms[last][0], small->terms[last][1], small->terms[last][2]);
}

static void add_small_candidates(struct job *job, const struct small *small, enum way way)
{
    if (way == BY_PRIMES) {
        add(job, COVER_PRIMES);
        return;
    }
    if (way == BY_REMOVE)
        add_late(job, 0, 0, 1);
    for (size_t i = 0; i < small->count; i++) {
        const uint8_t *term = small->terms[i];
        if (way == BY_ADD)
            add_late(job, term[0], term[1], term[2]);
        else
            add_term(job, term[0], term[1], term[2]);
    }
    if (way == BY_REMOVE)
        add_remove(job, 0);
    if (way == BEHIND_QUERY)
        add_last_anew(job, small);
}

/* Sizes, the prices where there are any, the table, the candidates. */
static void add_small(struct job *job, const struct small *small, const struct prices *prices, enum way way)
{
    add_sizes(job, small->n, small->m);
    if (prices)
        add_list_of_prices(job, *prices);
    add_small_rows(job, small);
    add_small_candidates(job, small, way);
}

static void ask_small(struct job *job)
{
    add_list(job, 0, COVER_MOST_SETS);
    add(job, COVER_CHEAPEST);
    add(job, COVER_END);
}

/* The page and the cheapest. */
static void check_small(const struct small *small, const struct prices *prices, enum way way)
{
    static const struct prices usual = {1, 1, 0};
    static struct job job;
    struct prices due = prices ? *prices : usual;
    add_small(&job, small, prices, way);
    size_t taken = cover_written(call(&job, SMALL_ROOM));
    ask_small(&job);

    struct list sets = irredundant_sets(small);
    uint64_t cheapest = cheapest_set(small, due, &sets);
    size_t last = taken + COVER_LIST_ANSWER_BYTES(sets.count), need = last + COVER_CHEAPEST_ANSWER_BYTES + 1;
    CHECK(is(call(&job, SMALL_ROOM), COVER_ACCEPTED, job.length, need));
    CHECK(answers[taken] == COVER_LIST_ANSWER && cover_page_sets(answers + taken) == sets.count);
    CHECK(cover_page_more(answers + taken) == 0);
    for (size_t i = 0; i < sets.count; i++)
        CHECK(cover_page_set(answers + taken, i) == sets.sets[i]);
    CHECK(answers[last] == COVER_CHEAPEST_ANSWER && cover_cheapest_set(answers + last) == cheapest);
    CHECK(cover_cheapest_cost(answers + last) == cost_of_set(small, due, cheapest));
}

/* Where nothing is charged all covers cost 0, and the least irredundant one is told. */
static void check_free_of_charge(const struct small *small, enum way way)
{
    static struct job job;
    add_small(&job, small, &free_of_charge, way);
    size_t taken = cover_written(call(&job, SMALL_ROOM));
    ask_small(&job);
    size_t written = cover_written(call(&job, SMALL_ROOM)), cheapest = written - 1 - COVER_CHEAPEST_ANSWER_BYTES;
    CHECK(cover_cheapest_cost(answers + cheapest) == 0);
    CHECK(cover_cheapest_set(answers + cheapest) == cover_page_set(answers + taken, 0));
    CHECK(is_irredundant(small, cover_cheapest_set(answers + cheapest)));
}

/* Takes cost and set out of the answers to C: the rest must not know the prices. */
static void blot_cheapest(uint8_t *bytes, size_t written)
{
    for (size_t at = 0; at < written && cover_answer_bytes(bytes + at) > 0; at += cover_answer_bytes(bytes + at))
        if (bytes[at] == COVER_CHEAPEST_ANSWER)
            memset(bytes + at + 1, 0, COVER_CHEAPEST_ANSWER_BYTES - 1);
}

/* The same answers, byte for byte, as without prices, but for the cheapest. */
static void check_listing(const struct small *small, struct prices prices, enum way way)
{
    static struct job without, with;
    static uint8_t known[SMALL_ROOM];
    add_small(&without, small, NULL, way);
    ask_small(&without);
    uint64_t due = call(&without, SMALL_ROOM);
    memcpy(known, answers, sizeof known);
    add_small(&with, small, &prices, way);
    ask_small(&with);
    uint64_t outcome = call(&with, SMALL_ROOM);
    CHECK(with.length == without.length + COVER_PRICES_BYTES);
    CHECK(is(outcome, cover_number(due), cover_offset(due) + COVER_PRICES_BYTES, cover_written(due)));
    blot_cheapest(known, cover_written(due));
    blot_cheapest(answers, cover_written(outcome));
    CHECK(memcmp(known, answers, sizeof known) == 0);
}

static void check_at_prices(const struct small *small, enum way way, uint64_t *state)
{
    struct prices prices = draw_prices(state);
    check_small(small, &prices, way);
    check_small(small, &free_of_charge, way);
    check_small(small, &highest, way);
    check_small(small, NULL, way);
    check_free_of_charge(small, way);
    check_listing(small, prices, way);
}

static void test_small_problems(void)
{
    uint64_t state = 11;
    for (unsigned turn = 0; turn < 80; turn++) {
        struct small small = draw_small(&state);
        check_at_prices(&small, (enum way)(turn % BY_PRIMES), &state);
    }
}

/* Reads the candidates from the answer to P; whether there are few enough. */
static int read_primes(struct small *small)
{
    static struct job job;
    add_small(&job, small, NULL, BY_PRIMES);
    call(&job, SMALL_ROOM);
    small->count = cover_primes_count(answers);
    for (size_t i = 0; small->count <= MOST_SMALL && i < small->count; i++)
        memcpy(small->terms[i], cover_prime(answers, i), 3);
    return small->count <= MOST_SMALL;
}

static void test_priced_primes(void)
{
    unsigned count = 0;
    uint64_t state = 12;
    for (unsigned turn = 0; turn < 40; turn++) {
        struct small small = draw_table_for_primes(&state);
        if (!read_primes(&small))
            continue;
        check_at_prices(&small, BY_PRIMES, &state);
        count++;
    }
    CHECK(count > 20);
}

/* One term alone, of 8 inputs and outputs: one of its cells is wanted, all others are free. */
static void check_one_term(struct prices prices, const uint8_t *term)
{
    static struct job job;
    uint8_t output = (uint8_t)(term[2] & -term[2]);
    add_sizes(&job, 8, 8);
    add_list_of_prices(&job, prices);
    for (unsigned v = 0; v < 256; v += 8) {
        uint8_t on[8] = {0}, dc[8];
        for (unsigned i = 0; i < 8; i++) {
            on[i] = v + i == term[1] ? output : 0;
            dc[i] = (uint8_t)~on[i];
        }
        add_rows(&job, v, on, dc);
    }
    add_term(&job, term[0], term[1], term[2]);
    add(&job, COVER_CHEAPEST);
    add(&job, COVER_END);
    CHECK(is(call(&job, 12), COVER_ACCEPTED, job.length, 12));
    CHECK(cover_cheapest_set(answers) == 1 && cover_cheapest_cost(answers) == cost_of(prices, term));
}

/* Each number of literals and of outputs, then drawn terms. */
static void test_price_of_terms(void)
{
    uint64_t state = 13;
    for (unsigned literals = 0; literals <= 8; literals++) {
        for (unsigned outputs = 1; outputs <= 8; outputs++) {
            uint8_t term[3] = {(uint8_t)((1u << literals) - 1), 0, (uint8_t)((1u << outputs) - 1)};
            check_one_term(highest, term);
            check_one_term(draw_prices(&state), term);
        }
    }
    for (unsigned turn = 0; turn < 200; turn++) {
        uint8_t term[3];
        draw_term(&state, 8, 8, term);
        check_one_term(draw_prices(&state), term);
    }
}

/*
 * Case d by hand, where prices decide. Of its sets 11 has 3 terms, 2 literals that are charged and 4 connections, 45
 * has 4, 0 and 4, and 52 has as many as 11; 23 and 58 have 4, 4 and 6.
 */
static const struct {
    struct prices prices;
    unsigned cost;
    uint64_t cheapest;
} known_costs[] = {
    {{1, 1, 0}, 4, 45},    {{2, 1, 0}, 8, 11},    {{3, 1, 0}, 11, 11},  {{0, 0, 0}, 0, 11},
    {{50, 0, 0}, 150, 11}, {{0, 50, 0}, 0, 45},   {{0, 0, 50}, 200, 11}, {{50, 50, 50}, 400, 45},
    {{1, 1, 1}, 8, 45},    {{50, 24, 0}, 198, 11}, {{50, 25, 0}, 200, 11}, {{50, 26, 0}, 200, 45},
    {{1, 0, 7}, 31, 11},   {{7, 3, 0}, 27, 11},
};

/* Puts a W behind the sizes, with which the job begins. */
static void put_prices(struct job *job, struct prices prices)
{
    size_t rest = job->length - COVER_SIZES_BYTES;
    uint8_t *at = job->bytes + COVER_SIZES_BYTES;
    next_command(job, COVER_PRICES_BYTES);
    memmove(at + COVER_PRICES_BYTES, at, rest);
    cover_put_prices(at, prices.term, prices.literal, prices.connection);
}

static void check_cheapest(struct job *job, unsigned cost, uint64_t cheapest)
{
    size_t taken = cover_written(call(job, COVER_MOST_ANSWER_BYTES));
    add(job, COVER_CHEAPEST);
    CHECK(is(call(job, COVER_MOST_ANSWER_BYTES), COVER_NO_END, job->length, taken + COVER_CHEAPEST_ANSWER_BYTES));
    CHECK(answers[taken] == COVER_CHEAPEST_ANSWER);
    CHECK(cover_cheapest_cost(answers + taken) == cost && cover_cheapest_set(answers + taken) == cheapest);
}

/* Each in a job of its own, and in between one without prices: they are not kept. */
static void test_known_prices(void)
{
    static struct job job;
    for (size_t i = 0; i < sizeof known_costs / sizeof known_costs[0]; i++) {
        crawled(&job);
        put_prices(&job, known_costs[i].prices);
        check_cheapest(&job, known_costs[i].cost, known_costs[i].cheapest);
        crawled(&job);
        check_cheapest(&job, 4, 45);
    }
    nothing(&job);
    put_prices(&job, highest);
    check_cheapest(&job, 0, 0);
    once(&job);
    put_prices(&job, (struct prices){7, 50, 11});
    check_cheapest(&job, 18, 1);
    parity_of_7(&job);
    put_prices(&job, (struct prices){3, 5, 7});
    check_cheapest(&job, 64 * (3 + 7 * 5 + 7), UINT64_MAX);
}

/* 64 terms of 8 literals and 8 outputs, all of which are needed: no set costs more. */
static void test_highest_cost(void)
{
    static struct job job;
    add_sizes(&job, 8, 8);
    add_list_of_prices(&job, highest);
    for (unsigned v = 0; v < 64; v++)
        add_row(&job, v, 255, 0);
    for (unsigned v = 0; v < 64; v++)
        add_term(&job, 255, v, 255);
    check_cheapest(&job, 54400, UINT64_MAX);
    add_remove(&job, 63);
    add_late(&job, 255, 63, 255);
    check_cheapest(&job, 54400, UINT64_MAX);
}

/* Every byte for each price, beside good ones and beside bad ones. */
static void test_price_operands(void)
{
    static struct job job;
    static const unsigned others[] = {0, COVER_MOST_PRICE, COVER_MOST_PRICE + 1};
    for (unsigned at = 0; at < 3 * 256 * 3; at++) {
        unsigned price = at / 9, beside = others[at % 3], place = at / 3 % 3, operands[3] = {beside, beside, beside};
        operands[place] = price;
        add_sizes(&job, 1, 1);
        add_prices(&job, operands[0], operands[1], operands[2]);
        add(&job, COVER_END);
        if (price <= 50 && beside <= 50)
            CHECK(is(call(&job, 9), COVER_ACCEPTED, 8, 1) && answers[0] == COVER_END_ANSWER);
        else
            CHECK(is(call(&job, 9), COVER_WRONG_PRICES, 3, 0));
    }
}

/*
 * Places: one letter for each command, and the number that the last one meets. R is the wanted row of vertex 0, whose
 * cell T, F and A have.
 */
struct price_place {
    const char *commands;
    enum cover_refusal number;
};

static const struct price_place price_places[] = {
    {"W", COVER_WRONG_PLACE},      {"IW", COVER_NO_END},          {"IWW", COVER_WRONG_PLACE},
    {"IWI", COVER_WRONG_PLACE},    {"IRW", COVER_WRONG_PLACE},    {"IBW", COVER_WRONG_PLACE},
    {"IRTW", COVER_WRONG_PLACE},   {"IRAW", COVER_WRONG_PLACE},   {"IRTDW", COVER_WRONG_PLACE},
    {"IRADW", COVER_WRONG_PLACE},  {"IPW", COVER_WRONG_PLACE},    {"IRPDW", COVER_WRONG_PLACE},
    {"ILW", COVER_WRONG_PLACE},    {"ICW", COVER_WRONG_PLACE},    {"IRTLW", COVER_WRONG_PLACE},
    {"IRTCW", COVER_WRONG_PLACE},  {"IWRW", COVER_WRONG_PLACE},   {"IWBW", COVER_WRONG_PLACE},
    {"IWRTW", COVER_WRONG_PLACE},  {"IWRAW", COVER_WRONG_PLACE},  {"IWPW", COVER_WRONG_PLACE},
    {"IWLW", COVER_WRONG_PLACE},   {"IWCW", COVER_WRONG_PLACE},   {"IWRADW", COVER_WRONG_PLACE},
    {"IWD", COVER_WRONG_CANDIDATE}, {"IWRT", COVER_NO_END},       {"IWRA", COVER_NO_END},
    {"IWB", COVER_NO_END},         {"IWRB", COVER_NO_END},        {"IWBR", COVER_NO_END},
    {"IWP", COVER_NO_END},         {"IWL", COVER_NO_END},         {"IWC", COVER_NO_END},
    {"IWE", COVER_ACCEPTED},       {"IWRTLCE", COVER_ACCEPTED},   {"IWRPDALC", COVER_NO_END},
    {"IWRADTLC", COVER_NO_END},    {"IWRTR", COVER_WRONG_PLACE},  {"IWRTP", COVER_WRONG_PLACE},
    {"IWPR", COVER_WRONG_PLACE},   {"IWLR", COVER_WRONG_PLACE},   {"IWCB", COVER_WRONG_PLACE},
    {"IWCT", COVER_WRONG_PLACE},   {"IWT", COVER_OFF_CELL},       {"IWBA", COVER_OFF_CELL},
};

static void add_priced_letter(struct job *job, char letter)
{
    if (letter == 'W')
        add_prices(job, 2, 3, 5);
    else if (letter == 'R')
        add_row(job, 0, 1, 0);
    else
        add_letter(job, letter);
}

static int is_good(enum cover_refusal number)
{
    return number == COVER_ACCEPTED || number == COVER_NO_END;
}

/*
 * W at `at`, behind `taken` bytes of answers, with each price too high, then without its last operands: 4 comes before
 * 5, and that before 16.
 */
static void check_spoilt_prices(struct job *job, size_t at, size_t taken, int allowed)
{
    for (unsigned i = 0; i < 3; i++) {
        job->bytes[at + 1 + i] = 51;
        CHECK(is(call(job, 99), allowed ? COVER_WRONG_PRICES : COVER_WRONG_PLACE, at, taken));
        job->bytes[at + 1 + i] = 50;
    }
    memset(job->bytes + at + 1, 255, 3);
    for (job->length = at + 1; job->length < at + COVER_PRICES_BYTES; job->length++)
        CHECK(is(call(job, 99), allowed ? COVER_NO_OPERANDS : COVER_WRONG_PLACE, at, taken));
}

static void test_price_places(void)
{
    static struct job job;
    for (size_t i = 0; i < sizeof price_places / sizeof price_places[0]; i++) {
        const struct price_place *place = &price_places[i];
        size_t at = 0, taken = 0;
        job.length = 0;
        for (const char *letter = place->commands; *letter; letter++) {
            taken = cover_written(call(&job, 99));
            at = job.length;
            add_priced_letter(&job, *letter);
        }
        uint64_t outcome = call(&job, 99);
        if (is_good(place->number))
            CHECK(cover_number(outcome) == place->number && cover_offset(outcome) == job.length);
        else
            CHECK(is(outcome, place->number, at, taken));
        if (job.bytes[at] == COVER_PRICES)
            check_spoilt_prices(&job, at, taken, is_good(place->number));
    }
}

/* The example with other prices in each job, so that pages are joined over jobs whose prices differ. */
static void put_next_prices(struct job *job)
{
    static uint64_t state = 14;
    put_prices(job, draw_prices(&state));
}

static void example_at_prices(struct job *job)
{
    example(job);
    put_next_prices(job);
}

static void primes_moved_at_prices(struct job *job)
{
    primes_moved(job);
    put_next_prices(job);
}

static void test_priced_paging(void)
{
    struct list a = LISTED(11, 22, 26, 41, 52, 56);
    struct list c_moved = LISTED(19, 22, 25, 28, 38, 44);
    page_in_every_way(example_at_prices, &a);
    page_in_every_way(primes_moved_at_prices, &c_moved);
}

static void test_header_of_prices(void)
{
    uint8_t at[COVER_PRICES_BYTES];
    CHECK(cover_put_prices(at, 37, 23, 11) == 4 && memcmp(at, "\x57\x25\x17\x0B", 4) == 0);
    CHECK(cover_put_prices(at, 0, 50, 255) == 4 && memcmp(at, "\x57\x00\x32\xFF", 4) == 0);
    CHECK(COVER_PRICES == 0x57 && COVER_PRICES_BYTES == 4 && cover_command_bytes(0x57) == 4);
    CHECK(COVER_MOST_PRICE == 50 && COVER_WRONG_PRICES == 16);
    static const uint8_t dear[] = {0x63, 0x80, 0xD4, 255, 255, 255, 255, 255, 255, 255, 255};
    CHECK(cover_cheapest_cost(dear) == 54400 && cover_cheapest_set(dear) == UINT64_MAX);
}

/* Those that ask the engine, and are quick. */
static void (*const price_tests[])(void) = {
    test_price_places,   test_known_prices,  test_highest_cost,   test_price_operands,
    test_small_problems, test_priced_primes, test_price_of_terms,
};

enum { PRICE_TESTS = sizeof price_tests / sizeof price_tests[0] };

static void test_prices(void)
{
    test_header_of_prices();
    for (size_t i = 0; i < PRICE_TESTS; i++)
        price_tests[i]();
    test_priced_paging();
}

#endif
