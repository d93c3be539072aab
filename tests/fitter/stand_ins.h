/*
 * Wrong engines and wrong rules of cost: each must be seen by the tests of prices.h. A wrong engine is made of the
 * right one, which gets another job, or whose outcome or answers are changed. For a wrong rule the reckoning is changed
 * instead of the engine: the two must be told apart as well.
 */
#ifndef STAND_INS_H
#define STAND_INS_H

#include "prices.h"

struct stand_in {
    const char *name;
    engine *engine;
    void (*change)(uint8_t *operands); /* for an engine that reads other prices */
    uint8_t behind;                    /* for one that takes W behind this command */
};

static const struct stand_in *standing_in; /* while one does */

/* The operands of a whole W, where the job has one right behind I. */
static uint8_t *operands_in(uint8_t *job, size_t len)
{
    size_t need = COVER_SIZES_BYTES + COVER_PRICES_BYTES;
    return len >= need && job[0] == COVER_SIZES && job[3] == COVER_PRICES ? job + 4 : NULL;
}

static uint8_t *copy_of(const uint8_t *job, size_t len)
{
    static uint8_t copy[COVER_MOST_JOB_BYTES + 1 + COVER_PRICES_BYTES];
    memcpy(copy, job, len);
    return copy;
}

static uint64_t moved_offset(uint64_t outcome, int by)
{
    return outcome + ((uint64_t)(int64_t)by << 16);
}

static uint64_t with_number(uint64_t outcome, enum cover_refusal number)
{
    return (uint64_t)number << 32 | (outcome & UINT32_MAX);
}

/* Engines that read other prices than W has. */

static uint64_t reads_other_prices(const uint8_t *job, size_t len, uint8_t *answers, size_t room)
{
    uint8_t *copy = copy_of(job, len), *operands = operands_in(copy, len);
    if (operands)
        standing_in->change(operands);
    return cover_job(copy, len, answers, room);
}

static void exchange(uint8_t *a, uint8_t *b)
{
    uint8_t kept = *a;
    *a = *b;
    *b = kept;
}

static void lower(uint8_t *price)
{
    *price = *price > 50 ? 50 : *price;
}

static void take_51(uint8_t *x)
{
    for (int i = 0; i < 3; i++)
        x[i] -= x[i] == 51;
}

static void take_high_bytes(uint8_t *x)
{
    for (int i = 0; i < 3; i++)
        x[i] &= x[i] > 127 ? 0 : 127;
}

static void refuse_50(uint8_t *x)
{
    for (int i = 0; i < 3; i++)
        x[i] += x[i] == 50;
}

static void try_no_term(uint8_t *x) { lower(&x[0]); }
static void try_no_literal(uint8_t *x) { lower(&x[1]); }
static void try_no_connection(uint8_t *x) { lower(&x[2]); }
static void exchange_first(uint8_t *x) { exchange(&x[0], &x[1]); }
static void exchange_last(uint8_t *x) { exchange(&x[1], &x[2]); }
static void exchange_ends(uint8_t *x) { exchange(&x[0], &x[2]); }

/* Only prices that are allowed are changed here, so that refusals stay. */
static void drop(uint8_t *price) { *price = *price <= 50 ? 0 : *price; }
static void drop_term(uint8_t *x) { drop(&x[0]); }
static void drop_literal(uint8_t *x) { drop(&x[1]); }
static void drop_connection(uint8_t *x) { drop(&x[2]); }

static void charge_the_usual(uint8_t *x)
{
    if (x[0] <= 50 && x[1] <= 50 && x[2] <= 50)
        memcpy(x, "\1\1\0", 3);
}

/* Engines that take W where it may not stand, or do not know it. */

static uint64_t takes_twice(const uint8_t *job, size_t len, uint8_t *answers, size_t room)
{
    uint8_t *copy = copy_of(job, len), *operands = operands_in(copy, len);
    if (!operands || len < 11 || job[7] != COVER_PRICES)
        return cover_job(job, len, answers, room);
    memmove(copy + 3, job + 7, len - 7);
    return moved_offset(cover_job(copy, len - 4, answers, room), 4);
}

/* W right behind such a command is moved to where it may stand. */
static uint64_t takes_behind(const uint8_t *job, size_t len, uint8_t *answers, size_t room)
{
    uint8_t *copy = copy_of(job, len), before = 0;
    for (size_t at = 0, next; at < len && cover_command_bytes(job[at]) > 0; at = next) {
        next = at + cover_command_bytes(job[at]);
        if (at > 3 && next <= len && job[at] == COVER_PRICES && before == standing_in->behind) {
            memmove(copy + 3 + COVER_PRICES_BYTES, job + 3, at - 3);
            memcpy(copy + 3, job + at, COVER_PRICES_BYTES);
            break;
        }
        before = job[at];
    }
    return cover_job(copy, len, answers, room);
}

static uint64_t knows_none(const uint8_t *job, size_t len, uint8_t *answers, size_t room)
{
    uint8_t *copy = copy_of(job, len);
    if (operands_in(copy, len))
        copy[3] = 'x';
    return cover_job(copy, len, answers, room);
}

/* A job without W has the prices of the last one that had it. */
static uint64_t keeps_prices(const uint8_t *job, size_t len, uint8_t *answers, size_t room)
{
    static uint8_t last[COVER_PRICES_BYTES] = {COVER_PRICES, 1, 1, 0};
    uint8_t *copy = copy_of(job, len), *operands = operands_in(copy, len);
    uint64_t outcome = cover_job(job, len, answers, room);
    if (operands && cover_offset(outcome) > 3)
        memcpy(last, operands - 1, sizeof last);
    if (operands || cover_offset(outcome) <= 3)
        return outcome;
    memcpy(copy + 3, last, sizeof last);
    memcpy(copy + 7, job + 3, len - 3);
    return moved_offset(cover_job(copy, len + 4, answers, room), -4);
}

/* Engines that give another number or offset. */

static int is_dear(const uint8_t *job, size_t len, size_t at)
{
    for (size_t i = at + 1; i < len && i < at + COVER_PRICES_BYTES; i++)
        if (job[i] > 50)
            return 1;
    return 0;
}

/* At W, where it is refused. */
static int refused_prices(const uint8_t *job, size_t len, uint64_t outcome, enum cover_refusal number)
{
    size_t at = cover_offset(outcome);
    return cover_number(outcome) == number && at < len && job[at] == COVER_PRICES;
}

static uint64_t gives_6(const uint8_t *job, size_t len, uint8_t *answers, size_t room)
{
    uint64_t outcome = cover_job(job, len, answers, room);
    return cover_number(outcome) == COVER_WRONG_PRICES ? with_number(outcome, COVER_WRONG_SIZES) : outcome;
}

static uint64_t refuses_what_follows(const uint8_t *job, size_t len, uint8_t *answers, size_t room)
{
    uint64_t outcome = cover_job(job, len, answers, room);
    return cover_number(outcome) == COVER_WRONG_PRICES ? moved_offset(outcome, 4) : outcome;
}

static uint64_t tries_16_before_5(const uint8_t *job, size_t len, uint8_t *answers, size_t room)
{
    uint64_t outcome = cover_job(job, len, answers, room);
    int cut = refused_prices(job, len, outcome, COVER_NO_OPERANDS);
    return cut && is_dear(job, len, cover_offset(outcome)) ? with_number(outcome, COVER_WRONG_PRICES) : outcome;
}

static uint64_t tries_16_before_4(const uint8_t *job, size_t len, uint8_t *answers, size_t room)
{
    uint64_t outcome = cover_job(job, len, answers, room);
    int misplaced = refused_prices(job, len, outcome, COVER_WRONG_PLACE);
    return misplaced && is_dear(job, len, cover_offset(outcome)) ? with_number(outcome, COVER_WRONG_PRICES) : outcome;
}

static uint64_t tries_5_before_4(const uint8_t *job, size_t len, uint8_t *answers, size_t room)
{
    uint64_t outcome = cover_job(job, len, answers, room);
    int misplaced = refused_prices(job, len, outcome, COVER_WRONG_PLACE);
    return misplaced && len - cover_offset(outcome) < 4 ? with_number(outcome, COVER_NO_OPERANDS) : outcome;
}

static uint64_t writes_at_refusal(const uint8_t *job, size_t len, uint8_t *answers, size_t room)
{
    uint64_t outcome = cover_job(job, len, answers, room);
    if (cover_number(outcome) == COVER_WRONG_PRICES && room > 0)
        answers[0] ^= 1;
    return outcome;
}

/* Engines that answer otherwise. The first answer of this kind, NULL where there is none. */
static uint8_t *answer_of(enum cover_answer kind, uint8_t *answers, size_t written)
{
    for (size_t at = 0; at < written && cover_answer_bytes(answers + at) > 0; at += cover_answer_bytes(answers + at))
        if (answers[at] == kind)
            return answers + at;
    return NULL;
}

static uint64_t cuts_the_cost(const uint8_t *job, size_t len, uint8_t *answers, size_t room)
{
    uint64_t outcome = cover_job(job, len, answers, room);
    uint8_t *cheapest = answer_of(COVER_CHEAPEST_ANSWER, answers, cover_written(outcome));
    if (cheapest)
        cheapest[2] &= 127;
    return outcome;
}

/* Where the cheapest costs nothing: all that costs nothing, or the last. */
static uint64_t takes_all_that_is_free(const uint8_t *job, size_t len, uint8_t *answers, size_t room)
{
    uint64_t outcome = cover_job(job, len, answers, room), set = 0;
    uint8_t *page = answer_of(COVER_LIST_ANSWER, answers, cover_written(outcome));
    uint8_t *cheapest = answer_of(COVER_CHEAPEST_ANSWER, answers, cover_written(outcome));
    for (size_t i = 0; page && i < cover_page_sets(page); i++)
        set |= cover_page_set(page, i);
    if (page && cheapest && len > 7 && memcmp(job + 3, "W\0\0\0", 4) == 0)
        cover_put_number(cheapest + 3, 8, set);
    return outcome;
}

static uint64_t takes_the_last_among_equals(const uint8_t *job, size_t len, uint8_t *answers, size_t room)
{
    uint64_t outcome = cover_job(job, len, answers, room);
    uint8_t *page = answer_of(COVER_LIST_ANSWER, answers, cover_written(outcome));
    uint8_t *cheapest = answer_of(COVER_CHEAPEST_ANSWER, answers, cover_written(outcome));
    if (page && cheapest && len > 7 && memcmp(job + 3, "W\0\0\0", 4) == 0)
        cover_put_number(cheapest + 3, 8, cover_page_set(page, cover_page_sets(page) - 1));
    return outcome;
}

/* The page begins with the cheapest. */
static uint64_t lists_by_cost(const uint8_t *job, size_t len, uint8_t *answers, size_t room)
{
    uint64_t outcome = cover_job(job, len, answers, room);
    uint8_t *page = answer_of(COVER_LIST_ANSWER, answers, cover_written(outcome));
    uint8_t *cheapest = answer_of(COVER_CHEAPEST_ANSWER, answers, cover_written(outcome));
    if (page && cheapest && len > 7 && job[3] == COVER_PRICES && cover_page_sets(page) > 0)
        memcpy(page + 3, cheapest + 3, 8);
    return outcome;
}

static const struct stand_in stand_ins[] = {
    {"51 is taken", reads_other_prices, take_51, 0},
    {"128 and above are taken", reads_other_prices, take_high_bytes, 0},
    {"50 is refused", reads_other_prices, refuse_50, 0},
    {"the price of a term is not tried", reads_other_prices, try_no_term, 0},
    {"the price of a literal is not tried", reads_other_prices, try_no_literal, 0},
    {"the price of a connection is not tried", reads_other_prices, try_no_connection, 0},
    {"prices of term and literal exchanged", reads_other_prices, exchange_first, 0},
    {"prices of literal and connection exchanged", reads_other_prices, exchange_last, 0},
    {"prices of term and connection exchanged", reads_other_prices, exchange_ends, 0},
    {"terms not charged", reads_other_prices, drop_term, 0},
    {"literals not charged", reads_other_prices, drop_literal, 0},
    {"connections not charged", reads_other_prices, drop_connection, 0},
    {"the usual prices", reads_other_prices, charge_the_usual, 0},
    {"W is taken twice", takes_twice, NULL, 0},
    {"W is taken behind R", takes_behind, NULL, COVER_ROW},
    {"W is taken behind B", takes_behind, NULL, COVER_ROWS},
    {"W is taken behind T", takes_behind, NULL, COVER_TERM},
    {"W is taken behind A", takes_behind, NULL, COVER_ADD},
    {"W is taken behind D", takes_behind, NULL, COVER_REMOVE},
    {"W is taken behind P", takes_behind, NULL, COVER_PRIMES},
    {"W is taken behind L", takes_behind, NULL, COVER_LIST},
    {"W is taken behind C", takes_behind, NULL, COVER_CHEAPEST},
    {"W is not known", knows_none, NULL, 0},
    {"prices are kept for the next job", keeps_prices, NULL, 0},
    {"6 for 16", gives_6, NULL, 0},
    {"16 at what follows", refuses_what_follows, NULL, 0},
    {"16 before 5", tries_16_before_5, NULL, 0},
    {"16 before 4", tries_16_before_4, NULL, 0},
    {"5 before 4", tries_5_before_4, NULL, 0},
    {"a byte is written at 16", writes_at_refusal, NULL, 0},
    {"the cost has 15 bits", cuts_the_cost, NULL, 0},
    {"all that is free", takes_all_that_is_free, NULL, 0},
    {"the last among equals", takes_the_last_among_equals, NULL, 0},
    {"the page begins with the cheapest", lists_by_cost, NULL, 0},
};

enum { STAND_INS = sizeof stand_ins / sizeof stand_ins[0] };

/* Wrong rules. */

static unsigned one_literal_charged(struct prices p, const uint8_t *term)
{
    return cost_by_rule(p, term) + (ones_of(term[0]) == 1 ? p.literal : 0);
}

static unsigned charged_from_three_on(struct prices p, const uint8_t *term)
{
    return cost_by_rule(p, term) - (ones_of(term[0]) == 2 ? 2 * p.literal : 0);
}

static unsigned one_of_the_literals_free(struct prices p, const uint8_t *term)
{
    return cost_by_rule(p, term) - (ones_of(term[0]) >= 2 ? p.literal : 0);
}

static unsigned connections_charged_once(struct prices p, const uint8_t *term)
{
    return cost_by_rule(p, term) - (ones_of(term[2]) - 1) * p.connection;
}

static unsigned one_connection_free(struct prices p, const uint8_t *term)
{
    return cost_by_rule(p, term) - p.connection;
}

static unsigned connections_free_of_short_terms(struct prices p, const uint8_t *term)
{
    return cost_by_rule(p, term) - (ones_of(term[0]) < 2 ? ones_of(term[2]) * p.connection : 0);
}

static unsigned terms_charged_for_each_output(struct prices p, const uint8_t *term)
{
    return cost_by_rule(p, term) + (ones_of(term[2]) - 1) * p.term;
}

static unsigned ones_of_the_value_charged(struct prices p, const uint8_t *term)
{
    const uint8_t of_value[3] = {term[1], term[1], term[2]};
    return cost_by_rule(p, of_value);
}

static unsigned (*const wrong_rules[])(struct prices, const uint8_t *) = {
    one_literal_charged,     charged_from_three_on, one_of_the_literals_free,        connections_charged_once,
    one_connection_free,     connections_free_of_short_terms, terms_charged_for_each_output,
    ones_of_the_value_charged,
};

enum { WRONG_RULES = sizeof wrong_rules / sizeof wrong_rules[0] };

struct tests {
    void (*const *all)(void);
    size_t count;
};

/* Whether one of the tests fails; what they count and print is not shown. */
static int is_seen(struct tests tests)
{
    unsigned passed_before = passed, failed_before = failed;
    failed = MOST_PRINTED;
    for (size_t i = 0; i < tests.count && failed == MOST_PRINTED; i++)
        tests.all[i]();
    int seen = failed > MOST_PRINTED;
    passed = passed_before;
    failed = failed_before;
    return seen;
}

/* The same, as a check; gives 1 where it is seen. */
static unsigned see(const char *name, struct tests tests)
{
    int seen = is_seen(tests);
    if (!seen)
        printf("not seen: %s\n", name);
    CHECK(seen);
    return (unsigned)seen;
}

/* Each stands in for the engine while the tests run; gives how many are seen. */
static unsigned see_engines(const struct stand_in *engines, size_t count, struct tests tests)
{
    unsigned seen = 0;
    for (standing_in = engines; standing_in < engines + count; standing_in++) {
        called = standing_in->engine;
        seen += see(standing_in->name, tests);
    }
    called = cover_job;
    return seen;
}

static void test_stand_ins(void)
{
    struct tests tests = {price_tests, PRICE_TESTS};
    unsigned seen = see_engines(stand_ins, STAND_INS, tests);
    for (size_t i = 0; i < WRONG_RULES; i++) {
        cost_of = wrong_rules[i];
        seen += see("a rule of cost", tests);
    }
    cost_of = cost_by_rule;
    printf("%u of %d wrong engines and rules of cost seen\n", seen, STAND_INS + WRONG_RULES);
}

#endif
