/*
 * Wrong engines and wrong rules for N, as those of stand_ins.h for W: each must be seen by the tests of products.h. A
 * wrong engine is made of the right one, whose job, outcome or answers are changed; a wrong rule is read by words.
 */
#ifndef PRODUCT_STAND_INS_H
#define PRODUCT_STAND_INS_H

#include "products.h"
#include "stand_ins.h"

/* Where a command of this kind stands behind an N, or right behind one; the length where there is none. */
static size_t behind_multiply(const uint8_t *job, size_t len, uint8_t command, int right_behind)
{
    int multiplied = 0;
    for (size_t at = 0; at < len && cover_command_bytes(job[at]) > 0; at += cover_command_bytes(job[at])) {
        if (multiplied && job[at] == command)
            return at;
        multiplied = job[at] == COVER_MULTIPLY || (multiplied && !right_behind);
    }
    return len;
}

/* Engines that do not know N, or not its place. */

static uint64_t knows_no_products(const uint8_t *job, size_t len, uint8_t *answers, size_t room)
{
    uint8_t *copy = copy_of(job, len);
    for (size_t at = 0; at < len && cover_command_bytes(job[at]) > 0; at += cover_command_bytes(job[at]))
        if (job[at] == COVER_MULTIPLY)
            copy[at] = 'x';
    return cover_job(copy, len, answers, room);
}

/* What it takes behind N ends the job. */
static uint64_t takes_behind_products(const uint8_t *job, size_t len, uint8_t *answers, size_t room)
{
    uint64_t outcome = cover_job(job, len, answers, room);
    size_t at = behind_multiply(job, len, standing_in->behind, 1);
    if (cover_number(outcome) != COVER_WRONG_PLACE || cover_offset(outcome) != at)
        return outcome;
    return moved_offset(with_number(outcome, COVER_NO_END), (int)(len - at));
}

static uint64_t takes_none_behind_products(const uint8_t *job, size_t len, uint8_t *answers, size_t room)
{
    size_t at = behind_multiply(job, len, standing_in->behind, 0);
    uint64_t outcome = cover_job(job, at, answers, room);
    int there = at < len && cover_number(outcome) == COVER_NO_END;
    return there ? with_number(outcome, COVER_WRONG_PLACE) : cover_job(job, len, answers, room);
}

/* N before I is taken, and refused as one whose cells are not held. */
static uint64_t takes_before_sizes(const uint8_t *job, size_t len, uint8_t *answers, size_t room)
{
    uint64_t outcome = cover_job(job, len, answers, room);
    int first = len > 0 && job[0] == COVER_MULTIPLY && cover_number(outcome) == COVER_WRONG_PLACE;
    return first ? with_number(outcome, COVER_UNHELD_CELL) : outcome;
}

/* Engines that answer N otherwise: all of its answers are changed. */

static uint64_t changes_products(const uint8_t *job, size_t len, uint8_t *answers, size_t room)
{
    uint64_t outcome = cover_job(job, len, answers, room);
    size_t written = cover_written(outcome);
    for (size_t at = 0, next; at < written && cover_answer_bytes(answers + at) > 0; at = next) {
        next = at + cover_answer_bytes(answers + at);
        if (answers[at] == COVER_MULTIPLY_ANSWER)
            standing_in->change(answers + at);
    }
    return outcome;
}

static void put_set(uint8_t *answer, size_t i, uint64_t set)
{
    cover_put_number(answer + COVER_MULTIPLY_ANSWER_BYTES(i), 8, set);
}

static void cut_count(uint8_t *answer) { answer[2] = 0; }
static void turn_count(uint8_t *answer) { exchange(&answer[1], &answer[2]); }
static void name_a_page(uint8_t *answer) { answer[0] = COVER_LIST_ANSWER; }

static void leave_out_last(uint8_t *answer)
{
    cover_put_number(answer + 1, 2, cover_multiply_sets(answer) - 1);
}

static void exchange_sets(uint8_t *answer, size_t i, size_t k)
{
    uint64_t set = cover_multiply_set(answer, i);
    put_set(answer, i, cover_multiply_set(answer, k));
    put_set(answer, k, set);
}

static void exchange_last_sets(uint8_t *answer)
{
    size_t sets = cover_multiply_sets(answer);
    if (sets > 1)
        exchange_sets(answer, sets - 2, sets - 1);
}

static void turn_sets(uint8_t *answer)
{
    size_t sets = cover_multiply_sets(answer);
    for (size_t i = 0; i < sets / 2; i++)
        exchange_sets(answer, i, sets - 1 - i);
}

/* The last one with the members of the first; or the one before it again. */
static void contain_another(uint8_t *answer)
{
    size_t sets = cover_multiply_sets(answer);
    put_set(answer, sets - 1, cover_multiply_set(answer, sets - 1) | cover_multiply_set(answer, 0));
}

static void give_a_copy(uint8_t *answer)
{
    size_t sets = cover_multiply_sets(answer);
    if (sets > 1)
        put_set(answer, sets - 1, cover_multiply_set(answer, sets - 2));
}

static void cut_sets(uint8_t *answer)
{
    for (size_t i = 0; i < cover_multiply_sets(answer); i++)
        put_set(answer, i, cover_multiply_set(answer, i) & UINT32_MAX);
}

/* Behind the first N of a job: as if no A or D had come. */
static uint64_t keeps_products(const uint8_t *job, size_t len, uint8_t *answers, size_t room)
{
    uint64_t outcome = cover_job(job, len, answers, room);
    size_t written = cover_written(outcome);
    uint8_t *first = answer_of(COVER_MULTIPLY_ANSWER, answers, written);
    for (size_t at = 0, next; first && at < written && cover_answer_bytes(answers + at) > 0; at = next) {
        next = at + cover_answer_bytes(answers + at);
        if (answers[at] == COVER_MULTIPLY_ANSWER && next - at == cover_answer_bytes(first))
            memmove(answers + at, first, next - at);
    }
    return outcome;
}

/* With W the cheapest comes first. */
static uint64_t goes_by_prices(const uint8_t *job, size_t len, uint8_t *answers, size_t room)
{
    uint64_t outcome = cover_job(job, len, answers, room);
    uint8_t *products = answer_of(COVER_MULTIPLY_ANSWER, answers, cover_written(outcome));
    if (products && len > 3 && job[3] == COVER_PRICES)
        turn_sets(products);
    return outcome;
}

/* Engines that give another number, offset or count of bytes at N. */

static int refused_products(const uint8_t *job, size_t len, uint64_t outcome, enum cover_refusal number)
{
    size_t at = cover_offset(outcome);
    return cover_number(outcome) == number && at < len && job[at] == COVER_MULTIPLY;
}

static uint64_t gives_11(const uint8_t *job, size_t len, uint8_t *answers, size_t room)
{
    uint64_t outcome = cover_job(job, len, answers, room);
    return cover_number(outcome) == COVER_TOO_MANY_PRODUCTS ? with_number(outcome, COVER_TOO_MANY) : outcome;
}

static uint64_t gives_17_for_12(const uint8_t *job, size_t len, uint8_t *answers, size_t room)
{
    uint64_t outcome = cover_job(job, len, answers, room);
    int unheld = refused_products(job, len, outcome, COVER_UNHELD_CELL);
    return unheld ? with_number(outcome, COVER_TOO_MANY_PRODUCTS) : outcome;
}

static uint64_t gives_17_for_14(const uint8_t *job, size_t len, uint8_t *answers, size_t room)
{
    uint64_t outcome = cover_job(job, len, answers, room);
    int full = refused_products(job, len, outcome, COVER_NO_ROOM);
    return full ? with_number(outcome, COVER_TOO_MANY_PRODUCTS) : outcome;
}

/* Where 1,024 sets would find no room. */
static uint64_t tries_14_before_17(const uint8_t *job, size_t len, uint8_t *answers, size_t room)
{
    uint64_t outcome = cover_job(job, len, answers, room);
    int many = cover_number(outcome) == COVER_TOO_MANY_PRODUCTS;
    return many && room - cover_written(outcome) < 8195 ? with_number(outcome, COVER_NO_ROOM) : outcome;
}

/* Where the list of any length would find no room. */
static uint64_t asks_for_all_room(const uint8_t *job, size_t len, uint8_t *answers, size_t room)
{
    uint64_t outcome = cover_job(job, len, answers, room);
    size_t at = cover_offset(outcome);
    int last = cover_number(outcome) == COVER_NO_END && at > 0 && job[at - 1] == COVER_MULTIPLY && at == len;
    return last && room < 8195 ? moved_offset(with_number(outcome, COVER_NO_ROOM), -1) : outcome;
}

static uint64_t refuses_behind(const uint8_t *job, size_t len, uint8_t *answers, size_t room)
{
    uint64_t outcome = cover_job(job, len, answers, room);
    return cover_number(outcome) == COVER_TOO_MANY_PRODUCTS ? moved_offset(outcome, 1) : outcome;
}

static uint64_t loses_answers(const uint8_t *job, size_t len, uint8_t *answers, size_t room)
{
    uint64_t outcome = cover_job(job, len, answers, room);
    return cover_number(outcome) == COVER_TOO_MANY_PRODUCTS ? outcome - cover_written(outcome) : outcome;
}

static uint64_t writes_at_17(const uint8_t *job, size_t len, uint8_t *answers, size_t room)
{
    uint64_t outcome = cover_job(job, len, answers, room);
    if (cover_number(outcome) == COVER_TOO_MANY_PRODUCTS && room > cover_written(outcome))
        answers[cover_written(outcome)] ^= 1;
    return outcome;
}

static uint64_t writes_at_14(const uint8_t *job, size_t len, uint8_t *answers, size_t room)
{
    uint64_t outcome = cover_job(job, len, answers, room);
    if (refused_products(job, len, outcome, COVER_NO_ROOM) && room > cover_written(outcome))
        answers[room - 1] ^= 1;
    return outcome;
}

static const struct stand_in product_engines[] = {
    {"N is not known", knows_no_products, NULL, 0},
    {"N is taken before I", takes_before_sizes, NULL, 0},
    {"W is taken behind N", takes_behind_products, NULL, COVER_PRICES},
    {"R is taken behind N", takes_behind_products, NULL, COVER_ROW},
    {"B is taken behind N", takes_behind_products, NULL, COVER_ROWS},
    {"T is taken behind N", takes_behind_products, NULL, COVER_TERM},
    {"P is taken behind N", takes_behind_products, NULL, COVER_PRIMES},
    {"A is refused behind N", takes_none_behind_products, NULL, COVER_ADD},
    {"D is refused behind N", takes_none_behind_products, NULL, COVER_REMOVE},
    {"L is refused behind N", takes_none_behind_products, NULL, COVER_LIST},
    {"C is refused behind N", takes_none_behind_products, NULL, COVER_CHEAPEST},
    {"N is refused behind N", takes_none_behind_products, NULL, COVER_MULTIPLY},
    {"the count has one byte", changes_products, cut_count, 0},
    {"the count has its high byte first", changes_products, turn_count, 0},
    {"the answer begins as a page", changes_products, name_a_page, 0},
    {"the last set is left out", changes_products, leave_out_last, 0},
    {"the last two sets are exchanged", changes_products, exchange_last_sets, 0},
    {"the sets are falling", changes_products, turn_sets, 0},
    {"a set contains another", changes_products, contain_another, 0},
    {"a set comes twice", changes_products, give_a_copy, 0},
    {"sets have 32 bits", changes_products, cut_sets, 0},
    {"N's list is kept", keeps_products, NULL, 0},
    {"N goes by prices", goes_by_prices, NULL, 0},
    {"11 for 17", gives_11, NULL, 0},
    {"17 for 12", gives_17_for_12, NULL, 0},
    {"17 for 14", gives_17_for_14, NULL, 0},
    {"14 before 17", tries_14_before_17, NULL, 0},
    {"room for 1,024 sets is asked for", asks_for_all_room, NULL, 0},
    {"17 at what follows", refuses_behind, NULL, 0},
    {"17 takes the answers before it", loses_answers, NULL, 0},
    {"a byte is written at 17", writes_at_17, NULL, 0},
    {"a byte is written at 14", writes_at_14, NULL, 0},
};

enum { PRODUCT_ENGINES = sizeof product_engines / sizeof product_engines[0] };

static const struct rule product_rules[] = {
    {.name = "1,023 products at most", .most = 1023},
    {.name = "1,025 products at most", .most = 1025},
    {.name = "any number of products", .most = MOST_JOINED},
    {.name = "counted before the keeping", .most = 1024, .early = 1},
    {.name = "counted at the last cell alone", .most = 1024, .last_alone = 1},
    {.name = "products that contain another are kept", .most = 1024, .containing = 1},
    {.name = "copies are kept", .most = 1024, .copies = 1},
    {.name = "cells by output, then vertex", .most = 1024, .by_output = 1},
    {.name = "free cells too", .most = 1024, .free_too = 1},
    {.name = "the reduced rows", .most = 1024, .reduced = 1},
    {.name = "17 before 12", .most = 1024, .late_12 = 1},
    {.name = "falling", .most = 1024, .falling = 1},
    {.name = "no first product", .most = 1024, .no_first = 1},
};

enum { PRODUCT_RULES = sizeof product_rules / sizeof product_rules[0] };

static void test_product_stand_ins(void)
{
    struct tests tests = {product_tests, PRODUCT_TESTS};
    unsigned seen = see_engines(product_engines, PRODUCT_ENGINES, tests);
    for (size_t i = 0; i < PRODUCT_RULES; i++) {
        rule = product_rules[i];
        seen += see(rule.name, tests);
    }
    rule = by_request;
    printf("%u of %d wrong engines and rules for N seen\n", seen, PRODUCT_ENGINES + PRODUCT_RULES);
}

#endif
