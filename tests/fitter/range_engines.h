/* Wrong engines for G and V, as those of stand_ins.h for W: the right one, whose job, outcome or answers are
   changed. */
#ifndef RANGE_ENGINES_H
#define RANGE_ENGINES_H

#include "range_places.h"
#include "ready_stand_ins.h"

/* Engines that read other operands: of G number, low and high, of V start and count. */

enum { NUMBER = 0, LOW = 1, HIGH = 3 };

static unsigned end_in(const uint8_t *x, size_t at) { return (unsigned)cover_get_number(x + at, 2); }
static void set_end(uint8_t *x, size_t at, unsigned end) { cover_put_number(x + at, 2, end); }
static int is_range(const uint8_t *x) { return end_in(x, LOW) <= end_in(x, HIGH) && end_in(x, HIGH) <= 850; }

static uint64_t reads_other(uint8_t command, const uint8_t *job, size_t len, uint8_t *answers, size_t room)
{
    uint8_t *copy = copy_of(job, len);
    for (size_t at = 0, next; at < len && cover_command_bytes(job[at]) > 0; at = next) {
        next = at + cover_command_bytes(job[at]);
        if (job[at] == command && next <= len)
            standing_in->change(copy + at + 1);
    }
    return cover_job(copy, len, answers, room);
}

static uint64_t reads_other_ranges(const uint8_t *job, size_t len, uint8_t *answers, size_t room)
{
    return reads_other(COVER_RANGE, job, len, answers, room);
}

static uint64_t reads_other_pages(const uint8_t *job, size_t len, uint8_t *answers, size_t room)
{
    return reads_other(COVER_POSSIBLE, job, len, answers, room);
}

static void turn_low(uint8_t *x) { exchange(&x[LOW], &x[LOW + 1]); }
static void turn_high(uint8_t *x) { exchange(&x[HIGH], &x[HIGH + 1]); }
static void cut_low(uint8_t *x) { x[LOW + 1] = 0; }
static void cut_high(uint8_t *x) { x[HIGH + 1] = 0; }
static void next_number(uint8_t *x) { x[NUMBER]++; }
static void number_before(uint8_t *x) { x[NUMBER]--; }
static void number_of_6_bits(uint8_t *x) { x[NUMBER] &= 63; }

static void turn_ends(uint8_t *x)
{
    turn_low(x);
    turn_high(x);
}

static void exchange_range(uint8_t *x)
{
    exchange(&x[LOW], &x[HIGH]);
    exchange(&x[LOW + 1], &x[HIGH + 1]);
}

static void sort_range(uint8_t *x)
{
    if (end_in(x, LOW) > end_in(x, HIGH))
        exchange_range(x);
}

static void take_any_high(uint8_t *x)
{
    if (end_in(x, LOW) <= end_in(x, HIGH)) {
        set_end(x, LOW, least_of(end_in(x, LOW), 850));
        set_end(x, HIGH, least_of(end_in(x, HIGH), 850));
    }
}

static void take_high_851(uint8_t *x)
{
    if (end_in(x, HIGH) == 851 && end_in(x, LOW) <= 851)
        take_any_high(x);
}

static void take_next_low(uint8_t *x)
{
    if (end_in(x, LOW) == end_in(x, HIGH) + 1)
        set_end(x, LOW, end_in(x, HIGH));
}

/* Those that are good are changed here, so that other refusals stay. */
static void refuse_if(uint8_t *x, int bad) { set_end(x, HIGH, is_range(x) && bad ? 851 : end_in(x, HIGH)); }
static void refuse_high_850(uint8_t *x) { refuse_if(x, end_in(x, HIGH) == 850); }
static void refuse_low_0(uint8_t *x) { refuse_if(x, end_in(x, LOW) == 0); }
static void refuse_equal(uint8_t *x) { refuse_if(x, end_in(x, LOW) == end_in(x, HIGH)); }
static void low_alone(uint8_t *x) { set_end(x, HIGH, is_range(x) ? end_in(x, LOW) : end_in(x, HIGH)); }
static void high_alone(uint8_t *x) { set_end(x, LOW, is_range(x) ? end_in(x, HIGH) : end_in(x, LOW)); }
static void from_0(uint8_t *x) { set_end(x, LOW, is_range(x) ? 0 : end_in(x, LOW)); }
static void up_to_850(uint8_t *x) { set_end(x, HIGH, is_range(x) ? 850 : end_in(x, HIGH)); }
static int is_wide(const uint8_t *x) { return is_range(x) && end_in(x, LOW) < end_in(x, HIGH); }
static void without_low(uint8_t *x) { set_end(x, LOW, end_in(x, LOW) + (unsigned)is_wide(x)); }
static void without_high(uint8_t *x) { set_end(x, HIGH, end_in(x, HIGH) - (unsigned)is_wide(x)); }
static void one_more(uint8_t *x) { set_end(x, HIGH, end_in(x, HIGH) + (is_range(x) && end_in(x, HIGH) < 850)); }
static void one_less(uint8_t *x) { set_end(x, LOW, end_in(x, LOW) - (is_range(x) && end_in(x, LOW) > 0)); }

static void high_as_width(uint8_t *x)
{
    if (is_range(x))
        set_end(x, HIGH, least_of(end_in(x, LOW) + end_in(x, HIGH), 850));
}

static void start_at_0(uint8_t *x) { memset(x, 0, 8); }
static void start_above(uint8_t *x) { cover_put_number(x, 8, cover_get_number(x, 8) + 1); }
static void turn_start(uint8_t *x)
{
    for (size_t i = 0; i < 4; i++)
        exchange(&x[i], &x[7 - i]);
}
static void count_of_255(uint8_t *x) { x[8] = 255; }
static void count_of_1(uint8_t *x) { x[8] += x[8] == 0; }

/* Engines that do not know G or V, take V for L, or forget the ranges. */

static uint64_t with_byte(uint8_t from, uint8_t to, const uint8_t *job, size_t len, uint8_t *answers, size_t room)
{
    uint8_t *copy = copy_of(job, len);
    for (size_t at = 0; at < len && cover_command_bytes(job[at]) > 0; at += cover_command_bytes(job[at]))
        copy[at] = job[at] == from ? to : job[at];
    return cover_job(copy, len, answers, room);
}

static uint64_t knows_not(const uint8_t *job, size_t len, uint8_t *answers, size_t room)
{
    return with_byte(standing_in->behind, 'x', job, len, answers, room);
}

/* Gives each answer to the V commands of the job this first byte; returns the outcome. */
static uint64_t with_first_byte(uint8_t first, uint64_t outcome, const uint8_t *job, size_t len, uint8_t *answers)
{
    size_t taken = 0;
    for (size_t at = 0; at < len && cover_command_bytes(job[at]) > 0 && taken < cover_written(outcome);
         at += cover_command_bytes(job[at])) {
        size_t bytes = answered(job[at]) ? cover_answer_bytes(answers + taken) : 0;
        if (job[at] == COVER_POSSIBLE)
            answers[taken] = first;
        taken += bytes;
    }
    return outcome;
}

static uint64_t answers_as_list(const uint8_t *job, size_t len, uint8_t *answers, size_t room)
{
    return with_first_byte(COVER_LIST_ANSWER, cover_job(job, len, answers, room), job, len, answers);
}

static uint64_t lists_all(const uint8_t *job, size_t len, uint8_t *answers, size_t room)
{
    uint64_t outcome = with_byte(COVER_POSSIBLE, COVER_LIST, job, len, answers, room);
    return with_first_byte(COVER_POSSIBLE_ANSWER, outcome, job, len, answers);
}

/* The first page of V, NULL where there is none; it may be changed. */
static uint8_t *first_possible(uint64_t outcome, uint8_t *answers)
{
    return answer_of(COVER_POSSIBLE_ANSWER, answers, cover_written(outcome));
}

static uint64_t lists_one(const uint8_t *job, size_t len, uint8_t *answers, size_t room)
{
    uint8_t one[COVER_MOST_JOB_BYTES + 1];
    memcpy(one, job, len);
    for (size_t at = 0; at < len && cover_command_bytes(job[at]) > 0; at += cover_command_bytes(job[at]))
        if (job[at] == COVER_POSSIBLE && at + COVER_POSSIBLE_BYTES <= len && job[at + 9] > 1)
            one[at + 9] = 1;
    return cover_job(one, len, answers, room);
}

static uint64_t tells_no_more(const uint8_t *job, size_t len, uint8_t *answers, size_t room)
{
    uint64_t outcome = cover_job(job, len, answers, room);
    uint8_t *page = first_possible(outcome, answers);
    if (page)
        page[2] = 0;
    return outcome;
}

static uint64_t tells_more_of_all(const uint8_t *job, size_t len, uint8_t *answers, size_t room)
{
    static uint8_t others[COVER_MOST_ANSWER_BYTES];
    uint64_t outcome = cover_job(job, len, answers, room), all;
    uint8_t *page = first_possible(outcome, answers);
    if (!page || page[2] || room > sizeof others)
        return outcome;
    uint8_t *copy = copy_of(job, len);
    for (size_t at = 0; at < len && cover_command_bytes(job[at]) > 0; at += cover_command_bytes(job[at]))
        if (job[at] == COVER_POSSIBLE && at + COVER_POSSIBLE_BYTES <= len) {
            uint64_t start = cover_get_number(job + at + 1, 8);
            cover_put_list(copy + at, cover_page_next(page, start), 0);
            all = cover_job(copy, at + COVER_LIST_BYTES, others, sizeof others);
            page[2] = others[cover_written(all) - 1];
            break;
        }
    return outcome;
}

static uint64_t lists_falling(const uint8_t *job, size_t len, uint8_t *answers, size_t room)
{
    uint64_t outcome = cover_job(job, len, answers, room);
    uint8_t *page = first_possible(outcome, answers);
    for (size_t i = 0; page && i < cover_page_sets(page) / 2; i++)
        for (size_t k = 0; k < 8; k++)
            exchange(page + 3 + 8 * i + k, page + 3 + 8 * (cover_page_sets(page) - 1 - i) + k);
    return outcome;
}

/* A job without G has the last G of an earlier one, before its first V. */
static uint64_t keeps_a_range(const uint8_t *job, size_t len, uint8_t *answers, size_t room)
{
    static uint8_t last[COVER_RANGE_BYTES];
    uint8_t copy[COVER_MOST_JOB_BYTES + 1 + COVER_RANGE_BYTES];
    size_t first = len;
    int ranges = 0;
    uint64_t outcome = cover_job(job, len, answers, room);
    for (size_t at = 0; at < cover_offset(outcome) && at < len; at += cover_command_bytes(job[at])) {
        ranges |= job[at] == COVER_RANGE;
        if (job[at] == COVER_RANGE)
            memcpy(last, job + at, sizeof last);
        if (job[at] == COVER_POSSIBLE && first == len)
            first = at;
    }
    if (ranges || first == len || last[0] == 0)
        return outcome;
    memcpy(copy, job, first);
    memcpy(copy + first, last, sizeof last);
    memcpy(copy + first + sizeof last, job + first, len - first);
    return moved_offset(cover_job(copy, len + sizeof last, answers, room), -(int)sizeof last);
}

/* Engines that do not know their places. */

static uint64_t takes_no_range_behind(const uint8_t *job, size_t len, uint8_t *answers, size_t room)
{
    return takes_none_at(pair_in(job, len, standing_in->behind, COVER_RANGE), job, len, answers, room);
}

static uint64_t takes_no_possible_behind(const uint8_t *job, size_t len, uint8_t *answers, size_t room)
{
    return takes_none_at(pair_in(job, len, standing_in->behind, COVER_POSSIBLE), job, len, answers, room);
}

static uint64_t takes_behind_range(const uint8_t *job, size_t len, uint8_t *answers, size_t room)
{
    return takes_at(pair_in(job, len, COVER_RANGE, standing_in->behind), job, len, answers, room);
}

static uint64_t takes_behind_possible(const uint8_t *job, size_t len, uint8_t *answers, size_t room)
{
    return takes_at(pair_in(job, len, COVER_POSSIBLE, standing_in->behind), job, len, answers, room);
}

static uint64_t takes_none_behind_range(const uint8_t *job, size_t len, uint8_t *answers, size_t room)
{
    return takes_none_at(pair_in(job, len, COVER_RANGE, standing_in->behind), job, len, answers, room);
}

static uint64_t takes_none_behind_possible(const uint8_t *job, size_t len, uint8_t *answers, size_t room)
{
    return takes_none_at(pair_in(job, len, COVER_POSSIBLE, standing_in->behind), job, len, answers, room);
}

/* Engines that give another number or offset. */

static int refused_at(uint8_t command, const uint8_t *job, size_t len, uint64_t outcome, enum cover_refusal number)
{
    size_t at = cover_offset(outcome);
    return cover_number(outcome) == number && at < len && job[at] == command;
}

static uint64_t gives_another_for_19(const uint8_t *job, size_t len, uint8_t *answers, size_t room)
{
    uint64_t outcome = cover_job(job, len, answers, room);
    int bad = cover_number(outcome) == COVER_MALFORMED_RANGE;
    return bad ? with_number(outcome, (enum cover_refusal)standing_in->behind) : outcome;
}

static uint64_t gives_19_for_15(const uint8_t *job, size_t len, uint8_t *answers, size_t room)
{
    uint64_t outcome = cover_job(job, len, answers, room);
    int none = refused_at(COVER_RANGE, job, len, outcome, COVER_WRONG_CANDIDATE);
    return none ? with_number(outcome, COVER_MALFORMED_RANGE) : outcome;
}

/* `behind` is the number before which 19 is tried; operands that are missing are read as 255. */
static uint64_t tries_19_before(const uint8_t *job, size_t len, uint8_t *answers, size_t room)
{
    uint8_t operands[COVER_RANGE_BYTES - 1] = {255, 255, 255, 255, 255};
    uint64_t outcome = cover_job(job, len, answers, room);
    size_t at = cover_offset(outcome);
    if (!refused_at(COVER_RANGE, job, len, outcome, (enum cover_refusal)standing_in->behind))
        return outcome;
    memcpy(operands, job + at + 1, len - at - 1 < sizeof operands ? len - at - 1 : sizeof operands);
    return is_range(operands) ? outcome : with_number(outcome, COVER_MALFORMED_RANGE);
}

static uint64_t tries_ranges_5_before_4(const uint8_t *job, size_t len, uint8_t *answers, size_t room)
{
    uint64_t outcome = cover_job(job, len, answers, room);
    size_t at = cover_offset(outcome);
    int misplaced = refused_at(standing_in->behind, job, len, outcome, COVER_WRONG_PLACE);
    int cut = misplaced && len - at < cover_command_bytes(job[at]);
    return cut ? with_number(outcome, COVER_NO_OPERANDS) : outcome;
}

static uint64_t tries_14_before_12(const uint8_t *job, size_t len, uint8_t *answers, size_t room)
{
    uint64_t outcome = cover_job(job, len, answers, room);
    int unheld = refused_at(COVER_POSSIBLE, job, len, outcome, COVER_UNHELD_CELL);
    int full = unheld && room - cover_written(outcome) < 3;
    return full ? with_number(outcome, COVER_NO_ROOM) : outcome;
}

static uint64_t tries_no_12(const uint8_t *job, size_t len, uint8_t *answers, size_t room)
{
    uint64_t outcome = cover_job(job, len, answers, room);
    int unheld = refused_at(COVER_POSSIBLE, job, len, outcome, COVER_UNHELD_CELL);
    return unheld ? with_number(moved_offset(outcome, COVER_POSSIBLE_BYTES), COVER_NO_END) : outcome;
}

static uint64_t refuses_behind_range(const uint8_t *job, size_t len, uint8_t *answers, size_t room)
{
    uint64_t outcome = cover_job(job, len, answers, room);
    int bad = cover_number(outcome) == COVER_MALFORMED_RANGE;
    return bad ? moved_offset(outcome, COVER_RANGE_BYTES) : outcome;
}

static uint64_t writes_at_19(const uint8_t *job, size_t len, uint8_t *answers, size_t room)
{
    uint64_t outcome = cover_job(job, len, answers, room);
    if (cover_number(outcome) == COVER_MALFORMED_RANGE && room > cover_written(outcome))
        answers[room - 1] ^= 1;
    return outcome;
}

#endif
