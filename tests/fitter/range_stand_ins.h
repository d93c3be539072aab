/*
 * The wrong engines of range_engines.h, and wrong readings of K11, which are tried by ranged.h: each must be seen by
 * the tests of ranges.h and range_places.h.
 */
#ifndef RANGE_STAND_INS_H
#define RANGE_STAND_INS_H

#include "range_engines.h"

static const struct stand_in range_engines[] = {
    {"G is not known", knows_not, NULL, COVER_RANGE},
    {"V is not known", knows_not, NULL, COVER_POSSIBLE},
    {"low high byte first", reads_other_ranges, turn_low, 0},
    {"high high byte first", reads_other_ranges, turn_high, 0},
    {"both ends high byte first", reads_other_ranges, turn_ends, 0},
    {"low of one byte", reads_other_ranges, cut_low, 0},
    {"high of one byte", reads_other_ranges, cut_high, 0},
    {"ends exchanged", reads_other_ranges, exchange_range, 0},
    {"ends in either order", reads_other_ranges, sort_range, 0},
    {"the number one more", reads_other_ranges, next_number, 0},
    {"the number one less", reads_other_ranges, number_before, 0},
    {"the number of 6 bits", reads_other_ranges, number_of_6_bits, 0},
    {"high is not tried", reads_other_ranges, take_any_high, 0},
    {"851 is taken", reads_other_ranges, take_high_851, 0},
    {"850 is refused", reads_other_ranges, refuse_high_850, 0},
    {"0 is refused", reads_other_ranges, refuse_low_0, 0},
    {"equal ends are refused", reads_other_ranges, refuse_equal, 0},
    {"low one above high is taken", reads_other_ranges, take_next_low, 0},
    {"low alone", reads_other_ranges, low_alone, 0},
    {"high alone", reads_other_ranges, high_alone, 0},
    {"always from 0", reads_other_ranges, from_0, 0},
    {"always up to 850", reads_other_ranges, up_to_850, 0},
    {"low is not in the range", reads_other_ranges, without_low, 0},
    {"high is not in the range", reads_other_ranges, without_high, 0},
    {"one above high is", reads_other_ranges, one_more, 0},
    {"one below low is", reads_other_ranges, one_less, 0},
    {"high is a width", reads_other_ranges, high_as_width, 0},
    {"V's start is not read", reads_other_pages, start_at_0, 0},
    {"V's start is left out", reads_other_pages, start_above, 0},
    {"V's start high byte first", reads_other_pages, turn_start, 0},
    {"V's count is not read", reads_other_pages, count_of_255, 0},
    {"V has no count 0", reads_other_pages, count_of_1, 0},
    {"V's answer begins as L's", answers_as_list, NULL, 0},
    {"V lists as L", lists_all, NULL, 0},
    {"V lists one", lists_one, NULL, 0},
    {"V never tells of more", tells_no_more, NULL, 0},
    {"V tells of more of L's list", tells_more_of_all, NULL, 0},
    {"V lists falling", lists_falling, NULL, 0},
    {"a range is kept for the next job", keeps_a_range, NULL, 0},
    {"G is refused behind T", takes_no_range_behind, NULL, COVER_TERM},
    {"G is refused behind A", takes_no_range_behind, NULL, COVER_ADD},
    {"G is refused behind F", takes_no_range_behind, NULL, COVER_BLOCK},
    {"G is refused behind P", takes_no_range_behind, NULL, COVER_PRIMES},
    {"G is refused behind D", takes_no_range_behind, NULL, COVER_REMOVE},
    {"G is refused behind L", takes_no_range_behind, NULL, COVER_LIST},
    {"G is refused behind C", takes_no_range_behind, NULL, COVER_CHEAPEST},
    {"G is refused behind N", takes_no_range_behind, NULL, COVER_MULTIPLY},
    {"G is refused behind V", takes_no_range_behind, NULL, COVER_POSSIBLE},
    {"G is refused behind G", takes_no_range_behind, NULL, COVER_RANGE},
    {"V is refused behind I", takes_no_possible_behind, NULL, COVER_SIZES},
    {"V is refused behind T", takes_no_possible_behind, NULL, COVER_TERM},
    {"V is refused behind A", takes_no_possible_behind, NULL, COVER_ADD},
    {"V is refused behind F", takes_no_possible_behind, NULL, COVER_BLOCK},
    {"V is refused behind P", takes_no_possible_behind, NULL, COVER_PRIMES},
    {"V is refused behind D", takes_no_possible_behind, NULL, COVER_REMOVE},
    {"V is refused behind L", takes_no_possible_behind, NULL, COVER_LIST},
    {"V is refused behind C", takes_no_possible_behind, NULL, COVER_CHEAPEST},
    {"V is refused behind N", takes_no_possible_behind, NULL, COVER_MULTIPLY},
    {"V is refused behind V", takes_no_possible_behind, NULL, COVER_POSSIBLE},
    {"W is taken behind G", takes_behind_range, NULL, COVER_PRICES},
    {"R is taken behind G", takes_behind_range, NULL, COVER_ROW},
    {"B is taken behind G", takes_behind_range, NULL, COVER_ROWS},
    {"T is taken behind G", takes_behind_range, NULL, COVER_TERM},
    {"F is taken behind G", takes_behind_range, NULL, COVER_BLOCK},
    {"P is taken behind G", takes_behind_range, NULL, COVER_PRIMES},
    {"W is taken behind V", takes_behind_possible, NULL, COVER_PRICES},
    {"R is taken behind V", takes_behind_possible, NULL, COVER_ROW},
    {"B is taken behind V", takes_behind_possible, NULL, COVER_ROWS},
    {"T is taken behind V", takes_behind_possible, NULL, COVER_TERM},
    {"F is taken behind V", takes_behind_possible, NULL, COVER_BLOCK},
    {"P is taken behind V", takes_behind_possible, NULL, COVER_PRIMES},
    {"A is refused behind G", takes_none_behind_range, NULL, COVER_ADD},
    {"D is refused behind G", takes_none_behind_range, NULL, COVER_REMOVE},
    {"L is refused behind G", takes_none_behind_range, NULL, COVER_LIST},
    {"V is refused behind G", takes_none_behind_range, NULL, COVER_POSSIBLE},
    {"C is refused behind G", takes_none_behind_range, NULL, COVER_CHEAPEST},
    {"N is refused behind G", takes_none_behind_range, NULL, COVER_MULTIPLY},
    {"E is refused behind G", takes_none_behind_range, NULL, COVER_END},
    {"A is refused behind V", takes_none_behind_possible, NULL, COVER_ADD},
    {"D is refused behind V", takes_none_behind_possible, NULL, COVER_REMOVE},
    {"L is refused behind V", takes_none_behind_possible, NULL, COVER_LIST},
    {"C is refused behind V", takes_none_behind_possible, NULL, COVER_CHEAPEST},
    {"N is refused behind V", takes_none_behind_possible, NULL, COVER_MULTIPLY},
    {"E is refused behind V", takes_none_behind_possible, NULL, COVER_END},
    {"15 for 19", gives_another_for_19, NULL, COVER_WRONG_CANDIDATE},
    {"18 for 19", gives_another_for_19, NULL, COVER_MALFORMED_BLOCK},
    {"16 for 19", gives_another_for_19, NULL, COVER_WRONG_PRICES},
    {"19 for 15", gives_19_for_15, NULL, 0},
    {"19 before 4", tries_19_before, NULL, COVER_WRONG_PLACE},
    {"19 before 5", tries_19_before, NULL, COVER_NO_OPERANDS},
    {"19 before 15", tries_19_before, NULL, COVER_WRONG_CANDIDATE},
    {"5 before 4 at G", tries_ranges_5_before_4, NULL, COVER_RANGE},
    {"5 before 4 at V", tries_ranges_5_before_4, NULL, COVER_POSSIBLE},
    {"14 before 12 at V", tries_14_before_12, NULL, 0},
    {"12 is not tried at V", tries_no_12, NULL, 0},
    {"19 at what follows", refuses_behind_range, NULL, 0},
    {"a byte is written at 19", writes_at_19, NULL, 0},
};

enum { RANGE_ENGINES = sizeof range_engines / sizeof range_engines[0] };

static const struct range_reading range_readings[] = {
    {.name = "the cheapest at every choice", .members_dear = 1},
    {.name = "a tie is left off", .no_ties = 1},
    {.name = "low of the set against high of the others", .shared_twice = 1},
    {.name = "all at low or all at high", .together = 1},
    {.name = "V goes by the weights", .by_weights = 1},
    {.name = "C goes by low", .cheap_low = 1},
    {.name = "C goes by high", .cheap_high = 1},
    {.name = "C goes by the weight within the range", .cheap_within = 1},
    {.name = "ranges stay behind D", .stay = 1},
    {.name = "ranges are lost that move down", .stay_above = 1},
    {.name = "ranges are lost at A", .lost_at_add = 1},
    {.name = "an earlier range is kept", .first_kept = 1},
    {.name = "a later range is joined to it", .joined = 1},
    {.name = "a new candidate has an old range", .stale = 1},
    {.name = "without G from 0 to 850", .wide = 1},
    {.name = "the weight lies in the range", .with_weight = 1},
    {.name = "the usual prices are the ends", .usual = 1},
    {.name = "equal candidates have one range", .for_equals = 1},
    {.name = "redundant covers are listed", .redundant = 1},
    {.name = "more tells of L's list", .of_listed = 1},
};

enum { RANGE_READINGS = sizeof range_readings / sizeof range_readings[0] };

static void test_range_stand_ins(void)
{
    struct tests tests = {range_tests, RANGE_TESTS};
    unsigned seen = see_engines(range_engines, RANGE_ENGINES, tests);
    readings_changed = 1;
    for (size_t i = 0; i < RANGE_READINGS; i++) {
        range_reading = range_readings[i];
        seen += see(range_reading.name, tests);
    }
    readings_changed = 0;
    range_reading = ranges_as_requested;
    printf("%u of %d wrong engines and readings for G and V seen\n", seen, RANGE_ENGINES + RANGE_READINGS);
}

#endif
