/*
 * Wrong parts: the reckoning of part_by_words.h with one reading of K12 changed stands in for part_job, or part_job
 * with its outcome or answers changed. Each must be seen by the tests of part_jobs.h, which go by the right reckoning
 * and by what is known by hand.
 */
#ifndef PART_STAND_INS_H
#define PART_STAND_INS_H

#include "part_jobs.h"
#include "stand_ins.h"

static const struct part_reading part_readings[] = {
    {.name = "33 members", .members = 1},
    {.name = "31 members", .members = -1},
    {.name = "members are not counted", .members = 32},
    {.name = "8 for an output", .for_output = 1},
    {.name = "6 for an output", .for_output = -1},
    {.name = "outputs are not counted", .for_output = 57},
    {.name = "limits exchanged", .members = 7 - 32, .for_output = 32 - 7},
    {.name = "the first output is not counted", .outputs_left = 1},
    {.name = "the last of 8 outputs is not counted", .outputs_left = 128},
    {.name = "the first output alone is counted", .outputs_left = 254},
    {.name = "one output in the middle is not counted", .outputs_left = 16},
    {.name = "7 connections to all outputs", .together = 1},
    {.name = "a member counts for its lowest output", .lowest = 1},
    {.name = "a member counts where it holds a wanted cell", .wanted_only = 1},
    {.name = "blocks are no members", .blocks_no_members = 1},
    {.name = "blocks count for no output", .blocks_for_none = 1},
    {.name = "blocks count for all outputs", .blocks_for_all = 1},
    {.name = "candidates by A count for no output", .late_for_none = 1},
    {.name = "primes count for no output", .primes_for_none = 1},
    {.name = "outputs stay where a candidate goes", .outputs_stay = 1},
    {.name = "all candidates are counted", .standing = 1},
    {.name = "20 where none fits from the start on", .above = 1},
    {.name = "20 is never given", .never_20 = 1},
    {.name = "20 is not given at count 0", .not_at_count_0 = 1},
    {.name = "20 is given where there is room", .only_with_room = 1},
    {.name = "20 before 12", .before_12 = 1},
    {.name = "20 before 5", .before_5 = 1},
    {.name = "12 for 20", .number = COVER_UNHELD_CELL},
    {.name = "14 for 20", .number = COVER_NO_ROOM},
    {.name = "17 for 20", .number = COVER_TOO_MANY_PRODUCTS},
    {.name = "19 for 20", .number = COVER_MALFORMED_RANGE},
    {.name = "21 for 20", .number = 21},
    {.name = "20 at what follows", .offset = 1},
    {.name = "the answers before 20 are lost", .all_lost = 1},
    {.name = "20 is kept for the next list", .kept = 1},
    {.name = "255 sets of the wide list are looked at", .looked_at = 255},
    {.name = "1,024 sets of the wide list are looked at", .looked_at = 1024},
    {.name = "the first list alone is narrowed", .first_alone = 1},
    {.name = "the first list is not narrowed", .later_alone = 1},
    {.name = "more of the wide list", .wide_more = 1},
    {.name = "never more", .no_more = 1},
    {.name = "always more at count 0", .more_at_0 = 1},
    {.name = "a page of the wide list, filtered", .filtered = 1},
    {.name = "the start is not read", .from_0 = 1},
    {.name = "the start is left out", .next_start = 1},
    {.name = "sets falling", .falling = 1},
    {.name = "the first set is lost", .first_lost = 1},
    {.name = "the last set of a page is lost", .last_lost = 1},
    {.name = "a set twice", .twice = 1},
    {.name = "a page is cut to the room", .cut = 1},
    {.name = "room for the wide page is asked for", .wide_room = 1},
    {.name = "V is narrowed", .narrow_possible = 1},
    {.name = "C is narrowed", .narrow_cheapest = 1},
    {.name = "N is narrowed", .narrow_multiply = 1},
    {.name = "V is refused with 20", .refused_possible = 1},
    {.name = "C is refused with 20", .refused_cheapest = 1},
    {.name = "N is refused with 20", .refused_multiply = 1},
    {.name = "a byte behind a page is touched", .touches = 1},
    {.name = "a byte is touched at 20", .touches_20 = 1},
    {.name = "a byte is touched at 14", .touches_14 = 1},
    {.name = "candidates go that are in no set of the list", .dropped = 1},
    {.name = "terms, rows and primes may stand behind a list", .placeless = 1},
    {.name = "ranges are lost behind a list", .lost = COVER_RANGE},
    {.name = "prices are lost behind a list", .lost = COVER_PRICES},
    {.name = "candidates by A are lost behind a list", .lost = COVER_ADD},
};

enum { PART_READINGS = sizeof part_readings / sizeof part_readings[0] };

static const struct part_reading *read_as; /* while one stands in */

static uint64_t wrong_part(const uint8_t *job, size_t len, uint8_t *answers, size_t room)
{
    return part_by_words(read_as, job, len, answers, room);
}

/* The engine itself: no limits, and no 20. */
static uint64_t is_the_engine(const uint8_t *job, size_t len, uint8_t *answers, size_t room)
{
    return cover_job(job, len, answers, room);
}

static uint64_t touches_the_last_byte(const uint8_t *job, size_t len, uint8_t *answers, size_t room)
{
    uint64_t outcome = part_job(job, len, answers, room);
    if (room <= COVER_MOST_ANSWER_BYTES && cover_written(outcome) < room)
        answers[room - 1] ^= 1;
    return outcome;
}

static uint64_t touches_behind_the_buffer(const uint8_t *job, size_t len, uint8_t *answers, size_t room)
{
    uint64_t outcome = part_job(job, len, answers, room);
    if (room > 0 && room < COVER_MOST_ANSWER_BYTES)
        answers[room] = 0;
    return outcome;
}

/* Jobs of the longest length are refused. */
static uint64_t takes_a_byte_less(const uint8_t *job, size_t len, uint8_t *answers, size_t room)
{
    int long_one = len == COVER_MOST_JOB_BYTES || room == COVER_MOST_ANSWER_BYTES;
    return long_one ? (uint64_t)COVER_TOO_LONG << 32 : part_job(job, len, answers, room);
}

/* The longest are cut to the longest length. */
static uint64_t takes_a_byte_more(const uint8_t *job, size_t len, uint8_t *answers, size_t room)
{
    size_t most = COVER_MOST_JOB_BYTES;
    return part_job(job, len > most ? most : len, answers, room > most ? most : room);
}

static uint64_t forgets_the_end(const uint8_t *job, size_t len, uint8_t *answers, size_t room)
{
    uint64_t outcome = part_job(job, len, answers, room);
    return cover_number(outcome) == COVER_ACCEPTED ? outcome - 1 : outcome;
}

static const struct stand_in part_engines[] = {
    {"the part is the engine", is_the_engine, NULL, 0},
    {"the last byte of the buffer is touched", touches_the_last_byte, NULL, 0},
    {"a byte behind the buffer is touched", touches_behind_the_buffer, NULL, 0},
    {"32,768 bytes are too long", takes_a_byte_less, NULL, 0},
    {"32,769 bytes are read", takes_a_byte_more, NULL, 0},
    {"the end is not counted", forgets_the_end, NULL, 0},
};

enum { PART_ENGINES = sizeof part_engines / sizeof part_engines[0] };

static void test_part_stand_ins(void)
{
    struct tests tests = {part_tests, PART_TESTS};
    last_refusal = UINT32_MAX; /* another number is to be seen by what is due, not by its size */
    unsigned seen = see_engines(part_engines, PART_ENGINES, tests);
    for (read_as = part_readings; read_as < part_readings + PART_READINGS; read_as++) {
        called = wrong_part;
        seen += see(read_as->name, tests);
    }
    called = cover_job;
    last_refusal = COVER_LAST_REFUSAL;
    printf("%u of %d wrong parts seen\n", seen, PART_ENGINES + PART_READINGS);
}

#endif
