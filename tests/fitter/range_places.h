/* G and V at each place, and each command behind them; spoilt and with missing operands there. */
#ifndef RANGE_PLACES_H
#define RANGE_PLACES_H

#include "ranges.h"

/* As those of W and N. R is the wanted row of vertex 0, whose cell T, F and A have; G is of candidate 0. */
static const struct price_place range_places[] = {
    {"G", COVER_WRONG_PLACE},          {"V", COVER_WRONG_PLACE},         {"IG", COVER_WRONG_CANDIDATE},
    {"IV", COVER_NO_END},              {"IWG", COVER_WRONG_CANDIDATE},   {"IWV", COVER_NO_END},
    {"IRG", COVER_WRONG_CANDIDATE},    {"IRV", COVER_UNHELD_CELL},       {"IBG", COVER_WRONG_CANDIDATE},
    {"IBV", COVER_NO_END},             {"IPG", COVER_WRONG_CANDIDATE},   {"IPV", COVER_NO_END},
    {"IRTG", COVER_NO_END},            {"IRTV", COVER_NO_END},           {"IRFG", COVER_NO_END},
    {"IRFV", COVER_NO_END},            {"IRAG", COVER_NO_END},           {"IRAV", COVER_NO_END},
    {"IRPG", COVER_NO_END},            {"IRPV", COVER_NO_END},           {"IRTDG", COVER_WRONG_CANDIDATE},
    {"IRTDV", COVER_UNHELD_CELL},      {"IRTLG", COVER_NO_END},          {"IRTLV", COVER_NO_END},
    {"IRTCG", COVER_NO_END},           {"IRTCV", COVER_NO_END},          {"IRTNG", COVER_NO_END},
    {"IRTNV", COVER_NO_END},           {"IRTVG", COVER_NO_END},          {"IRTVV", COVER_NO_END},
    {"IRTGG", COVER_NO_END},           {"IRTGV", COVER_NO_END},          {"IRTTDG", COVER_NO_END},
    {"IRTTDV", COVER_NO_END},          {"IWRTG", COVER_NO_END},          {"IWRTV", COVER_NO_END},
    {"IRTGI", COVER_WRONG_PLACE},      {"IRTVI", COVER_WRONG_PLACE},     {"IVI", COVER_WRONG_PLACE},
    {"IRTGW", COVER_WRONG_PLACE},      {"IRTVW", COVER_WRONG_PLACE},     {"IVW", COVER_WRONG_PLACE},
    {"IRTGR", COVER_WRONG_PLACE},      {"IRTVR", COVER_WRONG_PLACE},     {"IVR", COVER_WRONG_PLACE},
    {"IRTGB", COVER_WRONG_PLACE},      {"IRTVB", COVER_WRONG_PLACE},     {"IVB", COVER_WRONG_PLACE},
    {"IRTGT", COVER_WRONG_PLACE},      {"IRTVT", COVER_WRONG_PLACE},     {"IVT", COVER_WRONG_PLACE},
    {"IRTGF", COVER_WRONG_PLACE},      {"IRTVF", COVER_WRONG_PLACE},     {"IVF", COVER_WRONG_PLACE},
    {"IRTGP", COVER_WRONG_PLACE},      {"IRTVP", COVER_WRONG_PLACE},     {"IVP", COVER_WRONG_PLACE},
    {"IRAGT", COVER_WRONG_PLACE},      {"IRAVT", COVER_WRONG_PLACE},     {"IRAGF", COVER_WRONG_PLACE},
    {"IRAVF", COVER_WRONG_PLACE},      {"IRTGAT", COVER_WRONG_PLACE},    {"IRTVAT", COVER_WRONG_PLACE},
    {"IRTGDT", COVER_WRONG_PLACE},     {"IRTVDT", COVER_WRONG_PLACE},    {"IRTGDF", COVER_WRONG_PLACE},
    {"IRTVDF", COVER_WRONG_PLACE},     {"IRTGDP", COVER_WRONG_PLACE},    {"IRTVDP", COVER_WRONG_PLACE},
    {"IRTGDR", COVER_WRONG_PLACE},     {"IRTVDB", COVER_WRONG_PLACE},    {"IRTGDW", COVER_WRONG_PLACE},
    {"IRTVAW", COVER_WRONG_PLACE},     {"IRTGA", COVER_NO_END},          {"IRTVA", COVER_NO_END},
    {"IRTGD", COVER_NO_END},           {"IRTVD", COVER_NO_END},          {"IRTGL", COVER_NO_END},
    {"IRTVL", COVER_NO_END},           {"IRTGC", COVER_NO_END},          {"IRTVC", COVER_NO_END},
    {"IRTGN", COVER_NO_END},           {"IRTVN", COVER_NO_END},          {"IRTGE", COVER_ACCEPTED},
    {"IRTVE", COVER_ACCEPTED},         {"IVE", COVER_ACCEPTED},          {"IRTGDG", COVER_WRONG_CANDIDATE},
    {"IRTGDAG", COVER_NO_END},         {"IRTGDV", COVER_UNHELD_CELL},    {"IRTGDAV", COVER_NO_END},
    {"IRTVDG", COVER_WRONG_CANDIDATE}, {"IRTVDV", COVER_UNHELD_CELL},    {"IWRFTAGDVLCNGVE", COVER_ACCEPTED},
};

/* Without its last operands 5, and 4 where it may not stand. */
static void check_cut(struct job *job, size_t at, size_t taken, int allowed)
{
    size_t bytes = cover_command_bytes(job->bytes[at]);
    memset(job->bytes + at + 1, 255, bytes - 1);
    for (job->length = at + 1; job->length < at + bytes; job->length++)
        CHECK(is(call(job, 99), allowed ? COVER_NO_OPERANDS : COVER_WRONG_PLACE, at, taken));
}

/* G with each fault: 15 comes before 19, and 4 before both. */
static void check_spoilt_range(struct job *job, size_t at, size_t taken, enum cover_refusal number)
{
    static const struct {
        unsigned number, low, high;
    } faults[] = {{0, 3, 2}, {0, 0, 851}, {0, 851, 851}, {0, 65535, 65535}, {9, 0, 0}, {64, 9, 8}, {255, 0, 851}};
    for (size_t i = 0; i < sizeof faults / sizeof faults[0]; i++) {
        enum cover_refusal due = faults[i].number > 0 ? COVER_WRONG_CANDIDATE : COVER_MALFORMED_RANGE;
        cover_put_range(job->bytes + at, faults[i].number, faults[i].low, faults[i].high);
        CHECK(is(call(job, 99), is_good(number) ? due : number, at, taken));
    }
}

static void test_range_places(void)
{
    static struct job job;
    for (size_t i = 0; i < sizeof range_places / sizeof range_places[0]; i++) {
        const struct price_place *place = &range_places[i];
        size_t at = 0, taken = 0;
        job.length = 0;
        for (const char *letter = place->commands; *letter; letter++) {
            taken = cover_written(call(&job, 99));
            at = job.length;
            add_priced_letter(&job, *letter);
        }
        uint64_t outcome = call(&job, 99);
        if (is_good(place->number))
            CHECK(cover_number(outcome) == place->number && cover_offset(outcome) == job.length);
        else
            CHECK(is(outcome, place->number, at, taken));
        if (job.bytes[at] == COVER_RANGE)
            check_spoilt_range(&job, at, taken, place->number);
        if (job.bytes[at] == COVER_RANGE || job.bytes[at] == COVER_POSSIBLE)
            check_cut(&job, at, taken, place->number != COVER_WRONG_PLACE);
    }
}

/* At V with any room and count: 12, and the answers before it stand. */
static void test_unheld_ranges(void)
{
    static struct job job;
    for (size_t room = 0; room < 40; room++)
        for (unsigned count = 0; count < 3; count++) {
            constant(&job, 1);
            add_range(&job, 0, 0, COVER_MOST_WEIGHT);
            add_possible(&job, 0, 1);
            add_remove(&job, 0);
            size_t at = job.length;
            add_possible(&job, 0, count);
            uint64_t outcome = call(&job, room);
            CHECK(room < 11 ? cover_number(outcome) == COVER_NO_ROOM : is(outcome, COVER_UNHELD_CELL, at, 11));
        }
}

/* Those that ask the engine, and are quick. */
static void (*const range_tests[])(void) = {
    test_range_places,  test_known_ranges,    test_equal_candidates, test_unheld_ranges,
    test_ranged,        test_other_answers,   test_all_weights,      test_prices_and_ranges,
    test_ranges_go,     test_possible_paging, test_each_number,      test_each_end,
};

enum { RANGE_TESTS = sizeof range_tests / sizeof range_tests[0] };

static void test_ranges(void)
{
    test_header_of_ranges();
    for (size_t i = 0; i < RANGE_TESTS; i++)
        range_tests[i]();
    test_long_ranges();
}

#endif
