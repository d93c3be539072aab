/* The part's tests together, and what is left: the engine's own list, lengths, null pointers, long jobs, the header. */
#ifndef PART_JOBS_H
#define PART_JOBS_H

#include "part_damaged.h"
#include "part_drawn.h"

/* The engine's own list does not know of the part, before a job of it and behind. */
static void test_wide_list_kept(void)
{
    static struct job job;
    static uint8_t before[COVER_MOST_ANSWER_BYTES], behind[COVER_MOST_ANSWER_BYTES];
    for (unsigned pairs = 4; pairs <= 7; pairs++) {
        neighbours(&job, pairs, 0, IN_TURN);
        add_list(&job, 0, COVER_MOST_SETS);
        uint64_t first = cover_job(job.bytes, job.length, before, sizeof before);
        uint64_t narrow = compare_part(&job, COVER_MOST_ANSWER_BYTES);
        uint64_t second = cover_job(job.bytes, job.length, behind, sizeof behind);
        CHECK(is(first, COVER_NO_END, job.length, COVER_LIST_ANSWER_BYTES((size_t)1 << pairs)));
        CHECK(second == first && memcmp(before, behind, cover_written(first)) == 0);
        CHECK(cover_written(narrow) < cover_written(first));
    }
    for (unsigned count = 0; count <= 64; count++) {
        odd_ones(&job, 1 + count % 8, count, IN_TURN);
        add_list(&job, 0, 1);
        CHECK(is(cover_job(job.bytes, job.length, before, 11), COVER_NO_END, job.length, 11));
        CHECK(cover_page_set(before, 0) == first_bits(count));
    }
}

/* Lengths, null pointers, long jobs. */

static void test_part_lengths(void)
{
    static struct job job;
    nothing(&job);
    while (job.length + COVER_LIST_BYTES < COVER_MOST_JOB_BYTES)
        add_list(&job, 0, 0);
    while (job.length + 1 < COVER_MOST_JOB_BYTES)
        add(&job, COVER_CHEAPEST);
    add(&job, COVER_END);
    CHECK(job.length == 32768);
    CHECK(cover_number(compare_part(&job, COVER_MOST_ANSWER_BYTES)) == COVER_ACCEPTED);
    CHECK(is(call(&job, COVER_MOST_ANSWER_BYTES + 1), COVER_TOO_LONG, 0, 0));
    *next_command(&job, 1) = COVER_END;
    CHECK(is(call(&job, COVER_MOST_ANSWER_BYTES), COVER_TOO_LONG, 0, 0));
    CHECK(is(call(&job, 0), COVER_TOO_LONG, 0, 0));
}

static void test_part_null(void)
{
    uint8_t byte = 7, job[] = {COVER_SIZES, 1, 1, COVER_LIST, 0, 0, 0, 0, 0, 0, 0, 0, 1};
    CHECK(is(called(NULL, 0, NULL, 0), COVER_NO_END, 0, 0));
    CHECK(is(called(NULL, 0, &byte, 1), COVER_NO_END, 0, 0) && byte == 7);
    CHECK(is(called(job, sizeof job, NULL, 0), COVER_NO_ROOM, 3, 0));
}

/* Pages that fill a job and its answers, and as many lists with count 0. In seconds of the processor. */
static void test_long_parts(void)
{
    static struct job job;
    struct list known = known_neighbours(6, 1);
    unsigned pages = 0, lists = 0;
    size_t need = 0;
    six_pairs_turned(&job);
    clock_t start = clock();
    for (; need + COVER_LIST_ANSWER_BYTES(7) <= COVER_MOST_ANSWER_BYTES; pages++) {
        add_list(&job, known.sets[0] - pages % 3, 7);
        need += COVER_LIST_ANSWER_BYTES(7);
    }
    CHECK(is(call(&job, COVER_MOST_ANSWER_BYTES), COVER_NO_END, job.length, need));
    for (size_t at = 0; at < need; at += COVER_LIST_ANSWER_BYTES(7))
        for (size_t i = 0; i < 7; i++)
            CHECK(cover_page_set(answers + at, i) == known.sets[i] && cover_page_more(answers + at) == 0);
    six_pairs_turned(&job);
    for (; job.length + COVER_LIST_BYTES <= COVER_MOST_JOB_BYTES; lists++)
        add_list(&job, known.sets[lists % 7] + lists % 2, 0);
    CHECK(is(call(&job, COVER_MOST_ANSWER_BYTES), COVER_NO_END, job.length, 3 * lists));
    for (unsigned i = 0; i < lists; i++)
        CHECK(answers[3 * i + 2] == !(i % 7 == 6 && i % 2 == 1));
    double seconds = (double)(clock() - start) / CLOCKS_PER_SEC;
    printf("%u pages and %u lists of the part: %.3f s\n", pages, lists, seconds);
    CHECK(seconds < 2 && pages > 500 && lists > 3000);
}

static void test_header_of_part(void)
{
    CHECK(PART_MOST_MEMBERS == 32 && PART_MOST_FOR_OUTPUT == 7);
    CHECK(COVER_NONE_FITS == 20 && PART_LAST_REFUSAL == 20 && COVER_LAST_REFUSAL == 19);
    CHECK(cover_number(UINT64_C(20) << 32 | UINT64_C(7) << 16 | 3) == COVER_NONE_FITS);
}

/* Those that ask the part; the quick ones first, which see most. */
static void (*const part_tests[])(void) = {
    test_before_20,     test_outputs,      test_free_outputs,   test_changed_fitting, test_outputs_move,
    test_other_queries, test_equal_ones,   test_no_members,     test_part_null,       test_part_lengths,
    test_cut_jobs,      test_put_in,       test_far_apart,      test_kinds,           test_neighbours,
    test_none_fits,     test_limits,       test_wide_list_kept, test_spoilt_jobs,     test_other_answers_kept,
    test_drawn_parts,   test_beside,       test_fitting_starts, test_every_page,      test_fitting_pages,
};

enum { PART_TESTS = sizeof part_tests / sizeof part_tests[0] };

static void test_part(void)
{
    called = part_job;
    last_refusal = PART_LAST_REFUSAL;
    test_header_of_part();
    for (size_t i = 0; i < PART_TESTS; i++)
        part_tests[i]();
    test_long_parts();
    called = cover_job;
    last_refusal = COVER_LAST_REFUSAL;
}

#endif
