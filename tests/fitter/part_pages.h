/*
 * Pages of the part joined over several jobs, and whole jobs by part_job against the reckoning of part_by_words.h, and
 * against cover_job where no list is read.
 */
#ifndef PART_PAGES_H
#define PART_PAGES_H

#include "part_lists.h"

/* The outcome and the whole buffer, each filled in the same way before. */

static uint8_t expected[COVER_MOST_ANSWER_BYTES];

static void expect(engine *known, const struct job *job, size_t room, uint64_t outcome)
{
    for (size_t i = 0; i < room; i++)
        expected[i] = pattern(i);
    CHECK(known(job->bytes, job->length, expected, room) == outcome);
    CHECK(memcmp(expected, answers, room) == 0);
}

static uint64_t by_words(const uint8_t *job, size_t len, uint8_t *answers, size_t room)
{
    return part_by_words(&part_as_requested, job, len, answers, room);
}

/* Whether a whole list stands before the offset at which the job stopped, or there. */
static int reads_list(const struct job *job, size_t offset)
{
    for (size_t at = 0, bytes; at < job->length && at <= offset; at += bytes) {
        bytes = cover_command_bytes(job->bytes[at]);
        if (bytes == 0)
            break;
        if (job->bytes[at] == COVER_LIST && at + bytes <= job->length)
            return 1;
    }
    return 0;
}

static uint64_t compare_part(const struct job *job, size_t room)
{
    uint64_t outcome = call(job, room);
    expect(by_words, job, room, outcome);
    if (!reads_list(job, cover_offset(outcome)))
        expect(cover_job, job, room, outcome);
    return outcome;
}

/* Pages over several jobs. */

static void six_pairs(struct job *job) { neighbours(job, 6, 0, BY_T); }
static void six_pairs_turned(struct job *job) { neighbours(job, 6, 1, IN_TURN); }

/* Each cube twice: 3, 4 or 8 for a pair, 729 sets, of which 256 fit: more than one page may hold. */
static void six_pairs_twice(struct job *job)
{
    add_sizes(job, 4, 1);
    for (unsigned v = 0; v < 12; v++)
        add_row(job, v, 1, 0);
    for (unsigned v = 0; v < 12; v += 2)
        for (unsigned i = 0; i < 4; i++)
            put_cube(job, (enum kind)((v + i) % 3), i < 2 ? 15 : 14, i < 2 ? v + i : v, 1);
}

/* Behind lists and the other queries of other candidates, and with one that goes and comes. */
static void six_pairs_changed(struct job *job)
{
    neighbours(job, 6, 1, IN_TURN);
    add_late(job, 12, 0, 1);
    add_list(job, 0, 1);
    add(job, COVER_CHEAPEST);
    add_remove(job, 0);
    add_list(job, 9, 0);
    add_remove(job, 17);
    add_late(job, 14, 0, 1);
}

/* All but the last are primes by P: their answer stands before the pages. */
static void primes_and_one(struct job *job)
{
    add_sizes(job, 4, 2);
    for (unsigned v = 0; v < 16; v++)
        add_row(job, v, v % 4 == 3 ? 0 : v % 5 == 0 ? 3 : 1, v % 4 == 3 ? 1 : 0);
    add(job, COVER_PRIMES);
    add_late(job, 15, 0, 3);
}

static void (*const part_problems[])(struct job *) = {
    six_pairs, six_pairs_turned, six_pairs_twice, six_pairs_changed, primes_and_one, example, example_primes, nothing,
};

enum { PART_PROBLEMS = sizeof part_problems / sizeof part_problems[0] };

/* What the pages must come to: the wide list, paged through by cover_job, and counted. */
static struct list counted(void (*problem)(struct job *))
{
    static struct job job;
    engine *part = called;
    struct list list = {.count = 0};
    called = cover_job;
    struct paging wide = page_through(problem, COVER_MOST_SETS, COVER_MOST_ANSWER_BYTES);
    called = part;
    problem(&job);
    struct drivers drivers = drivers_of(&job, &part_as_requested);
    for (size_t i = 0; i < wide.joined.count; i++)
        if (fits(&drivers, wide.joined.sets[i], &part_as_requested))
            list.sets[list.count++] = wide.joined.sets[i];
    CHECK(!wide.more && list.count > 0);
    return list;
}

static void test_fitting_pages(void)
{
    static const unsigned counts[] = {1, 2, 7, 100, 255};
    static const size_t rooms[] = {0, 30, 100, 2043, COVER_MOST_ANSWER_BYTES};
    CHECK(counted(six_pairs).count == 7 && counted(six_pairs_turned).count == 7);
    CHECK(counted(six_pairs_twice).count == 256);
    for (size_t p = 0; p < PART_PROBLEMS; p++) {
        struct list known = counted(part_problems[p]);
        for (size_t i = 0; i < sizeof counts / sizeof counts[0]; i++)
            for (size_t k = 0; k < sizeof rooms / sizeof rooms[0]; k++) {
                if (known.count > 100 && counts[i] < 7)
                    continue; /* hundreds of jobs, which are no others than those of the short lists */
                struct paging paging = page_through(part_problems[p], counts[i], rooms[k]);
                CHECK(same(&paging.joined, &known) && !paging.more);
            }
    }
}

static void test_every_page(void)
{
    struct list known = known_neighbours(6, 0), turned = known_neighbours(6, 1);
    page_in_every_way(six_pairs, &known);
    page_in_every_way(six_pairs_turned, &turned);
}

#endif
