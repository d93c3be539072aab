/* Lists of covers: pages joined over jobs and buffers, and held to a list that is known. */
#ifndef LISTS_H
#define LISTS_H

#include "problems.h"

enum { MOST_LISTED = 1100 };

struct list {
    uint64_t sets[MOST_LISTED];
    size_t count;
};

/* Where the paging stands, over all jobs. */
struct paging {
    struct list joined;
    uint64_t start;
    int more;
    unsigned jobs;
};

/* What pages are asked by: COVER_LIST, or COVER_POSSIBLE. */
static enum cover_command paged = COVER_LIST;

static void add_page(struct job *job, uint64_t start, unsigned count)
{
    (paged == COVER_LIST ? add_list : add_possible)(job, start, count);
}

static int is_page(const uint8_t *answer)
{
    return answer[0] == (paged == COVER_LIST ? COVER_LIST_ANSWER : COVER_POSSIBLE_ANSWER) && answer[2] <= 1;
}

/* Joins a page; gives the bytes of it. */
static size_t join(struct paging *paging, const uint8_t *page, unsigned count)
{
    size_t sets = cover_page_sets(page);
    uint64_t least = paging->start;
    CHECK(is_page(page) && sets <= count);
    for (size_t i = 0; i < sets && paging->joined.count < MOST_LISTED; i++) {
        uint64_t set = cover_page_set(page, i);
        CHECK(set >= least);
        paging->joined.sets[paging->joined.count++] = set;
        least = set + 1;
    }
    paging->start = cover_page_next(page, paging->start);
    CHECK(paging->start == least);
    paging->more = cover_page_more(page);
    return cover_answer_bytes(page);
}

/* Whether a command has an answer. */
static int answered(uint8_t command)
{
    return command == COVER_PRIMES || command == COVER_LIST || command == COVER_POSSIBLE || command == COVER_CHEAPEST ||
           command == COVER_MULTIPLY || command == COVER_END;
}

/* What a job without an end gives where its answers do not all fit: it stops at the first that does not. */
static int is_cut(const struct job *job, size_t room, uint64_t outcome)
{
    call(job, COVER_MOST_ANSWER_BYTES);
    size_t taken = 0;
    for (size_t at = 0; at < job->length; at += cover_command_bytes(job->bytes[at])) {
        size_t bytes = answered(job->bytes[at]) ? cover_answer_bytes(answers + taken) : 0;
        if (room < taken + bytes)
            return is(outcome, COVER_NO_ROOM, at, taken);
        taken += bytes;
    }
    return 0;
}

/*
 * One job: pages are added one by one, and the job is run anew with each, until there are no
 * more or the next one finds no room. The job has no end yet, so a page that was answered is
 * seen by refusal 2 behind it. Gives how many pages were answered.
 */
static unsigned page_job(struct paging *paging, void (*problem)(struct job *), unsigned count, size_t room)
{
    static struct job job;
    paging->jobs++;
    problem(&job);
    uint64_t head = call(&job, room);
    if (cover_number(head) == COVER_NO_ROOM) {
        CHECK(is_cut(&job, room, head));
        return 0;
    }
    CHECK(cover_number(head) == COVER_NO_END && cover_offset(head) == job.length);
    /* Where it is refused otherwise there is nothing to page through. */
    paging->more = paging->more && cover_number(head) == COVER_NO_END;

    size_t taken = cover_written(head);
    unsigned pages = 0;
    while (paging->more && job.length + COVER_LIST_BYTES <= COVER_MOST_JOB_BYTES) {
        size_t at = job.length;
        add_page(&job, paging->start, count);
        uint64_t outcome = call(&job, room);
        if (cover_number(outcome) == COVER_NO_ROOM) {
            CHECK(is(outcome, COVER_NO_ROOM, at, taken));
            break;
        }
        CHECK(cover_number(outcome) == COVER_NO_END && cover_offset(outcome) == job.length);
        if (cover_number(outcome) != COVER_NO_END)
            break;
        size_t before = paging->joined.count;
        taken += join(paging, answers + taken, count);
        CHECK(cover_written(outcome) == taken);
        pages++;
        /* A page with count 1 or more brings the list on as long as there is more. */
        CHECK(paging->joined.count > before || !paging->more);
        if (paging->joined.count == before)
            break;
    }
    return pages;
}

/* Pages through all covers. Where not one page fits, a further job asks for less, or gets room. */
static struct paging page_through(void (*problem)(struct job *), unsigned count, size_t room)
{
    struct paging paging = {.start = 0, .more = 1};
    while (paging.more && paging.jobs < 2 * MOST_LISTED) {
        if (page_job(&paging, problem, count, room) > 0)
            continue;
        if (count > 1)
            count /= 2;
        else
            room += 8;
    }
    return paging;
}

static int same(const struct list *a, const struct list *b)
{
    return a->count == b->count && memcmp(a->sets, b->sets, a->count * sizeof a->sets[0]) == 0;
}

/* Every count up to a little above the list's length, and every room up to a little above need. */
static void page_in_every_way(void (*problem)(struct job *), const struct list *known)
{
    for (unsigned count = 1; count <= known->count + 2; count++) {
        size_t need = COVER_LIST_ANSWER_BYTES(known->count) * 2 + 30;
        for (size_t room = 0; room <= need; room++) {
            struct paging paging = page_through(problem, count, room);
            CHECK(same(&paging.joined, known) && !paging.more);
        }
    }
}

static struct list listed(size_t count, const uint64_t *sets)
{
    struct list list = {.count = count};
    memcpy(list.sets, sets, count * sizeof sets[0]);
    return list;
}

#define LISTED(...) \
    listed(sizeof((uint64_t[]){__VA_ARGS__}) / sizeof(uint64_t), (const uint64_t[]){__VA_ARGS__})

static void check_answers(void (*problem)(struct job *), const struct list *sets, uint64_t cost, uint64_t cheapest)
{
    static struct job job;
    problem(&job);
    size_t page = cover_written(call(&job, COVER_MOST_ANSWER_BYTES));
    add_list(&job, 0, 255);
    add(&job, COVER_CHEAPEST);
    add(&job, COVER_END);
    size_t last = page + COVER_LIST_ANSWER_BYTES(sets->count);
    size_t need = last + COVER_CHEAPEST_ANSWER_BYTES + COVER_END_ANSWER_BYTES;

    CHECK(is(call(&job, need), COVER_ACCEPTED, job.length, need));
    CHECK(answers[page] == COVER_LIST_ANSWER && answers[page + 1] == sets->count && answers[page + 2] == 0);
    for (size_t i = 0; i < sets->count; i++)
        CHECK(cover_page_set(answers + page, i) == sets->sets[i]);
    CHECK(answers[last] == COVER_CHEAPEST_ANSWER);
    CHECK(cover_cheapest_cost(answers + last) == cost && cover_cheapest_set(answers + last) == cheapest);
    CHECK(answers[need - 1] == COVER_END_ANSWER);

    /* With one byte less the end finds no room; what was finished before it stands. */
    CHECK(is(call(&job, need - 1), COVER_NO_ROOM, job.length - 1, need - 1));
}

#endif
