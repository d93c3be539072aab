/*
 * Uses the engine as a fitter does: sets a table and candidate terms, pages through the
 * irredundant covers with small pages and a small answer buffer, then asks for the cheapest.
 *
 * The buffer has room for one page, so each page comes from a job of its own. Each job sets the
 * same table and candidates anew, since the engine keeps nothing between calls, and goes on from
 * one above the last set.
 */
#include "covers.h"

#include <inttypes.h>
#include <stdio.h>
#include <stdlib.h>

/* The two-output example: x is input 1, y is input 0. */
enum { INPUTS = 2, OUTPUTS = 2, ROWS = 4, TERMS = 6 };

struct row {
    uint8_t vertex, on, dc;
};

struct term {
    uint8_t care, value, outputs;
};

static const struct row rows[ROWS] = {{0, 0, 1}, {1, 1, 2}, {2, 3, 0}, {3, 2, 0}};

static const struct term terms[TERMS] = {
    {1, 0, 1}, {3, 1, 3}, {1, 1, 2}, {2, 2, 2}, {3, 2, 3}, {2, 0, 1},
};

/* Two sets to a page, and room for such a page and the end's answer. */
enum { PAGE_SETS = 2 };
#define ROOM (COVER_LIST_ANSWER_BYTES(PAGE_SETS) + COVER_END_ANSWER_BYTES)

/* A job under construction. 256 bytes are enough for this table and a few queries. */
struct job {
    uint8_t bytes[256];
    size_t length;
};

/* Where the next command of so many bytes is to be put. */
static uint8_t *next_command(struct job *job, size_t bytes)
{
    if (job->length + bytes > sizeof job->bytes) {
        fprintf(stderr, "the job is longer than its buffer\n");
        exit(EXIT_FAILURE);
    }
    uint8_t *at = job->bytes + job->length;
    job->length += bytes;
    return at;
}

/* The head that every job of this fitter has: the table and the candidates. */
static void add_problem(struct job *job)
{
    job->length = 0;
    cover_put_sizes(next_command(job, COVER_SIZES_BYTES), INPUTS, OUTPUTS);
    for (size_t i = 0; i < ROWS; i++)
        cover_put_row(next_command(job, COVER_ROW_BYTES), rows[i].vertex, rows[i].on, rows[i].dc);
    for (size_t i = 0; i < TERMS; i++)
        cover_put_term(next_command(job, COVER_TERM_BYTES), terms[i].care, terms[i].value, terms[i].outputs);
}

/* Runs the job. A refusal would be this program's own fault. */
static void run(const struct job *job, uint8_t *answers, size_t room)
{
    uint64_t outcome = cover_job(job->bytes, job->length, answers, room);
    if (cover_number(outcome) != COVER_ACCEPTED) {
        fprintf(stderr, "refusal %d at byte %zu\n", (int)cover_number(outcome), cover_offset(outcome));
        exit(EXIT_FAILURE);
    }
}

static void print_set(uint64_t set)
{
    printf("set %" PRIu64 ":", set);
    for (unsigned i = 0; i < TERMS; i++)
        if (set >> i & 1)
            printf(" term %u (care %u, value %u, outputs %u)", i + 1, terms[i].care, terms[i].value,
                   terms[i].outputs);
    printf("\n");
}

/* How far the paging has come. */
struct place {
    uint64_t start; /* 0, or one above the last set that was printed */
    int more;       /* whether a set stands at or above the start */
};

/* Prints the sets of one page and moves on behind the last of them. */
static void take_page(const uint8_t *page, struct place *place)
{
    for (size_t i = 0; i < cover_page_sets(page); i++)
        print_set(cover_page_set(page, i));
    place->start = cover_page_next(page, place->start);
    place->more = cover_page_more(page);
}

/* One job with one page, from the place on. */
static void page_job(struct place *place)
{
    struct job job;
    uint8_t answers[ROOM];

    add_problem(&job);
    cover_put_list(next_command(&job, COVER_LIST_BYTES), place->start, PAGE_SETS);
    cover_put_command(next_command(&job, COVER_END_BYTES), COVER_END);
    run(&job, answers, sizeof answers);
    take_page(answers, place);
}

static void print_cheapest(void)
{
    struct job job;
    uint8_t answers[COVER_CHEAPEST_ANSWER_BYTES + COVER_END_ANSWER_BYTES];

    add_problem(&job);
    cover_put_command(next_command(&job, COVER_CHEAPEST_BYTES), COVER_CHEAPEST);
    cover_put_command(next_command(&job, COVER_END_BYTES), COVER_END);
    run(&job, answers, sizeof answers);
    printf("cheapest, cost %u, is\n", cover_cheapest_cost(answers));
    print_set(cover_cheapest_set(answers));
}

int main(void)
{
    struct place place = {0, 1};
    for (unsigned jobs = 1; place.more; jobs++) {
        printf("job %u\n", jobs);
        page_job(&place);
    }
    print_cheapest();
    return EXIT_SUCCESS;
}
