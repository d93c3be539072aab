/*
 * Uses the engine for our own part: pages through the irredundant covers that fit it, with small
 * pages and a small answer buffer, and says to buy the larger part where none fits.
 *
 * part_job takes the jobs of cover_job, and only its lists differ: they have the covers with at most
 * PART_MOST_MEMBERS members and, for each output, at most PART_MOST_FOR_OUTPUT. Where there is none
 * a list is refused with COVER_NONE_FITS, whatever its start and count are.
 */
#include "covers.h"

#include <inttypes.h>
#include <stdio.h>
#include <stdlib.h>

/* One output, wanted at eight vertices, one more than the part has terms for an output. */
enum { INPUTS = 4, OUTPUTS = 1, VERTICES = 8, SHORTER = 3 };

static const uint8_t vertices[VERTICES] = {0, 1, 6, 7, 10, 11, 13, 14};

struct term {
    uint8_t care, value;
};

/* Each holds two of the vertices: 0 and 1, 6 and 7, 10 and 11. */
static const struct term shorter[SHORTER] = {{14, 0}, {14, 6}, {14, 10}};

/* Three sets to a page, and room for such a page and the end's answer. */
enum { PAGE_SETS = 3 };
#define ROOM (COVER_LIST_ANSWER_BYTES(PAGE_SETS) + COVER_END_ANSWER_BYTES)

/* A job under construction. 256 bytes are enough for this table and a list. */
struct job {
    uint8_t bytes[256];
    size_t length;
};

/* Where the next command of so many bytes is to be put. */
static uint8_t *next_command(struct job *job, size_t bytes)
{
    if (job->length + bytes > sizeof job->bytes) {
        fprintf(stderr, "the job is longer than its buffer\n");
        exit(EXIT_FAILURE);
    }
    uint8_t *at = job->bytes + job->length;
    job->length += bytes;
    return at;
}

/* The table, a term for each vertex, and so many of the shorter terms. */
static void add_problem(struct job *job, size_t count)
{
    job->length = 0;
    cover_put_sizes(next_command(job, COVER_SIZES_BYTES), INPUTS, OUTPUTS);
    for (size_t i = 0; i < VERTICES; i++)
        cover_put_row(next_command(job, COVER_ROW_BYTES), vertices[i], 1, 0);
    for (size_t i = 0; i < VERTICES; i++)
        cover_put_term(next_command(job, COVER_TERM_BYTES), 15, vertices[i], 1);
    for (size_t i = 0; i < count; i++)
        cover_put_term(next_command(job, COVER_TERM_BYTES), shorter[i].care, shorter[i].value, 1);
}

static void print_set(uint64_t set)
{
    printf("set %" PRIu64 ": terms", set);
    for (unsigned i = 0; set >> i != 0; i++)
        if (set >> i & 1)
            printf(" %u", i + 1);
    printf("\n");
}

/* How far the paging has come. */
struct place {
    uint64_t start; /* 0, or one above the last set that was printed */
    int more;       /* whether a set that fits stands at or above the start */
};

/* Prints the sets of one page and moves on behind the last of them. */
static void take_page(const uint8_t *page, struct place *place)
{
    for (size_t i = 0; i < cover_page_sets(page); i++)
        print_set(cover_page_set(page, i));
    place->start = cover_page_next(page, place->start);
    place->more = cover_page_more(page);
}

/* One job with one page, from the place on. Any refusal but one would be this program's own fault. */
static void page_job(size_t count, struct place *place)
{
    struct job job;
    uint8_t answers[ROOM];

    add_problem(&job, count);
    cover_put_list(next_command(&job, COVER_LIST_BYTES), place->start, PAGE_SETS);
    cover_put_command(next_command(&job, COVER_END_BYTES), COVER_END);
    uint64_t outcome = part_job(job.bytes, job.length, answers, sizeof answers);
    if (cover_number(outcome) == COVER_NONE_FITS) {
        printf("no cover fits: buy the larger part\n");
        place->more = 0;
    } else if (cover_number(outcome) == COVER_ACCEPTED) {
        take_page(answers, place);
    } else {
        fprintf(stderr, "refusal %d at byte %zu\n", (int)cover_number(outcome), cover_offset(outcome));
        exit(EXIT_FAILURE);
    }
}

static void print_covers(size_t count)
{
    struct place place = {0, 1};
    printf("terms of one vertex: %d, of two: %zu\n", VERTICES, count);
    for (unsigned jobs = 1; place.more; jobs++) {
        printf("job %u\n", jobs);
        page_job(count, &place);
    }
}

int main(void)
{
    print_covers(SHORTER);
    print_covers(1);
    print_covers(0);
    return EXIT_SUCCESS;
}
