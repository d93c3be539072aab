/*
 * What a job asks at its first query, for other solvers, and what the proved engine says to it. What A and D behind
 * that make of the candidates is not looked at.
 *
 *   rows matrix JOB      the costs of the candidates, then the reduced rows, each as the candidates that it has
 *   rows page JOB        the time of a first page of 255 sets, whether more stand above, then the sets
 *   rows cheapest JOB    the time of C, its cost and its set
 *
 * A time is the best of many runs of a job with the one query, less the best of that job without it. Sets are
 * printed as numbers. The exit status is 2 where the job is refused before its first query.
 */
#define _GNU_SOURCE
#include <inttypes.h>
#include <stdio.h>
#include <string.h>
#include <time.h>

#include "baseline.h"
#include "covers.h"
#include "job.h"

static uint8_t job[LONGEST], answers[LONGEST];
static size_t job_len;

static double timed(size_t len, uint64_t *outcome)
{
    double start = now();
    *outcome = cover_job(job, len, answers, LONGEST);
    return now() - start;
}

/* Puts the query and E behind the job's head and runs it; the answer to the query stands at *at. */
static double ask(const uint8_t *query, size_t len, size_t *at)
{
    uint64_t outcome;
    double best = 1e30, bare = 1e30, spent = 0;
    size_t head = head_of(job, job_len);
    for (int i = 0; i < 1000 && spent < 0.1; i++) {
        size_t end = head + cover_put_command(job + head, COVER_END);
        double took = timed(end, &outcome);
        bare = took < bare ? took : bare;
        *at = cover_written(outcome) - COVER_END_ANSWER_BYTES;
        memcpy(job + head, query, len);
        end = head + len + cover_put_command(job + head + len, COVER_END);
        took = timed(end, &outcome);
        best = took < best ? took : best;
        spent += took;
    }
    return best > bare ? best - bare : 0;
}

static int print_matrix(void)
{
    static BaselineMatrix m;
    if (baseline_matrix(job, job_len, &m) != 0)
        return 2;
    for (size_t i = 0; i < m.candidate_count; i++)
        printf("%s%d", i ? " " : "", m.costs[i]);
    printf("\n");
    for (size_t i = 0; i < m.row_count; i++)
        printf("%" PRIu64 "\n", m.rows[i]);
    return 0;
}

static int print_page(void)
{
    size_t at;
    uint8_t query[COVER_LIST_BYTES];
    double time = ask(query, cover_put_list(query, 0, COVER_MOST_SETS), &at);
    const uint8_t *page = answers + at;
    printf("%.9f\n%d\n", time, cover_page_more(page));
    for (size_t i = 0; i < cover_page_sets(page); i++)
        printf("%" PRIu64 "\n", cover_page_set(page, i));
    return 0;
}

static int print_cheapest(void)
{
    size_t at;
    uint8_t query[COVER_CHEAPEST_BYTES];
    double time = ask(query, cover_put_command(query, COVER_CHEAPEST), &at);
    printf("%.9f\n%u\n%" PRIu64 "\n", time, cover_cheapest_cost(answers + at), cover_cheapest_set(answers + at));
    return 0;
}

int main(int argc, char **argv)
{
    FILE *f = argc == 3 ? fopen(argv[2], "rb") : NULL;
    if (!f) {
        fprintf(stderr, "usage: rows matrix|page|cheapest JOB\n");
        return 2;
    }
    job_len = fread(job, 1, LONGEST - 16, f);
    fclose(f);
    if (strcmp(argv[1], "matrix") == 0)
        return print_matrix();
    return strcmp(argv[1], "page") == 0 ? print_page() : print_cheapest();
}
