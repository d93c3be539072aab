/*
 * What P takes by itself, in the engine and in the one that it is compared with: for drawn tables of 8 inputs and 8
 * outputs, and for the stored jobs that have a P.
 *
 *   primes time ROUNDS JOB...     microseconds, the best of the rounds
 *   primes name PROGRAM           the function that PROGRAM, 0 or 1, is called by
 *   primes calls PROGRAM JOB...   calls PROGRAM for each job once without P and once with it, for a tool that counts
 *   primes instructions JOB...    the same lines from the counts of these calls, of program 0, then of 1, on standard
 *                                 input
 *
 * A job is I, the rows, P and E; of a stored one the commands before P, P and E. P takes what this job takes above the
 * one without P. The answers of both programs are compared; the exit status is 1 where they differ, and 2 where
 * nothing could be measured. A job with a command that the other program does not know is left out.
 */
#define _GNU_SOURCE
#include <stdio.h>
#include <stdlib.h>
#include <string.h>

#include "covers.h"
#include "job.h"
#include "other.h"
#include "prime_samples.h"

enum { STEP = 1031 }; /* a prime, so that all tables are met by steps of it */

static bool differ = false;

typedef uint64_t (*Engine)(const uint8_t *, size_t, uint8_t *, size_t);
static const Engine engines[PROGRAMS] = {cover_job, other_job};

#define TEXT_OF(name) #name
#define TEXT(name) TEXT_OF(name)
static const char *const names[PROGRAMS] = {"cover_job", TEXT(other_job)};

static int fault(const char *what)
{
    fprintf(stderr, "primes: %s\n", what);
    return 2;
}

/* ---- the answers ---- */

static uint64_t run(int program, const Job *job, uint8_t *answers)
{
    return engines[program](job->bytes, job->len, answers, LONGEST);
}

/* Compares what both programs leave, and notes how many primes there are. */
static void compare(Sample *s, int j)
{
    static uint8_t answers[PROGRAMS][LONGEST];
    uint64_t outcome[PROGRAMS];
    for (int p = 0; p < PROGRAMS; p++) {
        memset(answers[p], 0xa5, LONGEST);
        outcome[p] = run(p, &s->job[j], answers[p]);
    }
    enum cover_refusal number = cover_number(outcome[0]);
    if (number == COVER_TOO_MANY)
        s->primes = COVER_MOST_CANDIDATES + 1;
    else if (number != COVER_ACCEPTED)
        s->left_out = true;
    else if (j == WITH)
        s->primes = (unsigned)cover_primes_count(answers[0]);
    if (is_newer(s->job[j].bytes, outcome[0], outcome[1]))
        s->left_out = true;
    else if (outcome[0] != outcome[1] || memcmp(answers[0], answers[1], LONGEST) != 0)
        differ = true;
}

static void compare_all(void)
{
    for (int i = 0; i < sample_count; i++)
        for (int j = 0; j < JOBS; j++)
            compare(&samples[i], j);
}

/* ---- the costs ---- */

/* The microseconds of one call. */
static double timed(int program, const Job *job)
{
    static uint8_t answers[LONGEST];
    double start = now();
    run(program, job, answers);
    return 1e6 * (now() - start);
}

/* Both programs in turn. Other tables come between those of a kind, some of which are alike, so that the processor has
   not just learnt the branches. */
static void measure(int rounds)
{
    for (int r = 0; r < rounds; r++)
        for (int i = 0; i < PROGRAMS * JOBS * sample_count; i++) {
            Sample *s = &samples[i / (PROGRAMS * JOBS) * STEP % sample_count];
            int p = i % PROGRAMS, j = i / PROGRAMS % JOBS;
            double took = s->left_out ? 0 : timed(p, &s->job[j]);
            if (r == 0 || took < s->cost[p][j])
                s->cost[p][j] = took;
        }
}

static void call_all(int program)
{
    static uint8_t answers[LONGEST];
    for (int i = 0; i < sample_count; i++)
        for (int j = 0; j < JOBS; j++)
            run(program, &samples[i].job[j], answers);
}

/* Whether there is one for each call, and no other. */
static bool read_counts(void)
{
    double more;
    for (int i = 0; i < PROGRAMS * sample_count; i++)
        for (int j = 0; j < JOBS; j++)
            if (scanf("%lf", &samples[i % sample_count].cost[i / sample_count][j]) != 1)
                return false;
    return scanf("%lf", &more) != 1;
}

static double cost_of(const Sample *s, int program) { return s->cost[program][WITH] - s->cost[program][BARE]; }
static double ratio_of(const Sample *s) { return cost_of(s, 0) / cost_of(s, 1); }

/* ---- the lines ---- */

typedef struct {
    double ratio;
    const char *name;
} Worst;

static void raise_to(Worst *w, double ratio, const char *name)
{
    if (ratio > w->ratio)
        *w = (Worst){ratio, name};
}

/* How many primes: one number, or the least and the most. */
static const char *shown(unsigned least, unsigned most)
{
    static char text[32];
    int end = least > COVER_MOST_CANDIDATES ? sprintf(text, "more") : sprintf(text, "%u", least);
    if (least != most)
        sprintf(text + end, most > COVER_MOST_CANDIDATES ? "-more" : "-%u", most);
    return text;
}

/* The mean costs, their ratio, and the worst ratio of one table. */
static void print_line(const Line *line, int places, Worst *dense, Worst *all)
{
    const Sample *s = line->first;
    double sum[PROGRAMS] = {0, 0};
    unsigned least = s->primes, most = s->primes;
    Worst worst = {0, line->name};
    for (; s < line->first + line->count; s++) {
        for (int p = 0; p < PROGRAMS; p++)
            sum[p] += cost_of(s, p) / line->count;
        least = s->primes < least ? s->primes : least;
        most = s->primes > most ? s->primes : most;
        raise_to(&worst, ratio_of(s), line->name);
        raise_to(all, ratio_of(s), line->name);
        if (is_dense(s))
            raise_to(dense, ratio_of(s), line->name);
    }
    printf("%-24s  %6u  %7u  %7s  ", line->name, inputs_of(line->first), outputs_of(line->first), shown(least, most));
    printf("%9.*f  %9.*f  %6.2f  %6.2f\n", places, sum[0], places, sum[1], sum[0] / sum[1], worst.ratio);
}

static void print_all(const char *unit, int places)
{
    Worst dense = {0, "none"}, all = dense;
    printf("%-24s  %6s  %7s  %7s  %9s  %9s  %6s  %6s   %s\n", "table", "inputs", "outputs", "primes", "engine", OTHER,
           "ratio", "worst", unit);
    for (Line *line = lines; line < lines + line_count; line++)
        if (line->first->left_out)
            printf("%-24s  left out\n", line->name);
        else
            print_line(line, places, &dense, &all);
    printf("answers %s\n", differ ? "DIFFER" : "are the same");
    printf("worst ratio engine/" OTHER ", dense tables of 8 inputs and 8 outputs: %.2f (%s)\n", dense.ratio, dense.name);
    printf("worst ratio engine/" OTHER ", all tables: %.2f (%s)\n", all.ratio, all.name);
}

static int usage(void)
{
    return fault("usage: primes time ROUNDS JOB... | name PROGRAM | calls PROGRAM JOB... | instructions JOB...");
}

int main(int argc, char **argv)
{
    if (argc < 3)
        return usage();
    const char *what = argv[1];
    bool counts = strcmp(what, "instructions") == 0;
    int number = atoi(argv[2]);
    if (strcmp(what, "name") == 0 && (number == 0 || number == 1))
        return puts(names[number]) < 0 ? 2 : 0;
    if (!make_all(argv + (counts ? 2 : 3)))
        return 2;
    if (strcmp(what, "calls") == 0 && (number == 0 || number == 1)) {
        call_all(number);
        return 0;
    }
    compare_all();
    if (strcmp(what, "time") == 0 && number > 0)
        measure(number);
    else if (!counts)
        return usage();
    else if (!read_counts())
        return fault("one count for each call is wanted");
    print_all(counts ? "instructions" : "microseconds", counts ? 0 : 2);
    return differ ? 1 : 0;
}
