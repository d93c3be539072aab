/*
 * What single commands cost: I, R, B, T, F, A, D and G of 2, 3 and 8 inputs, in the engine and in the one that it is
 * compared with; and what a table of 256 rows costs by 256 R and by 32 B.
 *
 *   commands time ROUNDS        nanoseconds, the best of the rounds
 *   commands jobs               the numbers of the jobs
 *   commands name PROGRAM       the function that PROGRAM, 0 or 1, is called by
 *   commands once PROGRAM JOB   one call, for a tool that counts
 *   commands instructions       the same tables from lines "JOB PROGRAM COUNT" on standard input
 *
 * The jobs are those of samples.h. A command costs what a job with many of it takes above the one without them, divided
 * by their count; for I the call of the job of I and E is shown. A table of 256 rows is shown whole: the call, I, its
 * rows and E. What one of the two programs refuses is left out: a former library may not know A, D, B, F or G, and no B
 * fits into 2 inputs.
 */
#define _GNU_SOURCE
#include <stdio.h>
#include <stdlib.h>
#include <string.h>

#include "covers.h"
#include "job.h"
#include "other.h"
#include "samples.h"

/* The jobs of each size, one of each kind, then the tables. */
enum { SIZES = 3, FIRST_TABLE = SIZES * KINDS, JOBS = FIRST_TABLE + TABLES, PROGRAMS = 2 };

static const unsigned inputs[SIZES] = {2, 3, 8};
static Sample samples[JOBS];
static bool left_out[JOBS];
static double costs[JOBS][PROGRAMS]; /* in any unit */
static uint8_t answers[LONGEST];

typedef uint64_t (*Engine)(const uint8_t *, size_t, uint8_t *, size_t);
static const Engine engines[PROGRAMS] = {cover_job, other_job};

#define TEXT_OF(name) #name
#define TEXT(name) TEXT_OF(name)
static const char *const names[PROGRAMS] = {"cover_job", TEXT(other_job)};

static void make_all(void)
{
    for (int j = 0; j < FIRST_TABLE; j++)
        make_sample(&samples[j], inputs[j / KINDS], (enum kind)(j % KINDS));
    for (int t = 0; t < TABLES; t++)
        make_table(&samples[FIRST_TABLE + t], (enum table)t);
}

static uint64_t run(int program, const Sample *s)
{
    return engines[program](s->job.bytes, s->job.len, answers, LONGEST);
}

static bool accepted(const Sample *s)
{
    for (int p = 0; p < PROGRAMS; p++)
        if (cover_number(run(p, s)) != COVER_ACCEPTED)
            return false;
    return s->count > 0;
}

/* Tells what is left out; the commands of paper 01 must not be. */
static bool leave_out(void)
{
    bool good = true;
    for (int j = 0; j < JOBS; j++)
        left_out[j] = !accepted(&samples[j]);
    for (int s = 0; s < SIZES; s++)
        good &= !left_out[KINDS * s + CALL] && !left_out[KINDS * s + ROW] && !left_out[KINDS * s + TERM];
    return good;
}

/* The seconds of a call, over so many calls that the clock does not count. */
static double timed(int program, const Sample *s)
{
    int calls = s->job.len > 100 ? 1 : 32;
    double start = now();
    for (int i = 0; i < calls; i++)
        run(program, s);
    return (now() - start) / calls;
}

/* What the two programs take for a command, and their ratio. */
static void print_commands(const char *unit)
{
    static const char *const command[KINDS] = {"I and E", "R", "B", "T", "F", "A", "D of A", "D of F", "G"};
    static const enum kind above[KINDS] = {CALL, CALL, CALL, ROW, ROW, ROW, ADD, BLOCK, ADD};
    printf("%-12s %6s  %10s  %10s  %6s   %s\n", "command", "inputs", "engine", OTHER, "ratio", unit);
    for (int j = 0; j < FIRST_TABLE; j++) {
        int size = j / KINDS, kind = j % KINDS;
        double one[PROGRAMS];
        for (int p = 0; p < PROGRAMS; p++)
            one[p] = (costs[j][p] - (kind == CALL ? 0 : costs[KINDS * size + above[kind]][p])) / samples[j].count;
        if (!left_out[j])
            printf("%-12s %6u  %10.1f  %10.1f  %6.2f\n", command[kind], inputs[size], one[0], one[1], one[0] / one[1]);
    }
}

/* B over R, of each program: up to 1.00 a table is read by B at least as fast as by R. */
static void print_share(const char *what, int b, int r)
{
    double share[PROGRAMS];
    for (int p = 0; p < PROGRAMS; p++)
        share[p] = costs[FIRST_TABLE + b][p] / costs[FIRST_TABLE + r][p];
    printf("%-19s  %10.2f  %10.2f\n", what, share[0], share[1]);
}

static void print_tables(const char *unit)
{
    static const char *const what[TABLES] = {"256 R in order", "32 B in order", "256 R shuffled", "32 B shuffled",
                                             "8 R, B in turn"};
    printf("\n%-19s  %10s  %10s  %6s   %s\n", "table of 256 rows", "engine", OTHER, "ratio", unit);
    for (int t = 0; t < TABLES; t++) {
        const double *of = costs[FIRST_TABLE + t];
        if (!left_out[FIRST_TABLE + t])
            printf("%-19s  %10.1f  %10.1f  %6.2f\n", what[t], of[0], of[1], of[0] / of[1]);
    }
    if (left_out[FIRST_TABLE + B_IN_ORDER])
        return;
    print_share("B / R in order", B_IN_ORDER, R_IN_ORDER);
    print_share("B / R shuffled", B_SHUFFLED, R_SHUFFLED);
}

static void measure(int rounds)
{
    for (int r = 0; r < rounds; r++)
        for (int j = 0; j < JOBS; j++)
            for (int p = 0; p < PROGRAMS && !left_out[j]; p++) {
                double took = 1e9 * timed(p, &samples[j]);
                if (r == 0 || took < costs[j][p])
                    costs[j][p] = took;
            }
}

/* Whether there is a count for each. */
static bool read_counts(void)
{
    int job, program;
    double count;
    while (scanf("%d %d %lf", &job, &program, &count) == 3)
        if (0 <= job && job < JOBS && 0 <= program && program < PROGRAMS)
            costs[job][program] = count;
    for (int j = 0; j < JOBS; j++)
        if (!left_out[j] && (costs[j][0] == 0 || costs[j][1] == 0))
            return false;
    return true;
}

static int one(int argc, char **argv)
{
    int program = argc > 2 ? atoi(argv[2]) : -1, job = argc > 3 ? atoi(argv[3]) : 0;
    if (program < 0 || program >= PROGRAMS || job < 0 || job >= JOBS)
        return 2;
    if (strcmp(argv[1], "name") == 0)
        printf("%s\n", names[program]);
    else
        run(program, &samples[job]);
    return 0;
}

static int fault(const char *what)
{
    fprintf(stderr, "commands: %s\n", what);
    return 2;
}

int main(int argc, char **argv)
{
    const char *what = argc > 1 ? argv[1] : "", *unit = "instructions";
    make_all();
    if (strcmp(what, "once") == 0 || strcmp(what, "name") == 0)
        return one(argc, argv);
    if (!leave_out())
        return fault("a job is refused");
    if (strcmp(what, "jobs") == 0) {
        for (int j = 0; j < JOBS; j++)
            if (!left_out[j])
                printf("%d\n", j);
        return 0;
    }
    if (strcmp(what, "time") == 0 && argc == 3 && atoi(argv[2]) > 0) {
        measure(atoi(argv[2]));
        unit = "nanoseconds";
    } else if (strcmp(what, "instructions") != 0) {
        return fault("usage: commands time ROUNDS | jobs | name PROGRAM | once PROGRAM JOB | instructions");
    } else if (!read_counts()) {
        return fault("counts are missing");
    }
    print_commands(unit);
    print_tables(unit);
    return 0;
}
