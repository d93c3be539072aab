/*
 * What V takes, by the engine and by the one that it is compared with.
 *
 *   ranges [-t SECONDS] JOB...
 *
 * For each job, of the candidates at its first query: a page of 255 sets by V from 0 on, without G, with both ends of
 * each candidate at its weight, from one half of it to twice as much, and from 0 to 850 (range_modes.h). A time is the
 * best of some calls of the job with the one query, less the best of that job without it; so it has the making of the
 * covering matrix in it. Above 0.1 s it is time of the processor, whose clock is too coarse below on some machines.
 * Each is measured in a child process that is ended after SECONDS (2) of the processor; what did not end is LATE.
 *
 * The last lines tell, for each mode, how many pages took less than 10 ms, than 100 ms and how many were late, the
 * slowest page that ended, the worst ratio of those that take more than 20 us, and which jobs were late.
 *
 * The exit status is 1 where answers differ, 2 where nothing was run.
 */
#define _GNU_SOURCE
#include <stdbool.h>
#include <stdio.h>
#include <stdlib.h>
#include <string.h>
#include <sys/mman.h>
#include <sys/time.h>
#include <sys/wait.h>
#include <unistd.h>

#include "covers.h"
#include "job.h"
#include "other.h"
#include "range_modes.h"

enum { PROGRAMS = 2, MOST_RUNS = 100, MOST_LATE = 1000 };

typedef uint64_t (*Engine)(const uint8_t *, size_t, uint8_t *, size_t);
static const Engine engines[PROGRAMS] = {cover_job, other_job};
static const char *const programs[PROGRAMS] = {"engine", OTHER};

static const double most_spent = 0.05; /* seconds of calls for a time; one call at least */
static const double least_time = 20e-6;
static double limit = 2;

/* What a child leaves. */
typedef struct {
    double time;
    uint64_t outcome;
    uint8_t answers[LONGEST];
    bool ended;
} Run;

static Run *runs[PROGRAMS];

/* ---- time ---- */

static double processor_time(void)
{
    struct timespec t;
    clock_gettime(CLOCK_PROCESS_CPUTIME_ID, &t);
    return (double)t.tv_sec + 1e-9 * (double)t.tv_nsec;
}

static double timed(Engine engine, const Job *job, Run *run)
{
    memset(run->answers, 0xa5, LONGEST);
    double used = processor_time(), start = now();
    run->outcome = engine(job->bytes, job->len, run->answers, LONGEST);
    double took = now() - start;
    used = processor_time() - used;
    return used > 0.1 ? used : took;
}

/* Runs in the child. */
static void repeat(int program, const Job *job, const Job *bare)
{
    Run *run = runs[program];
    double best = 1e30, without = 1e30, spent = 0;
    for (int i = 0; i < MOST_RUNS && spent < most_spent; i++) {
        double less = timed(engines[program], bare, run), with = timed(engines[program], job, run);
        without = less < without ? less : without;
        best = with < best ? with : best;
        spent += with;
    }
    run->time = best > without ? best - without : 0;
    run->ended = true;
}

/* Its end by SIGPROF, when so much time of the processor is spent. */
static void set_limit(void)
{
    struct itimerval timer = {.it_value = {(time_t)limit, (suseconds_t)(1e6 * (limit - (double)(time_t)limit))}};
    setitimer(ITIMER_PROF, &timer, NULL);
}

static void measure(int program, const Job *job, const Job *bare)
{
    runs[program]->ended = false;
    fflush(NULL);
    pid_t child = fork();
    if (child == 0) {
        set_limit();
        repeat(program, job, bare);
        _exit(0);
    }
    if (child < 0 || waitpid(child, NULL, 0) < 0) {
        perror("ranges");
        exit(2);
    }
}

/* ---- what is shown ---- */

typedef struct {
    double value;
    const char *job;
} Worst;

static void raise_to(Worst *w, double value, const char *job)
{
    if (w->job == NULL || value > w->value)
        *w = (Worst){value, job};
}

static Worst slowest[RANGE_MODES][PROGRAMS], worst_ratio[RANGE_MODES];
static int within_10[RANGE_MODES][PROGRAMS], within_100[RANGE_MODES][PROGRAMS];
static const char *late[RANGE_MODES][PROGRAMS][MOST_LATE];
static int late_count[RANGE_MODES][PROGRAMS];
static int jobs = 0, newer = 0, differing = 0;

static const char *shown(double t)
{
    static char text[4][32];
    static int next;
    char *s = text[next++ % 4];
    if (t < 1e-3)
        snprintf(s, sizeof text[0], "%.1f us", t * 1e6);
    else if (t < 1)
        snprintf(s, sizeof text[0], "%.2f ms", t * 1e3);
    else
        snprintf(s, sizeof text[0], "%.2f s", t);
    return s;
}

static void count_run(RangeMode mode, int program, const char *name)
{
    const Run *run = runs[program];
    if (!run->ended) {
        if (late_count[mode][program] < MOST_LATE)
            late[mode][program][late_count[mode][program]++] = name;
        return;
    }
    within_10[mode][program] += run->time < 0.01;
    within_100[mode][program] += run->time < 0.1;
    raise_to(&slowest[mode][program], run->time, name);
}

/* The sets of the page, with a + where more stand above; its refusal in brackets; - where none ended. V's page is the
   first answer but that of a P, and E's is the last byte. */
static const char *sets_of(void)
{
    static char text[32];
    const Run *run = runs[0]->ended ? runs[0] : runs[1];
    const uint8_t *page = run->answers;
    if (!run->ended)
        return "-";
    if (cover_number(run->outcome) != COVER_ACCEPTED) {
        snprintf(text, sizeof text, "(%d)", (int)cover_number(run->outcome));
        return text;
    }
    page += page[0] == COVER_PRIMES_ANSWER ? cover_answer_bytes(page) : 0;
    snprintf(text, sizeof text, "%zu%s", cover_page_sets(page), cover_page_more(page) ? "+" : "");
    return text;
}

static void print_line(RangeMode mode, const char *name, bool differ)
{
    char ratio[32] = "-";
    bool both = runs[0]->ended && runs[1]->ended;
    double lesser = runs[0]->time < runs[1]->time ? runs[0]->time : runs[1]->time;
    if (both && lesser > 0)
        snprintf(ratio, sizeof ratio, "%.2f", runs[0]->time / runs[1]->time);
    if (both && lesser > least_time)
        raise_to(&worst_ratio[mode], runs[0]->time / runs[1]->time, name);
    printf("%8s  %-10s  %-10s  %6s  %-8s  %s%s\n", ratio, runs[0]->ended ? shown(runs[0]->time) : "LATE",
           runs[1]->ended ? shown(runs[1]->time) : "LATE", sets_of(), mode_names[mode], name,
           differ ? ": the answers DIFFER" : "");
}

static void ask(const Job *of, RangeMode mode, const char *name)
{
    static Job job, bare;
    put_ranged_head(&bare, of, mode);
    put_end(&bare);
    put_ranged(&job, of, mode, COVER_MOST_SETS);
    for (int p = 0; p < PROGRAMS; p++)
        measure(p, &job, &bare);
    bool both = runs[0]->ended && runs[1]->ended;
    if (both && is_newer(job.bytes, runs[0]->outcome, runs[1]->outcome)) {
        newer++;
        return;
    }
    bool differ = both && (runs[0]->outcome != runs[1]->outcome ||
                           memcmp(runs[0]->answers, runs[1]->answers, LONGEST) != 0);
    differing += differ;
    for (int p = 0; p < PROGRAMS; p++)
        count_run(mode, p, name);
    print_line(mode, name, differ);
}

static void print_mode(RangeMode mode)
{
    for (int p = 0; p < PROGRAMS; p++) {
        const Worst *w = &slowest[mode][p];
        printf("%-8s %-8s below 10 ms %d, below 100 ms %d, late %d; slowest that ended %s (%s)\n", mode_names[mode],
               programs[p], within_10[mode][p], within_100[mode][p], late_count[mode][p], shown(w->value),
               w->job ? w->job : "none");
        for (int i = 0; i < late_count[mode][p]; i++)
            printf("%s%s%s", i ? ", " : "    late: ", late[mode][p][i], i + 1 == late_count[mode][p] ? "\n" : "");
    }
    if (worst_ratio[mode].job)
        printf("    worst ratio engine/" OTHER " of those above %.0f us: %.2f (%s)\n", least_time * 1e6,
               worst_ratio[mode].value, worst_ratio[mode].job);
}

static void print_summary(void)
{
    printf("\n%d jobs, limit %.1f s", jobs, limit);
    if (newer)
        printf("; %d pages have a command that " OTHER " does not know", newer);
    printf("\n");
    for (RangeMode mode = NO_RANGES; mode < RANGE_MODES; mode++)
        print_mode(mode);
    printf("answers %s\n", differing ? "DIFFER" : "are the same");
}

/* ---- the run ---- */

static bool read_job(const char *path, Job *job)
{
    FILE *f = fopen(path, "rb");
    if (!f) {
        perror(path);
        return false;
    }
    job->len = fread(job->bytes, 1, LONGEST, f);
    fclose(f);
    return true;
}

/* The name of a file, without its folder and its end. */
static char *name_of(const char *path)
{
    const char *slash = strrchr(path, '/');
    char *name = strdup(slash ? slash + 1 : path), *dot = name ? strrchr(name, '.') : NULL;
    if (dot)
        *dot = 0;
    return name;
}

static bool can_start(int argc, char **argv)
{
    int option;
    while ((option = getopt(argc, argv, "t:")) != -1)
        limit = option == 't' ? atof(optarg) : 0;
    for (int p = 0; p < PROGRAMS; p++) {
        runs[p] = mmap(NULL, sizeof(Run), PROT_READ | PROT_WRITE, MAP_SHARED | MAP_ANONYMOUS, -1, 0);
        if (runs[p] == MAP_FAILED)
            return false;
    }
    return optind < argc && limit > 0;
}

int main(int argc, char **argv)
{
    static Job job;
    if (!can_start(argc, argv)) {
        fprintf(stderr, "usage: ranges [-t SECONDS] JOB...\n");
        return 2;
    }
    printf("%8s  %-10s  %-10s  %6s  %-8s  %s\n", "ratio", "engine", OTHER, "sets", "ranges", "job");
    for (; optind < argc; optind++) {
        if (!read_job(argv[optind], &job))
            return 2;
        for (RangeMode mode = NO_RANGES; mode < RANGE_MODES; mode++)
            ask(&job, mode, name_of(argv[optind]));
        jobs++;
    }
    print_summary();
    return differing ? 1 : 0;
}
