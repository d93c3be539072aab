/*
 * What prices make of the time of C.
 *
 *   prices [-t SECONDS] JOB...
 *
 * For each job, of the candidates at its first C, or at its end where it has none: C without W and with W at several
 * lists of prices, each in a job of its own. A time is the best of some calls of the job with the one query, less the
 * best of that job without it; so it has the making of the covering matrix in it. Each is measured in a child process
 * that is ended after SECONDS (60); what did not end counts as these seconds, and is shown with a ">".
 *
 * The exit status is 2 where a job is refused or nothing was run.
 */
#define _GNU_SOURCE
#include <stdbool.h>
#include <stdio.h>
#include <stdlib.h>
#include <string.h>
#include <sys/mman.h>
#include <sys/wait.h>
#include <unistd.h>

#include "covers.h"
#include "job.h"
#include "price_list.h"

static const Prices lists[] = {
    {1, 1, 0}, {50, 50, 0}, {34, 17, 0}, {37, 23, 11}, {1, 50, 7}, {50, 1, 0}, {50, 0, 0}, {0, 1, 0},
    {0, 0, 1}, {0, 0, 50},  {1, 0, 1},   {50, 50, 50}, {0, 0, 0},  {2, 3, 5},  {7, 0, 49},
};

enum { LISTS = sizeof lists / sizeof *lists, MOST_RUNS = 200, MOST_SLOW = 1000 };

static const double most_spent = 0.03; /* seconds of calls for a time; one call at least */
static const double long_time = 2, least_time = 20e-6;
static unsigned limit = 60;

/* What a child leaves. */
typedef struct {
    double time;
    bool ended, accepted;
} Run;

static Run *run;

/* ---- jobs ---- */

static Job stored;

static bool read_job(const char *path)
{
    FILE *f = fopen(path, "rb");
    if (!f) {
        perror(path);
        return false;
    }
    stored.len = fread(stored.bytes, 1, LONGEST - COVER_PRICES_BYTES - COVER_CHEAPEST_BYTES, f);
    fclose(f);
    return can_have_prices(&stored);
}

/* Where the first C stands, else E. */
static size_t first_cheapest(void)
{
    size_t end = 0;
    for (size_t at = 0; at < stored.len; at = behind(stored.bytes, stored.len, at)) {
        if (stored.bytes[at] == COVER_CHEAPEST)
            return at;
        end = at;
    }
    return end;
}

/* The commands before the first C that are no queries, at these prices, or without W. */
static void put_head(Job *job, const Prices *w)
{
    static Job head;
    head.len = 0;
    put_settings(&head, stored.bytes, first_cheapest());
    set_prices(job, &head, w);
}

/* ---- time ---- */

static double timed(const Job *job, uint64_t *outcome)
{
    static uint8_t answers[LONGEST];
    double start = now();
    *outcome = cover_job(job->bytes, job->len, answers, LONGEST);
    return now() - start;
}

/* Runs in the child. */
static void repeat(const Prices *w)
{
    static Job asked, bare;
    uint64_t outcome;
    double best = 1e30, least = 1e30, spent = 0;
    put_head(&bare, w);
    put_end(&bare);
    put_head(&asked, w);
    asked.len += cover_put_command(asked.bytes + asked.len, COVER_CHEAPEST);
    put_end(&asked);
    for (int i = 0; i < MOST_RUNS && spent < most_spent; i++) {
        double without = timed(&bare, &outcome), with = timed(&asked, &outcome);
        least = without < least ? without : least;
        best = with < best ? with : best;
        spent += with;
    }
    run->accepted = cover_number(outcome) == COVER_ACCEPTED;
    run->time = best > least ? best - least : 0;
    run->ended = true;
}

/* What C takes at these prices, or without W. */
static Run measured(const Prices *w)
{
    *run = (Run){.time = limit};
    fflush(NULL);
    pid_t child = fork();
    if (child == 0) {
        alarm(limit);
        repeat(w);
        _exit(0);
    }
    if (child < 0 || waitpid(child, NULL, 0) < 0) {
        perror("prices");
        exit(2);
    }
    return *run;
}

/* ---- what is shown ---- */

/* A time at a list of prices. */
typedef struct {
    const char *job;
    const Prices *prices;
    double factor; /* of the time without W */
    Run run;
} Priced;

static Priced worst = {.job = NULL}; /* by the factor, of the jobs that take long enough without W */
static Priced slow[MOST_SLOW];
static int slow_count = 0, jobs = 0;

static const char *shown(Run r)
{
    static char text[4][32];
    static int next;
    char *s = text[next++ % 4];
    const char *above = r.ended ? "" : ">";
    if (r.time < 1e-3)
        snprintf(s, sizeof text[0], "%s%.1f us", above, r.time * 1e6);
    else if (r.time < 1)
        snprintf(s, sizeof text[0], "%s%.2f ms", above, r.time * 1e3);
    else
        snprintf(s, sizeof text[0], "%s%.2f s", above, r.time);
    return s;
}

static void print_priced(const Priced *p)
{
    printf("%2u %2u %2u  %10s  %8.2f", p->prices->term, p->prices->literal, p->prices->connection, shown(p->run),
           p->factor);
}

static void refused(const char *job)
{
    fprintf(stderr, "prices: %s is refused\n", job);
    exit(2);
}

/* One line: the time without W, the list with the longest time, this time, and the factor. */
static void measure(const char *job)
{
    Run without = measured(NULL);
    Priced longest = {.job = NULL};
    if (without.ended && !without.accepted)
        refused(job);
    for (int k = 0; k < LISTS; k++) {
        Priced p = {.job = job, .prices = &lists[k], .run = measured(&lists[k])};
        if (p.run.ended && !p.run.accepted)
            refused(job);
        p.factor = without.time > 0 ? p.run.time / without.time : 0;
        if (!longest.job || p.run.time > longest.run.time)
            longest = p;
        if (p.run.time > long_time && slow_count < MOST_SLOW)
            slow[slow_count++] = p;
    }
    if (without.time > least_time && (!worst.job || longest.factor > worst.factor))
        worst = longest;
    printf("%10s  ", shown(without));
    print_priced(&longest);
    printf("  %s\n", job);
    jobs++;
}

static void print_summary(void)
{
    printf("\n%d jobs, %d lists of prices, limit %u s\n", jobs, LISTS, limit);
    if (worst.job) {
        printf("worst factor of those above %.0f us without W: ", least_time * 1e6);
        print_priced(&worst);
        printf("  %s\n", worst.job);
    }
    printf("above %.0f s: %s\n", long_time, slow_count ? "" : "none");
    for (int i = 0; i < slow_count; i++) {
        print_priced(&slow[i]);
        printf("  %s\n", slow[i].job);
    }
}

/* The name of a file, without its folder and its end. */
static char *name_of(const char *path)
{
    const char *slash = strrchr(path, '/');
    char *name = strdup(slash ? slash + 1 : path), *dot = name ? strrchr(name, '.') : NULL;
    if (dot)
        *dot = 0;
    return name;
}

int main(int argc, char **argv)
{
    int option;
    while ((option = getopt(argc, argv, "t:")) != -1)
        limit = option == 't' ? (unsigned)atoi(optarg) : 0;
    if (optind >= argc || limit == 0) {
        fprintf(stderr, "usage: prices [-t SECONDS] JOB...\n");
        return 2;
    }
    run = mmap(NULL, sizeof *run, PROT_READ | PROT_WRITE, MAP_SHARED | MAP_ANONYMOUS, -1, 0);
    if (run == MAP_FAILED) {
        perror("prices");
        return 2;
    }
    printf("%10s  %-8s  %10s  %8s  %s\n", "without W", "worst", "time", "factor", "job");
    for (; optind < argc; optind++) {
        if (!read_job(argv[optind]))
            refused(argv[optind]);
        measure(name_of(argv[optind]));
    }
    print_summary();
    return 0;
}
