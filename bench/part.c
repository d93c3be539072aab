/*
 * What L of the part takes, by part_job and by the plain C one.
 *
 *   part [-t SECONDS] [-s STARTS] JOB...
 *
 * For each job, of the candidates at its first query: a page of 255 sets from 0 on; where one fits, whether one stands
 * above the greatest of them (it says no more), and at STARTS (8) drawn starts whether one stands from there on, of which
 * the slowest is shown. Where none fits, the page is the refusal with 20. A time is the best of some calls of the job with the
 * one L, less the best of that job without it; so it has the making of the covering matrix in it. Above 0.1 s it is time
 * of the processor, whose clock is too coarse below on some machines. Each is measured in a child process that is ended
 * after SECONDS (2) of the processor; what did not end is LATE.
 *
 * The greatest set is found bit by bit by the plain C part, in a child process too; where that is late, so is 'no more'.
 *
 * The last lines tell, for each question, how many took less than 10 ms, than 100 ms, more than 1 s and how many were
 * late, the slowest that ended, the worst ratio of those that take more than 20 us, and which jobs are above 1 s or late.
 *
 * The exit status is 1 where answers differ, 2 where nothing was run.
 */
#define _GNU_SOURCE
#include <stdbool.h>
#include <stdio.h>
#include <stdlib.h>
#include <string.h>
#include <sys/mman.h>
#include <sys/time.h>
#include <sys/wait.h>
#include <unistd.h>

#include "baseline.h"
#include "covers.h"
#include "job.h"

enum { PROGRAMS = 2, MOST_RUNS = 100, MOST_SLOW = 1000 };

typedef uint64_t (*Engine)(const uint8_t *, size_t, uint8_t *, size_t);
static const Engine engines[PROGRAMS] = {part_job, baseline_part_job};
static const char *const programs[PROGRAMS] = {"part", "plain C"};

/* What is asked. */
typedef enum { PAGE, NO_MORE, START, REFUSAL, QUESTIONS } Question;
static const char *const question_names[QUESTIONS] = {"page", "no more", "start", "20"};

static const double most_spent = 0.05; /* seconds of calls for a time; one call at least */
static const double least_time = 20e-6;
static double limit = 2;
static int starts = 8;

/* What a child leaves. */
typedef struct {
    double time;
    uint64_t outcome;
    uint8_t answers[LONGEST];
    bool ended;
} Run;

static Run *runs[PROGRAMS];
static uint64_t *greatest; /* lent to the child that looks for it */

/* ---- time ---- */

static double processor_time(void)
{
    struct timespec t;
    clock_gettime(CLOCK_PROCESS_CPUTIME_ID, &t);
    return (double)t.tv_sec + 1e-9 * (double)t.tv_nsec;
}

static double timed(Engine engine, const Job *job, Run *run)
{
    memset(run->answers, 0xa5, LONGEST);
    double used = processor_time(), start = now();
    run->outcome = engine(job->bytes, job->len, run->answers, LONGEST);
    double took = now() - start;
    used = processor_time() - used;
    return used > 0.1 ? used : took;
}

/* Runs in the child. */
static void repeat(int program, const Job *job, const Job *bare)
{
    Run *run = runs[program];
    double best = 1e30, without = 1e30, spent = 0;
    for (int i = 0; i < MOST_RUNS && spent < most_spent; i++) {
        double less = timed(engines[program], bare, run), with = timed(engines[program], job, run);
        without = less < without ? less : without;
        best = with < best ? with : best;
        spent += with;
    }
    run->time = best > without ? best - without : 0;
    run->ended = true;
}

/* Its end by SIGPROF, when so much time of the processor is spent. */
static void set_limit(double seconds)
{
    struct itimerval timer = {.it_value = {(time_t)seconds, (suseconds_t)(1e6 * (seconds - (double)(time_t)seconds))}};
    setitimer(ITIMER_PROF, &timer, NULL);
}

/* True where the child has ended by itself. */
static bool finish(pid_t child)
{
    int status = 0;
    if (child < 0 || waitpid(child, &status, 0) < 0) {
        perror("part");
        exit(2);
    }
    return WIFEXITED(status);
}

static void measure(int program, const Job *job, const Job *bare)
{
    runs[program]->ended = false;
    fflush(NULL);
    pid_t child = fork();
    if (child == 0) {
        set_limit(limit);
        repeat(program, job, bare);
        _exit(0);
    }
    finish(child);
}

/* ---- questions ---- */

/* The commands before the first query, and E; the same with L. */
static void put_bare(Job *job, const Job *of)
{
    job->len = 0;
    put(job, of->bytes, head_of(of->bytes, of->len));
    put_end(job);
}

static void put_question(Job *job, const Job *of, uint64_t start, unsigned count)
{
    job->len = 0;
    put(job, of->bytes, head_of(of->bytes, of->len));
    job->len += cover_put_list(job->bytes + job->len, start, count);
    put_end(job);
}

/* The page is the first answer but that of a P, and E's is the last byte. */
static const uint8_t *page_in(const uint8_t *answers)
{
    return answers + (answers[0] == COVER_PRIMES_ANSWER ? cover_answer_bytes(answers) : 0);
}

static bool stands_from(const Job *of, uint64_t start)
{
    static Job job;
    static uint8_t answers[LONGEST];
    put_question(&job, of, start, 0);
    uint64_t outcome = baseline_part_job(job.bytes, job.len, answers, LONGEST);
    return cover_number(outcome) == COVER_ACCEPTED && cover_page_more(page_in(answers));
}

/* Leaves the greatest set that fits, where there is one; false where that is late. It asks 64 times, so that it has
   more time. */
static bool find_greatest(const Job *of)
{
    *greatest = 0;
    fflush(NULL);
    pid_t child = fork();
    if (child == 0) {
        set_limit(16 * limit);
        for (int i = 63; i >= 0; i--)
            if (stands_from(of, *greatest + ((uint64_t)1 << i)))
                *greatest += (uint64_t)1 << i;
        _exit(0);
    }
    return finish(child);
}

/* ---- what is shown ---- */

typedef struct {
    double value;
    const char *job;
} Worst;

static void raise_to(Worst *w, double value, const char *job)
{
    if (w->job == NULL || value > w->value)
        *w = (Worst){value, job};
}

static Worst slowest[QUESTIONS][PROGRAMS], worst_ratio[QUESTIONS];
static int asked[QUESTIONS], within_10[QUESTIONS][PROGRAMS], within_100[QUESTIONS][PROGRAMS];
static const char *slow[QUESTIONS][PROGRAMS][MOST_SLOW]; /* above 1 s, or late */
static int slow_count[QUESTIONS][PROGRAMS], late_count[QUESTIONS][PROGRAMS];
static int jobs = 0, differing = 0, unknown = 0;

static const char *shown(double t)
{
    static char text[4][32];
    static int next;
    char *s = text[next++ % 4];
    if (t < 1e-3)
        snprintf(s, sizeof text[0], "%.1f us", t * 1e6);
    else if (t < 1)
        snprintf(s, sizeof text[0], "%.2f ms", t * 1e3);
    else
        snprintf(s, sizeof text[0], "%.2f s", t);
    return s;
}

static void count_run(Question q, int program, const char *name)
{
    const Run *run = runs[program];
    late_count[q][program] += !run->ended;
    if ((!run->ended || run->time > 1) && slow_count[q][program] < MOST_SLOW)
        slow[q][program][slow_count[q][program]++] = name;
    if (!run->ended)
        return;
    within_10[q][program] += run->time < 0.01;
    within_100[q][program] += run->time < 0.1;
    raise_to(&slowest[q][program], run->time, name);
}

/* The sets of the page, with a + where more stand above; its refusal in brackets; - where none ended. */
static const char *sets_of(void)
{
    static char text[32];
    const Run *run = runs[0]->ended ? runs[0] : runs[1];
    if (!run->ended)
        return "-";
    if (cover_number(run->outcome) != COVER_ACCEPTED) {
        snprintf(text, sizeof text, "(%d)", (int)cover_number(run->outcome));
        return text;
    }
    const uint8_t *page = page_in(run->answers);
    snprintf(text, sizeof text, "%zu%s", cover_page_sets(page), cover_page_more(page) ? "+" : "");
    return text;
}

static void print_line(Question q, const char *name, bool differ)
{
    char ratio[32] = "-";
    bool both = runs[0]->ended && runs[1]->ended;
    double lesser = runs[0]->time < runs[1]->time ? runs[0]->time : runs[1]->time;
    if (both && lesser > 0)
        snprintf(ratio, sizeof ratio, "%.2f", runs[0]->time / runs[1]->time);
    if (both && lesser > least_time)
        raise_to(&worst_ratio[q], runs[0]->time / runs[1]->time, name);
    printf("%8s  %-10s  %-10s  %6s  %-8s  %s%s\n", ratio, runs[0]->ended ? shown(runs[0]->time) : "LATE",
           runs[1]->ended ? shown(runs[1]->time) : "LATE", sets_of(), question_names[q], name,
           differ ? ": the answers DIFFER" : "");
}

/* ---- the run ---- */

/* Both measure it; returns whether the answers differ. */
static bool measure_both(const Job *job, const Job *bare)
{
    for (int p = 0; p < PROGRAMS; p++)
        measure(p, job, bare);
    bool both = runs[0]->ended && runs[1]->ended;
    bool differ = both && (runs[0]->outcome != runs[1]->outcome ||
                           memcmp(runs[0]->answers, runs[1]->answers, LONGEST) != 0);
    differing += differ;
    return differ;
}

static void count_question(Question q, const char *name, bool differ)
{
    asked[q]++;
    for (int p = 0; p < PROGRAMS; p++)
        count_run(q, p, name);
    print_line(q, name, differ);
}

static bool refused_by_limits(void)
{
    const Run *run = runs[0]->ended ? runs[0] : runs[1];
    return run->ended && cover_number(run->outcome) == COVER_NONE_FITS;
}

/* With as many bits as the greatest set has, every other one with fewer. */
static uint64_t drawn_start(uint64_t *state, int i)
{
    unsigned bits = *greatest == 0 ? 1 : 64 - (unsigned)__builtin_clzll(*greatest);
    return drawn(state) >> (64 - bits) >> (i % 2 ? drawn_below(state, bits) : 0);
}

/* The time of the slower program; one that is late is slower than any. */
static double slower_time(void)
{
    double most = 0;
    for (int p = 0; p < PROGRAMS; p++) {
        double took = runs[p]->ended ? runs[p]->time : 1e30;
        most = took > most ? took : most;
    }
    return most;
}

static void ask_starts(const Job *of, const Job *bare, const char *name)
{
    static Job job;
    static Run kept[PROGRAMS];
    uint64_t state = 88172645463325252u;
    double worst = -1;
    bool differ = false;
    for (int i = 0; i < starts; i++) {
        put_question(&job, of, drawn_start(&state, i), 0);
        differ |= measure_both(&job, bare);
        if (slower_time() <= worst)
            continue;
        worst = slower_time();
        for (int p = 0; p < PROGRAMS; p++)
            kept[p] = *runs[p];
    }
    for (int p = 0; p < PROGRAMS; p++)
        *runs[p] = kept[p];
    if (starts > 0)
        count_question(START, name, differ);
}

static void ask_no_more(const Job *of, const Job *bare, const char *name)
{
    static Job job;
    if (!find_greatest(of)) {
        unknown++;
        printf("%8s  %-10s  %-10s  %6s  %-8s  %s: its greatest set is not known\n", "-", "-", "-", "-",
               question_names[NO_MORE], name);
        return;
    }
    if (*greatest == UINT64_MAX)
        return;
    put_question(&job, of, *greatest + 1, 0);
    bool differ = measure_both(&job, bare);
    count_question(NO_MORE, name, differ);
}

static void ask(const Job *of, const char *name)
{
    static Job job, bare;
    put_bare(&bare, of);
    put_question(&job, of, 0, COVER_MOST_SETS);
    bool differ = measure_both(&job, &bare), none = refused_by_limits();
    count_question(none ? REFUSAL : PAGE, name, differ);
    if (none)
        return;
    ask_no_more(of, &bare, name);
    ask_starts(of, &bare, name);
}

static void print_question(Question q)
{
    for (int p = 0; p < PROGRAMS && asked[q] > 0; p++) {
        const Worst *w = &slowest[q][p];
        printf("%-8s %-8s asked %d, below 10 ms %d, below 100 ms %d, above 1 s %d, late %d; slowest that ended %s (%s)\n",
               question_names[q], programs[p], asked[q], within_10[q][p], within_100[q][p],
               slow_count[q][p] - late_count[q][p], late_count[q][p], shown(w->value), w->job ? w->job : "none");
        for (int i = 0; i < slow_count[q][p]; i++)
            printf("%s%s%s", i ? ", " : "    above 1 s or late: ", slow[q][p][i], i + 1 == slow_count[q][p] ? "\n" : "");
    }
    if (worst_ratio[q].job)
        printf("    worst ratio part/plain C of those above %.0f us: %.2f (%s)\n", least_time * 1e6, worst_ratio[q].value,
               worst_ratio[q].job);
}

static void print_summary(void)
{
    printf("\n%d jobs, limit %.1f s", jobs, limit);
    if (unknown)
        printf("; of %d the greatest set is not known", unknown);
    printf("\n");
    for (Question q = PAGE; q < QUESTIONS; q++)
        print_question(q);
    printf("answers %s\n", differing ? "DIFFER" : "are the same");
}

static bool read_job(const char *path, Job *job)
{
    FILE *f = fopen(path, "rb");
    if (!f) {
        perror(path);
        return false;
    }
    job->len = fread(job->bytes, 1, LONGEST, f);
    fclose(f);
    return true;
}

/* The name of a file, without its folder and its end. */
static char *name_of(const char *path)
{
    const char *slash = strrchr(path, '/');
    char *name = strdup(slash ? slash + 1 : path), *dot = name ? strrchr(name, '.') : NULL;
    if (dot)
        *dot = 0;
    return name;
}

static void *lent(size_t len)
{
    void *p = mmap(NULL, len, PROT_READ | PROT_WRITE, MAP_SHARED | MAP_ANONYMOUS, -1, 0);
    if (p == MAP_FAILED) {
        perror("part");
        exit(2);
    }
    return p;
}

static bool can_start(int argc, char **argv)
{
    int option;
    while ((option = getopt(argc, argv, "t:s:")) != -1)
        switch (option) {
        case 't': limit = atof(optarg); break;
        case 's': starts = atoi(optarg); break;
        default: return false;
        }
    for (int p = 0; p < PROGRAMS; p++)
        runs[p] = lent(sizeof(Run));
    greatest = lent(sizeof *greatest);
    return optind < argc && limit > 0 && starts >= 0;
}

int main(int argc, char **argv)
{
    static Job job;
    if (!can_start(argc, argv)) {
        fprintf(stderr, "usage: part [-t SECONDS] [-s STARTS] JOB...\n");
        return 2;
    }
    printf("%8s  %-10s  %-10s  %6s  %-8s  %s\n", "ratio", programs[0], programs[1], "sets", "question", "job");
    for (; optind < argc; optind++) {
        if (!read_job(argv[optind], &job))
            return 2;
        ask(&job, name_of(argv[optind]));
        jobs++;
    }
    print_summary();
    return differing ? 1 : 0;
}
