/*
 * What N takes, in the engine and in the one that it is compared with, and what the pages take that give the same list.
 *
 *   products [-t SECONDS] [-r ROUNDS] JOB...
 *
 * For each job, with the candidates that stand at its end and without its own queries: one N; and pages of 255 sets
 * from 0 on, in the engine, until no more is reported or 1,024 sets have come, all in one job. A time is the best of
 * many runs, in ROUNDS rounds (3) that alternate, less the best of the job with no query. So the pages have the making
 * of the covering matrix in them. Every measurement is a child process that is ended after SECONDS (20); what did not
 * end is shown as "-".
 *
 * Where N is answered its sets must be those of the pages joined, and the last page must say no more; and both engines
 * must leave the same bytes. The exit status is 1 where that is not so, and 2 where nothing was measured.
 */
#define _GNU_SOURCE
#include <stdio.h>
#include <stdlib.h>
#include <string.h>
#include <sys/mman.h>
#include <sys/wait.h>
#include <unistd.h>

#include "covers.h"
#include "job.h"
#include "other.h"

enum { MOST_JOINED = COVER_MOST_PRODUCTS + COVER_MOST_SETS, MOST_RUNS = 1000, PAINT = 0xa5 };
enum { PRODUCTS, OTHER_PRODUCTS, PAGES, MEASURED };

typedef uint64_t (*Engine)(const uint8_t *, size_t, uint8_t *, size_t);
static const Engine engines[MEASURED] = {cover_job, other_job, cover_job};

/* What a child leaves: the best time of its runs, that of the job with no query, what the call gave. */
typedef struct {
    double best, bare;
    uint64_t outcome;
    uint8_t answers[LONGEST];
    bool ended;
} Run;

/* The sets of an N, or of all pages. */
typedef struct {
    uint64_t sets[MOST_JOINED];
    size_t count;
    bool more;
} Joined;

/* One stored job. */
typedef struct {
    char name[64];
    Job bare;                         /* without its queries */
    size_t cells, candidates, before; /* wanted; standing at the end; bytes of answers before those of a query */
    double time[MEASURED];
    bool ended[MEASURED];
    bool newer;                /* the other engine does not know a command of it */
    enum cover_refusal number; /* of N */
    Joined products, pages;
} Sample;

static int limit = 20, rounds = 3;
static Run *shared[MEASURED];
static int differences = 0, open_runs = 0;

/* ---- jobs ---- */

static bool read_job(const char *path, Sample *s)
{
    static Job job;
    const char *name = strrchr(path, '/') ? strrchr(path, '/') + 1 : path;
    FILE *f = fopen(path, "rb");
    if (!f) {
        perror(path);
        return false;
    }
    memset(s, 0, sizeof *s);
    snprintf(s->name, sizeof s->name, "%.*s", (int)strcspn(name, "."), name);
    job.len = fread(job.bytes, 1, LONGEST, f);
    fclose(f);
    size_t end = 0;
    while (end < job.len && job.bytes[end] != COVER_END)
        end = behind(job.bytes, job.len, end);
    put_settings(&s->bare, job.bytes, end);
    return s->bare.len + MOST_JOINED / COVER_MOST_SETS * COVER_LIST_BYTES < LONGEST;
}

/* The wanted cells of the rows at x. */
static size_t wanted_in(const uint8_t *x)
{
    size_t rows = x[0] == COVER_ROW ? 1 : x[0] == COVER_ROWS ? 8 : 0, cells = 0;
    for (size_t i = 0; i < rows; i++)
        cells += (size_t)__builtin_popcount(x[2 + 2 * i]);
    return cells;
}

/* By the commands; the primes by what P answers, which is the one answer there. */
static bool count_cells(Sample *s)
{
    static uint8_t answers[LONGEST];
    const Job *job = &s->bare;
    uint64_t outcome = cover_job(job->bytes, job->len, answers, LONGEST);
    s->before = cover_written(outcome);
    s->candidates = s->before > 0 ? cover_primes_count(answers) : 0;
    for (size_t at = 0; at < job->len; at = behind(job->bytes, job->len, at)) {
        uint8_t command = job->bytes[at];
        s->cells += wanted_in(job->bytes + at);
        s->candidates += command == COVER_TERM || command == COVER_BLOCK || command == COVER_ADD;
        s->candidates -= command == COVER_REMOVE;
    }
    return cover_number(outcome) == COVER_NO_END;
}

static void put_bare(Job *job, const Sample *s)
{
    job->len = 0;
    put(job, s->bare.bytes, s->bare.len);
}

static void put_page(Job *job, uint64_t start)
{
    job->len += cover_put_list(job->bytes + job->len, start, COVER_MOST_SETS);
}

/* In the child, since a page may take long: each page starts behind the one before. */
static void put_pages(Job *job, size_t before)
{
    static uint8_t answers[LONGEST];
    uint64_t start = 0;
    for (size_t at = before, sets = 0; sets < COVER_MOST_PRODUCTS;) {
        put_page(job, start);
        if (cover_written(cover_job(job->bytes, job->len, answers, LONGEST)) <= at)
            return;
        sets += cover_page_sets(answers + at);
        start = cover_page_next(answers + at, start);
        if (!cover_page_more(answers + at))
            return;
        at += cover_answer_bytes(answers + at);
    }
}

/* ---- time ---- */

static double timed(Engine engine, const Job *job, Run *run)
{
    memset(run->answers, PAINT, LONGEST);
    double start = now();
    run->outcome = engine(job->bytes, job->len, run->answers, LONGEST);
    return now() - start;
}

static double lesser(double a, double b) { return a < b ? a : b; }

/* Runs in the child, until 0.1 s is spent, and once at least. */
static void repeat(int what, const Sample *s)
{
    static Job asked, bare;
    Run *run = shared[what];
    double spent = 0;
    put_bare(&bare, s);
    put_end(&bare);
    put_bare(&asked, s);
    if (what == PAGES)
        put_pages(&asked, s->before);
    else
        asked.len += cover_put_command(asked.bytes + asked.len, COVER_MULTIPLY);
    put_end(&asked);
    for (int i = 0; i < MOST_RUNS && spent < 0.1; i++) {
        run->bare = lesser(run->bare, timed(engines[what], &bare, run));
        double took = timed(engines[what], &asked, run);
        run->best = lesser(run->best, took);
        spent += took;
    }
    run->ended = true;
}

static void in_child(int what, const Sample *s)
{
    shared[what]->ended = false;
    fflush(NULL);
    pid_t child = fork();
    if (child == 0) {
        alarm((unsigned)limit);
        repeat(what, s);
        _exit(0);
    }
    if (child < 0 || waitpid(child, NULL, 0) < 0) {
        perror("products");
        exit(2);
    }
}

/* What did not end is not tried again. */
static void measure(Sample *s)
{
    for (int what = 0; what < MEASURED; what++) {
        s->ended[what] = true;
        shared[what]->best = shared[what]->bare = 1e30;
    }
    for (int r = 0; r < rounds; r++)
        for (int what = 0; what < MEASURED; what++)
            if (s->ended[what]) {
                in_child(what, s);
                s->ended[what] = shared[what]->ended;
            }
    for (int what = 0; what < MEASURED; what++) {
        const Run *run = shared[what];
        s->time[what] = run->best > run->bare ? run->best - run->bare : 0;
        open_runs += !s->ended[what];
    }
}

/* ---- answers ---- */

static void read_products(const Sample *s, Joined *j)
{
    const uint8_t *answer = shared[PRODUCTS]->answers + s->before;
    for (size_t i = 0; i < cover_multiply_sets(answer) && j->count < MOST_JOINED; i++)
        j->sets[j->count++] = cover_multiply_set(answer, i);
}

static void read_pages(const Sample *s, Joined *j)
{
    const Run *run = shared[PAGES];
    const uint8_t *page = run->answers + s->before, *end = run->answers + cover_written(run->outcome);
    for (; page < end && page[0] == COVER_LIST_ANSWER; page += cover_answer_bytes(page)) {
        for (size_t i = 0; i < cover_page_sets(page) && j->count < MOST_JOINED; i++)
            j->sets[j->count++] = cover_page_set(page, i);
        j->more = cover_page_more(page);
    }
}

static void tell(const Sample *s, const char *what)
{
    printf("%s: %s\n", s->name, what);
    differences++;
}

static void compare_engines(Sample *s)
{
    const Run *a = shared[PRODUCTS], *b = shared[OTHER_PRODUCTS];
    if (!s->ended[PRODUCTS] || !s->ended[OTHER_PRODUCTS])
        return;
    s->newer = is_newer(s->bare.bytes, a->outcome, b->outcome);
    if (!s->newer && (a->outcome != b->outcome || memcmp(a->answers, b->answers, LONGEST) != 0))
        tell(s, "N is answered otherwise by the two engines");
}

/* 12 must come at both. Where N is refused under 17 there is nothing to compare. */
static void compare_lists(Sample *s)
{
    const Joined *a = &s->products, *b = &s->pages;
    enum cover_refusal page = cover_number(shared[PAGES]->outcome);
    if (!s->ended[PRODUCTS] || !s->ended[PAGES] || s->number == COVER_TOO_MANY_PRODUCTS)
        return;
    if (s->number != page)
        tell(s, "N and the pages give other numbers");
    else if (b->more || a->count != b->count || memcmp(a->sets, b->sets, a->count * sizeof *a->sets) != 0)
        tell(s, "N's sets are not those of the pages joined");
}

static void compare(Sample *s)
{
    s->number = cover_number(shared[PRODUCTS]->outcome);
    if (s->ended[PRODUCTS] && s->number == COVER_ACCEPTED)
        read_products(s, &s->products);
    if (s->ended[PAGES])
        read_pages(s, &s->pages);
    compare_engines(s);
    compare_lists(s);
}

/* ---- the lines ---- */

typedef struct {
    double value;
    char name[64];
} Worst;

static Worst slowest[MEASURED], worst_ratio;
static int answered = 0, refused = 0; /* N, by the engine; refused under 17 */

static void raise_to(Worst *w, double value, const char *name)
{
    if (value <= w->value)
        return;
    w->value = value;
    snprintf(w->name, sizeof w->name, "%s", name);
}

static const char *shown(double t, bool ended)
{
    static char text[8][32];
    static int next;
    char *s = text[next++ % 8];
    if (!ended)
        return "-";
    snprintf(s, sizeof text[0], t < 1e-3 ? "%.1f us" : "%.2f ms", t < 1e-3 ? t * 1e6 : t * 1e3);
    return s;
}

/* How many sets N has, or its number in brackets. */
static const char *outcome_of(const Sample *s)
{
    static char text[32];
    snprintf(text, sizeof text, s->number == COVER_ACCEPTED ? "%d" : "(%d)",
             s->number == COVER_ACCEPTED ? (int)s->products.count : (int)s->number);
    return s->ended[PRODUCTS] ? text : "-";
}

static const char *listed(const Sample *s)
{
    static char text[32];
    snprintf(text, sizeof text, "%d%s", (int)s->pages.count, s->pages.more ? "+" : "");
    return s->ended[PAGES] ? text : "-";
}

static void count(const Sample *s)
{
    bool both = s->ended[PRODUCTS] && s->ended[OTHER_PRODUCTS] && !s->newer;
    answered += s->ended[PRODUCTS] && s->number == COVER_ACCEPTED;
    refused += s->ended[PRODUCTS] && s->number == COVER_TOO_MANY_PRODUCTS;
    for (int what = 0; what < MEASURED; what++)
        if (s->ended[what] && !(what == OTHER_PRODUCTS && s->newer))
            raise_to(&slowest[what], s->time[what], s->name);
    if (both && s->time[OTHER_PRODUCTS] > 0)
        raise_to(&worst_ratio, s->time[PRODUCTS] / s->time[OTHER_PRODUCTS], s->name);
}

static void print_line(const Sample *s)
{
    printf("%-28s  %5d  %10d  %6s  ", s->name, (int)s->cells, (int)s->candidates, outcome_of(s));
    printf("%10s  %10s  ", shown(s->time[PRODUCTS], s->ended[PRODUCTS]),
           shown(s->time[OTHER_PRODUCTS], s->ended[OTHER_PRODUCTS] && !s->newer));
    printf("%6s  %10s\n", listed(s), shown(s->time[PAGES], s->ended[PAGES]));
}

static const char *name_of(const Worst *w) { return w->value > 0 ? w->name : "none"; }

static void print_summary(void)
{
    static const char *const what[MEASURED] = {"N, engine", "N, " OTHER, "pages, engine"};
    printf("\n");
    for (int k = 0; k < MEASURED; k++)
        printf("slowest %s: %s (%s)\n", what[k], shown(slowest[k].value, slowest[k].value > 0), name_of(&slowest[k]));
    printf("worst ratio engine/" OTHER ": %.2f (%s)\n", worst_ratio.value, name_of(&worst_ratio));
    printf("summary: N answered %d, refused under 17 %d; %d measurements did not end within %d s; answers %s\n",
           answered, refused, open_runs, limit, differences ? "DIFFER" : "are the same");
}

static void run_job(Sample *s)
{
    measure(s);
    compare(s);
    count(s);
    print_line(s);
}

static bool lend(void)
{
    for (int what = 0; what < MEASURED; what++) {
        shared[what] = mmap(NULL, sizeof(Run), PROT_READ | PROT_WRITE, MAP_SHARED | MAP_ANONYMOUS, -1, 0);
        if (shared[what] == MAP_FAILED)
            return false;
    }
    return true;
}

static bool read_options(int argc, char **argv)
{
    int option;
    while ((option = getopt(argc, argv, "t:r:")) != -1)
        switch (option) {
        case 't': limit = atoi(optarg); break;
        case 'r': rounds = atoi(optarg); break;
        default: return false;
        }
    return optind < argc && limit > 0 && rounds > 0;
}

int main(int argc, char **argv)
{
    static Sample s;
    if (!read_options(argc, argv) || !lend()) {
        fprintf(stderr, "usage: products [-t SECONDS] [-r ROUNDS] JOB...\n");
        return 2;
    }
    printf("%-28s  %5s  %10s  %6s  %10s  %10s  %6s  %10s\n", "job", "cells", "candidates", "sets", "N, engine",
           "N, " OTHER, "listed", "pages");
    for (int i = optind; i < argc; i++) {
        if (!read_job(argv[i], &s))
            return 2;
        if (count_cells(&s))
            run_job(&s);
        else
            printf("%-28s  refused before its end\n", s.name);
    }
    print_summary();
    return differences ? 1 : answered == 0 ? 2 : 0;
}
