/*
 * Times the proved engine (cover_job) against another one with the same contract (other.h: the plain C engine, or
 * a former library), and compares the answers.
 *
 *   bench [-t SECONDS] [-r ROUNDS] [-m] [-c FILE] FOLDER
 *   bench -a [-t SECONDS] FOLDER
 *
 * For every *.job of the folder: the whole job, the commands before its first query, then each of its L, V, C and N
 * commands. A command is timed by a job of its own, the commands before it that are no queries, the one query and E,
 * less the time of that job without the query; so it counts the making of the covering matrix, and has no ratio where
 * it is less than 5 % of that job. Each time is the best of many runs, in ROUNDS rounds that alternate between the
 * engines. Every measurement is a child process that is ended after SECONDS; what did not end is shown as "-".
 * The search nodes of a page, of V and of C are counted in the plain C engine, which searches as the proved one.
 *
 * Then the stack that a call of cover_job uses, over all jobs, also with V in the place of their queries, and the
 * times of jobs of 32,768 bytes that ask L all along, or A, L and D in turn (long_job.h). -m prints the jobs as a
 * markdown table, -c writes the times to a file as CSV. The last line sums up. -a runs every job once in both
 * engines, compares the answers and measures nothing; so it does for the jobs at other prices, by W, with N in the
 * place of their queries, with V in that place, at four kinds of ranges by G (range_modes.h), and with F in the
 * place of their T, which must leave the same bytes; and for drawn ones with W (priced_job.h), with P (prime_job.h),
 * with N (product_job.h), with F (ready_job.h) and with G and V (ranged_job.h).
 *
 * A job with a command that the other engine does not know (the plain C engine: one that is not of paper 01, K2, K3,
 * K6, K8, K10 or K11) is newer than that engine, and is left out.
 *
 * The exit status is 1 where answers differ or the stack use reaches 256 KiB (with -a also where a job did not end), 2
 * where nothing was run.
 */
#define _GNU_SOURCE
#include <dirent.h>
#include <pthread.h>
#include <stdbool.h>
#include <stdint.h>
#include <stdio.h>
#include <stdlib.h>
#include <string.h>
#include <sys/mman.h>
#include <sys/wait.h>
#include <time.h>
#include <unistd.h>

#include "covers.h"
#include "job.h"
#include "long_job.h"
#include "other.h"
#include "price_list.h"
#include "priced_job.h"
#include "prime_job.h"
#include "product_job.h"
#include "range_modes.h"
#include "ranged_job.h"
#include "ready_job.h"

enum { MOST_JOBS = 4096, MOST_QUERIES = 64 };
enum { DRAWN = 400 }; /* drawn jobs with W that are compared */
enum { STACK = 4 << 20, STACK_LIMIT = 256 << 10, PAINT = 0xa5 };

typedef uint64_t (*Engine)(const uint8_t *, size_t, uint8_t *, size_t);
static const Engine engines[2] = {cover_job, other_job};

/* What a child leaves: the best time of its runs, that of the job without the query, what the call gave, its nodes. */
typedef struct {
    double best, bare;
    uint64_t outcome, nodes;
    uint8_t answers[LONGEST];
    bool ended;
} Run;

/* A measured job: both engines; the best over all rounds, less the best of the job without the query. */
typedef struct {
    double time[2];
    uint64_t nodes; /* of the plain C engine, where it ended */
    bool ended[2];
    bool newer;  /* the other engine does not know a command of it */
    bool differ; /* both ended, with other bytes or another outcome */
    bool faint;  /* a difference of times that is too small for a ratio */
} Pair;

static int limit = 20, rounds = 3;
static int most_runs = 1000; /* of a job, in each round */
static bool markdown = false, answers_only = false;
static FILE *csv = NULL;
static Run *shared[2];
static uint8_t *stack;

/* ---- jobs ---- */

static void read_job(const char *folder, const char *name, Job *job)
{
    char path[4096];
    snprintf(path, sizeof path, "%s/%s.job", folder, name);
    FILE *f = fopen(path, "rb");
    if (!f) {
        perror(path);
        exit(2);
    }
    job->len = fread(job->bytes, 1, LONGEST, f);
    fclose(f);
}

static bool starts_with(const char *s, const char *head) { return strncmp(s, head, strlen(head)) == 0; }

/* Whether a job's table is a natural one, not made to be hard. */
static bool natural(const char *name)
{
    static const char *const made[] = {"adv",    "cheaphard", "listhard", "cyc64",    "dup",  "edges",
                                       "ring64", "sub64",     "dupcyc",   "products", "ready", "ranges"};
    for (size_t i = 0; i < sizeof made / sizeof *made; i++)
        if (starts_with(name, made[i]))
            return false;
    return true;
}

/* ---- time ---- */

static double timed(Engine engine, const Job *job, Run *run)
{
    memset(run->answers, PAINT, LONGEST);
    clear_nodes();
    double start = now();
    run->outcome = engine(job->bytes, job->len, run->answers, LONGEST);
    return now() - start;
}

static double lesser(double a, double b) { return a < b ? a : b; }

/* Runs in the child: calls the engine until 0.1 s is spent or it has most_runs, and once at least. Where there is a
   bare job, it is run in turn with the other. */
static void repeat(Engine engine, const Job *job, const Job *bare, Run *run)
{
    double spent = 0;
    for (int i = 0; i < most_runs && spent < 0.1; i++) {
        if (bare)
            run->bare = lesser(run->bare, timed(engine, bare, run));
        double took = timed(engine, job, run);
        run->best = lesser(run->best, took);
        spent += took;
    }
    run->nodes = counted_nodes();
    run->ended = true;
}

/* Starts a child that measures. */
static pid_t start(int which, const Job *job, const Job *bare)
{
    Run *run = shared[which];
    run->ended = false;
    run->best = run->bare = 1e30;
    fflush(NULL);
    pid_t child = fork();
    if (child == 0) {
        alarm((unsigned)limit);
        repeat(engines[which], job, bare, run);
        _exit(0);
    }
    return child;
}

static void finish(pid_t child)
{
    if (child < 0 || waitpid(child, NULL, 0) < 0) {
        perror("bench");
        exit(2);
    }
}

static bool both_ended(const Pair *p) { return p->ended[0] && p->ended[1]; }

/* What the two children say of a job. */
static void judge(Pair *p, const Job *job)
{
    for (int e = 0; e < 2; e++)
        p->ended[e] = shared[e]->ended;
    p->nodes = shared[1]->nodes;
    if (!both_ended(p))
        return;
    uint64_t outcome = shared[0]->outcome, other = shared[1]->outcome;
    p->newer = is_newer(job->bytes, outcome, other);
    p->ended[1] = !p->newer;
    p->differ |= !p->newer && (outcome != other || memcmp(shared[0]->answers, shared[1]->answers, LONGEST) != 0);
}

/* One round: takes the better times, of the job without the query too. */
static void round_of(Pair *p, double least[2], const Job *job, const Job *bare)
{
    for (int e = 0; e < 2; e++) {
        finish(start(e, job, bare));
        if (shared[e]->ended) {
            p->time[e] = lesser(p->time[e], shared[e]->best);
            least[e] = lesser(least[e], shared[e]->bare);
        }
    }
    judge(p, job);
}

static Pair compare(const Job *job, const Job *bare)
{
    Pair p = {.time = {1e30, 1e30}, .ended = {true, true}};
    double least[2] = {1e30, 1e30};
    for (int r = 0; r < rounds && both_ended(&p) && (r == 0 || p.time[0] + p.time[1] < 4); r++)
        round_of(&p, least, job, bare);
    for (int e = 0; e < 2 && bare; e++) {
        p.faint |= p.time[e] < 1.05 * least[e];
        p.time[e] = p.time[e] > least[e] ? p.time[e] - least[e] : 0;
    }
    return p;
}

static const char *shown(double t, bool ended)
{
    static char text[8][32];
    static int next;
    char *s = text[next++ % 8];
    if (!ended)
        return "-";
    if (t < 1e-3)
        snprintf(s, sizeof text[0], "%.1f us", t * 1e6);
    else if (t < 1)
        snprintf(s, sizeof text[0], "%.2f ms", t * 1e3);
    else
        snprintf(s, sizeof text[0], "%.2f s", t);
    return s;
}

static const char *ratio(const Pair *p)
{
    static char text[8][32];
    static int next;
    char *s = text[next++ % 8];
    if (!both_ended(p) || p->faint)
        return "-";
    snprintf(s, sizeof text[0], "%.2f", p->time[0] / p->time[1]);
    return s;
}

static const char *nodes(const Pair *p)
{
    static char text[8][32];
    static int next;
    char *s = text[next++ % 8];
    if (!p->ended[1] || p->nodes == 0)
        return "-";
    snprintf(s, sizeof text[0], "%llu", (unsigned long long)p->nodes);
    return s;
}

static const char *agreement(const Pair *p)
{
    return p->differ ? "DIFFER" : p->newer ? "newer" : both_ended(p) ? "same" : "-";
}

/* ---- stack ---- */

static Job *stack_job;
static size_t *stack_top; /* lent to the child: where the caller stands on the stack */

static void *on_painted(void *nothing)
{
    static uint8_t answers[LONGEST];
    uint8_t here;
    *stack_top = (size_t)(&here - stack);
    cover_job(stack_job->bytes, stack_job->len, answers, LONGEST);
    return nothing;
}

/* How many bytes below its caller a call of cover_job writes to the stack; ended tells whether it came back. */
static size_t stack_use(Job *job, bool *ended)
{
    int status;
    size_t deepest = 0;
    memset(stack, PAINT, STACK);
    stack_job = job;
    fflush(NULL);
    pid_t child = fork();
    if (child == 0) {
        pthread_attr_t attr;
        pthread_t thread;
        alarm((unsigned)limit);
        if (pthread_attr_init(&attr) || pthread_attr_setstack(&attr, stack, STACK) ||
            pthread_create(&thread, &attr, on_painted, NULL) || pthread_join(thread, NULL))
            _exit(2);
        _exit(0);
    }
    if (child < 0 || waitpid(child, &status, 0) < 0 || (WIFEXITED(status) && WEXITSTATUS(status) == 2)) {
        perror("bench");
        exit(2);
    }
    *ended = WIFEXITED(status);
    while (deepest < STACK && stack[deepest] == PAINT)
        deepest++;
    return *stack_top - deepest;
}

/* ---- the run ---- */

static int by_name(const void *a, const void *b) { return strcmp(*(char *const *)a, *(char *const *)b); }

static int by_number(const void *a, const void *b)
{
    double x = *(const double *)a, y = *(const double *)b;
    return (x > y) - (x < y);
}

static void *lent(size_t len)
{
    void *p = mmap(NULL, len, PROT_READ | PROT_WRITE, MAP_SHARED | MAP_ANONYMOUS, -1, 0);
    if (p == MAP_FAILED) {
        perror("bench");
        exit(2);
    }
    return p;
}

typedef struct {
    double time;
    const char *name;
} Worst;

static void raise_to(Worst *w, double time, const char *name)
{
    if (w->name == NULL || time > w->time) {
        w->time = time;
        w->name = name;
    }
}

/* What is timed of a job. */
enum { PAGE, CHEAPEST, PRODUCTS, POSSIBLE, HEAD, PARTS };
static const char *const part_names[PARTS] = {"page", "C", "N", "V", "before the queries"};

static Worst worst[2][HEAD];      /* of the engine: page, C, N, V; of natural tables, of the others */
static int open_queries[2][HEAD]; /* how many of these did not end */
static Worst worst_parts[PARTS]; /* by the ratio */
static int newer = 0;            /* jobs that the other engine does not know */
static int asked = 0, same = 0;  /* jobs of -a, and those with the same answers */
static bool differ = false;

static char *names[MOST_JOBS];
static size_t count = 0; /* of names */
static double ratios[MOST_JOBS];
static int both = 0; /* jobs that both engines ended, and so ratios */
static int ended = 0; /* jobs that the proved engine ended */
static Worst worst_ratio = {0, NULL};
static size_t deepest = 0; /* bytes of stack, and by which job */
static const char *deepest_name = "";
static int cut = 0; /* jobs that did not end in the stack measurement */

static bool read_names(const char *folder)
{
    DIR *dir = opendir(folder);
    if (!dir) {
        perror(folder);
        return false;
    }
    for (struct dirent *d; (d = readdir(dir)) != NULL && count < MOST_JOBS;) {
        size_t len = strlen(d->d_name);
        if (len > 4 && strcmp(d->d_name + len - 4, ".job") == 0)
            names[count++] = strndup(d->d_name, len - 4);
    }
    closedir(dir);
    if (count == 0)
        fprintf(stderr, "bench: no *.job in %s\n", folder);
    qsort(names, count, sizeof *names, by_name);
    return count != 0;
}

/* Counts what was measured of a part of a job. */
static Pair counted(Pair q, int part, const char *name)
{
    int other = !natural(name);
    differ |= q.differ;
    if (both_ended(&q) && !q.faint)
        raise_to(&worst_parts[part], q.time[0] / q.time[1], name);
    if (part == HEAD)
        return q;
    if (q.ended[0])
        raise_to(&worst[other][part], q.time[0], name);
    else
        open_queries[other][part]++;
    return q;
}

/* The commands before the first query, which is at `head`. */
static Pair before_queries(const Job *job, size_t head, const char *name)
{
    static Job bare;
    bare.len = 0;
    put(&bare, job->bytes, head);
    put_end(&bare);
    return counted(compare(&bare, NULL), HEAD, name);
}

static int part_of(uint8_t query)
{
    return query == COVER_LIST       ? PAGE
           : query == COVER_CHEAPEST ? CHEAPEST
           : query == COVER_POSSIBLE ? POSSIBLE
                                     : PRODUCTS;
}

/* The query at `at`, behind the commands before it that are no queries. */
static Pair query(const Job *job, size_t at, const char *name)
{
    static Job one, bare;
    one.len = bare.len = 0;
    put_settings(&bare, job->bytes, at);
    put_end(&bare);
    put_settings(&one, job->bytes, at);
    put(&one, job->bytes + at, cover_command_bytes(job->bytes[at]));
    put_end(&one);
    return counted(compare(&one, &bare), part_of(job->bytes[at]), name);
}

static void print_header(void)
{
    if (markdown)
        printf("| ratio | job | engine | " OTHER " | longest L, engine | " OTHER " | most nodes | C command, engine | "
               OTHER " | nodes |\n|---:|:---|---:|---:|---:|---:|---:|---:|---:|---:|\n");
    else
        printf("%8s  %-10s  %-10s  %-6s  %10s  %s\n", "ratio", "engine", OTHER, "bytes", "nodes", "job");
}

static void print_line(const Pair *p)
{
    printf("%8s  %-10s  %-10s  %-6s  %10s  ", ratio(p), shown(p->time[0], p->ended[0]), shown(p->time[1], p->ended[1]),
           agreement(p), nodes(p));
}

static void print_row(const char *name, const Pair *whole, const Pair *page, const Pair *least)
{
    printf("| %s | %s%s ", ratio(whole), name, whole->differ ? " (answers differ)" : "");
    printf("| %s | %s ", shown(whole->time[0], whole->ended[0]), shown(whole->time[1], whole->ended[1]));
    printf("| %s | %s | %s ", shown(page->time[0], page->ended[0]), shown(page->time[1], page->ended[1]), nodes(page));
    printf("| %s | %s | %s |\n", shown(least->time[0], least->ended[0]), shown(least->time[1], least->ended[1]),
           nodes(least));
}

/* Two lines of CSV; no seconds where the engine did not end, no nodes where the plain C engine did not. */
static void write_csv(const char *name, const char *what, const Pair *p)
{
    static const char *const programs[2] = {"engine", OTHER};
    for (int e = 0; e < 2 && csv; e++) {
        fprintf(csv, "%s,%s,%s,", name, what, programs[e]);
        if (p->ended[e])
            fprintf(csv, "%.9f", p->time[e]);
        fprintf(csv, ",%d,%s\n", limit, p->ended[1] && p->nodes ? nodes(p) : "");
    }
}

/* Keeps the longest time of each engine and the most nodes. */
static void keep_most(Pair *most, const Pair *p)
{
    for (int e = 0; e < 2; e++) {
        most->ended[e] &= p->ended[e];
        if (p->ended[e] && p->time[e] > most->time[e])
            most->time[e] = p->time[e];
    }
    if (p->nodes > most->nodes)
        most->nodes = p->nodes;
}

/* Each L, V, C and N of the job; `most` gets the most of each. */
static void run_queries(const Job *job, size_t head, const char *name, Pair most[HEAD])
{
    int number = 0;
    for (size_t at = head, next; at < job->len && job->bytes[at] != COVER_END && number < MOST_QUERIES; at = next) {
        next = behind(job->bytes, job->len, at);
        if (!is_query(job->bytes[at]) || next - at != cover_command_bytes(job->bytes[at]))
            continue;
        Pair q = query(job, at, name);
        keep_most(&most[part_of(job->bytes[at])], &q);
        number++;
        if (!markdown) {
            print_line(&q);
            printf("  command %d: %c\n", number, job->bytes[at]);
        }
    }
}

static void run_job(Job *job, const char *name)
{
    size_t head = head_of(job->bytes, job->len);
    Pair none = {.ended = {true, true}}, most[HEAD] = {none, none, none, none}, whole = compare(job, NULL);
    differ |= whole.differ;
    newer += whole.newer;
    ended += whole.ended[0];
    if (both_ended(&whole)) {
        ratios[both] = whole.time[0] / whole.time[1];
        raise_to(&worst_ratio, ratios[both++], name);
    }
    if (!markdown) {
        print_line(&whole);
        printf("%s\n", name);
    }
    Pair first = before_queries(job, head, name);
    if (!markdown) {
        print_line(&first);
        printf("  %s\n", part_names[HEAD]);
    }
    run_queries(job, head, name, most);
    if (markdown)
        print_row(name, &whole, &most[PAGE], &most[CHEAPEST]);
    write_csv(name, "job", &whole);
    write_csv(name, part_names[HEAD], &first);
    write_csv(name, part_names[PAGE], &most[PAGE]);
    write_csv(name, part_names[CHEAPEST], &most[CHEAPEST]);
    for (int part = PRODUCTS; part <= POSSIBLE; part++) /* few jobs have an N or a V */
        if (most[part].time[0] > 0 || !both_ended(&most[part]))
            write_csv(name, part_names[part], &most[part]);
}

/* One run in both engines at the same time; only the answers are looked at. */
static void run_answers(Job *job, const char *name)
{
    Pair p = {.differ = false};
    pid_t first = start(0, job, NULL), second = start(1, job, NULL);
    finish(first);
    finish(second);
    judge(&p, job);
    asked++;
    newer += p.newer;
    same += both_ended(&p) && !p.differ;
    if (p.differ || (!p.newer && !both_ended(&p)))
        printf("%s: %s\n", name, p.differ ? "the answers differ" : "it did not end");
}

/* Both ended, with the same number and the same answers. The offsets are left, since F has more bytes than T, and G has
   some. */
static bool answer_alike(const Run *a, const Run *b)
{
    return a->ended && b->ended && cover_number(a->outcome) == cover_number(b->outcome) &&
           cover_written(a->outcome) == cover_written(b->outcome) && memcmp(a->answers, b->answers, LONGEST) == 0;
}

/* The job, and the same with F for those of its T, which must leave the same answers. */
static void run_with_blocks(Job *job, const char *name, const uint64_t *which, int count)
{
    static Job ready;
    static Run known;
    run_answers(job, name);
    known = *shared[0];
    for (int k = 0; k < count && put_as_blocks(&ready, job, which[k]); k++) {
        int before = same;
        run_answers(&ready, name);
        if (answer_alike(shared[0], &known))
            continue;
        printf("%s: F does not answer as T\n", name);
        same = before;
    }
}

static const uint64_t all_and_some[] = {UINT64_MAX, 0x5555555555555555}; /* every T, every other T */

/* Where C takes long, with F at prices of 0 alone. */
static bool is_long(const char *name) { return starts_with(name, "cheaphard"); }

static void run_stored_answers(Job *job, const char *name) { run_with_blocks(job, name, all_and_some, !is_long(name)); }

/* The same job at other prices: all costs 0, multiples of 50, of 17, any. Where C takes long, at 0 alone. */
static void run_priced_answers(Job *job, const char *name)
{
    static const Prices lists[] = {{0, 0, 0}, {0, 0, 50}, {34, 17, 0}, {37, 23, 11}};
    static Job priced;
    size_t most = is_long(name) ? 1 : sizeof lists / sizeof *lists;
    for (size_t k = 0; k < most && can_have_prices(job); k++) {
        set_prices(&priced, job, &lists[k]);
        run_with_blocks(&priced, name, all_and_some, 1);
    }
}

/* The same job with N in the place of its queries, then with its pages and N behind each of them. */
static void run_product_answers(Job *job, const char *name)
{
    static Job multiplied;
    for (int pages = 0; pages < 2; pages++) {
        put_products(&multiplied, job, pages);
        run_with_blocks(&multiplied, name, all_and_some, !pages);
    }
}

/* Where a page of V takes more than a second where both ends are the weight. */
static bool is_late(const char *name)
{
    static const char *const late[] = {"cheaphard_s1_189", "cheaphard_s1_88", "cyc64_k4_all", "listhard_s1_180",
                                       "listhard_s1_79"};
    for (size_t i = 0; i < sizeof late / sizeof *late; i++)
        if (strcmp(name, late[i]) == 0)
            return true;
    return false;
}

/* The same job with V in the place of its queries, at each kind of ranges. G with the weight at both ends changes no
   answer. */
static void run_ranged_answers(Job *job, const char *name)
{
    static Job ranged;
    static Run known;
    for (RangeMode mode = NO_RANGES; mode < RANGE_MODES; mode++) {
        int before = same;
        if (mode <= EQUAL_ENDS && is_late(name))
            continue;
        put_ranged(&ranged, job, mode, COVER_MOST_SETS);
        run_answers(&ranged, name);
        if (mode == NO_RANGES)
            known = *shared[0];
        if (mode != EQUAL_ENDS || answer_alike(shared[0], &known))
            continue;
        printf("%s: G with the weight at both ends changes the answer\n", name);
        same = before;
    }
}

static void run_drawn_answers(void)
{
    static Job job;
    for (uint64_t seed = 1; seed <= DRAWN; seed++) {
        priced_job(&job, seed);
        run_answers(&job, "a drawn job with W");
    }
    for (unsigned number = 0; number < PRIME_JOBS; number++) {
        prime_job(&job, number);
        run_answers(&job, "a drawn job with P");
    }
    for (uint64_t seed = 1; seed <= PRODUCT_JOBS; seed++) {
        product_job(&job, seed);
        run_answers(&job, "a drawn job with N");
    }
    for (uint64_t seed = 1; seed <= READY_JOBS; seed++) {
        ready_job(&job, seed);
        run_with_blocks(&job, "a drawn job with F", all_and_some, 2);
    }
    for (uint64_t seed = 1; seed <= RANGED_JOBS; seed++) {
        ranged_job(&job, seed);
        run_with_blocks(&job, "a drawn job with G and V", all_and_some, 1);
    }
}

static void run_stack(Job *job, const char *name)
{
    bool back;
    size_t use = stack_use(job, &back);
    cut += !back;
    if (use > deepest) {
        deepest = use;
        deepest_name = name;
    }
}

/* With V in the place of its queries: its stack is another one, and few stored jobs have a V. */
static void run_ranged_stack(Job *job, const char *name)
{
    static Job ranged;
    put_ranged(&ranged, job, HALF_TO_DOUBLE, COVER_MOST_SETS);
    run_stack(&ranged, name);
}

/* Jobs of 32,768 bytes of one kind: over eight drawn tables, or over the table of a stored job. */
typedef struct {
    const char *what;
    int (*make)(Job *, uint64_t seed); /* over a drawn table */
    const char *table;                 /* the stored job, where none is drawn */
    int lists;                         /* how many L each has; 0 where the folder has no such job */
    Pair slowest;
} Long;

enum { LONGS = 4 };

static Long longs[LONGS] = {
    {.what = "L with count 0", .make = long_job},
    {.what = "turns of A, L with count 0 and D", .make = long_turns},
    {.what = "turns of A, L with count 1 and D", .table = "listhard_s1_180"},
    {.what = "turns of A, L with count 1 and D", .table = "sub64_d5_7_dc0"},
};

static bool is_there(const char *name)
{
    for (size_t i = 0; i < count; i++)
        if (strcmp(names[i], name) == 0)
            return true;
    return false;
}

static void each_long_job(const char *folder, void (*run)(Job *, Long *))
{
    static Job job, of;
    for (Long *kind = longs; kind < longs + LONGS; kind++) {
        kind->slowest.ended[0] = kind->slowest.ended[1] = true;
        for (uint64_t seed = 1; kind->make && seed <= 8; seed++) {
            kind->lists = kind->make(&job, seed);
            run(&job, kind);
        }
        if (kind->table && is_there(kind->table)) {
            read_job(folder, kind->table, &of);
            kind->lists = dense_turns(&job, &of);
            run(&job, kind);
        }
    }
}

/* Its time and its stack. */
static void run_long_job(Job *job, Long *kind)
{
    Pair p = compare(job, NULL);
    differ |= p.differ;
    keep_most(&kind->slowest, &p);
    if (p.ended[0] && (job->len != LONGEST || cover_number(shared[0]->outcome) != COVER_ACCEPTED))
        printf("long job of %s: %d bytes, refusal %d\n", kind->what, (int)job->len,
               (int)cover_number(shared[0]->outcome));
    run_stack(job, "a job of 32,768 bytes");
}

static void run_long_answers(Job *job, Long *kind) { run_answers(job, kind->what); }

static double median_ratio(void)
{
    qsort(ratios, (size_t)both, sizeof *ratios, by_number);
    if (both == 0)
        return 0;
    return both % 2 ? ratios[both / 2] : (ratios[both / 2 - 1] + ratios[both / 2]) / 2;
}

/* The longest page or C of the engine, and by which job, and how many did not end. */
static void print_worst(const char *what, const Worst *w, int open)
{
    printf("%s %s (%s)", what, shown(w->time, w->name != NULL), w->name ? w->name : "none");
    if (open)
        printf(", %d did not end", open);
}

static void print_longest(int other)
{
    printf("%s tables, engine: ", other ? "other" : "natural");
    print_worst("longest page", &worst[other][PAGE], open_queries[other][PAGE]);
    print_worst("; longest C", &worst[other][CHEAPEST], open_queries[other][CHEAPEST]);
    print_worst("; longest N", &worst[other][PRODUCTS], open_queries[other][PRODUCTS]);
    print_worst("; longest V", &worst[other][POSSIBLE], open_queries[other][POSSIBLE]);
    printf("\n");
}

static void print_long(const Long *kind)
{
    const Pair *p = &kind->slowest;
    if (kind->lists == 0)
        return;
    printf("job of 32,768 bytes, %d %s, ", kind->lists, kind->what);
    printf("%s%s", kind->table ? "table of " : "the slowest of 8 tables", kind->table ? kind->table : "");
    printf(": engine %s, " OTHER " %s\n", shown(p->time[0], p->ended[0]), shown(p->time[1], p->ended[1]));
}

static void print_details(void)
{
    printf("\n");
    print_longest(0);
    print_longest(1);
    printf("stack: %d bytes at most (%s), limit %d", (int)deepest, deepest_name, STACK_LIMIT);
    if (cut)
        printf("; %d jobs cut after %d s", cut, limit);
    printf("\n");
    for (int k = 0; k < LONGS; k++)
        print_long(&longs[k]);
    printf("worst ratio engine/" OTHER ":");
    for (int part = 0; part < PARTS; part++)
        printf("%s %s %.2f (%s)", part ? "," : "", part_names[part], worst_parts[part].time,
               worst_parts[part].name ? worst_parts[part].name : "none");
    printf("\n");
}

static void print_summary(void)
{
    printf("summary: %d jobs, %d ended within %d s, answers %s; ratio engine/" OTHER " worst %.2f (%s), median %.2f; ",
           (int)count, ended, limit, differ ? "DIFFER" : "are the same", worst_ratio.time,
           worst_ratio.name ? worst_ratio.name : "none", median_ratio());
    if (newer)
        printf("%d jobs have commands that " OTHER " does not know; ", newer);
    for (int kind = 0; kind < HEAD; kind++) {
        const Worst *a = &worst[0][kind], *b = &worst[1][kind];
        bool first = b->name == NULL || (a->name != NULL && a->time > b->time);
        printf("%sslowest ", kind ? "; " : "");
        print_worst(part_names[kind], first ? a : b, open_queries[0][kind] + open_queries[1][kind]);
    }
    printf("\n");
}

static bool open_csv(const char *path)
{
    csv = fopen(path, "w");
    if (!csv) {
        perror(path);
        return false;
    }
    fprintf(csv, "job,query,program,seconds,limit,nodes\n");
    return true;
}

static bool read_options(int argc, char **argv)
{
    int option;
    while ((option = getopt(argc, argv, "t:r:mac:")) != -1)
        switch (option) {
        case 't': limit = atoi(optarg); break;
        case 'r': rounds = atoi(optarg); break;
        case 'm': markdown = true; break;
        case 'a': answers_only = true; break;
        case 'c':
            if (open_csv(optarg))
                break;
            exit(2);
        default: return false;
        }
    return optind + 1 == argc && limit > 0 && rounds > 0;
}

static void run_folder(const char *folder, void (*run)(Job *, const char *))
{
    static Job job;
    for (size_t i = 0; i < count; i++) {
        read_job(folder, names[i], &job);
        run(&job, names[i]);
    }
}

/* The last line of -a: each job that both ended with the same bytes has passed. */
static int compare_all(const char *folder)
{
    most_runs = 1;
    run_folder(folder, run_stored_answers);
    run_folder(folder, run_priced_answers);
    run_folder(folder, run_product_answers);
    run_folder(folder, run_ranged_answers);
    run_drawn_answers();
    each_long_job(folder, run_long_answers);
    int failed = asked - newer - same;
    if (newer)
        printf("%d jobs have commands that " OTHER " does not know\n", newer);
    printf("%d passed, %d failed\n", same, failed);
    return failed != 0 || same == 0 ? 1 : 0;
}

static void measure_all(const char *folder)
{
    stack = lent(STACK);
    stack_top = lent(sizeof *stack_top);
    print_header();
    run_folder(folder, run_job);
    run_folder(folder, run_stack);
    run_folder(folder, run_ranged_stack);
    each_long_job(folder, run_long_job);
    print_details();
    print_summary();
    if (csv && fclose(csv) != 0)
        perror("bench");
}

int main(int argc, char **argv)
{
    if (!read_options(argc, argv)) {
        fprintf(stderr, "usage: bench [-t SECONDS] [-r ROUNDS] [-m] [-a] [-c FILE] FOLDER\n");
        return 2;
    }
    const char *folder = argv[optind];
    if (!read_names(folder))
        return 2;
    for (int e = 0; e < 2; e++)
        shared[e] = lent(sizeof(Run));
    if (answers_only)
        return compare_all(folder);
    measure_all(folder);
    return differ || deepest >= STACK_LIMIT ? 1 : 0;
}
