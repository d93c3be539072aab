/*
 * Pages of 255 sets from drawn starts: how long the slowest takes.
 *
 *   starts COUNT JOB...
 *
 * For each job COUNT starts are drawn, of all sizes; the page from a start, and the page behind it, are asked for in
 * a job of their own, of the candidates at the job's first query. A time is that of one run, the making of the
 * covering matrix in it.
 */
#define _GNU_SOURCE
#include <inttypes.h>
#include <stdbool.h>
#include <stdio.h>
#include <stdlib.h>
#include <string.h>
#include <time.h>

#include "covers.h"
#include "job.h"

static uint8_t job[LONGEST], answers[LONGEST];

typedef struct {
    size_t count; /* of sets in the page */
    uint64_t last;
    double time;
} Page;

/* A number of any size, or one with many high bits; from the same seed in each run. */
static uint64_t start_drawn(unsigned turn)
{
    static uint64_t state = 88172645463325252u;
    uint64_t x = drawn(&state), low = x >> drawn(&state) % 64;
    return turn % 3 == 0 ? x : turn % 3 == 1 ? low : ~low;
}

/* The page from start, asked for behind the commands before the first query; its answer follows theirs. */
static Page page(size_t head, uint64_t start)
{
    size_t len = head + cover_put_list(job + head, start, COVER_MOST_SETS);
    size_t before = cover_written(cover_job(job, head, answers, LONGEST));
    double begin = now();
    size_t written = cover_written(cover_job(job, len, answers, LONGEST));
    Page p = {.time = now() - begin};
    if (written > before)
        p.count = cover_page_sets(answers + before);
    if (p.count > 0)
        p.last = cover_page_set(answers + before, p.count - 1);
    return p;
}

static void measure(const char *name, size_t head, unsigned count)
{
    double worst = 0, sum = 0;
    uint64_t at = 0;
    unsigned pages = 0;
    for (unsigned turn = 0; turn < count; turn++) {
        uint64_t start = start_drawn(turn);
        for (int k = 0; k < 2; k++) {
            Page p = page(head, start);
            sum += p.time;
            pages++;
            if (p.time > worst) {
                worst = p.time;
                at = start;
            }
            if (p.count == 0 || p.last == UINT64_MAX)
                break;
            start = p.last + 1;
        }
    }
    printf("%10.3f ms  mean %8.3f ms  %4u pages  slowest from %016" PRIx64 "  %s\n", 1e3 * worst, 1e3 * sum / pages, pages, at, name);
}

int main(int argc, char **argv)
{
    for (int a = 2; a < argc; a++) {
        FILE *f = fopen(argv[a], "rb");
        if (!f)
            return 2;
        size_t len = fread(job, 1, LONGEST - 32, f);
        fclose(f);
        const char *name = strrchr(argv[a], '/');
        measure(name ? name + 1 : argv[a], head_of(job, len), (unsigned)atoi(argv[1]));
        fflush(stdout);
    }
    return argc < 3 ? 2 : 0;
}
