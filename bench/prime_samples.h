/* The jobs of primes.c: drawn tables of 8 inputs and 8 outputs, some of each kind, and stored jobs up to their P. */
#ifndef PRIME_SAMPLES_H
#define PRIME_SAMPLES_H

#include <stdio.h>
#include <string.h>

#include "covers.h"
#include "job.h"
#include "prime_table.h"

enum { PROGRAMS = 2, EACH = 8, MOST_TABLES = 1024 };
enum { BARE, WITH, JOBS }; /* without P, with P */

/* Tables of one kind, of 2,048 cells: so many are off, and of 16 others `free` are don't-cares; or a union of cubes. */
typedef struct {
    const char *what;
    unsigned off, free, cubes;
    int count;
} Kind;

static const Kind kinds[] = {
    {"all wanted", 0, 0, 0, 1},
    {"all wanted but 1 cell", 1, 0, 0, EACH},
    {"all wanted but 4 cells", 4, 0, 0, EACH},
    {"all wanted but 16 cells", 16, 0, 0, EACH},
    {"all wanted but 64 cells", 64, 0, 0, EACH},
    {"15/16 wanted", 128, 0, 0, EACH},
    {"14/16 wanted", 256, 0, 0, EACH},
    {"12/16 wanted", 512, 0, 0, EACH},
    {"6/16 wanted, 6/16 free", 512, 8, 0, EACH},
    {"8/16 wanted", 1024, 0, 0, EACH},
    {"4/16 wanted", 1536, 0, 0, EACH},
    {"1/16 wanted", 1920, 0, 0, EACH},
    {"nothing wanted", 2048, 0, 0, 1},
    {"union of 2 cubes", 0, 0, 2, EACH},
    {"union of 4 cubes", 0, 0, 4, EACH},
    {"union of 8 cubes", 0, 0, 8, EACH},
    {"union of 16 cubes", 0, 0, 16, EACH},
};

/* One table. Primes are 65 where there are more than 64. */
typedef struct {
    Job job[JOBS];
    double cost[PROGRAMS][JOBS];
    unsigned primes;
    bool left_out;
} Sample;

/* What is shown in one line: the tables of a kind, or a stored job. */
typedef struct {
    char name[64];
    Sample *first;
    int count;
} Line;

static Sample samples[MOST_TABLES];
static Line lines[MOST_TABLES];
static int sample_count = 0, line_count = 0;

static Line *add_line(const char *name, int len)
{
    Line *line = &lines[line_count++];
    snprintf(line->name, sizeof line->name, "%.*s", len, name);
    line->first = &samples[sample_count];
    return line;
}

/* Both jobs, from the bytes before P. */
static void add_sample(Line *line, const uint8_t *bytes, size_t len)
{
    Sample *s = &samples[sample_count++];
    for (int j = 0; j < JOBS; j++) {
        put(&s->job[j], bytes, len);
        if (j == WITH)
            put_primes(&s->job[j]);
        put_end(&s->job[j]);
    }
    line->count++;
}

static void draw_kind(const Kind *kind)
{
    static PrimeTable t;
    static Job job;
    Line *line = add_line(kind->what, (int)strlen(kind->what));
    for (int i = 0; i < kind->count; i++) {
        start_table(&t, 8, 8, (uint64_t)sample_count + 1);
        if (kind->cubes)
            draw_union(&t, kind->cubes, 0);
        else
            draw_but(&t, kind->off, kind->free);
        put_table(&job, &t);
        add_sample(line, job.bytes, job.len);
    }
}

/* Where the first P stands before the queries, or the job's length. */
static size_t primes_at(const Job *job)
{
    size_t at = 0, head = head_of(job->bytes, job->len);
    while (at < head && job->bytes[at] != COVER_PRIMES)
        at = behind(job->bytes, job->len, at);
    return at < head ? at : job->len;
}

static bool add_stored(const char *path)
{
    static Job job;
    const char *name = strrchr(path, '/') ? strrchr(path, '/') + 1 : path;
    FILE *f = fopen(path, "rb");
    if (!f) {
        perror(path);
        return false;
    }
    job.len = fread(job.bytes, 1, LONGEST, f);
    fclose(f);
    size_t at = primes_at(&job);
    if (at < job.len && at > COVER_SIZES_BYTES && sample_count < MOST_TABLES)
        add_sample(add_line(name, (int)strcspn(name, ".")), job.bytes, at);
    return true;
}

static bool make_all(char **paths)
{
    for (size_t k = 0; k < sizeof kinds / sizeof *kinds; k++)
        draw_kind(&kinds[k]);
    for (; *paths; paths++)
        if (!add_stored(*paths))
            return false;
    return true;
}

static unsigned inputs_of(const Sample *s) { return s->job[BARE].bytes[1]; }
static unsigned outputs_of(const Sample *s) { return s->job[BARE].bytes[2]; }

/* Whether three quarters or more of the cells are wanted or free, of 8 inputs and 8 outputs. */
static bool is_dense(const Sample *s)
{
    const Job *job = &s->job[BARE];
    int cells = 0;
    for (size_t at = 0; at < job->len; at = behind(job->bytes, job->len, at)) {
        const uint8_t *x = job->bytes + at;
        size_t rows = x[0] == COVER_ROW ? 1 : x[0] == COVER_ROWS ? 8 : 0;
        for (size_t i = 0; i < rows; i++)
            cells += __builtin_popcount(x[2 + 2 * i] | x[3 + 2 * i]);
    }
    return inputs_of(s) == 8 && outputs_of(s) == 8 && 4 * cells >= 3 * 2048;
}

#endif
