/* The jobs of commands.c: for each size one with many commands of each kind, and tables of 256 rows. */
#ifndef SAMPLES_H
#define SAMPLES_H

#include "covers.h"
#include "job.h"

/* What a job has between I and E: nothing; a row for each vertex, by R; the same by B; R and a T for each candidate;
   the same by F and by A; these two with as many D of the first candidate, so that all others move; and A with a G for
   each candidate. */
enum kind { CALL, ROW, ROWS, TERM, BLOCK, ADD, REMOVE, REMOVE_BLOCK, RANGE, KINDS };

/* How a table of 256 rows is set; in turn: eight R, then a B. */
enum table { R_IN_ORDER, B_IN_ORDER, R_SHUFFLED, B_SHUFFLED, IN_TURN, TABLES };

typedef struct {
    Job job;
    unsigned count; /* of the commands of its kind */
} Sample;

typedef struct {
    uint8_t on[256], dc[256];
} Rows;

/* Of every row the lowest output is wanted, so that every vertex is a legal term. */
static void draw_rows(Rows *rows, unsigned n)
{
    unsigned all = (1u << n) - 1;
    uint64_t state = 88172645463325252u;
    for (unsigned v = 0; v <= all; v++) {
        unsigned on = (unsigned)drawn(&state) & all, dc = (unsigned)drawn(&state) & all & ~on & ~1u;
        rows->on[v] = (uint8_t)(on | 1);
        rows->dc[v] = (uint8_t)dc;
    }
}

static void put_row(Job *job, const Rows *rows, unsigned v)
{
    job->len += cover_put_row(job->bytes + job->len, v, rows->on[v], rows->dc[v]);
}

/* Those from v on. */
static void put_eight(Job *job, const Rows *rows, unsigned v)
{
    job->len += cover_put_rows(job->bytes + job->len, v, rows->on + v, rows->dc + v);
}

/* Blocks of the lowest output; each vertex is drawn, and so is the weight. */
static void put_blocks(Job *job, unsigned n, unsigned count)
{
    uint64_t state = 88172645463325252u;
    for (; count > 0; count--) {
        uint8_t vertices[COVER_VERTEX_BYTES] = {0};
        for (unsigned v = 0; v < 1u << n; v++)
            vertices[v / 8] |= (uint8_t)(drawn_below(&state, 2) << v % 8);
        job->len += cover_put_block(job->bytes + job->len, 1, vertices, drawn_below(&state, COVER_MOST_WEIGHT + 1));
    }
}

static void put_candidates(Job *job, enum kind kind, unsigned n, unsigned count)
{
    unsigned all = (1u << n) - 1;
    bool blocks = kind == BLOCK || kind == REMOVE_BLOCK;
    if (blocks)
        put_blocks(job, n, count);
    for (unsigned v = 0; !blocks && v < count; v++)
        job->len += kind == TERM ? cover_put_term(job->bytes + job->len, all, v, 1)
                                 : cover_put_add(job->bytes + job->len, all, v, 1);
    for (unsigned v = 0; (kind == REMOVE || kind == REMOVE_BLOCK) && v < count; v++)
        job->len += cover_put_remove(job->bytes + job->len, 0);
    for (unsigned v = 0; kind == RANGE && v < count; v++)
        job->len += cover_put_range(job->bytes + job->len, v, v, COVER_MOST_WEIGHT);
}

/* As many outputs as inputs; at most 64 candidates. The count of B is 0 where there are fewer than eight vertices. */
static void make_sample(Sample *s, unsigned n, enum kind kind)
{
    unsigned vertices = 1u << n, most = vertices < COVER_MOST_CANDIDATES ? vertices : COVER_MOST_CANDIDATES;
    Rows rows;
    Job *job = &s->job;
    draw_rows(&rows, n);
    job->len = cover_put_sizes(job->bytes, n, n);
    s->count = kind == CALL ? 1 : kind == ROW ? vertices : kind == ROWS ? vertices / 8 : most;
    for (unsigned v = 0; kind == ROWS && v + 8 <= vertices; v += 8)
        put_eight(job, &rows, v);
    for (unsigned v = 0; kind != ROWS && kind != CALL && v < vertices; v++)
        put_row(job, &rows, v);
    if (kind > ROWS)
        put_candidates(job, kind, n, most);
    put_end(job);
}

/* The numbers below count, in order or shuffled. */
static void order_numbers(unsigned *numbers, unsigned count, bool shuffled)
{
    uint64_t state = 88172645463325252u;
    for (unsigned i = 0; i < count; i++)
        numbers[i] = i;
    for (unsigned i = count; shuffled && i > 1; i--) {
        unsigned k = (unsigned)(drawn(&state) >> 32) % i, last = numbers[i - 1];
        numbers[i - 1] = numbers[k];
        numbers[k] = last;
    }
}

/* 8 inputs and 8 outputs; the same rows in each. */
static void make_table(Sample *s, enum table table)
{
    unsigned order[256], count = table == R_IN_ORDER || table == R_SHUFFLED ? 256 : 32;
    Rows rows;
    draw_rows(&rows, 8);
    order_numbers(order, count, table == R_SHUFFLED || table == B_SHUFFLED);
    s->count = 1;
    s->job.len = cover_put_sizes(s->job.bytes, 8, 8);
    for (unsigned i = 0; i < count; i++) {
        if (count == 256)
            put_row(&s->job, &rows, order[i]);
        else if (table != IN_TURN || i % 2 == 1)
            put_eight(&s->job, &rows, 8 * order[i]);
        else
            for (unsigned v = 8 * order[i]; v < 8 * order[i] + 8; v++)
                put_row(&s->job, &rows, v);
    }
    put_end(&s->job);
}

#endif
