/* Jobs with N: drawn ones, and those of another job with N in the place of its queries. */
#ifndef PRODUCT_JOB_H
#define PRODUCT_JOB_H

#include "covers.h"
#include "job.h"
#include "long_job.h"
#include "priced_job.h"

enum { PRODUCT_JOBS = 480 };

static void put_multiply(Job *job) { job->len += cover_put_command(job->bytes + job->len, COVER_MULTIPLY); }

/* The job with N for each L and C; where pages are kept, N stands behind each L. */
static void put_products(Job *job, const Job *of, bool pages)
{
    job->len = 0;
    for (size_t at = 0, next; at < of->len && job->len + COVER_ROWS_BYTES < LONGEST; at = next) {
        next = behind(of->bytes, of->len, at);
        if (!is_query(of->bytes[at]) || (pages && of->bytes[at] == COVER_LIST))
            put(job, of->bytes + at, next - at);
        if (is_query(of->bytes[at]))
            put_multiply(job);
    }
}

/* ---- drawn cubes ---- */

/* Each cell is wanted or free, so that every cube is legal; of 16 cells so many are wanted. */
static void draw_wanted(Table *t, unsigned n, unsigned m, unsigned share)
{
    for (unsigned cell = 0; cell < m << n; cell++)
        t->on[cell / m] |= (uint8_t)((below(t, 16) < share) << cell % m);
    for (unsigned v = 0; v < 256; v++)
        t->may[v] = (uint8_t)((1u << m) - 1);
}

/* Of n inputs each is a literal in `literals` of 8 cases. */
static Cube drawn_cube(Table *t, unsigned n, unsigned m, unsigned literals)
{
    Cube c = {0, 0, (uint8_t)(1 + below(t, (1u << m) - 1))};
    for (unsigned i = 0; i < n; i++)
        c.care |= (uint8_t)((below(t, 8) < literals) << i);
    c.value = (uint8_t)(below(t, 256) & c.care);
    return c;
}

/* The wanted cells that no candidate holds become free, but in one of eight jobs: there N meets 12. */
static void free_unheld(Table *t, unsigned n)
{
    bool leave = below(t, 8) == 0;
    for (unsigned v = 0; v < 1u << n && !leave; v++)
        t->on[v] &= held_at(t, (int)v, -1);
}

/* The candidates are drawn before the table is put, since it goes by what they hold. */
static void put_drawn_cubes(Job *job, Table *t, bool late)
{
    static Job terms;
    unsigned n = 1 + below(t, 6), m = 1 + below(t, 3), count = 1 + below(t, 64), literals = 2 + below(t, 6);
    terms.len = 0;
    draw_wanted(t, n, m, 1 + below(t, 12));
    for (; count > 0; count--)
        (late ? put_add : put_term)(&terms, t, drawn_cube(t, n, m, literals));
    free_unheld(t, n);
    job->len = cover_put_sizes(job->bytes, n, m);
    put_cells(job, t, n);
    put(job, terms.bytes, terms.len);
}

/* Rows with off cells, widest cubes around wanted cells, or the primes. */
static void put_widest_cubes(Job *job, Table *t, unsigned way)
{
    unsigned n = 1 + below(t, 5), m = 1 + below(t, 8);
    draw_cells(t, n, m);
    job->len = cover_put_sizes(job->bytes, n, m);
    put_cells(job, t, n);
    put_candidates(job, t, n, m, way);
}

/* ---- drawn numbers of products ---- */

/* Vertices that have so many equal candidates each: together 1 to 64, and their product is about 1,024. */
static const uint8_t parts[][12] = {
    {2, 2, 2, 2, 2, 2, 2, 2, 2, 2}, {4, 4, 4, 4, 4}, {32, 32},    {31, 11, 3},   {41, 5, 5},   {19, 3, 3, 3, 2},
    {2, 2, 2, 2, 2, 2, 2, 2, 2},    {32, 31},        {33, 31},    {8, 8, 4, 2, 2}, {8, 8, 4, 4}, {10, 10, 10},
    {3, 3, 3, 3, 3, 3},             {3, 3, 3, 3, 3, 2, 2}, {6, 6, 6, 5}, {7, 7, 7, 3}, {64},      {17, 15, 4},
    {2, 2, 2, 2, 2, 2, 2, 2, 2, 2, 2}, {1, 1, 1, 32, 16, 2},
};

enum { PARTS_LISTS = sizeof parts / sizeof *parts };

/* A part of `count` candidates at vertex v, by T; each has the vertex alone, of 4 inputs. */
static void put_part(Job *job, Table *t, unsigned v, unsigned count)
{
    for (; count > 0; count--)
        put_term(job, t, (Cube){15, (uint8_t)v, 1});
}

/* The parts from a drawn vertex on; every other cell is free. */
static void put_parts(Job *job, Table *t, const uint8_t *list)
{
    unsigned first = below(t, 5);
    job->len = cover_put_sizes(job->bytes, 4, 1);
    for (unsigned v = 0; v < 16; v++) {
        bool wanted = v >= first && v - first < 12 && list[v - first] > 0;
        job->len += cover_put_row(job->bytes + job->len, v, wanted, !wanted);
    }
    for (unsigned i = 0; i < 12; i++)
        put_part(job, t, first + i, list[i]);
}

/* Eight to fourteen vertices with two candidates each, and one that holds them all and another vertex, at either end:
   so the last product is that one alone, and before there may be too many. */
static void put_crowd(Job *job, Table *t)
{
    unsigned count = 8 + below(t, 7), alone = below(t, 2) ? 15 : 0, first = alone ? 0 : 1;
    job->len = cover_put_sizes(job->bytes, 4, 1);
    for (unsigned v = 0; v < 16; v++) {
        bool wanted = v == alone || (v >= first && v < first + count);
        job->len += cover_put_row(job->bytes + job->len, v, wanted, !wanted);
    }
    put_term(job, t, (Cube){0, 0, 1});
    for (unsigned v = first; v < first + count; v++)
        put_part(job, t, v, 2);
}

/* ---- queries ---- */

/* N before, between and behind a page and C, or some of these. */
static void put_all_queries(Job *job, Table *t)
{
    unsigned which = below(t, 8);
    if (which & 1)
        put_list(job, 0, COVER_MOST_SETS);
    put_multiply(job);
    if (which & 2)
        put_queries(job, t);
    if (which & 4)
        put_multiply(job);
}

/* A drawn candidate goes, or comes a second time, and N is asked anew. */
static void put_change(Job *job, Table *t)
{
    if (t->count == 0)
        return;
    int number = (int)below(t, (unsigned)t->count);
    if (below(t, 2) || t->count == 64)
        put_remove(job, t, number);
    else
        put_add(job, t, t->terms[number]);
    put_multiply(job);
}

static void product_job(Job *job, uint64_t seed)
{
    static Table t;
    unsigned kind = (unsigned)(seed % 8);
    memset(&t, 0, sizeof t);
    t.state = seed * 0x9e3779b97f4a7c15u + 1;
    if (kind < 4)
        put_drawn_cubes(job, &t, kind == 0);
    else if (kind < 6)
        put_widest_cubes(job, &t, (unsigned)(seed / 8 % 3));
    else if (kind == 6)
        put_parts(job, &t, parts[seed / 8 % PARTS_LISTS]);
    else
        put_crowd(job, &t);
    put_all_queries(job, &t);
    put_change(job, &t);
    put_change(job, &t);
    put_end(job);
}

#endif
