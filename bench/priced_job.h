/* Drawn jobs at drawn prices. */
#ifndef PRICED_JOB_H
#define PRICED_JOB_H

#include "covers.h"
#include "job.h"
#include "long_job.h"
#include "price_list.h"

static unsigned below(Table *t, unsigned count) { return drawn_below(&t->state, count); }

/* Often at the borders, where many costs are alike. */
static uint8_t drawn_price(Table *t)
{
    static const uint8_t border[] = {0, 1, 2, COVER_MOST_PRICE};
    unsigned kind = below(t, 8);
    return kind < 4 ? border[kind] : (uint8_t)below(t, COVER_MOST_PRICE + 1);
}

static Prices drawn_prices(Table *t)
{
    Prices w;
    w.term = drawn_price(t);
    w.literal = drawn_price(t);
    w.connection = drawn_price(t);
    return w;
}

/* The inputs from n on count for nothing, so that no term has them in care. */
static void draw_cells(Table *t, unsigned n, unsigned m)
{
    unsigned vertices = 1u << n, outputs = (1u << m) - 1;
    for (unsigned v = 0; v < vertices; v++) {
        t->on[v] = (uint8_t)(below(t, 256) & outputs);
        t->may[v] = t->on[v] | (uint8_t)(below(t, 256) & below(t, 256) & outputs);
    }
    for (unsigned v = vertices; v < 256; v++)
        t->may[v] = t->may[v % vertices];
}

/* By B where there are eight vertices, for one half of the tables. */
static void put_cells(Job *job, Table *t, unsigned n)
{
    uint8_t dc[256];
    bool eights = n >= 3 && below(t, 2) == 0;
    for (unsigned v = 0; v < 1u << n; v++)
        dc[v] = t->may[v] & (uint8_t)~t->on[v];
    for (unsigned v = 0; v < 1u << n; v += eights ? 8 : 1)
        job->len += eights ? cover_put_rows(job->bytes + job->len, v, t->on + v, dc + v)
                           : cover_put_row(job->bytes + job->len, v, t->on[v], dc[v]);
}

/* One around each wanted cell that no candidate holds yet, by T or by A; then some more around wanted cells, by A. */
static void put_widest(Job *job, Table *t, unsigned n, unsigned m, bool late)
{
    unsigned more = below(t, 12);
    for (unsigned cell = 0; cell < m << n; cell++) {
        uint8_t v = (uint8_t)(cell / m);
        if (t->count < 64 && (t->on[v] & ~held_at(t, v, -1)) >> cell % m & 1)
            (late ? put_add : put_term)(job, t, widest(t, v, (int)(cell % m)));
    }
    for (; more > 0 && t->count < 64; more--) {
        unsigned cell = below(t, m << n);
        uint8_t v = (uint8_t)(cell / m);
        if (t->on[v] >> cell % m & 1)
            put_add(job, t, widest(t, v, (int)(cell % m)));
    }
}

static void put_queries(Job *job, Table *t)
{
    put_list(job, 0, COVER_MOST_SETS);
    job->len += cover_put_command(job->bytes + job->len, COVER_CHEAPEST);
    put_list(job, drawn(&t->state) >> below(t, 64), below(t, 20));
}

/* The first candidate goes and comes back behind the others, and all is asked anew. */
static void put_turn(Job *job, Table *t)
{
    if (t->count == 0)
        return;
    put_add(job, t, put_remove(job, t, 0));
    put_queries(job, t);
}

/* A W that is refused: a price above 50, twice, behind rows, or cut. */
static void put_bad_prices(Job *job, Table *t, unsigned n)
{
    Prices w = drawn_prices(t);
    unsigned kind = below(t, 6);
    uint8_t bad = (uint8_t)(COVER_MOST_PRICE + 1 + (below(t, 2) ? below(t, 255 - COVER_MOST_PRICE) : 0));
    w.term = kind == 0 ? bad : w.term;
    w.literal = kind == 1 ? bad : w.literal;
    w.connection = kind == 2 ? bad : w.connection;
    if (kind == 3)
        put_prices(job, w);
    if (kind == 4)
        put_cells(job, t, n);
    put_prices(job, w);
    if (kind == 5)
        job->len -= 1 + below(t, 3);
}

static void put_candidates(Job *job, Table *t, unsigned n, unsigned m, unsigned way)
{
    if (way == 0)
        job->len += cover_put_command(job->bytes + job->len, COVER_PRIMES);
    else
        put_widest(job, t, n, m, way == 1);
}

/* Up to 5 inputs and 8 outputs; P, or terms by A or by T; every eighth ends with a W that is refused. */
static void priced_job(Job *job, uint64_t seed)
{
    static Table t;
    memset(&t, 0, sizeof t);
    t.state = seed * 0x9e3779b97f4a7c15u + 1;
    unsigned n = 1 + below(&t, 5), m = 1 + below(&t, 8);
    draw_cells(&t, n, m);
    job->len = cover_put_sizes(job->bytes, n, m);
    if (seed % 8 == 7) {
        put_bad_prices(job, &t, n);
        return;
    }
    put_prices(job, drawn_prices(&t));
    put_cells(job, &t, n);
    put_candidates(job, &t, n, m, (unsigned)(seed % 3));
    put_queries(job, &t);
    put_turn(job, &t);
    put_end(job);
}

#endif
