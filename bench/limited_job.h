/* Drawn jobs for the part: tables where its limits leave some of the sets of L, all or none. */
#ifndef LIMITED_JOB_H
#define LIMITED_JOB_H

#include "covers.h"
#include "job.h"
#include "long_job.h"
#include "price_list.h"
#include "priced_job.h"
#include "product_job.h"
#include "range_modes.h"
#include "ranged_job.h"
#include "ready_job.h"

enum { LIMITED_JOBS = 640 };

/* ---- drawn candidates ---- */

static void put_standing(Job *job, Draft *d, const Block *b)
{
    if (d->count == COVER_MOST_CANDIDATES)
        return;
    put_block(job, b);
    stand(d, *b);
}

/* Each output in `many` of 8 cases, and one at least. */
static uint8_t many_outputs(Draft *d, unsigned many)
{
    uint8_t outputs = (uint8_t)(1u << below(&d->t, d->m));
    for (unsigned j = 0; j < d->m; j++)
        outputs |= (uint8_t)((below(&d->t, 8) < many) << j);
    return outputs;
}

/* Of 8 or 16 vertices, each in `share` of 8 cases, for many outputs: about seven of them hold all cells of an output. */
static void put_crossing(Job *job, Draft *d, unsigned count)
{
    unsigned share = 1 + below(&d->t, 3), many = 1 + below(&d->t, 8);
    for (; count > 0; count--) {
        Block b = {.outputs = many_outputs(d, many), .weight = below(&d->t, 20)};
        for (unsigned v = 0; v < 1u << d->n; v++)
            if (below(&d->t, 8) < share)
                put_vertex(&b, v);
        if (below(&d->t, 4) == 0 && d->count < COVER_MOST_CANDIDATES)
            put_cube(job, d, below(&d->t, 2));
        put_standing(job, d, &b);
    }
}

/* A vertex for an output each, up to seven or eight for one output, so that covers have about 32 members; here and there
   a second one, or one that has the cell before, too. */
static void put_single_cells(Job *job, Draft *d)
{
    unsigned most = 7 + (below(&d->t, 8) == 0);
    for (unsigned j = 0; j < d->m; j++) {
        unsigned cells = most - below(&d->t, 5);
        for (unsigned v = 0; v < cells; v++) {
            Block b = {.outputs = (uint8_t)(1u << j), .weight = v};
            put_vertex(&b, v);
            put_standing(job, d, &b);
            if (below(&d->t, 8) > 0)
                continue;
            if (below(&d->t, 2) && v > 0)
                put_vertex(&b, v - 1);
            else if (j > 0)
                b.outputs |= (uint8_t)(1u << (j - 1));
            put_standing(job, d, &b);
        }
    }
}

/* ---- queries ---- */

/* From 0 on, and from a drawn start; whether there is one from there on. */
static void put_fitting_pages(Job *job, Draft *d)
{
    unsigned kind = below(&d->t, 4);
    uint64_t start = drawn(&d->t.state) >> (63 - d->count % 64);
    if (kind == 0)
        put_list(job, start, 0);
    put_list(job, kind == 1 ? start : 0, kind == 2 ? below(&d->t, 5) : COVER_MOST_SETS);
    put_list(job, start, below(&d->t, 20));
}

/* The pages with and without the other queries, then a candidate that goes or comes by A, and all again. */
static void put_limited_turns(Job *job, Draft *d)
{
    for (unsigned turn = 0; turn < 4; turn++) {
        unsigned which = below(&d->t, 8);
        if (which & 1)
            put_some_ranges(job, d);
        put_fitting_pages(job, d);
        if (which & 2)
            job->len += cover_put_command(job->bytes + job->len, COVER_CHEAPEST);
        if (which & 4)
            put_possible(job, 0, below(&d->t, 8));
        if (below(&d->t, 2))
            take_out_spare(job, d);
        if (d->count < COVER_MOST_CANDIDATES && below(&d->t, 2))
            put_cube(job, d, true);
    }
}

/* ---- faults ---- */

/* 4, of L and of what follows it; 5; 12; 14; and where the answers leave no room for a page: 20, or 14. */
typedef enum {
    EARLY_LIST, BEHIND_LIST, CUT_LIST, UNHELD_CELL, MANY_PAGES, FULL_NONE_FITS, FULL_ONE_FITS, LIMIT_FAULTS
} LimitFault;

/* So many vertices with a block each: one cover. C fills the answers but for ten bytes, L of no set leaves one. */
static void put_full_answers(Job *job, unsigned vertices)
{
    job->len = cover_put_sizes(job->bytes, 3, 1);
    for (unsigned v = 0; v < 8; v++)
        job->len += cover_put_row(job->bytes + job->len, v, v < vertices, v >= vertices);
    for (unsigned v = 0; v < vertices; v++) {
        Block b = {.outputs = 1, .weight = v};
        put_vertex(&b, v);
        put_block(job, &b);
    }
    for (unsigned i = 0; i < COVER_MOST_ANSWER_BYTES / COVER_CHEAPEST_ANSWER_BYTES; i++)
        job->len += cover_put_command(job->bytes + job->len, COVER_CHEAPEST);
    for (unsigned i = 0; i < 3; i++)
        put_possible(job, 0, 0);
    put_list(job, 0, 0);
}

/* 128 sets of seven vertices with two equal blocks each, as many pages as do not fit. */
static void put_many_pages(Job *job)
{
    job->len = cover_put_sizes(job->bytes, 3, 1);
    for (unsigned v = 0; v < 7; v++)
        job->len += cover_put_row(job->bytes + job->len, v, 1, 0);
    for (unsigned i = 0; i < 14; i++) {
        Block b = {.outputs = 1, .weight = i};
        put_vertex(&b, i / 2);
        put_block(job, &b);
    }
    for (size_t bytes = 0; bytes <= COVER_MOST_ANSWER_BYTES; bytes += COVER_LIST_ANSWER_BYTES(128))
        put_list(job, 0, COVER_MOST_SETS);
}

static void put_limit_fault(Job *job, Draft *d, LimitFault fault)
{
    if (fault == FULL_NONE_FITS || fault == FULL_ONE_FITS) {
        put_full_answers(job, fault == FULL_NONE_FITS ? 8 : 7);
        return;
    }
    if (fault == MANY_PAGES) {
        put_many_pages(job);
        return;
    }
    if (fault == EARLY_LIST)
        job->len = 0;
    put_list(job, 0, 1);
    if (fault == BEHIND_LIST)
        put_forbidden(job, d);
    if (fault == CUT_LIST)
        job->len -= 1 + below(&d->t, COVER_LIST_BYTES - 1);
}

/* ---- jobs ---- */

/* All cells are wanted or free, so that every block is legal. */
static void draw_limited(Draft *d, uint64_t seed)
{
    bool single = seed % 4 == 1;
    memset(d, 0, sizeof *d);
    d->t.state = seed * 0x9e3779b97f4a7c15u + 1;
    d->n = 3 + (single ? 0 : below(&d->t, 2));
    d->m = single ? 6 + below(&d->t, 3) : 1 + below(&d->t, 8);
    draw_wanted(&d->t, d->n, d->m, single ? 16 : 12 + below(&d->t, 5));
}

/* The wanted cells that nobody holds become free, but where L is to meet 12. Every eighth has a fault. */
static void limited_job(Job *job, uint64_t seed)
{
    static Job candidates;
    static Draft d;
    LimitFault fault = seed % 8 == 7 ? (LimitFault)(seed / 8 % LIMIT_FAULTS) : LIMIT_FAULTS;
    draw_limited(&d, seed);
    candidates.len = 0;
    if (seed % 4 == 1)
        put_single_cells(&candidates, &d);
    else
        put_crossing(&candidates, &d, 6 + below(&d.t, seed % 4 == 2 ? 26 : 10));
    for (unsigned v = 0; v < 1u << d.n && fault != UNHELD_CELL; v++)
        d.t.on[v] &= held_by(&d, v);
    job->len = cover_put_sizes(job->bytes, d.n, d.m);
    if (below(&d.t, 2))
        put_prices(job, drawn_prices(&d.t));
    put_cells(job, &d.t, d.n);
    put(job, candidates.bytes, candidates.len);
    if (fault == LIMIT_FAULTS)
        put_limited_turns(job, &d);
    else
        put_limit_fault(job, &d, fault);
    if (fault != CUT_LIST)
        put_end(job);
}

#endif
