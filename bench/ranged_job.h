/* Drawn jobs with G and V, ranges of weights. */
#ifndef RANGED_JOB_H
#define RANGED_JOB_H

#include "covers.h"
#include "job.h"
#include "long_job.h"
#include "price_list.h"
#include "priced_job.h"
#include "product_job.h"
#include "range_modes.h"
#include "ready_job.h"

enum { RANGED_JOBS = 640 };

/* ---- drawn ranges ---- */

/* Often at the borders, equal, near to each other or low: then many sets cost alike. */
static void put_drawn_range(Job *job, Draft *d)
{
    static const unsigned most[] = {3, 12, COVER_MOST_WEIGHT + 1};
    unsigned kind = below(&d->t, 8), limit = most[below(&d->t, 3)];
    unsigned a = below(&d->t, limit), b = below(&d->t, limit), number = below(&d->t, d->count);
    if (kind < 2)
        b = a;
    else if (kind == 2)
        b = least(a + 1, COVER_MOST_WEIGHT);
    else if (kind == 3)
        a = 0, b = COVER_MOST_WEIGHT;
    put_range(job, number, least(a, b), a < b ? b : a);
}

/* Of some candidates, often of one twice, or of each. */
static void put_some_ranges(Job *job, Draft *d)
{
    unsigned count = below(&d->t, 2) ? below(&d->t, 4) : d->count;
    for (; count > 0 && d->count > 0; count--)
        put_drawn_range(job, d);
}

/* From 0 on, and from a drawn start with a drawn count. */
static void put_possible_pages(Job *job, Draft *d)
{
    put_possible(job, 0, COVER_MOST_SETS);
    if (below(&d->t, 2))
        put_possible(job, drawn(&d->t.state) >> (63 - d->count % 64), below(&d->t, 20));
}

static bool all_held(const Draft *d)
{
    for (unsigned v = 0; v < 1u << d->n; v++)
        if (d->t.on[v] & ~held_by(d, v))
            return false;
    return true;
}

/* Where a wanted cell is not held then, it stays, but in one of 16 cases: there a query meets 12. */
static void take_out_spare(Job *job, Draft *d)
{
    static Draft before;
    size_t len = job->len;
    if (d->count == 0)
        return;
    before = *d;
    take_out(job, d);
    if (all_held(d) || below(&d->t, 16) == 0)
        return;
    before.t.state = d->t.state;
    *d = before;
    job->len = len;
}

/* G, V and the other queries, then candidates that come by A and go, and all again. */
static void put_ranged_turns(Job *job, Draft *d)
{
    for (unsigned turn = 0; turn < 4; turn++) {
        unsigned which = below(&d->t, 8);
        if (which & 1)
            put_queries(job, &d->t);
        put_some_ranges(job, d);
        put_possible_pages(job, d);
        if (which & 2)
            put_multiply(job);
        if (below(&d->t, 2))
            take_out_spare(job, d);
        if (d->count < COVER_MOST_CANDIDATES && below(&d->t, 2))
            put_cube(job, d, true);
        if (which & 4)
            put_possible_pages(job, d);
    }
}

/* ---- faults ---- */

/* 15; 19, by either end; 15 before 19; 4, of both and of what follows them; 5; 12; 14. */
typedef enum {
    NO_NUMBER, ENDS_EXCHANGED, HIGH_END, NO_NUMBER_AND_BAD, EARLY_RANGE, EARLY_POSSIBLE, BEHIND_RANGE, BEHIND_POSSIBLE,
    CUT_RANGE, CUT_POSSIBLE, UNHELD, NO_ROOM, RANGE_FAULTS
} RangeFault;

static void put_bad_range(Job *job, Draft *d, RangeFault fault)
{
    unsigned low = below(&d->t, COVER_MOST_WEIGHT), high = low + below(&d->t, COVER_MOST_WEIGHT + 1 - low);
    bool standing = d->count > 0 && (fault == ENDS_EXCHANGED || fault == HIGH_END), bad = fault != NO_NUMBER;
    unsigned number = standing ? below(&d->t, d->count) : d->count;
    if (!standing && below(&d->t, 2))
        number += below(&d->t, 256 - d->count);
    if (bad && (fault == HIGH_END || below(&d->t, 2)))
        high = COVER_MOST_WEIGHT + 1 + (below(&d->t, 2) ? below(&d->t, 65535 - COVER_MOST_WEIGHT) : 0);
    else if (bad)
        high = low, low += 1 + (below(&d->t, 2) ? below(&d->t, 65535 - low) : 0);
    put_range(job, number, low, high);
}

/* W, R, B, T, F or P. */
static void put_forbidden(Job *job, Draft *d)
{
    Block b = drawn_block(d, 4);
    switch (below(&d->t, 6)) {
    case 0: put_block(job, &b); break;
    case 1: job->len += cover_put_term(job->bytes + job->len, 0, 0, 1); break;
    default: put_misplaced(job, d);
    }
}

/* 256 sets of eight vertices with two equal blocks each, all of them possible; as many pages as do not fit. */
static void put_too_many_pages(Job *job)
{
    job->len = cover_put_sizes(job->bytes, 3, 1);
    for (unsigned v = 0; v < 8; v++)
        job->len += cover_put_row(job->bytes + job->len, v, 1, 0);
    for (unsigned i = 0; i < 16; i++) {
        Block b = {.outputs = 1, .weight = 7 * i};
        put_vertex(&b, i / 2);
        put_block(job, &b);
    }
    for (unsigned i = 0; i < 16; i++)
        put_range(job, i, 7 * (i / 2), 7 * (i / 2) + 6 * (i % 2));
    for (size_t bytes = 0; bytes <= COVER_MOST_ANSWER_BYTES; bytes += COVER_POSSIBLE_ANSWER_BYTES(COVER_MOST_SETS))
        put_possible(job, 0, COVER_MOST_SETS);
}

static void put_range_fault(Job *job, Draft *d, RangeFault fault)
{
    bool of_range = fault == EARLY_RANGE || fault == BEHIND_RANGE || fault == CUT_RANGE;
    if (fault <= NO_NUMBER_AND_BAD) {
        put_some_ranges(job, d);
        put_bad_range(job, d, fault);
        return;
    }
    if (fault == NO_ROOM) {
        put_too_many_pages(job);
        return;
    }
    if (fault == EARLY_RANGE || fault == EARLY_POSSIBLE)
        job->len = 0;
    if (of_range)
        put_range(job, below(&d->t, d->count + 1), 1, 2);
    else
        put_possible(job, 0, 1);
    if (fault == BEHIND_RANGE || fault == BEHIND_POSSIBLE)
        put_forbidden(job, d);
    if (fault == CUT_RANGE || fault == CUT_POSSIBLE)
        job->len -= 1 + below(&d->t, (of_range ? COVER_RANGE_BYTES : COVER_POSSIBLE_BYTES) - 1);
}

/* ---- jobs ---- */

/* As ready_job: the wanted cells that nobody holds become free, but where V is to meet 12. Every fourth has a fault. */
static void ranged_job(Job *job, uint64_t seed)
{
    static Job candidates;
    static Draft d;
    RangeFault fault = seed % 4 == 3 ? (RangeFault)(seed / 4 % RANGE_FAULTS) : RANGE_FAULTS;
    draw_draft(&d, seed);
    candidates.len = 0;
    put_mixed(&candidates, &d, 1 + below(&d.t, seed % 3 == 0 ? 30 : 14));
    for (unsigned v = 0; v < 1u << d.n && fault != UNHELD; v++)
        d.t.on[v] &= held_by(&d, v);
    job->len = cover_put_sizes(job->bytes, d.n, d.m);
    if (below(&d.t, 2))
        put_prices(job, drawn_prices(&d.t));
    put_cells(job, &d.t, d.n);
    put(job, candidates.bytes, candidates.len);
    if (fault == RANGE_FAULTS)
        put_ranged_turns(job, &d);
    else
        put_range_fault(job, &d, fault);
    if (fault != CUT_RANGE && fault != CUT_POSSIBLE)
        put_end(job);
}

#endif
