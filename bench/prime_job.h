/* Drawn jobs with P: for every number of inputs and outputs a table of each kind, from sparse to dense. */
#ifndef PRIME_JOB_H
#define PRIME_JOB_H

#include "covers.h"
#include "job.h"
#include "long_job.h"
#include "prime_table.h"

/* Up to 48 cells that are not off; shares of the cells; up to 5 that are off; a union of up to 16 cubes; primes apart
   from each other, 63 to 65 where there are so many, and the same with an input that is not always fixed. */
enum { FEW, SHARE, FEW_OFF = SHARE + 5, UNION, APART, APART_BUT_ONE, PRIME_TABLES };
enum { PRIME_JOBS = COVER_MOST_INPUTS * COVER_MOST_OUTPUTS * PRIME_TABLES };

static unsigned lesser_of(unsigned a, unsigned b) { return a < b ? a : b; }

/* Of 16 cells that are not off, 0, 4, 8 or 12 are don't-cares; where the primes are apart, some. */
static void draw_prime_table(PrimeTable *t, unsigned kind)
{
    static const unsigned off[] = {14, 12, 8, 4, 1}; /* of 16 */
    unsigned cells = cells_of(t), free = 4 * drawn_below(&t->state, 4), input = drawn_below(&t->state, t->n);
    if (kind == FEW)
        draw_but(t, cells - lesser_of(cells, 1 + drawn_below(&t->state, 48)), free);
    else if (kind < FEW_OFF)
        draw_but(t, cells * off[kind - SHARE] / 16, free);
    else if (kind == FEW_OFF)
        draw_but(t, lesser_of(cells, drawn_below(&t->state, 6)), free);
    else if (kind == UNION)
        draw_union(t, 1 + drawn_below(&t->state, 16), free);
    else
        draw_apart(t, 63 + drawn_below(&t->state, 3), kind == APART ? 0 : 1u << input);
}

/* The number, below PRIME_JOBS, tells the sizes and the kind. L and C follow; none of these searches is long. */
static void prime_job(Job *job, unsigned number)
{
    static PrimeTable t;
    unsigned sizes = number / PRIME_TABLES;
    start_table(&t, 1 + sizes % COVER_MOST_INPUTS, 1 + sizes / COVER_MOST_INPUTS, number + 1);
    draw_prime_table(&t, number % PRIME_TABLES);
    put_table(job, &t);
    put_primes(job);
    put_list(job, 0, COVER_MOST_SETS);
    job->len += cover_put_command(job->bytes + job->len, COVER_CHEAPEST);
    unsigned shift = drawn_below(&t.state, 64), count = drawn_below(&t.state, 20);
    put_list(job, drawn(&t.state) >> shift, count);
    put_end(job);
}

#endif
