/* Drawn tables for P, and the commands that set one. */
#ifndef PRIME_TABLE_H
#define PRIME_TABLE_H

#include <string.h>

#include "covers.h"
#include "job.h"

typedef struct {
    unsigned n, m;
    uint8_t on[256], dc[256];
    uint64_t state; /* of the drawn numbers */
} PrimeTable;

static inline void start_table(PrimeTable *t, unsigned n, unsigned m, uint64_t seed)
{
    memset(t, 0, sizeof *t);
    t->n = n;
    t->m = m;
    t->state = seed * 0x9e3779b97f4a7c15u + 1;
}

static inline unsigned vertices_of(const PrimeTable *t) { return 1u << t->n; }
static inline unsigned cells_of(const PrimeTable *t) { return t->m << t->n; }

/* So many cells are off; of 16 others `free` are don't-cares. */
static inline void draw_but(PrimeTable *t, unsigned off, unsigned free)
{
    unsigned cells = cells_of(t);
    for (unsigned cell = 0; cell < cells; cell++) {
        uint8_t *set = drawn_below(&t->state, 16) < free ? t->dc : t->on;
        if (drawn_below(&t->state, cells - cell) < off)
            off--;
        else
            set[cell / t->m] |= (uint8_t)(1u << cell % t->m);
    }
}

static inline uint8_t drawn_outputs(PrimeTable *t) { return (uint8_t)(1 + drawn_below(&t->state, (1u << t->m) - 1)); }

/* The union of so many cubes; of 16 `free` have don't-cares where no other has wanted cells. */
static inline void draw_union(PrimeTable *t, unsigned cubes, unsigned free)
{
    for (; cubes > 0; cubes--) {
        unsigned care = drawn_below(&t->state, vertices_of(t)), value = drawn_below(&t->state, vertices_of(t)) & care;
        uint8_t *set = drawn_below(&t->state, 16) < free ? t->dc : t->on, outputs = drawn_outputs(t);
        for (unsigned v = 0; v < vertices_of(t); v++)
            set[v] |= (v & care) == value ? outputs : 0;
    }
    for (unsigned v = 0; v < vertices_of(t); v++)
        t->dc[v] &= (uint8_t)~t->on[v];
}

/* So many primes, or as many as there can be, each apart from all others: of the vertices with an odd number of ones no
   two are neighbours. Where `bit` is the weight of an input, it is left free, fixed at 0 or fixed at 1. */
static inline void draw_apart(PrimeTable *t, unsigned count, unsigned bit)
{
    unsigned left = vertices_of(t) >> (bit ? 2 : 1);
    for (unsigned v = 0; v < vertices_of(t); v++) {
        if ((v & bit) || !__builtin_parity(v) || drawn_below(&t->state, left--) >= count)
            continue;
        uint8_t outputs = drawn_outputs(t), wanted = drawn_outputs(t);
        unsigned where = drawn_below(&t->state, 3);
        count--;
        for (unsigned half = 0; half < 2; half++)
            if (where != half) {
                t->on[v | half * bit] = outputs & wanted;
                t->dc[v | half * bit] = outputs & (uint8_t)~wanted;
            }
    }
}

/* I, and R of each vertex. */
static inline void put_table(Job *job, const PrimeTable *t)
{
    job->len = cover_put_sizes(job->bytes, t->n, t->m);
    for (unsigned v = 0; v < vertices_of(t); v++)
        job->len += cover_put_row(job->bytes + job->len, v, t->on[v], t->dc[v]);
}

static inline void put_primes(Job *job) { job->len += cover_put_command(job->bytes + job->len, COVER_PRIMES); }

#endif
