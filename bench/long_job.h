/* Jobs of 32,768 bytes that ask L all along: over a drawn table, and with A and D in turn with L. */
#ifndef LONG_JOB_H
#define LONG_JOB_H

#include <string.h>

#include "covers.h"
#include "job.h"

typedef struct {
    uint8_t care, value, outputs;
} Cube;

typedef struct {
    uint8_t on[256], may[256];
    Cube terms[COVER_MOST_CANDIDATES]; /* the candidates that stand */
    int count;
    uint64_t state; /* of the drawn numbers */
} Table;

static uint8_t may_drive(const uint8_t *may, uint8_t care, uint8_t value)
{
    uint8_t acc = 0xff;
    for (int v = 0; v < 256; v++)
        if ((v & care) == value)
            acc &= may[v];
    return acc;
}

/* The outputs that the candidates hold at the vertex, without the one of this number. */
static uint8_t held_at(const Table *t, int v, int without)
{
    uint8_t acc = 0;
    for (int i = 0; i < t->count; i++)
        if (i != without && (v & t->terms[i].care) == t->terms[i].value)
            acc |= t->terms[i].outputs;
    return acc;
}

/* Whether the candidates hold each wanted cell without the one of this number. */
static bool covers_without(const Table *t, int without)
{
    for (int v = 0; v < 256; v++)
        if (t->on[v] & ~held_at(t, v, without))
            return false;
    return true;
}

/* A widest cube around the cell, with all outputs that it may drive; the inputs are tried from a drawn one on. */
static Cube widest(Table *t, uint8_t v, int j)
{
    uint8_t care = 0xff;
    int turn = (int)(drawn(&t->state) >> 40) % 8;
    for (int i = 0; i < 8; i++) {
        uint8_t wider = care & (uint8_t)~(1u << (i + turn) % 8);
        if (may_drive(t->may, wider, v & wider) >> j & 1)
            care = wider;
    }
    return (Cube){care, v & care, may_drive(t->may, care, v & care)};
}

/* One around a wanted cell that is drawn. */
static Cube widest_drawn(Table *t)
{
    for (;;) {
        int cell = (int)(drawn(&t->state) >> 40) % 256, v = 0xa0 + cell / 8, j = cell % 8;
        if (t->on[v] >> j & 1)
            return widest(t, (uint8_t)v, j);
    }
}

/* T and A put a candidate behind the others, D takes one out. */
static void put_term(Job *job, Table *t, Cube c)
{
    job->len += cover_put_term(job->bytes + job->len, c.care, c.value, c.outputs);
    t->terms[t->count++] = c;
}

static void put_add(Job *job, Table *t, Cube c)
{
    job->len += cover_put_add(job->bytes + job->len, c.care, c.value, c.outputs);
    t->terms[t->count++] = c;
}

static Cube put_remove(Job *job, Table *t, int number)
{
    Cube c = t->terms[number];
    job->len += cover_put_remove(job->bytes + job->len, (unsigned)number);
    t->count--;
    memmove(t->terms + number, t->terms + number + 1, (size_t)(t->count - number) * sizeof c);
    return c;
}

static void put_list(Job *job, uint64_t start, unsigned count)
{
    job->len += cover_put_list(job->bytes + job->len, start, count);
}

/* 8 inputs, 8 outputs, 32 rows (the low five inputs run) and so many terms: one around each wanted cell that no term
   holds yet, the others around wanted cells drawn. */
static void put_drawn(Job *job, Table *t, uint64_t seed, int terms)
{
    memset(t, 0, sizeof *t);
    t->state = seed * 0x9e3779b97f4a7c15u + 1;
    job->len = cover_put_sizes(job->bytes, 8, 8);
    for (int v = 0xa0; v < 0xc0; v++) {
        uint8_t dc = (uint8_t)(drawn(&t->state) >> 32 & drawn(&t->state) >> 32);
        t->on[v] = (uint8_t)(drawn(&t->state) >> 32 & drawn(&t->state) >> 32 & ~dc);
        t->may[v] = t->on[v] | dc;
        job->len += cover_put_row(job->bytes + job->len, (unsigned)v, t->on[v], dc);
    }
    for (int v = 0xa0; v < 0xc0; v++)
        for (int j = 0; j < 8; j++)
            if (t->count < terms && (t->on[v] & ~held_at(t, v, -1)) >> j & 1)
                put_term(job, t, widest(t, (uint8_t)v, j));
    while (t->count < terms)
        put_term(job, t, widest_drawn(t));
}

/* 64 terms, then L with count 0 and a drawn start, until the bytes are used up, and E. Returns how many L it has. */
static int long_job(Job *job, uint64_t seed)
{
    Table t;
    int lists = 0;
    put_drawn(job, &t, seed, 64);
    for (; job->len + COVER_LIST_BYTES < LONGEST; lists++)
        put_list(job, drawn(&t.state), 0);
    put_end(job);
    return lists;
}

/* The bytes of A, L and D. */
enum { TURN_BYTES = COVER_ADD_BYTES + COVER_LIST_BYTES + COVER_REMOVE_BYTES };

/* 63 terms, then in turn A of a further one, L with count 0 and a drawn start, and D of a drawn candidate, or of the last
   where a wanted cell would not be held without that. Returns how many L it has. */
static int long_turns(Job *job, uint64_t seed)
{
    Table t;
    int lists = 0;
    put_drawn(job, &t, seed, 63);
    for (; job->len + TURN_BYTES < LONGEST; lists++) {
        put_add(job, &t, widest_drawn(&t));
        put_list(job, drawn(&t.state), 0);
        int number = (int)(drawn(&t.state) >> 40) % 64;
        put_remove(job, &t, covers_without(&t, number) ? number : 63);
    }
    put_end(job);
    return lists;
}

/* The rows of a job with 64 terms and 63 of these, then in turn A of the one that is missing, L with count 1 from 0,
   and D of a drawn candidate. So all 64 stand at each L, in another order. Returns how many L it has. */
static int dense_turns(Job *job, const Job *of)
{
    Table t;
    int lists = 0;
    size_t at = 0;
    memset(&t, 0, sizeof t);
    t.state = 88172645463325252u;
    job->len = 0;
    for (size_t next; at < of->len && !is_query(of->bytes[at]); at = next) {
        const uint8_t *x = of->bytes + at;
        next = behind(of->bytes, of->len, at);
        if (x[0] != COVER_TERM)
            put(job, x, next - at);
        else if (t.count < 63)
            put_term(job, &t, (Cube){x[1], x[2], x[3]});
        else
            t.terms[63] = (Cube){x[1], x[2], x[3]};
    }
    for (Cube missing = t.terms[63]; job->len + TURN_BYTES < LONGEST; lists++) {
        put_add(job, &t, missing);
        put_list(job, 0, 1);
        missing = put_remove(job, &t, (int)(drawn(&t.state) >> 40) % 64);
    }
    put_end(job);
    return lists;
}

#endif
