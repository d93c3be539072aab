/* Jobs with F, ready-made blocks: drawn ones, and those of another job with F in the place of its T. */
#ifndef READY_JOB_H
#define READY_JOB_H

#include "covers.h"
#include "job.h"
#include "long_job.h"
#include "price_list.h"
#include "priced_job.h"
#include "product_job.h"

enum { READY_JOBS = 640 };

/* What an F has. */
typedef struct {
    uint8_t outputs, vertices[COVER_VERTEX_BYTES];
    unsigned weight;
} Block;

static bool has_vertex(const Block *b, unsigned v) { return b->vertices[v / 8] >> v % 8 & 1; }
static void put_vertex(Block *b, unsigned v) { b->vertices[v / 8] |= (uint8_t)(1u << v % 8); }

static void put_block(Job *job, const Block *b)
{
    job->len += cover_put_block(job->bytes + job->len, b->outputs, b->vertices, b->weight);
}

/* ---- terms as blocks ---- */

static unsigned ones_in(unsigned byte)
{
    unsigned count = 0;
    for (; byte != 0; byte &= byte - 1)
        count++;
    return count;
}

/* What holds the same cells and costs as much at these prices. */
static Block block_of(Cube c, unsigned n, Prices w)
{
    unsigned literals = ones_in(c.care);
    Block b = {.outputs = c.outputs, .weight = w.term + w.connection * ones_in(c.outputs)};
    b.weight += literals < 2 ? 0 : literals * w.literal;
    for (unsigned v = 0; v < 1u << n; v++)
        if ((v & c.care) == c.value)
            put_vertex(&b, v);
    return b;
}

/* The job with F for each T of these (T number i by bit i % 64). False where it has no T, or would be too long. */
static bool put_as_blocks(Job *job, const Job *of, uint64_t which)
{
    Prices w = {1, 1, 0};
    unsigned n = 0, terms = 0;
    job->len = 0;
    for (size_t at = 0, next; at < of->len; at = next) {
        const uint8_t *x = of->bytes + at;
        next = behind(of->bytes, of->len, at);
        if (job->len + COVER_BLOCK_BYTES + (next - at) > LONGEST)
            return false;
        n = x[0] == COVER_SIZES ? x[1] : n;
        w = x[0] == COVER_PRICES ? (Prices){x[1], x[2], x[3]} : w;
        if (x[0] == COVER_TERM && which >> terms++ % 64 & 1) {
            Block b = block_of((Cube){x[1], x[2], x[3]}, n, w);
            put_block(job, &b);
        } else {
            put(job, x, next - at);
        }
    }
    return terms > 0;
}

/* ---- drawn candidates ---- */

/* The table, and the candidates that stand, a term as the block that it is. */
typedef struct {
    Table t;
    unsigned n, m;
    Block standing[COVER_MOST_CANDIDATES];
    unsigned count;
} Draft;

static void stand(Draft *d, Block b) { d->standing[d->count++] = b; }

static uint8_t held_by(const Draft *d, unsigned v)
{
    uint8_t held = 0;
    for (unsigned i = 0; i < d->count; i++)
        held |= has_vertex(&d->standing[i], v) ? d->standing[i].outputs : 0;
    return held;
}

/* A block that holds no off cell: of the vertices that it may have each in `share` of 8 cases. */
static Block drawn_block(Draft *d, unsigned share)
{
    static const unsigned weights[] = {0, 1, 2, COVER_MOST_WEIGHT};
    Block b = {.outputs = (uint8_t)(1u << below(&d->t, d->m))};
    if (below(&d->t, 2))
        b.outputs |= (uint8_t)(below(&d->t, 1u << d->m) & below(&d->t, 1u << d->m));
    for (unsigned v = 0; v < 1u << d->n; v++)
        if ((b.outputs & ~d->t.may[v]) == 0 && below(&d->t, 8) < share)
            put_vertex(&b, v);
    unsigned kind = below(&d->t, 8);
    b.weight = kind < 4 ? weights[kind] : below(&d->t, kind < 6 ? 20 : COVER_MOST_WEIGHT + 1);
    return b;
}

/* A cube that holds no off cell: any, or a widest one around the cell that was drawn, if it is not off. */
static bool draw_cube(Draft *d, Cube *c)
{
    unsigned v = below(&d->t, 1u << d->n), j = below(&d->t, d->m);
    *c = drawn_cube(&d->t, d->n, d->m, 4);
    if ((c->outputs & ~may_drive(d->t.may, c->care, c->value)) == 0)
        return true;
    if (!(d->t.may[v] >> j & 1))
        return false;
    *c = widest(&d->t, (uint8_t)v, (int)j);
    return true;
}

static void put_cube(Job *job, Draft *d, bool late)
{
    Cube c;
    if (!draw_cube(d, &c))
        return;
    job->len += (late ? cover_put_add : cover_put_term)(job->bytes + job->len, c.care, c.value, c.outputs);
    stand(d, block_of(c, d->n, (Prices){0, 0, 0}));
}

static void take_out(Job *job, Draft *d)
{
    unsigned number = below(&d->t, d->count);
    job->len += cover_put_remove(job->bytes + job->len, number);
    d->count--;
    memmove(d->standing + number, d->standing + number + 1, (d->count - number) * sizeof *d->standing);
}

/* By F in one half of the cases, else by T or A; now and then one goes again. */
static void put_mixed(Job *job, Draft *d, unsigned count)
{
    unsigned share = below(&d->t, 9);
    for (; count > 0 && d->count < COVER_MOST_CANDIDATES; count--) {
        unsigned kind = below(&d->t, 10);
        if (kind < 5) {
            Block b = drawn_block(d, below(&d->t, 4) ? share : below(&d->t, 9));
            put_block(job, &b);
            stand(d, b);
        } else if (kind < 9) {
            put_cube(job, d, kind == 8);
        } else if (d->count > 0) {
            take_out(job, d);
        }
    }
}

/* ---- faults ---- */

/* 18; 10; 11, and 18 or 10 before it; 4, of F and of what follows it; 5. */
enum fault {
    NO_OUTPUTS, HIGH_OUTPUT, HIGH_VERTEX, HEAVY, OFF_CELL, FULL, FULL_AND_BAD, EARLY, LATE, FOLLOWED, CUT, FAULTS
};

static Block bad_block(Draft *d, enum fault fault)
{
    Block b = drawn_block(d, 4);
    bool everywhere = fault == OFF_CELL || below(&d->t, 2); /* 18 comes before 10 */
    if (fault == HIGH_OUTPUT && d->m < 8)
        b.outputs = (uint8_t)((below(&d->t, 2) ? b.outputs : 0) | 1u << (d->m + below(&d->t, 8 - d->m)));
    else if (fault == HIGH_VERTEX && d->n < 8)
        put_vertex(&b, (1u << d->n) + below(&d->t, 256 - (1u << d->n)));
    else if (fault == HEAVY)
        b.weight = COVER_MOST_WEIGHT + 1 + (below(&d->t, 2) ? below(&d->t, 65535 - COVER_MOST_WEIGHT) : 0);
    else if (fault != OFF_CELL)
        b.outputs = 0;
    for (unsigned v = 0; everywhere && v < 1u << d->n; v++)
        put_vertex(&b, v);
    return b;
}

/* What may not stand behind an F. */
static void put_misplaced(Job *job, Draft *d)
{
    static const uint8_t eight[8] = {0};
    uint8_t *at = job->bytes + job->len;
    switch (below(&d->t, 4)) {
    case 0: job->len += cover_put_row(at, 0, 0, 0); break;
    case 1: job->len += cover_put_rows(at, 0, eight, eight); break;
    case 2: job->len += cover_put_prices(at, 1, 1, 0); break;
    default: job->len += cover_put_command(at, COVER_PRIMES);
    }
}

static void put_full(Job *job, Draft *d, bool bad)
{
    enum fault fault = below(&d->t, 2) ? OFF_CELL : (enum fault)below(&d->t, OFF_CELL);
    while (d->count < COVER_MOST_CANDIDATES) {
        Block b = drawn_block(d, below(&d->t, 9));
        put_block(job, &b);
        stand(d, b);
    }
    Block last = bad ? bad_block(d, fault) : drawn_block(d, 8);
    put_block(job, &last);
}

static void put_fault(Job *job, Draft *d, enum fault fault)
{
    Block b = fault < FULL ? bad_block(d, fault) : drawn_block(d, 8);
    if (fault == FULL || fault == FULL_AND_BAD) {
        put_full(job, d, fault == FULL_AND_BAD);
        return;
    }
    if (fault == EARLY)
        job->len = 0;
    if (fault == LATE)
        put_list(job, 0, 0);
    put_block(job, &b);
    if (fault == FOLLOWED)
        put_misplaced(job, d);
    if (fault == CUT)
        job->len -= 1 + below(&d->t, COVER_BLOCK_BYTES - 1);
}

/* ---- jobs ---- */

/* Cells that are wanted or free, so that every block is legal, or some off ones too. */
static void draw_draft(Draft *d, uint64_t seed)
{
    memset(d, 0, sizeof *d);
    d->t.state = seed * 0x9e3779b97f4a7c15u + 1;
    d->n = 1 + below(&d->t, seed % 16 == 0 ? 8 : 6);
    d->m = 1 + below(&d->t, seed % 5 == 0 ? 8 : 3);
    if (seed % 2 == 0)
        draw_wanted(&d->t, d->n, d->m, 1 + below(&d->t, 12));
    else
        draw_cells(&d->t, d->n, d->m);
}

/* The wanted cells that nobody holds become free, but in one of eight jobs: there a query meets 12. */
static void free_others(Draft *d)
{
    bool leave = below(&d->t, 8) == 0;
    for (unsigned v = 0; v < 1u << d->n && !leave; v++)
        d->t.on[v] &= held_by(d, v);
}

/* L, C and N, each with and without the others, then candidates that come by A and go, and all again. */
static void put_turns(Job *job, Draft *d)
{
    for (unsigned turn = 0; turn < 3; turn++) {
        unsigned which = 1 + below(&d->t, 7);
        if (which & 1)
            put_queries(job, &d->t);
        if (which & 2)
            put_multiply(job);
        if (which & 4)
            put_list(job, 0, COVER_MOST_SETS);
        if (d->count > 0 && below(&d->t, 2))
            take_out(job, d);
        if (d->count < COVER_MOST_CANDIDATES && below(&d->t, 2))
            put_cube(job, d, true);
    }
}

/* The candidates are drawn before the table is put, since it goes by what they hold. Every fourth has a fault. */
static void ready_job(Job *job, uint64_t seed)
{
    static Job candidates;
    static Draft d;
    draw_draft(&d, seed);
    candidates.len = 0;
    put_mixed(&candidates, &d, 1 + below(&d.t, seed % 3 == 0 ? 40 : 14));
    free_others(&d);
    job->len = cover_put_sizes(job->bytes, d.n, d.m);
    if (below(&d.t, 2))
        put_prices(job, drawn_prices(&d.t));
    put_cells(job, &d.t, d.n);
    put(job, candidates.bytes, candidates.len);
    if (seed % 4 == 3)
        put_fault(job, &d, (enum fault)(seed / 4 % FAULTS));
    else
        put_turns(job, &d);
    if (seed % 4 != 3 || seed / 4 % FAULTS != CUT)
        put_end(job);
}

#endif
