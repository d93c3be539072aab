/* What is asked about: the paper's example, the marked cases, parities. Each sets a table and candidates. */
#ifndef PROBLEMS_H
#define PROBLEMS_H

#include "kit.h"

static const uint8_t terms[6][3] = {
    {1, 0, 1}, {3, 1, 3}, {1, 1, 2}, {2, 2, 2}, {3, 2, 3}, {2, 0, 1},
};

static void add_example_term(struct job *job, size_t i)
{
    add_term(job, terms[i][0], terms[i][1], terms[i][2]);
}

static void add_example_late(struct job *job, size_t i)
{
    add_late(job, terms[i][0], terms[i][1], terms[i][2]);
}

static void example_rows(struct job *job)
{
    add_sizes(job, 2, 2);
    add_row(job, 0, 0, 1);
    add_row(job, 1, 1, 2);
    add_row(job, 2, 3, 0);
    add_row(job, 3, 2, 0);
}

/* The table as crawled: the two free cells are wanted. */
static void crawled_rows(struct job *job)
{
    add_sizes(job, 2, 2);
    add_row(job, 0, 1, 0);
    add_row(job, 1, 3, 0);
    add_row(job, 2, 3, 0);
    add_row(job, 3, 2, 0);
}

static void example_terms(struct job *job)
{
    for (size_t i = 0; i < 6; i++)
        add_example_term(job, i);
}

static void example(struct job *job)
{
    example_rows(job);
    example_terms(job);
}

static void crawled(struct job *job)
{
    crawled_rows(job);
    example_terms(job);
}

static void example_primes(struct job *job)
{
    example_rows(job);
    add(job, COVER_PRIMES);
}

/* The example with all its terms by COVER_ADD. */
static void example_late(struct job *job)
{
    example_rows(job);
    for (size_t i = 0; i < 6; i++)
        add_example_late(job, i);
}

/* The same with both kinds in turn, behind a term that goes again. */
static void example_mixed(struct job *job)
{
    example_rows(job);
    add_example_late(job, 4);
    for (size_t i = 0; i < 6; i += 2) {
        add_example_term(job, i);
        add_example_late(job, i + 1);
    }
    add_remove(job, 0);
}

/* The same behind queries of other candidates: the last term goes and comes back. */
static void example_asked(struct job *job)
{
    example(job);
    add_list(job, 0, 0);
    add_remove(job, 5);
    add(job, COVER_CHEAPEST);
    add_example_late(job, 5);
}

/* The first candidate goes and comes back behind the others, of the terms and of the primes. */
static void example_moved(struct job *job)
{
    example(job);
    add_remove(job, 0);
    add_example_late(job, 0);
}

static void primes_moved(struct job *job)
{
    example_primes(job);
    add_remove(job, 0);
    add_example_late(job, 0);
}

/* One input, one output, both cells wanted, the term without literals so many times. */
static void constant(struct job *job, unsigned times)
{
    add_sizes(job, 1, 1);
    add_row(job, 0, 1, 0);
    add_row(job, 1, 1, 0);
    for (unsigned i = 0; i < times; i++)
        add_term(job, 0, 0, 1);
}

static void nothing(struct job *job)
{
    add_sizes(job, 1, 1);
}

static void once(struct job *job)
{
    constant(job, 1);
}

static void twice(struct job *job)
{
    constant(job, 2);
}

/* Eight vertices, each with two equal terms: 2^8 covers, more than one page may hold. */
static void pairs(struct job *job)
{
    add_sizes(job, 3, 1);
    for (unsigned v = 0; v < 8; v++)
        add_row(job, v, 1, 0);
    for (unsigned i = 0; i < 16; i++)
        add_term(job, 7, i / 2, 1);
}

static int odd(unsigned v)
{
    unsigned ones = 0;
    for (; v != 0; v >>= 1)
        ones += v & 1;
    return ones % 2 == 1;
}

static void parity(struct job *job, unsigned n)
{
    add_sizes(job, n, 1);
    for (unsigned v = 0; v < 1u << n; v++)
        if (odd(v))
            add_row(job, v, 1, 0);
    add(job, COVER_PRIMES);
}

static void parity_of_7(struct job *job)
{
    parity(job, 7);
}

/* The inline functions of covers.h, against bytes written out by hand. */

/* The paper's job, and its answers with K1's cost. */
static const uint8_t paper_job[] = {
    0x49, 2, 2, 0x52, 0, 0, 1, 0x52, 1, 1, 2, 0x52, 2, 3, 0, 0x52, 3, 2, 0,
    0x54, 1, 0, 1, 0x54, 3, 1, 3, 0x54, 1, 1, 2, 0x54, 2, 2, 2, 0x54, 3, 2, 3, 0x54, 2, 0, 1,
    0x4C, 0, 0, 0, 0, 0, 0, 0, 0, 6, 0x43, 0x45,
};

static const uint8_t paper_answers[] = {
    0x6C, 6, 0, 11, 0, 0, 0, 0, 0, 0, 0, 22, 0, 0, 0, 0, 0, 0, 0, 26, 0, 0, 0, 0, 0, 0, 0,
    41, 0, 0, 0, 0, 0, 0, 0, 52, 0, 0, 0, 0, 0, 0, 0, 56, 0, 0, 0, 0, 0, 0, 0,
    0x63, 3, 0, 41, 0, 0, 0, 0, 0, 0, 0, 0x65,
};

#endif
