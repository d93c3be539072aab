/*
 * N by the words of its request, an own reckoning: the products are joined with every candidate that holds the cell,
 * and then those are dropped that contain another. It is slow, and good for rows of few candidates.
 */
#ifndef BY_WORDS_H
#define BY_WORDS_H

#include "prices.h"

/* A table and its candidates, of any size. */
struct problem {
    unsigned n, m;
    uint8_t on[256], dc[256], terms[COVER_MOST_CANDIDATES][3];
    size_t count;
};

/* Another rule can be put here, to see whether the tests tell the two apart. */
struct rule {
    const char *name;
    size_t most;    /* products */
    int by_output;  /* the cells by output, then vertex */
    int free_too;   /* free cells as well */
    int reduced;    /* without the cells that are held where another one is */
    int late_12;    /* a cell that is not held is met when its turn comes */
    int early;      /* the products are counted before the keeping */
    int last_alone; /* they are counted at the last cell alone */
    int copies;     /* more than one copy of each is kept */
    int containing; /* those that contain another are kept */
    int falling;    /* the last products come falling */
    int no_first;   /* without wanted cells there is no product */
};

static const struct rule by_request = {.name = "K8", .most = COVER_MOST_PRODUCTS};
static struct rule rule = {.name = "K8", .most = COVER_MOST_PRODUCTS};

/* The candidates that hold the cell. */
static uint64_t holders(const struct problem *problem, unsigned v, unsigned j)
{
    uint64_t row = 0;
    for (size_t i = 0; i < problem->count; i++) {
        const uint8_t *term = problem->terms[i];
        row |= (uint64_t)((v & term[0]) == term[1] && (term[2] >> j & 1)) << i;
    }
    return row;
}

enum { MOST_CELLS = 2048 };

struct sums {
    uint64_t rows[MOST_CELLS];
    size_t count;
};

/* One for each wanted cell, by vertex, then output. */
static void sums_of(const struct problem *problem, struct sums *sums)
{
    unsigned vertices = 1u << problem->n, m = problem->m;
    sums->count = 0;
    for (unsigned cell = 0; cell < m * vertices; cell++) {
        unsigned v = rule.by_output ? cell % vertices : cell / m, j = rule.by_output ? cell / vertices : cell % m;
        if ((problem->on[v] | (rule.free_too ? problem->dc[v] : 0)) >> j & 1)
            sums->rows[sums->count++] = holders(problem, v, j);
    }
}

/* Whether it contains another of these, or is the same as an earlier one. */
static int is_dropped(const uint64_t *sets, size_t count, size_t i)
{
    for (size_t k = 0; k < count; k++) {
        if ((sets[k] & ~sets[i]) != 0 || k == i)
            continue;
        if (sets[k] != sets[i] ? !rule.containing : k < i && !rule.copies)
            return 1;
    }
    return 0;
}

/* Without the rows that contain another, for a wrong rule. */
static void reduce(struct sums *sums)
{
    static struct sums all;
    all = *sums;
    sums->count = 0;
    for (size_t i = 0; i < all.count; i++)
        if (!is_dropped(all.rows, all.count, i))
            sums->rows[sums->count++] = all.rows[i];
}

enum { MOST_JOINED = 1 << 16 };

/* What N is to give: its number and, where that is 0, its sets. A wrong rule may keep more than are allowed. */
struct products {
    enum cover_refusal number;
    size_t count;
    uint64_t sets[MOST_JOINED];
};

/* Every product with every candidate of the row, one by one; gives how many. */
static size_t join_all(const struct products *products, uint64_t row, uint64_t *joined)
{
    size_t count = 0;
    for (size_t i = 0; i < products->count; i++)
        for (unsigned k = 0; k < 64; k++)
            if (row >> k & 1) {
                if (count == MOST_JOINED)
                    abort();
                joined[count++] = products->sets[i] | UINT64_C(1) << k;
            }
    return count;
}

/* One cell. */
static void multiply_cell(struct products *products, uint64_t row)
{
    static uint64_t joined[MOST_JOINED];
    size_t count = join_all(products, row, joined);
    products->count = 0;
    for (size_t i = 0; i < count; i++)
        if (!is_dropped(joined, count, i))
            products->sets[products->count++] = joined[i];
    if ((rule.early ? count : products->count) > rule.most && !rule.last_alone)
        products->number = COVER_TOO_MANY_PRODUCTS;
    if (row == 0)
        products->number = COVER_UNHELD_CELL;
}

static int by_number(const void *a, const void *b)
{
    uint64_t x = *(const uint64_t *)a, y = *(const uint64_t *)b;
    return rule.falling ? (x < y) - (x > y) : (x > y) - (x < y);
}

static int all_are_held(const struct sums *sums)
{
    for (size_t i = 0; i < sums->count; i++)
        if (sums->rows[i] == 0)
            return 0;
    return 1;
}

static const struct products *multiply(const struct problem *problem)
{
    static struct products products;
    static struct sums sums;
    sums_of(problem, &sums);
    products.number = all_are_held(&sums) || rule.late_12 ? COVER_ACCEPTED : COVER_UNHELD_CELL;
    products.count = 1;
    products.sets[0] = 0;
    if (rule.reduced)
        reduce(&sums);
    if (rule.no_first && sums.count == 0)
        products.count = 0;
    for (size_t i = 0; i < sums.count && products.number == COVER_ACCEPTED; i++)
        multiply_cell(&products, sums.rows[i]);
    if (products.number == COVER_ACCEPTED && products.count > rule.most)
        products.number = COVER_TOO_MANY_PRODUCTS;
    qsort(products.sets, products.count, sizeof products.sets[0], by_number);
    return &products;
}

/* Sizes, rows and terms; a row of eight vertices by B. */
static void add_problem(struct job *job, const struct problem *problem)
{
    add_sizes(job, problem->n, problem->m);
    for (unsigned v = 0; v < 1u << problem->n; v++) {
        if (problem->n > 3 && v % 16 == 0) {
            add_rows(job, v, problem->on + v, problem->dc + v);
            v += 7;
        } else {
            add_row(job, v, problem->on[v], problem->dc[v]);
        }
    }
    for (size_t i = 0; i < problem->count; i++)
        add_term(job, problem->terms[i][0], problem->terms[i][1], problem->terms[i][2]);
}

/* One more candidate, and a wanted cell. */
static void put_candidate(struct problem *problem, unsigned care, unsigned value, unsigned outputs)
{
    if (problem->count == COVER_MOST_CANDIDATES)
        abort();
    uint8_t *term = problem->terms[problem->count++];
    term[0] = (uint8_t)care;
    term[1] = (uint8_t)value;
    term[2] = (uint8_t)outputs;
}

static void want(struct problem *problem, unsigned v, unsigned j)
{
    problem->on[v] |= (uint8_t)(1u << j);
    problem->dc[v] &= (uint8_t)~(1u << j);
}

/* All cells are free, and there are no candidates. */
static struct problem all_free(unsigned n, unsigned m)
{
    struct problem problem = {.n = n, .m = m};
    memset(problem.dc, (1 << m) - 1, sizeof problem.dc);
    return problem;
}

#endif
