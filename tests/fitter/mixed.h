/*
 * Lists of terms and ready-made blocks, an own reckoning: every set of up to 10 candidates is tried by what each of
 * them holds. Drawn ones, in which candidates come by T, A and F and go.
 */
#ifndef MIXED_H
#define MIXED_H

#include "products.h"

/* What an F has: bit v % 8 of byte v / 8 stands for vertex v. */
struct ready {
    uint8_t outputs, vertices[COVER_VERTEX_BYTES];
    unsigned weight;
};

static void put_vertex(struct ready *ready, unsigned v)
{
    ready->vertices[v / 8] |= (uint8_t)(1u << v % 8);
}

static void put_ready(struct job *job, const struct ready *ready)
{
    add_ready(job, ready->outputs, ready->vertices, ready->weight);
}

struct candidate {
    int is_block;
    uint8_t term[3]; /* where it is none */
    struct ready ready;
};

struct mixed {
    unsigned n, m;
    uint8_t on[16], dc[16];
    struct candidate all[MOST_SMALL];
    size_t count;
};

/* Blocks by the words of K10. */

static unsigned held_by_words(const struct ready *ready, unsigned v)
{
    return ready->vertices[v / 8] >> v % 8 & 1 ? ready->outputs : 0;
}

static unsigned cost_by_words(const struct ready *ready, struct prices prices)
{
    (void)prices;
    return ready->weight;
}

/* Another reading can be put here, to see whether the tests tell the two apart. */
struct reading {
    const char *name;
    unsigned (*holds)(const struct ready *ready, unsigned v); /* the outputs that it holds at a vertex */
    unsigned (*costs)(const struct ready *ready, struct prices prices);
    int vertices_stay, weights_stay;     /* where a candidate goes, at their numbers */
    int unlisted, too_dear, unmultiplied; /* blocks are in no set of L, of C, of N */
};

static const struct reading as_requested = {.name = "K10", .holds = held_by_words, .costs = cost_by_words};
static struct reading reading = {.name = "K10", .holds = held_by_words, .costs = cost_by_words};

static unsigned holds(const struct candidate *candidate, unsigned v)
{
    const uint8_t *term = candidate->term;
    if (candidate->is_block)
        return reading.holds(&candidate->ready, v);
    return (v & term[0]) == term[1] ? term[2] : 0;
}

static unsigned costs(const struct candidate *candidate, struct prices prices)
{
    return candidate->is_block ? reading.costs(&candidate->ready, prices) : cost_by_rule(prices, candidate->term);
}

/* Those above move down by one. */
static void go_from(struct mixed *mixed, size_t number)
{
    struct mixed before = *mixed;
    mixed->count--;
    memmove(mixed->all + number, mixed->all + number + 1, (mixed->count - number) * sizeof mixed->all[0]);
    for (size_t i = number; i < mixed->count; i++) {
        if (reading.vertices_stay)
            memcpy(mixed->all[i].ready.vertices, before.all[i].ready.vertices, COVER_VERTEX_BYTES);
        if (reading.weights_stay)
            mixed->all[i].ready.weight = before.all[i].ready.weight;
    }
}

/* The cells that each candidate holds, read once for all sets. */
static uint8_t held[MOST_SMALL][16];

static int all_held(const struct mixed *mixed, uint64_t set)
{
    for (unsigned v = 0; v < 1u << mixed->n; v++) {
        unsigned sum = 0;
        for (size_t i = 0; i < mixed->count; i++)
            sum |= set >> i & 1 ? held[i][v] : 0;
        if (mixed->on[v] & ~sum)
            return 0;
    }
    return 1;
}

/* A cover of which no member can go. */
static int is_least(const struct mixed *mixed, uint64_t set)
{
    if (!all_held(mixed, set))
        return 0;
    for (size_t i = 0; i < mixed->count; i++)
        if ((set >> i & 1) && all_held(mixed, set - (UINT64_C(1) << i)))
            return 0;
    return 1;
}

static struct list least_sets(const struct mixed *mixed)
{
    struct list list = {.count = 0};
    for (size_t i = 0; i < mixed->count; i++)
        for (unsigned v = 0; v < 1u << mixed->n; v++)
            held[i][v] = (uint8_t)holds(&mixed->all[i], v);
    for (uint64_t set = 0; set < UINT64_C(1) << mixed->count; set++)
        if (is_least(mixed, set))
            list.sets[list.count++] = set;
    return list;
}

/* Without the sets that have a block, for a wrong reading. */
static struct list without_blocks(const struct mixed *mixed, const struct list *sets, int left_out)
{
    struct list list = {.count = 0};
    uint64_t blocks = 0;
    for (size_t i = 0; i < mixed->count && left_out; i++)
        blocks |= (uint64_t)mixed->all[i].is_block << i;
    for (size_t i = 0; i < sets->count; i++)
        if ((sets->sets[i] & blocks) == 0)
            list.sets[list.count++] = sets->sets[i];
    return list;
}

/* What L of 255 sets from 0 on, C and N are to give: a number and, where that is 0, the bytes. */
struct known {
    enum cover_refusal number;
    uint8_t bytes[4200];
    size_t length;
};

static void know(struct known *known, size_t width, uint64_t number)
{
    cover_put_number(known->bytes + known->length, width, number);
    known->length += width;
}

static void know_sets(struct known *known, const struct list *sets)
{
    for (size_t i = 0; i < sets->count; i++)
        know(known, 8, sets->sets[i]);
}

static unsigned mixed_cost(const struct mixed *mixed, struct prices prices, uint64_t set)
{
    unsigned cost = 0;
    for (size_t i = 0; i < mixed->count; i++)
        cost += set >> i & 1 ? costs(&mixed->all[i], prices) : 0;
    return cost;
}

/* Of the rising list the first of least cost. */
static void know_cheapest(struct known *known, const struct mixed *mixed, struct prices prices, const struct list *sets)
{
    uint64_t cheapest = sets->sets[0];
    for (size_t i = 1; i < sets->count; i++)
        if (mixed_cost(mixed, prices, sets->sets[i]) < mixed_cost(mixed, prices, cheapest))
            cheapest = sets->sets[i];
    know(known, 1, COVER_CHEAPEST_ANSWER);
    know(known, 2, mixed_cost(mixed, prices, cheapest));
    know(known, 8, cheapest);
}

static struct known reckon(const struct mixed *mixed, struct prices prices)
{
    struct known known = {.number = COVER_UNHELD_CELL};
    struct list all = least_sets(mixed), page = without_blocks(mixed, &all, reading.unlisted);
    struct list cheap = without_blocks(mixed, &all, reading.too_dear);
    struct list products = without_blocks(mixed, &all, reading.unmultiplied);
    if (all.count == 0 || cheap.count == 0)
        return known;
    known.number = COVER_ACCEPTED;
    know(&known, 1, COVER_LIST_ANSWER);
    know(&known, 2, page.count);
    know_sets(&known, &page);
    know_cheapest(&known, mixed, prices, &cheap);
    know(&known, 1, COVER_MULTIPLY_ANSWER);
    know(&known, 2, products.count);
    know_sets(&known, &products);
    return known;
}

/* The three queries behind a job without an end and `taken` bytes of answers; gives how many there are then. A query
   that is refused is taken out again, for it would end the job. */
static size_t ask_mixed(struct job *job, size_t taken, const struct mixed *mixed, struct prices prices)
{
    struct known known = reckon(mixed, prices);
    size_t at = job->length;
    add_list(job, 0, COVER_MOST_SETS);
    add(job, COVER_CHEAPEST);
    add(job, COVER_MULTIPLY);
    uint64_t outcome = call(job, COVER_MOST_ANSWER_BYTES);
    if (known.number != COVER_ACCEPTED) {
        CHECK(is(outcome, known.number, at, taken));
        job->length = at;
        return taken;
    }
    CHECK(is(outcome, COVER_NO_END, job->length, taken + known.length));
    CHECK(memcmp(answers + taken, known.bytes, known.length) == 0);
    return taken + known.length;
}

/* Drawn. */

/* Of no vertex, of all, or of some. */
static struct ready draw_ready(uint64_t *state, unsigned n, unsigned m)
{
    static const unsigned border[] = {0, 1, 2, COVER_MOST_WEIGHT};
    unsigned share = (unsigned)draw(state) % 5, kind = (unsigned)draw(state) % 8;
    struct ready ready = {.outputs = (uint8_t)(1 + draw(state) % ((1u << m) - 1))};
    for (unsigned v = 0; v < 1u << n; v++)
        if (draw(state) % 4 < share)
            put_vertex(&ready, v);
    ready.weight = kind < 4 ? border[kind] : (unsigned)draw(state) % (kind < 6 ? 12 : COVER_MOST_WEIGHT + 1);
    return ready;
}

static struct candidate draw_candidate(uint64_t *state, unsigned n, unsigned m)
{
    struct candidate candidate = {.is_block = draw(state) % 2 == 0};
    draw_term(state, n, m, candidate.term);
    candidate.ready = draw_ready(state, n, m);
    return candidate;
}

static unsigned held_by_all(const struct mixed *mixed, unsigned v)
{
    unsigned all = 0;
    for (size_t i = 0; i < mixed->count; i++)
        all |= mixed->all[i].is_block ? held_by_words(&mixed->all[i].ready, v) : holds(&mixed->all[i], v);
    return all;
}

/* What is held is wanted or free, what is not is off or free, but in some tables, where it may be wanted. */
static struct mixed draw_mixed(uint64_t *state)
{
    struct mixed mixed = {.n = 1 + (unsigned)draw(state) % 4, .m = 1 + (unsigned)draw(state) % 3};
    unsigned all = (1u << mixed.m) - 1, leave = draw(state) % 16 == 0;
    mixed.count = 1 + draw(state) % 8;
    for (size_t i = 0; i < mixed.count; i++)
        mixed.all[i] = draw_candidate(state, mixed.n, mixed.m);
    for (unsigned v = 0; v < 1u << mixed.n; v++) {
        unsigned some = held_by_all(&mixed, v);
        mixed.on[v] = (uint8_t)(draw(state) & (leave ? all : some));
        mixed.dc[v] = (uint8_t)(all & ~mixed.on[v] & (some | draw(state)));
    }
    return mixed;
}

static void put_any(struct job *job, const struct candidate *candidate, int late)
{
    const uint8_t *term = candidate->term;
    if (candidate->is_block)
        put_ready(job, &candidate->ready);
    else
        (late ? add_late : add_term)(job, term[0], term[1], term[2]);
}

/* Sizes, prices in one half of the jobs, the table and the candidates. One of them comes twice, and the copy, which
   stands before some of the others, goes again. */
static struct prices put_mixed(struct job *job, const struct mixed *mixed, uint64_t *state)
{
    struct prices prices = {1, 1, 0};
    size_t copy = draw(state) % (mixed->count + 1);
    add_sizes(job, mixed->n, mixed->m);
    if (draw(state) % 2) {
        prices = draw_prices(state);
        add_list_of_prices(job, prices);
    }
    for (unsigned v = 0; v < 1u << mixed->n; v++)
        add_row(job, v, mixed->on[v], mixed->dc[v]);
    for (size_t i = 0; i <= mixed->count; i++) {
        if (i == copy && mixed->count > 0)
            put_any(job, &mixed->all[draw(state) % mixed->count], draw(state) % 2);
        if (i < mixed->count)
            put_any(job, &mixed->all[i], draw(state) % 2);
    }
    if (mixed->count > 0)
        add_remove(job, (unsigned)copy);
    return prices;
}

static int is_legal(const struct mixed *mixed, const uint8_t *term)
{
    for (unsigned v = 0; v < 1u << mixed->n; v++)
        if ((v & term[0]) == term[1] && (term[2] & ~(mixed->on[v] | mixed->dc[v])))
            return 0;
    return 1;
}

/* One goes, or a term comes by A, where the drawn one holds no off cell. */
static void change_mixed(struct job *job, struct mixed *mixed, uint64_t *state)
{
    struct candidate late = {.is_block = 0};
    draw_term(state, mixed->n, mixed->m, late.term);
    if (draw(state) % 2 && mixed->count > 0) {
        size_t number = draw(state) % mixed->count;
        add_remove(job, (unsigned)number);
        go_from(mixed, number);
    } else if (mixed->count < MOST_SMALL && is_legal(mixed, late.term)) {
        put_any(job, &late, 1);
        mixed->all[mixed->count++] = late;
    }
}

static void test_mixed(void)
{
    static struct job job;
    uint64_t state = 31;
    for (unsigned turn = 0; turn < 120; turn++) {
        struct mixed mixed = draw_mixed(&state);
        struct prices prices = put_mixed(&job, &mixed, &state);
        size_t taken = 0;
        for (unsigned i = 0; i < 4; i++) {
            taken = ask_mixed(&job, taken, &mixed, prices);
            change_mixed(&job, &mixed, &state);
        }
        taken = ask_mixed(&job, taken, &mixed, prices);
        add(&job, COVER_END);
        CHECK(is(call(&job, taken + 1), COVER_ACCEPTED, job.length, taken + 1));
    }
}

#endif
