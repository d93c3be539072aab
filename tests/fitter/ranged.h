/*
 * Possible covers by V, an own reckoning in the words of K11: every set of up to 10 candidates is tried, and where the
 * ranges have few choices of whole weights every choice too. Drawn ones, in which candidates and ranges come and go.
 */
#ifndef RANGED_H
#define RANGED_H

#include "ready.h"

/* Candidates with their ranges; without one both ends are the weight. */
struct ranged {
    struct mixed mixed;
    struct prices prices;
    int given[MOST_SMALL];
    unsigned low[MOST_SMALL], high[MOST_SMALL];
};

/* Another reading can be put here, to see whether the tests tell the two apart. */
struct range_reading {
    const char *name;
    int members_dear;       /* members cost high, and the others low: at every choice of weights, not at some one */
    int no_ties;            /* less than every other */
    int shared_twice;       /* what both sets have costs low in the one and high in the other */
    int together;           /* all at low, or all at high */
    int by_weights;         /* V goes by the weights */
    int cheap_low, cheap_high, cheap_within; /* C goes by an end, or by the weight moved into the range */
    int stay;               /* ranges stay at their numbers where a candidate goes */
    int stay_above;         /* those of the candidates above are lost there */
    int lost_at_add;        /* ranges are lost where one comes */
    int first_kept;         /* of two ranges the earlier one */
    int joined;             /* of two ranges both */
    int stale;              /* a new candidate has the range that was last at its number */
    int wide;               /* without G from 0 to 850 */
    int with_weight;        /* the weight lies in the range */
    int usual;              /* without G terms cost the usual prices */
    int for_equals;         /* a range is of all candidates equal to this one */
    int redundant;          /* covers of which a member can go are listed too */
    int of_listed;          /* more tells of L's list */
};

static const struct range_reading ranges_as_requested = {.name = "K11"};
static struct range_reading range_reading = {.name = "K11"};
static int readings_changed; /* whether it is another one */

static unsigned weight_at(const struct ranged *r, size_t i)
{
    return costs(&r->mixed.all[i], r->prices);
}

static unsigned unranged(const struct ranged *r, size_t i, unsigned end)
{
    static const struct prices usual_prices = {1, 1, 0};
    if (range_reading.wide)
        return end ? COVER_MOST_WEIGHT : 0;
    return range_reading.usual ? costs(&r->mixed.all[i], usual_prices) : weight_at(r, i);
}

static unsigned least_of(unsigned a, unsigned b) { return a < b ? a : b; }
static unsigned most_of(unsigned a, unsigned b) { return a < b ? b : a; }

/* End 0 is low, end 1 is high. */
static unsigned end_of(const struct ranged *r, size_t i, unsigned end)
{
    if (!r->given[i] || range_reading.by_weights)
        return unranged(r, i, end);
    unsigned low = r->low[i], high = r->high[i];
    if (range_reading.with_weight) {
        low = least_of(low, weight_at(r, i));
        high = most_of(high, weight_at(r, i));
    }
    return end ? high : low;
}

/* Candidates as G, A, D change them. */

static void set_range(struct ranged *r, size_t i, unsigned low, unsigned high)
{
    if (r->given[i] && range_reading.first_kept)
        return;
    if (r->given[i] && range_reading.joined) {
        low = least_of(low, r->low[i]);
        high = most_of(high, r->high[i]);
    }
    r->given[i] = 1;
    r->low[i] = low;
    r->high[i] = high;
}

static int are_equal(const struct candidate *a, const struct candidate *b)
{
    return !a->is_block && !b->is_block && memcmp(a->term, b->term, sizeof a->term) == 0;
}

static void put_range(struct job *job, struct ranged *r, size_t number, unsigned low, unsigned high)
{
    add_range(job, (unsigned)number, low, high);
    set_range(r, number, low, high);
    for (size_t i = 0; i < r->mixed.count && range_reading.for_equals; i++)
        if (i != number && are_equal(&r->mixed.all[i], &r->mixed.all[number]))
            set_range(r, i, low, high);
}

static void go_ranged(struct job *job, struct ranged *r, size_t number)
{
    add_remove(job, (unsigned)number);
    go_from(&r->mixed, number);
    for (size_t i = number; i < r->mixed.count && !range_reading.stay; i++) {
        r->given[i] = r->given[i + 1] && !range_reading.stay_above;
        r->low[i] = r->low[i + 1];
        r->high[i] = r->high[i + 1];
    }
}

static void come_ranged(struct job *job, struct ranged *r, const struct candidate *late)
{
    put_any(job, late, 1);
    if (!range_reading.stale)
        r->given[r->mixed.count] = 0;
    for (size_t i = 0; i < r->mixed.count && range_reading.lost_at_add; i++)
        r->given[i] = 0;
    r->mixed.all[r->mixed.count++] = *late;
}

/* Which sets are possible. */

static unsigned cost_at(const unsigned *weights, uint64_t set)
{
    unsigned cost = 0;
    for (size_t i = 0; set >> i; i++)
        cost += set >> i & 1 ? weights[i] : 0;
    return cost;
}

static int is_cheapest_at(const unsigned *weights, uint64_t set, const struct list *sets)
{
    for (size_t k = 0; k < sets->count; k++) {
        unsigned other = cost_at(weights, sets->sets[k]), own = cost_at(weights, set);
        if (other < own || (range_reading.no_ties && other == own && sets->sets[k] != set))
            return 0;
    }
    return 1;
}

/* The words of K11: at some choice of whole weights within the ranges. */
static int some_choice(const struct ranged *r, uint64_t set, const struct list *sets)
{
    unsigned weights[MOST_SMALL];
    for (size_t i = 0; i < r->mixed.count; i++)
        weights[i] = end_of(r, i, 0);
    for (;;) {
        if (is_cheapest_at(weights, set, sets))
            return 1;
        size_t i = 0;
        for (; i < r->mixed.count && weights[i] == end_of(r, i, 1); i++)
            weights[i] = end_of(r, i, 0);
        if (i == r->mixed.count)
            return 0;
        weights[i]++;
    }
}

enum { MOST_CHOICES = 300 };

static int has_few_choices(const struct ranged *r)
{
    unsigned choices = 1;
    for (size_t i = 0; i < r->mixed.count && choices <= MOST_CHOICES; i++)
        choices *= end_of(r, i, 1) - end_of(r, i, 0) + 1;
    return choices <= MOST_CHOICES;
}

/* With the members at one end and the others at the other one. */
static int is_cheapest_by_ends(const struct ranged *r, uint64_t set, const struct list *sets, unsigned members,
                               unsigned others)
{
    unsigned weights[MOST_SMALL];
    for (size_t i = 0; i < r->mixed.count; i++)
        weights[i] = end_of(r, i, set >> i & 1 ? members : others);
    return is_cheapest_at(weights, set, sets);
}

static int is_below_others(const struct ranged *r, uint64_t set, const struct list *sets)
{
    unsigned lows[MOST_SMALL], highs[MOST_SMALL];
    for (size_t i = 0; i < r->mixed.count; i++) {
        lows[i] = end_of(r, i, 0);
        highs[i] = end_of(r, i, 1);
    }
    for (size_t k = 0; k < sets->count; k++)
        if (sets->sets[k] != set && cost_at(highs, sets->sets[k]) < cost_at(lows, set))
            return 0;
    return 1;
}

static int is_possible(const struct ranged *r, uint64_t set, const struct list *sets)
{
    if (range_reading.together)
        return is_cheapest_by_ends(r, set, sets, 0, 0) || is_cheapest_by_ends(r, set, sets, 1, 1);
    if (range_reading.members_dear)
        return is_cheapest_by_ends(r, set, sets, 1, 0);
    if (range_reading.shared_twice)
        return is_below_others(r, set, sets);
    int possible = is_cheapest_by_ends(r, set, sets, 0, 1);
    if (!readings_changed && has_few_choices(r))
        CHECK(possible == some_choice(r, set, sets));
    return possible;
}

/* What V from `start` with `count` is to give, then C: a number and, where that is 0, the bytes. */

static struct list possible_sets(const struct ranged *r, const struct list *sets)
{
    struct list list = {.count = 0};
    uint64_t most = UINT64_C(1) << r->mixed.count;
    for (size_t k = 0; k < sets->count && !range_reading.redundant; k++)
        if (is_possible(r, sets->sets[k], sets))
            list.sets[list.count++] = sets->sets[k];
    for (uint64_t set = 0; set < most && range_reading.redundant && list.count < MOST_LISTED; set++)
        if (all_held(&r->mixed, set) && is_possible(r, set, sets))
            list.sets[list.count++] = set;
    return list;
}

static int stands_above(const struct list *sets, uint64_t from)
{
    return sets->count > 0 && sets->sets[sets->count - 1] >= from;
}

static void know_possible(struct known *known, const struct ranged *r, const struct list *sets, uint64_t start,
                          unsigned count)
{
    struct list all = possible_sets(r, sets);
    uint64_t next = start;
    size_t head = known->length, k = 0;
    know(known, 1, COVER_POSSIBLE_ANSWER);
    know(known, 2, 0);
    for (size_t i = 0; i < all.count && k < count; i++)
        if (all.sets[i] >= start) {
            know(known, 8, all.sets[i]);
            next = all.sets[i] + 1;
            k++;
        }
    known->bytes[head + 1] = (uint8_t)k;
    known->bytes[head + 2] = (uint8_t)stands_above(range_reading.of_listed ? sets : &all, next);
}

static unsigned cheap_weight(const struct ranged *r, size_t i)
{
    unsigned weight = weight_at(r, i), low = end_of(r, i, 0), high = end_of(r, i, 1);
    if (range_reading.cheap_within)
        return weight < low ? low : weight > high ? high : weight;
    return range_reading.cheap_low ? low : range_reading.cheap_high ? high : weight;
}

static void know_cheapest_of(struct known *known, const struct ranged *r, const struct list *sets)
{
    unsigned weights[MOST_SMALL];
    uint64_t cheapest = sets->sets[0];
    for (size_t i = 0; i < r->mixed.count; i++)
        weights[i] = cheap_weight(r, i);
    for (size_t k = 1; k < sets->count; k++)
        if (cost_at(weights, sets->sets[k]) < cost_at(weights, cheapest))
            cheapest = sets->sets[k];
    know(known, 1, COVER_CHEAPEST_ANSWER);
    know(known, 2, cost_at(weights, cheapest));
    know(known, 8, cheapest);
}

/* V of 255 sets from 0 on, C, and another V, behind a job without an end and `taken` bytes of answers; gives how many
   there are then. Where V is refused all go out again. */
static size_t ask_ranged(struct job *job, size_t taken, const struct ranged *r, uint64_t start, unsigned count)
{
    static struct known known;
    struct list sets = least_sets(&r->mixed);
    size_t at = job->length;
    add_possible(job, 0, COVER_MOST_SETS);
    add(job, COVER_CHEAPEST);
    add_possible(job, start, count);
    uint64_t outcome = call(job, COVER_MOST_ANSWER_BYTES);
    if (sets.count == 0) {
        CHECK(is(outcome, COVER_UNHELD_CELL, at, taken));
        job->length = at;
        return taken;
    }
    known.length = 0;
    know_possible(&known, r, &sets, 0, COVER_MOST_SETS);
    know_cheapest_of(&known, r, &sets);
    know_possible(&known, r, &sets, start, count);
    CHECK(is(outcome, COVER_NO_END, job->length, taken + known.length));
    CHECK(memcmp(answers + taken, known.bytes, known.length) == 0);
    return taken + known.length;
}

/* Drawn. */

static void draw_range(struct job *job, struct ranged *r, uint64_t *state)
{
    static const unsigned limits[] = {3, 6, COVER_MOST_WEIGHT + 1};
    unsigned kind = (unsigned)draw(state) % 8, limit = limits[draw(state) % 3];
    size_t number = draw(state) % r->mixed.count;
    unsigned low = (unsigned)draw(state) % limit, high = kind < 2 ? low : (unsigned)draw(state) % limit;
    if (kind == 2 || kind == 3) {
        low = weight_at(r, number) / 2;
        high = least_of(2 * weight_at(r, number), COVER_MOST_WEIGHT);
    }
    put_range(job, r, number, kind == 4 ? 0 : least_of(low, high), kind == 4 ? COVER_MOST_WEIGHT : most_of(low, high));
}

/* Ranges come, one goes, or a term comes by A, often an equal one. */
static void change_ranged(struct job *job, struct ranged *r, uint64_t *state)
{
    struct candidate late = {.is_block = 0};
    unsigned kind = (unsigned)draw(state) % 4;
    size_t like = r->mixed.count > 0 ? draw(state) % r->mixed.count : 0;
    draw_term(state, r->mixed.n, r->mixed.m, late.term);
    if (kind == 0 && r->mixed.count > 0 && !r->mixed.all[like].is_block)
        memcpy(late.term, r->mixed.all[like].term, sizeof late.term);
    for (unsigned i = 0; kind > 1 && i < kind && r->mixed.count > 0; i++)
        draw_range(job, r, state);
    if (kind == 1 && r->mixed.count > 0)
        go_ranged(job, r, draw(state) % r->mixed.count);
    else if (kind < 2 && r->mixed.count < MOST_SMALL && is_legal(&r->mixed, late.term))
        come_ranged(job, r, &late);
}

static void test_ranged(void)
{
    static struct job job;
    uint64_t state = 41;
    for (unsigned turn = 0; turn < 400; turn++) {
        struct ranged r = {.mixed = draw_mixed(&state)};
        r.prices = put_mixed(&job, &r.mixed, &state);
        size_t taken = ask_ranged(&job, 0, &r, draw(&state) % 64, (unsigned)draw(&state) % 4);
        for (unsigned i = 0; i < 6; i++) {
            change_ranged(&job, &r, &state);
            change_ranged(&job, &r, &state);
            taken = ask_ranged(&job, taken, &r, draw(&state) % 256, (unsigned)draw(&state) % 4);
        }
        add(&job, COVER_END);
        CHECK(is(call(&job, taken + 1), COVER_ACCEPTED, job.length, taken + 1));
    }
}

#endif
