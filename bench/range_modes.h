/* G and V, and another job with V in the place of its queries, at several kinds of ranges. */
#ifndef RANGE_MODES_H
#define RANGE_MODES_H

#include <string.h>

#include "covers.h"
#include "job.h"
#include "price_list.h"

static inline void put_range(Job *job, unsigned number, unsigned low, unsigned high)
{
    job->len += cover_put_range(job->bytes + job->len, number, low, high);
}

static inline void put_possible(Job *job, uint64_t start, unsigned count)
{
    job->len += cover_put_possible(job->bytes + job->len, start, count);
}

/* Without G; the weight at both ends; from half of it, rounded down, to twice as much, or 850; every weight. */
typedef enum { NO_RANGES, EQUAL_ENDS, HALF_TO_DOUBLE, ALL_WEIGHTS, RANGE_MODES } RangeMode;

static const char *const mode_names[RANGE_MODES] = {"no G", "w..w", "w/2..2w", "0..850"};

static inline unsigned least(unsigned a, unsigned b) { return a < b ? a : b; }

static inline unsigned ones_of(unsigned byte) { return (unsigned)__builtin_popcount(byte); }

/* By care and outputs. */
static inline unsigned weight_of(unsigned care, unsigned outputs, Prices w)
{
    unsigned literals = ones_of(care);
    return w.term + (literals < 2 ? 0 : literals * w.literal) + ones_of(outputs) * w.connection;
}

/* What a P leaves, the job's last command and the first with an answer; returns how many. */
static inline unsigned prime_weights(const Job *job, size_t len, Prices w, unsigned *weights)
{
    static uint8_t answers[LONGEST];
    uint64_t outcome = cover_job(job->bytes, len, answers, LONGEST);
    unsigned count = cover_written(outcome) > 0 ? (unsigned)cover_primes_count(answers) : 0;
    for (unsigned i = 0; i < count; i++) {
        const uint8_t *x = cover_prime(answers, i);
        weights[i] = weight_of(x[0], x[2], w);
    }
    return count;
}

/* The weights of the candidates behind the commands of a job without queries; returns how many there are. */
static inline unsigned weights_behind(const Job *job, unsigned *weights)
{
    Prices w = {1, 1, 0};
    unsigned count = 0;
    for (size_t at = 0, next; at < job->len; at = next) {
        const uint8_t *x = job->bytes + at;
        next = behind(job->bytes, job->len, at);
        if (x[0] == COVER_PRICES)
            w = (Prices){x[1], x[2], x[3]};
        else if (x[0] == COVER_TERM || x[0] == COVER_ADD)
            weights[count++] = weight_of(x[1], x[3], w);
        else if (x[0] == COVER_BLOCK)
            weights[count++] = (unsigned)cover_get_number(x + COVER_BLOCK_BYTES - 2, 2);
        else if (x[0] == COVER_PRIMES)
            count = prime_weights(job, next, w, weights);
        else if (x[0] == COVER_REMOVE)
            memmove(weights + x[1], weights + x[1] + 1, (--count - x[1]) * sizeof *weights);
    }
    return count;
}

static inline void put_ranges(Job *job, RangeMode mode)
{
    unsigned weights[COVER_MOST_CANDIDATES], count = weights_behind(job, weights);
    for (unsigned i = 0; i < count && mode != NO_RANGES; i++) {
        unsigned w = weights[i], low = mode == EQUAL_ENDS ? w : mode == ALL_WEIGHTS ? 0 : w / 2;
        unsigned high = mode == EQUAL_ENDS ? w : mode == ALL_WEIGHTS ? COVER_MOST_WEIGHT : 2 * w;
        put_range(job, i, low, least(high, COVER_MOST_WEIGHT));
    }
}

/* The commands before the first query but G, then a G for each candidate. */
static inline void put_ranged_head(Job *job, const Job *of, RangeMode mode)
{
    size_t head = head_of(of->bytes, of->len);
    job->len = 0;
    for (size_t at = 0, next; at < head; at = next) {
        next = behind(of->bytes, head, at);
        if (of->bytes[at] != COVER_RANGE)
            put(job, of->bytes + at, next - at);
    }
    put_ranges(job, mode);
}

/* And V from 0 with this count, and E. */
static inline void put_ranged(Job *job, const Job *of, RangeMode mode, unsigned count)
{
    put_ranged_head(job, of, mode);
    put_possible(job, 0, count);
    put_end(job);
}

#endif
