/* Prices for W, and a job at other prices. */
#ifndef PRICE_LIST_H
#define PRICE_LIST_H

#include "covers.h"
#include "job.h"

/* Of a term, a literal, a connection. */
typedef struct {
    uint8_t term, literal, connection;
} Prices;

static inline void put_prices(Job *job, Prices w)
{
    job->len += cover_put_prices(job->bytes + job->len, w.term, w.literal, w.connection);
}

/* Whether it begins with I and has room for W. */
static inline bool can_have_prices(const Job *job)
{
    return job->len >= COVER_SIZES_BYTES && job->bytes[0] == COVER_SIZES && job->len + COVER_PRICES_BYTES <= LONGEST;
}

/* The job with these prices and no others, without W where there are none. W stands behind I, which comes first. */
static inline void set_prices(Job *job, const Job *of, const Prices *w)
{
    size_t rest = COVER_SIZES_BYTES;
    if (of->len > rest && of->bytes[rest] == COVER_PRICES)
        rest += COVER_PRICES_BYTES;
    job->len = 0;
    put(job, of->bytes, COVER_SIZES_BYTES);
    if (w)
        put_prices(job, *w);
    put(job, of->bytes + rest, of->len - rest);
}

#endif
