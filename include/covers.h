/*
 * The cover engine, for C programmers (C99 and later, C++).
 *
 * One call runs one job: the commands lie in the job buffer, the answers are put into the
 * answer buffer, and one number tells how it ended.
 *
 * What is promised
 *   - Every job ends: it is accepted, or it is refused with one of the numbers 1 to 19.
 *   - Accepted: the number is 0, the offset is the job's length, and each command with an
 *     answer has put it into the answer buffer, in the order of the commands.
 *   - Refused: the offset is that of the first byte of the command that was refused, and
 *     `written` counts the bytes of the answers finished before it. They are good.
 *     (Number 1: offset and written are 0. Number 2: the offset is the job's length.)
 *   - Either way every byte of the answer buffer from `written` on is unchanged.
 *   - The job buffer is only read, and neither buffer is touched outside its length.
 *   - Nothing is kept between calls: the outcome depends on the job's bytes and on the length
 *     of the answer buffer only. The call is reentrant; threads may call it at the same time
 *     with buffers of their own.
 * This is proved of cover_job. The inline functions below only read and write the format; they
 * are tested.
 *
 * What is asked of the caller
 *   - `job` is valid for reading job_len bytes and `answers` for writing answers_len bytes.
 *   - The two buffers do not overlap.
 *   - A length of 0 goes with any pointer, also with a null pointer: it is not read then.
 *     A job of no bytes is refused with number 2. An answer buffer of no bytes is no fault by
 *     itself: the first command that has an answer is refused with number 14.
 *
 * The commands, each one byte with operands of fixed width, numbers low byte first:
 *   COVER_SIZES     n, m                   first, once; each 1 to 8
 *   COVER_PRICES    term, literal,         the price of a term, of a literal and of an output
 *                   connection             connection, each 0 to 50; without it 1, 1 and 0; once,
 *                                          right behind sizes and before everything else
 *   COVER_ROW       vertex, on, dc         before any term, block, add, primes or query
 *   COVER_ROWS      vertex, 8 x (on, dc)   the rows of this vertex and of the seven above it, in
 *                                          rising order; where a row may stand
 *   COVER_TERM      care, value, outputs   adds a candidate at the end; not after primes or a query
 *   COVER_BLOCK     outputs,               adds a ready-made block as a candidate at the end;
 *                   vertices (32 bytes),   where a term may stand. Bit v % 8 of byte v / 8 is
 *                   weight (2)             vertex v; the weight is 0 to 850
 *   COVER_PRIMES                           the primes become the candidates; once, no term, block
 *                                          or add before it, not after a query
 *   COVER_ADD       care, value, outputs   adds a candidate at the end; anywhere, also after
 *                                          primes or a query
 *   COVER_REMOVE    number                 takes this candidate out, and those above it move down
 *                                          by one; anywhere, as an add
 *   COVER_RANGE     number, low (2),       the weight of this candidate is known only to lie from
 *                   high (2)               low to high, 0 to 850; anywhere, as an add
 *   COVER_LIST      start (8 bytes), count (1)
 *   COVER_POSSIBLE  start (8 bytes), count (1)
 *   COVER_CHEAPEST
 *   COVER_MULTIPLY
 *   COVER_END                              last
 * List, possible, cheapest and multiply are the queries, and for the places of the other commands a
 * range counts as a query, too: no prices, row, rows, term, block or primes may follow it. An
 * operand is one byte unless its width is given. Where nothing else is said, a command may stand
 * anywhere behind COVER_SIZES and before COVER_END. For the places of row, rows and primes a term,
 * block or add counts even if its candidate has been taken out again. A term or block may follow an
 * add or a remove as long as no primes, query or range came.
 *
 * COVER_ROWS equals eight COVER_ROW commands, one by one; both kinds may stand in one job, in any
 * order of the vertices. A vertex above 255 counts as one of 2^n or more and does not wrap, so the
 * command is refused unless its first vertex is at most 2^n - 8, and always with fewer than 3
 * inputs. The answers are those of the job with the row commands, where that job is not too long
 * (number 1).
 *
 * The candidates have the numbers from 0 on, in the order in which they came; at most 64 stand at
 * a time, and equal ones are allowed. A candidate is a product term or a block. A block holds cell
 * (v, j) when its bits of vertex v and of output j are set; it may hold no cell at all, and then it
 * is in no irredundant cover. Everything on sets goes by what the candidates hold and cost, so
 * that list, possible, cheapest and multiply take blocks and terms alike; primes are terms.
 *
 * Each candidate has a range, of which COVER_POSSIBLE alone takes notice. Without COVER_RANGE both
 * ends are the candidate's weight: what a term costs at the prices, and a block its own. A later
 * range of a candidate replaces its earlier one. An add or a remove leaves the others their ranges,
 * also those that move down, and both ends of a new candidate are its weight. The weight stays what
 * it was, and may lie outside the range: the cheapest goes by the weights.
 *
 * The answers, numbers low byte first; the other commands have none:
 *   COVER_PRIMES    0x70, count (1 byte), then care, value and outputs of each prime
 *   COVER_LIST      0x6C, sets k (1 byte), more (0 or 1), then k times 8 bytes: the
 *                   irredundant covers at or above start, rising, none skipped, at most count.
 *                   `more` tells whether one stands above those. With count 0 there are no
 *                   sets, and `more` tells whether one stands at or above start.
 *   COVER_POSSIBLE  0x76, and all else as in the answer to COVER_LIST, of another list: the
 *                   irredundant covers that for at least one choice of whole weights within the
 *                   ranges cost no more than every other irredundant cover. `more` tells of this
 *                   list.
 *   COVER_CHEAPEST  0x63, cost (2 bytes), set (8 bytes): the irredundant cover of least cost, the
 *                   smallest number among equals. A term costs the price of a term, plus the price
 *                   of a literal for each of its literals (the ones in care) where it has two or
 *                   more, plus the price of a connection for each of its outputs; a block costs
 *                   its weight, whatever the prices; a set costs the sum over its members. A
 *                   candidate costs 850 at most and a set 64 x 850 = 54,400, so that the cost fits
 *                   its two bytes.
 *   COVER_MULTIPLY  0x6E, sets k (2 bytes), then k times 8 bytes: all irredundant covers, rising;
 *                   1,024 at most, so that the answer has at most 8,195 bytes
 *   COVER_END       0x65
 * Bit i of a set stands for candidate i of those that stand at the command, as the terms, blocks,
 * primes, adds and removes before it leave them. The queries answer as in a fresh job that has the
 * same prices and rows, these candidates, in this order, as its terms and blocks, and then their
 * ranges. The prices are for the cheapest, and for the ends of the terms that have no COVER_RANGE:
 * primes, list and multiply answer the same bytes at any prices and ranges.
 *
 * An irredundant cover is possible exactly when, with its members at their low ends and all other
 * candidates at their high ends, no cover costs less. So there is a possible one wherever there is
 * a cover; where the two ends of each candidate are equal, the possible ones are all those of least
 * cost; and with all ranges from 0 to 850 the list is that of COVER_LIST.
 *
 * COVER_MULTIPLY is for tables with few wanted cells: its sets are those of the pages by COVER_LIST
 * joined until no more is reported, in one answer. It takes the wanted cells by vertex, then
 * output, and behind each it has all products: the sets that hold every cell up to there, and of
 * which no smaller part does. With no wanted cell there is one product, 0. It is refused with
 * number 17, after 12 and before 14, where more than 1,024 products remain at some cell, even if
 * few would remain at the last one. Then ask for pages: they have no such limit.
 *
 * Paging: the first page starts at 0, each further one at one above the last set of the page
 * before; a page without sets leaves the start as it was. No page follows one that says no
 * more. Where a job or an answer buffer is too short for all pages, a further job sets the same
 * table and the same candidates in the same order anew, by the same adds and removes, and goes
 * on. Pages are joined only where the same adds and removes stand before each, in a further job
 * too: behind one more of them the list is another one, and its first page starts at 0. For its
 * pages by COVER_LIST a further job need not set the prices and ranges, and may set others; where
 * it asks for the cheapest it sets the prices anew. Pages by COVER_POSSIBLE are joined by the same
 * rules, with each other alone, and only where the weights and ranges are the same too: a further
 * job sets the prices and the ranges anew.
 *
 * A job is put together by the cover_put functions, and its answers are read one by one:
 *
 *     uint64_t outcome = cover_job(job, job_len, answers, sizeof answers);
 *     size_t written = cover_written(outcome);
 *     for (size_t at = 0; at < written; at += cover_answer_bytes(answers + at))
 *         if (answers[at] == COVER_LIST_ANSWER)
 *             for (size_t i = 0; i < cover_page_sets(answers + at); i++)
 *                 take(cover_page_set(answers + at, i));
 */
#ifndef COVERS_H
#define COVERS_H

#include <stddef.h>
#include <stdint.h>

#ifdef __cplusplus
extern "C" {
#endif

/* The largest sizes. A longer job or answer buffer is refused with number 1. */
#define COVER_MOST_JOB_BYTES 32768u
#define COVER_MOST_ANSWER_BYTES 32768u
#define COVER_MOST_INPUTS 8u
#define COVER_MOST_OUTPUTS 8u
#define COVER_MOST_CANDIDATES 64u
#define COVER_MOST_SETS 255u      /* on one page */
#define COVER_MOST_PRODUCTS 1024u /* by one multiply */
#define COVER_MOST_PRICE 50u
#define COVER_MOST_WEIGHT 850u     /* of a block, and at an end of a range */
#define COVER_VERTEX_BYTES 32u     /* of a block */

/* The first byte of each command. */
enum cover_command {
    COVER_SIZES = 0x49,    /* I */
    COVER_PRICES = 0x57,   /* W */
    COVER_ROW = 0x52,      /* R */
    COVER_ROWS = 0x42,     /* B */
    COVER_TERM = 0x54,     /* T */
    COVER_BLOCK = 0x46,    /* F */
    COVER_PRIMES = 0x50,   /* P */
    COVER_ADD = 0x41,      /* A */
    COVER_REMOVE = 0x44,   /* D */
    COVER_RANGE = 0x47,    /* G */
    COVER_LIST = 0x4C,     /* L */
    COVER_POSSIBLE = 0x56, /* V */
    COVER_CHEAPEST = 0x43, /* C */
    COVER_MULTIPLY = 0x4E, /* N */
    COVER_END = 0x45       /* E */
};

/* The bytes of each command, operands included. */
#define COVER_SIZES_BYTES 3u
#define COVER_PRICES_BYTES 4u
#define COVER_ROW_BYTES 4u
#define COVER_ROWS_BYTES 18u
#define COVER_TERM_BYTES 4u
#define COVER_BLOCK_BYTES 36u
#define COVER_PRIMES_BYTES 1u
#define COVER_ADD_BYTES 4u
#define COVER_REMOVE_BYTES 2u
#define COVER_RANGE_BYTES 6u
#define COVER_LIST_BYTES 10u
#define COVER_POSSIBLE_BYTES 10u
#define COVER_CHEAPEST_BYTES 1u
#define COVER_MULTIPLY_BYTES 1u
#define COVER_END_BYTES 1u

/* The first byte of each answer. */
enum cover_answer {
    COVER_PRIMES_ANSWER = 0x70,
    COVER_LIST_ANSWER = 0x6C,
    COVER_POSSIBLE_ANSWER = 0x76,
    COVER_CHEAPEST_ANSWER = 0x63,
    COVER_MULTIPLY_ANSWER = 0x6E,
    COVER_END_ANSWER = 0x65
};

/* The bytes of each answer. */
#define COVER_PRIMES_ANSWER_BYTES(count) (2u + 3u * (count))
#define COVER_LIST_ANSWER_BYTES(sets) (3u + 8u * (sets))
#define COVER_POSSIBLE_ANSWER_BYTES(sets) (3u + 8u * (sets))
#define COVER_CHEAPEST_ANSWER_BYTES 11u
#define COVER_MULTIPLY_ANSWER_BYTES(sets) (3u + 8u * (sets))
#define COVER_END_ANSWER_BYTES 1u

/*
 * How a job ended. At each command the refusals are tried in the order in which they stand here,
 * 15 and 19 right after 5, 16 right after 6, 18 right after 9 and 17 right after 12, and the first
 * that applies is given. At COVER_ROWS 7 and 8 are tried row by row: 8 of a row comes before 7 of a
 * later one. The offset is that of the command, whichever row it was.
 */
enum cover_refusal {
    COVER_ACCEPTED = 0,
    COVER_TOO_LONG = 1,           /* the job or the answer buffer is longer than 32,768 bytes */
    COVER_NO_END = 2,             /* the job ends where a command byte is due */
    COVER_NO_COMMAND = 3,         /* the byte is no command */
    COVER_WRONG_PLACE = 4,        /* the command is not allowed at this place */
    COVER_NO_OPERANDS = 5,        /* operand bytes are missing */
    COVER_WRONG_CANDIDATE = 15,   /* no candidate has the number, at a remove or a range */
    COVER_MALFORMED_RANGE = 19,   /* low is above high, or high is above 850 */
    COVER_WRONG_SIZES = 6,        /* n or m is outside 1 to 8 */
    COVER_WRONG_PRICES = 16,      /* a price is above 50 */
    COVER_WRONG_VERTEX = 7,       /* the vertex is 2^n or more, or has a row already */
    COVER_WRONG_ROW = 8,          /* on and dc share a bit, or one has bit m or above */
    COVER_MALFORMED_TERM = 9,     /* a care bit n or above, a value bit outside care, outputs 0,
                                     or an output bit m or above */
    COVER_MALFORMED_BLOCK = 18,   /* outputs 0, an output bit m or above, a vertex bit 2^n or
                                     above, or a weight above 850 */
    COVER_OFF_CELL = 10,          /* the term or block holds an off cell */
    COVER_TOO_MANY = 11,          /* a 65th standing candidate, or more than 64 primes */
    COVER_UNHELD_CELL = 12,       /* a wanted cell is held by no candidate */
    COVER_TOO_MANY_PRODUCTS = 17, /* at a multiply more than 1,024 products remain at some cell */
    COVER_BYTES_AFTER_END = 13,   /* bytes follow the end command; its answer isn't written */
    COVER_NO_ROOM = 14            /* the answer is longer than the free part of the buffer */
};

#define COVER_LAST_REFUSAL 19u /* the largest number */

/* Runs a job. Gives number * 2^32 + offset * 2^16 + written. */
uint64_t cover_job(const uint8_t *job, size_t job_len, uint8_t *answers, size_t answers_len);

/* The three numbers of an outcome. */
static inline enum cover_refusal cover_number(uint64_t outcome)
{
    return (enum cover_refusal)(outcome >> 32);
}

static inline size_t cover_offset(uint64_t outcome)
{
    return (size_t)(outcome >> 16 & 0xFFFFu);
}

static inline size_t cover_written(uint64_t outcome)
{
    return (size_t)(outcome & 0xFFFFu);
}

/* A number of `width` bytes, 1 to 8, low byte first, as it stands at `bytes`. */
static inline uint64_t cover_get_number(const uint8_t *bytes, size_t width)
{
    uint64_t number = 0;
    while (width > 0)
        number = number << 8 | bytes[--width];
    return number;
}

static inline void cover_put_number(uint8_t *bytes, size_t width, uint64_t number)
{
    for (size_t i = 0; i < width; i++)
        bytes[i] = (uint8_t)(number >> 8 * i);
}

/*
 * Putting a job together. Each writes one command at `at`, where there must be room for its
 * bytes, and gives their count: length += cover_put_row(job + length, vertex, on, dc).
 */

/* A command without operands: COVER_PRIMES, COVER_CHEAPEST, COVER_MULTIPLY, COVER_END. */
static inline size_t cover_put_command(uint8_t *at, enum cover_command command)
{
    at[0] = (uint8_t)command;
    return 1;
}

static inline size_t cover_put_sizes(uint8_t *at, unsigned n, unsigned m)
{
    at[0] = COVER_SIZES;
    at[1] = (uint8_t)n;
    at[2] = (uint8_t)m;
    return COVER_SIZES_BYTES;
}

static inline size_t cover_put_prices(uint8_t *at, unsigned term, unsigned literal,
                                      unsigned connection)
{
    at[0] = COVER_PRICES;
    at[1] = (uint8_t)term;
    at[2] = (uint8_t)literal;
    at[3] = (uint8_t)connection;
    return COVER_PRICES_BYTES;
}

static inline size_t cover_put_row(uint8_t *at, unsigned vertex, unsigned on, unsigned dc)
{
    at[0] = COVER_ROW;
    at[1] = (uint8_t)vertex;
    at[2] = (uint8_t)on;
    at[3] = (uint8_t)dc;
    return COVER_ROW_BYTES;
}

/* Eight rows: on[i] and dc[i], i from 0 to 7, are those of vertex + i. */
static inline size_t cover_put_rows(uint8_t *at, unsigned vertex, const uint8_t *on,
                                    const uint8_t *dc)
{
    at[0] = COVER_ROWS;
    at[1] = (uint8_t)vertex;
    for (size_t i = 0; i < 8; i++) {
        at[2 + 2 * i] = on[i];
        at[3 + 2 * i] = dc[i];
    }
    return COVER_ROWS_BYTES;
}

static inline size_t cover_put_term(uint8_t *at, unsigned care, unsigned value, unsigned outputs)
{
    at[0] = COVER_TERM;
    at[1] = (uint8_t)care;
    at[2] = (uint8_t)value;
    at[3] = (uint8_t)outputs;
    return COVER_TERM_BYTES;
}

/* A block: vertices[v / 8] has bit v % 8 for vertex v. */
static inline size_t cover_put_block(uint8_t *at, unsigned outputs,
                                     const uint8_t vertices[COVER_VERTEX_BYTES], unsigned weight)
{
    at[0] = COVER_BLOCK;
    at[1] = (uint8_t)outputs;
    for (size_t i = 0; i < COVER_VERTEX_BYTES; i++)
        at[2 + i] = vertices[i];
    cover_put_number(at + 34, 2, weight);
    return COVER_BLOCK_BYTES;
}

static inline size_t cover_put_add(uint8_t *at, unsigned care, unsigned value, unsigned outputs)
{
    at[0] = COVER_ADD;
    at[1] = (uint8_t)care;
    at[2] = (uint8_t)value;
    at[3] = (uint8_t)outputs;
    return COVER_ADD_BYTES;
}

static inline size_t cover_put_remove(uint8_t *at, unsigned number)
{
    at[0] = COVER_REMOVE;
    at[1] = (uint8_t)number;
    return COVER_REMOVE_BYTES;
}

/* The range of candidate `number`. */
static inline size_t cover_put_range(uint8_t *at, unsigned number, unsigned low, unsigned high)
{
    at[0] = COVER_RANGE;
    at[1] = (uint8_t)number;
    cover_put_number(at + 2, 2, low);
    cover_put_number(at + 4, 2, high);
    return COVER_RANGE_BYTES;
}

static inline size_t cover_put_list(uint8_t *at, uint64_t start, unsigned count)
{
    at[0] = COVER_LIST;
    cover_put_number(at + 1, 8, start);
    at[9] = (uint8_t)count;
    return COVER_LIST_BYTES;
}

static inline size_t cover_put_possible(uint8_t *at, uint64_t start, unsigned count)
{
    at[0] = COVER_POSSIBLE;
    cover_put_number(at + 1, 8, start);
    at[9] = (uint8_t)count;
    return COVER_POSSIBLE_BYTES;
}

/* The bytes of the command that begins with this byte, operands included; 0 where none does. */
static inline size_t cover_command_bytes(uint8_t byte)
{
    switch (byte) {
    case COVER_SIZES: return COVER_SIZES_BYTES;
    case COVER_PRICES: return COVER_PRICES_BYTES;
    case COVER_ROW: return COVER_ROW_BYTES;
    case COVER_ROWS: return COVER_ROWS_BYTES;
    case COVER_TERM: return COVER_TERM_BYTES;
    case COVER_BLOCK: return COVER_BLOCK_BYTES;
    case COVER_PRIMES: return COVER_PRIMES_BYTES;
    case COVER_ADD: return COVER_ADD_BYTES;
    case COVER_REMOVE: return COVER_REMOVE_BYTES;
    case COVER_RANGE: return COVER_RANGE_BYTES;
    case COVER_LIST: return COVER_LIST_BYTES;
    case COVER_POSSIBLE: return COVER_POSSIBLE_BYTES;
    case COVER_CHEAPEST: return COVER_CHEAPEST_BYTES;
    case COVER_MULTIPLY: return COVER_MULTIPLY_BYTES;
    case COVER_END: return COVER_END_BYTES;
    default: return 0;
    }
}

/*
 * Reading answers. `answer` is the first byte of a finished answer, of the kind that the function
 * is named after. Up to `written` all answers are finished.
 */

/* The bytes of any answer, told by its head; 0 where the first byte begins none. */
static inline size_t cover_answer_bytes(const uint8_t *answer)
{
    switch (answer[0]) {
    case COVER_PRIMES_ANSWER: return COVER_PRIMES_ANSWER_BYTES((size_t)answer[1]);
    case COVER_LIST_ANSWER: return COVER_LIST_ANSWER_BYTES((size_t)answer[1]);
    case COVER_POSSIBLE_ANSWER: return COVER_POSSIBLE_ANSWER_BYTES((size_t)answer[1]);
    case COVER_CHEAPEST_ANSWER: return COVER_CHEAPEST_ANSWER_BYTES;
    case COVER_MULTIPLY_ANSWER:
        return COVER_MULTIPLY_ANSWER_BYTES((size_t)cover_get_number(answer + 1, 2));
    case COVER_END_ANSWER: return COVER_END_ANSWER_BYTES;
    default: return 0;
    }
}

static inline size_t cover_primes_count(const uint8_t *answer)
{
    return answer[1];
}

/* Care, value and outputs of prime i, three bytes. */
static inline const uint8_t *cover_prime(const uint8_t *answer, size_t i)
{
    return answer + COVER_PRIMES_ANSWER_BYTES(i);
}

/*
 * A page, the answer to COVER_LIST or to COVER_POSSIBLE: how many sets it has, whether more of the
 * same list stand above, set i.
 */
static inline size_t cover_page_sets(const uint8_t *answer)
{
    return answer[1];
}

static inline int cover_page_more(const uint8_t *answer)
{
    return answer[2];
}

static inline uint64_t cover_page_set(const uint8_t *answer, size_t i)
{
    return cover_get_number(answer + COVER_LIST_ANSWER_BYTES(i), 8);
}

/*
 * Where the page behind this one starts, which was asked for from `start`. Nothing stands above
 * 2^64 - 1: where this goes round to 0, the page says no more.
 */
static inline uint64_t cover_page_next(const uint8_t *answer, uint64_t start)
{
    size_t sets = cover_page_sets(answer);
    return sets == 0 ? start : cover_page_set(answer, sets - 1) + 1;
}

static inline unsigned cover_cheapest_cost(const uint8_t *answer)
{
    return (unsigned)cover_get_number(answer + 1, 2);
}

static inline uint64_t cover_cheapest_set(const uint8_t *answer)
{
    return cover_get_number(answer + 3, 8);
}

/* The answer to COVER_MULTIPLY: how many sets it has, set i. */
static inline size_t cover_multiply_sets(const uint8_t *answer)
{
    return (size_t)cover_get_number(answer + 1, 2);
}

static inline uint64_t cover_multiply_set(const uint8_t *answer, size_t i)
{
    return cover_get_number(answer + COVER_MULTIPLY_ANSWER_BYTES(i), 8);
}

#ifdef __cplusplus
}
#endif

#endif
