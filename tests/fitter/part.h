/*
 * Which sets fit the part, an own reckoning in the words of K12: the wide list is paged through by cover_job, and each
 * set of it is counted, member by member and output by output. The candidates are read from the job.
 */
#ifndef PART_H
#define PART_H

#include "range_places.h"
#include "tables.h"

/* Another reading can be tried here, to see whether the tests tell the two apart. */
struct part_reading {
    const char *name;
    int members, for_output;   /* so many more than 32 and 7 */
    unsigned outputs_left;     /* these outputs are not counted */
    int together;              /* 7 connections to all outputs together */
    int lowest;                /* a member counts for its lowest output alone */
    int wanted_only;           /* it counts for outputs of which it holds a wanted cell */
    int blocks_for_none, blocks_for_all, blocks_no_members;
    int late_for_none, primes_for_none; /* candidates by A, by P */
    int outputs_stay;          /* at their numbers where a candidate goes */
    int standing;              /* all that stand are counted, in the set or not */
    int above;                 /* 20 where none fits from the start on */
    int never_20, not_at_count_0, only_with_room, before_12, before_5;
    unsigned number;           /* instead of 20 */
    int offset, all_lost;      /* the offset of what follows; written 0 at 20 */
    int first_alone, later_alone; /* which lists are narrowed: the first of a job, the others */
    unsigned looked_at;        /* so many sets of the wide list are looked at */
    int wide_more, no_more, more_at_0;  /* more of the wide list, never, always with count 0 */
    int filtered;              /* count is of the wide list's page, which is filtered */
    int from_0, next_start;    /* the start is not read, or left out */
    int falling, first_lost, last_lost, twice;
    int cut, wide_room;        /* a page is cut to the room; room for the wide page is asked for */
    int narrow_possible, narrow_cheapest, narrow_multiply; /* sets that do not fit are left out there */
    int refused_possible, refused_cheapest, refused_multiply; /* 20 there */
    int touches;               /* a byte behind the answers where a page is given */
    int touches_20, touches_14; /* where it is refused */
    int kept;                  /* 20 is given at the next list too */
    int dropped;               /* candidates go that no set on the list has */
    int placeless;             /* a list does not count for the places */
    uint8_t lost;              /* what such commands before it have set is lost */
};

static const struct part_reading part_as_requested = {.name = "K12"};

/* The candidates that stand behind a job's commands, as far as K12 asks for them. */
struct drivers {
    struct {
        uint8_t outputs, wanted, command; /* wanted: of these outputs it holds a wanted cell */
    } all[COVER_MOST_CANDIDATES];
    size_t count;
};

enum { MOST_WIDE = 20000 };

/* What a job's commands lead to: its candidates and the wide list. */
struct wide {
    struct job job;
    struct drivers drivers;
    uint64_t sets[MOST_WIDE];
    size_t count;
};

/* Candidates, read from the job. */

static void come_driver(struct drivers *drivers, uint8_t command, uint8_t outputs, uint8_t wanted)
{
    size_t i = drivers->count++;
    drivers->all[i].command = command;
    drivers->all[i].outputs = outputs;
    drivers->all[i].wanted = wanted;
}

static void go_driver(struct drivers *drivers, size_t number, const struct part_reading *reading)
{
    drivers->count--;
    for (size_t i = number; i < drivers->count && !reading->outputs_stay; i++)
        drivers->all[i] = drivers->all[i + 1];
}

static uint8_t wanted_by_term(const uint8_t *on, const uint8_t *term)
{
    uint8_t wanted = 0;
    for (unsigned v = 0; v < 256; v++)
        wanted |= (v & term[0]) == term[1] ? on[v] & term[2] : 0;
    return wanted;
}

static uint8_t wanted_by_block(const uint8_t *on, const uint8_t *operands)
{
    uint8_t wanted = 0;
    for (unsigned v = 0; v < 256; v++)
        wanted |= operands[1 + v / 8] >> v % 8 & 1 ? on[v] & operands[0] : 0;
    return wanted;
}

/* The primes stand at the end of the answers so far. */
static void come_primes(struct drivers *drivers, const uint8_t *on, const struct job *job, size_t end)
{
    static uint8_t primes[COVER_PRIMES_ANSWER_BYTES(COVER_MOST_CANDIDATES)];
    if (cover_number(cover_job(job->bytes, end, primes, sizeof primes)) != COVER_NO_END)
        return;
    for (size_t i = 0; i < cover_primes_count(primes); i++) {
        const uint8_t *prime = cover_prime(primes, i);
        come_driver(drivers, COVER_PRIMES, prime[2], wanted_by_term(on, prime));
    }
}

/* Of a job all of whose commands are accepted. */
static struct drivers drivers_of(const struct job *job, const struct part_reading *reading)
{
    struct drivers drivers = {.count = 0};
    uint8_t on[256] = {0};
    for (size_t at = 0, next; at < job->length; at = next) {
        const uint8_t *x = job->bytes + at + 1;
        next = at + cover_command_bytes(job->bytes[at]);
        switch (job->bytes[at]) {
        case COVER_ROW: on[x[0]] = x[1]; break;
        case COVER_ROWS:
            for (unsigned i = 0; i < 8; i++)
                on[x[0] + i] = x[1 + 2 * i];
            break;
        case COVER_TERM:
        case COVER_ADD: come_driver(&drivers, job->bytes[at], x[2], wanted_by_term(on, x)); break;
        case COVER_BLOCK: come_driver(&drivers, COVER_BLOCK, x[0], wanted_by_block(on, x)); break;
        case COVER_PRIMES: come_primes(&drivers, on, job, next); break;
        case COVER_REMOVE: go_driver(&drivers, x[0], reading); break;
        default: break;
        }
    }
    return drivers;
}

/* Whether a set fits. */

static unsigned counted_outputs(const struct drivers *drivers, size_t i, const struct part_reading *reading)
{
    unsigned outputs = drivers->all[i].outputs;
    uint8_t command = drivers->all[i].command;
    if (command == COVER_BLOCK && reading->blocks_for_all)
        outputs = 255;
    if ((command == COVER_BLOCK && reading->blocks_for_none) || (command == COVER_ADD && reading->late_for_none) ||
        (command == COVER_PRIMES && reading->primes_for_none))
        outputs = 0;
    if (reading->wanted_only)
        outputs &= drivers->all[i].wanted;
    if (reading->lowest)
        outputs &= -outputs;
    return outputs & ~reading->outputs_left;
}

static int fits(const struct drivers *drivers, uint64_t set, const struct part_reading *reading)
{
    unsigned members = 0, connections = 0, for_output[8] = {0};
    for (size_t i = 0; i < drivers->count; i++) {
        unsigned outputs = counted_outputs(drivers, i, reading);
        if (!(set >> i & 1) && !reading->standing)
            continue;
        members += !(drivers->all[i].command == COVER_BLOCK && reading->blocks_no_members);
        connections += ones_of(outputs);
        for (size_t j = 0; j < 8; j++)
            for_output[j] += outputs >> j & 1;
    }
    int fit = members <= PART_MOST_MEMBERS + (unsigned)reading->members;
    for (size_t j = 0; j < 8; j++)
        fit = fit && for_output[j] <= PART_MOST_FOR_OUTPUT + (unsigned)reading->for_output;
    return fit && (!reading->together || connections <= PART_MOST_FOR_OUTPUT);
}

/* The wide list behind a job without an end, by cover_job; kept for the next time. */

static void read_wide(struct wide *wide)
{
    static uint8_t page[COVER_MOST_ANSWER_BYTES];
    struct job *job = &wide->job;
    size_t length = job->length, taken = cover_written(cover_job(job->bytes, length, page, sizeof page));
    uint64_t start = 0;
    int more = 1;
    for (wide->count = 0; more; start = cover_page_next(page + taken, start)) {
        add_list(job, start, COVER_MOST_SETS);
        uint64_t outcome = cover_job(job->bytes, job->length, page, sizeof page);
        job->length = length;
        if (cover_number(outcome) != COVER_NO_END)
            break;
        for (size_t i = 0; i < cover_page_sets(page + taken) && wide->count < MOST_WIDE; i++)
            wide->sets[wide->count++] = cover_page_set(page + taken, i);
        more = cover_page_more(page + taken) && wide->count < MOST_WIDE;
    }
    CHECK(wide->count < MOST_WIDE); /* else the list is too long to be reckoned with here */
}

static const struct wide *wide_of(const struct job *job, const struct part_reading *reading)
{
    static struct wide wide;
    static const struct part_reading *read_by;
    int known = wide.job.length == job->length && memcmp(wide.job.bytes, job->bytes, job->length) == 0;
    if (!known) {
        copy_job(&wide.job, job);
        read_wide(&wide);
    }
    if (!known || read_by != reading)
        wide.drivers = drivers_of(job, reading);
    read_by = reading;
    return &wide;
}

/* The narrower list. */

struct narrow {
    uint64_t sets[MOST_WIDE];
    size_t count;
};

static const struct narrow *narrow_of(const struct job *job, const struct part_reading *reading)
{
    static struct narrow narrow;
    const struct wide *wide = wide_of(job, reading);
    narrow.count = 0;
    for (size_t i = 0; i < wide->count && (reading->looked_at == 0 || i < reading->looked_at); i++)
        if (fits(&wide->drivers, wide->sets[i], reading))
            narrow.sets[narrow.count++] = wide->sets[i];
    return &narrow;
}

#endif
