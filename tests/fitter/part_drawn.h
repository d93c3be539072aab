/*
 * Drawn jobs for the part: tables over which the limits decide, with terms and blocks, and lists, other queries,
 * candidates that come and go and ranges behind them.
 */
#ifndef PART_DRAWN_H
#define PART_DRAWN_H

#include "part_pages.h"

/*
 * Groups of two vertices with outputs that both want, all other outputs free there: candidates hold both or one of
 * them, by T, A and F, some with more outputs. The sets of the groups multiply: `sets` is about their number.
 */
struct groups {
    unsigned n, m, vertices, sets;
};

static void draw_cube(struct job *job, const struct groups *groups, unsigned both, unsigned wanted, uint64_t *state)
{
    unsigned care = (1u << groups->n) - 1, v = groups->vertices - 2 + (unsigned)draw(state) % 2;
    unsigned more = (unsigned)(draw(state) & draw(state)) & ((1u << groups->m) - 1);
    enum kind kind = (enum kind)(draw(state) % 3);
    put_cube(job, kind, both ? care - 1 : care, both ? v & ~1u : v, wanted | more);
}

/* The candidates of a group: both sides, or up to two that hold the whole, or all these; at times one side more. */
static void draw_group(struct job *job, struct groups *groups, unsigned wanted, uint64_t *state)
{
    unsigned wholes = (unsigned)draw(state) % 3, sides = wholes == 0 || draw(state) % 3 > 0;
    unsigned care = (1u << groups->n) - 1;
    for (unsigned side = 2; sides && side > 0; side--)
        put_cube(job, (enum kind)(draw(state) % 3), care, groups->vertices - side, wanted);
    for (unsigned i = 0; i < wholes; i++)
        draw_cube(job, groups, 1, wanted, state);
    if (draw(state) % 4 == 0)
        draw_cube(job, groups, 0, wanted, state);
    groups->sets *= wholes + 2 * sides + 1;
}

enum { MOST_DRAWN = 1500, MOST_GROUPS = 12 };

static void draw_groups(struct job *job, uint64_t *state)
{
    static const unsigned outputs[] = {1, 1, 1, 2, 2, 3, 4, 8};
    struct groups groups = {.n = 5, .m = outputs[draw(state) % 8], .sets = 1};
    unsigned wanted[MOST_GROUPS], all = (1u << groups.m) - 1, count = 3 + (unsigned)draw(state) % (MOST_GROUPS - 2);
    add_sizes(job, groups.n, groups.m);
    if (draw(state) % 2)
        add_list_of_prices(job, draw_prices(state));
    for (unsigned g = 0; g < count; g++) {
        wanted[g] = 1 + (unsigned)draw(state) % all;
        for (unsigned v = 2 * g; v < 2 * g + 2; v++)
            add_row(job, v, wanted[g], all & ~wanted[g]);
    }
    for (unsigned g = 0; g < count; g++) {
        groups.vertices = 2 * g + 2;
        if (groups.sets < MOST_DRAWN / 4)
            draw_group(job, &groups, wanted[g], state);
        else
            put_cube(job, (enum kind)(draw(state) % 3), (1u << groups.n) - 2, 2 * g, wanted[g]);
    }
}

/* Of any number of bits. */
static uint64_t draw_start(uint64_t *state)
{
    uint64_t bits = draw(state);
    return bits >> draw(state) % 53;
}

/* A list from a set that stands, one above it, or anywhere. */
static void draw_list(struct job *job, uint64_t *state)
{
    const struct wide *wide = wide_of(job, &part_as_requested);
    unsigned kind = (unsigned)draw(state) % 4, count = (unsigned)draw(state) % 6;
    uint64_t start = kind == 0 ? 0 : draw_start(state);
    if (kind > 1 && wide->count > 0)
        start = wide->sets[draw(state) % wide->count] + kind % 2;
    add_list(job, start, count == 5 ? COVER_MOST_SETS : count);
}

/* A command that may stand behind lists. Numbers are often too high. */
static void draw_command(struct job *job, uint64_t *state)
{
    unsigned v = (unsigned)draw(state) % 10, number = (unsigned)draw(state) % 40, few = (unsigned)draw(state) % 4;
    switch (draw(state) % 9) {
    case 0: add_possible(job, draw_start(state), few); break;
    case 1: add(job, COVER_CHEAPEST); break;
    case 2: add(job, COVER_MULTIPLY); break;
    case 3: add_late(job, 31, v, 1); break;
    case 4: add_late(job, 30, v & ~1u, 1 + few); break;
    case 5: add_remove(job, number); break;
    case 6: add_range(job, number, few, 8); break;
    default: draw_list(job, state); break;
    }
}

/* A command that makes the sets many goes again. */
static int is_long(const struct job *job)
{
    return wide_of(job, &part_as_requested)->count > 2 * MOST_DRAWN;
}

/* A command with enough room and with less. What is refused goes again, for it would end the job; gives the number. */
static enum cover_refusal try_command(struct job *job, uint64_t *state)
{
    size_t at = job->length;
    draw_command(job, state);
    uint64_t outcome = compare_part(job, 6000);
    if (cover_number(outcome) != COVER_NO_END || is_long(job)) {
        compare_part(job, cover_written(outcome) + (size_t)draw(state) % 4);
        job->length = at;
        return cover_number(outcome);
    }
    compare_part(job, draw(state) % (cover_written(outcome) + 1));
    return COVER_NO_END;
}

static void test_drawn_parts(void)
{
    static struct job job;
    unsigned refused = 0, unheld = 0, narrowed = 0;
    uint64_t state = 52;
    for (unsigned turn = 0; turn < 150; turn++) {
        draw_groups(&job, &state);
        size_t all = wide_of(&job, &part_as_requested)->count, fitting = narrow_of(&job, &part_as_requested)->count;
        narrowed += fitting > 0 && fitting < all;
        for (unsigned i = 0; i < 10; i++) {
            enum cover_refusal number = try_command(&job, &state);
            refused += number == COVER_NONE_FITS;
            unheld += number == COVER_UNHELD_CELL;
        }
        add(&job, COVER_END);
        compare_part(&job, 6000);
    }
    /* Each of them has come up often enough. */
    CHECK(refused > 50 && unheld > 10 && narrowed > 30);
}

/* Commands behind the part's lists are answered as in the job without the lists, and as by the engine. */

/* The answers without those of the lists; gives their bytes. */
static size_t without_lists(const uint8_t *from, size_t written, uint8_t *to)
{
    size_t kept = 0;
    for (size_t at = 0; at < written; at += cover_answer_bytes(from + at))
        if (from[at] != COVER_LIST_ANSWER) {
            memcpy(to + kept, from + at, cover_answer_bytes(from + at));
            kept += cover_answer_bytes(from + at);
        }
    return kept;
}

/* A list and a command that is none, the same without the list in the other job; where refused, neither. */
static void draw_behind_list(struct job *with, struct job *without, uint64_t *state)
{
    size_t at = with->length;
    add_list(with, draw_start(state) >> 30, at % 3);
    size_t command = with->length;
    draw_command(with, state);
    size_t bytes = with->length - command;
    if (with->bytes[command] == COVER_LIST || cover_number(call(with, PART_ROOM)) != COVER_NO_END)
        with->length = at;
    else
        memcpy(next_command(without, bytes), with->bytes + command, bytes);
}

static void test_other_answers_kept(void)
{
    static struct job with, without;
    static uint8_t part[PART_ROOM], known[PART_ROOM], lists[COVER_MOST_ANSWER_BYTES];
    size_t compared = 0;
    uint64_t state = 53;
    for (unsigned turn = 0; turn < 100; turn++) {
        neighbours(&with, 5 + turn % 2, turn % 3 == 0, IN_TURN);
        copy_job(&without, &with);
        for (unsigned i = 0; i < 10; i++)
            draw_behind_list(&with, &without, &state);
        uint64_t outcome = call(&with, PART_ROOM);
        size_t left = without_lists(answers, cover_written(outcome), part);
        CHECK(is(outcome, COVER_NO_END, with.length, cover_written(outcome)));
        CHECK(is(cover_job(without.bytes, without.length, known, sizeof known), COVER_NO_END, without.length, left));
        CHECK(memcmp(part, known, left) == 0);
        size_t wide = cover_written(cover_job(with.bytes, with.length, lists, sizeof lists));
        CHECK(without_lists(lists, wide, known) == left && memcmp(part, known, left) == 0);
        compared += left;
    }
    CHECK(compared > 10000);
}

#endif
