/*
 * What part_job is to give for a whole job, an own reckoning over cover_job: the engine answers everything but the
 * lists, each from the commands before it, and the lists are narrowed by part.h.
 */
#ifndef PART_BY_WORDS_H
#define PART_BY_WORDS_H

#include "part.h"

/*
 * How far a job has come. `plain` has its commands without the queries but the first, which gives their place to those
 * behind it: with count 0, where it has a count.
 */
struct part_run {
    const struct part_reading *reading;
    const uint8_t *job;
    size_t len, at;
    uint8_t *answers;
    size_t room, written;
    struct job plain;
    size_t plain_written; /* never more than `written`, so that there is room for both */
    int queried;
    unsigned lists;
    uint64_t outcome;
};

static int is_query(uint8_t command)
{
    return command == COVER_LIST || command == COVER_POSSIBLE || command == COVER_CHEAPEST || command == COVER_MULTIPLY;
}

/* The next whole query; the length where none comes before the end, a cut command or a byte that is none. */
static size_t next_query(const struct part_run *run)
{
    size_t bytes;
    for (size_t at = run->at; at < run->len; at += bytes) {
        bytes = cover_command_bytes(run->job[at]);
        if (bytes == 0 || at + bytes > run->len || run->job[at] == COVER_END)
            break;
        if (is_query(run->job[at]))
            return at;
    }
    return run->len;
}

static uint64_t outcome_of(uint64_t number, size_t offset, size_t written)
{
    return number << 32 | (uint64_t)offset << 16 | written;
}

/* Ends the job at the command that is due. */
static int stop(struct part_run *run, uint64_t number)
{
    run->outcome = outcome_of(number, run->at, run->written);
    return 0;
}

/* The commands up to `end`, answered by the engine into the room that is left; gives whether the job goes on. */
static int run_engine(struct part_run *run, size_t end)
{
    static uint8_t lent[COVER_MOST_ANSWER_BYTES];
    struct job *plain = &run->plain;
    size_t before = plain->length, bytes = end - run->at, skipped = run->plain_written;
    if (bytes > 0)
        memcpy(next_command(plain, bytes), run->job + run->at, bytes);
    uint64_t outcome = cover_job(plain->bytes, plain->length, lent, skipped + run->room - run->written);
    size_t answered = cover_written(outcome) - skipped;
    if (answered > 0)
        memcpy(run->answers + run->written, lent + skipped, answered);
    run->written += answered;
    run->plain_written += answered;
    size_t offset = cover_offset(outcome) - before + run->at;
    run->outcome = outcome_of(cover_number(outcome), offset, run->written);
    run->at = end;
    return cover_number(outcome) == COVER_NO_END && end < run->len;
}

/* Takes a query out of `plain` again, which had this length before it. The first one stays. */
static void leave_out_query(struct part_run *run, size_t length, size_t plain_written)
{
    static uint8_t lent[COVER_MOST_ANSWER_BYTES];
    struct job *plain = &run->plain;
    if (run->queried) {
        plain->length = length;
        run->plain_written = plain_written;
        return;
    }
    run->queried = 1;
    if (plain->length == length + COVER_LIST_BYTES)
        plain->bytes[length + 9] = 0;
    run->plain_written = cover_written(cover_job(plain->bytes, plain->length, lent, sizeof lent));
}

/* A page of the narrower list. */

static int is_narrowed(const struct part_run *run)
{
    const struct part_reading *r = run->reading;
    return !(r->first_alone && run->lists > 0) && !(r->later_alone && run->lists == 0);
}

/* For a reading that fills a page from the wide list: whether this set is on it. */
static int is_on_wide_page(const struct wide *wide, uint64_t set, uint64_t start, unsigned count)
{
    unsigned before = 0;
    for (size_t i = 0; i < wide->count; i++)
        before += wide->sets[i] >= start && wide->sets[i] < set;
    return before < count;
}

static uint64_t asked_start(const struct part_run *run)
{
    uint64_t start = cover_get_number(run->job + run->at + 1, 8);
    return run->reading->from_0 ? 0 : start + (run->reading->next_start && start < UINT64_MAX);
}

/* Puts the page together; `all` is the list it is of. Gives its bytes. */
static size_t fill_page(const struct part_run *run, uint8_t *page, const struct narrow *all, const struct wide *wide)
{
    const struct part_reading *r = run->reading;
    uint64_t start = asked_start(run), next = start;
    unsigned count = run->job[run->at + 9];
    size_t sets = 0, last = 0;
    for (; last < all->count && sets < count; last++) {
        if (all->sets[last] < start || (r->filtered && !is_on_wide_page(wide, all->sets[last], start, count)))
            continue;
        cover_put_number(page + COVER_LIST_ANSWER_BYTES(sets++), 8, all->sets[last]);
        next = all->sets[last] + 1;
    }
    page[0] = COVER_LIST_ANSWER;
    page[1] = (uint8_t)sets;
    int ended = sets > 0 && next == 0; /* behind 2^64 - 1 */
    page[2] = !ended && all->count > 0 && all->sets[all->count - 1] >= next;
    if (r->wide_more)
        page[2] = !ended && wide->sets[wide->count - 1] >= next;
    page[2] = (uint8_t)((page[2] && !r->no_more) || (r->more_at_0 && count == 0));
    return COVER_LIST_ANSWER_BYTES(sets);
}

/* Sets in another order or left out, for wrong readings. */
static size_t spoil_page(uint8_t *page, size_t bytes, const struct part_reading *r)
{
    size_t sets = page[1];
    if (r->falling)
        for (size_t i = 0; i < sets / 2; i++) {
            uint64_t low = cover_page_set(page, i), high = cover_page_set(page, sets - 1 - i);
            cover_put_number(page + COVER_LIST_ANSWER_BYTES(i), 8, high);
            cover_put_number(page + COVER_LIST_ANSWER_BYTES(sets - 1 - i), 8, low);
        }
    if (r->twice && sets > 1)
        memcpy(page + COVER_LIST_ANSWER_BYTES(1), page + COVER_LIST_ANSWER_BYTES(0), 8);
    if (r->first_lost && sets > 1)
        memmove(page + COVER_LIST_ANSWER_BYTES(0), page + COVER_LIST_ANSWER_BYTES(1), 8 * (sets - 1));
    if ((r->first_lost || r->last_lost) && sets > 1)
        page[1]--;
    return bytes - (size_t)8 * (sets - page[1]);
}

/* 20: whether it is given, and how. */

static int kept_from_last; /* for a reading that keeps it */

static int none_fits(const struct part_run *run, const struct narrow *all)
{
    const struct part_reading *r = run->reading;
    uint64_t start = asked_start(run);
    int none = all->count == 0 || (r->above && all->sets[all->count - 1] < start);
    return none || (r->kept && kept_from_last);
}

static int stop_at_20(struct part_run *run)
{
    const struct part_reading *r = run->reading;
    if (r->touches_20 && run->written < run->room)
        run->answers[run->room - 1] ^= 1;
    run->outcome = outcome_of(r->number ? r->number : COVER_NONE_FITS, run->at + (r->offset ? COVER_LIST_BYTES : 0),
                              r->all_lost ? 0 : run->written);
    return 0;
}

/* What a list leaves of the record, for wrong readings: candidates go that no set of it has. */
static void drop_candidates(struct part_run *run, const struct narrow *all)
{
    uint64_t had = 0;
    for (size_t i = 0; i < all->count; i++)
        had |= all->sets[i];
    for (size_t i = drivers_of(&run->plain, run->reading).count; i-- > 0;)
        if (!(had >> i & 1))
            add_remove(&run->plain, (unsigned)i);
}

/* All commands of a kind go. */
static void drop_commands(struct job *plain, uint8_t command)
{
    size_t kept = 0;
    for (size_t at = 0, bytes; at < plain->length; at += bytes) {
        bytes = cover_command_bytes(plain->bytes[at]);
        if (plain->bytes[at] == command)
            continue;
        memmove(plain->bytes + kept, plain->bytes + at, bytes);
        kept += bytes;
    }
    plain->length = kept;
}

static int refuses_20(const struct part_run *run)
{
    const struct part_reading *r = run->reading;
    int at_0 = run->job[run->at + 9] == 0, full = run->room - run->written < COVER_LIST_ANSWER_BYTES(0);
    return !r->never_20 && !(r->not_at_count_0 && at_0) && !(r->only_with_room && full);
}

/* What the engine says to the list that is due, and how long its own page is. */
static enum cover_refusal ask_wide(struct part_run *run, size_t *bytes)
{
    static uint8_t lent[COVER_MOST_ANSWER_BYTES];
    size_t length = run->plain.length;
    memcpy(next_command(&run->plain, COVER_LIST_BYTES), run->job + run->at, COVER_LIST_BYTES);
    uint64_t outcome = cover_job(run->plain.bytes, run->plain.length, lent, sizeof lent);
    run->plain.length = length;
    *bytes = cover_written(outcome) - run->plain_written;
    return cover_number(outcome);
}

/* The page where it has room; else 14. */
static int put_page(struct part_run *run, uint8_t *page, size_t bytes, size_t wide_bytes)
{
    const struct part_reading *r = run->reading;
    size_t left = run->room - run->written;
    for (; r->cut && bytes > left && page[1] > 0; bytes -= 8) {
        page[1]--;
        page[2] = 1;
    }
    if (bytes > left || (r->wide_room && wide_bytes > left)) {
        if (r->touches_14 && left > 0)
            run->answers[run->written] ^= 1;
        return stop(run, COVER_NO_ROOM);
    }
    memcpy(run->answers + run->written, page, bytes);
    run->written += bytes;
    if (r->touches && bytes < left)
        run->answers[run->written] ^= 1;
    return 1;
}

/* Goes on behind a list, which changes nothing but the places. */
static void pass_list(struct part_run *run, const struct narrow *all)
{
    const struct part_reading *r = run->reading;
    size_t length = run->plain.length;
    if (!r->placeless) {
        memcpy(next_command(&run->plain, COVER_LIST_BYTES), run->job + run->at, COVER_LIST_BYTES);
        leave_out_query(run, length, run->plain_written);
    }
    if (r->dropped)
        drop_candidates(run, all);
    drop_commands(&run->plain, r->lost);
    run->at += COVER_LIST_BYTES;
    run->lists++;
    run->outcome = outcome_of(COVER_NO_END, run->at, run->written);
}

/* A list: 4 and 12 as the engine gives them, then 20, then 14. */
static int run_list(struct part_run *run)
{
    static const struct part_reading no_limits = {.members = 64, .for_output = 64};
    static uint8_t page[COVER_LIST_ANSWER_BYTES(COVER_MOST_SETS)];
    static struct narrow all;
    const struct part_reading *r = run->reading;
    size_t wide_bytes;
    enum cover_refusal number = ask_wide(run, &wide_bytes);
    if (number == COVER_UNHELD_CELL && r->before_12)
        return stop_at_20(run);
    if (number != COVER_NO_END)
        return stop(run, number);
    all = *narrow_of(&run->plain, is_narrowed(run) ? r : &no_limits);
    int none = none_fits(run, &all);
    kept_from_last = all.count == 0;
    if (none && refuses_20(run))
        return stop_at_20(run);
    size_t bytes = fill_page(run, page, &all, wide_of(&run->plain, r));
    if (!put_page(run, page, spoil_page(page, bytes, r), wide_bytes))
        return 0;
    pass_list(run, &all);
    return 1;
}

/* The other queries, which the engine answers; for wrong readings sets that do not fit are left out of the answer. */

static size_t leave_out_sets(uint8_t *sets, size_t count, const struct drivers *drivers, const struct part_reading *r)
{
    size_t kept = 0;
    for (size_t i = 0; i < count; i++)
        if (fits(drivers, cover_get_number(sets + 8 * i, 8), r))
            memmove(sets + 8 * kept++, sets + 8 * i, 8);
    return kept;
}

static void narrow_answer(struct part_run *run, uint8_t *answer)
{
    const struct part_reading *r = run->reading;
    const struct narrow *all = narrow_of(&run->plain, r);
    struct drivers drivers = drivers_of(&run->plain, r);
    if (answer[0] == COVER_POSSIBLE_ANSWER && r->narrow_possible)
        answer[1] = (uint8_t)leave_out_sets(answer + 3, answer[1], &drivers, r);
    if (answer[0] == COVER_MULTIPLY_ANSWER && r->narrow_multiply)
        cover_put_number(answer + 1, 2, leave_out_sets(answer + 3, cover_multiply_sets(answer), &drivers, r));
    if (answer[0] == COVER_CHEAPEST_ANSWER && r->narrow_cheapest && !fits(&drivers, cover_cheapest_set(answer), r))
        cover_put_number(answer + 3, 8, all->count > 0 ? all->sets[0] : 0);
    run->written = (size_t)(answer - run->answers) + cover_answer_bytes(answer);
}

static int is_narrowed_query(uint8_t command, const struct part_reading *r)
{
    return command == COVER_POSSIBLE ? r->narrow_possible
           : command == COVER_CHEAPEST ? r->narrow_cheapest : r->narrow_multiply;
}

static int is_refused_query(uint8_t command, const struct part_reading *r)
{
    return command == COVER_POSSIBLE ? r->refused_possible
           : command == COVER_CHEAPEST ? r->refused_cheapest : r->refused_multiply;
}

/* Whether there are covers of which none fits. */
static int has_none(const struct part_run *run)
{
    return narrow_of(&run->plain, run->reading)->count == 0 && wide_of(&run->plain, run->reading)->count > 0;
}

static int run_query(struct part_run *run)
{
    static uint8_t kept[COVER_MOST_ANSWER_BYTES];
    const struct part_reading *r = run->reading;
    size_t length = run->plain.length, plain_written = run->plain_written, answer = run->written;
    uint8_t command = run->job[run->at];
    if (is_refused_query(command, r) && has_none(run))
        return stop_at_20(run);
    int narrowed = is_narrowed_query(command, r) && !has_none(run);
    if (narrowed)
        memcpy(kept, run->answers, run->room);
    int goes_on = run_engine(run, run->at + cover_command_bytes(command));
    if (cover_number(run->outcome) != COVER_NO_END)
        return 0;
    leave_out_query(run, length, plain_written);
    if (narrowed) {
        narrow_answer(run, run->answers + answer);
        memcpy(run->answers + run->written, kept + run->written, run->room - run->written);
    }
    run->outcome = outcome_of(COVER_NO_END, run->at, run->written);
    return goes_on;
}

/* A list without its operands, for a reading that refuses it with 20 where none fits. */
static void try_cut_list(struct part_run *run)
{
    size_t at = cover_offset(run->outcome);
    if (!run->reading->before_5 || cover_number(run->outcome) != COVER_NO_OPERANDS || run->job[at] != COVER_LIST)
        return;
    run->plain.length -= run->len - at;
    if (has_none(run))
        run->outcome = outcome_of(COVER_NONE_FITS, at, run->written);
}

static uint64_t part_by_words(const struct part_reading *reading, const uint8_t *job, size_t len, uint8_t *answers,
                              size_t room)
{
    static struct part_run run;
    if (len > COVER_MOST_JOB_BYTES || room > COVER_MOST_ANSWER_BYTES)
        return cover_job(job, len, answers, room);
    run.reading = reading;
    run.job = job;
    run.len = len;
    run.answers = answers;
    run.room = room;
    run.at = run.written = run.plain.length = run.plain_written = 0;
    run.queried = 0;
    run.lists = 0;
    for (int goes_on = 1; goes_on;) {
        goes_on = run_engine(&run, next_query(&run));
        if (goes_on)
            goes_on = run.job[run.at] == COVER_LIST ? run_list(&run) : run_query(&run);
        goes_on = goes_on && run.at < len;
    }
    try_cut_list(&run);
    return run.outcome;
}

#endif
