/*
 * Candidates that come and go: the marked cases by A and D, numbers that go, places, each query against a
 * fresh job, and long jobs of A, L and D in turn.
 */
#ifndef CHANGES_H
#define CHANGES_H

#include <time.h>

#include "lists.h"

/* The marked cases by terms that come late; in another order the bits of their sets move. */
static void test_late_terms(void)
{
    struct list a = LISTED(11, 22, 26, 41, 52, 56);
    struct list terms_moved = LISTED(11, 13, 26, 28, 37, 52);
    struct list c_moved = LISTED(19, 22, 25, 28, 38, 44);
    check_answers(example_late, &a, 3, 41);
    check_answers(example_mixed, &a, 3, 41);
    check_answers(example_asked, &a, 3, 41);
    check_answers(example_moved, &terms_moved, 3, 52); /* 41 is terms 0, 3 and 5, now 5, 2 and 4 */
    check_answers(primes_moved, &c_moved, 3, 38);      /* 13 is primes 0, 2 and 3, now 5, 1 and 2 */
}

/*
 * One term of the example less: the sets without it stay, and the bits above it move down by one.
 * Behind a page and the cheapest of all six, so that these must not be kept.
 */
static void test_one_less(void)
{
    static const struct {
        struct {
            size_t count;
            uint64_t sets[4];
        } page;
        unsigned cost;
        uint64_t cheapest;
    } less[6] = {
        {{4, {11, 13, 26, 28}}, 5, 26}, {{3, {21, 26, 28}}, 3, 21}, {{4, {7, 14, 21, 28}}, 3, 21},
        {{2, {14, 28}}, 5, 28},         {{2, {11, 25}}, 3, 25},     {{3, {11, 22, 26}}, 5, 11},
    };
    static struct job job;
    for (unsigned i = 0; i < 6; i++) {
        example(&job);
        memcpy(next_command(&job, 11), paper_job + 43, 11);
        add_remove(&job, i);
        add_list(&job, 0, 255);
        add(&job, COVER_CHEAPEST);
        size_t page = sizeof paper_answers - 1, least = page + COVER_LIST_ANSWER_BYTES(less[i].page.count);
        CHECK(is(call(&job, COVER_MOST_ANSWER_BYTES), COVER_NO_END, job.length, least + 11));
        CHECK(memcmp(answers, paper_answers, page) == 0);
        CHECK(answers[page] == COVER_LIST_ANSWER && cover_page_sets(answers + page) == less[i].page.count);
        CHECK(cover_page_more(answers + page) == 0);
        for (size_t k = 0; k < less[i].page.count; k++)
            CHECK(cover_page_set(answers + page, k) == less[i].page.sets[k]);
        CHECK(cover_cheapest_cost(answers + least) == less[i].cost);
        CHECK(cover_cheapest_set(answers + least) == less[i].cheapest);
    }
}

/* Cases f, g, f and h in one job: the term comes twice and goes twice. */
static void test_trying(void)
{
    static const uint8_t expected[] = {
        0x6C, 1, 0, 1, 0, 0, 0, 0, 0, 0, 0, 0x63, 1, 0, 1, 0, 0, 0, 0, 0, 0, 0,
        0x6C, 2, 0, 1, 0, 0, 0, 0, 0, 0, 0, 2, 0, 0, 0, 0, 0, 0, 0, 0x63, 1, 0, 1, 0, 0, 0, 0, 0, 0, 0,
        0x6C, 1, 0, 1, 0, 0, 0, 0, 0, 0, 0, 0x63, 1, 0, 1, 0, 0, 0, 0, 0, 0, 0,
    };
    static struct job job;
    constant(&job, 0);
    for (unsigned turn = 0; turn < 3; turn++) {
        if (turn < 2)
            add_late(&job, 0, 0, 1);
        else
            add_remove(&job, 1);
        add_list(&job, 0, 255);
        add(&job, COVER_CHEAPEST);
    }
    CHECK(is(call(&job, sizeof expected), COVER_NO_END, job.length, sizeof expected));
    CHECK(memcmp(answers, expected, sizeof expected) == 0);
    add_remove(&job, 0);
    size_t at = job.length;
    add_list(&job, 0, 0);
    CHECK(is(call(&job, sizeof expected), COVER_UNHELD_CELL, at, sizeof expected));
    CHECK(memcmp(answers, expected, sizeof expected) == 0);
    job.length = at;
    add(&job, COVER_CHEAPEST);
    CHECK(is(call(&job, COVER_MOST_ANSWER_BYTES), COVER_UNHELD_CELL, at, sizeof expected));
    /* It is not kept: with the term back the page is that of case f again. */
    job.length = at;
    add_late(&job, 0, 0, 1);
    add_list(&job, 0, 255);
    CHECK(is(call(&job, COVER_MOST_ANSWER_BYTES), COVER_NO_END, job.length, sizeof expected + 11));
    CHECK(memcmp(answers + sizeof expected, expected, 11) == 0);
}

/* So many equal terms: each alone is a cover. */
static void check_alone(struct job *job, unsigned count)
{
    size_t length = job->length, page = cover_written(call(job, COVER_MOST_ANSWER_BYTES));
    add_list(job, 0, 255);
    size_t need = page + COVER_LIST_ANSWER_BYTES(count);
    CHECK(is(call(job, COVER_MOST_ANSWER_BYTES), COVER_NO_END, job->length, need));
    CHECK(answers[page + 1] == count && answers[page + 2] == 0);
    for (unsigned i = 0; i < count; i++)
        CHECK(cover_page_set(answers + page, i) == UINT64_C(1) << i);
    job->length = length;
}

/* With 64 standing: numbers 0 to 63 can go, and only behind that one comes. */
static void test_full(void)
{
    static const unsigned numbers[] = {0, 1, 31, 62, 63};
    static struct job job;
    for (size_t i = 0; i < sizeof numbers / sizeof numbers[0]; i++) {
        constant(&job, 64);
        check_alone(&job, 64);
        add_remove(&job, numbers[i]);
        check_alone(&job, 63);
        size_t at = job.length;
        add_remove(&job, 63);
        CHECK(is(call(&job, 0), COVER_WRONG_CANDIDATE, at, 0));
        job.length = at;
        add_late(&job, 0, 0, 1);
        check_alone(&job, 64);
        at = job.length;
        add_late(&job, 0, 0, 1);
        CHECK(is(call(&job, 0), COVER_TOO_MANY, at, 0));
        /* 9 and 10 come before 11. */
        job.length = at;
        add_late(&job, 2, 0, 1);
        CHECK(is(call(&job, 0), COVER_MALFORMED_TERM, at, 0));
        job.length = at;
        add_remove(&job, numbers[i]);
        add_term(&job, 0, 0, 1);
        check_alone(&job, 64);
        at = job.length;
        add_term(&job, 0, 0, 1);
        CHECK(is(call(&job, 0), COVER_TOO_MANY, at, 0));
    }
    static const unsigned beyond[] = {64, 65, 128, 255};
    for (size_t i = 0; i < sizeof beyond / sizeof beyond[0]; i++) {
        constant(&job, 64);
        size_t at = job.length;
        add_remove(&job, beyond[i]);
        CHECK(is(call(&job, 0), COVER_WRONG_CANDIDATE, at, 0));
    }
    /* The primes of parity stand at 64 too. */
    parity_of_7(&job);
    size_t at = job.length;
    add_late(&job, 127, 1, 1);
    CHECK(is(call(&job, 194), COVER_TOO_MANY, at, 194));
    job.length = at;
    add_late(&job, 127, 0, 1);
    CHECK(is(call(&job, 194), COVER_OFF_CELL, at, 194));
    job.length = at;
    add_remove(&job, 0);
    add_late(&job, 127, 1, 1);
    add_list(&job, 0, 1);
    CHECK(is(call(&job, 300), COVER_NO_END, job.length, 194 + 11));
    CHECK(answers[195] == 1 && answers[196] == 0 && cover_page_set(answers + 194, 0) == UINT64_MAX);
    job.length -= COVER_LIST_BYTES;
    add_remove(&job, 63);
    at = job.length;
    add_list(&job, 0, 1);
    CHECK(is(call(&job, 300), COVER_UNHELD_CELL, at, 194));
}

/* All of them go, one by one, from the first, the last and the middle. */
static void test_emptied(void)
{
    static struct job job;
    for (unsigned way = 0; way < 3; way++) {
        constant(&job, 64);
        for (unsigned left = 63; left > 0; left--) {
            add_remove(&job, way == 0 ? 0 : way == 1 ? left : left / 2);
            check_alone(&job, left);
        }
        add_remove(&job, 0);
        size_t at = job.length;
        add_remove(&job, 0);
        CHECK(is(call(&job, 0), COVER_WRONG_CANDIDATE, at, 0));
        job.length = at;
        add_list(&job, 0, 1);
        CHECK(is(call(&job, 99), COVER_UNHELD_CELL, at, 0));
    }
}

/*
 * Places: one letter for each command. Behind I and the wanted row of vertex 0, R is that of vertex 1, B
 * has those of 2 to 9, T, F and A have the cell of vertex 0, and D takes out the first. All are allowed but,
 * where it is told, the last.
 */
struct place {
    const char *commands;
    int allowed;
};

static const struct place places[] = {
    {"A", 1},    {"RA", 1},   {"AA", 1},    {"AD", 1},    {"ADA", 1},  {"AT", 1},    {"ADT", 1},  {"TD", 1},
    {"TDT", 1},  {"TA", 1},   {"TAT", 1},   {"TAD", 1},   {"PA", 1},   {"PD", 1},    {"PDA", 1},  {"TLA", 1},
    {"TLD", 1},  {"TCA", 1},  {"TCD", 1},   {"TCAD", 1},  {"TCDA", 1}, {"TLDAL", 1}, {"PAL", 1},  {"PADC", 1},
    {"AL", 1},   {"AC", 1},   {"ACA", 1},   {"ACDAC", 1}, {"AE", 1},   {"TDAE", 1},  {"PADE", 1}, {"TCADE", 1},
    {"AR", 0},   {"ADR", 0},  {"RADR", 0},  {"ADADR", 0}, {"TDR", 0},  {"TADDR", 0}, {"ACR", 0},  {"ACDR", 0},
    {"AP", 0},   {"ADP", 0},  {"RADP", 0},  {"ADADP", 0}, {"TDP", 0},  {"TADDP", 0}, {"ACP", 0},  {"ACDP", 0},
    {"PAP", 0},  {"PDP", 0},  {"PADP", 0},  {"PAR", 0},   {"PDR", 0},  {"PDAR", 0},  {"ADI", 0},  {"TCADI", 0},
    {"PAT", 0},  {"PDT", 0},  {"PDAT", 0},  {"PADT", 0},  {"ALT", 0},  {"ALAT", 0},  {"ACT", 0},  {"ACAT", 0},
    {"ACDT", 0}, {"ACADT", 0}, {"TLDAT", 0}, {"TCADT", 0},
    {"B", 1},    {"RB", 1},   {"BR", 1},    {"BT", 1},    {"BA", 1},   {"BP", 1},    {"BTL", 1},  {"BTC", 1},
    {"BPC", 1},  {"BE", 1},   {"RBTCE", 1}, {"BRPLE", 1}, {"BAD", 1},  {"BADT", 1},  {"BI", 0},   {"BTR", 0},
    {"TB", 0},   {"AB", 0},   {"PB", 0},    {"TLB", 0},   {"TCB", 0},  {"PLB", 0},   {"PCB", 0},  {"ACB", 0},
    {"TDB", 0},  {"ADB", 0},  {"PDB", 0},   {"PADDB", 0}, {"RADB", 0}, {"BTB", 0},   {"BADB", 0}, {"BAR", 0},
    {"BPR", 0},  {"BTP", 0},  {"BADP", 0},  {"BPP", 0},   {"TADDB", 0}, {"ADADB", 0}, {"ACDB", 0},
};

static void add_letter(struct job *job, char letter)
{
    static const uint8_t on[8] = {0}, dc[8] = {1, 1, 1, 1, 1, 1, 1, 1}, vertices[COVER_VERTEX_BYTES] = {1};
    switch (letter) {
    case 'I': cover_put_sizes(next_command(job, COVER_SIZES_BYTES), 4, 1); break;
    case 'R': add_row(job, 1, 0, 1); break;
    case 'B': add_rows(job, 2, on, dc); break;
    case 'T': add_term(job, 15, 0, 1); break;
    case 'F': add_ready(job, 1, vertices, 7); break;
    case 'A': add_late(job, 15, 0, 1); break;
    case 'D': add_remove(job, 0); break;
    case 'G': add_range(job, 0, 1, 2); break;
    case 'L': add_list(job, 0, 1); break;
    case 'V': add_possible(job, 0, 1); break;
    default: add(job, (enum cover_command)letter);
    }
}

static void test_places(void)
{
    static struct job job;
    for (size_t i = 0; i < sizeof places / sizeof places[0]; i++) {
        size_t at = 0, taken = 0;
        add_sizes(&job, 4, 1);
        add_row(&job, 0, 1, 0);
        for (const char *letter = places[i].commands; *letter; letter++) {
            taken = cover_written(call(&job, 99));
            at = job.length;
            add_letter(&job, *letter);
        }
        uint64_t outcome = call(&job, 99);
        enum cover_refusal good = job.bytes[at] == COVER_END ? COVER_ACCEPTED : COVER_NO_END;
        if (places[i].allowed)
            CHECK(cover_number(outcome) == good && cover_offset(outcome) == job.length);
        else
            CHECK(is(outcome, COVER_WRONG_PLACE, at, taken));
        /* Of its bytes one is missing: 4 comes before 5. */
        job.length--;
        if (job.length > at)
            CHECK(is(call(&job, 99), places[i].allowed ? COVER_NO_OPERANDS : COVER_WRONG_PLACE, at, taken));
    }
}

/* Candidates that come and go, drawn, against fresh jobs with those that stand. */

struct standing {
    uint8_t terms[COVER_MOST_CANDIDATES][3];
    size_t count;
};

static uint64_t draw(uint64_t *state)
{
    *state ^= *state << 13;
    *state ^= *state >> 7;
    *state ^= *state << 17;
    return *state >> 11;
}

static void come(struct standing *standing, const uint8_t *term)
{
    memcpy(standing->terms[standing->count++], term, 3);
}

static void go(struct standing *standing, size_t number)
{
    standing->count--;
    memmove(standing->terms[number], standing->terms[number + 1], (standing->count - number) * 3);
}

/* What a query gave: its number and, where that is 0, its bytes. */
struct reply {
    enum cover_refusal number;
    size_t length;
    uint8_t bytes[COVER_LIST_ANSWER_BYTES(COVER_MOST_SETS)];
};

/* The last command of a job without an end, at `at`; `taken` bytes of answers come before its own. */
static struct reply reply_of(const struct job *job, size_t at, size_t taken)
{
    struct reply reply = {.number = COVER_ACCEPTED};
    uint64_t outcome = call(job, COVER_MOST_ANSWER_BYTES);
    if (cover_number(outcome) == COVER_NO_END) {
        CHECK(cover_offset(outcome) == job->length);
        reply.length = cover_written(outcome) - taken;
        memcpy(reply.bytes, answers + taken, reply.length);
        return reply;
    }
    reply.number = cover_number(outcome);
    CHECK(is(outcome, reply.number, at, taken));
    return reply;
}

/*
 * The query at the job's end, and the same behind the job's rows, which end at `rows`, and T for all
 * that stand. Gives the bytes of the answer, 0 where it is refused.
 */
static size_t compare_with_fresh(const struct job *job, size_t rows, size_t at, size_t taken,
                                 const struct standing *standing)
{
    static struct job fresh;
    fresh.length = 0;
    memcpy(next_command(&fresh, rows), job->bytes, rows);
    for (size_t i = 0; i < standing->count; i++)
        add_term(&fresh, standing->terms[i][0], standing->terms[i][1], standing->terms[i][2]);
    size_t query = fresh.length;
    memcpy(next_command(&fresh, job->length - at), job->bytes + at, job->length - at);

    struct reply reply = reply_of(job, at, taken), known = reply_of(&fresh, query, 0);
    CHECK(reply.number == known.number && reply.length == known.length);
    CHECK(memcmp(reply.bytes, known.bytes, known.length) == 0);
    CHECK(reply.number == COVER_ACCEPTED || reply.number == COVER_UNHELD_CELL);
    return reply.length;
}

/* Each cell is wanted or free, so every cube is legal. Few literals, that the wanted cells be held often. */
static void draw_term(uint64_t *state, unsigned n, unsigned m, uint8_t term[3])
{
    term[0] = (uint8_t)(draw(state) & draw(state) & ((1u << n) - 1));
    term[1] = (uint8_t)(draw(state) & term[0]);
    term[2] = (uint8_t)(1 + draw(state) % ((1u << m) - 1));
}

/* Gives how many queries were answered. */
static unsigned come_and_go(unsigned n, unsigned m, size_t most, uint64_t state)
{
    static struct job job;
    struct standing standing = {.count = 0};
    uint8_t term[3];
    size_t taken = 0, rows;
    unsigned count = 0;
    add_sizes(&job, n, m);
    for (unsigned v = 0; v < 1u << n; v++) {
        unsigned on = (unsigned)(draw(&state) & draw(&state)) & ((1u << m) - 1);
        add_row(&job, v, on, (1u << m) - 1 - on);
    }
    rows = job.length;
    for (unsigned turn = 0; turn < 80; turn++) {
        unsigned kind = (unsigned)draw(&state) % 8;
        if (kind < 4 && standing.count < most) {
            draw_term(&state, n, m, term);
            add_late(&job, term[0], term[1], term[2]);
            come(&standing, term);
        } else if (kind < 6 && standing.count > 0) {
            size_t number = draw(&state) % standing.count;
            add_remove(&job, (unsigned)number);
            go(&standing, number);
        } else {
            size_t at = job.length;
            uint64_t start = draw(&state) >> (53 - standing.count / 2);
            if (kind % 2 == 0)
                add_list(&job, start, (unsigned)draw(&state) % 4);
            else
                add(&job, COVER_CHEAPEST);
            size_t bytes = compare_with_fresh(&job, rows, at, taken, &standing);
            taken += bytes;
            count += bytes > 0;
            /* A refused query would end the job. */
            if (bytes == 0)
                job.length = at;
        }
    }
    add(&job, COVER_END);
    CHECK(is(call(&job, taken + 1), COVER_ACCEPTED, job.length, taken + 1));
    return count;
}

static void test_fresh(void)
{
    unsigned count = 0;
    for (uint64_t seed = 1; seed <= 40; seed++) {
        uint64_t state = seed * UINT64_C(0x9E3779B97F4A7C15);
        count += come_and_go(2, 2, 8, state);
        count += come_and_go(4, 3, 14, state);
        count += come_and_go(3, 1, COVER_MOST_CANDIDATES, state);
    }
    CHECK(count > 1000);
}

/*
 * A job of 32,768 bytes with an add, a page and a remove in turn. The low five of 8 inputs have 32
 * values; each has 1 or 8 vertices, all 8 outputs of which are wanted. Term i is that of value i mod 32,
 * for any i: 63 come first, then one more in each turn, and the first goes. So at each page there are 64
 * of them, i and i + 32 are equal, and a cover has one of each such pair: the bits of its low half are
 * those of its high half turned over.
 */
static const uint64_t last_cover = UINT64_C(0xFFFFFFFF00000000);

static uint64_t start_of(unsigned turn, uint64_t *state)
{
    uint64_t start = draw(state) << 10;
    return turn % 16 == 15 ? last_cover : start;
}

/* The least cover from start on, which is not above the last. */
static uint64_t cover_from(uint64_t start)
{
    uint64_t high = start >> 32, low = start & UINT32_MAX;
    if ((high ^ UINT32_MAX) < low)
        high++;
    return high << 32 | (high ^ UINT32_MAX);
}

/* The rows of the first vertices, all wanted. */
typedef void add_wanted(struct job *job, unsigned count);

static void wanted_by_row(struct job *job, unsigned count)
{
    for (unsigned v = 0; v < count; v++)
        add_row(job, v, 255, 0);
}

static unsigned turns(struct job *job, add_wanted *add_table, unsigned vertices)
{
    unsigned turn = 0;
    add_sizes(job, 8, 8);
    add_table(job, 32 * vertices);
    unsigned care = vertices == 8 ? 31 : 255;
    for (unsigned i = 0; i < 63; i++)
        add_term(job, care, i % 32, 255);
    size_t bytes = COVER_ADD_BYTES + COVER_LIST_BYTES + COVER_REMOVE_BYTES;
    for (uint64_t state = 1; job->length + bytes < COVER_MOST_JOB_BYTES; turn++) {
        add_late(job, care, (63 + turn) % 32, 255);
        add_list(job, start_of(turn, &state), 1);
        add_remove(job, 0);
    }
    add(job, COVER_END);
    return turn;
}

/* In seconds of the processor, so that other work on the machine does not count. */
static void check_turns(add_wanted *add_table, unsigned vertices, unsigned known)
{
    static struct job job;
    CHECK(turns(&job, add_table, vertices) == known && job.length == COVER_MOST_JOB_BYTES);
    clock_t start = clock();
    uint64_t outcome = call(&job, COVER_MOST_ANSWER_BYTES);
    double seconds = (double)(clock() - start) / CLOCKS_PER_SEC;
    printf("%u turns of add, page and remove: %.3f s\n", known, seconds);
    CHECK(seconds < 2);
    CHECK(is(outcome, COVER_ACCEPTED, 32768, 11 * known + 1));
    uint64_t state = 1;
    for (unsigned turn = 0; turn < known; turn++) {
        const uint8_t *page = answers + 11 * turn;
        uint64_t cover = cover_from(start_of(turn, &state));
        CHECK(page[0] == COVER_LIST_ANSWER && cover_page_sets(page) == 1 && cover_page_set(page, 0) == cover);
        CHECK(cover_page_more(page) == (cover < last_cover));
    }
}

static void test_turns(void)
{
    check_turns(wanted_by_row, 1, 2024);
    check_turns(wanted_by_row, 8, 1968);
}

#endif
