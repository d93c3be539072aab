/*
 * Wrong engines and wrong readings for F, as those of stand_ins.h for W: each must be seen by the tests of ready.h. A
 * wrong engine is made of the right one, whose job or outcome is changed; a wrong reading is tried by mixed.h.
 */
#ifndef READY_STAND_INS_H
#define READY_STAND_INS_H

#include "ready.h"
#include "stand_ins.h"

/* Operands of F: outputs, 32 bytes of vertices, two of the weight. */
enum { OUTPUTS = 0, VERTICES = 1, WEIGHT = 33 };

static unsigned weight_in(const uint8_t *x) { return (unsigned)cover_get_number(x + WEIGHT, 2); }
static void set_weight(uint8_t *x, unsigned weight) { cover_put_number(x + WEIGHT, 2, weight); }

/* Engines that read other operands than F has. */

static const uint8_t *read_job; /* while its operands are changed: the sizes stand in it, and W behind them */

static uint64_t reads_other_blocks(const uint8_t *job, size_t len, uint8_t *answers, size_t room)
{
    uint8_t *copy = copy_of(job, len);
    read_job = job;
    for (size_t at = 0; at < len && cover_command_bytes(job[at]) > 0; at += cover_command_bytes(job[at]))
        if (job[at] == COVER_BLOCK && at + COVER_BLOCK_BYTES <= len)
            standing_in->change(copy + at + 1);
    return cover_job(copy, len, answers, room);
}

static void turn_bits(uint8_t *x)
{
    for (size_t i = VERTICES; i < WEIGHT; i++) {
        uint8_t turned = 0;
        for (unsigned k = 0; k < 8; k++)
            turned |= (uint8_t)((x[i] >> k & 1) << (7 - k));
        x[i] = turned;
    }
}

static void turn_vertex_bytes(uint8_t *x)
{
    for (size_t i = 0; i < 16; i++)
        exchange(&x[VERTICES + i], &x[VERTICES + 31 - i]);
}

static void cut_vertices(uint8_t *x) { memset(x + VERTICES + 16, 0, 16); }

static void leave_out_last_vertex(uint8_t *x) { x[VERTICES + 31] &= 127; }

static void take_high_vertices(uint8_t *x)
{
    for (unsigned v = 1u << read_job[1]; read_job[1] <= 8 && v < 256; v++)
        x[VERTICES + v / 8] &= (uint8_t)~(1u << v % 8);
}

static int is_empty(const uint8_t *x)
{
    static const uint8_t none[COVER_VERTEX_BYTES];
    return memcmp(x + VERTICES, none, sizeof none) == 0;
}

static void refuse_no_vertices(uint8_t *x) { x[OUTPUTS] = is_empty(x) ? 0 : x[OUTPUTS]; }
static void take_no_outputs(uint8_t *x) { x[OUTPUTS] += x[OUTPUTS] == 0; }
static void take_high_outputs(uint8_t *x) { x[OUTPUTS] &= (uint8_t)((1u << read_job[2]) - 1); }
static void lowest_output(uint8_t *x) { x[OUTPUTS] &= (uint8_t)-x[OUTPUTS]; }
static void turn_weight(uint8_t *x) { exchange(&x[WEIGHT], &x[WEIGHT + 1]); }
static void cut_weight(uint8_t *x) { x[WEIGHT + 1] = 0; }
static void take_851(uint8_t *x) { set_weight(x, weight_in(x) - (weight_in(x) == 851)); }
static void refuse_850(uint8_t *x) { set_weight(x, weight_in(x) + (weight_in(x) == 850)); }
static void refuse_0(uint8_t *x) { set_weight(x, weight_in(x) == 0 ? 851 : weight_in(x)); }
static void try_no_weight(uint8_t *x) { set_weight(x, weight_in(x) > 850 ? 850 : weight_in(x)); }
static void take_10_bits(uint8_t *x) { set_weight(x, weight_in(x) < 1024 ? weight_in(x) * 850 / 1023 : weight_in(x)); }

/* Only weights that are allowed are changed here, so that refusals stay. */
static void drop_weight(uint8_t *x) { set_weight(x, weight_in(x) <= 850 ? 0 : weight_in(x)); }

static void add_price(uint8_t *x)
{
    unsigned weight = weight_in(x) + (read_job[3] == COVER_PRICES ? read_job[4] : 0);
    set_weight(x, weight_in(x) > 850 ? weight_in(x) : weight > 850 ? 850 : weight);
}

/* The weight stands first. */
static void read_weight_first(uint8_t *x)
{
    uint8_t weight[2] = {x[0], x[1]};
    memmove(x, x + 2, 33);
    memcpy(x + WEIGHT, weight, 2);
}

/* Engines that do not know F, or not its place. */

static uint64_t knows_no_blocks(const uint8_t *job, size_t len, uint8_t *answers, size_t room)
{
    uint8_t *copy = copy_of(job, len);
    for (size_t at = 0; at < len && cover_command_bytes(job[at]) > 0; at += cover_command_bytes(job[at]))
        if (job[at] == COVER_BLOCK)
            copy[at] = 'x';
    return cover_job(copy, len, answers, room);
}

/* Where `second` stands right behind `first`; the length where it never does. */
static size_t pair_in(const uint8_t *job, size_t len, uint8_t first, uint8_t second)
{
    uint8_t before = 0;
    for (size_t at = 0; at < len && cover_command_bytes(job[at]) > 0; at += cover_command_bytes(job[at])) {
        if (before == first && job[at] == second)
            return at;
        before = job[at];
    }
    return len;
}

/* What is taken where it may not stand ends the job. */
static uint64_t takes_at(size_t at, const uint8_t *job, size_t len, uint8_t *answers, size_t room)
{
    uint64_t outcome = cover_job(job, len, answers, room);
    if (cover_number(outcome) != COVER_WRONG_PLACE || cover_offset(outcome) != at)
        return outcome;
    return moved_offset(with_number(outcome, COVER_NO_END), (int)(len - at));
}

static uint64_t takes_none_at(size_t at, const uint8_t *job, size_t len, uint8_t *answers, size_t room)
{
    uint64_t outcome = cover_job(job, at, answers, room);
    int there = at < len && cover_number(outcome) == COVER_NO_END;
    return there ? with_number(outcome, COVER_WRONG_PLACE) : cover_job(job, len, answers, room);
}

static uint64_t takes_block_behind(const uint8_t *job, size_t len, uint8_t *answers, size_t room)
{
    return takes_at(pair_in(job, len, standing_in->behind, COVER_BLOCK), job, len, answers, room);
}

static uint64_t takes_behind_block(const uint8_t *job, size_t len, uint8_t *answers, size_t room)
{
    return takes_at(pair_in(job, len, COVER_BLOCK, standing_in->behind), job, len, answers, room);
}

static uint64_t takes_no_block_behind(const uint8_t *job, size_t len, uint8_t *answers, size_t room)
{
    return takes_none_at(pair_in(job, len, standing_in->behind, COVER_BLOCK), job, len, answers, room);
}

static uint64_t takes_none_behind_block(const uint8_t *job, size_t len, uint8_t *answers, size_t room)
{
    return takes_none_at(pair_in(job, len, COVER_BLOCK, standing_in->behind), job, len, answers, room);
}

/* Engines that give another number or offset at F. */

static int refused_block(const uint8_t *job, size_t len, uint64_t outcome, enum cover_refusal number)
{
    size_t at = cover_offset(outcome);
    return cover_number(outcome) == number && at < len && job[at] == COVER_BLOCK;
}

/* `behind` is the number that is given in the place of 18, or of which 18 takes the place. */
static uint64_t gives_another(const uint8_t *job, size_t len, uint8_t *answers, size_t room)
{
    uint64_t outcome = cover_job(job, len, answers, room);
    int malformed = refused_block(job, len, outcome, COVER_MALFORMED_BLOCK);
    return malformed ? with_number(outcome, (enum cover_refusal)standing_in->behind) : outcome;
}

static uint64_t gives_18(const uint8_t *job, size_t len, uint8_t *answers, size_t room)
{
    uint64_t outcome = cover_job(job, len, answers, room);
    int other = refused_block(job, len, outcome, (enum cover_refusal)standing_in->behind);
    return other ? with_number(outcome, COVER_MALFORMED_BLOCK) : outcome;
}

/* The first operands that it has are malformed already. */
static uint64_t tries_18_first(const uint8_t *job, size_t len, uint8_t *answers, size_t room)
{
    uint64_t outcome = cover_job(job, len, answers, room);
    size_t at = cover_offset(outcome);
    int other = refused_block(job, len, outcome, (enum cover_refusal)standing_in->behind);
    int bad = other && at + 1 < len && at > 2 && (job[at + 1] == 0 || job[at + 1] >= 1u << job[2]);
    return bad ? with_number(outcome, COVER_MALFORMED_BLOCK) : outcome;
}

static uint64_t tries_blocks_5_before_4(const uint8_t *job, size_t len, uint8_t *answers, size_t room)
{
    uint64_t outcome = cover_job(job, len, answers, room);
    int misplaced = refused_block(job, len, outcome, COVER_WRONG_PLACE);
    int cut = len - cover_offset(outcome) < COVER_BLOCK_BYTES;
    return misplaced && cut ? with_number(outcome, COVER_NO_OPERANDS) : outcome;
}

/* Whether the block at `at` meets `number` where it is well-formed, with its vertices or with none. */
static int meets(const uint8_t *job, size_t len, size_t at, enum cover_refusal number, int no_vertices)
{
    static uint8_t unused[COVER_MOST_ANSWER_BYTES];
    uint8_t *copy = copy_of(job, len), *x = copy + at + 1;
    read_job = job;
    take_high_outputs(x);
    take_no_outputs(x);
    take_high_vertices(x);
    try_no_weight(x);
    if (no_vertices)
        memset(x + VERTICES, 0, COVER_VERTEX_BYTES);
    uint64_t outcome = cover_job(copy, len, unused, sizeof unused);
    return cover_number(outcome) == number && cover_offset(outcome) == at;
}

/* `behind` is the number that is tried before. */
static uint64_t tries_before_18(const uint8_t *job, size_t len, uint8_t *answers, size_t room)
{
    uint64_t outcome = cover_job(job, len, answers, room);
    enum cover_refusal number = (enum cover_refusal)standing_in->behind;
    int malformed = refused_block(job, len, outcome, COVER_MALFORMED_BLOCK);
    int met = malformed && meets(job, len, cover_offset(outcome), number, number == COVER_TOO_MANY);
    return met ? with_number(outcome, number) : outcome;
}

static uint64_t tries_11_before_10(const uint8_t *job, size_t len, uint8_t *answers, size_t room)
{
    uint64_t outcome = cover_job(job, len, answers, room);
    int off = refused_block(job, len, outcome, COVER_OFF_CELL);
    int met = off && meets(job, len, cover_offset(outcome), COVER_TOO_MANY, 1);
    return met ? with_number(outcome, COVER_TOO_MANY) : outcome;
}

static uint64_t refuses_behind_block(const uint8_t *job, size_t len, uint8_t *answers, size_t room)
{
    uint64_t outcome = cover_job(job, len, answers, room);
    int malformed = cover_number(outcome) == COVER_MALFORMED_BLOCK;
    return malformed ? moved_offset(outcome, COVER_BLOCK_BYTES) : outcome;
}

static uint64_t writes_at_18(const uint8_t *job, size_t len, uint8_t *answers, size_t room)
{
    uint64_t outcome = cover_job(job, len, answers, room);
    if (cover_number(outcome) == COVER_MALFORMED_BLOCK && room > cover_written(outcome))
        answers[room - 1] ^= 1;
    return outcome;
}

static const struct stand_in ready_engines[] = {
    {"F is not known", knows_no_blocks, NULL, 0},
    {"vertices high bit first", reads_other_blocks, turn_bits, 0},
    {"vertices high byte first", reads_other_blocks, turn_vertex_bytes, 0},
    {"16 bytes of vertices", reads_other_blocks, cut_vertices, 0},
    {"the last vertex is left out", reads_other_blocks, leave_out_last_vertex, 0},
    {"vertices of 2^n and above are not tried", reads_other_blocks, take_high_vertices, 0},
    {"a block of no vertices is refused", reads_other_blocks, refuse_no_vertices, 0},
    {"outputs 0 is taken", reads_other_blocks, take_no_outputs, 0},
    {"outputs of m and above are not tried", reads_other_blocks, take_high_outputs, 0},
    {"the lowest output alone", reads_other_blocks, lowest_output, 0},
    {"weight high byte first", reads_other_blocks, turn_weight, 0},
    {"weight of one byte", reads_other_blocks, cut_weight, 0},
    {"851 is taken", reads_other_blocks, take_851, 0},
    {"850 is refused", reads_other_blocks, refuse_850, 0},
    {"0 is refused", reads_other_blocks, refuse_0, 0},
    {"the weight is not tried", reads_other_blocks, try_no_weight, 0},
    {"weights up to 1,023", reads_other_blocks, take_10_bits, 0},
    {"blocks are free", reads_other_blocks, drop_weight, 0},
    {"the price of a term is added", reads_other_blocks, add_price, 0},
    {"the weight comes first", reads_other_blocks, read_weight_first, 0},
    {"F is taken behind P", takes_block_behind, NULL, COVER_PRIMES},
    {"F is taken behind L", takes_block_behind, NULL, COVER_LIST},
    {"F is taken behind C", takes_block_behind, NULL, COVER_CHEAPEST},
    {"F is taken behind N", takes_block_behind, NULL, COVER_MULTIPLY},
    {"W is taken behind F", takes_behind_block, NULL, COVER_PRICES},
    {"R is taken behind F", takes_behind_block, NULL, COVER_ROW},
    {"B is taken behind F", takes_behind_block, NULL, COVER_ROWS},
    {"P is taken behind F", takes_behind_block, NULL, COVER_PRIMES},
    {"F is refused behind T", takes_no_block_behind, NULL, COVER_TERM},
    {"F is refused behind A", takes_no_block_behind, NULL, COVER_ADD},
    {"F is refused behind D", takes_no_block_behind, NULL, COVER_REMOVE},
    {"F is refused behind F", takes_no_block_behind, NULL, COVER_BLOCK},
    {"T is refused behind F", takes_none_behind_block, NULL, COVER_TERM},
    {"A is refused behind F", takes_none_behind_block, NULL, COVER_ADD},
    {"D is refused behind F", takes_none_behind_block, NULL, COVER_REMOVE},
    {"L is refused behind F", takes_none_behind_block, NULL, COVER_LIST},
    {"C is refused behind F", takes_none_behind_block, NULL, COVER_CHEAPEST},
    {"N is refused behind F", takes_none_behind_block, NULL, COVER_MULTIPLY},
    {"9 for 18", gives_another, NULL, COVER_MALFORMED_TERM},
    {"16 for 18", gives_another, NULL, COVER_WRONG_PRICES},
    {"18 for 10", gives_18, NULL, COVER_OFF_CELL},
    {"18 for 11", gives_18, NULL, COVER_TOO_MANY},
    {"18 before 4", tries_18_first, NULL, COVER_WRONG_PLACE},
    {"18 before 5", tries_18_first, NULL, COVER_NO_OPERANDS},
    {"5 before 4", tries_blocks_5_before_4, NULL, 0},
    {"10 before 18", tries_before_18, NULL, COVER_OFF_CELL},
    {"11 before 18", tries_before_18, NULL, COVER_TOO_MANY},
    {"11 before 10", tries_11_before_10, NULL, 0},
    {"18 at what follows", refuses_behind_block, NULL, 0},
    {"a byte is written at 18", writes_at_18, NULL, 0},
};

enum { READY_ENGINES = sizeof ready_engines / sizeof ready_engines[0] };

/* Wrong readings. */

static unsigned held_by_turned_bits(const struct ready *ready, unsigned v) { return held_by_words(ready, v ^ 7); }
static unsigned held_by_next(const struct ready *ready, unsigned v) { return held_by_words(ready, (v + 1) % 256); }
static unsigned held_at_all_outputs(const struct ready *ready, unsigned v) { return held_by_words(ready, v) ? 255 : 0; }

static unsigned held_elsewhere(const struct ready *ready, unsigned v)
{
    return ready->outputs & ~held_by_words(ready, v);
}

static unsigned held_at_lowest(const struct ready *ready, unsigned v)
{
    unsigned outputs = held_by_words(ready, v);
    return outputs & -outputs;
}

/* The least cube around its vertices. */
static unsigned held_by_cube(const struct ready *ready, unsigned v)
{
    unsigned any = 0, all = 255;
    for (unsigned w = 0; w < 256; w++)
        if (held_by_words(ready, w)) {
            any |= w;
            all &= w;
        }
    return (v & all) == all && (v & ~any) == 0 ? ready->outputs : 0;
}

static unsigned cost_of_a_term(const struct ready *ready, struct prices prices)
{
    return prices.term + ones_of(ready->outputs) * prices.connection;
}

static unsigned cost_with_connections(const struct ready *ready, struct prices prices)
{
    return ready->weight + ones_of(ready->outputs) * prices.connection;
}

static unsigned cost_of_each_output(const struct ready *ready, struct prices prices)
{
    (void)prices;
    return ready->weight * ones_of(ready->outputs);
}

#define HOLDING(text, held) {.name = text, .holds = held, .costs = cost_by_words}
#define COSTING(text, cost) {.name = text, .holds = held_by_words, .costs = cost}
#define FLAGGED(text, flag) {.name = text, .holds = held_by_words, .costs = cost_by_words, .flag = 1}

static const struct reading readings[] = {
    HOLDING("a block holds by turned bits", held_by_turned_bits),
    HOLDING("a block holds the vertex before", held_by_next),
    HOLDING("a block holds the other vertices", held_elsewhere),
    HOLDING("a block holds every output", held_at_all_outputs),
    HOLDING("a block holds its lowest output", held_at_lowest),
    HOLDING("a block holds a cube", held_by_cube),
    COSTING("a block costs as a term", cost_of_a_term),
    COSTING("connections of a block are charged", cost_with_connections),
    COSTING("the weight is that of an output", cost_of_each_output),
    FLAGGED("vertices stay behind D", vertices_stay),
    FLAGGED("weights stay behind D", weights_stay),
    FLAGGED("L lists no blocks", unlisted),
    FLAGGED("C takes no blocks", too_dear),
    FLAGGED("N multiplies no blocks", unmultiplied),
};

enum { READINGS = sizeof readings / sizeof readings[0] };

static void test_ready_stand_ins(void)
{
    struct tests tests = {ready_tests, READY_TESTS};
    unsigned seen = see_engines(ready_engines, READY_ENGINES, tests);
    for (size_t i = 0; i < READINGS; i++) {
        reading = readings[i];
        seen += see(reading.name, tests);
    }
    reading = as_requested;
    printf("%u of %d wrong engines and readings for F seen\n", seen, READY_ENGINES + READINGS);
}

#endif
