#include "trials.h"

#include <stdio.h>

enum { SIZE, ROWS, FIRSTS, OUTCOMES, COMMANDS, SCRATCH, ANSWER };

static uint32_t call(const struct trial *t, uint8_t *const *bytes)
{
    return gate_search(bytes[SIZE], t->slice[SIZE].length, bytes[ROWS], t->slice[ROWS].length, bytes[FIRSTS], t->slice[FIRSTS].length,
                       bytes[OUTCOMES], t->slice[OUTCOMES].length, t->start, bytes[COMMANDS], t->slice[COMMANDS].length, bytes[SCRATCH],
                       t->slice[SCRATCH].length, bytes[ANSWER], t->slice[ANSWER].length);
}

struct trial search_trial(const struct tables *p)
{
    struct trial t = { .name = p->name, .call = call, .start = p->start, .slices = 7 };
    t.slice[SIZE] = lent_in("size", p->size, GATE_SIZE_BYTES, 2, GATE_UNSOUND);
    t.slice[ROWS] = lent_in("rows", p->rows, GATE_ROWS_BYTES(p->n), 6, GATE_UNSOUND);
    t.slice[FIRSTS] = lent_in("firsts", p->firsts, GATE_FIRSTS_BYTES(p->m), 2, GATE_UNSOUND);
    t.slice[OUTCOMES] = lent_in("outcomes", p->outcomes, GATE_OUTCOMES_BYTES(p->t), 2, GATE_UNSOUND);
    t.slice[COMMANDS] = lent_out("commands", p->walked, GATE_STATES_BYTES(p->n), 2, GATE_CRAMPED);
    t.slice[SCRATCH] = lent_out("scratch", p->scratch, GATE_STATES_BYTES(p->n), 2, GATE_CRAMPED);
    t.slice[ANSWER] = lent_out("answer", p->answer, GATE_ANSWER_BYTES, 2, GATE_CRAMPED);
    return t;
}

#define NO GATE_NONE

/* Worked out by hand: case A, plan 0, from each of its states; and plans 8 and 9, which have a stuck state, from where runs end. */
static const struct {
    size_t plan, start;
    uint16_t answer[2], walked[SMALL_STATES];
} starts[] = {
    { 0, 0, { GATE_SAFE, 2 }, { 0, 0, NO, NO, NO, NO } },   /* round 1 takes practice 1 of state 0, and marks 3; round 2 takes 0 */
    { 0, 1, { GATE_SAFE, 2 }, { 0, 0, NO, NO, NO, NO } },   /* the same walk, begun at 1 */
    { 0, 2, { GATE_SAFE, 0 }, { NO, NO, NO, NO, NO, NO } }, /* rest */
    { 0, 3, { GATE_LOST, 1 }, { NO, NO, NO, NO, NO, NO } }, /* both commands may land on 4 */
    { 0, 4, { GATE_LOST, 0 }, { NO, NO, NO, NO, NO, NO } }, /* failing */
    { 0, 5, { GATE_LOST, 2 }, { NO, NO, NO, NO, NO, NO } }, /* round 1 goes to 3 and marks it; round 2 marks 5 */
    { 8, 1, { GATE_LOST, 0 }, { NO, NO, NO, NO, NO, NO } }, /* stuck, before a rest */
    { 8, 2, { GATE_SAFE, 0 }, { NO, NO, NO, NO, NO, NO } }, /* rest */
    { 9, 1, { GATE_SAFE, 0 }, { NO, NO, NO, NO, NO, NO } }, /* rest */
    { 9, 2, { GATE_LOST, 0 }, { NO, NO, NO, NO, NO, NO } }, /* stuck, and last */
};

static void test_starts(void)
{
    for (size_t i = 0; i < sizeof starts / sizeof *starts; i++) {
        struct plan p = plans[starts[i].plan];
        for (size_t k = 0; k < SMALL_STATES; k++)
            p.walked[k] = starts[i].walked[k];
        p.answer[0] = starts[i].answer[0];
        p.answer[1] = starts[i].answer[1];
        struct image image = image_of(&p);
        struct tables tables = tables_of(&p, &image);
        struct trial t = search_trial(&tables);
        t.start = starts[i].start;
        VARY(&t);
    }
}

/* A start that is no state: 11, also where a slice to be written is short, but 10 where one of the plan's is. */
static void stranger(const struct tables *p, size_t start)
{
    struct trial t = search_trial(p);
    char name[128];
    snprintf(name, sizeof name, "%s from %zu", p->name, start);
    t.name = name;
    t.start = start;
    EXPECT(&t, GATE_STRANGER);
    for (size_t i = 0; i < t.slices; i++) {
        struct trial other = t;
        struct slice *s = &other.slice[i];
        if (s->count == 0)
            continue;
        s->length = s->count - 1;
        EXPECT(&other, s->refusal == GATE_UNSOUND ? GATE_UNSOUND : GATE_STRANGER);
    }
}

/* No start makes up for tables that are no plan's, here by the size record's own start, nor does room matter then. */
static void unsound(size_t start)
{
    struct plan altered = plans[0];
    altered.size[3] = SMALL_STATES;
    struct image image = image_of(&altered);
    struct tables tables = tables_of(&plans[0], &image);
    struct trial t = search_trial(&tables);
    t.start = start;
    EXPECT(&t, GATE_UNSOUND);
    t.slice[COMMANDS].length = t.slice[SCRATCH].length = t.slice[ANSWER].length = 0;
    EXPECT(&t, GATE_UNSOUND);
}

/* What a start can have above its low 16 bits. */
static const size_t high[] = { (size_t)1 << 16, (size_t)3 << 16, (size_t)1 << 32, (size_t)1 << 63, SIZE_MAX - 0xFFFF };

/* Starts from n on, those among them that would be a state if the call dropped their higher bits. */
static void test_strangers(const struct tables *p)
{
    const size_t beyond[] = { p->n, p->n + 1, 256, NO, SIZE_MAX };
    for (size_t i = 0; i < sizeof beyond / sizeof *beyond; i++)
        stranger(p, beyond[i]);
    for (size_t i = 0; i < sizeof high / sizeof *high; i++)
        for (size_t s = 0; s < p->n; s++)
            stranger(p, high[i] + s);
}

static void test_unsound(void)
{
    static const size_t named[] = { 0, SMALL_STATES, NO, 65536, 65539, SIZE_MAX };
    for (size_t i = 0; i < sizeof named / sizeof *named; i++)
        unsound(named[i]);
}

void test_search(void)
{
    for (size_t i = 0; i < PLANS; i++) {
        struct image image = image_of(&plans[i]);
        struct tables tables = tables_of(&plans[i], &image);
        struct trial trial = search_trial(&tables);
        VARY(&trial);
        test_strangers(&tables);
    }
    test_starts();
    test_unsound();
}
