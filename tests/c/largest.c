#include "largest.h"

enum { LAST = GATE_MAX_STATES - 1 };

/* How far the plan has come. */
struct pen {
    struct largest *plan;
    size_t at, m, t;
};

static void put(uint8_t *bytes, size_t i, size_t entry)
{
    gate_set_entry(bytes, i, (uint16_t)entry);
}

static void byte(struct pen *pen, size_t x)
{
    pen->plan->file[pen->at++] = (uint8_t)x;
}

static void entry(struct pen *pen, size_t x)
{
    byte(pen, x >> 8);
    byte(pen, x & 0xFF);
}

static void field(struct pen *pen, size_t tag, size_t length)
{
    byte(pen, tag);
    entry(pen, length);
}

/* States 0 and 1 have few states behind them; states 10 to 14 make up for that, so that there are 16,384 outcomes in all. */
size_t largest_outcomes(size_t s)
{
    if (s < 2)
        return s + 2;
    return s >= 10 && s < 15 ? 5 : 4;
}

/* The last state has no commands, and state 0 has its four too. */
size_t largest_commands(size_t s)
{
    return s == LAST ? 0 : s == 0 ? 8 : 4;
}

static void command(struct pen *pen, size_t s)
{
    size_t count = largest_outcomes(s);
    field(pen, 3, 2 * count);
    put(pen->plan->firsts, pen->m++, pen->t);
    for (size_t o = s + 2 - count; o < s + 2; o++) {
        entry(pen, o);
        put(pen->plan->outcomes, pen->t++, o);
    }
}

static void state(struct pen *pen, size_t s, uint16_t kind)
{
    size_t count = largest_commands(s);
    field(pen, 2, 5);
    byte(pen, kind);
    entry(pen, count);
    entry(pen, GATE_NONE);
    put(pen->plan->rows, 3 * s, kind);
    put(pen->plan->rows, 3 * s + 1, pen->m);
    put(pen->plan->rows, 3 * s + 2, GATE_NONE);
    for (size_t c = 0; c < count; c++)
        command(pen, s);
}

static void verdicts(struct largest *plan, bool lost)
{
    for (size_t s = 0; s <= LAST; s++) {
        size_t chosen = lost || s == LAST ? GATE_NONE : 0;
        put(plan->ranks, s, lost ? LAST - s : GATE_NONE);
        put(plan->commands, s, chosen);
        put(plan->walked, s, chosen);
        put(plan->marks, s, lost && s == LAST ? GATE_PRACTICE_FAILS : 0);
        put(plan->scratch, s, 0);
    }
    for (size_t i = 0; i < 6; i++)
        put(plan->tally, i, i == (lost ? 5 : 2) ? GATE_MAX_STATES : 0);
    put(plan->answer, 0, lost ? GATE_LOST : GATE_SAFE);
    put(plan->answer, 1, lost ? LAST : 1);
}

void make_largest(struct largest *plan, uint16_t last_kind)
{
    struct pen pen = { plan, 0, 0, 0 };
    field(&pen, 1, 4);
    entry(&pen, GATE_MAX_STATES);
    entry(&pen, 0);
    for (size_t s = 0; s <= LAST; s++)
        state(&pen, s, s == LAST ? last_kind : GATE_ORDINARY);
    field(&pen, 4, 0);
    put(plan->size, 0, GATE_MAX_STATES);
    put(plan->size, 1, pen.m);
    put(plan->size, 2, pen.t);
    put(plan->size, 3, 0);
    verdicts(plan, last_kind != GATE_REST);
}

static const char *name_of(uint16_t last_kind)
{
    return last_kind == GATE_REST ? "largest plan, safe" : last_kind == GATE_FAILING ? "largest plan, lost" : "largest plan, stuck";
}

struct tables tables_of_largest(const struct largest *p, uint16_t last_kind)
{
    struct tables tables = {
        .name = name_of(last_kind),
        .n = GATE_MAX_STATES,
        .m = GATE_MAX_COMMANDS,
        .t = GATE_MAX_OUTCOMES,
        .start = 0,
        .file = p->file,
        .size = p->size,
        .rows = p->rows,
        .firsts = p->firsts,
        .outcomes = p->outcomes,
        .ranks = p->ranks,
        .commands = p->commands,
        .marks = p->marks,
        .scratch = p->scratch,
        .tally = p->tally,
        .answer = p->answer,
        .walked = p->walked,
    };
    return tables;
}
