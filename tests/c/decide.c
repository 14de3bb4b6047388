#include "trials.h"

enum { SIZE, ROWS, FIRSTS, OUTCOMES, RANKS, COMMANDS, MARKS, SCRATCH, TALLY };

static uint32_t call(const struct trial *t, uint8_t *const *bytes)
{
    return gate_decide(bytes[SIZE], t->slice[SIZE].length, bytes[ROWS], t->slice[ROWS].length, bytes[FIRSTS], t->slice[FIRSTS].length,
                       bytes[OUTCOMES], t->slice[OUTCOMES].length, bytes[RANKS], t->slice[RANKS].length, bytes[COMMANDS],
                       t->slice[COMMANDS].length, bytes[MARKS], t->slice[MARKS].length, bytes[SCRATCH], t->slice[SCRATCH].length,
                       bytes[TALLY], t->slice[TALLY].length);
}

struct trial decide_trial(const struct tables *p)
{
    struct trial t = { .name = p->name, .call = call, .slices = 9 };
    t.slice[SIZE] = lent_in("size", p->size, GATE_SIZE_BYTES, 2, GATE_UNSOUND);
    t.slice[ROWS] = lent_in("rows", p->rows, GATE_ROWS_BYTES(p->n), 6, GATE_UNSOUND);
    t.slice[FIRSTS] = lent_in("firsts", p->firsts, GATE_FIRSTS_BYTES(p->m), 2, GATE_UNSOUND);
    t.slice[OUTCOMES] = lent_in("outcomes", p->outcomes, GATE_OUTCOMES_BYTES(p->t), 2, GATE_UNSOUND);
    t.slice[RANKS] = lent_out("ranks", p->ranks, GATE_STATES_BYTES(p->n), 2, GATE_CRAMPED);
    t.slice[COMMANDS] = lent_out("commands", p->commands, GATE_STATES_BYTES(p->n), 2, GATE_CRAMPED);
    t.slice[MARKS] = lent_out("marks", p->marks, GATE_STATES_BYTES(p->n), 2, GATE_CRAMPED);
    t.slice[SCRATCH] = lent_out("scratch", p->scratch, GATE_STATES_BYTES(p->n), 2, GATE_CRAMPED);
    t.slice[TALLY] = lent_out("tally", p->tally, GATE_TALLY_BYTES, 2, GATE_CRAMPED);
    return t;
}

/* Case A with one entry of its size record or tables altered so that no file gives it, and then with no room either. */
static void unsound(const char *name, struct plan altered)
{
    struct image image = image_of(&altered);
    struct tables tables = tables_of(&plans[0], &image);
    struct trial t = decide_trial(&tables);
    t.name = name;
    EXPECT(&t, GATE_UNSOUND);
    t.slice[RANKS].length = 0;
    t.slice[TALLY].length = 0;
    EXPECT(&t, GATE_UNSOUND);
}

#define UNSOUND(place, entry) \
    do { \
        struct plan altered = plans[0]; \
        altered.place = (entry); \
        unsound("case A with " #place " = " #entry, altered); \
    } while (0)

void test_decide(void)
{
    for (size_t i = 0; i < PLANS; i++) {
        struct image image = image_of(&plans[i]);
        struct tables tables = tables_of(&plans[i], &image);
        struct trial trial = decide_trial(&tables);
        VARY(&trial);
    }
    UNSOUND(size[0], 0);
    UNSOUND(size[0], 5);
    UNSOUND(size[0], 1025);
    UNSOUND(size[1], 5);
    UNSOUND(size[2], 8);
    UNSOUND(size[3], 6);
    UNSOUND(rows[0], 3);
    UNSOUND(rows[0], 0x0100); /* a kind is an entry, not its low byte */
    UNSOUND(rows[0], 2);      /* rest, with commands */
    UNSOUND(rows[1], 1);
    UNSOUND(rows[2], 2); /* the practice of a state with two commands */
    UNSOUND(rows[4], 7);
    UNSOUND(firsts[0], 1);
    UNSOUND(firsts[2], 1); /* a command without outcomes */
    UNSOUND(outcomes[0], 6);
    UNSOUND(outcomes[2], 2); /* 2, 2 does not rise */
}
