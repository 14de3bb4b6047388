#include "trials.h"

#include <string.h>

enum { PLAN_FILE, SIZE, ROWS, FIRSTS, OUTCOMES };

static uint32_t call(const struct trial *t, uint8_t *const *bytes)
{
    return gate_read(bytes[PLAN_FILE], t->slice[PLAN_FILE].length, bytes[SIZE], t->slice[SIZE].length, bytes[ROWS], t->slice[ROWS].length,
                     bytes[FIRSTS], t->slice[FIRSTS].length, bytes[OUTCOMES], t->slice[OUTCOMES].length);
}

struct trial read_trial(const struct tables *p)
{
    struct trial t = { .name = p->name, .call = call, .slices = 5 };
    t.slice[PLAN_FILE] = lent_in("file", p->file, GATE_FILE_BYTES(p->n, p->m, p->t), 0, 0);
    t.slice[SIZE] = lent_out("size", p->size, GATE_SIZE_BYTES, 2, GATE_CRAMPED);
    t.slice[ROWS] = lent_out("rows", p->rows, GATE_ROWS_BYTES(p->n), 6, GATE_CRAMPED);
    t.slice[FIRSTS] = lent_out("firsts", p->firsts, GATE_FIRSTS_BYTES(p->m), 2, GATE_CRAMPED);
    t.slice[OUTCOMES] = lent_out("outcomes", p->outcomes, GATE_OUTCOMES_BYTES(p->t), 2, GATE_CRAMPED);
    return t;
}

void read_refused(const char *name, const uint8_t *file, size_t length, uint32_t refusal)
{
    struct trial t = { .name = name, .call = call, .slices = 5 };
    t.slice[PLAN_FILE] = lent_in("file", file, length, 0, 0);
    t.slice[SIZE] = lent_out("size", NULL, GATE_SIZE_BYTES, 2, 0);
    t.slice[ROWS] = lent_out("rows", NULL, GATE_MAX_ROWS_BYTES, 6, 0);
    t.slice[FIRSTS] = lent_out("firsts", NULL, GATE_MAX_FIRSTS_BYTES, 2, 0);
    t.slice[OUTCOMES] = lent_out("outcomes", NULL, GATE_MAX_OUTCOMES_BYTES, 2, 0);
    EXPECT(&t, refusal);
    for (size_t i = SIZE; i <= OUTCOMES; i++) {
        t.slice[i].length = 0;
        t.slice[i].null = true;
    }
    EXPECT(&t, refusal);
    t.slice[PLAN_FILE].null = length == 0;
    EXPECT(&t, refusal);
}

#define REFUSED(refusal, ...) \
    do { \
        const uint8_t file[] = { __VA_ARGS__ }; \
        read_refused(#refusal " " #__VA_ARGS__, file, sizeof file, refusal); \
    } while (0)

/* A field of n = 2, start 0; a state of kind 0 with one command and no practice; and the end. */
#define HEAD 1, 0, 4, 0, 2, 0, 0
#define STATE 2, 0, 5, 0, 0, 1, 255, 255
#define REST 2, 0, 5, 2, 0, 0, 255, 255
#define END 4, 0, 0

static void test_refusals(void)
{
    REFUSED(GATE_CUT, 1);
    REFUSED(GATE_CUT, 9, 0); /* a wrong tag, but not three bytes */
    REFUSED(GATE_CUT, HEAD);
    REFUSED(GATE_CUT, 1, 0, 4, 0, 0, 0); /* n = 0, but not the whole value */
    REFUSED(GATE_CUT, HEAD, REST, REST);
    REFUSED(GATE_SURPLUS, HEAD, REST, REST, END, 0);
    REFUSED(GATE_TAG, 2, 0, 4, 0, 2, 0, 0);
    REFUSED(GATE_TAG, HEAD, REST, END);
    REFUSED(GATE_TAG, HEAD, REST, STATE, END);
    REFUSED(GATE_LENGTH, 1, 0, 5, 0, 2, 0, 0, 0);
    REFUSED(GATE_LENGTH, HEAD, STATE, 3, 0, 0);
    REFUSED(GATE_LENGTH, HEAD, STATE, 3, 0, 3, 0, 0, 0);
    REFUSED(GATE_BEYOND, 1, 0, 4, 0, 0, 0, 0); /* n = 0 */
    REFUSED(GATE_BEYOND, 1, 0, 4, 4, 1, 0, 0); /* n = 1,025 */
    REFUSED(GATE_BEYOND, 1, 0, 4, 0, 2, 0, 2); /* start = n */
    REFUSED(GATE_BEYOND, HEAD, 2, 0, 5, 3, 0, 0, 255, 255);
    REFUSED(GATE_BEYOND, HEAD, STATE, 3, 0, 2, 0, 2);
    REFUSED(GATE_UNSORTED, HEAD, STATE, 3, 0, 4, 0, 1, 0, 1);
    REFUSED(GATE_UNSORTED, HEAD, STATE, 3, 0, 6, 0, 1, 0, 0, 0, 9); /* the first entry that is wrong counts */
    REFUSED(GATE_IDLE, HEAD, 2, 0, 5, 2, 0, 1, 255, 255);
    REFUSED(GATE_IDLE, HEAD, 2, 0, 5, 0, 0, 1, 0, 1);
    REFUSED(GATE_LIMIT, HEAD, 2, 0, 5, 0, 16, 1, 255, 255); /* 4,097 commands announced */
}

/* Every beginning of case A is cut, and with one byte more it is surplus. */
static void test_cut(const struct plan *p)
{
    uint8_t longer[sizeof p->file + 1] = { 0 };
    for (size_t length = 0; length < sizeof p->file; length++)
        read_refused("case A cut", p->file, length, GATE_CUT);
    memcpy(longer, p->file, sizeof p->file);
    read_refused("case A and one byte", longer, sizeof longer, GATE_SURPLUS);
}

void test_read(void)
{
    for (size_t i = 0; i < PLANS; i++) {
        struct image image = image_of(&plans[i]);
        struct tables tables = tables_of(&plans[i], &image);
        struct trial trial = read_trial(&tables);
        VARY(&trial);
    }
    read_refused("empty input", NULL, 0, GATE_CUT);
    test_refusals();
    test_cut(&plans[0]);
}
