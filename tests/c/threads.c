#include "check.h"
#include "trials.h"

#include <pthread.h>
#include <string.h>

enum { THREADS = 4, TIMES = 500 };

struct worker {
    const struct plan *plan;
    bool right;
};

static bool decides(const struct tables *p, const struct image *want)
{
    struct image got = { .scratch = { 0 } };
    uint32_t r = gate_decide(p->size, GATE_SIZE_BYTES, p->rows, GATE_ROWS_BYTES(p->n), p->firsts, GATE_FIRSTS_BYTES(p->m), p->outcomes,
                             GATE_OUTCOMES_BYTES(p->t), got.ranks, GATE_STATES_BYTES(p->n), got.commands, GATE_STATES_BYTES(p->n),
                             got.marks, GATE_STATES_BYTES(p->n), got.scratch, GATE_STATES_BYTES(p->n), got.tally, GATE_TALLY_BYTES);
    return r == 0 && memcmp(got.ranks, want->ranks, sizeof got.ranks) == 0 && memcmp(got.tally, want->tally, sizeof got.tally) == 0;
}

static bool searches(const struct tables *p, const struct image *want)
{
    struct image got = { .scratch = { 0 } };
    uint32_t r = gate_search(p->size, GATE_SIZE_BYTES, p->rows, GATE_ROWS_BYTES(p->n), p->firsts, GATE_FIRSTS_BYTES(p->m), p->outcomes,
                             GATE_OUTCOMES_BYTES(p->t), p->start, got.commands, GATE_STATES_BYTES(p->n), got.scratch,
                             GATE_STATES_BYTES(p->n), got.answer, GATE_ANSWER_BYTES);
    return r == 0 && memcmp(got.answer, want->answer, sizeof got.answer) == 0;
}

static void *work(void *argument)
{
    struct worker *w = argument;
    struct image image = image_of(w->plan);
    struct tables tables = tables_of(w->plan, &image);
    w->right = true;
    for (int i = 0; i < TIMES; i++)
        w->right = w->right && decides(&tables, &image) && searches(&tables, &image);
    return NULL;
}

/* Calls on different slices at the same time. */
void test_threads(void)
{
    pthread_t thread[THREADS];
    struct worker worker[THREADS];
    for (size_t i = 0; i < THREADS; i++) {
        worker[i].plan = &plans[(i * 3) % PLANS];
        CHECK(pthread_create(&thread[i], NULL, work, &worker[i]) == 0);
    }
    for (size_t i = 0; i < THREADS; i++) {
        CHECK(pthread_join(thread[i], NULL) == 0);
        CHECK(worker[i].right);
    }
}
