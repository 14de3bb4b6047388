/* The three calls as trials, and the tests of each. */
#ifndef TRIALS_H
#define TRIALS_H

#include "lend.h"
#include "plans.h"

/* A plan of n states, m commands and t outcomes, small or large: where its bytes are. */
struct tables {
    const char *name;
    size_t n, m, t, start;
    const uint8_t *file, *size, *rows, *firsts, *outcomes;
    const uint8_t *ranks, *commands, *marks, *scratch, *tally;
    const uint8_t *answer, *walked;
};

/* The calls on such a plan, with slices just as long as needed. */
struct trial read_trial(const struct tables *tables);
struct trial decide_trial(const struct tables *tables);
struct trial search_trial(const struct tables *tables);

/* A file that is refused, whatever else is lent: with much room, and with none, since cramped is the last refusal. */
void read_refused(const char *name, const uint8_t *file, size_t length, uint32_t refusal);

/* A small plan, whose bytes are in `image`. */
struct tables tables_of(const struct plan *plan, const struct image *image);

void test_read(void);
void test_decide(void);
void test_search(void);
void test_limits(void);
void test_threads(void);

#endif
