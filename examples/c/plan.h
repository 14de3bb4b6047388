/* A plan in memory, with room for the largest there can be, and how the examples get one from a file. */
#ifndef PLAN_H
#define PLAN_H

#include "gate.h"

struct plan {
    uint8_t size[GATE_SIZE_BYTES];
    uint8_t rows[GATE_MAX_ROWS_BYTES];
    uint8_t firsts[GATE_MAX_FIRSTS_BYTES];
    uint8_t outcomes[GATE_MAX_OUTCOMES_BYTES];
};

/* Reads the plan file that the one argument names. Returns 0, or the exit status after saying why. */
int get_plan(struct plan *plan, const char *program, int count, char **words);

/* Says which call was refused and why. Returns the exit status. */
int refused(const char *program, const char *call, uint32_t number);

#endif
