/* The largest plan: as many states, commands and outcomes as there may be, and a search of as many rounds as one can take. */
#ifndef LARGEST_H
#define LARGEST_H

#include "trials.h"

struct largest {
    uint8_t file[GATE_MAX_FILE_BYTES];
    uint8_t size[GATE_SIZE_BYTES];
    uint8_t rows[GATE_MAX_ROWS_BYTES];
    uint8_t firsts[GATE_MAX_FIRSTS_BYTES];
    uint8_t outcomes[GATE_MAX_OUTCOMES_BYTES];
    uint8_t ranks[GATE_MAX_STATES_BYTES];
    uint8_t commands[GATE_MAX_STATES_BYTES];
    uint8_t marks[GATE_MAX_STATES_BYTES];
    uint8_t scratch[GATE_MAX_STATES_BYTES];
    uint8_t tally[GATE_TALLY_BYTES];
    uint8_t answer[GATE_ANSWER_BYTES];
    uint8_t walked[GATE_MAX_STATES_BYTES];
};

/*
 * Each state's commands may all go one state on, and else stay or go back. If the last state is failing, or is ordinary and so stuck,
 * state s has rank 1023 - s, and the search from 0 finds one more state lost in each of 1,023 rounds. If it is rest, all are safe by
 * command 0, in one round.
 */
void make_largest(struct largest *plan, uint16_t last_kind);

/* How many commands state s has, and how many outcomes each of them; the last outcome is s + 1. */
size_t largest_commands(size_t s);
size_t largest_outcomes(size_t s);

struct tables tables_of_largest(const struct largest *plan, uint16_t last_kind);

#endif
