/* Plans whose tables and verdicts are known, from documents 01 and 02. */
#ifndef PLANS_H
#define PLANS_H

#include "gate.h"

enum { SMALL_STATES = 6, SMALL_COMMANDS = 6, SMALL_OUTCOMES = 9 };

/* A plan in numbers: the file, what reading gives, what deciding gives, and what the search from the plan's start gives. */
struct plan {
    const char *name;
    uint8_t file[GATE_FILE_BYTES(SMALL_STATES, SMALL_COMMANDS, SMALL_OUTCOMES)];
    uint16_t size[4];
    uint16_t rows[3 * SMALL_STATES];
    uint16_t firsts[SMALL_COMMANDS];
    uint16_t outcomes[SMALL_OUTCOMES];
    uint16_t ranks[SMALL_STATES];
    uint16_t commands[SMALL_STATES];
    uint16_t marks[SMALL_STATES];
    uint16_t tally[6];
    uint16_t answer[2];
    uint16_t walked[SMALL_STATES]; /* the search's command table */
};

/* The same in bytes, as slices hold them. */
struct image {
    uint8_t size[GATE_SIZE_BYTES];
    uint8_t rows[GATE_ROWS_BYTES(SMALL_STATES)];
    uint8_t firsts[GATE_FIRSTS_BYTES(SMALL_COMMANDS)];
    uint8_t outcomes[GATE_OUTCOMES_BYTES(SMALL_OUTCOMES)];
    uint8_t ranks[GATE_STATES_BYTES(SMALL_STATES)];
    uint8_t commands[GATE_STATES_BYTES(SMALL_STATES)];
    uint8_t marks[GATE_STATES_BYTES(SMALL_STATES)];
    uint8_t scratch[GATE_STATES_BYTES(SMALL_STATES)];
    uint8_t tally[GATE_TALLY_BYTES];
    uint8_t answer[GATE_ANSWER_BYTES];
    uint8_t walked[GATE_STATES_BYTES(SMALL_STATES)];
};

enum { PLANS = 10 };

extern const struct plan plans[PLANS]; /* case A is the first */

struct image image_of(const struct plan *plan);

/* Entries as bytes, highest first. */
void put_entries(uint8_t *bytes, const uint16_t *entries, size_t count);

#endif
