#include "plans.h"

#define NO GATE_NONE

const struct plan plans[PLANS] = {
    {
        .name = "case A",
        .file = { 1, 0, 4, 0, 6, 0, 0,
                  2, 0, 5, 0, 0, 2, 0, 1, 3, 0, 2, 0, 1, 3, 0, 4, 0, 2, 0, 3,
                  2, 0, 5, 0, 0, 1, 0, 0, 3, 0, 4, 0, 0, 0, 1,
                  2, 0, 5, 2, 0, 0, 255, 255,
                  2, 0, 5, 0, 0, 2, 0, 0, 3, 0, 2, 0, 4, 3, 0, 4, 0, 2, 0, 4,
                  2, 0, 5, 1, 0, 0, 255, 255,
                  2, 0, 5, 0, 0, 1, 255, 255, 3, 0, 2, 0, 3,
                  4, 0, 0 },
        .size = { 6, 6, 9, 0 },
        .rows = { 0, 0, 1, 0, 2, 0, 2, 3, NO, 0, 3, 0, 1, 5, NO, 0, 5, NO },
        .firsts = { 0, 1, 3, 5, 6, 8 },
        .outcomes = { 1, 2, 3, 0, 1, 4, 2, 4, 3 },
        /* document 01's listing of case A, line by line: S or the rank, the chosen command, F adds 1 and ! adds 2 */
        .ranks = { NO, NO, NO, 1, 0, 2 },
        .commands = { 0, 0, NO, NO, NO, NO },
        .marks = { 3, 1, 0, 1, 1, 0 },
        .tally = { 0, 2, 1, 0, 1, 2 },
        .answer = { GATE_SAFE, 2 },
        .walked = { 0, 0, NO, NO, NO, NO }, /* command 0 leads from 0 to 1, and from 1 to 0 or 1 */
    },
    {
        .name = "one rest state",
        .file = { 1, 0, 4, 0, 1, 0, 0, 2, 0, 5, 2, 0, 0, 255, 255, 4, 0, 0 },
        .size = { 1, 0, 0, 0 },
        .rows = { 2, 0, NO },
        .ranks = { NO },
        .commands = { NO },
        .marks = { 0 },
        .tally = { 0, 0, 1, 0, 0, 0 },
        .answer = { GATE_SAFE, 0 },
        .walked = { NO },
    },
    {
        .name = "one failing state",
        .file = { 1, 0, 4, 0, 1, 0, 0, 2, 0, 5, 1, 0, 0, 255, 255, 4, 0, 0 },
        .size = { 1, 0, 0, 0 },
        .rows = { 1, 0, NO },
        .ranks = { 0 },
        .commands = { NO },
        .marks = { 1 },
        .tally = { 0, 0, 0, 0, 0, 1 },
        .answer = { GATE_LOST, 0 },
        .walked = { NO },
    },
    {
        .name = "0 to {0}",
        .file = { 1, 0, 4, 0, 1, 0, 0, 2, 0, 5, 0, 0, 1, 255, 255, 3, 0, 2, 0, 0, 4, 0, 0 },
        .size = { 1, 1, 1, 0 },
        .rows = { 0, 0, NO },
        .firsts = { 0 },
        .outcomes = { 0 },
        .ranks = { NO },
        .commands = { 0 },
        .marks = { 0 },
        .tally = { 0, 0, 1, 0, 0, 0 },
        .answer = { GATE_SAFE, 1 },
        .walked = { 0 },
    },
    {
        .name = "0 to {0,1}, 1 failing",
        .file = { 1, 0, 4, 0, 2, 0, 0, 2, 0, 5, 0, 0, 1, 255, 255, 3, 0, 4, 0, 0, 0, 1, 2, 0, 5, 1, 0, 0, 255, 255, 4, 0, 0 },
        .size = { 2, 1, 2, 0 },
        .rows = { 0, 0, NO, 1, 1, NO },
        .firsts = { 0 },
        .outcomes = { 0, 1 },
        .ranks = { 1, 0 },
        .commands = { NO, NO },
        .marks = { 0, 1 },
        .tally = { 0, 0, 0, 0, 0, 2 },
        .answer = { GATE_LOST, 1 },
        .walked = { NO, NO },
    },
    {
        .name = "0 with {1} and {0}, 1 failing",
        .file = { 1, 0, 4, 0, 2, 0, 0, 2, 0, 5, 0, 0, 2, 255, 255, 3, 0, 2, 0, 1, 3, 0, 2, 0, 0, 2, 0, 5, 1, 0, 0, 255, 255, 4, 0, 0 },
        .size = { 2, 2, 2, 0 },
        .rows = { 0, 0, NO, 1, 2, NO },
        .firsts = { 0, 1 },
        .outcomes = { 1, 0 },
        .ranks = { NO, 0 },
        .commands = { 1, NO },
        .marks = { 0, 1 },
        .tally = { 0, 0, 1, 0, 0, 1 },
        .answer = { GATE_SAFE, 1 },
        .walked = { 1, NO },
    },
    {
        .name = "0 leads to {1}, 1 to {2}, 2 fails",
        .file = { 1, 0, 4, 0, 3, 0, 0,
                  2, 0, 5, 0, 0, 1, 255, 255, 3, 0, 2, 0, 1,
                  2, 0, 5, 0, 0, 1, 255, 255, 3, 0, 2, 0, 2,
                  2, 0, 5, 1, 0, 0, 255, 255,
                  4, 0, 0 },
        .size = { 3, 2, 2, 0 },
        .rows = { 0, 0, NO, 0, 1, NO, 1, 2, NO },
        .firsts = { 0, 1 },
        .outcomes = { 1, 2 },
        .ranks = { 2, 1, 0 },
        .commands = { NO, NO, NO },
        .marks = { 0, 0, 1 },
        .tally = { 0, 0, 0, 0, 0, 3 },
        .answer = { GATE_LOST, 2 },
        .walked = { NO, NO, NO },
    },
    {
        .name = "ordinary without commands",
        .file = { 1, 0, 4, 0, 1, 0, 0, 2, 0, 5, 0, 0, 0, 255, 255, 4, 0, 0 },
        .size = { 1, 0, 0, 0 },
        .rows = { 0, 0, NO },
        .ranks = { 0 }, /* a stuck chamber counts as failing */
        .commands = { NO },
        .marks = { 1 },
        .tally = { 0, 0, 0, 0, 0, 1 },
        .answer = { GATE_LOST, 0 },
        .walked = { NO },
    },
    {
        .name = "0 with {1} and {2}, 1 stuck, 2 rest",
        .file = { 1, 0, 4, 0, 3, 0, 0,
                  2, 0, 5, 0, 0, 2, 0, 0, 3, 0, 2, 0, 1, 3, 0, 2, 0, 2,
                  2, 0, 5, 0, 0, 0, 255, 255,
                  2, 0, 5, 2, 0, 0, 255, 255,
                  4, 0, 0 },
        .size = { 3, 2, 2, 0 },
        .rows = { 0, 0, 0, 0, 2, NO, 2, 2, NO },
        .firsts = { 0, 1 },
        .outcomes = { 1, 2 },
        .ranks = { NO, 0, NO },
        .commands = { 1, NO, NO },
        .marks = { 3, 1, 0 }, /* the practice of 0 lands on 1 */
        .tally = { 0, 1, 1, 0, 0, 1 },
        .answer = { GATE_SAFE, 1 },
        .walked = { 1, NO, NO },
    },
    {
        .name = "0 to {1,2}, 1 rest, 2 stuck and last",
        .file = { 1, 0, 4, 0, 3, 0, 0,
                  2, 0, 5, 0, 0, 1, 255, 255, 3, 0, 4, 0, 1, 0, 2,
                  2, 0, 5, 2, 0, 0, 255, 255,
                  2, 0, 5, 0, 0, 0, 255, 255,
                  4, 0, 0 },
        .size = { 3, 1, 2, 0 },
        .rows = { 0, 0, NO, 2, 1, NO, 0, 1, NO },
        .firsts = { 0 },
        .outcomes = { 1, 2 },
        .ranks = { 1, NO, 0 },
        .commands = { NO, NO, NO },
        .marks = { 0, 0, 1 },
        .tally = { 0, 0, 1, 0, 0, 2 },
        .answer = { GATE_LOST, 1 },
        .walked = { NO, NO, NO },
    },
};

void put_entries(uint8_t *bytes, const uint16_t *entries, size_t count)
{
    for (size_t i = 0; i < count; i++)
        gate_set_entry(bytes, i, entries[i]);
}

struct image image_of(const struct plan *p)
{
    struct image image = { .scratch = { 0 } };
    put_entries(image.size, p->size, 4);
    put_entries(image.rows, p->rows, 3 * SMALL_STATES);
    put_entries(image.firsts, p->firsts, SMALL_COMMANDS);
    put_entries(image.outcomes, p->outcomes, SMALL_OUTCOMES);
    put_entries(image.ranks, p->ranks, SMALL_STATES);
    put_entries(image.commands, p->commands, SMALL_STATES);
    put_entries(image.marks, p->marks, SMALL_STATES);
    put_entries(image.tally, p->tally, 6);
    put_entries(image.answer, p->answer, 2);
    put_entries(image.walked, p->walked, SMALL_STATES);
    return image;
}
