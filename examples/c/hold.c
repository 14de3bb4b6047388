/*
 * hold PLAN: prints, for each state of a plan file, the command that holds it clear of failure, and whether
 * its start can be held. All memory is set aside beforehand, as in a controller.
 */
#include "plan.h"

#include <stdio.h>

static struct plan plan;
static uint8_t ranks[GATE_MAX_STATES_BYTES], commands[GATE_MAX_STATES_BYTES], marks[GATE_MAX_STATES_BYTES];
static uint8_t walked[GATE_MAX_STATES_BYTES], scratch[GATE_MAX_STATES_BYTES];
static uint8_t tally[GATE_TALLY_BYTES], answer[GATE_ANSWER_BYTES];

static uint32_t decide(const struct plan *p)
{
    return gate_decide(p->size, sizeof p->size, p->rows, sizeof p->rows, p->firsts, sizeof p->firsts, p->outcomes,
                       sizeof p->outcomes, ranks, sizeof ranks, commands, sizeof commands, marks, sizeof marks, scratch,
                       sizeof scratch, tally, sizeof tally);
}

static uint32_t search(const struct plan *p, size_t start)
{
    return gate_search(p->size, sizeof p->size, p->rows, sizeof p->rows, p->firsts, sizeof p->firsts, p->outcomes,
                       sizeof p->outcomes, start, walked, sizeof walked, scratch, sizeof scratch, answer, sizeof answer);
}

static void print_state(size_t s)
{
    unsigned rank = gate_entry(ranks, s), command = gate_entry(commands, s);
    if (rank != GATE_NONE)
        printf("state %zu: lost, rank %u\n", s, rank);
    else if (command != GATE_NONE)
        printf("state %zu: command %u\n", s, command);
    else
        printf("state %zu: safe, no command\n", s);
}

int main(int count, char **words)
{
    int status = get_plan(&plan, "hold", count, words);
    if (status != 0)
        return status;
    uint32_t r = decide(&plan);
    if (r != GATE_OK)
        return refused("hold", "gate_decide", r);
    size_t start = gate_start(plan.size);
    r = search(&plan, start);
    if (r != GATE_OK)
        return refused("hold", "gate_search", r);
    for (size_t s = 0; s < gate_state_count(plan.size); s++)
        print_state(s);
    const char *verdict = gate_entry(answer, 0) == GATE_LOST ? "lost" : "safe";
    printf("start %zu: %s, rounds %u\n", start, verdict, (unsigned)gate_entry(answer, 1));
    return 0;
}
