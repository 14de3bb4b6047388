/* walk PLAN: prints a plan file: each state, each of its commands, and the states on which that may land. */
#include "plan.h"

#include <stdio.h>

static struct plan plan;

static const char *kind_name(uint16_t kind)
{
    return kind == GATE_FAILING ? "failing" : kind == GATE_REST ? "rest" : "ordinary";
}

static void print_command(const struct plan *p, size_t s, size_t c)
{
    size_t count = gate_outcome_count(p->size, p->rows, p->firsts, s, c);
    printf("  %s %zu:", c == gate_practice(p->rows, s) ? "practice" : "command", c);
    for (size_t i = 0; i < count; i++)
        printf(" %u", (unsigned)gate_outcome(p->rows, p->firsts, p->outcomes, s, c, i));
    printf("\n");
}

static void print_state(const struct plan *p, size_t s)
{
    size_t count = gate_command_count(p->size, p->rows, s);
    printf("state %zu: %s, commands %zu\n", s, kind_name(gate_kind(p->rows, s)), count);
    for (size_t c = 0; c < count; c++)
        print_command(p, s, c);
}

int main(int count, char **words)
{
    int status = get_plan(&plan, "walk", count, words);
    if (status != 0)
        return status;
    printf("states %zu, start %zu\n", gate_state_count(plan.size), gate_start(plan.size));
    for (size_t s = 0; s < gate_state_count(plan.size); s++)
        print_state(&plan, s);
    return 0;
}
