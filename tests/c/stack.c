/*
 * How much stack each call takes on the largest plans: a thread fills the part of its stack that it has not used yet with a pattern,
 * makes the call, and looks how far the pattern is gone. Prints the three numbers, and checks those of gate.h against them.
 */
#define _DEFAULT_SOURCE
#include "check.h"
#include "largest.h"

#include <pthread.h>
#include <stdio.h>
#include <stdlib.h>

enum { STACK = 1 << 20, PATTERN = 0xC3, OWN = 512 }; /* OWN: room for filling and looking themselves */

static uint8_t *stack;
static struct largest plan, out;

struct call {
    const char *name;
    uint32_t (*make)(void);
    size_t stated; /* by gate.h */
    size_t taken;  /* the most so far */
};

static uint32_t reading(void)
{
    return gate_read(plan.file, sizeof plan.file, out.size, sizeof out.size, out.rows, sizeof out.rows, out.firsts, sizeof out.firsts,
                     out.outcomes, sizeof out.outcomes);
}

static uint32_t deciding(void)
{
    return gate_decide(plan.size, sizeof plan.size, plan.rows, sizeof plan.rows, plan.firsts, sizeof plan.firsts, plan.outcomes,
                       sizeof plan.outcomes, out.ranks, sizeof out.ranks, out.commands, sizeof out.commands, out.marks, sizeof out.marks,
                       out.scratch, sizeof out.scratch, out.tally, sizeof out.tally);
}

static uint32_t searching(void)
{
    return gate_search(plan.size, sizeof plan.size, plan.rows, sizeof plan.rows, plan.firsts, sizeof plan.firsts, plan.outcomes,
                       sizeof plan.outcomes, 0, out.commands, sizeof out.commands, out.scratch, sizeof out.scratch, out.answer,
                       sizeof out.answer);
}

/* How far below `top` the stack is no longer as it was filled. */
static size_t used(uintptr_t top)
{
    size_t room = top - (uintptr_t)stack, kept = 0;
    while (kept < room && ((const volatile uint8_t *)stack)[kept] == PATTERN)
        kept++;
    return room - kept;
}

static void fill(uintptr_t top)
{
    size_t room = top - OWN - (uintptr_t)stack;
    for (size_t i = 0; i < room; i++)
        ((volatile uint8_t *)stack)[i] = PATTERN;
}

static void *measure(void *argument)
{
    struct call *call = argument;
    volatile uint8_t here = 0;
    uintptr_t top = (uintptr_t)&here; /* below this is what the call takes */
    fill(top);
    uint32_t returned = call->make();
    size_t taken = used(top);
    CHECK(returned == GATE_OK);
    if (taken > call->taken)
        call->taken = taken;
    return NULL;
}

static void on_own_stack(struct call *call)
{
    pthread_t thread;
    pthread_attr_t attributes;
    CHECK(pthread_attr_init(&attributes) == 0);
    CHECK(pthread_attr_setstack(&attributes, stack, STACK) == 0);
    CHECK(pthread_create(&thread, &attributes, measure, call) == 0);
    CHECK(pthread_join(thread, NULL) == 0);
    pthread_attr_destroy(&attributes);
}

int main(void)
{
    static struct call calls[] = {
        { "gate_read", reading, GATE_READ_STACK, 0 },
        { "gate_decide", deciding, GATE_DECIDE_STACK, 0 },
        { "gate_search", searching, GATE_SEARCH_STACK, 0 },
    };
    static const uint16_t last_kinds[] = { GATE_FAILING, GATE_REST, GATE_ORDINARY };
    stack = aligned_alloc(4096, STACK);
    if (stack == NULL)
        return 2;
    for (size_t k = 0; k < sizeof last_kinds / sizeof *last_kinds; k++) {
        make_largest(&plan, last_kinds[k]);
        for (size_t i = 0; i < 3; i++)
            on_own_stack(&calls[i]);
    }
    for (size_t i = 0; i < 3; i++) {
        printf("%s takes %zu bytes of stack; gate.h says %zu\n", calls[i].name, calls[i].taken, calls[i].stated);
        CHECK(calls[i].taken <= calls[i].stated);
        CHECK(calls[i].stated <= calls[i].taken + calls[i].taken / 10 + 1024);
    }
    free(stack);
    return checks_done();
}
