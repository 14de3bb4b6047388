#include "check.h"
#include "largest.h"

#include <string.h>

static struct largest plan;

/* The header's way from states to outcomes, in the tables as they were made. */
static void test_walk(void)
{
    for (size_t s = 0; s < GATE_MAX_STATES; s++) {
        size_t commands = gate_command_count(plan.size, plan.rows, s), count = largest_outcomes(s);
        CHECK(commands == largest_commands(s));
        for (size_t c = 0; c < commands; c++) {
            CHECK(gate_outcome_count(plan.size, plan.rows, plan.firsts, s, c) == count);
            for (size_t i = 0; i < count; i++)
                CHECK(gate_outcome(plan.rows, plan.firsts, plan.outcomes, s, c, i) == s + 2 - count + i);
        }
    }
}

static void test_kind(uint16_t last_kind)
{
    make_largest(&plan, last_kind);
    CHECK(gate_entry(plan.size, 1) == GATE_MAX_COMMANDS);
    CHECK(gate_entry(plan.size, 2) == GATE_MAX_OUTCOMES);
    test_walk();
    struct tables tables = tables_of_largest(&plan, last_kind);
    struct trial reading = read_trial(&tables), deciding = decide_trial(&tables), searching = search_trial(&tables);
    VARY(&reading);
    VARY(&deciding);
    VARY(&searching);
    searching.start = GATE_MAX_STATES;
    EXPECT(&searching, GATE_STRANGER);
    searching.start = 65536 + GATE_MAX_STATES - 1;
    EXPECT(&searching, GATE_STRANGER);
}

/* A last state that nobody can move loses as many as one that fails, in as many rounds as there are states with commands. */
static void test_stuck(void)
{
    make_largest(&plan, GATE_ORDINARY);
    struct tables tables = tables_of_largest(&plan, GATE_ORDINARY);
    struct trial reading = read_trial(&tables), deciding = decide_trial(&tables), searching = search_trial(&tables);
    EXPECT(&reading, GATE_OK);
    EXPECT(&deciding, GATE_OK);
    EXPECT(&searching, GATE_OK);
}

/* The last state with commands announces a fifth: 4,097 in all. Nothing behind its field is looked at. */
static void test_command_more(void)
{
    size_t field = sizeof plan.file - (3 + 8 + 4 * 11 + 8); /* before the end, the last state, four commands, the field itself */
    CHECK(plan.file[field] == 2 && plan.file[field + 5] == 4);
    plan.file[field + 5] = 5;
    read_refused("4,097 commands", plan.file, field + 8, GATE_LIMIT);
    plan.file[field + 5] = 4;
}

/* State 0's first command goes to 2 as well: the last command is the one with which 16,385 outcomes are reached. */
static void test_outcome_more(void)
{
    static uint8_t file[sizeof plan.file + 2];
    enum { FIELD = 7 + 8, VALUE = FIELD + 3 };
    CHECK(plan.file[FIELD] == 3 && plan.file[FIELD + 2] == 4);
    memcpy(file, plan.file, VALUE + 4);
    file[FIELD + 2] = 6;
    file[VALUE + 4] = 0;
    file[VALUE + 5] = 2;
    memcpy(file + VALUE + 6, plan.file + VALUE + 4, sizeof plan.file - VALUE - 4);
    read_refused("16,385 outcomes", file, sizeof file, GATE_LIMIT);
    read_refused("16,385 outcomes, the last missing", file, sizeof file - (3 + 8 + 2), GATE_CUT);
}

void test_limits(void)
{
    test_kind(GATE_FAILING);
    test_kind(GATE_REST);
    test_stuck();
    test_command_more();
    test_outcome_more();
}
