/*
 * The header's own functions. This file is compiled as C and as C++. `header names` prints the refusals'
 * numbers and names, for tests/c/refusals.sh.
 */
#include "check.h"
#include "gate.h"

#include <stdio.h>
#include <string.h>

#if GATE_VERSION < 100 || GATE_VERSION_MINOR > 99
#error "GATE_VERSION does not count as gate.h says"
#endif

enum { N = 3, M = 3, T = 4 };

/* State 0 has commands to {1} and {0, 2}, the second its practice; 1 is failing; 2, the start, goes to 2. */
static const uint8_t file[GATE_FILE_BYTES(N, M, T)] = {
    1, 0, 4, 0, 3, 0, 2,
    2, 0, 5, 0, 0, 2, 0, 1, 3, 0, 2, 0, 1, 3, 0, 4, 0, 0, 0, 2,
    2, 0, 5, 1, 0, 0, 255, 255,
    2, 0, 5, 0, 0, 1, 255, 255, 3, 0, 2, 0, 2,
    4, 0, 0,
};

/* Just as long as needed, so that the sanitizer sees a step past the end. */
static uint8_t size[GATE_SIZE_BYTES], rows[GATE_ROWS_BYTES(N)], firsts[GATE_FIRSTS_BYTES(M)], outcomes[GATE_OUTCOMES_BYTES(T)];

static void test_entries(void)
{
    for (unsigned e = 0; e <= 0xFFFF; e++) {
        uint8_t slice[6] = { 1, 2, 3, 4, 5, 6 };
        gate_set_entry(slice, 1, e & 0xFFFFu);
        CHECK(slice[0] == 1 && slice[1] == 2 && slice[4] == 5 && slice[5] == 6);
        CHECK(slice[2] == e / 256 && slice[3] == e % 256);
        CHECK(gate_entry(slice, 1) == e);
        CHECK(gate_entry(slice, 0) == 0x0102 && gate_entry(slice, 2) == 0x0506);
    }
}

static void test_states(void)
{
    CHECK(gate_state_count(size) == N && gate_start(size) == 2);
    CHECK(gate_kind(rows, 0) == GATE_ORDINARY && gate_kind(rows, 1) == GATE_FAILING && gate_kind(rows, 2) == GATE_ORDINARY);
    CHECK(gate_practice(rows, 0) == 1 && gate_practice(rows, 1) == GATE_NONE && gate_practice(rows, 2) == GATE_NONE);
    CHECK(gate_first_command(rows, 0) == 0 && gate_first_command(rows, 1) == 2 && gate_first_command(rows, 2) == 2);
    CHECK(gate_command_count(size, rows, 0) == 2);
    CHECK(gate_command_count(size, rows, 1) == 0);
    CHECK(gate_command_count(size, rows, 2) == 1);
}

static void test_outcomes(void)
{
    CHECK(gate_first_outcome(rows, firsts, 0, 0) == 0);
    CHECK(gate_first_outcome(rows, firsts, 0, 1) == 1);
    CHECK(gate_first_outcome(rows, firsts, 2, 0) == 3);
    CHECK(gate_outcome_count(size, rows, firsts, 0, 0) == 1);
    CHECK(gate_outcome_count(size, rows, firsts, 0, 1) == 2);
    CHECK(gate_outcome_count(size, rows, firsts, 2, 0) == 1);
    CHECK(gate_outcome(rows, firsts, outcomes, 0, 0, 0) == 1);
    CHECK(gate_outcome(rows, firsts, outcomes, 0, 1, 0) == 0);
    CHECK(gate_outcome(rows, firsts, outcomes, 0, 1, 1) == 2);
    CHECK(gate_outcome(rows, firsts, outcomes, 2, 0, 0) == 2);
}

static unsigned evaluated;

static uint8_t *slice(uint8_t *bytes)
{
    evaluated++;
    return bytes;
}

static uint8_t number(uint8_t x)
{
    evaluated++;
    return x;
}

/* Each of so many arguments is evaluated once. */
#define ONCE(arguments, use) \
    do { \
        evaluated = 0; \
        (void)(use); \
        check(evaluated == (arguments), __FILE__, __LINE__, "%u evaluations in %s", evaluated, #use); \
    } while (0)

static void test_arguments(void)
{
    uint8_t lent[2];
    ONCE(2, gate_entry(slice(rows), number(1)));
    ONCE(3, gate_set_entry(slice(lent), number(0), number(9)));
    ONCE(1, gate_refusal_text(number(1)));
    ONCE(1, gate_state_count(slice(size)));
    ONCE(1, gate_start(slice(size)));
    ONCE(2, gate_kind(slice(rows), number(1)));
    ONCE(2, gate_practice(slice(rows), number(1)));
    ONCE(2, gate_first_command(slice(rows), number(1)));
    ONCE(3, gate_command_count(slice(size), slice(rows), number(0)));
    ONCE(4, gate_first_outcome(slice(rows), slice(firsts), number(0), number(1)));
    ONCE(5, gate_outcome_count(slice(size), slice(rows), slice(firsts), number(0), number(1)));
    ONCE(6, gate_outcome(slice(rows), slice(firsts), slice(outcomes), number(0), number(1), number(1)));
    ONCE(3, GATE_FILE_BYTES(number(1), number(1), number(1)));
    ONCE(1, GATE_ROWS_BYTES(number(1)));
    ONCE(1, GATE_FIRSTS_BYTES(number(1)));
    ONCE(1, GATE_OUTCOMES_BYTES(number(1)));
    ONCE(1, GATE_STATES_BYTES(number(1)));
}

static const struct {
    uint32_t number;
    const char *name;
} refusals[] = {
    { GATE_OK, "ok" },
    { GATE_CUT, "cut" },
    { GATE_SURPLUS, "surplus" },
    { GATE_TAG, "tag" },
    { GATE_LENGTH, "length" },
    { GATE_BEYOND, "beyond" },
    { GATE_UNSORTED, "unsorted" },
    { GATE_IDLE, "idle" },
    { GATE_LIMIT, "limit" },
    { GATE_CRAMPED, "cramped" },
    { GATE_UNSOUND, "unsound" },
    { GATE_STRANGER, "stranger" },
    { GATE_MOVES, "moves" },
    { GATE_SECONDS, "seconds" },
    { GATE_DOUBTFUL, "doubtful" },
    { GATE_DEPARTURES, "departures" },
    { GATE_CHAMBERS, "chambers" },
    { GATE_REPORT, "report" },
    { GATE_GRANT, "grant" },
};

enum { REFUSALS = sizeof refusals / sizeof *refusals };

/* Whether the text is this name, a colon, and something said. */
static bool says(uint32_t number, const char *name)
{
    const char *text = gate_refusal_text(number);
    size_t length = strlen(name);
    return strncmp(text, name, length) == 0 && strncmp(text + length, ": ", 2) == 0 && strlen(text) > length + 2;
}

static void test_texts(void)
{
    static const uint32_t unknown[] = { REFUSALS, REFUSALS + 1, 255, 256, 257, 65536, 65537, 0x80000001u, 0xFFFFFFFFu };
    for (unsigned i = 0; i < REFUSALS; i++) {
        CHECK(refusals[i].number == i);
        check(says(i, refusals[i].name), __FILE__, __LINE__, "the text of %u is '%s'", i, gate_refusal_text(i));
        for (unsigned k = 0; k < i; k++)
            CHECK(strcmp(strchr(gate_refusal_text(i), ':'), strchr(gate_refusal_text(k), ':')) != 0);
    }
    for (size_t i = 0; i < sizeof unknown / sizeof *unknown; i++)
        CHECK(strcmp(gate_refusal_text(unknown[i]), "unknown: no refusal has this number") == 0);
}

static void print_names(void)
{
    for (unsigned i = 1; i < REFUSALS; i++) {
        char name[80] = "";
        sscanf(gate_refusal_text(i), "%79[^:]", name);
        printf("%u %s\n", i, name);
    }
}

int main(int count, char **words)
{
    if (count == 2 && strcmp(words[1], "names") == 0) {
        print_names();
        return 0;
    }
    uint32_t r = gate_read(file, sizeof file, size, sizeof size, rows, sizeof rows, firsts, sizeof firsts, outcomes, sizeof outcomes);
    CHECK(r == GATE_OK);
    test_entries();
    test_states();
    test_outcomes();
    test_arguments();
    test_texts();
    return checks_done();
}
