/*
 * gate.h: deciding which states of a lock or weir can be held clear of failure.
 *
 * A plan describes the works. It has n states, numbered from 0, one of which is the start. A state is
 * ordinary, failing or rest. In an ordinary state the keeper may issue one of the state's commands,
 * numbered from 0 within the state; the works then land on one of the command's outcomes, and nobody can say
 * beforehand on which. If an ordinary state has no commands, nobody can get the works out of it: it is stuck
 * and is judged as a failing one, so a state in which nothing needs to be done has to be rest. The practice
 * is what the keeper usually commands in a state, if anything. A state is lost if, whatever is commanded, the
 * works can bring about failure; else it is safe, and if it has commands, one of them keeps it so.
 *
 *     gate_read     takes a plan file apart into tables
 *     gate_decide   judges every state of a plan, and chooses the commands
 *     gate_search   judges one state, walking only where its commands can lead
 *
 * The library keeps nothing between calls, allocates nothing, prints nothing and never fails to return. All
 * it has is lent to it: each argument of bytes is a pointer followed by its length in bytes, called a slice
 * below. Calls on different slices may run on different threads at the same time, and so may calls that share
 * only slices that neither writes.
 *
 * Slices of one call must not overlap. A pointer may be null only if its length is 0. Nothing needs
 * alignment.
 *
 * An entry is a number of two bytes, highest byte first (gate_entry reads one, gate_set_entry stores one). A
 * slice of L bytes holds L / 2 entries, rounded down, and L / 6 rows. Longer slices than needed are welcome:
 * bytes past what is needed are neither looked at nor touched, an odd last byte included. (The plan file
 * alone must be lent with its exact length.)
 *
 * Each call returns GATE_OK (0) or the number of a refusal (gate_refusal_text says it in words). A refused
 * call leaves every slice as it was.
 *
 * The archive libgate.a is for x86-64 Linux, the header for C from C99 on and for C++ from C++11 on.
 */
#ifndef GATE_H
#define GATE_H

#include <stddef.h>
#include <stdint.h>

#ifdef __cplusplus
extern "C" {
#endif

/*
 * ---- version: 100 times the major number plus the minor one, so that 102 is 1.02. The major number rises
 * when a program that was right may be so no longer: a name, a layout, a number or what a call answers has
 * changed. The minor number rises when something was added and nothing else changed. The archive carries no
 * version: use the header that came with it.
 */

#define GATE_VERSION_MAJOR 2
#define GATE_VERSION_MINOR 0
#define GATE_VERSION (100 * GATE_VERSION_MAJOR + GATE_VERSION_MINOR)

/* ---- limits of a plan */

#define GATE_MAX_STATES 1024    /* n is 1 to this */
#define GATE_MAX_COMMANDS 4096  /* m, the commands of all states together */
#define GATE_MAX_OUTCOMES 16384 /* t, the outcomes of all commands together */

/* ---- bytes to lend, for a plan of n states, m commands and t outcomes */

#define GATE_FILE_BYTES(n, m, t) (10 + 8 * (n) + 3 * (m) + 2 * (t)) /* a plan file has exactly these */
#define GATE_SIZE_BYTES 8
#define GATE_ROWS_BYTES(n) (6 * (n))
#define GATE_FIRSTS_BYTES(m) (2 * (m))
#define GATE_OUTCOMES_BYTES(t) (2 * (t))
#define GATE_STATES_BYTES(n) (2 * (n)) /* each of ranks, commands, marks and scratch */
#define GATE_TALLY_BYTES 12
#define GATE_ANSWER_BYTES 4

/* the most that any plan needs: lend these, and no plan is refused for want of room */
#define GATE_MAX_FILE_BYTES GATE_FILE_BYTES(GATE_MAX_STATES, GATE_MAX_COMMANDS, GATE_MAX_OUTCOMES)
#define GATE_MAX_ROWS_BYTES GATE_ROWS_BYTES(GATE_MAX_STATES)
#define GATE_MAX_FIRSTS_BYTES GATE_FIRSTS_BYTES(GATE_MAX_COMMANDS)
#define GATE_MAX_OUTCOMES_BYTES GATE_OUTCOMES_BYTES(GATE_MAX_OUTCOMES)
#define GATE_MAX_STATES_BYTES GATE_STATES_BYTES(GATE_MAX_STATES)

/*
 * ---- bytes of stack that a call takes, rounded up from what tests/c/stack.c measures on the largest plans.
 * Where memset is bound at its first use, the dynamic linker takes a few thousand more in that one call.
 */

#define GATE_READ_STACK 49152
#define GATE_DECIDE_STACK 102400
#define GATE_SEARCH_STACK 56320

/* ---- what the entries say */

#define GATE_NONE 0xFFFF /* no practice, no command, or no rank: the state is safe */

#define GATE_ORDINARY 0 /* kinds of states; one of this kind without commands is stuck */
#define GATE_FAILING 1
#define GATE_REST 2 /* the works are at rest: safe, and no other kind counts as rest */

#define GATE_PRACTICE_FAILS 1 /* in a mark: the practice, followed from here on, can end in failure */
#define GATE_PRACTICE_FAULT 2 /* in a mark, added: the state is safe and its practice has a lost outcome */

#define GATE_SAFE 0 /* verdicts of the search */
#define GATE_LOST 1

/* ---- refusals */

enum {
    GATE_OK = 0,
    GATE_CUT = 1,       /* the file ends before a field that is due does */
    GATE_SURPLUS = 2,   /* the file goes on after the end field */
    GATE_TAG = 3,       /* a field's tag is not the one due */
    GATE_LENGTH = 4,    /* a field's length is not allowed for its tag */
    GATE_BEYOND = 5,    /* n is 0 or above 1,024, a start or outcome is not below n, or a kind is above 2 */
    GATE_UNSORTED = 6,  /* an outcome is not above the one before it */
    GATE_IDLE = 7,      /* commands at a failing or rest state, or a practice neither none nor one of them */
    GATE_LIMIT = 8,     /* the commands so far are more than 4,096, or the outcomes more than 16,384 */
    GATE_CRAMPED = 9,   /* a slice that the call writes is too short */
    GATE_UNSOUND = 10,  /* size, rows, firsts and outcomes are of no plan file, or one is too short */
    GATE_STRANGER = 11, /* the start named in the call is not below n, however large a number it is */

    /* of the planner's contest over a few moves, and of its warning time, which have no calls in C: none of the
       calls below returns them */
    GATE_MOVES = 12,   /* more than 8 moves */
    GATE_SECONDS = 13, /* a move of 0 seconds, or of more than 3,600 */

    /* names set aside: nothing gives these yet */
    GATE_DOUBTFUL = 14,   /* a doubtful outcome of a command is one of its sure ones */
    GATE_DEPARTURES = 15, /* more than 8 departures from the practice */
    GATE_CHAMBERS = 16,   /* no chamber, or more than 16 */
    GATE_REPORT = 17,     /* no grant is open, or the state reported is no outcome of the granted command */
    GATE_GRANT = 18       /* a grant is open already, or no chamber's state has a chosen command */
};

/* What a call returned, in words; up to the colon it is the refusal's name. Every number has a text. */
static inline const char *gate_refusal_text(uint32_t number)
{
    switch (number) {
    case GATE_OK: return "ok: the call was not refused";
    case GATE_CUT: return "cut: the file ends too early";
    case GATE_SURPLUS: return "surplus: the file goes on after its end";
    case GATE_TAG: return "tag: a field stands where another is due";
    case GATE_LENGTH: return "length: a field has a wrong length";
    case GATE_BEYOND: return "beyond: a number is out of range";
    case GATE_UNSORTED: return "unsorted: outcomes are not in rising order";
    case GATE_IDLE: return "idle: a state has commands or a practice that it cannot have";
    case GATE_LIMIT: return "limit: there are too many commands or outcomes";
    case GATE_CRAMPED: return "cramped: too little memory was lent";
    case GATE_UNSOUND: return "unsound: the tables are not those of a plan";
    case GATE_STRANGER: return "stranger: there is no such state";
    case GATE_MOVES: return "moves: too many moves were asked for";
    case GATE_SECONDS: return "seconds: no move takes that long, or so little";
    case GATE_DOUBTFUL: return "doubtful: an outcome in doubt is a sure one too";
    case GATE_DEPARTURES: return "departures: too many departures from the practice were asked for";
    case GATE_CHAMBERS: return "chambers: there is no chamber, or there are too many";
    case GATE_REPORT: return "report: what was reported answers no open grant";
    case GATE_GRANT: return "grant: no command can be granted now";
    default: return "unknown: no refusal has this number";
    }
}

/*
 * Reads a plan file.
 *
 *   file      in    the whole file
 *   size      out   GATE_SIZE_BYTES: the entries n, m, t, start
 *   rows      out   GATE_ROWS_BYTES(n): for each state its kind, its first command and its practice
 *                   (GATE_NONE for none). A state's first command is how many commands the states before it
 *                   have, even if it has none itself; its commands go on to the first command of the next
 *                   state, those of the last state to m.
 *   firsts    out   GATE_FIRSTS_BYTES(m): for each command its first outcome, counted in the same way; the
 *                   last ends at t
 *   outcomes  out   GATE_OUTCOMES_BYTES(t): the states on which each command may land, rising within a
 *                   command
 *
 * A file is a sequence of fields: a tag of one byte, a length of two, a value. First the head (tag 1, length
 * 4): n and start. For each state a state field (tag 2, length 5): kind (one byte), count of commands,
 * practice; and behind it for each of its commands a command field (tag 3, even length of at least 2): its
 * outcomes. Last the end (tag 4, length 0).
 *
 * The first refusal that applies is returned. In each field: GATE_CUT if fewer than three bytes are left,
 * GATE_TAG, GATE_LENGTH, GATE_CUT if the value is not all there. Then, in the head, GATE_BEYOND; in a state,
 * GATE_BEYOND for the kind, GATE_IDLE, GATE_LIMIT with the commands that it announces; in a command,
 * GATE_LIMIT with all its outcomes, then for each outcome in turn GATE_BEYOND, GATE_UNSORTED. After the end
 * field GATE_SURPLUS, and last GATE_CRAMPED for any of the four slices.
 */
uint32_t gate_read(const uint8_t *file, size_t file_length,
                   uint8_t *size, size_t size_length,
                   uint8_t *rows, size_t rows_length,
                   uint8_t *firsts, size_t firsts_length,
                   uint8_t *outcomes, size_t outcomes_length);

/*
 * Decides the whole plan.
 *
 *   size, rows, firsts, outcomes   in   the plan, as gate_read gave it
 *   ranks     out   GATE_STATES_BYTES(n): GATE_NONE for a safe state; for a lost one, how many moves at most
 *                   the works need to bring about failure against any way of commanding (0 for a failing
 *                   state and for a stuck one)
 *   commands  out   GATE_STATES_BYTES(n): at a safe state with commands the command that keeps it safe: the
 *                   practice if none of its outcomes is lost, else the lowest-numbered command of which
 *                   that holds. GATE_NONE elsewhere.
 *   marks     out   GATE_STATES_BYTES(n): how the practice does: 0 holds, GATE_PRACTICE_FAILS, with
 *                   GATE_PRACTICE_FAULT added at a fault. Following the practice ends where there is none,
 *                   and that alone is no failure; a failing state has mark 1, and so has a stuck one.
 *   scratch   out   GATE_STATES_BYTES(n): room to work in; zero when the call has answered
 *   tally     out   GATE_TALLY_BYTES: six entries. How many safe states have a practice that holds, one that
 *                   fails, none; then the same of lost states.
 *
 * Refusals, the first that applies: GATE_UNSOUND (also for a size shorter than GATE_SIZE_BYTES),
 * GATE_CRAMPED.
 */
uint32_t gate_decide(const uint8_t *size, size_t size_length,
                     const uint8_t *rows, size_t rows_length,
                     const uint8_t *firsts, size_t firsts_length,
                     const uint8_t *outcomes, size_t outcomes_length,
                     uint8_t *ranks, size_t ranks_length,
                     uint8_t *commands, size_t commands_length,
                     uint8_t *marks, size_t marks_length,
                     uint8_t *scratch, size_t scratch_length,
                     uint8_t *tally, size_t tally_length);

/*
 * Searches from one state: the verdict that gate_decide would give for it, and the commands on the way.
 *
 *   size, rows, firsts, outcomes   in   the plan, as gate_read gave it
 *   start     in    the state to judge. No bit of it is dropped: 65,539 is no name for state 3, and is
 *                   refused. The plan's own start (the last entry of size) is not used here; but it has to
 *                   be below n, as in every call, else the plan is unsound.
 *   commands  out   GATE_STATES_BYTES(n): if the start is safe, the commands that hold it, at the states that
 *                   they can lead to: they are those of gate_decide. GATE_NONE at every other state, and
 *                   everywhere if the start is rest or lost, as failing and stuck states are.
 *   scratch   out   GATE_STATES_BYTES(n): room to work in; zero when the call has answered
 *   answer    out   GATE_ANSWER_BYTES: two entries, GATE_SAFE or GATE_LOST, and the number of rounds walked:
 *                   0 if the start is failing, stuck or rest, and never more than there are ordinary states
 *                   with commands
 *
 * Refusals, the first that applies: GATE_UNSOUND (also for a size shorter than GATE_SIZE_BYTES),
 * GATE_STRANGER, GATE_CRAMPED.
 */
uint32_t gate_search(const uint8_t *size, size_t size_length,
                     const uint8_t *rows, size_t rows_length,
                     const uint8_t *firsts, size_t firsts_length,
                     const uint8_t *outcomes, size_t outcomes_length,
                     size_t start,
                     uint8_t *commands, size_t commands_length,
                     uint8_t *scratch, size_t scratch_length,
                     uint8_t *answer, size_t answer_length);

/* ---- entries: entry i of a slice read, and stored */

static inline uint16_t gate_entry(const uint8_t *slice, size_t i)
{
    return (256u * slice[2 * i] + slice[2 * i + 1]) & 0xFFFFu;
}

static inline void gate_set_entry(uint8_t *slice, size_t i, uint16_t entry)
{
    slice[2 * i] = (entry / 256u) & 0xFFu;
    slice[2 * i + 1] = entry & 0xFFu;
}

/*
 * ---- from a state to its commands and their outcomes, in tables that gate_read filled (examples/c/walk.c).
 * Nothing is checked here: state s must be below gate_state_count, command c of it below gate_command_count,
 * and outcome i of that below gate_outcome_count.
 */

static inline size_t gate_state_count(const uint8_t *size)
{
    return gate_entry(size, 0);
}

static inline size_t gate_start(const uint8_t *size)
{
    return gate_entry(size, 3);
}

static inline uint16_t gate_kind(const uint8_t *rows, size_t s)
{
    return gate_entry(rows, 3 * s);
}

/* its place in firsts */
static inline size_t gate_first_command(const uint8_t *rows, size_t s)
{
    return gate_entry(rows, 3 * s + 1);
}

/* a command, or GATE_NONE */
static inline uint16_t gate_practice(const uint8_t *rows, size_t s)
{
    return gate_entry(rows, 3 * s + 2);
}

static inline size_t gate_command_count(const uint8_t *size, const uint8_t *rows, size_t s)
{
    size_t end = s + 1 < gate_state_count(size) ? gate_first_command(rows, s + 1) : gate_entry(size, 1);
    return end - gate_first_command(rows, s);
}

/* its place in outcomes */
static inline size_t gate_first_outcome(const uint8_t *rows, const uint8_t *firsts, size_t s, size_t c)
{
    return gate_entry(firsts, gate_first_command(rows, s) + c);
}

static inline size_t gate_outcome_count(const uint8_t *size, const uint8_t *rows, const uint8_t *firsts, size_t s, size_t c)
{
    size_t next = gate_first_command(rows, s) + c + 1;
    size_t end = next < gate_entry(size, 1) ? gate_entry(firsts, next) : gate_entry(size, 2);
    return end - gate_first_outcome(rows, firsts, s, c);
}

/* the state on which command c of state s may land */
static inline uint16_t gate_outcome(const uint8_t *rows, const uint8_t *firsts, const uint8_t *outcomes, size_t s, size_t c,
                                    size_t i)
{
    return gate_entry(outcomes, gate_first_outcome(rows, firsts, s, c) + i);
}

#ifdef __cplusplus
}
#endif

#endif
