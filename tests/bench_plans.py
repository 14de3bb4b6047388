"""What the program bench_plans is run on, and what it must print. With --check: whether the two files are what this makes."""
import itertools
import pathlib
from typing import NamedTuple

import made
import reference
from plans import branching, case_a, chain, half_dead, longest, shapes, slopes, trimmed_shapes
from reference import COMMANDS, LONGEST_MOVE, MOVES, NONE, OUTCOMES, STATES, Plan, Refused, State, two, write

HERE = pathlib.Path(__file__).resolve().parent.parent / "crates" / "bench_plans"
STARTS = 32  # how many states of a plan are searched from, at most: 1,024 command tables of 1,024 states would be two megabytes
LAST = 2 ** 16 - 1  # the largest entry
DECIDING, SEARCH, CONTEST, WARNING, TRIMMING, TRIMMING_ALONE, CARRYING, CARRYING_ALONE = range(8)
ALLOWED = 1, 59, 60, 61, LONGEST_MOVE - 1, LONGEST_MOVE  # seconds a move
WIDE = 2 ** 16, 2 ** 32, 2 ** 48  # who drops the high bits of one of these and a number takes the sum for the number
FORBIDDEN = 0, LONGEST_MOVE + 1, LAST, *WIDE, *(wide + 60 for wide in WIDE), 2 ** 63, 2 ** 64 - 1


class Question(NamedTuple):
    call: int
    start: int = 0
    places: int = STATES


class Contest(NamedTuple):
    call: int
    state: int
    moves: int


class Warned(NamedTuple):
    call: int
    state: int
    seconds: int


class Trim(NamedTuple):
    """How many places are lent of each table, and what each of them holds."""
    call: int
    rows: int
    firsts: int
    outcomes: int
    olds: int
    scratch: int
    holding: int

    def places(self):
        """The program has no more than these."""
        return tuple(map(min, self[1:6], (STATES, COMMANDS, OUTCOMES, STATES, STATES)))


class Carry(NamedTuple):
    """The old n, how many entries map and table have, how many places are lent, and what each of them holds."""
    call: int
    n: int
    olds: int
    table: int
    places: int
    holding: int = 7


class Case(NamedTuple):
    """A file, what is lent for it, and what is asked on it."""
    file: bytes
    rows: int = STATES
    firsts: int = COMMANDS
    outcomes: int = OUTCOMES
    questions: tuple = ()

    def read(self):
        plan = reference.read(self.file)
        reference.need(9, plan.n <= self.rows and plan.m <= self.firsts and plan.t <= self.outcomes)
        return plan

    def frame(self):
        head = len(self.file), self.rows, self.firsts, self.outcomes, len(self.questions)
        return b"".join(map(two, head)) + self.file + b"".join(map(framed, self.questions))


def framed(question):
    if isinstance(question, Trim):
        return b"".join(map(two, question)) + bytes(4)
    if isinstance(question, Carry):
        call, n, *numbers = question
        return two(call) + n.to_bytes(8, "big") + b"".join(map(two, numbers))
    call, *numbers = question
    return two(call) + b"".join(number.to_bytes(8, "big") for number in numbers)


def usual(*case):
    """The case with deciding and the search from the first states asked, where its file is read."""
    case = Case(*case)
    try:
        starts = range(min(case.read().n, STARTS))
    except Refused:
        return case
    return case._replace(questions=(Question(DECIDING), *(Question(SEARCH, start) for start in starts)))


def contests(states, moves=range(MOVES + 2)):
    """Each of the states with each number of moves: unless others are named, all that are allowed and one too many."""
    return tuple(Contest(CONTEST, state, count) for state in states for count in moves)


def warnings(states, lengths=ALLOWED):
    """Each of the states with each length of a move."""
    return tuple(Warned(WARNING, state, seconds) for state in states for seconds in lengths)


def numbers(name, values):
    return name + "".join(" -" if v in (None, NONE) else f" {v}" for v in values) + "\n"


def decided(plan):
    """Ranks, commands and marks of all states, and the tally."""
    rank, chosen, marks, tally, _ = reference.decide(plan)
    return numbers("ranks", rank) + numbers("commands", chosen) + numbers("marks", marks) + numbers("tally", tally[0] + tally[1])


def found(plan, start):
    """The verdict, the rounds and the command table."""
    lost, rounds, taken = reference.search(plan, start)
    return numbers("lost" if lost else "safe", [rounds] + taken)


def contested(plan, question):
    return "held\n" if reference.contest(plan, question.state, question.moves) else "not held\n"


def warned(plan, question):
    time = reference.warning(plan, question.state, question.seconds)
    return "no limit\n" if time is None else numbers("time", time)


def left(names, places, holding, written):
    """What lent tables hold to their last place: what was written, and what was there before."""
    return "".join(numbers(name, list(new) + [holding] * (length - len(new))) for name, length, new in zip(names, places, written))


def decided_before(plan, olds):
    """What deciding leaves of the trimmed plan, taken from what it leaves of the whole: each kept state has its own entries."""
    rank, chosen, marks, _, _ = reference.decide(plan)
    tally = [[0, 0, 0], [0, 0, 0]]
    for old in olds:
        tally[rank[old] is not None][2 if plan.states[old].practice == NONE else marks[old] % 2] += 1
    kept = ((name, (entries[old] for old in olds)) for name, entries in (("ranks", rank), ("commands", chosen), ("marks", marks)))
    return "".join(numbers(*entries) for entries in kept) + numbers("tally", tally[0] + tally[1])


def decided_back(plan, olds):
    """And its commands carried back: each kept state has the command of the whole plan."""
    chosen = reference.decide(plan)[1]
    return "carried\n" + numbers("commands", (chosen[s] if s in olds else None for s in range(plan.n)))


def trimmed(plan, question):
    """The answer, and unless it alone is asked for every table, and what comes of the trimmed plan."""
    rows, firsts, outcomes, olds, scratch = question.places()
    places = 3 * rows, firsts, outcomes, olds, scratch
    names = "rows", "firsts", "outcomes", "map", "scratch"
    try:
        reference.need(10, plan is not None)
        new, kept = reference.trim(plan)
        reference.need(9, new.n <= rows and new.m <= firsts and new.t <= outcomes and new.n <= olds and plan.n <= scratch)
    except Refused as r:
        out, tables, after = f"refused {r.number}\n", ((),) * 5, ""
    else:
        row_table, *lists = reference.tables(new)
        out = f"trimmed {new.n} {new.m} {new.t} {new.start}\n"
        tables = sum(row_table, ()), *lists, kept, (0,) * plan.n
        after = "again same\n" + decided_before(plan, kept) + decided_back(plan, kept)
    return out if question.call == TRIMMING_ALONE else out + left(names, places, question.holding, tables) + after


def entries_of(file, count):
    """The first entries of the file; past its last whole one they are 0."""
    return [int.from_bytes(file[i:i + 2], "big") if i + 1 < len(file) else 0 for i in range(0, 2 * count, 2)]


def carried(file, question):
    """The answer, and unless it alone is asked for every place that is lent."""
    entries = entries_of(file, question.olds + question.table)
    olds, table = entries[:question.olds], entries[question.olds:]
    try:
        back = reference.carry(question.n, olds, table)
        reference.need(9, question.n <= question.places)
    except Refused as r:
        out, back = f"refused {r.number}\n", ()
    else:
        out = "carried\n"
    return out if question.call == CARRYING_ALONE else out + left(("places",), (question.places,), question.holding, (back,))


def answered(file, plan, question):
    if isinstance(question, Carry):
        return carried(file, question)
    if isinstance(question, Trim):
        return trimmed(plan, question)
    reference.need(10, plan is not None)
    if question.call == CONTEST:
        return contested(plan, question)
    if question.call == WARNING:
        return warned(plan, question)
    reference.need(11, question.call == DECIDING or question.start < plan.n)
    reference.need(9, plan.n <= question.places)
    return decided(plan) if question.call == DECIDING else found(plan, question.start)


def or_refusal(say, *of):
    try:
        return say(*of)
    except Refused as r:
        return f"refused {r.number}\n"


def said(case):
    try:
        plan = case.read()
    except Refused as r:
        plan, out = None, f"refused {r.number}\n"
    else:
        out = f"read {plan.n} {plan.m} {plan.t} {plan.start} same\n"
    return out + "".join(or_refusal(answered, case.file, plan, question) for question in case.questions)


def wide_states(n):
    """Numbers of states that a plan of n states, fewer than 256, does not have; some of them with the low bits of one that it has."""
    return n, n + 1, 255, 256, STATES - 1, STATES, 2 ** 15, LAST, *WIDE, *(wide + n - 1 for wide in WIDE), 2 ** 63, 2 ** 64 - 1


def refused_questions():
    """Contests and warning times that are refused, most of them for more than one reason, and some beside them that are not."""
    plan = case_a()
    n, file = plan.n, write(plan)
    wrong = *WIDE, 2 ** 64 - 1
    without_plan = contests((0, n, *wrong), (0, MOVES + 1, *wrong)) + warnings((0, n, *wrong), (60, 0, LONGEST_MOVE + 1, *wrong))
    yield Case(b"", questions=without_plan)
    yield Case(file, rows=n - 1, questions=without_plan)
    states = 0, n - 1, *wide_states(n)
    moves = MOVES, MOVES + 1, MOVES + 2, 255, 256, 256 + MOVES, 2 ** 15, LAST, *WIDE, *(wide + MOVES for wide in WIDE), 2 ** 64 - 1
    yield Case(file, questions=contests(states, moves))
    yield Case(file, questions=warnings(range(n), FORBIDDEN) + warnings(wide_states(n), (60, *FORBIDDEN)))


def contest_plans():
    """Plans whose ranks are about the most moves, plans of 1,024 states, and one on which a contest that remembers nothing does not end."""
    for plan in slopes():
        yield Case(write(plan), questions=contests(range(plan.n)))
    full = STATES - 1
    yield Case(write(chain(full)), questions=contests((0, 1, 255, 256, 511, 512, *range(full - MOVES - 3, STATES + 1))))
    yield Case(write(longest()), questions=contests((0, 1, 511, full, STATES)))
    yield Case(write(branching()), questions=contests((0,)) + contests(range(1, branching().n), (MOVES,)))


def warning_plans():
    """Every rank that a plan can have, and none."""
    for plan in slopes():
        yield Case(write(plan), questions=warnings(range(plan.n)))
    full = STATES - 1
    some = 0, 1, 2, full - 256, full - 255, 511, 512, full - 61, full - 60, full - 59, full - 1, full, STATES
    every_rank = warnings(range(STATES), (61,))
    yield Case(write(chain(full)), questions=every_rank + warnings(some, ALLOWED + (0, LONGEST_MOVE + 1)))
    yield Case(write(longest()), questions=warnings((0, 1, 511, full, STATES)))


def one_short(places):
    """Each table in turn one place shorter, where it has any."""
    return (places[:i] + (k - 1,) + places[i + 1:] for i, k in enumerate(places) if k > 0)


def trims(plan, holding, others):
    """Tables that are exactly long enough; and, by the call `others`, each one short, scratch for the kept states alone, none, and tables
    with something behind."""
    new, _ = reference.trim(plan)
    exact = new.n, new.m, new.t, new.n, plan.n
    yield Trim(TRIMMING, *exact, holding)
    for places in (*one_short(exact), exact[:4] + (new.n,), (0,) * 5, tuple(k + 1 + i for i, k in enumerate(exact))):
        yield Trim(others, *places, holding)


def trim_cases():
    """Plans of many shapes, of every sixth all that is lent whatever is answered; plans at the limits, of the largest the answers alone; a
    file that is refused, and more places than any plan needs."""
    holding = 7, 0, 1, 2 ** 15, LAST
    for i, plan in enumerate(trimmed_shapes()):
        others = TRIMMING if i % 6 == 0 else TRIMMING_ALONE
        yield Case(write(plan), questions=tuple(trims(plan, holding[i % len(holding)], others)))
    full = STATES - 1
    for plan in *(Plan(chain(full).states, start) for start in (0, full // 2, full - 1, full)), half_dead():
        yield Case(write(plan), questions=tuple(trims(plan, 7, TRIMMING_ALONE)))
    at_limits = trims(longest(), 7, TRIMMING_ALONE)
    yield Case(write(longest()), questions=tuple(question._replace(call=TRIMMING_ALONE) for question in at_limits))
    lent = Trim(TRIMMING, 2, 3, 4, 5, 6, 7), Trim(TRIMMING_ALONE, LAST, LAST, LAST, LAST, LAST, 7), Trim(TRIMMING, 0, 0, 0, 0, 0, 7)
    yield Case(b"", questions=lent)
    yield Case(write(case_a()), rows=case_a().n - 1, questions=lent)
    yield Case(write(case_a()), questions=lent)


def carry_case(olds, table, questions):
    """Map and table as one file, of which each question takes as many entries as it says."""
    return Case(b"".join(map(two, (*olds, *table))), questions=tuple(questions))


def small_maps():
    """Every map of up to three entries, for few states: with as many places as states, and with one too few."""
    for n in 1, 2, 3:
        for count in range(4):
            for olds in itertools.product((*range(n + 1), LAST), repeat=count):
                exact = Carry(CARRYING, n, count, count, n)
                yield carry_case(olds, (5, LAST, 0), (exact, exact._replace(places=n - 1)))


def kept_of_six():
    """Every set of states that can be kept of six: with nothing to spare, and with longer tables."""
    for count in range(7):
        for olds in itertools.combinations(range(6), count):
            exact = Carry(CARRYING, 6, count, count, 6, LAST)
            yield carry_case(olds, (7, 0, LAST, 1, 2 ** 15, 6, 8, 9), (exact, exact._replace(table=count + 2, places=9, holding=0)))


def lengths(n, count):
    """Tables and places one short, exact and longer, both short, and none at all; then other numbers as the old n."""
    for entries in count - 1, count, count + 3:
        for places in 0, n - 1, n, n + 2:
            yield Carry(CARRYING, n, count, entries, places)
    for other in 0, 1, n - 1, n + 1, STATES, STATES + 1, 2 ** 15, LAST, *WIDE, *(wide + n for wide in WIDE), 2 ** 63, 2 ** 64 - 1:
        for places in 0, n, STATES, STATES + 1:
            yield Carry(CARRYING if places < STATES else CARRYING_ALONE, other, count, count, places, LAST)


def carry_cases():
    """Maps that rise or do not, entries about n and as large as can be, tables of several lengths, and as many states as there can be."""
    yield from small_maps()
    yield from kept_of_six()
    full = STATES - 1
    yield carry_case((), (1, 2, 3), (question for question in lengths(6, 0) if question.table >= 0))
    yield carry_case((1, 2, 4, 5), (9, LAST, 0, 8, 3, 3, 3), lengths(6, 4))
    for olds in (1, 2, 2, 5), (1, 4, 2, 5), (5, 4, 2, 1), (0, 0, 0, 0), (1, 2, 4, 6), (6, 7, 8, 9), (1, 2, 4, LAST), (LAST, 1, 2, 4):
        lent = (6, 1), (8, 0), (5, LAST)
        yield carry_case(olds, (9, LAST, 0, 8), (Carry(CARRYING, 6, 4, 4, places, holding) for places, holding in lent))
    whole, entries = range(STATES), [(i * 77) % 2 ** 16 for i in range(STATES + 2)]
    for n in STATES - 1, STATES, STATES + 1:
        questions = (Carry(CARRYING, n, STATES, count, places) for count in (full, STATES) for places in (n - 1, n, n + 2))
        yield carry_case(whole, entries, questions)
    for last in full, STATES, LAST:
        longer = Carry(CARRYING, STATES, STATES + 1, STATES + 1, STATES)
        yield carry_case((*whole, last), entries, (longer, longer._replace(n=STATES + 1, places=STATES + 1), longer._replace(olds=STATES)))
    yield Case(write(case_a()), questions=tuple(Carry(CARRYING, n, 1, 50, 300) for n in (256, 257)))
    yield Case(two(1) + b"\x00", questions=(Carry(CARRYING, 2, 1, 1, 2), Carry(CARRYING, 2, 2, 2, 2)))
    some = tuple(range(3, STATES, 5))
    yield carry_case(some, entries, (Carry(CARRYING, STATES, len(some), len(some), places, LAST) for places in (full, STATES, STATES + 1)))
    yield carry_case((full,), (0,), (Carry(CARRYING, n, 1, 1, STATES) for n in (full, STATES)))


def cases():
    """Document 01's bench plans that are not starred, then damaged files, then questions that are refused, then plans of many shapes;
    then contests and warning times that are refused, and plans for contests and for warning times; then plans that are trimmed, and tables
    that are carried back."""
    hexa = bytes.fromhex
    wide = write(Plan([State(2)] * STATES))
    yield usual(wide)
    yield usual(wide[:3] + two(STATES + 1) + wide[5:])
    yield usual(hexa("01 0004 0002 0000 02 0005 00 0001 FFFF 03 0000"))
    yield usual(hexa("01 0004 0002 0000 02 0005 00 0001 FFFF 03 0004 0001 0001"))
    yield usual(wide, STATES - 1)
    two_states = write(Plan([State(0, [[0, 1]]), State(2)]))
    for rows, firsts, outcomes in (2, 1, 2), (1, 1, 2), (2, 0, 2), (2, 1, 1), (0, 0, 0):
        yield usual(two_states, rows, firsts, outcomes)
    data = write(case_a())
    for cut in range(len(data)):
        yield usual(data[:cut])
    for i in range(len(data)):
        for change in (1, 128):
            yield usual(data[:i] + bytes([data[i] ^ change]) + data[i + 1:])
    yield usual(data + b"\x00")
    for rows in 0, 1, STATES:
        questions = (Question(call, start, places) for call in (DECIDING, SEARCH) for start in (0, rows, LAST) for places in (0, rows))
        yield Case(b"", rows, questions=tuple(questions))
    n = case_a().n
    for places in n - 1, n, n + 1, LAST:
        yield Case(data, questions=(Question(DECIDING, 0, places), *(Question(SEARCH, start, places) for start in (n - 1, n, LAST))))
    yield Case(write(longest()), questions=(Question(DECIDING), Question(SEARCH)))
    for plan in shapes():
        case = usual(write(plan))
        yield case._replace(questions=case.questions + contests(range(plan.n)) + warnings(range(plan.n), (1, 61, LONGEST_MOVE)))
    yield from refused_questions()
    yield from contest_plans()
    yield from warning_plans()
    yield from trim_cases()
    yield from carry_cases()


def main():
    tried = list(cases())
    made.put(HERE, {
        "stdin": two(len(tried)) + b"".join(case.frame() for case in tried),
        "stdout": "".join(map(said, tried)).encode(),
    })


main()
