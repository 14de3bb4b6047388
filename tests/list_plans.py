"""The listing program, whose path is the argument, on plans of many shapes: whether it prints what the reference prints."""
import subprocess
import sys

import reference
from plans import failing, longest, rest, scattered, shapes, stuck
from reference import STATES, Plan, State, write


def faults(n, named, bad=failing):
    """n states: the practice of state 0 may land on 1, which is at rest as all others are, and on those of `named`, which are bad."""
    states = [State(0, [[1], sorted({1} | set(named))], 1)] + [rest() for _ in range(n - 1)]
    for x in named:
        states[x] = bad()
    return Plan(states)


def outcomes(t):
    """STATES states, at rest but for the first, whose commands have t outcomes in all: 1,000 each, the last what is left."""
    lists = [list(range(min(1000, t - i))) for i in range(0, t, 1000)]
    return Plan([State(0, lists)] + [rest() for _ in range(STATES - 1)])


def plans():
    yield from shapes()
    yield longest()
    for named in [2], [9], [10, 11], [99], [100], [101, 500], [999, 1000], [1000], [1023], [3, 4, 5, 1023]:
        yield faults(STATES, named)
    for t in 9, 10, 99, 100, 999, 1000, 9999, 10000, 12345:
        yield outcomes(t)
    yield Plan([State(0, [[1], [2]], 1), rest(), State(0, [[3]]), failing()])  # a fault whose practice holds
    yield Plan([State(0, [[0], [0, 1]], 1), failing(), State(0, [[1]], 0)])  # of two hits, only that at the safe state is a fault
    yield Plan([State(0, [[1], [1, 2, 3]], 1), rest(), State(0, [[3]]), failing()])  # named is 2, of rank 1, and not 3, which fails
    yield faults(STATES, [8, 512, 1023], stuck)
    yield Plan([stuck() for _ in range(STATES)], STATES - 1)
    for seed in range(100, 160):
        yield scattered(seed, 6 + seed % 7, 3, 4, (9, 1, 2))
    for seed in range(160, 170):
        yield scattered(seed, 200, 5, 5, (30, 1, 3))
    yield scattered(170, STATES, 4, 4, (60, 1, 3))


def main():
    tried = signs = stuck_states = 0
    for plan in plans():
        file = write(plan)
        want = reference.listing(file)
        got = subprocess.run([sys.argv[1]], input=file, capture_output=True, check=True).stdout.decode()
        if got != want:
            line = next((pair for pair in zip(got.split("\n"), want.split("\n")) if pair[0] != pair[1]), (got, want))
            sys.exit(f"list_plans: plan {tried}: {line[0]!r} for {line[1]!r}")
        tried += 1
        signs += sum(" !" in line for line in want.split("\n"))
        stuck_states += sum(map(reference.is_stuck, plan.states))
    if signs < 100 or stuck_states < STATES + 40:
        sys.exit(f"list_plans: {signs} faults and {stuck_states} stuck states are too few to tell")
    print(f"listed {tried} plans, {signs} faults, {stuck_states} stuck states")


main()
