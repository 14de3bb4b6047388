"""The reference's verdicts and warning times beside operating rules: on small plans, every rule that goes by the present state alone,
with all its runs."""
import itertools
import math
import sys

import reference
from plans import ended_by, failing, rest, scattered, shapes, stuck
from reference import Plan

RULES = 300  # of a plan, at most
SAFE = math.inf  # moves to failure where no run fails
LENGTHS = 1, 7, 59, 60, 61, 3600  # seconds a move


def plans():
    yield from shapes()
    yield from ended_by(failing)
    for seed in range(200, 500):
        yield scattered(seed, 2 + seed % 5, 3, 3, (8, 2, 1))


def rules(plan):
    """A command at each state that has any, in all ways."""
    states = [i for i, s in enumerate(plan.states) if s.commands]
    for commands in itertools.product(*(range(len(plan.states[i].commands)) for i in states)):
        yield dict(zip(states, commands))


def ends(plan, rule, state):
    """Where the runs from a state under the rule end: after no move, after one, and so on, each state when it is first met."""
    met, last = set(), {state}
    while last:
        yield last
        met |= last
        last = {o for i in last if i in rule for o in plan.states[i].commands[rule[i]]} - met


def shortest(plan, rule, state):
    """The moves of the shortest run from a state under the rule that fails."""
    failing_ends = (moves for moves, last in enumerate(ends(plan, rule, state)) if any(reference.fails(plan.states[i]) for i in last))
    return next(failing_ends, SAFE)


def wrong_search(plan, state, chosen, met):
    """What is wrong with the search from a state; `met` are those that the chosen commands can come to from there, none if it is lost."""
    lost, rounds, taken = reference.search(plan, state)
    if lost != (not met):
        return "the search's verdict"
    if (rounds > 0) != bool(plan.states[state].commands) or rounds > sum(bool(s.commands) for s in plan.states):
        return f"{rounds} rounds"
    if taken != [chosen[i] if i in met else None for i in range(plan.n)]:
        return f"the search's commands, {taken}"
    return None


def wrong_warning(plan, state, best):
    """What is wrong with the warning time at a state for which the best rule holds out for so many moves."""
    for seconds in LENGTHS:
        time = reference.warning(plan, state, seconds)
        if (time is None) != (best == SAFE):
            return f"the warning time is {time}, and the best rule holds out for {best} moves"
        if time is not None and (time[0] * 60 + time[1] != best * seconds or time[1] not in range(60)):
            return f"the warning time is {time} for {best} moves of {seconds} seconds"
    return None


def wrong(plan, state, verdicts):
    """What is wrong with the verdicts on a state; None if nothing is."""
    rank, chosen, marks = verdicts[:3]
    best = max(shortest(plan, rule, state) for rule in rules(plan))
    if best != (SAFE if rank[state] is None else rank[state]):
        return f"rank {rank[state]}, and the best rule holds out for {best} moves"
    wrong_time = wrong_warning(plan, state, best)
    if wrong_time:
        return wrong_time
    practice = {i: s.practice for i, s in enumerate(plan.states) if s.practice != reference.NONE}
    lands = plan.states[state].commands[practice[state]] if state in practice else []
    fault = best == SAFE and any(rank[o] is not None for o in lands)
    if marks[state] != (shortest(plan, practice, state) != SAFE) + 2 * fault:
        return f"mark {marks[state]}, and the practice does not do so"
    if best != SAFE:
        return "lost, and a command is chosen" if chosen[state] is not None else wrong_search(plan, state, chosen, set())
    returned = {i: command for i, command in enumerate(chosen) if command is not None}
    met = set().union(*ends(plan, returned, state))
    if shortest(plan, returned, state) != SAFE:
        return "safe, and the chosen commands fail"
    if any(plan.states[i].commands and i not in returned for i in met):
        return "safe, and no command is chosen where there are some"
    return wrong_search(plan, state, chosen, met)


def main():
    for end, rank in (stuck, 0), (failing, 0), (rest, None):
        if reference.decide(Plan([end()]))[0] != [rank]:
            sys.exit(f"rules: {end.__name__} has not rank {rank}")
    tried = stuck_states = 0
    for number, plan in enumerate(plans()):
        if math.prod(max(1, len(s.commands)) for s in plan.states) > RULES:
            continue
        verdicts = reference.decide(plan)
        for state in range(plan.n):
            what = wrong(plan, state, verdicts)
            if what:
                sys.exit(f"rules: plan {number}, state {state}: {what}")
        tried += 1
        stuck_states += sum(map(reference.is_stuck, plan.states))
    if tried < 200 or stuck_states < 50:
        sys.exit(f"rules: {tried} plans with {stuck_states} stuck states are too few to tell")


main()
