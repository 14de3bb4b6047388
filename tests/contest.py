"""The reference's contest beside its ranks: a safe state is held for all moves, a lost one for as many as its rank exceeds, and so a
stuck one for none, not even for 0."""
import sys

import reference
from plans import branching, chain, longest, shapes, slopes
from reference import MOVES, STATES, is_stuck

STUCK = "stuck"
MET = {None, *range(MOVES + 4), STUCK}  # that must be met, or too little was tried


def plans():
    yield from shapes()
    yield from slopes()
    yield branching()
    yield chain(STATES - 1)
    yield longest()


def wrong(state, rank, held):
    """What is wrong with a state of this rank that is held, or not, for 0, 1, 2 moves and so on; None if nothing is."""
    if is_stuck(state) and held[0]:
        return "stuck, and held"
    if any(later and not sooner for sooner, later in zip(held, held[1:])):
        return "held for more moves and not for fewer"
    if held != [rank is None or rank > moves for moves in range(MOVES + 1)]:
        return "not held as its rank says"
    return None


def main():
    met = set()
    for number, plan in enumerate(plans()):
        for i, (state, rank) in enumerate(zip(plan.states, reference.decide(plan)[0])):
            held = [reference.contest(plan, i, moves) for moves in range(MOVES + 1)]
            if wrong(state, rank, held):
                sys.exit(f"contest: plan {number}, state {i} of rank {rank}: {wrong(state, rank, held)}: {held}")
            met.add(STUCK if is_stuck(state) else rank)
    if not MET <= met:
        sys.exit(f"contest: never met: {', '.join(map(str, MET - met))}")


main()
