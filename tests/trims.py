"""The reference's trimming beside runs and verdicts: the kept states are the ends of runs, and are as they were."""
import sys

import reference
from plans import chain, half_dead, longest, shapes, trimmed_shapes
from reference import STATES, Plan

RUNS = 20000  # of a plan, at most, where all runs are gone through
FEW = 40  # plans of each sort that must be met, or too little was tried


def plans():
    yield from shapes()
    yield from trimmed_shapes()
    for start in 0, STATES // 2, STATES - 1:
        yield Plan(chain(STATES - 1).states, start)
    yield longest()
    yield half_dead()


def ends(plan):
    """Where runs from the start of fewer moves than there are states end, run by run; None if there are too many."""
    met, runs = {plan.start}, [(plan.start,)]
    for _ in range(plan.n - 1):
        runs = [run + (o,) for run in runs for c in plan.states[run[-1]].commands for o in c]
        if len(runs) > RUNS:
            return None
        met |= {run[-1] for run in runs}
    return met


def same(a, b):
    return a.start == b.start and reference.write(a) == reference.write(b)


def wrong(plan):
    """What is wrong with the trimmed plan; None if nothing is."""
    new, olds = reference.trim(plan)
    if olds != sorted(set(olds)) or olds[new.start] != plan.start or len(olds) != new.n:
        return f"the map is {olds}"
    for old, s in zip(olds, new.states):
        was = plan.states[old]
        if (s.kind, s.practice) != (was.kind, was.practice) or [[olds[o] for o in c] for c in s.commands] != was.commands:
            return f"state {old} is another"
    if not same(reference.read(reference.write(new)), new):
        return "no file gives it"
    before, after = reference.decide(plan), reference.decide(new)
    if any([entries[old] for old in olds] != entries2 for entries, entries2 in zip(before[:3], after[:3])):
        return "other ranks, commands or marks"
    again, own = reference.trim(new)
    if not same(again, new) or own != list(range(new.n)):
        return "other when it is trimmed again"
    return None


def main():
    met = dict.fromkeys(("gone through", "smaller", "whole", "start alone"), 0)
    for number, plan in enumerate(plans()):
        what = wrong(plan)
        kept, ended = reference.entered(plan), ends(plan)
        if what or ended not in (None, kept):
            sys.exit(f"trims: plan {number}: {what or f'kept are {kept}, and runs end at {ended}'}")
        met["gone through"] += ended is not None
        met["smaller"] += 1 < len(kept) < plan.n
        met["whole"] += len(kept) == plan.n
        met["start alone"] += len(kept) == 1
    if min(met.values()) < FEW:
        sys.exit(f"trims: too few plans to tell: {met}")


main()
