"""The reference's carrying back beside the maps that can be, one by one, and beside trimming and deciding."""
import itertools
import random
import sys

import reference
from plans import shapes, trimmed_shapes
from reference import NONE, STATES, Refused

LARGE = NONE, 2 ** 16, 2 ** 32, 2 ** 64 - 1
TRIES = 300  # random maps
FEW = 40  # of each sort that must be met, or too little was tried


def answer(n, olds, table):
    try:
        return reference.carry(n, olds, table)
    except Refused as r:
        return r.number


def expected(n, olds, table):
    """The same from the other side: a map that rises and stays below n is one of the ways to pick so many of n states, and each state is
    looked up in it."""
    fits = 0 < n < STATES + 1 and len(table) >= len(olds) and tuple(olds) in set(itertools.combinations(range(n), len(olds)))
    return [table[olds.index(s)] if s in olds else NONE for s in range(n)] if fits else 10


def small():
    """All maps of at most three entries, for few states, with tables that are too short, long enough and longer."""
    for n in 0, 1, 2, 3, STATES + 1, *LARGE:
        states = (*range(4), NONE)
        for count in range(4):
            for olds in itertools.product(states, repeat=count):
                for entries in {max(count - 1, 0), count, count + 2}:
                    yield n, list(olds), [5, 0, NONE, 7, 1][:entries]


def wrong():
    met = dict.fromkeys(("carried", "refused", "every state", "none"), 0)
    for n, olds, table in small():
        back = answer(n, olds, table)
        if back != expected(n, olds, table):
            return f"{n} {olds} {table}: {back}"
        if back == 10:
            met["refused"] += 1
            continue
        met["carried"] += 1
        met["every state"] += len(olds) == n
        met["none"] += not olds
        if reference.pick(olds, back) != table[:len(olds)]:
            return f"{n} {olds} {table}: other entries are picked out"
    return None if min(met.values()) >= 3 else f"too few maps to tell: {met}"


def wrong_random():
    """Maps of up to 1,024 states, with tables of any entries."""
    draw = random.Random(7)
    for _ in range(TRIES):
        n = draw.choice((draw.randint(1, STATES), STATES))
        olds = sorted(draw.sample(range(n), draw.randint(0, n)))
        table = [draw.choice((NONE, 0, 1, draw.randrange(2 ** 16))) for _ in range(len(olds) + draw.choice((0, 0, 1, 9)))]
        back = answer(n, olds, table)
        others = set(range(n)) - set(olds)
        if back == 10 or reference.pick(olds, back) != table[:len(olds)] or any(back[s] != NONE for s in others):
            return f"{n} {olds}"
        if olds:
            i = draw.randrange(len(olds))
            damaged = olds[:i] + [draw.choice((n, NONE, olds[i - 1] if i else n))] + olds[i + 1:]
            if answer(n, damaged, table) != 10:
                return f"{n} {damaged} is let through"
    return None


def commands(plan):
    return [NONE if c is None else c for c in reference.decide(plan)[1]]


def wrong_trimmed():
    """The map of a trimmed plan, and its chosen commands, which are those of the whole plan at the states that are kept."""
    met = 0
    for plan in *shapes(), *trimmed_shapes():
        new, olds = reference.trim(plan)
        chosen, chosen_before = commands(new), commands(plan)
        kept = reference.entered(plan)
        if answer(plan.n, olds, chosen) != [chosen_before[s] if s in kept else NONE for s in range(plan.n)]:
            return f"other commands: {plan}"
        met += 1 < len(olds) < plan.n and any(c != NONE for c in chosen)
    return None if met >= FEW else f"too few plans to tell: {met}"


def main():
    what = wrong() or wrong_random() or wrong_trimmed()
    if what:
        sys.exit(f"carries: {what}")


main()
