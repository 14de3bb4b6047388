"""Plans of many shapes, for the bench program and the listing program."""
import random

from reference import NONE, STATES, Plan, State


def rest():
    return State(2)


def failing():
    return State(1)


def stuck():
    return State(0)


def ring(k, leak=None, practice=NONE):
    """A ring of k states; the state `leak` may also fail."""
    states = [State(0, [sorted({(i + 1) % k} | ({k} if i == leak else set()))], practice) for i in range(k)]
    return Plan(states + [failing()])


def chain(k):
    """k states in a row, the last of which steps to failure."""
    return Plan([State(0, [[i + 1]]) for i in range(k)] + [failing()])


def ladder(k):
    """Each state may go on or stay, but staying may fail at the end: one state is found lost in each round."""
    return Plan([State(0, [[i + 1], [i + 1, i + 2]]) for i in range(k)] + [failing(), failing()])


def late():
    """Three rounds from 0. A search that knew its marks before the round's end would take two: 1 or 3 is walked after 2 is marked."""
    return Plan([State(0, [[1, 2, 3], [1, 3]]), State(0, [[2]]), State(0, [[4]]), State(0, [[2]]), failing()])


def longest():
    """All limits reached, so no file is longer."""
    return Plan([State(0, [sorted((i + c + k) % STATES for k in range(4)) for c in range(4)]) for i in range(STATES)])


def descent(seed, n):
    """A random way down to the last state, which fails: each state leads to some of the next three, so ranks rise slowly and one by one."""
    r = random.Random(seed)
    below = lambda i: sorted({r.randint(i + 1, min(i + 3, n - 1)) for _ in range(2)})
    return Plan([State(0, [below(i) for _ in range(r.randint(1, 3))]) for i in range(n - 1)] + [failing()])


def branching():
    """16 states with 16 commands each, which lead back to all 16 and elsewhere; only the last command cannot fail. Who remembers no turn
    works out 256 a move, and so does not come to the end of 8."""
    leaking, holding = range(64), [*range(63), 64]
    states = [State(0, [leaking] * 15 + [holding]) for _ in range(16)] + [rest() for _ in range(16, 63)]
    return Plan(states + [failing(), rest()])


def scattered(seed, n, commands, outcomes, kinds=(8, 1, 1)):
    """A random plan; the same for the same seed. One failing state in four is stuck instead, and an ordinary one that draws no commands
    is at rest: if all of these were stuck, few states would be safe."""
    r = random.Random(seed)
    states = []
    for _ in range(n):
        kind = r.choices((0, 1, 2), kinds)[0]
        own = [sorted(r.sample(range(n), r.randint(1, min(outcomes, n)))) for _ in range(r.randint(0, commands))] if kind == 0 else []
        if kind == 1:
            kind = r.choice((0, 1, 1, 1))
        elif not own:
            kind = 2
        states.append(State(kind, own, r.choice([NONE] + list(range(len(own))))))
    return Plan(states, r.randrange(n))


def ended_by(end):
    """Small plans with states that end runs, made by `end`: the only outcome, beside others, in a ring; first, last and in between. The
    first command of one that is last is m, that of one before states with commands is theirs."""
    yield Plan([State(0, [[1]], 0), end()])
    yield Plan([end(), State(0, [[0]]), State(0, [[1, 2], [2]], 0)])
    yield Plan([State(0, [[1], [2]], 0), end(), rest()])
    yield Plan([State(0, [[1, 2], [2]], 0), end(), rest()])
    yield Plan([State(0, [[1, 2]]), rest(), end(), State(0, [[0], [3]], 0)], 3)
    yield Plan([State(0, [[1]], 0), State(0, [[2], [0, 1]], 0), end(), State(0, [[0]], 0)])
    yield Plan([end(), end(), State(0, [[0, 1], [3]]), State(0, [[1, 2], [2]], 0), end()], 4)
    yield Plan([State(0, [[1]]), State(0, [[2]]), State(0, [[3]]), end(), failing()])


def among_dead(plan, seed):
    """The plan with states that its start never comes to, of every kind, below, between and above its own. Some lead to its states."""
    r = random.Random(seed)
    own = plan.n
    places = sorted(r.sample(range(own + 8), own))
    old = dict(enumerate(places))
    states = [None] * (own + 8)
    for i, s in enumerate(plan.states):
        states[old[i]] = State(s.kind, [[old[o] for o in c] for c in s.commands], s.practice)
    leading = State(0, [[places[0]]], 0), State(0, [places[:2], range(own + 8)])
    dead = iter([failing(), rest(), stuck(), *leading, rest(), failing(), stuck()])
    return Plan([next(dead) if s is None else s for s in states], old[plan.start])


def fans():
    """40 states, by turns with 40 commands of one outcome and with one command of 40 outcomes."""
    every = range(40)
    return Plan([State(0, [[o] for o in every], i) if i % 2 else State(0, [every]) for i in every])


def case_a():
    return Plan([State(0, [[1], [2, 3]], 1), State(0, [[0, 1]], 0), rest(), State(0, [[4], [2, 4]], 0), failing(), State(0, [[3]])])


def slopes():
    """Plans with ranks below, at and above the 8 moves of a contest."""
    yield chain(12)
    yield ladder(12)
    yield ring(11, 10)
    for seed in range(6):
        yield descent(seed, 24)


def half_dead():
    """As large as a plan can be, and of two halves: states of even number lead to each other, those of odd number to any."""
    leads = lambda i, c: sorted((i + (c + k) * (2 - i % 2)) % STATES for k in range(4))
    return Plan([State(0, [leads(i, c) for c in range(4)], i % 5 if i % 5 < 4 else NONE) for i in range(STATES)], 10)


def trimmed_shapes():
    """Plans to be trimmed: little and much of them is met. Of the small ones every state is a start."""
    for plan in small_shapes():
        for start in range(plan.n):
            yield Plan(plan.states, start)
    alone = [Plan([end()]) for end in (rest, failing, stuck)]
    for seed, plan in enumerate([case_a(), ring(5, 3, 0), late(), ladder(4), *alone] * 3):
        yield among_dead(plan, seed)
    for seed in range(500, 560):
        yield scattered(seed, 2 + seed % 14, 2, 2, (3, 1, 1))
    yield among_dead(fans(), 560)


def small_shapes():
    """Of every shape a small one."""
    yield case_a()
    yield Plan([rest()])
    yield Plan([failing()])
    yield Plan([State(0, [])])
    yield Plan([State(0, [[1], [0]]), failing()])
    yield Plan([State(0, [[1], [0]], 0), State(0, [[2]]), failing()])
    yield ring(5)
    for leak in range(5):
        yield ring(5, leak)
    yield ring(5, 3, 0)
    yield chain(9)
    yield ladder(7)
    yield late()
    for end in stuck, rest:
        yield from ended_by(end)


def shapes():
    """The plans that the bench program runs, and the listing program beside others."""
    yield from small_shapes()
    for seed in range(40):
        yield scattered(seed, 2 + seed % 12, 3, 3)
    for seed in range(40, 50):
        yield scattered(seed, 30, 4, 4, (20, 1, 2))
