"""Document 01 and the requests of document 02 once more, in Python, written from the documents and not from the Rattle code: what the
bench program is held to."""
import functools

NONE = 0xFFFF
STATES, COMMANDS, OUTCOMES, MOVES = 1024, 4096, 16384, 8
LONGEST_MOVE = 3600  # in seconds


class Refused(Exception):
    """A refusal, by its number in the refusal table."""

    def __init__(self, number):
        super().__init__(number)
        self.number = number


def need(number, test):
    if not test:
        raise Refused(number)


class State:
    """A state as a plan file has it; an outcome list for each command."""

    def __init__(self, kind, commands=(), practice=NONE):
        self.kind, self.commands, self.practice = kind, [list(c) for c in commands], practice


def is_stuck(state):
    """Whether a state is a chamber that nobody can move: ordinary, with nothing to command (T-05)."""
    return state.kind == 0 and not state.commands


def fails(state):
    """Whether a state counts as failing: by its kind, or since it is stuck."""
    return state.kind == 1 or is_stuck(state)


class Plan:
    def __init__(self, states, start=0):
        self.states, self.start = states, start

    @property
    def n(self):
        return len(self.states)

    @property
    def m(self):
        return sum(len(s.commands) for s in self.states)

    @property
    def t(self):
        return sum(len(c) for s in self.states for c in s.commands)


def two(x):
    return bytes([x >> 8 & 255, x & 255])


def write(plan):
    """The bytes of a plan file."""
    out = b"\x01\x00\x04" + two(plan.n) + two(plan.start)
    for s in plan.states:
        out += b"\x02\x00\x05" + bytes([s.kind]) + two(len(s.commands)) + two(s.practice)
        for c in s.commands:
            out += b"\x03" + two(2 * len(c)) + b"".join(map(two, c))
    return out + b"\x04\x00\x00"


class Walker:
    """The field walker: the whole file, and how far it has come."""

    def __init__(self, data):
        self.data, self.at = data, 0

    def field(self, tag, allowed):
        rest = len(self.data) - self.at
        need(1, rest >= 3)
        need(3, self.data[self.at] == tag)
        length = self.data[self.at + 1] << 8 | self.data[self.at + 2]
        need(4, allowed(length))
        need(1, rest >= 3 + length)
        value = self.data[self.at + 3:self.at + 3 + length]
        self.at += 3 + length
        return value


def number(value, i):
    return value[i] << 8 | value[i + 1]


def read(data):
    """The plan that a file gives, or the first refusal."""
    w = Walker(data)
    head = w.field(1, lambda k: k == 4)
    n, start = number(head, 0), number(head, 2)
    need(5, 1 <= n <= STATES and start < n)
    states, m, t = [], 0, 0
    for _ in range(n):
        v = w.field(2, lambda k: k == 5)
        kind, count, practice = v[0], number(v, 1), number(v, 3)
        need(5, kind <= 2)
        need(7, (kind == 0 or count == 0) and (practice == NONE or practice < count))
        m += count
        need(8, m <= COMMANDS)
        commands = []
        for _ in range(count):
            v = w.field(3, lambda k: k % 2 == 0 and k >= 2)
            t += len(v) // 2
            need(8, t <= OUTCOMES)
            outcomes, last = [], -1
            for i in range(0, len(v), 2):
                o = number(v, i)
                need(5, o < n)
                need(6, o > last)
                outcomes.append(o)
                last = o
            commands.append(outcomes)
        states.append(State(kind, commands, practice))
    w.field(4, lambda k: k == 0)
    need(2, w.at == len(data))
    return Plan(states, start)


@functools.lru_cache(maxsize=None)
def ranks(plan):
    """The first layer that holds each state, or None. Remembered, for warning times ask for them state by state; nobody may alter them."""
    rank = [0 if fails(s) else None for s in plan.states]
    k = 0
    while True:
        added = [i for i, s in enumerate(plan.states)
                 if rank[i] is None and s.commands and all(any(rank[o] is not None for o in c) for c in s.commands)]
        if not added:
            return rank
        k += 1
        for i in added:
            rank[i] = k


def lowest_hit(outcomes, bad):
    """The lowest outcome that is bad, or None."""
    return min((o for o in outcomes if bad[o]), default=None)


def choose(state, bad):
    """The practice if none of its outcomes is bad, else the smallest number of a command of which that holds."""
    order = ([state.practice] if state.practice != NONE else []) + list(range(len(state.commands)))
    for c in order:
        if lowest_hit(state.commands[c], bad) is None:
            return c
    return None


def decide(plan):
    """Ranks, chosen commands, practice marks, the tally, and the outcome named at each fault."""
    rank = ranks(plan)
    lost = [r is not None for r in rank]
    practice_fails = [fails(s) for s in plan.states]
    changed = True
    while changed:
        changed = False
        for i, s in enumerate(plan.states):
            if not practice_fails[i] and s.practice != NONE and lowest_hit(s.commands[s.practice], practice_fails) is not None:
                practice_fails[i] = changed = True
    chosen, marks, named, tally = [], [], [], [[0, 0, 0], [0, 0, 0]]
    for i, s in enumerate(plan.states):
        chosen.append(None if lost[i] else choose(s, lost))
        given = s.practice != NONE
        named.append(lowest_hit(s.commands[s.practice], lost) if given and not lost[i] else None)
        marks.append((1 if practice_fails[i] else 0) + (0 if named[i] is None else 2))
        tally[1 if lost[i] else 0][2 if not given else 1 if practice_fails[i] else 0] += 1
    return rank, chosen, marks, tally, named


def search(plan, start):
    """The verdict (lost?), the rounds and the last walk's commands."""
    first = plan.states[start]
    none = [None] * plan.n
    if fails(first):
        return True, 0, none
    if first.kind == 2:
        return False, 0, none
    known = [fails(s) for s in plan.states]
    rounds = 0
    while True:
        rounds += 1
        reached, todo, taken, marked = {start}, [start], list(none), []
        while todo:
            i = todo.pop()
            s = plan.states[i]
            if s.kind == 2:
                continue
            c = choose(s, known)
            if c is None:
                marked.append(i)
                continue
            taken[i] = c
            for o in s.commands[c]:
                if o not in reached:
                    reached.add(o)
                    todo.append(o)
        if not marked:
            return False, rounds, taken
        for i in marked:
            known[i] = True
        if known[start]:
            return True, rounds, none


@functools.lru_cache(maxsize=None)
def keepers_turn(plan, state, left):
    """Whether the keeper holds a state with so many moves left. What was worked out once is remembered, else this would not end in time."""
    s = plan.states[state]
    if fails(s):
        return False
    return s.kind == 2 or left == 0 or any(works_turn(plan, outcomes, left) for outcomes in s.commands)


def works_turn(plan, outcomes, left):
    """Whether all that the works may give leaves the keeper a turn that is held, a move later."""
    return all(keepers_turn(plan, o, left - 1) for o in outcomes)


def contest(plan, state, moves):
    """Whether the state is held for so many moves (T-02)."""
    need(11, state < plan.n)
    need(12, moves <= MOVES)
    return keepers_turn(plan, state, moves)


def warning(plan, state, seconds):
    """The minutes and the seconds left over in the rank times the seconds of a move, or None for no limit (T-06)."""
    need(11, state < plan.n)
    need(13, 1 <= seconds <= LONGEST_MOVE)
    rank = ranks(plan)[state]
    return None if rank is None else divmod(rank * seconds, 60)


def entered(plan):
    """The states at which some run from the start ends, whatever is commanded (T-03)."""
    met, todo = {plan.start}, [plan.start]
    while todo:
        for o in {o for c in plan.states[todo.pop()].commands for o in c} - met:
            met.add(o)
            todo.append(o)
    return met


def trim(plan):
    """The trimmed plan, and the old number of each of its states (T-03)."""
    olds = sorted(entered(plan))
    new = {old: i for i, old in enumerate(olds)}
    kept = (plan.states[old] for old in olds)
    return Plan([State(s.kind, [[new[o] for o in c] for c in s.commands], s.practice) for s in kept], new[plan.start]), olds


def carry(n, olds, table):
    """The table of a trimmed plan under the old numbers, of which there are n (T-07)."""
    need(10, 1 <= n <= STATES)
    need(10, all(before < old for before, old in zip(olds, olds[1:])) and all(old < n for old in olds))
    need(10, len(olds) <= len(table))
    back = [NONE] * n
    for old, entry in zip(olds, table):
        back[old] = entry
    return back


def pick(olds, table):
    """The entries at the kept states (T-07)."""
    return [table[old] for old in olds]


def tables(plan):
    """The plan in memory: kind, first command and practice of each state, first outcomes, and outcomes."""
    rows, firsts, outcomes = [], [], []
    for s in plan.states:
        rows.append((s.kind, len(firsts), s.practice))
        for c in s.commands:
            firsts.append(len(outcomes))
            outcomes += c
    return rows, firsts, outcomes


def listing(data):
    """What the listing program prints."""
    try:
        need(8, len(data) <= 65536)
        plan = read(data)
    except Refused as r:
        return f"refused {r.number}\n"
    rank, chosen, marks, tally, named = decide(plan)
    lost, rounds, _ = search(plan, plan.start)
    dash = lambda x: "-" if x is None else str(x)
    out = [f"plan {plan.n} {plan.m} {plan.t}"]
    for i, s in enumerate(plan.states):
        out.append(f"{i} {'ofr'[s.kind]} {'S' if rank[i] is None else 'L'} {dash(rank[i])} {dash(chosen[i])} "
                   f"{'F' if marks[i] & 1 else 'H'} {'.' if named[i] is None else f'!{named[i]}'}")
    out.append("tally " + " / ".join(" ".join(map(str, row)) for row in tally))
    out.append(f"start {plan.start} {'L' if lost else 'S'} {rounds}")
    return "\n".join(out) + "\n"
