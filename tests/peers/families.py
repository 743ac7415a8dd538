"""Sheets of the families of planning problems in document 002, scaled to a sheet, and sheets by chance. A mask's bit k is fact k; a rule
is (action, cond1, cond0, set1, set0), a clause (pos, neg)."""
import random
import struct


def sheet(facts, actions, rules, starts, goals, horizon, needs=None):
    """The bytes of a sheet."""
    rows = (needs or [(0, 0)] * actions) + rules + starts + goals
    body = [n for row in rows for n in row]
    trailer = [facts, actions, len(rules), len(starts), len(goals), horizon, 2 * len(body)]
    return struct.pack('<%dH' % (len(body) + 7), *body, *trailer) + b'RS'


def exactly_one(bits):
    """Clauses: one of these facts is 1."""
    return [(sum(bits), 0)] + [(0, a | b) for i, a in enumerate(bits) for b in bits[:i]]


def sort(wires, horizon):
    """A sorting network: write (i, j) exchanges the values of two wires if they are out of order; any values at the start."""
    pairs = [(1 << i, 1 << j) for i in range(wires) for j in range(i + 1, wires)]
    rules = [(k + 1, i, j, j, i) for k, (i, j) in enumerate(pairs)]
    goals = [(2 << i, 1 << i) for i in range(wires - 1)]
    return sheet(wires, len(pairs), rules, [], goals, horizon)


def ring(rooms, horizon):
    """A ring of rooms, each with a window to be closed and then locked; in which room it begins is not known.
    Writes: go on, close, lock. A window that is locked is closed."""
    if rooms == 2:
        here = [(0, 1), (1, 0)]
        go = [(1, 0, 1, 1, 0), (1, 1, 0, 0, 1)]
        starts, used = [], 1
    else:
        places = [1 << i for i in range(rooms)]
        here = [(p, 0) for p in places]
        go = [(1, p, 0, places[(i + 1) % rooms], p) for i, p in enumerate(places)]
        starts, used = exactly_one(places), rooms
    closed = [1 << (used + i) for i in range(rooms)]
    locked = [1 << (used + rooms + i) for i in range(rooms)]
    close = [(2, one, zero, c, 0) for (one, zero), c in zip(here, closed)]
    lock = [(3, one | c, zero, k, 0) for (one, zero), c, k in zip(here, closed, locked)]
    starts = starts + [(c, k) for c, k in zip(closed, locked)]
    return sheet(used + 2 * rooms, 3, go + close + lock, starts, [(k, 0) for k in locked], horizon)


def centre(side, dimensions, horizon):
    """A grid; the place in it is not known, a write moves by one in a direction unless there is a wall, and the middle is wanted."""
    rules, starts, goals = [], [], []
    for d in range(dimensions):
        at = [1 << (side * d + i) for i in range(side)]
        up, down = 2 * d + 1, 2 * d + 2
        rules += [(up, at[i], 0, at[i + 1], at[i]) for i in range(side - 1)]
        rules += [(down, at[i + 1], 0, at[i], at[i + 1]) for i in range(side - 1)]
        starts += exactly_one(at)
        goals.append((at[side // 2], 0))
    return sheet(side * dimensions, 2 * dimensions, rules, starts, goals, horizon)


def by_chance(seed):
    """A small sheet with a start, so that 6 is never the answer, in which the goal does not hold, so that writes are needed."""
    choose = random.Random(seed)
    facts, actions = choose.randint(2, 5), choose.randint(2, 4)

    def pair(chance):
        one, zero = 0, 0
        for k in range(facts):
            if choose.random() < chance:
                one, zero = (one | 1 << k, zero) if choose.random() < 0.5 else (one, zero | 1 << k)
        return one, zero

    needs = [pair(0.1) for _ in range(actions)]
    rules = [(choose.randint(1, actions), *pair(0.25), *pair(0.4)) for _ in range(choose.randint(actions, 8))]
    start = choose.randrange(1 << facts)
    starts = [(start & 1 << k, ~start & 1 << k) for k in range(facts) if choose.random() < 0.8]
    goals = [(~start & 1 << k, start & 1 << k) for k in choose.sample(range(facts), choose.randint(1, 2))]
    return sheet(facts, actions, rules, starts, goals, choose.randint(1, 5), needs)


FAMILIES = {
    'sort 3': sort(3, 4),
    'sort 4': sort(4, 6),
    'ring 2': ring(2, 6),
    'ring 3': ring(3, 8),
    'square 3': centre(3, 2, 7),
    'square 4': centre(4, 2, 8),
    'cube 2': centre(2, 3, 4),
    'cube 3': centre(3, 3, 8),
}
