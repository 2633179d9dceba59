"""Writes the books that the benchmark settles, as packed files, into a directory: 20 usual ones and 3 that are hard for rounds of relaxation."""
import os
import random
import struct
import sys

EVENTS, RULES = 1024, 4096


def write(path, events, rules):
    with open(path, "wb") as out:
        out.write(b"FPD" + struct.pack(">HHH", 1, events, len(rules)))
        for number, (first, second, limit) in enumerate(rules, 1):
            out.write(struct.pack(">HHHi", number, first, second, limit))
        out.write(b"\0" * events)


def between(rng, times, slack):
    """A rule between two random events that the times meet, with some slack."""
    first, second = rng.randrange(len(times)), rng.randrange(len(times))
    return first, second, times[second] - times[first] + rng.randint(0, slack)


def usual(seed):
    """Feasible; about half of the limits are negative."""
    rng = random.Random(seed)
    times = [rng.randint(-50_000, 0) for _ in range(EVENTS)]
    return [between(rng, times, 1_000) for _ in range(RULES)]


def reverse_chain():
    """A chain over all events, its rules in reverse order, so that a round over them in order lowers one event; then loose rules."""
    rules = [(event, event + 1, -100) for event in reversed(range(EVENTS - 1))]
    rng = random.Random(1)
    while len(rules) < RULES:
        first, second = rng.randrange(EVENTS), rng.randrange(EVENTS)
        rules.append((first, second, 1_000_000))
    return rules


def grid():
    """A square grid, each event before its neighbours to the right and below, its rules in reverse order."""
    side, rules = 32, []
    rng = random.Random(2)
    for row in reversed(range(side)):
        for column in reversed(range(side)):
            event = side * row + column
            if column + 1 < side:
                rules += [(event, event + 1, -rng.randint(1, 100)), (event + 1, event, 5_000)]
            if row + 1 < side:
                rules += [(event, event + side, -rng.randint(1, 100)), (event + side, event, 5_000)]
    return rules


def ring():
    """A usual book in which a ring through 64 events is negative by 1."""
    rng = random.Random(3)
    times = [rng.randint(-50_000, 0) for _ in range(EVENTS)]
    rules = [between(rng, times, 1_000) for _ in range(RULES - 64)]
    way = rng.sample(range(EVENTS), 64)
    for place, event in enumerate(way):
        after = way[(place + 1) % 64]
        rules.insert(rng.randrange(len(rules)), (event, after, times[after] - times[event] - (place == 0)))
    return rules


def main():
    into = sys.argv[1]
    os.makedirs(into, exist_ok=True)
    for seed in range(20):
        write(os.path.join(into, f"usual-{seed:02}.fpd"), EVENTS, usual(seed))
    write(os.path.join(into, "hard-chain.fpd"), EVENTS, reverse_chain())
    write(os.path.join(into, "hard-grid.fpd"), EVENTS, grid())
    write(os.path.join(into, "hard-ring.fpd"), EVENTS, ring())


main()
