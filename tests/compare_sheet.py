#!/usr/bin/env python3
"""Compares the program `sheet` with an independent reading of docs/FORMAT.md and docs/REFUSALS.md, on random files.

usage: tests/compare_sheet.py PROGRAM [FILES [SEED]]

Times are found as least sums of chains, by trying every chain that visits no event twice; rings by listing them all. Nothing is shared with the
program. Books have at most 6 events, so that this ends; besides, some books of up to 1,024 events and 4,096 rules are compared by relaxation.
"""
import random
import struct
import subprocess
import sys


def u16(data, at):
    return struct.unpack_from(">H", data, at)[0]


def file_fault(data):
    """The first of questions 21 to 29 that is answered no, with its place."""
    if len(data) < 9:
        return 21, len(data)
    if data[:3] != b"FPD":
        return 22, 0
    if u16(data, 3) != 1:
        return 23, 3
    if not 1 <= u16(data, 5) <= 1024:
        return 24, 5
    if u16(data, 7) > 4096:
        return 25, 7
    at = 9 + 10 * u16(data, 7)
    if at > len(data):
        return 26, len(data)
    for _ in range(u16(data, 5)):
        if at >= len(data) or data[at] > 12 or at + 1 + data[at] > len(data):
            return 27, at
        for letter in range(at + 1, at + 1 + data[at]):
            if not 32 <= data[letter] <= 126:
                return 28, letter
        at += 1 + data[at]
    return None if at == len(data) else (29, at)


def decode(data):
    events, count = u16(data, 5), u16(data, 7)
    rules = [struct.unpack_from(">HHHi", data, 9 + 10 * place) for place in range(count)]
    names, at = [], 9 + 10 * count
    for _ in range(events):
        names.append(data[at + 1:at + 1 + data[at]])
        at += 1 + data[at]
    return events, rules, names


def book_fault(events, rules):
    """The first of questions 1 to 6 that is answered no, with its place."""
    if not 1 <= events <= 1024:
        return 1, 0
    if len(rules) > 4096:
        return 2, 0
    seen = set()
    for place, (number, first, second, limit) in enumerate(rules):
        if number < 1:
            return 3, place
        if first >= events or second >= events:
            return 4, place
        if abs(limit) > 100_000_000:
            return 5, place
        if number in seen:
            return 6, place
        seen.add(number)
    return None


def simple_chains(rules, start):
    """Every chain from an event that visits no event twice, but may end where it began, as (end, sum, size)."""
    found = [(start, 0, 0)]
    stack = [(start, 0, 0, frozenset([start]))]
    while stack:
        event, total, size, visited = stack.pop()
        for _, first, second, limit in rules:
            if first != event:
                continue
            if second == start or second not in visited:
                found.append((second, total + limit, size + 1))
            if second not in visited:
                stack.append((second, total + limit, size + 1, visited | {second}))
    return found


def by_chains(events, rules):
    """Settled times, or the sizes that a negative ring can have."""
    times, sizes = [0] * events, set()
    for start in range(events):
        for end, total, size in simple_chains(rules, start):
            if end == start and total < 0:
                sizes.add(size)
            times[end] = min(times[end], total)
    return (None, sizes) if sizes else (times, None)


def by_relaxation(events, rules):
    times = [0] * events
    for _ in range(events):
        changed = False
        for _, first, second, limit in rules:
            if times[first] + limit < times[second]:
                times[second] = times[first] + limit
                changed = True
        if not changed:
            return times, None
    return None, set(range(1, events + 1))


def expected(data):
    """The texts that may be printed for a file."""
    fault = file_fault(data)
    if fault:
        return {b"refused file %d %d\n" % fault}
    events, rules, names = decode(data)
    fault = book_fault(events, rules)
    if fault:
        return {b"refused book %d %d\n" % fault}
    times, sizes = by_chains(events, rules) if events <= 6 else by_relaxation(events, rules)
    if sizes:
        return {b"refused plan 15 %d\n" % size for size in sizes}
    lines = [b"events %d rules %d" % (events, len(rules))]
    for event, name in enumerate(names):
        lines.append(b" ".join([b"%d" % event, b"%d" % (times[event] - times[0])] + ([name] if name else [])))
    return {b"\n".join(lines) + b"\n"}


def encode(events, rules, names):
    head = b"FPD" + struct.pack(">HHH", 1, events, len(rules))
    return head + b"".join(struct.pack(">HHHi", *rule) for rule in rules) + b"".join(bytes([len(n)]) + n for n in names)


def random_file(rng):
    large = rng.random() < 0.02
    events = rng.randint(1, 1024) if large else rng.randint(1, 6)
    count = rng.randint(0, 4096) if large else rng.randint(0, 9)
    numbers = rng.sample(range(1, 65536), count)
    slack = rng.choice([0, 1, 5, 50])
    base = [rng.randint(-1000, 0) for _ in range(events)]
    rules = []
    for number in numbers:
        first, second = rng.randrange(events), rng.randrange(events)
        limit = base[second] - base[first] + rng.randint(0 if rng.random() < 0.9 else -slack, slack)
        rules.append((number, first, second, limit))
    names = [bytes(rng.randint(32, 126) for _ in range(rng.choice([0, 1, 4, 12]))) for _ in range(events)]
    data = bytearray(encode(events, rules, names))
    kind = rng.random()
    if kind < 0.15 and not large:
        data[rng.randrange(len(data))] = rng.randrange(256)
    elif kind < 0.2:
        del data[rng.randrange(len(data)):]
    elif kind < 0.23:
        data += bytes(rng.randrange(256) for _ in range(rng.randint(1, 3)))
    elif kind < 0.3 and count > 1:
        place = rng.randrange(1, count)
        data[9 + 10 * place:11 + 10 * place] = data[9 + 10 * (place - 1):11 + 10 * (place - 1)]
    return bytes(data)


def main():
    program = sys.argv[1]
    files = int(sys.argv[2]) if len(sys.argv) > 2 else 2000
    rng = random.Random(int(sys.argv[3]) if len(sys.argv) > 3 else 1)
    kinds = {}
    for index in range(files):
        data = random_file(rng)
        run = subprocess.run([program], input=data, stdout=subprocess.PIPE, check=True)
        allowed = expected(data)
        if run.stdout not in allowed:
            print("file", index, data.hex(), "printed", run.stdout, "and not one of", sorted(allowed))
            return 1
        kind = b" ".join(run.stdout.split()[:3]).decode() if run.stdout.startswith(b"refused") else "settled"
        kinds[kind] = kinds.get(kind, 0) + 1
    print(files, "files agree:", ", ".join(f"{kind} {count}" for kind, count in sorted(kinds.items())))
    return 0


if __name__ == "__main__":
    sys.exit(main())
