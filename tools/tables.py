#!/usr/bin/env python3
"""Prints what the program `random_tables` must write.

    tools/tables.py            print it
    tools/tables.py --write    write it to crates/random_tables/stdout

Tables of steps between events are drawn by a linear congruential generator that the program repeats. What is told of
each is found here without the program's way of closing a table: reach and step counts by a breadth-first search from
each event, the cycle by trying all rows of events in lexicographic order, shorter ones first.
"""

import os
import sys

MOST_EVENTS = 64
SEED = 2026


class Draws:
    """Numbers by a linear congruential generator of 64 bits, of which the top 31 count."""

    def __init__(self, seed):
        self.state = seed

    def below(self, bound):
        self.state = (self.state * 6364136223846793005 + 1442695040888963407) % 2**64
        return (self.state >> 33) % bound


# The shapes of tables. Each gives the set of pairs of events that have a step.


def scattered(draws, n, hits, out_of):
    """Each pair of different events with a chance of `hits` in `out_of`."""
    return {(i, j) for i in range(n) for j in range(n) if draws.below(out_of) < hits and i != j}


def dense(draws, n):
    """Each pair with a chance of 5 in 8, also an event with itself."""
    return {(i, j) for i in range(n) for j in range(n) if draws.below(8) < 5}


def shuffled(draws, n):
    order = list(range(n))
    for i in range(1, n):
        j = draws.below(i + 1)
        order[i], order[j] = order[j], order[i]
    return order


def ring(draws, n):
    """One cycle through all events, in a shuffled order."""
    order = shuffled(draws, n)
    return {(order[i], order[(i + 1) % n]) for i in range(n)}


def chords(draws, n):
    """Such a ring, and some steps that leave out one of its events."""
    order = shuffled(draws, n)
    pairs = {(order[i], order[(i + 1) % n]) for i in range(n)}
    return pairs | {(order[i], order[(i + 2) % n]) for i in range(n) if draws.below(8) < 1}


def nearly_acyclic(draws, n):
    """Steps to higher events only, but for one."""
    pairs = {(i, j) for i in range(n) for j in range(i + 1, n) if draws.below(n) < 3}
    if n > 0:
        a, b = draws.below(n), draws.below(n)
        pairs.add((max(a, b), min(a, b)))
    return pairs


SHAPES = {
    "very sparse": lambda draws, n: scattered(draws, n, 4, 5 * n),
    "sparse": lambda draws, n: scattered(draws, n, 3, 2 * n),
    "middle": lambda draws, n: scattered(draws, n, 1, 8),
    "dense": dense,
    "ring": ring,
    "chords": chords,
    "nearly acyclic": nearly_acyclic,
}

# What is told of a table.


def successors(n, pairs):
    return [sorted(j for i, j in pairs if i == event) for event in range(n)]


def step_counts(n, after):
    """For each pair of events the length of the shortest chain of one or more steps, or 0 if there is none."""
    counts = {}
    for start in range(n):
        met = set()
        edge = {start}
        length = 0
        while edge:
            length += 1
            edge = {j for i in edge for j in after[i]} - met
            met |= edge
            for j in edge:
                counts[start, j] = length
    return counts


def is_acyclic(n, pairs):
    """Takes out events that nothing leads to, until none is left or each has a step that leads to it."""
    left = set(range(n))
    while left:
        entered = {j for i, j in pairs if i in left and j in left}
        if entered == left:
            return False
        left = entered
    return True


def cycles(after, row, length):
    """All cycles of `length` different events, of which the first is the lowest, that begin with `row`, in
    lexicographic order."""
    if len(row) == length:
        if row[0] in after[row[-1]]:
            yield row
        return
    for j in after[row[-1]]:
        if j > row[0] and j not in row:
            yield from cycles(after, row + [j], length)


def witness(n, pairs, after):
    """The first of the shortest cycles, or None."""
    if is_acyclic(n, pairs):
        return None
    for length in range(1, n + 1):
        for start in range(n):
            for cycle in cycles(after, [start], length):
                return cycle
    raise AssertionError("a table that is not acyclic has a cycle")


def checksum(numbers):
    """FNV-1a of 32 bits, over numbers that are taken as bytes."""
    total = 2166136261
    for number in numbers:
        total = (total ^ number) * 16777619 % 2**32
    return total


def describe(shape, n, pairs):
    after = successors(n, pairs)
    counts = step_counts(n, after)
    table = [counts.get((i, j), 0) for i in range(n) for j in range(n)]
    check = checksum([int(count > 0) for count in table] + table)
    cycle = witness(n, pairs, after)
    lengths = [counts[i, i] for i in range(n) if (i, i) in counts]
    assert (min(lengths) if lengths else None) == (len(cycle) if cycle else None)
    told = "acyclic" if cycle is None else "cycle: " + " ".join(map(str, cycle))
    return f"n={n} {shape} pairs={len(pairs)} reach={len(counts)} sum={sum(table)} check={check:08x} {told}"


# What is told of tables that do not fit.

SIZES = [(65, 4225), (65, 10), (2**64 - 1, 1), (64, 4095), (8, 63), (1, 0)]


def refusal(n, entries):
    why = "Rows" if n > MOST_EVENTS else "Values"
    assert n > MOST_EVENTS or entries < n * n
    return f"n={n} entries={entries}: reach refused {why}, unchanged; distances refused {why}, unchanged"


def lines():
    draws = Draws(SEED)
    for n in range(MOST_EVENTS + 1):
        for shape, draw in SHAPES.items():
            yield describe(shape, n, draw(draws, n))
    for n, entries in SIZES:
        yield refusal(n, entries)


def main():
    text = "".join(line + "\n" for line in lines())
    if sys.argv[1:] == ["--write"]:
        root = os.path.dirname(os.path.dirname(os.path.abspath(__file__)))
        with open(os.path.join(root, "crates", "random_tables", "stdout"), "w", encoding="ascii") as file:
            file.write(text)
    else:
        sys.stdout.write(text)


if __name__ == "__main__":
    main()
