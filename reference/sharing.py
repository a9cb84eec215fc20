#!/usr/bin/env python3
"""What crates/vectors must print, from the rules of docs/SHARING.md alone.

It works with sets of places and shares no code, table or formula with the library: a share belongs to each set of units
that leaves out t - 1 of them. `python3 reference/sharing.py` writes crates/vectors/stdout.
"""
from itertools import combinations
from math import comb

INPUTS = range(256)


class Checksum:
    def __init__(self):
        self.value = 0

    def add(self, x):
        self.value = (self.value * 31 + x) % 2**32


def refused(number):
    return 1000 + number


def checksum(numbers):
    total = Checksum()
    for x in numbers:
        total.add(x)
    return total.value


def lawful(n, t):
    return 2 <= t <= n <= 8


def places(group):
    return frozenset(i + 1 for i in range(8) if group >> i & 1)


def group_of(units):
    return sum(2 ** (p - 1) for p in units)


def masks(sets):
    rank = {group_of(units): j for j, units in enumerate(sets)}
    for x in INPUTS:
        yield group_of(sets[x]) if x < len(sets) else refused(71)
        yield rank.get(x, refused(72))


def units(sets):
    for place in INPUTS:
        for j in INPUTS:
            has = j < len(sets) and place in sets[j]
            yield int(has)
            yield 16 * j if has else 1_000_000


def split(n, t, sets):
    for group in INPUTS:
        members = places(group)
        quorum = len(members) == t and max(members) <= n
        for j in INPUTS:
            if not quorum:
                yield refused(74)
            elif j >= len(sets):
                yield refused(71)
            else:
                yield min(members & sets[j])


def equal(n, sets):
    held = {g: frozenset(j for j, s in enumerate(sets) if places(g) & s) for g in range(2**n)}
    for a in INPUTS:
        for b in INPUTS:
            yield int(held[a] == held[b]) if a in held and b in held else refused(73)


def main():
    binomials = checksum(comb(a, b) if a <= 8 else refused(11) for a in INPUTS for b in INPUTS)
    parameters = checksum(comb(n, t - 1) if lawful(n, t) else refused(11) for n in INPUTS for t in INPUTS)
    print(f"sharing binomials {binomials} parameters {parameters}")
    for n in range(2, 9):
        for t in range(2, n + 1):
            everyone = frozenset(range(1, n + 1))
            sets = sorted((everyone - frozenset(c) for c in combinations(everyone, t - 1)), key=group_of)
            print(
                f"sharing {n} {t} masks {checksum(masks(sets))} units {checksum(units(sets))}"
                f" split {checksum(split(n, t, sets))} equal {checksum(equal(n, sets))}"
            )


main()
