"""The ledgers of the cases: small ones that look random, long ones, those at the edges of the split, and broken ones."""

import reference
from reference import MOST_VALUE, Refusal
from vector_lists import MOST_WORD, Generated, equal, listed

# The largest interval before document 02's K4; at 2^32 and above error × interval may pass 64 bits.
BASE_INTERVAL = 4_000_000_000
WIDE = 2**32


def random_ledger(r):
    """A small legal ledger."""
    most = r.one_of([1, 5, 60, 1_000, 10**6, 10**9, BASE_INTERVAL])
    if r.chance(50):
        changes = tuple((place, r.between(0, 9 * most)) for place in range(0, r.between(0, 4)))
        return generated_ledger(r, r.between(max(1, len(changes)), 60), most, changes)
    values = [r.between(0, most) for _ in range(r.between(1, 9))]
    for _ in range(r.between(0, 2)):
        values[r.below(len(values))] = r.one_of([0, r.between(0, 20 * most), values[0]])
    return listed(values)


def generated_ledger(r, count, most, changes=()):
    scale = max(1, most // 10_000)
    low = r.one_of([0, 0, 1, min(most, 2**32 - 1)])
    return Generated(count, r.below(2**32), low, min(most, 10_000), scale, changes)


def legal_ledger(r):
    """A ledger and its values, not all 0."""
    while True:
        ledger = random_ledger(r)
        values = ledger.expand()
        if sum(values) > 0:
            return ledger, values


def random_draws(r, ledger):
    return r.one_of([1, 2, 3, r.between(1, 2 * len(ledger)), len(ledger), r.between(1, sum(ledger))])


def long_ledgers(r):
    """Long ledgers with a number of draws: small claims with large grants among them, or equal values."""
    for count, n in (1_000, 116), (3_000, 150), (10_000, 400), (100_000, 2_000):
        grants = tuple((r.below(count), r.between(10**6, 10**9)) for _ in range(40))
        yield Generated(count, r.below(2**32), 100, 50_000, 7, grants), n
    yield equal(2_000, 300), 1_999
    yield equal(2_000, 300), 2_000
    yield equal(2_000, 300), 2_001
    yield Generated(2_000, 9, 0, 1, 1), 30


def split_ledgers():
    """Ledgers and draws at the edges of the split."""
    yield [500, 120, 0, 80, 300], 4
    yield [10], 2
    yield [30, 30, 40, 20], 3
    for n in 1, 2, 10, 11, 31, 32, 1_000, MOST_WORD:
        yield [2**k for k in range(31)], n  # a round for nearly every line
        yield [3**k for k in range(19, -1, -1)], n
        yield [7] * 10, n
        yield [0, 0, 1], n
    for extra in -1, 0, 1:
        yield [BASE_INTERVAL + extra], 1
        yield [BASE_INTERVAL + extra, BASE_INTERVAL + extra], 2
        yield [BASE_INTERVAL, BASE_INTERVAL + extra], 2
        yield [1, BASE_INTERVAL + extra, 0, MOST_VALUE], 2
        yield [2 * BASE_INTERVAL + extra, 0, 1], 2
    yield [MOST_VALUE] * 100, 100
    yield [MOST_VALUE] * 100, 250_000
    yield [MOST_VALUE] * 100, MOST_WORD
    yield [MOST_VALUE // 2_500] * 100, 100


def broken_ledgers():
    """Ledgers that 3, 4 or 5 refuse, or just do not."""
    yield []
    yield [0]
    yield [0] * 7
    for line in 0, 1, 4:
        for value in MOST_VALUE, MOST_VALUE + 1, MOST_WORD:
            yield [5] * line + [value] + [5] * (4 - line)
    for last in 0, 1, MOST_VALUE, MOST_VALUE + 1, MOST_WORD:
        yield [MOST_VALUE] * 100 + [last]
    yield [MOST_VALUE] * 99 + [MOST_VALUE - 1, 1]
    yield [MOST_VALUE] * 99 + [MOST_VALUE - 1, 2]
    yield [MOST_VALUE] * 100 + [0, 0, 1, MOST_VALUE + 1]
    yield [MOST_VALUE + 1, MOST_WORD]


def interval_of(values, n):
    """The final interval, or 0 where the split is refused."""
    answer = reference.split(values, n, bytearray(len(values)))
    return 0 if isinstance(answer, Refusal) else answer.interval


def starts_for(r, interval):
    """A legal start, mostly."""
    if interval == 0:
        return r.one_of([0, 0, 0, 1])
    return r.one_of([0, interval - 1, r.below(interval), r.below(interval), r.below(interval)])
