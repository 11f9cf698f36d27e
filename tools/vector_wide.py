"""The cases of wide intervals, from 4,000,000,001 to 10^15."""

import math

from reference import EF, MOST_INTERVAL, MOST_VALUE
from vector_errors import errors_found
from vector_forms import Draw, Judge, Project, Split, Start
from vector_ledgers import BASE_INTERVAL, WIDE, interval_of, starts_for
from vector_lists import MOST_WORD, listed


def wide_ledgers(r):
    """A ledger whose only draw has this interval, its first line's value and an error there: products of 65 to 94 bits, whose amounts are even, one above and one below."""
    for bits in range(65, 95):
        for _ in range(3):
            interval = r.between(max(WIDE, 2 ** (bits - 1) // MOST_VALUE + 1), MOST_INTERVAL)
            value = r.between(min(interval, MOST_VALUE, 2 ** (bits - 1) // interval + 1), min(interval, MOST_VALUE))
            error = min(value, r.between(2 ** (bits - 1) // interval + 1, 2**bits // interval))
            while math.gcd(error, value) > 1:
                error -= 1
            for left in 0, 1, value - 1:
                even = interval - interval % value + left * pow(error, -1, value) % value if value > 1 else interval
                if value <= even <= MOST_INTERVAL:
                    yield value, error, even
    for interval in BASE_INTERVAL + 1, WIDE - 1, WIDE, WIDE + 1, 10**11, MOST_VALUE, MOST_INTERVAL - 1, MOST_INTERVAL:
        for value in 1, interval // 3, min(interval, MOST_VALUE) - 1, min(interval, MOST_VALUE):
            for error in sorted({1, (value + 1) // 2, value - 1, value}):
                if 0 <= error <= value <= MOST_VALUE:
                    yield value, error, interval


def filled(value, total):
    """A ledger of this total that begins with this value."""
    values = [value]
    while total > sum(values):
        values.append(min(MOST_VALUE, total - sum(values)))
    return values


def wide_cases(r):
    """Intervals from 4,000,000,001 to 10^15."""
    for value, error, interval in wide_ledgers(r):
        values = filled(value, interval)
        yield Project(listed(values), listed([error] + [0] * (len(values) - 1)), 1, r.one_of([0, value - 1]))
        if r.chance(20):
            yield Judge(r.one_of(list(EF)), listed(values), listed([error] + [0] * (len(values) - 1)), 1, 0, r.between(1, interval))
            yield Split(listed(values), 1, len(values))
            yield Draw(listed(values), 1, r.below(interval), len(values))
    for interval in 2**49, 2**49 + 1, MOST_INTERVAL - 1, MOST_INTERVAL, MOST_INTERVAL + 1:
        for word in 0, interval - 1, interval, 2**50 - 1, 2**50 + interval - 1:
            yield Start(interval, listed([word]))
            yield Start(interval, listed([MOST_WORD, word]))
    for _ in range(100):
        count = r.between(1, 40)
        values = [r.between(0, MOST_VALUE) for _ in range(count)] + [1]
        n = r.between(1, count)
        first_point = starts_for(r, interval_of(values, n))
        errors = errors_found(r, values, n, first_point)[0]
        yield Project(listed(values), listed(errors), n, first_point)
        yield Judge(r.one_of(list(EF)), listed(values), listed(errors), n, first_point, r.between(1, sum(values)))
