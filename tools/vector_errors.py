"""Errors for the ledgers of the cases: those of a projection and of a judgement."""

import reference
import self_test
from vector_ledgers import BASE_INTERVAL, broken_ledgers, interval_of, legal_ledger, long_ledgers, random_draws, split_ledgers, starts_for
from vector_lists import MOST_ERROR, MOST_WORD, Generated, equal, listed


def errors_found(r, values, n, first_point, share=60):
    """Errors on some of the full and drawn lines."""
    marks = bytearray(len(values))
    reference.draw(values, n, first_point, marks)
    found = [0] * len(values)
    for line, mark in enumerate(marks):
        if mark and r.chance(share):
            found[line] = r.one_of([values[line], r.between(0, values[line]), min(1, values[line])])
    return found, marks


def spoiled(r, values, errors, marks):
    """Errors that 14, 15 or both refuse, as far as the lines allow."""
    errors, ways = list(errors), r.one_of([[14], [15], [15], [14, 15]])
    not_drawn = [line for line, mark in enumerate(marks) if mark == 0 and values[line] > 0]
    if 14 in ways or not not_drawn:
        line = r.below(len(values))
        errors[line] = r.one_of([values[line] + 1, MOST_ERROR])
    if 15 in ways and not_drawn:
        line = r.one_of(not_drawn)
        errors[line] = r.one_of([1, values[line]])
    return errors


def projected_cases(r, many, few):
    """Ledger, errors, n, start: legal ones, then some that are refused."""
    for _ in range(many):
        ledger, values = legal_ledger(r)
        n = random_draws(r, values)
        first_point = starts_for(r, interval_of(values, n))
        yield ledger, errors_found(r, values, n, first_point)[0], n, first_point
    for _ in range(few):
        ledger, values = legal_ledger(r)
        n = r.one_of([1, 2, 3, random_draws(r, values)])
        first_point = starts_for(r, interval_of(values, n))
        yield ledger, spoiled(r, values, *errors_found(r, values, n, first_point)), n, first_point
    for _ in range(few // 3):
        ledger, values = legal_ledger(r)
        n, length = r.one_of([0, 2, MOST_WORD]), r.one_of([0, len(values), len(values) + 1])
        yield ledger, [MOST_ERROR] * length, n, r.one_of([0, interval_of(values, n), MOST_WORD])


def projected_edges(r):
    """The practice ledger at every start, the edges of the split, and broken ledgers."""
    for first_point in range(41):
        errors = self_test.errors_entered([30, 30, 40, 20], 3, first_point, [7, 0, 10, 5])
        yield listed([30, 30, 40, 20]), errors, 3, first_point
    yield listed([30, 30, 40, 20]), [7, 0, 10, 5], 3, 0
    for values, n in split_ledgers():
        for first_point in sorted({0, max(1, interval_of(values, n)) - 1}):
            yield listed(values), errors_found(r, values, n, first_point, 90)[0], n, first_point
    for values in broken_ledgers():
        yield listed(values), [MOST_ERROR] * len(values), 0, 7
        yield listed(values), [0] * (len(values) + 1), 3, 0
    whole = [BASE_INTERVAL, BASE_INTERVAL - 1, 1, BASE_INTERVAL]
    yield listed(whole), whole, 3, BASE_INTERVAL - 1
    yield listed(whole[:2] + whole[3:]), whole[:2] + whole[3:], 3, 0


def long_errors(r):
    """Long ledgers with few errors, and with an error on nearly every line."""
    for ledger, n in long_ledgers(r):
        values = ledger.expand()
        first_point = r.below(max(1, interval_of(values, n)))
        for share in 1, 5, 50 if ledger.count == 1_000 else 3:
            yield ledger, listed(errors_found(r, values, n, first_point, share)[0]), n, first_point
    for n in 1_999, 2_000, 2_001:
        for errors in Generated(2_000, 4, 0, 300, 1), equal(2_000, 300), equal(2_000, 1, ((1_999, 301),)):
            yield equal(2_000, 300), errors, n, 0
