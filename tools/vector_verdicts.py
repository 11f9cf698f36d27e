"""Judgements at the edges of the verdict: TE at the projected error and at the upper limit, and a cent to each side of both."""

import reference
from reference import EF, MOST_VALUE, Refusal
from vector_forms import Judge
from vector_lists import equal, listed


def verdict_edges(level, ledger, errors, n, first_point):
    """TE at the projected error and at the upper limit, and one to each side."""
    values = ledger.expand()
    answer = reference.judge(level, values, n, first_point, errors, sum(values))
    if isinstance(answer, Refusal):
        yield sum(values)
        return
    projected_error = answer.full_sum + answer.sampled_sum
    for edge in projected_error, answer.upper_limit:
        yield from (te for te in (edge - 1, edge, edge + 1) if te >= 0)


def errors_of_first(ledger, *first):
    """These errors on the first lines, and none on the others."""
    return [*first, *[0] * (ledger.count - len(first))]


def verdict_ledgers():
    """Ledger, errors, n, start: with full lines and without, with no interval, no error, 63 errors, and intervals up to 10^15 / 40."""
    yield listed([30, 30, 40, 20]), [7, 0, 10, 5], 3, 25
    yield listed([500, 120, 0, 80, 300]), [5, 2, 0, 3, 0], 4, 10
    yield listed([10, 30, 0]), [4, 0, 0], 9, 0  # every line with value is full: the limit is the projected error
    clean, many = equal(100, 1_000), equal(64, 10)
    yield clean, errors_of_first(clean), 62, 945  # no error: the limit is the precision
    yield many, errors_of_first(many, *[1] * 63), 64, 0
    for value in 2**32 - 1, 2**32, MOST_VALUE:  # each line is drawn: error × interval of 64 bits and more
        ledger = equal(60, value)
        yield ledger, errors_of_first(ledger, value, 1, value // 3), 60, value - 1
    falling = listed([MOST_VALUE - 7 * line for line in range(100)])
    for n in 90, 40:  # an interval above every value: the first line is drawn
        yield falling, errors_of_first(falling, 123_456_789_012), n, 0


def verdict_cases():
    for ledger, errors, n, first_point in verdict_ledgers():
        for level in EF:
            for te in sorted(set(verdict_edges(level, ledger, errors, n, first_point))):
                yield Judge(level, ledger, listed(errors), n, first_point, te)
