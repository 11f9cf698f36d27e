"""The cases of the projected lines: those of the projection, each with a room for the amounts, and rooms of another length."""

from vector_errors import long_errors, projected_cases, projected_edges
from vector_forms import Lines
from vector_lists import MOST_ERROR, MOST_WORD, equal, listed
from vector_wide import filled, wide_ledgers


def beside(r, count):
    """The length of the room: the ledger's, and now and then another."""
    return r.one_of([count] * 12 + [0, max(0, count - 1), count + 1, 2 * count])


def lengths_differ():
    """13 for the errors alone, the amounts alone and both, after 2 and before all else; and no lines at all."""
    for lines, errors, amounts in (4, 3, 4), (4, 4, 3), (4, 4, 5), (4, 5, 5), (4, 3, 5), (4, 0, 0), (0, 0, 0), (0, 1, 0), (0, 0, 1):
        for value in 30, MOST_WORD:
            yield Lines(equal(lines, value), equal(errors, MOST_ERROR), 0, MOST_WORD, amounts)
            yield Lines(equal(lines, value), equal(errors), 3, 0, amounts)


def lines_cases(r):
    yield from lengths_differ()
    for ledger, errors, n, first_point in projected_edges(r):
        yield Lines(ledger, listed(errors), n, first_point, ledger.count)
    for ledger, errors, n, first_point in projected_cases(r, 250, 90):
        yield Lines(ledger, listed(errors), n, first_point, beside(r, ledger.count))
    for ledger, errors, n, first_point in long_errors(r):
        yield Lines(ledger, errors, n, first_point, ledger.count)
    for value, error, interval in wide_ledgers(r):
        if r.chance(25):
            values = filled(value, interval)
            yield Lines(listed(values), listed([error] + [0] * (len(values) - 1)), 1, r.one_of([0, value - 1]), len(values))
