"""The cases of errors with a sign: overstatements and understatements on full, drawn and other lines."""

import reference
from reference import DRAWN, EF, FULL, MOST_INTERVAL, MOST_VALUE
from vector_errors import long_errors, projected_cases, projected_edges
from vector_forms import Judge, Lines, Project
from vector_ledgers import BASE_INTERVAL, WIDE, interval_of, legal_ledger, random_draws, starts_for
from vector_lists import LEAST_ERROR, MOST_ERROR, equal, listed
from vector_wide import filled, wide_ledgers

PRACTICE = [30, 30, 40, 20]


def both_kinds(r, errors):
    """The same errors, each with a sign of its own; now and then all understated."""
    signs = r.one_of([[-1], [1, -1], [1, -1, -1]])
    return [r.one_of(signs) * error for error in errors]


def of_every_kind(value):
    """Errors at the edges of a line: nothing, a cent, the value, a cent beyond it, and the ends of the list's own range."""
    sizes = 1, value - 1, value, value + 1
    return sorted({0, *sizes, *(-size for size in sizes), MOST_ERROR, LEAST_ERROR, LEAST_ERROR + 1})


def three_ways(r, values, errors, n, first_point, te=None):
    """One projection as each operation that makes it answers it."""
    ledger, found = listed(values), listed(errors)
    yield Project(ledger, found, n, first_point)
    yield Lines(ledger, found, n, first_point, len(values))
    yield Judge(r.one_of(list(EF)), ledger, found, n, first_point, te or max(1, sum(values) // 3))


def single_errors(r):
    """One error of every kind on every line of the practice ledger, and beside full lines."""
    for values, n, first_point in (PRACTICE, 3, 25), ([500, 120, 0, 80, 300], 4, 79), ([10], 2, 0):
        for line, value in enumerate(values):
            for error in of_every_kind(value):
                errors = [0] * line + [error] + [0] * (len(values) - line - 1)
                yield from three_ways(r, values, errors, n, first_point)


def wrong_pairs(r):
    """Two errors that are refused: 14 and 15 line by line, whatever the signs."""
    spoiled = {0: (-31, 31, LEAST_ERROR), 1: (-1, 1, -31, MOST_ERROR), 2: (-41, 7), 3: (-20, -21)}
    for first in range(4):
        for second in range(first, 4):
            for former in spoiled[first]:
                for latter in spoiled[second]:
                    errors = [0] * 4
                    errors[first], errors[second] = former, latter
                    yield from three_ways(r, PRACTICE, errors, 3, 25)


def nets(r):
    """Nets below, at and above 0, of full lines, of drawn ones and of both: the practice ledger's and beside a grant."""
    for errors in [7, 0, -10, 5], [-7, 0, -10, 5], [-7, 0, 10, -5], [-7, 0, -10, -5], [30, 0, -40, 20], [-30, 0, -40, -20], [3, 0, -4, 0]:
        yield from three_ways(r, PRACTICE, errors, 3, 25)
    for errors in [20, -8, 0, 0, -12], [-500, -120, 0, -80, -300], [500, 120, 0, 80, 300], [-9, 0, 0, 9, 0], [1, 0, 0, -1, 0], [-1, 0, 0, 1, 0], [0, 0, 0, -1, 0]:
        yield from three_ways(r, [500, 120, 0, 80, 300], errors, 4, 79)


def verdicts():
    """TE at the overstatements' projected error, at the net's size and at the limit, and one to each side."""
    for level in EF:
        for errors in [7, 0, -40, 5], [-30, 0, 10, 5], [-7, 0, -10, -5], [30, 0, -40, -20]:
            found = reference.judge(level, PRACTICE, 3, 25, errors, 120)
            for edge in sorted({found.full_sum + found.sampled_sum, abs(found.net), found.upper_limit}):
                for te in edge - 1, edge, edge + 1:
                    if te >= 0:
                        yield Judge(level, listed(PRACTICE), listed(errors), 3, 25, te)


def counted(r):
    """62, 63 and 64 drawn lines overstated, among as many and more that are understated and do not count."""
    for m in 0, 62, 63, 64:
        for under in 1, 64, 200:
            errors = [1] * m + [-10] * under
            for place in range(0, m, 3):
                errors[place], errors[-1 - place // 3] = errors[-1 - place // 3], errors[place]
            yield from three_ways(r, [10] * len(errors), errors, len(errors), 0, 10 * len(errors))
    for m in 63, 64:
        last = equal(m + 1, 1, ((m, -11),))
        yield Judge(90, equal(m + 1, 10), last, m + 1, 0, 20)  # 14 before 16, by size
        yield Judge(90, equal(m + 2, 10, ((m + 1, 1_000),)), equal(m + 2, 1, ((m, -1), (m + 1, -1_000))), m + 2, 0, 900)


def wide_signed(r):
    """Understatements where size times interval passes 64 bits."""
    for value, error, interval in wide_ledgers(r):
        if r.chance(25):
            values = filled(value, interval)
            errors = [-error] + [0] * (len(values) - 1)
            yield Project(listed(values), listed(errors), 1, r.one_of([0, value - 1]))
            yield Lines(listed(values), listed(errors), 1, r.one_of([0, value - 1]), len(values))
    for interval in BASE_INTERVAL, BASE_INTERVAL + 1, WIDE - 1, WIDE, 10**11, MOST_VALUE, MOST_INTERVAL - 1, MOST_INTERVAL:
        value = min(interval, MOST_VALUE)
        values = filled(value, interval)
        for error in -1, 1 - value, -value, -value - 1, value - 1:
            yield from three_ways(r, values, [error] + [0] * (len(values) - 1), 1, 0, interval)
    for _ in range(60):
        values = [r.between(0, MOST_VALUE) for _ in range(r.between(1, 40))] + [1]
        n = r.between(1, len(values))
        yield from entered(r, values, n, starts_for(r, interval_of(values, n)))


def entered(r, values, n, first_point):
    """Errors of both kinds on full and drawn lines, and beside them now and then one that is refused."""
    marks = [0] * len(values)
    reference.draw(values, n, first_point, marks)
    errors = [0] * len(values)
    for line, mark in enumerate(marks):
        if mark in (DRAWN, FULL) and r.chance(70):
            errors[line] = r.one_of([1, -1]) * r.one_of([values[line], r.between(0, values[line]), min(1, values[line])])
    if r.chance(15):
        line = r.below(len(values))
        errors[line] = r.one_of([-1, values[line] + 1, -values[line] - 1, LEAST_ERROR, MOST_ERROR, -values[line]])
    yield from three_ways(r, values, errors, n, first_point)


def signed_cases(r):
    for way in single_errors(r), wrong_pairs(r), nets(r), verdicts(), counted(r), wide_signed(r):
        yield from way
    for ledger, errors, n, first_point in projected_edges(r):
        yield Project(ledger, listed(both_kinds(r, errors)), n, first_point)
    for ledger, errors, n, first_point in projected_cases(r, 150, 60):
        yield Lines(ledger, listed(both_kinds(r, errors)), n, first_point, ledger.count)
    for ledger, errors, n, first_point in long_errors(r):
        turned = listed(both_kinds(r, errors.expand()))
        if ledger.count <= 10_000 and len(turned.changes) <= 300:
            yield Project(ledger, turned, n, first_point)
            yield Judge(r.one_of(list(EF)), ledger, turned, n, first_point, sum(ledger.expand()) // 50)
    for _ in range(200):
        _, values = legal_ledger(r)
        n = random_draws(r, values)
        yield from entered(r, values, n, starts_for(r, interval_of(values, n)))
