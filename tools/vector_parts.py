"""Cases of the operations by strata that look random: strata with their starts and errors, one stratum beside the plain operations, long ledgers."""

import reference_strata
from reference import MOST_VALUE, Refusal
from vector_forms import Draw, Project, Split, StrataDraw, StrataPlan, StrataProject
from vector_ledgers import interval_of, legal_ledger, random_draws, starts_for
from vector_lists import MOST_WORD, Generated, equal, listed


def intervals_of(values, counts, n):
    """The interval of each stratum, or 0 where the plan is refused."""
    answer = reference_strata.strata_plan(values, counts, n)
    return [0] * len(counts) if isinstance(answer, Refusal) else [row.interval for row in answer.rows]


def random_strata(r, most):
    """Values and counts of up to so many strata, some without value and some without lines; not all are."""
    while True:
        parts = [r.one_of([legal_ledger(r)[1][:12]] * 4 + [[0] * r.between(1, 3), []]) for _ in range(r.between(1, most))]
        values = [value for part in parts for value in part]
        if sum(values) > 0:
            return values, [len(part) for part in parts]


def with_value(values, counts):
    return sum(sum(part) > 0 for part in reference_strata.parts_of(counts, values))


def draws_for(r, values, counts):
    """Enough draws, mostly."""
    least = with_value(values, counts)
    return r.one_of([least, least + 1, least + r.below(9), least + r.below(2 * len(values)), random_draws(r, values), r.between(least, sum(values) + least), MOST_WORD])


def fitting_starts(r, values, counts, n):
    """A legal start for each stratum, mostly."""
    starts = [r.below(max(1, interval)) for interval in intervals_of(values, counts, n)]
    if r.chance(30):
        h = r.below(len(counts))
        starts[h] = starts_for(r, intervals_of(values, counts, n)[h])
    return starts


def entered(r, values, counts, n, starts):
    """Errors of both kinds on full and drawn lines."""
    marks = [0] * len(values)
    reference_strata.strata_draw(values, counts, n, starts, marks)
    sizes = [r.one_of([value, r.between(0, value), min(1, value), 0]) if mark else 0 for mark, value in zip(marks, values)]
    return [r.one_of([1, -1]) * size for size in sizes], marks


def each_way(values, counts, n, starts, errors, marks=None):
    """One set of inputs as each operation takes it."""
    ledger = listed(values)
    yield StrataPlan(ledger, counts, n)
    yield StrataDraw(ledger, counts, n, starts, len(values) if marks is None else marks)
    yield StrataProject(ledger, listed(errors), counts, n, starts)


def random_cases(r):
    for most, times in (3, 25), (8, 25), (32, 8):
        for _ in range(times):
            values, counts = random_strata(r, most)
            n = draws_for(r, values, counts)
            starts = fitting_starts(r, values, counts, n)
            yield from each_way(values, counts, n, starts, entered(r, values, counts, n, starts)[0])


def spoiled_errors(r):
    """Errors of random strata with one or two that are refused."""
    for _ in range(40):
        values, counts = random_strata(r, 6)
        n = with_value(values, counts) + r.below(9)
        starts = [r.below(max(1, interval)) for interval in intervals_of(values, counts, n)]
        errors, marks = entered(r, values, counts, n, starts)
        for _ in range(r.between(1, 2)):
            line = r.below(len(values))
            errors[line] = r.one_of([values[line] + 1, -values[line] - 1] + [1, -1] * (marks[line] == 0))
        yield StrataProject(listed(values), listed(errors), counts, n, starts)


def one_stratum(r):
    """One stratum beside the plain operations, and among strata without value."""
    for _ in range(10):
        ledger, values = legal_ledger(r)
        n, lines = random_draws(r, values), len(values)
        start = starts_for(r, interval_of(values, n))
        errors = listed(entered(r, values, [lines], n, [start])[0])
        yield from (Split(ledger, n, lines), StrataPlan(ledger, [lines], n), StrataPlan(ledger, [0, lines, 0], n))
        yield from (Draw(ledger, n, start, lines), StrataDraw(ledger, [lines], n, [start], lines))
        yield from (Project(ledger, errors, n, start), StrataProject(ledger, errors, [lines], n, [start]))


def wide_intervals(r):
    """Strata whose interval passes 32 bits, with errors of both kinds."""
    for _ in range(15):
        parts = [[r.between(1, r.one_of([10**4, 10**10, MOST_VALUE])) for _ in range(r.between(1, 9))] for _ in range(r.between(1, 9))]
        values, counts = [value for part in parts for value in part], [len(part) for part in parts]
        n = len(counts) + r.below(len(values))
        starts = [r.one_of([0, max(1, interval) - 1, r.below(max(1, interval))]) for interval in intervals_of(values, counts, n)]
        yield from each_way(values, counts, n, starts, entered(r, values, counts, n, starts)[0])


def long_strata(r):
    """Long ledgers in 32 strata and in 3, with some errors."""
    for lines, n in (2_000, 300), (100_000, 2_000):
        ledger = Generated(lines, r.below(2**32), 100, 50_000, 7, tuple((r.below(lines), r.between(10**6, 10**9)) for _ in range(20)))
        values = ledger.expand()
        for counts in [lines // 32] * 31 + [lines - 31 * (lines // 32)], [7, 0, lines - 7]:
            starts = [r.below(max(1, interval)) for interval in intervals_of(values, counts, n)]
            errors, _ = entered(r, values, counts, n, starts)
            kept = [error if r.chance(9) else 0 for error in errors]
            yield StrataPlan(ledger, counts, n)
            yield StrataDraw(ledger, counts, n, starts, lines)
            yield StrataProject(ledger, listed(kept), counts, n, starts)
    for lines in 1_000_000, 1_000_001:  # 30, then 2, before 13
        for counts in [lines - 1, 1], [lines, 1]:
            yield StrataDraw(equal(lines, 3), counts, 2, [0], 0)


def parts_cases(r):
    for way in random_cases(r), spoiled_errors(r), one_stratum(r), wide_intervals(r), long_strata(r):
        yield from way
