"""The operations by strata (document 02, K6): a ledger in programmes, each its own ledger with its own split and start.

It is written from the request, on the steps of tools/reference.py. Strata come as line counts in ledger order, with a start for each; lines and
errors keep their numbers in the whole ledger. No precision, limit or verdict is given.
"""

import math
from fractions import Fraction
from typing import NamedTuple

from reference import (
    DRAWN, NOT_DRAWN, Draw, Refused, check_errors, check_start, finished_split, ledger_total, operation, projected, projection_of, states_after,
    write_marks,
)

MOST_STRATA = 32


class StratumPlan(NamedTuple):
    """A stratum's draws, and the five figures of its split."""

    draws: int
    interval: int
    draws_left: int
    sampled_total: int
    full_lines: int
    full_total: int


class StratumProjection(NamedTuple):
    """A stratum's draws, J, and both sums of each kind of error."""

    draws: int
    interval: int
    full_sum: int
    sampled_sum: int
    understated_full: int
    understated_sampled: int


class StrataPlan(NamedTuple):
    strata: int
    rows: list


class StrataProjection(NamedTuple):
    """How many strata; the projected error of each kind and the net, over all of them; and a row for each."""

    strata: int
    overstated: int
    understated: int
    net: int
    rows: list


NOTHING_TO_DRAW = StratumPlan(0, 0, 0, 0, 0, 0)


# ---- Shares ----


def shares(books, n):
    """Each stratum with book value gets one draw; the rest go in proportion, whole parts first, then by the largest remainders."""
    first = [1 if book > 0 else 0 for book in books]
    rest = n - sum(first)
    exact = [Fraction(rest * book, sum(books)) for book in books]
    whole = [math.floor(share) for share in exact]
    leftover = rest - sum(whole)
    by_remainder = sorted(range(len(books)), key=lambda h: (whole[h] - exact[h], h))
    favoured = set(by_remainder[:leftover])
    return [first[h] + whole[h] + (h in favoured) for h in range(len(books))]


# ---- What the three operations begin with ----


class Stratum(NamedTuple):
    """A stratum: its lines in ledger order, its row of the plan, and the rounds of its split where it has book value."""

    lines: list
    row: StratumPlan
    rounds: object


def parts_of(counts, entries):
    """The entries of each stratum."""
    ends = [sum(counts[: h + 1]) for h in range(len(counts))]
    return [entries[end - count : end] for count, end in zip(counts, ends)]


def split_stratum(lines, draws):
    """A stratum without book value gets no draw and has J 0."""
    if sum(lines) == 0:
        return Stratum(lines, NOTHING_TO_DRAW, None)
    figures, rounds = finished_split(lines, draws)
    return Stratum(lines, StratumPlan(draws, *figures), rounds)


def strata_of(ledger, counts, n, *beside, agree=True):
    """The strata of a legal ledger, each split for its share of the draws."""
    if not 1 <= len(counts) <= MOST_STRATA:
        raise Refused(22, 0)
    if sum(counts) != len(ledger):
        raise Refused(30, 0)
    ledger_total(ledger, *beside, agree=agree)
    if n == 0:
        raise Refused(8, 0)
    parts = parts_of(counts, ledger)
    books = [sum(part) for part in parts]
    if n < sum(book > 0 for book in books):
        raise Refused(23, 0)
    return [split_stratum(part, draws) for part, draws in zip(parts, shares(books, n))]


def started_strata(ledger, counts, n, starts, *beside):
    """The strata, and what each line of the whole ledger ends as; 11 names the first stratum whose start is wrong."""
    strata = strata_of(ledger, counts, n, *beside, agree=len(starts) == len(counts))
    for h, (stratum, start) in enumerate(zip(strata, starts)):
        check_start(start, stratum.row.interval, h)
    states = []
    for stratum, start in zip(strata, starts):
        states += [NOT_DRAWN] * len(stratum.lines) if stratum.rounds is None else states_after(stratum.lines, stratum.rounds, start)
    return strata, states


# ---- The operations ----


@operation
def strata_plan(ledger, counts, n):
    strata = strata_of(ledger, counts, n)
    return StrataPlan(len(strata), [stratum.row for stratum in strata])


@operation
def strata_draw(ledger, counts, n, starts, marks):
    _, states = started_strata(ledger, counts, n, starts, marks)
    write_marks(marks, states)
    return Draw(states.count(DRAWN))


def row_of(stratum, states, errors):
    """What a stratum projects, by its own interval."""
    interval = stratum.row.interval
    amounts = [projected(state, value, error, interval) for state, value, error in zip(states, stratum.lines, errors)]
    found = projection_of(states, amounts)
    sums = found.full_sum, found.sampled_sum, found.understated_full, found.understated_sampled
    return StratumProjection(stratum.row.draws, interval, *sums)


@operation
def strata_project(ledger, counts, n, starts, errors):
    strata, states = started_strata(ledger, counts, n, starts, errors)
    check_errors(ledger, errors, states)
    rows = [row_of(*one) for one in zip(strata, parts_of(counts, states), parts_of(counts, errors))]
    overstated = sum(row.full_sum + row.sampled_sum for row in rows)
    understated = sum(row.understated_full + row.understated_sampled for row in rows)
    return StrataProjection(len(rows), overstated, understated, overstated - understated, rows)
