"""The attribute job aid of document 000 (document 02, K10): the sample size of a control test, and the upper bound on its exceptions.

It is written from the request and shares nothing with the proved program: each answer is searched for, in whole numbers.
"""

from functools import lru_cache
from math import comb
from typing import NamedTuple

from reference import Refused, operation, text_line

LEVELS = 90, 95, 99
TOLERANCES = 1, 3, 5, 7, 10
MOST_EXCEPTIONS = 10
# The hundredths of a percent in the whole.
WHOLE = 10_000


def enough(level, tolerance, items):
    """Whether the chance of no exception among the items, where the tolerance is reached, is at most (100 - level) percent."""
    return (100 - tolerance) ** items * 100 <= (100 - level) * 100 ** items


def unlikely(level, items, exceptions, share, whole=WHOLE):
    """Whether the binomial chance of so few exceptions, where that share of the whole are, is at most (100 - level) percent."""
    so_few = sum(comb(items, i) * share ** i * (whole - share) ** (items - i) for i in range(exceptions + 1))
    return so_few * 100 <= (100 - level) * whole ** items


@lru_cache(maxsize=None)
def least_items(level, tolerance):
    """The first of 0, 1, 2 and so on that is enough."""
    items = 0
    while not enough(level, tolerance, items):
        items += 1
    return items


@lru_cache(maxsize=None)
def least_bound(level, items, exceptions):
    """The least share, by halves: where it is unlikely at a share, it is at every larger one."""
    low, high = -1, WHOLE
    while high - low > 1:
        middle = (low + high) // 2
        low, high = (low, middle) if unlikely(level, items, exceptions, middle) else (middle, high)
    return high


class Items(NamedTuple):
    items: int


class Bound(NamedTuple):
    hundredths: int


def known(level, tolerance):
    if level not in LEVELS:
        raise Refused(1, 0)
    if tolerance not in TOLERANCES:
        raise Refused(25, 0)


@operation
def attribute_size(level, tolerance):
    """The number of items."""
    known(level, tolerance)
    return Items(least_items(level, tolerance))


@operation
def attribute_bound(level, tolerance, exceptions):
    """The upper bound in hundredths of a percent, for a sample of the size that the level and the tolerance have."""
    known(level, tolerance)
    if exceptions > MOST_EXCEPTIONS:
        raise Refused(26, 0)
    return Bound(least_bound(level, least_items(level, tolerance), exceptions))


def statement(level, tolerance, exceptions):
    """The confidence statement in figures, or the line of the first refusal."""
    bound = attribute_bound(level, tolerance, exceptions)
    if not isinstance(bound, Bound):
        return text_line("refused", *bound)
    percent = f"{bound.hundredths // 100}.{bound.hundredths % 100:02}"
    return text_line("statement", *attribute_size(level, tolerance), exceptions, percent)
