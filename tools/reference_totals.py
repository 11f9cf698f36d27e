"""Totals beside the ledger (document 02, K1): a summary of lent room, with one total for every 256 entries, over lines in use, then the grand total.

It is written from the request, on the refusals of tools/reference.py. Building, changing a line and appending one keep the summary right; the total and
the line that holds a cent follow from its figures as they stand; the check names the first that is wrong.
"""

from itertools import accumulate
from typing import NamedTuple

from reference import MOST_LINES, MOST_TOTAL, MOST_VALUE, Refused, divide_up, lines_total, operation

PER_BLOCK = 256
MOST_FIGURE = 2**64 - 1


class Total(NamedTuple):
    total: int


class Line(NamedTuple):
    line: int


class Count(NamedTuple):
    count: int


class Checked(NamedTuple):
    """Whether a figure is wrong, and the first block whose figure is; the grand total counts as one more."""

    wrong: int
    block: int


def blocks_of(room):
    return divide_up(len(room), PER_BLOCK)


def check_shape(room, count, summary, most=MOST_LINES):
    if count > most:
        raise Refused(2, 0)
    if count > len(room):
        raise Refused(13, 0)
    if len(summary) != blocks_of(room) + 1:
        raise Refused(21, 0)


def right_summary(room, count):
    """What the summary has to be."""
    used = room[:count]
    return [sum(used[first : first + PER_BLOCK]) for first in range(0, len(room), PER_BLOCK)] + [sum(used)]


@operation
def build(room, count, summary):
    check_shape(room, count, summary)
    total = lines_total(room[:count])
    summary[:] = right_summary(room, count)
    return Total(total)


@operation
def total(room, count, summary):
    """The grand total as it stands."""
    check_shape(room, count, summary)
    return Total(summary[-1])


@operation
def find(room, count, summary, cent):
    """The line that holds a cent: the first block whose figure reaches past it, then the first line of that block that does."""
    check_shape(room, count, summary)
    if cent >= summary[-1]:
        raise Refused(20, 0)
    ends = list(accumulate(summary[:-1]))
    for block, end in enumerate(ends):
        if cent < end:
            rest = cent - (end - summary[block])
            first = block * PER_BLOCK
            for line, end in enumerate(accumulate(room[first : min(count, first + PER_BLOCK)]), first):
                if rest < end:
                    return Line(line)
            raise Refused(31, block)
    raise Refused(31, len(ends))


@operation
def check(room, count, summary):
    check_shape(room, count, summary)
    lines_total(room[:count])
    for block, (figure, right) in enumerate(zip(summary, right_summary(room, count))):
        if figure != right:
            return Checked(1, block)
    return Checked(0, 0)


def check_value(line, value, grand):
    """A new value and the grand total that it makes; one that falls below 0 is not above its limit."""
    if value > MOST_VALUE:
        raise Refused(3, line)
    if grand > MOST_TOTAL:
        raise Refused(4, line)


def check_figures(block, figure, blocks, grand):
    """The figure of the line's block first, then the grand total."""
    for place, new in (block, figure), (blocks, grand):
        if not 0 <= new <= MOST_FIGURE:
            raise Refused(31, place)


@operation
def change(room, count, summary, line, value):
    check_shape(room, count, summary)
    if line >= count:
        raise Refused(20, 0)
    block, more = line // PER_BLOCK, value - room[line]
    figure, grand = summary[block] + more, summary[-1] + more
    check_value(line, value, grand)
    check_figures(block, figure, blocks_of(room), grand)
    room[line], summary[block], summary[-1] = value, figure, grand
    return Total(grand)


@operation
def append(room, count, summary, value):
    check_shape(room, count, summary, MOST_LINES - 1)
    check_value(count, value, summary[-1] + value)
    if count == len(room):
        raise Refused(18, count + 1)
    block = count // PER_BLOCK
    figure, grand = summary[block] + value, summary[-1] + value
    check_figures(block, figure, blocks_of(room), grand)
    room[count], summary[block], summary[-1] = value, figure, grand
    return Count(count + 1)
