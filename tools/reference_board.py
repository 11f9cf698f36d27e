"""The blackboard method (document 02, K12): the draw and the projection as a teacher walks them.

It is written from the request: for each drawing point, lines are counted off from the first until the point is covered. Of tools/reference.py it takes
the checks of a ledger and the split, and no more of the first method.
"""

from reference import DRAWN, FULL, NOT_DRAWN, Draw, Projection, Refused, divide_up, finished_split, ledger_total, operation


def split_for_walk(ledger, n, start):
    """The interval, and which lines are full; a walk begins at 0 or below the interval."""
    figures, rounds = finished_split(ledger, n)
    if start != 0 and start >= figures.interval:
        raise Refused(11, 0)
    return figures.interval, set(rounds.full)


def count_off(ledger, full, point):
    """The line at which counting off from the first stops: the point is covered. None where the row ends before it."""
    counted = 0
    for line, value in enumerate(ledger):
        if line in full:
            continue
        counted += value
        if point < counted:
            return line
    return None


def walk(ledger, full, interval, start):
    """The line at which the counting stops, point after point, until a point lies past the row."""
    point = start
    while (line := count_off(ledger, full, point)) is not None:
        yield line
        point += interval


def marks_by_walking(ledger, n, start):
    interval, full = split_for_walk(ledger, n, start)
    marks = [FULL if line in full else NOT_DRAWN for line in range(len(ledger))]
    for line in walk(ledger, full, interval, start):
        marks[line] = DRAWN
    return interval, marks


@operation
def board_draw(ledger, n, start, marks):
    ledger_total(ledger, marks)
    _, found = marks_by_walking(ledger, n, start)
    for line, mark in enumerate(found):
        marks[line] = mark
    return Draw(found.count(DRAWN))


@operation
def board_project(ledger, n, start, errors):
    ledger_total(ledger, errors)
    interval, marks = marks_by_walking(ledger, n, start)
    full, sampled, m = {1: 0, -1: 0}, {1: 0, -1: 0}, 0
    for line, (value, error, mark) in enumerate(zip(ledger, errors, marks)):
        size, kind = abs(error), 1 if error >= 0 else -1
        if size > value:
            raise Refused(14, line)
        if size > 0 and mark == NOT_DRAWN:
            raise Refused(15, line)
        if mark == FULL:
            full[kind] += size
        if mark == DRAWN:
            sampled[kind] += divide_up(size * interval, value)
            m += error > 0
    net = full[1] + sampled[1] - full[-1] - sampled[-1]
    return Projection(full[1], sampled[1], m, full[-1], sampled[-1], net)
