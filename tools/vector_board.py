"""The cases of the blackboard method (document 02, K12): draws and projections by walking, at every edge that the first method's cases have."""

from dataclasses import dataclass

import reference_board
from reference import MOST_VALUE
from vector_errors import projected_cases, projected_edges
from vector_forms import fields
from vector_ledgers import broken_ledgers, interval_of, legal_ledger, long_ledgers, random_draws, split_ledgers, starts_for
from vector_lists import MOST_WORD, listed, room_of_bytes, signed
from vector_signed import PRACTICE, both_kinds, of_every_kind
from vector_wide import wide_ledgers

# A walk takes points × lines steps: longer ledgers are left out.
LONGEST_WALK = 10_000


# ---- The form of a case: that of the draw and of the projection ----


@dataclass
class BoardDraw:
    ledger: object
    n: int
    start: int
    marks: int

    def pack(self):
        return fields(22, numbers=(self.n, self.start), room=self.marks, ledger=self.ledger)

    def run(self, latest):
        ledger, latest[:] = self.ledger.expand(), room_of_bytes(self.marks)
        return reference_board.board_draw(ledger, self.n, self.start, latest), [ledger, latest]


@dataclass
class BoardProject:
    ledger: object
    errors: object
    n: int
    start: int

    def pack(self):
        return fields(23, numbers=(self.n, self.start), ledger=self.ledger, errors=self.errors)

    def run(self, latest):
        ledger, errors = self.ledger.expand(), signed(self.errors.expand())
        return reference_board.board_project(ledger, self.n, self.start, errors), [ledger, errors]


# ---- The cases ----


def walked_starts():
    """Every start of the practice ledger, and those past the interval."""
    for start in range(42):
        yield BoardDraw(listed(PRACTICE), 3, start, 4)
        for errors in [7, 0, 10, 5], [-7, 0, 10, 5]:
            yield BoardProject(listed(PRACTICE), listed(errors), 3, start)


def edges_of_the_split():
    for values, n in split_ledgers():
        interval = interval_of(values, n)
        for start in sorted({0, max(1, interval) - 1, interval, MOST_WORD}):
            yield BoardDraw(listed(values), n, start, len(values))
            yield BoardProject(listed(values), listed([0] * len(values)), n, start)


def refused_ledgers():
    for values in broken_ledgers():
        yield BoardDraw(listed(values), 0, 7, len(values))
        yield BoardDraw(listed(values), 3, 0, len(values) + 1)
        yield BoardProject(listed(values), listed([0] * len(values)), 3, 0)
        yield BoardProject(listed(values), listed([0] * (len(values) + 1)), 0, 7)


def every_error():
    """One error of every kind on every line, beside full lines, zeros and none."""
    for values, n, start in (PRACTICE, 3, 25), ([500, 120, 0, 80, 300], 4, 79), ([10], 2, 0), ([0, 7, 0, 7, 0], 2, 3):
        for line, value in enumerate(values):
            for error in of_every_kind(value):
                yield BoardProject(listed(values), listed([0] * line + [error] + [0] * (len(values) - line - 1)), n, start)


def zeros_between():
    """Lines of 0 beside the points, lines as long as the interval, and a row that ends at a point."""
    for values, n in ([0, 40, 0, 0, 40, 0], 2), ([0, 0, 1], 1), ([1] * 9, 9), ([5, 0] * 6, 3), ([40, 40, 40], 3), ([3, 3, 3, 1], 2), ([MOST_VALUE] * 3 + [0], 3):
        for start in range(min(interval_of(values, n), 45) + 1):
            yield BoardDraw(listed(values), n, start, len(values))
            yield BoardProject(listed(values), listed(values), n, start)


def long_walks(r):
    for ledger, n in long_ledgers(r):
        if ledger.count <= LONGEST_WALK:
            interval = interval_of(ledger.expand(), n)
            for start in max(1, interval) - 1, r.below(max(1, interval)):
                yield BoardDraw(ledger, n, start, ledger.count)
                yield BoardProject(ledger, listed([0] * ledger.count), n, start)


def random_walks(r, count):
    for _ in range(count):
        ledger, values = legal_ledger(r)
        n = random_draws(r, values)
        start = starts_for(r, interval_of(values, n))
        yield BoardDraw(ledger, n, start, r.one_of([len(values)] * 9 + [len(values) + 1]))
    for ledger, errors, n, start in projected_edges(r):
        yield BoardProject(ledger, listed(both_kinds(r, errors)), n, start)
    for ledger, errors, n, start in projected_cases(r, count, count // 3):
        yield BoardProject(ledger, listed(both_kinds(r, errors)), n, start)


def board_cases(r):
    for way in walked_starts(), edges_of_the_split(), refused_ledgers(), every_error(), zeros_between(), long_walks(r), random_walks(r, 350):
        yield from way
