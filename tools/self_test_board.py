"""The self-test of the blackboard method: the practice ledger walked by hand, each refusal, and both methods held against each other."""

from reference import Draw, Projection, Refusal, draw, project
from reference_board import board_draw, board_project, count_off, walk
from seeded import Seeded
from self_test import PRACTICE_ERRORS, PRACTICE_LEDGER, marks_of, random_case, same

GRANTS = [500, 120, 0, 80, 300]


def walked_by_hand():
    """J is 40: the points 25, 65 and 105 are covered by lines 0, 2 and 3."""
    same("the line of each point", [count_off(PRACTICE_LEDGER, set(), point) for point in (25, 65, 105, 145)], [0, 2, 3, None])
    same("the walk", list(walk(PRACTICE_LEDGER, set(), 40, 25)), [0, 2, 3])
    same("the draw", board_draw(PRACTICE_LEDGER, 3, 25, [9] * 4), Draw(3))
    same("its marks", marks_of(board_draw, PRACTICE_LEDGER, 3, 25), [1, 0, 1, 1])
    same("the sums", board_project(PRACTICE_LEDGER, 3, 25, PRACTICE_ERRORS), Projection(0, 30, 3, 0, 0, 30))
    same("of both kinds", board_project(PRACTICE_LEDGER, 3, 25, [-7, 0, 10, 5]), Projection(0, 20, 2, 0, 10, 10))
    same("full lines are passed over", marks_of(board_draw, GRANTS, 4, 79), [2, 2, 0, 1, 2])
    same("and count with their errors", board_project(GRANTS, 4, 79, [-50, 12, 0, -8, 3]), Projection(15, 0, 0, 50, 8, -43))


def walked_refusals():
    same("11", board_draw(PRACTICE_LEDGER, 3, 40, [9] * 4), Refusal(11, 0))
    same("11 leaves the marks", marks_of(board_draw, PRACTICE_LEDGER, 3, 40), [9] * 4)
    same("11 without an interval", board_draw([10], 2, 1, [9]), Refusal(11, 0))
    same("0 without an interval", board_draw([10], 2, 0, [9]), Draw(0))
    same("13", board_draw(PRACTICE_LEDGER, 3, 25, [9] * 3), Refusal(13, 0))
    same("8", board_project(PRACTICE_LEDGER, 0, 0, PRACTICE_ERRORS), Refusal(8, 0))
    same("14", board_project(PRACTICE_LEDGER, 3, 25, [7, -31, 10, 5]), Refusal(14, 1))
    same("15", board_project(PRACTICE_LEDGER, 3, 0, PRACTICE_ERRORS), Refusal(15, 3))


def walked_as_drawn():
    """Random ledgers: the same marks, counts, sums and refusals."""
    r = Seeded(12)
    for _ in range(1_500):
        ledger, n, _ = random_case(r)
        start = r.below(60) if r.chance(40) else 0
        former, latter = [9] * len(ledger), [9] * len(ledger)
        same("the answer of both draws", board_draw(ledger, n, start, former), draw(ledger, n, start, latter))
        same("the marks of both", former, latter)
        errors = [r.one_of([0, 0, 0, value, -value, 1, value + 1]) if r.chance(60) else 0 for value in ledger]
        same("the answer of both projections", board_project(ledger, n, start, errors), project(ledger, n, start, errors))


def run():
    for test in walked_by_hand, walked_refusals, walked_as_drawn:
        test()
        print("ok", test.__name__.replace("_", " "))
