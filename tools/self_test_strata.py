"""The self-test of the operations by strata: cases worked by hand, each refusal, and what holds of random ledgers."""

from fractions import Fraction

import reference
from reference import Draw, Refusal, project, split
from reference_strata import StrataPlan, StrataProjection, parts_of, shares, strata_draw, strata_plan, strata_project
from seeded import Seeded
from self_test import PRACTICE_ERRORS, PRACTICE_LEDGER, check_all_starts, errors_entered, marks_of, random_case, same

# Four programmes, worked in docs/HANDBOOK.md: one has a full line, one no book value yet.
PROGRAMMES = "roads", "schools", "water", "ports"
COUNTS = [4, 7, 2, 5]
LEDGER = [30, 30, 40, 20] + [400, 100, 60, 140, 120, 90, 90] + [0, 0] + [100, 160, 60, 90, 70]
DRAWS, STARTS = 10, [25, 130, 0, 70]
ERRORS = [7, 0, -10, 0] + [20, 0, 5, 0, 0, 0, 0] + [0, 0] + [0, 16, 0, -4, 0]
PLAN = [(2, 60, 2, 120, 0, 0), (5, 150, 4, 600, 1, 400), (0, 0, 0, 0, 0, 0), (3, 160, 3, 480, 0, 0)]
MARKS = [1, 0, 1, 0] + [2, 0, 1, 1, 0, 1, 1] + [0, 0] + [1, 1, 0, 1, 0]
# 7 × 60 / 30 = 14 and 10 × 60 / 40 = 15; 20 as it is and 5 × 150 / 60 = 12.5; 16 × 160 / 160 = 16 and 4 × 160 / 90 = 7.1
PROJECTED = [(2, 60, 0, 14, 0, 15), (5, 150, 20, 13, 0, 0), (0, 0, 0, 0, 0, 0), (3, 160, 0, 16, 0, 8)]


def strata_shares():
    """Shares by hand: one leftover draw, ties, as many draws as strata, and the largest n."""
    same("one leftover draw", shares([120, 1_000, 0, 480], 10), [2, 5, 0, 3])  # of 7: 0.525, 4.375, 0, 2.1
    same("none left over", shares([1, 1], 6), [3, 3])
    same("a tie, the lower first", shares([5, 5, 5], 4), [2, 1, 1])
    same("a tie of two", shares([5, 5, 5], 5), [2, 2, 1])
    same("a tie past the largest", shares([3, 4, 3], 5), [2, 2, 1])  # of 2: 0.6, 0.8, 0.6
    same("one each", shares([1, 10**15 - 2, 0, 1], 3), [1, 1, 0, 1])
    same("a small one gets no more", shares([1, 10**15 - 1], 4), [1, 3])
    same("the largest n", shares([1, 2], 2**64 - 1), [1 + (2**64 - 3) // 3, 1 + 2 * (2**64 - 3) // 3 + 1])
    same("a wide product", shares([10**15 - 1, 1], 2**64 - 1), [2**64 - 18_449, 18_448])  # of 2^64 - 3: all but 18,446.74 and 18,446.74


def strata_worked():
    same("plan", strata_plan(LEDGER, COUNTS, DRAWS), StrataPlan(4, PLAN))
    marks = [9] * 18
    same("draw", strata_draw(LEDGER, COUNTS, DRAWS, STARTS, marks), Draw(9))
    same("marks", marks, MARKS)
    same("projection", strata_project(LEDGER, COUNTS, DRAWS, STARTS, ERRORS), StrataProjection(4, 63, 23, 40, PROJECTED))
    no_errors = [row[:2] + (0, 0, 0, 0) for row in PROJECTED]
    same("no errors", strata_project(LEDGER, COUNTS, DRAWS, STARTS, [0] * 18), StrataProjection(4, 0, 0, 0, no_errors))
    same("a stratum of no lines", strata_plan(PRACTICE_LEDGER, [0, 4, 0], 3), StrataPlan(3, [(0,) * 6, (3, 40, 3, 120, 0, 0), (0,) * 6]))
    same("all full", strata_plan([10, 7], [1, 1], 9), StrataPlan(2, [(5, 0, 4, 0, 1, 10), (4, 0, 3, 0, 1, 7)]))


def strata_refused():
    """Each refusal where it comes first, and those after it."""
    most, late = 10**13, [0] * 4
    for counts, number in ([], 22), ([0] * 33, 22), ([0] * 32, 30), ([3, 16], 30), ([2**64 - 1, 19], 30), ([18], 8), ([4, 7, 2, 5], 8):
        same(f"{len(counts)} counts", strata_plan(LEDGER, counts, 0), Refusal(number, 0))
    same("too many lines", strata_plan([1] * 1_000_001, [1_000_000, 1], 0), Refusal(2, 0))
    same("3 with the whole ledger's line", strata_plan([5, 6, most + 1, most + 2], [2, 2], 0), Refusal(3, 2))
    same("4 with the whole ledger's line", strata_plan([most] * 101, [60, 41], 0), Refusal(4, 100))
    same("no value", strata_plan([0, 0], [1, 1], 0), Refusal(5, 0))
    same("one draw too few", strata_plan(LEDGER, COUNTS, 2), Refusal(23, 0))
    same("enough", strata_plan(LEDGER, COUNTS, 3).strata, 4)
    for operation, lent in (strata_draw, [9] * 18), (strata_project, [99] * 18):
        same("lent too short", operation(LEDGER, COUNTS, 0, late, lent[1:]), Refusal(13, 0))
        same("a start too few", operation([most + 1] * 18, COUNTS, 0, late[1:], lent), Refusal(13, 0))
        same("2 before 13", operation([1] * 1_000_001, [1_000_001], 0, [], []), Refusal(2, 0))
        same("30 before 13", operation(LEDGER, [18, 1], 0, [], []), Refusal(30, 0))
        same("23 before 11", operation(LEDGER, COUNTS, 2, [2**64 - 1] * 4, lent), Refusal(23, 0))
        for h, start in (0, 60), (1, 150), (2, 1), (3, 160):
            wrong = STARTS[:h] + [start] + [2**64 - 1] * (3 - h)
            same("11 with the first wrong stratum", operation(LEDGER, COUNTS, DRAWS, wrong, lent), Refusal(11, h))
    marks = [9] * 18
    same("refused marks", strata_draw(LEDGER, COUNTS, DRAWS, [60] * 4, marks), Refusal(11, 0))
    same("they stay", marks, [9] * 18)


def strata_errors():
    """14 and 15 line by line over the whole ledger, 14 first on a line."""
    for line, error, number in (2, -41, 14), (1, 1, 15), (1, 31, 14), (10, -90, None), (11, 0, None), (11, 1, 14), (15, -60, 15), (17, 71, 14):
        errors = ERRORS[:line] + [error] + [0] * (17 - line)
        answer = strata_project(LEDGER, COUNTS, DRAWS, STARTS, errors)
        same(f"error {error} on line {line}", answer if number else answer[0], Refusal(number, line) if number else 4)
    same("the earlier line", strata_project(LEDGER, COUNTS, DRAWS, STARTS, [0] * 15 + [1, 91, 1]), Refusal(15, 15))


def strata_alone():
    """One stratum gives what the plain operations give."""
    for first_point in range(41):
        errors = [0] * 4 if first_point == 40 else errors_entered(PRACTICE_LEDGER, 3, first_point, PRACTICE_ERRORS)
        plain = project(PRACTICE_LEDGER, 3, first_point, errors)
        found = strata_project(PRACTICE_LEDGER, [4], 3, [first_point], errors)
        same("one stratum", found if isinstance(found, Refusal) else found.rows[0][2:4], plain if isinstance(plain, Refusal) else plain[:2])


# ---- What holds of random ledgers ----


def check_shares(books, n):
    """They add to n, none is more than one from its exact share, and a leftover draw goes by remainder, then by place."""
    with_value, found = sum(book > 0 for book in books), shares(books, n)
    same("shares add", sum(found), n)
    exact = [(book > 0) + Fraction((n - with_value) * book, sum(books)) for book in books]
    same("none without value", [share > 0 for share in found], [book > 0 for book in books])
    same("within one", all(abs(share - wanted) < 1 for share, wanted in zip(found, exact)), True)
    rank = [(-(wanted % 1), h) for h, wanted in enumerate(exact)]
    given = [share > wanted for share, wanted in zip(found, exact)]
    for h in range(len(books)):
        for other in range(len(books)):
            same("the ranking", given[other] and rank[h] < rank[other] and rank[h][0] < 0 and not given[h], False)


def check_strata(ledger, counts, n, true_errors, r):
    """Totals add to the whole; each stratum with value is its own ledger over all its own starts, whatever the others' are."""
    rows = strata_plan(ledger, counts, n).rows
    same("draws add", sum(row.draws for row in rows), n)
    same("totals add", sum(row.sampled_total + row.full_total for row in rows), sum(ledger))
    starts = [r.below(max(1, row.interval)) for row in rows]
    marks = [9] * len(ledger)
    strata_draw(ledger, counts, n, starts, marks)
    errors = [error if mark else 0 for mark, error in zip(marks, true_errors)]
    found = strata_project(ledger, counts, n, starts, errors)
    parts = zip(rows, starts, parts_of(counts, ledger), parts_of(counts, marks), parts_of(counts, errors), found.rows)
    for row, start, lines, marked, entered, projected in parts:
        if row.draws == 0:
            same("nothing projected", (sum(lines), list(marked), projected), (0, [0] * len(lines), (0,) * 6))
            continue
        same("its own split", split(lines, row.draws, [9] * len(lines)), row[1:])
        same("its own draw", marked, marks_of(reference.draw, lines, row.draws, start))
        plain = project(lines, row.draws, start, entered)
        same("its own projection", projected[2:], plain[:2] + plain[3:5])
    sums = [sum(row.full_sum + row.sampled_sum for row in found.rows), sum(row.understated_full + row.understated_sampled for row in found.rows)]
    same("sums", found[1:4], (*sums, sums[0] - sums[1]))


def strata_random():
    r = Seeded(2)
    for _ in range(400):
        books = [r.one_of([0, 1, r.between(0, 9), r.between(0, 10**15 // 32)]) for _ in range(r.between(1, 32))]
        with_value = sum(book > 0 for book in books)
        if with_value:
            check_shares(books, r.one_of([with_value, with_value + r.below(40), r.between(with_value, 2**64 - 1)]))
    for _ in range(150):
        cases = [random_case(r) for _ in range(r.between(1, 6))]
        ledger, errors = [sum((case[place] for case in cases), []) for place in (0, 2)]
        if sum(ledger):
            n = r.between(len(cases), 40)
            check_strata(ledger, [len(case[0]) for case in cases], n, errors, r)
    for lines, row, errors in zip(parts_of(COUNTS, LEDGER), PLAN, parts_of(COUNTS, ERRORS)):
        if row[1]:
            check_all_starts(lines, row[0], errors)


def run():
    for test in strata_shares, strata_worked, strata_refused, strata_errors, strata_alone, strata_random:
        test()
        print("ok", test.__name__.replace("_", " "))
