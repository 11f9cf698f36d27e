"""The cases of the operations by strata (document 02, K6): each refusal on both sides of its limit and before every other, shares, and the worked ledger."""

from reference import MOST_TOTAL, MOST_VALUE
from self_test_strata import COUNTS, DRAWS, ERRORS, LEDGER, STARTS
from vector_forms import StrataDraw, StrataPlan, StrataProject
from vector_lists import LEAST_ERROR, MOST_ERROR, MOST_WORD, equal, listed
from vector_parts import each_way, intervals_of, parts_cases


# ---- Each refusal on both sides of its limit ----


def strata_and_counts():
    """22 and 30: no strata, 1, 2, 31, 32, 33; counts one off, and sums that pass 64 bits."""
    for strata in 1, 2, 31, 32, 33, 64:
        for n in strata - 1, strata, 3 * strata + 1:
            yield from each_way([7] * strata, [1] * strata, n, [0] * strata, [0] * strata)
        yield StrataPlan(listed([5, 0, 9]), [0] * (strata - 1) + [3], 4)
        yield StrataPlan(listed([5, 0, 9]), [3] + [0] * (strata - 1), 4)
    past_64_bits = [MOST_WORD], [MOST_WORD, 5], [2**63, 2**63, 4], [4, 2**63, 2**63], [MOST_WORD] * 32, [2**32, 2**64 - 2**32 + 4]
    for counts in [], [3], [5], [4, 1], [2, 1], [1, 2, 2], [0], [0, 4, 0, 0], *past_64_bits:
        yield from each_way([30, 30, 40, 20], counts, 3, [0] * len(counts), [0] * 4)
    for counts in [], [0], [0, 0], [1], [0] * 33:
        yield from each_way([], counts, 3, [0] * len(counts), [])


def sizes_of_ledgers():
    """3, 4 and 5 with the whole ledger's line: the largest value, the largest total, and one more, in the first stratum and in others."""
    for counts in [4], [2, 2], [1, 1, 1, 1], [0, 3, 1]:
        for line in range(4):
            for value in MOST_VALUE, MOST_VALUE + 1, MOST_WORD:
                yield StrataPlan(listed([5] * line + [value] + [5] * (3 - line)), counts, 4)
        for n in 0, 1:
            yield from each_way([0] * 4, counts, n, [0] * len(counts), [0] * 4)
            yield from each_way([0, 0, 0, 1], counts, n, [0] * len(counts), [0] * 4)
    for last in 0, 1, MOST_VALUE + 1:
        for counts in [101], [50, 51], [100, 1], [99, 2], [101, 0], [3] * 31 + [8]:
            yield StrataPlan(equal(101, MOST_VALUE, ((100, last),)), counts, 40)
    yield StrataPlan(equal(102, MOST_VALUE, ((99, MOST_VALUE - 1), (100, 1), (101, 1))), [100, 2], 2)


def lengths():
    """13: marks, errors and starts of another length, together and apart."""
    for starts in [], STARTS[:3], STARTS, STARTS + [0]:
        for beside in 0, 17, 18, 19:
            yield StrataDraw(listed(LEDGER), COUNTS, DRAWS, starts, beside)
            yield StrataProject(listed(LEDGER), listed((ERRORS + [0])[:beside]), COUNTS, DRAWS, starts)


def draws_and_starts():
    """8 and 23; 11 at J - 1, J and beyond in each stratum, and in one without value or with nothing sampled."""
    for n in 0, 1, 2, 3, 4, 17, 18, 19, MOST_TOTAL, MOST_WORD:
        yield from each_way(LEDGER, COUNTS, n, [0] * 4, [0] * 18)
    for h, interval in enumerate(intervals_of(LEDGER, COUNTS, DRAWS)):
        for start in sorted({0, 1, max(1, interval) - 1, interval, interval + 1, MOST_WORD}):
            for later in STARTS, [MOST_WORD] * 4:
                starts = STARTS[:h] + [start] + later[h + 1 :]
                yield StrataDraw(listed(LEDGER), COUNTS, DRAWS, starts, 18)
                yield StrataProject(listed(LEDGER), equal(18), COUNTS, DRAWS, starts)
    for starts in [0, 0], [0, 1], [1, 0], [1, 1], [0, MOST_WORD]:
        yield from each_way([10, 7], [1, 1], 9, starts, [10, -7])  # all full: only 0
        yield from each_way([0, 10, 3], [1, 2], 1, starts, [0, 0, 0])


# ---- Every refusal before every other ----


def instead(entries, place, entry):
    """The entries with another at a place."""
    return entries[:place] + [entry] + entries[place + 1 :]


# What each refusal's fault makes of the worked ledger's inputs.
FAULTS = {
    "no strata": lambda case: {"counts": []},
    "counts that do not add": lambda case: {"counts": case["counts"][:-1] + [6]},
    "a start too few": lambda case: {"starts": case["starts"][:-1]},
    "an entry too many": lambda case: {"marks": case["marks"] + 1, "errors": case["errors"] + [0]},
    "a value too large": lambda case: {"values": instead(case["values"], 9, MOST_VALUE + 1)},
    "a total too large": lambda case: with_lines(case, [MOST_VALUE] * 101),
    "no value": lambda case: {"values": [0] * len(case["values"])},
    "no draws": lambda case: {"n": 0},
    "too few draws": lambda case: {"n": min(2, case["n"])},
    "a start too late": lambda case: {"starts": instead(case["starts"], 1, 10**15)},
    "an error too large": lambda case: {"errors": instead(case["errors"], 5, -101)},
    "an error elsewhere": lambda case: {"errors": instead(case["errors"], 8, 1)},
}


def with_lines(case, more):
    """The last stratum has more lines, and what is lent with the ledger more entries."""
    counts = case["counts"][:-1] + [count + len(more) for count in case["counts"][-1:]]
    return {"values": case["values"] + more, "counts": counts, "errors": case["errors"] + [0] * len(more), "marks": case["marks"] + len(more)}


WORKED = {"values": LEDGER, "counts": COUNTS, "n": DRAWS, "starts": STARTS, "errors": ERRORS, "marks": 18}


def in_plan(fault):
    """Whether a plan is handed what is wrong."""
    return not fault(WORKED).keys().isdisjoint({"values", "counts", "n"})


def pairs():
    """The worked ledger with each fault, and with each two of them."""
    faults = list(FAULTS.values())
    for place, first in enumerate(faults):
        for second in faults[place:]:
            case = {**WORKED, **first(WORKED)}
            if second is not first:
                case.update(second(case))
            plan, *others = each_way(**case)
            yield from [plan, *others] if in_plan(first) and in_plan(second) else others


# ---- Shares ----


def shares():
    """Ties and leftover draws of equal book values; remainders that tie with others; wide products; shares of 64 bits."""
    for books in [1] * 5, [5, 5, 5], [3, 4, 3], [0, 6, 0, 6, 6], [2, 3, 2, 3, 2], [1, 2, 4, 8], [120, 1_000, 0, 480], [1] * 32, [7, 0] * 16:
        least = sum(book > 0 for book in books)
        for n in range(least, least + min(9, len(books) + 2)):
            yield StrataPlan(listed(books), [1] * len(books), n)
    wide = [10**13] * 3 + [10**13 - 1, 1, 0, 10**12 + 7, 2**40, 2**40]
    for n in 8, 9, 10**4, 2**31, 2**32 + 1, 2**53 - 1, 2**63, MOST_WORD - 1, MOST_WORD:
        yield StrataPlan(listed(wide), [1] * 9, n)
        yield StrataPlan(listed(wide), [3, 1, 1, 1, 1, 1, 1], n)
        yield StrataPlan(equal(100, MOST_VALUE), [33, 33, 34], n)
        yield StrataPlan(equal(100, MOST_VALUE, ((0, 1), (99, 2))), [1, 98, 1], n)
    for extra in range(3):
        yield StrataPlan(listed([10**13, 1]), [1, 1], (MOST_WORD - extra) // 10**13 * 10**13)
        yield StrataPlan(listed([1] * 31 + [10**13]), [1] * 32, 2**63 + extra)


# ---- Draws and projections ----


def worked_starts():
    """The worked ledger at the starts of each stratum in turn, the others as they are."""
    for h, interval in enumerate(intervals_of(LEDGER, COUNTS, DRAWS)):
        for start in range(0, interval, 19):
            yield StrataDraw(listed(LEDGER), COUNTS, DRAWS, instead(STARTS, h, start), 18)
    yield from each_way(LEDGER, COUNTS, DRAWS, STARTS, ERRORS)
    yield from each_way(LEDGER, COUNTS, DRAWS, STARTS, [-error for error in ERRORS])


def worked_errors():
    """One error on each line of the worked ledger, at the edges of its value: 14 and 15 name lines of the whole."""
    for line, value in enumerate(LEDGER):
        for error in sorted({1, value, value + 1, -value, -value - 1}) + [LEAST_ERROR if line % 2 else MOST_ERROR]:
            yield StrataProject(listed(LEDGER), listed(instead([0] * 18, line, error)), COUNTS, DRAWS, STARTS)
    for first, second in (1, 4), (4, 8), (8, 11), (3, 17), (11, 12), (15, 17):
        for former, latter in (1, 1_000), (1_000, 1), (-1, -1):
            yield StrataProject(listed(LEDGER), listed(instead(instead([0] * 18, first, former), second, latter)), COUNTS, DRAWS, STARTS)


def strata_cases(r):
    ways = [strata_and_counts(), sizes_of_ledgers(), lengths(), draws_and_starts(), pairs(), shares(), worked_starts(), worked_errors()]
    for way in [*ways, parts_cases(r)]:
        yield from way
