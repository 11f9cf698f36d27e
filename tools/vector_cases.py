"""The cases: legal ones, each refusal, and the edge values of every limit. A new case stands last, so that no number moves."""

from reference import EF, MOST_TOTAL
from seeded import Seeded
from vector_errors import long_errors, projected_cases, projected_edges
from vector_files import read_cases, stored_reads, write_cases
from vector_forms import Draw, Judge, Project, Size, Split, Start
from vector_kinds import kind_cases
from vector_ledgers import BASE_INTERVAL, broken_ledgers, interval_of, legal_ledger, long_ledgers, random_draws, split_ledgers, starts_for
from vector_lines import lines_cases
from vector_lists import MOST_ERROR, MOST_WORD, Generated, equal, listed
from vector_attributes import attribute_cases
from vector_board import board_cases
from vector_findings import findings_cases
from vector_salvage import salvage_cases
from vector_season import season_cases
from vector_signed import signed_cases
from vector_strata import strata_cases
from vector_teams import team_cases
from vector_totals import totals_cases
from vector_verdicts import verdict_cases, verdict_edges
from vector_wide import wide_cases

# Ledgers of more lines than this are left out, for a program with less room.
LARGEST_LEDGER = 100_000

# The cases by strata are among the stored ones.
WITH_STRATA = True


# ---- Size ----


def size_cases(r):
    for level in range(256):
        yield Size(level, 1_000_000, 20_000, 0)
    for ae in 4_000, 12_499, 12_500, 20_000, 1_000_000, 1_000_001, MOST_WORD:
        yield Size(95, 1_000_000, 20_000, ae)
    for level in EF:
        yield from size_edges(level)
    for total in 0, MOST_TOTAL + 1:  # the first refusal wins
        yield Size(0, total, 0, MOST_WORD)
        yield Size(95, total, 0, MOST_WORD)
    for _ in range(250):
        total = r.between(1, 10 ** r.between(1, 15))
        te = r.between(1, max(1, total // r.one_of([1, 10, 50, 100])))
        ae = r.one_of([0, r.between(0, te), r.between(0, total)])
        yield Size(r.one_of(list(EF)), total, te, ae)


def size_edges(level):
    for total in 0, 1, 2, MOST_TOTAL, MOST_TOTAL + 1, MOST_WORD:
        for te in sorted({0, 1, total, total + 1, MOST_WORD}):
            if te <= MOST_WORD:
                yield Size(level, total, te, 0)
    for total, te in (10**6, 20_000), (MOST_TOTAL, MOST_TOTAL // 50), (MOST_TOTAL, MOST_TOTAL), (100, 1):
        edge = 100 * te // EF[level]  # the greatest AE that 7 may still pass
        for ae in edge - 1, edge, edge + 1, total, total + 1:
            yield Size(level, total, te, max(0, ae))


# ---- Split and draw ----


def split_cases(r):
    for values, n in split_ledgers():
        yield Split(listed(values), n, len(values))
    for values in broken_ledgers():
        for n in 0, 3:
            yield Split(listed(values), n, len(values))
        yield Split(listed(values), 3, len(values) + 1)
    for ledger, n in long_ledgers(r):
        yield Split(ledger, n, ledger.count)
    for _ in range(600):
        ledger, values = legal_ledger(r)
        yield Split(ledger, random_draws(r, values), len(values))
    for _ in range(60):
        ledger, values = legal_ledger(r)
        lengths = [0, len(values) - 1, len(values) + 1, 2 * len(values)]
        yield Split(ledger, r.one_of([0, 1, 5, MOST_WORD]), r.one_of([len(values), *lengths]))


def draw_cases(r):
    for first_point in range(42):
        yield Draw(listed([30, 30, 40, 20]), 3, first_point, 4)
    for values, n in split_ledgers():
        interval = interval_of(values, n)
        for first_point in sorted({0, max(1, interval) - 1, interval, MOST_WORD}):
            yield Draw(listed(values), n, first_point, len(values))
    for values in broken_ledgers():
        yield Draw(listed(values), 0, 7, len(values))
        yield Draw(listed(values), 3, 0, len(values) + 1)
    for ledger, n in long_ledgers(r):
        interval = interval_of(ledger.expand(), n)
        yield Draw(ledger, n, max(1, interval) - 1, ledger.count)
        yield Draw(ledger, n, r.below(max(1, interval)), ledger.count)
    for _ in range(500):
        ledger, values = legal_ledger(r)
        n = random_draws(r, values)
        yield Draw(ledger, n, starts_for(r, interval_of(values, n)), len(values))
    for _ in range(60):
        ledger, values = legal_ledger(r)
        n = r.one_of([0, 1, 4, MOST_WORD])
        length = r.one_of([len(values), len(values), 0, len(values) + 1])
        yield Draw(ledger, n, r.one_of([0, interval_of(values, n), MOST_WORD]), length)


# ---- Start ----


def start_cases(r):
    for interval in 0, 1, 2, 3, 4, 5, 40, 63, 64, 65, 2**31, 2**31 + 1, 2**32 - 1, 2**32, 10**12, MOST_WORD:
        for words in [], [0], [MOST_WORD], [interval], [max(0, interval - 1)], [interval + 2**40], [63, 25]:
            yield Start(interval, listed([word % 2**64 for word in words]))
    for interval in BASE_INTERVAL - 1, BASE_INTERVAL, BASE_INTERVAL + 1:
        for word in 0, interval - 1, interval, 2**32 - 1, 2**32 + interval - 1:
            yield Start(interval, listed([word]))
            yield Start(interval, listed([MOST_WORD, word]))
    for count in 1, 63, 64, 65, 1_000, 5_000:
        yield Start(65, equal(count, 127))  # none passes
        yield Start(65, equal(count, 127, ((count - 1, 64),)))  # the last passes
    for _ in range(300):
        interval = r.one_of([2 ** r.between(1, 31) + r.between(0, 2), r.between(2, BASE_INTERVAL), r.between(2, 99)])
        bits = (interval - 1).bit_length()
        words = [r.below(2**64) for _ in range(r.between(0, 4))]
        rejected = [r.below(2**64) // 2**bits * 2**bits + 2**bits - 1 for _ in range(r.between(0, 3))]
        yield Start(interval, listed(rejected + words))


# ---- Projection and judgement ----


def project_cases(r):
    for ledger, errors, n, first_point in long_errors(r):
        yield Project(ledger, errors, n, first_point)
    for ledger, errors, n, first_point in projected_edges(r):
        yield Project(ledger, listed(errors), n, first_point)
    for ledger, errors, n, first_point in projected_cases(r, 450, 150):
        yield Project(ledger, listed(errors), n, first_point)


def every_factor():
    """Each level with every m from 0 to 64: every factor counts."""
    for level in EF:
        for m in range(65):
            errors = Generated(m + 1, 3 * m + level, 1, 900, 1, ((m, 0),))
            yield Judge(level, equal(m + 1, 1_000), errors, m + 1, level, 500 * (m + 1))


def judge_edges(r):
    for level in range(256):
        yield Judge(level, listed([30, 30, 40, 20]), listed([7, 0, 10, 5]), 3, 25, 100)
    for te in 0, 1, 30, 58, 59, 119, 120, 121, MOST_WORD:
        for level in 50, 90, 94:
            yield Judge(level, listed([30, 30, 40, 20]), listed([7, 0, 10, 5]), 3, 25, te)
    for m in 63, 64, 65:
        for ledger in equal(m, 10), equal(m + 1, 10, ((0, 1_000),)):
            errors = equal(ledger.count, 1)
            yield Judge(90, ledger, errors, ledger.count, 0, 20)
        spoiled_last = equal(m, 1, ((m - 1, 11),))
        yield Judge(90, equal(m, 10), spoiled_last, m, 0, 20)  # 14 before 16


def judge_cases(r):
    yield from judge_edges(r)
    yield from every_factor()
    for ledger, errors, n, first_point in long_errors(r):
        yield Judge(r.one_of(list(EF)), ledger, errors, n, first_point, sum(ledger.expand()) // 50)
    for ledger, errors, n, first_point in projected_edges(r):
        te = max(1, sum(ledger.expand()) // 50) % 2**64
        yield Judge(r.one_of(list(EF)), ledger, listed(errors), n, first_point, te)
    for ledger, errors, n, first_point in projected_cases(r, 110, 120):
        level = r.one_of(list(EF))
        for te in verdict_edges(level, ledger, errors, n, first_point):
            yield Judge(level, ledger, listed(errors), n, first_point, te)
    for _ in range(40):  # the first refusal wins
        ledger, values = legal_ledger(r)
        errors = listed([MOST_ERROR] * r.one_of([len(values), len(values), 1 + len(values)]))
        te = r.one_of([0, 1, sum(values), sum(values) + 1])
        yield Judge(r.one_of([50, 99, 100]), ledger, errors, r.one_of([0, 1, 9]), r.one_of([0, MOST_WORD]), te)


# ---- All of them ----


def largest_cases():
    """1,000,000 lines pass and one more is refusal 2, before 13."""
    for count in 1_000_000, 1_000_001:
        ledger, few = Generated(count, 77, 1, 9_999, 50, ((500_000, 10**12), (count - 1, 10**9))), equal(3)
        yield Split(ledger, 3_000, 3)
        yield Draw(ledger, 3_000, 5, 0)
        yield Project(ledger, few, 3_000, 5)
        yield Judge(95, ledger, few, 3_000, 5, 10**9)
        if count == 1_000_000:
            yield Split(ledger, 3_000, count)
            yield Draw(ledger, 3_000, 12_345, count)


def every_case():
    r = Seeded(20)
    ways = [size_cases(r), split_cases(r), start_cases(r), draw_cases(r), project_cases(r), judge_cases(r)]
    ways += [read_cases(r), write_cases(r), stored_reads(), largest_cases(), wide_cases(Seeded(21)), lines_cases(Seeded(22))]
    ways += [verdict_cases(), signed_cases(Seeded(23)), kind_cases(Seeded(24))]
    ways += [strata_cases(Seeded(25))] if WITH_STRATA else []
    ways += [season_cases(Seeded(26)), attribute_cases(), findings_cases(Seeded(27)), team_cases(Seeded(28)), board_cases(Seeded(29))]
    ways += [salvage_cases(Seeded(30)), totals_cases(Seeded(31))]
    for way in ways:
        for case in way:
            if not hasattr(case, "ledger") or case.ledger.count <= LARGEST_LEDGER:
                yield case
