"""The cases of the tally of a season (document 02, K13): each refusal on both sides of its limit and before the others, ties, and close shares."""

from dataclasses import dataclass

from reference import EF, MOST_SUM
from reference_season import MOST_JUDGEMENTS, NOT_JUDGED, VERDICTS, Judged, Season
from vector_forms import fields
from vector_lists import listed


# ---- The form of a case: the words are level, book, limit and verdict's number of each judgement ----


def entry_of(level, book, limit, verdict):
    """Any number but 1, 2 and 3 stands for a judgement that was refused."""
    if 1 <= verdict <= 3:
        return Judged(level, book, limit, VERDICTS[verdict - 1])
    return NOT_JUDGED


def in_figures(tally):
    """The tally as C sees it: 27 counts, and seven figures more."""
    return [*tally.counts, *tally[1:]]


@dataclass
class Tally:
    """So many that were refused, then the judgements, one after the other."""

    judgements: list
    refused: int = 0

    def pack(self):
        return fields(13, numbers=(self.refused,), words=listed([number for judgement in self.judgements for number in judgement]))

    def run(self, latest):
        season, why, digested = Season(), None, []
        season.refused = self.refused
        for judgement in self.judgements:
            why = season.add(entry_of(*judgement))
            digested += [*(why or (0, 0)), *in_figures(season.tally())]
        figures = season.tally()[1:6]
        return why or figures, [[number for judgement in self.judgements for number in judgement]], digested


# ---- The cases ----

REFUSED = 95, 1_000, 7, 0


def levels_and_verdicts():
    """Every level of a byte, every verdict at each of the nine, and numbers that are no verdict."""
    for level in range(256):
        yield Tally([(95, 5, 1, 1), (level, 10, 1 + level % 10, 1 + level % 3)])
    for verdict in 0, 1, 2, 3, 4, 255, 256, 257, 2**32 + 1, 2**63 + 2, MOST_SUM:
        yield Tally([(level, 100, level, verdict) for level in EF])
        yield Tally([(0, 0, MOST_SUM, verdict)])


def close_shares():
    """Shares that are equal, or that only an exact comparison tells apart, in both orders; Fibonacci's numbers make the longest comparison."""
    fibonacci = [1, 1]
    while fibonacci[-1] + fibonacci[-2] <= MOST_SUM:
        fibonacci.append(fibonacci[-1] + fibonacci[-2])
    last, f = len(fibonacci) - 1, fibonacci
    pairs = [((1, 3), (2, 6)), ((0, 1), (0, 9)), ((5, 1), (5, 1)), ((10**15, 3 * 10**15), (333_333_333_333_333, 10**15))]
    pairs += [((2**62, 2**63 - 1), (2**62 + 1, 2**63)), ((2**63 - 1, 2**62), (2**63, 2**62 + 1)), ((9, 10), (80, 100)), ((0, 2**63), (1, 2**63 - 1))]
    pairs += [((f[k], f[k + 1]), (f[k - 2], f[k - 1])) for k in range(last - 2, 3, -6)]
    pairs += [((2**62 - 1, 2**62), (2**62 - 2, 2**62 - 1)), ((7, MOST_SUM - 9), (7, 9)), ((MOST_SUM - 9, 9), (7, 9))]
    for one, other in pairs:
        for shares in (one, other), (other, one), (one, other, one), (other, one, other):
            for apart in [], [REFUSED]:
                yield Tally(apart + [(90, book, limit, 2) for limit, book in shares])


def sums():
    """28 on both sides of its limit, of the books and of the limits; 1 and 5 before it; what follows a refused one."""
    after = [(95, 1, 0, 1), REFUSED, (50, 3, 2, 3)]
    for book in 0, 1, 2, MOST_SUM - 1, MOST_SUM:
        for limit in 0, 1, 2, MOST_SUM - 1, MOST_SUM:
            for level in 95, 96:
                for before in [], [(60, 1, 1, 1)], [(60, MOST_SUM - 1, MOST_SUM - 2, 1)], [(60, MOST_SUM - 4, 1, 2)]:
                    yield Tally(before + [(level, book, limit, 3)])
                    yield Tally(before + [(level, book, limit, 3)] + after)
    yield Tally([(99, MOST_SUM // 20, MOST_SUM // 30, 2)] * 40)


def a_million():
    """27 after a million, refused ones included, before every other refusal."""
    for before in MOST_JUDGEMENTS - 2, MOST_JUDGEMENTS - 1, MOST_JUDGEMENTS:
        for entry in REFUSED, (96, 0, MOST_SUM, 1), (95, 0, MOST_SUM, 1), (95, 7, 3, 2):
            yield Tally([entry] * 3, before)
    yield Tally([(96, 1, 1, 1), (95, 9, 3, 2), (95, 8, 3, 3), REFUSED], MOST_JUDGEMENTS - 1)


def random_judgement(r):
    sizes = [3, 10, 1_000, 10**15, 2**40, MOST_SUM // 8, MOST_SUM]
    level = r.one_of(list(EF)) if r.between(0, 9) else r.between(0, 255)
    return level, r.between(0, r.one_of(sizes)), r.between(0, r.one_of(sizes)), r.one_of([1, 2, 3, 1, 2, 3, 0, 4])


def random_seasons(r):
    for _ in range(200):
        yield Tally([random_judgement(r) for _ in range(r.between(1, 40))], r.one_of([0, 0, 1, 17]))
    yield Tally([random_judgement(r) for _ in range(300)])


def season_cases(r):
    yield Tally([])
    yield Tally([], 3)
    yield from levels_and_verdicts()
    yield from close_shares()
    yield from sums()
    yield from a_million()
    yield from random_seasons(r)
