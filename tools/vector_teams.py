"""The cases of two teams on one ledger (document 02, K9): each byte as a team and as a mark, each refusal after 24, and tables that both teams share."""

from dataclasses import dataclass
from itertools import product

import reference_teams
from reference import MOST_VALUE
from reference_teams import TEAM_A, TEAM_B, team_draw
from vector_findings import KINDS, random_pair
from vector_forms import fields
from vector_ledgers import broken_ledgers, interval_of, legal_ledger, long_ledgers, random_draws, split_ledgers, starts_for
from vector_lists import LEAST_ERROR, MOST_WORD, Generated, equal, listed, signed
from vector_signed import PRACTICE

TEAMS = TEAM_A, TEAM_B

# A's draw at start 25 and B's at start 0, beside some of bits 4 to 7: lines 0 and 2 are drawn by both, line 1 by B, line 3 by A.
BOTH_DRAWN = [245, 20, 37, 129]


# ---- The form of a case: the level is the team; the first words are the marks, and of a batch lines and errors found follow ----


@dataclass
class TeamSplit:
    team: int
    ledger: object
    n: int
    marks: object

    def pack(self):
        return fields(18, self.team, (self.n,), self.marks.count, ledger=self.ledger, words=self.marks)

    def run(self, latest):
        ledger, latest[:] = self.ledger.expand(), bytes(self.marks.expand())
        return reference_teams.team_split(self.team, ledger, self.n, latest), [ledger, latest]


@dataclass
class TeamDraw:
    team: int
    ledger: object
    n: int
    start: int
    marks: object

    def pack(self):
        return fields(19, self.team, (self.n, self.start), self.marks.count, ledger=self.ledger, words=self.marks)

    def run(self, latest):
        ledger, latest[:] = self.ledger.expand(), bytes(self.marks.expand())
        return reference_teams.team_draw(self.team, ledger, self.n, self.start, latest), [ledger, latest]


@dataclass
class TeamPost:
    """One finding."""

    team: int
    ledger: object
    marks: object
    errors: object
    line: int
    error: int

    def pack(self):
        numbers = self.line, self.error % 2**64
        return fields(20, self.team, numbers, self.marks.count, self.ledger, self.errors, self.marks)

    def run(self, latest):
        ledger, marks, errors = self.ledger.expand(), self.marks.expand(), signed(self.errors.expand())
        latest[:] = bytes(marks)
        answer = reference_teams.team_post(self.team, ledger, latest, errors, self.line, self.error)
        return answer, [ledger, errors, marks, latest]


@dataclass
class TeamPostAll:
    """A batch. The words hold marks, lines and errors found, in this order."""

    team: int
    ledger: object
    errors: object
    words: object
    marks: int
    lines: int

    def pack(self):
        return fields(21, self.team, (self.lines,), self.marks, self.ledger, self.errors, self.words)

    def run(self, latest):
        ledger, errors, words = self.ledger.expand(), signed(self.errors.expand()), self.words.expand()
        latest[:] = bytes(words[: self.marks])
        lines, found = words[self.marks :][: self.lines], signed(words[self.marks + self.lines :])
        answer = reference_teams.team_post_all(self.team, ledger, latest, errors, lines, found)
        return answer, [ledger, errors, words, latest]


def two_lists(team, values, marks, errors, lines, found):
    words = [*marks, *lines, *(error % 2**64 for error in found)]
    return TeamPostAll(team, listed(values), listed(errors), listed(words), len(marks), len(lines))


def batch(team, values, marks, errors, pairs):
    return two_lists(team, values, marks, errors, [line for line, _ in pairs], [error for _, error in pairs])


def table(r, lines):
    """Any bits in each mark."""
    return Generated(lines, r.below(2**32), most=255, scale=1)


# ---- The cases ----


def every_team(r):
    """Every byte as a team, on what is sound and on what every other refusal would meet: too short marks, a broken ledger, wrong figures and pairs."""
    sound, marks = listed(PRACTICE), listed(BOTH_DRAWN)
    for team in range(256):
        yield TeamSplit(team, sound, 3, marks)
        yield TeamDraw(team, sound, 3, 25, marks)
        yield TeamPost(team, sound, marks, equal(4), 0, 7)
        yield batch(team, PRACTICE, BOTH_DRAWN, [0] * 4, [(2, 10), (0, -7)])
    for team in 0, 0x40, *TEAMS, 0x43, 0x61, 0x62, 0xFF:
        for values, n, first_point in ([], 0, 1), ([MOST_VALUE + 1], 0, 9), ([MOST_VALUE] * 100 + [1], 3, 0), ([0, 0], 1, 0), (PRACTICE, 0, 0), (PRACTICE, 3, 40):
            for count in len(values), len(values) + 1:
                yield TeamSplit(team, listed(values), n, table(r, count))
                yield TeamDraw(team, listed(values), n, first_point, table(r, count))
        for line, error in (4, 50), (0, 31), (1, 30), (3, 20), (1, 31), (3, 21), (0, LEAST_ERROR), (MOST_WORD, 0):
            yield TeamPost(team, sound, marks, equal(4, 1), line, error)
            yield TeamPost(team, sound, marks, equal(3, 1), line, error)
            yield batch(team, PRACTICE, BOTH_DRAWN, [1] * 4, [(2, 0), (line, error), (0, 3)])
            yield two_lists(team, PRACTICE, BOTH_DRAWN, [1] * 4, [2, line], [0])


def every_mark():
    """A table of all bytes: split, draws and findings of either team on it."""
    values, marks = Generated(256, 31, 1, 99, 7), Generated(256, step=1)
    interval = {n: interval_of(values.expand(), n) for n in (1, 3, 20, 100, 200, 256, 300, 5_000)}
    for team in TEAMS:
        for n, J in interval.items():
            yield TeamSplit(team, values, n, marks)
            for first_point in sorted({0, 1, J // 2, max(J, 1) - 1, J}):
                yield TeamDraw(team, values, n, first_point, marks)
        for mark in range(256):
            yield TeamPost(team, equal(256, 9), marks, equal(256, -4), mark, 1 - mark % 3 * 5)
        for first in range(0, 256, 16):
            words = [*range(256), *range(first, first + 17), *([5] * 17)]
            yield TeamPostAll(team, equal(256, 9), equal(256, 2), Generated(len(words), step=1, changes=tuple((at, word) for at, word in enumerate(words) if at != word)), 256, 17)
        yield TeamPost(team, equal(256, 9), marks, equal(256, -4), 3, 0)
        yield TeamPost(team, equal(256, 9), marks, equal(256, -4), 12, 0)


def every_start(r):
    """The practice ledger at every start, in tables of any bits; and both teams one after the other."""
    for first_point in range(42):
        for team in TEAMS:
            yield TeamDraw(team, listed(PRACTICE), 3, first_point, table(r, 4))
    for first_point, second in product((0, 25, 30, 39), repeat=2):
        for teams in TEAMS, TEAMS[::-1]:
            marks = [240, 16, 32, 128]
            for team, at in zip(teams, (first_point, second)):
                yield TeamDraw(team, listed(PRACTICE), 3, at, listed(marks))
                team_draw(team, PRACTICE, 3, at, marks)
                yield batch(team, PRACTICE, marks, [0] * 4, [(line, line - 2) for line in range(4)])
            for team in TEAMS:
                yield TeamSplit(team, listed(PRACTICE), 3, listed(marks))


def edges(r):
    """Ledgers at the edges of the split, and broken ones; marks that are one short or one too many."""
    for values, n in split_ledgers():
        for team in TEAMS:
            yield TeamSplit(team, listed(values), n, table(r, len(values)))
            yield TeamDraw(team, listed(values), n, starts_for(r, interval_of(values, n)), table(r, len(values)))
    for values in broken_ledgers():
        team = r.one_of(TEAMS)
        yield TeamSplit(team, listed(values), 3, table(r, len(values)))
        yield TeamDraw(team, listed(values), 3, 0, table(r, len(values)))
    for lines, count, team in product((0, 1, 4, 5), (0, 1, 3, 4, 5), TEAMS):
        yield TeamSplit(team, equal(lines, 30), 2, table(r, count))
        yield TeamDraw(team, equal(lines, 30), 2, 0, table(r, count))


def faults():
    """Each two of the kinds of a pair, for either team: each goes by its own draw."""
    for team, pairs in product(TEAMS, product(KINDS, repeat=2)):
        yield batch(team, PRACTICE, BOTH_DRAWN, [1, 1, 1, 1], pairs)


def lengths(r):
    """13 wherever two lengths differ, and findings without a pair or without a line."""
    for lines, marks, errors in product((0, 1, 4), repeat=3):
        team, lent = r.one_of(TEAMS), ([30] * lines, [21] * marks, [2] * errors)
        yield batch(team, *lent, [])
        yield batch(team, *lent, [(0, 7)])
        yield TeamPost(team, *map(listed, lent), 0, 7)
    for lines, found, team in product(range(3), range(3), TEAMS):
        yield two_lists(team, PRACTICE, BOTH_DRAWN, [1, 1, 1, 1], [0, 2, 3][:lines], [5, 9, -5][:found])


def beside(r, marks, team):
    """The same own bits of a team, and any others."""
    kept = 3 if team == TEAM_A else 12
    return [mark & kept | r.below(256) & ~kept for mark in marks]


def random_tables(r, count):
    """Splits, draws and batches of either team, each on two tables that agree in the team's own bits."""
    for _ in range(count):
        ledger, values = legal_ledger(r)
        marks = [r.below(256) for _ in values]
        n, m = random_draws(r, values), random_draws(r, values)
        if r.chance(70):
            team_draw(TEAM_A, values, n, starts_for(r, interval_of(values, n)), marks)
            team_draw(TEAM_B, values, m, starts_for(r, interval_of(values, m)), marks)
        for team in TEAMS:
            first_point, sound = starts_for(r, interval_of(values, n)), r.one_of([100, 95, 70])
            own = reference_teams.own_bits(team, marks)
            pairs = [random_pair(r, values, own, sound) for _ in range(r.between(0, 30))]
            for these in marks, beside(r, marks, team):
                yield TeamDraw(team, ledger, n, first_point, listed(these))
                made = batch(team, values, these, [0] * len(values), pairs)
                yield TeamPostAll(team, ledger, made.errors, made.words, made.marks, made.lines)
            yield TeamSplit(team, ledger, m, listed(marks))
            if pairs:
                yield TeamPost(team, ledger, listed(marks), equal(len(values), 1), *pairs[0])


def long_tables(r):
    """Ledgers of many lines, with any bits in each mark; the ledger and its marks fill the room of a case at most."""
    for ledger, n in long_ledgers(r):
        if ledger.count > 50_000:
            continue
        for team in TEAMS:
            yield TeamSplit(team, ledger, n, table(r, ledger.count))
            yield TeamDraw(team, ledger, n, r.below(max(1, interval_of(ledger.expand(), n))), table(r, ledger.count))
    for team in TEAMS:
        yield TeamDraw(team, Generated(52_000, 3, 1, 9_999, 3), 900, 17, table(r, 52_000))
        chosen = [(place * 7_919 % 40_000, place % 101 - 50) for place in range(200)]
        words = [line for line, _ in chosen] + [error % 2**64 for _, error in chosen]
        changes = tuple((40_000 + place, word) for place, word in enumerate(words))
        marks_and_pairs = Generated(40_000 + len(words), 5, 5, 1, 5, changes)  # each mark is 5 or 10: drawn by both teams, or full for both
        yield TeamPostAll(team, Generated(40_000, 9, 50, 9_999, 7), equal(40_000, 3), marks_and_pairs, 40_000, len(chosen))


def team_cases(r):
    ways = [every_team(r), every_mark(), every_start(r), edges(r), faults(), lengths(r), random_tables(r, 90), long_tables(r)]
    for way in ways:
        yield from way
