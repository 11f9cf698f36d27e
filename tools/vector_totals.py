"""The cases of totals beside the ledger (document 02, K1): each refusal on both sides of its limit and before those that follow it, figures that are right
and figures that are wrong, and what a call leaves in room and summary."""

from dataclasses import dataclass
from itertools import product

import reference_totals
from reference import MOST_LINES, MOST_TOTAL, MOST_VALUE
from reference_totals import right_summary
from vector_forms import fields
from vector_lists import MOST_WORD, Generated, equal, listed

# ---- The form of a case: the ledger is the room, the words are the summary, the first number is the count ----


@dataclass
class Totals:
    ledger: object
    count: int
    summary: object

    def case(self, operation, *numbers):
        return fields(operation, numbers=(self.count, *numbers), ledger=self.ledger, words=self.summary)

    def answered(self, operation, *inputs):
        room, summary = self.ledger.expand(), self.summary.expand()
        return operation(room, self.count, summary, *inputs), [room, summary]


@dataclass
class TotalsBuild(Totals):
    def pack(self):
        return self.case(25)

    def run(self, latest):
        return self.answered(reference_totals.build)


@dataclass
class TotalsTotal(Totals):
    def pack(self):
        return self.case(26)

    def run(self, latest):
        return self.answered(reference_totals.total)


@dataclass
class TotalsFind(Totals):
    cent: int

    def pack(self):
        return self.case(27, self.cent)

    def run(self, latest):
        return self.answered(reference_totals.find, self.cent)


@dataclass
class TotalsChange(Totals):
    line: int
    value: int

    def pack(self):
        return self.case(28, self.line, self.value)

    def run(self, latest):
        return self.answered(reference_totals.change, self.line, self.value)


@dataclass
class TotalsAppend(Totals):
    value: int

    def pack(self):
        return self.case(29, self.value)

    def run(self, latest):
        return self.answered(reference_totals.append, self.value)


@dataclass
class TotalsCheck(Totals):
    def pack(self):
        return self.case(30)

    def run(self, latest):
        return self.answered(reference_totals.check)


def each_kind(room, count, summary, cent, line, value):
    """The same room, count and summary for all six."""
    lent = room, count, summary
    yield from (TotalsBuild(*lent), TotalsTotal(*lent), TotalsFind(*lent, cent), TotalsChange(*lent, line, value), TotalsAppend(*lent, value), TotalsCheck(*lent))


# ---- The cases ----

# A room of 600 entries, of which 300 lines of 2 cents are in use: three blocks.
COUNT, RIGHT = 300, [512, 88, 0, 600]
ROOM = [2] * COUNT + [7] + [2] * 298 + [7]


def worked_totals():
    """Every cent near the ends of lines and blocks, every line near them, by the right figures."""
    yield from each_kind(listed(ROOM), COUNT, listed(RIGHT), 514, 299, 12)
    for cent in 0, 1, 2, 3, 510, 511, 512, 513, 514, 598, 599, 600, 601, MOST_WORD:
        yield TotalsFind(listed(ROOM), COUNT, listed(RIGHT), cent)
    for line, value in product((0, 1, 254, 255, 256, 257, 298, 299, 300, 511, 512, 599, 600, 2**32, MOST_WORD), (0, 1, 2, 3, 900)):
        yield TotalsChange(listed(ROOM), COUNT, listed(RIGHT), line, value)


def shapes():
    """2, 13 and 21, each on both sides of its limit and before all that follow: rooms around whole blocks, every count, summaries of each length."""
    for entries in 0, 1, 2, 255, 256, 257, 511, 512, 513:
        blocks = -(-entries // 256)
        for count in sorted({0, 1, entries // 2, max(0, entries - 1), entries, entries + 1}):
            for length in sorted({0, max(0, blocks - 1), blocks, blocks + 1, blocks + 2}):
                room = [1] * entries
                summary = right_summary(room, count)[:length]
                yield from each_kind(listed(room), count, listed(summary + [0] * (length - len(summary))), 0, 0, 5)
    for count in MOST_LINES - 1, MOST_LINES, MOST_LINES + 1, 2**32, MOST_WORD:
        for length in 3, 4:
            yield from each_kind(listed(ROOM), count, listed(RIGHT[:length]), 600, 600, MOST_VALUE + 1)


def values():
    """3 and 4: building and check by all lines in use and none past them, change and append by the new value and the new grand total alone."""
    for line, count in product((0, 255, 256, 299, 300), (256, 257, 300, 301)):
        for value in MOST_VALUE, MOST_VALUE + 1, MOST_WORD:
            room = list(ROOM)
            room[line] = value
            yield TotalsBuild(listed(room), count, equal(4, 5))
            yield TotalsCheck(listed(room), count, listed(right_summary(room, count)[:3] + [1]))
    for spare in 0, 1, 2, 3:
        room = [MOST_VALUE] * 99 + [MOST_VALUE - spare] + [1] * 200
        for count in 99, 100, 101, 102, 103, 104, 300:
            yield TotalsBuild(listed(room), count, equal(3, 5))
            yield TotalsCheck(listed(room), count, equal(3, 5))
    for value in 0, 1, 2, 3, MOST_VALUE - 1, MOST_VALUE, MOST_VALUE + 1, MOST_WORD:
        for grand in 0, 1, 2, 3, MOST_TOTAL - MOST_VALUE, MOST_TOTAL - 1, MOST_TOTAL, MOST_TOTAL + 1, MOST_TOTAL + 2, MOST_TOTAL + 3, 2**63, MOST_WORD:
            summary = listed([512, 88, 0, grand])
            for line in 0, 299, 300:
                yield TotalsChange(listed(ROOM), COUNT, summary, line, value)
            for count in COUNT, 600:
                yield TotalsAppend(listed(ROOM), count, summary, value)


def wrong_figures():
    """31: figures that fall below 0 or pass 64 bits, of the block, of the grand total and of both; and old values that no ledger may have."""
    for figure, grand, value in product((0, 1, 2, 3, MOST_WORD - 1, MOST_WORD), (0, 1, 2, 3, 600), (0, 1, 2, 3, 4)):
        yield TotalsChange(listed(ROOM), COUNT, listed([512, figure, 0, grand]), 299, value)
        yield TotalsAppend(listed(ROOM), COUNT, listed([512, figure, 0, grand]), value)
    for old, figure, grand, value in product((0, MOST_VALUE + 1, 2**63, MOST_WORD), (0, 5, 2**63, MOST_WORD), (0, 5, 2**63, MOST_WORD), (0, 5, MOST_VALUE)):
        yield TotalsChange(equal(3, 1, [(1, old)]), 3, listed([figure, grand]), 1, value)


def found_as_they_stand():
    """Figures that are wrong: the line follows from them, or 31 with the block in which no line is found, or past all blocks with their number."""
    for first, second, third in product((0, 1, 510, 511, 512, 513, 600, MOST_WORD), (0, 86, 88, 90, MOST_WORD), (0, 1, MOST_WORD)):
        for cent in 0, 511, 512, 513, 599:
            yield TotalsFind(listed(ROOM), COUNT, listed([first, second, third, 600]), cent)
        yield TotalsCheck(listed(ROOM), COUNT, listed([first, second, third, 600]))
    for grand in 0, 1, 512, 599, 601, 700, MOST_WORD:
        for cent in 0, 511, 512, 599, 600, 601, 699, 700, MOST_WORD - 1, MOST_WORD:
            yield TotalsFind(listed(ROOM), COUNT, listed([*RIGHT[:3], grand]), cent)
        yield TotalsCheck(listed(ROOM), COUNT, listed([*RIGHT[:3], grand]))
        yield TotalsTotal(listed(ROOM), COUNT, listed([*RIGHT[:3], grand]))


def random_room(r):
    """A room of any length, a count, and its summary: right, or with a figure or two that are wrong."""
    entries = r.one_of([r.between(0, 6), r.between(250, 262), r.between(300, 900)])
    changes = {r.below(entries): r.one_of([0, r.below(10**9), r.below(MOST_VALUE)]) for _ in range(r.between(0, 9))} if entries else {}
    ledger = Generated(entries, r.below(2**32), r.below(100), r.one_of([0, 3, 999]), r.below(1_000), tuple(changes.items()))
    count = r.one_of([entries, r.between(0, entries), r.between(0, entries)])
    summary = right_summary(ledger.expand(), count)
    for _ in range(r.one_of([0, 0, 0, 1, 2])):
        place = r.below(len(summary))
        summary[place] = (summary[place] + r.one_of([1, MOST_WORD, r.below(1_000), r.below(2**64)])) % 2**64
    return ledger, count, summary


def random_totals(r, many):
    for _ in range(many):
        ledger, count, summary = random_room(r)
        room = ledger.expand()
        cent = r.below(max(1, r.one_of([sum(room[:count]) + 2, summary[-1] + 1])))
        line = r.one_of([r.below(count + 1), r.below(count + 1), r.below(len(room) + 2)])
        value = r.one_of([0, 1, r.below(1_000), r.below(MOST_VALUE), room[line] if line < len(room) else 9])
        yield from each_kind(ledger, count, listed(summary), min(cent, MOST_WORD), line, value)


def long_rooms():
    """Rooms of many blocks, all lines in use, half of them and none: the right summary, and one with a wrong figure far back."""
    for entries, counts in (25_600, (0, 12_800, 25_600)), (99_999, (99_998,)):
        ledger = Generated(entries, 3, 100, 9_999, 7)
        room = ledger.expand()
        for count in counts:
            summary = right_summary(room, count)
            lent = ledger, count, listed(summary)
            yield from (TotalsBuild(ledger, count, equal(len(summary), 8)), TotalsCheck(*lent), TotalsAppend(*lent, 77), TotalsChange(*lent, count // 2, 77))
            for cent in summary[-1] // 2, max(0, summary[-1] - 1):
                yield TotalsFind(*lent, cent)
            late = len(summary) - 2
            yield TotalsCheck(ledger, count, listed([*summary[:late], summary[late] + 1, summary[-1]]))


def totals_cases(r):
    ways = [worked_totals(), shapes(), values(), wrong_figures(), found_as_they_stand(), random_totals(r, 250), long_rooms()]
    for way in ways:
        yield from way
