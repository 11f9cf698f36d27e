"""The cases of findings by the batch (document 02, K8): each refusal on both sides of its limit and before those that follow it, and what a batch leaves."""

from dataclasses import dataclass
from itertools import product

import reference
import reference_findings
from reference import MOST_VALUE
from vector_forms import fields
from vector_ledgers import interval_of, legal_ledger, random_draws, starts_for
from vector_lists import LEAST_ERROR, MOST_ERROR, MOST_WORD, Generated, equal, listed, signed
from vector_signed import PRACTICE, of_every_kind

MARKS = [1, 0, 1, 1]


# ---- The form of a case: the words are the marks, then the lines, then the errors found ----


@dataclass
class Post:
    """One finding."""

    ledger: object
    marks: object
    errors: object
    line: int
    error: int

    def pack(self):
        numbers = self.line, self.error % 2**64
        return fields(16, numbers=numbers, room=self.marks.count, ledger=self.ledger, errors=self.errors, words=self.marks)

    def run(self, latest):
        ledger, marks, errors = self.ledger.expand(), self.marks.expand(), signed(self.errors.expand())
        latest[:] = bytes(marks)
        answer = reference_findings.post(ledger, latest, errors, self.line, self.error)
        return answer, [ledger, errors, marks, latest]


@dataclass
class PostAll:
    """A batch. The words hold marks, lines and errors found, in this order."""

    ledger: object
    errors: object
    words: object
    marks: int
    lines: int

    def pack(self):
        return fields(17, numbers=(self.lines,), room=self.marks, ledger=self.ledger, errors=self.errors, words=self.words)

    def run(self, latest):
        ledger, errors, words = self.ledger.expand(), signed(self.errors.expand()), self.words.expand()
        latest[:] = bytes(words[: self.marks])
        lines, found = words[self.marks :][: self.lines], signed(words[self.marks + self.lines :])
        answer = reference_findings.post_all(ledger, latest, errors, lines, found)
        return answer, [ledger, errors, words, latest]


def batch(values, marks, errors, pairs):
    lines, found = [line for line, _ in pairs], [error for _, error in pairs]
    return two_lists(values, marks, errors, lines, found)


def two_lists(values, marks, errors, lines, found):
    words = [*marks, *lines, *(error % 2**64 for error in found)]
    return PostAll(listed(values), listed(errors), listed(words), len(marks), len(lines))


def both(values, marks, errors, line, error):
    """One finding, alone and as a batch of one."""
    yield Post(listed(values), listed(marks), listed(errors), line, error)
    yield batch(values, marks, errors, [(line, error)])


# ---- The cases ----


def practice_pairs():
    """Errors of every kind on every line of the practice ledger, and lines that it has not; over what was found before."""
    for line in *range(6), 2**32, 2**63, MOST_WORD:
        for error in of_every_kind((PRACTICE + [0] * 4)[min(line, 7)]):
            yield from both(PRACTICE, MARKS, [3, 0, -2, 20], line, error)


def marks_of_a_byte():
    """Every byte as a mark, with an error and with none, alone and between two pairs that are sound."""
    for mark in range(256):
        for error in 0, 1 - mark % 3 * 5:
            yield Post(listed([9, 9, 9]), listed([1, mark, 2]), listed([4, -4, 4]), 1, error)
        yield batch([9, 9, 9], [1, mark, 2], [4, -4, 4], [(2, 5), (1, -9), (0, 6)])


# What a pair may be, on the practice ledger: sound, clearing, and each fault alone and with those that follow it.
KINDS = [(0, 7), (2, -40), (0, 0), (1, 0), (4, 0), (4, 50), (MOST_WORD, LEAST_ERROR), (3, 21), (1, 31), (1, LEAST_ERROR), (1, 30), (1, -1)]


def faults():
    """Each two and many threes of these one after the other: the first fault is named, and the pairs before it stay."""
    for pairs in [*product(KINDS, repeat=2), *product(KINDS[::2], KINDS[1::2], KINDS[::3])]:
        yield batch(PRACTICE, MARKS, [1, 1, 1, 1], pairs)


def every_position():
    """A batch of twenty with one pair that is refused, at each position; the pairs after it would change lines."""
    values, marks = [100 + line for line in range(20)], [1 + line % 2 for line in range(19)] + [0]
    sound = [(7 * place % 19, 50 - 7 * place) for place in range(20)]
    for position in range(21):
        for wrong in (20, 0), (5, 106), (19, 1):
            yield batch(values, marks, [50] * 20, sound[:position] + [wrong] + sound[position:])


def lengths():
    """13 wherever two lengths differ, before every fault of a pair; and batches without a pair, ledgers without a line."""
    for lines, marks, errors in product((0, 1, 3, 4, 5), repeat=3):
        lent = [30] * lines, [1] * marks, [2] * errors
        yield batch(*lent, [])
        yield batch(*lent, [(0, 7)])
        yield Post(*map(listed, lent), 0, 7)
        yield Post(*map(listed, lent), 9, LEAST_ERROR)
    for lines, found in product(range(4), repeat=2):
        for marks in MARKS, MARKS[:3]:
            yield two_lists(PRACTICE, marks, [1, 1, 1, 1], [0, 9, 1][:lines], [5, 99, -5][:found])
            yield two_lists(PRACTICE, marks, [1, 1, 1, 1], [0, 2, 3][:lines], [5, 9, -5][:found])


def repeated():
    """A later pair for a line replaces the earlier, a 0 clears it, and one that is refused does neither."""
    for last in (0, 9), (0, -9), (0, 0), (0, 31), (1, 0), (1, 1), (4, 0):
        for between in [], [(2, 10)], [(0, 5)], [(0, 0)], [(2, 10), (0, -30), (3, 5), (2, 0)]:
            for after in [], [(3, 20)]:
                yield batch(PRACTICE, MARKS, [0, 0, 0, 0], [(0, 7), *between, last, *after])
    yield batch(PRACTICE, MARKS, [0, 0, 0, 0], [(0, error) for error in range(-30, 32)])
    yield batch(PRACTICE, MARKS, [0, 0, 0, 0], [(0, error) for error in range(30, -32, -1)])


def values_at_edges():
    """Values that no ledger may have, or more than any error: a batch judges no ledger, and errors of every size come up to their value."""
    values = [0, 1, MOST_ERROR - 1, MOST_ERROR, 2**63, 2**63 + 1, MOST_VALUE, MOST_VALUE + 1, MOST_WORD]
    for line, value in enumerate(values):
        for error in sorted({*of_every_kind(min(value, MOST_ERROR - 1)), LEAST_ERROR, MOST_ERROR}):
            yield from both(values, [2] * 9, [LEAST_ERROR, MOST_ERROR] + [5] * 7, line, error)
    yield batch([0] * 3, [1] * 3, [0] * 3, [(0, 0), (1, 0), (2, 1), (0, 0)])
    yield batch([MOST_WORD] * 3, [1, 2, 1], [0] * 3, [(0, MOST_ERROR), (1, LEAST_ERROR), (2, -1)])


def of_a_draw(r, values):
    """Marks as a draw leaves them, for n draws from a start that fits."""
    n, marks = random_draws(r, values), [0] * len(values)
    reference.draw(values, n, starts_for(r, interval_of(values, n)), marks)
    return marks


def random_pair(r, values, marks, sound):
    """A pair that is sound with that chance in a hundred, else one of any kind."""
    examined = [line for line, mark in enumerate(marks) if mark in (1, 2)]
    if examined and r.chance(sound):
        line = r.one_of(examined)
        size = min(MOST_ERROR, values[line])
        return line, r.one_of([1, -1]) * r.one_of([0, size, r.between(0, size)])
    line = r.below(len(values))
    value = min(values[line], 2**62)
    return r.one_of([(line, 0), (line, 1), (line, -value), (line, value + 1), (line, LEAST_ERROR), (len(values) + r.below(3), 0), (r.below(2**64), 1)])


def random_batches(r, count):
    for _ in range(count):
        ledger, values = legal_ledger(r)
        marks = of_a_draw(r, values) if r.chance(70) else [r.one_of([0, 1, 2, 3, 255]) for _ in values]
        errors = [r.one_of([0, 0, value, -value, 7]) for value in values]
        sound = r.one_of([100, 98, 90, 60])
        pairs = [random_pair(r, values, marks, sound) for _ in range(r.between(0, 60))]
        made = batch(values, marks, errors, pairs)
        yield PostAll(ledger, made.errors, made.words, made.marks, made.lines)
        if pairs and r.chance(30):
            yield Post(ledger, listed(marks), listed(errors), *pairs[0])


def long_batches():
    """Ledgers of many lines, and batches of many pairs: all sound, or one that is refused at the end."""
    for lines, pairs in (1_000, 600), (40_000, 400):
        for last in [(0, 7)], [(lines - 1, 10**6)], [(lines, 0)]:
            chosen = [(place * 7_919 % lines, place % 101 - 50) for place in range(pairs)] + last
            words = [line for line, _ in chosen] + [error % 2**64 for _, error in chosen]
            changes = tuple((lines + place, word) for place, word in enumerate(words))
            marks_and_pairs = Generated(lines + len(words), 5, 1, 1, 1, changes)  # each mark is 1 or 2
            yield PostAll(Generated(lines, 9, 50, 9_999, 7), equal(lines, 3), marks_and_pairs, lines, len(chosen))


def findings_cases(r):
    ways = [practice_pairs(), marks_of_a_byte(), faults(), every_position(), lengths(), repeated(), values_at_edges(), random_batches(r, 350), long_batches()]
    for way in ways:
        yield from way
