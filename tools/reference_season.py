"""The tally of a season (document 02, K13): one sheet over all judgements, and the program that prints it.

It is written from the request, on the steps of tools/reference.py: each figure is computed from the list of the judgements added.
"""

from fractions import Fraction
from typing import NamedTuple

from reference import BODY, EF, MOST_SUM, Refusal, Refused, decode, desk, text_line

MOST_JUDGEMENTS = 1_000_000

# Nine rows, one for each level, with three counts.
LEVELS = tuple(EF)
VERDICTS = "below", "inconclusive", "above"


class Judged(NamedTuple):
    """A judgement: its level, the total of its book, its upper limit and its verdict."""

    level: int
    book: int
    limit: int
    verdict: str


# A judgement that was refused.
NOT_JUDGED = None


class Tally(NamedTuple):
    counts: tuple
    books: int
    limits: int
    refused: int
    added: int
    worst: int
    worst_limit: int
    worst_book: int


class Season:
    """The judgements added so far, each at its place, and how many were refused."""

    def __init__(self):
        self.judged, self.refused = {}, 0

    def added(self):
        return len(self.judged) + self.refused

    def total(self, figure):
        return sum(getattr(judged, figure) for judged in self.judged.values())

    def why_not(self, entry):
        """The refusal of one judgement more, or nothing; one that was refused meets only 27."""
        if self.added() == MOST_JUDGEMENTS:
            return Refusal(27, 0)
        if entry is NOT_JUDGED:
            return None
        if entry.level not in LEVELS:
            return Refusal(1, 0)
        if entry.book == 0:
            return Refusal(5, 0)
        if self.total("book") + entry.book > MOST_SUM or self.total("limit") + entry.limit > MOST_SUM:
            return Refusal(28, 0)
        return None

    def add(self, entry):
        """Adds a judgement, or answers why it is refused and changes nothing."""
        why = self.why_not(entry)
        if why is None and entry is NOT_JUDGED:
            self.refused += 1
        elif why is None:
            self.judged[self.added()] = entry
        return why

    def worst(self):
        """The place of the largest share of its book, the earliest on a tie; 0 while there is none."""
        shares = {place: Fraction(judged.limit, judged.book) for place, judged in self.judged.items()}
        return min((place for place in shares if shares[place] == max(shares.values())), default=0)

    def count(self, level, verdict):
        return sum((judged.level, judged.verdict) == (level, verdict) for judged in self.judged.values())

    def tally(self):
        counts = tuple(self.count(level, verdict) for level in LEVELS for verdict in VERDICTS)
        worst = self.worst()
        its = self.judged.get(worst, Judged(0, 0, 0, ""))
        return Tally(counts, self.total("book"), self.total("limit"), self.refused, self.added(), worst, its.limit, its.book)


def season_of(entries):
    """The tally after all entries were offered, and the answer to each."""
    season = Season()
    answers = [season.add(entry) for entry in entries]
    return season.tally(), answers


# ---- Working files that stand in a row ----


def judged_file(file):
    """What the desk says of a file: a judgement, or one that was refused."""
    lines = {words[0]: words[1:] for words in (line.split() for line in desk(file).decode().splitlines())}
    if "refused" in lines:
        return NOT_JUDGED
    level, total, *_ = map(int, lines["plan"])
    _, limit, verdict = lines["judge"]
    return Judged(level, total, int(limit), verdict)


def end_of_file(row):
    """Where the first file of a row ends: after its Z. Nothing where it breaks a rule: nobody knows where it ends."""
    end = 0
    while end < len(row) and row[end] in BODY:
        kind = row[end]
        end += 1 + BODY[kind]
        if kind == ord("Z"):
            break
    try:
        decode(row[:end])
    except Refused:
        return None
    return end


def files_of(row):
    """Each file of a row as it is added; one that breaks a rule is the last."""
    while row:
        end = end_of_file(row)
        yield NOT_JUDGED if end is None else judged_file(row[:end])
        row = b"" if end is None else row[end:]


def sheet_of(tally):
    for row, level in enumerate(LEVELS):
        yield text_line("level", level, *tally.counts[3 * row : 3 * row + 3])
    yield text_line("sums", tally.books, tally.limits, tally.refused, tally.added)
    yield text_line("worst", tally.worst, tally.worst_limit, tally.worst_book)


def overview(row):
    """The whole output for the bytes of standard input: the sheet, or the first refusal of the tally alone."""
    tally, answers = season_of(list(files_of(row)))
    first = next((why for why in answers if why is not None), None)
    return (text_line("refused", *first) if first else "".join(sheet_of(tally))).encode()
