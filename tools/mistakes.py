#!/usr/bin/env python3
"""The tables of the handbook: how fast the rounds of a split shrink; what each mistake of document 01's "Where newcomers slip" does to the figures of samples/large-grants,
and to those of the practice ledger over all its starts; and what taking understatements off would do to those of samples/understated-full.

    python3 tools/mistakes.py write      puts the tables into docs/HANDBOOK.md, each in the place of the one with its heading
    python3 tools/mistakes.py check      compares them with those that the page holds

Every row of a mistake is the reference with that mistake put in; the other steps are as they are. A line whose error was found is one that
the right draw takes. Where a mistake draws other lines, an error that it does not find is left out.
"""

import itertools
import sys

import reference
import samples
import self_test
from pages import ROOT, is_write, keep_tables

TOP = 2**64
GRANTS = [500, 120, 0, 80, 300]


class Case:
    """A ledger with its plan, the finished split, the start and the drawn lines."""

    def __init__(self, name):
        file = samples.file_of(ROOT / "samples" / name)
        (self.level, self.te, ae), words, self.ledger, self.errors = reference.decode(file)
        self.n = reference.size(self.level, sum(self.ledger), self.te, ae).draws
        figures, rounds = reference.finished_split(self.ledger, self.n)
        self.interval, self.first_interval = figures.interval, rounds.intervals[0]
        self.full, self.sampled = rounds.full, rounds.sampled
        self.start = reference.start(self.interval, words).start
        self.words = words
        self.drawn = reference.drawn_lines(self.ledger, self.sampled, self.interval, self.start)

    def with_error(self, lines):
        """Those that are overstated: no other error enters the limit and the verdict."""
        return [line for line in lines if self.errors[line] > 0]


def right_amount(error, interval, value):
    return reference.divide_up(error * interval, value)


def amount_of_percent(error, interval, value):
    """The taint rounded to a whole percent, then multiplied."""
    percent = (200 * error + value) // (2 * value)
    return reference.divide_up(percent * interval, 100)


def amount_to_nearest(error, interval, value):
    return (2 * error * interval + value) // (2 * value)


def falling(pairs):
    """Amounts sorted downwards; a pair is an error and its amount."""
    return sorted((amount for _, amount in pairs), reverse=True)


def by_error(pairs):
    return [amount for _, amount in sorted(pairs, key=lambda pair: -pair[0])]


def signed(step):
    return step


def without_sign(step):
    return abs(step)


def as_unsigned(step):
    """The step as a machine's unsigned 64-bit number."""
    return step % TOP


def precision_of(level, interval, amounts, read=signed):
    hundredths = interval * reference.RF(level, 0)
    for i, amount in enumerate(amounts, start=1):
        hundredths += read(reference.RF(level, i) - reference.RF(level, i - 1) - 100) * amount
    return reference.divide_up(hundredths, 100)


def row(name, case, full, drawn, interval, amount=right_amount, order=falling, read=signed, level=None):
    """A table's row: interval, drawn lines, m, projected error, precision, upper limit, verdict."""
    pairs = [(case.errors[line], amount(case.errors[line], interval, case.ledger[line])) for line in case.with_error(drawn)]
    projected = sum(case.errors[line] for line in case.with_error(full)) + sum(found for _, found in pairs)
    precision = precision_of(level or case.level, interval, order(pairs), read)
    limit = projected + precision
    verdict = reference.verdict_of(projected, limit, case.te)
    figures = interval, len(drawn), len(pairs), projected, precision, limit
    return f"| {name} | " + " | ".join(f"{figure:,}" for figure in figures) + f" | {verdict} |"


def one_round_row(case):
    full, others, interval = samples.one_round(case.ledger, case.n)
    start = reference.start(interval, case.words).start
    drawn = reference.drawn_lines(case.ledger, others, interval, start)
    return row("the ledger split once", case, full, drawn, interval)


def full_lines_laid(case):
    """The drawn lines where full lines take up cents of the row."""
    every = reference.drawn_lines(case.ledger, range(len(case.ledger)), case.interval, case.start)
    return [line for line in every if line in case.sampled]


def shrinking(ledger, n):
    """Round by round what the lines lack, where none is above B, of a line of B for each draw; and that times the draws."""
    lines, draws, most, rows = list(ledger), n, max(ledger), []
    for interval in reference.split_rounds(ledger, n).intervals:
        lacking = draws * most - sum(lines)
        rows.append((draws, most, sum(lines), lacking, draws * lacking))
        draws, most = draws - sum(value > interval for value in lines), interval
        lines = [value for value in lines if value <= interval]
    fours = [4 * later[-1] for later in rows[1:]]
    assert all(four <= row[-1] for four, row in zip(fours, rows)) and 4 ** (len(rows) - 2) <= n * n * sum(ledger)
    ends = [f"{four:,}" for four in fours] + [""]
    return [
        "| round | draws d | B | total | A = d × B - total | d × A | 4 × the next d × A |",
        "|---|---|---|---|---|---|---|",
        *("| " + " | ".join([str(place), *(f"{figure:,}" for figure in row), four]) + " |" for place, (row, four) in enumerate(zip(rows, ends), start=1)),
    ]


HEADING = ["| | interval | drawn | m | projected | precision | upper limit | verdict |", "|---|---|---|---|---|---|---|---|"]


def at_its_level(case):
    lines = case.full, case.drawn, case.interval
    return [
        *HEADING,
        row("**right**", case, *lines),
        one_round_row(case),
        row("projected with the first interval", case, case.full, case.drawn, case.first_interval),
        row("taint rounded to a whole percent first", case, *lines, amount=amount_of_percent),
        row("rounded to the nearest cent", case, *lines, amount=amount_to_nearest),
        row("sorted by error", case, *lines, order=by_error),
        row("full lines take up cents", case, case.full, full_lines_laid(case), case.interval),
    ]


def at_level_50(case):
    lines = case.full, case.drawn, case.interval
    return [
        *HEADING,
        row("**right**", case, *lines, level=50),
        row("steps without their sign", case, *lines, level=50, read=without_sign),
        row("steps as unsigned 64-bit numbers", case, *lines, level=50, read=as_unsigned),
    ]


# ---- Over all starts ----


def lines_by_start(case, laid):
    """How many sampled lines are drawn at each start, where these lines are laid end to end."""
    changes, first = [0] * (case.interval + 1), 0
    for line in laid:
        value = case.ledger[line]
        if line in case.sampled and value > 0:
            begins = first % case.interval
            changes[begins] += 1
            if begins + value <= case.interval:
                changes[begins + value] -= 1
            else:
                changes[0] += 1
                changes[begins + value - case.interval] -= 1
        first += value
    counts = list(itertools.accumulate(changes[:-1]))
    return f"{min(counts)} to {max(counts)}"


def over_starts(case):
    other = len(set(full_lines_laid(case)) - set(case.drawn))
    return [
        "| | lines drawn, by the start | at this start, lines that the right draw does not take |",
        "|---|---|---|",
        f"| **right** | {lines_by_start(case, case.sampled)} | 0 |",
        f"| full lines take up cents | {lines_by_start(case, range(len(case.ledger)))} | {other} |",
    ]


def practice_row(name, amount):
    """The projections of the practice ledger at document 01's starts, and added over all forty."""
    ledger, errors, interval = self_test.PRACTICE_LEDGER, self_test.PRACTICE_ERRORS, 40

    def projected(start):
        return sum(
            amount(errors[line], interval, ledger[line]) for line in reference.drawn_lines(ledger, range(4), interval, start)
        )

    figures = projected(0), projected(25), projected(30), sum(map(projected, range(interval))), interval * sum(errors)
    return f"| {name} | " + " | ".join(map(str, figures)) + " |"


def practice_starts():
    return [
        "| | start 0 | start 25 | start 30 | all 40 starts | 40 × the true error |",
        "|---|---|---|---|---|---|",
        practice_row("**right**", right_amount),
        practice_row("rounded to the nearest cent", amount_to_nearest),
    ]


# ---- Understatements ----


def netted(case):
    """The judgement, and what it would be with the understatements taken off the projected error."""
    right = reference.judge(case.level, case.ledger, case.n, case.start, case.errors, case.te)
    rows = []
    for name, projected in ("**right**", right.full_sum + right.sampled_sum), ("understatements taken off", right.net):
        limit = projected + right.precision
        figures = projected, right.precision, limit, case.te
        rows.append(f"| {name} | " + " | ".join(f"{figure:,}" for figure in figures) + f" | {reference.verdict_of(projected, limit, case.te)} |")
    return ["| | projected | precision | upper limit | TE | verdict |", "|---|---|---|---|---|---|", *rows]


def main(arguments):
    write, case = is_write(arguments, __doc__), Case("large-grants.txt")
    rounds, case_under = (shrinking(GRANTS, 4), shrinking(case.ledger, case.n)), Case("understated-full.txt")
    ways = netted(case_under), *rounds, at_its_level(case), over_starts(case), at_level_50(case), practice_starts()
    print(f"mistakes: {keep_tables(write, 'mistakes.py', ways)} tables as computed")


if __name__ == "__main__":
    main(sys.argv[1:])
