#!/usr/bin/env python3
"""The tables of docs/HANDBOOK.md for the season of five ledgers: the sample season-five.

    python3 tools/seasons.py write      puts the tables into the page, each in the place of the one with its heading
    python3 tools/seasons.py check      compares the page with what is there
"""

import sys
from fractions import Fraction

import reference_season
import samples
from pages import PAGE, is_write, keep_tables, look_for
from programmes import table
from reference_season import LEVELS, NOT_JUDGED, Season

FIVE = samples.SAMPLES / "season-five.row"


def shown(share):
    return f"{float(100 * share):.2f} %"


def judgements_table(names, entries):
    rows = []
    for place, (name, entry) in enumerate(zip(names, entries)):
        if entry is NOT_JUDGED:
            rows.append([place, name, None, None, None, None, "refused"])
        else:
            rows.append([place, name, entry.level, entry.book, entry.limit, shown(Fraction(entry.limit, entry.book)), entry.verdict])
    return table(["place", "ledger", "level", "book", "upper limit", "share of its book", "verdict"], rows)


def steps_table(names, entries):
    """The tally after each judgement: the sums, and the worst so far."""
    season, rows = Season(), []
    for name, entry in zip(names, entries):
        season.add(entry)
        tally = season.tally()
        worst = f"place {tally.worst}, {tally.worst_limit:,} of {tally.worst_book:,}" if tally.worst_book else "none yet: 0"
        rows.append([name, tally.books, tally.limits, tally.refused, tally.added, worst])
    return table(["after", "books", "limits", "refused", "added", "worst"], rows)


def counts_table(entries):
    season = Season()
    for entry in entries:
        season.add(entry)
    counts = season.tally().counts
    rows = [[str(level), *counts[3 * row : 3 * row + 3]] for row, level in enumerate(LEVELS) if any(counts[3 * row : 3 * row + 3])]
    return table(["level", "below", "inconclusive", "above"], rows)


def check_words(entries, page):
    """The figures that the section tells beside its tables."""
    first, _, second, third, _ = entries
    told = (
        f"{second.limit:,} of {second.book:,} against {first.limit:,} of {first.book:,}",
        f"whether {second.limit:,} × {first.book:,} is more than {first.limit:,} × {second.book:,}",
        f"{max(entry.limit for entry in entries if entry):,} is the largest limit of the five, and the practice ledger leads with {third.limit}: of a book of {third.book}.",
    )
    look_for(told, "HANDBOOK", page)


def main(arguments):
    write = is_write(arguments, __doc__)
    names = [path.stem for path in samples.named_in(FIVE)]
    entries = list(reference_season.files_of(samples.row_of(FIVE)))
    check_words(entries, PAGE.read_text())
    made = keep_tables(write, "seasons.py", [judgements_table(names, entries), steps_table(names, entries), counts_table(entries)])
    print(f"seasons: {made} tables as computed")


if __name__ == "__main__":
    main(sys.argv[1:])
