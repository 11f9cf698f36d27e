#!/usr/bin/env python3
"""The tables of docs/HANDBOOK.md for the ledger of four programmes (tools/self_test_strata.py), and the text that examples/c/programmes.c prints of it.

    python3 tools/programmes.py write      puts the tables into the page, each in the place of the one with its heading, and writes examples/c/programmes.out
    python3 tools/programmes.py check      compares both with what is there; the sample programmes-four holds the same ledger
"""

import sys
from fractions import Fraction

import reference
import reference_programmes
import reference_strata
from pages import ROOT, is_write, keep_tables
from self_test_strata import COUNTS, DRAWS, ERRORS, LEDGER, PROGRAMMES, STARTS

TEXT = ROOT / "examples/c/programmes.out"
SAMPLE = ROOT / "samples/programmes-four.txt"
LEVEL = 90

PARTS = reference_strata.parts_of(COUNTS, LEDGER)
FIRSTS = [sum(COUNTS[:h]) for h in range(len(COUNTS))]
BOOKS = [sum(part) for part in PARTS]
PLAN = reference_strata.strata_plan(LEDGER, COUNTS, DRAWS).rows
FOUND = reference_strata.strata_project(LEDGER, COUNTS, DRAWS, STARTS, ERRORS)
STATES = reference_strata.started_strata(LEDGER, COUNTS, DRAWS, STARTS)[1]


def table(heading, rows):
    """A table's lines; a cell that is a number is shown with its thousands."""
    shown = [["" if cell is None else f"{cell:,}" if isinstance(cell, int) else cell for cell in row] for row in rows]
    lines = [[""] + cells + [""] for cells in (heading, *shown)]
    made = [" | ".join(cells).strip() for cells in lines]
    return [made[0], "|" + "---|" * len(heading), *made[1:]]


def exact(number):
    """A fraction in decimal digits, which end."""
    return f"{float(number):,.3f}".rstrip("0").rstrip(".")


def ledger_table():
    rows = []
    for name, first, part in zip(PROGRAMMES, FIRSTS, PARTS):
        rows.append([name, f"{first} to {first + len(part) - 1}", ", ".join(map(str, part)), sum(part)])
    return table(["programme", "lines", "book values", "book"], rows)


def shares_table():
    total, rest = sum(BOOKS), DRAWS - sum(book > 0 for book in BOOKS)
    rows = []
    for name, book, row in zip(PROGRAMMES, BOOKS, PLAN):
        first, (whole, remainder) = int(book > 0), divmod(rest * book, total)
        leftover = row.draws - first - whole
        rows.append([name, book, first, exact(Fraction(rest * book, total)), whole, remainder, leftover or None, row.draws])
    added = [sum(cell or 0 for cell in column) for column in ([row[place] for row in rows] for place in (1, 2, 4, 5, 6, 7))]
    rows.append(["all", *added[:2], str(rest), *added[2:]])
    return table(["programme", "book", "first draw", f"{rest} × book / {total:,}", "whole part", "remainder", "leftover draw", "draws"], rows)


def splits_table():
    rows = []
    for name, part, row, start in zip(PROGRAMMES, PARTS, PLAN, STARTS):
        if row.draws == 0:
            rows.append([name, 0, None, None, 0, 0, None])
            continue
        rounds = reference.split_rounds(part, row.draws)
        full = ", ".join(str(part[line]) for line in rounds.full) or None
        points = ", ".join(map(str, range(start, row.sampled_total, row.interval)))
        rows.append([name, row.draws, ", then ".join(map(str, rounds.intervals)), full, row.interval, start, points])
    return table(["programme", "draws", "intervals of the rounds", "full", "J", "start", "points"], rows)


def amounts_table():
    rows, programmes = [], [h for h, count in enumerate(COUNTS) for _ in range(count)]
    for line, (h, value, error, state) in enumerate(zip(programmes, LEDGER, ERRORS, STATES)):
        if error == 0:
            continue
        amount, interval = reference.projected(state, value, error, PLAN[h].interval), PLAN[h].interval
        worked = "full: as it is" if state == reference.FULL else f"{abs(error)} × {interval} / {value} = {float(Fraction(abs(error) * interval, value)):.4g}"
        rows.append([PROGRAMMES[h], line, value, str(error), worked, str(amount)])
    return table(["programme", "line", "value", "error", "size × J / value", "amount"], rows)


def projection_table():
    rows = [[name, *row] for name, row in zip(PROGRAMMES, FOUND.rows)]
    sums = [sum(row[place] for row in FOUND.rows) for place in (0, 2, 3, 4, 5)]
    rows.append(["all", sums[0], None, *sums[1:]])
    return table(["programme", "draws", "J", "full sum", "sampled sum", "understated full", "understated sampled"], rows)


def limits_table():
    """What each programme's own judgement would be, their sum, and that of the ledger drawn as one."""
    rows = []
    for name, part, row, start, errors in zip(PROGRAMMES, PARTS, PLAN, STARTS, reference_strata.parts_of(COUNTS, ERRORS)):
        if row.draws:
            found = reference.judge(LEVEL, part, row.draws, start, errors, 1)
            rows.append([f"{name} by itself", row.draws, row.interval, found.full_sum + found.sampled_sum, found.precision, found.upper_limit, sum(part)])
    rows.append(["added", DRAWS, None, *(sum(row[place] for row in rows) for place in (3, 4, 5, 6))])
    whole = reference.judge(LEVEL, LEDGER, DRAWS, 0, [0] * len(LEDGER), 1)
    interval = reference.split_intervals(LEDGER, DRAWS)[-1]
    rows.append(["the ledger drawn as one, no error", DRAWS, interval, 0, whole.precision, whole.upper_limit, sum(LEDGER)])
    return table(["", "draws", "J", "projected", f"precision at level {LEVEL}", "upper limit", "book"], rows)


# ---- What the example in C prints ----


def columns(heading, rows):
    """Lines of text: the first column to the left, the others to the right, each as wide as its heading."""
    names = heading.split("  ")
    yield heading
    for first, *others in rows:
        yield "  ".join([first.ljust(len(names[0])), *(str(cell).rjust(len(name)) for name, cell in zip(names[1:], others))])


def examined():
    for name, first, part in zip(PROGRAMMES, FIRSTS, PARTS):
        for line in range(first, first + len(part)):
            if STATES[line] != reference.NOT_DRAWN:
                yield name, ("full" if STATES[line] == reference.FULL else "drawn").ljust(8), line, LEDGER[line], ERRORS[line]


def text():
    plan = zip(PROGRAMMES, COUNTS, BOOKS, PLAN, STARTS)
    yield from columns("programme  lines  book  draws  interval  start  sampled total  full lines  full total", (
        (name, count, book, row.draws, row.interval, start, row.sampled_total, row.full_lines, row.full_total) for name, count, book, row, start in plan
    ))
    yield ""
    yield from columns("programme  examined  line  value  error", examined())
    yield ""
    yield from columns("programme  draws  interval  full  sampled  under full  under sampled", ((name, *row) for name, row in zip(PROGRAMMES, FOUND.rows)))
    yield from ("", f"all programmes: overstated {FOUND.overstated}, understated {FOUND.understated}, net {FOUND.net}")


def check_sample():
    """The sample is of this ledger, and its words lead to the same starts."""
    content = reference_programmes.contents_of(SAMPLE.read_bytes())
    found = reference_programmes.starts_of(reference_strata.strata_of(LEDGER, COUNTS, DRAWS), content.words)
    if content != (DRAWS, COUNTS, content.words, LEDGER, ERRORS) or [one.start for one in found] != STARTS:
        sys.exit(f"{SAMPLE.relative_to(ROOT)} is of another ledger")


def main(arguments):
    write = is_write(arguments, __doc__)
    check_sample()
    ways = ledger_table(), shares_table(), splits_table(), amounts_table(), projection_table(), limits_table()
    made = keep_tables(write, "programmes.py", ways, {TEXT: "\n".join([*text(), ""])})
    print(f"programmes: {made} tables and the example's text as computed")


if __name__ == "__main__":
    main(sys.argv[1:])
