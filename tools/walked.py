#!/usr/bin/env python3
"""The table of docs/HANDBOOK.md for the blackboard method, on the practice ledger at start 25.

    python3 tools/walked.py write      puts the table into the page, in the place of the one with its heading
    python3 tools/walked.py check      compares it with what is there, and what the section tells beside it
"""

import sys

import reference
import reference_board
from pages import PAGE, is_write, keep_tables, look_for
from programmes import table
from self_test import PRACTICE_ERRORS, PRACTICE_LEDGER, marks_of

DRAWS, START = 3, 25
INTERVAL = reference.split(PRACTICE_LEDGER, DRAWS, [0] * 4).interval


def counted(point):
    """What is counted after each line, up to the one that covers the point, or to the last."""
    stop = reference_board.count_off(PRACTICE_LEDGER, set(), point)
    lines = range(len(PRACTICE_LEDGER) if stop is None else stop + 1)
    return ", ".join(str(sum(PRACTICE_LEDGER[: line + 1])) for line in lines), stop


def walk_table():
    rows, point, stop = [], START, 0
    while stop is not None:
        cents, stop = counted(point)
        rows.append([point, cents, "none: the row has ended" if stop is None else f"line {stop}"])
        point += INTERVAL
    return table(["point", "counted off, line by line", "covered by"], rows)


def check_words(page):
    """The figures that the section tells beside its table."""
    projection = reference_board.board_project(PRACTICE_LEDGER, DRAWS, START, PRACTICE_ERRORS)
    marks = marks_of(reference_board.board_draw, PRACTICE_LEDGER, DRAWS, START)
    told = (
        f"The marks are {', '.join(map(str, marks))}",
        f"the projected error is {projection.sampled_sum} with m = {projection.m}",
    )
    look_for(told, "HANDBOOK", page)


def main(arguments):
    write = is_write(arguments, __doc__)
    check_words(PAGE.read_text())
    print(f"walked: {keep_tables(write, 'walked.py', [walk_table()])} table as computed")


if __name__ == "__main__":
    main(sys.argv[1:])
