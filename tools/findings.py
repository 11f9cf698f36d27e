#!/usr/bin/env python3
"""The tables of docs/HANDBOOK.md for findings by the batch, on the practice ledger at start 25, and the text that examples/c/findings.c prints of it.

    python3 tools/findings.py write      puts the tables into the page, each in the place of the one with its heading, and writes examples/c/findings.out
    python3 tools/findings.py check      compares both with what is there, and the exercise on batches with its answer
"""

import sys

import reference
from pages import ANSWERS, PAGE, ROOT, is_write, keep_tables, look_for
from programmes import table
from reference_findings import pairs_posted, posted
from self_test import PRACTICE_LEDGER, marks_of

LEVEL, TE, DRAWS, START = 90, 100, 3, 25
MARKS = marks_of(reference.draw, PRACTICE_LEDGER, DRAWS, START)
NONE = [0] * len(PRACTICE_LEDGER)

FIRST = [(0, 7), (2, 10), (3, 5)]
REFUSED = [(0, 7), (1, 3), (2, 10)]
MENDED = [(3, 3), (2, 10)]
SECOND = [(3, -2), (0, 9), (2, 0)]
TEXT = ROOT / "examples/c/findings.out"
EXERCISE = [(3, 5), (0, 8), (2, 40), (0, 7), (1, 2), (2, 10)]
EXERCISE_MENDED = [(3, 2), (2, 10)]
BATCHES = [
    FIRST,
    [*FIRST, (0, 9)],
    [(0, -7), *FIRST[1:]],
    [*FIRST[:2], (0, 0)],
    [(1, 0)],
    REFUSED,
    [(0, 7), (2, -41), (1, 3)],
    [(0, 7), (2, 10), (4, 0)],
]


def after(pairs, errors=None):
    """The answer to a batch, and the errors that it leaves; from no finding where none is named."""
    return posted(PRACTICE_LEDGER, MARKS, NONE if errors is None else errors, [line for line, _ in pairs], [error for _, error in pairs])


def entries(errors):
    return ", ".join(map(str, errors))


def shown(pairs):
    return ", ".join(f"({line}, {error})" for line, error in pairs)


def answered(answer):
    return f"refused {answer.number} {answer.place}" if isinstance(answer, reference.Refusal) else f"{answer.pairs} posted"


def one_by_one():
    rows = []
    for position, (line, error) in enumerate(FIRST):
        left = after(FIRST[: position + 1])[1]
        rows.append([position, line, error, PRACTICE_LEDGER[line], MARKS[line], entries(left)])
    return table(["position", "line", "error", "its value", "its mark", "the errors then"], rows)


def batches_table():
    rows = []
    for pairs in BATCHES:
        answer, left = after(pairs)
        rows.append([shown(pairs), answered(answer), pairs_posted(answer), entries(left)])
    return table(["pairs, from errors of 0", "answer", "stay posted", "the errors then"], rows)


def example_text():
    """What the example in C prints: two batches of one team, the second with its pair mended, one of another, and the projection."""
    errors, lines = NONE, []
    for pairs in REFUSED, MENDED, SECOND:
        answer, errors = after(pairs, errors)
        refused = isinstance(answer, reference.Refusal)
        lines += [reference.text_line("refused", *answer) if refused else reference.text_line("posted", answer.pairs), reference.text_line("errors", *errors)]
    return "".join([*lines, reference.text_line("project", *reference.project(PRACTICE_LEDGER, DRAWS, START, errors))])


def check_words(page):
    """The figures that the section tells beside its tables."""
    judged = reference.judge(LEVEL, PRACTICE_LEDGER, DRAWS, START, after(FIRST)[1], TE)
    answer, left = after(REFUSED)
    told = (
        f"has the marks {entries(MARKS)}",
        f"a projected error of {judged.full_sum + judged.sampled_sum} and an upper limit of {judged.upper_limit}",
        f"`{answered(answer)}` says that the pair at position {answer.place} is wrong",
        f"{shown(MENDED)} is answered by {answered(after(MENDED, left)[0])}, and the errors are {entries(after(MENDED, left)[1])}",
    )
    look_for(told, "HANDBOOK", page)


def check_exercise():
    answer, left = after(EXERCISE)
    mended = after(EXERCISE_MENDED, left)
    turned = after([EXERCISE[0], EXERCISE[3], EXERCISE[2], EXERCISE[1]])[1]
    told = (
        f"`{answered(answer)}`: the pair at position {answer.place}",
        f"the errors are {entries(left)}: line 0 has {left[0]}",
        f"{shown(EXERCISE_MENDED)} is answered by {answered(mended[0])}, and the errors are {entries(mended[1])}.",
        f"{turned[0]} would stand",
    )
    look_for([shown(EXERCISE)], "EXERCISES", (ROOT / "docs/EXERCISES.md").read_text())
    look_for(told, "ANSWERS", ANSWERS.read_text())


def main(arguments):
    write = is_write(arguments, __doc__)
    check_words(PAGE.read_text())
    check_exercise()
    made = keep_tables(write, "findings.py", [one_by_one(), batches_table()], {TEXT: example_text()})
    print(f"findings: {made} tables and the example's text as computed")


if __name__ == "__main__":
    main(sys.argv[1:])
