#!/usr/bin/env python3
"""The tables of docs/HANDBOOK.md for two teams on one ledger, on the practice ledger, and the text that examples/c/teams.c prints of it.

    python3 tools/teams.py write      puts the tables into the page, each in the place of the one with its heading, and writes examples/c/teams.out
    python3 tools/teams.py check      compares both with what is there, and the exercise on two teams with its answer
"""

import sys

import reference
from findings import answered, entries, shown
from pages import ANSWERS, PAGE, ROOT, is_write, keep_tables, look_for
from programmes import table
from reference_findings import pairs_posted
from reference_teams import TEAM_A, TEAM_B, own_bits, put_own, team_draw, team_post_all, team_split
from self_test import PRACTICE_LEDGER
from self_test_teams import TABLE

LEVEL, TE, DRAWS = 90, 100, 3
STARTS = {TEAM_A: 25, TEAM_B: 0}
NONE = [0] * len(PRACTICE_LEDGER)
TEXT = ROOT / "examples/c/teams.out"

# What the teams found; B misreads its last line, which is then mended.
FOUND = {TEAM_A: [(0, 7), (2, 10), (3, 5)], TEAM_B: [(0, 7), (2, 10), (3, 4)]}
MENDED = [(1, 4)]

# The exercise: marks that are not 0 before, B draws first, and a batch that both teams post.
EXERCISE_TABLE, EXERCISE_STARTS, EXERCISE_PAIRS = [192, 2, 15, 73], {TEAM_B: 25, TEAM_A: 30}, [(2, 10), (3, 5), (1, -3)]


def drawn(starts, marks):
    """The marks after each team's draw in turn, those before it first."""
    tables = [list(marks)]
    for team, start in starts.items():
        tables.append(list(tables[-1]))
        team_draw(team, PRACTICE_LEDGER, DRAWS, start, tables[-1])
    return tables


def posted(team, marks, pairs, errors=None):
    left = list(NONE if errors is None else errors)
    return team_post_all(team, PRACTICE_LEDGER, marks, left, [line for line, _ in pairs], [error for _, error in pairs]), left


def bits(mark):
    """Bits 7 to 4, then team B's, then team A's."""
    return f"{mark >> 4:04b} {mark >> 2 & 3:02b} {mark & 3:02b}"


def bytes_table():
    tables = drawn(STARTS, TABLE)
    reads = [own_bits(team, tables[-1]) for team in STARTS]
    rows = [[line, value, *(bits(marks[line]) for marks in tables), *(own[line] for own in reads)] for line, value in enumerate(PRACTICE_LEDGER)]
    return table(["line", "value", "before", "after A's draw", "after B's draw", "A reads", "B reads"], rows)


def called(call, team, *numbers):
    """A call on marks that stay as they are: its answer in a few words, and the marks then."""
    marks = drawn(STARTS, TABLE)[-1]
    answer = call(team, PRACTICE_LEDGER, *numbers, marks)
    if isinstance(answer, reference.Refusal):
        return answered(answer), entries(marks)
    return (f"{answer.drawn_lines} drawn" if call is team_draw else f"J = {answer.interval}"), entries(marks)


def calls_table():
    tables = drawn(STARTS, TABLE)
    rows = [
        ["A draws from start 25", "3 drawn", entries(tables[1])],
        ["then B from start 0", "3 drawn", entries(tables[2])],
        ["then B from start 40", *called(team_draw, TEAM_B, DRAWS, 40)],
        ["or C from start 0", *called(team_draw, 0x43, DRAWS, 0)],
        ["or B from start 30", *called(team_draw, TEAM_B, DRAWS, 30)],
        ["or A splits", *called(team_split, TEAM_A, DRAWS)],
        ["or B splits", *called(team_split, TEAM_B, DRAWS)],
    ]
    return table(["call, with 3 draws", "answer", "the marks then"], rows)


def findings_table():
    marks, rows = drawn(STARTS, TABLE)[-1], []
    ways = [(TEAM_A, FOUND[TEAM_A]), (TEAM_B, FOUND[TEAM_B]), (TEAM_A, MENDED), (TEAM_B, MENDED), (TEAM_A, [(1, 0)]), (0x43, FOUND[TEAM_A])]
    for team, pairs in ways:
        answer, left = posted(team, marks, pairs)
        rows.append([chr(team), shown(pairs), answered(answer), entries(left)])
    return table(["team", "its pairs, from errors of 0", "answer", "the errors then"], rows)


def project_line(team, errors):
    return f"{chr(team)} " + reference.text_line("project", *reference.project(PRACTICE_LEDGER, DRAWS, STARTS[team], errors))


def example_text():
    """What the example in C prints: both draws, each team's findings, B's last pair mended, and each team's projection."""
    tables = drawn(STARTS, TABLE)
    lines, ends = [reference.text_line("marks", *tables[0])], {}
    for team, marks in zip(STARTS, tables[1:]):
        lines += [f"{chr(team)} drawn {own_bits(team, marks).count(1)}\n", reference.text_line("marks", *marks)]
    for team in STARTS:
        errors, pairs = NONE, FOUND[team]
        while pairs:
            answer, errors = posted(team, tables[-1], pairs, errors)
            refused = isinstance(answer, reference.Refusal)
            lines.append(f"{chr(team)} " + (reference.text_line("refused", *answer) if refused else reference.text_line("posted", answer.pairs)))
            lines.append(reference.text_line("errors", *errors))
            pairs = MENDED if refused else []
        ends[team] = errors
    return "".join([*lines, *(project_line(team, errors) for team, errors in ends.items())])


def check_words(page):
    """The figures that the section tells beside its tables."""
    marks = drawn(STARTS, TABLE)[-1]
    turned = dict(reversed(STARTS.items()))
    assert drawn(turned, TABLE)[-1] == marks, "in either order"
    ends = {team: FOUND[team][: pairs_posted(posted(team, marks, FOUND[team])[0])] for team in STARTS}
    ends[TEAM_B] += MENDED
    judged = {team: reference.judge(LEVEL, PRACTICE_LEDGER, DRAWS, STARTS[team], posted(team, marks, pairs)[1], TE) for team, pairs in ends.items()}
    sums = {team: (figures.full_sum + figures.sampled_sum, figures.upper_limit) for team, figures in judged.items()}
    table_of_threes = list(marks)
    put_own(TEAM_B, table_of_threes, [3] * 4)
    assert posted(TEAM_B, table_of_threes, [(0, 7)])[0] == reference.Refusal(15, 0)
    told = (
        f"the bytes are {entries(TABLE)}",
        f"and then A, the marks go from {entries(drawn(turned, TABLE)[1])} to the same {entries(marks)}",
        f"A has a projected error of {sums[TEAM_A][0]} and an upper limit of {sums[TEAM_A][1]}, B of {sums[TEAM_B][0]} and {sums[TEAM_B][1]}",
    )
    look_for(told, "HANDBOOK", page)


def check_exercise():
    tables = drawn(EXERCISE_STARTS, EXERCISE_TABLE)
    answers = {team: posted(team, tables[-1], EXERCISE_PAIRS) for team in EXERCISE_STARTS}
    threes = [mark | 12 for mark in tables[-1]]
    told = (
        f"After B's draw they are {entries(tables[1])}, after A's {entries(tables[2])}.",
        f"B's batch is `{answered(answers[TEAM_B][0])}`, and its errors are {entries(answers[TEAM_B][1])}",
        f"A's is answered by {answered(answers[TEAM_A][0])}, and its errors are {entries(answers[TEAM_A][1])}",
        f"they are {entries(threes)}, and B's batch is `{answered(posted(TEAM_B, threes, EXERCISE_PAIRS)[0])}`",
    )
    look_for([entries(EXERCISE_TABLE), shown(EXERCISE_PAIRS)], "EXERCISES", (ROOT / "docs/EXERCISES.md").read_text())
    look_for(told, "ANSWERS", ANSWERS.read_text())


def main(arguments):
    write = is_write(arguments, __doc__)
    check_words(PAGE.read_text())
    check_exercise()
    made = keep_tables(write, "teams.py", [bytes_table(), calls_table(), findings_table()], {TEXT: example_text()})
    print(f"teams: {made} tables and the example's text as computed")


if __name__ == "__main__":
    main(sys.argv[1:])
