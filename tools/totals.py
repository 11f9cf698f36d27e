#!/usr/bin/env python3
"""The tables of docs/HANDBOOK.md for totals beside the ledger, on a room of 600 entries with 300 lines of 2 cents in use, and the text that
examples/c/totals.c prints of it.

    python3 tools/totals.py write      puts the tables into the page, each in the place of the one with its heading, and writes examples/c/totals.out
    python3 tools/totals.py check      compares both with what is there, and the exercise on a summary with its answer
"""

import sys

from pages import ANSWERS, ROOT, is_write, keep_tables, look_for
from programmes import table
from reference import Refusal, text_line
from reference_totals import PER_BLOCK, append, build, change, check, find, right_summary, total

ROOM, COUNT = [2] * 600, 300
RIGHT = right_summary(ROOM, COUNT)
TEXT = ROOT / "examples/c/totals.out"
WRONG_BLOCK, WRONG_SUM, TOO_MUCH, TOO_LITTLE = [510, 90, 0, 600], [512, 88, 0, 601], [600, 88, 0, 600], [100, 88, 0, 600]

# A call in words, the operation, the summary before it, and its inputs.
CALLS = [
    ("total", total, RIGHT, ()),
    ("find cent 0", find, RIGHT, (0,)),
    ("find cent 511", find, RIGHT, (511,)),
    ("find cent 514", find, RIGHT, (514,)),
    ("find cent 600", find, RIGHT, (600,)),
    ("check", check, RIGHT, ()),
    ("change line 299 to 12", change, RIGHT, (299, 12)),
    ("change line 300 to 12", change, RIGHT, (300, 12)),
    ("append 5", append, RIGHT, (5,)),
    ("check", check, WRONG_BLOCK, ()),
    ("find cent 514", find, WRONG_BLOCK, (514,)),
    ("check", check, WRONG_SUM, ()),
    ("find cent 599", find, TOO_MUCH, (599,)),
    ("find cent 599", find, TOO_LITTLE, (599,)),
    ("change line 299 to 0", change, [512, 1, 0, 1], (299, 0)),
    ("change line 299 to 0", change, [512, 88, 0, 1], (299, 0)),
    ("build", build, TOO_LITTLE, ()),
]

# The exercise: a room of 520 entries with 257 lines of 10 cents, of which line 0 is changed and one more is appended; and a summary with a wrong figure.
EXERCISE_ROOM, EXERCISE_COUNT = [10] * 520, 257


def entries(figures):
    return ", ".join(map(str, figures))


def answered(answer):
    if isinstance(answer, Refusal):
        return f"refused {answer.number} {answer.place}"
    if answer._fields == ("wrong", "block"):
        return f"wrong, block {answer.block}" if answer.wrong else "right"
    return f"{answer._fields[0]} {answer[0]}"


def blocks_table():
    rows = []
    for block, figure in enumerate(RIGHT[:-1]):
        first, last = block * PER_BLOCK, min(len(ROOM), (block + 1) * PER_BLOCK) - 1
        used = max(0, min(COUNT, last + 1) - first)
        rows.append([str(block), f"{first} to {last}", used, figure])
    return table(["block", "entries of the room", "lines in use", "total"], [*rows, ["", "all", COUNT, RIGHT[-1]]])


def calls_table():
    rows = []
    for words, operation, before, inputs in CALLS:
        room, summary = list(ROOM), list(before)
        answer = operation(room, COUNT, summary, *inputs)
        rows.append([words, entries(before), answered(answer), entries(summary)])
    return table(["call", "summary before", "answer", "summary then"], rows)


def example_text():
    """What the example in C prints: a day's calls, and the check before and after a line that is changed past the library."""
    room, count, summary, lines = list(ROOM), COUNT, [0] * len(RIGHT), []

    def say(call, shown, *inputs, left=False):
        answer = call(room, count, summary, *inputs)
        lines.append(text_line("refused", *answer) if isinstance(answer, Refusal) else shown(answer))
        if left:
            lines.append(text_line("summary", *summary))
        return answer

    def night():
        say(check, lambda a: text_line("wrong from block", a.block) if a.wrong else text_line("right"))

    def anew():
        say(build, lambda a: text_line("built", a.total), left=True)

    anew()
    say(find, lambda a: text_line("cent", 514, "line", a.line), 514)
    for line in 0, COUNT:
        say(change, lambda a, line=line: text_line("changed", line, "total", a.total), line, 7, left=True)
    count = say(append, lambda a: text_line("appended count", a.count), 5, left=True).count
    say(total, lambda a: text_line("total", a.total))
    say(find, lambda a: text_line("cent", 609, "line", a.line), 609)
    night()
    room[0] = 2
    night()
    anew()
    night()
    return "".join(lines)


def check_exercise():
    room, count = list(EXERCISE_ROOM), EXERCISE_COUNT
    summary = [0] * len(right_summary(room, count))
    built = build(room, count, summary)
    told = [f"{answered(built)}, and the summary is {entries(summary)}"]
    told.append(f"Cent 2,559 is on {answered(find(room, count, summary, 2_559))}, cent 2,560 on {answered(find(room, count, summary, 2_560))}")
    told.append(f"cent 2,570 is `{answered(find(room, count, summary, 2_570))}`")
    changed = change(room, count, summary, 0, 3)
    told.append(f"{answered(changed)}, and the summary is {entries(summary)}")
    more = append(room, count, summary, 4)
    told.append(f"{answered(more)}, and the summary is {entries(summary)}")
    wrong = [summary[0] - 7, *summary[1:]]
    told.append(f"{answered(check(room, more.count, wrong))}")
    told.append(f"Cent 2,550 is then on {answered(find(room, more.count, wrong, 2_550))}, where the right summary has {answered(find(room, more.count, summary, 2_550))}")
    told.append(f"`{answered(find(room, more.count, [summary[0] + 30, *summary[1:]], 2_560))}`")
    look_for(told, "ANSWERS", ANSWERS.read_text())


def main(arguments):
    write = is_write(arguments, __doc__)
    check_exercise()
    made = keep_tables(write, "totals.py", [blocks_table(), calls_table()], {TEXT: example_text()})
    print(f"totals: {made} tables, the example's text and the exercise as computed")


if __name__ == "__main__":
    main(sys.argv[1:])
