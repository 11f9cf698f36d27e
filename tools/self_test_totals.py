"""The self-test of totals beside the ledger: a room worked by hand, each refusal, and what holds of random ledgers with their summaries."""

from reference import MOST_LINES, MOST_TOTAL, MOST_VALUE, Refusal
from reference_totals import Checked, Count, Line, Total, append, build, change, check, find, right_summary, total
from seeded import Seeded
from self_test import same

# A room of 600 entries, of which 300 lines of 2 cents are in use: three blocks.
ROOM = [2] * 300 + [7] * 300
RIGHT = [512, 88, 0, 600]


def totals_worked():
    summary = [9] * 4
    same("building", build(list(ROOM), 300, summary), Total(600))
    same("the summary", summary, RIGHT)
    same("the total", total(ROOM, 300, RIGHT), Total(600))
    for cent, line in (0, 0), (1, 0), (2, 1), (511, 255), (512, 256), (514, 257), (599, 299):
        same(f"cent {cent}", find(ROOM, 300, RIGHT, cent), Line(line))
    same("a figure that is wrong", find(ROOM, 300, [510, 90, 0, 600], 514), Line(258))
    same("right", check(ROOM, 300, RIGHT), Checked(0, 0))
    same("a wrong block", check(ROOM, 300, [512, 87, 1, 600]), Checked(1, 1))
    same("the grand total", check(ROOM, 300, [512, 88, 0, 601]), Checked(1, 3))
    room, summary = list(ROOM), list(RIGHT)
    same("a change", change(room, 300, summary, 299, 12), Total(610))
    same("it leaves", (room[299], summary), (12, [512, 98, 0, 610]))
    same("an append", append(room, 300, summary, 5), Count(301))
    same("it leaves", (room[300], summary), (5, [512, 103, 0, 615]))
    same("no entries", (build([], 0, [4]), total([], 0, [4]), check([], 0, [0]), append([], 0, [0], 1)), (Total(0), Total(4), Checked(0, 0), Refusal(18, 1)))


# Operation, inputs after the room of 600, and the refusal.
REFUSED = [
    ("2", build, (MOST_LINES + 1, RIGHT), Refusal(2, 0)),
    ("2 for an append", append, (MOST_LINES, RIGHT, 1), Refusal(2, 0)),
    ("13 for a change of as many", change, (MOST_LINES, RIGHT, 0, 1), Refusal(13, 0)),
    ("13", total, (601, RIGHT), Refusal(13, 0)),
    ("13 before 21", check, (601, RIGHT[1:]), Refusal(13, 0)),
    ("21", find, (300, RIGHT[1:], 0), Refusal(21, 0)),
    ("21 before 20", find, (300, [*RIGHT, 0], 600), Refusal(21, 0)),
    ("20 for a cent", find, (300, RIGHT, 600), Refusal(20, 0)),
    ("20 for a line", change, (300, RIGHT, 300, 1), Refusal(20, 0)),
    ("20 before 3", change, (300, RIGHT, 300, MOST_VALUE + 1), Refusal(20, 0)),
    ("3", change, (300, RIGHT, 7, MOST_VALUE + 1), Refusal(3, 7)),
    ("3 before 4", change, (300, [0, 0, 0, MOST_TOTAL], 7, MOST_VALUE + 1), Refusal(3, 7)),
    ("3 of an append", append, (300, RIGHT, MOST_VALUE + 1), Refusal(3, 300)),
    ("4", change, (300, [512, 88, 0, MOST_TOTAL], 7, 3), Refusal(4, 7)),
    ("4 of an append in a full room", append, (600, [0, 0, 0, MOST_TOTAL], 1), Refusal(4, 600)),
    ("18", append, (600, [0, 0, 0, 1], 1), Refusal(18, 601)),
    ("31 where no line is found", find, (300, [600, 88, 0, 600], 599), Refusal(31, 0)),
    ("31 past all blocks", find, (300, [100, 88, 0, 600], 599), Refusal(31, 3)),
    ("31 for the block first", change, (300, [512, 1, 0, 1], 299, 0), Refusal(31, 1)),
    ("31 for the grand total", change, (300, [512, 88, 0, 1], 299, 0), Refusal(31, 3)),
    ("31 past 64 bits", append, (300, [0, 2**64 - 1, 0, 600], 1), Refusal(31, 1)),
]


def totals_refused():
    for what, operation, (count, summary, *inputs), refusal in REFUSED:
        room, lent = list(ROOM), list(summary)
        same(what, operation(room, count, lent, *inputs), refusal)
        same(f"{what} leaves", (room, lent), (ROOM, summary))
    for line, value, number in (290, MOST_VALUE + 1, 3), (299, MOST_VALUE, 4):
        room = [MOST_VALUE] * 100 + [0] * 500
        room[line] = value
        for operation in build, check:
            same(f"{number} by all lines in use", operation(list(room), 300, [0] * 4), Refusal(number, line))
            same("not past the count", isinstance(operation(list(room), line, [0] * 4), Refusal), False)


def random_room(r):
    """A room, a count of lines in use, and the summary that agrees."""
    entries = r.one_of([r.between(0, 5), r.between(250, 260), r.between(500, 800)])
    room = [r.one_of([0, 0, 1, r.below(50), r.below(10**9)]) for _ in range(entries)]
    count = r.between(0, entries)
    return room, count, right_summary(room, count)


def totals_alone():
    """While the summary agrees, total and line are those of the ledger alone."""
    r = Seeded(10)
    for _ in range(400):
        room, count, summary = random_room(r)
        same("right", check(room, count, summary), Checked(0, 0))
        same("the sum", total(room, count, summary), Total(sum(room[:count])))
        for cent in (r.below(sum(room[:count]) + 3) for _ in range(5)):
            answer = find(room, count, summary, cent)
            if cent >= sum(room[:count]):
                same("past", answer, Refusal(20, 0))
            else:
                same("the line", sum(room[: answer.line]) <= cent < sum(room[: answer.line + 1]) and answer.line < count, True)


def totals_kept():
    """Changes and appends one after the other keep it: after each the summary is the one that building writes."""
    r = Seeded(11)
    for _ in range(60):
        room, count, summary = random_room(r)
        for _ in range(40):
            value = r.one_of([0, r.below(100), r.below(10**9)])
            if r.chance(50) and count:
                line = r.below(count)
                before = sum(room[:count]) - room[line]
                same("changed", change(room, count, summary, line, value), Total(before + value))
            elif count < len(room):
                same("appended", append(room, count, summary, value), Count(count + 1))
                count += 1
            same("it agrees", summary, right_summary(room, count))
            built = list(summary)
            same("as built", (build(room, count, built), built), (Total(sum(room[:count])), summary))


def totals_wrong():
    """A figure that is wrong is named, the first of several, and the check is right of no other summary."""
    r = Seeded(12)
    for _ in range(400):
        room, count, summary = random_room(r)
        places = sorted({r.below(len(summary)) for _ in range(r.between(1, 3))})
        for place in places:
            summary[place] = (summary[place] + r.one_of([1, 2**63, 2**64 - 1])) % 2**64
        same("the first", check(room, count, summary), Checked(1, places[0]))


def run():
    for test in totals_worked, totals_refused, totals_alone, totals_kept, totals_wrong:
        test()
        print("ok", test.__name__.replace("_", " "))
