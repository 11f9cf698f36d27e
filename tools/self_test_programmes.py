"""The self-test of the sheet of a ledger in strata: the four programmes by hand, each refusal and fault, and what holds of random ledgers."""

import reference
from reference import Refusal, size, text_line
from reference_programmes import Content, answer_to, contents_of, in_strata, sheet
from reference_strata import parts_of, strata_draw, strata_plan, strata_project
from seeded import Seeded
from self_test import random_case, same
from self_test_strata import COUNTS, DRAWS, ERRORS, LEDGER

WORDS = [63, 25, 130, 70]
FOUR = Content(DRAWS, COUNTS, WORDS, LEDGER, ERRORS)
# Roads takes the second word, because 63 is not below 60; water reads none.
GOES_OUT = """\
plan 10 4 1600
stratum 0 4 120 2 60 2 120 0 0 25 2
stratum 1 7 1000 5 150 4 600 1 400 130 1
stratum 2 2 0 0 0 0 0 0 0 0 0
stratum 3 5 480 3 160 3 480 0 0 70 1
drawn 0 30 0 0
drawn 2 40 0 0
full 4 400 0 0
drawn 6 60 0 0
drawn 7 140 0 0
drawn 9 90 0 0
drawn 10 90 0 0
drawn 13 100 0 0
drawn 14 160 0 0
drawn 16 90 0 0
"""
FOUND = {"0 30": "7 14", "2 40": "-10 -15", "4 400": "20 20", "6 60": "5 13", "14 160": "16 16", "16 90": "-4 -8"}
SUMS = "sums 0 0 14 0 15\nsums 1 20 13 0 0\nsums 2 0 0 0 0\nsums 3 0 16 0 8\nall 63 23 40\n"


def programmes_worked():
    same("goes out", sheet(FOUR._replace(errors=[0] * 18)).decode(), GOES_OUT)
    comes_back = GOES_OUT
    for line, told in FOUND.items():
        comes_back = comes_back.replace(f" {line} 0 0\n", f" {line} {told}\n")
    same("comes back", sheet(FOUR).decode(), comes_back + SUMS)


def refusals():
    """Changes of the four programmes, each refusal where it comes first: those named after it apply too."""
    most, late = 10**13, {"words": [], "errors": [99] * 18}
    yield "22 0", {"counts": [], "values": [], "errors": [], "draws": 0, "words": []}
    yield "22 0", {"counts": [0] * 32 + [18], "values": [most + 1] * 18, "draws": 0, **late}
    yield "3 4", {"values": LEDGER[:4] + [most + 1] * 14, "draws": 0, **late}
    yield "4 101", {"counts": [60, 42], "values": [most] * 100 + [0, 1], "errors": [2] * 102, "draws": 0, "words": []}
    yield "5 0", {"values": [0] * 18, "draws": 0, **late}
    yield "8 0", {"draws": 0, **late}
    yield "23 0", {"draws": 2, **late}
    yield "12 0", late
    yield "12 3", {**late, "words": WORDS[:3]}
    yield "12 4", {"words": [63, 62, 61, 60]}
    yield "14 1", {"errors": ERRORS[:1] + [-31, 41] + [0] * 15}
    yield "15 5", {"errors": ERRORS[:5] + [1, 61] + [0] * 11}


def programmes_refused():
    for told, changed in refusals():
        same(f"refused {told}", sheet(FOUR._replace(**changed)).decode(), f"refused {told}\n")
    for draws in 3, 4:
        same("enough", sheet(FOUR._replace(draws=draws, errors=[0] * 18))[:5], b"plan ")


def starts_told(draws, counts, words, values):
    """Of each stratum J, start and words read."""
    told = sheet(Content(draws, counts, words, values, [0] * len(values))).decode().splitlines()
    rows = [line.split() for line in told if line.startswith("stratum ")]
    return [(int(row[5]), int(row[10]), int(row[11])) for row in rows]


def programmes_starts():
    """J of 0 or 1 reads no word; every other stratum goes on after the words that were read."""
    same("no word needed", starts_told(4, [1, 2, 1], [], [5, 1, 1, 0]), [(0, 0, 0), (1, 0, 0), (0, 0, 0)])
    same("in order", starts_told(3, [1, 1, 1, 1], [3, 2, 1], [3, 0, 1, 3]), [(3, 2, 2), (0, 0, 0), (1, 0, 0), (3, 1, 1)])


FAULTS = [
    (b"", "line 1: N has to come first"),
    (b"# no N\n\n", "line 3: N has to come first"),
    (b"S\nN 5\n", "line 1: N has to come first"),
    (b"N 5\nN 5\n", "line 2: a second N"),
    (b"N 5\nP 90 100 0\n", "line 2: the line begins with none of N, S, W, L, E, U and #"),
    (b"n 5\n", "line 1: the line begins with none of N, S, W, L, E, U and #"),
    (b"N\n", "line 1: a number is missing"),
    (b"N 5 0\n", "line 1: a field too many"),
    (b"N 5\nS 5\n", "line 2: a field too many"),
    (b"N -5\n", "line 1: a number has decimal digits only"),
    (b"N 18446744073709551616\n", "line 1: a number passes 64 bits"),
    (b"N 5\nL 30\n", "line 2: S has to come before L"),
    (b"N 5\nL 30\nL x\n", "line 3: a number has decimal digits only"),
    (b"N 5\nS\nW 5\n", "line 3: records come in order N, W, S and L, then E and U"),
    (b"N 5\nS\nL 5\nE 0 1\nS\n", "line 5: records come in order N, W, S and L, then E and U"),
    (b"N 5\nS\nL 5\nU 0 1\nL 5\n", "line 5: records come in order N, W, S and L, then E and U"),
    (b"N 5\nS\nL 5\nE 1 1\n", "line 4: E or U names a line no L has"),
    (b"#" * 500_001, "the text is longer than 500000 bytes"),
    (b"\xef\xbb\xbfN 5\n", "the text begins with a byte-order mark: save it as UTF-8 without one"),
]


def programmes_text():
    text = b"# four\n N\t10\r\nW 63\n\nS\nL 30\nL 40\n  S \nS\nL 20\nE 0 7\nU 2 5"
    same("a text", contents_of(text), Content(10, [2, 0, 1], [63], [30, 40, 20], [7, 0, -5]))
    same("the largest n", contents_of(b"N 18446744073709551615"), Content(2**64 - 1, [], [], [], []))
    same("34 strata", contents_of(b"N 1\n" + b"S\n" * 34).counts, [0] * 34)
    for faulty, told in FAULTS:
        same(faulty[:40], answer_to(faulty), (b"", f"{told}\n".encode()))
    for text, whether in (b"N 5", True), (b"\n# P\n \tN", True), (b"P 90 100 0", False), (b"S\nN 5", False), (b"NN", False), (b"", False):
        same(text, in_strata(text), whether)


# ---- What holds of random ledgers ----


def examined_in(text):
    return [line for line in text.splitlines() if line.split()[0] in ("drawn", "full")]


def check_alone(r):
    """One stratum says what the desk says of the same ledger: split, start, and each line examined; or both refuse."""
    ledger, _, true_errors = random_case(r)
    total, words = sum(ledger), [r.below(2**64) for _ in range(r.below(4))]
    level, te = r.one_of(list(reference.EF)), r.between(1, max(1, total))
    draws = size(level, total, te, 0)
    if isinstance(draws, Refusal):
        return
    content = Content(draws.draws, [len(ledger)], words, ledger, [0] * len(ledger))
    examined = {int(line.split()[1]) for line in examined_in(sheet(content).decode())}
    errors = [error if line in examined or r.chance(3) else 0 for line, error in enumerate(true_errors)]
    desk = reference.desk(reference.encode(level, te, 0, words, ledger, errors)).decode()
    alone = sheet(content._replace(errors=errors)).decode()
    if desk.startswith("refused"):
        same("refused as at the desk", alone, desk)
        return
    _, split, first, *_ = desk.splitlines()
    same("split and start", alone.splitlines()[1], f"stratum 0 {len(ledger)} {total} {draws.draws} {split[6:]} {first[6:]}")
    same("examined", examined_in(alone), examined_in(desk))


def check_starts(told, rows, words):
    """Each start is the low bits of the last word that its stratum reads, and no word before it passes; the starts."""
    read, starts = 0, []
    for line, row in zip(told, rows):
        first, count = map(int, line.split()[-2:])
        low = [word % 2 ** max(0, row.interval - 1).bit_length() for word in words[read : read + count]]
        same("words", [bits < row.interval for bits in low], [False] * (count - 1) + [True] * (count > 0))
        same("start", (first, count > 0), (low[-1] if low else 0, row.interval > 1))
        read, starts = read + count, starts + [first]
    return starts


def check_lines(r):
    """The lines are what the operations by strata answer at the starts that the lines tell."""
    cases = [random_case(r) for _ in range(r.between(1, 6))]
    values, true_errors = (sum((case[place] for case in cases), []) for place in (0, 2))
    counts, draws, words = [len(case[0]) for case in cases], r.between(len(cases), 40), [r.below(2**20) for _ in range(64)]
    if sum(values) == 0:
        return
    content = Content(draws, counts, words, values, [0] * len(values))
    plan, *told = sheet(content).decode().splitlines()
    same("plan", plan, f"plan {draws} {len(counts)} {sum(values)}")
    rows = strata_plan(values, counts, draws).rows
    for number, (part, row) in enumerate(zip(parts_of(counts, values), rows)):
        same("stratum", told[number].split()[1:-2], [str(figure) for figure in (number, len(part), sum(part), *row)])
    starts, marks = check_starts(told, rows, words), [9] * len(values)
    strata_draw(values, counts, draws, starts, marks)
    examined = [f"{'drawn' if mark == 1 else 'full'} {line} {value} 0 0" for line, (mark, value) in enumerate(zip(marks, values)) if mark]
    same("examined", told[len(counts) :], examined)
    errors = [error if mark else 0 for mark, error in zip(marks, true_errors)]
    found = strata_project(values, counts, draws, starts, errors)
    sums = "".join(text_line("sums", number, *row[2:]) for number, row in enumerate(found.rows))
    ends = sheet(content._replace(errors=errors)).decode().endswith(sums + text_line("all", *found[1:4]))
    same("sums where there is an error", ends, any(errors))


def programmes_random():
    r = Seeded(3)
    for _ in range(400):
        check_alone(r)
    for _ in range(200):
        check_lines(r)


def run():
    for test in programmes_worked, programmes_refused, programmes_starts, programmes_text, programmes_random:
        test()
        print("ok", test.__name__.replace("_", " "))
