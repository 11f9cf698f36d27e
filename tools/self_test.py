"""The reference's self-test: the practice sheet, and what holds over all starts of random ledgers."""

import sys

from reference import (
    DRAWN, EF, FULL, MOST_INTERVAL, NOT_DRAWN, RF, Content, Judgement, Projection, Refusal, Refused, Size, Split, Start,
    chance_is_small, decode, desk, draw, encode, judge, project, project_lines, read, size, split, split_intervals, start, write,
)
from seeded import Seeded

PRACTICE_LEDGER = [30, 30, 40, 20]
PRACTICE_ERRORS = [7, 0, 10, 5]
PRACTICE_FILE = encode(90, 100, 0, [63, 25], PRACTICE_LEDGER, [7, 0, 10, 5])
PRACTICE_TEXT = b"""\
plan 90 120 100 0 3
split 40 3 120 0 0
start 25 2
drawn 0 30 7 10
drawn 2 40 10 10
drawn 3 20 5 10
project 0 30 3 0 0 30
judge 107 137 inconclusive
"""

# Tables 5 and 6 in the rules: RF(0) of each level.
PRINTED_RF0 = {99: 461, 95: 300, 90: 231, 85: 190, 80: 161, 75: 139, 70: 121, 60: 92, 50: 70}


def same(what, found, expected):
    if found != expected:
        sys.exit(f"{what}: found {found}, expected {expected}")


def marks_of(step, *inputs):
    """The marks after a split or a draw of the ledger that comes first."""
    marks = [9] * len(inputs[0])
    step(*inputs, marks)
    return marks


def errors_entered(ledger, n, first_point, true_errors):
    """The true errors of the full and drawn lines, and 0 elsewhere."""
    marks = marks_of(draw, ledger, n, first_point)
    return [error if mark != NOT_DRAWN else 0 for mark, error in zip(marks, true_errors)]


def practice_size():
    same("size, level 95", size(95, 1_000_000, 20_000, 0), Size(150))
    same("size, level 90", size(90, 1_000_000, 20_000, 0), Size(116))
    same("size, AE 4,000", size(95, 1_000_000, 20_000, 4_000), Size(221))
    same("size, AE 12,499", size(95, 1_000_000, 20_000, 12_499), Size(1_875_000))
    same("size, AE 12,500", size(95, 1_000_000, 20_000, 12_500), Refusal(7, 0))


def practice_split():
    ledger = [500, 120, 0, 80, 300]
    same("intervals", split_intervals(ledger, 4), [250, 100, 80])
    same("split", split(ledger, 4, [9] * 5), Split(80, 1, 80, 3, 920))
    same("split marks", marks_of(split, ledger, 4), [2, 2, 0, 0, 2])
    for first_point in range(80):
        same("line 3 drawn", marks_of(draw, ledger, 4, first_point), [2, 2, 0, 1, 2])
    same("ledger 10", split([10], 2, [9]), Split(0, 1, 0, 1, 10))
    same("ledger 10, marks", marks_of(split, [10], 2), [2])
    same("ledger 10, precision", judge(95, [10], 2, 0, [0], 1).precision, 0)


def practice_draw():
    same("J", split(PRACTICE_LEDGER, 3, [9] * 4).interval, 40)
    for first_point, marks in (0, [1, 1, 1, 0]), (25, [1, 0, 1, 1]), (30, [0, 1, 1, 1]):
        same(f"start {first_point}", marks_of(draw, PRACTICE_LEDGER, 3, first_point), marks)
    marks = [9] * 4
    same("start 40", draw(PRACTICE_LEDGER, 3, 40, marks), Refusal(11, 0))
    same("start 40, marks", marks, [9] * 4)


def practice_projection():
    over_all_starts = 0
    for first_point in range(40):
        errors = errors_entered(PRACTICE_LEDGER, 3, first_point, PRACTICE_ERRORS)
        over_all_starts += project(PRACTICE_LEDGER, 3, first_point, errors).sampled_sum
    same("projections over 40 starts", over_all_starts, 900)
    same("against", 40 * sum(PRACTICE_ERRORS), 880)
    same("all four at start 0", project(PRACTICE_LEDGER, 3, 0, PRACTICE_ERRORS), Refusal(15, 3))


def practice_lines():
    amounts = [9] * 4
    same("all four at start 0, lines", project_lines(PRACTICE_LEDGER, 3, 0, PRACTICE_ERRORS, amounts), Refusal(15, 3))
    same("refused lines", amounts, [9] * 4)
    same("start 25, lines", project_lines(PRACTICE_LEDGER, 3, 25, PRACTICE_ERRORS, amounts), Projection(0, 30, 3, 0, 0, 30))
    same("amounts", amounts, [10, 0, 10, 10])
    same("short of an amount", project_lines(PRACTICE_LEDGER, 3, 25, PRACTICE_ERRORS, amounts[:3]), Refusal(13, 0))
    beside_full = [9] * 5
    same("full lines", project_lines([500, 120, 0, 80, 300], 4, 79, [50, 0, 0, 8, 3], beside_full), Projection(53, 8, 1, 0, 0, 61))
    same("a full line projects its error", beside_full, [50, 0, 0, 8, 3])


def practice_judgement():
    projection = 0, 30, 3, 0, 0, 30
    by_level = {90: Judgement(*projection, 107, 137, "inconclusive"), 50: Judgement(*projection, 28, 58, "below")}
    for level, expected in by_level.items():
        same(f"judge {level}", judge(level, PRACTICE_LEDGER, 3, 25, PRACTICE_ERRORS, 100), expected)
    for te, verdict in (59, "below"), (58, "inconclusive"), (30, "inconclusive"), (29, "above"):
        same(f"TE {te}", judge(50, PRACTICE_LEDGER, 3, 25, PRACTICE_ERRORS, te), Judgement(*projection, 28, 58, verdict))


def practice_understated():
    """A drawn line of each kind, a full line of each kind, a net below 0, and what is refused."""
    amounts = [9] * 4
    same("line 0 understated", project_lines(PRACTICE_LEDGER, 3, 25, [-7, 0, 10, 5], amounts), Projection(0, 20, 2, 0, 10, 10))
    same("rounded up in size", amounts, [-10, 0, 10, 10])
    judged = judge(90, PRACTICE_LEDGER, 3, 25, [-7, 0, 10, 5], 100)
    same("judged", judged, Judgement(0, 20, 2, 0, 10, 10, 103, 123, "inconclusive"))
    same("as with no error there", judged[6:], judge(90, PRACTICE_LEDGER, 3, 25, [0, 0, 10, 5], 100)[6:])
    grants = [500, 120, 0, 80, 300]
    same("full lines", project(grants, 4, 79, [-50, 12, 0, -8, 3]), Projection(15, 0, 0, 50, 8, -43))
    for error, answer in (-31, Refusal(14, 0)), (-(2**63), Refusal(14, 0)), (-30, Projection(0, 0, 0, 0, 40, -40)):
        same(f"error {error}", project(PRACTICE_LEDGER, 3, 25, [error, 0, 0, 0]), answer)
    same("line 1 is not drawn", project(PRACTICE_LEDGER, 3, 25, [0, -1, 0, 0]), Refusal(15, 1))
    beside = [1] * 63 + [-10] * 9
    same("63 and understatements", judge(90, [10] * 72, 72, 0, beside, 100)[:6], (0, 63, 63, 0, 90, -27))
    same("64", judge(90, [10] * 72, 72, 0, [1] + beside[:-1], 100), Refusal(16, 0))


def practice_limits():
    same("J above the base's maximum", split([4_000_000_001], 1, [9]).interval, 4_000_000_001)
    same("widest J", split([10**13] * 100, 1, [9] * 100).interval, MOST_INTERVAL)
    same("amount of 93 bits", project([10**13] * 100, 1, 0, [10**13 - 1] + [0] * 99), Projection(0, 10**15 - 100, 1, 0, 0, 10**15 - 100))
    same("amount rounded up", project([10**13] * 99 + [10**13 - 1], 1, 0, [1] + [0] * 99), Projection(0, 100, 1, 0, 0, 100))
    same("widest J handed in", start(MOST_INTERVAL, [0]), Start(0, 1))
    same("one cent more handed in", start(MOST_INTERVAL + 1, [0]), Refusal(10, 0))
    for m, judged in (63, True), (64, False):
        answer = judge(90, [10] * m, m, 0, [1] * m, 10)
        same(f"{m} errors", isinstance(answer, Judgement), judged)
        same(f"{m} errors projected", project([10] * m, m, 0, [1] * m), Projection(0, m, m, 0, 0, m))
    same("64 errors", judge(90, [10] * 64, 64, 0, [1] * 64, 10), Refusal(16, 0))


def practice_file():
    same("desk", desk(PRACTICE_FILE), PRACTICE_TEXT)
    words, values, errors = [1] * 64, [2] * 2_048, [3] * 2_048
    same("read", read(PRACTICE_FILE, words, values, errors), Content(90, 100, 0, 2, 4))
    same("words", words, [63, 25] + [1] * 62)
    same("values", values, PRACTICE_LEDGER + [2] * 2_044)
    same("errors", errors, PRACTICE_ERRORS + [3] * 2_044)
    out = bytearray(200)
    length = write(90, 100, 0, [63, 25], PRACTICE_LEDGER, PRACTICE_ERRORS, out).length
    same("write", bytes(out), PRACTICE_FILE + bytes(200 - length))
    for cut in range(len(PRACTICE_FILE)):
        same("a file cut short", decode_offset(PRACTICE_FILE[:cut]) <= cut, True)
    same("a byte after Z", decode_offset(PRACTICE_FILE + b"Z"), len(PRACTICE_FILE))
    for longest_errors in [1] * 2_048, [-1] * 2_048, [2**63 - 1, -(2**63)] * 1_024:
        longest = encode(99, 1, 1, [0] * 64, [1] * 2_048, longest_errors)
        same("longest file", (len(longest), decode(longest)[3]), (45_663, longest_errors))


def practice_understated_file():
    """E and U in one rising run, each with its own largest size."""
    errors = [7, -(2**63), -10, 2**63 - 1]
    file = encode(90, 100, 0, [63, 25], PRACTICE_LEDGER, errors)
    same("kinds", [file[72 + 13 * record] for record in range(5)], list(b"EUUEZ"))
    same("read back", decode(file)[3], errors)
    for place, byte in (72, b"U"), (85, b"E"), (85 + 12, b"\x81"), (98 + 1, b"\x01"), (98 + 5, b"\x00"), (111 + 12, b"\x80"):
        changed = file[:place] + byte + file[place + 1 :]
        record = 72 + (place - 72) // 13 * 13
        same(f"byte {place} changed", decode_offset(changed), None if place == 72 else record)
    same("L after U", decode_offset(file[:98] + file[36:45] + file[98:]), 98)
    text = desk(encode(90, 100, 0, [63, 25], PRACTICE_LEDGER, [-7, 0, 10, 5])).decode().splitlines()
    same("desk", text[3:4] + text[6:], ["drawn 0 30 -7 -10", "project 0 20 2 0 10 10", "judge 103 123 inconclusive"])


def decode_offset(file):
    """The offset that refusal 17 names."""
    try:
        decode(file)
    except Refused as refused:
        return refused.refusal.place
    return None


def practice_factors():
    """RF(0) as printed, and each factor the least by trying every smaller number."""
    same("RF(0)", {level: RF(level, 0) for level in EF}, PRINTED_RF0)
    least = {level: [] for level in EF}
    for hundredths in range(12_801):
        for level, row in least.items():
            while len(row) < 64 and chance_is_small(level, len(row), hundredths):
                row.append(hundredths)
        if all(len(row) == 64 for row in least.values()):
            break
    same("factors", {level: [RF(level, k) for k in range(64)] for level in EF}, least)


# ---- Self-test: what holds over all starts ----


def random_case(r):
    """A small ledger, a number of draws, and true errors from -v to v, of one kind or of both."""
    most = r.one_of([3, 20, 200])
    ledger = [r.between(0, most) for _ in range(r.between(1, 12))]
    if r.chance(40):
        ledger[r.below(len(ledger))] = r.between(0, 20 * most)
    signs = r.one_of([[1], [-1], [1, -1]])
    errors = [r.one_of(signs) * r.one_of([0, value, r.between(0, value)]) for value in ledger]
    return ledger, r.between(1, 15), errors


def kinds(errors):
    """Overstatements and sizes of understatements, apart."""
    return [max(0, error) for error in errors], [max(0, -error) for error in errors]


def check_all_starts(ledger, n, true_errors):
    """Each sampled line is drawn at as many starts as it has cents, and the projections of each kind add up over the starts."""
    figures, marks = split(ledger, n, [9] * len(ledger)), marks_of(split, ledger, n)
    sampled = [line for line, mark in enumerate(marks) if mark != FULL]
    full_errors = [sum(error for error, mark in zip(kind, marks) if mark == FULL) for kind in kinds(true_errors)]
    times_drawn, over_all_starts = [0] * len(ledger), [0, 0]
    for first_point in range(figures.interval):
        for line, mark in enumerate(marks_of(draw, ledger, n, first_point)):
            times_drawn[line] += mark == DRAWN
        answer = project(ledger, n, first_point, errors_entered(ledger, n, first_point, true_errors))
        same("full sums", [answer.full_sum, answer.understated_full], full_errors)
        over_all_starts[0] += answer.sampled_sum
        over_all_starts[1] += answer.understated_sampled
    same("times drawn", [times_drawn[line] for line in sampled], [ledger[line] for line in sampled])
    for kind, added in zip(kinds(true_errors), over_all_starts):
        true = figures.interval * sum(kind[line] for line in sampled)
        same("added over all starts", true <= added < true + figures.sampled_total, True)


def practice_all_starts():
    r, checked = Seeded(1), 0
    while checked < 400:
        ledger, n, true_errors = random_case(r)
        answer = split(ledger, n, [9] * len(ledger))
        if isinstance(answer, Split):
            same("a draw is left", answer.draws_left >= 1, True)
        if isinstance(answer, Split) and answer.interval > 0:
            check_all_starts(ledger, n, true_errors)
            checked += 1


def run():
    tests = [practice_size, practice_split, practice_draw, practice_projection, practice_lines, practice_judgement]
    tests += [practice_understated, practice_limits, practice_file, practice_understated_file, practice_all_starts, practice_factors]
    for test in tests:
        test()
        print("ok", test.__name__.replace("_", " "))
