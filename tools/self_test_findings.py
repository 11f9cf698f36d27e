"""The self-test of findings by the batch: the practice ledger worked by hand, each refusal, and what holds of random batches."""

from reference import NOT_DRAWN, Refusal, draw, project
from reference_findings import Posted, pairs_posted, post, post_all, posted
from seeded import Seeded
from self_test import PRACTICE_LEDGER, marks_of, random_case, same

MARKS = [1, 0, 1, 1]
NONE = [0, 0, 0, 0]

# What the teams return with: lines and errors, answer, and the errors left, from no finding each time.
WORKED = [
    ("a batch", [0, 2, 3], [7, 10, 5], Posted(3), [7, 0, 10, 5]),
    ("a later pair replaces the earlier", [0, 2, 3, 0], [7, 10, 5, 9], Posted(4), [9, 0, 10, 5]),
    ("an understatement", [0, 2, 3], [-7, 10, 5], Posted(3), [-7, 0, 10, 5]),
    ("0 clears a finding", [0, 2, 0], [7, 10, 0], Posted(3), [0, 0, 10, 0]),
    ("0 on a line that was not drawn", [1], [0], Posted(1), NONE),
    ("the whole value, of either kind", [0, 2], [30, -40], Posted(2), [30, 0, -40, 0]),
    ("no pair", [], [], Posted(0), NONE),
    ("15 in the middle", [0, 1, 2], [7, 3, 10], Refusal(15, 1), [7, 0, 0, 0]),
    ("15 for an understatement", [1], [-1], Refusal(15, 0), NONE),
    ("14 at the last", [0, 2, 3], [7, 10, 21], Refusal(14, 2), [7, 0, 10, 0]),
    ("14 by size", [0], [-31], Refusal(14, 0), NONE),
    ("14 for the least number", [3, 2], [5, -(2**63)], Refusal(14, 1), [0, 0, 0, 5]),
    ("14 before 15 on a pair", [1], [31], Refusal(14, 0), NONE),
    ("20", [4], [1], Refusal(20, 0), NONE),
    ("20 for an error of 0", [0, 2**64 - 1], [7, 0], Refusal(20, 1), [7, 0, 0, 0]),
    ("20 before 14", [4], [-(2**63)], Refusal(20, 0), NONE),
    ("an earlier 15 before a later 20", [1, 4], [1, 1], Refusal(15, 0), NONE),
    ("13 for the lists", [4], [], Refusal(13, 0), NONE),
]


def findings_worked():
    for what, lines, found, answer, left in WORKED:
        same(what, posted(PRACTICE_LEDGER, MARKS, NONE, lines, found), (answer, left))
    same("the marks are the draw's", marks_of(draw, PRACTICE_LEDGER, 3, 25), MARKS)
    errors = [7, 0, 10, 5]
    same("one finding", post(PRACTICE_LEDGER, MARKS, errors, 0, -9), Posted(1))
    same("it replaces the former", errors, [-9, 0, 10, 5])
    for line, error, number in (4, 0, 20), (0, 31, 14), (1, 1, 15):
        same(f"one finding, {number}", post(PRACTICE_LEDGER, MARKS, errors, line, error), Refusal(number, 0))
    same("a refused one leaves the errors", errors, [-9, 0, 10, 5])


def findings_lengths():
    """13 before any pair, wherever the lengths differ; the ledger itself is not judged, and a mark counts as it stands."""
    for ledger, marks, errors in ([9, 9], [1], [0, 0]), ([9, 9], [1, 1], [0]), ([9], [1, 1], [0]), ([], [], [0]):
        before = list(errors)
        same("13", post_all(ledger, marks, errors, [7], [1]), Refusal(13, 0))
        same("13 without a pair", post_all(ledger, marks, errors, [], []), Refusal(13, 0))
        same("13 of one", post(ledger, marks, errors, 7, 1), Refusal(13, 0))
        same("13 leaves the errors", errors, before)
    same("no lines", posted([], [], [], [0], [0]), (Refusal(20, 0), []))
    same("no lines and no pair", posted([], [], [], [], []), (Posted(0), []))
    same("no judging", posted([2**64 - 1, 0], [2, 1], [0, 0], [0, 1, 0], [2**63 - 1, 0, -(2**63)])[0], Posted(3))
    for mark in range(256):
        same(f"mark {mark}", post([9], [mark], [0], 0, 1), Posted(1) if mark in (1, 2) else Refusal(15, 0))


def random_batch(r, spoiled=30):
    """A small ledger with the marks of a draw, and pairs on it: now and then one that is refused."""
    ledger, n, _ = random_case(r)
    marks = marks_of(draw, ledger, n, 0)
    if 9 in marks:
        return random_batch(r, spoiled)
    examined = [line for line, mark in enumerate(marks) if mark != NOT_DRAWN]
    lines, found = [], []
    for _ in range(r.between(0, 12)):
        line = r.one_of(examined)
        error = r.one_of([1, -1]) * r.between(0, ledger[line])
        if r.chance(spoiled) and r.chance(30):
            line, error = r.one_of([(r.below(len(ledger)), error), (len(ledger) + r.below(3), error), (line, ledger[line] + 1)])
        lines.append(line)
        found.append(error)
    errors = [r.one_of([0, 0, value]) if mark else 0 for value, mark in zip(ledger, marks)]
    return ledger, n, marks, errors, lines, found


def findings_singly():
    """A batch is its pairs posted singly; each line has its last error of those that stay posted."""
    r = Seeded(8)
    for _ in range(600):
        ledger, _, marks, errors, lines, found = random_batch(r)
        answer, left = posted(ledger, marks, errors, lines, found)
        singly, answers = list(errors), []
        for line, error in zip(lines, found):
            answers.append(post(ledger, marks, singly, line, error))
            if isinstance(answers[-1], Refusal):
                break
        same("singly", singly, left)
        refused = [Refusal(why.number, place) for place, why in enumerate(answers) if isinstance(why, Refusal)]
        same("its answer", refused[0] if refused else Posted(len(answers)), answer)
        last = dict(list(zip(lines, found))[: pairs_posted(answer)])
        same("the last of each line", [last.get(line, error) for line, error in enumerate(errors)], left)


def findings_cut():
    """A batch cut in two is the batch: the second part is posted where the first is accepted, its positions counted on."""
    r = Seeded(81)
    for _ in range(300):
        ledger, _, marks, errors, lines, found = random_batch(r)
        cut = r.between(0, len(lines))
        answer, left = posted(ledger, marks, errors, lines[:cut], found[:cut])
        if isinstance(answer, Posted):
            more, left = posted(ledger, marks, left, lines[cut:], found[cut:])
            answer = Refusal(more.number, more.place + cut) if isinstance(more, Refusal) else Posted(more.pairs + cut)
        same("cut in two", (answer, left), posted(ledger, marks, errors, lines, found))


def findings_exchanged():
    """Neighbours of different lines may change places in an accepted batch."""
    r, checked = Seeded(82), 0
    while checked < 300:
        ledger, _, marks, errors, lines, found = random_batch(r, 0)
        apart = [k for k in range(len(lines) - 1) if lines[k] != lines[k + 1]]
        same("accepted", posted(ledger, marks, errors, lines, found)[0], Posted(len(lines)))
        for k in apart:
            other = [[*entries[:k], entries[k + 1], entries[k], *entries[k + 2 :]] for entries in (lines, found)]
            same("exchanged", posted(ledger, marks, errors, *other), posted(ledger, marks, errors, lines, found))
        checked += bool(apart)


def findings_projected():
    """From marks that the draw gave: after an accepted batch the projection is refused at no line that was posted; and errors that it takes it takes after any batch."""
    r, checked = Seeded(83), 0
    while checked < 300:
        ledger, n, marks, errors, lines, found = random_batch(r)
        wrong = [r.one_of([0, 0, 0, value + 1, -1]) for value in ledger] if r.chance(50) else errors
        answer, left = posted(ledger, marks, wrong, lines, found)
        if isinstance(answer, Posted) and lines:
            why = project(ledger, n, 0, left)
            same("no fault of a posted line", isinstance(why, Refusal) and why.place in lines, False)
            checked += 1
        if not isinstance(project(ledger, n, 0, wrong), Refusal):
            same("errors that are projected", isinstance(project(ledger, n, 0, left), Refusal), False)


def run():
    for test in findings_worked, findings_lengths, findings_singly, findings_cut, findings_exchanged, findings_projected:
        test()
        print("ok", test.__name__.replace("_", " "))
