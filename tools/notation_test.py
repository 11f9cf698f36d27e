"""The notation's self-test: the practice text, every fault, the edges of every limit, and random contents."""

import random
import sys

import reference
from notation import DESK, MOST_NUMBER, PROGRAMMES, WRONG, WRONG_IN_STRATA, Contents, Fault, divide, parse

PRACTICE = b"# the practice ledger\nP 90 100 0\n\nW 63\nW 25\nL 30\nL 30\nL 40\nL 20\n  E 0\t7 \r\nE 2 10\nE 3 5"
PLAN = b"P 90 100 0\n"


def same(what, found, expected):
    if found != expected:
        sys.exit(f"{what}: found {found}, expected {expected}")


def faults():
    """Texts with their fault, one or more for each number."""
    yield from ((b"Z 4 120", 1, 1), (b"PP 1 2 3", 1, 1), (b"p 90 100 0", 1, 1), (b"\xff", 1, 1), (PLAN + b"\0", 2, 1))
    yield from ((b"P 90 100", 1, 2), (b"P", 1, 2), (PLAN + b"L 5\nE 0", 3, 2), (PLAN + b"W \t\r\n", 2, 2))
    yield from ((b"P 90 100 -1", 1, 3), (b"P 9x 100", 1, 3), (PLAN + b"L 1,000", 2, 3), (PLAN + b"L 30#", 2, 3))
    yield from ((b"P 90 100 18446744073709551616", 1, 4), (PLAN + b"W 99999999999999999999x", 2, 4))
    yield from ((b"P 90 100 0 0", 1, 5), (PLAN + b"L 30 # rent", 2, 5), (PLAN + b"W 1 x", 2, 5))
    yield from ((b"", 1, 6), (b"\n# no P\n", 3, 6), (b"W 63\n" + PLAN, 1, 6), (b"#", 2, 6), (b"E 0 0", 1, 6))
    yield from ((PLAN + PLAN, 2, 7), (PLAN + b"L 1\nP 256 0 0", 3, 7), (b"P 256 100 0", 1, 8))
    yield from ((PLAN + b"L 30\nW 63", 3, 9), (PLAN + b"L 30\nE 0 7\nL 30", 4, 9), (PLAN + b"L 1\nE 0 1\nW 1", 4, 9))
    yield from ((PLAN + b"W 1\n" * 65, 66, 10), (PLAN + b"L 1\n" * 2049, 2050, 11))
    yield from ((PLAN + b"L 18446744073709551615\nL 1", 3, 12), (PLAN + b"E 0 7", 2, 13), (PLAN + b"L 30\nE 1 7", 3, 13))
    yield from ((PLAN + b"L 1\nL 1\nE 1 1\nE 1 1", 5, 14), (PLAN + b"L 1\nL 1\nE 1 1\nE 0 1", 5, 14), (PLAN + b"L 30\nE 0 0", 3, 15))
    yield from ((PLAN + b"U", 2, 2), (PLAN + b"L 5\nU 0", 3, 2), (PLAN + b"L 5\nU 0 -5", 3, 3), (PLAN + b"L 5\nU 0 5 5", 3, 5), (b"U 0 0", 1, 6), (PLAN + b"u 0 5", 2, 1))
    yield from ((PLAN + b"L 30\nU 0 7\nL 30", 4, 9), (PLAN + b"L 1\nU 0 1\nW 1", 4, 9), (PLAN + b"U 0 7", 2, 13), (PLAN + b"L 30\nU 1 7", 3, 13))
    for former, latter in (b"E", b"U"), (b"U", b"E"), (b"U", b"U"):
        for line in b"0", b"1":
            yield PLAN + b"L 1\nL 1\n" + former + b" 1 1\n" + latter + b" " + line + b" 1", 5, 14
    yield from ((PLAN + b"L 30\nU 0 0", 3, 15), (PLAN + b"L 30\nE 0 9223372036854775808", 3, 16), (PLAN + b"L 30\nU 0 9223372036854775809", 3, 16))
    yield from ((PLAN + b"L 30\nE 1 9223372036854775808", 3, 13), (PLAN + b"L 30\nE 0 1\nU 0 9223372036854775809", 4, 14))


def faults_in_strata():
    """The same for a ledger in strata: what its own kinds can break."""
    yield from ((b"P 90 100 0", 1, 1), (b"n 3", 1, 1), (b"N 3\nSS", 2, 1), (b"N", 1, 2), (b"N x", 1, 3), (b"N 18446744073709551616", 1, 4))
    yield from ((b"N 3 4", 1, 5), (b"N 3\nS 5", 2, 5), (b"S", 1, 6), (b"S\nN 3", 1, 6), (b"W 1\nN 3", 1, 6), (b"# no N\n", 2, 6), (b"", 1, 6))
    yield from ((b"N 3\nN 3", 2, 7), (b"N 3\nS\nN 4", 3, 7), (b"N 3\nS\nL 1\nW 1", 4, 9), (b"N 3\nS\nL 1\nE 0 1\nL 1", 5, 9))
    yield from ((b"N 3\n" + b"W 1\n" * 65, 66, 10), (b"N 3\nS\n" + b"L 1\n" * 2049, 2051, 11), (b"N 3\nS\nL 18446744073709551615\nS\nL 1", 5, 12))
    yield from ((b"N 3\nS\nL 1\nE 1 1", 4, 13), (b"N 3\nS\nL 1\nS\nL 1\nU 1 1\nE 0 1", 7, 14), (b"N 3\nS\nL 1\nE 0 0", 4, 15), (b"N 3\nS\nL 1\nE 0 9223372036854775808", 4, 16))


def faults_of_order():
    """Texts whose lines are records, with the first that stands where it may not."""
    yield from ((b"N 3\nL 30\nS", 2, 18), (b"N 3\n# S\nL 30", 3, 18), (b"N 3\nS\nL 30\nE 0 7\nS", 5, 9), (b"N 3\nS\nL 1\nU 0 7\nS", 5, 9), (b"N 3\nS\nW 63", 3, 9))


def strata():
    """Texts with the line counts of their strata."""
    yield from ((b"N 3\nW 63\nS\nL 30\nL 30\n S \r\nL 40\nE 0 7\nU 2 10", [2, 1]), (b"N 3\nS\nS\nL 5\nS", [0, 1, 0]), (b"N 3\nW 1", []))
    yield b"N 3\n" + b"S\nL 1\n" * 40, [1] * 40


def in_strata():
    for text, line, number in faults_in_strata():
        same(text[:40], parse(text, PROGRAMMES), Fault(line, number))
    for text, line, number in faults_of_order():
        same(text[:40], (type(parse(text, PROGRAMMES)), divide(text)), (Contents, Fault(line, number)))
    given = {number for _, _, number in (*faults_in_strata(), *faults_of_order())}
    same("every fault of strata", given, set(WRONG_IN_STRATA) - {8})
    for text, counts in strata():
        same(text[:40], (divide(text), sum(counts)), (counts, len(parse(text, PROGRAMMES).values)))
    same("draws", parse(b"N 3", PROGRAMMES).plan, (3,))
    same("a kind of each", [parse(text) for text in (b"N 3", b"P 90 100 0\nS")], [Fault(1, 1), Fault(2, 1)])
    same("words", [Fault(1, 6).text(by) for by in (DESK, PROGRAMMES)], ["line 1: P has to come first\n", "line 1: N has to come first\n"])


def by_board():
    """A first line B, and B anywhere else; the numbers of the lines count it."""
    for opening in (b"B\n", b" \tB\r\n", b"B \n"):
        found = parse(opening + PRACTICE)
        same(opening, (found.by_board, found.packed()), (True, b"B" + parse(PRACTICE).file()))
    same("without it", parse(PRACTICE).packed(), parse(PRACTICE).file())
    same("the byte alone", parse(b"B\nP 90 100 0").packed()[:2], b"BP")
    wrong = ((b"B", 2, 6), (b"B\nB\n" + PLAN, 2, 1), (b"\nB\n" + PLAN, 2, 1), (b"#\nB\n" + PLAN, 2, 1), (PLAN + b"B", 2, 1), (b"b\n" + PLAN, 1, 1), (b"BB\n" + PLAN, 1, 1))
    wrong += ((b"B 1\n" + PLAN, 1, 1), (b"B #\n" + PLAN, 1, 1), (b"B P 90 100 0", 1, 1), (b"B\n" + PLAN + b"L 1,000", 3, 3), (b"B\nW 63\n" + PLAN, 2, 6), (b"B\nN 3", 2, 1))
    for text, line, number in wrong:
        same(text[:40], parse(text), Fault(line, number))
    same("in strata", parse(b"B\nN 3", PROGRAMMES), Fault(1, 1))


def random_contents(r):
    contents = Contents(r.random() < 0.2)
    contents.plan = r.randrange(256), r.choice((0, 1, MOST_NUMBER)), r.randrange(10**6)
    contents.words = [r.randrange(2**64) for _ in range(r.choice((0, 1, 5, 64)))]
    contents.values = [r.randrange(10 ** r.randrange(1, 14)) for _ in range(r.choice((0, 1, 20, 2048)))]
    drawn = sorted(r.sample(range(len(contents.values)), r.randrange(len(contents.values) + 1)))
    contents.errors = {line: r.choice((r.randrange(1, 2**63), -r.randrange(1, 2**63 + 1), -(2**63), 2**63 - 1)) for line in drawn}
    return contents


def records_of(contents):
    yield "P", *contents.plan
    for word in contents.words:
        yield "W", word
    for value in contents.values:
        yield "L", value
    for line, error in contents.errors.items():
        yield "E" if error > 0 else "U", line, abs(error)


def random_line(r, kind, *numbers):
    """A record with blanks of every kind and leading zeros."""
    def blanks(least):
        return "".join(r.choice(" \t\r") for _ in range(r.choice((least, least, 3))))

    fields = "".join(blanks(1) + str(number).zfill(r.choice((0, 0, 25))) for number in numbers)
    return blanks(0) + kind + fields + blanks(0)


def random_text(r, contents):
    """A text of a content, with blank lines and comments."""
    lines = [random_line(r, "B")] * contents.by_board
    for record in records_of(contents):
        lines += r.choice(([], [], [""], ["  # L 5"]))
        lines.append(random_line(r, *record))
    return "\n".join(lines).encode() + r.choice((b"", b"\n", b"\n\n"))


def run():
    practice = parse(PRACTICE)
    same("practice", (practice.plan, practice.words, practice.values, practice.all_errors()), ((90, 100, 0), [63, 25], [30, 30, 40, 20], [7, 0, 10, 5]))
    same("practice file", len(practice.file()), 124)
    for text, line, number in faults():
        same(text[:40], parse(text), Fault(line, number))
    same("every fault", {number for _, _, number in faults()}, set(WRONG))
    for text in (PLAN + b"W 1\n" * 64, PLAN + b"L 1\n" * 2048, PLAN + b"L 18446744073709551615\nL 0", b"P 255 0 0"):
        same(text[:40], type(parse(text)), Contents)
    widest = parse(PLAN + b"L 1\nL 1\nU 0 9223372036854775808\nE 1 9223372036854775807")
    same("widest errors", widest.all_errors(), [-(2**63), 2**63 - 1])
    in_strata()
    by_board()
    r = random.Random(1)
    for _ in range(200):
        contents = random_contents(r)
        text = random_text(r, contents)
        found = parse(text)
        same(text[:40], type(found), Contents)
        expected = contents.plan, contents.words, contents.values, contents.all_errors()
        same(text[:40], (found.plan, found.words, found.values, found.all_errors()), expected)
        same(text[:40], reference.decode(found.file()), expected)
        same(text[:40], reference.file_given(found.packed()), found.file())
        same(text[:40], found.by_board, contents.by_board)
    print("notation: the practice text, every fault, every limit, ledgers in strata, the line B and 200 random texts agree")
