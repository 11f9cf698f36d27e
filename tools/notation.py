#!/usr/bin/env python3
"""The notation: the text of a working file, one record a line, read by its definition in words.

    python3 tools/notation.py check     the practice text, every fault, the edges of every limit, random contents
    python3 tools/notation.py pack      a text in, its working file out, after the byte 0x42 where it asks for the blackboard; or the line of its first fault on standard error

A text is lines; each ends with a newline, which the last may lack. A line is fields between blanks: spaces, tabs and
carriage returns. A line without fields is passed over, and so is one whose first field begins with #. Every other line is
a record: a kind of one letter, then as many numbers as the kind has, in decimal digits and within 64 bits.

    P level TE AE      exactly one, first; the level at most 255
    W word             after P and before any L; at most 64
    L value            after P and before any E and U; at most 2,048, their sum within 64 bits
    E line error       too much was claimed; the error from 1 to 2^63 - 1
    U line size        too little was claimed, by this size from 1 to 2^63

A first line that holds B and nothing else asks for the blackboard method: the byte 0x42 comes before the file. Any other line with B is wrong.

The lines of E and U are numbered from 0, strictly rise, E and U taken together, and are below the count of L.

A ledger in strata has a notation of its own, with two others in the place of P.

    N draws            the number of draws; exactly one, first
    S                  before the lines of each stratum; after every W, and before any E and U
"""

import sys
from typing import NamedTuple

import reference

MOST_NUMBER = 2**64 - 1

# What is wrong with a line, by its number; in a ledger in strata the words of some name its own kinds.
WRONG = {
    1: "the line begins with none of P, W, L, E, U and #",
    2: "a number is missing",
    3: "a number has decimal digits only",
    4: "a number passes 64 bits",
    5: "a field too many",
    6: "P has to come first",
    7: "a second P",
    8: "the level is above 255",
    9: "records come in the order P, W, L, then E and U",
    10: "more than 64 words",
    11: "more than 2048 lines",
    12: "the sum of L passes 64 bits",
    13: "E or U names a line no L has",
    14: "lines of E and U have to rise",
    15: "an error has to be above 0 in size",
    16: "E passes 2^63 - 1, or U 2^63",
}

WRONG_IN_STRATA = WRONG | {
    1: "the line begins with none of N, S, W, L, E, U and #",
    6: "N has to come first",
    7: "a second N",
    9: "records come in order N, W, S and L, then E and U",
    18: "S has to come before L",
}

NUMBERS_OF = {b"W": 1, b"L": 1, b"E": 2, b"U": 2}
Notation = NamedTuple("Notation", [("opening", bytes), ("numbers_of", dict), ("wrong", dict)])
DESK = Notation(b"P", NUMBERS_OF | {b"P": 3}, WRONG)
PROGRAMMES = Notation(b"N", NUMBERS_OF | {b"N": 1, b"S": 0}, WRONG_IN_STRATA)


class Fault(NamedTuple):
    line: int
    number: int

    def text(self, by=DESK):
        return f"line {self.line}: {by.wrong[self.number]}\n"


class Wrong(Exception):
    """A line is wrong: the number of what is wrong."""


class Contents:
    """What the records so far say."""

    def __init__(self, by_board=False):
        self.by_board, self.plan = by_board, None
        self.words, self.values, self.errors = [], [], {}

    def all_errors(self):
        return [self.errors.get(line, 0) for line in range(len(self.values))]

    def file(self):
        return reference.encode(*self.plan, self.words, self.values, self.all_errors())

    def packed(self):
        return b"\x42" * self.by_board + self.file()


def lines_of(text):
    lines = text.split(b"\n")
    return lines[:-1] if lines[-1] == b"" else lines


def fields_of(line):
    for blank in (b"\t", b"\r"):
        line = line.replace(blank, b" ")
    return [field for field in line.split(b" ") if field != b""]


def number_of(field):
    """Its digits from the left: the first byte that is no digit, or that takes the number past 64 bits, is wrong."""
    value = 0
    for byte in field:
        if not 48 <= byte <= 57:
            raise Wrong(3)
        value = 10 * value + byte - 48
        if value > MOST_NUMBER:
            raise Wrong(4)
    return value


def numbers_of(fields, count):
    numbers = []
    for place in range(count):
        if place == len(fields):
            raise Wrong(2)
        numbers.append(number_of(fields[place]))
    if len(fields) > count:
        raise Wrong(5)
    return numbers


def take_plan(contents, level, te, ae):
    if contents.plan is not None:
        raise Wrong(7)
    if level > 255:
        raise Wrong(8)
    contents.plan = level, te, ae


def take_draws(contents, draws):
    if contents.plan is not None:
        raise Wrong(7)
    contents.plan = (draws,)


def take_stratum(contents):
    """Where it may stand is judged when every line is known to be a record (divide)."""


def take_word(contents, word):
    if contents.values:
        raise Wrong(9)
    if len(contents.words) == reference.MOST_FILE_WORDS:
        raise Wrong(10)
    contents.words.append(word)


def take_value(contents, value):
    if contents.errors:
        raise Wrong(9)
    if len(contents.values) == reference.MOST_FILE_LINES:
        raise Wrong(11)
    if sum(contents.values) + value > reference.MOST_SUM:
        raise Wrong(12)
    contents.values.append(value)


def check_error(contents, line, size, most):
    if line >= len(contents.values):
        raise Wrong(13)
    if contents.errors and line <= max(contents.errors):
        raise Wrong(14)
    if size == 0:
        raise Wrong(15)
    if size > most:
        raise Wrong(16)


def take_overstated(contents, line, error):
    check_error(contents, line, error, reference.MOST_OVERSTATED)
    contents.errors[line] = error


def take_understated(contents, line, size):
    check_error(contents, line, size, reference.MOST_UNDERSTATED)
    contents.errors[line] = -size


TAKE = {b"W": take_word, b"L": take_value, b"E": take_overstated, b"U": take_understated}
TAKE |= {b"P": take_plan, b"N": take_draws, b"S": take_stratum}


def take_line(contents, line, by):
    fields = fields_of(line)
    if not fields or fields[0].startswith(b"#"):
        return
    kind = fields[0]
    if kind not in by.numbers_of:
        raise Wrong(1)
    numbers = numbers_of(fields[1:], by.numbers_of[kind])
    if kind != by.opening and contents.plan is None:
        raise Wrong(6)
    TAKE[kind](contents, *numbers)


def asks_for_board(lines, by):
    """Only the desk's texts have the line B, and only as the first."""
    return by is DESK and [fields_of(line) for line in lines[:1]] == [[b"B"]]


def parse(text, by=DESK):
    """The contents of a text, or its first fault; a text without P or N is at fault in the line after its last."""
    lines, number = lines_of(text), 0
    contents = Contents(asks_for_board(lines, by))
    for number, line in enumerate(lines, start=1):
        if number == 1 and contents.by_board:
            continue
        try:
            take_line(contents, line, by)
        except Wrong as wrong:
            return Fault(number, wrong.args[0])
    return contents if contents.plan is not None else Fault(number + 1, 6)


def divide(text):
    """How many lines each stratum of a text has that parse takes, or the first line that stands where it may not."""
    counts, late = [], False
    for number, line in enumerate(lines_of(text), start=1):
        kind = b"".join(fields_of(line)[:1])
        if kind == b"S" and late or kind == b"W" and counts:
            return Fault(number, 9)
        if kind == b"L" and not counts:
            return Fault(number, 18)
        if kind == b"S":
            counts.append(0)
        elif kind == b"L":
            counts[-1] += 1
        elif kind in (b"E", b"U"):
            late = True
    return counts


def main(arguments):
    if arguments == ["check"]:
        import notation_test  # it stands on this file

        notation_test.run()
    elif arguments == ["pack"]:
        found = parse(sys.stdin.buffer.read())
        if isinstance(found, Fault):
            sys.exit(found.text().rstrip("\n"))
        sys.stdout.buffer.write(found.packed())
    else:
        sys.exit(__doc__)


if __name__ == "__main__":
    main(sys.argv[1:])
