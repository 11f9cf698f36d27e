#!/usr/bin/env python3
"""The program `programmes`: from the text of a ledger in strata its sheet, by definition.

    python3 tools/reference_programmes.py sheet     a text in, its sheet out; or what is wrong with the text, on standard error

It is written from docs/NOTATION.md, on the operations of tools/reference_strata.py: n draws are shared out over the strata, the starts come from the
words in order, one stratum after the other, and what was found is projected. Without an error it is the sheet that goes out to the auditors.
"""

import sys
from typing import NamedTuple

import notation
from reference import FULL, NOT_DRAWN, Refusal, Refused, accepted, check_errors, projected, start, text_line
from reference_strata import started_strata, strata_of, strata_project

MOST_TEXT = 500_000
MARKS = b"\xef\xbb\xbf", b"\xff\xfe", b"\xfe\xff"


class Content(NamedTuple):
    """What a text holds: the draws, the number of lines of each stratum, the words, the book values and the errors with their signs."""

    draws: int
    counts: list
    words: list
    values: list
    errors: list


class Fault(NamedTuple):
    words: str


# ---- The starts ----


def starts_of(strata, words):
    """The start of each stratum and the words it reads, each going on after those that were read; 12 names the words lent."""
    chosen, used = [], 0
    for stratum in strata:
        found = start(stratum.row.interval, words[used:])
        if isinstance(found, Refusal):
            raise Refused(12, len(words))
        chosen.append(found)
        used += found.words_read
    return chosen


# ---- The sheet ----


def stratum_lines(strata, chosen):
    for number, (stratum, found) in enumerate(zip(strata, chosen)):
        yield text_line("stratum", number, len(stratum.lines), sum(stratum.lines), *stratum.row, *found)


def examined_lines(strata, states, errors):
    """The drawn and full lines in ledger order, numbered in the whole ledger and projected by the interval of their own stratum."""
    lines = [(value, stratum.row.interval) for stratum in strata for value in stratum.lines]
    for line, ((value, interval), state, error) in enumerate(zip(lines, states, errors)):
        if state != NOT_DRAWN:
            yield text_line("full" if state == FULL else "drawn", line, value, error, projected(state, value, error, interval))


def sums_lines(found):
    for number, row in enumerate(found.rows):
        yield text_line("sums", number, *row[2:])
    yield text_line("all", found.overstated, found.understated, found.net)


def sheet_lines(content):
    """The plan's refusals, then 12, then those of the errors."""
    draws, counts, words, values, errors = content
    chosen = starts_of(strata_of(values, counts, draws), words)
    starts = [found.start for found in chosen]
    strata, states = started_strata(values, counts, draws, starts, errors)
    check_errors(values, errors, states)
    yield text_line("plan", draws, len(counts), sum(values))
    yield from stratum_lines(strata, chosen)
    yield from examined_lines(strata, states, errors)
    if any(errors):
        yield from sums_lines(accepted(strata_project(values, counts, draws, starts, errors)))


def sheet(content):
    """The whole text of a content."""
    try:
        return "".join(sheet_lines(content)).encode()
    except Refused as refused:
        return text_line("refused", *refused.refusal).encode()


# ---- The text ----


def in_strata(text):
    """Whether a text is of a ledger in strata: its first record is N."""
    kinds = (fields[0] for fields in map(notation.fields_of, notation.lines_of(text)) if fields and not fields[0].startswith(b"#"))
    return next(kinds, None) == b"N"


WRONG = {
    **notation.WRONG,
    1: "the line begins with none of N, S, W, L, E, U and #",
    6: "N has to come first",
    7: "a second N",
    9: "records come in order N, W, S and L, then E and U",
    17: "S has to come before L",
}
NUMBERS_OF = {b"N": 1, b"S": 0, b"W": 1, b"L": 1, b"E": 2, b"U": 2}


def fault(line, number):
    return Fault(f"line {line}: {WRONG[number]}\n")


def take_record(held, kind, fields):
    """A record into what the text holds so far, by the rules of a working file; N stands in the place of P."""
    if kind not in NUMBERS_OF:
        raise notation.Wrong(1)
    numbers = notation.numbers_of(fields, NUMBERS_OF[kind])
    if kind == b"N":
        notation.take_plan(held, 0, 0, *numbers)
    elif held.plan is None:
        raise notation.Wrong(6)
    elif kind != b"S":
        notation.TAKE[kind](held, *numbers)


def counts_of(kinds):
    """The number of lines of each stratum, from the kind of each record with its line; or the first that stands wrong among the strata."""
    counts, late = [], False
    for line, kind in kinds:
        late = late or kind in (b"E", b"U")
        if kind == b"W" and counts or kind == b"S" and late:
            return fault(line, 9)
        if kind == b"L" and not counts:
            return fault(line, 17)
        if kind == b"S":
            counts.append(0)
        elif kind == b"L":
            counts[-1] += 1
    return counts


def contents_of(text):
    """The content of a text, or its first fault: that of a line comes before those of the strata."""
    held, kinds, number = notation.Contents(), [], 0
    for number, line in enumerate(notation.lines_of(text), start=1):
        kind, *fields = notation.fields_of(line) or [b"#"]
        if kind.startswith(b"#"):
            continue
        try:
            take_record(held, kind, fields)
        except notation.Wrong as wrong:
            return fault(number, wrong.args[0])
        kinds.append((number, kind))
    if held.plan is None:
        return fault(number + 1, 6)
    counts = counts_of(kinds)
    return counts if isinstance(counts, Fault) else Content(held.plan[2], counts, held.words, held.values, held.all_errors())


def answer_to(text):
    """What the program writes to standard output, and what to standard error."""
    if len(text) > MOST_TEXT:
        return b"", b"the text is longer than 500000 bytes\n"
    if text.startswith(MARKS):
        return b"", b"the text begins with a byte-order mark: save it as UTF-8 without one\n"
    found = contents_of(text)
    return (b"", found.words.encode()) if isinstance(found, Fault) else (sheet(found), b"")


def main(arguments):
    if arguments != ["sheet"]:
        sys.exit(__doc__)
    out, err = answer_to(sys.stdin.buffer.read())
    sys.stdout.buffer.write(out)
    sys.stderr.buffer.write(err)


if __name__ == "__main__":
    main(sys.argv[1:])
