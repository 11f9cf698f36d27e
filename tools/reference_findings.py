"""Findings by the batch (document 02, K8): pairs of a line and an error, posted beside a ledger and its marks.

It is written from the request, on the states and refusals of tools/reference.py. A batch is its pairs, posted singly in their order; so, unlike any
other operation, a refused call leaves the pairs before the refused one in the errors.
"""

from typing import NamedTuple

from reference import DRAWN, FULL, Refusal, Refused, operation


class Posted(NamedTuple):
    pairs: int


def check_lengths(*lists):
    if len({len(entries) for entries in lists}) > 1:
        raise Refused(13, 0)


def post_pair(ledger, marks, errors, line, error, position):
    """One pair; its position in the batch is the place of its refusals. Any mark but 1 or 2 means not drawn; an error of 0 clears a finding."""
    if line >= len(ledger):
        raise Refused(20, position)
    if abs(error) > ledger[line]:
        raise Refused(14, position)
    if error != 0 and marks[line] not in (DRAWN, FULL):
        raise Refused(15, position)
    errors[line] = error


@operation
def post(ledger, marks, errors, line, error):
    """One finding: the batch of one."""
    check_lengths(ledger, marks, errors)
    post_pair(ledger, marks, errors, line, error, 0)
    return Posted(1)


@operation
def post_all(ledger, marks, errors, lines, found):
    """The findings one after the other, up to the first that is refused."""
    check_lengths(ledger, marks, errors)
    check_lengths(lines, found)
    for position, (line, error) in enumerate(zip(lines, found)):
        post_pair(ledger, marks, errors, line, error, position)
    return Posted(len(lines))


def posted(ledger, marks, errors, lines, found):
    """The answer and the errors that it leaves, of a list that stays as it is."""
    left = list(errors)
    return post_all(ledger, marks, left, lines, found), left


def pairs_posted(answer):
    """How many pairs stay posted: all of an accepted batch, those before the refused one, none where the lengths differ."""
    if isinstance(answer, Refusal):
        return 0 if answer.number == 13 else answer.place
    return answer.pairs
