"""Two teams on one ledger (document 02, K9), which keep their marks in one table: the operations that read or write marks, by the acting team's bits.

It is written from the request, on the operations of tools/reference.py and tools/reference_findings.py. Each call is the plain operation on a table that
holds the acting team's bits alone; those that write marks put the team's bits back, and leave the others of every mark.
"""

import reference
import reference_findings
from reference import Refusal, Refused, operation

# A team is a byte: the place of its lower bit in each mark.
LOWER_BIT = {0x41: 0, 0x42: 2}
TEAM_A, TEAM_B = LOWER_BIT


def lower_bit(team):
    if team not in LOWER_BIT:
        raise Refused(24, 0)
    return LOWER_BIT[team]


def own_bits(team, marks):
    """The two bits of a team in each mark, as a number from 0 to 3."""
    at = lower_bit(team)
    return [mark >> at & 0b11 for mark in marks]


def put_own(team, marks, own):
    """Writes the team's bits of each mark."""
    at = lower_bit(team)
    for line, new in enumerate(own):
        marks[line] = marks[line] & ~(0b11 << at) | new << at


def on_own(team, marks, call):
    """A call that writes marks, on the team's bits alone, which are put back where it is accepted."""
    own = own_bits(team, marks)
    answer = call(own)
    if not isinstance(answer, Refusal):
        put_own(team, marks, own)
    return answer


@operation
def team_split(team, ledger, n, marks):
    return on_own(team, marks, lambda own: reference.split(ledger, n, own))


@operation
def team_draw(team, ledger, n, first_point, marks):
    return on_own(team, marks, lambda own: reference.draw(ledger, n, first_point, own))


@operation
def team_post(team, ledger, marks, errors, line, error):
    """One finding of a team."""
    return reference_findings.post(ledger, own_bits(team, marks), errors, line, error)


@operation
def team_post_all(team, ledger, marks, errors, lines, found):
    """A batch of a team's findings, up to the first that is refused."""
    return reference_findings.post_all(ledger, own_bits(team, marks), errors, lines, found)
