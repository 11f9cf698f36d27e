"""The cases of kind U in the working file: beside E, in every wrong place, with every size; and contents with errors of both kinds."""

import reference
from vector_files import E, L, P, W, Z
from vector_forms import Read, Write
from vector_lists import LEAST_ERROR, MOST_ERROR, MOST_WORD, Generated, Given, Written, equal, listed


def U(line, size):
    return reference.record(b"U", (line, 4), (size, 8))


LINES, END = L(10) + L(20) + L(30), Z(3, 60)


def sizes():
    """What each kind may hold, and one more."""
    for size in 0, 1, 10, 2**32, 2**63 - 2, 2**63 - 1, 2**63, 2**63 + 1, MOST_WORD:
        for kind in E, U:
            yield P + LINES + kind(1, size) + END
            yield P + LINES + kind(0, 1) + kind(2, size) + END


def runs():
    """E and U one after the other: lines that rise, repeat and fall, and lines that no L has."""
    for first in E, U:
        for second in E, U:
            for former, latter in (0, 1), (0, 2), (1, 2), (0, 0), (2, 2), (1, 0), (2, 1), (2, 3), (0, 3), (3, 4), (0, 2**32 - 1):
                yield P + LINES + first(former, 5) + second(latter, 6) + END
    for kinds in (E, U, E), (U, E, U), (U, U, U), (E, U, U):
        yield P + LINES + b"".join(kind(line, line + 1) for line, kind in enumerate(kinds)) + END
        yield P + LINES + b"".join(kind(2 - line, line + 1) for line, kind in enumerate(kinds)) + END
        yield P + LINES + b"".join(kind(line, 4) for line, kind in enumerate(kinds)) + kinds[1](2, 4) + END


def wrong_places():
    """U before P, before L, among W and L, after Z, cut short, without a line, and other kinds after it."""
    yield from (U(0, 1), U(0, 1) + P + Z(0, 0), P + U(0, 1), P + U(0, 1) + Z(0, 0), P + U(0, 1) + LINES + END)
    yield from (P + W(1) + U(0, 1) + W(2) + LINES + END, P + L(10) + U(0, 1) + L(20) + Z(2, 30), P + L(10) + U(0, 1) + W(1) + Z(1, 10))
    yield from (P + LINES + U(0, 1) + P + END, P + LINES + END + U(0, 1), P + LINES + U(0, 1) + END + b"U", P + W(1) + U(0, 1) + Z(0, 0))
    yield from (P + LINES + b"u" + U(0, 1)[1:] + END, P + LINES + b"V" + U(0, 1)[1:] + END, P + LINES + U(0, 1) + Z(2, 60), P + LINES + U(0, 1) + Z(3, 61))
    whole = P + LINES + E(0, 3) + U(1, 4) + U(2, 5)
    yield from (whole[:cut] for cut in range(len(P + LINES), len(whole)))


def changed_bytes(r):
    """A file of both kinds, written and then read with one byte changed."""
    errors = [4, -5, 0, -(2**63), 2**63 - 1, -1]
    content = 90, 100, 0, listed([63]), listed([9] * 6), listed(errors)
    length = len(reference.encode(90, 100, 0, [63], [9] * 6, errors))
    yield Write(*content, length)
    first = length - 13 - 5 * 13
    for place in range(first, length):
        yield Read(Written(length, ((place, r.below(256)),)))
    for record in range(5):
        for kind in b"PWLEUZ":
            yield Read(Written(length, ((first + 13 * record, kind),)))


def signed_writes(r):
    """Errors of every kind and size, into the exact room, one less and one more."""
    for errors in [-1], [1], [LEAST_ERROR], [MOST_ERROR], [0, -7, 0, 7], [LEAST_ERROR, MOST_ERROR] * 3, [-5, -6, -7], [0, 0, -(2**32)]:
        values = [r.below(2**60) for _ in errors]
        length = len(reference.encode(7, 8, 9, [], values, errors))
        for out in length - 1, length, length + 1:
            yield Write(7, 8, 9, listed([]), listed(values), listed(errors), out)
            yield Read(Written(min(length, out)))
    for count in 2_047, 2_048, 2_049:
        errors = Generated(count, count, 2**64 - 500, 1_000, 1)  # from -500 to 500
        yield Write(7, 8, 9, equal(64), equal(count, 3), errors, 45_663)
    yield Write(7, 8, 9, equal(64, 1), equal(2_048, 3), equal(2_048, LEAST_ERROR), 45_662)
    yield Write(7, 8, 9, equal(64, 1), equal(2_048, 3), equal(2_048, LEAST_ERROR), 45_663)
    yield from (Read(Written(45_663)), Read(Written(45_662)), Read(Written(45_663, ((45_663 - 26 + 5, 1),))))
    yield Write(7, 8, 9, listed([]), listed([1, 2]), listed([-1]), 400)


def kind_cases(r):
    for file in [*sizes(), *runs(), *wrong_places()]:
        yield Read(Given(file))
    yield from changed_bytes(r)
    yield from signed_writes(r)
