"""The cases of the working file: legal files, each rule broken, rooms of every length, and contents that have no file."""

import reference
import self_test
from vector_forms import Read, Write
from vector_lists import MOST_ERROR, MOST_WORD, Generated, Given, Written, equal, listed, signed

PRACTICE = self_test.PRACTICE_FILE
P = reference.record(b"P", (90, 1), (100, 8), (0, 8))


def W(word):
    return reference.record(b"W", (word, 8))


def L(value):
    return reference.record(b"L", (value, 8))


def E(line, error):
    return reference.record(b"E", (line, 4), (error, 8))


def Z(count, total):
    return reference.record(b"Z", (count, 4), (total, 8))


def broken_files():
    """Each rule broken once or twice, and files beside them that are legal."""
    end = Z(2, 30)
    lines = L(10) + L(20)
    yield from (b"", P, Z(0, 0), P + Z(0, 0), P + P + Z(0, 0), W(1) + P + Z(0, 0), P + W(1) + Z(0, 0))
    yield from (P + lines + end, P + lines + W(1) + end, P + lines + end + b"\x00", P + lines + end + end)
    yield from (P + lines + P + end, P + W(1) + lines + b"X" + end, P + b"p" + end, bytes([0]) + P)
    for record in E(0, 1), E(1, MOST_WORD), E(1, 0), E(2, 5), E(2**32 - 1, 5), E(0, 5) + E(0, 5), E(1, 5) + E(0, 5):
        yield P + lines + record + end
        yield P + W(3) + lines + record
    yield from (P + lines + E(0, 1) + E(1, 1) + end, P + lines + E(1, 1) + L(5) + end, P + E(0, 1) + Z(0, 0))
    yield from (P + lines + E(0, 1) + W(5) + end, P + end + lines, P + lines + E(0, 0) + E(0, 0) + end)
    for count, total in (1, 30), (3, 30), (2, 29), (2, 31), (30, 2), (2, 30 + 2**32), (2 + 2**16, 30):
        yield P + lines + Z(count, total)
        yield P + lines + Z(count, total) + b"Z"
    for extra in 0, 1:
        yield P + L(MOST_WORD) + L(extra) + Z(2, MOST_WORD)
        yield P + L(2**63) + L(2**63 - 1 + extra) + L(0) + Z(3, (MOST_WORD + extra) % 2**64)
    for count in 63, 64, 65:
        yield P + b"".join(W(word) for word in range(count)) + lines + end


def practice_reads():
    """The practice file: every prefix, every byte changed, bytes after it."""
    yield Write(90, 100, 0, listed([63, 25]), listed([30, 30, 40, 20]), listed([7, 0, 10, 5]), 200)
    for count in range(len(PRACTICE) + 4):
        yield Read(Written(count))
    for place, byte in enumerate(PRACTICE):
        for changed in sorted({(byte + 1) % 256, byte ^ 0x80, ord("E"), ord("L")} - {byte}):
            yield Read(Written(len(PRACTICE), ((place, changed),)))


def room_reads():
    """Rooms too short, before any rule of the file."""
    for words, values, errors in (64, 2_048, 2_048), (70, 2_049, 2_050), (63, 2_047, 2_047), (64, 2_047, 2_048):
        yield Read(Given(PRACTICE), words, values, errors)
    for words, values, errors in (64, 2_048, 2_047), (0, 0, 0), (64, 0, 0), (100, 3_000, 0), (63, 3_000, 3_000):
        yield Read(Given(PRACTICE), words, values, errors)
        yield Read(Given(b"damaged"), words, values, errors)


def longest_reads(r):
    """The longest file, and changes that make a record too many of it."""
    words = Generated(64, 1, 0, 2**24 - 1, 2**32 - 1)
    values, errors = Generated(2_048, 2, 1, 2**24 - 1, 9_999), Generated(2_048, 3, 1, 65_535, 1)
    first_L, first_E, last_Z = 18 + 64 * 9, 18 + 64 * 9 + 2_048 * 9, 45_663 - 13
    yield Write(99, 5, 6, words, values, errors, 45_662)
    yield Write(99, 5, 6, words, values, errors, 45_700)
    for count in 45_663, 45_664, 45_662, 45_650, 45_651, first_E, 40_000:
        yield Read(Written(count))
    changes = [(first_L, ord("W")), (first_E, ord("L")), (first_E + 13, ord("L")), (last_Z, ord("E"))]
    changes += [(r.below(45_663), r.below(256)) for _ in range(20)]
    for change in changes:
        yield Read(Written(45_663, (change,)))


def read_cases(r):
    yield from practice_reads()
    for file in broken_files():
        yield Read(Given(file))
    yield from room_reads()
    yield from longest_reads(r)
    for _ in range(150):
        yield from random_write_and_reads(r)


def random_content(r):
    """Words, values and errors that a file can hold."""
    words = [r.below(2 ** r.one_of([8, 64])) for _ in range(r.between(0, 3))]
    values = [r.below(2 ** r.one_of([1, 8, 33, 60])) for _ in range(r.between(0, 6))]
    errors = signed(r.one_of([0, 0, r.below(2 ** r.one_of([8, 64]))]) for _ in values)
    return words, values, errors


def random_write_and_reads(r):
    """A write, the file read back, and the file read after changes."""
    words, values, errors = random_content(r)
    plan = r.below(256), r.below(2 ** r.one_of([8, 64])), r.below(2 ** r.one_of([8, 64]))
    length = len(reference.encode(*plan, words, values, errors))
    room = length + r.between(0, 20)
    yield Write(*plan, listed(words), listed(values), listed(errors), room)
    yield Read(Written(length), 64 + r.between(0, 3), 2_048 + r.between(0, 9), 2_048 + r.between(0, 9))
    yield Read(Written(r.between(0, room)))
    changes = tuple((r.below(length), r.one_of([r.below(256), *b"PWLEZ"])) for _ in range(r.between(1, 3)))
    yield Read(Written(length, changes))


def write_cases(r):
    zeros = [equal(count) for count in range(3)]
    for words, values, errors in (64, 2, 2), (65, 2, 2), (65, 2, 1), (0, 2, 1), (0, 0, 0), (0, 0, 1), (2, 0, 0):
        for out in 0, 12, 31, 5_000:
            yield Write(1, 2, 3, Generated(words, 1, 0, 255, 1), zeros[values], zeros[errors], out)
    for count in 2_047, 2_048, 2_049:
        for errors in count, count - 1, count + 1:
            ledger = Generated(count, count, 5, 9_999, 3)
            yield Write(7, 8, 9, equal(64), ledger, Generated(errors, 1, 0, 1, 1), 46_000)
    for values in [MOST_WORD], [MOST_WORD, 0], [MOST_WORD, 1], [2**63, 2**63], [2**63, 2**63 - 1], [MOST_WORD] * 3:
        for out in 10, 400:
            yield Write(255, MOST_WORD, MOST_WORD, listed([MOST_WORD]), listed(values), listed(values), out)
    for _ in range(250):
        words, values, errors = random_content(r)
        plan = r.below(256), r.below(2**64), r.below(2**20)
        length = len(reference.encode(*plan, words, values, errors))
        out = r.one_of([length - 1, length, length + 1, r.between(0, length), length + r.between(0, 60)])
        yield Write(*plan, listed(words), listed(values), listed(errors), out)


# ---- Whole files, each given byte by byte ----


def whole(plan, words, values, errors):
    """The file of a content; errors are pairs of line and error."""
    records = [plan, *map(W, words), *map(L, values), *(E(*error) for error in errors)]
    return b"".join(records) + Z(len(values), sum(values))


def plan(level, te, ae):
    return reference.record(b"P", (level, 1), (te, 8), (ae, 8))


LONGEST = whole(
    plan(255, MOST_WORD, MOST_WORD),
    range(1_000, 1_064),
    [977 * line for line in range(2_048)],
    [(line, line + 1) for line in range(2_048)],
)


def legal_files():
    yield PRACTICE
    yield from (P + Z(0, 0), plan(0, 0, 0) + Z(0, 0), plan(255, MOST_WORD, MOST_WORD) + W(MOST_WORD) + Z(0, 0))
    yield from (whole(P, range(64), [], []), whole(P, [], [0], []), whole(P, [], [MOST_WORD], [(0, MOST_ERROR)]))
    yield from (whole(P, [], [MOST_WORD - 1, 1, 0], [(2, 1)]), whole(P, [], [1, 2, 3, 4], [(3, 9)]))
    yield whole(P, [], [0x0102030405060708] * 5, [(1, 0x1112131415161718), (4, 1)])
    yield LONGEST


def illegal_files():
    """Each rule broken, with the bytes after it that a reader could run into."""
    lines = 3 * L(9)
    yield from (Z(0, 0), W(1) + P + Z(0, 0), P + P + Z(0, 0), P + W(1) + P + Z(0, 0))  # no P, or a second
    yield from (P + b"V" + bytes(12) + Z(0, 0), P + b"\0" + Z(0, 0), b"p" + P[1:] + Z(0, 0))  # kinds that are none
    yield P + L(1) + W(1) + Z(1, 1)  # kinds out of order
    yield from (P + L(1) + E(0, 1) + W(1) + Z(1, 1), P + L(1) + E(0, 1) + L(1) + Z(2, 2))
    yield from (P + 65 * W(5) + Z(0, 0), P + 2_049 * L(0) + Z(2_049, 0))  # one too many
    yield P + L(MOST_WORD) + L(0) + L(1) + Z(3, 0)  # the running sum past 64 bits
    yield P + L(2**63) + L(2**63) + Z(2, 0)
    yield from (P + lines + E(1, 4) + E(1, 4) + Z(3, 27), P + lines + E(2, 4) + E(0, 4) + Z(3, 27))  # E repeats, falls,
    yield from (P + lines + E(3, 4) + Z(3, 27), P + E(0, 4) + Z(0, 0))  # names no L,
    yield from (P + lines + E(2**32 - 1, 4) + Z(3, 27), P + lines + E(1, 0) + Z(3, 27))  # holds 0
    for count, total in (2, 27), (4, 27), (3, 26), (3, 28), (27, 3):
        yield P + lines + Z(count, total)
    yield P + lines + reference.record(b"Z", (27, 8), (3, 4))  # the sum before the count
    yield P + lines + b"Z" + (3).to_bytes(4, "big") + (27).to_bytes(8, "big")
    yield P + lines + Z(3, 26) + b"more"  # a wrong Z, then bytes
    yield from (PRACTICE + b"\0", PRACTICE + Z(4, 120), PRACTICE + PRACTICE)  # bytes after Z
    yield from (LONGEST + b"Z", LONGEST + bytes(3_000), bytes(200))


def stored_reads():
    for file in [*legal_files(), *illegal_files()]:
        yield Read(Given(file))
