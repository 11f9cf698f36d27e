"""The cases of the salvage (document 02, K14): files cut at every byte, an old Z in every place, each rule broken, and rooms of every length."""

from dataclasses import dataclass

import reference
from reference_salvage import LONGEST_FILE, End, salvage
from vector_files import LONGEST, PRACTICE, E, L, P, W, Z, broken_files, illegal_files, legal_files, random_content
from vector_forms import Read, Write, fields
from vector_kinds import U, runs, sizes, wrong_places
from vector_lists import MOST_WORD, Generated, Given, Written, room_of_bytes


@dataclass
class Salvage:
    """A file, and the length of the second buffer."""

    file: object
    out: int

    def pack(self):
        return fields(24, room=self.out) + self.file.pack()

    def run(self, latest):
        file, latest[:] = self.file.expand(latest), room_of_bytes(self.out)
        answer = salvage(file, latest)
        if isinstance(answer, reference.Refusal):
            return answer, [file, latest], [0, 0, 0]
        *figures, old = answer
        return figures, [file, latest], [int(old is not None), *(old or End(0, 0))]


def given(file, more=40):
    """Room enough, with bytes past the result."""
    return Salvage(Given(file), min(len(file), LONGEST_FILE) + more)


def practice_salvages():
    """The practice file: every prefix, every byte changed, bytes after it."""
    for count in range(len(PRACTICE)):
        yield given(PRACTICE[:count])
    for place, byte in enumerate(PRACTICE):
        for changed in sorted({(byte + 1) % 256, byte ^ 0x80, *b"EUZ"} - {byte}):
            yield given(PRACTICE[:place] + bytes([changed]) + PRACTICE[place + 1 :])
    for tail in b"\0", b"Z", Z(4, 120), Z(0, 0), L(5), PRACTICE, bytes(300):
        yield given(PRACTICE + tail)


def old_ends():
    """An old Z after each record of a file, right and wrong, whole and cut, and what follows it."""
    records = [P, W(7), W(MOST_WORD), L(10), L(0), L(20), E(0, 1), U(1, 2), E(2, 3)]
    for count in range(1, len(records) + 1):
        front, later = b"".join(records[:count]), b"".join(records[count:])
        for end in Z(3, 30), Z(2, 10), Z(0, 0), Z(2**32 - 1, MOST_WORD), Z(1, 10 + 2**32):
            for file in front + end, front + end + later, front + end[:12], front + end + end, front + later + end, front + b"Z":
                yield given(file)


def rooms():
    """29 before 18, and rooms on both sides of what is needed."""
    for file in P, P + Z(0, 0), P + L(5) + Z(9, 9), PRACTICE, PRACTICE[:-1], PRACTICE[:60], PRACTICE + bytes(30):
        needed = salvage(file, bytearray(LONGEST_FILE)).length
        for room in 0, 1, 18, needed - 14, needed - 13, needed - 1, needed, needed + 1, needed + 250:
            yield Salvage(Given(file), room)
    for file in b"", b"P", P[:17], b"p" + P[1:], W(1) + P + Z(0, 0), bytes(200):
        for room in 0, 30, 31, 300:
            yield Salvage(Given(file), room)


def longest_salvages(r):
    """The longest file, cut and changed, read back from the room; more records than a file may hold."""
    words = Generated(64, 1, 0, 2**24 - 1, 2**32 - 1)
    values, errors = Generated(2_048, 2, 1, 2**24 - 1, 9_999), Generated(2_048, 3, 1, 65_535, 1)
    written = Write(99, 5, 6, words, values, errors, 45_700)
    for count, room in (45_663, 45_663), (45_700, 45_663), (45_662, 45_663), (45_663, 45_662), (45_650, 46_000), (45_649, 46_000), (30_000, 46_000):
        yield written
        yield Salvage(Written(count), room)
        yield Read(Written(min(count, room)))
    for _ in range(12):
        yield written
        yield Salvage(Written(45_663, ((r.below(45_650), r.below(256)),)), 45_663)
    for front in P + b"".join(W(word) for word in range(70)), P + 2_050 * L(3), LONGEST[:-13] + E(2_047, 1):
        for tail in b"", Z(0, 0):
            yield given(front + tail)


def random_salvages(r):
    """A file of any content, cut, changed, with a Z among its records; then read back."""
    for _ in range(250):
        content = random_content(r)
        file = bytearray(reference.encode(r.below(256), r.below(2**64), r.below(2**20), *content[:2], content[2]) if sum(content[1]) <= MOST_WORD else P)
        for _ in range(r.between(0, 2)):
            file[r.below(len(file))] = r.one_of([r.below(256), *b"PWLEUZ"])
        cut = r.one_of([len(file), len(file) - 13, r.below(len(file) + 1)])
        file = bytes(file[:cut]) + r.one_of([b"", b"", Z(len(content[1]), sum(content[1]) % 2**64), L(4), bytes([r.below(256)])])
        room = len(file) + r.between(0, 60)
        yield Salvage(Given(file), room)
        yield Read(Written(min(len(file), room)))


def salvage_cases(r):
    yield from practice_salvages()
    yield from old_ends()
    yield from rooms()
    for way in broken_files(), legal_files(), illegal_files(), sizes(), runs(), wrong_places():
        yield from map(given, way)
    yield from longest_salvages(r)
    yield from random_salvages(r)
