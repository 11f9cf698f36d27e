"""The lists and bytes of a case, in the forms of docs/VECTORS.md."""

import collections
import struct
from dataclasses import dataclass

MOST_WORD = 2**64 - 1

# The largest and the least error that a list holds.
MOST_ERROR, LEAST_ERROR = 2**63 - 1, -(2**63)


def packed(changes, form="<IQ"):
    """The count of the changes, then place and entry of each."""
    return struct.pack("<H", len(changes)) + b"".join(struct.pack(form, *change) for change in changes)


def changed(entries, changes):
    for place, entry in changes:
        entries[place] = entry
    return entries


@dataclass
class Generated:
    count: int
    seed: int = 0
    low: int = 0
    most: int = 0
    scale: int = 0
    changes: tuple = ()
    step: int = 0

    def pack(self):
        if self.count == 0:
            return struct.pack("<I", 0)
        head = (self.count, self.seed, self.low, self.step, self.most, self.scale)
        return struct.pack("<IIQIII", *head) + packed(self.changes)

    def expand(self):
        entries, x = [], self.seed
        for place in range(self.count):
            x = (x * 1_664_525 + 1_013_904_223) % 2**32
            entries.append((self.low + place * self.step + x // 256 % (self.most + 1) * self.scale) % 2**64)
        return changed(entries, self.changes)


NOTHING = Generated(0)


def equal(count, entry=0, changes=()):
    """One entry, repeated, and changes; an entry below 0 is given by its 64-bit pattern."""
    return Generated(count, low=entry % 2**64, changes=tuple((place, changed_to % 2**64) for place, changed_to in changes))


def listed(entries):
    """Any list: the most frequent entry, and each other as a change."""
    usual = collections.Counter(entries).most_common(1)[0][0] if entries else 0
    return equal(len(entries), usual, tuple((place, entry) for place, entry in enumerate(entries) if entry != usual))


def signed(entries):
    """64-bit patterns read as numbers with a sign."""
    return [entry - 2**64 if entry > MOST_ERROR else entry for entry in entries]


def room_of_numbers(count):
    """What a lent room of numbers holds before a call."""
    return Generated(count, low=11_000_000_000_000_000_000, step=1)


def room_of_bytes(count):
    """What a lent room of bytes holds before a call."""
    return bytearray((17 + i % 199) for i in range(count))


@dataclass
class Given:
    content: bytes

    def pack(self):
        return struct.pack("<BI", 0, len(self.content)) + self.content

    def expand(self, latest):
        return self.content


@dataclass
class Written:
    """The start of the room of bytes that was lent last, as that call left it, changed."""

    count: int
    changes: tuple = ()

    def pack(self):
        return struct.pack("<BI", 1, self.count) + packed(self.changes, "<IB")

    def expand(self, latest):
        return bytes(changed(bytearray(latest[: self.count]), self.changes))
