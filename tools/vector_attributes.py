"""The cases of the attribute job aid (document 02, K10): every entry of both tables, every byte, and each refusal before those that follow it."""

from dataclasses import dataclass

from reference_attributes import LEVELS, MOST_EXCEPTIONS, TOLERANCES, attribute_bound, attribute_size
from vector_forms import fields


@dataclass
class AttributeSize:
    level: int
    tolerance: int

    def pack(self):
        return fields(14, self.level, (self.tolerance,))

    def run(self, latest):
        return attribute_size(self.level, self.tolerance), []


@dataclass
class AttributeBound:
    level: int
    tolerance: int
    exceptions: int

    def pack(self):
        return fields(15, self.level, (self.tolerance, self.exceptions))

    def run(self, latest):
        return attribute_bound(self.level, self.tolerance, self.exceptions), []


def attribute_cases():
    for byte in range(256):
        for known in LEVELS:
            yield AttributeSize(known, byte)
        for known in TOLERANCES:
            yield AttributeSize(byte, known)
        yield AttributeBound(90, byte, 2)
        yield AttributeBound(byte, 5, 2)
    for level in *LEVELS, 85, 100:
        for tolerance in *TOLERANCES, 0, 2:
            for exceptions in *range(MOST_EXCEPTIONS + 2), 255, 256, 258, 2**32 + 1, 2**63, 2**64 - 1:
                yield AttributeBound(level, tolerance, exceptions)
