"""The forms in which a case is given (docs/VECTORS.md): one class for each operation."""

import struct
from dataclasses import dataclass

import reference
import reference_strata
from vector_lists import NOTHING, listed, room_of_bytes, room_of_numbers, signed


def fields(operation, level=0, numbers=(), room=0, ledger=NOTHING, errors=NOTHING, words=NOTHING):
    """A case, but for a file: what an operation does not take is 0 or has no entries."""
    first, second, third = [*numbers, 0, 0, 0][:3]
    head = struct.pack("<BBQQQI", operation, level, first, second, third, room)
    return head + ledger.pack() + errors.pack() + words.pack()


# ---- Operations: each case packs itself, and runs itself through the reference ----


@dataclass
class Size:
    level: int
    total: int
    te: int
    ae: int

    def pack(self):
        return fields(1, self.level, (self.total, self.te, self.ae))

    def run(self, latest):
        return reference.size(self.level, self.total, self.te, self.ae), []


@dataclass
class Split:
    ledger: object
    n: int
    marks: int

    def pack(self):
        return fields(2, numbers=(self.n,), room=self.marks, ledger=self.ledger)

    def run(self, latest):
        ledger, latest[:] = self.ledger.expand(), room_of_bytes(self.marks)
        return reference.split(ledger, self.n, latest), [ledger, latest]


@dataclass
class Start:
    interval: int
    words: object

    def pack(self):
        return fields(3, numbers=(self.interval,), words=self.words)

    def run(self, latest):
        words = self.words.expand()
        return reference.start(self.interval, words), [words]


@dataclass
class Draw:
    ledger: object
    n: int
    start: int
    marks: int

    def pack(self):
        return fields(4, numbers=(self.n, self.start), room=self.marks, ledger=self.ledger)

    def run(self, latest):
        ledger, latest[:] = self.ledger.expand(), room_of_bytes(self.marks)
        return reference.draw(ledger, self.n, self.start, latest), [ledger, latest]


@dataclass
class Project:
    ledger: object
    errors: object
    n: int
    start: int

    def pack(self):
        return fields(5, numbers=(self.n, self.start), ledger=self.ledger, errors=self.errors)

    def run(self, latest):
        ledger, errors = self.ledger.expand(), signed(self.errors.expand())
        return reference.project(ledger, self.n, self.start, errors), [ledger, errors]


@dataclass
class Lines:
    ledger: object
    errors: object
    n: int
    start: int
    amounts: int

    def pack(self):
        room = room_of_numbers(self.amounts)
        return fields(9, numbers=(self.n, self.start), ledger=self.ledger, errors=self.errors, words=room)

    def run(self, latest):
        ledger, errors, amounts = self.ledger.expand(), signed(self.errors.expand()), signed(room_of_numbers(self.amounts).expand())
        return reference.project_lines(ledger, self.n, self.start, errors, amounts), [ledger, errors, amounts]


@dataclass
class Judge:
    level: int
    ledger: object
    errors: object
    n: int
    start: int
    te: int

    def pack(self):
        return fields(6, self.level, (self.n, self.start, self.te), ledger=self.ledger, errors=self.errors)

    def run(self, latest):
        ledger, errors = self.ledger.expand(), signed(self.errors.expand())
        return reference.judge(self.level, ledger, self.n, self.start, errors, self.te), [ledger, errors]


@dataclass
class Read:
    file: object
    words: int = 64
    values: int = 2_048
    errors: int = 2_048

    def rooms(self):
        return [room_of_numbers(count) for count in (self.words, self.values, self.errors)]

    def pack(self):
        words, values, errors = self.rooms()
        return fields(7, ledger=values, errors=errors, words=words) + self.file.pack()

    def run(self, latest):
        file, (words, values, errors) = self.file.expand(latest), (room.expand() for room in self.rooms())
        rooms = words, values, signed(errors)
        return reference.read(file, *rooms), [file, *rooms]


@dataclass
class Write:
    level: int
    te: int
    ae: int
    words: object
    values: object
    errors: object
    out: int

    def pack(self):
        lists = {"ledger": self.values, "errors": self.errors, "words": self.words}
        return fields(8, self.level, (self.te, self.ae), self.out, **lists)

    def run(self, latest):
        lists, latest[:] = (self.words.expand(), self.values.expand(), signed(self.errors.expand())), room_of_bytes(self.out)
        return reference.write(self.level, self.te, self.ae, *lists, latest), [*lists, latest]


# ---- Operations by strata: the words are the counts, then the starts; beside its answer each has 32 rows of six figures ----

FIGURES_OF_ROWS = 6 * reference_strata.MOST_STRATA


def with_rows(answer, lent):
    """The answer without its rows, what was lent, and the rows' figures: 0 past the last stratum, and where the call is refused."""
    if isinstance(answer, reference.Refusal):
        return answer, lent, [0] * FIGURES_OF_ROWS
    *figures, rows = answer
    in_rows = [figure for row in rows for figure in row]
    return figures, lent, in_rows + [0] * (FIGURES_OF_ROWS - len(in_rows))


@dataclass
class StrataPlan:
    ledger: object
    counts: list
    n: int

    def pack(self):
        return fields(10, numbers=(self.n, len(self.counts)), ledger=self.ledger, words=listed(self.counts))

    def run(self, latest):
        ledger = self.ledger.expand()
        return with_rows(reference_strata.strata_plan(ledger, self.counts, self.n), [ledger, self.counts])


@dataclass
class StrataDraw:
    ledger: object
    counts: list
    n: int
    starts: list
    marks: int

    def pack(self):
        lists = {"ledger": self.ledger, "words": listed(self.counts + self.starts)}
        return fields(11, numbers=(self.n, len(self.counts)), room=self.marks, **lists)

    def run(self, latest):
        ledger, latest[:] = self.ledger.expand(), room_of_bytes(self.marks)
        answer = reference_strata.strata_draw(ledger, self.counts, self.n, self.starts, latest)
        return answer, [ledger, self.counts + self.starts, latest]


@dataclass
class StrataProject:
    ledger: object
    errors: object
    counts: list
    n: int
    starts: list

    def pack(self):
        lists = {"ledger": self.ledger, "errors": self.errors, "words": listed(self.counts + self.starts)}
        return fields(12, numbers=(self.n, len(self.counts)), **lists)

    def run(self, latest):
        ledger, errors = self.ledger.expand(), signed(self.errors.expand())
        answer = reference_strata.strata_project(ledger, self.counts, self.n, self.starts, errors)
        return with_rows(answer, [ledger, errors, self.counts + self.starts])
