"""The salvage of a working file (document 02, K14): what can be kept of one that was cut or added to, and the program that does it.

It is written from the request, on the rules of tools/reference.py: a run of records is one that the file rules allow where the file of these records
and of the Z that is right for them is legal.
"""

from typing import NamedTuple

from reference import BODY, MOST_SUM, Refusal, Refused, decode, number_at, operation, record

# The longest legal file: P, 64 W, 2,048 L, as many E or U, and Z.
LONGEST_FILE = 18 + 64 * 9 + 2_048 * (9 + 13) + 13
P_LENGTH, Z_LENGTH = 1 + BODY[ord("P")], 1 + BODY[ord("Z")]


class End(NamedTuple):
    """What a Z says: the count of L, and their sum."""

    count: int
    sum: int


class Salvaged(NamedTuple):
    """The result's length, the records kept, the bytes dropped, the new count and sum, and the old Z's, if there is one."""

    length: int
    kept: int
    dropped: int
    lines: int
    sum: int
    old: object


def whole_records(file):
    """The whole records from the start on, as far as there are any before a Z."""
    records, offset = [], 0
    while offset < len(file) and file[offset] in BODY and file[offset] != ord("Z"):
        end = offset + 1 + BODY[file[offset]]
        if end > len(file):
            break
        records.append(file[offset:end])
        offset = end
    return records


def end_of(records):
    """What the Z of these records says."""
    values = [number_at(one, 1, 8) for one in records if one[0] == ord("L")]
    return End(len(values), sum(values))


def closed(records):
    """The records and a Z that is right for them."""
    end = end_of(records)
    return b"".join(records) + record(b"Z", (end.count, 4), (end.sum, 8))


def is_run(records):
    """Whether the file rules allow these records."""
    if end_of(records).sum > MOST_SUM:
        return False
    try:
        decode(closed(records))
    except Refused:
        return False
    return True


def longest_run(records):
    """The most of them from the start that are a run. Each run without its last record is one too, so the number is found by halving."""
    least, most = 0, len(records)
    while least < most:
        middle = (least + most + 1) // 2
        if is_run(records[:middle]):
            least = middle
        else:
            most = middle - 1
    return records[:least]


def old_end(rest):
    """The whole Z that stands first in what follows a run, whether it is right or wrong."""
    if len(rest) >= Z_LENGTH and rest[0] == ord("Z"):
        return End(number_at(rest, 1, 4), number_at(rest, 5, 8))
    return None


@operation
def salvage(file, out):
    if len(file) < P_LENGTH or file[0] != ord("P"):
        raise Refused(29, 0)
    kept = longest_run(whole_records(file))
    result, end = closed(kept), end_of(kept)
    if len(result) > len(out):
        raise Refused(18, len(result))
    rest = file[len(b"".join(kept)) :]
    old = old_end(rest)
    out[: len(result)] = result
    return Salvaged(len(result), len(kept), len(rest) - (Z_LENGTH if old else 0), *end, old)


# ---- The program ----

# It takes no longer input.
MOST_BYTES = 500_000


def said_of(answer):
    """The one line of what was done: each figure after its word, the old Z's last."""
    if isinstance(answer, Refusal):
        return "refused {} {}\n".format(*answer)
    figures = f"kept {answer.kept} dropped {answer.dropped} lines {answer.lines} sum {answer.sum}"
    return figures + (" old {} {}\n".format(*answer.old) if answer.old else "\n")


def salvaged(file):
    """What the program writes: the mended file to standard output, and its line to standard error."""
    if len(file) > MOST_BYTES:
        return b"", f"the file is longer than {MOST_BYTES} bytes\n"
    out = bytearray(LONGEST_FILE)
    answer = salvage(file, out)
    mended = b"" if isinstance(answer, Refusal) else bytes(out[: answer.length])
    return mended, said_of(answer)
