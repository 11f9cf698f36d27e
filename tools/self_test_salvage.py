"""The self-test of the salvage: cases worked by hand, each refusal, and what holds of damaged files."""

from reference import Refusal, Refused, decode, encode
from reference_salvage import LONGEST_FILE, End, Salvaged, is_run, salvage, salvaged, whole_records
from seeded import Seeded
from self_test import PRACTICE_FILE, same
from vector_files import LONGEST, E, L, P, W, Z


def of(file, room=LONGEST_FILE):
    """What is answered, and the mended file."""
    out = bytearray(b"\x09" * room)
    answer = salvage(file, out)
    return answer, bytes(out[: answer.length] if isinstance(answer, Salvaged) else out)


def salvage_worked():
    """Cut in a record, a Z of before, bytes after it, a record that no rule allows."""
    front = P + W(7) + L(30) + L(12)
    same("cut in its last record", of(front[:-5]), (Salvaged(49, 3, 4, 1, 30, None), P + W(7) + L(30) + Z(1, 30)))
    same("without its Z", of(front), (Salvaged(58, 4, 0, 2, 42, None), front + Z(2, 42)))
    same("a Z of before", of(front + Z(1, 30)), (Salvaged(58, 4, 0, 2, 42, End(1, 30)), front + Z(2, 42)))
    same("lines added after Z", of(P + L(30) + Z(1, 30) + L(12)), (Salvaged(40, 2, 9, 1, 30, End(1, 30)), P + L(30) + Z(1, 30)))
    same("a Z cut short", of(front + Z(2, 42)[:-1]), (Salvaged(58, 4, 12, 2, 42, None), front + Z(2, 42)))
    same("two Z", of(front + Z(2, 42) + Z(2, 42)), (Salvaged(58, 4, 13, 2, 42, End(2, 42)), front + Z(2, 42)))
    same("W after L", of(front + W(8) + L(1)), (Salvaged(58, 4, 18, 2, 42, None), front + Z(2, 42)))
    same("a Z that is not directly after the run", of(front + E(2, 1) + Z(2, 42)), (Salvaged(58, 4, 26, 2, 42, None), front + Z(2, 42)))
    same("P alone", of(P), (Salvaged(31, 1, 0, 0, 0, None), P + Z(0, 0)))
    same("the sum past 64 bits", of(P + L(2**64 - 1) + L(1)), (Salvaged(40, 2, 9, 1, 2**64 - 1, None), P + L(2**64 - 1) + Z(1, 2**64 - 1)))
    same("the longest run", of(LONGEST + b"Z"), (Salvaged(LONGEST_FILE, 4_161, 1, 2_048, 977 * 2_047 * 1_024, End(2_048, 977 * 2_047 * 1_024)), LONGEST))


def salvage_refused():
    """29, then 18, and the buffer stays."""
    for file in b"", P[:17], P[:1], b"p" + P[1:], W(1) + P + Z(0, 0), Z(0, 0) + P:
        for room in 0, 30, 100:
            same("29", of(file, room), (Refusal(29, 0), b"\x09" * room))
    for room in 0, 17, 39:
        same("18", of(P + L(30) + Z(9, 9), room), (Refusal(18, 40), b"\x09" * room))
    same("room to the byte", of(P + L(30), 40)[0], Salvaged(40, 2, 0, 1, 30, None))
    out = bytearray(b"\x09" * 50)
    salvage(P + L(30), out)
    same("bytes past the result", bytes(out[40:]), b"\x09" * 10)


def salvage_said():
    """The program's line, and what it writes."""
    same("with an old Z", salvaged(P + L(30) + Z(1, 30) + L(12)), (P + L(30) + Z(1, 30), "kept 2 dropped 9 lines 1 sum 30 old 1 30\n"))
    same("without one", salvaged(P + L(30)), (P + L(30) + Z(1, 30), "kept 2 dropped 0 lines 1 sum 30\n"))
    same("refused", salvaged(b"P"), (b"", "refused 29 0\n"))
    same("too long", salvaged(PRACTICE_FILE + bytes(500_000)), (b"", "the file is longer than 500000 bytes\n"))


def damaged(r, file):
    """A file that is cut, changed, or has bytes more."""
    file = bytearray(file)
    for _ in range(r.between(0, 2)):
        file[r.below(len(file))] = r.one_of([r.below(256), *b"PWLEUZ"])
    tail = r.one_of([b"", Z(1, 1), L(5), bytes(r.below(256) for _ in range(r.below(20)))])
    return bytes(file[: r.one_of([len(file), r.below(len(file) + 1)])]) + tail


def check_kept(file, answer, mended):
    """What the request says, of one file and its result."""
    decode(mended)
    records, kept = whole_records(file), whole_records(mended)
    same("no record that the input lacks", kept, records[: len(kept)])
    same("no longer run", [k for k in range(len(records) + 1) if is_run(records[:k])][-1], len(kept))
    same("every byte is counted", len(mended) - 13 + answer.dropped + 13 * (answer.old is not None), len(file))
    same("again", of(mended), (answer._replace(dropped=0, old=End(answer.lines, answer.sum)), mended))


def salvage_random():
    """Damaged files: the result reads, is the longest, and holds nothing else; a legal file comes out as it is."""
    r = Seeded(14)
    for _ in range(300):
        values = [r.below(2 ** r.one_of([3, 20, 63])) for _ in range(r.between(0, 5))]
        if sum(values) >= 2**64:
            continue
        errors = [r.one_of([0, 3, -4]) for _ in values]
        legal = encode(r.below(256), r.below(2**64), 0, [r.below(2**64) for _ in range(r.below(3))], values, errors)
        same("a legal file", of(legal)[1], legal)
        file = damaged(r, legal)
        answer, mended = of(file)
        if isinstance(answer, Refusal):
            same("29", (answer, file[:1] == b"P" and len(file) >= 18), (Refusal(29, 0), False))
        else:
            check_kept(file, answer, mended)
            try:
                decode(file)
                same("legal by chance", mended, file)
            except Refused:
                same("mended", mended == file, False)


def run():
    for test in salvage_worked, salvage_refused, salvage_said, salvage_random:
        test()
        print("ok", test.__name__.replace("_", " "))
