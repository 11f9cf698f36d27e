#!/usr/bin/env python3
"""Cases of every operation, and the answers that the reference gives.

    python3 tools/vectors.py write     writes crates/vectors/stdin and crates/vectors/stdout
    python3 tools/vectors.py check     compares both with what this script makes
    python3 tools/vectors.py count     how many cases each operation has, by answer

The form of the input and of the output stands in docs/VECTORS.md; tools/vector_forms.py packs a case in it.
"""

import collections
import pathlib
import struct
import sys

from reference import Refusal
from vector_cases import every_case

ROOT = pathlib.Path(__file__).resolve().parent.parent
STDIN, STDOUT = ROOT / "crates/vectors/stdin", ROOT / "crates/vectors/stdout"

PRIME = 4_294_967_291

# The program reads one case at a time, and has this room for it.
LONGEST_CASE = 65_536


def digest(entries):
    """An entry below 0 counts with its 64-bit pattern."""
    h = 1
    for x in entries:
        h = (h * 31 + x % 2**64) % PRIME
    return h


def answer_text(number, case, latest):
    answer, lent, *rows = case.run(latest)
    words = ["refused", *answer] if isinstance(answer, Refusal) else list(answer)
    if rows:
        words += ["rows", *map(digest, rows)]
    if lent:
        words += ["lent", *map(digest, lent)]
    return " ".join(map(str, [number, type(case).__name__.lower(), *words]))


def make():
    """Each case, and the output."""
    cases, lines, latest = [], [], bytearray()
    for number, case in enumerate(every_case()):
        cases.append(case.pack())
        lines.append(answer_text(number, case, latest) + "\n")
        if len(cases[-1]) > LONGEST_CASE:
            sys.exit(f"case {number} has {len(cases[-1])} bytes, and the program has room for {LONGEST_CASE}")
    return cases, "".join(lines).encode()


def framed(case):
    """A case after its length."""
    return struct.pack("<I", len(case)) + case


def count_lines(text):
    """How many cases each operation has, by answer."""
    counts = collections.Counter()
    for line in text.decode().splitlines():
        words = line.split()
        counts[words[1], int(words[3]) if words[2] == "refused" else 0] += 1
    for name in dict.fromkeys(name for name, _ in counts):
        answers = sorted((number, count) for (found, number), count in counts.items() if found == name)
        shown = ", ".join(f"{count} {'answered' if number == 0 else f'refused {number}'}" for number, count in answers)
        print(f"{name}: {shown}")


def main(arguments):
    if arguments not in (["write"], ["check"], ["count"]):
        sys.exit(__doc__)
    cases, stdout = make()
    stdin = b"".join(map(framed, [*cases, b""]))
    if arguments == ["write"]:
        STDIN.parent.mkdir(parents=True, exist_ok=True)
        STDIN.write_bytes(stdin)
        STDOUT.write_bytes(stdout)
    elif arguments == ["check"]:
        for path, made in (STDIN, stdin), (STDOUT, stdout):
            if not path.exists() or path.read_bytes() != made:
                sys.exit(f"{path.relative_to(ROOT)} is not what the reference gives")
    count_lines(stdout)
    longest = max(map(len, cases))
    print(f"{len(cases)} cases, {len(stdin)} bytes in, {len(stdout)} bytes out; the longest case has {longest} bytes")


if __name__ == "__main__":
    main(sys.argv[1:])
