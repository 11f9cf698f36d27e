"""Texts and files that tools/test-desk hands to tools/desk, and what is said to each."""

import reference
import samples

PRACTICE = (samples.SAMPLES / "practice.txt").read_bytes()
SHEET = (samples.SAMPLES / "practice.out").read_text()
FILE = samples.pack(PRACTICE)
HEX = b"# a comment\n" + FILE.hex(" ").encode()

FOUR = (samples.SAMPLES / "programmes-four.txt").read_bytes()
FOUR_SHEET = (samples.SAMPLES / "programmes-four.out").read_text()

MARKED = "the text begins with a byte-order mark: save it as UTF-8 without one"

# The longest working file: 64 words, and 2,048 lines, each of them drawn and with an error.
LONGEST = reference.encode(90, 2_310_000, 0, [0] * 64, [1_000_000] * 2_048, [-1] * 2_048)
LONGEST_SHEET = reference.desk(LONGEST).decode()

# Name, bytes, and what tools/desk says to them: words on standard error, or a text on standard output with its status.
FILES = [
    ("ledger.txt", PRACTICE, SHEET),
    ("ledger.TXT", PRACTICE, SHEET),
    ("ledger", PRACTICE, SHEET),
    ("a ledger.dat", PRACTICE, SHEET),
    ("accents", "# Förderung, élargie\n".encode() + PRACTICE, SHEET),
    ("crlf.txt", PRACTICE.replace(b"\n", b"\r\n"), SHEET),
    ("crlf", PRACTICE.replace(b"\n", b"\r\n"), SHEET),
    ("longest.txt", PRACTICE + b"#" * (500_000 - len(PRACTICE)), SHEET),
    ("ledger.file", FILE, SHEET),
    ("ledger.bin", FILE, SHEET),
    ("no-name", FILE, SHEET),
    ("ledger.hex", HEX, SHEET),
    ("upper.HEX", HEX.upper(), SHEET),
    ("crlf.hex", HEX.replace(b"\n", b"\r\n"), SHEET),
    ("long.hex", FILE.hex().encode() + b"00" * 400_000, "refused 17 124\n"),
    ("cut", FILE[:-1], "refused 17 111\n"),
    ("long", FILE + bytes(2_000_000), "refused 17 124\n"),
    ("comments.hex", b"# no digit\n", "refused 17 0\n"),
    ("board.txt", b"B\n" + PRACTICE, SHEET),
    ("board", b"\t B\r\n" + PRACTICE, SHEET),
    ("board.file", b"B" + FILE, SHEET),
    ("board.hex", b"# the byte\n42\n" + HEX, SHEET),
    ("board-cut", b"B" + FILE[:-1], "refused 17 111\n"),
    ("board-long", b"B" + FILE + bytes(2_000_000), "refused 17 124\n"),
    ("board-twice", b"BB" + FILE, "refused 17 0\n"),
    ("board-alone.hex", b"42\n", "refused 17 0\n"),
    ("longest", LONGEST, LONGEST_SHEET),
    ("longest-after", LONGEST + b"P", "refused 17 45663\n"),
    ("board-longest", b"B" + LONGEST, LONGEST_SHEET),
    ("board-longest-after", b"B" + LONGEST + b"P", "refused 17 45663\n"),
    ("board-second.txt", b"B\nB\n" + PRACTICE, "line 2: the line begins with none of P, W, L, E, U and #"),
    ("board-late.txt", PRACTICE + b"B\n", f"line {len(PRACTICE.splitlines()) + 1}: the line begins with none of P, W, L, E, U and #"),
    ("board-number.txt", b"B 1\n" + PRACTICE, "line 1: the line begins with none of P, W, L, E, U and #"),
    ("board-point.txt", b"B\nP 90 100 0\nL 30.5\n", "line 3: a number has decimal digits only"),
    ("board-only.txt", b"B\n", "line 2: P has to come first"),
    ("board-strata.txt", b"B\nN 5\n", "line 2: the line begins with none of P, W, L, E, U and #"),
    ("total-0.txt", b"P 90 100 0\n", "refused 5 0\n"),
    ("point.txt", b"P 90 100 0\nL 30.5\n", "line 2: a number has decimal digits only"),
    ("point", b"P 90 100 0\nL 30.5\n", "line 2: a number has decimal digits only"),
    ("comma-crlf.txt", b"P 90 100 0\r\nL 1,000\r\n", "line 2: a number has decimal digits only"),
    ("minus.txt", b"P 90 100 0\nL 30\nE 0 -5\n", "line 3: a number has decimal digits only"),
    ("both.txt", PRACTICE + b"U 3 5\n", "line 12: lines of E and U have to rise"),
    ("size.txt", b"P 90 100 0\nL 30\nU 0 9223372036854775809\n", "line 3: E passes 2^63 - 1, or U 2^63"),
    ("prose", b"Dear auditors\n", "line 1: the line begins with none of P, W, L, E, U and #"),
    ("mark.txt", b"\xef\xbb\xbf" + PRACTICE, MARKED),
    ("mark", b"\xef\xbb\xbf" + PRACTICE, MARKED),
    ("wide.txt", PRACTICE.decode().encode("utf-16"), MARKED),
    ("wide", PRACTICE.decode().encode("utf-16"), MARKED),
    ("file.txt", FILE, "line 1: the line begins with none of P, W, L, E, U and #"),
    ("empty.txt", b"", "this file is empty"),
    ("empty", b"", "this file is empty"),
    ("empty.hex", b"", "this file is empty"),
    ("blank.txt", b"\n \n", "line 3: P has to come first"),
    ("comment.txt", b"# nothing yet\n", "line 2: P has to come first"),
    ("over.txt", PRACTICE + b"#" * (500_001 - len(PRACTICE)), "the text is longer than 500000 bytes"),
    ("far-over", b"#" * 2_000_000, "the text is longer than 500000 bytes"),
    ("letter.hex", b"# P\n50 5g\n", "line 2: hex digits only"),
    ("late-comment.hex", b"50 # P\n", "line 1: hex digits only"),
    ("zero.hex", b"50\n\0", "line 2: hex digits only"),
    ("odd.hex", HEX[:-1], "the last byte has one hex digit"),
    ("over.hex", b"50" * 500_001, "the hex is longer than 1000000 bytes"),
]


NO_KIND = "the line begins with none of N, S, W, L, E, U and #"
ORDER = "records come in order N, W, S and L, then E and U"

# The same for texts whose first record is N.
FILES_IN_STRATA = [
    ("four.txt", FOUR, FOUR_SHEET),
    ("four", FOUR, FOUR_SHEET),
    ("four-crlf.txt", FOUR.replace(b"\n", b"\r\n"), FOUR_SHEET),
    ("four-indented", b"# P 90 100 0\n \r\t" + FOUR[FOUR.index(b"N 10") :], FOUR_SHEET),
    ("four-longest.txt", FOUR + b"#" * (500_000 - len(FOUR)), FOUR_SHEET),
    ("four-over.txt", FOUR + b"#" * (500_001 - len(FOUR)), "the text is longer than 500000 bytes"),
    ("four-mark.txt", b"\xef\xbb\xbf" + FOUR, MARKED),
    ("four-wide", FOUR.decode().encode("utf-16"), MARKED),
    ("no-strata", b"N 5\n", "refused 22 0\n"),
    ("no-end", b"N 5", "refused 22 0\n"),
    ("no-draw", b"N 0\nS\nL 5\n", "refused 8 0\n"),
    ("no-number", b"N\n", "line 1: a number is missing"),
    ("second.txt", b"N 5\nN 5\n", "line 2: a second N"),
    ("plan-in-strata.txt", b"N 5\nP 90 100 0\n", f"line 2: {NO_KIND}"),
    ("no-stratum.txt", b"N 5\nW 1\nL 30\n", "line 3: S has to come before L"),
    ("late-word.txt", b"N 5\nS\nW 1\n", f"line 3: {ORDER}"),
    ("late-stratum.txt", FOUR + b"S\n", f"line {len(FOUR.splitlines()) + 1}: {ORDER}"),
    ("named.txt", b"N 5\nS roads\n", "line 2: a field too many"),
    ("no-line.txt", b"N 1\nS\nL 5\nE 1 1\n", "line 4: E or U names a line no L has"),
    ("strata-at-the-desk.txt", b"P 90 100 0\nS\nL 30\n", "line 2: the line begins with none of P, W, L, E, U and #"),
    ("draws-at-the-desk.txt", PRACTICE + b"N 5\n", f"line {len(PRACTICE.splitlines()) + 1}: the line begins with none of P, W, L, E, U and #"),
    ("stratum-first.txt", b"S\nN 5\n", "line 1: the line begins with none of P, W, L, E, U and #"),
]
