#!/usr/bin/env python3
"""The tables of docs/HANDBOOK.md for files cut on transfer: the sample salvage-cut, record by record, and what is said of each file to be mended; and that
of exercise 36 in docs/ANSWERS.md.

    python3 tools/salvages.py write      puts the tables into the pages, each in the place of the one with its heading
    python3 tools/salvages.py check      compares the pages with what is there
"""

import sys

import samples
from pages import ANSWERS, PAGE, is_write, keep_tables, look_for
from programmes import table
from reference import number_at
from reference_salvage import LONGEST_FILE, closed, longest_run, said_of, salvage, whole_records

CUT, LEGAL = samples.SAMPLES / "salvage-cut.hex", samples.SAMPLES / "salvage-legal.hex"

# Where exercise 36 cuts the legal file.
CUTS = 110, 60, 36, 18, 17


def in_words(record):
    """A record as the notation writes it."""
    kind = chr(record[0])
    if kind == "P":
        return f"P {record[1]} {number_at(record, 2, 8)} {number_at(record, 10, 8)}"
    if kind in "WL":
        return f"{kind} {number_at(record, 1, 8)}"
    return f"{kind} {number_at(record, 1, 4)} {number_at(record, 5, 8)}"


def answered(file):
    return salvage(file, bytearray(LONGEST_FILE))


def records_table(file):
    """Each record of a file by its offset, what is left of it, and the Z that is made."""
    kept = longest_run(whole_records(file))
    rows, offset = [], 0
    for record in kept:
        rows.append([offset, in_words(record), len(record), "kept"])
        offset += len(record)
    rest = file[offset:]
    rows.append([offset, f"{chr(rest[0])}, cut short", len(rest), "dropped"])
    rows.append([offset, in_words(closed(kept)[offset:]), 13, "made"])
    return table(["offset", "record", "bytes", "what becomes of it"], rows)


def files_table(paths):
    rows = []
    for path in paths:
        answer = answered(samples.file_of(path))
        if hasattr(answer, "kept"):
            old = "none" if answer.old is None else "{:,} lines, {:,}".format(*answer.old)
            rows.append([f"`{path.stem}`", answer.kept, answer.dropped, answer.lines, answer.sum, old])
        else:
            rows.append([f"`{path.stem}`", f"refused {answer.number}", None, None, None, None])
    return table(["file", "kept", "dropped", "lines", "sum", "old Z"], rows)


def check_words(file, page):
    """The figures that the section tells beside its tables."""
    answer = answered(file)
    told = (
        f"{len(file)} bytes came through, of {len(samples.file_of(LEGAL))}",
        f"kept {answer.kept} dropped {answer.dropped} lines {answer.lines} sum {answer.sum}",
        f"{answer.lines} lines and {answer.sum} cents",
    )
    look_for(told, "HANDBOOK", page)


def cuts_table(file):
    return table(["bytes", "what is said"], [[cut, f"`{said_of(answered(file[:cut])).strip()}`"] for cut in CUTS])


def check_exchanged(file, page):
    """The figures of exercise 36 beside its table: the second L and the first E exchanged."""
    records = whole_records(file)
    second, error = [place for place, record in enumerate(records) if record[0] == ord("L")][1], [record[0] for record in records].index(ord("E"))
    records[second], records[error] = records[error], records[second]
    answer = answered(b"".join(records) + file[-13:])
    told = f"The {answer.dropped} that follow are dropped"
    if (answer.kept, answer.length - 13, answer.old) != (5, 58, None) or told not in page:
        sys.exit(f"docs/ANSWERS.md does not tell: {told}, of {answer}")


def main(arguments):
    write, file, legal = is_write(arguments, __doc__), samples.file_of(CUT), samples.file_of(LEGAL)
    check_words(file, PAGE.read_text())
    check_exchanged(legal, ANSWERS.read_text())
    made = keep_tables(write, "salvages.py", [records_table(file), files_table(samples.files_to_mend())])
    made += keep_tables(write, "salvages.py", [cuts_table(legal)], path=ANSWERS)
    print(f"salvages: {made} tables as computed")


if __name__ == "__main__":
    main(sys.argv[1:])
