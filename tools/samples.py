#!/usr/bin/env python3
"""The samples: ledgers as text, files, and what the programs say to each.

    python3 tools/samples.py write                  makes samples/NAME.out for every sample, by the reference
    python3 tools/samples.py check                  compares the stored ones, and the figures told in large-grants.txt
    python3 tools/samples.py pack FILE              writes the working file of a sample to standard output
    python3 tools/samples.py run COMMAND ..         runs a desk program on every working file and compares
    python3 tools/samples.py make COMMAND ..        runs a program that makes the working file of a text, and compares
    python3 tools/samples.py programmes COMMAND ..  runs a program for strata on every text of a ledger in strata and compares
    python3 tools/samples.py seasons COMMAND ..     runs a program for a season on every row of files and compares
    python3 tools/samples.py salvages COMMAND ..    runs a program that mends files on every file to be mended and compares

A sample NAME.txt is a text in the notation (tools/notation.py), of a working file, or of a ledger in strata where its first record is N. A sample
NAME.hex holds the bytes of a working file themselves, for files that no text can give. A sample NAME.row names samples, one a line, whose working
files stand in a row. A sample salvage-NAME.hex is a file to be mended: its .out has the line of what was done as a comment, and then the mended file
in hex, a record a line, so that it is read as a .hex is.
"""

import pathlib
import subprocess
import sys

import notation
import reference
import reference_programmes
import reference_salvage
import reference_season

SAMPLES = pathlib.Path(__file__).resolve().parent.parent / "samples"


def pack(text):
    """The working file of a text, after the byte 0x42 where it asks for the blackboard method."""
    found = notation.parse(text)
    if isinstance(found, notation.Fault):
        sys.exit(found.text())
    return found.packed()


def bytes_of_hex(text):
    """Digits two by two: lines that begin with # are comments, and blanks and line ends are passed over."""
    lines = [line for line in text.splitlines() if not line.startswith("#")]
    return bytes.fromhex("".join("".join(lines).split()))


def file_of(path):
    return bytes_of_hex(path.read_text()) if path.suffix == ".hex" else pack(path.read_bytes())


def every_sample():
    return sorted([*SAMPLES.glob("*.txt"), *SAMPLES.glob("*.hex"), *SAMPLES.glob("*.row")])


def named_in(path):
    """The samples that a row names: lines that begin with # are comments."""
    names = [line for line in path.read_text().splitlines() if not line.startswith("#")]
    return [next(SAMPLES / (name + kind) for kind in (".txt", ".hex") if (SAMPLES / (name + kind)).exists()) for name in names]


def row_of(path):
    """The files of a row, one after the other."""
    return b"".join(map(file_of, named_in(path)))


def is_in_strata(path):
    return path.suffix == ".txt" and reference_programmes.in_strata(path.read_bytes())


def is_row(path):
    return path.suffix == ".row"


def is_to_mend(path):
    return path.name.startswith("salvage-")


def working_files():
    return [path for path in every_sample() if not is_in_strata(path) and not is_row(path) and not is_to_mend(path)]


def files_to_mend():
    return list(filter(is_to_mend, every_sample()))


def hex_lines(file):
    """The records of a legal file, one a line."""
    offset = 0
    while offset < len(file):
        end = offset + 1 + reference.BODY[file[offset]]
        yield file[offset:end].hex() + "\n"
        offset = end


def mended_text(mended, said):
    return ("# " + said + "".join(hex_lines(mended))).encode()


def rows_of_files():
    return list(filter(is_row, every_sample()))


def ledgers_in_strata():
    return [path for path in every_sample() if is_in_strata(path)]


def sheet_of(path):
    """What is said to a sample, by the reference."""
    if is_row(path):
        return reference_season.overview(row_of(path))
    if is_to_mend(path):
        return mended_text(*reference_salvage.salvaged(file_of(path)))
    if not is_in_strata(path):
        return reference.desk(file_of(path))
    out, err = reference_programmes.answer_to(path.read_bytes())
    if err:
        sys.exit(f"samples/{path.name}: {err.decode()}")
    return out


# ---- What one round of the split would say ----


def one_round(ledger, n):
    """The split stopped after its first round: its full lines, the others, and the interval that the others get."""
    first_interval = sum(ledger) // n
    full = [line for line, value in enumerate(ledger) if value > first_interval]
    others = [line for line, value in enumerate(ledger) if value <= first_interval]
    interval = sum(ledger[line] for line in others) // (n - len(full))
    return full, others, interval


def figures_line(name, interval, start, projected_error, precision, limit, verdict):
    figures = f"interval {interval}, start {start}, projected {projected_error}, precision {precision}"
    return f"# {name}: {figures}, upper limit {limit}: {verdict}"


def figures_of_one_round(level, te, n, words, ledger, errors):
    """Every later step as it is, on the figures of one round."""
    full, others, interval = one_round(ledger, n)
    start = reference.start(interval, words).start
    drawn = reference.drawn_lines(ledger, others, interval, start)
    amounts = [reference.divide_up(errors[line] * interval, ledger[line]) for line in drawn if errors[line] > 0]
    projected_error = sum(max(0, errors[line]) for line in full) + sum(amounts)
    precision = reference.precision_of(level, interval, amounts)
    limit = projected_error + precision
    verdict = reference.verdict_of(projected_error, limit, te)
    return figures_line("one round", interval, start, projected_error, precision, limit, verdict)


def figures_of_finished(level, te, n, words, ledger, errors):
    interval = reference.split_intervals(ledger, n)[-1]
    start = reference.start(interval, words).start
    found = reference.judge(level, ledger, n, start, errors, te)
    projected_error = found.full_sum + found.sampled_sum
    return figures_line("finished", interval, start, projected_error, found.precision, found.upper_limit, found.verdict)


def told_figures(file):
    """The two lines that a reader of large-grants.txt is told."""
    (level, te, ae), words, ledger, errors = reference.decode(file)
    n = reference.size(level, sum(ledger), te, ae).draws
    inputs = level, te, n, words, ledger, errors
    return figures_of_one_round(*inputs), figures_of_finished(*inputs)


# ---- Writing, checking, running ----


def write():
    for path in every_sample():
        path.with_suffix(".out").write_bytes(sheet_of(path))


def check():
    for path in every_sample():
        out = path.with_suffix(".out")
        if not out.exists() or out.read_bytes() != sheet_of(path):
            sys.exit(f"samples/{out.name} is not what the reference gives")
    told = (SAMPLES / "large-grants.txt").read_text().splitlines()
    for line in told_figures(file_of(SAMPLES / "large-grants.txt")):
        if line not in told:
            sys.exit(f"samples/large-grants.txt does not tell: {line}")


def compare(command, path, given, expected):
    found = subprocess.run(command, input=given, stdout=subprocess.PIPE).stdout
    if found != expected:
        sys.exit(f"samples/{path.name}: found\n{found.decode(errors='replace')}")


def run(command):
    for path in working_files():
        compare(command, path, file_of(path), path.with_suffix(".out").read_bytes())
    return working_files()


def make(command):
    texts = [path for path in working_files() if path.suffix == ".txt"]
    for path in texts:
        compare(command, path, path.read_bytes(), file_of(path))
    return texts


def programmes(command):
    for path in ledgers_in_strata():
        compare(command, path, path.read_bytes(), path.with_suffix(".out").read_bytes())
    return ledgers_in_strata()


def seasons(command):
    for path in rows_of_files():
        compare(command, path, row_of(path), path.with_suffix(".out").read_bytes())
    return rows_of_files()


def salvages(command):
    for path in files_to_mend():
        found = subprocess.run(command, input=file_of(path), capture_output=True)
        if mended_text(found.stdout, found.stderr.decode()) != path.with_suffix(".out").read_bytes():
            sys.exit(f"samples/{path.name}: found {found.stderr.decode(errors='replace')}{found.stdout.hex()}")
    return files_to_mend()


COMMANDS = {"run": run, "make": make, "programmes": programmes, "seasons": seasons, "salvages": salvages}


def main(arguments):
    taken = every_sample()
    if arguments == ["write"]:
        write()
    elif arguments == ["check"]:
        check()
    elif arguments[:1] == ["pack"] and len(arguments) == 2:
        sys.stdout.buffer.write(file_of(pathlib.Path(arguments[1])))
        return
    elif arguments[:1] and arguments[0] in COMMANDS and len(arguments) > 1:
        taken = COMMANDS[arguments[0]](arguments[1:])
    else:
        sys.exit(__doc__)
    print(f"{len(taken)} samples")


if __name__ == "__main__":
    main(sys.argv[1:])
