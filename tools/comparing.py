"""What tools/compare-desk, tools/compare-programmes, tools/compare-seasons and tools/compare-salvages share: random ledgers with errors, and the comparing."""

import collections
import importlib.machinery
import importlib.util
import pathlib
import subprocess
import sys

from reference import MOST_VALUE

MOST_WORD = 2**64 - 1
MOST_ERROR, LEAST_ERROR = 2**63 - 1, -(2**63)


# ---- Contents ----


def some_ledger(r):
    """Book values of one of many kinds; most are legal."""
    count = r.one_of([0, 1, 2, 5, 5, 12, 12, 12, 40, 40, 150, 150, r.below(300), r.one_of([12, 40, 2_048])])
    most = r.one_of([1, 9, 100, 100, 5_000, 5_000, 10**6, 10**6, 10**8, 10**10, MOST_VALUE, r.one_of([10**6, 2**61])])
    ledger = [r.between(0 if r.chance(20) else most // 2, most) for _ in range(count)]
    for _ in range(r.one_of([0, 0, 1, 3]) if ledger else 0):
        ledger[r.below(count)] = r.one_of([0, r.between(0, 30 * most), min(MOST_VALUE, 9 * most)])
    if ledger and r.chance(3):
        ledger[r.below(count)] = r.one_of([MOST_VALUE, MOST_VALUE + 1, MOST_WORD, 2**32 - 1, 2**32])
    return ledger


def some_errors(r, ledger, states):
    """Errors of one kind or both on some full and drawn lines; now and then on another line, or beyond the value."""
    share, signs = r.one_of([0, 5, 20, 60, 100]), r.one_of([[1], [1], [1, 1, -1], [1, -1], [-1]])
    errors = [0] * len(ledger)
    for line, value in enumerate(ledger):
        if states and states[line] and r.chance(share):
            errors[line] = r.one_of(signs) * min(MOST_ERROR, r.one_of([value, r.between(0, value), r.between(0, value // 20)]))
    if ledger and r.chance(12):
        line = r.below(len(ledger))
        size = r.one_of([1, ledger[line], ledger[line] + 1, MOST_ERROR])
        errors[line] = r.one_of([1, -1]) * min(MOST_ERROR, size)
    if ledger and r.chance(2):
        errors[r.below(len(ledger))] = r.one_of([LEAST_ERROR, MOST_ERROR, LEAST_ERROR - 1, MOST_ERROR + 1])  # the last two break a rule
    return errors


def some_words(r):
    return [r.below(2**64) for _ in range(r.one_of([0, 1, 2, 3, 5, 5, 8, 64]))]


# ---- Comparing ----


def script(name):
    """A script of this folder as a module."""
    loader = importlib.machinery.SourceFileLoader(name.replace("-", "_"), str(pathlib.Path(__file__).resolve().parent / name))
    module = importlib.util.module_from_spec(importlib.util.spec_from_loader(loader.name, loader))
    loader.exec_module(module)
    return module


def said_by(command, given):
    """What a program writes to standard output, or to standard error where that is nothing."""
    found = subprocess.run(command, input=given, capture_output=True)
    return found.stdout or found.stderr


def show_difference(number, seed, expected, found):
    print(f"file {number} of seed {seed} differs: expected")
    print(expected.decode() + "found")
    print(found.decode(errors="replace"))


def compare(count, seed, command, make, expected_of, kind_of, said=said_by):
    """How many files differ; without a command none is run."""
    kinds, different = collections.Counter(), 0
    for number in range(count):
        file = make(number, seed)
        expected = expected_of(file)
        kinds[kind_of(expected)] += 1
        found = said(command, file) if command else expected
        if found != expected:
            different += 1
            show_difference(number, seed, expected, found)
    shown = ", ".join(f"{' '.join(kind.split())}: {times}" for kind, times in sorted(kinds.items()))
    print(f"{count} files of seed {seed}, {f'{different} differ' if command else 'no program run'}; {shown}")
    return different


def main(arguments, usage, make, *ways):
    """The command line of a script that compares."""
    if arguments[:1] == ["--file"] and len(arguments) == 3:
        sys.stdout.buffer.write(make(int(arguments[1]), int(arguments[2])))
    elif len(arguments) >= 2:
        sys.exit(1 if compare(int(arguments[0]), int(arguments[1]), arguments[2:], make, *ways) else 0)
    else:
        sys.exit(usage)
