"""The rows of tools/bench for totals beside the ledger: calls that do not walk the ledger, and the scan that the search by blocks is held against."""

TOTALS = [("totals-total", "grand total"), ("totals-find", "find the last cent"), ("totals-change", "change a line"), ("totals-append", "append a line")]
TOTALS_SIZES = [10_000, 100_000, 800_000, 1_000_000]
TIMES_FEWER = 100  # instructions of the search by blocks, against a scan of as many lines
SCANNED = 800_000
APART = 20  # so many instructions two counts of a call may differ by their branches, that are not by the lines


def totals_rows(totals, scans):
    """Instructions of a whole call at each size, in C besides; and those of a scan."""
    for row, name in TOTALS:
        yield [name] + [f"{count:,}" for lines in TOTALS_SIZES for count in totals[row, lines]]
    yield ["a scan for that cent"] + [cell for lines in TOTALS_SIZES for cell in ("", f"{scans[lines]:,}")]


def over_totals(totals, scans, sizes, target):
    """The rows above the target, and those that cost more on a longer ledger though they walk none; whether a search is enough fewer than a scan."""
    over = [row for row, _ in TOTALS if any(totals[row, lines][0] > target * totals[row, lines][1] for lines in sizes)]
    for row in "totals-total", "totals-change", "totals-append":
        counts = [totals[row, lines][0] for lines in sizes]
        over += [f"{row}, which grows"] if max(counts) - min(counts) > APART else []
    return over + [f"the search at {lines} lines" for lines in sizes if lines == SCANNED and TIMES_FEWER * totals["totals-find", lines][0] > scans[lines]]
