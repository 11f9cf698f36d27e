"""The stack that each call of the library needs, for tools/bench: in docs/PERFORMANCE.md, and in the table of include/mus.h."""

import sys

FEWEST = 10_000  # lines of a ledger of one round
MOST_ROUNDS = 90  # most_rounds of crates/split/specs/Intervals.antt

# A call, the row of one round in which it goes deepest, and the row of many rounds with the most lines of its ledger. A call by either method
# has a row for each, and the larger figures.
STACK = [
    ("mus_size", "size", None, 0),
    ("mus_split", "split-1", "split-deep", 1_000_000),
    ("mus_start", "start", None, 0),
    ("mus_draw", "draw", "draw-deep", 1_000_000),
    ("mus_project", "project-widest", "project-deep", 1_000_000),
    ("mus_project_lines", "lines-widest", "lines-deep", 1_000_000),
    ("mus_board_draw", "board-draw", "board-draw-deep", 1_000_000),
    ("mus_board_project", "board-project-widest", "board-project-deep", 1_000_000),
    ("mus_judge", "judge-widest", "judge-deep", 1_000_000),
    ("mus_strata_plan", "strata-plan", "strata-plan-deep", 1_000_000),
    ("mus_strata_draw", "strata-draw", "strata-draw-deep", 1_000_000),
    ("mus_strata_project", "strata-project-widest", "strata-project-deep", 1_000_000),
    ("mus_post", "post", None, 0),
    ("mus_post_all", "post-all", None, 0),
    ("mus_team_split", "team-split", "team-split-deep", 1_000_000),
    ("mus_team_draw", "team-draw", "team-draw-deep", 1_000_000),
    ("mus_team_post", "team-post", None, 0),
    ("mus_team_post_all", "team-post-all", None, 0),
    ("mus_totals_build", "totals-build", None, 0),
    ("mus_totals_total", "totals-total", None, 0),
    ("mus_totals_find", "totals-find", None, 0),
    ("mus_totals_change", "totals-change", None, 0),
    ("mus_totals_append", "totals-append", None, 0),
    ("mus_totals_check", "totals-check", None, 0),
    ("mus_tally_none", "tally-none", None, 0),
    ("mus_tally_add", "tally-add", None, 0),
    ("mus_attribute_size", "attribute-size", None, 0),
    ("mus_attribute_bound", "attribute-bound", None, 0),
    ("mus_read", "read", None, 0),
    ("mus_write", "write", None, 0),
    ("mus_salvage", "salvage", None, 0),
    ("mus_sheet", "sheet", "sheet-deep", 2_048),
    ("mus_sheet", "sheet-walked", "sheet-walked-deep", 2_048),
]
# The same before document 02's K3, when a round kept 112 bytes: one round, and 90; of the calls that were there.
BEFORE = {
    "mus_size": (1_312, None),
    "mus_split": (264, 10_232),
    "mus_start": (56, None),
    "mus_draw": (248, 10_216),
    "mus_project": (600, 10_280),
    "mus_project_lines": (616, 10_296),
    "mus_judge": (2_064, 10_968),
    "mus_read": (304, None),
    "mus_write": (136, None),
    "mus_sheet": (35_552, 44_456),
}


def measured_stack(said):
    """Of each call, by what the program says of its rows: the bytes at one round; where it splits, the rounds of its deep ledger, the bytes there and at the most."""
    deep = {most: (said("mus", "split-deep", most, "rounds"), said("mus", "split-deep", most, "stack")) for most in (100_000, 1_000_000)}
    (fewer, less), (many, more) = deep.values()
    a_round, left_over = divmod(more - less, many - fewer)
    if left_over:
        sys.exit("bench: the rounds of a split do not keep equally much")
    calls = {}
    for name, once, row, lines in STACK:
        needs = [said("mus", once, FEWEST, "stack"), None, None, None]
        if row:
            rounds, bytes_then = said("mus", row, lines, "rounds"), said("mus", row, lines, "stack")
            needs[1:] = rounds, bytes_then, max(needs[0], bytes_then + (MOST_ROUNDS - rounds) * a_round)
        calls[name] = tuple(map(max, calls[name], needs)) if name in calls else tuple(needs)
    return a_round, calls


def stack_rows(a_round, calls):
    def shown(figure):
        return "" if figure is None else f"{figure:,}"

    for name, (one, rounds, then, most) in calls.items():
        before = BEFORE.get(name, (None, None))
        yield [f"`{name}`", shown(one), shown(before[0]), "" if rounds is None else f"{then:,} at {rounds}", shown(most), shown(before[1])]


def with_stack(header, a_round, calls):
    """The header with its table of the stack made anew."""
    lines = header.split("\n")
    first = next(place for place, line in enumerate(lines) if line.startswith(" *     call "))
    last = next(place for place in range(first, len(lines)) if lines[place] == " *")
    made = [f" *     call                one round   r rounds           {MOST_ROUNDS} rounds"]
    for name, (one, rounds, then, most) in calls.items():
        rounds = f" + {a_round} r" if a_round else ""
        split = "" if most is None else f"   {f'{most - MOST_ROUNDS * a_round:,}{rounds}':<18} {most:>8,}"
        made.append(f" *     {name:<19} {one:>9,}{split}")
    return "\n".join(lines[:first] + made + lines[last:])
