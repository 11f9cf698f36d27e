"""The self-test of the tally of a season: cases worked by hand, each refusal, and what holds of random seasons."""

from reference import MOST_SUM, Refusal, encode
from reference_season import LEVELS, MOST_JUDGEMENTS, NOT_JUDGED, VERDICTS, Judged, Season, Tally, files_of, overview, season_of
from seeded import Seeded
from self_test import same


def counts_with(**cells):
    """Twenty-seven counts, all 0 but those that are named, as below_95=2."""
    counts = [0] * 27
    for name, count in cells.items():
        verdict, level = name.split("_")
        counts[3 * LEVELS.index(int(level)) + VERDICTS.index(verdict)] = count
    return tuple(counts)


def season_worked():
    """A third, one that was refused, a half, an unknown level, two quarters, a half again: the first half leads, at place 2."""
    offered = [
        Judged(95, 300, 100, "below"), NOT_JUDGED, Judged(95, 10, 5, "above"), Judged(96, 10, 9, "above"),
        Judged(50, 4, 1, "inconclusive"), Judged(50, 8, 2, "inconclusive"), Judged(95, 2, 1, "above"),
    ]
    tally, answers = season_of(offered)
    same("a season", tally, Tally(counts_with(below_95=1, above_95=2, inconclusive_50=2), 324, 109, 1, 6, 2, 5, 10))
    same("its answers", answers, [None, None, None, Refusal(1, 0), None, None, None])
    same("no judgement", season_of([])[0], Tally((0,) * 27, 0, 0, 0, 0, 0, 0, 0))
    same("only refused ones", season_of([NOT_JUDGED] * 3)[0], Tally((0,) * 27, 0, 0, 3, 3, 0, 0, 0))
    same("a limit of 0 leads alone", season_of([NOT_JUDGED, Judged(99, 7, 0, "below")])[0][3:], (1, 2, 1, 0, 7))
    wide = [Judged(90, 2**63 - 1, 2**62, "above"), Judged(90, 2**63, 2**62 + 1, "above")]
    same("shares that products of 64 bits do not tell apart", season_of(wide)[0].worst, 1)
    same("a larger limit that is the smaller share", season_of([Judged(60, 10, 9, "above"), Judged(60, 100, 80, "above")])[0].worst, 0)


def season_refused():
    """27, 1, 5, 28, in this order; and that a refused one changes nothing."""
    full = Season()
    full.refused = MOST_JUDGEMENTS - 1
    same("the millionth", full.add(NOT_JUDGED), None)
    for entry in NOT_JUDGED, Judged(96, 0, MOST_SUM, "below"), Judged(95, 1, 1, "below"):
        same("27", full.add(entry), Refusal(27, 0))
    same("27 changes nothing", full.tally(), Tally((0,) * 27, 0, 0, MOST_JUDGEMENTS, MOST_JUDGEMENTS, 0, 0, 0))
    season = Season()
    season.add(Judged(95, MOST_SUM - 1, 1, "below"))
    before = season.tally()
    for level, book, limit, number in (96, 0, MOST_SUM, 1), (95, 0, MOST_SUM, 5), (95, 2, 1, 28), (95, 1, MOST_SUM, 28), (0, 1, 1, 1):
        same(f"{number}", season.add(Judged(level, book, limit, "above")), Refusal(number, 0))
        same(f"{number} changes nothing", season.tally(), before)
    same("both sums at the largest number", season.add(Judged(95, 1, MOST_SUM - 1, "above")), None)
    same("a refused one meets no other", season.add(NOT_JUDGED), None)


def random_season(r):
    sizes = [10, 1_000, 10**15, MOST_SUM]
    for _ in range(r.between(1, 40)):
        if r.between(0, 4) == 0:
            yield NOT_JUDGED
        else:
            yield Judged(r.one_of([*LEVELS, 0, 96]), r.between(0, r.one_of(sizes)), r.between(0, r.one_of(sizes)), r.one_of(VERDICTS))


def season_random():
    """The counts are those of the judgements that were not refused, and an order of the others changes no figure but the place."""
    r = Seeded(13)
    for _ in range(100):
        offered = list(random_season(r))
        tally, answers = season_of(offered)
        added = [entry for entry, why in zip(offered, answers) if why is None]
        same("all are counted", sum(tally.counts) + tally.refused, tally.added)
        same("those added, again", season_of(added)[0], tally)
        same("the other way round", season_of(added[::-1])[0][:5], tally[:5])


def season_files():
    """Files in a row: the practice file, one whose level is unknown, one without value; a broken one is the last."""
    good = encode(90, 100, 0, [63, 25], [30, 30, 40, 20], [7, 0, 10, 5])
    unknown, empty = encode(96, 100, 0, [], [120], [0]), encode(90, 100, 0, [], [0], [0])
    judged = Judged(90, 120, 137, "inconclusive")
    same("a row", list(files_of(unknown + good + empty)), [NOT_JUDGED, judged, NOT_JUDGED])
    same("no file", list(files_of(b"")), [])
    same("cut short", list(files_of(good + good[:-1])), [judged, NOT_JUDGED])
    same("a byte after the last", list(files_of(good + b"Z")), [judged, NOT_JUDGED])
    same("broken, then legal", list(files_of(good[:18] + b"X" + good)), [NOT_JUDGED])
    same("its sheet", overview(unknown + good + good).decode().splitlines()[2::7], ["level 90 0 2 0", "sums 240 274 1 3"])
    same("its last line", overview(unknown + good + good).decode().splitlines()[-1], "worst 1 137 120")


def run():
    for test in season_worked, season_refused, season_random, season_files:
        test()
        print("ok", test.__name__.replace("_", " "))
