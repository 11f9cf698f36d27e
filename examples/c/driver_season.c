/* The tally of a season through C: a season worked by hand, each refusal with the tally as it was, ties and places, and tallies made by hand. */
#include <stdint.h>
#include <string.h>

#include "driver.h"
#include "mus.h"

/* The place of a level and a verdict among the counts. */
#define CELL(row, verdict) (3 * (row) + (verdict) - 1)

static int same_tally(const struct mus_tally *one, const struct mus_tally *other)
{
    return memcmp(one, other, sizeof *one) == 0;
}

/* A call is refused, and hands the tally back as it was. */
static void refused(struct mus_tally before, uint8_t level, uint64_t book, uint64_t limit, uint64_t verdict, uint64_t refusal, const char *what)
{
    struct mus_tally_result r = mus_tally_add(before, level, book, limit, verdict);
    expect(r.refusal == refusal && r.place == 0 && same_tally(&r.tally, &before), what);
}

/* The tally with one judgement more, which is accepted. */
static struct mus_tally added(struct mus_tally before, uint8_t level, uint64_t book, uint64_t limit, uint64_t verdict)
{
    struct mus_tally_result r = mus_tally_add(before, level, book, limit, verdict);
    expect(r.refusal == 0 && r.place == 0, "a judgement is added");
    return r.tally;
}

/* A third, one that was refused, a half, two quarters, a half again. */
static struct mus_tally worked(void)
{
    struct mus_tally t = added(mus_tally_none(), 95, 300, 100, MUS_BELOW);
    t = added(t, 95, 300, 100, 0);
    t = added(t, 95, 10, 5, MUS_ABOVE);
    t = added(t, 50, 4, 1, MUS_INCONCLUSIVE);
    t = added(t, 50, 8, 2, MUS_INCONCLUSIVE);
    return added(t, 95, 2, 1, MUS_ABOVE);
}

static void worked_season(void)
{
    struct mus_tally t = mus_tally_none(), wanted;
    expect(sizeof t == 34 * sizeof (uint64_t), "a tally has 34 numbers and no gap");
    memset(&wanted, 0, sizeof wanted);
    expect(same_tally(&t, &wanted), "no judgement: all 0");
    t = worked();
    wanted.counts[CELL(1, MUS_BELOW)] = 1;
    wanted.counts[CELL(1, MUS_ABOVE)] = 2;
    wanted.counts[CELL(8, MUS_INCONCLUSIVE)] = 2;
    wanted.books = 324;
    wanted.limits = 109;
    wanted.refused = 1;
    wanted.added = 6;
    wanted.worst = 2;
    wanted.worst_limit = 5;
    wanted.worst_book = 10;
    expect(same_tally(&t, &wanted), "the worked season: the first half leads, at place 2");
}

static void refusals(void)
{
    struct mus_tally t = worked(), most = mus_tally_none();
    refused(t, 96, 0, UINT64_MAX, MUS_BELOW, 1, "1 before 5");
    refused(t, 0, 1, 1, MUS_ABOVE, 1, "1");
    refused(t, 95, 0, UINT64_MAX, MUS_BELOW, 5, "5 before 28");
    refused(t, 95, UINT64_MAX - 323, 0, MUS_BELOW, 28, "28 for the books");
    refused(t, 95, 1, UINT64_MAX - 108, MUS_BELOW, 28, "28 for the limits");
    expect(added(t, 95, UINT64_MAX - 324, UINT64_MAX - 109, MUS_BELOW).books == UINT64_MAX, "both sums at the largest number");
    most.added = MUS_MOST_JUDGEMENTS - 1;
    expect(added(most, 0, 0, 0, 0).added == MUS_MOST_JUDGEMENTS, "the millionth");
    most.added = MUS_MOST_JUDGEMENTS;
    refused(most, 96, 0, UINT64_MAX, MUS_BELOW, 27, "27 before 1");
    refused(most, 95, 1, 1, MUS_BELOW, 27, "27");
    refused(most, 95, 1, 1, 0, 27, "27 for one that was refused");
}

/* Ties and places: the earliest stays, and refused ones have a place. */
static void shares(void)
{
    struct mus_tally t = added(mus_tally_none(), 0, 0, 0, 4);
    expect(t.refused == 1 && t.added == 1 && t.worst == 0 && t.worst_book == 0 && t.books == 0, "one that was refused, and no share yet");
    t = added(t, 90, 6, 2, MUS_BELOW);
    expect(t.worst == 1, "the first share, at place 1");
    t = added(t, 90, 3, 1, MUS_BELOW);
    expect(t.worst == 1 && t.worst_limit == 2 && t.worst_book == 6, "a tie: the earliest stays");
    t = added(t, 90, 1000, 300, MUS_BELOW);
    expect(t.worst == 1, "a larger limit that is a smaller share");
    t = added(t, 90, UINT64_C(9223372036854775807), UINT64_C(4611686018427387904), MUS_ABOVE);
    expect(t.worst == 4, "a half and a little more");
    t = added(t, 90, UINT64_C(4611686018427387902), UINT64_C(2305843009213693952), MUS_ABOVE);
    expect(t.worst == 5, "and a little more than that, where the products have 126 bits");
}

/* Tallies that no call has made are taken too. */
static void by_hand(void)
{
    struct mus_tally t = mus_tally_none();
    t.refused = MUS_MOST_JUDGEMENTS;
    refused(t, 95, 1, 1, 0, 27, "27 where a million were refused");
    t.refused = 0;
    t.counts[CELL(0, MUS_ABOVE)] = UINT64_MAX;
    refused(t, 99, 1, 1, MUS_ABOVE, 28, "28 for a count");
    expect(added(t, 99, 1, 1, MUS_BELOW).counts[CELL(0, MUS_BELOW)] == 1, "another count");
    t.worst_limit = 7;
    expect(added(t, 95, 9, 0, MUS_BELOW).worst_book == 9, "a worst without a book is none");
}

/* What a judgement returns can be handed on as it is, refused or not. */
static void handed_on(void)
{
    static const uint64_t ledger[] = {30, 30, 40, 20};
    static const int64_t found[] = {7, 0, 10, 5};
    struct mus_judge_result good = mus_judge(90, ledger, 4, 3, 25, found, 4, 100), bad = mus_judge(90, ledger, 4, 0, 25, found, 4, 100);
    struct mus_tally t = added(mus_tally_none(), 90, 120, bad.upper_limit, bad.verdict);
    t = added(t, 90, 120, good.upper_limit, good.verdict);
    expect(t.refused == 1 && t.added == 2 && t.books == 120 && t.limits == 137 && t.counts[CELL(2, MUS_INCONCLUSIVE)] == 1 && t.worst == 1, "judgements handed on");
}

void season_cases(void)
{
    worked_season();
    refusals();
    shares();
    by_hand();
    handed_on();
}
