/* Totals beside the ledger through C: a room worked by hand, each refusal in its order with what the call leaves, every cent of a ledger beside a scan of
 * it, a day of changes and appends beside building anew, and a room with the most lines. */
#include <stdint.h>
#include <string.h>

#include "driver.h"
#include "mus.h"

#define ROOM 600
#define COUNT 300
#define FIGURES MUS_SUMMARY_LENGTH(ROOM)

/* An entry more than is lent: no call may touch it. */
#define MARGIN 99
static uint64_t room[ROOM + 1], summary[FIGURES + 1];

/* 300 lines of 2 cents in use, and entries of 7 past them. */
static void lay(uint64_t first, uint64_t second, uint64_t third, uint64_t grand)
{
    const uint64_t figures[] = {first, second, third, grand, MARGIN};
    for (size_t i = 0; i < ROOM; i++) room[i] = i < COUNT ? 2 : 7;
    room[ROOM] = MARGIN;
    memcpy(summary, figures, sizeof summary);
}

static void left(uint64_t first, uint64_t second, uint64_t third, uint64_t grand, const char *what)
{
    const uint64_t wanted[] = {first, second, third, grand, MARGIN};
    expect(memcmp(summary, wanted, sizeof summary) == 0 && room[ROOM] == MARGIN, what);
}

static int lines_untouched(void)
{
    for (size_t i = 0; i < ROOM; i++) {
        if (room[i] != (i < COUNT ? 2 : 7)) return 0;
    }
    return 1;
}

static void worked(void)
{
    struct mus_totals_build_result built;
    struct mus_totals_total_result total;
    struct mus_totals_find_result found;
    struct mus_totals_change_result changed;
    struct mus_totals_append_result appended;
    struct mus_totals_check_result checked;
    lay(9, 9, 9, 9);
    built = mus_totals_build(room, ROOM, COUNT, summary, FIGURES);
    SAME(built, "building", 0, 0, 600);
    left(512, 88, 0, 600, "the summary that building writes");
    total = mus_totals_total(room, ROOM, COUNT, summary, FIGURES);
    SAME(total, "the grand total", 0, 0, 600);
    found = mus_totals_find(room, ROOM, COUNT, summary, FIGURES, 514);
    SAME(found, "the line that holds a cent", 0, 0, 257);
    checked = mus_totals_check(room, ROOM, COUNT, summary, FIGURES);
    SAME(checked, "the summary is right", 0, 0, 0, 0);
    changed = mus_totals_change(room, ROOM, COUNT, summary, FIGURES, 299, 12);
    SAME(changed, "a change", 0, 0, 610);
    left(512, 98, 0, 610, "a change moves its block and the grand total");
    expect(room[299] == 12 && room[298] == 2 && room[300] == 7, "a change writes its line");
    appended = mus_totals_append(room, ROOM, COUNT, summary, FIGURES, 5);
    SAME(appended, "an append", 0, 0, 301);
    left(512, 103, 0, 615, "an append moves its block and the grand total");
    expect(room[300] == 5 && room[301] == 7, "an append writes the line after those in use");
    checked = mus_totals_check(room, ROOM, 301, summary, FIGURES);
    SAME(checked, "right for one line more", 0, 0, 0, 0);
    checked = mus_totals_check(room, ROOM, COUNT, summary, FIGURES);
    SAME(checked, "and wrong for the old count", 0, 0, 1, 1);
}

/* Figures that are wrong, named and followed as they stand. */
static void as_they_stand(void)
{
    struct mus_totals_check_result checked;
    struct mus_totals_find_result found;
    lay(512, 87, 1, 600);
    checked = mus_totals_check(room, ROOM, COUNT, summary, FIGURES);
    SAME(checked, "the first wrong block", 0, 0, 1, 1);
    lay(512, 88, 0, 601);
    checked = mus_totals_check(room, ROOM, COUNT, summary, FIGURES);
    SAME(checked, "the grand total counts as one more", 0, 0, 1, 3);
    lay(510, 90, 0, 600);
    found = mus_totals_find(room, ROOM, COUNT, summary, FIGURES, 514);
    SAME(found, "the line follows from the figures", 0, 0, 258);
    lay(600, 88, 0, 600);
    found = mus_totals_find(room, ROOM, COUNT, summary, FIGURES, 599);
    SAME(found, "31 where no line of the block is reached", 31, 0, 0);
    lay(100, 88, 0, 600);
    found = mus_totals_find(room, ROOM, COUNT, summary, FIGURES, 599);
    SAME(found, "31 past all blocks", 31, 3, 0);
    lay(UINT64_MAX, UINT64_MAX, UINT64_MAX, UINT64_MAX);
    found = mus_totals_find(room, ROOM, COUNT, summary, FIGURES, UINT64_MAX - 1);
    SAME(found, "31 by figures whose sum passes 64 bits", 31, 0, 0);
}

/* What each of the six answers to the same room, count and summary: refusal and place, or ACCEPTED. */
static const struct refused_case {
    const char *what;
    size_t count, figures;
    uint64_t grand, cent;
    size_t line;
    uint64_t value;
    uint64_t build[2], total[2], find[2], change[2], append[2], check[2];
} refused_cases[] = {
    {"2 before 13", 1000001, FIGURES, 600, 0, 0, 1, {2, 0}, {2, 0}, {2, 0}, {2, 0}, {2, 0}, {2, 0}},
    {"2 for an append too many, 13 for the others", 1000000, FIGURES, 600, 0, 0, 1, {13, 0}, {13, 0}, {13, 0}, {13, 0}, {2, 0}, {13, 0}},
    {"13 before 21", 601, FIGURES - 1, 600, 0, 0, 1, {13, 0}, {13, 0}, {13, 0}, {13, 0}, {13, 0}, {13, 0}},
    {"21 before 20 and 3", COUNT, FIGURES - 1, 600, 600, 300, UINT64_MAX, {21, 0}, {21, 0}, {21, 0}, {21, 0}, {21, 0}, {21, 0}},
    {"21 for one figure too many", COUNT, FIGURES + 1, 600, 600, 300, UINT64_MAX, {21, 0}, {21, 0}, {21, 0}, {21, 0}, {21, 0}, {21, 0}},
    {"20 before 3", COUNT, FIGURES, 600, 600, 300, UINT64_MAX, {0, 0}, {0, 0}, {20, 0}, {20, 0}, {3, 300}, {0, 0}},
    {"3 before 4", COUNT, FIGURES, MUS_MOST_TOTAL, 0, 7, MUS_MOST_VALUE + 1, {0, 0}, {0, 0}, {0, 0}, {3, 7}, {3, 300}, {0, 0}},
    {"4", COUNT, FIGURES, MUS_MOST_TOTAL, 0, 7, 3, {0, 0}, {0, 0}, {0, 0}, {4, 7}, {4, 300}, {0, 0}},
    {"4 at the limit", COUNT, FIGURES, MUS_MOST_TOTAL, 0, 7, 2, {0, 0}, {0, 0}, {0, 0}, {0, 0}, {4, 300}, {0, 0}},
    {"4 before 18", ROOM, FIGURES, MUS_MOST_TOTAL, 0, 7, 3, {0, 0}, {0, 0}, {0, 0}, {4, 7}, {4, 600}, {0, 0}},
    {"18", ROOM, FIGURES, 600, 0, 7, 3, {0, 0}, {0, 0}, {0, 0}, {0, 0}, {18, 601}, {0, 0}},
    {"31 for the grand total", COUNT, FIGURES, 1, 0, 299, 0, {0, 0}, {0, 0}, {0, 0}, {31, 3}, {0, 0}, {0, 0}},
};

static void lent(const struct refused_case *c)
{
    lay(512, 88, 0, c->grand);
    if (c->figures > FIGURES) summary[FIGURES] = MARGIN;
}

#define REFUSED(result, wanted) do { \
    expect((result).refusal == (wanted)[0] && (result).place == (wanted)[1], c->what); \
    if ((wanted)[0] != 0) left(512, 88, 0, c->grand, c->what); \
    if ((wanted)[0] != 0) expect(lines_untouched(), c->what); \
} while (0)

static void refusals(void)
{
    for (size_t i = 0; i < sizeof refused_cases / sizeof refused_cases[0]; i++) {
        const struct refused_case *c = &refused_cases[i];
        lent(c);
        REFUSED(mus_totals_total(room, ROOM, c->count, summary, c->figures), c->total);
        REFUSED(mus_totals_find(room, ROOM, c->count, summary, c->figures, c->cent), c->find);
        REFUSED(mus_totals_check(room, ROOM, c->count, summary, c->figures), c->check);
        REFUSED(mus_totals_change(room, ROOM, c->count, summary, c->figures, c->line, c->value), c->change);
        lent(c);
        REFUSED(mus_totals_append(room, ROOM, c->count, summary, c->figures, c->value), c->append);
        lent(c);
        REFUSED(mus_totals_build(room, ROOM, c->count, summary, c->figures), c->build);
    }
}

/* The rest: 31 for the block first, a value that no ledger may have, lines judged by building and check, and lists of no entries. */
static void edges(void)
{
    struct mus_totals_build_result built;
    struct mus_totals_change_result changed;
    struct mus_totals_append_result appended;
    struct mus_totals_check_result checked;
    struct mus_totals_find_result found;
    struct mus_totals_total_result total;
    uint64_t none[1] = {0};
    lay(512, 1, 0, 1);
    changed = mus_totals_change(room, ROOM, COUNT, summary, FIGURES, 299, 0);
    SAME(changed, "31 for the block before the grand total", 31, 1, 0);
    left(512, 1, 0, 1, "31 leaves the summary");
    lay(512, UINT64_MAX, 0, 600);
    appended = mus_totals_append(room, ROOM, COUNT, summary, FIGURES, 1);
    SAME(appended, "31 past 64 bits", 31, 1, 0);
    expect(lines_untouched(), "31 leaves the room");
    room[299] = UINT64_MAX;
    changed = mus_totals_change(room, ROOM, COUNT, summary, FIGURES, 299, 5);
    SAME(changed, "an old value above the grand total is no 4", 31, 3, 0);
    built = mus_totals_build(room, ROOM, COUNT, summary, FIGURES);
    SAME(built, "3 by all lines in use", 3, 299, 0);
    checked = mus_totals_check(room, ROOM, COUNT, summary, FIGURES);
    SAME(checked, "3 of the check", 3, 299, 0, 0);
    built = mus_totals_build(room, ROOM, 299, summary, FIGURES);
    SAME(built, "not past the count", 0, 0, 598);
    built = mus_totals_build(NULL, 0, 0, none, 1);
    SAME(built, "a room of no entries", 0, 0, 0);
    total = mus_totals_total(NULL, 0, 0, none, 1);
    SAME(total, "its total", 0, 0, 0);
    found = mus_totals_find(NULL, 0, 0, none, 1, 0);
    SAME(found, "it has no cent", 20, 0, 0);
    appended = mus_totals_append(NULL, 0, 0, none, 1, 5);
    SAME(appended, "it has no room", 18, 1, 0);
    checked = mus_totals_check(NULL, 0, 0, NULL, 0);
    SAME(checked, "no summary", 21, 0, 0, 0);
}

/* Every cent of a ledger with lines of every small value, beside a scan. */
static void scanned(void)
{
    uint64_t cent = 0;
    int same = 1;
    for (size_t i = 0; i < ROOM; i++) room[i] = i * 7 % 5;
    expect(mus_totals_build(room, ROOM, 513, summary, FIGURES).refusal == 0, "building for the scan");
    for (size_t line = 0; line < 513; line++) {
        for (uint64_t end = cent + room[line]; cent < end; cent++) {
            struct mus_totals_find_result r = mus_totals_find(room, ROOM, 513, summary, FIGURES, cent);
            same = same && r.refusal == 0 && r.line == line;
        }
    }
    expect(same && cent == mus_totals_total(room, ROOM, 513, summary, FIGURES).total, "every cent is found on the line that a scan finds");
    expect(mus_totals_find(room, ROOM, 513, summary, FIGURES, cent).refusal == MUS_LINE_NOT_THERE, "and the next on none");
}

/* Changes and appends one after the other leave what building anew writes. */
static void kept(void)
{
    uint64_t anew[FIGURES];
    size_t count = 0;
    int same = 1;
    lay(0, 0, 0, 0);
    for (uint64_t step = 0; step < 900; step++) {
        if (step % 3 == 0 && count > 0) same = same && mus_totals_change(room, ROOM, count, summary, FIGURES, (size_t) (step * 31 % count), step * 1000).refusal == 0;
        else if (count < ROOM) count = (size_t) mus_totals_append(room, ROOM, count, summary, FIGURES, step * 7).count;
        same = same && mus_totals_build(room, ROOM, count, anew, FIGURES).refusal == 0 && memcmp(anew, summary, sizeof anew) == 0;
    }
    expect(same && count == ROOM, "changes and appends leave what building anew writes");
}

/* A room of more entries than a ledger may have lines: the last line is appended, and no other. */
static void most_lines(void)
{
    static uint64_t large[1000001], figures[MUS_SUMMARY_LENGTH(1000001)];
    const size_t length = sizeof figures / sizeof figures[0];
    struct mus_totals_append_result r;
    for (size_t i = 0; i < 1000001; i++) large[i] = 3;
    expect(mus_totals_build(large, 1000001, 999999, figures, length).total == 2999997, "building 999,999 lines");
    r = mus_totals_append(large, 1000001, 999999, figures, length, 4);
    SAME(r, "the last line that there may be", 0, 0, 1000000);
    r = mus_totals_append(large, 1000001, 1000000, figures, length, 4);
    SAME(r, "one too many", 2, 0, 0);
    expect(mus_totals_find(large, 1000001, 1000000, figures, length, 3000000).line == 999999, "its last cent");
    expect(mus_totals_check(large, 1000001, 1000000, figures, length).wrong == 0 && large[1000000] == 3, "it agrees, and no more is written");
}

void totals_cases(void)
{
    worked();
    as_they_stand();
    refusals();
    edges();
    scanned();
    kept();
    most_lines();
}
