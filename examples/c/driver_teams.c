/* Two teams on one ledger through C: both on one table in either order, bits 4 to 7 set beforehand, every byte as a team and as a mark, a team's call
 * beside the plain one on its own bits, each refusal after 24, and what a refused call leaves. */
#include <stdint.h>
#include <string.h>

#include "driver.h"
#include "mus.h"

#define LINES 4

static const uint64_t ledger[LINES] = {30, 30, 40, 20};
static const uint8_t before[LINES] = {0xF0, 0x10, 0x20, 0x80}, both_drawn[LINES] = {0xF5, 0x14, 0x25, 0x81};
static const uint8_t teams[] = {MUS_TEAM_A, MUS_TEAM_B};

/* A mark, and an error, more than the ledger has lines: no call may touch it. */
#define MARGIN 0x5A
static uint8_t marks[LINES + 1];
static int64_t errors[LINES + 1];

static void marked(const uint8_t *table)
{
    memcpy(marks, table, LINES);
    marks[LINES] = MARGIN;
}

static void left(const uint8_t *wanted, const char *what)
{
    expect(memcmp(marks, wanted, LINES) == 0 && marks[LINES] == MARGIN, what);
}

static void found_before(int64_t first, int64_t second, int64_t third, int64_t fourth)
{
    const int64_t were[] = {first, second, third, fourth, MARGIN};
    memcpy(errors, were, sizeof errors);
}

static void errors_left(int64_t first, int64_t second, int64_t third, int64_t fourth, const char *what)
{
    const int64_t wanted[] = {first, second, third, fourth, MARGIN};
    expect(memcmp(errors, wanted, sizeof errors) == 0, what);
}

static uint8_t own(uint8_t team, uint8_t mark)
{
    return team == MUS_TEAM_A ? mark & 3 : mark >> 2 & 3;
}

/* A draws from start 25 and B from start 0, in either order; then each splits anew, which takes its own draw out. */
static void either_order(void)
{
    static const uint8_t after_a[] = {0xF1, 0x10, 0x21, 0x81}, after_b[] = {0xF4, 0x14, 0x24, 0x80};
    struct mus_draw_result r;
    struct mus_split_result s;
    marked(before);
    r = mus_team_draw(MUS_TEAM_A, ledger, LINES, 3, 25, marks, LINES);
    SAME(r, "A draws", 0, 0, 3);
    left(after_a, "A's draw, bits 2 to 7 as they were");
    r = mus_team_draw(MUS_TEAM_B, ledger, LINES, 3, 0, marks, LINES);
    SAME(r, "B draws", 0, 0, 3);
    left(both_drawn, "both draws, A first");
    marked(before);
    r = mus_team_draw(MUS_TEAM_B, ledger, LINES, 3, 0, marks, LINES);
    SAME(r, "B draws first", 0, 0, 3);
    left(after_b, "B's draw, bits 0, 1 and 4 to 7 as they were");
    r = mus_team_draw(MUS_TEAM_A, ledger, LINES, 3, 25, marks, LINES);
    SAME(r, "A draws after it", 0, 0, 3);
    left(both_drawn, "both draws, B first");
    s = mus_team_split(MUS_TEAM_B, ledger, LINES, 3, marks, LINES);
    SAME(s, "B's split", 0, 0, 40, 3, 120, 0, 0);
    left(after_a, "a split of B's takes B's draw out");
    s = mus_team_split(MUS_TEAM_A, ledger, LINES, 3, marks, LINES);
    SAME(s, "A's split", 0, 0, 40, 3, 120, 0, 0);
    left(before, "and a split of A's takes A's out");
}

/* Full lines, in the bits of either team. */
static void full_lines(void)
{
    static const uint64_t large[] = {500, 120, 0, 80, 300};
    static const uint8_t table[] = {0x01, 0x0C, 0xFF, 0x30, 0xC3}, by_a[] = {0x02, 0x0E, 0xFC, 0x30, 0xC2}, by_b[] = {0x0A, 0x0A, 0xF0, 0x34, 0xCA};
    uint8_t five[5];
    struct mus_split_result s;
    struct mus_draw_result r;
    memcpy(five, table, 5);
    s = mus_team_split(MUS_TEAM_A, large, 5, 4, five, 5);
    SAME(s, "A's split in three rounds", 0, 0, 80, 1, 80, 3, 920);
    expect(memcmp(five, by_a, 5) == 0, "full lines in A's bits");
    r = mus_team_draw(MUS_TEAM_B, large, 5, 4, 79, five, 5);
    SAME(r, "B draws beside full lines", 0, 0, 1);
    expect(memcmp(five, by_b, 5) == 0, "full and drawn lines in B's bits");
}

/* Every byte as a team: all but two are 24, before any other refusal, and change nothing. */
static void unknown(void)
{
    static const uint64_t wrong[] = {MUS_MOST_VALUE + 1}, lines[] = {9};
    static const int64_t found[] = {INT64_MIN};
    marked(both_drawn);
    found_before(1, 2, 3, 4);
    for (unsigned byte = 0; byte < 256; byte++) {
        uint8_t team = (uint8_t) byte;
        if (team == MUS_TEAM_A || team == MUS_TEAM_B) continue;
        struct mus_split_result s = mus_team_split(team, ledger, LINES, 3, marks, LINES);
        SAME(s, "24 for a split", 24, 0, 0, 0, 0, 0, 0);
        s = mus_team_split(team, wrong, 1, 0, marks, LINES);
        SAME(s, "24 before the split's", 24, 0, 0, 0, 0, 0, 0);
        struct mus_draw_result r = mus_team_draw(team, ledger, LINES, 3, 25, marks, LINES);
        SAME(r, "24 for a draw", 24, 0, 0);
        r = mus_team_draw(team, NULL, 0, 0, 1, NULL, 0);
        SAME(r, "24 before the draw's", 24, 0, 0);
        struct mus_post_result p = mus_team_post(team, ledger, LINES, marks, LINES, errors, LINES, 0, 7);
        SAME(p, "24 for a finding", 24, 0, 0);
        p = mus_team_post(team, ledger, LINES, NULL, 0, errors, LINES, 9, INT64_MIN);
        SAME(p, "24 before a finding's", 24, 0, 0);
        p = mus_team_post_all(team, ledger, LINES, marks, LINES, errors, LINES, lines, 1, found, 1);
        SAME(p, "24 for a batch", 24, 0, 0);
        p = mus_team_post_all(team, NULL, 0, NULL, 0, NULL, 0, NULL, 0, NULL, 0);
        SAME(p, "24 without lists", 24, 0, 0);
    }
    left(both_drawn, "24 leaves the marks");
    errors_left(1, 2, 3, 4, "24 leaves the errors");
}

/* The plain refusals of a split and a draw, for either team: no bit changes. */
static void refused(uint8_t team)
{
    static const uint64_t large[] = {5, MUS_MOST_VALUE + 1}, zeros[LINES];
    struct mus_draw_result r;
    struct mus_split_result s;
    marked(both_drawn);
    r = mus_team_draw(team, ledger, LINES, 3, 25, marks, LINES + 1);
    SAME(r, "a team's draw: 13", 13, 0, 0);
    r = mus_team_draw(team, large, 2, 3, 0, marks, 2);
    SAME(r, "a team's draw: 3", 3, 1, 0);
    r = mus_team_draw(team, zeros, LINES, 3, 0, marks, LINES);
    SAME(r, "a team's draw: 5", 5, 0, 0);
    r = mus_team_draw(team, ledger, LINES, 0, 0, marks, LINES);
    SAME(r, "a team's draw: 8", 8, 0, 0);
    r = mus_team_draw(team, ledger, LINES, 3, 40, marks, LINES);
    SAME(r, "a team's draw: 11", 11, 0, 0);
    r = mus_team_draw(team, NULL, 0, 3, 0, NULL, 0);
    SAME(r, "a team's draw: 5 without lines", 5, 0, 0);
    s = mus_team_split(team, ledger, LINES, 3, marks, LINES - 1);
    SAME(s, "a team's split: 13", 13, 0, 0, 0, 0, 0, 0);
    s = mus_team_split(team, large, 2, 3, marks, 2);
    SAME(s, "a team's split: 3", 3, 1, 0, 0, 0, 0, 0);
    s = mus_team_split(team, zeros, LINES, 3, marks, LINES);
    SAME(s, "a team's split: 5", 5, 0, 0, 0, 0, 0, 0);
    s = mus_team_split(team, ledger, LINES, 0, marks, LINES);
    SAME(s, "a team's split: 8", 8, 0, 0, 0, 0, 0, 0);
    left(both_drawn, "a refused split or draw of a team changes no bit");
}

/* 2 and 4: more lines than a step takes, and a total above the largest. */
static void too_much(uint8_t team)
{
    static uint64_t many[1000001], heavy[101];
    static uint8_t marks_of_many[1000001];
    struct mus_draw_result r = mus_team_draw(team, many, 1000001, 0, 1, marks_of_many, 3);
    SAME(r, "a team's draw: 2 before 13", 2, 0, 0);
    for (size_t i = 0; i < 101; i++) heavy[i] = MUS_MOST_VALUE;
    r = mus_team_draw(team, heavy, 101, 0, 1, marks_of_many, 101);
    SAME(r, "a team's draw: 4 before 8", 4, 100, 0);
    struct mus_split_result s = mus_team_split(team, many, 1000001, 0, marks_of_many, 3);
    SAME(s, "a team's split: 2", 2, 0, 0, 0, 0, 0, 0);
    s = mus_team_split(team, heavy, 101, 0, marks_of_many, 101);
    SAME(s, "a team's split: 4", 4, 100, 0, 0, 0, 0, 0);
}

/* Each team posts by its own draw: line 1 is B's alone, line 3 A's alone. */
static void findings(void)
{
    static const uint64_t lines[] = {0, 3, 1, 2};
    static const int64_t found[] = {7, -5, 3, 10};
    struct mus_post_result r;
    struct mus_project_result p;
    marked(both_drawn);
    found_before(0, 0, 0, 0);
    r = mus_team_post_all(MUS_TEAM_A, ledger, LINES, marks, LINES, errors, LINES, lines, 4, found, 4);
    SAME(r, "A has no line 1", 15, 2, 0);
    errors_left(7, 0, 0, -5, "A's pairs before it stay posted");
    r = mus_team_post_all(MUS_TEAM_A, ledger, LINES, marks, LINES, errors, LINES, lines + 3, 1, found + 3, 1);
    SAME(r, "A's rest", 0, 0, 1);
    p = mus_project(ledger, LINES, 3, 25, errors, LINES);
    SAME(p, "A's findings, projected", 0, 0, 0, 20, 2, 0, 10, 10);
    found_before(0, 0, 0, 0);
    r = mus_team_post_all(MUS_TEAM_B, ledger, LINES, marks, LINES, errors, LINES, lines, 4, found, 4);
    SAME(r, "B has no line 3", 15, 1, 0);
    r = mus_team_post(MUS_TEAM_B, ledger, LINES, marks, LINES, errors, LINES, 1, 3);
    SAME(r, "B has line 1", 0, 0, 1);
    r = mus_team_post(MUS_TEAM_B, ledger, LINES, marks, LINES, errors, LINES, 3, 0);
    SAME(r, "0 on a line that B did not draw", 0, 0, 1);
    errors_left(7, 3, 0, 0, "B's findings");
    p = mus_project(ledger, LINES, 3, 0, errors, LINES);
    SAME(p, "B's findings, projected", 0, 0, 0, 14, 2, 0, 0, 14);
    r = mus_team_post(MUS_TEAM_B, ledger, LINES, marks, LINES - 1, errors, LINES, 9, 99);
    SAME(r, "a team's finding: 13 before 20", 13, 0, 0);
    r = mus_team_post(MUS_TEAM_B, ledger, LINES, marks, LINES, errors, LINES, 4, INT64_MIN);
    SAME(r, "a team's finding: 20 before 14", 20, 0, 0);
    r = mus_team_post(MUS_TEAM_B, ledger, LINES, marks, LINES, errors, LINES, 3, 21);
    SAME(r, "a team's finding: 14 before 15", 14, 0, 0);
    r = mus_team_post_all(MUS_TEAM_B, ledger, LINES, marks, LINES, errors, LINES, lines, 4, found, 3);
    SAME(r, "a team's batch: 13 for the two lists", 13, 0, 0);
    errors_left(7, 3, 0, 0, "a refused finding leaves the errors");
    left(both_drawn, "findings leave the marks");
}

/* Every byte as a mark: what a team reads of it, and what a draw leaves of it. */
static void every_mark(void)
{
    static const uint64_t book[] = {9};
    for (unsigned byte = 0; byte < 256; byte++) {
        for (size_t t = 0; t < 2; t++) {
            uint8_t team = teams[t], mark = (uint8_t) byte, one = own(team, mark), rest = mark & (team == MUS_TEAM_A ? 0xFC : 0xF3);
            int examined = one == MUS_DRAWN || one == MUS_FULL;
            int64_t error = 4;
            struct mus_post_result p = mus_team_post(team, book, 1, &mark, 1, &error, 1, 0, -9);
            SAME(p, "a team's own bits count", examined ? 0 : MUS_ERROR_NOT_DRAWN, 0, examined);
            expect(error == (examined ? -9 : 4), "what they let be posted");
            struct mus_draw_result r = mus_team_draw(team, book, 1, 1, 0, &mark, 1);
            SAME(r, "any mark is drawn over", 0, 0, 1);
            expect(own(team, mark) == MUS_DRAWN && (mark & (team == MUS_TEAM_A ? 0xFC : 0xF3)) == rest, "the other bits stay");
            struct mus_split_result s = mus_team_split(team, book, 1, 2, &mark, 1);
            expect(s.refusal == 0 && own(team, mark) == MUS_FULL && (mark & (team == MUS_TEAM_A ? 0xFC : 0xF3)) == rest, "and full");
        }
    }
}

/* A team on marks of its own bits alone is the plain call. */
static void beside_the_plain(void)
{
    uint8_t plain[LINES], of_team[LINES];
    for (uint64_t start = 0; start < 42; start++) {
        memset(plain, 3, LINES);
        memset(of_team, 3, LINES);
        struct mus_draw_result r = mus_draw(ledger, LINES, 3, start, plain, LINES), a = mus_team_draw(MUS_TEAM_A, ledger, LINES, 3, start, of_team, LINES);
        expect(memcmp(&r, &a, sizeof r) == 0 && memcmp(plain, of_team, LINES) == 0, "A alone is the plain draw");
        memset(of_team, 0xCF, LINES);
        a = mus_team_draw(MUS_TEAM_B, ledger, LINES, 3, start, of_team, LINES);
        expect(memcmp(&r, &a, sizeof r) == 0, "B answers what the plain draw does");
        for (size_t i = 0; i < LINES; i++) expect(of_team[i] == (0xC3 | plain[i] << 2), "and draws the same lines");
    }
}

void team_cases(void)
{
    either_order();
    full_lines();
    unknown();
    for (size_t t = 0; t < 2; t++) {
        refused(teams[t]);
        too_much(teams[t]);
    }
    findings();
    every_mark();
    beside_the_plain();
}
