/* The operations by strata through C: a ledger of four programmes worked by hand (docs/HANDBOOK.md), each refusal, null pointers with length 0, and
 * what a refused call leaves. */
#include <stdint.h>
#include <string.h>

#include "driver.h"
#include "mus.h"

#define LINES 18
#define STRATA 4

static const uint64_t ledger[LINES] = {30, 30, 40, 20, 400, 100, 60, 140, 120, 90, 90, 0, 0, 100, 160, 60, 90, 70};
static const uint64_t counts[STRATA] = {4, 7, 2, 5}, starts[STRATA] = {25, 130, 0, 70};
static const int64_t found[LINES] = {7, 0, -10, 0, 20, 0, 5, 0, 0, 0, 0, 0, 0, 0, 16, 0, -4, 0};
static const uint64_t none[33];

/* The first rows are these, and all others 0. */
static void same_rows(const void *rows, const uint64_t *wanted, size_t strata, const char *what)
{
    uint64_t figures[6 * MUS_MOST_STRATA];
    size_t at = 6 * strata;
    memcpy(figures, rows, sizeof figures);
    while (at < 6 * MUS_MOST_STRATA && figures[at] == 0) at++;
    expect(memcmp(figures, wanted, 48 * strata) == 0 && at == 6 * MUS_MOST_STRATA, what);
}

/* A plan is refused, and every figure of every row is 0. */
static void plan_refused(struct mus_strata_plan_result r, uint64_t refusal, uint64_t place, const char *what)
{
    expect(r.refusal == refusal && r.place == place && r.strata == 0, what);
    same_rows(r.stratum, NULL, 0, what);
}

static void plan_cases(void)
{
    static const uint64_t rows[] = {2, 60, 2, 120, 0, 0, 5, 150, 4, 600, 1, 400, 0, 0, 0, 0, 0, 0, 3, 160, 3, 480, 0, 0};
    static const uint64_t large[] = {5, 6, MUS_MOST_VALUE + 1, 7}, halves[] = {2, 2}, more[] = {4, 7, 2, 6}, past[] = {UINT64_MAX, 19};
    static const uint64_t parts[] = {60, 41};
    static uint64_t ones[33], heavy[101];
    struct mus_strata_plan_result r = mus_strata_plan(ledger, LINES, counts, STRATA, 10);
    expect(r.refusal == 0 && r.place == 0 && r.strata == STRATA, "four programmes planned");
    same_rows(r.stratum, rows, STRATA, "their rows");
    plan_refused(mus_strata_plan(ledger, LINES, NULL, 0, 10), 22, 0, "plan: 22 without strata");
    plan_refused(mus_strata_plan(NULL, 0, NULL, 0, 10), 22, 0, "plan: 22 without anything");
    plan_refused(mus_strata_plan(ledger, LINES, none, 33, 10), 22, 0, "plan: 22 for 33");
    plan_refused(mus_strata_plan(ledger, LINES, none, 32, 10), 30, 0, "plan: 30 for 32 of no lines");
    plan_refused(mus_strata_plan(ledger, LINES, more, STRATA, 0), 30, 0, "plan: 30 for a line too many");
    plan_refused(mus_strata_plan(ledger, LINES, counts, 3, 0), 30, 0, "plan: 30 for lines too few");
    plan_refused(mus_strata_plan(ledger, LINES, past, 2, 0), 30, 0, "plan: 30 for a sum past 64 bits");
    plan_refused(mus_strata_plan(large, 4, halves, 2, 0), 3, 2, "plan: 3 with the whole ledger's line");
    plan_refused(mus_strata_plan(NULL, 0, none, 2, 0), 5, 0, "plan: 5 without lines");
    plan_refused(mus_strata_plan(ledger, LINES, counts, STRATA, 0), 8, 0, "plan: 8");
    plan_refused(mus_strata_plan(ledger, LINES, counts, STRATA, 2), 23, 0, "plan: 23");
    expect(mus_strata_plan(ledger, LINES, counts, STRATA, 3).refusal == 0, "a draw for each programme with value");
    for (size_t h = 0; h < 33; h++) ones[h] = 1;
    expect(mus_strata_plan(ones, 32, ones, 32, 32).strata == 32, "32 strata");
    plan_refused(mus_strata_plan(ones, 33, ones, 33, 33), 22, 0, "plan: 22 for 33 of a line");
    for (size_t i = 0; i < 101; i++) heavy[i] = MUS_MOST_VALUE;
    plan_refused(mus_strata_plan(heavy, 101, parts, 2, 0), 4, 100, "plan: 4 with the whole ledger's line");
}

static void draw_cases(void)
{
    static const uint8_t wanted[LINES] = {1, 0, 1, 0, 2, 0, 1, 1, 0, 1, 1, 0, 0, 1, 1, 0, 1, 0};
    static const uint64_t wrong[][STRATA] = {{60, 150, 1, 160}, {25, 150, 1, 160}, {25, 130, 1, 160}, {25, 130, 0, 160}};
    static uint8_t marks[LINES + 1], before[LINES + 1];
    struct mus_strata_draw_result r;
    memset(before, 9, sizeof before);
    memcpy(marks, before, sizeof marks);
    for (uint64_t h = 0; h < STRATA; h++) {
        r = mus_strata_draw(ledger, LINES, counts, STRATA, 10, wrong[h], STRATA, marks, LINES);
        SAME(r, "draw by strata: 11 with the first wrong stratum", 11, h, 0);
    }
    r = mus_strata_draw(ledger, LINES, counts, STRATA, 10, starts, STRATA, marks, LINES + 1);
    SAME(r, "draw by strata: 13 for the marks", 13, 0, 0);
    r = mus_strata_draw(ledger, LINES, counts, STRATA, 0, starts, 3, marks, LINES);
    SAME(r, "draw by strata: 13 for the starts", 13, 0, 0);
    r = mus_strata_draw(ledger, LINES, counts, STRATA, 0, NULL, 0, NULL, 0);
    SAME(r, "draw by strata: 13 without starts and marks", 13, 0, 0);
    r = mus_strata_draw(ledger, LINES, counts, STRATA, 2, wrong[0], STRATA, marks, LINES);
    SAME(r, "draw by strata: 23 before 11", 23, 0, 0);
    r = mus_strata_draw(ledger, LINES, counts, 3, 10, NULL, 0, NULL, 0);
    SAME(r, "draw by strata: 30 before 13", 30, 0, 0);
    r = mus_strata_draw(NULL, 0, NULL, 0, 0, NULL, 0, NULL, 0);
    SAME(r, "draw by strata: 22 without anything", 22, 0, 0);
    expect(memcmp(marks, before, sizeof marks) == 0, "a refused draw by strata changes nothing");
    r = mus_strata_draw(ledger, LINES, counts, STRATA, 10, starts, STRATA, marks, LINES);
    SAME(r, "four programmes drawn", 0, 0, 9);
    expect(memcmp(marks, wanted, LINES) == 0 && marks[LINES] == 9, "their marks");
}

/* The projection with another error on a line is refused there, and every figure is 0. */
static void error_refused(size_t line, int64_t error, uint64_t refusal, const char *what)
{
    int64_t errors[LINES];
    struct mus_strata_project_result r;
    memcpy(errors, found, sizeof errors);
    errors[line] = error;
    r = mus_strata_project(ledger, LINES, counts, STRATA, 10, starts, STRATA, errors, LINES);
    expect(r.refusal == refusal && r.place == line && r.over == 0 && r.under == 0 && r.net == 0 && r.strata == 0, what);
    same_rows(r.stratum, NULL, 0, what);
}

static void project_cases(void)
{
    static const uint64_t rows[] = {2, 60, 0, 14, 0, 15, 5, 150, 20, 13, 0, 0, 0, 0, 0, 0, 0, 0, 3, 160, 0, 16, 0, 8};
    static const uint64_t late[STRATA] = {25, 130, 1, 70};
    struct mus_strata_project_result r = mus_strata_project(ledger, LINES, counts, STRATA, 10, starts, STRATA, found, LINES);
    expect(r.refusal == 0 && r.place == 0 && r.over == 63 && r.under == 23 && r.net == 40 && r.strata == STRATA, "four programmes projected");
    same_rows(r.stratum, rows, STRATA, "their projections");
    error_refused(2, -41, 14, "projection by strata: 14 by size");
    error_refused(5, 1, 15, "projection by strata: 15 with the whole ledger's line");
    error_refused(11, 1, 14, "projection by strata: 14 where there is no value");
    error_refused(17, -70, 15, "projection by strata: 15 on the last line");
    error_refused(4, INT64_MIN, 14, "projection by strata: 14 for the least number");
    r = mus_strata_project(ledger, LINES, counts, STRATA, 10, late, STRATA, found, LINES);
    expect(r.refusal == 11 && r.place == 2, "projection by strata: 11 where there is no value");
    r = mus_strata_project(ledger, LINES, counts, STRATA, 10, starts, STRATA, found, LINES - 1);
    expect(r.refusal == 13 && r.place == 0, "projection by strata: 13 for the errors");
    r = mus_strata_project(ledger, LINES, counts, STRATA, 10, starts, STRATA - 1, found, LINES);
    expect(r.refusal == 13 && r.place == 0, "projection by strata: 13 for the starts");
    r = mus_strata_project(NULL, 0, none, 1, 0, none, 1, NULL, 0);
    expect(r.refusal == 5 && r.place == 0, "projection by strata: 5 without lines");
}

static void many_lines(void)
{
    static uint64_t many[1000001];
    static const uint64_t whole[] = {1000000, 1}, short_by_one[] = {1000000};
    for (size_t i = 0; i < 1000001; i++) many[i] = 1;
    plan_refused(mus_strata_plan(many, 1000001, whole, 2, 0), 2, 0, "plan: 2");
    plan_refused(mus_strata_plan(many, 1000001, short_by_one, 1, 0), 30, 0, "plan: 30 before 2");
    struct mus_strata_draw_result r = mus_strata_draw(many, 1000001, whole, 2, 0, NULL, 0, NULL, 0);
    SAME(r, "draw by strata: 2 before 13", 2, 0, 0);
    expect(mus_strata_plan(many, 1000000, short_by_one, 1, 4).stratum[0].interval == 250000, "a plan of the most lines");
}

void strata_cases(void)
{
    plan_cases();
    draw_cases();
    project_cases();
    many_lines();
}
