/* The blackboard method through C: the practice ledger worked by hand, each refusal, what a refused call leaves, and both methods at every start. */
#include <stdint.h>
#include <stdio.h>
#include <string.h>

#include "driver.h"
#include "mus.h"

#define LINES 4

static const uint64_t practice[] = {30, 30, 40, 20}, rounds[] = {500, 120, 0, 80, 300};
static const int64_t found[] = {7, 0, 10, 5}, understated[] = {-7, 0, 10, 5};

static void draws(void)
{
    static const uint8_t at_25[] = {1, 0, 1, 1}, with_full[] = {2, 2, 0, 1, 2};
    uint8_t marks[6] = {9, 9, 9, 9, 9, 9};
    struct mus_draw_result r = mus_board_draw(practice, LINES, 3, 25, marks, LINES);
    SAME(r, "the board's draw from 25", 0, 0, 3);
    expect(memcmp(marks, at_25, LINES) == 0 && marks[4] == 9, "its marks");
    r = mus_board_draw(rounds, 5, 4, 79, marks, 5);
    SAME(r, "the board's draw beside full lines", 0, 0, 1);
    expect(memcmp(marks, with_full, 5) == 0 && marks[5] == 9, "its marks beside full lines");
    memset(marks, 9, sizeof marks);
    r = mus_board_draw(practice, LINES, 3, 40, marks, LINES);
    SAME(r, "the board's draw: 11", 11, 0, 0);
    r = mus_board_draw(practice, LINES, 3, 0, marks, 3);
    SAME(r, "the board's draw: 13", 13, 0, 0);
    r = mus_board_draw(practice, LINES, 0, 0, marks, LINES);
    SAME(r, "the board's draw: 8", 8, 0, 0);
    r = mus_board_draw(NULL, 0, 3, 0, NULL, 0);
    SAME(r, "the board's draw: 5 without lines", 5, 0, 0);
    for (size_t i = 0; i < sizeof marks; i++) expect(marks[i] == 9, "a refused draw by walking leaves the marks");
}

static void projections(void)
{
    static const int64_t above[] = {7, 31, 10, 5}, least[] = {0, 0, 0, INT64_MIN}, grants[] = {-50, 12, 0, -8, 3};
    struct mus_project_result r = mus_board_project(practice, LINES, 3, 25, found, LINES);
    SAME(r, "the board's projection from 25", 0, 0, 0, 30, 3, 0, 0, 30);
    r = mus_board_project(practice, LINES, 3, 25, understated, LINES);
    SAME(r, "the board's projection of both kinds", 0, 0, 0, 20, 2, 0, 10, 10);
    r = mus_board_project(rounds, 5, 4, 79, grants, 5);
    SAME(r, "the board's projection with a net below 0", 0, 0, 15, 0, 0, 50, 8, (uint64_t) -43);
    r = mus_board_project(practice, LINES, 3, 0, found, LINES);
    SAME(r, "the board's projection: 15", 15, 3, 0, 0, 0, 0, 0, 0);
    r = mus_board_project(practice, LINES, 3, 25, above, LINES);
    SAME(r, "the board's projection: 14", 14, 1, 0, 0, 0, 0, 0, 0);
    r = mus_board_project(practice, LINES, 3, 25, least, LINES);
    SAME(r, "the board's projection: 14 for the least number", 14, 3, 0, 0, 0, 0, 0, 0);
    r = mus_board_project(practice, LINES, 3, 41, found, LINES);
    SAME(r, "the board's projection: 11", 11, 0, 0, 0, 0, 0, 0, 0);
    r = mus_board_project(practice, LINES, 3, 25, NULL, 0);
    SAME(r, "the board's projection: 13", 13, 0, 0, 0, 0, 0, 0, 0);
    r = mus_board_project(NULL, 0, 3, 0, NULL, 0);
    SAME(r, "the board's projection: 5 without lines", 5, 0, 0, 0, 0, 0, 0, 0);
}

/* Every start of the practice ledger, and the first that is refused. */
static void both_methods(void)
{
    for (uint64_t start = 0; start <= 40; start++) {
        uint8_t walked[LINES] = {9, 9, 9, 9}, drawn[LINES] = {9, 9, 9, 9};
        struct mus_draw_result a = mus_board_draw(practice, LINES, 3, start, walked, LINES), b = mus_draw(practice, LINES, 3, start, drawn, LINES);
        struct mus_project_result p = mus_board_project(practice, LINES, 3, start, understated, LINES), q = mus_project(practice, LINES, 3, start, understated, LINES);
        expect(memcmp(&a, &b, sizeof a) == 0 && memcmp(walked, drawn, LINES) == 0, "both methods draw the same lines");
        expect(memcmp(&p, &q, sizeof p) == 0, "both methods project the same sums");
    }
}

void board_cases(void)
{
    draws();
    projections();
    both_methods();
}
