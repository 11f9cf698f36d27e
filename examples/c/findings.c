/* Teams return with findings: draws a small ledger, posts two batches, mends the pair that is refused, and projects what stands. */
#include <stdint.h>
#include <stdio.h>

#include "mus.h"

#define LINES 4
#define PAIRS 3

typedef unsigned long long whole; /* what printf takes */
typedef long long with_sign;

static const uint64_t ledger[LINES] = {30, 30, 40, 20}; /* book values in cents */

static int refused(uint64_t refusal, uint64_t place)
{
    if (refusal != 0) printf("refused %llu %llu\n", (whole) refusal, (whole) place);
    return refusal != 0;
}

/* Posts the pairs from a position on, says what was answered and what the errors are then; answers the position of the pair that is refused, or the
 * number of pairs where there is none. */
static size_t post_from(size_t from, const uint8_t *marks, int64_t *errors, const uint64_t *lines, const int64_t *found)
{
    size_t count = PAIRS - from;
    struct mus_post_result r = mus_post_all(ledger, LINES, marks, LINES, errors, LINES, lines + from, count, found + from, count);
    if (!refused(r.refusal, r.place)) printf("posted %llu\n", (whole) r.posted);
    printf("errors");
    for (size_t i = 0; i < LINES; i++) printf(" %lld", (with_sign) errors[i]);
    printf("\n");
    return from + (size_t) (r.refusal != 0 ? r.place : r.posted); /* as many as the place says stay posted */
}

int main(void)
{
    const uint64_t draws = 3, start = 25;
    const uint64_t second_lines[PAIRS] = {3, 0, 2}; /* the second team: line 3 is understated, line 0 was counted again, line 2 is in order after all */
    const int64_t second_found[PAIRS] = {-2, 9, 0};
    uint64_t lines[PAIRS] = {0, 1, 2}; /* the first team: its second line is misread, 1 for 3 */
    const int64_t found[PAIRS] = {7, 3, 10};
    int64_t errors[LINES] = {0, 0, 0, 0};
    uint8_t marks[LINES];

    struct mus_draw_result drawn = mus_draw(ledger, LINES, draws, start, marks, LINES);
    if (refused(drawn.refusal, drawn.place)) return 1;

    size_t at = post_from(0, marks, errors, lines, found);
    if (at < PAIRS) {
        lines[at] = 3;
        if (post_from(at, marks, errors, lines, found) < PAIRS) return 1;
    }
    if (post_from(0, marks, errors, second_lines, second_found) < PAIRS) return 1;

    struct mus_project_result r = mus_project(ledger, LINES, draws, start, errors, LINES);
    if (refused(r.refusal, r.place)) return 1;
    printf("project %llu %llu %llu %llu %llu %lld\n", (whole) r.full, (whole) r.sampled, (whole) r.m, (whole) r.under_full, (whole) r.under_sampled, (with_sign) r.net);
    return 0;
}
