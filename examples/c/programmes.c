/* A ledger of four programmes: shares the draws out, draws a start for each, says which lines to examine, and prints what was found by programme.
 * No limit and no verdict: the conservative precision does not go with strata. */
#include <stdint.h>
#include <stdio.h>

#include "mus.h"

#define LINES 18
#define PROGRAMMES 4
#define WORDS 4

typedef unsigned long long whole; /* what printf takes */
typedef long long with_sign;

static const char *const names[PROGRAMMES] = {"roads", "schools", "water", "ports"};
static const uint64_t counts[PROGRAMMES] = {4, 7, 2, 5}; /* the lines of each, in ledger order */
static const uint64_t ledger[LINES] = {30, 30, 40, 20, 400, 100, 60, 140, 120, 90, 90, 0, 0, 100, 160, 60, 90, 70};
static const uint64_t words[WORDS] = {63, 25, 130, 70};  /* random words */

/* The errors that were found, by the line's number in the whole ledger. */
static const int64_t errors[LINES] = {7, 0, -10, 0, 20, 0, 5, 0, 0, 0, 0, 0, 0, 0, 16, 0, -4, 0};

static int refused(uint64_t refusal, uint64_t place)
{
    if (refusal != 0) printf("refused %llu %llu\n", (whole) refusal, (whole) place);
    return refusal != 0;
}

/* A start below each interval, from the words that those before it did not read; 0 where a programme has no interval. */
static int draw_starts(const struct mus_strata_plan_result *plan, uint64_t *starts)
{
    size_t read = 0;
    for (size_t h = 0; h < PROGRAMMES; h++) {
        struct mus_start_result start = mus_start(plan->stratum[h].interval, words + read, WORDS - read);
        if (refused(start.refusal, start.place)) return 0;
        starts[h] = start.start;
        read += start.words;
    }
    return 1;
}

static void print_plan(const struct mus_strata_plan_result *plan, const uint64_t *starts)
{
    printf("programme  lines  book  draws  interval  start  sampled total  full lines  full total\n");
    for (size_t h = 0; h < PROGRAMMES; h++) {
        const struct mus_stratum_plan *row = &plan->stratum[h];
        printf("%-9s  %5llu  %4llu  %5llu  %8llu  %5llu  %13llu  %10llu  %10llu\n", names[h], (whole) counts[h], (whole) (row->sampled_total + row->full_total),
            (whole) row->draws, (whole) row->interval, (whole) starts[h], (whole) row->sampled_total, (whole) row->full_lines, (whole) row->full_total);
    }
}

/* The lines to examine, each with the error that the auditors found there. */
static void print_examined(const uint8_t *marks)
{
    size_t line = 0;
    printf("\nprogramme  examined  line  value  error\n");
    for (size_t h = 0; h < PROGRAMMES; h++) {
        for (size_t end = line + counts[h]; line < end; line++) {
            if (marks[line] == MUS_NOT_DRAWN) continue;
            printf("%-9s  %-8s  %4zu  %5llu  %5lld\n", names[h], marks[line] == MUS_FULL ? "full" : "drawn", line, (whole) ledger[line], (with_sign) errors[line]);
        }
    }
}

static void print_projection(const struct mus_strata_project_result *r)
{
    printf("\nprogramme  draws  interval  full  sampled  under full  under sampled\n");
    for (size_t h = 0; h < PROGRAMMES; h++) {
        const struct mus_stratum_projection *row = &r->stratum[h];
        printf("%-9s  %5llu  %8llu  %4llu  %7llu  %10llu  %13llu\n", names[h], (whole) row->draws, (whole) row->interval, (whole) row->full, (whole) row->sampled,
            (whole) row->under_full, (whole) row->under_sampled);
    }
    printf("\nall programmes: overstated %llu, understated %llu, net %lld\n", (whole) r->over, (whole) r->under, (with_sign) r->net);
}

int main(void)
{
    const uint64_t draws = 10;
    uint64_t starts[PROGRAMMES];
    uint8_t marks[LINES];

    struct mus_strata_plan_result plan = mus_strata_plan(ledger, LINES, counts, PROGRAMMES, draws);
    if (refused(plan.refusal, plan.place) || !draw_starts(&plan, starts)) return 1;

    struct mus_strata_draw_result draw = mus_strata_draw(ledger, LINES, counts, PROGRAMMES, draws, starts, PROGRAMMES, marks, LINES);
    if (refused(draw.refusal, draw.place)) return 1;

    struct mus_strata_project_result projection = mus_strata_project(ledger, LINES, counts, PROGRAMMES, draws, starts, PROGRAMMES, errors, LINES);
    if (refused(projection.refusal, projection.place)) return 1;

    print_plan(&plan, starts);
    print_examined(marks);
    print_projection(&projection);
    return 0;
}
