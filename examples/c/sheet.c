/* Plans, splits, draws, projects and judges a small ledger, and prints its sheet: the lines of the desk program. */
#include <stdint.h>
#include <stdio.h>

#include "mus.h"

#define LINES 4

typedef unsigned long long whole; /* what printf takes */
typedef long long with_sign;

static int refused(uint64_t refusal, uint64_t place)
{
    if (refusal != 0) printf("refused %llu %llu\n", (whole) refusal, (whole) place);
    return refusal != 0;
}

int main(void)
{
    static const char *const verdicts[] = {"", "below", "inconclusive", "above"};
    const uint64_t ledger[LINES] = {30, 30, 40, 20}; /* book values in cents */
    const int64_t errors[LINES] = {7, 0, 10, 5};     /* the errors that were found, below 0 where too little was claimed; 0 elsewhere */
    const uint64_t words[] = {63, 25};               /* random words */
    const uint8_t level = 90;
    const uint64_t te = 100, ae = 0;
    uint64_t total = 0;
    int64_t amounts[LINES];
    uint8_t marks[LINES];

    for (size_t i = 0; i < LINES; i++) total += ledger[i];

    struct mus_size_result plan = mus_size(level, total, te, ae);
    if (refused(plan.refusal, plan.place)) return 1;

    struct mus_split_result split = mus_split(ledger, LINES, plan.draws, marks, LINES);
    if (refused(split.refusal, split.place)) return 1;

    struct mus_start_result first = mus_start(split.interval, words, 2);
    if (refused(first.refusal, first.place)) return 1;

    struct mus_draw_result draw = mus_draw(ledger, LINES, plan.draws, first.start, marks, LINES);
    if (refused(draw.refusal, draw.place)) return 1;

    struct mus_project_result projection = mus_project_lines(ledger, LINES, plan.draws, first.start, errors, LINES, amounts, LINES);
    if (refused(projection.refusal, projection.place)) return 1;

    struct mus_judge_result judgement = mus_judge(level, ledger, LINES, plan.draws, first.start, errors, LINES, te);
    if (refused(judgement.refusal, judgement.place)) return 1;

    printf("plan %u %llu %llu %llu %llu\n", level, (whole) total, (whole) te, (whole) ae, (whole) plan.draws);
    printf("split %llu %llu %llu %llu %llu\n", (whole) split.interval, (whole) split.draws_left, (whole) split.sampled_total, (whole) split.full_lines, (whole) split.full_total);
    printf("start %llu %llu\n", (whole) first.start, (whole) first.words);
    for (size_t i = 0; i < LINES; i++) {
        if (marks[i] != MUS_NOT_DRAWN) printf("%s %zu %llu %lld %lld\n", marks[i] == MUS_FULL ? "full" : "drawn", i, (whole) ledger[i], (with_sign) errors[i], (with_sign) amounts[i]);
    }
    printf("project %llu %llu %llu %llu %llu %lld\n", (whole) projection.full, (whole) projection.sampled, (whole) projection.m, (whole) projection.under_full, (whole) projection.under_sampled, (with_sign) projection.net);
    printf("judge %llu %llu %s\n", (whole) judgement.precision, (whole) judgement.upper_limit, verdicts[judgement.verdict]);
    return 0;
}
