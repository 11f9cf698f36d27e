/* Totals beside the ledger: a summary is built once, kept right through a day's changes and appends, asked for the line of a cent, and checked at night. */
#include <stdint.h>
#include <stdio.h>

#include "mus.h"

#define ROOM 600
#define FIGURES MUS_SUMMARY_LENGTH(ROOM)

typedef unsigned long long whole; /* what printf takes */

static uint64_t room[ROOM], summary[FIGURES];
static size_t count = 300; /* the lines in use: the caller keeps it */

static int refused(uint64_t refusal, uint64_t place)
{
    if (refusal != 0) printf("refused %llu %llu\n", (whole) refusal, (whole) place);
    return refusal != 0;
}

static void say_summary(void)
{
    printf("summary");
    for (size_t i = 0; i < FIGURES; i++) printf(" %llu", (whole) summary[i]);
    printf("\n");
}

static void build(void)
{
    struct mus_totals_build_result r = mus_totals_build(room, ROOM, count, summary, FIGURES);
    if (!refused(r.refusal, r.place)) printf("built %llu\n", (whole) r.total);
    say_summary();
}

static void find(uint64_t cent)
{
    struct mus_totals_find_result r = mus_totals_find(room, ROOM, count, summary, FIGURES, cent);
    if (!refused(r.refusal, r.place)) printf("cent %llu line %llu\n", (whole) cent, (whole) r.line);
}

static void change(size_t line, uint64_t value)
{
    struct mus_totals_change_result r = mus_totals_change(room, ROOM, count, summary, FIGURES, line, value);
    if (!refused(r.refusal, r.place)) printf("changed %llu total %llu\n", (whole) line, (whole) r.total);
    say_summary();
}

static void append(uint64_t value)
{
    struct mus_totals_append_result r = mus_totals_append(room, ROOM, count, summary, FIGURES, value);
    if (!refused(r.refusal, r.place)) {
        count = (size_t) r.count;
        printf("appended count %llu\n", (whole) r.count);
    }
    say_summary();
}

static void total(void)
{
    struct mus_totals_total_result r = mus_totals_total(room, ROOM, count, summary, FIGURES);
    if (!refused(r.refusal, r.place)) printf("total %llu\n", (whole) r.total);
}

static void check(void)
{
    struct mus_totals_check_result r = mus_totals_check(room, ROOM, count, summary, FIGURES);
    if (refused(r.refusal, r.place)) return;
    if (r.wrong) printf("wrong from block %llu\n", (whole) r.block);
    else printf("right\n");
}

int main(void)
{
    for (size_t i = 0; i < ROOM; i++) room[i] = 2; /* those past the count are not looked at */
    build();
    find(514);
    change(0, 7);
    change(300, 7); /* not in use */
    append(5);
    total();
    find(609);
    check();
    room[0] = 2; /* past the library: the summary no longer agrees */
    check();
    build();
    check();
    return 0;
}
