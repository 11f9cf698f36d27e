/* One row of tools/bench: sets an operation's input up, then calls it 0 times or once (what to count instructions of), or times it, or
 * measures the stack that it needs; or says how many rounds a ledger of many makes.
 *
 *     bench ROW LINES calls 0|1     bench ROW LINES time     bench ROW LINES stack     bench ROW LINES rounds */
#include <stdint.h>
#include <stdio.h>
#include <string.h>
#include <time.h>

#include "inputs.h"

static volatile uint64_t kept; /* so that no call is left out */
static uint8_t mended[MUS_LONGEST_FILE];

static void call_judging(void) { kept = mus_split(ledger, lines, 0, marks, lines).refusal; }
static void call_split(void) { kept = mus_split(ledger, lines, draws, marks, lines).interval; }
static void call_draw(void) { kept = mus_draw(ledger, lines, draws, start, marks, lines).drawn; }
static void call_project(void) { kept = mus_project(ledger, lines, draws, start, errors, lines).sampled; }
static void call_board_draw(void) { kept = mus_board_draw(ledger, lines, draws, start, marks, lines).drawn; }
static void call_board_project(void) { kept = mus_board_project(ledger, lines, draws, start, errors, lines).sampled; }
static void call_lines(void) { kept = mus_project_lines(ledger, lines, draws, start, errors, lines, amounts, lines).sampled; }
static void call_judge(void) { kept = mus_judge(95, ledger, lines, draws, start, errors, lines, te).precision; }
static void call_size(void) { kept = mus_size(95, 1000000, 20000, 4000).draws; }
static void call_start(void) { kept = mus_start(40, words, 64).start; }
static void call_read(void) { kept = mus_read(file, file_length, words_room, 64, values_room, 2048, errors_room, 2048).lines; }
static void call_write(void) { kept = mus_write(95, file_te, file_ae, words, file_words, ledger, lines, errors, lines, file, sizeof file).length; }
static void call_salvage(void) { kept = mus_salvage(file, file_length, mended, sizeof mended).kept; }
static void call_strata_plan(void) { kept = mus_strata_plan(ledger, lines, counts, strata, draws).strata; }
static void call_strata_draw(void) { kept = mus_strata_draw(ledger, lines, counts, strata, draws, starts, strata, marks, lines).drawn; }
static void call_strata_project(void) { kept = mus_strata_project(ledger, lines, counts, strata, draws, starts, strata, errors, lines).over; }

#ifndef WITHOUT_SHEET
static uint8_t page[MUS_LONGEST_TEXT];
static void call_sheet(void) { kept = mus_sheet(file, file_length, page, sizeof page).length; }

/* The same file after the byte by which it is walked. */
static uint8_t walked[1 + sizeof file] = {0x42};
static void call_sheet_walked(void) { kept = mus_sheet(walked, 1 + file_length, page, sizeof page).length; }

/* A content that is judged: 63 errors among its drawn lines, at an interval of 42 bits, and no line full. */
static void judged_content(void)
{
    uint64_t total = 0;
    longest_content();
    for (size_t i = 0; i < lines; i++) {
        ledger[i] *= 50000000;
        errors[i] = 0;
        total += ledger[i];
    }
    draws = mus_size(95, total, total / 50, 0).draws;
    start = mus_start(total / draws, words, 64).start;
    find_errors(MUS_MOST_ERRORS);
    file_length = mus_write(95, total / 50, 0, words, 64, ledger, lines, errors, lines, file, sizeof file).length;
}
#endif

static void set_judging(void) { plain_ledger(); }
static void set_split_1(void) { ledger_of_rounds(1); draws = lines / 100; }
static void set_split_3(void) { ledger_of_rounds(3); }
static void set_split_10(void) { ledger_of_rounds(10); }
static void set_no_errors(void) { plain_ledger(); find_errors(0); }
static void set_project(void) { plain_ledger(); find_errors(20); }
static void set_project_both(void) { plain_ledger(); find_errors(MOST); turn_errors(); }
static void set_project_wide(void) { wide_ledger(); find_errors(20); }
static void set_walk(void) { plain_ledger(); draws = 20; find_errors(20); turn_errors(); }
static void set_most_errors(void) { plain_ledger(); find_errors(MUS_MOST_ERRORS); }
static void set_read(void) { longest_content(); call_write(); }
static void set_salvage(void) { set_read(); file[file_length - 1] ^= 1; } /* the sum of its Z is wrong */
static void set_strata(void) { plain_ledger(); in_strata(MUS_MOST_STRATA); strata_errors(); }
static void set_strata_widest(void) { widest_ledger(); in_strata(1); }

/* Many rounds, and a call that is refused directly after the last, so that nothing is deeper: no start is so late, and a file without
 * words has none. */
static void set_deep(void) { deep_ledger(); start = UINT64_MAX; te = 1; }
static void set_strata_deep(void) { set_deep(); in_strata(1); }

/* A tally whose worst share is the quotient of two of Fibonacci's numbers, as the one that is added is: they take long to compare. */
static struct mus_tally season;

static void set_season(void)
{
    season = mus_tally_none();
    season.added = 1;
    season.worst_limit = UINT64_C(7540113804746346429);
    season.worst_book = UINT64_C(12200160415121876738);
}

static void call_tally_none(void) { kept = mus_tally_none().added; }
static void call_tally_add(void) { kept = mus_tally_add(season, 90, UINT64_C(7540113804746346429), UINT64_C(4660046610375530309), MUS_BELOW).tally.worst; }

/* A batch of findings on drawn lines far apart: of both kinds by turns, and each tenth an error of 0. */
#define PAIRS 1000
static uint64_t posted_lines[PAIRS];
static int64_t found[PAIRS];

static void set_findings(void)
{
    plain_ledger();
    memset(marks, MUS_DRAWN, lines);
    for (size_t k = 0; k < PAIRS; k++) {
        posted_lines[k] = k * 7919 % lines;
        found[k] = k % 10 == 0 ? 0 : k % 2 == 0 ? (int64_t) k : -(int64_t) k;
    }
}

static void call_post(void) { kept = mus_post(ledger, lines, marks, lines, errors, lines, 7, -7).posted; }
static void call_post_all(void) { kept = mus_post_all(ledger, lines, marks, lines, errors, lines, posted_lines, PAIRS, found, PAIRS).posted; }

/* Team B, on marks with a draw of team A's: the split, the draw, and the same batch. */
static void set_teams(void) { plain_ledger(); memset(marks, MUS_DRAWN, lines); }
static void set_teams_deep(void) { set_deep(); memset(marks, MUS_DRAWN, lines); }
static void set_team_findings(void) { set_findings(); memset(marks, MUS_FULL | MUS_DRAWN << 2, lines); }
static void call_team_split(void) { kept = mus_team_split(MUS_TEAM_B, ledger, lines, draws, marks, lines).interval; }
static void call_team_draw(void) { kept = mus_team_draw(MUS_TEAM_B, ledger, lines, draws, start, marks, lines).drawn; }
static void call_team_post(void) { kept = mus_team_post(MUS_TEAM_B, ledger, lines, marks, lines, errors, lines, 7, -7).posted; }
static void call_team_post_all(void) { kept = mus_team_post_all(MUS_TEAM_B, ledger, lines, marks, lines, errors, lines, posted_lines, PAIRS, found, PAIRS).posted; }

/* Totals beside the ledger, all lines in use but for an append; the cent that is asked for is the last, so that a scan and the search by blocks go furthest. */
static uint64_t summary[MUS_SUMMARY_LENGTH(MOST)], last_cent;
static size_t figures;

static void set_totals(void)
{
    plain_ledger();
    figures = MUS_SUMMARY_LENGTH(lines);
    last_cent = mus_totals_build(ledger, lines, lines, summary, figures).total - 1;
}

static void set_append(void) { set_totals(); kept = mus_totals_build(ledger, lines, lines - 1, summary, figures).total; }
static void call_totals_build(void) { kept = mus_totals_build(ledger, lines, lines, summary, figures).total; }
static void call_totals_total(void) { kept = mus_totals_total(ledger, lines, lines, summary, figures).total; }
static void call_totals_find(void) { kept = mus_totals_find(ledger, lines, lines, summary, figures, last_cent).line; }
static void call_totals_change(void) { kept = mus_totals_change(ledger, lines, lines, summary, figures, lines / 2, 777).total; }
static void call_totals_append(void) { kept = mus_totals_append(ledger, lines, lines - 1, summary, figures, 777).count; }
static void call_totals_check(void) { kept = mus_totals_check(ledger, lines, lines, summary, figures).wrong; }

/* What the search by blocks is held against: line by line from the first. Not of the library, and the same over plain C. */
static void call_scan(void)
{
    uint64_t rest = last_cent;
    size_t line = 0;
    while (line < lines && rest >= ledger[line]) rest -= ledger[line++];
    kept = line;
}

/* The last of either table. */
static void set_attributes(void) { }
static void call_attribute_size(void) { kept = mus_attribute_size(99, 10).items; }
static void call_attribute_bound(void) { kept = mus_attribute_bound(99, 10, 10).hundredths; }
#ifndef WITHOUT_SHEET
static void set_deep_file(void)
{
    file_te = (3 * deep_ledger() + draws - 1) / draws; /* so that the size is these draws: RF(0) is 3 at level 95 */
    file_ae = file_words = 0;
    call_write();
    file_length = kept;
}

static void set_walked(void) { judged_content(); memcpy(walked + 1, file, file_length); }
static void set_walked_deep(void) { set_deep_file(); memcpy(walked + 1, file, file_length); }
#endif

static const struct row {
    const char *name;
    void (*set)(void), (*call)(void);
} rows[] = {
    {"judging", set_judging, call_judging},
    {"split-1", set_split_1, call_split},
    {"split-3", set_split_3, call_split},
    {"split-10", set_split_10, call_split},
    {"split-deep", set_deep, call_split},
    {"draw", plain_ledger, call_draw},
    {"draw-deep", set_deep, call_draw},
    {"project", set_project, call_project},
    {"project-deep", set_deep, call_project},
    {"project-both", set_project_both, call_project},
    {"project-wide", set_project_wide, call_project},
    {"project-widest", widest_ledger, call_project},
    {"board-draw", set_walk, call_board_draw},
    {"board-draw-deep", set_deep, call_board_draw},
    {"board-project", set_walk, call_board_project},
    {"board-project-deep", set_deep, call_board_project},
    {"board-project-widest", widest_ledger, call_board_project},
    {"lines", set_project, call_lines},
    {"lines-deep", set_deep, call_lines},
    {"lines-widest", widest_ledger, call_lines},
    {"judge-0", set_no_errors, call_judge},
    {"judge", set_project, call_judge},
    {"judge-deep", set_deep, call_judge},
    {"judge-63", set_most_errors, call_judge},
    {"judge-widest", widest_ledger, call_judge},
    {"strata-plan", set_strata, call_strata_plan},
    {"strata-plan-deep", set_strata_deep, call_strata_plan},
    {"strata-draw", set_strata, call_strata_draw},
    {"strata-draw-deep", set_strata_deep, call_strata_draw},
    {"strata-project", set_strata, call_strata_project},
    {"strata-project-deep", set_strata_deep, call_strata_project},
    {"strata-project-widest", set_strata_widest, call_strata_project},
    {"post", set_findings, call_post},
    {"post-all", set_findings, call_post_all},
    {"team-split", set_teams, call_team_split},
    {"team-split-deep", set_teams_deep, call_team_split},
    {"team-draw", set_teams, call_team_draw},
    {"team-draw-deep", set_teams_deep, call_team_draw},
    {"team-post", set_team_findings, call_team_post},
    {"team-post-all", set_team_findings, call_team_post_all},
    {"totals-build", set_totals, call_totals_build},
    {"totals-total", set_totals, call_totals_total},
    {"totals-find", set_totals, call_totals_find},
    {"totals-change", set_totals, call_totals_change},
    {"totals-append", set_append, call_totals_append},
    {"totals-check", set_totals, call_totals_check},
    {"scan", set_totals, call_scan},
    {"tally-none", set_season, call_tally_none},
    {"tally-add", set_season, call_tally_add},
    {"attribute-size", set_attributes, call_attribute_size},
    {"attribute-bound", set_attributes, call_attribute_bound},
    {"read", set_read, call_read},
    {"write", longest_content, call_write},
    {"salvage", set_salvage, call_salvage},
#ifndef WITHOUT_SHEET
    {"sheet", judged_content, call_sheet},
    {"sheet-deep", set_deep_file, call_sheet},
    {"sheet-walked", set_walked, call_sheet_walked},
    {"sheet-walked-deep", set_walked_deep, call_sheet_walked},
#endif
    {"size", longest_content, call_size},
    {"start", longest_content, call_start},
};

/* The least time of many calls, in nanoseconds. */
static uint64_t least_time(void (*call)(void))
{
    uint64_t least = UINT64_MAX;
    for (unsigned i = 0; i < 30; i++) {
        struct timespec from, to;
        clock_gettime(CLOCK_MONOTONIC, &from);
        call();
        clock_gettime(CLOCK_MONOTONIC, &to);
        uint64_t taken = (uint64_t) (to.tv_sec - from.tv_sec) * 1000000000 + (uint64_t) to.tv_nsec - (uint64_t) from.tv_nsec;
        if (taken < least) least = taken;
    }
    return least;
}

#define STACK 1000000
static uint8_t stack[STACK] __attribute__((aligned(16)));

/* Calls on a painted stack of its own; how far down it was written. */
static uint64_t written_below(void (*call)(void))
{
    size_t untouched = 0;
    memset(stack, 0xA5, STACK);
    __asm__ volatile("movq %%rsp, %%rbx\n\tmovq %0, %%rsp\n\tcall *%1\n\tmovq %%rbx, %%rsp"
        : : "r"(stack + STACK), "r"(call)
        : "rbx", "rax", "rcx", "rdx", "rsi", "rdi", "r8", "r9", "r10", "r11", "memory", "cc");
    while (untouched < STACK && stack[untouched] == 0xA5) untouched++;
    return STACK - untouched / 8 * 8;
}

int main(int argc, char **argv)
{
    if (argc < 4) return 2;
    for (const char *digit = argv[2]; *digit != 0; digit++) lines = 10 * lines + (size_t) (*digit - '0');
    if (lines > MOST) return 2;
    for (size_t i = 0; i < sizeof rows / sizeof rows[0]; i++) {
        if (strcmp(rows[i].name, argv[1]) != 0) continue;
        rows[i].set();
        if (strcmp(argv[3], "time") == 0) printf("%llu\n", (unsigned long long) least_time(rows[i].call));
        else if (strcmp(argv[3], "stack") == 0) printf("%llu\n", (unsigned long long) written_below(rows[i].call));
        else if (strcmp(argv[3], "rounds") == 0) printf("%llu\n", (unsigned long long) rounds);
        else if (argc == 5 && argv[4][0] == '1') rows[i].call();
        return 0;
    }
    return 2;
}
