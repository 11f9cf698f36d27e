/* The stored cases, run through the C interface. docs/VECTORS.md says how they and their answers are written. */
#include <string.h>

#include "driver.h"
#include "feed.h"
#include "mus.h"

static void size_case(void)
{
    struct mus_size_result r = mus_size(level, first, second, third);
    say(" size");
    say_answer(r.refusal, r.place, &r.draws, 1);
}

static void attribute_size_case(void)
{
    struct mus_attribute_size_result r = mus_attribute_size(level, (uint8_t) first);
    say(" attributesize");
    say_answer(r.refusal, r.place, &r.items, 1);
}

static void attribute_bound_case(void)
{
    struct mus_attribute_bound_result r = mus_attribute_bound(level, (uint8_t) first, second);
    say(" attributebound");
    say_answer(r.refusal, r.place, &r.hundredths, 1);
}

static void split_case(void)
{
    byte_room();
    struct mus_split_result r = mus_split(ledger, ledger_length, first, bytes, room_length);
    if (r.refusal == MUS_ACCEPTED) expect(r.draws_left >= 1, "an accepted split leaves a draw");
    say(" split");
    say_answer(r.refusal, r.place, &r.interval, 5);
    say(" lent");
    say_list(ledger, ledger_length);
    say_bytes(bytes, room_length);
}

static void start_case(void)
{
    struct mus_start_result r = mus_start(first, words, words_length);
    say(" start");
    say_answer(r.refusal, r.place, &r.start, 2);
    say(" lent");
    say_list(words, words_length);
}

static void draw_case(void)
{
    byte_room();
    struct mus_draw_result r = mus_draw(ledger, ledger_length, first, second, bytes, room_length);
    say(" draw");
    say_answer(r.refusal, r.place, &r.drawn, 1);
    say(" lent");
    say_list(ledger, ledger_length);
    say_bytes(bytes, room_length);
}

static void project_case(void)
{
    struct mus_project_result r = mus_project(ledger, ledger_length, first, second, errors, errors_length);
    say(" project");
    say_answer(r.refusal, r.place, &r.full, 6);
    say(" lent");
    say_list(ledger, ledger_length);
    say_errors(errors, errors_length);
}

/* The words are the room for the amounts. */
static void lines_case(void)
{
    int64_t added = 0;
    memcpy(amounts, words, words_length * sizeof *words);
    struct mus_project_result r = mus_project_lines(ledger, ledger_length, first, second, errors, errors_length, amounts, words_length);
    struct mus_project_result whole = mus_project(ledger, ledger_length, first, second, errors, errors_length);
    if (words_length == ledger_length) expect(memcmp(&r, &whole, sizeof r) == 0, "the lines' projection is the projection");
    if (r.refusal == MUS_ACCEPTED) {
        for (size_t i = 0; i < words_length; i++) added += amounts[i];
        expect(added == r.net, "the amounts add to the net");
    }
    say(" lines");
    say_answer(r.refusal, r.place, &r.full, 6);
    say(" lent");
    say_list(ledger, ledger_length);
    say_errors(errors, errors_length);
    say_errors(amounts, words_length);
}

static void judge_case(void)
{
    static const char *const verdicts[] = {" below", " inconclusive", " above"};
    struct mus_judge_result r = mus_judge(level, ledger, ledger_length, first, second, errors, errors_length, third);
    say(" judge");
    say_answer(r.refusal, r.place, &r.full, 8);
    if (r.refusal == 0) say(r.verdict >= 1 && r.verdict <= 3 ? verdicts[r.verdict - 1] : " (no verdict)");
    else if (r.verdict != 0) say(" (a verdict)");
    say(" lent");
    say_list(ledger, ledger_length);
    say_errors(errors, errors_length);
}

static void read_case(void)
{
    size_t length = byte_list(file);
    struct mus_read_result r = mus_read(file, length, words, words_length, ledger, ledger_length, errors, errors_length);
    say(" read");
    say_answer(r.refusal, r.place, &r.level, 5);
    say(" lent");
    say_bytes(file, length);
    say_list(words, words_length);
    say_list(ledger, ledger_length);
    say_errors(errors, errors_length);
}

static void write_case(void)
{
    byte_room();
    struct mus_write_result r = mus_write(level, first, second, words, words_length, ledger, ledger_length, errors, errors_length, bytes, room_length);
    say(" write");
    say_answer(r.refusal, r.place, &r.length, 1);
    say(" lent");
    say_list(words, words_length);
    say_list(ledger, ledger_length);
    say_errors(errors, errors_length);
    say_bytes(bytes, room_length);
}

/* By an operation's number; 16 and 17 are of none. */
static void run_case(uint64_t place, FILE *answers)
{
    static void (*const operations[])(void) = {size_case, split_case, start_case, draw_case, project_case, judge_case, read_case, write_case, lines_case,
        strata_plan_case, strata_draw_case, strata_project_case, tally_case, attribute_size_case, attribute_bound_case,
        post_case, post_all_case, team_split_case, team_draw_case, team_post_case, team_post_all_case, board_draw_case, board_project_case, salvage_case,
        totals_build_case, totals_total_case, totals_find_case, totals_change_case, totals_append_case, totals_check_case};
    char what[40];
    say_place(place);
    if (operation >= 1 && operation <= sizeof operations / sizeof operations[0] && operations[operation - 1] != NULL) operations[operation - 1]();
    snprintf(what, sizeof what, "stored case %llu", (unsigned long long) place);
    expect(same_line(answers) && case_is_read(), what);
}

void run_vectors(const char *cases_name, const char *answers_name)
{
    FILE *cases = fopen(cases_name, "rb"), *answers = fopen(answers_name, "rb");
    uint8_t more;
    expect(cases != NULL && answers != NULL, "the stored cases and their answers are there");
    if (cases == NULL || answers == NULL) return;
    for (uint64_t place = 0; next_case(cases); place++) run_case(place, answers);
    expect(case_is_sound() && fread(&more, 1, 1, cases) == 0 && fread(&more, 1, 1, answers) == 0, "the cases and the answers end together");
    fclose(cases);
    fclose(answers);
}
