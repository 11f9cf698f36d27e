/* The stored cases of the operations by strata: the words are the counts, `second` of them, then the starts. */
#include <string.h>

#include "driver.h"
#include "feed.h"
#include "mus.h"

#define FIGURES_OF_ROWS (6 * MUS_MOST_STRATA)

static void say_rows(const void *rows)
{
    uint64_t figures[FIGURES_OF_ROWS];
    memcpy(figures, rows, sizeof figures);
    say(" rows");
    say_list(figures, FIGURES_OF_ROWS);
}

static size_t starts_length(void)
{
    return words_length - (size_t) second;
}

/* One stratum's row is the plain split's answer, for all n draws. */
static void split_alone(const struct mus_strata_plan_result *r)
{
    static uint8_t marks[1000001];
    struct mus_split_result plain = mus_split(ledger, ledger_length, first, marks, ledger_length);
    expect(r->refusal == plain.refusal && r->place == plain.place && memcmp(&r->stratum[0].interval, &plain.interval, 5 * sizeof plain.interval) == 0,
        "one stratum is planned as the whole ledger is split");
    expect(r->stratum[0].draws == (r->refusal == 0 ? first : 0), "one stratum gets all draws");
}

void strata_plan_case(void)
{
    struct mus_strata_plan_result r = mus_strata_plan(ledger, ledger_length, words, (size_t) second, first);
    uint64_t draws = 0, totals = 0, total = 0;
    for (size_t h = 0; h < MUS_MOST_STRATA; h++) {
        draws += r.stratum[h].draws;
        totals += r.stratum[h].sampled_total + r.stratum[h].full_total;
    }
    for (size_t i = 0; i < ledger_length; i++) total += ledger[i];
    if (r.refusal == MUS_ACCEPTED) expect(draws == first && totals == total, "the shares add to n, and the strata's totals to the whole");
    if (second == 1 && words[0] == ledger_length) split_alone(&r);
    say(" strataplan");
    say_answer(r.refusal, r.place, &r.strata, 1);
    say_rows(r.stratum);
    say(" lent");
    say_list(ledger, ledger_length);
    say_list(words, words_length);
}

void strata_draw_case(void)
{
    byte_room();
    struct mus_strata_draw_result r = mus_strata_draw(ledger, ledger_length, words, (size_t) second, first, words + second, starts_length(), bytes, room_length);
    say(" stratadraw");
    say_answer(r.refusal, r.place, &r.drawn, 1);
    say(" lent");
    say_list(ledger, ledger_length);
    say_list(words, words_length);
    say_bytes(bytes, room_length);
}

/* One stratum's row is the plain projection's answer at its start. */
static void project_alone(const struct mus_strata_project_result *r)
{
    struct mus_project_result plain = mus_project(ledger, ledger_length, first, words[1], errors, errors_length);
    const struct mus_stratum_projection *row = &r->stratum[0];
    expect(r->refusal == plain.refusal && r->place == plain.place && row->full == plain.full && row->sampled == plain.sampled
        && row->under_full == plain.under_full && row->under_sampled == plain.under_sampled && r->net == plain.net, "one stratum is projected as the whole ledger is");
}

void strata_project_case(void)
{
    struct mus_strata_project_result r = mus_strata_project(ledger, ledger_length, words, (size_t) second, first, words + second, starts_length(), errors, errors_length);
    if (second == 1 && starts_length() == 1 && words[0] == ledger_length) project_alone(&r);
    say(" strataproject");
    if (!say_refusal(r.refusal, r.place, &r.over, 4)) {
        say_number(r.strata);
        say_number(r.over);
        say_number(r.under);
        say_signed(r.net);
    }
    say_rows(r.stratum);
    say(" lent");
    say_list(ledger, ledger_length);
    say_errors(errors, errors_length);
    say_list(words, words_length);
}
