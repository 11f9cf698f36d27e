/* The stored cases of totals beside the ledger: the ledger is the room, the words are the summary, and `first` is the count. */
#include "driver.h"
#include "feed.h"
#include "mus.h"

static void say_lent(void)
{
    say(" lent");
    say_list(ledger, ledger_length);
    say_list(words, words_length);
}

/* After a call that is accepted on a summary that was right, the summary is right again. */
static int was_right(void)
{
    struct mus_totals_check_result r = mus_totals_check(ledger, ledger_length, (size_t) first, words, words_length);
    return r.refusal == 0 && r.wrong == 0;
}

static void still_right(int right, uint64_t refusal, size_t count)
{
    struct mus_totals_check_result r;
    if (!right || refusal != 0) return;
    r = mus_totals_check(ledger, ledger_length, count, words, words_length);
    expect(r.refusal == 0 && r.wrong == 0 && r.block == 0, "a summary that was right is right after the call");
}

void totals_build_case(void)
{
    struct mus_totals_build_result r = mus_totals_build(ledger, ledger_length, (size_t) first, words, words_length);
    still_right(1, r.refusal, (size_t) first);
    say(" totalsbuild");
    say_answer(r.refusal, r.place, &r.total, 1);
    say_lent();
}

void totals_total_case(void)
{
    struct mus_totals_total_result r = mus_totals_total(ledger, ledger_length, (size_t) first, words, words_length);
    say(" totalstotal");
    say_answer(r.refusal, r.place, &r.total, 1);
    say_lent();
}

void totals_find_case(void)
{
    struct mus_totals_find_result r = mus_totals_find(ledger, ledger_length, (size_t) first, words, words_length, second);
    say(" totalsfind");
    say_answer(r.refusal, r.place, &r.line, 1);
    say_lent();
}

void totals_change_case(void)
{
    int right = was_right();
    struct mus_totals_change_result r = mus_totals_change(ledger, ledger_length, (size_t) first, words, words_length, (size_t) second, third);
    still_right(right, r.refusal, (size_t) first);
    say(" totalschange");
    say_answer(r.refusal, r.place, &r.total, 1);
    say_lent();
}

void totals_append_case(void)
{
    int right = was_right();
    struct mus_totals_append_result r = mus_totals_append(ledger, ledger_length, (size_t) first, words, words_length, second);
    still_right(right, r.refusal, (size_t) r.count);
    say(" totalsappend");
    say_answer(r.refusal, r.place, &r.count, 1);
    say_lent();
}

void totals_check_case(void)
{
    struct mus_totals_check_result r = mus_totals_check(ledger, ledger_length, (size_t) first, words, words_length);
    say(" totalscheck");
    say_answer(r.refusal, r.place, &r.wrong, 2);
    say_lent();
}
