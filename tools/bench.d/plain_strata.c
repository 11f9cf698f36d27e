/* The operations by strata in plain C: the library's checks and passes, one pass more than the plain operations, for the book values. */
#include <string.h>

#include "plain_ledger.h"

/* 22 and 30; counts are taken off the lines, so that no sum passes 64 bits. */
static uint64_t judge_counts(const uint64_t *counts, size_t strata, size_t lines)
{
    uint64_t left = lines;
    if (strata == 0 || strata > MUS_MOST_STRATA) return 22;
    for (size_t h = 0; h < strata; h++) {
        if (counts[h] > left) return 30;
        left -= counts[h];
    }
    return left == 0 ? 0 : 30;
}

/* The book value of each stratum; how many have one. */
static uint64_t add_books(const uint64_t *ledger, const uint64_t *counts, size_t strata, uint64_t *books)
{
    uint64_t with_value = 0;
    for (size_t h = 0; h < strata; h++) {
        uint64_t book = 0;
        for (size_t i = 0; i < counts[h]; i++) book += ledger[i];
        ledger += counts[h];
        books[h] = book;
        with_value += book != 0;
    }
    return with_value;
}

/* One draw for each stratum with value, the rest in proportion, what is left over to the largest remainders. */
static void share_out(const uint64_t *books, size_t strata, uint64_t total, uint64_t n, uint64_t with_value, struct mus_stratum_plan *rows)
{
    uint64_t remainders[MUS_MOST_STRATA], rest = n - with_value, leftover = n;
    for (size_t h = 0; h < strata; h++) {
        unsigned __int128 product = (unsigned __int128) rest * books[h];
        rows[h].draws = (books[h] != 0) + (uint64_t) (product / total);
        remainders[h] = (uint64_t) (product % total);
        leftover -= rows[h].draws;
    }
    for (; leftover > 0; leftover--) {
        size_t largest = 0;
        for (size_t h = 1; h < strata; h++) {
            if (remainders[h] > remainders[largest]) largest = h;
        }
        rows[largest].draws++;
        remainders[largest] = 0;
    }
}

/* What the three operations begin with: the row of each stratum. The other entries of rows stay as they are. */
static struct refused plan_rows(const uint64_t *ledger, size_t lines, const uint64_t *counts, size_t strata, uint64_t n, int agree, struct mus_stratum_plan *rows)
{
    struct refused why = {judge_counts(counts, strata, lines), 0};
    uint64_t total, with_value, books[MUS_MOST_STRATA];
    if (why.number == 0) why = judge_ledger(ledger, lines, agree ? lines : lines + 1, &total);
    if (why.number == 0 && n == 0) why.number = 8;
    if (why.number != 0) return why;
    with_value = add_books(ledger, counts, strata, books);
    if (n < with_value) { why.number = 23; return why; }
    share_out(books, strata, total, n, with_value, rows);
    for (size_t h = 0; h < strata; h++) {
        struct figures f = {0, 0, 0};
        if (books[h] != 0) split_total(ledger, counts[h], rows[h].draws, books[h], &f);
        rows[h].interval = f.interval;
        rows[h].draws_left = f.draws_left;
        rows[h].sampled_total = f.sampled_total;
        rows[h].full_lines = rows[h].draws - f.draws_left;
        rows[h].full_total = books[h] - f.sampled_total;
        ledger += counts[h];
    }
    return why;
}

/* The same with a start for each stratum: 11 names the first that does not fit. */
static struct refused start_rows(const uint64_t *ledger, size_t lines, const uint64_t *counts, size_t strata, uint64_t n, const uint64_t *starts, size_t starts_length, size_t beside, struct mus_stratum_plan *rows)
{
    struct refused why = plan_rows(ledger, lines, counts, strata, n, beside == lines && starts_length == strata, rows);
    for (size_t h = 0; why.number == 0 && h < strata; h++) {
        if (starts[h] >= rows[h].interval && starts[h] > 0) { why.number = 11; why.place = h; }
    }
    return why;
}

struct mus_strata_plan_result mus_strata_plan(const uint64_t *ledger, size_t lines, const uint64_t *counts, size_t strata, uint64_t n)
{
    struct mus_strata_plan_result r;
    memset(&r, 0, sizeof r);
    struct refused why = plan_rows(ledger, lines, counts, strata, n, 1, r.stratum);
    if (why.number != 0) REFUSE(r, why.number, why.place);
    r.strata = strata;
    return r;
}

struct mus_strata_draw_result mus_strata_draw(const uint64_t *ledger, size_t lines, const uint64_t *counts, size_t strata, uint64_t n, const uint64_t *starts, size_t starts_length, uint8_t *marks, size_t marks_length)
{
    struct mus_strata_draw_result r = {0, 0, 0};
    struct mus_stratum_plan rows[MUS_MOST_STRATA];
    struct refused why = start_rows(ledger, lines, counts, strata, n, starts, starts_length, marks_length, rows);
    if (why.number != 0) REFUSE(r, why.number, why.place);
    for (size_t h = 0; h < strata; h++) {
        r.drawn += mark_lines(ledger, counts[h], rows[h].interval, starts[h], marks);
        ledger += counts[h];
        marks += counts[h];
    }
    return r;
}

static struct mus_stratum_projection row_of(struct mus_stratum_plan plan, struct mus_project_result p)
{
    struct mus_stratum_projection row = {plan.draws, plan.interval, p.full, p.sampled, p.under_full, p.under_sampled};
    return row;
}

/* Each stratum's lines walked, with their numbers in the whole ledger; a refused walk leaves rows that are not handed on. */
static struct refused project_rows(const uint64_t *ledger, const uint64_t *counts, size_t strata, const uint64_t *starts, const int64_t *errors, const struct mus_stratum_plan *plan, struct mus_strata_project_result *r)
{
    struct refused why = {0, 0};
    size_t at = 0;
    for (size_t h = 0; h < strata; h++) {
        struct mus_project_result p;
        why = gather(ledger + at, counts[h], plan[h].interval, starts[h], errors + at, 0, 0, &p);
        why.place += why.number != 0 ? at : 0;
        if (why.number != 0) return why;
        r->stratum[h] = row_of(plan[h], p);
        r->over += p.full + p.sampled;
        r->under += p.under_full + p.under_sampled;
        at += counts[h];
    }
    return why;
}

struct mus_strata_project_result mus_strata_project(const uint64_t *ledger, size_t lines, const uint64_t *counts, size_t strata, uint64_t n, const uint64_t *starts, size_t starts_length, const int64_t *errors, size_t errors_length)
{
    struct mus_strata_project_result r;
    struct mus_stratum_plan plan[MUS_MOST_STRATA];
    memset(&r, 0, sizeof r);
    struct refused why = start_rows(ledger, lines, counts, strata, n, starts, starts_length, errors_length, plan);
    if (why.number == 0) why = project_rows(ledger, counts, strata, starts, errors, plan, &r);
    if (why.number != 0) {
        memset(&r, 0, sizeof r);
        REFUSE(r, why.number, why.place);
    }
    r.net = (int64_t) r.over - (int64_t) r.under;
    r.strata = strata;
    return r;
}
