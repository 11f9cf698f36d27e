/* The tally of a season in plain C. */
#include "plain.h"

static const uint8_t levels[9] = {99, 95, 90, 85, 80, 75, 70, 60, 50};

/* Whether a / b is above c / d: the products may have 128 bits. */
static int above(uint64_t a, uint64_t b, uint64_t c, uint64_t d)
{
    return (unsigned __int128) a * d > (unsigned __int128) c * b;
}

struct mus_tally mus_tally_none(void)
{
    struct mus_tally tally = {{0}, 0, 0, 0, 0, 0, 0, 0};
    return tally;
}

struct mus_tally_result mus_tally_add(struct mus_tally tally, uint8_t level, uint64_t book, uint64_t limit, uint64_t verdict)
{
    struct mus_tally_result r = {0, 0, tally};
    struct mus_tally *t = &r.tally;
    unsigned row = 0;
    if (tally.added >= MUS_MOST_JUDGEMENTS || tally.refused >= MUS_MOST_JUDGEMENTS) REFUSE(r, 27, 0);
    if (verdict < MUS_BELOW || verdict > MUS_ABOVE) {
        t->refused++;
        t->added++;
        return r;
    }
    while (row < 9 && levels[row] != level) row++;
    if (row == 9) REFUSE(r, 1, 0);
    if (book == 0) REFUSE(r, 5, 0);
    uint64_t *count = &t->counts[3 * row + verdict - 1];
    if (book > UINT64_MAX - t->books || limit > UINT64_MAX - t->limits || *count == UINT64_MAX) REFUSE(r, 28, 0);
    if (t->worst_book == 0 || above(limit, book, t->worst_limit, t->worst_book)) {
        t->worst = t->added;
        t->worst_limit = limit;
        t->worst_book = book;
    }
    ++*count;
    t->books += book;
    t->limits += limit;
    t->added++;
    return r;
}
