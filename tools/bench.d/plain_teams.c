/* Two teams on one ledger in plain C: the same passes, with a team's own two bits of each mark read and written. */
#include "plain_split.h"

/* The place of a team's lower bit, or 8 where it is neither. */
static unsigned lower_bit(uint8_t team)
{
    return team == MUS_TEAM_A ? 0 : team == MUS_TEAM_B ? 2 : 8;
}

static inline uint8_t with_own(unsigned at, uint8_t mark, uint8_t own)
{
    return (uint8_t) ((mark & ~(3u << at)) | (unsigned) own << at);
}

struct mus_split_result mus_team_split(uint8_t team, const uint64_t *ledger, size_t lines, uint64_t n, uint8_t *marks, size_t marks_length)
{
    struct mus_split_result r = {0, 0, 0, 0, 0, 0, 0};
    struct figures f;
    uint64_t total;
    unsigned at = lower_bit(team);
    if (at == 8) REFUSE(r, 24, 0);
    struct refused why = judge_ledger(ledger, lines, marks_length, &total);
    if (why.number == 0) why = split_total(ledger, lines, n, total, &f);
    if (why.number != 0) REFUSE(r, why.number, why.place);
    for (size_t i = 0; i < lines; i++) marks[i] = with_own(at, marks[i], ledger[i] > f.interval ? 2 : 0);
    r.interval = f.interval;
    r.draws_left = f.draws_left;
    r.sampled_total = f.sampled_total;
    r.full_lines = n - f.draws_left;
    r.full_total = total - f.sampled_total;
    return r;
}

/* Writes a draw into a team's own bits; how many lines are drawn. Not inlined, as that of the plain draw. */
static __attribute__((noinline)) uint64_t mark_own(unsigned at, const uint64_t *ledger, size_t lines, uint64_t interval, uint64_t start, uint8_t *marks)
{
    uint64_t next = start, drawn = 0; /* how far the next point lies from the line's first cent */
    for (size_t i = 0; i < lines; i++) {
        uint64_t value = ledger[i];
        uint8_t own = 0;
        if (value > interval) {
            own = 2;
        } else if (next < value) {
            own = 1;
            drawn++;
            next += interval - value;
        } else {
            next -= value;
        }
        marks[i] = with_own(at, marks[i], own);
    }
    return drawn;
}

struct mus_draw_result mus_team_draw(uint8_t team, const uint64_t *ledger, size_t lines, uint64_t n, uint64_t start, uint8_t *marks, size_t marks_length)
{
    struct mus_draw_result r = {0, 0, 0};
    struct figures f;
    uint64_t total;
    unsigned at = lower_bit(team);
    if (at == 8) REFUSE(r, 24, 0);
    struct refused why = judge_ledger(ledger, lines, marks_length, &total);
    if (why.number == 0) why = split_total(ledger, lines, n, total, &f);
    if (why.number == 0 && start >= f.interval && start > 0) why.number = 11;
    if (why.number != 0) REFUSE(r, why.number, why.place);
    r.drawn = mark_own(at, ledger, lines, f.interval, start, marks);
    return r;
}

/* Why a pair is refused, or 0; else it is posted. */
static uint64_t post_pair(unsigned at, const uint64_t *ledger, size_t lines, const uint8_t *marks, int64_t *errors, uint64_t line, int64_t error)
{
    uint64_t size = size_of(error);
    if (line >= lines) return 20;
    if (size > ledger[line]) return 14;
    uint8_t own = marks[line] >> at & 3;
    if (error != 0 && own != MUS_DRAWN && own != MUS_FULL) return 15;
    errors[line] = error;
    return 0;
}

struct mus_post_result mus_team_post(uint8_t team, const uint64_t *ledger, size_t lines, const uint8_t *marks, size_t marks_length, int64_t *errors, size_t errors_length, uint64_t line, int64_t error)
{
    struct mus_post_result r = {0, 0, 0};
    unsigned at = lower_bit(team);
    if (at == 8) REFUSE(r, 24, 0);
    if (marks_length != lines || errors_length != lines) REFUSE(r, 13, 0);
    r.refusal = post_pair(at, ledger, lines, marks, errors, line, error);
    r.posted = r.refusal == 0;
    return r;
}

struct mus_post_result mus_team_post_all(uint8_t team, const uint64_t *ledger, size_t lines, const uint8_t *marks, size_t marks_length, int64_t *errors, size_t errors_length, const uint64_t *posted_lines, size_t lines_length, const int64_t *found, size_t found_length)
{
    struct mus_post_result r = {0, 0, 0};
    unsigned at = lower_bit(team);
    if (at == 8) REFUSE(r, 24, 0);
    if (marks_length != lines || errors_length != lines || lines_length != found_length) REFUSE(r, 13, 0);
    for (size_t k = 0; k < lines_length; k++) {
        uint64_t why = post_pair(at, ledger, lines, marks, errors, posted_lines[k], found[k]);
        if (why != 0) REFUSE(r, why, k);
    }
    r.posted = lines_length;
    return r;
}
