/* The stored cases of two teams on one ledger: `level` is the team, the first words are the marks, as many as the room has bytes, and of a batch lines,
 * `first` of them, and errors found follow. Each call of a known team is made beside the plain one on the team's own bits. */
#include <string.h>

#include "driver.h"
#include "feed.h"
#include "mus.h"

static uint8_t own[1000001], before[1000001];
static int64_t plain_errors[1000001];

static int known(void)
{
    return level == MUS_TEAM_A || level == MUS_TEAM_B;
}

static unsigned lower_bit(void)
{
    return level == MUS_TEAM_A ? 0 : 2;
}

/* The marks of the case, and the team's own bits of them. */
static void lay_marks(void)
{
    mark_room();
    memcpy(before, bytes, room_length);
    for (size_t i = 0; i < room_length; i++) own[i] = bytes[i] >> lower_bit() & 3;
}

/* The own bits are those that the plain call left, and the others as they were. */
static int as_plain(void)
{
    uint8_t kept = (uint8_t) ~(3u << lower_bit());
    for (size_t i = 0; i < room_length; i++) {
        if (bytes[i] != ((before[i] & kept) | (uint8_t) (own[i] << lower_bit()))) return 0;
    }
    return 1;
}

static void say_marks(void)
{
    say(" lent");
    say_list(ledger, ledger_length);
    say_bytes(bytes, room_length);
}

void team_split_case(void)
{
    lay_marks();
    struct mus_split_result r = mus_team_split(level, ledger, ledger_length, first, bytes, room_length);
    if (known()) {
        struct mus_split_result plain = mus_split(ledger, ledger_length, first, own, room_length);
        expect(memcmp(&r, &plain, sizeof r) == 0 && as_plain(), "a team's split is the plain one on its own bits");
    }
    say(" teamsplit");
    say_answer(r.refusal, r.place, &r.interval, 5);
    say_marks();
}

void team_draw_case(void)
{
    lay_marks();
    struct mus_draw_result r = mus_team_draw(level, ledger, ledger_length, first, second, bytes, room_length);
    if (known()) {
        struct mus_draw_result plain = mus_draw(ledger, ledger_length, first, second, own, room_length);
        expect(memcmp(&r, &plain, sizeof r) == 0 && as_plain(), "a team's draw is the plain one on its own bits");
    }
    say(" teamdraw");
    say_answer(r.refusal, r.place, &r.drawn, 1);
    say_marks();
}

/* What was lent to findings. */
static void say_posted(const struct mus_post_result *r)
{
    say_answer(r->refusal, r->place, &r->posted, 1);
    say(" lent");
    say_list(ledger, ledger_length);
    say_errors(errors, errors_length);
    say_list(words, words_length);
    say_bytes(bytes, room_length);
}

static void same_posting(const struct mus_post_result *r, const struct mus_post_result *plain)
{
    expect(memcmp(r, plain, sizeof *r) == 0 && memcmp(errors, plain_errors, errors_length * sizeof *errors) == 0,
        "a team's findings are the plain ones by its own bits");
}

void team_post_case(void)
{
    lay_marks();
    memcpy(plain_errors, errors, errors_length * sizeof *errors);
    struct mus_post_result r = mus_team_post(level, ledger, ledger_length, bytes, room_length, errors, errors_length, first, (int64_t) second);
    if (known()) {
        struct mus_post_result plain = mus_post(ledger, ledger_length, own, room_length, plain_errors, errors_length, first, (int64_t) second);
        same_posting(&r, &plain);
    }
    say(" teampost");
    say_posted(&r);
}

void team_post_all_case(void)
{
    lay_marks();
    const uint64_t *lines = words + room_length;
    const int64_t *found = (const int64_t *) (lines + first);
    size_t count = (size_t) first, found_length = words_length - room_length - count;
    memcpy(plain_errors, errors, errors_length * sizeof *errors);
    struct mus_post_result r = mus_team_post_all(level, ledger, ledger_length, bytes, room_length, errors, errors_length, lines, count, found, found_length);
    if (known()) {
        struct mus_post_result plain = mus_post_all(ledger, ledger_length, own, room_length, plain_errors, errors_length, lines, count, found, found_length);
        same_posting(&r, &plain);
    }
    say(" teampostall");
    say_posted(&r);
}
