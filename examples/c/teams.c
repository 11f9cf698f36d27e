/* Two teams on one ledger: each draws for its own fund into one table of marks, posts what it found by its own bits, and projects it. */
#include <stdint.h>
#include <stdio.h>

#include "mus.h"

#define LINES 4
#define PAIRS 3

typedef unsigned long long whole; /* what printf takes */
typedef long long with_sign;

static const uint64_t ledger[LINES] = {30, 30, 40, 20}; /* book values in cents */
static uint8_t marks[LINES] = {0xF0, 0x10, 0x20, 0x80}; /* bits 4 to 7 are in use for something else */

/* A team has its own draws, start and errors. */
struct team {
    uint8_t name;
    uint64_t draws, start;
    int64_t errors[LINES];
};

static int refused(const struct team *t, uint64_t refusal, uint64_t place)
{
    if (refusal != 0) printf("%c refused %llu %llu\n", t->name, (whole) refusal, (whole) place);
    return refusal != 0;
}

static void say_marks(void)
{
    printf("marks");
    for (size_t i = 0; i < LINES; i++) printf(" %u", marks[i]);
    printf("\n");
}

static int draw(const struct team *t)
{
    struct mus_draw_result r = mus_team_draw(t->name, ledger, LINES, t->draws, t->start, marks, LINES);
    if (refused(t, r.refusal, r.place)) return 1;
    printf("%c drawn %llu\n", t->name, (whole) r.drawn);
    say_marks();
    return 0;
}

/* Posts the pairs from a position on; answers the position of the pair that is refused, or the number of pairs where there is none. */
static size_t post_from(size_t from, struct team *t, const uint64_t *lines, const int64_t *found)
{
    size_t count = PAIRS - from;
    struct mus_post_result r = mus_team_post_all(t->name, ledger, LINES, marks, LINES, t->errors, LINES, lines + from, count, found + from, count);
    if (!refused(t, r.refusal, r.place)) printf("%c posted %llu\n", t->name, (whole) r.posted);
    printf("errors");
    for (size_t i = 0; i < LINES; i++) printf(" %lld", (with_sign) t->errors[i]);
    printf("\n");
    return from + (size_t) (r.refusal != 0 ? r.place : r.posted); /* as many as the place says stay posted */
}

/* The projection takes no marks: it draws anew, from the team's own draws and start. */
static int project(const struct team *t)
{
    struct mus_project_result r = mus_project(ledger, LINES, t->draws, t->start, t->errors, LINES);
    if (refused(t, r.refusal, r.place)) return 1;
    printf("%c project %llu %llu %llu %llu %llu %lld\n", t->name, (whole) r.full, (whole) r.sampled, (whole) r.m, (whole) r.under_full, (whole) r.under_sampled, (with_sign) r.net);
    return 0;
}

int main(void)
{
    struct team a = {MUS_TEAM_A, 3, 25, {0, 0, 0, 0}}, b = {MUS_TEAM_B, 3, 0, {0, 0, 0, 0}};
    const uint64_t lines_a[PAIRS] = {0, 2, 3};
    const int64_t found_a[PAIRS] = {7, 10, 5}, found_b[PAIRS] = {7, 10, 4};
    uint64_t lines_b[PAIRS] = {0, 2, 3}; /* its last line is misread: B drew line 1, and line 3 is A's */

    say_marks();
    if (draw(&a) || draw(&b)) return 1;
    if (post_from(0, &a, lines_a, found_a) < PAIRS) return 1;
    size_t at = post_from(0, &b, lines_b, found_b);
    if (at < PAIRS) {
        lines_b[at] = 1;
        if (post_from(at, &b, lines_b, found_b) < PAIRS) return 1;
    }
    return project(&a) || project(&b);
}
