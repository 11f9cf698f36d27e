/* Findings by the batch through C: the practice ledger worked by hand, each refusal with what the call leaves, null pointers with length 0, a batch
 * beside its pairs posted singly, a batch cut in two, and what the projection says of what was posted. */
#include <stdint.h>
#include <string.h>

#include "driver.h"
#include "mus.h"

#define LINES 4
#define MOST_PAIRS 5

static const uint64_t ledger[LINES] = {30, 30, 40, 20};
static const uint8_t marks[LINES] = {1, 0, 1, 1};

/* An entry more than the ledger has lines: no call may touch it. */
#define MARGIN 99
static int64_t errors[LINES + 1];

static void found_before(int64_t first, int64_t second, int64_t third, int64_t fourth)
{
    const int64_t before[] = {first, second, third, fourth, MARGIN};
    memcpy(errors, before, sizeof errors);
}

static void left(int64_t first, int64_t second, int64_t third, int64_t fourth, const char *what)
{
    const int64_t wanted[] = {first, second, third, fourth, MARGIN};
    expect(memcmp(errors, wanted, sizeof errors) == 0, what);
}

/* A batch of at most MOST_PAIRS pairs, what it answers, and what it leaves where nothing was found before. */
static const struct batch {
    const char *what;
    size_t pairs;
    uint64_t lines[MOST_PAIRS];
    int64_t found[MOST_PAIRS];
    uint64_t refusal, place, posted;
    int64_t left[LINES];
} batches[] = {
    {"a batch", 3, {0, 2, 3}, {7, 10, 5}, 0, 0, 3, {7, 0, 10, 5}},
    {"a later pair replaces the earlier", 4, {0, 2, 3, 0}, {7, 10, 5, 9}, 0, 0, 4, {9, 0, 10, 5}},
    {"an understatement", 3, {0, 2, 3}, {-7, 10, 5}, 0, 0, 3, {-7, 0, 10, 5}},
    {"0 clears a finding", 3, {0, 2, 0}, {7, 10, 0}, 0, 0, 3, {0, 0, 10, 0}},
    {"0 on a line that was not drawn", 2, {1, 0}, {0, 7}, 0, 0, 2, {7, 0, 0, 0}},
    {"the whole value, of either kind", 2, {0, 2}, {30, -40}, 0, 0, 2, {30, 0, -40, 0}},
    {"no pair", 0, {0}, {0}, 0, 0, 0, {0, 0, 0, 0}},
    {"15 in the middle", 3, {0, 1, 2}, {7, 3, 10}, 15, 1, 0, {7, 0, 0, 0}},
    {"15 for an understatement", 2, {2, 1}, {10, -1}, 15, 1, 0, {0, 0, 10, 0}},
    {"14 at the last", 3, {0, 2, 3}, {7, 10, 21}, 14, 2, 0, {7, 0, 10, 0}},
    {"14 by size", 2, {2, 0}, {1, -31}, 14, 1, 0, {0, 0, 1, 0}},
    {"14 for the least number", 1, {2}, {INT64_MIN}, 14, 0, 0, {0, 0, 0, 0}},
    {"14 before 15 on a pair", 2, {3, 1}, {5, 31}, 14, 1, 0, {0, 0, 0, 5}},
    {"20", 3, {0, 4, 2}, {7, 0, 10}, 20, 1, 0, {7, 0, 0, 0}},
    {"20 for the largest number", 1, {UINT64_MAX}, {0}, 20, 0, 0, {0, 0, 0, 0}},
    {"20 before 14", 1, {4}, {INT64_MIN}, 20, 0, 0, {0, 0, 0, 0}},
    {"an earlier 15 before a later 20", 2, {1, 4}, {1, 1}, 15, 0, 0, {0, 0, 0, 0}},
    {"a refused pair leaves what the line had", 4, {0, 0, 0, 2}, {7, 9, 31, 10}, 14, 2, 0, {9, 0, 0, 0}},
};

/* The pairs one by one, up to the first that is refused: the answer that a batch of them would have. */
static struct mus_post_result singly(const struct batch *b)
{
    struct mus_post_result r = {0, 0, 0};
    for (size_t k = 0; k < b->pairs; k++) {
        struct mus_post_result one = mus_post(ledger, LINES, marks, LINES, errors, LINES, b->lines[k], b->found[k]);
        expect(one.place == 0 && one.posted == (one.refusal == 0), "one finding is posted or refused, at place 0");
        if (one.refusal != 0) {
            r.refusal = one.refusal;
            r.place = k;
            r.posted = 0;
            return r;
        }
        r.posted++;
    }
    return r;
}

/* The pairs in two calls: the second is made where the first is accepted, and its positions go on from there. */
static struct mus_post_result in_two(const struct batch *b, size_t cut)
{
    struct mus_post_result r = mus_post_all(ledger, LINES, marks, LINES, errors, LINES, b->lines, cut, b->found, cut);
    if (r.refusal != 0) return r;
    r = mus_post_all(ledger, LINES, marks, LINES, errors, LINES, b->lines + cut, b->pairs - cut, b->found + cut, b->pairs - cut);
    if (r.refusal != 0) r.place += cut; else r.posted += cut;
    return r;
}

static void worked(void)
{
    struct mus_post_result r;
    for (size_t i = 0; i < sizeof batches / sizeof batches[0]; i++) {
        const struct batch *b = &batches[i];
        found_before(0, 0, 0, 0);
        r = mus_post_all(ledger, LINES, marks, LINES, errors, LINES, b->lines, b->pairs, b->found, b->pairs);
        SAME(r, b->what, b->refusal, b->place, b->posted);
        left(b->left[0], b->left[1], b->left[2], b->left[3], b->what);
        found_before(0, 0, 0, 0);
        r = singly(b);
        SAME(r, "posted singly", b->refusal, b->place, b->posted);
        left(b->left[0], b->left[1], b->left[2], b->left[3], "what posting singly leaves");
        for (size_t cut = 0; cut <= b->pairs; cut++) {
            found_before(0, 0, 0, 0);
            r = in_two(b, cut);
            SAME(r, "cut in two", b->refusal, b->place, b->posted);
            left(b->left[0], b->left[1], b->left[2], b->left[3], "what a batch cut in two leaves");
        }
    }
}

/* 13, which posts nothing; lists of no entries. */
static void lengths(void)
{
    static const uint64_t lines[] = {0, 2};
    static const int64_t found[] = {7, 10};
    struct mus_post_result r;
    found_before(1, 2, 3, 4);
    r = mus_post_all(ledger, LINES, marks, LINES - 1, errors, LINES, lines, 2, found, 2);
    SAME(r, "findings: 13 for the marks", 13, 0, 0);
    r = mus_post_all(ledger, LINES, marks, LINES, errors, LINES + 1, lines, 2, found, 2);
    SAME(r, "findings: 13 for the errors", 13, 0, 0);
    r = mus_post_all(ledger, LINES, marks, LINES, errors, LINES, lines, 1, found, 2);
    SAME(r, "findings: 13 for the two lists", 13, 0, 0);
    r = mus_post_all(ledger, LINES, marks, LINES, errors, LINES, lines, 2, NULL, 0);
    SAME(r, "findings: 13 without errors found", 13, 0, 0);
    r = mus_post_all(ledger, LINES, NULL, 0, NULL, 0, NULL, 0, NULL, 0);
    SAME(r, "findings: 13 without a pair", 13, 0, 0);
    r = mus_post(ledger, LINES, marks, LINES - 1, errors, LINES, 9, INT64_MIN);
    SAME(r, "one finding: 13 before 20", 13, 0, 0);
    r = mus_post(ledger, LINES, marks, LINES, errors, 0, 0, 7);
    SAME(r, "one finding: 13 for the errors", 13, 0, 0);
    r = mus_post(NULL, 0, NULL, 0, NULL, 0, 0, 0);
    SAME(r, "one finding: 20 without lines", 20, 0, 0);
    r = mus_post_all(NULL, 0, NULL, 0, NULL, 0, lines, 2, found, 2);
    SAME(r, "findings: 20 without lines", 20, 0, 0);
    left(1, 2, 3, 4, "13 and 20 leave the errors");
    r = mus_post_all(NULL, 0, NULL, 0, NULL, 0, NULL, 0, NULL, 0);
    SAME(r, "no lines and no pair", 0, 0, 0);
    r = mus_post_all(ledger, LINES, marks, LINES, errors, LINES, NULL, 0, NULL, 0);
    SAME(r, "no pair", 0, 0, 0);
    left(1, 2, 3, 4, "no pair leaves the errors");
}

/* Every byte as a mark; and a ledger that no step would take, which is not judged here. */
static void as_they_stand(void)
{
    static const uint64_t book[] = {9}, wide[] = {UINT64_MAX, 0};
    static const uint8_t full[] = {2, 2};
    static const uint64_t lines[] = {0, 1, 0};
    static const int64_t found[] = {INT64_MAX, 0, INT64_MIN};
    struct mus_post_result r;
    for (unsigned mark = 0; mark < 256; mark++) {
        uint8_t of_line = (uint8_t) mark;
        int drawn = mark == MUS_DRAWN || mark == MUS_FULL;
        found_before(5, 0, 0, 0);
        r = mus_post(book, 1, &of_line, 1, errors, 1, 0, -9);
        SAME(r, "a mark counts as it stands", drawn ? 0 : MUS_ERROR_NOT_DRAWN, 0, drawn);
        left(drawn ? -9 : 5, 0, 0, 0, "what the mark lets be posted");
        r = mus_post(book, 1, &of_line, 1, errors, 1, 0, 0);
        SAME(r, "0 clears whatever the mark", 0, 0, 1);
        left(0, 0, 0, 0, "cleared");
    }
    found_before(0, 8, 0, 0);
    r = mus_post_all(wide, 2, full, 2, errors, 2, lines, 3, found, 3);
    SAME(r, "no ledger is judged", 0, 0, 3);
    left(INT64_MIN, 0, 0, 0, "the least number on a line that is larger still");
}

/* More lines than a step takes: a batch has no 2. */
static void many_lines(void)
{
    static uint64_t many[1000001];
    static uint8_t marks_of_many[1000001];
    static int64_t errors_of_many[1000001];
    static const uint64_t lines[] = {1000000, 0, 1000001};
    static const int64_t found[] = {1, -1, 0};
    struct mus_post_result r;
    memset(marks_of_many, MUS_DRAWN, sizeof marks_of_many);
    for (size_t i = 0; i < 1000001; i++) many[i] = 1;
    r = mus_post_all(many, 1000001, marks_of_many, 1000001, errors_of_many, 1000001, lines, 2, found, 2);
    SAME(r, "more lines than a step takes", 0, 0, 2);
    r = mus_post_all(many, 1000001, marks_of_many, 1000001, errors_of_many, 1000001, lines, 3, found, 3);
    SAME(r, "20 past the last of them", 20, 2, 0);
    expect(errors_of_many[1000000] == 1 && errors_of_many[0] == -1 && errors_of_many[1] == 0, "what is posted there");
}

/* Drawn, posted, projected: the practice sheet's own figures, and a refused pair mended. */
static void projected(void)
{
    static const uint64_t lines[] = {0, 2, 1, 3};
    static const int64_t found[] = {7, 10, 5, 5};
    uint8_t drawn[LINES];
    struct mus_post_result r;
    struct mus_project_result p;
    found_before(0, 0, 0, 0);
    expect(mus_draw(ledger, LINES, 3, 25, drawn, LINES).drawn == 3 && memcmp(drawn, marks, LINES) == 0, "the draw's marks");
    r = mus_post_all(ledger, LINES, drawn, LINES, errors, LINES, lines, 4, found, 4);
    SAME(r, "a line that was not drawn", 15, 2, 0);
    left(7, 0, 10, 0, "those before it stay");
    r = mus_post_all(ledger, LINES, drawn, LINES, errors, LINES, lines + 3, 1, found + 3, 1);
    SAME(r, "the rest", 0, 0, 1);
    p = mus_project(ledger, LINES, 3, 25, errors, LINES);
    SAME(p, "what was posted, projected", 0, 0, 0, 30, 3, 0, 0, 30);
}

void findings_cases(void)
{
    worked();
    lengths();
    as_they_stand();
    many_lines();
    projected();
}
