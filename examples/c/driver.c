/* The test driver of the C interface: every function with good and bad input, zero lengths and null pointers with length 0; that a
 * refused call changes nothing, but for a batch of findings; and the stored cases, whose files it is given. Its last line is its count, its status 0 where
 * nothing failed. */
#include <stdint.h>
#include <stdio.h>
#include <string.h>

#include "driver.h"
#include "mus.h"

static unsigned long long passed, failed;

void expect(int good, const char *what)
{
    if (good) {
        passed++;
        return;
    }
    failed++;
    printf("FAILED: %s\n", what);
}

/* Buffers with a margin that no call may touch, and their content before a call. */
static uint8_t bytes[46000], bytes_before[46000];
static uint64_t words[100], values[2100], words_before[100], values_before[2100];
static int64_t errors[2100], errors_before[2100];

static void fill(void)
{
    for (size_t i = 0; i < sizeof bytes; i++) bytes[i] = (uint8_t) (i * 7 + 3);
    for (size_t i = 0; i < 100; i++) words[i] = i * 5 + 1;
    for (size_t i = 0; i < 2100; i++) {
        values[i] = i * 9 + 2;
        errors[i] = (int64_t) (i * 11 + 4);
    }
    memcpy(bytes_before, bytes, sizeof bytes);
    memcpy(words_before, words, sizeof words);
    memcpy(values_before, values, sizeof values);
    memcpy(errors_before, errors, sizeof errors);
}

static void unchanged(const char *what)
{
    expect(memcmp(bytes, bytes_before, sizeof bytes) == 0 && memcmp(words, words_before, sizeof words) == 0
        && memcmp(values, values_before, sizeof values) == 0 && memcmp(errors, errors_before, sizeof errors) == 0, what);
}

/* The bytes written are these, and no byte past them changed. */
static void wrote(const uint8_t *wanted, size_t count, const char *what)
{
    expect(memcmp(bytes, wanted, count) == 0 && memcmp(bytes + count, bytes_before + count, sizeof bytes - count) == 0, what);
}

static const uint64_t rounds[] = {500, 120, 0, 80, 300}, practice[] = {30, 30, 40, 20}, zeros[] = {0, 0, 0, 0};
static const int64_t found[] = {7, 0, 10, 5}, understated[] = {-7, 0, 10, 5}, none[] = {0, 0, 0, 0};

static void size_cases(void)
{
    static const uint8_t levels[] = {99, 95, 90, 85, 80, 75, 70, 60, 50};
    struct mus_size_result r = mus_size(95, 1000000, 20000, 0);
    SAME(r, "size at 95", 0, 0, 150);
    r = mus_size(90, 1000000, 20000, 0);
    SAME(r, "size at 90", 0, 0, 116);
    r = mus_size(95, 1000000, 20000, 12499);
    SAME(r, "size with all but the last cent spent", 0, 0, 1875000);
    r = mus_size(95, 1000000, 20000, 12500);
    SAME(r, "size: 7", 7, 0, 0);
    r = mus_size(94, 0, 0, 0);
    SAME(r, "size: 1", 1, 0, 0);
    r = mus_size(95, MUS_MOST_TOTAL + 1, 1, 0);
    SAME(r, "size: 4", 4, 0, 0);
    r = mus_size(95, 0, 1, 0);
    SAME(r, "size: 5", 5, 0, 0);
    r = mus_size(95, 10, 0, 0);
    SAME(r, "size: 6 for a TE of 0", 6, 0, 0);
    r = mus_size(95, 10, 11, 0);
    SAME(r, "size: 6 for TE", 6, 0, 0);
    r = mus_size(95, 10, 10, 11);
    SAME(r, "size: 6 for AE", 6, 0, 0);
    for (size_t i = 0; i < sizeof levels; i++) expect(mus_size(levels[i], 1, 1, 0).refusal == 0, "size knows each level");
}

static void split_cases(void)
{
    static const uint8_t marks[] = {2, 2, 0, 0, 2}, one[] = {2};
    static const uint64_t large[] = {5, MUS_MOST_VALUE + 1}, wide[] = {4000000001}, ten[] = {10};
    static uint64_t heavy[101];
    struct mus_split_result r;
    fill();
    r = mus_split(rounds, 5, 4, bytes, 5);
    SAME(r, "split in three rounds", 0, 0, 80, 1, 80, 3, 920);
    wrote(marks, 5, "the split's marks");
    fill();
    r = mus_split(ten, 1, 2, bytes, 1);
    SAME(r, "split with nothing sampled", 0, 0, 0, 1, 0, 1, 10);
    wrote(one, 1, "the mark of the only line");
    r = mus_split(wide, 1, 1, bytes, 1);
    SAME(r, "split above 4,000,000,000", 0, 0, 4000000001, 1, 4000000001, 0, 0);
    fill();
    r = mus_split(rounds, 5, 0, bytes, 5);
    SAME(r, "split: 8", 8, 0, 0, 0, 0, 0, 0);
    r = mus_split(rounds, 5, 4, bytes, 6);
    SAME(r, "split: 13", 13, 0, 0, 0, 0, 0, 0);
    r = mus_split(rounds, 5, 4, NULL, 0);
    SAME(r, "split: 13 without marks", 13, 0, 0, 0, 0, 0, 0);
    r = mus_split(NULL, 0, 4, bytes, 1);
    SAME(r, "split: 13 without lines", 13, 0, 0, 0, 0, 0, 0);
    r = mus_split(NULL, 0, 4, NULL, 0);
    SAME(r, "split: 5 without lines and marks", 5, 0, 0, 0, 0, 0, 0);
    r = mus_split(large, 2, 4, bytes, 2);
    SAME(r, "split: 3", 3, 1, 0, 0, 0, 0, 0);
    for (size_t i = 0; i < 101; i++) heavy[i] = MUS_MOST_VALUE;
    r = mus_split(heavy, 101, 4, bytes, 101);
    SAME(r, "split: 4", 4, 100, 0, 0, 0, 0, 0);
    r = mus_split(zeros, 4, 4, bytes, 4);
    SAME(r, "split: 5", 5, 0, 0, 0, 0, 0, 0);
    unchanged("a refused split changes nothing");
}

static void many_lines(void)
{
    static uint64_t many[1000001];
    static int64_t errors_of_many[1000001];
    static uint8_t marks[1000001];
    size_t kept = 0;
    memset(marks, 9, sizeof marks);
    for (size_t i = 0; i < 1000001; i++) many[i] = 1;
    struct mus_split_result r = mus_split(many, 1000001, 4, marks, 1000001);
    SAME(r, "split: 2", 2, 0, 0, 0, 0, 0, 0);
    struct mus_judge_result j = mus_judge(90, many, 1000001, 4, 0, errors_of_many, 1000001, 1);
    SAME(j, "judge: 2", 2, 0, 0, 0, 0, 0, 0, 0, 0, 0, 0);
    while (kept < sizeof marks && marks[kept] == 9) kept++;
    expect(kept == sizeof marks, "refusal 2 leaves the marks");
    r = mus_split(many, 1000000, 4, marks, 1000000);
    SAME(r, "split of the most lines", 0, 0, 250000, 4, 1000000, 0, 0);
    expect(marks[999999] == 0 && marks[1000000] == 9, "marks of the most lines");
}

static void start_cases(void)
{
    static const uint64_t lent[] = {63, 25};
    struct mus_start_result r = mus_start(40, lent, 2);
    SAME(r, "start below 40", 0, 0, 25, 2);
    r = mus_start(40, lent, 1);
    SAME(r, "start: 12", 12, 1, 0, 0);
    r = mus_start(40, NULL, 0);
    SAME(r, "start: 12 without words", 12, 0, 0, 0);
    r = mus_start(1, NULL, 0);
    SAME(r, "start below 1", 0, 0, 0, 0);
    r = mus_start(0, lent, 2);
    SAME(r, "start without an interval", 0, 0, 0, 0);
    r = mus_start(MUS_MOST_INTERVAL, lent, 2);
    SAME(r, "start below the widest interval", 0, 0, 63, 1);
    r = mus_start(MUS_MOST_INTERVAL + 1, lent, 2);
    SAME(r, "start: 10", 10, 0, 0, 0);
}

static void draw_cases(void)
{
    static const uint8_t at_0[] = {1, 1, 1, 0}, at_25[] = {1, 0, 1, 1}, with_full[] = {2, 2, 0, 1, 2};
    struct mus_draw_result r;
    fill();
    r = mus_draw(practice, 4, 3, 0, bytes, 4);
    SAME(r, "draw from 0", 0, 0, 3);
    wrote(at_0, 4, "marks from 0");
    fill();
    r = mus_draw(practice, 4, 3, 25, bytes, 4);
    SAME(r, "draw from 25", 0, 0, 3);
    wrote(at_25, 4, "marks from 25");
    fill();
    r = mus_draw(rounds, 5, 4, 79, bytes, 5);
    SAME(r, "draw beside full lines", 0, 0, 1);
    wrote(with_full, 5, "marks beside full lines");
    fill();
    r = mus_draw(practice, 4, 3, 40, bytes, 4);
    SAME(r, "draw: 11", 11, 0, 0);
    r = mus_draw(practice, 4, 3, 0, bytes, 3);
    SAME(r, "draw: 13", 13, 0, 0);
    r = mus_draw(practice, 4, 0, 0, bytes, 4);
    SAME(r, "draw: 8", 8, 0, 0);
    r = mus_draw(NULL, 0, 3, 0, NULL, 0);
    SAME(r, "draw: 5 without lines", 5, 0, 0);
    unchanged("a refused draw changes nothing");
}

static void project_cases(void)
{
    static const int64_t above[] = {7, 31, 10, 5};
    struct mus_project_result r = mus_project(practice, 4, 3, 25, found, 4);
    SAME(r, "projection from 25", 0, 0, 0, 30, 3, 0, 0, 30);
    r = mus_project(practice, 4, 3, 25, none, 4);
    SAME(r, "projection of no errors", 0, 0, 0, 0, 0, 0, 0, 0);
    r = mus_project(practice, 4, 3, 0, found, 4);
    SAME(r, "projection: 15", 15, 3, 0, 0, 0, 0, 0, 0);
    r = mus_project(practice, 4, 3, 25, above, 4);
    SAME(r, "projection: 14", 14, 1, 0, 0, 0, 0, 0, 0);
    r = mus_project(practice, 4, 3, 41, found, 4);
    SAME(r, "projection: 11", 11, 0, 0, 0, 0, 0, 0, 0);
    r = mus_project(practice, 4, 3, 25, NULL, 0);
    SAME(r, "projection: 13", 13, 0, 0, 0, 0, 0, 0, 0);
    r = mus_project(NULL, 0, 3, 0, NULL, 0);
    SAME(r, "projection: 5 without lines", 5, 0, 0, 0, 0, 0, 0, 0);
}

/* Errors below 0: a line of each kind, the value and one cent beyond it, the least number there is, and lines that are not drawn. */
static void understated_cases(void)
{
    static const int64_t grants[] = {-50, 12, 0, -8, 3}, whole[] = {-30, 0, 0, 0}, beyond[] = {-31, 0, 0, 0}, least[] = {0, 0, 0, INT64_MIN}, elsewhere[] = {0, -1, 0, 0};
    struct mus_project_result r = mus_project(practice, 4, 3, 25, understated, 4);
    SAME(r, "a drawn line understated", 0, 0, 0, 20, 2, 0, 10, 10);
    r = mus_project(rounds, 5, 4, 79, grants, 5);
    SAME(r, "full lines of each kind, and a net below 0", 0, 0, 15, 0, 0, 50, 8, (uint64_t) -43);
    r = mus_project(practice, 4, 3, 25, whole, 4);
    SAME(r, "the whole value understated", 0, 0, 0, 0, 0, 0, 40, (uint64_t) -40);
    r = mus_project(practice, 4, 3, 25, beyond, 4);
    SAME(r, "projection: 14 for one cent less", 14, 0, 0, 0, 0, 0, 0, 0);
    r = mus_project(practice, 4, 3, 25, least, 4);
    SAME(r, "projection: 14 for the least number", 14, 3, 0, 0, 0, 0, 0, 0);
    r = mus_project(practice, 4, 3, 25, elsewhere, 4);
    SAME(r, "projection: 15 for an understatement", 15, 1, 0, 0, 0, 0, 0, 0);
}

static void lines_cases(void)
{
    static const uint64_t line[] = {UINT64_C(100000000000)};
    static const int64_t whole[] = {INT64_C(100000000000)}, less[] = {INT64_C(-100000000000)}, beside_full[] = {50, 0, 0, -8, -3}, above[] = {7, 31, 10, 5};
    static const int64_t at_25[] = {10, 0, 10, 10}, below[] = {-10, 0, 10, 10};
    struct mus_project_result r;
    fill();
    r = mus_project_lines(practice, 4, 3, 25, found, 4, errors, 4);
    SAME(r, "lines from 25", 0, 0, 0, 30, 3, 0, 0, 30);
    expect(memcmp(errors, at_25, sizeof at_25) == 0 && memcmp(errors + 4, errors_before + 4, sizeof errors - 32) == 0, "amounts from 25");
    fill();
    r = mus_project_lines(practice, 4, 3, 25, understated, 4, errors, 4);
    SAME(r, "lines with one understated", 0, 0, 0, 20, 2, 0, 10, 10);
    expect(memcmp(errors, below, sizeof below) == 0 && memcmp(errors + 4, errors_before + 4, sizeof errors - 32) == 0, "amounts with one below 0");
    fill();
    r = mus_project_lines(rounds, 5, 4, 79, beside_full, 5, errors, 5);
    SAME(r, "lines beside full ones", 0, 0, 50, 0, 0, 3, 8, 39);
    expect(memcmp(errors, beside_full, sizeof beside_full) == 0, "amounts beside full lines");
    fill();
    r = mus_project_lines(line, 1, 1, 99999999999, whole, 1, errors, 1);
    SAME(r, "lines where the product has 74 bits", 0, 0, 0, 100000000000, 1, 0, 0, 100000000000);
    expect(errors[0] == whole[0] && errors[1] == errors_before[1], "the amount where the product has 74 bits");
    r = mus_project_lines(line, 1, 1, 99999999999, less, 1, errors, 1);
    SAME(r, "the same understated", 0, 0, 0, 0, 0, 0, 100000000000, (uint64_t) -100000000000);
    expect(errors[0] == less[0] && errors[1] == errors_before[1], "its amount");
    fill();
    r = mus_project_lines(practice, 4, 3, 0, found, 4, errors, 4);
    SAME(r, "lines: 15", 15, 3, 0, 0, 0, 0, 0, 0);
    r = mus_project_lines(practice, 4, 3, 25, above, 4, errors, 4);
    SAME(r, "lines: 14", 14, 1, 0, 0, 0, 0, 0, 0);
    r = mus_project_lines(practice, 4, 3, 40, found, 4, errors, 4);
    SAME(r, "lines: 11", 11, 0, 0, 0, 0, 0, 0, 0);
    r = mus_project_lines(practice, 4, 0, 0, found, 4, errors, 4);
    SAME(r, "lines: 8", 8, 0, 0, 0, 0, 0, 0, 0);
    r = mus_project_lines(practice, 4, 3, 25, found, 4, errors, 3);
    SAME(r, "lines: 13 for the amounts", 13, 0, 0, 0, 0, 0, 0, 0);
    r = mus_project_lines(practice, 4, 3, 25, found, 3, errors, 4);
    SAME(r, "lines: 13 for the errors", 13, 0, 0, 0, 0, 0, 0, 0);
    r = mus_project_lines(practice, 4, 3, 25, found, 4, NULL, 0);
    SAME(r, "lines: 13 without amounts", 13, 0, 0, 0, 0, 0, 0, 0);
    r = mus_project_lines(NULL, 0, 3, 0, NULL, 0, NULL, 0);
    SAME(r, "lines: 5 without lines", 5, 0, 0, 0, 0, 0, 0, 0);
    unchanged("refused lines change nothing");
}

static void judge_cases(void)
{
    static uint64_t tens[70];
    static int64_t ones[70];
    struct mus_judge_result r = mus_judge(90, practice, 4, 3, 25, found, 4, 100);
    SAME(r, "judgement at 90", 0, 0, 0, 30, 3, 0, 0, 30, 107, 137, MUS_INCONCLUSIVE);
    r = mus_judge(90, practice, 4, 3, 25, understated, 4, 100);
    SAME(r, "judgement with a line understated", 0, 0, 0, 20, 2, 0, 10, 10, 103, 123, MUS_INCONCLUSIVE);
    r = mus_judge(50, practice, 4, 3, 25, found, 4, 100);
    SAME(r, "judgement at 50", 0, 0, 0, 30, 3, 0, 0, 30, 28, 58, MUS_BELOW);
    r = mus_judge(50, practice, 4, 3, 25, found, 4, 59);
    SAME(r, "a limit one cent under TE", 0, 0, 0, 30, 3, 0, 0, 30, 28, 58, MUS_BELOW);
    r = mus_judge(50, practice, 4, 3, 25, found, 4, 58);
    SAME(r, "a limit equal to TE", 0, 0, 0, 30, 3, 0, 0, 30, 28, 58, MUS_INCONCLUSIVE);
    r = mus_judge(50, practice, 4, 3, 25, found, 4, 30);
    SAME(r, "a projected error equal to TE", 0, 0, 0, 30, 3, 0, 0, 30, 28, 58, MUS_INCONCLUSIVE);
    r = mus_judge(50, practice, 4, 3, 25, found, 4, 29);
    SAME(r, "judgement above", 0, 0, 0, 30, 3, 0, 0, 30, 28, 58, MUS_ABOVE);
    r = mus_judge(50, practice, 4, 3, 25, understated, 4, 19);
    SAME(r, "judgement above, whatever the net", 0, 0, 0, 20, 2, 0, 10, 10, 28, 48, MUS_ABOVE);
    r = mus_judge(91, practice, 4, 3, 25, found, 4, 100);
    SAME(r, "judgement: 1", 1, 0, 0, 0, 0, 0, 0, 0, 0, 0, 0);
    r = mus_judge(90, practice, 4, 3, 25, found, 4, 121);
    SAME(r, "judgement: 6", 6, 0, 0, 0, 0, 0, 0, 0, 0, 0, 0);
    r = mus_judge(90, practice, 4, 3, 0, found, 4, 100);
    SAME(r, "judgement: 15", 15, 3, 0, 0, 0, 0, 0, 0, 0, 0, 0);
    r = mus_judge(90, NULL, 0, 3, 0, NULL, 0, 1);
    SAME(r, "judgement: 5 without lines", 5, 0, 0, 0, 0, 0, 0, 0, 0, 0, 0);
    for (size_t i = 0; i < 70; i++) {
        tens[i] = 10;
        ones[i] = i < 64 ? 1 : -10;
    }
    r = mus_judge(90, tens, 70, 70, 0, ones, 70, 640);
    SAME(r, "judgement: 16", 16, 0, 0, 0, 0, 0, 0, 0, 0, 0, 0);
    ones[63] = 0;
    r = mus_judge(90, tens, 70, 70, 0, ones, 70, 640);
    expect(r.m == 63 && r.under_sampled == 60 && r.net == 3, "63 overstatements pass, and understatements beside them do not count");
}

/* The practice sheet's working file. */
static const uint8_t practice_file[] = {
    'P', 90, 100, 0, 0, 0, 0, 0, 0, 0, 0, 0, 0, 0, 0, 0, 0, 0,
    'W', 63, 0, 0, 0, 0, 0, 0, 0, 'W', 25, 0, 0, 0, 0, 0, 0, 0,
    'L', 30, 0, 0, 0, 0, 0, 0, 0, 'L', 30, 0, 0, 0, 0, 0, 0, 0, 'L', 40, 0, 0, 0, 0, 0, 0, 0, 'L', 20, 0, 0, 0, 0, 0, 0, 0,
    'E', 0, 0, 0, 0, 7, 0, 0, 0, 0, 0, 0, 0, 'E', 2, 0, 0, 0, 10, 0, 0, 0, 0, 0, 0, 0, 'E', 3, 0, 0, 0, 5, 0, 0, 0, 0, 0, 0, 0,
    'Z', 4, 0, 0, 0, 120, 0, 0, 0, 0, 0, 0, 0,
};

/* A file whose errors are those given, at the front of the bytes; read back they are the same. */
static void errors_again(const int64_t *given, const char *kinds, const char *what)
{
    size_t length = 31 + 9 * 4 + 13 * strlen(kinds);
    struct mus_write_result w;
    fill();
    w = mus_write(90, 100, 0, NULL, 0, practice, 4, given, 4, bytes, sizeof bytes);
    SAME(w, what, 0, 0, length);
    for (size_t i = 0; kinds[i] != 0; i++) expect(bytes[18 + 9 * 4 + 13 * i] == (uint8_t) kinds[i], what);
    expect(mus_read(bytes, length, words, 64, values, 2048, errors, 2048).lines == 4 && memcmp(errors, given, 4 * sizeof *given) == 0, what);
}

/* What breaks a rule of U, or of E: a size of 0, one too large, a line of another before it. */
static void kinds_broken(void)
{
    static const uint8_t lines_and_u[] = {'L', 9, 0, 0, 0, 0, 0, 0, 0, 'U', 0, 0, 0, 0, 1, 0, 0, 0, 0, 0, 0, 0};
    uint8_t file[sizeof practice_file];
    struct mus_read_result r;
    memcpy(file, practice_file, sizeof file);
    file[72] = 'U';
    r = mus_read(file, sizeof file, words, 64, values, 2048, errors, 2048);
    SAME(r, "U for the first E", 0, 0, 90, 100, 0, 2, 4);
    expect(errors[0] == -7 && errors[1] == 0 && errors[2] == 10, "an understatement read");
    fill();
    file[72 + 12] = 0x80;
    r = mus_read(file, sizeof file, words, 64, values, 2048, errors, 2048);
    SAME(r, "read: 17 for a U above 2^63", 17, 72, 0, 0, 0, 0, 0);
    file[72] = 'E';
    file[72 + 5] = 0;
    r = mus_read(file, sizeof file, words, 64, values, 2048, errors, 2048);
    SAME(r, "read: 17 for an E of 2^63", 17, 72, 0, 0, 0, 0, 0);
    file[72 + 12] = 0;
    file[72] = 'U';
    r = mus_read(file, sizeof file, words, 64, values, 2048, errors, 2048);
    SAME(r, "read: 17 for a U of 0", 17, 72, 0, 0, 0, 0, 0);
    memcpy(file, practice_file, sizeof file);
    file[85] = 'U';
    file[85 + 1] = 0;
    r = mus_read(file, sizeof file, words, 64, values, 2048, errors, 2048);
    SAME(r, "read: 17 for a U on the line of an E", 17, 85, 0, 0, 0, 0, 0);
    memcpy(file + 36, lines_and_u, sizeof lines_and_u);
    r = mus_read(file, sizeof file, words, 64, values, 2048, errors, 2048);
    SAME(r, "read: 17 for what follows a U and is neither", 17, 36 + sizeof lines_and_u, 0, 0, 0, 0, 0);
    unchanged("a refused read changes nothing, with U");
}

static void read_cases(void)
{
    size_t length = sizeof practice_file;
    struct mus_read_result r;
    fill();
    r = mus_read(practice_file, length, words, 64, values, 2048, errors, 2048);
    SAME(r, "the practice file read", 0, 0, 90, 100, 0, 2, 4);
    expect(words[0] == 63 && words[1] == 25 && memcmp(values, practice, sizeof practice) == 0 && memcmp(errors, found, sizeof found) == 0, "its content");
    expect(memcmp(words + 2, words_before + 2, sizeof words - 16) == 0 && memcmp(values + 4, values_before + 4, sizeof values - 32) == 0
        && memcmp(errors + 4, errors_before + 4, sizeof errors - 32) == 0, "entries past it stay");
    fill();
    r = mus_read(practice_file, length, words, 63, values, 2048, errors, 2048);
    SAME(r, "read: 18 for words", 18, 64, 0, 0, 0, 0, 0);
    r = mus_read(practice_file, length, words, 64, values, 2047, errors, 2048);
    SAME(r, "read: 18 for values", 18, 2048, 0, 0, 0, 0, 0);
    r = mus_read(practice_file, length, words, 64, values, 2048, NULL, 0);
    SAME(r, "read: 18 for errors", 18, 2048, 0, 0, 0, 0, 0);
    r = mus_read(practice_file, length - 1, words, 64, values, 2048, errors, 2048);
    SAME(r, "read: 17 for a file cut short", 17, length - 13, 0, 0, 0, 0, 0);
    r = mus_read(NULL, 0, words, 64, values, 2048, errors, 2048);
    SAME(r, "read: 17 for no file", 17, 0, 0, 0, 0, 0, 0);
    r = mus_read(NULL, 0, NULL, 0, NULL, 0, NULL, 0);
    SAME(r, "read: 18 for no room at all", 18, 64, 0, 0, 0, 0, 0);
    unchanged("a refused read changes nothing");
}

static void write_cases(void)
{
    static const uint64_t lent[] = {63, 25}, most[] = {UINT64_MAX, 1, 0, 0};
    static const int64_t widest[] = {INT64_MAX, INT64_MIN, 0, -1};
    size_t length = sizeof practice_file;
    struct mus_write_result r;
    fill();
    r = mus_write(90, 100, 0, lent, 2, practice, 4, found, 4, bytes, sizeof bytes);
    SAME(r, "the practice file written", 0, 0, length);
    wrote(practice_file, length, "its bytes");
    fill();
    r = mus_write(90, 100, 0, lent, 2, practice, 4, found, 4, bytes, length);
    SAME(r, "written into the exact room", 0, 0, length);
    fill();
    r = mus_write(90, 100, 0, lent, 2, practice, 4, found, 4, bytes, length - 1);
    SAME(r, "write: 18", 18, length, 0);
    r = mus_write(90, 100, 0, lent, 2, practice, 4, found, 3, bytes, sizeof bytes);
    SAME(r, "write: 13", 13, 0, 0);
    r = mus_write(90, 100, 0, words, 65, practice, 4, found, 4, bytes, sizeof bytes);
    SAME(r, "write: 19 for words", 19, 0, 0);
    r = mus_write(90, 100, 0, lent, 2, values, 2049, errors, 2049, bytes, sizeof bytes);
    SAME(r, "write: 19 for lines", 19, 0, 0);
    r = mus_write(90, 100, 0, lent, 2, most, 4, none, 4, bytes, sizeof bytes);
    SAME(r, "write: 19 for the sum", 19, 0, 0);
    r = mus_write(90, 100, 0, NULL, 0, NULL, 0, NULL, 0, NULL, 0);
    SAME(r, "write: 18 without room", 18, 31, 0);
    unchanged("a refused write changes nothing");
    r = mus_write(90, 100, 0, NULL, 0, NULL, 0, NULL, 0, bytes, 31);
    SAME(r, "an empty content written", 0, 0, 31);
    errors_again(understated, "UEE", "an understatement written and read");
    errors_again(widest, "EUU", "the widest errors written and read");
}

#ifndef WITHOUT_SHEET
/* The page begins with the text, and no byte past it changed. */
static void printed(struct mus_sheet_result r, const uint8_t *page, const char *text, const char *what)
{
    size_t length = strlen(text), kept = length;
    while (kept < MUS_LONGEST_TEXT + 9 && page[kept] == 0xA5) kept++;
    SAME(r, what, 0, 0, length);
    expect(memcmp(page, text, length) == 0 && kept == MUS_LONGEST_TEXT + 9, what);
}

static void sheet_cases(void)
{
    static uint8_t page[MUS_LONGEST_TEXT + 9];
    uint8_t file[sizeof practice_file];
    struct mus_sheet_result r;
    size_t kept = 0;
    memset(page, 0xA5, sizeof page);
    r = mus_sheet(practice_file, sizeof practice_file, page, MUS_LONGEST_TEXT - 1);
    SAME(r, "sheet: 18", 18, MUS_LONGEST_TEXT, 0);
    r = mus_sheet(NULL, 0, NULL, 0);
    SAME(r, "sheet: 18 without a page", 18, MUS_LONGEST_TEXT, 0);
    while (kept < sizeof page && page[kept] == 0xA5) kept++;
    expect(kept == sizeof page, "a refused sheet changes nothing");
    r = mus_sheet(practice_file, sizeof practice_file, page, MUS_LONGEST_TEXT);
    printed(r, page, "plan 90 120 100 0 3\nsplit 40 3 120 0 0\nstart 25 2\ndrawn 0 30 7 10\ndrawn 2 40 10 10\ndrawn 3 20 5 10\nproject 0 30 3 0 0 30\njudge 107 137 inconclusive\n", "the practice sheet");
    memcpy(file, practice_file, sizeof file);
    file[72] = 'U';
    memset(page, 0xA5, sizeof page);
    r = mus_sheet(file, sizeof file, page, sizeof page);
    printed(r, page, "plan 90 120 100 0 3\nsplit 40 3 120 0 0\nstart 25 2\ndrawn 0 30 -7 -10\ndrawn 2 40 10 10\ndrawn 3 20 5 10\nproject 0 20 2 0 10 10\njudge 103 123 inconclusive\n", "the sheet with line 0 understated");
    memset(page, 0xA5, sizeof page);
    r = mus_sheet(NULL, 0, page, sizeof page);
    printed(r, page, "refused 17 0\n", "the sheet of no file");
}

/* After the byte of the blackboard method: the same sheet, the same place of a refusal, and a second such byte is the file's. */
static void board_sheet_cases(void)
{
    static uint8_t page[MUS_LONGEST_TEXT + 9];
    uint8_t input[2 + sizeof practice_file] = {0x42, 0x42};
    struct mus_sheet_result r;
    memcpy(input + 2, practice_file, sizeof practice_file);
    memset(page, 0xA5, sizeof page);
    r = mus_sheet(input + 1, 1 + sizeof practice_file, page, sizeof page);
    printed(r, page, "plan 90 120 100 0 3\nsplit 40 3 120 0 0\nstart 25 2\ndrawn 0 30 7 10\ndrawn 2 40 10 10\ndrawn 3 20 5 10\nproject 0 30 3 0 0 30\njudge 107 137 inconclusive\n", "the practice sheet by the blackboard method");
    memset(page, 0xA5, sizeof page);
    r = mus_sheet(input + 1, sizeof practice_file, page, sizeof page);
    printed(r, page, "refused 17 111\n", "a place does not count the byte");
    memset(page, 0xA5, sizeof page);
    r = mus_sheet(input, sizeof input, page, sizeof page);
    printed(r, page, "refused 17 0\n", "a second byte is the file's");
    memset(page, 0xA5, sizeof page);
    r = mus_sheet(input, 1, page, sizeof page);
    printed(r, page, "refused 17 0\n", "the byte alone");
}
#endif

int main(int argc, char **argv)
{
    size_cases();
    split_cases();
    many_lines();
    start_cases();
    draw_cases();
    project_cases();
    understated_cases();
    lines_cases();
    judge_cases();
    read_cases();
    kinds_broken();
    write_cases();
    strata_cases();
    season_cases();
    attribute_cases();
    findings_cases();
    team_cases();
    board_cases();
    salvage_cases();
    totals_cases();
#ifndef WITHOUT_SHEET
    sheet_cases();
    board_sheet_cases();
#endif
    if (argc == 3) run_vectors(argv[1], argv[2]);
    printf("driver: %llu passed, %llu failed\n", passed, failed);
    return failed != 0;
}
