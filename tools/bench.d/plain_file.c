/* The working file in plain C: its reader, its writer, and the salvage of one that was cut. */
#include "plain.h"

static uint64_t four_at(const uint8_t *at)
{
    return (uint64_t) at[0] | (uint64_t) at[1] << 8 | (uint64_t) at[2] << 16 | (uint64_t) at[3] << 24;
}

static uint64_t eight_at(const uint8_t *at)
{
    return four_at(at) | four_at(at + 4) << 32;
}

/* The error of E or U: whether its line may come next. Pass 1 stores it. */
static inline int take_error(int pass, int64_t error, uint64_t line, uint64_t lines, uint64_t *next_line, int64_t *errors)
{
    if (line < *next_line || line >= lines) return 0;
    if (pass == 1) {
        for (uint64_t between = *next_line; between < line; between++) errors[between] = 0;
        errors[line] = error;
    }
    *next_line = line + 1;
    return 1;
}

struct mus_read_result mus_read(const uint8_t *file, size_t length, uint64_t *words, size_t words_length, uint64_t *values, size_t values_length, int64_t *errors, size_t errors_length)
{
    struct mus_read_result r = {0, 0, 0, 0, 0, 0, 0};
    if (words_length < MUS_MOST_WORDS) REFUSE(r, 18, MUS_MOST_WORDS);
    if (values_length < MUS_MOST_FILE_LINES || errors_length < MUS_MOST_FILE_LINES) REFUSE(r, 18, MUS_MOST_FILE_LINES);
    if (length < 18 || file[0] != 'P') REFUSE(r, 17, 0);
    /* pass 0 checks the rules, pass 1 stores */
    for (int pass = 0; pass < 2; pass++) {
        uint64_t count = 0, lines = 0, sum = 0, next_line = 0;
        size_t at = 18;
        for (;;) {
            size_t left = length - at;
            if (left < 9) REFUSE(r, 17, at);
            uint8_t kind = file[at];
            if (kind == 'W') {
                if (lines != 0 || count >= MUS_MOST_WORDS) REFUSE(r, 17, at);
                if (pass == 1) words[count] = eight_at(file + at + 1);
                count++;
                at += 9;
                continue;
            }
            if (kind == 'L') {
                uint64_t value = eight_at(file + at + 1);
                if (next_line != 0 || lines >= MUS_MOST_FILE_LINES || value > UINT64_MAX - sum) REFUSE(r, 17, at);
                if (pass == 1) values[lines] = value;
                lines++;
                sum += value;
                at += 9;
                continue;
            }
            if (left < 13) REFUSE(r, 17, at);
            uint64_t first = four_at(file + at + 1), second = eight_at(file + at + 5);
            if (kind == 'E') {
                if ((int64_t) second <= 0 || !take_error(pass, (int64_t) second, first, lines, &next_line, errors)) REFUSE(r, 17, at);
                at += 13;
                continue;
            }
            if (kind == 'U') { /* below 0 exactly where the size is from 1 to 2^63 */
                int64_t error = (int64_t) (0 - second);
                if (error >= 0 || !take_error(pass, error, first, lines, &next_line, errors)) REFUSE(r, 17, at);
                at += 13;
                continue;
            }
            if (kind != 'Z' || first != lines || second != sum) REFUSE(r, 17, at);
            if (left != 13) REFUSE(r, 17, at + 13);
            if (pass == 1) {
                while (next_line < lines) errors[next_line++] = 0;
                r.words = count;
                r.lines = lines;
            }
            break;
        }
    }
    r.level = file[1];
    r.te = eight_at(file + 2);
    r.ae = eight_at(file + 10);
    return r;
}

static uint8_t *put_four(uint8_t *to, uint64_t number)
{
    to[0] = (uint8_t) number;
    to[1] = (uint8_t) (number >> 8);
    to[2] = (uint8_t) (number >> 16);
    to[3] = (uint8_t) (number >> 24);
    return to + 4;
}

static uint8_t *put_eight(uint8_t *to, uint64_t number)
{
    return put_four(put_four(to, number), number >> 32);
}

struct mus_write_result mus_write(uint8_t level, uint64_t te, uint64_t ae, const uint64_t *words, size_t words_length, const uint64_t *values, size_t values_length, const int64_t *errors, size_t errors_length, uint8_t *file, size_t file_length)
{
    struct mus_write_result r = {0, 0, 0};
    uint64_t sum = 0, found = 0;
    if (errors_length != values_length) REFUSE(r, 13, 0);
    if (words_length > MUS_MOST_WORDS || values_length > MUS_MOST_FILE_LINES) REFUSE(r, 19, 0);
    for (size_t i = 0; i < values_length; i++) {
        if (values[i] > UINT64_MAX - sum) REFUSE(r, 19, 0);
        sum += values[i];
    }
    for (size_t i = 0; i < errors_length; i++) found += errors[i] != 0;
    uint64_t needed = 31 + 9 * words_length + 9 * values_length + 13 * found;
    if (file_length < needed) REFUSE(r, 18, needed);
    uint8_t *to = file;
    *to++ = 'P';
    *to++ = level;
    to = put_eight(put_eight(to, te), ae);
    for (size_t i = 0; i < words_length; i++) { *to++ = 'W'; to = put_eight(to, words[i]); }
    for (size_t i = 0; i < values_length; i++) { *to++ = 'L'; to = put_eight(to, values[i]); }
    for (size_t i = 0; i < errors_length; i++) {
        int64_t error = errors[i];
        if (error > 0) { *to++ = 'E'; to = put_eight(put_four(to, i), (uint64_t) error); }
        else if (error < 0) { *to++ = 'U'; to = put_eight(put_four(to, i), 0 - (uint64_t) error); }
    }
    *to++ = 'Z';
    put_eight(put_four(to, values_length), sum);
    r.length = needed;
    return r;
}

/* What a run has counted, and where it ends. */
struct run {
    uint64_t words, lines, sum, kept;
    size_t at;
};

/* The records from P on that are allowed, up to Z or to one that is not. */
static struct run run_of(const uint8_t *file, size_t length)
{
    uint64_t words = 0, lines = 0, sum = 0, next_line = 0, kept = 1;
    size_t at = 18;
    for (;; kept++) {
        size_t left = length - at;
        if (left < 9) break;
        uint8_t kind = file[at];
        if (kind == 'W') {
            if (lines != 0 || words >= MUS_MOST_WORDS) break;
            words++;
            at += 9;
            continue;
        }
        if (kind == 'L') {
            uint64_t value = eight_at(file + at + 1);
            if (next_line != 0 || lines >= MUS_MOST_FILE_LINES || value > UINT64_MAX - sum) break;
            lines++;
            sum += value;
            at += 9;
            continue;
        }
        if (left < 13 || (kind != 'E' && kind != 'U')) break;
        uint64_t size = eight_at(file + at + 5);
        if (size == 0 || size > (uint64_t) INT64_MAX + (kind == 'U') || !take_error(0, 0, four_at(file + at + 1), lines, &next_line, NULL)) break;
        at += 13;
    }
    struct run run = {words, lines, sum, kept, at};
    return run;
}

struct mus_salvage_result mus_salvage(const uint8_t *file, size_t length, uint8_t *out, size_t out_length)
{
    struct mus_salvage_result r = {0, 0, 0, 0, 0, 0, 0, 0, 0, 0};
    if (length < 18 || file[0] != 'P') REFUSE(r, 29, 0);
    struct run run = run_of(file, length);
    size_t left = length - run.at;
    if (out_length < run.at + 13) REFUSE(r, 18, run.at + 13);
    if (left >= 13 && file[run.at] == 'Z') {
        r.old = 1;
        r.old_lines = four_at(file + run.at + 1);
        r.old_sum = eight_at(file + run.at + 5);
    }
    for (size_t i = 0; i < run.at; i++) out[i] = file[i];
    out[run.at] = 'Z';
    put_eight(put_four(out + run.at + 1, run.lines), run.sum);
    r.length = run.at + 13;
    r.kept = run.kept;
    r.dropped = left - 13 * r.old;
    r.lines = run.lines;
    r.sum = run.sum;
    return r;
}
