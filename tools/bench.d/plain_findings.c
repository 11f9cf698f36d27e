/* Findings by the batch in plain C. */
#include "plain.h"

/* Why a pair is refused, or 0; else it is posted. */
static uint64_t post_pair(const uint64_t *ledger, size_t lines, const uint8_t *marks, int64_t *errors, uint64_t line, int64_t error)
{
    uint64_t size = size_of(error);
    if (line >= lines) return 20;
    if (size > ledger[line]) return 14;
    if (error != 0 && marks[line] != MUS_DRAWN && marks[line] != MUS_FULL) return 15;
    errors[line] = error;
    return 0;
}

struct mus_post_result mus_post(const uint64_t *ledger, size_t lines, const uint8_t *marks, size_t marks_length, int64_t *errors, size_t errors_length, uint64_t line, int64_t error)
{
    struct mus_post_result r = {0, 0, 0};
    if (marks_length != lines || errors_length != lines) REFUSE(r, 13, 0);
    r.refusal = post_pair(ledger, lines, marks, errors, line, error);
    r.posted = r.refusal == 0;
    return r;
}

struct mus_post_result mus_post_all(const uint64_t *ledger, size_t lines, const uint8_t *marks, size_t marks_length, int64_t *errors, size_t errors_length, const uint64_t *posted_lines, size_t lines_length, const int64_t *found, size_t found_length)
{
    struct mus_post_result r = {0, 0, 0};
    if (marks_length != lines || errors_length != lines || lines_length != found_length) REFUSE(r, 13, 0);
    for (size_t k = 0; k < lines_length; k++) {
        uint64_t why = post_pair(ledger, lines, marks, errors, posted_lines[k], found[k]);
        if (why != 0) REFUSE(r, why, k);
    }
    r.posted = lines_length;
    return r;
}
