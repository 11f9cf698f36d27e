/* The stored cases of findings by the batch: the words are the marks, as many as the room has bytes, then the lines, `first` of them, then the
 * errors found. One finding has its line in `first` and the pattern of its error in `second`. */
#include <string.h>

#include "driver.h"
#include "feed.h"
#include "mus.h"

static int64_t singly[1000001];

/* The digests of what was lent. */
static void say_lent(void)
{
    say(" lent");
    say_list(ledger, ledger_length);
    say_errors(errors, errors_length);
    say_list(words, words_length);
    say_bytes(bytes, room_length);
}

void post_case(void)
{
    mark_room();
    struct mus_post_result r = mus_post(ledger, ledger_length, bytes, room_length, errors, errors_length, first, (int64_t) second);
    say(" post");
    say_answer(r.refusal, r.place, &r.posted, 1);
    say_lent();
}

/* The pairs one by one leave the same errors, and the first refused one is that of the batch. */
static void post_singly(const struct mus_post_result *r, const uint64_t *lines, const int64_t *found, size_t pairs)
{
    struct mus_post_result one = {0, 0, 1};
    size_t k = 0;
    while (k < pairs && one.refusal == 0) {
        one = mus_post(ledger, ledger_length, bytes, room_length, singly, errors_length, lines[k], found[k]);
        if (one.refusal == 0) k++;
    }
    expect(one.refusal == r->refusal && (one.refusal == 0 ? r->posted : r->place) == k, "a batch answers as its pairs do, posted singly");
    expect(memcmp(singly, errors, errors_length * sizeof *errors) == 0, "a batch leaves what its pairs leave, posted singly");
}

void post_all_case(void)
{
    mark_room();
    const uint64_t *lines = words + room_length;
    const int64_t *found = (const int64_t *) (lines + first);
    size_t found_length = words_length - room_length - (size_t) first;
    memcpy(singly, errors, errors_length * sizeof *errors);
    struct mus_post_result r = mus_post_all(ledger, ledger_length, bytes, room_length, errors, errors_length, lines, (size_t) first, found, found_length);
    if (r.refusal != MUS_LENGTHS_DIFFER) post_singly(&r, lines, found, found_length);
    say(" postall");
    say_answer(r.refusal, r.place, &r.posted, 1);
    say_lent();
}
