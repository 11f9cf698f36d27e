/* The stored cases of the tally of a season: `first` that were refused, then a judgement for every four words: level, book, limit, verdict. */
#include <string.h>

#include "driver.h"
#include "feed.h"
#include "mus.h"

/* A result in the numbers of its fields. */
#define FIGURES (sizeof (struct mus_tally_result) / sizeof (uint64_t))

static uint64_t told[FIGURES * 2048];

void tally_case(void)
{
    struct mus_tally_result r;
    size_t judgements = words_length / 4;
    memset(&r, 0, sizeof r);
    r.tally = mus_tally_none();
    for (uint64_t k = 0; k < first; k++) r.tally = mus_tally_add(r.tally, 0, 0, 0, 0).tally;
    for (size_t k = 0; k < judgements && k < 2048; k++) {
        const uint64_t *judgement = words + 4 * k;
        struct mus_tally before = r.tally;
        r = mus_tally_add(r.tally, (uint8_t) judgement[0], judgement[1], judgement[2], judgement[3]);
        if (r.refusal != 0) expect(memcmp(&r.tally, &before, sizeof before) == 0, "a refused judgement leaves the tally");
        memcpy(told + FIGURES * k, &r, sizeof r);
    }
    say(" tally");
    if (!say_refusal(r.refusal, r.place, NULL, 0)) {
        say_number(r.tally.books);
        say_number(r.tally.limits);
        say_number(r.tally.refused);
        say_number(r.tally.added);
        say_number(r.tally.worst);
    }
    say(" rows");
    say_list(told, FIGURES * judgements);
    say(" lent");
    say_list(words, words_length);
}
