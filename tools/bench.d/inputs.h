/* The inputs of tools/bench's rows: ledgers, errors, contents of a working file. For bench.c alone. */
#ifndef INPUTS_H
#define INPUTS_H

#include <stdint.h>
#include <string.h>

#include "mus.h"

#define MOST 1000000

static uint64_t ledger[MOST], words[64], values_room[2048], words_room[64];
static int64_t errors[MOST], amounts[MOST], errors_room[2048];
static uint8_t marks[MOST], file[MUS_LONGEST_FILE];
static size_t lines, file_length = sizeof file;
static uint64_t draws, start, te, file_te = 20000, file_ae = 4000, file_words = 64, rounds, seed = 1;

/* The ledger in strata of equal counts, the last of which has what is left over. */
static uint64_t counts[MUS_MOST_STRATA], starts[MUS_MOST_STRATA];
static size_t strata;

static uint64_t next_random(uint64_t below)
{
    seed = seed * UINT64_C(6364136223846793005) + UINT64_C(1442695040888963407);
    return (seed >> 33) % below;
}

/* Lines of 10 to 100 in currency, a draw for every hundred of them: none is full, so that the split makes one round. */
static void plain_ledger(void)
{
    for (size_t i = 0; i < lines; i++) ledger[i] = 1000 + next_random(9001);
    draws = lines / 100;
    start = 1234;
}

/* The same in larger money, so that the interval has 36 bits and error x interval may pass 64. */
static void wide_ledger(void)
{
    plain_ledger();
    for (size_t i = 0; i < lines; i++) ledger[i] *= 100000;
}

/* Lines of the largest value and one draw, so that the interval is the largest too; all of the drawn line is an error. */
static void widest_ledger(void)
{
    lines = 100;
    for (size_t i = 0; i < lines; i++) ledger[i] = MUS_MOST_VALUE;
    errors[0] = ledger[0];
    draws = te = 1;
    start = 0;
}

/* The plain ledger with a few long lines, each of which is above the interval of one round and not of the round before: so many rounds. */
static void ledger_of_rounds(unsigned rounds)
{
    uint64_t added = 0, former = 0;
    plain_ledger();
    draws = 3 + (rounds - 1);
    for (unsigned k = 1; k < rounds; k++) ledger[lines / rounds * k] = 0;
    for (size_t i = 0; i < lines; i++) added += ledger[i];
    for (unsigned k = 1; k < rounds; k++) {
        uint64_t left = 2 + k, longer = added / left + 1, enough = (left + 1) * former;
        if (enough > added && enough - added > longer) longer = enough - added;
        ledger[lines / rounds * k] = longer;
        added += longer;
        former = longer;
    }
}

/* A ledger of at most so many lines that makes many rounds: made from its last line backwards, where each round's lines are the least
 * that the round before leaves alone. */
static uint64_t deep_ledger(void)
{
    size_t most = lines;
    uint64_t added = 1, former = 1;
    ledger[0] = lines = draws = rounds = 1;
    for (;;) {
        uint64_t more = (draws + 1) / 2, value = added / draws + 1, least = ((draws + more) * former - added + more - 1) / more;
        if (value < former) value = former;
        if (value < least) value = least;
        while (value <= (added + more * value) / (draws + more)) value++;
        if (lines + more > most || added + more * value > MUS_MOST_TOTAL) return added;
        for (uint64_t i = 0; i < more; i++) ledger[lines++] = value;
        added += more * value;
        draws += more;
        former = value;
        rounds++;
    }
}

/* So many of the drawn lines have an error, too much claimed. */
static void find_errors(unsigned count)
{
    mus_draw(ledger, lines, draws, start, marks, lines);
    for (size_t i = 0; i < lines && count > 0; i++) {
        if (marks[i] != MUS_DRAWN) continue;
        errors[i] = (int64_t) (1 + next_random(ledger[i]));
        count--;
    }
    te = 1;
    memset(marks, 0, lines);
}

/* Every second error is an understatement. */
static void turn_errors(void)
{
    int turned = 0;
    for (size_t i = 0; i < lines; i++) {
        if (errors[i] == 0) continue;
        if (turned) errors[i] = -errors[i];
        turned = !turned;
    }
}

/* The longest content: every line has an error, every second one an understatement. */
static void longest_content(void)
{
    lines = MUS_MOST_FILE_LINES;
    for (size_t i = 0; i < 64; i++) words[i] = next_random(UINT64_C(0x7FFFFFFF));
    for (size_t i = 0; i < lines; i++) {
        ledger[i] = 1000 + next_random(9001);
        errors[i] = (int64_t) (1 + next_random(1000));
    }
    turn_errors();
}

/* The ledger in so many strata, each from the same start. */
static void in_strata(size_t how_many)
{
    strata = how_many;
    for (size_t h = 0; h < strata; h++) {
        counts[h] = h + 1 < strata ? lines / strata : lines - (strata - 1) * (lines / strata);
        starts[h] = start;
    }
}

/* Twenty of the lines that the strata's draws take have an error, every second one an understatement; most drawn lines are passed over, so that they lie in
 * many strata. */
static void strata_errors(void)
{
    unsigned count = 20;
    mus_strata_draw(ledger, lines, counts, strata, draws, starts, strata, marks, lines);
    for (size_t i = 0; i < lines && count > 0; i++) {
        if (marks[i] != MUS_DRAWN || next_random(lines) >= 4000) continue;
        errors[i] = (int64_t) (1 + next_random(ledger[i]));
        count--;
    }
    turn_errors();
    memset(marks, 0, lines);
}

#endif
