/* The passes over a ledger, or over a part of one, up to its split: judging, and the rounds. */
#ifndef PLAIN_SPLIT_H
#define PLAIN_SPLIT_H

#include "plain.h"

struct refused { uint64_t number, place; };

static struct refused judge_ledger(const uint64_t *ledger, size_t lines, size_t beside, uint64_t *total)
{
    struct refused why = {0, 0};
    uint64_t sum = 0;
    if (lines > MUS_MOST_LINES) { why.number = 2; return why; }
    if (beside != lines) { why.number = 13; return why; }
    for (size_t i = 0; i < lines; i++) {
        uint64_t value = ledger[i];
        if (value > MUS_MOST_VALUE) { why.number = 3; why.place = i; return why; }
        sum += value;
        if (sum > MUS_MOST_TOTAL) { why.number = 4; why.place = i; return why; }
    }
    if (sum == 0) why.number = 5;
    *total = sum;
    return why;
}

struct figures { uint64_t interval, draws_left, sampled_total; };

static struct refused split_total(const uint64_t *ledger, size_t lines, uint64_t n, uint64_t total, struct figures *figures)
{
    struct refused why = {0, 0};
    uint64_t draws = n, rest = total, interval;
    if (n == 0) { why.number = 8; return why; }
    for (;;) {
        uint64_t full = 0, full_total = 0;
        interval = rest / draws;
        for (size_t i = 0; i < lines; i++) {
            uint64_t value = ledger[i];
            if (value > interval) { full++; full_total += value; }
        }
        if (n - full == draws) break;
        draws = n - full;
        rest = total - full_total;
    }
    figures->interval = interval;
    figures->draws_left = draws;
    figures->sampled_total = rest;
    return why;
}

#endif
