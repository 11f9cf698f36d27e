/* The passes over a ledger, or over a part of one, after its split: the marks, the walk of the projection. */
#ifndef PLAIN_LEDGER_H
#define PLAIN_LEDGER_H

#include "plain_split.h"

/* Writes the marks of a draw; how many lines are drawn. Not inlined: the loop is then an instruction a line shorter. */
static __attribute__((noinline)) uint64_t mark_lines(const uint64_t *ledger, size_t lines, uint64_t interval, uint64_t start, uint8_t *marks)
{
    uint64_t next = start, drawn = 0; /* how far the next point lies from the line's first cent */
    for (size_t i = 0; i < lines; i++) {
        uint64_t value = ledger[i];
        if (value > interval) {
            marks[i] = 2;
        } else if (next < value) {
            marks[i] = 1;
            drawn++;
            next += interval - value;
        } else {
            marks[i] = 0;
            next -= value;
        }
    }
    return drawn;
}

/* error x interval / value, rounded up, where the product may pass 64 bits: the quotient is at most the interval. */
static uint64_t wide_amount(uint64_t error, uint64_t interval, uint64_t value)
{
    return (uint64_t) (((unsigned __int128) error * interval + (value - 1)) / value);
}

static inline uint64_t amount_of(uint64_t error, uint64_t interval, uint64_t value)
{
    if (error == 0) return 0;
    return interval >> 32 == 0 ? (error * interval + (value - 1)) / value : wide_amount(error, interval, value);
}

/* Checks and adds the lines, overstatements and understatements apart; keeps the amounts of overstated drawn lines, at most so many. */
static struct refused gather(const uint64_t *ledger, size_t lines, uint64_t interval, uint64_t start, const int64_t *errors, uint64_t *amounts, size_t most, struct mus_project_result *r)
{
    struct refused why = {0, 0};
    uint64_t next = start, full = 0, sampled = 0, m = 0, under_full = 0, under_sampled = 0;
    for (size_t i = 0; i < lines; i++) {
        uint64_t value = ledger[i];
        int64_t error = errors[i];
        if (error != 0) {
            uint64_t size = size_of(error);
            if (size > value) { why.number = 14; why.place = i; return why; }
            if (value > interval) {
                if (error < 0) under_full += size; else full += size;
            } else if (next < value) {
                uint64_t amount = amount_of(size, interval, value);
                if (error < 0) {
                    under_sampled += amount;
                } else {
                    if (m < most) amounts[m] = amount;
                    sampled += amount;
                    m++;
                }
            } else {
                why.number = 15;
                why.place = i;
                return why;
            }
        }
        if (value <= interval) next = next < value ? next + (interval - value) : next - value;
    }
    r->full = full;
    r->sampled = sampled;
    r->m = m;
    r->under_full = under_full;
    r->under_sampled = under_sampled;
    r->net = (int64_t) (full + sampled) - (int64_t) (under_full + under_sampled);
    return why;
}

#endif
