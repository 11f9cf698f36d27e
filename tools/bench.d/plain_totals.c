/* Totals beside the ledger in plain C. */
#include "plain.h"

struct refused { uint64_t number, place; };

static uint64_t blocks_of(size_t room_length)
{
    return MUS_SUMMARY_LENGTH(room_length) - 1;
}

/* 2, 13 and 21. */
static uint64_t judge_shape(uint64_t most, size_t room_length, size_t count, size_t summary_length)
{
    if (count > most) return 2;
    if (count > room_length) return 13;
    return summary_length == blocks_of(room_length) + 1 ? 0 : 21;
}

/* 3 and 4, line by line. */
static struct refused judge_lines(const uint64_t *lines, size_t count, uint64_t *total)
{
    struct refused why = {0, 0};
    uint64_t sum = 0;
    for (size_t i = 0; i < count; i++) {
        uint64_t value = lines[i];
        if (value > MUS_MOST_VALUE) { why.number = 3; why.place = i; return why; }
        sum += value;
        if (sum > MUS_MOST_TOTAL) { why.number = 4; why.place = i; return why; }
    }
    *total = sum;
    return why;
}

static size_t end_of(size_t from, size_t count)
{
    return from >= count ? from : count - from < MUS_PER_BLOCK ? count : from + MUS_PER_BLOCK;
}

static uint64_t block_total(const uint64_t *lines, size_t count, size_t from)
{
    uint64_t total = 0;
    size_t end = end_of(from, count);
    for (size_t i = from; i < end; i++) total += lines[i];
    return total;
}

struct mus_totals_build_result mus_totals_build(const uint64_t *room, size_t room_length, size_t count, uint64_t *summary, size_t summary_length)
{
    struct mus_totals_build_result r = {0, 0, 0};
    struct refused why;
    uint64_t blocks = blocks_of(room_length), number = judge_shape(MUS_MOST_LINES, room_length, count, summary_length), total = 0;
    if (number != 0) REFUSE(r, number, 0);
    why = judge_lines(room, count, &total);
    if (why.number != 0) REFUSE(r, why.number, why.place);
    for (uint64_t block = 0; block < blocks; block++) summary[block] = block_total(room, count, block * MUS_PER_BLOCK);
    summary[blocks] = total;
    r.total = total;
    return r;
}

struct mus_totals_total_result mus_totals_total(const uint64_t *room, size_t room_length, size_t count, const uint64_t *summary, size_t summary_length)
{
    struct mus_totals_total_result r = {0, 0, 0};
    uint64_t number = judge_shape(MUS_MOST_LINES, room_length, count, summary_length);
    (void) room;
    if (number != 0) REFUSE(r, number, 0);
    r.total = summary[summary_length - 1];
    return r;
}

struct mus_totals_find_result mus_totals_find(const uint64_t *room, size_t room_length, size_t count, const uint64_t *summary, size_t summary_length, uint64_t cent)
{
    struct mus_totals_find_result r = {0, 0, 0};
    uint64_t blocks = blocks_of(room_length), number = judge_shape(MUS_MOST_LINES, room_length, count, summary_length), block = 0;
    if (number != 0) REFUSE(r, number, 0);
    if (cent >= summary[blocks]) REFUSE(r, 20, 0);
    while (block < blocks && cent >= summary[block]) cent -= summary[block++];
    if (block == blocks) REFUSE(r, 31, blocks);
    for (size_t i = block * MUS_PER_BLOCK, end = end_of(i, count); i < end; i++) {
        if (cent < room[i]) {
            r.line = i;
            return r;
        }
        cent -= room[i];
    }
    REFUSE(r, 31, block);
}

/* 3 and 4 of a new value. */
static uint64_t judge_value(uint64_t value, uint64_t old, uint64_t grand)
{
    if (value > MUS_MOST_VALUE) return 3;
    return grand > old && (grand - old > MUS_MOST_TOTAL || grand - old + value > MUS_MOST_TOTAL) ? 4 : 0;
}

/* Whether a figure without the old value and with the new one falls below 0 or passes 64 bits. */
static int is_wrong(uint64_t figure, uint64_t old, uint64_t value)
{
    return old <= figure ? value > UINT64_MAX - (figure - old) : value < old - figure;
}

struct mus_totals_change_result mus_totals_change(uint64_t *room, size_t room_length, size_t count, uint64_t *summary, size_t summary_length, size_t line, uint64_t value)
{
    struct mus_totals_change_result r = {0, 0, 0};
    uint64_t blocks = blocks_of(room_length), block = line / MUS_PER_BLOCK, number = judge_shape(MUS_MOST_LINES, room_length, count, summary_length), old;
    if (number != 0) REFUSE(r, number, 0);
    if (line >= count) REFUSE(r, 20, 0);
    old = room[line];
    number = judge_value(value, old, summary[blocks]);
    if (number != 0) REFUSE(r, number, line);
    if (is_wrong(summary[block], old, value)) REFUSE(r, 31, block);
    if (is_wrong(summary[blocks], old, value)) REFUSE(r, 31, blocks);
    room[line] = value;
    summary[block] += value - old;
    r.total = summary[blocks] += value - old;
    return r;
}

struct mus_totals_append_result mus_totals_append(uint64_t *room, size_t room_length, size_t count, uint64_t *summary, size_t summary_length, uint64_t value)
{
    struct mus_totals_append_result r = {0, 0, 0};
    uint64_t blocks = blocks_of(room_length), block = count / MUS_PER_BLOCK, number = judge_shape(MUS_MOST_LINES - 1, room_length, count, summary_length);
    if (number != 0) REFUSE(r, number, 0);
    number = judge_value(value, 0, summary[blocks]);
    if (number != 0) REFUSE(r, number, count);
    if (count == room_length) REFUSE(r, 18, count + 1);
    if (is_wrong(summary[block], 0, value)) REFUSE(r, 31, block);
    if (is_wrong(summary[blocks], 0, value)) REFUSE(r, 31, blocks);
    room[count] = value;
    summary[block] += value;
    summary[blocks] += value;
    r.count = count + 1;
    return r;
}

struct mus_totals_check_result mus_totals_check(const uint64_t *room, size_t room_length, size_t count, const uint64_t *summary, size_t summary_length)
{
    struct mus_totals_check_result r = {0, 0, 0, 0};
    struct refused why;
    uint64_t blocks = blocks_of(room_length), number = judge_shape(MUS_MOST_LINES, room_length, count, summary_length), total = 0;
    if (number != 0) REFUSE(r, number, 0);
    why = judge_lines(room, count, &total);
    if (why.number != 0) REFUSE(r, why.number, why.place);
    for (uint64_t block = 0; block <= blocks; block++) {
        if (summary[block] != (block < blocks ? block_total(room, count, block * MUS_PER_BLOCK) : total)) {
            r.wrong = 1;
            r.block = block;
            return r;
        }
    }
    return r;
}
