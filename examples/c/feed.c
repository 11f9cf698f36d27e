/* A stored case: reading its fields, and making the line of its answer. docs/VECTORS.md says how both are written. */
#include <string.h>

#include "feed.h"

#define CASE_ROOM 65536
#define MOST_ENTRIES 1000001
#define DIGEST UINT64_C(4294967291)

static uint8_t input[CASE_ROOM]; /* one case */
static size_t input_length, at;
static int broken; /* a case ends too early, or asks for more than there is room for */

uint64_t operation, first, second, third;
uint8_t level;
size_t room_length, ledger_length, errors_length, words_length;
uint64_t ledger[MOST_ENTRIES], words[MOST_ENTRIES];
int64_t errors[MOST_ENTRIES], amounts[MOST_ENTRIES];
uint8_t file[MOST_ENTRIES], bytes[MOST_ENTRIES];
static size_t latest_room;

static char line[1000], wanted[1001];
static size_t line_length;

/* A number of so many bytes, the lowest first. */
static uint64_t number(int count)
{
    uint64_t n = 0;
    if (at + (size_t) count > input_length) {
        broken = 1;
        return 0;
    }
    for (int i = 0; i < count; i++) n |= (uint64_t) input[at + (size_t) i] << (8 * i);
    at += (size_t) count;
    return n;
}

static size_t length_field(void)
{
    uint64_t n = number(4);
    if (n > MOST_ENTRIES) {
        broken = 1;
        return 0;
    }
    return (size_t) n;
}

static void change(uint64_t *to, size_t count)
{
    for (uint64_t changes = number(2); changes > 0 && !broken; changes--) {
        uint64_t place = number(4), entry = number(8);
        if (place < count) to[place] = entry; else broken = 1;
    }
}

static size_t list(uint64_t *to)
{
    size_t entries = length_field();
    if (entries == 0) return 0;
    uint64_t x = number(4), low = number(8), step = number(4), most = number(4), scale = number(4);
    for (size_t i = 0; i < entries; i++) {
        x = (x * 1664525 + 1013904223) & UINT64_C(0xFFFFFFFF);
        to[i] = low + i * step + x / 256 % (most + 1) * scale;
    }
    change(to, entries);
    return entries;
}

size_t byte_list(uint8_t *to)
{
    uint64_t form = number(1);
    size_t count = length_field();
    if (form == 0) {
        for (size_t i = 0; i < count && !broken; i++) to[i] = (uint8_t) number(1);
        return count;
    }
    if (count > latest_room) {
        broken = 1;
        return 0;
    }
    memcpy(to, bytes, count);
    for (uint64_t changes = number(2); changes > 0 && !broken; changes--) {
        uint64_t place = number(4), byte = number(1);
        if (place < count) to[place] = (uint8_t) byte; else broken = 1;
    }
    return count;
}

/* A lent room of bytes, with the content that it has before each call. */
void byte_room(void)
{
    for (size_t i = 0; i < room_length; i++) bytes[i] = (uint8_t) (17 + i % 199);
    latest_room = room_length;
}

void mark_room(void)
{
    for (size_t i = 0; i < room_length; i++) bytes[i] = (uint8_t) (i < words_length ? words[i] : 0);
    latest_room = room_length;
}

/* What every case has, but for the file of a read or a salvage. */
static void fields(void)
{
    operation = number(1);
    level = (uint8_t) number(1);
    first = number(8);
    second = number(8);
    third = number(8);
    room_length = length_field();
    ledger_length = list(ledger);
    errors_length = list((uint64_t *) errors);
    words_length = list(words);
}

int next_case(FILE *cases)
{
    uint8_t length[4];
    if (fread(length, 1, 4, cases) < 4) broken = 1;
    else input_length = length[0] | (size_t) length[1] << 8 | (size_t) length[2] << 16 | (size_t) length[3] << 24;
    if (broken || input_length == 0) return 0;
    if (input_length > CASE_ROOM || fread(input, 1, input_length, cases) < input_length) broken = 1;
    at = 0;
    if (!broken) fields();
    return !broken;
}

int case_is_sound(void)
{
    return !broken;
}

int case_is_read(void)
{
    return !broken && at == input_length;
}

void say_place(uint64_t place)
{
    line_length = (size_t) snprintf(line, sizeof line, "%llu", (unsigned long long) place);
}

void say(const char *text)
{
    size_t length = strlen(text);
    if (line_length + length < sizeof line) memcpy(line + line_length, text, length);
    line_length += length;
}

void say_number(uint64_t n)
{
    char text[24];
    snprintf(text, sizeof text, " %llu", (unsigned long long) n);
    say(text);
}

void say_signed(int64_t n)
{
    char text[24];
    snprintf(text, sizeof text, " %lld", (long long) n);
    say(text);
}

/* The net is the sixth figure where it is one, and the only one with a sign. */
#define NET 5

int say_refusal(uint64_t refusal, uint64_t place, const uint64_t *figures, int count)
{
    if (refusal != 0) {
        say(" refused");
        say_number(refusal);
        say_number(place);
        for (int i = 0; i < count; i++) {
            if (figures[i] != 0) say(" (a figure that is not 0)");
        }
        return 1;
    }
    if (place != 0) say(" (a place that is not 0)");
    return 0;
}

void say_answer(uint64_t refusal, uint64_t place, const uint64_t *figures, int count)
{
    if (say_refusal(refusal, place, figures, count)) return;
    for (int i = 0; i < count; i++) {
        if (i == NET) say_signed((int64_t) figures[i]); else say_number(figures[i]);
    }
}

void say_list(const uint64_t *entries, size_t count)
{
    uint64_t h = 1;
    for (size_t i = 0; i < count; i++) h = (h * 31 + entries[i] % DIGEST) % DIGEST;
    say_number(h);
}

void say_errors(const int64_t *entries, size_t count)
{
    say_list((const uint64_t *) entries, count);
}

void say_bytes(const uint8_t *entries, size_t count)
{
    uint64_t h = 1;
    for (size_t i = 0; i < count; i++) h = (h * 31 + entries[i]) % DIGEST;
    say_number(h);
}

int same_line(FILE *answers)
{
    return line_length < sizeof line && fgets(wanted, (int) sizeof wanted, answers) != NULL && strlen(wanted) == line_length + 1
        && wanted[line_length] == '\n' && memcmp(wanted, line, line_length) == 0;
}
