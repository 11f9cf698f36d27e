/* The salvage of a working file through C: cut at every byte, with an old Z, each refusal, and what a refused call leaves; and a stored case. */
#include <stdint.h>
#include <string.h>

#include "driver.h"
#include "feed.h"
#include "mus.h"

#define ROOM 400

/* P 90, 100, 0; W 63; L 30, 12; U (0, 5); Z 2, 42. */
static const uint8_t whole[] = {
    'P', 90, 100, 0, 0, 0, 0, 0, 0, 0, 0, 0, 0, 0, 0, 0, 0, 0,
    'W', 63, 0, 0, 0, 0, 0, 0, 0,
    'L', 30, 0, 0, 0, 0, 0, 0, 0,
    'L', 12, 0, 0, 0, 0, 0, 0, 0,
    'U', 0, 0, 0, 0, 5, 0, 0, 0, 0, 0, 0, 0,
    'Z', 2, 0, 0, 0, 42, 0, 0, 0, 0, 0, 0, 0,
};

/* Where each record ends. */
static const size_t ends[] = {18, 27, 36, 45, 58};

static uint8_t out[ROOM];

static void fill_out(void)
{
    memset(out, 0xA5, sizeof out);
}

/* The buffer begins with these bytes, and no byte past them changed. */
static void mended(const uint8_t *bytes_wanted, size_t length, const char *what)
{
    size_t kept = length;
    while (kept < ROOM && out[kept] == 0xA5) kept++;
    expect(memcmp(out, bytes_wanted, length) == 0 && kept == ROOM, what);
}

/* What was mended reads, and a second salvage leaves it as it is. */
static void again(struct mus_salvage_result r)
{
    static uint64_t read_words[64], read_values[2048];
    static int64_t read_errors[2048];
    uint8_t file_now[ROOM];
    memcpy(file_now, out, sizeof file_now);
    struct mus_read_result read = mus_read(file_now, (size_t) r.length, read_words, 64, read_values, 2048, read_errors, 2048);
    expect(read.refusal == 0 && read.lines == r.lines, "what was mended reads");
    fill_out();
    struct mus_salvage_result second = mus_salvage(file_now, (size_t) r.length, out, sizeof out);
    SAME(second, "a second salvage keeps all", 0, 0, r.length, r.kept, 0, r.lines, r.sum, 1, r.lines, r.sum);
    mended(file_now, (size_t) r.length, "and leaves the bytes");
}

/* Cut at every byte: the records before it are kept. */
static void cut(void)
{
    for (size_t length = 18; length <= sizeof whole; length++) {
        uint64_t kept = 0, is_whole = length == sizeof whole;
        fill_out();
        while (kept < 5 && ends[kept] <= length) kept++;
        struct mus_salvage_result r = mus_salvage(whole, length, out, sizeof out);
        uint64_t lines = (ends[2] <= length) + (ends[3] <= length), sum = (ends[2] <= length) * 30 + (ends[3] <= length) * 12;
        SAME(r, "cut", 0, 0, ends[kept - 1] + 13, kept, is_whole ? 0 : length - ends[kept - 1], lines, sum, is_whole, is_whole * 2, is_whole * 42);
        expect(memcmp(out, whole, ends[kept - 1]) == 0 && out[ends[kept - 1]] == 'Z', "its records are those of the input");
        again(r);
    }
}

/* A Z of before, with lines added after it, or before it. */
static void old_z(void)
{
    uint8_t file_now[sizeof whole + 13];
    memcpy(file_now, whole, 36);
    memcpy(file_now + 36, whole + 58, 13); /* Z 2, 42 after one line */
    memcpy(file_now + 49, whole + 36, 9);
    fill_out();
    struct mus_salvage_result r = mus_salvage(file_now, 58, out, sizeof out);
    SAME(r, "a line added after Z", 0, 0, 49, 3, 9, 1, 30, 1, 2, 42);
    again(r);
    memcpy(file_now, whole, sizeof whole);
    file_now[59] = 1;
    fill_out();
    r = mus_salvage(file_now, sizeof whole, out, sizeof out);
    SAME(r, "a Z that counts one line", 0, 0, 71, 5, 0, 2, 42, 1, 1, 42);
    mended(whole, sizeof whole, "gets a right one");
    memcpy(file_now, whole, sizeof whole);
    memcpy(file_now + sizeof whole, whole + 58, 13);
    fill_out();
    r = mus_salvage(file_now, sizeof file_now, out, sizeof out);
    SAME(r, "a second Z is dropped", 0, 0, 71, 5, 13, 2, 42, 1, 2, 42);
    mended(whole, sizeof whole, "and the file is as before");
}

static void refused(void)
{
    struct mus_salvage_result r;
    fill_out();
    r = mus_salvage(whole, 17, out, sizeof out);
    SAME(r, "salvage: 29 for a P cut short", 29, 0, 0, 0, 0, 0, 0, 0, 0, 0);
    r = mus_salvage(whole + 18, sizeof whole - 18, out, sizeof out);
    SAME(r, "salvage: 29 for another kind", 29, 0, 0, 0, 0, 0, 0, 0, 0, 0);
    r = mus_salvage(NULL, 0, NULL, 0);
    SAME(r, "salvage: 29 before 18", 29, 0, 0, 0, 0, 0, 0, 0, 0, 0);
    r = mus_salvage(whole, sizeof whole, out, sizeof whole - 1);
    SAME(r, "salvage: 18", 18, sizeof whole, 0, 0, 0, 0, 0, 0, 0, 0);
    r = mus_salvage(whole, 40, NULL, 0);
    SAME(r, "salvage: 18 without room", 18, 49, 0, 0, 0, 0, 0, 0, 0, 0);
    mended(whole, 0, "a refused salvage changes nothing");
    r = mus_salvage(whole, sizeof whole, out, sizeof whole);
    SAME(r, "room to the byte", 0, 0, sizeof whole, 5, 0, 2, 42, 1, 2, 42);
    mended(whole, sizeof whole, "a legal file comes out as it is");
}

void salvage_cases(void)
{
    cut();
    old_z();
    refused();
}

void salvage_case(void)
{
    size_t length = byte_list(file);
    byte_room();
    struct mus_salvage_result r = mus_salvage(file, length, bytes, room_length);
    say(" salvage");
    say_answer(r.refusal, r.place, &r.length, 5);
    say(" rows");
    say_list(&r.old, 3);
    say(" lent");
    say_bytes(file, length);
    say_bytes(bytes, room_length);
}
