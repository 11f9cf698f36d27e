/* A stored case: its fields, and the line that is made of its answer. */
#ifndef FEED_H
#define FEED_H

#include <stddef.h>
#include <stdint.h>
#include <stdio.h>

/* The fields of a case. A list is an operation's input, or a room that is lent with this content: a read's, or that for the amounts. Errors and
 * amounts are stored as their 64-bit patterns. */
extern uint64_t operation, first, second, third;
extern uint8_t level;
extern size_t room_length, ledger_length, errors_length, words_length;
extern uint64_t ledger[], words[];
extern int64_t errors[], amounts[];
extern uint8_t file[], bytes[]; /* `bytes` is the room of bytes that was lent last */

/* Reads the next case: false where there is no more, and where it is not there or too long. */
int next_case(FILE *cases);

/* False once a case ended too early, or asked for more than there is room for. */
int case_is_sound(void);

/* Whether the case was read to its end. */
int case_is_read(void);

/* The bytes that stand after the fields; how many they are. */
size_t byte_list(uint8_t *to);

/* A lent room of bytes, with the content that it has before each call. */
void byte_room(void);

/* The same with the first words as its content. */
void mark_room(void);

/* The line begins anew, with the case's number. */
void say_place(uint64_t place);
void say(const char *text);
void say_number(uint64_t n);
void say_signed(int64_t n);

/* The refusal, or nothing: whether the call is refused. Its figures are then 0. */
int say_refusal(uint64_t refusal, uint64_t place, const uint64_t *figures, int count);

/* The figures of an accepted call, or the refusal. */
void say_answer(uint64_t refusal, uint64_t place, const uint64_t *figures, int count);

/* Digests. */
void say_list(const uint64_t *entries, size_t count);
void say_errors(const int64_t *entries, size_t count);
void say_bytes(const uint8_t *entries, size_t count);

/* The line made is the next line of the answers. */
int same_line(FILE *answers);

#endif
