/* Monetary unit sampling in whole cents, conservative approach: the operations of libmus.a, for x86-64 Linux.
 *
 * Every function is total: it takes any input and returns a struct by value. `refusal` is 0 where the call is accepted, and then
 * the figures are the answer. Otherwise `refusal` is a number of enum mus_refusal, `place` says where (a line, a byte, a count;
 * 0 where the refusal names none), every figure is 0 but those of a tally, which is handed back as it was, and every lent buffer keeps
 * its former content, but that a batch of findings (mus_post_all, mus_team_post_all) leaves the pairs before the refused one posted. Where
 * several refusals apply, the first is given in this order: 24, 27, 1, 22, 30, 2, 13; then 3 and 4 line by line; then 5 to 8, 23, 11; then 14
 * and 15 line by line; then 16; then 28. Of a control test: 1, 25, 26. Of findings: 24, 13; then 20, 14 and 15 pair by pair. Of
 * a salvage: 29, 18. Of totals beside the ledger: 2, 13, 21, 20, 3, 4, 18, 31.
 *
 * Money and numbers of draws are 64-bit, money in whole cents. Lines are numbered from 0. An error has a sign: above 0 the line is
 * overstated, too much was claimed; below 0 it is understated, too little; 0 is no error. A list is a pointer and a number of entries;
 * the pointer may be null where that number is 0. Otherwise it is aligned as its type and reaches that many entries. What a pointer
 * without const reaches overlaps nothing else that is lent to the same call, and no other thread touches it during the call.
 * No function keeps a pointer, allocates, or has a state of its own: calls from several threads do not disturb each other.
 *
 * Stack: the bytes that a call needs, with its return address and the room for its result. The split of a ledger goes by rounds,
 * and the draw, the projection, the judgement and the sheet split too, those by strata one stratum after the other: a call of r rounds, or of r
 * in the deepest stratum, needs the larger of the first two figures.
 * No ledger and no number of draws make more than MUS_MOST_ROUNDS rounds, which is proved; so the last figure is enough for every input.
 *
 *     call                one round   r rounds           90 rounds
 *     mus_size                   88
 *     mus_split                 160   160                     160
 *     mus_start                  56
 *     mus_draw                  136   136                     136
 *     mus_project               544   544                     544
 *     mus_project_lines         608   608                     608
 *     mus_board_draw            136   136                     136
 *     mus_board_project         496   496                     496
 *     mus_judge               1,512   1,512                 1,512
 *     mus_strata_plan        11,520   11,552               11,552
 *     mus_strata_draw        10,320   10,352               10,352
 *     mus_strata_project     13,264   13,296               13,296
 *     mus_post                  104
 *     mus_post_all              144
 *     mus_team_split            184   184                     184
 *     mus_team_draw             120   120                     120
 *     mus_team_post             112
 *     mus_team_post_all         160
 *     mus_totals_build           96
 *     mus_totals_total           40
 *     mus_totals_find            80
 *     mus_totals_change          88
 *     mus_totals_append          96
 *     mus_totals_check          112
 *     mus_tally_none            296
 *     mus_tally_add           1,512
 *     mus_attribute_size         40
 *     mus_attribute_bound        40
 *     mus_read                  408
 *     mus_write                 176
 *     mus_salvage               264
 *     mus_sheet              36,088   36,088               36,088
 *
 * It was measured on the library as `rt lib` in crates/mus makes it (docs/PERFORMANCE.md). For every input nine calls need more than
 * the header before this one said: mus_project, mus_project_lines, mus_board_project, mus_strata_plan, mus_strata_project,
 * mus_totals_build, mus_totals_check, mus_read and mus_sheet (docs/DESIGN-PASS.md). */
#ifndef MUS_H
#define MUS_H

#include <stddef.h>
#include <stdint.h>

#ifdef __cplusplus
extern "C" {
#endif

/* The largest sizes that are taken. */
#define MUS_MOST_LINES UINT64_C(1000000)
#define MUS_MOST_VALUE UINT64_C(10000000000000)
#define MUS_MOST_TOTAL UINT64_C(1000000000000000)
#define MUS_MOST_INTERVAL UINT64_C(1000000000000000)
#define MUS_MOST_ERRORS UINT64_C(63)
#define MUS_MOST_STRATA 32
#define MUS_MOST_JUDGEMENTS UINT64_C(1000000)

/* The rounds that a split makes at most, whatever the ledger and the number of draws. */
#define MUS_MOST_ROUNDS UINT64_C(90)

/* A working file: its largest counts, which are also the reader's least rooms, and the length of the longest legal one. */
#define MUS_MOST_WORDS UINT64_C(64)
#define MUS_MOST_FILE_LINES UINT64_C(2048)
#define MUS_LONGEST_FILE UINT64_C(45663)

/* Totals beside the ledger: the entries of the room that one total stands for, and the length of the summary beside a room. */
#define MUS_PER_BLOCK 256
#define MUS_SUMMARY_LENGTH(room_length) ((room_length) / MUS_PER_BLOCK + ((room_length) % MUS_PER_BLOCK != 0) + 1)

/* The room that a sheet is printed into: no text is longer. */
#define MUS_LONGEST_TEXT UINT64_C(184784)

/* Why a call is refused. The comment names the place where it is not 0. */
enum mus_refusal {
    MUS_ACCEPTED = 0,
    MUS_UNKNOWN_LEVEL = 1,          /* level is none of 99, 95, 90, 85, 80, 75, 70, 60, 50; of a control test none of 99, 95, 90 */
    MUS_TOO_MANY_LINES = 2,         /* more than MUS_MOST_LINES lines; also by an append */
    MUS_VALUE_TOO_LARGE = 3,        /* a book value above MUS_MOST_VALUE; the line */
    MUS_TOTAL_TOO_LARGE = 4,        /* the running total passes MUS_MOST_TOTAL; the line */
    MUS_TOTAL_ZERO = 5,             /* the total is 0 */
    MUS_TOLERANCE_OUT_OF_RANGE = 6, /* TE is 0 or above the total, or AE is above the total */
    MUS_TOLERANCE_SPENT = 7,        /* 100 x TE is at most AE x EF */
    MUS_NO_DRAWS = 8,               /* the number of draws is 0 */
    /* 9 is retired: every split leaves at least one draw */
    MUS_INTERVAL_TOO_LARGE = 10,    /* an interval handed in is above MUS_MOST_INTERVAL: mus_start alone */
    MUS_START_OUT_OF_RANGE = 11,    /* a start is not below its interval, or not 0 where there is none; the stratum, 0 without strata */
    MUS_NO_WORD_PASSES = 12,        /* no random word passes; the number of words lent */
    MUS_LENGTHS_DIFFER = 13,        /* marks, errors or amounts differ from the ledger in length, starts from counts, or errors found from lines; or the count of lines in use passes the room */
    MUS_ERROR_ABOVE_VALUE = 14,     /* the size of an error exceeds its line's value; the line, of findings the pair */
    MUS_ERROR_NOT_DRAWN = 15,       /* an error other than 0 on a line not drawn and not full; the line, of findings the pair */
    MUS_TOO_MANY_ERRORS = 16,       /* more than MUS_MOST_ERRORS drawn lines are overstated */
    MUS_FILE_BREAKS_RULE = 17,      /* the working file breaks a rule; the byte */
    MUS_ROOM_TOO_SHORT = 18,        /* a lent file buffer, page or room is too short; the bytes or entries needed */
    MUS_NO_LEGAL_FILE = 19,         /* the content has no legal file */
    MUS_LINE_NOT_THERE = 20,        /* a line is not in the ledger; of findings the pair; or it is not in use, or a cent is not below the grand total */
    MUS_WRONG_SUMMARY_LENGTH = 21,  /* the summary beside a room has the wrong length */
    MUS_STRATA_OUT_OF_RANGE = 22,   /* there are no strata, or more than MUS_MOST_STRATA */
    MUS_TOO_FEW_DRAWS = 23,         /* there are fewer draws than strata with book value */
    MUS_UNKNOWN_TEAM = 24,          /* the team is neither A nor B */
    MUS_UNKNOWN_TOLERANCE = 25,     /* the tolerance of a control test is none of 1, 3, 5, 7, 10 percent */
    MUS_TOO_MANY_EXCEPTIONS = 26,   /* a control test has more than 10 exceptions */
    MUS_TOO_MANY_JUDGEMENTS = 27,   /* the tally holds MUS_MOST_JUDGEMENTS already, refused ones included */
    MUS_SUM_TOO_LARGE = 28,         /* a sum of the tally would pass 64 bits */
    MUS_NO_WHOLE_PLAN = 29,         /* no whole record P stands first in a file that is salvaged */
    MUS_COUNTS_DO_NOT_ADD = 30,     /* the counts of the strata do not add to the ledger's lines */
    MUS_WRONG_FIGURE = 31           /* by the summary's figures no line is found, or one would fall below 0 or pass 64 bits; the block, the grand total one more */
};

/* What a mark says of its line; of two teams on one ledger, what a team's own two bits of it say. */
enum mus_mark { MUS_NOT_DRAWN = 0, MUS_DRAWN = 1, MUS_FULL = 2 };

/* Two teams on one ledger: A has bits 0 and 1 of each mark, B bits 2 and 3. */
enum mus_team { MUS_TEAM_A = 0x41, MUS_TEAM_B = 0x42 };

/* What a judgement says: above where the projected error exceeds TE, below only where the upper limit is less than TE, and otherwise
 * inconclusive; so a limit equal to TE is inconclusive. 0 is none of them: the call was refused. */
enum mus_verdict { MUS_BELOW = 1, MUS_INCONCLUSIVE = 2, MUS_ABOVE = 3 };

struct mus_size_result {
    uint64_t refusal, place;
    uint64_t draws; /* the number of draws */
};

struct mus_split_result {
    uint64_t refusal, place;
    uint64_t interval;      /* the final interval J, at most the total; 0 where nothing is sampled */
    uint64_t draws_left;    /* the draws that the full lines leave: at least 1 */
    uint64_t sampled_total; /* the total of the lines that are not full */
    uint64_t full_lines;    /* the number of full lines */
    uint64_t full_total;    /* their total */
};

struct mus_start_result {
    uint64_t refusal, place;
    uint64_t start; /* the start, below the interval */
    uint64_t words; /* how many words were read, the accepted one included */
};

struct mus_draw_result {
    uint64_t refusal, place;
    uint64_t drawn; /* how many lines are marked MUS_DRAWN */
};

struct mus_project_result {
    uint64_t refusal, place;
    uint64_t full;          /* the overstatements of the full lines, added */
    uint64_t sampled;       /* the projected amounts of the overstated drawn lines, added */
    uint64_t m;             /* the number of overstated drawn lines */
    uint64_t under_full;    /* the sizes of the full lines' understatements, added */
    uint64_t under_sampled; /* the sizes of the understated drawn lines' projected amounts, added */
    int64_t net;            /* full + sampled - under_full - under_sampled, with its sign */
};

struct mus_judge_result {
    uint64_t refusal, place;
    uint64_t full, sampled, m, under_full, under_sampled; /* the projection */
    int64_t net;                                          /* the projection's too: precision, limit and verdict do not see it */
    uint64_t precision;
    uint64_t upper_limit; /* full + sampled + precision: of overstatements alone */
    uint64_t verdict;     /* one of enum mus_verdict */
};

/* A stratum's share of the draws and its own split: mus_split_result of its lines and its draws. All 0 where it has no book value. */
struct mus_stratum_plan {
    uint64_t draws;
    uint64_t interval, draws_left, sampled_total, full_lines, full_total;
};

struct mus_strata_plan_result {
    uint64_t refusal, place;
    uint64_t strata;                                  /* how many strata there are */
    struct mus_stratum_plan stratum[MUS_MOST_STRATA]; /* a row for each; past the last all 0 */
};

struct mus_strata_draw_result {
    uint64_t refusal, place;
    uint64_t drawn; /* how many lines of the whole ledger are marked MUS_DRAWN */
};

/* A stratum's draws, its interval, and both sums of each kind of error: those of mus_project_result of its lines, its draws and its start. */
struct mus_stratum_projection {
    uint64_t draws, interval;
    uint64_t full, sampled, under_full, under_sampled;
};

/* No limit and no verdict: the conservative precision does not go with strata. */
struct mus_strata_project_result {
    uint64_t refusal, place;
    uint64_t over;                                          /* the projected overstatements of all strata: full and sampled, added */
    uint64_t under;                                         /* the same of the understatements, as a size */
    int64_t net;                                            /* over - under, with its sign */
    uint64_t strata;                                        /* how many strata there are */
    struct mus_stratum_projection stratum[MUS_MOST_STRATA]; /* a row for each; past the last all 0 */
};

/* The tally of a season: three counts a level, below, inconclusive, above, for the levels 99, 95, 90, 85, 80, 75, 70, 60, 50 in this order; so
 * counts[3 * row + verdict - 1]. worst is the place of the judgement whose limit is the largest share of its book, compared exactly, the
 * earliest on a tie: places from 0, refused ones counted; all three are 0 while there is none. */
struct mus_tally {
    uint64_t counts[27];
    uint64_t books;       /* the books judged, added */
    uint64_t limits;      /* their upper limits, added */
    uint64_t refused;     /* judgements that were refused */
    uint64_t added;       /* all that were added, refused ones included */
    uint64_t worst;       /* the place of the largest share */
    uint64_t worst_limit; /* its limit */
    uint64_t worst_book;  /* its book */
};

struct mus_tally_result {
    uint64_t refusal, place;
    struct mus_tally tally; /* with the judgement added; where the call is refused, the tally that was handed in */
};

/* What the attribute job aid says of a control test. */
struct mus_attribute_size_result {
    uint64_t refusal, place;
    uint64_t items; /* the sample size */
};

struct mus_attribute_bound_result {
    uint64_t refusal, place;
    uint64_t hundredths; /* the upper bound, in hundredths of a percent */
};

struct mus_post_result {
    uint64_t refusal, place; /* the place of 20, 14 and 15 is the position of the pair, from 0: as many stay posted */
    uint64_t posted;         /* how many pairs were posted */
};

struct mus_totals_build_result {
    uint64_t refusal, place;
    uint64_t total; /* the grand total */
};

struct mus_totals_total_result {
    uint64_t refusal, place;
    uint64_t total; /* the grand total as it stands */
};

struct mus_totals_find_result {
    uint64_t refusal, place;
    uint64_t line; /* the line that holds the cent */
};

struct mus_totals_change_result {
    uint64_t refusal, place;
    uint64_t total; /* the new grand total */
};

struct mus_totals_append_result {
    uint64_t refusal, place;
    uint64_t count; /* the new count of lines in use, for the caller to keep */
};

struct mus_totals_check_result {
    uint64_t refusal, place;
    uint64_t wrong; /* 1 where a figure is wrong, 0 where the summary agrees */
    uint64_t block; /* the first block whose figure is wrong; the grand total counts as one more */
};

struct mus_read_result {
    uint64_t refusal, place;
    uint64_t level, te, ae;
    uint64_t words; /* how many entries of words were written */
    uint64_t lines; /* how many entries of values, and of errors, were written */
};

struct mus_write_result {
    uint64_t refusal, place;
    uint64_t length; /* how many bytes were written */
};

/* old is 1 where a whole old Z stands directly after the run, right or wrong, and then the last two figures are its own; else all three are 0. */
struct mus_salvage_result {
    uint64_t refusal, place;
    uint64_t length;    /* the length of the mended file */
    uint64_t kept;      /* how many records were kept: P and each of the run, Z apart */
    uint64_t dropped;   /* how many bytes after the run were dropped, the old Z apart */
    uint64_t lines;     /* the new count of L */
    uint64_t sum;       /* their sum */
    uint64_t old;       /* whether there is an old Z */
    uint64_t old_lines; /* its count */
    uint64_t old_sum;   /* its sum */
};

struct mus_sheet_result {
    uint64_t refusal, place;
    uint64_t length; /* how many bytes were printed */
};

/* The number of draws for a level in percent, a total, the tolerable error TE and the anticipated error AE. Refusals 1, 4, 5, 6, 7. */
struct mus_size_result mus_size(uint8_t level, uint64_t total, uint64_t te, uint64_t ae);

/* The split of a ledger for n draws into full lines, above the final interval, and the others. Writes a mark for each line, MUS_FULL
 * or MUS_NOT_DRAWN. Refusals 2, 13, 3, 4, 5, 8. */
struct mus_split_result mus_split(const uint64_t *ledger, size_t ledger_length, uint64_t n, uint8_t *marks, size_t marks_length);

/* The random start below an interval: the low bits of the first random word that gives a value below it. An interval of 0 or 1
 * reads no word. Refusals 10, 12. */
struct mus_start_result mus_start(uint64_t interval, const uint64_t *words, size_t words_length);

/* The draw of a ledger for n draws from a start. Writes a mark for each line, MUS_NOT_DRAWN, MUS_DRAWN or MUS_FULL. Refusals
 * 2, 13, 3, 4, 5, 8, 11. */
struct mus_draw_result mus_draw(const uint64_t *ledger, size_t ledger_length, uint64_t n, uint64_t start, uint8_t *marks, size_t marks_length);

/* The projection of the errors that were found: an entry for each line, from -value to value, 0 where there is none. A full line counts with its
 * error, a drawn line with size x interval / value, rounded up in size, and the error's sign. Overstatements and understatements are added
 * apart. Refusals 2, 13, 3, 4, 5, 8, 11, 14, 15. */
struct mus_project_result mus_project(const uint64_t *ledger, size_t ledger_length, uint64_t n, uint64_t start, const int64_t *errors, size_t errors_length);

/* The blackboard method: the draw and the projection by walking. For each drawing point lines are counted off from the first until the point is
 * covered, so a call takes points x lines steps; it is for a class, and for a check. Every answer, mark and refusal is that of mus_draw and of
 * mus_project, which is proved. Refusals 2, 13, 3, 4, 5, 8, 11; the projection 14 and 15 besides. */
struct mus_draw_result mus_board_draw(const uint64_t *ledger, size_t ledger_length, uint64_t n, uint64_t start, uint8_t *marks, size_t marks_length);
struct mus_project_result mus_board_project(const uint64_t *ledger, size_t ledger_length, uint64_t n, uint64_t start, const int64_t *errors, size_t errors_length);

/* The same projection, line by line: answers what mus_project answers, and writes for each line what it projects into amounts, which has an
 * entry for each line: its error where it is full, its amount with the error's sign where it is drawn, 0 elsewhere. They add to net. A
 * program never has to multiply by the interval itself. Refusals 2, 13 (for errors or amounts), 3, 4, 5, 8, 11, 14, 15. */
struct mus_project_result mus_project_lines(const uint64_t *ledger, size_t ledger_length, uint64_t n, uint64_t start, const int64_t *errors, size_t errors_length, int64_t *amounts, size_t amounts_length);

/* The judgement: the projection with its precision at a level, its upper limit, and the verdict against the tolerable error TE. All three
 * see overstatements alone: an understatement never helps a verdict. Refusals 1, 2, 13, 3, 4, 5, 6, 8, 11, 14, 15, 16. */
struct mus_judge_result mus_judge(uint8_t level, const uint64_t *ledger, size_t ledger_length, uint64_t n, uint64_t start, const int64_t *errors, size_t errors_length, uint64_t te);

/* A ledger by strata, as programmes: counts has the number of lines of each, in ledger order, from 1 to MUS_MOST_STRATA entries that add to the
 * ledger's lines; 0 lines are allowed. Each stratum is its own ledger with its own split and start; lines and errors keep their numbers in
 * the whole ledger, in what is lent and in the place of a refusal. The n draws are shared out: one for each stratum with book value, of the others
 * to each the whole part of what its book value asks for, and those left over one each to the largest remainders, the lower stratum first on a
 * tie. So an auditor plans, draws a start below each interval (mus_start), draws, and projects what was found.
 *
 * The plan: each stratum's draws and split. Refusals 22, 30, 2, 3, 4, 5, 8, 23. */
struct mus_strata_plan_result mus_strata_plan(const uint64_t *ledger, size_t ledger_length, const uint64_t *counts, size_t counts_length, uint64_t n);

/* The draw of each stratum from its own start; starts has one for each, 0 where the stratum has no book value. Writes a mark for each line of the
 * ledger. Refusals 22, 30, 2, 13 (for marks or starts), 3, 4, 5, 8, 23, 11 with the first wrong stratum. */
struct mus_strata_draw_result mus_strata_draw(const uint64_t *ledger, size_t ledger_length, const uint64_t *counts, size_t counts_length, uint64_t n, const uint64_t *starts, size_t starts_length, uint8_t *marks, size_t marks_length);

/* The projection of each stratum, and over all of them. Refusals 22, 30, 2, 13 (for errors or starts), 3, 4, 5, 8, 23, 11 with the first wrong
 * stratum, 14, 15. */
struct mus_strata_project_result mus_strata_project(const uint64_t *ledger, size_t ledger_length, const uint64_t *counts, size_t counts_length, uint64_t n, const uint64_t *starts, size_t starts_length, const int64_t *errors, size_t errors_length);

/* Posts one finding, a line of the whole ledger and the error found there, from -value to value: errors has the entry of the line changed to it and
 * no other. marks is as mus_draw or mus_strata_draw wrote it; a mark counts as it stands, and any but MUS_DRAWN and MUS_FULL means not drawn. An
 * error of 0 clears a finding, on any line. The ledger is not judged: a projection does that. Refusals 13 (for marks or errors), 20, 14, 15; the
 * errors then stay as they were. */
struct mus_post_result mus_post(const uint64_t *ledger, size_t ledger_length, const uint8_t *marks, size_t marks_length, int64_t *errors, size_t errors_length, uint64_t line, int64_t error);

/* Posts findings by the batch: lines[k] and found[k] are the pair at position k. errors is left as mus_post leaves it, called for the pairs one
 * after the other; so a later pair for a line replaces the earlier. At the first pair that is refused the call stops, and place is its position: the
 * pairs before it stay posted, and it and those after it change nothing. So errors is then what the first place pairs leave, and a
 * caller may mend the pair and post the rest from there. Refusals 13 (for marks or errors, or where lines and found differ in length; nothing is
 * posted then); then of each pair in turn 20, 14, 15. */
struct mus_post_result mus_post_all(const uint64_t *ledger, size_t ledger_length, const uint8_t *marks, size_t marks_length, int64_t *errors, size_t errors_length, const uint64_t *lines, size_t lines_length, const int64_t *found, size_t found_length);

/* Two teams draw from one ledger, each for its own fund, and keep their marks in one table: team is one of enum mus_team. Each call is the plain one
 * on the acting team's own bits of the marks, as if marks held these alone: a mark from 0 to 3, mark & 3 for A and mark >> 2 & 3 for B. Its answer
 * and what it leaves follow from the ledger, the numbers and the own bits; the other team's bits and bits 4 to 7 are neither read nor
 * changed. So the teams' calls may be made in either order, one after the other: a table that is lent to one call is not lent to another at the same
 * time. Projection and judgement take no marks: each team hands its own draws, start and errors to mus_project and mus_judge.
 *
 * A team's split, and its draw: the own bits of each mark become what mus_split or mus_draw would write. Refusals 24, then those of
 * the plain call; marks then stays as it was, in every bit. */
struct mus_split_result mus_team_split(uint8_t team, const uint64_t *ledger, size_t ledger_length, uint64_t n, uint8_t *marks, size_t marks_length);
struct mus_draw_result mus_team_draw(uint8_t team, const uint64_t *ledger, size_t ledger_length, uint64_t n, uint64_t start, uint8_t *marks, size_t marks_length);

/* One finding of a team, and a batch of them, by its own bits: own bits of 3 mean not drawn, as 0 does. errors is the team's own. Refusals 24, which
 * posts nothing, then those of the plain call. */
struct mus_post_result mus_team_post(uint8_t team, const uint64_t *ledger, size_t ledger_length, const uint8_t *marks, size_t marks_length, int64_t *errors, size_t errors_length, uint64_t line, int64_t error);
struct mus_post_result mus_team_post_all(uint8_t team, const uint64_t *ledger, size_t ledger_length, const uint8_t *marks, size_t marks_length, int64_t *errors, size_t errors_length, const uint64_t *lines, size_t lines_length, const int64_t *found, size_t found_length);

/* Totals beside the ledger: room has entries of which the first count are lines in use; the others are not looked at. summary has
 * MUS_SUMMARY_LENGTH(room_length) entries: the total of the lines in use of each MUS_PER_BLOCK entries of the room, then the grand total. While it agrees
 * with its ledger, total and line are those of the ledger alone, and a change or an append keeps it so; otherwise they follow from its figures as
 * they stand. A change and an append judge the new value and the new grand total alone, and neither they nor mus_totals_total walk ledger or summary.
 *
 * Builds the summary: every entry of it is written. Refusals 2, 13, 21, 3, 4. */
struct mus_totals_build_result mus_totals_build(const uint64_t *room, size_t room_length, size_t count, uint64_t *summary, size_t summary_length);

/* The grand total as it stands. Refusals 2, 13, 21. */
struct mus_totals_total_result mus_totals_total(const uint64_t *room, size_t room_length, size_t count, const uint64_t *summary, size_t summary_length);

/* The line of the whole, unsplit ledger that holds a cent, counted from 0: block by block by the summary, then line by line in that block. Refusals
 * 2, 13, 21, 20, 31 with the block in which no line is found, or with the number of blocks. */
struct mus_totals_find_result mus_totals_find(const uint64_t *room, size_t room_length, size_t count, const uint64_t *summary, size_t summary_length, uint64_t cent);

/* Changes a line in use to a new value, its block's figure and the grand total with it. Refusals 2, 13, 21, 20, 3, 4, 31: the line's block first. */
struct mus_totals_change_result mus_totals_change(uint64_t *room, size_t room_length, size_t count, uint64_t *summary, size_t summary_length, size_t line, uint64_t value);

/* Appends a line with a value after those in use; the next call is made with the count that it answers. Refusals 2 (also where count is
 * MUS_MOST_LINES), 13, 21, 3, 4, 18 with the entries needed, 31: the line's block first. */
struct mus_totals_append_result mus_totals_append(uint64_t *room, size_t room_length, size_t count, uint64_t *summary, size_t summary_length, uint64_t value);

/* Whether the summary agrees with its ledger. Refusals 2, 13, 21, 3, 4. */
struct mus_totals_check_result mus_totals_check(const uint64_t *room, size_t room_length, size_t count, const uint64_t *summary, size_t summary_length);

/* The tally before the first judgement. */
struct mus_tally mus_tally_none(void);

/* The tally with one judgement more: its level, the total of its book, its upper limit and its verdict, one of enum mus_verdict. Any other
 * verdict stands for a judgement that was refused: so level, book and what mus_judge returned can be handed on as they are. One that was refused is
 * counted in refused and added alone, and meets only 27. Any tally is taken, made by this call or not. Refusals 27, 1, 5 for a book
 * of 0, 28 where a sum or a count would pass 64 bits. */
struct mus_tally_result mus_tally_add(struct mus_tally tally, uint8_t level, uint64_t book, uint64_t limit, uint64_t verdict);

/* The sample size of a control test, for attributes and not for money: the least number of items, so that a sample without an exception says with
 * the level's confidence that less than the tolerance are exceptions. level is 90, 95 or 99 and tolerance 1, 3, 5, 7 or 10, both in
 * percent. Refusals 1, 25. */
struct mus_attribute_size_result mus_attribute_size(uint8_t level, uint8_t tolerance);

/* The upper bound on the exceptions among all items, where a sample of that size has so many: the least number of hundredths of a percent at
 * which so few exceptions have a chance of at most 100 - level percent. Refusals 1, 25, 26. */
struct mus_attribute_bound_result mus_attribute_bound(uint8_t level, uint8_t tolerance, uint64_t exceptions);

/* Reads a working file. words has room for at least MUS_MOST_WORDS entries, values and errors for at least MUS_MOST_FILE_LINES; entries
 * past those read stay as they were. A line with a record E gets its error, one with U its size below 0, and one with neither gets 0. Refusals
 * 18, 17. */
struct mus_read_result mus_read(const uint8_t *file, size_t file_length, uint64_t *words, size_t words_length, uint64_t *values, size_t values_length, int64_t *errors, size_t errors_length);

/* Writes the working file of a content. errors has an entry for each value: one above 0 becomes a record E, one below 0 a record U.
 * MUS_LONGEST_FILE bytes are room for any file, and bytes past the file stay as they were. Refusals 13, 19, 18. */
struct mus_write_result mus_write(uint8_t level, uint64_t te, uint64_t ae, const uint64_t *words, size_t words_length, const uint64_t *values, size_t values_length, const int64_t *errors, size_t errors_length, uint8_t *file, size_t file_length);

/* Salvages a working file that was cut on transfer, or that carries a Z made before its last lines: the longest run of whole records from the start
 * that the rules of a file allow goes to out, with a right Z after it. A legal file comes out with the same bytes, and the result always
 * reads. file may have any length; MUS_LONGEST_FILE bytes of out are room for every result, and bytes past it stay as they were. Refusals
 * 29, 18 with the bytes needed. */
struct mus_salvage_result mus_salvage(const uint8_t *file, size_t file_length, uint8_t *out, size_t out_length);

/* Prints the sheet of a working file: the desk program's whole text, or its line "refused", number and place where the file or a step
 * is refused. Where the input begins with the byte 0x42 the file is what follows it, and the draw and the projection go by the blackboard method: the
 * text is the same, places too, and it takes points x lines steps. Only the first byte is taken so. page has room for at least
 * MUS_LONGEST_TEXT bytes; bytes past the text stay as they were. Refusal 18, for the page alone. */
struct mus_sheet_result mus_sheet(const uint8_t *input, size_t input_length, uint8_t *page, size_t page_length);

#ifdef __cplusplus
}
#endif
#endif
