/* What the parts of the test driver share. */
#ifndef DRIVER_H
#define DRIVER_H

/* Counts a test; prints what failed. */
void expect(int passed, const char *what);

/* A result as its numbers, in the order of its fields. */
#define SAME(result, what, ...) do { \
    const uint64_t wanted[] = {__VA_ARGS__}; \
    expect(sizeof (result) == sizeof wanted && memcmp(&(result), wanted, sizeof wanted) == 0, what); \
} while (0)

/* The operations by strata: worked cases, each refusal, and what a refused call leaves. */
void strata_cases(void);

/* The tally of a season: a worked one, each refusal, ties, places, and tallies made by hand. */
void season_cases(void);

/* The attribute job aid: table 1, the worked case, each refusal. */
void attribute_cases(void);

/* Findings by the batch: worked batches, each refusal, and what a call leaves. */
void findings_cases(void);

/* Two teams on one ledger: both on one table in either order, every byte as a team and as a mark, each refusal, and what a refused call leaves. */
void team_cases(void);
/* The blackboard method: worked cases, each refusal, and both methods at every start. */
void board_cases(void);

/* The salvage of a working file: cut, with an old Z, each refusal, and what a refused call leaves. */
void salvage_cases(void);

/* Totals beside the ledger: a worked room, each refusal, every cent beside a scan, and a summary kept right. */
void totals_cases(void);

/* Stored cases of these operations, for run_vectors. */
void strata_plan_case(void);
void strata_draw_case(void);
void strata_project_case(void);
void tally_case(void);
void post_case(void);
void post_all_case(void);
void team_split_case(void);
void team_draw_case(void);
void team_post_case(void);
void team_post_all_case(void);
void board_draw_case(void);
void board_project_case(void);
void salvage_case(void);
void totals_build_case(void);
void totals_total_case(void);
void totals_find_case(void);
void totals_change_case(void);
void totals_append_case(void);
void totals_check_case(void);

/* Runs each case of one file through the C interface and compares its line with the other file's: docs/VECTORS.md. */
void run_vectors(const char *cases, const char *answers);

#endif
