/*
 * gindrazoma: tables of rules, plans over them, sameness and prime forms.
 *
 * A job is a number below the table's job count. A move is a number 0 to 65,535. A rule says that a
 * job may make a move and then becomes 0 to 4 jobs. A plan is a row of jobs, one byte a job; its first job
 * moves and the others wait. The norm of a plan is the fewest moves that lead to the empty plan.
 * Two plans are the same if they are bisimilar. docs/FORMAT.md describes the image of a table; images written
 * before version 2.0.0, in which moves were 0 to 255, mean what they meant.
 *
 * EVERY CALL
 *  - gives back one signed number: a refusal is its number (enum gindrazoma_refusal) made negative;
 *    any other answer is 0 or more and is named at the call.
 *  - makes its checks in this order: 1 of the workspace; 2 to 7 of the image, each over all its blocks, and where
 *    there are two images, all of them of the left one and then of the right one; 15 of the two tables; 12 and
 *    13 of the alike list; 8 and 9 of the plans, each of the left and then of the right one; 11 of the log; 10 of
 *    the output.
 *    The first that fails is the answer. A call makes only the checks of what it was given.
 *  - keeps nothing: no memory is allocated and no variable outlives the call. The same input gives the same
 *    answer and the same bytes. Any number of threads may call at once, each on areas of its own.
 *
 * AREAS
 *  - An area is a pointer to as many bytes as its length says. Areas of any length are accepted.
 *  - A NULL pointer is allowed with length 0 only.
 *  - An area that is written to (output, workspace) overlaps no other area of the call. Areas that are
 *    only read (images, alike list, rules, plans, log) may coincide.
 *  - Where one of these does not hold, what the call does is undefined, in C's sense of the word.
 *  - After a refusal the output area keeps its bytes. After an answer, its bytes beyond the answer's
 *    output keep theirs. No byte of the output is written before refusal 10 is excluded.
 *  - A workspace has GINDRAZOMA_WORKSPACE bytes or more. It may hold anything before the call and changes
 *    no answer. After refusal 1 it keeps its bytes. After every other end its first GINDRAZOMA_WORKSPACE
 *    bytes are zero, and later ones keep theirs.
 *
 * ALIKE LISTS
 *  - An alike list says which moves tally alike: pairs of 4 bytes, a from-move and then a to-move, each of two
 *    bytes with the low byte first. A from-move counts as its to-move, and two moves match if they count as the same.
 *  - It has at most GINDRAZOMA_PAIRS_MAX pairs, in any order. No from-move stands twice or stands as a to-move, so
 *    that one replacement is all there is; a to-move may stand often, and moves that no rule makes may stand.
 *  - A list of length 0 is no list: moves match if they are equal, and the call answers as the one without a list does,
 *    if there is one.
 *  - A call that takes two tables replaces the moves of both.
 *  - Norms do not depend on a list. Shortest runs and the n-th move show moves as the table has them.
 *  - A log that is replayed under a list has its moves replaced too.
 *  - Prime forms are made for one list: forms made under different lists are not to be compared.
 */
#ifndef GINDRAZOMA_H
#define GINDRAZOMA_H

#include <stddef.h>
#include <stdint.h>

/* The version of this header, and of the archive that it belongs to. */
#define GINDRAZOMA_VERSION_MAJOR 3
#define GINDRAZOMA_VERSION_MINOR 6
#define GINDRAZOMA_VERSION_PATCH 0
#define GINDRAZOMA_VERSION "3.6.0"

#ifdef __cplusplus
extern "C" {
#endif

/* The reasons for which a call is refused. An answer is one of these made negative. */
enum gindrazoma_refusal {
    GINDRAZOMA_WORKSPACE_SHORT = 1, /* the workspace is shorter than 65,536 bytes */
    GINDRAZOMA_BAD_LENGTH = 2,      /* an image is not 1 to 4 blocks of 512 bytes; the rules are not 1 to 252 of 8 bytes */
    GINDRAZOMA_BAD_CHECKSUM = 3,    /* the checksum of some block is wrong */
    GINDRAZOMA_BAD_HEADER = 4,      /* a job count, rule count, block number or number of blocks is wrong */
    GINDRAZOMA_BAD_PLACE = 5,       /* a place has a job at or above the count, more than 4 jobs after, or a byte that should be 0 */
    GINDRAZOMA_NO_NORM = 6,         /* some job can never finish; a job without rules is one */
    GINDRAZOMA_JOB_NORM_HIGH = 7,   /* some job has a norm above 512 */
    GINDRAZOMA_NO_SUCH_JOB = 8,     /* a plan names a job at or above its table's count */
    GINDRAZOMA_PLAN_NORM_HIGH = 9,  /* a plan has a norm above 4,096 */
    GINDRAZOMA_OUTPUT_SHORT = 10,   /* the output area is shorter than the output */
    GINDRAZOMA_LOG_LENGTH = 11,     /* the log has more than 128 moves, or half a move at its end */
    GINDRAZOMA_ALIKE_LENGTH = 12,   /* the alike list has more than 32 pairs, or an unfinished one at its end */
    GINDRAZOMA_ALIKE_CLASH = 13,    /* a from-move stands twice in the alike list, or stands in it as a to-move */
    GINDRAZOMA_TABLES_LARGE = 15    /* the two tables together have more than 24 jobs or more than 252 rules */
};

enum {
    /* Limits. README.md lists them. */
    GINDRAZOMA_JOBS_MAX = 24,        /* jobs of a table, and of two together that a call joins */
    GINDRAZOMA_RULES_MAX = 252,      /* rules of a table, and of two together that a call joins */
    GINDRAZOMA_AFTER_MAX = 4,        /* jobs after a move */
    GINDRAZOMA_JOB_NORM_MAX = 512,   /* norm of a job */
    GINDRAZOMA_PLAN_NORM_MAX = 4096, /* norm of a plan; its jobs are no more than that */
    GINDRAZOMA_PAIRS_MAX = 32,       /* pairs of an alike list */
    GINDRAZOMA_LOG_MAX = 128,        /* moves of a log, which are 256 bytes */
    GINDRAZOMA_IMAGE_MAX = 2048,     /* bytes of an image: what the writer writes */
    GINDRAZOMA_WORKSPACE = 65536,    /* bytes that a workspace needs */

    /* Lengths in bytes. Those of output are enough for every accepted input. */
    GINDRAZOMA_RULE_BYTES = 8,       /* a rule: job, the move's low byte, number of jobs after, four bytes for them, the move's high byte */
    GINDRAZOMA_MOVE_BYTES = 2,       /* a move of a log: the low byte first */
    GINDRAZOMA_PAIR_BYTES = 4,       /* a pair of an alike list: from-move and to-move, the low byte first */
    GINDRAZOMA_BLOCK_BYTES = 512,    /* a block of an image, with places for 63 rules */
    GINDRAZOMA_RULE_LIST_MAX = 2016, /* a rule list: what the writer takes */
    GINDRAZOMA_READ_MAX = 2017,      /* what the reader writes */
    GINDRAZOMA_RUN_MAX = 8192,       /* what the shortest run writes */
    GINDRAZOMA_MOVE_MAX = 4101,      /* what the n-th move writes */
    GINDRAZOMA_FORM_MAX = 4096       /* what the prime form writes */
};

/*
 * Reads an image: writes the job count in one byte and then the rules, 8 bytes each, in image order.
 *
 * Answer: the bytes written, 1 + 8 * rules, at most GINDRAZOMA_READ_MAX.
 * Refusals: 2, 3, 4, 5, 6, 7, 10.
 */
int32_t gindrazoma_read_image(const uint8_t *image, size_t image_len, uint8_t *out, size_t out_len);

/*
 * Writes the image of a table from its job count and its rules, 8 bytes each as in a place of the image.
 * The order of the rules is kept. What the reader writes after its first byte is such a rule list.
 *
 * Answer: the bytes written, 512 for each 63 rules begun, at most GINDRAZOMA_IMAGE_MAX.
 * Refusals: 2 (rules_len is not 8 times 1 to 252), 4 (jobs is not 1 to 24), 5, 6, 7, 10.
 */
int32_t gindrazoma_write_image(uint32_t jobs, const uint8_t *rules, size_t rules_len, uint8_t *out, size_t out_len);

/*
 * The norm of a plan. A plan may have any length; every job of it is checked.
 *
 * Answer: the norm, 0 (the empty plan) to 4,096.
 * Refusals: 2, 3, 4, 5, 6, 7, 8, 9.
 */
int32_t gindrazoma_plan_norm(const uint8_t *image, size_t image_len, const uint8_t *plan, size_t plan_len);

/*
 * The first shortest run of a plan: writes moves, two bytes each with the low byte first, that lead from the
 * plan to the empty plan and are as many as its norm. Of all such runs it is the first in dictionary order of
 * move numbers: where another one first differs from it, the other has the larger move. Moves are compared as
 * the table has them, numbers of 16 bits, not as bytes. The order of the rules does not matter, nor how often
 * one is written.
 *
 * Answer: the bytes written, which is twice the norm, 0 to 8,192.
 * Refusals: 2, 3, 4, 5, 6, 7, 8, 9, 10.
 */
int32_t gindrazoma_shortest_run(const uint8_t *image, size_t image_len, const uint8_t *plan, size_t plan_len,
                                uint8_t *out, size_t out_len);

/*
 * The move of a plan at an index from 0: writes the move in two bytes, the low byte first, and then the
 * remaining plan. The index counts each combination of move and remaining plan once, at the place of the
 * first rule of the plan's first job that gives it, in image order. A rule that is written again adds none.
 *
 * Answer: the bytes written, 2 or more; or 0, with nothing written, for "no such move": exactly if the
 * plan is empty or the index is not below the number of different combinations. With 0 the output area
 * may be of any length.
 * Refusals: 2, 3, 4, 5, 6, 7, 8, 9, 10.
 */
int32_t gindrazoma_nth_move(const uint8_t *image, size_t image_len, const uint8_t *plan, size_t plan_len, uint32_t index,
                            uint8_t *out, size_t out_len);

/*
 * Compares two plans over one table.
 *
 * Answer: 1 if the plans are the same (bisimilar), 0 if they are apart.
 * Refusals: 1, 2, 3, 4, 5, 6, 7, 8, 9; 8 of either plan comes before 9 of either.
 */
int32_t gindrazoma_compare(const uint8_t *image, size_t image_len, const uint8_t *left, size_t left_len,
                           const uint8_t *right, size_t right_len, uint8_t *space, size_t space_len);

/*
 * The prime form of a plan: writes a row of jobs that is the same as the plan, in which no job is the
 * same as a plan of two or more jobs, nor the same as a lower-numbered job. Two plans over one table have
 * equal prime forms exactly if they are the same, and no plan that is the same has more jobs.
 *
 * Answer: the bytes written, one for each job, 0 (the empty plan) to 4,096.
 * Refusals: 1, 2, 3, 4, 5, 6, 7, 8, 9, 10.
 */
int32_t gindrazoma_prime_form(const uint8_t *image, size_t image_len, const uint8_t *plan, size_t plan_len,
                              uint8_t *out, size_t out_len, uint8_t *space, size_t space_len);

/*
 * Compares two plans over one table under an alike list.
 *
 * Answer: 1 if the plans are the same once the moves of all rules are replaced by the list, 0 if they are apart.
 * Refusals: 1, 2, 3, 4, 5, 6, 7, 12, 13, 8, 9, in this order.
 */
int32_t gindrazoma_compare_alike(const uint8_t *image, size_t image_len, const uint8_t *alike, size_t alike_len,
                                 const uint8_t *left, size_t left_len, const uint8_t *right, size_t right_len,
                                 uint8_t *space, size_t space_len);

/*
 * The prime form of a plan under an alike list: the prime form over the table in which the moves of all rules are
 * replaced by the list. Two plans over one table under one list have equal prime forms exactly if they are the same
 * under it, and no plan that is the same under it has more jobs.
 *
 * Answer: the bytes written, one for each job, 0 (the empty plan) to 4,096.
 * Refusals: 1, 2, 3, 4, 5, 6, 7, 12, 13, 8, 9, 10, in this order.
 */
int32_t gindrazoma_prime_form_alike(const uint8_t *image, size_t image_len, const uint8_t *alike, size_t alike_len,
                                    const uint8_t *plan, size_t plan_len, uint8_t *out, size_t out_len,
                                    uint8_t *space, size_t space_len);

/*
 * Replays a log of moves on a plan, under an alike list. A log is a row of moves, two bytes each with the low byte
 * first. A run of the plan is a row of moves, or of none, that it can make one after the other, and a complete run is
 * one that leads to the empty plan; every run can be completed. Moves match if they count as the same by the list.
 * Where several rules make one move, each of them is followed: the answer is about whether there is such a run.
 *
 * Answer: 1 ("whole") if the log is a complete run of the plan; else 0 ("part") if some complete run begins with it;
 * else 2 plus the least place in the log, from 0, such that no run begins with the log up to and including the
 * move there: 2 to 129. An empty log is whole on the empty plan and part on any other; on the empty plan every other
 * log gives 2.
 * Refusals: 1, 2, 3, 4, 5, 6, 7, 12, 13, 8, 9, 11, in this order.
 */
int32_t gindrazoma_replay_log(const uint8_t *image, size_t image_len, const uint8_t *alike, size_t alike_len,
                              const uint8_t *plan, size_t plan_len, const uint8_t *log, size_t log_len,
                              uint8_t *space, size_t space_len);

/*
 * Whether a table is without a choice of outcome under an alike list: no job of it has two rules whose moves count as
 * the same by the list and whose rows of jobs after the move differ. Rows are compared job by job, and order and length
 * count: two different rows are a choice even if they are the same as plans. A rule that is written again is none, and
 * rules of different jobs are none.
 *
 * Over a table without such a choice, gindrazoma_compare_alike with this list answers 1 exactly if both plans have the
 * same complete runs, once their moves are replaced by the list. Over every table plans that are the same have the
 * same complete runs; but where there is a choice, plans that have the same complete runs may be apart.
 *
 * Answer: 1 if the table is without a choice of outcome, 0 if it has one. No area is written to.
 * Refusals: 2, 3, 4, 5, 6, 7, 12, 13, in this order.
 */
int32_t gindrazoma_deterministic(const uint8_t *image, size_t image_len, const uint8_t *alike, size_t alike_len);

/*
 * Whether a plan ever grows, and how many jobs it reaches. The plans that it can become are those that some moves, or
 * none, lead to. It is endless if it can become infinitely many plans of which no two are the same, so that there is no
 * bound on their number, and finite otherwise.
 *
 * It is endless exactly if some job that it reaches can come round to itself with further jobs behind it; that is, if
 * some job that it reaches has a rule in whose row a job before the last one is this job or reaches it. A job that comes
 * round at the last place of rows only leaves nothing behind it. A finite plan never becomes one of more jobs than its
 * own and three for each job that it reaches. Plans that are the same are both endless or both finite, but may reach
 * different numbers of jobs. The moves of the rules do not matter, nor their order, nor how often one is written. Every
 * job of an accepted table can finish, so each job of a plan has its turn.
 *
 * Answer: twice the number of different jobs that stand in the plan or in any plan that it can become, and 1 more if it
 * is endless: 0 (the empty plan, which is finite) to 49. No area is written to.
 * Refusals: 2, 3, 4, 5, 6, 7, 8, 9.
 */
int32_t gindrazoma_plan_growth(const uint8_t *image, size_t image_len, const uint8_t *plan, size_t plan_len);

/*
 * Compares a plan over one table with a plan over another, under an alike list: the left plan has jobs of the left table,
 * and the right plan jobs of the right table. They are compared over the joined table. It has the left table's jobs and
 * rules as they are, and behind them those of the right table, whose jobs are numbered on from the left one's: job j of it
 * is job j plus the left table's job count, in its rules and in the right plan. No job of one table ever becomes a job of
 * the other; what the tables have in common is the numbers of moves.
 *
 * The two tables together have at most GINDRAZOMA_JOBS_MAX jobs and GINDRAZOMA_RULES_MAX rules, where a rule counts as often
 * as it is written. The list replaces the moves of both. The jobs and the norm of each plan are judged by its own table
 * alone. If both tables are copies of one, of at most 12 jobs and 126 rules, the answer is that of gindrazoma_compare_alike
 * over it, refusals included; the two images may be one area. If the tables are exchanged, and the plans with them, the
 * answer stays the same, unless it is a refusal.
 *
 * Answer: 1 if the plans are the same over the joined table once the moves of all its rules are replaced by the list, 0 if
 * they are apart.
 * Refusals: 1; 2, 3, 4, 5, 6, 7 of the left image; 2, 3, 4, 5, 6, 7 of the right image; 15, 12, 13; 8 of the left plan and
 * then of the right one; 9 of the left plan and then of the right one; in this order.
 */
int32_t gindrazoma_compare_tables(const uint8_t *left_image, size_t left_image_len,
                                  const uint8_t *right_image, size_t right_image_len,
                                  const uint8_t *alike, size_t alike_len, const uint8_t *left, size_t left_len,
                                  const uint8_t *right, size_t right_len, uint8_t *space, size_t space_len);

#ifdef __cplusplus
}
#endif

#endif
