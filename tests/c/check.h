/* Cases, areas with guard bytes, and tables and alike lists written from docs/FORMAT.md: what the C tests are made of. */
#ifndef CHECK_H
#define CHECK_H

#include <stddef.h>
#include <stdint.h>

/* Cases. A case fails if a CHECK in it does; run_cases prints the count and gives main's result. */
struct check_case {
    const char *name;
    void (*run)(void);
};

int run_cases(const struct check_case *cases, size_t count);
void check_true(int holds, const char *what, const char *file, int line);
void check_equal(long long got, long long wanted, const char *what, const char *file, int line);

#define CHECK(x) check_true((x) != 0, #x, __FILE__, __LINE__)
#define CHECK_EQ(got, wanted) check_equal((got), (wanted), #got, __FILE__, __LINE__)

/* Nonzero where only few rounds are wanted, as under valgrind (SMALL=1). */
int small_run(void);

/* Random numbers from a fixed seed, or from SEED. */
uint64_t random_number(void);
uint32_t random_below(uint32_t n);

/*
 * Areas. One to write to has random bytes in it and guard bytes around it. The word AREAS of the environment asks for
 * other ones: with "exact" each area is a block of its own of just its length, and one to write to has nothing written
 * in it, for valgrind to watch; with "pages" it ends at, or starts from, a page that may not be touched, and one to read
 * from may not be written to.
 */
struct area {
    uint8_t *bytes;
    size_t len;
    uint8_t *block, *before; /* the bytes with the guards, now and as they were; before is NULL if nothing is known of it */
    size_t guard;
    void *pages;
    size_t pages_len;
};

struct area area_new(size_t len);
struct area area_copy(const void *bytes, size_t len); /* one to read from */
struct area area_reserved(size_t more);               /* 4 GiB and more to read from, zeros that are only reserved; NULL if there are none */
int area_kept(const struct area *a, size_t from);     /* bytes from there on and the guards are as they were */
int area_same(const struct area *a);                  /* an area to read from is as it was */
int area_zero(const struct area *a, size_t len);      /* that many bytes are zero */
void area_free(struct area *a);
void areas_end(struct area *areas, size_t count);     /* areas to read from: each is as it was, and is freed */

enum { SPACE = 65536 }; /* bytes that a workspace needs */

/* The workspace after a call: untouched after refusal 1, else zero at its start and untouched behind. */
void space_left(const struct area *space, int32_t answer);

/* One workspace for many calls, with other bytes in it each time. */
uint8_t *one_space(void);

/* Tables as a job count and 8-byte rules. */
struct table {
    uint32_t jobs;
    size_t rules;
    uint8_t bytes[8 * 300];
};

struct table table_new(uint32_t jobs);
void add_rule(struct table *t, int job, int move, int after, int a, int b, int c, int d);
void rule0(struct table *t, int job, int move);
void rule1(struct table *t, int job, int move, int a);
void rule2(struct table *t, int job, int move, int a, int b);
int move_of(const uint8_t *rule);
size_t rule_bytes(const struct table *t);
size_t image_of(const struct table *t, uint8_t *image); /* into 2,560 bytes or more; its length */
void seal(uint8_t *block);                              /* sets the checksum */

struct table table_t(void);          /* document 01's table T */
struct table table_s(void);          /* S1 = 0, X = 1, S2 = 2, B = 3, C = 4 */
struct table table_xyz(void);        /* X = 0, Y = 1, Z = 2 */
struct table table_doubling(int n);  /* job k: a, then job k-1 twice */
struct table table_full(int rules);  /* 24 jobs and this number of rules, 24 or more: job k: a, then job k-1; other moves of all sizes */
struct table table_repeated(void);   /* one job with 84 different rules, each three times */

enum { EDGES = 6 };
struct table table_edges(void);      /* a job each for the moves 0, 255, 256, 65,535, 'a' and 'a' + 256 */

/* Letters, jobs of norm 1: job 0 is 'a' and so on; jobs beyond them have no rule yet. */
struct table table_letters(uint32_t jobs, int letters);

/* A table with its rules in random order, and some of them more than once if it has fewer than these. */
struct table shuffled(const struct table *t, size_t rules);

/* The rules of a table, with other numbers for its jobs, behind those of another; and these numbers, in random order. */
void add_renumbered(struct table *other, const struct table *t, const uint8_t *number);
void random_numbers(uint8_t *number, uint32_t jobs);

enum { MOVES = 8 };
int random_move(uint32_t used);      /* one of the first of the moves, up to MOVES, that random tables make */
struct table random_table(uint32_t jobs);
struct table some_table(int which);  /* 0 to 7: one of those above; else a random one of 1 to 6 jobs */

/* A plan from text, a letter for each job from A on; its length. */
size_t plan_of(const char *text, uint8_t *plan);
size_t random_plan(uint8_t *plan, uint32_t jobs, uint32_t longest);

/* All plans of up to ALL_LONGEST jobs, as far as there is room for them. */
enum { ALL_PLANS = 64, ALL_LONGEST = 3 };
size_t all_plans(uint32_t jobs, uint8_t plans[ALL_PLANS][ALL_LONGEST], size_t *lens);

enum { PAIRS = 32 }; /* pairs that a list may have */

/* The image and the alike list in force. */
extern uint8_t image[2560], list[4 * (PAIRS + 8)];
extern size_t image_len, list_len;

void use(const struct table *t); /* a table comes into force, without a list */
struct table table_of_image(const uint8_t *image, size_t len); /* that of an accepted image */
struct table table_in_force(void);
void put_pair(size_t k, int from, int to);
void add_pair(int from, int to);
int from_of(size_t k);
int to_of(size_t k);
void alike(const char *text);    /* a list as text, two letters a pair: "ba" says that b counts as a */
void fill_list(size_t pairs);    /* pairs of moves that no table here makes */
void random_list(void);          /* pairs of moves of random tables, and of moves that no rule makes */
void list_of_any_bytes(void);    /* of any length; often refused */
void damage_image(void);         /* perhaps changes a byte of it, and perhaps a checksum no longer fits */
void shuffle_pairs(void);
int counted(int move);           /* the number that a move counts as */
struct table replaced(const struct table *t); /* with its moves replaced */

/* A call over image, list, two areas that it only reads, and a workspace. */
typedef int32_t call_of_two(const uint8_t *, size_t, const uint8_t *, size_t, const uint8_t *, size_t, const uint8_t *, size_t,
                            uint8_t *, size_t);

/* Its answer for the image and the list in force, in areas of their own that are looked at afterwards. */
int32_t of_two(call_of_two *call, const uint8_t *first, size_t m, const uint8_t *second, size_t n, size_t space_len);

/* The refusal of an image or a rule list, 2 to 7 or 0 for none, and that of the list in force, worked out from the documents. */
int refusal_of_image(const uint8_t *image, size_t len);
int refusal_of_list(uint32_t jobs, const uint8_t *rules, size_t len);
int refusal_of_pairs(void);
int refusal_in_force(void);      /* that of the image in force, or else that of the list */

/*
 * An image comes into force that is refused with this number, 2 to 7, or accepted with 0; or one with a set of defects, bit k for refusal k;
 * or that of a table, with those of the defects 2 to 6.
 */
void use_image_refused(int refusal);
void use_image_with(int set);
void use_with(struct table t, int set);

/* Defects beside those of the image, and what is answered with a set of them; a call has further ones from DEFECTS on. */
enum { SHORT_SPACE = 1, HALF_PAIR = 2, MANY_PAIRS = 4, CLASH = 8, NO_JOB = 16, HIGH_NORM = 32, DEFECTS = 64 };
int first_refusal(int image_refusal, int set);
int of_two_or_fewer(int set);
void list_with(int set);         /* a list with the set's defects comes into force */
void every_defect(int sets, void (*answered)(int refusal, int set)); /* for an image of each refusal and of none, and every set of defects */
void every_image(void (*answered)(int refusal)); /* for an image with each set of defects, by its first one's refusal */

#endif
