/* Comparing plans of two tables: answers, refusals, and every byte of the workspace. */
#include "check.h"
#include "gindrazoma.h"

#include <stdlib.h>
#include <string.h>

enum { JOBS = 24, FULL = 252, PLAN = 4200 };

/* The images of the left and of the right table; the list is that in force. */
struct side {
    uint8_t bytes[2560];
    size_t len;
};

static struct side left, right;

/* The image in force becomes that of a side. */
static void take(struct side *s)
{
    memcpy(s->bytes, image, sizeof image);
    s->len = image_len;
}

/* Two tables come into force, without a list. */
static void use_tables(const struct table *t, const struct table *u)
{
    use(t);
    take(&left);
    use(u);
    take(&right);
}

static void exchange(void)
{
    struct side s = left;
    left = right;
    right = s;
}

/* The answer for the tables and the list in force, in areas of their own that are looked at afterwards. */
static int32_t compare_in(const uint8_t *p, size_t m, const uint8_t *q, size_t n, size_t space_len)
{
    struct area in[] = { area_copy(left.bytes, left.len), area_copy(right.bytes, right.len), area_copy(list, list_len), area_copy(p, m),
                         area_copy(q, n) };
    struct area space = area_new(space_len);
    int32_t got = gindrazoma_compare_tables(in[0].bytes, in[0].len, in[1].bytes, in[1].len, in[2].bytes, in[2].len,
                                            in[3].bytes, in[3].len, in[4].bytes, in[4].len, space.bytes, space.len);
    areas_end(in, 5);
    space_left(&space, got);
    area_free(&space);
    return got;
}

/* On the caller's own bytes: behind the ends of images, list and plans may stand more of them. */
static int32_t quick_compare(const uint8_t *p, size_t m, const uint8_t *q, size_t n)
{
    return gindrazoma_compare_tables(left.bytes, left.len, right.bytes, right.len, list, list_len, p, m, q, n, one_space(), SPACE);
}

/* The same with the tables exchanged, and the plans with them. */
static int32_t quick_exchanged(const uint8_t *p, size_t m, const uint8_t *q, size_t n)
{
    return gindrazoma_compare_tables(right.bytes, right.len, left.bytes, left.len, list, list_len, q, n, p, m, one_space(), SPACE);
}

/* Both ways round, in areas of their own and not. */
static void answered(const uint8_t *p, size_t m, const uint8_t *q, size_t n, int32_t want)
{
    CHECK_EQ(compare_in(p, m, q, n, SPACE), want);
    CHECK_EQ(quick_compare(p, m, q, n), want);
    CHECK_EQ(quick_exchanged(p, m, q, n), want);
    exchange();
    CHECK_EQ(compare_in(q, n, p, m, SPACE + 77), want);
    exchange();
}

/* Plans as text, each with the letters of its own table's jobs. */
static void compared(const char *p_text, const char *q_text, int32_t want)
{
    uint8_t p[64], q[64];
    size_t m = plan_of(p_text, p), n = plan_of(q_text, q);
    answered(p, m, q, n, want);
}

/* A job of the left table and one of the right table. */
static int32_t of_jobs(int j, int k)
{
    const uint8_t p = (uint8_t)j, q = (uint8_t)k;
    return quick_compare(&p, 1, &q, 1);
}

/* ---- by a call over one table */

/* The rules of one table, and behind them those of the other with its jobs numbered on. */
static struct table joined(const struct table *t, const struct table *u)
{
    struct table v = *t;
    uint8_t number[JOBS];
    for (uint32_t j = 0; j < u->jobs; j++)
        number[j] = (uint8_t)(t->jobs + j);
    v.jobs += u->jobs;
    add_renumbered(&v, u, number);
    return v;
}

/* Over the joined table with its moves replaced. */
static int32_t by_one_table(const struct table *t, const struct table *u, const uint8_t *p, size_t m, const uint8_t *q, size_t n)
{
    static uint8_t whole[2560], numbered[PLAN];
    struct table v = joined(t, u);
    v = replaced(&v);
    for (size_t i = 0; i < n; i++)
        numbered[i] = (uint8_t)(t->jobs + q[i]);
    return gindrazoma_compare(whole, image_of(&v, whole), p, m, numbered, n, one_space(), SPACE);
}

/* ---- copies */

static void table_t_beside_itself(void)
{
    struct table t = table_t();
    use_tables(&t, &t);
    compared("CD", "ABD", 1);
    compared("DA", "AD", 0);
    compared("", "", 1);
    compared("A", "E", -8);
    compared("", "A", 0);
    compared("CCD", "BAABD", 1);
    for (int j = 0; j < 4; j++)
        for (int k = 0; k < 4; k++)
            CHECK_EQ(of_jobs(j, k), j == k);
}

/* As over the left table alone. */
static int32_t by_left_table(const uint8_t *p, size_t m, const uint8_t *q, size_t n)
{
    return gindrazoma_compare_alike(left.bytes, left.len, list, list_len, p, m, q, n, one_space(), SPACE);
}

/* Short plans over two copies of a table. */
static void each_two_plans(const struct table *t)
{
    static uint8_t plans[ALL_PLANS][ALL_LONGEST];
    size_t lens[ALL_PLANS], count = all_plans(t->jobs, plans, lens), step = small_run() ? 31 : 3;
    for (size_t i = 0; i < count; i++)
        for (size_t k = random_below((uint32_t)step); k < count; k += step)
            CHECK_EQ(quick_compare(plans[i], lens[i], plans[k], lens[k]), by_left_table(plans[i], lens[i], plans[k], lens[k]));
}

static void two_copies(void)
{
    for (int round = 0; round < (small_run() ? 12 : 60); round++) {
        struct table t = some_table(round % 20);
        if (t.jobs > 12 || t.rules > 126)
            continue;
        use_tables(&t, &t);
        each_two_plans(&t);
        random_list();
        each_two_plans(&t);
    }
    struct table t = random_table(12);
    t = shuffled(&t, 126);
    use_tables(&t, &t);
    each_two_plans(&t);
}

/* Refusals of one table are those of two copies of it: damaged images, lists of any bytes, bad plans and short workspaces. */
static void two_copies_refused(void)
{
    int seen[16] = { 0 };
    for (int round = 0; round < (small_run() ? 30 : 1500); round++) {
        struct table t = random_table(1 + random_below(12));
        uint8_t p[12], q[PLAN];
        t = shuffled(&t, random_below(127));
        use(&t);
        if (random_below(3) == 0)
            damage_image();
        take(&left);
        take(&right);
        if (random_below(3) == 0)
            list_of_any_bytes();
        size_t m = random_plan(p, t.jobs + random_below(8) / 7, 12), n = random_plan(q, t.jobs, random_below(8) == 0 ? PLAN : 12);
        size_t space_len = SPACE - (random_below(16) == 0) + random_below(3) / 2;
        int32_t want = of_two(gindrazoma_compare_alike, p, m, q, n, space_len);
        CHECK_EQ(compare_in(p, m, q, n, space_len), want);
        seen[want < 0 ? -want : 0]++;
    }
    static const int often[] = { 0, 1, 3, 5, 8, 9, 12, 13 };
    for (size_t i = 0; i < sizeof often / sizeof often[0]; i++)
        CHECK(small_run() || seen[often[i]] > 10);
}

/* A plan with the numbers that the other table has for its jobs. */
static void renumber_plan(const uint8_t *plan, size_t n, const uint8_t *number, uint8_t *other)
{
    for (size_t i = 0; i < n; i++)
        other[i] = number[plan[i]];
}

/* Two plans over the left table, of which the right one is given in the right table's numbers: 1 or 0. */
static int32_t as_over_the_left(const uint8_t *p, size_t m, const uint8_t *q, size_t n, const uint8_t *number)
{
    uint8_t other[12];
    int32_t want = by_left_table(p, m, q, n);
    renumber_plan(q, n, number, other);
    CHECK_EQ(quick_compare(p, m, other, n), want);
    CHECK_EQ(quick_exchanged(p, m, other, n), want);
    return want;
}

/*
 * The right table is the left one with other numbers for its jobs, its rules in another order and some of them again: each job is the
 * same as the one that it was, each plan the same as itself, and two plans are as they are over the one table.
 */
static void renamed_and_reordered(void)
{
    size_t seen[2] = { 0 };
    for (int round = 0; round < (small_run() ? 10 : 400); round++) {
        struct table t = random_table(1 + random_below(random_below(2) ? 12 : 4)), u = table_new(t.jobs);
        uint8_t number[12], p[12], q[12];
        random_numbers(number, t.jobs);
        add_renumbered(&u, &t, number);
        u = shuffled(&u, t.rules + random_below(20));
        use_tables(&t, &u);
        for (uint32_t j = 0; j < t.jobs; j++)
            CHECK_EQ(of_jobs((int)j, number[j]), 1);
        for (int k = 0; k < 8; k++) {
            if (k > 0)
                random_list();
            size_t m = random_plan(p, t.jobs, 12);
            CHECK_EQ(as_over_the_left(p, m, p, m, number), 1);
            memcpy(q, p, sizeof q);
            if (m > 0)
                q[random_below((uint32_t)m)] = (uint8_t)random_below(t.jobs);
            seen[as_over_the_left(p, m, q, m, number) & 1] += memcmp(p, q, m) != 0;
        }
    }
    CHECK(small_run() || (seen[0] > 500 && seen[1] > 20));
}

/* ---- two tables */

/* S1: a and then b or c. S2: a and then b, or a and then c. Each has a table of its own. */
static void equal_runs_but_apart(void)
{
    static const char *const b_as_c[] = { "cb", "bc", "bzcz" }, *const others[] = { "", "ba", "ca", "ab", "zb", "bycz" };
    struct table t = table_new(2), u = table_new(3);
    rule1(&t, 0, 'a', 1);
    rule0(&t, 1, 'b');
    rule0(&t, 1, 'c');
    rule1(&u, 0, 'a', 1);
    rule1(&u, 0, 'a', 2);
    rule0(&u, 1, 'b');
    rule0(&u, 2, 'c');
    use_tables(&t, &u);
    for (size_t i = 0; i < sizeof others / sizeof others[0]; i++) {
        alike(others[i]);
        compared("A", "A", 0);
        compared("B", "B", 0);
        compared("B", "C", 0);
        compared("BA", "BA", 0);
        compared("AB", "AC", 0);
    }
    for (size_t i = 0; i < sizeof b_as_c / sizeof b_as_c[0]; i++) {
        alike(b_as_c[i]);
        compared("A", "A", 1);
        compared("B", "B", 1);
        compared("B", "C", 1);
        compared("BA", "CA", 1);
        compared("AB", "BA", 0);
        compared("A", "AB", 0);
    }
}

enum { LINKS = 6 };
enum change { OTHER_MOVE, OTHER_HIGH_BYTE, LONGER_ROW, RULE_MORE, RULE_AGAIN, OTHER_WRITING, CHANGES };

/* Job k makes a and becomes job k-1, but for one change at the rule of a job. The last two change nothing that tells jobs apart. */
static struct table chain_with(int job, enum change change)
{
    struct table t = table_new(LINKS);
    for (int k = 0; k < LINKS; k++)
        add_rule(&t, k, 'a', k > 0, k > 0 ? k - 1 : 0, 0, 0, 0);
    uint8_t *rule = t.bytes + 8 * job;
    switch (change) {
    case OTHER_MOVE: rule[1] = 'b'; break;
    case OTHER_HIGH_BYTE: rule[7] = 1; break;
    case LONGER_ROW: rule[3 + rule[2]++] = 0; break;
    case RULE_MORE: rule0(&t, job, 'b'); break;
    case RULE_AGAIN: t = shuffled(&t, LINKS + 3); break;
    default: rule2(&t, job, 'a', 0, job - 2); /* from job 2 on */
    }
    return t;
}

/* Two chains of jobs that differ at one job: those before it are the same, and it and those behind it are not. */
static void one_rule_differs(void)
{
    for (int at = 0; at < LINKS * CHANGES; at++) {
        const int job = at / CHANGES;
        const enum change change = (enum change)(at % CHANGES);
        if ((change == OTHER_WRITING && job < 2) || (change == LONGER_ROW && job == 0))
            continue;
        struct table t = chain_with(0, RULE_AGAIN), u = chain_with(job, change);
        use_tables(&t, &u);
        for (int j = 0; j < LINKS; j++)
            for (int k = 0; k < LINKS; k++) {
                const uint8_t p[] = { (uint8_t)j, 0 }, q[] = { (uint8_t)k, 0 };
                int32_t want = change == LONGER_ROW ? j == k + (k >= job) : j == k && (change >= RULE_AGAIN || k < job);
                CHECK_EQ(of_jobs(j, k), want);
                CHECK_EQ(quick_exchanged(p, 1, q, 1), want);
                CHECK_EQ(quick_compare(p, 2, q, 2), want && !(job == 0 && change < RULE_AGAIN));
            }
    }
}

enum { ROWS = 1 + 3 + 9 + 27 + 81 };

/* D and then every row of up to four of A, B and C. */
static void all_rows(uint8_t rows[ROWS][5], size_t *lens)
{
    size_t count = 1;
    rows[0][0] = 3;
    lens[0] = 1;
    for (size_t i = 0; count < ROWS; i++)
        for (uint8_t j = 0; j < 3; j++) {
            memcpy(rows[count], rows[i], 5);
            rows[count][lens[i]] = j;
            lens[count++] = lens[i] + 1;
        }
}

/*
 * Job E of one table is d and then a row of A, B and C, which make a, b and c and have other numbers in the other table: D and that row
 * are the same there, and no other row is.
 */
static void every_row(void)
{
    static const uint8_t number[] = { 3, 0, 1, 2 }, e = 4;
    static uint8_t rows[ROWS][5], renamed[ROWS][5];
    size_t lens[ROWS];
    struct table letters = table_letters(4, 4), t = table_new(4);
    add_renumbered(&t, &letters, number);
    all_rows(rows, lens);
    for (size_t i = 0; i < ROWS; i++)
        renumber_plan(rows[i], lens[i], number, renamed[i]);
    for (size_t i = 0; i < ROWS; i += small_run() ? 7 : 1) {
        const uint8_t *row = rows[i];
        struct table u = table_letters(5, 4);
        add_rule(&u, e, 'd', (int)lens[i] - 1, row[1], row[2], row[3], row[4]);
        use_tables(&t, &u);
        for (size_t k = 0; k < ROWS; k += small_run() ? 15 : 1) {
            CHECK_EQ(quick_compare(renamed[k], lens[k], &e, 1), i == k);
            CHECK_EQ(quick_exchanged(renamed[k], lens[k], &e, 1), i == k);
        }
        answered(renamed[i], lens[i], &e, 1, 1);
    }
}

/* Jobs of one table that are made of what the other one names otherwise, or does not name at all. */
static void made_of_jobs_of_the_other(void)
{
    struct table t = table_new(2), u = table_new(4); /* A: a, then B; B: a. Of the other: A: a, B, C; B: a; C: a, D; D: b */
    rule1(&t, 0, 'a', 1);
    rule0(&t, 1, 'a');
    rule2(&u, 0, 'a', 1, 2);
    rule0(&u, 1, 'a');
    rule1(&u, 2, 'a', 3);
    rule0(&u, 3, 'b');
    use_tables(&t, &u);
    compared("A", "BB", 1);
    compared("AB", "A", 0);
    compared("AB", "BBB", 1);
    compared("", "", 1);
    compared("", "D", 0);
    alike("ba");
    compared("AA", "A", 1);
    compared("A", "C", 1);
    compared("B", "D", 1);
    compared("AAA", "CA", 1);
    compared("AAB", "CA", 0);
    t = table_xyz(); /* A: a, then B; B: a, then B C, or b; C: b */
    u = table_new(2); /* B and C with exchanged numbers */
    rule2(&u, 1, 'a', 1, 0);
    rule0(&u, 1, 'b');
    rule0(&u, 0, 'b');
    use_tables(&t, &u);
    compared("B", "B", 1);
    compared("B", "A", 0);
    compared("BC", "BA", 1);
    compared("BC", "AB", 0);
    compared("CBCC", "ABAA", 1);
    compared("A", "AB", 0);
    alike("ab");
    compared("A", "AB", 1);
    compared("A", "BA", 0);
}

/* Moves are equal by all their bits. */
static void moves_of_sixteen_bits(void)
{
    for (int bit = 0; bit < 16; bit++) {
        const int move = 'a' + 256 * 'b', other = move ^ 1 << bit;
        struct table t = table_new(1), u = table_new(2);
        rule0(&t, 0, move);
        rule0(&u, 0, other);
        rule0(&u, 1, move);
        use_tables(&t, &u);
        compared("A", "A", 0);
        compared("A", "B", 1);
        add_pair(other, move);
        compared("A", "A", 1);
        compared("AA", "AB", 1);
    }
    struct table t = table_edges();
    use_tables(&t, &t);
    for (int j = 0; j < EDGES; j++)
        for (int k = 0; k < EDGES; k++)
            CHECK_EQ(of_jobs(j, k), j == k);
}

/* ---- lists */

/* The ship's jobs make a to f, and the port's h to c: two jobs are the same if their moves count as one. */
static void each_two_moves(void)
{
    for (int j = 0; j < 6; j++)
        for (int k = 0; k < 6; k++) {
            const uint8_t p[] = { (uint8_t)j, 0 }, q[] = { (uint8_t)k, 5 };
            const int32_t same = counted('a' + j) == counted('h' - k), last = counted('a') == counted('c');
            CHECK_EQ(quick_compare(p, 1, q, 1), same);
            CHECK_EQ(quick_exchanged(p, 1, q, 1), same);
            CHECK_EQ(quick_compare(p, 2, q, 2), same && last);
            CHECK_EQ(quick_compare(p, 2, q, 1), 0);
        }
}

/* From-moves and to-moves of one of the tables, of the other, of both and of none. */
static void lists_over_two_tables(void)
{
    static const char *const lists[] = { "", "ba", "ab", "hg", "gh", "ah", "ha", "ca", "ac", "ch", "hc", "cd", "fe", "azhz", "bzgz", "czdz",
                                         "bacadaeafaga", "hcacbc", "xyzy", "xaza", "xhzh", "cxdy", "cxdx", "ahbg", "hagb", "yzbagh" };
    struct table t = table_letters(6, 6), u = table_new(6);
    for (int k = 0; k < 6; k++)
        rule0(&u, k, 'h' - k);
    use_tables(&t, &u);
    for (size_t i = 0; i < sizeof lists / sizeof lists[0]; i++) {
        alike(lists[i]);
        CHECK_EQ(refusal_of_pairs(), 0);
        each_two_moves();
    }
    fill_list(PAIRS);
    each_two_moves();
    for (size_t place = 0; place < PAIRS; place += small_run() ? 31 : 1) { /* each of 32 pairs counts */
        fill_list(PAIRS);
        put_pair(place, 'a', 'h');
        CHECK_EQ(of_jobs(0, 0), 1);
        put_pair(place, 'h', 'a');
        CHECK_EQ(of_jobs(0, 0), 1);
        CHECK_EQ(of_jobs(1, 0), 0);
    }
}

/* Move 98 of the ship counts as move 97 of the port; and the other way; and both as a move that neither makes. */
static void a_ship_and_a_port(void)
{
    static const struct { int pairs[2][2]; int32_t want; } lists[] = {
        { { { 98, 97 } }, 1 },           { { { 97, 98 } }, 1 },             { { { 98, 500 }, { 97, 500 } }, 1 }, { { { 98, 353 } }, 0 },
        { { { 98, 500 } }, 0 },          { { { 97, 500 } }, 0 },            { { { 98, 500 }, { 97, 501 } }, 0 }, { { { 354, 97 } }, 0 },
        { { { 98, 97 }, { 320, 5 } }, 1 }, { { { 320, 97 }, { 98, 97 } }, 1 }, { { { 320, 5 }, { 321, 5 } }, 0 },  { { { 0, 1 }, { 98, 97 } }, 1 },
    };
    struct table t = table_new(2), u = table_new(3); /* a container and its set-down; of the port, two containers as one job */
    rule1(&t, 0, 98, 1);
    rule0(&t, 1, 320);
    rule2(&u, 2, 97, 0, 1);
    rule1(&u, 1, 97, 0);
    rule0(&u, 0, 320);
    use_tables(&t, &u);
    compared("AA", "C", 0);
    for (size_t i = 0; i < sizeof lists / sizeof lists[0]; i++) {
        list_len = 0;
        for (int k = 0; k < 2; k++)
            if (lists[i].pairs[k][0] != lists[i].pairs[k][1])
                add_pair(lists[i].pairs[k][0], lists[i].pairs[k][1]);
        compared("AA", "C", lists[i].want);
        compared("A", "B", lists[i].want);
        compared("A", "C", 0);
    }
}

/* ---- jobs with one rule each: a plan has one run, and two plans are the same if their runs are, move by move */

enum { RUN = 16, JOBS_OF_PLAN = 6 };

/* The run of a plan, as moves count, behind what is there; rule j is job j's. */
static size_t add_run(const struct table *t, const uint8_t *plan, size_t n, int *run, size_t len)
{
    for (size_t i = 0; i < n; i++) {
        const uint8_t *rule = t->bytes + 8 * plan[i];
        run[len++] = counted(move_of(rule));
        len = add_run(t, rule + 3, rule[2], run, len);
    }
    return len;
}

/* Rows are of lower jobs, and runs of jobs have at most RUN moves. */
static struct table table_of_runs(uint32_t jobs, uint32_t used)
{
    struct table t = table_new(jobs);
    int run[2 * RUN];
    for (uint32_t j = 0; j < jobs; j++) {
        uint8_t row[2] = { 0 };
        size_t len = j > 0 ? random_plan(row, j, 2) : 0;
        if (add_run(&t, row, len, run, 0) >= RUN)
            len = 0;
        add_rule(&t, (int)j, random_move(used), (int)len, len > 0 ? row[0] : 0, len > 1 ? row[1] : 0, 0, 0);
    }
    return t;
}

/* A plan whose run is the beginning of a run, and all of it if jobs for that are found. */
static size_t plan_of_run(const struct table *t, const int *run, size_t len, uint8_t *plan)
{
    size_t n = 0;
    for (int tries = 0; tries < 200 && len > 0; tries++) {
        int own[RUN];
        plan[n] = (uint8_t)random_below(t->jobs);
        size_t more = add_run(t, plan + n, 1, own, 0);
        if (more > len || memcmp(own, run, more * sizeof own[0]) != 0)
            continue;
        run += more;
        len -= more;
        n++;
    }
    return n;
}

static void one_rule_for_each_job(void)
{
    size_t seen[2] = { 0 };
    for (int round = 0; round < (small_run() ? 40 : 6000); round++) {
        uint32_t jobs = 1 + random_below(JOBS - 1), others = random_below(2) ? JOBS - jobs : 1 + random_below(JOBS - jobs);
        struct table t = table_of_runs(jobs, 1 + random_below(MOVES)), u = table_of_runs(others, 1 + random_below(MOVES));
        uint8_t p[JOBS_OF_PLAN], q[RUN * JOBS_OF_PLAN];
        int run[RUN * JOBS_OF_PLAN], other[RUN * RUN * JOBS_OF_PLAN];
        use_tables(&t, &u);
        if (random_below(4) != 0)
            random_list();
        size_t m = random_plan(p, jobs, JOBS_OF_PLAN), len = add_run(&t, p, m, run, 0), n = plan_of_run(&u, run, len, q);
        if (n > 0 && random_below(4) == 0)
            q[random_below((uint32_t)n)] = (uint8_t)random_below(others);
        int32_t want = add_run(&u, q, n, other, 0) == len && memcmp(run, other, len * sizeof run[0]) == 0;
        CHECK_EQ(quick_compare(p, m, q, n), want);
        CHECK_EQ(quick_exchanged(p, m, q, n), want);
        seen[want] += m > 0;
    }
    CHECK(small_run() || (seen[0] > 1000 && seen[1] > 1000));
}

/* ---- sizes */

/* Jobs that make 'a', 'b' and so on, as many as each of two tables has: the last of each are the same if the tables are of one size. */
static void every_two_numbers_of_jobs(void)
{
    for (uint32_t i = 1; i <= JOBS; i++)
        for (uint32_t j = 1; j <= JOBS; j += small_run() ? 5 : 1) {
            struct table t = table_letters(i, (int)i), u = table_letters(j, (int)j);
            const uint8_t p[] = { (uint8_t)(i - 1), 0 }, q[] = { (uint8_t)(j - 1), 0 };
            const int32_t large = i + j > JOBS ? -15 : 0;
            use_tables(&t, &u);
            CHECK_EQ(quick_compare(p, 2, q, 2), large ? large : i == j);
            CHECK_EQ(quick_compare(p + 1, 1, q + 1, 1), large ? large : 1);
            CHECK_EQ(quick_compare(p, 0, q, 0), large ? large : 1);
            if (i + j == JOBS || i + j == JOBS + 1)
                answered(p, 1, q, 1, large ? large : i == j);
        }
}

/* A job number below the count of its own table is a job; what the other table has does not matter, nor what both have. */
static void jobs_of_one_table_only(void)
{
    static const uint8_t zero;
    for (uint32_t i = 1; i < JOBS; i += small_run() ? 11 : 1)
        for (uint32_t j = 1; i + j <= JOBS; j += small_run() ? 11 : 1) {
            struct table t = table_letters(i, (int)i), u = table_letters(j, (int)j);
            use_tables(&t, &u);
            for (uint32_t k = 0; k < 256; k += k < 2 * JOBS ? 1 : 23) {
                const uint8_t job[] = { (uint8_t)k, 0 };
                CHECK_EQ(quick_compare(job, 1, &zero, 1), k < i ? k == 0 : -8);
                CHECK_EQ(quick_compare(&zero, 1, job, 1), k < j ? k == 0 : -8);
                CHECK_EQ(quick_compare(job, 2, job, 2), k < i && k < j ? 1 : -8);
            }
        }
}

/* A table of one job and so many rules, which are all different or one rule written so often. */
static struct table table_of_rules(int rules, int different)
{
    struct table t = table_new(1);
    for (int i = 0; i < rules; i++)
        rule0(&t, 0, different ? 257 * i : 0);
    return t;
}

/* Rules count as often as they are written: of tables with 250 to 255 in all, those with 253 and more are refused. */
static void every_two_numbers_of_rules(void)
{
    static const uint8_t zero;
    for (int all = FULL - 2; all <= FULL + 3; all++)
        for (int i = 1; i < all; i += small_run() ? 40 : 1)
            for (int kind = 0; kind < 4 && i <= FULL && all - i <= FULL; kind++) {
                struct table t = table_of_rules(i, kind & 1), u = table_of_rules(all - i, kind & 2);
                const int moves = kind & 1 ? i : 1, others = kind & 2 ? all - i : 1;
                const int32_t want = all > FULL ? -15 : moves == others;
                use_tables(&t, &u);
                CHECK_EQ(quick_compare(&zero, 1, &zero, 1), want);
                if (all == FULL || all == FULL + 1)
                    CHECK_EQ(compare_in(&zero, 1, &zero, 1, SPACE), want);
            }
}

/* Both limits at once: jobs and rules of the left table and of the right one. The rules beyond one for each job are its last job's. */
static void jobs_and_rules_together(void)
{
    static const size_t sizes[][4] = {
        { 24, 252, 1, 1 }, { 1, 1, 24, 252 }, { 24, 24, 1, 1 }, { 24, 252, 24, 252 }, { 2, 252, 1, 1 }, { 1, 1, 2, 252 }, { 13, 13, 12, 12 },
        { 12, 126, 12, 127 }, { 12, 127, 12, 126 }, { 20, 200, 4, 53 }, { 23, 251, 2, 2 }, { 23, 252, 1, 1 }, { 24, 126, 1, 126 },
        { 12, 126, 12, 126 }, { 23, 251, 1, 1 }, { 1, 1, 23, 251 }, { 20, 200, 4, 52 }, { 23, 229, 1, 23 }, { 2, 229, 22, 23 }, { 11, 11, 13, 241 },
    };
    for (size_t i = 0; i < sizeof sizes / sizeof sizes[0]; i++) {
        const size_t *s = sizes[i];
        const int32_t large = s[0] + s[2] > JOBS || s[1] + s[3] > FULL ? -15 : 0;
        struct table t = table_letters((uint32_t)s[0], (int)s[0]), u = table_letters((uint32_t)s[2], (int)s[2]);
        while (t.rules < s[1])
            rule1(&t, (int)s[0] - 1, 1000 + (int)t.rules, 0);
        while (u.rules < s[3])
            memcpy(u.bytes + 8 * u.rules++, u.bytes + 8 * (s[2] - 1), 8);
        use_tables(&t, &u);
        compared("A", "A", large ? large : 1);
        compared("A", "AA", large);
        compared("", "", large ? large : 1);
    }
}

/* Of 252 rules of one job each, shared out in some ways, all but one make a: the one that makes b is found at each place. */
static void each_rule_counts(void)
{
    static const int shares[] = { 1, 62, 63, 64, 100, 126, 189, 251 };
    static const uint8_t zero;
    for (size_t i = 0; i < sizeof shares / sizeof shares[0]; i += small_run() ? 3 : 1)
        for (int one = 0; one < FULL; one += small_run() ? 21 : 1) {
            struct table tables[2] = { table_new(1), table_new(1) };
            for (int k = 0; k < FULL; k++)
                rule0(&tables[k >= shares[i]], 0, k == one ? 'b' : 'a');
            use_tables(&tables[0], &tables[1]);
            CHECK_EQ(quick_compare(&zero, 1, &zero, 1), 0);
            alike("ba");
            CHECK_EQ(quick_compare(&zero, 1, &zero, 1), 1);
        }
}

/* ---- random tables */

/* A table of so many jobs, with at most these rules and now and then as many; a few of them have rows of three or four jobs. */
static struct table table_within(uint32_t jobs, size_t rules)
{
    struct table t = random_table(jobs);
    for (uint32_t more = random_below(4); more > 0; more--) {
        int row[4] = { 0 }, len = 3 + (int)random_below(2);
        for (int i = 0; i < len; i++)
            row[i] = (int)random_below(jobs);
        add_rule(&t, (int)random_below(jobs), random_move(MOVES), len, row[0], row[1], row[2], row[3]);
    }
    if (t.rules > rules)
        t.rules = rules;
    return random_below(4) == 0 ? shuffled(&t, rules) : t;
}

/* As over the joined table, both ways round: 1 or 0. */
static int32_t as_joined(const struct table *t, const struct table *u, const uint8_t *p, size_t m, const uint8_t *q, size_t n)
{
    int32_t want = by_one_table(t, u, p, m, q, n);
    CHECK_EQ(random_below(16) == 0 ? compare_in(p, m, q, n, SPACE) : quick_compare(p, m, q, n), want);
    CHECK_EQ(quick_exchanged(p, m, q, n), want);
    return want;
}

/* Any two tables that fit together, and any two plans. */
static void beside_the_joined_table(void)
{
    size_t seen[2] = { 0 };
    for (int round = 0; round < (small_run() ? 40 : 4000); round++) {
        uint32_t jobs = 1 + random_below(JOBS - 1), longest = 1 + random_below(4);
        struct table t = table_within(jobs, jobs + random_below(FULL - 60)), u = table_within(1 + random_below(JOBS - jobs), FULL - t.rules);
        uint8_t p[4], q[4];
        use_tables(&t, &u);
        if (random_below(4) != 0)
            random_list();
        size_t m = random_plan(p, t.jobs, longest), n = random_plan(q, u.jobs, longest);
        seen[as_joined(&t, &u, p, m, q, n) & 1]++;
    }
    CHECK(small_run() || (seen[0] > 1000 && seen[1] > 100));
}

/* The right table has the left one's jobs among its 12, in other numbers: a plan and its prime form in these numbers are the same. */
static void prime_forms_in_other_numbers(void)
{
    static uint8_t form[4096], q[4096];
    size_t seen[2] = { 0 }, others = 0;
    for (int round = 0; round < (small_run() ? 20 : 1500); round++) {
        struct table t = random_table(1 + random_below(random_below(2) ? 12 : 4)), u = table_new(12);
        uint8_t number[12], p[6];
        random_numbers(number, 12);
        add_renumbered(&u, &t, number);
        for (uint32_t k = t.jobs; k < 12; k++)
            rule0(&u, number[k], random_move(MOVES));
        use_tables(&t, &u);
        if (random_below(4) != 0)
            random_list();
        size_t m = 1 + random_plan(p, t.jobs, 5);
        p[m - 1] = (uint8_t)(t.jobs - 1);
        int32_t n = gindrazoma_prime_form_alike(left.bytes, left.len, list, list_len, p, m, form, sizeof form, one_space(), SPACE);
        CHECK(n > 0 && n <= 4096);
        if (n <= 0 || n > 4096)
            continue;
        renumber_plan(form, (size_t)n, number, q);
        CHECK_EQ(as_joined(&t, &u, p, m, q, (size_t)n), 1);
        others += (size_t)n != m || memcmp(form, p, m) != 0;
        q[random_below((uint32_t)n)] = (uint8_t)random_below(12);
        seen[as_joined(&t, &u, p, m, q, (size_t)n) & 1]++;
    }
    CHECK(small_run() || (seen[0] > 300 && seen[1] > 100 && others > 150));
}

/* ---- refusals */

/* Defects of the right plan beside those of the left one, and of the tables together. */
enum { RIGHT_NO_JOB = DEFECTS, RIGHT_HIGH_NORM = 2 * DEFECTS, MANY_JOBS = 4 * DEFECTS, MANY_RULES = 8 * DEFECTS, SETS = 16 * DEFECTS };

/* A table that is refused with this number, or accepted with 0, and that has too many jobs or rules to stand beside another such one. */
static void use_side(struct side *s, int refusal, int set)
{
    struct table t = table_doubling(refusal == 7 ? 10 : 9);
    while (set & MANY_JOBS && t.jobs < 13)
        rule0(&t, (int)t.jobs++, 'a');
    while (set & MANY_RULES && t.rules < 127)
        rule0(&t, 0, 'a');
    use_with(t, 1 << refusal);
    CHECK_EQ(refusal_of_image(image, image_len), refusal);
    take(s);
}

/* Job 1, or jobs of a norm above 4,096, and perhaps a job more that the table of a side does not have. */
static size_t plan_with(const struct side *s, int high_norm, int no_job, uint8_t *plan)
{
    size_t n = high_norm ? 9 : 1;
    memset(plan, high_norm ? 8 : 1, n);
    if (no_job)
        plan[n++] = s->bytes[0];
    return n;
}

/* A set's defects, with images whose first refusal is given. */
static void first_defect_answered(int refusal, int set)
{
    uint8_t p[10], q[10];
    size_t m = plan_with(&left, set & HIGH_NORM, set & NO_JOB, p), n = plan_with(&right, set & RIGHT_HIGH_NORM, set & RIGHT_NO_JOB, q);
    int of_plans = (set & RIGHT_NO_JOB ? NO_JOB : 0) | (set & RIGHT_HIGH_NORM ? HIGH_NORM : 0);
    int first = first_refusal(refusal == 0 && set & (MANY_JOBS | MANY_RULES) ? 15 : refusal, set | of_plans);
    list_with(set);
    if (of_two_or_fewer(set))
        CHECK_EQ(compare_in(p, m, q, n, set & SHORT_SPACE ? SPACE - 1 : SPACE), first == 0 ? 1 : -first);
    else if (set & SHORT_SPACE)
        CHECK_EQ(gindrazoma_compare_tables(left.bytes, left.len, right.bytes, right.len, list, list_len, p, m, q, n, NULL, 0), -1);
    else
        CHECK_EQ(quick_compare(p, m, q, n), -first);
}

/*
 * For each two images and every set of defects, the one that comes first in the order is answered. In a short run, one defect with each
 * two images, and two with few of them.
 */
static void order_of_refusals(void)
{
    static const int refusals[] = { 0, 2, 3, 4, 5, 6, 7 };
    enum { COUNT = sizeof refusals / sizeof refusals[0], TABLES = MANY_JOBS | MANY_RULES };
    for (int i = 0; i < COUNT * COUNT; i++)
        for (int set = 0; set < SETS; set++) {
            const int of_left = refusals[i / COUNT], of_right = refusals[i % COUNT];
            if (small_run() && set & (set - 1) && (!of_two_or_fewer(set) || i % 8 != 0))
                continue;
            if ((set & ~TABLES) == 0) {
                use_side(&left, of_left, set);
                use_side(&right, of_right, set);
            }
            first_defect_answered(of_left != 0 ? of_left : of_right, set);
        }
}

static int refusal_of_left;

static void right_image_answered(int refusal)
{
    static const uint8_t none = 255;
    take(&right);
    list_with(CLASH);
    CHECK_EQ(quick_compare(&none, 1, &none, 1), refusal_of_left != 0 ? -refusal_of_left : -refusal);
}

static void left_image_answered(int refusal)
{
    take(&left);
    refusal_of_left = refusal;
    if (!small_run() || refusal % 4 == 2)
        every_image(right_image_answered);
    use_image_with(0);
    right_image_answered(0);
}

/* Images with every set of defects: all of the left one come before any of the right one. */
static void every_two_images(void)
{
    use_image_with(0);
    take(&left);
    refusal_of_left = 0;
    every_image(right_image_answered);
    every_image(left_image_answered);
}

/* What is answered, by the documents and by calls over one table: the first refusal in order, or whether the plans are the same. */
static int32_t by_other_calls(const uint8_t *p, size_t m, const uint8_t *q, size_t n)
{
    int refusal = refusal_of_image(left.bytes, left.len);
    if (refusal == 0)
        refusal = refusal_of_image(right.bytes, right.len);
    if (refusal != 0)
        return -refusal;
    struct table t = table_of_image(left.bytes, left.len), u = table_of_image(right.bytes, right.len);
    if (t.jobs + u.jobs > JOBS || t.rules + u.rules > FULL)
        return -15;
    if (refusal_of_pairs() != 0)
        return -refusal_of_pairs();
    int32_t of_left = gindrazoma_plan_norm(left.bytes, left.len, p, m), of_right = gindrazoma_plan_norm(right.bytes, right.len, q, n);
    if (of_left < 0 || of_right < 0)
        return of_left == -8 || of_right == -8 ? -8 : -9;
    return by_one_table(&t, &u, p, m, q, n);
}

/* An image that is damaged at times, of a table that fits beside many others or beside few. */
static uint32_t random_side(struct side *s)
{
    struct table t = table_within(1 + random_below(random_below(4) ? 12 : JOBS), 20 + random_below(random_below(4) ? 100 : FULL - 20));
    use(&t);
    if (random_below(6) == 0)
        damage_image();
    take(s);
    return t.jobs;
}

/* Damaged images, lists of any bytes, plans of any jobs and lengths, large tables. */
static void random_refusals(void)
{
    int seen[16] = { 0 };
    for (int round = 0; round < (small_run() ? 60 : 6000); round++) {
        uint8_t p[PLAN], q[PLAN];
        uint32_t i = random_side(&left), j = random_side(&right);
        size_t m = random_plan(p, i, random_below(12) == 0 ? PLAN : 6), n = random_plan(q, j, random_below(12) == 0 ? PLAN : 6);
        list_len = 0;
        if (random_below(4) == 0)
            list_of_any_bytes();
        if (m > 0 && random_below(10) == 0)
            p[random_below((uint32_t)m)] = (uint8_t)(random_below(2) ? i : random_below(256));
        if (n > 0 && random_below(10) == 0)
            q[random_below((uint32_t)n)] = (uint8_t)(random_below(2) ? j : random_below(256));
        int32_t want = by_other_calls(p, m, q, n);
        CHECK_EQ(round % 8 == 0 ? compare_in(p, m, q, n, SPACE + random_below(9)) : quick_compare(p, m, q, n), want);
        seen[want < 0 ? -want : want]++;
    }
    static const int often[] = { 0, 1, 3, 5, 8, 9, 12, 13, 15 };
    for (size_t i = 0; i < sizeof often / sizeof often[0]; i++)
        CHECK(small_run() || seen[often[i]] > 20);
}

/* ---- norms and lengths */

/* The norm of a plan is that of its own table: job 0 has norm 512 on the left and norm 1 on the right. */
static void plans_of_4096(void)
{
    static const size_t lens[] = { 4096, 4097, 65535, 65536, 65537, 65536 + 4096, 70000 };
    static uint8_t ones[70000];
    struct table t = table_new(10), u = table_letters(1, 1);
    uint8_t eight[9] = { 0 };
    rule1(&t, 0, 'a', 9);
    rule0(&t, 1, 'a');
    for (int k = 2; k < 10; k++) /* norm 3, 7 and so on up to 511 */
        rule2(&t, k, 'a', k - 1, k - 1);
    use_tables(&t, &u);
    answered(eight, 8, ones, 4096, 1);
    answered(eight, 8, ones, 4095, 0);
    answered(eight, 8, ones, 4097, -9);
    answered(eight, 9, ones, 4096, -9);
    answered(eight, 9, ones, 1, -9);
    answered(eight, 1, ones, 512, 1);
    answered(eight, 0, ones, 0, 1);
    answered(eight, 0, ones, 4097, -9);
    eight[8] = 1;
    answered(eight, 9, ones, 1, -9); /* 4,097 */
    eight[7] = 9;
    answered(eight, 9, ones, 4096, 1);
    answered(eight, 9, ones, 4095, 0);
    answered(eight, 8, ones, 4095, 1);
    for (size_t i = 0; i < sizeof lens / sizeof lens[0]; i++) {
        answered(eight, 9, ones, lens[i], i == 0 ? 1 : -9);
        ones[lens[i] - 1] = 1; /* a job of the left table, which the right one does not have */
        answered(eight, 9, ones, lens[i], -8);
        ones[lens[i] - 1] = 0;
    }
}

/* Norms that are small again in 16 or 32 bits. */
static void plans_of_high_norm(void)
{
    static const size_t lens[] = { 128, 136, 8388608, 8388616 }; /* 2^16 and 2^16 + 4,096, 2^32 and 2^32 + 4,096 */
    static const uint8_t a = 0;
    struct table t = table_doubling(9), u = table_letters(1, 1);
    uint8_t *plan = malloc(8388616);
    if (plan == NULL)
        exit(1);
    t.jobs = 10;
    rule1(&t, 9, 'a', 8); /* norm 512 */
    use_tables(&t, &u);
    memset(plan, 9, 8388616);
    for (int i = 0; i < (small_run() ? 2 : 4); i++) {
        CHECK_EQ(quick_compare(plan, lens[i], &a, 1), -9);
        CHECK_EQ(quick_exchanged(plan, lens[i], &a, 1), -9);
    }
    free(plan);
}

/* Every length of either image up to 2,560 bytes, and lengths beyond 8, 16 and 32 bits, of the list too. */
static void lengths_of_images(void)
{
    static const size_t longer[] = { 256, 768, 65536, 65536 + 512, 65536 + 2048 }, less[] = { 2048, 2044, 1536, 0 };
    static uint8_t bytes[65536 + 2048];
    static const uint8_t zero;
    struct table t = table_of_rules(FULL - 1, 0), u = table_of_rules(1, 0);
    struct area zeros = area_reserved(2048);
    use_tables(&t, &u);
    for (left.len = 0; left.len <= sizeof left.bytes; left.len += small_run() ? 64 : 1) {
        int refusal = refusal_of_image(left.bytes, left.len);
        CHECK_EQ(quick_compare(&zero, 1, &zero, 1), refusal == 0 ? 1 : -refusal);
        CHECK_EQ(quick_exchanged(&zero, 1, &zero, 1), refusal == 0 ? 1 : -refusal);
        if (left.len % 64 == 0)
            CHECK_EQ(compare_in(&zero, 1, &zero, 1, SPACE), refusal == 0 ? 1 : -refusal);
    }
    memcpy(bytes, right.bytes, 512);
    for (size_t i = 0; i < sizeof longer / sizeof longer[0]; i++) {
        CHECK_EQ(gindrazoma_compare_tables(bytes, longer[i], bytes, 512, list, 0, &zero, 1, &zero, 1, one_space(), SPACE), -2);
        CHECK_EQ(gindrazoma_compare_tables(bytes, 512, bytes, longer[i], list, 0, &zero, 1, &zero, 1, one_space(), SPACE), -2);
    }
    for (int i = 0; i < 4 && zeros.bytes != NULL; i++) {
        const size_t len = zeros.len - less[i];
        CHECK_EQ(gindrazoma_compare_tables(zeros.bytes, len, bytes, 512, list, 0, &zero, 1, &zero, 1, one_space(), SPACE), -2);
        CHECK_EQ(gindrazoma_compare_tables(bytes, 512, zeros.bytes, len, list, 0, &zero, 1, &zero, 1, one_space(), SPACE), -2);
        CHECK_EQ(gindrazoma_compare_tables(bytes, 512, bytes, 512, zeros.bytes, len, &zero, 1, &zero, 1, one_space(), SPACE), -12);
    }
    area_free(&zeros);
}

/* Every length of a list up to 160 bytes, of pairs that are fine and of pairs that clash. */
static void lengths_of_lists(void)
{
    struct table t = table_letters(3, 3);
    use_tables(&t, &t);
    for (int clash = 0; clash < 2; clash++) {
        fill_list(PAIRS + 8);
        if (clash)
            memset(list, 0, sizeof list);
        for (list_len = 0; list_len <= sizeof list; list_len += small_run() && list_len > 8 && list_len < 124 ? 4 : 1) {
            int32_t refusal = list_len > 128 || list_len % 4 != 0 ? -12 : clash && list_len > 0 ? -13 : 0;
            CHECK_EQ(of_jobs(0, 0), refusal ? refusal : 1);
            CHECK_EQ(of_jobs(0, 1), refusal);
            CHECK_EQ(of_jobs(3, 0), refusal ? refusal : -8);
        }
    }
}

/* ---- areas */

static void workspaces(void)
{
    static const size_t shorter[] = { 0, 1, 32768, 65535 }, enough[] = { 65536, 65537, 70000, 131072, 200000 };
    static uint8_t space[SPACE + 8];
    static const uint8_t p[] = { 2, 3 }, q[] = { 0, 1, 3 }, none[] = { 4 };
    struct table t = table_t();
    use_tables(&t, &t);
    for (int i = 0; i < 4; i++)
        CHECK_EQ(compare_in(p, 2, q, 3, shorter[i]), -1);
    for (int i = 0; i < 5; i++) {
        CHECK_EQ(compare_in(p, 2, q, 3, enough[i]), 1);
        CHECK_EQ(compare_in(p, 2, q, 2, enough[i]), 0);
        CHECK_EQ(compare_in(p, 2, none, 1, enough[i]), -8);
    }
    for (int byte = 0; byte < 256; byte += small_run() ? 51 : 1) { /* whatever a workspace holds */
        memset(space, byte, sizeof space);
        CHECK_EQ(gindrazoma_compare_tables(left.bytes, left.len, right.bytes, right.len, NULL, 0, p, 2, q, byte % 2 ? 3 : 2, space, SPACE),
                 byte % 2);
        CHECK_EQ(space[SPACE], byte);
        space[SPACE] = 0;
        CHECK(memcmp(space, space + 1, SPACE) == 0 && space[0] == 0);
    }
}

static void null_with_length_0(void)
{
    static const uint8_t a = 0;
    uint8_t *space = one_space();
    struct table t = table_t();
    use_tables(&t, &t);
    const uint8_t *l = left.bytes, *r = right.bytes;
    CHECK_EQ(gindrazoma_compare_tables(NULL, 0, NULL, 0, NULL, 0, NULL, 0, NULL, 0, NULL, 0), -1);
    CHECK_EQ(gindrazoma_compare_tables(l, left.len, r, right.len, NULL, 0, &a, 1, &a, 1, NULL, 0), -1);
    CHECK_EQ(gindrazoma_compare_tables(NULL, 0, NULL, 0, NULL, 0, NULL, 0, NULL, 0, space, SPACE), -2);
    CHECK_EQ(gindrazoma_compare_tables(l, left.len, NULL, 0, NULL, 0, &a, 1, &a, 1, space, SPACE), -2);
    CHECK_EQ(gindrazoma_compare_tables(NULL, 0, r, right.len, NULL, 0, &a, 1, &a, 1, space, SPACE), -2);
    CHECK_EQ(gindrazoma_compare_tables(l, left.len, r, right.len, NULL, 0, &a, 1, &a, 1, space, SPACE), 1);
    CHECK_EQ(gindrazoma_compare_tables(l, left.len, r, right.len, NULL, 0, NULL, 0, NULL, 0, space, SPACE), 1);
    CHECK_EQ(gindrazoma_compare_tables(l, left.len, r, right.len, NULL, 0, NULL, 0, &a, 1, space, SPACE), 0);
    CHECK_EQ(gindrazoma_compare_tables(l, left.len, r, right.len, NULL, 0, &a, 1, NULL, 0, space, SPACE), 0);
    alike("aa"); /* a list of length 0 is none, wherever it is */
    CHECK_EQ(gindrazoma_compare_tables(l, left.len, r, right.len, list, 0, &a, 1, &a, 1, space, SPACE), 1);
    CHECK_EQ(gindrazoma_compare_tables(l, left.len, r, right.len, list, 4, &a, 1, &a, 1, space, SPACE), -13);
}

/* Areas that are only read may coincide: both images, list and plans within either of them, and each other. */
static void areas_that_coincide(void)
{
    uint8_t *space = one_space();
    struct table t = table_new(3);
    rule0(&t, 0, 'b'); /* bytes 3 to 6 of the image: from-move 'b', to-move 0 */
    rule0(&t, 1, 0);   /* bytes 10 and 18: jobs 1 and 2 */
    rule0(&t, 2, 1);
    use(&t);
    struct area in = area_copy(image, image_len);
    const uint8_t *b = in.bytes, *one = b + 10, *two = b + 18, *zero = b + 4;
    CHECK_EQ(gindrazoma_compare_tables(b, 512, b, 512, NULL, 0, zero, 1, zero, 1, space, SPACE), 1);
    CHECK_EQ(gindrazoma_compare_tables(b, 512, b, 512, NULL, 0, zero, 1, one, 1, space, SPACE), 0);
    CHECK_EQ(gindrazoma_compare_tables(b, 512, b, 512, b + 3, 4, zero, 1, one, 1, space, SPACE), 1);
    CHECK_EQ(gindrazoma_compare_tables(b, 512, b, 512, b + 3, 4, one, 1, zero, 1, space, SPACE), 1);
    CHECK_EQ(gindrazoma_compare_tables(b, 512, b, 512, b + 3, 4, zero, 1, two, 1, space, SPACE), 0);
    CHECK_EQ(gindrazoma_compare_tables(b, 512, b, 512, b + 3, 4, b + 4, 7, b + 4, 7, space, SPACE), 1);
    CHECK_EQ(gindrazoma_compare_tables(b, 512, b, 512, b + 3, 4, b + 4, 6, b + 5, 6, space, SPACE), 1);
    CHECK_EQ(gindrazoma_compare_tables(b, 512, b, 512, b + 3, 0, b + 4, 6, b + 5, 6, space, SPACE), 0);
    CHECK_EQ(gindrazoma_compare_tables(b, 512, b, 512, b, 512, b, 512, b, 512, space, SPACE), -12);
    CHECK_EQ(gindrazoma_compare_tables(b, 512, b, 511, b, 512, b, 512, b, 512, space, SPACE), -2);
    CHECK_EQ(gindrazoma_compare_tables(b, 512, b + 1, 511, b, 512, b, 512, b, 512, space, SPACE), -2);
    CHECK_EQ(gindrazoma_compare_tables(b, 512, b, 512, NULL, 0, b, 512, b, 512, space, SPACE), -8);
    areas_end(&in, 1);
}

/* Areas at addresses that are no multiple of anything. */
static void areas_at_any_address(void)
{
    static uint8_t bytes[4][2100], space[SPACE + 8];
    struct table t = table_t(), u = shuffled(&t, FULL - 4);
    use_tables(&t, &u);
    alike("xyba"); /* with one move, plans are the same if their norms are equal */
    for (size_t at = 0; at < 64; at++) {
        uint8_t *l = bytes[0] + at % 8, *r = bytes[1] + at / 8, *pairs = bytes[2] + at % 7, *plan = bytes[3] + at % 5, *in = space + at % 8;
        memcpy(l, left.bytes, left.len);
        memcpy(r, right.bytes, right.len);
        memcpy(pairs, list, 8);
        memcpy(plan, "\2\3\3\0\2", 5); /* of norms 3, 2, 2, 1 and 3 */
        CHECK_EQ(gindrazoma_compare_tables(l, left.len, r, right.len, pairs, 8, plan, 2, plan + 1, 3, in, SPACE), 1);
        CHECK_EQ(gindrazoma_compare_tables(r, right.len, l, left.len, pairs, 8, plan, 1, plan + 2, 2, in, SPACE), 1);
        CHECK_EQ(gindrazoma_compare_tables(l, left.len, r, right.len, pairs, 8, plan, 3, plan + 2, 3, in, SPACE), 0);
        CHECK_EQ(gindrazoma_compare_tables(l, left.len, r, right.len, pairs, 4, plan, 2, plan + 1, 3, in, SPACE), 0);
    }
}

/* Each call answers as alone, whatever the call before was, a refused one and other calls among them. */
static void calls_one_after_another(void)
{
    static const struct { int left, right; const char *list, *p, *q; int32_t want; } calls[] = {
        { 0, 0, "", "CD", "ABD", 1 },  { 0, 0, "", "DA", "AD", 0 },    { 0, 0, "ba", "DA", "AD", 1 },  { 0, 1, "", "A", "D", 0 },
        { 0, 1, "ba", "A", "D", 1 },   { 1, 0, "ba", "D", "A", 1 },    { 1, 2, "", "D", "C", 1 },      { 2, 1, "", "C", "E", 0 },
        { 2, 2, "", "A", "A", 1 },     { 2, 2, "bb", "A", "A", -13 },  { 0, 4, "bb", "A", "A", -15 },  { 0, 0, "", "E", "A", -8 },
        { 1, 0, "", "E", "A", 0 },     { 1, 0, "", "A", "E", -8 },     { 0, 0, "", "", "", 1 },        { 4, 5, "", "Z", "Z", -15 },
    };
    enum { COUNT = sizeof calls / sizeof calls[0] };
    static uint8_t space[SPACE];
    for (int i = 0; i < 2 * COUNT * COUNT; i++) {
        const int k = i % 2 == 0 ? i / 2 / COUNT : i / 2 % COUNT;
        struct table t = some_table(calls[k].left), u = some_table(calls[k].right);
        uint8_t p[8], q[8];
        size_t m = plan_of(calls[k].p, p), n = plan_of(calls[k].q, q);
        use_tables(&t, &u);
        alike(calls[k].list);
        for (int again = 0; again < 2; again++)
            CHECK_EQ(gindrazoma_compare_tables(left.bytes, left.len, right.bytes, right.len, list, list_len, p, m, q, n, space, SPACE),
                     calls[k].want);
        if (i % 3 == 0)
            CHECK_EQ(gindrazoma_compare(left.bytes, left.len, p, 0, p, 0, space, SPACE), 1);
        if (i % 5 == 0)
            CHECK_EQ(gindrazoma_compare_tables(left.bytes, left.len, right.bytes, 511, list, list_len, p, m, q, n, space, SPACE), -2);
        if (i % 7 == 0)
            CHECK_EQ(quick_compare(p, 0, q, 0), calls[k].want < -8 ? calls[k].want : 1);
    }
}

static const struct check_case cases[] = {
    { "table T beside itself", table_t_beside_itself },
    { "two copies answer as one table", two_copies },
    { "two copies are refused as one table", two_copies_refused },
    { "other numbers, and rules in another order", renamed_and_reordered },
    { "S1 and S2 in two tables", equal_runs_but_apart },
    { "one rule differs", one_rule_differs },
    { "every row of up to four jobs", every_row },
    { "jobs made of jobs of the other table", made_of_jobs_of_the_other },
    { "moves that differ in one bit", moves_of_sixteen_bits },
    { "lists over moves of either table", lists_over_two_tables },
    { "a ship's move counts as a port's", a_ship_and_a_port },
    { "jobs with one rule each, beside their runs", one_rule_for_each_job },
    { "every two numbers of jobs, 24 and 25 together", every_two_numbers_of_jobs },
    { "a job of one table only", jobs_of_one_table_only },
    { "numbers of rules, 252 and 253 together", every_two_numbers_of_rules },
    { "24 jobs and 252 rules together", jobs_and_rules_together },
    { "each of 252 rules counts", each_rule_counts },
    { "beside the joined table", beside_the_joined_table },
    { "prime forms in the other table's numbers", prime_forms_in_other_numbers },
    { "order of refusals: every set of defects", order_of_refusals },
    { "every two images with sets of defects", every_two_images },
    { "random refusals", random_refusals },
    { "plans of norm 4,096", plans_of_4096 },
    { "norms beyond 16 and 32 bits", plans_of_high_norm },
    { "lengths of images", lengths_of_images },
    { "lengths of lists", lengths_of_lists },
    { "workspaces of many lengths", workspaces },
    { "NULL with length 0", null_with_length_0 },
    { "areas that coincide", areas_that_coincide },
    { "areas at any address", areas_at_any_address },
    { "calls one after another", calls_one_after_another },
};

int main(void)
{
    return run_cases(cases, sizeof cases / sizeof cases[0]);
}
