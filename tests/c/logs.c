/* Replaying logs on plans: answers, refusals, and every byte of the workspace. */
#define _DEFAULT_SOURCE
#include "check.h"
#include "gindrazoma.h"

#include <stdlib.h>
#include <string.h>
#include <unistd.h>

/* Answers; the place at which the log leaves the plan is added to AT. */
enum { PART = 0, WHOLE = 1, AT = 2 };

enum { LONGEST = 128, NEVER = 59999 }; /* the moves that a log may have; a move that no rule here makes */

/* A log, with room for moves beyond those that are allowed. */
struct log {
    size_t moves;
    uint8_t bytes[2 * (LONGEST + 8)];
};

static int move_in(const struct log *l, size_t place)
{
    return l->bytes[2 * place] + 256 * l->bytes[2 * place + 1];
}

static void put_move(struct log *l, size_t place, int move)
{
    l->bytes[2 * place] = (uint8_t)(move % 256);
    l->bytes[2 * place + 1] = (uint8_t)(move / 256);
}

static void add_moves(struct log *l, int move, size_t times)
{
    for (; times > 0; times--)
        put_move(l, l->moves++, move);
}

/* A log from text, a letter for each move. */
static struct log log_of(const char *text)
{
    struct log l = { 0 };
    for (; *text != 0; text++)
        add_moves(&l, *text, 1);
    return l;
}

static struct log log_of_a(size_t times)
{
    struct log l = { 0 };
    add_moves(&l, 'a', times);
    return l;
}

static int32_t replay_bytes(const uint8_t *p, size_t n, const uint8_t *bytes, size_t len, size_t space_len)
{
    return of_two(gindrazoma_replay_log, p, n, bytes, len, space_len);
}

static int32_t replay_in(const uint8_t *p, size_t n, const struct log *l, size_t space_len)
{
    return replay_bytes(p, n, l->bytes, 2 * l->moves, space_len);
}

/* In one workspace, and on the caller's own bytes: behind the ends of log and plan may stand more of them. */
static int32_t quick_bytes(const uint8_t *p, size_t n, const uint8_t *bytes, size_t len)
{
    static const uint8_t zeros[SPACE];
    uint8_t *space = one_space();
    int32_t got = gindrazoma_replay_log(image, image_len, list, list_len, p, n, bytes, len, space, SPACE);
    CHECK(memcmp(space, zeros, SPACE) == 0);
    return got;
}

static int32_t quick_replay(const uint8_t *p, size_t n, const struct log *l)
{
    return quick_bytes(p, n, l->bytes, 2 * l->moves);
}

/* Three calls, one answer. */
static void replayed(const char *plan, const char *log, int32_t want)
{
    uint8_t p[64];
    size_t n = plan_of(plan, p);
    struct log l = log_of(log);
    CHECK_EQ(replay_in(p, n, &l, SPACE), want);
    CHECK_EQ(replay_in(p, n, &l, SPACE + 77), want);
    CHECK_EQ(quick_replay(p, n, &l), want);
}

/* ---- answers */

static void table_t_replayed(void)
{
    static const char run[] = "aaaba";
    struct table t = table_t();
    use(&t);
    replayed("CD", run, WHOLE);
    for (size_t k = 0; k < 5; k++) {
        char part[6] = { 0 };
        memcpy(part, run, k);
        replayed("CD", part, PART);
    }
    replayed("CD", "b", AT);
    replayed("CD", "ab", AT + 1);
    replayed("CD", "aab", AT + 2);
    replayed("CD", "aaaa", AT + 3);
    replayed("CD", "aaabb", AT + 4);
    replayed("CD", "aaabaa", AT + 5);
    replayed("CD", "aaabab", AT + 5);
    replayed("CD", "aaabaaaaba", AT + 5);
    replayed("CD", "abbba", AT + 1);
    replayed("CD", "zaaba", AT);
    replayed("DC", run, AT);
    replayed("DC", "baaaa", WHOLE);
    replayed("A", "a", WHOLE);
    replayed("B", "a", PART);
    replayed("D", "a", AT);
    replayed("ABD", run, WHOLE);
    replayed("AAAD", run, WHOLE);
    replayed("CDA", run, PART);
}

static void empty_logs_and_plans(void)
{
    for (int which = 0; which < 12; which++) {
        struct table t = some_table(which);
        struct log none = log_of(""), one = none;
        uint8_t plan[40];
        use(&t);
        if (which % 2 == 1)
            random_list();
        CHECK_EQ(replay_in(plan, 0, &none, SPACE), WHOLE);
        memset(plan, 0, sizeof plan);
        for (size_t n = 1; n < sizeof plan; n += 19)
            CHECK_EQ(replay_in(plan, n, &none, SPACE), PART);
        for (size_t r = 0; r < t.rules; r += small_run() ? 20 : 1) {
            const uint8_t *rule = t.bytes + 8 * r;
            one.moves = 1;
            put_move(&one, 0, move_of(rule));
            CHECK_EQ(quick_replay(rule, 0, &one), AT);
            CHECK_EQ(quick_replay(rule, 1, &none), PART);
            CHECK_EQ(quick_replay(rule, 0, &none), WHOLE);
            CHECK(quick_replay(rule, 1, &one) < AT); /* the job that makes this move */
        }
        CHECK_EQ(replay_in(plan, 0, &one, SPACE), AT);
        add_moves(&one, 'a', LONGEST - 1);
        CHECK_EQ(replay_in(plan, 0, &one, SPACE), AT);
    }
}

/*
 * A run that no other complete run of the plan begins: cut at every place it is part; with another move at a place, one
 * that cannot be made there, it leaves the plan there, whatever follows; and it leaves it at its end if it is lengthened.
 */
static void run_replayed(const uint8_t *p, size_t n, const struct log *run, int other)
{
    const size_t moves = run->moves, step = small_run() ? 63 : 1;
    struct log l = *run;
    CHECK_EQ(replay_in(p, n, run, SPACE), WHOLE);
    for (l.moves = 0; l.moves < moves; l.moves += step)
        CHECK_EQ(quick_replay(p, n, &l), PART);
    for (size_t k = 0; k < moves; k += step) {
        l = *run;
        put_move(&l, k, other);
        if (move_in(run, k) == other)
            continue;
        CHECK_EQ(quick_replay(p, n, &l), AT + (int32_t)k);
        l.moves = k + 1;
        CHECK_EQ(quick_replay(p, n, &l), AT + (int32_t)k);
        add_moves(&l, other, LONGEST - l.moves);
        CHECK_EQ(quick_replay(p, n, &l), AT + (int32_t)k);
    }
    for (l = *run; l.moves + step <= LONGEST;) {
        add_moves(&l, l.moves % 3 == 0 ? other : move_in(run, l.moves % moves), step);
        CHECK_EQ(quick_replay(p, n, &l), AT + (int32_t)moves);
    }
}

static void runs_at_every_place(void)
{
    uint8_t plan[LONGEST];
    struct table t = table_t();
    struct log l = log_of("aaaba");
    use(&t);
    run_replayed(plan, plan_of("CD", plan), &l, 'z');

    t = table_doubling(7); /* norms 1, 3, 7, 15, 31, 63, 127 */
    use(&t);
    l = log_of_a(127);
    run_replayed(plan, plan_of("G", plan), &l, 'b');
    l = log_of_a(128);
    run_replayed(plan, plan_of("GA", plan), &l, 'b');
    run_replayed(plan, plan_of("AFFA", plan), &l, 'a' + 256);

    t = table_xyz(); /* A: a B; B: a B C or b; C: b */
    use(&t);
    for (size_t k = 0; k < LONGEST / 2; k += small_run() ? 63 : 9) {
        l = log_of_a(k + 1);
        add_moves(&l, 'b', k + 1);
        run_replayed(plan, plan_of("A", plan), &l, 'z');
    }

    t = table_letters(24, 24);
    use(&t);
    l = log_of("");
    for (size_t k = 0; k < LONGEST; k++) {
        plan[k] = (uint8_t)(k * k % 23);
        add_moves(&l, 'a' + plan[k], 1);
    }
    run_replayed(plan, LONGEST, &l, 'b');
    run_replayed(plan, LONGEST, &l, 'x'); /* a letter that is not in the plan */
    run_replayed(plan, LONGEST, &l, NEVER);
}

/* In each of these rows the jobs make a for this many moves. */
static const struct { size_t moves; int len, row[3]; } delays[] = {
    { 0, 0, { 0, 0, 0 } }, { 1, 1, { 1, 0, 0 } },  { 2, 2, { 1, 1, 0 } },  { 6, 2, { 2, 2, 0 } },  { 61, 3, { 4, 5, 4 } },
    { 62, 2, { 5, 5, 0 } }, { 63, 1, { 6, 0, 0 } }, { 64, 2, { 6, 1, 0 } }, { 65, 3, { 1, 6, 1 } }, { 126, 2, { 6, 6, 0 } },
};
enum { DELAYS = sizeof delays / sizeof delays[0], DELAYING = 7 };

/* Jobs 1 to 6 make a 1, 3, 7, 15, 31 and 63 times, job 7 makes p, job 8 makes q and so on; job 0 has no rule yet. */
static struct table table_delays(void)
{
    struct table t = table_new(16);
    for (int k = 1; k < DELAYING; k++)
        if (k == 1)
            rule0(&t, k, 'a');
        else
            rule2(&t, k, 'a', k - 1, k - 1);
    for (int k = DELAYING; k < 16; k++)
        rule0(&t, k, 'p' + k - DELAYING);
    return t;
}

static void add_delayed(struct table *t, int move, int delay, int job)
{
    int row[4] = { 0 };
    memcpy(row, delays[delay].row, sizeof delays[delay].row);
    row[delays[delay].len] = job;
    add_rule(t, 0, move, delays[delay].len + 1, row[0], row[1], row[2], row[3]);
}

/* Job 0 has several rules for x, and which of them it was shows only by the last letter, up to 126 moves later. */
static void choices_that_show_later(void)
{
    for (int delay = 0; delay < DELAYS; delay += small_run() ? 3 : 1)
        for (int choices = 1; choices <= 8; choices += small_run() ? 4 : 1) {
            const size_t moves = delays[delay].moves;
            const int32_t last = AT + 1 + (int32_t)moves;
            struct table t = table_delays();
            for (int k = 0; k < choices; k++)
                add_delayed(&t, 'x', delay, DELAYING + k);
            use(&t);
            for (int k = 0; k < 9; k += small_run() ? 3 : 1) {
                struct log l = log_of("x");
                uint8_t plan[2] = { 0, (uint8_t)(DELAYING + k) };
                add_moves(&l, 'a', moves);
                CHECK_EQ(quick_replay(plan, 1, &l), PART);
                add_moves(&l, 'p' + k, 1);
                CHECK_EQ(quick_replay(plan, 1, &l), k < choices ? WHOLE : last);
                CHECK_EQ(quick_replay(plan, 2, &l), k < choices ? PART : last);
                if (moves > 0) {
                    put_move(&l, 1 + moves / 2, 'p' + k);
                    CHECK_EQ(quick_replay(plan, 1, &l), AT + 1 + (int32_t)moves / 2);
                    put_move(&l, 1 + moves / 2, 'a');
                }
                put_move(&l, 1 + moves, 'a');
                CHECK_EQ(quick_replay(plan, 1, &l), last);
                put_move(&l, 1 + moves, 'p' + k);
                if (l.moves == LONGEST || k >= choices)
                    continue;
                add_moves(&l, 'p' + k, 1);
                CHECK_EQ(quick_replay(plan, 1, &l), last + 1);
                CHECK_EQ(quick_replay(plan, 2, &l), WHOLE);
                put_move(&l, 2 + moves, 'a');
                CHECK_EQ(quick_replay(plan, 2, &l), last + 1);
            }
        }
}

/* Job 0 has three rules for x, in each order, by which a comes some times, once more or twice more before the p that waits. */
static void choices_of_length(void)
{
    static const int orders[6][3] = { { 0, 1, 2 }, { 0, 2, 1 }, { 1, 0, 2 }, { 1, 2, 0 }, { 2, 0, 1 }, { 2, 1, 0 } };
    static const uint8_t plan[] = { 0, DELAYING };
    for (int order = 0; order < 6; order += small_run() ? 2 : 1)
        for (int delay = 5; delay < 8; delay += small_run() ? 2 : 1) { /* 62, 63 and 64 moves */
            const int len = delays[delay].len;
            const size_t moves = delays[delay].moves;
            struct table t = table_delays();
            for (int k = 0; k < 3; k++) {
                int row[4] = { delays[delay].row[0], delays[delay].row[1], 0, 0 };
                for (int more = 0; more < orders[order][k]; more++)
                    row[len + more] = 1;
                add_rule(&t, 0, 'x', len + orders[order][k], row[0], row[1], row[2], row[3]);
            }
            use(&t);
            for (size_t k = 0; k < 5; k++) {
                struct log l = log_of("x");
                add_moves(&l, 'a', moves - 1 + k);
                CHECK_EQ(quick_replay(plan, 2, &l), k < 4 ? PART : AT + 3 + (int32_t)moves);
                CHECK_EQ(quick_replay(plan, 1, &l), k == 0 ? PART : k < 4 ? WHOLE : AT + 3 + (int32_t)moves);
                add_moves(&l, 'p', 1);
                CHECK_EQ(quick_replay(plan, 2, &l), k == 0 ? AT + (int32_t)moves : k < 4 ? WHOLE : AT + 3 + (int32_t)moves);
                put_move(&l, l.moves - 1, 'q');
                CHECK_EQ(quick_replay(plan, 2, &l), k < 4 ? AT + (int32_t)(moves + k) : AT + 3 + (int32_t)moves);
            }
        }
}

/* Of 225 rules for x, rows of two letters out of 15, each one is found; with one of them left out its log leaves the plan. */
static void one_rule_of_many(void)
{
    static const uint8_t plan[] = { 0 };
    for (int out = -1; out < 225; out += small_run() ? 75 : 5) {
        struct table t = table_new(16);
        for (int k = 0; k < 225; k++) {
            if (k % 15 == 0)
                rule0(&t, 1 + k / 15, 'a' + k / 15);
            if (k != out)
                rule2(&t, 0, 'x', 1 + k / 15, 1 + k % 15);
        }
        use(&t);
        for (int k = out < 0 ? 0 : out; k < (out < 0 ? 225 : out + 1); k++) {
            struct log l = log_of("x");
            add_moves(&l, 'a' + k / 15, 1);
            CHECK_EQ(quick_replay(plan, 1, &l), PART);
            add_moves(&l, 'a' + k % 15, 1);
            CHECK_EQ(quick_replay(plan, 1, &l), out < 0 ? WHOLE : AT + 2);
            add_moves(&l, 'a', 1);
            CHECK_EQ(quick_replay(plan, 1, &l), out < 0 ? AT + 3 : AT + 2);
        }
    }
}

/* A: x B or x C; B: p; C: q. A choice in each of 64 jobs, and then a wrong move at each place. */
static void choices_in_a_row(void)
{
    struct table t = table_new(3);
    uint8_t plan[LONGEST / 2] = { 0 };
    rule1(&t, 0, 'x', 1);
    rule1(&t, 0, 'x', 2);
    rule0(&t, 1, 'p');
    rule0(&t, 2, 'q');
    use(&t);
    for (int round = 0; round < (small_run() ? 2 : 20); round++) {
        struct log l = log_of("");
        for (int k = 0; k < LONGEST / 2; k++) {
            add_moves(&l, 'x', 1);
            add_moves(&l, random_below(2) ? 'p' : 'q', 1);
        }
        run_replayed(plan, LONGEST / 2, &l, 'z');
        l.moves = LONGEST - 1;
        CHECK_EQ(quick_replay(plan, LONGEST / 2, &l), PART);
        CHECK_EQ(quick_replay(plan, LONGEST / 2 - 1, &l), AT + LONGEST - 2);
    }
}

/* A: x, and then letters of which the one at a place chooses: y B or y C. Letters wait before and behind A as well. */
static void choices_in_waiting_jobs(void)
{
    for (int place = 0; place < 4; place++)
        for (size_t before = 0; before < 60; before += 59) {
            int row[4] = { 3, 3, 3, 3 };
            struct table t = table_new(5);
            uint8_t plan[64];
            row[place] = 4;
            add_rule(&t, 0, 'x', 4, row[0], row[1], row[2], row[3]);
            rule0(&t, 1, 'b');
            rule0(&t, 2, 'c');
            rule0(&t, 3, 'l');
            rule1(&t, 4, 'y', 1);
            rule1(&t, 4, 'y', 2);
            use(&t);
            memset(plan, 3, sizeof plan);
            plan[before] = 0;
            for (int letter = 'b'; letter <= 'c'; letter++) {
                struct log l = { 0 };
                add_moves(&l, 'l', before);
                add_moves(&l, 'x', 1);
                add_moves(&l, 'l', (size_t)place);
                add_moves(&l, 'y', 1);
                add_moves(&l, letter, 1);
                add_moves(&l, 'l', 3 - (size_t)place);
                run_replayed(plan, before + 1, &l, 'z');
                run_replayed(plan, before + 1, &l, 'l');
                add_moves(&l, 'l', 2);
                run_replayed(plan, before + 3, &l, 'z');
            }
        }
}

/*
 * A: a AB or b AC or a B or b C; B: a; C: b; D: d. The complete runs of A are the rows of a and b that read the same from
 * behind and are even; where the middle is shows only at the end. Every row begins one.
 */
static void runs_that_read_the_same_from_behind(void)
{
    static const uint8_t plan[] = { 0, 3 };
    for (int order = 0; order < 4; order++) {
        struct table t = table_new(4), u;
        rule2(&t, 0, 'a', 0, 1);
        rule2(&t, 0, 'b', 0, 2);
        rule1(&t, 0, 'a', 1);
        rule1(&t, 0, 'b', 2);
        rule0(&t, 1, 'a');
        rule0(&t, 2, 'b');
        rule0(&t, 3, 'd');
        u = order == 0 ? t : shuffled(&t, 0);
        use(&u);
        for (size_t half = 1; half <= LONGEST / 2; half += small_run() ? 21 : 1) {
            struct log l = { 2 * half, { 0 } };
            uint32_t spread = 1 + random_below(3);
            for (size_t k = 0; k < half; k++) {
                int letter = random_below(spread) ? 'b' : 'a';
                put_move(&l, k, letter);
                put_move(&l, 2 * half - 1 - k, letter);
            }
            CHECK_EQ(quick_replay(plan, 1, &l), WHOLE);
            CHECK_EQ(quick_replay(plan, 2, &l), PART);
            size_t at = random_below((uint32_t)half);
            put_move(&l, at, 'a' + 'b' - move_in(&l, at));
            CHECK_EQ(quick_replay(plan, 1, &l), PART);
            if (half == LONGEST / 2)
                continue;
            add_moves(&l, 'd', 1);
            CHECK_EQ(quick_replay(plan, 1, &l), AT + 2 * (int32_t)half);
            CHECK_EQ(quick_replay(plan, 2, &l), AT + 2 * (int32_t)half);
            put_move(&l, at, 'a' + 'b' - move_in(&l, at));
            CHECK_EQ(quick_replay(plan, 1, &l), AT + 2 * (int32_t)half);
            CHECK_EQ(quick_replay(plan, 2, &l), WHOLE);
        }
    }
}

/* A: a or a A; B: b; C: c. A is done at any place from 1 on, and B, at each place, and C, at each two, say where it was. */
static void done_at_any_place(void)
{
    static const uint8_t plan[] = { 0, 1, 0, 2 };
    for (int order = 0; order < 2; order++) {
        struct table t = table_new(3);
        if (order == 0)
            rule0(&t, 0, 'a');
        rule1(&t, 0, 'a', 0);
        if (order == 1)
            rule0(&t, 0, 'a');
        rule0(&t, 1, 'b');
        rule0(&t, 2, 'c');
        use(&t);
        for (size_t k = 1; k < LONGEST; k += small_run() ? 21 : 1) {
            struct log l = log_of_a(k);
            CHECK_EQ(quick_replay(plan, 1, &l), WHOLE);
            CHECK_EQ(quick_replay(plan, 2, &l), PART);
            add_moves(&l, 'c', 1);
            CHECK_EQ(quick_replay(plan, 2, &l), AT + (int32_t)k);
            put_move(&l, k, 'b');
            CHECK_EQ(quick_replay(plan, 1, &l), AT + (int32_t)k);
            CHECK_EQ(quick_replay(plan, 2, &l), WHOLE);
            CHECK_EQ(quick_replay(plan, 3, &l), PART);
            if (k > LONGEST - 3)
                continue;
            add_moves(&l, 'a', 1 + random_below((uint32_t)(LONGEST - 2 - k)));
            CHECK_EQ(quick_replay(plan, 2, &l), AT + (int32_t)k + 1);
            CHECK_EQ(quick_replay(plan, 3, &l), WHOLE);
            add_moves(&l, 'c', 1);
            CHECK_EQ(quick_replay(plan, 4, &l), WHOLE);
            CHECK_EQ(quick_replay(plan, 3, &l), AT + (int32_t)l.moves - 1);
            put_move(&l, l.moves - 1, 'b');
            CHECK_EQ(quick_replay(plan, 4, &l), AT + (int32_t)l.moves - 1);
        }
    }
}

/* A log that is a complete run and begins longer ones is whole, whichever rule comes first. */
static void whole_before_part(void)
{
    for (int order = 0; order < 2; order++) {
        struct table t = table_new(3);
        rule1(&t, 0, 'a', order == 0 ? 1 : 2);
        rule1(&t, 0, 'a', order == 0 ? 2 : 1);
        rule0(&t, 1, 'b');
        rule1(&t, 2, 'b', 1);
        use(&t);
        replayed("A", "a", PART);
        replayed("A", "ab", WHOLE);
        replayed("A", "abb", WHOLE);
        replayed("A", "abbb", AT + 3);
        replayed("AB", "ab", PART);
        replayed("AB", "abb", WHOLE);
        replayed("AB", "abbb", WHOLE);
        replayed("AA", "abab", WHOLE);
        replayed("AA", "abbabb", WHOLE);
        replayed("AA", "abbb", AT + 3);
        replayed("AA", "abbabbb", AT + 6);
    }
}

/* A: a or b AA: complete runs that are no shortest ones, and moves that lead away from the end. */
static void runs_that_are_not_shortest(void)
{
    struct table t = table_new(1);
    rule0(&t, 0, 'a');
    rule2(&t, 0, 'b', 0, 0);
    use(&t);
    replayed("A", "a", WHOLE);
    replayed("A", "b", PART);
    replayed("A", "baa", WHOLE);
    replayed("A", "bbaaa", WHOLE);
    replayed("A", "babaa", WHOLE);
    replayed("A", "baaa", AT + 3);
    replayed("A", "bbbbbbbbbbbb", PART);
    replayed("AA", "baa", PART);
    replayed("AA", "baaa", WHOLE);
    struct log l = { 0 };
    uint8_t plan[2] = { 0, 0 };
    add_moves(&l, 'b', 63);
    add_moves(&l, 'a', 64);
    run_replayed(plan, 1, &l, 'z');
    add_moves(&l, 'a', 1);
    run_replayed(plan, 2, &l, 'z');
}

/* Every rule of a table of 24 jobs and 24 to 252 rules in one to four blocks: its own move, made by its job and by no other. */
static void each_rule_of_four_blocks(void)
{
    static const int rules[] = { 24, 62, 63, 64, 126, 127, 189, 190, 251, 252 };
    for (size_t i = 0; i < sizeof rules / sizeof rules[0]; i += small_run() ? 9 : 1) {
        struct table t = table_new(24);
        for (int r = 0; r < rules[i]; r++)
            add_rule(&t, r % 24, 257 * (r + 1), r % 5, r % 5 > 0 ? r % 7 : 0, r % 5 > 1 ? r % 11 : 0, r % 5 > 2 ? r % 13 : 0,
                     r % 5 > 3 ? r % 24 : 0);
        for (int r = 0; r < 24; r++)
            memset(t.bytes + 8 * r + 2, 0, 5); /* each job has a rule with nothing after, the first one */
        use(&t);
        for (int r = 0; r < rules[i]; r += small_run() ? 17 : 1) {
            const uint8_t *rule = t.bytes + 8 * r;
            struct log l = { 0 };
            uint8_t plan[2] = { rule[0], 0 };
            add_moves(&l, move_of(rule), 1);
            CHECK_EQ(quick_replay(plan, 1, &l), rule[2] == 0 ? WHOLE : PART);
            for (int k = 0; k < rule[2]; k++) {
                add_moves(&l, 257 * (rule[3 + k] + 1), 1);
                CHECK_EQ(quick_replay(plan, 1, &l), k + 1 == rule[2] ? WHOLE : PART);
            }
            add_moves(&l, 257, 1);
            CHECK_EQ(quick_replay(plan, 1, &l), AT + 1 + rule[2]);
            CHECK_EQ(quick_replay(plan, 2, &l), WHOLE);
            plan[0] = (uint8_t)((rule[0] + 1 + r % 23) % 24);
            CHECK_EQ(quick_replay(plan, 2, &l), AT);
        }
    }
}

/* A plan of one or many jobs can make a 127 times in a number of ways that has dozens of digits, but not z after it. */
static void ways_beyond_number(const struct table *t)
{
    const size_t moves = small_run() ? 50 : LONGEST - 1;
    uint8_t plan[LONGEST + 2];
    struct log l = log_of_a(moves);
    use(t);
    add_moves(&l, 'z', 1);
    for (size_t n = 1; n <= LONGEST + 2; n += n == 1 ? LONGEST - 1 : 1) {
        for (size_t i = 0; i < n; i++)
            plan[i] = (uint8_t)(i % t->jobs);
        CHECK_EQ(quick_replay(plan, n, &l), AT + (int32_t)moves);
    }
}

/* Tables on which one move can be made in many ways. A program that tries one way after another would not end: it is stopped. */
static void choices_beyond_number(void)
{
    struct table t = table_new(1);
    uint8_t plan[100] = { 0 };
    struct log a128 = log_of_a(LONGEST), a127 = log_of_a(LONGEST - 1), a99 = log_of_a(99);
    alarm(120);
    rule0(&t, 0, 'a');
    rule1(&t, 0, 'a', 0);
    rule2(&t, 0, 'a', 0, 0);
    ways_beyond_number(&t);
    CHECK_EQ(quick_replay(plan, 1, &a128), WHOLE);
    CHECK_EQ(quick_replay(plan, 100, &a128), WHOLE);
    CHECK_EQ(quick_replay(plan, 100, &a99), PART);

    t = table_new(1); /* only odd numbers of a */
    rule2(&t, 0, 'a', 0, 0);
    rule0(&t, 0, 'a');
    ways_beyond_number(&t);
    CHECK_EQ(quick_replay(plan, 1, &a128), PART);
    CHECK_EQ(quick_replay(plan, 1, &a127), WHOLE);
    CHECK_EQ(quick_replay(plan, 2, &a128), WHOLE);
    CHECK_EQ(quick_replay(plan, 99, &a128), PART);

    t = table_new(2); /* two jobs that become each other; each a is a B too */
    rule2(&t, 0, 'a', 1, 0);
    rule2(&t, 0, 'a', 0, 1);
    rule0(&t, 0, 'a');
    rule2(&t, 1, 'a', 1, 0);
    rule2(&t, 1, 'a', 0, 1);
    rule0(&t, 1, 'a');
    ways_beyond_number(&t);
    CHECK_EQ(quick_replay(plan, 1, &a128), PART);
    CHECK_EQ(quick_replay(plan, 1, &a127), WHOLE);

    t = table_new(24); /* 252 rules that all make a */
    for (int k = 0; k < 252; k++)
        add_rule(&t, k % 24, 'a', k < 24 ? 0 : 1 + k % 4, k < 24 ? 0 : 7 * k % 24, k < 24 || k % 4 < 1 ? 0 : 5 * k % 24,
                 k < 24 || k % 4 < 2 ? 0 : 11 * k % 24, k < 24 || k % 4 < 3 ? 0 : k * k % 24);
    ways_beyond_number(&t);
    if (!small_run())
        CHECK_EQ(quick_replay(plan, 1, &a128), WHOLE);
    alarm(0);
}

/* Rules in another order, and written again, up to 252. */
static void rules_written_again(void)
{
    for (int round = 0; round < (small_run() ? 20 : 600); round++) {
        struct table t = some_table(round % 12), u = shuffled(&t, round % 3 == 0 ? 0 : 252);
        struct log l = { 0 };
        uint8_t plan[6];
        size_t n = random_plan(plan, t.jobs, 5);
        for (uint32_t moves = random_below(9); moves > 0; moves--)
            add_moves(&l, move_of(t.bytes + 8 * random_below((uint32_t)t.rules)), 1);
        use(&t);
        int32_t answer = quick_replay(plan, n, &l);
        CHECK(answer >= 0);
        use(&u);
        CHECK_EQ(quick_replay(plan, n, &l), answer);
    }
}

/* ---- logs of all lengths, and long plans */

/* A: a. Logs of each length on plans of up to 4,096 of them, with a wrong move at some place or none. */
static void logs_of_each_length(void)
{
    static const size_t plans[] = { 0, 1, 2, 62, 63, 64, 65, 126, 127, 128, 129, 130, 255, 256, 257, 384, 512, 4095, 4096 };
    static uint8_t plan[4097];
    struct table t = table_letters(1, 1);
    use(&t);
    for (size_t i = 0; i < sizeof plans / sizeof plans[0]; i++)
        for (size_t moves = 0; moves <= LONGEST; moves += small_run() && moves > 1 && moves % 63 > 1 ? 29 : 1) {
            const size_t n = plans[i];
            struct log l = log_of_a(moves);
            CHECK_EQ(quick_replay(plan, n, &l), n == moves ? WHOLE : n > moves ? PART : AT + (int32_t)n);
            if (moves == 0)
                continue;
            for (int k = 0; k < 3; k++) {
                size_t at = k == 0 ? 0 : k == 1 ? moves - 1 : random_below((uint32_t)moves);
                put_move(&l, at, NEVER);
                CHECK_EQ(quick_replay(plan, n, &l), AT + (int32_t)(at < n ? at : n));
                put_move(&l, at, 'a');
            }
        }
}

static const size_t sizes[] = { 0, 1, 63, 64, 65, 126, 127, 128 };
enum { SIZES = sizeof sizes / sizeof sizes[0] };

/* Whole, part and both kinds of place at these sizes, in areas of just their lengths; 129 moves are refused. */
static void whole_part_and_place_at_sizes(void)
{
    uint8_t plan[LONGEST + 2] = { 0 };
    for (int more = 0; more < 2; more++) {
        struct table t = table_letters(1, 1);
        if (more == 1)
            rule2(&t, 0, 'b', 0, 0);
        use(&t);
        for (size_t i = 0; i < SIZES; i++) {
            const size_t m = sizes[i];
            struct log l = log_of_a(m);
            CHECK_EQ(replay_in(plan, m, &l, SPACE), WHOLE);
            CHECK_EQ(replay_in(plan, m + 1, &l, SPACE + 1), PART);
            if (m == 0)
                continue;
            CHECK_EQ(replay_in(plan, m - 1, &l, SPACE), AT + (int32_t)m - 1);
            put_move(&l, m - 1, 'z');
            CHECK_EQ(replay_in(plan, m, &l, SPACE), AT + (int32_t)m - 1);
            CHECK_EQ(replay_in(plan, m + 1, &l, SPACE), AT + (int32_t)m - 1);
            put_move(&l, 0, 'z');
            CHECK_EQ(replay_in(plan, m, &l, SPACE), AT);
        }
        struct log l = log_of_a(LONGEST + 1);
        for (size_t n = 0; n < LONGEST + 2; n += LONGEST / 2)
            CHECK_EQ(replay_in(plan, n, &l, SPACE), -11);
        CHECK_EQ(replay_in(plan, LONGEST + 1, &l, SPACE), -11);
        l.moves = LONGEST; /* the move behind its end is not looked at */
        CHECK_EQ(quick_replay(plan, LONGEST, &l), WHOLE);
        CHECK_EQ(quick_replay(plan, LONGEST + 1, &l), PART);
    }
}

/* Few moves, and numbers about 64 and 128; in a short run, only some of them. */
static int looked_at(size_t moves)
{
    return moves < 6 || moves % 63 < 3 || (!small_run() && moves % 31 < 2);
}

/* One job that makes a, and after it is there 0 to 4 times, by each set of these five rules; runs by a set of lengths. */
static void one_job_at_sizes(void)
{
    for (int set = 1; set < 32; set += small_run() ? 10 : 2) {
        struct table t = table_new(1);
        for (int k = 0; k < 5; k++)
            if (set >> k & 1)
                add_rule(&t, 0, 'a', k, 0, 0, 0, 0);
        t = shuffled(&t, 0);
        use(&t);
        for (size_t n = 0; n < 4; n += small_run() ? 2 : 1) {
            uint8_t plan[3] = { 0 }, now[4 * LONGEST + 8] = { 0 };
            now[n] = 1; /* the plan may have this many jobs */
            for (size_t moves = 0; moves <= LONGEST; moves++) {
                struct log l = log_of_a(moves);
                uint8_t next[4 * LONGEST + 8] = { 0 };
                int any = 0;
                if (looked_at(moves))
                    CHECK_EQ(quick_replay(plan, n, &l), now[0] ? WHOLE : PART);
                for (size_t k = 1; k <= LONGEST; k++) /* more jobs than this never end within the log */
                    for (size_t after = 0; now[k] && after < 5; after++)
                        if (set >> after & 1)
                            next[k - 1 + after] = any = 1;
                if (!any) { /* nothing is left that makes a move */
                    add_moves(&l, 'a', 1);
                    CHECK_EQ(quick_replay(plan, n, &l), AT + (int32_t)moves);
                    break;
                }
                for (size_t k = LONGEST + 1; k < sizeof now; k++)
                    next[LONGEST] |= next[k];
                memcpy(now, next, sizeof now);
                if (moves < LONGEST && looked_at(moves)) {
                    add_moves(&l, 'b', 1);
                    CHECK_EQ(quick_replay(plan, n, &l), AT + (int32_t)moves);
                }
            }
        }
    }
}

/* A log of any odd number of bytes, and of more than 256, whatever stands in it. */
static void bytes_of_logs(void)
{
    static const size_t longer[] = { 640, 768, 1000, 1001, 2048, 4096, 5000, 8192, 32768, 65534, 65535, 65536, 65537, 65538,
                                     65792, 131072, 131074, 16777216, 16777218, 16777472 };
    uint8_t *bytes = calloc(16777472, 1), plan[] = { 0 };
    struct table t = table_letters(1, 1);
    use(&t);
    for (size_t len = 0; len < 600; len++) {
        memset(bytes, 0, 600);
        for (size_t i = 0; i < len; i += 2)
            bytes[i] = 'a';
        int32_t want = len > 256 || len % 2 != 0 ? -11 : len == 0 ? PART : len == 2 ? WHOLE : AT + 1;
        CHECK_EQ(quick_bytes(plan, 1, bytes, len), want);
        CHECK_EQ(quick_bytes(plan, 0, bytes, len), want == -11 ? -11 : len == 0 ? WHOLE : AT);
        if (len < 5 || (len > 252 && len < 262) || len == 599) {
            CHECK_EQ(replay_bytes(plan, 1, bytes, len, SPACE), want);
            CHECK_EQ(replay_bytes(plan, 1, bytes, len, SPACE + 5), want);
        }
    }
    for (size_t i = 0; i < sizeof longer / sizeof longer[0]; i++)
        CHECK_EQ(quick_bytes(plan, 1, bytes, longer[i]), -11);
    free(bytes);
}

/* Lengths whose low 32 bits are 0, 2 or 256. */
static void lengths_above_32_bits(void)
{
    static const size_t less[] = { 256, 254, 0 };
    struct area zeros = area_reserved(256);
    struct table t = table_letters(1, 1);
    uint8_t plan = 0;
    use(&t);
    for (size_t i = 0; i < 3 && zeros.bytes != NULL; i++) {
        CHECK_EQ(quick_bytes(&plan, 1, zeros.bytes, zeros.len - less[i]), -11);
        CHECK_EQ(quick_bytes(&plan, 0, zeros.bytes, zeros.len - less[i]), -11);
    }
    area_free(&zeros);
}

/* Plans of norm 4,096 and 4,097, of many jobs and of few; A: a; I: a 511 times; J: b, then I; K: c. */
static void plans_of_4096(void)
{
    struct table t = table_doubling(9);
    uint8_t *plan = calloc(4098, 1);
    struct log l = log_of_a(LONGEST);
    t.jobs = 11;
    rule1(&t, 9, 'b', 8);
    rule0(&t, 10, 'c');
    use(&t);
    run_replayed(plan, LONGEST, &l, 'b');
    for (size_t n = LONGEST + 1; n <= 4096; n += 3967) {
        CHECK_EQ(replay_in(plan, n, &l, SPACE), PART);
        for (size_t at = 0; at < LONGEST; at += small_run() ? 127 : 1) {
            put_move(&l, at, 'b');
            CHECK_EQ(quick_replay(plan, n, &l), AT + (int32_t)at);
            put_move(&l, at, 'a');
        }
    }
    CHECK_EQ(replay_in(plan, 4097, &l, SPACE), -9);
    CHECK_EQ(replay_bytes(plan, 4097, l.bytes, 0, SPACE), -9);
    CHECK_EQ(replay_bytes(plan, 4097, l.bytes, 1, SPACE), -9);
    CHECK_EQ(replay_bytes(plan, 4096, l.bytes, 1, SPACE), -11);
    plan[4095] = 11;
    CHECK_EQ(replay_in(plan, 4096, &l, SPACE), -8);
    CHECK_EQ(replay_in(plan, 4095, &l, SPACE), PART);
    CHECK_EQ(replay_bytes(plan, 4096, l.bytes, 0, SPACE), -8);

    memset(plan, 9, 9); /* eight jobs of norm 512 */
    put_move(&l, 0, 'b');
    CHECK_EQ(replay_in(plan, 8, &l, SPACE), PART);
    CHECK_EQ(replay_in(plan, 9, &l, SPACE), -9);
    put_move(&l, 0, 'a');
    CHECK_EQ(replay_in(plan, 8, &l, SPACE), AT);

    for (size_t ones = 126; ones <= 129; ones++) { /* so many of norm 1, then seven of norm 512, then one more job */
        memset(plan, 0, ones);
        memset(plan + ones, 9, 7);
        plan[ones + 7] = 10;
        l = log_of_a(LONGEST);
        CHECK_EQ(replay_in(plan, ones + 8, &l, SPACE), ones < LONGEST ? AT + (int32_t)ones : PART);
        if (ones < LONGEST)
            put_move(&l, ones, 'b');
        CHECK_EQ(replay_in(plan, ones + 8, &l, SPACE), PART);
        CHECK_EQ(replay_in(plan, ones, &l, SPACE), ones < LONGEST ? AT + (int32_t)ones : ones == LONGEST ? WHOLE : PART);
        put_move(&l, LONGEST - 1, 'c');
        CHECK_EQ(replay_in(plan, ones + 8, &l, SPACE), AT + LONGEST - 1);
    }
    free(plan);
}

/* ---- moves of two bytes */

static void each_bit_of_a_move(void)
{
    for (int bit = 0; bit < 16; bit++) {
        const int move = 'a' + 256 * 'b', other = move ^ 1 << bit;
        uint8_t plan[] = { 0, 1, 0 };
        struct table t = table_new(2);
        struct log l = { 0 };
        rule0(&t, 0, move);
        rule0(&t, 1, other);
        use(&t);
        add_moves(&l, move, 1);
        add_moves(&l, other, 1);
        add_moves(&l, move, 1);
        run_replayed(plan, 3, &l, move);
        run_replayed(plan, 3, &l, other);
        run_replayed(plan, 3, &l, 'b' + 256 * 'a');
        t = table_new(2); /* a choice by this bit */
        rule1(&t, 0, move, 1);
        rule0(&t, 0, other);
        rule0(&t, 1, move);
        use(&t);
        l.moves = 1;
        CHECK_EQ(replay_in(plan, 1, &l, SPACE), PART);
        put_move(&l, 0, other);
        CHECK_EQ(replay_in(plan, 1, &l, SPACE), WHOLE);
    }
}

/* Moves 0, 255, 256, 65,535, 'a' and 'a' + 256, each in the place of each, and each as from-move and as to-move. */
static void moves_at_the_edges(void)
{
    struct table t = table_edges();
    uint8_t plan[EDGES];
    use(&t);
    for (int j = 0; j < EDGES; j++)
        for (int k = 0; k < EDGES; k++) {
            const int from = move_of(t.bytes + 8 * j), to = move_of(t.bytes + 8 * k);
            struct log l = { 0 };
            for (int x = 0; x < EDGES; x++) {
                plan[x] = (uint8_t)((x + j) % EDGES);
                add_moves(&l, move_of(t.bytes + 8 * ((x + j) % EDGES)), 1);
            }
            list_len = 0;
            run_replayed(plan, EDGES, &l, to);
            if (j == k)
                continue;
            add_pair(from, to);
            put_move(&l, 0, to);
            CHECK_EQ(quick_replay(plan, EDGES, &l), WHOLE);
            for (size_t x = 1; x < EDGES; x++)
                if (move_in(&l, x) == to)
                    put_move(&l, x, from);
            CHECK_EQ(quick_replay(plan, EDGES, &l), WHOLE);
            put_pair(0, from, NEVER);
            CHECK_EQ(quick_replay(plan, EDGES, &l), AT);
        }
}

static void low_byte_first(void)
{
    static const uint8_t plan[] = { 0, 1 };
    struct table t = table_new(2);
    rule0(&t, 0, 0x6162);
    rule0(&t, 1, 0x6361);
    use(&t);
    CHECK_EQ(replay_bytes(plan, 2, (const uint8_t *)"baac", 4, SPACE), WHOLE);
    CHECK_EQ(replay_bytes(plan, 2, (const uint8_t *)"abac", 4, SPACE), AT);
    CHECK_EQ(replay_bytes(plan, 2, (const uint8_t *)"baca", 4, SPACE), AT + 1);
    CHECK_EQ(replay_bytes(plan, 2, (const uint8_t *)"baa", 3, SPACE), -11);
    CHECK_EQ(replay_bytes(plan, 2, (const uint8_t *)"ba", 2, SPACE), PART);
}

/* ---- alike lists */

/* A: a; B: b; C: c. What is replaced in the rules is replaced in the log, and what is in neither is let be. */
static void logs_under_lists(void)
{
    struct table t = table_letters(3, 3);
    use(&t);
    replayed("A", "b", AT);
    replayed("A", "z", AT);
    alike("ba"); /* from-moves in the log */
    replayed("A", "b", WHOLE);
    replayed("AB", "ba", WHOLE);
    replayed("BB", "aa", WHOLE); /* from-moves in the rules, to-moves in the log */
    replayed("BB", "bb", WHOLE); /* from-moves in both */
    replayed("BC", "bb", AT + 1);
    replayed("ABC", "bbcb", AT + 3);
    replayed("ABC", "bb", PART);
    alike("ab");
    replayed("A", "b", WHOLE);
    replayed("A", "a", WHOLE);
    replayed("B", "a", WHOLE);
    replayed("CAB", "cba", WHOLE);
    replayed("CAB", "aba", AT);
    alike("za"); /* a from-move that no rule makes */
    replayed("A", "z", WHOLE);
    replayed("A", "a", WHOLE);
    replayed("B", "z", AT);
    replayed("BAB", "bzb", WHOLE);
    replayed("BAB", "bzz", AT + 2);
    alike("az"); /* a to-move that no rule makes */
    replayed("A", "z", WHOLE);
    replayed("A", "a", WHOLE);
    replayed("B", "z", AT);
    replayed("BAB", "bzb", WHOLE);
    alike("azbz"); /* two from-moves for one that no rule makes */
    replayed("A", "b", WHOLE);
    replayed("B", "a", WHOLE);
    replayed("AB", "zz", WHOLE);
    replayed("ABC", "bac", WHOLE);
    replayed("ABC", "baz", AT + 2);
    alike("axby"); /* and for two */
    replayed("AB", "ab", WHOLE);
    replayed("AB", "xy", WHOLE);
    replayed("AB", "xb", WHOLE);
    replayed("AB", "b", AT);
    replayed("AB", "y", AT);
    replayed("AB", "aa", AT + 1);
    replayed("AB", "ax", AT + 1);
    alike("zbya"); /* the second pair counts too, and each for its own */
    replayed("AB", "yz", WHOLE);
    replayed("AB", "zy", AT);
    replayed("AB", "yy", AT + 1);
    alike("yz"); /* no move of the table in it */
    replayed("AB", "ab", WHOLE);
    replayed("AB", "ba", AT);
    replayed("AB", "y", AT);
}

/* Rules whose moves become one by a list are choices of one move. */
static void choices_made_by_lists(void)
{
    struct table t = table_new(5);
    rule1(&t, 0, 'a', 1);
    rule1(&t, 0, 'b', 2);
    rule1(&t, 0, 'c', 3);
    rule0(&t, 1, 'p');
    rule0(&t, 2, 'q');
    rule0(&t, 3, 'r');
    rule0(&t, 4, 's');
    use(&t);
    for (int k = 0; k < 9; k++) {
        struct log l = { 0 };
        uint8_t plan[] = { 0 };
        add_moves(&l, 'a' + k / 3, 1);
        add_moves(&l, 'p' + k % 3, 1);
        list_len = 0;
        CHECK_EQ(quick_replay(plan, 1, &l), k / 3 == k % 3 ? WHOLE : AT + 1);
        alike("baca");
        CHECK_EQ(quick_replay(plan, 1, &l), WHOLE);
        alike("ab");
        CHECK_EQ(quick_replay(plan, 1, &l), k / 3 == k % 3 || (k / 3 < 2 && k % 3 < 2) ? WHOLE : AT + 1);
        alike("axcx");
        CHECK_EQ(quick_replay(plan, 1, &l), k / 3 == k % 3 || (k / 3 != 1 && k % 3 != 1) ? WHOLE : AT + 1);
        alike("qprp");
        CHECK_EQ(quick_replay(plan, 1, &l), WHOLE);
    }
    alike("bacasr");
    replayed("AE", "aps", WHOLE);
    replayed("AE", "aqr", WHOLE);
    replayed("A", "as", WHOLE); /* s counts as r */
    replayed("AA", "bscs", WHOLE);
    replayed("AA", "bsck", AT + 3);
}

/* Lists of 1 to 32 pairs: A makes a, and each of the moves 300, 600 and so on counts as a by a pair of its own. */
static void each_pair_counts(void)
{
    uint8_t plan[PAIRS] = { 0 };
    struct table t = table_letters(1, 1);
    use(&t);
    for (size_t n = 1; n <= PAIRS; n += small_run() ? 31 : 1) {
        struct log l = { 0 };
        for (size_t k = 0; k < n; k++)
            add_moves(&l, 300 * ((int)k + 1), 1);
        for (size_t out = 0; out <= n; out++) {
            list_len = 0;
            for (size_t k = 0; k < n; k++)
                if (k != out)
                    add_pair(300 * ((int)k + 1), 'a');
            CHECK_EQ(quick_replay(plan, n, &l), out == n ? WHOLE : AT + (int32_t)out);
            shuffle_pairs();
            CHECK_EQ(quick_replay(plan, n, &l), out == n ? WHOLE : AT + (int32_t)out);
        }
    }
}

/* The same with the moves in the rules, and with a different to-move for each. */
static void each_pair_counts_in_rules(void)
{
    for (int same = 0; same < 2; same++) {
        struct table t = table_new(1);
        struct log l = { 0 };
        uint8_t plan[PAIRS] = { 0 };
        for (int k = 0; k < PAIRS; k++)
            rule0(&t, 0, 300 * (k + 1));
        use(&t);
        for (int k = 0; k < PAIRS; k++) {
            add_pair(300 * (k + 1), same ? 'a' : 20000 + 3 * k);
            add_moves(&l, same ? 'a' : 20000 + 3 * k, 1);
        }
        CHECK_EQ(replay_in(plan, PAIRS, &l, SPACE), WHOLE);
        for (size_t k = 0; k < PAIRS && !same; k++) {
            int from = from_of(k), to = to_of(k);
            put_pair(k, 9999, to);
            CHECK_EQ(quick_replay(plan, PAIRS, &l), AT + (int32_t)k);
            put_pair(k, from, to ^ 256);
            CHECK_EQ(quick_replay(plan, PAIRS, &l), AT + (int32_t)k);
            put_pair(k, from, to);
        }
    }
}

/* One bit of a from-move or a to-move, in the rule or in the log. */
static void each_bit_of_a_pair(void)
{
    static const uint8_t plan[] = { 0 };
    for (int bit = 0; bit < 16; bit++) {
        const int from = 'f' + 256 * 'g', to = 't' + 256 * 'u', wrong = 1 << bit;
        for (int in_rule = 0; in_rule < 2; in_rule++) {
            struct table t = table_new(1);
            struct log l = { 0 };
            rule0(&t, 0, in_rule ? from : to);
            use(&t);
            add_moves(&l, in_rule ? to : from, 1);
            CHECK_EQ(quick_replay(plan, 1, &l), AT);
            add_pair(from, to);
            CHECK_EQ(quick_replay(plan, 1, &l), WHOLE);
            put_pair(0, from ^ wrong, to);
            CHECK_EQ(quick_replay(plan, 1, &l), AT);
            put_pair(0, from, to ^ wrong);
            CHECK_EQ(quick_replay(plan, 1, &l), AT);
            put_pair(0, from ^ wrong, to ^ wrong);
            CHECK_EQ(quick_replay(plan, 1, &l), AT);
            put_pair(0, from, to);
            put_move(&l, 0, move_in(&l, 0) ^ wrong);
            CHECK_EQ(quick_replay(plan, 1, &l), AT);
        }
    }
}

/* Each move of a log of 128 is replaced. */
static void replaced_at_every_place(void)
{
    struct table t = table_letters(2, 2);
    uint8_t plan[LONGEST];
    struct log l = { 0 };
    use(&t);
    for (size_t k = 0; k < LONGEST; k++) {
        plan[k] = (uint8_t)(k % 3 == 0);
        add_moves(&l, plan[k] ? 'b' : k % 2 ? 'y' : 'a', 1);
    }
    CHECK_EQ(quick_replay(plan, LONGEST, &l), AT + 1);
    alike("ya");
    run_replayed(plan, LONGEST, &l, 'z');
    alike("yxax");
    run_replayed(plan, LONGEST, &l, 'z');
    alike("ay");
    run_replayed(plan, LONGEST, &l, 'z');
    alike("bxya");
    run_replayed(plan, LONGEST, &l, 'z');
    CHECK_EQ(list_len, 8);
}

/* Lists that are refused: lengths, and moves that clash, whatever plan and log are. */
static void refused_lists(void)
{
    static const char *const clash[] = { "aa", "zz", "bacb", "cbba", "baab", "baba", "babz", "xyyz", "yzxy", "xyxz" };
    uint8_t plan[] = { 0 };
    struct table t = table_letters(2, 2);
    struct log a = log_of("a"), none = log_of("");
    use(&t);
    for (size_t i = 0; i < sizeof clash / sizeof clash[0]; i++) {
        alike(clash[i]);
        CHECK_EQ(replay_in(plan, 1, &a, SPACE), -13);
        CHECK_EQ(replay_in(plan, 0, &none, SPACE), -13);
        CHECK_EQ(replay_in(plan, 1, &none, SPACE), -13);
        CHECK_EQ(replay_in(plan, 0, &a, SPACE), -13);
    }
    fill_list(PAIRS + 8);
    for (list_len = 0; list_len <= sizeof list; list_len++) {
        CHECK_EQ(quick_replay(plan, 1, &a), list_len > 128 || list_len % 4 != 0 ? -12 : WHOLE);
        CHECK_EQ(quick_replay(plan, 0, &none), list_len > 128 || list_len % 4 != 0 ? -12 : WHOLE);
    }
    memset(list, 0, sizeof list);
    for (list_len = 1; list_len <= sizeof list; list_len++)
        CHECK_EQ(quick_replay(plan, 1, &a), list_len > 128 || list_len % 4 != 0 ? -12 : -13);
}

/* ---- beside other ways to the answer */

enum { HELD = 400, TOO_MANY = -100 };

/* A set of plans. */
struct plans {
    size_t count, lens[HELD];
    uint8_t jobs[HELD][LONGEST + 1];
};

/* One plan more, unless it is there: a row of jobs and what is behind it, cut behind so many jobs. */
static int add_plan(struct plans *s, const uint8_t *row, size_t row_len, const uint8_t *behind, size_t behind_len, size_t cut)
{
    if (s->count == HELD)
        return 0;
    uint8_t *to = s->jobs[s->count];
    size_t n = 0;
    for (size_t i = 0; i < row_len && n < cut; i++)
        to[n++] = row[i];
    for (size_t i = 0; i < behind_len && n < cut; i++)
        to[n++] = behind[i];
    for (size_t i = 0; i < s->count; i++)
        if (s->lens[i] == n && memcmp(s->jobs[i], to, n) == 0)
            return 1;
    s->lens[s->count++] = n;
    return 1;
}

/*
 * The answer by the set of all plans that the log can lead to, move by move; TOO_MANY if there are too many. A plan is cut
 * behind as many jobs as there are moves left, and one more, which then stays.
 */
static int32_t by_sets(const struct table *t, const uint8_t *p, size_t n, const struct log *l)
{
    static struct plans sets[2];
    struct plans *now = &sets[0], *next = &sets[1];
    now->count = 0;
    add_plan(now, NULL, 0, p, n, l->moves + 1);
    for (size_t k = 0; k < l->moves; k++) {
        next->count = 0;
        for (size_t i = 0; i < now->count; i++)
            for (size_t r = 0; r < t->rules; r++) {
                const uint8_t *rule = t->bytes + 8 * r;
                if (now->lens[i] > 0 && rule[0] == now->jobs[i][0] && move_of(rule) == move_in(l, k)
                    && !add_plan(next, rule + 3, rule[2], now->jobs[i] + 1, now->lens[i] - 1, l->moves - k))
                    return TOO_MANY;
            }
        if (next->count == 0)
            return AT + (int32_t)k;
        struct plans *other = now;
        now = next;
        next = other;
    }
    for (size_t i = 0; i < now->count; i++)
        if (now->lens[i] == 0)
            return WHOLE;
    return PART;
}

/*
 * The answer by a chart, for long logs. begun(c, k, r, d)[i] says: after k moves, a job that began at place i by rule r may
 * be where d of the rule's jobs after are done; and done[k][d] the same of the plan's jobs.
 */
struct chart {
    const struct table *t;
    const uint8_t *plan;
    size_t n, wide;
    uint8_t *bytes, done[LONGEST + 1][LONGEST + 2];
};

static uint8_t *begun(const struct chart *c, size_t k, size_t r, size_t d)
{
    return c->bytes + c->wide * ((k * c->t->rules + r) * 5 + d);
}

/* After k moves a job that began at place i is done: who waited for it at place i goes on. */
static void job_done(struct chart *c, size_t k, size_t i, uint8_t job)
{
    for (size_t r = 0; r < c->t->rules; r++)
        for (size_t d = 0; d < c->t->bytes[8 * r + 2]; d++) {
            if (c->t->bytes[8 * r + 3 + d] != job)
                continue;
            const uint8_t *waited = begun(c, i, r, d);
            uint8_t *on = begun(c, k, r, d + 1);
            for (size_t b = 0; b < i; b++)
                on[b] |= waited[b];
        }
    for (size_t d = 0; d < c->n && d <= i; d++)
        if (c->plan[d] == job)
            c->done[k][d + 1] |= c->done[i][d];
}

/* The jobs that are done after k moves, for each place that they may have begun at, from the last one on. */
static void jobs_done(struct chart *c, size_t k)
{
    for (size_t i = k; i-- > 0;) {
        uint8_t jobs[24] = { 0 };
        for (size_t r = 0; r < c->t->rules; r++)
            jobs[c->t->bytes[8 * r]] |= begun(c, k, r, c->t->bytes[8 * r + 2])[i];
        for (uint8_t j = 0; j < 24; j++)
            if (jobs[j])
                job_done(c, k, i, j);
    }
}

/* The jobs that are waited for after k moves. */
static void waited_for(const struct chart *c, size_t k, uint8_t *jobs)
{
    memset(jobs, 0, 24);
    for (size_t d = 0; d < c->n && d <= k; d++)
        jobs[c->plan[d]] |= c->done[k][d];
    for (size_t r = 0; r < c->t->rules; r++)
        for (size_t d = 0; d < c->t->bytes[8 * r + 2]; d++)
            jobs[c->t->bytes[8 * r + 3 + d]] |= memchr(begun(c, k, r, d), 1, k) != NULL;
}

static int32_t by_chart(const struct table *t, const uint8_t *p, size_t n, const struct log *l)
{
    static struct chart c;
    int32_t answer = PART;
    memset(&c, 0, sizeof c);
    c.t = t;
    c.plan = p;
    c.n = n;
    c.wide = l->moves + 1;
    c.bytes = calloc(5 * c.wide * c.wide, t->rules);
    if (c.bytes == NULL)
        exit(1);
    c.done[0][0] = 1;
    for (size_t k = 0; k < l->moves && answer == PART; k++) {
        uint8_t jobs[24];
        int any = 0;
        waited_for(&c, k, jobs);
        for (size_t r = 0; r < t->rules; r++)
            if (jobs[t->bytes[8 * r]] && move_of(t->bytes + 8 * r) == move_in(l, k))
                any = begun(&c, k + 1, r, 0)[k] = 1;
        if (!any)
            answer = AT + (int32_t)k;
        jobs_done(&c, k + 1);
    }
    if (answer == PART && n <= l->moves && c.done[l->moves][n])
        answer = WHOLE;
    free(c.bytes);
    return answer;
}

/* A table of few moves and many rules, so that most moves are made by several of them, with rows of up to four jobs. */
static struct table random_choices(uint32_t jobs, uint32_t rules)
{
    struct table t = table_new(jobs);
    uint32_t used = 1 + random_below(3);
    for (uint32_t r = 0; r < rules; r++) {
        uint32_t job = r < jobs ? r : random_below(jobs), below = r < jobs ? (r < 8 ? r : 8) : jobs;
        int row[4] = { 0 }, after = below == 0 ? 0 : (int)random_below(r < jobs ? 3 : 5);
        for (int i = 0; i < after; i++)
            row[i] = (int)random_below(below);
        add_rule(&t, (int)job, random_move(used), after, row[0], row[1], row[2], row[3]);
    }
    return shuffled(&t, 0);
}

/* Moves by rules taken at random, until nothing is left or the log is full; towards its end by rules with few jobs. */
static struct log random_walk(const struct table *t, const uint8_t *p, size_t n, size_t longest)
{
    uint8_t now[6 * LONGEST];
    struct log l = { 0 };
    memcpy(now, p, n);
    while (n > 0 && l.moves < longest) {
        const uint8_t *taken = NULL;
        uint32_t seen = 0;
        for (size_t r = 0; r < t->rules; r++) {
            const uint8_t *rule = t->bytes + 8 * r;
            if (rule[0] != now[0])
                continue;
            if (random_below(++seen) == 0 || (n + 4 > longest - l.moves && rule[2] < taken[2]))
                taken = rule;
        }
        memmove(now + taken[2], now + 1, n - 1);
        memcpy(now, taken + 3, taken[2]);
        n = n - 1 + taken[2];
        add_moves(&l, move_of(taken), 1);
    }
    return l;
}

static int any_move(const struct table *t)
{
    uint32_t kind = random_below(4);
    return kind == 0 ? NEVER : kind == 1 ? random_move(MOVES) : move_of(t->bytes + 8 * random_below((uint32_t)t->rules));
}

/* A run as it is, or with a move changed, put in or left out; or any moves. Some give way to others that count as the same. */
static struct log random_log(const struct table *t, const uint8_t *p, size_t n, size_t longest)
{
    struct log l = random_walk(t, p, n, longest);
    uint32_t kind = random_below(6);
    size_t at = l.moves > 0 ? random_below((uint32_t)l.moves) : 0;
    if (l.moves > 8 && random_below(2) == 0)
        at = l.moves - 1 - at % 8;
    if (kind == 0 && l.moves > 0)
        put_move(&l, at, any_move(t));
    if (kind == 1 && l.moves > 0) {
        memmove(l.bytes + 2 * at, l.bytes + 2 * at + 2, 2 * (l.moves - at - 1));
        l.moves--;
    }
    if (kind == 2 && l.moves < longest) {
        memmove(l.bytes + 2 * at + 2, l.bytes + 2 * at, 2 * (l.moves - at));
        l.moves++;
        put_move(&l, at, any_move(t));
    }
    if (kind == 3)
        for (l.moves = 0; l.moves < longest && random_below(10) > 0;)
            add_moves(&l, any_move(t), 1);
    for (size_t k = 0; k < l.moves && list_len > 0; k++) {
        size_t pair = random_below((uint32_t)list_len / 4);
        if (to_of(pair) == counted(move_in(&l, k)))
            put_move(&l, k, random_below(2) ? from_of(pair) : to_of(pair));
    }
    return l;
}

static struct log counted_log(const struct log *l)
{
    struct log c = *l;
    for (size_t k = 0; k < c.moves; k++)
        put_move(&c, k, counted(move_in(l, k)));
    return c;
}

/* What the answer says about beginnings of the log. */
static void beginnings(const uint8_t *p, size_t n, const struct log *l, int32_t answer)
{
    struct log cut = *l;
    cut.moves = answer < AT ? random_below((uint32_t)l->moves + 1) : (size_t)(answer - AT);
    CHECK(quick_replay(p, n, &cut) < AT);
    if (answer < AT)
        return;
    cut.moves = (size_t)(answer - AT) + 1;
    CHECK_EQ(quick_replay(p, n, &cut), answer);
    cut.moves += random_below((uint32_t)(LONGEST - cut.moves) + 1);
    CHECK_EQ(quick_replay(p, n, &cut), answer);
}

/* Thousands of random tables, lists, plans and logs. */
static void beside_sets_of_plans(void)
{
    size_t seen[3] = { 0 }, places[16] = { 0 };
    for (int round = 0; round < (small_run() ? 200 : 12000); round++) {
        uint32_t jobs = 1 + random_below(4);
        struct table t = round % 3 == 0 ? random_table(jobs) : random_choices(jobs, jobs + 1 + random_below(3 * jobs)), u;
        uint8_t plan[5];
        use(&t);
        if (random_below(2) == 0)
            random_list();
        size_t n = random_plan(plan, jobs, 5);
        struct log l = random_log(&t, plan, n, 12), c = counted_log(&l);
        u = replaced(&t);
        int32_t want = by_sets(&u, plan, n, &c);
        if (want == TOO_MANY)
            continue;
        CHECK_EQ(quick_replay(plan, n, &l), want);
        beginnings(plan, n, &l, want);
        if (round % 20 == 0)
            CHECK_EQ(replay_in(plan, n, &l, SPACE + (size_t)round % 7), want);
        seen[want < AT ? want : AT]++;
        places[want < AT ? 0 : want]++;
    }
    CHECK(small_run() || (seen[PART] > 1000 && seen[WHOLE] > 1000 && seen[AT] > 1000));
    for (int k = 0; k < 8; k++)
        CHECK(small_run() || places[AT + k] > 30);
}

/* Tables with one job: sets of plans are small however long the log is. */
static void one_job_beside_sets(void)
{
    size_t seen[3] = { 0 }, late = 0;
    for (int round = 0; round < (small_run() ? 20 : 1500); round++) {
        struct table t = random_choices(1, 2 + random_below(6));
        uint8_t plan[3] = { 0 };
        size_t n = random_below(4);
        use(&t);
        struct log l = random_log(&t, plan, n, 60 + random_below(LONGEST - 59));
        int32_t want = by_sets(&t, plan, n, &l);
        CHECK_EQ(quick_replay(plan, n, &l), want);
        seen[want < AT ? want : AT] += l.moves > 60;
        late += want > AT + 60;
    }
    CHECK(small_run() || (seen[PART] > 40 && seen[WHOLE] > 40 && seen[AT] > 20 && late > 10));
}

/* Long logs on tables of several jobs, and one of them full; then each log with one of its last moves changed. */
static void long_logs_beside_charts(void)
{
    uint8_t plan[LONGEST / 2];
    size_t seen[3] = { 0 }, late = 0;
    for (int round = 0; round < (small_run() ? 6 : 200); round++) {
        uint32_t jobs = round == 7 ? 24 : 1 + random_below(6);
        struct table t = random_choices(jobs, jobs == 24 ? 252 : jobs + 1 + random_below(3 * jobs)), u;
        use(&t);
        if (random_below(2) == 0)
            random_list();
        u = replaced(&t);
        size_t n = random_plan(plan, jobs, jobs < 24 && random_below(4) == 0 ? LONGEST / 2 : 6);
        struct log l = random_log(&t, plan, n, small_run() ? 40 : 40 + random_below(LONGEST - 39));
        for (int changed = 0; changed < 2; changed++) {
            if (changed && l.moves > 0)
                put_move(&l, l.moves - 1 - random_below((uint32_t)(l.moves + 3) / 4), any_move(&t));
            struct log c = counted_log(&l);
            int32_t want = by_chart(&u, plan, n, &c);
            CHECK_EQ(quick_replay(plan, n, &l), want);
            beginnings(plan, n, &l, want);
            seen[want < AT ? want : AT]++;
            late += want > AT + 60;
        }
    }
    CHECK(small_run() || (seen[PART] > 20 && seen[WHOLE] > 20 && seen[AT] > 20 && late > 5));
}

/* The two other ways, beside each other. */
static void charts_beside_sets(void)
{
    for (int round = 0; round < (small_run() ? 50 : 2000); round++) {
        uint32_t jobs = 1 + random_below(3);
        struct table t = random_choices(jobs, jobs + random_below(2 * jobs + 1));
        uint8_t plan[4];
        size_t n = random_plan(plan, jobs, 4);
        list_len = 0;
        struct log l = random_log(&t, plan, n, 9);
        int32_t want = by_sets(&t, plan, n, &l);
        CHECK(want == TOO_MANY || by_chart(&t, plan, n, &l) == want);
    }
}

/* Under a list: the answer is that without one on the table and the log with their moves replaced; pairs in any order. */
static void beside_the_replaced_table(void)
{
    for (int round = 0; round < (small_run() ? 20 : 1500); round++) {
        struct table t = some_table(round % 24), u;
        uint8_t plan[6];
        use(&t);
        random_list();
        size_t n = random_plan(plan, t.jobs, 5);
        struct log l = random_log(&t, plan, n, 20), c = counted_log(&l);
        u = replaced(&t);
        int32_t answer = quick_replay(plan, n, &l);
        CHECK_EQ(quick_replay(plan, n, &c), answer); /* replaced moves stay as they are */
        shuffle_pairs();
        CHECK_EQ(quick_replay(plan, n, &l), answer);
        use(&u);
        CHECK_EQ(quick_replay(plan, n, &c), answer);
        CHECK(answer >= 0);
    }
}

/* Plans that are the same have the same runs. */
static void beside_prime_forms(void)
{
    for (int round = 0; round < (small_run() ? 20 : 1500); round++) {
        struct table t = some_table(round % 24);
        uint8_t plan[6], form[4096];
        use(&t);
        if (round % 2 == 0)
            random_list();
        size_t n = random_plan(plan, t.jobs, 5);
        struct log l = random_log(&t, plan, n, 30);
        int32_t m = gindrazoma_prime_form_alike(image, image_len, list, list_len, plan, n, form, sizeof form,
                                                one_space(), SPACE);
        CHECK(m >= 0);
        if (m >= 0)
            CHECK_EQ(quick_replay(form, (size_t)m, &l), quick_replay(plan, n, &l));
    }
}

/* A shortest run is whole and nothing shorter is; moves taken by index are a run. */
static void beside_runs_and_moves(void)
{
    for (int round = 0; round < (small_run() ? 20 : 300); round++) {
        struct table t = some_table(round % 24);
        uint8_t plan[8 * LONGEST], out[8192];
        use(&t);
        size_t n = random_plan(plan, t.jobs, 9);
        int32_t bytes = gindrazoma_shortest_run(image, image_len, plan, n, out, sizeof out);
        CHECK(bytes >= 0);
        for (int32_t len = 0; len <= bytes && len <= 256; len += 2)
            CHECK_EQ(quick_bytes(plan, n, out, (size_t)len), len == bytes ? WHOLE : PART);
        struct log l = { 0 };
        memcpy(out, plan, n);
        size_t left = n;
        for (size_t k = 0; k < 40 && left > 0; k++) {
            uint8_t move[sizeof plan];
            uint32_t index = 0;
            while (gindrazoma_nth_move(image, image_len, out, left, index, move, sizeof move) > 0)
                index++;
            left = (size_t)gindrazoma_nth_move(image, image_len, out, left, random_below(index), move, sizeof move) - 2;
            memcpy(out, move + 2, left);
            add_moves(&l, move[0] + 256 * move[1], 1);
            int32_t answer = quick_replay(plan, n, &l);
            CHECK(left == 0 ? answer == WHOLE : answer < AT);
        }
    }
}

/* ---- refusals */

enum { HALF_MOVE = DEFECTS, MANY_MOVES = 2 * DEFECTS, SETS = 4 * DEFECTS };

/* A plan and a log with the defects; without any, the log is the plan's run. The job that is none stands last, and first. */
static void first_defect_answered(int refusal, int set)
{
    uint8_t plan[10], bytes[1000] = { 0 };
    size_t n = set & HIGH_NORM ? 9 : 1, space_len = set & SHORT_SPACE ? SPACE - 1 : SPACE + (size_t)(set / 2 + refusal) % 3;
    size_t len = (set & MANY_MOVES ? 258 : 6) - (set & HALF_MOVE ? 1u : 0u);
    int first = first_refusal(refusal, set);
    if (first == 0 && set & (HALF_MOVE | MANY_MOVES))
        first = 11;
    for (size_t i = 0; i < sizeof bytes; i += 2)
        bytes[i] = 'a';
    memset(plan, set & HIGH_NORM ? 8 : 1, sizeof plan);
    if (set & NO_JOB)
        plan[n++] = 24;
    list_with(set);
    CHECK_EQ(replay_bytes(plan, n, bytes, len, space_len), first == 0 ? WHOLE : -first);
    if (refusal != 0)
        return;
    if (set & NO_JOB) {
        plan[0] = 255;
        CHECK_EQ(replay_bytes(plan, n, bytes, len, space_len), -first);
    }
    if (set & MANY_MOVES)
        CHECK_EQ(replay_bytes(plan, n, bytes, sizeof bytes - (set & HALF_MOVE ? 1u : 0u), space_len), -first);
    if (set & HALF_MOVE)
        CHECK_EQ(replay_bytes(plan, n, bytes, set & MANY_MOVES ? 257 : 1, space_len), -first);
}

/* An image alone, and with all other defects. */
static void image_answered(int refusal)
{
    first_defect_answered(refusal, 0);
    first_defect_answered(refusal, SETS - 1 - SHORT_SPACE);
    first_defect_answered(refusal, SETS - 1);
}

/* For every image and every set of defects, the one that comes first in the order is answered. */
static void order_of_refusals(void)
{
    every_defect(SETS, first_defect_answered);
    every_image(image_answered);
}

/* Damaged images, lists, plans and logs of any bytes: the first refusal, or the answer. */
static void random_refusals(void)
{
    int seen[16] = { 0 };
    for (int round = 0; round < (small_run() ? 40 : 1500); round++) {
        struct table t = table_full(24 + (int)random_below(229)), u;
        uint8_t plan[3] = { 0, 1, 2 }, bytes[270];
        size_t len = random_below(3) ? 2 * random_below(8) : random_below(sizeof bytes), n = random_below(4);
        use(&t);
        damage_image();
        if (random_below(5) == 0)
            plan[random_below(3)] = (uint8_t)(24 + random_below(232));
        if (random_below(2) == 0)
            list_of_any_bytes();
        for (size_t i = 0; i < len; i++)
            bytes[i] = i % 2 == 0 ? (uint8_t)(random_below(9) ? 'a' : 'b') : random_below(9) == 0;
        int refusal = refusal_in_force();
        for (size_t i = 0; i < n && refusal == 0; i++)
            refusal = plan[i] >= 24 ? 8 : 0;
        if (refusal == 0 && (len > 256 || len % 2 != 0))
            refusal = 11;
        int32_t got = replay_bytes(plan, n, bytes, len, SPACE + random_below(3));
        seen[refusal]++;
        if (refusal != 0) {
            CHECK_EQ(got, -refusal);
            continue;
        }
        CHECK(got >= 0 && got < AT + LONGEST);
        t = table_in_force(); /* an image that was changed may be accepted too */
        u = replaced(&t);
        struct log l = { len / 2, { 0 } };
        memcpy(l.bytes, bytes, len);
        l = counted_log(&l);
        int32_t want = by_sets(&u, plan, n, &l);
        CHECK(want == TOO_MANY || got == want);
    }
    static const int often[] = { 0, 3, 5, 8, 11, 12, 13 };
    for (size_t i = 0; i < sizeof often / sizeof often[0]; i++)
        CHECK(small_run() || seen[often[i]] > 10);
}

/* ---- areas */

static void workspaces(void)
{
    static const size_t shorter[] = { 0, 1, 32768, 65535 }, enough[] = { 65536, 65537, 70000, 131072, 200000 };
    const uint8_t p[] = { 2, 3 }, none[] = { 2, 4 };
    struct table t = table_t();
    struct log run = log_of("aaaba"), part = log_of("aaab"), left = log_of("aaaba");
    put_move(&left, 3, 'c');
    use(&t);
    alike("za");
    for (int i = 0; i < 4; i++) {
        CHECK_EQ(replay_in(p, 2, &run, shorter[i]), -1);
        CHECK_EQ(replay_bytes(none, 2, run.bytes, 5, shorter[i]), -1);
    }
    for (int i = 0; i < 5; i++) {
        CHECK_EQ(replay_in(p, 2, &run, enough[i]), WHOLE);
        CHECK_EQ(replay_in(p, 2, &part, enough[i]), PART);
        CHECK_EQ(replay_in(p, 2, &left, enough[i]), AT + 3);
        CHECK_EQ(replay_bytes(p, 2, run.bytes, 9, enough[i]), -11);
        CHECK_EQ(replay_in(none, 2, &run, enough[i]), -8);
        alike("zz");
        CHECK_EQ(replay_in(p, 2, &run, enough[i]), -13);
        list_len = 2;
        CHECK_EQ(replay_in(p, 2, &run, enough[i]), -12);
        image_len = 500;
        CHECK_EQ(replay_in(p, 2, &run, enough[i]), -2);
        image_len = 512;
        alike("za");
    }
}

/* Whatever the workspace held: each byte value all over, and the bytes that a call on another table would leave. */
static void workspaces_that_held_something(void)
{
    static uint8_t space[SPACE];
    static const uint8_t zeros[SPACE];
    const uint8_t p[] = { 0, 1 };
    struct table t = table_new(2); /* A: a or a A; B: b */
    struct log whole = log_of("aaab"), part = log_of("aaa"), left = log_of("aaac");
    rule0(&t, 0, 'a');
    rule1(&t, 0, 'a', 0);
    rule0(&t, 1, 'b');
    use(&t);
    for (int byte = 0; byte < 256; byte++)
        for (int k = 0; k < 3; k++) {
            const struct log *l = k == 0 ? &whole : k == 1 ? &part : &left;
            memset(space, byte, SPACE);
            for (size_t i = 0; i < SPACE && byte % 16 == 0; i++)
                space[i] = (uint8_t)random_number();
            CHECK_EQ(gindrazoma_replay_log(image, image_len, NULL, 0, p, 2, l->bytes, 2 * l->moves, space, SPACE),
                     k == 0 ? WHOLE : k == 1 ? PART : AT + 3);
            CHECK(memcmp(space, zeros, SPACE) == 0);
        }
}

static void null_with_length_0(void)
{
    uint8_t *space = one_space(), plan = 0;
    struct table t = table_letters(2, 2);
    struct log l = log_of("a");
    use(&t);
    CHECK_EQ(gindrazoma_replay_log(NULL, 0, NULL, 0, NULL, 0, NULL, 0, NULL, 0), -1);
    CHECK_EQ(gindrazoma_replay_log(NULL, 0, NULL, 0, NULL, 0, NULL, 0, space, SPACE), -2);
    CHECK_EQ(gindrazoma_replay_log(image, image_len, NULL, 0, NULL, 0, NULL, 0, NULL, 0), -1);
    CHECK_EQ(gindrazoma_replay_log(image, image_len, NULL, 0, NULL, 0, NULL, 0, space, SPACE), WHOLE);
    CHECK_EQ(gindrazoma_replay_log(image, image_len, NULL, 0, &plan, 1, NULL, 0, space, SPACE), PART);
    CHECK_EQ(gindrazoma_replay_log(image, image_len, NULL, 0, NULL, 0, l.bytes, 2, space, SPACE), AT);
    CHECK_EQ(gindrazoma_replay_log(image, image_len, NULL, 0, NULL, 0, l.bytes, 1, space, SPACE), -11);
    CHECK_EQ(gindrazoma_replay_log(image, image_len, NULL, 0, &plan, 1, l.bytes, 2, space, SPACE), WHOLE);
    CHECK_EQ(gindrazoma_replay_log(image, image_len, NULL, 0, &plan, 1, l.bytes, 0, space, SPACE), PART);
    alike("aa"); /* pairs that clash, and none of them given */
    CHECK_EQ(gindrazoma_replay_log(image, image_len, list, 0, &plan, 1, l.bytes, 2, space, SPACE), WHOLE);
    CHECK_EQ(gindrazoma_replay_log(image, image_len, list, 0, &plan, 0, NULL, 0, space, SPACE), WHOLE);
    CHECK_EQ(gindrazoma_replay_log(image, image_len, list, 4, NULL, 0, NULL, 0, space, SPACE), -13);
    CHECK_EQ(gindrazoma_replay_log(NULL, 0, list, 4, NULL, 0, NULL, 0, space, SPACE), -2);
    alike("ab");
    CHECK_EQ(gindrazoma_replay_log(image, image_len, list, 4, NULL, 0, NULL, 0, space, SPACE), WHOLE);
    CHECK_EQ(gindrazoma_replay_log(image, image_len, list, 4, &plan, 1, NULL, 0, space, SPACE), PART);
    CHECK_EQ(gindrazoma_replay_log(image, image_len, list, 0, &plan, 1, list + 2, 2, space, SPACE), AT);
    CHECK_EQ(gindrazoma_replay_log(image, image_len, list, 4, &plan, 1, list + 2, 2, space, SPACE), WHOLE);
}

/* Areas that are only read may coincide: the log with the plan, the list and bytes of the image. */
static void areas_that_coincide(void)
{
    uint8_t *space = one_space();
    struct table t = table_new(3);
    rule0(&t, 0, 'b'); /* bytes 3 and 4 of the image are a log of one move, and byte 4 is job 0 */
    rule0(&t, 1, 0);
    rule0(&t, 2, 1);
    use(&t);
    add_pair(0, 1); /* as a plan: AABA; as a log: 0 and 1 */
    struct area in = area_copy(image, image_len), both = area_copy(list, 4);
    CHECK_EQ(gindrazoma_replay_log(in.bytes, in.len, NULL, 0, in.bytes + 4, 1, in.bytes + 3, 2, space, SPACE), WHOLE);
    CHECK_EQ(gindrazoma_replay_log(in.bytes, in.len, NULL, 0, in.bytes + 4, 2, in.bytes + 3, 2, space, SPACE), PART);
    CHECK_EQ(gindrazoma_replay_log(in.bytes, in.len, NULL, 0, in.bytes + 4, 2, in.bytes + 3, 4, space, SPACE), AT + 1);
    CHECK_EQ(gindrazoma_replay_log(in.bytes, in.len, in.bytes + 3, 4, in.bytes + 4, 2, in.bytes + 3, 4, space, SPACE), WHOLE);
    CHECK_EQ(gindrazoma_replay_log(in.bytes, in.len, NULL, 0, in.bytes + 4, 2, in.bytes, in.len, space, SPACE), -11);
    CHECK_EQ(gindrazoma_replay_log(in.bytes, in.len, in.bytes, in.len, in.bytes, in.len, in.bytes, in.len, space, SPACE), -12);
    CHECK_EQ(gindrazoma_replay_log(in.bytes, in.len, NULL, 0, both.bytes + 2, 1, both.bytes, 4, space, SPACE), AT + 1);
    CHECK_EQ(gindrazoma_replay_log(in.bytes, in.len, NULL, 0, both.bytes + 1, 2, both.bytes, 4, space, SPACE), AT);
    CHECK_EQ(gindrazoma_replay_log(in.bytes, in.len, both.bytes, 4, both.bytes + 2, 1, both.bytes, 2, space, SPACE), WHOLE);
    CHECK_EQ(gindrazoma_replay_log(in.bytes, in.len, both.bytes, 4, both.bytes + 2, 1, both.bytes + 2, 2, space, SPACE), WHOLE);
    CHECK_EQ(gindrazoma_replay_log(in.bytes, in.len, both.bytes, 4, both.bytes + 2, 2, both.bytes, 4, space, SPACE), AT + 1);
    CHECK(area_same(&in) && area_same(&both));
    area_free(&in);
    area_free(&both);
}

/* Areas at addresses that are no multiple of anything. */
static void areas_at_any_address(void)
{
    static uint8_t bytes[4][600], space[SPACE + 16];
    struct table t = table_t();
    struct log l = log_of("zaaba");
    uint8_t plan[] = { 2, 3 };
    use(&t);
    alike("za");
    for (size_t at = 0; at < 256; at++) {
        uint8_t *in = bytes[0] + at % 4, *pairs = bytes[1] + at / 4 % 4, *p = bytes[2] + at / 16 % 4, *log = bytes[3] + at / 64;
        memcpy(in, image, 512);
        memcpy(pairs, list, 4);
        memcpy(p, plan, 2);
        memcpy(log, l.bytes, 10);
        memset(space, 255, sizeof space);
        CHECK_EQ(gindrazoma_replay_log(in, 512, pairs, 4, p, 2, log, 10, space + at % 16, SPACE), WHOLE);
        for (size_t i = 0; i < sizeof space && at < 16; i++)
            CHECK_EQ(space[i], i >= at && i < at + SPACE ? 0 : 255);
        CHECK_EQ(gindrazoma_replay_log(in, 512, pairs, 0, p, 2, log, 10, space + at % 16, SPACE), AT);
    }
}

/* In one workspace: each call answers as alone, whatever the call before was, a refused one and other calls among them. */
static void calls_one_after_another(void)
{
    static const struct { const char *list, *plan, *log; int32_t want; } calls[] = {
        { "", "AB", "ab", WHOLE },    { "", "AB", "a", PART },       { "", "AB", "b", AT },      { "", "AB", "aa", AT + 1 },
        { "ba", "AB", "bb", WHOLE },  { "ba", "AC", "bb", AT + 1 },  { "zb", "AB", "az", WHOLE }, { "", "", "", WHOLE },
        { "", "", "a", AT },          { "", "C", "", PART },         { "bb", "AB", "ab", -13 },  { "", "AD", "ab", -8 },
        { "", "CCCCCCCC", "cccccccc", WHOLE }, { "cb", "BBBBCCCC", "cccccccc", WHOLE }, { "", "BBBBCCCC", "bbbbbccc", AT + 4 },
    };
    enum { COUNT = sizeof calls / sizeof calls[0] };
    static uint8_t space[SPACE];
    struct table t = table_letters(3, 3);
    use(&t);
    for (int i = 0; i < 2 * COUNT * COUNT; i++) {
        int k = i % 2 == 0 ? i / 2 / COUNT : i / 2 % COUNT;
        uint8_t plan[8], other[] = { 2, 1 };
        size_t n = plan_of(calls[k].plan, plan);
        struct log l = log_of(calls[k].log);
        alike(calls[k].list);
        for (int again = 0; again < 2; again++)
            CHECK_EQ(gindrazoma_replay_log(image, image_len, list, list_len, plan, n, l.bytes, 2 * l.moves, space, SPACE),
                     calls[k].want);
        if (i % 3 == 0)
            CHECK_EQ(gindrazoma_compare(image, image_len, plan, n < 2 ? n : 2, other, 2, space, SPACE) < 0, calls[k].want == -8);
        if (i % 5 == 0)
            CHECK_EQ(gindrazoma_replay_log(image, image_len, NULL, 0, NULL, 0, l.bytes, 1, space, SPACE), -11);
        if (i % 7 == 0)
            CHECK_EQ(gindrazoma_replay_log(image, image_len - 1, NULL, 0, NULL, 0, l.bytes, 0, space, SPACE), -2);
    }
}

static const struct check_case cases[] = {
    { "table T", table_t_replayed },
    { "empty logs and empty plans", empty_logs_and_plans },
    { "runs cut, lengthened and changed, at every place", runs_at_every_place },
    { "choices that show 0 to 126 moves later", choices_that_show_later },
    { "choices of length, in each order", choices_of_length },
    { "one rule of 225 for a move", one_rule_of_many },
    { "a choice in each of 64 jobs", choices_in_a_row },
    { "choices in waiting jobs", choices_in_waiting_jobs },
    { "runs that read the same from behind", runs_that_read_the_same_from_behind },
    { "a job that is done at any place", done_at_any_place },
    { "whole comes before part", whole_before_part },
    { "runs that are not shortest", runs_that_are_not_shortest },
    { "each rule of one to four blocks", each_rule_of_four_blocks },
    { "choices beyond number", choices_beyond_number },
    { "rules in another order, and written again", rules_written_again },
    { "logs of 0 to 128 moves on plans of 0 to 4,096 jobs", logs_of_each_length },
    { "whole, part and place at 0, 1, 63 to 65 and 126 to 129 moves", whole_part_and_place_at_sizes },
    { "one job, runs of each length", one_job_at_sizes },
    { "odd numbers of bytes, and more than 256", bytes_of_logs },
    { "lengths above 32 bits", lengths_above_32_bits },
    { "plans of norm 4,096", plans_of_4096 },
    { "moves that differ in one bit", each_bit_of_a_move },
    { "moves 0, 255, 256 and 65,535", moves_at_the_edges },
    { "low byte first", low_byte_first },
    { "logs under lists", logs_under_lists },
    { "choices made by lists", choices_made_by_lists },
    { "each of 1 to 32 pairs counts in logs", each_pair_counts },
    { "each of 32 pairs counts in rules", each_pair_counts_in_rules },
    { "pairs that differ in one bit", each_bit_of_a_pair },
    { "moves replaced at every place", replaced_at_every_place },
    { "refused lists", refused_lists },
    { "beside sets of plans", beside_sets_of_plans },
    { "one job and long logs, beside sets of plans", one_job_beside_sets },
    { "long logs, beside charts", long_logs_beside_charts },
    { "charts beside sets of plans", charts_beside_sets },
    { "beside the table and the log with their moves replaced", beside_the_replaced_table },
    { "beside prime forms", beside_prime_forms },
    { "beside shortest runs and moves by index", beside_runs_and_moves },
    { "order of refusals: every set of defects", order_of_refusals },
    { "random logs, lists and refused images", random_refusals },
    { "workspaces of many lengths", workspaces },
    { "workspaces that held something", workspaces_that_held_something },
    { "NULL with length 0", null_with_length_0 },
    { "the log within plan, list and image", areas_that_coincide },
    { "areas at any address", areas_at_any_address },
    { "calls one after another", calls_one_after_another },
};

int main(void)
{
    return run_cases(cases, sizeof cases / sizeof cases[0]);
}
