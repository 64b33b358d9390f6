/* Norms of plans, moves by index and shortest runs. */
#include "check.h"
#include "gindrazoma.h"

#include <stdio.h>
#include <stdlib.h>
#include <string.h>

static int32_t norm_of(const uint8_t *plan, size_t len)
{
    struct area in = area_copy(image, image_len), p = area_copy(plan, len);
    int32_t got = gindrazoma_plan_norm(in.bytes, in.len, p.bytes, p.len);
    CHECK(area_same(&in) && area_same(&p));
    area_free(&in);
    area_free(&p);
    return got;
}

static int32_t norm_of_job(int job)
{
    uint8_t plan = (uint8_t)job;
    return norm_of(&plan, 1);
}

/* A plan of one job again and again. */
static uint8_t *repeated(int job, size_t len)
{
    uint8_t *plan = malloc(len);
    if (plan == NULL)
        exit(1);
    memset(plan, job, len);
    return plan;
}

static int32_t norm_of_repeated(int job, size_t len)
{
    uint8_t *plan = repeated(job, len);
    int32_t got = gindrazoma_plan_norm(image, image_len, plan, len);
    free(plan);
    return got;
}

/* The move at an index on an output area of a length; the output is held to what is wanted. */
static int32_t move_at(const uint8_t *plan, size_t len, uint32_t index, size_t out_len, const uint8_t *wanted, int32_t want)
{
    struct area in = area_copy(image, image_len), p = area_copy(plan, len), out = area_new(out_len);
    int32_t got = gindrazoma_nth_move(in.bytes, in.len, p.bytes, p.len, index, out.bytes, out.len);
    CHECK(area_same(&in) && area_same(&p));
    CHECK(area_kept(&out, got == want && want > 0 ? (size_t)want : 0));
    if (got == want && want > 0)
        CHECK(memcmp(out.bytes, wanted, (size_t)want) == 0);
    area_free(&in);
    area_free(&p);
    area_free(&out);
    return got;
}

/* From each place of `now` on, a row of jobs is done one after the other: `now` becomes the places at which it can be
   done. ends[j][i][f] says that job j, begun at place i of a run, can be done at place f. */
static void follow(const uint8_t *ends, size_t wide, const uint8_t *row, size_t len, uint8_t *now, uint8_t *next)
{
    for (size_t k = 0; k < len; k++) {
        memset(next, 0, wide);
        for (size_t e = 0; e < wide; e++)
            for (size_t f = e; now[e] && f < wide; f++)
                next[f] |= ends[(row[k] * wide + e) * wide + f];
        memcpy(now, next, wide);
    }
}

/* One rule taken at place i of the run; whether that says something new. */
static int take_rule(uint8_t *ends, size_t wide, const uint8_t *rule, size_t i, uint8_t *now, uint8_t *next)
{
    int news = 0;
    memset(now, 0, wide);
    now[i + 1] = 1;
    follow(ends, wide, rule + 3, rule[2], now, next);
    for (size_t f = 0; f < wide; f++) {
        uint8_t *end = &ends[(rule[0] * wide + i) * wide + f];
        news |= now[f] && !*end;
        *end |= now[f];
    }
    return news;
}

/* Whether moves, two bytes each, can lead from a plan to the empty plan. */
static int leads_to_end(const struct table *t, const uint8_t *plan, size_t len, const uint8_t *run, size_t moves)
{
    size_t wide = moves + 1;
    uint8_t *ends = calloc(24 * wide * wide, 1), *now = calloc(2 * wide, 1), *next = now + wide;
    if (ends == NULL || now == NULL)
        exit(1);
    for (size_t i = moves; i-- > 0;)
        for (int news = 1; news;) {
            news = 0;
            for (size_t r = 0; r < t->rules; r++)
                if (move_of(t->bytes + 8 * r) == run[2 * i] + 256 * run[2 * i + 1])
                    news |= take_rule(ends, wide, t->bytes + 8 * r, i, now, next);
        }
    memset(now, 0, wide);
    now[0] = 1;
    follow(ends, wide, plan, len, now, next);
    int done = now[moves];
    free(ends);
    free(now);
    return done;
}

/* A shortest run on output areas beyond, at and below its length; it is replayed if the table is given, and compared if its bytes
   are. */
static void run_of(const struct table *t, const uint8_t *plan, size_t len, size_t norm, const uint8_t *wanted)
{
    struct area in = area_copy(image, image_len), p = area_copy(plan, len);
    for (size_t beyond = 0; beyond < 3; beyond++) {
        struct area out = area_new(2 * norm + beyond);
        CHECK_EQ(gindrazoma_shortest_run(in.bytes, in.len, p.bytes, p.len, out.bytes, out.len), (int32_t)(2 * norm));
        CHECK(area_kept(&out, 2 * norm));
        if (t != NULL)
            CHECK(leads_to_end(t, plan, len, out.bytes, norm));
        if (wanted != NULL)
            CHECK(memcmp(out.bytes, wanted, 2 * norm) == 0);
        area_free(&out);
    }
    const size_t below[] = { 1, 2, norm, 2 * norm };
    for (int i = 0; norm > 0 && i < 4; i++) {
        struct area out = area_new(2 * norm - below[i]);
        CHECK_EQ(gindrazoma_shortest_run(in.bytes, in.len, p.bytes, p.len, out.bytes, out.len), -10);
        CHECK(area_kept(&out, 0));
        area_free(&out);
    }
    CHECK(area_same(&in) && area_same(&p));
    area_free(&in);
    area_free(&p);
}

/* The first shortest run of a plan has these moves, two bytes each. */
static void run_is(const uint8_t *plan, size_t len, const uint8_t *wanted, size_t bytes)
{
    run_of(NULL, plan, len, bytes / 2, wanted);
}

static void norms_of_table_t(void)
{
    struct table t = table_t();
    use(&t);
    const int32_t wanted[] = { 1, 2, 3, 2, -8, -8 };
    for (int j = 0; j < 6; j++)
        CHECK_EQ(norm_of_job(j), wanted[j]);
    CHECK_EQ(norm_of((const uint8_t *)"\2\3", 2), 5);
    CHECK_EQ(norm_of(NULL, 0), 0);
}

static void norms_511_512_513(void)
{
    struct table t = table_doubling(9);
    use(&t);
    CHECK_EQ(norm_of_job(8), 511);
    t.jobs = 10;
    rule1(&t, 9, 'a', 8);
    use(&t);
    CHECK_EQ(norm_of_job(9), 512);
    t.jobs = 11;
    rule1(&t, 10, 'a', 9);
    use(&t);
    CHECK_EQ(norm_of_job(0), -7);
    rule0(&t, 10, 'b');
    use(&t);
    CHECK_EQ(norm_of_job(10), 1);
    t = table_doubling(10);
    use(&t);
    CHECK_EQ(norm_of_job(0), -7);
    CHECK_EQ(norm_of(NULL, 0), -7);
}

/* Jobs whose norms, taken modulo 2^8, 2^16 or 2^32, would be small again. */
static void sums_that_wrap(void)
{
    struct table t = table_doubling(16);
    t.jobs = 18;
    rule1(&t, 16, 'a', 15); /* 2^16 */
    rule1(&t, 17, 'a', 16);
    use(&t);
    CHECK_EQ(norm_of_job(17), -7);

    t = table_new(18);
    rule0(&t, 0, 'a');
    for (int k = 1; k < 16; k++)
        add_rule(&t, k, 'a', 4, k - 1, k - 1, k - 1, k - 1);
    add_rule(&t, 16, 'a', 3, 15, 15, 15, 0); /* 1 + 3 * (4^16 - 1) / 3 = 2^32 */
    rule1(&t, 17, 'a', 16);
    use(&t);
    CHECK_EQ(norm_of_job(17), -7);
    rule0(&t, 17, 'a');
    use(&t);
    CHECK_EQ(norm_of_job(17), -7);

    t = table_new(24);
    rule0(&t, 0, 'a');
    for (int k = 1; k < 24; k++)
        add_rule(&t, k, 'a', 4, k - 1, k - 1, k - 1, k - 1);
    use(&t);
    CHECK_EQ(norm_of_job(0), -7);

    t = table_doubling(9); /* 255 + 1 and 511: nothing wraps at 2^8 */
    t.jobs = 10;
    rule1(&t, 9, 'a', 7);
    use(&t);
    CHECK_EQ(norm_of_job(9), 256);
}

static void plans_of_4096(void)
{
    struct table t = table_doubling(9);
    t.jobs = 10;
    rule1(&t, 9, 'a', 8);
    use(&t);
    CHECK_EQ(norm_of_repeated(9, 8), 4096);
    CHECK_EQ(norm_of_repeated(9, 9), -9);
    CHECK_EQ(norm_of((const uint8_t *)"\11\11\11\11\11\11\11\11\0", 9), -9); /* 4,097 */
    CHECK_EQ(norm_of_repeated(0, 4095), 4095);
    CHECK_EQ(norm_of_repeated(0, 4096), 4096);
    CHECK_EQ(norm_of_repeated(0, 4097), -9);
    CHECK_EQ(norm_of_repeated(0, 65536), -9);
    CHECK_EQ(norm_of_repeated(9, 128), -9); /* 2^16 */
    if (!small_run()) {
        CHECK_EQ(norm_of_repeated(9, 8388608), -9); /* 2^32 */
        CHECK_EQ(norm_of_repeated(9, 8388616), -9); /* 2^32 + 4096 */
    }
}

static void no_such_job(void)
{
    struct table t = table_t();
    use(&t);
    const size_t lens[] = { 1, 2, 4096, 4097, 5000, 70000 };
    for (size_t i = 0; i < sizeof lens / sizeof lens[0]; i++) {
        const size_t places[] = { 0, lens[i] / 2, lens[i] - 1 };
        for (int k = 0; k < 3; k++) {
            uint8_t *plan = repeated(0, lens[i]), out[4];
            plan[places[k]] = (uint8_t)(k == 1 ? 255 : 4);
            CHECK_EQ(gindrazoma_plan_norm(image, image_len, plan, lens[i]), -8);
            CHECK_EQ(gindrazoma_shortest_run(image, image_len, plan, lens[i], out, 0), -8);
            CHECK_EQ(gindrazoma_nth_move(image, image_len, plan, lens[i], 0, out, 0), -8);
            free(plan);
        }
    }
}

/* The move at an index, on output areas beyond, at and below its length. */
static void move_is(const uint8_t *plan, size_t len, uint32_t index, const uint8_t *wanted, size_t need)
{
    for (size_t beyond = 0; beyond < 3; beyond++)
        CHECK_EQ(move_at(plan, len, index, need + beyond, wanted, (int32_t)need), (int32_t)need);
    CHECK_EQ(move_at(plan, len, index, need - 1, NULL, -10), -10);
    CHECK_EQ(move_at(plan, len, index, 0, NULL, -10), -10);
}

/* There is no move at an index and beyond it, whatever the length of the output area. */
static void no_move_from(const uint8_t *plan, size_t len, uint32_t index)
{
    const uint32_t beyond[] = { 0, 1, 255, 256, 65535, 65536 };
    for (size_t i = 0; i < 6; i++)
        CHECK_EQ(move_at(plan, len, index + beyond[i], i * 10, NULL, 0), 0);
    CHECK_EQ(move_at(plan, len, 4294967295u, 9, NULL, 0), 0);
}

/* Whether the rule at a place stands at an earlier one, too. */
static int stands_before(const struct table *t, size_t place)
{
    for (size_t r = 0; r < place; r++)
        if (memcmp(t->bytes + 8 * r, t->bytes + 8 * place, 8) == 0)
            return 1;
    return 0;
}

/* Every index of every first job, with and without jobs behind it. */
static void every_move(const struct table *t)
{
    use(t);
    for (uint32_t j = 0; j < t->jobs; j++) {
        for (size_t behind = 0; behind < 4; behind++) {
            uint8_t plan[4] = { (uint8_t)j, 0, (uint8_t)(t->jobs - 1), 0 }, wanted[16];
            uint32_t index = 0;
            for (size_t r = 0; r < t->rules; r++) {
                const uint8_t *p = t->bytes + 8 * r;
                if (p[0] != j || stands_before(t, r))
                    continue;
                wanted[0] = p[1];
                wanted[1] = p[7];
                memcpy(wanted + 2, p + 3, p[2]);
                memcpy(wanted + 2 + p[2], plan + 1, behind);
                move_is(plan, 1 + behind, index, wanted, 2u + p[2] + behind);
                index++;
            }
            no_move_from(plan, 1 + behind, index);
        }
    }
}

static void moves(void)
{
    const int rules[] = { 24, 63, 64, 252 };
    struct table t = table_t();
    every_move(&t);
    t = table_s();
    every_move(&t);
    t = table_xyz();
    every_move(&t);
    for (int i = 0; i < 4; i++) {
        t = table_full(rules[i]);
        every_move(&t);
    }
    t = table_new(1); /* one job with many moves, and each of them twice, to different rows */
    for (int i = 0; i < 252; i++)
        add_rule(&t, 0, i / 2 * 513, i % 4, 0, 0, 0, 0);
    every_move(&t);
    t = table_edges();
    every_move(&t);
}

/* A plan that makes the moves 0, 255, 256, 65,535 and two with equal low bytes: the bytes of the only run, and of each move. */
static void moves_of_two_bytes(void)
{
    static const uint8_t run[2 * EDGES] = { 0, 0, 255, 0, 0, 1, 255, 255, 'a', 0, 'a', 1 };
    static const uint8_t plan[EDGES] = { 0, 1, 2, 3, 4, 5 };
    struct table t = table_edges();
    use(&t);
    for (size_t n = 0; n < sizeof run + 4; n++) {
        struct area out = area_new(n);
        size_t used = n < sizeof run ? 0 : sizeof run;
        CHECK_EQ(gindrazoma_shortest_run(image, image_len, plan, EDGES, out.bytes, out.len), used == 0 ? -10 : (int32_t)used);
        CHECK(area_kept(&out, used));
        CHECK(used == 0 || memcmp(out.bytes, run, used) == 0);
        area_free(&out);
    }
    for (uint8_t k = 0; k < EDGES; k++) {
        const uint8_t two[] = { k, 5 }, wanted[] = { run[2 * k], run[2 * k + 1], 5 };
        CHECK_EQ(move_at(two, 2, 0, 3, wanted, 3), 3);
        CHECK_EQ(move_at(two, 2, 0, 2, NULL, -10), -10);
        CHECK_EQ(move_at(two, 1, 0, 2, wanted, 2), 2);
        CHECK_EQ(move_at(two, 1, 0, 1, NULL, -10), -10);
    }
}

static void moves_of_long_plans(void)
{
    struct table t = table_new(1);
    rule0(&t, 0, 0);
    add_rule(&t, 0, 65535, 4, 0, 0, 0, 0);
    use(&t);
    uint8_t *plan = repeated(0, 4097), wanted[4101] = { 0 };
    CHECK_EQ(move_at(plan, 4096, 0, 4097, wanted, 4097), 4097);
    CHECK_EQ(move_at(plan, 4096, 0, 4096, NULL, -10), -10);
    wanted[0] = wanted[1] = 255;
    CHECK_EQ(move_at(plan, 4096, 1, GINDRAZOMA_MOVE_MAX, wanted, 4101), 4101);
    CHECK_EQ(move_at(plan, 4096, 1, 4100, NULL, -10), -10);
    CHECK_EQ(move_at(plan, 4096, 2, 4101, NULL, 0), 0);
    CHECK_EQ(move_at(plan, 4097, 0, 4101, NULL, -9), -9);
    CHECK_EQ(move_at(plan, 4097, 9, 0, NULL, -9), -9);
    free(plan);
}

/* A move as it is written: two bytes, and the remaining plan. */
struct shown {
    size_t len;
    uint8_t bytes[12];
};

/* The moves of a plan are these and no others. */
static void moves_are(const uint8_t *plan, size_t len, const struct shown *moves, uint32_t count)
{
    for (uint32_t i = 0; i < count; i++)
        move_is(plan, len, i, moves[i].bytes, moves[i].len);
    no_move_from(plan, len, count);
}

/* Rules that are written twice or three times, next to one another and with others between them. */
static void rules_written_again(void)
{
    static const uint8_t plan[] = { 1, 0 };
    static const struct shown side_by_side[] = { { 4, { 'a', 0, 0, 0 } }, { 5, { 'b', 2, 0, 1, 0 } }, { 3, { 'c', 0, 0 } } };
    struct table t = table_new(2);
    rule1(&t, 1, 'a', 0);
    rule1(&t, 1, 'a', 0);
    rule0(&t, 0, 'd');
    for (int i = 0; i < 3; i++)
        rule2(&t, 1, 'b' + 512, 0, 1);
    rule0(&t, 1, 'c');
    rule0(&t, 1, 'c');
    use(&t);
    moves_are(plan, 2, side_by_side, 3);

    static const struct shown mixed[] = { { 3, { 'c', 0, 0 } }, { 4, { 'a', 0, 1, 0 } }, { 3, { 'b', 0, 0 } }, { 3, { 'd', 0, 0 } } };
    t = table_new(2);
    rule0(&t, 1, 'c');
    rule1(&t, 1, 'a', 1);
    rule0(&t, 1, 'c');
    rule0(&t, 1, 'b');
    rule0(&t, 0, 'd');
    rule1(&t, 1, 'a', 1);
    rule0(&t, 1, 'c');
    rule0(&t, 1, 'd');
    rule0(&t, 1, 'b');
    use(&t);
    moves_are(plan, 2, mixed, 4);
}

/* 252 rules in four blocks. Job 1 has three different ones, one of them at the first and last place of each block; those of job 0
   are all different. */
static void repeated_in_other_blocks(void)
{
    static const struct shown of_job_1[] = { { 4, { 'a', 1, 0, 2 } }, { 3, { 'b', 0, 2 } }, { 6, { 'c', 0, 1, 1, 0, 2 } } };
    static const uint8_t plan_1[] = { 1, 2 }, plan_0[] = { 0, 1 };
    struct table t = table_new(3);
    for (int i = 0; i < 252; i++) {
        if (i % 63 == 0 || i % 63 == 62)
            rule1(&t, 1, 'a' + 256, 0);
        else if (i == 64 || i == 124 || i == 190)
            rule0(&t, 1, 'b');
        else if (i == 249)
            add_rule(&t, 1, 'c', 3, 1, 1, 0, 0);
        else if (i == 250)
            rule0(&t, 2, 'a');
        else
            rule0(&t, 0, 257 * i);
    }
    use(&t);
    moves_are(plan_1, 2, of_job_1, 3);
    uint32_t index = 0;
    for (size_t i = 0; i < 252; i++) {
        const uint8_t wanted[] = { (uint8_t)i, (uint8_t)i, 1 };
        if (t.bytes[8 * i] == 0)
            move_is(plan_0, 2, index++, wanted, 3);
    }
    CHECK_EQ(index, 239);
    no_move_from(plan_0, 2, 239);
}

/* One job with 252 rules that are all one rule; and with 251 such ones before another. */
static void one_rule_252_times(void)
{
    static const struct shown one[] = { { 4, { 'a', 3, 0, 0 } } }, two[] = { { 7, { 'z', 0, 0, 0, 0, 0, 0 } }, { 3, { 'a', 3, 0 } } };
    static const uint8_t plan[] = { 0, 0, 0 };
    struct table t = table_new(1);
    for (int i = 0; i < 252; i++)
        rule0(&t, 0, 'a' + 768);
    use(&t);
    moves_are(plan, 3, one, 1);
    for (uint32_t i = 1; i <= 252; i++)
        CHECK_EQ(move_at(plan, 3, i, 4, NULL, 0), 0);
    t = table_new(1);
    for (int i = 0; i < 251; i++)
        add_rule(&t, 0, 'z', 4, 0, 0, 0, 0);
    rule0(&t, 0, 'a' + 768);
    use(&t);
    moves_are(plan, 2, two, 2);
}

/* One job with 252 rules: each so many times, next to one another or as far apart as can be. */
static void many_rules_of_one_job(void)
{
    static const uint8_t plan[] = { 0, 0 };
    const int times[] = { 1, 2, 3, 4, 126 };
    for (int k = 0; k < 10; k += small_run() ? 3 : 1) {
        const int different = 252 / times[k / 2];
        struct table t = table_new(1);
        for (int i = 0; i < 252; i++)
            rule0(&t, 0, 65535 - 257 * (k % 2 ? i % different : i / times[k / 2]));
        use(&t);
        for (int i = 0; i < different; i++) {
            const uint8_t wanted[] = { (uint8_t)(255 - i), (uint8_t)(255 - i), 0 };
            move_is(plan, 2, (uint32_t)i, wanted, 3);
        }
        no_move_from(plan, 2, (uint32_t)different);
    }
    struct table t = table_repeated();
    every_move(&t);
}

/* One move to rows that are beginnings of one another, or differ in one job; all of them written again behind. */
static void equal_moves_with_different_rows(void)
{
    static const struct shown moves[] = {
        { 3, { 'a', 0, 1 } },
        { 4, { 'a', 0, 0, 1 } },
        { 5, { 'a', 0, 0, 0, 1 } },
        { 6, { 'a', 0, 0, 0, 0, 1 } },
        { 7, { 'a', 0, 0, 0, 0, 0, 1 } },
        { 4, { 'a', 0, 1, 1 } },
        { 5, { 'a', 0, 1, 0, 1 } },
        { 5, { 'a', 0, 0, 1, 1 } },
        { 7, { 'a', 0, 0, 0, 0, 1, 1 } },
        { 7, { 'a', 0, 0, 0, 1, 0, 1 } },
        { 7, { 'a', 0, 0, 1, 0, 0, 1 } },
        { 7, { 'a', 0, 1, 0, 0, 0, 1 } },
    };
    static const uint8_t plan[] = { 0, 1 };
    struct table t = table_new(2);
    for (int again = 0; again < 2; again++) {
        for (int after = 0; after <= 4; after++)
            add_rule(&t, 0, 'a', after, 0, 0, 0, 0);
        rule1(&t, 0, 'a', 1);
        rule2(&t, 0, 'a', 1, 0);
        rule2(&t, 0, 'a', 0, 1);
        for (int place = 3; place >= 0; place--)
            add_rule(&t, 0, 'a', 4, place == 0, place == 1, place == 2, place == 3);
        rule0(&t, 1, 'a');
    }
    use(&t);
    moves_are(plan, 2, moves, 12);
}

/* One row after a move and after those that differ from it in one bit of either byte; all of them written again behind. */
static void equal_rows_with_different_moves(void)
{
    static const uint8_t plan[] = { 0, 1 }, low = 'a', high = 5, as_it_is[] = { 'a', 5, 1, 1 };
    struct table t = table_new(2);
    rule0(&t, 1, 'b');
    for (int again = 0; again < 2; again++) {
        rule1(&t, 0, low + 256 * high, 1);
        for (int bit = 0; bit < 16; bit++)
            rule1(&t, 0, (low + 256 * high) ^ (1 << bit), 1);
    }
    use(&t);
    move_is(plan, 2, 0, as_it_is, 4);
    for (uint32_t bit = 0; bit < 8; bit++) {
        const uint8_t in_low[] = { (uint8_t)(low ^ (1 << bit)), high, 1, 1 }, in_high[] = { low, (uint8_t)(high ^ (1 << bit)), 1, 1 };
        move_is(plan, 2, 1 + bit, in_low, 4);
        move_is(plan, 2, 9 + bit, in_high, 4);
    }
    no_move_from(plan, 2, 17);
}

/* Rows of one job, of no job too, before waiting jobs that are that one: the remaining plans differ in their lengths only. */
static void rows_that_go_on_behind(void)
{
    static const uint8_t ones[] = { 1, 1, 1, 1, 1, 1, 1, 1, 1, 1, 1 };
    struct table t = table_new(2);
    for (int i = 0; i < 10; i++)
        add_rule(&t, 0, 'a', i % 5, i % 5 > 0, i % 5 > 1, i % 5 > 2, i % 5 > 3);
    rule0(&t, 1, 'b');
    use(&t);
    for (size_t behind = 0; behind < 8; behind++) {
        uint8_t plan[8] = { 0 }, wanted[2 + sizeof ones] = { 'a', 0 };
        memcpy(plan + 1, ones, behind);
        memcpy(wanted + 2, ones, sizeof ones);
        for (uint32_t row = 0; row < 5; row++)
            move_is(plan, 1 + behind, row, wanted, 2 + row + behind);
        no_move_from(plan, 1 + behind, 5);
    }

    static const uint8_t plan[] = { 0, 2 };
    static const struct shown moves[] = { { 3, { 'c', 0, 2 } }, { 4, { 'c', 0, 2, 2 } } };
    t = table_new(3);
    for (int again = 0; again < 2; again++) {
        rule0(&t, 0, 'c');
        rule1(&t, 0, 'c', 2);
    }
    rule0(&t, 1, 'b');
    rule0(&t, 2, 'd');
    use(&t);
    moves_are(plan, 2, moves, 2);
}

/* The move and row of one job's rule under other jobs, before and behind it: each of them is a move of its own job. */
static void repeated_under_another_job(void)
{
    static const struct shown moves[] = { { 4, { 'a', 0, 3, 3 } }, { 3, { 'b', 0, 3 } } };
    static const uint8_t threes[] = { 3, 3 };
    struct table t = table_new(4);
    for (int again = 0; again < 2; again++)
        for (int j = 0; j < 3; j++)
            rule1(&t, j, 'a', 3);
    for (int j = 3; j >= 0; j--)
        rule0(&t, j, 'b');
    use(&t);
    for (uint8_t j = 0; j < 3; j++) {
        const uint8_t plan[] = { j, 3 };
        moves_are(plan, 2, moves, 2);
    }
    moves_are(threes, 2, moves + 1, 1);
}

/* A move of the most bytes that stands behind a repeated rule. */
static void long_plan_behind_a_repeated_rule(void)
{
    struct table t = table_new(1);
    for (int i = 0; i < 70; i++)
        rule0(&t, 0, 1);
    add_rule(&t, 0, 65535, 4, 0, 0, 0, 0);
    use(&t);
    uint8_t *plan = repeated(0, 4097), wanted[4101] = { 255, 255 };
    move_is(plan, 4096, 1, wanted, 4101);
    no_move_from(plan, 4096, 2);
    CHECK_EQ(move_at(plan, 4097, 1, 4101, NULL, -9), -9);
    plan[4096] = 1;
    CHECK_EQ(move_at(plan, 4097, 1, 4101, NULL, -8), -8);
    free(plan);
}

/* Norms and shortest runs are those of the table without the repeated rules, and the reader gives all rules. */
static void repeated_rules_change_nothing_else(void)
{
    struct table t = table_doubling(5);
    for (int i = 5; i < 252; i++) {
        memcpy(t.bytes + 8 * i, t.bytes + 8 * (i % 5), 8);
        t.rules++;
    }
    use(&t);
    const int32_t norms[] = { 1, 3, 7, 15, 31 };
    for (int j = 0; j < 5; j++)
        CHECK_EQ(norm_of_job(j), norms[j]);
    run_of(&t, (const uint8_t *)"\3\0\2", 3, 23, NULL);
    uint8_t out[GINDRAZOMA_READ_MAX];
    CHECK_EQ(gindrazoma_read_image(image, image_len, out, sizeof out), 2017);
    CHECK_EQ(out[0], 5);
    CHECK(memcmp(out + 1, t.bytes, 2016) == 0);
}

static void shortest_runs(void)
{
    struct table tables[] = { table_t(), table_s(), table_xyz(), table_full(24), table_full(252), table_edges() };
    for (size_t i = 0; i < sizeof tables / sizeof tables[0]; i++) {
        const struct table *t = &tables[i];
        use(t);
        for (int n = 0; n < (small_run() ? 3 : 30); n++) {
            uint8_t plan[5];
            size_t len = random_below(6);
            for (size_t k = 0; k < len; k++)
                plan[k] = (uint8_t)random_below(t->jobs);
            int32_t norm = gindrazoma_plan_norm(image, image_len, plan, len);
            CHECK(norm >= (int32_t)len);
            if (norm >= 0)
                run_of(t, plan, len, (size_t)norm, NULL);
        }
    }
}

/* Plans with one shortest run only. */
static void only_runs(void)
{
    struct table t = table_new(4);
    add_rule(&t, 3, 'd', 4, 1, 2, 0, 1);
    rule2(&t, 2, 'x', 2, 2);
    rule2(&t, 2, 'c', 0, 1);
    rule0(&t, 1, 'b');
    rule0(&t, 0, 'a');
    use(&t);
    const struct { uint8_t plan[2]; size_t len; const char *run; } runs[] = {
        { { 0, 0 }, 1, "a" }, { { 2, 0 }, 1, "cab" }, { { 3, 0 }, 1, "dbcabab" }, { { 2, 1 }, 2, "cabb" }, { { 0, 3 }, 2, "adbcabab" },
    };
    for (size_t i = 0; i < sizeof runs / sizeof runs[0]; i++) {
        uint8_t out[16];
        size_t moves = strlen(runs[i].run);
        CHECK_EQ(gindrazoma_shortest_run(image, image_len, runs[i].plan, runs[i].len, out, sizeof out), (int32_t)(2 * moves));
        for (size_t k = 0; k < moves; k++) {
            CHECK_EQ(out[2 * k], runs[i].run[k]);
            CHECK_EQ(out[2 * k + 1], 0);
        }
    }
}

static void long_runs(void)
{
    struct table t = table_doubling(9);
    t.jobs = 10;
    rule1(&t, 9, 'b' + 256, 8);
    use(&t);
    uint8_t *plan = repeated(9, 8), *ones = repeated(0, 4096);
    run_of(NULL, plan, 8, 4096, NULL);
    run_of(NULL, ones, 4096, 4096, NULL);
    uint8_t out[GINDRAZOMA_RUN_MAX];
    CHECK_EQ(gindrazoma_shortest_run(image, image_len, plan, 8, out, sizeof out), 8192);
    for (int i = 0; i < 4096; i++)
        CHECK_EQ(out[2 * i] + 256 * out[2 * i + 1], i % 512 == 0 ? 'b' + 256 : 'a');
    CHECK_EQ(gindrazoma_shortest_run(image, image_len, ones, 4096, out, sizeof out), 8192);
    free(plan);
    free(ones);
}

/* Rules with one move, told apart by the second, third or fourth move; the run that comes first is by the rule in the middle. */
static void ties_settled_later(void)
{
    static const uint8_t two[] = { 4 }, two_run[] = { 'm', 0, 'b', 0 };
    static const uint8_t three[] = { 5, 3 }, three_run[] = { 'm', 0, 'b', 0, 'c', 0, 'd', 0 };
    static const uint8_t four[] = { 3, 6, 4 }, four_run[] = { 'd', 0, 'm', 0, 'b', 0, 'b', 0, 'a', 0, 'm', 0, 'b', 0 };
    struct table t = table_letters(7, 4);
    rule1(&t, 4, 'm', 2);
    rule1(&t, 4, 'm', 1);
    rule1(&t, 4, 'm', 3);
    rule1(&t, 4, 'n', 0);
    rule2(&t, 5, 'm', 1, 3);
    rule2(&t, 5, 'm', 2, 0);
    rule2(&t, 5, 'm', 1, 2);
    rule2(&t, 5, 'm', 3, 0);
    rule2(&t, 5, 'n', 0, 0);
    add_rule(&t, 6, 'm', 3, 1, 2, 0, 0);
    add_rule(&t, 6, 'm', 3, 1, 1, 3, 0);
    add_rule(&t, 6, 'm', 3, 1, 1, 0, 0);
    add_rule(&t, 6, 'm', 3, 1, 3, 0, 0);
    add_rule(&t, 6, 'm', 3, 2, 0, 0, 0);
    use(&t);
    run_is(two, 1, two_run, sizeof two_run);
    run_is(three, 2, three_run, sizeof three_run);
    run_is(four, 3, four_run, sizeof four_run);
}

/* Rows whose jobs end at different places: the runs differ inside of a job on both sides. */
static void ties_across_the_ends_of_jobs(void)
{
    static const uint8_t plan[] = { 4, 5 };
    static const uint8_t run[] = { 'm', 0, 'a', 0, 'b', 0, 'a', 0, 'a', 0, 'b', 0, 'n', 0, 'a', 0, 'b', 0, 'a', 0, 'a', 0 };
    struct table t = table_letters(6, 2);
    rule1(&t, 2, 'a', 1);          /* ab */
    rule2(&t, 3, 'a', 1, 0);       /* aba */
    rule2(&t, 4, 'm', 2, 3);       /* m ab aba */
    rule2(&t, 4, 'm', 3, 2);       /* m aba ab */
    add_rule(&t, 4, 'm', 4, 2, 0, 1, 1);
    add_rule(&t, 5, 'n', 4, 0, 1, 1, 0);
    rule2(&t, 5, 'n', 2, 2);       /* n ab ab */
    rule2(&t, 5, 'n', 3, 0);       /* n aba a */
    add_rule(&t, 5, 'n', 3, 0, 1, 2, 0);
    use(&t);
    run_is(plan, 2, run, sizeof run);
}

/* Two chains of jobs with equal moves down to their last jobs; then behind other jobs of the rows, too. */
static void ties_settled_in_nested_jobs(void)
{
    static const uint8_t plan[] = { 8 }, run[] = { 's', 0, 'r', 0, 'q', 0, 'p', 0, 'a', 0 };
    static const uint8_t both[] = { 9 }, both_run[] = { 'm', 0, 'q', 0, 'p', 0, 'a', 0, 'q', 0, 'p', 0, 'a', 0, 'a', 0 };
    struct table t = table_letters(10, 2);
    rule1(&t, 2, 'p', 1);
    rule1(&t, 3, 'p', 0);
    rule1(&t, 4, 'q', 2);
    rule1(&t, 5, 'q', 3);
    rule1(&t, 6, 'r', 4);
    rule1(&t, 7, 'r', 5);
    rule1(&t, 8, 's', 6);
    rule1(&t, 8, 's', 7);
    add_rule(&t, 9, 'm', 3, 4, 5, 0, 0);
    add_rule(&t, 9, 'm', 3, 5, 4, 0, 0);
    add_rule(&t, 9, 'm', 3, 5, 5, 1, 0);
    add_rule(&t, 9, 'm', 3, 5, 5, 0, 0);
    add_rule(&t, 9, 'm', 3, 5, 4, 1, 0);
    use(&t);
    run_is(plan, 1, run, sizeof run);
    run_is(both, 1, both_run, sizeof both_run);
}

/* Job 11 of norm 512 by four rules, of which each makes 511 times 'a'. The last moves are z, y, w and x; w is seven jobs deep. */
static struct table table_last_of_512(void)
{
    struct table t = table_doubling(8); /* job 7 has norm 255 */
    t.jobs = 21;
    for (int k = 0; k < 3; k++)
        rule0(&t, 8 + k, 'z' - k);
    add_rule(&t, 11, 'a', 3, 7, 7, 8, 0);
    add_rule(&t, 11, 'a', 3, 7, 7, 9, 0);
    rule2(&t, 11, 'a', 12, 13);
    add_rule(&t, 11, 'a', 3, 7, 7, 10, 0);
    rule1(&t, 12, 'a', 7); /* 256 */
    for (int k = 0; k < 7; k++)
        rule2(&t, 13 + k, 'a', 6 - k, 14 + k); /* 255 and 127 to 3 */
    rule0(&t, 20, 'w');
    return t;
}

/* The bytes of runs of job 11. */
static void fill_runs_of_512(uint8_t *run, int jobs)
{
    for (int i = 0; i < 512 * jobs; i++) {
        run[2 * i] = i % 512 == 511 ? 'w' : 'a';
        run[2 * i + 1] = 0;
    }
}

static void tie_settled_in_the_last_move_of_512(void)
{
    static const uint8_t plan[] = { 11, 11, 11, 11, 11, 11, 11, 11 };
    static uint8_t run[8192];
    struct table t = table_last_of_512();
    use(&t);
    fill_runs_of_512(run, 8);
    run_is(plan, 1, run, 1024);
    run_is(plan, 8, run, 8192);
}

/* The least move is that of a rule that does not lower the norm; or such a rule has an equal move and jobs with lesser ones. */
static void lesser_moves_that_do_not_lower(void)
{
    static const uint8_t plan[] = { 2, 3, 1, 4 }, run[] = { 'k', 0, 'b', 0, 'l', 0, 'b', 0, 'b', 0, 'b', 0, 'n', 0, 'k', 0, 'b', 0 };
    struct table t = table_letters(5, 2);
    rule1(&t, 1, 'a', 1);
    rule1(&t, 1, 0, 0);
    rule2(&t, 2, 'a', 0, 0);
    rule1(&t, 2, 'k', 1);
    rule1(&t, 2, 'a', 2);
    rule2(&t, 2, 'k', 0, 0);
    add_rule(&t, 3, 0, 4, 3, 2, 1, 0);
    add_rule(&t, 3, 'l', 4, 0, 0, 0, 0);
    rule2(&t, 3, 'l', 1, 1);
    rule2(&t, 3, 'l', 0, 2);
    rule1(&t, 4, 'a', 3);
    rule1(&t, 4, 'n', 2);
    rule1(&t, 4, 'm', 4);
    use(&t);
    run_is(plan, 4, run, sizeof run);
}

/* Of two moves the lesser number, whatever their bytes are, as a first move and as a later one; with the rules in either order. */
static void numbers_and_not_bytes(void)
{
    static const int moves[][2] = {
        { 0x00ff, 0x0100 }, { 0x0001, 0x0100 }, { 0x0101, 0x0200 }, { 0x7fff, 0x8000 }, { 0x0000, 0xffff }, { 0x12ff, 0x1300 },
        { 0x0061, 0x0161 }, { 0xfe61, 0xff61 }, { 0x0000, 0x0001 }, { 0x0000, 0x0100 }, { 0xff00, 0xff01 }, { 0xfeff, 0xff00 },
    };
    static const uint8_t plan[] = { 0, 3, 0 };
    for (size_t i = 0; i < 2 * (sizeof moves / sizeof moves[0]); i++) {
        const int first = moves[i / 2][0], low = first % 256, high = first / 256;
        const uint8_t run[] = { (uint8_t)low, (uint8_t)high, 'm', 1, 'a', 0, (uint8_t)low, (uint8_t)high, (uint8_t)low, (uint8_t)high };
        struct table t = table_new(5);
        for (int k = 0; k < 2; k++) {
            const int job = (i % 2 == 0) == (k == 0);
            rule0(&t, 0, moves[i / 2][job]);
            rule0(&t, 1 + job, moves[i / 2][job]);
            rule2(&t, 3, 'm' + 256, 4, 1 + job);
        }
        rule0(&t, 4, 'a');
        use(&t);
        run_is(plan, 3, run, sizeof run);
    }
}

static void rules_in_another_order(void)
{
    static const uint8_t plan[] = { 4, 5 }, long_plan[] = { 11 };
    static const uint8_t run[] = { 'm', 0, 'b', 0, 'b', 0, 'c', 0, 'm', 0, 'b', 0, 'm', 0, 'b', 0, 'b', 0, 'c', 0, 'b', 0 };
    static uint8_t long_run[1024];
    const struct table last = table_last_of_512();
    struct table t = table_letters(6, 4);
    for (int k = 1; k < 27; k++) /* the rows of three letters b to d, but for bbb */
        add_rule(&t, 4, 'm', 3, 1 + k / 9, 1 + k / 3 % 3, 1 + k % 3, 0);
    for (int k = 1; k < 4; k++)
        add_rule(&t, 5, 'm', 3, k, 4, k, 0);
    rule1(&t, 5, 'a', 5);
    fill_runs_of_512(long_run, 1);
    for (int n = 0; n < (small_run() ? 2 : 100); n++) {
        const struct table other = shuffled(&t, n % 2 == 0 ? 0 : 252), other_last = shuffled(&last, n % 2 == 0 ? 252 : 0);
        use(&other);
        run_is(plan, 2, run, sizeof run);
        use(&other_last);
        run_is(long_plan, 1, long_run, sizeof long_run);
    }
}

/* Equal runs by a rule that is written twice, by rows in another order, and by rows of other jobs with equal runs; before and behind
   the rules whose run comes first, which are two as well. */
static void equal_runs_by_different_rules(void)
{
    static const uint8_t plan[] = { 5, 4 }, run[] = { 'm', 0, 'a', 0, 'a', 0, 'a', 0, 'a', 0, 'b', 0, 'a', 0, 'a', 0, 'a', 0 };
    struct table t = table_letters(6, 3);
    rule2(&t, 3, 'a', 0, 0); /* aaa, and so is job 4 */
    for (int again = 0; again < 2; again++) {
        rule2(&t, 4, 'a', 0, 0);
        add_rule(&t, 5, 'm', 3, 0, 3, 2, 0);
        add_rule(&t, 5, 'm', 3, 4, 0, 2, 0);
        add_rule(&t, 5, 'm', 3, 3, 0, 1, 0);
        add_rule(&t, 5, 'm', 3, 0, 4, 1, 0);
        add_rule(&t, 5, 'm', 3, 3, 0, 2, 0);
        add_rule(&t, 5, 'm', 3, 3, 1, 0, 0);
    }
    use(&t);
    run_is(plan, 2, run, sizeof run);

    static const uint8_t all_equal[] = { 'a', 0, 'a', 0, 'a', 0, 'a', 0, 'a', 0, 'a', 0, 'a', 0, 'a', 0 };
    static const uint8_t eight[] = { 3 };
    t = table_doubling(3); /* norms 1, 3, 7 */
    t.jobs = 4;
    rule1(&t, 3, 'a', 2);
    rule2(&t, 3, 'b', 2, 0);
    add_rule(&t, 3, 'a', 3, 1, 1, 0, 0);
    add_rule(&t, 3, 'a', 3, 0, 1, 1, 0);
    add_rule(&t, 3, 'a', 3, 1, 0, 1, 0);
    use(&t);
    run_is(eight, 1, all_equal, sizeof all_equal);
}

/* One job with 252 rules, the first run at each place of them: by the first move alone; and by two more moves of 225 rows. */
static void first_run_at_any_place(void)
{
    static const uint8_t plan[] = { 0 };
    for (int at = 0; at < 252; at += small_run() ? 63 : 1) {
        struct table t = table_new(1);
        for (int i = 0; i < 252; i++)
            rule0(&t, 0, 300 + 250 * ((i + 252 - at) % 252));
        use(&t);
        run_is(plan, 1, (const uint8_t[]){ 300 % 256, 300 / 256 }, 2);
    }
    for (int at = 0; at < 225; at += small_run() ? 56 : 1) {
        struct table t = table_new(16);
        for (int j = 1; j < 16; j++)
            rule0(&t, j, 255 * j);
        for (int i = 0; i < 225; i++) {
            const int row = (i + 225 - at) % 225;
            rule2(&t, 0, 65535, 1 + row / 15, 1 + row % 15);
        }
        use(&t);
        run_is(plan, 1, (const uint8_t[]){ 255, 255, 255, 0, 255, 0 }, 6);
    }
}

/* 4,096 jobs of norm 1 with three moves each; and 3,584 of them behind one of norm 512. */
static void first_runs_of_4096_moves(void)
{
    static uint8_t run[8192];
    struct table t = table_last_of_512();
    rule0(&t, 8, 'a' + 256);
    rule0(&t, 8, 'b');
    use(&t);
    uint8_t *plan = repeated(8, 4096);
    for (int i = 0; i < 8192; i++)
        run[i] = i % 2 == 0 ? 'b' : 0;
    run_is(plan, 4096, run, sizeof run);
    for (int i = 0; i < 512; i++)
        run[2 * i] = i == 511 ? 'b' : 'a';
    plan[0] = 11;
    run_is(plan, 3585, run, sizeof run);
    free(plan);
}

static void null_with_length_0(void)
{
    struct table t = table_t();
    uint8_t plan[1] = { 0 }, out[4];
    use(&t);
    CHECK_EQ(gindrazoma_plan_norm(NULL, 0, plan, 1), -2);
    CHECK_EQ(gindrazoma_plan_norm(image, image_len, NULL, 0), 0);
    CHECK_EQ(gindrazoma_shortest_run(NULL, 0, NULL, 0, NULL, 0), -2);
    CHECK_EQ(gindrazoma_shortest_run(image, image_len, NULL, 0, NULL, 0), 0);
    CHECK_EQ(gindrazoma_shortest_run(image, image_len, plan, 1, NULL, 0), -10);
    CHECK_EQ(gindrazoma_nth_move(NULL, 0, NULL, 0, 0, NULL, 0), -2);
    CHECK_EQ(gindrazoma_nth_move(image, image_len, NULL, 0, 0, out, 4), 0);
    CHECK_EQ(gindrazoma_nth_move(image, image_len, NULL, 0, 0, NULL, 0), 0);
    CHECK_EQ(gindrazoma_nth_move(image, image_len, plan, 1, 1, NULL, 0), 0);
    CHECK_EQ(gindrazoma_nth_move(image, image_len, plan, 1, 0, NULL, 0), -10);
}

static void refused_images(void)
{
    int rounds = small_run() ? 100 : 5000;
    for (int n = 0; n < rounds; n++) {
        struct table t = table_full(24 + (int)random_below(229));
        use(&t);
        size_t block = random_below((uint32_t)(image_len / 512));
        image[512 * block + random_below(512)] = (uint8_t)random_below(70);
        if (random_below(4) != 0)
            seal(image + 512 * block);
        int refusal = refusal_of_image(image, image_len);
        uint8_t plan[2] = { 24, 0 }, out[8] = { 9, 9, 9, 9, 9, 9, 9, 9 };
        int32_t want = refusal != 0 ? -refusal : -8; /* 8 comes after them all */
        CHECK_EQ(norm_of(plan, 2), want);
        CHECK_EQ(gindrazoma_shortest_run(image, image_len, plan, 2, out, 8), want);
        CHECK_EQ(gindrazoma_nth_move(image, image_len, plan, 2, 0, out, 8), want);
        for (int i = 0; i < 8; i++)
            CHECK_EQ(out[i], 9);
    }
}

static const struct check_case cases[] = {
    { "norms of table T", norms_of_table_t },
    { "norms 511, 512, 513 and 1,023", norms_511_512_513 },
    { "sums that would wrap", sums_that_wrap },
    { "plans of norm 4,096 and more", plans_of_4096 },
    { "no such job, anywhere", no_such_job },
    { "every index of every first job", moves },
    { "moves of two bytes", moves_of_two_bytes },
    { "moves of long plans", moves_of_long_plans },
    { "rules written again", rules_written_again },
    { "repeated rules in other blocks", repeated_in_other_blocks },
    { "one rule 252 times", one_rule_252_times },
    { "252 rules of one job", many_rules_of_one_job },
    { "equal moves with different rows", equal_moves_with_different_rows },
    { "equal rows with different moves", equal_rows_with_different_moves },
    { "rows that go on in the jobs behind", rows_that_go_on_behind },
    { "a rule repeated under another job", repeated_under_another_job },
    { "a long plan behind a repeated rule", long_plan_behind_a_repeated_rule },
    { "repeated rules change nothing else", repeated_rules_change_nothing_else },
    { "shortest runs, replayed", shortest_runs },
    { "plans with one shortest run", only_runs },
    { "runs of 4,096 moves", long_runs },
    { "ties settled by a later move", ties_settled_later },
    { "ties across the ends of jobs", ties_across_the_ends_of_jobs },
    { "ties settled in nested jobs", ties_settled_in_nested_jobs },
    { "a tie settled in the last move of 512", tie_settled_in_the_last_move_of_512 },
    { "lesser moves that do not lower the norm", lesser_moves_that_do_not_lower },
    { "moves in order of numbers, not of bytes", numbers_and_not_bytes },
    { "rules in another order", rules_in_another_order },
    { "equal runs by different rules", equal_runs_by_different_rules },
    { "the first run at any place of 252 rules", first_run_at_any_place },
    { "first runs of 4,096 moves", first_runs_of_4096_moves },
    { "NULL with length 0", null_with_length_0 },
    { "refused images", refused_images },
};

int main(void)
{
    return run_cases(cases, sizeof cases / sizeof cases[0]);
}
