/* Comparing plans and writing prime forms: answers, refusals, and every byte of workspace and output. */
#include "check.h"
#include "gindrazoma.h"

#include <stdio.h>
#include <stdlib.h>
#include <string.h>

static int32_t compare_in(const uint8_t *p, size_t m, const uint8_t *q, size_t n, size_t space_len)
{
    struct area in = area_copy(image, image_len), left = area_copy(p, m), right = area_copy(q, n), space = area_new(space_len);
    int32_t got = gindrazoma_compare(in.bytes, in.len, left.bytes, left.len, right.bytes, right.len, space.bytes, space.len);
    CHECK(area_same(&in) && area_same(&left) && area_same(&right));
    space_left(&space, got);
    area_free(&in);
    area_free(&left);
    area_free(&right);
    area_free(&space);
    return got;
}

static int32_t form_in(const uint8_t *p, size_t n, const uint8_t *wanted, int32_t want, size_t out_len, size_t space_len)
{
    struct area in = area_copy(image, image_len), plan = area_copy(p, n), out = area_new(out_len), space = area_new(space_len);
    int32_t got = gindrazoma_prime_form(in.bytes, in.len, plan.bytes, plan.len, out.bytes, out.len, space.bytes, space.len);
    CHECK(area_same(&in) && area_same(&plan));
    CHECK(area_kept(&out, got == want && want > 0 ? (size_t)want : 0));
    if (got == want && want > 0)
        CHECK(memcmp(out.bytes, wanted, (size_t)want) == 0);
    space_left(&space, got);
    area_free(&in);
    area_free(&plan);
    area_free(&out);
    area_free(&space);
    return got;
}

static void compared(const char *left, const char *right, int32_t want)
{
    uint8_t p[64], q[64];
    size_t m = plan_of(left, p), n = plan_of(right, q);
    CHECK_EQ(compare_in(p, m, q, n, SPACE), want);
    CHECK_EQ(compare_in(q, n, p, m, SPACE + 77), want);
    CHECK_EQ(compare_in(p, m, p, m, SPACE), 1);
}

static void formed(const char *text, const char *wanted)
{
    uint8_t p[64], f[64];
    size_t n = plan_of(text, p), m = plan_of(wanted, f);
    for (size_t beyond = 0; beyond < 3; beyond++)
        CHECK_EQ(form_in(p, n, f, (int32_t)m, m + beyond, SPACE + beyond), (int32_t)m);
    if (m > 0) {
        CHECK_EQ(form_in(p, n, NULL, -10, m - 1, SPACE), -10);
        CHECK_EQ(form_in(p, n, NULL, -10, 0, SPACE + 1), -10);
    }
}

static void pairs_of_table_t(void)
{
    struct table t = table_t();
    use(&t);
    compared("CD", "ABD", 1);
    compared("DA", "AD", 0);
    compared("", "", 1);
    compared("", "A", 0);
    CHECK_EQ(compare_in((const uint8_t *)"\0", 1, (const uint8_t *)"\4", 1, SPACE), -8);
    formed("CD", "AAAD");
    formed("A", "A");
    formed("B", "AA");
    formed("C", "AAA");
    formed("D", "D");
    formed("", "");
}

static void equal_runs_but_apart(void)
{
    struct table t = table_s();
    use(&t);
    compared("A", "C", 0);
    compared("B", "D", 0);
    compared("D", "E", 0);
    compared("AD", "CD", 0);
    for (char job[] = "A"; job[0] < 'F'; job[0]++)
        formed(job, job);
}

static void growing_plans(void)
{
    struct table t = table_xyz();
    use(&t);
    compared("A", "BC", 0);
    compared("BC", "CB", 0);
    compared("BCC", "BCB", 0);
    formed("A", "A");
    formed("B", "B");
    formed("C", "C");
    formed("BCA", "BCA");
}

static void doubled_rules(void)
{
    for (int doubled = 0; doubled < 2; doubled++) {
        struct table t = table_new(2);
        rule0(&t, 0, 'a');
        rule0(&t, 1, 'a');
        rule0(&t, doubled, 'a');
        use(&t);
        compared("A", "B", 1);
        compared("AB", "BA", 1);
        compared("AB", "A", 0);
        formed("B", "A");
        formed("BAB", "AAA");
    }
}

/* One of two jobs has one rule more, to something that the other cannot become. */
static void one_move_more(void)
{
    for (int more = 0; more < 2; more++) {
        struct table t = table_new(4);
        for (int k = 0; k < 2; k++) {
            rule0(&t, k, 'a');
            rule1(&t, k, 'b', 2);
        }
        rule1(&t, more, 'b', 3);
        rule0(&t, 2, 'c');
        rule0(&t, 3, 'd');
        use(&t);
        compared("A", "B", 0);
        compared("CA", "CB", 0);
        compared("AC", "BC", 0);
        formed("BA", "BA");
    }
}

/* Moves are equal by all their bits: each two that differ in one bit. */
static void moves_of_sixteen_bits(void)
{
    for (int bit = 0; bit < 16; bit++) {
        struct table t = table_new(4);
        for (int k = 0; k < 2; k++) {
            rule1(&t, 0, 'a' ^ (k << bit), 2 + k);
            rule1(&t, 1, 'a' ^ (k << bit), 3 - k);
        }
        rule0(&t, 2, 'c');
        rule0(&t, 3, 'd');
        use(&t);
        compared("A", "B", 0);
        formed("AB", "AB");
    }
}

/* Two jobs are the same if their moves are equal, and apart if only the low bytes, or only the high bytes, are. */
static void equal_low_bytes(void)
{
    struct table t = table_new(5);
    rule0(&t, 0, 'a');
    rule0(&t, 1, 'a' + 256);
    rule0(&t, 2, 'a' + 256);
    rule0(&t, 3, 'b' + 256);
    rule0(&t, 4, 'a' + 65280);
    use(&t);
    compared("A", "B", 0);
    compared("B", "C", 1);
    compared("B", "D", 0);
    compared("B", "E", 0);
    compared("AB", "AC", 1);
    compared("AB", "BA", 0);
    formed("C", "B");
    formed("ECDBA", "EBDBA");
    t = table_new(2); /* one move more, which is no rule written twice */
    rule0(&t, 0, 'a');
    rule0(&t, 0, 'a' + 256);
    rule0(&t, 1, 'a');
    rule0(&t, 1, 'a');
    use(&t);
    compared("A", "B", 0);
    formed("BA", "BA");
    t = table_edges();
    use(&t);
    for (uint8_t j = 0; j < EDGES; j++)
        for (uint8_t k = 0; k < EDGES; k++)
            CHECK_EQ(compare_in(&j, 1, &k, 1, SPACE), j == k);
    formed("FEDCBA", "FEDCBA");
}

static void order_by_norm(void)
{
    struct table t = table_new(3); /* the longer job has the lower number */
    rule1(&t, 0, 'a', 2);
    rule0(&t, 1, 'b');
    rule0(&t, 2, 'a');
    use(&t);
    compared("A", "CC", 1);
    formed("A", "CC");
    formed("ABC", "CCBC");
    t = table_new(4); /* two jobs of norm 1 that are the same, both above a job made of them */
    rule1(&t, 0, 'a', 3);
    rule1(&t, 1, 'a', 2);
    rule0(&t, 2, 'a');
    rule0(&t, 3, 'a');
    use(&t);
    compared("A", "B", 1);
    compared("DC", "B", 1);
    formed("ADB", "CCCCC");
}

/* Job k can make b only k times: jobs k and k+1 are told apart by k rounds and not by fewer. */
static void many_rounds(void)
{
    struct table t = table_new(24);
    for (int k = 0; k < 24; k++) {
        rule0(&t, k, 'a');
        if (k > 0)
            rule1(&t, k, 'b', k - 1);
    }
    use(&t);
    for (uint8_t i = 0; i < 24; i++)
        for (uint8_t j = 0; j < 24; j++)
            if (!small_run() || (i + j) % 11 == 0)
                CHECK_EQ(compare_in(&i, 1, &j, 1, SPACE), i == j);
    formed("XBW", "XBW");
}

static void matches_that_only_fail_later(void)
{
    struct table t = table_new(6); /* A: a D, A: a E; B: a D; C: b; D: b C; E: b F; F: c */
    rule1(&t, 0, 'a', 3);
    rule1(&t, 0, 'a', 4);
    rule1(&t, 1, 'a', 3);
    rule0(&t, 2, 'b');
    rule1(&t, 3, 'b', 2);
    rule1(&t, 4, 'b', 5);
    rule0(&t, 5, 'c');
    use(&t);
    compared("A", "B", 0);
    compared("D", "CC", 1);
    compared("E", "CF", 1);
    compared("E", "D", 0);
    formed("ED", "CFCC");
}

static void workspaces(void)
{
    struct table t = table_t();
    use(&t);
    const uint8_t p[] = { 2, 3 }, q[] = { 0, 1, 3 }, form[] = { 0, 0, 0, 3 };
    const size_t shorter[] = { 0, 1, 32768, 65535 }, enough[] = { 65536, 65537, 70000, 131072, 200000 };
    for (int i = 0; i < 4; i++) {
        CHECK_EQ(compare_in(p, 2, q, 3, shorter[i]), -1);
        CHECK_EQ(form_in(p, 2, NULL, -1, 4, shorter[i]), -1);
    }
    for (int i = 0; i < 5; i++) {
        CHECK_EQ(compare_in(p, 2, q, 3, enough[i]), 1);
        CHECK_EQ(compare_in(p, 2, q, 2, enough[i]), 0);
        CHECK_EQ(form_in(p, 2, form, 4, 4, enough[i]), 4);
        CHECK_EQ(form_in(p, 2, NULL, -10, 3, enough[i]), -10);
    }
}

/* Refusal 1 comes first, 8 of the right plan before 9 of the left, and 10 last; each but 1 leaves a cleared workspace. */
static void order_of_refusals(void)
{
    struct table t = table_doubling(9);
    uint8_t nine[9], job[] = { 9 }, high[9];
    use(&t);
    memset(nine, 8, 9);
    memset(high, 9, 9);
    CHECK_EQ(compare_in(nine, 9, job, 1, SPACE), -8);
    CHECK_EQ(compare_in(job, 1, nine, 9, SPACE), -8);
    CHECK_EQ(compare_in(nine, 9, nine, 8, SPACE), -9);
    CHECK_EQ(compare_in(nine, 8, nine, 9, SPACE), -9);
    CHECK_EQ(compare_in(nine, 8, nine, 8, SPACE), 1);
    CHECK_EQ(form_in(high, 9, NULL, -8, 0, SPACE), -8);
    CHECK_EQ(form_in(nine, 9, NULL, -9, 0, SPACE), -9);
    CHECK_EQ(form_in(nine, 8, NULL, -10, 4087, SPACE), -10);

    image[511] ^= 1;
    CHECK_EQ(compare_in(job, 1, nine, 9, SPACE), -3);
    CHECK_EQ(compare_in(job, 1, nine, 9, SPACE - 1), -1);
    CHECK_EQ(form_in(job, 1, NULL, -3, 0, SPACE), -3);
    CHECK_EQ(form_in(job, 1, NULL, -1, 0, 0), -1);
    image_len = 511;
    CHECK_EQ(compare_in(job, 1, nine, 9, SPACE), -2);
    CHECK_EQ(compare_in(job, 1, nine, 9, 1), -1);
}

static void refused_images(void)
{
    for (int n = 0; n < (small_run() ? 20 : 1000); n++) {
        struct table t = table_full(24 + (int)random_below(229));
        use(&t);
        size_t block = random_below((uint32_t)(image_len / 512));
        image[512 * block + random_below(512)] = (uint8_t)random_below(70);
        if (random_below(4) != 0)
            seal(image + 512 * block);
        int refusal = refusal_of_image(image, image_len);
        uint8_t plan[2] = { 24, 0 };
        int32_t want = refusal != 0 ? -refusal : -8;
        CHECK_EQ(compare_in(plan, 2, plan, 1, SPACE + n), want);
        CHECK_EQ(compare_in(plan, 0, plan, 1, SPACE), want);
        CHECK_EQ(form_in(plan, 2, NULL, want, 9, SPACE + n), want);
    }
}

static void null_with_length_0(void)
{
    struct table t = table_t();
    uint8_t *space = malloc(SPACE);
    use(&t);
    CHECK_EQ(gindrazoma_compare(NULL, 0, NULL, 0, NULL, 0, NULL, 0), -1);
    CHECK_EQ(gindrazoma_compare(NULL, 0, NULL, 0, NULL, 0, space, SPACE), -2);
    CHECK_EQ(gindrazoma_compare(image, image_len, NULL, 0, NULL, 0, space, SPACE), 1);
    CHECK_EQ(gindrazoma_compare(image, image_len, NULL, 0, image + 500, 1, space, SPACE), 0);
    CHECK_EQ(gindrazoma_prime_form(NULL, 0, NULL, 0, NULL, 0, NULL, 0), -1);
    CHECK_EQ(gindrazoma_prime_form(NULL, 0, NULL, 0, NULL, 0, space, SPACE), -2);
    CHECK_EQ(gindrazoma_prime_form(image, image_len, NULL, 0, NULL, 0, space, SPACE), 0);
    CHECK_EQ(gindrazoma_prime_form(image, image_len, image + 500, 1, NULL, 0, space, SPACE), -10);
    free(space);
}

/* Areas that are only read may coincide. */
static void one_area_twice(void)
{
    struct table t = table_t();
    uint8_t *space = malloc(SPACE), plan[] = { 2, 3 };
    use(&t);
    CHECK_EQ(gindrazoma_compare(image, image_len, plan, 2, plan, 2, space, SPACE), 1);
    CHECK_EQ(gindrazoma_compare(image, image_len, plan, 2, plan + 1, 1, space, SPACE), 0);
    CHECK_EQ(gindrazoma_compare(image, image_len, image + 400, 3, image + 400, 3, space, SPACE), 1);
    free(space);
}

static void plans_of_4096(void)
{
    struct table t = table_doubling(9);
    uint8_t *ones = calloc(4096, 1), eight[] = { 9, 9, 9, 9, 9, 9, 9, 9 };
    t.jobs = 11;
    rule1(&t, 9, 'a', 8);
    rule0(&t, 10, 'b');
    use(&t);
    CHECK_EQ(compare_in(eight, 8, ones, 4096, SPACE), 1);
    CHECK_EQ(compare_in(ones, 4096, eight, 8, SPACE), 1);
    CHECK_EQ(compare_in(ones, 4095, eight, 8, SPACE), 0);
    CHECK_EQ(form_in(eight, 8, ones, 4096, 4096, SPACE), 4096);
    CHECK_EQ(form_in(eight, 8, NULL, -10, 4095, SPACE), -10);
    CHECK_EQ(form_in(eight, 1, ones, 512, 600, SPACE), 512);
    ones[4095] = 10;
    CHECK_EQ(compare_in(ones, 4096, eight, 8, SPACE), 0);
    CHECK_EQ(compare_in(eight, 8, ones, 4096, SPACE), 0);
    CHECK_EQ(form_in(ones, 4096, ones, 4096, 4097, SPACE), 4096);
    free(ones);
}

static const struct check_case cases[] = {
    { "pairs of table T", pairs_of_table_t },
    { "S1 and S2: equal runs, apart", equal_runs_but_apart },
    { "X and YZ: plans that grow", growing_plans },
    { "a rule written twice", doubled_rules },
    { "one move more", one_move_more },
    { "moves that differ in one bit", moves_of_sixteen_bits },
    { "equal moves and equal low bytes", equal_low_bytes },
    { "jobs ordered by norm", order_by_norm },
    { "apart after 0 to 23 rounds", many_rounds },
    { "remainders are judged", matches_that_only_fail_later },
    { "workspaces of many lengths", workspaces },
    { "order of refusals", order_of_refusals },
    { "refused images", refused_images },
    { "NULL with length 0", null_with_length_0 },
    { "one area given twice", one_area_twice },
    { "plans of norm 4,096", plans_of_4096 },
};

int main(void)
{
    return run_cases(cases, sizeof cases / sizeof cases[0]);
}
