/* Comparing plans and writing prime forms under alike lists: answers, refusals, and every byte of workspace and output. */
#include "check.h"
#include "gindrazoma.h"

#include <stdlib.h>
#include <string.h>

enum { FORM = 4096 };

static int32_t compare_in(const uint8_t *p, size_t m, const uint8_t *q, size_t n, size_t space_len)
{
    return of_two(gindrazoma_compare_alike, p, m, q, n, space_len);
}

static int32_t form_in(const uint8_t *p, size_t n, const uint8_t *wanted, int32_t want, size_t out_len, size_t space_len)
{
    struct area in = area_copy(image, image_len), pairs = area_copy(list, list_len), plan = area_copy(p, n);
    struct area out = area_new(out_len), space = area_new(space_len);
    int32_t got = gindrazoma_prime_form_alike(in.bytes, in.len, pairs.bytes, pairs.len, plan.bytes, plan.len,
                                              out.bytes, out.len, space.bytes, space.len);
    CHECK(area_same(&in) && area_same(&pairs) && area_same(&plan));
    CHECK(area_kept(&out, got == want && want > 0 ? (size_t)want : 0));
    if (got == want && want > 0)
        CHECK(memcmp(out.bytes, wanted, (size_t)want) == 0);
    space_left(&space, got);
    area_free(&in);
    area_free(&pairs);
    area_free(&plan);
    area_free(&out);
    area_free(&space);
    return got;
}

static int32_t quick_compare(const uint8_t *p, size_t m, const uint8_t *q, size_t n)
{
    struct area pairs = area_copy(list, list_len);
    int32_t got = gindrazoma_compare_alike(image, image_len, pairs.bytes, pairs.len, p, m, q, n, one_space(), SPACE);
    CHECK(area_same(&pairs));
    area_free(&pairs);
    return got;
}

static int32_t quick_form(const uint8_t *p, size_t n, uint8_t *form)
{
    struct area pairs = area_copy(list, list_len);
    int32_t got = gindrazoma_prime_form_alike(image, image_len, pairs.bytes, pairs.len, p, n, form, FORM, one_space(), SPACE);
    CHECK(area_same(&pairs));
    area_free(&pairs);
    return got;
}

/* Two plans have equal forms exactly if they are the same. */
static void compared(const char *left, const char *right, int32_t want)
{
    uint8_t p[64], q[64], f[FORM], g[FORM];
    size_t m = plan_of(left, p), n = plan_of(right, q);
    CHECK_EQ(compare_in(p, m, q, n, SPACE), want);
    CHECK_EQ(compare_in(q, n, p, m, SPACE + 77), want);
    CHECK_EQ(quick_compare(p, m, p, m), 1);
    int32_t k = quick_form(p, m, f), l = quick_form(q, n, g);
    CHECK(k >= 0 && l >= 0);
    CHECK_EQ(k == l && memcmp(f, g, k > 0 ? (size_t)k : 0) == 0, want);
}

/* The form is the same as the plan and its own form; one byte less of output is too little, and one more is kept. */
static void formed(const char *text, const char *wanted)
{
    uint8_t p[64], f[64];
    size_t n = plan_of(text, p), m = plan_of(wanted, f);
    for (size_t beyond = 0; beyond < 3; beyond++)
        CHECK_EQ(form_in(p, n, f, (int32_t)m, m + beyond, SPACE + beyond), (int32_t)m);
    CHECK_EQ(form_in(f, m, f, (int32_t)m, m, SPACE), (int32_t)m);
    CHECK_EQ(quick_compare(p, n, f, m), 1);
    if (m > 0) {
        CHECK_EQ(form_in(p, n, NULL, -10, m - 1, SPACE), -10);
        CHECK_EQ(form_in(p, n, NULL, -10, 0, SPACE + 1), -10);
    }
}

/* Jobs A and B under the list in force: 1 if the same, 0 if apart, or a refusal; B's form is then A, or B, or refused. */
static void a_and_b(int32_t want)
{
    const uint8_t a = 0, b = 1;
    uint8_t form[FORM] = { 99 };
    CHECK_EQ(quick_compare(&a, 1, &b, 1), want);
    CHECK_EQ(quick_compare(&b, 1, &a, 1), want);
    CHECK_EQ(quick_form(&b, 1, form), want < 0 ? want : 1);
    CHECK_EQ(form[0], want < 0 ? 99 : want == 1 ? a : b);
}

/* ---- answers */

static void joined_by_a_list(void)
{
    struct table t = table_letters(4, 4);
    use(&t);
    compared("A", "B", 0);
    formed("DCBA", "DCBA");
    alike("ba");
    compared("A", "B", 1);
    compared("ABBA", "BAAB", 1);
    compared("CA", "CB", 1);
    compared("CA", "AC", 0);
    compared("A", "C", 0);
    compared("B", "AA", 0);
    compared("", "B", 0);
    compared("", "", 1);
    formed("DCBA", "DCAA");
    formed("", "");
    alike("ab");
    compared("A", "B", 1);
    formed("DCBA", "DCAA");
    alike("cadb");
    compared("A", "C", 1);
    compared("BC", "DA", 1);
    compared("A", "B", 0);
    compared("C", "D", 0);
    formed("DCBA", "BABA");
    alike("bacada");
    compared("ABCD", "DDDD", 1);
    formed("DCBA", "AAAA");
}

static void one_of_two_lists(void)
{
    struct table t = table_letters(3, 3);
    use(&t);
    alike("ba");
    compared("A", "B", 1);
    compared("B", "C", 0);
    formed("CBA", "CAA");
    alike("cb");
    compared("A", "B", 0);
    compared("B", "C", 1);
    formed("CBA", "BBA");
    alike("ca");
    compared("A", "C", 1);
    compared("A", "B", 0);
    formed("CBA", "ABA");
}

/* D is b and then A: under b as a it is made of two A, and its form is longer. */
static void table_t_under_lists(void)
{
    static const char *const joining[] = { "ba", "ab", "azbz" }, *const keeping[] = { "", "az", "bz", "za", "ayxz", "aybz" };
    struct table t = table_t();
    use(&t);
    for (size_t i = 0; i < sizeof joining / sizeof joining[0]; i++) {
        alike(joining[i]);
        compared("D", "B", 1);
        compared("DA", "AD", 1);
        compared("CD", "ABD", 1);
        compared("D", "A", 0);
        formed("D", "AA");
        formed("CD", "AAAAA");
    }
    for (size_t i = 0; i < sizeof keeping / sizeof keeping[0]; i++) {
        alike(keeping[i]);
        compared("D", "B", 0);
        compared("DA", "AD", 0);
        compared("CD", "ABD", 1);
        formed("D", "D");
        formed("CD", "AAAD");
    }
}

/* A: a B; B: b or c; C: a D or a E; D: b; E: c. */
static void table_s_under_lists(void)
{
    static const char *const b_as_c[] = { "cb", "bc", "bzcz" };
    struct table t = table_s();
    use(&t);
    for (int i = 0; i < 3; i++) {
        alike(b_as_c[i]);
        compared("A", "C", 1);
        compared("B", "E", 1);
        compared("AD", "CE", 1);
        compared("AD", "DA", 0);
        formed("C", "A");
        formed("CED", "ABB");
    }
    alike("ca"); /* A is E and then B; C still has the choice first */
    compared("A", "EB", 1);
    compared("A", "C", 0);
    compared("B", "D", 0);
    formed("AC", "EBC");
    alike("ba");
    compared("A", "DB", 1);
    compared("A", "C", 0);
    formed("CA", "CDB");
    alike("baca");
    compared("A", "C", 1);
    compared("A", "DE", 1);
    compared("A", "B", 0);
    formed("ABCDE", "BBBBBBB");
}

/* A: a B; B: a BC or b; C: b. With one move, A is C and then B, but not B and then C. */
static void growing_plans_under_lists(void)
{
    struct table t = table_xyz();
    use(&t);
    formed("A", "A");
    for (int i = 0; i < 2; i++) {
        alike(i == 0 ? "ba" : "ab");
        compared("A", "CB", 1);
        compared("A", "BC", 0);
        compared("BC", "CB", 0);
        compared("B", "C", 0);
        formed("BCA", "BCCB");
    }
}

static void rules_that_become_equal(void)
{
    struct table t = table_new(5);
    rule1(&t, 0, 'a', 3); /* a rule twice, under b as a */
    rule1(&t, 0, 'b', 3);
    rule1(&t, 1, 'a', 3);
    rule1(&t, 2, 'a', 3);
    rule1(&t, 2, 'b', 4);
    rule0(&t, 3, 'd');
    rule0(&t, 4, 'e');
    use(&t);
    formed("CEBA", "CEBA");
    alike("ba");
    compared("A", "B", 1);
    compared("A", "C", 0);
    formed("CEBA", "CEAA");
    alike("baed");
    compared("B", "C", 1);
    formed("CEBA", "ADAA");
    t = table_new(4);
    for (int k = 0; k < 2; k++) { /* the same moves to exchanged jobs */
        rule1(&t, 0, 'a' + k, 2 + k);
        rule1(&t, 1, 'a' + k, 3 - k);
        rule0(&t, 2 + k, 'c' + k);
    }
    use(&t);
    compared("A", "B", 0);
    alike("ba");
    compared("A", "B", 1);
    formed("BD", "AD");
    alike("cd");
    compared("A", "B", 1);
    formed("BD", "AC");
    alike("ca");
    compared("A", "B", 0);
    formed("BD", "BD");
}

/* A: a D; B: b C; C: a; D: b. Raw, A is CD and B is DC. */
static void order_by_norm(void)
{
    struct table t = table_new(4);
    rule1(&t, 0, 'a', 3);
    rule1(&t, 1, 'b', 2);
    rule0(&t, 2, 'a');
    rule0(&t, 3, 'b');
    use(&t);
    compared("A", "B", 0);
    formed("ADB", "CDDDC");
    alike("ab");
    compared("A", "B", 1);
    compared("DC", "B", 1);
    formed("ADB", "CCCCC");
}

/* Of 252 rules in four blocks all but one make a: the one that makes b is found at each place. */
static void each_rule_of_four_blocks(void)
{
    for (int one = 0; one < 252; one += small_run() ? 21 : 1) {
        struct table t = table_new(2);
        for (int i = 0; i < 252; i++)
            rule0(&t, i % 2, i == one ? 'b' : 'a');
        use(&t);
        a_and_b(0);
        alike("ba");
        a_and_b(1);
    }
}

/* ---- random tables and lists */

/* A plan and its form without a list are the same, and stay so under every list. */
static void the_same_stays_the_same(void)
{
    for (int round = 0; round < (small_run() ? 20 : 1000); round++) {
        struct table t = some_table(round % 20);
        uint8_t plan[8], raw[FORM], form[FORM], other[FORM];
        use(&t);
        size_t n = random_plan(plan, t.jobs, 6);
        int32_t m = gindrazoma_prime_form(image, image_len, plan, n, raw, FORM, one_space(), SPACE);
        CHECK(m >= 0);
        if (m < 0)
            continue;
        random_list();
        CHECK_EQ(quick_compare(plan, n, raw, (size_t)m), 1);
        int32_t k = quick_form(plan, n, form);
        CHECK(k >= 0);
        CHECK_EQ(quick_form(raw, (size_t)m, other), k);
        CHECK(k >= 0 && memcmp(form, other, (size_t)k) == 0);
        CHECK(k >= m); /* the raw form's jobs are a plan that is the same under the list too */
    }
}

/* The calls with the list answer as those without do on the table with its moves replaced. */
static void beside_the_replaced_table(void)
{
    static uint8_t plans[ALL_PLANS][ALL_LONGEST], form[FORM], wanted[FORM], other[2560];
    size_t lens[ALL_PLANS], joined = 0;
    for (int round = 0; round < (small_run() ? 4 : 120); round++) {
        struct table t = random_table(1 + random_below(4)), u;
        use(&t);
        random_list();
        u = replaced(&t);
        size_t len = image_of(&u, other), count = all_plans(t.jobs, plans, lens);
        for (size_t i = 0; i < count; i++) {
            int32_t n = gindrazoma_prime_form(other, len, plans[i], lens[i], wanted, FORM, one_space(), SPACE);
            CHECK_EQ(quick_form(plans[i], lens[i], form), n);
            CHECK(n >= 0 && memcmp(form, wanted, (size_t)n) == 0);
            for (size_t j = random_below(small_run() ? 40 : 4); j < count; j += small_run() ? 40 : 4) {
                int32_t want = gindrazoma_compare(other, len, plans[i], lens[i], plans[j], lens[j], one_space(), SPACE);
                CHECK_EQ(quick_compare(plans[i], lens[i], plans[j], lens[j]), want);
                joined += want == 1 && i != j;
            }
        }
    }
    CHECK(small_run() || joined > 100);
}

static void order_of_pairs(void)
{
    for (int round = 0; round < (small_run() ? 10 : 500); round++) {
        struct table t = some_table(round % 20);
        uint8_t p[8], q[8], form[FORM], other[FORM];
        use(&t);
        size_t m = random_plan(p, t.jobs, 4), n = random_plan(q, t.jobs, 4);
        random_list();
        int32_t answer = quick_compare(p, m, q, n), k = quick_form(p, m, form);
        for (int i = 0; i < 2; i++) {
            shuffle_pairs();
            CHECK_EQ(quick_compare(p, m, q, n), answer);
            CHECK_EQ(quick_form(p, m, other), k);
            CHECK(k >= 0 && memcmp(form, other, (size_t)k) == 0);
        }
    }
}

/* ---- no list */

enum { BEYOND = 8 };

/* A call without a list, one with NULL, and one with length 0 at pairs that clash: answers, output and workspace. */
static void without_list(const uint8_t *p, size_t m, const uint8_t *q, size_t n, size_t out_len, size_t space_len)
{
    static uint8_t out[3][FORM], space[3][SPACE + BEYOND];
    int byte = (int)random_below(256);
    int32_t got[3];
    alike("aa");
    for (int i = 0; i < 3; i++) {
        memset(space[i], byte, sizeof space[i]);
        got[i] = i == 0 ? gindrazoma_compare(image, image_len, p, m, q, n, space[0], space_len)
                        : gindrazoma_compare_alike(image, image_len, i == 1 ? NULL : list, 0, p, m, q, n, space[i], space_len);
        CHECK_EQ(got[i], got[0]);
        CHECK(memcmp(space[i], space[0], sizeof space[0]) == 0);
    }
    for (int i = 0; i < 3; i++) {
        memset(space[i], byte, sizeof space[i]);
        memset(out[i], byte, sizeof out[i]);
        got[i] = i == 0 ? gindrazoma_prime_form(image, image_len, p, m, out[0], out_len, space[0], space_len)
                        : gindrazoma_prime_form_alike(image, image_len, i == 1 ? NULL : list, 0, p, m, out[i], out_len,
                                                      space[i], space_len);
        CHECK_EQ(got[i], got[0]);
        CHECK(memcmp(out[i], out[0], sizeof out[0]) == 0);
        CHECK(memcmp(space[i], space[0], sizeof space[0]) == 0);
    }
}

static void no_list(void)
{
    for (int round = 0; round < (small_run() ? 30 : 1500); round++) {
        struct table t = some_table(round % 20);
        uint8_t p[8], q[8];
        use(&t);
        size_t m = random_plan(p, t.jobs, 7), n = random_plan(q, t.jobs, 7);
        if (n > 0 && random_below(10) == 0)
            q[n - 1] = (uint8_t)t.jobs;
        if (m > 0 && random_below(10) == 0)
            p[0] = (uint8_t)(t.jobs + random_below(200));
        if (random_below(10) == 0)
            image[random_below((uint32_t)image_len)] ^= 1;
        size_t space_len = SPACE - 1 + random_below(4) % 3 + random_below(BEYOND);
        without_list(p, m, q, n, random_below(4) ? FORM : random_below(4), space_len);
        without_list(p, m, p, m, FORM, SPACE);
    }
}

/* A list that names no move of the table, or only as to-moves, and one that gives moves other numbers. */
static void moves_that_no_rule_makes(void)
{
    for (int round = 0; round < (small_run() ? 10 : 500); round++) {
        struct table t = some_table(round % 20);
        uint8_t p[8], q[8], raw[FORM], form[FORM];
        int made = move_of(t.bytes + 8 * random_below((uint32_t)t.rules));
        use(&t);
        size_t m = random_plan(p, t.jobs, 5), n = random_plan(q, t.jobs, 5);
        int32_t answer = quick_compare(p, m, q, n), k = quick_form(p, m, raw);
        for (int kind = 0; kind < 3; kind++) {
            fill_list(random_below(PAIRS));
            for (size_t i = 0; kind == 1 && i < list_len / 4; i++)
                put_pair(i, from_of(i), made);
            if (kind == 2)
                add_pair(made, 2999);
            CHECK_EQ(quick_compare(p, m, q, n), answer);
            CHECK_EQ(quick_form(p, m, form), k);
            CHECK(k >= 0 && memcmp(form, raw, (size_t)k) == 0);
        }
    }
}

/* ---- pairs */

/* Everywhere below, A makes a and B makes b. */
static void use_letters(void)
{
    struct table t = table_letters(3, 3);
    use(&t);
}

static void clashes(void)
{
    static const char *const clash[] = { "aa", "bb", "zz", "bacb", "cbba", "baab", "baba", "bacxba", "babz", "bzba", "bacaad",
                                         "adbaca", "bazz", "zzba", "xyyz", "yzxy", "xyzx", "xyxy", "xyxz", "xyzxba" };
    static const char *const joining[] = { "ba", "ab", "baca", "caba", "bzaz", "bzazcz", "xyba", "baxy", "bazaya" };
    static const char *const keeping[] = { "", "ca", "cb", "bz", "bxay", "axby", "xyzy", "xyzw", "cazb", "xazb" };
    use_letters();
    for (size_t i = 0; i < sizeof clash / sizeof clash[0]; i++) {
        alike(clash[i]);
        CHECK_EQ(refusal_of_pairs(), 13);
        a_and_b(-13);
        CHECK_EQ(compare_in(list, 0, list, 0, SPACE), -13);
        CHECK_EQ(form_in(list, 0, NULL, -13, 0, SPACE), -13);
    }
    for (size_t i = 0; i < sizeof joining / sizeof joining[0]; i++) {
        alike(joining[i]);
        a_and_b(1);
    }
    for (size_t i = 0; i < sizeof keeping / sizeof keeping[0]; i++) {
        alike(keeping[i]);
        a_and_b(0);
    }
}

/* In a short run, only pairs near both ends and some others. */
static int looked_at(size_t i, size_t j)
{
    return !small_run() || ((i < 2 || i > 29) && (j < 2 || j > 29)) || i * 7 % 32 == j;
}

static void a_from_move_twice(void)
{
    use_letters();
    for (size_t i = 0; i < PAIRS; i++)
        for (size_t j = 0; j < i; j++) {
            if (!looked_at(i, j))
                continue;
            fill_list(PAIRS);
            put_pair(i, from_of(j), to_of(i)); /* with two to-moves, unless i and j are 5 apart */
            a_and_b(-13);
            put_pair(i, from_of(j), to_of(j));
            a_and_b(-13);
            put_pair(i, from_of(j) ^ 256, to_of(j));
            a_and_b(0);
            put_pair(i, from_of(j) ^ 1, to_of(j));
            a_and_b(0);
            list_len = 4 * (i + 1); /* the second one is the last pair */
            put_pair(i, from_of(j), 'a');
            a_and_b(-13);
        }
}

static void a_from_move_as_a_to_move(void)
{
    use_letters();
    for (size_t i = 0; i < PAIRS; i++)
        for (size_t j = 0; j < PAIRS; j++) {
            if (!looked_at(i, j))
                continue;
            fill_list(PAIRS);
            put_pair(j, from_of(j), from_of(i));
            a_and_b(-13);
            put_pair(j, from_of(j), from_of(i) ^ 256);
            a_and_b(0);
            put_pair(j, from_of(j), from_of(i) ^ 1);
            a_and_b(0);
            list_len = 4 * ((i > j ? i : j) + 1);
            put_pair(j, from_of(j), from_of(i));
            a_and_b(-13);
        }
}

/* B makes each of 1 to 32 moves that count as A's: the two are the same, but not with any of the pairs left out. */
static void each_pair_counts(void)
{
    for (size_t n = 1; n <= PAIRS; n += small_run() ? 31 : 1) {
        struct table t = table_new(2);
        rule0(&t, 0, 'a');
        for (int k = 0; k < (int)n; k++)
            rule0(&t, 1, 300 * (k + 1));
        use(&t);
        for (size_t left_out = 0; left_out <= n; left_out++) {
            list_len = 0;
            for (size_t k = 0; k < n; k++)
                if (k != left_out)
                    add_pair(300 * ((int)k + 1), 'a');
            a_and_b(left_out == n);
        }
    }
}

/* One pair joins A and B, at each place of lists of each length. */
static void each_place_counts(void)
{
    use_letters();
    for (size_t n = 1; n <= PAIRS; n += small_run() ? 31 : 1)
        for (size_t place = 0; place < n; place++) {
            fill_list(n);
            a_and_b(0);
            put_pair(place, 'b', 'a');
            a_and_b(1);
            put_pair(place, 'a', 'b');
            a_and_b(1);
        }
}

/* Pairs that name one move with all to-moves different, and all pairs to one to-move. */
static void to_moves_that_repeat(void)
{
    use_letters();
    for (int same = 0; same < 2; same++) {
        list_len = 0;
        add_pair('b', 'z');
        for (int k = 0; k < PAIRS - 2; k++)
            add_pair(3000 + k, same ? 'z' : 4000 + k);
        a_and_b(0);
        add_pair('a', 'z');
        CHECK_EQ(list_len, 128);
        a_and_b(1);
        list_len -= 4;
        add_pair('c', 'z');
        a_and_b(0);
        compared("B", "C", 1);
        formed("CBA", "BBA");
    }
}

/* ---- moves of two bytes */

/* A: move m; B: m with one bit changed; C: 'T' with an unused high byte. */
static void each_bit_of_a_move(void)
{
    for (int bit = 0; bit < 16; bit++) {
        const int m = 'a' + 256 * 'b', other = m ^ (1 << bit), target = 'T' + 256 * 'U';
        struct table t = table_new(4);
        rule0(&t, 0, m);
        rule0(&t, 1, other);
        rule0(&t, 2, target);
        rule0(&t, 3, target ^ (1 << bit));
        use(&t);
        formed("DCBA", "DCBA");
        add_pair(m, target);
        formed("DCBA", "DABA"); /* A is C, and neither is B nor D */
        add_pair(other, target);
        formed("DCBA", "DAAA"); /* two from-moves that differ in one bit */
        list_len = 0;
        add_pair(other, target ^ (1 << bit));
        formed("DCBA", "BCBA");
        add_pair(m, target);
        formed("DCBA", "BABA");
        list_len = 0;
        add_pair(target, m);
        add_pair(target ^ (1 << bit), other); /* a from-move and a to-move that differ in one bit */
        formed("DCBA", "BABA");
        list_len = 0;
        add_pair(m, other);
        formed("DCBA", "DCAA");
    }
}

static void equal_low_or_high_bytes(void)
{
    struct table t = table_new(4);
    rule0(&t, 0, 'a');
    rule0(&t, 1, 'a' + 256);
    rule0(&t, 2, 'b' + 256);
    rule0(&t, 3, 'b');
    use(&t);
    add_pair('a', 'b');
    formed("DCBA", "ACBA");
    use(&t);
    add_pair('a' + 256, 'b');
    formed("DCBA", "BCBA");
    use(&t);
    add_pair('a', 'b' + 256);
    formed("DCBA", "DABA");
    add_pair('a' + 256, 'b');
    formed("DCBA", "BABA");
    use(&t);
    add_pair('a' + 256, 'a');
    compared("A", "B", 1);
    formed("DCBA", "DCAA");
    add_pair('b' + 256, 'a');
    formed("DCBA", "DAAA");
    use(&t);
    add_pair('a' + 256, 'b' + 256);
    formed("DCBA", "DBBA");
    add_pair('a', 'b');
    formed("DCBA", "ABBA");
}

/* A pair byte by byte: from 'a' + 256 * 'b', to 'c' + 256 * 'd'; the same bytes in any other order join nothing. */
static void low_byte_first(void)
{
    struct table t = table_new(2);
    rule0(&t, 0, 'a' + 256 * 'b');
    rule0(&t, 1, 'c' + 256 * 'd');
    use(&t);
    for (int i = 0; i < 24; i++) {
        uint8_t left[] = "abcd";
        for (size_t k = 0, code = (size_t)i; k < 4; k++) {
            size_t at = code % (4 - k);
            code /= 4 - k;
            list[k] = left[at];
            memmove(left + at, left + at + 1, 4 - at);
        }
        list_len = 4;
        a_and_b(memcmp(list, "abcd", 4) == 0 || memcmp(list, "cdab", 4) == 0);
    }
}

/* A job each for the moves 0, 255, 256, 65,535, 'a' and 'a' + 256, every one as from-move and as to-move. */
static void moves_at_the_edges(void)
{
    struct table t = table_edges();
    uint8_t row[EDGES], wanted[EDGES];
    use(&t);
    for (int j = 0; j < EDGES; j++)
        for (int k = 0; k < EDGES; k++) {
            list_len = 0;
            add_pair(move_of(t.bytes + 8 * j), move_of(t.bytes + 8 * k));
            for (int x = 0; x < EDGES; x++) {
                row[x] = (uint8_t)x;
                wanted[x] = (uint8_t)(x == j && k < j ? k : x == k && j < k ? j : x);
            }
            if (j == k) {
                CHECK_EQ(form_in(row, EDGES, NULL, -13, EDGES, SPACE), -13);
                CHECK_EQ(quick_compare(row, 1, row, 1), -13);
                continue;
            }
            CHECK_EQ(form_in(row, EDGES, wanted, EDGES, EDGES, SPACE), EDGES);
            for (int x = 0; x < EDGES * EDGES && !small_run(); x++)
                CHECK_EQ(quick_compare(row + x / EDGES, 1, row + x % EDGES, 1), wanted[x / EDGES] == wanted[x % EDGES]);
        }
}

/* ---- lengths and refusals */

/* Every length up to 160 bytes and longer ones, of pairs that are fine and of pairs that clash. */
static void lengths_of_lists(void)
{
    static const size_t longer[] = { 252, 256, 260, 512, 10000, 65536, 65540, 65664, 16777216, 16777220 };
    uint8_t *bytes = calloc(16777220, 1), *space = one_space(), out[4], plan = 1;
    use_letters();
    fill_list(PAIRS + 8);
    for (list_len = 0; list_len <= sizeof list; list_len++)
        if (!small_run() || list_len < 9 || (list_len > 122 && list_len < 140))
            a_and_b(list_len > 128 || list_len % 4 != 0 ? -12 : 0);
    memset(list, 0, sizeof list);
    for (list_len = 0; list_len <= sizeof list; list_len++)
        if (!small_run() || list_len < 9 || (list_len > 122 && list_len < 140))
            a_and_b(list_len > 128 || list_len % 4 != 0 ? -12 : list_len > 0 ? -13 : 0);
    alike("ba");
    memcpy(bytes, list, 4);
    for (size_t i = 0; i < sizeof longer / sizeof longer[0]; i++) {
        CHECK_EQ(gindrazoma_compare_alike(image, image_len, bytes, longer[i], &plan, 1, &plan, 1, space, SPACE), -12);
        CHECK_EQ(gindrazoma_prime_form_alike(image, image_len, bytes, longer[i], &plan, 1, out, 4, space, SPACE), -12);
    }
    free(bytes);
}

/* Lengths whose low 32 bits are 0 or 4. */
static void lengths_above_32_bits(void)
{
    struct area zeros = area_reserved(4);
    uint8_t *space = one_space(), out[4], plan = 1;
    use_letters();
    for (size_t len = zeros.len - 4; zeros.bytes != NULL && len <= zeros.len; len += 4) {
        CHECK_EQ(gindrazoma_compare_alike(image, image_len, zeros.bytes, len, &plan, 1, &plan, 1, space, SPACE), -12);
        CHECK_EQ(gindrazoma_prime_form_alike(image, image_len, zeros.bytes, len, &plan, 1, out, 4, space, SPACE), -12);
    }
    area_free(&zeros);
}

enum { SHORT_OUTPUT = DEFECTS, SETS = 2 * DEFECTS };

/* The plan with the defects, whose good form is AAA, alone and on either side; 8 of one plan comes before 9 of the other. */
static void first_defect_answered(int refusal, int set)
{
    static const uint8_t aaa[3], good = 1, no_job = 24;
    uint8_t plan[10], high[9];
    size_t n = set & HIGH_NORM ? 9 : 1, space_len = set & SHORT_SPACE ? SPACE - 1 : SPACE;
    int pair = first_refusal(refusal, set), first = pair == 0 && set & SHORT_OUTPUT ? 10 : pair;
    int32_t form = first == 0 ? 3 : -first;
    memset(high, 8, 9);
    memset(plan, set & HIGH_NORM ? 8 : 1, 10);
    if (set & NO_JOB)
        plan[n++] = no_job;
    list_with(set);
    CHECK_EQ(form_in(plan, n, aaa, form, set & SHORT_OUTPUT ? 2 : 3, space_len), form);
    if (set & SHORT_OUTPUT)
        CHECK_EQ(form_in(plan, n, aaa, form, 0, space_len), form);
    CHECK_EQ(compare_in(plan, n, plan, n, space_len), pair == 0 ? 1 : -pair);
    if (set & NO_JOB && set & HIGH_NORM) {
        CHECK_EQ(compare_in(high, 9, &no_job, 1, space_len), -pair);
        CHECK_EQ(compare_in(&no_job, 1, high, 9, space_len), -pair);
    } else if (pair != 0) {
        CHECK_EQ(compare_in(plan, n, &good, 1, space_len), -pair);
        CHECK_EQ(compare_in(&good, 1, plan, n, space_len), -pair);
    }
}

/* For every image and every set of defects, the one that comes first in the order is answered. */
static void order_of_refusals(void)
{
    every_defect(SETS, first_defect_answered);
}

/* Damaged images and random lists: the image's refusal, then the list's, then that of a plan. */
static void random_lists(void)
{
    int seen[16] = { 0 };
    for (int n = 0; n < (small_run() ? 30 : 2000); n++) {
        struct table t = table_full(24 + (int)random_below(229));
        uint8_t plan[2] = { 0, 24 };
        use(&t);
        damage_image();
        list_of_any_bytes();
        int refusal = refusal_in_force();
        if (refusal == 0)
            refusal = 8;
        seen[refusal]++;
        CHECK_EQ(compare_in(plan, 1, plan, 2, SPACE), -refusal);
        CHECK_EQ(compare_in(plan + 1, 1, plan, 0, SPACE + (size_t)n), -refusal);
        CHECK_EQ(form_in(plan, 2, NULL, -refusal, 9, SPACE), -refusal);
    }
    CHECK(small_run() || (seen[3] > 20 && seen[5] > 20 && seen[12] > 20 && seen[13] > 20 && seen[8] > 20));
}

/* ---- areas */

static void workspaces(void)
{
    static const size_t shorter[] = { 0, 1, 32768, 65535 }, enough[] = { 65536, 65537, 70000, 131072, 200000 };
    const uint8_t p[] = { 2, 3 }, q[] = { 3, 1, 0 }, form[] = { 0, 0, 0, 0, 0 };
    struct table t = table_t();
    use(&t);
    alike("ba");
    for (int i = 0; i < 4; i++) {
        CHECK_EQ(compare_in(p, 2, q, 3, shorter[i]), -1);
        CHECK_EQ(form_in(p, 2, NULL, -1, 5, shorter[i]), -1);
    }
    for (int i = 0; i < 5; i++) {
        CHECK_EQ(compare_in(p, 2, q, 3, enough[i]), 1);
        CHECK_EQ(compare_in(p, 2, q, 2, enough[i]), 0);
        CHECK_EQ(form_in(p, 2, form, 5, 5, enough[i]), 5);
        CHECK_EQ(form_in(p, 2, NULL, -10, 4, enough[i]), -10);
    }
    alike("bb");
    for (int i = 0; i < 5; i++) {
        CHECK_EQ(compare_in(p, 2, q, 3, enough[i]), -13);
        CHECK_EQ(form_in(p, 2, NULL, -13, 5, enough[i]), -13);
        list_len = 3;
        CHECK_EQ(compare_in(p, 2, q, 3, enough[i]), -12);
        CHECK_EQ(form_in(p, 2, NULL, -12, 5, enough[i]), -12);
        list_len = 4;
    }
}

static void null_with_length_0(void)
{
    uint8_t *space = one_space(), plan = 1, form = 9;
    use_letters();
    CHECK_EQ(gindrazoma_compare_alike(NULL, 0, NULL, 0, NULL, 0, NULL, 0, NULL, 0), -1);
    CHECK_EQ(gindrazoma_compare_alike(NULL, 0, NULL, 0, NULL, 0, NULL, 0, space, SPACE), -2);
    CHECK_EQ(gindrazoma_compare_alike(image, image_len, NULL, 0, NULL, 0, NULL, 0, space, SPACE), 1);
    CHECK_EQ(gindrazoma_compare_alike(image, image_len, NULL, 0, NULL, 0, &plan, 1, space, SPACE), 0);
    CHECK_EQ(gindrazoma_prime_form_alike(NULL, 0, NULL, 0, NULL, 0, NULL, 0, NULL, 0), -1);
    CHECK_EQ(gindrazoma_prime_form_alike(NULL, 0, NULL, 0, NULL, 0, NULL, 0, space, SPACE), -2);
    CHECK_EQ(gindrazoma_prime_form_alike(image, image_len, NULL, 0, NULL, 0, NULL, 0, space, SPACE), 0);
    CHECK_EQ(gindrazoma_prime_form_alike(image, image_len, NULL, 0, &plan, 1, NULL, 0, space, SPACE), -10);
    CHECK_EQ(gindrazoma_prime_form_alike(image, image_len, NULL, 0, &plan, 1, &form, 1, space, SPACE), 1);
    CHECK_EQ(form, 1);
    alike("ba");
    for (size_t len = 0; len < 4; len++) {
        int32_t refusal = len == 0 ? 0 : -12;
        CHECK_EQ(gindrazoma_compare_alike(image, image_len, list, len, NULL, 0, NULL, 0, space, SPACE), len == 0 ? 1 : refusal);
        CHECK_EQ(gindrazoma_prime_form_alike(image, image_len, list, len, NULL, 0, NULL, 0, space, SPACE), refusal);
    }
    CHECK_EQ(gindrazoma_compare_alike(image, image_len, list, 4, NULL, 0, NULL, 0, space, SPACE), 1);
    CHECK_EQ(gindrazoma_prime_form_alike(image, image_len, list, 4, NULL, 0, NULL, 0, space, SPACE), 0);
    CHECK_EQ(gindrazoma_compare_alike(NULL, 0, list, 3, NULL, 0, NULL, 0, space, SPACE), -2);
}

/* Areas that are only read may coincide: the list with plans, and with bytes of the image. */
static void areas_that_coincide(void)
{
    uint8_t *space = one_space(), form[8];
    struct table t = table_new(3);
    rule0(&t, 0, 'b'); /* bytes 3 to 6 of the image: from-move 'b', to-move 0 */
    rule0(&t, 1, 0);
    rule0(&t, 2, 1);
    use(&t);
    add_pair(0, 1); /* as a plan: AABA */
    struct area in = area_copy(image, image_len), both = area_copy(list, 4);
    CHECK_EQ(gindrazoma_compare_alike(in.bytes, in.len, in.bytes + 3, 4, in.bytes + 4, 1, in.bytes + 10, 1, space, SPACE), 1);
    CHECK_EQ(gindrazoma_compare_alike(in.bytes, in.len, in.bytes + 3, 0, in.bytes + 4, 1, in.bytes + 10, 1, space, SPACE), 0);
    CHECK_EQ(gindrazoma_prime_form_alike(in.bytes, in.len, in.bytes + 3, 4, in.bytes + 10, 1, form, 8, space, SPACE), 1);
    CHECK_EQ(form[0], 0);
    CHECK_EQ(gindrazoma_compare_alike(in.bytes, in.len, in.bytes, in.len, in.bytes, 1, in.bytes, in.len, space, SPACE), -12);
    CHECK_EQ(gindrazoma_compare_alike(in.bytes, in.len, both.bytes, 4, both.bytes, 4, both.bytes, 4, space, SPACE), 1);
    CHECK_EQ(gindrazoma_compare_alike(in.bytes, in.len, both.bytes, 4, both.bytes + 1, 2, both.bytes + 2, 2, space, SPACE), 0);
    CHECK_EQ(gindrazoma_prime_form_alike(in.bytes, in.len, both.bytes, 4, both.bytes, 4, form, 8, space, SPACE), 4);
    CHECK(memcmp(form, "\0\0\1\0", 4) == 0);
    CHECK(area_same(&in) && area_same(&both));
    area_free(&in);
    area_free(&both);
}

/* A call with one list after a call with another, in one workspace, answers as alone. */
static void calls_one_after_another(void)
{
    static const struct { const char *list, *form; int ab, bc, ac; } lists[] = {
        { "", "CBA", 0, 0, 0 }, { "ba", "CAA", 1, 0, 0 }, { "cb", "BBA", 0, 1, 0 }, { "ca", "ABA", 0, 0, 1 },
        { "baca", "AAA", 1, 1, 1 }, { "za", "CBA", 0, 0, 0 }, { "bb", NULL, -13, -13, -13 },
    };
    enum { LISTS = sizeof lists / sizeof lists[0] };
    static uint8_t space[SPACE];
    const uint8_t jobs[] = { 2, 1, 0 };
    use_letters();
    for (int i = 0; i < LISTS * LISTS * 2; i++) {
        int k = i % 2 == 0 ? i / 2 / LISTS : i / 2 % LISTS;
        uint8_t form[3] = { 0 }, wanted[3] = { 0 };
        alike(lists[k].list);
        CHECK_EQ(gindrazoma_compare_alike(image, image_len, list, list_len, jobs + 2, 1, jobs + 1, 1, space, SPACE), lists[k].ab);
        CHECK_EQ(gindrazoma_compare_alike(image, image_len, list, list_len, jobs + 1, 1, jobs, 1, space, SPACE), lists[k].bc);
        CHECK_EQ(gindrazoma_compare_alike(image, image_len, list, list_len, jobs + 2, 1, jobs, 1, space, SPACE), lists[k].ac);
        if (i % 3 == 0) {
            CHECK_EQ(gindrazoma_compare(image, image_len, jobs + 2, 1, jobs + 1, 1, space, SPACE), 0);
            CHECK_EQ(gindrazoma_prime_form(image, image_len, jobs, 3, form, 3, space, SPACE), 3);
            CHECK(memcmp(form, jobs, 3) == 0);
            memset(form, 0, 3);
        }
        int32_t want = lists[k].form != NULL ? (int32_t)plan_of(lists[k].form, wanted) : -13;
        CHECK_EQ(gindrazoma_prime_form_alike(image, image_len, list, list_len, jobs, 3, form, 3, space, SPACE), want);
        CHECK(memcmp(form, wanted, 3) == 0);
    }
}

/* Jobs of norm 1 to 511 that make a, and one of norm 512 whose first move is b. */
static void plans_of_4096(void)
{
    struct table t = table_doubling(9);
    uint8_t *ones = calloc(FORM + 1, 1), eight[] = { 9, 9, 9, 9, 9, 9, 9, 9, 9 };
    t.jobs = 10;
    rule1(&t, 9, 'b', 8);
    use(&t);
    CHECK_EQ(compare_in(eight, 8, ones, FORM, SPACE), 0);
    CHECK_EQ(form_in(eight, 8, eight, 8, 8, SPACE), 8);
    alike("ba");
    CHECK_EQ(compare_in(eight, 8, ones, FORM, SPACE), 1);
    CHECK_EQ(compare_in(ones, FORM, eight, 8, SPACE), 1);
    CHECK_EQ(compare_in(ones, FORM - 1, eight, 8, SPACE), 0);
    CHECK_EQ(compare_in(ones, FORM + 1, eight, 8, SPACE), -9);
    CHECK_EQ(compare_in(ones, FORM, eight, 9, SPACE), -9);
    CHECK_EQ(form_in(eight, 8, ones, FORM, FORM, SPACE), FORM);
    CHECK_EQ(form_in(eight, 8, NULL, -10, FORM - 1, SPACE), -10);
    CHECK_EQ(form_in(eight, 8, NULL, -10, 8, SPACE), -10);
    CHECK_EQ(form_in(eight, 1, ones, 512, 600, SPACE), 512);
    free(ones);
}

static const struct check_case cases[] = {
    { "apart without a list, the same under one", joined_by_a_list },
    { "the same under one of two lists", one_of_two_lists },
    { "table T under lists", table_t_under_lists },
    { "S1 and S2 under lists", table_s_under_lists },
    { "X and YZ under lists: plans that grow", growing_plans_under_lists },
    { "rules that become equal", rules_that_become_equal },
    { "jobs ordered by norm", order_by_norm },
    { "each rule of four blocks is replaced", each_rule_of_four_blocks },
    { "the same without a list, the same under any", the_same_stays_the_same },
    { "beside the table with its moves replaced", beside_the_replaced_table },
    { "pairs in any order", order_of_pairs },
    { "no list: NULL and length 0", no_list },
    { "moves that no rule makes", moves_that_no_rule_makes },
    { "chains, and moves that count as themselves", clashes },
    { "a from-move twice, at each two places", a_from_move_twice },
    { "a from-move as a to-move, at each two places", a_from_move_as_a_to_move },
    { "each of 1 to 32 pairs counts", each_pair_counts },
    { "each place of lists of 1 to 32 pairs counts", each_place_counts },
    { "to-moves that repeat", to_moves_that_repeat },
    { "moves that differ in one bit", each_bit_of_a_move },
    { "equal low bytes, equal high bytes", equal_low_or_high_bytes },
    { "low byte first", low_byte_first },
    { "moves 0, 255, 256 and 65,535", moves_at_the_edges },
    { "33 pairs, half pairs and other lengths", lengths_of_lists },
    { "lengths above 32 bits", lengths_above_32_bits },
    { "order of refusals: every set of defects", order_of_refusals },
    { "random lists and refused images", random_lists },
    { "workspaces of many lengths", workspaces },
    { "NULL with length 0", null_with_length_0 },
    { "the list within plans and image", areas_that_coincide },
    { "calls one after another", calls_one_after_another },
    { "plans of norm 4,096", plans_of_4096 },
};

int main(void)
{
    return run_cases(cases, sizeof cases / sizeof cases[0]);
}
