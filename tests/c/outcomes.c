/* Whether a table is without a choice of outcome: answers, refusals, and areas that keep their bytes. */
#include "check.h"
#include "gindrazoma.h"

#include <string.h>

/* The answer for the image and the list in force, in areas of their own that are looked at afterwards. */
static int32_t answer_in(void)
{
    struct area in = area_copy(image, image_len), pairs = area_copy(list, list_len);
    int32_t got = gindrazoma_deterministic(in.bytes, in.len, pairs.bytes, pairs.len);
    CHECK(area_same(&in) && area_same(&pairs));
    area_free(&in);
    area_free(&pairs);
    return got;
}

/* On the caller's own bytes: behind the ends of image and list may stand more of them. */
static int32_t quick_answer(void)
{
    return gindrazoma_deterministic(image, image_len, list, list_len);
}

/* Both. */
static void answered(int32_t want)
{
    CHECK_EQ(answer_in(), want);
    CHECK_EQ(quick_answer(), want);
}

struct rule {
    int job, move, len, row[4];
};

static void put(struct table *t, struct rule r)
{
    add_rule(t, r.job, r.move, r.len, r.row[0], r.row[1], r.row[2], r.row[3]);
}

/* 24 letters come into force, and two rules more; the letters' moves are 'a' to 'x'. */
static void use_two(struct rule one, struct rule other)
{
    struct table t = table_letters(24, 24);
    put(&t, one);
    put(&t, other);
    use(&t);
}

/* By the definition, each two rules of the table with its moves replaced: 1 or 0. */
static int32_t by_each_two_rules(const struct table *t)
{
    struct table u = replaced(t);
    for (const uint8_t *r = u.bytes; r < u.bytes + rule_bytes(&u); r += 8)
        for (const uint8_t *s = u.bytes; s < r; s += 8)
            if (r[0] == s[0] && move_of(r) == move_of(s) && memcmp(r + 2, s + 2, 5) != 0)
                return 0;
    return 1;
}

/* ---- rules */

static void known_tables(void)
{
    /* the second is S1 and S2, of which S2 has the choice; the seventh has four rows for each move */
    static const int32_t wanted[] = { 1, 0, 1, 1, 1, 1, 0, 1 };
    for (int which = 0; which < 8; which++) {
        struct table t = some_table(which);
        use(&t);
        answered(wanted[which]);
    }
    struct table t = table_s();
    memmove(t.bytes + 24, t.bytes + 32, 24); /* S2 without its first rule */
    t.rules--;
    use(&t);
    answered(1);
}

/* S1 and S2 have the same complete runs and are apart, as plans over a table without a choice never are. */
static void equal_runs_and_apart(void)
{
    static const uint8_t s1 = 0, s2 = 2, runs[2][4] = { { 'a', 0, 'b', 0 }, { 'a', 0, 'c', 0 } };
    struct table t = table_s();
    use(&t);
    for (int i = 0; i < 2; i++) {
        CHECK_EQ(gindrazoma_replay_log(image, image_len, NULL, 0, &s1, 1, runs[i], 4, one_space(), SPACE), 1);
        CHECK_EQ(gindrazoma_replay_log(image, image_len, NULL, 0, &s2, 1, runs[i], 4, one_space(), SPACE), 1);
    }
    CHECK_EQ(gindrazoma_compare(image, image_len, &s1, 1, &s2, 1, one_space(), SPACE), 0);
    answered(0);
    alike("cb"); /* B and C become the same, and S1 and S2 with them; S2's two rows stay different */
    CHECK_EQ(gindrazoma_compare_alike(image, image_len, list, list_len, &s1, 1, &s2, 1, one_space(), SPACE), 1);
    answered(0);
}

/* A rule of job 5, and the rule with one thing changed: only another row is a choice. */
static void one_thing_changed(void)
{
    static const struct rule rule = { 5, 0x1234, 3, { 1, 2, 3 } };
    static const struct { struct rule rule; int32_t want; } others[] = {
        { { 5, 0x1234, 3, { 1, 2, 3 } }, 1 }, { { 5, 0x1234, 3, { 0, 2, 3 } }, 0 },    { { 5, 0x1234, 3, { 1, 0, 3 } }, 0 },
        { { 5, 0x1234, 3, { 1, 2, 0 } }, 0 }, { { 5, 0x1234, 3, { 23, 2, 3 } }, 0 },   { { 5, 0x1234, 3, { 2, 1, 3 } }, 0 },
        { { 5, 0x1234, 3, { 1, 3, 2 } }, 0 }, { { 5, 0x1234, 3, { 3, 2, 1 } }, 0 },    { { 5, 0x1234, 4, { 1, 2, 3, 0 } }, 0 },
        { { 5, 0x1234, 2, { 1, 2 } }, 0 },    { { 5, 0x1234, 4, { 1, 2, 3, 3 } }, 0 }, { { 5, 0x1234, 0, { 0 } }, 0 },
    };
    for (size_t i = 0; i < sizeof others / sizeof others[0]; i++)
        for (int order = 0; order < 2; order++) {
            struct rule other = others[i].rule;
            use_two(order == 0 ? rule : other, order == 0 ? other : rule);
            answered(others[i].want);
            for (int bit = 0; bit < 16; bit++) {
                other.move = rule.move ^ 1 << bit;
                use_two(order == 0 ? rule : other, order == 0 ? other : rule);
                answered(1);
            }
            other.move = rule.move;
            other.job = i % 2 == 0 ? 4 : 6;
            use_two(order == 0 ? rule : other, order == 0 ? other : rule);
            answered(1);
        }
}

enum { ROWS = 1 + 3 + 9 + 27 + 81 };

/* Every two rows of up to four of the jobs 0, 1 and 23: job 0 is a job as any other, and no job is not job 0. */
static void every_two_rows(void)
{
    static const int jobs[3] = { 0, 1, 23 };
    struct rule rules[ROWS];
    size_t count = 0;
    for (int len = 0, many = 1; len <= 4; len++, many *= 3)
        for (int code = 0; code < many; code++) {
            struct rule r = { 7, 1000, len, { 0 } };
            for (int i = 0, rest = code; i < len; i++, rest /= 3)
                r.row[i] = jobs[rest % 3];
            rules[count++] = r;
        }
    CHECK_EQ(count, ROWS);
    for (size_t k = 0; k < ROWS * ROWS; k += small_run() ? 61 : 1) {
        use_two(rules[k / ROWS], rules[k % ROWS]);
        CHECK_EQ(answer_in(), k / ROWS == k % ROWS);
    }
}

/* Two rules of one move and of different rows: of each two jobs. Then each job makes each of ten moves, with rows of its own. */
static void every_two_jobs(void)
{
    for (int i = 0; i < 24; i += small_run() ? 23 : 1)
        for (int j = 0; j < 24; j++) {
            use_two((struct rule){ i, 1000, 1, { 0 } }, (struct rule){ j, 1000, 2, { 0, 0 } });
            CHECK_EQ(answer_in(), i != j);
        }
    struct table t = table_new(24);
    for (int i = 0; i < 240; i++)
        if (i < 24)
            rule0(&t, i, 1000);
        else
            rule2(&t, i % 24, 1000 + i / 24, i % 24, i / 24);
    use(&t);
    answered(1);
    for (int job = 0; job < 24; job++)
        for (int move = 0; move < 10; move++) {
            struct table u = t;
            rule1(&u, job, 1000 + move, 23 - job);
            use(&u);
            CHECK_EQ(answer_in(), 0);
        }
}

/* ---- moves */

/*
 * One job with two rules of different rows: a choice if the moves are equal, and none if they differ in one bit, have one sum
 * of bytes, or have their bytes exchanged.
 */
static void every_move(void)
{
    for (int move = 0; move < 65536; move += small_run() ? 4095 : 1) {
        const int others[] = { move, move ^ 1 << move % 16, (move + 255) % 65536, move / 256 + move % 256 * 256 };
        for (int i = 0; i < 4; i++) {
            struct table t = table_new(1);
            rule0(&t, 0, move);
            rule1(&t, 0, others[i], 0);
            use(&t);
            CHECK_EQ(small_run() ? answer_in() : quick_answer(), others[i] != move);
        }
    }
}

enum { FULL = 252, WAYS = 8 };

/* The k-th of 252 different moves, by several ways to spread them. */
static int nth_move(int way, int k)
{
    switch (way) {
    case 0: return k / 4 + 256 * ((64 - k / 4 + 64 * (k % 4)) % 256); /* a low byte four times, sums of bytes by 64 apart */
    case 1: return k;                                                 /* one high byte */
    case 2: return 256 * k;                                           /* one low byte */
    case 3: return k + 256 * ((256 - k) % 256);                       /* the sum of the bytes is 0 or 256 */
    case 4: return 257 * k;                                           /* equal bytes */
    case 5: return 64 * k;                                            /* the six lowest digits are 0 */
    case 6: return 64 * (1023 - 4 * k);                               /* the eight lowest are equal, from the greatest down */
    default: return 65535 - 260 * k;
    }
}

/* One job with 252 rules of different moves; rule k has k % 5 jobs in its row. */
static struct table table_of_moves(int way)
{
    struct table t = table_new(1);
    for (int k = 0; k < FULL; k++)
        add_rule(&t, 0, nth_move(way, k), k % 5, 0, 0, 0, 0);
    return t;
}

/* Places about the bounds of blocks. */
static const int places[] = { 0, 1, 31, 62, 63, 64, 125, 126, 127, 188, 189, 190, 250, 251 };
enum { PLACES = sizeof places / sizeof places[0] };

static void set_move(struct table *t, int place, int move)
{
    t->bytes[8 * place + 1] = (uint8_t)(move % 256);
    t->bytes[8 * place + 7] = (uint8_t)(move / 256);
}

/* The move of one rule for that of another: a choice, unless their rows are equal. */
static void one_move_twice(const struct table *t, int way, int place, int other)
{
    struct table u = *t;
    set_move(&u, place, nth_move(way, other));
    use(&u);
    CHECK_EQ(answer_in(), place % 5 == other % 5);
}

static void all_moves_different(void)
{
    for (int way = 0; way < WAYS; way++) {
        struct table t = table_of_moves(way);
        use(&t);
        answered(1);
        for (int i = 0; i < PLACES * PLACES; i += small_run() ? 13 : 1)
            one_move_twice(&t, way, places[i / PLACES], places[i % PLACES]);
    }
}

/* At each of the 252 places, and at some others. */
static void one_move_at_every_place(void)
{
    struct table t = table_of_moves(0);
    for (int place = 0; place < FULL; place += small_run() ? 50 : 1)
        for (int i = 0; i < PLACES; i += small_run() ? 5 : 1) {
            one_move_twice(&t, 0, place, places[i]);
            one_move_twice(&t, 0, place, (int)random_below(FULL));
        }
}

/* ---- rules written again */

/* One rule, A: a, so many times; at a place stands another one. */
static void use_copies(int rules, int place, struct rule other)
{
    struct table t = table_new((uint32_t)other.job + 1);
    for (int k = 0; k < rules; k++)
        put(&t, k == place ? other : (struct rule){ 0, 'a', 0, { 0 } });
    use(&t);
}

static void rules_written_again(void)
{
    for (int rules = 2; rules <= FULL; rules += small_run() ? 50 : 1) {
        use_copies(rules, -1, (struct rule){ 0, 0, 0, { 0 } });
        answered(1);
        for (int i = 0; i <= PLACES; i += small_run() ? 3 : 1) {
            int place = i < PLACES ? places[i] : rules - 1;
            if (place >= rules)
                continue;
            use_copies(rules, place, (struct rule){ 0, 'a', 1, { 0 } });
            CHECK_EQ(answer_in(), 0);
            use_copies(rules, place, (struct rule){ 0, 'b', 1, { 0 } });
            CHECK_EQ(answer_in(), 1);
            use_copies(rules, place, (struct rule){ 0, 'a' + 256, 1, { 0 } });
            CHECK_EQ(answer_in(), 1);
            use_copies(rules, place, (struct rule){ 1, 'a', 1, { 0 } });
            CHECK_EQ(answer_in(), 1);
        }
    }
}

/* ---- alike lists */

/* Lists about A and B that make one move of them, and lists that do not. */
static const char *const joining[] = { "BA", "AB", "AZBZ", "BZAZ", "XYBA", "BAXY", "XABA", "AZXYBZ", "BACA" };
static const char *const keeping[] = { "", "AZ", "BZ", "AYBZ", "ZA", "ZAYB", "XY", "CA", "CB", "ZX", "AYBZCX" };

static void under_lists(const char *const lists[], size_t count, int32_t want)
{
    for (size_t i = 0; i < count; i++) {
        alike(lists[i]);
        answered(want);
    }
}

static void under_each_list(int32_t joined, int32_t kept)
{
    under_lists(joining, sizeof joining / sizeof joining[0], joined);
    under_lists(keeping, sizeof keeping / sizeof keeping[0], kept);
}

static void choices_made_by_lists(void)
{
    const struct rule a1 = { 5, 'A', 1, { 1 } }, a2 = { 5, 'A', 1, { 2 } }, b1 = { 5, 'B', 1, { 1 } }, b2 = { 5, 'B', 1, { 2 } };
    const struct rule other = { 6, 'B', 1, { 2 } };
    use_two(a1, b2);
    under_each_list(0, 1);
    use_two(b2, a1);
    under_each_list(0, 1);
    use_two(a1, b1); /* one rule twice, under some */
    under_each_list(1, 1);
    use_two(a1, other);
    under_each_list(1, 1);
    use_two(a1, a2); /* no list takes a choice away */
    under_each_list(0, 0);
    use_two(b2, b1);
    under_each_list(0, 0);
}

/* Three rules of one job: A and B have one row, C has another. */
static void three_moves_under_lists(void)
{
    static const char *const choice[] = { "AC", "CA", "BC", "CB", "AZCZ", "CZBZ", "ACBC", "AZBZCZ", "CABA", "XYCB" };
    static const char *const none[] = { "", "AB", "BA", "AZBZ", "CZ", "AXCY", "XYZC", "ABCX", "AXBXCY", "AXBYCZ" };
    static const int orders[6][3] = { { 0, 1, 2 }, { 0, 2, 1 }, { 1, 0, 2 }, { 1, 2, 0 }, { 2, 0, 1 }, { 2, 1, 0 } };
    for (int order = 0; order < 6; order++) {
        struct table t = table_letters(24, 24);
        for (int i = 0; i < 3; i++)
            rule1(&t, 5, 'A' + orders[order][i], orders[order][i] / 2);
        use(&t);
        under_lists(choice, sizeof choice / sizeof choice[0], 0);
        under_lists(none, sizeof none / sizeof none[0], 1);
    }
}

/* The pair that makes a choice, at each place of lists of 1 to 32 pairs. */
static void each_place_of_a_list(void)
{
    use_two((struct rule){ 5, 'A', 1, { 1 } }, (struct rule){ 5, 'B', 1, { 2 } });
    for (size_t n = 1; n <= PAIRS; n += small_run() ? 31 : 1)
        for (size_t place = 0; place < n; place++) {
            fill_list(n);
            CHECK_EQ(answer_in(), 1);
            put_pair(place, 'B', 'A');
            CHECK_EQ(answer_in(), 0);
            put_pair(place, 'A', 'B');
            CHECK_EQ(answer_in(), 0);
            list_len = 4 * place; /* the pair stands behind the end */
            answered(1);
        }
}

/* 32 rules of one job whose moves become one; one of them has another row, and that is no choice without its pair. */
static void each_pair_counts(void)
{
    for (int other = 0; other < PAIRS; other += small_run() ? 31 : 1) {
        struct table t = table_letters(24, 24);
        for (int k = 0; k < PAIRS; k++)
            rule1(&t, 5, 300 * (k + 1), k == other ? 1 : 0);
        use(&t);
        for (int left_out = -1; left_out < PAIRS; left_out += small_run() ? 4 : 1) {
            list_len = 0;
            for (int k = 0; k < PAIRS; k++)
                if (k != left_out)
                    add_pair(300 * (k + 1), 'A');
            CHECK_EQ(answer_in(), left_out == other);
        }
    }
}

/* Rules with moves m and n: a choice if a pair says that one counts as the other, and none if a bit of the pair is another. */
static void each_bit_of_a_pair(void)
{
    const int m = 'a' + 256 * 'b', n = 'T' + 256 * 'U';
    use_two((struct rule){ 5, m, 1, { 1 } }, (struct rule){ 5, n, 1, { 2 } });
    for (int bit = -1; bit < 16; bit++) {
        const int flip = bit < 0 ? 0 : 1 << bit;
        const int pairs[4][2] = { { m ^ flip, n }, { m, n ^ flip }, { n ^ flip, m }, { n, m ^ flip } };
        for (int i = 0; i < 4; i++) {
            list_len = 0;
            add_pair(pairs[i][0], pairs[i][1]);
            answered(bit >= 0);
        }
    }
    list_len = 0;
    add_pair('b' + 256 * 'a', n); /* the bytes in another order */
    add_pair(m, 'U' + 256 * 'T');
    answered(1);
}

/* Rules of each two of the moves 0, 255, 256, 65,535, 'a' and 'a' + 256, and each two of them as a pair. */
static void moves_at_the_edges(void)
{
    struct table edges = table_edges();
    for (int i = 0; i < EDGES * EDGES; i++) {
        const int left = move_of(edges.bytes + 8 * (i / EDGES)), right = move_of(edges.bytes + 8 * (i % EDGES));
        use_two((struct rule){ 23, left, 1, { 1 } }, (struct rule){ 23, right, 1, { 2 } });
        CHECK_EQ(answer_in(), left != right);
        for (int k = 0; k < EDGES * EDGES; k += small_run() ? 5 : 1) {
            const int from = move_of(edges.bytes + 8 * (k / EDGES)), to = move_of(edges.bytes + 8 * (k % EDGES));
            list_len = 0;
            add_pair(from, to);
            int joined = left == right || (left == from && right == to) || (left == to && right == from);
            CHECK_EQ(answer_in(), from == to ? -13 : !joined);
        }
    }
}

/* 252 rules of different moves, and the move of one counts as that of another, at places about the bounds of blocks. */
static void replaced_at_every_place(void)
{
    for (int way = 0; way < WAYS; way++) {
        struct table t = table_of_moves(way);
        use(&t);
        for (int i = 0; i < PLACES * PLACES; i += small_run() ? 17 : 1) {
            int from = places[i / PLACES], to = places[i % PLACES];
            if (from == to)
                continue;
            fill_list(i % PAIRS);
            add_pair(nth_move(way, from), nth_move(way, to));
            CHECK_EQ(answer_in(), from % 5 == to % 5);
            list_len = 0;
            add_pair(nth_move(way, from), 65001);
            add_pair(nth_move(way, to), 65001);
            CHECK_EQ(answer_in(), from % 5 == to % 5);
        }
    }
}

/* ---- beside other ways to the answer */

/* At most one row for each move of a job, unless a rule slips in; then in any order, and some rules more than once. */
static struct table random_outcomes(void)
{
    uint32_t jobs = 1 + random_below(24), used = 1 + random_below(MOVES), tries = random_below(300), slips = random_below(2);
    struct table t = table_new(jobs);
    for (uint32_t k = 0; k < jobs + tries && t.rules < FULL; k++) {
        struct rule r = { (int)(k < jobs ? k : random_below(jobs)), random_move(used), k < jobs ? 0 : (int)random_below(5), { 0 } };
        int there = 0;
        for (int i = 0; i < r.len; i++)
            r.row[i] = (int)random_below(jobs);
        for (const uint8_t *s = t.bytes; s < t.bytes + rule_bytes(&t); s += 8)
            there |= s[0] == r.job && move_of(s) == r.move;
        if (!there || (slips && random_below(30) == 0))
            put(&t, r);
    }
    return shuffled(&t, random_below(4) == 0 ? FULL : random_below(FULL));
}

static void beside_each_two_rules(void)
{
    size_t seen[2] = { 0 }, by_list = 0, again = 0;
    for (int round = 0; round < (small_run() ? 60 : 20000); round++) {
        struct table t = random_below(8) == 0 ? some_table((int)random_below(20)) : random_outcomes();
        use(&t);
        int32_t without = by_each_two_rules(&t);
        CHECK_EQ(answer_in(), without);
        random_list();
        struct table u = replaced(&t);
        int32_t want = by_each_two_rules(&t);
        CHECK_EQ(answer_in(), want);
        CHECK(want <= without);
        seen[want]++;
        by_list += want < without;
        again += want == 1 && t.rules == FULL;
        shuffle_pairs();
        u = shuffled(&u, 0);
        CHECK_EQ(quick_answer(), want);
        use(&u);
        CHECK_EQ(quick_answer(), want);
    }
    CHECK(small_run() || (seen[0] > 2000 && seen[1] > 2000 && by_list > 500 && again > 500));
}

/* A list that names no move of the table, or only as to-moves of such, changes nothing. */
static void moves_that_no_rule_makes(void)
{
    size_t seen[2] = { 0 };
    for (int round = 0; round < (small_run() ? 20 : 1000); round++) {
        struct table t = random_outcomes();
        use(&t);
        int32_t want = by_each_two_rules(&t);
        seen[want]++;
        fill_list(1 + random_below(PAIRS));
        CHECK_EQ(answer_in(), want);
        for (size_t k = 0; k < list_len / 4; k++)
            put_pair(k, from_of(k), move_of(t.bytes + 8 * random_below((uint32_t)t.rules)));
        CHECK_EQ(answer_in(), want);
    }
    CHECK(small_run() || (seen[0] > 100 && seen[1] > 100));
}

/* ---- lengths and refusals */

/* The list with a set's defects; a workspace, which is one of the set's, is none here. */
static void first_defect_answered(int refusal, int set)
{
    int first = first_refusal(refusal, set & ~SHORT_SPACE);
    list_with(set);
    answered(first == 0 ? 1 : -first);
}

/* An image alone, and with all defects of a list. */
static void image_answered(int refusal)
{
    first_defect_answered(refusal, 0);
    first_defect_answered(refusal, HALF_PAIR | MANY_PAIRS | CLASH);
}

/* For every image and every set of defects, the one that comes first in the order is answered. */
static void order_of_refusals(void)
{
    every_defect(NO_JOB, first_defect_answered);
    every_image(image_answered);
}

/* A table with a choice of outcome, and a defect of each kind: the refusal and not 0. */
static void refusals_before_choices(void)
{
    static const int refusals[] = { 0, 2, 3, 4, 5, 6, 7 };
    for (size_t i = 0; i < sizeof refusals / sizeof refusals[0]; i++) {
        const int refusal = refusals[i];
        struct table t = table_doubling(refusal == 7 ? 10 : 9);
        rule1(&t, 0, 'a', 0);
        use_with(t, 1 << refusal);
        CHECK_EQ(refusal_of_image(image, image_len), refusal);
        answered(-refusal);
        for (int set = 0; set < NO_JOB; set++) {
            list_with(set);
            answered(-first_refusal(refusal, set & ~SHORT_SPACE));
        }
    }
}

/* Every length of an image up to 2,560 bytes, and of a list up to 160, of pairs that are fine and of pairs that clash. */
static void lengths_of_images_and_lists(void)
{
    struct table t = table_full(FULL);
    use(&t);
    for (image_len = 0; image_len <= sizeof image; image_len += small_run() ? 64 : 1)
        answered(refusal_of_image(image, image_len) == 0 ? 1 : -refusal_of_image(image, image_len));
    for (int clash = 0; clash < 2; clash++)
        for (int choice = 0; choice < 2; choice++) {
            use_two((struct rule){ 5, 'A', 1, { 1 } }, (struct rule){ 5, choice ? 'A' : 'B', 1, { 2 } });
            fill_list(PAIRS + 8);
            if (clash)
                memset(list, 0, sizeof list);
            for (list_len = 0; list_len <= sizeof list; list_len += small_run() && list_len > 8 && list_len < 122 ? 7 : 1)
                answered(refusal_of_pairs() == 0 ? !choice : -refusal_of_pairs());
        }
}

/* Lengths whose low 8, 16 or 32 bits are 0 or those of an accepted image or list. */
static void lengths_beyond_8_16_and_32_bits(void)
{
    static const size_t longer[] = { 256, 260, 384, 65536, 65540, 65536 + 128, 65536 + 512 }, less[] = { 512, 508, 0 };
    static uint8_t bytes[65536 + 512];
    struct area zeros = area_reserved(512);
    struct table t = table_t();
    use(&t);
    memcpy(bytes, image, image_len);
    for (size_t i = 0; i < sizeof longer / sizeof longer[0]; i++) {
        CHECK_EQ(gindrazoma_deterministic(bytes, longer[i], list, 0), -2);
        CHECK_EQ(gindrazoma_deterministic(image, image_len, bytes, longer[i]), -12);
    }
    for (int i = 0; i < 3 && zeros.bytes != NULL; i++) {
        CHECK_EQ(gindrazoma_deterministic(image, image_len, zeros.bytes, zeros.len - less[i]), -12);
        CHECK_EQ(gindrazoma_deterministic(zeros.bytes, zeros.len - less[i], list, 0), -2);
    }
    area_free(&zeros);
}

/* A from-move twice, or as a to-move, at each two places of a list; next to it, moves that differ in one byte only. */
static void clashes_at_each_two_places(void)
{
    use_two((struct rule){ 5, 'A', 1, { 1 } }, (struct rule){ 5, 'B', 1, { 2 } });
    for (size_t i = 0; i < PAIRS; i += small_run() ? 31 : 1)
        for (size_t j = 0; j < PAIRS; j++) {
            for (int flip = 0; flip <= 256; flip = flip == 0 ? 1 : 256 * flip) {
                fill_list(PAIRS);
                put_pair(j, from_of(j), from_of(i) ^ flip);
                CHECK_EQ(answer_in(), flip == 0 ? -13 : 1);
                fill_list(PAIRS);
                put_pair(j, from_of(i) ^ flip, to_of(j));
                CHECK_EQ(answer_in(), flip == 0 && i != j ? -13 : 1);
            }
        }
}

/* Damaged images and lists of any bytes: the image's refusal, then the list's, or the answer. */
static void random_refusals(void)
{
    int seen[16] = { 0 };
    for (int round = 0; round < (small_run() ? 60 : 5000); round++) {
        struct table t = random_below(2) ? random_outcomes() : table_full(24 + (int)random_below(229));
        use(&t);
        if (random_below(2))
            damage_image();
        if (random_below(3) == 0)
            list_of_any_bytes();
        int refusal = refusal_in_force();
        if (refusal == 0)
            t = table_in_force();
        answered(refusal == 0 ? by_each_two_rules(&t) : -refusal);
        seen[refusal]++;
    }
    static const int often[] = { 0, 3, 5, 12, 13 };
    for (size_t i = 0; i < sizeof often / sizeof often[0]; i++)
        CHECK(small_run() || seen[often[i]] > 20);
}

/* ---- areas */

static void null_with_length_0(void)
{
    CHECK_EQ(gindrazoma_deterministic(NULL, 0, NULL, 0), -2);
    use_two((struct rule){ 5, 'A', 1, { 1 } }, (struct rule){ 5, 'B', 1, { 2 } });
    CHECK_EQ(gindrazoma_deterministic(image, image_len, NULL, 0), 1);
    CHECK_EQ(gindrazoma_deterministic(image, 0, NULL, 0), -2);
    alike("BA");
    CHECK_EQ(gindrazoma_deterministic(image, image_len, list, 4), 0);
    CHECK_EQ(gindrazoma_deterministic(image, image_len, list, 0), 1);
    CHECK_EQ(gindrazoma_deterministic(NULL, 0, list, 4), -2);
    CHECK_EQ(gindrazoma_deterministic(NULL, 0, list, 3), -2);
    alike("AA"); /* pairs that clash, and none of them given */
    CHECK_EQ(gindrazoma_deterministic(image, image_len, list, 0), 1);
    CHECK_EQ(gindrazoma_deterministic(image, image_len, list, 4), -13);
    CHECK_EQ(gindrazoma_deterministic(NULL, 0, list, 4), -2);
    use_two((struct rule){ 5, 'A', 1, { 1 } }, (struct rule){ 5, 'A', 1, { 2 } });
    CHECK_EQ(gindrazoma_deterministic(image, image_len, NULL, 0), 0);
}

/* Image and list are only read and may coincide. */
static void the_list_within_the_image(void)
{
    struct table t = table_new(2);
    rule0(&t, 0, 'b'); /* bytes 3 to 6 of the image: from-move 'b', to-move 0 */
    rule1(&t, 1, 'b', 0);
    rule0(&t, 1, 0);
    use(&t);
    struct area in = area_copy(image, image_len);
    CHECK_EQ(gindrazoma_deterministic(in.bytes, in.len, in.bytes + 3, 4), 0);
    CHECK_EQ(gindrazoma_deterministic(in.bytes, in.len, in.bytes + 3, 0), 1);
    CHECK_EQ(gindrazoma_deterministic(in.bytes, in.len, in.bytes, 4), 1); /* move 2 + 256 * 3 counts as 256 * 'b' */
    CHECK_EQ(gindrazoma_deterministic(in.bytes, in.len, in.bytes + 508, 4), 1);
    CHECK_EQ(gindrazoma_deterministic(in.bytes, in.len, in.bytes, in.len), -12);
    CHECK_EQ(gindrazoma_deterministic(in.bytes, in.len, in.bytes, 128), -13);
    CHECK_EQ(gindrazoma_deterministic(in.bytes, 4, in.bytes, 4), -2);
    CHECK(area_same(&in));
    area_free(&in);
}

/* Areas at addresses that are no multiple of anything. */
static void areas_at_any_address(void)
{
    static uint8_t bytes[2][2100];
    struct table t = table_of_moves(0);
    use(&t);
    for (size_t at = 0; at < 64; at++) {
        uint8_t *in = bytes[0] + at % 8, *pairs = bytes[1] + at / 8;
        memcpy(in, image, image_len);
        list_len = 0;
        add_pair(nth_move(0, 251), nth_move(0, at % 2 == 0 ? 1 : 2));
        memcpy(pairs, list, 4);
        CHECK_EQ(gindrazoma_deterministic(in, image_len, pairs, 4), at % 2 == 0);
        CHECK_EQ(gindrazoma_deterministic(in, image_len, pairs, 0), 1);
    }
}

/* Each call answers as alone, whatever the call before was, a refused one and other calls among them. */
static void calls_one_after_another(void)
{
    static const struct { int left, right; const char *list; int32_t want; } calls[] = {
        { 'A', 'B', "", 1 },   { 'A', 'A', "", 0 },   { 'A', 'B', "BA", 0 },   { 'A', 'B', "AZ", 1 },   { 'B', 'B', "BA", 0 },
        { 'A', 'C', "BA", 1 }, { 'C', 'B', "CB", 0 }, { 'A', 'B', "AA", -13 }, { 'A', 'A', "AA", -13 }, { 'A', 'B', "AZBZ", 0 },
    };
    enum { COUNT = sizeof calls / sizeof calls[0] };
    for (int i = 0; i < 2 * COUNT * COUNT; i++) {
        int k = i % 2 == 0 ? i / 2 / COUNT : i / 2 % COUNT;
        uint8_t read[2017], plan = 5;
        use_two((struct rule){ 5, calls[k].left, 1, { 1 } }, (struct rule){ 5, calls[k].right, 1, { 2 } });
        alike(calls[k].list);
        for (int again = 0; again < 2; again++)
            CHECK_EQ(quick_answer(), calls[k].want);
        if (i % 3 == 0)
            CHECK_EQ(gindrazoma_read_image(image, image_len, read, sizeof read), 1 + 8 * 26);
        if (i % 5 == 0)
            CHECK_EQ(gindrazoma_deterministic(image, image_len - 1, list, list_len), -2);
        if (i % 7 == 0)
            CHECK_EQ(gindrazoma_compare(image, image_len, &plan, 1, &plan, 1, one_space(), SPACE), 1);
    }
}

static const struct check_case cases[] = {
    { "table T, S1 and S2, and others", known_tables },
    { "S1 and S2: equal complete runs, and apart", equal_runs_and_apart },
    { "two rules that differ in one thing", one_thing_changed },
    { "every two rows of jobs 0, 1 and 23", every_two_rows },
    { "every two jobs", every_two_jobs },
    { "every move", every_move },
    { "one job, 252 moves", all_moves_different },
    { "one move twice, at each of 252 places", one_move_at_every_place },
    { "rules written 2 to 252 times", rules_written_again },
    { "choices made by lists", choices_made_by_lists },
    { "three moves under lists", three_moves_under_lists },
    { "each place of lists of 1 to 32 pairs", each_place_of_a_list },
    { "each of 32 pairs counts", each_pair_counts },
    { "pairs that differ in one bit", each_bit_of_a_pair },
    { "moves 0, 255, 256 and 65,535", moves_at_the_edges },
    { "moves replaced at every place", replaced_at_every_place },
    { "beside each two rules", beside_each_two_rules },
    { "moves that no rule makes", moves_that_no_rule_makes },
    { "order of refusals: every set of defects", order_of_refusals },
    { "refusals come before choices", refusals_before_choices },
    { "lengths of images and lists", lengths_of_images_and_lists },
    { "lengths beyond 8, 16 and 32 bits", lengths_beyond_8_16_and_32_bits },
    { "clashes at each two places of a list", clashes_at_each_two_places },
    { "random lists and refused images", random_refusals },
    { "NULL with length 0", null_with_length_0 },
    { "the list within the image", the_list_within_the_image },
    { "areas at any address", areas_at_any_address },
    { "calls one after another", calls_one_after_another },
};

int main(void)
{
    return run_cases(cases, sizeof cases / sizeof cases[0]);
}
