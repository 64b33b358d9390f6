/* Whether a plan ever grows, and how many jobs it reaches: answers, refusals, and areas that keep their bytes. */
#include "check.h"
#include "gindrazoma.h"

#include <stdlib.h>
#include <string.h>

/* The answer for the image in force and a plan, in areas of their own that are looked at afterwards. */
static int32_t answer_in(const uint8_t *plan, size_t n)
{
    struct area in = area_copy(image, image_len), p = area_copy(plan, n);
    int32_t got = gindrazoma_plan_growth(in.bytes, in.len, p.bytes, p.len);
    CHECK(area_same(&in) && area_same(&p));
    area_free(&in);
    area_free(&p);
    return got;
}

/* On the caller's own bytes: behind the ends of image and plan may stand more of them. */
static int32_t quick_answer(const uint8_t *plan, size_t n)
{
    return gindrazoma_plan_growth(image, image_len, plan, n);
}

/* Both. */
static void answered(const uint8_t *plan, size_t n, int32_t want)
{
    CHECK_EQ(answer_in(plan, n), want);
    CHECK_EQ(quick_answer(plan, n), want);
}

static void job_answered(int job, int32_t want)
{
    uint8_t plan = (uint8_t)job;
    answered(&plan, 1, want);
}

enum { JOBS = 24, FULL = 252, FINITE = 0, ENDLESS = 1 };

/* ---- by the definition: jobs reached by a search */

static void mark(const struct table *t, int job, uint8_t *marks)
{
    if (marks[job])
        return;
    marks[job] = 1;
    for (const uint8_t *r = t->bytes; r < t->bytes + rule_bytes(t); r += 8)
        for (int k = 0; r[0] == job && k < r[2]; k++)
            mark(t, r[3 + k], marks);
}

static int32_t by_search(const struct table *t, const uint8_t *plan, size_t n)
{
    uint8_t of_plan[JOBS] = { 0 }, of_job[JOBS][JOBS] = { { 0 } };
    int32_t jobs = 0, endless = 0;
    for (size_t i = 0; i < n; i++)
        mark(t, plan[i], of_plan);
    for (uint32_t j = 0; j < t->jobs; j++) {
        mark(t, (int)j, of_job[j]);
        jobs += of_plan[j];
    }
    for (const uint8_t *r = t->bytes; r < t->bytes + rule_bytes(t); r += 8)
        for (int k = 0; k + 1 < r[2]; k++)
            endless |= of_plan[r[0]] && of_job[r[3 + k]][r[0]];
    return 2 * jobs + endless;
}

/* ---- by the plans that a plan becomes, written out one after the other */

enum { SLOTS = 1 << 16, PLANS = 20000, DIGITS = 21 };

/* The plans met so far, in the order in which they were; each is a number of three bits a job, 1 and more, its first job the lowest. */
static uint64_t met[PLANS], slots[SLOTS];
static size_t met_count;

static uint64_t in_front(const uint8_t *row, size_t n, uint64_t behind)
{
    while (n > 0)
        behind = behind << 3 | (row[--n] + 1u);
    return behind;
}

static size_t jobs_in(uint64_t plan)
{
    size_t n = 0;
    for (; plan != 0; plan >>= 3)
        n++;
    return n;
}

/* Whether there is room for the plan, if it is new. */
static int meet(uint64_t plan)
{
    size_t at = (size_t)(plan * 0x9e3779b97f4a7c15u >> 48);
    while (slots[at] != 0 && slots[at] != plan + 1)
        at = (at + 1) % SLOTS;
    if (slots[at] != 0)
        return 1;
    if (met_count == PLANS)
        return 0;
    slots[at] = plan + 1;
    met[met_count++] = plan;
    return 1;
}

/*
 * A length beyond which plans need not be followed to know all of the answer about a plan of n jobs. Say that rows have at most m + 1 jobs. What
 * stands before the n - 1 others is the first job and what a chain of jobs left behind it: each job of the chain stands in a row of the
 * one before it, and the jobs behind it in that row, m at most, are left.
 *  - If no job comes round with others behind it, the jobs of a chain by whose rows some are left are all different, and the first
 *    job of the plan is none of them: a plan has at most n + m * (jobs - 1) jobs.
 *  - A job that is reached is reached by a chain that has no job twice, which leaves m * (jobs - 1) at most. The jobs before it in those
 *    rows are ended by moves that lower the norm: a chain of ever lesser norms, of at most m * (jobs - 1) + 1 jobs with all that it leaves.
 * So within the sum of both each job that is reached stands in a plan, and no finite plan gets beyond it. An endless one does: its plans get
 * longer than any bound, and what leads to the first that is too long are plans within it.
 */
static size_t longest_needed(const struct table *t, size_t n)
{
    size_t m = 0;
    for (const uint8_t *r = t->bytes; r < t->bytes + rule_bytes(t); r += 8)
        if (r[2] > m + 1u)
            m = r[2] - 1u;
    return n + 2 * m * (t->jobs - 1) + 1;
}

static size_t longest_met(void)
{
    size_t longest = 0;
    for (size_t i = 0; i < met_count; i++)
        if (jobs_in(met[i]) > longest)
            longest = jobs_in(met[i]);
    return longest;
}

/* The answer, or -1 if there are too many plans to tell. A finite plan has at most three jobs more for each job that it reaches. */
static int32_t by_plans(const struct table *t, const uint8_t *plan, size_t n)
{
    const size_t longest = longest_needed(t, n);
    int32_t jobs = 0, endless = 0, room = t->jobs < 8 && longest + 3 <= DIGITS;
    uint8_t stands[8] = { 0 };
    memset(slots, 0, sizeof slots);
    met_count = 0;
    if (room)
        meet(in_front(plan, n, 0));
    for (size_t at = 0; at < met_count && room; at++) {
        for (uint64_t rest = met[at]; rest != 0; rest >>= 3)
            stands[(rest & 7) - 1] = 1;
        for (const uint8_t *r = t->bytes; r < t->bytes + rule_bytes(t); r += 8) {
            if (r[0] + 1u != (met[at] & 7))
                continue;
            uint64_t next = in_front(r + 3, r[2], met[at] >> 3);
            if (jobs_in(next) > longest)
                endless = 1;
            else
                room &= meet(next);
        }
    }
    for (int j = 0; j < 7; j++)
        jobs += stands[j];
    CHECK(!room || endless || longest_met() <= n + 3 * (size_t)jobs);
    return room ? 2 * jobs + endless : -1;
}

/* ---- tables as text: words of letters, each a rule of its first letter and the row behind that; every job may also end */

static struct table table_of(uint32_t jobs, const char *text)
{
    struct table t = table_letters(jobs, (int)jobs);
    while (*text != 0) {
        uint8_t word[5] = { 0 };
        size_t n = strcspn(text, " ");
        for (size_t i = 0; i < n; i++)
            word[i] = (uint8_t)(text[i] - 'A');
        add_rule(&t, word[0], 'a' + (int)t.rules, (int)n - 1, word[1], word[2], word[3], word[4]);
        text += n + (text[n] == ' ');
    }
    return t;
}

/* The same with the jobs numbered otherwise, among 24. */
static struct table renumbered(const struct table *t, const uint8_t *number)
{
    struct table u = table_letters(JOBS, JOBS);
    add_renumbered(&u, t, number);
    return u;
}

/* The table as it is, and a few times with its rules in another order, with rules again, and with other numbers for its jobs. */
static void in_many_ways(const struct table *t, const uint8_t *plan, size_t n, int32_t want)
{
    uint8_t number[JOBS] = { 0 }, other_plan[16];
    use(t);
    answered(plan, n, want);
    for (int way = 0; way < (small_run() ? 2 : 20); way++) {
        struct table u = shuffled(t, way % 2 == 0 ? 0 : 3 * t->rules);
        use(&u);
        CHECK_EQ(quick_answer(plan, n), want);
        random_numbers(number, JOBS);
        for (size_t i = 0; i < n; i++)
            other_plan[i] = number[plan[i]];
        u = renumbered(&u, number);
        u = shuffled(&u, way % 5 == 0 ? FULL : 0);
        use(&u);
        answered(other_plan, n, want);
    }
}

struct tried {
    const char *rules, *plan;
    int32_t jobs, endless;
};

static void try_each(const struct tried *tried, size_t count)
{
    size_t told = 0;
    for (size_t i = 0; i < count; i++) {
        struct table t = table_of(5, tried[i].rules);
        uint8_t plan[16];
        size_t n = plan_of(tried[i].plan, plan);
        int32_t want = 2 * tried[i].jobs + tried[i].endless;
        int32_t explored = by_plans(&t, plan, n);
        CHECK_EQ(by_search(&t, plan, n), want);
        CHECK(explored == -1 || explored == want);
        told += explored != -1;
        in_many_ways(&t, plan, n, want);
    }
    CHECK(2 * told > count);
}

/* ---- answers */

static void known_tables(void)
{
    /* jobs 0 to 3 of table T; S1, X, S2, B and C; X, Y and Z, where Y: a, Y Z */
    static const int32_t of_t[] = { 2, 4, 6, 4 }, of_s[] = { 4, 2, 6, 2, 2 }, of_xyz[] = { 7, 5, 2 };
    struct table t = table_t();
    use(&t);
    answered(NULL, 0, 0);
    for (int j = 0; j < 4; j++)
        job_answered(j, of_t[j]);
    t = table_s();
    use(&t);
    for (int j = 0; j < 5; j++)
        job_answered(j, of_s[j]);
    t = table_xyz();
    use(&t);
    for (int j = 0; j < 3; j++)
        job_answered(j, of_xyz[j]);
    t = table_doubling(9); /* rows of equal jobs, and none comes round */
    use(&t);
    for (int j = 0; j < 9; j++)
        job_answered(j, 2 * (j + 1));
    t = table_repeated(); /* one job, and rows of up to three of it */
    use(&t);
    job_answered(0, 3);
    t = table_edges();
    use(&t);
    for (int j = 0; j < EDGES; j++)
        job_answered(j, 2);
}

/* A job that comes round by a rule of its own: at the last place of a row it leaves nothing behind. */
static void one_job_comes_round(void)
{
    static const struct tried tried[] = {
        { "", "A", 1, FINITE },          { "", "", 0, FINITE },           { "AA", "A", 1, FINITE },        { "AAA", "A", 1, ENDLESS },
        { "AAAA", "A", 1, ENDLESS },     { "AAAAA", "A", 1, ENDLESS },    { "AB", "A", 2, FINITE },        { "ABB", "A", 2, FINITE },
        { "ABBB", "A", 2, FINITE },      { "ABBBB", "A", 2, FINITE },     { "ABA", "A", 2, FINITE },       { "AAB", "A", 2, ENDLESS },
        { "ABCA", "A", 3, FINITE },      { "ABAC", "A", 3, ENDLESS },     { "AABC", "A", 3, ENDLESS },     { "ABCDA", "A", 4, FINITE },
        { "ABCAD", "A", 4, ENDLESS },    { "ABACD", "A", 4, ENDLESS },    { "AABCD", "A", 4, ENDLESS },    { "ABBBA", "A", 2, FINITE },
        { "ABBAB", "A", 2, ENDLESS },    { "ABABB", "A", 2, ENDLESS },    { "AABBB", "A", 2, ENDLESS },    { "ABAA", "A", 2, ENDLESS },
        { "AA ABA", "A", 2, FINITE },    { "AA AAB", "A", 2, ENDLESS },   { "ABA ACA", "A", 3, FINITE },   { "ABA AAC", "A", 3, ENDLESS },
    };
    try_each(tried, sizeof tried / sizeof tried[0]);
}

/* A job that comes round by way of others: it is endless if but one of the rules on the way leaves a job behind. */
static void jobs_come_round_together(void)
{
    static const struct tried tried[] = {
        { "AB BA", "A", 2, FINITE },            { "ACB BCA", "A", 3, FINITE },          { "AB BAC", "A", 3, ENDLESS },
        { "ABC BA", "A", 3, ENDLESS },          { "ACBC BA", "A", 3, ENDLESS },         { "AB BCAC", "A", 3, ENDLESS },
        { "ABB BA", "A", 2, ENDLESS },          { "ABB BB", "A", 2, FINITE },           { "ABB BCB", "A", 3, FINITE },
        { "ABB BBC", "A", 3, ENDLESS },         { "AB BC CA", "A", 3, FINITE },         { "ADB BDC CDA", "A", 4, FINITE },
        { "ABD BC CA", "A", 4, ENDLESS },       { "AB BCD CA", "A", 4, ENDLESS },       { "AB BC CAD", "A", 4, ENDLESS },
        { "ADB BDC CAD", "A", 4, ENDLESS },     { "ADB BCD CDA", "A", 4, ENDLESS },     { "ABD BDC CDA", "A", 4, ENDLESS },
        { "ADEB BDEC CDEA", "A", 5, FINITE },   { "ADEB BDCE CDEA", "A", 5, ENDLESS },  { "ABC BD CD DE", "A", 5, FINITE },
        { "ABC BC CC", "A", 3, FINITE },        { "ABC BA CC", "A", 3, ENDLESS },       { "ACB BA CC", "A", 3, FINITE },
        { "ABC CA", "A", 3, FINITE },           { "ABC BB CA", "A", 3, FINITE },        { "ABC BC CA", "A", 3, ENDLESS },
        { "ABCD BE CE EA", "A", 5, ENDLESS },   { "ABCD BE CE DA", "A", 5, FINITE },    { "AB BC CD DE EAA", "A", 5, ENDLESS },
        { "AB BC CD DE EA", "A", 5, FINITE },   { "AB BC CBD DE", "A", 5, ENDLESS },    { "AB BC CDB DE", "A", 5, FINITE },
    };
    try_each(tried, sizeof tried / sizeof tried[0]);
}

/* What grows may be reached from any place of the plan or of a row, or not at all. */
static void jobs_that_wait_and_jobs_not_reached(void)
{
    static const struct tried tried[] = {
        { "BBC", "A", 1, FINITE },         { "BBC", "B", 2, ENDLESS },       { "BBC", "AB", 3, ENDLESS },       { "BBC", "BA", 3, ENDLESS },
        { "BBC", "AC", 2, FINITE },        { "BBC", "AAB", 3, ENDLESS },     { "BBC", "ACBCA", 3, ENDLESS },    { "BBC", "CACAC", 2, FINITE },
        { "BBC AC", "A", 2, FINITE },      { "BBA", "A", 1, FINITE },        { "BBA AC", "AC", 2, FINITE },     { "BBA AC", "B", 3, ENDLESS },
        { "ACDB BBE", "A", 5, ENDLESS },   { "ACBD BBE", "A", 5, ENDLESS },  { "ABCD BBE", "A", 5, ENDLESS },   { "ACDEB BBE", "A", 5, ENDLESS },
        { "ACDEB BEB", "A", 5, FINITE },   { "AB BC CD DD", "A", 4, FINITE }, { "AB BC CD DDE", "A", 5, ENDLESS }, { "AB BC CD DDE", "E", 1, FINITE },
        { "AB BC CD DDE", "D", 2, ENDLESS }, { "DAE ABD", "C", 1, FINITE },  { "DAE ABD", "A", 4, ENDLESS },    { "DAE ABD", "BE", 2, FINITE },
        { "AA", "AA", 1, FINITE },         { "AAA", "AAAAAAAA", 1, ENDLESS }, { "AB", "ABABABAB", 2, FINITE },  { "AB", "BBBBBBBB", 1, FINITE },
        { "ABC DDE", "ABCABC", 3, FINITE }, { "ABC DDE", "ABCABCE", 4, FINITE }, { "ABC DDE", "ABCABCD", 5, ENDLESS },
        { "AEB", "ABCD", 5, FINITE },      { "AEB", "BCD", 3, FINITE },      { "EAE AB", "ECD", 5, FINITE },    { "EEA AB", "DCE", 5, ENDLESS },
    };
    try_each(tried, sizeof tried / sizeof tried[0]);
}

/* Each job alone, each with all others, each job left out, and each two, over a table in which no job becomes another. */
static void every_job(void)
{
    struct table t = table_letters(JOBS, JOBS);
    uint8_t all[JOBS], but_one[JOBS];
    for (int j = 0; j < JOBS; j++)
        all[j] = (uint8_t)j;
    use(&t);
    answered(all, JOBS, 48);
    for (int j = 0; j < JOBS; j++) {
        job_answered(j, 2);
        memcpy(but_one, all, JOBS);
        but_one[j] = (uint8_t)((j + 1) % JOBS);
        answered(but_one, JOBS, 46);
        for (int k = 0; k < JOBS; k++) {
            const uint8_t two[] = { (uint8_t)j, (uint8_t)k };
            CHECK_EQ(answer_in(two, 2), j == k ? 2 : 4);
        }
    }
}

/* Job i grows with job k behind, or k comes before it in its row; every plan of one job is tried. */
static void every_two_jobs(void)
{
    for (int i = 0; i < JOBS; i += small_run() ? 23 : 1)
        for (int k = 0; k < JOBS; k++) {
            const int32_t reached = i == k ? 2 : 4;
            for (int first = 0; first < 2; first++) {
                struct table t = table_letters(JOBS, JOBS);
                rule2(&t, i, 'b', first ? i : k, first ? k : i);
                use(&t);
                for (int j = 0; j < JOBS; j += small_run() ? 5 : 1) {
                    uint8_t plan = (uint8_t)j;
                    CHECK_EQ(quick_answer(&plan, 1), j != i ? 2 : reached + (first || i == k));
                }
            }
        }
}

/* Job i becomes k, and k becomes i with job 0 or 23 behind: whichever of the two rules is there alone, nothing grows. */
static void every_two_jobs_that_come_round(void)
{
    for (int i = 0; i < JOBS; i += small_run() ? 23 : 1)
        for (int k = 0; k < JOBS; k++) {
            const int behind = (i + k) % 2 == 0 ? 0 : 23;
            for (int rules = 1; rules < 4; rules++) {
                struct table t = table_letters(JOBS, JOBS);
                if (rules & 1)
                    rule1(&t, i, 'b', k);
                if (rules & 2)
                    rule2(&t, k, 'b', i, behind);
                use(&t);
                for (int j = 0; j < JOBS; j += small_run() ? 5 : 1) {
                    uint8_t plan = (uint8_t)j;
                    CHECK_EQ(quick_answer(&plan, 1), by_search(&t, &plan, 1));
                }
            }
        }
}

/* A rule of a job, with the row of a number: those of no job come first, then those of one of the jobs, and so on. */
static void add_numbered(struct table *t, int job, int number, const int *jobs, int count)
{
    int row[4] = { 0 }, len = 0;
    for (int many = 1; number >= many; many *= count, len++)
        number -= many;
    for (int i = 0; i < len; i++, number /= count)
        row[i] = jobs[number % count];
    add_rule(t, job, 1000, len, row[0], row[1], row[2], row[3]);
}

enum { ROWS = 1 + 3 + 9 + 27 + 81 };

/* Every two rows of up to four of three jobs, as a rule of the first job and as one of the second. */
static void every_two_rows(void)
{
    static const int jobs[3] = { 0, 7, 23 };
    for (int k = 0; k < ROWS * ROWS; k += small_run() ? 73 : 1) {
        struct table t = table_letters(JOBS, JOBS);
        add_numbered(&t, jobs[0], k / ROWS, jobs, 3);
        add_numbered(&t, jobs[1], k % ROWS, jobs, 3);
        use(&t);
        for (int j = 0; j < 3; j++) {
            uint8_t plan = (uint8_t)jobs[j];
            CHECK_EQ(quick_answer(&plan, 1), by_search(&t, &plan, 1));
        }
    }
}

/* ---- chains of jobs */

/* The job at a step of a chain: by rising or falling numbers, from the first of them, or by steps of 7. */
static int job_at(int way, int step)
{
    return way == 0 ? step : way == 1 ? JOBS - 1 - step : (5 + 7 * step) % JOBS;
}

enum { WAYS = 3 };

/* Each job of the first so many becomes the next one; its rules stand in the order of the chain, or in the other one. */
static struct table table_chain(int way, int len, int backwards)
{
    struct table t = table_letters(JOBS, JOBS);
    for (int i = 0; i + 1 < len; i++) {
        int step = backwards ? len - 2 - i : i;
        rule1(&t, job_at(way, step), 'b', job_at(way, step + 1));
    }
    return t;
}

static void chain_answered(const struct table *t, int way, int len, int endless)
{
    use(t);
    for (int step = 0; step < JOBS; step++) {
        uint8_t plan = (uint8_t)job_at(way, step);
        CHECK_EQ(answer_in(&plan, 1), step < len ? 2 * (len - step) + endless : 2);
    }
}

/* Chains of each length, in which nothing grows, and with a rule more by which the last job grows. */
static void chains_of_each_length(void)
{
    for (int len = 1; len <= JOBS; len += small_run() ? 23 : 1)
        for (int way = 0; way < WAYS; way++)
            for (int backwards = 0; backwards < 2; backwards++) {
                struct table t = table_chain(way, len, backwards), u = t;
                chain_answered(&t, way, len, FINITE);
                rule1(&u, job_at(way, len - 1), 'c', job_at(way, len - 1));
                chain_answered(&u, way, len, FINITE);
                rule2(&t, job_at(way, len - 1), 'c', job_at(way, len - 1), job_at(way, len - 1));
                chain_answered(&t, way, len, ENDLESS);
            }
}

/* The job at one step of a chain of 24 grows: those up to it are endless, and those behind it finite. */
static void growth_at_each_step_of_a_chain(void)
{
    for (int at = 0; at < JOBS; at += small_run() ? 23 : 1)
        for (int way = 0; way < WAYS; way++)
            for (int backwards = 0; backwards < 2; backwards++) {
                struct table t = table_chain(way, JOBS, backwards);
                rule2(&t, job_at(way, at), 'c', job_at(way, at), job_at(way, JOBS - 1));
                use(&t);
                for (int step = 0; step < JOBS; step++) {
                    uint8_t plan = (uint8_t)job_at(way, step);
                    CHECK_EQ(answer_in(&plan, 1), 2 * (JOBS - step) + (step <= at));
                }
            }
}

/* All jobs of a ring of each length reach one another. One of them leaves a job behind, or all come round at the last place. */
static void rings_of_each_length(void)
{
    for (int len = 1; len <= JOBS; len += small_run() ? 23 : 1)
        for (int way = 0; way < WAYS; way++)
            for (int backwards = 0; backwards < 2; backwards++) {
                const int last = job_at(way, len - 1), first = job_at(way, 0);
                for (int kind = 0; kind < 3; kind++) {
                    struct table t = table_chain(way, len, backwards);
                    add_rule(&t, last, 'c', kind == 0 ? 1 : 2, kind == 1 ? last : first, kind == 0 ? 0 : first, 0, 0);
                    use(&t);
                    for (int step = 0; step < JOBS; step += small_run() ? 5 : 1) {
                        uint8_t plan = (uint8_t)job_at(way, step);
                        CHECK_EQ(answer_in(&plan, 1), step < len ? 2 * len + (kind > 0) : 2);
                    }
                }
            }
}

/* A ring of 24 in which each rule has a row of two: the next job last, or at one step first. A job outside of the ring is none. */
static void one_rule_of_a_ring_leaves_a_job(void)
{
    for (int at = -1; at < JOBS - 1; at += small_run() ? 23 : 1)
        for (int way = 0; way < WAYS; way++) {
            const int outside = job_at(way, JOBS - 1);
            struct table t = table_letters(JOBS, JOBS);
            for (int step = 0; step < JOBS - 1; step++) {
                int job = job_at(way, step), next = job_at(way, (step + 1) % (JOBS - 1));
                rule2(&t, job, 'b', step == at ? next : outside, step == at ? outside : next);
            }
            use(&t);
            for (int step = 0; step < JOBS - 1; step += small_run() ? 5 : 1)
                job_answered(job_at(way, step), 48 + (at >= 0));
            job_answered(outside, 2);
        }
}

/* ---- places of rules and plans */

/* One rule at each place of 252, of which the others end jobs, or bring job 22 round: it makes job 22 grow, or reach job 23, or neither. */
static void every_place_of_a_rule(void)
{
    static const struct { uint8_t rule[8]; int32_t want; } put[] = {
        { { 0, 'a', 0 }, 2 },
        { { 22, 'c', 2, 22, 0, 0, 0, 1 }, 5 },
        { { 22, 'c', 4, 0, 0, 22, 0, 1 }, 5 },
        { { 22, 'c', 1, 23, 0, 0, 0, 1 }, 4 },
    };
    struct table others = table_letters(JOBS, JOBS), t = table_new(JOBS);
    rule1(&others, 22, 'b', 22);
    while (others.rules < FULL - 1)
        rule0(&others, 0, 'a');
    t.rules = FULL;
    for (size_t place = 0; place < FULL; place += small_run() ? 21 : 1)
        for (size_t k = 0; k < sizeof put / sizeof put[0]; k++) {
            memcpy(t.bytes, others.bytes, 8 * place);
            memcpy(t.bytes + 8 * place, put[k].rule, 8);
            memcpy(t.bytes + 8 * place + 8, others.bytes + 8 * place, 8 * (FULL - 1 - place));
            use(&t);
            job_answered(22, put[k].want);
            job_answered(23, 2);
        }
}

/* Two jobs by turns in so many rules, and the first or the last of these makes its job grow. */
static void every_number_of_rules(void)
{
    for (int rules = 4; rules <= FULL; rules += small_run() ? 31 : 1)
        for (int place = 0; place < rules; place += rules - 1) {
            struct table t = table_new(2);
            for (int i = 0; i < rules; i++)
                add_rule(&t, i % 2, i, i == place ? 2 : 0, i == place ? i % 2 : 0, 0, 0, 0);
            use(&t);
            job_answered(place % 2, place % 2 == 0 ? 3 : 5);
            job_answered(1 - place % 2, 2);
        }
}

/* The moves of rules do not matter: a job that grows by any move, beside rules with the same one. */
static void every_move(void)
{
    for (int move = 0; move < 65536; move += small_run() ? 4095 : 1) {
        struct table t = table_new(3);
        const uint8_t plan[] = { 0, 1, 2 };
        rule0(&t, 0, move);
        rule1(&t, 1, move, 0);
        rule0(&t, 2, 65535 - move);
        rule2(&t, 2, move, 2, 1);
        use(&t);
        CHECK_EQ(quick_answer(plan, 2), 4);
        CHECK_EQ(quick_answer(plan + 2, 1), 7);
    }
    struct table t = table_full(FULL), u = t;
    use(&t);
    for (int round = 0; round < (small_run() ? 5 : 200); round++) {
        for (size_t r = 0; r < u.rules; r++) {
            u.bytes[8 * r + 1] = (uint8_t)random_number();
            u.bytes[8 * r + 7] = (uint8_t)random_number();
        }
        uint8_t plan = (uint8_t)random_below(JOBS);
        use(&u);
        CHECK_EQ(quick_answer(&plan, 1), by_search(&t, &plan, 1));
    }
}

/* In a plan of jobs 0 alone, the job at one place grows, or becomes another; and it stands behind the end. */
static void job_at_place(uint8_t *plan, size_t n, size_t at)
{
    plan[at] = 1;
    CHECK_EQ(small_run() ? answer_in(plan, n) : quick_answer(plan, n), n == 1 ? 5 : 7);
    CHECK_EQ(quick_answer(plan, at), at == 0 ? 0 : 2);
    plan[at] = 3;
    CHECK_EQ(quick_answer(plan, n), n == 1 ? 4 : 6);
    plan[at] = 0;
}

/* Plans of 1 to 4,096 jobs. */
static void every_place_of_a_plan(void)
{
    static const size_t lens[] = { 1, 2, 3, 4, 7, 8, 9, 15, 16, 17, 31, 32, 33, 64, 100, 255, 256, 257, 1000, 1024, 4095, 4096 };
    static uint8_t plan[4096];
    struct table t = table_of(5, "BBC DE");
    use(&t);
    for (size_t i = 0; i < sizeof lens / sizeof lens[0]; i++) {
        CHECK_EQ(answer_in(plan, lens[i]), 2);
        for (size_t at = 0; at < lens[i]; at += small_run() ? 1 + lens[i] / 3 : 1 + lens[i] / 600)
            job_at_place(plan, lens[i], at);
        job_at_place(plan, lens[i], lens[i] - 1);
    }
}

/* ---- beside the plans that are reached, and beside the search */

static int32_t as_explored(const struct table *t, const uint8_t *plan, size_t n)
{
    int32_t want = by_plans(t, plan, n);
    if (want >= 0) {
        use(t);
        CHECK_EQ(quick_answer(plan, n), want);
        CHECK_EQ(by_search(t, plan, n), want);
    }
    return want;
}

/* Two jobs with any two rules of rows of up to four jobs, and three jobs with any three rules of rows of up to two. */
static void every_small_table(void)
{
    enum { OF_TWO = 2 * (1 + 2 + 4 + 8 + 16), OF_THREE = 3 * (1 + 3 + 9) };
    static const uint8_t plan[] = { 0, 1, 0 };
    static const int jobs[] = { 0, 1, 2 };
    size_t seen[2] = { 0 };
    for (int i = 0; i < OF_TWO * OF_TWO; i += small_run() ? 301 : 1) {
        struct table t = table_letters(2, 2);
        add_numbered(&t, i / OF_TWO % 2, i / OF_TWO / 2, jobs, 2);
        add_numbered(&t, i % OF_TWO % 2, i % OF_TWO / 2, jobs, 2);
        for (size_t from = 0; from < 2; from++)
            for (size_t n = 1; n < 3; n++)
                seen[as_explored(&t, plan + from, n) % 2]++;
    }
    for (int i = 0; i < OF_THREE * OF_THREE * OF_THREE; i += small_run() ? 3001 : 1) {
        const int numbers[] = { i / OF_THREE / OF_THREE, i / OF_THREE % OF_THREE, i % OF_THREE };
        struct table t = table_letters(3, 3);
        if (numbers[0] > numbers[1] || numbers[1] > numbers[2])
            continue;
        for (int k = 0; k < 3; k++)
            add_numbered(&t, numbers[k] % 3, numbers[k] / 3, jobs, 3);
        for (size_t n = 1; n < 3; n++)
            seen[as_explored(&t, plan, n) % 2]++;
    }
    CHECK(small_run() || (seen[0] > 10000 && seen[1] > 5000));
}

/*
 * Jobs on levels: in a row all jobs but the last are of lower levels than the rule's, and the last is of no higher one, so that nothing
 * grows; unless some rules slip in that keep to no level. Jobs end by themselves or by a job of a lower level.
 */
static struct table table_on_levels(uint32_t jobs, int longest, uint32_t rules, uint32_t slips)
{
    struct table t = table_new(jobs);
    uint32_t level[JOBS], levels = 1 + random_below(jobs);
    for (uint32_t j = 0; j < jobs; j++)
        level[j] = random_below(levels);
    for (uint32_t i = 0; i < jobs + rules; i++) {
        uint32_t job = i < jobs ? i : random_below(jobs);
        int row[4] = { 0 }, after = i < jobs ? (int)random_below(2) : (int)random_below((uint32_t)longest + 1), kept = 0;
        for (int k = 0; k < after; k++) {
            uint32_t next = random_below(jobs), below = level[job] + (i >= jobs && k == after - 1);
            if (level[next] < below || (i >= jobs && i + slips >= jobs + rules))
                row[kept++] = (int)next;
        }
        add_rule(&t, (int)job, random_move(MOVES), kept, row[0], row[1], row[2], row[3]);
    }
    return t;
}

static void random_small_tables(void)
{
    size_t seen[3] = { 0 };
    for (int round = 0; round < (small_run() ? 60 : 15000); round++) {
        uint32_t jobs = 1 + random_below(5);
        struct table t = table_on_levels(jobs, jobs > 3 ? 2 : 3, 1 + random_below(2 * jobs), random_below(5));
        uint8_t plan[2] = { (uint8_t)random_below(jobs) };
        size_t n = 1 + random_plan(plan + 1, jobs, 1);
        int32_t want = as_explored(&t, plan, n);
        seen[want < 0 ? 2 : want % 2]++;
    }
    CHECK(small_run() || (seen[0] > 6000 && seen[1] > 3000 && seen[2] < 300));
}

/* Up to 24 jobs and 252 rules; a rule is left out or put in, which often changes the answer. */
static void beside_the_search(void)
{
    size_t seen[2] = { 0 }, changed = 0, elsewhere = 0, last = 0;
    for (int round = 0; round < (small_run() ? 60 : 6000); round++) {
        uint32_t jobs = random_below(3) ? 1 + random_below(JOBS) : JOBS, rules = random_below(random_below(2) ? 2 * jobs + 1 : FULL - jobs);
        struct table t = table_on_levels(jobs, 4, rules, random_below(5)), u;
        uint8_t plan[12] = { (uint8_t)random_below(jobs) }, all[JOBS];
        size_t n = random_below(20) == 0 ? 0 : 1 + random_plan(plan + 1, jobs, random_below(2) ? 2 : 11);
        u = shuffled(&t, random_below(4) == 0 ? FULL : 0);
        use(&u);
        int32_t want = by_search(&t, plan, n);
        CHECK_EQ(answer_in(plan, n), want);
        t.rules -= t.rules > jobs;
        use(&t);
        CHECK_EQ(quick_answer(plan, n), by_search(&t, plan, n));
        changed += by_search(&t, plan, n) % 2 != want % 2;
        for (uint32_t j = 0; j < jobs; j++)
            all[j] = (uint8_t)j;
        elsewhere += want % 2 == 0 && by_search(&u, all, jobs) % 2 == 1;
        last += want >= 48;
        seen[want % 2]++;
    }
    CHECK(small_run() || (seen[0] > 1500 && seen[1] > 1500 && changed > 300 && elsewhere > 300 && last > 40));
}

/* ---- lengths and refusals */

/* A plan with a set's defects; the job that is none stands last, and first. Without any it is a job that reaches one other. */
static void first_defect_answered(int refusal, int set)
{
    uint8_t plan[10];
    size_t n = set & HIGH_NORM ? 9 : 1;
    int first = first_refusal(refusal, set);
    if (set & ~(NO_JOB | HIGH_NORM))
        return; /* there is no workspace and no list */
    memset(plan, set & HIGH_NORM ? 8 : 1, sizeof plan);
    if (set & NO_JOB)
        plan[n++] = 24;
    answered(plan, n, first == 0 ? 4 : -first);
    if (set & NO_JOB) {
        plan[n - 1] = plan[0];
        plan[0] = 24;
        answered(plan, n, -first);
    }
}

/* An image alone, and with all defects of a plan; and the empty plan, which has none. */
static void image_answered(int refusal)
{
    first_defect_answered(refusal, 0);
    first_defect_answered(refusal, NO_JOB | HIGH_NORM);
    answered(NULL, 0, -refusal);
}

/* For every image and every set of defects, the one that comes first in the order is answered. */
static void order_of_refusals(void)
{
    every_defect(DEFECTS, first_defect_answered);
    every_image(image_answered);
}

/* A plan that grows, and a defect of each kind: the refusal and no number of jobs. */
static void refusals_before_growth(void)
{
    static const int refusals[] = { 0, 2, 3, 4, 5, 6, 7 };
    for (size_t i = 0; i < sizeof refusals / sizeof refusals[0]; i++) {
        const int refusal = refusals[i];
        struct table t = table_doubling(refusal == 7 ? 10 : 9);
        uint8_t plan[9] = { 8, 8, 8, 8, 8, 8, 8, 8, 24 };
        rule2(&t, 0, 'a', 0, 0);
        use_with(t, 1 << refusal);
        CHECK_EQ(refusal_of_image(image, image_len), refusal);
        answered(plan, 8, refusal == 0 ? 19 : -refusal);
        answered(plan, 9, refusal == 0 ? -8 : -refusal);
        plan[8] = 8;
        answered(plan, 9, refusal == 0 ? -9 : -refusal);
        answered(plan, 0, -refusal);
    }
}

/* Every byte that is no job, alone and between jobs; and some of them at places of plans of norms up to and above 4,096. */
static void no_such_job(void)
{
    static const size_t lens[] = { 255, 256, 257, 4095, 4096, 4097, 5000, 65536, 70000 };
    static uint8_t plan[70000];
    for (uint32_t jobs = 1; jobs <= JOBS; jobs += small_run() ? 23 : 1) {
        const uint8_t none[] = { (uint8_t)jobs, 255, 128, 32, 24 };
        struct table t = table_letters(jobs, (int)jobs);
        use(&t);
        for (int byte = 0; byte < 256; byte += small_run() ? 15 : 1) {
            const uint8_t three[] = { 0, (uint8_t)byte, 0 };
            CHECK_EQ(quick_answer(three + 1, 1), byte >= (int)jobs ? -8 : 2);
            CHECK_EQ(quick_answer(three, 3), byte >= (int)jobs ? -8 : byte == 0 ? 2 : 4);
        }
        for (size_t i = 0; i < sizeof lens / sizeof lens[0]; i++) {
            const size_t n = lens[i], at[] = { 0, n / 2, n - 1 };
            CHECK_EQ(quick_answer(plan, n), n > 4096 ? -9 : 2);
            for (size_t k = 0; k < sizeof none; k++) {
                plan[at[k % 3]] = none[k];
                CHECK_EQ(quick_answer(plan, n), -8);
                plan[at[k % 3]] = 0;
            }
        }
    }
}

/* Norms 4,096 and 4,097 and such as are small again in 16 or 32 bits, of plans of few jobs and of many. */
static void plans_of_high_norm(void)
{
    struct table t = table_doubling(9);
    const size_t most = small_run() ? 70000 : 8388616;
    uint8_t *plan = malloc(most);
    if (plan == NULL)
        exit(1);
    t.jobs = 10;
    rule1(&t, 9, 'a', 8); /* norm 512 */
    use(&t);
    memset(plan, 9, most);
    answered(plan, 8, 20);
    answered(plan, 9, -9);
    plan[8] = 0;
    answered(plan, 9, -9); /* 4,097 */
    plan[7] = 8;
    answered(plan, 9, 20); /* 4,096 */
    memset(plan, 9, 9);
    struct table u = t;
    u.jobs = 11;
    rule1(&u, 10, 'a', 9); /* a job of norm 513, whether the plan has it or not */
    use(&u);
    answered(plan, 1, -7);
    answered(plan, 0, -7);
    use(&t);
    CHECK_EQ(quick_answer(plan, 128), -9); /* 2^16 */
    CHECK_EQ(quick_answer(plan, 136), -9); /* 2^16 + 4,096 */
    if (!small_run()) {
        CHECK_EQ(quick_answer(plan, 8388608), -9); /* 2^32 */
        CHECK_EQ(quick_answer(plan, 8388616), -9); /* 2^32 + 4,096 */
    }
    memset(plan, 0, 70000);
    answered(plan, 4096, 2);
    answered(plan, 4097, -9);
    CHECK_EQ(quick_answer(plan, 65536), -9);
    CHECK_EQ(quick_answer(plan, 65537), -9);
    free(plan);
}

/* Every length of an image up to 2,560 bytes. */
static void lengths_of_images(void)
{
    static const uint8_t plan[] = { 23, 5 };
    struct table t = table_full(FULL);
    use(&t);
    const int32_t want = by_search(&t, plan, 2);
    for (image_len = 0; image_len <= sizeof image; image_len += small_run() ? 64 : 1)
        answered(plan, 2, refusal_of_image(image, image_len) == 0 ? want : -refusal_of_image(image, image_len));
}

/* Images whose lengths have, in their low 8, 16 or 32 bits, the length of an accepted one. */
static void lengths_beyond_8_16_and_32_bits(void)
{
    static const size_t longer[] = { 256, 768, 65536, 65536 + 512, 65536 + 2048 }, less[] = { 2048, 1536, 0 };
    static uint8_t bytes[65536 + 2048];
    static const uint8_t plan[] = { 3 };
    struct area zeros = area_reserved(2048);
    struct table t = table_t();
    use(&t);
    memcpy(bytes, image, image_len);
    CHECK_EQ(gindrazoma_plan_growth(bytes, 512, plan, 1), 4);
    for (size_t i = 0; i < sizeof longer / sizeof longer[0]; i++)
        CHECK_EQ(gindrazoma_plan_growth(bytes, longer[i], plan, 1), -2);
    for (int i = 0; i < 3 && zeros.bytes != NULL; i++)
        CHECK_EQ(gindrazoma_plan_growth(zeros.bytes, zeros.len - less[i], plan, 1), -2);
    area_free(&zeros);
}

/* Damaged images and plans of any bytes: the refusal, which is that of the norm, or the answer. */
static void random_refusals(void)
{
    int seen[16] = { 0 };
    for (int round = 0; round < (small_run() ? 60 : 5000); round++) {
        struct table t = random_below(2) ? table_on_levels(1 + random_below(JOBS), 4, 40, 1) : table_full(24 + (int)random_below(229));
        uint8_t plan[4200];
        size_t n = random_plan(plan, t.jobs, random_below(8) == 0 ? sizeof plan : 12);
        use(&t);
        if (random_below(2))
            damage_image();
        if (n > 0 && random_below(4) == 0)
            plan[random_below((uint32_t)n)] = (uint8_t)random_number();
        int refusal = refusal_of_image(image, image_len);
        int32_t norm = gindrazoma_plan_norm(image, image_len, plan, n);
        if (norm >= 0)
            t = table_in_force();
        CHECK(refusal == 0 || norm == -refusal);
        answered(plan, n, norm < 0 ? norm : by_search(&t, plan, n));
        seen[norm < 0 ? -norm : 0]++;
    }
    static const int often[] = { 0, 3, 5, 8, 9 };
    for (size_t i = 0; i < sizeof often / sizeof often[0]; i++)
        CHECK(small_run() || seen[often[i]] > 20);
}

/* ---- areas */

static void null_with_length_0(void)
{
    static const uint8_t plan[] = { 1, 24 };
    CHECK_EQ(gindrazoma_plan_growth(NULL, 0, NULL, 0), -2);
    CHECK_EQ(gindrazoma_plan_growth(NULL, 0, plan, 2), -2);
    struct table t = table_of(5, "BBC");
    use(&t);
    CHECK_EQ(gindrazoma_plan_growth(image, image_len, NULL, 0), 0);
    CHECK_EQ(gindrazoma_plan_growth(image, image_len, plan, 0), 0);
    CHECK_EQ(gindrazoma_plan_growth(image, image_len, plan, 1), 5);
    CHECK_EQ(gindrazoma_plan_growth(image, image_len, plan, 2), -8);
    CHECK_EQ(gindrazoma_plan_growth(image, 0, plan, 2), -2);
}

/* Image and plan are only read and may coincide. */
static void the_plan_within_the_image(void)
{
    struct table t = table_new(3);
    add_rule(&t, 1, 2, 2, 1, 0, 0, 0); /* bytes 2 to 8 of the image: 1, 2, 2, 1, 0, 0, 0 */
    rule0(&t, 1, 2);
    rule0(&t, 0, 2);
    rule0(&t, 2, 2);
    use(&t);
    struct area in = area_copy(image, image_len);
    CHECK_EQ(gindrazoma_plan_growth(in.bytes, in.len, in.bytes + 2, 1), 5);
    CHECK_EQ(gindrazoma_plan_growth(in.bytes, in.len, in.bytes + 2, 4), 7);
    CHECK_EQ(gindrazoma_plan_growth(in.bytes, in.len, in.bytes + 3, 2), 2);
    CHECK_EQ(gindrazoma_plan_growth(in.bytes, in.len, in.bytes + 6, 3), 2);
    CHECK_EQ(gindrazoma_plan_growth(in.bytes, in.len, in.bytes + 2, 0), 0);
    CHECK_EQ(gindrazoma_plan_growth(in.bytes, in.len, in.bytes, in.len), -8);
    CHECK_EQ(gindrazoma_plan_growth(in.bytes, 4, in.bytes, 4), -2);
    CHECK(area_same(&in));
    area_free(&in);
}

/* Areas at addresses that are no multiple of anything. */
static void areas_at_any_address(void)
{
    static uint8_t bytes[2][2100];
    struct table t = table_full(FULL);
    use(&t);
    for (size_t at = 0; at < 64; at++) {
        uint8_t *in = bytes[0] + at % 8, *plan = bytes[1] + at / 8;
        size_t n = 1 + at % 19;
        memcpy(in, image, image_len);
        for (size_t i = 0; i < n; i++)
            plan[i] = (uint8_t)((at + 5 * i) % JOBS);
        CHECK_EQ(gindrazoma_plan_growth(in, image_len, plan, n), by_search(&t, plan, n));
        CHECK_EQ(gindrazoma_plan_growth(in, image_len, plan, 0), 0);
    }
}

/* Each call answers as alone, whatever the call before was, a refused one and other calls among them. */
static void calls_one_after_another(void)
{
    static const struct { const char *rules, *plan; int32_t want; } calls[] = {
        { "", "A", 2 },       { "AAB", "A", 5 },  { "ABA", "A", 4 },     { "", "", 0 },         { "ABC BD CE", "A", 10 }, { "EED", "ABCDE", 11 },
        { "EED", "ABCD", 8 }, { "", "Z", -8 },    { "AAB", "AZ", -8 },   { "AB BA", "B", 4 },   { "ABB BA", "B", 5 },     { "", "ABCDE", 10 },
    };
    enum { COUNT = sizeof calls / sizeof calls[0] };
    for (int i = 0; i < 2 * COUNT * COUNT; i++) {
        int k = i % 2 == 0 ? i / 2 / COUNT : i / 2 % COUNT;
        struct table t = table_of(5, calls[k].rules);
        uint8_t plan[8], read[2017];
        size_t n = plan_of(calls[k].plan, plan);
        use(&t);
        for (int again = 0; again < 2; again++)
            CHECK_EQ(quick_answer(plan, n), calls[k].want);
        if (i % 3 == 0)
            CHECK_EQ(gindrazoma_read_image(image, image_len, read, sizeof read), 1 + (int32_t)rule_bytes(&t));
        if (i % 5 == 0)
            CHECK_EQ(gindrazoma_plan_growth(image, image_len - 1, plan, n), -2);
        if (i % 7 == 0)
            CHECK_EQ(gindrazoma_plan_norm(image, image_len, plan, n), calls[k].want < 0 ? -8 : (int32_t)n);
        if (i % 11 == 0)
            CHECK_EQ(gindrazoma_deterministic(image, image_len, NULL, 0), 1);
    }
}

static const struct check_case cases[] = {
    { "table T, S1 and S2, and others", known_tables },
    { "a job that comes round by its own rule", one_job_comes_round },
    { "jobs that come round together", jobs_come_round_together },
    { "jobs that wait, and jobs that are not reached", jobs_that_wait_and_jobs_not_reached },
    { "each job, each but one, each two", every_job },
    { "each two jobs in a row", every_two_jobs },
    { "each two jobs that come round", every_two_jobs_that_come_round },
    { "every two rows of jobs 0, 7 and 23", every_two_rows },
    { "chains of 1 to 24 jobs", chains_of_each_length },
    { "growth at each step of a chain", growth_at_each_step_of_a_chain },
    { "rings of 1 to 24 jobs", rings_of_each_length },
    { "a ring of which one rule leaves a job", one_rule_of_a_ring_leaves_a_job },
    { "a rule at each of 252 places", every_place_of_a_rule },
    { "4 to 252 rules", every_number_of_rules },
    { "every move", every_move },
    { "a job at every place of plans up to 4,096", every_place_of_a_plan },
    { "every small table, beside the plans reached", every_small_table },
    { "random small tables, beside the plans reached", random_small_tables },
    { "random tables, beside a search", beside_the_search },
    { "order of refusals: every set of defects", order_of_refusals },
    { "refusals come before growth", refusals_before_growth },
    { "no such job, anywhere", no_such_job },
    { "plans of norm 4,096 and more", plans_of_high_norm },
    { "lengths of images", lengths_of_images },
    { "lengths beyond 8, 16 and 32 bits", lengths_beyond_8_16_and_32_bits },
    { "random plans and refused images", random_refusals },
    { "NULL with length 0", null_with_length_0 },
    { "the plan within the image", the_plan_within_the_image },
    { "areas at any address", areas_at_any_address },
    { "calls one after another", calls_one_after_another },
};

int main(void)
{
    return run_cases(cases, sizeof cases / sizeof cases[0]);
}
