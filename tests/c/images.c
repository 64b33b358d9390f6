/* Reading and writing images: answers, refusals and every byte of the output. */
#include "check.h"
#include "gindrazoma.h"

#include <stdio.h>
#include <string.h>

/* One call each, on areas of their own: the answer, with the output held to what it should be. */
static int32_t read_into(const uint8_t *image, size_t len, size_t out_len, const uint8_t *wanted, int32_t want)
{
    struct area in = area_copy(image, len), out = area_new(out_len);
    int32_t got = gindrazoma_read_image(in.bytes, in.len, out.bytes, out.len);
    CHECK(area_same(&in));
    CHECK(area_kept(&out, got == want && want > 0 ? (size_t)want : 0));
    if (got == want && want > 0)
        CHECK(memcmp(out.bytes, wanted, (size_t)want) == 0);
    area_free(&in);
    area_free(&out);
    return got;
}

static int32_t write_into(uint32_t jobs, const uint8_t *rules, size_t len, size_t out_len, const uint8_t *wanted, int32_t want)
{
    struct area in = area_copy(rules, len), out = area_new(out_len);
    int32_t got = gindrazoma_write_image(jobs, in.bytes, in.len, out.bytes, out.len);
    CHECK(area_same(&in));
    CHECK(area_kept(&out, got == want && want > 0 ? (size_t)want : 0));
    if (got == want && want > 0)
        CHECK(memcmp(out.bytes, wanted, (size_t)want) == 0);
    area_free(&in);
    area_free(&out);
    return got;
}

/* Both calls on a good table at one length of the output beyond, at and below what is needed. */
static void both_ways(const struct table *t)
{
    uint8_t image[2560], read[2017 + 504];
    size_t len = image_of(t, image), need = 1 + rule_bytes(t);
    read[0] = (uint8_t)t->jobs;
    memcpy(read + 1, t->bytes, need - 1);
    const size_t beyond[] = { 0, 1, 700 };
    for (int i = 0; i < 3; i++) {
        CHECK_EQ(read_into(image, len, need + beyond[i], read, (int32_t)need), (int32_t)need);
        CHECK_EQ(write_into(t->jobs, t->bytes, need - 1, len + beyond[i], image, (int32_t)len), (int32_t)len);
    }
    const size_t below[] = { 1, 2, 512 };
    for (int i = 0; i < 3; i++) {
        size_t less = below[i];
        CHECK_EQ(read_into(image, len, need > less ? need - less : 0, NULL, -10), -10);
        CHECK_EQ(write_into(t->jobs, t->bytes, need - 1, len - less, NULL, -10), -10);
    }
}

/* The refusal that an image should get, and that reading it gives. */
static void refused_alike(const uint8_t *image, size_t len)
{
    int refusal = refusal_of_image(image, len);
    uint8_t read[2017];
    if (refusal != 0)
        CHECK_EQ(read_into(image, len, 2017, NULL, -refusal), -refusal);
    else
        CHECK(gindrazoma_read_image(image, len, read, sizeof read) > 0);
}

static void listed_alike(uint32_t jobs, const uint8_t *rules, size_t len)
{
    int refusal = refusal_of_list(jobs, rules, len);
    uint8_t image[2048];
    if (refusal != 0)
        CHECK_EQ(write_into(jobs, rules, len, 2048, NULL, -refusal), -refusal);
    else
        CHECK(gindrazoma_write_image(jobs, rules, len, image, sizeof image) > 0);
}

static void example_table(void)
{
    struct table t = table_t();
    uint8_t image[512];
    CHECK_EQ(gindrazoma_write_image(4, t.bytes, 32, image, sizeof image), 512);
    CHECK_EQ(image[510], 152);
    CHECK_EQ(image[511], 1);
    both_ways(&t);
}

static void good_tables(void)
{
    struct table tables[] = { table_s(), table_xyz(), table_doubling(9) };
    for (size_t i = 0; i < sizeof tables / sizeof tables[0]; i++)
        both_ways(&tables[i]);
}

/* The bytes of moves in their places, and a worked place. */
static void moves_of_two_bytes(void)
{
    static const uint8_t low_high[EDGES][2] = { { 0, 0 }, { 255, 0 }, { 0, 1 }, { 255, 255 }, { 'a', 0 }, { 'a', 1 } };
    static const uint8_t place[8] = { 1, 232, 1, 0, 0, 0, 0, 3 }; /* job 1: 1,000, then job 0 */
    struct table t = table_edges();
    uint8_t image[512];
    CHECK_EQ(gindrazoma_write_image(t.jobs, t.bytes, rule_bytes(&t), image, sizeof image), 512);
    for (int k = 0; k < EDGES; k++) {
        CHECK_EQ(image[2 + 8 * k + 1], low_high[k][0]);
        CHECK_EQ(image[2 + 8 * k + 7], low_high[k][1]);
    }
    both_ways(&t);
    t = table_t();
    memcpy(t.bytes + 8, place, 8);
    CHECK_EQ(gindrazoma_write_image(t.jobs, t.bytes, rule_bytes(&t), image, sizeof image), 512);
    CHECK(memcmp(image + 10, place, 8) == 0);
    CHECK_EQ(image[510] + 256 * image[511], 546);
    both_ways(&t);
}

/* Byte 7 may be set in a place in use and in no other. */
static void last_bytes_of_places(void)
{
    struct table t = table_full(100);
    uint8_t image[2560], copy[2560], read[2017];
    size_t len = image_of(&t, image);
    for (size_t place = 0; place < 126; place++) {
        size_t at = 512 * (place / 63) + 2 + 8 * (place % 63) + 7;
        memcpy(copy, image, len);
        copy[at] = (uint8_t)(image[at] + 1 + random_below(255));
        seal(copy + 512 * (place / 63));
        CHECK_EQ(gindrazoma_read_image(copy, len, read, sizeof read), place < 100 ? 801 : -5);
    }
}

static void several_blocks(void)
{
    const int rules[] = { 24, 62, 63, 64, 125, 126, 127, 188, 189, 190, 251, 252 };
    for (size_t i = 0; i < sizeof rules / sizeof rules[0]; i++) {
        struct table t = table_full(rules[i]);
        both_ways(&t);
    }
}

static void output_of_every_length(void)
{
    struct table t = table_s();
    uint8_t image[2560], read[57];
    size_t len = image_of(&t, image);
    read[0] = 5;
    memcpy(read + 1, t.bytes, 56);
    for (size_t n = 0; n <= 60; n++)
        CHECK_EQ(read_into(image, len, n, read, n < 57 ? -10 : 57), n < 57 ? -10 : 57);
    for (size_t n = 0; n <= 520; n++)
        CHECK_EQ(write_into(5, t.bytes, 56, n, image, n < 512 ? -10 : 512), n < 512 ? -10 : 512);
}

static void null_with_length_0(void)
{
    struct table t = table_t();
    uint8_t image[2560], out[2048];
    size_t len = image_of(&t, image);
    CHECK_EQ(gindrazoma_read_image(NULL, 0, out, sizeof out), -2);
    CHECK_EQ(gindrazoma_read_image(NULL, 0, NULL, 0), -2);
    CHECK_EQ(gindrazoma_read_image(image, len, NULL, 0), -10);
    CHECK_EQ(gindrazoma_write_image(4, NULL, 0, out, sizeof out), -2);
    CHECK_EQ(gindrazoma_write_image(0, NULL, 0, NULL, 0), -2);
    CHECK_EQ(gindrazoma_write_image(4, t.bytes, 32, NULL, 0), -10);
}

static void damaged_at_every_byte(void)
{
    struct table t = table_s();
    uint8_t image[2560];
    size_t len = image_of(&t, image);
    unsigned step = small_run() ? 97 : 1;
    for (size_t i = 0; i < len; i++) {
        uint8_t old = image[i];
        for (unsigned v = 0; v < 256; v += step) {
            if (v == old)
                continue;
            image[i] = (uint8_t)v;
            CHECK_EQ(read_into(image, len, 2017, NULL, -3), -3);
        }
        image[i] = old;
    }
}

static void damaged_and_sealed(void)
{
    struct table t = table_full(130);
    uint8_t image[2560], copy[2560];
    size_t len = image_of(&t, image);
    unsigned step = small_run() ? 85 : 5;
    for (size_t i = 0; i < len; i++) {
        if (i % 512 >= 510)
            continue;
        for (unsigned v = i % step; v < 256; v += step) {
            memcpy(copy, image, len);
            copy[i] = (uint8_t)v;
            seal(copy + i / 512 * 512);
            refused_alike(copy, len);
        }
    }
}

/* No accepted block sums to 65,521; blocks that do show what is taken as the remainder. */
static void sums_above_the_modulus(void)
{
    for (int n = 0; n < 300; n++) {
        uint8_t image[512];
        for (int i = 0; i < 512; i++)
            image[i] = (uint8_t)(n == 0 ? 255 : 128 + random_below(128));
        seal(image);
        CHECK_EQ(read_into(image, 512, 2017, NULL, -4), -4);
        uint32_t sum = 0;
        for (int i = 0; i < 510; i++)
            sum += image[i];
        if (sum < 65536)
            continue;
        image[510] = (uint8_t)(sum & 255);
        image[511] = (uint8_t)(sum >> 8);
        CHECK_EQ(read_into(image, 512, 2017, NULL, -3), -3);
    }
}

static void damaged_twice(void)
{
    int rounds = small_run() ? 200 : 40000;
    for (int n = 0; n < rounds; n++) {
        struct table t = table_full(24 + (int)random_below(229));
        uint8_t image[2560];
        size_t len = image_of(&t, image);
        for (int k = 0; k < 2; k++) {
            size_t block = random_below((uint32_t)(len / 512));
            const size_t heads[] = { 0, 1, 506, 507, 508, 509, 510, 511 };
            size_t at = random_below(3) == 0 ? heads[random_below(8)] : random_below(512);
            image[512 * block + at] = random_below(2) ? (uint8_t)random_number() : (uint8_t)random_below(70);
            if (random_below(4) != 0)
                seal(image + 512 * block);
        }
        refused_alike(image, len);
    }
}

static void image_of_every_length(void)
{
    struct table t = table_full(252);
    uint8_t image[2560];
    image_of(&t, image);
    memcpy(image + 2048, image, 512);
    for (size_t n = 0; n <= 2560; n++)
        refused_alike(image, n);
}

static void cut_and_extended(void)
{
    struct table t = table_full(126);
    uint8_t image[2560] = { 0 };
    size_t len = image_of(&t, image);
    CHECK_EQ(len, 1024);
    CHECK_EQ(read_into(image, 512, 2017, NULL, -4), -4);
    CHECK_EQ(read_into(image + 512, 512, 2017, NULL, -4), -4);
    memset(image + 1024, 0, 512);
    CHECK_EQ(read_into(image, 1536, 2017, NULL, -4), -4);
    memcpy(image + 1024, image, 512);
    CHECK_EQ(read_into(image, 1536, 2017, NULL, -4), -4);
    CHECK_EQ(read_into(image, 1025, 2017, NULL, -2), -2);
    CHECK_EQ(read_into(image, 2049, 2017, NULL, -2), -2);
}

static void lists_of_every_length(void)
{
    struct table t = table_full(260);
    for (size_t n = 0; n <= 2080; n++)
        listed_alike(24, t.bytes, n);
}

static void job_counts(void)
{
    const uint32_t counts[] = { 0, 1, 23, 24, 25, 63, 255, 256, 257, 280, 65536, 65560, 16777240, 2147483648u, 4294967295u };
    struct table t = table_full(24);
    uint8_t image[2560];
    for (size_t i = 0; i < sizeof counts / sizeof counts[0]; i++)
        listed_alike(counts[i], t.bytes, rule_bytes(&t));
    for (unsigned n = 0; n < 256; n++) {
        struct table one = table_new(n);
        for (unsigned k = 0; k < (n < 60 ? n : 60); k++)
            rule0(&one, (int)k, 'a');
        refused_alike(image, image_of(&one, image));
    }
}

static void places(void)
{
    for (int byte = 0; byte < 8; byte++) {
        for (int v = 0; v < 256; v++) {
            for (int after = 0; after <= 4; after++) {
                struct table t = table_full(24);
                uint8_t image[2560];
                add_rule(&t, 3, 9, after, after > 0, after > 1, after > 2, after > 3);
                t.bytes[8 * 24 + byte] = (uint8_t)v;
                listed_alike(24, t.bytes, rule_bytes(&t));
                refused_alike(image, image_of(&t, image));
            }
        }
    }
}

static void order_of_refusals(void)
{
    struct table t = table_full(130), bad;
    uint8_t image[2560], copy[2560];
    size_t len = image_of(&t, image);

    memcpy(copy, image, len); /* a header of the first block, and the sum of the last */
    copy[0] = 25;
    seal(copy);
    copy[1024 + 511] ^= 1;
    CHECK_EQ(read_into(copy, len, 0, NULL, -3), -3);
    memcpy(copy, image, len); /* a place of the first block, and a header of the last */
    copy[2] = 24;
    seal(copy);
    copy[1024 + 508] = 4;
    seal(copy + 1024);
    CHECK_EQ(read_into(copy, len, 0, NULL, -4), -4);
    memcpy(copy, image, len); /* an unused place of the last block, and job 0 without its end */
    copy[2 + 2] = 1;
    seal(copy);
    copy[1024 + 2 + 8 * 4 + 7] = 1;
    seal(copy + 1024);
    CHECK_EQ(read_into(copy, len, 0, NULL, -5), -5);

    CHECK_EQ(write_into(0, t.bytes, 7, 0, NULL, -2), -2);
    bad = table_new(2);
    rule0(&bad, 2, 'a');
    CHECK_EQ(write_into(25, bad.bytes, 8, 0, NULL, -4), -4);
    CHECK_EQ(write_into(2, bad.bytes, 8, 0, NULL, -5), -5);
    bad = table_doubling(10); /* a norm of 1,023, and a job that never ends behind it */
    bad.jobs = 11;
    rule1(&bad, 10, 'a', 10);
    CHECK_EQ(write_into(11, bad.bytes, rule_bytes(&bad), 0, NULL, -6), -6);
    CHECK_EQ(write_into(10, bad.bytes, 80, 0, NULL, -7), -7);
    CHECK_EQ(write_into(9, bad.bytes, 72, 0, NULL, -10), -10);
}

static void jobs_without_norm(void)
{
    struct table t = table_new(1);
    rule1(&t, 0, 'a', 0);
    CHECK_EQ(write_into(1, t.bytes, 8, 512, NULL, -6), -6);
    uint8_t image[2560];
    CHECK_EQ(read_into(image, image_of(&t, image), 100, NULL, -6), -6);
    rule0(&t, 0, 'a');
    both_ways(&t);

    t = table_new(3); /* no rule for job 1 */
    rule0(&t, 0, 'a');
    rule0(&t, 2, 'a');
    CHECK_EQ(write_into(3, t.bytes, 16, 512, NULL, -6), -6);
    t = table_new(3); /* two jobs that wait for each other */
    rule0(&t, 0, 'a');
    rule2(&t, 1, 'a', 0, 2);
    rule2(&t, 2, 'a', 1, 0);
    CHECK_EQ(write_into(3, t.bytes, 24, 512, NULL, -6), -6);
    rule1(&t, 2, 'b', 0);
    both_ways(&t);
    t = table_new(24); /* norms that are known only after 24 rounds */
    for (int k = 0; k < 23; k++)
        rule1(&t, k, 'a', k + 1);
    rule0(&t, 23, 'a');
    both_ways(&t);
}

static void norms_511_512_513(void)
{
    struct table t = table_doubling(9);
    both_ways(&t);
    t.jobs = 10;
    rule1(&t, 9, 'a', 8);
    both_ways(&t);
    t.jobs = 11;
    rule1(&t, 10, 'a', 9);
    CHECK_EQ(write_into(11, t.bytes, rule_bytes(&t), 512, NULL, -7), -7);
    uint8_t image[2560];
    CHECK_EQ(read_into(image, image_of(&t, image), 100, NULL, -7), -7);
}

static const struct check_case cases[] = {
    { "table T", example_table },
    { "good tables", good_tables },
    { "moves of two bytes", moves_of_two_bytes },
    { "the last byte of places", last_bytes_of_places },
    { "24 to 252 rules", several_blocks },
    { "output of every length", output_of_every_length },
    { "NULL with length 0", null_with_length_0 },
    { "damaged at every byte", damaged_at_every_byte },
    { "damaged and sealed again", damaged_and_sealed },
    { "sums above the modulus", sums_above_the_modulus },
    { "damaged in two places", damaged_twice },
    { "image of every length", image_of_every_length },
    { "image cut and extended", cut_and_extended },
    { "rule lists of every length", lists_of_every_length },
    { "job counts", job_counts },
    { "every byte of a place", places },
    { "order of refusals", order_of_refusals },
    { "jobs without a norm", jobs_without_norm },
    { "norms 511, 512 and 513", norms_511_512_513 },
};

int main(void)
{
    return run_cases(cases, sizeof cases / sizeof cases[0]);
}
