/*
 * samples DIR: writes the inputs for planlook, DIR/NAME.in for each sample. An input is an image and then pairs of
 * plans, each plan a two-byte length, low byte first, and that many jobs. docs/FORMAT.md describes the image.
 */
#include <stdint.h>
#include <stdio.h>
#include <stdlib.h>
#include <string.h>

static uint8_t input[1 << 16];
static size_t used;
static int jobs, rules, blocks;
static const char *folder;

static void put(int byte)
{
    input[used++] = (uint8_t)byte;
}

/* The image: begun with its job count, one rule after the other, and ended. */
static void begin(int job_count)
{
    memset(input, 0, sizeof input);
    jobs = job_count;
    rules = blocks = 0;
    used = 0;
}

static void rule(int job, int move, int after, int a, int b, int c, int d)
{
    const int place[8] = { job, move % 256, after, a, b, c, d, move / 256 };
    uint8_t *block = input + 512 * (rules / 63);
    for (int i = 0; i < 8; i++)
        block[2 + 8 * (rules % 63) + i] = (uint8_t)place[i];
    rules++;
    blocks = (rules + 62) / 63;
    used = 512 * (size_t)blocks;
}

static void seal(int k)
{
    uint8_t *block = input + 512 * k;
    unsigned sum = 0;
    for (int i = 0; i < 510; i++)
        sum += block[i];
    sum %= 65521;
    block[510] = (uint8_t)(sum & 255);
    block[511] = (uint8_t)(sum >> 8);
}

static void end(void)
{
    for (int k = 0; k < blocks; k++) {
        uint8_t *block = input + 512 * k;
        block[0] = (uint8_t)jobs;
        block[1] = (uint8_t)(k + 1 < blocks ? 63 : rules - 63 * k);
        block[506] = (uint8_t)k;
        block[508] = (uint8_t)blocks;
        seal(k);
    }
}

/* A plan is written as text, a letter for each job from A on. */
static void plan(const char *text)
{
    put((int)(strlen(text) & 255));
    put((int)(strlen(text) >> 8));
    for (; *text; text++)
        put(*text - 'A');
}

static void pair(const char *left, const char *right)
{
    plan(left);
    plan(right);
}

static void save(const char *name)
{
    char path[512];
    snprintf(path, sizeof path, "%s/%s.in", folder, name);
    FILE *f = fopen(path, "wb");
    if (f == NULL || fwrite(input, 1, used, f) != used || fclose(f) != 0) {
        perror(path);
        exit(1);
    }
}

static void table_t(void)
{
    begin(4);
    rule(0, 'a', 0, 0, 0, 0, 0);
    rule(1, 'a', 1, 0, 0, 0, 0);
    rule(2, 'a', 1, 1, 0, 0, 0);
    rule(3, 'b', 1, 0, 0, 0, 0);
    end();
}

static void tables(void)
{
    table_t();
    pair("CD", "ABD");
    pair("DA", "AD");
    pair("", "");
    pair("A", "E");
    save("table-t");

    begin(5); /* S1 = A: a B; B: b or c; S2 = C: a D or a E; D: b; E: c */
    rule(0, 'a', 1, 1, 0, 0, 0);
    rule(1, 'b', 0, 0, 0, 0, 0);
    rule(1, 'c', 0, 0, 0, 0, 0);
    rule(2, 'a', 1, 3, 0, 0, 0);
    rule(2, 'a', 1, 4, 0, 0, 0);
    rule(3, 'b', 0, 0, 0, 0, 0);
    rule(4, 'c', 0, 0, 0, 0, 0);
    end();
    pair("A", "C");
    pair("C", "A");
    save("choice");

    begin(3); /* A: a B; B: a B C or b; C: b */
    rule(0, 'a', 1, 1, 0, 0, 0);
    rule(1, 'a', 2, 1, 2, 0, 0);
    rule(1, 'b', 0, 0, 0, 0, 0);
    rule(2, 'b', 0, 0, 0, 0, 0);
    end();
    pair("A", "BC");
    pair("BC", "A");
    save("growing");

    begin(2);
    rule(0, 'a', 0, 0, 0, 0, 0);
    rule(1, 'a', 0, 0, 0, 0, 0);
    rule(1, 'a', 0, 0, 0, 0, 0);
    end();
    pair("A", "B");
    pair("AB", "BA");
    pair("A", "AB");
    save("twice");

    table_t(); /* pair numbers of two digits */
    for (int k = 0; k < 12; k++)
        pair("BA", k % 2 ? "C" : "D");
    save("twelve-pairs");
}

/* A and B have equal low bytes, since 1,000 is 232 + 256 * 3, and B is the same as C. */
static void larger_moves(void)
{
    begin(6);
    rule(0, 232, 0, 0, 0, 0, 0);
    rule(1, 1000, 0, 0, 0, 0, 0);
    rule(2, 1000, 0, 0, 0, 0, 0);
    rule(3, 1000, 1, 1, 0, 0, 0);
    rule(4, 65535, 0, 0, 0, 0, 0);
    rule(5, 255, 1, 4, 0, 0, 0);
    end();
    pair("A", "B");
    pair("B", "C");
    pair("D", "BC");
    pair("D", "AB");
    pair("F", "EE");
    save("larger-moves");
}

static void large_tables(void)
{
    begin(10); /* norms 1, 3, 7 and so on to 511, and 512; all made of job A */
    rule(0, 'a', 0, 0, 0, 0, 0);
    for (int k = 1; k < 9; k++)
        rule(k, 'a', 2, k - 1, k - 1, 0, 0);
    rule(9, 'a', 1, 8, 0, 0, 0);
    end();
    pair("JJJJJJJJ", "JJJJJJJIA");
    pair("JJJJJJJJ", "JJJJJJJI");
    pair("JJJJJJJJA", "A");
    pair("A", "JJJJJJJJA");
    save("norm-512");

    begin(24); /* 24 jobs and 252 rules in four blocks; each job from M on is the same as the one 12 before it */
    for (int i = 0; i < 252; i++) {
        int job = i % 24, low = job % 12, n = i / 24 % 10; /* the last 12 rules are the first of 12 jobs again */
        if (n == 0)
            rule(job, 'a', low > 0, low > 0 ? job - 1 : 0, 0, 0, 0);
        else
            rule(job, 'b' + n % 3, 2, (low + n) % 12 + job - low, n, 0, 0);
    }
    end();
    pair("X", "L");
    pair("ABCDEFGHIJKL", "MNOPQRSTUVWX");
    pair("ABCDEFGHIJKLMNOPQRSTUVWX", "XWVUTSRQPONMLKJIHGFEDCBA");
    save("full");
}

/* Plans of 4,096 jobs: of norm 4,096, of a greater norm, and with a job that the table does not have. */
static void longest_plans(void)
{
    char a[4097], b[4097];
    memset(a, 'A', 4096);
    a[4096] = 0;
    table_t();
    pair(a, a);
    pair(a, "C");
    strcpy(b, a);
    b[4095] = 'B';
    pair(a, b);
    b[4095] = 'E';
    pair(b, a);
    save("longest-plans");
}

static void refused(void)
{
    table_t();
    used = 511;
    save("refused-2-short");
    table_t();
    input[508] = 0;
    save("refused-2-no-blocks");
    table_t();
    input[508] = 5;
    save("refused-2-five-blocks");
    table_t();
    input[509] = 1;
    save("refused-2-257-blocks");
    table_t();
    input[508] = 2;
    save("refused-2-cut");
    begin(1);
    for (int i = 0; i < 64; i++)
        rule(0, i, 0, 0, 0, 0, 0);
    end();
    used--;
    save("refused-2-last-byte");
    table_t();
    input[3] ^= 1;
    save("refused-3");
    table_t();
    input[0] = 25;
    seal(0);
    save("refused-4");
    table_t();
    input[2 + 6] = 1; /* names no job, and is not zero */
    seal(0);
    save("refused-5");
    table_t();
    input[2 + 8 * 4 + 7] = 1; /* the first unused place */
    seal(0);
    save("refused-5-unused");
    begin(1);
    rule(0, 'a', 1, 0, 0, 0, 0);
    end();
    save("refused-6");
    begin(10);
    rule(0, 'a', 0, 0, 0, 0, 0);
    for (int k = 1; k < 10; k++)
        rule(k, 'a', 2, k - 1, k - 1, 0, 0);
    end();
    pair("A", "A");
    save("refused-7");
    used = 0;
    save("empty");
}

/* Table T, a pair, and then a pair that is cut or long. */
static void cut(const char *name, const char *bytes, size_t len)
{
    table_t();
    pair("A", "A");
    for (size_t i = 0; i < len; i++)
        put(bytes[i]);
    save(name);
}

static void cut_or_long(void)
{
    table_t();
    save("no-pair");
    table_t();
    pair("", "");
    pair("", "A");
    pair("A", "");
    save("empty-plans");
    cut("cut-left-length", "\2", 1);
    cut("cut-left-jobs", "\2\0", 2);
    cut("cut-left", "\2\0\1", 3);
    cut("cut-before-right", "\2\0\1\1", 4);
    cut("cut-right-length", "\2\0\1\1\0", 5);
    cut("cut-right-jobs", "\2\0\1\1\3\0", 6);
    cut("cut-right", "\2\0\1\1\3\0\1\1", 8);
    cut("long-left", "\1\20", 2);
    cut("long-left-more", "\377\377\1\1\1", 5);
    cut("long-right", "\1\0\1\1\20", 5);
    cut("cut-4096", "\0\20\0\0\0\0\0\0", 8);
}

int main(int argc, char **argv)
{
    if (argc != 2) {
        fprintf(stderr, "usage: samples DIR\n");
        return 2;
    }
    folder = argv[1];
    tables();
    larger_moves();
    large_tables();
    longest_plans();
    refused();
    cut_or_long();
    return 0;
}
