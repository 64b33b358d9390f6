/* Many calls: from 8 threads at once, a million in a row, and the stack that a call needs. */
#define _POSIX_C_SOURCE 200809L
#include "check.h"
#include "gindrazoma.h"

#include <pthread.h>
#include <stdio.h>
#include <stdlib.h>
#include <string.h>

enum { OUT = 8192, TABLES = 7, CALLS = 512, KINDS = 13, THREADS = 8, STACK = 1 << 20 };

static struct table tables[TABLES];
static uint8_t images[TABLES][2560];
static size_t image_lens[TABLES];

/* A call with the answer that it gave when it was alone. Its right plan is over the other table, which in calls of one table is that one. */
struct call {
    int which, table, other;
    uint8_t left[40], right[40], alike[128], log[258];
    size_t left_len, right_len, alike_len, log_len, out_len;
    uint32_t index;
    int32_t answer;
    uint8_t out[OUT];
};

static struct call calls[CALLS];

struct areas {
    uint8_t out[OUT];
    uint8_t space[SPACE + 8];
};

static int32_t make(const struct call *c, struct areas *a)
{
    const uint8_t *image = images[c->table];
    size_t len = image_lens[c->table];
    const struct table *t = &tables[c->table];
    switch (c->which) {
    case 0: return gindrazoma_read_image(image, len, a->out, c->out_len);
    case 1: return gindrazoma_write_image(t->jobs, t->bytes, rule_bytes(t), a->out, c->out_len);
    case 2: return gindrazoma_plan_norm(image, len, c->left, c->left_len);
    case 3: return gindrazoma_shortest_run(image, len, c->left, c->left_len, a->out, c->out_len);
    case 4: return gindrazoma_nth_move(image, len, c->left, c->left_len, c->index, a->out, c->out_len);
    case 5: return gindrazoma_compare(image, len, c->left, c->left_len, c->right, c->right_len, a->space, SPACE + c->index);
    case 6: return gindrazoma_prime_form(image, len, c->left, c->left_len, a->out, c->out_len, a->space, SPACE + c->index);
    case 7: return gindrazoma_compare_alike(image, len, c->alike, c->alike_len, c->left, c->left_len, c->right, c->right_len,
                                            a->space, SPACE + c->index);
    case 8: return gindrazoma_prime_form_alike(image, len, c->alike, c->alike_len, c->left, c->left_len, a->out, c->out_len,
                                               a->space, SPACE + c->index);
    case 9: return gindrazoma_replay_log(image, len, c->alike, c->alike_len, c->left, c->left_len, c->log, c->log_len,
                                         a->space, SPACE + c->index);
    case 10: return gindrazoma_deterministic(image, len, c->alike, c->alike_len);
    case 11: return gindrazoma_plan_growth(image, len, c->left, c->left_len);
    default: return gindrazoma_compare_tables(image, len, images[c->other], image_lens[c->other], c->alike, c->alike_len,
                                              c->left, c->left_len, c->right, c->right_len, a->space, SPACE + c->index);
    }
}

static size_t plan_of_call(uint8_t *plan, uint32_t jobs)
{
    size_t n = random_below(20);
    for (size_t i = 0; i < n; i++)
        plan[i] = (uint8_t)random_below(jobs);
    if (n > 0 && random_below(20) == 0)
        plan[n - 1] = (uint8_t)jobs;
    return n;
}

/* Moves of the tables, 'b', 'c' and thousands, count as 'a' or 'd'; some lists clash, and some have an unfinished pair. */
static size_t list_of_call(uint8_t *list)
{
    size_t n = 4 * random_below(random_below(2) ? 2 : 33);
    memset(list, 0, n);
    for (size_t i = 0; i < n; i += 4) {
        unsigned from = i < 8 ? 'b' + (unsigned)i / 4 : 1000 * (20 + (unsigned)i / 4);
        list[i] = (uint8_t)(from % 256);
        list[i + 1] = (uint8_t)(from / 256);
        list[i + 2] = random_below(2) ? 'a' : 'd';
    }
    if (n > 0 && random_below(10) == 0)
        list[0] = list[2];
    return n > 0 && random_below(10) == 0 ? n - 1 : n;
}

/* Moves of the table, every second time behind the left plan's shortest run; some are too many, and some end in half a move. */
static size_t log_of_call(struct call *c)
{
    static uint8_t run[OUT];
    const struct table *t = &tables[c->table];
    size_t n = 2 * random_below(random_below(8) ? 20 : 129);
    int32_t bytes = gindrazoma_shortest_run(images[c->table], image_lens[c->table], c->left, c->left_len, run, OUT);
    for (size_t i = 0; i < n; i += 2) {
        const uint8_t *rule = t->bytes + 8 * random_below((uint32_t)t->rules);
        c->log[i] = rule[1];
        c->log[i + 1] = rule[7];
    }
    if (bytes > 0 && random_below(2) == 0) {
        n = random_below(2) && bytes < 256 ? (size_t)bytes : n;
        memcpy(c->log, run, (size_t)bytes < n ? (size_t)bytes : n);
    }
    return random_below(10) == 0 ? n + 1 : random_below(10) == 0 ? 258 : n;
}

static void prepare(void)
{
    static struct areas a;
    tables[0] = table_t();
    tables[1] = table_s();
    tables[2] = table_xyz();
    tables[3] = table_doubling(9);
    tables[4] = table_full(40);
    tables[5] = table_full(252);
    tables[6] = table_repeated();
    for (int i = 0; i < TABLES; i++)
        image_lens[i] = image_of(&tables[i], images[i]);
    for (int i = 0; i < CALLS; i++) {
        struct call *c = &calls[i];
        c->which = i % KINDS;
        c->table = (int)random_below(random_below(4) ? 5 : TABLES);
        c->other = c->which < KINDS - 1 || random_below(2) ? c->table : (int)random_below(TABLES);
        c->left_len = plan_of_call(c->left, tables[c->table].jobs);
        c->right_len = plan_of_call(c->right, tables[c->other].jobs);
        if (c->other == c->table && random_below(2) == 0) { /* plans that are the same, too */
            c->right_len = c->left_len;
            memcpy(c->right, c->left, sizeof c->right);
        }
        c->alike_len = list_of_call(c->alike);
        c->log_len = log_of_call(c);
        c->index = random_below(8);
        c->out_len = random_below(4) ? OUT : random_below(30);
        memset(a.out, 0, OUT);
        c->answer = make(c, &a);
        memcpy(c->out, a.out, OUT);
    }
}

static int as_alone(const struct call *c, struct areas *a)
{
    memset(a->out, 0, OUT);
    return make(c, a) == c->answer && memcmp(a->out, c->out, OUT) == 0;
}

static void *many_calls(void *seed)
{
    uint64_t state = *(uint64_t *)seed;
    struct areas *a = malloc(sizeof *a);
    size_t wrong = 0;
    int count = small_run() ? 50 : 20000;
    memset(a->space, (int)state, sizeof a->space);
    for (int i = 0; i < count; i++) {
        state = state * 6364136223846793005u + 1442695040888963407u;
        wrong += !as_alone(&calls[(state >> 33) % CALLS], a);
    }
    free(a);
    *(uint64_t *)seed = wrong;
    return NULL;
}

static void eight_threads(void)
{
    pthread_t threads[THREADS];
    uint64_t seeds[THREADS];
    for (int i = 0; i < THREADS; i++) {
        seeds[i] = (uint64_t)i + 1;
        CHECK(pthread_create(&threads[i], NULL, many_calls, &seeds[i]) == 0);
    }
    for (int i = 0; i < THREADS; i++) {
        CHECK(pthread_join(threads[i], NULL) == 0);
        CHECK_EQ(seeds[i], 0);
    }
}

/* Pages in all, and pages in memory. */
static void memory_now(long pages[2])
{
    FILE *f = fopen("/proc/self/statm", "r");
    pages[0] = pages[1] = 0;
    if (f != NULL) {
        CHECK(fscanf(f, "%ld %ld", &pages[0], &pages[1]) == 2);
        fclose(f);
    }
}

static void million_calls(void)
{
    static struct areas a;
    long before[2], after[2];
    int count = small_run() ? 500 : 1000000, wrong = 0;
    for (int i = 0; i < CALLS; i++)
        wrong += !as_alone(&calls[i], &a);
    memory_now(before);
    memory_now(before);
    for (int i = 0; i < count; i++)
        wrong += !as_alone(&calls[random_below(CALLS)], &a);
    memory_now(after);
    CHECK_EQ(wrong, 0);
    if (!small_run()) {
        CHECK_EQ(after[0], before[0]);
        CHECK(after[1] - before[1] <= 4);
    }
    printf("%d calls: %ld pages before, %ld after\n", count, before[1], after[1]);
}

/* The stack that one call needs: a thread runs it on a painted stack. NULL: no call. */
static void *one_call(void *call)
{
    static struct areas a;
    if (call != NULL)
        make(call, &a);
    return NULL;
}

static size_t stack_of(struct call *c)
{
    uint8_t *stack = NULL;
    size_t untouched = 0;
    pthread_attr_t attr;
    pthread_t thread;
    if (posix_memalign((void **)&stack, 4096, STACK) != 0)
        exit(1);
    memset(stack, 0xa5, STACK);
    CHECK(pthread_attr_init(&attr) == 0 && pthread_attr_setstack(&attr, stack, STACK) == 0);
    CHECK(pthread_create(&thread, &attr, one_call, c) == 0 && pthread_join(thread, NULL) == 0);
    pthread_attr_destroy(&attr);
    while (untouched < STACK && stack[untouched] == 0xa5)
        untouched++;
    free(stack);
    return STACK - untouched;
}

static void stack_under_16_kib(void)
{
    static const char *const names[KINDS] = { "read_image", "write_image", "plan_norm", "shortest_run", "nth_move", "compare",
                                              "prime_form", "compare_alike", "prime_form_alike", "replay_log", "deterministic",
                                              "plan_growth", "compare_tables" };
    size_t most[KINDS] = { 0 }, none;
    if (small_run())
        return; /* valgrind does not let a stack be looked at */
    none = stack_of(NULL);
    for (int i = 0; i < CALLS; i++) {
        size_t used = stack_of(&calls[i]);
        used = used > none ? used - none : 0;
        if (used > most[calls[i].which])
            most[calls[i].which] = used;
    }
    for (int i = 0; i < KINDS; i++) {
        printf("stack of %s: %zu bytes\n", names[i], most[i]);
        CHECK(most[i] < 16384);
    }
}

static const struct check_case cases[] = {
    { "calls from 8 threads at once", eight_threads },
    { "a million calls, no growth of memory", million_calls },
    { "stack under 16 KiB", stack_under_16_kib },
};

int main(void)
{
    prepare();
    return run_cases(cases, sizeof cases / sizeof cases[0]);
}
