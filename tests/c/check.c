/* Cases, random numbers and areas. */
#define _DEFAULT_SOURCE
#include "check.h"

#include <stdio.h>
#include <stdlib.h>
#include <string.h>
#include <sys/mman.h>

enum { GUARD = 64, PAGE = 4096 };

static int faults;

void check_true(int holds, const char *what, const char *file, int line)
{
    if (!holds && faults++ < 20)
        printf("%s:%d: not so: %s\n", file, line, what);
}

void check_equal(long long got, long long wanted, const char *what, const char *file, int line)
{
    if (got != wanted && faults++ < 20)
        printf("%s:%d: %s gives %lld, not %lld\n", file, line, what, got, wanted);
}

int run_cases(const struct check_case *cases, size_t count)
{
    size_t passed = 0;
    setvbuf(stdout, NULL, _IOLBF, 0);
    for (size_t i = 0; i < count; i++) {
        faults = 0;
        cases[i].run();
        passed += faults == 0;
        printf("%s %s\n", faults == 0 ? "ok" : "FAILED", cases[i].name);
    }
    printf("%zu passed, %zu failed\n", passed, count - passed);
    return passed == count ? 0 : 1;
}

int small_run(void)
{
    return getenv("SMALL") != NULL;
}

uint64_t random_number(void)
{
    static uint64_t state;
    static int started;
    if (!started) {
        const char *seed = getenv("SEED");
        started = 1;
        state = seed != NULL ? strtoull(seed, NULL, 10) : 1;
    }
    state += 0x9e3779b97f4a7c15u;
    uint64_t z = state;
    z = (z ^ (z >> 30)) * 0xbf58476d1ce4e5b9u;
    z = (z ^ (z >> 27)) * 0x94d049bb133111ebu;
    return z ^ (z >> 31);
}

uint32_t random_below(uint32_t n)
{
    return (uint32_t)(random_number() % n);
}

static void *get_block(size_t len)
{
    void *block = malloc(len);
    if (block == NULL && len != 0) {
        printf("out of memory\n");
        exit(1);
    }
    return block;
}

static int areas_are(const char *kind)
{
    const char *areas = getenv("AREAS");
    return areas != NULL && strcmp(areas, kind) == 0;
}

/* What may be done with all pages of an area but the first and the last. */
static void allow(const struct area *a, int access)
{
    if (a->pages == MAP_FAILED || mprotect((uint8_t *)a->pages + PAGE, a->pages_len - 2 * PAGE, access) != 0) {
        printf("no pages\n");
        exit(1);
    }
}

/*
 * Whole pages between two that may not be touched; the area is at their end, or as often at their start. That goes by no turn: if a
 * call has an even number of areas, each of them would stand at the same end every time.
 */
static uint8_t *get_pages(struct area *a)
{
    static uint32_t turns;
    size_t inner = (a->len + PAGE) / PAGE * PAGE;
    a->pages_len = inner + 2 * PAGE;
    a->pages = mmap(NULL, a->pages_len, PROT_NONE, MAP_PRIVATE | MAP_ANONYMOUS, -1, 0);
    allow(a, PROT_READ | PROT_WRITE);
    turns += 0x9e3779b9u;
    return (uint8_t *)a->pages + PAGE + (turns >> 31 ? 0 : inner - a->len);
}

static struct area get_area(size_t len, size_t guard)
{
    struct area a = { NULL, len, NULL, NULL, guard, NULL, 0 };
    a.block = areas_are("pages") ? get_pages(&a) : get_block(len + 2 * guard);
    a.bytes = a.block + guard;
    return a;
}

struct area area_new(size_t len)
{
    struct area a = get_area(len, areas_are("exact") || areas_are("pages") ? 0 : GUARD);
    size_t whole = len + 2 * a.guard;
    if (areas_are("exact"))
        return a;
    a.before = get_block(whole);
    for (size_t i = 0; i < whole; i++)
        a.before[i] = a.block[i] = (uint8_t)random_number();
    return a;
}

struct area area_copy(const void *bytes, size_t len)
{
    struct area a = get_area(len, 0);
    a.before = get_block(len);
    if (len != 0) {
        memcpy(a.block, bytes, len);
        memcpy(a.before, bytes, len);
    }
    if (a.pages != NULL)
        allow(&a, PROT_READ);
    return a;
}

struct area area_reserved(size_t more)
{
    const size_t four_gib = (size_t)1 << 31 << 1;
    struct area a = { NULL, four_gib + more, NULL, NULL, 0, NULL, four_gib + more };
    void *pages = mmap(NULL, a.len, PROT_READ, MAP_PRIVATE | MAP_ANONYMOUS | MAP_NORESERVE, -1, 0);
    if (four_gib == 0 || pages == MAP_FAILED)
        puts("lengths above 32 bits were not tried: there is no memory of that length to reserve");
    else
        a.bytes = a.block = a.pages = pages;
    return a;
}

int area_kept(const struct area *a, size_t from)
{
    size_t at = a->guard + from, whole = a->len + 2 * a->guard;
    if (a->before == NULL || whole == 0)
        return 1;
    return memcmp(a->block, a->before, a->guard) == 0 && memcmp(a->block + at, a->before + at, whole - at) == 0;
}

int area_same(const struct area *a)
{
    return area_kept(a, 0);
}

int area_zero(const struct area *a, size_t len)
{
    for (size_t i = 0; i < len; i++)
        if (a->bytes[i] != 0)
            return 0;
    return 1;
}

void area_free(struct area *a)
{
    if (a->pages != NULL)
        munmap(a->pages, a->pages_len);
    else
        free(a->block);
    free(a->before);
}

void areas_end(struct area *areas, size_t count)
{
    for (size_t i = 0; i < count; i++) {
        CHECK(area_same(&areas[i]));
        area_free(&areas[i]);
    }
}

void space_left(const struct area *space, int32_t answer)
{
    if (answer == -1) {
        CHECK(area_kept(space, 0));
    } else {
        CHECK(area_zero(space, SPACE));
        CHECK(area_kept(space, SPACE));
    }
}

uint8_t *one_space(void)
{
    static uint8_t space[SPACE];
    memset(space, (int)random_below(256), SPACE);
    return space;
}
