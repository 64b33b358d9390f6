/*
 * Writes a table, reads it back, compares two plans over it and prints the prime form of each.
 *
 *     cc -std=c11 pool.c -lgindrazoma -o pool
 */
#include <gindrazoma.h>

#include <stdio.h>
#include <stdlib.h>

/* The answer of a call, unless it is a refusal. */
static size_t answer(const char *call, int32_t got)
{
    if (got < 0) {
        printf("%s: refused %d\n", call, -(int)got);
        exit(1);
    }
    return (size_t)got;
}

static void print_plan(const char *name, const uint8_t *plan, size_t len)
{
    printf("%s", name);
    for (size_t i = 0; i < len; i++)
        printf(" %d", plan[i]);
    printf("\n");
}

int main(void)
{
    /* job 0: a; job 1: a, then job 0; job 2: a, then job 1; job 3: b, then job 0 */
    static const uint8_t rules[] = {
        0, 'a', 0, 0, 0, 0, 0, 0,
        1, 'a', 1, 0, 0, 0, 0, 0,
        2, 'a', 1, 1, 0, 0, 0, 0,
        3, 'b', 1, 0, 0, 0, 0, 0,
    };
    static const uint8_t left[] = { 2, 3 }, right[] = { 0, 1, 3 };
    static uint8_t image[GINDRAZOMA_IMAGE_MAX], table[GINDRAZOMA_READ_MAX];
    static uint8_t form[GINDRAZOMA_FORM_MAX], space[GINDRAZOMA_WORKSPACE];

    size_t image_len = answer("write", gindrazoma_write_image(4, rules, sizeof rules, image, sizeof image));
    size_t table_len = answer("read", gindrazoma_read_image(image, image_len, table, sizeof table));
    printf("an image of %d bytes: %d jobs, %d rules\n", (int)image_len, table[0], (int)((table_len - 1) / 8));

    print_plan("left ", left, sizeof left);
    print_plan("right", right, sizeof right);
    size_t same = answer("compare", gindrazoma_compare(image, image_len, left, sizeof left, right, sizeof right, space, sizeof space));
    printf("%s\n", same ? "same" : "apart");

    size_t len = answer("form", gindrazoma_prime_form(image, image_len, left, sizeof left, form, sizeof form, space, sizeof space));
    print_plan("prime form of left ", form, len);
    len = answer("form", gindrazoma_prime_form(image, image_len, right, sizeof right, form, sizeof form, space, sizeof space));
    print_plan("prime form of right", form, len);
    return 0;
}
