/*
 * Compares plans of a ship with plans of a port: each has a table of its own, with its own jobs for the same work. The port has
 * a second crane, whose lifts have a number of their own.
 *
 *     cc -std=c11 ship.c -lgindrazoma -o ship
 */
#include <gindrazoma.h>

#include <stdio.h>

/* Moves are numbers of two bytes, and what the two tables have in common. */
enum { OPEN = 39, CLOSE = 40, LIFT = 301, LIFT_WEST = 302, TO_QUAY = 320, TO_WAGON = 321 };

#define MOVE(move) (move) % 256, (move) / 256
#define RULE(job, move, after, one, two, three) job, (move) % 256, after, one, two, three, 0, (move) / 256

/* The ship: a container (job 0) is lifted and then set down (job 1); jobs 2 and 3 are the hatch. */
static const uint8_t ship_rules[] = {
    RULE(0, LIFT, 1, 1, 0, 0),
    RULE(1, TO_QUAY, 0, 0, 0, 0),
    RULE(1, TO_WAGON, 0, 0, 0, 0),
    RULE(2, OPEN, 0, 0, 0, 0),
    RULE(3, CLOSE, 0, 0, 0, 0),
};
static const char *const ship_jobs[] = { "a container", "a set-down", "open the hatch", "close the hatch" };

/* The port: a hold (job 0) is opened and becomes two containers by the east crane and the hatch; job 2 is one by the west crane. */
static const uint8_t port_rules[] = {
    RULE(0, OPEN, 3, 1, 1, 4),
    RULE(1, LIFT, 1, 3, 0, 0),
    RULE(2, LIFT_WEST, 1, 3, 0, 0),
    RULE(3, TO_QUAY, 0, 0, 0, 0),
    RULE(3, TO_WAGON, 0, 0, 0, 0),
    RULE(4, CLOSE, 0, 0, 0, 0),
};
static const char *const port_jobs[] = { "a hold", "a container by the east crane", "a container by the west crane", "a set-down",
                                         "close the hatch" };

/* A lift by the west crane counts as a lift. */
static const uint8_t alike[] = { MOVE(LIFT_WEST), MOVE(LIFT) };

struct table {
    const char *name;
    const char *const *job_names;
    uint32_t jobs;
    uint8_t image[GINDRAZOMA_IMAGE_MAX];
    size_t image_len;
};

static struct table ship = { "ship", ship_jobs, sizeof ship_jobs / sizeof ship_jobs[0], { 0 }, 0 };
static struct table port = { "port", port_jobs, sizeof port_jobs / sizeof port_jobs[0], { 0 }, 0 };
static uint8_t space[GINDRAZOMA_WORKSPACE];

/* Whether the image of the table is written. */
static int write_table(struct table *t, const uint8_t *rules, size_t rules_len)
{
    int32_t got = gindrazoma_write_image(t->jobs, rules, rules_len, t->image, sizeof t->image);
    if (got < 0)
        printf("the table of the %s: refused %d\n", t->name, -(int)got);
    t->image_len = got < 0 ? 0 : (size_t)got;
    return got >= 0;
}

static void print_plan(const struct table *t, const uint8_t *plan, size_t len)
{
    printf("%s:", t->name);
    for (size_t i = 0; i < len; i++)
        printf("%s %s", i > 0 ? "," : "", plan[i] < t->jobs ? t->job_names[plan[i]] : "a job that is not in its table");
    printf("\n");
}

/* What an answer means. */
static const char *in_words(int32_t answer)
{
    switch (answer) {
    case 1: return "the same work";
    case 0: return "not the same work";
    case -GINDRAZOMA_NO_SUCH_JOB: return "refused: each plan has jobs of its own table only";
    case -GINDRAZOMA_PLAN_NORM_HIGH: return "refused: a plan takes more than 4,096 moves";
    case -GINDRAZOMA_TABLES_LARGE: return "refused: the tables together have more than 24 jobs or 252 rules";
    default: return "refused: a table or the list of moves is not in order";
    }
}

static int32_t compare(const uint8_t *list, size_t list_len, const uint8_t *left, size_t left_len, const uint8_t *right, size_t right_len)
{
    return gindrazoma_compare_tables(ship.image, ship.image_len, port.image, port.image_len, list, list_len,
                                     left, left_len, right, right_len, space, sizeof space);
}

/* Plans that are the same by the moves as they are stay the same under a list; others may become it. */
static void show(const uint8_t *left, size_t left_len, const uint8_t *right, size_t right_len)
{
    int32_t got = compare(NULL, 0, left, left_len, right, right_len);
    print_plan(&ship, left, left_len);
    print_plan(&port, right, right_len);
    printf("    %s\n", in_words(got));
    if (got == 0)
        printf("    if a lift by the west crane counts as a lift: %s\n",
               in_words(compare(alike, sizeof alike, left, left_len, right, right_len)));
}

int main(void)
{
    static const uint8_t two_in_hold[] = { 2, 0, 0, 3 }, one_in_hold[] = { 2, 0, 3 }, two[] = { 0, 0 }, fourth[] = { 4 };
    static const uint8_t hold[] = { 0 }, east[] = { 1, 1 }, both[] = { 1, 2 };

    if (!write_table(&ship, ship_rules, sizeof ship_rules) || !write_table(&port, port_rules, sizeof port_rules))
        return 1;
    show(two_in_hold, sizeof two_in_hold, hold, sizeof hold);
    show(one_in_hold, sizeof one_in_hold, hold, sizeof hold);
    show(two, sizeof two, east, sizeof east);
    show(two, sizeof two, both, sizeof both);
    show(fourth, sizeof fourth, fourth, sizeof fourth); /* the port has a job 4, and the ship has none */
    return 0;
}
