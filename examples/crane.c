/*
 * Replays logs of a crane on a plan, and says of each what the answer means.
 *
 *     cc -std=c11 crane.c -lgindrazoma -o crane
 */
#include <gindrazoma.h>

#include <stdio.h>
#include <stdlib.h>
#include <string.h>

/* Moves are numbers of two bytes. */
enum { LIFT = 301, LIFT_WEST = 302, TURN = 310, TO_QUAY = 320, TO_WAGON = 321, CLOSE = 40 };

#define MOVE(move) (move) % 256, (move) / 256
#define RULE(job, move, after, next) job, (move) % 256, after, next, 0, 0, 0, (move) / 256

/* Job 0 is a container that is lifted and then set down (job 1), or turned before that (job 2); job 3 is the hatch. */
static const uint8_t rules[] = {
    RULE(0, LIFT, 1, 1),
    RULE(0, LIFT, 1, 2),
    RULE(1, TO_QUAY, 0, 0),
    RULE(1, TO_WAGON, 0, 0),
    RULE(2, TURN, 1, 1),
    RULE(3, CLOSE, 0, 0),
};

/* Two containers, and then the hatch. */
static const uint8_t plan[] = { 0, 0, 3 };

static uint8_t image[GINDRAZOMA_IMAGE_MAX], space[GINDRAZOMA_WORKSPACE];
static size_t image_len;

static int32_t replay(const uint8_t *alike, size_t alike_len, const uint8_t *log, size_t log_len)
{
    return gindrazoma_replay_log(image, image_len, alike, alike_len, plan, sizeof plan, log, log_len, space, sizeof space);
}

/*
 * The moves that the plan could make behind the first bytes of a log: each move of the table is tried there. Where several
 * rules make a move, the call follows them all, so that none is missed.
 */
static void print_next(const uint8_t *alike, size_t alike_len, const uint8_t *log, size_t len)
{
    uint8_t tried[2 * GINDRAZOMA_LOG_MAX + GINDRAZOMA_MOVE_BYTES];
    int shown[sizeof rules / GINDRAZOMA_RULE_BYTES], count = 0;
    memcpy(tried, log, len);
    for (size_t i = 0; i < sizeof rules; i += GINDRAZOMA_RULE_BYTES) {
        int move = rules[i + 1] + 256 * rules[i + 7], again = 0;
        for (int k = 0; k < count; k++)
            again |= shown[k] == move;
        tried[len] = rules[i + 1];
        tried[len + 1] = rules[i + 7];
        int32_t got = replay(alike, alike_len, tried, len + GINDRAZOMA_MOVE_BYTES);
        if (!again && (got == 0 || got == 1)) {
            printf("%s %d", count == 0 ? "" : " or", move);
            shown[count++] = move;
        }
    }
    printf("%s\n", count == 0 ? " nothing" : "");
}

static void show(const uint8_t *alike, size_t alike_len, const uint8_t *log, size_t log_len)
{
    int32_t got = replay(alike, alike_len, log, log_len);
    printf("log");
    for (size_t i = 0; i + 1 < log_len; i += GINDRAZOMA_MOVE_BYTES)
        printf(got - 2 == (int32_t)(i / GINDRAZOMA_MOVE_BYTES) ? " [%d]" : " %d", log[i] + 256 * log[i + 1]);
    if (got < 0) {
        printf("\n    refused %d\n", -(int)got);
    } else if (got == 1) {
        printf("\n    whole: the plan is done\n");
    } else if (got == 0) {
        printf("\n    part: fine so far, and the plan goes on with");
        print_next(alike, alike_len, log, log_len);
    } else {
        printf("\n    leaves the plan at place %d, where it could have gone on with", (int)got - 2);
        print_next(alike, alike_len, log, (size_t)(got - 2) * GINDRAZOMA_MOVE_BYTES);
    }
}

int main(void)
{
    static const uint8_t whole[] = { MOVE(LIFT), MOVE(TO_QUAY), MOVE(LIFT), MOVE(TURN), MOVE(TO_WAGON), MOVE(CLOSE) };
    static const uint8_t early[] = { MOVE(LIFT), MOVE(TO_QUAY), MOVE(CLOSE), MOVE(LIFT), MOVE(TO_QUAY) };
    static const uint8_t turned[] = { MOVE(LIFT), MOVE(TURN), MOVE(TURN) };
    static const uint8_t both[] = { MOVE(LIFT), MOVE(TO_QUAY), MOVE(LIFT_WEST), MOVE(TO_QUAY), MOVE(CLOSE) };
    static const uint8_t alike[] = { MOVE(LIFT_WEST), MOVE(LIFT) };

    int32_t written = gindrazoma_write_image(4, rules, sizeof rules, image, sizeof image);
    if (written < 0) {
        printf("write: refused %d\n", -(int)written);
        return 1;
    }
    image_len = (size_t)written;
    printf("%d lift, %d turn, %d to the quay, %d to a wagon, %d close the hatch\n", LIFT, TURN, TO_QUAY, TO_WAGON, CLOSE);
    printf("the plan: two containers, then the hatch\n");

    show(NULL, 0, whole, sizeof whole);
    show(NULL, 0, whole, 3 * GINDRAZOMA_MOVE_BYTES);
    show(NULL, 0, early, sizeof early);
    show(NULL, 0, turned, sizeof turned);
    show(NULL, 0, both, sizeof both);
    printf("a lift by the west crane, %d, counts as %d:\n", LIFT_WEST, LIFT);
    show(alike, sizeof alike, both, sizeof both);
    return 0;
}
