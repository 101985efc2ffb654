/* Table A's morning (document 01, M1), played through the archive: each event and its reply, as document 01 writes them. */
#include "lawqendo.h"
#include <inttypes.h>
#include <stdio.h>

static const uint32_t table_a[] = {3,  1, 20, 10, 3, 0, 30, 20, 9, 2, 1, 0, 1, 2,
                                   0,  0, 40, 30, 10, 2, 1, 0, 4, 2, 0, 0};

static uint64_t image[LAWQENDO_IMAGE];

static void reply(const uint64_t answer[LAWQENDO_ANSWER]) {
    uint64_t number = answer[LAWQENDO_NUMBER];
    if (number != LAWQENDO_ACCEPTED && number != LAWQENDO_FINISHED) {
        printf("refused %" PRIu64 "\n", number);
        return;
    }
    if (number == LAWQENDO_FINISHED)
        printf("lateness %" PRId64 "; ", (int64_t)answer[LAWQENDO_VALUE]);
    if (answer[LAWQENDO_RUNS])
        printf("runs %" PRIu64 ", %" PRIu64 "\n", answer[LAWQENDO_TASK], answer[LAWQENDO_DEADLINE]);
    else
        printf("idle\n");
}

static void release(uint32_t task, uint64_t time) {
    uint64_t answer[LAWQENDO_ANSWER];
    lawqendo_release(image, task, time, answer);
    printf("release %" PRIu32 " at %" PRIu64 ": ", task, time);
    reply(answer);
}

static void step(uint64_t time) {
    uint64_t answer[LAWQENDO_ANSWER];
    lawqendo_step(image, time, answer);
    printf("step at %" PRIu64 ": ", time);
    reply(answer);
}

int main(void) {
    uint64_t answer[LAWQENDO_ANSWER];
    if (lawqendo_start(table_a, sizeof table_a / sizeof table_a[0], image, answer) != LAWQENDO_ACCEPTED) {
        printf("refused %" PRIu64 " at %" PRIu64 "\n", answer[LAWQENDO_NUMBER], answer[LAWQENDO_VALUE]);
        return 1;
    }
    release(2, 0);
    step(1);
    release(1, 2);
    release(0, 3);
    step(6);
    step(8);
    step(9);
    step(10);
    step(17);
    step(22);
    return 0;
}
