/*
 * How much stack the calls of include/nurberosh.h use, on a painted stack: for each call the most, over images of many kinds. It ends
 * with status 1 where that is more than NURBEROSH_STACK_BYTES says. scripts/test-c runs it, with -pthread.
 */
#define _POSIX_C_SOURCE 200112L
#include <pthread.h>
#include <stdio.h>
#include <stdlib.h>
#include <string.h>

#include "nurberosh.h"

enum { ROOM = 1 << 20, PAINT = 0xa5, OPS = 6 };

static const char *const names[OPS] = {"fresh", "add", "reset", "cancel", "turn", "next_wake"};
static uint8_t *bottom;
static size_t most[OPS];
static uint8_t image[NURBEROSH_IMAGE_BYTES], reports[NURBEROSH_REPORT_BYTES];

/* Makes a call, and notes how far below this function's frame the stack was written to. */
static uint64_t measured(int op, uint64_t x, uint64_t y)
{
    volatile uint8_t here = 0;
    uint64_t status = 0, first, second;
    uint8_t *top = (uint8_t *)(uintptr_t)&here, *p;

    /* the frame of memset itself is painted over by nobody, so a little below this frame is left out */
    memset(bottom, PAINT, (size_t)(top - bottom) - 512);
    switch (op) {
    case 0: status = nurberosh_fresh(image, sizeof image); break;
    case 1: status = nurberosh_add(image, sizeof image, x, &first); break;
    case 2: status = nurberosh_reset(image, sizeof image, x, y); break;
    case 3: status = nurberosh_cancel(image, sizeof image, x); break;
    case 4: status = nurberosh_turn(image, sizeof image, x, reports, sizeof reports, &first); break;
    default: status = nurberosh_next_wake(image, sizeof image, &first, &second);
    }
    for (p = bottom; p < top && *p == PAINT; p++)
        ;
    if ((size_t)(top - p) > most[op])
        most[op] = (size_t)(top - p);
    return status;
}

/* Every call on sets that are empty, half full and full, with timers that wait and that do not, few due and all due; and refused ones. */
static void *run(void *unused)
{
    unsigned i, n;
    for (n = 0; n <= NURBEROSH_TIMERS; n += NURBEROSH_TIMERS / 2) {
        measured(0, 0, 0);
        for (i = 0; i <= n; i++)
            measured(1, 1000 - i, 0);
        measured(5, 0, 0);
        measured(4, 0, 0);
        for (i = 0; i < n; i++)
            measured(2, i, 2000 - (i * 7 % 100));
        measured(4, 990, 0);
        for (i = 0; i < n; i += 3)
            measured(3, i, 0);
        measured(4, 1990, 0);
        measured(5, 0, 0);
        measured(4, UINT64_MAX, 0);
        measured(1, 5, 0);
        measured(2, 0, 5);
        image[12]++;
        for (i = 1; i < OPS; i++)
            measured((int)i, 0, 0);
        image[0] = 0;
        for (i = 1; i < OPS; i++)
            measured((int)i, 0, 0);
    }
    return unused;
}

int main(void)
{
    pthread_attr_t attributes;
    pthread_t thread;
    void *memory;
    size_t least = 0;
    int i;

    if (posix_memalign(&memory, 4096, ROOM))
        return 2;
    bottom = memory;
    if (pthread_attr_init(&attributes) || pthread_attr_setstack(&attributes, memory, ROOM) || pthread_create(&thread, &attributes, run, NULL)
        || pthread_join(thread, NULL))
        return 2;
    for (i = 0; i < OPS; i++) {
        printf("%s %lu\n", names[i], (unsigned long)most[i]);
        if (most[i] > least)
            least = most[i];
    }
    if (least > NURBEROSH_STACK_BYTES) {
        printf("stack: a call used %lu bytes, and the header says %lu\n", (unsigned long)least, (unsigned long)NURBEROSH_STACK_BYTES);
        return 1;
    }
    return 0;
}
