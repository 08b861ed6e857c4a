/*
 * A vend on a host written in C: the payment session has 30 seconds, the spiral 8. From the top of the repository:
 *
 *   scripts/archive host && cc -std=c99 -Iinclude -o vend examples/c/vend.c target/staticlib/libhost.a && ./vend
 *
 * It must print what examples/c/vend.out has. The set lives in `image`, 8,969 bytes of this program; nothing else remembers a timer.
 */
#include <inttypes.h>
#include <stdio.h>
#include <stdlib.h>

#include "nurberosh.h"

#define SECONDS UINT64_C(1000000000)

static uint8_t image[NURBEROSH_IMAGE_BYTES];
static uint8_t reports[NURBEROSH_REPORT_BYTES];

/* The refusals by name, and what is wrong with an image. */
static void explain(uint64_t status)
{
    switch (nurberosh_refusal(status)) {
    case NURBEROSH_UNSOUND:
        printf("refused: the set is not sound, fault %u at %" PRIu32 "\n", nurberosh_fault_kind(status), nurberosh_fault_where(status));
        break;
    case NURBEROSH_CLOSED: puts("refused: the set is closed"); break;
    case NURBEROSH_DEAD_HANDLE: puts("refused: the handle is dead"); break;
    case NURBEROSH_FULL: puts("refused: every place is taken"); break;
    case NURBEROSH_SHORT_LIST: puts("refused: too few report bytes"); break;
    case NURBEROSH_BAD_IMAGE: puts("refused: the bytes are no image"); break;
    case NURBEROSH_ACCEPTED: puts("accepted"); break;
    default: puts("refused, for a reason that the header does not name");
    }
}

/* A call that this program has no reason to see refused. */
static void must(uint64_t status)
{
    if (status != NURBEROSH_ACCEPTED) {
        explain(status);
        exit(1);
    }
}

/* Adds a timer, and says its name. */
static uint64_t add(const char *what, uint64_t deadline)
{
    uint64_t handle;
    must(nurberosh_add(image, sizeof image, deadline, &handle));
    printf("%s: %" PRIu64 ":%" PRIu64 ", due at %" PRIu64 " s\n", what, handle & 0xffff, handle >> 32, deadline / SECONDS);
    return handle;
}

/* A turn: who is due, and when to come back. */
static void turn(uint64_t reading)
{
    uint64_t reported, any, wake, i;
    must(nurberosh_turn(image, sizeof image, reading, reports, sizeof reports, &reported));
    printf("turn at %" PRIu64 " s:", reading / SECONDS);
    for (i = 0; i < reported; i++) {
        uint64_t word = nurberosh_report(reports, (size_t)i);
        printf(" %" PRIu64 ":%" PRIu64, word & 0xffff, word >> 32);
    }
    must(nurberosh_next_wake(image, sizeof image, &any, &wake));
    if (any)
        printf(" (next wake at %" PRIu64 " s)\n", wake / SECONDS);
    else
        puts(" (nothing to wake for)");
}

int main(void)
{
    uint64_t session, message, reported;

    must(nurberosh_fresh(image, sizeof image));
    session = add("payment session", 30 * SECONDS);
    message = add("display message", 2 * SECONDS);
    turn(0);
    turn(2 * SECONDS);
    must(nurberosh_reset(image, sizeof image, message, 4 * SECONDS));

    puts("the card is approved: the session's timeout must not go off any more");
    must(nurberosh_cancel(image, sizeof image, session));
    add("vend timeout", 12 * SECONDS);
    turn(4 * SECONDS);
    must(nurberosh_cancel(image, sizeof image, message));

    puts("the spiral does not report in time");
    turn(12 * SECONDS);
    turn(30 * SECONDS);
    add("next session", 60 * SECONDS);

    puts("the old session is reset, by mistake");
    explain(nurberosh_reset(image, sizeof image, session, 90 * SECONDS));
    puts("a turn with room for 255 reports");
    explain(nurberosh_turn(image, sizeof image, 60 * SECONDS, reports, sizeof reports - 8, &reported));
    puts("an image that is cut short");
    explain(nurberosh_turn(image, sizeof image - 1, 60 * SECONDS, reports, sizeof reports, &reported));
    puts("memory that was never made an image");
    image[0] = 0;
    explain(nurberosh_turn(image, sizeof image, 60 * SECONDS, reports, sizeof reports, &reported));
    return 0;
}
