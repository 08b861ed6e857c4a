/*
 * image DUE TURNS: the rounds of crates/rounds through the image of a C host. As many timers as there are places are due at 1, 2, 3
 * and so on; in each round the reading goes up by DUE, a turn is made, and whoever is reported is reset to the deadline after the last
 * one. bench/image counts the instructions of its turns. It prints a checksum of all that was reported.
 */
#include <inttypes.h>
#include <stdio.h>
#include <stdlib.h>

#include "nurberosh.h"

static uint8_t image[NURBEROSH_IMAGE_BYTES], reports[NURBEROSH_REPORT_BYTES];

static void must(uint64_t status)
{
    if (status) {
        fprintf(stderr, "image: a call was refused with status 0x%" PRIx64 "\n", status);
        exit(2);
    }
}

int main(int argc, char **argv)
{
    uint64_t due, turns, handle, n, i, reading = 0, last = NURBEROSH_TIMERS, sum = 0;

    if (argc != 3)
        return 2;
    due = strtoull(argv[1], NULL, 10), turns = strtoull(argv[2], NULL, 10);
    must(nurberosh_fresh(image, sizeof image));
    for (i = 1; i <= NURBEROSH_TIMERS; i++)
        must(nurberosh_add(image, sizeof image, i, &handle));
    while (turns--) {
        reading += due;
        must(nurberosh_turn(image, sizeof image, reading, reports, sizeof reports, &n));
        sum = 3 * sum + n;
        for (i = 0; i < n; i++) {
            must(nurberosh_reset(image, sizeof image, nurberosh_report(reports, (size_t)i), ++last));
            sum = 3 * sum + nurberosh_report(reports, (size_t)i);
        }
    }
    printf("%" PRIu64 "\n", sum);
    return 0;
}
