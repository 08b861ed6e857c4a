/*
 * nurberosh.h: a set of timers for a host written in C.
 *
 * The host lends the set as an image, NURBEROSH_IMAGE_BYTES bytes of its own memory, and makes a call on it; between two calls the
 * image is the whole of the set. docs/IMAGE.md is its format. Link target/staticlib/libhost.a, which `scripts/archive host` proves and
 * builds, for x86-64 alone; of the C library it needs memcpy and the like. It allocates nothing and keeps nothing.
 *
 * Who owns what.
 *   All memory is the host's. A call reads and writes only what it is lent, and only while it runs: it keeps no pointer.
 *   What is lent to one call must not overlap: not the image, the report bytes, nor the numbers that a pointer leads to.
 *   No pointer may be null, and a buffer must have as many bytes as its length says.
 *   No two calls may be made on one image at once. Two images are two sets, and may be used by two threads.
 *   What the timers are promised to do holds of one image that nobody else writes to. An older image that is put back brings its own
 *   history back: a handle that was given out since may then be given out again, to another timer.
 *   None of this can a call test.
 *
 * Times are nanoseconds, any number of 64 bits. The host reads its own clock, and hands a turn the reading.
 *
 * A handle is one word: the use number of its place in the upper 32 bits, 16 zero bits, the place in the lower 16. A word in which one
 * of the zero bits is set names no timer, and is refused as a dead handle is.
 *
 * Each call answers a status: NURBEROSH_ACCEPTED, or why it is refused. A refused call has written nothing: the image, the report
 * bytes and the numbers that a pointer leads to are as they were. Where there are several reasons to refuse, the first in this order
 * is given: NURBEROSH_BAD_IMAGE, NURBEROSH_UNSOUND, NURBEROSH_CLOSED, NURBEROSH_DEAD_HANDLE, NURBEROSH_FULL, NURBEROSH_SHORT_LIST.
 *
 * Stack: a call needs at most NURBEROSH_STACK_BYTES, as measured on a painted stack; see there.
 */
#ifndef NURBEROSH_H
#define NURBEROSH_H

#include <stddef.h>
#include <stdint.h>

#ifdef __cplusplus
extern "C" {
#endif

/* How many timers a set has room for. */
#define NURBEROSH_TIMERS 256

/* How many bytes an image has, no more and no fewer. */
#define NURBEROSH_IMAGE_BYTES 8969

/* How many report bytes a turn asks for, eight for each timer. */
#define NURBEROSH_REPORT_BYTES 2048

/*
 * How many bytes of stack a call needs, from the caller's frame on. This is measured, not proved: each call is made on a painted
 * stack, on images of many kinds, on x86-64 with the toolchain that builds the library (tests/c/stack.c). The most is that of a turn;
 * to what was measured a tenth or more is added.
 */
#define NURBEROSH_STACK_BYTES 212992

/* Why a call is refused: the lowest 8 bits of its status. */
enum {
    NURBEROSH_ACCEPTED = 0,
    /* the image is that of a set that is not sound: some program has changed it. The status says what is wrong, and where */
    NURBEROSH_UNSOUND = 1,
    /* the set is closed. No function here closes one; an image that a host was handed may be closed */
    NURBEROSH_CLOSED = 2,
    /* the handle names no live timer: it was cancelled, or was never given out for this image */
    NURBEROSH_DEAD_HANDLE = 3,
    /* every place is taken. A cancelled timer's place is free again after the next turn */
    NURBEROSH_FULL = 4,
    /* there are fewer than NURBEROSH_REPORT_BYTES report bytes */
    NURBEROSH_SHORT_LIST = 5,
    /* the bytes are no image: their length, a spare bit that is set, or a field that is out of range */
    NURBEROSH_BAD_IMAGE = 13
};

/* What is wrong with an unsound set: the next 8 bits of the status. */
enum {
    /* there are not as many entries as full slots. It is nowhere in particular: 0 */
    NURBEROSH_FAULT_COUNT = 1,
    /* an entry and its slot do not name each other: the entry's position */
    NURBEROSH_FAULT_POSITION = 2,
    /* an entry is due before its parent: its position */
    NURBEROSH_FAULT_ORDER = 3,
    /* the chain of free slots goes wrong: the step along it, the first being 0 */
    NURBEROSH_FAULT_FREE_CHAIN = 4,
    /* the list of waiting timers goes wrong: the step along it, the first being 0 */
    NURBEROSH_FAULT_LIST = 5,
    /* anything else is wrong with a timer or with the entry that names it: the lowest such place */
    NURBEROSH_FAULT_PLACE = 6
};

/* The parts of a status: why the call is refused, 0 where it is accepted; and, with NURBEROSH_UNSOUND, the kind of the fault and
 * where it is. Both are 0 with any other status. */
static inline unsigned nurberosh_refusal(uint64_t status) { return (unsigned)(status & 0xff); }
static inline unsigned nurberosh_fault_kind(uint64_t status) { return (unsigned)(status >> 8 & 0xff); }
static inline uint32_t nurberosh_fault_where(uint64_t status) { return (uint32_t)(status >> 16 & 0xffffffff); }

/* The word of the i-th report of a turn, the first being 0. */
static inline uint64_t nurberosh_report(const uint8_t *reports, size_t i)
{
    uint64_t word = 0;
    size_t k;
    for (k = 0; k < 8; k++)
        word = word << 8 | reports[8 * i + k];
    return word;
}

/*
 * Makes the image that of a fresh set: open, with every place free. What the bytes were before does not matter.
 * Refused with BAD_IMAGE, for the length only.
 */
uint64_t nurberosh_fresh(uint8_t *image, size_t image_length);

/*
 * Adds a timer that is due at `deadline`, and writes its handle to `*handle`. The next turn takes it up, and reports it where it is
 * due.
 * Refused with BAD_IMAGE, UNSOUND, CLOSED or FULL.
 */
uint64_t nurberosh_add(uint8_t *image, size_t image_length, uint64_t deadline, uint64_t *handle);

/*
 * Sets a live timer to another deadline, whether it was reported or not; it is then owed a report again.
 * Refused with BAD_IMAGE, UNSOUND, CLOSED or DEAD_HANDLE.
 */
uint64_t nurberosh_reset(uint8_t *image, size_t image_length, uint64_t handle, uint64_t deadline);

/*
 * Cancels a live timer: it is never reported from now on, and its handle is dead for good. Its place is free after the next turn.
 * A timer that was reported keeps its place, too, until it is cancelled.
 * Refused with BAD_IMAGE, UNSOUND, CLOSED or DEAD_HANDLE.
 */
uint64_t nurberosh_cancel(uint8_t *image, size_t image_length, uint64_t handle);

/*
 * Reports every timer that is owed and whose deadline is not after `reading`, each once, an earlier deadline never after a later one.
 * The words of their handles are written to `reports`, eight bytes each with the most significant first, from its start on, and their
 * number to `*reported`; the report bytes behind them stay as they were.
 * Refused with BAD_IMAGE, UNSOUND, CLOSED or, under NURBEROSH_REPORT_BYTES report bytes, SHORT_LIST.
 */
uint64_t nurberosh_turn(uint8_t *image, size_t image_length, uint64_t reading, uint8_t *reports, size_t reports_length,
                        uint64_t *reported);

/*
 * When the next turn is wanted. Right after a turn this is the earliest deadline of the timers still owed a report: 1 is written to
 * `*any` and the deadline to `*wake`, or 0 to `*any` where none is owed, and `*wake` stays as it was. What was added, reset or
 * cancelled since the last turn does not count yet, so a host asks after each turn, and takes the earlier of the answer and its newer
 * deadlines. (All this where no timer is reset 1,073,741,824 times between two turns.)
 * Refused with BAD_IMAGE or UNSOUND. A closed set has no next wake, and is not refused.
 */
uint64_t nurberosh_next_wake(const uint8_t *image, size_t image_length, uint64_t *any, uint64_t *wake);

#ifdef __cplusplus
}
#endif

#endif
