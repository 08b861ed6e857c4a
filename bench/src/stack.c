/* Measures how much stack each public call and query uses: makes it, through crates/depths, on a thread whose stack is painted, and
 * looks for the deepest byte that is no longer paint.
 *
 * What is exported makes its set by other calls, writes to a lent number, makes the call that is measured, and writes to another. The
 * two numbers lie on pages that may not be written to, so each write stops the thread once, and the handler is told where its stack
 * pointer is. At the first write it paints anew all that lies below; at the second it looks how deep the call went. x86-64 Linux only.
 *
 * It prints a row for each call. Status 1: a call was accepted in none of the states, or left a set that is not sound. Status 2: it
 * could not measure. */
#define _GNU_SOURCE
#include <inttypes.h>
#include <pthread.h>
#include <signal.h>
#include <stdio.h>
#include <stdlib.h>
#include <string.h>
#include <sys/mman.h>
#include <ucontext.h>

typedef uint64_t exported(uint64_t, uint64_t, uint64_t, uint64_t, uint64_t, uint64_t);

exported depth_fresh, depth_add, depth_reset, depth_cancel, depth_drain, depth_advance, depth_turn, depth_next_wake, depth_poll,
    depth_close, depth_tick, depth_restart, depth_time_left, depth_least_left, depth_perform;

enum { STACK = 1 << 20, PAGE = 4096, WORD = 8, PAINT = 0xa5, RED_ZONE = 128, UNSOUND = 100 };

static uint8_t *stack;
static uint64_t *before, *after;

/* Where the stack pointer was when the exported function was called, at the first write, and the deepest byte found at the second. */
exported *target;
uint8_t *called_at;
static uint8_t *made_at, *deepest;

/* Notes the stack pointer and goes on to the target, whose arguments stay where they are. */
exported noted;
__asm__(".text\n"
        "noted:\n"
        "    mov %rsp, called_at(%rip)\n"
        "    jmp *target(%rip)\n");

static void fail(const char *what)
{
    fprintf(stderr, "stack: %s\n", what);
    exit(2);
}

/* A write to one of the two pages: the write goes on once the page may be written to. */
static void written(int number, siginfo_t *told, void *context)
{
    uint8_t *pointer = (uint8_t *)((ucontext_t *)context)->uc_mcontext.gregs[REG_RSP];
    if (told->si_addr == before) {
        made_at = pointer;
        memset(stack, PAINT, (size_t)(pointer - RED_ZONE - stack));
    } else if (told->si_addr == after && pointer == made_at) {
        for (deepest = stack; deepest < pointer - RED_ZONE && *deepest == PAINT; deepest++)
            ;
        /* A byte that was written may look like paint, so a word counts whole. What lies above is not painted, so that less than that
         * counts as nothing. */
        deepest = deepest < pointer - RED_ZONE ? stack + (deepest - stack) / WORD * WORD : pointer;
    } else {
        signal(number, SIG_DFL);
        return;
    }
    mprotect(told->si_addr, PAGE, PROT_READ | PROT_WRITE);
}

struct call {
    const char *name;
    exported *function;
    /* the arguments after the stages of the set, in their order; the fresh set has no stages */
    int count;
    uint64_t arguments[3];
    int no_stages;
};

struct run {
    const struct call *call;
    uint64_t stages, answer;
};

/* Makes one call; this is all that its thread does. */
static void *made(void *given)
{
    static uint8_t aside[1 << 16];
    struct run *run = given;
    stack_t other = { .ss_sp = aside, .ss_size = sizeof aside };
    uint64_t a[6] = { 0 };
    int n = 0;
    if (sigaltstack(&other, NULL))
        fail("no stack for the handler");
    if (!run->call->no_stages)
        a[n++] = run->stages;
    for (int i = 0; i < run->call->count; i++)
        a[n++] = run->call->arguments[i];
    a[n++] = (uint64_t)before;
    a[n++] = (uint64_t)after;
    run->answer = noted(a[0], a[1], a[2], a[3], a[4], a[5]);
    return NULL;
}

/* Makes one call on a thread of its own. */
static void measure(struct run *run)
{
    pthread_attr_t attributes;
    pthread_t thread;
    if (mprotect(before, PAGE, PROT_READ) || mprotect(after, PAGE, PROT_READ))
        fail("the pages of the two numbers cannot be protected");
    target = run->call->function;
    made_at = deepest = NULL;
    if (pthread_attr_init(&attributes) || pthread_attr_setstack(&attributes, stack, STACK) ||
        pthread_create(&thread, &attributes, made, run) || pthread_join(thread, NULL))
        fail("no thread on the painted stack");
    pthread_attr_destroy(&attributes);
    if (!made_at || !deepest || deepest < stack + PAGE)
        fail("a call was not seen to begin and to end, or the painted stack is too small");
}

static const struct {
    const char *name;
    uint64_t stages;
} states[] = {
    { "all timers live and waiting, each with an entry", 0x06010300 },
    { "all timers live and waiting, none with an entry", 0x06060600 },
    { "all timers live, each with an entry, none waiting", 0x06060300 },
    { "all timers fired", 0x06060500 },
    { "all timers cancelled and waiting, each with an entry", 0x06020300 },
    { "one place free, the other timers waiting, each with an entry", 0x06010310 },
    { "no timers", 0x06060606 },
    { "closed with all timers live", 0x06060800 },
};

enum { LATE = 1000000000, PLACE = 5, CALLS = 11 };

static const struct call calls[] = {
    { "fresh", depth_fresh, 0, { 0 }, 1 },
    { "add", depth_add, 1, { LATE }, 0 },
    { "reset", depth_reset, 2, { PLACE, LATE }, 0 },
    { "cancel", depth_cancel, 1, { PLACE }, 0 },
    { "drain", depth_drain, 0, { 0 }, 0 },
    { "advance", depth_advance, 1, { LATE }, 0 },
    { "turn", depth_turn, 1, { LATE }, 0 },
    { "next_wake", depth_next_wake, 0, { 0 }, 0 },
    { "poll", depth_poll, 1, { PLACE }, 0 },
    { "close", depth_close, 0, { 0 }, 0 },
    { "tick", depth_tick, 3, { PLACE, LATE, LATE }, 0 },
    { "restart", depth_restart, 3, { PLACE, LATE, LATE }, 0 },
    { "time_left", depth_time_left, 2, { PLACE, LATE }, 0 },
    { "least_left", depth_least_left, 1, { LATE }, 0 },
};

/* The most that was seen, from the caller of the exported function on and from the call that is measured on, and the least. */
struct seen {
    long most, below, least;
    const char *state;
    int accepted, unsound;
};

/* Makes a call in every state. */
static void everywhere(const struct call *call, struct seen *seen)
{
    for (size_t i = 0; i < sizeof states / sizeof *states; i++) {
        struct run run = { call, states[i].stages, 0 };
        long bytes;
        /* the first time may be unlike the others: the loader may have to look up memcpy then */
        measure(&run);
        measure(&run);
        bytes = called_at + WORD - deepest;
        if (bytes > seen->most) {
            seen->most = bytes;
            seen->below = made_at - deepest;
            seen->state = states[i].name;
        }
        if (!seen->least || bytes < seen->least)
            seen->least = bytes;
        seen->accepted |= run.answer == 0;
        seen->unsound |= run.answer == UNSOUND;
    }
}

/* Prints the row of a call; answers whether it was accepted somewhere, and left no unsound set. */
static int row(const char *name, const struct seen *seen)
{
    printf("| `%s` | %ld | %ld | %s |\n", name, seen->most, seen->below, seen->least == seen->most ? "every state" : seen->state);
    if (!seen->accepted)
        fprintf(stderr, "stack: %s was accepted in none of the states.\n", name);
    if (seen->unsound)
        fprintf(stderr, "stack: %s left a set that is not sound.\n", name);
    return seen->accepted && !seen->unsound;
}

int main(void)
{
    struct sigaction action = { .sa_sigaction = written, .sa_flags = SA_SIGINFO | SA_ONSTACK };
    struct seen perform = { 0 };
    int right = 1;
    stack = mmap(NULL, STACK, PROT_READ | PROT_WRITE, MAP_PRIVATE | MAP_ANONYMOUS, -1, 0);
    before = mmap(NULL, PAGE, PROT_READ, MAP_PRIVATE | MAP_ANONYMOUS, -1, 0);
    after = mmap(NULL, PAGE, PROT_READ, MAP_PRIVATE | MAP_ANONYMOUS, -1, 0);
    if (stack == MAP_FAILED || before == MAP_FAILED || after == MAP_FAILED || sigaction(SIGSEGV, &action, NULL))
        fail("no memory, or no handler");
    printf("| Call | Bytes | Of these below the caller | In |\n|---|---|---|---|\n");
    for (size_t i = 0; i < sizeof calls / sizeof *calls; i++) {
        struct seen seen = { 0 };
        everywhere(&calls[i], &seen);
        right &= row(calls[i].name, &seen);
    }
    for (uint64_t number = 0; number < CALLS; number++) {
        const struct call call = { "perform", depth_perform, 3, { number, PLACE, LATE }, 0 };
        perform.accepted = 0;
        everywhere(&call, &perform);
        right &= perform.accepted;
    }
    right &= row("perform", &perform);
    return !right;
}
