/*
 * Tries the calls of include/nurberosh.h on images, for scripts/test-c, which says what for. It has a test of an image of its own,
 * written from docs/IMAGE.md (the tables) and docs/RULES.md, section 8 (sound states and their first fault), and not from the library.
 *
 *   check calls SEED COUNT GUARD FILE   makes COUNT random calls, valid and not. Those that replay can make are written to FILE as
 *                                       records, and their answers to standard output as replay's lines
 *   check damage SEED GUARD             lengths, the order of refusals, spare bits, and images with a bit or a byte changed
 *
 * GUARD is how many bytes stand before and behind each buffer, to be seen unchanged. With 0 a buffer is an allocation by itself, so
 * that valgrind sees what is read beyond it. The status is 0 where all is as it must be; else a line says what was not, and it is 1.
 */
#include <inttypes.h>
#include <stdio.h>
#include <stdlib.h>
#include <string.h>

#include "nurberosh.h"

enum { CAP = NURBEROSH_TIMERS, SIZE = NURBEROSH_IMAGE_BYTES, LONGEST = 2 * NURBEROSH_IMAGE_BYTES };

/* ---- random numbers, the same everywhere */

static uint64_t seed;

static uint64_t random_word(void)
{
    seed ^= seed << 13;
    seed ^= seed >> 7;
    seed ^= seed << 17;
    return seed;
}

static uint64_t below(uint64_t n) { return (random_word() >> 11) % n; }

/* ---- what an image says, by the tables of docs/IMAGE.md */

enum { HEADER = 9, ENTRY = 14, SLOT = 2, TIMER = 19 };
enum { ENTRIES = HEADER, SLOTS = ENTRIES + CAP * ENTRY, TIMERS = SLOTS + CAP * SLOT };

/* the number in k bytes, most significant first */
static uint64_t number(const uint8_t *b, size_t k)
{
    uint64_t n = 0;
    while (k--)
        n = n << 8 | *b++;
    return n;
}

struct entry { uint64_t deadline, generation, place, slot; };
struct slot { uint64_t full, number; };
struct timer { uint64_t life, waiting, names, before, slot, uses, word, deadline; };
struct set {
    uint64_t closed, has_head, head, entries, slots, free_head;
    struct entry entry[CAP];
    struct slot slot[CAP];
    struct timer timer[CAP];
};

/* the fields of SIZE bytes; a count may be out of range */
static void fields(const uint8_t *b, struct set *s)
{
    size_t i;
    s->closed = b[1] >> 1 & 1, s->has_head = b[1] & 1, s->head = b[2];
    s->entries = number(b + 3, 2) & 511, s->slots = number(b + 5, 2) & 511, s->free_head = number(b + 7, 2) & 511;
    for (i = 0; i < CAP; i++) {
        const uint8_t *e = b + ENTRIES + i * ENTRY, *l = b + SLOTS + i * SLOT, *t = b + TIMERS + i * TIMER;
        s->entry[i].deadline = number(e, 8), s->entry[i].generation = number(e + 8, 4) & 0x3fffffff;
        s->entry[i].place = e[12], s->entry[i].slot = e[13];
        s->slot[i].full = l[0] >> 7, s->slot[i].number = number(l, 2) & 511;
        s->timer[i].life = t[0] >> 6, s->timer[i].waiting = t[0] >> 2 & 3, s->timer[i].names = t[0] >> 1 & 1;
        s->timer[i].before = t[1], s->timer[i].slot = t[2], s->timer[i].uses = number(t + 3, 4);
        s->timer[i].word = number(t + 7, 4), s->timer[i].deadline = number(t + 11, 8);
    }
}

/* the spare bits of an image with these fields: each is 1 in the mask */
static void spare_bits(const struct set *s, uint8_t *mask)
{
    size_t i;
    memset(mask, 0, SIZE);
    mask[1] = 0xfc, mask[2] = s->has_head ? 0 : 0xff, mask[3] = mask[5] = mask[7] = 0xfe;
    for (i = 0; i < CAP; i++) {
        uint8_t *e = mask + ENTRIES + i * ENTRY, *l = mask + SLOTS + i * SLOT, *t = mask + TIMERS + i * TIMER;
        const struct timer *m = &s->timer[i];
        if (i >= s->entries)
            memset(e, 0xff, ENTRY);
        else
            e[8] = 0xc0;
        if (i >= s->slots)
            memset(l, 0xff, SLOT);
        else
            l[0] = 0x7e;
        t[0] = 0x31, t[1] = m->waiting == 2 ? 0 : 0xff, t[2] = m->names ? 0 : 0xff;
        if (m->life == 0 || m->life == 3)
            memset(t + 7, 0xff, 4);
        if (m->life != 1)
            memset(t + 11, 0xff, 8);
    }
}

/* whether SIZE bytes with these fields are refused with 13: a field out of its range, or a spare bit that is set */
static int no_image(const uint8_t *b, const struct set *s)
{
    uint8_t mask[SIZE];
    size_t i;
    if (b[0] != 1 || s->entries > CAP || s->slots > CAP || s->free_head > CAP)
        return 1;
    for (i = 0; i < s->slots; i++)
        if (s->slot[i].number > (uint64_t)(s->slot[i].full ? CAP - 1 : CAP))
            return 1;
    for (i = 0; i < CAP; i++)
        if (s->timer[i].waiting == 3)
            return 1;
    spare_bits(s, mask);
    for (i = 0; i < SIZE; i++)
        if (b[i] & mask[i])
            return 1;
    return 0;
}

static uint64_t unsound(uint64_t kind, uint64_t where) { return NURBEROSH_UNSOUND | kind << 8 | where << 16; }

/* whether a timer breaks a clause */
static int timer_at_fault(const struct set *s, uint64_t p)
{
    const struct timer *t = &s->timer[p];
    if ((t->life == 0 || t->life == 3 || s->closed) && (t->waiting || t->names))
        return 1;
    if (!s->closed && ((t->life == 1 && t->word & 2) || (t->life == 2 && (t->word & 2 || !t->waiting))))
        return 1;
    return t->names && (t->slot >= s->slots || !s->slot[t->slot].full || s->entry[s->slot[t->slot].number].place != p);
}

/* the status that reading these bytes must give */
static uint64_t judged(const uint8_t *b, size_t length)
{
    struct set s;
    uint64_t i, at, full = 0, waiting = 0, lowest = CAP;
    uint8_t met[CAP + 1];

    if (length != SIZE)
        return NURBEROSH_BAD_IMAGE;
    fields(b, &s);
    if (no_image(b, &s))
        return NURBEROSH_BAD_IMAGE;
    for (i = 0; i < s.slots; i++)
        full += s.slot[i].full;
    if (full != s.entries)
        return unsound(NURBEROSH_FAULT_COUNT, 0);
    for (i = 0; i < s.entries; i++) {
        at = s.entry[i].slot;
        if (at >= s.slots || !s.slot[at].full || s.slot[at].number != i)
            return unsound(NURBEROSH_FAULT_POSITION, i);
    }
    for (i = 1; i < s.entries; i++)
        if (s.entry[i].deadline < s.entry[(i - 1) / 2].deadline)
            return unsound(NURBEROSH_FAULT_ORDER, i);
    memset(met, 0, sizeof met);
    for (i = 0, at = s.free_head; i < s.slots - full; i++) {
        if (at >= s.slots || s.slot[at].full || met[at])
            return unsound(NURBEROSH_FAULT_FREE_CHAIN, i);
        met[at] = 1, at = s.slot[at].number;
    }
    if (at != s.slots)
        return unsound(NURBEROSH_FAULT_FREE_CHAIN, i);
    for (i = 0; i < CAP; i++)
        waiting += s.timer[i].waiting != 0;
    memset(met, 0, sizeof met);
    /* CAP stands for the end of the list */
    for (i = 0, at = s.has_head ? s.head : CAP; i < waiting; i++) {
        if (at == CAP || met[at] || !s.timer[at].waiting)
            return unsound(NURBEROSH_FAULT_LIST, i);
        met[at] = 1, at = s.timer[at].waiting == 2 ? s.timer[at].before : CAP;
    }
    if (at != CAP)
        return unsound(NURBEROSH_FAULT_LIST, i);
    for (i = CAP; i-- > 0;)
        if (timer_at_fault(&s, i))
            lowest = i;
    /* an entry whose place does not name its slot is at fault there */
    for (i = 0; i < s.entries; i++) {
        at = s.entry[i].place;
        if (at < lowest && !(s.timer[at].names && s.timer[at].slot == s.entry[i].slot))
            lowest = at;
    }
    return lowest < CAP ? unsound(NURBEROSH_FAULT_PLACE, lowest) : NURBEROSH_ACCEPTED;
}

/* ---- the calls, each with a look at all that it was lent */

enum { FRESH, ADD, RESET, CANCEL, TURN, WAKE };
static const char *const names[] = {"fresh", "add", "reset", "cancel", "turn", "next_wake"};

/* a buffer, with guard bytes on both sides, and what all of that was before the call */
struct lent { uint8_t *whole, *at, *was; size_t length; };

static size_t guard;
static struct lent image, reports;
/* the lent numbers are the second and the fourth of these */
static uint64_t numbers[5];
static uint64_t made;

static void fail(const char *what, int op, uint64_t status)
{
    printf("check: call %" PRIu64 ", %s, status 0x%" PRIx64 ": %s\n", made, names[op], status, what);
    exit(1);
}

static void lend(struct lent *l, size_t length)
{
    size_t i;
    l->length = length;
    l->whole = malloc(length + 2 * guard + !(length + guard));
    l->was = malloc(length + 2 * guard + 1);
    if (!l->whole || !l->was)
        exit(2);
    l->at = l->whole + guard;
    for (i = 0; i < length + 2 * guard; i++)
        l->whole[i] = (uint8_t)random_word();
}

static void give_back(struct lent *l)
{
    free(l->whole);
    free(l->was);
}

/* whether a buffer is as it was, but for the bytes from `from` to `to` of it */
static int same_but(const struct lent *l, size_t from, size_t to)
{
    return !memcmp(l->whole, l->was, guard + from) && !memcmp(l->at + to, l->was + guard + to, l->length - to + guard);
}

/* Makes a call on the lent image; its words are x and y. It sees that nothing was written that must stay. */
static uint64_t call(int op, uint64_t x, uint64_t y)
{
    uint64_t status = 0, first, second, stray[3];
    size_t i;

    made++;
    for (i = 0; i < 5; i++)
        numbers[i] = random_word();
    first = numbers[1], second = numbers[3], stray[0] = numbers[0], stray[1] = numbers[2], stray[2] = numbers[4];
    memcpy(image.was, image.whole, image.length + 2 * guard);
    memcpy(reports.was, reports.whole, reports.length + 2 * guard);
    switch (op) {
    case FRESH: status = nurberosh_fresh(image.at, image.length); break;
    case ADD: status = nurberosh_add(image.at, image.length, x, &numbers[1]); break;
    case RESET: status = nurberosh_reset(image.at, image.length, x, y); break;
    case CANCEL: status = nurberosh_cancel(image.at, image.length, x); break;
    case TURN: status = nurberosh_turn(image.at, image.length, x, reports.at, reports.length, &numbers[1]); break;
    case WAKE: status = nurberosh_next_wake(image.at, image.length, &numbers[1], &numbers[3]); break;
    }
    if (stray[0] != numbers[0] || stray[1] != numbers[2] || stray[2] != numbers[4])
        fail("a number beside the lent ones was written", op, status);
    if (!same_but(&image, 0, image.length) || !same_but(&reports, 0, reports.length))
        fail("a byte beside a lent buffer was written", op, status);
    if ((status || op == WAKE) && !same_but(&image, 0, 0))
        fail("the image was written by a call that must leave it", op, status);
    if ((status || op != TURN) && !same_but(&reports, 0, 0))
        fail("report bytes were written by a call that must leave them", op, status);
    if (status && (first != numbers[1] || second != numbers[3]))
        fail("a number was written by a refused call", op, status);
    if (op != WAKE && second != numbers[3])
        fail("a number was written that was not lent", op, status);
    if (!status && op == TURN && (numbers[1] > CAP || !same_but(&reports, 0, 8 * (size_t)numbers[1])))
        fail("report bytes were written past the count", op, status);
    if (!status && op == WAKE && (numbers[1] > 1 || (!numbers[1] && second != numbers[3])))
        fail("the answers of next_wake do not go together", op, status);
    if (!status && op != WAKE && judged(image.at, image.length))
        fail("an accepted call left no sound image", op, status);
    return status;
}

/* A call that must give a status. */
static void must(int op, uint64_t x, uint64_t y, uint64_t wanted, const char *when)
{
    uint64_t status = call(op, x, y);
    if (status != wanted) {
        printf("check: %s: wanted status 0x%" PRIx64 "\n", when, wanted);
        fail("another status", op, status);
    }
}

/* The five calls that read an image must all give a status. */
static void all_must(uint64_t wanted, const char *when)
{
    must(ADD, 5, 0, wanted, when);
    must(RESET, 0, 5, wanted, when);
    must(CANCEL, 0, 0, wanted, when);
    must(TURN, 5, 0, wanted, when);
    must(WAKE, 0, 0, wanted, when);
}

/* ---- random calls */

static FILE *records;
static uint64_t now;
static uint64_t handles[1024];
static size_t given;

/* a time: mostly near the present one, and some at either end */
static uint64_t some_time(uint64_t spread)
{
    switch (below(40)) {
    case 0: return below(3);
    case 1: return UINT64_MAX - below(3);
    case 2: return random_word();
    default: return now + below(spread);
    }
}

/* a handle: one that was given out not long ago, and now and then one that never was */
static uint64_t some_handle(void)
{
    uint64_t place = below(4096), use = below(3);
    if (given && below(20))
        return handles[below(given)];
    return use << 32 | (below(2) ? place : place % CAP);
}

static void record(unsigned op, uint64_t handle, uint64_t value)
{
    unsigned place = (unsigned)(handle & 0xffff), i;
    fputc((int)(op << 4 | place >> 8), records);
    fputc((int)(place & 0xff), records);
    for (i = 0; i < 4; i++)
        fputc((int)(handle >> (56 - 8 * i) & 0xff), records);
    for (i = 0; i < 8; i++)
        fputc((int)(value >> (56 - 8 * i) & 0xff), records);
}

static void print_handle(uint64_t word) { printf(" %" PRIu64 ":%" PRIu64, word & 0xffff, word >> 32); }

/* the end of a line: the next wake */
static void print_wake(void)
{
    must(WAKE, 0, 0, NURBEROSH_ACCEPTED, "a next wake of the image that a call left");
    if (numbers[1])
        printf(" %" PRIu64, numbers[3]);
    else
        printf(" -");
}

/* one call that replay can make, and its line */
static void replayed(int op)
{
    uint64_t handle = op == RESET || op == CANCEL ? some_handle() : 0;
    uint64_t value = op == ADD || op == RESET ? some_time(2000) : op == TURN ? some_time(40) : 0;
    uint64_t status, i, n;

    switch (op) {
    case ADD:
        record(0, 0, value);
        status = call(ADD, value, 0);
        printf("0 %" PRIu64, status);
        if (!status) {
            printf(" %" PRIu64 " %" PRIu64, numbers[1] & 0xffff, numbers[1] >> 32);
            if (given < 1024)
                given++;
            handles[given < 1024 ? given - 1 : below(1024)] = numbers[1];
        }
        break;
    case RESET:
        record(1, handle, value);
        printf("1 %" PRIu64, call(RESET, handle, value));
        break;
    case CANCEL:
        record(2, handle, 0);
        printf("2 %" PRIu64, call(CANCEL, handle, 0));
        break;
    case TURN:
        record(5, 0, value);
        if (value < now + 40)
            now = value > now ? value : now;
        status = call(TURN, value, 0);
        printf("5 %" PRIu64, status);
        if (!status) {
            n = numbers[1];
            printf(" %" PRIu64, n);
            for (i = 0; i < n; i++)
                print_handle(nurberosh_report(reports.at, (size_t)i));
            printf(" w");
            print_wake();
        }
        break;
    default:
        record(6, 0, 0);
        printf("6 0");
        print_wake();
    }
    putchar('\n');
}

/* one call that replay cannot make; it is refused, and there is no record of it */
static void not_replayed(void)
{
    struct lent keep;
    uint64_t word, wanted;
    size_t at;
    int op;

    switch (below(5)) {
    case 0: /* a zero bit is set in a handle, be it that of a live timer */
        word = (given ? handles[below(given)] : 0) | UINT64_C(1) << (16 + below(16));
        if (below(2))
            must(RESET, word, some_time(2000), NURBEROSH_DEAD_HANDLE, "a reset with a zero bit set");
        else
            must(CANCEL, word, 0, NURBEROSH_DEAD_HANDLE, "a cancel with a zero bit set");
        break;
    case 1: /* a place that a record has no room for */
        must(CANCEL, 4096 + below(65536 - 4096), 0, NURBEROSH_DEAD_HANDLE, "a cancel of a place out of range");
        break;
    case 2: /* too few report bytes */
        keep = reports;
        lend(&reports, (size_t)below(NURBEROSH_REPORT_BYTES));
        must(TURN, some_time(40), 0, NURBEROSH_SHORT_LIST, "a turn with too few report bytes");
        give_back(&reports);
        reports = keep;
        break;
    case 3: /* another length; with more bytes the first of them are an image */
        keep = image;
        lend(&image, (size_t)below(LONGEST));
        memcpy(image.at, keep.at, image.length < SIZE ? image.length : SIZE);
        if (image.length != SIZE)
            all_must(NURBEROSH_BAD_IMAGE, "an image of another length");
        give_back(&image);
        image = keep;
        break;
    default: /* a byte is changed */
        keep = image;
        lend(&image, SIZE);
        memcpy(image.at, keep.at, SIZE);
        at = (size_t)below(SIZE);
        image.at[at] ^= (uint8_t)(1 + below(255));
        wanted = judged(image.at, SIZE);
        op = below(2) ? TURN : ADD;
        if (wanted)
            must(op, some_time(40), 0, wanted, "an image with a byte changed");
        else if ((word = call(op, some_time(40), 0)) != 0 && (word != NURBEROSH_FULL || op != ADD) && word != NURBEROSH_CLOSED)
            fail("a sound image is refused", op, word);
        give_back(&image);
        image = keep;
    }
}

static void calls(uint64_t count, const char *file)
{
    records = fopen(file, "wb");
    if (!records) {
        printf("check: %s cannot be written\n", file);
        exit(2);
    }
    lend(&image, SIZE);
    lend(&reports, NURBEROSH_REPORT_BYTES + (size_t)below(100));
    must(FRESH, 0, 0, NURBEROSH_ACCEPTED, "a fresh image");
    printf("timers %d\n", CAP);
    while (made < count) {
        /* the set fills up, and empties again */
        uint64_t r = below(100), adds = made / 1500 % 2 ? 10 : 45;
        if (r < adds)
            replayed(ADD);
        else if (r < adds + 15)
            replayed(RESET);
        else if (r < (adds == 10 ? 60 : 65))
            replayed(CANCEL);
        else if (r < 90)
            replayed(TURN);
        else if (r < 95)
            replayed(WAKE);
        else
            not_replayed();
    }
    puts("end");
    if (fclose(records)) {
        printf("check: %s could not be written\n", file);
        exit(2);
    }
    give_back(&image);
    give_back(&reports);
}

/* ---- lengths, the order of refusals, spare bits, damage */

/* an image with timers of all kinds: live, fired, cancelled and free; waiting and not; slots full and empty */
static void make_busy(unsigned adds, uint8_t *busy)
{
    uint64_t handle[CAP];
    unsigned i;

    must(FRESH, 0, 0, NURBEROSH_ACCEPTED, "a fresh image");
    for (i = 0; i < adds; i++) {
        must(ADD, 100 + below(400), 0, NURBEROSH_ACCEPTED, "an add");
        handle[i] = numbers[1];
    }
    must(TURN, 90, 0, NURBEROSH_ACCEPTED, "a turn");
    for (i = 0; i < adds; i += 5)
        must(RESET, handle[i], 300 + below(400), NURBEROSH_ACCEPTED, "a reset");
    for (i = 1; i < adds; i += 7)
        must(CANCEL, handle[i], 0, NURBEROSH_ACCEPTED, "a cancel");
    must(TURN, 200, 0, NURBEROSH_ACCEPTED, "a turn");
    for (i = 2; i < adds; i += 7)
        must(RESET, handle[i], 300 + below(400), NURBEROSH_ACCEPTED, "a reset");
    for (i = 3; i < adds; i += 7)
        must(CANCEL, handle[i], 0, NURBEROSH_ACCEPTED, "a cancel");
    memcpy(busy, image.at, SIZE);
}

static void lengths(void)
{
    static const size_t wrong[] = {0, 1, 2, 9, 2048, SIZE - 1, SIZE + 1, SIZE + 35, LONGEST};
    static const size_t few[] = {0, 1, 7, 8, NURBEROSH_REPORT_BYTES - 8, NURBEROSH_REPORT_BYTES - 1};
    struct lent keep = image, kept_reports = reports;
    size_t i;

    for (i = 0; i < sizeof wrong / sizeof *wrong; i++) {
        lend(&image, wrong[i]);
        memcpy(image.at, keep.at, wrong[i] < SIZE ? wrong[i] : SIZE);
        all_must(NURBEROSH_BAD_IMAGE, "an image of another length");
        must(FRESH, 0, 0, NURBEROSH_BAD_IMAGE, "a fresh image of another length");
        give_back(&image);
    }
    image = keep;
    for (i = 0; i < sizeof few / sizeof *few; i++) {
        lend(&reports, few[i]);
        must(TURN, 5, 0, NURBEROSH_SHORT_LIST, "a turn with too few report bytes");
        give_back(&reports);
    }
    reports = kept_reports;
}

/* where several reasons hold, the first in the order 13, 1, 2, 3, 4, 5 is given */
static void order(const uint8_t *busy)
{
    struct lent keep = reports;
    uint64_t broken;

    lend(&reports, 8);
    memset(image.at, 0, SIZE);
    all_must(NURBEROSH_BAD_IMAGE, "zeroed memory");
    must(RESET, UINT64_C(1) << 16, 5, NURBEROSH_BAD_IMAGE, "zeroed memory, and a zero bit set");
    memcpy(image.at, busy, SIZE);
    image.at[ENTRIES + ENTRY * 2 + 13] ^= 1;
    broken = judged(image.at, SIZE);
    if (nurberosh_refusal(broken) != NURBEROSH_UNSOUND)
        fail("an entry that names another's slot is no fault", WAKE, broken);
    all_must(broken, "an unsound image, and too few report bytes");
    must(CANCEL, UINT64_C(1) << 31, 0, broken, "an unsound image, and a zero bit set");
    must(FRESH, 0, 0, NURBEROSH_ACCEPTED, "a fresh image over an unsound one");
    image.at[1] |= 2;
    must(ADD, 5, 0, NURBEROSH_CLOSED, "a closed image");
    must(RESET, UINT64_C(1) << 16, 5, NURBEROSH_CLOSED, "a closed image, and a zero bit set");
    must(CANCEL, 0, 0, NURBEROSH_CLOSED, "a closed image, and a dead handle");
    must(TURN, 5, 0, NURBEROSH_CLOSED, "a closed image, and too few report bytes");
    must(WAKE, 0, 0, NURBEROSH_ACCEPTED, "a closed image");
    if (numbers[1])
        fail("a closed image has a next wake", WAKE, 0);
    give_back(&reports);
    reports = keep;
    /* the first byte is the format's number */
    memcpy(image.at, busy, SIZE);
    image.at[0] = 2;
    all_must(NURBEROSH_BAD_IMAGE, "another format");
}

static void damage(void)
{
    static uint8_t busy[SIZE], mask[SIZE];
    static struct set set;
    static const unsigned adds[] = {0, 1, 60, CAP};
    uint64_t spares = 0, bits = 0, refused[256] = {0}, wanted;
    size_t k, i, j;

    lend(&image, SIZE);
    lend(&reports, NURBEROSH_REPORT_BYTES);
    for (k = 0; k < sizeof adds / sizeof *adds; k++) {
        make_busy(adds[k], busy);
        if (adds[k] == 60) {
            lengths();
            order(busy);
        }
        memcpy(image.at, busy, SIZE);
        fields(busy, &set);
        spare_bits(&set, mask);
        for (i = 0; i < 8 * (size_t)SIZE; i++) {
            uint8_t bit = (uint8_t)(1 << (7 - i % 8));
            /* where little or nothing is in use, one spare bit in 16 */
            if (!(mask[i / 8] & bit) || (adds[k] < 60 && i % 16 != 5))
                continue;
            image.at[i / 8] ^= bit;
            if (i % 32 == 5)
                all_must(NURBEROSH_BAD_IMAGE, "a spare bit is set");
            else
                must(WAKE, 0, 0, NURBEROSH_BAD_IMAGE, "a spare bit is set");
            image.at[i / 8] ^= bit;
            spares++;
        }
        if (adds[k] < 60)
            continue;
        /* each byte: every bit that is not spare turned, and two other numbers */
        for (i = 0; i < SIZE; i++) {
            for (j = 0; j < 10; j++) {
                uint8_t was = busy[i], is = j < 8 ? (uint8_t)(was ^ 1 << j) : (uint8_t)random_word();
                if (was == is || (j < 8 && mask[i] >> j & 1))
                    continue;
                image.at[i] = is;
                wanted = judged(image.at, SIZE);
                must(WAKE, 0, 0, wanted, "a byte is changed");
                refused[nurberosh_refusal(wanted)]++;
                bits++;
                image.at[i] = was;
            }
        }
    }
    printf("spare bits set: %" PRIu64 "; bytes changed: %" PRIu64 ", of which no image %" PRIu64 ", unsound %" PRIu64 ", sound %" PRIu64 "\n",
           spares, bits, refused[NURBEROSH_BAD_IMAGE], refused[NURBEROSH_UNSOUND], refused[NURBEROSH_ACCEPTED]);
    give_back(&image);
    give_back(&reports);
}

int main(int argc, char **argv)
{
    if (argc == 6 && !strcmp(argv[1], "calls")) {
        seed = strtoull(argv[2], NULL, 10) * 2 + 88172645463325253u;
        guard = (size_t)strtoull(argv[4], NULL, 10);
        calls(strtoull(argv[3], NULL, 10), argv[5]);
    } else if (argc == 4 && !strcmp(argv[1], "damage")) {
        seed = strtoull(argv[2], NULL, 10) * 2 + 88172645463325253u;
        guard = (size_t)strtoull(argv[3], NULL, 10);
        damage();
    } else {
        fputs("usage: check calls SEED COUNT GUARD FILE, or check damage SEED GUARD\n", stderr);
        return 2;
    }
    return 0;
}
