/* The register of page keys: which number each function gives, with every fault together with every other; that a refusal leaves all that was lent as
 * it was, and that a look-up sets both its numbers on every call; histories from an empty register and registers made by hand, every byte against rules
 * of this file's own; lent memory; stack. */
#include <signal.h>
#include <sys/mman.h>
#include <unistd.h>

#include "interface.h"

enum what { ADD, FIND, WHATS };
static const char *const names[WHATS] = {"register_add", "register_find"};

/* GIVEN is the wrapped key, ROOM the entry. RULE and FOLLOWED are always one byte and eight. */
enum lent { REGISTER, GIVEN, ROOM, RULE, FOLLOWED, LENTS };
struct asked {
    enum what what;
    uint16_t number, replaces;
    uint8_t *at[LENTS];
    size_t len[LENTS];
};

__attribute__((noinline)) static uint8_t ask_library(const struct asked *q)
{
    uint8_t *const *at = q->at;
    const size_t *len = q->len;
    if (q->what == ADD) return labyrinth_register_add(at[REGISTER], len[REGISTER], q->number, q->replaces, at[GIVEN], len[GIVEN]);
    return labyrinth_register_find(at[REGISTER], len[REGISTER], q->number, at[ROOM], len[ROOM], at[RULE], (uint64_t *)(void *)at[FOLLOWED]);
}

static uint8_t (*ask)(const struct asked *) = ask_library; /* or a stub in its place */

static int takes(enum what what, enum lent b) { return b == REGISTER || (what == ADD ? b == GIVEN : b > GIVEN); }

static int always_sets_it(enum lent b) { return b >= RULE; }

/* ---- the papers' numbers, and what is written. What a stub does wrong stands beside what it does otherwise. */

enum { ENTRY_LEN = 44, WRAPPED_LEN = 40, MOST_ENTRIES = 64, REGISTER_LEN = 8 + MOST_ENTRIES * ENTRY_LEN, LAST_NUMBER = 23 };

enum fault { HONEST,
             /* rules */
             NUMBER_BEHIND_REPLACED, FULL_FIRST, FULL_BEFORE_REPLACED, TAKES_ZERO, TAKES_PRESENT, TAKES_REPLACED, TAKES_ABSENT, NEEDS_A_ZERO, NAMED_LATER_ONLY, ONE_LESS,
             ONE_MORE, COUNT_BY_64, COUNT_BY_256, COUNT_BY_2_32, COUNT_SIGNED, PAST_COUNT, LOW_BYTES, LAST_ONE, FROM_START, LAST_LATER, ONE_STEP, NO_STEP, PAST_ZERO,
             FINDS_ZERO, OWN_RULE, RULES_EXCHANGED, COUNTS_ENTRIES, CURRENT_ONLY, SHORT_63, FOUR_LAST, LONGER, SHORTER, BY_2_32,
             /* bytes */
             LEAVES, KEEPS_OLD, ALTERS, TOUCHES, LIMITS_COUNT, SHORT_KEY, SHORT_ENTRY, NOT_COUNTED, IN_FRONT, OVER_THE_LAST, WRITES_ANYHOW, EXCHANGES,
             /* memory */
             UNDOES, READS_PAST, READS_BEFORE, WRITES, DEEP };
static struct { enum fault fault; enum what what; enum lent lent; uint8_t from, to; } faulty;

static unsigned two_at(const uint8_t *at) { return at[0] | (unsigned)at[1] << 8; }

static void put_two(uint8_t *at, unsigned number)
{
    at[0] = (uint8_t)number;
    at[1] = (uint8_t)(number >> 8);
}

static size_t place_of(int i) { return 8 + ENTRY_LEN * (size_t)i; }

static int entries_of(const uint8_t *reg, enum fault fault)
{
    uint64_t count = number_at(reg);
    if (fault == PAST_COUNT) return MOST_ENTRIES;
    if (count <= MOST_ENTRIES) return (int)count;
    if (fault == COUNT_BY_64) return (int)(count % 64);
    if (fault == COUNT_BY_256 && count % 256 < MOST_ENTRIES) return (int)(count % 256);
    if (fault == COUNT_BY_2_32 && count % far < MOST_ENTRIES) return (int)(count % far);
    if (fault == COUNT_SIGNED && count >> 63) return 0;
    return MOST_ENTRIES;
}

/* In how many entries a number stands, from a place on: as their own at 0, as the one that they replace at 2. */
static int times_there(const uint8_t *reg, int from, int part, unsigned number, enum fault fault)
{
    int times = 0;
    for (int i = from; i < entries_of(reg, fault); i++) {
        unsigned other = two_at(reg + place_of(i) + part);
        times += fault == LOW_BYTES ? other % 256 == number % 256 : other == number;
    }
    return times;
}

static int first_place(const uint8_t *reg, unsigned number, enum fault fault)
{
    for (int i = 0; i < entries_of(reg, fault); i++)
        if (two_at(reg + place_of(i)) == number) return i;
    return MOST_ENTRIES;
}

static uint8_t adding(const uint8_t *reg, unsigned number, unsigned replaces, enum fault fault)
{
    int entries = entries_of(reg, fault), from = fault == NAMED_LATER_ONLY ? first_place(reg, replaces, fault) + 1 : 0;
    int is_new = (number != 0 || fault == TAKES_ZERO) && (fault == TAKES_PRESENT || times_there(reg, 0, 0, number, fault) == 0);
    int is_free = (replaces == 0 && fault != NEEDS_A_ZERO) || ((fault == TAKES_ABSENT || times_there(reg, 0, 0, replaces, fault) > 0) &&
                                                              (fault == TAKES_REPLACED || times_there(reg, from, 2, replaces, fault) == 0));
    int full = fault == ONE_LESS ? entries >= MOST_ENTRIES - 1 : fault == ONE_MORE ? number_at(reg) != MOST_ENTRIES && entries == MOST_ENTRIES : entries == MOST_ENTRIES;
    if (fault == FULL_FIRST && full) return 23;
    if (fault == NUMBER_BEHIND_REPLACED && !is_free) return 22;
    if (!is_new) return 21;
    if (fault == FULL_BEFORE_REPLACED && full) return 23;
    if (!is_free) return 22;
    return full ? 23 : 0;
}

struct found { uint8_t number, rule; uint64_t followed; int place; };

/* The entries gone through once, in their order. */
static struct found finding(const uint8_t *reg, unsigned number, enum fault fault)
{
    struct found found = {22, 0, 0, -1};
    int entries = entries_of(reg, fault);
    for (int i = 0; i < entries; i++) {
        unsigned own = two_at(reg + place_of(i)), replaces = two_at(reg + place_of(i) + 2);
        unsigned reached = found.place < 0 ? 0 : two_at(reg + place_of(found.place));
        if (found.place < 0 || (fault == LAST_ONE && own == number)) {
            int same = fault == LOW_BYTES ? own % 256 == number % 256 : own == number;
            if (same && (number != 0 || fault == FINDS_ZERO)) found = (struct found){0, 0, 0, i};
            if (found.place == i && fault == FROM_START && two_at(reg + place_of(0) + 2) == own && own != 0) found.place = 0, found.followed++;
        } else if (replaces == reached && (reached != 0 || fault == PAST_ZERO) && fault != NO_STEP && !(fault == ONE_STEP && found.followed == 1)) {
            if (fault == LAST_LATER && times_there(reg, i + 1, 2, reached, fault) > 0) continue;
            found.place = i;
            found.followed++;
            if (fault == SHORT_63 && found.followed == 62) break;
        }
    }
    if (found.place < 0) return found;
    found.rule = found.followed > 0;
    if (fault == CURRENT_ONLY && found.rule) return (struct found){22, 0, 0, -1};
    if (fault == OWN_RULE) found.rule = two_at(reg + place_of(found.place) + 2) != 0;
    if (fault == RULES_EXCHANGED) found.rule = !found.rule;
    if (fault == COUNTS_ENTRIES) found.followed++;
    return found;
}

static int fits(const struct asked *q)
{
    return q->len[REGISTER] == REGISTER_LEN && (q->what == ADD ? q->len[GIVEN] == WRAPPED_LEN : q->len[ROOM] == ENTRY_LEN);
}

static uint8_t expected_number(const struct asked *q)
{
    if (!fits(q)) return 4;
    return q->what == ADD ? adding(q->at[REGISTER], q->number, q->replaces, HONEST) : finding(q->at[REGISTER], q->number, HONEST).number;
}

/* What a call that gives this number writes, to these buffers. */
static void write_to(const struct asked *q, uint8_t number, uint8_t *const *to)
{
    struct found found = {0, 0, 0, 0};
    if (q->what == ADD && number == 0) {
        uint64_t count = number_at(q->at[REGISTER]);
        uint8_t *entry = to[REGISTER] + place_of((int)count);
        put_two(entry, q->number);
        put_two(entry + 2, q->replaces);
        memcpy(entry + 4, q->at[GIVEN], WRAPPED_LEN);
        put_number(to[REGISTER], count + 1);
    }
    if (q->what == FIND && number == 0) {
        found = finding(q->at[REGISTER], q->number, HONEST);
        memcpy(to[ROOM], q->at[REGISTER] + place_of(found.place), ENTRY_LEN);
    }
    if (q->what == FIND) {
        *to[RULE] = found.rule;
        memcpy(to[FOLLOWED], &found.followed, sizeof found.followed);
    }
}

/* ---- one call, and all that it may leave changed */

enum { MARGIN = 64, MARK = 0xC3, MOST = 2 * REGISTER_LEN };
static uint8_t content[LENTS][MOST]; /* what a call is lent */
static _Alignas(64) uint8_t space[LENTS][MOST + 2 * MARGIN + 8];
static uint8_t wanted[LENTS][MOST + 2 * MARGIN + 8];
static long asked_calls, seen[WHATS][LAST_NUMBER + 1];

/* The call's buffers are in space, at all eight alignments in turn but for FOLLOWED, those of no bytes NULL. A register that was added to is the content
 * of the next call. The number. */
static uint8_t one_call(struct asked *q)
{
    uint8_t *to[LENTS];
    q->len[RULE] = 1;
    q->len[FOLLOWED] = 8;
    for (int b = ROOM; b < LENTS; b++) fill(content[b], q->len[b]);
    for (int b = 0; b < LENTS; b++) {
        size_t from = MARGIN + (b == FOLLOWED ? 0 : (size_t)(asked_calls + 3 * b) % 8);
        memset(space[b], MARK, q->len[b] + 2 * MARGIN + 8);
        memcpy(space[b] + from, content[b], q->len[b]);
        memcpy(wanted[b], space[b], q->len[b] + 2 * MARGIN + 8);
        q->at[b] = q->len[b] && takes(q->what, (enum lent)b) ? space[b] + from : NULL;
        to[b] = wanted[b] + from;
    }
    uint8_t expected = expected_number(q);
    write_to(q, expected, to);
    uint8_t number = ask(q);
    asked_calls++;
    seen[q->what][expected]++;
    if (number != expected)
        wrong("%s: number %d, replaced %d, lengths %zu %zu %zu: %d, not %d", names[q->what], q->number, q->replaces, q->len[REGISTER], q->len[GIVEN], q->len[ROOM], number,
              expected);
    for (int b = 0; b < LENTS; b++)
        if (memcmp(space[b], wanted[b], q->len[b] + 2 * MARGIN + 8) != 0)
            wrong("%s: number %d, replaced %d: %d, and buffer %d has not the bytes that it is to have", names[q->what], q->number, q->replaces, number, b);
    if (q->what == ADD && expected == 0) memcpy(content[REGISTER], q->at[REGISTER], REGISTER_LEN);
    return number;
}

static uint8_t add(unsigned number, unsigned replaces)
{
    struct asked q = {.what = ADD, .number = (uint16_t)number, .replaces = (uint16_t)replaces, .len = {REGISTER_LEN, WRAPPED_LEN}};
    fill(content[GIVEN], WRAPPED_LEN);
    return one_call(&q);
}

static uint8_t find(unsigned number)
{
    struct asked q = {.what = FIND, .number = (uint16_t)number, .len = {REGISTER_LEN, 0, ENTRY_LEN}};
    return one_call(&q);
}

/* ---- registers made by hand */

static void put_entry(uint8_t *reg, int place, unsigned number, unsigned replaces)
{
    put_two(reg + place_of(place), number);
    put_two(reg + place_of(place) + 2, replaces);
    fill(reg + place_of(place) + 4, WRAPPED_LEN);
}

/* Any entries, of numbers below a limit. */
static void any_entries(uint8_t *reg, uint64_t count, size_t limit)
{
    put_number(reg, count);
    for (int i = 0; i < MOST_ENTRIES; i++) put_entry(reg, i, (unsigned)below(limit), (unsigned)below(limit));
}

static const uint64_t counts[] = {0, 1, 2, 3, 62, 63, 64, 65, 66, 128, 255, 256, 257, ((uint64_t)1 << 32) - 1, (uint64_t)1 << 32, ((uint64_t)1 << 32) + 3, ((uint64_t)1 << 63) + 3,
                                  UINT64_MAX - 63, UINT64_MAX};

static void any_register(uint8_t *reg)
{
    static const size_t limits[] = {2, 3, 4, 6, 10, 30, 100, 65536};
    any_entries(reg, below(3) ? below(66) : counts[below(sizeof counts / sizeof *counts)], limits[below(8)]);
    if (below(4) == 0) /* chains, as calls leave them, but for the count */
        for (int i = 0; i < MOST_ENTRIES; i++) put_entry(reg, i, 1 + (unsigned)i, i && below(4) ? 1 + (unsigned)below((size_t)i) : 0);
}

/* A number that an entry has or names, or another. */
static unsigned some_number(const uint8_t *reg)
{
    size_t way = below(8);
    if (way == 0) return (unsigned)below(4);
    if (way == 1) return (unsigned)below(65536);
    return two_at(reg + place_of((int)below(MOST_ENTRIES)) + (way == 2 ? 2 : 0));
}

/* ---- every value of an argument together with every value of the others */

static const size_t register_lens[] = {REGISTER_LEN, REGISTER_LEN - 1, REGISTER_LEN + 1, 0, 8, ENTRY_LEN, 2 * REGISTER_LEN};
static const size_t wrapped_lens[] = {WRAPPED_LEN, WRAPPED_LEN - 1, WRAPPED_LEN + 1, 0, ENTRY_LEN, WRAPPED_LEN + 256};
static const size_t room_lens[] = {ENTRY_LEN, ENTRY_LEN - 1, ENTRY_LEN + 1, 0, WRAPPED_LEN, ENTRY_LEN + 256};
static const uint16_t added[] = {20, 0, 5, 6, 7, 9, 1040, UINT16_MAX}, replaced[] = {0, 5, 6, 7, 8, 9, 20, 1040, UINT16_MAX};
enum { STATES = 12 };

/* 5 is replaced by 6, 7 replaces none; in some 0 is present, and 9, which is absent, replaced by 8; past the count stand 20, and what replaces 6 and 7. */
static void put_state(uint8_t *reg, int state)
{
    static const uint64_t state_counts[STATES] = {0, 3, 5, 1, 62, 63, 64, 65, 66, ((uint64_t)1 << 32) + 3, ((uint64_t)1 << 63) + 5, UINT64_MAX};
    put_number(reg, state_counts[state]);
    for (int i = 0; i < MOST_ENTRIES; i++) put_entry(reg, i, 1000 + (unsigned)i, 0);
    put_entry(reg, 0, 5, 0);
    put_entry(reg, 1, 6, 5);
    put_entry(reg, 2, 7, 0);
    put_entry(reg, 3, 0, 0);
    put_entry(reg, 4, 8, 9);
    if (state == 1 || state == 2 || state == 4) {
        put_entry(reg, 62, 20, 6);
        put_entry(reg, 63, 30, 7);
    }
}

/* How many calls. */
static long all_faults(enum what what)
{
    long before = asked_calls;
    for (int state = 0; state < STATES; state++)
        for (int l = 0; l < COUNT(register_lens); l++)
            for (int m = 0; m < COUNT(wrapped_lens); m++)
                for (int i = 0; i < COUNT(added); i++)
                    for (int j = 0; j < (what == ADD ? COUNT(replaced) : 1) && !enough(); j++) {
                        struct asked q = {.what = what, .number = added[i], .replaces = replaced[j], .len = {register_lens[l]}};
                        q.len[what == ADD ? GIVEN : ROOM] = what == ADD ? wrapped_lens[m] : room_lens[m];
                        put_state(content[REGISTER], state);
                        fill(content[GIVEN], q.len[GIVEN]);
                        one_call(&q);
                    }
    return asked_calls - before;
}

/* ---- histories from an empty register, numbers from small ranges */

static void history(long calls)
{
    static const size_t limits[] = {3, 6, 20, 70, 90, 120, 300, 65536};
    size_t limit = limits[below(8)], fresh = 0;
    int mostly_adds = below(3) != 0, chained = below(2) != 0;
    memset(content[REGISTER], 0, REGISTER_LEN);
    while (calls-- > 0 && !enough()) {
        int entries = entries_of(content[REGISTER], HONEST);
        unsigned number = (unsigned)below(limit), last = entries ? two_at(content[REGISTER] + place_of(entries - 1)) : 0;
        unsigned present = entries ? two_at(content[REGISTER] + place_of((int)below((size_t)entries))) : 0;
        if (below(mostly_adds ? 5 : 2) == 0) find(below(2) ? number : present);
        else add(below(6) ? number : 1 + (unsigned)(fresh++ % 65535), chained && below(4) ? last : below(3) ? present : below(2) ? 0 : number);
    }
}

/* A chain of 64, each number of it looked up after every call; a 65th, and others. */
static void chain_of_64(int down)
{
    memset(content[REGISTER], 0, REGISTER_LEN);
    for (unsigned i = 0; i < MOST_ENTRIES && !enough(); i++) {
        unsigned number = down ? 65535 - i : 300 + 7 * i, before = down ? number + 1 : number - 7;
        if (add(number, i ? before : 0) != 0) wrong("register_add: place %u of a chain is refused", i);
        for (unsigned j = 0; j <= i; j++) find(down ? 65535 - j : 300 + 7 * j);
    }
    for (unsigned replaces = 0; replaces < 4; replaces++) add(1, replaces ? (down ? 65535 - 21 * replaces : 300 + 7 * 21 * replaces) : 0);
    add(down ? 65535 : 300, 0);
    find(1);
    find(0);
}

/* ---- registers made by hand: anything looked up and added */

static void hand_made(long registers)
{
    while (registers-- > 0 && !enough()) {
        any_register(content[REGISTER]);
        for (int i = 0; i < 6; i++) find(some_number(content[REGISTER]));
        for (int i = 0; i < 6; i++) add(some_number(content[REGISTER]), below(4) ? some_number(content[REGISTER]) : 0);
    }
}

/* What is worked out by hand: entries, a number, and what looking it up gives, the entry by its place. */
static void examples(void)
{
    static const struct { int count; uint16_t pairs[5][2], number; uint8_t returned, rule; uint64_t followed; int place; } looked_up[] = {
        {2, {{5, 7}, {7, 0}}, 7, 0, 0, 0, 1}, {2, {{5, 7}, {7, 0}}, 5, 0, 0, 0, 0}, {2, {{5, 6}, {6, 5}}, 5, 0, 1, 1, 1}, {2, {{5, 6}, {6, 5}}, 6, 0, 0, 0, 1},
        {5, {{5, 0}, {5, 0}, {6, 5}, {7, 5}, {8, 6}}, 5, 0, 1, 2, 4}, {4, {{5, 0}, {6, 5}, {6, 0}, {7, 6}}, 6, 0, 1, 1, 3},
        {3, {{5, 0}, {0, 5}, {6, 0}}, 5, 0, 1, 1, 1}, {3, {{5, 0}, {0, 5}, {6, 0}}, 0, 22, 0, 0, -1}, {2, {{5, 0}, {6, 5}}, 6, 0, 0, 0, 1},
        {1, {{5, 0}, {6, 5}}, 5, 0, 0, 0, 0}, {1, {{5, 0}, {6, 5}}, 6, 22, 0, 0, -1},
    };
    for (int i = 0; i < COUNT(looked_up); i++) {
        memset(content[REGISTER], 0, REGISTER_LEN);
        put_number(content[REGISTER], (uint64_t)looked_up[i].count);
        for (int j = 0; j < 5; j++) put_entry(content[REGISTER], j, looked_up[i].pairs[j][0], looked_up[i].pairs[j][1]);
        struct asked q = {.what = FIND, .number = looked_up[i].number, .len = {REGISTER_LEN, 0, ENTRY_LEN}};
        uint8_t number = one_call(&q);
        uint64_t followed;
        memcpy(&followed, q.at[FOLLOWED], sizeof followed);
        if (number != looked_up[i].returned || *q.at[RULE] != looked_up[i].rule || followed != looked_up[i].followed ||
            (number == 0 && memcmp(q.at[ROOM], content[REGISTER] + place_of(looked_up[i].place), ENTRY_LEN) != 0))
            wrong("register_find: not the example's answer, %d", i);
    }
    static const struct { int count; uint16_t pairs[2][2], number, replaces; uint8_t returned; } to_add[] = {
        {2, {{5, 7}, {7, 0}}, 8, 7, 22}, {2, {{5, 7}, {7, 0}}, 8, 5, 0}, {2, {{5, 0}, {6, 5}}, 5, 5, 21}, {2, {{5, 0}, {6, 5}}, 9, 9, 22}, {2, {{5, 0}, {6, 5}}, 7, 5, 22},
        {2, {{5, 0}, {6, 5}}, 7, 6, 0}, {0, {{5, 0}, {6, 5}}, 5, 0, 0}, {0, {{5, 0}, {6, 5}}, 7, 5, 22}, {1, {{5, 0}, {6, 5}}, 7, 5, 0}, {64, {{5, 0}, {6, 5}}, 5, 9, 21},
        {64, {{5, 0}, {6, 5}}, 7, 9, 22}, {64, {{5, 0}, {6, 5}}, 7, 6, 23}, {65, {{5, 0}, {6, 5}}, 7, 0, 23}, {63, {{5, 0}, {6, 5}}, 7, 0, 0},
    };
    for (int i = 0; i < COUNT(to_add); i++) {
        memset(content[REGISTER], 0, REGISTER_LEN);
        put_number(content[REGISTER], (uint64_t)to_add[i].count);
        for (int j = 0; j < 2; j++) put_entry(content[REGISTER], j, to_add[i].pairs[j][0], to_add[i].pairs[j][1]);
        if (add(to_add[i].number, to_add[i].replaces) != to_add[i].returned) wrong("register_add: not the example's number, %d", i);
    }
}

/* Each number looked up. */
static long every_number(void)
{
    long before = asked_calls;
    any_entries(content[REGISTER], UINT64_MAX, 65536);
    put_entry(content[REGISTER], 10, UINT16_MAX, 0);
    put_entry(content[REGISTER], 20, 256, UINT16_MAX);
    put_entry(content[REGISTER], 30, 0, 256);
    put_entry(content[REGISTER], 40, 1, 0);
    for (unsigned number = 0; number <= UINT16_MAX && !enough(); number++) find(number);
    return asked_calls - before;
}

/* ---- lengths of 2^32 and more: each that fits once bits are lost */

static long far_registers(void)
{
    uint8_t *far_off = mmap(NULL, far + MOST, PROT_READ | PROT_WRITE, MAP_PRIVATE | MAP_ANONYMOUS | MAP_NORESERVE, -1, 0);
    long calls = 0;
    if (far_off == MAP_FAILED) stop("mmap");
    for (int what = 0; what < WHATS; what++)
        for (int b = 0; b < RULE; b++) {
            struct asked q = {.what = (enum what)what, .number = what == ADD ? 20 : 5, .replaces = 7, .len = {REGISTER_LEN, WRAPPED_LEN, ENTRY_LEN, 1, 8}};
            uint64_t followed;
            if (!takes((enum what)what, (enum lent)b)) continue;
            put_state(space[REGISTER] + MARGIN, 2);
            for (int i = 0; i < LENTS; i++) q.at[i] = space[i] + MARGIN;
            for (int i = GIVEN; i < LENTS; i++) fill(q.at[i], q.len[i]);
            if (expected_number(&q) != 0) wrong("%s: a call that is to fit does not", names[what]);
            memcpy(far_off, q.at[b], q.len[b]);
            q.at[b] = far_off;
            q.len[b] += far;
            memcpy(wanted, space, sizeof wanted);
            uint8_t number = ask(&q);
            calls++;
            if (number != 4) wrong("%s: buffer %d too long by 2^32: %d, not 4", names[what], b, number);
            memcpy(&followed, q.at[FOLLOWED], sizeof followed);
            if (what == FIND && (*q.at[RULE] != 0 || followed != 0)) wrong("register_find: buffer %d too long by 2^32, and the rule or the followed ones aren't 0", b);
            for (int i = RULE; what == FIND && i < LENTS; i++) memcpy(space[i], wanted[i], sizeof wanted[i]);
            if (memcmp(space, wanted, sizeof wanted) != 0 || memcmp(far_off, space[b] + MARGIN, q.len[b] - far) != 0)
                wrong("%s: buffer %d too long by 2^32, and bytes written", names[what], b);
        }
    munmap(far_off, far + MOST);
    return calls;
}

/* ---- lent memory: each buffer flush against a page that cannot be touched, what is only read not to be written; nor, with a refusal, the register or the
 * entry, not while the call runs either */

enum { LENT_PAGES = 2 };
static size_t lent_size;
static uint8_t *lent[LENTS], *lent_wanted[LENTS];

static void lend_registers(void)
{
    size_t page = (size_t)sysconf(_SC_PAGESIZE);
    lent_size = LENT_PAGES * page;
    for (int b = 0; b < LENTS && !lent[b]; b++) {
        uint8_t *at = mmap(NULL, lent_size + 2 * page, PROT_NONE, MAP_PRIVATE | MAP_ANONYMOUS, -1, 0);
        if (at == MAP_FAILED || mprotect(at + page, lent_size, PROT_READ | PROT_WRITE) != 0) stop("mmap");
        lent[b] = at + page;
        lent_wanted[b] = malloc(lent_size);
        if (!lent_wanted[b]) stop("malloc");
    }
}

static void lent_case(int only, int place)
{
    enum what what = only < WHATS ? (enum what)only : (enum what)below(WHATS);
    struct asked q = {.what = what, .len = {REGISTER_LEN, WRAPPED_LEN, ENTRY_LEN, 1, 8}};
    uint8_t *to[LENTS];
    any_register(content[REGISTER]);
    if (below(3)) put_state(content[REGISTER], (int)below(STATES));
    q.number = what == ADD && below(2) ? (uint16_t)(200 + below(200)) : (uint16_t)some_number(content[REGISTER]);
    q.replaces = below(3) ? 0 : (uint16_t)some_number(content[REGISTER]);
    size_t odd = below(12); /* now and then a buffer of another length */
    if (odd < RULE) q.len[odd] = below(2) ? below(lent_size) : q.len[odd] + 1;
    for (int b = 0; b < LENTS; b++) {
        int at_start = place == PLACE_ANY ? (int)below(2) : place;
        q.at[b] = at_start ? lent[b] : lent[b] + lent_size - q.len[b];
        fill(lent[b], lent_size);
        if (b == REGISTER) memcpy(q.at[b], content[b], q.len[b] < MOST ? q.len[b] : MOST);
        memcpy(lent_wanted[b], lent[b], lent_size);
        to[b] = lent_wanted[b] + (q.at[b] - lent[b]);
        if (q.len[b] == 0 && below(2)) q.at[b] = NULL;
    }
    uint8_t expected = expected_number(&q);
    write_to(&q, expected, to);
    for (int b = 0; b < LENTS; b++) {
        int written = always_sets_it((enum lent)b) || (expected == 0 && b == (what == ADD ? REGISTER : ROOM));
        if (!written && mprotect(lent[b], lent_size, PROT_READ) != 0) stop("mprotect");
    }
    uint8_t number = ask(&q);
    for (int b = 0; b < LENTS; b++)
        if (mprotect(lent[b], lent_size, PROT_READ | PROT_WRITE) != 0) stop("mprotect");
    if (number != expected) wrong("%s: on lent memory %d, not %d", names[what], number, expected);
    for (int b = 0; b < LENTS; b++)
        if (memcmp(lent[b], lent_wanted[b], lent_size) != 0) wrong("%s: on lent memory number %d, and other bytes in buffer %d", names[what], number, b);
}

static int lent_registers(enum what only, uint64_t seed, long cases, int place) { return in_child(lent_case, only, seed, cases, place); }

/* ---- stack: by each function, on registers in every state, and on chains of 64 */

static struct asked there;

static void ask_there(void) { sink = ask(&there); }

static size_t registers_stack(size_t *each)
{
    static const uint16_t numbers[] = {20, 5, 7, 0, 1};
    size_t most = 0;
    for (int what = 0; what < WHATS; what++) {
        each[what] = 0;
        for (int state = 0; state <= STATES; state++)
            for (int i = 0; i < COUNT(numbers); i++)
                for (size_t more = 0; more < 2; more++) {
                    there = (struct asked){.what = (enum what)what, .number = numbers[i], .len = {REGISTER_LEN, WRAPPED_LEN + more, ENTRY_LEN + more, 1, 8}};
                    for (int b = 0; b < LENTS; b++) there.at[b] = space[b] + MARGIN;
                    if (state < STATES) put_state(there.at[REGISTER], state);
                    else any_entries(there.at[REGISTER], MOST_ENTRIES, 2); /* all of them 1 replacing 1, or 0 */
                    size_t used = stack_by(ask_there);
                    if (used > LABYRINTH_STACK) wrong("%s: %zu bytes of stack, and the header says %d", names[what], used, LABYRINTH_STACK);
                    if (used > each[what]) each[what] = used;
                }
        if (each[what] > most) most = each[what];
    }
    return most;
}

/* ---- stubs: each does what the library does, by this file's rules, but for one thing, and the trials must notice */

static uint8_t stub_number(const struct asked *q, enum fault fault)
{
    size_t lens[] = {q->len[REGISTER], q->len[q->what == ADD ? GIVEN : ROOM]}, right[] = {REGISTER_LEN, q->what == ADD ? WRAPPED_LEN : ENTRY_LEN};
    int of = faulty.lent != REGISTER;
    if (fault == LONGER && lens[of] > right[of] && lens[of] < far) lens[of] = right[of];
    if (fault == SHORTER && lens[of] == right[of] - 1) lens[of] = right[of];
    if (fault == BY_2_32) lens[of] %= far;
    if (lens[0] != right[0]) return 4;
    uint8_t number = q->what == ADD ? adding(q->at[REGISTER], q->number, q->replaces, fault) : finding(q->at[REGISTER], q->number, fault).number;
    return lens[1] != right[1] && (fault != FOUR_LAST || number == 0) ? 4 : number;
}

static void stub_writes(const struct asked *q, uint8_t number, enum fault fault)
{
    uint8_t *reg = q->at[REGISTER];
    struct found found = {0, 0, 0, 0};
    if (q->what == ADD && number == 0) {
        uint64_t count = number_at(reg);
        int place = fault == IN_FRONT ? 0 : count < MOST_ENTRIES ? (int)count : MOST_ENTRIES - 1;
        size_t given = q->len[GIVEN] < WRAPPED_LEN ? q->len[GIVEN] : WRAPPED_LEN;
        if (fault == IN_FRONT) memmove(reg + place_of(1), reg + place_of(0), ENTRY_LEN * (size_t)count);
        put_two(reg + place_of(place), q->number);
        put_two(reg + place_of(place) + 2, q->replaces);
        memcpy(reg + place_of(place) + 4, q->at[GIVEN], fault == SHORT_KEY ? WRAPPED_LEN - 1 : given);
        put_number(reg, count + (fault != NOT_COUNTED));
    }
    if (q->what == FIND && number == 0) {
        found = finding(reg, q->number, fault);
        memcpy(q->at[ROOM], reg + place_of(found.place), fault == SHORT_ENTRY ? ENTRY_LEN - 1 : q->len[ROOM] < ENTRY_LEN ? q->len[ROOM] : ENTRY_LEN);
    }
    if (q->what == FIND && !(fault == LEAVES && number != 0 && faulty.lent == RULE)) *q->at[RULE] = found.rule;
    if (q->what == FIND && !(fault == LEAVES && number != 0 && faulty.lent == FOLLOWED)) memcpy(q->at[FOLLOWED], &found.followed, sizeof found.followed);
    /* with a refusal */
    if (fault == LIMITS_COUNT && number >= 21 && number_at(reg) > MOST_ENTRIES) put_number(reg, MOST_ENTRIES);
    if (fault == OVER_THE_LAST && number == 23) put_two(reg + place_of(MOST_ENTRIES - 1), q->number);
    if (fault == WRITES_ANYHOW && number == 22 && q->what == FIND) memset(q->at[ROOM], 0, ENTRY_LEN);
}

static uint8_t ask_stub(const struct asked *q)
{
    static uint8_t copy[2][MOST];
    volatile uint8_t deep[LABYRINTH_STACK + 512];
    enum fault fault = faulty.what == q->what || faulty.what == WHATS ? faulty.fault : HONEST;
    enum lent out = q->what == ADD ? REGISTER : ROOM;
    volatile uint8_t *at = q->at[faulty.lent];
    size_t len = q->len[faulty.lent];
    int small = q->len[out] <= MOST && q->at[out];
    if (fault == DEEP)
        for (size_t i = 0; i < sizeof deep; i += 64) deep[i] = 1, sink = deep[i];
    if (fault == READS_PAST && at) sink = at[len];
    if (fault == READS_BEFORE && at) sink = at[-1];
    if (fault == WRITES && len && at) at[0] = at[0];
    if (small) memcpy(copy[0], q->at[out], q->len[out]);
    uint8_t number = stub_number(q, fault);
    stub_writes(q, number, fault);
    if (fault == KEEPS_OLD && number == 0) memcpy(q->at[out], copy[0], q->len[out]);
    if (fault == ALTERS && number == 0) q->at[out][below(q->len[out])] ^= (uint8_t)(1 << below(8));
    if (fault == TOUCHES && number != 0 && number == faulty.from && small) q->at[out][below(q->len[out])] ^= 1;
    if (fault == UNDOES && number != 0 && small) *(volatile uint8_t *)q->at[out] ^= 1, *(volatile uint8_t *)q->at[out] ^= 1;
    return fault == EXCHANGES && number == faulty.from ? faulty.to : number;
}

/* All trials, short; how many failures they found. */
static long tried_all(uint64_t seed)
{
    long before = failures, found;
    quiet = 1;
    failures = 0;
    chance = seed;
    examples();
    for (int what = 0; what < WHATS; what++)
        if (!failures && (faulty.what == WHATS || faulty.what == (enum what)what)) all_faults((enum what)what);
    for (int down = 0; down < 2 && !failures; down++) chain_of_64(down);
    if (!failures) hand_made(300);
    for (int i = 0; i < 20 && !failures; i++) history(200);
    if (!failures) far_registers();
    found = failures;
    failures = before;
    quiet = 0;
    return found;
}

static int noticed(int yes, const char *what)
{
    if (!yes) wrong("a stub passed for the library: %s %s %d", names[faulty.what < WHATS ? faulty.what : 0], what, faulty.from);
    return 1;
}

/* a bit for each number that a function gives */
static const int given_by[WHATS] = {0xE00011, 0x400011};

int try_register_stubs(uint64_t seed)
{
    enum { CASES = 800 };
    static const struct { enum fault fault; enum what what; enum lent lent; uint8_t from, to; const char *does; } stubs[] = {
        {NUMBER_BEHIND_REPLACED, ADD, REGISTER, 0, 0, "looks for 22 before 21"}, {FULL_FIRST, ADD, REGISTER, 0, 0, "looks for 23 before 21"},
        {FULL_BEFORE_REPLACED, ADD, REGISTER, 0, 0, "looks for 23 before 22"}, {TAKES_ZERO, ADD, REGISTER, 0, 0, "takes number 0"},
        {TAKES_PRESENT, ADD, REGISTER, 0, 0, "takes a number that is present"}, {TAKES_REPLACED, ADD, REGISTER, 0, 0, "replaces what is replaced already"},
        {TAKES_ABSENT, ADD, REGISTER, 0, 0, "replaces what is absent"}, {NEEDS_A_ZERO, ADD, REGISTER, 0, 0, "looks a replaced 0 up"},
        {NAMED_LATER_ONLY, ADD, REGISTER, 0, 0, "looks at later entries only for what is replaced already"}, {ONE_LESS, ADD, REGISTER, 0, 0, "takes 63"},
        {ONE_MORE, ADD, REGISTER, 0, 0, "takes 65"}, {COUNT_BY_64, ADD, REGISTER, 0, 0, "takes the count modulo 64"},
        {COUNT_BY_64, FIND, REGISTER, 0, 0, "takes the count modulo 64"}, {COUNT_BY_256, FIND, REGISTER, 0, 0, "takes the count modulo 256"},
        {COUNT_BY_2_32, ADD, REGISTER, 0, 0, "takes the count modulo 2^32"}, {COUNT_BY_2_32, FIND, REGISTER, 0, 0, "takes the count modulo 2^32"},
        {COUNT_SIGNED, ADD, REGISTER, 0, 0, "takes the count for negative"}, {COUNT_SIGNED, FIND, REGISTER, 0, 0, "takes the count for negative"},
        {PAST_COUNT, ADD, REGISTER, 0, 0, "sees entries past the count"}, {PAST_COUNT, FIND, REGISTER, 0, 0, "sees entries past the count"},
        {LOW_BYTES, ADD, REGISTER, 0, 0, "compares low bytes"}, {LOW_BYTES, FIND, REGISTER, 0, 0, "compares low bytes"},
        {LAST_ONE, FIND, REGISTER, 0, 0, "begins at the last with the number"}, {FROM_START, FIND, REGISTER, 0, 0, "goes back to the first entry"},
        {LAST_LATER, FIND, REGISTER, 0, 0, "follows the last later one"}, {ONE_STEP, FIND, REGISTER, 0, 0, "follows one"}, {NO_STEP, FIND, REGISTER, 0, 0, "follows none"},
        {PAST_ZERO, FIND, REGISTER, 0, 0, "goes past number 0"}, {FINDS_ZERO, FIND, REGISTER, 0, 0, "finds number 0"},
        {OWN_RULE, FIND, REGISTER, 0, 0, "gives the entry's own rule"}, {RULES_EXCHANGED, FIND, REGISTER, 0, 0, "exchanges the rules"},
        {COUNTS_ENTRIES, FIND, REGISTER, 0, 0, "counts entries"}, {CURRENT_ONLY, FIND, REGISTER, 0, 0, "finds current ones only"},
        {SHORT_63, FIND, REGISTER, 0, 0, "follows 62 at most"}, {FOUR_LAST, ADD, REGISTER, 0, 0, "looks for 4 last"}, {FOUR_LAST, FIND, REGISTER, 0, 0, "looks for 4 last"},
        {LONGER, ADD, REGISTER, 0, 0, "takes a longer register"}, {LONGER, ADD, GIVEN, 0, 0, "takes a longer wrapped key"}, {LONGER, FIND, REGISTER, 0, 0, "takes a longer register"},
        {LONGER, FIND, ROOM, 0, 0, "takes more room"}, {SHORTER, ADD, REGISTER, 0, 0, "takes a register of 2823 bytes"}, {SHORTER, ADD, GIVEN, 0, 0, "takes 39 bytes of wrapped key"},
        {SHORTER, FIND, REGISTER, 0, 0, "takes a register of 2823 bytes"}, {SHORTER, FIND, ROOM, 0, 0, "takes room for 43 bytes"},
        {BY_2_32, ADD, REGISTER, 0, 0, "takes the register's length modulo 2^32"}, {BY_2_32, ADD, GIVEN, 0, 0, "takes the wrapped key's length modulo 2^32"},
        {BY_2_32, FIND, REGISTER, 0, 0, "takes the register's length modulo 2^32"}, {BY_2_32, FIND, ROOM, 0, 0, "takes the room's length modulo 2^32"},
        {LEAVES, FIND, RULE, 0, 0, "leaves the rule as it was on refusal"}, {LEAVES, FIND, FOLLOWED, 0, 0, "leaves how many were followed on refusal"},
        {LIMITS_COUNT, ADD, REGISTER, 0, 0, "writes 64 for the count on refusal"}, {SHORT_KEY, ADD, REGISTER, 0, 0, "writes 39 bytes of the key"},
        {SHORT_ENTRY, FIND, REGISTER, 0, 0, "gives 43 bytes of the entry"}, {NOT_COUNTED, ADD, REGISTER, 0, 0, "leaves the count"}, {IN_FRONT, ADD, REGISTER, 0, 0, "adds in front"},
        {OVER_THE_LAST, ADD, REGISTER, 0, 0, "writes over the last with 23"}, {WRITES_ANYHOW, FIND, REGISTER, 0, 0, "clears the room with 22"},
        {EXCHANGES, ADD, REGISTER, 21, 22, "gives 22 for"}, {EXCHANGES, ADD, REGISTER, 22, 21, "gives 21 for"}, {EXCHANGES, ADD, REGISTER, 23, 22, "gives 22 for"},
        {EXCHANGES, ADD, REGISTER, 4, 21, "gives 21 for"}, {EXCHANGES, FIND, REGISTER, 22, 21, "gives 21 for"}, {EXCHANGES, FIND, REGISTER, 4, 22, "gives 22 for"},
        {EXCHANGES, FIND, REGISTER, 4, 5, "gives 5 for"}, {EXCHANGES, FIND, REGISTER, 22, 0, "gives 0 for"},
    };
    int trials = 0;
    ask = ask_stub;
    faulty.fault = HONEST;
    faulty.what = WHATS;
    trials += noticed(tried_all(seed) == 0, "does as the library does");
    for (int place = PLACE_END; place <= PLACE_ANY; place++) trials += noticed(lent_registers(WHATS, seed, CASES, place) == 0, "does as the library does on lent memory");
    for (size_t i = 0; i < sizeof stubs / sizeof *stubs; i++) {
        faulty.fault = stubs[i].fault;
        faulty.what = stubs[i].what;
        faulty.lent = stubs[i].lent;
        faulty.from = stubs[i].from;
        faulty.to = stubs[i].to;
        trials += noticed(tried_all(seed) > 0, stubs[i].does);
    }
    for (int what = 0; what < WHATS; what++) {
        faulty.what = (enum what)what;
        faulty.fault = KEEPS_OLD;
        trials += noticed(tried_all(seed) > 0, "writes nothing");
        faulty.fault = ALTERS;
        trials += noticed(tried_all(seed) > 0, "alters a bit");
        faulty.fault = TOUCHES;
        for (faulty.from = 1; faulty.from <= LAST_NUMBER; faulty.from++)
            if (given_by[what] >> faulty.from & 1) trials += noticed(tried_all(seed) > 0, "touches what it is to keep, with the number");
        for (int b = 0; b < LENTS; b++) {
            if (!takes(faulty.what, (enum lent)b)) continue;
            faulty.lent = (enum lent)b;
            faulty.fault = READS_PAST;
            trials += noticed(lent_registers(faulty.what, seed, CASES, PLACE_END) == SIGSEGV, "reads one byte past");
            faulty.fault = READS_BEFORE;
            trials += noticed(lent_registers(faulty.what, seed, CASES, PLACE_START) == SIGSEGV, "reads one byte before");
            faulty.fault = WRITES;
            if (!always_sets_it(faulty.lent)) trials += noticed(lent_registers(faulty.what, seed, CASES, PLACE_ANY) == SIGSEGV, "writes to what is only read");
        }
        faulty.fault = UNDOES;
        trials += noticed(lent_registers(faulty.what, seed, CASES, PLACE_ANY) == SIGSEGV, "writes to what it is to keep, and takes it back, on refusal");
    }
    size_t each[WHATS];
    long before = failures;
    faulty.fault = DEEP;
    faulty.what = WHATS;
    quiet = 1;
    size_t most = registers_stack(each);
    quiet = 0;
    failures = before;
    trials += noticed(most > LABYRINTH_STACK, "uses more stack");
    ask = ask_library;
    return trials;
}

/* All of it; the number of calls, and the most stack. */
long registers(uint64_t seed, int large, size_t *most)
{
    enum { ADD_FAULTS = STATES * 7 * 6 * 8 * 9, FIND_FAULTS = STATES * 7 * 6 * 8, NUMBERS = 65536 };
    size_t each[WHATS];
    asked_calls = 0;
    chance = seed;
    memset(seen, 0, sizeof seen);
    lend_registers();
    examples();
    long faults[] = {all_faults(ADD), all_faults(FIND)}, looked_up = every_number();
    if (faults[ADD] != ADD_FAULTS || faults[FIND] != FIND_FAULTS || looked_up != NUMBERS)
        wrong("%ld and %ld calls with faults, %ld numbers, not %d, %d, %d", faults[ADD], faults[FIND], looked_up, ADD_FAULTS, FIND_FAULTS, NUMBERS);
    for (int down = 0; down < 2; down++) chain_of_64(down);
    for (int i = 0; i < (large ? 5000 : 200); i++) history(250);
    hand_made(large ? 200000 : 4000);
    for (int what = 0; what < WHATS; what++)
        for (int number = 0; number <= LAST_NUMBER; number++)
            if ((given_by[what] >> number & 1) != (seen[what][number] > 0)) wrong("%s: %ld calls with the number %d", names[what], seen[what][number], number);
    asked_calls += far_registers();
    *most = registers_stack(each);
    for (int what = 0; large && what < WHATS; what++) printf("c_interface: %s: %zu bytes of stack\n", names[what], each[what]);
    long cases = large ? 30000 : 2000;
    for (int place = PLACE_END; place <= PLACE_ANY; place++) {
        int died = lent_registers(WHATS, seed + (uint64_t)place, cases, place);
        if (died != 0) wrong("registers on lent memory, place %d: %s", place, died > 0 ? strsignal(died) : "see above");
        asked_calls += cases;
    }
    return asked_calls;
}
