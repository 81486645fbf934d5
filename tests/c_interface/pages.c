/* Page records: which number each function gives, with every pair of wrong arguments and with any number of them; that a refusal leaves all that
 * was lent as it was, and the catalogue sets all that it shows; records byte for byte against CBC and tags under the same keys; every cut, every bit and
 * every other command; round trips over two stores; lent memory; stack. */
#include <signal.h>
#include <sys/mman.h>
#include <unistd.h>

#include "interface.h"

enum what { WRITE, LIST, OPEN, WHATS };
static const char *const names[WHATS] = {"page_write", "page_catalogue", "page_open"};

/* BEGIN is the start block; TEXT the body, or the record that is read; OUT the destination, or what the catalogue shows. */
enum lent { STORE, SEALING, TAGGING, TITLE, BEGIN, TEXT, OUT, LENTS };
struct shown { uint64_t blocks, title_at; uint32_t number, day; };
struct asked {
    enum what what;
    uint32_t number, day;
    uint8_t *at[LENTS];
    size_t len[LENTS];
};

__attribute__((noinline)) static uint8_t ask_library(const struct asked *q)
{
    uint8_t *const *at = q->at;
    const size_t *len = q->len;
#define KEYED at[STORE], len[STORE], at[SEALING], len[SEALING], at[TAGGING], len[TAGGING]
    if (q->what == WRITE)
        return labyrinth_page_write(KEYED, q->number, q->day, at[TITLE], len[TITLE], at[BEGIN], len[BEGIN], at[TEXT], len[TEXT], at[OUT], len[OUT]);
    if (q->what == OPEN) return labyrinth_page_open(KEYED, at[TEXT], len[TEXT], at[OUT], len[OUT]);
    struct shown *shown = (struct shown *)(void *)at[OUT];
    return labyrinth_page_catalogue(at[TEXT], len[TEXT], &shown->number, &shown->day, &shown->blocks, &shown->title_at);
}

static uint8_t (*ask)(const struct asked *) = ask_library; /* or a stub in its place */

static int takes(enum what what, enum lent b) { return b >= TEXT || (what == WRITE || (what == OPEN && b <= TAGGING)); }

/* ---- the papers' numbers, and what is written */

enum { TITLE_LEN = 32, BLOCK_LEN = 16, TAG_LEN = 16, MOST_BLOCKS = 4096, HEAD = 60, LAST_NUMBER = 20 };

static size_t record_length(size_t blocks) { return HEAD + 17 * blocks + 1 + TAG_LEN; }

static uint8_t key_number(const uint8_t *store, const uint8_t *working)
{
    uint64_t n = number_at(working);
    if (n != 1 && n != 2 && n != 4) return 1;
    if (!is_loaded(store, number_at(working + 8))) return 15;
    return n != 1 ? 12 : 0;
}

/* How many blocks a record has, command by command; none is -1. */
static long blocks_of(const uint8_t *at, size_t len)
{
    static const struct { uint8_t command; size_t width; } head[] = {{0x10, 4}, {0x11, 4}, {0x12, TITLE_LEN}, {0x13, BLOCK_LEN}};
    long blocks = 0;
    for (int i = 0; i < COUNT(head); i++) {
        if (len <= head[i].width || at[0] != head[i].command) return -1;
        at += 1 + head[i].width;
        len -= 1 + head[i].width;
    }
    for (; blocks < MOST_BLOCKS && len > BLOCK_LEN && at[0] == 0x15; blocks++, len -= 1 + BLOCK_LEN) at += 1 + BLOCK_LEN;
    return len == 1 + TAG_LEN && at[0] == 0x1F ? blocks : -1;
}

/* Whether a record's tag is the one of all bytes before 1F. */
static int is_tagged(const uint8_t *store, const uint8_t *tagging, const uint8_t *record, size_t len)
{
    uint8_t tag[TAG_LEN];
    if (labyrinth_key_cmac(store, STORE_LEN, tagging, WORKING_LEN, record, len - 1 - TAG_LEN, tag, TAG_LEN) != 0) wrong("a tag is refused");
    return memcmp(tag, record + len - TAG_LEN, TAG_LEN) == 0;
}

static uint8_t expected_number(const struct asked *q)
{
    const size_t *len = q->len;
    long blocks = q->what == WRITE ? 0 : blocks_of(q->at[TEXT], len[TEXT]);
    if (q->what == LIST) return blocks < 0 ? 19 : 0;
    if (len[STORE] != STORE_LEN || len[SEALING] != WORKING_LEN || len[TAGGING] != WORKING_LEN) return 4;
    uint8_t number = key_number(q->at[STORE], q->at[SEALING]);
    if (number == 0) number = key_number(q->at[STORE], q->at[TAGGING]);
    if (number != 0) return number;
    if (q->what == OPEN) {
        if (blocks < 0) return 19;
        if (!is_tagged(q->at[STORE], q->at[TAGGING], q->at[TEXT], len[TEXT])) return 20;
        return len[OUT] != BLOCK_LEN * (size_t)blocks ? 5 : 0;
    }
    if (len[TITLE] != TITLE_LEN) return 19;
    if (len[BEGIN] != BLOCK_LEN) return 6;
    if (len[TEXT] % BLOCK_LEN != 0 || len[TEXT] > BLOCK_LEN * MOST_BLOCKS) return 4;
    return len[OUT] != record_length(len[TEXT] / BLOCK_LEN) ? 5 : 0;
}

enum { MOST = 70016 }; /* more than a record of 4,097 blocks */
static uint8_t run_of[MOST], right[MOST];

static void put_four(uint8_t *at, uint32_t number)
{
    for (int i = 0; i < 4; i++) at[i] = (uint8_t)(number >> 8 * i);
}

static uint32_t four_at(const uint8_t *at) { return at[0] | (uint32_t)at[1] << 8 | (uint32_t)at[2] << 16 | (uint32_t)at[3] << 24; }

/* The record that a call is to write, of CBC's sealed run and CMAC under the same keys. */
static void lay_out(const struct asked *q, uint8_t *record)
{
    size_t blocks = q->len[TEXT] / BLOCK_LEN;
    uint8_t *end = record + HEAD;
    record[0] = 0x10;
    put_four(record + 1, q->number);
    record[5] = 0x11;
    put_four(record + 6, q->day);
    record[10] = 0x12;
    memcpy(record + 11, q->at[TITLE], TITLE_LEN);
    record[43] = 0x13;
    memcpy(record + 44, q->at[BEGIN], BLOCK_LEN);
    if (labyrinth_key_cbc_seal(q->at[STORE], STORE_LEN, q->at[SEALING], WORKING_LEN, q->at[BEGIN], BLOCK_LEN, q->at[TEXT], q->len[TEXT], run_of, q->len[TEXT]) != 0)
        wrong("a body is refused");
    for (size_t i = 0; i < blocks; i++) {
        *end++ = 0x15;
        memcpy(end, run_of + BLOCK_LEN * i, BLOCK_LEN);
        end += BLOCK_LEN;
    }
    *end = 0x1F;
    if (labyrinth_key_cmac(q->at[STORE], STORE_LEN, q->at[TAGGING], WORKING_LEN, record, (size_t)(end - record), end + 1, TAG_LEN) != 0) wrong("a tag is refused");
}

/* The body that a call is to open, by CBC. */
static void body_of(const struct asked *q, uint8_t *body)
{
    size_t blocks = q->len[OUT] / BLOCK_LEN;
    for (size_t i = 0; i < blocks; i++) memcpy(run_of + BLOCK_LEN * i, q->at[TEXT] + HEAD + 17 * i + 1, BLOCK_LEN);
    if (labyrinth_key_cbc_open(q->at[STORE], STORE_LEN, q->at[SEALING], WORKING_LEN, q->at[TEXT] + 44, BLOCK_LEN, run_of, q->len[OUT], body, q->len[OUT]) != 0)
        wrong("a sealed body is refused");
}

/* Whether a call with this number wrote what it is to write; the catalogue shows zeros with 19. */
static int written_right(const struct asked *q, uint8_t number)
{
    if (q->what == LIST) {
        const struct shown *shown = (const struct shown *)(const void *)q->at[OUT];
        const uint8_t *record = q->at[TEXT];
        if (number != 0) return shown->number == 0 && shown->day == 0 && shown->blocks == 0 && shown->title_at == 0;
        return shown->number == four_at(record + 1) && shown->day == four_at(record + 6) && shown->blocks == (uint64_t)blocks_of(record, q->len[TEXT]) &&
               shown->title_at == 11;
    }
    if (number != 0) return 1;
    if (q->what == WRITE) lay_out(q, right);
    if (q->what == OPEN) body_of(q, right);
    return q->len[OUT] == 0 || memcmp(q->at[OUT], right, q->len[OUT]) == 0;
}

/* ---- one call, and all that it may leave changed */

enum { MARGIN = 64 };
static _Alignas(64) uint8_t space[LENTS][MOST + 2 * MARGIN];
static uint8_t kept[LENTS][MOST + 2 * MARGIN];
static long asked_calls, seen[WHATS][LAST_NUMBER + 1];

/* The call's buffers are in space, those of no bytes NULL. What stands in OUT is any. The number. */
static uint8_t one_call(struct asked *q)
{
    if (q->what == LIST) q->len[OUT] = sizeof(struct shown);
    fill(space[OUT], q->len[OUT] + 2 * MARGIN);
    for (int b = 0; b < LENTS; b++) {
        q->at[b] = q->len[b] && takes(q->what, (enum lent)b) ? space[b] + MARGIN : NULL;
        memcpy(kept[b], space[b], q->len[b] + 2 * MARGIN);
    }
    uint8_t expected = expected_number(q), number = ask(q);
    asked_calls++;
    seen[q->what][expected]++;
    if (number != expected)
        wrong("%s: lengths %zu %zu %zu %zu %zu %zu %zu: %d, not %d", names[q->what], q->len[STORE], q->len[SEALING], q->len[TAGGING], q->len[TITLE], q->len[BEGIN],
              q->len[TEXT], q->len[OUT], number, expected);
    for (int b = 0; b < LENTS; b++) {
        size_t to = MARGIN + (b == OUT && (expected == 0 || q->what == LIST) ? q->len[b] : 0);
        if (memcmp(space[b], kept[b], MARGIN) != 0 || memcmp(space[b] + to, kept[b] + to, q->len[b] + 2 * MARGIN - to) != 0)
            wrong("%s: number %d, and bytes written to buffer %d", names[q->what], number, b);
    }
    if (number == expected && !written_right(q, number)) wrong("%s: number %d, and other bytes than it is to write", names[q->what], number);
    return number;
}

/* ---- records and keys made by hand */

static void put_working(uint8_t *working, uint64_t n, uint64_t set)
{
    fill(working, WORKING_LEN);
    put_number(working, n);
    put_number(working + 8, set);
}

/* Sets 1 to 3 good. */
static void good_store(uint8_t *store)
{
    by_hand(store, below(9), below(9));
    for (int i = 1; i < 4; i++) {
        shuffle(store + SET * i);
        any_row(store + SET * i + 256);
    }
}

/* A store and two keys in space, and a call that writes so many blocks. */
static void to_write(struct asked *q, size_t blocks, uint64_t sealing, uint64_t tagging)
{
    *q = (struct asked){.what = WRITE, .number = (uint32_t)next(), .day = (uint32_t)next(),
                        .len = {STORE_LEN, WORKING_LEN, WORKING_LEN, TITLE_LEN, BLOCK_LEN, BLOCK_LEN * blocks, record_length(blocks)}};
    put_working(space[SEALING] + MARGIN, 1, sealing);
    put_working(space[TAGGING] + MARGIN, 1, tagging);
    for (int b = TITLE; b <= TEXT; b++) fill(space[b] + MARGIN, q->len[b]);
}

/* What was written, or laid out, is to be read. */
static void to_read(struct asked *q, enum what what, const uint8_t *record, size_t len, size_t body)
{
    q->what = what;
    memcpy(space[TEXT] + MARGIN, record, len);
    q->len[TITLE] = q->len[BEGIN] = 0;
    q->len[TEXT] = len;
    q->len[OUT] = what == LIST ? sizeof(struct shown) : body;
}

static uint8_t record[MOST];

/* A record of so many blocks by a store of good sets, laid out in `record`; the call that would write it. */
static void some_record(struct asked *q, size_t blocks, uint64_t sealing, uint64_t tagging)
{
    good_store(space[STORE] + MARGIN);
    to_write(q, blocks, sealing, tagging);
    for (int b = 0; b < LENTS; b++) q->at[b] = space[b] + MARGIN;
    lay_out(q, record);
}

/* ---- every pair of wrong arguments, and any number of them */

/* The argument, and its values, of which the first are right. Those of TEXT and OUT are made below. */
enum argument { A_STORE, A_SEALING, A_TAGGING, A_SEALING_N, A_SEALING_SET, A_TAGGING_N, A_TAGGING_SET, A_TITLE, A_START, A_TEXT, A_OUT, ARGUMENTS };
static const struct { int count; uint64_t values[9]; } choices[ARGUMENTS] = {
    {5, {STORE_LEN, STORE_LEN - 1, STORE_LEN + 1, 0, WORKING_LEN}},
    {5, {WORKING_LEN, WORKING_LEN - 1, WORKING_LEN + 1, 0, STORE_LEN}},
    {5, {WORKING_LEN, WORKING_LEN - 1, WORKING_LEN + 1, 0, STORE_LEN}},
    {8, {1, 0, 2, 3, 4, 5, ((uint64_t)1 << 32) + 1, UINT64_MAX}},
    {9, {0, 1, 2, 3, 4, 256, 257, ((uint64_t)1 << 32) + 1, UINT64_MAX}},
    {8, {1, 0, 2, 3, 4, 5, ((uint64_t)1 << 32) + 1, UINT64_MAX}},
    {9, {1, 0, 2, 3, 4, 256, 257, ((uint64_t)1 << 32) + 1, UINT64_MAX}},
    {5, {TITLE_LEN, TITLE_LEN - 1, TITLE_LEN + 1, 0, 2 * TITLE_LEN}},
    {5, {BLOCK_LEN, BLOCK_LEN - 1, BLOCK_LEN + 1, 0, 2 * BLOCK_LEN}},
    {9, {0, 1, 2, 3, 4, 5, 6, 7, 8}},
    {5, {0, 1, 2, 3, 4}},
};

/* The text: a body, or a record in some state; how many blocks it is meant to have. */
static size_t put_text(struct asked *q, int way)
{
    static const size_t bodies[] = {32, 0, 16, 31, 33, 1, BLOCK_LEN * MOST_BLOCKS, BLOCK_LEN * MOST_BLOCKS + 1, BLOCK_LEN * (MOST_BLOCKS + 1)};
    if (q->what == WRITE) {
        q->len[TEXT] = bodies[way];
        fill(space[TEXT] + MARGIN, q->len[TEXT]);
        return bodies[way] / BLOCK_LEN;
    }
    /* right; none; no block; the tag, a sealed byte, the title altered; a command altered; cut; longer */
    size_t blocks = way == 2 ? 0 : 2, len = record_length(blocks);
    struct asked as_good = {.number = (uint32_t)next(), .day = (uint32_t)next(), .len = {STORE_LEN, WORKING_LEN, WORKING_LEN, TITLE_LEN, BLOCK_LEN, BLOCK_LEN * blocks}};
    static uint8_t sealing[WORKING_LEN], tagging[WORKING_LEN];
    memcpy(sealing, space[SEALING] + MARGIN, WORKING_LEN);
    memcpy(tagging, space[TAGGING] + MARGIN, WORKING_LEN);
    if (key_number(space[STORE] + MARGIN, sealing) != 0) put_working(sealing, 1, 0);
    if (key_number(space[STORE] + MARGIN, tagging) != 0) put_working(tagging, 1, 0);
    for (int b = 0; b < LENTS; b++) as_good.at[b] = space[b] + MARGIN;
    as_good.at[SEALING] = sealing;
    as_good.at[TAGGING] = tagging;
    fill(space[TITLE] + MARGIN, TITLE_LEN);
    fill(space[BEGIN] + MARGIN, BLOCK_LEN);
    fill(space[TEXT] + MARGIN, BLOCK_LEN * blocks);
    lay_out(&as_good, record);
    if (way == 3) record[len - 1 - below(TAG_LEN)] ^= (uint8_t)(1 << below(8));
    if (way == 4) record[HEAD + 1 + 17 * below(2) + below(BLOCK_LEN)] ^= (uint8_t)(1 << below(8));
    if (way == 5) record[11 + below(TITLE_LEN)] ^= (uint8_t)(1 << below(8));
    if (way == 6) record[HEAD + 17 * below(3)] ^= (uint8_t)(1 << below(8));
    if (way == 7) len -= 1 + below(17);
    if (way == 8) len += 1 + below(17);
    if (way == 1) len = 0;
    q->len[TEXT] = len;
    memcpy(space[TEXT] + MARGIN, record, len);
    return blocks;
}

static void by_choices(enum what what, const int *choice)
{
    struct asked q = {.what = what, .number = (uint32_t)next(), .day = (uint32_t)next()};
    uint64_t value[ARGUMENTS];
    for (int a = 0; a < ARGUMENTS; a++) value[a] = choices[a].values[choice[a]];
    by_hand(space[STORE] + MARGIN, below(6), below(6));
    put_working(space[SEALING] + MARGIN, value[A_SEALING_N], value[A_SEALING_SET]);
    put_working(space[TAGGING] + MARGIN, value[A_TAGGING_N], value[A_TAGGING_SET]);
    size_t blocks = put_text(&q, choice[A_TEXT]), fits = what == WRITE ? record_length(blocks) : BLOCK_LEN * blocks;
    for (int b = STORE; b <= TAGGING; b++) q.len[b] = (size_t)value[b];
    if (what == WRITE) {
        q.len[TITLE] = (size_t)value[A_TITLE];
        q.len[BEGIN] = (size_t)value[A_START];
        fill(space[TITLE] + MARGIN, q.len[TITLE]);
        fill(space[BEGIN] + MARGIN, q.len[BEGIN]);
    }
    size_t outs[] = {fits, fits + 1, fits ? fits - 1 : 1, fits ? 0 : 16, fits + 17};
    q.len[OUT] = outs[choice[A_OUT]];
    one_call(&q);
}

static int counts_for(enum what what, int a) { return what == WRITE || (a != A_TITLE && a != A_START); }

/* How many calls. */
static long wrong_pairs(enum what what)
{
    long before = asked_calls;
    for (int a = 0; a < ARGUMENTS; a++)
        for (int b = a + 1; b < ARGUMENTS; b++)
            for (int i = 0; i < choices[a].count; i++)
                for (int j = 0; j < choices[b].count && counts_for(what, a) && counts_for(what, b) && !enough(); j++) {
                    int choice[ARGUMENTS] = {0};
                    choice[a] = i;
                    choice[b] = j;
                    by_choices(what, choice);
                }
    return asked_calls - before;
}

static void any_arguments(enum what what, long count)
{
    while (count-- > 0 && !enough()) {
        int choice[ARGUMENTS];
        for (int a = 0; a < ARGUMENTS; a++) choice[a] = below(8) ? 0 : (int)below((size_t)choices[a].count);
        if (choice[A_TEXT] >= 6 && what == WRITE && below(8)) choice[A_TEXT] = 0; /* long ones less often */
        by_choices(what, choice);
    }
}

/* ---- what the catalogue takes: every cut, every value of each command, other bytes, other lengths; and what opening says to each bit */

static void list(const uint8_t *at, size_t len)
{
    struct asked q = {.what = LIST};
    to_read(&q, LIST, at, len, 0);
    one_call(&q);
}

static int is_command(size_t at) { return at == 0 || at == 5 || at == 10 || at == 43 || (at >= HEAD && (at - HEAD) % 17 == 0); }

static long listings(size_t most)
{
    static uint8_t altered[MOST];
    long before = asked_calls;
    struct asked q;
    for (size_t blocks = 0; blocks <= most; blocks++) {
        some_record(&q, blocks, 0, 1);
        size_t len = record_length(blocks);
        /* hidden bytes that look like commands */
        for (int as = 0; as < 3; as++) {
            static const uint8_t looks[] = {0x15, 0x1F, 0x10};
            for (size_t i = 11; i < len; i++)
                if (!is_command(i)) record[i] = looks[as];
            list(record, len);
        }
        for (size_t cut = 0; cut <= len && !enough(); cut++) list(record, cut);
        memcpy(altered, record, len);
        for (size_t more = 1; more <= 40 && !enough(); more++) {
            memset(altered + len, more % 2 ? 0x15 : 0x1F, more);
            list(altered, len + more);
        }
        for (size_t at = 0; at < len; at++)
            for (int value = 0; value < 256 && !enough(); value += is_command(at) ? 1 : 17) {
                memcpy(altered, record, len);
                altered[at] = (uint8_t)value;
                list(altered, len);
            }
        /* two command bytes exchanged, and a 15 in the place of the 1F and the other way round */
        memcpy(altered, record, len);
        altered[0] = 0x11, altered[5] = 0x10;
        list(altered, len);
        memcpy(altered, record, len);
        altered[10] = 0x13, altered[43] = 0x12;
        list(altered, len);
    }
    for (size_t blocks = MOST_BLOCKS - 1; blocks <= MOST_BLOCKS + 1; blocks++) {
        memset(record, 0x15, record_length(blocks));
        record[0] = 0x10, record[5] = 0x11, record[10] = 0x12, record[43] = 0x13, record[HEAD + 17 * blocks] = 0x1F;
        list(record, record_length(blocks));
        list(record, record_length(blocks) - 17);
        record[HEAD + 17 * (blocks - 1)] = 0x1F;
        list(record, record_length(blocks));
    }
    return asked_calls - before;
}

/* Every bit of records of few blocks: 19 or 20, at any length of the destination. */
static long record_bits(size_t most)
{
    long before = asked_calls;
    struct asked q;
    for (size_t blocks = 0; blocks <= most; blocks++) {
        some_record(&q, blocks, blocks % 4, (blocks + 1) % 4);
        for (size_t bit = 0; bit < 8 * record_length(blocks) && !enough(); bit++) {
            record[bit / 8] ^= (uint8_t)(1 << bit % 8);
            to_read(&q, OPEN, record, record_length(blocks), BLOCK_LEN * blocks + (bit % 3 == 1 ? 1 : 0));
            if (one_call(&q) != (is_command(bit / 8) ? 19 : 20)) wrong("page_open: bit %zu of a record of %zu blocks altered, and it isn't told", bit, blocks);
            record[bit / 8] ^= (uint8_t)(1 << bit % 8);
        }
    }
    return asked_calls - before;
}

/* ---- round trips: written, listed, opened with another store that has the two sets alike; other keys; a set loaded anew */

static void trip(size_t blocks, uint64_t sealing, uint64_t tagging)
{
    static uint8_t body[MOST], head[8 + TITLE_LEN], working[2][WORKING_LEN], other[STORE_LEN], kept_store[STORE_LEN];
    struct asked q;
    size_t len = record_length(blocks);
    good_store(space[STORE] + MARGIN);
    memcpy(kept_store, space[STORE] + MARGIN, STORE_LEN);
    to_write(&q, blocks, sealing, tagging);
    memcpy(body, space[TEXT] + MARGIN, BLOCK_LEN * blocks);
    memcpy(working[0], space[SEALING] + MARGIN, WORKING_LEN);
    memcpy(working[1], space[TAGGING] + MARGIN, WORKING_LEN);
    put_four(head, q.number);
    put_four(head + 4, q.day);
    memcpy(head + 8, space[TITLE] + MARGIN, TITLE_LEN);
    if (one_call(&q) != 0) return;
    memcpy(record, space[OUT] + MARGIN, len);
    to_read(&q, LIST, record, len, 0);
    one_call(&q);
    const struct shown *shown = (const struct shown *)(const void *)(space[OUT] + MARGIN);
    if (shown->number != four_at(head) || shown->day != four_at(head + 4) || shown->blocks != blocks || shown->title_at > len - TITLE_LEN ||
        memcmp(record + shown->title_at, head + 8, TITLE_LEN) != 0)
        wrong("page_catalogue: not what was written, %zu blocks", blocks);
    good_store(other);
    if (sealing) memcpy(other + SET * sealing, kept_store + SET * sealing, SET);
    if (tagging) memcpy(other + SET * tagging, kept_store + SET * tagging, SET);
    memcpy(space[STORE] + MARGIN, other, STORE_LEN);
    to_read(&q, OPEN, record, len, BLOCK_LEN * blocks);
    if (one_call(&q) != 0 || memcmp(space[OUT] + MARGIN, body, BLOCK_LEN * blocks) != 0) wrong("page_open: not the body that was written, %zu blocks", blocks);
    /* words past 8 mean nothing; the keys exchanged; the tag key's set loaded anew; the sealing key's, which nothing tells */
    for (int b = SEALING; b <= TAGGING; b++) fill(space[b] + MARGIN + 16 + 64, WORKING_LEN - 16 - 64);
    if (one_call(&q) != 0 || memcmp(space[OUT] + MARGIN, body, BLOCK_LEN * blocks) != 0) wrong("page_open: another body by words past 8, %zu blocks", blocks);
    memcpy(space[SEALING] + MARGIN, working[1], WORKING_LEN);
    memcpy(space[TAGGING] + MARGIN, working[0], WORKING_LEN);
    if (one_call(&q) != 20) wrong("page_open: the keys exchanged, and it isn't told");
    memcpy(space[SEALING] + MARGIN, working[0], WORKING_LEN);
    memcpy(space[TAGGING] + MARGIN, working[1], WORKING_LEN);
    if (tagging) {
        any_row(space[STORE] + MARGIN + SET * tagging + 256);
        if (one_call(&q) != 20) wrong("page_open: the tag key's set loaded anew, and it isn't told");
    }
    if (sealing && sealing != tagging && blocks) {
        memcpy(space[STORE] + MARGIN, other, STORE_LEN);
        any_row(space[STORE] + MARGIN + SET * sealing + 256);
        if (one_call(&q) != 0 || memcmp(space[OUT] + MARGIN, body, BLOCK_LEN * blocks) == 0) wrong("page_open: the sealing key's set loaded anew changes nothing");
    }
}

static void trips(int all)
{
    static const size_t sizes[] = {0, 1, 2, 3, 4, 5, 63, 64, 65, 66, 127, 128, 129, 255, 256, 511, 512, 513, 514, 1024, 1025, 2000, MOST_BLOCKS - 1, MOST_BLOCKS};
    for (uint64_t sets = 0; sets < 16; sets++)
        for (size_t blocks = 0; blocks < 4 && !enough(); blocks++) trip(blocks, sets / 4, sets % 4);
    for (int i = 0; i < COUNT(sizes) && all; i++)
        for (int times = 0; times < 3 && !enough(); times++) trip(sizes[i], times == 0 ? 0 : below(4), times == 0 ? 0 : below(4));
}

/* Zeros, but for number 1 and day 2; sealed by set 0, tagged by set 1, whose substitution is v to 255 - v and whose row is 02 and seven 00. From
 * another program. */
static void examples(void)
{
    static const uint8_t ends[][34] = {{0x1F, 0xB0, 0x9C, 0x41, 0xD5, 0x6D, 0xBE, 0x85, 0xE7, 0xD2, 0xBE, 0x0B, 0x8C, 0x8B, 0x47, 0x70, 0x94},
                                       {0x15, 0xF5, 0xDC, 0x29, 0xDB, 0x0A, 0xC8, 0xBB, 0xAD, 0xA0, 0x0A, 0x52, 0x33, 0xA5, 0xA4, 0x1C, 0x32,
                                        0x1F, 0x11, 0xC5, 0x95, 0xC9, 0x2B, 0x34, 0x5A, 0x33, 0x47, 0x82, 0xD8, 0x2C, 0xAD, 0xB7, 0x03, 0x47}};
    static const uint8_t key[16];
    for (size_t blocks = 0; blocks < 2; blocks++) {
        struct asked q;
        uint8_t *store = space[STORE] + MARGIN;
        to_write(&q, blocks, 0, 1);
        memset(store, 0, STORE_LEN);
        for (int i = 0; i < 256; i++) store[SET + i] = (uint8_t)(255 - i);
        store[SET + 256] = 2;
        q.number = 1;
        q.day = 2;
        for (int b = TITLE; b <= TEXT; b++) memset(space[b] + MARGIN, 0, q.len[b]);
        for (uint64_t set = 0; set < 2; set++)
            if (labyrinth_expand(store, STORE_LEN, 1, 2, set, key, 16, space[set ? TAGGING : SEALING] + MARGIN, WORKING_LEN) != 0) wrong("expand: refused");
        one_call(&q);
        if (memcmp(space[OUT] + MARGIN + HEAD, ends[blocks], 17 * (blocks + 1)) != 0) wrong("page_write: not the example's record, %zu blocks", blocks);
    }
}

/* ---- lengths of 2^32 and more: each that fits once bits are lost */

static long far_pages(void)
{
    uint8_t *far_off = mmap(NULL, far + MOST, PROT_READ | PROT_WRITE, MAP_PRIVATE | MAP_ANONYMOUS | MAP_NORESERVE, -1, 0);
    long calls = 0;
    if (far_off == MAP_FAILED) stop("mmap");
    for (int what = 0; what < WHATS; what++)
        for (int b = 0; b < LENTS; b++) {
            struct asked q;
            if (!takes((enum what)what, (enum lent)b) || (what == LIST && b == OUT)) continue;
            some_record(&q, 2, 0, 1);
            if (what != WRITE) to_read(&q, (enum what)what, record, record_length(2), 2 * BLOCK_LEN);
            for (int i = 0; i < LENTS; i++) q.at[i] = space[i] + MARGIN;
            memcpy(far_off, q.at[b], q.len[b]);
            q.at[b] = far_off;
            q.len[b] += far;
            memcpy(kept, space, sizeof kept);
            uint8_t expected = expected_number(&q), number = ask(&q);
            calls++;
            if (expected == 0 || number != expected) wrong("%s: buffer %d too long by 2^32: %d, not %d", names[what], b, number, expected);
            if (what == LIST && !written_right(&q, expected)) wrong("page_catalogue: a record too long by 2^32 is shown");
            if (what == LIST) memcpy(space[OUT], kept[OUT], sizeof kept[OUT]);
            if (memcmp(space, kept, sizeof kept) != 0) wrong("%s: buffer %d too long by 2^32, and bytes written", names[what], b);
        }
    munmap(far_off, far + MOST);
    return calls;
}

/* ---- lent memory: each buffer flush against a page that cannot be touched, what is only read not to be written; nor, with a refusal, the
 * destination, not while the call runs either */

enum { LENT_PAGES = 5 };
static size_t lent_size;
static uint8_t *lent[LENTS], *lent_before[LENTS];

static void lend_pages(void)
{
    size_t page = (size_t)sysconf(_SC_PAGESIZE);
    lent_size = LENT_PAGES * page;
    for (int b = 0; b < LENTS && !lent[b]; b++) {
        uint8_t *at = mmap(NULL, lent_size + 2 * page, PROT_NONE, MAP_PRIVATE | MAP_ANONYMOUS, -1, 0);
        if (at == MAP_FAILED || mprotect(at + page, lent_size, PROT_READ | PROT_WRITE) != 0) stop("mmap");
        lent[b] = at + page;
        lent_before[b] = malloc(lent_size);
        if (!lent_before[b]) stop("malloc");
    }
}

static void lent_case(int only, int place)
{
    struct asked q;
    enum what what = only < WHATS ? (enum what)only : (enum what)below(WHATS);
    size_t blocks = below(3) ? below(8) : below(1200);
    some_record(&q, blocks, below(8) ? below(2) : below(5) % 4, below(8) ? below(2) : below(5) % 4);
    if (below(6) == 0) by_hand(space[STORE] + MARGIN, 4, 4);
    if (below(10) == 0) put_number(space[below(2) ? SEALING : TAGGING] + MARGIN, below(6));
    if (what != WRITE) to_read(&q, what, record, record_length(blocks), BLOCK_LEN * blocks);
    size_t odd = below(12); /* now and then a buffer of another length, or a record with one bit altered */
    if (odd < LENTS && takes(what, (enum lent)odd) && !(what == LIST && odd == OUT)) q.len[odd] = below(2) ? below(lent_size) : q.len[odd] + 1;
    if (odd == LENTS && what != WRITE) space[TEXT][MARGIN + below(q.len[TEXT])] ^= (uint8_t)(1 << below(8));
    for (int b = 0; b < LENTS; b++) {
        int at_start = place == PLACE_ANY ? (int)below(2) : place;
        if (q.len[b] > lent_size) q.len[b] = lent_size;
        q.at[b] = at_start ? lent[b] : lent[b] + lent_size - q.len[b];
        if (q.len[b]) memcpy(q.at[b], space[b] + MARGIN, q.len[b]);
        memcpy(lent_before[b], lent[b], lent_size);
        if (q.len[b] == 0 && below(2)) q.at[b] = NULL;
    }
    uint8_t expected = expected_number(&q);
    for (int b = 0; b < LENTS; b++)
        if ((b != OUT || (what != LIST && expected != 0)) && mprotect(lent[b], lent_size, PROT_READ) != 0) stop("mprotect");
    uint8_t number = ask(&q);
    for (int b = 0; b < LENTS; b++)
        if (mprotect(lent[b], lent_size, PROT_READ | PROT_WRITE) != 0) stop("mprotect");
    if (number != expected) wrong("%s: on lent memory %d, not %d", names[what], number, expected);
    size_t from = q.at[OUT] ? (size_t)(q.at[OUT] - lent[OUT]) : 0, to = from + (expected == 0 || what == LIST ? q.len[OUT] : 0);
    if (memcmp(lent[OUT], lent_before[OUT], from) != 0 || memcmp(lent[OUT] + to, lent_before[OUT] + to, lent_size - to) != 0)
        wrong("%s: on lent memory number %d, and bytes written that are not to be", names[what], number);
    if (number == expected && !written_right(&q, number)) wrong("%s: on lent memory other bytes", names[what]);
}

static int lent_pages(enum what only, uint64_t seed, long cases, int place) { return in_child(lent_case, only, seed, cases, place); }

/* ---- stack: by each function, with sets 0 and another for each key, at lengths about 1 KiB, 8 KiB and the most */

static struct asked there;

static void ask_there(void) { sink = ask(&there); }

static size_t pages_stack(size_t *each)
{
    static const size_t sizes[] = {0, 1, 64, 65, 128, 512, 513, 1024, 1025, MOST_BLOCKS};
    size_t most = 0;
    for (int what = 0; what < WHATS; what++) {
        each[what] = 0;
        for (uint64_t sets = 0; sets < 4; sets++)
            for (int i = 0; i < COUNT(sizes); i++) {
                some_record(&there, sizes[i], sets / 2, sets % 2 * 2);
                if (what != WRITE) to_read(&there, (enum what)what, record, record_length(sizes[i]), BLOCK_LEN * sizes[i]);
                for (int b = 0; b < LENTS; b++) there.at[b] = space[b] + MARGIN;
                size_t used = stack_by(ask_there);
                if (used > LABYRINTH_STACK) wrong("%s: %zu bytes of stack, and the header says %d", names[what], used, LABYRINTH_STACK);
                if (used > each[what]) each[what] = used;
            }
        if (each[what] > most) most = each[what];
    }
    return most;
}

/* ---- stubs: each does what the library does, but for one thing, and the trials must notice */

enum fault { HONEST, EXCHANGES, TOUCHES, KEEPS_OLD, ALTERS, LEAVES, TITLE_AT_10, HALF_NUMBER, TAG_KEY_FIRST, KEYS_EXCHANGED, FIVE_FIRST, TAKES_LONGER, LAST_BYTE,
             BY_LENGTH, ONE_MORE, UNDOES, READS_PAST, READS_BEFORE, WRITES, DEEP };
static struct { enum fault fault; enum what what; enum lent lent; uint8_t from, to; } faulty;

/* A record whose bytes 15 are put right, and the 1F. */
static void mend(uint8_t *at, size_t len)
{
    for (size_t i = HEAD; i + 1 + TAG_LEN < len; i += 17) at[i] = 0x15;
    at[len - 1 - TAG_LEN] = 0x1F;
}

static uint8_t ask_stub(const struct asked *given)
{
    static uint8_t copy[MOST], changed[MOST];
    struct asked q = *given;
    int mine = faulty.what == q.what || faulty.what == WHATS;
    volatile uint8_t deep[LABYRINTH_STACK + 512];
    if (!mine) return ask_library(&q);
    if (faulty.fault == DEEP)
        for (size_t i = 0; i < sizeof deep; i += 64) deep[i] = 1, sink = deep[i];
    if (faulty.fault == READS_PAST && q.at[faulty.lent]) sink = q.at[faulty.lent][q.len[faulty.lent]];
    if (faulty.fault == READS_BEFORE && q.at[faulty.lent]) sink = q.at[faulty.lent][-1];
    if (faulty.fault == WRITES && q.len[faulty.lent]) *(volatile uint8_t *)q.at[faulty.lent] = q.at[faulty.lent][0];
    if (q.len[OUT] && q.len[OUT] <= MOST && q.at[OUT]) memcpy(copy, q.at[OUT], q.len[OUT]);
    int keyed = q.what != LIST && q.len[STORE] == STORE_LEN && q.len[SEALING] == WORKING_LEN && q.len[TAGGING] == WORKING_LEN;
    if (faulty.fault == TAG_KEY_FIRST && keyed) {
        uint8_t number = key_number(q.at[STORE], q.at[TAGGING]);
        if (number != 0) return number;
    }
    if (faulty.fault == KEYS_EXCHANGED) q.at[SEALING] = given->at[TAGGING], q.at[TAGGING] = given->at[SEALING];
    if (faulty.fault == HALF_NUMBER) q.number &= 0xFFFF;
    if (faulty.fault == TAKES_LONGER && q.len[faulty.lent] > (faulty.lent == STORE ? STORE_LEN : WORKING_LEN))
        q.len[faulty.lent] = faulty.lent == STORE ? STORE_LEN : WORKING_LEN;
    if (faulty.fault == BY_LENGTH && q.len[TEXT] >= record_length(0) && q.len[TEXT] <= record_length(MOST_BLOCKS) && (q.len[TEXT] - record_length(0)) % 17 == 0) {
        memcpy(changed, q.at[TEXT], q.len[TEXT]);
        mend(changed, q.len[TEXT]);
        q.at[TEXT] = changed;
    }
    if (faulty.fault == ONE_MORE && q.len[TEXT] == record_length(MOST_BLOCKS + 1)) {
        memcpy(changed, q.at[TEXT], q.len[TEXT] - 17);
        q.len[TEXT] -= 17;
        mend(changed, q.len[TEXT]);
        q.at[TEXT] = changed;
    }
    uint8_t number = ask_library(&q);
    if (faulty.fault == TOUCHES && number != 0 && number == faulty.from && q.len[OUT] && q.at[OUT] && q.len[OUT] <= MOST) q.at[OUT][below(q.len[OUT])] ^= 1;
    if (faulty.fault == LEAVES && number != 0) {
        static const struct { size_t at, len; } parts[] = {{0, 8}, {8, 8}, {16, 4}, {20, 4}};
        memcpy(q.at[OUT] + parts[faulty.from].at, copy + parts[faulty.from].at, parts[faulty.from].len);
    }
    if (faulty.fault == KEEPS_OLD && number == 0) memcpy(q.at[OUT], copy, q.len[OUT]);
    if (faulty.fault == ALTERS && number == 0 && q.len[OUT]) q.at[OUT][below(q.len[OUT])] ^= (uint8_t)(1 << below(8));
    if (faulty.fault == TITLE_AT_10 && number == 0) ((struct shown *)(void *)q.at[OUT])->title_at = 10;
    if (faulty.fault == EXCHANGES && number == faulty.from) return faulty.to;
    if (faulty.fault == FIVE_FIRST && q.what == WRITE && number == 4 && keyed && q.len[OUT] != record_length(q.len[TEXT] / BLOCK_LEN)) return 5;
    if (faulty.fault == FIVE_FIRST && q.what == OPEN && number == 20 && q.len[OUT] != BLOCK_LEN * (size_t)blocks_of(q.at[TEXT], q.len[TEXT])) return 5;
    if (faulty.fault == UNDOES && number == 20 && q.len[OUT]) *(volatile uint8_t *)q.at[OUT] ^= 1, *(volatile uint8_t *)q.at[OUT] ^= 1;
    if (faulty.fault == LAST_BYTE && number == 20 && q.len[TEXT] <= MOST) { /* 15 bytes of the tag looked at */
        memcpy(changed, q.at[TEXT], q.len[TEXT]);
        q.at[TEXT] = changed;
        for (int value = 0; value < 256; value++) {
            changed[q.len[TEXT] - 1] = (uint8_t)value;
            uint8_t again = ask_library(&q);
            if (again != 20) return again;
        }
    }
    return number;
}

/* All trials, short; how many failures they found. */
static long tried_all(uint64_t seed)
{
    long before = failures, found;
    quiet = 1;
    failures = 0;
    chance = seed;
    examples();
    if (!failures) trips(0);
    for (int what = 0; what < WHATS && !failures; what++)
        if (what != LIST && (faulty.what == WHATS || faulty.what == (enum what)what)) wrong_pairs((enum what)what);
    if (!failures && faulty.what != WRITE) listings(1);
    if (!failures && faulty.what != WRITE) record_bits(1);
    if (!failures) far_pages();
    found = failures;
    failures = before;
    quiet = 0;
    return found;
}

static int noticed(int yes, const char *what)
{
    if (!yes) wrong("a stub passed for the library: %s %s %d", names[faulty.what < WHATS ? faulty.what : 0], what, faulty.from);
    return 1;
}

/* a bit for each number that a function gives */
static const int given_by[WHATS] = {0x89073, 0x80001, 0x189033};

int try_page_stubs(uint64_t seed)
{
    enum { CASES = 800 };
    static const struct { enum fault fault; enum what what; enum lent lent; uint8_t from, to; const char *does; } stubs[] = {
        {EXCHANGES, WRITE, OUT, 19, 6, "gives 6 for"}, {EXCHANGES, WRITE, OUT, 6, 19, "gives 19 for"}, {EXCHANGES, WRITE, OUT, 4, 5, "gives 5 for"},
        {EXCHANGES, WRITE, OUT, 12, 15, "gives 15 for"}, {EXCHANGES, WRITE, OUT, 15, 12, "gives 12 for"}, {EXCHANGES, WRITE, OUT, 1, 12, "gives 12 for"},
        {EXCHANGES, LIST, OUT, 19, 4, "gives 4 for"}, {EXCHANGES, LIST, OUT, 19, 20, "gives 20 for"}, {EXCHANGES, OPEN, OUT, 19, 20, "gives 20 for"},
        {EXCHANGES, OPEN, OUT, 20, 19, "gives 19 for"}, {EXCHANGES, OPEN, OUT, 20, 0, "gives 0 for"}, {EXCHANGES, OPEN, OUT, 5, 20, "gives 20 for"},
        {EXCHANGES, OPEN, OUT, 12, 1, "gives 1 for"}, {EXCHANGES, OPEN, OUT, 15, 1, "gives 1 for"}, {EXCHANGES, OPEN, OUT, 4, 5, "gives 5 for"},
        {LEAVES, LIST, OUT, 0, 0, "leaves the blocks as they were on refusal"}, {LEAVES, LIST, OUT, 1, 0, "leaves the title's place as it was on refusal"},
        {LEAVES, LIST, OUT, 2, 0, "leaves the number as it was on refusal"}, {LEAVES, LIST, OUT, 3, 0, "leaves the day as it was on refusal"},
        {TITLE_AT_10, LIST, OUT, 0, 0, "shows the byte 12 with the title"}, {HALF_NUMBER, WRITE, OUT, 0, 0, "writes two bytes of the number"},
        {TAG_KEY_FIRST, WRITE, OUT, 0, 0, "looks at the tag key first"}, {TAG_KEY_FIRST, OPEN, OUT, 0, 0, "looks at the tag key first"},
        {KEYS_EXCHANGED, WRITE, OUT, 0, 0, "exchanges the keys"}, {KEYS_EXCHANGED, OPEN, OUT, 0, 0, "exchanges the keys"},
        {KEYS_EXCHANGED, WHATS, OUT, 0, 0, "exchanges the keys both ways"}, {FIVE_FIRST, WRITE, OUT, 0, 0, "looks for 5 before 4"},
        {FIVE_FIRST, OPEN, OUT, 0, 0, "looks for 5 before 20"}, {TAKES_LONGER, WRITE, STORE, 0, 0, "takes a longer store"},
        {TAKES_LONGER, WRITE, SEALING, 0, 0, "takes a longer sealing key"}, {TAKES_LONGER, OPEN, TAGGING, 0, 0, "takes a longer tag key"},
        {LAST_BYTE, OPEN, OUT, 0, 0, "looks at 15 bytes of the tag"}, {BY_LENGTH, LIST, OUT, 0, 0, "goes by the length"},
        {ONE_MORE, LIST, OUT, 0, 0, "takes 4,097 blocks"},
    };
    int trials = 0;
    ask = ask_stub;
    faulty.fault = HONEST;
    faulty.what = WHATS;
    trials += noticed(tried_all(seed) == 0, "does as the library does");
    for (int place = PLACE_END; place <= PLACE_ANY; place++) trials += noticed(lent_pages(WHATS, seed, CASES, place) == 0, "does as the library does on lent memory");
    for (size_t i = 0; i < sizeof stubs / sizeof *stubs; i++) {
        faulty.fault = stubs[i].fault;
        faulty.what = stubs[i].what;
        faulty.lent = stubs[i].lent;
        faulty.from = stubs[i].from;
        faulty.to = stubs[i].to;
        trials += noticed(tried_all(seed) > 0, stubs[i].does);
    }
    for (int what = 0; what < WHATS; what++) {
        faulty.what = (enum what)what;
        faulty.fault = KEEPS_OLD;
        trials += noticed(tried_all(seed) > 0, "writes nothing");
        faulty.fault = ALTERS;
        trials += noticed(tried_all(seed) > 0, "alters a bit");
        faulty.fault = TOUCHES;
        for (faulty.from = 1; faulty.from <= LAST_NUMBER; faulty.from++)
            if (given_by[what] >> faulty.from & 1) trials += noticed(tried_all(seed) > 0, "touches what it is to keep, with the number");
        for (int b = 0; b < LENTS; b++) {
            if (!takes(faulty.what, (enum lent)b)) continue;
            faulty.lent = (enum lent)b;
            faulty.fault = READS_PAST;
            trials += noticed(lent_pages(faulty.what, seed, CASES, PLACE_END) == SIGSEGV, "reads one byte past");
            faulty.fault = READS_BEFORE;
            trials += noticed(lent_pages(faulty.what, seed, CASES, PLACE_START) == SIGSEGV, "reads one byte before");
            faulty.fault = WRITES;
            if (b != OUT) trials += noticed(lent_pages(faulty.what, seed, CASES, PLACE_ANY) == SIGSEGV, "writes to what is only read");
        }
    }
    faulty.fault = UNDOES;
    faulty.what = OPEN;
    trials += noticed(lent_pages(OPEN, seed, CASES, PLACE_ANY) == SIGSEGV, "writes to the destination, and takes it back, with 20");
    size_t each[WHATS];
    long before = failures;
    faulty.fault = DEEP;
    faulty.what = WHATS;
    quiet = 1;
    size_t most = pages_stack(each);
    quiet = 0;
    failures = before;
    trials += noticed(most > LABYRINTH_STACK, "uses more stack");
    ask = ask_library;
    return trials;
}

/* All of it; the number of calls, and the most stack. */
long pages(uint64_t seed, int large, size_t *most)
{
    enum { WRITE_PAIRS = 2404, OPEN_PAIRS = 1749, LISTINGS = 13403, BITS = 8 * (4 * 77 + 6 * 17) };
    size_t each[WHATS];
    asked_calls = 0;
    chance = seed;
    memset(seen, 0, sizeof seen);
    lend_pages();
    examples();
    trips(1);
    long pairs[] = {wrong_pairs(WRITE), wrong_pairs(OPEN)}, listed = listings(3), bits = record_bits(3);
    if (pairs[0] != WRITE_PAIRS || pairs[1] != OPEN_PAIRS || listed != LISTINGS || bits != BITS)
        wrong("%ld and %ld pairs of wrong arguments, %ld listings, %ld bits, not %d, %d, %d, %d", pairs[0], pairs[1], listed, bits, WRITE_PAIRS, OPEN_PAIRS, LISTINGS,
              BITS);
    any_arguments(WRITE, large ? 100000 : 4000);
    any_arguments(OPEN, large ? 100000 : 4000);
    for (int what = 0; what < WHATS; what++)
        for (int number = 0; number <= LAST_NUMBER; number++)
            if ((given_by[what] >> number & 1) != (seen[what][number] > 0)) wrong("%s: %ld calls with the number %d", names[what], seen[what][number], number);
    asked_calls += far_pages();
    *most = pages_stack(each);
    for (int what = 0; large && what < WHATS; what++) printf("c_interface: %s: %zu bytes of stack\n", names[what], each[what]);
    long cases = large ? 30000 : 2000;
    for (int place = PLACE_END; place <= PLACE_ANY; place++) {
        int died = lent_pages(WHATS, seed + (uint64_t)place, cases, place);
        if (died != 0) wrong("page records on lent memory, place %d: %s", place, died > 0 ? strsignal(died) : "see above");
        asked_calls += cases;
    }
    return asked_calls;
}
