/* Stores and working keys: which number each function gives, over a grid of records, numbers and lengths, so with every pair of refusals at
 * once; that a refusal leaves all that was lent as it was; stores made by hand; what loading, taking and expanding write, byte for byte;
 * blocks, runs, tags and wrapped keys by any set against the block's own function, and by set 0 against the functions that take a key; lent
 * memory; stack. */
#include <signal.h>
#include <sys/mman.h>
#include <unistd.h>

#include "interface.h"

enum what { FRESH, LOAD, TAKE, EXPAND, ENCIPHER, DECIPHER, BY_MATRIX, BACK_BY_MATRIX, SEAL, OPEN, STREAM, TAG, CHECK, WRAP, UNWRAP, WHATS };
static const char *const names[WHATS] = {"store_fresh", "store_load", "store_take", "expand", "key_encipher", "key_decipher", "key_encipher_by_matrix",
                                         "key_decipher_by_matrix", "key_cbc_seal", "key_cbc_open", "key_ctr", "key_cmac", "key_cmac_verify", "key_wrap", "key_unwrap"};

/* FIRST is the substitution, the key, the start block or the tag to be verified; SECOND the row, the source or the message; OUT the
 * destination, the tag to be made or *yes. a, b and c are publisher and set, or n, l and set, or q. */
enum lent { STORE, WORKING, FIRST, SECOND, OUT, LENTS };
struct asked {
    enum what what;
    uint64_t a, b, c;
    uint8_t *at[LENTS];
    size_t len[LENTS];
};

__attribute__((noinline)) static uint8_t ask_library(const struct asked *q)
{
    uint8_t *const *at = q->at;
    const size_t *len = q->len;
#define KEYED at[STORE], len[STORE], at[WORKING], len[WORKING]
#define BLOCK_OF KEYED, at[SECOND], len[SECOND], at[OUT], len[OUT]
#define RUN_OF KEYED, at[FIRST], len[FIRST], at[SECOND], len[SECOND], at[OUT], len[OUT]
    switch (q->what) {
    case FRESH: return labyrinth_store_fresh(at[STORE], len[STORE]);
    case LOAD: return labyrinth_store_load(at[STORE], len[STORE], q->a, q->b, at[FIRST], len[FIRST], at[SECOND], len[SECOND]);
    case TAKE: return labyrinth_store_take(at[STORE], len[STORE], q->a, q->b);
    case EXPAND: return labyrinth_expand(at[STORE], len[STORE], q->a, q->b, q->c, at[FIRST], len[FIRST], at[WORKING], len[WORKING]);
    case ENCIPHER: return labyrinth_key_encipher(BLOCK_OF);
    case DECIPHER: return labyrinth_key_decipher(BLOCK_OF);
    case BY_MATRIX: return labyrinth_key_encipher_by_matrix(BLOCK_OF);
    case BACK_BY_MATRIX: return labyrinth_key_decipher_by_matrix(BLOCK_OF);
    case SEAL: return labyrinth_key_cbc_seal(RUN_OF);
    case OPEN: return labyrinth_key_cbc_open(RUN_OF);
    case STREAM: return labyrinth_key_ctr(KEYED, at[FIRST], len[FIRST], q->a, at[SECOND], len[SECOND], at[OUT], len[OUT]);
    case TAG: return labyrinth_key_cmac(BLOCK_OF);
    case CHECK: return labyrinth_key_cmac_verify(KEYED, at[SECOND], len[SECOND], at[FIRST], len[FIRST], at[OUT]);
    case WRAP: return labyrinth_key_wrap(BLOCK_OF);
    default: return labyrinth_key_unwrap(BLOCK_OF);
    }
}

static uint8_t (*ask)(const struct asked *) = ask_library; /* or a stub in its place */

static int is_block(enum what what) { return what >= ENCIPHER && what <= BACK_BY_MATRIX; }

static int is_run(enum what what) { return what >= SEAL && what <= STREAM; }

static int tags_it(enum what what) { return what == TAG || what == CHECK; }

static int wraps(enum what what) { return what == WRAP || what == UNWRAP; }

static int takes(enum what what, enum lent b)
{
    if (b == STORE) return 1;
    if (b == WORKING) return what >= EXPAND;
    if (b == FIRST) return what == LOAD || what == EXPAND || is_run(what) || what == CHECK;
    return what == LOAD ? b == SECOND : what >= ENCIPHER;
}

static enum lent written_by(enum what what) { return what <= TAKE ? STORE : what == EXPAND ? WORKING : OUT; }

/* ---- the papers' numbers */

uint64_t number_at(const uint8_t *at)
{
    uint64_t number = 0;
    for (int i = 7; i >= 0; i--) number = number << 8 | at[i];
    return number;
}

void put_number(uint8_t *at, uint64_t number)
{
    for (int i = 0; i < 8; i++) at[i] = (uint8_t)(number >> 8 * i);
}

static int different(const uint8_t *substitution)
{
    uint8_t seen[256] = {0};
    for (int i = 0; i < 256; i++)
        if (seen[substitution[i]]++) return 0;
    return 1;
}

int is_loaded(const uint8_t *store, uint64_t set)
{
    return set == 0 || (set < 4 && different(store + SET * set) && row_sum(store + SET * set + 256, 8) != 0);
}

static int is_held(const uint8_t *store, uint64_t set)
{
    return set == 0 || number_at(store + MARKS) == set || number_at(store + MARKS + 8) == set;
}

/* ---- wrapping as SP 800-38F has it, its semiblocks moving, over the library's block */

enum { SEMI = 8, MOST_KEY = 128, MOST_WRAPPED = MOST_KEY + SEMI };

static void block_of(int back, const uint8_t *store, const uint8_t *working, const uint8_t *from, uint8_t *to)
{
    uint8_t number = back ? labyrinth_key_decipher(store, STORE_LEN, working, WORKING_LEN, from, 16, to, 16)
                          : labyrinth_key_encipher(store, STORE_LEN, working, WORKING_LEN, from, 16, to, 16);
    if (number != 0) wrong("a block for wrapping is refused with %d", number);
}

/* Algorithm 1 on A and the key behind it, len bytes together. */
static void steps_on(const uint8_t *store, const uint8_t *working, uint8_t *string, size_t len)
{
    uint8_t block[16];
    for (size_t t = 1; t <= 6 * (len / SEMI - 1); t++) {
        block_of(0, store, working, string, block);
        memmove(string + SEMI, string + 2 * SEMI, len - 2 * SEMI);
        memcpy(string, block, SEMI);
        memcpy(string + len - SEMI, block + SEMI, SEMI);
        string[SEMI - 1] ^= (uint8_t)t; /* at most 96 */
    }
}

/* Algorithm 2, the other way. */
static void steps_back(const uint8_t *store, const uint8_t *working, uint8_t *string, size_t len)
{
    uint8_t joined[16], block[16];
    for (size_t t = 6 * (len / SEMI - 1); t > 0; t--) {
        memcpy(joined, string, SEMI);
        memcpy(joined + SEMI, string + len - SEMI, SEMI);
        joined[SEMI - 1] ^= (uint8_t)t;
        block_of(1, store, working, joined, block);
        memmove(string + 2 * SEMI, string + SEMI, len - 2 * SEMI);
        memcpy(string, block, 2 * SEMI);
    }
}

static const uint8_t check_value[SEMI] = {0xA6, 0xA6, 0xA6, 0xA6, 0xA6, 0xA6, 0xA6, 0xA6};

/* A key wrapped with such a check value, len + 8 bytes. */
static void wrap_by_blocks(const uint8_t *store, const uint8_t *working, const uint8_t *check, const uint8_t *key, size_t len, uint8_t *wrapped)
{
    memcpy(wrapped, check, SEMI);
    memcpy(wrapped + SEMI, key, len);
    steps_on(store, working, wrapped, len + SEMI);
}

/* Whether the check value is right; the key, len - 8 bytes. */
static int unwrap_by_blocks(const uint8_t *store, const uint8_t *working, const uint8_t *wrapped, size_t len, uint8_t *key)
{
    uint8_t string[MOST_WRAPPED];
    memcpy(string, wrapped, len);
    steps_back(store, working, string, len);
    memcpy(key, string + SEMI, len - SEMI);
    return memcmp(string, check_value, SEMI) == 0;
}

/* By the lengths of source and destination, and then the check value. */
static uint8_t wrapping_number(const struct asked *q)
{
    size_t from = q->len[SECOND], to = q->len[OUT], least = q->what == WRAP ? 16 : 24, most = q->what == WRAP ? MOST_KEY : MOST_WRAPPED;
    uint8_t key[MOST_KEY];
    if (from < least || from > most || from % SEMI != 0) return 17;
    if (q->what == WRAP) return to == from + SEMI ? 0 : 5;
    if (to != from - SEMI) return 5;
    return unwrap_by_blocks(q->at[STORE], q->at[WORKING], q->at[SECOND], from, key) ? 0 : 18;
}

static uint8_t expected_number(const struct asked *q)
{
    const size_t *len = q->len;
    const uint8_t *store = q->at[STORE];
    if (len[STORE] != STORE_LEN || (takes(q->what, WORKING) && len[WORKING] != WORKING_LEN)) return 4;
    if (q->what == FRESH) return 0;
    if (q->what == LOAD && len[SECOND] != 8) return 4;
    if (q->what <= TAKE && (q->a > 1 || q->b > 3)) return 15;
    if (q->what == TAKE) return is_loaded(store, q->b) ? 0 : 15;
    if (q->what == LOAD) {
        if (len[FIRST] != 256 || !different(q->at[FIRST])) return 14;
        if (row_sum(q->at[SECOND], 8) == 0) return 13;
        return is_held(store, q->b) ? 16 : 0;
    }
    int expands = q->what == EXPAND;
    uint64_t n = expands ? q->a : number_at(q->at[WORKING]), l = q->b, set = expands ? q->c : number_at(q->at[WORKING] + 8);
    if (n != 1 && n != 2 && n != 4) return 1;
    if (expands && l != 2 && l != 3 && l != 4) return 2;
    if (!is_loaded(store, set)) return 15;
    if (expands) return len[FIRST] == 8 * n * l ? 0 : 3;
    if ((tags_it(q->what) || wraps(q->what)) && n != 1) return 12;
    if (wraps(q->what)) return wrapping_number(q);
    size_t tag = len[q->what == TAG ? OUT : FIRST];
    if (tags_it(q->what)) return tag < 8 || tag > 16 ? 11 : 0;
    if (is_run(q->what) && len[FIRST] != 16 * n) return 6;
    if (is_block(q->what) && len[SECOND] != 16 * n) return 4;
    if ((q->what == SEAL || q->what == OPEN) && len[SECOND] % (16 * n) != 0) return 4;
    return len[OUT] != len[SECOND] ? 5 : 0;
}

/* ---- one call, and all that it may leave changed */

enum { ROOM = 2048, MARGIN = 64 };
static uint8_t space[LENTS][ROOM + 2 * MARGIN], kept[LENTS][ROOM + 2 * MARGIN], first_fresh[STORE_LEN];
enum { LAST_NUMBER = 18 };
static long asked_calls, seen[WHATS][LAST_NUMBER + 1];

/* Whether a call that was done wrote what it is to write; blocks, runs and tags are looked at elsewhere, and wrapped keys there too. */
static int changed_right(const struct asked *q, const uint8_t *store)
{
    uint8_t after[STORE_LEN];
    if (q->what == EXPAND) {
        uint64_t n = number_at(q->at[WORKING]);
        int right = n == q->a && number_at(q->at[WORKING] + 8) == q->c;
        for (uint64_t i = 8 * n; i < 32; i++) right = right && number_at(q->at[WORKING] + 16 + 8 * i) == 0;
        return right;
    }
    if (wraps(q->what)) {
        uint8_t right[MOST_WRAPPED];
        if (q->what == WRAP) wrap_by_blocks(q->at[STORE], q->at[WORKING], check_value, q->at[SECOND], q->len[SECOND], right);
        if (q->what == UNWRAP) unwrap_by_blocks(q->at[STORE], q->at[WORKING], q->at[SECOND], q->len[SECOND], right);
        return memcmp(q->at[OUT], right, q->len[OUT]) == 0;
    }
    if (q->what > TAKE) return 1;
    memcpy(after, q->what == FRESH ? first_fresh : store, STORE_LEN);
    if (q->what == LOAD) {
        memcpy(after + SET * q->b, q->at[FIRST], 256);
        memcpy(after + SET * q->b + 256, q->at[SECOND], 8);
    }
    if (q->what == TAKE) put_number(after + MARKS + 8 * q->a, q->b);
    return memcmp(q->at[STORE], after, STORE_LEN) == 0;
}

/* The call's buffers are in space, those of no bytes NULL. */
static void one_call(struct asked *q)
{
    for (int b = 0; b < LENTS; b++) q->at[b] = q->len[b] && takes(q->what, (enum lent)b) ? space[b] + MARGIN : NULL;
    if (q->what == CHECK) space[OUT][MARGIN] = asked_calls & 1 ? 1 : 0xAA;
    memcpy(kept, space, sizeof kept);
    uint8_t expected = expected_number(q), number = ask(q);
    asked_calls++;
    seen[q->what][expected]++;
    if (number != expected)
        wrong("%s: lengths %zu %zu %zu %zu %zu: %d, not %d", names[q->what], q->len[STORE], q->len[WORKING], q->len[FIRST], q->len[SECOND], q->len[OUT], number,
              expected);
    if (q->what == CHECK && expected != 0 && space[OUT][MARGIN] != 0) wrong("%s: a refusal, and *yes is %d", names[q->what], space[OUT][MARGIN]);
    for (int b = 0; b < LENTS; b++) {
        int may = (enum lent)b == written_by(q->what) && (expected == 0 || q->what == CHECK);
        size_t to = MARGIN + (may ? q->len[b] : 0);
        if (memcmp(space[b], kept[b], MARGIN) != 0 || memcmp(space[b] + to, kept[b] + to, sizeof kept[b] - to) != 0)
            wrong("%s: number %d, and bytes written to buffer %d", names[q->what], number, b);
    }
    if (expected == 0 && number == 0 && !changed_right(q, kept[STORE] + MARGIN)) wrong("%s: other bytes than it is to write", names[q->what]);
}

/* ---- stores and working keys made by hand */

/* Any 256 different bytes. */
void shuffle(uint8_t *substitution)
{
    for (int i = 0; i < 256; i++) {
        size_t j = below((size_t)i + 1);
        substitution[i] = substitution[j];
        substitution[j] = (uint8_t)i;
    }
}

void any_row(uint8_t *row)
{
    do fill(row, 8);
    while (row_sum(row, 8) == 0);
}

/* Set 0 junk; set 1 good; set 2 with two equal bytes, in a way that changes by turns; set 3 with a row that XORs to zero. */
void by_hand(uint8_t *store, uint64_t mark0, uint64_t mark1)
{
    fill(store, STORE_LEN);
    for (int i = 1; i < 4; i++) {
        shuffle(store + SET * i);
        any_row(store + SET * i + 256);
    }
    size_t one = below(256), other = (one + 1 + below(255)) % 256;
    store[SET * 2 + one] = store[SET * 2 + other];
    store[SET * 3 + 256 + below(8)] ^= row_sum(store + SET * 3 + 256, 8);
    put_number(store + MARKS, mark0);
    put_number(store + MARKS + 8, mark1);
}

static const uint64_t ns[] = {1, 2, 4, 0, 3, 5, ((uint64_t)1 << 32) + 1, UINT64_MAX}, ls[] = {2, 3, 4, 0, 1, 5, ((uint64_t)1 << 32) + 2, UINT64_MAX},
                      sets[] = {0, 1, 2, 3, 4, 5, 255, 256, 257, (uint64_t)1 << 32, ((uint64_t)1 << 32) + 1, UINT64_MAX},
                      publishers[] = {0, 1, 2, 255, 256, (uint64_t)1 << 32, UINT64_MAX};

static size_t record_lengths[2][5] = {{STORE_LEN, 0, STORE_LEN - 1, STORE_LEN + 1, SET}, {WORKING_LEN, 0, WORKING_LEN - 1, WORKING_LEN + 1, 16}};

/* Loading and taking: each publisher, set, mark, substitution, row and length with each. The grids of one function, or, for WHATS, of all. */
static void store_grid(enum what only)
{
    static const uint64_t marks[][2] = {{4, 4}, {1, 4}, {4, 2}, {3, 3}, {0, 0}, {UINT64_MAX, 5}, {((uint64_t)1 << 32) + 1, 257}};
    for (int s = 0; s < 5; s++)
        for (int m = 0; m < COUNT(marks); m++)
            for (int p = 0; p < COUNT(publishers); p++)
                for (int i = 0; i < COUNT(sets) && !enough(); i++) {
                    struct asked q = {.a = publishers[p], .b = sets[i], .len = {record_lengths[0][s]}};
                    by_hand(space[STORE] + MARGIN, marks[m][0], marks[m][1]);
                    q.what = TAKE;
                    if (only == WHATS || only == TAKE) one_call(&q);
                    q.what = FRESH;
                    if (p == 0 && i == 0) one_call(&q);
                    for (int way = 0; way < 5 * 4 && (only == WHATS || only == LOAD); way++) {
                        static const size_t substitutions[] = {256, 256, 255, 257, 0}, rows[] = {8, 8, 7, 0};
                        by_hand(space[STORE] + MARGIN, marks[m][0], marks[m][1]);
                        shuffle(space[FIRST] + MARGIN);
                        space[FIRST][MARGIN + 256] = 1;
                        any_row(space[SECOND] + MARGIN);
                        if (way % 5 == 1) space[FIRST][MARGIN + 255] = space[FIRST][MARGIN + below(255)];
                        if (way / 5 == 1) space[SECOND][MARGIN + 7] ^= row_sum(space[SECOND] + MARGIN, 8);
                        q.what = LOAD;
                        q.len[FIRST] = substitutions[way % 5];
                        q.len[SECOND] = rows[way / 5];
                        one_call(&q);
                    }
                }
}

/* A source for unwrapping: wrapped under this key, wrapped so with one bit of the check value wrong, wrapped so and then altered by one bit, or
 * any bytes. Where nothing can be wrapped it is any bytes. */
static void put_source(const struct asked *q, uint8_t *store, uint8_t *working, uint8_t *at, int way)
{
    size_t len = q->len[SECOND];
    uint64_t n = q->len[WORKING] == WORKING_LEN ? number_at(working) : 0;
    uint8_t check[SEMI], key[MOST_KEY];
    fill(at, len);
    if (q->len[STORE] != STORE_LEN || n != 1 || !is_loaded(store, number_at(working + 8)) || len < 24 || len > MOST_WRAPPED || len % SEMI != 0 || way == 3) return;
    fill(key, len - SEMI);
    memcpy(check, check_value, SEMI);
    if (way == 1) check[below(SEMI)] ^= (uint8_t)(1 << below(8));
    wrap_by_blocks(store, working, check, key, len - SEMI, at);
    if (way == 2) at[below(len)] ^= (uint8_t)(1 << below(8));
}

/* The rest: each record's length, n, l, set and other length with each. */
static void key_grid(enum what only)
{
    for (int what = only < WHATS ? only : EXPAND; what < (only < WHATS ? (int)only + 1 : WHATS); what++)
        for (int s = 0; s < 5 * 5; s++)
            for (int i = 0; i < COUNT(ns); i++)
                for (int j = 0; j < COUNT(sets); j++)
                    for (int k = 0; k < 4 * 5 * 4 && !enough(); k++) {
                        uint64_t n = ns[i] == 2 || ns[i] == 4 ? ns[i] : 1;
                        size_t near[4] = {16 * n, 16 * n - 1, 0, 16 * n + 1}, first = near[k % 4], second[5] = {16 * n, 16 * n + 1, 0, 48 * n, 48 * n + 7};
                        struct asked q = {.what = (enum what)what, .a = ns[i], .c = sets[j], .len = {record_lengths[0][s % 5], record_lengths[1][s / 5]}};
                        if ((s % 5 > 2 || s / 5 > 2) && (k % 7 != 0 || j % 3 != 0)) continue; /* more of this would say no more */
                        by_hand(space[STORE] + MARGIN, below(6), below(6));
                        fill(space[WORKING] + MARGIN, WORKING_LEN);
                        put_number(space[WORKING] + MARGIN, ns[i]);
                        put_number(space[WORKING] + MARGIN + 8, sets[j]);
                        q.len[SECOND] = second[k / 4 % 5];
                        q.len[FIRST] = first;
                        q.len[OUT] = k / 20 == 0 ? q.len[SECOND] : k / 20 == 1 ? q.len[SECOND] + 1 : k / 20 == 2 ? 0 : 16 * n;
                        if (tags_it(q.what)) q.len[what == TAG ? OUT : FIRST] = (size_t)k % 20;
                        if (wraps(q.what)) {
                            size_t least = what == WRAP ? 16 : 24, sources[] = {least, least + 112, least + 8 * below(14) + 1 + below(7), least - 8, least + 120};
                            size_t from = sources[k / 4 % 5], right = what == WRAP ? from + 8 : from - 8;
                            q.len[SECOND] = from;
                            q.len[OUT] = k / 20 == 0 ? right : k / 20 == 1 ? from : k / 20 == 2 ? 0 : right + 1;
                        }
                        if (what == UNWRAP) put_source(&q, space[STORE] + MARGIN, space[WORKING] + MARGIN, space[SECOND] + MARGIN, k % 4);
                        if (what == CHECK) q.len[OUT] = 1;
                        if (what == STREAM) q.a = next();
                        if (what == EXPAND) {
                            q.b = ls[k % COUNT(ls)];
                            uint64_t l = q.b == 3 || q.b == 4 ? q.b : 2;
                            size_t lengths[] = {8 * n * l, 8 * n * l - 1, 0, 8 * n * l + 1};
                            q.len[FIRST] = lengths[k / COUNT(ls) % 4];
                        }
                        one_call(&q);
                    }
}

/* Wrapping and unwrapping: each length of source and of destination, from 0 to 144, with each, by set 0 and another; a source that can be unwrapped is
 * mostly a wrapped key. */
static void wrap_grid(enum what only)
{
    enum { MOST_TRIED = 144 };
    for (int what = WRAP; what <= UNWRAP; what++)
        for (uint64_t set = 0; set < 2 && (only == WHATS || (int)only == what); set++)
            for (size_t from = 0; from <= MOST_TRIED && !enough(); from++) {
                by_hand(space[STORE] + MARGIN, below(6), below(6));
                fill(space[WORKING] + MARGIN, WORKING_LEN);
                put_number(space[WORKING] + MARGIN, 1);
                put_number(space[WORKING] + MARGIN + 8, set);
                for (size_t to = 0; to <= MOST_TRIED; to++) {
                    struct asked q = {.what = (enum what)what, .len = {STORE_LEN, WORKING_LEN, 0, from, to}};
                    int fits = to + SEMI == from, way = fits || below(8) == 0 ? 0 : 3;
                    if (what == WRAP) fill(space[SECOND] + MARGIN, from);
                    if (what == UNWRAP) put_source(&q, space[STORE] + MARGIN, space[WORKING] + MARGIN, space[SECOND] + MARGIN, way);
                    one_call(&q);
                    for (way = 1; way < 4 && what == UNWRAP && fits; way++) {
                        put_source(&q, space[STORE] + MARGIN, space[WORKING] + MARGIN, space[SECOND] + MARGIN, way);
                        one_call(&q);
                    }
                }
            }
}

/* a bit for each number that a function gives */
static const int given_by[WHATS] = {0x11,   0x1E011, 0x8011, 0x801F, 0x8033, 0x8033,  0x8033, 0x8033,
                                    0x8073, 0x8073,  0x8073, 0x9813, 0x9813, 0x29033, 0x69033};

static void grids(enum what only)
{
    memset(seen, 0, sizeof seen);
    for (int b = 0; b < LENTS; b++) fill(space[b], sizeof space[b]);
    if (only == WHATS || only <= TAKE) store_grid(only);
    if (only == WHATS || only > TAKE) key_grid(only);
    if (only == WHATS || wraps(only)) wrap_grid(only);
    if (enough() || only != WHATS) return;
    for (int what = 0; what < WHATS; what++)
        for (int number = 0; number <= LAST_NUMBER; number++)
            if ((given_by[what] >> number & 1) != (seen[what][number] > 0))
                wrong("%s: the grid has %ld calls with the number %d", names[what], seen[what][number], number);
}

/* ---- histories: two publishers' calls, each store byte for byte */

static void history(int calls)
{
    uint8_t before[STORE_LEN];
    struct asked q = {.what = FRESH, .len = {STORE_LEN}};
    one_call(&q);
    for (int i = 0; i < calls && !enough(); i++) {
        q.what = below(2) ? LOAD : TAKE;
        q.a = below(9) ? below(2) : 2;
        q.b = below(9) ? below(4) : 4;
        q.len[FIRST] = 256;
        q.len[SECOND] = 8;
        shuffle(space[FIRST] + MARGIN);
        any_row(space[SECOND] + MARGIN);
        if (below(8) == 0) space[FIRST][MARGIN] = space[FIRST][MARGIN + 1];
        if (below(8) == 0) space[SECOND][MARGIN] ^= row_sum(space[SECOND] + MARGIN, 8);
        one_call(&q);
    }
    /* loaded, taken, not to be loaded over, dropped, loaded over */
    static const struct { enum what what; uint64_t publisher, set; uint8_t number; } steps[] = {
        {FRESH, 0, 0, 0}, {TAKE, 0, 1, 15}, {LOAD, 0, 1, 0}, {LOAD, 1, 1, 0}, {TAKE, 0, 1, 0}, {TAKE, 0, 1, 0}, {LOAD, 0, 1, 16}, {LOAD, 1, 1, 16},
        {TAKE, 1, 1, 0}, {TAKE, 0, 2, 15}, {LOAD, 0, 1, 16}, {TAKE, 0, 0, 0}, {LOAD, 0, 1, 16}, {TAKE, 1, 0, 0}, {LOAD, 0, 1, 0}, {LOAD, 0, 0, 16},
        {LOAD, 2, 0, 15}, {TAKE, 2, 0, 15}, {LOAD, 0, 4, 15}};
    for (int i = 0; i < COUNT(steps); i++) {
        shuffle(space[FIRST] + MARGIN);
        any_row(space[SECOND] + MARGIN);
        memcpy(before, space[STORE] + MARGIN, STORE_LEN);
        q.what = steps[i].what;
        q.a = steps[i].publisher;
        q.b = steps[i].set;
        q.at[STORE] = before;
        q.at[FIRST] = space[FIRST] + MARGIN;
        q.at[SECOND] = space[SECOND] + MARGIN;
        if (expected_number(&q) != steps[i].number) wrong("step %d of the history is expected to give another number", i);
        one_call(&q);
    }
}

/* ---- what blocks, runs and tags are */

/* A call that must be done. */
static void done(enum what what, const uint8_t *store, const uint8_t *working, const uint8_t *first, size_t first_len, const uint8_t *second, size_t second_len,
                 uint8_t *out, size_t out_len, uint64_t q)
{
    struct asked call = {.what = what, .a = q, .len = {STORE_LEN, WORKING_LEN, first_len, second_len, out_len}};
    call.at[STORE] = (uint8_t *)(uintptr_t)store;
    call.at[WORKING] = (uint8_t *)(uintptr_t)working;
    call.at[FIRST] = (uint8_t *)(uintptr_t)first;
    call.at[SECOND] = (uint8_t *)(uintptr_t)second;
    call.at[OUT] = out;
    asked_calls++;
    if (ask(&call) != 0) wrong("%s: refused", names[what]);
}

static void expand_to(const uint8_t *store, size_t n, size_t l, uint64_t set, const uint8_t *key, uint8_t *working)
{
    struct asked call = {.what = EXPAND, .a = n, .b = l, .c = set, .len = {STORE_LEN, WORKING_LEN, 8 * n * l}};
    call.at[STORE] = (uint8_t *)(uintptr_t)store;
    call.at[WORKING] = working;
    call.at[FIRST] = (uint8_t *)(uintptr_t)key;
    asked_calls++;
    if (ask(&call) != 0) wrong("expand: refused");
}

enum { MOST = 1 << 15 };
static uint8_t src[MOST], made[MOST], again[MOST], expected[MOST];

static void same(const char *what, size_t n, uint64_t set, const uint8_t *a, const uint8_t *b, size_t len)
{
    if (len && memcmp(a, b, len) != 0) wrong("n %zu, set %d: %s", n, (int)set, what);
}

/* A source that isn't what wrapping makes: 18, and the destination is as it was. */
static void not_taken(const char *why, const uint8_t *store, const uint8_t *working, const uint8_t *wrapped, size_t len)
{
    uint8_t key[MOST_KEY], before[MOST_KEY];
    struct asked call = {.what = UNWRAP, .len = {STORE_LEN, WORKING_LEN, 0, len, len - SEMI}};
    call.at[STORE] = (uint8_t *)(uintptr_t)store;
    call.at[WORKING] = (uint8_t *)(uintptr_t)working;
    call.at[SECOND] = (uint8_t *)(uintptr_t)wrapped;
    call.at[OUT] = key;
    fill(key, sizeof key);
    memcpy(before, key, sizeof key);
    asked_calls++;
    uint8_t number = ask(&call);
    if (number != 18) wrong("%s: %d, not 18: %s", names[UNWRAP], number, why);
    if (memcmp(key, before, sizeof key) != 0) wrong("%s: bytes written: %s", names[UNWRAP], why);
}

/* A key of each length wrapped over the block's own function, and unwrapped with the other store; altered, or under another key, it isn't taken. */
static void wrapping_laws(const uint8_t *store, const uint8_t *other, const uint8_t *working, uint64_t set)
{
    uint8_t key[MOST_KEY], wrapped[MOST_WRAPPED], right[MOST_WRAPPED], back[MOST_KEY], second[WORKING_LEN];
    memcpy(second, working, WORKING_LEN);
    second[16 + below(64)] ^= (uint8_t)(1 << below(8));
    for (size_t len = 16; len <= MOST_KEY; len += SEMI) {
        fill(key, len);
        wrap_by_blocks(store, working, check_value, key, len, right);
        done(WRAP, store, working, NULL, 0, key, len, wrapped, len + SEMI, 0);
        same("not KW over the block", 1, set, wrapped, right, len + SEMI);
        done(UNWRAP, other, working, NULL, 0, wrapped, len + SEMI, back, len, 0);
        same("a wrapped key does not unwrap", 1, set, back, key, len);
        not_taken("under another key", store, second, wrapped, len + SEMI);
        wrapped[below(len + SEMI)] ^= (uint8_t)(1 << below(8));
        not_taken("altered", store, working, wrapped, len + SEMI);
    }
}

/* Every bit of the check value, and at wrapped keys of three lengths every bit, altered. How many bits. */
static long wrapped_bits(void)
{
    static const size_t lengths[] = {16, 56, MOST_KEY};
    uint8_t store[STORE_LEN], working[WORKING_LEN], key[MOST_KEY], check[SEMI], wrapped[MOST_WRAPPED];
    long bits = 0;
    for (uint64_t set = 0; set < 2; set++)
        for (int i = 0; i < COUNT(lengths); i++) {
            by_hand(store, 4, 4);
            fill(working, WORKING_LEN);
            put_number(working, 1);
            put_number(working + 8, set);
            fill(key, lengths[i]);
            for (size_t bit = 0; bit < 8 * SEMI && !enough(); bit++, bits++) {
                memcpy(check, check_value, SEMI);
                check[bit / 8] ^= (uint8_t)(1 << bit % 8);
                wrap_by_blocks(store, working, check, key, lengths[i], wrapped);
                not_taken("one bit of the check value is wrong", store, working, wrapped, lengths[i] + SEMI);
            }
            wrap_by_blocks(store, working, check_value, key, lengths[i], wrapped);
            for (size_t bit = 0; bit < 8 * (lengths[i] + SEMI) && !enough(); bit++, bits++) {
                wrapped[bit / 8] ^= (uint8_t)(1 << bit % 8);
                not_taken("one bit altered", store, working, wrapped, lengths[i] + SEMI);
                wrapped[bit / 8] ^= (uint8_t)(1 << bit % 8);
            }
        }
    return bits;
}

/* With such a working key, a store that has its set and another: a block, CBC, CTR, tags and wrapped keys over the block's own function, and back
 * with the other store. With set 0 all is what the functions that take a key give. */
static void laws_of(const uint8_t *store, const uint8_t *other, const uint8_t *working, size_t n, size_t l, uint64_t set, const uint8_t *key, size_t blocks)
{
    size_t block = 16 * n, whole = blocks * block, all = whole + 5, key_len = 8 * n * l;
    uint8_t start[64], counter[64], stream[64], back[64], mask[16] = {0}, tag[16], yes;
    uint64_t q = next();
    fill(start, block);
    fill(src, all);
    memset(start, 0xFF, block - 3);
    for (size_t at = 0; at < whole; at += block) {
        for (size_t i = 0; i < block; i++) stream[i] = src[at + i] ^ (at ? expected[at - block + i] : start[i]);
        done(ENCIPHER, store, working, NULL, 0, stream, block, expected + at, block, 0);
        if (at >= 3 * block) continue;
        done(DECIPHER, other, working, NULL, 0, expected + at, block, back, block, 0);
        same("decipher does not undo encipher", n, set, back, stream, block);
        done(BY_MATRIX, other, working, NULL, 0, stream, block, back, block, 0);
        same("by the matrix another block", n, set, back, expected + at, block);
        done(BACK_BY_MATRIX, store, working, NULL, 0, expected + at, block, back, block, 0);
        same("decipher by the matrix does not undo", n, set, back, stream, block);
        if (set == 0 && labyrinth_encipher(n, l, key, key_len, stream, block, back, block) != 0) wrong("encipher refused");
        if (set == 0) same("not labyrinth_encipher's block", n, set, back, expected + at, block);
    }
    done(SEAL, store, working, start, block, src, whole, made, whole, 0);
    same("not CBC over the block", n, set, made, expected, whole);
    done(OPEN, other, working, start, block, made, whole, again, whole, 0);
    same("CBC does not open", n, set, again, src, whole);
    for (uint64_t i = 0; i * block < all; i++) {
        unsigned carry = 0;
        uint64_t add = q + i;
        int over = add < q; /* past 2^64 */
        for (size_t p = block; p-- > 0; carry >>= 8) {
            size_t from = block - 1 - p;
            carry += start[p] + (from < 8 ? (unsigned)(add >> 8 * from & 0xFF) : from == 8 ? (unsigned)over : 0);
            counter[p] = (uint8_t)carry;
        }
        done(ENCIPHER, store, working, NULL, 0, counter, block, stream, block, 0);
        for (size_t p = 0; p < block && i * block + p < all; p++) expected[i * block + p] = src[i * block + p] ^ stream[p];
    }
    done(STREAM, store, working, start, block, src, all, made, all, q);
    same("not CTR over the block", n, set, made, expected, all);
    done(STREAM, other, working, start, block, made, all, again, all, q);
    same("CTR does not open", n, set, again, src, all);
    if (n != 1) return;
    size_t left = all;
    const uint8_t *message = src;
    memset(counter, 0, 16);
    done(ENCIPHER, store, working, NULL, 0, counter, 16, mask, 16, 0);
    for (int times = left % 16 == 0 && left != 0 ? 1 : 2; times > 0; times--) {
        uint8_t out = mask[0] >> 7;
        for (int i = 0; i < 16; i++) mask[i] = (uint8_t)(mask[i] << 1 | (i < 15 ? mask[i + 1] >> 7 : 0));
        if (out) mask[15] ^= 0x87;
    }
    memset(stream, 0, 16);
    for (; left > 16; message += 16, left -= 16) {
        for (size_t i = 0; i < 16; i++) counter[i] = stream[i] ^ message[i];
        done(ENCIPHER, store, working, NULL, 0, counter, 16, stream, 16, 0);
    }
    for (size_t i = 0; i < 16; i++) counter[i] = stream[i] ^ mask[i] ^ (i < left ? message[i] : i == left ? 0x80 : 0);
    done(ENCIPHER, store, working, NULL, 0, counter, 16, stream, 16, 0);
    for (size_t tag_len = 8; tag_len <= 16; tag_len++) {
        memset(tag, 0xAA, 16);
        done(TAG, store, working, NULL, 0, src, all, tag, tag_len, 0);
        same("not CMAC over the block", n, set, tag, stream, tag_len);
        yes = 0xAA;
        done(CHECK, other, working, tag, tag_len, src, all, &yes, 1, 0);
        if (yes != 1) wrong("set %d: a tag is not verified", (int)set);
        tag[below(tag_len)] ^= (uint8_t)(1 << below(8));
        done(CHECK, other, working, tag, tag_len, src, all, &yes, 1, 0);
        if (yes != 0) wrong("set %d: an altered tag is verified", (int)set);
    }
    if (set == 0 && labyrinth_cmac(l, key, key_len, src, all, tag, 16) != 0) wrong("cmac refused");
    if (set == 0) same("not labyrinth_cmac's tag", n, set, tag, stream, 16);
    wrapping_laws(store, other, working, set);
}

/* All sizes and sets: keys expanded with one store and used with it and with another that has the same set; words past 8n that mean nothing;
 * a set loaded anew; the example of another program. */
static void set_laws(size_t blocks)
{
    uint8_t store[STORE_LEN], other[STORE_LEN], working[WORKING_LEN], second[WORKING_LEN], key[128], block[64], one[64], two[64];
    for (size_t n = 1; n <= 4; n *= 2)
        for (size_t l = 2; l <= 4; l++)
            for (uint64_t set = 0; set < 4 && !enough(); set++) {
                by_hand(store, below(9), below(9));
                by_hand(other, below(9), below(9));
                shuffle(store + SET * set);
                any_row(store + SET * set + 256);
                if (set) memcpy(other + SET * set, store + SET * set, SET);
                fill(key, 8 * n * l);
                expand_to(store, n, l, set, key, working);
                expand_to(other, n, l, set, key, second);
                if (memcmp(working, second, WORKING_LEN) != 0) wrong("n %zu, set %d: another working key by a store with the same set", n, (int)set);
                laws_of(store, other, working, n, l, set, key, blocks);
                fill(second + 16 + 64 * n, WORKING_LEN - 16 - 64 * n);
                fill(block, 16 * n);
                done(ENCIPHER, store, working, NULL, 0, block, 16 * n, one, 16 * n, 0);
                done(ENCIPHER, store, second, NULL, 0, block, 16 * n, two, 16 * n, 0);
                same("words past 8n change a block", n, set, one, two, 16 * n);
                if (set == 0) continue;
                any_row(other + SET * set + 256);
                done(ENCIPHER, other, working, NULL, 0, block, 16 * n, two, 16 * n, 0);
                if (memcmp(one, two, 16 * n) == 0) wrong("n %zu, set %d: a row loaded anew changes no block", n, (int)set);
                if (n == 1) {
                    done(WRAP, store, working, NULL, 0, key, 16, two, 24, 0);
                    not_taken("a row loaded anew", other, working, two, 24);
                }
                fill(second + 16, WORKING_LEN - 16); /* a working key made by hand */
                laws_of(store, store, second, n, l, set, key, 2);
            }
    /* the substitution v to 255 - v, the row 02 and seven 00, and zeros, from another program */
    static const uint8_t example[16] = {0x10, 0x83, 0xC6, 0xBF, 0x73, 0x38, 0xB0, 0xD1, 0xA7, 0x6B, 0x50, 0x69, 0x17, 0xD2, 0xC2, 0xAB};
    memset(store, 0, STORE_LEN);
    for (int i = 0; i < 256; i++) store[SET + i] = (uint8_t)(255 - i);
    store[SET + 256] = 2;
    memset(key, 0, 16);
    memset(block, 0, 16);
    expand_to(store, 1, 2, 1, key, working);
    done(ENCIPHER, store, working, NULL, 0, block, 16, one, 16, 0);
    same("not the example's block", 1, 1, one, example, 16);
}

/* A fresh store: the published row, a substitution that as a set of its own gives the published cipher, zeros, and no marks. */
static void fresh_store(void)
{
    static const uint8_t zeros[3 * SET];
    uint8_t store[STORE_LEN], by_0[WORKING_LEN], by_3[WORKING_LEN], key[32], block[16], one[16], two[16];
    fill(store, STORE_LEN);
    if (labyrinth_store_fresh(store, STORE_LEN) != 0) wrong("store_fresh: refused");
    memcpy(first_fresh, store, STORE_LEN);
    if (!different(store) || memcmp(store + 256, published, 8) != 0 || memcmp(store + SET, zeros, sizeof zeros) != 0 || number_at(store + MARKS) != 4 ||
        number_at(store + MARKS + 8) != 4)
        wrong("store_fresh: not a fresh store");
    memcpy(store + 3 * SET, store, SET);
    memset(store, 0, SET);
    fill(key, 32);
    fill(block, 16);
    expand_to(store, 1, 4, 0, key, by_0);
    expand_to(store, 1, 4, 3, key, by_3);
    if (memcmp(by_0 + 16, by_3 + 16, WORKING_LEN - 16) != 0) wrong("the published set elsewhere expands to other words");
    done(ENCIPHER, store, by_0, NULL, 0, block, 16, one, 16, 0);
    done(ENCIPHER, store, by_3, NULL, 0, block, 16, two, 16, 0);
    same("the published set elsewhere gives another block", 1, 3, one, two, 16);
}

/* ---- lengths of 2^32 and more: each that fits once bits are lost */

static long far_records(void)
{
    uint8_t *far_off = mmap(NULL, far + ROOM, PROT_READ, MAP_PRIVATE | MAP_ANONYMOUS | MAP_NORESERVE, -1, 0);
    long calls = 0;
    if (far_off == MAP_FAILED) stop("mmap");
    for (int what = 0; what < WHATS; what++)
        for (int b = 0; b < LENTS; b++) {
            struct asked q = {.what = (enum what)what, .a = what == EXPAND, .b = what == EXPAND ? 2 : 1, .len = {STORE_LEN, WORKING_LEN, 16, 16, 16}};
            if (!takes(q.what, (enum lent)b) || (b == OUT && what == CHECK) || (b == SECOND && tags_it(q.what))) continue;
            by_hand(space[STORE] + MARGIN, 4, 4);
            put_number(space[WORKING] + MARGIN, 1);
            put_number(space[WORKING] + MARGIN + 8, what % 2);
            shuffle(space[FIRST] + MARGIN);
            any_row(space[SECOND] + MARGIN);
            if (what == LOAD) q.len[FIRST] = 256, q.len[SECOND] = 8;
            if (wraps(q.what)) q.len[what == WRAP ? OUT : SECOND] = 24;
            for (int i = 0; i < LENTS; i++) q.at[i] = space[i] + MARGIN;
            q.at[b] = far_off;
            q.len[b] += far;
            memcpy(kept, space, sizeof kept);
            uint8_t number = expected_number(&q), got = ask(&q);
            calls++;
            if (number == 0 || got != number) wrong("%s: buffer %d too long by 2^32: %d, not %d", names[what], b, got, number);
            if (what == CHECK) space[OUT][MARGIN] = kept[OUT][MARGIN];
            if (memcmp(space, kept, sizeof kept) != 0) wrong("%s: buffer %d too long by 2^32, and bytes written", names[what], b);
        }
    munmap(far_off, far + ROOM);
    return calls;
}

/* ---- lent memory: each buffer flush against a page that cannot be touched, what is only read not to be written; nor, if a key is refused to be wrapped or
 * unwrapped, the destination, not while the call runs either */

static size_t lent_size;
static uint8_t *lent[LENTS];

static void lend_records(void)
{
    size_t page = (size_t)sysconf(_SC_PAGESIZE);
    lent_size = page;
    for (int b = 0; b < LENTS && !lent[b]; b++) {
        uint8_t *at = mmap(NULL, 3 * page, PROT_NONE, MAP_PRIVATE | MAP_ANONYMOUS, -1, 0);
        if (at == MAP_FAILED || mprotect(at + page, page, PROT_READ | PROT_WRITE) != 0) stop("mmap");
        lent[b] = at + page;
    }
}

static void records_case(int only, int place)
{
    uint8_t before[LENTS][MOST];
    struct asked q = {.what = only < WHATS ? (enum what)only : (enum what)below(WHATS), .a = below(3), .b = below(5), .c = below(5)};
    uint64_t n = q.what >= TAG ? 1 : (uint64_t)1 << below(3);
    size_t block = 16 * (size_t)n;
    if (q.what == EXPAND) q.a = n, q.b = 2 + below(3);
    size_t len[LENTS] = {STORE_LEN, WORKING_LEN, block, is_block(q.what) ? block : below(3) ? block * below(20) : below(lent_size), 0};
    if (q.what == LOAD) len[FIRST] = 256, len[SECOND] = 8;
    if (q.what == EXPAND) len[FIRST] = 8 * (size_t)(n * q.b);
    if (q.what == SEAL || q.what == OPEN) len[SECOND] -= len[SECOND] % block;
    if (wraps(q.what)) len[SECOND] = (q.what == WRAP ? 16 : 24) + SEMI * below(15);
    len[OUT] = q.what == CHECK ? 1 : q.what == TAG ? 8 + below(9) : q.what == WRAP ? len[SECOND] + SEMI : q.what == UNWRAP ? len[SECOND] - SEMI : len[SECOND];
    if (q.what == CHECK) len[FIRST] = 8 + below(9);
    size_t odd = below(12); /* now and then a buffer of another length */
    if (odd < LENTS && !(q.what == CHECK && odd == OUT)) len[odd] = below(2) ? below(lent_size) : len[odd] + 1;
    for (int b = 0; b < LENTS; b++) {
        int at_start = place == PLACE_ANY ? (int)below(2) : place;
        q.len[b] = takes(q.what, (enum lent)b) ? len[b] : 0;
        if (q.len[b] > lent_size) q.len[b] = lent_size;
        q.at[b] = at_start ? lent[b] : lent[b] + lent_size - q.len[b];
        fill(lent[b], lent_size);
        if (q.len[b] == 0 && below(2)) q.at[b] = NULL;
    }
    if (q.len[STORE] >= STORE_LEN) by_hand(q.at[STORE], below(6), below(6));
    if (q.len[WORKING] >= 16) put_number(q.at[WORKING], below(12) ? n : 3), put_number(q.at[WORKING] + 8, below(4) ? below(2) : below(5));
    if (q.what == LOAD && q.len[FIRST] >= 256) shuffle(q.at[FIRST]);
    if (q.what == UNWRAP) put_source(&q, q.at[STORE], q.at[WORKING], q.at[SECOND], below(2) ? 0 : 1 + (int)below(3));
    for (int b = 0; b < LENTS; b++) memcpy(before[b], lent[b], lent_size);
    uint8_t number = expected_number(&q);
    for (int b = 0; b < LENTS; b++)
        if (((enum lent)b != written_by(q.what) || (wraps(q.what) && number != 0)) && mprotect(lent[b], lent_size, PROT_READ) != 0) stop("mprotect");
    uint8_t got = ask(&q);
    for (int b = 0; b < LENTS; b++)
        if (mprotect(lent[b], lent_size, PROT_READ | PROT_WRITE) != 0) stop("mprotect");
    if (got != number) wrong("%s: on lent memory %d, not %d", names[q.what], got, number);
    enum lent w = written_by(q.what);
    size_t from = q.at[w] ? (size_t)(q.at[w] - lent[w]) : 0, to = from + (number == 0 || q.what == CHECK ? q.len[w] : 0);
    if (memcmp(lent[w], before[w], from) != 0 || memcmp(lent[w] + to, before[w] + to, lent_size - to) != 0)
        wrong("%s: on lent memory number %d, and bytes written that are not to be", names[q.what], got);
    if (wraps(q.what) && number == 0 && got == 0 && !changed_right(&q, q.at[STORE])) wrong("%s: on lent memory another key", names[q.what]);
}

static int records_memory(enum what only, uint64_t seed, long cases, int place) { return in_child(records_case, only, seed, cases, place); }

/* ---- stack: by each function, with set 0 and another, at all sizes and lengths about 8 KiB */

static struct asked there;

static void ask_there(void) { sink = ask(&there); }

static size_t records_stack(size_t *each)
{
    static const size_t lengths[] = {0, 64, 8192, 8192 + 64, 16384};
    static uint8_t store[STORE_LEN], working[WORKING_LEN], first[256], row[8];
    size_t most = 0;
    for (int what = 0; what < WHATS; what++) {
        each[what] = 0;
        for (size_t n = 1; n <= (what >= TAG ? 1 : 4); n *= 2) /* n is 1 for tags and wrapped keys */
            for (uint64_t set = 0; set < 3; set++)
                for (int i = 0; i < COUNT(lengths); i++) {
                    by_hand(store, 4, 4);
                    put_number(working, n);
                    put_number(working + 8, set);
                    shuffle(first);
                    any_row(row);
                    there = (struct asked){.what = (enum what)what, .a = what == EXPAND ? n : 1, .b = what == EXPAND ? 4 : 1, .c = set,
                                           .at = {store, working, first, what == LOAD ? row : src, made},
                                           .len = {STORE_LEN, WORKING_LEN, 16 * n, is_block((enum what)what) ? 16 * n : lengths[i], 0}};
                    if (what == LOAD) there.len[FIRST] = 256, there.len[SECOND] = 8;
                    if (what == EXPAND) there.len[FIRST] = 32 * n;
                    if (what == CHECK) there.len[FIRST] = 16;
                    there.len[OUT] = what == TAG ? 16 : there.len[SECOND];
                    if (wraps(there.what)) { /* from the shortest key to the longest, which unwraps */
                        size_t key_len = 16 + 28 * (size_t)i / SEMI * SEMI;
                        there.len[what == WRAP ? SECOND : OUT] = key_len;
                        there.len[what == WRAP ? OUT : SECOND] = key_len + SEMI;
                        if (what == UNWRAP) put_source(&there, store, working, src, 0);
                    }
                    size_t used = stack_by(ask_there);
                    if (used > LABYRINTH_STACK) wrong("%s: %zu bytes of stack, and the header says %d", names[what], used, LABYRINTH_STACK);
                    if (used > each[what]) each[what] = used;
                }
        if (each[what] > most) most = each[what];
    }
    return most;
}

/* ---- stubs: each does what the library does, but for one thing, and the trials must notice */

enum fault { HONEST, EXCHANGES, TOUCHES, KEEPS_OLD, ALTERS, READS_SET_0, MARK_AS_3, FORGETS_MARK, HOLDS_LOADED, CUTS_SET, CUTS_N, LEAVES_YES, TAKES_LONGER,
             FIVE_FIRST, CHECKS_FIRST, LOOKS_AT_4, UNDOES, READS_PAST, READS_BEFORE, WRITES, DEEP };
static struct { enum fault fault; enum what what; enum lent lent; uint8_t from, to; } faulty;

static uint8_t ask_stub(const struct asked *given)
{
    static uint8_t copy[MOST], changed[STORE_LEN], key[WORKING_LEN];
    struct asked q = *given;
    enum lent w = written_by(q.what);
    int mine = faulty.what == q.what || faulty.what == WHATS;
    volatile uint8_t deep[LABYRINTH_STACK + 512];
    if (mine && faulty.fault == DEEP)
        for (size_t i = 0; i < sizeof deep; i += 64) deep[i] = 1, sink = deep[i];
    if (mine && faulty.fault == READS_PAST && q.at[faulty.lent]) sink = q.at[faulty.lent][q.len[faulty.lent]];
    if (mine && faulty.fault == READS_BEFORE && q.at[faulty.lent]) sink = q.at[faulty.lent][-1];
    if (mine && faulty.fault == WRITES && q.len[faulty.lent]) *(volatile uint8_t *)q.at[faulty.lent] = q.at[faulty.lent][0];
    if (q.len[w] && q.len[w] <= MOST && q.at[w]) memcpy(copy, q.at[w], q.len[w]);
    int whole = q.len[STORE] == STORE_LEN, keyed = q.what > EXPAND && whole && q.len[WORKING] == WORKING_LEN;
    if (mine && whole && (faulty.fault == READS_SET_0 || faulty.fault == MARK_AS_3 || faulty.fault == FORGETS_MARK || faulty.fault == HOLDS_LOADED)) {
        memcpy(changed, q.at[STORE], STORE_LEN);
        if (faulty.fault == READS_SET_0 && keyed && number_at(q.at[WORKING] + 8) == 0) { /* set 0 as it stands */
            memcpy(changed + SET, changed, SET);
            memcpy(key, q.at[WORKING], WORKING_LEN);
            put_number(key + 8, 1);
            q.at[WORKING] = key;
        }
        for (int p = 0; p < 2; p++) {
            uint64_t mark = number_at(changed + MARKS + 8 * p);
            if (faulty.fault == MARK_AS_3 && mark > 3) put_number(changed + MARKS + 8 * p, 3);
            if (faulty.fault == FORGETS_MARK && p == 1) put_number(changed + MARKS + 8 * p, 4);
            if (faulty.fault == HOLDS_LOADED && !is_loaded(changed, mark)) put_number(changed + MARKS + 8 * p, 4);
        }
        q.at[STORE] = changed;
    }
    if (mine && faulty.fault == CUTS_SET && keyed) {
        memcpy(key, q.at[WORKING], WORKING_LEN);
        memset(key + 9, 0, 7);
        q.at[WORKING] = key;
    }
    if (mine && faulty.fault == CUTS_N && keyed) {
        memcpy(key, q.at[WORKING], WORKING_LEN);
        memset(key + 4, 0, 4);
        q.at[WORKING] = key;
    }
    if (mine && faulty.fault == TAKES_LONGER && q.len[faulty.lent] > (faulty.lent == STORE ? STORE_LEN : WORKING_LEN))
        q.len[faulty.lent] = faulty.lent == STORE ? STORE_LEN : WORKING_LEN;
    uint8_t number = ask_library(&q);
    if (!mine) return number;
    if (q.at[STORE] == changed && q.what <= TAKE && number == 0) { /* what the call wrote, with the marks as they were */
        for (int p = 0; p < 2; p++)
            if (q.what == LOAD || q.a != (uint64_t)p) memcpy(changed + MARKS + 8 * p, given->at[STORE] + MARKS + 8 * p, 8);
        memcpy(given->at[STORE], changed, STORE_LEN);
    }
    if (faulty.fault == TOUCHES && number != 0 && number == faulty.from && given->len[w] && given->at[w] && given->len[w] <= MOST) given->at[w][below(given->len[w])] ^= 1;
    if (faulty.fault == LEAVES_YES && number != 0) given->at[w][0] = copy[0];
    if (faulty.fault == KEEPS_OLD && number == 0) memcpy(given->at[w], copy, given->len[w]);
    if (faulty.fault == ALTERS && number == 0 && given->len[w]) given->at[w][below(given->len[w])] ^= (uint8_t)(1 << below(8));
    if (faulty.fault == EXCHANGES && number == faulty.from) return faulty.to;
    if (faulty.fault == FIVE_FIRST && number == 17 && q.len[OUT] != q.len[SECOND] + SEMI && q.len[OUT] + SEMI != q.len[SECOND]) return 5;
    uint8_t unwrapped[MOST_KEY];
    if (faulty.fault == CHECKS_FIRST && number == 5 && !unwrap_by_blocks(q.at[STORE], q.at[WORKING], q.at[SECOND], q.len[SECOND], unwrapped)) return 18;
    if (faulty.fault == UNDOES && number == 18) *(volatile uint8_t *)q.at[OUT] ^= 1, *(volatile uint8_t *)q.at[OUT] ^= 1;
    if (faulty.fault == LOOKS_AT_4 && number == 18) {
        uint8_t string[MOST_WRAPPED];
        memcpy(string, q.at[SECOND], q.len[SECOND]);
        steps_back(q.at[STORE], q.at[WORKING], string, q.len[SECOND]);
        if (memcmp(string, check_value, 4) != 0) return number;
        memcpy(q.at[OUT], string + SEMI, q.len[OUT]);
        return 0;
    }
    return number;
}

/* All trials, short; how many failures they found. */
static long tried_all(uint64_t seed)
{
    long before = failures, found;
    quiet = 1;
    failures = 0;
    chance = seed;
    history(200);
    if (!failures) set_laws(2);
    if (!failures && (faulty.what == WHATS || faulty.what == UNWRAP)) wrapped_bits();
    if (!failures) grids(faulty.what);
    if (!failures) far_records();
    found = failures;
    failures = before;
    quiet = 0;
    return found;
}

static int noticed(int yes, const char *what)
{
    if (!yes) wrong("a stub passed for the library: %s %s %d", names[faulty.what < WHATS ? faulty.what : 0], what, faulty.from);
    return 1;
}

int try_record_stubs(uint64_t seed)
{
    enum { CASES = 1500 };
    static const struct { enum fault fault; enum what what; enum lent lent; uint8_t from, to; const char *does; } stubs[] = {
        {EXCHANGES, FRESH, STORE, 4, 5, "gives 5 for"}, {EXCHANGES, LOAD, STORE, 15, 14, "gives 14 for"}, {EXCHANGES, LOAD, STORE, 14, 13, "gives 13 for"},
        {EXCHANGES, LOAD, STORE, 13, 16, "gives 16 for"}, {EXCHANGES, LOAD, STORE, 16, 15, "gives 15 for"}, {EXCHANGES, LOAD, STORE, 4, 14, "gives 14 for"},
        {EXCHANGES, TAKE, STORE, 15, 16, "gives 16 for"}, {EXCHANGES, EXPAND, STORE, 15, 3, "gives 3 for"}, {EXCHANGES, EXPAND, STORE, 2, 15, "gives 15 for"},
        {EXCHANGES, ENCIPHER, STORE, 15, 4, "gives 4 for"}, {EXCHANGES, SEAL, STORE, 15, 6, "gives 6 for"}, {EXCHANGES, STREAM, STORE, 6, 15, "gives 15 for"},
        {EXCHANGES, TAG, STORE, 12, 15, "gives 15 for"}, {EXCHANGES, CHECK, STORE, 15, 12, "gives 12 for"}, {EXCHANGES, CHECK, STORE, 11, 0, "gives 0 for"},
        {MARK_AS_3, LOAD, STORE, 0, 0, "reads a mark above 3 as 3"}, {FORGETS_MARK, LOAD, STORE, 0, 0, "looks at one publisher's mark only"},
        {HOLDS_LOADED, LOAD, STORE, 0, 0, "holds loaded sets only"}, {READS_SET_0, ENCIPHER, STORE, 0, 0, "reads set 0 from the store"},
        {READS_SET_0, OPEN, STORE, 0, 0, "reads set 0 from the store"}, {READS_SET_0, CHECK, STORE, 0, 0, "reads set 0 from the store"},
        {CUTS_SET, DECIPHER, WORKING, 0, 0, "takes a set modulo 256"}, {CUTS_SET, TAG, WORKING, 0, 0, "takes a set modulo 256"},
        {CUTS_N, BY_MATRIX, WORKING, 0, 0, "takes n modulo 2^32"}, {CUTS_N, STREAM, WORKING, 0, 0, "takes n modulo 2^32"},
        {LEAVES_YES, CHECK, OUT, 0, 0, "leaves yes as it was on refusal"}, {TAKES_LONGER, WHATS, STORE, 0, 0, "takes a longer store"},
        {TAKES_LONGER, WHATS, WORKING, 0, 0, "takes a longer working key"},
        {EXCHANGES, WRAP, STORE, 12, 17, "gives 17 for"}, {EXCHANGES, WRAP, STORE, 15, 12, "gives 12 for"}, {EXCHANGES, WRAP, STORE, 17, 4, "gives 4 for"},
        {EXCHANGES, WRAP, STORE, 5, 17, "gives 17 for"}, {EXCHANGES, UNWRAP, STORE, 18, 17, "gives 17 for"}, {EXCHANGES, UNWRAP, STORE, 18, 0, "gives 0 for"},
        {EXCHANGES, UNWRAP, STORE, 5, 18, "gives 18 for"}, {EXCHANGES, UNWRAP, STORE, 12, 15, "gives 15 for"}, {FIVE_FIRST, WRAP, OUT, 0, 0, "looks for 5 before 17"},
        {FIVE_FIRST, UNWRAP, OUT, 0, 0, "looks for 5 before 17"}, {CHECKS_FIRST, UNWRAP, OUT, 0, 0, "looks for 18 before 5"},
        {LOOKS_AT_4, UNWRAP, OUT, 0, 0, "looks at half of the check value"}, {READS_SET_0, WRAP, STORE, 0, 0, "reads set 0 from the store"},
        {READS_SET_0, UNWRAP, STORE, 0, 0, "reads set 0 from the store"}, {CUTS_SET, WRAP, WORKING, 0, 0, "takes a set modulo 256"},
        {CUTS_N, UNWRAP, WORKING, 0, 0, "takes n modulo 2^32"},
    };
    int trials = 0;
    ask = ask_stub;
    faulty.fault = HONEST;
    faulty.what = WHATS;
    trials += noticed(tried_all(seed) == 0, "does as the library does");
    for (int place = PLACE_END; place <= PLACE_ANY; place++) trials += noticed(records_memory(WHATS, seed, CASES, place) == 0, "does as the library does on lent memory");
    for (size_t i = 0; i < sizeof stubs / sizeof *stubs; i++) {
        faulty.fault = stubs[i].fault;
        faulty.what = stubs[i].what;
        faulty.lent = stubs[i].lent;
        faulty.from = stubs[i].from;
        faulty.to = stubs[i].to;
        trials += noticed(tried_all(seed) > 0, stubs[i].does);
    }
    for (int what = 0; what < WHATS; what++) {
        faulty.what = (enum what)what;
        faulty.fault = KEEPS_OLD;
        trials += noticed(tried_all(seed) > 0, "writes nothing");
        faulty.fault = ALTERS;
        trials += noticed(tried_all(seed) > 0, "alters a bit");
        faulty.fault = TOUCHES;
        for (faulty.from = 1; faulty.from <= LAST_NUMBER && what != CHECK; faulty.from++)
            if (given_by[what] >> faulty.from & 1) trials += noticed(tried_all(seed) > 0, "touches what it is to keep, with the number");
        for (int b = 0; b < LENTS; b++) {
            if (!takes(faulty.what, (enum lent)b)) continue;
            faulty.lent = (enum lent)b;
            faulty.fault = READS_PAST;
            trials += noticed(records_memory(faulty.what, seed, CASES, PLACE_END) == SIGSEGV, "reads one byte past");
            faulty.fault = READS_BEFORE;
            trials += noticed(records_memory(faulty.what, seed, CASES, PLACE_START) == SIGSEGV, "reads one byte before");
            faulty.fault = WRITES;
            if (faulty.lent != written_by(faulty.what)) trials += noticed(records_memory(faulty.what, seed, CASES, PLACE_ANY) == SIGSEGV, "writes to what is only read");
        }
    }
    faulty.fault = UNDOES;
    faulty.what = UNWRAP;
    trials += noticed(records_memory(UNWRAP, seed, CASES, PLACE_ANY) == SIGSEGV, "writes to the destination, and takes it back, with 18");
    size_t each[WHATS];
    long before = failures;
    faulty.fault = DEEP;
    faulty.what = WHATS;
    quiet = 1;
    size_t most = records_stack(each);
    quiet = 0;
    failures = before;
    trials += noticed(most > LABYRINTH_STACK, "uses more stack");
    ask = ask_library;
    return trials;
}

/* All of it; the number of calls, and the most stack. */
long records(uint64_t seed, int large, size_t *most)
{
    size_t each[WHATS];
    asked_calls = 0;
    chance = seed;
    lend_records();
    fresh_store();
    history(large ? 100000 : 4000);
    for (size_t blocks = 0; blocks < 6; blocks++) set_laws(blocks);
    set_laws(300); /* over 8 KiB at n = 2 and 4, where the eight tables are used */
    enum { BITS = 2 * (3 * 64 + 8 * (24 + 64 + 136)) };
    long bits = wrapped_bits();
    if (bits != BITS) wrong("%ld bits of wrapped keys altered, not %d", bits, BITS);
    grids(WHATS);
    asked_calls += far_records();
    *most = records_stack(each);
    for (int what = 0; large && what < WHATS; what++) printf("c_interface: %s: %zu bytes of stack\n", names[what], each[what]);
    long cases = large ? 100000 : 4000;
    for (int place = PLACE_END; place <= PLACE_ANY; place++) {
        int died = records_memory(WHATS, seed + (uint64_t)place, cases, place);
        if (died != 0) wrong("records on lent memory, place %d: %s", place, died > 0 ? strsignal(died) : "see above");
        asked_calls += cases;
    }
    return asked_calls;
}
