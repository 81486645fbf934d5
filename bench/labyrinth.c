/* Labyrinth in C, written for the benchmark alone: the baseline that the proved code is measured against. By one table of 256
   words with rotations or by eight tables rotated beforehand; a block at a time or, where the mode allows, two side by side. The schedule is
   made beforehand, loads and stores are of 8 bytes, each size and shape is compiled by itself. It assumes a little-endian machine. */
#include "labyrinth.h"
#include <string.h>
#include "labyrinth_tables.h"

#define INLINE static inline __attribute__((always_inline))

static inline uint64_t rol(uint64_t x, int k) { return k ? x << k | x >> (64 - k) : x; }
static inline uint64_t load(const uint8_t *p) { uint64_t x; memcpy(&x, p, 8); return x; }
static inline void store(uint8_t *p, uint64_t x) { memcpy(p, &x, 8); }

static const uint64_t XC[4] = {0, 0x1111111111111111ULL, 0x2222222222222222ULL, 0x8888888888888888ULL};
static const int ORDER[16] = {0, 1, 2, 3, 4, 5, 6, 7, 0, 3, 6, 1, 4, 7, 2, 5};

static inline uint64_t sub(const uint8_t *s, uint64_t x) {
    return (uint64_t)s[x & 255] | (uint64_t)s[x >> 8 & 255] << 8 | (uint64_t)s[x >> 16 & 255] << 16 | (uint64_t)s[x >> 24 & 255] << 24
        | (uint64_t)s[x >> 32 & 255] << 32 | (uint64_t)s[x >> 40 & 255] << 40 | (uint64_t)s[x >> 48 & 255] << 48 | (uint64_t)s[x >> 56] << 56;
}

/* T rotated by 8b bits */
static uint64_t T8[8][256];

void lab_init(void) {
    for (int b = 0; b < 8; b++)
        for (int x = 0; x < 256; x++) T8[b][x] = rol(T[x], 8 * b);
}

/* l ^= F(r) under the key k: byte b of word j of the permuted half is byte b of word (j + b) mod n */
INLINE void round_(int n, int wide, const uint64_t *k, const uint64_t *r, uint64_t *l) {
    uint64_t y[4];
    for (int j = 0; j < n; j++) y[j] = r[j] + k[j];
    for (int j = 0; j < n; j++) {
        uint64_t v = XC[j];
        for (int b = 0; b < 8; b++) {
            uint64_t x = y[(j + b) % n] >> 8 * b & 255;
            v ^= wide ? T8[b][x] : rol(T[x], 8 * b);
        }
        l[j] ^= v;
    }
}

INLINE void imix(int n, uint64_t *l, uint64_t *r) {
    uint64_t d[4];
    for (int j = 0; j < n; j++) d[j] = l[j] ^ r[j];
    d[0] = rol(d[0], 28);
    for (int j = 0; j < n; j++) { l[j] ^= d[(j + n - 1) % n]; r[j] ^= d[(j + n - 1) % n]; }
}

/* k: IT low, IT high, sixteen rounds, FT low, FT high */
INLINE void enter(int n, const uint64_t *k, const uint8_t *src, uint64_t *l, uint64_t *r) {
    for (int j = 0; j < n; j++) {
        r[j] = rol(sub(S, load(src + 8 * j) + k[j]), 62);
        l[j] = rol(sub(S, load(src + 8 * n + 8 * j) + k[n + j]), 2);
    }
    imix(n, l, r);
}

INLINE void leave(int n, const uint64_t *k, uint64_t *l, uint64_t *r, uint8_t *dst) {
    imix(n, r, l);
    for (int j = 0; j < n; j++) {
        store(dst + 8 * j, sub(SI, rol(l[j], 2)) - k[18 * n + j]);
        store(dst + 8 * n + 8 * j, sub(SI, rol(r[j], 62)) - k[19 * n + j]);
    }
}

INLINE void block(int n, int wide, const uint64_t *k, const uint8_t *src, uint8_t *dst) {
    uint64_t l[4], r[4];
    enter(n, k, src, l, r);
    for (int i = 0; i < 16; i += 2) {
        round_(n, wide, k + (2 + i) * n, r, l);
        round_(n, wide, k + (3 + i) * n, l, r);
    }
    leave(n, k, l, r, dst);
}

/* two blocks, round by round in turn */
INLINE void two_blocks(int n, int wide, const uint64_t *k, const uint8_t *src, uint8_t *dst) {
    uint64_t l[4], r[4], l2[4], r2[4];
    enter(n, k, src, l, r);
    enter(n, k, src + 16 * n, l2, r2);
    for (int i = 0; i < 16; i += 2) {
        round_(n, wide, k + (2 + i) * n, r, l);
        round_(n, wide, k + (2 + i) * n, r2, l2);
        round_(n, wide, k + (3 + i) * n, l, r);
        round_(n, wide, k + (3 + i) * n, l2, r2);
    }
    leave(n, k, l, r, dst);
    leave(n, k, l2, r2, dst + 16 * n);
}

/* B blocks, round by round in turn, from words to words; x holds 2n words a block, the low half first */
INLINE void side_by_side(int n, int B, const uint64_t *k, uint64_t x[4][8]) {
    uint64_t l[4][4], r[4][4];
    for (int b = 0; b < B; b++) {
        for (int j = 0; j < n; j++) {
            r[b][j] = rol(sub(S, x[b][j] + k[j]), 62);
            l[b][j] = rol(sub(S, x[b][n + j] + k[n + j]), 2);
        }
        imix(n, l[b], r[b]);
    }
    for (int i = 0; i < 16; i += 2) {
        for (int b = 0; b < B; b++) round_(n, 1, k + (2 + i) * n, r[b], l[b]);
        for (int b = 0; b < B; b++) round_(n, 1, k + (3 + i) * n, l[b], r[b]);
    }
    for (int b = 0; b < B; b++) {
        imix(n, r[b], l[b]);
        for (int j = 0; j < n; j++) {
            x[b][j] = sub(SI, rol(l[b][j], 2)) - k[18 * n + j];
            x[b][n + j] = sub(SI, rol(r[b][j], 62)) - k[19 * n + j];
        }
    }
}

void lab_schedule(int n, const uint64_t *w, int back, uint64_t *k) {
    int order[20];
    order[0] = back ? 3 : 4;
    order[1] = back ? 6 : 7;
    for (int i = 0; i < 16; i++) order[2 + i] = ORDER[back ? 15 - i : i];
    order[18] = back ? 4 : 3;
    order[19] = back ? 7 : 6;
    for (int i = 0; i < 20; i++)
        for (int j = 0; j < n; j++) k[i * n + j] = w[order[i] * n + j];
}

INLINE void xor_bytes(int count, uint8_t *dst, const uint8_t *a, const uint8_t *b) {
    for (int i = 0; i < count; i += 8) store(dst + i, load(a + i) ^ load(b + i));
}

INLINE void each(int n, int wide, const uint64_t *k, const uint8_t *src, uint8_t *dst, size_t blocks) {
    for (size_t i = 0; i < blocks; i++) block(n, wide, k, src + 16 * n * i, dst + 16 * n * i);
}

INLINE void seal(int n, int wide, const uint64_t *k, const uint8_t *start, const uint8_t *src, uint8_t *dst, size_t blocks) {
    uint8_t x[64];
    const uint8_t *chain = start;
    for (size_t i = 0; i < blocks; i++) {
        xor_bytes(16 * n, x, src, chain);
        block(n, wide, k, x, dst);
        chain = dst;
        src += 16 * n;
        dst += 16 * n;
    }
}

INLINE void open(int n, int wide, int pairs, const uint64_t *k, const uint8_t *start, const uint8_t *src, uint8_t *dst, size_t blocks) {
    uint8_t x[128];
    const uint8_t *chain = start;
    for (; pairs && blocks >= 2; blocks -= 2) {
        two_blocks(n, wide, k, src, x);
        xor_bytes(16 * n, dst, x, chain);
        xor_bytes(16 * n, dst + 16 * n, x + 16 * n, src);
        chain = src + 16 * n;
        src += 32 * n;
        dst += 32 * n;
    }
    for (; blocks > 0; blocks--) {
        block(n, wide, k, src, x);
        xor_bytes(16 * n, dst, x, chain);
        chain = src;
        src += 16 * n;
        dst += 16 * n;
    }
}

/* c plus 1, its last byte least */
static inline void step(uint8_t *c, size_t size) {
    while (size > 0 && ++c[--size] == 0) {}
}

INLINE void count(int n, int wide, int pairs, const uint64_t *k, const uint8_t *start, const uint8_t *src, uint8_t *dst, size_t blocks) {
    uint8_t c[128], x[128];
    const size_t size = 16 * (size_t)n;
    memcpy(c, start, size);
    for (; pairs && blocks >= 2; blocks -= 2) {
        memcpy(c + size, c, size);
        step(c + size, size);
        two_blocks(n, wide, k, c, x);
        xor_bytes(32 * n, dst, src, x);
        memcpy(c, c + size, size);
        step(c, size);
        src += 32 * n;
        dst += 32 * n;
    }
    for (; blocks > 0; blocks--) {
        block(n, wide, k, c, x);
        xor_bytes(16 * n, dst, src, x);
        step(c, size);
        src += 16 * n;
        dst += 16 * n;
    }
}

INLINE void load_block(int n, uint64_t *x, const uint8_t *p) {
    for (int j = 0; j < 2 * n; j++) x[j] = load(p + 8 * j);
}

INLINE void xor_block(int n, uint8_t *dst, const uint64_t *x, const uint8_t *p) {
    for (int j = 0; j < 2 * n; j++) store(dst + 8 * j, x[j] ^ load(p + 8 * j));
}

INLINE void open_most(int n, int B, const uint64_t *k, const uint8_t *start, const uint8_t *src, uint8_t *dst, size_t blocks) {
    uint64_t x[4][8];
    const uint8_t *chain = start;
    for (; blocks >= (size_t)B; blocks -= (size_t)B) {
        for (int b = 0; b < B; b++) load_block(n, x[b], src + 16 * n * b);
        side_by_side(n, B, k, x);
        for (int b = 0; b < B; b++) xor_block(n, dst + 16 * n * b, x[b], b ? src + 16 * n * (b - 1) : chain);
        chain = src + 16 * n * (B - 1);
        src += 16 * n * B;
        dst += 16 * n * B;
    }
    open(n, 1, 0, k, chain, src, dst, blocks);
}

/* a counter in words, the last byte least: its words with their bytes in reverse */
INLINE void count_words(int n, uint64_t *c) {
    for (int j = 2 * n - 1; j >= 0 && ++c[j] == 0; j--) {}
}

INLINE void count_most(int n, int B, const uint64_t *k, const uint8_t *start, const uint8_t *src, uint8_t *dst, size_t blocks) {
    uint64_t x[4][8], c[8];
    for (int j = 0; j < 2 * n; j++) c[j] = __builtin_bswap64(load(start + 8 * j));
    for (; blocks > 0; blocks -= blocks < (size_t)B ? blocks : (size_t)B) {
        for (int b = 0; b < B; b++) {
            for (int j = 0; j < 2 * n; j++) x[b][j] = __builtin_bswap64(c[j]);
            count_words(n, c);
        }
        side_by_side(n, B, k, x);
        for (int b = 0; b < B && (size_t)b < blocks; b++) xor_block(n, dst + 16 * n * b, x[b], src + 16 * n * b);
        src += 16 * n * B;
        dst += 16 * n * B;
    }
}

/* each size and shape by itself */
typedef void run(enum lab_kind kind, const uint64_t *k, const uint8_t *start, const uint8_t *src, uint8_t *dst, size_t blocks);

#define MAKE(name, n, wide, pairs) \
    static void name(enum lab_kind kind, const uint64_t *k, const uint8_t *start, const uint8_t *src, uint8_t *dst, size_t blocks) { \
        switch (kind) { \
        case LAB_ENCIPHER: \
        case LAB_DECIPHER: each(n, wide, k, src, dst, blocks); break; \
        case LAB_CBC_SEAL: seal(n, wide, k, start, src, dst, blocks); break; \
        case LAB_CBC_OPEN: open(n, wide, pairs, k, start, src, dst, blocks); break; \
        case LAB_CTR: count(n, wide, pairs, k, start, src, dst, blocks); break; \
        } \
    }
#define MAKE_SIZES(name, wide, pairs) MAKE(name##_1, 1, wide, pairs) MAKE(name##_2, 2, wide, pairs) MAKE(name##_4, 4, wide, pairs)

#define MAKE_MOST(name, n, B) \
    static void name(enum lab_kind kind, const uint64_t *k, const uint8_t *start, const uint8_t *src, uint8_t *dst, size_t blocks) { \
        if (kind == LAB_CBC_OPEN) open_most(n, B, k, start, src, dst, blocks); \
        else if (kind == LAB_CTR) count_most(n, B, k, start, src, dst, blocks); \
    }

MAKE_SIZES(one, 0, 0)
MAKE_SIZES(eight, 1, 0)
MAKE_SIZES(one_pairs, 0, 1)
MAKE_SIZES(eight_pairs, 1, 1)
MAKE_MOST(eight_most_1, 1, 4)
MAKE_MOST(eight_most_2, 2, 3)
MAKE_MOST(eight_most_4, 4, 2)

void lab_run(enum lab_shape shape, enum lab_kind kind, int n, const uint64_t *k, const uint8_t *start, const uint8_t *src, uint8_t *dst, size_t blocks) {
    static run *const RUNS[5][3] = {
        [LAB_ONE] = {one_1, one_2, one_4},
        [LAB_EIGHT] = {eight_1, eight_2, eight_4},
        [LAB_ONE_PAIRS] = {one_pairs_1, one_pairs_2, one_pairs_4},
        [LAB_EIGHT_PAIRS] = {eight_pairs_1, eight_pairs_2, eight_pairs_4},
        [LAB_EIGHT_MOST] = {eight_most_1, eight_most_2, eight_most_4},
    };
    RUNS[shape][n / 2](kind, k, start, src, dst, blocks);
}

/* x doubled, its last byte least */
static void twice(uint8_t *x) {
    unsigned carry = 0x87 * (x[0] >> 7u);
    for (int i = 15; i >= 0; i--) {
        unsigned sum = 2u * x[i];
        x[i] = (uint8_t)(sum ^ carry);
        carry = sum >> 8;
    }
}

INLINE void tag_(int wide, const uint64_t *k, const uint8_t *message, size_t length, uint8_t *c) {
    uint8_t mask[16] = {0}, last[16] = {0}, x[16];
    memset(c, 0, 16);
    for (; length > 16; length -= 16, message += 16) {
        xor_bytes(16, x, c, message);
        block(1, wide, k, x, c);
    }
    block(1, wide, k, mask, mask);
    twice(mask);
    memcpy(last, message, length);
    if (length < 16) {
        last[length] = 0x80;
        twice(mask);
    }
    xor_bytes(16, x, last, mask);
    xor_bytes(16, x, x, c);
    block(1, wide, k, x, c);
}

void lab_tag(enum lab_shape shape, const uint64_t *k, const uint8_t *message, size_t length, uint8_t tag[16]) {
    if (shape == LAB_ONE) tag_(0, k, message, length, tag);
    else tag_(1, k, message, length, tag);
}

INLINE void wrap_(int wide, const uint64_t *k, const uint8_t *key, size_t length, uint8_t *wrapped) {
    uint8_t x[16], *r = wrapped + 8, t = 0;
    memset(x, 0xA6, 8);
    memcpy(r, key, length);
    for (int round = 0; round < 6; round++)
        for (size_t at = 0; at < length; at += 8) {
            memcpy(x + 8, r + at, 8);
            block(1, wide, k, x, x);
            x[7] ^= ++t;
            memcpy(r + at, x + 8, 8);
        }
    memcpy(wrapped, x, 8);
}

void lab_wrap(enum lab_shape shape, const uint64_t *k, const uint8_t *key, size_t length, uint8_t *wrapped) {
    if (shape == LAB_ONE) wrap_(0, k, key, length, wrapped);
    else wrap_(1, k, key, length, wrapped);
}

INLINE int unwrap_(int wide, const uint64_t *k, const uint8_t *wrapped, size_t length, uint8_t *key) {
    static const uint8_t CHECK[8] = {0xA6, 0xA6, 0xA6, 0xA6, 0xA6, 0xA6, 0xA6, 0xA6};
    uint8_t x[16], r[128], t = (uint8_t)(6 * (length / 8));
    memcpy(x, wrapped, 8);
    memcpy(r, wrapped + 8, length);
    for (int round = 0; round < 6; round++)
        for (size_t at = length; at > 0; at -= 8) {
            x[7] ^= t--;
            memcpy(x + 8, r + at - 8, 8);
            block(1, wide, k, x, x);
            memcpy(r + at - 8, x + 8, 8);
        }
    if (memcmp(x, CHECK, 8) != 0) return 0;
    memcpy(key, r, length);
    return 1;
}

int lab_unwrap(enum lab_shape shape, const uint64_t *k, const uint8_t *wrapped, size_t length, uint8_t *key) {
    return shape == LAB_ONE ? unwrap_(0, k, wrapped, length, key) : unwrap_(1, k, wrapped, length, key);
}

/* the sealed blocks of a record, one after another */
static uint8_t gathered[16 * 4096];

static void four_bytes(uint8_t *record, uint8_t command, uint32_t value) {
    *record++ = command;
    for (int i = 0; i < 4; i++) *record++ = (uint8_t)(value >> 8 * i);
}

void lab_page_write(enum lab_shape shape, const uint64_t *sealing, const uint64_t *tagging, uint32_t number, uint32_t day, const uint8_t title[32], const uint8_t start[16], const uint8_t *body, size_t blocks, uint8_t *record) {
    uint8_t *at = record + 60;
    four_bytes(record, 0x10, number);
    four_bytes(record + 5, 0x11, day);
    record[10] = 0x12;
    memcpy(record + 11, title, 32);
    record[43] = 0x13;
    memcpy(record + 44, start, 16);
    lab_run(shape, LAB_CBC_SEAL, 1, sealing, start, body, gathered, blocks);
    for (size_t i = 0; i < blocks; i++, at += 17) {
        *at = 0x15;
        memcpy(at + 1, gathered + 16 * i, 16);
    }
    *at = 0x1F;
    lab_tag(shape, tagging, record, 60 + 17 * blocks, at + 1);
}

int lab_page_open(enum lab_shape shape, const uint64_t *sealing, const uint64_t *tagging, const uint8_t *record, size_t length, uint8_t *body) {
    size_t blocks = (length - 77) / 17;
    const uint8_t *at = record + 60;
    uint8_t tag[16];
    if (length < 77 || (length - 77) % 17 != 0 || blocks > 4096) return 0;
    if (record[0] != 0x10 || record[5] != 0x11 || record[10] != 0x12 || record[43] != 0x13 || record[length - 17] != 0x1F) return 0;
    for (size_t i = 0; i < blocks; i++)
        if (at[17 * i] != 0x15) return 0;
    lab_tag(shape, tagging, record, length - 17, tag);
    if (memcmp(tag, record + length - 16, 16) != 0) return 0;
    for (size_t i = 0; i < blocks; i++) memcpy(gathered + 16 * i, at + 17 * i + 1, 16);
    lab_run(shape == LAB_ONE ? LAB_ONE_PAIRS : LAB_EIGHT_MOST, LAB_CBC_OPEN, 1, sealing, record + 44, gathered, body, blocks);
    return 1;
}

const uint8_t lab_row[8] = {0x01, 0x01, 0x03, 0x0F, 0x0A, 0x1F, 0x0F, 0x0C};

INLINE uint8_t times(uint8_t a, uint8_t b) {
    int end = b ? 32 - __builtin_clz(b) : 0;
    uint8_t value = 0;
    for (int turns = 0; turns < end; turns++) {
        value ^= (uint8_t)((b & 1) * a);
        a = (uint8_t)(a << 1 ^ (a >> 7) * 0x2D);
        b >>= 1;
    }
    return value;
}

uint64_t lab_mix_by_matrix(uint64_t w) {
    uint64_t mixed = 0;
    for (int i = 0; i < 8; i++) {
        uint8_t sum = 0;
        for (int j = 0; j < 8; j++) sum ^= times((uint8_t)(w >> 8 * j), lab_row[(i + 8 - j) % 8]);
        mixed |= (uint64_t)sum << 8 * i;
    }
    return mixed;
}

INLINE uint64_t times_x_each(uint64_t w) {
    uint64_t h = w >> 7 & 0x0101010101010101;
    return (w & 0x7F7F7F7F7F7F7F7F) << 1 ^ h * 0x2D;
}

INLINE uint64_t times_each(uint64_t w, uint8_t c) {
    uint64_t value = 0;
    for (int k = 0; k < 8; k++) {
        value ^= (c & 1) * w;
        w = times_x_each(w);
        c >>= 1;
    }
    return value;
}

uint64_t lab_mix(const uint8_t row[8], uint64_t w) {
    uint64_t power[8], mixed = 0;
    for (int t = 0; t < 8; t++, w = times_x_each(w)) power[t] = w;
    for (int k = 0; k < 8; k++) {
        uint64_t product = 0;
        for (int t = 0; t < 8; t++) product ^= (row[k] >> t & 1) * power[t];
        mixed ^= rol(product, 8 * k);
    }
    return mixed;
}

void lab_make_table(const uint8_t row[8], uint64_t table[256]) {
    uint64_t g = lab_mix(row, 1);
    for (int b = 0; b < 256; b++) table[b] = times_each(g, S[b]);
}

INLINE uint8_t power(uint8_t a, unsigned n) {
    uint8_t value = 1;
    for (; n; n /= 2) {
        if (n % 2) value = times(value, a);
        a = times(a, a);
    }
    return value;
}

void lab_row_product(const uint8_t g[8], const uint8_t h[8], uint8_t made[8]) {
    store(made, lab_mix(h, load(g)));
}

int lab_row_inverse(const uint8_t g[8], uint8_t made[8]) {
    uint8_t sum = 0;
    uint64_t w = 1;
    for (int i = 0; i < 8; i++) sum ^= g[i];
    if (sum == 0) return 13;
    for (int k = 0; k < 7; k++) w = lab_mix(g, w);
    store(made, times_each(w, power(power(sum, 8), 254)));
    return 0;
}

/* Eight of the sixteen bytes of a word and of the word mixed are asked to be zero, every choice of eight in turn; a gives the words that are left. */
typedef struct {
    uint8_t row[8][8];
} matrix;

INLINE void add_times(uint8_t made[8], const uint8_t x[8], uint8_t c, const uint8_t y[8]) { store(made, load(x) ^ times_each(load(y), c)); }

INLINE int pivot(const uint8_t y[8]) {
    int p = 0;
    while (p < 8 && !y[p]) p++;
    return p;
}

INLINE matrix restricted(const matrix *a, const uint8_t y[8]) {
    static const uint8_t zeros[8];
    matrix made = *a;
    uint8_t u[8];
    int p = pivot(y);
    if (p == 8) return made;
    add_times(u, zeros, power(y[p], 254), y);
    for (int i = 0; i < 8; i++) add_times(made.row[i], a->row[i], a->row[i][p], u);
    return made;
}

INLINE void byte_row(const matrix *m, const matrix *a, int z, uint8_t y[8]) {
    if (z < 8) {
        memcpy(y, a->row[z], 8);
        return;
    }
    memset(y, 0, 8);
    for (int k = 0; k < 8; k++) add_times(y, y, m->row[z - 8][k], a->row[k]);
}

INLINE uint64_t word_left(const matrix *a) {
    for (int i = 0; i < 8; i++) {
        int p = pivot(a->row[i]);
        uint64_t w = 0;
        if (p == 8) continue;
        for (int k = 0; k < 8; k++) w |= (uint64_t)a->row[k][p] << 8 * k;
        return w;
    }
    return 0;
}

static uint64_t search(const matrix *m, const matrix *a, int n, int z) {
    uint8_t y[8];
    if (n == 0) return word_left(a);
    if (z < n) return 0;
    byte_row(m, a, z - 1, y);
    matrix less = restricted(a, y);
    uint64_t w = search(m, &less, n - 1, z - 1);
    return w ? w : search(m, a, n, z - 1);
}

uint64_t lab_judge(const uint8_t row[8]) {
    matrix m, every;
    for (int i = 0; i < 8; i++)
        for (int j = 0; j < 8; j++) {
            m.row[i][j] = row[(i + 8 - j) % 8];
            every.row[i][j] = i == j;
        }
    return search(&m, &every, 8, 16);
}

/* ---- the register of page keys, over its bytes as they are lent. Numbers are read as the machine has them, the least byte first */
static uint16_t number_of(const uint8_t *at) {
    uint16_t number;
    memcpy(&number, at, 2);
    return number;
}

static size_t entries_of(const uint8_t reg[LAB_REGISTER]) {
    uint64_t count;
    memcpy(&count, reg, 8);
    return count < 64 ? (size_t)count : 64;
}

/* The place of the first entry, from a place on, that has a number at a place of its bytes, which isn't 0; the count of entries if there is none. */
static size_t first_entry(const uint8_t reg[LAB_REGISTER], size_t count, size_t from, size_t at, uint16_t number) {
    while (from < count && number_of(reg + 8 + 44 * from + at) != number) from++;
    return from;
}

uint8_t lab_register_add(uint8_t reg[LAB_REGISTER], uint16_t number, uint16_t replaces, const uint8_t wrapped[40]) {
    size_t count = entries_of(reg);
    if (number == 0 || first_entry(reg, count, 0, 0, number) < count) return 21;
    if (replaces != 0 && (first_entry(reg, count, 0, 0, replaces) == count || first_entry(reg, count, 0, 2, replaces) < count)) return 22;
    if (count == 64) return 23;
    uint8_t *entry = reg + 8 + 44 * count;
    memcpy(entry, &number, 2);
    memcpy(entry + 2, &replaces, 2);
    memcpy(entry + 4, wrapped, 40);
    reg[0]++;
    return 0;
}

uint8_t lab_register_find(const uint8_t reg[LAB_REGISTER], uint16_t number, uint8_t entry[44], uint8_t *rule, uint64_t *followed) {
    size_t count = entries_of(reg), at = number == 0 ? count : first_entry(reg, count, 0, 0, number);
    *rule = 0;
    *followed = 0;
    if (at == count) return 22;
    for (size_t later; number != 0 && (later = first_entry(reg, count, at + 1, 2, number)) < count; number = number_of(reg + 8 + 44 * at)) {
        at = later;
        *rule = 1;
        ++*followed;
    }
    memcpy(entry, reg + 8 + 44 * at, 44);
    return 0;
}
