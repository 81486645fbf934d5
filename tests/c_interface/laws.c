/* Laws: runs and tags are SP 800-38A's and 38B's over labyrinth_encipher; mixing by a row, products and inverses of rows and verdicts on rows
 * are the article's, with the field's product written out. */
#include "interface.h"

/* ---- tags: CMAC of SP 800-38B over labyrinth_encipher */

static void encipher(size_t l, const uint8_t *key, uint8_t *block)
{
    uint8_t src[16];
    memcpy(src, block, 16);
    if (labyrinth_encipher(1, l, key, 8 * l, src, 16, block, 16) != 0) wrong("encipher refused");
}

/* One bit to the left, the first byte highest; what falls out comes back as 87 in the last byte. */
static void twice(uint8_t *block)
{
    uint8_t out = block[0] >> 7;
    for (int i = 0; i < 16; i++) block[i] = (uint8_t)(block[i] << 1 | (i < 15 ? block[i + 1] >> 7 : 0));
    if (out) block[15] ^= 0x87;
}

void cmac(size_t l, const uint8_t *key, const uint8_t *msg, size_t len, uint8_t *whole)
{
    uint8_t mask[16] = {0};
    encipher(l, key, mask);
    twice(mask);
    if (len == 0 || len % 16 != 0) twice(mask);
    memset(whole, 0, 16);
    for (; len > 16; msg += 16, len -= 16) {
        for (size_t i = 0; i < 16; i++) whole[i] ^= msg[i];
        encipher(l, key, whole);
    }
    for (size_t i = 0; i < 16; i++) whole[i] ^= mask[i] ^ (i < len ? msg[i] : i == len ? 0x80 : 0);
    encipher(l, key, whole);
}

/* ---- rows: the article's sum with the field's product written out */

const uint8_t published[8] = {0x01, 0x01, 0x03, 0x0F, 0x0A, 0x1F, 0x0F, 0x0C}, neutral[8] = {0x01},
              published_inverse[8] = {0x35, 0xC0, 0xC7, 0xA9, 0x9E, 0xC6, 0x2E, 0xF3};

uint8_t times_modulo(unsigned field, uint8_t a, uint8_t b)
{
    unsigned product = 0;
    for (int k = 7; k >= 0; k--) {
        product <<= 1;
        if (product & 0x100) product ^= field;
        if (b >> k & 1) product ^= a;
    }
    return (uint8_t)product;
}

uint8_t times(uint8_t a, uint8_t b) { return times_modulo(FIELD, a, b); }

uint64_t mixed(const uint8_t *row, uint64_t word)
{
    uint64_t sum = 0;
    for (int i = 0; i < 8; i++)
        for (int j = 0; j < 8; j++) sum ^= (uint64_t)times(row[(i - j) & 7], (uint8_t)(word >> 8 * j)) << 8 * i;
    return sum;
}

/* x^j times x^k is x^((j + k) mod 8). */
void multiply(const uint8_t *g, const uint8_t *h, uint8_t *product)
{
    memset(product, 0, 8);
    for (int j = 0; j < 8; j++)
        for (int k = 0; k < 8; k++) product[(j + k) & 7] ^= times(g[j], h[k]);
}

/* Whether a row is another's inverse. */
static int is_inverse(const uint8_t *row, const uint8_t *inverse)
{
    uint8_t product[8];
    multiply(row, inverse, product);
    return memcmp(product, neutral, 8) == 0;
}

/* ---- verdicts: a row is good enough exactly if no square submatrix of its matrix is singular */

/* The sizes of singular submatrices, bit k for k lines and k columns. Every determinant is expanded along its first line, so made from
 * smaller ones; lines and columns are masks. In this field minus is plus. */
unsigned singular_sizes(unsigned field, const uint8_t *row)
{
    static uint8_t determinants[256][256] = {{1}}, products[8][256], bits[256];
    unsigned sizes = 0;
    for (int x = 1; x < 256; x++) {
        bits[x] = (uint8_t)(bits[x >> 1] + (x & 1));
        for (int i = 0; i < 8; i++) products[i][x] = times_modulo(field, row[i], (uint8_t)x);
    }
    for (unsigned lines = 1; lines < 256; lines++)
        for (unsigned columns = 1; columns < 256; columns++) {
            if (bits[lines] != bits[columns]) continue;
            int first = __builtin_ctz(lines);
            uint8_t sum = 0;
            for (int j = 0; j < 8; j++)
                if (columns >> j & 1) sum ^= products[(first - j) & 7][determinants[lines ^ 1u << first][columns ^ 1u << j]];
            determinants[lines][columns] = sum;
            if (sum == 0) sizes |= 1u << bits[lines];
        }
    return sizes;
}

/* A word's bytes that are not zero. */
static int active(uint64_t word)
{
    int count = 0;
    for (; word; word >>= 8) count += (word & 0xFF) != 0;
    return count;
}

/* Such bytes before and after mixing by a row. */
int together(const uint8_t *row, uint64_t word) { return active(word) + active(mixed(row, word)); }

/* Rows to judge and the sizes of their singular submatrices: the published one and four more that are good enough, the zero row, 01 and
 * seven 00, and rows with one such size only, so that words miss by one. */
const struct judged to_judge[TO_JUDGE] = {
    {{0x01, 0x01, 0x03, 0x0F, 0x0A, 0x1F, 0x0F, 0x0C}, 0},
    {{0x04, 0xBE, 0x10, 0x02, 0x98, 0x10, 0xC6, 0xDB}, 0},
    {{0x26, 0xE7, 0x8B, 0x0D, 0xD8, 0x53, 0x1F, 0x6D}, 0},
    {{0x62, 0xA0, 0x17, 0x2E, 0xB0, 0x04, 0xE3, 0xB8}, 0},
    {{0xF7, 0x69, 0x3A, 0xE1, 0xA1, 0x5D, 0xDD, 0x4B}, 0},
    {{0}, 0x1FE},
    {{0x01}, 0xFE},
    {{0x8A, 0x85, 0xDF, 0x00, 0xD0, 0xEC, 0xF6, 0xF6}, 1 << 1},
    {{0x3B, 0xB2, 0x49, 0x13, 0xDC, 0xB9, 0x69, 0x2F}, 1 << 2},
    {{0xB7, 0x0E, 0x4D, 0x05, 0x5A, 0x92, 0xC8, 0x38}, 1 << 3},
    {{0x10, 0xA5, 0x5A, 0x79, 0xBE, 0x2C, 0xED, 0x87}, 1 << 4},
    {{0xE3, 0x35, 0x10, 0x45, 0x93, 0xC8, 0xCF, 0x93}, 1 << 4},
    {{0xF3, 0xE7, 0xF7, 0x64, 0xD0, 0xE2, 0x13, 0xBD}, 1 << 5},
    {{0xC2, 0xD3, 0x35, 0x25, 0x9B, 0x80, 0xC4, 0x02}, 1 << 6},
    {{0x35, 0x14, 0xB1, 0x6F, 0xF8, 0xCB, 0x62, 0xC3}, 1 << 7},
    {{0x45, 0x3C, 0x18, 0x7E, 0x30, 0x2A, 0xE2, 0xE7}, 1 << 8},
};

/* Whether a verdict is right: a yes with the zero word, or a no with a word that isn't zero and has eight or fewer; if there is one size k
 * only, k before and 8 - k after. Which word it is is left open. */
static int judged_right(const uint8_t *row, uint8_t yes, uint64_t word)
{
    unsigned sizes = singular_sizes(FIELD, row);
    int one_size = (sizes & (sizes - 1)) == 0, before = active(word);
    if (sizes == 0) return yes == 1 && word == 0;
    if (yes != 0 || word == 0 || together(row, word) > 8) return 0;
    return !one_size || (sizes == 1u << before && together(row, word) == 8);
}

/* Whether *yes, *out or *word is what it must be after any call, and the tag or the row after one that was done; blocks and runs are not
 * looked at. */
int made_right(enum kind kind, const struct call *c)
{
    uint8_t whole[16];
    int refused = number_of(kind, c) != 0;
    uint64_t shown = 0;
    if (kind == JUDGE) memcpy(&shown, c->at[WORD], sizeof shown);
    if (kind == JUDGE) return refused ? *c->at[DST] == 0 && shown == 0 : judged_right(c->at[KEY], *c->at[DST], shown);
    if (kind == INVERSE) return refused || is_inverse(c->at[KEY], c->at[DST]);
    if (kind == PRODUCT && !refused) multiply(c->at[KEY], c->at[SRC], whole);
    if (kind == PRODUCT) return refused || memcmp(c->at[DST], whole, 8) == 0;
    uint64_t word = kind == ROW && !refused ? mixed(c->at[KEY], c->q) : 0;
    if (kind == ROW) return memcmp(c->at[DST], &word, sizeof word) == 0;
    if (!is_tag(kind)) return 1;
    if (!refused) cmac(c->l, c->at[KEY], c->at[SRC], c->len[SRC], whole);
    int equal = !refused && memcmp(c->at[tag_of(kind)], whole, c->len[tag_of(kind)]) == 0;
    return kind == CMAC ? refused || equal : *c->at[DST] == equal;
}

/* ---- runs: CBC and CTR of SP 800-38A over labyrinth_encipher, and document 01's mixed words */

__extension__ typedef unsigned __int128 wide;

/* The blocks of a run are so many, and 5 bytes more for CTR. */
void runs(size_t blocks)
{
    enum { MOST = 1 << 15 };
    static uint8_t src[MOST], made[MOST], back[MOST], expected[MOST];
    uint8_t key[128], start[64], counter[64], stream[64];
    for (size_t n = 1; n <= 4; n *= 2)
        for (size_t l = 2; l <= 4; l++) {
            size_t block = 16 * n, key_len = 8 * n * l, whole = blocks * block, all = whole + 5;
            uint64_t q = next();
            fill(key, key_len);
            fill(start, block);
            fill(src, all);
            memset(start, 0xFF, block - 3); /* the counter's carry goes past q's bytes, mostly to the front */
            for (size_t at = 0; at < whole; at += block) {
                for (size_t i = 0; i < block; i++) stream[i] = src[at + i] ^ (at ? expected[at - block + i] : start[i]);
                if (labyrinth_encipher(n, l, key, key_len, stream, block, expected + at, block) != 0) wrong("encipher refused");
                if (labyrinth_decipher(n, l, key, key_len, expected + at, block, back, block) != 0) wrong("decipher refused");
                if (memcmp(back, stream, block) != 0) wrong("n %zu, l %zu: decipher does not undo encipher", n, l);
            }
            if (labyrinth_cbc_seal(n, l, key, key_len, start, block, src, whole, made, whole) != 0 || memcmp(made, expected, whole) != 0)
                wrong("n %zu, l %zu: cbc_seal is not CBC over encipher", n, l);
            if (labyrinth_cbc_open(n, l, key, key_len, start, block, made, whole, back, whole) != 0 || memcmp(back, src, whole) != 0)
                wrong("n %zu, l %zu: cbc_open does not undo cbc_seal", n, l);
            for (uint64_t i = 0; i * block < all; i++) {
                wide carry = (wide)q + i;
                for (size_t p = block; p-- > 0; carry >>= 8) {
                    carry += start[p];
                    counter[p] = (uint8_t)carry;
                }
                if (labyrinth_encipher(n, l, key, key_len, counter, block, stream, block) != 0) wrong("encipher refused");
                for (size_t p = 0; p < block && i * block + p < all; p++) expected[i * block + p] = src[i * block + p] ^ stream[p];
            }
            if (labyrinth_ctr(n, l, key, key_len, start, block, q, src, all, made, all) != 0 || memcmp(made, expected, all) != 0)
                wrong("n %zu, l %zu: ctr is not CTR over encipher", n, l);
            if (labyrinth_ctr(n, l, key, key_len, start, block, q, made, all, back, all) != 0 || memcmp(back, src, all) != 0)
                wrong("n %zu, l %zu: ctr does not undo ctr", n, l);
        }
    uint64_t word = 1;
    for (int i = 0; i < 8; i++) word = labyrinth_mix(word);
    if (labyrinth_mix(0x1) != 0x0C0F1F0A0F030101u || labyrinth_mix(0x100) != 0x0F1F0A0F0301010Cu ||
        labyrinth_mix(0x0101010101010101u) != 0x1A1A1A1A1A1A1A1Au || word != 0x46)
        wrong("labyrinth_mix: not document 01's words");
}

/* Tags for messages of so many bytes: each length made, verified, and verified again with each single bit altered. How many bits. */
long tags(const struct op *ops, size_t len)
{
    enum { MOST = 1 << 14, LEAST_TAG = 7, MOST_TAG = 17 };
    static uint8_t msg[MOST];
    uint8_t key[32], whole[MOST_TAG], tag[MOST_TAG], yes;
    long bits = 0;
    for (size_t l = 2; l <= 4; l++) {
        fill(key, 8 * l);
        fill(msg, len);
        fill(whole, sizeof whole);
        cmac(l, key, msg, len, whole);
        for (size_t tag_len = LEAST_TAG; tag_len <= MOST_TAG; tag_len++) {
            int expected = tag_len < 8 || tag_len > 16 ? 11 : 0;
            struct call make = {.n = 1, .l = l, .at = {key, NULL, msg, tag}, .len = {8 * l, 0, len, tag_len}};
            struct call verify = {.n = 1, .l = l, .at = {key, tag, msg, &yes}, .len = {8 * l, tag_len, len, 1}};
            for (size_t i = 0; i < sizeof tag; i++) tag[i] = (uint8_t)~whole[i];
            if (run(&ops[MAKES], &make) != expected) wrong("l %zu, %zu bytes: a tag of %zu bytes has another number", l, len, tag_len);
            for (size_t i = 0; i < sizeof tag; i++)
                if (tag[i] != (expected == 0 && i < tag_len ? whole[i] : (uint8_t)~whole[i]))
                    wrong("l %zu, %zu bytes: byte %zu of a tag of %zu bytes", l, len, i, tag_len);
            memcpy(tag, whole, sizeof tag);
            for (int held = 1; held <= 0xAA; held += 0xAA - 1) {
                yes = (uint8_t)held;
                if (run(&ops[VERIFIES], &verify) != expected || yes != (expected == 0))
                    wrong("l %zu, %zu bytes: a tag of %zu bytes is not verified", l, len, tag_len);
            }
            for (size_t bit = 0; bit < 8 * tag_len; bit++, bits++) {
                tag[bit / 8] ^= (uint8_t)(1 << bit % 8);
                yes = bit % 3 ? 1 : 0xAA;
                if (run(&ops[VERIFIES], &verify) != expected || yes != 0)
                    wrong("l %zu, %zu bytes: a tag of %zu bytes with bit %zu altered: *yes is %d", l, len, tag_len, bit, yes);
                tag[bit / 8] ^= (uint8_t)(1 << bit % 8);
            }
        }
    }
    return bits;
}

/* The same over lengths about those of blocks, and long ones. */
long all_tags(const struct op *ops)
{
    static const size_t lengths[] = {0, 1, 15, 16, 17, 31, 32, 33, 1000, 8192 + 5};
    long bits = 0, each = 3 * 8 * (7 + 8 + 9 + 10 + 11 + 12 + 13 + 14 + 15 + 16 + 17);
    for (size_t i = 0; i < sizeof lengths / sizeof *lengths; i++) {
        long more = tags(ops, lengths[i]);
        if (more != each) wrong("%ld bits of tags altered, not %ld", more, each);
        bits += more;
    }
    return bits;
}

/* ---- laws of rows */

/* A product, or an inverse if there is no h, at one of the 512 alignments; rows that overlap are handed over so. */
static void row_at(const struct op *op, size_t alignment, const uint8_t *g, const uint8_t *h, uint8_t *made)
{
    enum { WIDTH = 32 };
    static _Alignas(uint64_t) uint8_t space[BUFFERS][WIDTH], held[BUFFERS][WIDTH];
    size_t to = 8 + alignment % 8;
    fill(space[0], sizeof space);
    struct call c = {.at = {space[KEY] + 8 + alignment / 8 % 8, NULL, h ? space[SRC] + 8 + alignment / 64 % 8 : NULL, space[DST] + to},
                     .len = {8, 0, h ? 8 : 0, 8}};
    if (h && (uintptr_t)h - (uintptr_t)g < 8) c.at[SRC] = c.at[KEY] + (h - g);
    memcpy(c.at[KEY], g, 8);
    if (h) memcpy(c.at[SRC], h, 8);
    memcpy(held, space, sizeof held);
    if (run(op, &c) != 0) wrong("%s: refused", op->name);
    memcpy(made, c.at[DST], 8);
    memcpy(c.at[DST], held[DST] + to, 8);
    if (memcmp(space, held, sizeof held) != 0) wrong("%s: bytes written that are not the destination's", op->name);
}

/* The word mixed by a row, or the zero word if the row is refused. */
static uint64_t by(const uint8_t *row, uint64_t word)
{
    labyrinth_mix_row(row, 8, word, &word);
    return word;
}

/* Any rows g and h, of which g has an inverse: products in either order, and of rows that overlap, mixing by both, the inverse and its own,
 * and a word converted from g to h. How many products and inverses. */
long row_laws(const struct op *ops, size_t count)
{
    const struct op *product = &ops[MULTIPLIES], *inverse = &ops[INVERTS];
    uint8_t g[8], h[8], both[16], gh[8], hg[8], back[8], forth[8], converting[8], expected[8];
    for (size_t i = 0; i < count; i++) {
        uint64_t word = next();
        uint8_t *shifted = both + i / 64 % 8;
        fill(g, 8);
        fill(h, 8);
        if (row_sum(g, 8) == 0) g[0] ^= 1;
        if (i % 8 == 1) h[0] ^= row_sum(h, 8);
        if (i % 8 == 2) memcpy(h, published, 8);
        if (i % 8 == 3) memcpy(g, published, 8);
        row_at(product, i, g, h, gh);
        row_at(product, i, h, g, hg);
        multiply(g, h, expected);
        if (memcmp(gh, expected, 8) != 0 || memcmp(hg, expected, 8) != 0) wrong("%s: another product, in one order or the other", product->name);
        if (by(gh, word) != by(h, by(g, word))) wrong("%s: mixing by it is not mixing by both rows", product->name);
        fill(both, 16);
        row_at(product, i, both, shifted, gh);
        multiply(both, shifted, expected);
        if (memcmp(gh, expected, 8) != 0) wrong("%s: another product of rows that overlap", product->name);
        row_at(inverse, i, g, NULL, back);
        if (!is_inverse(g, back)) wrong("%s: the product is not 01 and seven 00", inverse->name);
        if (by(back, by(g, word)) != word) wrong("%s: mixing by it does not undo mixing", inverse->name);
        if (i % 8 == 3 && memcmp(back, published_inverse, 8) != 0) wrong("%s: not the published row's", inverse->name);
        row_at(inverse, i, back, NULL, forth);
        if (memcmp(forth, g, 8) != 0) wrong("%s: the inverse's inverse is another row", inverse->name);
        row_at(product, i, back, h, converting);
        if (by(converting, by(g, word)) != by(h, word)) wrong("%s: a word is not converted from one row to another", product->name);
    }
    return 6 * (long)count;
}

/* A verdict with row and yes at one of the 64 alignments. */
static void judge_at(const struct op *op, size_t alignment, const uint8_t *row)
{
    enum { WIDTH = 32 };
    static _Alignas(uint64_t) uint8_t space[BUFFERS][WIDTH], held[BUFFERS][WIDTH];
    size_t from = 8 + alignment % 8, to = 8 + alignment / 8 % 8;
    fill(space[0], sizeof space);
    struct call c = {.at = {space[KEY] + from, NULL, NULL, space[DST] + to, space[WORD] + 8}, .len = {8, 0, 0, 1, sizeof(uint64_t)}};
    memcpy(c.at[KEY], row, 8);
    *c.at[DST] = alignment & 1 ? 1 : 0xAA;
    memcpy(held, space, sizeof held);
    if (run(op, &c) != 0) wrong("%s: refused", op->name);
    if (!made_right(JUDGE, &c)) wrong("%s: *yes is %d, and it or *word is wrong", op->name, *c.at[DST]);
    memcpy(c.at[DST], held[DST] + to, 1);
    memcpy(c.at[WORD], held[WORD] + 8, sizeof(uint64_t));
    if (memcmp(space, held, sizeof held) != 0) wrong("%s: bytes written that are not yes or word", op->name);
}

/* A row that is good enough since another is: that one turned and multiplied by a byte. */
static void good_from(const uint8_t *good, uint8_t *row)
{
    uint8_t factor = (uint8_t)(1 + below(255));
    size_t by = below(8);
    for (size_t i = 0; i < 8; i++) row[i] = times(factor, good[(i + by) % 8]);
}

/* The rows to judge, which are as they are said to be, and any rows, some of them made to be good enough. How many verdicts. */
long verdicts(const struct op *ops, size_t count)
{
    uint8_t row[8];
    for (size_t i = 0; i < TO_JUDGE && !enough(); i++) {
        if (singular_sizes(FIELD, to_judge[i].row) != to_judge[i].sizes) wrong("row %zu to judge has other singular submatrices", i);
        judge_at(&ops[JUDGES], i, to_judge[i].row);
    }
    for (size_t i = 0; i < count && !enough(); i++) {
        fill(row, 8);
        judge_at(&ops[JUDGES], i, row);
        if (i % 8 != 0) continue;
        good_from(to_judge[i / 8 % GOOD].row, row);
        if (singular_sizes(FIELD, row) != 0) wrong("a row made to be good enough isn't");
        judge_at(&ops[JUDGES], i / 8 * 9, row);
    }
    return TO_JUDGE + (long)count + ((long)count + 7) / 8;
}
