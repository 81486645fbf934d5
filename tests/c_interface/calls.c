/* Calls: which number each function gives, over a grid of n, l and lengths, with lengths of 2^32 and more, and with NULL for what has no
 * bytes; and that a refusal leaves what was lent as it was. */
#include <sys/mman.h>

#include "interface.h"

const char *const buffer_names[BUFFERS] = {"key, row or g", "start or the tag to be verified", "src, msg or h",
                                           "dst, the tag to be made, yes or out", "word"};

const struct op library[OPS] = {
    {"labyrinth_encipher", BLOCK, 1, {.block = labyrinth_encipher}},
    {"labyrinth_decipher", BLOCK, 0, {.block = labyrinth_decipher}},
    {"labyrinth_cbc_seal", CBC, 3, {.cbc = labyrinth_cbc_seal}},
    {"labyrinth_cbc_open", CBC, 2, {.cbc = labyrinth_cbc_open}},
    {"labyrinth_ctr", CTR, 4, {.ctr = labyrinth_ctr}},
    {"labyrinth_cmac", CMAC, -1, {.cmac = labyrinth_cmac}},
    {"labyrinth_cmac_verify", VERIFY, -1, {.verify = labyrinth_cmac_verify}},
    {"labyrinth_mix_row", ROW, -1, {.row = labyrinth_mix_row}},
    {"labyrinth_row_product", PRODUCT, -1, {.product = labyrinth_row_product}},
    {"labyrinth_row_inverse", INVERSE, -1, {.inverse = labyrinth_row_inverse}},
    {"labyrinth_row_judge", JUDGE, -1, {.judge = labyrinth_row_judge}},
};

__attribute__((noinline)) uint8_t run(const struct op *op, const struct call *c)
{
    switch (op->kind) {
    case BLOCK:
        return op->fn.block(c->n, c->l, c->at[KEY], c->len[KEY], c->at[SRC], c->len[SRC], c->at[DST], c->len[DST]);
    case CBC:
        return op->fn.cbc(c->n, c->l, c->at[KEY], c->len[KEY], c->at[START], c->len[START], c->at[SRC], c->len[SRC], c->at[DST],
                          c->len[DST]);
    case CTR:
        return op->fn.ctr(c->n, c->l, c->at[KEY], c->len[KEY], c->at[START], c->len[START], c->q, c->at[SRC], c->len[SRC], c->at[DST],
                          c->len[DST]);
    case CMAC:
        return op->fn.cmac(c->l, c->at[KEY], c->len[KEY], c->at[SRC], c->len[SRC], c->at[DST], c->len[DST]);
    case VERIFY:
        return op->fn.verify(c->l, c->at[KEY], c->len[KEY], c->at[SRC], c->len[SRC], c->at[START], c->len[START], c->at[DST]);
    case ROW:
        return op->fn.row(c->at[KEY], c->len[KEY], c->q, (uint64_t *)(void *)c->at[DST]);
    case PRODUCT:
        return op->fn.product(c->at[KEY], c->len[KEY], c->at[SRC], c->len[SRC], c->at[DST], c->len[DST]);
    case INVERSE:
        return op->fn.inverse(c->at[KEY], c->len[KEY], c->at[DST], c->len[DST]);
    default:
        return op->fn.judge(c->at[KEY], c->len[KEY], c->at[DST], (uint64_t *)(void *)c->at[WORD]);
    }
}

int is_tag(enum kind kind) { return kind == CMAC || kind == VERIFY; }

int is_row(enum kind kind) { return kind == ROW || kind == PRODUCT || kind == INVERSE || kind == JUDGE; }

/* Whether DST is *yes. */
int says_yes(enum kind kind) { return kind == VERIFY || kind == JUDGE; }

/* Whether every call sets DST, and WORD, also one that is refused; they have no length of their own then. */
int always_sets(enum kind kind) { return says_yes(kind) || kind == ROW; }

enum buffer tag_of(enum kind kind) { return kind == CMAC ? DST : START; }

/* Whether the operations of this kind have such a buffer. */
int has(enum kind kind, enum buffer b)
{
    if (b == WORD) return kind == JUDGE;
    if (is_row(kind)) return b == KEY || b == DST || (b == SRC && kind == PRODUCT);
    return b != START || (kind != BLOCK && kind != CMAC);
}

uint8_t row_sum(const uint8_t *row, size_t len)
{
    uint8_t sum = 0;
    for (size_t i = 0; i < len; i++) sum ^= row[i];
    return sum;
}

/* Document 01's number, by its order of checks, and document 02's for tags and rows; expansion's first. */
uint8_t number_of(enum kind kind, const struct call *c)
{
    size_t n = c->n, l = c->l;
    if (is_row(kind)) {
        if (c->len[KEY] != 8 || (kind == PRODUCT && c->len[SRC] != 8)) return 4;
        if ((kind == ROW || kind == INVERSE) && row_sum(c->at[KEY], 8) == 0) return 13;
        return !always_sets(kind) && c->len[DST] != 8 ? 5 : 0;
    }
    if (n != 1 && n != 2 && n != 4) return 1;
    if (l != 2 && l != 3 && l != 4) return 2;
    if (c->len[KEY] != 8 * n * l) return 3;
    if (is_tag(kind)) return c->len[tag_of(kind)] < 8 || c->len[tag_of(kind)] > 16 ? 11 : 0;
    if (kind != BLOCK && c->len[START] != 16 * n) return 6;
    if (kind == BLOCK && c->len[SRC] != 16 * n) return 4;
    if (kind == CBC && c->len[SRC] % (16 * n) != 0) return 4;
    if (c->len[DST] != c->len[SRC]) return 5;
    return 0;
}

/* ---- numbers: each function over a grid of n, l and lengths; every buffer of length 0 is NULL */

enum { ROOM = 2048, MARGIN = 64 };
static _Alignas(uint64_t) uint8_t plain[BUFFERS][ROOM + 2 * MARGIN], before[BUFFERS][ROOM + 2 * MARGIN];

/* The four lengths around one that fits, 0 first; how many there are. */
static int around(size_t right, size_t *lengths)
{
    int count = 0;
    lengths[count++] = 0;
    if (right > 1) lengths[count++] = right - 1;
    if (right > 0) lengths[count++] = right;
    lengths[count++] = right + 1;
    return count;
}

static void number_case(const struct op *op, struct call *c, long *calls, long *seen)
{
    for (int b = 0; b < BUFFERS; b++) c->at[b] = c->len[b] ? plain[b] + MARGIN : NULL;
    for (int b = DST; b < BUFFERS; b++) memcpy(plain[b], before[b], sizeof plain[b]);
    uint8_t expected = number_of(op->kind, c), number = run(op, c);
    ++*calls;
    seen[expected]++;
    if (number != expected) wrong(CALL_TEXT "%d, not %d", CALL(op, c), number, expected);
    for (int b = DST; b < BUFFERS; b++) {
        size_t written = number == 0 || always_sets(op->kind) ? c->len[b] : 0;
        if (memcmp(plain[b], before[b], MARGIN) != 0 ||
            memcmp(plain[b] + MARGIN + written, before[b] + MARGIN + written, ROOM + MARGIN - written) != 0)
            wrong(CALL_TEXT "number %d, and %s touched", CALL(op, c), number, buffer_names[b]);
        if (op->kind <= CTR && written && memcmp(plain[b] + MARGIN, before[b] + MARGIN, written) == 0)
            wrong(CALL_TEXT "number %d, and nothing written", CALL(op, c), number);
    }
    if (!made_right(op->kind, c)) wrong(CALL_TEXT "number %d, and the tag, *yes, *out, *word or the row is wrong", CALL(op, c), number);
    for (int b = KEY; b < DST; b++)
        if (memcmp(plain[b], before[b], sizeof plain[b]) != 0) wrong("%s: %s changed", op->name, buffer_names[b]);
}

/* each with what it is taken for where lengths are made: low bits where those are small, else a legal one */
static const struct { size_t value, as; } ns[] = {
    {0, 0}, {1, 1}, {2, 2}, {3, 3}, {4, 4}, {5, 5}, {8, 8}, {((size_t)1 << 32) + 1, 1}, {((size_t)1 << 32) + 2, 2},
    {((size_t)1 << 60) + 1, 1}, {(size_t)1 << 63, 0}, {SIZE_MAX, 1},
}, ls[] = {
    {0, 0}, {1, 1}, {2, 2}, {3, 3}, {4, 4}, {5, 5}, {8, 8}, {((size_t)1 << 32) + 1, 1}, {((size_t)1 << 32) + 2, 2},
    {((size_t)1 << 61) + 2, 2}, {SIZE_MAX, 3},
};
enum { NS = sizeof ns / sizeof *ns, LS = sizeof ls / sizeof *ls };

/* Tags: lengths of 0 to 17 bytes and more; to be verified, the message's tag and one that differs in its last bit, over both of two
 * bytes at yes. */
static void tag_numbers(const struct op *op, long *calls, long *seen)
{
    static const size_t messages[] = {0, 1, 16, 17}, more[] = {24, 32, 255, 256 + 8, 256 + 16, ROOM};
    static const uint8_t held[] = {0xAA, 1};
    for (int j = 0; j < LS; j++) {
        size_t keys[4], legal = ls[j].value >= 2 && ls[j].value <= 4 ? ls[j].value : 2;
        int key_count = around(8 * ls[j].as, keys);
        for (int k = 0; k < key_count; k++)
            for (size_t m = 0; m < sizeof messages / sizeof *messages; m++)
                for (size_t t = 0; t < 18 + sizeof more / sizeof *more; t++)
                    for (int way = 0; way < (op->kind == VERIFY ? 4 : 1); way++) {
                        size_t tag = t < 18 ? t : more[t - 18];
                        struct call c = {.n = 1, .l = ls[j].value, .len = {keys[k], 0, messages[m], 1}};
                        c.len[tag_of(op->kind)] = tag;
                        if (op->kind == VERIFY) {
                            cmac(legal, plain[KEY] + MARGIN, plain[SRC] + MARGIN, messages[m], plain[START] + MARGIN);
                            if (way & 1) plain[START][MARGIN + (tag && tag < 16 ? tag : 16) - 1] ^= 1;
                            memcpy(before[START], plain[START], sizeof before[START]);
                            before[DST][MARGIN] = held[way >> 1];
                        }
                        number_case(op, &c, calls, seen);
                    }
    }
}

static void put(enum buffer b, const uint8_t *bytes, size_t len)
{
    memcpy(before[b] + MARGIN, bytes, len);
    memcpy(plain[b], before[b], sizeof plain[b]);
}

/* The word that a call with such a row leaves in *out. */
static uint64_t row_case(const struct op *op, const uint8_t *row, size_t len, uint64_t word, long *calls, long *seen)
{
    struct call c = {.q = word, .len = {len, 0, 0, sizeof word}};
    put(KEY, row, len);
    number_case(op, &c, calls, seen);
    memcpy(&word, plain[DST] + MARGIN, sizeof word);
    return word;
}

/* A row that XORs to zero, or for the ways 8 to 15 would without one of its bytes, whichever it is. */
static void zero_sum(uint8_t *row, size_t len, size_t way)
{
    size_t one = len ? way % 8 % len : 0;
    fill(row, len);
    row[one] |= 1;
    if (len) row[(one + 1) % len] ^= (uint8_t)(row_sum(row, len) ^ (way < 8 ? 0 : row[one]));
}

/* Rows of 0 to 20 bytes and more that XOR to zero, or would without one of them; then, of eight coefficients, the published row and the one
 * that changes no word, every coefficient alone with every byte alone, and any rows. */
static void row_numbers(const struct op *op, long *calls, long *seen)
{
    static const size_t more[] = {24, 64, 255, 256 + 8, ROOM};
    static uint8_t row[ROOM];
    for (size_t t = 0; t < 21 + sizeof more / sizeof *more; t++)
        for (size_t way = 0; way < 16; way++) {
            size_t len = t < 21 ? t : more[t - 21];
            zero_sum(row, len, way);
            row_case(op, row, len, next(), calls, seen);
        }
    for (int i = 0; i < 1000; i++) {
        uint64_t word = i < 64 ? (uint64_t)1 << i : next();
        if (row_case(op, published, 8, word, calls, seen) != labyrinth_mix(word)) wrong("%s: the published row and labyrinth_mix differ", op->name);
        if (row_case(op, neutral, 8, word, calls, seen) != word) wrong("%s: the row 01 and seven 00 changes a word", op->name);
    }
    for (int g = 0; g < 256; g++)
        for (uint64_t b = 0; b < 256; b++) {
            size_t place = below(8);
            memset(row, 0, 8);
            row[place] = (uint8_t)g;
            row_case(op, row, 8, b << 8 * below(8), calls, seen);
        }
    for (int i = 0; i < 4096; i++) {
        fill(row, 8);
        row_case(op, row, 8, next(), calls, seen);
    }
}

/* A product of such rows to a destination of such a length. */
static void product_case(const struct op *op, const uint8_t *g, size_t g_len, const uint8_t *h, size_t h_len, size_t room, long *calls, long *seen)
{
    struct call c = {.len = {g_len, 0, h_len, room}};
    put(KEY, g, g_len);
    put(SRC, h, h_len);
    number_case(op, &c, calls, seen);
}

static void inverse_case(const struct op *op, const uint8_t *row, size_t len, size_t room, long *calls, long *seen)
{
    struct call c = {.len = {len, 0, 0, room}};
    put(KEY, row, len);
    number_case(op, &c, calls, seen);
}

static const size_t row_lengths[] = {0, 1, 7, 8, 9, 16, 256 + 8, ROOM};
enum { ROW_LENGTHS = sizeof row_lengths / sizeof *row_lengths };

/* All lengths with all, for any rows, rows of which one or both XOR to zero, and the zero row; then, of eight coefficients, every one alone
 * with every one alone, each place with each, the published row and 01 and seven 00, and any rows. */
static void product_numbers(const struct op *op, long *calls, long *seen)
{
    static uint8_t g[ROOM], h[ROOM];
    for (int i = 0; i < ROW_LENGTHS * ROW_LENGTHS * ROW_LENGTHS; i++)
        for (int way = 0; way < 5; way++) {
            size_t g_len = row_lengths[i % ROW_LENGTHS], h_len = row_lengths[i / ROW_LENGTHS % ROW_LENGTHS];
            zero_sum(g, g_len, way & 1 ? 0 : 8);
            zero_sum(h, h_len, way & 2 ? 0 : 8);
            if (way == 4) memset(i & 1 ? g : h, 0, ROOM);
            product_case(op, g, g_len, h, h_len, row_lengths[i / ROW_LENGTHS / ROW_LENGTHS], calls, seen);
        }
    for (int i = 0; i < 256 * 256; i++) {
        memset(g, 0, 8);
        memset(h, 0, 8);
        g[below(8)] = (uint8_t)i;
        h[below(8)] = (uint8_t)(i >> 8);
        product_case(op, g, 8, h, 8, 8, calls, seen);
    }
    for (int i = 0; i < 4096; i++) {
        fill(g, 8);
        fill(h, 8);
        if (i < 64) memset(g, 0, 8), memset(h, 0, 8), g[i / 8] = h[i % 8] = 0x80;
        if (i % 16 == 13) memcpy(g, published, 8);
        if (i % 16 == 14) memcpy(h, neutral, 8);
        if (i % 16 == 15) memcpy(h, g, 8);
        product_case(op, g, 8, h, 8, 8, calls, seen);
    }
}

/* All lengths with all, for rows that XOR to zero, or would without one of them, and the zero row; then, of eight coefficients, every one
 * alone at every place, all eight the same, the published row and its inverse, and any rows. */
static void inverse_numbers(const struct op *op, long *calls, long *seen)
{
    static uint8_t row[ROOM];
    for (int i = 0; i < ROW_LENGTHS * ROW_LENGTHS; i++)
        for (size_t way = 0; way < 17; way++) {
            size_t len = row_lengths[i % ROW_LENGTHS];
            zero_sum(row, len, way);
            if (way == 16) memset(row, 0, ROOM);
            inverse_case(op, row, len, row_lengths[i / ROW_LENGTHS], calls, seen);
        }
    for (int i = 0; i < 256 * 9; i++) {
        memset(row, i / 256 == 8 ? i : 0, 8);
        row[i / 256 % 8] = (uint8_t)i;
        inverse_case(op, row, 8, 8, calls, seen);
    }
    for (int i = 0; i < 4096; i++) {
        fill(row, 8);
        inverse_case(op, i == 0 ? published : i == 1 ? published_inverse : row, 8, 8, calls, seen);
        if (i < 2 && memcmp(plain[DST] + MARGIN, i == 0 ? published_inverse : published, 8) != 0)
            wrong("%s: the published row and its inverse", op->name);
    }
}

/* A verdict, by turns over one of two bytes at yes. */
static void judge_case(const struct op *op, const uint8_t *row, size_t len, long *calls, long *seen)
{
    struct call c = {.len = {len, 0, 0, 1, sizeof(uint64_t)}};
    before[DST][MARGIN] = *calls & 1 ? 1 : 0xAA;
    put(KEY, row, len);
    number_case(op, &c, calls, seen);
}

/* Rows of 0 to 20 bytes and more that XOR to zero, or would without one of them, and zeros; then the rows to judge. */
static void judge_numbers(const struct op *op, long *calls, long *seen)
{
    static const size_t more[] = {24, 64, 255, 256 + 8, ROOM};
    static uint8_t row[ROOM];
    for (size_t t = 0; t < 21 + sizeof more / sizeof *more; t++)
        for (size_t way = 0; way < 17 && !enough(); way++) {
            size_t len = t < 21 ? t : more[t - 21];
            zero_sum(row, len, way);
            if (way == 16) memset(row, 0, ROOM);
            judge_case(op, row, len, calls, seen);
        }
    for (int i = 0; i < TO_JUDGE && !enough(); i++) judge_case(op, to_judge[i].row, 8, calls, seen);
}

/* The operations of one kind, or, for KINDS, all. */
long numbers(const struct op *ops, enum kind kind)
{
    long calls = 0;
    for (int b = 0; b < BUFFERS; b++) {
        fill(before[b], sizeof before[b]);
        memcpy(plain[b], before[b], sizeof plain[b]);
    }
    for (const struct op *op = ops; op < ops + OPS; op++) {
        long seen[14] = {0};
        if (kind != KINDS && kind != op->kind) continue;
        if (is_tag(op->kind)) tag_numbers(op, &calls, seen);
        if (op->kind == ROW) row_numbers(op, &calls, seen);
        if (op->kind == PRODUCT) product_numbers(op, &calls, seen);
        if (op->kind == INVERSE) inverse_numbers(op, &calls, seen);
        if (op->kind == JUDGE) judge_numbers(op, &calls, seen);
        for (int i = 0; op->kind <= CTR && i < NS; i++)
            for (int j = 0; j < LS; j++) {
                size_t block = 16 * ns[i].as, keys[4], starts[4], sources[6];
                int key_count = around(8 * ns[i].as * ls[j].as, keys), start_count = op->kind == BLOCK ? 1 : around(block, starts);
                int source_count = around(block, sources);
                sources[source_count++] = 3 * block;
                sources[source_count++] = 3 * block + 7;
                struct call c = {.n = ns[i].value, .l = ls[j].value, .q = next()};
                for (int k = 0; k < key_count; k++)
                    for (int s = 0; s < start_count; s++)
                        for (int t = 0; t < source_count; t++) {
                            size_t destinations[5];
                            int destination_count = around(sources[t], destinations);
                            destinations[destination_count++] = block;
                            for (int d = 0; d < destination_count; d++) {
                                c.len[KEY] = keys[k];
                                c.len[START] = op->kind == BLOCK ? 0 : starts[s];
                                c.len[SRC] = sources[t];
                                c.len[DST] = destinations[d];
                                number_case(op, &c, &calls, seen);
                            }
                        }
            }
        for (int number = 0; number <= 13; number++) {
            /* a bit for each number that a kind gives: tags 0, 2, 3 and 11, mixing by a row 0, 4 and 13, the product 0, 4 and 5, the inverse
             * 0, 4, 5 and 13, a verdict 0 and 4 */
            static const int given_by[KINDS] = {[BLOCK] = 0x3F, [CBC] = 0x7F, [CTR] = 0x6F, [CMAC] = 0x80D, [VERIFY] = 0x80D, [ROW] = 0x2011,
                                                [PRODUCT] = 0x31, [INVERSE] = 0x2031, [JUDGE] = 0x11};
            int given = given_by[op->kind] >> number & 1;
            if (given != (seen[number] > 0)) wrong("%s: the grid has %ld calls with the number %d", op->name, seen[number], number);
        }
    }
    return calls;
}

const size_t far = (size_t)1 << 32;

/* 2^32 bytes and some that can't be written; the second for the destination, which overlaps nothing. */
static uint8_t *far_off[2];

/* A call that is refused, for one length or more too long by 2^32, so right once bits are lost. */
static void far_case(const struct op *op, const struct call *c, long *calls)
{
    for (int b = DST; b < BUFFERS; b++) memcpy(plain[b], before[b], sizeof plain[b]);
    uint8_t expected = number_of(op->kind, c), number = run(op, c);
    ++*calls;
    if (expected == 0 || number != expected) wrong(CALL_TEXT "%d, not %d", CALL(op, c), number, expected);
    if (!made_right(op->kind, c)) wrong(CALL_TEXT "a refusal, and *yes, *out or *word is not 0", CALL(op, c));
    if (!always_sets(op->kind) && memcmp(plain[DST], before[DST], sizeof plain[DST]) != 0)
        wrong(CALL_TEXT "a refusal, and the destination touched", CALL(op, c));
}

/* Products and inverses: all lengths with all, one or more so long; the inverse of a row that XORs to zero too. */
static void far_rows(const struct op *ops, long *calls)
{
    static const uint8_t refused[8] = {1, 2, 3};
    for (int g = 0; g <= ROW_LENGTHS; g++)
        for (int h = 0; h <= ROW_LENGTHS; h++)
            for (int d = 0; d <= ROW_LENGTHS; d++) {
                const int which[BUFFERS] = {g, 0, h, d};
                struct call c = {.n = 0};
                if (g < ROW_LENGTHS && h < ROW_LENGTHS && d < ROW_LENGTHS) continue;
                for (int b = 0; b < BUFFERS; b++) {
                    c.len[b] = which[b] < ROW_LENGTHS ? row_lengths[which[b]] : far + 8;
                    c.at[b] = which[b] == ROW_LENGTHS ? far_off[b == DST] : c.len[b] ? plain[b] + MARGIN : NULL;
                }
                put(KEY, published, 8);
                far_case(&ops[MULTIPLIES], &c, calls);
                if (h != 0) continue;
                far_case(&ops[INVERTS], &c, calls);
                put(KEY, refused, 8);
                far_case(&ops[INVERTS], &c, calls);
            }
}

/* One length too long by 2^32, of all but products and inverses, and those above. How many calls. */
long far_lengths(const struct op *ops)
{
    static const size_t l = 4;
    long calls = 0;
    for (int i = 0; i < 2; i++) {
        far_off[i] = mmap(NULL, far + ROOM, PROT_READ, MAP_PRIVATE | MAP_ANONYMOUS | MAP_NORESERVE, -1, 0);
        if (far_off[i] == MAP_FAILED) stop("mmap");
    }
    before[DST][0] = 1; /* for *yes */
    for (const struct op *op = ops; op < ops + OPS; op++)
        for (int b = 0; b < BUFFERS && op->kind != PRODUCT && op->kind != INVERSE; b++) {
            if (!has(op->kind, (enum buffer)b) || (is_tag(op->kind) && b == SRC) || (always_sets(op->kind) && b >= DST)) continue;
            struct call c = {.n = 1, .l = l, .len = {is_row(op->kind) ? 8 : 8 * l, 16, 16, says_yes(op->kind) ? 1 : 16, 8}};
            for (int i = 0; i < BUFFERS; i++) c.at[i] = plain[i];
            c.at[b] = far_off[b == DST];
            c.len[b] += far;
            far_case(op, &c, &calls);
        }
    far_rows(ops, &calls);
    for (int i = 0; i < 2; i++) munmap(far_off[i], far + ROOM);
    return calls;
}

/* NULL for a page, a message, a tag or a row of no bytes, by name. */
void no_bytes(void)
{
    static const uint8_t zeros[128];
    uint8_t tag[16], yes = 0xAA;
    uint64_t out = 0xAA;
    if (labyrinth_mix_row(NULL, 0, 1, &out) != 4 || out != 0) wrong("mix_row: NULL, a row of 0 bytes");
    if (labyrinth_row_product(NULL, 0, NULL, 0, NULL, 0) != 4 || labyrinth_row_product(published, 8, NULL, 0, NULL, 0) != 4 ||
        labyrinth_row_product(NULL, 0, published, 8, NULL, 0) != 4 || labyrinth_row_product(published, 8, published, 8, NULL, 0) != 5)
        wrong("row_product: NULL, a row of 0 bytes");
    if (labyrinth_row_inverse(NULL, 0, NULL, 0) != 4 || labyrinth_row_inverse(zeros, 8, NULL, 0) != 13 ||
        labyrinth_row_inverse(published, 8, NULL, 0) != 5)
        wrong("row_inverse: NULL, a row of 0 bytes");
    out = 0xAA;
    if (labyrinth_row_judge(NULL, 0, &yes, &out) != 4 || yes != 0 || out != 0) wrong("row_judge: NULL, a row of 0 bytes");
    for (size_t l = 2; l <= 4; l++) {
        if (labyrinth_cmac(l, zeros, 8 * l, NULL, 0, tag, sizeof tag) != 0) wrong("cmac: NULL, 0 bytes");
        if (labyrinth_cmac_verify(l, zeros, 8 * l, NULL, 0, tag, sizeof tag, &yes) != 0 || yes != 1) wrong("cmac_verify: NULL, 0 bytes");
        if (labyrinth_cmac(l, zeros, 8 * l, NULL, 0, NULL, 0) != 11) wrong("cmac: NULL, a tag of 0 bytes");
        if (labyrinth_cmac_verify(l, zeros, 8 * l, NULL, 0, NULL, 0, &yes) != 11 || yes != 0) wrong("cmac_verify: NULL, a tag of 0 bytes");
    }
    for (size_t n = 1; n <= 4; n *= 2)
        for (size_t l = 2; l <= 4; l++) {
            if (labyrinth_cbc_seal(n, l, zeros, 8 * n * l, zeros, 16 * n, NULL, 0, NULL, 0) != 0) wrong("cbc_seal: NULL, 0 bytes");
            if (labyrinth_cbc_open(n, l, zeros, 8 * n * l, zeros, 16 * n, NULL, 0, NULL, 0) != 0) wrong("cbc_open: NULL, 0 bytes");
            if (labyrinth_ctr(n, l, zeros, 8 * n * l, zeros, 16 * n, 1, NULL, 0, NULL, 0) != 0) wrong("ctr: NULL, 0 bytes");
        }
}
