/* Stubs stand in the library's place: its functions, which then do one thing wrong, all of them or those of one kind. Each is noticed by the
 * trials that are to notice it. */
#include <signal.h>

#include "interface.h"

static struct {
    enum { HONEST, PAST, BEFORE, WRITES, SWAPS, TOUCHES, DEEP, CALLS_3, ALTERS, SAYS_YES, SAYS_NO, LOOKS_AT_8, KEEPS, SWAPS_13, SUM_FIRST,
           SUMS_7, MIXES, ONE_ROW, TURNS, CUTS, CUTS_H, CUTS_DST, CUTS_32, CUTS_32_H, TAKES_8, FIVE_FIRST, FIVE_BEFORE_13, FIVE_FOR_H,
           REFUSES_13, ZERO_ROW_ONLY, CLEARS, ALIGNS, OVERRUNS, DROPS, MODULO_11D, SQUARES, COPIES, SIXTH, UNDIVIDED, TIMES_EIGHTH,
           GIVES_0, KEEPS_WORD, SHOWS_ON_REFUSAL, UNSET_YES, UNSET_WORD, TURNS_ROUND, TAKES_SIZE, EIGHT_WILL_DO, SHOWS_ZERO, SHOWS_NINE,
           SHOWS_MIXED, SHOWS_REVERSED, SHOWS_WITH_YES, OVERRUNS_WORD } what;
    enum buffer which;
    enum kind kind; /* KINDS for all */
    int size; /* of submatrices */
} stub;

static int is_at_work(enum kind kind) { return stub.kind == KINDS || stub.kind == kind; }

static uint8_t misdo(enum kind kind, uint8_t number, struct call c)
{
    if (!is_at_work(kind)) return number;
    volatile uint8_t *at = c.at[stub.which];
    size_t len = c.len[stub.which];
    switch (stub.what) {
    case PAST: if (at) sink = at[len]; break;
    case BEFORE: if (at) sink = at[-1]; break;
    case WRITES: if (len) at[0] = at[0]; break;
    case SWAPS: if (number == 4 || number == 5) number = (uint8_t)(9 - number); break;
    case TOUCHES: if (number && c.len[DST]) c.at[DST][c.len[DST] - 1] ^= 1; break;
    case SWAPS_13: if (number == 4 || number == 13) number = (uint8_t)(17 - number); break;
    case CALLS_3: if (number == 11) number = 3; break;
    case ALTERS: if (number == 0) c.at[DST][c.len[DST] - 1] ^= 0x80; break;
    case CLEARS: if (number && c.len[DST]) memset(c.at[DST], 0, c.len[DST]); break;
    case OVERRUNS: if (number == 0) c.at[DST][c.len[DST]] ^= 1; break;
    case OVERRUNS_WORD: if (number == 0) c.at[WORD][c.len[WORD]] ^= 1; break;
    case SAYS_YES: if (number == 0) *c.at[DST] = 1; break;
    case SAYS_NO: *c.at[DST] = 0; break;
    default: break;
    }
    return number;
}

static __attribute__((noinline)) void deepen(void)
{
    volatile uint8_t room[LABYRINTH_STACK + 64];
    room[0] = 1;
    sink = room[0];
}

#define LENT(n, start, start_len, src, src_len, dst, dst_len) \
    (struct call){n, l, 0, {(uint8_t *)(uintptr_t)key, (uint8_t *)(uintptr_t)(start), (uint8_t *)(uintptr_t)(src), dst}, {key_len, start_len, src_len, dst_len}}

#define BLOCK_STUB(name, real) \
    static uint8_t name(size_t n, size_t l, const uint8_t *key, size_t key_len, const uint8_t *src, size_t src_len, uint8_t *dst, size_t dst_len) \
    { \
        if (stub.what == DEEP) deepen(); \
        return misdo(BLOCK, real(n, l, key, key_len, src, src_len, dst, dst_len), LENT(n, NULL, 0, src, src_len, dst, dst_len)); \
    }
#define CBC_STUB(name, real) \
    static uint8_t name(size_t n, size_t l, const uint8_t *key, size_t key_len, const uint8_t *start, size_t start_len, const uint8_t *src, \
                        size_t src_len, uint8_t *dst, size_t dst_len) \
    { \
        if (stub.what == DEEP) deepen(); \
        return misdo(CBC, real(n, l, key, key_len, start, start_len, src, src_len, dst, dst_len), \
                     LENT(n, start, start_len, src, src_len, dst, dst_len)); \
    }
BLOCK_STUB(stub_encipher, labyrinth_encipher)
BLOCK_STUB(stub_decipher, labyrinth_decipher)
CBC_STUB(stub_cbc_seal, labyrinth_cbc_seal)
CBC_STUB(stub_cbc_open, labyrinth_cbc_open)
static uint8_t stub_ctr(size_t n, size_t l, const uint8_t *key, size_t key_len, const uint8_t *start, size_t start_len, uint64_t q,
                        const uint8_t *src, size_t src_len, uint8_t *dst, size_t dst_len)
{
    if (stub.what == DEEP) deepen();
    return misdo(CTR, labyrinth_ctr(n, l, key, key_len, start, start_len, q, src, src_len, dst, dst_len),
                 LENT(n, start, start_len, src, src_len, dst, dst_len));
}
static uint8_t stub_cmac(size_t l, const uint8_t *key, size_t key_len, const uint8_t *msg, size_t msg_len, uint8_t *tag, size_t tag_len)
{
    if (stub.what == DEEP) deepen();
    return misdo(CMAC, labyrinth_cmac(l, key, key_len, msg, msg_len, tag, tag_len), LENT(1, NULL, 0, msg, msg_len, tag, tag_len));
}
static uint8_t stub_cmac_verify(size_t l, const uint8_t *key, size_t key_len, const uint8_t *msg, size_t msg_len, const uint8_t *tag,
                                size_t tag_len, uint8_t *yes)
{
    uint8_t held = *yes;
    if (stub.what == DEEP) deepen();
    uint8_t number = labyrinth_cmac_verify(l, key, key_len, msg, msg_len, tag, tag_len, yes);
    if (is_at_work(VERIFY) && stub.what == KEEPS && number != 0) *yes = held;
    if (stub.what == LOOKS_AT_8 && number == 0) labyrinth_cmac_verify(l, key, key_len, msg, msg_len, tag, 8, yes);
    return misdo(VERIFY, number, LENT(1, tag, tag_len, msg, msg_len, yes, 1));
}
static const uint8_t *turned(const uint8_t *row)
{
    static uint8_t to[8];
    for (int i = 0; i < 8; i++) to[i] = row[-i & 7];
    return to;
}
static uint8_t stub_mix_row(const uint8_t *row, size_t row_len, uint64_t word, uint64_t *out)
{
    struct call c = {.q = word, .at = {(uint8_t *)(uintptr_t)row, NULL, NULL, (uint8_t *)out}, .len = {row_len, 0, 0, sizeof *out}};
    uint64_t held = *out;
    int what = is_at_work(ROW) ? (int)stub.what : HONEST;
    if (what == DEEP) deepen();
    if (what == CUTS) row_len %= 256;
    if (what == CUTS_32) row_len %= far;
    if (what == ONE_ROW && row_len == 8) row = published;
    if (what == TURNS && row_len == 8) row = turned(row);
    uint8_t number = labyrinth_mix_row(row, row_len, word, out);
    if (what == KEEPS && number != 0) *out = held;
    if (what == SUM_FIRST && row_sum(row, row_len) == 0) number = 13;
    if (what == MIXES && number != 0 && row_len == 8) *out = mixed(row, word);
    if (what == SUMS_7 && row_len == 8) {
        number = row_sum(row, 7) == 0 ? 13 : 0;
        *out = number == 0 ? mixed(row, word) : 0;
    }
    return misdo(ROW, number, c);
}
static const uint8_t *aligned(const uint8_t *at) { return at - (uintptr_t)at % 8; }
static uint8_t stub_row_product(const uint8_t *g, size_t g_len, const uint8_t *h, size_t h_len, uint8_t *dst, size_t dst_len)
{
    struct call c = {.at = {(uint8_t *)(uintptr_t)g, NULL, (uint8_t *)(uintptr_t)h, dst}, .len = {g_len, 0, h_len, dst_len}};
    int what = is_at_work(PRODUCT) ? (int)stub.what : HONEST, eight = g_len == 8 && h_len == 8;
    if (what == DEEP) deepen();
    if (what == FIVE_FIRST && dst_len != 8) return 5;
    if (what == REFUSES_13 && eight && (row_sum(g, 8) == 0 || row_sum(h, 8) == 0)) return 13;
    if (what == KEEPS && eight && dst_len == 8) return 0;
    if (what == CUTS) g_len %= 256;
    if (what == CUTS_H) h_len %= 256;
    if (what == CUTS_DST) dst_len %= 256;
    if (what == CUTS_32) g_len %= far;
    if (what == CUTS_32_H) h_len %= far;
    if (what == TAKES_8 && h_len > 8) h_len = 8;
    if (what == SQUARES && eight) h = g;
    if (what == ONE_ROW && eight) h = published;
    if (what == TURNS && eight) h = turned(h);
    if (what == ALIGNS) h = aligned(h);
    uint8_t number = labyrinth_row_product(g, g_len, h, h_len, dst, dst_len);
    if (what == FIVE_FOR_H && number == 4 && g_len == 8) number = 5;
    if (what == COPIES && number == 0) memcpy(dst, g, 8);
    if ((what == DROPS || what == MODULO_11D) && number == 0) {
        memset(dst, 0, 8);
        for (int j = 0; j < 8; j++)
            for (int k = 0; k < (what == DROPS ? 8 - j : 8); k++)
                dst[(j + k) & 7] ^= times_modulo(what == DROPS ? FIELD : OTHER_FIELD, g[j], h[k]);
    }
    return misdo(PRODUCT, number, c);
}
/* A byte to a power. */
static uint8_t power(unsigned field, uint8_t a, int n)
{
    uint8_t product = 1;
    while (n-- > 0) product = times_modulo(field, product, a);
    return product;
}
static uint8_t stub_row_inverse(const uint8_t *row, size_t row_len, uint8_t *dst, size_t dst_len)
{
    struct call c = {.at = {(uint8_t *)(uintptr_t)row, NULL, NULL, dst}, .len = {row_len, 0, 0, dst_len}};
    int what = is_at_work(INVERSE) ? (int)stub.what : HONEST;
    uint8_t inverse[8];
    if (what == DEEP) deepen();
    if (what == FIVE_FIRST && dst_len != 8) return 5;
    if (what == FIVE_BEFORE_13 && row_len == 8 && dst_len != 8) return 5;
    if (what == SUM_FIRST && row_sum(row, row_len) == 0) return 13;
    if (what == SUMS_7 && row_len == 8 && row_sum(row, 7) == 0) return 13;
    if (what == KEEPS && row_len == 8 && row_sum(row, 8) != 0 && dst_len == 8) return 0;
    if (what == CUTS) row_len %= 256;
    if (what == CUTS_DST) dst_len %= 256;
    if (what == CUTS_32) row_len %= far;
    if (what == TAKES_8 && row_len > 8) row_len = 8;
    if (what == ONE_ROW && row_len == 8 && row_sum(row, 8) != 0) row = published;
    if (what == TURNS && row_len == 8) row = turned(row);
    if (what == ALIGNS) row = aligned(row);
    uint8_t number = labyrinth_row_inverse(row, row_len, dst, dst_len);
    if (number == 13 && ((what == ZERO_ROW_ONLY && memcmp(row, (uint8_t[8]){0}, 8) != 0) || (what == SUMS_7 && row_sum(row, 7) != 0))) {
        number = dst_len == 8 ? 0 : 5;
        if (number == 0) memset(dst, 0, 8);
    }
    if (what == COPIES && number == 0) memcpy(dst, row, 8);
    if (what == SIXTH && number == 0) { /* over the eighth: the inverse times itself */
        memcpy(inverse, dst, 8);
        multiply(inverse, inverse, dst);
    }
    for (int i = 0; i < 8 && number == 0; i++) {
        if (what == UNDIVIDED) dst[i] = times(dst[i], power(FIELD, row_sum(row, 8), 8));
        if (what == TIMES_EIGHTH) dst[i] = times(dst[i], power(FIELD, row_sum(row, 8), 16));
    }
    if (what == MODULO_11D && number == 0) {
        memcpy(inverse, neutral, 8);
        for (int n = 0; n < 7; n++) {
            memset(dst, 0, 8);
            for (int j = 0; j < 8; j++)
                for (int k = 0; k < 8; k++) dst[(j + k) & 7] ^= times_modulo(OTHER_FIELD, inverse[j], row[k]);
            memcpy(inverse, dst, 8);
        }
        uint8_t reciprocal = power(OTHER_FIELD, row_sum(row, 8), 8 * 254);
        for (int i = 0; i < 8; i++) dst[i] = times_modulo(OTHER_FIELD, dst[i], reciprocal);
    }
    return misdo(INVERSE, number, c);
}
/* A word with nine or more; 1 if the first thousand have none. */
static uint64_t with_nine(const uint8_t *row)
{
    for (uint64_t word = 1; word <= 1000; word++)
        if (together(row, word) >= 9) return word;
    return 1;
}
static void misjudge(int what, const uint8_t *row, uint8_t *yes, uint64_t *word)
{
    int right = *yes;
    if (what == SAYS_YES || (what == TURNS_ROUND && !right)) *yes = 1;
    if (what == SAYS_NO || (what == TURNS_ROUND && right)) *yes = 0;
    if (what == MODULO_11D) *yes = singular_sizes(OTHER_FIELD, row) == 0;
    if (what == TAKES_SIZE && singular_sizes(FIELD, row) == 1u << stub.size) *yes = 1;
    if (what == EIGHT_WILL_DO && together(row, *word) == 8) *yes = 1;
    if (*yes != right) *word = *yes ? 0 : with_nine(row);
    if (what == SHOWS_WITH_YES && right) *word = with_nine(row);
    if (what == SHOWS_ZERO) *word = 0;
    if (what == SHOWS_NINE && !right) *word = with_nine(row);
    if (what == SHOWS_MIXED) *word = mixed(row, *word);
    if (what == SHOWS_REVERSED) *word = __builtin_bswap64(*word);
}
static uint8_t stub_row_judge(const uint8_t *row, size_t row_len, uint8_t *yes, uint64_t *word)
{
    struct call c = {.at = {(uint8_t *)(uintptr_t)row, NULL, NULL, yes, (uint8_t *)word}, .len = {row_len, 0, 0, 1, sizeof *word}};
    int what = is_at_work(JUDGE) ? (int)stub.what : HONEST;
    uint8_t held_yes = *yes;
    uint64_t held_word = *word;
    if (what == DEEP) deepen();
    if (what == CUTS) row_len %= 256;
    if (what == CUTS_32) row_len %= far;
    if (what == TAKES_8 && row_len > 8) row_len = 8;
    if (what == ONE_ROW && row_len == 8) row = published;
    if (what == TURNS && row_len == 8) row = turned(row);
    if (what == ALIGNS) row = aligned(row);
    uint8_t number = labyrinth_row_judge(row, row_len, yes, word);
    if (number == 0) misjudge(what, row, yes, word);
    if (what == REFUSES_13 && number == 0 && row_sum(row, 8) == 0) number = 13, *word = 0;
    if (number == 0 ? what == UNSET_YES : what == KEEPS) *yes = held_yes;
    if (number == 0 ? what == UNSET_WORD : what == KEEPS_WORD) *word = held_word;
    if (what == SHOWS_ON_REFUSAL && number != 0) *word = 1;
    if (what == GIVES_0) number = 0;
    return misdo(JUDGE, number, c);
}

static const struct op stubs[OPS] = {
    {"stub_encipher", BLOCK, 1, {.block = stub_encipher}},
    {"stub_decipher", BLOCK, 0, {.block = stub_decipher}},
    {"stub_cbc_seal", CBC, 3, {.cbc = stub_cbc_seal}},
    {"stub_cbc_open", CBC, 2, {.cbc = stub_cbc_open}},
    {"stub_ctr", CTR, 4, {.ctr = stub_ctr}},
    {"stub_cmac", CMAC, -1, {.cmac = stub_cmac}},
    {"stub_cmac_verify", VERIFY, -1, {.verify = stub_cmac_verify}},
    {"stub_mix_row", ROW, -1, {.row = stub_mix_row}},
    {"stub_row_product", PRODUCT, -1, {.product = stub_row_product}},
    {"stub_row_inverse", INVERSE, -1, {.inverse = stub_row_inverse}},
    {"stub_row_judge", JUDGE, -1, {.judge = stub_row_judge}},
};
/* ---- noticed */

static int noticed;

static void notice(int as_it_should, const char *what, const char *where)
{
    noticed++;
    if (!as_it_should) wrong("a stub that %s %s is not told as it should be", what, where);
}

enum { MEMORY = 1, NUMBERS = 2, FAR = 4, TAGS = 8, LAWS = 16, VERDICTS = 32 };

/* Whether each of these trials finds fault with the stubs; what they find is neither counted nor printed. */
static int all_notice(uint64_t seed, int cases, int trials)
{
    long kept = failures;
    int found = 0;
    quiet = 1;
    for (int trial = MEMORY; trial <= VERDICTS; trial *= 2) {
        if (!(trials & trial)) continue;
        failures = 0;
        if (trial == MEMORY) failures = memory(stubs, stub.kind, seed, cases, PLACE_ANY) == -1;
        if (trial == NUMBERS) numbers(stubs, stub.kind);
        if (trial == FAR) far_lengths(stubs);
        if (trial == TAGS) tags(stubs, 5);
        if (trial == LAWS) row_laws(stubs, 512);
        if (trial == VERDICTS) verdicts(stubs, 64);
        if (failures > 0) found |= trial;
    }
    failures = kept;
    quiet = 0;
    return found == trials;
}

int try_stubs(uint64_t seed)
{
    enum { CASES = 50, MORE = 7 * CASES };
    enum { BOTH = MEMORY | NUMBERS, OF_TAGS = BOTH | TAGS, OF_ROWS = BOTH | LAWS, OF_VERDICTS = BOTH | VERDICTS };
    static const struct { int what; enum kind kind; const char *does; int trials; } own_stubs[] = {
        {CALLS_3, CMAC, "calls 11 3", OF_TAGS}, {CALLS_3, VERIFY, "calls 11 3", OF_TAGS}, {ALTERS, CMAC, "alters a bit of the tag", OF_TAGS},
        {SAYS_YES, VERIFY, "always says yes", OF_TAGS}, {SAYS_NO, VERIFY, "always says no", OF_TAGS},
        {LOOKS_AT_8, VERIFY, "looks at 8 bytes", OF_TAGS}, {KEEPS, VERIFY, "leaves yes as it was on refusal", OF_TAGS},
        {TOUCHES, CMAC, "touches the tag on refusal", OF_TAGS}, {TOUCHES, VERIFY, "says yes on refusal", OF_TAGS},
        {SWAPS_13, ROW, "exchanges 4 and 13", BOTH}, {SUM_FIRST, ROW, "looks for 13 before 4", BOTH}, {SUMS_7, ROW, "XORs seven coefficients", BOTH},
        {ONE_ROW, ROW, "always mixes by the published row", BOTH}, {TURNS, ROW, "mixes by g_((j - i) mod 8)", BOTH},
        {ALTERS, ROW, "alters a bit of the word", BOTH}, {KEEPS, ROW, "leaves out as it was on refusal", BOTH},
        {TOUCHES, ROW, "gives another word than zero on refusal", BOTH}, {MIXES, ROW, "mixes by a row that it refuses", BOTH},
        {CUTS, ROW, "takes a row's length modulo 256", BOTH}, {CUTS_32, ROW, "takes a row's length modulo 2^32", FAR},
        {SWAPS, PRODUCT, "exchanges 4 and 5", BOTH}, {FIVE_FIRST, PRODUCT, "looks for 5 before 4", BOTH},
        {FIVE_FOR_H, PRODUCT, "gives 5 for the second row", BOTH}, {REFUSES_13, PRODUCT, "refuses rows that XOR to zero", OF_ROWS},
        {TAKES_8, PRODUCT, "takes eight bytes of a longer second row", BOTH}, {CUTS, PRODUCT, "takes the first row's length modulo 256", BOTH},
        {CUTS_H, PRODUCT, "takes the second row's length modulo 256", BOTH}, {CUTS_DST, PRODUCT, "takes dst's length modulo 256", BOTH},
        {CUTS_32, PRODUCT, "takes the first row's length modulo 2^32", FAR}, {CUTS_32_H, PRODUCT, "takes the second row's length modulo 2^32", FAR},
        {TOUCHES, PRODUCT, "touches dst on refusal", BOTH}, {CLEARS, PRODUCT, "clears dst on refusal", BOTH},
        {KEEPS, PRODUCT, "leaves dst as it was", OF_ROWS}, {ALTERS, PRODUCT, "alters a bit of the row", OF_ROWS},
        {DROPS, PRODUCT, "drops what is past x^7", OF_ROWS}, {MODULO_11D, PRODUCT, "multiplies modulo 0x11D", OF_ROWS},
        {TURNS, PRODUCT, "multiplies by h_((j - i) mod 8)", OF_ROWS}, {SQUARES, PRODUCT, "multiplies the first row by itself", OF_ROWS},
        {ONE_ROW, PRODUCT, "multiplies by the published row", OF_ROWS}, {COPIES, PRODUCT, "gives the first row", OF_ROWS},
        {ALIGNS, PRODUCT, "reads an aligned word", LAWS}, {OVERRUNS, PRODUCT, "writes one byte past dst", NUMBERS | LAWS},
        {SWAPS, INVERSE, "exchanges 4 and 5", BOTH}, {SWAPS_13, INVERSE, "exchanges 4 and 13", BOTH},
        {FIVE_FIRST, INVERSE, "looks for 5 before 4", BOTH}, {FIVE_BEFORE_13, INVERSE, "looks for 5 before 13", BOTH},
        {SUM_FIRST, INVERSE, "looks for 13 before 4", BOTH}, {SUMS_7, INVERSE, "XORs seven coefficients", BOTH},
        {ZERO_ROW_ONLY, INVERSE, "gives 13 for the zero row only", BOTH}, {TAKES_8, INVERSE, "takes eight bytes of a longer row", BOTH},
        {CUTS, INVERSE, "takes a row's length modulo 256", BOTH}, {CUTS_DST, INVERSE, "takes dst's length modulo 256", BOTH},
        {CUTS_32, INVERSE, "takes a row's length modulo 2^32", FAR}, {TOUCHES, INVERSE, "touches dst on refusal", BOTH},
        {CLEARS, INVERSE, "clears dst on refusal", BOTH}, {KEEPS, INVERSE, "leaves dst as it was", OF_ROWS},
        {ALTERS, INVERSE, "alters a bit of the row", OF_ROWS}, {SIXTH, INVERSE, "takes the sixth power for the seventh", OF_ROWS},
        {UNDIVIDED, INVERSE, "does not divide the seventh power", OF_ROWS},
        {TIMES_EIGHTH, INVERSE, "multiplies by the eighth power for dividing", OF_ROWS}, {MODULO_11D, INVERSE, "inverts modulo 0x11D", OF_ROWS},
        {TURNS, INVERSE, "gives the inverse of g_(-i mod 8)", OF_ROWS}, {ONE_ROW, INVERSE, "always gives the published row's", OF_ROWS},
        {COPIES, INVERSE, "gives the row itself", OF_ROWS}, {ALIGNS, INVERSE, "reads an aligned word", LAWS},
        {OVERRUNS, INVERSE, "writes one byte past dst", NUMBERS | LAWS},
        {GIVES_0, JUDGE, "gives 0 for another length", BOTH}, {REFUSES_13, JUDGE, "gives 13 for rows that XOR to zero", OF_VERDICTS},
        {TAKES_8, JUDGE, "takes eight bytes of a longer row", BOTH}, {CUTS, JUDGE, "takes a row's length modulo 256", BOTH},
        {CUTS_32, JUDGE, "takes a row's length modulo 2^32", FAR}, {KEEPS, JUDGE, "leaves yes as it was on refusal", BOTH},
        {KEEPS_WORD, JUDGE, "leaves word as it was on refusal", BOTH}, {TOUCHES, JUDGE, "says yes on refusal", BOTH},
        {SHOWS_ON_REFUSAL, JUDGE, "shows a word on refusal", BOTH}, {UNSET_YES, JUDGE, "leaves yes as it was", OF_VERDICTS},
        {UNSET_WORD, JUDGE, "leaves word as it was", OF_VERDICTS}, {ALTERS, JUDGE, "alters a bit of yes", OF_VERDICTS},
        {TURNS_ROUND, JUDGE, "turns yes and no round", OF_VERDICTS}, {SAYS_YES, JUDGE, "always says yes", OF_VERDICTS},
        {SAYS_NO, JUDGE, "always says no", OF_VERDICTS}, {ONE_ROW, JUDGE, "always judges the published row", OF_VERDICTS},
        {TURNS, JUDGE, "judges g_(-i mod 8)", OF_VERDICTS}, {MODULO_11D, JUDGE, "judges modulo 0x11D", OF_VERDICTS},
        {EIGHT_WILL_DO, JUDGE, "says yes where words miss by one", OF_VERDICTS}, {SHOWS_ZERO, JUDGE, "shows the zero word", OF_VERDICTS},
        {SHOWS_NINE, JUDGE, "shows a word with nine or more", OF_VERDICTS}, {SHOWS_MIXED, JUDGE, "shows the mixed word", OF_VERDICTS},
        {SHOWS_REVERSED, JUDGE, "shows the word's bytes in reverse", OF_VERDICTS},
        {SHOWS_WITH_YES, JUDGE, "shows a word with a yes", OF_VERDICTS}, {ALIGNS, JUDGE, "reads an aligned word", VERDICTS},
        {OVERRUNS, JUDGE, "writes one byte past yes", NUMBERS | VERDICTS}, {OVERRUNS_WORD, JUDGE, "writes one byte past word", NUMBERS | VERDICTS},
    };
    size_t each[OPS + 1];
    long kept;
    stub.what = HONEST;
    stub.kind = KINDS;
    for (int place = PLACE_END; place <= PLACE_ANY; place++)
        notice(memory(stubs, KINDS, seed, CASES, place) == 0, "does as the library does on", "lent memory");
    for (int k = 0; k < KINDS; k++)
        for (int b = 0; b < BUFFERS; b++) {
            if (!has((enum kind)k, (enum buffer)b)) continue;
            stub.kind = (enum kind)k;
            stub.which = (enum buffer)b;
            stub.what = PAST; /* crashes where the buffer is flush at its end, and not where it is flush at its start */
            notice(memory(stubs, stub.kind, seed, CASES, PLACE_END) == SIGSEGV, "reads one byte past", buffer_names[b]);
            notice(memory(stubs, stub.kind, seed, CASES, PLACE_START) == 0, "reads one byte past, flush at the start,", buffer_names[b]);
            stub.what = BEFORE;
            notice(memory(stubs, stub.kind, seed, CASES, PLACE_START) == SIGSEGV, "reads one byte before", buffer_names[b]);
            notice(memory(stubs, stub.kind, seed, CASES, PLACE_END) == 0, "reads one byte before, flush at the end,", buffer_names[b]);
            stub.what = WRITES;
            for (int place = PLACE_END; b < DST && place <= PLACE_START; place++)
                notice(memory(stubs, stub.kind, seed, CASES, place) == SIGSEGV, "writes to", buffer_names[b]);
        }
    stub.kind = KINDS;
    stub.what = TOUCHES;
    notice(all_notice(seed, MORE, BOTH), "touches the destination", "on refusal");
    stub.what = SWAPS;
    notice(all_notice(seed, MORE, BOTH), "exchanges 4 and 5", "");
    for (size_t i = 0; i < sizeof own_stubs / sizeof *own_stubs; i++) {
        stub.kind = own_stubs[i].kind;
        stub.what = own_stubs[i].what;
        notice(all_notice(seed, MORE, own_stubs[i].trials), own_stubs[i].does, "");
    }
    stub.kind = JUDGE;
    stub.what = TAKES_SIZE;
    for (stub.size = 1; stub.size <= 8; stub.size++) {
        const char where[] = {(char)('0' + stub.size), 0};
        notice(all_notice(seed, MORE, NUMBERS | VERDICTS), "says yes where all singular submatrices have the size", where);
    }
    stub.kind = KINDS;
    kept = failures;
    quiet = 1;
    stub.what = DEEP;
    stack(stubs, 0, each);
    failures = kept;
    quiet = 0;
    for (int o = 0; o < OPS; o++) notice(each[o] > LABYRINTH_STACK, "uses more stack:", stubs[o].name);
    return noticed;
}
