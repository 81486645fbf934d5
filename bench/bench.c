/* Times the proved code against C in several shapes and OpenSSL's Camellia and ARIA at n = 1, 2 and 4: many blocks each by itself, both
   ways, and runs by CBC and CTR; then tags, wrapped keys, page records, runs of all lengths, expansion, short runs, mixing, merged tables, the product and inverse
   of rows, a verdict on a row, and the register of page keys. Always the best of several passes, all in turn.
   First C must give the same bytes. Times are of the processor given to the thread, so that other work disturbs them little; short runs go
   by the clock, which is read faster. It assumes Linux on x86-64. */
#define _POSIX_C_SOURCE 199309L
#include <stdint.h>
#include <stdio.h>
#include <string.h>
#include <time.h>
#include "labyrinth.h"
#include "others.h"

/* The proved code. A slice is a pointer and a length. */
uint8_t sigourta_blocks(size_t n, const uint64_t words[32], uint8_t back, const uint8_t *src, size_t src_length, uint8_t *dst, size_t dst_length);
uint8_t sigourta_expand(size_t n, size_t l, const uint8_t *key, size_t key_length, uint64_t words[32]);
uint8_t sigourta_cbc_seal(size_t n, const uint64_t words[32], const uint8_t *start, size_t start_length, const uint8_t *src, size_t src_length, uint8_t *dst, size_t dst_length);
uint8_t sigourta_cbc_open(size_t n, const uint64_t words[32], const uint8_t *start, size_t start_length, const uint8_t *src, size_t src_length, uint8_t *dst, size_t dst_length);
uint8_t sigourta_ctr(size_t n, const uint64_t words[32], const uint8_t *start, size_t start_length, uint64_t q, const uint8_t *src, size_t src_length, uint8_t *dst, size_t dst_length);
uint8_t sigourta_cmac(const uint64_t words[32], const uint8_t *message, size_t length, uint8_t *tag, size_t tag_length);
uint8_t sigourta_cmac_verify(const uint64_t words[32], const uint8_t *message, size_t length, const uint8_t *tag, size_t tag_length);
uint8_t sigourta_wrap(const uint64_t words[32], const uint8_t *key, size_t length, uint8_t *wrapped, size_t wrapped_length);
uint8_t sigourta_unwrap(const uint64_t words[32], const uint8_t *wrapped, size_t wrapped_length, uint8_t *key, size_t length);
void sigourta_block_calls(const uint64_t words[32], uint8_t pairs, uint8_t *one, size_t one_length, uint8_t *two, size_t two_length);
uint8_t sigourta_make_table(const uint8_t row[8], uint64_t *table, size_t table_length);
uint8_t labyrinth_store_fresh(uint8_t *store, size_t store_length);
uint8_t labyrinth_key_cbc_seal(const uint8_t *store, size_t store_length, const uint8_t *working, size_t working_length, const uint8_t *start, size_t start_length, const uint8_t *src, size_t src_length, uint8_t *dst, size_t dst_length);
uint8_t labyrinth_key_cbc_open(const uint8_t *store, size_t store_length, const uint8_t *working, size_t working_length, const uint8_t *start, size_t start_length, const uint8_t *src, size_t src_length, uint8_t *dst, size_t dst_length);
uint8_t labyrinth_key_cmac(const uint8_t *store, size_t store_length, const uint8_t *working, size_t working_length, const uint8_t *message, size_t length, uint8_t *tag, size_t tag_length);
uint8_t labyrinth_key_cmac_verify(const uint8_t *store, size_t store_length, const uint8_t *working, size_t working_length, const uint8_t *message, size_t length, const uint8_t *tag, size_t tag_length, uint8_t *yes);
uint8_t labyrinth_page_write(const uint8_t *store, size_t store_length, const uint8_t *sealing, size_t sealing_length, const uint8_t *tagging, size_t tagging_length, uint32_t number, uint32_t day, const uint8_t *title, size_t title_length, const uint8_t *start, size_t start_length, const uint8_t *body, size_t body_length, uint8_t *dst, size_t dst_length);
uint8_t labyrinth_page_open(const uint8_t *store, size_t store_length, const uint8_t *sealing, size_t sealing_length, const uint8_t *tagging, size_t tagging_length, const uint8_t *record, size_t record_length, uint8_t *dst, size_t dst_length);
uint64_t labyrinth_mix(uint64_t word);
uint8_t labyrinth_mix_row(const uint8_t *row, size_t row_length, uint64_t word, uint64_t *out);
uint8_t labyrinth_row_product(const uint8_t *g, size_t g_length, const uint8_t *h, size_t h_length, uint8_t *dst, size_t dst_length);
uint8_t labyrinth_row_inverse(const uint8_t *row, size_t row_length, uint8_t *dst, size_t dst_length);
uint8_t labyrinth_row_judge(const uint8_t *row, size_t row_length, uint8_t *yes, uint64_t *word);
uint8_t labyrinth_register_add(uint8_t *reg, size_t reg_length, uint16_t number, uint16_t replaces, const uint8_t *wrapped, size_t wrapped_length);
uint8_t labyrinth_register_find(const uint8_t *reg, size_t reg_length, uint16_t number, uint8_t *entry, size_t entry_length, uint8_t *rule, uint64_t *followed);

enum { KINDS = 5, LONG = 1 << 20, LONGEST = 1 << 24 };
static const char *const KIND[KINDS] = {"enciphering", "deciphering", "CBC sealing", "CBC opening", "CTR"};
static const size_t LENGTH[KINDS] = {1 << 16, 1 << 16, LONG, LONG, LONG};
static const int PASSES[KINDS] = {300, 300, 30, 30, 30};

/* who is timed: ours, C in five shapes, and OpenSSL's two */
enum { US, C_FIRST, C_LAST = C_FIRST + LAB_EIGHT_MOST, OTHER_FIRST, OTHER_LAST = OTHER_FIRST + ARIA, ALL };

static uint8_t input[LONGEST], by_us[LONGEST], by_c[LONG], start[64];
static uint64_t words[32];

static uint64_t next_random(void) {
    static uint64_t x = 88172645463325252;
    x ^= x << 13;
    x ^= x >> 7;
    x ^= x << 17;
    return x;
}

static double read_clock(clockid_t clock) {
    struct timespec t;
    clock_gettime(clock, &t);
    return 1e9 * (double)t.tv_sec + (double)t.tv_nsec;
}

static double now(void) { return read_clock(CLOCK_THREAD_CPUTIME_ID); }

static void keep(double *best, double t) {
    if (*best == 0 || t < *best) *best = t;
}

/* Both make the schedule in each pass; ours makes the tables too. */
static double time_c(enum lab_shape shape, int kind, int n, size_t length) {
    uint64_t schedule[80];
    double began = now();
    lab_schedule(n, words, kind == LAB_DECIPHER || kind == LAB_CBC_OPEN, schedule);
    lab_run(shape, (enum lab_kind)kind, n, schedule, start, input, by_c, length / (16 * (size_t)n));
    return now() - began;
}

static uint8_t run_us(int kind, int n, size_t length) {
    size_t z = 16 * (size_t)n;
    if (kind < 2) return sigourta_blocks((size_t)n, words, (uint8_t)kind, input, length, by_us, length);
    if (kind == 2) return sigourta_cbc_seal((size_t)n, words, start, z, input, length, by_us, length);
    if (kind == 3) return sigourta_cbc_open((size_t)n, words, start, z, input, length, by_us, length);
    return sigourta_ctr((size_t)n, words, start, z, 0, input, length, by_us, length);
}

static double time_us(int kind, int n, size_t length) {
    double began = now();
    run_us(kind, n, length);
    return now() - began;
}

/* OpenSSL sets its key in each pass too. */
static double time_other(enum other cipher, int kind, size_t length) {
    double began = now();
    other_run(cipher, (enum other_kind)(kind - LAB_CBC_SEAL), start, start + 16, input, by_c, length);
    return now() - began;
}

/* Single blocks are not OpenSSL's; only CBC opening and CTR can go side by side. */
static int takes_part(int who, int kind) {
    if (who >= OTHER_FIRST) return others_version() && kind >= LAB_CBC_SEAL;
    return who < C_FIRST + LAB_ONE_PAIRS || kind >= LAB_CBC_OPEN;
}

static double time_of(int who, int kind, int n, size_t length) {
    if (who == US) return time_us(kind, n, length);
    if (who <= C_LAST) return time_c((enum lab_shape)(who - C_FIRST), kind, n, length);
    return time_other((enum other)(who - OTHER_FIRST), kind, length);
}

/* C in each shape against ours, five numbers of blocks; 0 if they differ */
static int same_bytes(int kind, int n) {
    for (int who = C_FIRST; who <= C_LAST; who++)
        for (size_t length = LENGTH[kind]; takes_part(who, kind) && length >= LENGTH[kind] - 64 * (size_t)n; length -= 16 * (size_t)n) {
            memset(by_c, 0x55, LENGTH[kind]);
            memset(by_us, 0xAA, LENGTH[kind]);
            time_of(who, kind, n, length);
            if (run_us(kind, n, length) != 0 || memcmp(by_c, by_us, length) != 0) {
                printf("n = %d, %s, C's shape %d: DIFFER\n", n, KIND[kind], who - C_FIRST);
                return 0;
            }
        }
    return 1;
}

/* OpenSSL opens what it sealed, and did seal; 0 if not */
static int others_work(enum other cipher) {
    for (int ctr = 0; ctr < 2; ctr++)
        if (!other_run(cipher, ctr ? OTHER_CTR : OTHER_CBC_SEAL, start, start + 16, input, by_c, LONG) || memcmp(by_c, input, LONG) == 0
            || !other_run(cipher, ctr ? OTHER_CTR : OTHER_CBC_OPEN, start, start + 16, by_c, by_us, LONG) || memcmp(by_us, input, LONG) != 0) {
            printf("OpenSSL's %s does not work\n", cipher == CAMELLIA ? "Camellia" : "ARIA");
            return 0;
        }
    return 1;
}

static void ratio_line(int kind, int size, size_t length, int passes) {
    double best[ALL] = {0}, blocks = (double)length / (16 << size);
    for (int pass = 0; pass < passes; pass++)
        for (int who = US; who <= OTHER_LAST; who++)
            if (takes_part(who, kind)) keep(&best[who], time_of(who, kind, 1 << size, length));
    printf("%d  %-11s  %7zu  %8.1f %7.2f", 1 << size, KIND[kind], length >> 10, best[US] / blocks, best[US] / (double)length);
    for (int who = C_FIRST; who <= OTHER_LAST; who++)
        if (takes_part(who, kind)) printf("  %8.2f", best[who] / best[US]);
        else printf("  %8s", "-");
    printf("\n");
}

/* runs at 64 KiB too */
static void ratios(void) {
    printf("Ours against others: their time / ours for as many bytes; above 1.00 ours is faster. Single blocks, and runs.\n");
    printf("C gives the same bytes. All are release builds (C: gcc -O3). The destination buffers are not cleared between passes.\n");
    printf("C side by side: two blocks, and by eight tables the most that pay, four at n = 1, three at n = 2, two at n = 4.\n");
    printf("Camellia and ARIA have keys and blocks of 128 bits. OpenSSL: %s.\n", others_version() ? others_version() : "not installed");
    printf("%41s%20s%30s%20s\n", "ours", "C, block by block", "C, side by side", "OpenSSL");
    printf("n  kind             KiB  ns/block ns/byte   1 table  8 tables     1, two    8, two   8, most  Camellia      ARIA\n");
    for (int kind = 0; kind < KINDS; kind++)
        for (int size = 0; size < 3; size++) {
            if (kind >= LAB_CBC_SEAL) ratio_line(kind, size, 1 << 16, 8 * PASSES[kind]);
            ratio_line(kind, size, LENGTH[kind], PASSES[kind]);
        }
}

/* who tags or seals a message at n = 1: ours made, ours verified, ours sealed by CBC, C by one table and by eight */
enum { MADE, VERIFIED, SEALED, TAG_ONE, TAG_EIGHT, TAGGERS };

static uint8_t run_tag(int who, size_t length, uint8_t tag[16]) {
    uint64_t schedule[80];
    if (who == MADE) return sigourta_cmac(words, input, length, tag, 16);
    if (who == VERIFIED) return sigourta_cmac_verify(words, input, length, tag, 16);
    if (who == SEALED) return run_us(LAB_CBC_SEAL, 1, length);
    lab_schedule(1, words, 0, schedule);
    lab_tag(who == TAG_ONE ? LAB_ONE : LAB_EIGHT, schedule, input, length, tag);
    return 0;
}

/* C in both shapes makes our tags, and ours says yes to them and no to others; 0 if not */
static int same_tags(void) {
    for (size_t length = 0; length <= 100; length++)
        for (int who = TAG_ONE; who <= TAG_EIGHT; who++) {
            uint8_t by_them[16], ours[16] = {0};
            run_tag(who, length, by_them);
            if (run_tag(MADE, length, ours) != 0 || memcmp(by_them, ours, 16) != 0 || run_tag(VERIFIED, length, by_them) != 1) {
                printf("tags of %zu bytes, C's shape %d: DIFFER\n", length, who - TAG_ONE);
                return 0;
            }
            by_them[length % 16] ^= 1;
            if (run_tag(VERIFIED, length, by_them) != 0) {
                printf("an altered tag of %zu bytes passed\n", length);
                return 0;
            }
        }
    return 1;
}

/* ns for one of many calls, so that reading the clock weighs little */
static double tag_often(int who, size_t length, uint8_t *tag) {
    size_t calls = length < 65536 ? 65536 / length : 1;
    double began = now();
    for (size_t i = 0; i < calls; i++) run_tag(who, length, tag);
    return (now() - began) / (double)calls;
}

static void tags(void) {
    uint8_t tag[16] = {0};
    printf("Tags at n = 1, ns a byte of the message, and in brackets that divided by ours for CBC sealing of as many bytes.\n");
    printf("   bytes  CBC sealing  made         verified     C, 1 table   C, 8 tables\n");
    for (size_t length = 16; length <= LONG; length *= 16) {
        double best[TAGGERS] = {0};
        for (int pass = 0; pass < 60; pass++)
            for (int who = 0; who < TAGGERS; who++) keep(&best[who], tag_often(who, length, tag));
        printf("%8zu  %11.2f", length, best[SEALED] / (double)length);
        for (int who = 0; who < TAGGERS; who++)
            if (who != SEALED) printf("  %5.2f (%.2f)", best[who] / (double)length, best[who] / best[SEALED]);
        printf("\n");
    }
}

/* who wraps a key or unwraps one: ours, C by one table and by eight; and ours for as many blocks, each made of the one before, and no more */
enum { OURS, WRAP_ONE, WRAP_EIGHT, BLOCK_CALLS, WRAPPERS };

static uint8_t run_wrap(int who, int back, size_t length, const uint8_t *given, uint8_t *made) {
    uint64_t schedule[80];
    if (who == OURS)
        return back ? sigourta_unwrap(words, given, length + 8, made, length) : sigourta_wrap(words, given, length, made, length + 8);
    if (who == BLOCK_CALLS) {
        sigourta_block_calls(words, (uint8_t)(3 * length / 8), made, 16, made + 16, 16);
        return 0;
    }
    lab_schedule(1, words, back, schedule);
    if (back) return lab_unwrap(who == WRAP_ONE ? LAB_ONE : LAB_EIGHT, schedule, given, length, made) ? 0 : 18;
    lab_wrap(who == WRAP_ONE ? LAB_ONE : LAB_EIGHT, schedule, given, length, made);
    return 0;
}

/* C in both shapes wraps as ours does, and both unwrap and refuse the same; 0 if not */
static int same_wraps(void) {
    uint8_t ours[136], theirs[136], key[128];
    for (size_t length = 16; length <= 128; length += 8)
        for (int who = WRAP_ONE; who <= WRAP_EIGHT; who++) {
            int same = run_wrap(OURS, 0, length, input, ours) == 0 && run_wrap(who, 0, length, input, theirs) == 0 && memcmp(ours, theirs, length + 8) == 0;
            for (int us = 0; us < 2; us++) {
                memset(key, 0, sizeof key);
                same &= run_wrap(us ? OURS : who, 1, length, ours, key) == 0 && memcmp(key, input, length) == 0;
            }
            theirs[length] ^= 1;
            same &= run_wrap(OURS, 1, length, theirs, key) == 18 && run_wrap(who, 1, length, theirs, key) == 18;
            if (!same) {
                printf("wrapped keys of %zu bytes, C's shape %d: DIFFER\n", length, who - WRAP_ONE);
                return 0;
            }
        }
    return 1;
}

static void wraps(void) {
    static const size_t SIZE[] = {16, 32, 128};
    printf("Wrapped keys at n = 1, us for one, with the preparation; behind it ours / ours for as many blocks and the same preparation, and C's time by the\n");
    printf("same loops / ours.\n");
    printf("           wrapped           /blocks   1 table  8 tables     unwrapped           /blocks   1 table  8 tables\n");
    for (int i = 0; i < 3; i++) {
        double best[2][WRAPPERS] = {{0}};
        uint8_t wrapped[136], made[136];
        run_wrap(OURS, 0, SIZE[i], input, wrapped);
        for (int pass = 0; pass < 300; pass++)
            for (int back = 0; back < 2; back++)
                for (int who = 0; who < WRAPPERS; who++) {
                    double began = now();
                    for (int j = 0; j < 100; j++) run_wrap(who, back, SIZE[i], back ? wrapped : input, made);
                    keep(&best[back][who], (now() - began) / 100);
                }
        printf("%3zu bytes", SIZE[i]);
        for (int back = 0; back < 2; back++)
            printf("  %8.2f  %16.3f  %8.2f  %8.2f", best[back][OURS] / 1000, best[back][OURS] / best[back][BLOCK_CALLS], best[back][WRAP_ONE] / best[back][OURS],
                   best[back][WRAP_EIGHT] / best[back][OURS]);
        printf("\n");
    }
}

/* who writes a page record or opens one: ours, C by one table and by eight; and ours for the parts alone: a CBC run of the page's bytes, a tag of as many, and
   a tag of those that are tagged */
enum { PAGE, PAGE_ONE, PAGE_EIGHT, PAGE_RUN, PAGE_TAG, PAGE_TAGGED, PAGERS };
enum { MOST = 4096, RECORD = 77 + 17 * MOST };

static uint8_t store[1072], sealing_key[272], tag_key[272];

/* working keys of n = 1 and set 0: the words, and for the tag key others */
static void page_keys(void) {
    labyrinth_store_fresh(store, sizeof store);
    sealing_key[0] = tag_key[0] = 1;
    memcpy(sealing_key + 16, words, sizeof words);
    memcpy(tag_key + 16, words + 8, sizeof words - 64);
}

#define SEALING store, sizeof store, sealing_key, sizeof sealing_key
#define TAGGING tag_key, sizeof tag_key

/* body and record are where they are read and written; the answer is 0 if it was done */
static uint8_t run_page(int who, int back, size_t blocks, uint8_t *body, uint8_t *record) {
    uint64_t seals[80], tags[80];
    size_t length = 77 + 17 * blocks, tagged = who == PAGE_TAG ? 16 * blocks : length - 17;
    uint8_t tag[16] = {0}, yes;
    switch (who) {
    case PAGE:
        return back ? labyrinth_page_open(SEALING, TAGGING, record, length, body, 16 * blocks)
                    : labyrinth_page_write(SEALING, TAGGING, 1, 2, input, 32, start, 16, body, 16 * blocks, record, length);
    case PAGE_RUN:
        return back ? labyrinth_key_cbc_open(SEALING, start, 16, record, 16 * blocks, body, 16 * blocks)
                    : labyrinth_key_cbc_seal(SEALING, start, 16, body, 16 * blocks, record, 16 * blocks);
    case PAGE_TAG:
    case PAGE_TAGGED:
        return back ? labyrinth_key_cmac_verify(store, sizeof store, TAGGING, record, tagged, tag, 16, &yes)
                    : labyrinth_key_cmac(store, sizeof store, TAGGING, record, tagged, tag, 16);
    }
    lab_schedule(1, words, back, seals);
    lab_schedule(1, words + 8, 0, tags);
    if (back) return lab_page_open(who == PAGE_ONE ? LAB_ONE : LAB_EIGHT, seals, tags, record, length, body) ? 0 : 20;
    lab_page_write(who == PAGE_ONE ? LAB_ONE : LAB_EIGHT, seals, tags, 1, 2, input, start, body, blocks, record);
    return 0;
}

/* C in both shapes writes our records and opens them, and both refuse an altered one; 0 if not */
static int same_pages(void) {
    page_keys();
    for (size_t blocks = 0; blocks <= MOST; blocks += blocks < 20 ? 1 : 679) {
        size_t length = 77 + 17 * blocks;
        for (int who = PAGE_ONE; who <= PAGE_EIGHT; who++) {
            int same = run_page(PAGE, 0, blocks, input, by_us) == 0 && run_page(who, 0, blocks, input, by_c) == 0 && memcmp(by_us, by_c, length) == 0;
            for (int us = 0; us < 2; us++) {
                memset(by_us + RECORD, 0, 16 * MOST);
                same &= run_page(us ? PAGE : who, 1, blocks, by_us + RECORD, by_c) == 0 && memcmp(by_us + RECORD, input, 16 * blocks) == 0;
            }
            by_c[length - 1] ^= 1;
            same &= run_page(PAGE, 1, blocks, by_us + RECORD, by_c) == 20 && run_page(who, 1, blocks, by_us + RECORD, by_c) == 20;
            if (!same) {
                printf("page records of %zu blocks, C's shape %d: DIFFER\n", blocks, who - PAGE_ONE);
                return 0;
            }
        }
    }
    return 1;
}

static void pages(void) {
    static const size_t SIZE[] = {1, 16, 256, MOST};
    printf("Page records at n = 1 under expanded keys, through the C interface, us for one; behind it ours / ours for a CBC run of the page's bytes and a tag of\n");
    printf("as many, and / ours for that run and a tag of the bytes that are tagged, 60 and 17 a block; and C's time by the same loops / ours.\n");
    printf("        written   /as many   /tagged   1 table  8 tables     opened   /as many   /tagged   1 table  8 tables\n");
    for (int i = 0; i < 4; i++) {
        double best[2][PAGERS] = {{0}};
        int calls = (int)(MOST / SIZE[i] < 64 ? MOST / SIZE[i] : 64);
        run_page(PAGE, 0, SIZE[i], input, by_c);
        for (int pass = 0; pass < 100; pass++)
            for (int back = 0; back < 2; back++)
                for (int who = 0; who < PAGERS; who++) {
                    double began = now();
                    for (int j = 0; j < calls; j++) run_page(who, back, SIZE[i], back ? by_us + RECORD : input, back ? by_c : by_us);
                    keep(&best[back][who], (now() - began) / calls);
                }
        printf("%4zu", SIZE[i]);
        for (int back = 0; back < 2; back++) {
            double *b = best[back];
            printf("  %9.2f  %9.3f  %8.3f  %8.2f  %8.2f", b[PAGE] / 1000, b[PAGE] / (b[PAGE_RUN] + b[PAGE_TAG]), b[PAGE] / (b[PAGE_RUN] + b[PAGE_TAGGED]),
                   b[PAGE_ONE] / b[PAGE], b[PAGE_EIGHT] / b[PAGE]);
        }
        printf("\n");
    }
}

/* ns for one of many calls, so that reading the clock weighs little */
static double run_often(int kind, int n, size_t length) {
    size_t calls = length < 65536 ? 65536 / length : 1;
    double began = now();
    for (size_t i = 0; i < calls; i++) run_us(kind, n, length);
    return (now() - began) / (double)calls;
}

enum { LENGTHS = 11, SWEEPS = 5 };

/* runs of 16 bytes to 16 MiB; a CBC run has whole blocks only */
static void growth(void) {
    static double best[LENGTHS][KINDS][3];
    for (int sweep = 0; sweep < SWEEPS; sweep++)
        for (int i = 0; i < LENGTHS; i++)
            for (int kind = LAB_CBC_SEAL; kind < KINDS; kind++)
                for (int size = 0; size < 3; size++) {
                    size_t length = (size_t)16 << 2 * i;
                    if (kind != LAB_CTR && length < (size_t)16 << size) continue;
                    double until = now() + 1e7;
                    do keep(&best[i][kind][size], run_often(kind, 1 << size, length));
                    while (now() < until);
                }
    printf("Ours, ns/byte as the run grows, under an expanded key; tables and schedule are made in each run.\n");
    printf("%8s%21s%21s%21s\n", "", KIND[LAB_CBC_SEAL], KIND[LAB_CBC_OPEN], KIND[LAB_CTR]);
    printf("   bytes");
    for (int i = 0; i < 3; i++) printf("  n = 1      2      4");
    printf("\n");
    for (int i = 0; i < LENGTHS; i++) {
        printf("%8zu", (size_t)16 << 2 * i);
        for (int kind = LAB_CBC_SEAL; kind < KINDS; kind++)
            for (int size = 0; size < 3; size++)
                if (best[i][kind][size] > 0) printf("%7.2f", best[i][kind][size] / (double)((size_t)16 << 2 * i));
                else printf("%7s", "-");
        printf("\n");
    }
}

static double expansions[3][3];

static void expansion(void) {
    static uint64_t expanded[32];
    for (int pass = 0; pass < 200; pass++)
        for (size_t size = 0; size < 3; size++)
            for (size_t l = 2; l <= 4; l++) {
                size_t n = (size_t)1 << size;
                double began = now();
                for (int i = 0; i < 100; i++) sigourta_expand(n, l, input, 8 * n * l, expanded);
                keep(&expansions[size][l - 2], (now() - began) / 100);
            }
    printf("Ours, ns for the expansion of a key.\n");
    printf("n  l = 2      3      4\n");
    for (int size = 0; size < 3; size++) printf("%d %6.0f %6.0f %6.0f\n", 1 << size, expansions[size][0], expansions[size][1], expansions[size][2]);
}

/* ns by the clock for one call */
static double short_run(int kind, int n, size_t length) {
    double began = read_clock(CLOCK_MONOTONIC);
    run_us(kind, n, length);
    return read_clock(CLOCK_MONOTONIC) - began;
}

static void short_runs(void) {
    static double best[3][KINDS][4];
    for (int sweep = 0; sweep < 20; sweep++)
        for (int size = 0; size < 3; size++)
            for (int kind = LAB_CBC_SEAL; kind < KINDS; kind++)
                for (int i = 0; (size_t)16 << size << 2 * i <= 1024; i++)
                    for (int pass = 0; pass < 200; pass++) keep(&best[size][kind][i], short_run(kind, 1 << size, (size_t)16 << size << 2 * i));
    printf("Short runs: ns a run.\n");
    for (int size = 0; size < 3; size++)
        for (int kind = LAB_CBC_SEAL; kind < KINDS; kind++) {
            printf("%d  %-11s", 1 << size, KIND[kind]);
            for (int i = 0; (size_t)16 << size << 2 * i <= 1024; i++) printf("  %d bytes: %.0f", 16 << size << 2 * i, best[size][kind][i]);
            printf("\n");
        }
}

/* a row whose coefficients have eight bits each */
static const uint8_t LONG_ROW[8] = {0x8D, 0xA7, 0x93, 0xF1, 0xE5, 0x99, 0xB2, 0xC4};

static uint64_t mix(uint64_t w) { return labyrinth_mix(w); }
static uint64_t mix_long(uint64_t w) {
    uint64_t mixed;
    labyrinth_mix_row(LONG_ROW, 8, w, &mixed);
    return mixed;
}
static uint64_t c_mix(uint64_t w) { return lab_mix(lab_row, w); }
static uint64_t c_mix_long(uint64_t w) { return lab_mix(LONG_ROW, w); }

/* C mixes and makes tables as ours does; 0 if not */
static int same_mixed(void) {
    static uint64_t ours[256], theirs[256];
    int same = 1;
    for (int i = 0; i < 10000; i++) {
        uint64_t word = next_random();
        same &= lab_mix_by_matrix(word) == mix(word) && c_mix(word) == mix(word) && c_mix_long(word) == mix_long(word);
    }
    lab_make_table(LONG_ROW, theirs);
    same &= sigourta_make_table(LONG_ROW, ours, 256) == 0 && memcmp(ours, theirs, sizeof ours) == 0;
    if (!same) printf("mixing: DIFFER\n");
    return same;
}

/* ns for a word, each mixed from the one before */
static double mix_often(uint64_t (*by)(uint64_t)) {
    static uint64_t word = 1;
    double began = now();
    for (int i = 0; i < 1000; i++) word = by(word);
    return (now() - began) / 1000;
}

/* ns for a table */
static double make_often(int us) {
    static uint64_t table[256];
    double began = now();
    for (int i = 0; i < 100; i++)
        if (us) sigourta_make_table(LONG_ROW, table, 256);
        else lab_make_table(LONG_ROW, table);
    return (now() - began) / 100;
}

static void mixing(void) {
    uint64_t (*const by[])(uint64_t) = {mix, c_mix, lab_mix_by_matrix, mix_long, c_mix_long};
    double best[5] = {0}, made[2] = {0};
    for (int pass = 0; pass < 300; pass++) {
        for (int i = 0; i < 5; i++) keep(&best[i], mix_often(by[i]));
        for (int us = 0; us < 2; us++) keep(&made[us], make_often(us));
    }
    printf("Mixing a word by the published row, ours: %.1f ns. C's time by the same loops / ours: %.2f; by the matrix / ours: %.2f.\n", best[0],
           best[1] / best[0], best[2] / best[0]);
    printf("By a row of long coefficients, ours: %.1f ns. C's time by the same loops / ours: %.2f.\n", best[3], best[4] / best[3]);
    printf("The merged table of that row, ours: %.2f us. C's time by the same loops / ours: %.2f.\n", made[1] / 1000, made[0] / made[1]);
}

/* a row's product with another, and its inverse, in its place */
static void row_product(uint8_t row[8]) {
    uint8_t made[8];
    labyrinth_row_product(row, 8, LONG_ROW, 8, made, 8);
    memcpy(row, made, 8);
}
static void row_inverse(uint8_t row[8]) {
    uint8_t made[8];
    labyrinth_row_inverse(row, 8, made, 8);
    memcpy(row, made, 8);
}
static void c_row_product(uint8_t row[8]) { lab_row_product(row, LONG_ROW, row); }
static void c_row_inverse(uint8_t row[8]) { lab_row_inverse(row, row); }

/* C multiplies and inverts rows as ours does; 0 if not */
static int same_rows(void) {
    uint8_t ours[8], theirs[8];
    int same = 1;
    for (int i = 0; i < 10000; i++) {
        uint64_t row = next_random();
        for (int kind = 0; kind < 2; kind++) {
            memcpy(ours, &row, 8);
            memcpy(theirs, &row, 8);
            (kind ? row_inverse : row_product)(ours);
            (kind ? c_row_inverse : c_row_product)(theirs);
            uint8_t sum = 0;
            for (int k = 0; k < 8; k++) sum ^= (uint8_t)(row >> 8 * k);
            same &= (kind && sum == 0) || memcmp(ours, theirs, 8) == 0;
        }
    }
    if (!same) printf("rows: DIFFER\n");
    return same;
}

/* ns for a row, each made from the one before */
static double make_rows(void (*by)(uint8_t[8])) {
    static uint8_t row[8] = {0x8D, 0xA7, 0x93, 0xF1, 0xE5, 0x99, 0xB2, 0xC5};
    double began = now();
    for (int i = 0; i < 1000; i++) by(row);
    return (now() - began) / 1000;
}

static void rows(void) {
    void (*const by[])(uint8_t[8]) = {row_product, c_row_product, row_inverse, c_row_inverse};
    double best[4] = {0};
    for (int pass = 0; pass < 300; pass++)
        for (int i = 0; i < 4; i++) keep(&best[i], make_rows(by[i]));
    printf("The product of two rows, ours: %.1f ns. C's time by the same loops / ours: %.2f.\n", best[0], best[1] / best[0]);
    printf("The inverse row, ours: %.0f ns. C's time by the same loops / ours: %.2f.\n", best[2], best[3] / best[2]);
}

static uint64_t judge(const uint8_t row[8]) {
    uint8_t yes;
    uint64_t word;
    labyrinth_row_judge(row, 8, &yes, &word);
    return word;
}

/* C, which searches in the same order, judges as ours does; 0 if not */
static int same_verdicts(void) {
    int same = judge(lab_row) == 0 && lab_judge(lab_row) == 0;
    for (int i = 0; i < 300; i++) {
        uint64_t row = next_random();
        same &= judge((const uint8_t *)&row) == lab_judge((const uint8_t *)&row);
    }
    if (!same) printf("verdicts: DIFFER\n");
    return same;
}

static void verdicts(void) {
    uint64_t (*const by[])(const uint8_t[8]) = {judge, lab_judge};
    double best[2] = {0};
    for (int pass = 0; pass < 100; pass++)
        for (int i = 0; i < 2; i++) {
            double began = now();
            by[i](lab_row);
            keep(&best[i], now() - began);
        }
    printf("A yes, of the published row, ours: %.2f ms. C's time by the same loops / ours: %.2f.\n", best[0] / 1e6, best[1] / best[0]);
}

/* what is asked of a register, by ours and by C: the answer's number; the register of a chain of 63 or of 64 keys, 1 to 64 */
enum asked { ADDED, REFUSED, FOUND_NOW, FOUND_AT_THE_END, FOUND_NEVER, ASKED };
static uint8_t chains[2][LAB_REGISTER], longer[LAB_REGISTER], entry[44], rule;
static uint64_t followed;

static void make_chains(void) {
    for (int keys = 63; keys <= 64; keys++)
        for (int i = 1; i <= keys; i++) lab_register_add(chains[keys - 63], (uint16_t)i, (uint16_t)(i - 1), input);
}

static uint8_t ask(int us, enum asked what) {
    static const uint16_t NUMBER[ASKED] = {64, 65, 64, 1, 65};
    if (what == ADDED || what == REFUSED) {
        memcpy(longer, chains[what == REFUSED], LAB_REGISTER);
        return us ? labyrinth_register_add(longer, LAB_REGISTER, NUMBER[what], NUMBER[what] - 1, input, 40)
                  : lab_register_add(longer, NUMBER[what], (uint16_t)(NUMBER[what] - 1), input);
    }
    return us ? labyrinth_register_find(chains[1], LAB_REGISTER, NUMBER[what], entry, 44, &rule, &followed)
              : lab_register_find(chains[1], NUMBER[what], entry, &rule, &followed);
}

/* C answers as ours does; 0 if not */
static int same_registers(void) {
    int same = 1;
    make_chains();
    for (int what = 0; what < ASKED; what++) {
        uint8_t number = ask(1, what), given[44] = {0}, by = rule;
        uint64_t steps = followed;
        memcpy(by_us, longer, LAB_REGISTER);
        memcpy(given, entry, 44);
        same &= ask(0, what) == number && by == rule && steps == followed && memcmp(given, entry, 44) == 0 && memcmp(by_us, longer, LAB_REGISTER) == 0;
    }
    if (!same) printf("registers: DIFFER\n");
    return same;
}

static void registers(void) {
    static const char *const WHAT[ASKED] = {"a 64th key added, its register copied first", "a 65th refused, likewise", "found with none followed", "found with 63 followed", "not found"};
    double best[ASKED][2] = {{0}};
    for (int pass = 0; pass < 300; pass++)
        for (int what = 0; what < ASKED; what++)
            for (int us = 0; us < 2; us++) {
                double began = now();
                for (int i = 0; i < 100; i++) ask(us, what);
                keep(&best[what][us], (now() - began) / 100);
            }
    printf("The register of page keys, through the C interface. Ours, and C's time over the lent bytes / ours:\n");
    for (int what = 0; what < ASKED; what++) printf("  %-44s %6.0f ns  %.2f\n", WHAT[what], best[what][1], best[what][0] / best[what][1]);
}

int main(void) {
    for (int i = 0; i < 32; i++) words[i] = next_random();
    for (int i = 0; i < 64; i++) start[i] = (uint8_t)(next_random() >> 32);
    for (int size = 0; size < 3; size++) memset(start + (16 << size) - 2, 0xFF, 2); /* so that CTR's counter carries */
    for (int i = 0; i < LONGEST; i++) input[i] = (uint8_t)(next_random() >> 32);
    lab_init();
    for (int kind = 0; kind < KINDS; kind++)
        for (int size = 0; size < 3; size++)
            if (!same_bytes(kind, 1 << size)) return 1;
    if (!same_tags() || !same_wraps() || !same_pages() || !same_mixed() || !same_rows() || !same_verdicts() || !same_registers()) return 1;
    if (others_version() && !(others_work(CAMELLIA) && others_work(ARIA))) return 1;
    ratios();
    tags();
    wraps();
    pages();
    growth();
    expansion();
    short_runs();
    mixing();
    rows();
    verdicts();
    registers();
    return 0;
}
