/* What the parts of this program share. */
#ifndef INTERFACE_H
#define INTERFACE_H
#include <stdarg.h>
#include <stdio.h>
#include <stdlib.h>
#include <string.h>

#include "labyrinth.h"

/* ---- calls: a function of any of the nine shapes with its arguments */

typedef uint8_t block_fn(size_t, size_t, const uint8_t *, size_t, const uint8_t *, size_t, uint8_t *, size_t);
typedef uint8_t cbc_fn(size_t, size_t, const uint8_t *, size_t, const uint8_t *, size_t, const uint8_t *, size_t, uint8_t *, size_t);
typedef uint8_t ctr_fn(size_t, size_t, const uint8_t *, size_t, const uint8_t *, size_t, uint64_t, const uint8_t *, size_t, uint8_t *, size_t);
typedef uint8_t cmac_fn(size_t, const uint8_t *, size_t, const uint8_t *, size_t, uint8_t *, size_t);
typedef uint8_t verify_fn(size_t, const uint8_t *, size_t, const uint8_t *, size_t, const uint8_t *, size_t, uint8_t *);
typedef uint8_t row_fn(const uint8_t *, size_t, uint64_t, uint64_t *);
typedef uint8_t product_fn(const uint8_t *, size_t, const uint8_t *, size_t, uint8_t *, size_t);
typedef uint8_t inverse_fn(const uint8_t *, size_t, uint8_t *, size_t);
typedef uint8_t judge_fn(const uint8_t *, size_t, uint8_t *, uint64_t *);
typedef uint64_t mix_fn(uint64_t);

/* A tag's message is SRC. The tag to be made is DST; the one to be verified stands for START, and DST is *yes, always one byte. A row is
 * KEY, its word q, and DST is *out, always eight bytes. Of a product g is KEY and h is SRC. Of a verdict DST is *yes, and WORD, always eight
 * bytes, is *word. DST and WORD are written, the others are only read. */
enum kind { BLOCK, CBC, CTR, CMAC, VERIFY, ROW, PRODUCT, INVERSE, JUDGE, KINDS };
enum buffer { KEY, START, SRC, DST, WORD, BUFFERS };
extern const char *const buffer_names[BUFFERS];
enum { OPS = 11, MAKES = 5, VERIFIES = 6, MULTIPLIES = 8, INVERTS = 9, JUDGES = 10 };

struct op {
    const char *name;
    enum kind kind;
    int back; /* the number of the op that undoes it; none for a tag or a row */
    union {
        block_fn *block; cbc_fn *cbc; ctr_fn *ctr; cmac_fn *cmac; verify_fn *verify; row_fn *row; product_fn *product; inverse_fn *inverse;
        judge_fn *judge;
    } fn;
};

struct call {
    size_t n, l; /* n is 1 for tags */
    uint64_t q;
    uint8_t *at[BUFFERS];
    size_t len[BUFFERS];
};

/* A call as it was made; for the messages. */
#define CALL_TEXT "%s: n %zu, l %zu, lengths %zu %zu %zu %zu: "
#define CALL(op, c) (op)->name, (c)->n, (c)->l, (c)->len[KEY], (c)->len[START], (c)->len[SRC], (c)->len[DST]

/* ---- main.c: failures, told unless a stub is at work and they are wanted; chance */

extern int quiet;
extern long failures;
extern uint64_t chance;

void wrong(const char *text, ...) __attribute__((format(printf, 1, 2)));
int enough(void);
void stop(const char *what);
uint64_t next(void);
size_t below(size_t limit);
void fill(uint8_t *at, size_t len);

/* ---- calls.c */

extern const struct op library[OPS];
extern const size_t far; /* 2^32 */

uint8_t run(const struct op *op, const struct call *c);
int is_tag(enum kind kind);
int is_row(enum kind kind);
int says_yes(enum kind kind);
int always_sets(enum kind kind);
enum buffer tag_of(enum kind kind);
int has(enum kind kind, enum buffer b);
uint8_t row_sum(const uint8_t *row, size_t len);
uint8_t number_of(enum kind kind, const struct call *c);
long numbers(const struct op *ops, enum kind kind);
long far_lengths(const struct op *ops);
void no_bytes(void);

/* ---- laws.c */

enum { FIELD = 0x12D, OTHER_FIELD = 0x11D, TO_JUDGE = 16, GOOD = 5 };
extern const uint8_t published[8], neutral[8], published_inverse[8];
extern const struct judged { uint8_t row[8]; unsigned sizes; } to_judge[TO_JUDGE];

void cmac(size_t l, const uint8_t *key, const uint8_t *msg, size_t len, uint8_t *whole);
uint8_t times_modulo(unsigned field, uint8_t a, uint8_t b);
uint8_t times(uint8_t a, uint8_t b);
uint64_t mixed(const uint8_t *row, uint64_t word);
void multiply(const uint8_t *g, const uint8_t *h, uint8_t *product);
unsigned singular_sizes(unsigned field, const uint8_t *row);
int together(const uint8_t *row, uint64_t word);
int made_right(enum kind kind, const struct call *c);
void runs(size_t blocks);
long tags(const struct op *ops, size_t len);
long all_tags(const struct op *ops);
long row_laws(const struct op *ops, size_t count);
long verdicts(const struct op *ops, size_t count);

/* ---- stack.c */

extern volatile uint8_t sink;

void paint(void);
size_t stack_by(void (*act)(void));
size_t stack(const struct op *ops, int large, size_t *each);

/* ---- memory.c */

enum { PLACE_END, PLACE_START, PLACE_ANY };

void lend(void);
int memory(const struct op *ops, enum kind kind, uint64_t seed, long cases, int place);
int in_child(void (*one)(int only, int place), int only, uint64_t seed, long cases, int place);

/* ---- stores.c */

#define COUNT(list) ((int)(sizeof(list) / sizeof *(list)))
enum { STORE_LEN = 1072, WORKING_LEN = 272, SET = 264, MARKS = 1056 };

uint64_t number_at(const uint8_t *at);
void put_number(uint8_t *at, uint64_t number);
int is_loaded(const uint8_t *store, uint64_t set);
void shuffle(uint8_t *substitution);
void any_row(uint8_t *row);
void by_hand(uint8_t *store, uint64_t mark0, uint64_t mark1);
long records(uint64_t seed, int large, size_t *most);
int try_record_stubs(uint64_t seed);

/* ---- pages.c */

long pages(uint64_t seed, int large, size_t *most);
int try_page_stubs(uint64_t seed);

/* ---- registers.c */

long registers(uint64_t seed, int large, size_t *most);
int try_register_stubs(uint64_t seed);

/* ---- stubs.c */

int try_stubs(uint64_t seed);

#endif
