/* Answers the requests of docs/COMPARE.md with the library, a line for a line. Every buffer stands between two margins, at all eight
   alignments in turn, but for out and followed, which are aligned; a buffer of no bytes is NULL in every other request. If a function wrote to a margin
   or to a buffer that isn't its destination, this ends with status 1. */
#define _POSIX_C_SOURCE 200809L
#include <stdarg.h>
#include <stdint.h>
#include <stdio.h>
#include <stdlib.h>
#include <string.h>
#include "labyrinth.h"

_Static_assert(sizeof(size_t) == 8, "requests hold n and l of 64 bits");

enum { MARGIN = 64, MARK = 0xC3, FIELDS = 10 };

static unsigned long request;

static _Noreturn void stop(const char *format, ...) {
    va_list rest;
    fflush(stdout);
    fprintf(stderr, "labyrinth_lines: request %lu: ", request);
    va_start(rest, format);
    vfprintf(stderr, format, rest);
    va_end(rest);
    fputc('\n', stderr);
    exit(1);
}

static unsigned digit(char c) {
    if (c >= '0' && c <= '9') return (unsigned)(c - '0');
    if (c >= 'a' && c <= 'f') return (unsigned)(c - 'a') + 10;
    stop("'%c' is no digit", c);
}

static uint8_t byte_of(const char *hex, size_t i) { return (uint8_t)(digit(hex[2 * i]) << 4 | digit(hex[2 * i + 1])); }

static uint64_t number(const char *text) {
    char *end;
    uint64_t value = strtoull(text, &end, 10);
    if (*text < '0' || *text > '9' || *end) stop("'%s' is no number", text);
    return value;
}

struct lent {
    const char *hex;
    uint8_t *room, *bytes, *pointer;
    size_t length, size;
};

static struct lent lend(const char *hex) {
    struct lent b = {.hex = hex};
    size_t digits = strcmp(hex, "-") == 0 ? 0 : strlen(hex);
    if (digits % 2) stop("half a byte");
    b.length = digits / 2;
    b.size = b.length + 2 * MARGIN + 8;
    b.room = malloc(b.size);
    if (!b.room) stop("no memory");
    memset(b.room, MARK, b.size);
    b.bytes = b.room + MARGIN + request % 8;
    for (size_t i = 0; i < b.length; i++) b.bytes[i] = byte_of(hex, i);
    b.pointer = b.length == 0 && request % 2 == 0 ? NULL : b.bytes;
    return b;
}

/* Takes a buffer back; its margins must be as they were, and, unless it was a destination, its bytes. */
static void take_back(struct lent b, int destination) {
    for (uint8_t *p = b.room; p < b.room + b.size; p++)
        if ((p < b.bytes || p >= b.bytes + b.length) && *p != MARK) stop("a byte was written beside a buffer");
    if (!destination)
        for (size_t i = 0; i < b.length; i++)
            if (b.bytes[i] != byte_of(b.hex, i)) stop("a byte was written to a buffer that was lent for reading");
    free(b.room);
}

static void put_bytes(const uint8_t *bytes, size_t length) {
    static const char DIGITS[] = "0123456789abcdef";
    if (length == 0) putchar('-');
    for (size_t i = 0; i < length; i++) {
        putchar(DIGITS[bytes[i] >> 4]);
        putchar(DIGITS[bytes[i] & 15]);
    }
}

static void answer(unsigned number, struct lent dst) {
    printf("%u ", number);
    put_bytes(dst.bytes, dst.length);
    putchar('\n');
}

static uint64_t word_of(const char *hex) {
    uint64_t w = 0;
    if (strlen(hex) != 16) stop("a word has 16 digits");
    for (int i = 0; i < 16; i++) w = w << 4 | digit(hex[i]);
    return w;
}

static void mix(const char *word) { printf("%016llx\n", (unsigned long long)labyrinth_mix(word_of(word))); }

/* what out points to holds ones before the call */
static void mix_row(const char *hex, const char *word) {
    struct lent row = lend(hex);
    uint64_t mark = 0x0101010101010101u * MARK, out[3] = {mark, UINT64_MAX, mark};
    uint8_t r = labyrinth_mix_row(row.pointer, row.length, word_of(word), &out[1]);
    printf("%u %016llx\n", r, (unsigned long long)out[1]);
    if (out[0] != mark || out[2] != mark) stop("a byte was written beside out");
    take_back(row, 0);
}

/* fields: the operation, n, l, key, then source and destination */
static void one_block(char **fields) {
    size_t n = number(fields[1]), l = number(fields[2]);
    struct lent key = lend(fields[3]), src = lend(fields[4]), dst = lend(fields[5]);
    uint8_t r = strcmp(fields[0], "encipher") == 0
        ? labyrinth_encipher(n, l, key.pointer, key.length, src.pointer, src.length, dst.pointer, dst.length)
        : labyrinth_decipher(n, l, key.pointer, key.length, src.pointer, src.length, dst.pointer, dst.length);
    answer(r, dst);
    take_back(key, 0);
    take_back(src, 0);
    take_back(dst, 1);
}

/* fields: the operation, n, l, key, start, for CTR q, then source and destination */
static void run(char **fields, int is_ctr) {
    size_t n = number(fields[1]), l = number(fields[2]);
    struct lent key = lend(fields[3]), start = lend(fields[4]), src = lend(fields[5 + is_ctr]), dst = lend(fields[6 + is_ctr]);
    uint8_t r;
    if (is_ctr)
        r = labyrinth_ctr(n, l, key.pointer, key.length, start.pointer, start.length, number(fields[5]), src.pointer, src.length, dst.pointer, dst.length);
    else if (strcmp(fields[0], "cbc_seal") == 0)
        r = labyrinth_cbc_seal(n, l, key.pointer, key.length, start.pointer, start.length, src.pointer, src.length, dst.pointer, dst.length);
    else
        r = labyrinth_cbc_open(n, l, key.pointer, key.length, start.pointer, start.length, src.pointer, src.length, dst.pointer, dst.length);
    answer(r, dst);
    take_back(key, 0);
    take_back(start, 0);
    take_back(src, 0);
    take_back(dst, 1);
}

/* fields: the operation, l, key, message, tag; what yes points to holds aa or 01 before the call */
static void tag(char **fields) {
    size_t l = number(fields[1]);
    struct lent key = lend(fields[2]), msg = lend(fields[3]), given = lend(fields[4]), yes = lend(request / 2 % 2 ? "aa" : "01");
    int makes = strcmp(fields[0], "cmac") == 0;
    if (makes)
        answer(labyrinth_cmac(l, key.pointer, key.length, msg.pointer, msg.length, given.pointer, given.length), given);
    else {
        uint8_t r = labyrinth_cmac_verify(l, key.pointer, key.length, msg.pointer, msg.length, given.pointer, given.length, yes.pointer);
        printf("%u %u\n", r, *yes.bytes);
    }
    take_back(key, 0);
    take_back(msg, 0);
    take_back(given, makes);
    take_back(yes, !makes);
}

/* fields: the operation, the store, then for loading the publisher, the set, the substitution and the row, for taking the first two */
static void store(char **fields, int count) {
    struct lent st = lend(fields[1]);
    if (count == 2) answer(labyrinth_store_fresh(st.pointer, st.length), st);
    else if (count == 4) answer(labyrinth_store_take(st.pointer, st.length, number(fields[2]), number(fields[3])), st);
    else {
        struct lent substitution = lend(fields[4]), row = lend(fields[5]);
        answer(labyrinth_store_load(st.pointer, st.length, number(fields[2]), number(fields[3]), substitution.pointer, substitution.length,
                                    row.pointer, row.length), st);
        take_back(substitution, 0);
        take_back(row, 0);
    }
    take_back(st, 1);
}

/* fields: the operation, the store, n, l, the set, the key, the working key */
static void expand(char **fields) {
    struct lent st = lend(fields[1]), key = lend(fields[5]), working = lend(fields[6]);
    answer(labyrinth_expand(st.pointer, st.length, number(fields[2]), number(fields[3]), number(fields[4]), key.pointer, key.length,
                            working.pointer, working.length), working);
    take_back(st, 0);
    take_back(key, 0);
    take_back(working, 1);
}

#define KEY st.pointer, st.length, working.pointer, working.length

typedef uint8_t block_fn(const uint8_t *, size_t, const uint8_t *, size_t, const uint8_t *, size_t, uint8_t *, size_t);
static const struct { const char *name; block_fn *fn; } BLOCKS[] = {
    {"key_encipher", labyrinth_key_encipher}, {"key_encipher_by_matrix", labyrinth_key_encipher_by_matrix},
    {"key_decipher", labyrinth_key_decipher}, {"key_decipher_by_matrix", labyrinth_key_decipher_by_matrix},
    {"key_wrap", labyrinth_key_wrap}, {"key_unwrap", labyrinth_key_unwrap},
};

/* fields: the operation, the store, the working key, then source and destination, or message and tag; what yes points to as above */
static void key_block_or_tag(char **fields) {
    struct lent st = lend(fields[1]), working = lend(fields[2]), src = lend(fields[3]), dst = lend(fields[4]);
    struct lent yes = lend(request / 2 % 2 ? "aa" : "01");
    int verifies = strcmp(fields[0], "key_cmac_verify") == 0;
    block_fn *fn = strcmp(fields[0], "key_cmac") == 0 ? labyrinth_key_cmac : NULL;
    for (size_t i = 0; i < sizeof BLOCKS / sizeof *BLOCKS; i++)
        if (strcmp(fields[0], BLOCKS[i].name) == 0) fn = BLOCKS[i].fn;
    if (verifies) {
        uint8_t r = labyrinth_key_cmac_verify(KEY, src.pointer, src.length, dst.pointer, dst.length, yes.pointer);
        printf("%u %u\n", r, *yes.bytes);
    } else if (fn) answer(fn(KEY, src.pointer, src.length, dst.pointer, dst.length), dst);
    else stop("no operation %s", fields[0]);
    take_back(st, 0);
    take_back(working, 0);
    take_back(src, 0);
    take_back(dst, !verifies);
    take_back(yes, verifies);
}

/* fields: the operation, the store, the working key, start, for CTR q, then source and destination */
static void key_run(char **fields, int is_ctr) {
    struct lent st = lend(fields[1]), working = lend(fields[2]), start = lend(fields[3]);
    struct lent src = lend(fields[4 + is_ctr]), dst = lend(fields[5 + is_ctr]);
    uint8_t r;
    if (is_ctr) r = labyrinth_key_ctr(KEY, start.pointer, start.length, number(fields[4]), src.pointer, src.length, dst.pointer, dst.length);
    else if (strcmp(fields[0], "key_cbc_seal") == 0)
        r = labyrinth_key_cbc_seal(KEY, start.pointer, start.length, src.pointer, src.length, dst.pointer, dst.length);
    else r = labyrinth_key_cbc_open(KEY, start.pointer, start.length, src.pointer, src.length, dst.pointer, dst.length);
    answer(r, dst);
    take_back(st, 0);
    take_back(working, 0);
    take_back(start, 0);
    take_back(src, 0);
    take_back(dst, 1);
}

/* fields: the operation, l, key, then source and destination: the key is expanded for set 0 of a fresh store; a refused one answers its number */
static void wrap(char **fields) {
    static uint8_t fresh[1072], expanded[272];
    size_t l = number(fields[1]);
    struct lent key = lend(fields[2]), src = lend(fields[3]), dst = lend(fields[4]);
    uint8_t r = labyrinth_store_fresh(fresh, sizeof fresh);
    if (r == 0) r = labyrinth_expand(fresh, sizeof fresh, 1, l, 0, key.pointer, key.length, expanded, sizeof expanded);
    if (r == 0)
        r = (strcmp(fields[0], "wrap") == 0 ? labyrinth_key_wrap : labyrinth_key_unwrap)(fresh, sizeof fresh, expanded, sizeof expanded,
                                                                                      src.pointer, src.length, dst.pointer, dst.length);
    answer(r, dst);
    take_back(key, 0);
    take_back(src, 0);
    take_back(dst, 1);
}

#define KEYS st.pointer, st.length, sealing.pointer, sealing.length, tagging.pointer, tagging.length

static uint32_t number32(const char *text) {
    if (number(text) > UINT32_MAX) stop("'%s' has more than 32 bits", text);
    return (uint32_t)number(text);
}

/* fields: the operation, the store, the sealing key, the tag key, number, day, title, start, body, destination */
static void page_write(char **fields) {
    struct lent st = lend(fields[1]), sealing = lend(fields[2]), tagging = lend(fields[3]), title = lend(fields[6]), start = lend(fields[7]);
    struct lent body = lend(fields[8]), dst = lend(fields[9]);
    answer(labyrinth_page_write(KEYS, number32(fields[4]), number32(fields[5]), title.pointer, title.length, start.pointer, start.length,
                                body.pointer, body.length, dst.pointer, dst.length), dst);
    take_back(st, 0);
    take_back(sealing, 0);
    take_back(tagging, 0);
    take_back(title, 0);
    take_back(start, 0);
    take_back(body, 0);
    take_back(dst, 1);
}

/* fields: the operation, the store, the sealing key, the tag key, the record, destination */
static void page_open(char **fields) {
    struct lent st = lend(fields[1]), sealing = lend(fields[2]), tagging = lend(fields[3]), record = lend(fields[4]), dst = lend(fields[5]);
    answer(labyrinth_page_open(KEYS, record.pointer, record.length, dst.pointer, dst.length), dst);
    take_back(st, 0);
    take_back(sealing, 0);
    take_back(tagging, 0);
    take_back(record, 0);
    take_back(dst, 1);
}

/* what the four pointers point to holds ones before the call */
static void page_catalogue(const char *hex) {
    struct lent record = lend(hex);
    uint64_t mark = 0x0101010101010101u * MARK, out[5] = {mark, UINT64_MAX, mark, UINT64_MAX, mark};
    uint32_t small[5] = {(uint32_t)mark, UINT32_MAX, (uint32_t)mark, UINT32_MAX, (uint32_t)mark};
    uint8_t r = labyrinth_page_catalogue(record.pointer, record.length, &small[1], &small[3], &out[1], &out[3]);
    printf("%u %lu %lu %llu %llu\n", r, (unsigned long)small[1], (unsigned long)small[3], (unsigned long long)out[1], (unsigned long long)out[3]);
    for (int i = 0; i < 5; i += 2)
        if (out[i] != mark || small[i] != (uint32_t)mark) stop("a byte was written beside a number");
    take_back(record, 0);
}

static uint16_t number16(const char *text) {
    if (number(text) > UINT16_MAX) stop("'%s' has more than 16 bits", text);
    return (uint16_t)number(text);
}

/* fields: the number, the number that it replaces, the wrapped key */
static uint8_t register_add(struct lent reg, char **fields) {
    struct lent wrapped = lend(fields[2]);
    uint8_t r = labyrinth_register_add(reg.pointer, reg.length, number16(fields[0]), number16(fields[1]), wrapped.pointer, wrapped.length);
    take_back(wrapped, 0);
    return r;
}

/* fields: the number, the entry; what the two pointers point to holds ones before the call */
static void register_find(struct lent reg, char **fields, char apart) {
    struct lent entry = lend(fields[1]), rule = lend("ff");
    uint64_t mark = 0x0101010101010101u * MARK, followed[3] = {mark, UINT64_MAX, mark};
    uint8_t r = labyrinth_register_find(reg.pointer, reg.length, number16(fields[0]), entry.pointer, entry.length, rule.pointer, &followed[1]);
    printf("%u%c%u%c%llu%c", r, apart, *rule.bytes, apart, (unsigned long long)followed[1], apart);
    put_bytes(entry.bytes, entry.length);
    if (followed[0] != mark || followed[2] != mark) stop("a byte was written beside followed");
    take_back(entry, 1);
    take_back(rule, 1);
}

/* Writes the parts of a register, its count and its entries, that are not what they were, each with its place; and notes what they are. */
static void put_changes(struct lent reg, uint8_t *before) {
    size_t size;
    for (size_t at = 0; at < reg.length; at += size) {
        size = at == 0 ? 8 : 44;
        if (size > reg.length - at) size = reg.length - at;
        if (memcmp(before + at, reg.bytes + at, size) == 0) continue;
        printf(",%zu:", at);
        put_bytes(reg.bytes + at, size);
        memcpy(before + at, reg.bytes + at, size);
    }
}

/* The register, then the calls on it, one behind another: the fields of each apart by a comma */
static void register_calls(char *line) {
    char *rest, *inner;
    strtok_r(line, " \n", &rest);
    char *hex = strtok_r(NULL, " \n", &rest);
    if (!hex) stop("no register");
    struct lent reg = lend(hex);
    uint8_t *before = malloc(reg.length + 1);
    if (!before) stop("no memory");
    memcpy(before, reg.bytes, reg.length);
    for (char *call = strtok_r(NULL, " \n", &rest); call; call = strtok_r(NULL, " \n", &rest)) {
        char *fields[4];
        int count = 0;
        for (char *f = strtok_r(call, ",", &inner); f && count < 4; f = strtok_r(NULL, ",", &inner)) fields[count++] = f;
        if (count == 3) {
            printf("%u", register_add(reg, fields));
            put_changes(reg, before);
        } else if (count == 2) {
            register_find(reg, fields, ',');
            if (memcmp(before, reg.bytes, reg.length) != 0) stop("a byte was written to a register that was lent for reading");
        } else stop("no call with %d fields", count);
        putchar(' ');
    }
    put_bytes(reg.bytes, reg.length);
    putchar('\n');
    free(before);
    take_back(reg, 1);
}

/* fields: the operation, the register, then those of the call */
static void register_call(char **fields, int adds) {
    struct lent reg = lend(fields[1]);
    if (adds) answer(register_add(reg, fields + 2), reg);
    else {
        register_find(reg, fields + 2, ' ');
        putchar('\n');
    }
    take_back(reg, adds);
}

int main(void) {
    char *line = NULL;
    size_t room = 0;
    while (getline(&line, &room, stdin) > 0) {
        char *fields[FIELDS + 1];
        int count = 0;
        request++;
        if (strncmp(line, "register_calls ", 15) == 0) {
            register_calls(line);
            continue;
        }
        for (char *f = strtok(line, " \n"); f && count <= FIELDS; f = strtok(NULL, " \n")) fields[count++] = f;
        if (count == 2 && strcmp(fields[0], "mix") == 0) mix(fields[1]);
        else if (count == 2 && strcmp(fields[0], "store_fresh") == 0) store(fields, count);
        else if (count == 4 && strcmp(fields[0], "store_take") == 0) store(fields, count);
        else if (count == 6 && strcmp(fields[0], "store_load") == 0) store(fields, count);
        else if (count == 7 && strcmp(fields[0], "expand") == 0) expand(fields);
        else if (count == 6 && (strcmp(fields[0], "key_cbc_seal") == 0 || strcmp(fields[0], "key_cbc_open") == 0)) key_run(fields, 0);
        else if (count == 7 && strcmp(fields[0], "key_ctr") == 0) key_run(fields, 1);
        else if (count == 5 && strncmp(fields[0], "key_", 4) == 0) key_block_or_tag(fields);
        else if (count == 10 && strcmp(fields[0], "page_write") == 0) page_write(fields);
        else if (count == 2 && strcmp(fields[0], "page_catalogue") == 0) page_catalogue(fields[1]);
        else if (count == 6 && strcmp(fields[0], "page_open") == 0) page_open(fields);
        else if (count == 5 && strcmp(fields[0], "register_add") == 0) register_call(fields, 1);
        else if (count == 4 && strcmp(fields[0], "register_find") == 0) register_call(fields, 0);
        else if (count == 3 && strcmp(fields[0], "mix_row") == 0) mix_row(fields[1], fields[2]);
        else if (count == 5 && (strcmp(fields[0], "wrap") == 0 || strcmp(fields[0], "unwrap") == 0)) wrap(fields);
        else if (count == 5 && (strcmp(fields[0], "cmac") == 0 || strcmp(fields[0], "cmac_verify") == 0)) tag(fields);
        else if (count == 6 && (strcmp(fields[0], "encipher") == 0 || strcmp(fields[0], "decipher") == 0)) one_block(fields);
        else if (count == 7 && (strcmp(fields[0], "cbc_seal") == 0 || strcmp(fields[0], "cbc_open") == 0)) run(fields, 0);
        else if (count == 8 && strcmp(fields[0], "ctr") == 0) run(fields, 1);
        else stop("no operation with %d fields", count);
    }
    free(line);
    if (ferror(stdin) || fflush(stdout) != 0) stop("a read or a write failed");
    return 0;
}
