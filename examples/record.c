/* Writes a page record, lists it as a catalogue does, without a key, and opens it; then alters one byte, which opening refuses. After make lib:
 *
 *     gcc -std=c99 -I target/dist examples/record.c target/dist/liblabyrinth.a -o record && ./record
 *
 * The keys and the start block are an example's. Real keys are secret and made by chance, the tag key apart from the sealing key. No one can
 * know a start block before its page is sealed, and it is for one page only. */
#include <inttypes.h>
#include <stdio.h>
#include <string.h>

#include "labyrinth.h"

enum { STORE = 1072, WORKING = 272, L = 2, KEY = 8 * L, BLOCK = 16, TITLE = 32, WRONG_TAG = 20 };

static void show(const char *name, const uint8_t *bytes, size_t len)
{
    printf("%s: ", name);
    for (size_t i = 0; i < len; i++) printf("%02x", bytes[i]);
    printf("\n");
}

/* Whether it was done; tells of a refusal. */
static int done(const char *what, uint8_t number)
{
    if (number != 0) fprintf(stderr, "%s: refused with %d\n", what, number);
    return number == 0;
}

/* Whether the catalogue takes the record; tells what stands in the open. A real title may hold bytes that no terminal should get. */
static int list(const char *name, const uint8_t *record, size_t len, uint64_t *blocks)
{
    uint32_t number, day;
    uint64_t at;
    if (!done("page_catalogue", labyrinth_page_catalogue(record, len, &number, &day, blocks, &at))) return 0;
    printf("%s: number %" PRIu32 ", day %" PRIu32 ", blocks %" PRIu64 ", title \"%.*s\"\n", name, number, day, *blocks, TITLE, (const char *)record + at);
    return 1;
}

int main(void)
{
    static const uint8_t title[TITLE + 1] = "Of the harbour, second part     ";
    static const uint8_t body[] = "This body is four whole blocks of sixteen bytes each. The end. \n";
    enum { BODY = sizeof body - 1, RECORD = 77 + 17 * (BODY / BLOCK) };
    uint8_t store[STORE], key[KEY], tag_key[KEY], sealing[WORKING], tagging[WORKING], start[BLOCK], record[RECORD], opened[BODY];
    uint64_t blocks;

    for (size_t i = 0; i < KEY; i++) key[i] = (uint8_t)i, tag_key[i] = (uint8_t)(0xE0 + i);
    memset(start, 0xC5, BLOCK);
    show("key", key, KEY);
    show("tag key", tag_key, KEY);
    show("start", start, BLOCK);
    show("body", body, BODY);

    /* Both keys by set 0, the published one; n is 1. */
    if (!done("store_fresh", labyrinth_store_fresh(store, STORE))) return 1;
    if (!done("expand", labyrinth_expand(store, STORE, 1, L, 0, key, KEY, sealing, WORKING))) return 1;
    if (!done("expand", labyrinth_expand(store, STORE, 1, L, 0, tag_key, KEY, tagging, WORKING))) return 1;

    if (!done("page_write", labyrinth_page_write(store, STORE, sealing, WORKING, tagging, WORKING, 17, 20014, title, TITLE, start, BLOCK, body, BODY, record, RECORD)))
        return 1;
    show("written", record, RECORD);

    /* No key is needed for this, and nothing is verified. */
    if (!list("listed", record, RECORD, &blocks)) return 1;

    /* Whoever opens it has room for that many blocks. */
    if (blocks * BLOCK != BODY) return 1;
    if (!done("page_open", labyrinth_page_open(store, STORE, sealing, WORKING, tagging, WORKING, record, RECORD, opened, BODY))) return 1;
    printf("opened: %.*s", (int)BODY, (const char *)opened);
    if (memcmp(opened, body, BODY) != 0) return 1;

    /* The catalogue can't tell that the title isn't the one that was written; the tag can. */
    record[11] = 'I';
    printf("altered: one byte of the title; opening is to refuse this record with %d\n", WRONG_TAG);
    if (!list("altered listed", record, RECORD, &blocks)) return 1;
    memset(opened, 0, BODY);
    uint8_t number = labyrinth_page_open(store, STORE, sealing, WORKING, tagging, WORKING, record, RECORD, opened, BODY);
    int untouched = 1;
    for (size_t i = 0; i < BODY; i++) untouched = untouched && opened[i] == 0;
    printf("altered opened: %s %d, %s\n", number == 0 ? "done with" : "refused with", number, untouched ? "nothing written" : "BYTES WRITTEN");
    return number != WRONG_TAG || !untouched;
}
