/* Seals two pages, tags them, and verifies the tags and opens the pages again: one of whole blocks by CBC, one of any length by CTR. After
 * make lib:
 *
 *     gcc -std=c99 -I target/dist examples/page.c target/dist/liblabyrinth.a -o page && ./page
 *
 * The keys and the start blocks are an example's. Real keys are secret and made by chance, the tag key apart from the sealing key. A start
 * block is kept with its page: for CBC no one can know it before the page is sealed, and for CTR no counter that is made from it comes up
 * twice under one key. The tag is of all that is kept, the start block and the sealed page. q is one for all pages here and isn't kept. */
#include <inttypes.h>
#include <stdio.h>
#include <string.h>

#include "labyrinth.h"

/* A tag key is for n = 1, whatever n the pages have. */
enum { N = 2, L = 3, BLOCK = 16 * N, KEY = 8 * N * L, TAG_L = 4, TAG_KEY = 8 * TAG_L, TAG = 16 };

static void show(const char *name, const uint8_t *bytes, size_t len)
{
    printf("%s: ", name);
    for (size_t i = 0; i < len; i++) printf("%02x", bytes[i]);
    printf("\n");
}

/* Whether it was done; tells of a refusal. Done does not say that the page is genuine. */
static int done(const char *what, uint8_t number)
{
    if (number != 0) fprintf(stderr, "%s: refused with %d\n", what, number);
    return number == 0;
}

/* Whether what is kept of a page has this tag; tells the answer. */
static int genuine(const char *name, const uint8_t *tag_key, const uint8_t *kept, size_t len, const uint8_t *tag)
{
    uint8_t yes;
    if (!done("cmac_verify", labyrinth_cmac_verify(TAG_L, tag_key, TAG_KEY, kept, len, tag, TAG, &yes))) return 0;
    printf("%s: %s\n", name, yes ? "yes" : "no");
    return yes;
}

/* Whether the page came back. */
static int same(const char *what, const uint8_t *opened, const uint8_t *page, size_t len)
{
    int equal = memcmp(opened, page, len) == 0;
    printf("%s: %zu bytes sealed and opened, %s\n", what, len, equal ? "the same" : "NOT THE SAME");
    return equal;
}

int main(void)
{
    static const uint8_t full[] = "This page is two whole blocks of thirty-two bytes each. The end.";
    static const uint8_t brief[] = "This page has any length.";
    uint8_t key[KEY], tag_key[TAG_KEY], tag[TAG], kept[BLOCK + sizeof full], opened[sizeof full];
    uint8_t *start = kept, *sealed = kept + BLOCK;
    size_t len;
    uint64_t q;

    for (size_t i = 0; i < sizeof key; i++) key[i] = (uint8_t)i;
    show("key", key, sizeof key);
    for (size_t i = 0; i < sizeof tag_key; i++) tag_key[i] = (uint8_t)(0xE0 + i);
    show("tag key", tag_key, sizeof tag_key);

    /* CBC takes whole blocks only. The page's last byte here, C's 0, is no part of it. */
    len = sizeof full - 1;
    memset(start, 0xC5, BLOCK);
    printf("cbc page: %s\n", (const char *)full);
    show("cbc start", start, BLOCK);
    if (!done("cbc_seal", labyrinth_cbc_seal(N, L, key, sizeof key, start, BLOCK, full, len, sealed, len))) return 1;
    show("cbc sealed", sealed, len);
    if (!done("cmac", labyrinth_cmac(TAG_L, tag_key, sizeof tag_key, kept, BLOCK + len, tag, sizeof tag))) return 1;
    show("cbc tag", tag, sizeof tag);

    /* Whoever opens it verifies first. */
    if (!genuine("cbc genuine", tag_key, kept, BLOCK + len, tag)) return 1;
    if (!done("cbc_open", labyrinth_cbc_open(N, L, key, sizeof key, start, BLOCK, sealed, len, opened, len))) return 1;
    if (!same("cbc", opened, full, len)) return 1;

    /* CTR takes any length. Block i of the page has the counter start + q + i. Opening is the same call. */
    len = sizeof brief - 1;
    q = 7;
    memset(start, 0x3A, BLOCK);
    printf("ctr page: %s\n", (const char *)brief);
    show("ctr start", start, BLOCK);
    printf("ctr q: %" PRIu64 "\n", q);
    if (!done("ctr", labyrinth_ctr(N, L, key, sizeof key, start, BLOCK, q, brief, len, sealed, len))) return 1;
    show("ctr sealed", sealed, len);
    if (!done("cmac", labyrinth_cmac(TAG_L, tag_key, sizeof tag_key, kept, BLOCK + len, tag, sizeof tag))) return 1;
    show("ctr tag", tag, sizeof tag);
    if (!genuine("ctr genuine", tag_key, kept, BLOCK + len, tag)) return 1;
    if (!done("ctr", labyrinth_ctr(N, L, key, sizeof key, start, BLOCK, q, sealed, len, opened, len))) return 1;
    if (!same("ctr", opened, brief, len)) return 1;

    /* With one bit of the sealed page altered it would open to something too; the tag shows it. */
    sealed[0] ^= 1;
    if (genuine("ctr altered genuine", tag_key, kept, BLOCK + len, tag)) return 1;
    return 0;
}
