/* Keeps a register of page keys: adds key 17, then key 23, which replaces it, and asks for 17, which gives 23; then 17 is to be replaced again, which is
 * refused. After make lib:
 *
 *     gcc -std=c99 -I target/dist examples/keys.c target/dist/liblabyrinth.a -o keys && ./keys
 *
 * The keys are an example's. Real keys are secret and made by chance. A register has no tag: keep it where others can't write, or tag it. */
#include <inttypes.h>
#include <stdio.h>
#include <string.h>

#include "labyrinth.h"

enum { STORE = 1072, WORKING = 272, L = 4, KEY = 8 * L, WRAPPED = KEY + 8, REGISTER = 2824, ENTRY = 44, REPLACED_ALREADY = 22 };

static void show(const char *name, const uint8_t *bytes, size_t len)
{
    printf("%s: ", name);
    for (size_t i = 0; i < len; i++) printf("%02x", bytes[i]);
    printf("\n");
}

/* Whether it was done; tells of a refusal. */
static int done(const char *what, uint8_t number)
{
    if (number != 0) fprintf(stderr, "%s: refused with %d\n", what, number);
    return number == 0;
}

int main(void)
{
    uint8_t store[STORE], master[KEY], key[KEY], key_23[KEY], working[WORKING], wrapped[WRAPPED], reg[REGISTER], before[REGISTER], entry[ENTRY], rule;
    uint64_t followed;

    for (size_t i = 0; i < KEY; i++) master[i] = (uint8_t)i, key[i] = (uint8_t)(0x17 + i), key_23[i] = (uint8_t)(0x23 + 3 * i);
    show("master key", master, KEY);
    show("key 17", key, KEY);
    show("key 23", key_23, KEY);

    /* By set 0, the published one; n is 1. */
    if (!done("store_fresh", labyrinth_store_fresh(store, STORE))) return 1;
    if (!done("expand", labyrinth_expand(store, STORE, 1, L, 0, master, KEY, working, WORKING))) return 1;

    /* An empty register is all zeros. 17 replaces none, 23 replaces 17. */
    memset(reg, 0, REGISTER);
    if (!done("key_wrap", labyrinth_key_wrap(store, STORE, working, WORKING, key, KEY, wrapped, WRAPPED))) return 1;
    if (!done("register_add", labyrinth_register_add(reg, REGISTER, 17, 0, wrapped, WRAPPED))) return 1;
    if (!done("key_wrap", labyrinth_key_wrap(store, STORE, working, WORKING, key_23, KEY, wrapped, WRAPPED))) return 1;
    if (!done("register_add", labyrinth_register_add(reg, REGISTER, 23, 17, wrapped, WRAPPED))) return 1;
    show("register", reg, 8 + 2 * ENTRY);

    /* The entry has the number, the least byte first, the number that it replaces, and from byte 4 on the wrapped key. */
    if (!done("register_find", labyrinth_register_find(reg, REGISTER, 17, entry, ENTRY, &rule, &followed))) return 1;
    unsigned now = entry[0] | (unsigned)entry[1] << 8;
    printf("found: 17 is now %u, %s, replacements followed %" PRIu64 "\n", now, rule == 0 ? "still current" : "replaced", followed);
    if (now != 23 || rule != 1 || followed != 1) return 1;
    if (!done("key_unwrap", labyrinth_key_unwrap(store, STORE, working, WORKING, entry + 4, WRAPPED, key, KEY))) return 1;
    show("unwrapped", key, KEY);
    if (memcmp(key, key_23, KEY) != 0) return 1;

    /* A key is replaced once at most; a refused call leaves the register as it was. */
    memcpy(before, reg, REGISTER);
    uint8_t number = labyrinth_register_add(reg, REGISTER, 40, 17, wrapped, WRAPPED);
    int untouched = memcmp(before, reg, REGISTER) == 0;
    printf("17 replaced again: %s %d, %s\n", number == 0 ? "done with" : "refused with", number, untouched ? "nothing written" : "BYTES WRITTEN");
    return number != REPLACED_ALREADY || !untouched;
}
