/* Converts words that were mixed by an archive's own row to the published row, without the words as they were before mixing. After
 * make lib:
 *
 *     gcc -std=c99 -I target/dist examples/convert.c target/dist/liblabyrinth.a -o convert && ./convert
 *
 * Mixing by a row's inverse undoes mixing by the row, and mixing by one row and then by another is mixing by their product. So the
 * converting row is the product of the old row's inverse and the published row. The old row and the words are an example's. */
#include <inttypes.h>
#include <stdio.h>

#include "labyrinth.h"

enum { ROW = 8 };

static void show(const char *name, const uint8_t *row)
{
    printf("%s: ", name);
    for (size_t i = 0; i < ROW; i++) printf("%02x", row[i]);
    printf("\n");
}

/* Whether it was done; tells of a refusal. */
static int done(const char *what, uint8_t number)
{
    if (number != 0) fprintf(stderr, "%s: refused with %d\n", what, number);
    return number == 0;
}

/* Whether a word is the one that it must be; tells if not. */
static int same(const char *what, uint64_t word, uint64_t expected)
{
    if (word != expected) fprintf(stderr, "%s: %016" PRIx64 ", not %016" PRIx64 "\n", what, word, expected);
    return word == expected;
}

int main(void)
{
    /* Any eight bytes but those that XOR to zero, which are refused with 13. */
    static const uint8_t old_row[ROW] = {0x02, 0x07, 0x01, 0x8E, 0x35, 0x11, 0xC4, 0x5B};
    static const uint8_t published[ROW] = {0x01, 0x01, 0x03, 0x0F, 0x0A, 0x1F, 0x0F, 0x0C};
    static const uint64_t words[] = {0x0000000000000001, 0x0123456789ABCDEF, 0x9E3779B97F4A7C15};
    uint8_t inverse[ROW], converting[ROW];
    uint64_t mixed, converted, back;

    show("old row", old_row);
    if (!done("row_inverse", labyrinth_row_inverse(old_row, ROW, inverse, ROW))) return 1;
    show("inverse", inverse);
    if (!done("row_product", labyrinth_row_product(inverse, ROW, published, ROW, converting, ROW))) return 1;
    show("converting row", converting);

    for (size_t i = 0; i < sizeof words / sizeof *words; i++) {
        /* The archive has the mixed word only. One call converts it. */
        if (!done("mix_row", labyrinth_mix_row(old_row, ROW, words[i], &mixed))) return 1;
        if (!done("mix_row", labyrinth_mix_row(converting, ROW, mixed, &converted))) return 1;
        printf("word %zu: %016" PRIx64 "\n", i + 1, words[i]);
        printf("word %zu mixed: %016" PRIx64 "\n", i + 1, mixed);
        printf("word %zu converted: %016" PRIx64 "\n", i + 1, converted);

        /* It is what the published row makes of the word, and by the inverse the word itself comes back. */
        if (!same("converted", converted, labyrinth_mix(words[i]))) return 1;
        if (!done("mix_row", labyrinth_mix_row(inverse, ROW, mixed, &back))) return 1;
        if (!same("mixed back", back, words[i])) return 1;
    }
    return 0;
}
