/* The C interface tried: every number in its order, NULL, runs and tags over labyrinth_encipher, mixing by a row, products and inverses of
 * rows, verdicts on rows, stores and working keys, page records, registers of keys, stack use, and lent memory; and that this program notices what it is to notice, by
 * stubs that stand in the library's place and do wrong. tests/c_interface.sh builds and runs it.
 *
 *     c_interface [--long | --records] [--seed N]      the seed is for the lent memory; without it one is taken from the clock, and printed;
 *                                                      --records tries stores, working keys, page records and registers alone, and no stubs */
#include <inttypes.h>
#include <time.h>

#include "interface.h"

int quiet;
long failures;

void wrong(const char *text, ...)
{
    va_list list;
    if (!quiet && failures < 20) {
        va_start(list, text);
        fputs("c_interface: ", stdout);
        vprintf(text, list);
        putchar('\n');
        fflush(stdout);
        va_end(list);
    }
    failures++;
}

/* Whether a stub at work is noticed, so that a trial may end; for trials that take long. */
int enough(void) { return quiet && failures > 0; }

void stop(const char *what)
{
    perror(what);
    exit(2);
}

uint64_t chance;

uint64_t next(void) /* splitmix64 */
{
    uint64_t z = chance += 0x9E3779B97F4A7C15u;
    z = (z ^ z >> 30) * 0xBF58476D1CE4E5B9u;
    z = (z ^ z >> 27) * 0x94D049BB133111EBu;
    return z ^ z >> 31;
}

size_t below(size_t limit) { return (size_t)(next() % limit); }

void fill(uint8_t *at, size_t len)
{
    for (size_t i = 0; i < len; i++) at[i] = (uint8_t)(next() >> 24);
}

int main(int count, char **words)
{
    int large = 0, only_records = 0;
    struct timespec now;
    clock_gettime(CLOCK_REALTIME, &now);
    uint64_t seed = (uint64_t)now.tv_sec * 1000000 + (uint64_t)now.tv_nsec / 1000;
    for (int i = 1; i < count; i++)
        if (strcmp(words[i], "--long") == 0) {
            large = 1;
        } else if (strcmp(words[i], "--records") == 0) {
            only_records = 1;
        } else if (strcmp(words[i], "--seed") == 0 && i + 1 < count) {
            char *end;
            seed = strtoull(words[++i], &end, 10);
            if (*end || end == words[i]) return fprintf(stderr, "c_interface: a seed is a number\n"), 2;
        } else {
            return fprintf(stderr, "usage: c_interface [--long | --records] [--seed N]\n"), 2;
        }
    lend();
    paint();
    chance = seed;
    size_t of_records, of_pages, of_registers;
    if (only_records) {
        long lent = records(seed, large, &of_records), paged = pages(seed, large, &of_pages), registered = registers(seed, large, &of_registers);
        printf("c_interface: %ld calls of stores and working keys, %ld of page records, %ld of registers (seed %" PRIu64 "): %ld wrong\n", lent, paged, registered, seed, failures);
        return failures != 0;
    }
    enum { CALLS = 342541 };
    long calls = numbers(library, KINDS) + far_lengths(library);
    if (calls != CALLS) wrong("%ld numbers tried, not %d", calls, CALLS);
    no_bytes();
    for (size_t i = 0; i < 20; i++) runs(i);
    runs(300); /* over 8 KiB at n = 2 and 4, where the eight tables are used */
    runs(511);
    long bits = all_tags(library), made = row_laws(library, 4096), judged = verdicts(library, 100);
    size_t each[OPS + 1], most = stack(library, large, each);
    long cases = large ? 500000 : 10000;
    for (int place = PLACE_END; place <= PLACE_ANY; place++) {
        int died = memory(library, KINDS, seed + (uint64_t)place, cases, place);
        if (died != 0) wrong("lent memory, seed %" PRIu64 ", place %d: %s", seed, place, died > 0 ? strsignal(died) : "see above");
    }
    long lent = records(seed, large, &of_records), paged = pages(seed, large, &of_pages), registered = registers(seed, large, &of_registers);
    if (of_records > most) most = of_records;
    if (of_pages > most) most = of_pages;
    if (of_registers > most) most = of_registers;
    int noticed = try_stubs(seed) + try_record_stubs(seed) + try_page_stubs(seed) + try_register_stubs(seed);
    if (large) {
        for (int o = 0; o < OPS; o++) printf("c_interface: %s: %zu bytes of stack\n", library[o].name, each[o]);
        printf("c_interface: labyrinth_mix: %zu bytes of stack\n", each[OPS]);
    }
    printf("c_interface: %ld numbers, %ld bits of tags altered, %ld products and inverses, %ld verdicts, %zu bytes of stack of the "
           "header's %d, %ld calls on lent memory, %ld of stores and working keys, %ld of page records, %ld of registers (seed %" PRIu64 "), %d trials of stubs: %ld wrong\n",
           calls, bits, made, judged, most, LABYRINTH_STACK, 3 * cases, lent, paged, registered, seed, noticed, failures);
    return failures != 0;
}
