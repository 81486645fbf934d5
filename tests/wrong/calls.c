/* Calls functions of the library by themselves, for tests/wrong.py. A line is a function's name and its arguments, each =NUMBER, #WIDTH:BYTES, a buffer with its
   length in items of that many bytes, or *BYTES, the place of one value, which has no length. The answer is a line: what the function returned, and then what each
   buffer holds, - for no bytes; or ! where a byte beside it was written. */
#include <stdint.h>
#include <stdio.h>
#include <stdlib.h>
#include <string.h>

#include "called.h"

enum { MARGIN = 64, MARK = 0xC3, MOST = 40 };

struct buffer {
    uint8_t *room;
    size_t length, size;
};

static struct buffer lend(const char *hex)
{
    struct buffer b = {.length = strlen(hex) / 2};
    b.size = b.length + 2 * MARGIN + 8;
    b.room = aligned_alloc(8, (b.size + 7) / 8 * 8);
    if (!b.room) exit(3);
    memset(b.room, MARK, b.size);
    for (size_t i = 0; i < b.length; i++) {
        unsigned byte;
        if (sscanf(hex + 2 * i, "%2x", &byte) != 1) exit(4);
        b.room[MARGIN + i] = (uint8_t)byte;
    }
    return b;
}

static void give_back(struct buffer b)
{
    for (size_t i = 0; i < b.size; i++)
        if ((i < MARGIN || i >= MARGIN + b.length) && b.room[i] != MARK) {
            fputs(" !", stdout);
            free(b.room);
            return;
        }
    fputs(b.length ? " " : " -", stdout);
    for (size_t i = 0; i < b.length; i++) printf("%02x", b.room[MARGIN + i]);
    free(b.room);
}

/* on this machine a function takes no notice of numbers past those that it has */
typedef uint64_t function(uint64_t, uint64_t, uint64_t, uint64_t, uint64_t, uint64_t, uint64_t, uint64_t, uint64_t, uint64_t, uint64_t, uint64_t, uint64_t, uint64_t,
    uint64_t, uint64_t, uint64_t, uint64_t, uint64_t, uint64_t, uint64_t, uint64_t, uint64_t, uint64_t, uint64_t, uint64_t, uint64_t, uint64_t, uint64_t, uint64_t,
    uint64_t, uint64_t, uint64_t, uint64_t, uint64_t, uint64_t, uint64_t, uint64_t, uint64_t, uint64_t);

static function *named(const char *name)
{
    for (size_t i = 0; i < sizeof called / sizeof *called; i++)
        if (strcmp(called[i].name, name) == 0) return (function *)called[i].at;
    exit(5);
}

int main(void)
{
    char *line = NULL;
    size_t room = 0;
    while (getline(&line, &room, stdin) > 0) {
        uint64_t a[MOST] = {0};
        struct buffer lent[MOST];
        size_t count = 0, buffers = 0;
        function *f = named(strtok(line, " \n"));
        for (char *word; (word = strtok(NULL, " \n"));) {
            if (count + 2 > MOST) exit(6);
            if (*word == '=') {
                a[count++] = strtoull(word + 1, NULL, 10);
                continue;
            }
            size_t width = *word == '#' ? strtoull(word + 1, NULL, 10) : 0;
            struct buffer b = lent[buffers++] = lend(width ? strchr(word, ':') + 1 : word + 1);
            a[count++] = (uint64_t)(uintptr_t)(b.room + MARGIN);
            if (width) a[count++] = b.length / width;
        }
        uint64_t result = f(a[0], a[1], a[2], a[3], a[4], a[5], a[6], a[7], a[8], a[9], a[10], a[11], a[12], a[13], a[14], a[15], a[16], a[17], a[18], a[19], a[20],
            a[21], a[22], a[23], a[24], a[25], a[26], a[27], a[28], a[29], a[30], a[31], a[32], a[33], a[34], a[35], a[36], a[37], a[38], a[39]);
        printf("%llx", (unsigned long long)result);
        for (size_t i = 0; i < buffers; i++) give_back(lent[i]);
        putchar('\n');
    }
    free(line);
    return 0;
}
