/* Memory: calls of any kind on lent memory, of which nothing is touched but what is lent, and only the destination written. Each buffer is in
 * pages of its own between two that cannot be touched, flush against one of them; all but DST and WORD can only be read while the call runs. */
#include <signal.h>
#include <sys/mman.h>
#include <sys/resource.h>
#include <sys/wait.h>
#include <unistd.h>

#include "interface.h"

enum { LENT_PAGES = 5 };
static size_t lent_size;
static uint8_t *lent[BUFFERS];

void lend(void)
{
    size_t page = (size_t)sysconf(_SC_PAGESIZE);
    lent_size = LENT_PAGES * page;
    for (int b = 0; b < BUFFERS; b++) {
        uint8_t *at = mmap(NULL, lent_size + 2 * page, PROT_NONE, MAP_PRIVATE | MAP_ANONYMOUS, -1, 0);
        if (at == MAP_FAILED) stop("mmap");
        lent[b] = at + page;
        if (mprotect(lent[b], lent_size, PROT_READ | PROT_WRITE) != 0) stop("mprotect");
    }
}

static size_t some_length(void)
{
    switch (below(8)) {
    case 0: return below(lent_size); /* never so long that it is flush on both sides */
    case 1: case 2: return below(1025);
    default: return below(200);
    }
}

static void memory_case(const struct op *ops, enum kind kind, int place)
{
    static uint8_t *copy[2], *margins[BUFFERS];
    static const size_t illegal[] = {0, 3, 8, ((size_t)1 << 32) + 1, SIZE_MAX};
    for (int i = 0; i < 2; i++)
        if (!copy[i]) {
            if (!(copy[i] = malloc(lent_size + 2))) stop("malloc");
            copy[i]++; /* a byte on either side, which a stub may read */
        }
    for (int b = DST; b < BUFFERS; b++)
        if (!margins[b] && !(margins[b] = malloc(lent_size))) stop("malloc");
    const struct op *op;
    do op = &ops[below(OPS)];
    while (kind != KINDS && kind != op->kind);
    int tag = is_tag(op->kind);
    size_t n = tag ? 1 : (size_t)1 << below(3), l = 2 + below(3);
    struct call c = {.n = n, .l = l, .q = below(2) ? next() : below(3)};
    c.len[KEY] = is_row(op->kind) ? 8 : 8 * n * l;
    c.len[START] = has(op->kind, START) ? 16 * n : 0;
    c.len[SRC] = op->kind == BLOCK ? 16 * n : op->kind == PRODUCT ? 8 : has(op->kind, SRC) ? some_length() : 0;
    if (op->kind == CBC) c.len[SRC] -= c.len[SRC] % (16 * n);
    c.len[DST] = says_yes(op->kind) ? 1 : is_row(op->kind) ? 8 : c.len[SRC];
    c.len[WORD] = op->kind == JUDGE ? 8 : 0;
    for (int b = 0; b < BUFFERS; b++)
        if (is_row(op->kind) && has(op->kind, (enum buffer)b) && !(always_sets(op->kind) && b >= DST) && below(4) == 0)
            c.len[b] = below(3) ? below(21) : 256 + 8;
    if (tag) c.len[tag_of(op->kind)] = 8 + below(9);
    switch (below(16)) { /* now and then something does not fit */
    case 0: c.len[KEY] = below(200); break;
    case 1: if (has(op->kind, START)) c.len[START] = below(100); break;
    case 2: c.len[SRC] = below(200); break;
    case 3: if (!always_sets(op->kind)) c.len[DST] = below(200); break;
    case 4: if (tag) c.len[tag_of(op->kind)] = below(20); else c.n = illegal[below(5)]; break;
    case 5: c.l = illegal[below(2) ? 4 : 2]; break;
    default: break;
    }
    for (int b = 0; b < BUFFERS; b++) {
        int at_start = place == PLACE_ANY ? (int)below(2) : place;
        c.at[b] = at_start ? lent[b] : lent[b] + lent_size - c.len[b];
        fill(c.at[b], c.len[b]);
        if (c.len[b] == 0 && place == PLACE_ANY && below(2)) c.at[b] = NULL;
    }
    if (is_row(op->kind) && c.len[KEY] && below(3) == 0) c.at[KEY][0] ^= row_sum(c.at[KEY], c.len[KEY]);
    if (op->kind == JUDGE && c.len[KEY] == 8 && below(4) == 0) memcpy(c.at[KEY], to_judge[below(TO_JUDGE)].row, 8);
    if (says_yes(op->kind)) *c.at[DST] = below(2) ? 1 : 0xAA;
    uint8_t expected = number_of(op->kind, &c);
    if (op->kind == VERIFY) { /* mostly the message's tag, now and then with one bit altered */
        uint8_t whole[16];
        if (c.len[KEY] >= 8 * l) cmac(l, c.at[KEY], c.at[SRC], c.len[SRC], whole);
        if (c.len[KEY] >= 8 * l && c.len[START]) memcpy(c.at[START], whole, c.len[START] < 16 ? c.len[START] : 16);
        if (c.len[START] && below(3) == 0) c.at[START][below(c.len[START])] ^= (uint8_t)(1 << below(8));
    }
    for (int b = 0; b < DST; b++)
        if (mprotect(lent[b], lent_size, PROT_READ) != 0) stop("mprotect");
    for (int b = DST; b < BUFFERS; b++) memcpy(margins[b], lent[b], lent_size);
    uint8_t number = run(op, &c);
    for (int b = 0; b < DST; b++)
        if (mprotect(lent[b], lent_size, PROT_READ | PROT_WRITE) != 0) stop("mprotect");
    if (number != expected) wrong(CALL_TEXT "%d, not %d", CALL(op, &c), number, expected);
    /* outside the destination nothing is written, and after a refusal nothing in it, unless it is *yes, *out or *word */
    for (int b = DST; b < BUFFERS; b++) {
        size_t from = c.at[b] ? (size_t)(c.at[b] - lent[b]) : 0, to = from + (number == 0 || always_sets(op->kind) ? c.len[b] : 0);
        if (memcmp(lent[b], margins[b], from) != 0 || memcmp(lent[b] + to, margins[b] + to, lent_size - to) != 0)
            wrong(CALL_TEXT "number %d, and bytes written that are not the destination's", CALL(op, &c), number);
    }
    if (!made_right(op->kind, &c)) wrong(CALL_TEXT "number %d, and the tag, *yes, *out, *word or the row is wrong", CALL(op, &c), number);
    if (number != 0 || op->kind == ROW || op->kind == JUDGE) return;
    /* the same in memory of any kind; and undone there it is the source, if it is no tag or row */
    struct call plainly = c;
    plainly.at[DST] = copy[0];
    if (run(op, &plainly) != 0 || (c.len[DST] && memcmp(copy[0], c.at[DST], c.len[DST]) != 0))
        wrong("%s: n %zu, l %zu, %zu bytes: another answer in other memory", op->name, n, l, c.len[SRC]);
    if (op->back < 0) return;
    plainly.at[SRC] = copy[0];
    plainly.at[DST] = copy[1];
    if (run(&ops[op->back], &plainly) != 0 || (c.len[SRC] && memcmp(copy[1], c.at[SRC], c.len[SRC]) != 0))
        wrong("%s: n %zu, l %zu, %zu bytes: not undone", op->name, n, l, c.len[SRC]);
}

/* Cases in a child: what it died of, 0 if it found nothing wrong, or -1. */
int in_child(void (*one)(int only, int place), int only, uint64_t seed, long cases, int place)
{
    int status;
    fflush(stdout);
    pid_t child = fork();
    if (child < 0) stop("fork");
    if (child == 0) {
        struct rlimit none = {0, 0};
        setrlimit(RLIMIT_CORE, &none);
        signal(SIGSEGV, SIG_DFL);
        chance = seed;
        failures = 0;
        for (long i = 0; i < cases && !enough(); i++) one(only, place);
        fflush(stdout);
        _exit(failures != 0);
    }
    if (waitpid(child, &status, 0) != child) stop("waitpid");
    return WIFSIGNALED(status) ? WTERMSIG(status) : WEXITSTATUS(status) ? -1 : 0;
}

static const struct op *tried;

static void tried_case(int kind, int place) { memory_case(tried, (enum kind)kind, place); }

/* Cases in a child, of one kind, or, for KINDS, of all. */
int memory(const struct op *ops, enum kind kind, uint64_t seed, long cases, int place)
{
    tried = ops;
    return in_child(tried_case, kind, seed, cases, place);
}
