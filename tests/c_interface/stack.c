/* Stack: no call uses more than the header says. A call is made on a painted stack of its own; what it used is from the caller's stack pointer
 * at the call to the lowest byte that lost its paint, by two paints. */
#include <sys/mman.h>
#include <ucontext.h>
#include <unistd.h>

#include "interface.h"

enum { STACK = 256 * 1024 };
static uint8_t *painted;
static ucontext_t here, there;
static const struct op *there_op;
static const struct call *there_call;
static mix_fn *there_mix;
static void (*there_act)(void);
static uintptr_t top;

void paint(void)
{
    size_t page = (size_t)sysconf(_SC_PAGESIZE);
    painted = mmap(NULL, STACK + page, PROT_NONE, MAP_PRIVATE | MAP_ANONYMOUS, -1, 0);
    if (painted == MAP_FAILED || mprotect(painted + page, STACK, PROT_READ | PROT_WRITE) != 0) stop("mmap");
    painted += page;
}

/* In a function's place: where the caller's stack pointer was before the return address was pushed. */
#define NOTE_TOP() (top = (uintptr_t)__builtin_frame_address(0) + 16)
static uint8_t top_block(size_t n, size_t l, const uint8_t *k, size_t kl, const uint8_t *s, size_t sl, uint8_t *d, size_t dl)
{
    (void)n, (void)l, (void)k, (void)kl, (void)s, (void)sl, (void)d, (void)dl;
    NOTE_TOP();
    return 0;
}
static uint8_t top_cbc(size_t n, size_t l, const uint8_t *k, size_t kl, const uint8_t *b, size_t bl, const uint8_t *s, size_t sl, uint8_t *d,
                       size_t dl)
{
    (void)n, (void)l, (void)k, (void)kl, (void)b, (void)bl, (void)s, (void)sl, (void)d, (void)dl;
    NOTE_TOP();
    return 0;
}
static uint8_t top_ctr(size_t n, size_t l, const uint8_t *k, size_t kl, const uint8_t *b, size_t bl, uint64_t q, const uint8_t *s, size_t sl,
                       uint8_t *d, size_t dl)
{
    (void)n, (void)l, (void)k, (void)kl, (void)b, (void)bl, (void)q, (void)s, (void)sl, (void)d, (void)dl;
    NOTE_TOP();
    return 0;
}
static uint8_t top_cmac(size_t l, const uint8_t *k, size_t kl, const uint8_t *m, size_t ml, uint8_t *t, size_t tl)
{
    (void)l, (void)k, (void)kl, (void)m, (void)ml, (void)t, (void)tl;
    NOTE_TOP();
    return 0;
}
static uint8_t top_verify(size_t l, const uint8_t *k, size_t kl, const uint8_t *m, size_t ml, const uint8_t *t, size_t tl, uint8_t *y)
{
    (void)l, (void)k, (void)kl, (void)m, (void)ml, (void)t, (void)tl, (void)y;
    NOTE_TOP();
    return 0;
}
static uint8_t top_row(const uint8_t *r, size_t rl, uint64_t w, uint64_t *o)
{
    (void)r, (void)rl, (void)w, (void)o;
    NOTE_TOP();
    return 0;
}
static uint8_t top_product(const uint8_t *g, size_t gl, const uint8_t *h, size_t hl, uint8_t *d, size_t dl)
{
    (void)g, (void)gl, (void)h, (void)hl, (void)d, (void)dl;
    NOTE_TOP();
    return 0;
}
static uint8_t top_inverse(const uint8_t *r, size_t rl, uint8_t *d, size_t dl)
{
    (void)r, (void)rl, (void)d, (void)dl;
    NOTE_TOP();
    return 0;
}
static uint8_t top_judge(const uint8_t *r, size_t rl, uint8_t *y, uint64_t *w)
{
    (void)r, (void)rl, (void)y, (void)w;
    NOTE_TOP();
    return 0;
}
static uint64_t top_mix(uint64_t word)
{
    NOTE_TOP();
    return word;
}

volatile uint8_t sink;

static void on_stack(void)
{
    if (there_act)
        there_act();
    else if (there_mix)
        sink = (uint8_t)there_mix(1);
    else
        sink = run(there_op, there_call);
}

static void over_there(int paint)
{
    memset(painted, paint, STACK);
    if (getcontext(&there) != 0) stop("getcontext");
    there.uc_stack.ss_sp = painted;
    there.uc_stack.ss_size = STACK;
    there.uc_link = &here;
    makecontext(&there, on_stack, 0);
    if (swapcontext(&here, &there) != 0) stop("swapcontext");
}

/* By two paints, the lowest byte that lost its own, from top. */
static size_t used_from_top(void)
{
    size_t used = 0;
    for (int paint = 0x5A; paint <= 0xA5; paint += 0xA5 - 0x5A) {
        over_there(paint);
        uint8_t *lowest = painted;
        while (*lowest == paint) lowest++;
        if (lowest == painted) wrong("the painted stack is too small");
        if (top - (uintptr_t)lowest > used) used = top - (uintptr_t)lowest;
    }
    return used;
}

static void top_act(void) { NOTE_TOP(); }

/* What act uses, its own frame and that of what it calls by counted too. */
size_t stack_by(void (*act)(void))
{
    there_act = top_act;
    over_there(0);
    there_act = act;
    size_t used = used_from_top();
    there_act = NULL;
    return used;
}

static size_t stack_of(const struct op *op, const struct call *c, mix_fn *mix)
{
    static const struct op tops[KINDS] = {{"", BLOCK, 0, {.block = top_block}}, {"", CBC, 0, {.cbc = top_cbc}}, {"", CTR, 0, {.ctr = top_ctr}},
                                          {"", CMAC, 0, {.cmac = top_cmac}}, {"", VERIFY, 0, {.verify = top_verify}}, {"", ROW, 0, {.row = top_row}},
                                          {"", PRODUCT, 0, {.product = top_product}}, {"", INVERSE, 0, {.inverse = top_inverse}},
                                          {"", JUDGE, 0, {.judge = top_judge}}};
    there_call = c;
    there_op = op ? &tops[op->kind] : NULL;
    there_mix = mix ? top_mix : NULL;
    over_there(0);
    there_op = op;
    there_mix = mix;
    return used_from_top();
}

/* What a call used; more than the header says is wrong. */
static size_t stack_case(const struct op *op, const struct call *c)
{
    size_t used = stack_of(op, c, NULL);
    if (used > LABYRINTH_STACK) wrong(CALL_TEXT "%zu bytes of stack, and the header says %d", CALL(op, c), used, LABYRINTH_STACK);
    return used;
}

/* The largest use over functions, sizes and lengths, and of a verdict over the rows to judge, and each function's own. */
size_t stack(const struct op *ops, int large, size_t *each)
{
    static const size_t lengths[] = {0, 64, 128, 8192, 8192 + 64, 65536, 1 << 20};
    static _Alignas(uint64_t) uint8_t bytes[2][1 << 20];
    size_t most = each[OPS] = stack_of(NULL, NULL, labyrinth_mix);
    memcpy(bytes[0], published, sizeof published);
    for (int o = 0; o < OPS; o++) {
        each[o] = 0;
        enum kind kind = ops[o].kind;
        for (size_t n = is_tag(kind); n <= (is_tag(kind) ? 1 : 4); n += n ? n : 1)
            for (size_t l = 2; l <= 5; l++)
                for (size_t i = 0; i < sizeof lengths / sizeof *lengths - !large; i++) {
                    size_t len = kind == BLOCK ? 16 * n : is_row(kind) ? 8 : lengths[i];
                    size_t room = kind == CMAC ? 16 : says_yes(kind) ? 1 : len;
                    struct call c = {.n = n, .l = l, .q = 1, .at = {bytes[0], bytes[0] + 512, bytes[0], bytes[1], bytes[1] + 8},
                                     .len = {is_row(kind) && n ? 8 : 8 * n * l, 16 * n, len, room, 8}};
                    size_t used = stack_case(&ops[o], &c);
                    if (used > each[o]) each[o] = used;
                    if (kind == BLOCK || is_row(kind)) break;
                }
        for (int i = 0; kind == JUDGE && i < TO_JUDGE; i++) {
            struct call c = {.at = {bytes[0], NULL, NULL, bytes[1], bytes[1] + 8}, .len = {8, 0, 0, 1, 8}};
            memcpy(bytes[0], to_judge[i].row, 8);
            size_t used = stack_case(&ops[o], &c);
            if (used > each[o]) each[o] = used;
        }
        if (each[o] > most) most = each[o];
    }
    return most;
}
