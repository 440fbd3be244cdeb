/* walk.h: walks through calls one machine instruction at a time, and looks at each instruction.
 *
 * While the processor's trap flag is set it stops behind every instruction, by a signal whose context says where the
 * next one stands. An emulator of x86-64 does the same. */
#ifndef WALK_H
#define WALK_H

#include <stdint.h>

/* As the C library of x86-64 Linux has them; RIP counts 8-byte words in the context. */
struct walk_action {
    void (*handler)(int, void *, void *);
    uint64_t mask[16];
    int flags;
    void (*restorer)(void);
};
int sigaction(int, const struct walk_action *, struct walk_action *);
enum { WALK_SIGTRAP = 5, WALK_SA_SIGINFO = 4, WALK_RIP = 21 };

/* Since walk_on: all instructions, those that divide whole numbers, and those that are of floating point or newer than
 * the first x86-64. walk_on and walk_off themselves add a few to the first. */
static struct {
    uint64_t all, divide, foreign;
} walked;

/* Of the second byte of SSE's instructions: conversions and comparisons, roots and reciprocals, arithmetic. */
static int walk_is_sse(uint8_t code)
{
    return (code >= 0x2a && code <= 0x2f) || (code >= 0x51 && code <= 0x53) || (code >= 0x58 && code <= 0x5f) ||
           code == 0xc2;
}

static void walk_step(int signal, void *information, void *context)
{
    const uint8_t *code = (const uint8_t *)((const uint64_t *)context)[WALK_RIP];
    (void)signal, (void)information;
    while (*code == 0x66 || *code == 0x67 || *code == 0xf2 || *code == 0xf3 || *code >> 4 == 4)
        code++;
    walked.all++;
    /* div and idiv */
    if ((*code == 0xf6 || *code == 0xf7) && (code[1] >> 3 & 6) == 6)
        walked.divide++;
    /* SSE, x87, and what has a longer prefix */
    if ((*code == 0x0f && walk_is_sse(code[1])) || *code >> 3 == 0xd8 >> 3 || *code == 0xc4 || *code == 0xc5 ||
        *code == 0x62)
        walked.foreign++;
}

/* The flags go through the stack, past what may stand below its end. */
#define WALK_FLAGS(change)                                                                                             \
    __asm__ volatile("lea -128(%%rsp), %%rsp; pushfq; " change ", (%%rsp); popfq; lea 128(%%rsp), %%rsp" ::            \
                         : "memory", "cc")

static inline void walk_on(void)
{
    static const struct walk_action action = {.handler = walk_step, .flags = WALK_SA_SIGINFO};
    sigaction(WALK_SIGTRAP, &action, 0);
    walked.all = walked.divide = walked.foreign = 0;
    WALK_FLAGS("orq $256");
}

static inline void walk_off(void) { WALK_FLAGS("andq $-257"); }

#endif
