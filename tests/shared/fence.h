/* Memory to lend, between fences: before it and after it lie pages that nobody may touch. A slice stands against one of
 * the two fences, so a byte too far on that side, read or written, ends the program. On the other side of it stand
 * guard bytes.
 *
 * No headers but shade.h: these programs are x86-64 ones wherever they are compiled, and what they take from the C
 * library is declared here. */
#include "shade.h"

int printf(const char *, ...);
int fflush(void *);
void _exit(int);
void *memcpy(void *, const void *, size_t);
int memcmp(const void *, const void *, size_t);
void *mmap(void *, size_t, int, int, int, long);
int mprotect(void *, size_t, int);
void (*signal(int, void (*)(int)))(int);

/* A fence, and what lies between two, has the size of the largest page that a machine has. */
enum { PAGE = 1 << 16, GUARDS = 64, PATTERN = 8192 };

struct lent {
    uint8_t *memory, *slice, *guards;
    size_t length;
};

static uint64_t calls;

/* What stands where nobody has written: no byte of a report. */
static uint8_t pattern[PATTERN];

static void touched(int number)
{
    (void)number;
    printf("call %lu touched a byte outside its slices\n", calls + 1);
    fflush(0);
    _exit(1);
}

static void set_fences(struct lent *lents, size_t count)
{
    enum { NONE = 0, READ_AND_WRITE = 3, PRIVATE_AND_EMPTY = 0x22, SIGBUS = 7, SIGSEGV = 11 };
    for (size_t at = 0; at < PATTERN; at++)
        pattern[at] = (uint8_t)(0x80 | (at ^ at >> 7));
    for (size_t one = 0; one < count; one++) {
        uint8_t *pages = mmap(0, 3 * PAGE, NONE, PRIVATE_AND_EMPTY, -1, 0);
        lents[one].memory = pages + PAGE;
        if (mprotect(pages + PAGE, PAGE, READ_AND_WRITE) != 0) {
            printf("no memory between fences\n");
            fflush(0);
            _exit(1);
        }
    }
    signal(SIGBUS, touched);
    signal(SIGSEGV, touched);
}

/* Makes a slice of that length against the last fence or the first. */
static uint8_t *lend(struct lent *lent, size_t length, int against_last)
{
    lent->slice = against_last ? lent->memory + PAGE - length : lent->memory;
    lent->guards = against_last ? lent->slice - GUARDS : lent->slice + length;
    lent->length = length;
    memcpy(lent->guards, pattern, GUARDS);
    return lent->slice;
}

static int guards_stand(const struct lent *lent) { return memcmp(lent->guards, pattern, GUARDS) == 0; }

/* An empty slice is lent with a null pointer, or with one that may not be followed. */
static uint8_t *pointer(const struct lent *lent, int null) { return lent->length == 0 && null ? 0 : lent->slice; }

/* Leaves other bytes each time where the next call will have its variables: one that it reads before it writes it
 * shows. */
static __attribute__((noinline)) void stir_stack(void)
{
    volatile uint64_t waste[256];
    for (size_t at = 0; at < sizeof waste / sizeof *waste; at++)
        waste[at] = calls * 0x9e3779b97f4a7c15;
}
