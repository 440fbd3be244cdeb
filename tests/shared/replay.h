/* What the programs share that replay the lists of the Rust programs beside them: the list read, its end, and answers
 * compared.
 *
 * No headers but those of the libraries: these programs are x86-64 ones wherever they are compiled, and what they take
 * from the C library is declared here. */
#include "probe.h"
#include "shade.h"

int printf(const char *, ...);
long read(int, void *, size_t);
void *memcpy(void *, const void *, size_t);
int memcmp(const void *, const void *, size_t);

/* Standard input, a block at a time. Tells whether so many bytes came. A pipe gives fewer at a time. */
static int take(void *to, size_t size)
{
    static uint8_t block[1 << 16];
    static size_t have, used;
    for (size_t taken = 0; taken < size;) {
        if (used == have) {
            long more = read(0, block, sizeof block);
            if (more <= 0)
                return 0;
            have = (size_t)more;
            used = 0;
        }
        size_t part = have - used < size - taken ? have - used : size - taken;
        memcpy((uint8_t *)to + taken, block + used, part);
        used += part;
        taken += part;
    }
    return 1;
}

/* How many differences are shown. */
enum { SHOWN = 10 };

/* Tells whether a list was whole and long enough, and says so if not. */
static int list_holds(const char *name, int whole, uint64_t count, uint64_t fewest)
{
    if (!whole)
        printf("%s: the list is cut short or damaged after %lu\n", name, count);
    if (count < fewest)
        printf("%s: too few: %lu are the fewest\n", name, fewest);
    return whole && count >= fewest;
}

enum { WORDS = 5, FIGURES = 8 };

/* What a load, a judgement or a ticket hands back, in one form for all: a load has no words, and 0.0 for its last
 * figure. There is no padding in it. */
struct answer {
    uint32_t number, words[WORDS];
    double figures[FIGURES];
};

static inline struct answer of_reference(probe_reference r)
{
    return (struct answer){r.number, {0}, {r.lightness, r.a, r.b, r.c, r.sl, r.sc, r.sh, 0.0}};
}

static inline struct answer of_specimen(probe_specimen s)
{
    probe_words w = s.words;
    return (struct answer){s.number,
                           {w.lightness, w.chroma, w.hue, w.bracket, w.verdict},
                           {s.lightness, s.a, s.b, s.c, s.dl, s.dc, s.dh, s.de}};
}

/* By their bits: -0.0 is not 0.0. */
static inline int answers_agree(const struct answer *got, const struct answer *wanted)
{
    return memcmp(got, wanted, sizeof *got) == 0;
}

static inline void show_answer(const struct answer *got, const struct answer *wanted)
{
    static const char *const words[WORDS] = {"lightness", "chroma", "hue", "bracket", "verdict"};
    static const char *const figures[FIGURES] = {"L*", "a*", "b*", "C", "DL or SL", "DC or SC", "DH or SH", "DE"};
    if (got->number != wanted->number)
        printf("    handed back with %u for %u\n", got->number, wanted->number);
    for (size_t at = 0; at < WORDS; at++)
        if (got->words[at] != wanted->words[at])
            printf("    %s %u for %u\n", words[at], got->words[at], wanted->words[at]);
    for (size_t at = 0; at < FIGURES; at++)
        if (memcmp(&got->figures[at], &wanted->figures[at], sizeof(double)) != 0)
            printf("    %s %.17g for %.17g\n", figures[at], got->figures[at], wanted->figures[at]);
}
