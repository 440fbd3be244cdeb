/* Walks through the two roots of libprobe.a, one machine instruction at a time. None may divide or be one of floating
 * point, and there may be no more of them than the digits of the root account for. A root that starts at bit 63
 * whatever the number, which is as right, takes too many. It, a division and a guess by floating point are walked
 * through too, to see that they show.
 *
 * Usage: steps
 *
 * Shows the first ten differences. Status 1 if there is any. */
#include "../shared/probe.h"
#include "../shared/walk.h"

int printf(const char *, ...);

/* A root, and how many instructions it may take for each of its digits, besides FIRST. */
struct root {
    const char *name;
    uint64_t (*of)(uint64_t);
    uint64_t a_digit;
};

enum { FIRST = 16, SHOWN = 10 };
static const struct root square = {"square root", probe_square_root, 11}, cube = {"cube root", probe_cube_root, 12};

static uint64_t walks, differences;

static __attribute__((noinline)) uint64_t itself(uint64_t x) { return x; }

/* A compiler cannot know which root it is, and leaves no call out. */
static uint64_t seen(uint64_t (*volatile root)(uint64_t), uint64_t x)
{
    walk_on();
    uint64_t r = root(x);
    walk_off();
    return r;
}

/* How many instructions a root takes beyond a function that does nothing. */
static uint64_t walk(const struct root *root, uint64_t x)
{
    seen(itself, x);
    uint64_t nothing = walked.all;
    seen(root->of, x);
    walks++;
    return walked.all - nothing;
}

static uint64_t digits(uint64_t r)
{
    uint64_t n = 0;
    for (; r; r >>= 1)
        n++;
    return n;
}

/* Whether a walk shows nothing that must not be. */
static int is_well(const struct root *root, uint64_t x)
{
    uint64_t taken = walk(root, x), most = FIRST + root->a_digit * digits(root->of(x));
    return taken <= most && !walked.divide && !walked.foreign;
}

static void look(const struct root *root, uint64_t x)
{
    if (is_well(root, x) || differences++ >= SHOWN)
        return;
    uint64_t taken = walk(root, x);
    printf("differs: %s of %lu: %lu divisions, %lu of floating point, %lu in all\n", root->name, x, walked.divide,
           walked.foreign, taken);
}

static void look_at_all(const struct root *root)
{
    look(root, 0);
    for (int width = 1; width <= 64; width++) {
        look(root, 1ul << (width - 1));
        look(root, ~0ul >> (64 - width));
        look(root, 0xaaaaaaaaaaaaaaaa >> (64 - width));
        look(root, 0xcccccccccccccccc >> (64 - width));
    }
    uint64_t short_one = walk(root, 1), long_one = walk(root, ~0ul);
    printf("steps: %s: %lu instructions for 1 digit, %lu for %lu\n", root->name, short_one, long_one,
           digits(root->of(~0ul)));
}

/* Those that must show. */

static __attribute__((noinline)) uint64_t from_bit_63(uint64_t x)
{
    uint64_t r = 0;
    for (int place = 62; place >= 0; place -= 2) {
        uint64_t takes = 4 * r + 1;
        r *= 2;
        if (takes <= x >> place) {
            x -= takes << place;
            r++;
        }
    }
    return r;
}

static volatile uint64_t one = 1;

static __attribute__((noinline)) uint64_t by_division(uint64_t x) { return x / one; }

static __attribute__((noinline)) uint64_t by_floating_point(uint64_t x) { return (uint64_t)(double)(x >> 1); }

static void must_show(const struct root *root)
{
    if (is_well(root, 1)) {
        differences++;
        printf("differs: %s does not show\n", root->name);
    }
}

int main(void)
{
    look_at_all(&square);
    look_at_all(&cube);
    must_show(&(struct root){"a square root that starts at bit 63", from_bit_63, square.a_digit});
    must_show(&(struct root){"a division", by_division, square.a_digit});
    must_show(&(struct root){"a guess by floating point", by_floating_point, square.a_digit});
    printf("steps: %lu walks, %lu differences\n", walks, differences);
    return differences != 0;
}
