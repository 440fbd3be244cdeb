/* Prints the two roots of docs/MANUAL.md, part 3, that are worked digit by digit: C of the reference R, and f of Z.
 *
 * Every root so far is the library's own, of the leading part of the number, and the rest is what is left of that part.
 * The steps between them are held to the rule on the page: if one is another, the status is 1.
 *
 * Usage: tools/worked_roots    (which builds it) */
#include "../tests/shared/probe.h"

int printf(const char *, ...);

/* In units of the grid: a* = 10.25 and b* = -7, without its sign. */
static const uint64_t A = 10747904, B = 7340032;

/* Z = 0.972 of 107.304 is 81 of 8942. */
enum { Z = 81, WHITE = 8942 };

/* A group has as many digits as the exponent says; the library's root; the exponent as the page has it. */
struct root {
    int group;
    uint64_t (*of)(uint64_t);
    const char *sign;
};

static uint64_t power(int e, uint64_t r) { return e == 2 ? r * r : r * r * r; }

static uint64_t takes(int e, uint64_t r) { return e == 2 ? 4 * r + 1 : 12 * r * r + 6 * r + 1; }

static void print_group(int digits, uint64_t group)
{
    while (digits--)
        printf("%d", (int)(group >> digits & 1));
}

/* One row: the digit that the group behind `before` gives. Returns whether it is the rule's. */
static int row(const struct root *root, uint64_t before, uint64_t lead)
{
    int e = root->group;
    uint64_t group = lead - (before << e), r = root->of(before), digits = root->of(lead), digit = digits & 1;
    uint64_t there = ((before - power(e, r)) << e) + group, rest = lead - power(e, digits);
    printf("| ");
    print_group(e, group);
    printf(" | %lu | %lu | %lu | %lu | %lu |\n", there, takes(e, r), digit, rest, digits);
    return digit == (takes(e, r) <= there) && digits == 2 * r + digit && rest == there - digit * takes(e, r);
}

/* What the page says of the number beside the table: its groups, and a row that is checked by itself. */
static void texts(const struct root *root, uint64_t x, int left, int checked)
{
    uint64_t lead = x >> root->group * (left + 1 - checked), r = root->of(lead);
    printf("text: %lu, in binary", x);
    for (; left >= 0; left--) {
        printf(" ");
        print_group(root->group, x >> root->group * left);
    }
    printf(":\ntext: %lu = %lu%s + %lu.\n", lead, r, root->sign, lead - power(root->group, r));
}

static int table(const struct root *root, uint64_t x, int checked)
{
    int left = 0, rule = 1;
    while (x >> root->group * (left + 1))
        left++;
    texts(root, x, left, checked);
    printf("| group | what is there | a 1 takes | digit | rest | root so far |\n|---|---|---|---|---|---|\n");
    for (uint64_t before = 0; left >= 0; left--) {
        uint64_t lead = x >> root->group * left;
        rule &= row(root, before, lead);
        before = lead;
    }
    printf("\n");
    return rule;
}

int main(void)
{
    const struct root square = {2, probe_square_root, "²"}, cube = {3, probe_cube_root, "³"};
    /* 2^60 Z / WHITE, rounded down, in two steps */
    uint64_t high = ((uint64_t)Z << 56) / WHITE, over = ((uint64_t)Z << 56) % WHITE;
    int rule = table(&square, A * A + B * B, 6);
    rule &= table(&cube, (high << 4) + (over << 4) / WHITE, 4);
    return !rule;
}
