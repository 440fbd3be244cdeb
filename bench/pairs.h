/* The 64 pairs that every program of bench/ is counted on: a reference over the colour solid, and a test specimen near
 * it, as in shade passing. Twelve references are achromatic, so that their report withholds DC and DH; the first has a*
 * = b* = 0.
 *
 * No headers but these two: these programs are x86-64 ones wherever they are compiled, and what they take from the C
 * library is declared here. */
#include <stddef.h>
#include <stdint.h>

int printf(const char *, ...);
int snprintf(char *, size_t, const char *, ...);
int atoi(const char *);
int strcmp(const char *, const char *);

enum { PAIRS = 64, ROOM = 200, TICKET = 200 };

struct triple {
    double x, y, z;
};

/* One specimen, as coordinates with two decimals and as tristimulus values with four. */
struct specimen {
    struct triple lab, xyz;
};

static struct specimen references[PAIRS], tests[PAIRS];
static char lab_tickets[PAIRS][TICKET], xyz_tickets[PAIRS][TICKET];
static size_t lab_lengths[PAIRS], xyz_lengths[PAIRS];
static char room[ROOM];

/* What every call is given: CMC(2:1) under D65/10, the values that BS 6923 names for textiles. */
enum { WHITE = 1, L_THOUSANDTHS = 2000, C_THOUSANDTHS = 1000, TOLERANCE_THOUSANDTHS = 1000 };

/* The next of a fixed row of numbers from -most to most. */
static int next_number(int most)
{
    static uint32_t seed = 6923;
    seed = seed * 1664525u + 1013904223u;
    return (int)((seed >> 8) % (uint32_t)(2 * most + 1)) - most;
}

/* BS 6923 3.1 backwards, to four decimals. */
static double tristimulus(double f, double white)
{
    double value = f > 0.2068927 ? f * f * f : (f - 16.0 / 116) / 7.787;
    return (double)(long)(value * white * 10000 + 0.5) / 10000;
}

static struct specimen specimen_of(int l, int a, int b)
{
    struct triple lab = {l / 100.0, a / 100.0, b / 100.0};
    double fy = (lab.x + 16) / 116;
    struct triple xyz = {tristimulus(fy + lab.y / 500, 94.811), tristimulus(fy, 100),
                         tristimulus(fy - lab.z / 200, 107.304)};
    struct specimen s = {lab, xyz};
    return s;
}

/* Puts a number with d decimals and the byte after it. */
static size_t put_decimal(char *text, double x, int d, char after)
{
    int one = d == 2 ? 100 : 10000, n = (int)(x * one + (x < 0 ? -0.5 : 0.5)), m = n < 0 ? -n : n;
    return (size_t)snprintf(text, 20, "%s%d.%0*d%c", n < 0 ? "-" : "", m / one, d, m % one, after);
}

static size_t put_ticket(char *text, const char *space, int d, struct triple r, struct triple t)
{
    size_t n =
        (size_t)snprintf(text, TICKET, "formula=CMC\nwhite=D65/10\nl=2.000\nc=1.000\ntol=1.000\nspace=%s\nref=", space);
    n += put_decimal(text + n, r.x, d, ' ');
    n += put_decimal(text + n, r.y, d, ' ');
    n += put_decimal(text + n, r.z, d, '\n');
    n += (size_t)snprintf(text + n, TICKET - n, "test=");
    n += put_decimal(text + n, t.x, d, ' ');
    n += put_decimal(text + n, t.y, d, ' ');
    return n + put_decimal(text + n, t.z, d, '\n');
}

/* Coordinates are in hundredths here. Dark and light references have less chroma. */
static void make_pairs(void)
{
    for (int i = 0; i < PAIRS; i++) {
        int l = 5000 + next_number(4200), far = l < 5000 ? l : 10000 - l, neutral = i % 8 == 0;
        int a = next_number(neutral ? 250 : far), b = next_number(neutral ? 250 : far), step = 30 + i % 16 * 20;
        if (i == 0)
            a = b = 0;
        references[i] = specimen_of(l, a, b);
        /* one after another: compilers differ in the order of a call's arguments */
        int away_b = next_number(step), away_a = next_number(step), away_l = next_number(step);
        tests[i] = specimen_of(l + away_l, a + away_a, b + away_b);
    }
}

static void make_tickets(void)
{
    for (int i = 0; i < PAIRS; i++) {
        lab_lengths[i] = put_ticket(lab_tickets[i], "LAB", 2, references[i].lab, tests[i].lab);
        xyz_lengths[i] = put_ticket(xyz_tickets[i], "XYZ", 4, references[i].xyz, tests[i].xyz);
    }
}

/* A call that is counted, on pair i. It answers 0, or a refusal number. */
struct row {
    const char *name;
    int (*call)(int i);
};

/* PROGRAM ROW ROUNDS [PAIR] makes the call of that name for every pair, or for one, ROUNDS times: the instructions of
 * ROUNDS + 1 less those of ROUNDS are the calls' alone. PROGRAM ROW makes it once and prints the reports. The last row
 * has no name. Before all that `load` loads the standards of each pair. */
static int run(const struct row *row, int (*load)(int i), int count, char **words)
{
    int refused = 0, rounds = count > 2 ? atoi(words[2]) : 0;
    int first = count > 3 ? atoi(words[3]) : 0, last = count > 3 ? first : PAIRS - 1;
    while (row->name != 0 && (count < 2 || strcmp(row->name, words[1]) != 0))
        row++;
    if (row->name == 0)
        return 2;
    make_pairs();
    for (int i = 0; i < PAIRS; i++)
        refused |= load(i);
    if (row->name[0] == 't')
        make_tickets();
    for (int turn = 0; turn < rounds; turn++)
        for (int i = first; i <= last; i++)
            refused |= row->call(i);
    for (int i = 0; i < PAIRS && count == 2; i++) {
        for (int at = 0; at < ROOM; at++)
            room[at] = 0;
        refused |= row->call(i);
        printf("%s", room);
    }
    return refused != 0;
}
