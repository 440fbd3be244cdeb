/* Replays the cases of answers.rs through the C boundary of libprobe.a and compares every answer with the paper's.
 * What is not to be written has to stay: what lies before and after a lent slice, and the slice itself on a refusal.
 *
 * Usage: ground-answers | ground    (answers.rs tells how a line reads)
 *
 * Shows the first ten differences. Status 1 if there is any, or if cases are missing. */
#include "../shared/probe.h"

int printf(const char *, ...);
int scanf(const char *, ...);
int sscanf(const char *, const char *, ...);
void *memcpy(void *, const void *, size_t);

enum { EDGE = 4, LENT = 4, ROOM = EDGE + LENT + EDGE, SHOWN = 10, FEWEST = 300000 };

/* A call is lent places from the middle of this room, LENT of them at most. */
static int64_t room[ROOM];
static uint64_t cases, differences;

/* What stands at a place that nobody has written. No figure is as large, and no two places hold the same. */
static int64_t guard(uint64_t place) { return 0x5a5a5a5a5a5a0000 + (int64_t)place; }

static int64_t *lend(void)
{
    for (uint64_t place = 0; place < ROOM; place++)
        room[place] = guard(place);
    return room + EDGE;
}

/* Whether the first places lent hold these figures and all the rest of the room its guards. */
static int holds(const int64_t *figures, uint64_t count)
{
    for (uint64_t place = 0; place < ROOM; place++) {
        int written = place >= EDGE && place < EDGE + count;
        if (room[place] != (written ? figures[place - EDGE] : guard(place)))
            return 0;
    }
    return 1;
}

static double float_of(uint64_t bits)
{
    double x;
    memcpy(&x, &bits, sizeof x);
    return x;
}

static uint64_t bits_of(double x)
{
    uint64_t bits;
    memcpy(&bits, &x, sizeof bits);
    return bits;
}

/* Counts a case that differs; tells whether it is one of the few to be shown. */
static int differs(const char *line)
{
    if (differences++ >= SHOWN)
        return 0;
    printf("differs: %s\n", line);
    return 1;
}

/* Compares what a call has left behind: its number, and the places that it was to write. */
static int agrees(const char *line, uint64_t lent, uint32_t number, uint32_t wanted, const int64_t *figures,
                  uint64_t count)
{
    if (number == wanted && holds(figures, count))
        return 1;
    if (differs(line)) {
        printf("    lent %lu, returned %u, written:", lent, number);
        for (uint64_t place = 0; place < ROOM; place++)
            if (room[place] != guard(place))
                printf(" [%ld] %ld", (int64_t)place - EDGE, room[place]);
        printf("\n");
    }
    return 0;
}

static void compare_number(const char *line, uint64_t got, uint64_t wanted)
{
    if (got != wanted && differs(line))
        printf("    returned %lu (%016lx)\n", got, got);
}

/* Each function below takes one kind of case and gives 0 if it cannot read the line. A call is made with slices of
 * every length from 0 to LENT. All get the same number; units go to the first place if there is one, a colour to a
 * slice of three and to no other. */

static int reading(const char *line)
{
    uint32_t quantity, wanted;
    uint64_t bits;
    int64_t units;
    if (sscanf(line, "u %u %lx %u %ld", &quantity, &bits, &wanted, &units) != 4)
        return 0;
    for (uint64_t n = 0; n <= LENT; n++) {
        uint32_t number = probe_units(quantity, float_of(bits), lend(), n);
        if (!agrees(line, n, number, wanted, &units, wanted == 0 && n > 0))
            break;
    }
    return 1;
}

static int decimal(const char *line)
{
    uint32_t quantity, below, wanted;
    uint64_t millionths;
    int64_t units;
    if (sscanf(line, "d %u %u %lu %u %ld", &quantity, &below, &millionths, &wanted, &units) != 5)
        return 0;
    for (uint64_t n = 0; n <= LENT; n++) {
        uint32_t number = probe_decimal(quantity, below, millionths, lend(), n);
        if (!agrees(line, n, number, wanted, &units, wanted == 0 && n > 0))
            break;
    }
    return 1;
}

static int colour(const char *line)
{
    char kind;
    uint32_t white, wanted;
    uint64_t p, q, r;
    int64_t lab[3];
    if (sscanf(line, "%c %u %lx %lx %lx %u %ld %ld %ld", &kind, &white, &p, &q, &r, &wanted, &lab[0], &lab[1],
               &lab[2]) != 9)
        return 0;
    uint32_t (*place)(uint32_t, double, double, double, int64_t *, size_t) =
        kind == 'x' ? probe_place_xyz : probe_place_lab;
    for (uint64_t n = 0; n <= LENT; n++) {
        uint32_t number = place(white, float_of(p), float_of(q), float_of(r), lend(), n);
        if (!agrees(line, n, number, wanted, lab, wanted == 0 && n == 3 ? 3 : 0))
            break;
    }
    return 1;
}

static int root(const char *line)
{
    char kind;
    uint64_t x, wanted;
    if (sscanf(line, "%c %lu %lu", &kind, &x, &wanted) != 3)
        return 0;
    compare_number(line, kind == 's' ? probe_square_root(x) : probe_cube_root(x), wanted);
    return 1;
}

static int value(const char *line)
{
    int64_t units;
    uint64_t wanted;
    if (sscanf(line, "v %ld %lx", &units, &wanted) != 2)
        return 0;
    compare_number(line, bits_of(probe_value(units)), wanted);
    return 1;
}

static int one_case(const char *line)
{
    switch (line[0]) {
    case 'u': return reading(line);
    case 'd': return decimal(line);
    case 'x':
    case 'l': return colour(line);
    case 's':
    case 'c': return root(line);
    case 'v': return value(line);
    default: return 0;
    }
}

int main(void)
{
    char line[200];
    uint64_t announced = 0;
    while (scanf(" %199[^\n]", line) == 1 && sscanf(line, "e %lu", &announced) != 1) {
        if (!one_case(line)) {
            printf("ground: cannot read: %s\n", line);
            return 1;
        }
        cases++;
    }
    /* The last line says how many there are, and nothing comes after it: a list that was cut short is noticed, and so
     * is what tests/run adds if the program that makes the list fails. */
    int whole = announced == cases && cases >= FEWEST && scanf(" %199[^\n]", line) != 1;
    if (!whole)
        printf("ground: the list is damaged, or cases are missing: %lu were announced, %d are the fewest\n", announced,
               FEWEST);
    printf("ground: %lu cases, %lu differences\n", cases, differences);
    return !whole || differences != 0;
}
