/* Replays the deliveries of answers.rs through libshade.a and compares every answer with the paper's: each field that
 * is handed back and each entry of the result slice, by their bits. No call may touch a byte outside its slices
 * (fence.h), nor write one that holds readings. The calls are made in each of the processor's four rounding modes, which
 * must not matter.
 *
 * Usage: delivery-answers | delivery    (answers.rs tells what a record holds)
 *
 * Shows the first ten differences. Status 1 if there is any, or if deliveries are missing. */
#include "../shared/fence.h"
#include "../shared/replay.h"

enum { XYZ, LAB, END };
enum { READINGS = 3, RESULTS = READINGS, SLICES, ROUNDING = 2 * SLICES, LONGEST = 512, FEWEST = 200000 };

/* A record's numbers are little-endian, as those of an x86-64 are. */
struct record {
    uint64_t kind, counts[SLICES];
    uint32_t white, l, c, zero;
    shade_sorted wanted;
};

_Static_assert(sizeof(shade_sorted) == 40, "there is no padding in it, so its bytes are its fields");

/* What each slice holds before the call, and the result slice after it. */
static double before[SLICES][LONGEST], after[LONGEST];
static struct lent lents[SLICES];
static uint64_t cones, differences;

static size_t bytes(const struct record *r, size_t slice) { return r->counts[slice] * sizeof(double); }

/* Each of these bits is set in half of the calls, whatever order the kinds of delivery come in. */
static int turn(size_t bit) { return (calls * 0x9e3779b97f4a7c15 >> (32 + bit)) & 1; }

/* A slice against the fence whose turn it is; if it is empty and that has its turn, a null pointer. */
static double *lend_slice(const struct record *r, size_t slice)
{
    memcpy(lend(&lents[slice], bytes(r, slice), turn(slice)), before[slice], bytes(r, slice));
    return (double *)pointer(&lents[slice], turn(SLICES + slice));
}

/* How an x86-64 rounds from now on: 0 to the nearest, 1 down, 2 up, 3 towards zero. */
static void round_by(uint32_t mode)
{
    uint32_t word;
    __asm__ volatile("stmxcsr %0" : "=m"(word) : : "memory");
    word = (word & ~(uint32_t)0x6000) | mode << 13;
    __asm__ volatile("ldmxcsr %0" : : "m"(word) : "memory");
}

static shade_sorted call(const struct record *r)
{
    const double *v[READINGS] = {lend_slice(r, 0), lend_slice(r, 1), lend_slice(r, 2)};
    const uint64_t *n = r->counts;
    double *de = lend_slice(r, RESULTS);
    shade_sorted sorted;
    stir_stack();
    round_by((uint32_t)(turn(ROUNDING) + 2 * turn(ROUNDING + 1)));
    if (r->kind == XYZ)
        sorted = shade_sort_xyz(r->white, r->l, r->c, v[0], n[0], v[1], n[1], v[2], n[2], de, n[RESULTS]);
    else
        sorted = shade_sort_lab(r->white, r->l, r->c, v[0], n[0], v[1], n[1], v[2], n[2], de, n[RESULTS]);
    round_by(0);
    return sorted;
}

/* Whether a slice holds these floats and its guards stand. */
static int holds(const struct record *r, size_t slice, const double *floats)
{
    return memcmp(lents[slice].slice, floats, bytes(r, slice)) == 0 && guards_stand(&lents[slice]);
}

static void show(const struct record *r, const shade_sorted *got, int kept)
{
    const shade_sorted *w = &r->wanted;
    const double *de = (const double *)lents[RESULTS].slice;
    printf("differs: call %lu, %s of %lu, %lu, %lu cones, %lu results, white %u, l %u, c %u%s\n", calls,
           r->kind == XYZ ? "X, Y, Z" : "L*, a*, b*", r->counts[0], r->counts[1], r->counts[2], r->counts[RESULTS],
           r->white, r->l, r->c, kept ? "" : "; another reading, or a guard is gone");
    printf("    number %u, cone %u, (%.17g, %.17g, %.17g), farthest %u, cones %u\n", got->number, got->cone,
           got->lightness, got->a, got->b, got->farthest, got->cones);
    printf("for number %u, cone %u, (%.17g, %.17g, %.17g), farthest %u, cones %u\n", w->number, w->cone, w->lightness,
           w->a, w->b, w->farthest, w->cones);
    for (size_t at = 0; at < r->counts[RESULTS]; at++)
        if (memcmp(&de[at], &after[at], sizeof *de) != 0) {
            printf("    result %lu is %.17g for %.17g\n", at, de[at], after[at]);
            return;
        }
}

static void compare(const struct record *r)
{
    shade_sorted got = call(r);
    int written = holds(r, RESULTS, after), kept = guards_stand(&lents[RESULTS]);
    for (size_t slice = 0; slice < READINGS; slice++)
        kept = kept && holds(r, slice, before[slice]);
    calls++;
    cones += r->wanted.cones;
    if (memcmp(&got, &r->wanted, sizeof got) == 0 && written && kept)
        return;
    if (differences++ < SHOWN)
        show(r, &got, kept);
}

/* The slices that come after a record which this program can follow. */
static int take_slices(const struct record *r)
{
    for (size_t slice = 0; slice < SLICES; slice++)
        if (r->counts[slice] > LONGEST || !take(before[slice], bytes(r, slice)))
            return 0;
    return take(after, bytes(r, RESULTS));
}

/* Makes all calls. Tells whether the list is whole: the last record says how many there are, and nothing comes after
 * it. A list cut short is noticed, and so is what tests/run adds if the program that makes the list fails. */
static int whole_list(void)
{
    struct record r;
    while (take(&r, sizeof r)) {
        if (r.kind == END)
            return r.counts[0] == calls && !take(&r, 1);
        if (r.kind > END || !take_slices(&r))
            return 0;
        compare(&r);
    }
    return 0;
}

int main(void)
{
    set_fences(lents, SLICES);
    int whole = whole_list();
    whole = list_holds("delivery", whole, calls, FEWEST);
    printf("delivery: %lu deliveries, %lu cones in those accepted, %lu differences\n", calls, cones, differences);
    return !whole || differences != 0;
}
