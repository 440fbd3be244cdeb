/* Replays the pairs of answers.rs, each as a load and a judgement, and compares every figure, name and refusal with the
 * paper's. A load into the station and a report go through libshade.a, what is handed back through libprobe.a.
 *
 * Usage: sheet-answers | sheet    (answers.rs tells what a record holds)
 *
 * Shows the first ten differences. Status 1 if there is any, or if pairs are missing. */
#include "../shared/replay.h"

char *strstr(const char *, const char *);

enum { REFERENCE_FIGURES = 7, DELTAS = 3, FIRST_DELTA = 4, FEWEST = 1000000 };

/* A record's numbers are little-endian, as those of an x86-64 are. */
struct record {
    int64_t formula, l, c, tolerance;
    int64_t load, judgement;
    int64_t reference[REFERENCE_FIGURES], test[FIGURES], words[WORDS];
    int64_t shift[DELTAS], withheld;
};

static uint64_t records, pairs, differences;

/* So many units of the grid: up to 2^53 of them exactly. */
static double value(int64_t units) { return (double)units / 1048576; }

/* L*, a* and b* are the same under every white. */
static uint32_t white(void) { return 1 + records % 4; }

static uint32_t load(uint8_t *station, uint32_t formula, const struct record *r)
{
    const int64_t *p = r->reference;
    return shade_load_lab(station, SHADE_STATION_BYTES, formula, white(), (uint32_t)r->l, (uint32_t)r->c,
                          (uint32_t)r->tolerance, value(p[0]), value(p[1]), value(p[2]));
}

static struct answer judge(const uint8_t *station, const struct record *r)
{
    const int64_t *q = r->test;
    return of_specimen(probe_judge_lab(station, SHADE_STATION_BYTES, value(q[0]), value(q[1]), value(q[2])));
}

/* Tells whether an answer is the one wanted, and shows it if not, unless enough have been shown. */
static int agrees(const struct record *r, const char *call, const struct answer *got, const struct answer *wanted)
{
    if (answers_agree(got, wanted))
        return 1;
    if (differences < SHOWN) {
        const int64_t *p = r->reference, *q = r->test;
        printf("differs: %s, formula %ld, l %ld, c %ld, tolerance %ld, (%ld, %ld, %ld) to (%ld, %ld, %ld)\n", call,
               r->formula, r->l, r->c, r->tolerance, p[0], p[1], p[2], q[0], q[1], q[2]);
        show_answer(got, wanted);
    }
    return 0;
}

static int number_agrees(const struct record *r, const char *call, uint32_t number, int64_t wanted)
{
    return agrees(r, call, &(struct answer){.number = number}, &(struct answer){.number = (uint32_t)wanted});
}

static int load_agrees(const struct record *r)
{
    const int64_t *p = r->reference;
    struct answer wanted = {.number = (uint32_t)r->load};
    for (size_t at = 0; at < REFERENCE_FIGURES; at++)
        wanted.figures[at] = r->load == 0 ? value(p[at]) : 0.0;
    struct answer got = of_reference(probe_load_lab((uint32_t)r->formula, white(), (uint32_t)r->l, (uint32_t)r->c,
                                                    (uint32_t)r->tolerance, value(p[0]), value(p[1]), value(p[2])));
    return agrees(r, "load", &got, &wanted);
}

/* The judgement by what the load leaves in a station of zeros. */
static int judgement_agrees(const struct record *r)
{
    uint8_t station[SHADE_STATION_BYTES] = {0};
    struct answer wanted = {.number = (uint32_t)r->judgement};
    for (size_t at = 0; at < FIGURES; at++)
        wanted.figures[at] = r->judgement == 0 ? value(r->test[at]) : 0.0;
    for (size_t at = 0; at < WORDS; at++)
        wanted.words[at] = (uint32_t)r->words[at];
    uint32_t number = load(station, (uint32_t)r->formula, r);
    struct answer got = judge(station, r);
    return number_agrees(r, "load into a station", number, r->load) && agrees(r, "judgement", &got, &wanted);
}

/* The shift of lightness, chroma and hue: DL, DC and DH under CIELAB. */
static int shift_agrees(const struct record *r)
{
    uint8_t station[SHADE_STATION_BYTES] = {0};
    load(station, SHADE_CIELAB, r);
    struct answer got = judge(station, r), wanted = got;
    wanted.number = 0;
    for (size_t at = 0; at < DELTAS; at++)
        wanted.figures[FIRST_DELTA + at] = value(r->shift[at]);
    return agrees(r, "shift", &got, &wanted);
}

/* How many lines of the report by a formula are withheld: by CMC as many as the paper says, by the others none. */
static int withheld_agrees(uint32_t formula, const struct record *r)
{
    const int64_t *q = r->test;
    uint8_t station[SHADE_STATION_BYTES] = {0}, room[SHADE_REPORT_BYTES + 1] = {0};
    load(station, formula, r);
    uint32_t lines = 0, number = shade_judge_lab(station, SHADE_STATION_BYTES, value(q[0]), value(q[1]), value(q[2]),
                                                 room, SHADE_REPORT_BYTES, 0);
    for (const char *at = (const char *)room; (at = strstr(at, "=withheld\n")) != 0; at++)
        lines++;
    return number_agrees(r, "report", number, 0) &&
           number_agrees(r, "lines withheld", lines, formula == SHADE_CMC ? r->withheld : 0);
}

static void compare(const struct record *r)
{
    int good = load_agrees(r) && judgement_agrees(r);
    /* the other formulas are asked only of a pair that is accepted */
    if (r->judgement == 0)
        good = good && shift_agrees(r) && withheld_agrees(SHADE_CIELAB, r) && withheld_agrees(SHADE_CIE94, r) &&
               withheld_agrees(SHADE_CMC, r);
    differences += !good;
    records++;
    pairs += r->judgement == 0;
}

/* Compares all pairs. Tells whether the list is whole: the last record says how many there are, and nothing comes after
 * it. A list cut short is noticed, and so is what tests/run adds if the program that makes the list fails. */
static int whole_list(void)
{
    struct record r;
    while (take(&r, sizeof r)) {
        if (r.formula < 0)
            return r.l == (int64_t)records && !take(&r, 1);
        compare(&r);
    }
    return 0;
}

int main(void)
{
    int whole = whole_list();
    whole = list_holds("sheet", whole, pairs, FEWEST);
    printf("sheet: %lu pairs, %lu differences\n", pairs, differences);
    return !whole || differences != 0;
}
