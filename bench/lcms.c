/* Little CMS: cmsCMCdeltaE, and cmsXYZ2Lab before it for X, Y, Z. It gives DE alone; the report has the CIELAB shift
 * for DL, DC and DH, by cmsLab2LCh. It makes no range checks. */
#include "pairs.h"
#include "plain.h"

double cmsCMCdeltaE(const struct colour *, const struct colour *, double l, double c);
void cmsXYZ2Lab(const struct triple *white, struct colour *, const struct triple *);
void cmsLab2LCh(struct triple *, const struct colour *);

/* Tristimulus values are of 1 there, and not of 100. */
static const struct triple white = {0.94811, 1, 1.07304};
static struct standard xyz_standards[PAIRS], lab_standards[PAIRS];
static struct colour test;
static double found;

static void from_xyz(struct colour *colour, struct triple t)
{
    struct triple of_one = {t.x / 100, t.y / 100, t.z / 100};
    cmsXYZ2Lab(&white, colour, &of_one);
}

static void from_lab(struct colour *colour, struct triple t)
{
    colour->L = t.x;
    colour->a = t.y;
    colour->b = t.z;
}

static int load_xyz(int i)
{
    from_xyz(&xyz_standards[i].reference, references[i].xyz);
    return 0;
}

static int calculate_xyz(int i)
{
    from_xyz(&test, tests[i].xyz);
    found = cmsCMCdeltaE(&xyz_standards[i].reference, &test, xyz_standards[i].l, xyz_standards[i].c);
    return 0;
}

static int calculate_lab(int i)
{
    from_lab(&test, tests[i].lab);
    found = cmsCMCdeltaE(&lab_standards[i].reference, &test, lab_standards[i].l, lab_standards[i].c);
    return 0;
}

static int report_found(const struct standard *s)
{
    struct triple polar_r, polar_t;
    cmsLab2LCh(&polar_r, &s->reference);
    cmsLab2LCh(&polar_t, &test);
    double da = test.a - s->reference.a, db = test.b - s->reference.b, dc = polar_t.y - polar_r.y;
    double dh2 = da * da + db * db - dc * dc, dh = dh2 > 0 ? sqrt(dh2) : 0;
    struct differences d = {test.L - s->reference.L, dc, cross_of(s->reference, test) < 0 ? -dh : dh, found};
    return report(s, test, d, room, ROOM);
}

static int judge_xyz(int i)
{
    return calculate_xyz(i) | report_found(&xyz_standards[i]);
}

static int judge_lab(int i)
{
    return calculate_lab(i) | report_found(&lab_standards[i]);
}

static const struct row rows[] = {
    {"load_xyz", load_xyz},   {"calculate_xyz", calculate_xyz}, {"calculate_lab", calculate_lab},
    {"judge_xyz", judge_xyz}, {"judge_lab", judge_lab},         {0, 0},
};

static int load(int i)
{
    int refused = set_standard(&xyz_standards[i], WHITE, L_THOUSANDTHS / 1000.0, C_THOUSANDTHS / 1000.0,
                               TOLERANCE_THOUSANDTHS / 1000.0);
    lab_standards[i] = xyz_standards[i];
    from_lab(&lab_standards[i].reference, references[i].lab);
    return refused | load_xyz(i);
}

int main(int count, char **words)
{
    return run(rows, load, count, words);
}
