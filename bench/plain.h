/* BS 6923 in plain C: CMC(l:c) in double, the report by one snprintf, the ticket by strncmp and strtod. Written as a
 * host programmer would write it with the standard at hand; where two ways are usual, the cheaper one is taken. Its
 * decimals are rounded to the nearest. */
double sqrt(double);
double cbrt(double);
double cos(double);
double atan2(double, double);
double fabs(double);
double strtod(const char *, char **);
int strncmp(const char *, const char *, size_t);
size_t strlen(const char *);

/* Not merged into the loop that counts it: a host calls it with numbers that the compiler does not know. */
#define CALL __attribute__((noinline, unused)) static

struct colour {
    double L, a, b;
};

struct standard {
    int white;
    double l, c, tolerance;
    struct colour reference;
};

struct differences {
    double DL, DC, DH, DE;
};

struct white {
    const char *name;
    double x, y, z;
};

static const struct white whites[4] = {
    {"D65/10", 94.811, 100.000, 107.304},
    {"D65/2", 95.047, 100.000, 108.883},
    {"C/10", 97.285, 100.000, 116.145},
    {"C/2", 98.074, 100.000, 118.232},
};

static int is_within(double x, double low, double high)
{
    return x >= low && x <= high;
}

static double cube_root_or_line(double q)
{
    return q > 0.008856 ? cbrt(q) : 7.787 * q + 16.0 / 116;
}

/* 3.1. The answers of this and the calls below are 0, or the refusal number that libshade has for the case. */
CALL int colour_of_xyz(struct colour *colour, int white, double x, double y, double z)
{
    const struct white *n = &whites[white - 1];
    if (!is_within(x, 0, 150) || !is_within(y, 0, 150) || !is_within(z, 0, 150))
        return 6;
    double fx = cube_root_or_line(x / n->x), fy = cube_root_or_line(y / n->y), fz = cube_root_or_line(z / n->z);
    colour->L = y / n->y > 0.008856 ? 116 * fy - 16 : 903.3 * (y / n->y);
    colour->a = 500 * (fx - fy);
    colour->b = 200 * (fy - fz);
    return is_within(colour->a, -256, 256) && is_within(colour->b, -256, 256) ? 0 : 8;
}

CALL int colour_of_lab(struct colour *colour, double L, double a, double b)
{
    if (!is_within(L, 0, 120) || !is_within(a, -256, 256) || !is_within(b, -256, 256))
        return 6;
    colour->L = L;
    colour->a = a;
    colour->b = b;
    return 0;
}

/* The rest of a load, once its reference is read. */
CALL int set_standard(struct standard *s, int white, double l, double c, double tolerance)
{
    if (white < 1 || white > 4)
        return 2;
    if (!is_within(l, 0.5, 10) || !is_within(c, 0.5, 10))
        return 3;
    if (!is_within(tolerance, 0.1, 10))
        return 4;
    s->white = white;
    s->l = l;
    s->c = c;
    s->tolerance = tolerance;
    return 0;
}

/* Of the turn from the reference to the test specimen: minus if it is clockwise. */
static double cross_of(struct colour r, struct colour t)
{
    return r.a * t.b - t.a * r.b;
}

/* 3.2. */
CALL struct differences compare(const struct standard *s, struct colour t)
{
    const double degree = 3.14159265358979323846 / 180;
    struct colour r = s->reference;
    double cr = sqrt(r.a * r.a + r.b * r.b), ct = sqrt(t.a * t.a + t.b * t.b);
    double dl = t.L - r.L, da = t.a - r.a, db = t.b - r.b, dc = ct - cr;
    double dh2 = da * da + db * db - dc * dc, dh = dh2 > 0 ? sqrt(dh2) : 0;
    double h = atan2(r.b, r.a) / degree;
    if (h < 0)
        h += 360;
    double hue =
        h > 164 && h < 345 ? 0.56 + fabs(0.2 * cos((168 + h) * degree)) : 0.36 + fabs(0.4 * cos((35 + h) * degree));
    double c4 = cr * cr * cr * cr, f = sqrt(c4 / (c4 + 1900));
    double sl = r.L < 16 ? 0.511 : 0.040975 * r.L / (1 + 0.01765 * r.L);
    double sc = 0.0638 * cr / (1 + 0.0131 * cr) + 0.638;
    double sh = (f * hue + 1 - f) * sc;
    struct differences d = {dl / (s->l * sl), dc / (s->c * sc), (cross_of(r, t) < 0 ? -dh : dh) / sh, 0};
    d.DE = sqrt(d.DL * d.DL + d.DC * d.DC + d.DH * d.DH);
    return d;
}

/* 4.4, over the quarter that the reference lies in: the axes that a turn meets first and next. */
static void hue_names(struct colour r, int clockwise, const char **name, const char **bracket)
{
    static const char *const axes[4] = {"redder", "yellower", "greener", "bluer"};
    int quarter = r.a > 0 && r.b >= 0 ? 0 : r.a <= 0 && r.b > 0 ? 1 : r.a < 0 ? 2 : 3;
    int on_axis = r.a == 0 || r.b == 0, met = clockwise ? quarter - on_axis + 4 : quarter + 1;
    *name = axes[met % 4];
    *bracket = axes[(clockwise ? met + 3 : met + 1) % 4];
}

/* 4.5 and 5. */
static int achromatic(struct colour x) { return x.a * x.a + x.b * x.b <= 16; }

/* 4 and 5, in the twelve lines of libshade's report. */
CALL int report(const struct standard *s, struct colour t, struct differences d, char *into, size_t most)
{
    struct colour r = s->reference;
    const char *white = whites[s->white - 1].name, *lightness = t.L > r.L ? "lighter" : t.L < r.L ? "darker" : "equal";
    double apart = fabs(d.DE - s->tolerance);
    const char *verdict = apart <= 0.002 ? "near" : d.DE < s->tolerance ? "pass" : "fail";
    int n;
    if (achromatic(r) || achromatic(t)) {
        n = snprintf(into, most,
            "formula=CMC\nwhite=%s\nl=%.3f\nc=%.3f\nDE=%.4f\nDL=%.4f\nDC=withheld\nDH=withheld\n"
            "lightness=%s\nchroma=withheld\nhue=withheld\nverdict=%s\n",
            white, s->l, s->c, d.DE, d.DL, lightness, verdict);
    } else {
        const char *chroma = d.DC > 0 ? "more" : d.DC < 0 ? "less" : "equal", *name = "equal", *bracket = "";
        double cross = cross_of(r, t);
        int turned = cross != 0 || r.a * t.a + r.b * t.b < 0;
        if (turned)
            hue_names(r, cross < 0, &name, &bracket);
        n = snprintf(into, most,
                     "formula=CMC\nwhite=%s\nl=%.3f\nc=%.3f\nDE=%.4f\nDL=%.4f\nDC=%.4f\nDH=%.4f\n"
                     "lightness=%s\nchroma=%s\nhue=%s%s%s%s\nverdict=%s\n",
                     white, s->l, s->c, d.DE, d.DL, d.DC, d.DH, lightness, chroma, name, turned ? "(" : "", bracket,
                     turned ? ")" : "", verdict);
    }
    return n < (int)most ? 0 : 10;
}

/* Steps over a text that is due. */
static int has(const char **at, const char *due)
{
    size_t n = strlen(due);
    if (strncmp(*at, due, n) != 0)
        return 0;
    *at += n;
    return 1;
}

/* Reads a number and the byte after it. */
static int number(const char **at, char after, double *x)
{
    char *end;
    *x = strtod(*at, &end);
    if (end == *at || *end != after)
        return 0;
    *at = end + 1;
    return 1;
}

/* Reads three numbers in one of the spaces. A wrong text is 7, with no line number. */
static int specimen(const char **at, int white, int is_xyz, struct colour *colour)
{
    double x, y, z;
    if (!number(at, ' ', &x) || !number(at, ' ', &y) || !number(at, '\n', &z))
        return 7;
    return is_xyz ? colour_of_xyz(colour, white, x, y, z) : colour_of_lab(colour, x, y, z);
}

/* Ticket to report. */
CALL int judge_ticket(const char *text, char *into, size_t most)
{
    struct standard s;
    struct colour t;
    double l, c, tolerance;
    int white = 0, is_xyz, refused;
    const char *at = text;
    if (!has(&at, "formula=CMC\nwhite="))
        return 7;
    for (int i = 0; i < 4 && white == 0; i++)
        if (has(&at, whites[i].name))
            white = i + 1;
    if (white == 0 || !has(&at, "\nl=") || !number(&at, '\n', &l) || !has(&at, "c=") || !number(&at, '\n', &c) ||
        !has(&at, "tol=") || !number(&at, '\n', &tolerance) || !has(&at, "space="))
        return 7;
    is_xyz = has(&at, "XYZ\n");
    if (!is_xyz && !has(&at, "LAB\n"))
        return 7;
    refused = set_standard(&s, white, l, c, tolerance);
    if (refused == 0)
        refused = has(&at, "ref=") ? specimen(&at, white, is_xyz, &s.reference) : 7;
    if (refused == 0)
        refused = has(&at, "test=") ? specimen(&at, white, is_xyz, &t) : 7;
    return refused == 0 ? report(&s, t, compare(&s, t), into, most) : refused;
}
