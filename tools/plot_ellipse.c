/* Draws docs/ellipse.svg: the verdicts around a standard. tools/plot_manual builds it and runs it.
 *
 * Usage: plot_ellipse >docs/ellipse.svg */
#include "plot_panel.h"

enum { CELL = 2, MAGNIFIED = 200 };

/* examples/training */
static const Point STANDARD = {30, 12}, MORE_CHROMA = {32.5, 13}, YELLOWER = {29.5, 13.18};

/* One judgement in the middle of each cell; cells of one verdict side by side are one bar. */
static void raster(Panel panel)
{
    static char verdicts[SIDE / CELL][SIDE / CELL];
    static const char *const colours[] = {"p#bfe3c0", "n#f5a623", "f#f7dcda"};
    int cells = SIDE / CELL;
    for (int row = 0; row < cells; row++)
        for (int column = 0; column < cells; column++) {
            double right = CELL * (column + 0.5) - SIDE / 2, up = SIDE / 2 - CELL * (row + 0.5);
            verdicts[row][column] = verdict(along(panel.centre, 1 / scale(panel), (Point){right, up}));
        }
    for (int kind = 0; kind < 3; kind++) {
        printf("<path fill=\"%s\" shape-rendering=\"crispEdges\" d=\"", colours[kind] + 1);
        for (int row = 0; row < cells; row++)
            for (int column = 0, run; column < cells; column += run) {
                for (run = 1; column + run < cells && verdicts[row][column + run] == verdicts[row][column]; run++)
                    ;
                if (verdicts[row][column] == *colours[kind])
                    printf("M%.0f %dh%dv%dh-%dz", panel.x + CELL * column, TOP + CELL * row, CELL * run, CELL,
                           CELL * run);
            }
        printf("\"/>\n");
    }
    frame(panel);
}

/* The report's line on DE. It lasts until the next call. */
static const char *de_line(Point test)
{
    static char text[16];
    snprintf(text, sizeof text, "DE=%s", answer("\nDE=", test));
    return text;
}

/* A test specimen, and right and down from it what its report says. */
static void mark(Panel panel, Point test, double right, double down, const char *anchor)
{
    Point at = placed(panel, test);
    char text[32];
    /* one after the other, since both go by the one report */
    int length = snprintf(text, sizeof text, "%s ", de_line(test));
    snprintf(text + length, sizeof text - (size_t)length, "%s", answer("\nverdict=", test));
    dot(at);
    words(at.a + right, at.b + down, anchor, "#000", text);
}

/* The verdict on a colour, as the name of the region around it. */
static void region(Panel panel, Point colour)
{
    Point at = placed(panel, colour);
    printf("<g font-weight=\"bold\">");
    words(at.a, at.b, "middle", "#000", answer("\nverdict=", colour));
    printf("</g>\n");
}

/* Equal hue and equal chroma: the ray and the circle through the standard. */
static void equals(Panel panel, double chroma, Point more)
{
    Point from = placed(panel, along(STANDARD, -2.9, more)), to = placed(panel, along(STANDARD, 2.9, more));
    printf("<path d=\"M%.1f %.1fL%.1f %.1f", from.a, from.b, to.a, to.b);
    for (int degrees = 17; degrees <= 27; degrees++) {
        Point at = placed(panel, on_circle(chroma, degrees));
        printf("%s%.1f %.1f", degrees == 17 ? "M" : "L", at.a, at.b);
    }
    printf("\" fill=\"none\" stroke=\"#666\" stroke-dasharray=\"4 4\"/>\n");
    words(from.a - 6, from.b + 18, "start", "#444", "equal hue");
    to = placed(panel, on_circle(chroma, 17));
    words(to.a + 6, to.b + 4, "start", "#444", "equal chroma");
}

/* A ring around a place in one panel, and a line from it to the panel that shows it. The line ends halfway between two
 * figures of that panel's scale. */
static void ring(Panel whole, Panel part)
{
    Point at = placed(whole, part.centre);
    printf("<circle cx=\"%.1f\" cy=\"%.1f\" r=\"7\" fill=\"none\" stroke=\"#000\"/>\n", at.a, at.b);
    printf("<path d=\"M%.1f %.1fL%.0f %.1f\" stroke=\"#000\"/>\n", at.a + 7, at.b + 0.7, part.x, TOP + SIDE * 5 / 12.0);
}

/* The end of the long axis, magnified. What is shown is smaller than the ring, and the title says how large it is. */
static void magnified(Panel whole, Point more)
{
    static const Point names[] = {{-2.4, 2}, {-0.8, 2}, {1.2, 2}}; /* in steps: one in each region */
    const double step = whole.step / MAGNIFIED;
    Point end = along(STANDARD, reach(STANDARD, more, 1), more);
    Panel part = {{to_step(end.a, step), to_step(end.b, step)}, 550, step, 3};
    char first[64], second[64];
    snprintf(first, sizeof first, "In the middle of the ring: %.2f wide, %.2f high,", STEPS * step, STEPS * step);
    snprintf(second, sizeof second, "drawn %d times as large as on the left", MAGNIFIED);
    title(part, first, second);
    ring(whole, part);
    raster(part);
    axes(part);
    for (int thousandths = 996; thousandths <= 1004; thousandths += 4) {
        Point test = along(STANDARD, reach(STANDARD, more, thousandths / 1e3), more), at = placed(part, test);
        dot(at);
        words(at.a, at.b + 20, "middle", "#000", de_line(test));
    }
    for (int name = 0; name < 3; name++)
        region(part, along(part.centre, step, names[name]));
}

int main(void)
{
    const double chroma = 32.310988842807021; /* the root of 30² + 12² */
    const Point more = {STANDARD.a / chroma, STANDARD.b / chroma};
    Panel whole = {STANDARD, 60, 1, 0};
    load(1000, STANDARD);

    open_page(970, 490);
    title(whole, "Around the standard L*, a*, b* = 45, 30, 12,", "at equal L*: CMC(1:1), tolerance 1");
    raster(whole);
    axes(whole);
    equals(whole, chroma, more);
    outline(whole, STANDARD, 0);
    Point at = placed(whole, STANDARD);
    dot(at);
    words(at.a + 16, at.b + 18, "start", "#000", "standard");
    region(whole, (Point){29, 12.3});
    region(whole, (Point){28, 14});
    mark(whole, MORE_CHROMA, 20, -34, "end");
    mark(whole, YELLOWER, -16, -8, "end");
    magnified(whole, more);
    printf("</svg>\n");
    return 0;
}
