/* What the pictures of a part of the a*b* plane share: a square panel, its axes, and the line at which a DE or a
 * verdict is reached. */
#include "plot.h"

enum { SIDE = 380, TOP = 54, STEPS = 6 };

/* A square part of the a*b* plane around a colour, drawn from the page's x and TOP on: as many steps wide and high as
 * STEPS, with a figure of so many decimals at each. */
typedef struct {
    Point centre;
    double x, step;
    int decimals;
} Panel;

/* How many points of the page one unit of a* or b* takes. */
static double scale(Panel panel)
{
    return SIDE / (STEPS * panel.step);
}

static Point placed(Panel panel, Point colour)
{
    return (Point){panel.x + SIDE / 2 + scale(panel) * (colour.a - panel.centre.a),
                   TOP + SIDE / 2 - scale(panel) * (colour.b - panel.centre.b)};
}

static void frame(Panel panel)
{
    printf("<rect x=\"%.0f\" y=\"%d\" width=\"%d\" height=\"%d\" fill=\"none\" stroke=\"#444\"/>\n", panel.x, TOP, SIDE,
           SIDE);
}

/* The names of the axes stand between two figures, so that they need no room of their own. */
static void axes(Panel panel)
{
    char text[16];
    for (int step = -STEPS / 2; step <= STEPS / 2; step++) {
        Point colour = along(panel.centre, step * panel.step, (Point){1, 1}), at = placed(panel, colour);
        printf("<path d=\"M%.1f %dv5M%.1f %.1fh-5\" stroke=\"#444\"/>\n", at.a, TOP + SIDE, panel.x, at.b);
        snprintf(text, sizeof text, "%.*f", panel.decimals, colour.a);
        words(at.a, TOP + SIDE + 19, "middle", "#000", text);
        snprintf(text, sizeof text, "%.*f", panel.decimals, colour.b);
        words(panel.x - 8, at.b + 4, "end", "#000", text);
    }
    words(panel.x + SIDE / 2, TOP + SIDE + 38, "middle", "#000", "a*");
    words(panel.x - 10, TOP + SIDE * 7 / 12 + 4, "end", "#000", "b*");
}

static void title(Panel panel, const char *first, const char *second)
{
    words(panel.x, TOP - 30, "start", "#000", first);
    words(panel.x, TOP - 12, "start", "#000", second);
}

static void dot(Point at)
{
    printf("<circle cx=\"%.1f\" cy=\"%.1f\" r=\"4\"/>\n", at.a, at.b);
}

/* The multiple of a step that is nearest to a value above 0. */
static double to_step(double value, double step)
{
    return step * (long)(value / step + 0.5);
}

static char verdict(Point test)
{
    return *answer("\nverdict=", test);
}

static double de(Point test)
{
    return strtod(answer("\nDE=", test), NULL);
}

/* How far one can go from the reference that way before the printed DE reaches a figure, or, for a figure of 0, before
 * the verdict is no longer pass. */
static double reach(Point reference, Point way, double figure)
{
    double low = 0, high = 4;
    for (int halving = 0; halving < 40; halving++) {
        double middle = (low + high) / 2;
        Point test = along(reference, middle, way);
        if (figure > 0 ? de(test) < figure : verdict(test) == 'p')
            low = middle;
        else
            high = middle;
    }
    return high;
}

/* That far, at every third degree. */
static void outline(Panel panel, Point reference, double figure)
{
    printf("<path d=\"");
    for (int degrees = 0; degrees < 360; degrees += 3) {
        Point way = direction(degrees), at = placed(panel, along(reference, reach(reference, way, figure), way));
        printf("%s%.1f %.1f", degrees == 0 ? "M" : "L", at.a, at.b);
    }
    printf("z\" fill=\"none\" stroke=\"#000\" stroke-width=\"1.5\"/>\n");
}
