/* Draws docs/turning.svg: the hue names met by turning. tools/plot_manual builds it and runs it.
 *
 * Usage: plot_turning >docs/turning.svg */
#include "plot.h"

enum { CENTRE_X = 400, CENTRE_Y = 300, RADIUS = 190, TURN = 13 };

static Point on_page(double radius, int degrees)
{
    Point at = on_circle(radius, degrees);
    return (Point){CENTRE_X + at.a, CENTRE_Y - at.b};
}

/* The hue of a test specimen turned from a reference that stands at so many degrees. */
static void hue(char name[32], int degrees, int turn)
{
    load(1000, on_circle(40, degrees));
    strcpy(name, answer("\nhue=", on_circle(40, degrees + turn)));
}

static const char *colour_of(const char *name)
{
    switch (*name) {
    case 'r': return "#c8102e";
    case 'y': return "#957000";
    case 'g': return "#1b7f3b";
    case 'b': return "#1f4fbf";
    default: return "#000";
    }
}

static void arc(double radius, int from, int to, const char *colour, double width)
{
    Point start = on_page(radius, from), end = on_page(radius, to);
    printf("<path d=\"M%.1f %.1fA%.0f %.0f 0 0 %d %.1f %.1f\" fill=\"none\" stroke=\"%s\" stroke-width=\"%.0f\"/>\n",
           start.a, start.b, radius, radius, to < from, end.a, end.b, colour, width);
}

/* The names of references at every degree for one turn. Going round the way of the turn, a name begins on an axis. */
static void ring(double radius, int turn)
{
    int way = turn > 0 ? 1 : -1, from = 0;
    char run[32], next[32];
    hue(run, 0, turn);
    for (int step = 1; step <= 360; step++) {
        hue(next, way * step, turn);
        if (step < 360 && strcmp(run, next) == 0)
            continue;
        arc(radius, from, way * step, colour_of(run), 10);
        strcpy(run, next);
        from = way * step;
    }
}

/* From a reference to its test specimen, with the name beside the head. */
static void arrow(int degrees, int turn)
{
    char name[32];
    hue(name, degrees, turn);
    int end = degrees + turn;
    Point outer = on_page(RADIUS + 5, end), inner = on_page(RADIUS - 5, end),
          tip = on_page(RADIUS, end + (turn > 0 ? 3 : -3));
    arc(RADIUS, degrees, end, colour_of(name), 2);
    printf("<path d=\"M%.1f %.1fL%.1f %.1fL%.1f %.1fz\" fill=\"%s\"/>\n", outer.a, outer.b, tip.a, tip.b, inner.a,
           inner.b, colour_of(name));
    Point at = on_page(RADIUS + 14, end);
    words(at.a, at.b + 4, at.a < CENTRE_X ? "end" : "start", colour_of(name), name);
}

static void axis(int degrees, const char *anchor, double right, double down, const char *text)
{
    Point end = on_page(RADIUS + 50, degrees);
    printf("<path d=\"M%d %dL%.0f %.0f\" stroke=\"#888\"/>\n<g font-weight=\"bold\">", CENTRE_X, CENTRE_Y, end.a,
           end.b);
    words(end.a + right, end.b + down, anchor, "#000", text);
    printf("</g>\n");
}

int main(void)
{
    open_page(800, 625);
    axis(0, "start", 6, 4, "0 redder, +a*");
    axis(90, "middle", 0, -8, "90 yellower, +b*");
    axis(180, "end", -6, 4, "180 greener, -a*");
    axis(270, "middle", 0, 18, "270 bluer, -b*");
    ring(140, TURN);
    ring(120, -TURN);
    for (int degrees = 0; degrees < 360; degrees += 45) {
        Point at = on_page(RADIUS, degrees);
        arrow(degrees, TURN);
        arrow(degrees, -TURN);
        printf("<circle cx=\"%.1f\" cy=\"%.1f\" r=\"5\"/>\n", at.a, at.b);
    }
    words(CENTRE_X, 592, "middle", "#000",
          "Dot: a standard. Arrow: the turn to the test specimen, and the name that the report gives.");
    words(CENTRE_X, 612, "middle", "#000",
          "Rings: the name for a standard at each degree, turning anticlockwise (outer) and clockwise (inner).");
    printf("</svg>\n");
    return 0;
}
