/* Draws docs/delivery.svg: the cones of examples/delivery.h around their mean. tools/plot_manual builds it and runs it.
 *
 * Usage: plot_delivery >docs/delivery.svg */
#include "../examples/delivery.h"
#include "plot_panel.h"

enum { L = 2000, LIST = 500, ROW = 19 };

/* CMC(2:1) */
static shade_sorted sort(size_t cones, const double *x, const double *y, const double *z, double *des)
{
    shade_sorted sorted = shade_sort_xyz(SHADE_D65_10, L, 1000, x, cones, y, cones, z, cones, des, cones);
    stop_if_refused(sorted.number);
    return sorted;
}

/* The cone's own L*, a*, b*: the mean of a delivery in which it comes twice. */
static shade_sorted colour(size_t cone)
{
    const double x[] = {X[cone], X[cone]}, y[] = {Y[cone], Y[cone]}, z[] = {Z[cone], Z[cone]};
    double des[2];
    return sort(2, x, y, z, des);
}

static void cross(Point at)
{
    printf("<path d=\"M%.1f %.1fh14m-7 -7v14\" stroke=\"#000\" stroke-width=\"2\"/>\n", at.a - 7, at.b);
}

static void ring(Point at)
{
    printf("<circle cx=\"%.1f\" cy=\"%.1f\" r=\"8\" fill=\"none\" stroke=\"#000\" stroke-width=\"1.5\"/>\n", at.a,
           at.b);
}

/* A dot, and the cone's number on the side that is turned away from the mean. */
static void mark(Panel panel, Point mean, size_t cone, int is_farthest)
{
    shade_sorted own = colour(cone);
    Point at = placed(panel, (Point){own.a, own.b});
    double aside = is_farthest ? 12 : 8;
    char text[8];
    snprintf(text, sizeof text, "%u", (unsigned)cone);
    dot(at);
    if (is_farthest)
        ring(at);
    if (own.a < mean.a)
        words(at.a - aside, at.b + 5, "end", "#000", text);
    else
        words(at.a + aside, at.b + 5, "start", "#000", text);
}

/* What the plane does not show: each cone's DE, and how much of L* is in it. */
static void list(shade_sorted sorted, const double *des)
{
    char text[16];
    double y = TOP + 12;
    words(LIST + 30, y, "end", "#000", "cone");
    words(LIST + 100, y, "end", "#000", "DE");
    words(LIST + 190, y, "end", "#000", "L* - mean");
    for (size_t cone = 0; cone < CONES; cone++) {
        y += ROW;
        snprintf(text, sizeof text, "%u", (unsigned)cone);
        words(LIST + 30, y, "end", "#000", text);
        snprintf(text, sizeof text, "%.4f", des[cone]);
        words(LIST + 100, y, "end", "#000", text);
        snprintf(text, sizeof text, "%+.2f", colour(cone).lightness - sorted.lightness);
        words(LIST + 190, y, "end", "#000", text);
        if (cone == sorted.farthest)
            words(LIST + 205, y, "start", "#000", "farthest");
    }
}

static void legend(void)
{
    static const char *const texts[] = {"a cone", "the farthest cone", "the mean", "DE = 1 at the mean's L*"};
    for (int row = 0; row < 4; row++) {
        Point at = {LIST + 15, TOP + SIDE - (3 - row) * 24 - 8};
        if (row < 2)
            dot(at);
        if (row == 1)
            ring(at);
        if (row == 2)
            cross(at);
        if (row == 3)
            printf("<path d=\"M%.1f %.1fh30\" stroke=\"#000\" stroke-width=\"1.5\"/>\n", at.a - 15, at.b);
        words(LIST + 40, at.b + 5, "start", "#000", texts[row]);
    }
}

int main(void)
{
    double des[CONES];
    char second[64];
    shade_sorted sorted = sort(CONES, X, Y, Z, des);
    const Point mean = {sorted.a, sorted.b};
    const double step = 1.5;
    const Panel panel = {{to_step(mean.a, step), to_step(mean.b, step)}, 60, step, 1};
    lightness = sorted.lightness;
    load(L, mean);

    open_page(800, 490);
    snprintf(second, sizeof second, "L*, a*, b* = %.2f, %.2f, %.2f: CMC(2:1), white D65/10", lightness, mean.a, mean.b);
    title(panel, "A delivery of twelve cones around its mean", second);
    frame(panel);
    axes(panel);
    outline(panel, mean, 1);
    cross(placed(panel, mean));
    for (size_t cone = 0; cone < CONES; cone++)
        mark(panel, mean, cone, cone == sorted.farthest);
    list(sorted, des);
    legend();
    printf("</svg>\n");
    return 0;
}
