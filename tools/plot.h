/* What the pictures of docs/MANUAL.md share: the plane, the station, and the page. No name, verdict or boundary is
 * worked out here: each is read off a report. */
#include <stdio.h>
#include <stdlib.h>
#include <string.h>

#include "shade.h"

/* A colour's a* and b*, or a place on the page. */
typedef struct {
    double a, b;
} Point;

static Point along(Point from, double far, Point way)
{
    return (Point){from.a + far * way.a, from.b + far * way.b};
}

/* The direction so many degrees anticlockwise from +a*. Quarter turns are exact, so that a colour can be on an axis. */
static Point direction(int degrees)
{
    const double cosine = 0.99984769515639124, sine = 0.017452406437283513; /* of one degree */
    degrees = (degrees % 360 + 360) % 360;
    Point way = {1, 0};
    for (int step = 0; step < degrees % 90; step++)
        way = (Point){way.a * cosine - way.b * sine, way.a * sine + way.b * cosine};
    for (int quarter = 0; quarter < degrees / 90; quarter++)
        way = (Point){-way.b, way.a};
    return way;
}

/* inline, since not every picture has circles about grey */
static inline Point on_circle(double radius, int degrees)
{
    return along((Point){0, 0}, radius, direction(degrees));
}

static uint8_t station[SHADE_STATION_BYTES];
static double lightness = 45; /* of the plane that is drawn */

static void stop_if_refused(uint32_t number)
{
    if (number == 0)
        return;
    fprintf(stderr, "plot_manual: refused=%u\n", (unsigned)number);
    exit(1);
}

/* CMC(l:1), l in thousandths; tolerance 1 */
static void load(uint32_t l, Point reference)
{
    stop_if_refused(shade_load_lab(station, sizeof station, SHADE_CMC, SHADE_D65_10, l, 1000, 1000, lightness,
                                   reference.a, reference.b));
}

/* What the report on a test specimen of equal lightness has after this key. It lasts until the next call. */
static const char *answer(const char *key, Point test)
{
    static char report[SHADE_REPORT_BYTES + 1];
    memset(report, 0, sizeof report);
    stop_if_refused(
        shade_judge_lab(station, sizeof station, lightness, test.a, test.b, (uint8_t *)report, SHADE_REPORT_BYTES, 0));
    char *line = strstr(report, key);
    line[strlen(key) + strcspn(line + strlen(key), "\n")] = 0;
    return line + strlen(key);
}

static void open_page(int wide, int high)
{
    printf("<svg xmlns=\"http://www.w3.org/2000/svg\" width=\"%d\" height=\"%d\" font-family=\"sans-serif\" "
           "font-size=\"13\">\n",
           wide, high);
    printf("<rect width=\"%d\" height=\"%d\" fill=\"#fff\"/>\n", wide, high);
}

static void words(double x, double y, const char *anchor, const char *colour, const char *text)
{
    printf("<text x=\"%.1f\" y=\"%.1f\" text-anchor=\"%s\" fill=\"%s\">%s</text>\n", x, y, anchor, colour, text);
}
