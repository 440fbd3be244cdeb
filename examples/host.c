/* A host of the station: asks the library for its version, loads a standard, judges three test specimens, loads another
 * standard, and says what a refusal means.
 *
 *     cc -Iinclude -o target/host examples/host.c target/staticlib/libshade.a && target/host
 *
 * It prints examples/host.out. */
#include <stdio.h>

#include "shade.h"

/* The reports go into one page, each from where the one before it ended. */
static uint8_t page[5 * SHADE_REPORT_BYTES];
static size_t used;

static void answer(const char *call, uint32_t number)
{
    printf("-- %s: %u, %s\n", call, (unsigned)number, shade_refusal_text(number));
}

/* Prints the report that a call has put into the page, if it was not refused. */
static void print(const char *call, uint32_t number)
{
    answer(call, number);
    if (number != 0)
        return;
    size_t length = shade_report_length(page + used, sizeof page - used);
    fwrite(page + used, 1, length, stdout);
    used += length;
}

int main(void)
{
    static const char ticket[] = "formula=CMC\nwhite=D65/10\ntol=1.0\nspace=LAB\nref=50 0 0\ntest=51 0 0\n";
    const uint8_t *text = (const uint8_t *)ticket;
    uint8_t station[SHADE_STATION_BYTES] = {0};
    double zero = 0;

    if (shade_version() / 100 != SHADE_VERSION_MAJOR) {
        fputs("the library is of another version than the header\n", stderr);
        return 1;
    }
    print("judge before any load", shade_judge_lab(station, sizeof station, 51, 0, 0, page, sizeof page, used));

    /* CMC(2:1), tolerance 1 */
    answer("load", shade_load_lab(station, sizeof station, SHADE_CMC, SHADE_D65_10, 2000, 1000, 1000, 52.5, 10.25, -7));
    print("first", shade_judge_lab(station, sizeof station, 52, 10.5, -7.25, page, sizeof page, used));
    print("second", shade_judge_lab(station, sizeof station, 50.75, 11, -7.25, page, sizeof page, used));
    print("third", shade_judge_xyz(station, sizeof station, 20, 19.5, 26, page, sizeof page, used));

    /* a refused load leaves the standard that was there; an accepted one takes its place */
    answer("load formula 4", shade_load_lab(station, sizeof station, 4, SHADE_D65_10, 2000, 1000, 1000, 50, 0, 0));
    answer("load again",
           shade_load_xyz(station, sizeof station, SHADE_CIELAB, SHADE_C_2, 1000, 1000, 2500, 20.25, 19.75, 26.25));
    print("third again", shade_judge_xyz(station, sizeof station, 20, 19.5, 26, page, sizeof page, used));

    print("judge a NaN", shade_judge_lab(station, sizeof station, zero / zero, 0, 0, page, sizeof page, used));
    print("judge L* of 120.5", shade_judge_lab(station, sizeof station, 120.5, 0, 0, page, sizeof page, used));
    print("judge X of 90 alone", shade_judge_xyz(station, sizeof station, 90, 0, 0, page, sizeof page, used));
    print("judge into 100 bytes", shade_judge_lab(station, sizeof station, 50, 0, 0, page, 100, 0));
    answer("load into 19 bytes", shade_load_lab(station, 19, SHADE_CMC, SHADE_D65_10, 2000, 1000, 1000, 50, 0, 0));
    answer("load white 0", shade_load_lab(station, sizeof station, SHADE_CMC, 0, 2000, 1000, 1000, 50, 0, 0));
    answer("load l of 0.4",
           shade_load_lab(station, sizeof station, SHADE_CMC, SHADE_D65_10, 400, 1000, 1000, 50, 0, 0));
    answer("load tolerance 0",
           shade_load_lab(station, sizeof station, SHADE_CMC, SHADE_D65_10, 2000, 1000, 0, 50, 0, 0));

    print("ticket", shade_ticket(text, sizeof ticket - 1, page, sizeof page, used));
    print("ticket without its end", shade_ticket(text, sizeof ticket - 2, page, sizeof page, used));
    return 0;
}
