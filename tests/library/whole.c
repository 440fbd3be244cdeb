/* The whole case of SCOPE 11.1 through libshade.a: the ticket's report from a column of a lent room, byte for byte,
 * every other byte kept; the same pair loaded and judged; and refused calls, which write nothing. Deliveries sorted
 * (SCOPE 13). Then what the header has beside the calls: the length of a report after a longer one in the same room,
 * the words, the version.
 *
 * Usage: whole
 *
 * No headers but shade.h: this is an x86-64 program wherever it is compiled. */
#include "shade.h"

int printf(const char *, ...);
int snprintf(char *, size_t, const char *, ...);
int strcmp(const char *, const char *);
size_t strlen(const char *);

enum { ROOM = 200, COLUMN = 7, KEPT = 0xa5 };

static const char TICKET[] =
    "formula=CMC\nwhite=D65/10\nl=1.000\nc=1.000\ntol=1.000\nspace=LAB\nref=50 0 0\ntest=51 0 0\n";
static const char REPORT[] =
    "formula=CMC\nwhite=D65/10\nl=1.000\nc=1.000\nDE=0.9189\nDL=0.9189\nDC=withheld\nDH=withheld\n"
    "lightness=lighter\nchroma=withheld\nhue=withheld\nverdict=pass\n";

static uint8_t room[ROOM];
static int differences;

static void same(const char *what, int is)
{
    if (!is) {
        printf("differs: %s\n", what);
        differences++;
    }
}

static void clear(void)
{
    for (size_t at = 0; at < ROOM; at++)
        room[at] = KEPT;
}

/* Counts a difference if the call gave another number, or left another room: the report from COLUMN on, or nothing. */
static void expect(const char *call, uint32_t number, uint32_t wanted)
{
    size_t length = wanted == 0 ? strlen(REPORT) : 0;
    int is = number == wanted;
    for (size_t at = 0; at < ROOM; at++) {
        int inside = at >= COLUMN && at < COLUMN + length;
        is = is && room[at] == (inside ? (uint8_t)REPORT[at - COLUMN] : KEPT);
    }
    same(call, is);
    clear();
}

/* Whether the room has this text before a place. */
static int ends_in(size_t place, const char *text)
{
    size_t length = strlen(text);
    int is = place >= length;
    for (size_t at = 0; is && at < length; at++)
        is = room[place - length + at] == (uint8_t)text[at];
    return is;
}

/* CMC(1:1), tolerance 1 */
static uint32_t load(uint8_t *station, size_t length, uint32_t formula)
{
    return shade_load_lab(station, length, formula, SHADE_D65_10, 1000, 1000, 1000, 50, 0, 0);
}

static uint32_t judge(const uint8_t *station, double lightness)
{
    return shade_judge_lab(station, SHADE_STATION_BYTES, lightness, 0, 0, room, ROOM, COLUMN);
}

static uint32_t ticket(size_t length, size_t room_length)
{
    return shade_ticket((const uint8_t *)TICKET, length, room, room_length, COLUMN);
}

/* By CIELAB the turn has a long name, and an equal colour a short one; the end of the long report stays behind the short
 * one. A room that has no twelve lines holds no report. */
static void lengths(void)
{
    static const char turned[] = "hue=yellower(greener)\nverdict=fail\n", equal[] = "hue=equal\nverdict=pass\n";
    uint8_t station[SHADE_STATION_BYTES] = {0};
    size_t size = sizeof station;
    shade_load_lab(station, size, SHADE_CIELAB, SHADE_D65_10, 1000, 1000, 1000, 50, 20, 20);

    same("no report", shade_report_length(room, ROOM) == 0 && shade_report_length(0, 0) == 0);
    shade_judge_lab(station, size, 50, -20, 19, room, ROOM, COLUMN);
    size_t longer = shade_report_length(room + COLUMN, ROOM - COLUMN), end = COLUMN + longer;
    same("a report's end", ends_in(end, turned));
    shade_judge_lab(station, size, 50, 20, 20, room, ROOM, COLUMN);
    size_t shorter = shade_report_length(room + COLUMN, ROOM - COLUMN);
    same("a shorter report", shorter < longer && ends_in(COLUMN + shorter, equal) && room[end - 1] == 10);
    same("a byte too few", shade_report_length(room + COLUMN, shorter - 1) == 0);
    same("just its bytes", shade_report_length(room + COLUMN, shorter) == shorter);
}

/* Whether a sort handed this back, and left these four entries in its result slice. */
static int is_sorted(shade_sorted s, shade_sorted wanted, const double *de, const double *entries)
{
    int is = s.number == wanted.number && s.cone == wanted.cone && s.lightness == wanted.lightness && s.a == wanted.a &&
             s.b == wanted.b && s.farthest == wanted.farthest && s.cones == wanted.cones;
    for (size_t at = 0; at < 4; at++)
        is = is && de[at] == entries[at];
    return is;
}

/* A refused cone and a count of 1, which leave the result slice as it was. Cones about a mean of (50, 0, 0): the pair
 * of case 7 of SCOPE 12.1, and one that is as much darker; one slice of zeros is lent for a* and for b*. Black and
 * white, as X, Y, Z, have the same mean. */
static void sorts(void)
{
    static const double lightness[] = {50, 49, 51}, zeros[] = {0, 0, 0};
    static const double x[] = {94.811, 0, 400}, y[] = {100, 0, 0}, z[] = {107.304, 0, 0};
    const double one = 963487 / 1048576.0, sorted[] = {0, one, one, -1};
    double de[] = {-1, -1, -1, -1}, kept[] = {-1, -1, -1, -1};
    shade_sorted mean = {0, 0, 50, 0, 0, 1, 3}, cone = {SHADE_REFUSED_OUT_OF_RANGE, 2, 0, 0, 0, 0, 0};
    shade_sorted count = {SHADE_REFUSED_COUNT, 0, 0, 0, 0, 0, 0}, s;

    s = shade_sort_xyz(SHADE_D65_10, 1000, 1000, x, 3, y, 3, z, 3, de, 4);
    same("sort with a cone out of range", is_sorted(s, cone, de, kept));
    s = shade_sort_lab(SHADE_D65_10, 1000, 1000, lightness, 1, zeros, 1, zeros, 1, de, 4);
    same("sort of one cone", is_sorted(s, count, de, kept));
    s = shade_sort_lab(SHADE_D65_10, 1000, 1000, lightness, 3, zeros, 3, zeros, 3, de, 4);
    same("sort", is_sorted(s, mean, de, sorted));
    s = shade_sort_xyz(SHADE_D65_10, 1000, 1000, x, 2, y, 2, z, 2, de, 2);
    same("sort of white and black", s.number == 0 && s.lightness == 50 && s.a == 0 && s.b == 0);
    same("white and black are as far", s.farthest == 0 && s.cones == 2 && de[0] > 40 && de[0] == de[1]);
    same("a result past the count", de[2] == one);
}

static void version(void)
{
    char text[16];
    snprintf(text, sizeof text, "%d.%d", SHADE_VERSION_MAJOR, SHADE_VERSION_MINOR);
    same("the library's version", shade_version() == SHADE_VERSION);
    same("the version as a text", strcmp(text, SHADE_VERSION_STRING) == 0);
    same("words of a number that is none", strcmp(shade_refusal_text(12), "unknown number") == 0);
}

int main(void)
{
    uint8_t station[SHADE_STATION_BYTES] = {0};
    size_t length = strlen(TICKET), needed = COLUMN + strlen(REPORT);

    clear();
    expect("ticket", ticket(length, ROOM), 0);
    expect("ticket without its last LF", ticket(length - 1, ROOM), SHADE_REFUSED_TICKET);
    expect("a room too short by a byte", ticket(length, needed - 1), SHADE_REFUSED_LENGTH);
    expect("a room that just holds it", ticket(length, needed), 0);
    expect("judge before a load", judge(station, 51), SHADE_REFUSED_NO_STANDARD);
    expect("load into another length", load(station, sizeof station - 1, SHADE_CMC), SHADE_REFUSED_LENGTH);
    expect("load of formula 4", load(station, sizeof station, 4), SHADE_REFUSED_FORMULA);
    if (load(station, sizeof station, SHADE_CMC) != 0)
        differences++;
    expect("judge", judge(station, 51), 0);
    expect("judge out of range", judge(station, 121), SHADE_REFUSED_OUT_OF_RANGE);
    sorts();
    lengths();
    version();
    printf("whole: 14 calls, lengths, words, version: %d differences\n", differences);
    return differences != 0;
}
