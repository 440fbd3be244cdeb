/* shade.h: a colour-difference station for C, in the static library libshade.a (x86-64, Linux).
 *
 * Load a standard, then judge test specimens against it; or hand over a ticket, a text that holds both. The answer is a
 * number, and for a judgement or a ticket a report of twelve lines. examples/host.c shows these calls. Or sort a
 * delivery that has no standard: each cone against the mean of all, as examples/sort.c shows. Besides the calls of the
 * library there are two small functions in this header, for a report's length and for a refusal in words. It needs C99
 * or C++98.
 *
 *     cc -Iinclude -o target/host examples/host.c target/staticlib/libshade.a
 *
 * Nothing is kept between calls but the bytes of the station, and those lie in memory that the host lends.
 *
 * SLICES
 *     A slice is a pointer and, right after it, a length: in bytes, or in doubles where the pointer is to doubles. The
 *     host owns every slice; a call uses it until it returns and keeps no pointer. An empty slice (length 0) may have a
 *     null pointer, which is not followed. A slice that is not const must not overlap another slice of the same call,
 *     and must not be used by anything else while the call runs; slices that are const may overlap each other.
 *     The library has no state, allocates nothing, takes nothing from the C library but memcpy and its like, and
 *     touches no byte outside the slices lent to it. Calls may run in several threads at once, as long as none of them
 *     writes a slice that another one uses.
 *
 * ANSWERS
 *     A load, a judgement or a ticket returns 0, or the number of its refusal; a sort returns a struct whose first
 *     field is that number. A refused call writes no byte: station, room and results stay as they were. Of several
 *     refusals that apply, the one given is the first in the order that stands over each call.
 *
 * READINGS
 *     Three doubles. X, Y, Z: from 0 to 150 each, read to the nearest millionth. Or L*, from 0 to 120, and a*, b*, from
 *     -256 to 256, all read to the nearest 1/1048576. A tie goes away from zero. The ends are in range, and -0.0 is
 *     zero; the range is tested on the exact value, so 150.0000000000001 is out of it. Reference and test specimen may
 *     be read in different spaces.
 *     The processor's rounding mode does not matter. Its mode "denormals are zero", which gcc's -ffast-math turns on
 *     for a whole program, must be off: a reading below zero by less than 2.3e-308 would pass for zero.
 */
#ifndef SHADE_H
#define SHADE_H

#include <stddef.h>
#include <stdint.h>

#ifdef __cplusplus
extern "C" {
#endif

/* THE VERSION
 *     SHADE_VERSION is 100 * MAJOR + MINOR, a number for #if: 1.5 is 105, and SHADE_VERSION >= 105 asks for 1.5 or
 *     later. It is this header's; shade_version() answers that of the library that the host was linked with. Where the
 *     two differ in the major number, the host was compiled for other calls, and should not go on. A higher minor
 *     number: calls were added, or a report can be another one for the same call. Since 1.2 its figures are the
 *     nearest; since 1.3 an achromatic test specimen withholds as an achromatic reference does; since 1.5 a ticket
 *     without l and c is judged by 2:1. Since 1.4 there are the sorts. */
#define SHADE_VERSION_MAJOR 1
#define SHADE_VERSION_MINOR 5
#define SHADE_VERSION (100 * SHADE_VERSION_MAJOR + SHADE_VERSION_MINOR)
#define SHADE_VERSION_STRING "1.5"
uint32_t shade_version(void);

/* formula: a figure or a tolerance of one is in another unit than one of another: the two are not to be compared. */
#define SHADE_CIELAB 1
#define SHADE_CIE94 2
#define SHADE_CMC 3

/* white: illuminant and observer. X, Y, Z become L*, a*, b* by the white that was loaded, those of the test specimen
 * too; those of a sort by the white that it is given. */
#define SHADE_D65_10 1
#define SHADE_D65_2 2
#define SHADE_C_10 3
#define SHADE_C_2 4

/* l, c and tolerance are whole thousandths: 1000 is 1. Both ends are in range. CIELAB does not use l and c, but tests
 * and prints them. The tolerance is a DE of the formula that it is loaded with. */
#define SHADE_FACTOR_LEAST 500
#define SHADE_FACTOR_MOST 10000
#define SHADE_TOLERANCE_LEAST 100
#define SHADE_TOLERANCE_MOST 10000

/* refusals */
#define SHADE_REFUSED_FORMULA 1       /* not one of the three above */
#define SHADE_REFUSED_WHITE 2         /* not one of the four above */
#define SHADE_REFUSED_FACTOR 3        /* l or c outside its range */
#define SHADE_REFUSED_TOLERANCE 4     /* tolerance outside its range */
#define SHADE_REFUSED_NOT_A_NUMBER 5  /* one of the three readings is not-a-number or infinite */
#define SHADE_REFUSED_OUT_OF_RANGE 6  /* one of the three readings is outside its range */
#define SHADE_REFUSED_TICKET 7        /* the ticket's text is wrong */
#define SHADE_REFUSED_BEYOND_256 8    /* X, Y, Z are in range, but give an a* or b* beyond 256 */
#define SHADE_REFUSED_NO_STANDARD 9   /* a judgement, and the station holds no standard */
#define SHADE_REFUSED_LENGTH 10       /* the room is shorter than the report, or a load's slice has another length */
#define SHADE_REFUSED_COUNT 11        /* a sort: not 2 to 256 cones, or slices that do not have as many */

/* A refusal in words, those of the manual. */
static inline const char *shade_refusal_text(uint32_t number)
{
    switch (number) {
    case 0:
        return "no refusal";
    case SHADE_REFUSED_FORMULA:
        return "no such formula";
    case SHADE_REFUSED_WHITE:
        return "no such white";
    case SHADE_REFUSED_FACTOR:
        return "l or c is below 0.5 or above 10";
    case SHADE_REFUSED_TOLERANCE:
        return "the tolerance is below 0.1 or above 10";
    case SHADE_REFUSED_NOT_A_NUMBER:
        return "a reading is not a number, or infinite";
    case SHADE_REFUSED_OUT_OF_RANGE:
        return "a reading is out of range";
    case SHADE_REFUSED_TICKET:
        return "the ticket is not written as it should be";
    case SHADE_REFUSED_BEYOND_256:
        return "X, Y, Z give an a* or b* beyond 256";
    case SHADE_REFUSED_NO_STANDARD:
        return "no standard is loaded";
    case SHADE_REFUSED_LENGTH:
        return "a slice that was lent has the wrong length";
    case SHADE_REFUSED_COUNT:
        return "not 2 to 256 cones, or slices that do not have as many";
    default:
        return "unknown number";
    }
}

/* THE STATION
 *     These bytes, without padding; a number of several bytes has the lowest first, a* and b* are two's complement:
 *
 *         at  bytes  holds                                  range
 *          0      1  formula                                1 to 3
 *          1      1  white                                  1 to 4
 *          2      2  l, in thousandths                      500 to 10000
 *          4      2  c, in thousandths                      500 to 10000
 *          6      2  tolerance, in thousandths              100 to 10000
 *          8      4  L* of the reference, times 1048576     0 to 125829120
 *         12      4  a* of the reference, times 1048576     -268435456 to 268435456
 *         16      4  b* of the reference, times 1048576     -268435456 to 268435456
 *
 *     Start with zeros, which are no standard. A load writes all of them; nothing else does. A host may copy them,
 *     compare them and store them, for any time and on any machine: equal bytes are the same standard, and all that a
 *     judgement depends on. A slice of another length, or with a number out of its range, counts as no standard. Bytes
 *     that were changed within the ranges are not noticed: they are another standard. */
#define SHADE_STATION_BYTES 20

/* THE REPORT
 *     Twelve lines, each ended by LF (10); no NUL follows. It is put into the room from a column on, counted from 0:
 *     room + column is its first byte. It ends after its twelfth LF, and bytes before it and after it stay.
 *
 *     So a room that is used again still holds the end of an earlier report where that was longer: never print a room
 *     whole, or up to a NUL. Where a call has answered 0, take the report's own length,
 *     shade_report_length(room + column, room_len - column).
 *
 *     The room has to have as many bytes from the column on as the report is long; SHADE_REPORT_BYTES are always
 *     enough. A column at or past the room's end leaves none.
 *
 *         formula=CMC                          CIELAB, CIE94 or CMC
 *         white=D65/10                         D65/10, D65/2, C/10 or C/2
 *         l=2.000                              as loaded, under CIELAB too
 *         c=1.000
 *         DE=0.9992                            the nearest four decimals, a tie away from zero; so are the next three
 *         DL=-0.7837                           test specimen minus reference
 *         DC=0.5777                            or withheld
 *         DH=0.2246                            or withheld
 *         lightness=darker                     lighter, darker or equal
 *         chroma=more                          more, less, equal or withheld
 *         hue=redder(yellower)                 redder, yellower, greener or bluer, and the next in brackets; or equal;
 *                                              or withheld
 *         verdict=near                         pass, fail, or near: DE is within 0.002 of the tolerance
 *
 *     The four are withheld under CMC, all or none of them, where the reference or the test specimen is achromatic, or
 *     both are: its own a* and b*, squared, sum up to 16 at most. Before version 1.3 the reference alone decided.
 *
 *     A number has a minus only if a digit is shown that is not 0. The verdict and the names never go by the printed
 *     number: DE=1.0020 can be near or fail at a tolerance of 1000. Before version 1.2 DE, DL, DC and DH were cut after
 *     four decimals. */
#define SHADE_REPORT_BYTES 161
#define SHADE_REPORT_LINES 12

/* The length of the report that a call has put at this place: the bytes up to and with the twelfth LF, or 0 where there
 * are no twelve. It is for a call that has answered 0: after a refused one the room holds what it held before, and that
 * can be an earlier report. */
static inline size_t shade_report_length(const uint8_t *room, size_t len)
{
    size_t at, lines = 0;
    for (at = 0; at < len; at++)
        if (room[at] == 10 && ++lines == SHADE_REPORT_LINES)
            return at + 1;
    return 0;
}

/* THE TICKET
 *     A text of these lines, each ended by LF, and nothing after them:
 *
 *         formula=CMC                          CIELAB, CIE94 or CMC
 *         white=D65/10                         D65/10, D65/2, C/10 or C/2
 *         l=2.000                              1 or 2 digits, then perhaps a point and 1 to 3 digits
 *         c=1.000                              likewise
 *         tol=1.000                            likewise
 *         space=LAB                            XYZ or LAB
 *         ref=52.5 10.25 -7                    three numbers, one space between; each perhaps a minus, 1 to 3 digits,
 *         test=50.75 11 -7.25                  perhaps a point and 1 to 6 digits
 *
 *     The lines l and c may both be left out, and not one alone. Then l is 2.000 and c is 1.000, by which BS 6923 asks
 *     whether a match will do on textiles. To ask how large a difference looks, as such a ticket did before version
 *     1.5, write l=1.000 and c=1.000. The report says which l and c it goes by.
 *
 *     Capitals count, and there is no room for a CR, a tab, a plus or a second space. */
#define SHADE_TICKET_BYTES 4096

/* LOAD
 *     Takes a standard: formula, white, l, c, tolerance, and the reference as X, Y, Z or as L*, a*, b*. Writes the
 *     station; what was in it before, in range or not, is gone.
 *
 *     Refusals, in this order; no other is given:
 *
 *         SHADE_REFUSED_FORMULA
 *         SHADE_REFUSED_WHITE
 *         SHADE_REFUSED_FACTOR                 for l, then for c
 *         SHADE_REFUSED_TOLERANCE
 *         SHADE_REFUSED_NOT_A_NUMBER           for any of the three readings
 *         SHADE_REFUSED_OUT_OF_RANGE           for any of them
 *         SHADE_REFUSED_BEYOND_256             from X, Y, Z only
 *         SHADE_REFUSED_LENGTH                 station_len is not SHADE_STATION_BYTES */
uint32_t shade_load_xyz(uint8_t *station, size_t station_len, uint32_t formula, uint32_t white, uint32_t l, uint32_t c,
                        uint32_t tolerance, double x, double y, double z);
uint32_t shade_load_lab(uint8_t *station, size_t station_len, uint32_t formula, uint32_t white, uint32_t l, uint32_t c,
                        uint32_t tolerance, double lightness, double a, double b);

/* JUDGE
 *     Compares a test specimen with the standard that the station holds, and writes the report into the room. The
 *     station is read only. The report depends on the station's bytes and the readings alone, not on calls before.
 *
 *     Refusals, in this order; no other is given:
 *
 *         SHADE_REFUSED_NO_STANDARD            whatever the readings are
 *         SHADE_REFUSED_NOT_A_NUMBER           for any of the three readings
 *         SHADE_REFUSED_OUT_OF_RANGE           for any of them
 *         SHADE_REFUSED_BEYOND_256             from X, Y, Z only
 *         SHADE_REFUSED_LENGTH                 the room is short */
uint32_t shade_judge_xyz(const uint8_t *station, size_t station_len, double x, double y, double z, uint8_t *room,
                         size_t room_len, size_t column);
uint32_t shade_judge_lab(const uint8_t *station, size_t station_len, double lightness, double a, double b,
                         uint8_t *room, size_t room_len, size_t column);

/* TICKET
 *     Loads and judges what the text says, and writes the report into the room. It has nothing to do with any station.
 *     A ticket's decimals count as what they say: no double comes between.
 *
 *     Refusals, in this order; no other is given:
 *
 *         SHADE_REFUSED_TICKET                 the text is not as above, or longer than SHADE_TICKET_BYTES
 *         SHADE_REFUSED_FACTOR                 for l, then for c
 *         SHADE_REFUSED_TOLERANCE
 *         SHADE_REFUSED_OUT_OF_RANGE           for any number of the reference
 *         SHADE_REFUSED_BEYOND_256             for the reference, from X, Y, Z only
 *         SHADE_REFUSED_OUT_OF_RANGE           for any number of the test specimen
 *         SHADE_REFUSED_BEYOND_256             for the test specimen, from X, Y, Z only
 *         SHADE_REFUSED_LENGTH                 the room is short */
uint32_t shade_ticket(const uint8_t *text, size_t text_len, uint8_t *room, size_t room_len, size_t column);

/* SORT
 *     Takes a delivery of cones that has no standard, by CMC: a white, l, c, and the readings of all cones in three
 *     slices, cone i being entry i of each. Cones count from 0. It has nothing to do with any station.
 *
 *     The reference is the mean: of the cones' L*, of their a* and of their b*, each by itself, to the nearest
 *     1/1048576, a tie away from zero. X, Y, Z are converted first, cone by cone, and never averaged. Each cone's DE
 *     from the mean goes into de, entry i for cone i; entries past the count stay.
 *
 *     What it hands back: the refusal or 0; the mean; the cone with the greatest DE, the lowest number if several have
 *     it; how many cones there were. On a refusal all fields but number are 0, and de stays whole; but with 5, 6 or 8,
 *     which are a cone's, cone is the refused cone, which can be cone 0 as well.
 *
 *     Refusals, in this order; no other is given:
 *
 *         SHADE_REFUSED_COUNT                  fewer than SHADE_CONES_LEAST cones or more than SHADE_CONES_MOST, or
 *                                              three counts that are not equal, or de_count below them
 *         SHADE_REFUSED_WHITE
 *         SHADE_REFUSED_FACTOR                 for l, then for c
 *         then for each cone in turn, from cone 0 on; the first refused cone decides:
 *         SHADE_REFUSED_NOT_A_NUMBER           for any of its three readings
 *         SHADE_REFUSED_OUT_OF_RANGE           for any of them
 *         SHADE_REFUSED_BEYOND_256             from X, Y, Z only */
#define SHADE_CONES_LEAST 2
#define SHADE_CONES_MOST 256

typedef struct {
    uint32_t number;        /* 0, or the refusal */
    uint32_t cone;          /* the refused cone; else 0 */
    double lightness, a, b; /* the mean */
    uint32_t farthest;      /* the cone that is farthest from it */
    uint32_t cones;         /* how many */
} shade_sorted;

/* Its fields lie where the library puts them: a compiler that would have one elsewhere refuses this header. */
#define SHADE_LIES_AT(type, field, place) \
    typedef char type##_##field##_lies_at[offsetof(type, field) == (place) ? 1 : -1]
SHADE_LIES_AT(shade_sorted, number, 0);
SHADE_LIES_AT(shade_sorted, cone, 4);
SHADE_LIES_AT(shade_sorted, lightness, 8);
SHADE_LIES_AT(shade_sorted, a, 16);
SHADE_LIES_AT(shade_sorted, b, 24);
SHADE_LIES_AT(shade_sorted, farthest, 32);
SHADE_LIES_AT(shade_sorted, cones, 36);
typedef char shade_sorted_has_40_bytes[sizeof(shade_sorted) == 40 ? 1 : -1];

shade_sorted shade_sort_xyz(uint32_t white, uint32_t l, uint32_t c, const double *x, size_t x_count, const double *y,
                            size_t y_count, const double *z, size_t z_count, double *de, size_t de_count);
shade_sorted shade_sort_lab(uint32_t white, uint32_t l, uint32_t c, const double *lightness, size_t lightness_count,
                            const double *a, size_t a_count, const double *b, size_t b_count, double *de,
                            size_t de_count);

#ifdef __cplusplus
}
#endif

#endif
