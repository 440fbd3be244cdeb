/* include/shade.h by itself, in C and in C++: nothing has to come before it, it may come twice, its calls have these
 * types and its constants these values. This is compiled, not run. */
#include "shade.h"
#include "shade.h"

typedef uint32_t load(uint8_t *, size_t, uint32_t, uint32_t, uint32_t, uint32_t, uint32_t, double, double, double);
typedef uint32_t judge(const uint8_t *, size_t, double, double, double, uint8_t *, size_t, size_t);
typedef uint32_t ticket(const uint8_t *, size_t, uint8_t *, size_t, size_t);
typedef shade_sorted sort(uint32_t, uint32_t, uint32_t, const double *, size_t, const double *, size_t, const double *,
                          size_t, double *, size_t);
typedef uint32_t version(void);

/* A second declaration is refused if it does not agree with the first, in C++ also about C's names. */
#ifdef __cplusplus
extern "C" {
#endif
extern load shade_load_xyz, shade_load_lab;
extern judge shade_judge_xyz, shade_judge_lab;
extern ticket shade_ticket;
extern sort shade_sort_xyz, shade_sort_lab;
extern version shade_version;
#ifdef __cplusplus
}
#endif

/* The functions of the header itself. */
typedef size_t length(const uint8_t *, size_t);
typedef const char *text(uint32_t);
extern length *const report_length;
extern text *const refusal_text;
length *const report_length = shade_report_length;
text *const refusal_text = shade_refusal_text;

/* If the constant is another, this array has the length -1, and is refused. */
#define IS(constant, number) extern char constant##_is_##number[(constant) == (number) ? 1 : -1]

/* SCOPE 8.1 and 4: formulas and whites */
IS(SHADE_CIELAB, 1);
IS(SHADE_CIE94, 2);
IS(SHADE_CMC, 3);
IS(SHADE_D65_10, 1);
IS(SHADE_D65_2, 2);
IS(SHADE_C_10, 3);
IS(SHADE_C_2, 4);

/* SCOPE 3.3 */
IS(SHADE_FACTOR_LEAST, 500);
IS(SHADE_FACTOR_MOST, 10000);
IS(SHADE_TOLERANCE_LEAST, 100);
IS(SHADE_TOLERANCE_MOST, 10000);

/* SCOPE 8.1 */
IS(SHADE_REFUSED_FORMULA, 1);
IS(SHADE_REFUSED_WHITE, 2);
IS(SHADE_REFUSED_FACTOR, 3);
IS(SHADE_REFUSED_TOLERANCE, 4);
IS(SHADE_REFUSED_NOT_A_NUMBER, 5);
IS(SHADE_REFUSED_OUT_OF_RANGE, 6);
IS(SHADE_REFUSED_TICKET, 7);
IS(SHADE_REFUSED_BEYOND_256, 8);
IS(SHADE_REFUSED_NO_STANDARD, 9);
IS(SHADE_REFUSED_LENGTH, 10);
IS(SHADE_REFUSED_COUNT, 11);

/* SCOPE 1.4, 10.2, 10.1 and 9.1 */
IS(SHADE_STATION_BYTES, 20);
IS(SHADE_REPORT_BYTES, 161);
IS(SHADE_REPORT_LINES, 12);
IS(SHADE_TICKET_BYTES, 4096);

/* SCOPE 13.1 */
IS(SHADE_CONES_LEAST, 2);
IS(SHADE_CONES_MOST, 256);

/* SCOPE 13.4: what a sort hands back, in this order and without padding, each field of this type. */
#define LIES(field, place) extern char field##_lies_at_##place[offsetof(shade_sorted, field) == (place) ? 1 : -1]
LIES(number, 0);
LIES(cone, 4);
LIES(lightness, 8);
LIES(a, 16);
LIES(b, 24);
LIES(farthest, 32);
LIES(cones, 36);
extern char sorted_has_40_bytes[sizeof(shade_sorted) == 40 ? 1 : -1];

extern void fields(shade_sorted *, uint32_t **, double **);
void fields(shade_sorted *sorted, uint32_t **numbers, double **figures)
{
    numbers[0] = &sorted->number;
    numbers[1] = &sorted->cone;
    numbers[2] = &sorted->farthest;
    numbers[3] = &sorted->cones;
    figures[0] = &sorted->lightness;
    figures[1] = &sorted->a;
    figures[2] = &sorted->b;
}

/* The version is a number that an #if can take. */
IS(SHADE_VERSION_MAJOR, 1);
IS(SHADE_VERSION_MINOR, 5);
#if SHADE_VERSION != 100 * SHADE_VERSION_MAJOR + SHADE_VERSION_MINOR || SHADE_VERSION < 105
#error "SHADE_VERSION is not 100 * MAJOR + MINOR"
#endif
IS(SHADE_VERSION, 105);
