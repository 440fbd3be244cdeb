/* A host that sorts a delivery without a standard: it asks for the mean of all cones and each cone's DE from it, and
 * prints the cones in the order of DE. Then one cone has no reading, and the sort is refused.
 *
 *     cc -Iinclude -o target/sort examples/sort.c target/staticlib/libshade.a && target/sort
 *
 * It prints examples/sort.out. */
#include <stdio.h>

#include "delivery.h"
#include "shade.h"

#if SHADE_VERSION < 104
#error "this shade.h has no sorts: version 1.4 or later is needed"
#endif

/* CMC(2:1). The Y of the cones are handed over, since one of them is to be missing. */
static shade_sorted sort(const double y[CONES], double de[CONES])
{
    return shade_sort_xyz(SHADE_D65_10, 2000, 1000, X, CONES, y, CONES, Z, CONES, de, CONES);
}

static void answer(const char *call, shade_sorted sorted)
{
    printf("-- %s: %u, %s\n", call, (unsigned)sorted.number, shade_refusal_text(sorted.number));
}

/* Puts the cones' numbers in the order of DE, the largest first; of equal ones the lower number stays first. */
static void rank(const double de[CONES], size_t order[CONES])
{
    for (size_t cone = 0; cone < CONES; cone++) {
        size_t place = cone;
        for (; place > 0 && de[order[place - 1]] < de[cone]; place--)
            order[place] = order[place - 1];
        order[place] = cone;
    }
}

int main(void)
{
    double de[CONES], broken[CONES], zero = 0;
    size_t order[CONES];

    shade_sorted sorted = sort(Y, de);
    answer("sort", sorted);
    if (sorted.number != 0)
        return 1;
    printf("mean of %u cones: L*=%.4f a*=%.4f b*=%.4f\n", (unsigned)sorted.cones, sorted.lightness, sorted.a, sorted.b);
    rank(de, order);
    for (size_t place = 0; place < CONES; place++)
        printf("cone %2u DE=%.4f%s\n", (unsigned)order[place], de[order[place]],
               order[place] == sorted.farthest ? " farthest" : "");

    /* a refused sort says which cone it is, and leaves the results of the one before */
    for (size_t cone = 0; cone < CONES; cone++)
        broken[cone] = cone == 4 ? zero / zero : Y[cone];
    sorted = sort(broken, de);
    answer("sort without a Y of cone 4", sorted);
    printf("refused: cone %u\n", (unsigned)sorted.cone);
    printf("still there: cone %u DE=%.4f\n", (unsigned)order[0], de[order[0]]);
    return 0;
}
