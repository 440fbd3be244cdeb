/* A reading that is an infinity or a quiet NaN is refused with 5 in each call that takes readings, and raises the
 * processor's invalid operation in none: a host may have made that a trap. No contract speaks of it.
 *
 * Usage: raised
 *
 * No headers but shade.h: this is an x86-64 program wherever it is compiled. */
#include "shade.h"

int printf(const char *, ...);

enum { INVALID = 1, RAISED = 0x3f, ROOM = 200, CALLS = 6, PLACES = 3 };

static uint8_t station[SHADE_STATION_BYTES], room[ROOM];

/* The number of a call whose reading has v at one of its three places. */
static uint32_t answered(int call, int place, double v)
{
    uint8_t other[SHADE_STATION_BYTES] = {0};
    double r[PLACES] = {50, 50, 50}, first[2] = {50, 50}, second[2] = {50, 50}, third[2] = {50, 50}, de[2];
    double *slices[PLACES] = {first, second, third};
    r[place] = v;
    slices[place][1] = v;
    switch (call) {
    case 0: return shade_load_xyz(other, sizeof other, SHADE_CMC, 1, 2000, 1000, 1000, r[0], r[1], r[2]);
    case 1: return shade_load_lab(other, sizeof other, SHADE_CMC, 1, 2000, 1000, 1000, r[0], r[1], r[2]);
    case 2: return shade_judge_xyz(station, sizeof station, r[0], r[1], r[2], room, ROOM, 0);
    case 3: return shade_judge_lab(station, sizeof station, r[0], r[1], r[2], room, ROOM, 0);
    case 4: return shade_sort_xyz(1, 2000, 1000, first, 2, second, 2, third, 2, de, 2).number;
    default: return shade_sort_lab(1, 2000, 1000, first, 2, second, 2, third, 2, de, 2).number;
    }
}

/* Whether the call raises the invalid operation. Its state is cleared before. */
static int raises(int call, int place, double v, uint32_t *number)
{
    uint32_t state;
    __asm__ volatile("stmxcsr %0" : "=m"(state));
    state &= ~(uint32_t)RAISED;
    __asm__ volatile("ldmxcsr %0" ::"m"(state));
    *number = answered(call, place, v);
    __asm__ volatile("stmxcsr %0" : "=m"(state));
    return (state & INVALID) != 0;
}

int main(void)
{
    static const uint64_t readings[] = {0x7ff0000000000000, 0xfff0000000000000, 0x7ff8000000000000, 0xfff8000000000000};
    int calls = 0, differences = shade_load_lab(station, sizeof station, SHADE_CMC, 1, 2000, 1000, 1000, 50, 0, 0) != 0;
    for (int call = 0; call < CALLS; call++)
        for (int place = 0; place < PLACES; place++)
            for (int i = 0; i < 4; i++) {
                union {
                    uint64_t bits;
                    double value;
                } reading = {readings[i]};
                uint32_t number = 0;
                int raised = raises(call, place, reading.value, &number);
                calls++;
                if (raised || number != SHADE_REFUSED_NOT_A_NUMBER) {
                    printf("differs: call %d, place %d, reading %d: number %u%s\n", call, place, i, (unsigned)number,
                           raised ? ", invalid operation" : "");
                    differences++;
                }
            }
    /* an operation that is invalid shows */
    volatile double zero = 0, quotient = 0;
    uint32_t state;
    quotient = zero / zero;
    (void)quotient;
    __asm__ volatile("stmxcsr %0" : "=m"(state));
    differences += (state & INVALID) == 0;
    printf("raised: %d calls, %d differences\n", calls, differences);
    return differences != 0;
}
