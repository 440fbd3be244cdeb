/* The calls of libshade.a. */
#include "../tests/shared/walk.h"
#include "pairs.h"
#include "shade.h"

static uint8_t xyz_stations[PAIRS][SHADE_STATION_BYTES], lab_stations[PAIRS][SHADE_STATION_BYTES];

/* All test specimens as the cones of one delivery: x, y, z of each, or L*, a*, b*. */
static double xyz_cones[3][PAIRS], lab_cones[3][PAIRS], de[PAIRS];

static int load_xyz(int i)
{
    struct triple r = references[i].xyz;
    return (int)shade_load_xyz(xyz_stations[i], SHADE_STATION_BYTES, SHADE_CMC, WHITE, L_THOUSANDTHS, C_THOUSANDTHS,
                               TOLERANCE_THOUSANDTHS, r.x, r.y, r.z);
}

static int load_lab(int i)
{
    struct triple r = references[i].lab;
    return (int)shade_load_lab(lab_stations[i], SHADE_STATION_BYTES, SHADE_CMC, WHITE, L_THOUSANDTHS, C_THOUSANDTHS,
                               TOLERANCE_THOUSANDTHS, r.x, r.y, r.z);
}

static void put_cone(double cones[3][PAIRS], int i, struct triple t)
{
    cones[0][i] = t.x;
    cones[1][i] = t.y;
    cones[2][i] = t.z;
}

static int load(int i)
{
    put_cone(xyz_cones, i, tests[i].xyz);
    put_cone(lab_cones, i, tests[i].lab);
    return load_xyz(i) | load_lab(i);
}

static int judge_xyz(int i)
{
    struct triple t = tests[i].xyz;
    return (int)shade_judge_xyz(xyz_stations[i], SHADE_STATION_BYTES, t.x, t.y, t.z, (uint8_t *)room, ROOM, 0);
}

static int judge_lab(int i)
{
    struct triple t = tests[i].lab;
    return (int)shade_judge_lab(lab_stations[i], SHADE_STATION_BYTES, t.x, t.y, t.z, (uint8_t *)room, ROOM, 0);
}

static int ticket_xyz(int i)
{
    return (int)shade_ticket((const uint8_t *)xyz_tickets[i], xyz_lengths[i], (uint8_t *)room, ROOM, 0);
}

static int ticket_lab(int i)
{
    return (int)shade_ticket((const uint8_t *)lab_tickets[i], lab_lengths[i], (uint8_t *)room, ROOM, 0);
}

/* One call for all pairs, at the first: the mean over the pairs is what a cone costs. */
static int sort_xyz(int i)
{
    return i == 0 ? (int)shade_sort_xyz(WHITE, L_THOUSANDTHS, C_THOUSANDTHS, xyz_cones[0], PAIRS, xyz_cones[1], PAIRS,
                                        xyz_cones[2], PAIRS, de, PAIRS)
                        .number
                  : 0;
}

static int sort_lab(int i)
{
    return i == 0 ? (int)shade_sort_lab(WHITE, L_THOUSANDTHS, C_THOUSANDTHS, lab_cones[0], PAIRS, lab_cones[1], PAIRS,
                                        lab_cones[2], PAIRS, de, PAIRS)
                        .number
                  : 0;
}

static const struct row rows[] = {
    {"load_xyz", load_xyz},   {"load_lab", load_lab},     {"judge_xyz", judge_xyz}, {"judge_lab", judge_lab},
    {"ticket_xyz", ticket_xyz}, {"ticket_lab", ticket_lab}, {"sort_xyz", sort_xyz},   {"sort_lab", sort_lab},
    {0, 0},
};

/* How many divisions of whole numbers each call makes, the mean over the pairs. */
static int divisions(void)
{
    int refused = 0;
    make_pairs();
    make_tickets();
    for (int i = 0; i < PAIRS; i++)
        refused |= load(i);
    for (const struct row *row = rows; row->name != 0; row++) {
        walk_on();
        for (int i = 0; i < PAIRS; i++)
            refused |= row->call(i);
        walk_off();
        refused |= walked.all == 0;
        printf("%-10s %5.1f divisions\n", row->name, (double)walked.divide / PAIRS);
    }
    return refused != 0;
}

/* Whether each judgement of a pair takes as few instructions as docs/PERFORMANCE.md holds it to. */
static int held(void)
{
    static const struct {
        const char *name;
        int (*judge)(int i);
        uint64_t most;
    } bars[] = {{"judge_lab", judge_lab, 2675}, {"judge_xyz", judge_xyz, 3600}};
    int above = 0;
    make_pairs();
    for (int i = 0; i < PAIRS; i++)
        above |= load(i);
    for (int b = 0; b < 2; b++) {
        uint64_t most = 0;
        for (int i = 0; i < PAIRS; i++) {
            walk_on();
            above |= bars[b].judge(i);
            walk_off();
            most = walked.all > most ? walked.all : most;
        }
        above |= most > bars[b].most || most == 0;
        printf("%s: at most %d instructions, of %d\n", bars[b].name, (int)most, (int)bars[b].most);
    }
    return above != 0;
}

int main(int count, char **words)
{
    if (count == 2 && strcmp(words[1], "held") == 0)
        return held();
    if (count == 2 && strcmp(words[1], "divisions") == 0)
        return divisions();
    return run(rows, load, count, words);
}
