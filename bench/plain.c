/* The same calls in plain C, and the calculation alone. */
#include "pairs.h"
#include "plain.h"

static struct standard xyz_standards[PAIRS], lab_standards[PAIRS];
static struct colour test;
static struct differences found;

static int set(struct standard *s)
{
    return set_standard(s, WHITE, L_THOUSANDTHS / 1000.0, C_THOUSANDTHS / 1000.0, TOLERANCE_THOUSANDTHS / 1000.0);
}

static int load_xyz(int i)
{
    struct triple r = references[i].xyz;
    return set(&xyz_standards[i]) | colour_of_xyz(&xyz_standards[i].reference, WHITE, r.x, r.y, r.z);
}

static int load_lab(int i)
{
    struct triple r = references[i].lab;
    return set(&lab_standards[i]) | colour_of_lab(&lab_standards[i].reference, r.x, r.y, r.z);
}

static int load(int i)
{
    return load_xyz(i) | load_lab(i);
}

static int calculate_xyz(int i)
{
    struct triple t = tests[i].xyz;
    int refused = colour_of_xyz(&test, xyz_standards[i].white, t.x, t.y, t.z);
    found = compare(&xyz_standards[i], test);
    return refused;
}

static int calculate_lab(int i)
{
    struct triple t = tests[i].lab;
    int refused = colour_of_lab(&test, t.x, t.y, t.z);
    found = compare(&lab_standards[i], test);
    return refused;
}

static int judge_xyz(int i)
{
    return calculate_xyz(i) | report(&xyz_standards[i], test, found, room, ROOM);
}

static int judge_lab(int i)
{
    return calculate_lab(i) | report(&lab_standards[i], test, found, room, ROOM);
}

static int ticket_xyz(int i)
{
    return judge_ticket(xyz_tickets[i], room, ROOM);
}

static int ticket_lab(int i)
{
    return judge_ticket(lab_tickets[i], room, ROOM);
}

static const struct row rows[] = {
    {"load_xyz", load_xyz},           {"load_lab", load_lab},     {"calculate_xyz", calculate_xyz},
    {"calculate_lab", calculate_lab}, {"judge_xyz", judge_xyz},   {"judge_lab", judge_lab},
    {"ticket_xyz", ticket_xyz},       {"ticket_lab", ticket_lab}, {0, 0},
};

int main(int count, char **words)
{
    return run(rows, load, count, words);
}
