/* Replays the runs of answers.rs and compares every answer with the paper's. Through libshade.a: the number, what the
 * two stations hold, and every byte of the room. Through libprobe.a: the figures, names and verdict that the same call
 * hands back. No call may touch a byte outside its slices (fence.h).
 *
 * Usage: station-answers | station    (answers.rs tells what a record holds)
 *
 * Shows the first ten differences. Status 1 if there is any, or if calls are missing. */
#include "../shared/fence.h"
#include "../shared/replay.h"

enum { START, LOAD_XYZ, LOAD_LAB, JUDGE_XYZ, JUDGE_LAB, TICKET, END };
enum { STATIONS = 2, FEWEST = 2000000 };

/* A record's numbers are little-endian, as those of an x86-64 are. */
struct record {
    uint64_t kind, number, station, station_len, room_len, column, text_len, report_len;
    uint32_t formula, white, l, c, tolerance, zero;
    double reading[3];
    uint8_t after[STATIONS][SHADE_STATION_BYTES];
    struct answer handed;
};

static const char *const kinds[] = {"start",         "load X, Y, Z",     "load L*, a*, b*",
                                    "judge X, Y, Z", "judge L*, a*, b*", "ticket"};

/* the two stations of a run, a slice of another length in the place of one, a room, a text */
static struct lent stations[STATIONS], lents[3];
static struct lent *const other = &lents[0], *const room = &lents[1], *const text = &lents[2];
static uint8_t report[PATTERN];
static uint64_t runs, differences;

/* The host writes both stations, each against the fence whose turn it is. */
static void start(const struct record *r)
{
    for (size_t one = 0; one < STATIONS; one++)
        memcpy(lend(&stations[one], SHADE_STATION_BYTES, (runs >> one) & 1), r->after[one], SHADE_STATION_BYTES);
    runs++;
}

/* The slice of a load or a judgement: the station itself, or one of another length that holds the station's bytes over
 * and over, so that its length alone tells that it is none. */
static struct lent *station_of(const struct record *r)
{
    struct lent *station = &stations[r->station];
    if (r->station_len == SHADE_STATION_BYTES)
        return station;
    lend(other, r->station_len, calls & 1);
    for (size_t at = 0; at < r->station_len; at++)
        other->slice[at] = station->slice[at % SHADE_STATION_BYTES];
    return other;
}

static uint32_t call(const struct record *r, const struct lent *station)
{
    uint8_t *bytes = pointer(station, calls & 2), *to = pointer(room, calls & 4), *from = pointer(text, calls & 8);
    const double *v = r->reading;
    switch (r->kind) {
    case LOAD_XYZ:
        return shade_load_xyz(bytes, station->length, r->formula, r->white, r->l, r->c, r->tolerance, v[0], v[1], v[2]);
    case LOAD_LAB:
        return shade_load_lab(bytes, station->length, r->formula, r->white, r->l, r->c, r->tolerance, v[0], v[1], v[2]);
    case JUDGE_XYZ:
        return shade_judge_xyz(bytes, station->length, v[0], v[1], v[2], to, room->length, r->column);
    case JUDGE_LAB:
        return shade_judge_lab(bytes, station->length, v[0], v[1], v[2], to, room->length, r->column);
    default:
        return shade_ticket(from, text->length, to, room->length, r->column);
    }
}

/* What the same call hands back. */
static struct answer hand_back(const struct record *r, const struct lent *station)
{
    const uint8_t *bytes = pointer(station, calls & 2), *from = pointer(text, calls & 8);
    const double *v = r->reading;
    switch (r->kind) {
    case LOAD_XYZ:
        return of_reference(probe_load_xyz(r->formula, r->white, r->l, r->c, r->tolerance, v[0], v[1], v[2]));
    case LOAD_LAB:
        return of_reference(probe_load_lab(r->formula, r->white, r->l, r->c, r->tolerance, v[0], v[1], v[2]));
    case JUDGE_XYZ:
        return of_specimen(probe_judge_xyz(bytes, station->length, v[0], v[1], v[2]));
    case JUDGE_LAB:
        return of_specimen(probe_judge_lab(bytes, station->length, v[0], v[1], v[2]));
    default:
        return of_specimen(probe_ticket(from, text->length));
    }
}

static int stations_agree(const struct record *r)
{
    int same = 1;
    for (size_t one = 0; one < STATIONS; one++)
        same = same && memcmp(stations[one].slice, r->after[one], SHADE_STATION_BYTES) == 0 &&
               guards_stand(&stations[one]);
    if (r->kind == TICKET || r->station_len == SHADE_STATION_BYTES)
        return same;
    /* no call writes a slice of another length */
    for (size_t at = 0; at < other->length; at++)
        same = same && other->slice[at] == r->after[r->station][at % SHADE_STATION_BYTES];
    return same && guards_stand(other);
}

/* The report stands from the column on, and what was there before stands everywhere else. */
static int room_agrees(const struct record *r)
{
    size_t begin = r->report_len == 0 ? 0 : r->column, end = begin + r->report_len;
    return guards_stand(room) && memcmp(room->slice, pattern, begin) == 0 &&
           memcmp(room->slice + begin, report, r->report_len) == 0 &&
           memcmp(room->slice + end, pattern + end, room->length - end) == 0;
}

static void show(const struct record *r, uint32_t number, int station, int page, int kept)
{
    const double *v = r->reading;
    printf("differs: call %lu, in run %lu: %s, station of %lu, room of %lu, column %lu\n", calls, runs, kinds[r->kind],
           r->station_len, r->room_len, r->column);
    printf("    returned %u for %lu%s%s%s\n", number, r->number, station ? "" : "; another station",
           page ? "" : "; another room", kept ? "" : "; another text");
    if (r->kind != TICKET)
        printf("    %u %u %u %u %u, (%.17g, %.17g, %.17g)\n", r->formula, r->white, r->l, r->c, r->tolerance, v[0],
               v[1], v[2]);
}

static void compare(const struct record *r, const uint8_t *words)
{
    memcpy(lend(room, r->room_len, calls & 16), pattern, r->room_len);
    memcpy(lend(text, r->text_len, calls & 32), words, r->text_len);
    struct lent *slice = station_of(r);
    stir_stack();
    uint32_t number = call(r, slice);
    stir_stack();
    struct answer handed = hand_back(r, slice);
    int station = stations_agree(r), page = room_agrees(r);
    int kept = memcmp(text->slice, words, text->length) == 0 && guards_stand(text);
    calls++;
    if (number == r->number && station && page && kept && answers_agree(&handed, &r->handed))
        return;
    if (differences++ >= SHOWN)
        return;
    show(r, number, station, page, kept);
    show_answer(&handed, &r->handed);
}

/* A record that this program can follow. */
static int is_sound(const struct record *r)
{
    return r->kind < END && r->station < STATIONS && r->station_len <= PATTERN && r->text_len <= PATTERN &&
           r->room_len <= PATTERN && (r->kind == START || runs != 0) &&
           (r->report_len == 0 || (r->report_len <= r->room_len && r->column <= r->room_len - r->report_len));
}

/* Makes all calls. Tells whether the list is whole: the last record says how many calls and runs there are, and nothing
 * comes after it. A list cut short is noticed, and so is what tests/run adds if what makes the list fails. */
static int whole_list(void)
{
    static uint8_t words[PATTERN];
    struct record r;
    while (take(&r, sizeof r)) {
        if (r.kind == END)
            return r.number == calls && r.station == runs && !take(&r, 1);
        if (!is_sound(&r) || !take(words, r.text_len) || !take(report, r.report_len))
            return 0;
        if (r.kind == START)
            start(&r);
        else
            compare(&r, words);
    }
    return 0;
}

int main(void)
{
    set_fences(stations, STATIONS);
    set_fences(lents, sizeof lents / sizeof *lents);
    int whole = whole_list();
    whole = list_holds("station", whole, calls, FEWEST);
    printf("station: %lu calls in %lu runs, %lu differences\n", calls, runs, differences);
    return !whole || differences != 0;
}
