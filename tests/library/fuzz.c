/* A million texts (texts.h) for shade_ticket. No answer is known beforehand. Each has to be a number that a ticket can
 * give; a refusal writes nothing; a report is twelve lines, stands from the column on, and just fits a room of its
 * length.
 *
 * Usage: fuzz
 *
 * Shows the first ten texts that fail. Status 1 if there is any, or if one of the numbers comes seldom. */
#include "texts.h"

enum { TEXTS = 1000000, SHOWN = 10, LINES = 12, SELDOM = 500 };

static struct lent lents[2];
static struct lent *const room = &lents[0], *const text = &lents[1];
static uint64_t faults, answers[12];

/* Calls with a room of that length; the text and what lies around it have to stay. */
static int call(size_t size, size_t column, uint32_t *number)
{
    memcpy(lend(room, size, calls & 1), pattern, size);
    memcpy(lend(text, length, calls & 2), words, length);
    stir_stack();
    *number = shade_ticket(pointer(text, calls & 4), length, pointer(room, calls & 8), size, column);
    calls++;
    return guards_stand(room) && guards_stand(text) && memcmp(text->slice, words, length) == 0;
}

static int room_unchanged(void) { return memcmp(room->slice, pattern, room->length) == 0; }

/* How many bytes were written from the column on: no byte of a report is one of the pattern's. */
static size_t written(size_t column)
{
    size_t end = column;
    while (end < room->length && room->slice[end] != pattern[end])
        end++;
    return end - column;
}

/* Twelve lines, and nothing before them nor after them. */
static int is_report(size_t column, size_t size)
{
    size_t lines = 0, end = column + size;
    for (size_t at = column; at < end; at++)
        lines += room->slice[at] == '\n';
    return size > 0 && lines == LINES && room->slice[end - 1] == '\n' && memcmp(room->slice, pattern, column) == 0 &&
           memcmp(room->slice + end, pattern + end, room->length - end) == 0;
}

/* The room is as the number says. Counts the number. */
static int room_holds(size_t column, uint32_t number)
{
    answers[number <= 10 ? number : 11]++;
    return number == 0 ? is_report(column, written(column)) : room_unchanged();
}

/* The same text with any room and column: the same number, unless the room is too short. */
static int any_room_holds(uint32_t number)
{
    uint32_t again;
    size_t column = below(3) == 0 ? 0 : below(3) == 0 ? 0 - below(400) : below(400);
    return call(below(4) == 0 ? 0 : below(500), column, &again) && room_holds(column, again) &&
           (again == number || (number == 0 && again == SHADE_REFUSED_LENGTH));
}

/* An accepted text with a room that just holds its report, and with one that is too short by a byte. */
static int short_room_holds(size_t column, size_t size)
{
    uint32_t number;
    return call(column + size, column, &number) && number == 0 && is_report(column, size) &&
           call(column + size - 1, column, &number) && number == SHADE_REFUSED_LENGTH && room_unchanged();
}

static int holds(void)
{
    uint32_t number;
    size_t column = below(4) == 0 ? below(300) : 0;
    if (!call(column + SHADE_REPORT_BYTES + below(3), column, &number) || !room_holds(column, number) ||
        number == SHADE_REFUSED_LENGTH || (length > SHADE_TICKET_BYTES && number != SHADE_REFUSED_TICKET))
        return 0;
    size_t size = number == 0 ? written(column) : 0;
    switch (below(8)) {
    case 0:
        return any_room_holds(number);
    case 1:
        return number != 0 || short_room_holds(column, size);
    default:
        return 1;
    }
}

/* Every number that a ticket can give came often, and no other did. */
static int numbers_hold(void)
{
    static const int given[12] = {1, 0, 0, 1, 1, 0, 1, 1, 1, 0, 1, 0};
    int hold = 1;
    for (size_t number = 0; number < 12; number++) {
        if (given[number] ? answers[number] >= SELDOM : answers[number] == 0)
            continue;
        printf("fuzz: %lu answers %lu\n", answers[number], number);
        hold = 0;
    }
    return hold;
}

static void show(uint64_t count)
{
    printf("fails: text %lu, %lu bytes: ", count, length);
    for (size_t at = 0; at < length; at++)
        printf(words[at] >= ' ' && words[at] <= '~' ? "%c" : "\\x%02x", words[at]);
    printf("\n");
}

int main(void)
{
    set_fences(lents, sizeof lents / sizeof *lents);
    for (uint64_t count = 0; count < TEXTS; count++) {
        make_text();
        if (!holds() && faults++ < SHOWN)
            show(count);
    }
    int numbers = numbers_hold();
    printf("fuzz: %d texts, %lu calls, %lu faults\n", TEXTS, calls, faults);
    return !numbers || faults != 0;
}
