/* Replays the texts of answers.rs. Through libshade.a: the number that each call answers and every byte of the room,
 * what lies before and after the lent part included. Through libprobe.a: the figures, names, verdict and wrong line
 * that a ticket hands back, and what the program prints.
 *
 * Usage: ticket-answers | ticket    (answers.rs tells what a record holds)
 *
 * Shows the first ten differences. Status 1 if there is any, or if texts are missing. */
#include "../shared/replay.h"

void *memset(void *, int, size_t);

enum { EDGE = 64, LENT = 1024, ROOM = EDGE + LENT + EDGE, LONGEST = 70000, PRINTED = 200, FEWEST = 280000 };

/* Numbers are little-endian, as those of an x86-64 are. */
struct header {
    uint32_t text, printed, calls, line;
    struct answer handed;
};
struct call {
    uint64_t length, column, number;
};

/* Calls are lent a part of this room that begins at EDGE. Where nobody has written it is as the guards, none of which
 * is a byte of a report. */
static uint8_t room[ROOM], guards[ROOM];
/* A text with EDGE bytes on either side. */
static uint8_t text[EDGE + LONGEST + EDGE];
static uint8_t printed[PRINTED];
static uint64_t texts, calls, differences;

static void show(const char *what, const uint8_t *bytes, size_t n)
{
    printf("    %s, %lu bytes: ", what, n);
    for (size_t place = 0; place < n && place < 400; place++) {
        uint8_t byte = bytes[place];
        if (byte == '\n')
            printf("\\n");
        else if (byte < ' ' || byte > '~' || byte == '\\')
            printf("\\x%02x", byte);
        else
            printf("%c", byte);
    }
    printf(n > 400 ? " ..\n" : "\n");
}

/* Whether the room holds these bytes from a place of the lent part on, and its guards elsewhere. Leaves it with guards
 * alone. */
static int holds(size_t column, const uint8_t *bytes, size_t n)
{
    size_t from = EDGE + column, to = from + n;
    int same = memcmp(room, guards, from) == 0 && memcmp(room + from, bytes, n) == 0 &&
               memcmp(room + to, guards + to, ROOM - to) == 0;
    if (same)
        memcpy(room + from, guards + from, n);
    return same;
}

/* Counts a call that differs, shows it if it is among the first, and clears the room. */
static void differs(const char *name, const struct header *h, uint64_t length, uint64_t column, uint64_t got,
                    uint64_t wanted)
{
    if (differences++ < SHOWN) {
        size_t first = 0, end = ROOM;
        while (first < ROOM && room[first] == guards[first])
            first++;
        while (end > first && room[end - 1] == guards[end - 1])
            end--;
        printf("differs: %s, lent %lu, column %lu: returned %lu for %lu\n", name, length, column, got, wanted);
        show("text", text + EDGE, h->text);
        show("the paper prints", printed, h->printed);
        if (end > first) {
            printf("    from place %ld on:\n", (int64_t)first - EDGE);
            show("written", room + first, end - first);
        }
    }
    memcpy(room, guards, ROOM);
}

/* A report is put from the column on; a refused call writes nothing. */
static void call_ticket(const struct header *h, const struct call *c)
{
    uint32_t number = shade_ticket(text + EDGE, h->text, room + EDGE, c->length, c->column);
    int written = c->number == 0;
    calls++;
    if (!holds(written ? c->column : 0, printed, written ? h->printed : 0) || number != c->number)
        differs("shade_ticket", h, c->length, c->column, number, c->number);
}

/* What is printed is put at the start, if the slice holds it; otherwise nothing is, and the length is 0. */
static void call_printed(const struct header *h, size_t length)
{
    size_t wanted = length >= h->printed ? h->printed : 0;
    size_t got = probe_printed(text + EDGE, h->text, room + EDGE, length);
    calls++;
    if (!holds(0, printed, wanted) || got != wanted)
        differs("probe_printed", h, length, 0, got, wanted);
}

static void call_handed(const struct header *h)
{
    struct answer got = of_specimen(probe_ticket(text + EDGE, h->text));
    uint32_t line = probe_ticket_line(text + EDGE, h->text);
    calls++;
    if (line != h->line)
        differs("probe_ticket_line", h, 0, 0, line, h->line);
    if (answers_agree(&got, &h->handed))
        return;
    differs("probe_ticket", h, 0, 0, got.number, h->handed.number);
    if (differences <= SHOWN)
        show_answer(&got, &h->handed);
}

/* One record. Gives 0 if it is cut short or cannot be. */
static int compare(const struct header *h)
{
    /* Right and damaged texts take turns, so every other text would be all of one kind. */
    uint64_t turn = texts / 2;
    /* what a reader that goes past the end would take for the last LF, or for one more digit */
    int beyond = turn % 2 ? '\n' : '0';
    if (h->text > LONGEST || h->printed > PRINTED || h->printed == 0)
        return 0;
    if (!take(text + EDGE, h->text) || !take(printed, h->printed))
        return 0;
    memset(text + EDGE + h->text, beyond, EDGE);
    for (uint32_t number = 0; number < h->calls; number++) {
        struct call c;
        if (!take(&c, sizeof c) || c.length > LENT || (c.number == 0 && c.column + h->printed > c.length))
            return 0;
        call_ticket(h, &c);
    }
    call_handed(h);
    /* Reports have been compared above, so only some of them are also printed. A quarter of the texts is printed into a
     * slice that is too short by a byte, or by any number of them. */
    size_t short_by = turn % 8 ? 1 : 1 + turn / 8 % h->printed;
    if (h->handed.number != 0 || turn % 3 == 0)
        call_printed(h, h->printed + turn / 2 % 2);
    if (turn % 4 == 0)
        call_printed(h, h->printed - short_by);
    texts++;
    return 1;
}

/* Compares all texts. Tells whether the list is whole: the last record says how many there are, and nothing comes after
 * it. A list cut short is noticed, and so is what tests/run adds if the program that makes the list fails. */
static int whole_list(void)
{
    struct header h;
    while (take(&h, sizeof h)) {
        if (h.text == (uint32_t)-1)
            return h.printed == texts && !take(&h, 1);
        if (!compare(&h))
            return 0;
    }
    return 0;
}

int main(void)
{
    for (size_t place = 0; place < ROOM; place++)
        guards[place] = 0x80 | (uint8_t)(place * 37);
    memcpy(room, guards, ROOM);
    memset(text, '0', sizeof text);
    int whole = whole_list();
    whole = list_holds("ticket", whole, texts, FEWEST);
    printf("ticket: %lu tickets, %lu calls, %lu differences\n", texts, calls, differences);
    return !whole || differences != 0;
}
