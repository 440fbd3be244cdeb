/* Texts for a ticket call, made by a generator with a fixed seed: right tickets, tickets with numbers out of range,
 * both of them damaged in some places, and any bytes. */
#include "../shared/fence.h"

size_t strlen(const char *);

/* The text made last. */
static uint8_t words[PATTERN];
static size_t length;

/* Steele, Lea and Flood's splitmix64, as in ../shared/random.rs. */
static uint64_t next(void)
{
    static uint64_t state = 7;
    uint64_t mixed = state += 0x9e3779b97f4a7c15;
    mixed = (mixed ^ mixed >> 30) * 0xbf58476d1ce4e5b9;
    mixed = (mixed ^ mixed >> 27) * 0x94d049bb133111eb;
    return mixed ^ mixed >> 31;
}

static size_t below(size_t end) { return next() % end; }

static void put(const char *more)
{
    size_t size = strlen(more);
    memcpy(words + length, more, size);
    length += size;
}

static void put_one_of(const char *const *list, size_t count) { put(list[below(count)]); }

static void put_digits(size_t most)
{
    for (size_t count = 1 + below(most); count > 0; count--)
        words[length++] = (uint8_t)('0' + below(10));
}

static void put_number(size_t digits, size_t decimals)
{
    put_digits(digits);
    if (below(2) == 0) {
        put(".");
        put_digits(decimals);
    }
}

/* l, c or tol: mostly in range. */
static void put_factor(const char *key)
{
    put(key);
    put_number(below(16) == 0 ? 2 : 1, 3);
    put("\n");
}

/* Three numbers, mostly in range: of three digits they seldom would be. */
static void put_reading(const char *key, int may_be_negative)
{
    put(key);
    for (int number = 0; number < 3; number++) {
        put(number > 0 ? " " : "");
        put(may_be_negative && number > 0 && below(2) == 0 ? "-" : "");
        put_number(below(24) == 0 ? 3 : 2, 6);
    }
    put("\n");
}

static void make_ticket(void)
{
    static const char *const formulas[] = {"CIELAB", "CIE94", "CMC"};
    static const char *const whites[] = {"D65/10", "D65/2", "C/10", "C/2"};
    int lab = below(2) == 0;
    put("formula=");
    put_one_of(formulas, 3);
    put("\nwhite=");
    put_one_of(whites, 4);
    put("\n");
    if (below(3) != 0) {
        put_factor("l=");
        put_factor("c=");
    }
    put_factor("tol=");
    put(lab ? "space=LAB\n" : "space=XYZ\n");
    put_reading("ref=", lab);
    put_reading("test=", lab);
}

/* A byte that a ticket can hold, or any. */
static uint8_t any_byte(void)
{
    static const char alphabet[] = "\n\n =.-0123456789formulawhitespacerefCMCIELAB94D65/XYZ\r\t+e";
    return below(4) == 0 ? (uint8_t)next() : (uint8_t)alphabet[below(sizeof alphabet - 1)];
}

/* Another byte, one more, one less, an early end, a piece twice, or a long tail. */
static void damage(void)
{
    size_t at = below(length), size = below(length - at);
    switch (below(length < PATTERN / 2 ? 8 : 1)) {
    case 0:
    case 1:
        words[at] = any_byte();
        break;
    case 2:
    case 3:
        for (size_t last = length++; last > at; last--)
            words[last] = words[last - 1];
        words[at] = any_byte();
        break;
    case 4:
    case 5:
        for (length--; at < length; at++)
            words[at] = words[at + 1];
        break;
    case 6:
        length = at + 1;
        break;
    default:
        memcpy(words + length, words + at, size);
        length += size;
        if (below(16) == 0)
            for (size_t end = SHADE_TICKET_BYTES - 1 + below(3); length < end;)
                words[length++] = any_byte();
    }
}

static void make_text(void)
{
    length = 0;
    if (below(8) == 0) {
        for (size_t size = below(16) == 0 ? below(SHADE_TICKET_BYTES + 8) : below(200); length < size;)
            words[length++] = any_byte();
        return;
    }
    make_ticket();
    if (below(3) == 0)
        for (size_t times = 1 + below(3); times > 0 && length > 0; times--)
            damage();
}
