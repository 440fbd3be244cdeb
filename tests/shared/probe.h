/* probe.h: the C entries of libprobe.a. They are for these tests alone: what the proved crates answer below the calls
 * of shade.h. A slice is a pointer and then a length, as there; here some are of 8-byte numbers, and the length counts
 * those. */
#ifndef PROBE_H
#define PROBE_H

#include <stddef.h>
#include <stdint.h>

/* The greatest whole number whose square, or cube, is at most x. */
uint64_t probe_square_root(uint64_t x);
uint64_t probe_cube_root(uint64_t x);

/* A reading's units into the first place of out, if it has one: quantity 1 is X, Y or Z, 2 is L*, any other a* or b*. A
 * decimal is below zero unless `below` is 0. Returned is 0 or the refusal, 5 or 6, which leaves out as it was. */
uint32_t probe_units(uint32_t quantity, double x, int64_t *out, size_t out_len);
uint32_t probe_decimal(uint32_t quantity, uint32_t below, uint64_t millionths, int64_t *out, size_t out_len);

/* Grid units as they are handed back. */
double probe_value(int64_t units);

/* A colour's L*, a*, b* in grid units, into an out of three places and into no other. Returned is 0 or the refusal, 2,
 * 5, 6 or 8, which leaves out as it was. */
uint32_t probe_place_xyz(uint32_t white, double x, double y, double z, int64_t *out, size_t out_len);
uint32_t probe_place_lab(uint32_t white, double lightness, double a, double b, int64_t *out, size_t out_len);

/* What a load hands back: 0 or its refusal, then the reference's L*, a*, b*, C, SL, SC, SH, all 0.0 on a refusal. */
typedef struct {
    uint32_t number;
    double lightness, a, b, c, sl, sc, sh;
} probe_reference;

/* Names and the verdict, each counted from 1 in the paper's order; 0 is none.
 *     lightness      1 lighter, 2 darker, 3 equal
 *     chroma         1 more, 2 less, 3 equal
 *     hue, bracket   1 redder, 2 yellower, 3 greener, 4 bluer; a hue is also 5 equal, and then has no bracket
 *     verdict        1 near, 2 pass, 3 fail */
typedef struct {
    uint32_t lightness, chroma, hue, bracket, verdict;
} probe_words;

/* What a judgement or a ticket hands back: 0 or its refusal, then the test specimen's L*, a*, b*, C, DL, DC, DH, DE,
 * and the words, every one 0.0 or 0 on a refusal. */
typedef struct {
    uint32_t number;
    double lightness, a, b, c, dl, dc, dh, de;
    probe_words words;
} probe_specimen;

_Static_assert(offsetof(probe_reference, lightness) == 8 && offsetof(probe_reference, sl) == 40, "as in libprobe.a");
_Static_assert(offsetof(probe_reference, sh) == 56 && sizeof(probe_reference) == 64, "as in libprobe.a");
_Static_assert(offsetof(probe_specimen, lightness) == 8 && offsetof(probe_specimen, dl) == 40, "as in libprobe.a");
_Static_assert(offsetof(probe_specimen, de) == 64 && offsetof(probe_specimen, words) == 72, "as in libprobe.a");
_Static_assert(offsetof(probe_words, verdict) == 16 && sizeof(probe_specimen) == 96, "as in libprobe.a");

/* They write nothing; a load has no station. */
probe_reference probe_load_xyz(uint32_t formula, uint32_t white, uint32_t l, uint32_t c, uint32_t tolerance, double x,
                               double y, double z);
probe_reference probe_load_lab(uint32_t formula, uint32_t white, uint32_t l, uint32_t c, uint32_t tolerance,
                               double lightness, double a, double b);
probe_specimen probe_judge_xyz(const uint8_t *station, size_t station_len, double x, double y, double z);
probe_specimen probe_judge_lab(const uint8_t *station, size_t station_len, double lightness, double a, double b);
probe_specimen probe_ticket(const uint8_t *text, size_t text_len);
/* The line that a ticket's answer carries: the first wrong one with refusal 7, else 0. */
uint32_t probe_ticket_line(const uint8_t *text, size_t text_len);

/* What the program prints for a text, at the start of out. Returned is its length, or 0 if out is too short. */
size_t probe_printed(const uint8_t *text, size_t text_len, uint8_t *out, size_t out_len);

#endif
