/* tsintovehy.h: the calls of libexport.a, a proved reader and writer of MGRS grid references. For C99 and C++, on x86-64 Linux.
 * `./archive` writes the archive to target/staticlib: link it, and nothing else.
 *
 * Answers. Every call answers an int64_t. 0 or more is the answer; below 0 is minus the number of a refusal, and
 * tsintovehy_rule gives its words. Two calls refuse nothing and answer negative numbers in the south: mgrs_latitude_band and
 * mgrs_utm_row. A call that refuses leaves every lent element as it was.
 *
 * Numbers. One unit is half a micrometre, 2,000,000 to the metre. Coordinates are units, latitudes and longitudes billionths of
 * a degree. p is digits per axis, 0 to 11; -1 means a bare zone. Zone 0 is UPS. Any number may be handed over: one that is out of
 * range gets its answer like any other.
 *
 * What the caller must keep to, since the proofs take it for granted and C cannot check it:
 * - a pointer and a length name that many readable bytes, or writable ones for `out`; (NULL, 0) is a fine empty slice;
 * - `position`, `metres` and `moved` point to that many elements, and are never NULL;
 * - what is lent for writing overlaps nothing else that the same call is handed;
 * - a `bool` holds 0 or 1, as every bool has that C or C++ made.
 * Every call returns. None allocates, and the archive has no state: calls may be made from several threads at once. */
#ifndef TSINTOVEHY_H
#define TSINTOVEHY_H

#include <stdbool.h>
#include <stddef.h>
#include <stdint.h>

#define TSINTOVEHY_UNITS_PER_METRE ((int64_t)2000000)
#define TSINTOVEHY_LONGEST 27 /* bytes that hold every reference */
#define TSINTOVEHY_NO_ROW 100 /* what mgrs_utm_row answers where there is none */
#define TSINTOVEHY_REFUSALS 22 /* refusals are 1 to 22 */

/* The two answers of reading. A bare zone is no square: software supplied its point, and nobody recorded it. */
enum { TSINTOVEHY_SQUARE = 0, TSINTOVEHY_BARE_ZONE = 1 };

/* The places in `position`. */
enum {
    TSINTOVEHY_ZONE = 0,     /* 1 to 60, or 0 for UPS */
    TSINTOVEHY_NORTH = 1,    /* 1 in the north, 0 in the south */
    TSINTOVEHY_BAND = 2,     /* the band letter, a capital */
    TSINTOVEHY_P = 3,        /* digits per axis; -1 for a bare zone */
    TSINTOVEHY_EASTING = 4,  /* units: the square's centre, or a bare zone's supplied point */
    TSINTOVEHY_NORTHING = 5, /* units, likewise */
    TSINTOVEHY_POSITION = 6  /* how many there are */
};

/* The places in `moved`. */
enum { TSINTOVEHY_MOVED_NORTH = 0, TSINTOVEHY_MOVED_EASTING = 1, TSINTOVEHY_MOVED_NORTHING = 2, TSINTOVEHY_MOVED = 3 };

#ifdef __cplusplus
extern "C" {
#endif

/* Reads `text`, any bytes; a to z count as A to Z. Answers TSINTOVEHY_SQUARE or TSINTOVEHY_BARE_ZONE and puts the six values into
 * `position`. A square lies 10^(11-p) units on each side of the centre that is given. Refusals 1 to 13. */
int64_t mgrs_read(const uint8_t *text, size_t text_length, int64_t position[6]);

/* The same in metres: easting and northing of the centre, or of a bare zone's supplied point, each the unit count divided by
 * 2,000,000 and rounded once. Answers TSINTOVEHY_SQUARE or TSINTOVEHY_BARE_ZONE. Refusals 1 to 13. */
int64_t mgrs_read_metres(const uint8_t *text, size_t text_length, double metres[2]);

/* Writes the reference of the square with p digits per axis that holds the point, or the bare zone for p = -1, into `out`. `band`
 * is a capital, and has to fit the point. Digits are cut, never rounded. Answers the length, at most TSINTOVEHY_LONGEST; no NUL
 * byte is added, and bytes of `out` beyond the length stay. Refusals 14 to 20. */
int64_t mgrs_write(int64_t zone, bool north, uint8_t band, int64_t p, int64_t easting, int64_t northing,
                   uint8_t *out, size_t out_length);

/* Writes the reference `text` at q digits per axis, q no more than it has; q = p gives its canonical form. Answers the length;
 * bytes of `out` beyond it stay. Refusals 1 to 13 of the text; 21 for a bare zone, or q not 0 to p; 20. */
int64_t mgrs_shorten(const uint8_t *text, size_t text_length, int64_t q, uint8_t *out, size_t out_length);

/* Whether the reference `a` covers the reference `b`: 1 or 0. It does if zone and band are equal and either a is a bare zone, or
 * both are squares and b's lies within a's. A square never covers a bare zone. Refusals 1 to 13, of a, else of b. */
int64_t mgrs_covers(const uint8_t *a, size_t a_length, const uint8_t *b, size_t b_length);

/* Whether a point lies in MGRS's range. Answers 0 and puts hemisphere (1 north, 0 south), easting and northing after the edge
 * rules into `moved`: an upper end is lowered by one unit, and a UTM point beyond the equator changes its hemisphere.
 * Refusals 14, 16 and 17. */
int64_t mgrs_check_coords(int64_t zone, bool north, int64_t easting, int64_t northing, int64_t moved[3]);

/* Whether a point lies in UTM's and UPS's range, which is MGRS's, 100 km wider on every side and with both ends in. Answers 0.
 * Nothing is lent. Refusals 14, 16 and 17. */
int64_t utm_check_coords(int64_t zone, bool north, int64_t easting, int64_t northing);

/* The band of a latitude: -10 for C to 9 for X, 8 degrees to a band; -10 also for all below and 9 for all above. Refuses nothing:
 * a negative answer is a southern band. */
int64_t mgrs_latitude_band(int64_t latitude);

/* The zone of a latitude and a longitude, with Norway's and Svalbard's exceptions; 0, UPS, below -80 degrees and from 84 up. Any
 * longitude is brought into range. Refusal 22. */
int64_t mgrs_standard_zone(int64_t latitude, int64_t longitude);

/* The row of a row letter: its tile of 100 km north of the equator, negative in the south, or TSINTOVEHY_NO_ROW. Band -10 to 9,
 * column 0 to 7, the letter's place among ABCDEFGHJKLMNPQRSTUV in an odd zone, 0 to 19. Refuses nothing: numbers out of range have
 * no row. */
int64_t mgrs_utm_row(int64_t band, int64_t column, int64_t letter);

#ifdef __cplusplus
}
#endif

/* The rule of a refusal, 1 to 22, in words. For an answer below 0 the number is minus the answer. */
static inline const char *tsintovehy_rule(int64_t refusal)
{
    switch (refusal) {
    case 1: return "a byte of 128 or more stands anywhere";
    case 2: return "the first three bytes are INV";
    case 3: return "there are leading digits and their value is not 1..60";
    case 4: return "there are more than two leading digits";
    case 5: return "nothing follows the zone";
    case 6: return "the band letter is not in its set";
    case 7: return "exactly one byte follows the band";
    case 8: return "the column letter is not in its set";
    case 9: return "the row letter is not in its set";
    case 10: return "no allowed row has this row letter";
    case 11: return "any byte after the row letter is not a digit";
    case 12: return "the number of digits is odd";
    case 13: return "there are more than 22 digits";
    case 14: return "the zone is not 0..60";
    case 15: return "p is not -1..11";
    case 16: return "the easting is out of range";
    case 17: return "the northing is out of range";
    case 18: return "the band letter is not a capital of that kind's set";
    case 19: return "the band does not fit";
    case 20: return "the output is too short";
    case 21: return "the reference is bare or q is not 0..p";
    case 22: return "the latitude is outside -90..90";
    default: return "no rule has this number";
    }
}

#endif
