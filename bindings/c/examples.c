/* examples.c: document 01's examples, and hostile inputs, through the calls of libexport.a as a C program makes them.
 * Prints a line for each check that fails, and at its end how many were made. Exit status: 0 if none failed, else 1.
 * Every refusal is looked at for what it must leave alone: each lent element, and each byte of a lent buffer. */
#define _DEFAULT_SOURCE /* for pages that nobody may touch */
#include "tsintovehy.h"

#include <inttypes.h>
#include <stdarg.h>
#include <stdio.h>
#include <stdlib.h>
#include <string.h>
#include <sys/mman.h>
#include <unistd.h>

static long checks;
static long failed;

/* One check; its line is printed where it fails. */
static void check(bool holds, const char *what, ...)
{
    checks++;
    if (holds)
        return;
    failed++;
    va_list words;
    va_start(words, what);
    printf("FAILED: ");
    vprintf(what, words);
    putchar('\n');
    va_end(words);
}

/* ---- texts and lent buffers */

typedef struct {
    const uint8_t *bytes;
    size_t length;
} Text;

static Text text_of(const char *s)
{
    Text t = { (const uint8_t *)s, strlen(s) };
    return t;
}

/* What is printed of a text that may hold any bytes, or a million of them. */
static const char *shown(Text t)
{
    static char line[40];
    size_t n = t.length < 32 ? t.length : 32;
    for (size_t i = 0; i < n; i++)
        line[i] = 32 < t.bytes[i] && t.bytes[i] < 127 ? (char)t.bytes[i] : '?';
    strcpy(line + n, t.length > 32 ? ".." : "");
    return line;
}

/* Values that no call answers, to see what a refusal left alone. */
#define UNTOUCHED ((int64_t)-777777777777777)
#define FILL '.'
enum { ROOM = 40 };

typedef struct {
    uint8_t bytes[ROOM];
} Buffer;

static Buffer fresh(void)
{
    Buffer b;
    memset(b.bytes, FILL, sizeof b.bytes);
    return b;
}

/* That `b` holds `expected` and else what it was filled with. */
static bool holds_only(const Buffer *b, const char *expected)
{
    Buffer as_it_should_be = fresh();
    memcpy(as_it_should_be.bytes, expected, strlen(expected));
    return memcmp(b, &as_it_should_be, sizeof *b) == 0;
}

static bool all_untouched(const int64_t *values, size_t n)
{
    for (size_t i = 0; i < n; i++)
        if (values[i] != UNTOUCHED)
            return false;
    return true;
}

static void untouch(int64_t *values, size_t n)
{
    for (size_t i = 0; i < n; i++)
        values[i] = UNTOUCHED;
}

static int64_t units(double metres)
{
    return (int64_t)(metres * (double)TSINTOVEHY_UNITS_PER_METRE + (metres < 0 ? -0.5 : 0.5));
}

/* ---- reading */

/* Every call that reads refuses the text by this number, and leaves what it was lent. */
static void refused(Text t, int64_t number)
{
    int64_t position[TSINTOVEHY_POSITION];
    untouch(position, TSINTOVEHY_POSITION);
    int64_t answer = mgrs_read(t.bytes, t.length, position);
    check(answer == -number, "read %s: %" PRId64 ", expected refusal %" PRId64, shown(t), answer, number);
    check(all_untouched(position, TSINTOVEHY_POSITION), "read %s: a refusal changed the position", shown(t));

    double metres[2] = { -7.25, -8.5 };
    answer = mgrs_read_metres(t.bytes, t.length, metres);
    check(answer == -number, "metres of %s: %" PRId64 ", expected refusal %" PRId64, shown(t), answer, number);
    check(metres[0] == -7.25 && metres[1] == -8.5, "metres of %s: a refusal changed them", shown(t));

    Buffer out = fresh();
    answer = mgrs_shorten(t.bytes, t.length, 0, out.bytes, ROOM);
    check(answer == -number, "shorten %s: %" PRId64 ", expected refusal %" PRId64, shown(t), answer, number);
    check(holds_only(&out, ""), "shorten %s: a refusal changed the buffer", shown(t));

    /* A is read first: its refusal is told even where B's would be another. */
    Text sound = text_of("18TWL");
    Text other = text_of(number == 7 ? "18I" : "18TW");
    answer = mgrs_covers(t.bytes, t.length, sound.bytes, sound.length);
    check(answer == -number, "%s covers 18TWL: %" PRId64 ", expected refusal %" PRId64, shown(t), answer, number);
    answer = mgrs_covers(sound.bytes, sound.length, t.bytes, t.length);
    check(answer == -number, "18TWL covers %s: %" PRId64 ", expected refusal %" PRId64, shown(t), answer, number);
    answer = mgrs_covers(t.bytes, t.length, other.bytes, other.length);
    check(answer == -number, "%s covers a refused text: %" PRId64 ", expected refusal %" PRId64, shown(t), answer, number);
}

/* Read as a square or a bare zone, with zone, hemisphere, band, p and metres. */
static void reads(const char *s, int64_t kind, int64_t zone, bool north, char band, int64_t p, double easting, double northing)
{
    Text t = text_of(s);
    int64_t position[TSINTOVEHY_POSITION];
    untouch(position, TSINTOVEHY_POSITION);
    int64_t answer = mgrs_read(t.bytes, t.length, position);
    check(answer == kind, "read %s: %" PRId64 ", expected %" PRId64, s, answer, kind);
    check(position[TSINTOVEHY_ZONE] == zone, "read %s: zone %" PRId64, s, position[TSINTOVEHY_ZONE]);
    check(position[TSINTOVEHY_NORTH] == (north ? 1 : 0), "read %s: north %" PRId64, s, position[TSINTOVEHY_NORTH]);
    check(position[TSINTOVEHY_BAND] == band, "read %s: band %" PRId64, s, position[TSINTOVEHY_BAND]);
    check(position[TSINTOVEHY_P] == p, "read %s: p %" PRId64, s, position[TSINTOVEHY_P]);
    check(position[TSINTOVEHY_EASTING] == units(easting), "read %s: easting %" PRId64, s, position[TSINTOVEHY_EASTING]);
    check(position[TSINTOVEHY_NORTHING] == units(northing), "read %s: northing %" PRId64, s, position[TSINTOVEHY_NORTHING]);

    double metres[2] = { -7.25, -8.5 };
    answer = mgrs_read_metres(t.bytes, t.length, metres);
    check(answer == kind, "metres of %s: %" PRId64 ", expected %" PRId64, s, answer, kind);
    check(metres[0] == easting, "metres of %s: easting %.9f, expected %.9f", s, metres[0], easting);
    check(metres[1] == northing, "metres of %s: northing %.9f, expected %.9f", s, metres[1], northing);
}

static void shortens(const char *s, int64_t q, const char *expected)
{
    Text t = text_of(s);
    Buffer out = fresh();
    int64_t answer = mgrs_shorten(t.bytes, t.length, q, out.bytes, ROOM);
    check(answer == (int64_t)strlen(expected), "shorten %s to %" PRId64 ": %" PRId64, s, q, answer);
    check(holds_only(&out, expected), "shorten %s to %" PRId64 ": not %s, or more than it was written", s, q, expected);
}

static void shortening_refused(const char *s, int64_t q, size_t room, int64_t number)
{
    Text t = text_of(s);
    Buffer out = fresh();
    int64_t answer = mgrs_shorten(t.bytes, t.length, q, out.bytes, room);
    check(answer == -number, "shorten %s to %" PRId64 ": %" PRId64 ", expected refusal %" PRId64, s, q, answer, number);
    check(holds_only(&out, ""), "shorten %s to %" PRId64 ": a refusal changed the buffer", s, q);
}

static void read_examples(void)
{
    reads("18TWL856641113154", TSINTOVEHY_SQUARE, 18, true, 'T', 6, 585664.15, 4511315.45);
    reads("27UXQ0314512982", TSINTOVEHY_SQUARE, 27, true, 'U', 5, 603145.5, 5412982.5);
    reads("YXL6143481146", TSINTOVEHY_SQUARE, 0, true, 'Y', 5, 1761434.5, 2381146.5);
    reads("4qfj", TSINTOVEHY_SQUARE, 4, true, 'Q', 0, 650000, 2350000);
    shortens("4qfj", 0, "04QFJ");
    reads("18T", TSINTOVEHY_BARE_ZONE, 18, true, 'T', -1, 500000, 4900000);
    reads("31V", TSINTOVEHY_BARE_ZONE, 31, true, 'V', -1, 400000, 6700000);
    reads("Z", TSINTOVEHY_BARE_ZONE, 0, true, 'Z', -1, 2400000, 2000000);
    reads("A", TSINTOVEHY_BARE_ZONE, 0, false, 'A', -1, 1600000, 2000000);
    /* The folded cases: row 70, 71, 79 and 80, and beside each a column that does not have it. */
    reads("31WCL", TSINTOVEHY_SQUARE, 31, true, 'W', 0, 350000, 7050000);
    reads("31WFL", TSINTOVEHY_SQUARE, 31, true, 'W', 0, 650000, 7050000);
    reads("31VCM", TSINTOVEHY_SQUARE, 31, true, 'V', 0, 350000, 7150000);
    reads("31XBV", TSINTOVEHY_SQUARE, 31, true, 'X', 0, 250000, 7950000);
    reads("31WBA", TSINTOVEHY_SQUARE, 31, true, 'W', 0, 250000, 8050000);
}

static void read_refusals(void)
{
    static const struct {
        const char *text;
        int64_t number;
    } rows[] = {
        { "31WBL", 10 }, { "31WGL", 10 }, { "31VDM", 10 }, { "31XAV", 10 }, { "31WCA", 10 },
        { "", 5 }, { "18", 5 }, { "0", 3 }, { "61C", 3 }, { "018T", 4 }, { "inv", 2 }, { "18I", 6 }, { "18TW", 7 }, { "18TAL", 8 },
        { "18TWW", 9 }, { "18TWA", 10 }, { "18TWLX", 11 }, { "18TWL8", 12 }, { "18TWL123456789012345678901234", 13 },
        /* and neighbours: the order of the rules, and what is no letter and no digit */
        { "18TWAX", 10 }, { "18TWL\x80", 1 }, { "inv\xff", 1 }, { "INV18T", 2 }, { "IN", 6 }, { "100T", 3 }, { "060T", 4 },
        { "4294967314TWL", 3 }, { "18446744073709551634TWL", 3 }, { "18T\r", 7 }, { " 18TWL", 6 }, { "18TWL ", 11 },
        { "18A", 6 }, { "C", 6 }, { "AAA", 8 }, { "ZAQ", 9 }, { "18TWL1X2", 11 }, { "18TWL12345678901234567890123", 12 },
    };
    for (size_t i = 0; i < sizeof rows / sizeof *rows; i++)
        refused(text_of(rows[i].text), rows[i].number);
}

/* ---- writing */

static void writes(int64_t zone, bool north, char band, int64_t p, int64_t easting, int64_t northing, const char *expected)
{
    size_t length = strlen(expected);
    Buffer out = fresh();
    int64_t answer = mgrs_write(zone, north, (uint8_t)band, p, easting, northing, out.bytes, ROOM);
    check(answer == (int64_t)length, "write %s: %" PRId64, expected, answer);
    check(holds_only(&out, expected), "write %s: other bytes, or more than these", expected);
    /* Just enough room, and one byte less. */
    out = fresh();
    answer = mgrs_write(zone, north, (uint8_t)band, p, easting, northing, out.bytes, length);
    check(answer == (int64_t)length && holds_only(&out, expected), "write %s into its own length: %" PRId64, expected, answer);
    out = fresh();
    answer = mgrs_write(zone, north, (uint8_t)band, p, easting, northing, out.bytes, length - 1);
    check(answer == -20, "write %s into too little: %" PRId64 ", expected refusal 20", expected, answer);
    check(holds_only(&out, ""), "write %s into too little: a refusal changed the buffer", expected);
}

static void writing_refused(int64_t zone, bool north, int band, int64_t p, int64_t easting, int64_t northing, int64_t number)
{
    Buffer out = fresh();
    int64_t answer = mgrs_write(zone, north, (uint8_t)band, p, easting, northing, out.bytes, ROOM);
    check(answer == -number,
          "write zone %" PRId64 " band %d p %" PRId64 " %" PRId64 " %" PRId64 ": %" PRId64 ", expected refusal %" PRId64,
          zone, band, p, easting, northing, answer, number);
    check(holds_only(&out, ""), "write, refusal %" PRId64 ": it changed the buffer", number);
}

static void write_examples(void)
{
    writes(18, true, 'T', 5, units(900000), units(4500000), "18TZL9999900000");
    writes(18, false, 'M', 5, units(500000), units(10000000), "18MWE0000099999");
    writes(18, true, 'N', 5, units(500000), 0, "18NWF0000000000");
    writes(18, true, 'T', -1, units(500000), units(4900000), "18T");
    writes(4, true, 'Q', 0, units(650000), units(2350000), "04QFJ");
    writes(0, true, 'Z', -1, units(2400000), units(2000000), "Z");
    writes(0, true, 'Y', 5, units(1761434.5), units(2381146.5), "YXL6143481146");
    writes(18, false, 'X', 5, units(500000), units(19500000), "18XWV0000099999");
    writes(18, true, 'M', 5, units(500000), -1, "18MWE0000099999");
    writes(18, true, 'T', 11, units(585664.15) + 1, units(4511315.45), "18TWL8566415000011315450000");
}

static void write_refusals(void)
{
    const int64_t e = units(500000), n = units(4500000);
    writing_refused(61, true, 'T', 5, e, n, 14);
    writing_refused(-1, true, 'T', 5, e, n, 14);
    writing_refused(61, true, 'T', 12, e, n, 14);
    writing_refused(18, true, 'T', 12, e, n, 15);
    writing_refused(18, true, 'T', -2, e, n, 15);
    writing_refused(18, true, 'T', 5, units(900000) + 1, n, 16);
    writing_refused(18, true, 'T', 5, units(100000) - 1, n, 16);
    writing_refused(18, true, 'T', 5, e, units(9500000) + 1, 17);
    writing_refused(18, false, 'T', 5, e, units(1000000) - 1, 17);
    writing_refused(18, true, 't', 5, e, n, 18);
    writing_refused(18, true, 'A', 5, e, n, 18);
    writing_refused(0, true, 'T', 5, units(2000000), units(2000000), 18);
    writing_refused(18, true, 'U', 5, e, n, 19);
    writing_refused(18, true, 'U', -1, e, n, 19);
    writing_refused(0, true, 'Y', 5, units(2000000), units(2000000), 19);
    for (int band = 0; band < 256; band++)
        if (band == 0 || strchr("CDEFGHJKLMNPQRSTUVWX", band) == NULL)
            writing_refused(18, true, band, 5, e, n, 18);
}

/* ---- shortening, covering */

static void shorten_examples(void)
{
    shortens("18twl856641113154", 2, "18TWL8511");
    shortens("18TWL856641113154", 6, "18TWL856641113154");
    shortens("18TWL856641113154", 0, "18TWL");
    shortens("YXL6143481146", 1, "YXL68");
    shortens("1CEM1234567890112345678901", 11, "01CEM1234567890112345678901");
    shortening_refused("18T", 0, ROOM, 21);
    shortening_refused("18T", -1, ROOM, 21);
    shortening_refused("18TWL856641113154", 7, ROOM, 21);
    shortening_refused("18TWL856641113154", -1, ROOM, 21);
    shortening_refused("18TWL856641113154", 7, 0, 21); /* 21 comes before 20 */
    shortening_refused("18TWL856641113154", 3, 10, 20);
    shortening_refused("18TW", 9, 0, 7);
}

static void covers(const char *a, const char *b, bool expected)
{
    Text s = text_of(a), t = text_of(b);
    int64_t answer = mgrs_covers(s.bytes, s.length, t.bytes, t.length);
    check(answer == (expected ? 1 : 0), "%s covers %s: %" PRId64, a, b, answer);
}

static void cover_examples(void)
{
    covers("18TWL85", "18TWL8050", true);
    covers("18TWL8050", "18TWL85", false);
    covers("18TWL", "18TWL856641113154", true);
    covers("18TWL86", "18TWL856641113154", false);
    covers("18twl", "18TWL", true);
    covers("18T", "18TWL", true);
    covers("18T", "18T", true);
    covers("18TWL", "18T", false); /* a bare zone is no square */
    covers("18T", "18SWK", false);
    covers("18T", "17TNF", false);
    covers("Z", "ZAH", true);
}

/* ---- ranges, bands and zones of latitudes, rows */

static void moves(int64_t zone, bool north, int64_t easting, int64_t northing,
                  bool to_north, int64_t to_easting, int64_t to_northing)
{
    int64_t moved[TSINTOVEHY_MOVED];
    untouch(moved, TSINTOVEHY_MOVED);
    int64_t answer = mgrs_check_coords(zone, north, easting, northing, moved);
    check(answer == 0, "range of zone %" PRId64 " %" PRId64 " %" PRId64 ": %" PRId64, zone, easting, northing, answer);
    check(moved[TSINTOVEHY_MOVED_NORTH] == (to_north ? 1 : 0) && moved[TSINTOVEHY_MOVED_EASTING] == to_easting
              && moved[TSINTOVEHY_MOVED_NORTHING] == to_northing,
          "range of zone %" PRId64 " %" PRId64 " %" PRId64 ": moved to %" PRId64 " %" PRId64 " %" PRId64,
          zone, easting, northing, moved[0], moved[1], moved[2]);
}

static void out_of_range(int64_t zone, bool north, int64_t easting, int64_t northing, int64_t number)
{
    int64_t moved[TSINTOVEHY_MOVED];
    untouch(moved, TSINTOVEHY_MOVED);
    int64_t answer = mgrs_check_coords(zone, north, easting, northing, moved);
    check(answer == -number, "range of zone %" PRId64 " %" PRId64 " %" PRId64 ": %" PRId64 ", expected refusal %" PRId64,
          zone, easting, northing, answer, number);
    check(all_untouched(moved, TSINTOVEHY_MOVED), "range, refusal %" PRId64 ": it changed the point", number);
}

static void utm_range(int64_t zone, bool north, int64_t easting, int64_t northing, int64_t expected)
{
    int64_t answer = utm_check_coords(zone, north, easting, northing);
    check(answer == expected, "UTM range of zone %" PRId64 " %" PRId64 " %" PRId64 ": %" PRId64 ", expected %" PRId64,
          zone, easting, northing, answer, expected);
}

static void range_examples(void)
{
    const int64_t e = units(500000), n = units(4500000);
    moves(18, true, e, n, true, e, n);
    moves(18, true, units(100000), n, true, units(100000), n);
    moves(18, true, units(900000), n, true, units(900000) - 1, n);
    moves(18, true, e, 0, true, e, 0);
    moves(18, true, e, -1, false, e, units(10000000) - 1);
    moves(18, true, e, units(-9000000), false, e, units(1000000));
    moves(18, false, e, units(10000000), false, e, units(10000000) - 1);
    moves(18, false, e, units(10000000) + 1, true, e, 1);
    moves(18, false, e, units(19500000), true, e, units(9500000) - 1);
    moves(0, false, units(3200000), units(800000), false, units(3200000) - 1, units(800000));
    moves(0, true, units(1300000), units(2700000), true, units(1300000), units(2700000) - 1);
    out_of_range(61, true, 0, 0, 14);
    out_of_range(18, true, units(100000) - 1, units(9500000) + 1, 16);
    out_of_range(18, true, units(900000) + 1, n, 16);
    out_of_range(18, true, e, units(9500000) + 1, 17);
    out_of_range(18, false, e, units(1000000) - 1, 17);
    out_of_range(0, true, units(2700000) + 1, units(2000000), 16);
    utm_range(18, true, 0, n, 0);
    utm_range(18, true, -1, n, -16);
    utm_range(18, true, units(1000000), n, 0);
    utm_range(18, true, units(1000000) + 1, n, -16);
    utm_range(18, true, e, units(9600000), 0);
    utm_range(18, true, e, units(9600000) + 1, -17);
    utm_range(0, false, units(700000), units(3300000), 0);
    utm_range(0, false, units(700000) - 1, units(3300000), -16);
    utm_range(61, true, 0, n, -14);
}

#define DEGREE INT64_C(1000000000)

static void band_is(int64_t latitude, int64_t expected)
{
    int64_t answer = mgrs_latitude_band(latitude);
    check(answer == expected, "band of latitude %" PRId64 ": %" PRId64 ", expected %" PRId64, latitude, answer, expected);
}

static void zone_is(int64_t latitude, int64_t longitude, int64_t expected)
{
    int64_t answer = mgrs_standard_zone(latitude, longitude);
    check(answer == expected, "zone of %" PRId64 " %" PRId64 ": %" PRId64 ", expected %" PRId64,
          latitude, longitude, answer, expected);
}

static void zone_examples(void)
{
    zone_is(60 * DEGREE, 3 * DEGREE, 32);
    zone_is(60 * DEGREE, 3 * DEGREE - 1, 31);
    zone_is(72 * DEGREE, 9 * DEGREE - 1, 31);
    zone_is(72 * DEGREE, 9 * DEGREE, 33);
    zone_is(84 * DEGREE, 0, 0);
    zone_is(84 * DEGREE - 1, 0, 31);
    zone_is(0, 180 * DEGREE, 1);
    zone_is(0, -180 * DEGREE, 1);
    zone_is(-80 * DEGREE, 0, 31);
    zone_is(-80 * DEGREE - 1, 0, 0);
    zone_is(90 * DEGREE, 0, 0);
    zone_is(90 * DEGREE + 1, 0, -22);
    zone_is(-90 * DEGREE - 1, 0, -22);
    zone_is(0, -51 * DEGREE, 22); /* zone 22 is no refusal */
    for (int64_t k = -10; k <= 9; k++) {
        band_is(8 * k * DEGREE, k);
        band_is(8 * (k + 1) * DEGREE - 1, k);
    }
    band_is(-80 * DEGREE - 1, -10);
    band_is(84 * DEGREE, 9);
    band_is(-1, -1);
}

static void row_is(int64_t band, int64_t column, int64_t letter, int64_t expected)
{
    int64_t answer = mgrs_utm_row(band, column, letter);
    check(answer == expected, "row of band %" PRId64 " column %" PRId64 " letter %" PRId64 ": %" PRId64 ", expected %" PRId64,
          band, column, letter, answer, expected);
}

/* Every band, column and row letter of zone 31: the row answered is the one that its text is read in. */
static void rows_as_read(void)
{
    static const char bands[] = "CDEFGHJKLMNPQRSTUVWX", columns[] = "ABCDEFGH", rows[] = "ABCDEFGHJKLMNPQRSTUV";
    const int64_t tile = units(100000);
    int found = 0;
    for (int b = 0; b < 20; b++)
        for (int c = 0; c < 8; c++)
            for (int l = 0; l < 20; l++) {
                uint8_t text[] = { '3', '1', (uint8_t)bands[b], (uint8_t)columns[c], (uint8_t)rows[l] };
                int64_t position[TSINTOVEHY_POSITION];
                int64_t answer = mgrs_read(text, sizeof text, position);
                int64_t row = TSINTOVEHY_NO_ROW;
                if (answer == TSINTOVEHY_SQUARE) {
                    row = position[TSINTOVEHY_NORTHING] / tile - (position[TSINTOVEHY_NORTH] ? 0 : 100);
                    found++;
                }
                row_is(b - 10, c, l, row);
            }
    check(found == 1632, "of 3,200 bands, columns and letters %d have a row, expected 1,632", found);
}

static void row_examples(void)
{
    row_is(8, 2, 10, 70); /* 31WCL, 31WBL; 31WFL, 31WGL */
    row_is(8, 1, 10, TSINTOVEHY_NO_ROW);
    row_is(8, 5, 10, 70);
    row_is(8, 6, 10, TSINTOVEHY_NO_ROW);
    row_is(7, 2, 11, 71); /* 31VCM, 31VDM */
    row_is(7, 3, 11, TSINTOVEHY_NO_ROW);
    row_is(9, 1, 19, 79); /* 31XBV, 31XAV */
    row_is(9, 0, 19, TSINTOVEHY_NO_ROW);
    row_is(8, 1, 0, 80); /* 31WBA, 31WCA */
    row_is(8, 2, 0, TSINTOVEHY_NO_ROW);
    row_is(-9, 2, 9, -71); /* the same in the south: 31DCK, 31ECJ, 31CBA, 31DBV */
    row_is(-9, 1, 9, TSINTOVEHY_NO_ROW);
    row_is(-8, 2, 8, -72);
    row_is(-8, 3, 8, TSINTOVEHY_NO_ROW);
    row_is(-10, 1, 0, -80);
    row_is(-10, 0, 0, TSINTOVEHY_NO_ROW);
    row_is(-9, 1, 19, -81);
    row_is(-9, 2, 19, TSINTOVEHY_NO_ROW);
    row_is(10, 2, 10, TSINTOVEHY_NO_ROW);
    row_is(-11, 2, 10, TSINTOVEHY_NO_ROW);
    row_is(8, 8, 10, TSINTOVEHY_NO_ROW);
    row_is(8, -1, 10, TSINTOVEHY_NO_ROW);
    row_is(8, 2, 20, TSINTOVEHY_NO_ROW);
    row_is(8, 2, 30, TSINTOVEHY_NO_ROW);
    row_is(8, 2, -10, TSINTOVEHY_NO_ROW);
    rows_as_read();
}

/* ---- hostile inputs */

static void nothing_lent(void)
{
    Text none = { NULL, 0 };
    refused(none, 5);
    Text tile = text_of("18TWL");
    check(mgrs_shorten(tile.bytes, tile.length, 0, NULL, 0) == -20, "shorten into (NULL, 0): expected refusal 20");
    check(mgrs_shorten(NULL, 0, 0, NULL, 0) == -5, "shorten (NULL, 0) into (NULL, 0): expected refusal 5");
    int64_t answer = mgrs_write(18, true, 'T', 0, units(550000), units(4550000), NULL, 0);
    check(answer == -20, "write into (NULL, 0): %" PRId64 ", expected refusal 20", answer);
    check(mgrs_covers(NULL, 0, NULL, 0) == -5, "(NULL, 0) covers (NULL, 0): expected refusal 5");
}

/* What a text of one byte gets, from the rules' words. */
static int64_t single_byte_rule(int b)
{
    if (b >= 128)
        return 1;
    if (b == '0')
        return 3;
    if ('1' <= b && b <= '9')
        return 5;
    return b != 0 && strchr("ABYZabyz", b) != NULL ? 0 : 6;
}

static void single_bytes(void)
{
    for (int b = 0; b < 256; b++) {
        uint8_t byte = (uint8_t)b;
        Text t = { &byte, 1 };
        int64_t position[TSINTOVEHY_POSITION];
        if (single_byte_rule(b) != 0)
            refused(t, single_byte_rule(b));
        else
            check(mgrs_read(t.bytes, 1, position) == TSINTOVEHY_BARE_ZONE, "read %c: expected a bare zone", b);
    }
}

static void long_texts(void)
{
    const size_t million = 1 << 20;
    uint8_t *bytes = malloc(million);
    if (bytes == NULL) {
        check(false, "no memory for a text of 1 MB");
        return;
    }
    Text t = { bytes, million };
    memset(bytes, '7', million);
    refused(t, 3);
    memset(bytes, '0', million - 3);
    memcpy(bytes + million - 3, "18T", 3); /* the value is 18, in too many digits */
    refused(t, 4);
    memset(bytes, '7', million);
    memcpy(bytes, "18TWL", 5);
    refused(t, 12);
    t.length = million - 1;
    refused(t, 13);
    bytes[t.length - 1] = 'X';
    refused(t, 11);
    bytes[t.length - 1] = 0x80;
    refused(t, 1);
    free(bytes);
}

/* A page with one on each side that nobody may touch: a byte too far ends the program. */
static uint8_t *lone_page(size_t size)
{
    uint8_t *pages = mmap(NULL, 3 * size, PROT_NONE, MAP_PRIVATE | MAP_ANONYMOUS, -1, 0);
    if (pages == MAP_FAILED || mprotect(pages + size, size, PROT_READ | PROT_WRITE) != 0)
        return NULL;
    return pages + size;
}

/* A text and a buffer at the very start and the very end of pages, of every length that matters. */
static void edges_of_memory(void)
{
    size_t size = (size_t)sysconf(_SC_PAGESIZE);
    uint8_t *page = lone_page(size), *other = lone_page(size);
    if (page == NULL || other == NULL) {
        check(false, "no pages to be had");
        return;
    }
    const Text whole = text_of("18TWL1234567890112345678901xxxxxxxxxxxxxxxxxxxxxxxxxxxxxxxxxxxxx");
    for (size_t length = 0; length <= whole.length; length++)
        for (int at_end = 0; at_end <= 1; at_end++) {
            uint8_t *text = at_end ? page + size - length : page;
            uint8_t *out = at_end ? other + size - length : other;
            memcpy(text, whole.bytes, length);
            int64_t position[TSINTOVEHY_POSITION];
            int64_t here = mgrs_read(text, length, position);
            check(here == mgrs_read(whole.bytes, length, position), "read %zu bytes at an edge of memory: %" PRId64, length, here);
            here = mgrs_shorten(whole.bytes, 27, 11, out, length);
            check(here == (length < 27 ? -20 : 27), "shorten into %zu bytes at an edge of memory: %" PRId64, length, here);
            here = mgrs_write(18, true, 'T', 11, units(500000), units(4500000), out, length);
            check(here == (length < 27 ? -20 : 27), "write into %zu bytes at an edge of memory: %" PRId64, length, here);
            check(mgrs_covers(text, length, text, length) == mgrs_covers(whole.bytes, length, whole.bytes, length),
                  "%zu bytes at an edge of memory cover themselves otherwise", length);
        }
    munmap(page - size, 3 * size);
    munmap(other - size, 3 * size);
}

static void ends_of_numbers(void)
{
    const int64_t ends[] = { INT64_MIN, INT64_MIN + 1, INT64_MAX - 1, INT64_MAX };
    const int64_t e = units(500000), n = units(4500000);
    for (size_t i = 0; i < 4; i++) {
        int64_t x = ends[i];
        writing_refused(x, true, 'T', 5, e, n, 14);
        writing_refused(18, true, 'T', x, e, n, 15);
        writing_refused(18, true, 'T', 5, x, n, 16);
        writing_refused(18, false, 'T', 5, e, x, 17);
        writing_refused(18, true, 'T', 5, e, x, 17);
        writing_refused(x, true, 'T', x, x, x, 14);
        out_of_range(x, true, e, n, 14);
        out_of_range(18, true, x, x, 16);
        out_of_range(18, true, e, x, 17);
        out_of_range(0, false, units(2000000), x, 17);
        utm_range(x, true, e, n, -14);
        utm_range(18, true, x, n, -16);
        utm_range(18, true, e, x, -17);
        shortening_refused("18TWL8511", x, ROOM, 21);
        band_is(x, x < 0 ? -10 : 9);
        zone_is(x, 0, -22);
        row_is(x, 2, 10, TSINTOVEHY_NO_ROW);
        row_is(8, x, 10, TSINTOVEHY_NO_ROW);
        row_is(8, 2, x, TSINTOVEHY_NO_ROW);
    }
    /* -9,223,372,037 degrees, rounded down, are 43 after whole turns; 9,223,372,036 are -44. */
    zone_is(0, INT64_MIN, 38);
    zone_is(0, INT64_MAX, 23);
}

static void rules_have_words(void)
{
    for (int64_t n = 1; n <= TSINTOVEHY_REFUSALS; n++)
        for (int64_t m = n + 1; m <= TSINTOVEHY_REFUSALS + 1; m++)
            check(strcmp(tsintovehy_rule(n), tsintovehy_rule(m)) != 0,
                  "rules %" PRId64 " and %" PRId64 " have the same words", n, m);
    check(strcmp(tsintovehy_rule(0), tsintovehy_rule(TSINTOVEHY_REFUSALS + 1)) == 0, "rule 0 has words of its own");
    check(strcmp(tsintovehy_rule(7), "exactly one byte follows the band") == 0, "rule 7: %s", tsintovehy_rule(7));
}

int main(void)
{
    read_examples();
    read_refusals();
    write_examples();
    write_refusals();
    shorten_examples();
    cover_examples();
    range_examples();
    zone_examples();
    row_examples();
    nothing_lent();
    single_bytes();
    long_texts();
    edges_of_memory();
    ends_of_numbers();
    rules_have_words();
    printf("%ld checks, %ld failed\n", checks, failed);
    return failed == 0 ? 0 : 1;
}
