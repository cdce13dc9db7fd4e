/* limit.c: a reader and a writer of the same rules in plain C, written by hand to be fast and proved by nothing: what the calls of
 * the library could cost at best. bench/run compares every answer of its own with the library's before it times it.
 * Reading looks letters up by their byte, small ones too; the row of a UTM reference stands in a table by band, column and letter.
 * For a machine whose numbers have their lowest byte first. */
#include <stdbool.h>
#include <stddef.h>
#include <stdint.h>
#include <string.h>

#define TILE INT64_C(200000000000)
#define METRE INT64_C(2000000)

enum { NONE = 255, SQUARE = 0, BARE = 1 };

static const char utm_bands[] = "CDEFGHJKLMNPQRSTUVWX", ups_bands[] = "ABYZ";
static const char utm_columns[3][9] = {"ABCDEFGH", "JKLMNPQR", "STUVWXYZ"}, utm_rows[] = "ABCDEFGHJKLMNPQRSTUV";
static const char *const ups_columns[4] = {"JKLPQRSTUXYZ", "ABCFGHJKLPQR", "RSTUXYZ", "ABCFGHJ"};
static const uint8_t first_column[4] = {8, 20, 13, 20};
static const char *const ups_rows[2] = {"ABCDEFGHJKLMNPQRSTUVWXYZ", "ABCDEFGHJKLMNP"};
static const uint8_t first_row[2] = {8, 13};

/* By byte: a band's place among UTM's or UPS's; a column's tile, by the zone's set or by the UPS band; a row letter's place in an odd
 * zone, of odd zones and of even ones, or its tile, of UPS in the south and in the north. NONE where the set lacks the letter. */
static uint8_t band_at[2][256], column_at[7][256], row_at[4][256];
/* The tile of a UTM band, a column and the place of a row letter in an odd zone; NONE where no row is allowed. */
static uint8_t tile_at[20][8][20];
static const uint64_t half_side[12] = {100000000000, 10000000000, 1000000000, 100000000, 10000000, 1000000,
                                       100000,       10000,       1000,       100,       10,      1};
/* A division by a square's side, 2 * half_side[p], of what is less than a tile: a product and a shift. */
static struct { uint64_t factor; int shift; } by_side[12];

/* ---- the tables, made once */

static int folded(int v) { return v < 0 ? -v - 1 : v; }

static bool is_allowed(int band, int column, int row)
{
    static const int low[10] = {0, 8, 17, 26, 35, 44, 53, 62, 71, 80}, high[10] = {8, 17, 26, 35, 44, 53, 62, 70, 79, 94};
    int b = folded(band), r = folded(row), c = column > 3 ? 7 - column : column;
    if ((band < 0) != (row < 0)) return false;
    if (band == -10 ? -90 <= row && row <= -81 : low[b] <= r && r <= high[b]) return true;
    return (r == 70 && b == 8 && c >= 2) || (r == 71 && b == 7 && c <= 2) || (r == 79 && b == 9 && c >= 1) || (r == 80 && b == 8 && c <= 1);
}

static void put_set(uint8_t *at, const char *set, int first)
{
    memset(at, NONE, 256);
    for (int k = 0; set[k]; k++) at[(uint8_t)set[k]] = at[(uint8_t)(set[k] + 32)] = (uint8_t)(first + k);
}

static void make_rows(void)
{
    memset(tile_at, NONE, sizeof tile_at);
    for (int k = 0; k < 20; k++)
        for (int column = 0; column < 8; column++)
            for (int row = -90; row <= 94; row++)
                if (is_allowed(k - 10, column, row))
                    tile_at[k][column][(row + 100) % 20] = (uint8_t)(row < 0 ? row + 100 : row);
}

void limit_start(void)
{
    put_set(band_at[0], utm_bands, 0);
    put_set(band_at[1], ups_bands, 0);
    for (int k = 0; k < 3; k++) put_set(column_at[k], utm_columns[k], 1);
    for (int k = 0; k < 4; k++) put_set(column_at[3 + k], ups_columns[k], first_column[k]);
    put_set(row_at[0], utm_rows, 0);
    for (int b = 0; b < 256; b++) row_at[1][b] = row_at[0][b] == NONE ? NONE : (row_at[0][b] + 15) % 20;
    for (int k = 0; k < 2; k++) put_set(row_at[2 + k], ups_rows[k], first_row[k]);
    make_rows();
    for (int p = 0; p < 12; p++) {
        uint64_t side = 2 * half_side[p];
        int bits = 63 - __builtin_clzll(side) - 1;
        by_side[p].shift = bits;
        by_side[p].factor = (uint64_t)(((unsigned __int128)1 << (64 + bits)) / side) + 1;
    }
}

/* ---- reading */

static inline uint64_t word(const uint8_t *s)
{
    uint64_t w;
    memcpy(&w, s, 8);
    return w;
}

static inline bool has_high(const uint8_t *s, size_t n)
{
    uint64_t all = 0;
    if (n >= 8) {
        all = word(s + n - 8);
        for (size_t i = 0; i + 8 <= n; i += 8) all |= word(s + i);
    } else {
        for (size_t i = 0; i < n; i++) all |= s[i];
    }
    return (all & 0x8080808080808080) != 0;
}

static inline bool is_digit(uint8_t b) { return (uint8_t)(b - '0') < 10; }

/* A byte of 128 or more for each of eight that is no digit. */
static inline uint64_t others(uint64_t w)
{
    uint64_t t = w ^ 0x3030303030303030;
    return ((t & 0x7f7f7f7f7f7f7f7f) + 0x7676767676767676) | t;
}

static inline bool all_digits(const uint8_t *s, size_t n)
{
    if (n < 8) {
        bool all = true;
        for (size_t i = 0; i < n; i++) all &= is_digit(s[i]);
        return all;
    }
    uint64_t any = others(word(s + n - 8));
    for (size_t i = 0; i + 8 <= n; i += 8) any |= others(word(s + i));
    return (any & 0x8080808080808080) == 0;
}

/* The number of eight digits, 48 off each byte. */
static inline uint64_t eight(uint64_t w)
{
    w = w * 10 + (w >> 8);
    return ((w & 0xff000000ff) * 0xf424000000064 + (w >> 16 & 0xff000000ff) * 0x271000000001) >> 32;
}

/* The first `count` of eight digits, 1 to 8. */
static inline uint64_t firsts(const uint8_t *s, size_t count) { return eight((word(s) - 0x3030303030303030) << (64 - 8 * count)); }

/* The two numbers of 2 * half digits. */
static inline void halves(const uint8_t *s, size_t half, uint64_t *east, uint64_t *north)
{
    if (half < 4) {
        uint64_t e = 0, n = 0;
        for (size_t i = 0; i < half; i++) e = e * 10 + s[i] - '0', n = n * 10 + s[half + i] - '0';
        *east = e, *north = n;
    } else if (half <= 8) {
        int cut = (int)(64 - 8 * half);
        *east = firsts(s, half);
        *north = eight((word(s + half + half - 8) - 0x3030303030303030) >> cut << cut);
    } else {
        *east = firsts(s, half - 8) * 100000000 + firsts(s + half - 8, 8);
        *north = firsts(s + half, half - 8) * 100000000 + firsts(s + half + half - 8, 8);
    }
}

struct point { int64_t zone, north, band, p, easting, northing; };

static inline void bare(int64_t zone, int k, uint8_t letter, struct point *q)
{
    q->zone = zone, q->band = letter, q->p = -1;
    if (zone == 0) {
        q->north = k >= 2;
        q->easting = (k & 1 ? 2400000 : 1600000) * METRE;
        q->northing = 2000000 * METRE;
    } else {
        int tile = (160 * k - 1511 + 1800) / 18;
        q->north = k >= 10;
        q->easting = (zone == 31 && letter == 'V' ? 400000 : 500000) * METRE;
        q->northing = (k >= 10 ? tile - 100 : tile) * TILE;
    }
}

/* 0 a square, 1 a bare zone, or minus the number of the refusal. */
static inline int64_t parsed(const uint8_t *s, size_t n, struct point *q)
{
    if (has_high(s, n)) return -1;
    if (n >= 3 && (s[0] | 32) == 'i' && (s[1] | 32) == 'n' && (s[2] | 32) == 'v') return -2;
    size_t k = 0;
    int64_t zone = 0;
    for (; k < n && is_digit(s[k]); k++)
        if ((zone = zone * 10 + s[k] - '0') > 60) return -3;
    if (k && zone == 0) return -3;
    if (k > 2) return -4;
    if (k == n) return -5;
    int band = band_at[zone == 0][s[k]];
    if (band == NONE) return -6;
    uint8_t letter = s[k] & 0xdf;
    if (n - k == 1) return bare(zone, band, letter, q), BARE;
    if (n - k == 2) return -7;
    bool north = zone == 0 ? band >= 2 : band >= 10;
    uint8_t east = column_at[zone == 0 ? 3 + band : (zone - 1) % 3][s[k + 1]];
    if (east == NONE) return -8;
    uint8_t up = row_at[zone == 0 ? 2 + north : !(zone & 1)][s[k + 2]];
    if (up == NONE) return -9;
    if (zone && (up = tile_at[band][east - 1][up]) == NONE) return -10;
    s += k + 3, n -= k + 3;
    if (!all_digits(s, n)) return -11;
    if (n & 1) return -12;
    if (n > 22) return -13;
    uint64_t e, m, half = half_side[n / 2];
    halves(s, n / 2, &e, &m);
    q->zone = zone, q->north = north, q->band = letter, q->p = (int64_t)(n / 2);
    q->easting = east * TILE + (int64_t)((2 * e + 1) * half);
    q->northing = up * TILE + (int64_t)((2 * m + 1) * half);
    return SQUARE;
}

int64_t limit_read(const uint8_t *text, size_t length, struct point *position) { return parsed(text, length, position); }

int64_t limit_read_metres(const uint8_t *text, size_t length, double metres[2])
{
    struct point q;
    int64_t answer = parsed(text, length, &q);
    if (answer < 0) return answer;
    metres[0] = (double)q.easting / 2000000.0;
    metres[1] = (double)q.northing / 2000000.0;
    return answer;
}

/* ---- writing */

/* The value, one unit less at the upper end of a range in tiles; -1 where it is out of it. */
static inline int64_t ranged(int64_t v, int64_t low, int64_t high)
{
    if (v < low * TILE || v > high * TILE) return -1;
    return v == high * TILE ? v - 1 : v;
}

static inline void put_two(uint8_t *out, uint64_t two)
{
    out[0] = (uint8_t)('0' + two / 10), out[1] = (uint8_t)('0' + two % 10);
}

static inline void put_digits(uint8_t *out, int64_t p, uint64_t cut)
{
    for (; p >= 2; p -= 2, cut /= 100) put_two(out + p - 2, cut % 100);
    if (p) out[0] = (uint8_t)('0' + cut);
}

static inline uint64_t cut_of(int64_t units, int64_t p)
{
    return (uint64_t)((unsigned __int128)(uint64_t)units * by_side[p].factor >> 64) >> by_side[p].shift;
}

static inline int64_t put(uint8_t *out, size_t room, int64_t zone, uint8_t band, int64_t p, uint8_t column, uint8_t row, int64_t e, int64_t n)
{
    int64_t head = zone ? 3 : 1, length = p < 0 ? head : head + 2 + 2 * p;
    if ((size_t)length > room) return -20;
    if (zone) put_two(out, (uint64_t)zone);
    out[head - 1] = band;
    if (p < 0) return length;
    out[head] = column, out[head + 1] = row;
    put_digits(out + head + 2, p, cut_of(e, p));
    put_digits(out + head + 2 + p, p, cut_of(n, p));
    return length;
}

static int64_t write_ups(bool north, uint8_t band, int64_t p, int64_t e, int64_t n, uint8_t *out, size_t room)
{
    int64_t low = north ? 13 : 8, high = north ? 27 : 32;
    if ((e = ranged(e, low, high)) < 0) return -16;
    if ((n = ranged(n, low, high)) < 0) return -17;
    int k = band_at[1][band];
    if (k == NONE || band > 'Z') return -18;
    int64_t column = e / TILE, row = n / TILE;
    if ((k >= 2) != north || (k & 1) != (column >= 20)) return -19;
    return put(out, room, 0, band, p, (uint8_t)ups_columns[k][column - first_column[k]], (uint8_t)ups_rows[north][row - low],
               e - column * TILE, n - row * TILE);
}

int64_t limit_write(int64_t zone, bool north, uint8_t band, int64_t p, int64_t e, int64_t n, uint8_t *out, size_t room)
{
    if (zone < 0 || zone > 60) return -14;
    if (p < -1 || p > 11) return -15;
    if (zone == 0) return write_ups(north, band, p, e, n, out, room);
    if ((e = ranged(e, 1, 9)) < 0) return -16;
    if (north && n > 95 * TILE) return -17;
    /* The north is counted on from the south's 100 tiles, so that nothing in range is below 0. */
    if ((n = ranged(north ? n + 100 * TILE : n, 10, 195)) < 0) return -17;
    if (!north && n == 100 * TILE) n--;
    north = n >= 100 * TILE;
    int k = band_at[0][band];
    if (k == NONE || band > 'Z') return -18;
    int64_t column = e / TILE, row = n / TILE, tile = north ? row - 100 : row;
    if ((k >= 10) != north || tile_at[k][column - 1][row % 20] != tile) return -19;
    return put(out, room, zone, band, p, (uint8_t)utm_columns[(zone - 1) % 3][column - 1], (uint8_t)utm_rows[(row + (zone & 1 ? 0 : 5)) % 20],
               e - column * TILE, n - row * TILE);
}
