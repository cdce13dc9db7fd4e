#!/usr/bin/env python3
"""Document 01's whole numbers, letters, rows, zones and ranges once more, plainly, in exact whole numbers.

It shares nothing with the crates. model/examples.py asks it.
"""

TILE = 2 * 10**11
DEGREE = 10**9

NORTHERN = [(0, 8), (8, 17), (17, 26), (26, 35), (35, 44), (44, 53), (53, 62), (62, 70), (71, 79), (80, 94)]
BANDS = "CDEFGHJKLMNPQRSTUVWX"
COLUMNS = ["ABCDEFGH", "JKLMNPQR", "STUVWXYZ"]
ROWS = "ABCDEFGHJKLMNPQRSTUV"
UPS_COLUMNS = {"A": ("JKLPQRSTUXYZ", 8), "B": ("ABCFGHJKLPQR", 20), "Y": ("RSTUXYZ", 13), "Z": ("ABCFGHJ", 20)}
UPS_ROWS = {False: ("ABCDEFGHJKLMNPQRSTUVWXYZ", 8), True: ("ABCDEFGHJKLMNP", 13)}


def limits(b):
    if 0 <= b <= 9:
        return NORTHERN[b]
    if b == -10:
        return -90, -81
    if -9 <= b <= -1:
        low, high = NORTHERN[-b - 1]
        return -high - 1, -low - 1
    return 0, -1


def fold(v):
    return -v - 1 if v < 0 else v


def allowed(b, c, r):
    low, high = limits(b)
    if low <= r <= high:
        return True
    if (b < 0) != (r < 0):
        return False
    column = 7 - c if c > 3 else c
    return {
        (70, 8): column >= 2,
        (71, 7): column <= 2,
        (79, 9): column >= 1,
        (80, 8): column <= 1,
    }.get((fold(r), fold(b)), False)


def resolve(shift, b, c, letter):
    for r in range(-90, 95):
        if (r + shift) % 20 == letter and allowed(b, c, r):
            return r
    return None


def band_of(latitude):
    d = latitude // DEGREE
    return -10 if d < -72 else 9 if d >= 72 else d // 8


def zone_of(latitude, longitude):
    if not -90 * DEGREE <= latitude <= 90 * DEGREE:
        return "refused 22"
    if not -80 * DEGREE <= latitude < 84 * DEGREE:
        return "is 0"
    d = (longitude // DEGREE + 180) % 360 - 180
    band, zone = band_of(latitude), (d + 186) // 6
    if band == 7 and zone == 31 and d >= 3:
        zone = 32
    if band == 9 and 0 <= d <= 41:
        zone = 2 * ((d + 183) // 12) + 1
    return f"is {zone}"


def check(zone, north, easting, northing, margin):
    """The refusal, or the point: both range tests, which differ in the margin."""
    if not 0 <= zone <= 60:
        return "refused 14"
    utm = zone != 0
    ends = (1, 9) if utm else (13, 27) if north else (8, 32)
    tall = ends if not utm else (-90, 95) if north else (10, 195)
    if not (ends[0] - margin) * TILE <= easting <= (ends[1] + margin) * TILE:
        return "refused 16"
    if not (tall[0] - margin) * TILE <= northing <= (tall[1] + margin) * TILE:
        return "refused 17"
    if margin:
        return "within"
    easting -= easting == ends[1] * TILE
    northing -= northing == tall[1] * TILE
    if utm and north and northing < 0:
        north, northing = False, northing + 100 * TILE
    elif utm and not north and northing == 100 * TILE:
        northing -= 1
    elif utm and not north and northing > 100 * TILE:
        north, northing = True, northing - 100 * TILE
    return f"moved {'N' if north else 'S'} {easting} {northing}"


def letter_set(letters, tile):
    return f"{letters} {len(letters)} {tile}"


def bands(zone):
    return letter_set(BANDS if 1 <= zone <= 60 else "ABYZ" if zone == 0 else "", 0)


def columns(zone, band):
    if 1 <= zone <= 60:
        return letter_set(COLUMNS[(zone - 1) % 3], 1)
    return letter_set(*UPS_COLUMNS.get(band, ("", 0)) if zone == 0 else ("", 0))


def rows(zone, north):
    if 1 <= zone <= 60:
        return letter_set(ROWS, 0)
    return letter_set(*UPS_ROWS[north] if zone == 0 else ("", 0))


def row_or_none(row):
    return "none" if row is None else str(row)


def square(zone, *letters):
    band, column, row = (x.upper() for x in letters)
    if band not in BANDS:
        return "no band"
    letters = COLUMNS[(zone - 1) % 3]
    if column not in letters or row not in ROWS:
        return "none"
    return row_or_none(resolve(5 if zone % 2 == 0 else 0, BANDS.index(band) - 10, letters.index(column), ROWS.index(row)))


def odd_row(b, c, letter):
    return "is " + row_or_none(resolve(0, b, c, letter) if -10 <= b <= 9 and 0 <= c <= 7 else None)


def half(p):
    return 10 ** (11 - p) if 0 <= p <= 11 else 0


def corner(p, centre):
    return f"{half(p)} {centre - half(p) if centre >= half(p) else 0} {2 * half(p)}"


def floor(x, d):
    quotient, remainder = divmod(x, d) if d else (0, 0)
    return f"{fold(x)} {quotient} {remainder}"


def side(band):
    return ("N" if band in "NPQRSTUVWXYZ" else "S") + (" E" if band in "BZ" else "")


def yes(b, c, r):
    return "yes" if -10 <= b <= 9 and c <= 7 and allowed(b, c, r) else "no"
