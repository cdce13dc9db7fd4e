#!/usr/bin/env python3
"""Document 01's writing, shortening and covering once more, plainly, in exact whole numbers.

    model/write.py         writes crates/corners/stdout, to which the gate holds the program corners

It shares nothing with the crates. The letters, the rows and the edge rules are those of model/ground.py, the reader is that of
model/list.py. Run it at the repository's root.
"""
from functools import cache

import list as listing
from ground import BANDS, COLUMNS, ROWS, TILE, UPS_COLUMNS, UPS_ROWS, allowed, check
from list import bare, read

# Each row is looked for a great many times.
listing.resolve = cache(listing.resolve)

UPS_BANDS = "ABYZ"


def fits(zone, north, band, column, row):
    if zone:
        return allowed(BANDS.index(band) - 10, column - 1, row if north else row - 100)
    return (band in "YZ") == north and (band in "BZ") == (column >= 20)


def letters(zone, north, band, column, row):
    if zone:
        shift = 5 if zone % 2 == 0 else 0
        return COLUMNS[(zone - 1) % 3][column - 1] + ROWS[((row if north else row - 100) + shift) % 20]
    columns, first = UPS_COLUMNS[band]
    rows, lowest = UPS_ROWS[bool(north)]
    return columns[column - first] + rows[row - lowest]


def digits(p, x):
    cut = x % TILE * 10**p // TILE
    return str(cut).zfill(p) if p else ""


def write(zone, north, band, p, easting, northing):
    """A refusal's number, or the text."""
    if not 0 <= zone <= 60:
        return 14
    if not -1 <= p <= 11:
        return 15
    said = check(zone, north, easting, northing, 0).split()
    if said[0] == "refused":
        return int(said[1])
    north, easting, northing = said[1] == "N", int(said[2]), int(said[3])
    if band not in (BANDS if zone else UPS_BANDS):
        return 18
    place = zone, north, band, easting // TILE, northing // TILE
    if not fits(*place):
        return 19
    text = (f"{zone:02}" if zone else "") + band
    if p >= 0:
        text += letters(*place) + digits(p, easting) + digits(p, northing)
    return text


def corner(p, centre):
    return centre - 10 ** (11 - p)


def shorten(text, q):
    answer = read(text)
    if isinstance(answer, int):
        return answer
    zone, side, band, p, easting, northing = answer
    if p < 0 or not 0 <= q <= p:
        return 21
    return write(zone, side == "N", band, q, corner(p, easting), corner(p, northing))


def covers(a, b):
    a, b = read(a), read(b)
    for answer in (a, b):
        if isinstance(answer, int):
            return f"refused {answer}"
    if (a[0], a[2]) != (b[0], b[2]):
        return "no"
    if a[3] < 0 or b[3] < 0:
        return "yes" if a[3] < 0 else "no"
    side = [2 * 10 ** (11 - x[3]) for x in (a, b)]
    for k in (4, 5):
        outer, inner = corner(a[3], a[k]), corner(b[3], b[k])
        if not outer <= inner <= inner + side[1] <= outer + side[0]:
            return "no"
    return "yes"


# ---- what corners prints


class Count:
    """References tried, written and read back, and the sum over all bytes written."""

    def __init__(self):
        self.tried = self.written = self.back = self.sum = 0

    def put(self, zone, north, band, p, easting, northing):
        self.tried += 1
        text = write(zone, north, band, p, easting, northing)
        if isinstance(text, int):
            return
        self.written += 1
        for byte in text.encode():
            self.sum = (self.sum * 31 + byte) % 2**32
        self.back += is_back(text, (zone, "N" if north else "S", band, p), easting, northing)

    def __str__(self):
        return f"tried {self.tried} written {self.written} back {self.back} sum {self.sum}"


def is_back(text, same, easting, northing):
    answer = read(text.encode())
    if isinstance(answer, int) or answer[:4] != same:
        return False
    half = 10 ** (11 - same[3])
    return same[3] < 0 or all(c - half <= x < c + half for c, x in zip(answer[4:], (easting, northing)))


def bare_line(kind, zones, bands):
    count = Count()
    for zone in zones:
        for band in bands:
            count.put(zone, band >= "N", band, -1, *bare(zone, band))
    return f"{kind} bare {count}"


def corner_lines(kind, tiles, bands):
    """Of all tiles given as zone, hemisphere, column and row."""
    fitting, refused, counts = 0, [], {p: Count() for p in (0, 1, 5, 10, 11)}
    for zone, north, column, row in tiles:
        west, low = column * TILE, row * TILE
        for band in bands:
            answer = write(zone, north, band, 0, west, low)
            if isinstance(answer, int):
                refused.append(answer)
                continue
            fitting += 1
            for p, count in counts.items():
                for further_north in (0, TILE - 1):
                    for further_east in (0, TILE - 1):
                        count.put(zone, north, band, p, west + further_east, low + further_north)
    misfits = refused.count(19)
    yield f"{kind} bands fitting {fitting} R 19 {misfits} other {len(refused) - misfits}"
    yield from (f"{kind} p {p} {count}" for p, count in counts.items())


def utm_tiles():
    for zone in range(1, 61):
        for column in range(1, 9):
            for row in range(-90, 95):
                yield zone, row >= 0, column, row % 100


def ups_tiles():
    for north, tiles in ((False, range(8, 32)), (True, range(13, 27))):
        for column in tiles:
            for row in tiles:
                yield 0, north, column, row


def corners():
    yield bare_line("utm", range(1, 61), BANDS)
    yield bare_line("ups", [0], UPS_BANDS)
    yield from corner_lines("utm", utm_tiles(), BANDS)
    yield from corner_lines("ups", ups_tiles(), UPS_BANDS)


def main():
    lines = [text + "\n" for text in corners()]
    with open("crates/corners/stdout", "w") as out:
        out.writelines(lines)
    print(len(lines), "lines")


if __name__ == "__main__":
    main()
