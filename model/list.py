#!/usr/bin/env python3
"""Document 01's reader and listing once more, plainly, in exact whole numbers.

    model/list.py          writes crates/list/stdin and stdout, to which the gate holds the program list
    model/list.py FILE     writes the listing of FILE to standard output

It shares nothing with the crates. The letters and the rows are those of model/ground.py.
"""
import os
import sys

from ground import BANDS, COLUMNS, ROWS, TILE, UPS_COLUMNS, UPS_ROWS, resolve

METRE = 2000000


def bare(zone, band):
    if zone == 0:
        return (2400000 if band in "BZ" else 1600000) * METRE, 2000000 * METRE
    k = BANDS.index(band)
    tiles = (160 * k - 1511) // 18 + (0 if band >= "N" else 100)
    return (400000 if (zone, band) == (31, "V") else 500000) * METRE, tiles * TILE


def read(text):
    """A refusal's number, or zone, hemisphere, band, p, easting, northing."""
    if any(b >= 128 for b in text):
        return 1
    s = text.decode("ascii").upper()
    if s[:3] == "INV":
        return 2
    n = 0
    while n < len(s) and s[n] in "0123456789":
        n += 1
    zone = int(s[:n] or "0")
    if n and not 1 <= zone <= 60:
        return 3
    if n > 2:
        return 4
    if len(s) == n:
        return 5
    band = s[n]
    if band not in (BANDS if zone else "ABYZ"):
        return 6
    side = "N" if band >= "N" else "S"
    rest = s[n + 1 :]
    if not rest:
        return zone, side, band, -1, *bare(zone, band)
    if len(rest) == 1:
        return 7
    columns, first = (COLUMNS[(zone - 1) % 3], 1) if zone else UPS_COLUMNS[band]
    rows, lowest = (ROWS, 0) if zone else UPS_ROWS[side == "N"]
    if rest[0] not in columns:
        return 8
    if rest[1] not in rows:
        return 9
    column, letter = columns.index(rest[0]), rows.index(rest[1])
    row = lowest + letter
    if zone:
        row = resolve(5 if zone % 2 == 0 else 0, BANDS.index(band) - 10, column, letter)
        if row is None:
            return 10
        row += 100 if row < 0 else 0
    digits = rest[2:]
    if any(d not in "0123456789" for d in digits):
        return 11
    if len(digits) % 2:
        return 12
    if len(digits) > 22:
        return 13
    p = len(digits) // 2
    half = 10 ** (11 - p)
    centre = [(2 * int(str(tile) + ds) + 1) * half for tile, ds in ((first + column, digits[:p]), (row, digits[p:]))]
    return zone, side, band, p, *centre


def line(number, text):
    answer = 23 if len(text) > 64 else read(text)
    fields = ("R", answer) if isinstance(answer, int) else answer
    return " ".join(str(f) for f in (number, *fields)) + "\n"


def listing(data):
    lines = data.split(b"\n")
    if lines[-1] == b"":
        lines.pop()
    return "".join(line(number, text) for number, text in enumerate(lines, 1)).encode()


# Document 01's example of the listing, then its references of reading, in its order.
EXAMPLE = ["18TWL856641113154", "18T", "18TW"]
REFERENCES = """18TWL856641113154 27UXQ0314512982 YXL6143481146 4qfj 18T 31V Z 31WCL 31WBL 31WFL 31WGL 31VCM 31VDM 31XBV 31XAV
31WBA 31WCA 18 0 61C 018T inv 18I 18TW 18TAL 18TWW 18TWA 18TWLX 18TWL8""".split()

# One on each side of every rule and of every order of two rules.
RULES = [
    "18TWL" + "1" * 22, "18TWL" + "1" * 23, "18TWL" + "1" * 24, "18TWL" + "9" * 22, "18TWL" + "0" * 22, "18TWL1", "18TWL12",
    "18TWL123", "18TWL1234", "18TWAX", "18TWA1", "18TWA" + "1" * 24, "18TWLX1", "18TWL1X", "18TWL" + "1" * 23 + "X", "18TWL12 34",
    "18TWLX" + "1" * 30, "18TWL1X2", "18TWL88", "INV", "iNv", "INVALID", "INV18T", "IN", "INW", "18INV", " INV", "0018T", "00", "000", "060T", "60X", "61X",
    "99T", "100T", "001T", "0T", "00T", "1", "01", "1C", "01C", "60", "9", "Z", "z", "A", "B", "Y", "C", "I", "O", "N", "18A", "18B", "18Y",
    "18Z", "18O", "18i", "1A", "18tWl", "18TwL12", "18TWI", "18TWO", "18TWX", "18TIL", "18TOL", "AZ", "AJA", "AAA", "AZZ", "AJI", "ADA",
    "BAA", "BRZ", "BSA", "YRA", "YZP", "YZQ", "YJA", "ZAA", "ZJP", "ZJQ", "ZAQ", "ZKA", "ZAH12", "BAN1234567890", "zah1234567890123456789012",
    "4294967314TWL", "18446744073709551634TWL", "184467440737095516161T", "1" * 40 + "T", "0" * 63 + "1", "0" * 62 + "1T", "18T 18TWL",
    "18TWL-1", "18TWL+1", "18TWL1.5", "+18T", "-1T", "1 8T", "18,T", "18TWL\x00", "\x00", "\x0018T", "18T\x00", "18\x00T", "18TWL12\x0034",
    "18T\r", "18TWL\r", "18TWL12\r", "\r", " ", "18T ", " 18T", "18TWL/0", "18TWL:0", "18TWL0/", "18TWL0:", "18@", "18[", "18`", "18{", "@", "[",
]


def hostile():
    yield from (t.encode() for t in EXAMPLE + REFERENCES + RULES)
    yield from (f"{zone}{band}".encode() for zone in (1, 31, 32) for band in BANDS)
    # each band's first and last row, and the neighbours of the folded cases, for each set of columns, in an odd zone and in two even ones
    yield from (f"{zone}{band}{COLUMNS[(zone - 1) % 3][c]}{row}".encode() for zone in (31, 32, 60) for band in "CDHMNRUVWX" for c in (0, 1, 2, 5, 7) for row in ROWS)
    # each number of digits, even and odd, in the south and in the north, of UTM and of UPS
    yield from ((start + "9081726354018273645500998"[:n]).encode() for start in ("14MKT", "15SWC", "BGN", "YZG") for n in range(26))
    yield from (bytes([b]) for b in range(1, 256) if b != 10)
    yield from (b"18TWL1234\x80", b"\xff18T", b"INV\x80", b"18TWL12\xc3\xa9", b"\xc3\x8918T")
    # a high byte at each place of texts around eight and around sixteen bytes
    yield from (b"1" * k + b"\x80" + b"1" * (n - 1 - k) for n in (7, 8, 9, 15, 16, 17) for k in range(n))
    # and a byte that is no digit at each place of so many digits
    yield from (b"18TWL" + b"1" * k + other + b"1" * (n - 1 - k) for n in (7, 8, 9, 10, 15, 16, 17, 22) for k in range(n) for other in (b"/", b":", b"X"))
    yield from (b"18TWL" + b"1" * n for n in (58, 59, 60, 61))
    yield from (b"x" * n for n in (63, 64, 65, 66, 127, 128, 129, 4096))
    yield b"9" * 10000
    yield b"18TWL" + b"0" * 10000
    yield b"\x80" * 65


def gate():
    """The lines above, then a long line and references around the edges of the program's blocks, then one with no LF."""
    data = b"".join(line + b"\n" for line in hostile()) + b"\n\n"
    for k in (40, 7):
        data += b"y" * (65536 - k - len(data) % 65536) + b"\n" + b"18TWL856641113154\n27UXQ0314512982\nYXL61\n" * 5
    return data + b"z" * 70000 + b"\n18T\n" + b"18TWL" + b"1" * 60


def main():
    if len(sys.argv) > 1:
        sys.stdout.buffer.write(listing(open(sys.argv[1], "rb").read()))
        return
    data = gate()
    folder = os.path.join("crates", "list")
    open(os.path.join(folder, "stdin"), "wb").write(data)
    open(os.path.join(folder, "stdout"), "wb").write(listing(data))
    print(len(data), "bytes,", len(listing(data).splitlines()), "lines")


if __name__ == "__main__":
    main()
