#!/usr/bin/env python3
"""Writes crates/vectors/stdout from document 01: what the program has to print of the lines of crates/vectors/stdin.

A question with no recorded answer behind it is printed with its answer, a remark as it is. One with a recorded answer is answered here
too, compared and counted. The rules are read as in model/ground.py, model/list.py and model/write.py. Run it at the repository's root
after a line is added; the gate then holds the program to what stands there.
"""
import re
import sys
from decimal import Decimal

import ground
from list import line, read
from write import covers, shorten, write


def text(word):
    """Any byte but `!` to `~` is a backslash and two hex digits."""
    return re.sub(rb"\\(..)", lambda hex: bytes([int(hex[1], 16)]), word.encode())


def north(word):
    return word == "N"


# How the fields of a question are taken, by its first word: numbers, texts, letters and hemispheres.
NUMBER, LETTER = int, str
POINT = (NUMBER, north, NUMBER, NUMBER)
POSITION = (NUMBER, north, LETTER, NUMBER, NUMBER, NUMBER)


def in_buffer(answer, room):
    if isinstance(answer, int):
        return f"refused {answer}"
    return "text " + answer if len(answer) <= room else "refused 20"


def metres(units):
    return format((Decimal(units) / 2_000_000).normalize(), "f")


def reading(given):
    answer = read(given)
    if isinstance(answer, int):
        return f"refused {answer}"
    zone, side, _, p, *point = answer
    return " ".join(map(str, ("bare" if p < 0 else "square", zone, side, p, *map(metres, point))))


def fields(given):
    """What the call for C answers, and the numbers that it leaves: those that were lent are 7."""
    answer = read(given)
    if isinstance(answer, int):
        return f"{-answer}:" + " 7" * 6
    zone, side, band, p, *point = answer
    return f"{int(p < 0)}: " + " ".join(map(str, (zone, int(side == "N"), ord(band), p, *point)))


def back(*position):
    """What is read of what is written, or the refusal of writing."""
    written = write(*position)
    if isinstance(written, int):
        return f"refused {written}"
    answer = read(written.encode())
    return " ".join(map(str, ("bare" if answer[3] < 0 else "square", *answer)))


def south_west(zone, north, band, p, easting, northing):
    half = ground.half(p)
    return f"{zone} {'N' if north else 'S'} {band} {p} {easting - half} {northing - half}"


QUESTIONS = {
    "read": (reading, text),
    "mgrs": (lambda *point: ground.check(*point, 0), *POINT),
    "utm": (lambda *point: ground.check(*point, 1), *POINT),
    "band": (lambda latitude: f"is {ground.band_of(latitude)}", NUMBER),
    "zone": (ground.zone_of, NUMBER, NUMBER),
    "row": (ground.odd_row, NUMBER, NUMBER, NUMBER),
    "covers": (covers, text, text),
    "fields": (fields, text),
    "back": (back, *POSITION),
    "south-west": (south_west, *POSITION),
    "ten": (lambda k: str(10**k if k <= 11 else 0), NUMBER),
    "floor": (ground.floor, NUMBER, NUMBER),
    "limits": (lambda band: "{} {}".format(*ground.limits(band)), NUMBER),
    "grid": (lambda zone: "utm" if 1 <= zone <= 60 else "none" if zone else "ups", NUMBER),
    "shift": (lambda zone: "0" if zone % 2 else "5", NUMBER),
    "letter": (lambda shift, row: str((row + shift) % 20), NUMBER, NUMBER),
    "capital": (lambda byte: str(byte - 32 if ord("a") <= byte <= ord("z") else byte), NUMBER),
    "side": (ground.side, LETTER),
    "allowed": (ground.yes, NUMBER, NUMBER, NUMBER),
    "corner": (ground.corner, NUMBER, NUMBER),
    "square": (ground.square, NUMBER, LETTER, LETTER, LETTER),
    "bands": (ground.bands, NUMBER),
    "columns": (ground.columns, NUMBER, LETTER),
    "rows": (ground.rows, NUMBER, north),
}

# Those that are answered in a buffer, of 28 bytes where the question does not begin with `in` and another length.
IN_BUFFER = {
    "write": (write, *POSITION),
    "shorten": (shorten, text, NUMBER),
    "list": (line, NUMBER, text),
}


# The questions that a recorded answer may follow, in the order of their counts.
RECORDED = ("read", "write", "mgrs", "utm", "band", "zone", "row")


def takes(word):
    """How the fields of a question are taken."""
    return (IN_BUFFER.get(word) or QUESTIONS[word])[1:]


def answer(question):
    room = 28
    word, *words = question.split(" ")
    if word == "in":
        room, word, *words = int(words[0]), *words[1:]
    given = [take(w) for take, w in zip(takes(word), words, strict=True)]
    if word in IN_BUFFER:
        return in_buffer(IN_BUFFER[word][0](*given), room)
    return QUESTIONS[word][0](*given)


def parted(line):
    """A question, and the recorded answer behind it or nothing."""
    words = line.split(" ")
    if words[0] not in RECORDED:
        return line, ""
    end = 1 + len(takes(words[0]))
    return " ".join(words[:end]), " ".join(words[end:])


def main():
    lines = open("crates/vectors/stdin").read().split("\n")[:-1]
    counts = {word: [0, 0] for word in RECORDED}
    with open("crates/vectors/stdout", "w") as out:
        for line in lines:
            if line.startswith("#"):
                out.write(line + "\n")
                continue
            question, recorded = parted(line)
            if not recorded:
                out.write(f"{line} {answer(question)}\n")
                continue
            count = counts[line.split(" ")[0]]
            count[0] += 1
            if answer(question) != recorded:
                count[1] += 1
                print("another answer here:", line, file=sys.stderr)
        for word, (asked, differ) in counts.items():
            out.write(f"{word} {asked}, differ {differ}\n")
        out.write(f"lines {sum(asked for asked, _ in counts.values())}, not understood 0\n")
    print(len(lines), "lines")


if __name__ == "__main__":
    main()
