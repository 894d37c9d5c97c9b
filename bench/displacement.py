#!/usr/bin/env python3
"""Compares `displacement` with exact integers on random grids: displacement.py [COUNT [SEED]].

A grid has NODATA and values up to the ends of 64 bits; wavelengths, reference pixels and blocks are random, too. What the
program writes is compared byte for byte with what is computed here from docs/FORMATS.md, and so are its refusals: words beyond
their ranges, a broken line, bytes after the grid, a reference pixel without a value, and a block whose displacement cannot be
written.

First the rows that were worked out by hand are computed. COUNT is 1000 and SEED 7 if they are not given; with COUNT 0 only the
rows are computed, and no program is needed. UNWRAP names another program than the built one. The last line is 'N passed, M
failed'; the status is 1 if one failed.
"""
import random
import sys
from typing import NamedTuple, Sequence

import trying
from mutation import Case, altered
from reading import Refused, read_grids
from running import Ended
from trying import Option

NODATA = -(2**63)
GREATEST = 2**63 - 1
# A wavelength is two cycles of 65536 units each.
UNITS = 2 * 65536
OPTIONS = {"wavelength": Option(1, 10**9, None), "x": Option(0, 4095), "y": Option(0, 4095), "block": Option(1, 64, 1)}

Grid = list[list[int]]


class Sight(NamedTuple):
    """What the words ask for: the wavelength in nanometres, the reference pixel, and the side of a block."""

    wavelength: int
    x: int = 0
    y: int = 0
    block: int = 1


def displacement(rows: Grid, sight: Sight, reference: int, x: int, y: int) -> int:
    """What is written for the block in column x and row y."""
    side = sight.block
    block = [row[side * x : side * x + side] for row in rows[side * y : side * y + side]]
    values = [value for row in block for value in row if value != NODATA]
    if not values:
        return NODATA
    # Python's // rounds towards minus infinity.
    mean = sight.wavelength * (sum(values) - len(values) * reference) // (UNITS * len(values))
    if not NODATA < mean <= GREATEST:
        raise Refused(f"input fault 23 wide {x} {y}")
    return mean


def displacements(rows: Grid, sight: Sight) -> Grid:
    """The displacements of all blocks."""
    if sight.y >= len(rows) or sight.x >= len(rows[0]) or rows[sight.y][sight.x] == NODATA:
        raise Refused("input fault 24 reference")
    reference = rows[sight.y][sight.x]
    columns, lines = range(0, len(rows[0]), sight.block), range(0, len(rows), sight.block)
    return [[displacement(rows, sight, reference, x, y) for x in range(len(columns))] for y in range(len(lines))]


def text_of(rows: Grid) -> bytes:
    """The text of a grid."""
    head = f"ncols {len(rows[0])}\nnrows {len(rows)}\nxllcorner 0\nyllcorner 0\ncellsize 1\nNODATA_value {NODATA}\n"
    return (head + "".join(" ".join(map(str, row)) + "\n" for row in rows)).encode()


def wanted(words: Sequence[str], data: bytes) -> Ended:
    """How a run has to end."""
    numbers = trying.numbers_of(words[1:], OPTIONS)
    if numbers is None:
        return trying.WORDS_REFUSED
    try:
        return Ended(0, text_of(displacements(read_grids(data, 1)[0], Sight(**numbers))), b"")
    except Refused as why:
        return Ended(3, b"", f"{why}\n".encode())


def random_value(dice: random.Random, width: int) -> int:
    """A value of about so many bits."""
    if dice.random() < 0.1:
        return NODATA
    if dice.random() < 0.1:
        return dice.choice((0, 1, -1, NODATA + 1, NODATA + 2, GREATEST - 1, GREATEST))
    return dice.randint(1 - 2**width, 2**width - 1)


def random_grid(dice: random.Random) -> Grid:
    most = dice.choice((1, 2, 5, 9, 140))
    columns, lines = dice.randint(1, most), dice.randint(1, most)
    width = dice.choice((1, 16, 20, 34, 48, 50, 63))
    empty = dice.random() < 0.2
    return [[NODATA if empty and dice.random() < 0.9 else random_value(dice, width) for _ in range(columns)] for _ in range(lines)]


def random_sight(dice: random.Random, rows: Grid) -> Sight:
    """Mostly with a reference pixel that has a value."""
    pixels = [(x, y) for y, row in enumerate(rows) for x, value in enumerate(row) if value != NODATA]
    some = [(0, 0), (len(rows[0]), 0), (0, len(rows)), (len(rows[0]) - 1, len(rows) - 1), (4095, 4095)]
    x, y = dice.choice(pixels if pixels and dice.random() < 0.9 else some)
    wavelength = dice.choice((1, UNITS - 1, UNITS, UNITS + 1, 56_000_000, 10**9, dice.randint(1, 10**9)))
    return Sight(wavelength, x, y, dice.choice((1, 1, 2, 3, 8, 63, 64, dice.randint(1, 64))))


def random_case(dice: random.Random) -> Case:
    """Now and then with a broken text, or without a wavelength."""
    rows = random_grid(dice)
    numbers = random_sight(dice, rows)._asdict()
    if dice.random() < 0.02:
        del numbers["wavelength"]
    data = text_of(rows)
    words = trying.words_of(dice, "displacement", numbers, OPTIONS)
    return Case(words, altered(dice, data, ()) if dice.random() < 0.1 else data)


def try_the_rows() -> None:
    """The worked rows: what the displacements are, and which line refuses."""
    row = [[0, -25536, -51072, -76608]]
    assert displacements(row, Sight(56_000_000)) == [[0, -10910157, -21820313, -32730469]]
    assert displacements(row, Sight(56_000_000, block=2)) == [[-5455079, -27275391]]
    waves = ["displacement", "--wavelength", "56000000"]
    assert wanted([*waves, "--x", "4"], text_of(row)) == (3, b"", b"input fault 24 reference\n")
    assert wanted(["displacement"], text_of(row)) == (2, b"", b"words refused\n")
    assert wanted([*waves, "--block", "65"], text_of(row)) == wanted([*waves, "--x", "4096"], b"") == wanted(["displacement"], b"")
    assert wanted(["displacement", "--wavelength", str(UNITS)], text_of([[1, NODATA + 1]])) == (3, b"", b"input fault 23 wide 1 0\n")
    assert wanted(waves, text_of(row) * 2) == (3, b"", b"input fault 22 after grids byte 108\n")
    assert wanted(waves, text_of(row)[:-1]) == (3, b"", b"input fault 19 grid 1 line 7\n")
    assert text_of([[NODATA, 200]]).endswith(b"cellsize 1\nNODATA_value -9223372036854775808\n-9223372036854775808 200\n")


if __name__ == "__main__":
    sys.exit(trying.main("displacement", wanted, random_case, try_the_rows))
