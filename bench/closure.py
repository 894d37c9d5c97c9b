#!/usr/bin/env python3
"""Compares `closure` with exact integers on random grids: closure.py [COUNT [SEED]].

Three grids of one size have NODATA and values up to the ends of 64 bits; what is left around the loop is chosen so that patches
of equal and of different cycles touch, that half a cycle is met on both sides, and that closures just fit or do not. What the
program writes is compared byte for byte with what is computed here from docs/FORMATS.md, and so are its refusals: other words, a
broken line of each grid, another size, bytes after the last grid, and a closure that cannot be written.

First the rows that were worked out by hand are computed. COUNT is 1000 and SEED 7 if they are not given; with COUNT 0 only the
rows are computed, and no program is needed. UNWRAP names another program than the built one. The last line is 'N passed, M
failed'; the status is 1 if one failed.
"""
import itertools
import random
import sys
from typing import NamedTuple, Sequence

import trying
from displacement import GREATEST, NODATA, Grid, text_of
from mutation import Case, altered
from reading import Refused, read_grids
from running import Ended

CYCLE = 65536
OPTIONS: trying.Options = {}


class Patch(NamedTuple):
    """The first pixel of a patch, how many pixels it has, and their cycles."""

    x: int
    y: int
    size: int
    cycles: int


def closure(a: int, b: int, c: int) -> int:
    """What is left around the loop at a pixel, which may be too wide."""
    return NODATA if NODATA in (a, b, c) else a + b - c


def cycles(left: int) -> int:
    """The whole cycles without which a closure is from -32768 to 32767."""
    return NODATA if left == NODATA else (left + CYCLE // 2) // CYCLE


def closures(grids: Sequence[Grid]) -> Grid:
    """The closures of three grids of one size."""
    found = []
    for y, rows in enumerate(zip(*grids)):
        found.append([closure(*values) for values in zip(*rows)])
        for x, (left, *values) in enumerate(zip(found[-1], *rows)):
            if NODATA not in values and not NODATA < left <= GREATEST:
                raise Refused(f"input fault 23 wide {x} {y}")
    return found


def patches(whole: Grid) -> list[Patch]:
    """The patches of pixels of equal cycles other than 0, by their first pixels in row order."""
    found, seen = [], set()
    for y, x in itertools.product(range(len(whole)), range(len(whole[0]))):
        if whole[y][x] in (0, NODATA) or (x, y) in seen:
            continue
        patch, todo = {(x, y)}, [(x, y)]
        while todo:
            u, v = todo.pop()
            for near in ((u - 1, v), (u + 1, v), (u, v - 1), (u, v + 1)):
                if near in patch or not (0 <= near[0] < len(whole[0]) and 0 <= near[1] < len(whole)):
                    continue
                if whole[near[1]][near[0]] == whole[y][x]:
                    patch.add(near)
                    todo.append(near)
        seen |= patch
        found.append(Patch(x, y, len(patch), whole[y][x]))
    return found


def text_of_loop(grids: Sequence[Grid]) -> bytes:
    """What is written of three grids."""
    left = closures(grids)
    whole = [[cycles(value) for value in row] for row in left]
    found = patches(whole)
    values = [value for row in whole for value in row if value != NODATA]
    lines = f"closure {len(values)} {sum(value != 0 for value in values)} {len(found)}\n"
    lines += "".join(f"patch {' '.join(map(str, patch))}\n" for patch in found)
    return lines.encode() + text_of(left) + text_of(whole)


def wanted(words: Sequence[str], data: bytes) -> Ended:
    """How a run has to end."""
    if trying.numbers_of(words[1:], OPTIONS) is None:
        return trying.WORDS_REFUSED
    try:
        return Ended(0, text_of_loop(read_grids(data, 3)), b"")
    except Refused as why:
        return Ended(3, b"", f"{why}\n".encode())


def random_left(dice: random.Random, kind: str) -> int:
    """What is left around the loop at a pixel."""
    rest = dice.choice((0, 0, 1, -1, 32767, -32768, dice.randint(-32768, 32767)))
    if kind == "wild":
        return dice.choice((1, -1)) * dice.choice((0, 1, 2**30, 2**47, GREATEST // CYCLE - 1)) * CYCLE + rest
    if kind == "edge" and dice.random() < 0.1:
        return dice.choice((GREATEST, GREATEST - 1, NODATA + 1, NODATA + 2, *([GREATEST + 1, NODATA] * (dice.random() < 0.1))))
    return CYCLE * dice.choice((0, 0, 0, 1, -1, dice.choice((2, 3, -2)))) + rest


def random_values(dice: random.Random, left: int, width: int) -> tuple[int, int, int]:
    """Values of a pixel that leave so much around the loop, of about so many bits where they can be."""
    for _ in range(100):
        a, b = (dice.randint(1 - 2**width, 2**width - 1) for _ in range(2))
        if abs(left) > 2**width:
            a, b = a // 2 + left // 2, b // 2 + (left - left // 2) // 2
        if NODATA < a + b - left <= GREATEST and NODATA < min(a, b) and max(a, b) <= GREATEST:
            return a, b, a + b - left
    return 0, 0, 0


def random_grids(dice: random.Random) -> list[Grid]:
    """Three grids of one size. Blocks of some pixels have one closure, so that there are patches of several pixels."""
    most = dice.choice((1, 2, 4, 8, 12, 60))
    columns, lines = dice.randint(1, most), dice.randint(1, dice.choice((1, most)))
    width, side, missing = dice.choice((1, 16, 20, 34, 62, 63)), dice.choice((1, 1, 2, 3)), dice.choice((0, 0, 0.1, 0.5))
    kind = dice.choice(("plain", "plain", "wild", "edge"))
    blocks = [[random_left(dice, kind) for _ in range(columns)] for _ in range(lines)]
    pixels = [[random_values(dice, blocks[y // side][x // side], width) for x in range(columns)] for y in range(lines)]
    grids = [[[values[number] for values in row] for row in pixels] for number in range(3)]
    for grid, row in itertools.product(grids, range(lines)):
        grid[row] = [NODATA if dice.random() < missing / 2 else value for value in grid[row]]
    return grids


def resized(dice: random.Random, grid: Grid) -> Grid:
    """A grid of another size."""
    width, height = len(grid[0]), len(grid)
    columns, lines = dice.choice(((width + 1, height), (width, height + 1), (height, width), (max(width - 1, 1), height)))
    return [[grid[y % height][x % width] for x in range(columns)] for y in range(lines)]


def random_case(dice: random.Random) -> Case:
    """Mostly three grids, and otherwise some other number of them, others that do not fit, or a broken text."""
    grids = random_grids(dice)
    if dice.random() < 0.1:
        place = dice.randrange(3)
        grids[place] = resized(dice, grids[place])
    if dice.random() < 0.04:
        grids = grids[:2] if dice.random() < 0.5 else grids + grids[:1]
    texts = [text_of(grid) for grid in grids]
    if dice.random() < 0.2:
        place = dice.randrange(len(texts))
        texts[place] = altered(dice, texts[place], ())
    data = b"".join(texts) + dice.choice((b"\n", b" ", b"x", b"\0", b"ncols")) * (dice.random() < 0.02)
    return Case(trying.words_of(dice, "closure", {}, OPTIONS), data)


def try_the_rows() -> None:
    """The worked rows: what is written, and which line refuses."""
    whole = text_of([[0, 0, 65536, 65536]]) + text_of([[0, 0, 1, 1]])
    rows = [[0, 10, 20, 30]], [[0, 0, 0, 0]], [[0, 10, -65516, -65506]]
    assert text_of_loop(rows) == b"closure 4 2 1\npatch 2 0 2 1\n" + whole
    half, zeros, missing = [[32768, -32768]], [[0, 0]], [[NODATA, NODATA]]
    text = text_of(half) + text_of(zeros)
    assert wanted(["closure"], text + text_of(zeros))[1] == b"closure 2 1 1\npatch 0 0 1 1\n" + text_of(half) + text_of([[1, 0]])
    assert wanted(["closure"], text + text_of(missing))[1] == b"closure 0 0 0\n" + text_of(missing) * 2
    wide = text_of([[GREATEST, 0]]) + text_of([[1, 0]]) + text_of(zeros)
    refused = {
        text + text_of([[0]]): b"input fault 21 grid 3 sizes\n",
        wide: b"input fault 23 wide 0 0\n",
        wide + b"\n": b"input fault 22 after grids byte 285\n",
        text_of(half) + text_of([[0]]) + b"x": b"input fault 21 grid 2 sizes\n",
        text + text_of(zeros)[:-1]: b"input fault 19 grid 3 line 7\n",
        text: b"input fault 19 grid 3 line 1\n",
        b"": b"input fault 19 grid 1 line 1\n",
        text_of(half).replace(b"nrows 1", b"nrows 2"): b"input fault 19 grid 1 line 8\n",
    }
    for data, line in refused.items():
        assert wanted(["closure"], data) == (3, b"", line), (data, line, wanted(["closure"], data))
    assert wanted(["closure", "--tile", "64"], text + text_of(zeros)) == (2, b"", b"words refused\n")


if __name__ == "__main__":
    sys.exit(trying.main("closure", wanted, random_case, try_the_rows))
