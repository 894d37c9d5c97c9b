#!/usr/bin/env python3
"""Compares `nearest` with exact integers on random sessions and grids: nearest.py [COUNT [SEED]].

Planes have masks and any phases; values lie near half cycles, at the ends of 64 bits, or anywhere. What the program writes is
compared byte for byte with what is computed here from docs/FORMATS.md, and so are its refusals: words, a broken session or grid,
bytes after the grid, another size, a value that is missing, and one that cannot be written.

First the rows that were worked out by hand are computed. COUNT is 1000 and SEED 7 if they are not given; with COUNT 0 only the
rows are computed, and no program is needed. UNWRAP names another program than the built one. The last line is 'N passed, M
failed'; the status is 1 if one failed.
"""
import random
import sys
from typing import Iterator, Sequence

import trying
from displacement import GREATEST, NODATA, Grid, text_of
from mutation import Case, altered
from reading import GridsReader, Refused, read_session
from running import Ended
from stress import CYCLE, Session

SIDE = 64  # of the tiles by which the edits of a session are judged
HALF = CYCLE // 2
Pixel = tuple[int, int, int, int]


def nearest(phase: int, given: int) -> int:
    """The number that is the phase up to whole cycles and nearest to the given one: of two, the lower."""
    above = given + (phase - given) % CYCLE
    return min(above - CYCLE, above, key=lambda value: (abs(value - given), value))


def open_pixels(session: Session, rows: Grid) -> Iterator[Pixel]:
    """Column, row, phase and given value of each open pixel, in row order."""
    for place, (phase, is_open) in enumerate(zip(session.phase, session.opened)):
        x, y = place % session.width, place // session.width
        if is_open:
            yield x, y, phase, rows[y][x]


def surface(session: Session, rows: Grid) -> Grid:
    """The surface that is nearest to a grid."""
    if (len(rows[0]), len(rows)) != (session.width, session.height):
        raise Refused("input fault 21 grid 1 sizes")
    pixels = list(open_pixels(session, rows))
    for x, y, _, given in pixels:
        if given == NODATA:
            raise Refused(f"input fault 25 missing {x} {y}")
    found = [[NODATA] * session.width for _ in rows]
    for x, y, phase, given in pixels:
        found[y][x] = nearest(phase, given)
        if not NODATA < found[y][x] <= GREATEST:
            raise Refused(f"input fault 23 wide {x} {y}")
    return found


def read_both(data: bytes) -> tuple[Session, Grid]:
    """The session and the grid that bytes are. Raises Refused."""
    session, text = read_session(data, SIDE, "least", False)
    reader = GridsReader(text)
    rows = reader.grid()
    if reader.place < len(text):
        raise Refused(f"input fault 22 after grids byte {len(data) - len(text) + reader.place}")
    return session, rows


def wanted(words: Sequence[str], data: bytes) -> Ended:
    """How a run has to end."""
    if trying.numbers_of(words[1:], {}) is None:
        return trying.WORDS_REFUSED
    try:
        return Ended(0, text_of(surface(*read_both(data))), b"")
    except Refused as why:
        return Ended(3, b"", f"{why}\n".encode())


def random_value(dice: random.Random, phase: int, width: int) -> int:
    """A value of about so many bits, often half a cycle from the phase up to whole cycles."""
    if dice.random() < 0.05:
        return dice.choice((NODATA + 1, NODATA + HALF, GREATEST, GREATEST - HALF))
    cycles = dice.randint(-(2**width), 2**width) * CYCLE
    near = phase + cycles + dice.choice((0, 1, -1, HALF, -HALF, HALF - 1, 1 - HALF, dice.randrange(CYCLE)))
    return max(NODATA + 1, min(GREATEST, near))


def plane_text(dice: random.Random, width: int, height: int, maxval: int, samples: Sequence[int]) -> bytes:
    """A plane in one of its two forms."""
    if dice.random() < 0.5:
        return f"P2 {width} {height} {maxval} {' '.join(map(str, samples))}\n".encode()
    size = 1 if maxval < 256 else 2
    return f"P5 {width} {height} {maxval}\n".encode() + b"".join(sample.to_bytes(size, "big") for sample in samples)


def random_session(dice: random.Random, width: int, height: int, phases: Sequence[int], opened: Sequence[int]) -> bytes:
    """The text of a session with these phases and this mask."""
    text = plane_text(dice, width, height, 65535, phases)
    if not all(opened) or dice.random() < 0.3:
        text += plane_text(dice, width, height, 9, [dice.randint(0, 9) for _ in phases])
        text += plane_text(dice, width, height, 1, opened)
    edit = f"unmask 0 0 {width - 1} {height - 1}\n"
    return text + dice.choice((b"end\n", b"end\n", f"analyst\nsettle\n{edit}settle\nend\n".encode()))


def random_case(dice: random.Random) -> Case:
    """Now and then with a broken text, another size, or words that are refused."""
    most = dice.choice((1, 2, 5, 9, 70))
    width, height = dice.randint(1, most), dice.randint(1, most)
    share, bits = dice.choice((0, 0.1, 0.5, 1)), dice.choice((0, 1, 8, 30, 47))
    pixels = range(width * height)
    phases = [dice.choice((0, 65535, HALF, dice.randrange(CYCLE))) for _ in pixels]
    opened = [int(dice.random() >= share) for _ in pixels]
    values = [random_value(dice, phase, bits) for phase in phases]
    hidden = [place for place in pixels if not opened[place] or dice.random() < 0.001]
    for place in hidden:
        values[place] = dice.choice((NODATA, values[place]))
    data = random_session(dice, width, height, phases, opened)
    columns = width if dice.random() < 0.95 else height
    data += text_of([values[start : start + columns] for start in range(0, columns * (len(values) // columns), columns)])
    words = trying.words_of(dice, "nearest", {}, {})
    return Case(words, altered(dice, data, ()) if dice.random() < 0.1 else data)


def try_the_rows() -> None:
    """The worked rows: what the surfaces are, and which line refuses."""
    assert [nearest(0, given) for given in (32767, 32768, 32769, -32768, -32769)] == [0, 0, 65536, -65536, -65536]
    assert [nearest(65535, given) for given in (-32768, -32769, GREATEST)] == [-1, -65537, GREATEST]
    line = b"P2 4 1 65535 0 20000 40000 60000\nend\n"
    assert wanted(["nearest"], line + text_of([[32768, -12768, 100000, -100000]])).out == text_of([[0, -45536, 105536, -71072]])
    pixel, masked = b"P2 1 1 65535 0\nend\n", b"P2 1 1 65535 7 P2 1 1 1 1 P2 1 1 1 0\nend\n"
    for value in (5, NODATA):
        assert wanted(["nearest"], masked + text_of([[value]])) == (0, text_of([[NODATA]]), b"")
    assert wanted(["nearest"], pixel + text_of([[NODATA]])) == (3, b"", b"input fault 25 missing 0 0\n")
    assert wanted(["nearest"], pixel + text_of([[GREATEST]])) == (3, b"", b"input fault 23 wide 0 0\n")
    assert wanted(["nearest"], pixel + text_of([[NODATA + 1]])) == (3, b"", b"input fault 23 wide 0 0\n")
    assert wanted(["nearest"], pixel + text_of([[NODATA, 0]])) == (3, b"", b"input fault 21 grid 1 sizes\n")
    assert wanted(["nearest"], pixel + text_of([[0]]) + b"x") == (3, b"", b"input fault 22 after grids byte 106\n")
    assert wanted(["nearest"], pixel) == (3, b"", b"input fault 19 grid 1 line 1\n")
    assert wanted(["nearest"], pixel[:-4]) == (3, b"", b"input fault 14 no end\n")
    assert wanted(["nearest", "--tile", "2"], pixel) == (2, b"", b"words refused\n")


if __name__ == "__main__":
    sys.exit(trying.main("nearest", wanted, random_case, try_the_rows))
