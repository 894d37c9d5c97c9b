"""Displacements along the line of sight, which the program's command `displacement` computes of a surface. NumPy alone.

One cycle, 65536 units, is half a wavelength of range. What comes back are whole nanometres, each block's mean rounded down.
The program takes a grid and one of its pixels as the reference; so above each part of a surface a row of blocks is added
that holds the level, and it is left out of what comes back. So a surface has no need of a pixel at its level, and may be
larger than a grid.
"""
import io
import math
from dataclasses import dataclass
from fractions import Fraction
from typing import Iterator, Tuple

import numpy as np

from .planes import CYCLE, TILED_LIMITS
from .program import run_program
from .report_reader import NODATA, BrokenLine, read_grid_from
from .trouble import DISAGREES, REFUSED_WORDS, Trouble

LENGTHS = {"nanometres": 1, "millimetres": 10**6, "centimetres": 10**7, "metres": 10**9}  # a unit in nanometres
MAX_BLOCK, MAX_WAVELENGTH = 64, 10**9
ROUNDED = "whole nanometres, rounded down, by `insar_unwrap displacement`"
HEAD = "ncols {}\nnrows {}\nxllcorner 0\nyllcorner 0\ncellsize 1\nNODATA_value {}\n"


def wavelength_of(metres: float) -> int:
    """A wavelength in nanometres: the nearest whole one. Trouble if the program takes none such."""
    nanometres = round(metres * 1e9) if math.isfinite(metres) else 0
    if not 1 <= nanometres <= MAX_WAVELENGTH:
        raise Trouble(
            f"--wavelength is in metres, from 1e-9 to 1, as 0.0555 for C band; {metres:g} is not", REFUSED_WORDS
        )
    return nanometres


@dataclass(frozen=True)
class Sight:
    """How a surface is seen: the wavelength in nanometres, what is 0, in 1/65536 cycle, and the side of a block in pixels."""

    wavelength: int
    level: Fraction = Fraction(0)
    block: int = 1


def grid_text(values: np.ndarray) -> bytes:
    """The grid of values, (rows, columns), as the program reads it."""
    height, width = values.shape
    lines = (" ".join(map(str, row.tolist())) for row in values)
    return (HEAD.format(width, height, NODATA) + "\n".join(lines) + "\n").encode()


def read_grid(text: bytes, name: str) -> np.ndarray:
    """The values of a grid; int64, (rows, columns)."""
    try:
        return read_grid_from(io.BytesIO(text))
    except BrokenLine as broken:
        raise Trouble(f"{name}: {broken}") from broken


def parts_of(shape: Tuple[int, ...], block: int) -> Iterator[Tuple[slice, slice]]:
    """The parts of a surface, of whole blocks, each of which fits into a grid with a row of blocks above it."""
    wide = min(shape[1], TILED_LIMITS.side // block * block)
    high = (min(TILED_LIMITS.side, TILED_LIMITS.pixels // wide) - block) // block * block
    for row in range(0, shape[0], high):
        for column in range(0, shape[1], wide):
            yield slice(row, row + high), slice(column, column + wide)


def displaced(values: np.ndarray, sight: Sight) -> np.ndarray:
    """The displacements of a surface's blocks in nanometres; int64, (rows, columns) of blocks. NODATA where nothing is known."""
    side, level = sight.block, math.floor(sight.level)
    words = ["displacement", "--wavelength", str(sight.wavelength), "--block", str(side)]
    found = np.full([-(-length // side) for length in values.shape], NODATA)
    for rows, columns in parts_of(values.shape, side):
        part = np.pad(values[rows, columns], ((side, 0), (0, 0)), constant_values=NODATA)
        part[0, 0] = level
        made = read_grid(run_program(words, grid_text(part), "the surface"), "displacement")
        y, x = rows.start // side, columns.start // side
        found[y : y + len(made) - 1, x : x + made.shape[1]] = made[1:]
        if made[0, 0] != 0:
            raise Trouble("displacement: what is at the reference is not 0", DISAGREES)
    rest = round(
        sight.wavelength * (sight.level - level) / (2 * CYCLE)
    )  # what a mean lies above a whole unit, in nanometres
    return np.where(found != NODATA, found - rest, NODATA)
