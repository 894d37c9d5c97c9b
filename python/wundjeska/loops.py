"""Closures of three surfaces, which the program's command `closure` computes: 12 plus 23 minus 13. NumPy alone.

Surfaces are int64, (rows, columns), in 1/65536 cycle, NODATA where nothing is known. The cycles are the whole numbers that
have to be added to the third surface to leave a closure of at most half a cycle; a pixel is misclosed where they are not 0,
and pixels of one such number that touch each other are a patch.
"""
import io
from array import array
from dataclasses import dataclass
from typing import Sequence

import numpy as np

from .components import components_of
from .displacements import grid_text
from .planes import CYCLE
from .program import run_program
from .report_reader import NODATA, SIGNED, SMALL, BrokenLine, Lines, read_grid
from .trouble import DISAGREES, Trouble

HEAD = rb"closure %b %b %b" % ((SMALL,) * 3)
PATCH = rb"patch %b %b %b (%b)" % (SMALL, SMALL, SMALL, SIGNED)


@dataclass(frozen=True)
class Loops:
    """What the program told of three surfaces.

    closures  int64, (rows, columns), in 1/65536 cycle; NODATA where a surface has no value
    cycles    int64: the whole cycles in them, the same NODATA
    patches   int64, (patches, 4): column and row of its first pixel, its size in pixels and its cycles; in the row order of these
    """

    closures: np.ndarray
    cycles: np.ndarray
    patches: np.ndarray

    def known(self) -> np.ndarray:
        """True where there is a closure."""
        found: np.ndarray = self.closures != NODATA
        return found

    def misclosed(self) -> np.ndarray:
        """True where the cycles are not 0."""
        return self.known() & (self.cycles != 0)

    def by_size(self) -> np.ndarray:
        """The patches, the largest first; of one size in the row order of their first pixels."""
        return self.patches[np.argsort(-self.patches[:, 2], kind="stable")]

    def told(self) -> str:
        """What is misclosed, in words."""
        pixels, wrong = int(self.known().sum()), int(self.misclosed().sum())
        line = f"{pixels} pixels have a closure"
        if not wrong:
            return f"{line}, none is misclosed"
        column, row, size, cycles = self.by_size()[0].tolist()
        count = len(self.patches)
        where = "1 patch," if count == 1 else f"{count} patches, the largest of"
        line += f", {wrong} ({100 * wrong / pixels:.2f} %) are misclosed in {where} {size} pixels"
        return f"{line} at column {column}, row {row}, by {cycles}"


def close_loop(surfaces: Sequence[np.ndarray], name: str) -> Loops:
    """The closure of three surfaces of one size, by the program."""
    text = run_program(["closure"], b"".join(map(grid_text, surfaces)), name)
    try:
        return read_loops(text, surfaces[0].shape)
    except BrokenLine as broken:
        raise Trouble(f"{name}: closure: {broken}", DISAGREES) from broken


def read_loops(text: bytes, shape: Sequence[int]) -> Loops:
    """Reads what `closure` wrote. Raises BrokenLine, or Trouble if its counts are not those of its grids."""
    lines = Lines(io.BytesIO(text))
    pixels, wrong, count = map(int, lines.take_words(HEAD, "'closure PIXELS MISCLOSED PATCHES'"))
    patches = array("q")  # there may be millions
    for _ in range(count):
        patches.extend(map(int, lines.take_words(PATCH, "'patch X Y SIZE CYCLES'")))
    height, width = shape
    closures, cycles = (read_grid(lines, width, height) for _ in range(2))
    lines.take_end()
    found = Loops(closures, cycles, np.array(patches, dtype=np.int64).reshape(count, 4))
    if (found.known().sum(), found.misclosed().sum(), found.patches[:, 2].sum()) != (pixels, wrong, wrong):
        raise Trouble("closure: its counts are not those of its grids", DISAGREES)
    return found


def raised(surface: np.ndarray, cycles: np.ndarray) -> np.ndarray:
    """A surface raised by whole cycles where both have a value; elsewhere as it was."""
    both = (surface != NODATA) & (cycles != NODATA)
    return np.where(both, surface + CYCLE * np.where(both, cycles, 0), surface)


def commonest(loops: Loops) -> int:
    """The cycles at most pixels of the largest connected component, of several the one nearest to 0; 0 if there are none."""
    inside = components_of(loops.known()) == 1
    numbers, counts = np.unique(loops.cycles[inside], return_counts=True)
    most = numbers[counts == counts.max(initial=0)]
    return int(most[np.argmin(np.abs(most))]) if len(most) else 0
