"""The surface that differs from a phase by whole cycles and lies nearest to another surface, its guide. NumPy alone.

Whole numbers throughout: at each open pixel it differs from the phase by whole cycles, and from the guide by half a cycle at
most. Where two are half a cycle away it is the lower one. The program's command `nearest` makes it, of a large raster part by part:
each pixel's value is its own. Programs before that command had none; for them, and as the judge of the tests, it is computed here as
well.
"""
from functools import lru_cache

import numpy as np
import numpy.typing as npt

from .components import pieces_of, sizes_of
from .displacements import grid_text, read_grid
from .planes import CYCLE, TILED_LIMITS, session_of
from .program import call, program, run_program
from .report_reader import NODATA
from .trouble import REFUSED_WORDS, Trouble

COMMAND = "nearest"
LEAST_PATCH = 16  # pixels that touch each other, of a feature that a filter took for noise


@lru_cache(maxsize=8)
def has_command(path: str) -> bool:
    """Whether the program, which is at this path, has the command: it refuses words that it does not know."""
    return call([COMMAND], b"")[0] != REFUSED_WORDS


def how_made() -> str:
    """How a nearest surface is made, in words."""
    if has_command(program()):
        return f"by `insar_unwrap {COMMAND}`"
    return "computed in Python and tested, not proved"


def nearest(phase: np.ndarray, guide: np.ndarray, opened: np.ndarray) -> npt.NDArray[np.int64]:
    """The surface nearest to the guide, both in 1/65536 cycle; NODATA at masked pixels. All are (rows, columns).

    Trouble if the shapes differ, if the guide has no value at an open pixel, or if the surface does not fit 64 bits.
    """
    check_shapes(phase, guide, opened)
    way = by_program if has_command(program()) else by_numpy
    found = np.empty(phase.shape, dtype=np.int64)
    for part in TILED_LIMITS.windows(phase.shape):
        found[part] = way(phase[part], guide[part], opened[part])
    return found


def check_shapes(phase: np.ndarray, guide: np.ndarray, opened: np.ndarray) -> None:
    """Trouble if the shapes differ."""
    if not phase.shape == guide.shape == opened.shape:
        raise Trouble(f"the surface has the shape {guide.shape}, the phase {phase.shape} and the mask {opened.shape}")


def by_program(phase: np.ndarray, guide: np.ndarray, opened: np.ndarray) -> npt.NDArray[np.int64]:
    """The same by the program's command, of what is within its limits."""
    session = session_of(phase, np.ones(phase.shape, dtype=np.uint16), opened)
    grid = grid_text(np.where(opened, guide, NODATA))
    return read_grid(run_program([COMMAND], session + grid, "the guide"), COMMAND)


def by_numpy(phase: np.ndarray, guide: np.ndarray, opened: np.ndarray) -> npt.NDArray[np.int64]:
    """The same by NumPy."""
    check_shapes(phase, guide, opened)
    if (guide[opened] == NODATA).any():
        raise Trouble("the surface has no value at an open pixel")
    steps = (phase.astype(np.uint16) - guide.astype(np.uint16)).view(np.int16)  # from -CYCLE / 2 to CYCLE / 2 - 1
    with np.errstate(over="ignore"):
        found = guide + steps
    if ((found < guide) != (steps < 0))[opened].any() or (found[opened] == NODATA).any():
        raise Trouble("the nearest surface does not fit 64 bits")
    return np.where(opened, found, NODATA)


def rest_of(phase: np.ndarray, guide: np.ndarray) -> npt.NDArray[np.uint16]:
    """What a guide leaves of a phase, wrapped."""
    return phase.astype(np.uint16) - guide.astype(np.uint16)


def commonest(values: np.ndarray, pieces: np.ndarray) -> np.ndarray:
    """The commonest value of each piece, the least of two that are as common; int64, (pieces)."""
    order = np.lexsort((values[pieces >= 0], pieces[pieces >= 0]))
    piece, value = pieces[pieces >= 0][order], values[pieces >= 0][order]
    starts = np.flatnonzero((np.diff(piece, prepend=-1) != 0) | (np.diff(value, prepend=0) != 0))
    counts = np.diff(starts, append=len(piece))
    best = starts[np.lexsort((value[starts], -counts, piece[starts]))]
    _, first = np.unique(piece[best], return_index=True)
    found: npt.NDArray[np.int64] = value[best[first]]
    return found


def is_patch(inside: np.ndarray, least: int) -> np.ndarray:
    """The pixels of patches that have so many pixels at least."""
    pieces = pieces_of(inside)
    large = np.append(sizes_of(pieces) >= least, False)  # the last place is that of pixels outside
    return large[pieces]


def with_narrow(near: np.ndarray, guide: np.ndarray, rest: np.ndarray, opened: np.ndarray) -> npt.NDArray[np.int64]:
    """The nearest surface, with the features that are narrower than a filter's windows.

    `rest` is a surface of what the guide leaves of the phase. Where guide and rest together are other cycles than the nearest
    surface, in patches of LEAST_PATCH pixels or more to one side, they are taken. Whole cycles between components stay.
    """
    if (rest[opened] == NODATA).any():
        raise Trouble("the surface of the rest has no value at an open pixel")
    both = np.where(opened, guide, 0) + np.where(opened, rest, 0)
    cycles = np.where(opened, (both - near) // CYCLE, 0)
    pieces = pieces_of(opened)
    cycles = np.where(opened, cycles - np.append(commonest(cycles, pieces), 0)[pieces], 0)
    taken = is_patch(cycles > 0, LEAST_PATCH) | is_patch(cycles < 0, LEAST_PATCH)
    return np.where(taken, near + CYCLE * cycles, near)
