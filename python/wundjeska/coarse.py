"""A model of a large raster: it is multilooked, solved at once, and between the middles of its blocks the model is linear.
NumPy alone.

Whole cycles between the frames of a raster are hard to tell where a fault or noise cuts an overlap. What is left when the model
is taken off lies within a cycle nearly everywhere, so that frames agree (the coarse unwrapping of tophu, and of multilooked
phases in Rosen and others 2000, section II).
"""
from dataclasses import dataclass
from typing import Iterator, Optional, Protocol, Tuple

import numpy as np

from .joining import Link, links_of, offsets_of
from .planes import CYCLE, TILED_LIMITS, TURN, Ramp

Window = Tuple[int, int, int, int]  # column, row, width, height
Planes = Tuple[np.ndarray, np.ndarray, np.ndarray]  # phases, weights and open pixels
LEAST_OPEN = 0.25  # of the pixels of a block that is open
AT_ONCE = 1 << 21  # pixels that are read at once, or a row of blocks


class Reader(Protocol):
    """What hands out a raster by windows."""

    def read(self, window: Window) -> Planes: ...


def block_for(size: Tuple[int, int]) -> int:
    """The least side of blocks, 2 or more, of which a raster of (width, height) pixels has no more than `fits`, for little memory."""
    block = 2
    while not fits(blocks_in(size, block)):
        block += 1
    return block


def fits(size: Tuple[int, int]) -> bool:
    return TILED_LIMITS.hold(size)


def blocks_in(size: Tuple[int, int], block: int) -> Tuple[int, int]:
    """How many blocks a raster has across and down."""
    return -(-size[0] // block), -(-size[1] // block)


# Multilooked planes


def multilooked(scene: Reader, size: Tuple[int, int], block: int, ramp: Optional[Ramp], highest: int) -> Planes:
    """Phases, weights up to `highest` and open pixels of blocks of a raster of (width, height) pixels, less a ramp. The weight of
    a block is the length of the mean of its pixels, each as long as its weight and 0 if it is masked."""
    strips = [of_blocks(*planes, block, highest) for planes in strips_of(scene, size, block, ramp)]
    phases, weights, opened = (np.concatenate(parts) for parts in zip(*strips))
    return phases, weights, opened


def strips_of(scene: Reader, size: Tuple[int, int], block: int, ramp: Optional[Ramp]) -> Iterator[Planes]:
    """The planes of the raster from the top, some rows of blocks at once."""
    width, height = size
    rows = block * max(1, AT_ONCE // (width * block))
    for row in range(0, height, rows):
        window = (0, row, width, min(rows, height - row))
        phase, weights, opened = scene.read(window)
        yield (phase - ramp_at(window, ramp)) % CYCLE, weights, opened


def ramp_at(window: Window, ramp: Optional[Ramp]) -> np.ndarray:
    """What the ramp rises up to each pixel of a window; int64, (rows, columns)."""
    x, y, width, height = window
    across, down = ramp or (0, 0)
    return across * np.arange(x, x + width)[None, :] + down * np.arange(y, y + height)[:, None]


def of_blocks(phase: np.ndarray, weights: np.ndarray, opened: np.ndarray, block: int, highest: int) -> Planes:
    """The planes of blocks; those at the right and lower edge may be smaller."""
    lengths = np.where(opened, weights, 0)
    turns = sums_of(lengths * np.exp(phase * (1j * TURN / CYCLE)), block)
    counts, open_counts = sums_of(np.ones(phase.shape), block), sums_of(opened, block)
    there = open_counts >= LEAST_OPEN * counts
    phases = np.where(there, np.rint(np.angle(turns) * (CYCLE / TURN)) % CYCLE, 0)
    means = np.rint(np.abs(turns) / np.maximum(open_counts, 1))
    return phases.astype(np.uint16), np.clip(means, 1, highest).astype(np.uint16), there


def sums_of(values: np.ndarray, block: int) -> np.ndarray:
    """The sums of blocks."""
    rows, columns = (np.arange(0, length, block) for length in values.shape)
    found: np.ndarray = np.add.reduceat(np.add.reduceat(values, rows, axis=0), columns, axis=1)
    return found


# The model


@dataclass
class Model:
    """What a surface of blocks says of each pixel. It has a value in 1/65536 cycle for each block, less the ramp."""

    values: np.ndarray
    block: int
    size: Tuple[int, int]  # of the raster: width, height
    ramp: Optional[Ramp] = None

    def at(self, window: Window) -> np.ndarray:
        """The model at each pixel of a window: int64, (rows, columns)."""
        x, y, width, height = window
        rows = between(self.values, *steps_of(y, height, self.block, self.size[1]))
        found = between(rows.T, *steps_of(x, width, self.block, self.size[0])).T
        return np.rint(found).astype(np.int64) + ramp_at(window, self.ramp)


def steps_of(first: int, count: int, block: int, length: int) -> Tuple[np.ndarray, np.ndarray]:
    """Of pixels along a side: the block between whose middle and that of the next each lies, or the nearest such, and how far on."""
    starts = np.arange(0, length, block)
    middles = (starts + np.minimum(starts + block, length) - 1) / 2
    pixels = np.arange(first, first + count)
    places = np.clip(np.searchsorted(middles, pixels, side="right") - 1, 0, max(len(middles) - 2, 0))
    return places, (pixels - middles[places]) / np.append(np.diff(middles), 1)[places]


def between(values: np.ndarray, places: np.ndarray, steps: np.ndarray) -> np.ndarray:
    """What lies so far on the way from rows of values to those after them."""
    after = np.minimum(places + 1, len(values) - 1)
    found: np.ndarray = values[places] * (1 - steps)[:, None] + values[after] * steps[:, None]
    return found


def model_of(
    values: np.ndarray, pieces: np.ndarray, block: int, size: Tuple[int, int], ramp: Optional[Ramp] = None
) -> Model:
    """The model by a surface of blocks (int64) and the numbers of its pieces, -1 at masked blocks. Pieces that do not touch are
    brought together by whole cycles, and masked blocks get the value of the nearest open one of their row."""
    numbers = [(0, piece) for piece in range(int(pieces.max(initial=-1)) + 1)]
    offsets = offsets_of(numbers, list(links_across(values, pieces)))
    added = np.array([offsets.of(number) for number in numbers] or [0])
    return Model(filled(values + CYCLE * added[np.maximum(pieces, 0)], pieces >= 0), block, size, ramp)


def links_across(values: np.ndarray, pieces: np.ndarray) -> Iterator[Link]:
    """The links of pieces between which only masked blocks lie, in a row or in a column."""
    found = [ends_of_gaps(values, pieces), ends_of_gaps(values.T, pieces.T)]
    low, high, first, second = (np.concatenate(parts)[None] for parts in zip(*found))
    return links_of((0, 0), (low, high + CYCLE // 2), (first, second), (0, 0))


def ends_of_gaps(values: np.ndarray, pieces: np.ndarray) -> Tuple[np.ndarray, np.ndarray, np.ndarray, np.ndarray]:
    """The values before and after each gap in a row between two pieces, and the numbers of these."""
    rows, columns = np.nonzero(pieces >= 0)
    heights, numbers = values[rows, columns], pieces[rows, columns]
    gaps = np.flatnonzero((np.diff(rows) == 0) & (np.diff(numbers) != 0))
    return heights[gaps], heights[gaps + 1], numbers[gaps], numbers[gaps + 1]


def filled(values: np.ndarray, opened: np.ndarray) -> np.ndarray:
    """Values with that of the nearest open block of the row, or of the nearest row with an open one, at masked blocks."""
    rows = nearest(opened.any(axis=1)[None])[0]
    found: np.ndarray = np.take_along_axis(values, nearest(opened), axis=1)[rows]
    return found


def nearest(opened: np.ndarray) -> np.ndarray:
    """The column of the nearest open place of each row, and 0 where there is none."""
    width = opened.shape[1]
    columns = np.arange(width)
    before = np.maximum.accumulate(np.where(opened, columns, -width), axis=1)
    after = np.minimum.accumulate(np.where(opened, columns, 2 * width)[:, ::-1], axis=1)[:, ::-1]
    found = np.where(columns - before <= after - columns, before, after)
    return np.where(opened.any(axis=1)[:, None], found, 0)
