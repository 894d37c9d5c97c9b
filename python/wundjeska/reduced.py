"""A raster as maps show it, taken up part by part, with what is counted of all its pixels. NumPy alone."""
import math
from typing import Tuple

import numpy as np

from .pictures import step_of

Window = Tuple[int, int, int, int]  # column, row, width, height


class Reduced:
    """Every nth row and column of a raster of (width, height) pixels, as `thinned` has them: float32, NaN where there is no value. How
    many pixels of all have one, and the least and the greatest, are those of the whole raster."""

    def __init__(self, size: Tuple[int, int]):
        self.shape = size[1], size[0]  # of the whole raster, (rows, columns)
        self.step = step_of(self.shape)
        rows, columns = (-(-length // self.step) for length in self.shape)
        self.values = np.full((rows, columns), np.nan, dtype=np.float32)
        self.count, self.low, self.high = 0, math.inf, -math.inf

    def add(self, window: Window, values: np.ndarray) -> None:
        """Takes up the values of a window, NaN where there is none."""
        down, right = -window[1] % self.step, -window[0] % self.step
        part = values[down :: self.step, right :: self.step]
        row, column = (window[1] + down) // self.step, (window[0] + right) // self.step
        self.values[row : row + part.shape[0], column : column + part.shape[1]] = part
        known = values[~np.isnan(values)]
        self.count += len(known)
        self.low, self.high = min(self.low, known.min(initial=math.inf)), max(self.high, known.max(initial=-math.inf))


class Flags:
    """Flags of a raster, reduced such that none that is set is left out."""

    def __init__(self, like: Reduced):
        self.step, self.flags = like.step, np.zeros(like.values.shape, dtype=bool)

    def add(self, window: Window, flags: np.ndarray) -> None:
        """Takes up the flags of a window."""
        rows, columns = np.nonzero(flags)
        self.flags[(rows + window[1]) // self.step, (columns + window[0]) // self.step] = True
