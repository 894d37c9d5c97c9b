"""Connected components: largest sets of open pixels that touch each other to the right, left, above and below. NumPy alone."""
from typing import Optional, Tuple

import numpy as np


def pieces_of(opened: np.ndarray) -> np.ndarray:
    """The number of each open pixel's piece, int32, (rows, columns), -1 at masked pixels.

    Pieces are numbered from 0 in row order of their first pixels.
    """
    left = np.zeros_like(opened)
    left[:, 1:] = opened[:, :-1]
    runs = np.cumsum(opened & ~left).reshape(opened.shape) - 1  # pixels of a row that touch have one number
    both = opened[:-1] & opened[1:]
    above, below = runs[:-1][both], runs[1:][both]
    new = (np.diff(above, prepend=-1) != 0) | (np.diff(below, prepend=-1) != 0)
    least = connect(int(runs.max(initial=-1)) + 1, above[new], below[new])
    _, numbers = np.unique(least, return_inverse=True)
    if not len(numbers):
        return np.full(opened.shape, -1, dtype=np.int32)
    return np.where(opened, numbers[runs], -1).astype(np.int32)


def connect(count: int, one: np.ndarray, other: np.ndarray) -> np.ndarray:
    """For each of `count` nodes the least node that links (one[i], other[i]) lead to; int64, (count)."""
    least = np.arange(count)
    while len(one):
        low = np.minimum(least[one], least[other])
        np.minimum.at(least, least[one], low)
        np.minimum.at(least, least[other], low)
        least = settled(least)
        apart = least[one] != least[other]
        one, other = one[apart], other[apart]
    return least


def settled(parents: np.ndarray) -> np.ndarray:
    """The last of the parents of each node; a parent is not greater than its node."""
    while True:
        further = parents[parents]
        if np.array_equal(further, parents):
            return parents
        parents = further


def sizes_of(pieces: np.ndarray) -> np.ndarray:
    """How many pixels each piece has; int64, (pieces)."""
    return np.bincount(pieces[pieces >= 0], minlength=int(pieces.max(initial=-1)) + 1)


def components_of(opened: np.ndarray, least: int = 1) -> np.ndarray:
    """Components numbered by size from 1, the largest first; uint32, (rows, columns).

    0 stands at masked pixels and at those of components of fewer than `least` pixels. Of two of one size the first is the one
    whose first pixel in row order comes first.
    """
    pieces = pieces_of(opened)
    sizes = sizes_of(pieces)
    order = np.argsort(-sizes, kind="stable")
    numbers = np.zeros(len(sizes) + 1, dtype=np.uint32)  # the last place is that of masked pixels
    numbers[order] = np.arange(1, len(sizes) + 1)
    numbers[:-1][sizes < least] = 0
    return numbers[pieces]


def scattered(opened: np.ndarray) -> Tuple[int, float]:
    """How many components there are, and which part of the open pixels lies outside the largest."""
    sizes = sizes_of(pieces_of(opened))
    return len(sizes), 1 - float(sizes.max() / sizes.sum()) if len(sizes) else 0.0


# What helps where a mask by coherence breaks a scene into components.
OTHERWISE = {
    "--least-coherence": "Mask water alone, and let a low coherence weigh little, instead of --least-coherence",
    "--screen": "A greater patch of the screen drops the small ones",
}


def warning_of(opened: np.ndarray, masked_by: Optional[str] = None) -> Optional[str]:
    """What is to be said of a mask that leaves components which do not touch, or None. `masked_by` is a key of OTHERWISE."""
    count, outside = scattered(opened)
    if count < 2:
        return None
    line = (
        f"the mask leaves {count} components that do not touch, with {100 * outside:.2f} % of the open pixels outside the "
        "largest; whole cycles between them are arbitrary"
    )
    return f"{line}. {OTHERWISE[masked_by]}" if masked_by else line
