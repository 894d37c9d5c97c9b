"""What is 0 in a product: a pixel, the mean of a box, or that of the most coherent block. NumPy alone."""
from argparse import ArgumentParser, Namespace
from dataclasses import dataclass
from fractions import Fraction
from typing import List, Optional, Sequence, Tuple

import numpy as np

from .components import components_of
from .report_reader import NODATA as MASKED
from .trouble import REFUSED_WORDS, Trouble, warn

AUTO_SIDE = 8  # pixels along a block that is looked for where --block names none


# Words


def add_reference_words(words: ArgumentParser, auto: bool = True) -> None:
    """The arguments that say what is 0. `command` reads `--reference auto` as `--reference-auto`."""
    more = "; or auto" if auto else ""
    words.add_argument(
        "--reference", type=int, nargs=2, metavar=("COLUMN", "ROW"), help=f"the pixel that is 0, from 0 0{more}"
    )
    words.add_argument(
        "--reference-window",
        type=int,
        nargs=4,
        metavar=("X0", "Y0", "X1", "Y1"),
        help="the box, both corners included, whose mean is 0",
    )
    if auto:
        words.add_argument(
            "--reference-auto",
            action="store_true",
            help="the same as --reference auto: the mean is 0 of the most coherent block, among those that are open everywhere, "
            f"of --block pixels a side if that is above 1, else of {AUTO_SIDE}",
        )


def check_reference_words(asked: Namespace) -> None:
    """Trouble if more than one reference is named."""
    named = [bool(getattr(asked, f"reference{more}", None)) for more in ("", "_window", "_auto")]
    if sum(named) > 1:
        raise Trouble("--reference and --reference-window exclude each other", REFUSED_WORDS)
    window = getattr(asked, "reference_window", None)
    if window and (window[0] > window[2] or window[1] > window[3]):
        x0, y0, x1, y1 = min(window[::2]), min(window[1::2]), max(window[::2]), max(window[1::2])
        raise Trouble(
            f"--reference-window {box_name(window)} is turned round: wanted the lower column and row first, {x0} {y0} {x1} {y1}",
            REFUSED_WORDS,
        )


def block_of(asked: Namespace) -> int:
    """The side of a block in pixels."""
    side: int = getattr(asked, "block", 1)
    return side


# The reference


@dataclass(frozen=True)
class Reference:
    """What is 0: the mean of a box, by its first and last column and row, both included, or None; and what is told of it."""

    box: Optional[Sequence[int]] = None
    note: str = "none: the first open pixel is within the first cycle"


def reference_of(
    asked: Namespace, values: Optional[np.ndarray] = None, weights: Optional[np.ndarray] = None
) -> Reference:
    """The reference that the words ask for; the best block of a surface if that is asked for, by the weights of its session."""
    if asked.reference:
        return Reference([*asked.reference, *asked.reference], f"pixel {box_name([*asked.reference] * 2)}")
    if asked.reference_window:
        return Reference(asked.reference_window, mean_note(asked.reference_window))
    if getattr(asked, "reference_auto", False) and values is not None and weights is not None:
        return best_reference(values != MASKED, weights, block_of(asked))
    return Reference()


def mean_note(box: Sequence[int]) -> str:
    return f"mean of columns {box[0]} to {box[2]}, rows {box[1]} to {box[3]}"


def best_reference(opened: np.ndarray, weights: np.ndarray, block: int) -> Reference:
    """The mean of the most coherent block that is open everywhere."""
    side = block if block > 1 else AUTO_SIDE
    known = weights[opened]
    if len(known) and known.min() == known.max():
        raise Trouble("all open pixels have one weight, so no block is the most coherent; name --reference COLUMN ROW")
    found = best_block(weights, opened, components_of(opened), side)
    if found is None:
        raise Trouble(f"no block of {side} by {side} pixels is open everywhere; name --reference COLUMN ROW")
    box, weight = found
    return Reference(
        box, f"{mean_note(box)}, the most coherent block of {side} by {side} pixels: mean weight {weight:.1f}"
    )


def best_block(
    weights: np.ndarray, opened: np.ndarray, components: np.ndarray, side: int
) -> Optional[Tuple[List[int], float]]:
    """The box of the block of greatest weight among those that are open everywhere, and its mean weight; None if there is none.

    It lies in the largest component that has such a block. Of several it is the first in row order.
    """
    rows, columns = opened.shape[0] // side, opened.shape[1] // side
    if not (rows and columns):
        return None

    def blocks(plane: np.ndarray) -> np.ndarray:
        return plane[: rows * side, : columns * side].reshape(rows, side, columns, side)

    full = blocks(opened).all(axis=(1, 3))
    numbers = blocks(components)[:, 0, :, 0]
    if not full.any():
        return None
    full &= numbers == numbers[full].min()
    sums = np.where(full, blocks(weights.astype(np.int64)).sum(axis=(1, 3)), -1)
    row, column = (int(place) for place in np.unravel_index(np.argmax(sums), sums.shape))
    box = [column * side, row * side, column * side + side - 1, row * side + side - 1]
    return box, float(sums[row, column]) / side**2


# Its level


def check_box(box: Optional[Sequence[int]], width: int, height: int) -> None:
    """Trouble if a reference is not within a raster."""
    if box is not None and not (0 <= box[0] <= box[2] < width and 0 <= box[1] <= box[3] < height):
        raise Trouble(f"the reference {box_name(box)} is not within the raster of {width} by {height} pixels")


def box_name(box: Sequence[int]) -> str:
    """A reference in numbers."""
    return " ".join(map(str, box[: 2 if box[:2] == box[2:] else 4]))


def level_of(values: np.ndarray, box: Optional[Sequence[int]]) -> Fraction:
    """The mean of the open pixels of a box of a surface, in 1/65536 cycle; 0 if there is no box."""
    if box is None:
        return Fraction(0)
    check_box(box, values.shape[1], values.shape[0])
    x0, y0, x1, y1 = box
    inside = values[y0 : y1 + 1, x0 : x1 + 1]
    return mean_of([inside[inside != MASKED]], box)


def mean_of(parts: List[np.ndarray], box: Sequence[int]) -> Fraction:
    """The mean of the values in a box. Trouble if there is none."""
    count = sum(map(len, parts))
    if not count:
        raise Trouble(f"the reference {box_name(box)} is masked")
    return Fraction(sum(sum(part.tolist()) for part in parts), count)


def warn_of_components(values: np.ndarray, box: Sequence[int]) -> None:
    """A warning if the mean of a box is of several components, between which whole cycles are arbitrary."""
    x0, y0, x1, y1 = box
    if box[:2] != box[2:]:
        inside = components_of(values != MASKED)[y0 : y1 + 1, x0 : x1 + 1]
        if len(np.unique(inside[inside > 0])) > 1:
            warn("the reference window has pixels of several components; whole cycles between them are arbitrary")
