"""Surfaces of frames that overlap, joined by whole cycles. NumPy alone.

A surface is int64, (rows, columns), in units of 1/65536 cycle. A piece is a largest set of open pixels of one frame that
touch each other to the right, left, above and below.
"""
from dataclasses import dataclass
from typing import Dict, Iterable, Iterator, List, Sequence, Tuple

import numpy as np

from .planes import CYCLE

Piece = Tuple[int, int]  # the number of a frame, and that of one of its pieces


@dataclass
class Link:
    """Two pieces that overlap: at how many pixels the second is so many cycles above the first."""

    first: Piece
    second: Piece
    counts: Dict[int, int]
    cycles: int  # the median
    box: Tuple[int, int, int, int]  # of the pixels that are not at the median: columns and rows, both ends included

    def pixels(self) -> int:
        return sum(self.counts.values())

    def share(self, cycles: int) -> float:
        """The part of the pixels at which the difference is so many cycles."""
        return self.counts.get(cycles, 0) / self.pixels()


def links_of(
    frames: Tuple[int, int], values: Sequence[np.ndarray], pieces: Sequence[np.ndarray], corner: Tuple[int, int]
) -> Iterator[Link]:
    """The links of two frames by what both say of their overlap, whose first pixel is the corner (column, row).

    `values` and `pieces` are two arrays each, (rows, columns) of the overlap. The same pixels are open in both.
    """
    opened = pieces[0] >= 0
    rows, columns = np.nonzero(opened)
    cycles = (values[1][opened] - values[0][opened]) // CYCLE
    keys = pieces[0][opened].astype(np.int64) << 32 | pieces[1][opened]
    order = np.argsort(keys, kind="stable")
    starts = np.flatnonzero(np.diff(keys[order], prepend=-1))
    for group in np.split(order, starts[1:]) if len(order) else []:
        key = int(keys[group[0]])
        median = int(np.sort(cycles[group])[len(group) // 2])
        off = group[cycles[group] != median]
        counts = dict(zip(*(part.tolist() for part in np.unique(cycles[group], return_counts=True))))
        box = box_of(columns[off] + corner[0], rows[off] + corner[1])
        yield Link((frames[0], key >> 32), (frames[1], key & (2**32 - 1)), counts, median, box)


def box_of(columns: np.ndarray, rows: np.ndarray) -> Tuple[int, int, int, int]:
    """The least box with these pixels, or four times -1 if there are none."""
    if not len(columns):
        return (-1, -1, -1, -1)
    return (int(columns.min()), int(rows.min()), int(columns.max()), int(rows.max()))


class Offsets:
    """The whole cycles that are added to each piece, in sets of pieces that were joined."""

    def __init__(self, pieces: Iterable[Piece]):
        self.parent = {piece: piece for piece in pieces}
        self.above = dict.fromkeys(self.parent, 0)  # the offset of a piece less that of its parent

    def root(self, piece: Piece) -> Tuple[Piece, int]:
        """The piece that stands for the set, and this piece's offset if that one's is 0."""
        offset = 0
        while self.parent[piece] != piece:
            offset += self.above[piece]
            piece = self.parent[piece]
        return piece, offset

    def join(self, link: Link) -> None:
        """Joins the sets of two pieces such that their surfaces agree at the median. Of one set they are left alone."""
        (first, low), (second, high) = self.root(link.first), self.root(link.second)
        if first < second:
            self.parent[second], self.above[second] = first, low - link.cycles - high
        elif second < first:
            self.parent[first], self.above[first] = second, high + link.cycles - low

    def of(self, piece: Piece) -> int:
        return self.root(piece)[1]

    def cycles(self, link: Link) -> int:
        """The difference, second less first, that the offsets even out."""
        return self.of(link.first) - self.of(link.second)

    def sets(self) -> int:
        return sum(parent == piece for piece, parent in self.parent.items())


def offsets_of(pieces: Iterable[Piece], links: List[Link]) -> Offsets:
    """Joins all that is linked; links at which most pixels agree come first."""
    found = Offsets(pieces)
    for link in sorted(links, key=lambda link: -link.counts[link.cycles]):
        found.join(link)
    return found
