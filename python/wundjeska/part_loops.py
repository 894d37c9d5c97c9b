"""Which certain parts the loop of three surfaces says to raise. NumPy alone.

A certain part is known up to one whole number of cycles. If that is all that is wrong, the cycles in a closure are one number wherever
the parts of the three surfaces are the same three. So a part is raised where nearly all of its pixels then close, the part that
closes most first, until none is left. Where a part of another surface would close half as many or more, the loop does not say which
of the two is wrong: neither is raised, and their pixels are left out. A loop does not see what is wrong in two of its surfaces alike.
No certificate says that what is raised is right. The limits were found on made loops.
"""
from dataclasses import dataclass, replace
from typing import Iterator, List, Sequence, Tuple

import numpy as np

from .loops import Loops
from .planes import CYCLE
from .report_reader import NODATA

SIGNS = (1, 1, -1)  # of the three surfaces in a closure
ROLES = ("first", "second", "third")
NEARLY_ALL = 0.7  # of a part's pixels, above which it is raised
ALIKE = 0.5  # of the pixels that a part closes, from which on a part of another surface may be meant as well


@dataclass(frozen=True)
class Move:
    """A part of one of the three surfaces, from 0, by how many cycles it is raised, and how many more pixels close then."""

    surface: int
    part: int
    cycles: int
    closes: int

    def told(self) -> str:
        return f"part {self.part} of the {ROLES[self.surface]} surface by {self.cycles:+d}"


@dataclass(frozen=True)
class Moves:
    """The parts that a loop says to raise, and those of which it does not say which is wrong, each with what may be meant as well."""

    raised: Sequence[Move]
    doubted: Sequence[Tuple[Move, Move]]

    def lines(self) -> Iterator[str]:
        """What is told of them."""
        for move in self.raised:
            yield f"the loop says to raise {move.told()}: {move.closes} more pixels close"
        for move, other in self.doubted:
            yield f"the loop does not say whether to raise {move.told()} or {other.told()}: neither is"
        if not (self.raised or self.doubted):
            yield "the loop says to raise no part"


@dataclass(frozen=True)
class Table:
    """The pixels that have a closure, by their parts in the three surfaces and by their cycles.

    parts   int64, (3, rows): the part in each surface, 0 for none
    cycles  int64, (rows), in the closure
    counts  int64, (rows): pixels
    sizes   of each surface: the pixels of each part from 0 that have a closure
    """

    parts: np.ndarray
    cycles: np.ndarray
    counts: np.ndarray
    sizes: Sequence[np.ndarray]

    def moves(self) -> List[Move]:
        """For each part the cycles by which it is raised if nearly all of its pixels close then, those that close most first."""
        found = [move for surface in range(3) for move in self.moves_of(surface) if move.closes > 0]
        return sorted(found, key=lambda move: -move.closes)

    def moves_of(self, surface: int) -> Iterator[Move]:
        """Those of one surface."""
        sizes = self.sizes[surface]
        keys, places = np.unique(np.stack([self.parts[surface], self.cycles]), axis=1, return_inverse=True)
        pixels = np.bincount(places.ravel(), self.counts, keys.shape[1]).astype(np.int64)
        closed = np.bincount(keys[0], pixels * (keys[1] == 0), len(sizes)).astype(np.int64)
        for (part, cycles), most in zip(keys.T.tolist(), pixels.tolist()):
            if part and cycles and most > NEARLY_ALL * sizes[part]:
                yield Move(surface, part, -SIGNS[surface] * cycles, most - int(closed[part]))

    def raised(self, move: Move) -> "Table":
        """The pixels with the cycles that they have if a part is raised."""
        inside = self.parts[move.surface] == move.part
        return replace(self, cycles=self.cycles + np.where(inside, SIGNS[move.surface] * move.cycles, 0))

    def without(self, *moves: Move) -> "Table":
        """The pixels outside the parts of these moves; parts keep their sizes."""
        left = ~np.any([self.parts[move.surface] == move.part for move in moves], axis=0)
        return Table(self.parts[:, left], self.cycles[left], self.counts[left], self.sizes)


def table_of(loops: Loops, parts: Sequence[np.ndarray]) -> Table:
    """The pixels of a loop by their parts."""
    known = loops.known()
    inside = [labels[known].astype(np.int64) for labels in parts]
    keys, counts = distinct([*inside, loops.cycles[known]])
    return Table(keys[:3], keys[3], counts, [np.bincount(labels) for labels in inside])


def distinct(columns: Sequence[np.ndarray]) -> Tuple[np.ndarray, np.ndarray]:
    """The distinct rows of columns of whole numbers, (columns, rows), and how often each is there. Columns are taken in one by one,
    so that one number stands for what a row has so far."""
    codes = np.zeros(len(columns[0]), dtype=np.int64)
    for column in columns:
        low, high = int(column.min(initial=0)), int(column.max(initial=0))
        _, codes = np.unique(codes * (high - low + 1) + column - low, return_inverse=True)
    _, first, counts = np.unique(codes, return_index=True, return_counts=True)
    return np.stack([column[first] for column in columns]), counts


def moves_of(loops: Loops, parts: Sequence[np.ndarray]) -> Moves:
    """Which parts the loop says to raise; `parts` are the numbers of the parts in the three surfaces, 0 for none."""
    table = table_of(loops, parts)
    raised: List[Move] = []
    doubted: List[Tuple[Move, Move]] = []
    while left := table.moves():
        best = left[0]
        others = [move for move in left if move.surface != best.surface and move.closes >= ALIKE * best.closes]
        if others:
            doubted.append((best, others[0]))
            table = table.without(best, others[0])
        else:
            raised.append(best)
            table = table.raised(best)
    return Moves(raised, doubted)


def raised_by(values: np.ndarray, labels: np.ndarray, moves: Sequence[Move], surface: int) -> np.ndarray:
    """A surface whose parts are raised as the moves say."""
    cycles = np.zeros(int(labels.max(initial=0)) + 1, dtype=np.int64)
    for move in moves:
        if move.surface == surface:
            cycles[move.part] += move.cycles
    return np.where(values == NODATA, NODATA, values + CYCLE * cycles[labels])
