"""The loops of a stack by the certain parts of its pairs, and what is to be raised so that most of them close. NumPy alone.

A surface is known up to a whole number of cycles, which is arbitrary. So each pair is first raised everywhere by a level, such that
the commonest number of cycles in most loops is 0. Then `stack_cycles` finds by how many cycles parts are raised, and levels again, at
the least cost.
"""
from dataclasses import dataclass, replace
from typing import Iterator, List, Sequence, Tuple

import numpy as np

from .part_loops import distinct
from .stack_cycles import SIGNS, Equations, Numbers, Raised, raised_of

FEWEST = 20  # pixels of three parts that have one number of cycles, from which on they make an equation


@dataclass(frozen=True)
class Loop:
    """The pixels of a loop that have a closure, by their parts and their cycles.

    pairs   int64, (3): which pairs of the stack are its first, second and third surface
    parts   int64, (3, rows): the part in each, from 1, and 0 for none
    cycles  int64, (rows): in the closure
    pixels  int64, (rows)
    """

    pairs: Numbers
    parts: Numbers
    cycles: Numbers
    pixels: Numbers


def loop_of(pairs: Sequence[int], labels: Sequence[np.ndarray], cycles: np.ndarray, known: np.ndarray) -> Loop:
    """A loop of the parts of its three surfaces and of the cycles in its closure, (rows, columns), where this is known."""
    keys, pixels = distinct([*(label[known].astype(np.int64) for label in labels), cycles[known].astype(np.int64)])
    return Loop(np.array(pairs, dtype=np.int64), keys[:3], keys[3], pixels)


@dataclass(frozen=True)
class Move:
    """A part of a pair, from 1, its pixels, by how many cycles it is raised, and whether that is doubted."""

    pair: int
    part: int
    pixels: int
    cycles: int
    is_doubted: bool


@dataclass(frozen=True)
class Stack:
    """The loops of a stack, and the pixels of each part of each pair."""

    loops: Sequence[Loop]
    sizes: Sequence[Numbers]

    def starts(self) -> Numbers:
        """The number of the first part of each pair, and the count of all."""
        return np.cumsum([0, *map(len, self.sizes)])

    def numbers_of(self, loop: Loop) -> Numbers:
        """The numbers of the parts of a loop through the whole stack, -1 for none; (3, rows)."""
        return np.where(loop.parts > 0, loop.parts - 1 + self.starts()[loop.pairs, None], -1)

    def find(self, seconds: float) -> Raised:
        """What raises pairs and parts at the least cost. Each group of parts has so many seconds."""
        first = self.levels(seconds)
        found = raised_of(self.equations(first), len(self.sizes), seconds)
        return replace(found, levels=first + found.levels)

    def levels(self, seconds: float) -> Numbers:
        """By how many cycles each pair is raised everywhere, by the commonest cycles of its loops."""
        common = np.array([commonest(loop) for loop in self.loops], dtype=np.int64).T
        pairs = np.array([loop.pairs for loop in self.loops], dtype=np.int64).T
        whole = np.array([sizes.sum() for sizes in self.sizes], dtype=np.int64)
        alone = np.full(len(whole), -1)
        return raised_of(Equations(pairs, common[0], common[1], whole, alone), 0, seconds, doubts=False).numbers

    def equations(self, levels: Numbers) -> Equations:
        """What the loops say of the parts of pairs that are raised by levels: where three parts meet, the commonest cycles."""
        rows = [self.equations_of(loop, levels) for loop in self.loops]
        parts, cycles, pixels = (np.concatenate(column, axis=-1) for column in zip(*rows))
        pairs = np.repeat(np.arange(len(self.sizes)), [len(sizes) for sizes in self.sizes])
        return Equations(parts, cycles, pixels, np.concatenate(self.sizes), pairs)

    def equations_of(self, loop: Loop, levels: Numbers) -> Tuple[Numbers, Numbers, Numbers]:
        """Those of one loop."""
        parts, cycles = self.numbers_of(loop), levelled(loop, levels)
        _, places = np.unique(parts, axis=1, return_inverse=True)
        places = places.ravel()
        order = np.lexsort((-np.abs(cycles), loop.pixels, places))
        last = order[np.diff(places[order], append=-1) != 0]  # of each three parts the cycles of most pixels, of several the least
        kept = last[(parts[:, last] >= 0).all(axis=0) & (loop.pixels[last] >= FEWEST)]
        return parts[:, kept], cycles[kept], loop.pixels[kept]

    def misclosed(self, levels: Numbers, numbers: Numbers) -> int:
        """How many pixels of loops do not close if pairs and parts are raised so, in parts or not."""
        raises = np.append(numbers, 0)  # the last place is that of no part
        return sum(
            int(loop.pixels[levelled(loop, levels) + (SIGNS * raises[self.numbers_of(loop)]).sum(axis=0) != 0].sum())
            for loop in self.loops
        )

    def pixels(self) -> int:
        """How many pixels of loops have a closure."""
        return sum(int(loop.pixels.sum()) for loop in self.loops)

    def moves(self, raised: Raised) -> List[Move]:
        """The parts that are raised, the largest first."""
        starts, sizes = self.starts(), np.concatenate(self.sizes)
        found = []
        for place in np.flatnonzero(raised.numbers).tolist():
            pair = int(np.searchsorted(starts, place, side="right")) - 1
            part = place - int(starts[pair]) + 1
            found.append(Move(pair, part, int(sizes[place]), int(raised.numbers[place]), bool(raised.doubted[place])))
        return sorted(found, key=lambda move: -move.pixels)

    def numbers_by_pair(self, numbers: Numbers) -> Iterator[Numbers]:
        """The numbers of each pair, with 0 for no part in front."""
        starts = self.starts()
        for first, end in zip(starts[:-1], starts[1:]):
            yield np.concatenate([[0], numbers[first:end]])


def commonest(loop: Loop) -> Tuple[int, int]:
    """The cycles at most pixels of a loop, of several the one nearest to 0, and the pixels that have them."""
    cycles, places = np.unique(loop.cycles, return_inverse=True)
    counts = np.bincount(places, loop.pixels, len(cycles)).astype(np.int64)
    best = np.lexsort((np.abs(cycles), -counts))[0]
    return int(cycles[best]), int(counts[best])


def levelled(loop: Loop, levels: Numbers) -> Numbers:
    """The cycles of a loop if its pairs are raised everywhere by these levels."""
    found: Numbers = loop.cycles + (SIGNS[:, 0] * levels[loop.pairs]).sum()
    return found
