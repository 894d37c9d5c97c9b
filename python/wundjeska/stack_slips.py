"""The sign that the ground slipped between two acquisitions of a stack, by the parts that its loops say to raise. NumPy alone.

Where the ground slips by cycles along a fault, no surface sees all of them, and many of the pairs across the slip are wrong alike. Loops
then say to raise the few that are right, and other numbers would do nearly as well: these parts are doubted. Errors of single pairs are
seldom doubted, and not all in one interval. So an interval between two acquisitions has the sign if a third of what is to be raised in
the pairs across it is doubted, and hardly anything else in the pairs that meet these in a loop. The limits were found on made stacks.
"""
from dataclasses import dataclass, replace
from typing import List, Sequence, Tuple

import numpy as np
import numpy.typing as npt

from .stack_cycles import Numbers, Raised
from .stack_loops import Stack

SHARE = 1 / 3  # of the raised pixels of the pairs across, which are doubted
ALL = 0.85  # of the doubted pixels nearby, which are of pairs across

Bools = npt.NDArray[np.bool_]


@dataclass(frozen=True)
class Slip:
    """Two acquisitions between which the ground may have slipped, the pixels to be raised in pairs across it, how many are doubted, and
    the pairs that are across or meet such a one in a loop: true in (pairs)."""

    first: str
    second: str
    pixels: int
    doubted: int
    near: Bools

    def told(self) -> str:
        return (
            f"the ground may have slipped between {self.first} and {self.second}: {self.doubted} of {self.pixels} pixels to be raised "
            "in pairs across are doubted"
        )


def slips_of(stack: Stack, dates: Sequence[Tuple[str, str]], raised: Raised) -> List[Slip]:
    """The intervals that have the sign, the one of most doubted pixels first; `dates` are the acquisitions of each pair."""
    sizes = np.concatenate(stack.sizes)
    pixels, doubted = (by_pair(stack, np.where(chosen, sizes, 0)) for chosen in (raised.numbers != 0, raised.doubted))
    found: List[Slip] = []
    left = np.ones(len(dates), dtype=bool)
    names = sorted({date for pair in dates for date in pair})
    spans = [np.array([min(pair) <= first and second <= max(pair) for pair in dates]) for first, second in zip(names, names[1:])]
    for place in sorted(range(len(spans)), key=lambda place: -int(doubted[spans[place]].sum())):
        across = spans[place] & left
        near = near_of(stack, across) & left
        own = int(doubted[across].sum())
        if own and own >= SHARE * pixels[across].sum() and own >= ALL * doubted[near].sum():
            found.append(Slip(names[place], names[place + 1], int(pixels[across].sum()), own, near))
            left &= ~near
    return found


def by_pair(stack: Stack, values: Numbers) -> Numbers:
    """The sum over the parts of each pair."""
    owner = np.repeat(np.arange(len(stack.sizes)), [len(sizes) for sizes in stack.sizes])
    found: Numbers = np.bincount(owner, values, len(stack.sizes)).astype(np.int64)
    return found


def near_of(stack: Stack, across: Bools) -> Bools:
    """True for these pairs and those that meet one of them in a loop."""
    near = across.copy()
    for loop in stack.loops:
        if across[loop.pairs].any():
            near[loop.pairs] = True
    return near


def without(stack: Stack, raised: Raised, slips: Sequence[Slip]) -> Raised:
    """What is raised if no part near a slip is."""
    counts = [len(sizes) for sizes in stack.sizes]
    stays = np.repeat(np.any([slip.near for slip in slips], axis=0), counts) if slips else np.zeros(sum(counts), dtype=bool)
    return replace(raised, numbers=np.where(stays, 0, raised.numbers), doubted=raised.doubted & ~stays)
