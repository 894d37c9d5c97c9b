"""Where a surface by a guide and the one without a filter are whole cycles apart, and whether the filter can tell which is right.

Let the guide take the other cycles throughout such a part. By the filtered weights that costs more along the part's edge, and f is
the extra cost over what so many cycles cost along all of the edge. Near 1 the other cut buys nothing, and the filter knows. Below
0.75 both choices want a cut of like length, and nobody knows.

There were 183 such parts on 75 made scenes. Of those with an f of 0.75 or more the filter alone was right at 156 and the surface
without one at 3, of those below at 1 and 11; but at faults along which coherence is lost the filter was right below, too. So it is
a warning, and no choice. What tells the two apart more often than not is whether the surface without a filter is torn where the guide
cuts a part off, too. NumPy alone.
"""
from dataclasses import dataclass
from typing import NamedTuple, Sequence, Tuple

import numpy as np
import numpy.typing as npt

from .components import pieces_of, sizes_of
from .concerns import Concern, both_open, wrapped_differences
from .filtering import sums_around
from .nearest import commonest
from .planes import CYCLE, Session

LEAST_PART = 500  # pixels
DECIDED = 0.75  # from which f on the filter knows
TORN = 0.1  # the share of a guide's cut from which on the surface without a filter tears there, too
MIDDLE = 2  # pixels around one, of which the median is taken
AT_ONCE = 65536  # medians


@dataclass(frozen=True)
class Part:
    """Pixels at which a surface by a guide is so many cycles above the one without a filter; f, the box of columns and rows, from
    the first to the last, and at which share of the edges where the guide cuts the part off the other surface departs as well."""

    pixels: int
    cycles: int
    share: float
    box: Tuple[int, int, int, int]
    torn: float = 0.0

    @property
    def is_decided(self) -> bool:
        return self.share >= DECIDED


class Undecided(NamedTuple):
    """Parts that a guide and no filter give other cycles, and nobody knows which are right.

    labels  uint32, (rows, columns): the number of each pixel's part, from 1 by falling size; 0 elsewhere
    f       of each part, float64, below 0.75: what the cycles without a filter cost more, over what they cost in all
    """

    labels: npt.NDArray[np.uint32]
    f: npt.NDArray[np.float64]


@dataclass(frozen=True)
class Apart:
    """All parts, the largest first, and the number of each pixel's, from 1 in this order; 0 elsewhere. uint32, (rows, columns)."""

    labels: npt.NDArray[np.uint32]
    parts: Tuple[Part, ...] = ()

    def undecided(self) -> Undecided:
        """Those of which nobody knows."""
        left = [not part.is_decided for part in self.parts]
        numbers = np.where([False, *left], np.cumsum([False, *left]), 0).astype(np.uint32)
        shares = [part.share for part in self.parts if not part.is_decided]
        return Undecided(numbers[self.labels], np.array(shares, dtype=np.float64))


def cycles_apart(guided: np.ndarray, plain: np.ndarray, opened: np.ndarray) -> np.ndarray:
    """By how many cycles two congruent surfaces differ, but for what each component has in common; 0 at masked pixels."""
    cycles = (np.where(opened, guided, 0) - np.where(opened, plain, 0)) // CYCLE
    pieces = pieces_of(opened)
    return np.where(opened, cycles - np.append(commonest(cycles, pieces), 0)[pieces], 0)


def medians(cycles: np.ndarray) -> np.ndarray:
    """The median of the pixels about each. It is taken where they are not all the same."""
    edges = np.zeros(cycles.shape, dtype=np.int32)
    edges[:, 1:] += np.diff(cycles, axis=1) != 0
    edges[1:] += np.diff(cycles, axis=0) != 0
    rows, columns = np.nonzero(sums_around(sums_around(edges, MIDDLE + 1).T, MIDDLE + 1).T)
    found = cycles.copy()
    for first in range(0, len(rows), AT_ONCE):
        row, column = rows[first : first + AT_ONCE], columns[first : first + AT_ONCE]
        found[row, column] = medians_at(cycles, row, column)
    return found


def medians_at(cycles: np.ndarray, rows: np.ndarray, columns: np.ndarray) -> np.ndarray:
    """The medians of the pixels about these; beyond the border stands what is there."""
    side = np.arange(-MIDDLE, MIDDLE + 1)
    near = np.clip(rows[:, None] + side, 0, cycles.shape[0] - 1)[:, :, None]
    beside = np.clip(columns[:, None] + side, 0, cycles.shape[1] - 1)[:, None, :]
    return np.median(cycles[near, beside].reshape(-1, len(side) ** 2), axis=1).astype(np.int64)


def labels_of(cycles: np.ndarray) -> np.ndarray:
    """Parts of LEAST_PART pixels or more that have the same cycles, from 1; 0 elsewhere."""
    found = np.zeros(cycles.shape, dtype=np.int64)
    for number in np.unique(cycles[cycles != 0]):
        pieces = pieces_of(cycles == number)
        large = sizes_of(pieces) >= LEAST_PART
        numbers = np.where(large, np.cumsum(large) + found.max(), 0)
        found += np.append(numbers, 0)[pieces]
    return found


def ends_of(values: np.ndarray, axis: int) -> Tuple[np.ndarray, np.ndarray]:
    """What stands before and after each edge along an axis."""
    return (values[:, :-1], values[:, 1:]) if axis else (values[:-1], values[1:])


Costs = Tuple[
    np.ndarray, np.ndarray
]  # of each label: what other cycles cost more, and what they cost where nothing departs


def edge_costs(labels: np.ndarray, levels: np.ndarray, guide: np.ndarray, smooth: Session, axis: int) -> Costs:
    """The costs of edges along an axis, each of the part before it and of the part after it."""
    slope = (smooth.ramp or (0, 0))[1 - axis]
    jumps = (np.diff(guide, axis=axis) - wrapped_differences(smooth.phase, axis, slope)) // CYCLE
    before, after = ends_of(labels, axis)
    rim = both_open(smooth.opened, axis) & (before != after)
    jump, numbers = jumps[rim], (before[rim], after[rim])
    weight = np.minimum(*ends_of(smooth.weights, axis))[rim].astype(np.int64)
    more, whole = np.zeros(len(levels)), np.zeros(len(levels))
    for number, turn in zip(numbers, (1, -1)):
        level = levels[number]
        more += np.bincount(number, weight * (np.abs(jump + turn * level) - np.abs(jump)), len(levels))
        whole += np.bincount(number, weight * np.abs(level), len(levels))
    return more, whole


def torn_shares(labels: np.ndarray, guided: np.ndarray, plain: np.ndarray, smooth: Session) -> np.ndarray:
    """At which share of the edges where the guide cuts each part off the surface without a filter departs as well."""
    count, phase = int(labels.max()) + 1, guided.astype(np.uint16)
    cut, torn = np.zeros(count), np.zeros(count)
    for axis in (0, 1):
        steps = wrapped_differences(phase, axis, (smooth.ramp or (0, 0))[1 - axis])
        ours, theirs = (np.abs((np.diff(values, axis=axis) - steps) // CYCLE) for values in (guided, plain))
        ends = ends_of(labels, axis)
        cuts = both_open(smooth.opened, axis) & (ends[0] != ends[1]) & (ours > theirs)
        for numbers in ends:
            cut += np.bincount(numbers[cuts], minlength=count)
            torn += np.bincount(numbers[cuts], theirs[cuts] > 0, count)
    return torn / np.maximum(cut, 1)


def part_of(labels: np.ndarray, number: int, level: int, share: float, torn: float) -> Part:
    rows, columns = np.nonzero(labels == number)
    box = (int(columns.min()), int(rows.min()), int(columns.max()), int(rows.max()))
    return Part(len(rows), level, share, box, torn)


def parts_apart(guided: np.ndarray, plain: np.ndarray, guide: np.ndarray, smooth: Session) -> Apart:
    """The parts in which a surface by a guide and the one without a filter are whole cycles apart.

    `smooth` is the filtered session that the guide is of. Edges weigh by the lesser weight, whatever the rule.
    """
    cycles = medians(cycles_apart(guided, plain, smooth.opened)) * smooth.opened
    labels = labels_of(cycles)
    levels = np.zeros(labels.max() + 1, dtype=np.int64)
    levels[labels.ravel()] = cycles.ravel()
    levels[0] = 0
    values = np.where(smooth.opened, guide, 0)
    (more, whole), others = (edge_costs(labels, levels, values, smooth, axis) for axis in (0, 1))
    shares = np.where(whole + others[1] > 0, (more + others[0]) / np.maximum(whole + others[1], 1), 1)
    ours, theirs = (np.where(smooth.opened, surface, 0) for surface in (guided, plain))
    known = zip(levels.tolist(), shares.tolist(), torn_shares(labels, ours, theirs, smooth).tolist())
    parts = [part_of(labels, number, *each) for number, each in enumerate(known) if number > 0]
    return by_size(labels, parts)


def by_size(labels: np.ndarray, parts: Sequence[Part]) -> Apart:
    """Parts, which are numbered from 1, with the largest first."""
    order = sorted(range(len(parts)), key=lambda place: -parts[place].pixels)
    numbers = np.zeros(len(parts) + 1, dtype=np.uint32)
    numbers[[place + 1 for place in order]] = np.arange(1, len(parts) + 1)
    return Apart(numbers[labels], tuple(parts[place] for place in order))


def told(parts: Sequence[Part]) -> str:
    """The largest of some parts, and how many there are."""
    largest = parts[0]
    x0, y0, x1, y1 = largest.box
    count = f"{len(parts)} parts, the largest" if len(parts) > 1 else "a part"
    where = f"of {largest.pixels} pixels in columns {x0} to {x1}, rows {y0} to {y1}"
    cycles = f"{abs(largest.cycles)} cycle{'s' if abs(largest.cycles) > 1 else ''}"
    return f"{count} {where}, {cycles} {'lower' if largest.cycles > 0 else 'higher'} without the filter"


def count_of(undecided: Undecided) -> str:
    """How many undecided parts there are, and of how many pixels, in words."""
    return count_told(len(undecided.f), np.count_nonzero(undecided.labels))


def count_told(parts: int, pixels: int) -> str:
    """So many undecided parts of so many pixels, in words."""
    if not parts:
        return "nothing undecided"
    return f"{parts} undecided part{'s' if parts > 1 else ''} of {pixels} pixels"


def likelier(part: Part) -> str:
    """Which surface is right more often at such a part, in words."""
    if part.torn < TORN:
        return "nothing is torn where the guide cuts, so no filter is right more often"
    return "without the filter it is torn where the guide cuts, too, so the guide is right more often"


def undecided_concerns(parts: Sequence[Part]) -> Tuple[Concern, ...]:
    """What is to be said of such parts."""
    open_ones = [part for part in parts if not part.is_decided]
    decided = [part for part in parts if part.is_decided]
    found = []
    if open_ones:
        length = f"both want a cut of like length ({open_ones[0].share:.2f})"
        found.append(Concern("undecided", f"{told(open_ones)}: {length}; {likelier(open_ones[0])}"))
    if decided:
        found.append(Concern("decided", f"{told(decided)}: the filter knows ({decided[0].share:.2f})", False))
    return tuple(found)
