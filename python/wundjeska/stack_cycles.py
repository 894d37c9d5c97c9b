"""One whole number for each certain part of a stack, by the loops of its pairs. NumPy and SciPy.

A certain part is known up to one whole number of cycles. Where the parts of three surfaces 12, 23 and 13 meet, their closure has so
many cycles, and closes if the numbers by which the three are raised make up for these: first + second - third + cycles is 0. That
is an equation, which weighs as many pixels as it closes. Each pair has a level, too, by which it is raised everywhere. Wanted are
the numbers and levels of the least cost: the pixels of equations that are left open, for each cycle between the number of a part
and the level of its pair a share of the part's pixels, CHANGE, and for each cycle of a level LEVEL. They are found for each group
of parts that meet, by mixed integer linear programming (SciPy's HiGHS). No number is greater than the most cycles of an equation of
its group: that bounds the search. The level of a pair belongs to the group that has its largest part.

If all equations of a group are closed as they are, raising nothing costs nothing, so such groups are left out and nothing is lost.

Loops do not see everything: a constant of an acquisition leaves them as they are. So a number is doubted if with another one for its
part the least cost is nearly the same. No proof or certificate says that other numbers are right.
"""
import multiprocessing
import time
from dataclasses import dataclass
from typing import Any, Iterator, Optional, Tuple

import numpy as np
import numpy.typing as npt

from .components import connect
from .trouble import FILE_FAULT, Trouble

Numbers = npt.NDArray[np.int64]

SIGNS = np.array([[1], [1], [-1]])  # of the three surfaces in a closure
CHANGE = 0.02  # what a cycle of a raised pixel costs, as a share of a pixel that is left open
LEVEL = 1.0  # what a cycle of a level costs, in pixels
ALIKE = 0.95  # of what raising a part costs: a number is doubted if another one costs less than this more than the least
SECONDS = 60.0  # for a group, if nothing else is said
SOLVED, NONE = 0, 2  # what SciPy says: found, and that there is none
LATE = (1, None)  # and that the time is over
LONGER, GRACE = 1.5, 2.0  # times as long, and seconds more, that a search may take before it is ended


@dataclass(frozen=True)
class Equations:
    """What loops say of parts, which are numbered from 0 through the whole stack.

    parts   int64, (3, equations): the part of the first, the second and the third surface
    cycles  int64, (equations): in their closure
    pixels  int64, (equations): that have these parts and these cycles
    sizes   int64, (parts): the pixels of each part
    pairs   int64, (parts): the pair of each part, from 0, or -1 for one that has no level
    """

    parts: Numbers
    cycles: Numbers
    pixels: Numbers
    sizes: Numbers
    pairs: Numbers

    def left(self, numbers: Numbers) -> Numbers:
        """The cycles of each closure if parts are raised by these numbers."""
        found: Numbers = self.cycles + (SIGNS * numbers[self.parts]).sum(axis=0)
        return found

    def cost(self, numbers: Numbers, levels: Numbers) -> float:
        """What these numbers cost, in pixels, if the pairs have these levels."""
        changed = np.abs(numbers - at_level(levels, self.pairs))
        left = self.pixels[self.left(numbers) != 0].sum()
        return float(left + CHANGE * (self.sizes * changed).sum() + LEVEL * np.abs(levels).sum())

    def groups(self) -> Iterator["Group"]:
        """The groups of parts that meet and of which an equation is open."""
        first = connect(len(self.sizes), *self.parts[[0, 0, 1, 2]].reshape(2, -1))
        owner = first[self.parts[0]]
        for name in np.unique(owner[self.cycles != 0]):
            own = owner == name
            parts, places = np.unique(self.parts[:, own], return_inverse=True)
            pairs, levels = self.pairs_with(parts)
            yield Group(parts, pairs, Equations(places.reshape(3, -1), self.cycles[own], self.pixels[own], self.sizes[parts], levels))

    def pairs_with(self, parts: Numbers) -> Tuple[Numbers, Numbers]:
        """The pairs whose first part is among these, and the pair of each of these parts as its place there, -1 for others."""
        heads, firsts = np.unique(self.pairs, return_index=True)
        pairs = heads[(heads >= 0) & np.isin(firsts, parts)]
        own = self.pairs[parts]
        return pairs, np.where(np.isin(own, pairs), np.searchsorted(pairs, own), -1)


@dataclass(frozen=True)
class Group:
    """Parts that meet, the pairs whose largest part is one of them, and their equations, in which both are numbered from 0."""

    parts: Numbers
    pairs: Numbers
    equations: Equations


def at_level(levels: Numbers, pairs: Numbers) -> Numbers:
    """The level of each part's pair, 0 where it has none."""
    found: Numbers = np.append(levels, 0)[pairs]
    return found


@dataclass(frozen=True)
class Raised:
    """By how many cycles parts are raised.

    levels   int64, (pairs): by how many cycles each pair is raised everywhere
    numbers  int64, (parts): and each part besides
    doubted  bool, (parts): true where another number costs nearly as little
    late     how many groups were not solved in time: nothing of them is raised
    """

    levels: Numbers
    numbers: Numbers
    doubted: npt.NDArray[np.bool_]
    late: int


def solver() -> Any:
    """SciPy's module of optimization. Trouble if there is none, or one that is too old."""
    try:
        from scipy import optimize
    except ImportError as error:
        raise Trouble("numbers of a stack want SciPy, Debian's package python3-scipy", FILE_FAULT) from error
    if not hasattr(optimize, "milp"):
        raise Trouble("numbers of a stack want SciPy 1.9 or newer, which has `milp`", FILE_FAULT)
    return optimize


def rows_of(group: Equations, most: int) -> Tuple[Any, npt.NDArray[np.float64], npt.NDArray[np.float64]]:
    """What the search has to keep: a matrix of the columns of `costs_of`, and the bounds of its rows. An equation that is not left
    open has no cycles left; one that is may have as many as there can be. No number is greater than the most."""
    from scipy import sparse

    count, parts, levels = len(group.cycles), len(group.sizes), levels_in(group)
    places, kept = np.arange(count), np.flatnonzero(group.pairs >= 0)
    signs = np.broadcast_to(SIGNS, (3, count)).ravel()
    meet = sparse.csr_matrix((signs, (np.tile(places, 3), group.parts.ravel())), (count, parts))
    belong = sparse.csr_matrix((np.ones(len(kept)), (kept, group.pairs[kept])), (parts, levels))
    each = sparse.hstack([sparse.identity(parts), -sparse.identity(parts), belong, -belong])  # the number of each part
    slack = sparse.diags(3.0 * most + np.abs(group.cycles))
    none = sparse.csr_matrix((parts, count))
    matrix = sparse.vstack([sparse.hstack([meet @ each, slack]), sparse.hstack([meet @ each, -slack]), sparse.hstack([each, none])])
    free, ends = np.full(count, np.inf), np.full(parts, most)
    return matrix, np.concatenate([-group.cycles, -free, -ends]), np.concatenate([free, -group.cycles, ends])


def levels_in(group: Equations) -> int:
    """How many pairs have a level."""
    return int(group.pairs.max(initial=-1)) + 1


def most_of(group: Equations) -> int:
    """The greatest number of a part that is looked for."""
    return int(np.abs(group.cycles).max())


def costs_of(group: Equations) -> npt.NDArray[np.float64]:
    """What each column costs: the cycles up of each part and those down, those of each level, and equations that are open."""
    change, level = CHANGE * group.sizes, np.full(levels_in(group), LEVEL)
    return np.concatenate([change, change, level, level, group.pixels])


Answer = Tuple[int, Optional[npt.NDArray[np.float64]]]  # SciPy's status, and the columns if the search ended


def searched(group: Equations, seconds: float, *more: Any) -> Answer:
    """What SciPy says of the numbers of the least cost, with further constraints. HiGHS may go on after its time, so it runs in a
    process of its own, which is ended."""
    here, there = multiprocessing.Pipe(duplex=False)
    process = multiprocessing.Process(target=lambda: there.send(search(group, seconds, *more)), daemon=True)
    process.start()
    there.close()
    try:
        return here.recv() if here.poll(LONGER * max(seconds, 0.0) + GRACE) else LATE
    except EOFError:  # it was killed, as for want of memory
        return LATE
    finally:
        process.kill()
        process.join()


def search(group: Equations, seconds: float, *more: Any) -> Answer:
    """The same in this process, whose time HiGHS may not keep."""
    optimize, most, costs = solver(), most_of(group), costs_of(group)
    matrix, low, high = rows_of(group, most)
    highest = np.full(len(costs), 2.0 * most)
    highest[-len(group.cycles) :] = 1
    found = optimize.milp(
        costs,
        integrality=np.ones(len(costs)),
        bounds=optimize.Bounds(0, highest),
        constraints=[optimize.LinearConstraint(matrix, low, high), *more],
        options={"time_limit": max(seconds, 0.0), "mip_rel_gap": 0.0},
    )
    return found.status, found.x if found.status == SOLVED else None


def least(group: Equations, seconds: float) -> Optional[Tuple[Numbers, Numbers]]:
    """Numbers and levels of the least cost; None if the search did not end in time."""
    _, columns = searched(group, seconds)
    if columns is None:
        return None
    parts, levels = len(group.sizes), levels_in(group)
    ends = np.cumsum([parts, parts, levels, levels])
    up, down, higher, lower, _ = np.split(np.rint(columns).astype(np.int64), ends)
    return up - down + at_level(higher - lower, group.pairs), higher - lower


def is_doubted(group: Equations, found: Tuple[Numbers, Numbers], part: int, until: float) -> bool:
    """Whether another number for a part, less the level of its pair, costs nearly as little as what was found, or whether that was not
    known in time."""
    if time.monotonic() >= until:
        return True
    optimize, costs, (numbers, levels) = solver(), costs_of(group), found
    number = int(numbers[part] - at_level(levels, group.pairs)[part])
    enough = group.cost(numbers, levels) + ALIKE * CHANGE * group.sizes[part]
    cheap = optimize.LinearConstraint(costs.reshape(1, -1), -np.inf, enough)
    row = np.zeros((1, len(costs)))
    row[0, [part, len(numbers) + part]] = 1, -1
    others = [optimize.LinearConstraint(row, low, high) for low, high in ((-np.inf, number - 1), (number + 1, np.inf))]
    return any(searched(group, until - time.monotonic(), cheap, other)[0] != NONE for other in others)


def raised_of(equations: Equations, pairs: int, seconds: float = SECONDS, doubts: bool = True) -> Raised:
    """By how many cycles parts of so many pairs are raised at the least cost, with or without doubts. Each group has so many seconds."""
    solver()
    count, late = len(equations.sizes), 0
    numbers, doubted, levels = np.zeros(count, dtype=np.int64), np.zeros(count, dtype=bool), np.zeros(pairs, dtype=np.int64)
    for group in equations.groups():
        until = time.monotonic() + seconds
        found = least(group.equations, seconds)
        if found is None:
            late += 1
            continue
        numbers[group.parts], levels[group.pairs] = found
        changed = found[0] - at_level(found[1], group.equations.pairs)
        for part in np.flatnonzero(changed).tolist() if doubts else ():
            doubted[group.parts[part]] = is_doubted(group.equations, found, part, until)
    meets = np.bincount(equations.parts.ravel(), minlength=count) > 0  # the others stay at the level of their pair
    return Raised(levels, np.where(meets, numbers - at_level(levels, equations.pairs), 0), doubted, late)
